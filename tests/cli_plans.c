/* Runs cartheron check on the comparison's sites and plans, sound and damaged. The answer has to be the library's: a
 * refused site is told as another command tells it, a plan with its order and the planner's, and of a refused plan a
 * place has to be found. Where the layout breaks, the lines above have to keep it. Told another number than the
 * library's, the command has to say that it does not find the place.
 *   cli_plans [SEED [COUNT]]       seed 1 and 20,000 pairs of texts unless given
 *   cli_plans --json SEED COUNT    prints the sites and plans of those that pass, and what check prints of them as JSON
 */
#define _POSIX_C_SOURCE 200809L
#include "cli_runs.h"

#include "../cli/tell.h"

#include <inttypes.h>
#include <stdlib.h>
#include <string.h>

#define LEAST_SEEN 20
#define NOT_FOUND "  This command does not find the place.\n"

/* What checking answers for a site that reads, 0 for a plan; how often each was seen, and how often another site. */
static const int answers[] = {0, CARTHERON_NO_PLAN_TEXT, CARTHERON_NOT_PERMITTED, CARTHERON_WRONG_CLUSTER,
                              CARTHERON_OVERLAP, CARTHERON_LATE};
static uint64_t seen[CARTHERON_LATE + 1], refused_sites;

/* What the library says of so many bytes of the plan. */
static uint32_t library_on(size_t length)
{
    return cartheron_check(trial.site.bytes, trial.site.length, trial.plan.bytes, length);
}

/* The number behind a word, or -1 where the word is not there. */
static long number_behind(const char *printed, const char *word)
{
    const char *at = strstr(printed, word);

    return at == NULL ? -1 : strtol(at + strlen(word), NULL, 10);
}

/* The order of the planner's own plan. */
static long planned_order(void)
{
    struct printed planned = run(SHOW, 1, 0);
    long order = number_behind(planned.out, "\"beacon_order\": ");

    forget(&planned);
    return order;
}

/* A plan that passes: its order, and whether a larger one is possible, by words and as JSON. */
static void check_accepted(const struct printed *checked)
{
    struct printed json = run(CHECK, 1, 0);
    long order = number_behind(checked->out, "plan is a plan for site: order "), largest = planned_order();
    long possible = number_behind(checked->out, "\n  order ");
    bool none = strstr(checked->out, "\n  no larger order is possible\n") != NULL;

    check_that(checked->status == ANSWERED && checked->words_length == 0, "words for a plan that passes");
    check_that(order >= 0 && order <= largest, "a plan of a larger order than the planner's");
    check_that(none == (order == largest) && possible == (none ? -1 : largest), "another larger order");
    check_that(json.status == ANSWERED && number_behind(json.out, "\"beacon_order\": ") == order &&
                   number_behind(json.out, "\"largest_order\": ") == largest, "other orders as JSON");
    forget(&json);
}

/* A site that is refused: the same words as for a command that takes a site alone. */
static void check_site_refused(const struct printed *checked)
{
    struct printed alone = run(REWRITE, 0, 0);

    check_that(checked->status == REFUSED && checked->out_length == 0, "something printed for a refused site");
    check_that(alone.status == REFUSED && strcmp(alone.words, checked->words) == 0, "other words for a refused site");
    forget(&alone);
}

/* The layout breaks in a line, and with the lines above alone it does not. */
static void check_layout(uint32_t line)
{
    size_t start = cartheron_line_start(trial.plan.bytes, trial.plan.length, line);
    size_t end = start + cartheron_line_length(trial.plan.bytes, trial.plan.length, line);

    if (line == 0) {
        check_that(trial.plan.length == 0, "no line for a layout that breaks");
        return;
    }
    check_that(CARTHERON_NUMBER(library_on(end < trial.plan.length ? end + 1 : end)) == CARTHERON_NO_PLAN_TEXT,
               "a line told that keeps the layout");
    check_that(line == 1 || CARTHERON_NUMBER(library_on(start)) != CARTHERON_NO_PLAN_TEXT,
               "a line told behind the first that breaks the layout");
}

/* A caret under a character, and that one is no digit where the words say so. */
static void check_caret(const struct printed *checked, struct shown shown)
{
    static const char digits[] = "0123456789ABCDEF";
    size_t length = strcspn(shown.line, "\n");
    const char *no_digit = strstr(checked->words, " is no digit\n");
    const char *lower = strstr(checked->words, " is lower case\n");

    check_that(shown.column <= length, "a caret behind the line that is shown");
    if (no_digit != NULL || lower != NULL)
        check_that(shown.column < length && strchr(digits, shown.line[shown.column]) == NULL, "a caret under a digit");
}

/* The line of the plan that words begin with; 0 where they name none. */
static uint32_t line_named(const char *words)
{
    static const char name[] = "plan:";
    size_t length = strlen(name);

    return strncmp(words, name, length) == 0 ? (uint32_t)strtoul(words + length, NULL, 10) : 0;
}

/* A plan that is refused: its number, and a line with a caret where one is named. */
static void check_plan_refused(const struct printed *checked, uint32_t answer)
{
    uint32_t line = line_named(checked->words);
    struct shown shown = shown_in(checked->words);
    char head[64], at_line[16] = "";

    if (line != 0)
        snprintf(at_line, sizeof at_line, ":%" PRIu32, line);
    snprintf(head, sizeof head, "plan%s: refused (%d): ", at_line, (int)CARTHERON_NUMBER(answer));
    check_that(checked->status == REFUSED && checked->out_length == 0, "something printed for a refused plan");
    check_that(strncmp(checked->words, head, strlen(head)) == 0, "a refused plan with another number");
    check_that(strstr(checked->words, NOT_FOUND) == NULL, "a place that was not found");
    check_that(shown.there == (line != 0), "a caret where no line is named, or none where one is");
    check_printable(checked);
    if (shown.there)
        check_caret(checked, shown);
    if (CARTHERON_NUMBER(answer) == CARTHERON_NO_PLAN_TEXT)
        check_layout(line);
}

/* Tells the plan by another number than the library's: nothing is said but that number's sentence. */
static void check_other_number(uint32_t answer)
{
    uint32_t other = CARTHERON_NO_PLAN_TEXT + (uint32_t)(trial.number % 5);
    struct part site_block = block_of(&trial.site, trial.site.length);
    struct part plan_block = block_of(&trial.plan, trial.plan.length);
    char head[64], *told = NULL;
    size_t told_length;
    struct site site;
    FILE *words = open_memstream(&told, &told_length);

    if (words == NULL)
        exit(2);
    site_of_text(&site, site_block);
    tell_plan(words, paint_for(0), "plan", plan_block, &site, 65536 * other);
    fclose(words);
    snprintf(head, sizeof head, "plan: refused (%u): ", (unsigned)other);
    if (other != (uint32_t)CARTHERON_NUMBER(answer))
        check_that(strncmp(told, head, strlen(head)) == 0 && strcmp(strchr(told, '\n') + 1, NOT_FOUND) == 0,
                   "a place told for another number");
    free(told);
    free((void *)site_block.bytes);
    free((void *)plan_block.bytes);
}

/* Makes the texts of a case. Gives whether the site reads. */
static bool make(uint64_t number)
{
    struct reference_site site;
    struct dice dice = dice_of(trial.seed, number);

    trial.number = number;
    make_text(&dice, &trial.site);
    bool reads = reference_read(trial.site.bytes, trial.site.length, &site) == 0;
    make_plan(&dice, &trial.site, reads ? &site : NULL, &trial.plan);
    return reads;
}

/* Checks what is said of the texts of a case. */
static void check_case(uint64_t number)
{
    bool reads = make(number);
    uint32_t answer = library_on(trial.plan.length);
    struct printed checked = run(CHECK, 0, 0);

    if (!reads) {
        check_site_refused(&checked);
        refused_sites++;
    } else {
        if (answer == 0)
            check_accepted(&checked);
        else
            check_plan_refused(&checked, answer);
        check_other_number(answer);
        seen[CARTHERON_NUMBER(answer)]++;
    }
    forget(&checked);
}

/* Prints the texts of a case as JSON strings and the answer behind them, if the plan passes. */
static void print_json(uint64_t number)
{
    make(number);
    struct printed checked = run(CHECK, 1, 0);
    if (checked.status == ANSWERED) {
        print_string(&trial.site);
        print_string(&trial.plan);
        fputs(checked.out, stdout);
    }
    forget(&checked);
}

int main(int argc, char **argv)
{
    bool json = argc == 4 && strcmp(argv[1], "--json") == 0;

    trial.seed = argc > 1 ? strtoull(argv[json ? 2 : 1], NULL, 10) : 1;
    uint64_t count = argc > 2 ? strtoull(argv[json ? 3 : 2], NULL, 10) : 20000;
    for (uint64_t number = 0; number < count; number++) {
        if (json)
            print_json(number);
        else
            check_case(number);
    }
    if (json)
        return 0;
    for (size_t i = 0; i < sizeof answers / sizeof answers[0]; i++)
        if (seen[answers[i]] < LEAST_SEEN && count >= 2000) {
            printf("cli_plans: answer %d was seen %" PRIu64 " times\n", answers[i], seen[answers[i]]);
            return 1;
        }
    printf("cli_plans: the command agrees on %" PRIu64 " plans (seed %" PRIu64 "), %" PRIu64 " of them pass, and for "
           "%" PRIu64 " the site is refused\n", count, trial.seed, seen[0], refused_sites);
    return 0;
}
