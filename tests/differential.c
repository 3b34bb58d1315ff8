/* Compares the library with the plain C of tests/reference and with that of bench/plain.h on seeded site
 * texts and plan texts, sound and damaged, and what it plans and accepts with the brute force. tests/differential.sh
 * builds and runs it:
 *   differential [SEED [COUNT]]      seed 1 and 200,000 cases unless given
 *   differential --case SEED NUMBER  that case alone, with its text
 */
#include "contest.h"
#include "reference/brute.h"
#include "reference/plan_text.h"

#include <inttypes.h>
#include <stdio.h>
#include <stdlib.h>
#include <string.h>

#define DEFAULT_SEED 1
#define DEFAULT_COUNT 200000
/* From so many cases on each refusal has to be seen so many times. */
#define ENOUGH 40000
#define LEAST_SEEN 100

/* The refusals in the order in which they are tested. */
static const enum cartheron_refusal refusals[] = {
    CARTHERON_NOT_A_LINE, CARTHERON_WRONG_KIND, CARTHERON_WRONG_LENGTH,
    CARTHERON_BAD_HEADER, CARTHERON_BAD_ORDER, CARTHERON_BAD_TAG, CARTHERON_NO_CLUSTER, CARTHERON_BAD_TIME,
    CARTHERON_WRONG_PARENT, CARTHERON_TAG_USED,
    CARTHERON_NO_FIT, CARTHERON_NO_PLACING, CARTHERON_SHORT_ROOM,
};

/* Those that the checker alone gives. */
static const enum cartheron_refusal check_refusals[] = {
    CARTHERON_NO_PLAN_TEXT, CARTHERON_NOT_PERMITTED, CARTHERON_WRONG_CLUSTER, CARTHERON_OVERLAP, CARTHERON_LATE,
};

/* The number of lines in a text; a last one that no LF ends counts. */
static size_t count_lines(const struct text *text)
{
    size_t lines = text->length > 0 && text->bytes[text->length - 1] != '\n';

    for (size_t i = 0; i < text->length; i++)
        lines += text->bytes[i] == '\n';
    return lines;
}

/* Compares the part of the text shown for a line. */
static void compare_line(const struct contest *contest, size_t line)
{
    const uint8_t *text = contest->text.length > 0 ? contest->text.bytes : NULL;
    size_t text_len = contest->text.length;
    size_t start = cartheron_line_start(text, text_len, line);
    size_t length = cartheron_line_length(text, text_len, line);
    size_t right_start = reference_line_start(text, text_len, line);
    size_t right_length = reference_line_length(text, text_len, line);

    if (start != right_start || length != right_length) {
        report(contest, "the parts shown for a line are not the same");
        printf("line %zu\nlibrary  : %zu bytes from %zu\n", line, length, start);
        printf("reference: %zu bytes from %zu\n", right_length, right_start);
        exit(1);
    }
}

/* Compares the parts shown for the refused line and for lines at all edges. */
static void compare_lines(struct contest *contest, uint32_t answer)
{
    size_t last = count_lines(&contest->text);
    size_t refused = CARTHERON_REFUSED(answer) ? CARTHERON_LINE(answer) : below(&contest->dice, last + 1);
    size_t huge = (size_t)1 << 16 << below(&contest->dice, sizeof(size_t) * 8 - 16);
    const size_t lines[] = {0,        1,        2,    refused,        refused + 1,            last,
                            last + 1, last + 2, huge, huge + 1,       (size_t)UINT32_MAX + 1, SIZE_MAX};

    for (size_t i = 0; i < sizeof lines / sizeof lines[0]; i++)
        compare_line(contest, lines[i]);
}

/* Whether a longer beacon order than this one is permitted and fits. */
static bool is_tight(const struct reference_site *site, int order)
{
    while (++order <= REFERENCE_LARGEST_ORDER)
        if (brute_permitted(site, order) && brute_fits(site, order))
            return true;
    return false;
}

/* Checks the plan in the library's room: its starts have to be a placing at a permitted order, and the checker has to
 * say yes. Returns the beacon order. */
static int check_plan(struct contest *contest, const struct reference_site *site, uint32_t length)
{
    uint32_t starts[REFERENCE_CLUSTERS];
    int order;

    if (!plan_text_read(contest->product + GUARD, length, site, &order, starts))
        give_up(contest, "the plan text is not one of this site");
    if (!brute_permitted(site, order))
        give_up(contest, "the plan's beacon order is not permitted");
    if (!brute_is_placing(site, order, starts))
        give_up(contest, "the plan's starts are not a placing");
    check_own_plan(contest, length);
    contest->tally->tight += is_tight(site, order);
    return order;
}

/* Checks the answer for a site that was read against what a placing is: the plan that was written, and for
 * small sites also that the order is the longest or that the refusal is due. Returns the plan's beacon order, or -1. */
static int check_placing(struct contest *contest, uint32_t answer)
{
    struct reference_site site;
    int refusal = (int)(answer >> 16);

    if (reference_read(contest->text.bytes, contest->text.length, &site) != 0)
        return -1;
    int order = refusal == 0 ? check_plan(contest, &site, answer) : -1;
    if (site.clusters > BRUTE_CLUSTERS)
        return order;
    struct brute_answer brute = brute_order(&site);
    contest->tally->brute++;
    if (brute.refusal != refusal || brute.order != order) {
        report(contest, "the brute force says otherwise");
        printf("brute force: refusal %d, beacon order %d\n", brute.refusal, brute.order);
        printf("answers    : refusal %d, beacon order %d\n", refusal, order);
        exit(1);
    }
    return order;
}

/* Puts bytes behind the text that would be read as more of it, and a pattern for the rooms. */
static void prepare(struct contest *contest)
{
    uint64_t bits = roll(&contest->dice);

    continue_text(&contest->dice, &contest->text);
    for (size_t i = 0; i < sizeof contest->pattern; i++)
        contest->pattern[i] = (uint8_t)(bits >> i % 57) ^ (uint8_t)i;
}

/* Runs one case and returns the planner's answer; the checker's goes to *checked. */
static uint32_t run_case(struct contest *contest, uint64_t number, uint32_t *checked)
{
    contest->number = number;
    contest->dice = dice_of(contest->seed, number);
    make_text(&contest->dice, &contest->text);
    prepare(contest);
    uint32_t answer = compare(contest, &plan, LONGEST_ROOM - below(&contest->dice, 64));
    count_answer(contest->tally, answer);
    int order = check_placing(contest, answer);
    compare_rooms(contest, &plan, answer);
    compare_null(contest, &plan);
    uint32_t rewritten = compare(contest, &rewrite, LONGEST_ROOM);
    compare_place(contest, rewritten);
    compare_rooms(contest, &rewrite, rewritten);
    compare_null(contest, &rewrite);
    compare_lines(contest, answer);
    *checked = compare_check(contest, order);
    exhaust_check(contest, order);
    return answer;
}

/* Prints what a run has seen. False if it is too little to say something. */
static bool print_tally(const struct tally *tally)
{
    bool enough = tally->tight >= LEAST_SEEN && tally->checked[0] >= LEAST_SEEN && tally->exhausted >= LEAST_SEEN;

    for (size_t i = 0; i < sizeof refusals / sizeof refusals[0]; i++) {
        uint64_t seen = tally->refusal[refusals[i]];
        printf("refusal %d seen %" PRIu64 " times\n", (int)refusals[i], seen);
        enough = enough && seen >= LEAST_SEEN;
    }
    for (size_t i = 0; i < sizeof check_refusals / sizeof check_refusals[0]; i++) {
        uint64_t seen = tally->checked[check_refusals[i]];
        printf("refusal %d of a plan seen %" PRIu64 " times\n", (int)check_refusals[i], seen);
        enough = enough && seen >= LEAST_SEEN;
    }
    printf("%" PRIu64 " plans accepted, %" PRIu64 " sites checked in all their sequences\n", tally->checked[0],
           tally->exhausted);
    printf("%" PRIu64 " planned, %" PRIu64 " of these at a lower order than the largest that fits\n",
           tally->planned, tally->tight);
    printf("%" PRIu64 " compared with the brute force\n", tally->brute);
    return enough;
}

/* The number in an argument; anything else ends the run. */
static uint64_t number_in(const char *argument)
{
    char *end;
    uint64_t number = strtoull(argument, &end, 10);

    if (*argument < '0' || *argument > '9' || *end != '\0') {
        fprintf(stderr, "usage: differential [SEED [COUNT]] | differential --case SEED NUMBER\n");
        exit(2);
    }
    return number;
}

int main(int argc, char **argv)
{
    static struct contest contest;
    struct tally tally = {0};
    uint32_t checked;

    contest.tally = &tally;
    if (argc == 4 && strcmp(argv[1], "--case") == 0) {
        contest.seed = number_in(argv[2]);
        uint32_t answer = run_case(&contest, number_in(argv[3]), &checked);
        print_text(&contest.text);
        print_answer("all agree", answer);
        printf("the plan, a ");
        print_text(&contest.plan);
        print_answer("all agree", checked);
        return 0;
    }
    contest.seed = argc > 1 ? number_in(argv[1]) : DEFAULT_SEED;
    uint64_t count = argc > 2 ? number_in(argv[2]) : DEFAULT_COUNT;
    for (uint64_t number = 0; number < count; number++)
        run_case(&contest, number, &checked);
    if (!print_tally(&tally) && count >= ENOUGH) {
        printf("differential: a refusal, a yes or the search of orders was seen less than %d times\n", LEAST_SEEN);
        return 1;
    }
    printf("differential: %" PRIu64 " cases agree (seed %" PRIu64 ")\n", count, contest.seed);
    return 0;
}
