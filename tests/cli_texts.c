/* Runs the command's functions on the comparison's texts, sound and damaged. What plan and rewrite print has to
 * be what the library answers for the whole text, and a refusal has to be told with its number, its line and the
 * place of its field. Of a line that was taken no fault may be told, whatever number comes with it.
 *   cli_texts [SEED [COUNT [EVERY]]]    seed 1 and 20,000 texts unless given; other commands than plan and rewrite
 *                                       on each text, or on one of so many
 *   cli_texts --json SEED COUNT         prints the accepted texts and what show and site print of them as JSON
 */
#define _POSIX_C_SOURCE 200809L
#include "cli_runs.h"

#include "../cli/files.h"
#include "../cli/refusals.h"
#include "../cli/tell.h"

#include <inttypes.h>
#include <stdlib.h>
#include <string.h>

#define LEAST_SEEN 20
#define HIGHEST_REFUSAL CARTHERON_BAD_TIME

/* What planning may answer in a room that is long enough: 0 for a plan, else the number of a refusal. */
static const int answers[] = {
    0, CARTHERON_NOT_A_LINE, CARTHERON_WRONG_KIND, CARTHERON_WRONG_LENGTH, CARTHERON_BAD_HEADER, CARTHERON_BAD_ORDER,
    CARTHERON_BAD_TAG, CARTHERON_NO_CLUSTER, CARTHERON_BAD_TIME, CARTHERON_WRONG_PARENT, CARTHERON_TAG_USED,
    CARTHERON_NO_FIT, CARTHERON_NO_PLACING,
};

static const struct {
    enum command command;
    int json;
} prints[] = {{PLAN, 0}, {SHOW, 0}, {SHOW, 1}, {SITE, 0}, {SITE, 1}, {PICTURE, 0}, {REWRITE, 0}};

/* The caret of a line that is not one stands under its first character that is no digit, or behind the digits
 * that there are, or that there may be. */
static void check_digits(const uint8_t *line, size_t length, size_t column)
{
    static const char digits[] = "0123456789ABCDEF";

    for (size_t i = 0; i < column; i++)
        check_that(line[i] != '\0' && strchr(digits, line[i]) != NULL, "a character before the caret that is no digit");
    check_that(column == length || column == 136 || line[column] == '\0' || strchr(digits, line[column]) == NULL,
          "a digit above the caret");
}

/* Whether a refusal is for a field. */
static bool names_field(enum cartheron_refusal refusal)
{
    return refusal >= CARTHERON_BAD_HEADER && refusal <= CARTHERON_BAD_TIME;
}

/* A refusal for a field goes on with its line and its place, and the caret stands under the field's first digit. */
static void check_field(const char *told, uint32_t line, size_t column)
{
    char field[64];
    uint32_t place = cartheron_place(trial.site.bytes, trial.site.length);

    snprintf(field, sizeof field, "line %" PRIu32 ", byte %" PRIu32 ": ", line, place);
    check_that(strncmp(told, field, strlen(field)) == 0, "a bad field with another line or place");
    check_that(column == 2 * (size_t)place, "a caret that is not under the bad field");
}

/* A refusal begins with its line and number, and all of it is printable. One at a line that is there ends in
 * a caret that stands under the line or just behind it. */
static void check_words(const struct printed *printed, uint32_t answer)
{
    char head[64], at_line[16] = "";
    uint32_t line = CARTHERON_LINE(answer);
    size_t length = cartheron_line_length(trial.site.bytes, trial.site.length, line);
    struct shown shown = shown_in(printed->words);

    if (line != 0)
        snprintf(at_line, sizeof at_line, ":%" PRIu32, line);
    snprintf(head, sizeof head, "site%s: refused (%d): ", at_line, (int)CARTHERON_NUMBER(answer));
    check_that(strncmp(printed->words, head, strlen(head)) == 0, "a refusal with another number or line");
    check_printable(printed);
    bool there = line != 0 && !(CARTHERON_NUMBER(answer) == CARTHERON_WRONG_KIND && length == 0);
    check_that(shown.there == there, "a caret where no line is shown, or none where one is");
    if (!there)
        return;
    check_that(shown.column <= length && shown.column <= 136, "a caret in another place");
    if (CARTHERON_NUMBER(answer) == CARTHERON_NOT_A_LINE)
        check_digits(trial.site.bytes + cartheron_line_start(trial.site.bytes, trial.site.length, line), length,
                     shown.column);
    if (names_field(CARTHERON_NUMBER(answer)))
        check_field(printed->words + strlen(head), line, shown.column);
}

/* Tells the last line that was taken as if it were refused, for a field or by a number that there is not. All that is
 * said has to be the sentence of that number, and the line without a caret. */
static void check_taken_line(uint32_t answer)
{
    static const uint32_t numbers[] = {4, 10, 11, 12, 13, 14, 15, 65535};
    uint32_t wrong = 65536 * numbers[trial.number % (sizeof numbers / sizeof numbers[0])];
    enum cartheron_refusal refusal = CARTHERON_NUMBER(wrong);
    const char *sentence = names_field(refusal) ? refusal_words(refusal) : "a refusal that this command does not know";
    uint32_t line = CARTHERON_REFUSED(answer) && CARTHERON_LINE(answer) != 0 ? CARTHERON_LINE(answer) - 1 : 1;
    char expected[400], *told = NULL;
    size_t told_length;

    if (line == 0)
        return;
    struct part block = block_of(&trial.site, MOST_READ);
    FILE *words = open_memstream(&told, &told_length);
    if (words == NULL)
        exit(2);
    tell(words, paint_for(0), "site", block, wrong + line);
    fclose(words);
    snprintf(expected, sizeof expected, "site:%" PRIu32 ": refused (%d): %s\n%4" PRIu32 "|%.*s\n", line, (int)refusal,
             sentence, line, (int)cartheron_line_length(block.bytes, block.length, line),
             (const char *)block.bytes + cartheron_line_start(block.bytes, block.length, line));
    check_that(strcmp(told, expected) == 0, "more told of a line that was taken than its number says");
    free(told);
    free((void *)block.bytes);
}

/* Whether a command prints what the library wrote. */
static bool prints_room(enum command command)
{
    return command == PLAN || command == REWRITE;
}

/* Checks what a command printed against the library's answer for the whole text. */
static void check_print(size_t print, uint32_t answer, const uint8_t *room)
{
    struct printed printed = run(prints[print].command, prints[print].json, 0);

    if (CARTHERON_REFUSED(answer)) {
        check_that(printed.status == REFUSED && printed.out_length == 0, "something printed for a refusal");
        check_words(&printed, answer);
    } else {
        check_that(printed.status == ANSWERED && printed.words_length == 0, "words for an answer");
        check_that(printed.out_length > 0, "an empty answer");
        if (prints_room(prints[print].command))
            check_that(printed.out_length == answer && memcmp(printed.out, room, answer) == 0, "another answer");
    }
    forget(&printed);
}

/* Checks the commands on the text, all of them or those that print what the library wrote. Returns what
 * planning it answers. */
static uint32_t check_text(bool all)
{
    uint8_t plan_room[CARTHERON_LONGEST_PLAN], site_room[CARTHERON_LONGEST_SITE];
    uint32_t plan = cartheron_plan(trial.site.bytes, trial.site.length, plan_room, sizeof plan_room);
    uint32_t site = cartheron_rewrite(trial.site.bytes, trial.site.length, site_room, sizeof site_room);

    for (size_t i = 0; i < sizeof prints / sizeof prints[0]; i++) {
        bool reads_only = prints[i].command == SITE || prints[i].command == REWRITE;
        if (all || prints_room(prints[i].command))
            check_print(i, reads_only ? site : plan, reads_only ? site_room : plan_room);
    }
    check_taken_line(plan);
    struct printed coloured = run(SHOW, 0, 1);
    check_that(coloured.status == (CARTHERON_REFUSED(plan) ? REFUSED : ANSWERED), "another status with colour");
    forget(&coloured);
    return plan;
}

/* Prints the text as a JSON string, and the two answers behind it. */
static void print_json(void)
{
    struct printed show = run(SHOW, 1, 0), site = run(SITE, 1, 0);

    if (site.status == ANSWERED) {
        print_string(&trial.site);
        printf("%s%s", site.out, show.status == ANSWERED ? show.out : "null\n");
    }
    forget(&show);
    forget(&site);
}

static void make(uint64_t next)
{
    trial.number = next;
    struct dice dice = dice_of(trial.seed, next);
    make_text(&dice, &trial.site);
}

/* Counts an answer by its number: a length is below 65,536. */
static void count_answer(uint64_t seen[HIGHEST_REFUSAL + 1], uint32_t answer)
{
    check_that(answer >> 16 <= HIGHEST_REFUSAL, "a refusal that there is not");
    seen[answer >> 16]++;
}

int main(int argc, char **argv)
{
    uint64_t seen[HIGHEST_REFUSAL + 1] = {0};
    bool json = argc == 4 && strcmp(argv[1], "--json") == 0;

    trial.seed = argc > 1 ? strtoull(argv[json ? 2 : 1], NULL, 10) : 1;
    uint64_t count = argc > 2 ? strtoull(argv[json ? 3 : 2], NULL, 10) : 20000;
    uint64_t every = argc > 3 && !json ? strtoull(argv[3], NULL, 10) : 1;
    for (uint64_t next = 0; next < count; next++) {
        make(next);
        if (json)
            print_json();
        else
            count_answer(seen, check_text(next % every == 0));
    }
    if (json)
        return 0;
    for (size_t i = 0; i < sizeof answers / sizeof answers[0]; i++)
        if (seen[answers[i]] < LEAST_SEEN && count >= 20000) {
            printf("cli_texts: answer %d was seen %" PRIu64 " times\n", answers[i], seen[answers[i]]);
            return 1;
        }
    printf("cli_texts: the command agrees on %" PRIu64 " texts (seed %" PRIu64 "), %" PRIu64 " of them planned\n",
           count, trial.seed, seen[0]);
    return 0;
}
