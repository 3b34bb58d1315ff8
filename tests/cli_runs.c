/* The command's functions run on seeded texts in memory. */
#define _POSIX_C_SOURCE 200809L
#include "cli_runs.h"

#include "../cli/files.h"

#include <inttypes.h>
#include <stdlib.h>
#include <string.h>

struct trial trial;

_Noreturn void give_up(const char *why)
{
    print_text(&trial.site);
    if (trial.plan.length > 0)
        print_text(&trial.plan);
    printf("text %" PRIu64 " of seed %" PRIu64 ": %s\n", trial.number, trial.seed, why);
    exit(1);
}

void check_that(bool holds, const char *why)
{
    if (!holds)
        give_up(why);
}

struct part block_of(const struct text *text, size_t most)
{
    size_t length = text->length < most ? text->length : most;
    uint8_t *block = malloc(length > 0 ? length : 1);

    if (block == NULL)
        exit(2);
    memcpy(block, text->bytes, length);
    return (struct part){block, length};
}

struct printed run(enum command command, int json, int colour)
{
    struct printed printed = {0};
    FILE *out = open_memstream(&printed.out, &printed.out_length);
    FILE *words = open_memstream(&printed.words, &printed.words_length);
    struct request request = {
        .command = command, .json = json, .colour_out = colour, .colour_words = colour, .name = "site",
        .plan_name = "plan", .text = block_of(&trial.site, MOST_READ), .plan = block_of(&trial.plan, MOST_PLAN_READ),
    };

    if (out == NULL || words == NULL)
        exit(2);
    printed.status = answer(out, words, &request);
    fclose(out);
    fclose(words);
    free((void *)request.text.bytes);
    free((void *)request.plan.bytes);
    return printed;
}

void forget(struct printed *printed)
{
    free(printed->out);
    free(printed->words);
}

void print_string(const struct text *text)
{
    putchar('"');
    for (size_t i = 0; i < text->length; i++)
        printf(text->bytes[i] == '\n' ? "\\n" : "%c", text->bytes[i]);
    puts("\"");
}

void check_printable(const struct printed *printed)
{
    for (size_t i = 0; i < printed->words_length; i++)
        check_that(printed->words[i] == '\n' || (printed->words[i] >= 0x20 && printed->words[i] < 0x7F),
                   "a byte in the words that is not printable");
    check_that(printed->words[printed->words_length - 1] == '\n', "words that do not end a line");
}

struct shown shown_in(const char *words)
{
    struct shown shown = {0};
    const char *line = strchr(words, '\n') + 1, *bar = line + strspn(line, " 0123456789");
    size_t margin = (size_t)(bar - line);

    if (*bar != '|')
        return shown;
    shown.line = bar + 1;
    const char *below = strchr(bar, '\n') + 1;
    if (strspn(below, " ") != margin || below[margin] != '|')
        return shown;
    shown.column = strspn(below + margin + 1, " ");
    shown.there = below[margin + 1 + shown.column] == '^';
    return shown;
}
