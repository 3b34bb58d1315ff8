/* The command's functions run on seeded texts in memory, for the tests that call them. */
#ifndef CLI_RUNS_H
#define CLI_RUNS_H

#include "../cli/answer.h"
#include "cartheron.h"
#include "generator.h"

/* What is tried now. */
struct trial {
    uint64_t seed, number;
    struct text site, plan; /* the plan is empty where none is asked for */
};
extern struct trial trial;

/* What a command printed, on standard output and on standard error, each ended by 0. */
struct printed {
    enum status status;
    char *out, *words;
    size_t out_length, words_length;
};

/* Runs a command on what it would read of the texts of the trial, which are called "site" and "plan". They stand in
 * heap blocks of just their length, so that a sanitizer sees what is read behind them. */
struct printed run(enum command command, int json, int colour);
void forget(struct printed *printed);

/* The same blocks, which the caller frees. */
struct part block_of(const struct text *text, size_t most);

/* Ends the program with the texts and what is wrong, or where something does not hold. */
_Noreturn void give_up(const char *why);
void check_that(bool holds, const char *why);

/* Prints a text of digits and LFs as a JSON string and a LF. */
void print_string(const struct text *text);

/* All words are printable and end a line. */
void check_printable(const struct printed *printed);

/* A line that is shown for a refusal, and its caret. */
struct shown {
    bool there;       /* there is a line with a caret */
    const char *line; /* as it is shown; ended by LF */
    size_t column;    /* of the caret in it */
};

/* The line that words show, and its caret. */
struct shown shown_in(const char *words);

#endif
