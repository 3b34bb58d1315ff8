/* From texts to what a command prints, without files. */
#ifndef CLI_ANSWER_H
#define CLI_ANSWER_H

#include "arguments.h"
#include "digits.h"

#include <stdio.h>

enum status { ANSWERED = 0, REFUSED = 1, FAILED = 2 };

/* A site text, what it is called in words, and what is wanted of it; to check it takes a plan text too. */
struct request {
    enum command command;
    int json;
    int colour_out, colour_words;
    const char *name, *plan_name;
    struct part text, plan;
};

/* Prints what a command gives for its texts, or tells why one is refused; to the other file nothing is written.
 * FAILED where writing fails. */
enum status answer(FILE *out, FILE *words, const struct request *request);

#endif
