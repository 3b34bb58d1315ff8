/* Where in a text a refusal lies, and what exactly is wrong there. The number comes from the library, for a site the
 * line and the place of a bad field too; where else a fault lies is worked out here, after docs/FORMATS.md. */
#ifndef CLI_FAULT_H
#define CLI_FAULT_H

#include "cartheron.h"
#include "model.h"

struct fault {
    uint32_t line_number; /* 0 where no line is at fault */
    struct part line;
    int missing;          /* the line is not there: the text ends before it */
    int whole;            /* the words say all, and need no general sentence before them */
    size_t column;        /* the character at fault, or the place behind the line where one is missing */
    char words[240];      /* empty where no more is known than number and line; then there is no column either */
};

/* The fault of the line for which a site text was refused. */
void find_fault(struct fault *fault, enum cartheron_refusal number, struct part text, uint32_t line_number);

/* Finds for which of 20 to 24 a plan text is refused, and its fault: the first of that number in the text. Gives that
 * number, or 0 for a plan. The plan is filled as far as it was read: up to the fault, from 23 on with all clusters. */
int find_plan_fault(struct fault *fault, struct plan *plan, const struct site *site, struct part text);

/* The part of a text that is shown for a line. */
struct part line_of(struct part text, uint32_t line_number);

#endif
