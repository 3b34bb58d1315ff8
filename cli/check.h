/* A plan from anywhere, checked for a site. */
#ifndef CLI_CHECK_H
#define CLI_CHECK_H

#include "answer.h"

/* Checks a plan text for a site text and prints what is to know of the plan, or tells why one of the two is refused. */
enum status check(FILE *out, FILE *words, const struct request *request);

/* Leaves that part of a plan text for a site text which decides alone, whatever follows in the plan behind the part
 * that was read: a whole line that breaks the layout, or one that is longer than a line can be. Returns 0, or -1 where
 * the answer rests on what follows. */
int cut_plan(struct part site, struct part *plan);

#endif
