/* Refusals in words. */
#ifndef CLI_TELL_H
#define CLI_TELL_H

#include "print.h"

/* Tells a refusal of a site text that goes by a name: "NAME:LINE: refused (N): ..." with the line and a caret
 * under the character at fault, or, for a site that reads and cannot be planned, with figures and advice. */
void tell(FILE *words, const struct paint *paint, const char *name, struct part text, uint32_t answer);

/* Tells a refusal of a plan text for a site in the same manner, with figures. The number is the library's. Where this
 * command would refuse the text by another one it says that it does not find the place. */
void tell_plan(FILE *words, const struct paint *paint, const char *name, struct part text, const struct site *site,
               uint32_t answer);

/* Prints a name that may hold anything: control characters as ?. */
void print_name(FILE *words, const char *name);

/* Figures and advice for a site that is refused by 7 and by 8. */
void advise_no_fit(FILE *words, const struct site *site);
void advise_no_placing(FILE *words, const struct site *site);

/* Says which flow has the shortest required period, where there is one. */
void print_shortest_period(FILE *words, const struct site *site);

#endif
