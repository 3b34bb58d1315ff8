/* What tables and words share: milliseconds, shares, and colours where they are wanted. */
#ifndef CLI_PRINT_H
#define CLI_PRINT_H

#include "model.h"

#include <stdio.h>

/* What is printed before and after a part that stands out; empty strings without colour. */
struct paint {
    const char *heading, *fault, *mark, *end;
};

/* The paint for a terminal, or for anything else. */
const struct paint *paint_for(int colour);

/* Prints symbols as milliseconds, right-aligned in so many columns. A symbol is 16 microseconds, so three
 * decimals are exact. */
void print_ms(FILE *out, uint32_t symbols, int columns);

/* Symbols as "N symbols = M ms", printed or as a string that lasts as long as the room for it. */
#define TIME_WORDS 80
void print_time(FILE *out, uint64_t symbols);
const char *time_words(char room[TIME_WORDS], uint64_t symbols);

/* Prints how much of an interval all clusters sleep: "N symbols = M ms, P % of the interval". */
void print_asleep(FILE *out, const struct site *site, uint32_t interval);

/* Prints the ends of a flow by their tags. */
void print_ends(FILE *out, const struct site *site, const struct flow *flow);

/* What is said of a flow whose deadline is shorter than the interval, in two lines; the second is to be indented. */
#define SHORT_DEADLINE_WORDS(indent) \
    "the rule allows no crossing and asks no more, and\n" indent \
    "values may take longer than the deadline, up to the interval\n"

#endif
