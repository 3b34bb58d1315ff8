/* Seeded site texts and plan texts, sound and damaged, for the differential test. The same seed and case number
 * give the same texts on every machine.
 */
#ifndef GENERATOR_H
#define GENERATOR_H

#include "reference/reference.h"

#include <stdbool.h>

#define TEXT_CAPACITY 80000
#define DRAFT_LINES 200
#define DRAFT_BYTES 270

struct dice {
    uint64_t state;
};

struct text {
    size_t length;
    uint8_t bytes[TEXT_CAPACITY];
};

/* A record before it becomes a line of text. */
struct draft_line {
    size_t length;
    uint8_t bytes[DRAFT_BYTES];
};

struct draft {
    size_t lines;
    size_t clusters;
    size_t flows;
    struct draft_line line[DRAFT_LINES];
};

/* Dice that belong to one case of one seed. */
struct dice dice_of(uint64_t seed, uint64_t number);

/* The next 64 bits. No expression may roll twice, or the text depends on the compiler. */
uint64_t roll(struct dice *dice);

/* A number from 0 to bound - 1; bound is at least 1. */
size_t below(struct dice *dice, size_t bound);

/* True once in so many times. */
bool once_in(struct dice *dice, size_t times);

/* A place among so many: the first, the last or any; count is at least 1. */
size_t pick(struct dice *dice, size_t count);

/* One of so many values. */
uint8_t one_of(struct dice *dice, const uint8_t *values, size_t count);

/* Puts a number of four bytes into a record, the high byte first. */
void put_number(struct draft_line *line, size_t place, uint32_t number);

/* A line too many in the records: a copy of another one, or of any bytes, at the end or at any place. */
void add_line(struct dice *dice, struct draft *draft);

/* A line missing in the records, or all from some line on; one line is kept so that others can be damaged. */
void drop_line(struct dice *dice, struct draft *draft);

/* The text of records. */
void write_draft(const struct draft *draft, struct text *text);

/* Bytes of any kind, or digits and LFs. */
void make_noise(struct dice *dice, struct text *text);

/* Makes the records of a site; they are sound, but for now and then a tag that is used twice. */
void make_site(struct dice *dice, struct reference_site *site);

/* Makes the text of a case: a sound site, a damaged one or no site at all. */
void make_text(struct dice *dice, struct text *text);

/* Writes the plan text of an order and the start of each cluster. */
void write_plan(const struct reference_site *site, unsigned order, const uint32_t *starts, struct text *plan);

/* Makes a plan text for the site that was read from a text: the planner's own, one of another tool, a damaged one, one
 * of another site, or no plan at all. A text that is refused has NULL for its site, and gets one of the last two. */
void make_plan(struct dice *dice, const struct text *text, const struct reference_site *site, struct text *plan);

/* Prints a text, a line break behind each LF and odd bytes as hex escapes. */
void print_text(const struct text *text);

/* Does one damage to the records of a site. */
void damage_draft(struct dice *dice, struct draft *draft);

/* Does one damage to the records of a plan for a site. */
void damage_plan(struct dice *dice, const struct reference_site *site, struct draft *draft);

/* Does one damage to a site's text or to a plan's. */
void damage_text(struct dice *dice, struct text *text);

#endif
