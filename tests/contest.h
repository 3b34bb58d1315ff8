/* One case of the differential test, and its comparison: the library, the plain C of tests/reference and that of
 * bench/plain.h have to give the same numbers, places and rooms. */
#ifndef CONTEST_H
#define CONTEST_H

#include "cartheron.h"
#include "generator.h"

#define GUARD 32
#define LONGEST_ROOM (CARTHERON_LONGEST_SITE + 64)
#define HIGHEST_REFUSAL 24

typedef uint32_t writer(const uint8_t *text, size_t text_len, uint8_t *room, size_t room_len);

/* A function of the library, and those of the reference and of the fast plain C that have to give the same. */
struct trio {
    const char *name;
    writer *product;
    writer *reference;
    writer *plain;
};

/* What a run has seen: the answers of the planner and of the checker, whose 0 is a yes. */
struct tally {
    uint64_t refusal[HIGHEST_REFUSAL + 1];
    uint64_t checked[HIGHEST_REFUSAL + 1];
    uint64_t planned;
    uint64_t brute;
    uint64_t tight;
    uint64_t exhausted;
};

/* One case: its text, a plan text, and the three rooms with guard bytes before and behind. */
struct contest {
    uint64_t seed;
    uint64_t number;
    struct dice dice;
    struct tally *tally;
    struct text text;
    struct text plan;
    uint8_t pattern[LONGEST_ROOM + 2 * GUARD];
    uint8_t product[LONGEST_ROOM + 2 * GUARD];
    uint8_t reference[LONGEST_ROOM + 2 * GUARD];
    uint8_t plain[LONGEST_ROOM + 2 * GUARD];
};

extern const struct trio plan;
extern const struct trio rewrite;

/* Prints an answer: a length, or a refusal and its line. */
void print_answer(const char *who, uint32_t answer);

/* Prints the text, what is wrong and the command that repeats the case. */
void report(const struct contest *contest, const char *words);

/* Reports what is wrong and ends the run. */
_Noreturn void give_up(const struct contest *contest, const char *words);

/* Puts bytes behind a text that would be read as more of it. */
void continue_text(struct dice *dice, struct text *text);

/* Counts a plan's answer by its refusal. */
void count_answer(struct tally *tally, uint32_t answer);

/* Runs the three functions on rooms of this length with the same pattern in and around them. Their numbers
 * and all bytes must agree, and those behind the answer must be as they were. Returns the answer. */
uint32_t compare(struct contest *contest, const struct trio *trio, size_t room_len);

/* Compares the place that the three give for the text, which has to be one exactly where the answer of rewriting
 * it is a refusal by 10 to 14. */
void compare_place(const struct contest *contest, uint32_t answer);

/* Compares the three with no room at all, and with no text where it is empty. */
void compare_null(struct contest *contest, const struct trio *trio);

/* Compares the three with rooms that are too short, just long enough and longer. For some small answers
 * these are all lengths up to one more than the answer. */
void compare_rooms(struct contest *contest, const struct trio *trio, uint32_t answer);

/* The checker has to say yes to the plan of this length that the library wrote into its room. */
void check_own_plan(const struct contest *contest, uint32_t length);

/* Makes a plan text, and compares what the three say of it with each other and with what a placing is. The order is
 * that of the site's own plan, or -1 where it has none: a plan that is accepted has no larger one. Returns the
 * answer. */
uint32_t compare_check(struct contest *contest, int order);

/* For a small site: all sequences of the clusters at all orders, set end to end, and plans of arbitrary starts. The
 * checker says yes exactly to the placings, and the largest order among them is that of the site's own plan. */
void exhaust_check(struct contest *contest, int order);

#endif
