/* docs/FORMATS.md in plain C, written for speed: what bench/run times the library against.
 *
 * plain_plan, plain_rewrite, plain_place and plain_check have the contract of cartheron_plan, cartheron_rewrite,
 * cartheron_place and cartheron_check in cartheron.h: any text, any room, any plan, the same number and the same
 * bytes. It shares no code with the library or tests/reference.
 */
#ifndef PLAIN_H
#define PLAIN_H

#include <stddef.h>
#include <stdint.h>

enum { MOST_CLUSTERS = 64, MOST_FLOWS = 128, LARGEST_ORDER = 14, BASE = 960 };

enum { NOT_A_LINE = 1, WRONG_KIND = 2, WRONG_LENGTH = 3, WRONG_PARENT = 5, TAG_USED = 6, NO_FIT = 7, NO_PLACING = 8,
       SHORT_ROOM = 9, BAD_HEADER = 10, BAD_ORDER = 11, BAD_TAG = 12, NO_CLUSTER = 13, BAD_TIME = 14,
       NO_PLAN_TEXT = 20, NOT_PERMITTED = 21, WRONG_CLUSTER = 22, OVERLAP = 23, LATE = 24 };

enum { NO_PLACE = 255 };

/* What is kept of a site. Tags are not: an accepted text has their digits, at 8 behind the start of a
 * cluster's line. Portions and times are also kept in units of 960 symbols. */
struct plain_site {
    unsigned clusters, flows;
    uint32_t units;               /* the sum of the portions */
    uint32_t shortest;            /* the shortest required period, in units; of no flows the longest there is */
    size_t tag_bytes;             /* the sum of the tag lengths */
    uint16_t line[MOST_CLUSTERS]; /* where each cluster's line begins in the text */
    uint8_t parent[MOST_CLUSTERS]; /* of the root 0 */
    uint8_t order[MOST_CLUSTERS];
    uint8_t tag_length[MOST_CLUSTERS];
    uint8_t source[MOST_FLOWS], sink[MOST_FLOWS];
    uint32_t deadline[MOST_FLOWS]; /* in whole units, rounded down */
    uint8_t place;                 /* of a refused text alone: the first bad field's, or NO_PLACE */
};

/* The number that stands for a refusal at a line. */
static inline uint32_t plain_refuse(unsigned refusal, size_t line)
{
    return (uint32_t)(65536 * refusal + line);
}

/* The lowest and the highest number in a set that has one. */
static inline unsigned lowest(uint64_t set)
{
    return (unsigned)__builtin_ctzll(set);
}

static inline unsigned highest(uint64_t set)
{
    return 63u - (unsigned)__builtin_clzll(set);
}

/* The periods that a deadline in whole units allows a flow to cross at an order. */
static inline uint32_t allowed_at(uint32_t deadline, unsigned order)
{
    uint32_t intervals = deadline >> order;

    return intervals > 0 ? intervals - 1 : 0;
}

/* How far down the sink of a flow is from the top of its path, by the depths and the ancestors of its two ends, each
 * among its own. A parent has a lower number than its children, so of the ancestors that two clusters share the
 * lowest in the tree is the one with the highest number. */
static inline int steps_down(const int8_t *depth, const uint64_t *above, unsigned source, unsigned sink)
{
    return depth[sink] - depth[highest(above[source] & above[sink])];
}

/* Reads a site. Returns 0, or the refusal; of the site only the place is then of use. */
uint32_t plain_read(const uint8_t *text, size_t text_len, struct plain_site *site);

/* Finds the largest order that has a placing, and N of each cluster at it. Returns 0 or the refusal. */
uint32_t plain_search(const struct plain_site *site, unsigned *order, int8_t *n);

/* Plans a site and writes the plan text; reads a site and writes it back. */
uint32_t plain_plan(const uint8_t *text, size_t text_len, uint8_t *room, size_t room_len);
uint32_t plain_rewrite(const uint8_t *text, size_t text_len, uint8_t *room, size_t room_len);

/* Whether a text is a plan for a site: 0, or the refusal. */
uint32_t plain_check(const uint8_t *text, size_t text_len, const uint8_t *plan, size_t plan_len);

/* The place of the first bad field of a text that reading refuses by 10 to 14, else NO_PLACE. */
uint32_t plain_place(const uint8_t *text, size_t text_len);

#endif
