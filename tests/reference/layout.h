/* What the reader, the planner and the checker share of docs/FORMATS.md: the lengths of records, the refusals,
 * orders and what a deadline allows. */
#ifndef LAYOUT_H
#define LAYOUT_H

#include "reference.h"

#define HEADER_LENGTH 4
#define CLUSTER_LENGTH 4
#define FLOW_LENGTH 11
#define PLACE_LENGTH 11
#define PLAN_HEADER 0x81
#define PLAN_CLUSTER 0x82
#define LONGEST_TIME 1000000000u

/* In the order in which they are tested. */
enum refusal {
    NONE = 0,
    NOT_A_LINE = 1,
    WRONG_KIND = 2,
    WRONG_LENGTH = 3,
    BAD_HEADER = 10,
    BAD_ORDER = 11,
    BAD_TAG = 12,
    NO_CLUSTER = 13,
    BAD_TIME = 14,
    WRONG_PARENT = 5,
    TAG_USED = 6,
    NO_FIT = 7,
    NO_PLACING = 8,
    SHORT_ROOM = 9,
    NO_PLAN_TEXT = 20,
    NOT_PERMITTED = 21,
    WRONG_CLUSTER = 22,
    OVERLAP = 23,
    LATE = 24
};

/* The number that stands for a refusal at a line. */
static inline uint32_t refuse(enum refusal refusal, size_t line)
{
    return 65536u * (uint32_t)refusal + (uint32_t)line;
}

/* The length in symbols that belongs to an order. */
static inline uint32_t symbols(unsigned order)
{
    return REFERENCE_BASE << order;
}

/* The periods that a deadline allows a flow to cross at this interval. */
static inline int32_t allowed_crossings(uint32_t deadline, uint32_t interval)
{
    return deadline >= interval ? (int32_t)(deadline / interval) - 1 : 0;
}

#endif
