/* The checker: one pass over the plan. Each line is first taken for one of a cluster that has had none: its digits
 * behind the start have then to be those of the portion and of the site's text. Only a line that is not as it should
 * be is looked at again, for whether it keeps the layout. A flow's crossings are counted from its ends: no path is
 * walked. */
#include "plain.h"
#include "plain_digits.h"

#include <stdbool.h>
#include <string.h>

enum { HEADER_DIGITS = 8, TAG_LENGTH = 20, TAG = 22, SHORTEST_LINE = 25, PLAN_HEADER = 0x8101 };

/* What the lines of a plan say, where each is as it should be, one for each cluster and none before the one above. */
struct places {
    bool right;
    bool overlap;
    uint64_t end;                /* of the last portion */
    uint8_t turn[MOST_CLUSTERS]; /* the line of each cluster, counted from 0 */
};

/* The digits of the portion of each order. */
static const char portion[LARGEST_ORDER + 1][9] = {
    "000003C0", "00000780", "00000F00", "00001E00", "00003C00", "00007800", "0000F000", "0001E000",
    "0003C000", "00078000", "000F0000", "001E0000", "003C0000", "00780000", "00F00000",
};

/* 0 if eight bytes are the same. */
static inline uint64_t unlike(const void *a, const void *b)
{
    uint64_t one, other;

    memcpy(&one, a, 8);
    memcpy(&other, b, 8);
    return one ^ other;
}

/* Whether so many bytes, five or more, are the same, in pieces of which the last overlaps the one before it. */
static inline bool same(const uint8_t *a, const uint8_t *b, size_t length)
{
    uint64_t any = 0;

    if (length < 8)
        return memcmp(a, b, 4) == 0 && memcmp(a + length - 4, b + length - 4, 4) == 0;
    for (size_t at = 0; at < length - 8; at += 8)
        any |= unlike(a + at, b + at);
    return (any | unlike(a + length - 8, b + length - 8)) == 0;
}

/* The value of a digit; of another character any. */
static inline unsigned quick_value(uint8_t character)
{
    return (character & 15u) + 9u * (character >> 6);
}

/* 0 if a line begins with its kind and the digits of this cluster. */
static inline unsigned wrong_head(const uint8_t *at, unsigned cluster)
{
    static const char digits[] = "0123456789ABCDEF";

    return (unsigned)((at[0] ^ '8') | (at[1] ^ '2') | (at[2] ^ digits[cluster >> 4]) | (at[3] ^ digits[cluster & 15]));
}

/* The bytes with LF of a line that keeps the layout of a cluster's, or 0 if it breaks it. */
static size_t layout_at(const uint8_t *at, const uint8_t *end)
{
    unsigned wrong = 0;

    if (end - at <= TAG)
        return 0;
    unsigned high = digit_value(at[TAG_LENGTH]), low = digit_value(at[TAG_LENGTH + 1]);
    size_t digits = TAG + 2 * (size_t)(16 * high + low);
    if ((high | low) > 15 || (size_t)(end - at) <= digits || at[digits] != '\n' || at[0] != '8' || at[1] != '2')
        return 0;
    for (size_t i = 0; i < digits; i++)
        wrong |= digit_value(at[i]);
    return wrong > 15 ? 0 : digits + 1;
}

/* Reads the lines behind a plan's header, and says whether all keep the layout. The cluster of a line is known first,
 * so that the next line can be looked for while this one is tested. What follows its portion has to be as in the
 * site's text: the tag's length, the tag and LF. */
static inline bool take_places(const uint8_t *text, const struct plain_site *site, const uint8_t *at,
                               const uint8_t *end, struct places *places)
{
    uint64_t taken = 0, ends = 0;
    uint32_t above = 0;
    bool right = true, overlap = false;

    for (unsigned turn = 0; at < end; turn++) {
        unsigned c = end - at < SHORTEST_LINE ? MOST_CLUSTERS : 16 * quick_value(at[2]) + quick_value(at[3]);
        size_t length = c < site->clusters ? TAG_LENGTH + 2u * site->tag_length[c] + 3 : SIZE_MAX;
        if (length <= (size_t)(end - at)) {
            uint64_t wrong = wrong_head(at, c) | unlike(at + 12, portion[site->order[c]]);
            uint32_t start = number_at(at + 4, &wrong);
            if (wrong == 0 && (taken >> c & 1) == 0 && start >= above &&
                same(at + TAG_LENGTH, text + site->line[c] + 6, length - TAG_LENGTH)) {
                taken |= (uint64_t)1 << c;
                overlap |= start < ends;
                above = start;
                ends = (uint64_t)start + ((uint32_t)BASE << site->order[c]);
                places->turn[c] = (uint8_t)turn;
                at += length;
                continue;
            }
        }
        length = layout_at(at, end);
        if (length == 0)
            return false;
        right = false;
        at += length;
    }
    places->right = right && taken == ~(uint64_t)0 >> (64 - site->clusters);
    places->overlap = overlap;
    places->end = ends;
    return true;
}

/* Whether a flow crosses more periods than it is allowed at an order. With n the number of edges from the root on
 * which the parent starts first, it crosses n(source) - n(top) on its way up, and on its way down as many of the
 * steps as n does not grow by. */
static bool is_late(const struct plain_site *site, const uint8_t *turn, unsigned order)
{
    uint64_t above[MOST_CLUSTERS];
    int8_t depth[MOST_CLUSTERS], n[MOST_CLUSTERS];

    above[0] = 1;
    depth[0] = n[0] = 0;
    for (size_t c = 1; c < site->clusters; c++) {
        unsigned parent = site->parent[c];
        above[c] = above[parent] | (uint64_t)1 << c;
        depth[c] = (int8_t)(depth[parent] + 1);
        n[c] = (int8_t)(n[parent] + (turn[parent] < turn[c]));
    }
    for (size_t f = 0; f < site->flows; f++) {
        unsigned source = site->source[f], sink = site->sink[f];
        int crossings = n[source] - n[sink] + steps_down(depth, above, source, sink);
        if (crossings > (int)allowed_at(site->deadline[f], order))
            return true;
    }
    return false;
}

/* The refusal of a plan for a site that was read, or 0. */
static unsigned refused_plan(const uint8_t *text, const struct plain_site *site, const uint8_t *plan, size_t plan_len)
{
    struct places places;
    uint64_t wrong = 0;

    if (plan_len <= HEADER_DIGITS || plan[HEADER_DIGITS] != '\n')
        return NO_PLAN_TEXT;
    uint32_t head = number_at(plan, &wrong);
    unsigned order = head >> 8 & 255;
    if (wrong != 0 || head >> 16 != PLAN_HEADER ||
        !take_places(text, site, plan + HEADER_DIGITS + 1, plan + plan_len, &places))
        return NO_PLAN_TEXT;
    if (order > LARGEST_ORDER || (uint32_t)1 << order > site->shortest)
        return NOT_PERMITTED;
    if (!places.right || (head & 255) != site->clusters)
        return WRONG_CLUSTER;
    if (places.overlap || places.end > (uint64_t)BASE << order)
        return OVERLAP;
    return is_late(site, places.turn, order) ? LATE : 0;
}

uint32_t plain_check(const uint8_t *text, size_t text_len, const uint8_t *plan, size_t plan_len)
{
    struct plain_site site;
    uint32_t answer = plain_read(text, text_len, &site);

    return answer != 0 ? answer : plain_refuse(refused_plan(text, &site, plan, plan_len), 0);
}
