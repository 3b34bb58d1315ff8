/* Dice, and the records of sound sites. */
#include "generator.h"

#include "reference/brute.h"

#include <string.h>

#define LONGEST_TIME 1000000000u
#define INTERVAL(order) (REFERENCE_BASE << (order))

/* The mixing step of splitmix64. */
static uint64_t mix(uint64_t value)
{
    value = (value ^ value >> 30) * 0xBF58476D1CE4E5B9u;
    value = (value ^ value >> 27) * 0x94D049BB133111EBu;
    return value ^ value >> 31;
}

struct dice dice_of(uint64_t seed, uint64_t number)
{
    return (struct dice){.state = mix(mix(seed + 0x9E3779B97F4A7C15u) + number)};
}

uint64_t roll(struct dice *dice)
{
    dice->state += 0x9E3779B97F4A7C15u;
    return mix(dice->state);
}

size_t below(struct dice *dice, size_t bound)
{
    return (size_t)((roll(dice) >> 32) % bound);
}

bool once_in(struct dice *dice, size_t times)
{
    return below(dice, times) == 0;
}

/* A number of clusters: mostly small enough for the brute force. */
static uint8_t make_size(struct dice *dice)
{
    switch (below(dice, 20)) {
    case 0: return 64;
    case 1: return (uint8_t)(1 + below(dice, 64));
    case 2: case 3: case 4: return (uint8_t)(8 + below(dice, 13));
    case 5: case 6: return 7;
    default: return (uint8_t)(1 + below(dice, 6));
    }
}

/* The parents: a chain, a star, a deep tree, a binary one, a comb or any. */
static void make_tree(struct dice *dice, struct reference_site *site)
{
    size_t shape = below(dice, 6);

    site->cluster[0].parent = 0xFF;
    for (size_t c = 1; c < site->clusters; c++) {
        size_t parent;
        switch (shape) {
        case 0: parent = c - 1; break;
        case 1: parent = 0; break;
        case 2: parent = c - 1 - below(dice, c < 3 ? c : 3); break;
        case 3: parent = (c - 1) / 2; break;
        case 4: parent = c % 2 == 1 && c > 1 ? c - 2 : c - 1; break;
        default: parent = below(dice, c); break;
        }
        site->cluster[c].parent = (uint8_t)parent;
    }
}

/* The superframe orders: all alike or mixed, mostly so low that the portions fit some order. */
static void make_orders(struct dice *dice, struct reference_site *site)
{
    size_t bound = 15;
    size_t mode = below(dice, 8);

    for (size_t row = 1; row < site->clusters; row *= 2)
        bound--;
    if (mode == 0)
        bound = 15;
    size_t common = below(dice, bound);
    for (size_t c = 0; c < site->clusters; c++) {
        size_t order = below(dice, bound);
        if (mode == 1 || mode == 2)
            order = common;
        else if (mode == 3 || mode == 4)
            order = 0;
        else if (mode == 5)
            order = below(dice, 2);
        site->cluster[c].order = (uint8_t)order;
    }
}

/* A byte that may stand in a tag. */
static uint8_t tag_byte(struct dice *dice)
{
    return (uint8_t)(0x21 + below(dice, 94));
}

/* Tags that differ in one byte only, behind a beginning and before an end that all have in common. */
static void make_near_tags(struct dice *dice, struct reference_site *site, const uint8_t *common)
{
    static const uint8_t beginnings[] = {0, 0, 1, 7, 8, 15, 16, 31, 32, 47, 48, 62, 63};
    size_t before = beginnings[below(dice, sizeof beginnings)];
    size_t behind = once_in(dice, 2) ? 0 : below(dice, (size_t)(REFERENCE_TAG - before));
    size_t shift = below(dice, 94);

    for (size_t c = 0; c < site->clusters; c++) {
        struct reference_cluster *cluster = &site->cluster[c];
        cluster->tag_length = (uint8_t)(before + 1 + behind);
        memcpy(cluster->tag, common, cluster->tag_length);
        cluster->tag[before] = (uint8_t)(0x21 + (shift + 37 * c) % 94);
    }
}

/* Tags of all lengths, each the beginning of every longer one. */
static void make_nested_tags(struct dice *dice, struct reference_site *site, const uint8_t *common)
{
    size_t shift = below(dice, REFERENCE_TAG);

    for (size_t c = 0; c < site->clusters; c++) {
        site->cluster[c].tag_length = (uint8_t)(1 + (shift + 27 * c) % REFERENCE_TAG);
        memcpy(site->cluster[c].tag, common, site->cluster[c].tag_length);
    }
}

/* Tags of any length and any bytes; short ones may meet. */
static void make_any_tags(struct dice *dice, struct reference_site *site)
{
    for (size_t c = 0; c < site->clusters; c++) {
        site->cluster[c].tag_length = (uint8_t)(1 + below(dice, REFERENCE_TAG));
        for (size_t i = 0; i < site->cluster[c].tag_length; i++)
            site->cluster[c].tag[i] = tag_byte(dice);
    }
}

/* The tags of a site. */
static void make_tags(struct dice *dice, struct reference_site *site)
{
    uint8_t common[REFERENCE_TAG];

    for (size_t i = 0; i < REFERENCE_TAG; i++)
        common[i] = tag_byte(dice);
    switch (below(dice, 4)) {
    case 0: make_nested_tags(dice, site, common); break;
    case 1: make_any_tags(dice, site); break;
    default: make_near_tags(dice, site, common); break;
    }
}

/* A number of flows. */
static uint8_t make_flow_count(struct dice *dice)
{
    switch (below(dice, 10)) {
    case 0: return 0;
    case 1: return (uint8_t)below(dice, 129);
    case 2: case 3: return (uint8_t)(5 + below(dice, 20));
    case 4: return once_in(dice, 4) ? 128 : (uint8_t)(1 + below(dice, 40));
    default: return (uint8_t)(1 + below(dice, 4));
    }
}

/* A time in its range, nearest to the wanted one. */
static uint32_t time_near(uint64_t wanted)
{
    return wanted < 1 ? 1 : wanted > LONGEST_TIME ? LONGEST_TIME : (uint32_t)wanted;
}

/* A time of any size: its number of bits is drawn first. */
static uint32_t any_time(struct dice *dice)
{
    size_t bits = below(dice, 30);

    return time_near(roll(dice) >> (34 + bits));
}

/* Starts that stand for a random order of the clusters. */
static void shuffle_starts(struct dice *dice, size_t clusters, uint32_t *starts)
{
    for (size_t c = 0; c < clusters; c++) {
        size_t other = below(dice, c + 1);
        starts[c] = starts[other];
        starts[other] = (uint32_t)c;
    }
}

/* A deadline that allows just so many crossings at a beacon order, or now and then is one symbol short of
 * that, or allows more. */
static uint32_t tight_deadline(struct dice *dice, size_t crossings, unsigned order)
{
    uint64_t least = (uint64_t)(crossings + 1) * INTERVAL(order);

    switch (below(dice, 16)) {
    case 0: return time_near(least + 1);
    case 1: return time_near(least + below(dice, 4 * INTERVAL(order)));
    case 2: case 3: return time_near(least + INTERVAL(order) - 1);
    case 4: return time_near(least - (once_in(dice, 8) ? 1 : 0));
    case 5: return crossings == 0 ? time_near(below(dice, INTERVAL(order))) : time_near(least);
    default: return time_near(least);
    }
}

/* The lowest beacon order that fits, or the largest if none does. */
static unsigned lowest_fit(const struct reference_site *site)
{
    unsigned order = 0;

    while (order < REFERENCE_LARGEST_ORDER && !brute_fits(site, (int)order))
        order++;
    return order;
}

/* A required period around the interval of an order, or any. */
static uint32_t make_period(struct dice *dice, size_t mode, unsigned order)
{
    switch (mode) {
    case 0: return any_time(dice);
    case 1: case 2: return time_near(INTERVAL(order) + below(dice, 3) - 1);
    case 3: return time_near(INTERVAL(order) + below(dice, INTERVAL(order)));
    case 4: return time_near(1 + below(dice, 4000));
    default: return time_near(INTERVAL(14) + below(dice, LONGEST_TIME));
    }
}

/* A first or last flow that is the only one to require so short a period or so early a deadline. */
static void make_odd_flow(struct dice *dice, struct reference_site *site, unsigned order)
{
    struct reference_flow *flow = &site->flow[once_in(dice, 2) ? 0 : site->flows - 1];

    if (once_in(dice, 2))
        flow->period = make_period(dice, 1, order);
    else
        flow->deadline = 1;
}

/* The flows. In most sites the deadlines are tight around one order of the clusters and one beacon order,
 * so that a placing exists and the planner has to search for it. */
static void make_flows(struct dice *dice, struct reference_site *site)
{
    uint32_t starts[REFERENCE_CLUSTERS] = {0};
    unsigned lowest = lowest_fit(site);
    unsigned order = lowest + (unsigned)below(dice, 15 - lowest);
    unsigned permitted = order + (unsigned)below(dice, 15 - order);
    size_t period_mode = below(dice, once_in(dice, 4) ? 5 : 40);
    size_t loose = once_in(dice, 5) ? 1 : once_in(dice, 2) ? 6 : 1000;
    bool to_root = once_in(dice, 4);

    shuffle_starts(dice, site->clusters, starts);
    for (size_t f = 0; f < site->flows; f++) {
        struct reference_flow *flow = &site->flow[f];
        flow->source = (uint8_t)below(dice, site->clusters);
        flow->sink = to_root && once_in(dice, 2) ? 0 : (uint8_t)below(dice, site->clusters);
        flow->period = make_period(dice, period_mode, permitted);
        flow->deadline = once_in(dice, loose)
                             ? any_time(dice)
                             : tight_deadline(dice, brute_crossings(site, flow, starts), order);
    }
    if (site->flows > 0 && once_in(dice, 8))
        make_odd_flow(dice, site, order);
}

void make_site(struct dice *dice, struct reference_site *site)
{
    memset(site, 0, sizeof *site);
    site->clusters = make_size(dice);
    site->flows = make_flow_count(dice);
    make_tree(dice, site);
    make_orders(dice, site);
    make_tags(dice, site);
    make_flows(dice, site);
}
