/* A brute force that knows only what a placing is: whole-symbol starts from 0 on, one a cluster, no two
 * active portions overlapping, each ending inside the interval, every flow crossing no more periods than
 * the beacon order allows it.
 */
#ifndef BRUTE_H
#define BRUTE_H

#include "reference.h"

#include <stdbool.h>

/* Sites of up to so many clusters can be tried in all their orders. */
#define BRUTE_CLUSTERS 7

/* A refusal of 7 or 8 and -1, or 0 and the beacon order. */
struct brute_answer {
    int refusal;
    int order;
};

/* Tries all orders of the clusters and gives the longest permitted beacon order that has a placing. */
struct brute_answer brute_order(const struct reference_site *site);

/* Whether a beacon order is permitted: no flow requires a period shorter than its interval. */
bool brute_permitted(const struct reference_site *site, int order);

/* Whether the portions fit a beacon order: their sum is at most its interval. */
bool brute_fits(const struct reference_site *site, int order);

/* Whether the starts, one a cluster, are a placing at a beacon order. */
bool brute_is_placing(const struct reference_site *site, int order, const uint32_t *starts);

/* The periods that a flow crosses, given the starts of the clusters. */
size_t brute_crossings(const struct reference_site *site, const struct reference_flow *flow,
                       const uint32_t *starts);

#endif
