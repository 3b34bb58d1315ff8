/* The search for the order and N of each cluster at it. */
#include "plain.h"

#include <stdbool.h>
#include <string.h>

enum { NO_FLOW = 255 };

/* What all orders share: depths, the children of each cluster as a set, and the downward part of each flow. */
struct tree {
    int8_t depth[MOST_CLUSTERS];
    uint64_t children[MOST_CLUSTERS];
    uint8_t down[MOST_FLOWS];
};

/* Fills in the tree. */
static void grow(const struct plain_site *site, struct tree *tree)
{
    uint64_t above[MOST_CLUSTERS];

    memset(tree->depth, 0, sizeof tree->depth);
    above[0] = 1;
    tree->children[0] = 0;
    for (size_t c = 1; c < site->clusters; c++) {
        unsigned parent = site->parent[c];
        above[c] = above[parent] | (uint64_t)1 << c;
        tree->depth[c] = (int8_t)(tree->depth[parent] + 1);
        tree->children[c] = 0;
        tree->children[parent] |= (uint64_t)1 << c;
    }
    for (size_t f = 0; f < site->flows; f++)
        tree->down[f] = (uint8_t)steps_down(tree->depth, above, site->source[f], site->sink[f]);
}

/* Lowers a cluster's number to a limit. If it was higher, the cluster is to be looked at again. */
static inline void lower(int8_t *n, unsigned cluster, int limit, uint64_t *again)
{
    bool higher = n[cluster] > limit;

    n[cluster] = (int8_t)(higher ? limit : n[cluster]);
    *again |= (uint64_t)higher << cluster;
}

/* Finds N at an order, from the depths down. At the depths the tree asks nothing, so it is the flows that
 * begin; a cluster that was lowered then lowers its parent, its children and the sources of the flows to it.
 * False means a loop of negative sum: a number would fall below 0, where the root has to be. A flow whose
 * limit is at least its source's depth never lowers it, and is left out. */
static bool settle(const struct plain_site *site, const struct tree *tree, unsigned order, int8_t *n)
{
    uint8_t first[MOST_CLUSTERS], next[MOST_FLOWS];
    int8_t limit[MOST_FLOWS];
    uint64_t again = 0;

    memcpy(n, tree->depth, MOST_CLUSTERS);
    memset(first, NO_FLOW, sizeof first);
    for (size_t f = 0; f < site->flows; f++) {
        unsigned source = site->source[f], sink = site->sink[f];
        int most = (int)allowed_at(site->deadline[f], order) - tree->down[f];
        if (most >= tree->depth[source])
            continue;
        limit[f] = (int8_t)most;
        next[f] = first[sink];
        first[sink] = (uint8_t)f;
        if (n[sink] + most < 0)
            return false;
        lower(n, source, n[sink] + most, &again);
    }
    while (again != 0) {
        unsigned c = lowest(again);
        again &= again - 1;
        lower(n, site->parent[c], n[c], &again);
        for (uint64_t left = tree->children[c]; left != 0; left &= left - 1)
            lower(n, lowest(left), n[c] + 1, &again);
        for (unsigned f = first[c]; f != NO_FLOW; f = next[f]) {
            if (n[c] + limit[f] < 0)
                return false;
            lower(n, site->source[f], n[c] + limit[f], &again);
        }
    }
    return true;
}

/* The orders that are permitted and that the portions fit are those from `from` to below `below`. The largest is
 * tried first, and then the one in the middle of those left: an order without a solution leaves none to the
 * larger ones. */
uint32_t plain_search(const struct plain_site *site, unsigned *order, int8_t *n)
{
    struct tree tree;
    int8_t trial[MOST_CLUSTERS];
    unsigned from = site->units > 1 ? highest(site->units - 1) + 1 : 0;
    unsigned below = site->shortest > 0 ? highest(site->shortest) + 1 : 0, step = 1;
    bool found = false;

    below = below > LARGEST_ORDER + 1 ? LARGEST_ORDER + 1 : below;
    if (from >= below)
        return plain_refuse(NO_FIT, 0);
    grow(site, &tree);
    while (from < below) {
        unsigned middle = below - step;
        if (settle(site, &tree, middle, trial)) {
            memcpy(n, trial, sizeof trial);
            *order = middle;
            found = true;
            from = middle + 1;
        } else {
            below = middle;
        }
        step = (below - from + 1) / 2;
    }
    return found ? 0 : plain_refuse(NO_PLACING, 0);
}
