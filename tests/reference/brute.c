/* Placings by trying: no count of parent-first edges, no constraints, no rule of sequence. */
#include "brute.h"

#define ORDERS 15
#define LONGEST_PATH (2 * REFERENCE_CLUSTERS)

struct path {
    size_t length;
    uint8_t cluster[LONGEST_PATH];
};

/* A set of beacon orders: bit k stands for order k. */
typedef uint32_t order_set;

/* A flow as the search sees it: its path, and the orders that allow it each number of crossings. */
struct trial {
    struct path path;
    order_set allowing[BRUTE_CLUSTERS];
};

struct search {
    size_t clusters;
    size_t flows;
    struct trial flow[REFERENCE_FLOWS];
    order_set wanted;
    int best;
    uint32_t turn[BRUTE_CLUSTERS];
};

/* The length in symbols that belongs to an order. */
static uint64_t symbols(int order)
{
    return (uint64_t)960 << order;
}

/* The periods that a beacon order allows a flow to cross. */
static size_t allowed(const struct reference_flow *flow, int order)
{
    return flow->deadline < symbols(order) ? 0 : (size_t)(flow->deadline / symbols(order) - 1);
}

/* The clusters from a cluster up to the root, both included. */
static void climb(const struct reference_site *site, uint8_t cluster, struct path *path)
{
    path->length = 0;
    path->cluster[path->length++] = cluster;
    while (cluster != 0) {
        cluster = site->cluster[cluster].parent;
        path->cluster[path->length++] = cluster;
    }
}

/* The clusters from a flow's source up to the first that is also above its sink, then down to the sink. */
static void find_path(const struct reference_site *site, const struct reference_flow *flow, struct path *path)
{
    struct path up;
    struct path down;

    climb(site, flow->source, &up);
    climb(site, flow->sink, &down);
    path->length = 0;
    for (size_t i = 0; i < up.length; i++) {
        path->cluster[path->length++] = up.cluster[i];
        for (size_t j = 0; j < down.length; j++) {
            if (down.cluster[j] != up.cluster[i])
                continue;
            while (j > 0)
                path->cluster[path->length++] = down.cluster[--j];
            return;
        }
    }
}

/* Counts the neighbouring pairs on a path where the later cluster starts earlier in the period. */
static size_t count_crossings(const struct path *path, const uint32_t *starts)
{
    size_t crossings = 0;

    for (size_t i = 1; i < path->length; i++)
        crossings += starts[path->cluster[i]] < starts[path->cluster[i - 1]];
    return crossings;
}

size_t brute_crossings(const struct reference_site *site, const struct reference_flow *flow,
                       const uint32_t *starts)
{
    struct path path;

    find_path(site, flow, &path);
    return count_crossings(&path, starts);
}

bool brute_permitted(const struct reference_site *site, int order)
{
    for (size_t f = 0; f < site->flows; f++)
        if (symbols(order) > site->flow[f].period)
            return false;
    return true;
}

bool brute_fits(const struct reference_site *site, int order)
{
    uint64_t sum = 0;

    for (size_t c = 0; c < site->clusters; c++)
        sum += symbols(site->cluster[c].order);
    return sum <= symbols(order);
}

bool brute_is_placing(const struct reference_site *site, int order, const uint32_t *starts)
{
    for (size_t c = 0; c < site->clusters; c++) {
        uint64_t end = starts[c] + symbols(site->cluster[c].order);
        if (end > symbols(order))
            return false;
        for (size_t other = 0; other < site->clusters; other++)
            if (other != c && starts[other] >= starts[c] && starts[other] < end)
                return false;
    }
    for (size_t f = 0; f < site->flows; f++)
        if (brute_crossings(site, &site->flow[f], starts) > allowed(&site->flow[f], order))
            return false;
    return true;
}

/* The longest order of a set. */
static int longest(order_set orders)
{
    int order = -1;

    for (; orders != 0; orders >>= 1)
        order++;
    return order;
}

/* Takes the order of the clusters that stands in turn: which wanted beacon orders have it as a placing?
 * Only those longer than the best so far stay wanted. */
static void try_turns(struct search *search)
{
    order_set orders = search->wanted;

    for (size_t f = 0; f < search->flows && orders != 0; f++)
        orders &= search->flow[f].allowing[count_crossings(&search->flow[f].path, search->turn)];
    if (orders != 0) {
        search->best = longest(orders);
        search->wanted &= ~(((order_set)2 << search->best) - 1);
    }
}

/* Gives the turns from this one on to the clusters that have none, in every way. A cluster without a
 * turn has the number of clusters in its place. */
static void give_turns(struct search *search, uint32_t turn)
{
    if (turn == search->clusters) {
        try_turns(search);
        return;
    }
    for (size_t c = 0; c < search->clusters && search->wanted != 0; c++) {
        if (search->turn[c] < search->clusters)
            continue;
        search->turn[c] = turn;
        give_turns(search, turn + 1);
        search->turn[c] = (uint32_t)search->clusters;
    }
}

/* Fills in what the search needs to know of each flow. */
static void prepare(const struct reference_site *site, struct search *search)
{
    search->clusters = site->clusters;
    search->flows = site->flows;
    search->best = -1;
    for (size_t c = 0; c < search->clusters; c++)
        search->turn[c] = site->clusters;
    for (size_t f = 0; f < site->flows; f++) {
        struct trial *trial = &search->flow[f];
        find_path(site, &site->flow[f], &trial->path);
        for (size_t crossings = 0; crossings < BRUTE_CLUSTERS; crossings++) {
            trial->allowing[crossings] = 0;
            for (int order = 0; order < ORDERS; order++)
                if (crossings <= allowed(&site->flow[f], order))
                    trial->allowing[crossings] |= (order_set)1 << order;
        }
    }
}

/* Only the order in which the clusters start has to be tried, each portion beginning where the one before
 * it ends. From any placing one gets there by moving each cluster, the earliest first, to the end of the
 * one before it: none starts later than it did, so all still end inside the interval, and no two change
 * their order, so every flow crosses as many periods as before. Such a packed row ends at the sum of the
 * portions, whatever its order. */
struct brute_answer brute_order(const struct reference_site *site)
{
    struct search search;

    search.wanted = 0;
    for (int order = 0; order < ORDERS; order++)
        if (brute_permitted(site, order) && brute_fits(site, order))
            search.wanted |= (order_set)1 << order;
    if (search.wanted == 0)
        return (struct brute_answer){.refusal = 7, .order = -1};
    prepare(site, &search);
    give_turns(&search, 0);
    if (search.best < 0)
        return (struct brute_answer){.refusal = 8, .order = -1};
    return (struct brute_answer){.refusal = 0, .order = search.best};
}
