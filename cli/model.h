/* A site and its plan as the command works on them, read from texts that the library accepted. */
#ifndef CLI_MODEL_H
#define CLI_MODEL_H

#include "digits.h"

#define LARGEST_ORDER 14
#define MOST_CLUSTERS 64
#define MOST_FLOWS 128
#define MOST_TAG 64
#define NO_PARENT 255

struct cluster {
    int parent; /* NO_PARENT for the root */
    int order;
    int tag_len;
    char tag[MOST_TAG + 1]; /* printable, ended by 0 */
};

struct flow {
    int source, sink;
    uint32_t period, deadline;
};

struct site {
    int clusters, flows;
    struct cluster cluster[MOST_CLUSTERS];
    struct flow flow[MOST_FLOWS];
};

struct plan {
    int order;
    int clusters;                   /* how many the sequence has */
    int sequence[MOST_CLUSTERS];    /* the clusters in order of start */
    uint32_t start[MOST_CLUSTERS];  /* of each cluster by its number */
    uint32_t length[MOST_CLUSTERS];
};

/* The records of a site text that the library accepted, and of a plan text that it wrote. */
void site_of_text(struct site *site, struct part text);
void plan_of_text(struct plan *plan, struct part text);

/* Adds the cluster of a line to a plan. Its number has to be below MOST_CLUSTERS, and new. */
void add_cluster(struct plan *plan, const uint8_t *line);

/* Symbols of an order. */
uint32_t symbols_of(int order);
uint32_t interval_of(const struct plan *plan);

/* The symbol at which a cluster's portion ends. */
uint64_t end_of(const struct plan *plan, int cluster);

/* The sum of all portions, in symbols; at most 64 x 15,728,640. */
uint32_t sum_of_portions(const struct site *site);

/* The flow with the shortest required period; the first of several, and -1 without flows. */
int most_frequent(const struct site *site);

/* The clusters on a flow's path from source to sink, at most 2 * MOST_CLUSTERS; returns how many. */
int path_of(const struct site *site, const struct flow *flow, int path[2 * MOST_CLUSTERS]);

/* The periods that a flow crosses in a plan, and those that its deadline allows at an interval. */
int crossings(const struct site *site, const struct plan *plan, const struct flow *flow);
uint32_t allowed(uint32_t deadline, uint32_t interval);

/* The first flow from a number on that crosses more periods than its deadline allows; the number of flows where
 * there is none. */
int next_late(const struct site *site, const struct plan *plan, int flow);

#endif
