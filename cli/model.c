/* A site and its plan as the command works on them. The texts were accepted or written by the library, so
 * every line is where docs/FORMATS.md puts it. */
#include "model.h"

#include <string.h>

#define BASE 960u

/* Takes a tag over that begins at a byte of a line. */
static void tag_of_line(struct cluster *cluster, const uint8_t *line, size_t byte)
{
    for (int i = 0; i < cluster->tag_len; i++)
        cluster->tag[i] = (char)number_at(line, byte + (size_t)i, 1);
    cluster->tag[cluster->tag_len] = '\0';
}

void site_of_text(struct site *site, struct part text)
{
    struct part line;

    memset(site, 0, sizeof *site);
    if (!take_line(&text, &line))
        return;
    site->clusters = (int)number_at(line.bytes, 2, 1);
    site->flows = (int)number_at(line.bytes, 3, 1);
    for (int i = 0; i < site->clusters && take_line(&text, &line); i++) {
        struct cluster *cluster = &site->cluster[i];
        cluster->parent = (int)number_at(line.bytes, 1, 1);
        cluster->order = (int)number_at(line.bytes, 2, 1);
        cluster->tag_len = (int)number_at(line.bytes, 3, 1);
        tag_of_line(cluster, line.bytes, CLUSTER_BYTES);
    }
    for (int i = 0; i < site->flows && take_line(&text, &line); i++) {
        struct flow *flow = &site->flow[i];
        flow->source = (int)number_at(line.bytes, 1, 1);
        flow->sink = (int)number_at(line.bytes, 2, 1);
        flow->period = number_at(line.bytes, 3, 4);
        flow->deadline = number_at(line.bytes, 7, 4);
    }
}

void add_cluster(struct plan *plan, const uint8_t *line)
{
    uint32_t number = number_at(line, 1, 1);

    plan->sequence[plan->clusters++] = (int)number;
    plan->start[number] = number_at(line, 2, 4);
    plan->length[number] = number_at(line, 6, 4);
}

void plan_of_text(struct plan *plan, struct part text)
{
    struct part line;

    memset(plan, 0, sizeof *plan);
    if (!take_line(&text, &line))
        return;
    plan->order = (int)number_at(line.bytes, 2, 1);
    while (take_line(&text, &line))
        add_cluster(plan, line.bytes);
}

uint32_t symbols_of(int order)
{
    return BASE << order;
}

uint32_t interval_of(const struct plan *plan)
{
    return symbols_of(plan->order);
}

uint64_t end_of(const struct plan *plan, int cluster)
{
    return (uint64_t)plan->start[cluster] + plan->length[cluster];
}

uint32_t sum_of_portions(const struct site *site)
{
    uint32_t sum = 0;

    for (int i = 0; i < site->clusters; i++)
        sum += symbols_of(site->cluster[i].order);
    return sum;
}

int most_frequent(const struct site *site)
{
    int shortest = site->flows > 0 ? 0 : -1;

    for (int i = 1; i < site->flows; i++)
        if (site->flow[i].period < site->flow[shortest].period)
            shortest = i;
    return shortest;
}

/* A parent has a lower number than its child, so of two clusters the one with the higher number is no
 * ancestor of the other: it is left upwards until both are one, the top of the path. */
int path_of(const struct site *site, const struct flow *flow, int path[2 * MOST_CLUSTERS])
{
    int below_top[MOST_CLUSTERS];
    int up = flow->source, down = flow->sink, count = 0, left = 0;

    while (up != down) {
        if (up > down) {
            path[count++] = up;
            up = site->cluster[up].parent;
        } else {
            below_top[left++] = down;
            down = site->cluster[down].parent;
        }
    }
    path[count++] = up;
    while (left > 0)
        path[count++] = below_top[--left];
    return count;
}

int crossings(const struct site *site, const struct plan *plan, const struct flow *flow)
{
    int path[2 * MOST_CLUSTERS];
    int count = path_of(site, flow, path), crossed = 0;

    for (int i = 1; i < count; i++)
        crossed += plan->start[path[i]] < plan->start[path[i - 1]];
    return crossed;
}

uint32_t allowed(uint32_t deadline, uint32_t interval)
{
    return deadline >= interval ? deadline / interval - 1 : 0;
}

int next_late(const struct site *site, const struct plan *plan, int flow)
{
    while (flow < site->flows && (uint32_t)crossings(site, plan, &site->flow[flow]) <=
                                     allowed(site->flow[flow].deadline, interval_of(plan)))
        flow++;
    return flow;
}
