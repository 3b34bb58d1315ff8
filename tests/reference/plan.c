/* The planner and the two writers of docs/FORMATS.md. */
#include "layout.h"

#include <stdbool.h>

#define CONSTRAINTS (2 * (REFERENCE_CLUSTERS - 1) + REFERENCE_FLOWS)
#define NOT_REACHED INT32_MAX

/* One says that N(to) - N(from) is at most the limit. */
struct constraint {
    uint8_t from;
    uint8_t to;
    int32_t limit;
};

struct plan {
    unsigned order;
    int32_t n[REFERENCE_CLUSTERS];
    uint8_t sequence[REFERENCE_CLUSTERS];
};

/* How many steps down each flow's path has: depth of its sink minus depth of its top. */
static void count_steps_down(const struct reference_site *site, int32_t *down)
{
    uint8_t depth[REFERENCE_CLUSTERS] = {0};

    for (size_t c = 1; c < site->clusters; c++)
        depth[c] = (uint8_t)(depth[site->cluster[c].parent] + 1);
    for (size_t f = 0; f < site->flows; f++) {
        uint8_t up = site->flow[f].source;
        uint8_t top = site->flow[f].sink;
        while (up != top) {
            if (depth[up] > depth[top])
                up = site->cluster[up].parent;
            else
                top = site->cluster[top].parent;
        }
        down[f] = depth[site->flow[f].sink] - depth[top];
    }
}

/* Lists the constraints of the tree, two for each cluster but the root. Returns how many. */
static size_t list_tree(const struct reference_site *site, struct constraint *list)
{
    size_t count = 0;

    for (size_t c = 1; c < site->clusters; c++) {
        uint8_t parent = site->cluster[c].parent;
        list[count++] = (struct constraint){.from = parent, .to = (uint8_t)c, .limit = 1};
        list[count++] = (struct constraint){.from = (uint8_t)c, .to = parent, .limit = 0};
    }
    return count;
}

/* Lists the constraints of the flows at this interval, one for each. */
static void list_flows(const struct reference_site *site, const int32_t *down, uint32_t interval,
                       struct constraint *list)
{
    for (size_t f = 0; f < site->flows; f++) {
        const struct reference_flow *flow = &site->flow[f];
        list[f].from = flow->sink;
        list[f].to = flow->source;
        list[f].limit = allowed_crossings(flow->deadline, interval) - down[f];
    }
}

/* Finds the shortest distance of each cluster from the root over the list. False means that there is
 * a loop of negative sum: a round still changed something when all distances had to be settled, or a
 * distance fell below 0, from where the way up the tree would bring the root's below 0 too. */
static bool relax(const struct constraint *list, size_t count, size_t clusters, int32_t *n)
{
    for (size_t c = 1; c < clusters; c++)
        n[c] = NOT_REACHED;
    n[0] = 0;
    for (size_t round = 0; round < clusters; round++) {
        bool changed = false;
        for (size_t i = 0; i < count; i++) {
            int32_t from = n[list[i].from];
            if (from != NOT_REACHED && from + list[i].limit < n[list[i].to]) {
                n[list[i].to] = from + list[i].limit;
                if (n[list[i].to] < 0)
                    return false;
                changed = true;
            }
        }
        if (!changed)
            return true;
    }
    return false;
}

/* Finds the largest permitted order that fits and has a solution, and the solution. */
static enum refusal choose_order(const struct reference_site *site, struct plan *plan)
{
    struct constraint list[CONSTRAINTS];
    int32_t down[REFERENCE_FLOWS];
    uint32_t shortest = LONGEST_TIME;
    uint32_t sum = 0;
    enum refusal refusal = NO_FIT;

    for (size_t f = 0; f < site->flows; f++)
        if (site->flow[f].period < shortest)
            shortest = site->flow[f].period;
    for (size_t c = 0; c < site->clusters; c++)
        sum += symbols(site->cluster[c].order);
    count_steps_down(site, down);
    size_t tree = list_tree(site, list);
    for (int order = REFERENCE_LARGEST_ORDER; order >= 0 && symbols((unsigned)order) >= sum; order--) {
        if (symbols((unsigned)order) > shortest)
            continue;
        refusal = NO_PLACING;
        plan->order = (unsigned)order;
        list_flows(site, down, symbols(plan->order), list + tree);
        if (relax(list, tree + site->flows, site->clusters, plan->n))
            return NONE;
    }
    return refusal;
}

/* Puts the clusters in sequence: each time the lowest-numbered one whose required predecessors are all
 * placed. A parent comes before its child where N grows, and after it where N stays. */
static void put_in_sequence(const struct reference_site *site, struct plan *plan)
{
    uint8_t waits[REFERENCE_CLUSTERS] = {0};
    bool placed[REFERENCE_CLUSTERS] = {false};
    bool parent_first[REFERENCE_CLUSTERS] = {false};

    for (size_t c = 1; c < site->clusters; c++) {
        uint8_t parent = site->cluster[c].parent;
        parent_first[c] = plan->n[c] > plan->n[parent];
        waits[parent_first[c] ? c : parent]++;
    }
    for (size_t i = 0; i < site->clusters; i++) {
        size_t next = 0;
        while (placed[next] || waits[next] > 0)
            next++;
        placed[next] = true;
        plan->sequence[i] = (uint8_t)next;
        if (next > 0 && !parent_first[next])
            waits[site->cluster[next].parent]--;
        for (size_t c = next + 1; c < site->clusters; c++)
            if (parent_first[c] && site->cluster[c].parent == next)
                waits[c]--;
    }
}

/* Writes the two digits of a byte and returns the place behind them. */
static uint8_t *put_byte(uint8_t *out, uint8_t byte)
{
    static const char digits[] = "0123456789ABCDEF";

    out[0] = (uint8_t)digits[byte >> 4];
    out[1] = (uint8_t)digits[byte & 15];
    return out + 2;
}

/* Writes the digits of several bytes. */
static uint8_t *put_bytes(uint8_t *out, const uint8_t *bytes, size_t count)
{
    for (size_t i = 0; i < count; i++)
        out = put_byte(out, bytes[i]);
    return out;
}

/* Writes a number of four bytes, the high byte first. */
static uint8_t *put_number(uint8_t *out, uint32_t number)
{
    for (int shift = 24; shift >= 0; shift -= 8)
        out = put_byte(out, (uint8_t)(number >> shift));
    return out;
}

/* Writes a line of four bytes: the header of a site or of a plan. */
static uint8_t *put_header(uint8_t *out, uint8_t kind, uint8_t second, uint8_t third, uint8_t fourth)
{
    out = put_bytes(out, (const uint8_t[]){kind, second, third, fourth}, HEADER_LENGTH);
    *out++ = '\n';
    return out;
}

/* The length of a text of a header and a line for each cluster, apart from the tags so many bytes long. */
static size_t text_length(const struct reference_site *site, size_t cluster_bytes)
{
    size_t length = 2 * HEADER_LENGTH + 1;

    for (size_t c = 0; c < site->clusters; c++)
        length += 2 * (cluster_bytes + site->cluster[c].tag_length) + 1;
    return length;
}

/* Writes the plan text, the first cluster at 0 and each next where the one before it ends. */
static void put_plan(const struct reference_site *site, const struct plan *plan, uint8_t *out)
{
    uint32_t start = 0;

    out = put_header(out, PLAN_HEADER, 1, (uint8_t)plan->order, site->clusters);
    for (size_t i = 0; i < site->clusters; i++) {
        const struct reference_cluster *cluster = &site->cluster[plan->sequence[i]];
        out = put_bytes(out, (const uint8_t[]){PLAN_CLUSTER, plan->sequence[i]}, 2);
        out = put_number(out, start);
        out = put_number(out, symbols(cluster->order));
        out = put_byte(out, cluster->tag_length);
        out = put_bytes(out, cluster->tag, cluster->tag_length);
        *out++ = '\n';
        start += symbols(cluster->order);
    }
}

/* Writes the site text. */
static void put_site(const struct reference_site *site, uint8_t *out)
{
    out = put_header(out, 1, 1, site->clusters, site->flows);
    for (size_t c = 0; c < site->clusters; c++) {
        const struct reference_cluster *cluster = &site->cluster[c];
        out = put_bytes(out, (const uint8_t[]){2, cluster->parent, cluster->order, cluster->tag_length}, 4);
        out = put_bytes(out, cluster->tag, cluster->tag_length);
        *out++ = '\n';
    }
    for (size_t f = 0; f < site->flows; f++) {
        const struct reference_flow *flow = &site->flow[f];
        out = put_bytes(out, (const uint8_t[]){3, flow->source, flow->sink}, 3);
        out = put_number(out, flow->period);
        out = put_number(out, flow->deadline);
        *out++ = '\n';
    }
}

uint32_t reference_plan(const uint8_t *text, size_t text_len, uint8_t *room, size_t room_len)
{
    struct reference_site site;
    struct plan plan;
    uint32_t answer = reference_read(text, text_len, &site);

    if (answer != 0)
        return answer;
    enum refusal refusal = choose_order(&site, &plan);
    if (refusal != NONE)
        return refuse(refusal, 0);
    size_t length = text_length(&site, PLACE_LENGTH);
    if (room_len < length)
        return refuse(SHORT_ROOM, 0);
    put_in_sequence(&site, &plan);
    put_plan(&site, &plan, room);
    return (uint32_t)length;
}

uint32_t reference_rewrite(const uint8_t *text, size_t text_len, uint8_t *room, size_t room_len)
{
    struct reference_site site;
    uint32_t answer = reference_read(text, text_len, &site);

    if (answer != 0)
        return answer;
    size_t length = text_length(&site, CLUSTER_LENGTH) + (2 * FLOW_LENGTH + 1) * (size_t)site.flows;
    if (room_len < length)
        return refuse(SHORT_ROOM, 0);
    put_site(&site, room);
    return (uint32_t)length;
}
