/* The checker of docs/FORMATS.md ("Checking a plan"). Each of 20 to 24 is asked of the whole plan, in this order, and
 * each walks through its lines, its pairs of portions or its flows' paths anew. */
#include "layout.h"
#include "lines.h"

#include <string.h>

/* A plan text, and the byte at which the line begins that is taken next. */
struct walk {
    const uint8_t *plan;
    size_t plan_len;
    size_t at;
};

/* Takes the next line. False where it is no record. A record of more than 266 bytes is as long as none of a plan, so
 * it may be refused here. */
static bool take_line(struct walk *walk, struct record *record)
{
    return decode_line(walk->plan, walk->plan_len, &walk->at, RECORD_CAPACITY, record);
}

/* Whether a record has the layout of a plan's header. */
static bool is_header(const struct record *record)
{
    return record->bytes[0] == PLAN_HEADER && record->length == HEADER_LENGTH && record->bytes[1] == 1;
}

/* Whether a record has the layout of a cluster's line in a plan. */
static bool is_cluster(const struct record *record)
{
    return record->bytes[0] == PLAN_CLUSTER && record->length >= PLACE_LENGTH &&
           record->length == PLACE_LENGTH + (size_t)record->bytes[10];
}

/* 20: whether there is no line, or one that breaks the layout. */
static bool breaks_layout(struct walk walk)
{
    struct record record;

    if (!take_line(&walk, &record) || !is_header(&record))
        return true;
    while (walk.at < walk.plan_len)
        if (!take_line(&walk, &record) || !is_cluster(&record))
            return true;
    return false;
}

/* 21: whether a beacon order is above 14, or its interval longer than a required period. */
static bool is_not_permitted(const struct reference_site *site, unsigned order)
{
    if (order > REFERENCE_LARGEST_ORDER)
        return true;
    for (size_t f = 0; f < site->flows; f++)
        if (symbols(order) > site->flow[f].period)
            return true;
    return false;
}

/* Whether a cluster has the length and the tag that a line gives for it. */
static bool is_described(const struct reference_cluster *cluster, const struct record *line)
{
    return number_of(line->bytes + 6, 4) == symbols(cluster->order) && line->bytes[10] == cluster->tag_length &&
           memcmp(line->bytes + PLACE_LENGTH, cluster->tag, cluster->tag_length) == 0;
}

/* 22: whether the lines behind the header are not one for each cluster of the site with its length and its tag, none
 * starting before the one above. If they are, the start of each cluster is given. */
static bool has_wrong_cluster(const struct reference_site *site, struct walk walk, uint32_t *starts)
{
    struct record line;
    bool seen[REFERENCE_CLUSTERS] = {false};
    uint32_t above = 0;

    take_line(&walk, &line);
    if (line.bytes[3] != site->clusters)
        return true;
    while (walk.at < walk.plan_len) {
        take_line(&walk, &line);
        uint8_t number = line.bytes[1];
        uint32_t start = number_of(line.bytes + 2, 4);
        if (number >= site->clusters || seen[number] || !is_described(&site->cluster[number], &line) || start < above)
            return true;
        seen[number] = true;
        starts[number] = start;
        above = start;
    }
    for (size_t c = 0; c < site->clusters; c++)
        if (!seen[c])
            return true;
    return false;
}

/* The symbol at which a cluster's portion ends. */
static uint64_t end_of(const struct reference_site *site, const uint32_t *starts, size_t cluster)
{
    return (uint64_t)starts[cluster] + symbols(site->cluster[cluster].order);
}

/* 23: whether two portions overlap, or one ends past the interval. */
static bool overlaps(const struct reference_site *site, unsigned order, const uint32_t *starts)
{
    for (size_t c = 0; c < site->clusters; c++) {
        if (end_of(site, starts, c) > symbols(order))
            return true;
        for (size_t other = 0; other < c; other++)
            if (end_of(site, starts, c) > starts[other] && end_of(site, starts, other) > starts[c])
                return true;
    }
    return false;
}

/* The periods that a flow crosses. Both ends go up to where they meet, each time the one with the higher number,
 * which is no ancestor of the other. A step from the source's side is towards the parent, one from the sink's side
 * away from it. */
static int32_t count_crossings(const struct reference_site *site, const struct reference_flow *flow,
                               const uint32_t *starts)
{
    uint8_t source = flow->source;
    uint8_t sink = flow->sink;
    int32_t crossings = 0;

    while (source != sink) {
        if (source > sink) {
            uint8_t parent = site->cluster[source].parent;
            crossings += starts[parent] < starts[source];
            source = parent;
        } else {
            uint8_t parent = site->cluster[sink].parent;
            crossings += starts[sink] < starts[parent];
            sink = parent;
        }
    }
    return crossings;
}

/* 24: whether a flow crosses more periods than its deadline allows. */
static bool is_late(const struct reference_site *site, unsigned order, const uint32_t *starts)
{
    for (size_t f = 0; f < site->flows; f++) {
        const struct reference_flow *flow = &site->flow[f];
        if (count_crossings(site, flow, starts) > allowed_crossings(flow->deadline, symbols(order)))
            return true;
    }
    return false;
}

/* What a plan is refused for, NONE where it is one for the site. */
static enum refusal judge(const struct reference_site *site, struct walk walk)
{
    uint32_t starts[REFERENCE_CLUSTERS];
    struct record header;

    if (breaks_layout(walk))
        return NO_PLAN_TEXT;
    struct walk first = walk;
    take_line(&first, &header);
    unsigned order = header.bytes[2];
    if (is_not_permitted(site, order))
        return NOT_PERMITTED;
    if (has_wrong_cluster(site, walk, starts))
        return WRONG_CLUSTER;
    if (overlaps(site, order, starts))
        return OVERLAP;
    return is_late(site, order, starts) ? LATE : NONE;
}

uint32_t reference_check(const uint8_t *text, size_t text_len, const uint8_t *plan, size_t plan_len)
{
    struct reference_site site;
    uint32_t answer = reference_read(text, text_len, &site);

    if (answer != 0)
        return answer;
    return refuse(judge(&site, (struct walk){.plan = plan, .plan_len = plan_len, .at = 0}), 0);
}
