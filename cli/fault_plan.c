/* Where in a plan text its refusal lies (docs/FORMATS.md, "Checking a plan"). Each of 20 to 24 is looked for in the
 * whole text before the next one, and within a line the fields are looked at from left to right. */
#include "fault_parts.h"
#include "print.h"

#include <string.h>

/* The places of fields in a plan's header and in the line of a cluster. */
enum place { VERSION = 1, ORDER = 2, COUNT = 3, NUMBER = 1, START = 2, LENGTH = 6, TAG_LENGTH = 10 };

/* What is looked at: the site, the text, and the plan as far as it was read. */
struct look {
    struct fault *fault;
    struct plan *plan;
    const struct site *site;
    struct part text;
};

/* Notes the line at fault. Gives 1, as all do here that find something. */
static int at_line(struct fault *fault, uint32_t line_number, struct part line)
{
    fault->line_number = line_number;
    fault->line = line;
    return 1;
}

/* The same, with the field at fault. */
static int at_field(struct fault *fault, uint32_t line_number, struct part line, size_t place)
{
    fault->column = 2 * place;
    return at_line(fault, line_number, line);
}

/* 20: no line, or one that breaks the layout. */
static int breaks_layout(const struct look *look)
{
    struct fault *fault = look->fault;
    struct part rest = look->text, line;
    enum kind due = PLAN_HEADER_LINE;

    if (rest.length == 0) {
        SAY(fault, "it has no line");
        return 1;
    }
    for (uint32_t number = 1; take_line(&rest, &line); number++, due = PLAN_CLUSTER_LINE)
        if (bad_digits(fault, look->text, line, MOST_PLAN_DIGITS) || bad_kind(fault, line, due) ||
            bad_length(fault, line) || (number == 1 && bad_field(fault, line, number, VERSION, 0)))
            return at_line(fault, number, line);
    return 0;
}

/* 21: an order above 14, or one whose interval is longer than a required period. */
static int is_not_permitted(const struct look *look)
{
    struct part rest = look->text, line = {0};
    char interval[TIME_WORDS];
    int shortest = most_frequent(look->site);

    take_line(&rest, &line);
    if (bad_field(look->fault, line, 1, ORDER, 0))
        return at_line(look->fault, 1, line);
    look->plan->order = (int)number_at(line.bytes, ORDER, 1);
    if (shortest < 0 || interval_of(look->plan) <= look->site->flow[shortest].period)
        return 0;
    SAY(look->fault, "order %d has an interval of %s, longer than a required period", look->plan->order,
        time_words(interval, interval_of(look->plan)));
    return at_field(look->fault, 1, line, ORDER);
}

/* The line of a plan that has a cluster; 0 where none has. */
static uint32_t line_with(const struct plan *plan, int cluster)
{
    for (int i = 0; i < plan->clusters; i++)
        if (plan->sequence[i] == cluster)
            return (uint32_t)i + 2;
    return 0;
}

/* 22: a cluster that has a line above, or starts before that of the line above. */
static int is_misplaced(const struct look *look, uint32_t line_number, struct part line)
{
    const struct plan *plan = look->plan;
    int cluster = (int)number_at(line.bytes, NUMBER, 1);
    int above = plan->clusters > 0 ? plan->sequence[plan->clusters - 1] : -1;
    uint32_t earlier = line_with(plan, cluster), start = number_at(line.bytes, START, 4);
    char own[TIME_WORDS], others[TIME_WORDS];

    if (earlier != 0) {
        SAY(look->fault, "cluster %d has a line already, line %u", cluster, (unsigned)earlier);
        return at_field(look->fault, line_number, line, NUMBER);
    }
    if (above < 0 || start >= plan->start[above])
        return 0;
    SAY(look->fault, "cluster %d starts at %s, before cluster %d in the line above, at %s", cluster,
        time_words(own, start), above, time_words(others, plan->start[above]));
    return at_field(look->fault, line_number, line, START);
}

/* 22: a cluster with another length or another tag than the site's. */
static int is_misdescribed(const struct look *look, uint32_t line_number, struct part line)
{
    int number = (int)number_at(line.bytes, NUMBER, 1), same = 0;
    const struct cluster *cluster = &look->site->cluster[number];
    uint32_t length = number_at(line.bytes, LENGTH, 4), due = symbols_of(cluster->order);
    int tag_len = (int)number_at(line.bytes, TAG_LENGTH, 1);
    char found[TIME_WORDS], wanted[TIME_WORDS];

    if (length != due) {
        SAY(look->fault, "cluster %d has a portion of %s, and in the site one of %s", number, time_words(found, length),
            time_words(wanted, due));
        return at_field(look->fault, line_number, line, LENGTH);
    }
    if (tag_len != cluster->tag_len) {
        SAY(look->fault, "cluster %d has a tag of %d byte%s, and in the site one of %d", number, tag_len,
            tag_len == 1 ? "" : "s", cluster->tag_len);
        return at_field(look->fault, line_number, line, TAG_LENGTH);
    }
    while (same < tag_len && (uint8_t)cluster->tag[same] == number_at(line.bytes, PLAN_CLUSTER_BYTES + (size_t)same, 1))
        same++;
    if (same == tag_len)
        return 0;
    SAY(look->fault, "cluster %d has another tag in the site", number);
    return at_field(look->fault, line_number, line, PLAN_CLUSTER_BYTES + (size_t)same);
}

/* 22: the first of these in the text, then clusters without a line. All clusters are read where there is none. */
static int is_another_site(const struct look *look)
{
    struct fault *fault = look->fault;
    struct part rest = look->text, line = {0};
    uint32_t clusters = (uint32_t)look->site->clusters;

    take_line(&rest, &line);
    if (number_at(line.bytes, COUNT, 1) != clusters) {
        SAY(fault, "the header says %u clusters, and the site has %u", (unsigned)number_at(line.bytes, COUNT, 1),
            (unsigned)clusters);
        return at_field(fault, 1, line, COUNT);
    }
    for (uint32_t number = 2; take_line(&rest, &line); number++) {
        if (bad_field(fault, line, number, NUMBER, clusters))
            return at_line(fault, number, line);
        if (is_misplaced(look, number, line) || is_misdescribed(look, number, line))
            return 1;
        add_cluster(look->plan, line.bytes);
    }
    int missing = look->site->clusters - look->plan->clusters;
    if (missing > 0)
        SAY(fault, "%d cluster%s no line", missing, missing == 1 ? " has" : "s have");
    return missing > 0;
}

/* 23: the first portion that begins before the one above ends, or ends past the interval. Where none above
 * overlaps another, the one just above ends last of them. */
static int overlaps(const struct look *look)
{
    const struct plan *plan = look->plan;
    uint64_t interval = interval_of(plan);
    char by[TIME_WORDS];

    for (int i = 0; i < plan->clusters; i++) {
        int cluster = plan->sequence[i], above = i > 0 ? plan->sequence[i - 1] : -1;
        uint64_t start = plan->start[cluster], end = end_of(plan, cluster);
        uint64_t busy = above < 0 ? 0 : end_of(plan, above);
        uint32_t line_number = (uint32_t)i + 2;
        if (start >= busy && end <= interval)
            continue;
        look->fault->whole = 1;
        if (start < busy)
            SAY(look->fault, "two portions overlap by %s: cluster %d starts before cluster %d in the line above ends",
                time_words(by, (busy < end ? busy : end) - start), cluster, above);
        else
            SAY(look->fault, "cluster %d ends %s past the interval", cluster, time_words(by, end - interval));
        return at_field(look->fault, line_number, line_of(look->text, line_number), START);
    }
    return 0;
}

/* 24: the first flow that is late, and how many are. */
static int is_late(const struct look *look)
{
    const struct site *site = look->site;
    int first = next_late(site, look->plan, 0), late = 0;

    if (first == site->flows)
        return 0;
    for (int i = first; i < site->flows; i = next_late(site, look->plan, i + 1))
        late++;
    SAY(look->fault, "flow %d crosses %d and may cross %u; %d of %d flow%s %s late", first,
        crossings(site, look->plan, &site->flow[first]),
        (unsigned)allowed(site->flow[first].deadline, interval_of(look->plan)), late, site->flows,
        site->flows == 1 ? "" : "s", late == 1 ? "is" : "are");
    return 1;
}

int find_plan_fault(struct fault *fault, struct plan *plan, const struct site *site, struct part text)
{
    struct look look = {fault, plan, site, text};

    memset(fault, 0, sizeof *fault);
    memset(plan, 0, sizeof *plan);
    if (breaks_layout(&look))
        return CARTHERON_NO_PLAN_TEXT;
    if (is_not_permitted(&look))
        return CARTHERON_NOT_PERMITTED;
    if (is_another_site(&look))
        return CARTHERON_WRONG_CLUSTER;
    if (overlaps(&look))
        return CARTHERON_OVERLAP;
    return is_late(&look) ? CARTHERON_LATE : 0;
}
