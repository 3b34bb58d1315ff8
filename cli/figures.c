/* Figures for a plan that is refused. */
#include "figures.h"
#include "tell.h"

/* 21: which orders are permitted, and why no more. */
static void figures_of_order(FILE *words, const struct site *site)
{
    int shortest = most_frequent(site), largest = LARGEST_ORDER;

    while (largest >= 0 && shortest >= 0 && symbols_of(largest) > site->flow[shortest].period)
        largest--;
    print_shortest_period(words, site);
    if (largest < 0)
        fputs("  No order has an interval as short as that period: none is permitted.\n", words);
    else if (largest == 0)
        fputs("  Only order 0 is permitted.\n", words);
    else
        fprintf(words, "  Orders 0 to %d are permitted.\n", largest);
}

/* Prints the tag that the line of a cluster gives, other than printable bytes as ?, and the one that the site has. */
static void print_tags(FILE *words, const uint8_t *line, const struct site *site)
{
    uint32_t length = number_at(line, PLAN_CLUSTER_BYTES - 1, 1);

    fputs(length == 0 ? "  no tag in the plan" : "  tag in the plan: ", words);
    for (uint32_t i = 0; i < length; i++) {
        uint32_t byte = number_at(line, PLAN_CLUSTER_BYTES + (size_t)i, 1);
        fputc(byte >= 0x20 && byte <= 0x7E ? (int)byte : '?', words);
    }
    fprintf(words, "\n  tag in the site: %s\n", site->cluster[number_at(line, 1, 1)].tag);
}

/* Prints the clusters for which a text has no line, which is laid out as a plan. */
static void print_missing(FILE *words, const struct site *site, struct part text)
{
    int has_line[256] = {0};
    struct part line;

    take_line(&text, &line);
    while (take_line(&text, &line))
        has_line[number_at(line.bytes, 1, 1)] = 1;
    for (int i = 0; i < site->clusters; i++)
        if (!has_line[i])
            fprintf(words, "  no line for cluster %d: %s\n", i, site->cluster[i].tag);
}

/* 22: both tags where the fault is in one, and the clusters that have no line. */
static void figures_of_clusters(FILE *words, const struct fault *fault, const struct site *site, struct part text)
{
    if (fault->line_number > 1 && fault->column >= 2 * (PLAN_CLUSTER_BYTES - 1))
        print_tags(words, fault->line.bytes, site);
    print_missing(words, site, text);
}

/* 23: the portion in a line, and the one above where they overlap. */
static void figures_of_portions(FILE *words, const struct fault *fault, const struct plan *plan,
                                const struct site *site)
{
    int last = (int)fault->line_number - 2, first = last;

    if (last > 0 && plan->start[plan->sequence[last]] < end_of(plan, plan->sequence[last - 1]))
        first--;
    for (int i = first; i <= last; i++) {
        int cluster = plan->sequence[i];
        fprintf(words, "  line %d, cluster %d: ", i + 2, cluster);
        print_time(words, plan->start[cluster]);
        fputs(" to ", words);
        print_time(words, end_of(plan, cluster));
        fprintf(words, ", %s\n", site->cluster[cluster].tag);
    }
    fputs("  the interval is ", words);
    print_time(words, interval_of(plan));
    fprintf(words, ", order %d\n", plan->order);
}

/* The largest order below a plan's at which its sequence fits and makes no flow late; -1 where there is none. */
static int order_in_time(const struct site *site, const struct plan *plan)
{
    struct plan shorter = *plan;

    do
        shorter.order--;
    while (shorter.order >= 0 && next_late(site, &shorter, 0) < site->flows);
    return shorter.order >= 0 && interval_of(&shorter) >= sum_of_portions(site) ? shorter.order : -1;
}

/* 24: the first late flow, where on its path it crosses a period, and the order at which the sequence would do. */
static void figures_of_flow(FILE *words, const struct plan *plan, const struct site *site)
{
    int number = next_late(site, plan, 0), path[2 * MOST_CLUSTERS];
    const struct flow *flow = &site->flow[number];
    int count = path_of(site, flow, path), shorter = order_in_time(site, plan);
    const char *separator = "  it crosses a period from cluster ";

    fprintf(words, "  flow %d: ", number);
    print_ends(words, site, flow);
    fputs("\n  its deadline is ", words);
    print_time(words, flow->deadline);
    fputs(", and the interval is ", words);
    print_time(words, interval_of(plan));
    fprintf(words, ", order %d\n", plan->order);
    for (int i = 1; i < count; i++) {
        if (plan->start[path[i]] >= plan->start[path[i - 1]])
            continue;
        fprintf(words, "%s%d to %d", separator, path[i - 1], path[i]);
        separator = ", from ";
    }
    fputc('\n', words);
    if (shorter >= 0)
        fprintf(words, "  In this sequence of clusters no flow would be late at order %d.\n", shorter);
}

void print_figures(FILE *words, enum cartheron_refusal number, const struct fault *fault, const struct plan *plan,
                   const struct site *site, struct part text)
{
    if (number == CARTHERON_NOT_PERMITTED)
        figures_of_order(words, site);
    else if (number == CARTHERON_WRONG_CLUSTER)
        figures_of_clusters(words, fault, site, text);
    else if (number == CARTHERON_OVERLAP)
        figures_of_portions(words, fault, plan, site);
    else if (number == CARTHERON_LATE)
        figures_of_flow(words, plan, site);
}
