/* Figures and advice for a site that reads and cannot be planned. */
#include "tell.h"

/* The smallest order that the portions fit; one more than the largest where none does. */
static int smallest_fitting(uint32_t sum)
{
    int order = 0;

    while (order <= LARGEST_ORDER && symbols_of(order) < sum)
        order++;
    return order;
}

/* Says what the portions sum to and which interval they want. */
static void print_wanted(FILE *words, uint32_t sum)
{
    int order = smallest_fitting(sum);

    fputs("  the portions sum to ", words);
    print_time(words, sum);
    if (order > LARGEST_ORDER) {
        fprintf(words, ", more than the longest interval, order %d, ", LARGEST_ORDER);
        print_time(words, symbols_of(LARGEST_ORDER));
    } else {
        fprintf(words, " and want an interval of order %d, ", order);
        print_time(words, symbols_of(order));
    }
    fputc('\n', words);
}

void print_shortest_period(FILE *words, const struct site *site)
{
    int shortest = most_frequent(site);

    if (shortest < 0)
        return;
    fputs("  the shortest required period is ", words);
    print_time(words, site->flow[shortest].period);
    fprintf(words, ", of flow %d: ", shortest);
    print_ends(words, site, &site->flow[shortest]);
    fputc('\n', words);
}

void advise_no_fit(FILE *words, const struct site *site)
{
    int shortest = most_frequent(site);
    int order = smallest_fitting(sum_of_portions(site));

    print_wanted(words, sum_of_portions(site));
    print_shortest_period(words, site);
    int too_long = order > LARGEST_ORDER;
    int too_frequent = shortest >= 0 && site->flow[shortest].period < symbols_of(0);
    if (too_long)
        fputs("  No interval is that long: lower the clusters' superframe orders.\n", words);
    if (too_frequent)
        fputs("  No interval is as short as that period: require the most frequent flows less often.\n", words);
    if (!too_long && !too_frequent)
        fputs("  Lower the clusters' superframe orders, or require the most frequent flows less often.\n", words);
}

/* At the smallest order that fits the deadlines allow most: it has no plan, so none has. */
void advise_no_placing(FILE *words, const struct site *site)
{
    uint32_t interval = symbols_of(smallest_fitting(sum_of_portions(site)));

    print_wanted(words, sum_of_portions(site));
    fputs("  at that order, the smallest that fits, the deadlines allow these crossings:\n"
          "  flow  allowed  steps on the path   deadline ms  source -> sink\n", words);
    for (int i = 0; i < site->flows; i++) {
        const struct flow *flow = &site->flow[i];
        int path[2 * MOST_CLUSTERS];
        int steps = path_of(site, flow, path) - 1;
        fprintf(words, "%6d%9u%19d", i, (unsigned)allowed(flow->deadline, interval), steps);
        print_ms(words, flow->deadline, 14);
        fputs("  ", words);
        print_ends(words, site, flow);
        fputc('\n', words);
    }
    fputs("  Lengthen the deadlines of flows that go opposite ways through the same clusters: a deadline of\n"
          "  two intervals allows one crossing, and each interval more allows one more.\n", words);
}
