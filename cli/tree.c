/* A site as a tree and a table. */
#include "tables.h"

/* Prints a cluster and, indented by one more, those below it, the lowest number first. */
static void show_below(FILE *out, const struct site *site, int number, int depth)
{
    const struct cluster *cluster = &site->cluster[number];

    fprintf(out, "%7d%7d", number, cluster->order);
    print_ms(out, symbols_of(cluster->order), 12);
    fprintf(out, "  %*s%s\n", 2 * depth, "", cluster->tag);
    for (int child = number + 1; child < site->clusters; child++)
        if (site->cluster[child].parent == number)
            show_below(out, site, child, depth + 1);
}

void show_site(FILE *out, const struct paint *paint, const struct site *site)
{
    fprintf(out, "clusters      %d\nflows         %d\nactive        ", site->clusters, site->flows);
    print_time(out, sum_of_portions(site));
    fprintf(out, ", the sum of the portions\n\n%sclusters%s\n", paint->heading, paint->end);
    fputs("cluster  order   length ms  tag\n", out);
    show_below(out, site, 0, 0);
    if (site->flows == 0)
        return;
    fprintf(out, "\n%sflows%s\n", paint->heading, paint->end);
    fputs("flow     period ms   deadline ms  source -> sink\n", out);
    for (int i = 0; i < site->flows; i++) {
        const struct flow *flow = &site->flow[i];
        fprintf(out, "%4d", i);
        print_ms(out, flow->period, 14);
        print_ms(out, flow->deadline, 14);
        fputs("  ", out);
        print_ends(out, site, flow);
        fputc('\n', out);
    }
}
