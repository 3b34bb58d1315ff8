/* A plan as a table. */
#include "tables.h"

#define NONE_TO_SPARE '!'
#define SHORT_DEADLINE '<'

static void show_interval(FILE *out, const struct site *site, const struct plan *plan)
{
    fprintf(out, "beacon order  %d\ninterval      ", plan->order);
    print_time(out, interval_of(plan));
    fputs("\nactive        ", out);
    print_time(out, sum_of_portions(site));
    fputs(", one cluster after the other\nasleep        ", out);
    print_asleep(out, site, interval_of(plan));
    fputc('\n', out);
}

static void show_sequence(FILE *out, const struct paint *paint, const struct site *site, const struct plan *plan)
{
    fprintf(out, "\n%sclusters in order of start%s\n", paint->heading, paint->end);
    fputs("   start    start ms    length   length ms  cluster  parent  tag\n", out);
    for (int i = 0; i < site->clusters; i++) {
        int number = plan->sequence[i];
        const struct cluster *cluster = &site->cluster[number];
        fprintf(out, "%8u", (unsigned)plan->start[number]);
        print_ms(out, plan->start[number], 12);
        fprintf(out, "%10u", (unsigned)plan->length[number]);
        print_ms(out, plan->length[number], 12);
        if (cluster->parent == NO_PARENT)
            fprintf(out, "%9d%8s", number, "-");
        else
            fprintf(out, "%9d%8d", number, cluster->parent);
        fprintf(out, "  %s\n", cluster->tag);
    }
}

/* Prints a flow. Returns whether it has no crossing to spare, plus 2 where its deadline is shorter than
 * the interval. */
static int show_flow(FILE *out, const struct paint *paint, const struct site *site, const struct plan *plan, int number)
{
    const struct flow *flow = &site->flow[number];
    uint32_t taken = (uint32_t)crossings(site, plan, flow), most = allowed(flow->deadline, interval_of(plan));
    int full = taken == most, late = flow->deadline < interval_of(plan);

    fprintf(out, "%4d%11u%9u", number, (unsigned)taken, (unsigned)most);
    print_ms(out, flow->period, 14);
    print_ms(out, flow->deadline, 14);
    fprintf(out, "  %s%c%c%s  ", paint->mark, full ? NONE_TO_SPARE : ' ', late ? SHORT_DEADLINE : ' ', paint->end);
    print_ends(out, site, flow);
    fputc('\n', out);
    return full + 2 * late;
}

void show_plan(FILE *out, const struct paint *paint, const struct site *site, const struct plan *plan)
{
    int seen = 0;

    show_interval(out, site, plan);
    show_sequence(out, paint, site, plan);
    if (site->flows == 0) {
        fputs("\nno flows\n", out);
        return;
    }
    fprintf(out, "\n%sflows%s\n", paint->heading, paint->end);
    fputs("flow  crossings  allowed     period ms   deadline ms      source -> sink\n", out);
    for (int i = 0; i < site->flows; i++)
        seen |= show_flow(out, paint, site, plan, i);
    if (seen & 1)
        fprintf(out, "%c  no crossing to spare\n", NONE_TO_SPARE);
    if (seen & 2)
        fprintf(out, "%c  a deadline shorter than the interval: " SHORT_DEADLINE_WORDS("   "), SHORT_DEADLINE);
}
