/* A plan and a site as JSON. All numbers are integers, all times symbols. */
#include "tables.h"

/* Prints a tag as a string. Its bytes are 21 to 7E, of which only " and \ need an escape. */
static void print_string(FILE *out, const char *tag)
{
    fputc('"', out);
    for (; *tag != '\0'; tag++) {
        if (*tag == '"' || *tag == '\\')
            fputc('\\', out);
        fputc(*tag, out);
    }
    fputc('"', out);
}

/* Prints what a cluster is, without the brace that ends it. */
static void print_cluster(FILE *out, const struct site *site, int number)
{
    const struct cluster *cluster = &site->cluster[number];

    fprintf(out, "    {\"cluster\": %d, \"tag\": ", number);
    print_string(out, cluster->tag);
    if (cluster->parent == NO_PARENT)
        fputs(", \"parent\": null", out);
    else
        fprintf(out, ", \"parent\": %d", cluster->parent);
    fprintf(out, ", \"superframe_order\": %d, \"length\": %u", cluster->order, (unsigned)symbols_of(cluster->order));
}

/* Prints what a flow is, without the brace that ends it. */
static void print_flow(FILE *out, const struct site *site, int number)
{
    const struct flow *flow = &site->flow[number];

    fprintf(out, "    {\"flow\": %d, \"source\": %d, \"source_tag\": ", number, flow->source);
    print_string(out, site->cluster[flow->source].tag);
    fprintf(out, ", \"sink\": %d, \"sink_tag\": ", flow->sink);
    print_string(out, site->cluster[flow->sink].tag);
    fprintf(out, ", \"period\": %u, \"deadline\": %u", (unsigned)flow->period, (unsigned)flow->deadline);
}

/* Begins a list by its key, and ends it. Entries stand between, each behind a separator. */
static void begin_list(FILE *out, const char *key)
{
    fprintf(out, ",\n  \"%s\": [", key);
}

static void separate(FILE *out, int entry)
{
    fputs(entry == 0 ? "\n" : ",\n", out);
}

static void end_list(FILE *out, int entries)
{
    fputs(entries == 0 ? "]" : "\n  ]", out);
}

/* Begins the object of a plan with what it is as a whole. */
static void begin_plan(FILE *out, const struct site *site, const struct plan *plan)
{
    uint32_t interval = interval_of(plan), active = sum_of_portions(site);

    fprintf(out, "{\n  \"symbol_microseconds\": 16,\n  \"beacon_order\": %d,\n  \"interval\": %u,\n"
                 "  \"active\": %u,\n  \"asleep\": %u",
            plan->order, (unsigned)interval, (unsigned)active, (unsigned)(interval - active));
}

/* Ends it with its clusters and flows. */
static void end_plan(FILE *out, const struct site *site, const struct plan *plan)
{
    begin_list(out, "clusters");
    for (int i = 0; i < site->clusters; i++) {
        separate(out, i);
        print_cluster(out, site, plan->sequence[i]);
        fprintf(out, ", \"start\": %u}", (unsigned)plan->start[plan->sequence[i]]);
    }
    end_list(out, site->clusters);
    begin_list(out, "flows");
    for (int i = 0; i < site->flows; i++) {
        separate(out, i);
        print_flow(out, site, i);
        fprintf(out, ", \"crossings\": %d, \"allowed\": %u}", crossings(site, plan, &site->flow[i]),
                (unsigned)allowed(site->flow[i].deadline, interval_of(plan)));
    }
    end_list(out, site->flows);
    fputs("\n}\n", out);
}

void json_plan(FILE *out, const struct site *site, const struct plan *plan)
{
    begin_plan(out, site, plan);
    end_plan(out, site, plan);
}

void json_checked(FILE *out, const struct site *site, const struct plan *plan, int largest)
{
    begin_plan(out, site, plan);
    fprintf(out, ",\n  \"largest_order\": %d", largest);
    end_plan(out, site, plan);
}

void json_site(FILE *out, const struct site *site)
{
    fprintf(out, "{\n  \"symbol_microseconds\": 16,\n  \"active\": %u", (unsigned)sum_of_portions(site));
    begin_list(out, "clusters");
    for (int i = 0; i < site->clusters; i++) {
        separate(out, i);
        print_cluster(out, site, i);
        fputc('}', out);
    }
    end_list(out, site->clusters);
    begin_list(out, "flows");
    for (int i = 0; i < site->flows; i++) {
        separate(out, i);
        print_flow(out, site, i);
        fputc('}', out);
    }
    end_list(out, site->flows);
    fputs("\n}\n", out);
}
