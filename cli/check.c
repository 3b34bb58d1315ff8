/* A plan from anywhere, checked for a site. */
#include "check.h"
#include "cartheron.h"
#include "tables.h"
#include "tell.h"

/* The order of the planner's own plan, the largest that any plan for the site has; -1 where it has none. */
static int largest_order(struct part site)
{
    uint8_t room[CARTHERON_LONGEST_PLAN];
    uint32_t length = cartheron_plan(site.bytes, site.length, room, sizeof room);
    struct plan plan;

    if (CARTHERON_REFUSED(length))
        return -1;
    plan_of_text(&plan, (struct part){room, length});
    return plan.order;
}

/* Says how the flows keep their deadlines. */
static void print_flows(FILE *out, const struct site *site, const struct plan *plan)
{
    int full = 0, short_ones = 0;

    for (int i = 0; i < site->flows; i++) {
        uint32_t deadline = site->flow[i].deadline;
        full += (uint32_t)crossings(site, plan, &site->flow[i]) == allowed(deadline, interval_of(plan));
        short_ones += deadline < interval_of(plan);
    }
    fprintf(out, "  %d flow%s", site->flows, site->flows == 1 ? "" : "s");
    if (site->flows > 0)
        fprintf(out, ", %s by the rule, %d with no crossing to spare",
                site->flows == 1 ? "within its deadline" : "all within their deadlines", full);
    fputc('\n', out);
    if (short_ones > 0)
        fprintf(out, "  %d flow%s a deadline shorter than the interval: " SHORT_DEADLINE_WORDS("  "), short_ones,
                short_ones == 1 ? " has" : "s have");
}

/* Says whether a larger order is possible, and what it would bring. */
static void print_possible(FILE *out, const struct site *site, const struct plan *plan, int largest)
{
    if (largest <= plan->order) {
        fputs("  no larger order is possible\n", out);
        return;
    }
    fprintf(out, "  order %d is possible, as cartheron plan has it: an interval of ", largest);
    print_time(out, symbols_of(largest));
    if (largest == plan->order + 1)
        fputs(", twice as long,\n", out);
    else
        fprintf(out, ", %u times as long,\n", 1u << (largest - plan->order));
    fputs("  and asleep for ", out);
    print_asleep(out, site, symbols_of(largest));
    fputc('\n', out);
}

/* Prints what is to know of a plan that was accepted. */
static void print_checked(FILE *out, const struct request *request, const struct site *site, const struct plan *plan,
                          int largest)
{
    print_name(out, request->plan_name);
    fputs(" is a plan for ", out);
    print_name(out, request->name);
    fprintf(out, ": order %d, interval ", plan->order);
    print_time(out, interval_of(plan));
    fprintf(out, "\n  %d cluster%s, active for ", site->clusters, site->clusters == 1 ? "" : "s");
    print_time(out, sum_of_portions(site));
    fputs(", asleep for ", out);
    print_asleep(out, site, interval_of(plan));
    fputc('\n', out);
    print_flows(out, site, plan);
    print_possible(out, site, plan, largest);
}

enum status check(FILE *out, FILE *words, const struct request *request)
{
    const struct part *text = &request->text, *plan_text = &request->plan;
    const struct paint *paint = paint_for(request->colour_words);
    uint32_t answer = cartheron_check(text->bytes, text->length, plan_text->bytes, plan_text->length);
    struct site site;
    struct plan plan;

    if (answer != 0 && CARTHERON_NUMBER(answer) < CARTHERON_NO_PLAN_TEXT) {
        tell(words, paint, request->name, *text, answer);
        return ferror(words) ? FAILED : REFUSED;
    }
    site_of_text(&site, *text);
    int largest = largest_order(*text);
    if (answer != 0) {
        tell_plan(words, paint, request->plan_name, *plan_text, &site, answer);
        if (largest < 0)
            fputs("  No plan passes for this site: cartheron plan says why it has none.\n", words);
        return ferror(words) ? FAILED : REFUSED;
    }
    plan_of_text(&plan, *plan_text);
    if (request->json)
        json_checked(out, &site, &plan, largest);
    else
        print_checked(out, request, &site, &plan, largest);
    return ferror(out) ? FAILED : ANSWERED;
}

int cut_plan(struct part site, struct part *plan)
{
    size_t behind = 0; /* characters behind the last LF */

    while (behind < plan->length && plan->bytes[plan->length - 1 - behind] != '\n')
        behind++;
    if (behind <= MOST_PLAN_DIGITS)
        plan->length -= behind;
    uint32_t answer = cartheron_check(site.bytes, site.length, plan->bytes, plan->length);
    return answer == 0 || CARTHERON_NUMBER(answer) > CARTHERON_NO_PLAN_TEXT ? -1 : 0;
}
