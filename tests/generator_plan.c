/* The plan texts of all cases: the planner's own and those of other tools, then damaged or not, and texts that are no
 * plan of the site. */
#include "generator.h"

#include "reference/brute.h"
#include "reference/plan_text.h"

#include <string.h>

#define INTERVAL(order) ((uint64_t)REFERENCE_BASE << (order))
#define LONGEST_PLAN 9673
#define PLACE_LENGTH 11

/* A plan before it becomes records: the clusters in order of start, and the idle time before each of them. */
struct proposal {
    unsigned order;
    uint8_t sequence[REFERENCE_CLUSTERS];
    uint64_t idle[REFERENCE_CLUSTERS];
};

/* The time that is left of the interval, or none where the portions do not fit. */
static uint64_t time_left(const struct reference_site *site, unsigned order)
{
    uint64_t sum = 0;

    for (size_t c = 0; c < site->clusters; c++)
        sum += INTERVAL(site->cluster[c].order);
    return sum < INTERVAL(order) ? INTERVAL(order) - sum : 0;
}

/* The planner's own plan. False if there is none. */
static bool propose_own(const struct text *text, const struct reference_site *site, struct proposal *proposal)
{
    uint8_t room[LONGEST_PLAN];
    uint32_t starts[REFERENCE_CLUSTERS];
    int order;
    uint32_t answer = reference_plan(text->bytes, text->length, room, sizeof room);

    if (answer > sizeof room || !plan_text_read(room, answer, site, &order, starts))
        return false;
    proposal->order = (unsigned)order;
    for (size_t c = 0; c < site->clusters; c++) {
        size_t turn = 0;
        for (size_t other = 0; other < site->clusters; other++)
            turn += starts[other] < starts[c];
        proposal->sequence[turn] = (uint8_t)c;
    }
    return true;
}

/* Any sequence, at an order that mostly fits. */
static void propose_any(struct dice *dice, const struct reference_site *site, struct proposal *proposal)
{
    unsigned order = 0;

    for (size_t c = 0; c < site->clusters; c++) {
        size_t other = below(dice, c + 1);
        proposal->sequence[c] = proposal->sequence[other];
        proposal->sequence[other] = (uint8_t)c;
    }
    while (order < REFERENCE_LARGEST_ORDER && !brute_fits(site, (int)order))
        order++;
    proposal->order = order + (unsigned)below(dice, once_in(dice, 3) ? 15 - order : 1);
}

/* Lets two clusters change places in the sequence: a cluster and its parent, neighbours, or any. */
static void swap_two(struct dice *dice, const struct reference_site *site, struct proposal *proposal)
{
    size_t one = pick(dice, site->clusters);
    size_t other = once_in(dice, 2) ? (one + 1) % site->clusters : below(dice, site->clusters);
    uint8_t cluster = proposal->sequence[one];

    if (cluster != 0 && once_in(dice, 2))
        for (other = 0; proposal->sequence[other] != site->cluster[cluster].parent; other++)
            ;
    proposal->sequence[one] = proposal->sequence[other];
    proposal->sequence[other] = cluster;
}

/* A smaller order, which still fits or just does not. */
static void lower_order(struct dice *dice, const struct reference_site *site, struct proposal *proposal)
{
    while (proposal->order > 0 && brute_fits(site, (int)proposal->order - 1) && !once_in(dice, 3))
        proposal->order--;
    if (proposal->order > 0 && once_in(dice, 12))
        proposal->order--;
}

/* Puts the time that is left before portions: all of it before one, or some before many. */
static void leave_idle(struct dice *dice, const struct reference_site *site, struct proposal *proposal)
{
    uint64_t left = time_left(site, proposal->order);

    if (once_in(dice, 3)) {
        proposal->idle[pick(dice, site->clusters)] = left;
        return;
    }
    for (size_t i = 0; i < site->clusters; i++)
        if (once_in(dice, 2)) {
            proposal->idle[i] = below(dice, once_in(dice, 2) ? 3 : left / site->clusters + 1);
            if (proposal->idle[i] > left)
                proposal->idle[i] = left;
            left -= proposal->idle[i];
        }
}

/* The start of each cluster. */
static void find_starts(const struct reference_site *site, const struct proposal *proposal, uint32_t *starts)
{
    uint64_t end = 0;

    for (size_t i = 0; i < site->clusters; i++) {
        uint8_t cluster = proposal->sequence[i];
        starts[cluster] = (uint32_t)(end + proposal->idle[i]);
        end += proposal->idle[i] + INTERVAL(site->cluster[cluster].order);
    }
}

/* The records of a plan, its clusters in order of start, and of those that start together the lowest first. */
static void draft_plan(const struct reference_site *site, unsigned order, const uint32_t *starts, struct draft *draft)
{
    draft->lines = 1 + (size_t)site->clusters;
    draft->clusters = site->clusters;
    draft->flows = 0;
    draft->line[0] = (struct draft_line){.length = 4, .bytes = {0x81, 1, (uint8_t)order, site->clusters}};
    for (size_t c = 0; c < site->clusters; c++) {
        const struct reference_cluster *cluster = &site->cluster[c];
        size_t turn = 0;
        for (size_t other = 0; other < site->clusters; other++)
            turn += starts[other] < starts[c] || (starts[other] == starts[c] && other < c);
        struct draft_line *line = &draft->line[1 + turn];
        *line = (struct draft_line){.length = (size_t)PLACE_LENGTH + cluster->tag_length, .bytes = {0x82, (uint8_t)c}};
        put_number(line, 2, starts[c]);
        put_number(line, 6, (uint32_t)INTERVAL(cluster->order));
        line->bytes[10] = cluster->tag_length;
        memcpy(line->bytes + PLACE_LENGTH, cluster->tag, cluster->tag_length);
    }
}

void write_plan(const struct reference_site *site, unsigned order, const uint32_t *starts, struct text *plan)
{
    struct draft draft;

    draft_plan(site, order, starts, &draft);
    write_draft(&draft, plan);
}

/* A plan for the site as another tool could have made it, or the planner's own. */
static void propose(struct dice *dice, const struct text *text, const struct reference_site *site,
                    struct proposal *proposal)
{
    memset(proposal, 0, sizeof *proposal);
    if (once_in(dice, 5) || !propose_own(text, site, proposal))
        propose_any(dice, site, proposal);
    if (once_in(dice, 3))
        lower_order(dice, site, proposal);
    if (once_in(dice, 3))
        swap_two(dice, site, proposal);
    if (once_in(dice, 2))
        leave_idle(dice, site, proposal);
}

/* Writes a plan for the site with no damage or up to three, to its records, its text, or both. */
static void write_damaged(struct dice *dice, const struct reference_site *site, unsigned order, const uint32_t *starts,
                          struct text *plan)
{
    struct draft draft;
    size_t kind = below(dice, 20);
    size_t damages = kind < 9 ? 1 : kind < 12 ? 2 : kind < 13 ? 3 : 0;

    draft_plan(site, order, starts, &draft);
    for (size_t i = 0; i < damages; i++)
        damage_plan(dice, site, &draft);
    write_draft(&draft, plan);
    if (kind >= 11 && kind < 15)
        damage_text(dice, plan);
}

void make_plan(struct dice *dice, const struct text *text, const struct reference_site *site, struct text *plan)
{
    struct reference_site other;
    struct proposal proposal;
    uint32_t starts[REFERENCE_CLUSTERS];

    switch (below(dice, site != NULL ? 40 : 4)) {
    case 0:
        plan->length = 0;
        return;
    case 1:
        plan->length = text->length;
        memcpy(plan->bytes, text->bytes, text->length);
        return;
    case 2:
        make_noise(dice, plan);
        return;
    case 3:
        make_site(dice, &other);
        memset(&proposal, 0, sizeof proposal);
        propose_any(dice, &other, &proposal);
        find_starts(&other, &proposal, starts);
        write_plan(&other, proposal.order, starts, plan);
        return;
    default:
        propose(dice, text, site, &proposal);
        find_starts(site, &proposal, starts);
        write_damaged(dice, site, proposal.order, starts, plan);
        return;
    }
}
