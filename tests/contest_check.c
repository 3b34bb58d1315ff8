/* The comparison of the checker in one case of the differential test. */
#include "contest.h"
#include "plain.h"
#include "reference/brute.h"
#include "reference/plan_text.h"

#include <stdio.h>
#include <stdlib.h>
#include <string.h>

/* Sites of up to so many clusters are checked in all their sequences, one in so many of them, and with so many plans
 * of arbitrary starts. */
#define EXHAUSTED_CLUSTERS 4
#define EXHAUSTED_ONE_IN 16
#define ARBITRARY_PLANS 8

/* Reports the answers to a plan and ends the run. */
static _Noreturn void give_up_check(const struct contest *contest, const struct text *plan, const char *words,
                                    const uint32_t *answers)
{
    report(contest, words);
    printf("the plan, a ");
    print_text(plan);
    print_answer("library  ", answers[0]);
    print_answer("reference", answers[1]);
    print_answer("plain C  ", answers[2]);
    exit(1);
}

/* Has the three check a plan, and compares their answers with each other and with what has to come: a yes or not,
 * where that is known. A plan that is the site's own text is handed over as that text. */
static uint32_t judge(const struct contest *contest, const struct text *plan, const bool *yes)
{
    const uint8_t *text = contest->text.length > 0 ? contest->text.bytes : NULL;
    const uint8_t *bytes = plan->length > 0 ? plan->bytes : NULL;
    size_t text_len = contest->text.length;

    if (plan->length == text_len && text_len > 0 && memcmp(plan->bytes, text, text_len) == 0)
        bytes = text;
    const uint32_t answers[] = {cartheron_check(text, text_len, bytes, plan->length),
                                reference_check(text, text_len, bytes, plan->length),
                                plain_check(text, text_len, bytes, plan->length)};
    if (answers[0] != answers[1] || answers[2] != answers[1])
        give_up_check(contest, plan, "the answers to a plan are not the same", answers);
    if (yes != NULL && *yes != (answers[1] == 0))
        give_up_check(contest, plan, "the answer to a plan is not what a placing is", answers);
    return answers[1];
}

/* Whether a text is the plan text of some permitted order, which is given, and some placing at it. */
static bool is_plan(const struct reference_site *site, const struct text *plan, int *order)
{
    uint32_t starts[REFERENCE_CLUSTERS];

    return plan_text_read(plan->bytes, plan->length, site, order, starts) && brute_permitted(site, *order) &&
           brute_is_placing(site, *order, starts);
}

void check_own_plan(const struct contest *contest, uint32_t length)
{
    static struct text plan;

    plan.length = length;
    memcpy(plan.bytes, contest->product + GUARD, length);
    judge(contest, &plan, &(const bool){true});
}

uint32_t compare_check(struct contest *contest, int order)
{
    struct dice dice = dice_of(~contest->seed, contest->number);
    struct reference_site site;
    uint32_t refused = reference_read(contest->text.bytes, contest->text.length, &site);
    int plan_order = 0;

    make_plan(&dice, &contest->text, refused == 0 ? &site : NULL, &contest->plan);
    continue_text(&dice, &contest->plan);
    bool yes = refused == 0 && is_plan(&site, &contest->plan, &plan_order);
    uint32_t answer = judge(contest, &contest->plan, &yes);
    if (refused != 0 && answer != refused)
        give_up(contest, "the checker refuses the site by another number than the reader");
    if (yes && plan_order > order)
        give_up(contest, "a plan is accepted at a larger order than the planner's");
    contest->tally->checked[answer >> 16]++;
    return answer;
}

/* Arbitrary starts, most of them near where a portion of the smallest length could start. */
static void draw_starts(struct dice *dice, const struct reference_site *site, uint32_t *starts)
{
    uint32_t unit = UINT32_MAX;

    for (size_t c = 0; c < site->clusters; c++)
        if (REFERENCE_BASE << site->cluster[c].order < unit)
            unit = REFERENCE_BASE << site->cluster[c].order;
    for (size_t c = 0; c < site->clusters; c++) {
        starts[c] = unit * (uint32_t)below(dice, (size_t)site->clusters + 3);
        if (once_in(dice, 4))
            starts[c] += 2 * (uint32_t)below(dice, 2) - 1;
        if (once_in(dice, 30))
            starts[c] = (uint32_t)roll(dice);
    }
}

/* Has a plan of these starts at this order checked, and says whether the answer is a yes, as it has to be exactly if
 * they are a placing at a permitted order. */
static bool accepts(const struct contest *contest, const struct reference_site *site, int order, const uint32_t *starts)
{
    static struct text plan;
    bool yes = order <= REFERENCE_LARGEST_ORDER && brute_permitted(site, order) &&
               brute_is_placing(site, order, starts);

    write_plan(site, (unsigned)order, starts, &plan);
    judge(contest, &plan, &yes);
    return yes;
}

/* Gives the places from this one on to the clusters that have none, in every way, end to end, and has each sequence
 * checked at all orders. A cluster without a place starts at UINT32_MAX. Returns the largest order accepted, or -1. */
static int try_sequences(const struct contest *contest, const struct reference_site *site, uint32_t *starts,
                         size_t placed, uint32_t end)
{
    int largest = -1;

    for (int order = 0; placed == site->clusters && order <= REFERENCE_LARGEST_ORDER + 1; order++)
        if (accepts(contest, site, order, starts))
            largest = order;
    for (size_t c = 0; c < site->clusters; c++) {
        if (starts[c] != UINT32_MAX)
            continue;
        starts[c] = end;
        int found = try_sequences(contest, site, starts, placed + 1, end + (REFERENCE_BASE << site->cluster[c].order));
        starts[c] = UINT32_MAX;
        largest = found > largest ? found : largest;
    }
    return largest;
}

void exhaust_check(struct contest *contest, int order)
{
    struct dice dice = dice_of(~contest->seed - 1, contest->number);
    struct reference_site site;
    uint32_t starts[REFERENCE_CLUSTERS];

    if (reference_read(contest->text.bytes, contest->text.length, &site) != 0 || site.clusters > EXHAUSTED_CLUSTERS ||
        !once_in(&dice, EXHAUSTED_ONE_IN))
        return;
    for (size_t i = 0; i < ARBITRARY_PLANS; i++) {
        draw_starts(&dice, &site, starts);
        accepts(contest, &site, (int)below(&dice, 16), starts);
    }
    memset(starts, 0xFF, sizeof starts);
    if (try_sequences(contest, &site, starts, 0, 0) != order)
        give_up(contest, "the largest order that the checker accepts is not the planner's");
    contest->tally->exhausted++;
}
