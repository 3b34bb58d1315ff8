/* What the benchmark measures. */
#include <stdio.h>
#include <stdlib.h>
#include "duels.h"
#include "plain.h"

static uint8_t plan[CARTHERON_LONGEST_PLAN];
static size_t plan_len;

static uint32_t check_ours(const uint8_t *text, size_t text_len, uint8_t *room, size_t room_len)
{
    (void)room;
    (void)room_len;
    return cartheron_check(text, text_len, plan, plan_len);
}

static uint32_t check_plain(const uint8_t *text, size_t text_len, uint8_t *room, size_t room_len)
{
    (void)room;
    (void)room_len;
    return plain_check(text, text_len, plan, plan_len);
}

const struct duel planning = {cartheron_plan, plain_plan};
const struct duel rewriting = {cartheron_rewrite, plain_rewrite};
const struct duel checking = {check_ours, check_plain};

void keep_plan(const struct site *site)
{
    uint32_t answer = cartheron_plan(site->text, site->length, plan, sizeof plan);
    if (CARTHERON_REFUSED(answer)) {
        printf("FAILED: %s has no plan to check\n", site->name);
        exit(2);
    }
    plan_len = answer;
}
