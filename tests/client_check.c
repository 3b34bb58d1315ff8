/* Plans for the worked sites of docs/FORMATS.md and their neighbours: what cartheron_check says of them. */
#include "client.h"

#include <string.h>

#define C0_AT_0 "820000000000000003C00141\n"
#define C1_AT_960 "8201000003C0000003C00142\n"
#define C2_AT_1920 "820200000780000003C00143\n"
#define C2_AT_0 "820200000000000003C00143\n"
/* The plan of P3 but for the root, which comes last. */
#define P3_HEAD "81010203\n" C2_AT_0 C1_AT_960
#define P7 "01010201\n" ROOT "0200000142\n0300010000078000000780\n"

/* What the checker says of a plan for a site. */
static uint32_t said(const char *site, const char *plan)
{
    return cartheron_check((const uint8_t *)site, strlen(site), (const uint8_t *)plan, strlen(plan));
}

static void accepts(const char *what, const char *site, const char *plan)
{
    check(said(site, plan) == 0, what);
}

/* The plan is refused by this number, with line 0. */
static void refuses(const char *what, const char *site, const char *plan, enum cartheron_refusal number)
{
    check(said(site, plan) == 65536u * number, what);
}

/* The plans of the worked sites, and other plans that are placings. */
static void plans_accepted(void)
{
    accepts("P1", "01010100\n" ROOT, "81010E01\n" C0_AT_0);
    accepts("P2", P2, P2_PLAN);
    accepts("P3", P3, P3_PLAN);
    accepts("P5", P5, P5_PLAN);
    accepts("P6 with the plan of P5", "01010302\n" CHAIN "030002000F424000001E00\n030200000F424000001E00\n", P5_PLAN);
    accepts("P7, whose interval is full", P7, "81010102\n" C0_AT_0 C1_AT_960);
    accepts("P9, whose flow has no path", "01010101\n" ROOT "030000000003C000000001\n", "81010001\n" C0_AT_0);
    accepts("P10", "01010301\n" ROOT "0200000142\n0200000143\n03010200000F0000000F00\n",
            "81010203\n820100000000000003C00142\n8200000003C0000003C00141\n" C2_AT_1920);
    accepts("P2 at a smaller order, in another sequence", P2, P3_PLAN);
    accepts("P3 with idle time up to the end of the interval", P3, P3_HEAD "820000000B40000003C00141\n");
}

/* Texts that are no plan for P3, by each number, and what decides where two apply. */
static void plans_refused(void)
{
    refuses("no plan", P3, "", CARTHERON_NO_PLAN_TEXT);
    refuses("a last line without LF", "01010100\n" ROOT, "81010E01\n820000000000000003C00141", CARTHERON_NO_PLAN_TEXT);
    refuses("a lower-case digit", P3, P3_HEAD "820000000780000003c00141\n", CARTHERON_NO_PLAN_TEXT);
    refuses("version 2", P3, "81020203\n" C2_AT_0 C1_AT_960 "820000000780000003C00141\n", CARTHERON_NO_PLAN_TEXT);
    refuses("the site as its own plan", P3, P3, CARTHERON_NO_PLAN_TEXT);
    refuses("order 3, whose interval is longer than the period", P3,
            "81010303\n" C2_AT_0 C1_AT_960 "820000000780000003C00141\n", CARTHERON_NOT_PERMITTED);
    refuses("order 15 without flows", "01010100\n" ROOT, "81010F01\n" C0_AT_0, CARTHERON_NOT_PERMITTED);
    refuses("P8, which has no plan, with that of P7", P8, "81010102\n" C0_AT_0 C1_AT_960, CARTHERON_NOT_PERMITTED);
    refuses("four clusters in the header", P3, "81010204\n" C2_AT_0 C1_AT_960 "820000000780000003C00141\n",
            CARTHERON_WRONG_CLUSTER);
    refuses("a cluster missing", P3, P3_HEAD, CARTHERON_WRONG_CLUSTER);
    refuses("a cluster twice", P3, P3_PLAN "820000000B40000003C00141\n", CARTHERON_WRONG_CLUSTER);
    refuses("a tag that is not the cluster's", P3, P3_HEAD "820000000780000003C00144\n", CARTHERON_WRONG_CLUSTER);
    refuses("a length that is not the portion", P3, P3_HEAD "820000000780000003C10141\n", CARTHERON_WRONG_CLUSTER);
    refuses("a start before that of the line above", P3, P3_HEAD "8200000003BF000003C00141\n", CARTHERON_WRONG_CLUSTER);
    refuses("two starts together", P3, P3_HEAD "8200000003C0000003C00141\n", CARTHERON_OVERLAP);
    refuses("an overlap of one symbol", P3, P3_HEAD "82000000077F000003C00141\n", CARTHERON_OVERLAP);
    refuses("one symbol past the interval", P3, P3_HEAD "820000000B41000003C00141\n", CARTHERON_OVERLAP);
    refuses("a start of 4,294,967,295", P3, P3_HEAD "8200FFFFFFFF000003C00141\n", CARTHERON_OVERLAP);
    refuses("the root first, and the flow is late", P3, "81010203\n" C0_AT_0 C1_AT_960 C2_AT_1920, CARTHERON_LATE);
    refuses("P4, which has no plan, with that of P5", P4, P5_PLAN, CARTHERON_LATE);
    refuses("late, and order 3: the lower number", P3, "81010303\n" C0_AT_0 C1_AT_960 C2_AT_1920,
            CARTHERON_NOT_PERMITTED);
}

void checked_plans(void)
{
    plans_accepted();
    plans_refused();
    check(said("01010100\n", "81010E01\n" C0_AT_0) == 65536u * CARTHERON_WRONG_KIND + 2,
          "a site that is refused at line 2");
    check(said("01020000\n", "") == 65536u * CARTHERON_BAD_HEADER + 1, "a site that is refused for a field");
    check(cartheron_check(NULL, 0, NULL, 0) == 65536u * CARTHERON_WRONG_KIND + 1,
          "no site and no plan, by null pointers");
    check(cartheron_check((const uint8_t *)P3, strlen(P3), NULL, 0) == 65536u * CARTHERON_NO_PLAN_TEXT,
          "P3 and no plan, by a null pointer");
}
