/* The largest site: written back into rooms around its length, and the stack under each function of cartheron.h. */
#define _GNU_SOURCE
#include "client.h"

#include <pthread.h>
#include <stdio.h>
#include <stdlib.h>
#include <string.h>

#define MOST_STACK (16 * 1024)

static char site[CARTHERON_LONGEST_SITE + 1];
static size_t site_len;
static uint8_t plan[CARTHERON_LONGEST_PLAN];
static uint32_t answer;

/* 64 clusters in a chain, tags of 64 bytes, 128 flows both ways with this deadline. */
static size_t largest(char *text, unsigned deadline)
{
    char *at = text + sprintf(text, "01014080\n");
    for (int c = 0; c < 64; c++) {
        at += sprintf(at, "02%02X0040", c == 0 ? 255 : c - 1);
        for (int i = 0; i < 64; i++)
            at += sprintf(at, "%02X", i < 62 ? 'A' + (i * 7 + c) % 26 : i == 62 ? 'A' + c / 26 : 'A' + c % 26);
        *at++ = '\n';
    }
    for (int f = 0; f < 128; f++)
        at += sprintf(at, "03%02X%02X%08X%08X\n", f % 2 ? 63 : 0, f % 2 ? 0 : 63, 1000000000u, deadline);
    return (size_t)(at - text);
}

static void *planning(void *nothing)
{
    answer = cartheron_plan((const uint8_t *)site, site_len, memory, sizeof memory);
    return nothing;
}

static void *rewriting(void *nothing)
{
    answer = cartheron_rewrite((const uint8_t *)site, site_len, memory, sizeof memory);
    return nothing;
}

static void *finding_the_place(void *nothing)
{
    answer = cartheron_place((const uint8_t *)site, site_len);
    return nothing;
}

static void *checking(void *nothing)
{
    answer = cartheron_check((const uint8_t *)site, site_len, plan, sizeof plan);
    return nothing;
}

static void *idle(void *nothing)
{
    return nothing;
}

/* How many bytes of a painted stack a thread uses. */
static size_t stack_of(void *(*work)(void *))
{
    size_t size = 1 << 18, used = size;
    uint8_t *stack = aligned_alloc(4096, size);
    pthread_attr_t attr;
    pthread_t thread;
    if (!stack)
        return 0;
    memset(stack, 0xA5, size);
    pthread_attr_init(&attr);
    if (pthread_attr_setstack(&attr, stack, size) == 0 && pthread_create(&thread, &attr, work, NULL) == 0) {
        pthread_join(thread, NULL);
        size_t low = 0;
        while (low < size && stack[low] == 0xA5)
            low++;
        used = size - low;
    }
    pthread_attr_destroy(&attr);
    free(stack);
    return used;
}

/* Measures the stack under a function, and checks that it is within the limit. */
static void measure(const char *name, void *(*work)(void *))
{
    char what[80];
    size_t used = stack_of(work) - stack_of(idle);
    snprintf(what, sizeof what, "the stack under %s is at most 16 KiB", name);
    check(used <= MOST_STACK, what);
    printf("stack under %s: %zu bytes\n", name, used);
}

void largest_site(void)
{
    site_len = largest(site, 61440 * 32);
    check(site_len == CARTHERON_LONGEST_SITE, "the longest site has 11,721 bytes");
    writes("the longest site written back into a room just as long", cartheron_rewrite, site, site_len, site);
    declines("the longest site written back into a room one byte short", cartheron_rewrite, site, site_len - 1,
             CARTHERON_SHORT_ROOM, 0);
    clear();
    measure("cartheron_plan", planning);
    check(answer == 65536u * CARTHERON_NO_PLACING && holds(""), "the largest site has no placing, and the room stays");
    measure("cartheron_rewrite", rewriting);
    check(answer == site_len && holds(site), "the largest site written back on a painted stack");
    memset(site + site_len - 9, '0', 8);
    measure("cartheron_place", finding_the_place);
    check(answer == 7, "the largest site, its last deadline 0: the place on a painted stack");
    largest(site, 1000000000);
    check(cartheron_plan((const uint8_t *)site, site_len, plan, sizeof plan) == sizeof plan,
          "the largest site with the latest deadlines has the longest plan");
    measure("cartheron_check", checking);
    check(answer == 0, "the longest plan checked on a painted stack");
    largest(site, 61440 * 32);
    checking(NULL);
    check(answer == 65536u * CARTHERON_LATE, "the longest plan for the largest site that has none");
}
