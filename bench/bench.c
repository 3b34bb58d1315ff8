/* The library and the plain C of bench/plain.h side by side, over sites in files.
 *
 *     bench times SITE..    microseconds a call; the first site is also read and written back
 *     bench checks SITE..   the same for checking the site's own plan, and beside it the library's time for planning
 *     bench stack SITE..    the stack under the library's functions
 *
 * Times are printed and not judged. Exit status 1 where answers or rooms differ or the stack passes its
 * limit, 2 where a site cannot be read.
 */
#define _GNU_SOURCE
#include <pthread.h>
#include <stdbool.h>
#include <stdio.h>
#include <stdlib.h>
#include <string.h>
#include <time.h>
#include "duels.h"
#include "plain.h"

#define STACK_LIMIT (16 * 1024)
#define ROOM CARTHERON_LONGEST_SITE
#define MOST_BLOCKS 8192
#define BLOCK_NS 100000.0
#define MEASURE_NS 1.0e9

static uint8_t room[ROOM], other_room[ROOM];

/* A clock that never goes back, in nanoseconds. */
static double now_ns(void)
{
    struct timespec t;
    clock_gettime(CLOCK_MONOTONIC, &t);
    return 1e9 * (double)t.tv_sec + (double)t.tv_nsec;
}

/* Nanoseconds a call takes, over a block of so many calls. */
static double block_ns(answering *function, const struct site *site, unsigned calls)
{
    double start = now_ns();
    for (unsigned i = 0; i < calls; i++)
        function(site->text, site->length, room, ROOM);
    return (now_ns() - start) / calls;
}

/* The order of two numbers, for qsort. */
static int by_size(const void *a, const void *b)
{
    double x = *(const double *)a, y = *(const double *)b;
    return (x > y) - (x < y);
}

/* The middle one of numbers, which are put in order. */
static double median(double *numbers, size_t count)
{
    qsort(numbers, count, sizeof *numbers, by_size);
    return numbers[count / 2];
}

/* Ends the program where the two functions differ in their answer or in a byte of their rooms, or the two sides in
 * the place of a bad field. */
static void agree(const struct duel *duel, const struct site *site)
{
    memset(room, '.', sizeof room);
    memset(other_room, '.', sizeof other_room);
    uint32_t ours = duel->ours(site->text, site->length, room, ROOM);
    uint32_t plain = duel->plain(site->text, site->length, other_room, ROOM);
    if (ours != plain || memcmp(room, other_room, sizeof room) != 0) {
        printf("FAILED: %s: the library answers %u, the plain C %u, or their rooms differ\n", site->name,
               (unsigned)ours, (unsigned)plain);
        exit(1);
    }
    ours = cartheron_place(site->text, site->length);
    plain = plain_place(site->text, site->length);
    if (ours != plain) {
        printf("FAILED: %s: the library gives the place %u, the plain C %u\n", site->name, (unsigned)ours,
               (unsigned)plain);
        exit(1);
    }
}

/* The shortest of the blocks so far, or this one. */
static double shorter(double least, double block)
{
    return block < least ? block : least;
}

/* Checks that both agree, then times them in blocks that alternate, and with them another function, if there is one.
 * Prints the shortest block of each, which other work on the machine disturbs least, the ratio of the two, and the
 * median ratio of neighbouring blocks; then the other function's, and what part of that the first one takes. */
static void measure(const char *name, const struct duel *duel, answering *other, const struct site *site)
{
    static double ratios[MOST_BLOCKS];
    agree(duel, site);
    unsigned calls = 1 + (unsigned)(BLOCK_NS / block_ns(duel->ours, site, 10));
    double start = now_ns(), least_ours = start, least_plain = start, least_other = start;
    size_t blocks = 0;
    while (blocks < MOST_BLOCKS && now_ns() - start < MEASURE_NS) {
        double ours = block_ns(duel->ours, site, calls), plain = block_ns(duel->plain, site, calls);
        least_ours = shorter(least_ours, ours);
        least_plain = shorter(least_plain, plain);
        ratios[blocks++] = ours / plain;
        if (other != NULL)
            least_other = shorter(least_other, block_ns(other, site, calls));
    }
    printf("  %-24s %9.3f %9.3f %7.2f %7.2f", name, least_ours / 1000, least_plain / 1000, least_ours / least_plain,
           median(ratios, blocks));
    if (other != NULL)
        printf(" %9.3f %7.2f", least_other / 1000, least_ours / least_other);
    printf("\n");
    fflush(stdout);
}

/* What a thread does on a stack of its own. */
struct errand {
    answering *function;
    const struct site *site;
};

/* A thread that calls a function for a site, or none: what any thread takes of its stack. */
static void *run_errand(void *given)
{
    const struct errand *errand = given;
    if (errand->function != NULL)
        errand->function(errand->site->text, errand->site->length, room, ROOM);
    return NULL;
}

/* How many bytes of a painted stack a thread uses; ends the program where none can be had. */
static size_t stack_of(struct errand errand)
{
    size_t size = 1 << 18, low = 0;
    uint8_t *stack = aligned_alloc(4096, size);
    pthread_attr_t attr;
    pthread_t thread;
    if (stack == NULL || pthread_attr_init(&attr) != 0)
        exit(2);
    memset(stack, 0xA5, size);
    if (pthread_attr_setstack(&attr, stack, size) != 0 || pthread_create(&thread, &attr, run_errand, &errand) != 0)
        exit(2);
    pthread_join(thread, NULL);
    while (low < size && stack[low] == 0xA5)
        low++;
    pthread_attr_destroy(&attr);
    free(stack);
    return size - low;
}

/* Prints the stack under the library's functions for a site that has a plan, and says whether it is within the
 * limit. */
static bool stack_within(const struct site *site)
{
    keep_plan(site);
    size_t idle = stack_of((struct errand){NULL, site});
    size_t plan = stack_of((struct errand){planning.ours, site}) - idle;
    size_t rewrite = stack_of((struct errand){rewriting.ours, site}) - idle;
    size_t check = stack_of((struct errand){checking.ours, site}) - idle;
    printf("  %-24s %9zu %9zu %9zu\n", site->name, plan, rewrite, check);
    return plan <= STACK_LIMIT && rewrite <= STACK_LIMIT && check <= STACK_LIMIT;
}

/* Times planning each site, and writing the first one back. */
static void print_times(int sites, char **paths)
{
    static struct site site;
    printf("microseconds a call              ours   plain C   ratio  median\n");
    for (int i = 0; i < sites; i++) {
        read_site(paths[i], &site);
        measure(site.name, &planning, NULL, &site);
        if (i == 0)
            measure(WRITTEN_BACK, &rewriting, NULL, &site);
    }
}

/* Times checking each site's own plan, and planning it. */
static void print_checks(int sites, char **paths)
{
    static struct site site;
    printf("checking, the same               ours   plain C   ratio  median  planning    part\n");
    for (int i = 0; i < sites; i++) {
        read_site(paths[i], &site);
        keep_plan(&site);
        measure(site.name, &checking, planning.ours, &site);
    }
}

/* Prints the stack for each site. Returns the exit status. */
static int judge_stack(int sites, char **paths)
{
    static struct site site;
    bool within = true;
    printf("stack, bytes; at most %d            plan   rewrite     check\n", STACK_LIMIT);
    for (int i = 0; i < sites; i++) {
        read_site(paths[i], &site);
        within = stack_within(&site) && within;
    }
    if (!within)
        printf("FAILED: the stack passes its limit\n");
    return !within;
}

int main(int argc, char **argv)
{
    const char *work = argc > 2 ? argv[1] : "";
    if (strcmp(work, "times") == 0) {
        print_times(argc - 2, argv + 2);
    } else if (strcmp(work, "checks") == 0) {
        print_checks(argc - 2, argv + 2);
    } else if (strcmp(work, "stack") == 0) {
        return judge_stack(argc - 2, argv + 2);
    } else {
        printf("usage: bench times|checks|stack SITE..\n");
        return 2;
    }
    return 0;
}
