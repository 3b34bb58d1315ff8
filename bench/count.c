/* One call of each side for each site, between requests to valgrind's callgrind: it writes a file for each call
 * with the number of instructions that the call took. It prints the names of the sites; each has two files, that
 * of the library first. Behind -- stand the sites whose own plan is checked: their names end in -checked.
 *
 *     valgrind --tool=callgrind --collect-atstart=no count SITE.. -- SITE..
 */
#include <stdio.h>
#include <string.h>
#include <valgrind/callgrind.h>
#include "duels.h"

static uint8_t room[CARTHERON_LONGEST_SITE];

/* Has a call counted. The first call is for what is done only once, as finding the functions of string.h. */
static void count_call(answering *function, const struct site *site)
{
    function(site->text, site->length, room, sizeof room);
    CALLGRIND_TOGGLE_COLLECT;
    function(site->text, site->length, room, sizeof room);
    CALLGRIND_TOGGLE_COLLECT;
    CALLGRIND_DUMP_STATS;
}

/* Has both sides counted, and prints under which name. */
static void count(const char *name, const char *ending, const struct duel *duel, const struct site *site)
{
    count_call(duel->ours, site);
    count_call(duel->plain, site);
    printf("%s%s\n", name, ending);
}

int main(int argc, char **argv)
{
    static struct site site;
    int i = 1;
    for (; i < argc && strcmp(argv[i], "--") != 0; i++) {
        read_site(argv[i], &site);
        count(site.name, "", &planning, &site);
        if (i == 1)
            count(WRITTEN_BACK, "", &rewriting, &site);
    }
    for (i++; i < argc; i++) {
        read_site(argv[i], &site);
        keep_plan(&site);
        count(site.name, "-checked", &checking, &site);
    }
    return 0;
}
