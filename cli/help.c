/* The pages that --help prints. */
#include "arguments.h"

#define VERSION "1.0"

/* What all pages end with; a part says what is refused. */
#define OPTIONS(refused) \
    "  -o FILE   write the answer to FILE, all or nothing, and not to standard output\n" \
    "  --help    print this\n" \
    "\n" \
    "A refusal is told in words on standard error. Exit status: 0 the answer was written, 1 " refused " is\n" \
    "refused, 2 used wrongly, not readable or not writable.\n"

#define COMMON \
    "\n" \
    "Without FILE, or with -, the site is read from standard input.\n" \
    OPTIONS("the site")

static const char *const pages[] = {
    [NO_COMMAND] =
        "usage: cartheron COMMAND [OPTION].. [FILE]\n"
        "\n"
        "Plans wireless sensor trees: reads a site and chooses the beacon interval and each cluster's start.\n"
        "Checks plans that other tools made.\n"
        "\n"
        "  cartheron plan [FILE]       the plan text\n"
        "  cartheron show [FILE]       the plan as a table; --json: as JSON\n"
        "  cartheron site [FILE]       the site as a tree and a table, without planning; --json: as JSON\n"
        "  cartheron picture [FILE]    the plan as a picture, SVG\n"
        "  cartheron rewrite [FILE]    the site's text written back\n"
        "  cartheron check SITE PLAN   whether a plan text is a plan for the site; --json: the plan as JSON\n"
        "  cartheron COMMAND --help    what a command prints\n"
        "  cartheron --version         the version\n"
        COMMON,
    [PLAN] =
        "usage: cartheron plan [-o FILE] [FILE]\n"
        "\n"
        "Plans a site and prints the plan text: the beacon order, and for each cluster in order of start its\n"
        "number, start, length and tag, in hexadecimal.\n"
        COMMON,
    [SHOW] =
        "usage: cartheron show [--json] [-o FILE] [FILE]\n"
        "\n"
        "Plans a site and prints the plan as a table: beacon order, interval and how much of it all clusters\n"
        "sleep; the clusters in order of start; the flows with the crossings that they take and that their\n"
        "deadlines allow, and a mark where none is to spare.\n"
        "\n"
        "  --json    print the same as JSON, times in symbols of 16 microseconds\n"
        COMMON,
    [SITE] =
        "usage: cartheron site [--json] [-o FILE] [FILE]\n"
        "\n"
        "Prints a site without planning it: the clusters as a tree with tags and superframe orders, and the\n"
        "flows with their required periods and deadlines.\n"
        "\n"
        "  --json    print the same as JSON, times in symbols of 16 microseconds\n"
        COMMON,
    [PICTURE] =
        "usage: cartheron picture [-o FILE] [FILE]\n"
        "\n"
        "Plans a site and prints the plan as a picture, SVG.\n"
        COMMON,
    [REWRITE] =
        "usage: cartheron rewrite [-o FILE] [FILE]\n"
        "\n"
        "Reads a site and prints its text as it is written from what was read: the same bytes.\n"
        COMMON,
    [CHECK] =
        "usage: cartheron check [--json] [-o FILE] SITE PLAN\n"
        "\n"
        "Says whether a plan text, whoever made it, is a plan for a site: an order that is permitted, each cluster\n"
        "once with its length and tag, in order of start, none overlapping, and every flow within what its\n"
        "deadline allows. If it is, prints the order, how much the clusters sleep, and whether a larger order is\n"
        "possible; if not, tells on standard error where it fails.\n"
        "\n"
        "With - for SITE or PLAN that one is read from standard input.\n"
        "  --json    print the plan as JSON as show does, with the largest order that is possible\n"
        OPTIONS("a text"),
};

const char *help_of(enum command command)
{
    return pages[command];
}

const char *version_line(void)
{
    return "cartheron " VERSION "\n";
}
