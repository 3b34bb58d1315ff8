/* What tables and words share. */
#include "print.h"

#include <inttypes.h>

#define MS_WORDS 32

static const struct paint plain = {"", "", "", ""};
static const struct paint coloured = {"\033[1m", "\033[1;31m", "\033[33m", "\033[0m"};

const struct paint *paint_for(int colour)
{
    return colour ? &coloured : &plain;
}

/* Symbols as milliseconds, in a room that is lent. */
static const char *ms_words(char room[MS_WORDS], uint64_t symbols)
{
    uint64_t microseconds = symbols * 16;

    snprintf(room, MS_WORDS, "%" PRIu64 ".%03u", microseconds / 1000, (unsigned)(microseconds % 1000));
    return room;
}

void print_ms(FILE *out, uint32_t symbols, int columns)
{
    char room[MS_WORDS];

    fprintf(out, "%*s", columns, ms_words(room, symbols));
}

const char *time_words(char room[TIME_WORDS], uint64_t symbols)
{
    char ms[MS_WORDS];

    snprintf(room, TIME_WORDS, "%" PRIu64 " symbol%s = %s ms", symbols, symbols == 1 ? "" : "s", ms_words(ms, symbols));
    return room;
}

void print_time(FILE *out, uint64_t symbols)
{
    char room[TIME_WORDS];

    fputs(time_words(room, symbols), out);
}

/* Tenths of a percent are rounded down, so that not quite all never reads as all. */
void print_asleep(FILE *out, const struct site *site, uint32_t interval)
{
    uint32_t asleep = interval - sum_of_portions(site);
    unsigned tenths = (unsigned)((uint64_t)asleep * 1000 / interval);

    print_time(out, asleep);
    fprintf(out, ", %u.%u %% of the interval", tenths / 10, tenths % 10);
}

void print_ends(FILE *out, const struct site *site, const struct flow *flow)
{
    fprintf(out, "%s -> %s", site->cluster[flow->source].tag, site->cluster[flow->sink].tag);
}
