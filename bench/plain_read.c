/* The reader. Each line is first taken for the one that is due: its length is then known before its end is
 * looked for, and one test at the end of each line says whether all was as it should be. Only a line that was
 * not is looked at again, to find the number of its refusal and the place of its first bad field. */
#include "plain.h"
#include "plain_digits.h"

#include <stdbool.h>
#include <string.h>

enum { HEADER = 1, CLUSTER = 2, FLOW = 3, NOTHING = 0 };
enum { HEADER_DIGITS = 8, TAG = 8, FLOW_DIGITS = 22, MOST_DIGITS = 136 };
enum { PAIRS = 16, ROW = 8, MOST_TAG = 64, NO_PARENT = 0xFF };

#define LONGEST_TIME 1000000000u

/* What has been seen of a tag: flaws in any of its blocks, and sums over them, at each of sixteen places. */
struct seen {
    uint8_t flaws[PAIRS];
    uint8_t sums[PAIRS];
};

/* A byte that tells pairs of digits apart whose first is 2 to 7. */
static inline uint8_t key_of(uint8_t high, uint8_t low)
{
    return (uint8_t)(32 * high + low);
}

/* 0 if two digits stand for 21 to 7E, else 1: a first digit 2 to 7 and a second, but not 20 and not 7F. */
static inline uint8_t flaw_of(uint8_t high, uint8_t low)
{
    uint8_t digit = ((uint8_t)(low - '0') < 10) | ((uint8_t)(low - 'A') < 6);
    uint8_t inside = (uint8_t)(high - '2') < 6;
    uint8_t edge = (key_of(high, low) == key_of('2', '0')) | (key_of(high, low) == key_of('7', 'F'));
    return (uint8_t)(1 - (digit & inside)) | edge;
}

/* Looks at sixteen bytes of a tag, by their digits. */
static inline void look(const uint8_t *restrict digits, struct seen *restrict seen)
{
    for (size_t i = 0; i < PAIRS; i++) {
        uint8_t high = digits[2 * i], low = digits[2 * i + 1];
        seen->flaws[i] |= flaw_of(high, low);
        seen->sums[i] = (uint8_t)(3 * seen->sums[i] + key_of(high, low));
    }
}

/* A fingerprint of sixteen sums and a length: never 0. */
static inline uint16_t print_of(const uint8_t *sums, size_t length)
{
    uint64_t a = eight_at(sums) + length, b = eight_at(sums + 8);

    return (uint16_t)((a * 0x9E3779B97F4A7C15u + b * 0xC2B2AE3D27D4EB4Fu) >> 48 | 1);
}

/* The fingerprint of a tag by its digits, or 0 if a byte of it is not 21 to 7E. The last block of a long tag
 * overlaps the one before it; a short tag is made up to a block. */
static inline uint16_t tag_print(const uint8_t *digits, size_t length)
{
    struct seen seen = {{0}, {0}};
    uint8_t block[2 * PAIRS], none = 0;

    if (length < PAIRS) {
        memset(block, '3', sizeof block);
        memcpy(block, digits, 2 * length);
        look(block, &seen);
    } else {
        for (size_t at = 0; at < length - PAIRS; at += PAIRS)
            look(digits + 2 * at, &seen);
        look(digits + 2 * (length - PAIRS), &seen);
    }
    for (size_t i = 0; i < PAIRS; i++)
        none |= seen.flaws[i];
    return none ? 0 : print_of(seen.sums, length);
}

/* A text that is being read, and the fingerprints of the tags so far, with zeros up to a whole row of them. */
struct reading {
    const uint8_t *text, *end;
    uint16_t prints[MOST_CLUSTERS];
};

/* Whether a cluster before this one has its tag, which has this fingerprint. Tags are the same exactly if their
 * digits are. */
static inline bool tag_used(const struct reading *reading, const struct plain_site *site, size_t number, uint16_t print)
{
    const uint8_t *digits = reading->text + site->line[number] + TAG;
    size_t length = site->tag_length[number];
    uint16_t alike[ROW] = {0}, any = 0;

    for (size_t row = 0; row < number; row += ROW)
        for (size_t i = 0; i < ROW; i++)
            alike[i] |= reading->prints[row + i] == print;
    for (size_t i = 0; i < ROW; i++)
        any |= alike[i];
    for (size_t i = 0; any && i < number; i++)
        if (reading->prints[i] == print && site->tag_length[i] == length &&
            memcmp(reading->text + site->line[i] + TAG, digits, 2 * length) == 0)
            return true;
    return false;
}

/* The number of four bytes, the high byte first. */
static uint32_t time_of(const uint8_t *bytes)
{
    return (uint32_t)bytes[0] << 24 | (uint32_t)bytes[1] << 16 | (uint32_t)bytes[2] << 8 | bytes[3];
}

/* The refusal of a record of the right kind and length at which the reading stopped, and its place into the site.
 * What the tests here leave over is what the reading alone can have stopped for. */
static unsigned refused_record(const uint8_t *bytes, size_t length, size_t line, struct plain_site *site)
{
    if (bytes[0] == HEADER) {
        site->place = bytes[1] != 1 ? 1 : bytes[2] - 1u >= MOST_CLUSTERS ? 2 : 3;
        return BAD_HEADER;
    }
    if (bytes[0] == FLOW) {
        bool no_source = bytes[1] >= site->clusters, no_sink = bytes[2] >= site->clusters;
        site->place = no_source ? 1 : no_sink ? 2 : time_of(bytes + 3) - 1 >= LONGEST_TIME ? 3 : 7;
        return no_source || no_sink ? NO_CLUSTER : BAD_TIME;
    }
    if (bytes[2] > LARGEST_ORDER) {
        site->place = 2;
        return BAD_ORDER;
    }
    for (size_t i = 3; i < length; i++)
        if (i == 3 ? bytes[3] == 0 : bytes[i] < 0x21 || bytes[i] > 0x7E) {
            site->place = (uint8_t)i;
            return BAD_TAG;
        }
    return (line == 2 ? bytes[1] != NO_PARENT : bytes[1] >= line - 2) ? WRONG_PARENT : TAG_USED;
}

/* The refusal of a line at which the reading stopped, where a kind was due; the text ends at `end`. Its place goes
 * into the site. */
static uint32_t refused(const uint8_t *at, const uint8_t *end, size_t line, unsigned due, struct plain_site *site)
{
    uint8_t bytes[MOST_DIGITS / 2] = {0};
    size_t length, left = (size_t)(end - at);
    unsigned wrong = 0;

    site->place = NO_PLACE;
    if (left == 0)
        return plain_refuse(WRONG_KIND, line);
    const uint8_t *lf = memchr(at, '\n', left <= MOST_DIGITS ? left : MOST_DIGITS + 1);
    if (lf == NULL || lf == at || (lf - at) % 2 != 0)
        return plain_refuse(NOT_A_LINE, line);
    length = (size_t)(lf - at) / 2;
    for (size_t i = 0; i < length; i++) {
        unsigned high = digit_value(at[2 * i]), low = digit_value(at[2 * i + 1]);
        wrong |= high | low;
        bytes[i] = (uint8_t)(16 * high + low);
    }
    if (wrong > 15)
        return plain_refuse(NOT_A_LINE, line);
    if (due == NOTHING || bytes[0] != due)
        return plain_refuse(WRONG_KIND, line);
    if (due == CLUSTER ? length < 4 || length != 4u + bytes[3] : length != (due == HEADER ? 4u : 11u))
        return plain_refuse(WRONG_LENGTH, line);
    return plain_refuse(refused_record(bytes, length, line, site), line);
}

/* Takes a cluster's line. Returns the place behind it, or NULL if the line is refused. */
static inline const uint8_t *take_cluster(struct reading *reading, const uint8_t *at, size_t number,
                                          struct plain_site *site)
{
    uint64_t wrong = 0;

    if (reading->end - at < TAG)
        return NULL;
    uint32_t head = number_at(at, &wrong);
    unsigned parent = head >> 16 & 255, order = head >> 8 & 255, length = head & 255;
    const uint8_t *tag = at + TAG;
    if (wrong != 0 || head >> 24 != CLUSTER || order > LARGEST_ORDER || length - 1 >= MOST_TAG ||
        (size_t)(reading->end - tag) <= 2 * length || tag[2 * length] != '\n')
        return NULL;
    uint16_t print = tag_print(tag, length);
    site->line[number] = (uint16_t)(at - reading->text);
    site->parent[number] = (uint8_t)(number == 0 ? 0 : parent);
    site->order[number] = (uint8_t)order;
    site->tag_length[number] = (uint8_t)length;
    site->tag_bytes += length;
    site->units += 1u << order;
    if (print == 0 || (number == 0 ? parent != NO_PARENT : parent >= number) ||
        tag_used(reading, site, number, print))
        return NULL;
    if (number % ROW == 0)
        memset(reading->prints + number, 0, ROW * sizeof *reading->prints);
    reading->prints[number] = print;
    return tag + 2 * length + 1;
}

/* Takes a flow's line, and says whether it could. */
static inline bool take_flow(const uint8_t *at, const uint8_t *end, size_t number, struct plain_site *site)
{
    uint64_t wrong = 0;

    if (end - at <= FLOW_DIGITS || at[FLOW_DIGITS] != '\n')
        return false;
    uint32_t head = number_at(at, &wrong), period = number_at(at + 6, &wrong), deadline = number_at(at + 14, &wrong);
    unsigned source = head >> 16 & 255, sink = head >> 8 & 255;
    if (wrong != 0 || head >> 24 != FLOW || source >= site->clusters || sink >= site->clusters ||
        period - 1 >= LONGEST_TIME || deadline - 1 >= LONGEST_TIME)
        return false;
    site->source[number] = (uint8_t)source;
    site->sink[number] = (uint8_t)sink;
    site->deadline[number] = deadline / BASE;
    site->shortest = period < site->shortest ? period : site->shortest;
    return true;
}

/* Takes the header at the beginning of a text, and says whether it could. */
static inline bool take_header(const uint8_t *text, size_t text_len, struct plain_site *site)
{
    uint64_t wrong = 0;

    if (text_len <= HEADER_DIGITS || text[HEADER_DIGITS] != '\n')
        return false;
    uint32_t head = number_at(text, &wrong);
    site->clusters = head >> 8 & 255;
    site->flows = head & 255;
    site->units = 0;
    site->tag_bytes = 0;
    site->shortest = LONGEST_TIME;
    return wrong == 0 && head >> 16 == 0x0101 && site->clusters - 1 < MOST_CLUSTERS && site->flows <= MOST_FLOWS;
}

uint32_t plain_read(const uint8_t *text, size_t text_len, struct plain_site *site)
{
    if (text_len == 0) {
        site->place = NO_PLACE;
        return plain_refuse(WRONG_KIND, 1);
    }
    const uint8_t *end = text + text_len;
    if (!take_header(text, text_len, site))
        return refused(text, end, 1, HEADER, site);
    struct reading reading;
    reading.text = text;
    reading.end = end;
    const uint8_t *at = text + HEADER_DIGITS + 1;
    for (size_t c = 0; c < site->clusters; c++) {
        const uint8_t *next = take_cluster(&reading, at, c, site);
        if (next == NULL)
            return refused(at, end, 2 + c, CLUSTER, site);
        at = next;
    }
    for (size_t f = 0; f < site->flows; f++, at += FLOW_DIGITS + 1)
        if (!take_flow(at, end, f, site))
            return refused(at, end, 2 + site->clusters + f, FLOW, site);
    site->shortest /= BASE;
    return at == end ? 0 : refused(at, end, 2 + site->clusters + site->flows, NOTHING, site);
}

uint32_t plain_place(const uint8_t *text, size_t text_len)
{
    struct plain_site site;

    return plain_read(text, text_len, &site) != 0 ? site.place : NO_PLACE;
}
