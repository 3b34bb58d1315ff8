/* The sequence of the clusters, and the two texts that are written. The digits of a tag are those of the text
 * that was read, and so is the whole of a site's text. */
#include "plain.h"
#include "plain_digits.h"

#include <string.h>

enum { HEADER_LINE = 9, PLACE_LINE = 23 };

/* Writes the eight digits of a number. */
static inline void put_number(uint8_t *room, uint32_t number)
{
    uint64_t values = number;

    values = (values | values << 16) & 0x0000FFFF0000FFFF;
    values = (values | values << 8) & 0x00FF00FF00FF00FF;
    values = (values | values << 4) & EACH(0x0F);
    values += EACH('0') + 7 * ((values + EACH(6)) >> 4 & EACH(0x01));
    if (__BYTE_ORDER__ == __ORDER_LITTLE_ENDIAN__)
        values = __builtin_bswap64(values);
    memcpy(room, &values, 8);
}

/* Copies five bytes or more, in pieces of which the last overlaps the one before it. */
static inline void copy(uint8_t *to, const uint8_t *from, size_t length)
{
    if (length >= 16) {
        for (size_t at = 0; at < length - 16; at += 16)
            memcpy(to + at, from + at, 16);
        memcpy(to + length - 16, from + length - 16, 16);
    } else if (length >= 8) {
        memcpy(to, from, 8);
        memcpy(to + length - 8, from + length - 8, 8);
    } else {
        memcpy(to, from, 4);
        memcpy(to + length - 4, from + length - 4, 4);
    }
}

/* Puts the clusters in sequence: each time the lowest of those that wait for no other. */
static void put_in_sequence(const struct plain_site *site, const int8_t *n, uint8_t *sequence)
{
    uint64_t after[MOST_CLUSTERS], ready = 0;
    uint8_t waits[MOST_CLUSTERS];

    memset(after, 0, site->clusters * sizeof *after);
    memset(waits, 0, sizeof waits);
    for (unsigned c = 1; c < site->clusters; c++) {
        unsigned parent = site->parent[c], grows = n[c] > n[parent];
        unsigned early = grows ? parent : c, late = grows ? c : parent;
        after[early] |= (uint64_t)1 << late;
        waits[late]++;
    }
    for (unsigned c = 0; c < site->clusters; c++)
        ready |= (uint64_t)(waits[c] == 0) << c;
    for (unsigned i = 0; i < site->clusters; i++) {
        unsigned next = lowest(ready);
        ready &= ready - 1;
        sequence[i] = (uint8_t)next;
        for (uint64_t left = after[next]; left != 0; left &= left - 1) {
            unsigned late = lowest(left);
            ready |= (uint64_t)(--waits[late] == 0) << late;
        }
    }
}

/* Writes the plan text. A line ends with its tag's length, its tag and LF, as they stand in the text. */
static void put_plan(const uint8_t *text, const struct plain_site *site, unsigned order, const uint8_t *sequence,
                     uint8_t *room)
{
    uint32_t start = 0;

    put_number(room, 0x81010000u + 256 * order + site->clusters);
    room[8] = '\n';
    room += HEADER_LINE;
    for (unsigned i = 0; i < site->clusters; i++) {
        unsigned c = sequence[i];
        uint32_t portion = (uint32_t)BASE << site->order[c];
        size_t rest = 2u * site->tag_length[c] + 3;
        put_number(room, 0x82000000u + 65536 * c + (start >> 16));
        put_number(room + 4, start);
        put_number(room + 12, portion);
        copy(room + 20, text + site->line[c] + 6, rest);
        room += 20 + rest;
        start += portion;
    }
}

uint32_t plain_plan(const uint8_t *text, size_t text_len, uint8_t *room, size_t room_len)
{
    struct plain_site site;
    int8_t n[MOST_CLUSTERS];
    uint8_t sequence[MOST_CLUSTERS];
    unsigned order;
    uint32_t answer = plain_read(text, text_len, &site);

    if (answer == 0)
        answer = plain_search(&site, &order, n);
    if (answer != 0)
        return answer;
    size_t length = HEADER_LINE + PLACE_LINE * site.clusters + 2 * site.tag_bytes;
    if (room_len < length)
        return plain_refuse(SHORT_ROOM, 0);
    put_in_sequence(&site, n, sequence);
    put_plan(text, &site, order, sequence, room);
    return (uint32_t)length;
}

uint32_t plain_rewrite(const uint8_t *text, size_t text_len, uint8_t *room, size_t room_len)
{
    struct plain_site site;
    uint32_t answer = plain_read(text, text_len, &site);

    if (answer != 0)
        return answer;
    if (room_len < text_len)
        return plain_refuse(SHORT_ROOM, 0);
    memcpy(room, text, text_len);
    return (uint32_t)text_len;
}
