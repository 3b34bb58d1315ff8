/* Every kind of damage that the refusals of a plan in docs/FORMATS.md name, to its records. */
#include "generator.h"

#include <string.h>

#define INTERVAL(order) (REFERENCE_BASE << (order))
#define PLACE_LENGTH 11
#define START 2
#define PORTION 6
#define TAG_LENGTH 10

/* The number in four bytes of a record. */
static uint32_t number_in(const struct draft_line *line, size_t place)
{
    const uint8_t *bytes = line->bytes + place;

    return (uint32_t)bytes[0] << 24 | (uint32_t)bytes[1] << 16 | (uint32_t)bytes[2] << 8 | bytes[3];
}

/* Where the portion of a line ends, by what the line says. */
static uint32_t end_in(const struct draft_line *line)
{
    return number_in(line, START) + number_in(line, PORTION);
}

/* The index of the line of a cluster: the first, the last or any. The header's, if there is no other. */
static size_t pick_place(struct dice *dice, const struct draft *draft)
{
    return draft->lines > 1 ? 1 + pick(dice, draft->lines - 1) : 0;
}

/* Another kind, version or length of some line. */
static void damage_layout(struct dice *dice, struct draft *draft)
{
    static const uint8_t kinds[] = {0x00, 0x01, 0x02, 0x80, 0x81, 0x82, 0x83, 0xFF};
    static const uint8_t versions[] = {0x00, 0x02, 0x81, 0xFF};
    struct draft_line *line = &draft->line[pick(dice, draft->lines)];

    switch (below(dice, 5)) {
    case 0: line->bytes[0] = one_of(dice, kinds, sizeof kinds); break;
    case 1: draft->line[0].bytes[1] = one_of(dice, versions, sizeof versions); break;
    case 2: line->length -= line->length > 1; break;
    case 3: line->length += line->length < DRAFT_BYTES; break;
    default: line->length = 1 + below(dice, 13); break;
    }
}

/* An order that is not permitted, above 14, or just another. */
static void damage_order(struct dice *dice, const struct reference_site *site, struct draft *draft)
{
    static const uint8_t orders[] = {14, 15, 16, 31, 32, 0x80, 0xFF};
    uint8_t *order = &draft->line[0].bytes[2];

    switch (below(dice, 4)) {
    case 0: *order = one_of(dice, orders, sizeof orders); break;
    case 1: *order = (uint8_t)below(dice, 16); break;
    case 2: (*order)++; break;
    default:
        *order = 0;
        for (size_t f = 0; f < site->flows; f++)
            while (*order <= REFERENCE_LARGEST_ORDER && INTERVAL(*order) <= site->flow[f].period)
                (*order)++;
        break;
    }
}

/* A number of clusters in the header that is not the site's. */
static void damage_count(struct dice *dice, struct draft *draft)
{
    static const uint8_t counts[] = {0, 1, 63, 64, 65, 0xFF};
    uint8_t *count = &draft->line[0].bytes[3];

    switch (below(dice, 3)) {
    case 0: (*count)++; break;
    case 1: (*count)--; break;
    default: *count = one_of(dice, counts, sizeof counts); break;
    }
}

/* A cluster that is none of the site's, or another one in this place: by its number alone, or with its whole line. */
static void damage_number(struct dice *dice, const struct reference_site *site, struct draft *draft)
{
    struct draft_line *line = &draft->line[pick_place(dice, draft)];
    const struct draft_line *other = &draft->line[pick_place(dice, draft)];
    uint32_t start = number_in(line, START);

    switch (below(dice, 5)) {
    case 0: line->bytes[1] = site->clusters; break;
    case 1: line->bytes[1] = (uint8_t)(0x80 + 0x7F * below(dice, 2)); break;
    case 2: line->bytes[1] = other->bytes[1]; break;
    default:
        *line = *other;
        put_number(line, START, start);
        break;
    }
}

/* A tag that is off in its 17th byte, its first, its last or any. */
static void damage_tag_byte(struct dice *dice, struct draft_line *line)
{
    size_t length = line->bytes[TAG_LENGTH];

    if (line->length != PLACE_LENGTH + length || length == 0)
        return;
    size_t place = length > 16 && once_in(dice, 3) ? 16 : pick(dice, length);
    line->bytes[PLACE_LENGTH + place] ^= once_in(dice, 4) ? 0x80 : 1;
}

/* A tag of another length, with as many bytes as it says or not. */
static void damage_tag_length(struct dice *dice, struct draft_line *line)
{
    static const uint8_t lengths[] = {0, 1, 16, 63, 64, 65, 66, 0x80, 0xFF};
    uint8_t length = line->bytes[TAG_LENGTH];

    switch (below(dice, 3)) {
    case 0: length++; break;
    case 1: length--; break;
    default: length = one_of(dice, lengths, sizeof lengths); break;
    }
    line->bytes[TAG_LENGTH] = length;
    if (once_in(dice, 4))
        return;
    for (size_t i = line->length; i < PLACE_LENGTH + (size_t)length; i++)
        line->bytes[i] = line->bytes[PLACE_LENGTH];
    line->length = PLACE_LENGTH + (size_t)length;
}

/* A length that is not the portion. */
static void damage_portion(struct dice *dice, struct draft_line *line)
{
    uint32_t portion = number_in(line, PORTION);

    switch (below(dice, 5)) {
    case 0: portion++; break;
    case 1: portion--; break;
    case 2: portion *= 2; break;
    case 3: portion /= 2; break;
    default: portion ^= (uint32_t)1 << below(dice, 32); break;
    }
    put_number(line, PORTION, portion);
}

/* A start at an edge of the portion above: with its start, its end, or one symbol off these. */
static void damage_start(struct dice *dice, struct draft *draft)
{
    size_t place = pick_place(dice, draft);
    struct draft_line *line = &draft->line[place];
    const struct draft_line *above = &draft->line[place > 1 ? place - 1 : place];

    switch (below(dice, 7)) {
    case 0: put_number(line, START, number_in(above, START)); break;
    case 1: put_number(line, START, number_in(above, START) - 1); break;
    case 2: put_number(line, START, end_in(above)); break;
    case 3: case 4: put_number(line, START, end_in(above) - 1); break;
    case 5: put_number(line, START, number_in(line, START) + 1); break;
    default: put_number(line, START, (uint32_t)roll(dice)); break;
    }
}

/* A last start at the end of the interval or one past it, or so far that a sum of 32 bits is small again. */
static void damage_last(struct dice *dice, struct draft *draft)
{
    struct draft_line *line = &draft->line[draft->lines - 1];
    uint32_t interval = INTERVAL(draft->line[0].bytes[2] % 16u);
    uint32_t portion = number_in(line, PORTION);

    switch (below(dice, 8)) {
    case 0: put_number(line, START, interval - portion); break;
    case 1: case 2: put_number(line, START, interval - portion + 1); break;
    case 3: put_number(line, START, UINT32_MAX); break;
    case 4: put_number(line, START, 0u - portion); break;
    case 5: put_number(line, START, 0u - portion - 1 + 2 * (uint32_t)below(dice, 2)); break;
    case 6: put_number(line, START, interval - portion - portion); break;
    default: put_number(line, START, (uint32_t)roll(dice) | 0x80000000u); break;
    }
}

/* Two lines change places, with their starts or without. */
static void swap_lines(struct dice *dice, struct draft *draft)
{
    struct draft_line *one = &draft->line[pick_place(dice, draft)];
    struct draft_line *other = &draft->line[pick_place(dice, draft)];
    struct draft_line kept = *one;

    *one = *other;
    *other = kept;
    if (once_in(dice, 2)) {
        put_number(other, START, number_in(one, START));
        put_number(one, START, number_in(&kept, START));
    }
}

void damage_plan(struct dice *dice, const struct reference_site *site, struct draft *draft)
{
    struct draft_line *line = &draft->line[pick_place(dice, draft)];

    switch (below(dice, 16)) {
    case 0: damage_layout(dice, draft); break;
    case 1: case 2: damage_order(dice, site, draft); break;
    case 3: damage_count(dice, draft); break;
    case 4: damage_number(dice, site, draft); break;
    case 5: damage_tag_byte(dice, line); break;
    case 6: damage_tag_length(dice, line); break;
    case 7: damage_portion(dice, line); break;
    case 8: case 9: case 10: damage_start(dice, draft); break;
    case 11: case 12: damage_last(dice, draft); break;
    case 13: swap_lines(dice, draft); break;
    case 14: add_line(dice, draft); break;
    default: drop_line(dice, draft); break;
    }
}
