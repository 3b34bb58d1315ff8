/* Every kind of damage that the refusals of a line in docs/FORMATS.md name, to the records and to the text. */
#include "generator.h"

#include <string.h>

#define LONGEST_LINE 136
#define LONGEST_RECORD 80
#define LONGEST_TIME 1000000000u

size_t pick(struct dice *dice, size_t count)
{
    switch (below(dice, 4)) {
    case 0: return 0;
    case 1: return count - 1;
    default: return below(dice, count);
    }
}

uint8_t one_of(struct dice *dice, const uint8_t *values, size_t count)
{
    return values[below(dice, count)];
}

/* A line of the draft, the index never past its end. */
static struct draft_line *line_at(struct draft *draft, size_t index)
{
    return &draft->line[index < draft->lines ? index : draft->lines - 1];
}

/* Any line of the draft. */
static struct draft_line *any_line(struct dice *dice, struct draft *draft)
{
    return line_at(draft, pick(dice, draft->lines));
}

/* The line of a cluster. */
static struct draft_line *cluster_line(struct draft *draft, size_t number)
{
    return line_at(draft, 1 + number);
}

/* The line of a flow, or the last line if there is none. */
static struct draft_line *flow_line(struct dice *dice, struct draft *draft)
{
    return line_at(draft, 1 + draft->clusters + (draft->flows > 0 ? pick(dice, draft->flows) : 0));
}

/* Another first byte. */
static void damage_kind(struct dice *dice, struct draft *draft)
{
    static const uint8_t kinds[] = {0x00, 0x01, 0x02, 0x03, 0x04, 0x81, 0x82, 0xFF};
    struct draft_line *line = any_line(dice, draft);

    line->bytes[0] = one_of(dice, kinds, sizeof kinds);
}

void add_line(struct dice *dice, struct draft *draft)
{
    size_t place = once_in(dice, 2) ? draft->lines : pick(dice, draft->lines);
    struct draft_line extra = *any_line(dice, draft);

    if (draft->lines == DRAFT_LINES)
        return;
    if (once_in(dice, 3)) {
        extra.length = 1 + below(dice, 12);
        for (size_t i = 0; i < extra.length; i++)
            extra.bytes[i] = (uint8_t)roll(dice);
    }
    memmove(&draft->line[place + 1], &draft->line[place], (draft->lines - place) * sizeof extra);
    draft->line[place] = extra;
    draft->lines++;
}

void drop_line(struct dice *dice, struct draft *draft)
{
    size_t place = pick(dice, draft->lines);

    if (draft->lines == 1)
        return;
    if (once_in(dice, 3)) {
        draft->lines = place > 0 ? place : 1;
        return;
    }
    draft->lines--;
    memmove(&draft->line[place], &draft->line[place + 1], (draft->lines - place) * sizeof draft->line[0]);
}

/* A record some bytes longer or shorter than it should be, of any kind of line. */
static void damage_length(struct dice *dice, struct draft *draft)
{
    static const uint8_t lengths[] = {1, 2, 3, 4, 5, 10, 11, 12, 68, 69, 70, LONGEST_RECORD};
    struct draft_line *line = any_line(dice, draft);

    switch (below(dice, 3)) {
    case 0: line = cluster_line(draft, pick(dice, draft->clusters)); break;
    case 1: line = flow_line(dice, draft); break;
    }
    switch (below(dice, 3)) {
    case 0: line->length += line->length < LONGEST_RECORD; break;
    case 1: line->length -= line->length > 1; break;
    default: line->length = one_of(dice, lengths, sizeof lengths); break;
    }
}

/* How many faults go into one line: mostly one, but often two. */
static size_t some_faults(struct dice *dice)
{
    return once_in(dice, 3) ? 2 : 1;
}

/* A version or a count out of its range, or a count that is not that of the lines; often two of them. */
static void damage_header(struct dice *dice, struct draft *draft)
{
    static const uint8_t versions[] = {0x00, 0x02, 0x81, 0xFF};
    static const uint8_t clusters[] = {0, 1, 64, 65, 0x80, 0xFF};
    static const uint8_t flows[] = {0, 1, 128, 129, 0xFF};
    uint8_t *bytes = draft->line[0].bytes;

    for (size_t faults = some_faults(dice); faults > 0; faults--)
        switch (below(dice, 5)) {
        case 0: bytes[1] = one_of(dice, versions, sizeof versions); break;
        case 1: bytes[2] = one_of(dice, clusters, sizeof clusters); break;
        case 2: bytes[3] = one_of(dice, flows, sizeof flows); break;
        case 3: bytes[2] = (uint8_t)(bytes[2] + 2 * below(dice, 2) - 1); break;
        default: bytes[3] = (uint8_t)(bytes[3] + 2 * below(dice, 2) - 1); break;
        }
}

/* A superframe order at the edge of its range or outside. */
static void damage_order(struct dice *dice, struct draft_line *line)
{
    static const uint8_t orders[] = {14, 15, 16, 0x80, 0xFF};

    line->bytes[2] = one_of(dice, orders, sizeof orders);
}

/* A tag length of 0 or over 64, with as many tag bytes as it says or not. */
static void damage_tag_length(struct dice *dice, struct draft_line *line)
{
    static const uint8_t lengths[] = {0, 0, 1, 63, 64, 65, 66, 76, 0x80, 0xFF};
    uint8_t length = one_of(dice, lengths, sizeof lengths);

    line->bytes[3] = length;
    if (once_in(dice, 2) || length > LONGEST_RECORD - 4)
        return;
    for (size_t i = line->length; i < (size_t)length + 4; i++)
        line->bytes[i] = 0x41;
    line->length = (size_t)length + 4;
}

/* A tag byte at the edge of its range or outside. */
static void damage_tag_byte(struct dice *dice, struct draft_line *line)
{
    static const uint8_t tag_bytes[] = {0x00, 0x1F, 0x20, 0x21, 0x7E, 0x7F, 0x80, 0xFF};

    if (line->length > 4)
        line->bytes[4 + pick(dice, line->length - 4)] = one_of(dice, tag_bytes, sizeof tag_bytes);
}

/* A root that has a parent, or another cluster whose parent is not a lower number. */
static void damage_parent(struct dice *dice, struct draft_line *line, size_t number)
{
    switch (below(dice, 5)) {
    case 0: line->bytes[1] = (uint8_t)number; break;
    case 1: line->bytes[1] = (uint8_t)(number + 1); break;
    case 2: line->bytes[1] = 0xFE; break;
    case 3: line->bytes[1] = 0xFF; break;
    default: line->bytes[1] = (uint8_t)below(dice, 66); break;
    }
}

/* The tag of an earlier cluster once more, or one that differs from it in a byte or in its length. */
static void damage_tag(struct dice *dice, struct draft *draft, size_t number)
{
    struct draft_line *line = cluster_line(draft, number);
    const struct draft_line *earlier = cluster_line(draft, pick(dice, number > 0 ? number : 1));

    line->length = earlier->length;
    memmove(line->bytes + 3, earlier->bytes + 3, LONGEST_RECORD - 3);
    if (once_in(dice, 2) || line->length < 6)
        return;
    if (once_in(dice, 2))
        line->bytes[4 + pick(dice, line->length - 4)] ^= 1;
    else if (line->length < 68) {
        line->bytes[line->length++] = 0x41;
        line->bytes[3]++;
    } else {
        line->length--;
        line->bytes[3]--;
    }
}

/* A bad field, a wrong parent or a tag that is used in the line of a cluster; often two of them. */
static void damage_cluster(struct dice *dice, struct draft *draft)
{
    size_t number = pick(dice, draft->clusters);
    struct draft_line *line = cluster_line(draft, number);

    for (size_t faults = some_faults(dice); faults > 0; faults--)
        switch (below(dice, 8)) {
        case 0: damage_order(dice, line); break;
        case 1: damage_tag_length(dice, line); break;
        case 2: damage_tag_byte(dice, line); break;
        case 3: case 4: damage_parent(dice, line, number); break;
        default: damage_tag(dice, draft, number); break;
        }
}

/* A flow that names a cluster that is not there, or one more that is. */
static void damage_end(struct dice *dice, const struct draft *draft, struct draft_line *line)
{
    uint8_t *end = &line->bytes[1 + below(dice, 2)];

    switch (below(dice, 4)) {
    case 0: *end = (uint8_t)(draft->clusters - 1); break;
    case 1: *end = (uint8_t)draft->clusters; break;
    case 2: *end = 0xFF; break;
    default: *end = (uint8_t)(draft->clusters + below(dice, 200)); break;
    }
}

/* A period or a deadline at the edge of its range or outside. */
static void damage_time(struct dice *dice, struct draft_line *line)
{
    static const uint32_t times[] = {0, 0, 1, 0x80000000u, LONGEST_TIME, LONGEST_TIME + 1, 0xFFFFFFFFu};
    uint32_t time = times[below(dice, sizeof times / sizeof times[0])];
    size_t place = 3 + 4 * below(dice, 2);

    put_number(line, place, time);
}

/* A bad end or a bad time of a flow; often two of them. */
static void damage_flow(struct dice *dice, struct draft *draft)
{
    struct draft_line *line = flow_line(dice, draft);

    for (size_t faults = some_faults(dice); faults > 0; faults--)
        if (once_in(dice, 2))
            damage_end(dice, draft, line);
        else
            damage_time(dice, line);
}

void damage_draft(struct dice *dice, struct draft *draft)
{
    switch (below(dice, 15)) {
    case 0: damage_kind(dice, draft); break;
    case 1: add_line(dice, draft); break;
    case 2: drop_line(dice, draft); break;
    case 3: damage_length(dice, draft); break;
    case 4: case 5: damage_header(dice, draft); break;
    case 6: case 7: damage_flow(dice, draft); break;
    default: damage_cluster(dice, draft); break;
    }
}

/* Puts so many copies of a byte into the text, as far as there is space for them. */
static void insert(struct text *text, size_t place, uint8_t byte, size_t count)
{
    if (text->length + count > TEXT_CAPACITY)
        return;
    memmove(text->bytes + place + count, text->bytes + place, text->length - place);
    memset(text->bytes + place, byte, count);
    text->length += count;
}

/* Takes so many bytes out of the text, or all from the place on. */
static void take_out(struct text *text, size_t place, size_t count)
{
    if (count > text->length - place)
        count = text->length - place;
    text->length -= count;
    memmove(text->bytes + place, text->bytes + place + count, text->length - place);
}

/* Where a line begins and where its LF stands: the first line, the last or any. */
static void pick_line(struct dice *dice, const struct text *text, size_t *start, size_t *end)
{
    size_t place = pick(dice, text->length);

    for (*start = place; *start > 0 && text->bytes[*start - 1] != '\n'; (*start)--)
        ;
    for (*end = place; *end < text->length && text->bytes[*end] != '\n'; (*end)++)
        ;
}

/* A CR before every LF. */
static void end_all_in_cr_lf(struct text *text)
{
    for (size_t i = text->length; i-- > 0;)
        if (text->bytes[i] == '\n')
            insert(text, i, '\r', 1);
}

/* A character in the line from start to end that is no digit, or none that is allowed. */
static void damage_character(struct dice *dice, struct text *text, size_t start, size_t end)
{
    static const uint8_t others[] = "G@/:`g \t\r\v\x80\xFFx-;\x7F";
    size_t place = start + pick(dice, end - start + (end == start));

    if (once_in(dice, 3))
        text->bytes[place] = (uint8_t)('a' + below(dice, 6));
    else
        text->bytes[place] = one_of(dice, others, sizeof others);
}

void damage_text(struct dice *dice, struct text *text)
{
    size_t start;
    size_t end;

    if (text->length == 0)
        return;
    pick_line(dice, text, &start, &end);
    size_t place = start + pick(dice, end - start + 1);
    size_t any = below(dice, text->length);
    uint8_t byte = (uint8_t)roll(dice);
    switch (below(dice, 16)) {
    case 0: case 1: damage_character(dice, text, start, end); break;
    case 2: take_out(text, place, 1); break;
    case 3: insert(text, place, (uint8_t)('0' + below(dice, 10)), 1); break;
    case 4: insert(text, once_in(dice, 4) ? text->length : start, '\n', 1); break;
    case 5: insert(text, end, '0', LONGEST_LINE - (end - start) % LONGEST_LINE + below(dice, 5)); break;
    case 6: text->length--; break;
    case 7: text->length = any; break;
    case 8: insert(text, end, '\r', 1); break;
    case 9: end_all_in_cr_lf(text); break;
    case 10: text->bytes[any] = byte; break;
    case 11: insert(text, any, byte, 1 + below(dice, 3)); break;
    case 12: take_out(text, any, 1 + below(dice, 20)); break;
    case 13: text->bytes[place < text->length ? place : any] = '\n'; break;
    case 14: insert(text, text->length, byte % 2 == 0 ? '0' : ' ', 1 + below(dice, 3)); break;
    default: insert(text, place, '\n', 1); break;
    }
}
