/* The reader of docs/FORMATS.md, and the lines of a text. */
#include "layout.h"
#include "lines.h"

#include <string.h>

#define LONGEST_RECORD 68
#define NO_PARENT 0xFF
#define NO_PLACE 0xFF
#define COUNT(list) (sizeof(list) / sizeof(list)[0])

/* A field of a record: where it begins, how many bytes it has, its range, and the refusal outside of it. */
struct field {
    size_t place;
    size_t width;
    uint32_t least;
    uint32_t most;
    enum refusal refusal;
};

/* What a line is refused for, NONE where it is taken, and the place of the field that decided. */
struct verdict {
    enum refusal refusal;
    size_t place;
};

/* A verdict that names no field. */
static struct verdict of_line(enum refusal refusal)
{
    return (struct verdict){.refusal = refusal, .place = NO_PLACE};
}

/* The value of a hexadecimal digit, or -1 for any other character. */
static int digit(uint8_t character)
{
    if (character >= '0' && character <= '9')
        return character - '0';
    if (character >= 'A' && character <= 'F')
        return character - 'A' + 10;
    return -1;
}

bool decode_line(const uint8_t *text, size_t text_len, size_t *start, size_t most, struct record *record)
{
    size_t at = *start;

    record->length = 0;
    while (at < text_len && text[at] != '\n') {
        if (text_len - at < 2 || record->length == most)
            return false;
        int high = digit(text[at]);
        int low = digit(text[at + 1]);
        if (high < 0 || low < 0)
            return false;
        record->bytes[record->length++] = (uint8_t)(16 * high + low);
        at += 2;
    }
    *start = at + 1;
    return at < text_len && record->length > 0;
}

uint32_t number_of(const uint8_t *bytes, size_t width)
{
    uint32_t number = 0;

    for (size_t i = 0; i < width; i++)
        number = number << 8 | bytes[i];
    return number;
}

/* Tests fields, which stand from left to right: the first that is outside its range decides. */
static struct verdict test_fields(const uint8_t *bytes, const struct field *fields, size_t count)
{
    for (size_t i = 0; i < count; i++) {
        const struct field *field = &fields[i];
        uint32_t number = number_of(bytes + field->place, field->width);
        if (number < field->least || number > field->most)
            return (struct verdict){.refusal = field->refusal, .place = field->place};
    }
    return of_line(NONE);
}

/* Takes over the counts of a header, or refuses it. */
static struct verdict read_header(const struct record *record, struct reference_site *site)
{
    static const struct field fields[] = {
        {1, 1, 1, 1, BAD_HEADER},                  /* version */
        {2, 1, 1, REFERENCE_CLUSTERS, BAD_HEADER}, /* number of clusters */
        {3, 1, 0, REFERENCE_FLOWS, BAD_HEADER},    /* number of flows */
    };
    const uint8_t *bytes = record->bytes;

    if (bytes[0] != 1)
        return of_line(WRONG_KIND);
    if (record->length != HEADER_LENGTH)
        return of_line(WRONG_LENGTH);
    site->clusters = bytes[2];
    site->flows = bytes[3];
    return test_fields(bytes, fields, COUNT(fields));
}

/* Whether two clusters have the same tag: equal lengths, and equal bytes up to that length. */
static bool same_tag(const struct reference_cluster *a, const struct reference_cluster *b)
{
    return a->tag_length == b->tag_length && memcmp(a->tag, b->tag, a->tag_length) == 0;
}

/* Tests the fields of a cluster's record; the parent is none of them. Each byte of the tag is one. */
static struct verdict test_cluster(const struct record *record)
{
    static const struct field fields[] = {
        {2, 1, 0, REFERENCE_LARGEST_ORDER, BAD_ORDER}, /* superframe order */
        {3, 1, 1, REFERENCE_TAG, BAD_TAG},             /* tag length */
    };
    struct verdict verdict = test_fields(record->bytes, fields, COUNT(fields));

    for (size_t place = CLUSTER_LENGTH; place < record->length && verdict.refusal == NONE; place++) {
        const struct field tag_byte = {place, 1, 0x21, 0x7E, BAD_TAG};
        verdict = test_fields(record->bytes, &tag_byte, 1);
    }
    return verdict;
}

/* Takes over the cluster with this number, or refuses it. */
static struct verdict read_cluster(const struct record *record, size_t number, struct reference_site *site)
{
    struct reference_cluster *cluster = &site->cluster[number];
    const uint8_t *bytes = record->bytes;

    if (bytes[0] != 2)
        return of_line(WRONG_KIND);
    if (record->length < CLUSTER_LENGTH || record->length != CLUSTER_LENGTH + (size_t)bytes[3])
        return of_line(WRONG_LENGTH);
    struct verdict verdict = test_cluster(record);
    if (verdict.refusal != NONE)
        return verdict;
    if (number == 0 ? bytes[1] != NO_PARENT : bytes[1] >= number)
        return of_line(WRONG_PARENT);
    cluster->parent = bytes[1];
    cluster->order = bytes[2];
    cluster->tag_length = bytes[3];
    memcpy(cluster->tag, bytes + CLUSTER_LENGTH, bytes[3]);
    for (size_t earlier = 0; earlier < number; earlier++)
        if (same_tag(&site->cluster[earlier], cluster))
            return of_line(TAG_USED);
    return of_line(NONE);
}

/* Takes over the flow with this number, or refuses it. */
static struct verdict read_flow(const struct record *record, size_t number, struct reference_site *site)
{
    const uint32_t last_cluster = site->clusters - 1u;
    const struct field fields[] = {
        {1, 1, 0, last_cluster, NO_CLUSTER}, /* source */
        {2, 1, 0, last_cluster, NO_CLUSTER}, /* sink */
        {3, 4, 1, LONGEST_TIME, BAD_TIME},   /* required period */
        {7, 4, 1, LONGEST_TIME, BAD_TIME},   /* deadline */
    };
    struct reference_flow *flow = &site->flow[number];
    const uint8_t *bytes = record->bytes;

    if (bytes[0] != 3)
        return of_line(WRONG_KIND);
    if (record->length != FLOW_LENGTH)
        return of_line(WRONG_LENGTH);
    flow->source = bytes[1];
    flow->sink = bytes[2];
    flow->period = number_of(bytes + 3, 4);
    flow->deadline = number_of(bytes + 7, 4);
    return test_fields(bytes, fields, COUNT(fields));
}

/* Takes over the record of a line, counted from 1, as the kind that is due there. */
static struct verdict read_record(const struct record *record, size_t line, struct reference_site *site)
{
    size_t first_flow = 2 + (size_t)site->clusters;

    if (line == 1)
        return read_header(record, site);
    if (line < first_flow)
        return read_cluster(record, line - 2, site);
    if (line < first_flow + site->flows)
        return read_flow(record, line - first_flow, site);
    return of_line(WRONG_KIND);
}

/* Reads all lines until the first that is refused or missing, whose number goes to *line. */
static struct verdict read_lines(const uint8_t *text, size_t text_len, struct reference_site *site,
                                 size_t *line)
{
    struct record record;
    size_t at = 0;

    for (*line = 1; at < text_len; (*line)++) {
        if (!decode_line(text, text_len, &at, LONGEST_RECORD, &record))
            return of_line(NOT_A_LINE);
        struct verdict verdict = read_record(&record, *line, site);
        if (verdict.refusal != NONE)
            return verdict;
    }
    return of_line(*line < 2 + (size_t)site->clusters + site->flows ? WRONG_KIND : NONE);
}

uint32_t reference_read(const uint8_t *text, size_t text_len, struct reference_site *site)
{
    size_t line;

    memset(site, 0, sizeof *site);
    struct verdict verdict = read_lines(text, text_len, site, &line);
    if (verdict.refusal == NONE)
        return 0;
    memset(site, 0, sizeof *site);
    return refuse(verdict.refusal, line);
}

uint32_t reference_place(const uint8_t *text, size_t text_len)
{
    struct reference_site site = {0};
    size_t line;

    return (uint32_t)read_lines(text, text_len, &site, &line).place;
}

/* Finds a line, counted from 1, and gives its length without the LF; where it begins goes to *start. */
static size_t find_line(const uint8_t *text, size_t text_len, size_t line, size_t *start)
{
    size_t at = 0;

    for (size_t number = 1; at < text_len; number++) {
        const uint8_t *lf = memchr(text + at, '\n', text_len - at);
        size_t end = lf != NULL ? (size_t)(lf - text) : text_len;
        if (number == line) {
            *start = at;
            return end - at;
        }
        at = end + 1;
    }
    *start = text_len;
    return 0;
}

size_t reference_line_start(const uint8_t *text, size_t text_len, size_t line)
{
    size_t start;

    find_line(text, text_len, line, &start);
    return start;
}

size_t reference_line_length(const uint8_t *text, size_t text_len, size_t line)
{
    size_t start;

    return find_line(text, text_len, line, &start);
}
