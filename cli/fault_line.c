/* What can be wrong with a line of digits, in a site text or in a plan text. */
#include "fault_parts.h"

#define LONGEST_TIME 1000000000u

/* The largest value of a field that names a cluster is the last one. */
#define LAST_CLUSTER UINT32_MAX

/* A kind of record: its bytes, without the tag where it has one. */
struct record {
    enum kind kind;
    const char *name;
    size_t bytes;
    int tagged;
};

static const struct record records[] = {
    {HEADER_LINE, "the header", HEADER_BYTES, 0},
    {CLUSTER_LINE, "a cluster", CLUSTER_BYTES, 1},
    {FLOW_LINE, "a flow", FLOW_BYTES, 0},
    {PLAN_HEADER_LINE, "the header of a plan", HEADER_BYTES, 0},
    {PLAN_CLUSTER_LINE, "a cluster of a plan", PLAN_CLUSTER_BYTES, 1},
};

/* A field of a record: where it begins, and its range. A parent is none: it has a refusal of its own, 5. */
struct field {
    enum kind kind;
    const char *name;
    size_t place, bytes;
    uint32_t least, most;
    int hexadecimal; /* its numbers are told so: it is a character */
};

static const struct field fields[] = {
    {HEADER_LINE, "version", 1, 1, 1, 1, 0},
    {HEADER_LINE, "number of clusters", 2, 1, 1, MOST_CLUSTERS, 0},
    {HEADER_LINE, "number of flows", 3, 1, 0, MOST_FLOWS, 0},
    {CLUSTER_LINE, "superframe order", 2, 1, 0, LARGEST_ORDER, 0},
    {CLUSTER_LINE, "tag length", 3, 1, 1, MOST_TAG, 0},
    {CLUSTER_LINE, "tag byte", CLUSTER_BYTES, 1, 0x21, 0x7E, 1},
    {FLOW_LINE, "source", 1, 1, 0, LAST_CLUSTER, 0},
    {FLOW_LINE, "sink", 2, 1, 0, LAST_CLUSTER, 0},
    {FLOW_LINE, "required period", 3, 4, 1, LONGEST_TIME, 0},
    {FLOW_LINE, "deadline", 7, 4, 1, LONGEST_TIME, 0},
    {PLAN_HEADER_LINE, "version", 1, 1, 1, 1, 0},
    {PLAN_HEADER_LINE, "beacon order", 2, 1, 0, LARGEST_ORDER, 0},
    {PLAN_CLUSTER_LINE, "cluster", 1, 1, 0, LAST_CLUSTER, 0},
};

static const struct record *record_of(enum kind kind)
{
    const struct record *record = records;

    while (record->kind != kind)
        record++;
    return record;
}

const char *kind_name(enum kind kind)
{
    return record_of(kind)->name;
}

int bad_digits(struct fault *fault, struct part text, struct part line, size_t most)
{
    size_t i = 0;

    while (i < line.length && i < most && digit(line.bytes[i]) >= 0)
        i++;
    fault->column = i;
    if (i == most && line.length > most)
        SAY(fault, "the line has more than %zu digits", most);
    else if (i < line.length && line.bytes[i] >= 'a' && line.bytes[i] <= 'f')
        SAY(fault, "'%c' is lower case", line.bytes[i]);
    else if (i < line.length && line.bytes[i] > 0x20 && line.bytes[i] < 0x7F)
        SAY(fault, "'%c' is no digit", line.bytes[i]);
    else if (i < line.length)
        SAY(fault, "byte %02X is no digit", line.bytes[i]);
    else if (!is_ended(text, line))
        SAY(fault, "the text ends inside the line, without LF");
    else if (line.length == 0)
        SAY(fault, "the line is empty");
    else if (line.length % 2 != 0)
        SAY(fault, "the line has an odd number of digits");
    else
        return 0;
    return 1;
}

int bad_kind(struct fault *fault, struct part line, enum kind due)
{
    unsigned kind = (unsigned)number_at(line.bytes, 0, 1);

    fault->column = 0;
    if (kind == (unsigned)due)
        return 0;
    SAY(fault, "%s (%02X) is due, not %02X", kind_name(due), (unsigned)due, kind);
    return 1;
}

/* The caret stands under the first byte too many, or at the place of the first that is missing. A record that ends
 * before its tag length has none. */
int bad_length(struct fault *fault, struct part line)
{
    const struct record *record = record_of((enum kind)number_at(line.bytes, 0, 1));
    size_t has = line.length / 2, wanted = record->bytes;
    const char *at_least = record->tagged && has < wanted ? "at least " : "";
    char tag[40] = "";

    if (record->tagged && has >= wanted) {
        size_t length = (size_t)number_at(line.bytes, record->bytes - 1, 1);
        snprintf(tag, sizeof tag, " with a tag of %zu", length);
        wanted += length;
    }
    if (has == wanted)
        return 0;
    fault->column = 2 * (has < wanted ? has : wanted);
    SAY(fault, "%s%s has %s%zu bytes, this line has %zu", record->name, tag, at_least, wanted, has);
    return 1;
}

/* The field that begins at a place of a kind of record, or NULL. Each byte of a tag is a field like its first. */
static const struct field *field_at(enum kind kind, size_t place)
{
    if (kind == CLUSTER_LINE && place > CLUSTER_BYTES)
        place = CLUSTER_BYTES;
    for (size_t i = 0; i < sizeof fields / sizeof fields[0]; i++)
        if (fields[i].kind == kind && fields[i].place == place)
            return &fields[i];
    return NULL;
}

/* The range of a field, up to a number, in words. */
static void tell_range(char *words, size_t size, const struct field *field, uint32_t most)
{
    if (field->least == most)
        snprintf(words, size, "only %u", (unsigned)most);
    else
        snprintf(words, size, field->hexadecimal ? "0x%02X to 0x%02X" : "%u to %u", (unsigned)field->least,
                 (unsigned)most);
}

int bad_field(struct fault *fault, struct part line, uint32_t line_number, size_t place, uint32_t clusters)
{
    const struct field *field = field_at((enum kind)number_at(line.bytes, 0, 1), place);
    char range[40];

    if (field == NULL || place + field->bytes > line.length / 2)
        return 0;
    int of_cluster = field->most == LAST_CLUSTER;
    uint32_t value = number_at(line.bytes, place, field->bytes);
    uint32_t most = of_cluster ? clusters - 1 : field->most;
    int below = value < field->least;
    if (!below && value <= most)
        return 0;
    tell_range(range, sizeof range, field, most);
    fault->whole = 1;
    fault->column = 2 * place;
    SAY(fault, field->hexadecimal ? "line %u, byte %u: %s 0x%02X is %s 0x%02X%s (%s)"
                                  : "line %u, byte %u: %s %u is %s %u%s (%s)",
        (unsigned)line_number, (unsigned)place, field->name, (unsigned)value, below ? "below" : "above",
        (unsigned)(below ? field->least : most), of_cluster ? ", the last cluster" : "", range);
    return 1;
}
