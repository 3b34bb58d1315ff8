/* Where in its line the refusal of a site lies. */
#include "fault_parts.h"

#include <string.h>

struct part line_of(struct part text, uint32_t line_number)
{
    size_t start = cartheron_line_start(text.bytes, text.length, line_number);
    struct part line = {text.bytes + start, cartheron_line_length(text.bytes, text.length, line_number)};

    return line;
}

/* The clusters that the header says. It was accepted where another line is refused. */
static uint32_t clusters_of(struct part text)
{
    return number_at(text.bytes, 2, 1);
}

/* The kind that is due at a line. */
static enum kind kind_due(struct part text, uint32_t line_number)
{
    if (line_number == 1)
        return HEADER_LINE;
    uint32_t last_cluster = 1 + clusters_of(text), last = last_cluster + number_at(text.bytes, 3, 1);
    if (line_number <= last_cluster)
        return CLUSTER_LINE;
    return line_number <= last ? FLOW_LINE : NO_LINE;
}

/* 2: another kind than the one that is due, or a line where none is. An empty line that is there is 1, so
 * an empty part is that of a missing line. */
static void wrong_kind(struct fault *fault, struct part text)
{
    enum kind due = kind_due(text, fault->line_number);

    fault->missing = fault->line.length == 0;
    if (due == NO_LINE)
        SAY(fault, "no line is due behind %u clusters and %u flows", (unsigned)clusters_of(text),
            (unsigned)number_at(text.bytes, 3, 1));
    else if (fault->missing)
        SAY(fault, "the text ends, and %s (%02X) is due", kind_name(due), (unsigned)due);
    else
        bad_kind(fault, fault->line, due);
}

/* 5: the parent of the cluster in a line. */
static void wrong_parent(struct fault *fault)
{
    unsigned parent = (unsigned)number_at(fault->line.bytes, 1, 1), cluster = (unsigned)fault->line_number - 2;

    fault->column = 2 * 1;
    if (cluster == 0)
        SAY(fault, "this is the root, and its parent is %02X", parent);
    else if (parent == NO_PARENT)
        SAY(fault, "this is cluster %u, and only the root has parent FF", cluster);
    else
        SAY(fault, "this is cluster %u, and its parent is %u", cluster, parent);
}

/* 6: the earlier cluster with the tag. The record from its tag length on is the same. */
static void tag_used(struct fault *fault, struct part text)
{
    struct part line = fault->line;
    uint32_t earlier = 2;
    size_t from = 2 * (CLUSTER_BYTES - 1);

    for (; earlier + 1 < fault->line_number; earlier++) {
        struct part other = line_of(text, earlier);
        if (other.length == line.length && memcmp(other.bytes + from, line.bytes + from, line.length - from) == 0)
            break;
    }
    fault->column = 2 * CLUSTER_BYTES;
    SAY(fault, "cluster %u, in line %u", (unsigned)earlier - 2, (unsigned)earlier);
}

void find_fault(struct fault *fault, enum cartheron_refusal number, struct part text, uint32_t line_number)
{
    memset(fault, 0, sizeof *fault);
    fault->line_number = line_number;
    fault->line = line_of(text, line_number);
    switch (number) {
    case CARTHERON_NOT_A_LINE:
        bad_digits(fault, text, fault->line, MOST_DIGITS);
        break;
    case CARTHERON_WRONG_KIND:
        wrong_kind(fault, text);
        break;
    case CARTHERON_WRONG_LENGTH:
        bad_length(fault, fault->line);
        break;
    case CARTHERON_BAD_HEADER:
    case CARTHERON_BAD_ORDER:
    case CARTHERON_BAD_TAG:
    case CARTHERON_NO_CLUSTER:
    case CARTHERON_BAD_TIME:
        /* the field at the place that the library gives; of a sound one nothing is said */
        bad_field(fault, fault->line, line_number, cartheron_place(text.bytes, text.length), clusters_of(text));
        break;
    case CARTHERON_WRONG_PARENT:
        wrong_parent(fault);
        break;
    case CARTHERON_TAG_USED:
        tag_used(fault, text);
        break;
    default:
        break;
    }
}
