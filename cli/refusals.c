/* The refusals in words (docs/FORMATS.md, "Refusal numbers" and "Checking a plan"). */
#include "refusals.h"

static const char *const table[] = {
    [CARTHERON_NOT_A_LINE] = "not a line of digits 0-9 and A-F in pairs",
    [CARTHERON_WRONG_KIND] = "not the line that is due",
    [CARTHERON_WRONG_LENGTH] = "the record is not as long as its kind",
    [CARTHERON_BAD_HEADER] = "the version or a count is outside its range",
    [CARTHERON_BAD_ORDER] = "the superframe order is outside its range",
    [CARTHERON_BAD_TAG] = "the tag length or a tag byte is outside its range",
    [CARTHERON_NO_CLUSTER] = "a flow names a cluster that is not there",
    [CARTHERON_BAD_TIME] = "the required period or the deadline is outside its range",
    [CARTHERON_WRONG_PARENT] = "the root's parent is not FF, or another's is not a lower number",
    [CARTHERON_TAG_USED] = "an earlier cluster has the same tag",
    [CARTHERON_NO_FIT] = "the active portions fit no beacon interval that the flows' periods permit",
    [CARTHERON_NO_PLACING] = "the portions fit, but no order of the clusters keeps every flow within the "
                             "crossings that its deadline allows by the rule",
    [CARTHERON_SHORT_ROOM] = "the room is shorter than the answer",
    [CARTHERON_NO_PLAN_TEXT] = "not laid out as a plan text",
    [CARTHERON_NOT_PERMITTED] = "the beacon order is not permitted",
    [CARTHERON_WRONG_CLUSTER] = "not the site's clusters, each once and in order of start",
    [CARTHERON_OVERLAP] = "two portions overlap, or one ends past the interval",
    [CARTHERON_LATE] = "a flow crosses more periods than its deadline allows",
};

const char *refusal_words(enum cartheron_refusal number)
{
    size_t row = (size_t)number;

    if (row >= sizeof table / sizeof table[0] || table[row] == NULL)
        return "a refusal that this command does not know";
    return table[row];
}
