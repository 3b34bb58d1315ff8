/* Cartheron: plans for wireless sensor trees.
 *
 * A site text goes in, a plan text comes out; and a plan text from anywhere is checked for a site.
 * Both are lines of hexadecimal, each ended by one LF. docs/FORMATS.md has their layout ("Site text",
 * "Plan text") and the rules, by which a plan is made and checked.
 *
 * Every function takes any bytes and any lengths and always returns. A text, a plan or a room of
 * length 0 may come with any pointer, NULL too. Text and room must not overlap. Nothing is kept after
 * a call, nothing is allocated, and there is no shared state: any number of threads may call at the
 * same time, each with a room of its own. The caller owns text, plan and room throughout.
 *
 * Proved, for every text, every plan and every room: the number that comes back and the whole room
 * after the call. In particular a refusal leaves the room as it was, and an answer fills its first
 * bytes and leaves those behind it. Not covered by the proofs: the compiler's back end and the calling
 * C code.
 *
 * Link with libcartheron.a where it is installed (pkg-config --cflags --libs cartheron), else with
 * target/staticlib/libcommission.a, which bin/library makes. It is x86-64 code.
 */
#ifndef CARTHERON_H
#define CARTHERON_H

#include <stddef.h>
#include <stdint.h>

#ifdef __cplusplus
extern "C" {
#endif

/* Bytes of the longest plan text and of the longest site text: a room so long is never too short, and
 * no longer text is a plan, or a site. */
#define CARTHERON_LONGEST_PLAN 9673
#define CARTHERON_LONGEST_SITE 11721

/* Why a text was refused (docs/FORMATS.md, "Refusal numbers" and "Checking a plan"). There is no 4.
 *
 * 1 to 6 and 10 to 14 name a line of the site text, counted from 1; the first line that is refused
 * decides, and within it the first test in the order of this list. 10 to 14 are for a field, whose place
 * cartheron_place gives. 7, 8 and 9 have line 0, and the site itself reads. */
enum cartheron_refusal {
    CARTHERON_NOT_A_LINE = 1,     /* the line has another character than 0-9 and A-F, an odd number of
                                     digits, none or more than 136, or the text ends inside it */
    CARTHERON_WRONG_KIND = 2,     /* another kind of line is due here, or none, or the line is missing */
    CARTHERON_WRONG_LENGTH = 3,   /* the record is not as long as its kind */
    CARTHERON_BAD_HEADER = 10,    /* the version is not 1, there are no clusters or more than 64, or more
                                     than 128 flows */
    CARTHERON_BAD_ORDER = 11,     /* the superframe order is above 14 */
    CARTHERON_BAD_TAG = 12,       /* the tag length is not 1 to 64, or a tag byte is not 21 to 7E in
                                     hexadecimal */
    CARTHERON_NO_CLUSTER = 13,    /* a flow's source or sink is not the number of a cluster */
    CARTHERON_BAD_TIME = 14,      /* a required period or a deadline is not 1 to 1,000,000,000 symbols */
    CARTHERON_WRONG_PARENT = 5,   /* the root's parent is not FF, or another's is not a lower number */
    CARTHERON_TAG_USED = 6,       /* an earlier cluster has the same tag */
    CARTHERON_NO_FIT = 7,         /* the active portions fit no beacon interval that the periods permit */
    CARTHERON_NO_PLACING = 8,     /* they fit, but no order of the clusters keeps every flow within the
                                     crossings that its deadline allows */
    CARTHERON_SHORT_ROOM = 9,     /* the room is shorter than the answer */

    /* Of cartheron_check alone, for the plan text. All have line 0: each is asked of the whole plan, and
     * the lowest that applies is given. */
    CARTHERON_NO_PLAN_TEXT = 20,  /* the plan has no line, or one that breaks the layout: another character
                                     than 0-9 and A-F, an odd number of digits or none, no LF, or another
                                     kind, version or length */
    CARTHERON_NOT_PERMITTED = 21, /* the beacon order is above 14, or its interval longer than a required
                                     period */
    CARTHERON_WRONG_CLUSTER = 22, /* a cluster is not the site's, is missing or comes twice, or has another
                                     length or tag than in the site; or the header has another number of
                                     clusters; or a start is before that of the line above */
    CARTHERON_OVERLAP = 23,       /* two portions overlap, or one ends past the interval */
    CARTHERON_LATE = 24           /* a flow crosses more periods than its deadline allows */
};

/* What cartheron_plan, cartheron_rewrite and cartheron_check answered: a refusal is more than 65,535, and
 * anything else is the length of what was written, at most 65,535, or the 0 of a plan that is one. */
#define CARTHERON_REFUSED(answer) ((answer) > 65535u)
#define CARTHERON_NUMBER(answer) ((enum cartheron_refusal)((answer) >> 16))
#define CARTHERON_LINE(answer) ((answer) & 65535u)

/* Plans the site and writes the plan text into the room. Returns the length written, or
 * 65,536 x refusal + line. */
uint32_t cartheron_plan(const uint8_t *text, size_t text_len, uint8_t *room, size_t room_len);

/* Reads the site and writes its text into the room: the same bytes, if the site is accepted. Returns
 * the length written, or 65,536 x refusal + line. */
uint32_t cartheron_rewrite(const uint8_t *text, size_t text_len, uint8_t *room, size_t room_len);

/* The place of the field for which a text is refused by 10 to 14: the byte of the record at which the
 * field begins, counted from 0, so that it stands from character 2 x place of the line on. It is the
 * first field of that line that is outside its range. CARTHERON_NO_PLACE for every other text, accepted
 * or refused. The text is read again. */
#define CARTHERON_NO_PLACE 255
uint32_t cartheron_place(const uint8_t *text, size_t text_len);

/* Checks a plan text for the site in text, whoever made it. Returns 0 if it is a plan for the site: the
 * plan text of a permitted beacon order and of starts at which no two portions overlap, all end inside the
 * interval and no flow crosses more periods than its deadline allows, with the site's tags and lengths and
 * with the clusters in order of start. Idle time between portions, another sequence of the clusters and a
 * smaller beacon order than cartheron_plan gives are all right; what cartheron_plan writes always passes.
 *
 * Else returns 65,536 x refusal + line: the refusal of the site text with its line, for which
 * cartheron_place has the place; or, for a site that reads, one of 20 to 24 with line 0. Never 7, 8 or 9:
 * for a site that cartheron_plan refuses by 7 or 8 no plan passes. Text and plan may overlap, or be one. */
uint32_t cartheron_check(const uint8_t *text, size_t text_len, const uint8_t *plan, size_t plan_len);

/* Where the part of the text begins that is shown for a line, and how many bytes it has: the line
 * without its LF. For line 0 and for a line that is not there it is the empty part at the text's end. */
size_t cartheron_line_start(const uint8_t *text, size_t text_len, size_t line);
size_t cartheron_line_length(const uint8_t *text, size_t text_len, size_t line);

#ifdef __cplusplus
}
#endif

#endif
