/* The commissioning tool's view: calls every function of cartheron.h over texts whose answers
 * docs/FORMATS.md gives, and measures the stack that each takes for the largest site. Prints a line for each check
 * that fails, then how many passed and failed. */
#include "client.h"

#include <stdio.h>
#include <string.h>

static int passed, failed;

void check(int ok, const char *what)
{
    if (ok) {
        passed++;
    } else {
        failed++;
        printf("FAILED: %s\n", what);
    }
}

uint8_t memory[MEMORY];

void clear(void)
{
    memset(memory, '.', sizeof memory);
}

int holds(const char *bytes)
{
    size_t length = strlen(bytes);
    if (memcmp(memory, bytes, length) != 0)
        return 0;
    for (size_t i = length; i < sizeof memory; i++)
        if (memory[i] != '.')
            return 0;
    return 1;
}

void writes(const char *what, function *call, const char *text, size_t room_len, const char *answer)
{
    clear();
    uint32_t n = call((const uint8_t *)text, strlen(text), memory, room_len);
    check(!CARTHERON_REFUSED(n) && n == strlen(answer) && holds(answer), what);
}

void declines(const char *what, function *call, const char *text, size_t room_len, enum cartheron_refusal number,
              uint32_t line)
{
    clear();
    uint32_t n = call((const uint8_t *)text, strlen(text), memory, room_len);
    check(CARTHERON_REFUSED(n) && CARTHERON_NUMBER(n) == number && CARTHERON_LINE(n) == line && holds(""), what);
}

/* Planning in all of the memory. */
static void plans(const char *what, const char *text, const char *plan)
{
    writes(what, cartheron_plan, text, sizeof memory, plan);
}

/* The place of the bad field of a text has to be this one. */
static void has_place(const char *what, const char *text, uint32_t place)
{
    check(cartheron_place((const uint8_t *)text, strlen(text)) == place, what);
}

/* Planning in all of the memory; the refusal is for the field at a place. */
static void refuses_field(const char *what, const char *text, enum cartheron_refusal number, uint32_t line,
                          uint32_t place)
{
    declines(what, cartheron_plan, text, sizeof memory, number, line);
    has_place(what, text, place);
}

/* The same; the refusal names no field. */
static void refuses(const char *what, const char *text, enum cartheron_refusal number, uint32_t line)
{
    refuses_field(what, text, number, line, CARTHERON_NO_PLACE);
}

enum { P3_LENGTH = sizeof P3 - 1, P3_PLAN_LENGTH = 84 };

static void answers(void)
{
    plans("P3: child first, the root last", P3, P3_PLAN);
    plans("P2: no flows, order 14", P2, P2_PLAN);
    plans("P5: one crossing allowed", P5, P5_PLAN);
    refuses("P4: no placing", P4, CARTHERON_NO_PLACING, 0);
    refuses("P8: no fit", P8, CARTHERON_NO_FIT, 0);
    refuses("a header alone: line 2 is missing", "01010100\n", CARTHERON_WRONG_KIND, 2);
    refuses("the same without LF", "01010100", CARTHERON_NOT_A_LINE, 1);
    refuses("the empty text", "", CARTHERON_WRONG_KIND, 1);
    refuses("a tag used twice", "01010200\n02FF000141\n0200000141\n", CARTHERON_TAG_USED, 3);
    refuses("a parent that is not lower", "01010200\n02FF000141\n0201000142\n", CARTHERON_WRONG_PARENT, 3);
    refuses("a record too long", "01010100\n02FF00014141\n", CARTHERON_WRONG_LENGTH, 2);
}

/* Each field outside its range, and lines with two faults. */
static void places(void)
{
    refuses_field("another version", "01020100\n" ROOT, CARTHERON_BAD_HEADER, 1, 1);
    refuses_field("no clusters", "01010000\n", CARTHERON_BAD_HEADER, 1, 2);
    refuses_field("65 clusters and 129 flows", "01014181\n", CARTHERON_BAD_HEADER, 1, 2);
    refuses_field("129 flows", "01010181\n", CARTHERON_BAD_HEADER, 1, 3);
    refuses_field("another version and no clusters", "01020000\n", CARTHERON_BAD_HEADER, 1, 1);
    refuses_field("an order above 14", "01010200\n" ROOT "02000F0142\n", CARTHERON_BAD_ORDER, 3, 2);
    refuses_field("an order above 14 and a wrong parent", "01010200\n" ROOT "02010F0142\n", CARTHERON_BAD_ORDER, 3, 2);
    refuses_field("an order above 14 and a tag used twice", "01010200\n" ROOT "02000F0141\n", CARTHERON_BAD_ORDER, 3, 2);
    refuses_field("an order above 14 and a blank", "01010100\n02FF0F0120\n", CARTHERON_BAD_ORDER, 2, 2);
    refuses_field("a tag length of 0", "01010100\n02FF0000\n", CARTHERON_BAD_TAG, 2, 3);
    refuses_field("a blank in a tag", "01010100\n02FF0003412043\n", CARTHERON_BAD_TAG, 2, 5);
    refuses_field("two bad bytes in a tag", "01010100\n02FF0003417F20\n", CARTHERON_BAD_TAG, 2, 5);
    refuses_field("a source that is not there", "01010101\n" ROOT "0301000000078000000780\n", CARTHERON_NO_CLUSTER, 3, 1);
    refuses_field("a sink that is not there", "01010101\n" ROOT "0300010000078000000780\n", CARTHERON_NO_CLUSTER, 3, 2);
    refuses_field("a sink that is not there and no period", "01010101\n" ROOT "0300010000000000000780\n",
                  CARTHERON_NO_CLUSTER, 3, 2);
    refuses_field("a period of 0", "01010101\n" ROOT "0300000000000000000780\n", CARTHERON_BAD_TIME, 3, 3);
    refuses_field("a deadline of 0", "01010101\n" ROOT "0300000000078000000000\n", CARTHERON_BAD_TIME, 3, 7);
    refuses_field("a period and a deadline of 0", "01010101\n" ROOT "0300000000000000000000\n", CARTHERON_BAD_TIME, 3, 3);
    has_place("P3, which has a plan", P3, CARTHERON_NO_PLACE);
    check(cartheron_place(NULL, 0) == CARTHERON_NO_PLACE, "the place for no text, by a null pointer");
}

/* Rooms around the length of the plan, and rooms of no bytes at all. */
static void rooms_for_plans(void)
{
    check(strlen(P3_PLAN) == P3_PLAN_LENGTH, "the plan of P3 has 84 bytes");
    writes("P3 in a room of one byte more than its plan", cartheron_plan, P3, P3_PLAN_LENGTH + 1, P3_PLAN);
    writes("P3 in a room just as long as its plan", cartheron_plan, P3, P3_PLAN_LENGTH, P3_PLAN);
    declines("P3 in a room one byte short", cartheron_plan, P3, P3_PLAN_LENGTH - 1, CARTHERON_SHORT_ROOM, 0);
    declines("P3 in a room of one byte", cartheron_plan, P3, 1, CARTHERON_SHORT_ROOM, 0);
    declines("P3, which has a plan, in a room of no bytes", cartheron_plan, P3, 0, CARTHERON_SHORT_ROOM, 0);
    declines("P4 in a room of no bytes: no placing comes before the room", cartheron_plan, P4, 0,
             CARTHERON_NO_PLACING, 0);
    declines("P8 in a room of no bytes: no fit comes before the room", cartheron_plan, P8, 0, CARTHERON_NO_FIT, 0);
    declines("the empty text in a room of no bytes", cartheron_plan, "", 0, CARTHERON_WRONG_KIND, 1);
}

/* Rooms around the length of the site's own text. */
static void rooms_for_sites(void)
{
    writes("P3 written back into a long room", cartheron_rewrite, P3, sizeof memory, P3);
    writes("P3 written back into a room of one byte more", cartheron_rewrite, P3, P3_LENGTH + 1, P3);
    writes("P3 written back into a room just as long", cartheron_rewrite, P3, P3_LENGTH, P3);
    declines("P3 written back into a room one byte short", cartheron_rewrite, P3, P3_LENGTH - 1, CARTHERON_SHORT_ROOM, 0);
    declines("P3 written back into a room of no bytes", cartheron_rewrite, P3, 0, CARTHERON_SHORT_ROOM, 0);
    writes("P4, which has no plan, written back", cartheron_rewrite, P4, sizeof memory, P4);
    writes("P8, which has no plan, written back", cartheron_rewrite, P8, sizeof memory, P8);
    declines("no site to write back", cartheron_rewrite, "0", sizeof memory, CARTHERON_NOT_A_LINE, 1);
    declines("no site to write back, and no room", cartheron_rewrite, "0", 0, CARTHERON_NOT_A_LINE, 1);
}

/* No text and no room, by null pointers; a room by a null pointer for a site that has a plan. */
static void null_pointers(void)
{
    const uint8_t *site = (const uint8_t *)P3;
    uint32_t missing = 65536u * CARTHERON_WRONG_KIND + 1, short_room = 65536u * CARTHERON_SHORT_ROOM;
    check(cartheron_plan(NULL, 0, NULL, 0) == missing, "planning no text into no room, by null pointers");
    check(cartheron_rewrite(NULL, 0, NULL, 0) == missing, "writing back no text into no room, by null pointers");
    check(cartheron_plan(site, P3_LENGTH, NULL, 0) == short_room, "planning P3 into no room, by a null pointer");
    check(cartheron_rewrite(site, P3_LENGTH, NULL, 0) == short_room, "writing back P3 into no room, by a null pointer");
    clear();
    check(cartheron_plan(NULL, 0, memory, sizeof memory) == missing && holds(""), "planning no text, by a null pointer");
}

/* The part shown for a line of a text has to begin there and to have so many bytes. */
static void part_shown(const char *what, const char *text, size_t line, size_t start, size_t length)
{
    const uint8_t *bytes = (const uint8_t *)text;
    size_t bytes_len = strlen(text);
    check(cartheron_line_start(bytes, bytes_len, line) == start &&
              cartheron_line_length(bytes, bytes_len, line) == length, what);
}

static void lines(void)
{
    part_shown("line 0: the empty part at the end", "AB\n\nC", 0, 5, 0);
    part_shown("a line", "AB\n\nC", 1, 0, 2);
    part_shown("an empty line: the empty part at its own place", "AB\n\nC", 2, 3, 0);
    part_shown("a last line that no LF ends", "AB\n\nC", 3, 4, 1);
    part_shown("the line after the last", "AB\n\nC", 4, 5, 0);
    part_shown("a line far behind the last", "AB\n\nC", (size_t)-1, 5, 0);
    part_shown("a last line that LF ends", "AB\nC\n", 2, 3, 1);
    part_shown("nothing follows the last LF", "AB\nC\n", 3, 5, 0);
    part_shown("line 1 of the empty text", "", 1, 0, 0);
    check(cartheron_line_start(NULL, 0, 1) == 0 && cartheron_line_length(NULL, 0, 1) == 0, "no text, by a null pointer");
}

int main(void)
{
    answers();
    places();
    rooms_for_plans();
    rooms_for_sites();
    null_pointers();
    lines();
    checked_plans();
    largest_site();
    printf("client: %d passed, %d failed\n", passed, failed);
    return failed != 0;
}
