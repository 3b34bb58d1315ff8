/* docs/FORMATS.md once more, in plain C. It shares nothing with the product and serves to compare answers
 * and times with it.
 */
#ifndef REFERENCE_H
#define REFERENCE_H

#include <stddef.h>
#include <stdint.h>

#define REFERENCE_CLUSTERS 64
#define REFERENCE_FLOWS 128
#define REFERENCE_TAG 64
#define REFERENCE_LARGEST_ORDER 14
#define REFERENCE_BASE 960u

struct reference_cluster {
    uint8_t parent;
    uint8_t order;
    uint8_t tag_length;
    uint8_t tag[REFERENCE_TAG];
};

struct reference_flow {
    uint8_t source;
    uint8_t sink;
    uint32_t period;
    uint32_t deadline;
};

struct reference_site {
    uint8_t clusters;
    uint8_t flows;
    struct reference_cluster cluster[REFERENCE_CLUSTERS];
    struct reference_flow flow[REFERENCE_FLOWS];
};

/* Reads a site text. Returns 0 and the records, or 65,536 x refusal + line and records all zero. */
uint32_t reference_read(const uint8_t *text, size_t text_len, struct reference_site *site);

/* Plans the site and writes the plan text into the room. Returns the length written, or
 * 65,536 x refusal + line. */
uint32_t reference_plan(const uint8_t *text, size_t text_len, uint8_t *room, size_t room_len);

/* Reads the site and writes its text into the room. Returns the length written, or
 * 65,536 x refusal + line. */
uint32_t reference_rewrite(const uint8_t *text, size_t text_len, uint8_t *room, size_t room_len);

/* The place of the first bad field of a text that reading refuses by 10 to 14; 255 for every other text. */
uint32_t reference_place(const uint8_t *text, size_t text_len);

/* Whether a text is a plan for the site: 0 if it is, or 65,536 x refusal + line. */
uint32_t reference_check(const uint8_t *text, size_t text_len, const uint8_t *plan, size_t plan_len);

/* The part of the text shown for a line: where it begins, and its bytes without the LF. */
size_t reference_line_start(const uint8_t *text, size_t text_len, size_t line);
size_t reference_line_length(const uint8_t *text, size_t text_len, size_t line);

#endif
