/* Lines of digits, as site and plan texts are made of them (docs/FORMATS.md, "Site text" and "Plan text"). */
#ifndef CLI_DIGITS_H
#define CLI_DIGITS_H

#include <stddef.h>
#include <stdint.h>

/* The kinds of lines in a site text and in a plan text: the first byte of each. */
enum kind {
    NO_LINE = 0,
    HEADER_LINE = 0x01,
    CLUSTER_LINE = 0x02,
    FLOW_LINE = 0x03,
    PLAN_HEADER_LINE = 0x81,
    PLAN_CLUSTER_LINE = 0x82
};

/* Lengths of records in bytes; a cluster's and a plan cluster's without the tag. The tag length is the byte
 * before the tag. */
#define HEADER_BYTES 4
#define CLUSTER_BYTES 4
#define FLOW_BYTES 11
#define PLAN_CLUSTER_BYTES 11

/* The most digits that a line can have: a limit of its own in a site text, and in a plan text those of a record
 * with a tag of 255 bytes. */
#define MOST_DIGITS 136
#define MOST_PLAN_DIGITS (2 * (PLAN_CLUSTER_BYTES + 255))

/* A part of a text: a site, a plan, or a line of it. */
struct part {
    const uint8_t *bytes;
    size_t length;
};

/* Takes the first line off a text, without its LF. 0 where there is none. */
int take_line(struct part *text, struct part *line);

/* Whether a line of a text is ended by LF. */
int is_ended(struct part text, struct part line);

/* The value of a digit; -1 for any other character. */
int digit(uint8_t character);

/* The number in the record of a line that begins at a byte of it and has so many bytes, at most 4. */
uint32_t number_at(const uint8_t *line, size_t byte, size_t bytes);

#endif
