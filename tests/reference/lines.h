/* The lines of site texts and plan texts as records. */
#ifndef LINES_H
#define LINES_H

#include <stdbool.h>
#include <stddef.h>
#include <stdint.h>

/* The longest record there is: a line of a plan with a tag length of 255. */
#define RECORD_CAPACITY 266

struct record {
    size_t length;
    uint8_t bytes[RECORD_CAPACITY];
};

/* Decodes the line that begins at *start and moves *start behind its LF. False where it has a character that is
 * no digit, an odd number of digits, none, or those of more than so many bytes, or is not ended by LF. */
bool decode_line(const uint8_t *text, size_t text_len, size_t *start, size_t most, struct record *record);

/* The number in so many bytes, the high byte first. */
uint32_t number_of(const uint8_t *bytes, size_t width);

#endif
