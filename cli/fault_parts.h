/* What the faults of site and plan texts share: what can be wrong with one line. Each of these gives whether it is;
 * the fault then has its column and its words. */
#ifndef CLI_FAULT_PARTS_H
#define CLI_FAULT_PARTS_H

#include "fault.h"

#include <stdio.h>

/* The first character that is no digit; a digit more than the most that there may be, or one too few; no LF. */
int bad_digits(struct fault *fault, struct part text, struct part line, size_t most);

/* Another kind than the one that is due; the line has a byte. */
int bad_kind(struct fault *fault, struct part line, enum kind due);

/* A record that is not as long as its kind, which is one of those that there are. */
int bad_length(struct fault *fault, struct part line);

/* A field that begins at a place of a line and is outside its range. The clusters count where the field names one. */
int bad_field(struct fault *fault, struct part line, uint32_t line_number, size_t place, uint32_t clusters);

/* What a kind of record is called. */
const char *kind_name(enum kind kind);

/* Sets the words of a fault. */
#define SAY(fault, ...) snprintf((fault)->words, sizeof (fault)->words, __VA_ARGS__)

#endif
