/* Reads a plan text back, for the checks that stand on the starts it gives. */
#ifndef PLAN_TEXT_H
#define PLAN_TEXT_H

#include "reference.h"

#include <stdbool.h>

/* Takes the beacon order and the start of each cluster out of a plan text. False if it is not a plan text
 * of this site: each cluster once, in order of start, with its portion's length and its tag. Whether the starts are
 * a placing is not asked. */
bool plan_text_read(const uint8_t *text, size_t text_len, const struct reference_site *site, int *order,
                    uint32_t *starts);

#endif
