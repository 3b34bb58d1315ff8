/* What the benchmark measures: each time two functions that answer alike. */
#ifndef DUELS_H
#define DUELS_H

#include "site_file.h"

typedef uint32_t answering(const uint8_t *text, size_t text_len, uint8_t *room, size_t room_len);

/* The library's function, and that of the plain C of bench/plain.h. */
struct duel {
    answering *ours, *plain;
};

/* Planning a site, writing it back, and checking the plan that was kept for it, with the room untouched. */
extern const struct duel planning, rewriting, checking;

/* Keeps the library's plan of a site for checking, or ends the program with status 2 where it has none. */
void keep_plan(const struct site *site);

#endif
