/* What the parts of the C client share: its checks, its memory, and worked sites of docs/FORMATS.md. */
#ifndef CLIENT_H
#define CLIENT_H

#include "cartheron.h"

#define ROOT "02FF000141\n"
#define CHAIN ROOT "0200000142\n0201000143\n"
#define P2 "01010300\n" CHAIN
#define P2_PLAN "81010E03\n820000000000000003C00141\n8201000003C0000003C00142\n820200000780000003C00143\n"
#define P3 "01010301\n" CHAIN "03020000000F0000000F00\n"
#define P3_PLAN "81010203\n820200000000000003C00143\n8201000003C0000003C00142\n820000000780000003C00141\n"
#define P4 "01010302\n" CHAIN "03000200000F0000001DFF\n03020000000F0000001DFF\n"
#define P5 "01010302\n" CHAIN "03000200000F0000001E00\n03020000000F0000001E00\n"
#define P5_PLAN "81010203\n820000000000000003C00141\n8202000003C0000003C00143\n820100000780000003C00142\n"
#define P8 "01010201\n02FF000141\n0200000142\n0300010000077F00000780\n"

typedef uint32_t function(const uint8_t *text, size_t text_len, uint8_t *room, size_t room_len);

/* Counts a check, and prints what it was of if it failed. */
void check(int ok, const char *what);

/* One memory for all rooms: a room is the first bytes of it, and those behind are not lent. */
#define MEMORY (CARTHERON_LONGEST_SITE + 64)
extern uint8_t memory[MEMORY];

/* Fills the memory with '.'. */
void clear(void);

/* Whether the memory begins with these bytes and is untouched behind them, inside the room and outside. */
int holds(const char *bytes);

/* Calls a function with a text and a room of so many bytes; it has to write this answer and nothing else. */
void writes(const char *what, function *call, const char *text, size_t room_len, const char *answer);

/* The same; it has to refuse so and write nothing. */
void declines(const char *what, function *call, const char *text, size_t room_len, enum cartheron_refusal number,
              uint32_t line);

/* The answers to plans. */
void checked_plans(void);

/* The largest site: its room, and the stack under each function. */
void largest_site(void);

#endif
