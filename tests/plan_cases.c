/* Plans the cases of standard input through cartheron.h and prints the answers; tests/plan_cases.py says
 * how a case and its answer look, and gives the answers that an independent planner finds. */
#include <stdio.h>
#include <string.h>
#include "cartheron.h"

enum { MOST = 16384 };

static uint8_t text[MOST], room[MOST];

int main(void)
{
    char head[18] = {0};
    while (fread(head, 1, 17, stdin) == 17) {
        unsigned text_len, room_len;
        if (sscanf(head, "%8X%8X", &text_len, &room_len) != 2 || text_len > MOST || room_len > MOST)
            return 2;
        if (fread(text, 1, text_len, stdin) != text_len || getchar() != '\n')
            return 2;
        memset(room, '.', MOST);
        uint32_t answer = cartheron_plan(text, text_len, room, room_len);
        printf("%08X\n", (unsigned)answer);
        if (!CARTHERON_REFUSED(answer))
            fwrite(room, 1, answer, stdout);
        unsigned changed = 0;
        for (size_t i = 0; i < MOST; i++)
            changed += room[i] != '.';
        printf("%08X\n%08X\n", changed, (unsigned)cartheron_place(text, text_len));
    }
    return ferror(stdout) != 0;
}
