/* The smallest useful client of cartheron.h: plans a site and prints the plan text.
 *
 *     commission <SITE
 *
 * Exit status 0 for a plan, 1 for a refusal, 2 for anything else. A refusal goes to standard error by its number and
 * line (enum cartheron_refusal) and the place of a bad field, with the line itself. The command cartheron has the
 * words and much more.
 */
#include <stdio.h>
#include "cartheron.h"

enum { PLANNED = 0, REFUSED = 1, FAILED = 2 };

/* The verdict on a text rests on its first 11,859 bytes: no more is needed of it. */
enum { MOST_NEEDED = 11859, MOST_SHOWN = 160 };

/* Shows the line of a text that was refused, as far as a screen is wide, other than printable bytes as ?. */
static void show_line(const uint8_t *text, size_t length, size_t line)
{
    size_t start = cartheron_line_start(text, length, line);
    size_t end = start + cartheron_line_length(text, length, line);

    for (size_t i = start; i < end && i < start + MOST_SHOWN; i++)
        fputc(text[i] >= 0x20 && text[i] <= 0x7E ? text[i] : '?', stderr);
    fputc('\n', stderr);
}

int main(void)
{
    static uint8_t text[MOST_NEEDED], plan[CARTHERON_LONGEST_PLAN];
    size_t length = fread(text, 1, sizeof text, stdin);

    if (ferror(stdin)) {
        perror("commission: cannot read the site");
        return FAILED;
    }
    /* In a room of CARTHERON_LONGEST_PLAN bytes every plan fits: refusal 9 cannot come back. */
    uint32_t answer = cartheron_plan(text, length, plan, sizeof plan);
    if (CARTHERON_REFUSED(answer)) {
        unsigned place = cartheron_place(text, length);
        fprintf(stderr, "refused (%d) at line %u", (int)CARTHERON_NUMBER(answer), (unsigned)CARTHERON_LINE(answer));
        if (place != CARTHERON_NO_PLACE)
            fprintf(stderr, ", for the field at byte %u of the record", place);
        fputs(": ", stderr);
        show_line(text, length, CARTHERON_LINE(answer));
        return REFUSED;
    }
    if (fwrite(plan, 1, answer, stdout) != answer || fflush(stdout) != 0) {
        perror("commission: cannot write the plan");
        return FAILED;
    }
    return PLANNED;
}
