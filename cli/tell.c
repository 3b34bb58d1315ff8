/* Refusals in words, with the line at fault. */
#include "tell.h"
#include "fault.h"
#include "figures.h"
#include "refusals.h"

/* How much of a line is shown, and how much of that before its fault where the line is longer and the fault far in. */
#define MOST_SHOWN 160
#define SHOWN_BEFORE 136
#define LEFT_OUT "..."

void print_name(FILE *words, const char *name)
{
    for (; *name != '\0'; name++)
        fputc((unsigned char)*name < 0x20 || *name == 0x7F ? '?' : *name, words);
}

/* Says what is wrong: the words of the fault where they say all, else the sentence of the number, and what is known
 * of the fault behind it. */
static void say(FILE *words, enum cartheron_refusal number, const struct fault *fault)
{
    if (fault->whole)
        fprintf(words, "%s\n", fault->words);
    else
        fprintf(words, "%s%s%s\n", refusal_words(number), fault->words[0] != '\0' ? ": " : "", fault->words);
}

/* Shows the line at fault, at most 160 characters of it, other than printable ones as ?; and a caret under its
 * fault. */
static void show_line(FILE *words, const struct paint *paint, const struct fault *fault)
{
    struct part line = fault->line;
    size_t from = fault->column < MOST_SHOWN ? 0 : fault->column - SHOWN_BEFORE;
    int margin = fprintf(words, "%4u", (unsigned)fault->line_number);
    size_t before = fault->column - from;

    fputc('|', words);
    if (from > 0) {
        fputs(LEFT_OUT, words);
        before += sizeof LEFT_OUT - 1;
    }
    for (size_t i = from; i < line.length && i < from + MOST_SHOWN; i++)
        fputc(line.bytes[i] >= 0x20 && line.bytes[i] <= 0x7E ? line.bytes[i] : '?', words);
    fputc('\n', words);
    if (fault->words[0] != '\0')
        fprintf(words, "%*s|%*s%s^%s\n", margin, "", (int)before, "", paint->fault, paint->end);
}

/* Tells a refusal with what is known of its fault. */
static void report(FILE *words, const struct paint *paint, const char *name, enum cartheron_refusal number,
                   const struct fault *fault)
{
    print_name(words, name);
    if (fault->line_number != 0)
        fprintf(words, ":%u", (unsigned)fault->line_number);
    fprintf(words, ": %srefused (%d)%s: ", paint->fault, (int)number, paint->end);
    say(words, number, fault);
    if (fault->line_number != 0 && !fault->missing)
        show_line(words, paint, fault);
}

void tell(FILE *words, const struct paint *paint, const char *name, struct part text, uint32_t answer)
{
    enum cartheron_refusal number = CARTHERON_NUMBER(answer);
    struct fault fault = {0};
    struct site site;

    if (CARTHERON_LINE(answer) != 0)
        find_fault(&fault, number, text, CARTHERON_LINE(answer));
    report(words, paint, name, number, &fault);
    if (number != CARTHERON_NO_FIT && number != CARTHERON_NO_PLACING)
        return;
    site_of_text(&site, text);
    if (number == CARTHERON_NO_FIT)
        advise_no_fit(words, &site);
    else
        advise_no_placing(words, &site);
}

void tell_plan(FILE *words, const struct paint *paint, const char *name, struct part text, const struct site *site,
               uint32_t answer)
{
    static const struct fault not_found;
    enum cartheron_refusal number = CARTHERON_NUMBER(answer);
    struct fault fault;
    struct plan plan;

    if (find_plan_fault(&fault, &plan, site, text) != (int)number) {
        report(words, paint, name, number, &not_found);
        fputs("  This command does not find the place.\n", words);
        return;
    }
    report(words, paint, name, number, &fault);
    print_figures(words, number, &fault, &plan, site, text);
}
