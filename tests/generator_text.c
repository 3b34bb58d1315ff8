/* The texts of all cases. */
#include "generator.h"

#include <stdio.h>
#include <string.h>

void put_number(struct draft_line *line, size_t place, uint32_t number)
{
    for (size_t i = 0; i < 4; i++)
        line->bytes[place + i] = (uint8_t)(number >> (24 - 8 * i));
}

/* The records of a site as bytes. */
static void draft_site(const struct reference_site *site, struct draft *draft)
{
    struct draft_line *line = draft->line;

    draft->lines = 1 + (size_t)site->clusters + site->flows;
    draft->clusters = site->clusters;
    draft->flows = site->flows;
    *line++ = (struct draft_line){.length = 4, .bytes = {1, 1, site->clusters, site->flows}};
    for (size_t c = 0; c < site->clusters; c++) {
        const struct reference_cluster *cluster = &site->cluster[c];
        *line = (struct draft_line){.bytes = {2, cluster->parent, cluster->order, cluster->tag_length}};
        memcpy(line->bytes + 4, cluster->tag, cluster->tag_length);
        line++->length = (size_t)4 + cluster->tag_length;
    }
    for (size_t f = 0; f < site->flows; f++) {
        const struct reference_flow *flow = &site->flow[f];
        *line = (struct draft_line){.length = 11, .bytes = {3, flow->source, flow->sink}};
        put_number(line, 3, flow->period);
        put_number(line++, 7, flow->deadline);
    }
}

void write_draft(const struct draft *draft, struct text *text)
{
    text->length = 0;
    for (size_t i = 0; i < draft->lines; i++) {
        for (size_t j = 0; j < draft->line[i].length; j++) {
            text->bytes[text->length++] = (uint8_t)"0123456789ABCDEF"[draft->line[i].bytes[j] >> 4];
            text->bytes[text->length++] = (uint8_t)"0123456789ABCDEF"[draft->line[i].bytes[j] & 15];
        }
        text->bytes[text->length++] = '\n';
    }
}

void make_noise(struct dice *dice, struct text *text)
{
    static const char usual[] = "0123456789ABCDEF0123\n";
    size_t length = below(dice, 200);
    bool any = once_in(dice, 2);

    for (text->length = 0; text->length < length;) {
        uint64_t bits = roll(dice);
        text->bytes[text->length++] = any ? (uint8_t)bits : (uint8_t)usual[bits % (sizeof usual - 1)];
    }
}

/* Records of any bytes, most of a kind that there is, often behind a sound header. */
static void draft_noise(struct dice *dice, struct draft *draft)
{
    draft->lines = 1 + below(dice, 8);
    for (size_t i = 0; i < draft->lines; i++) {
        struct draft_line *line = &draft->line[i];
        *line = (struct draft_line){.length = 1 + below(dice, 12)};
        for (size_t j = 0; j < line->length; j++)
            line->bytes[j] = (uint8_t)roll(dice);
        line->bytes[0] = (uint8_t)below(dice, 5);
    }
    if (once_in(dice, 2))
        draft->line[0] = (struct draft_line){.length = 4, .bytes = {1, 1, 1, 1}};
}

/* Prints a byte other than the printable ones as a hex escape. */
static void print_byte(uint8_t byte)
{
    if (byte >= 0x20 && byte < 0x7F && byte != '\\')
        putchar(byte);
    else
        printf("\\x%02X", byte);
}

void print_text(const struct text *text)
{
    printf("text of %zu bytes:\n", text->length);
    for (size_t i = 0; i < text->length; i++) {
        if (text->bytes[i] == '\n')
            printf("\\n\n");
        else
            print_byte(text->bytes[i]);
    }
    printf("(end)\n");
}

/* A text of more lines than a line number of two bytes can count. */
static void add_many_lines(struct text *text)
{
    while (text->length < TEXT_CAPACITY - 4)
        text->bytes[text->length++] = '\n';
}

void make_text(struct dice *dice, struct text *text)
{
    struct reference_site site;
    struct draft draft;
    size_t kind = below(dice, 100);
    size_t draft_damages = kind < 50 ? 0 : kind < 75 ? 1 : kind < 85 ? 0 : below(dice, 4);
    size_t text_damages = kind < 75 ? 0 : kind < 85 ? 1 : below(dice, 4);

    if (kind >= 98) {
        make_noise(dice, text);
        return;
    }
    if (kind >= 96) {
        draft_noise(dice, &draft);
        write_draft(&draft, text);
        return;
    }
    make_site(dice, &site);
    draft_site(&site, &draft);
    while (draft_damages-- > 0)
        damage_draft(dice, &draft);
    write_draft(&draft, text);
    while (text_damages-- > 0)
        damage_text(dice, text);
    if (once_in(dice, 5000))
        add_many_lines(text);
}
