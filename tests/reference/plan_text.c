/* Reads a plan text back. */
#include "plan_text.h"

/* What is left of the text, and whether all of it so far was as it should be. */
struct rest {
    const uint8_t *at;
    const uint8_t *end;
    bool sound;
};

/* The next byte of the text, or 0 at its end. */
static uint8_t next_character(struct rest *rest)
{
    if (rest->at == rest->end) {
        rest->sound = false;
        return 0;
    }
    return *rest->at++;
}

/* The number that stands in the next digits, so many of them. */
static uint32_t take(struct rest *rest, size_t digits)
{
    static const char all[] = "0123456789ABCDEF";
    uint32_t number = 0;

    for (size_t i = 0; i < digits; i++) {
        uint8_t character = next_character(rest);
        uint32_t value = 0;
        while (value < 16 && (uint8_t)all[value] != character)
            value++;
        if (value == 16)
            rest->sound = false;
        number = number << 4 | (value & 15);
    }
    return number;
}

/* Takes a number, two digits a byte, and wants it to be this one. */
static void expect(struct rest *rest, size_t bytes, uint32_t number)
{
    if (take(rest, 2 * bytes) != number)
        rest->sound = false;
}

/* Takes the LF that ends a line. */
static void expect_end_of_line(struct rest *rest)
{
    if (next_character(rest) != '\n')
        rest->sound = false;
}

/* Takes the line of a cluster that starts no earlier than the one above. Returns its own start. */
static uint32_t take_cluster(struct rest *rest, const struct reference_site *site, uint32_t above, bool *seen,
                             uint32_t *starts)
{
    expect(rest, 1, 0x82);
    uint32_t number = take(rest, 2);
    if (number >= site->clusters || seen[number]) {
        rest->sound = false;
        return above;
    }
    const struct reference_cluster *cluster = &site->cluster[number];
    seen[number] = true;
    starts[number] = take(rest, 8);
    if (starts[number] < above)
        rest->sound = false;
    expect(rest, 4, 960u << cluster->order);
    expect(rest, 1, cluster->tag_length);
    for (size_t i = 0; i < cluster->tag_length; i++)
        expect(rest, 1, cluster->tag[i]);
    expect_end_of_line(rest);
    return starts[number];
}

bool plan_text_read(const uint8_t *text, size_t text_len, const struct reference_site *site, int *order,
                    uint32_t *starts)
{
    struct rest rest = {.at = text, .end = text + text_len, .sound = true};
    bool seen[REFERENCE_CLUSTERS] = {false};
    uint32_t above = 0;

    expect(&rest, 1, 0x81);
    expect(&rest, 1, 1);
    *order = (int)take(&rest, 2);
    expect(&rest, 1, site->clusters);
    expect_end_of_line(&rest);
    for (size_t i = 0; i < site->clusters && rest.sound; i++)
        above = take_cluster(&rest, site, above, seen, starts);
    return rest.sound && rest.at == rest.end && *order <= REFERENCE_LARGEST_ORDER;
}
