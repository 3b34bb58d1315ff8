/* The comparison of one case of the differential test. */
#include "contest.h"
#include "plain.h"

#include <inttypes.h>
#include <stdio.h>
#include <stdlib.h>
#include <string.h>

const struct trio plan = {"plan", cartheron_plan, reference_plan, plain_plan};
const struct trio rewrite = {"rewrite", cartheron_rewrite, reference_rewrite, plain_rewrite};

void print_answer(const char *who, uint32_t answer)
{
    if (CARTHERON_REFUSED(answer))
        printf("%s: refusal %" PRIu32 " at line %" PRIu32 "\n", who, answer >> 16, CARTHERON_LINE(answer));
    else
        printf("%s: length %" PRIu32 "\n", who, answer);
}

/* Prints the answers of the three. */
static void print_answers(uint32_t product, uint32_t reference, uint32_t plain)
{
    print_answer("library  ", product);
    print_answer("reference", reference);
    print_answer("plain C  ", plain);
}

/* How many bytes an answer says are written. */
static size_t written_by(uint32_t answer)
{
    return CARTHERON_REFUSED(answer) ? 0 : answer;
}

/* Prints where two rooms differ first from a place on, guard bytes included. Places count from where the
 * room begins. */
static void print_difference(const char *what, const uint8_t *a, const uint8_t *b, size_t from, size_t end)
{
    while (from < end && a[from] == b[from])
        from++;
    if (from < end)
        printf("%s: byte %td is %02X and %02X\n", what, (ptrdiff_t)from - GUARD, a[from], b[from]);
}

_Noreturn void give_up(const struct contest *contest, const char *words)
{
    report(contest, words);
    exit(1);
}

void continue_text(struct dice *dice, struct text *text)
{
    size_t behind = TEXT_CAPACITY - text->length;

    for (size_t i = 0; i < behind && i < 4; i++)
        text->bytes[text->length + i] = once_in(dice, 2) ? '0' : '\n';
}

void report(const struct contest *contest, const char *words)
{
    print_text(&contest->text);
    printf("differential: case %" PRIu64 " of seed %" PRIu64 ": %s\n", contest->number, contest->seed, words);
    printf("repeat it: tests/differential.sh --case %" PRIu64 " %" PRIu64 "\n", contest->seed, contest->number);
}

uint32_t compare(struct contest *contest, const struct trio *trio, size_t room_len)
{
    const struct text *text = &contest->text;
    size_t whole = room_len + 2 * GUARD;

    memcpy(contest->product, contest->pattern, whole);
    memcpy(contest->reference, contest->pattern, whole);
    memcpy(contest->plain, contest->pattern, whole);
    uint32_t product = trio->product(text->bytes, text->length, contest->product + GUARD, room_len);
    uint32_t reference = trio->reference(text->bytes, text->length, contest->reference + GUARD, room_len);
    uint32_t plain = trio->plain(text->bytes, text->length, contest->plain + GUARD, room_len);
    size_t behind = GUARD + written_by(reference);
    bool kept = memcmp(contest->reference, contest->pattern, GUARD) == 0 && behind <= GUARD + room_len &&
                memcmp(contest->reference + behind, contest->pattern + behind, whole - behind) == 0;
    bool agree = product == reference && memcmp(contest->product, contest->reference, whole) == 0 &&
                 plain == reference && memcmp(contest->plain, contest->reference, whole) == 0;
    if (!kept || !agree) {
        report(contest, "number or room are not as they should be");
        printf("%s with a room of %zu bytes\n", trio->name, room_len);
        print_answers(product, reference, plain);
        print_difference("library and reference", contest->product, contest->reference, 0, whole);
        print_difference("plain C and reference", contest->plain, contest->reference, 0, whole);
        print_difference("before and after the library, behind its answer", contest->pattern,
                         contest->product, GUARD + written_by(product), whole);
        print_difference("before and after the reference, behind its answer", contest->pattern,
                         contest->reference, behind, whole);
        exit(1);
    }
    return reference;
}

void compare_null(struct contest *contest, const struct trio *trio)
{
    const uint8_t *text = contest->text.length > 0 ? contest->text.bytes : NULL;
    uint32_t product = trio->product(text, contest->text.length, NULL, 0);
    uint32_t reference = trio->reference(text, contest->text.length, NULL, 0);
    uint32_t plain = trio->plain(text, contest->text.length, NULL, 0);

    if (product != reference || plain != reference) {
        report(contest, "the answers without a room are not the same");
        print_answers(product, reference, plain);
        exit(1);
    }
}

void compare_place(const struct contest *contest, uint32_t answer)
{
    const uint8_t *text = contest->text.length > 0 ? contest->text.bytes : NULL;
    uint32_t product = cartheron_place(text, contest->text.length);
    uint32_t reference = reference_place(text, contest->text.length);
    uint32_t plain = plain_place(text, contest->text.length);
    bool has_place = answer >> 16 >= CARTHERON_BAD_HEADER && answer >> 16 <= CARTHERON_BAD_TIME;

    if (product != reference || plain != reference || has_place != (reference != CARTHERON_NO_PLACE)) {
        report(contest, "the places of a bad field are not the same, or one is not due");
        print_answer("answer   ", answer);
        printf("library  : place %" PRIu32 "\n", product);
        printf("reference: place %" PRIu32 "\n", reference);
        printf("plain C  : place %" PRIu32 "\n", plain);
        exit(1);
    }
}

void count_answer(struct tally *tally, uint32_t answer)
{
    if (CARTHERON_REFUSED(answer))
        tally->refusal[answer >> 16]++;
    else
        tally->planned++;
}

void compare_rooms(struct contest *contest, const struct trio *trio, uint32_t answer)
{
    struct dice *dice = &contest->dice;
    size_t needed = CARTHERON_REFUSED(answer) ? below(dice, 100) : answer;

    if (needed < 300 && once_in(dice, 16)) {
        for (size_t room_len = 0; room_len <= needed + 1; room_len++)
            compare(contest, trio, room_len);
        return;
    }
    if (once_in(dice, 2)) {
        uint32_t short_answer = compare(contest, trio, below(dice, needed + 1));
        if (trio == &plan && short_answer >> 16 == CARTHERON_SHORT_ROOM)
            count_answer(contest->tally, short_answer);
        compare(contest, trio, needed);
        compare(contest, trio, needed + below(dice, 20));
    }
}
