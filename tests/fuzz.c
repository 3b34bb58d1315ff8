/* Any bytes as a site text: the library has to answer as the plain C of tests/reference does. The bytes before the
 * first 00 are also a site text and those behind it a plan text, which is checked; without a 00 the bytes are both.
 *
 * With a fuzzer of clang, LIB being the library:
 *   clang -std=c11 -g -O1 -fsanitize=fuzzer,address,undefined -DCARTHERON_FUZZER -Iinclude -o fuzz \
 *       tests/fuzz.c tests/reference/read.c tests/reference/plan.c tests/reference/check.c LIB
 *   ./fuzz CORPUS_DIRECTORY
 * On files, or on standard input if none is named, also under afl:
 *   cc -std=c11 -g -O1 -fsanitize=address,undefined -Iinclude -o fuzz \
 *       tests/fuzz.c tests/reference/read.c tests/reference/plan.c tests/reference/check.c LIB
 *   ./fuzz FILE...
 *
 * Text and rooms are heap blocks of just their length. A sanitizer sees what C code touches beside them;
 * the library is not instrumented, so use valgrind to see the same of it.
 */
#include "cartheron.h"
#include "reference/reference.h"

#include <stdbool.h>
#include <stdio.h>
#include <stdlib.h>
#include <string.h>

#define GENEROUS (CARTHERON_LONGEST_SITE + 100)

typedef uint32_t writer(const uint8_t *text, size_t text_len, uint8_t *room, size_t room_len);

int LLVMFuzzerTestOneInput(const uint8_t *data, size_t size);

/* Says what was different and ends the program so that a fuzzer notices. */
static _Noreturn void give_up(const char *what, size_t product, size_t reference)
{
    fprintf(stderr, "fuzz: %s: library %zu, reference %zu\n", what, product, reference);
    abort();
}

/* A heap block of just this length, or NULL for none. */
static uint8_t *block(size_t length)
{
    uint8_t *bytes = length > 0 ? malloc(length) : NULL;

    if (length > 0 && bytes == NULL)
        exit(2);
    return bytes;
}

/* A room of this length with a pattern in it that depends on the place. */
static uint8_t *patterned_room(size_t length)
{
    uint8_t *room = block(length);

    for (size_t i = 0; i < length; i++)
        room[i] = (uint8_t)(i * 151 + (i >> 8) + 29);
    return room;
}

/* Runs both functions on rooms of this length: number and whole room must agree. Returns the number. */
static uint32_t compare(writer *product_writer, writer *reference_writer, const uint8_t *text, size_t size,
                        size_t room_len)
{
    uint8_t *product_room = patterned_room(room_len);
    uint8_t *reference_room = patterned_room(room_len);
    uint32_t product = product_writer(text, size, product_room, room_len);
    uint32_t reference = reference_writer(text, size, reference_room, room_len);

    if (product != reference)
        give_up("another number", product, reference);
    for (size_t i = 0; i < room_len; i++)
        if (product_room[i] != reference_room[i])
            give_up("another room", product_room[i], reference_room[i]);
    free(product_room);
    free(reference_room);
    return product;
}

/* Compares two functions with a generous room, one of just the answer's length and one a byte shorter. */
static uint32_t compare_rooms(writer *product, writer *reference, const uint8_t *text, size_t size)
{
    uint32_t answer = compare(product, reference, text, size, GENEROUS);

    if (CARTHERON_REFUSED(answer)) {
        compare(product, reference, text, size, 0);
    } else {
        compare(product, reference, text, size, answer);
        compare(product, reference, text, size, answer - 1);
    }
    return answer;
}

/* Compares the place of a bad field. */
static void compare_place(const uint8_t *text, size_t size)
{
    if (cartheron_place(text, size) != reference_place(text, size))
        give_up("another place", cartheron_place(text, size), reference_place(text, size));
}

/* A heap block with these bytes, or NULL for none. */
static uint8_t *copy_of(const uint8_t *bytes, size_t length)
{
    uint8_t *copy = block(length);

    for (size_t i = 0; i < length; i++)
        copy[i] = bytes[i];
    return copy;
}

/* Compares the check of a plan for a site. Returns the answer. */
static uint32_t compare_check(const uint8_t *site, size_t site_len, const uint8_t *plan, size_t plan_len)
{
    uint32_t product = cartheron_check(site, site_len, plan, plan_len);
    uint32_t reference = reference_check(site, site_len, plan, plan_len);

    if (product != reference)
        give_up("another answer to a plan", product, reference);
    return product;
}

/* Compares the check of the plan that stands behind the site, or of the bytes for themselves. */
static void compare_parts(const uint8_t *text, size_t size)
{
    const uint8_t *zero = size > 0 ? memchr(text, 0, size) : NULL;

    if (zero == NULL) {
        compare_check(text, size, text, size);
        return;
    }
    size_t site_len = (size_t)(zero - text), plan_len = size - site_len - 1;
    uint8_t *site = copy_of(text, site_len), *plan = copy_of(zero + 1, plan_len);
    compare_check(site, site_len, plan, plan_len);
    free(site);
    free(plan);
}

/* The site's own plan, of this length, has to be accepted. */
static void accept_own(const uint8_t *text, size_t size, uint32_t length)
{
    uint8_t *plan = block(length);

    cartheron_plan(text, size, plan, length);
    uint32_t answer = compare_check(text, size, plan, length);
    if (answer != 0)
        give_up("the site's own plan is refused", answer, 0);
    free(plan);
}

/* Compares the part shown for a line. */
static void compare_line(const uint8_t *text, size_t size, size_t line)
{
    size_t start = cartheron_line_start(text, size, line);
    size_t length = cartheron_line_length(text, size, line);

    if (start != reference_line_start(text, size, line))
        give_up("another start of a line", start, reference_line_start(text, size, line));
    if (length != reference_line_length(text, size, line))
        give_up("another length of a line", length, reference_line_length(text, size, line));
}

/* Compares all functions on one text. */
int LLVMFuzzerTestOneInput(const uint8_t *data, size_t size)
{
    uint8_t *text = copy_of(data, size);
    size_t last = 0;

    for (size_t i = 0; i < size; i++)
        last += data[i] == '\n';
    uint32_t answer = compare_rooms(cartheron_plan, reference_plan, text, size);
    compare_rooms(cartheron_rewrite, reference_rewrite, text, size);
    compare_place(text, size);
    compare_parts(text, size);
    if (!CARTHERON_REFUSED(answer))
        accept_own(text, size, answer);
    const size_t lines[] = {0, 1, CARTHERON_LINE(answer), last, last + 1, last + 2, SIZE_MAX};
    for (size_t i = 0; i < sizeof lines / sizeof lines[0]; i++)
        compare_line(text, size, lines[i]);
    if (size > 0 && memcmp(text, data, size) != 0)
        give_up("the text was changed", size, size);
    free(text);
    return 0;
}

#ifndef CARTHERON_FUZZER

/* Reads a file to its end and compares all functions on it. False if it cannot be read. */
static bool run_file(FILE *file)
{
    size_t capacity = 1 << 16;
    size_t size = 0;
    uint8_t *data = block(capacity);

    for (size_t got; (got = fread(data + size, 1, capacity - size, file)) > 0;) {
        size += got;
        if (size == capacity) {
            capacity *= 2;
            data = realloc(data, capacity);
            if (data == NULL)
                exit(2);
        }
    }
    bool read = !ferror(file);
    if (read)
        LLVMFuzzerTestOneInput(data, size);
    free(data);
    return read;
}

int main(int argc, char **argv)
{
    if (argc < 2)
        return run_file(stdin) ? 0 : 2;
    for (int i = 1; i < argc; i++) {
        FILE *file = fopen(argv[i], "rb");
        if (file == NULL || !run_file(file)) {
            fprintf(stderr, "fuzz: %s cannot be read\n", argv[i]);
            return 2;
        }
        fclose(file);
    }
    printf("fuzz: %d files agree\n", argc - 1);
    return 0;
}

#endif
