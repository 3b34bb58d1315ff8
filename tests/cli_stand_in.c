/* The functions of cartheron.h by the plain C of tests/reference: stands in for the library where its x86-64
 * code cannot be linked, so that the command's own code can run natively under the sanitizers. */
#include "cartheron.h"
#include "reference/reference.h"

uint32_t cartheron_plan(const uint8_t *text, size_t text_len, uint8_t *room, size_t room_len)
{
    return reference_plan(text, text_len, room, room_len);
}

uint32_t cartheron_rewrite(const uint8_t *text, size_t text_len, uint8_t *room, size_t room_len)
{
    return reference_rewrite(text, text_len, room, room_len);
}

uint32_t cartheron_place(const uint8_t *text, size_t text_len)
{
    return reference_place(text, text_len);
}

uint32_t cartheron_check(const uint8_t *text, size_t text_len, const uint8_t *plan, size_t plan_len)
{
    return reference_check(text, text_len, plan, plan_len);
}

size_t cartheron_line_start(const uint8_t *text, size_t text_len, size_t line)
{
    return reference_line_start(text, text_len, line);
}

size_t cartheron_line_length(const uint8_t *text, size_t text_len, size_t line)
{
    return reference_line_length(text, text_len, line);
}
