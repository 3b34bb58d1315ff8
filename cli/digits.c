/* Lines of digits. */
#include "digits.h"

#include <string.h>

int take_line(struct part *text, struct part *line)
{
    if (text->length == 0)
        return 0;
    const uint8_t *lf = memchr(text->bytes, '\n', text->length);
    size_t length = lf == NULL ? text->length : (size_t)(lf - text->bytes);
    size_t taken = lf == NULL ? length : length + 1;
    *line = (struct part){text->bytes, length};
    *text = (struct part){text->bytes + taken, text->length - taken};
    return 1;
}

int is_ended(struct part text, struct part line)
{
    return line.bytes + line.length < text.bytes + text.length;
}

int digit(uint8_t character)
{
    if (character >= '0' && character <= '9')
        return character - '0';
    return character >= 'A' && character <= 'F' ? character - 'A' + 10 : -1;
}

uint32_t number_at(const uint8_t *line, size_t byte, size_t bytes)
{
    uint32_t number = 0;

    for (size_t i = 2 * byte; i < 2 * (byte + bytes); i++)
        number = number * 16 + (uint32_t)digit(line[i]);
    return number;
}
