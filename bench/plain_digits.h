/* Digits in hexadecimal, by eights where it can be. */
#ifndef PLAIN_DIGITS_H
#define PLAIN_DIGITS_H

#include <stdint.h>

#define EACH(byte) (0x0101010101010101u * (byte))

/* Eight characters as one number, the first one highest. */
static inline uint64_t eight_at(const uint8_t *at)
{
    return (uint64_t)at[0] << 56 | (uint64_t)at[1] << 48 | (uint64_t)at[2] << 40 | (uint64_t)at[3] << 32 |
           (uint64_t)at[4] << 24 | (uint64_t)at[5] << 16 | (uint64_t)at[6] << 8 | (uint64_t)at[7];
}

/* The number that eight digits stand for. What is added to *wrong is 0 if they are digits: a value of 0 to 15
 * that is written as the same character again. */
static inline uint32_t number_at(const uint8_t *at, uint64_t *wrong)
{
    uint64_t characters = eight_at(at);
    uint64_t values = (characters & EACH(0x0F)) + 9 * (characters >> 6 & EACH(0x01));
    uint64_t letters = (values + EACH(6)) >> 4 & EACH(0x01);

    *wrong |= (values & EACH(0xF0)) | ((values + EACH('0') + 7 * letters) ^ characters);
    values = (values | values >> 4) & 0x00FF00FF00FF00FF;
    values = (values | values >> 8) & 0x0000FFFF0000FFFF;
    return (uint32_t)(values | values >> 16);
}

/* The value of a digit, or 16 for another character. */
static inline unsigned digit_value(uint8_t character)
{
    if (character >= '0' && character <= '9')
        return character - '0';
    return character >= 'A' && character <= 'F' ? character - 'A' + 10u : 16;
}

#endif
