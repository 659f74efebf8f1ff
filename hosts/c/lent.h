/* Pointers for texts and buffers of length 0 that a host holds as null: the calls take none. */
#ifndef RELCALC_LENT_H
#define RELCALC_LENT_H

#include <stdint.h>

static inline const uint8_t *lent_text(const void *text)
{
    static const uint8_t none[1];
    return text ? text : none;
}

static inline uint8_t *lent_bytes(uint8_t *bytes)
{
    static uint8_t none[1];
    return bytes ? bytes : none;
}

static inline uint64_t *lent_words(uint64_t *words)
{
    static uint64_t none[1];
    return words ? words : none;
}

#endif
