/*
 * An entry of a lent list, and the functions of the crate reader_c that fill a list and walk, as C sees them. They return the number that a chip_answer has.
 */
#ifndef READER_H
#define READER_H

#include <stdbool.h>
#include <stddef.h>
#include <stdint.h>

#include "../chip/chip.h"

/* the answer with this number */
static inline chip_answer answer_of(uint64_t bits) {
    return (chip_answer){bits};
}

typedef struct {
    uint64_t kind;
    size_t place;
    size_t length;
    bool known;
} Entry;

enum { TINY = 0, BOARD = 1 }; /* a format: 0 for tiny images, any other number for board images */

/* The list, into the lent entries: their count, or a refusal. */
uint64_t reader_list(uint32_t format, const uint8_t *image, size_t length, uint32_t kinds, Entry *out, size_t room);

/* What the step of a number from a fresh walk shows: the item's place; bit 40 where no item is left; or a refusal. */
uint64_t reader_step(uint32_t format, const uint8_t *image, size_t length, uint32_t kinds, size_t number);

#endif
