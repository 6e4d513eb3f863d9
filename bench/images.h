// The images that reader.c times: tiny ones and boards, most accepted with the full list, some refused.
#ifndef IMAGES_H
#define IMAGES_H

#include "../tests/reader.h"

enum { LONGEST = 65536, IMAGES = 16 };

typedef struct {
    const char *name;
    uint32_t format;                // TINY or BOARD
    size_t (*make)(uint8_t *image); // writes LONGEST bytes at most, and answers how many
    unsigned refusal;               // its number, or 0 where the image is accepted
} Maker;

extern const Maker makers[IMAGES];

#endif
