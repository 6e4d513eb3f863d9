/*
 * What the programs share that lend images to functions exported to C: pages of memory between two that may not be touched, and images read from
 * standard input. To be included before any other header.
 */
#ifndef PAGES_H
#define PAGES_H

#define _DEFAULT_SOURCE /* MAP_ANONYMOUS */
#include <stdbool.h>
#include <stddef.h>
#include <stdint.h>
#include <stdio.h>
#include <string.h>
#include <sys/mman.h>
#include <unistd.h>

enum { LONGEST = 65537 }; /* an image */

/* pages between two that may not be touched; start is null where there are none to be had */
struct pages {
    uint8_t *start;
    size_t room;
};

/* Whole pages for this many bytes; they may not be touched yet either. */
static inline struct pages pages_for(size_t bytes) {
    size_t page = (size_t)sysconf(_SC_PAGESIZE), room = (bytes + page - 1) / page * page;
    uint8_t *all = mmap(NULL, room + 2 * page, PROT_NONE, MAP_PRIVATE | MAP_ANONYMOUS, -1, 0);
    return all == MAP_FAILED ? (struct pages){NULL, 0} : (struct pages){all + page, room};
}

/* Puts an image into the pages and makes them read-only. */
static inline bool lend(struct pages pages, uint8_t *at, const uint8_t *image, size_t n) {
    if (mprotect(pages.start, pages.room, PROT_READ | PROT_WRITE))
        return false;
    memcpy(at, image, n);
    return !mprotect(pages.start, pages.room, PROT_READ);
}

/* a number of four bytes, low byte first */
static inline uint32_t four(const uint8_t *bytes) {
    return bytes[0] | (uint32_t)bytes[1] << 8 | (uint32_t)bytes[2] << 16 | (uint32_t)bytes[3] << 24;
}

/* Reads an image: its length in four bytes, and its bytes. False at the end of the input, and where an image is too long. */
static inline bool read_image(uint8_t image[LONGEST], size_t *n) {
    uint8_t head[4];
    if (fread(head, 1, sizeof head, stdin) < sizeof head)
        return false;
    *n = four(head);
    return *n <= LONGEST && fread(image, 1, *n, stdin) == *n;
}

#endif
