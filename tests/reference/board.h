/*
 * What the parts of the reference for boards share: board.c judges, lists and answers, board_write.c writes and chooses.
 */
#ifndef BOARD_H
#define BOARD_H

#include <stdbool.h>
#include <stddef.h>
#include <stdint.h>

enum {
    HEAD = 0x10,           /* the generic head of a structure */
    SHORT_HEADER = 0x20,   /* the structure $Eeprom$ without its Reserved field */
    LONG_HEADER = 0x30,    /* the same with it */
    LABEL = 0x10,          /* a label, or a board's name */
    LONGEST = 0x10000,     /* an image */
    MOST = LONGEST / HEAD, /* structures in an image */
    INPUT = 262144,        /* bytes of records or of requests */
    FULL_LIST = 0x1FFFF
};

/* refusal 0 is "not refused"; a refused answer has a value of 0 */
struct answer {
    unsigned refusal;
    uint32_t place;
    unsigned value; /* judge: count of items; writer: length of the image; else 0 */
};

static inline struct answer refuse(unsigned number, uint32_t place) {
    return (struct answer){number, place, 0};
}

static inline struct answer accept(unsigned value) {
    return (struct answer){0, 0, value};
}

/* whether $Eeprom$ may have this Length */
static inline bool is_header(uint32_t length) {
    return length == SHORT_HEADER || length == LONG_HEADER;
}

/* a structure: its first byte's place, its Length, and its kind or null for a signature that is none of the thirteen */
struct span {
    uint32_t place, length;
    const struct kind *kind;
};

/* what is lent to a reader, and what its judge found */
struct board {
    const uint8_t *image;
    size_t lent;
    uint32_t list;
    struct answer judged;
    uint32_t header;         /* Length of $Eeprom$; set by rule 21 */
    uint32_t length;         /* StructLen; set by rule 22 */
    unsigned count;          /* structures; set by rule 23 with their places */
    struct span spans[MOST];
};

/* ---- board.c ---- */

/* Judges what is lent; the three below ask what was found. */
void judge(struct board *b, const uint8_t *image, size_t lent, uint32_t list);

/* the last structure, if it is a $PromSig */
const struct span *signature_of(const struct board *b);

/* the expected CrcLength */
uint32_t summed_length(const struct board *b);

/* CRC-32 of IEEE 802.3 over the first bytes, the four of Crc32 counted as zero */
uint32_t crc32(const struct board *b, uint32_t count);

/* a refusal in words, without a newline */
void print_refused(struct answer refused);

/* a number of four bytes, low byte first */
uint32_t four(const uint8_t *bytes);

/* ---- board_write.c: each answers all of its input; false if there is too much of it ---- */

bool answer_requests(const uint8_t *input, size_t length);
bool answer_choices(const uint8_t *input, size_t length);

#endif
