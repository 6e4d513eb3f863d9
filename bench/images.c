// Makes the images. Their check fields are worked out here bit by bit (tiny) and by zlib (boards), not by the code that is timed.
#include "images.h"

#include <stdio.h>
#include <string.h>
#include <zlib.h>

enum { TINY_LONGEST = 255, HEADER_SIZE = 0x30, MAP_SIZE = 0x30, RECORD_SIZE = 0x20, LABEL_SIZE = 0x10, INFO_SIZE = 0x60 };

// Where the board structure ends behind a map of one record, and the most records that a map may have: with these it ends at 4,096.
enum { FIRST = HEADER_SIZE + MAP_SIZE + RECORD_SIZE + INFO_SIZE, MAP_RECORDS = 122 };

// ---- tiny images ----

// Appends bytes, and answers the place after them.
static size_t add(uint8_t *image, size_t at, const void *bytes, size_t n) {
    memcpy(image + at, bytes, n);
    return at + n;
}

// Appends a text of the pool: its last byte has the end mark.
static size_t add_text(uint8_t *image, size_t at, const char *text) {
    size_t end = add(image, at, text, strlen(text));
    image[end - 1] |= 0x80;
    return end;
}

// The tag of the pool, and its length once the texts stand behind it.
static size_t add_pool(uint8_t *image, size_t at, const char *const *texts, size_t count) {
    size_t end = at + 2;
    for (size_t i = 0; i < count; i++) {
        end = add_text(image, end, texts[i]);
    }
    image[at] = 0x01;
    image[at + 1] = (uint8_t)(end - at - 2);
    return end;
}

// Head and check byte of an image whose items end here; its length.
static size_t seal(uint8_t *image, size_t end) {
    uint8_t head[] = {0x56, 2, (uint8_t)(end + 1)}, crc = 0;
    memcpy(image, head, sizeof head);
    for (size_t i = 0; i < end; i++) {
        crc ^= image[i];
        for (int k = 0; k < 8; k++) {
            crc = (uint8_t)(crc & 0x80 ? crc << 1 ^ 0x07 : crc << 1);
        }
    }
    image[end] = crc;
    return end + 1;
}

// Serial, identity with a batch, address, flags and a pool of two texts.
static size_t typical_chip(uint8_t *image) {
    static const uint8_t items[] = {0x10, 0,                                          // serial
                                    0x80, 0,    1,    3,    14,   'B', '2', 0x39, 5,  // identity, batch 1337
                                    0x60, 0x02, 0x00, 0x5E, 0x10, 0x20, 0x30,         // address
                                    0x11, 0x05};                                      // flags
    static const char *const texts[] = {"RIG7-2024-001337", "POWER-STAGE-TOP-48"};
    return seal(image, add_pool(image, add(image, 3, items, sizeof items), texts, 2));
}

// 255 bytes: one serial, an address, each identity, a pool, and between them items of two bytes, in turn flags and a tag that no list has.
static size_t many_items(uint8_t *image) {
    static const uint8_t front[] = {0x10, 4,                                     // serial
                                    0x60, 0x02, 0x00, 0x5E, 0x10, 0x20, 0x30,    // address
                                    0x61, 0, 1, 0x63, 99, 'A', '1',              // identity
                                    0x62, 1, 2, 0x80, 0,  'Z', '9',              // identity
                                    0x80, 2, 3, 0x99, 7,  ' ', '~', 0x0F, 0x27,  // identity, batch 9999
                                    0x81, 3, 4, 0,    42, 'B', 'C', 0,    1};    // identity, batch 256
    static const char *const texts[] = {"top1", "left", "A2", "power-42", "rig-000815"}; // 28 bytes
    size_t at = add(image, 3, front, sizeof front), pool = TINY_LONGEST - 1 - 28 - 2;
    for (uint8_t i = 0; at < pool; i++) {
        uint8_t item[] = {i % 2 ? 0x12 : 0x11, i};
        at = add(image, at, item, sizeof item);
    }
    return seal(image, add_pool(image, at, texts, 5));
}

// ---- boards ----

// Eight kinds of structures without records, and one that no list has.
enum { KINDS = 9 };
static const char *const kinds[KINDS] = {"$AcpiTbl", "$FPGAnfo", "$HdCodec", "$Logo$", "$MemCnfg", "$MacInfo", "$uCode$", "$Video$", "$Fan"};

// So many GPIO records fill an image, with an empty structure behind them.
enum { MOST_RECORDS = (LONGEST - FIRST - 0x20 - 0x10) / 0x30 };

static void put32(uint8_t *at, uint32_t n) {
    for (int i = 0; i < 4; i++) {
        at[i] = (uint8_t)(n >> (8 * i));
    }
}

// A generic head of version 1.0, and zeros for the rest of the structure.
static uint8_t *head(uint8_t *at, const char *signature, size_t length) {
    memset(at, 0, length);
    memcpy(at, signature, strlen(signature));
    at[8] = 1;
    put32(at + 0x0C, (uint32_t)length);
    return at;
}

// A record of the map, counted from 0.
static uint8_t *map_record(uint8_t *image, uint32_t k) {
    return image + HEADER_SIZE + MAP_SIZE + k * RECORD_SIZE;
}

// Header, map of so many records, labelled top1, top2 and so on, and board, for an image of this length.
static void begin_with(uint8_t *image, size_t length, uint32_t records) {
    put32(head(image, "$Eeprom$", HEADER_SIZE) + 0x10, (uint32_t)length);
    uint8_t *map = head(image + HEADER_SIZE, "$EeprMap", MAP_SIZE + records * RECORD_SIZE);
    memcpy(map + 0x10, "rig$", 4);
    put32(map + 0x20, LONGEST);
    put32(map + 0x26, records * LONGEST);
    for (uint32_t k = 0; k < records; k++) {
        uint8_t *record = map_record(image, k);
        snprintf((char *)record, LABEL_SIZE, "top%u$", k + 1);
        put32(record + 0x10, RECORD_SIZE);
        put32(record + 0x14, k * LONGEST);
    }
    head(map_record(image, records), "$BrdInfo", INFO_SIZE);
}

// The same with one record: the rest is to be filled from FIRST on.
static void begin(uint8_t *image, size_t length) {
    begin_with(image, length, 1);
}

// The check over the first bytes of the image, its own field counted as zero; the image's length.
static size_t finish(uint8_t *image, size_t covered, size_t length) {
    put32(image + 0x14, 0);
    put32(image + 0x18, (uint32_t)covered);
    put32(image + 0x14, (uint32_t)crc32(0, image, (uInt)covered));
    return length;
}

// A structure of so many GPIO records, each with a label; the place after it.
static size_t add_gpio(uint8_t *image, size_t at, size_t records) {
    uint8_t *gpio = head(image + at, "$GpioDat", 0x20 + records * 0x30);
    for (size_t i = 0; i < records; i++) {
        uint8_t *record = gpio + 0x20 + i * 0x30;
        memcpy(record, "sixteen letters.", 16);
        put32(record + 0x10, 0x30);
        record[0x20] = 4;
    }
    return at + 0x20 + records * 0x30;
}

// Header, map and board alone: 224 bytes.
static size_t small_board(uint8_t *image) {
    begin(image, FIRST);
    return finish(image, FIRST, FIRST);
}

// Header, a map of as many records as it may have, and board: 4,096 bytes.
static size_t map_records(uint8_t *image) {
    size_t n = FIRST + (MAP_RECORDS - 1) * RECORD_SIZE;
    begin_with(image, n, MAP_RECORDS);
    return finish(image, n, n);
}

// Each kind of structure once, of 160 bytes, GPIO data of eight records, one that no list has, and a signature structure with a hash of 32 bytes.
static size_t every_kind(uint8_t *image) {
    size_t at = add_gpio(image, FIRST, 8);
    for (size_t k = 0; k < KINDS; k++) {
        head(image + at, kinds[k], 0xA0);
        at += 0xA0;
    }
    head(image + at, "$PromSig", 0x40)[0x10] = 3;
    begin(image, at + 0x40);
    return finish(image, at + 0x20, at + 0x40);
}

// One structure that fills the image.
static size_t one_logo(uint8_t *image) {
    begin(image, LONGEST);
    uint8_t *logo = head(image + FIRST, "$Logo$", LONGEST - FIRST);
    for (size_t i = 0x20; i < LONGEST - FIRST; i++) {
        logo[i] = (uint8_t)(i * 7 + i / 251);
    }
    return finish(image, LONGEST, LONGEST);
}

// 64 structures of 1,024 bytes after the board structure, of eight known kinds and one that no list has, in turn; the last one is shorter.
static size_t many_kinds(uint8_t *image) {
    begin(image, LONGEST);
    size_t at = FIRST;
    for (int k = 0; at < LONGEST; k++) {
        size_t n = LONGEST - at < 1024 ? LONGEST - at : 1024;
        head(image + at, kinds[k % KINDS], n);
        at += n;
    }
    return finish(image, LONGEST, LONGEST);
}

// One structure of GPIO records; an empty structure fills what is left.
static size_t gpio_records(uint8_t *image) {
    begin(image, LONGEST);
    size_t end = add_gpio(image, FIRST, MOST_RECORDS);
    if (end < LONGEST) head(image + end, "$Fan", LONGEST - end);
    return finish(image, LONGEST, LONGEST);
}

// Heads and nothing else: 4,082 structures of 16 bytes.
static size_t only_heads(uint8_t *image) {
    begin(image, LONGEST);
    for (size_t at = FIRST; at < LONGEST; at += 0x10) {
        head(image + at, "$Fan", 0x10);
    }
    return finish(image, LONGEST, LONGEST);
}

// ---- refused ones: a byte or a label of an image that is accepted is changed, and where the rule comes after the check, the check is worked out again ----

static size_t bad_check_byte(uint8_t *image) {
    size_t n = many_items(image);
    image[n - 1] ^= 1;
    return n;
}

static size_t bad_batch(uint8_t *image) {
    size_t n = many_items(image);
    image[3 + 2 + 7 + 7 + 7 + 9 + 8] = 0x28; // the high byte of the last identity's batch
    return seal(image, n - 1);
}

static size_t zeros_behind(uint8_t *image) {
    begin(image, LONGEST);
    memset(image + FIRST, 0, LONGEST - FIRST);
    return finish(image, LONGEST, LONGEST);
}

static size_t last_unmarked(uint8_t *image) {
    only_heads(image);
    image[LONGEST - 0x10] = 0;
    return finish(image, LONGEST, LONGEST);
}

static size_t bad_crc32(uint8_t *image) {
    gpio_records(image);
    image[0x14] ^= 1;
    return LONGEST;
}

static size_t bad_last_record(uint8_t *image) {
    gpio_records(image);
    image[FIRST + 0x20 + (MOST_RECORDS - 1) * 0x30 + 0x20] = 3; // DataSize
    return finish(image, LONGEST, LONGEST);
}

static size_t same_last_label(uint8_t *image) {
    size_t n = map_records(image);
    memcpy(map_record(image, MAP_RECORDS - 1), map_record(image, MAP_RECORDS - 2), LABEL_SIZE);
    return finish(image, n, n);
}

const Maker makers[IMAGES] = {{"typical chip", TINY, typical_chip, 0},
                              {"chip of many items", TINY, many_items, 0},
                              {"small board", BOARD, small_board, 0},
                              {"122 map records", BOARD, map_records, 0},
                              {"board of every kind", BOARD, every_kind, 0},
                              {"one large structure", BOARD, one_logo, 0},
                              {"64 structures", BOARD, many_kinds, 0},
                              {"1,359 GPIO records", BOARD, gpio_records, 0},
                              {"4,082 empty structures", BOARD, only_heads, 0},
                              {"many items, check", TINY, bad_check_byte, 5},
                              {"many items, a batch", TINY, bad_batch, 11},
                              {"zeros after the board", BOARD, zeros_behind, 23},
                              {"last of 4,082 heads", BOARD, last_unmarked, 23},
                              {"GPIO records, check", BOARD, bad_crc32, 27},
                              {"last GPIO record", BOARD, bad_last_record, 33},
                              {"last of 122 labels", BOARD, same_last_label, 34}};
