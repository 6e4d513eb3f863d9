/*
 * The cases of paper 01 through C: what the functions of chip/chip.h must answer, as the paper has it; the same label twice, and both headers, as in paper 02;
 * and the version. Exit: 0 if they do, 1 at the first that does not.
 */
#include <inttypes.h>
#include <stdio.h>
#include <stdlib.h>
#include <string.h>

#include "../chip/chip.h"

enum { FULL = CHIP_KINDS_FULL, ROOM = 8192, SHORT = 0x20, LONG = 0x30, MAP = 0x30, RECORD = 0x20, LABEL = 0x10, BOARD = 0x60 };

#define ACCEPTED(value) ((uint64_t)(value))
#define REFUSED(number, place) ((uint64_t)(number) << 32 | (place))
#define EEPROM(length) (UINT64_C(1) << 40 | (length))

static unsigned calls;

static void is(const char *what, chip_answer answer, uint64_t due) {
    if (answer.bits != due) {
        printf("case %s: answered %016" PRIX64 ", and not %016" PRIX64 "\n", what, answer.bits, due);
        exit(1);
    }
    calls++;
}

/* ---- tiny images ---- */

/* x^8 + x^2 + x + 1, highest bit first, start 0, nothing inverted */
static uint8_t crc8(const uint8_t *bytes, size_t count) {
    uint8_t crc = 0;
    for (size_t i = 0; i < 8 * count; i++) {
        int out = crc >> 7 ^ (bytes[i / 8] >> (7 - i % 8) & 1);
        crc = (uint8_t)(crc << 1 ^ (out ? 0x07 : 0));
    }
    return crc;
}

static chip_answer judge(const char *bytes, size_t length) {
    return chip_tiny_judge((const uint8_t *)bytes, length, FULL);
}

/* an identity with this major and batch, and a pool of one string */
static chip_answer judge_identity(uint8_t major, unsigned batch) {
    uint8_t image[] = {0x56, 2, 16, 0x80, 0, 0, major, 0, 'A', 'B', (uint8_t)batch, (uint8_t)(batch >> 8), 0x01, 1, 'x' | 0x80, 0};
    image[sizeof image - 1] = crc8(image, sizeof image - 1);
    return chip_tiny_judge(image, sizeof image, FULL);
}

static const uint8_t case_4[] = {0x56, 0x02, 0x0C, 0x10, 0x00, 0x01, 0x04, 0x74, 0x6F, 0x70, 0xB1, 0x57};

/* a name, and what the buffer then holds */
static void name_is(const char *what, uint32_t kinds, size_t room, uint64_t due, const char *held) {
    uint8_t buffer[8];
    memset(buffer, '.', sizeof buffer);
    is(what, chip_tiny_name(case_4, sizeof case_4, kinds, buffer, room), due);
    if (memcmp(buffer, held, sizeof buffer)) {
        printf("case %s: the buffer holds %.8s, and not %.8s\n", what, (const char *)buffer, held);
        exit(1);
    }
}

static void tiny_cases(void) {
    is("1", chip_tiny_judge(NULL, 0, FULL), REFUSED(1, 0));
    is("1", chip_tiny_name(NULL, 0, FULL, NULL, 0), REFUSED(1, 0));
    is("2", judge("\x56\x02\x04\x6F", 4), ACCEPTED(0));
    is("3", judge("\x56\x02\x04\x6E", 4), REFUSED(5, 3));
    is("4", chip_tiny_judge(case_4, sizeof case_4, FULL), ACCEPTED(2));
    name_is("4", FULL, 8, ACCEPTED(4), "top1....");
    name_is("4", FULL, 4, ACCEPTED(4), "top1....");
    name_is("4", FULL, 3, REFUSED(43, 0), "........");
    is("4", chip_tiny_name(case_4, sizeof case_4, FULL, NULL, 0), REFUSED(43, 0));
    is("5", judge("\x56\x02\x06\x11\x0F\x8F", 6), ACCEPTED(1));
    is("6", judge("\x56\x03\x04\x6F", 4), REFUSED(3, 1));
    is("7", judge("\x56\x02\x05\x6F", 4), REFUSED(4, 2));
    is("8", judge_identity(0x63, 0), ACCEPTED(2));
    is("8", judge_identity(0x64, 0), REFUSED(11, 6));
    is("8", judge_identity(0x99, 0), ACCEPTED(2));
    is("8", judge_identity(0x9A, 0), REFUSED(11, 6));
    is("9", judge_identity(0, 9999), ACCEPTED(2));
    is("9", judge_identity(0, 10000), REFUSED(11, 10));
    is("14", chip_tiny_judge(case_4, sizeof case_4, FULL & ~CHIP_KIND_01), ACCEPTED(2));
    name_is("14", FULL & ~CHIP_KIND_01, 8, REFUSED(44, 0), "........");
}

/* ---- board images ---- */

static void put(uint8_t *to, uint32_t value) {
    for (int i = 0; i < 4; i++)
        to[i] = (uint8_t)(value >> 8 * i);
}

static void put_head(uint8_t *to, const char *signature, uint32_t length) {
    memcpy(to, signature, 8);
    to[8] = 1;
    put(to + 0x0C, length);
}

/* the common CRC-32 of IEEE 802.3 */
static uint32_t crc32(const uint8_t *bytes, size_t count) {
    uint32_t crc = UINT32_MAX;
    for (size_t i = 0; i < 8 * count; i++) {
        uint32_t out = (crc ^ bytes[i / 8] >> i % 8) & 1;
        crc = crc >> 1 ^ (out ? 0xEDB88320 : 0);
    }
    return ~crc;
}

struct board {
    uint32_t length, place; /* of the image; of the board structure */
    uint8_t bytes[ROOM];
};

/* Crc32 is zero while it is summed. */
static void seal(struct board *b) {
    put(b->bytes + 0x14, 0);
    put(b->bytes + 0x14, crc32(b->bytes, b->length));
}

/* a header of this Length, a map of this many records, whose labels are top1, top2 and so on, and the board structure */
static struct board *board(struct board *b, uint32_t header, uint32_t records, uint32_t version) {
    uint32_t block = 0x1000;
    memset(b, 0, sizeof *b);
    b->place = header + MAP + RECORD * records;
    b->length = b->place + BOARD;
    put_head(b->bytes, "$Eeprom$", header);
    put(b->bytes + 0x10, b->length);
    put(b->bytes + 0x18, b->length);
    put(b->bytes + 0x1C, version);
    uint8_t *map = b->bytes + header;
    put_head(map, "$EeprMap", MAP + RECORD * records);
    memcpy(map + 0x10, "top1$", 5);
    put(map + 0x20, block);
    put(map + 0x26, records * block);
    for (uint32_t k = 0; k < records; k++) {
        uint8_t *record = map + MAP + RECORD * k;
        snprintf((char *)record, LABEL, "top%" PRIu32 "$", k + 1);
        put(record + 0x10, RECORD);
        put(record + 0x14, k * block);
    }
    put_head(b->bytes + b->place, "$BrdInfo", BOARD);
    seal(b);
    return b;
}

static chip_answer judge_board(struct board *b) {
    return chip_board_judge(b->bytes, b->length, FULL);
}

/* The choice where the EEPROM image has another byte at a place of its board structure; no place: 0. */
static chip_answer choice(uint32_t firmware, uint32_t eeprom, uint32_t place) {
    static struct board a, b;
    board(&a, LONG, 1, firmware);
    board(&b, LONG, 1, eeprom);
    if (place) {
        b.bytes[b.place + place] ^= 0x01;
        seal(&b);
    }
    return chip_board_choice(a.bytes, a.length, b.bytes, b.length, FULL);
}

static void board_cases(void) {
    static struct board b;
    is("10", judge_board(board(&b, LONG, 1, 1)), ACCEPTED(3));
    memset(b.bytes + LONG + 0x10, 0, 16);
    seal(&b);
    is("10", judge_board(&b), REFUSED(30, 0x40));
    is("11", choice(3, 4, 0), EEPROM(0xE0));
    is("11", choice(4, 4, 0), ACCEPTED(0xE0));
    is("11, BrdSerial", choice(3, 4, 0x30), EEPROM(0xE0));
    is("11, EcId", choice(3, 4, 0x48), ACCEPTED(0xE0));
    is("12", judge_board(board(&b, LONG, 122, 1)), ACCEPTED(3));
    is("12", chip_board_choice(b.bytes, b.length, NULL, 0, FULL), ACCEPTED(0x1000));
    board(&b, LONG, 123, 1);
    is("12", judge_board(&b), REFUSED(28, 0xFC0));
    board(&b, LONG, 1, 1);
    b.bytes[0x80 + 0x4C] = 2; /* BoardType: the board structure is at 80h */
    seal(&b);
    is("13", judge_board(&b), REFUSED(31, 0x80 + 0x4C));
    is("13", chip_board_choice(NULL, 0, board(&b, LONG, 1, 1)->bytes, ROOM, FULL), EEPROM(0xE0));
}

/* Two records labelled top1: the second label is told, with every list and by the choice. */
static void same_label(void) {
    static struct board a, b;
    const uint32_t first = LONG + MAP, second = first + RECORD;
    board(&a, LONG, 1, 1);
    is("R-2", judge_board(board(&b, LONG, 2, 2)), ACCEPTED(3));
    memcpy(b.bytes + second, b.bytes + first, LABEL);
    seal(&b);
    is("R-2", judge_board(&b), REFUSED(34, second));
    is("R-2", chip_board_judge(b.bytes, b.length, CHIP_KINDS_BARE), REFUSED(34, second));
    is("R-2", chip_board_choice(a.bytes, a.length, b.bytes, b.length, FULL), ACCEPTED(0xE0));
    is("R-2", chip_board_choice(b.bytes, b.length, a.bytes, a.length, FULL), EEPROM(0xE0));
    is("R-2", chip_board_choice(b.bytes, b.length, b.bytes, b.length, FULL), REFUSED(34, second));
}

/* The judge on the first bytes of a board of one record, with this header, Length and StructLen. */
static chip_answer judge_front(uint32_t header, uint32_t length, uint32_t end, size_t lent) {
    static struct board b;
    board(&b, header, 1, 4);
    put(b.bytes + 0x0C, length);
    put(b.bytes + 0x10, end);
    seal(&b);
    return chip_board_judge(b.bytes, lent, FULL);
}

/* The choice between a firmware image and an EEPROM image of one board, with these headers and Versions. */
static chip_answer choice_of(uint32_t firmware_header, uint32_t firmware, uint32_t eeprom_header, uint32_t eeprom) {
    static struct board a, b;
    board(&a, firmware_header, 1, firmware);
    board(&b, eeprom_header, 1, eeprom);
    return chip_board_choice(a.bytes, a.length, b.bytes, b.length, FULL);
}

/* The short header beside the long one: with case 13 the map is at 20h, the board structure at 70h, and StructLen is D0h. */
static void both_headers(void) {
    static struct board b;
    is("R-6, 13", judge_front(SHORT, SHORT, 0xD0, 0xD0), ACCEPTED(3));
    is("R-6, 13", judge_front(LONG, LONG, 0xE0, 0xE0), ACCEPTED(3));
    board(&b, SHORT, 1, 4);
    b.bytes[0x70 + 0x4C] = 2; /* BoardType: the board structure is at 70h */
    seal(&b);
    is("R-6, 13", judge_board(&b), REFUSED(31, 0x70 + 0x4C));
    board(&b, LONG, 1, 4);
    b.bytes[LONG - 1] = 1;
    seal(&b);
    is("R-6, reserved", judge_board(&b), REFUSED(32, LONG - 1));

    is("R-6, 1Fh lent", judge_front(SHORT, SHORT, 0xD0, 0x1F), REFUSED(20, 0));
    is("R-6, 1Fh lent", judge_front(LONG, LONG, 0xE0, 0x1F), REFUSED(20, 0));
    is("R-6, 20h lent", judge_front(SHORT, SHORT, 0xD0, 0x20), REFUSED(22, 16));
    is("R-6, 20h lent", judge_front(SHORT, SHORT, 0x20, 0x20), REFUSED(25, 32));
    is("R-6, 20h lent", judge_front(LONG, LONG, 0xE0, 0x20), REFUSED(22, 16));
    is("R-6, 20h lent", judge_front(LONG, LONG, 0x20, 0x20), REFUSED(22, 16));
    is("R-6, 2Fh lent", judge_front(LONG, LONG, 0xE0, 0x2F), REFUSED(22, 16));
    is("R-6, 2Fh lent", judge_front(LONG, LONG, 0x2F, 0x2F), REFUSED(22, 16));
    is("R-6, 2Fh lent", judge_front(LONG, 0x2F, 0x2F, 0x2F), REFUSED(21, 0));

    is("R-6, StructLen", judge_front(SHORT, SHORT, 0x1F, 0xD0), REFUSED(22, 16));
    is("R-6, StructLen", judge_front(SHORT, SHORT, 0x20, 0xD0), REFUSED(25, 32));
    is("R-6, StructLen", judge_front(SHORT, SHORT, 0x21, 0xD0), REFUSED(23, 32));
    is("R-6, StructLen", judge_front(SHORT, SHORT, 0xD1, 0xD0), REFUSED(22, 16));
    is("R-6, StructLen", judge_front(LONG, LONG, 0x20, 0xE0), REFUSED(22, 16));
    is("R-6, StructLen", judge_front(LONG, LONG, 0x2F, 0xE0), REFUSED(22, 16));
    is("R-6, StructLen", judge_front(LONG, LONG, 0x30, 0xE0), REFUSED(25, 48));

    is("R-6, Length", judge_front(LONG, SHORT, 0xE0, 0xE0), REFUSED(23, 32));
    is("R-6, Length", judge_front(SHORT, LONG, 0xD0, 0xD0), REFUSED(23, 48));
    is("R-6, Length", judge_front(SHORT, 0x10, 0xD0, 0xD0), REFUSED(21, 0));
    is("R-6, Length", judge_front(SHORT, 0x21, 0xD0, 0xD0), REFUSED(21, 0));
    is("R-6, Length", judge_front(SHORT, 0x10020, 0xD0, 0xD0), REFUSED(21, 0));

    is("R-6, 12", judge_board(board(&b, SHORT, 122, 1)), ACCEPTED(3));
    is("R-6, 12", chip_board_choice(b.bytes, b.length, NULL, 0, FULL), ACCEPTED(0xFF0));
    is("R-6, 12", judge_board(board(&b, SHORT, 123, 1)), REFUSED(28, 0xFB0));

    is("R-6, 11", choice_of(LONG, 3, SHORT, 4), EEPROM(0xD0));
    is("R-6, 11", choice_of(LONG, 4, SHORT, 4), ACCEPTED(0xE0));
    is("R-6, 11", choice_of(LONG, 4, SHORT, 3), ACCEPTED(0xE0));
    is("R-6, 11", choice_of(SHORT, 3, LONG, 4), EEPROM(0xE0));
    is("R-6, 11", choice_of(SHORT, 4, LONG, 4), ACCEPTED(0xD0));
    is("R-6, 11", choice_of(SHORT, 4, LONG, 3), ACCEPTED(0xD0));
}

/* ---- the version ---- */

/* The library's is that of the header, and the header's words say the same. */
static void version(void) {
    char text[16];
    snprintf(text, sizeof text, "%d.%d.%d", CHIP_VERSION / 10000, CHIP_VERSION / 100 % 100, CHIP_VERSION % 100);
    if (chip_version() != CHIP_VERSION || strcmp(text, CHIP_VERSION_TEXT) != 0) {
        printf("the library has the version %" PRIu32 ", its header %d and \"" CHIP_VERSION_TEXT "\"\n", chip_version(), CHIP_VERSION);
        exit(1);
    }
    calls++;
}

int main(void) {
    tiny_cases();
    board_cases();
    same_label();
    both_headers();
    version();
    printf("the papers' cases 1 to 14, the same label twice, both headers and the version through C, %u answers as they must be\n", calls);
    return 0;
}
