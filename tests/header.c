/*
 * chip/chip.h in C and in C++, for this file is compiled as both: an answer is handed over as the number in it is, and the functions of the header take it
 * apart as the header says.
 *
 *     header FILE..
 *
 * Each file is lent as a tiny image and as a board image, and with the file before it as a pair of board images. Each call is made through the header's
 * declaration and through one that returns a number. Writes a line for each part of an answer, with how many answers had it, and then a line with the words
 * of each number that has some. Exit: 0 if all was as it must be, 1 at the first difference, 3 if a file could not be read.
 */
#include "../chip/chip.h"

#include <stdio.h>
#include <stdlib.h>
#include <string.h>

enum { FULL = CHIP_KINDS_FULL, ROOM = CHIP_BOARD_LONGEST + 1, NAME_ROOM = CHIP_TINY_LONGEST };

/* ---- the functions as the library has them ---- */

#ifdef __cplusplus
extern "C" {
#endif

uint64_t number_tiny_judge(const uint8_t *image, size_t length, uint32_t kinds) __asm__("chip_tiny_judge");
uint64_t number_board_judge(const uint8_t *image, size_t length, uint32_t kinds) __asm__("chip_board_judge");
uint64_t number_board_choice(const uint8_t *firmware, size_t firmware_length, const uint8_t *eeprom, size_t eeprom_length,
                             uint32_t kinds) __asm__("chip_board_choice");
uint64_t number_tiny_name(const uint8_t *image, size_t length, uint32_t kinds, uint8_t *buffer, size_t room) __asm__("chip_tiny_name");

#ifdef __cplusplus
}
#endif

/* ---- the comparison ---- */

/* what an answer can have; a value and a place count where they are above 0 */
enum { VALUE, REFUSAL, PLACE, EEPROM, PARTS };

static const char *const parts[PARTS] = {"value", "refusal", "place", "eeprom"};
static unsigned counts[PARTS];

static void stop(const char *file, const char *what) {
    fprintf(stderr, "header: %s: %s\n", file, what);
    exit(1);
}

/* What the header's functions take out of an answer is what its number has. */
static void take_apart(const char *file, chip_answer answer) {
    uint64_t low = answer.bits % 0x100000000, refusal = answer.bits / 0x100000000 % 0x100, eeprom = answer.bits / 0x10000000000;
    if (chip_refusal(answer) != refusal || chip_accepted(answer) != (refusal == 0))
        stop(file, "chip_refusal or chip_accepted");
    if (chip_value(answer) != (refusal ? 0 : low) || chip_place(answer) != (refusal ? low : 0))
        stop(file, "chip_value or chip_place");
    if (eeprom > 1 || chip_is_eeprom(answer) != (eeprom == 1))
        stop(file, "chip_is_eeprom");
}

/* answers whose parts have each their least or their greatest value */
static void take_all_apart(void) {
    static const uint64_t numbers[] = {0, 0xFFFFFFFF, 0x100000000, 0x1FFFFFFFF, 0xFF00000000, 0xFFFFFFFFFF, 0x10000000000, 0x100FFFFFFFF};
    for (size_t i = 0; i < sizeof numbers / sizeof numbers[0]; i++) {
        chip_answer answer;
        answer.bits = numbers[i];
        take_apart("no file", answer);
    }
}

static void same(const char *file, const char *call, chip_answer answer, uint64_t number) {
    if (answer.bits != number)
        stop(file, call);
    take_apart(file, answer);
    counts[VALUE] += chip_value(answer) > 0;
    counts[REFUSAL] += chip_refusal(answer) > 0;
    counts[PLACE] += chip_place(answer) > 0;
    counts[EEPROM] += chip_is_eeprom(answer);
}

struct image {
    size_t length;
    uint8_t bytes[ROOM];
};

static void ask(const char *file, const struct image *image, const struct image *before) {
    uint8_t ours[NAME_ROOM] = {0}, theirs[NAME_ROOM] = {0};
    same(file, "chip_tiny_judge", chip_tiny_judge(image->bytes, image->length, FULL), number_tiny_judge(image->bytes, image->length, FULL));
    same(file, "chip_board_judge", chip_board_judge(image->bytes, image->length, FULL), number_board_judge(image->bytes, image->length, FULL));
    same(file, "chip_board_choice", chip_board_choice(before->bytes, before->length, image->bytes, image->length, FULL),
         number_board_choice(before->bytes, before->length, image->bytes, image->length, FULL));
    same(file, "chip_tiny_name", chip_tiny_name(image->bytes, image->length, FULL, ours, NAME_ROOM),
         number_tiny_name(image->bytes, image->length, FULL, theirs, NAME_ROOM));
    if (memcmp(ours, theirs, NAME_ROOM))
        stop(file, "the names differ");
}

static bool read_file(const char *file, struct image *image) {
    FILE *from = fopen(file, "rb");
    if (!from)
        return false;
    image->length = fread(image->bytes, 1, ROOM, from);
    bool good = !ferror(from);
    return !fclose(from) && good;
}

int main(int count, char **words) {
    static struct image images[2];
    take_all_apart();
    for (int i = 1; i < count; i++) {
        if (!read_file(words[i], &images[i % 2]))
            return 3;
        ask(words[i], &images[i % 2], &images[(i + 1) % 2]);
    }
    for (unsigned part = 0; part < PARTS; part++)
        printf("%s %u\n", parts[part], counts[part]);
    for (unsigned number = 0; number < 256; number++)
        if (strcmp(chip_refusal_text(number), chip_refusal_text(256)) != 0)
            printf("%u %s\n", number, chip_refusal_text(number));
    return fflush(stdout) ? 3 : 0;
}
