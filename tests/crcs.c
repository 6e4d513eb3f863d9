/*
 * The CRCs through C, each on images that end where a page ends and then on the same images where a page begins, with no page beside them that may be read
 * or written: a read or a write past either end stops the program.
 *
 *     crcs < images    each image: its length in four bytes, low byte first, and its bytes
 *
 * For each image it writes a line: CRC-8, CRC-32, and CRC-32 with the four bytes from 14h on counted as zero. Exit: 0 if the two ways of lending gave the
 * same, 1 if not, 3 if it could not work.
 */
#include "pages.h"

uint8_t chip_crc8(const uint8_t *s, size_t n);
uint32_t chip_crc32(const uint8_t *s, size_t n);
uint32_t chip_crc32_field_as_zero(const uint8_t *s, size_t n);

struct answers {
    uint32_t crc8, crc32, crc32_field_as_zero;
};

static struct answers ask(const uint8_t *image, size_t n) {
    return (struct answers){chip_crc8(image, n), chip_crc32(image, n), chip_crc32_field_as_zero(image, n)};
}

int main(void) {
    static uint8_t image[LONGEST];
    struct pages pages = pages_for(LONGEST);
    size_t n;
    if (!pages.start)
        return 3;
    while (read_image(image, &n)) {
        uint8_t *last = pages.start + pages.room - n;
        if (!lend(pages, last, image, n))
            return 3;
        struct answers at_end = ask(last, n);
        if (!lend(pages, pages.start, image, n))
            return 3;
        struct answers at_start = ask(pages.start, n);
        if (memcmp(&at_end, &at_start, sizeof at_end))
            return 1;
        printf("%u %u %u\n", at_end.crc8, at_end.crc32, at_end.crc32_field_as_zero);
    }
    return !feof(stdin) || fflush(stdout) ? 3 : 0;
}
