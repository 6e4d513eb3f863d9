// Compares the exported CRC functions with zlib's crc32 and with a plain table loop for CRC-8: first their values, then their times.
// `make bench` builds and runs it. It is no test: times depend on the machine and on what else it does.
#include <stdio.h>
#include <zlib.h>

#include "timing.h"

uint8_t chip_crc8(const uint8_t *s, size_t n);
uint8_t chip_crc8_run(uint8_t c, const uint8_t *s, size_t n);
uint32_t chip_crc32(const uint8_t *s, size_t n);
uint32_t chip_crc32_run(uint32_t c, const uint8_t *s, size_t n);
uint32_t chip_crc32_field_as_zero(const uint8_t *s, size_t n);

enum { LONGEST = 65536, CHECKED = 5000 };

// CRC-8 as C programs have it: a table that is made once, and one lookup a byte.
static uint8_t table[256];

static void make_table(void) {
    for (unsigned i = 0; i < 256; i++) {
        unsigned r = i;
        for (int k = 0; k < 8; k++) {
            r = r & 0x80 ? (r << 1) ^ 0x107 : r << 1;
        }
        table[i] = (uint8_t)r;
    }
}

__attribute__((noinline)) static uint8_t table_crc8(const uint8_t *s, size_t n) {
    uint8_t c = 0;
    for (size_t i = 0; i < n; i++) {
        c = table[c ^ s[i]];
    }
    return c;
}

static uint32_t zlib_crc32(const uint8_t *s, size_t n) { return (uint32_t)crc32(0, s, (uInt)n); }

static void fail(const char *what, size_t n) {
    printf("%s differs at %zu bytes\n", what, n);
    exit(1);
}

// The same values at every length from 0 to CHECKED - 1, whole and in two parts, at an address that is not aligned.
static void check(const uint8_t *s) {
    uint8_t blank[CHECKED];
    for (size_t n = 0; n < CHECKED; n++) {
        size_t cut = n / 3;
        uint32_t want = zlib_crc32(s, n);
        if (chip_crc32(s, n) != want) fail("crc32", n);
        if (~chip_crc32_run(chip_crc32_run(~0u, s, cut), s + cut, n - cut) != want) fail("crc32_run", n);
        if (chip_crc8(s, n) != table_crc8(s, n)) fail("crc8", n);
        if (chip_crc8_run(chip_crc8(s, cut), s + cut, n - cut) != table_crc8(s, n)) fail("crc8_run", n);
        memcpy(blank, s, n);
        for (size_t i = 0x14; i < 0x18 && i < n; i++) {
            blank[i] = 0;
        }
        if (chip_crc32_field_as_zero(s, n) != zlib_crc32(blank, n)) fail("crc32_field_as_zero", n);
    }
    printf("lengths 0 to %d: the values of zlib and of the table loop\n", CHECKED - 1);
}

// What is timed (timing.h).
typedef struct {
    const uint8_t *s;
    size_t n;
} Bytes;

static uint64_t time_zlib_crc32(const void *on) { return zlib_crc32(((const Bytes *)on)->s, ((const Bytes *)on)->n); }
static uint64_t time_table_crc8(const void *on) { return table_crc8(((const Bytes *)on)->s, ((const Bytes *)on)->n); }
static uint64_t time_crc8(const void *on) { return chip_crc8(((const Bytes *)on)->s, ((const Bytes *)on)->n); }
static uint64_t time_crc32(const void *on) { return chip_crc32(((const Bytes *)on)->s, ((const Bytes *)on)->n); }
static uint64_t time_field_as_zero(const void *on) { return chip_crc32_field_as_zero(((const Bytes *)on)->s, ((const Bytes *)on)->n); }

// The median of the rounds' quotients, and the best times.
static void compare(const char *name, const char *of, Call ours, Call theirs, const uint8_t *s, size_t n) {
    Timed timed[] = {{.call = ours}, {.call = theirs}};
    take_turns(timed, 2, &(Bytes){s, n});
    double best = spread(timed[0].ns).least, their_best = spread(timed[1].ns).least;
    printf("%s %zu bytes: %.2f of %s (median of %d rounds; best against best %.2f: %.0f ns and %.0f ns)\n", name, n, ratio(&timed[0], &timed[1]).median,
           of, ROUNDS, best / their_best, best, their_best);
}

int main(void) {
    uint8_t *s = malloc(LONGEST + 1);
    if (!s) return 1;
    uint64_t x = 88172645463325252u;
    for (size_t i = 0; i < LONGEST + 1; i++) {
        x ^= x << 13;
        x ^= x >> 7;
        x ^= x << 17;
        s[i] = (uint8_t)x;
    }
    make_table();
    check(s + 1);
    static const size_t sizes[] = {16, 64, 224, 383, 384, 512, 1024, 4096, 16384, 65536};
    for (size_t k = 0; k < sizeof sizes / sizeof sizes[0]; k++) {
        compare("crc32", "zlib's time", time_crc32, time_zlib_crc32, s, sizes[k]);
    }
    compare("crc32_field_as_zero", "zlib's time", time_field_as_zero, time_zlib_crc32, s, 224);
    compare("crc32_field_as_zero", "zlib's time", time_field_as_zero, time_zlib_crc32, s, LONGEST);
    compare("crc8", "a C table loop's time", time_crc8, time_table_crc8, s, 16);
    compare("crc8", "a C table loop's time", time_crc8, time_table_crc8, s, 64);
    compare("crc8", "a C table loop's time", time_crc8, time_table_crc8, s, 255);
    compare("crc8", "a C table loop's time", time_crc8, time_table_crc8, s, 4096);
    free(s);
    return 0;
}
