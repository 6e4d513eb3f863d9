// Judge, list and name through C: held against an independent implementation in Rust (tests/independent.rs), and against zlib's crc32 alone over the
// same bytes. First their answers, then their times. `make bench` builds and runs it. It is no test: times depend on the machine and on what else it does.
#include <inttypes.h>
#include <stdio.h>
#include <zlib.h>

#include "../tests/independent.h"
#include "images.h"
#include "timing.h"

enum { FULL = CHIP_KINDS_FULL, ENTRIES = LONGEST / 16, NAME_ROOM = CHIP_TINY_LONGEST };

// One image, and what the calls write to.
typedef struct {
    uint32_t format;
    const uint8_t *image;
    size_t bytes, items;
    Entry *list;
    uint8_t *name;
} Lent;

// ---- what is timed (timing.h) ----

static uint64_t our_judge(const void *on) {
    const Lent *l = on;
    return l->format == TINY ? chip_tiny_judge(l->image, l->bytes, FULL).bits : chip_board_judge(l->image, l->bytes, FULL).bits;
}

static uint64_t their_judge(const void *on) {
    const Lent *l = on;
    return l->format == TINY ? independent_tiny_judge(l->image, l->bytes, FULL) : independent_board_judge(l->image, l->bytes, FULL);
}

static uint64_t our_list(const void *on) {
    const Lent *l = on;
    return reader_list(l->format, l->image, l->bytes, FULL, l->list, ENTRIES);
}

static uint64_t their_list(const void *on) {
    const Lent *l = on;
    return independent_list(l->format, l->image, l->bytes, FULL, l->list, ENTRIES);
}

static uint64_t our_name(const void *on) {
    const Lent *l = on;
    return chip_tiny_name(l->image, l->bytes, FULL, l->name, NAME_ROOM).bits;
}

static uint64_t their_name(const void *on) {
    const Lent *l = on;
    return independent_tiny_name(l->image, l->bytes, FULL, l->name, NAME_ROOM);
}

static uint64_t zlib_crc32(const void *on) {
    const Lent *l = on;
    return crc32(0, l->image, (uInt)l->bytes);
}

// ---- the same answers ----

static void expect(const char *image, const char *what, uint64_t is, uint64_t expected) {
    if (is == expected) return;
    fprintf(stderr, "bench: %s: %s is %#" PRIx64 ", expected %#" PRIx64 "\n", image, what, is, expected);
    exit(1);
}

static void expect_accepted(const char *image, const char *what, chip_answer answer) {
    if (chip_accepted(answer)) return;
    fprintf(stderr, "bench: %s: %s is refused with %u at %" PRIu32 ": %s\n", image, what, chip_refusal(answer), chip_place(answer),
            chip_refusal_text(chip_refusal(answer)));
    exit(1);
}

// The entries field by field; how many of them are known.
static uint64_t check_entries(const char *image, const Entry *ours, const Entry *theirs, size_t count) {
    uint64_t known = 0;
    for (size_t i = 0; i < count; i++) {
        expect(image, "our kind of an entry", ours[i].kind, theirs[i].kind);
        expect(image, "our place of an entry", ours[i].place, theirs[i].place);
        expect(image, "our length of an entry", ours[i].length, theirs[i].length);
        expect(image, "our mark of an entry", ours[i].known, theirs[i].known);
        known += ours[i].known;
    }
    return known;
}

// The length and the whole buffers, which were the same before.
static void check_name(const char *image, const Lent *ours, const Lent *theirs) {
    memset(ours->name, 0xAA, NAME_ROOM);
    memset(theirs->name, 0xAA, NAME_ROOM);
    uint64_t length = our_name(ours);
    expect(image, "our name", length, their_name(theirs));
    expect_accepted(image, "the name", answer_of(length));
    for (size_t i = 0; i < NAME_ROOM; i++) {
        expect(image, "our byte of the name", ours->name[i], theirs->name[i]);
    }
}

// Both have the same image, and each its own list and name. The last step answers with the last item's place, the one past it with bit 40; their walk answers
// with how many items are known.
static void check(const char *image, unsigned refusal, const Lent *ours, const Lent *theirs) {
    uint64_t count = our_judge(ours);
    expect(image, "our judgement", count, their_judge(theirs));
    if (refusal) {
        expect(image, "the number of the refusal", chip_refusal(answer_of(count)), refusal);
        return;
    }
    expect_accepted(image, "the image", answer_of(count));
    expect(image, "our list", our_list(ours), count);
    expect(image, "their list", their_list(theirs), count);
    uint64_t known = check_entries(image, ours->list, theirs->list, ours->items);
    uint64_t last = reader_step(ours->format, ours->image, ours->bytes, FULL, ours->items - 1);
    expect(image, "our last step", last, theirs->list[ours->items - 1].place);
    uint64_t past = reader_step(ours->format, ours->image, ours->bytes, FULL, ours->items);
    expect(image, "our step past the last", past, UINT64_C(1) << 40);
    expect(image, "their walk", independent_walk(theirs->format, theirs->image, theirs->bytes, FULL), known);
    if (ours->format == TINY) check_name(image, ours, theirs);
}

// ---- the table ----

static const struct {
    const char *name;
    Call ours, theirs;
    bool boards, refused; // for boards too, for refused images too
} rows[] = {{"judge", our_judge, their_judge, true, true},
            {"list", our_list, their_list, true, false},
            {"name", our_name, their_name, false, false}};

static void head_of_table(void) {
    printf("\nOurs against an independent implementation in safe Rust, and against one pass of zlib's crc32 over the same bytes; the answers are the same.\n"
           "ns: CPU time of one call of ours, the median of %d rounds, in which the three take turns. ratio: 1.20 means that ours takes 1.20 times as long;\n"
           "the median and the worst of the rounds. A refused image has the refusal's number behind the call.\n\n"
           "                                                                ratio to independent      ratio to zlib\n"
           "image                    bytes   items   call              ns      median     worst      median     worst\n",
           ROUNDS);
}

static void time_image(const Maker *maker, const Lent *lent) {
    for (size_t i = 0; i < sizeof rows / sizeof rows[0]; i++) {
        if (lent->format == BOARD && !rows[i].boards) continue;
        if (maker->refusal && !rows[i].refused) continue;
        char call[16];
        snprintf(call, sizeof call, maker->refusal ? "%s: %u" : "%s", rows[i].name, maker->refusal);
        Timed timed[] = {{.call = rows[i].ours}, {.call = rows[i].theirs}, {.call = zlib_crc32}};
        take_turns(timed, 3, lent);
        Spread ours = spread(timed[0].ns), independent = ratio(&timed[0], &timed[1]), zlib = ratio(&timed[0], &timed[2]);
        printf("%-24s %5zu   %5zu   %-9s  %9.0f  %10.2f%10.2f  %10.2f%10.2f\n", maker->name, lent->bytes, lent->items, call, ours.median,
               independent.median, independent.worst, zlib.median, zlib.worst);
    }
}

int main(void) {
    static _Alignas(64) uint8_t images[IMAGES][LONGEST];
    static Entry lists[2][ENTRIES];
    static uint8_t names[2][NAME_ROOM];
    Lent lent[IMAGES];
    for (size_t k = 0; k < IMAGES; k++) {
        size_t n = makers[k].make(images[k]);
        Lent ours = {makers[k].format, images[k], n, 0, lists[0], names[0]};
        ours.items = makers[k].refusal ? 0 : chip_value(answer_of(our_judge(&ours)));
        Lent theirs = ours;
        theirs.list = lists[1];
        theirs.name = names[1];
        check(makers[k].name, makers[k].refusal, &ours, &theirs);
        lent[k] = ours;
    }
    head_of_table();
    for (size_t k = 0; k < IMAGES; k++) {
        time_image(&makers[k], &lent[k]);
    }
    return 0;
}
