/*
 * Holds the functions that are exported to C (chip/chip.h, reader.h) against tests/independent.rs, image by image, in one program.
 *
 *     host < records
 *
 * A record has, low bytes first: what it is in one byte (0 tiny image, 1 board image, 2 pair of board images), the list of kinds in four, the answer that the
 * judge or the choice must give in eight (all ones: not known), and one image or two, each behind its length in four bytes.
 *
 * An image is lent where a page ends or where a page begins, with no page beside it that may be touched, and cannot be written: to the judges in both ways,
 * to the other calls by turns. A name buffer or a list lies at one of the two ends too, with bytes on its other side that must stay as they are. Of every call
 * the answer and all bytes of what was lent must be the same on both sides; a refused call changes none.
 *
 * Writes a line for each call and number: how often it was answered. Exit: 0 if all was as it must be, 1 at the first difference, 3 if it could not work.
 */
#include "pages.h"

#include <inttypes.h>
#include <stdlib.h>

#include "independent.h"

enum {
    PAIR = 2,      /* a record of two board images */
    BESIDE = 64,   /* bytes beside a lent buffer that must stay */
    SPARE = 3,     /* room past what is needed */
    LEAST = 2,     /* bytes that an item has at least, in either format */
    MOST = LONGEST / LEAST + SPARE,
    STEPS = 64,    /* steps that are asked for, at most, of one image */
    NUMBERS = 256, /* refusal numbers */
    NONE_LEFT = 1  /* of a step: bit 40 */
};

#define UNKNOWN UINT64_MAX

/* the calls that are counted: chip_tiny_judge, chip_board_judge, chip_board_choice by what it chose, chip_tiny_name, reader_list, reader_step, and
   independent_walk, which is held against our list */
enum { TINY_JUDGE, BOARD_JUDGE, CHOICE_FIRMWARE, CHOICE_EEPROM, NAME, TINY_LIST, BOARD_LIST, STEP, WALK, CALLS };

static const char *const names[CALLS] = {"tiny-judge", "board-judge", "firmware", "eeprom", "name", "tiny-list", "board-list", "step", "walk"};
static uint64_t counts[CALLS][NUMBERS];
static unsigned long record; /* counted from 0 */

static void stop(const char *call, const char *what, uint64_t ours, uint64_t theirs) {
    fprintf(stderr, "host: record %lu: %s: %s: %016" PRIX64 ", and %016" PRIX64 "\n", record, call, what, ours, theirs);
    exit(1);
}

/* The address sanitizer calls this before it stops the program, for a page that may not be touched too. */
void __asan_on_error(void);

void __asan_on_error(void) {
    fprintf(stderr, "host: record %lu: stopped\n", record);
}

static void same_answer(const char *call, chip_answer ours, uint64_t theirs) {
    if (ours.bits != theirs)
        stop(call, "the answers differ", ours.bits, theirs);
}

static void count(unsigned call, chip_answer answer) {
    counts[call][chip_refusal(answer)]++;
}

/* ---- what is lent ---- */

struct lent {
    struct pages pages;
    uint32_t kinds;
    size_t length;
    uint8_t bytes[LONGEST]; /* as they were read */
};

static const uint8_t *at_start(const struct lent *lent) {
    if (!lend(lent->pages, lent->pages.start, lent->bytes, lent->length))
        exit(3);
    return lent->pages.start;
}

static const uint8_t *at_end(const struct lent *lent) {
    uint8_t *place = lent->pages.start + lent->pages.room - lent->length;
    if (!lend(lent->pages, place, lent->bytes, lent->length))
        exit(3);
    return place;
}

/* At one of the two ends, by turns. Each image has two records, one for each end. */
static const uint8_t *at_either(const struct lent *lent) {
    return record % 2 ? at_start(lent) : at_end(lent);
}

/* A buffer of this many bytes at the end of the pages, or at their start, by turns; and the bytes beside it. */
struct buffer {
    uint8_t *bytes, *whole;
    size_t size;
};

static struct buffer buffer_in(struct pages pages, size_t bytes) {
    struct buffer b = {.size = bytes + BESIDE};
    b.whole = record / 2 % 2 ? pages.start : pages.start + pages.room - b.size;
    b.bytes = record / 2 % 2 ? b.whole : b.whole + BESIDE;
    for (size_t i = 0; i < b.size; i++)
        b.whole[i] = (uint8_t)(37 * i + 11 + record);
    return b;
}

/* The bytes in and beside it are as they were before the call, but for this many at its front. */
static bool is_unchanged(struct buffer b, size_t but) {
    for (size_t i = 0; i < b.size; i++)
        if ((b.whole + i < b.bytes || b.whole + i >= b.bytes + but) && b.whole[i] != (uint8_t)(37 * i + 11 + record))
            return false;
    return true;
}

/* ---- the calls ---- */

static chip_answer judge(unsigned call, const struct lent *lent, uint64_t due) {
    bool tiny = call == TINY_JUDGE;
    const uint8_t *start = at_start(lent);
    chip_answer first = (tiny ? chip_tiny_judge : chip_board_judge)(start, lent->length, lent->kinds);
    const uint8_t *end = at_end(lent);
    chip_answer answer = (tiny ? chip_tiny_judge : chip_board_judge)(end, lent->length, lent->kinds);
    same_answer(names[call], first, answer.bits);
    same_answer(names[call], answer, (tiny ? independent_tiny_judge : independent_board_judge)(end, lent->length, lent->kinds));
    if (due != UNKNOWN && answer.bits != due)
        stop(names[call], "the image was made for another answer", answer.bits, due);
    count(call, answer);
    return answer;
}

/* the name into a buffer of this room, by both */
static chip_answer name(const struct lent *lent, struct pages pages, size_t room) {
    static uint8_t theirs[CHIP_TINY_LONGEST + SPARE];
    const uint8_t *image = at_either(lent);
    struct buffer ours = buffer_in(pages, room);
    memcpy(theirs, ours.bytes, room);
    chip_answer answer = chip_tiny_name(image, lent->length, lent->kinds, ours.bytes, room);
    same_answer(names[NAME], answer, independent_tiny_name(image, lent->length, lent->kinds, theirs, room));
    if (memcmp(ours.bytes, theirs, room))
        stop(names[NAME], "the buffers differ", answer.bits, room);
    if (!is_unchanged(ours, chip_value(answer)))
        stop(names[NAME], "a byte is changed that is not the name's", answer.bits, room);
    count(NAME, answer);
    return answer;
}

static void all_names(const struct lent *lent, struct pages pages) {
    uint32_t length = chip_value(name(lent, pages, CHIP_TINY_LONGEST + SPARE));
    name(lent, pages, 0);
    if (length) {
        name(lent, pages, length);
        name(lent, pages, length - 1);
    }
}

static bool same_entry(const Entry *a, const Entry *b) {
    return a->kind == b->kind && a->place == b->place && a->length == b->length && a->known == b->known;
}

/* The list into this much room, by both; the entries of the independent one stay in `theirs`. How many entries of ours are known, or the refusal. */
static chip_answer list(unsigned format, const struct lent *lent, struct pages pages, size_t room, Entry *theirs) {
    unsigned call = format == TINY ? TINY_LIST : BOARD_LIST;
    const uint8_t *image = at_either(lent);
    struct buffer ours = buffer_in(pages, room * sizeof(Entry));
    Entry *entries = (Entry *)ours.bytes;
    chip_answer answer = answer_of(reader_list(format, image, lent->length, lent->kinds, entries, room));
    same_answer(names[call], answer, independent_list(format, image, lent->length, lent->kinds, theirs, room));
    uint32_t filled = chip_value(answer), known = 0;
    if (filled > room || !is_unchanged(ours, filled * sizeof(Entry)))
        stop(names[call], "an entry is changed that is not to be filled", answer.bits, room);
    for (uint32_t i = 0; i < filled; i++) {
        if (!same_entry(&entries[i], &theirs[i]))
            stop(names[call], "an entry differs", i, answer.bits);
        known += entries[i].known;
    }
    count(call, answer);
    return chip_accepted(answer) ? answer_of(known) : answer;
}

/* The independent walk meets as many known items as our list has, or the same refusal. */
static void walk(unsigned format, const struct lent *lent, chip_answer known) {
    const uint8_t *image = at_either(lent);
    same_answer(names[WALK], known, independent_walk(format, image, lent->length, lent->kinds));
    count(WALK, known);
}

/* Steps along the items, at most STEPS of them; the last item's, the two past it, and one far past it are among them. */
static void steps(unsigned format, const struct lent *lent, chip_answer judged, const Entry *items) {
    uint32_t last = chip_value(judged), apart = last / STEPS + 1;
    uint64_t past = chip_accepted(judged) ? (uint64_t)NONE_LEFT << 40 : judged.bits;
    const uint8_t *image = at_either(lent);
    for (size_t number = 0; number <= last + 1; number += number + apart < last ? apart : 1) {
        uint64_t due = number < last ? items[number].place : past;
        chip_answer answer = answer_of(reader_step(format, image, lent->length, lent->kinds, number));
        same_answer(names[STEP], answer, due);
        count(STEP, answer);
    }
    same_answer(names[STEP], answer_of(reader_step(format, image, lent->length, lent->kinds, SIZE_MAX)), past);
}

static void lists_and_steps(unsigned format, const struct lent *lent, struct pages pages, chip_answer judged) {
    static Entry items[MOST], others[MOST];
    uint32_t items_due = chip_value(judged);
    walk(format, lent, list(format, lent, pages, items_due + SPARE, items));
    list(format, lent, pages, items_due, others);
    if (items_due)
        list(format, lent, pages, items_due - 1, others);
    steps(format, lent, judged, items);
}

static void choose(const struct lent *firmware, const struct lent *eeprom, uint64_t due) {
    const uint8_t *a = at_either(firmware), *b = at_either(eeprom);
    chip_answer answer = chip_board_choice(a, firmware->length, b, eeprom->length, firmware->kinds);
    unsigned call = chip_is_eeprom(answer) ? CHOICE_EEPROM : CHOICE_FIRMWARE;
    same_answer(names[call], answer, independent_board_choice(a, firmware->length, b, eeprom->length, firmware->kinds));
    if (due != UNKNOWN && answer.bits != due)
        stop(names[call], "the pair was made for another answer", answer.bits, due);
    count(call, answer);
}

/* ---- the records ---- */

static void compare(unsigned what, struct lent images[2], struct pages pages, uint64_t due) {
    if (what == PAIR) {
        choose(&images[0], &images[1], due);
        return;
    }
    chip_answer judged = judge(what == TINY ? TINY_JUDGE : BOARD_JUDGE, &images[0], due);
    if (what == TINY)
        all_names(&images[0], pages);
    lists_and_steps(what, &images[0], pages, judged);
}

/* Reads the record at hand; false at the end of the input, or where a record is cut or too long. */
static bool read_record(unsigned *what, struct lent images[2], uint64_t *due) {
    uint8_t head[13];
    if (fread(head, 1, sizeof head, stdin) < sizeof head)
        return false;
    *what = head[0];
    *due = four(head + 5) | (uint64_t)four(head + 9) << 32;
    for (unsigned i = 0; i < (*what == PAIR ? 2u : 1u); i++) {
        images[i].kinds = four(head + 1);
        if (!read_image(images[i].bytes, &images[i].length))
            return false;
    }
    return true;
}

int main(void) {
    static struct lent images[2];
    struct pages pages = pages_for(MOST * sizeof(Entry) + BESIDE);
    unsigned what;
    uint64_t due;
    images[0].pages = pages_for(LONGEST);
    images[1].pages = pages_for(LONGEST);
    if (!pages.start || !images[0].pages.start || !images[1].pages.start || mprotect(pages.start, pages.room, PROT_READ | PROT_WRITE))
        return 3;
    for (; read_record(&what, images, &due); record++)
        compare(what, images, pages, due);
    for (unsigned call = 0; call < CALLS; call++)
        for (unsigned number = 0; number < NUMBERS; number++)
            if (counts[call][number])
                printf("%s %u %" PRIu64 "\n", names[call], number, counts[call][number]);
    return !feof(stdin) || fflush(stdout) ? 3 : 0;
}
