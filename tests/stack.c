/*
 * How many bytes of stack each call of chip/chip.h takes.
 *
 *     stack < images
 *
 * An image has its length in four bytes, low byte first, and its bytes. Each is lent as a tiny image and as a board image, and with the image before it as a
 * pair of board images. A call runs on a stack of its own that is painted before; what it took is how far the paint is gone, counted from the frame of the
 * function that makes it. Each call is made twice, with another paint, so that a byte that was written is not taken for paint.
 *
 * Writes a line for each call: its name, and the most that it took; the same for a function that takes KNOWN bytes and little more; KNOWN; and CHIP_STACK.
 * Exit: 0, or 3 if it could not work.
 */
#include "pages.h"

#include <stdlib.h>
#include <ucontext.h>

#include "../chip/chip.h"

enum { STACK = 1 << 18, BOTH = 2, KNOWN = 5000 };

/* ---- the calls, on what is lent ---- */

struct image {
    size_t length;
    uint8_t bytes[LONGEST];
};

static struct image images[BOTH], *image = &images[0], *before = &images[1];
static uint8_t name[CHIP_TINY_LONGEST];
static volatile uint64_t answered;

static void known(void) {
    volatile uint8_t bytes[KNOWN];
    for (size_t i = 0; i < KNOWN; i++)
        bytes[i] = (uint8_t)i;
    answered = bytes[0];
}

static void version(void) {
    answered = chip_version();
}

static void tiny_judge(void) {
    answered = chip_tiny_judge(image->bytes, image->length, CHIP_KINDS_FULL).bits;
}

static void board_judge(void) {
    answered = chip_board_judge(image->bytes, image->length, CHIP_KINDS_FULL).bits;
}

static void board_choice(void) {
    answered = chip_board_choice(before->bytes, before->length, image->bytes, image->length, CHIP_KINDS_FULL).bits;
}

static void tiny_name(void) {
    answered = chip_tiny_name(image->bytes, image->length, CHIP_KINDS_FULL, name, sizeof name).bits;
}

static struct {
    const char *name;
    void (*call)(void);
    size_t most;
} calls[] = {{"chip_version", version, 0},
             {"chip_tiny_judge", tiny_judge, 0},
             {"chip_board_judge", board_judge, 0},
             {"chip_board_choice", board_choice, 0},
             {"chip_tiny_name", tiny_name, 0},
             {"a function of KNOWN bytes", known, 0}};

/* ---- the stack ---- */

static void (*volatile asked)(void);
static const uint8_t *frame; /* of the function that makes the call */
static volatile unsigned long made;

static void make_call(void) {
    frame = __builtin_frame_address(0);
    asked();
    made++; /* so that the frame is there while the call runs */
}

/* Makes a call on this stack. */
static void run_on(struct pages stack, void (*call)(void)) {
    static ucontext_t here, there;
    asked = call;
    if (getcontext(&there))
        exit(3);
    there.uc_stack.ss_sp = stack.start;
    there.uc_stack.ss_size = stack.room;
    there.uc_link = &here;
    makecontext(&there, make_call, 0);
    if (swapcontext(&here, &there))
        exit(3);
}

/* The bytes that a call takes of a stack with this paint. */
static size_t taken(struct pages stack, void (*call)(void), uint8_t paint) {
    const uint8_t *lowest = stack.start;
    memset(stack.start, paint, stack.room);
    run_on(stack, call);
    while (lowest < frame && *lowest == paint)
        lowest++;
    return (size_t)(frame - lowest);
}

static void measure(struct pages stack) {
    static const uint8_t paints[BOTH] = {0xA5, 0x5A};
    for (size_t i = 0; i < sizeof calls / sizeof calls[0]; i++)
        for (unsigned p = 0; p < BOTH; p++) {
            size_t bytes = taken(stack, calls[i].call, paints[p]);
            if (bytes > calls[i].most)
                calls[i].most = bytes;
        }
}

int main(void) {
    struct pages stack = pages_for(STACK);
    if (!stack.start || mprotect(stack.start, stack.room, PROT_READ | PROT_WRITE))
        return 3;
    while (read_image(image->bytes, &image->length)) {
        measure(stack);
        struct image *last = before;
        before = image;
        image = last;
    }
    for (size_t i = 0; i < sizeof calls / sizeof calls[0]; i++)
        printf("%s %zu\n", calls[i].name, calls[i].most);
    printf("KNOWN %d\nCHIP_STACK %d\n", KNOWN, CHIP_STACK);
    return !feof(stdin) || fflush(stdout) ? 3 : 0;
}
