/* chip check, chip name: what the judges and the name answer. */
#include "command.h"

/* The image that was typed, and its format. */
static enum status take(const struct typed *typed, struct image *image, enum format *format) {
    enum status status = read_image(typed->words[0], image);
    return status == DONE ? tell_format(image, typed, format) : status;
}

enum status check_command(const struct typed *typed) {
    static struct image image;
    enum format format;
    enum status status = take(typed, &image, &format);
    if (status != DONE)
        return status;
    chip_answer answer = (format == TINY ? chip_tiny_judge : chip_board_judge)(
        image.bytes, image.length, typed->kinds);
    if (!chip_accepted(answer)) {
        put_refusal(stdout, answer);
        putchar('\n');
        return REFUSED;
    }
    unsigned items = chip_value(answer);
    printf("accepted %u item%s\n", items, items == 1 ? "" : "s");
    return DONE;
}

enum status name_command(const struct typed *typed) {
    static struct image image;
    enum format format;
    char name[CHIP_TINY_LONGEST];
    enum status status = take(typed, &image, &format);
    if (status != DONE)
        return status;
    if (format == BOARD) {
        complain("%s: a board image; only tiny images have a name", image.path);
        return REFUSED;
    }
    chip_answer answer =
        chip_tiny_name(image.bytes, image.length, typed->kinds, (uint8_t *)name, sizeof name);
    if (!chip_accepted(answer))
        return refuse(image.path, answer);
    printf("%.*s\n", (int)chip_value(answer), name);
    return DONE;
}
