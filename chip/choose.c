/* chip choose: which of a firmware image and an EEPROM image a rig goes by. */
#include "command.h"

/* The refusals of both; that of the firmware image is the answer. */
static enum status refuse_both(const struct image *firmware, const struct image *eeprom,
                               const struct typed *typed, chip_answer answer) {
    refuse(firmware->path, answer);
    return refuse(eeprom->path, chip_board_judge(eeprom->bytes, eeprom->length, typed->kinds));
}

/* The chosen image as a file, where one is asked for; then in words, or with --which in one word,
 * unless standard output has the image. */
static enum status hand_out(const struct image *image, bool is_eeprom, size_t length,
                            const struct typed *typed) {
    bool taken = typed->out && is_standard_output(typed->out);
    enum status status = typed->out ? save(typed->out, image->bytes, length) : DONE;
    if (status != DONE || taken)
        return status;
    if (typed->which)
        puts(is_eeprom ? "eeprom" : "firmware");
    else
        printf("the %s image, %s: %zu bytes\n", is_eeprom ? "EEPROM" : "firmware", image->path,
               length);
    return DONE;
}

enum status choose_command(const struct typed *typed) {
    static struct image firmware, eeprom;
    if (is_standard(typed->words[0]) && is_standard(typed->words[1])) {
        complain("standard input can be one of the two images, and not both");
        return USAGE;
    }
    if (typed->which && typed->out && is_standard_output(typed->out)) {
        complain("--which and -o %s both write to standard output", typed->out);
        return USAGE;
    }
    enum status status = read_image(typed->words[0], &firmware);
    if (status == DONE)
        status = read_image(typed->words[1], &eeprom);
    if (status != DONE)
        return status;
    chip_answer answer = chip_board_choice(firmware.bytes, firmware.length, eeprom.bytes,
                                           eeprom.length, typed->kinds);
    if (!chip_accepted(answer))
        return refuse_both(&firmware, &eeprom, typed, answer);
    bool is_eeprom = chip_is_eeprom(answer);
    return hand_out(is_eeprom ? &eeprom : &firmware, is_eeprom, chip_value(answer), typed);
}
