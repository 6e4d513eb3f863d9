/* chip list: the listing that the proved lister of the image's format writes. */
#include "command.h"

#include <stdlib.h>
#include <string.h>

enum status list_command(const struct typed *typed) {
    static struct image image;
    struct output listing;
    enum format format;
    enum status status = read_image(typed->words[0], &image);
    if (status == DONE)
        status = tell_format(&image, typed, &format);
    if (status == DONE)
        status = run_program(format == TINY ? "tiny_list" : "board_list", image.bytes, image.length,
                             &listing);
    if (status != DONE)
        return status;
    fwrite(listing.text, 1, listing.length, stdout);
    if (strncmp(listing.text, "refused ", 8) == 0)
        status = REFUSED;
    free(listing.text);
    return status;
}
