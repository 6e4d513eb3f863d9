/* chip upload: stores a photograph under the name that its carrier's chip gives, and never
 * overwrites one. */
#include "command.h"

#include <fcntl.h>
#include <string.h>
#include <unistd.h>

/* A name has characters 20h to 7Eh. These are not file names: one with a slash leads out of the
 * folder, and the folder has the other two. */
static bool is_file_name(const char *name) {
    return name[0] && !strchr(name, '/') && strcmp(name, ".") != 0 && strcmp(name, "..") != 0;
}

/* The name that a chip gives, with a zero behind it. */
static enum status take_name(const char *path, char name[CHIP_TINY_LONGEST + 1]) {
    static struct image image;
    enum status status = read_image(path, &image);
    if (status != DONE)
        return status;
    chip_answer answer = chip_tiny_name(image.bytes, image.length, CHIP_KINDS_FULL, (uint8_t *)name,
                                        CHIP_TINY_LONGEST);
    if (!chip_accepted(answer))
        return refuse(image.path, answer);
    name[chip_value(answer)] = 0;
    if (is_file_name(name))
        return DONE;
    complain("%s: the name \"%s\" cannot be the name of a file", image.path, name);
    return REFUSED;
}

/* The photograph, from a path or from standard input, to its name in the folder. */
static enum status store_photograph(const char *path, const char *folder, const char *name) {
    bool standard = is_standard(path);
    int file = standard ? STDIN_FILENO : open(path, O_RDONLY | O_CLOEXEC);
    if (file < 0)
        return file_error(path, "cannot be read");
    enum status status = store(file, shown_path(path), folder, name);
    if (!standard)
        close(file);
    if (status == DONE)
        printf("stored %s/%s\n", folder, name);
    return status;
}

enum status upload_command(const struct typed *typed) {
    char name[CHIP_TINY_LONGEST + 1];
    if (is_standard(typed->words[0]) && is_standard(typed->words[1])) {
        complain("standard input can be the chip or the photograph, and not both");
        return USAGE;
    }
    enum status status = take_name(typed->words[0], name);
    return status == DONE ? store_photograph(typed->words[1], typed->words[2], name) : status;
}
