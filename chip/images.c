/* Files that are read, and which format an image has. */
#include "command.h"

#include <string.h>

bool is_standard(const char *path) {
    return strcmp(path, "-") == 0;
}

const char *shown_path(const char *path) {
    return is_standard(path) ? "standard input" : path;
}

enum status read_bytes(const char *path, void *bytes, size_t room, size_t *length) {
    bool standard = is_standard(path);
    FILE *file = standard ? stdin : fopen(path, "rb");
    if (!file)
        return file_error(path, "cannot be read");
    *length = fread(bytes, 1, room, file);
    enum status status = ferror(file) ? file_error(shown_path(path), "cannot be read") : DONE;
    if (!standard)
        fclose(file);
    return status;
}

enum status read_image(const char *path, struct image *image) {
    image->path = shown_path(path);
    return read_bytes(path, image->bytes, sizeof image->bytes, &image->length);
}

enum status tell_format(const struct image *image, const struct typed *typed, enum format *format) {
    *format = typed->format;
    if (*format != NOT_SAID)
        return DONE;
    if (image->length == 0)
        complain("%s: no bytes, so it is neither a tiny nor a board image; "
                 "type --format tiny or --format board",
                 image->path);
    else if (image->bytes[0] == 0x56)
        *format = TINY;
    else if (image->bytes[0] == 0x24)
        *format = BOARD;
    else
        complain("%s: the first byte is %02Xh, neither 56h (tiny) nor 24h (board); "
                 "type --format tiny or --format board",
                 image->path, (unsigned)image->bytes[0]);
    return *format == NOT_SAID ? USAGE : DONE;
}
