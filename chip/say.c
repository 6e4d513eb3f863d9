/* What is said on standard error, and refusals in words. */
#include "command.h"

#include <errno.h>
#include <stdarg.h>
#include <string.h>

void complain(const char *form, ...) {
    va_list values;
    va_start(values, form);
    fputs("chip: ", stderr);
    vfprintf(stderr, form, values);
    fputc('\n', stderr);
    va_end(values);
}

enum status file_error(const char *path, const char *what) {
    complain("%s: %s: %s", path, what, strerror(errno));
    return FILES;
}

void put_refusal(FILE *to, chip_answer answer) {
    unsigned number = chip_refusal(answer), place = chip_place(answer);
    fprintf(to, "refused %u at %u (%Xh): %s", number, place, place, chip_refusal_text(number));
}

enum status refuse(const char *path, chip_answer answer) {
    fprintf(stderr, "chip: %s: ", path);
    put_refusal(stderr, answer);
    fputc('\n', stderr);
    return REFUSED;
}
