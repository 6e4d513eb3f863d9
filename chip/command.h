/*
 * What the files of the command `chip` share: exit statuses, what was typed, and the functions of
 * each file. To be included before any other header.
 */
#ifndef COMMAND_H
#define COMMAND_H

#define _GNU_SOURCE /* memfd_create, flock */
#include <stdbool.h>
#include <stddef.h>
#include <stdint.h>
#include <stdio.h>

#include "chip.h"

enum status {
    DONE = 0,    /* accepted, or done */
    REFUSED = 1, /* an image, a request or a photograph is refused; or there is no name */
    USAGE = 2,   /* the command line is wrong */
    FILES = 3    /* a file cannot be read or written */
};

enum format { NOT_SAID, TINY, BOARD };

/* What was typed behind a command's name. */
struct typed {
    const char *words[3];
    size_t count;
    enum format format;
    uint32_t kinds;
    const char *out; /* -o; null: none */
    bool which;
};

/* A file with one byte more than the longest board image is refused, whatever follows. */
struct image {
    const char *path;
    size_t length;
    uint8_t bytes[CHIP_BOARD_LONGEST + 1];
};

/* ---- the commands, by the names that are typed (main.c has the table) ---- */
enum status check_command(const struct typed *typed);
enum status choose_command(const struct typed *typed);
enum status list_command(const struct typed *typed);
enum status name_command(const struct typed *typed);
enum status upload_command(const struct typed *typed);
enum status write_command(const struct typed *typed);

/* ---- say.c: what is said on standard error ---- */

/* "chip: " and a line. */
__attribute__((format(printf, 1, 2))) void complain(const char *form, ...);

/* What cannot be done with a path, and why, by errno. */
enum status file_error(const char *path, const char *what);

/* A refusal of what stands at a path. */
enum status refuse(const char *path, chip_answer answer);

/* A refusal as a line, without its end: "refused 27 at 20 (14h): " and the words. */
void put_refusal(FILE *to, chip_answer answer);

/* ---- images.c: files that are read ---- */

/* Whether a path is "-". */
bool is_standard(const char *path);

/* How a path that is read is called in a message. */
const char *shown_path(const char *path);

/* Reads what is at a path, at most this many bytes of it. */
enum status read_bytes(const char *path, void *bytes, size_t room, size_t *length);

/* Reads an image. */
enum status read_image(const char *path, struct image *image);

/* Which format an image has: what was typed, or what its first byte tells. */
enum status tell_format(const struct image *image, const struct typed *typed, enum format *format);

/* ---- known.c: --known ---- */

/* The list that a text says: false if it says none. */
bool parse_known(const char *text, uint32_t *kinds);

/* ---- programs.c: the proved programs, which are installed beside the command ---- */

/* What a program wrote to standard output, with a zero behind it; the caller frees it. */
struct output {
    char *text;
    size_t length;
};

/* Runs a program with this standard input. */
enum status run_program(const char *name, const void *input, size_t length, struct output *output);

/* ---- store.c: files that are written ---- */

/* Whether what is written to a path goes to standard output: "-", /dev/stdout and the like. */
bool is_standard_output(const char *path);

/* Makes a file of these bytes, or replaces one; "-" is standard output. Whenever it is stopped, the
 * file is as it was or whole. */
enum status save(const char *path, const uint8_t *bytes, size_t length);

/* Copies an open file, the one at source, to a name in a folder, unless something there has the
   name. Whenever it is stopped, the name is not there or the file is whole. */
enum status store(int from, const char *source, const char *folder, const char *name);

#endif
