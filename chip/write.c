/* chip write: the image that a proved writer makes of a request (docs/WRITING.md has the form of a
 * request). */
#include "command.h"

#include <ctype.h>
#include <stdlib.h>
#include <string.h>

enum { LONGEST_REQUEST = 262144, LONGEST_TINY_REQUEST = 65536 };

struct request {
    const char *path;
    size_t length;
    char text[LONGEST_REQUEST + 1];
};

/* Without the carriage returns of a file whose lines end in CR LF. */
static void drop_returns(struct request *request) {
    size_t kept = 0;
    for (size_t i = 0; i < request->length; i++)
        if (request->text[i] != '\r' || (i + 1 < request->length && request->text[i + 1] != '\n'))
            request->text[kept++] = request->text[i];
    request->length = kept;
}

static enum status too_long(const struct request *request, int longest) {
    complain("%s: a request has at most %d bytes", request->path, longest);
    return USAGE;
}

static enum status read_request(const char *path, struct request *request) {
    request->path = shown_path(path);
    enum status status = read_bytes(path, request->text, sizeof request->text, &request->length);
    if (status == DONE && request->length > LONGEST_REQUEST)
        return too_long(request, LONGEST_REQUEST);
    drop_returns(request);
    return status;
}

/* Which writer a request is for: it must be one line, and where no format was typed its semicolons
 * tell. */
static enum status tell_writer(const struct request *request, enum format typed,
                               const char **program) {
    size_t lines = 0, semicolons = 0;
    for (size_t i = 0; i < request->length; i++) {
        lines += request->text[i] != '\n' && (i == 0 || request->text[i - 1] == '\n');
        semicolons += request->text[i] == ';';
    }
    if (lines != 1) {
        complain("%s: one request is one line, and here are %zu", request->path, lines);
        return USAGE;
    }
    enum format format = typed != NOT_SAID                    ? typed
                         : semicolons == 6                    ? BOARD
                         : semicolons == 1 || semicolons == 2 ? TINY
                                                              : NOT_SAID;
    *program = format == TINY ? "tiny_write" : "board_write";
    if (format == TINY && request->length > LONGEST_TINY_REQUEST)
        return too_long(request, LONGEST_TINY_REQUEST);
    if (format != NOT_SAID)
        return DONE;
    complain("%s: no request: a tiny image's has one or two semicolons, a board image's six",
             request->path);
    return USAGE;
}

/* The value of a hexadecimal digit. */
static unsigned value(char digit) {
    return (unsigned)(isdigit((unsigned char)digit) ? digit - '0' : digit - 'A' + 10);
}

/* The bytes of a text of two digits each with a blank between them, put at its front. */
static size_t take_bytes(char *text) {
    size_t count = (strlen(text) + 1) / 3;
    for (size_t i = 0; i < count; i++)
        text[i] = (char)(value(text[3 * i]) << 4 | value(text[3 * i + 1]));
    return count;
}

/* The image as it was asked for: its bytes to a file, or in hexadecimal. */
static enum status hand_out(char *image, const char *out) {
    if (!out) {
        puts(image);
        return DONE;
    }
    bool taken = is_standard_output(out);
    size_t length = take_bytes(image);
    enum status status = save(out, (const uint8_t *)image, length);
    if (status == DONE && !taken)
        printf("wrote %s: %zu bytes\n", out, length);
    return status;
}

/* What a writer answers, up to what is left of its buffer: "length N: " and the image, a refusal,
 * or that the line is no request. */
static enum status take_answer(char *answer, const char *path, const char *out) {
    answer[strcspn(answer, ";\n")] = 0;
    char *image = strstr(answer, ": ");
    if (strncmp(answer, "length ", strlen("length ")) == 0 && image)
        return hand_out(image + strlen(": "), out);
    bool refused = strncmp(answer, "refused ", strlen("refused ")) == 0;
    complain("%s: %s", path, answer);
    if (!refused)
        complain(
            "a request is ROOM; RUN or ROOM; RUN; POOL for a tiny image, "
            "ROOM; HEADER; VERSION; MAP; RECORDS; BOARD; FURTHER for a board image; "
            "chip(1) says more");
    return refused ? REFUSED : USAGE;
}

enum status write_command(const struct typed *typed) {
    static struct request request;
    const char *program;
    struct output output;
    enum status status = read_request(typed->words[0], &request);
    if (status == DONE)
        status = tell_writer(&request, typed->format, &program);
    if (status == DONE)
        status = run_program(program, request.text, request.length, &output);
    if (status != DONE)
        return status;
    status = take_answer(output.text, request.path, typed->out);
    free(output.text);
    return status;
}
