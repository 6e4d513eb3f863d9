/*
 * The writer of board images and the choice between two, on top of the judge in board.c. tests/README.md has the forms of both, and says
 * what they were written from.
 */
#include "board.h"

#include <stdio.h>
#include <stdlib.h>
#include <string.h>

struct bytes {
    size_t length;
    uint8_t *at;
};

/* Exactly as large as asked for, so that a build with the address sanitizer notices a step past it. */
static struct bytes allocate(size_t length) {
    struct bytes out = {length, malloc(length ? length : 1)};
    if (!out.at)
        exit(3);
    return out;
}

static struct bytes copy_of(const uint8_t *bytes, size_t length) {
    struct bytes out = allocate(length);
    memcpy(out.at, bytes, length);
    return out;
}

static void print_spaced(const uint8_t *bytes, size_t length) {
    for (size_t i = 0; i < length; i++)
        printf(" %02X", bytes[i]);
}

/* ---- the writer ---- */

/* the parts that a writer is given */
enum { HEADER, VERSION, MAP_FIELDS, RECORDS, BOARD_FIELDS, FURTHER, PARTS };

enum {
    GIVEN_RECORD = LABEL + 1, /* a label and an address */
    RECORD = 0x20,
    MAP_FIXED = 0x30,
    BOARD_LENGTH = 0x60
};

static void put(uint8_t *to, uint32_t value, unsigned size) {
    for (unsigned i = 0; i < size; i++)
        to[i] = (uint8_t)(value >> 8 * i);
}

/* VerMajor 1, VerMinor 0 */
static void put_head(uint8_t *to, const char *signature, uint32_t length) {
    memcpy(to, signature, 8);
    put(to + 0x08, 1, 2);
    put(to + 0x0A, 0, 2);
    put(to + 0x0C, length, 4);
}

static void put_record(uint8_t *to, const uint8_t *given, uint32_t offset) {
    memcpy(to, given, LABEL);
    put(to + 0x10, RECORD, 4);
    put(to + 0x14, offset, 4);
    to[0x18] = given[LABEL];
}

/* the Length of $Eeprom$ that is asked for */
static uint32_t header_of(const struct bytes given[PARTS]) {
    return given[HEADER].at[0];
}

/* The image but for its check fields. Those, and the reserved bytes, are zero. */
static void lay(const struct bytes given[PARTS], struct bytes image) {
    uint32_t header = header_of(given), records = (uint32_t)(given[RECORDS].length / GIVEN_RECORD);
    uint8_t *map = image.at + header, *board = map + MAP_FIXED + RECORD * records;
    memset(image.at, 0, image.length);
    put_head(image.at, "$Eeprom$", header);
    put(image.at + 0x10, (uint32_t)image.length, 4);
    memcpy(image.at + 0x1C, given[VERSION].at, given[VERSION].length);
    put_head(map, "$EeprMap", MAP_FIXED + RECORD * records);
    memcpy(map + 0x10, given[MAP_FIELDS].at, given[MAP_FIELDS].length);
    uint32_t block = four(map + 0x20);
    for (uint32_t k = 0; k < records; k++)
        put_record(map + MAP_FIXED + RECORD * k, given[RECORDS].at + GIVEN_RECORD * k, k * block);
    put_head(board, "$BrdInfo", BOARD_LENGTH);
    memcpy(board + 0x10, given[BOARD_FIELDS].at, given[BOARD_FIELDS].length);
    memcpy(board + BOARD_LENGTH, given[FURTHER].at, given[FURTHER].length);
}

/* Fills in the check fields of an image that has been laid, and says what a reader with the full list says of it; then 45. A CrcLength of
   zero is always wrong, so the first judge says 27 unless a rule before it is broken, and those do not look at the check fields. */
static struct answer complete(struct bytes image) {
    static struct board board;
    judge(&board, image.at, image.length, FULL_LIST);
    if (board.judged.refusal == 27) {
        put(image.at + 0x18, summed_length(&board), 4);
        put(image.at + 0x14, crc32(&board, summed_length(&board)), 4);
        judge(&board, image.at, image.length, FULL_LIST);
    }
    if (!board.judged.refusal && signature_of(&board))
        return refuse(45, signature_of(&board)->place);
    return board.judged;
}

/* The image goes to the front of a lent buffer. A refused call leaves the buffer alone. */
static struct answer write_image(const struct bytes given[PARTS], struct bytes buffer) {
    if (given[RECORDS].length % GIVEN_RECORD != 0)
        return refuse(46, 0);
    size_t records = given[RECORDS].length / GIVEN_RECORD;
    size_t length = header_of(given) + MAP_FIXED + RECORD * records + BOARD_LENGTH + given[FURTHER].length;
    if (length > LONGEST)
        return refuse(40, 0);
    if (length > buffer.length)
        return refuse(41, 0);
    struct bytes image = allocate(length);
    lay(given, image);
    struct answer said = complete(image);
    if (!said.refusal) {
        memcpy(buffer.at, image.at, length);
        said = accept((unsigned)length);
    }
    free(image.at);
    return said;
}

/* ---- requests to it ---- */

enum { MOST_GIVEN = 65600 }; /* bytes of a buffer, of records and of further bytes */

/* how many bytes each part may have */
static const struct {
    size_t least, most;
} sizes[PARTS] = {[HEADER] = {1, 1}, [VERSION] = {4, 4}, [MAP_FIELDS] = {29, 29}, [RECORDS] = {0, MOST_GIVEN},
                  [BOARD_FIELDS] = {61, 61}, [FURTHER] = {0, MOST_GIVEN}};

struct request {
    size_t room;
    struct {
        size_t length;
        uint8_t bytes[MOST_GIVEN];
    } parts[PARTS];
};

/* a line that is being read */
struct line {
    const uint8_t *at, *end;
};

static void skip_blanks(struct line *line) {
    while (line->at < line->end && *line->at == ' ')
        line->at++;
}

static bool take(struct line *line, uint8_t wanted) {
    if (line->at == line->end || *line->at != wanted)
        return false;
    line->at++;
    return true;
}

/* a decimal number of at most MOST_GIVEN, blanks around it */
static bool parse_room(struct line *line, size_t *room) {
    skip_blanks(line);
    const uint8_t *first = line->at;
    for (*room = 0; line->at < line->end && *line->at >= '0' && *line->at <= '9'; line->at++) {
        *room = 10 * *room + (*line->at - '0');
        if (*room > MOST_GIVEN)
            return false;
    }
    bool digits = line->at > first;
    skip_blanks(line);
    return digits;
}

/* a digit's value, or -1 */
static int hex_digit(uint8_t c) {
    static const char digits[] = "0123456789ABCDEFabcdef";
    const char *found = c ? strchr(digits, c) : NULL;
    if (!found)
        return -1;
    return (int)(found - digits) - (found - digits > 15 ? 6 : 0);
}

/* Bytes up to a semicolon or the end of the line; how many, or more than most if they are not in order. */
static size_t parse_bytes(struct line *line, uint8_t *to, size_t most) {
    size_t count = 0;
    for (skip_blanks(line); line->at < line->end && *line->at != ';'; skip_blanks(line)) {
        int high = hex_digit(*line->at), low = line->end - line->at > 1 ? hex_digit(line->at[1]) : -1;
        if (high < 0 || low < 0 || count == most)
            return most + 1;
        to[count++] = (uint8_t)(16 * high + low);
        line->at += 2;
    }
    return count;
}

static bool parse_request(struct line line, struct request *request) {
    if (!parse_room(&line, &request->room))
        return false;
    for (unsigned i = 0; i < PARTS; i++) {
        if (!take(&line, ';'))
            return false;
        size_t count = parse_bytes(&line, request->parts[i].bytes, sizes[i].most);
        if (count < sizes[i].least || count > sizes[i].most)
            return false;
        request->parts[i].length = count;
    }
    return line.at == line.end && is_header(request->parts[HEADER].bytes[0]);
}

static void answer_request(const struct request *request) {
    struct bytes given[PARTS], buffer = allocate(request->room);
    for (unsigned i = 0; i < PARTS; i++)
        given[i] = copy_of(request->parts[i].bytes, request->parts[i].length);
    memset(buffer.at, 0xAA, buffer.length);
    struct answer said = write_image(given, buffer);
    if (said.refusal) {
        print_refused(said);
    } else {
        printf("length %u:", said.value);
        print_spaced(buffer.at, said.value);
    }
    if (buffer.length > said.value) {
        fputs("; rest", stdout);
        print_spaced(buffer.at + said.value, buffer.length - said.value);
    }
    putchar('\n');
    for (unsigned i = 0; i < PARTS; i++)
        free(given[i].at);
    free(buffer.at);
}

/* each line: a request; empty lines are skipped, and the last one may lack its newline */
bool answer_requests(const uint8_t *input, size_t length) {
    static struct request request;
    if (length > INPUT) {
        fprintf(stderr, "board: standard input is over %d bytes\n", INPUT);
        return false;
    }
    size_t end;
    for (size_t at = 0; at < length; at = end + 1) {
        for (end = at; end < length && input[end] != '\n';)
            end++;
        if (end == at)
            continue;
        if (parse_request((struct line){input + at, input + end}, &request))
            answer_request(&request);
        else
            puts("not a request");
    }
    return true;
}

/* ---- the choice ---- */

/* The fields of a board that count: ManuName and BrdName; BoardId, FabId, EcId and BoardType. BrdSerial lies between. */
static bool same_board(const struct board *a, const struct board *b) {
    const uint8_t *one = a->image + a->spans[2].place, *other = b->image + b->spans[2].place;
    return memcmp(one + 0x10, other + 0x10, 2 * LABEL) == 0 && memcmp(one + 0x40, other + 0x40, 4 + 4 + 4 + 1) == 0;
}

/* the chosen one of two that have been judged, or null */
static const struct board *chosen(const struct board *firmware, const struct board *eeprom) {
    if (firmware->judged.refusal)
        return eeprom->judged.refusal ? NULL : eeprom;
    if (eeprom->judged.refusal || !same_board(firmware, eeprom))
        return firmware;
    return four(eeprom->image + 0x1C) > four(firmware->image + 0x1C) ? eeprom : firmware;
}

static void answer_choice(uint32_t list, struct bytes firmware, struct bytes eeprom) {
    static struct board boards[2];
    judge(&boards[0], firmware.at, firmware.length, list);
    judge(&boards[1], eeprom.at, eeprom.length, list);
    const struct board *b = chosen(&boards[0], &boards[1]);
    printf("list %u\n", list);
    if (b)
        printf("%s %u\n", b == boards ? "firmware" : "eeprom", b->length);
    else
        printf("neither %u %u\n", boards[0].judged.refusal, boards[0].judged.place);
    fputs("part", stdout);
    if (b)
        print_spaced(b->image, b->length);
    putchar('\n');
}

/* an image behind its length in four bytes, copied, and past it; false if it is cut short */
static bool take_image(const uint8_t *input, size_t length, size_t *at, struct bytes *image) {
    if (length - *at < 4 || length - *at - 4 < four(input + *at))
        return false;
    *image = copy_of(input + *at + 4, four(input + *at));
    *at += 4 + image->length;
    return true;
}

/* each record: the list in four bytes, the firmware image and the EEPROM image; a record cut short ends the run */
bool answer_choices(const uint8_t *input, size_t length) {
    struct bytes firmware, eeprom;
    size_t at = 0;
    while (length - at >= 4) {
        uint32_t list = four(input + at);
        at += 4;
        if (!take_image(input, length, &at, &firmware))
            break;
        bool whole = take_image(input, length, &at, &eeprom);
        if (whole) {
            answer_choice(list, firmware, eeprom);
            free(eeprom.at);
        }
        free(firmware.at);
        if (!whole)
            break;
    }
    return true;
}
