/*
 * A reader, lister and writer of tiny images in C, to hold the Rattle code against. tests/README.md says what it was written from.
 *
 *     tiny list < image         the listing of docs/LISTING.md, full list
 *     tiny answers < records    every answer, for a run of images with their lists; tests/README.md has the form
 *     tiny write < requests     the writer's answer to each line; tests/README.md has the form
 *
 * Exit: 0 whenever it answered, 2 on a wrong command line, 3 if standard input or output failed.
 */
#include <stdbool.h>
#include <stdint.h>
#include <stdio.h>
#include <stdlib.h>
#include <string.h>

enum { MAGIC = 0x56, VERSION = 2, HEADER = 3, LONGEST = 255, FULL_LIST = 255 };

/* refusal 0 is "not refused"; a refused answer has a value of 0 */
struct answer {
    unsigned refusal, place;
    unsigned value; /* judge: count of items; name, writer: length; else 0 */
};

struct text {
    bool decodable;
    unsigned length;
    char bytes[255]; /* end mark cleared */
};

struct item {
    unsigned tag, place, length; /* length: of the data */
    bool known;
    /* what follows is set only in a known item, by its tag */
    unsigned data, strings;    /* 01: place of the first data byte; string count */
    unsigned flags;            /* 11 */
    uint8_t address[6];        /* 60 */
    struct text serial, part;  /* 10 (serial only), 61, 62, 80, 81 */
    unsigned major, minor;     /* 61, 62, 80, 81 */
    char major_text[2], characters[2];
    unsigned batch;            /* 80, 81 */
};

static struct answer refuse(unsigned number, unsigned place) {
    return (struct answer){number, place, 0};
}

static struct answer accept(unsigned value) {
    return (struct answer){0, 0, value};
}

/* ---- the parts of an image ---- */

/* x^8 + x^2 + x + 1, highest bit first, start 0, nothing inverted */
static uint8_t crc8(const uint8_t *bytes, unsigned count) {
    uint8_t crc = 0;
    for (unsigned i = 0; i < count; i++) {
        for (int bit = 7; bit >= 0; bit--) {
            bool out = (crc >> 7) & 1, in = (bytes[i] >> bit) & 1;
            crc = (uint8_t)(crc << 1);
            if (out != in)
                crc ^= 0x07;
        }
    }
    return crc;
}

static bool is_known(unsigned list, unsigned tag) {
    static const uint8_t kinds[8] = {0x01, 0x10, 0x11, 0x60, 0x61, 0x62, 0x80, 0x81};
    for (int i = 0; i < 8; i++)
        if (kinds[i] == tag)
            return (list >> i) & 1;
    return false;
}

/* how many of the data bytes, from the front, are string indexes; 2 is an identity */
static unsigned index_count(unsigned tag) {
    switch (tag) {
    case 0x10: return 1;
    case 0x61: case 0x62: case 0x80: case 0x81: return 2;
    default: return 0;
    }
}

static bool is_character(unsigned byte) {
    return byte >= 0x20 && byte <= 0x7E;
}

/* where an item lies: its tag at place, data bytes from data up to end */
struct span {
    unsigned tag, place, data, end;
};

/* The item at a place before L - 1. False if it, or its length byte, passes L - 1; the check byte is
 * never taken for a length. */
static bool span_at(const uint8_t *image, unsigned place, struct span *span) {
    unsigned check = image[2] - 1u; /* the place L - 1 */
    span->place = place;
    span->tag = image[place];
    if (span->tag >> 4) {
        span->data = place + 1;
        span->end = span->data + (span->tag >> 4);
    } else {
        if (place + 1 >= check)
            return false;
        span->data = place + 2;
        span->end = span->data + image[place + 1];
    }
    return span->end <= check;
}

/* The pool of an image that rules 1 to 8 let pass: its last item, if that is a listed 01. */
static bool find_pool(const uint8_t *image, unsigned list, struct span *pool) {
    struct span last = {.end = HEADER};
    while (last.end < image[2] - 1u)
        if (!span_at(image, last.end, &last))
            return false;
    *pool = last;
    return last.tag == 0x01 && is_known(list, 0x01);
}

/* strings in the listed pool, 0 without one: as many as there are end marks */
static unsigned string_count(const uint8_t *image, unsigned list) {
    unsigned count = 0;
    struct span pool;
    if (find_pool(image, list, &pool))
        for (unsigned at = pool.data; at < pool.end; at++)
            count += image[at] >> 7;
    return count;
}

/* ---- the judge ---- */

/* The first place where one of the rules 6 to 11 breaks, or 0 (no item starts at 0). Each rule is run over
 * the whole image; rule 6 comes first, so that the walk of the others cannot fail. */
static unsigned broken_at(const uint8_t *image, unsigned list, unsigned rule, unsigned strings) {
    unsigned check = image[2] - 1u;
    struct span s;
    for (unsigned at = HEADER; at < check; at = s.end) {
        if (!span_at(image, at, &s))
            return at; /* rule 6 */
        const uint8_t *d = image + s.data;
        bool known = is_known(list, s.tag), pool = known && s.tag == 0x01;
        if (rule == 7 && s.tag == 0x00)
            return at;
        if (rule == 8 && pool && s.end != check)
            return at;
        if (rule == 9 && pool)
            for (unsigned i = s.data; i < s.end; i++)
                if (!is_character(image[i] & 0x7F) || (i + 1 == s.end && image[i] < 0x80))
                    return i;
        if (rule == 10 && known && is_known(list, 0x01))
            for (unsigned i = 0; i < index_count(s.tag); i++)
                if (d[i] >= strings)
                    return s.data + i;
        if (rule == 11 && known && index_count(s.tag) == 2) {
            if (!(d[2] <= 0x63 || (d[2] >= 0x80 && d[2] <= 0x99)))
                return s.data + 2;
            if (d[3] > 99)
                return s.data + 3;
            if (!is_character(d[4]) || !is_character(d[5]))
                return s.data + 4; /* the field's first byte */
            if (s.end - s.data == 8 && d[6] + 256u * d[7] > 9999)
                return s.data + 6;
        }
    }
    return 0;
}

static struct answer judge(const uint8_t *image, size_t lent, unsigned list) {
    if (lent < 4)
        return refuse(1, 0);
    if (image[0] != MAGIC)
        return refuse(2, 0);
    if (image[1] != VERSION)
        return refuse(3, 1);
    unsigned length = image[2], count = 0, strings = 0;
    if (length < 4 || length > lent)
        return refuse(4, 2);
    if (crc8(image, length - 1) != image[length - 1])
        return refuse(5, length - 1);
    for (unsigned rule = 6; rule <= 11; rule++) {
        if (rule == 10) /* the pool is good by now */
            strings = string_count(image, list);
        unsigned place = broken_at(image, list, rule, strings);
        if (place)
            return refuse(rule, place);
    }
    for (struct span s = {.end = HEADER}; s.end < length - 1; count++)
        span_at(image, s.end, &s);
    return accept(count);
}

/* ---- strings, items, name: each judges the image first; a refused call leaves what it was lent alone ---- */

static struct answer string_by_number(const uint8_t *image, size_t lent, unsigned list, size_t number,
                                      struct text *text) {
    struct answer judged = judge(image, lent, list);
    struct span pool;
    if (judged.refusal)
        return judged;
    if (!is_known(list, 0x01)) { /* undecodable, whatever the number */
        memset(text, 0, sizeof *text);
        return accept(0);
    }
    if (number >= string_count(image, list) || !find_pool(image, list, &pool))
        return refuse(42, 0);
    memset(text, 0, sizeof *text);
    text->decodable = true;
    unsigned at = pool.data;
    for (; number; at++) /* pass this many end marks */
        number -= image[at] >> 7;
    do
        text->bytes[text->length++] = (char)(image[at] & 0x7F);
    while (image[at++] < 0x80);
    return accept(0);
}

static struct answer item_by_number(const uint8_t *image, size_t lent, unsigned list, size_t number,
                                    struct item *item) {
    struct answer judged = judge(image, lent, list);
    struct span s = {.end = HEADER};
    if (judged.refusal)
        return judged;
    if (number >= judged.value)
        return refuse(42, 0);
    for (size_t i = 0; i <= number; i++)
        span_at(image, s.end, &s);
    memset(item, 0, sizeof *item);
    item->tag = s.tag;
    item->place = s.place;
    item->length = s.end - s.data;
    item->known = is_known(list, s.tag);
    if (!item->known)
        return accept(0);
    const uint8_t *d = image + s.data;
    if (index_count(s.tag) >= 1)
        string_by_number(image, lent, list, d[0], &item->serial);
    if (s.tag == 0x01) {
        item->data = s.data;
        item->strings = string_count(image, list);
    } else if (s.tag == 0x11) {
        item->flags = d[0];
    } else if (s.tag == 0x60) {
        memcpy(item->address, d, 6);
    } else if (index_count(s.tag) == 2) {
        string_by_number(image, lent, list, d[1], &item->part);
        item->major = d[2];
        item->major_text[0] = (char)(d[2] < 0x80 ? '0' + d[2] / 10 : '0');
        item->major_text[1] = (char)(d[2] < 0x80 ? '0' + d[2] % 10 : 'A' + (d[2] - 0x80));
        item->minor = d[3];
        memcpy(item->characters, d + 4, 2);
        if (item->length == 8)
            item->batch = d[6] + 256u * d[7];
    }
    return accept(0);
}

static struct answer name(const uint8_t *image, size_t lent, unsigned list, uint8_t *buffer, size_t size) {
    struct answer judged = judge(image, lent, list);
    struct item item, serial = {0};
    unsigned serials = 0;
    if (judged.refusal)
        return judged;
    for (unsigned i = 0; i < judged.value; i++) {
        item_by_number(image, lent, list, i, &item);
        if (item.known && item.tag == 0x10) {
            serials++;
            serial = item;
        }
    }
    if (serials != 1 || !serial.serial.decodable)
        return refuse(44, 0);
    if (size < serial.serial.length)
        return refuse(43, 0);
    memcpy(buffer, serial.serial.bytes, serial.serial.length);
    return accept(serial.serial.length);
}

/* ---- the writer ---- */

/* How many bytes the items of a run take in an image. In a run each item has a length byte; in an image only those of long tags do. */
static struct answer size_of_run(const uint8_t *run, size_t length) {
    unsigned size = 0, number = 0;
    for (size_t at = 0; at < length; number++) {
        if (length - at < 2)
            return refuse(46, number); /* cut before the length byte */
        unsigned tag = run[at], data = run[at + 1];
        if (tag == 0x01)
            return refuse(46, number);
        if (tag >> 4 && data != tag >> 4)
            return refuse(46, number);
        if (length - at - 2 < data)
            return refuse(46, number); /* cut in the data */
        size += (tag >> 4 ? 1 : 2) + data;
        at += 2 + data;
    }
    return accept(size);
}

/* The image of a run and of the pool's data (null: no pool) goes to the front of a lent buffer. A refused call leaves the buffer alone. */
static struct answer write_image(const uint8_t *run, size_t run_length, const uint8_t *pool, size_t pool_length,
                                 uint8_t *buffer, size_t room) {
    struct answer items = size_of_run(run, run_length);
    if (items.refusal)
        return items;
    size_t length = HEADER + items.value + (pool ? 2 + pool_length : 0) + 1;
    if (length > LONGEST)
        return refuse(40, 0);
    if (length > room)
        return refuse(41, 0);
    uint8_t image[LONGEST] = {MAGIC, VERSION, (uint8_t)length};
    size_t to = HEADER, data;
    for (size_t at = 0; at < run_length; at += 2 + data) {
        data = run[at + 1];
        image[to++] = run[at];
        if (run[at] >> 4 == 0)
            image[to++] = run[at + 1];
        memcpy(image + to, run + at + 2, data);
        to += data;
    }
    if (pool) {
        image[to++] = 0x01;
        image[to++] = (uint8_t)pool_length;
        memcpy(image + to, pool, pool_length);
        to += pool_length;
    }
    image[to] = crc8(image, (unsigned)to);
    struct answer judged = judge(image, length, FULL_LIST);
    if (judged.refusal)
        return judged;
    memcpy(buffer, image, length);
    return accept((unsigned)length);
}

/* ---- printing ---- */

static void print_quoted(const char *bytes, unsigned length) {
    putchar('"');
    for (unsigned i = 0; i < length; i++) {
        if (bytes[i] == '"' || bytes[i] == '\\')
            putchar('\\');
        putchar(bytes[i]);
    }
    putchar('"');
}

static void print_text(const char *before, const struct text *text) {
    fputs(before, stdout);
    if (text->decodable)
        print_quoted(text->bytes, text->length);
    else
        fputs("undecodable", stdout);
}

/* the fields of a known item that is no pool, as the lister has them */
static void list_fields(const struct item *item) {
    const uint8_t *a = item->address;
    if (item->tag == 0x11)
        printf("flags %02Xh", item->flags);
    if (item->tag == 0x60)
        printf("address %02X:%02X:%02X:%02X:%02X:%02X", a[0], a[1], a[2], a[3], a[4], a[5]);
    if (index_count(item->tag) == 2)
        fputs("identity ", stdout);
    if (index_count(item->tag) >= 1)
        print_text("serial ", &item->serial);
    if (index_count(item->tag) == 2) {
        print_text(" part ", &item->part);
        printf(" major %.2s minor %02u characters ", item->major_text, item->minor);
        print_quoted(item->characters, 2);
        if (item->length == 8)
            printf(" batch %04u", item->batch);
    }
}

/* what the number of a refusal says: those of the judge and of the writer */
static const char *words_of(unsigned number) {
    switch (number) {
    case 1: return "fewer than 4 bytes";
    case 2: return "the first byte is not 56h";
    case 3: return "the version is not 2";
    case 4: return "the length byte is below 4 or above the number of bytes";
    case 5: return "the check byte is not the CRC-8 of the bytes before it";
    case 6: return "an item, or its length byte, does not end before the check byte";
    case 7: return "the long tag 00";
    case 8: return "the pool is not the last item";
    case 9: return "a pool byte is no character, or the last one has no end mark";
    case 10: return "an index is not below the string count";
    case 11: return "a major, minor, pair of characters or batch is out of range";
    case 40: return "the image would have over 255 bytes, or as a board over 65536";
    case 41: return "the lent buffer is too short for the image";
    case 46: return "an item's length is not its tag's, an item is a pool, or an item or record is cut short";
    default: return "";
    }
}

/* a refusal in words, without a newline */
static void print_refused(struct answer refused) {
    printf("refused %u at %u (%Xh): %s", refused.refusal, refused.place, refused.place, words_of(refused.refusal));
}

static void list_image(const uint8_t *image, size_t lent) {
    struct answer judged = judge(image, lent, FULL_LIST);
    struct item item;
    struct text text;
    if (judged.refusal) {
        print_refused(judged);
        putchar('\n');
        return;
    }
    printf("tiny %d items %u length %u\n", VERSION, judged.value, image[2]);
    for (unsigned i = 0; i < judged.value; i++) {
        item_by_number(image, lent, FULL_LIST, i, &item);
        printf("%u %02X ", item.place, item.tag);
        if (!item.known) {
            printf("unknown length %u\n", item.length);
        } else if (item.tag == 0x01) {
            printf("pool strings %u\n", item.strings);
            for (unsigned n = 0; n < item.strings; n++) {
                string_by_number(image, lent, FULL_LIST, n, &text);
                printf("  %u", n);
                print_text(" ", &text);
                putchar('\n');
            }
        } else {
            list_fields(&item);
            putchar('\n');
        }
    }
}

/* ---- every answer, in the form of tests/README.md ---- */

static void print_hex(const char *before, const void *bytes, unsigned length) {
    fputs(before, stdout);
    for (unsigned i = 0; i < length; i++)
        printf("%02X", ((const uint8_t *)bytes)[i]);
}

static void answer_text(const char *before, const struct text *text) {
    fputs(before, stdout);
    if (text->decodable)
        print_hex("text ", text->bytes, text->length);
    else
        fputs("undecodable", stdout);
}

static void answer_fields(const struct item *item) {
    if (item->tag == 0x01)
        printf("strings %u data %u %u", item->strings, item->data, item->length);
    if (item->tag == 0x11)
        printf("flags %02X", item->flags);
    if (item->tag == 0x60)
        print_hex("address ", item->address, 6);
    if (index_count(item->tag) >= 1)
        answer_text("serial ", &item->serial);
    if (index_count(item->tag) == 2) {
        answer_text(" part ", &item->part);
        printf(" major %02X", item->major);
        print_hex(" shown ", item->major_text, 2);
        printf(" minor %u", item->minor);
        print_hex(" characters ", item->characters, 2);
        if (item->length == 8)
            printf(" batch %u", item->batch);
    }
}

/* true, and printed, if the answer is a refusal */
static bool print_refusal(struct answer answer) {
    if (answer.refusal)
        printf("refused %u %u", answer.refusal, answer.place);
    return answer.refusal != 0;
}

/* what is shown of an item, as asked by its number */
static void answer_shown(const uint8_t *image, size_t lent, unsigned list, size_t i) {
    struct item item;
    if (print_refusal(item_by_number(image, lent, list, i, &item)))
        return;
    printf("tag %02X place %u length %u ", item.tag, item.place, item.length);
    if (item.known)
        answer_fields(&item);
    else
        fputs("unknown", stdout);
}

/* item i, and step i of a walk: "step i (from 0) shows item i as asked by number .., and the step at the count says that none is left" */
static void answer_item(const uint8_t *image, size_t lent, unsigned list, size_t i) {
    struct answer judged = judge(image, lent, list);
    printf("\nitem %zu ", i);
    answer_shown(image, lent, list, i);
    printf("\nstep %zu ", i);
    if (!judged.refusal && i >= judged.value)
        fputs("none left", stdout);
    else
        answer_shown(image, lent, list, i);
}

static void answer_string(const uint8_t *image, size_t lent, unsigned list, size_t i) {
    struct text text;
    printf("\nstring %zu ", i);
    if (!print_refusal(string_by_number(image, lent, list, i, &text)))
        answer_text("", &text);
}

/* the items and the strings, each up to its count and then at numbers far past it */
static void answer_numbers(const uint8_t *image, size_t lent, unsigned list, struct answer judged) {
    static const size_t far[2] = {(size_t)1 << 32, SIZE_MAX};
    size_t strings = judged.refusal ? 0 : string_count(image, list);
    for (size_t i = 0; i <= judged.value; i++)
        answer_item(image, lent, list, i);
    for (int i = 0; i < 2; i++)
        answer_item(image, lent, list, far[i]);
    for (size_t i = 0; i <= strings + 1; i++)
        answer_string(image, lent, list, i);
    for (int i = 0; i < 2; i++)
        answer_string(image, lent, list, far[i]);
}

static void all_answers(const uint8_t *image, size_t lent, unsigned list) {
    static const unsigned sizes[4] = {0, 3, 4, 255};
    struct answer judged = judge(image, lent, list);
    if (!print_refusal(judged))
        printf("accepted %u", judged.value);
    answer_numbers(image, lent, list, judged);
    for (int i = 0; i < 4; i++) {
        uint8_t buffer[255];
        memset(buffer, 0xAA, sizeof buffer);
        struct answer named = name(image, lent, list, buffer, sizes[i]);
        printf("\nname %u ", sizes[i]);
        if (!print_refusal(named))
            printf("length %u", named.value);
        print_hex(" ", buffer, sizes[i] < 8 ? 8 : sizes[i]);
    }
    putchar('\n');
}

/* Lends a copy that is exactly as large as what is lent, so that a build with the address sanitizer notices a read past it. */
static bool lend(const uint8_t *bytes, size_t lent, bool list, unsigned mask) {
    uint8_t *image = malloc(lent ? lent : 1);
    if (!image)
        return false;
    memcpy(image, bytes, lent);
    if (list)
        list_image(image, lent);
    else
        all_answers(image, lent, mask);
    free(image);
    return true;
}

/* each record: the list, the image's length in two bytes, its bytes; a record cut short ends the run */
static bool answer_records(const uint8_t *input, size_t length) {
    size_t at = 0;
    while (length - at >= 3) {
        size_t lent = input[at + 1] + 256u * input[at + 2];
        if (length - at - 3 < lent)
            break;
        printf("list %u\n", input[at]);
        if (!lend(input + at + 3, lent, false, input[at]))
            return false;
        at += 3 + lent;
    }
    return true;
}

/* ---- the writer's requests, in the form of tests/README.md ---- */

enum { MOST = 1024 };

/* the bytes of a run or of a pool */
struct part {
    size_t length;
    uint8_t bytes[MOST];
};

struct request {
    size_t room;
    struct part run, pool;
    bool has_pool;
};

/* the value of a hexadecimal digit, or 16 */
static unsigned hex_digit(uint8_t c) {
    if (c >= '0' && c <= '9')
        return c - '0';
    if (c >= 'A' && c <= 'F')
        return c - 'A' + 10u;
    if (c >= 'a' && c <= 'f')
        return c - 'a' + 10u;
    return 16;
}

/* Reads bytes up to a semicolon or the end of the line, and moves there. */
static bool parse_part(const uint8_t *line, size_t length, size_t *at, struct part *part) {
    part->length = 0;
    while (*at < length && line[*at] != ';') {
        if (line[*at] == ' ') {
            *at += 1;
            continue;
        }
        if (length - *at < 2 || part->length == MOST)
            return false;
        unsigned high = hex_digit(line[*at]), low = hex_digit(line[*at + 1]);
        if (high > 15 || low > 15)
            return false;
        part->bytes[part->length++] = (uint8_t)(16 * high + low);
        *at += 2;
    }
    return true;
}

static size_t past_blanks(const uint8_t *line, size_t length, size_t at) {
    while (at < length && line[at] == ' ')
        at++;
    return at;
}

static bool parse_request(const uint8_t *line, size_t length, struct request *request) {
    size_t at = past_blanks(line, length, 0), first = at;
    request->room = 0;
    for (; at < length && line[at] >= '0' && line[at] <= '9'; at++) {
        request->room = 10 * request->room + (line[at] - '0');
        if (request->room > MOST)
            return false;
    }
    if (at == first)
        return false;
    at = past_blanks(line, length, at);
    if (at == length || line[at] != ';')
        return false;
    at++;
    if (!parse_part(line, length, &at, &request->run))
        return false;
    request->has_pool = at < length; /* a second semicolon */
    if (!request->has_pool)
        return true;
    at++;
    return parse_part(line, length, &at, &request->pool) && at == length;
}

static void print_spaced(const uint8_t *bytes, size_t length) {
    for (size_t i = 0; i < length; i++)
        printf(" %02X", bytes[i]);
}

/* a copy that is exactly as large as what is lent */
static uint8_t *lent_copy(const struct part *part) {
    uint8_t *copy = malloc(part->length ? part->length : 1);
    if (copy)
        memcpy(copy, part->bytes, part->length);
    return copy;
}

static bool answer_request(const struct request *request) {
    uint8_t *run = lent_copy(&request->run);
    uint8_t *pool = request->has_pool ? lent_copy(&request->pool) : NULL;
    uint8_t *buffer = malloc(request->room ? request->room : 1);
    bool lent = run && buffer && (pool || !request->has_pool);
    if (lent) {
        memset(buffer, 0xAA, request->room);
        struct answer written = write_image(run, request->run.length, pool, request->has_pool ? request->pool.length : 0,
                                            buffer, request->room);
        if (written.refusal) {
            print_refused(written);
        } else {
            printf("length %u:", written.value);
            print_spaced(buffer, written.value);
        }
        if (request->room > written.value) {
            fputs("; rest", stdout);
            print_spaced(buffer + written.value, request->room - written.value);
        }
        putchar('\n');
    }
    free(run);
    free(pool);
    free(buffer);
    return lent;
}

/* each line: a request; empty lines are skipped, and the last one may lack its newline */
static bool answer_requests(const uint8_t *input, size_t length) {
    static struct request request;
    size_t end;
    for (size_t at = 0; at < length; at = end + 1) {
        for (end = at; end < length && input[end] != '\n';)
            end++;
        if (end == at)
            continue;
        if (!parse_request(input + at, end - at, &request))
            puts("not a request");
        else if (!answer_request(&request))
            return false;
    }
    return true;
}

int main(int argc, char **argv) {
    const char *command = argc == 2 ? argv[1] : "";
    bool list = strcmp(command, "list") == 0, answers = strcmp(command, "answers") == 0, writes = strcmp(command, "write") == 0;
    if (!list && !answers && !writes) {
        fputs("usage: tiny list | tiny answers | tiny write, input on standard input\n", stderr);
        return 2;
    }
    static uint8_t input[65536];
    size_t length = fread(input, 1, sizeof input, stdin);
    if (ferror(stdin))
        return 3;
    if (!(list ? lend(input, length, true, FULL_LIST) : answers ? answer_records(input, length) : answer_requests(input, length)))
        return 3;
    return fflush(stdout) || ferror(stdout) ? 3 : 0;
}
