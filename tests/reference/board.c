/*
 * A reader, lister and writer of board images in C, to hold the Rattle code against. tests/README.md says what it was written from.
 *
 *     board list < image         the listing of docs/LISTING.md, full list
 *     board answers < records    every answer, for a run of images with their lists
 *     board write < requests     the image of each request, or why there is none (board_write.c)
 *     board choice < records     which of two images is chosen, for a run of pairs with their lists (board_write.c)
 *
 * tests/README.md has the forms. Exit: 0 whenever it answered, 2 on a wrong command line, 3 if standard input or output failed or there
 * was too much input.
 */
#include "board.h"

#include <stdio.h>
#include <stdlib.h>
#include <string.h>

enum { ASKED = 24 }; /* items asked for by number, besides the one at the count */

#define NOWHERE UINT32_MAX /* the place of a rule that is not broken */

/* ---- the tables of layout paper 000, without the generic head; Crc32 is never shown and so is not here ---- */

/* how a listing writes a field; the answers have runs of bytes as bytes and all else as decimal numbers */
enum form { DECIMAL, HEX, NAME, LABELLED, COLONS };

struct field {
    const char *name;
    unsigned at, size;
    enum form form;
};

/* Every fixed part, and every record, ends in its reserved bytes; but those of the header follow its fixed part, and a Length may leave
   them out. Places are counted from the structure's or the record's start. */
struct kind {
    char signature[9];        /* eight bytes; a shorter one ends in zeros */
    int bit;                  /* its bit in a list, or EVERY: it counts as on every list */
    unsigned fixed;           /* where the fixed part ends */
    unsigned reserved, end;   /* where the reserved bytes start and end */
    const char *data;         /* what follows the fixed part: its name, "records", or null if nothing follows */
    unsigned record_size, record_reserved;
    struct field fields[8], record[8]; /* at most seven; one without a name ends them */
};

enum { EVERY = -1 };
enum { EEPROM, MAP, BOARD, PROMSIG, ACPI, FPGA, GPIO, CODEC, LOGO, MEMORY, NIC, UCODE, VIDEO, KINDS };

static const struct kind kinds[KINDS] = {
    [EEPROM] = {"$Eeprom$", EVERY, 0x20, 0x20, 0x30, NULL, 0, 0,
                {{"StructLen", 0x10, 4, DECIMAL}, {"CrcLength", 0x18, 4, DECIMAL}, {"Version", 0x1C, 4, DECIMAL}}, {{0}}},
    [MAP] = {"$EeprMap", EVERY, 0x30, 0x2D, 0x30, "records", 0x20, 0x19,
             {{"PartLabel", 0x10, LABEL, LABELLED}, {"BlkLength", 0x20, 4, DECIMAL}, {"PageSize", 0x24, 2, DECIMAL},
              {"PartSize", 0x26, 4, DECIMAL}, {"BusNumber", 0x2A, 1, DECIMAL}, {"Master", 0x2B, 1, DECIMAL},
              {"Speed", 0x2C, 1, DECIMAL}},
             {{"MapLabel", 0x00, LABEL, LABELLED}, {"Length", 0x10, 4, DECIMAL}, {"Offset", 0x14, 4, DECIMAL},
              {"Address", 0x18, 1, HEX}}},
    [BOARD] = {"$BrdInfo", EVERY, 0x60, 0x4D, 0x60, NULL, 0, 0,
               {{"ManuName", 0x10, LABEL, NAME}, {"BrdName", 0x20, LABEL, NAME}, {"BrdSerial", 0x30, LABEL, NAME},
                {"BoardId", 0x40, 4, HEX}, {"FabId", 0x44, 4, HEX}, {"EcId", 0x48, 4, HEX}, {"BoardType", 0x4C, 1, DECIMAL}},
               {{0}}},
    [PROMSIG] = {"$PromSig", EVERY, 0x20, 0x12, 0x20, "EepromSig", 0, 0, {{"HashType", 0x10, 2, HEX}}, {{0}}},
    [ACPI] = {"$AcpiTbl", 8, 0x20, 0x10, 0x20, "AcpiTbl", 0, 0, {{0}}, {{0}}},
    [FPGA] = {"$FPGAnfo", 9, 0x20, 0x13, 0x20, "FpgaData", 0, 0,
              {{"DataType", 0x10, 1, DECIMAL}, {"DevNum", 0x11, 1, DECIMAL}, {"FuncNum", 0x12, 1, DECIMAL}}, {{0}}},
    [GPIO] = {"$GpioDat", 10, 0x20, 0x10, 0x20, "records", 0x30, 0x22, {{0}},
              {{"GpioLabel", 0x00, LABEL, LABELLED}, {"Length", 0x10, 4, DECIMAL}, {"Offset", 0x14, 4, DECIMAL},
               {"AndData", 0x18, 4, HEX}, {"OrData", 0x1C, 4, HEX}, {"DataSize", 0x20, 1, DECIMAL},
               {"DataType", 0x21, 1, DECIMAL}}},
    [CODEC] = {"$HdCodec", 11, 0x20, 0x10, 0x20, "HdaCodec", 0, 0, {{0}}, {{0}}},
    [LOGO] = {"$Logo$", 12, 0x20, 0x10, 0x20, "LogoData", 0, 0, {{0}}, {{0}}},
    [MEMORY] = {"$MemCnfg", 13, 0x20, 0x12, 0x20, "MemData", 0, 0, {{"SpdSlot", 0x10, 2, HEX}}, {{0}}},
    [NIC] = {"$MacInfo", 14, 0x30, 0x20, 0x30, "NicData", 0, 0,
             {{"NicId", 0x10, 8, NAME}, {"MacAddr", 0x18, 6, COLONS}, {"NicNum", 0x1E, 2, DECIMAL}}, {{0}}},
    [UCODE] = {"$uCode$", 15, 0x20, 0x10, 0x20, "UcodeData", 0, 0, {{0}}, {{0}}},
    [VIDEO] = {"$Video$", 16, 0x20, 0x10, 0x20, "VideoData", 0, 0, {{0}}, {{0}}},
};

/* what codes mean, from 0 on; a signed hash has HashType's bit 15 set */
static const struct code {
    unsigned kind;
    const char *field, *meanings[6];
} codes[] = {
    {MAP, "Speed", {"Unknown", "100KHz (Standard speed)", "400KHz (Fast speed)", "3.4MHz (High speed)"}},
    {BOARD, "BoardType", {"Main board", "Plug-in board"}},
    {PROMSIG, "HashType", {"None", "MD5", "SHA-1", "SHA-256", "SHA-384", "SHA-512"}},
    {FPGA, "DataType", {"Unknown", "UART", "I2C", "SPI", "PCI"}},
    {GPIO, "DataType", {"IO", "MMIO", "PCI", "PCIe", "PAD Offset"}},
};

/* ---- the parts of an image ---- */

/* a number of one to four bytes, low byte first */
static uint32_t number(const struct board *b, uint32_t at, unsigned size) {
    uint32_t value = 0;
    for (unsigned i = size; i > 0; i--)
        value = value << 8 | b->image[at + i - 1];
    return value;
}

static uint32_t round_up(uint32_t place) {
    return (place + 15) / 16 * 16;
}

static const struct kind *kind_at(const struct board *b, uint32_t place) {
    for (unsigned k = 0; k < KINDS; k++)
        if (memcmp(b->image + place, kinds[k].signature, 8) == 0)
            return &kinds[k];
    return NULL;
}

static bool is(const struct span *s, unsigned kind) {
    return s->kind == &kinds[kind];
}

static uint32_t major_of(const struct board *b, const struct span *s) {
    return number(b, s->place + 0x08, 2);
}

static uint32_t minor_of(const struct board *b, const struct span *s) {
    return number(b, s->place + 0x0A, 2);
}

/* A listed structure is known only with VerMajor 1; that of the four others is for rules 21 and 26. */
static bool is_known(const struct board *b, const struct span *s) {
    if (!s->kind)
        return false;
    return s->kind->bit == EVERY || ((b->list >> s->kind->bit & 1) && major_of(b, s) == 1);
}

const struct span *signature_of(const struct board *b) {
    const struct span *last = &b->spans[b->count - 1];
    return is(last, PROMSIG) ? last : NULL;
}

/* how many whole records follow the fixed part; 0 if the kind has none */
static unsigned record_count(const struct span *s) {
    if (!s->kind->record_size || s->length < s->kind->fixed)
        return 0;
    return (s->length - s->kind->fixed) / s->kind->record_size;
}

static uint32_t record_place(const struct span *s, unsigned record) {
    return s->place + s->kind->fixed + record * s->kind->record_size;
}

uint32_t crc32(const struct board *b, uint32_t count) {
    uint32_t crc = 0xFFFFFFFF;
    for (uint32_t i = 0; i < count; i++) {
        crc ^= i >= 0x14 && i < 0x18 ? 0 : b->image[i];
        for (int bit = 0; bit < 8; bit++)
            crc = crc & 1 ? crc >> 1 ^ 0xEDB88320 : crc >> 1;
    }
    return ~crc;
}

/* The place of a label's bad byte, the first that no good label with the same beginning has. */
static uint32_t label_broken_at(const struct board *b, uint32_t place) {
    bool ended = false;
    for (uint32_t at = place; at < place + LABEL; at++) {
        uint8_t byte = b->image[at];
        if (ended ? byte != 0 : byte < 0x20 || byte > 0x7E)
            return at;
        ended = ended || byte == '$';
    }
    return NOWHERE;
}

/* ---- the rules: each answers the smallest place where it is broken, or NOWHERE, and counts on those before it ---- */

static uint32_t rule_20(struct board *b) {
    return b->lent < SHORT_HEADER || b->lent > LONGEST ? 0 : NOWHERE;
}

static uint32_t rule_21(struct board *b) {
    b->header = number(b, 0x0C, 4);
    bool good = kind_at(b, 0) == &kinds[EEPROM] && number(b, 0x08, 2) == 1 && is_header(b->header);
    return good ? NOWHERE : 0;
}

static uint32_t rule_22(struct board *b) {
    b->length = number(b, 0x10, 4);
    return b->length < b->header || b->length > b->lent ? 0x10 : NOWHERE;
}

/* The walk: at an end that is not StructLen another structure is due, at that end rounded up. It may be due past StructLen. */
static uint32_t rule_23(struct board *b) {
    uint32_t end = b->header;
    b->spans[0] = (struct span){0, b->header, &kinds[EEPROM]};
    for (b->count = 1; end != b->length; b->count++) {
        uint32_t place = round_up(end);
        if (place + HEAD > b->length || b->image[place] != '$')
            return place;
        uint32_t length = number(b, place + 0x0C, 4);
        if (length < HEAD || length > b->length - place)
            return place;
        b->spans[b->count] = (struct span){place, length, kind_at(b, place)};
        end = place + length;
    }
    return NOWHERE;
}

static uint32_t rule_24(struct board *b) {
    for (unsigned i = 0; i + 1 < b->count; i++)
        for (uint32_t at = b->spans[i].place + b->spans[i].length; at < b->spans[i + 1].place; at++)
            if (b->image[at] != 0)
                return at;
    return NOWHERE;
}

/* by signatures alone, whatever their versions */
static uint32_t rule_25(struct board *b) {
    for (unsigned i = 1; i < b->count; i++) {
        const struct span *s = &b->spans[i];
        bool first = is(s, EEPROM) || is(s, MAP) || is(s, BOARD);
        bool good = i == 1 ? is(s, MAP) : i == 2 ? is(s, BOARD) : !first;
        if (is(s, PROMSIG) && i + 1 < b->count)
            good = false;
        if (!good)
            return s->place;
    }
    return b->count < 3 ? b->length : NOWHERE;
}

static uint32_t rule_26(struct board *b) {
    const struct span *map = &b->spans[1], *board = &b->spans[2], *sig = signature_of(b);
    if (major_of(b, map) != 1 || map->length < 0x50 || (map->length - 0x30) % 0x20 != 0)
        return map->place;
    if (major_of(b, board) != 1 || board->length != 0x60)
        return board->place;
    if (sig && (major_of(b, sig) != 1 || sig->length < 0x20))
        return sig->place;
    return NOWHERE;
}

uint32_t summed_length(const struct board *b) {
    const struct span *sig = signature_of(b);
    return sig ? sig->place + 0x20 : b->length;
}

static uint32_t rule_27(struct board *b) {
    uint32_t expected = summed_length(b);
    if (number(b, 0x14, 4) != crc32(b, expected))
        return 0x14;
    return number(b, 0x18, 4) != expected ? 0x18 : NOWHERE;
}

static uint32_t rule_28(struct board *b) {
    const struct span *board = &b->spans[2];
    return board->place + board->length > 4096 ? board->place : NOWHERE;
}

static uint32_t rule_29(struct board *b) {
    static const unsigned sizes[6] = {0x00, 0x10, 0x14, 0x20, 0x30, 0x40};
    const struct span *sig = signature_of(b);
    if (!sig)
        return NOWHERE;
    uint32_t hash = number(b, sig->place + 0x10, 2), type = hash & 0x7FFF;
    bool is_signed = hash & 0x8000, good = false;
    if (type <= 5 && !is_signed)
        good = sig->length == 0x20 + sizes[type];
    if (type >= 1 && type <= 3 && is_signed)
        good = sig->length >= 0x20 + sizes[type];
    return good ? NOWHERE : sig->place + 0x10;
}

/* field by field in the order of their places */
static uint32_t rule_30(struct board *b) {
    const struct span *map = &b->spans[1];
    uint32_t at = map->place, bad = label_broken_at(b, at + 0x10);
    if (bad != NOWHERE)
        return bad;
    uint64_t block = number(b, at + 0x20, 4), size = number(b, at + 0x26, 4);
    if (block == 0)
        return at + 0x20;
    if (size != record_count(map) * block || size < b->length)
        return at + 0x26;
    if (b->image[at + 0x2B] > 1)
        return at + 0x2B;
    if (b->image[at + 0x2C] > 3)
        return at + 0x2C;
    for (unsigned k = 0; k < record_count(map); k++) {
        uint32_t record = record_place(map, k);
        bad = label_broken_at(b, record);
        if (bad != NOWHERE)
            return bad;
        if (number(b, record + 0x10, 4) != 0x20)
            return record + 0x10;
        if (number(b, record + 0x14, 4) != k * block)
            return record + 0x14;
        if (b->image[record + 0x18] > 0x7F)
            return record + 0x18;
    }
    return NOWHERE;
}

/* The sixteen bytes are compared, so two empty labels are the same too; PartLabel is no record's. */
static uint32_t rule_34(struct board *b) {
    const struct span *map = &b->spans[1];
    for (unsigned k = 1; k < record_count(map); k++)
        for (unsigned earlier = 0; earlier < k; earlier++)
            if (memcmp(b->image + record_place(map, k), b->image + record_place(map, earlier), LABEL) == 0)
                return record_place(map, k);
    return NOWHERE;
}

static uint32_t rule_31(struct board *b) {
    uint32_t type = b->spans[2].place + 0x4C;
    return b->image[type] > 1 ? type : NOWHERE;
}

static uint32_t first_nonzero(const struct board *b, uint32_t from, uint32_t to) {
    for (uint32_t at = from; at < to; at++)
        if (b->image[at] != 0)
            return at;
    return NOWHERE;
}

/* Reserved bytes that are not wholly within their structure's Length are not read: rule 33 answers for them, and the short header has
   none. */
static uint32_t rule_32(struct board *b) {
    for (unsigned i = 0; i < b->count; i++) {
        const struct span *s = &b->spans[i];
        if (!is_known(b, s) || minor_of(b, s) != 0 || s->length < s->kind->end)
            continue;
        uint32_t bad = first_nonzero(b, s->place + s->kind->reserved, s->place + s->kind->end);
        for (unsigned k = 0; k < record_count(s) && bad == NOWHERE; k++)
            bad = first_nonzero(b, record_place(s, k) + s->kind->record_reserved, record_place(s, k + 1));
        if (bad != NOWHERE)
            return bad;
    }
    return NOWHERE;
}

static uint32_t gpio_record_broken_at(const struct board *b, uint32_t record) {
    uint32_t bad = label_broken_at(b, record);
    if (bad != NOWHERE)
        return bad;
    if (number(b, record + 0x10, 4) != 0x30)
        return record + 0x10;
    uint8_t size = b->image[record + 0x20];
    if (size != 1 && size != 2 && size != 4)
        return record + 0x20;
    return b->image[record + 0x21] > 4 ? record + 0x21 : NOWHERE;
}

/* The fixed parts of the header, the map, the board and $PromSig are there by rules 21 and 26. */
static uint32_t rule_33(struct board *b) {
    for (unsigned i = 0; i < b->count; i++) {
        const struct span *s = &b->spans[i];
        if (!is_known(b, s))
            continue;
        if (s->length < s->kind->fixed)
            return s->place;
        if (is(s, FPGA) && b->image[s->place + 0x10] > 4)
            return s->place + 0x10;
        if (!is(s, GPIO))
            continue;
        if ((s->length - 0x20) % 0x30 != 0)
            return s->place;
        for (unsigned k = 0; k < record_count(s); k++) {
            uint32_t bad = gpio_record_broken_at(b, record_place(s, k));
            if (bad != NOWHERE)
                return bad;
        }
    }
    return NOWHERE;
}

/* The first of the list that is broken is told: 34 comes after 30 and before 31. Everything below asks what was found here. */
void judge(struct board *b, const uint8_t *image, size_t lent, uint32_t list) {
    static const struct {
        unsigned number;
        uint32_t (*broken_at)(struct board *);
    } rules[] = {{20, rule_20}, {21, rule_21}, {22, rule_22}, {23, rule_23}, {24, rule_24}, {25, rule_25}, {26, rule_26}, {27, rule_27},
                 {28, rule_28}, {29, rule_29}, {30, rule_30}, {34, rule_34}, {31, rule_31}, {32, rule_32}, {33, rule_33}};
    b->image = image;
    b->lent = lent;
    b->list = list;
    for (unsigned i = 0; i < sizeof rules / sizeof *rules; i++) {
        uint32_t place = rules[i].broken_at(b);
        if (place != NOWHERE) {
            b->judged = refuse(rules[i].number, place);
            return;
        }
    }
    b->judged = accept(b->count);
}

/* ---- items and records by number; the image's own refusal comes first ---- */

static struct answer item_by_number(const struct board *b, size_t i, const struct span **item) {
    if (b->judged.refusal)
        return b->judged;
    if (i >= b->count)
        return refuse(42, 0);
    *item = &b->spans[i];
    return accept(0);
}

/* Record k of item i, if that is a known structure of a kind. */
static struct answer record_by_number(const struct board *b, unsigned kind, size_t i, size_t k, uint32_t *record) {
    const struct span *item;
    struct answer found = item_by_number(b, i, &item);
    if (found.refusal)
        return found;
    if (!is(item, kind) || !is_known(b, item) || k >= record_count(item))
        return refuse(42, 0);
    *record = record_place(item, (uint32_t)k);
    return accept(0);
}

/* ---- the lister ---- */

/* A space stands for itself only inside quotation marks. */
static void print_escaped(const uint8_t *bytes, unsigned length, bool quoted) {
    for (unsigned i = 0; i < length; i++) {
        if (bytes[i] == '"' || bytes[i] == '\\')
            printf("\\%c", bytes[i]);
        else if ((bytes[i] > 0x20 && bytes[i] <= 0x7E) || (quoted && bytes[i] == 0x20))
            putchar(bytes[i]);
        else
            printf("\\x%02X", bytes[i]);
    }
}

static unsigned without_zeros(const uint8_t *bytes, unsigned length) {
    while (length > 0 && bytes[length - 1] == 0)
        length--;
    return length;
}

/* A good label, up to its '$' or, without one, to its end. */
static unsigned label_length(const uint8_t *label) {
    const uint8_t *dollar = memchr(label, '$', LABEL);
    return dollar ? (unsigned)(dollar - label) : LABEL;
}

static void list_value(const struct board *b, uint32_t start, const struct field *f) {
    uint32_t at = start + f->at;
    const uint8_t *bytes = b->image + at;
    switch (f->form) {
    case DECIMAL:
        printf("%u", number(b, at, f->size));
        break;
    case HEX:
        printf("%0*Xh", (int)(2 * f->size), number(b, at, f->size));
        break;
    case NAME: case LABELLED:
        putchar('"');
        print_escaped(bytes, f->form == NAME ? without_zeros(bytes, f->size) : label_length(bytes), true);
        putchar('"');
        break;
    case COLONS:
        for (unsigned i = 0; i < f->size; i++)
            printf(i ? ":%02X" : "%02X", bytes[i]);
        break;
    }
}

/* what the value of a field means, if it is a code; a code of an accepted image has a meaning, by rules 29 to 31 and 33 */
static void list_meaning(const struct board *b, const struct span *s, uint32_t start, const struct field *f) {
    for (unsigned i = 0; i < sizeof codes / sizeof *codes; i++) {
        if (!is(s, codes[i].kind) || strcmp(f->name, codes[i].field) != 0)
            continue;
        uint32_t value = number(b, start + f->at, f->size);
        printf(" = %s%s", codes[i].meanings[value & 0x7FFF], value & 0x8000 ? ", signed" : "");
    }
}

static void list_record(const struct board *b, const struct span *s, unsigned k) {
    const struct field *f = s->kind->record;
    printf("    %u ", k);
    list_value(b, record_place(s, k), f); /* the label, without its name */
    for (f++; f->name; f++) {
        printf(" %s ", f->name);
        list_value(b, record_place(s, k), f);
        list_meaning(b, s, record_place(s, k), f);
    }
    putchar('\n');
}

static void print_place(uint32_t place) {
    printf("%u (%Xh)", place, place);
}

static void list_item(const struct board *b, const struct span *s) {
    print_place(s->place);
    putchar(' ');
    print_escaped(b->image + s->place, without_zeros(b->image + s->place, 8), false);
    if (!is_known(b, s)) {
        printf(" unknown length %u\n", s->length - HEAD);
        return;
    }
    printf(" %u.%u Length %u\n", major_of(b, s), minor_of(b, s), s->length);
    for (const struct field *f = s->kind->fields; f->name; f++) {
        printf("  %s ", f->name);
        list_value(b, s->place, f);
        list_meaning(b, s, s->place, f);
        putchar('\n');
    }
    if (s->kind->record_size) {
        printf("  %s %u\n", s->kind->data, record_count(s));
    } else if (s->kind->data) {
        printf("  %s at ", s->kind->data);
        print_place(s->place + s->kind->fixed);
        printf(" length %u\n", s->length - s->kind->fixed);
    }
    for (unsigned k = 0; k < record_count(s); k++)
        list_record(b, s, k);
}

/* what the number of a refusal says: those of the judge and of the writer */
static const char *words_of(unsigned number) {
    switch (number) {
    case 20: return "fewer than 32 bytes, or more than 65536";
    case 21: return "the header has another signature, VerMajor or Length";
    case 22: return "StructLen is below the header's Length or above the number of bytes";
    case 23: return "no structure where one is due";
    case 24: return "a byte between structures is not zero";
    case 25: return "a structure is missing, or in the wrong order";
    case 26: return "the map, the board or the signature structure has a wrong VerMajor or Length";
    case 27: return "Crc32 or CrcLength is not what it should be";
    case 28: return "the board structure ends past 4096";
    case 29: return "HashType is not one that is known, or Length does not fit it";
    case 30: return "a field of the map is wrong";
    case 31: return "BoardType is above 1";
    case 32: return "a reserved byte is not zero";
    case 33: return "a structure is too short, or a field of it is wrong";
    case 34: return "two map records have the same label";
    case 40: return "the image would have over 255 bytes, or as a board over 65536";
    case 41: return "the lent buffer is too short for the image";
    case 45: return "the further bytes have a $PromSig, which no writer makes";
    case 46: return "an item's length is not its tag's, an item is a pool, or an item or record is cut short";
    default: return "";
    }
}

void print_refused(struct answer refused) {
    printf("refused %u at ", refused.refusal);
    print_place(refused.place);
    printf(": %s", words_of(refused.refusal));
}

static void list_image(const struct board *b) {
    if (b->judged.refusal) {
        print_refused(b->judged);
        putchar('\n');
        return;
    }
    printf("board 1 items %u length %u version %u\n", b->count, b->length, number(b, 0x1C, 4));
    for (unsigned i = 0; i < b->count; i++)
        list_item(b, &b->spans[i]);
}

/* ---- every answer, in the form of tests/README.md ---- */

static void print_hex(const uint8_t *bytes, unsigned length) {
    for (unsigned i = 0; i < length; i++)
        printf("%02X", bytes[i]);
}

static void answer_fields(const struct board *b, uint32_t start, const struct field *fields) {
    for (const struct field *f = fields; f->name; f++) {
        printf(" %s ", f->name);
        if (f->form == DECIMAL || f->form == HEX)
            printf("%u", number(b, start + f->at, f->size));
        else
            print_hex(b->image + start + f->at, f->size);
    }
}

/* true, and printed, if the answer is a refusal */
static bool print_refusal(struct answer answer) {
    if (answer.refusal)
        printf(" refused %u %u\n", answer.refusal, answer.place);
    return answer.refusal != 0;
}

/* what is shown of an item, as asked by its number */
static void answer_shown(const struct board *b, size_t i) {
    const struct span *s;
    if (print_refusal(item_by_number(b, i, &s)))
        return;
    printf(" kind ");
    print_hex(b->image + s->place, 8);
    printf(" place %u length %u", s->place, s->length - HEAD);
    if (!is_known(b, s)) {
        puts(" unknown");
        return;
    }
    printf(" major %u minor %u Length %u", major_of(b, s), minor_of(b, s), s->length);
    answer_fields(b, s->place, s->kind->fields);
    if (s->kind->data)
        printf(" data %u %u", s->place + s->kind->fixed, s->length - s->kind->fixed);
    putchar('\n');
}

/* item i, and step i of a walk: "step i (from 0) shows item i as asked by number .., and the step at the count says that none is left" */
static void answer_item(const struct board *b, size_t i) {
    printf("item %zu", i);
    answer_shown(b, i);
    printf("step %zu", i);
    if (!b->judged.refusal && i >= b->judged.value)
        puts(" none left");
    else
        answer_shown(b, i);
}

/* record k of item i; whether there is one */
static bool answer_record(const struct board *b, unsigned kind, size_t i, size_t k) {
    uint32_t record;
    if (kind == GPIO)
        printf("gpio %zu %zu", i, k);
    else
        printf("map %zu", k);
    if (print_refusal(record_by_number(b, kind, i, k, &record)))
        return false;
    answer_fields(b, record, kinds[kind].record);
    putchar('\n');
    return true;
}

static const size_t far[2] = {(size_t)1 << 32, SIZE_MAX}; /* numbers that nothing has */

/* the records of item i, up to the first that is refused, and at numbers far past it */
static void answer_records_of(const struct board *b, unsigned kind, size_t i) {
    for (size_t k = 0; answer_record(b, kind, i, k); k++)
        ;
    for (int k = 0; k < 2; k++)
        answer_record(b, kind, i, far[k]);
}

/* item i, and its GPIO records */
static void answer_whole_item(const struct board *b, size_t i) {
    answer_item(b, i);
    answer_records_of(b, GPIO, i);
}

static void answer_judge(const struct board *b) {
    printf("list %u\n", b->list);
    if (b->judged.refusal)
        printf("refused %u %u\n", b->judged.refusal, b->judged.place);
    else
        printf("accepted %u\n", b->judged.value);
}

static void all_answers(const struct board *b) {
    unsigned count = b->judged.value; /* 0 of a refused image */
    answer_judge(b);
    for (unsigned i = 0; i < count && i < ASKED; i++)
        answer_whole_item(b, i);
    answer_whole_item(b, count);
    for (int i = 0; i < 2; i++)
        answer_whole_item(b, far[i]);
    answer_records_of(b, MAP, 1);
}

/* Lends a copy that is exactly as large as what is lent, so that a build with the address sanitizer notices a read past it. */
static bool lend(const uint8_t *bytes, size_t lent, uint32_t list, void (*answer)(const struct board *)) {
    static struct board board;
    uint8_t *image = malloc(lent ? lent : 1);
    if (!image)
        return false;
    memcpy(image, bytes, lent);
    judge(&board, image, lent, list);
    answer(&board);
    free(image);
    return true;
}

uint32_t four(const uint8_t *bytes) {
    return bytes[0] | (uint32_t)bytes[1] << 8 | (uint32_t)bytes[2] << 16 | (uint32_t)bytes[3] << 24;
}

/* each record: the list in four bytes, the image's length in four, its bytes; a record cut short ends the run */
static bool records_run(const uint8_t *input, size_t length, void (*answer)(const struct board *)) {
    size_t at = 0;
    while (length - at >= 8) {
        size_t lent = four(input + at + 4);
        if (length - at - 8 < lent)
            break;
        if (!lend(input + at + 8, lent, four(input + at), answer))
            return false;
        at += 8 + lent;
    }
    return true;
}

static bool answers_run(const uint8_t *input, size_t length) {
    return records_run(input, length, all_answers);
}

static bool list_run(const uint8_t *input, size_t length) {
    return lend(input, length, FULL_LIST, list_image);
}

int main(int argc, char **argv) {
    static const struct {
        const char *name;
        size_t most; /* bytes that are read */
        bool (*run)(const uint8_t *, size_t);
    } commands[] = {{"list", LONGEST + 1, list_run}, {"answers", INPUT, answers_run},
                    {"write", INPUT + 1, answer_requests}, {"choice", INPUT, answer_choices}};
    static uint8_t input[INPUT + 1];
    for (unsigned i = 0; i < sizeof commands / sizeof *commands; i++) {
        if (argc != 2 || strcmp(argv[1], commands[i].name) != 0)
            continue;
        size_t length = fread(input, 1, commands[i].most, stdin);
        if (ferror(stdin) || !commands[i].run(input, length))
            return 3;
        return fflush(stdout) || ferror(stdout) ? 3 : 0;
    }
    fputs("usage: board list | board answers | board write | board choice, input on standard input\n", stderr);
    return 2;
}
