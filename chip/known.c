/*
 * The list of known kinds that --known says:
 *
 *     full                all kinds
 *     bare                none
 *     full-01-Logo        all but these
 *     01,10,MacInfo       these
 *
 * A kind is a tag of two digits, or a structure's signature, with or without its dollar signs.
 */
#include "command.h"

#include <string.h>

struct kind {
    const char *name;
    uint32_t bit;
};

static const struct kind all[] = {
    {"01", CHIP_KIND_01},           {"10", CHIP_KIND_10},           {"11", CHIP_KIND_11},
    {"60", CHIP_KIND_60},           {"61", CHIP_KIND_61},           {"62", CHIP_KIND_62},
    {"80", CHIP_KIND_80},           {"81", CHIP_KIND_81},           {"AcpiTbl", CHIP_KIND_ACPITBL},
    {"FPGAnfo", CHIP_KIND_FPGANFO}, {"GpioDat", CHIP_KIND_GPIODAT}, {"HdCodec", CHIP_KIND_HDCODEC},
    {"Logo", CHIP_KIND_LOGO},       {"MemCnfg", CHIP_KIND_MEMCNFG}, {"MacInfo", CHIP_KIND_MACINFO},
    {"uCode", CHIP_KIND_UCODE},     {"Video", CHIP_KIND_VIDEO},
};

enum { KINDS = sizeof all / sizeof all[0] };

static void say_kinds(void) {
    fputs("chip: a list is full, bare, full-KIND-KIND.. or KIND,KIND..; the kinds are", stderr);
    for (size_t i = 0; i < KINDS; i++)
        fprintf(stderr, " %s", all[i].name);
    fputc('\n', stderr);
}

/* The bit of the kind that these characters name; 0 if they name none. */
static uint32_t bit_of(const char *text, size_t length) {
    if (length > 0 && text[0] == '$')
        text++, length--;
    if (length > 0 && text[length - 1] == '$')
        length--;
    for (size_t i = 0; i < KINDS; i++)
        if (strlen(all[i].name) == length && memcmp(all[i].name, text, length) == 0)
            return all[i].bit;
    return 0;
}

/* The kinds of a text with this character between them. */
static bool parse_kinds(const char *text, char between, uint32_t *kinds) {
    for (*kinds = 0;; text++) {
        const char stops[] = {between, 0};
        size_t length = strcspn(text, stops);
        uint32_t bit = bit_of(text, length);
        if (bit == 0) {
            complain("--known: '%.*s' is no kind", (int)length, text);
            say_kinds();
            return false;
        }
        *kinds |= bit;
        text += length;
        if (*text == 0)
            return true;
    }
}

bool parse_known(const char *text, uint32_t *kinds) {
    uint32_t less = 0;
    *kinds = CHIP_KINDS_FULL;
    if (strcmp(text, "bare") == 0)
        *kinds = CHIP_KINDS_BARE;
    else if (strncmp(text, "full-", 5) == 0) {
        if (!parse_kinds(text + 5, '-', &less))
            return false;
        *kinds &= ~less;
    } else if (strcmp(text, "full") != 0)
        return parse_kinds(text, ',', kinds);
    return true;
}
