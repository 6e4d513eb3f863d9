/*
 * The EEPROM chips of a workshop rig, for C (C99 and later) and C++ (C++11 and later): the judges
 * of tiny images and of board images, the choice between two board images, and the name that a tiny
 * image gives a photograph.
 *
 * What holds of every call, and is proved of the library:
 * - it takes every image of every length, it ends, it reads nothing but the images that it is lent,
 *   and it writes nothing but the front of the name buffer;
 * - it answers as the rules of the two layouts say, for every image;
 * - a refused call changes no byte of the name buffer.
 *
 * What is tested, on the platform that the library is built for, x86-64 Linux:
 * - a call takes at most CHIP_STACK bytes of stack, and no heap;
 * - it has no static data and keeps nothing between calls, so any number of threads may call it at
 *   once, and so may a signal handler.
 *
 * What the caller owes: each pointer leads to as many bytes as the length beside it says, which can
 * be read (those of the name buffer: written). With a length of 0 it may be null. The name buffer
 * does not overlap the image.
 *
 * A program is linked with libchip.a: cc program.c $(pkg-config --cflags --libs chip). See chip(3).
 */
#ifndef CHIP_H
#define CHIP_H

#include <stdbool.h>
#include <stddef.h>
#include <stdint.h>

#ifdef __cplusplus
extern "C" {
#endif

/* The version of this header; chip_version() is that of the library in a program. MINOR grows where
   an answer changes or something is added, MAJOR where a program has to be written anew. */
#define CHIP_VERSION_MAJOR 1
#define CHIP_VERSION_MINOR 2
#define CHIP_VERSION_PATCH 0
#define CHIP_VERSION (CHIP_VERSION_MAJOR * 10000 + CHIP_VERSION_MINOR * 100 + CHIP_VERSION_PATCH)
#define CHIP_VERSION_TEXT "1.2.0"

/* The compiler warns where an answer is thrown away. */
#if defined(__cplusplus) && __cplusplus >= 201703L
#define CHIP_MUST_USE [[nodiscard]]
#elif defined(__GNUC__)
#define CHIP_MUST_USE __attribute__((warn_unused_result))
#else
#define CHIP_MUST_USE
#endif

/*
 * The list of the kinds that a reader knows: a bit for each tag of tiny images and for each
 * structure of board images. Any sum of these bits is a list; bits 17 to 31 are ignored. An item of
 * a kind that is not on the list, or a listed structure of another VerMajor than 1, is passed over
 * by its length, and nothing inside it is judged.
 */
#define CHIP_KIND_01 UINT32_C(0x00001)      /* string pool */
#define CHIP_KIND_10 UINT32_C(0x00002)      /* serial number */
#define CHIP_KIND_11 UINT32_C(0x00004)      /* flags */
#define CHIP_KIND_60 UINT32_C(0x00008)      /* address */
#define CHIP_KIND_61 UINT32_C(0x00010)      /* identity */
#define CHIP_KIND_62 UINT32_C(0x00020)      /* identity */
#define CHIP_KIND_80 UINT32_C(0x00040)      /* identity with a batch */
#define CHIP_KIND_81 UINT32_C(0x00080)      /* identity with a batch */
#define CHIP_KIND_ACPITBL UINT32_C(0x00100) /* $AcpiTbl */
#define CHIP_KIND_FPGANFO UINT32_C(0x00200) /* $FPGAnfo */
#define CHIP_KIND_GPIODAT UINT32_C(0x00400) /* $GpioDat */
#define CHIP_KIND_HDCODEC UINT32_C(0x00800) /* $HdCodec */
#define CHIP_KIND_LOGO UINT32_C(0x01000)    /* $Logo$ */
#define CHIP_KIND_MEMCNFG UINT32_C(0x02000) /* $MemCnfg */
#define CHIP_KIND_MACINFO UINT32_C(0x04000) /* $MacInfo */
#define CHIP_KIND_UCODE UINT32_C(0x08000)   /* $uCode$ */
#define CHIP_KIND_VIDEO UINT32_C(0x10000)   /* $Video$ */

#define CHIP_KINDS_FULL UINT32_C(0x1FFFF) /* all seventeen */
#define CHIP_KINDS_BARE UINT32_C(0)       /* none */

enum {
    CHIP_TINY_LONGEST = 255,    /* bytes of a tiny image, and more than any name has */
    CHIP_BOARD_LONGEST = 65536, /* bytes of a board image; more are refused with CHIP_BOARD_SIZE */
    CHIP_STACK = 16384          /* bytes of stack that a call takes at most */
};

/* The numbers of the refusals. chip_refusal_text() has the words, and comments in it the places. */
enum {
    CHIP_ACCEPTED = 0,

    CHIP_TINY_SIZE = 1,
    CHIP_TINY_FIRST_BYTE = 2,
    CHIP_TINY_VERSION = 3,
    CHIP_TINY_LENGTH = 4,
    CHIP_TINY_CHECK = 5,
    CHIP_TINY_ITEM = 6,
    CHIP_TINY_TAG_00 = 7,
    CHIP_TINY_POOL_PLACE = 8,
    CHIP_TINY_POOL_BYTE = 9,
    CHIP_TINY_INDEX = 10,
    CHIP_TINY_RANGE = 11,

    CHIP_BOARD_SIZE = 20,
    CHIP_BOARD_HEADER = 21,
    CHIP_BOARD_STRUCTLEN = 22,
    CHIP_BOARD_STRUCTURE = 23,
    CHIP_BOARD_PADDING = 24,
    CHIP_BOARD_ORDER = 25,
    CHIP_BOARD_HEAD = 26,
    CHIP_BOARD_CHECK = 27,
    CHIP_BOARD_END = 28,
    CHIP_BOARD_HASHTYPE = 29,
    CHIP_BOARD_MAP = 30,
    CHIP_BOARD_BOARDTYPE = 31,
    CHIP_BOARD_RESERVED = 32,
    CHIP_BOARD_FIELD = 33,
    CHIP_BOARD_SAME_LABEL = 34, /* told after 30 and before 31 */

    CHIP_IMAGE_TOO_LONG = 40,
    CHIP_BUFFER_TOO_SHORT = 41,
    CHIP_NO_SUCH_NUMBER = 42,
    CHIP_ROOM_TOO_SHORT = 43,
    CHIP_NO_NAME = 44,
    CHIP_PROMSIG = 45,
    CHIP_RUN = 46
};

/*
 * An answer. It is a struct so that `if (chip_tiny_judge(..))` does not compile: chip_accepted() is
 * what asks, and the functions below it take an answer apart. On x86-64 it is handed
 * over as the number in it is, in a register:
 *
 *     bits 0 to 31     the count or the length; or the place of a refusal, in bytes from the
 *                      image's first: at most 65,536
 *     bits 32 to 39    the number of the refusal; 0: none
 *     bit 40           chip_board_choice alone: 0 for the firmware image, 1 for the EEPROM image
 *
 * The other bits are 0. Where an image breaks several rules, the lowest number is told, 34 after 30
 * and before 31, and of the places where that rule is broken the smallest.
 */
typedef struct chip_answer {
    uint64_t bits;
} chip_answer;

/* ---- the calls ---- */

/* The version of the library, as CHIP_VERSION is that of this header. */
CHIP_MUST_USE uint32_t chip_version(void);

/* How many items a tiny image has; or refused with 1 to 11. */
CHIP_MUST_USE chip_answer chip_tiny_judge(const uint8_t *image, size_t length, uint32_t kinds);

/* How many structures a board image has; or refused with 20 to 34. */
CHIP_MUST_USE chip_answer chip_board_judge(const uint8_t *image, size_t length, uint32_t kinds);

/* Which of two board images a rig goes by, and its length: that many bytes from its first, which
   may be fewer than were lent. If neither is accepted, the refusal of the firmware image, with 20
   to 34. */
CHIP_MUST_USE chip_answer chip_board_choice(const uint8_t *firmware, size_t firmware_length,
                                            const uint8_t *eeprom, size_t eeprom_length,
                                            uint32_t kinds);

/* The length of the name that a tiny image gives. The name goes to the front of the buffer, without
   a zero behind it; the rest of the buffer stays as it was. Its characters are 20h to 7Eh, '/'
   among them. Or refused with 1 to 11, CHIP_NO_NAME or CHIP_ROOM_TOO_SHORT, and the buffer is as it
   was. */
CHIP_MUST_USE chip_answer chip_tiny_name(const uint8_t *image, size_t length, uint32_t kinds,
                                         uint8_t *buffer, size_t room);

/* ---- what an answer says ---- */

/* The number of the refusal; CHIP_ACCEPTED (0) where there is none. */
CHIP_MUST_USE static inline unsigned chip_refusal(chip_answer answer) {
    return answer.bits >> 32 & 0xFF;
}

/* Whether an answer is no refusal. */
CHIP_MUST_USE static inline bool chip_accepted(chip_answer answer) {
    return chip_refusal(answer) == CHIP_ACCEPTED;
}

/* The place of the refusal; 0 where there is none. */
CHIP_MUST_USE static inline uint32_t chip_place(chip_answer answer) {
    return chip_accepted(answer) ? 0 : answer.bits & UINT32_MAX;
}

/* The count or the length; 0 where the call is refused. */
CHIP_MUST_USE static inline uint32_t chip_value(chip_answer answer) {
    return chip_accepted(answer) ? answer.bits & UINT32_MAX : 0;
}

/* Whether the EEPROM image is chosen. */
CHIP_MUST_USE static inline bool chip_is_eeprom(chip_answer answer) {
    return (answer.bits >> 40 & 1) == 1;
}

/*
 * What the number of a refusal says. 40, 41, 42, 45 and 46 are refusals of the writers and of
 * items, records and strings by number, which no call of this library gives; the programs that come
 * with it do.
 */
CHIP_MUST_USE static inline const char *chip_refusal_text(unsigned number) {
    switch (number) {
    case CHIP_ACCEPTED:
        return "accepted";
    /* tiny images */
    case CHIP_TINY_SIZE: /* at 0 */
        return "fewer than 4 bytes";
    case CHIP_TINY_FIRST_BYTE: /* at 0 */
        return "the first byte is not 56h";
    case CHIP_TINY_VERSION: /* at 1 */
        return "the version is not 2";
    case CHIP_TINY_LENGTH: /* at 2 */
        return "the length byte is below 4 or above the number of bytes";
    case CHIP_TINY_CHECK: /* at the check byte */
        return "the check byte is not the CRC-8 of the bytes before it";
    case CHIP_TINY_ITEM: /* at its tag */
        return "an item, or its length byte, does not end before the check byte";
    case CHIP_TINY_TAG_00: /* at its tag */
        return "the long tag 00";
    case CHIP_TINY_POOL_PLACE: /* at its tag */
        return "the pool is not the last item";
    case CHIP_TINY_POOL_BYTE: /* at the byte */
        return "a pool byte is no character, or the last one has no end mark";
    case CHIP_TINY_INDEX: /* at the index */
        return "an index is not below the string count";
    case CHIP_TINY_RANGE: /* at the field's first byte */
        return "a major, minor, pair of characters or batch is out of range";
    /* board images */
    case CHIP_BOARD_SIZE: /* at 0 */
        return "fewer than 32 bytes, or more than 65536";
    case CHIP_BOARD_HEADER: /* at 0 */
        return "the header has another signature, VerMajor or Length";
    case CHIP_BOARD_STRUCTLEN: /* at 16 */
        return "StructLen is below the header's Length or above the number of bytes";
    case CHIP_BOARD_STRUCTURE: /* at its start */
        return "no structure where one is due";
    case CHIP_BOARD_PADDING: /* at the byte */
        return "a byte between structures is not zero";
    case CHIP_BOARD_ORDER: /* at its start, or StructLen */
        return "a structure is missing, or in the wrong order";
    case CHIP_BOARD_HEAD: /* at its start */
        return "the map, the board or the signature structure has a wrong VerMajor or Length";
    case CHIP_BOARD_CHECK: /* at 20 or 24 */
        return "Crc32 or CrcLength is not what it should be";
    case CHIP_BOARD_END: /* at its start */
        return "the board structure ends past 4096";
    case CHIP_BOARD_HASHTYPE: /* at HashType */
        return "HashType is not one that is known, or Length does not fit it";
    case CHIP_BOARD_MAP: /* at the field, or the label's bad byte */
        return "a field of the map is wrong";
    case CHIP_BOARD_BOARDTYPE: /* at the field */
        return "BoardType is above 1";
    case CHIP_BOARD_RESERVED: /* at the byte */
        return "a reserved byte is not zero";
    case CHIP_BOARD_FIELD: /* at its start, the field, or the label's bad byte */
        return "a structure is too short, or a field of it is wrong";
    case CHIP_BOARD_SAME_LABEL: /* at the first label that equals an earlier one */
        return "two map records have the same label";
    /* the writers, and what is asked for by number: at 0, but for the last two */
    case CHIP_IMAGE_TOO_LONG:
        return "the image would have over 255 bytes, or as a board over 65536";
    case CHIP_BUFFER_TOO_SHORT:
        return "the lent buffer is too short for the image";
    case CHIP_NO_SUCH_NUMBER:
        return "no item, record or string has this number";
    case CHIP_ROOM_TOO_SHORT:
        return "the lent list or name buffer is too short";
    case CHIP_NO_NAME:
        return "no name: not exactly one known serial number, or its text cannot be decoded";
    case CHIP_PROMSIG: /* at its start */
        return "the further bytes have a $PromSig, which no writer makes";
    case CHIP_RUN: /* at the number of the item; of records at 0 */
        return "an item's length is not its tag's, an item is a pool, or an item or record is cut short";
    default:
        return "no number of a refusal";
    }
}

#ifdef __cplusplus
}
#endif

#endif
