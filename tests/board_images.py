#!/usr/bin/env python3
"""Test images of boards: good ones of every kind, one rule broken, several broken, truncations, random bytes.

`images(seed)` gives them for ever, each as (group, image, answer): the image has at most 65,537 bytes, most have fewer than 1,500, and
the answer is what the judge with the full list must say by the way the image was made ("accepted COUNT", "refused NUMBER PLACE", or "?"
where the maker does not know). The same seed gives the same images. They come from groups taken in turn (GROUPS at the end). A group
walks round its list of variants, and puts each into fresh random surroundings, with the short or the long header.

    board_images.py records >crates/board_answers/stdin    cases 12 and 13, what is beside them, images of every group, several lists
    board_images.py case13 >crates/board_list/stdin        case 13
    board_images.py samples                                writes samples/board-*.bin

What they must be answered with is made by tests/reference/board.c: `board answers` and `board list`.
"""
import itertools
import random
import sys
import zlib

from tiny_images import cycle, refused

FULL = 0x1FFFF
LONGEST = 65536
SHORT, LONG = HEADERS = 0x20, 0x30  # the Lengths that $Eeprom$ may have: without its Reserved field, and with it
# Lengths that it may not have; some have the low bytes of one that it may
NO_HEADER = (0, 0x10, 0x1F, 0x21, 0x2F, 0x31, 0x40, 0x120, 0x130, 0x2000, 0x3000, 0x10020, 0x10030, 0x1000020, 0x1000030, 0x80000020,
             0xFFFFFFFF)
EEPROM, MAP, BOARD, PROMSIG = b"$Eeprom$", b"$EeprMap", b"$BrdInfo", b"$PromSig"
ACPI, FPGA, GPIO, CODEC, LOGO = b"$AcpiTbl", b"$FPGAnfo", b"$GpioDat", b"$HdCodec", b"$Logo$\0\0"
MEMORY, NIC, UCODE, VIDEO = b"$MemCnfg", b"$MacInfo", b"$uCode$\0", b"$Video$\0"
LISTED = (ACPI, FPGA, GPIO, CODEC, LOGO, MEMORY, NIC, UCODE, VIDEO)  # from bit 8 of a list on
ALWAYS = (EEPROM, MAP, BOARD, PROMSIG)
# where the reserved bytes of a structure start, and where they and the fixed part end; a short header ends before its own
RESERVED = {EEPROM: (SHORT, LONG), MAP: (0x2D, 0x30), BOARD: (0x4D, 0x60), PROMSIG: (0x12, 0x20), FPGA: (0x13, 0x20), MEMORY: (0x12, 0x20),
            NIC: (0x20, 0x30), **{kind: (0x10, 0x20) for kind in (ACPI, GPIO, CODEC, LOGO, UCODE, VIDEO)}}
RECORD = {MAP: (0x20, 0x19), GPIO: (0x30, 0x22)}  # the size of a record, and where its reserved bytes start
HASHES = {0: 0x00, 1: 0x10, 2: 0x14, 3: 0x20, 4: 0x30, 5: 0x40}
SIGNED = 0x8000
CHARACTERS = bytes(c for c in range(0x20, 0x7F) if c != 0x24)  # of a label's text
RULES = (*range(20, 31), 34, 31, 32, 33)  # in their order: of several that are broken the first counts
ASK_LIST = (32, 33)  # the rules that ask the list


# ---- building ----

def le(value, size):
    return value.to_bytes(size, "little")


def up(place):
    """Rounded up to the next boundary."""
    return (place + 15) // 16 * 16


def structure(signature, body, major=1, minor=0, length=None):
    """The generic head and what follows it; Length is right unless another is given."""
    return bytearray(signature.ljust(8, b"\0") + le(major, 2) + le(minor, 2) + le(16 + len(body) if length is None else length, 4) + body)


def header(version, minor=0, reserved=bytes(16)):
    """The short header has no reserved bytes. StructLen and the check fields are filled in by Board."""
    return structure(EEPROM, bytes(12) + le(version, 4) + reserved, minor=minor)


def map_record(label, address, reserved=bytes(7)):
    """Its Offset is filled in by Board."""
    return label + le(0x20, 4) + bytes(4) + bytes([address]) + reserved


def eeprom_map(label, page, bus, master, speed, records, minor=0, reserved=bytes(3)):
    """BlkLength and PartSize are filled in by Board."""
    body = label + bytes(4) + le(page, 2) + bytes(4) + bytes([bus, master, speed]) + reserved
    return structure(MAP, body + b"".join(records), minor=minor)


def board_info(names, ids, board_type, minor=0, reserved=bytes(19)):
    return structure(BOARD, b"".join(names) + b"".join(le(i, 4) for i in ids) + bytes([board_type]) + reserved, minor=minor)


def gpio_record(label, offset, and_data, or_data, size, data_type, reserved=bytes(14)):
    return label + le(0x30, 4) + le(offset, 4) + le(and_data, 4) + le(or_data, 4) + bytes([size, data_type]) + reserved


def labelled(text):
    """A label of a text of at most sixteen characters."""
    return text if len(text) == 16 else (text + b"$").ljust(16, b"\0")


def named(text, size=16):
    return text.ljust(size, b"\0")


class Board:
    """An image under construction: its structures in order, the header first."""

    def __init__(self, parts, block=None):
        self.parts = list(parts)
        self.fit(block)

    def at(self, k):
        """The place of structure k, or of the one that would follow the last."""
        place = 0
        for part in self.parts[:k]:
            place = up(place + len(part))
        return place

    def last(self):
        return len(self.parts) - 1

    def header(self):
        """The header's Length, which is the place of the map."""
        return len(self.parts[0])

    def end(self):
        """StructLen."""
        return self.at(self.last()) + len(self.parts[-1])

    def ends(self):
        """Where each structure ends."""
        return [self.at(k) + len(part) for k, part in enumerate(self.parts)]

    def records(self):
        return (len(self.parts[1]) - 0x30) // 0x20

    def record(self, k):
        """The place of the map's record k, which is that of its label."""
        return self.at(1) + 0x30 + 0x20 * k

    def labels(self):
        """The labels of the map's records."""
        return [bytes(self.parts[1][0x30 + 0x20 * k:0x40 + 0x20 * k]) for k in range(self.records())]

    def relabel(self, labels):
        """Gives each of the map's records another label."""
        for k, label in enumerate(labels):
            self.parts[1][0x30 + 0x20 * k:0x40 + 0x20 * k] = label

    def fit(self, block=None):
        """BlkLength (as small as may be unless given), PartSize and Offsets that hold the whole image; again after a change of lengths."""
        n = self.records() if self.parts[1][:8] == MAP else 0
        if n < 1:
            return
        if block is None:
            block = -(-self.end() // n)
        self.parts[1][0x20:0x24] = le(block, 4)
        self.parts[1][0x26:0x2A] = le(block * n & 0xFFFFFFFF, 4)
        for k in range(n):
            self.parts[1][0x44 + 0x20 * k:0x48 + 0x20 * k] = le(k * block & 0xFFFFFFFF, 4)

    def summed(self):
        """The expected CrcLength."""
        return self.at(self.last()) + 0x20 if self.parts[-1][:8] == PROMSIG else self.end()

    def image(self, *changes):
        """The bytes up to StructLen, the changes (place, bytes) made; Crc32 is of what they leave, over the expected CrcLength."""
        out = bytearray()
        for part in self.parts:
            out += bytes(up(len(out)) - len(out)) + part
        for place, data in ((0x10, le(len(out), 4)), (0x18, le(self.summed(), 4)), *changes):
            assert 0 <= place and place + len(data) <= len(out), (place, data, len(out))
            out[place:place + len(data)] = data
        return with_crc(out, crc_of(out, self.summed()))


def crc_of(image, length):
    """Crc32 over so many bytes, its own four counted as zero."""
    return zlib.crc32(bytes(image[:0x14]) + bytes(4) + bytes(image[0x18:length]))


def with_crc(image, crc):
    return bytes(image[:0x14]) + le(crc, 4) + bytes(image[0x18:])


def good(board):
    return "accepted %d" % len(board.parts)


def cut_to(board, length, lent):
    """What is due of a good board whose StructLen is another, not past its end, with at least 20h bytes lent; None if it ends behind a
    structure that may be the last."""
    whole = sum(end <= length for end in board.ends())
    if length < board.header() or length > lent:
        return refused(22, 0x10)
    if length not in board.ends():
        return refused(23, board.at(whole))
    return refused(25, length) if whole < 3 else None


# ---- good parts of any content ----

def some_bytes(rnd, n):
    return rnd.choice([bytes(n), b"\xff" * n, b"$" * n, rnd.randbytes(n), rnd.randbytes(n)])


def some_number(rnd, size):
    top = 256 ** size - 1
    return rnd.choice([0, 1, 255 % (top + 1), top, rnd.randint(0, top), rnd.randint(0, top)])


def some_minor(rnd, chance=0.2):
    """Mostly 0."""
    return rnd.choice([1, 1, 2, 255, 256, 65535]) if rnd.random() < chance else 0


def unused(rnd, minor, n):
    """Reserved bytes, which may be anything under a VerMinor above 0."""
    return some_bytes(rnd, n) if minor else bytes(n)


def text(rnd, n):
    """Characters of a label."""
    letters = rnd.choice([b'"\\', b'a"b\\c ', b" ", b"\x20\x7e", b"rig-0123456789"] + [CHARACTERS] * 5)
    return bytes(rnd.choice(letters) for _ in range(n))


def some_label(rnd):
    return labelled(text(rnd, rnd.choice([0, 1, 2, 4, 7, 8, 14, 15, 15, 16, 16, rnd.randint(0, 16)])))


def near_label(rnd, label):
    """A label with one character of another replaced or taken away, or with one more."""
    front = label.split(b"$")[0]
    p = rnd.choice([0, 7, 8, len(front) - 1, rnd.randrange(16)])
    if 0 <= p < len(front):
        return labelled(front[:p] + text(rnd, rnd.choice([0, 1, 1])) + front[p + 1:])
    return labelled(front + text(rnd, 1))


def some_labels(rnd, n, apart=()):
    """Labels of n records: no two are the same, and none is one of those in apart. Some are nearly another."""
    out, taken = list(apart), set(apart)
    while len(out) < len(apart) + n:
        label = near_label(rnd, rnd.choice(out)) if out and rnd.random() < 0.3 else some_label(rnd)
        if label not in taken:
            out.append(label)
            taken.add(label)
    return out[len(apart):]


def some_name(rnd, size=16):
    n = rnd.choice([0, 1, size - 1, size, rnd.randint(0, size), rnd.randint(0, size)])
    front = rnd.choice([text(rnd, n), text(rnd, n), rnd.randbytes(n), bytes(n // 2) + text(rnd, n - n // 2), b"$" * n])
    return front.ljust(size, rnd.choice([b"\0", b"\0", b" "]))


def some_header(rnd, length=None):
    """Of either Length unless one is given."""
    minor, length = some_minor(rnd), length or rnd.choice(HEADERS)
    return header(some_number(rnd, 4), minor, unused(rnd, minor, length - SHORT))


def some_map(rnd, n=None):
    n = rnd.choice([1, 1, 1, 2, 2, 3, 5, 8]) if n is None else n
    minor, labels = some_minor(rnd), some_labels(rnd, n)
    records = [map_record(label, rnd.choice([0, 0x50, 0x7F, rnd.randint(0, 0x7F)]), unused(rnd, minor, 7)) for label in labels]
    part = rnd.choice(labels) if rnd.random() < 0.2 else some_label(rnd)
    return eeprom_map(part, some_number(rnd, 2), some_number(rnd, 1), rnd.randint(0, 1), rnd.randint(0, 3), records,
                      minor, unused(rnd, minor, 3))


def some_board(rnd):
    minor = some_minor(rnd)
    return board_info([some_name(rnd) for _ in range(3)], [some_number(rnd, 4) for _ in range(3)], rnd.randint(0, 1),
                      minor, unused(rnd, minor, 19))


def some_gpio(rnd, minor=0, **over):
    """A good GPIO record, save what is given."""
    f = dict(label=some_label(rnd), offset=some_number(rnd, 4), and_data=some_number(rnd, 4), or_data=some_number(rnd, 4),
             size=rnd.choice([1, 2, 4]), data_type=rnd.randint(0, 4), reserved=unused(rnd, minor, 14))
    f.update(over)
    return gpio_record(**f)


def some_known(rnd, kind, extra=None, minor=None, major=1):
    """A good structure of a listed kind; extra is the number of bytes that follow its fields, and of records for GPIO."""
    minor = some_minor(rnd) if minor is None else minor
    start, end = RESERVED[kind]
    if kind == FPGA:
        fields = bytes([rnd.randint(0, 4), rnd.randrange(256), rnd.randrange(256)])
    elif kind == NIC:
        fields = some_name(rnd, 8) + rnd.randbytes(8)
    else:
        fields = rnd.randbytes(start - 0x10)
    if kind == GPIO:
        n = rnd.choice([0, 1, 1, 2, 3]) if extra is None else extra
        data = b"".join(some_gpio(rnd, minor) for _ in range(n))
    else:
        data = some_bytes(rnd, rnd.choice([0, 0, 1, 15, 16, 17, rnd.randint(0, 70)]) if extra is None else extra)
    return structure(kind, fields + unused(rnd, minor, end - start) + data, major, minor)


# signatures that are nearly those of a kind
NEAR = [b"$logo$", b"$Logo$  ", b"$Logo$$$", b"$Logo$\0\1", b"$Logo", b"$uCode", b"$uCode  ", b"$uCode$$", b"$Video$ ", b"$Video",
        b"$AcpiTb", b"$AcpiTbL", b"$GPIODat", b"$GpioDaT", b"$FPGAnf$", b"$MemCnfG", b"$MacInf0", b"$HdCodeC",
        b"$PromSiG", b"$PromSi$", b"$promSig", b"$Eeprom", b"$Eeprom ", b"$eeprom$", b"$EeprMa$", b"$EeprMaP", b"$BrdInf$", b"$Brdinfo",
        b"$", b"$       ", b"$$$$$$$$", b"$Fan"]


def some_signature(rnd):
    """One that no list knows."""
    style = rnd.random()
    if style < 0.4:
        return rnd.choice(NEAR).ljust(8, b"\0")
    letters = rnd.choice([bytes(range(256)), b"ABCabc012", b'"\\ \0$', bytes(range(0x20, 0x7F)), b"\0\x7f\x80\xff x"])
    out = b"$" + bytes(rnd.choice(letters) for _ in range(7))
    return some_signature(rnd) if out in LISTED or out in ALWAYS else out


def some_unknown(rnd, extra=None):
    """A structure that no list knows, by its signature or by its VerMajor; extra is the number of bytes past its head."""
    extra = rnd.choice([0, 0, 1, 15, 16, 17, 32, rnd.randint(0, 70)]) if extra is None else extra
    if rnd.random() < 0.6:
        signature, major = some_signature(rnd), rnd.choice([0, 1, 1, 2, 65535])
    else:
        signature, major = rnd.choice(LISTED), rnd.choice([0, 2, 2, 256, 257, 65535])
    return structure(signature, some_bytes(rnd, extra), major, some_number(rnd, 2))


def some_promsig(rnd, hash_type=None, extra=None):
    """A good $PromSig; extra is how much longer than its hash it is (only a signed one may be)."""
    if hash_type is None:
        hash_type = rnd.choice([0, 1, 2, 3, 4, 5, SIGNED + 1, SIGNED + 2, SIGNED + 3])
    if extra is None:
        extra = rnd.choice([0, 1, 16, 64, rnd.randint(0, 100)]) if hash_type >= SIGNED else 0
    minor = some_minor(rnd)
    return structure(PROMSIG, le(hash_type, 2) + unused(rnd, minor, 14) + rnd.randbytes(HASHES[hash_type % SIGNED] + extra), minor=minor)


def some_others(rnd, most=3, signed=0.25):
    """Good structures to follow the board."""
    out = [some_unknown(rnd) if rnd.random() < 0.4 else some_known(rnd, rnd.choice(LISTED)) for _ in range(rnd.randint(0, most))]
    return out + ([some_promsig(rnd)] if rnd.random() < signed else [])


def some(rnd, others=None, records=None, header=None):
    """A good board, of any content save what is given; with a short or a long header unless its Length is given."""
    front = [some_header(rnd, header), some_map(rnd, records), some_board(rnd)]
    board = Board(front + (some_others(rnd) if others is None else list(others)))
    least, n = -(-board.end() // board.records()), board.records()
    board.fit(rnd.choice([least, least, least + 1, max(least, 4096), 0xFFFFFFFF // n, rnd.randint(least, 0xFFFFFFFF // n)]))
    return board


def around(rnd, part, most=2, signed=0.2):
    """A good board with a structure among the others, and that structure's number."""
    before = some_others(rnd, most, 0)
    return some(rnd, before + [part] + some_others(rnd, most, signed)), 3 + len(before)


def lend(rnd, image, chance=0.3):
    """Sometimes lends bytes past the image."""
    if rnd.random() < chance:
        n = rnd.choice([1, 1, 2, 15, 16, 17, rnd.randint(1, 200)])
        image += rnd.choice([bytes(n), b"\xff" * n, b"$" * n, rnd.randbytes(n), bytes(some_known(rnd, rnd.choice(LISTED)))])
    return bytes(image)


def bad_labels(rnd):
    """For each of its bytes, labels that are bad there first: no character before a '$', or not zero after it. Gives (where, label)."""
    for p in range(16):
        low, high = rnd.choice([0x00, 0x00, 0x1F, rnd.randint(0, 0x1F)]), rnd.choice([0x7F, 0x80, 0xFF, 0xA4, rnd.randint(0x7F, 0xFF)])
        for byte in (low, high):
            yield p, text(rnd, p) + bytes([byte]) + some_bytes(rnd, 15 - p)
        if p:
            q = rnd.choice([p - 1, rnd.randrange(p)])  # where the '$' is
            after = rnd.choice([0x24, 0x20, 0x41, 0x01, 0xFF, rnd.randint(1, 255)])
            yield p, labelled(text(rnd, q))[:p] + bytes([after]) + some_bytes(rnd, 15 - p)
    yield 0, bytes(16)


def good_labels(rnd):
    """For each length of text a label, and some that are good only just."""
    for n in range(17):
        yield labelled(text(rnd, n))
    yield from (b" " * 16, b"~" * 16, b" " * 15 + b"$", b"top1$".ljust(16, b"\0"))


def spots(board, rule):
    """Where one change breaks a rule from 24 on in a good board, by the places of its parts: (refusal's place, place, bytes)."""
    out, last = [], board.last()
    for k, part in enumerate(board.parts):
        at, kind = board.at(k), bytes(part[:8])
        known = kind in ALWAYS or kind in LISTED and part[8:10] == le(1, 2)
        size, start = RECORD.get(kind, (0, 0))
        records = range(at + RESERVED[kind][1], at + len(part), size) if known and size else ()
        if rule == 24 and k < last:
            out += [(p, p, b"\x01") for p in range(at + len(part), board.at(k + 1))]
        if rule == 26 and k and kind in ALWAYS:
            out.append((at, at + 8, le(2, 2)))
        if rule == 29 and kind == PROMSIG:
            out.append((at + 0x10, at + 0x10, le(6, 2)))
        if rule == 30 and kind == MAP:
            fields = [(0x10 + p, b"\xff") for p in (0, 7, 15)] + [(0x20, bytes(4)), (0x26, le(0, 4)), (0x2B, b"\x02"), (0x2C, b"\x04")]
            out += [(at + f, at + f, data) for f, data in fields]
            for r in records:
                offset = le(1, 4) if r == records[0] else bytes(4)
                fields = [(p, b"\xff") for p in (0, 7, 15)] + [(0x10, le(0x21, 4)), (0x14, offset), (0x18, b"\x80")]
                out += [(r + f, r + f, data) for f, data in fields]
        if rule == 34 and k == 1:  # the label of an earlier record, so that of several such changes the first in place stays
            labels = board.labels()
            out += [(r, r, labels[j]) for i, r in enumerate(records) for j in range(i)]
        if rule == 31 and kind == BOARD:
            out.append((at + 0x4C, at + 0x4C, b"\x02"))
        if rule == 32 and known and part[10:12] == bytes(2):
            places = list(range(at + RESERVED[kind][0], at + min(RESERVED[kind][1], len(part))))
            places += [p for r in records for p in range(r + start, r + size)]
            out += [(p, p, b"\x80") for p in places]
        if rule == 33 and known and kind == FPGA:
            out.append((at + 0x10, at + 0x10, b"\x05"))
        if rule == 33 and known and kind == GPIO:
            for r in records:
                fields = [(p, b"\xff") for p in (0, 7, 15)] + [(0x10, le(0x31, 4)), (0x20, b"\x03"), (0x21, b"\x05")]
                out += [(r + f, r + f, data) for f, data in fields]
    return out


# ---- groups: each yields (image, what the full list answers) for ever ----

def good_mixed(rnd):
    while True:
        board = some(rnd, some_others(rnd, rnd.choice([0, 1, 2, 3, 5, 8])))
        yield lend(rnd, board.image()), good(board)


def good_each_kind(rnd):
    """Each listed kind alone and with each VerMinor, all nine, and none."""
    variants = [(kind, minor) for kind in LISTED for minor in (0, 1, 65535)] + [("all", 0), ("none", 0)]
    for kind, minor in cycle(rnd, variants):
        if kind == "all":
            others = [some_known(rnd, one) for one in LISTED]
            rnd.shuffle(others)
        else:
            others = [] if kind == "none" else [some_known(rnd, kind, minor=minor)]
        board = some(rnd, others + ([some_promsig(rnd)] if rnd.random() < 0.2 else []))
        yield lend(rnd, board.image()), good(board)


def good_lengths(rnd):
    """Structures of every Length from 16 to 80, known ones too, with another behind them and last."""
    variants = [(n, last) for n in range(16, 81) for last in (False, True)]
    for n, last in cycle(rnd, variants):
        kinds = [kind for kind in LISTED if kind != GPIO and RESERVED[kind][1] <= n]
        if kinds and rnd.random() < 0.5:
            kind = rnd.choice(kinds)
            part = some_known(rnd, kind, n - RESERVED[kind][1])
        else:
            part = some_unknown(rnd, n - 16)
        before = some_others(rnd, 1, 0)
        board = some(rnd, before + [part] + ([] if last else [some_unknown(rnd)] + some_others(rnd, 1)))
        yield lend(rnd, board.image(), 0.5), good(board)


def good_records(rnd):
    """One to forty map records; blocks that just hold the image, and as large as may be."""
    for n, block in cycle(rnd, [(n, b) for n in [*range(1, 13), 20, 40] for b in ("least", "most", "any")]):
        board = some(rnd, records=n)
        least, most = -(-board.end() // n), 0xFFFFFFFF // n
        board.fit({"least": least, "most": most}.get(block, rnd.randint(least, most)))
        yield lend(rnd, board.image()), good(board)


def good_unknown(rnd):
    """Listed kinds with another VerMajor, and unlisted ones, holding what would break 32 or 33 if they were known."""
    variants = [(kind, major) for kind in LISTED for major in (0, 2, 65535, 256)] + [(None, 0), (None, 1), (None, 2)] * 3
    for kind, major in cycle(rnd, variants):
        body = rnd.choice([b"", b"\xff" * 15, b"\xff" * 16, b"\xff" * 31, some_bytes(rnd, 0x50), b"\x09" * 0x41,
                           bytes(16) + some_gpio(rnd, size=3), bytes(16) + some_gpio(rnd, data_type=9)[:40]])
        board, _ = around(rnd, structure(some_signature(rnd) if kind is None else kind, body, major, rnd.choice([0, 0, 1])))
        yield lend(rnd, board.image()), good(board)


def good_near(rnd):
    """Signatures that are nearly those of kinds, with VerMajor 1 and what would break 32 or 33."""
    for signature in cycle(rnd, NEAR):
        board, _ = around(rnd, structure(signature, some_bytes(rnd, rnd.choice([0, 4, 16, 30, 80]))))
        yield lend(rnd, board.image()), good(board)


def good_many(rnd):
    """About twenty-four items and more: small structures, GPIO among them."""
    for count in cycle(rnd, [22, 23, 24, 25, 26, 27, 40, 60]):
        others = [some_unknown(rnd, rnd.choice([0, 0, 1, 16])) for _ in range(count - 3)]
        others[rnd.randrange(len(others))] = some_known(rnd, GPIO, rnd.choice([0, 1]))
        others[-1] = rnd.choice([others[-1], some_known(rnd, GPIO, 1), some_promsig(rnd)])
        board = some(rnd, others)
        yield lend(rnd, board.image()), good(board)


def good_names(rnd):
    """Bytes of every kind in names, labels and signatures."""
    pieces = [b'"', b"\\", b'\\"', b"\\x00", b" ", b"a b", b"\0a", b"a\0\0b", b"\x1f", b"\x7f", b"\x80\xff", b"$", b"a$b", b"%s%n", b"",
              b"\n"]
    for piece in cycle(rnd, pieces):
        name = named((piece * rnd.choice([1, 1, 16]))[:16])
        names = [name, some_name(rnd), named(piece)]
        rnd.shuffle(names)
        label = labelled(bytes(c for c in piece if 0x20 <= c <= 0x7E and c != 0x24))
        nic = structure(NIC, named(piece * 2, 8)[:8] + rnd.randbytes(8) + bytes(16))
        gpio = structure(GPIO, bytes(16) + some_gpio(rnd, label=label))
        odd = structure(named(b"$" + (piece or b"Fan"), 8)[:8], b"", major=3)
        board = some(rnd, [nic, gpio, odd] if odd[:8] not in ALWAYS else [nic, gpio])
        board.parts[2] = board_info(names, [1, 2, 3], 1)
        board.parts[1][0x10:0x20] = label
        yield lend(rnd, board.image()), good(board)


def rule_20(rnd):
    """Under 20h bytes, whatever they are. From 20h to 30h the front of a board, which is no whole header if that is the long one: as it is,
    with a Length that no header has, and with another StructLen. A header alone."""
    variants = [("few", n, None) for n in range(SHORT)] + [("alone", h, h) for h in HEADERS] * 3
    variants += [(part, n, h) for part in ("front", "Length", "StructLen") for n in range(SHORT, LONG + 1) for h in HEADERS]
    for part, n, h in cycle(rnd, variants):
        board = some(rnd, header=h)
        if part == "few":
            yield rnd.choice([board.image()[:n], rnd.randbytes(n)]), refused(20, 0)
        elif part == "front":
            yield board.image()[:n], refused(22, 0x10)
        elif part == "Length":
            yield board.image((12, le(rnd.choice(NO_HEADER), 4)))[:n], refused(21, 0)
        else:
            v = h if part == "alone" else rnd.choice([0, SHORT - 1, SHORT, SHORT + 1, LONG - 1, LONG, LONG + 1, n - 1, n, n, n + 1])
            yield board.image((0x10, le(v, 4)))[:n], cut_to(board, v, n)


def rule_21(rnd):
    """Each byte of the signature, other versions, and Lengths: with that of the other header there is no structure where one is due."""
    variants = [("signature", i) for i in range(8)] + [("major", v) for v in (0, 2, 256, 257, 65535)]
    variants += [("length", v) for v in HEADERS * 2 + NO_HEADER] + [("minor", v) for v in (1, 256, 65535)]
    for part, v in cycle(rnd, variants):
        board = some(rnd)
        if part == "signature":
            wrong = rnd.choice([c for c in (0, 0x20, 0x24, EEPROM[v] ^ 0x20, EEPROM[v] ^ 0x80, 0xFF) if c != EEPROM[v]])
            change = (v, bytes([wrong]))
        else:
            place, size = {"major": (8, 2), "minor": (10, 2), "length": (12, 4)}[part]
            change = (place, le(v, size))
        said = good(board) if part == "minor" else refused(21, 0)
        if part == "length" and v in HEADERS:
            said = good(board) if v == board.header() else refused(23, v)
        yield lend(rnd, board.image(change)), said


def rule_22(rnd):
    """StructLen on both sides of each header's Length, whichever the board has, and of what is lent."""
    values = (0, 1, 0x10, 0x1F, 0x20, 0x21, 0x2E, 0x2F, 0x30, 0x31, 0x3F, 0x40, 0x1000000, 0x80000000, 0xFFFFFFFF)
    variants = [(h, v) for h in HEADERS for v in values]
    variants += [("lent", d) for d in (0, 0, 0, 1, 1, 1, 2, 16, 256, 65536)] + [("cut", d) for d in (1, 1, 16, 0)]
    for part, v in cycle(rnd, variants):
        board = some(rnd, header=part if part in HEADERS else None)
        if part in HEADERS:
            image = lend(rnd, board.image((0x10, le(v, 4))))
            yield image, cut_to(board, v, len(image))
        elif part == "lent":
            image = board.image() if v == 0 else lend(rnd, board.image())
            if v:
                image = image[:0x10] + le(len(image) + v, 4) + image[0x14:]
            yield image, refused(22, 0x10) if v else good(board)
        else:
            yield board.image()[:-v or rnd.randint(SHORT, board.end() - 1)], refused(22, 0x10)


def damaged_header(rnd):
    """Each byte of either header changed, with Crc32 of what that leaves or with Crc32 as it was."""
    for h, p, right in cycle(rnd, [(h, p, right) for h in HEADERS for p in range(h) for right in (True, False)]):
        board = some(rnd, header=h)
        image = board.image()
        value = bytes([image[p] ^ rnd.choice([1 << rnd.randrange(8), rnd.randint(1, 255)])])
        right = right and not 0x14 <= p < 0x18
        image = board.image((p, value)) if right else image[:p] + value + image[p + 1:]
        minor, length, end = (int.from_bytes(image[a:b], "little") for a, b in ((10, 12), (12, 16), (16, 20)))
        if p < 10 or length not in HEADERS:
            said = refused(21, 0)
        elif length != h:
            said = refused(23, length)
        elif end != board.end():
            said = cut_to(board, end, len(image)) or refused(27, 0x14)
        elif not right:
            said = refused(27, 0x14)
        elif 0x18 <= p < 0x1C:
            said = refused(27, 0x18)
        else:
            reserved = [place for place in range(SHORT, h) if image[place] and not minor]
            said = refused(32, reserved[0]) if reserved else good(board)
        yield image, said


def other_length(rnd):
    """Each header with the Length of the other, Crc32 made right. Where the next structure is then due lie the reserved bytes of the long
    header, or PartLabel of the map behind the short one: as they may be, or the head of a structure. The same with its own Length."""
    variants = [(h, k, own) for h, count in ((LONG, 8), (SHORT, 4)) for k in range(count) for own in (False, False, True)]
    for h, k, own in cycle(rnd, variants):
        board, nonzero, minor = some(rnd, header=h), bytes(rnd.randint(1, 255) for _ in range(15)), rnd.choice([0, 0, 1, 256])
        due = sum(HEADERS) - h
        over, none = board.at(2) - due, refused(23, due)  # as long as up to the board; no structure where one is due
        if h == LONG:
            data, said = ((bytes(16), none), (b"\xff" + nonzero, none), (b"$" + nonzero, none),
                          (structure(b"$Fan", b""), refused(25, due)), (structure(BOARD, b""), refused(25, due)),
                          (structure(MAP, b""), refused(25, LONG)), (structure(MAP, b"", length=over), refused(26, due)),
                          (structure(MAP, b"", length=board.end() - due), refused(25, board.end())))[k]
            board.parts[0][10:12] = le(minor, 2)
            as_it_is = good(board) if minor or not any(data) else refused(32, due)
        else:
            data, said = ((board.parts[1][0x10:0x20], none), (labelled(b""), none),
                          (structure(b"$Fan", b"", length=over), refused(25, due)), (structure(MAP, b"", length=over), refused(26, due)))[k]
            as_it_is = good(board) if k < 2 else refused(30, due + 1)
        yield lend(rnd, board.image((due, data), (12, le(h if own else due, 4)))), as_it_is if own else said


def behind_short(rnd):
    """Bytes behind the short header that are no map: those that the long one has as reserved bytes, and they are not zero."""
    for kept in cycle(rnd, [0, 0, 4, 4]):  # of the map's head, its Length or nothing
        board, nonzero = some(rnd, header=SHORT), bytes(rnd.randint(1, 255) for _ in range(16))
        board.parts[0][10:12] = le(rnd.choice([0, 0, 0, 1]), 2)
        data = b"$" + nonzero[1:12] + board.parts[1][12:16] if kept else nonzero
        yield lend(rnd, board.image((SHORT, data))), refused(25 if kept else 23, SHORT)


def rule_23(rnd):
    """No structure where one is due: each part of the rule at each structure, and the same walks with one in order."""
    variants = [("left", r) for r in range(16)] * 2 + [("16 left", 0)] * 3
    variants += [("dollar", v) for v in (0, 0x23, 0x25, 0x45, 0xA4, 0xFF)] * 2 + [("length", v) for v in range(16)]
    variants += [("over", v) for v in (1, 1, 1, 2, 16, 0x10000, "half", "most", "F0", "wrap", "wrap to end")] * 2
    variants += [("exact", 0)] * 4 + [("past", d) for d in range(1, 16)] + [("short", d) for d in ("1", "1", "any", "any")]
    for part, v in cycle(rnd, variants):
        board = some(rnd, some_others(rnd, rnd.choice([0, 1, 3])))
        k = rnd.randint(1, board.last())
        at, end = board.at(k), board.end()
        if part == "left":  # so many bytes left for one more
            due = up(end)
            if due + v == end:
                continue
            behind = rnd.choice([bytes(structure(b"$Fan", b""))[:v], bytes(v), b"$" * v])
            image = board.image() + rnd.choice([b"\0", b"\0", b"\xff"]) * (due - end) + behind
            yield lend(rnd, image[:0x10] + le(due + v, 4) + image[0x14:], 0.6), refused(23, due)
        elif part == "16 left":
            board = some(rnd, some_others(rnd, 2, 0) + [structure(rnd.choice([b"$Fan", b"$", LOGO]), b"", major=2)])
            yield lend(rnd, board.image()), good(board)
        elif part == "dollar":
            yield lend(rnd, board.image((at, bytes([v])))), refused(23, at)
        elif part == "length":
            yield lend(rnd, board.image((at + 12, le(v, 4)))), refused(23, at)
        elif part == "over":
            just = end - at
            length = just + v if isinstance(v, int) else {
                "half": 2 ** 31, "most": 2 ** 32 - 1, "F0": 2 ** 32 - 16, "wrap": 2 ** 32 - at,
                "wrap to end": 2 ** 32 - at + min(board.header(), at - 1)}[v]
            yield lend(rnd, board.image((at + 12, le(length, 4))), 0.6), refused(23, at)
        elif part == "exact":  # an unknown structure that takes in all that follows it
            before = some_others(rnd, 2, 0)
            board = some(rnd, before + [some_unknown(rnd)] + some_others(rnd, 3, 0))
            at = board.at(3 + len(before))
            yield lend(rnd, board.image((at + 12, le(board.end() - at, 4)))), "accepted %d" % (4 + len(before))
        elif part == "past":  # StructLen past the last end, so that one is due at or past StructLen
            last = some_unknown(rnd, rnd.choice([1, 2, 5, 8, 14, 15, 17, 30]))
            board = some(rnd, some_others(rnd, 2, 0) + [last])
            end = board.end()
            v = v if rnd.random() < 0.5 else rnd.randint(1, up(end) - end)
            image = board.image() + rnd.choice([b"\0", b"\0", b"$", b"\xff"]) * rnd.choice([v, v, 16, 32])
            yield image[:0x10] + le(end + min(v, len(image) - end), 4) + image[0x14:], refused(23, up(end))
        else:  # StructLen inside the last structure, or in what is before it
            last = board.at(board.last())
            before = board.at(board.last() - 1) + len(board.parts[-2])
            length = end - 1 if v == "1" else rnd.randint(before + 1, end - 1)
            yield lend(rnd, board.image((0x10, le(length, 4)))), refused(23, last)


def rule_24(rnd):
    """Between structures each of up to fifteen bytes; what follows the last one is not looked at."""
    variants = [("other", pad, p) for pad in range(1, 16) for p in range(pad)]
    variants += [("map", 0, 0), ("board", 0, 0)] * 5 + [("behind", 0, 0)] * 12
    for part, pad, p in cycle(rnd, variants):
        value = bytes([rnd.choice([1, 0x24, 0x80, 0xFF, rnd.randint(1, 255)])])
        if part == "other":
            board, k = around(rnd, some_unknown(rnd, rnd.choice([16, 32, 64]) - pad))
            if k == board.last():
                board.parts.append(some_promsig(rnd) if rnd.random() < 0.3 else some_unknown(rnd))
                board.fit()
            place = board.at(k) + len(board.parts[k]) + p
            yield lend(rnd, board.image((place, value))), refused(24, place)
        elif part == "behind":
            board = some(rnd, some_others(rnd, 2, 0) + [some_unknown(rnd, rnd.randint(1, 15))])
            image = board.image()
            yield image + value * rnd.randint(1, up(len(image)) - len(image)) + some_bytes(rnd, rnd.choice([0, 16])), good(board)
        else:  # a map or a board of a wrong Length: 24 comes before 26
            board = some(rnd, some_others(rnd) or [some_unknown(rnd)])
            k = 1 if part == "map" else 2
            board.parts[k] += bytes([0]) * rnd.randint(1, 15)
            board.parts[k][12:16] = le(len(board.parts[k]), 4)
            place = rnd.randrange(board.at(k) + len(board.parts[k]), board.at(k + 1))
            yield lend(rnd, board.image((place, value))), refused(24, place)


def rule_25(rnd):
    """Order and presence, by the signatures alone."""
    wrong = ["unknown", "near", "listed", "first", "swapped", "promsig", "eeprom"]
    variants = [("second", w) for w in wrong] * 2 + [("third", w) for w in wrong] * 2
    variants += [("absent", w) for w in ("second", "third", "third", "third unaligned")] * 2
    variants += [("later", s) for s in (EEPROM, MAP, BOARD)] * 4
    variants += [("promsig", w) for w in ("one", "one", "two", "two", "three", "last", "last")] * 2
    for part, w in cycle(rnd, variants):
        head, eemap, info = some_header(rnd), some_map(rnd), some_board(rnd)
        if part in ("second", "third"):
            instead = {"unknown": lambda: some_unknown(rnd), "near": lambda: structure(rnd.choice(NEAR), rnd.randbytes(0x50)),
                       "listed": lambda: some_known(rnd, rnd.choice(LISTED)), "swapped": lambda: info if part == "second" else eemap,
                       "first": lambda: eemap if part == "third" else info, "promsig": lambda: some_promsig(rnd),
                       "eeprom": lambda: some_header(rnd)}[w]()
            if part == "second":
                parts = [head, instead, eemap if w == "swapped" else info]
            else:
                parts = [head, eemap, instead]
            parts += some_others(rnd)
            if rnd.random() < 0.2:
                parts = parts[:3 if part == "third" else rnd.choice([2, 3])]
            board = Board(parts)
            yield lend(rnd, board.image()), refused(25, board.at(1 if part == "second" else 2))
        elif part == "absent":
            if w == "third unaligned":
                eemap += rnd.randbytes(rnd.randint(1, 15))
                eemap[12:16] = le(len(eemap), 4)
            board = Board([head, eemap])
            if w == "second":
                h = board.header()
                image = board.image((0x10, le(h, 4)))
                yield rnd.choice([image, image[:h]]), refused(25, h)
            else:
                yield lend(rnd, board.image()), refused(25, board.end())
        elif part == "later":
            again = structure(w, rnd.randbytes(rnd.choice([0, 16, 0x20, 0x40, 0x50])), rnd.choice([1, 1, 0, 2]), rnd.choice([0, 1]))
            if rnd.random() < 0.4:
                again = {EEPROM: some_header, MAP: some_map, BOARD: some_board}[w](rnd)
            board, k = around(rnd, again)
            yield lend(rnd, board.image()), refused(25, board.at(k))
        elif w == "last":
            board = some(rnd, some_others(rnd, 2, 0) + [some_promsig(rnd)])
            yield lend(rnd, board.image()), good(board)
        else:
            before = some_others(rnd, 2, 0)
            parts = before + [some_promsig(rnd)]
            parts[-1][8:10] = le(rnd.choice([1, 1, 2]), 2)
            if w == "one":
                parts += some_others(rnd, 2, 0) or [some_unknown(rnd)]
            else:
                parts += some_others(rnd, 1, 0) + [some_promsig(rnd) for _ in range(1 if w == "two" else 2)]
            board = some(rnd, parts)
            yield lend(rnd, board.image()), refused(25, board.at(3 + len(before)))


def resized(part, length):
    """A structure cut or lengthened with zeros, its Length right."""
    part = part[:length] + bytes(max(0, length - len(part)))
    part[12:16] = le(length, 4)
    return part


def rule_26(rnd):
    variants = [("major", k, v) for k in (1, 2, "promsig") for v in (0, 2, 256, 257, 65535)]
    variants += [("map", 1, v) for v in (0x10, 0x20, 0x2F, 0x30, 0x31, 0x40, 0x4F, 0x50, 0x51, 0x5F, 0x60, 0x6F, 0x70, 0x71, 0x80, 0x90)]
    variants += [("board", 2, v) for v in (0x10, 0x20, 0x50, 0x5F, 0x60, 0x61, 0x70, 0x80)]
    variants += [("promsig", "promsig", v) for v in (0x10, 0x11, 0x18, 0x1F, 0x20)]
    variants += [("minor", k, v) for k in (1, 2, "promsig") for v in (1, 65535)]
    for part, k, v in cycle(rnd, variants):
        board = some(rnd, some_others(rnd, 2, 0) + [some_promsig(rnd, 0)] if k == "promsig" else None)
        k = board.last() if k == "promsig" else k
        if part in ("major", "minor"):
            change = (board.at(k) + (8 if part == "major" else 10), le(v, 2))
            yield lend(rnd, board.image(change)), refused(26, board.at(k)) if part == "major" else good(board)
            continue
        if part == "map":
            board.parts[1] = resized(some_map(rnd, max(1, (v - 0x30) // 0x20)), v)
            right = v >= 0x50 and v % 0x20 == 0x10
        else:
            board.parts[k] = resized(board.parts[k], v)
            right = v == (0x60 if part == "board" else 0x20)
        board.fit()
        yield lend(rnd, board.image()), good(board) if right else refused(26, board.at(k))


def crc32_by_bits(data, poly=0xEDB88320, start=0xFFFFFFFF, out=0xFFFFFFFF, reflected=True):
    """CRCs that are not the one wanted."""
    crc = start
    for byte in data:
        crc ^= byte if reflected else byte << 24
        for _ in range(8):
            if reflected:
                crc = crc >> 1 ^ poly if crc & 1 else crc >> 1
            else:
                crc = (crc << 1 ^ poly if crc >> 31 else crc << 1) & 0xFFFFFFFF
    return crc ^ out


def rule_27(rnd):
    """A wrong Crc32: a bit, any value, other CRCs and other ranges. A wrong CrcLength, with a right Crc32 and one over it."""
    variants = [("bit", i) for i in range(32)]
    variants += [(w, 0) for w in ("any", "zero", "good", "swapped", "no inversion", "start 0", "Castagnoli", "bzip2")]
    variants += [("stored", v) for v in (1, 0xFFFFFFFF, None, None)] * 2 + [("from", v) for v in (8, 0x10, 0x14, 0x18, 0x1C, *HEADERS)]
    variants += [("with EepromSig", 0), ("up to $PromSig", 0), ("up to 10h of it", 0), ("one less", 0)] * 2
    lengths = ["0", "20h", "30h", "StructLen", "StructLen - 1", "StructLen + 1", "rounded", "most", "$PromSig", "10h of it", "one more",
               "one less"]
    variants += [("length", w) for w in lengths] * 2 + [("length over", w) for w in lengths] + [("both", w) for w in lengths]
    for part, v in cycle(rnd, variants):
        signed = part in ("with EepromSig", "up to $PromSig", "up to 10h of it") or rnd.random() < 0.5
        board = some(rnd, some_others(rnd, 2, 0) + ([some_promsig(rnd, rnd.choice([1, 3, 5, SIGNED + 2]))] if signed else []))
        image, summed, last = board.image(), board.summed(), board.at(board.last())
        zeroed = image[:0x14] + bytes(4) + image[0x18:]
        right = crc_of(image, summed)
        if part in ("length", "length over", "both"):
            end = len(image)
            length = {"0": 0, "20h": SHORT, "30h": LONG, "StructLen": end, "StructLen - 1": end - 1, "StructLen + 1": end + 1,
                      "rounded": up(end), "most": 0xFFFFFFFF, "$PromSig": last, "10h of it": last + 0x10, "one more": summed + 1,
                      "one less": summed - 1}[v]
            if length == summed:
                continue
            image = image[:0x18] + le(length, 4) + image[0x1C:]
            crc = crc_of(image, summed)
            if part == "length over":
                over = crc_of(image, min(length, len(image)))
                if over == crc:
                    continue
                crc = over
            if part == "both":
                crc ^= 1 << rnd.randrange(32)
            yield lend(rnd, with_crc(image, crc)), refused(27, 0x18 if part == "length" else 0x14)
            continue
        wrong = {"bit": lambda: right ^ 1 << v, "any": lambda: rnd.getrandbits(32), "zero": lambda: 0, "good": lambda: right,
                 "swapped": lambda: int.from_bytes(le(right, 4), "big"), "no inversion": lambda: right ^ 0xFFFFFFFF,
                 "start 0": lambda: crc32_by_bits(zeroed[:summed], start=0),
                 "Castagnoli": lambda: crc32_by_bits(zeroed[:summed], 0x82F63B78),
                 "bzip2": lambda: crc32_by_bits(zeroed[:summed], 0x04C11DB7, reflected=False),
                 "stored": lambda: zlib.crc32(image[:0x14] + le(right if v is None else v, 4) + image[0x18:summed]),
                 "from": lambda: zlib.crc32(zeroed[v:summed]), "with EepromSig": lambda: zlib.crc32(zeroed),
                 "up to $PromSig": lambda: zlib.crc32(zeroed[:last]), "up to 10h of it": lambda: zlib.crc32(zeroed[:last + 0x10]),
                 "one less": lambda: zlib.crc32(zeroed[:summed - 1])}[part]()
        if part != "good" and wrong == right:
            continue
        yield lend(rnd, with_crc(image, wrong)), good(board) if part == "good" else refused(27, 0x14)


def rule_28(rnd):
    """Case 12 and around it with each header, and any other content."""
    for n, h in cycle(rnd, [(n, h) for n in (121, 122, 122, 122, 123, 123, 123, 124, 130) for h in HEADERS]):
        board = some(rnd, some_others(rnd, rnd.choice([0, 0, 2])), n, h)
        changes = []
        if n > 122 and rnd.random() < 0.5:
            changes = [s[1:] for s in rnd.sample(spots(board, rnd.choice([30, 34, 31])), 1)]
        yield lend(rnd, board.image(*changes)), good(board) if n <= 122 else refused(28, board.at(2))


def rule_29(rnd):
    """Every type, signed and not, with Lengths on both sides of what fits."""
    kinds = [*range(8), *range(SIGNED, SIGNED + 8), 0x4001, 0xC001, 0x0100, 0x0101, 0x8101, 0x7FFF, 0xFFFF]
    variants = [(t, d) for t in kinds for d in (-1, 0, 0, 1)]
    variants += [(t, d) for t in (1, 2, 3, SIGNED + 1, SIGNED + 2, SIGNED + 3) for d in (16, 64, 256)]
    for hash_type, d in cycle(rnd, variants):
        size = HASHES.get(hash_type & 0x7FFF, rnd.choice(list(HASHES.values()))) + d
        if size < 0:
            continue
        minor = some_minor(rnd)
        part = structure(PROMSIG, le(hash_type, 2) + unused(rnd, minor, 14) + some_bytes(rnd, size), minor=minor)
        board = some(rnd, some_others(rnd, 2, 0) + [part])
        fits = d == 0 if hash_type <= 5 else d >= 0 and hash_type in (SIGNED + 1, SIGNED + 2, SIGNED + 3)
        yield lend(rnd, board.image()), good(board) if fits else refused(29, board.at(board.last()) + 0x10)


def map_label(rnd, board):
    """The place of the part's label, or of a record's."""
    n = board.records()
    return board.at(1) + rnd.choice([0x10, 0x30, 0x30 + 0x20 * (n - 1), 0x30 + 0x20 * rnd.randrange(n)])


def rule_30_labels(rnd):
    """Each byte of a label bad, in the part's label and in records."""
    while True:
        variants = [(p, label) for p, label in bad_labels(rnd)] + [(None, label) for label in good_labels(rnd)]
        rnd.shuffle(variants)
        for p, label in variants:
            n = rnd.choice([None, None, 1, 12])
            board = some(rnd, records=n)
            while label in board.labels():  # which would be another record's
                board = some(rnd, records=n)
            at = map_label(rnd, board)
            yield lend(rnd, board.image((at, label))), good(board) if p is None else refused(30, at + p)


def rule_30_fields(rnd):
    """Both sides of each bound of the map's fields, and of its first, last and any record's."""
    variants = [("Master", v) for v in (0, 1, 2, 3, 128, 255)] + [("Speed", v) for v in (0, 1, 2, 3, 4, 5, 128, 255)]
    variants += [("BusNumber", v) for v in (0, 128, 255)] + [("PageSize", v) for v in (0, 1, 65535)]
    variants += [("BlkLength 0", w) for w in ("PartSize 0", "PartSize any")] * 2
    variants += [("PartSize", w) for w in ("one more", "one less", "0", "most", "one block less", "one block more")] * 2
    variants += [("product", w) for w in ("wraps", "wraps", "wraps to 0", "just fits", "just fits")] * 2
    variants += [("below", d) for d in (-1, 0, 0, 1)] * 3
    variants += [("Length", v) for v in (0, 0x1F, 0x20, 0x21, 0x30, 0x120, 0x20000020, "block")]
    variants += [("Offset", w) for w in ("one more", "one less", "0", "next", "top", "place")] * 2
    variants += [("Address", v) for v in (0, 0x7F, 0x80, 0xFF, 0x50 + 0x80)]
    for part, v in cycle(rnd, variants):
        board = some(rnd)
        n, at = board.records(), board.at(1)
        block = int.from_bytes(board.parts[1][0x20:0x24], "little")
        k = rnd.choice([0, n - 1, rnd.randrange(n)])
        record = at + 0x30 + 0x20 * k
        bad, change = None, None
        if part in ("Master", "Speed", "BusNumber"):
            place = at + {"Master": 0x2B, "Speed": 0x2C, "BusNumber": 0x2A}[part]
            change = (place, bytes([v]))
            bad = place if v > {"Master": 1, "Speed": 3, "BusNumber": 255}[part] else None
        elif part == "PageSize":
            change = (at + 0x24, le(v, 2))
        elif part == "BlkLength 0":
            board.fit(0)
            change = (at + 0x26, bytes(4) if v == "PartSize 0" else le(some_number(rnd, 4), 4))
            bad = at + 0x20
        elif part == "PartSize":
            size = {"one more": n * block + 1, "one less": n * block - 1, "0": 0, "most": 0xFFFFFFFF, "one block less": (n - 1) * block,
                    "one block more": (n + 1) * block}[v]
            if size == n * block or size > 0xFFFFFFFF:
                continue
            change, bad = (at + 0x26, le(size, 4)), at + 0x26
        elif part == "product":  # the product in 32 bits is the PartSize
            n = rnd.choice([2, 4, 8] if v == "wraps to 0" else [2, 3, 4, 8])
            board = some(rnd, records=n)
            if v == "just fits":
                board.fit(0xFFFFFFFF // n)
            else:
                board.fit(2 ** 32 // n if v == "wraps to 0" else -(-(2 ** 32 + board.end() + rnd.randint(0, 5000)) // n))
                bad = board.at(1) + 0x26
        elif part == "below":  # a product that is StructLen, one block of one byte less, or more
            n = rnd.choice([1, 1, 2, 3, 4])
            before = some_others(rnd, 2, 0)
            board = some(rnd, before + [some_unknown(rnd, 0)], n)
            extra = rnd.randrange(0, 60)
            extra += -(board.end() + extra) % n
            board.parts[-1] = resized(board.parts[-1], 16 + extra)
            block = board.end() // n
            assert block * n == board.end()
            board.fit(block + v)
            bad = board.at(1) + 0x26 if v < 0 else None
        elif part == "Length":
            if v == "block" and block == 0x20:
                continue
            change = (record + 0x10, le(block if v == "block" else v, 4))
            bad = record + 0x10 if v != 0x20 else None
        elif part == "Offset":
            right = k * block
            offset = {"one more": right + 1, "one less": right - 1, "0": 0, "next": right + block, "top": right ^ 2 ** 31,
                      "place": record}[v]
            if not 0 <= offset <= 0xFFFFFFFF:
                continue
            change, bad = (record + 0x14, le(offset, 4)), record + 0x14 if offset != right else None
        else:
            change, bad = (record + 0x18, bytes([v])), record + 0x18 if v > 0x7F else None
        image = board.image(change) if change else board.image()
        yield lend(rnd, image), good(board) if bad is None else refused(30, bad)


def shared(n):
    """Which of n records may have one label: groups of their numbers in ascending order, up to two groups at once."""
    last = n - 1
    out = [[(0, 1)], [(last - 1, last)], [(0, last)], [tuple(range(n))]]
    if n > 2:
        out += [[(0, 1, last)], [(0, n // 2, last)]]
    if n > 3:
        out += [[(0, 1), (last - 1, last)], [(0, last), (1, 2)], [(0, last - 1), (1, last)]]
    if n > 4:
        out += [[(0, last), (1, 2, 3)], [(1, last), (0, 2, 3)]]
    return out


def repeated(groups):
    """The number of the first record whose label is that of an earlier one: the second of some group."""
    return min(group[1] for group in groups)


def same_labels(rnd, n, groups, first):
    """Labels of n records: that of the first group, one for each other group, and else no two the same."""
    labels = some_labels(rnd, n, [first])
    for group in groups:
        label = first if group is groups[0] else labels[group[0]]
        for k in group:
            labels[k] = label
    return labels


def changed(rnd, label, places):
    """A label of sixteen characters with another character at each of these places."""
    return bytes(rnd.choice(CHARACTERS.replace(label[p:p + 1], b"")) if p in places else label[p] for p in range(16))


def near_labels(rnd, n, how, v, part):
    """Labels of n records, no two the same: two that differ in the bytes v alone, or in a character that one has more behind v others; one
    that is PartLabel; or all with the same first or last eight bytes."""
    if how == "half":
        half, numbers = text(rnd, 8), [b"%08d" % number for number in rnd.sample(range(10 ** 8), n)]
        return [half + number if v == "first" else number + half for number in numbers]
    if how == "PartLabel":
        pair = [part]
    elif how == "bytes":
        one = text(rnd, 16)
        pair = [one, changed(rnd, one, v)]
    else:
        front = text(rnd, v)
        pair = [labelled(front), labelled(front + text(rnd, 1))]
    rnd.shuffle(pair)
    labels = some_labels(rnd, n, pair)
    where = rnd.choice([(0, 1), (n - 2, n - 1), (0, n - 1), sorted(rnd.sample(range(n), 2))])
    for k, label in zip(where, pair):
        labels[k] = label
    return labels


def rule_34(rnd):
    """Records of one label: two, three and all, next to each other and far apart, several pairs. And good ones: labels that are nearly the
    same, a label that is PartLabel, one that two GPIO records have. Each by itself, with a break of 30, which comes first, or of 31, 32 or
    33, which come later."""
    counts = (2, 3, 4, 5, 12, 122)
    variants = [(n, groups, label) for n in counts for groups in shared(n) for label in ("any", "empty", "sixteen", "PartLabel", "bad")]
    near = [("bytes", (p,)) for p in range(16)] + [("bytes", range(8)), ("bytes", range(8, 16))] * 2
    near += [("more", v) for v in range(16)] + [("half", "first"), ("half", "last"), ("PartLabel", None)] * 4
    variants += [(None, None, v) for v in near + [GPIO] * 4]
    for n, groups, v in cycle(rnd, variants):
        n = n or rnd.choice(counts)
        beside = rnd.choice([None] * 4 + [30, 31, 32, 33])
        board = rich(rnd, n) if beside in ASK_LIST else some(rnd, records=n)
        part = bytes(board.parts[1][0x10:0x20])
        bad, wrong = rnd.choice(list(bad_labels(rnd)))
        if groups:
            first = {"empty": labelled(b""), "sixteen": text(rnd, 16), "PartLabel": part}.get(v, some_label(rnd))
            labels = same_labels(rnd, n, groups, first)
            board.relabel(wrong if v == "bad" and label == first else label for label in labels)
        elif v == GPIO:
            board.parts.insert(3, structure(GPIO, bytes(16) + 2 * some_gpio(rnd, label=rnd.choice(board.labels()))))
            board.fit()
        else:
            board.relabel(near_labels(rnd, n, *v, part))
        if rnd.random() < 0.3:
            board.parts[1][10:12] = le(rnd.choice([1, 2, 256, 65535]), 2)  # which lifts rule 32 alone
        broken = [(34, board.record(repeated(groups)))] if groups else []
        if v == "bad":
            broken = [(30, board.record(groups[0][0]) + bad)]
        changes = []
        if beside and (beside, v) != (30, "bad"):
            place, *change = rnd.choice(spots(board, beside))
            broken.append((beside, place))
            changes.append(change)
        said = refused(*min(broken, key=lambda one: RULES.index(one[0]))) if broken else good(board)
        yield lend(rnd, board.image(*changes)), said


def rule_31(rnd):
    for v in cycle(rnd, [0, 1, 2, 3, 127, 128, 129, 255]):
        board = some(rnd)
        place = board.at(2) + 0x4C
        yield lend(rnd, board.image((place, bytes([v])))), good(board) if v <= 1 else refused(31, place)


def rule_32(rnd):
    """Each reserved byte of each structure and of a record: under VerMinor 0, under another, and in a structure not known."""
    variants = [(kind, p, how) for kind in RESERVED for p in range(*RESERVED[kind]) for how in ("0", "1", "not known")
                if how != "not known" or kind in LISTED]
    variants += [(kind, (p,), how) for kind, (size, start) in RECORD.items() for p in range(start, size)
                 for how in ("0", "0", "1", "not known") if how != "not known" or kind in LISTED]
    for kind, p, how in cycle(rnd, variants):
        others = some_others(rnd, 1, 0)
        if kind in LISTED:
            others = others + [some_known(rnd, kind, rnd.randint(1, 3) if kind == GPIO else None, 0)] + some_others(rnd, 1, 0)
        if kind == PROMSIG or rnd.random() < 0.2:
            others.append(some_promsig(rnd))
        board = some(rnd, others, header=LONG if kind == EEPROM else None)
        k = [bytes(part[:8]) for part in board.parts].index(kind)  # the first of its kind
        part = board.parts[k]
        if kind in LISTED and part[8:10] != le(1, 2):
            continue
        # its own reserved bytes are zero, whatever they were
        size, start = RECORD.get(kind, (len(part), len(part)))
        fields = [RESERVED[kind]] + [(r + start, r + size) for r in range(RESERVED[kind][1], len(part), size) if kind in RECORD]
        for a, b in fields:
            part[a:b] = bytes(b - a)
        part[10:12] = le(0 if how == "0" else rnd.choice([1, 2, 256]) if how == "1" else rnd.choice([0, 1]), 2)
        if how == "not known":
            part[8:10] = le(rnd.choice([0, 2, 65535]), 2)
        if isinstance(p, tuple):
            if len(part) == RESERVED[kind][1]:
                continue
            p = p[0] + rnd.choice(range(RESERVED[kind][1], len(part), size))
        place = board.at(k) + p
        value = bytes([rnd.choice([1, 0x20, 0x24, 0x80, 0xFF, rnd.randint(1, 255)])])
        yield lend(rnd, board.image((place, value))), refused(32, place) if how == "0" else good(board)


def cut_fields(rnd):
    """Reserved bytes that are not all there are not read; of a cut run of GPIO records the whole ones are."""
    variants = [("structure", kind, n) for kind in LISTED for n in range(16, RESERVED[kind][1])]
    variants += [("record", r, how) for r in range(1, 0x30) for how in ("rest", "rest", "whole", "whole 1")]
    for part, v, how in cycle(rnd, variants):
        if part == "structure":
            board, k = around(rnd, structure(v, some_bytes(rnd, how - 16), 1, some_minor(rnd)))
            yield lend(rnd, board.image()), refused(33, board.at(k))
            continue
        whole = rnd.choice([0, 1, 1, 2]) if how == "rest" else rnd.choice([1, 2])
        minor = 1 if how == "whole 1" else some_minor(rnd) if how == "rest" else 0
        records = [some_gpio(rnd) for _ in range(whole)]
        rest = rnd.choice([some_gpio(rnd), b"\xff" * 0x30, bytes(0x30), rnd.randbytes(0x30)])[:v]
        board, k = around(rnd, structure(GPIO, bytes(16) + b"".join(records) + rest, 1, minor))
        if how == "rest":
            yield lend(rnd, board.image()), refused(33, board.at(k))
        else:
            place = board.at(k) + 0x20 + 0x30 * rnd.randrange(whole) + rnd.randint(0x22, 0x2F)
            yield lend(rnd, board.image((place, b"\x01"))), refused(32, place) if how == "whole" else refused(33, board.at(k))


def rule_33_fields(rnd):
    """Fixed parts by one, both sides of each bound of FPGA's and GPIO's fields, in any record."""
    variants = [("fixed", kind, d) for kind in LISTED for d in (-1, 0, "head")]
    variants += [("fpga", 0x10, v) for v in (0, 1, 3, 4, 5, 6, 128, 255)] * 2
    variants += [("gpio", 0x21, v) for v in (0, 1, 2, 3, 4, 5, 6, 128, 255)]
    variants += [("gpio", 0x20, v) for v in (0, 1, 2, 3, 4, 5, 6, 8, 128, 255)]
    variants += [("length", 0x10, v) for v in (0, 0x20, 0x2F, 0x30, 0x31, 0x60, 0x130, 0x30000030)] * 2 + [("none", 0, 0)] * 3
    for part, p, v in cycle(rnd, variants):
        minor = rnd.choice([0, 0, 1])
        if part == "fixed":
            whole = some_known(rnd, p, 0, minor)
            fixed = len(whole)
            board, k = around(rnd, resized(whole, 16 if v == "head" else fixed + v))
            yield lend(rnd, board.image()), good(board) if v == 0 else refused(33, board.at(k))
            continue
        n = 0 if part == "none" else rnd.choice([1, 1, 2, 4])
        board, k = around(rnd, some_known(rnd, FPGA if part == "fpga" else GPIO, None if part == "fpga" else n, minor))
        place = board.at(k) + p + (0 if part in ("fpga", "none") else 0x20 + 0x30 * rnd.choice([0, n - 1, rnd.randrange(n)]))
        right = {("fpga", 0x10): v <= 4, ("gpio", 0x21): v <= 4, ("gpio", 0x20): v in (1, 2, 4), ("length", 0x10): v == 0x30,
                 ("none", 0): True}
        changes = [] if part == "none" else [(place, le(v, 4) if part == "length" else bytes([v]))]
        yield lend(rnd, board.image(*changes)), good(board) if right[part, p] else refused(33, place)


def rule_33_labels(rnd):
    """Each byte of a GPIO record's label bad."""
    while True:
        variants = [(p, label) for p, label in bad_labels(rnd)] + [(None, label) for label in good_labels(rnd)]
        rnd.shuffle(variants)
        for p, label in variants:
            n = rnd.choice([1, 2, 3])
            board, k = around(rnd, some_known(rnd, GPIO, n))
            at = board.at(k) + 0x20 + 0x30 * rnd.randrange(n)
            yield lend(rnd, board.image((at, label))), good(board) if p is None else refused(33, at + p)


def rule_33_cut(rnd):
    """GPIO data of every length around one and two records."""
    for n in cycle(rnd, [*range(0x00, 0x65), 0x8F, 0x90, 0x91]):
        data = b"".join(some_gpio(rnd) for _ in range(4))[:n]
        board, k = around(rnd, structure(GPIO, bytes(16) + data, 1, some_minor(rnd)))
        yield lend(rnd, board.image()), good(board) if n % 0x30 == 0 else refused(33, board.at(k))


def rich(rnd, records=None, signed=None):
    """A board in which every rule can be broken: padding, FPGA and GPIO known, a VerMinor of 0, a $PromSig if asked for or as it falls."""
    others = [some_known(rnd, FPGA, minor=0), some_known(rnd, GPIO, rnd.randint(1, 2)), some_unknown(rnd, rnd.randint(1, 15))]
    rnd.shuffle(others)
    signed = rnd.random() < 0.3 if signed is None else signed
    return some(rnd, others + ([some_promsig(rnd)] if signed else [some_unknown(rnd)]), records)


def two_places(rnd):
    """One rule broken at several places: the smallest counts."""
    for rule in cycle(rnd, [24, 26, 30, 30, 34, 32, 32, 33, 33]):
        board = rich(rnd, rnd.choice([3, 4, 8, 12]) if rule == 34 else None)
        where = spots(board, rule)
        if len(where) < 2:
            continue
        chosen = rnd.sample(where, min(len(where), rnd.choice([2, 2, 3, 5])))
        yield lend(rnd, board.image(*(s[1:] for s in chosen))), refused(rule, min(s[0] for s in chosen))


def two_structures(rnd):
    """Rule 25 or 33 broken by several structures, or by a structure and a field in another: the smallest place counts."""
    for rule in cycle(rnd, [25, 25, 33]):
        if rule == 25:
            bad = [some_map(rnd), some_board(rnd), some_header(rnd), some_promsig(rnd)]
        else:
            bad = [structure(kind, rnd.randbytes(rnd.randrange(16))) for kind in rnd.sample(LISTED, 2)]
            bad += [structure(FPGA, b"\x05" + bytes(15)), structure(GPIO, bytes(0x20))]
        rnd.shuffle(bad)
        before = some_others(rnd, 1, 0)
        between = some_others(rnd, 1, 0)
        board = some(rnd, before + [bad[0]] + between + bad[1:] + [some_unknown(rnd)])
        inner = 0x10 if rule == 33 and bytes(bad[0][:8]) == FPGA and len(bad[0]) == 0x20 else 0
        yield lend(rnd, board.image()), refused(rule, board.at(3 + len(before)) + inner)


def two_rules(rnd):
    """Two or three rules broken at any places: the first in their order counts. Its change is made last, and so stays."""
    for low, high in cycle(rnd, itertools.combinations(RULES[1:], 2)):
        later = RULES[RULES.index(low) + 1:]
        broken = {low, high} | {rule for rule in rnd.sample(RULES[1:], rnd.choice([0, 0, 1])) if rule in later}
        records = [123, 124] if 28 in broken else [2, 2, 3, 5, 8] if 34 in broken else [None]
        board = rich(rnd, rnd.choice(records), True if 29 in broken else None)
        if 25 in broken:
            again = rnd.choice([some_map, some_board, some_header])(rnd)
            board.parts.insert(rnd.randint(3, board.last()), again)
            board.fit()
        where, changes = {}, []
        for rule in sorted(broken, key=RULES.index, reverse=True):
            if rule == 21:
                where[rule] = 0
                changes.append(rnd.choice([(1, b"e"), (8, le(2, 2)), (12, le(rnd.choice(NO_HEADER), 4))]))
            elif rule == 22:
                where[rule] = 0x10
                changes.append((0x10, le(rnd.choice([board.header() - 1, board.end() + 1, 0xFFFFFFFF]), 4)))
            elif rule == 23:
                where[rule] = board.at(rnd.randint(1, board.last()))
                changes.append(rnd.choice([(where[rule], b"E"), (where[rule] + 12, le(15, 4)), (where[rule] + 12, le(board.end(), 4))]))
            elif rule == 25:
                where[rule] = board.at([part is again for part in board.parts].index(True))
            elif rule == 28:
                where[rule] = board.at(2)
            elif rule != 27:
                found = spots(board, rule)
                where[rule], at, data = rnd.choice(found)
                changes.append((at, data))
        image = board.image(*changes)
        if 27 in broken:
            where[27] = rnd.choice([0x14, 0x18])
            if where[27] == 0x14:
                image = with_crc(image, crc_of(image, board.summed()) ^ 1 << rnd.randrange(32))
            else:
                image = board.image(*changes, (0x18, le(board.summed() + 1, 4)))
        yield lend(rnd, image, 0 if 22 in broken else 0.3), refused(low, where[low])


def truncations(rnd):
    """Every truncation of two images, one with each header, from nothing to all of it; then of the next two."""
    while True:
        boards = [some(rnd, some_others(rnd, 2), header=h) for h in HEADERS]
        for board, n in shuffled(rnd, ((board, n) for board in boards for n in range(board.end() + 1))):
            yield board.image()[:n], refused(20, 0) if n < SHORT else refused(22, 0x10) if n < board.end() else good(board)


def shuffled(rnd, made):
    out = list(made)
    rnd.shuffle(out)
    return out


def truncations_checked(rnd):
    """Every truncation of two images, one with each header, StructLen, CrcLength and Crc32 made right again: a structure's end, or none
    where one is due."""
    while True:
        boards = [some(rnd, some_others(rnd, 3, 0), header=h) for h in HEADERS]
        for board, n in shuffled(rnd, ((board, n) for board in boards for n in [*range(SHORT, board.end() + 1), *board.ends() * 4])):
            image = board.image()
            cut = image[:0x10] + le(n, 4) + image[0x14:0x18] + le(n, 4) + image[0x1C:]
            cut = with_crc(cut, crc_of(cut, n))
            cut = rnd.choice([cut[:n], cut])
            yield cut, cut_to(board, n, len(cut)) or "accepted %d" % sum(end <= n for end in board.ends())


def mutated(rnd):
    """A good image with one byte changed, the CRC made right again."""
    while True:
        board = some(rnd)
        place = rnd.randrange(board.end())
        byte = board.image()[place]
        yield lend(rnd, board.image((place, bytes([rnd.choice([rnd.randrange(256), byte ^ 1 << rnd.randrange(8), byte + 1 & 255])])))), "?"


def mutated_heads(rnd):
    """A good image with bytes of heads and of fields changed, the CRC made right again."""
    while True:
        board = some(rnd)
        changes = []
        for _ in range(rnd.randint(1, 3)):
            place = board.at(rnd.randint(0, board.last())) + rnd.randrange(16 if rnd.random() < 0.5 else 0x30)
            if place < board.end():
                changes.append((place, bytes([rnd.choice([0, 1, 2, 0x10, 0x20, 0x30, rnd.randrange(256)])])))
        yield lend(rnd, board.image(*changes)), "?"


def random_behind_header(rnd):
    """Random bytes behind a good header, or behind a good map and board."""
    while True:
        front = some(rnd, [])
        image = front.image()[:rnd.choice([front.header(), front.header(), front.at(2), front.end()])]
        letters = rnd.choice([bytes(range(256)), b"\0\1\x10\x20$", b"$\0\0\x10"])
        image += bytes(rnd.choice(letters) for _ in range(rnd.choice([0, 1, 16, 17, rnd.randint(0, 300)])))
        yield whole(rnd, image), "?"


def whole(rnd, image):
    """StructLen, CrcLength and Crc32 made right for all that there is."""
    image = image[:0x10] + le(len(image), 4) + image[0x14:0x18] + le(len(image), 4) + image[0x1C:]
    return lend(rnd, with_crc(image, crc_of(image, len(image))))


def random_structures(rnd):
    """Whole structures of any signature with random contents behind a good board; the walk is good, the rest as it falls."""
    while True:
        others = []
        for _ in range(rnd.randint(1, 5)):
            signature = rnd.choice(LISTED * 3 + ALWAYS + (some_signature(rnd),))
            n = rnd.choice([0, 1, 15, 16, 17, 32, 0x40, 0x70, rnd.randint(0, 120)])
            body = rnd.choice([bytes(n), rnd.randbytes(n), bytes(min(n, 16)) + rnd.randbytes(max(0, n - 16)),
                               bytes(rnd.choice(b"\0\0\0\1\x30$") for _ in range(n))])
            others.append(structure(signature, body, rnd.choice([1, 1, 1, 2]), rnd.choice([0, 0, 1])))
        board = Board([some_header(rnd), some_map(rnd), some_board(rnd)] + others)
        image = board.image() if board.summed() <= board.end() else bytes(0x30)
        yield lend(rnd, image), "?"


def large(rnd):
    """Images about as large as may be: what is lent, StructLen, a structure due past both, thousands of structures and records."""
    variants = ["lent 65535", "lent 65536", "lent 65537", "65536", "65536 lent 65537", "65535", "due at 65536", "due at 65536", "over lent",
                "many", "records", "bad record", "reserved", "signed", "middle", "random"]
    for part in cycle(rnd, variants):
        board = some(rnd)
        small, header = board.image(), board.header()
        if part.startswith("lent"):
            n = int(part[5:])
            yield small + some_bytes(rnd, n - len(small)), good(board) if n <= LONGEST else refused(20, 0)
            continue
        before = some_others(rnd, 2, 0)
        tail = [some_promsig(rnd)] if part == "signed" else []
        end = LONGEST - sum(up(len(t)) - len(t) for t in tail)
        if part == "65535":
            end -= 1
        elif part == "due at 65536":
            end -= rnd.randint(2, 15)
        elif part == "middle":
            end = rnd.randint(2000, 60000)
        room = end - sum(len(t) for t in tail) - Board([some_header(rnd, header), some_map(rnd, 4), some_board(rnd)] + before + [b""]).end()
        if part == "many":
            filling = [structure(some_signature(rnd), b"") for _ in range(room // 16)]
        elif part in ("records", "bad record"):
            filling = [some_known(rnd, GPIO, (room - 0x20) // 0x30)]
        elif part == "reserved":
            filling = [some_known(rnd, rnd.choice([ACPI, LOGO, UCODE]), room - 0x60, 0), some_known(rnd, VIDEO, 0, 0)]
        elif part == "random" or tail:
            room -= room % 16 if tail else 0
            filling = [rnd.choice([some_unknown(rnd, room - 16), some_known(rnd, LOGO, room - 0x20)])]
        else:
            filling = [rnd.choice([some_unknown(rnd, room - 16), some_known(rnd, NIC, room - 0x30)])]
        board = some(rnd, before + filling + tail, 4, header)
        image = board.image()
        assert len(image) <= LONGEST, part
        if part == "65536":
            assert len(image) == LONGEST
            yield image, good(board)
        elif part == "65536 lent 65537":
            yield image + b"\0", refused(20, 0)
        elif part == "due at 65536":
            image += bytes(LONGEST - len(image))
            yield image[:0x10] + le(rnd.randint(end + 1, LONGEST), 4) + image[0x14:], refused(23, LONGEST)
        elif part == "over lent":
            yield image[:0x10] + le(len(image) + 1, 4) + image[0x14:], refused(22, 0x10)
        elif part == "bad record":
            at = board.at(board.last()) + 0x20 + 0x30 * ((room - 0x20) // 0x30 - 1)
            yield board.image((at + 0x20, b"\x03")), refused(33, at + 0x20)
        elif part == "reserved":
            place = board.at(board.last()) + rnd.randint(0x10, 0x1F)
            yield board.image((place, b"\x01")), refused(32, place)
        elif part == "random":
            yield board.image((rnd.randrange(len(image)), bytes([rnd.randrange(256)]))), "?"
        else:
            yield image, good(board)


# ---- the paper's cases, the samples, and the records that the gate runs ----

def plain(records=1, others=(), block=None, **over):
    """Case 13 and its like: fixed contents, save what is given."""
    f = dict(header=LONG, version=4, label=b"rig", page=32, bus=0, master=1, speed=2, names=(b"Gwejlusa", b"rig", b"0001"),
             labels=(b"top1",))
    f.update(over)
    labels = list(f["labels"]) + [b"top%d" % k for k in range(len(f["labels"]) + 1, records + 1)]
    return Board([header(f["version"], reserved=bytes(f["header"] - SHORT)),
                  eeprom_map(labelled(f["label"]), f["page"], f["bus"], f["master"], f["speed"],
                             [map_record(labelled(text), 0x50 + k % 0x30) for k, text in enumerate(labels[:records])]),
                  board_info([named(n) for n in f["names"]], (1, 2, 3), 0), *others], 4096 if block is None else block)


def case_13():
    return plain().image()


def paper_cases():
    """Cases 12 and 13 of the build paper, the numbers of records beside 122, and two records that are both labelled top1, with each
    header."""
    for h in HEADERS:
        yield plain(header=h).image(), "accepted 3"
        for n in (121, 122):
            yield plain(n, header=h).image(), "accepted 3"
        for n in (123, 124):
            yield plain(n, header=h).image(), refused(28, h + 0x30 + 0x20 * n)
        yield plain(2, labels=(b"top1", b"top1"), header=h).image(), refused(34, h + 0x50)


def sample_images():
    """The samples by name."""
    gpio = gpio_record(labelled(b"lamp"), 0x1C0, 0xFFFFFFFE, 1, 4, 1)
    fixed = {ACPI: bytes(16) + b"DSDT", FPGA: b"\x03\x01\x02" + bytes(13) + bytes(range(16)), GPIO: bytes(16) + gpio + gpio_record(
        labelled(b"sixteen letters."), 0x1C4, 0, 0x80000000, 1, 4), CODEC: bytes(16) + bytes(8), LOGO: bytes(16) + b"BM" + bytes(30),
        MEMORY: le(5, 2) + bytes(14) + bytes(4), NIC: named(b"lan0", 8) + bytes.fromhex("02005E100001") + le(1, 2) + bytes(16),
        UCODE: bytes(16) + bytes(32), VIDEO: bytes(16)}
    every = [structure(kind, fixed[kind]) for kind in LISTED]
    sig = structure(PROMSIG, le(3, 2) + bytes(14) + bytes(range(32)))
    signed = structure(PROMSIG, le(SIGNED + 3, 2) + bytes(14) + bytes(range(96)))
    out = {"case13": case_13(), "short-header": plain(header=SHORT).image(), "case12": plain(122).image(),
           "all-kinds": plain(2, every + [sig]).image(), "signed": plain(1, [signed]).image(),
           "longer-than-StructLen": case_13() + b"$AcpiTbl" + b"\xff" * 24}
    out["unknown"] = plain(1, [structure(b"$Fan", bytes(16)), structure(b"$Fan A\"\\", b"\1\2\3"), structure(LOGO, b"\xff" * 5, 2),
                               structure(VIDEO, b"\xff" * 17, 1, 2), structure(b"$\x01\x7f\xe9  \0x", b"\4")]).image()
    out["escapes"] = plain(2, [structure(NIC, b'a\0"b\\\x7f  ' + bytes(8) + bytes(16)),
                               structure(GPIO, bytes(16) + gpio_record(labelled(b"say \"hi\" \\ there"), 0, 0, 0, 1, 0))],
                           label=b'a"b\\c', labels=(b"", b" two words "),
                           names=(b'"quoted"', b"back\\slash\0x", b"\xc3\xa9\x1f\n tail ")).image()
    board = plain(1, [structure(FPGA, bytes(16) + b"x"), structure(b"$Fan", b"")])
    padded, fan = board.at(3) + len(board.parts[3]), board.at(4)
    signed_badly = plain(1, [structure(PROMSIG, le(SIGNED + 4, 2) + bytes(14) + bytes(0x30))])
    bad = {20: case_13()[:16], 21: plain().image((8, le(2, 2))), 22: case_13()[:-1],
           23: board.image((fan, b"E")), 24: board.image((padded, b"\1")),
           25: Board([header(4), plain().parts[1]], 4096).image(), 26: plain().image((0x88, le(2, 2))),
           27: with_crc(case_13(), crc_of(case_13(), 0xE0) ^ 1), 28: plain(123).image(), 29: signed_badly.image(),
           30: plain().image((0x64, b"\0")), 31: plain().image((0x80 + 0x4C, b"\2")), 32: board.image((board.at(3) + 0x13, b"\1")),
           33: board.image((board.at(3) + 0x10, b"\5")), 34: plain(3, labels=(b"top1", b"top2", b"top1")).image()}
    out.update(("refused-%d" % number, image) for number, image in bad.items())
    return out


def coded_images():
    """An image for each HashType; each value of the other codes is among them."""
    for n, hash_type in enumerate((*HASHES, SIGNED + 1, SIGNED + 2, SIGNED + 3)):
        fpga, gpio = bytes([n % 5]) + bytes(15), bytes(16) + gpio_record(labelled(b"lamp"), 0, 0, 0, 1, n % 5)
        sig = le(hash_type, 2) + bytes(14) + bytes(HASHES[hash_type % SIGNED])
        board = plain(1, [structure(FPGA, fpga), structure(GPIO, gpio), structure(PROMSIG, sig)], speed=n % 4)
        yield board.image((board.at(2) + 0x4C, bytes([n % 2])))


def record(mask, image):
    """A record of a run for `board answers`."""
    return le(mask, 4) + le(len(image), 4) + image


def gate_records():
    """Case 12 and one record more with each header, and its last label twice; the samples with the full and with the bare list; what is
    beside case 13, with each header; records of nearly one label and of one; a structure of each listed kind with several lists; and of
    each group a good image and a bad one, if it has both."""
    rnd = random.Random("records")
    every = [structure(kind, bytes(0x20)) for kind in LISTED]
    twice = [b"top%d" % min(k, 121) for k in range(1, 123)]
    boards = [plain(n, header=h) for h in (LONG, SHORT) for n in (122, 123)] + [plain(122, labels=twice)]
    out = [record(FULL, board.image()) for board in boards]
    out += [record(mask, image) for image in sample_images().values() if len(image) < 4096 for mask in (FULL, 0)]
    for h in HEADERS:
        board = plain(header=h)
        image = board.image()
        out += [record(FULL, image[:n]) for n in (SHORT - 1, SHORT, LONG - 1, LONG)] + [record(FULL, image + b"\0")]
        out += [record(FULL, board.image((0x10, le(n, 4)))) for n in (SHORT - 1, SHORT, SHORT + 1, LONG - 1, LONG, LONG + 1)]
        out += [record(FULL, board.image((12, le(n, 4)))) for n in (*HEADERS, 0, 0x10, SHORT + 1, LONG - 1, LONG + 1, 0x10020)]
        out += [record(FULL, board.image((place, b"\1"))) for place in (10, SHORT, LONG - 1)]
    out += [record(FULL, image) for image in (plain(2).image(), b"")]
    labels = ((b"rig", b"top1"), (b"", b""), (b"", b" "), (b"a" * 15, b"a" * 16), (b"a" * 16, b"a" * 16), (b"a", b"b", b"b", b"a"))
    out += [record(FULL, plain(len(texts), labels=texts).image()) for texts in labels]
    out += [record(mask, plain(1, every).image()) for mask in (FULL, 0, 0xFF, FULL - 0x400, 0x400, 0x10000, 0x155AA)]
    for group, *_ in GROUPS:
        if group in (large, rule_28):
            continue
        found = {}
        for image, said in itertools.islice(group(rnd), 40):
            if len(image) <= 600:
                found.setdefault(said.split()[0], image)
        for image in found.values():
            out.append(record(rnd.choice([FULL, FULL, FULL, FULL - (1 << rnd.randint(8, 16)), rnd.randint(0, FULL)]), image))
    return b"".join(out)


# a group, how many images it gives in a turn, and in which turns (every so many)
GROUPS = [(good_mixed, 8, 1), (good_each_kind, 3, 1), (good_lengths, 3, 1), (good_records, 2, 1), (good_unknown, 2, 1), (good_near, 1, 1),
          (good_many, 1, 2), (good_names, 1, 1), (rule_20, 4, 1), (rule_21, 2, 1), (rule_22, 2, 1), (damaged_header, 4, 1),
          (other_length, 2, 1), (behind_short, 1, 1), (rule_23, 6, 1), (rule_24, 4, 1), (rule_25, 5, 1), (rule_26, 4, 1),
          (rule_27, 6, 1), (rule_28, 1, 2), (rule_29, 5, 1), (rule_30_labels, 5, 1),
          (rule_30_fields, 6, 1), (rule_34, 7, 1), (rule_31, 1, 1), (rule_32, 10, 1), (cut_fields, 5, 1), (rule_33_fields, 4, 1),
          (rule_33_labels, 4, 1), (rule_33_cut, 2, 1), (two_places, 4, 1), (two_structures, 1, 1), (two_rules, 6, 1), (truncations, 5, 1),
          (truncations_checked, 6, 1), (mutated, 5, 1), (mutated_heads, 4, 1), (random_behind_header, 3, 1), (random_structures, 4, 1),
          (large, 1, 4)]


def images(seed):
    """All images, for ever: (group, image, what the full list answers)."""
    for case in paper_cases():
        yield ("paper_cases",) + case
    running = [(g.__name__, g(random.Random("%s %s" % (seed, g.__name__))), n, every) for g, n, every in GROUPS]
    turn = 0
    while True:
        for name, group, n, every in running:
            for _ in range(n if turn % every == 0 else 0):
                yield (name,) + next(group)
        turn += 1


def main():
    command = sys.argv[1] if len(sys.argv) == 2 else ""
    if command == "records":
        sys.stdout.buffer.write(gate_records())
    elif command == "case13":
        sys.stdout.buffer.write(case_13())
    elif command == "samples":
        for name, image in sample_images().items():
            with open("samples/board-%s.bin" % name, "wb") as f:
                f.write(image)
    else:
        sys.exit("usage: board_images.py records | case13 | samples")


if __name__ == "__main__":
    main()
