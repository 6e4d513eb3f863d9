#!/usr/bin/env python3
"""Requests to the board writer, and pairs of images for the choice.

`requests(seed)` gives requests for ever, each as (room, request, answer): how many bytes of buffer are lent, the other six parts of the
request (Request), and the line that must be answered by the way the request was made, or None where the maker does not know. There are
good ones of every kind, each refusal on both sides of its bound, several refusals at once, truncations, images of board_images.py taken
apart, and random bytes. `pairs(seed)` gives pairs for ever, each as (list, firmware, EEPROM, answer): the two images, and the line that
says which is chosen, or None. There are all of accepted and refused, boards that differ in one byte, Versions on both sides of each
other, a short header on one side and a long one on the other, and lists with which only one image is accepted. The same seed gives the
same. Both come from groups taken in turn (GROUPS and PAIRS). A group walks round its list of variants, and puts each into fresh random
surroundings, with the short or the long header.

`line(rnd, room, request)` is a request as tests/README.md has it, and `OTHER_LINES` are lines that are none. `record(list, firmware,
eeprom)` is a pair as tests/README.md has it, and `choice_text` is all that must be answered to it.

    board_runs.py requests >crates/board_write/stdin    cases 12 and 13, what is beside them, each refusal but 40, lines that are none
    board_runs.py pairs >crates/choice_answers/stdin    case 11, what is beside it, several lists

What they must be answered with is made by tests/reference/board_write.c: `board write` and `board choice`.
"""
import collections
import itertools
import random
import sys

import board_images
from board_images import ASK_LIST, BOARD, EEPROM, FPGA, FULL, GPIO, HASHES, HEADERS, LISTED, LONG, LONGEST, LOGO, MAP, NO_HEADER
from board_images import PROMSIG, RESERVED, SHORT, SIGNED
from board_images import Board, crc_of, labelled, le, lend, plain, repeated, resized, rich, same_labels, shared, shuffled, some
from board_images import some_bytes, some_known, some_label, some_map, some_name, some_number, some_others, some_promsig, some_unknown
from board_images import spots, structure, up, with_crc
from tiny_images import cycle
from tiny_runs import blanks, in_hex, refused, written

MOST = 65600  # bytes in a buffer, in a run of records and in further bytes
ORDER = (46, 40, 41, 23, 24, 25, 26, 28, 29, 30, 34, 31, 32, 33, 45)  # which refusal is given if several apply
GIVEN = 17  # bytes of a record in a run

# the header's Length in one byte; Version; the map's fields; the run of records; the board's fields; further bytes
Request = collections.namedtuple("Request", "header version fields records names further")


class Laid(collections.namedtuple("Laid", "header records")):
    """Where the parts of an image lie that is laid as a writer does it, by its header's Length and the number of its records."""

    def record(self, k):
        return self.header + 0x30 + 0x20 * k

    def board(self):
        return self.record(self.records)

    def further(self):
        """Where the board ends, and the further bytes start."""
        return self.board() + 0x60


# ---- building ----

def laid(request):
    return Laid(request.header[0], len(request.records) // GIVEN)


def laid_as(board):
    return Laid(board.header(), board.records())


def size_of(request):
    return laid(request).further() + len(request.further)


def image_of(request):
    """The image of a request without a $PromSig."""
    rows = [request.records[at:at + GIVEN] for at in range(0, len(request.records), GIVEN)]
    block, total = int.from_bytes(request.fields[16:20], "little"), size_of(request)
    out = structure(EEPROM, le(total, 4) + bytes(4) + le(total, 4) + request.version + bytes(request.header[0] - SHORT))
    out += structure(MAP, request.fields + bytes(3) + b"".join(
        row[:16] + le(0x20, 4) + le(k * block & 0xFFFFFFFF, 4) + row[16:] + bytes(7) for k, row in enumerate(rows)))
    out += structure(BOARD, request.names + bytes(19)) + request.further
    return with_crc(out, crc_of(out, total))


def apart(image, where, end=None):
    """The parts of an image that lie as a writer lays them."""
    h, at = where.header, where.board()
    records = b"".join(image[r:r + 16] + image[r + 0x18:r + 0x19] for r in map(where.record, range(where.records)))
    return Request(*map(bytes, ([h], image[0x1C:0x20], image[h + 0x10:h + 0x2D], records, image[at + 0x10:at + 0x4D],
                                image[where.further():end])))


def asked(board, *changes):
    """The request for a board, changes (place, bytes) made in its image."""
    return apart(board.image(*changes), laid_as(board))


def as_written(board):
    """VerMinor 0 and zero reserved bytes in the first three structures."""
    for part in board.parts[:3]:
        start, end = RESERVED[bytes(part[:8])]
        part[10:12], part[start:end] = bytes(2), bytes(min(end, len(part)) - start)
    for at in range(0x30, len(board.parts[1]), 0x20):
        board.parts[1][at + 0x19:at + 0x20] = bytes(7)
    return board


def some_writable(rnd, others=None, records=None, header=None):
    """A good board that a writer can make, of any content save what is given."""
    return as_written(some(rnd, some_others(rnd, signed=0) if others is None else others, records, header))


def enough(rnd, total):
    """A room in which an image of this length fits."""
    return rnd.choice([total] * 5 + [total + 1, total + 1, total + 2, total + 16, min(MOST, rnd.randint(total, total + 300))]
                      + [rnd.choice([LONGEST, MOST])] * (rnd.random() < 0.02))


def any_room(rnd):
    return rnd.choice([0, 0, 1, 0xCF, 0xD0, 0xD1, 0xDF, 0xE0, 0xE1, rnd.randint(0, 2000), rnd.randint(0, 2000)]
                      + [rnd.choice([65535, LONGEST, MOST])] * (rnd.random() < 0.03))


def answered(request, room, number=0, place=0):
    """The request, and what is due: a refusal of the reader or 45 if one is given (None: not known), and 46, 40 and 41 before it."""
    if len(request.records) % GIVEN:
        number, place = 46, 0
    elif size_of(request) > LONGEST:
        number, place = 40, 0
    elif size_of(request) > room:
        number, place = 41, 0
    if number is None:
        return room, request, None
    return room, request, refused(room, number, place) if number else written(room, image_of(request))


def due(rnd, request, number=0, place=0):
    """The same in a buffer that is long enough."""
    return answered(request, enough(rnd, size_of(request)), number, place)


def filling(rnd, size):
    """One structure of so many bytes, of a kind that may have them."""
    return rnd.choice([some_unknown(rnd, size - 16), some_known(rnd, LOGO, size - 0x20)]) if size >= 0x20 else some_unknown(rnd, size - 16)


# ---- images taken apart ----

def lies(image):
    """Where its parts lie, if the map and the board lie in the image as a writer lays them; else None. The map's place is the Length of the
    header, whatever that says."""
    end = int.from_bytes(image[0x10:0x14], "little")
    for h in HEADERS:
        n, left = divmod(int.from_bytes(image[h + 12:h + 16], "little") - 0x30, 0x20)
        where = Laid(h, n)
        if left or n < 0 or not where.further() <= end <= len(image) or image[h:h + 8] != MAP:
            continue
        at = where.board()
        if image[at:at + 8] == BOARD and image[at + 12:at + 16] == le(0x60, 4):
            return where
    return None


def last_place(image, where):
    """The place of the last structure of an image whose walk is good."""
    at, end = where.header, int.from_bytes(image[0x10:0x14], "little")
    while True:
        ends = at + int.from_bytes(image[at + 12:at + 16], "little")
        if ends == end:
            return at
        at = up(ends)


def carried(number, place, where):
    """Whether what breaks the rule there is given to the writer, and not worked out by it."""
    if number == 26:
        return where.records == 0 and place == where.header or place >= where.further()
    if number == 30:  # not the Length and the Offset of a record
        return place < where.record(0) or (place - where.record(0)) % 0x20 not in (0x10, 0x14)
    return number in (28, 34, 31) or number in (23, 24, 25, 29, 32, 33) and place >= where.further()


def said_of(image, where, said, alone):
    """What is due for the parts of an image of which the judge says so much; alone: nothing but that is broken in it. What a writer works
    out is never broken, and what it is given breaks the same rules in the same places."""
    words = said.split()
    if words[0] == "refused":
        number, place = map(int, words[1:])
        if carried(number, place, where):
            return number, place
    if words[0] == "?" or words[0] == "refused" and not alone:
        return None, 0
    last = last_place(image, where)
    return (45, last) if image[last:last + 8] == PROMSIG else (0, 0)


def can_be_made(image, where):
    """Whether the first three structures have VerMinor 0, so that an accepted image is rebuilt to the last byte."""
    return all(image[at + 10:at + 12] == bytes(2) for at in (0, where.header, where.board()))


def taken_apart(rnd, made, alone=False):
    """Images from their own parts, the header's Length among them: the same image, or the same refusal if what broke the rule was given."""
    for image, said in made:
        where = lies(image)
        if where is None:
            continue
        end = int.from_bytes(image[0x10:0x14], "little")
        request, (number, place) = apart(image, where, end), said_of(image, where, said, alone)
        room = rnd.choice([0, end - 1]) if rnd.random() < 0.04 else enough(rnd, end)
        if said.startswith("accepted") and number == 0 and room >= end and can_be_made(image, where):
            yield room, request, written(room, image[:end])
        else:
            yield answered(request, room, number, place)


def made_of(images, alone=False):
    """The images that a group of board_images makes."""
    def group(rnd):
        yield from taken_apart(rnd, images(rnd), alone)
    group.__name__ = "made of " + images.__name__
    return group


# ---- groups of requests: each yields (room, request, answer) for ever ----

def good_records(rnd):
    """One to 122 records, with further structures and without; blocks that just hold the image, and as large as may be."""
    for n, block in cycle(rnd, [(n, b) for n in [*range(1, 123), 1, 2, 3, 121, 122, 122] for b in ("least", "most", "any")]):
        board = some_writable(rnd, rnd.choice([[], None]), n)
        least, most = -(-board.end() // n), 0xFFFFFFFF // n
        board.fit({"least": least, "most": most}.get(block, rnd.randint(least, most)))
        yield due(rnd, asked(board))


def good_further(rnd):
    """Nothing further; each listed kind; each Length from 16 to 80, last or not; all nine kinds; many."""
    variants = [("none", 0), ("all", 0), ("many", 0)] * 4 + [("kind", kind) for kind in LISTED] * 2 + [("Length", n) for n in range(16, 81)]
    for part, v in cycle(rnd, variants):
        if part == "all":
            others = rnd.sample([some_known(rnd, kind) for kind in LISTED], len(LISTED))
        elif part == "many":
            others = [some_unknown(rnd, rnd.choice([0, 1, 15, 16])) for _ in range(rnd.randint(20, 60))]
        elif part == "none":
            others = []
        else:
            one = some_known(rnd, v) if part == "kind" else filling(rnd, v)
            others = some_others(rnd, 1, 0) + [one] + some_others(rnd, 1, 0)
        yield due(rnd, asked(some_writable(rnd, others)))


def each_header(rnd):
    """The same request with each header, in rooms for both images and for the shorter one alone. With the long header PartSize may be below
    StructLen."""
    while True:
        short = asked(some_writable(rnd, rnd.choice([[], None]), header=SHORT))
        requests = [short._replace(header=bytes([h])) for h in HEADERS]
        for request, room in itertools.product(requests, map(size_of, requests)):
            small = int.from_bytes(request.fields[22:26], "little") < size_of(request)
            yield answered(request, room, *(30, request.header[0] + 0x26) if small else ())


def rooms(rnd):
    """A room of a byte less, just enough, a byte more, none at all, any less."""
    while True:
        request = asked(some_writable(rnd))
        total = size_of(request)
        for room in (total - 1, total, total + 1, rnd.choice([0, 1, rnd.randrange(total)])):
            yield answered(request, room)


def rule_46(rnd):
    """Runs of records of every length about whole seventeens; whatever else is wrong."""
    variants = [*range(1, 55), *(17 * n + d for n in (4, 5, 16, 121, 122, 123) for d in (-1, 0, 1))]
    for length in cycle(rnd, variants):
        n = max(1, length // GIVEN)
        board = some_writable(rnd, records=n)
        request = asked(board)
        run = (request.records + some_bytes(rnd, GIVEN))[:length]
        if length % GIVEN:
            further = rnd.choice([request.further, request.further, b"", some_bytes(rnd, 20), bytes(16)])
            fields = rnd.choice([request.fields, request.fields, rnd.randbytes(29)])
            yield answered(request._replace(records=run, further=further, fields=fields), rnd.choice([any_room(rnd), size_of(request)]))
        elif n > 122:
            yield due(rnd, request, 28, board.at(2))
        else:
            yield due(rnd, request)


def rule_40(rnd):
    """Images of 65,536 and 65,537 bytes and about there, and of far more, by further bytes, by records and by both."""
    totals = (65535, 65536, 65536, 65537, 65537, 65538, 65552)
    variants = [("further", t) for t in totals] + [("records", n) for n in (2041, 2042, 2043, 3858)]
    variants += [("both", d) for d in (-1, 0, 1, 2)] + [("most", 0)]
    for part, v in cycle(rnd, variants):
        room, header = rnd.choice([0, 65535, LONGEST, LONGEST, 65537, MOST]), rnd.choice(HEADERS)
        if part == "further":
            n = rnd.choice([1, 2, 122])
            before = rnd.choice([[], [structure(b"$Fan", b"")]])
            others = before + [filling(rnd, v - Laid(header, n).further() - 16 * len(before))]
            yield answered(asked(some_writable(rnd, others, n, header)), room)
        elif part == "most":
            request = asked(some_writable(rnd, []))
            yield answered(request._replace(further=some_bytes(rnd, MOST)), room)
        else:
            n = v if part == "records" else rnd.choice([1000, 2000, 2040])
            where = Laid(header, n)
            others = [] if part == "records" else [filling(rnd, LONGEST + v - where.further())]
            yield answered(asked(some_writable(rnd, others, n, header)), room, 28, where.board())


def rule_45(rnd):
    """A good $PromSig of each type, alone and behind others, with any VerMinor; and others that the reader refuses."""
    types = [*HASHES, SIGNED + 1, SIGNED + 2, SIGNED + 3]
    variants = [("good", t) for t in types] * 2 + [("longer", t) for t in types] + [("shorter", t) for t in types if t % SIGNED]
    variants += [("type", t) for t in (6, 7, SIGNED, SIGNED + 4, SIGNED + 5, 0x4001, 0xFFFF)]
    variants += [("major", v) for v in (0, 2, 257)] + [("Length", v) for v in (0x10, 0x11, 0x1F)] + [("not last", 0)] * 3
    variants += [("reserved", p) for p in (0x12, 0x1F)] + [("behind", 0)] * 3
    for part, v in cycle(rnd, variants):
        before = some_others(rnd, 2, 0)
        sig = some_promsig(rnd, v if part in ("good", "longer", "shorter") else None)
        number, inner = 45, 0
        if part in ("longer", "shorter"):
            sig = sig[:0x20] + rnd.randbytes(HASHES[v % SIGNED] + (rnd.choice([1, 64]) if part == "longer" else -1))
            sig[12:16] = le(len(sig), 4)
            number, inner = (45, 0) if part == "longer" and v >= SIGNED else (29, 0x10)
        elif part == "type":
            sig = structure(PROMSIG, le(v, 2) + bytes(14) + rnd.randbytes(HASHES.get(v % SIGNED, 0x10)))
            number, inner = 29, 0x10
        elif part == "major":
            sig[8:10], number = le(v, 2), 26
        elif part == "Length":
            sig, number = structure(PROMSIG, rnd.randbytes(v - 16)), 26
        elif part == "reserved":
            sig[10:12], sig[0x12:0x20] = bytes(2), bytes(14)
            sig[v], number, inner = rnd.randint(1, 255), 32, v
        after = [rnd.choice([some_unknown, some_promsig])(rnd)] if part == "not last" else []
        board = some_writable(rnd, before + [sig] + after)
        place = board.at(3 + len(before))
        if part == "behind":  # bytes behind it: another structure is due
            request = asked(board)
            more = bytes(up(len(request.further)) - len(request.further)) + rnd.choice([bytes(1), bytes(16), b"$" * 5])
            yield due(rnd, request._replace(further=request.further + more), 23, up(board.end()))
        else:
            yield due(rnd, asked(board), 25 if after else number, place + inner)


def rule_23(rnd):
    """Further bytes that are too short for a structure, all zeros, or end in padding."""
    variants = [("few", n) for n in range(1, 16)] + [("zeros", n) for n in (1, 16, 32, 100)] + [("padding", n) for n in range(1, 18)]
    for part, v in cycle(rnd, variants):
        board = some_writable(rnd, [] if part == "zeros" else None)
        request = asked(board)
        if part == "padding":
            more, place = bytes(v), up(board.end())
        else:
            more = bytes(v) if part == "zeros" else rnd.choice([bytes(structure(b"$Fan", b""))[:v], b"$" * v, b"\xff" * v])
            more, place = bytes(up(board.end()) - board.end()) + more, up(board.end())
        yield due(rnd, request._replace(further=request.further + more), 23, place)


def rule_26_none(rnd):
    """No records: 26 at the map, whatever else is wrong that has a greater number."""
    while True:
        request = asked(some_writable(rnd, some_others(rnd, 2, 0.2)))
        fields = rnd.choice([request.fields, rnd.randbytes(29), bytes(29)])
        names = rnd.choice([request.names, rnd.randbytes(61)])
        yield due(rnd, request._replace(fields=fields, names=names, records=b""), 26, request.header[0])


def rule_34(rnd):
    """Records of one label, at the place of the label in the image; beside 46, 40, 41 or 28, which come first, and 31, 32 or 33."""
    variants = [(n, groups, part) for n in (2, 3, 5, 12, 122) for groups in shared(n) for part in ("alone", "alone", "later")]
    variants += [(n, [group], part) for n in (2, 12, 123) for group in ((0, 1), (0, n - 1)) for part in (46, 40, 41, 28)]
    for n, groups, part in cycle(rnd, variants):
        board = as_written(rich(rnd, n, False)) if part == "later" else some_writable(rnd, rnd.choice([[], None]), n)
        board.relabel(same_labels(rnd, n, groups, rnd.choice([labelled(b""), some_label(rnd), some_label(rnd)])))
        number, place, changes = 34, board.record(repeated(groups)), []
        if n > 122:
            number, place = 28, board.at(2)
        if part == "later":
            changes = [rnd.choice(broken_spots(board, rule))[1:] for rule in rnd.sample((31, 32, 33), rnd.choice([1, 1, 3]))]
        request = asked(board, *changes)
        if part == 46:
            request = request._replace(records=request.records + bytes(rnd.randint(1, 16)))
        elif part == 40:
            request = request._replace(further=bytes(filling(rnd, LONGEST + rnd.choice([1, 16]) - laid(request).further())))
        total = size_of(request)
        yield answered(request, rnd.choice([0, total - 1]) if part == 41 else min(MOST, enough(rnd, total)), number, place)


def given_fields(rnd):
    """Every byte of the parts of fixed length: each value of a byte that has no bound, both sides of the bound where there is one."""
    variants = [("version", p, 256) for p in range(4)] + [("names", p, 256) for p in range(60)] + [("names", 60, 2)]
    variants += [("fields", p, 256) for p in (20, 21, 26)] + [("fields", 27, 2), ("fields", 28, 4)] * 2
    variants += [("fields", p, 0) for p in (*range(16, 20), *range(22, 26))]
    for part, p, values in cycle(rnd, variants):
        board = some_writable(rnd)
        request, at = asked(board), board.at(1)
        data = bytearray(getattr(request, part))
        value = rnd.choice([0, 1, 2, 3, 4, 127, 128, 255, rnd.randrange(256)])
        if values == 0:  # BlkLength or PartSize, which no longer fit each other
            value = data[p] ^ 1 << rnd.randrange(8)
            block = int.from_bytes(data[16:p] + bytes([value]) + data[p + 1:20], "little") if p < 20 else 1
            number, place = 30, at + 0x26 if block else at + 0x20
        else:
            number = 0 if value < values else 31 if part == "names" else 30
            place = board.at(2) + 0x4C if part == "names" else at + 0x10 + p
        data[p] = value
        yield due(rnd, request._replace(**{part: bytes(data)}), number, place)


def broken_spots(board, rule):
    """Where one change of what is given breaks a rule."""
    return [spot for spot in spots(board, rule) if carried(rule, spot[0], laid_as(board))]


def several(rnd):
    """Two or more refusals at once, in any order of place: the first of ORDER counts. Its change is made last, and so stays."""
    variants = [pair for pair in itertools.combinations(ORDER, 2) if 40 not in pair] * 3 + [(40, other) for other in ORDER if other != 40]
    variants += [ORDER, (41, *ORDER[3:]), ORDER[3:]] + [tuple(rnd.sample(ORDER[2:], 3)) for _ in range(60)]
    for broken in cycle(rnd, variants):
        records = [123, 124] if 28 in broken else [2, 2, 3, 5, 8] if 34 in broken else [None]
        board = rich(rnd, rnd.choice(records), any(rule in broken for rule in (26, 29, 45)))
        again = rnd.choice([board_images.some_header, some_map, board_images.some_board, some_promsig])(rnd)
        if 25 in broken:
            board.parts.insert(rnd.randint(3, board.last()), again)
        if 40 in broken:
            board.parts.insert(rnd.randint(3, board.last()), filling(rnd, up(LONGEST - board.end()) + 16))
        board.fit()
        as_written(board)
        where, changes = {46: 0, 40: 0, 41: 0}, []
        for rule in sorted(set(broken) - set(where), key=ORDER.index, reverse=True):
            if rule == 23:
                where[rule] = board.at(rnd.randint(3, board.last()))
                changes.append(rnd.choice([(where[rule], b"E"), (where[rule] + 12, le(15, 4)), (where[rule] + 12, le(LONGEST, 4))]))
            elif rule in (25, 28, 45):
                k = {28: 2, 45: board.last()}.get(rule) or [part is again for part in board.parts].index(True)
                where[rule] = board.at(k)
            else:
                where[rule], *change = rnd.choice(broken_spots(board, rule))
                changes.append(change)
        request = asked(board, *changes)
        if 46 in broken:
            request = request._replace(records=rnd.choice([request.records[:-1], request.records + b"\x50", request.records[:16]]))
        total = size_of(request)
        room = rnd.choice([0, total - 1, rnd.randrange(total)]) if 41 in broken else enough(rnd, total)
        low = min(broken, key=ORDER.index)
        yield min(room, MOST), request, refused(min(room, MOST), low, where[low])


def record_truncations(rnd):
    """Every truncation of a run of records, with each header: where a record ends PartSize no longer fits, or there is no record left."""
    while True:
        requests = [asked(some_writable(rnd, records=rnd.randint(1, 3), header=h)) for h in HEADERS]
        for request, n in shuffled(rnd, ((request, n) for request in requests for n in range(len(request.records) + 1))):
            at = request.header[0]  # the map's place
            number, place = (0, 0) if n == len(request.records) else (30, at + 0x26) if n else (26, at)
            yield due(rnd, request._replace(records=request.records[:n]), number, place)


def further_truncations(rnd):
    """Every truncation of some further bytes, with each header: good where a structure ends, else none where one is due."""
    while True:
        boards = [some_writable(rnd, some_others(rnd, 3, 0.3), header=h) for h in HEADERS]
        points = ((board, n) for board in boards for n in [*range(board.ends()[2], board.end() + 1), *board.ends()[2:]])
        for board, n in shuffled(rnd, points):  # StructLen
            request, ends = asked(board), board.ends()
            k, signed = sum(end <= n for end in ends), bytes(board.parts[-1][:8]) == PROMSIG
            if n not in ends:
                number, place = 23, board.at(k)
            else:
                number, place = (45, board.at(board.last())) if signed and k == len(ends) else (0, 0)
            yield due(rnd, request._replace(further=request.further[:n - ends[2]]), number, place)


def mutated(rnd):
    """A good request with a byte changed, or in the parts of any length taken out or put in."""
    while True:
        request = asked(some_writable(rnd, some_others(rnd)))
        part = rnd.choice(Request._fields[1:] + ("further",) * 3)
        data = bytearray(getattr(request, part))
        k = rnd.randrange(len(data) or 1)
        byte = bytes([rnd.choice([rnd.randrange(256), rnd.choice(b"\0\1\2\x10\x20$")])])
        longer = part in ("records", "further") and rnd.random() < 0.3
        data[k:k + (not longer or rnd.random() < 0.5)] = byte[:len(data) and not longer or rnd.randint(0, 1)]
        yield due(rnd, request._replace(**{part: bytes(data)}), None)


def random_parts(rnd):
    """Random bytes in each part, or in some."""
    while True:
        request = asked(some_writable(rnd))
        records = b"".join(some_label(rnd) + rnd.randbytes(1) for _ in range(rnd.randint(0, 4))) + rnd.randbytes(rnd.choice([0, 0, 3]))
        other = Request(bytes([rnd.choice(HEADERS)]), rnd.randbytes(4), some_label(rnd) + rnd.randbytes(13), records,
                        rnd.randbytes(60) + bytes([rnd.choice([0, 1, 2])]),
                        bytes(rnd.choice(b"$\0\0\0\x10\x20") for _ in range(rnd.choice([0, 16, 17, 40]))))
        often = rnd.choice([0.3, 0.6, 1])
        request = Request(*(b if rnd.random() < often else a for a, b in zip(request, other)))
        yield answered(request, rnd.choice([any_room(rnd)] + [size_of(request)] * 3), None)


# case 13 with the short header, every byte as it must be: the map at 20h, the board at 70h, StructLen D0h
CASE_13_SHORT = bytes.fromhex("""
24 45 65 70 72 6F 6D 24 01 00 00 00 20 00 00 00 D0 00 00 00 78 8F 3F EB D0 00 00 00 04 00 00 00
24 45 65 70 72 4D 61 70 01 00 00 00 50 00 00 00 72 69 67 24 00 00 00 00 00 00 00 00 00 00 00 00
00 10 00 00 20 00 00 10 00 00 00 01 02 00 00 00
74 6F 70 31 24 00 00 00 00 00 00 00 00 00 00 00 20 00 00 00 00 00 00 00 50 00 00 00 00 00 00 00
24 42 72 64 49 6E 66 6F 01 00 00 00 60 00 00 00 47 77 65 6A 6C 75 73 61 00 00 00 00 00 00 00 00
72 69 67 00 00 00 00 00 00 00 00 00 00 00 00 00 30 30 30 31 00 00 00 00 00 00 00 00 00 00 00 00
01 00 00 00 02 00 00 00 03 00 00 00 00 00 00 00 00 00 00 00 00 00 00 00 00 00 00 00 00 00 00 00""")


def paper_cases():
    """Cases 12 and 13 of the build paper with each header, and what is beside them; two records that are both labelled top1."""
    sig = structure(PROMSIG, le(3, 2) + bytes(14) + bytes(range(32)))
    yield 0xE0, asked(plain()), written(0xE0, plain().image())
    yield 0xD0, asked(plain(header=SHORT)), written(0xD0, CASE_13_SHORT)
    for h in HEADERS:
        end = h + 0xB0
        case, image = asked(plain(header=h)), plain(header=h).image()
        yield end + 2, case, written(end + 2, image)
        yield end - 1, case, refused(end - 1, 41, 0)
        yield 0, case, refused(0, 41, 0)
        yield h + 0xFD0, asked(plain(122, header=h)), written(h + 0xFD0, plain(122, header=h).image())
        yield h + 0xFF0, asked(plain(123, header=h)), refused(h + 0xFF0, 28, h + 0xF90)
        yield 0x120, asked(plain(1, [sig], header=h)), refused(0x120, 45, end)
        yield 0x100, asked(plain(2, labels=(b"top1", b"top1"), header=h)), refused(0x100, 34, h + 0x50)


# a group, how many requests it gives in a turn, and in which turns (every so many)
GROUPS = [(good_records, 5, 1), (good_further, 8, 1), (each_header, 4, 1), (rooms, 6, 1), (rule_46, 6, 1), (rule_40, 1, 1),
          (rule_45, 7, 1), (rule_23, 4, 1), (rule_26_none, 1, 1), (rule_34, 4, 1), (given_fields, 7, 1), (several, 9, 1),
          (record_truncations, 4, 1), (further_truncations, 8, 1),
          (made_of(board_images.good_mixed), 4, 1), (made_of(board_images.good_each_kind), 3, 1),
          (made_of(board_images.good_lengths), 2, 1), (made_of(board_images.good_unknown), 2, 1),
          (made_of(board_images.good_near), 2, 1), (made_of(board_images.good_many), 1, 2),
          (made_of(board_images.good_names), 2, 1), (made_of(board_images.rule_21, True), 2, 1),
          (made_of(board_images.damaged_header, True), 3, 1), (made_of(board_images.rule_23), 5, 1),
          (made_of(board_images.rule_24), 4, 1), (made_of(board_images.rule_25), 3, 1), (made_of(board_images.rule_26, True), 2, 1),
          (made_of(board_images.rule_27, True), 2, 1), (made_of(board_images.rule_28), 1, 2), (made_of(board_images.rule_29), 4, 1),
          (made_of(board_images.rule_30_labels), 5, 1), (made_of(board_images.rule_30_fields, True), 5, 1),
          (made_of(board_images.rule_34), 4, 1), (made_of(board_images.rule_31), 1, 1), (made_of(board_images.rule_32, True), 6, 1),
          (made_of(board_images.cut_fields), 3, 1),
          (made_of(board_images.rule_33_fields), 3, 1), (made_of(board_images.rule_33_labels), 3, 1),
          (made_of(board_images.rule_33_cut), 2, 1), (made_of(board_images.two_places), 3, 1), (made_of(board_images.two_structures), 1, 1),
          (made_of(board_images.two_rules), 2, 1), (made_of(board_images.mutated), 2, 1), (made_of(board_images.mutated_heads), 1, 1),
          (made_of(board_images.random_behind_header), 2, 1), (made_of(board_images.random_structures), 3, 1),
          (made_of(board_images.large), 1, 6), (mutated, 5, 1), (random_parts, 4, 1)]


def in_turn(seed, groups):
    """What the groups yield, for ever."""
    running = [(g(random.Random("%s %s" % (seed, g.__name__))), n, every) for g, n, every in groups]
    for turn in itertools.count():
        for group, n, every in running:
            if turn % every == 0:
                yield from itertools.islice(group, n)


def requests(seed):
    """All requests, for ever: (room, request, the answer or None)."""
    for room, request, answer in itertools.chain(paper_cases(), in_turn(seed, GROUPS)):
        assert [len(part) for part in request[:3]] == [1, 4, 29] and len(request.names) == 61 and request.header[0] in HEADERS
        assert max(room, len(request.records), len(request.further)) <= MOST
        yield room, request, answer


# ---- lines ----

def line(rnd, room, request):
    """Long parts have no blanks, so that the line is not too long."""
    parts = (in_hex(rnd, part) if len(part) < 8000 else part.hex() for part in request)
    return ("%s%s%s;%s" % (blanks(rnd), rnd.choice(["%d"] * 9 + ["%07d"]) % room, blanks(rnd), ";".join(parts))).encode()


def case_parts(k=None, part=b""):
    """The seven parts of a line for case 13, part k replaced."""
    out = [b"224"] + [part.hex(" ").upper().encode() for part in asked(plain())]
    return out if k is None else out[:k] + [part] + out[k + 1:]


# what HEADER may not be
OTHER_HEADERS = (b"", b" ", b"00", b"02", b"03", b"10", b"1F", b"21", b"2F", b"31", b"32", b"40", b"48", b"A0", b"FF", b"2", b"3",
                 b"20 30", b"30 30", b"20 20", b"2030", b"20 00", b"00 20", b"20 00 00 00", b"2 0", b"020", b"3 00", b"20h", b"0x20",
                 b"+20", b"-30", b"zz", b"2z", b"20,")


def other_lines():
    """Lines that are no requests."""
    case, bad = case_parts(), [(1, part) for part in OTHER_HEADERS]
    for k in (2, 3, 5):  # a byte short, a byte more, none, half a byte
        bad += [(k, part) for part in (case[k][:-3], case[k] + b" 00", b"", case[k][:-1], case[k] + b" 0")]
    bad += [(0, room) for room in (b"", b"-1", b"+224", b"x", b"224x", b"0xE0", b"2 24", b"22.4", b"65601", b"655360", b"4294967520",
                                   b"18446744073709551840", b"9" * 40, b"\xb2", b"\t224")]
    digits = (b"0", b"00 0", b"0 0", b"000", b"G0", b"0g", b"0x00", b"00,00", b"00:00", b"00h", b"/0", b"0:", b"@0", b"0`", b"\x00",
              b"\xff\xff", b"00\t00", b"00\r", b"-1", b" " * 100 + b"0", b"00" * (MOST + 1))
    bad += [(k, part) for k in (4, 6) for part in digits]
    out = [b"; ".join(case_parts(*change)) for change in bad]
    out += [b";".join(case[:k]) for k in range(1, 7)] + [b";".join(case) + b";", b";".join(case) + b"; ", b";".join(case + [b"00"])]
    out += [b";".join(case[:k] + case[k + 1:]) for k in range(6)] + [b";".join(case[:k] + case[k - 1:]) for k in range(1, 7)]
    return out + [b"; ".join(case).replace(b";", b":"), b" ".join(case), b",".join(case), b" ", b"    ", b";", b";;;;;", b";;;;;;",
                  b" ; ; ; ; ; ; ", b"0;;;;;", b"0;;;;;;", b"not a request", b"\0", b"\r", b"\t", b"12; 10 01 00; 74 6F 70 B1"]


OTHER_LINES = other_lines()


# ---- the choice ----

VERSION = slice(0x1C, 0x20)
COUNTED = [*range(0x10, 0x30), *range(0x40, 0x4D)]  # the bytes of $BrdInfo that count
VERSIONS = [(3, 4), (4, 4), (4, 3), (0, 1), (0, 0), (1, 0), (255, 256), (256, 255), (0x00FFFFFF, 0x01000000), (0x01000000, 0x00FFFFFF),
            (0x7FFFFFFF, 0x80000000), (0x80000000, 0x7FFFFFFF), (0x80000000, 0), (0, 0x80000000), (0xFFFFFFFF, 0), (0, 0xFFFFFFFF),
            (0xFFFFFFFF, 0xFFFFFFFF), (0x80000000, 0x80000000), (0xFFFFFFFE, 0xFFFFFFFF), (1, 0xFFFFFFFF), (0xFFFFFFFF, 1)]


def choice_text(mask, firmware, eeprom, said):
    """All that must be answered to a pair, given the line that says which image is chosen."""
    word, number = said.split()[:2]
    chosen = {"firmware": firmware, "eeprom": eeprom, "neither": b""}[word]
    part = chosen[:int(number)] if chosen else b""
    return "list %d\n%s\npart%s\n" % (mask, said, "".join(" %02X" % byte for byte in part))


def some_list(rnd):
    """A list: bits above the seventeenth count for nothing."""
    return rnd.choice([FULL] * 4 + [0, FULL - (1 << rnd.randint(8, 16)), rnd.getrandbits(17), rnd.getrandbits(17), rnd.getrandbits(32)])


def twins(rnd, versions=None, headers=(None, None), **over):
    """Two good boards of which all that counts is alike, and of the rest nothing need be."""
    pair = [some(rnd, header=h, **over) for h in headers]
    for board, version in zip(pair, versions or (some_number(rnd, 4), some_number(rnd, 4))):
        board.parts[0][VERSION] = le(version, 4)
    for p in COUNTED:
        pair[1].parts[2][p] = pair[0].parts[2][p]
    return pair


def broken_header(rnd, board):
    """An image that is refused for its header, and with what: cut, with another Length, another StructLen or a wrong check field."""
    h, image = board.header(), board.image()
    other = sum(HEADERS) - h
    return rnd.choice([
        (image[:rnd.randrange(SHORT)], (20, 0)), (image[:rnd.randrange(SHORT, board.end())], (22, 0x10)),
        (board.image((12, le(rnd.choice(NO_HEADER), 4))), (21, 0)), (board.image((12, le(other, 4))), (23, other)),
        (board.image((0x10, le(rnd.choice([h - 1, board.end() + 1]), 4))), (22, 0x10)), (board.image((0x10, le(h, 4))), (25, h)),
        (with_crc(image, crc_of(image, board.summed()) ^ 1 << rnd.randrange(32)), (27, 0x14)),
        (board.image((0x18, le(board.summed() ^ 0x10, 4))), (27, 0x18))])


def chosen_of(rnd, pair, eeprom, mask=None):
    """A pair of accepted boards, lent with or without bytes behind them."""
    said = "%s %d" % ("eeprom" if eeprom else "firmware", pair[eeprom].end())
    return (some_list(rnd) if mask is None else mask), lend(rnd, pair[0].image()), lend(rnd, pair[1].image()), said


def by_version(board):
    return int.from_bytes(board.parts[0][VERSION], "little")


def choice_versions(rnd):
    """The same board: the greater Version, or firmware."""
    for a, b in cycle(rnd, VERSIONS + [(None, None)] * 10):
        pair = twins(rnd, (a, b) if a is not None else None)
        yield chosen_of(rnd, pair, by_version(pair[1]) > by_version(pair[0]))


def choice_copies(rnd):
    """An image and its copy with another Version, the other header, another serial, another map or other structures behind; or with no
    change at all."""
    for part in cycle(rnd, ["nothing", "Version", "header", "BrdSerial", "map", "further", "none further", "reserved"]):
        board = some(rnd)
        copy = Board([bytearray(p) for p in board.parts])
        block = int.from_bytes(board.parts[1][0x20:0x24], "little")
        if part == "BrdSerial":
            copy.parts[2][0x30:0x40] = some_name(rnd)
        elif part == "header":
            copy.parts[0] = resized(copy.parts[0], sum(HEADERS) - copy.header())
        elif part == "map":
            copy.parts[1] = some_map(rnd)
        elif part == "further":
            copy.parts[3:] = some_others(rnd)
        elif part == "none further":
            copy.parts[3:] = []
        elif part == "reserved":
            copy.parts[2] = structure(BOARD, copy.parts[2][0x10:0x4D] + rnd.randbytes(19), minor=1)
        copy.fit(block if part in ("nothing", "Version", "BrdSerial", "reserved") else None)
        if part != "nothing":
            copy.parts[0][VERSION] = le(some_number(rnd, 4), 4)
        pair = rnd.sample([board, copy], 2)
        yield chosen_of(rnd, pair, by_version(pair[1]) > by_version(pair[0]))


def choice_headers(rnd):
    """Each header on each side, whatever the Versions: the same board, another one, and each of accepted and refused."""
    variants = [(a, b, part) for a in HEADERS for b in HEADERS for part in ("same", "same", "same", "same", "other", 0, 1, 2)]
    for a, b, part in cycle(rnd, variants):
        pair = twins(rnd, rnd.choice(VERSIONS), headers=(a, b))
        if part in ("same", "other"):
            if part == "other":
                pair[1].parts[2][rnd.choice(COUNTED[:-1])] ^= 1 << rnd.randrange(8)
            yield chosen_of(rnd, pair, part == "same" and by_version(pair[1]) > by_version(pair[0]))
            continue
        broken = [broken_header(rnd, board) for board in pair]  # part is the side that is refused, or 2 for both
        images = [broken[side][0] if part in (side, 2) else lend(rnd, board.image()) for side, board in enumerate(pair)]
        said = ("eeprom %d" % pair[1].end(), "firmware %d" % pair[0].end(), "neither %d %d" % broken[0][1])[part]
        yield some_list(rnd), *images, said


def choice_fields(rnd):
    """One byte of the board differs, by one bit or by more: where it counts it is firmware, whatever the Versions."""
    variants = [(p, how) for p in range(0x10, 0x4D) for how in ("bit", "any")] + [(0x4C, "bit")] * 4
    for p, how in cycle(rnd, variants):
        pair = twins(rnd, rnd.choice([(3, 4), (0, 0x80000000), (0, 0xFFFFFFFF), rnd.choice(VERSIONS)]), records=rnd.choice([None, 1]))
        for q in range(0x30, 0x40):
            pair[1].parts[2][q] = pair[0].parts[2][q]
        byte = pair[0].parts[2][p]
        pair[1].parts[2][p] = byte ^ 1 if p == 0x4C else byte ^ (1 << rnd.randrange(8) if how == "bit" else rnd.randint(1, 255))
        yield chosen_of(rnd, pair, p not in COUNTED and by_version(pair[1]) > by_version(pair[0]))


def choice_places(rnd):
    """Boards at different places: one to 122 records on either side; alike, or with a byte that differs."""
    counts = ((1, 2), (2, 1), (1, 12), (9, 3), (122, 1), (1, 122))
    for (n, m), alike in cycle(rnd, [(pair, a) for pair in counts for a in (True, True, False)]):
        pair = twins(rnd, rnd.choice(VERSIONS))
        for board, records in zip(pair, (n, m)):
            board.parts[1] = some_map(rnd, records)
            board.fit()
        if not alike:
            pair[1].parts[2][rnd.choice(COUNTED[:-1])] ^= 1 << rnd.randrange(8)
        yield chosen_of(rnd, pair, alike and by_version(pair[1]) > by_version(pair[0]))


def images_with(rnd, word):
    """The images of board_images that are accepted, or refused whatever the list."""
    for _, image, said in board_images.images(rnd.random()):
        wanted = said.startswith(word) and (word == "accepted" or int(said.split()[1]) not in ASK_LIST)
        if wanted and (len(image) < 6000 or rnd.random() < 0.1):
            yield image, said


def choice_one(rnd):
    """One is refused, for any reason: the other, whatever it is."""
    good, bad = images_with(rnd, "accepted"), images_with(rnd, "refused")
    for eeprom in cycle(rnd, [False, True]):
        image = next(good)[0]
        said = "%s %d" % ("eeprom" if eeprom else "firmware", int.from_bytes(image[0x10:0x14], "little"))
        pair = (next(bad)[0], image) if eeprom else (image, next(bad)[0])
        yield (some_list(rnd), *pair, said)


def choice_neither(rnd):
    """Both are refused: firmware's number and place."""
    bad = images_with(rnd, "refused")
    while True:
        (firmware, said), (eeprom, _) = next(bad), next(bad)
        yield some_list(rnd), firmware, eeprom, said.replace("refused", "neither")


def faulty(rnd, board):
    """A board with one more structure, which a reader refuses if it is on its list: the board, its bit, and the refusal."""
    kind = rnd.choice(LISTED)
    part, number, inner = some_known(rnd, kind, 1 if kind == GPIO else None, 0), 32, RESERVED[kind][0]
    style = rnd.random()
    if style < 0.3:
        part, number, inner = structure(kind, bytes(rnd.randrange(RESERVED[kind][1] - 16))), 33, 0
    elif kind == FPGA and style < 0.8:
        part[0x10], number, inner = 5, 33, 0x10
    elif kind == GPIO and style < 0.8:
        part[0x40], number, inner = 3, 33, 0x40
    else:
        part[inner] = 1
    k = rnd.randint(3, len(board.parts)) if bytes(board.parts[-1][:8]) != PROMSIG else rnd.randint(3, board.last())
    board.parts.insert(k, part)
    board.fit()
    return 1 << 8 + LISTED.index(kind), number, board.at(k) + inner


def choice_lists(rnd):
    """Images that only a shorter list accepts: one of the two or both, each with a fault in a structure that may be on the list or not."""
    for which in cycle(rnd, [(True, False), (False, True), (True, True)]):
        pair = twins(rnd, rnd.choice(VERSIONS + [(3, 4)] * 20))
        faults = [faulty(rnd, board) if bad else (0, 0, 0) for board, bad in zip(pair, which)]
        bits = [bit for bit, *_ in faults if bit]
        mask = rnd.choice([FULL, FULL - bits[0], FULL - bits[-1], rnd.choice(bits), FULL & ~(bits[0] | bits[-1]), rnd.getrandbits(17)])
        refusals = [bool(bit & mask) for bit, *_ in faults]
        if all(refusals):
            said = "neither %d %d" % faults[0][1:]
            yield mask, lend(rnd, pair[0].image()), lend(rnd, pair[1].image()), said
        elif any(refusals):
            yield chosen_of(rnd, pair, refusals[0], mask)
        else:
            yield chosen_of(rnd, pair, by_version(pair[1]) > by_version(pair[0]), mask)


def choice_labels(rnd):
    """Records of one label in one of the images or in both: that image is refused, whatever the list and the Versions."""
    for which in cycle(rnd, [(0,), (1,), (0, 1)]):
        n = rnd.choice([2, 3, 8])
        pair, groups = twins(rnd, rnd.choice(VERSIONS), records=n), [rnd.choice(shared(n)) for _ in range(2)]
        for side in which:
            pair[side].relabel(same_labels(rnd, n, groups[side], some_label(rnd)))
        if len(which) == 1:
            yield chosen_of(rnd, pair, which == (0,))
        else:
            place = pair[0].record(repeated(groups[0]))
            yield some_list(rnd), lend(rnd, pair[0].image()), lend(rnd, pair[1].image()), "neither 34 %d" % place


def choice_signed(rnd):
    """With a $PromSig on one side, on both, on none: it makes no difference."""
    for signed in cycle(rnd, [(False, True), (True, False), (True, True)]):
        pair = twins(rnd, rnd.choice(VERSIONS), others=[])
        for board, sig in zip(pair, signed):
            board.parts += some_others(rnd, 2, 0) + ([some_promsig(rnd)] if sig else [])
            board.fit()
        yield chosen_of(rnd, pair, by_version(pair[1]) > by_version(pair[0]))


def choice_lent(rnd):
    """Nothing lent, truncations, and images of which 65,536 bytes are lent and one more."""
    variants = [("empty", k) for k in (0, 1, 2)] * 4 + [("cut", k) for k in (0, 1, 2)] * 8 + [("65536", 0), ("65537", 0), ("65537", 1)]
    for part, k in cycle(rnd, variants):
        pair = twins(rnd, (3, 4))
        images = [board.image() for board in pair]
        refusals = [part != "65536" and k in (side, 2) for side in (0, 1)]
        said = None
        for side in (0, 1):
            if refusals[side]:
                n = {"empty": 0, "cut": rnd.randrange(len(images[side]))}.get(part, 65537)
                images[side] = images[side][:n].ljust(n, b"\0")
                said = said or "neither %d %d" % ((22, 0x10) if part == "cut" and n >= SHORT else (20, 0))
            elif part == "65536":
                images[side] = images[side].ljust(LONGEST, b"\xff")
        if not all(refusals):
            eeprom = not refusals[1]
            said = "%s %d" % ("eeprom" if eeprom else "firmware", pair[eeprom].end())
        yield some_list(rnd), *images, said


def counted(image):
    """What counts in an accepted image: the bytes of its board, and its Version."""
    at = lies(image).board()
    return [image[at + p] for p in COUNTED], int.from_bytes(image[VERSION], "little")


def said_of_two(firmware, a, eeprom, b):
    """What is due, given what the judge says of each image with the full list; None where it did not say, or asked the list."""
    if any(said == "?" or said.startswith("refused") and int(said.split()[1]) in ASK_LIST for said in (a, b)):
        return None
    if a.startswith("refused") and b.startswith("refused"):
        return a.replace("refused", "neither")
    second = a.startswith("refused")
    if a.startswith("accepted") and b.startswith("accepted"):
        (one, version), (other, later) = counted(firmware), counted(eeprom)
        second = one == other and later > version
    return "%s %d" % ("eeprom" if second else "firmware", int.from_bytes((eeprom if second else firmware)[0x10:0x14], "little"))


def choice_any(rnd):
    """Any two images, with any list."""
    made = ((image, said) for _, image, said in board_images.images(rnd.random()) if len(image) < 6000)
    while True:
        (firmware, a), (eeprom, b) = next(made), next(made)
        yield some_list(rnd), firmware, eeprom, said_of_two(firmware, a, eeprom, b)


def choice_mutated(rnd):
    """The same board, with a byte changed somewhere in one of the images."""
    while True:
        pair = twins(rnd, rnd.choice(VERSIONS))
        images = [board.image() for board in pair]
        side = rnd.randrange(2)
        place = rnd.randrange(pair[side].end())
        images[side] = pair[side].image((place, bytes([images[side][place] ^ 1 << rnd.randrange(8)])))
        yield some_list(rnd), *images, None


def paper_pairs():
    """Case 11 of the build paper, with each header on each side."""
    for a, b in itertools.product((LONG, SHORT), repeat=2):
        three, same, four = plain(version=3, header=a), plain(version=4, header=a), plain(version=4, header=b)
        serial, other = plain(version=4, names=(b"Gwejlusa", b"rig", b"0002"), header=b), plain(version=4, header=b)
        other.parts[2][0x48] ^= 1
        yield FULL, three.image(), four.image(), "eeprom %d" % (b + 0xB0)
        yield FULL, same.image(), four.image(), "firmware %d" % (a + 0xB0)
        yield FULL, three.image(), serial.image(), "eeprom %d" % (b + 0xB0)
        yield FULL, three.image(), other.image(), "firmware %d" % (a + 0xB0)


# as GROUPS
PAIRS = [(choice_versions, 8, 1), (choice_headers, 8, 1), (choice_copies, 7, 1), (choice_fields, 14, 1), (choice_places, 3, 1),
         (choice_one, 8, 1), (choice_neither, 5, 1), (choice_lists, 9, 1), (choice_labels, 3, 1), (choice_signed, 2, 1),
         (choice_lent, 2, 1), (choice_any, 6, 1), (choice_mutated, 5, 1)]


def pairs(seed):
    """All pairs, for ever: (list, firmware, EEPROM, the line that says which is chosen, or None)."""
    yield from paper_pairs()
    yield from in_turn(seed, PAIRS)


def record(mask, firmware, eeprom):
    """A record of a run for `board choice`."""
    return le(mask, 4) + le(len(firmware), 4) + firmware + le(len(eeprom), 4) + eeprom


# ---- what the gate runs: fixed contents ----

def case_with(part, p, byte):
    """Case 13 with a byte of a part replaced."""
    case = asked(plain())
    data = bytearray(getattr(case, part))
    data[p] = byte
    return case._replace(**{part: bytes(data)})


def gate_requests():
    """Cases 12 and 13 with each header, what is beside them, records of one label, each refusal but 40 (its line would be too long),
    several at once."""
    case, fan, bare = asked(plain()), structure(b"$Fan", b"\1\2\3"), structure(b"$Fan", b"")
    fpga = structure(FPGA, b"\x03\x01\x02" + bytes(13) + b"x")
    gpio = structure(GPIO, bytes(16) + board_images.gpio_record(labelled(b"lamp"), 0x1C0, 0xFFFFFFFE, 1, 4, 1))
    sig = structure(PROMSIG, le(3, 2) + bytes(14) + bytes(range(32)))
    signed = structure(PROMSIG, le(SIGNED + 1, 2) + bytes(14) + bytes(24))
    kinds = plain(2, [fpga, gpio, fan, structure(LOGO, b"\xff" * 5, 2)])
    out = [(room, case) for room in (0xE0, 0xE2, 0xDF, 0)] + [(4096, asked(plain(122))), (4128, asked(plain(123)))]
    out += [(kinds.end() + d, asked(kinds)) for d in (0, 1, -1)]
    short = asked(plain(header=SHORT))
    out += [(room, short) for room in (0xD0, 0xD2, 0xCF, 0)]
    out += [(n, asked(board)) for n, board in ((4080, plain(122, header=SHORT)), (4112, plain(123, header=SHORT)),
                                               (0x160, plain(2, [fpga, gpio, fan], header=SHORT)), (0x110, plain(1, [sig], header=SHORT)))]
    out += [(256, short._replace(**{part: data})) for part, data in (
        ("records", b""), ("records", case.records * 2), ("fields", case.fields[:-1] + b"\4"), ("names", case.names[:-1] + b"\2"),
        ("further", bytes(16)), ("further", bytes(structure(LOGO, bytes(15) + b"\1"))))]
    twice = asked(plain(2, labels=(b"top1", b"top1")))
    out += [(0x100, twice), (0xFF, twice), (0x100, twice._replace(records=twice.records + b"\0"))]
    out += [(0x120, asked(plain(3, labels=texts))) for texts in ((b"top1", b"top2", b"top1"), (b"", b"", b"rig"), (b"", b" ", b"rig"))]
    out += [(0x120, twice._replace(names=twice.names[:-1] + b"\2", further=further)) for further in (
        b"", bytes(structure(FPGA, b"\5" + bytes(15))), bytes(structure(LOGO, b"\1" * 16)), bytes(16))]
    out += [(256, case._replace(records=run)) for run in (b"", case.records[:16], case.records + b"\0", case.records * 2, bytes(17))]
    out += [(256, case._replace(further=more)) for more in (bytes(16), bytes(1), bytes(bare) + bytes(16), bytes(bare)[:15])]
    out.append((300, case._replace(further=bytes(fan) + b"\1" + bytes(12) + bytes(bare))))
    out += [(320, asked(plain(1, others))) for others in (
        [sig], [fan, signed], [structure(PROMSIG, bytes(16))], [sig, bare], [structure(BOARD, bytes(0x50), 2)],
        [structure(PROMSIG, bytes(16), 2)], [structure(PROMSIG, le(SIGNED + 4, 2) + bytes(14))],
        [structure(LOGO, bytes(15) + b"\1")], [structure(FPGA, b"\5" + bytes(15))], [structure(LOGO, b"\1" * 8), sig])]
    out += [(224, case_with(*change)) for change in (
        ("version", 3, 0x80), ("fields", 3, 0), ("fields", 17, 0), ("fields", 22, 1), ("fields", 27, 2), ("fields", 28, 4),
        ("records", 5, 0x20), ("records", 16, 0x80), ("names", 16, 0xFF), ("names", 60, 1), ("names", 60, 2))]
    wrong = case_with("names", 60, 2)._replace(further=bytes(16))
    return out + [(0, wrong._replace(records=bytes(16))), (0, wrong), (256, wrong)]


def gate_lines():
    """These, one in lower case and without blanks, one with many; an empty line; lines that are no requests; the last lacks its newline."""
    out = []
    for room, request in gate_requests():
        short = len(request.records) < 1000
        out.append(b"; ".join([b"%d" % room] + [part.hex(*" " * short).upper().encode() for part in request]))
    case = case_parts()
    out += [b";".join(part.replace(b" ", b"").lower() for part in case), b" 0224  ;  " + b"  ;  ".join(case[1:]) + b"  ", b""]
    changes = [(0, b""), (0, b"65601"), (0, b"x"), (4, case[4] + b" 0"), (6, b"0x00"), (6, b"24\t24")]
    changes += [(1, part) for part in (b"", b"00", b"10", b"21", b"2F", b"31", b"20 30", b"2", b"zz")]
    changes += [(k, part) for k in (2, 3, 5) for part in (case[k][:-3], case[k] + b" 00")]
    out += [b"; ".join(case_parts(*change)) for change in changes]
    lines = (b"; ".join(case[:6]), b"; ".join(case[:1] + case[2:]), b"; ".join(case) + b";", b" ", b"not a request", b"; ".join(case))
    return b"\n".join([*out, *lines])


def gate_pairs():
    """Case 11 with each header on each side, and what is beside it; one or both refused; records of one label; lists with which one is
    refused; lent past StructLen; a record that is cut."""
    def versioned(version, *others, records=1, header=LONG):
        return plain(records, others, version=version, header=header).image()

    def changed(p, bits):  # a byte of the board
        board = plain(version=4)
        board.parts[2][p] ^= bits
        return board.image()
    three, four, sig = versioned(3), versioned(4), structure(PROMSIG, le(1, 2) + bytes(14) + bytes(16))
    fpga, logo = versioned(9, structure(FPGA, b"\5" + bytes(15))), versioned(8, structure(LOGO, b"\1" * 16))
    fpga_bit, logo_bit = (1 << 8 + LISTED.index(kind) for kind in (FPGA, LOGO))
    short = versioned(4, header=SHORT)
    out = [(mask, a, b) for mask, a, b, _ in paper_pairs()] + [(FULL, four, three), (FULL, short, three), (FULL, short + b"$", four)]
    out += [(FULL, short[:SHORT], four), (FULL, four, short[:SHORT - 1]), (FULL, short[:SHORT], four[:LONG - 1]), (0, three[:LONG], short)]
    differ = ((0x10, 0x20), (0x2F, 0x01), (0x40, 0x01), (0x47, 0x80), (0x4B, 0x01), (0x4C, 0x01), (0x3F, 0x01))  # the last is BrdSerial
    out += [(0, three, changed(*change)) for change in differ]
    out += [(FULL, versioned(a), versioned(b)) for a, b in ((0x7FFFFFFF, 0x80000000), (0x80000000, 1), (255, 256))]
    out += [(FULL, three + b"\xff" * 9, versioned(4, sig, records=2) + b"$"), (FULL, versioned(5, sig) + bytes(40), four)]
    out += [(FULL, three[:-1], four), (FULL, four, b""), (FULL, four[:0x2F], three[:-1]), (FULL, changed(0x4C, 2), four + b"\0")]
    twice, thrice = (plain(len(texts), version=9, labels=texts).image() for texts in ((b"top1", b"top1"), (b"top1", b"top2", b"top1")))
    out += [(mask, *pair) for mask in (FULL, 0) for pair in ((twice, four), (four, twice), (twice, thrice), (thrice, twice))]
    for mask in (FULL, FULL - fpga_bit, FULL - fpga_bit - logo_bit):
        out += [(mask, fpga, logo), (mask, logo, fpga), (mask, four, fpga)]
    return b"".join(record(*pair) for pair in out) + record(FULL, four, three)[:-1]


def main():
    command = sys.argv[1] if len(sys.argv) == 2 else ""
    if command not in ("requests", "pairs"):
        sys.exit("usage: board_runs.py requests | pairs")
    sys.stdout.buffer.write(gate_lines() if command == "requests" else gate_pairs())


if __name__ == "__main__":
    main()
