#!/usr/bin/env python3
"""Requests to the tiny writer: good ones of every kind, each refusal on both sides of its bound, several refusals at once, truncations,
images taken apart, random bytes.

`requests(seed)` gives them for ever, each as (room, run, pool, answer): how many bytes of buffer are lent, the run of items, the pool's
data or None, and the line that must be answered by the way the request was made, or None where the maker does not know. The same seed
gives the same requests. They come from groups taken in turn (GROUPS at the end). A group walks round its list of variants, and puts
each into fresh random surroundings.

`line(rnd, room, run, pool)` is a request as tests/README.md has it, and `OTHER_LINES` are lines that are none.
"""
import itertools
import random

import tiny_images
from tiny_images import IDENTITY, KNOWN, UNKNOWN_LONG, UNKNOWN_SHORT, cycle, filler, finish, good_items, identity, item, known, pack, placed
from tiny_images import small_pool, strings_of
from words import in_tables

MOST = 1024  # bytes in a run, in a pool and in a buffer
LONGEST = 255
ORDER = (46, 40, 41, 7, 9, 10, 11)  # which refusal is given if several apply
WORDS = in_tables("docs/LISTING.md")


# ---- answers ----

def rest(room, taken=0):
    return "; rest" + " AA" * (room - taken) if room > taken else ""


def written(room, image):
    return "length %d: %s%s" % (len(image), image.hex(" ").upper(), rest(room, len(image)))


def refused(room, number, place):
    return "refused %d at %d (%Xh): %s%s" % (number, place, place, WORDS[number], rest(room))


# ---- building ----

def entry(tag, data, length=None):
    """One item of a run: tag, length byte (the number of data bytes, if no other is given) and data."""
    return bytes([tag, len(data) if length is None else length]) + bytes(data)


def run_of(items):
    """The run of items that are given as an image has them."""
    return b"".join(entry(i[0], i[1:]) if i[0] >> 4 else i for i in items)


def size_of(items, pool):
    """L of the image of these items and this pool."""
    return 4 + sum(map(len, items)) + (0 if pool is None else 2 + len(pool))


def image_of(items, pool):
    return finish(b"".join(items) + (b"" if pool is None else item(0x01, pool)))


def enough(rnd, total):
    """A room in which an image of this length fits."""
    return rnd.choice([total] * 4 + [total + 1, total + 1, total + 2, max(total, 255), max(total, 256), rnd.randint(total, total + 60)]
                      + [rnd.randint(total, MOST)] * (rnd.random() < 0.3))


def any_room(rnd):
    return rnd.choice([0, 0, 1, 3, 4, 12, 254, 255, 256, rnd.randint(0, 300)] + [MOST] * (rnd.random() < 0.3))


def answered(items, pool, room, number=0, place=0):
    """The request for these items, and what is due: a refusal of the reader if one is given, and 40 and 41 before it."""
    total = size_of(items, pool)
    if total > LONGEST:
        number, place = 40, 0
    elif total > room:
        number, place = 41, 0
    return room, run_of(items), pool, refused(room, number, place) if number else written(room, image_of(items, pool))


def good(rnd, most=8, pooled=None):
    """Good items and a pool for them, or None; pooled: whether there must be a pool with strings."""
    strings = rnd.choice([None, None, 0, 1, 1, 2, 3, rnd.randint(1, 20), rnd.randint(1, 60)])
    if pooled is not None:
        strings = (strings or 1) if pooled else None
    pool = None if strings is None else pack(strings_of(rnd, strings, rnd.choice([strings, max(strings, 30), max(strings, 120)])))
    return good_items(rnd, strings or 0, LONGEST - size_of([], pool), most), pool


def exact(rnd, size):
    """Unknown items that take exactly size bytes in an image (0 or at least 2), also more than one image can have."""
    out = []
    while size > 250:
        n = rnd.randint(2, 250)
        if size - n != 1:
            out += filler(rnd, n)
            size -= n
    return out + filler(rnd, size)


def pool_of(rnd, size):
    """A good pool of exactly size bytes."""
    often = rnd.choice([0.02, 0.2, 1])
    data = bytearray(rnd.randint(0x20, 0x7E) | (0x80 if rnd.random() < often else 0) for _ in range(size))
    if size:
        data[-1] |= 0x80
    return bytes(data)


def before(rnd):
    """Good items to stand before one under test, often none; they need no pool."""
    return good_items(rnd, 0, 60, 5) if rnd.random() < 0.7 else []


# ---- groups: each yields requests with their answers, for ever ----

def good_mixed(rnd):
    """Good requests of any content."""
    while True:
        items, pool = good(rnd, rnd.choice([2, 8, 20]))
        yield answered(items, pool, enough(rnd, size_of(items, pool)))


def good_each_tag(rnd):
    """Every tag but 00 and 01, alone or among others, with no pool where it can, with an empty one, with one or several strings."""
    for tag in cycle(rnd, list(range(2, 256)) + list(KNOWN[1:]) * 6):
        texts = small_pool(rnd)
        pool = pack(texts)
        if tag in KNOWN:
            one = known(rnd, tag, len(texts))
        else:
            one = item(tag, rnd.randbytes(tag >> 4 or rnd.choice([0, 1, 15, 16, 17, 100])))
        if tag not in (0x10,) + IDENTITY:
            pool = rnd.choice([None, b"", pool])
        items = good_items(rnd, len(texts) if pool else 0, 40, 3) if rnd.random() < 0.5 else []
        items.insert(rnd.randint(0, len(items)), one)
        yield answered(items, pool, enough(rnd, size_of(items, pool)))


def long_lengths(rnd):
    """Long tags 02 to 0F with 0 to 255 data bytes, alone or with a pool: written up to L = 255, else 40."""
    variants = [(None, n, p) for n in range(256) for p in ("none", "empty", "some")]
    variants += [(t, n, "none") for t in UNKNOWN_LONG for n in (0, 1, 248, 249, 250, 255)] * 2
    for tag, n, kind in cycle(rnd, variants):
        pool = {"none": None, "empty": b"", "some": pool_of(rnd, rnd.choice([1, 4, 9]))}[kind]
        items = [item(tag or rnd.choice(UNKNOWN_LONG), rnd.randbytes(n))]
        yield answered(items, pool, enough(rnd, size_of(items, pool)))


def good_pools(rnd):
    """Pools of 0 to 60 strings, with a serial that names the first or the last, or with no item at all."""
    for count in cycle(rnd, range(61)):
        pool = pack(strings_of(rnd, count, rnd.choice([count, 100, 200, 240])))
        items = [item(0x10, [rnd.choice([0, count - 1])])] if count and rnd.random() < 0.7 else []
        yield answered(items, pool, enough(rnd, size_of(items, pool)))


def lengths(rnd):
    """Every L from 4 to 255 that an image can have (5 it cannot), with and without a pool, in a room of L - 1, L and L + 1."""
    variants = [(n, p, r) for n in range(4, 256) if n != 5 for p in (False, True) for r in (-1, 0, 1)]
    for total, pooled, more in cycle(rnd, variants):
        pool, size = None, total - 4
        if pooled and size >= 2:
            pool = pool_of(rnd, rnd.choice([size - 2, rnd.randint(0, size - 2)]))
            if size - 2 - len(pool) == 1:
                pool = pool_of(rnd, size - 2)
            size -= 2 + len(pool)
        yield answered(filler(rnd, size), pool, total + more)


def rooms(rnd):
    """Every room from 0 to L + 1 for one request, then for the next."""
    while True:
        items, pool = good(rnd, 4)
        total = size_of(items, pool)
        if total <= 60:
            for room in range(total + 2):
                yield answered(items, pool, room)


def rule_46_length(rnd):
    """A length byte that is not the tag's, in item 0 or a later one, with as many data bytes as it says or as the tag says."""
    variants = [(t, by) for t in range(0x10, 0x100) for by in (-1, 1, "any")]
    variants += [(t, by) for t in KNOWN[1:] for by in (-1, 0, 1, "any")] * 3
    for tag, by in cycle(rnd, variants):
        n = tag >> 4
        length = n + by if by != "any" else rnd.choice([x for x in (0, 1, n << 4, 255, rnd.randrange(256)) if x != n])
        items, room = before(rnd), any_room(rnd)
        if by == 0:  # the good side
            pool = pack(small_pool(rnd, 2))
            items.append(known(rnd, tag, 2))
            yield answered(items, pool, enough(rnd, size_of(items, pool)))
            continue
        after = good_items(rnd, 0, 40, 3)
        pool = rnd.choice([None, b"", pool_of(rnd, 5)])
        run = run_of(items) + entry(tag, rnd.randbytes(rnd.choice([length, n])), length) + run_of(after)
        yield room, run, pool, refused(room, 46, len(items))


def rule_46_pool(rnd):
    """Tag 01 as an item: empty, good or bad inside, last or not, with and without a pool of its own."""
    variants = [(d, a, p) for d in ("empty", "good", "any") for a in ("nothing", "items", "another") for p in (False, True)]
    for kind, after, pooled in cycle(rnd, variants):
        items, room = before(rnd), any_room(rnd)
        data = {"empty": b"", "good": pool_of(rnd, 6), "any": rnd.randbytes(rnd.choice([1, 9, 255]))}[kind]
        behind = {"nothing": [], "items": good_items(rnd, 0, 40, 2), "another": [item(0x01, pool_of(rnd, 3))]}[after]
        yield (room, run_of(items) + entry(0x01, data) + run_of(behind), pool_of(rnd, 4) if pooled else None,
               refused(room, 46, len(items)))


def rule_46_cut(rnd):
    """The last item of a run cut before its length byte, right behind it, one byte before the end, or not at all."""
    variants = [(t, c) for t in range(256) for c in ("tag", "head", "one short")]
    variants += [(t, "whole") for t in UNKNOWN_SHORT[::8] + UNKNOWN_LONG]
    for tag, cut in cycle(rnd, variants):
        n = tag >> 4 or rnd.choice([1, 1, 2, 16, 60, 255 if cut != "whole" else 61])
        whole = entry(tag, rnd.randbytes(n))
        items, pool, room = before(rnd), rnd.choice([None, b"", pool_of(rnd, 5)]), any_room(rnd)
        if cut == "whole":
            items.append(whole[:1] + whole[2:] if tag >> 4 else whole)
            yield answered(items, pool, enough(rnd, size_of(items, pool)))
        else:
            end = {"tag": 1, "head": 2, "one short": n + 1}[cut]
            yield room, run_of(items) + whole[:end], pool, refused(room, 46, len(items))


def rule_46_far(rnd):
    """A broken item behind very many good ones: also the numbers over 255."""
    broken = [b"\x01\x00", b"\x01", b"\x00", b"\x10\x02", b"\x10\x00", b"\x02\x01", b"\xF0\x0E"]
    for count, one in cycle(rnd, [(c, b) for c in (1, 2, 63, 64, 125, 126, 127, 128, 255, 256, 257, 300, 511) for b in broken]):
        room = any_room(rnd)
        run = b"".join(bytes([rnd.choice([0] + UNKNOWN_LONG), 0]) for _ in range(count)) + one
        yield room, run, rnd.choice([None, b"", pool_of(rnd, 4)]), refused(room, 46, count)


def rule_46_twice(rnd):
    """Two or more broken items: the first counts."""
    def broken():
        return rnd.choice([entry(0x01, b""), entry(0x11, b"\0\0"), entry(0x60, rnd.randbytes(5)), entry(0xF3, rnd.randbytes(16))])
    while True:
        items, room = before(rnd), any_room(rnd)
        run = run_of(items) + broken() + run_of(good_items(rnd, 0, 30, 2)) + broken() + rnd.choice([b"", b"\x10", b"\x03\x09\x00"])
        yield room, run, rnd.choice([None, b"", pool_of(rnd, 5)]), refused(room, 46, len(items))


def rule_40(rnd):
    """L of 254 to 257 and far more, from items alone or with a pool; in rooms that would do, and in too small ones."""
    totals = [254, 255, 255, 255, 256, 256, 256, 257, 258, 300, 511, 512, 516]
    for total, kind in cycle(rnd, [(n, p) for n in totals for p in ("none", "empty", "small", "large")]):
        size = {"none": None, "empty": 0, "small": rnd.randint(1, 20), "large": rnd.randint(200, min(total - 6, 249))}[kind]
        if size is not None and total - 6 - size == 1:
            size -= 1
        pool = None if size is None else pool_of(rnd, size)
        items = exact(rnd, total - size_of([], pool))
        yield answered(items, pool, rnd.choice([0, 254, 255, 256, total - 1, total, total + 1]))


def rule_40_pool(rnd):
    """Pools of 0 to 1,024 bytes without items and with some: 249 is the most that fits, 255 the most that a length byte can say."""
    sizes = [0, 1, 248, 249, 249, 250, 250, 251, 252, 253, 254, 255, 255, 256, 256, 257, 258, 300, 505, 511, 512, 513, 1023, 1024]
    for size, more in cycle(rnd, [(n, k) for n in sizes for k in (0, 0, 2, 9)]):
        items, pool = filler(rnd, more), pool_of(rnd, size)
        if size > 249 and rnd.random() < 0.3:
            pool = rnd.randbytes(size)  # 40 comes before what the reader says
        yield answered(items, pool, rnd.choice([0, 254, 255, 256, 300, MOST]))


def rule_40_wide(rnd):
    """The longest runs and pools that can be asked for."""
    for n, pooled in cycle(rnd, [(n, p) for n in (2, 3, 16, 64, 100, 256) for p in (None, 0, 4, MOST)]):
        one = item(rnd.choice(UNKNOWN_LONG), rnd.randbytes(n - 2))
        yield answered([one] * (MOST // n), None if pooled is None else pool_of(rnd, pooled), any_room(rnd))


def rule_7(rnd):
    """Tag 00 of any length, first, among others, last, with and without a pool; twice: the first counts."""
    variants = [(n, w, p) for n in (0, 1, 2, 4, 60) for w in ("first", "any", "last", "twice") for p in (False, True)]
    for n, where, pooled in cycle(rnd, variants):
        texts = small_pool(rnd)
        pool = pack(texts) if pooled else None
        items = good_items(rnd, len(texts) if pooled else 0, 60, 5)
        k = {"first": 0, "any": rnd.randint(0, len(items))}.get(where, len(items))
        items.insert(k, item(0x00, rnd.randbytes(n)))
        if where == "twice":
            items += good_items(rnd, 0, 20, 2) + [item(0x00, b"")]
        yield answered(items, pool, enough(rnd, size_of(items, pool)), 7, placed(items, k))


def rule_9_order(rnd):
    """Both parts of rule 9 in one pool: a byte that is no character, and an unmarked last byte."""
    for part in cycle(rnd, ["last", "byte", "both", "at once", "single", "twice"]):
        data = bytearray(pool_of(rnd, 1 if part == "single" else rnd.randint(3, 30)))
        end = len(data) - 1
        k = end if part in ("last", "single", "at once") else rnd.randint(0, end - 1)
        if part in ("byte", "both", "twice"):
            data[k] = (data[k] & 0x80) | rnd.choice([0x00, 0x1F, 0x7F])
        if part == "twice":
            data[end] = 0xFF
        if part == "at once":
            data[end] = rnd.choice([0x00, 0x1F, 0x7F])
        elif part not in ("byte", "twice"):
            data[end] &= 0x7F
        items = good_items(rnd, 0, 60, 4)
        yield answered(items, bytes(data), enough(rnd, size_of(items, data)), 9, placed(items, len(items)) + 2 + k)


def apart(image):
    """The run and the pool's data (or None) of an image whose walk is good; the pool is cut off if it is the last item."""
    items, at, end = [], 3, image[2] - 1
    while at < end:
        next_at = at + 1 + (image[at] >> 4 or 1 + image[at + 1])
        items.append(image[at:next_at])
        at = next_at
    assert at == end
    pool = items.pop()[2:] if items and items[-1][0] == 0x01 else None
    return items, pool


def taken_apart(rnd, made):
    """Images that the judge was known to accept, or to refuse for what is in their items, from their own parts: the same image, or the
    same refusal. An 01 that is not the last item is left in the run: 46."""
    for image, said in made:
        words = said.split()
        if words[0] == "?" or words[0] == "refused" and int(words[1]) not in (7, 8, 9, 10, 11):
            continue
        items, pool = apart(image)
        total = image[2]
        assert total == size_of(items, pool)
        room = rnd.choice([0, total - 1]) if rnd.random() < 0.05 else enough(rnd, total)
        pools = [k for k, i in enumerate(items) if i[0] == 0x01]
        if pools:
            yield room, run_of(items), pool, refused(room, 46, pools[0])
        elif room < total:
            yield room, run_of(items), pool, refused(room, 41, 0)
        elif words[0] == "accepted":
            yield room, run_of(items), pool, written(room, image[:total])
        else:
            yield room, run_of(items), pool, refused(room, int(words[1]), int(words[2]))


def rebuilt(rnd, seed):
    """The accepted images of tiny_images.images."""
    yield from taken_apart(rnd, ((image, said) for _, image, said in tiny_images.images(seed) if said.startswith("accepted")))


def made_of(images):
    """The images that a group of tiny_images makes."""
    def group(rnd):
        yield from taken_apart(rnd, images(rnd))
    group.__name__ = "made of " + images.__name__
    return group


def several(rnd):
    """Two, three or all of the refusals at once, in any order of place: the first of ORDER counts."""
    variants = list(itertools.combinations(ORDER, 2)) * 4 + list(itertools.combinations(ORDER, 3)) + [ORDER] * 4
    for broken in cycle(rnd, variants):
        texts = small_pool(rnd)
        count = len(texts)
        data, where = bytearray(pack(texts)), {40: 0, 41: 0}
        if 9 in broken:  # an end mark stays, so the count does too
            bad = rnd.randrange(len(data))
            data[bad] = (data[bad] & 0x80) | rnd.choice([0x1F, 0x7F])
        items = []
        for rule in rnd.sample([11, 10, 7], 3):
            items += good_items(rnd, count, 12, 2)
            if rule not in broken:
                continue
            tag = rnd.choice(IDENTITY)
            one, at = {7: (item(0x00, rnd.randbytes(rnd.choice([0, 3]))), 0),
                       10: (item(tag, identity(rnd, tag, count, part=rnd.choice([count, 255]))), 2),
                       11: (item(tag, identity(rnd, tag, count, minor=rnd.choice([100, 255]))), 4)}[rule]
            where[rule] = placed(items, len(items)) + at
            items.append(one)
        if 9 in broken:
            where[9] = placed(items, len(items)) + 2 + bad
        pool = bytes(data)
        if 40 in broken:
            if rnd.random() < 0.3:
                pool += pool_of(rnd, 300)
            else:
                more = LONGEST - size_of(items, pool) + rnd.choice([1, 1, 2, 60])
                k = rnd.randint(0, len(items))
                items[k:k] = exact(rnd, more)
        total = size_of(items, pool)
        room = rnd.choice([0, 3, total - 1, rnd.randrange(total)]) if 41 in broken else enough(rnd, total)
        run = run_of(items)
        if 46 in broken:
            where[46] = rnd.randint(0, len(items))
            one = rnd.choice([entry(0x01, pool_of(rnd, 2)), entry(0x11, b"\0\0"), entry(0x61, b""), entry(0xF0, rnd.randbytes(14))])
            run = run_of(items[:where[46]]) + one + run_of(items[where[46]:])
            if rnd.random() < 0.3:  # a run cut short instead
                run = run_of(items) + rnd.choice([b"\x00", b"\x11", b"\x60\x06\x00", b"\x05\x01", b"\x0F\xFF\x00"])
                where[46] = len(items)
        low = min(broken, key=ORDER.index)
        yield room, run, pool, refused(room, low, where[low])


def truncations(rnd):
    """Every truncation of some good run, with all of its pool: good where an item ends, else 46 at the item that is cut."""
    while True:
        items, pool = good(rnd, 8, rnd.random() < 0.7)
        run = run_of(items)
        if len(run) > 60 or pool and len(pool) > 60:
            continue
        ends = {len(run_of(items[:k])): k for k in range(len(items) + 1)}
        for n in range(len(run) + 1):
            if n in ends:
                part = items[:ends[n]]
                yield answered(part, pool, enough(rnd, size_of(part, pool)))
            else:
                room = any_room(rnd)
                yield room, run[:n], pool, refused(room, 46, sum(1 for end in ends if end < n) - 1)


def pool_truncations(rnd):
    """Every truncation of some good pool, to items that name no string: good where a string ends, else 9 at the last byte left."""
    while True:
        pool = pool_of(rnd, rnd.randint(1, 40))
        items = good_items(rnd, 0, 60, 3)
        for n in range(len(pool) + 1):
            part = pool[:n]
            unmarked = n > 0 and part[-1] < 0x80
            yield answered(items, part, enough(rnd, size_of(items, part)), *((9, placed(items, len(items)) + 1 + n) if unmarked else ()))


def some_room(rnd, run, pool):
    """A room near what might be needed."""
    return min(MOST, max(0, len(run) + len(pool or b"") + rnd.choice([-20, -2, 0, 2, 4, 6, 6, 6, 20, 60, 300])))


def random_pool(rnd):
    letters = bytes([0x20, 0x41, 0x7E, 0xA0, 0xC1, 0xFE, 0x30, 0xB0, 0x1F, 0x7F, 0xFF])
    n = rnd.choice([0, 1, 2, 3, 5, 8, rnd.randint(0, 30)])
    return rnd.choice([None, pool_of(rnd, n), pool_of(rnd, n), bytes(rnd.choice(letters) for _ in range(n)), rnd.randbytes(n)])


def random_bytes(rnd):
    """Random runs and pools, up to the most that can be asked for."""
    while True:
        most = rnd.choice([3, 8, 40, 260, rnd.choice([260, MOST])])
        run, pool = rnd.randbytes(rnd.randint(0, most)), rnd.choice([random_pool(rnd), rnd.randbytes(rnd.randint(0, most))])
        yield some_room(rnd, run, pool), run, pool, None


def random_alphabet(rnd):
    """Random runs of the bytes that matter."""
    letters = bytes([0x00, 0x01, 0x02, 0x03, 0x10, 0x11, 0x60, 0x61, 0x62, 0x80, 0x81, 0x06, 0x08, 0x20, 0xA0, 0x41])
    while True:
        run = bytes(rnd.choice(letters) for _ in range(rnd.choice([1, 2, 3, 4, 5, 6, 8, rnd.randint(0, 30)])))
        pool = random_pool(rnd)
        yield some_room(rnd, run, pool), run, pool, None


def random_items(rnd):
    """Whole items of random tags with random data, to random pools."""
    while True:
        items = []
        for _ in range(rnd.randint(0, 8)):
            tag = rnd.choice(KNOWN[1:]) if rnd.random() < 0.7 else rnd.choice([0x00] + UNKNOWN_LONG + UNKNOWN_SHORT[::16])
            if tag in IDENTITY and rnd.random() < 0.8:
                items.append(entry(tag, identity(rnd, tag, rnd.choice([1, 2, 8]))))
                continue
            n = tag >> 4 or rnd.choice([0, 1, 2, 5, 20])
            items.append(entry(tag, rnd.choice([rnd.randbytes(n), bytes(rnd.choice(b"\0\0\1\2\x20\x41") for _ in range(n))])))
        run, pool = b"".join(items), random_pool(rnd)
        yield some_room(rnd, run, pool), run, pool, None


def mutated(rnd):
    """A good request with one to three bytes of run or pool changed, taken out or put in."""
    while True:
        items, pool = good(rnd, 6, rnd.random() < 0.8)
        parts = [bytearray(run_of(items)), bytearray(pool or b"")]
        for _ in range(rnd.randint(1, 3)):
            part = rnd.choice(parts)
            k = rnd.randint(0, len(part))
            byte = rnd.choice([rnd.randrange(256), rnd.choice(b"\0\1\2\x10\x20\xA0")])
            part[k:k + rnd.choice([1, 1, 1, 0])] = rnd.choice([b"", bytes([byte]), bytes([byte])])
        run, pool = bytes(parts[0]), None if pool is None else bytes(parts[1])
        yield min(MOST, size_of(items, pool) + rnd.choice([0, 1, 2, 3, 60])), run, pool, None


def paper_cases(_):
    """The images of cases 2, 4 and 5 of the build paper, and requests around them."""
    top1 = bytes.fromhex("746F70B1")
    while True:
        yield 4, b"", None, "length 4: 56 02 04 6F"
        yield 255, bytes.fromhex("100100"), top1, "length 12: 56 02 0C 10 00 01 04 74 6F 70 B1 57" + rest(255, 12)
        yield 6, bytes.fromhex("11010F"), None, "length 6: 56 02 06 11 0F 8F"
        yield 14, bytes.fromhex("100100"), top1, "length 12: 56 02 0C 10 00 01 04 74 6F 70 B1 57; rest AA AA"
        yield 3, bytes.fromhex("100100"), None, "refused 41 at 0 (0h): the lent buffer is too short for the image; rest AA AA AA"
        yield 0, bytes.fromhex("1100"), None, (
            "refused 46 at 0 (0h): an item's length is not its tag's, an item is a pool, or an item or record is cut short")
        yield 8, bytes.fromhex("100100"), None, (
            "refused 10 at 4 (4h): an index is not below the string count; rest AA AA AA AA AA AA AA AA")


# a group and how many requests it gives in each turn
GROUPS = [(good_mixed, 8), (good_each_tag, 6), (long_lengths, 8), (good_pools, 3), (lengths, 13), (rooms, 6), (rule_46_length, 7),
          (rule_46_pool, 2), (rule_46_cut, 7), (rule_46_far, 1), (rule_46_twice, 1), (rule_40, 4), (rule_40_pool, 3), (rule_40_wide, 1),
          (rule_7, 4), (rule_9_order, 3), (made_of(tiny_images.rule_7), 2), (made_of(tiny_images.rule_8), 1),
          (made_of(tiny_images.rule_9), 5), (made_of(tiny_images.rule_9_short), 2), (made_of(tiny_images.rule_10), 7),
          (made_of(tiny_images.rule_11), 12), (made_of(tiny_images.two_same), 2), (several, 8), (truncations, 6),
          (pool_truncations, 3), (random_bytes, 2), (random_alphabet, 4), (random_items, 6), (mutated, 5)]
REBUILT = 16  # the same for rebuilt


def requests(seed):
    """All requests, for ever: (room, run, pool or None, the answer or None)."""
    yield from itertools.islice(paper_cases(None), 7)
    running = [(g(random.Random("%s %s" % (seed, g.__name__))), n) for g, n in GROUPS]
    running.append((rebuilt(random.Random("%s rebuilt" % seed), seed), REBUILT))
    while True:
        for group, n in running:
            for room, run, pool, answer in itertools.islice(group, n):
                assert max(room, len(run), len(pool or b"")) <= MOST
                yield room, run, pool, answer


# ---- lines ----

def in_hex(rnd, data):
    """The bytes in hex: either case, with no, one or several blanks between them and around."""
    style = rnd.random()
    if style < 0.6:
        return " " + data.hex(" ").upper()
    if style < 0.7:
        return data.hex()
    return "".join(" " * rnd.choice([0, 0, 1, 1, 3]) + rnd.choice(["%02x", "%02X"]) % b for b in data) + " " * rnd.choice([0, 0, 1, 2])


def blanks(rnd):
    return " " * rnd.choice((0, 0, 0, 1, 3))


def line(rnd, room, run, pool):
    return ("%s%d%s;%s" % (blanks(rnd), room, blanks(rnd), in_hex(rnd, run)) + ("" if pool is None else ";" + in_hex(rnd, pool))).encode()


# none of these is a request
OTHER_LINES = [
    b"4", b" ", b";", b" ;", b";;", b"1 2;", b"; 10 01 00", b"-1;", b"1025;", b"1025; 02 00", b"2000;", b"10240;", b"65540;", b"4294967300;",
    b"18446744073709551620;", b"99999999999999999999999999;", b"x;", b"4x;", b"0x4;", b"4: 02 00", b"4, 02 00", b"4 02 00", b"02 00",
    b"9; 0", b"9; 02 0", b"9; 02 00 0", b"9; 0 2 00", b"9; 020", b"9; G2 00", b"9; 0g 00", b"9; 0x02 00", b"9; 02,00", b"9; 02:00",
    b"9; 02 00; C", b"9; 02 00; C 1", b"9; 02 00; C1 4", b"9; 02 00; G1", b"9; 02 00;;", b"9; 02 00; ;", b"9;;;", b"9; 02 00; C1; C1",
    b"9; 02 /0", b"9; 02 0:", b"9; 02 @0", b"9; 02 0`", b"9; \x00", b"9; \x02\x00", b"9; 02 00; \xC1", b"not a request",
    b"255; " + b"02 00 " * 512 + b"02", b"255; " + b"0200" * 512 + b"02", b"1024; ; " + b"C1 " * 1025, b"1024; 02 00; " + b"C1" * 1025,
    b"1024; " + b"02 00 " * 700 + b"; C1"]
