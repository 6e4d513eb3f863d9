#!/usr/bin/env python3
"""Test images of tiny chips: good ones of every kind, one rule broken, two rules broken, truncations, random bytes.

`images(seed)` gives them for ever, each as (group, image, answer): the image has at most 300 bytes, and the answer is what the judge
with the full list must say by the way the image was made ("accepted COUNT", "refused NUMBER PLACE", or "?" where the maker does not
know). The same seed gives the same images. They come from groups taken in turn (GROUPS at the end). A group walks round its list of
variants, and puts each into fresh random surroundings.
"""
import random

KNOWN = (0x01, 0x10, 0x11, 0x60, 0x61, 0x62, 0x80, 0x81)
IDENTITY = (0x61, 0x62, 0x80, 0x81)
UNKNOWN_SHORT = [t for t in range(0x10, 0x100) if t not in KNOWN]
UNKNOWN_LONG = list(range(0x02, 0x10))
LIMIT = 300


def crc8(data, poly=0x07, start=0, out=0):
    crc = start
    for byte in data:
        crc ^= byte
        for _ in range(8):
            crc = ((crc << 1) ^ poly if crc & 0x80 else crc << 1) & 0xFF
    return crc ^ out


# ---- building ----

def item(tag, data):
    """The bytes of one item."""
    data = bytes(data)
    if tag >> 4:
        assert len(data) == tag >> 4, (tag, data)
        return bytes([tag]) + data
    return bytes([tag, len(data)]) + data


def finish(body, magic=0x56, version=2, length=None):
    """Header, items and a right check."""
    total = len(body) + 4
    assert total <= 255
    head = bytes([magic, version, total if length is None else length]) + bytes(body)
    return head + bytes([crc8(head)])


def pack(strings):
    """Pool data of texts (bytes of 20h to 7Eh, none empty)."""
    return b"".join(s[:-1] + bytes([s[-1] | 0x80]) for s in strings)


def lend(rnd, image, chance=0.3):
    """Sometimes lends bytes past L."""
    room = LIMIT - len(image)
    if room > 0 and rnd.random() < chance:
        n = rnd.choice([1, 1, 2, 3, rnd.randint(1, room), room])
        image += rnd.choice([b"\0" * n, b"\xff" * n, rnd.randbytes(n)])[:room]
    return image


def text(rnd, most=12):
    n = rnd.choice([1, 1, 2, 3, 4, 4, 5, rnd.randint(1, most)])
    style = rnd.random()
    if style < 0.25:
        pool = b'"\\'
    elif style < 0.4:
        pool = b'a"b\\c '
    elif style < 0.5:
        pool = b"\x20\x7e"
    else:
        pool = bytes(range(0x20, 0x7F))
    return bytes(rnd.choice(pool) for _ in range(min(n, most)))


def strings_of(rnd, count, room):
    """count texts that together take at most room bytes (room >= count)."""
    out = []
    for left in range(count, 0, -1):
        s = text(rnd, max(1, min(40, room - (left - 1))))
        room -= len(s)
        out.append(s)
    return out


def identity(rnd, tag, strings, **over):
    """Data of 61, 62, 80 or 81, every field in range save those given."""
    f = dict(serial=rnd.randrange(strings) if strings else 0, part=rnd.randrange(strings) if strings else 0,
             major=rnd.choice([0x00, 0x09, 0x0A, 0x63, 0x80, 0x99, rnd.randint(0, 0x63), rnd.randint(0x80, 0x99)]),
             minor=rnd.choice([0, 9, 10, 99, rnd.randint(0, 99)]),
             c0=rnd.choice([0x20, 0x7E, 0x22, 0x5C, rnd.randint(0x20, 0x7E)]),
             c1=rnd.choice([0x20, 0x7E, 0x22, 0x5C, rnd.randint(0x20, 0x7E)]),
             batch=rnd.choice([0, 1, 255, 256, 9984, 9999, rnd.randint(0, 9999)]))
    f.update(over)
    data = [f["serial"], f["part"], f["major"], f["minor"], f["c0"], f["c1"]]
    return bytes(data + [f["batch"] & 255, f["batch"] >> 8] if tag >= 0x80 else data)


def unknown(rnd, room):
    """An unknown item of at most room bytes (room >= 2)."""
    if rnd.random() < 0.5:
        tag = rnd.choice([t for t in UNKNOWN_SHORT if 1 + (t >> 4) <= room])
        return item(tag, rnd.randbytes(tag >> 4))
    n = min(room - 2, rnd.choice([0, 0, 1, 6, 15, 16, 17, rnd.randint(0, 60)]))
    return item(rnd.choice(UNKNOWN_LONG), rnd.randbytes(n))


def known(rnd, tag, strings):
    """A good item of a known tag other than 01; strings is the string count."""
    if tag == 0x10:
        return item(tag, [rnd.randrange(strings)])
    if tag == 0x11:
        return item(tag, rnd.randbytes(1))
    if tag == 0x60:
        return item(tag, rnd.randbytes(6))
    return item(tag, identity(rnd, tag, strings))


def good_items(rnd, strings, room, most=8, tags=None):
    """A list of good items (no pool) that take at most room bytes."""
    choice = tags or ([0x10, 0x10, 0x11, 0x60, 0x61, 0x62, 0x80, 0x81, None, None] if strings
                      else [0x11, 0x60, None])
    out = []
    for _ in range(rnd.randint(0, most)):
        tag = rnd.choice(choice)
        one = unknown(rnd, 30) if tag is None else known(rnd, tag, strings)
        if len(one) > room:
            break
        room -= len(one)
        out.append(one)
    return out


def filler(rnd, size):
    """Unknown items of exactly size bytes (size 0 or at least 2)."""
    assert size != 1
    out = []
    while size:
        if size < 17 and rnd.random() < 0.5 and 2 <= size <= 16:
            tag = rnd.choice([t for t in UNKNOWN_SHORT if t >> 4 == size - 1])
            out.append(item(tag, rnd.randbytes(size - 1)))
            size = 0
        else:
            n = rnd.choice([size, rnd.randint(2, size)])
            if size - n == 1:
                n = size
            out.append(item(rnd.choice(UNKNOWN_LONG), rnd.randbytes(n - 2)))
            size -= n
    return out


def accepted(items):
    return "accepted %d" % len(items)


def refused(number, place):
    return "refused %d %d" % (number, place)


def cycle(rnd, variants):
    """The variants for ever, in a fresh order on every round."""
    variants = list(variants)
    while True:
        rnd.shuffle(variants)
        yield from variants


def surroundings(rnd, strings, before_room=40, after_room=40, tags=None):
    """Good items to stand before and after one under test."""
    return (good_items(rnd, strings, before_room, 3, tags), good_items(rnd, strings, after_room, 3, tags))


def small_pool(rnd, count=None):
    """Some texts; the caller lays them as the last item."""
    count = rnd.choice([1, 1, 2, 3, 5, 9]) if count is None else count
    return strings_of(rnd, count, 60)


def placed(items, k):
    """The place of item k."""
    return 3 + sum(len(i) for i in items[:k])


# ---- groups: each yields (image, what the full list answers) for ever ----

def good_mixed(rnd):
    """Good images of any content; a single serial in about half of those with strings."""
    while True:
        strings = rnd.choice([None, 0, 1, 1, 2, 3, rnd.randint(1, 20), rnd.randint(1, 60)])
        texts = strings_of(rnd, strings or 0, rnd.choice([strings or 0, 60, 120]))
        pool = [] if strings is None else [item(0x01, pack(texts))]
        room = 251 - sum(map(len, pool))
        tags = None
        first = []
        if strings and rnd.random() < 0.5:
            tags = [0x11, 0x60, 0x61, 0x62, 0x80, 0x81, None]
            first = [known(rnd, 0x10, strings)]
            room -= 2
        items = first + good_items(rnd, strings or 0, room, rnd.choice([2, 8, 20]), tags)
        rnd.shuffle(items)
        items += pool
        yield lend(rnd, finish(b"".join(items))), accepted(items)


def good_each_tag(rnd):
    """One item of every known tag alone (with a pool where it needs one), all eight, and unknown tags."""
    for tag in cycle(rnd, list(KNOWN) + ["all", "short", "long", "none", "empty pool"]):
        texts = small_pool(rnd)
        pool = [item(0x01, pack(texts))]
        if tag == "all":
            items = [known(rnd, t, len(texts)) for t in KNOWN[1:]]
            rnd.shuffle(items)
            items += pool
        elif tag == "short":
            t = rnd.choice(UNKNOWN_SHORT)
            items = [item(t, rnd.randbytes(t >> 4))]
        elif tag == "long":
            items = [item(rnd.choice(UNKNOWN_LONG), rnd.randbytes(rnd.choice([0, 1, 15, 16, 17, 128, 200, 249])))]
        elif tag == "none":
            items = []
        elif tag == "empty pool":
            items = [item(0x01, b"")]
        elif tag == 0x01:
            items = pool
        else:
            items = [known(rnd, tag, len(texts))] + (pool if tag not in (0x11, 0x60) else [])
        yield lend(rnd, finish(b"".join(items))), accepted(items)


def good_pool_counts(rnd):
    """Pools with 1 to 60 strings, a serial that names one of them, first and last string included."""
    for count in cycle(rnd, range(1, 61)):
        texts = strings_of(rnd, count, rnd.choice([count, 100, 200, 240]))
        index = rnd.choice([0, count - 1, rnd.randrange(count)])
        items = [item(0x10, [index]), item(0x01, pack(texts))]
        yield lend(rnd, finish(b"".join(items))), accepted(items)


def good_quotes(rnd):
    """Quotes and backslashes in texts and in the two characters."""
    for what in cycle(rnd, [b'"', b"\\", b'\\"', b'"\\', b'""', b"\\\\", b'a"b\\c', b' "', b"\\ ", b"\\n", b"%s%n"]):
        texts = [what] + small_pool(rnd, 2)
        pair = (what * 2)[:2]
        tag = rnd.choice(IDENTITY)
        items = [item(0x10, [0]), item(tag, identity(rnd, tag, 3, serial=0, c0=pair[0], c1=pair[1])),
                 item(0x01, pack(texts))]
        yield lend(rnd, finish(b"".join(items))), accepted(items)


def good_long_name(rnd):
    """Names of 1 to 247 bytes, 3 and 4 often."""
    for n in cycle(rnd, [1, 2, 3, 3, 4, 4, 5, 7, 8, 9, 100, 200, 246, 247]):
        name = bytes(rnd.randint(0x20, 0x7E) for _ in range(n))
        items = [item(0x10, [0]), item(0x01, pack([name]))]
        yield lend(rnd, finish(b"".join(items))), accepted(items)


def good_lengths(rnd):
    """Every L from 4 to 255 that an accepted image can have (5 cannot), with or without a pool."""
    for total in cycle(rnd, [n for n in range(4, 256) if n != 5]):
        size = total - 4
        kind = rnd.random()
        if size >= 6 and kind < 0.6:
            chars = rnd.randint(1, size - 4)
            if size - 4 - chars == 1:
                chars += 1
            texts = []
            data = bytes(rnd.randint(0x20, 0x7E) for _ in range(chars))
            while data:
                n = rnd.randint(1, len(data))
                texts, data = texts + [data[:n]], data[n:]
            items = filler(rnd, size - 4 - chars)
            items.insert(rnd.randint(0, len(items)), item(0x10, [rnd.randrange(len(texts))]))
            items.append(item(0x01, pack(texts)))
        else:
            items = filler(rnd, size)
        image = finish(b"".join(items))
        assert image[2] == total == len(image)
        yield lend(rnd, image), accepted(items)


def good_many(rnd):
    """Items of two bytes, up to the 125 that there is room for, without a pool or with a pool of one string as the last of them."""
    for count, strings in cycle(rnd, [(count, strings) for count in (30, 100, 123, 124, 125) for strings in (0, 1)]):
        tags = [0x11, None] + [0x10] * strings
        items = [unknown(rnd, 2) if tag is None else known(rnd, tag, strings) for tag in rnd.choices(tags, k=count - strings)]
        items += [item(0x01, pack([b"x"]))] * strings
        yield lend(rnd, finish(b"".join(items))), accepted(items)


def rule_1(rnd):
    for n in cycle(rnd, [0, 1, 2, 3]):
        image = next(good_mixed(rnd))[0]
        yield rnd.choice([image[:n], rnd.randbytes(n)]), refused(1, 0)


def rule_2(rnd):
    for magic in cycle(rnd, [m for m in range(256) if m != 0x56]):
        image = next(good_mixed(rnd))[0]
        total = image[2]
        yield finish(image[3:total - 1], magic=magic) + image[total:], refused(2, 0)


def rule_3(rnd):
    for version in cycle(rnd, [v for v in range(256) if v != 2] + [0, 1, 3] * 10):
        image = next(good_mixed(rnd))[0]
        total = image[2]
        yield finish(image[3:total - 1], version=version) + image[total:], refused(3, 1)


def rule_4(rnd):
    """L below 4 and L above what is lent; with the check right where it can be."""
    for part in cycle(rnd, ["0", "1", "2", "3", "one more", "one more", "255", "cut", "cut 1"]):
        image, _ = next(good_mixed(rnd))
        total = image[2]
        body = image[3:total - 1]
        if part in "0123":
            bad = finish(body, length=int(part)) + image[total:]
        elif part == "one more":
            if total == 255:
                continue
            bad = finish(body, length=total + 1)
        elif part == "255":
            if total == 255:
                continue
            bad = finish(body, length=255)
        elif part == "cut":
            if total == 4:
                continue
            bad = image[:rnd.randint(4, total - 1)]
        else:
            if total == 4:
                continue
            bad = image[:total - 1]
        yield bad, refused(4, 2)


def rule_5(rnd):
    """A wrong check: a flipped bit, any value, and the checks of other CRCs and other ranges."""
    for part in cycle(rnd, list(range(8)) + ["any", "start FF", "out FF", "poly", "all", "from 3", "sum", "reflected"]):
        image = next(good_mixed(rnd))[0]
        total = image[2]
        front, right = image[:total - 1], image[total - 1]
        if isinstance(part, int):
            wrong = right ^ (1 << part)
        elif part == "any":
            wrong = rnd.randrange(256)
        elif part == "start FF":
            wrong = crc8(front, start=0xFF)
        elif part == "out FF":
            wrong = right ^ 0xFF
        elif part == "poly":
            wrong = crc8(front, poly=rnd.choice([0x31, 0x1D, 0x9B, 0xD5]))
        elif part == "all":
            wrong = crc8(front + b"\0")
        elif part == "from 3":
            wrong = crc8(front[3:])
        elif part == "sum":
            wrong = -sum(front) & 0xFF
        else:
            wrong = int(format(right, "08b")[::-1], 2)
        if wrong == right:
            continue
        yield front + bytes([wrong]) + image[total:], refused(5, total - 1)


def rule_6(rnd):
    """The last item ends at L - 1 (good), at L or further, or its length byte is the check byte."""
    variants = [("short", n, by) for n in range(1, 16) for by in (0, 1, rnd.randint(1, n), n)]
    variants += [("known", t, by) for t in KNOWN[1:] for by in (0, 1)]
    variants += [("long", n, by) for n in (0, 1, 16, 100) for by in (0, 1, 2, 255)]
    variants += [("pool", n, by) for n in (1, 5) for by in (0, 1, 255)]
    variants += [("at L-2", t, None) for t in range(0x10)] * 2
    variants += [("alone", t, None) for t in range(0, 256, 5)]
    for part, n, by in cycle(rnd, variants):
        before = good_items(rnd, 0, 60, 3)
        if part in ("short", "known"):
            tag = n if part == "known" else rnd.choice([t for t in UNKNOWN_SHORT if t >> 4 == n])
            if by == 0 and part == "known" and tag not in (0x11, 0x60):
                continue
            last = bytes([tag]) + rnd.randbytes((tag >> 4) - by)
        elif part == "long":
            tag = rnd.choice(UNKNOWN_LONG)
            last = bytes([tag, min(255, n + by)]) + rnd.randbytes(n)
        elif part == "pool":
            last = bytes([0x01, min(255, n + by)]) + pack(strings_of(rnd, n, n))
        elif part == "at L-2":
            last = bytes([n])
        else:  # the only byte: L is 5
            before, last = [], bytes([n])
        image = finish(b"".join(before) + last)
        if by == 0:
            yield lend(rnd, image, 0.5), accepted(before + [last])
        else:
            yield lend(rnd, image, 0.5), refused(6, placed(before, len(before)))


def rule_7(rnd):
    for n, where in cycle(rnd, [(n, w) for n in (0, 1, 2, 4, 60) for w in ("first", "any", "last", "pool after")]):
        texts = small_pool(rnd)
        pooled = where == "pool after" or rnd.random() < 0.5 and where != "last"
        items = good_items(rnd, len(texts) if pooled else 0, 100, 5)
        k = {"first": 0, "any": rnd.randint(0, len(items))}.get(where, len(items))
        items.insert(k, item(0x00, rnd.randbytes(n)))
        if pooled:
            items.append(item(0x01, pack(texts)))
        yield lend(rnd, finish(b"".join(items))), refused(7, placed(items, k))


def rule_8(rnd):
    """A pool with an item after it, two pools, three pools; the pools may be empty."""
    for part in cycle(rnd, ["item", "known", "two", "two empty", "three", "empty long", "apart"]):
        texts = small_pool(rnd)
        pool = item(0x01, pack(texts))
        items = good_items(rnd, len(texts), 60, 3)
        k = len(items)
        if part == "item":
            items += [pool, unknown(rnd, 30)]
        elif part == "known":
            items += [pool, known(rnd, rnd.choice(KNOWN[1:]), len(texts))]
        elif part == "two":
            items += [pool, pool]
        elif part == "two empty":
            items = good_items(rnd, 0, 60, 3)
            k = len(items)
            items += [item(0x01, b"")] * 2
        elif part == "three":
            items += [pool, pool, pool]
        elif part == "empty long":
            items += [pool, item(rnd.choice(UNKNOWN_LONG), b"")]
        else:
            items += [pool, item(0x11, [rnd.randrange(256)]), pool]
        yield lend(rnd, finish(b"".join(items))), refused(8, placed(items, k))


def rule_9(rnd):
    """Each bound of a pool byte, marked and not, first, in the middle and last; the last one unmarked."""
    values = [0x00, 0x1F, 0x20, 0x7E, 0x7F]
    variants = [(w, v, m) for w in ("first", "middle", "last") for v in values for m in (0, 0x80)]
    for where, value, mark in cycle(rnd, variants):
        strings = rnd.choice([3, 4, 8])
        data = bytearray(pack(strings_of(rnd, strings, 40)))
        k = {"first": 0, "last": len(data) - 1}.get(where, rnd.randint(1, len(data) - 2))
        data[k] = value | mark
        bad = not 0x20 <= value <= 0x7E or (where == "last" and not mark)
        count = sum(b >> 7 for b in data)
        items = good_items(rnd, count, 80, 4) + [item(0x01, data)]
        place = placed(items, len(items) - 1) + 2 + k
        yield lend(rnd, finish(b"".join(items))), refused(9, place) if bad else accepted(items)


def rule_9_short(rnd):
    """Pools of one and two bytes."""
    values = [0x1F, 0x20, 0x41, 0x7E, 0x7F, 0x9F, 0xA0, 0xC1, 0xFE, 0xFF]
    for data in cycle(rnd, [bytes([a]) for a in values] + [bytes([a, b]) for a in values for b in values]):
        bad = [k for k, b in enumerate(data) if not 0x20 <= b & 0x7F <= 0x7E or (k == len(data) - 1 and b < 0x80)]
        items = good_items(rnd, sum(b >> 7 for b in data), 40, 2) + [item(0x01, data)]
        place = placed(items, len(items) - 1) + 2
        yield lend(rnd, finish(b"".join(items))), refused(9, place + bad[0]) if bad else accepted(items)


def rule_10(rnd):
    """Each index of each tag at count - 1 (good), count, count + 1 and 255; empty pool and no pool."""
    places = [(0x10, "serial")] + [(t, f) for t in IDENTITY for f in ("serial", "part", "both")]
    variants = [(t, f, v) for t, f in places for v in (-1, 0, 1, 255)]
    variants += [(t, f, v) for t, f in places for v in ("empty", "none")]
    for tag, field, value in cycle(rnd, variants):
        texts = small_pool(rnd) if isinstance(value, int) else []
        count = len(texts)
        index = value if value == 255 else count + value if isinstance(value, int) else rnd.choice([0, 0, 1, 255])
        if not isinstance(value, int) and tag != 0x10:
            field = "both"  # with no strings neither index can be good
        if tag == 0x10:
            bad = item(tag, [index])
        else:
            over = {f: index for f in ("serial", "part") if field in (f, "both")}
            bad = item(tag, identity(rnd, tag, count, **over))
        before, after = surroundings(rnd, count)
        items = before + [bad] + after
        k = len(before)
        if value != "none":
            items.append(item(0x01, pack(texts)))
        image = lend(rnd, finish(b"".join(items)))
        yield image, accepted(items) if value == -1 else refused(10, placed(items, k) + 1 + (field == "part"))


def rule_11(rnd):
    """Both sides of each bound of each field in each identity tag."""
    values = [("major", 2, [0x00, 0x63, 0x80, 0x99], [0x64, 0x7F, 0x9A, 0xFF, 0x65, 0xE3]),
              ("minor", 3, [0, 99], [100, 128, 255]),
              ("c0", 4, [0x20, 0x7E], [0x1F, 0x7F, 0x00, 0x80, 0xA0, 0xFF]),
              ("c1", 4, [0x20, 0x7E], [0x1F, 0x7F, 0x00, 0x80, 0xA0, 0xFF]),
              ("batch", 6, [0, 9999, 0x26FF, 0x2700, 0x00FF, 0x1027],
               [10000, 0x2711, 0x2800, 0x8000, 0xFF00, 65535])]
    variants = [(t, f, at, v, ok) for t in IDENTITY for f, at, good, bad in values if f != "batch" or t >= 0x80
                for ok, vs in ((True, good), (False, bad)) for v in vs]
    for tag, field, at, value, ok in cycle(rnd, variants):
        texts = small_pool(rnd)
        before, after = surroundings(rnd, len(texts))
        items = before + [item(tag, identity(rnd, tag, len(texts), **{field: value}))] + after
        items.append(item(0x01, pack(texts)))
        place = placed(items, len(before)) + 1 + at
        yield lend(rnd, finish(b"".join(items))), accepted(items) if ok else refused(11, place)


def two_same(rnd):
    """Rule 10 or 11 broken twice: the smaller place counts. Two serials: accepted, but no name."""
    for part in cycle(rnd, [10, 11, "within 11", "two serials"]):
        texts = small_pool(rnd)
        count = len(texts)
        before, between = surroundings(rnd, count)
        tags = rnd.choice(IDENTITY), rnd.choice(IDENTITY)
        at = 0
        if part == 10:
            pair = [item(t, identity(rnd, t, count, part=255)) for t in tags]
            at = 2
        elif part == 11:
            pair = [item(t, identity(rnd, t, count, minor=200)) for t in tags]
            at = 4
        elif part == "within 11":
            fields = [("major", 0x64, 3), ("minor", 100, 4), ("c0", 0x1F, 5), ("c1", 0x7F, 5), ("batch", 10000, 7)]
            two = sorted(rnd.sample(fields[:4] if tags[0] < 0x80 else fields, 2), key=lambda f: f[2])
            pair = [item(tags[0], identity(rnd, tags[0], count, **{f: v for f, v, _ in two})), b""]
            at = two[0][2]
        else:
            pair = [item(0x10, [rnd.randrange(count)]) for _ in range(2)]
        items = [i for i in before + [pair[0]] + between + [pair[1]] + [item(0x01, pack(texts))] if i]
        image = lend(rnd, finish(b"".join(items)))
        if part == "two serials":
            yield image, accepted(items)
        else:
            yield image, refused(10 if part == 10 else 11, placed(items, len(before)) + at)


def two_rules(rnd):
    """Two different rules broken, the higher one earlier in the image where that can be; the lower counts."""
    def parts(rule, count):
        if rule == 7:
            return item(0x00, rnd.randbytes(rnd.choice([0, 3]))), 0
        if rule == 10:
            tag = rnd.choice((0x10,) + IDENTITY)
            if tag == 0x10:
                return item(tag, [rnd.choice([count, 255])]), 1
            return item(tag, identity(rnd, tag, count, part=rnd.choice([count, 255]))), 2
        tag = rnd.choice(IDENTITY)
        f, v, at = rnd.choice([("major", 0x7F, 3), ("minor", 100, 4), ("c1", 0x1F, 5)])
        return item(tag, identity(rnd, tag, count, **{f: v})), at

    pairs = [(a, b) for a in range(2, 12) for b in range(a + 1, 12)]
    for low, high in cycle(rnd, pairs):
        texts = small_pool(rnd)
        count = len(texts)
        broken = {low, high}
        data = bytearray(pack(texts))
        pool_bad = None
        if 9 in broken:  # an end mark stays, so the count does too
            pool_bad = rnd.randrange(len(data))
            data[pool_bad] = (data[pool_bad] & 0x80) | rnd.choice([0x1F, 0x7F])
        items, where = [], {}
        for rule in (11, 10, 7) if rnd.random() < 0.7 else (7, 10, 11):
            items += good_items(rnd, count, 12, 2)
            if rule in broken:
                one, at = parts(rule, count)
                where[rule] = placed(items, len(items)) + at
                items.append(one)
        where[8] = placed(items, len(items))
        if pool_bad is not None:
            where[9] = where[8] + 2 + pool_bad
        items.append(item(0x01, data))
        if 8 in broken:
            items.append(item(0x11, [rnd.randrange(256)]))
        if 6 in broken:
            where[6] = placed(items, len(items))
            items.append(rnd.choice([b"\x02", b"\x00", b"\x22\x41", b"\x03\x05\x41"]))
        body = b"".join(items)
        total = len(body) + 4
        image = bytearray(finish(body, 0x57 if 2 in broken else 0x56, 3 if 3 in broken else 2,
                                 rnd.choice([0, 3, total + 1]) if 4 in broken else None))
        where.update({2: 0, 3: 1, 4: 2, 5: total - 1})
        if 5 in broken:
            image[-1] ^= rnd.randint(1, 255)
        image = bytes(image)
        yield image if 4 in broken else lend(rnd, image), refused(low, where[low])


def small_images(rnd):
    """Good images of at most 60 bytes, with their answers."""
    while True:
        image, said = next(rnd.choice([good_each_tag, good_mixed, good_quotes])(rnd))
        if image[2] <= 60:
            yield image, said


def truncations(rnd):
    """Every truncation of some image, from nothing to all of it; then of the next."""
    for image, said in small_images(rnd):
        total = image[2]
        for n in range(total + 1):
            yield image[:n], refused(1, 0) if n < 4 else refused(4, 2) if n < total else said


def truncations_checked(rnd):
    """Every truncation of the items of some image, with L and the check made right again: reaches 6 to 11."""
    for image, _ in small_images(rnd):
        for n in range(3, image[2]):
            yield finish(image[3:n]), "?"


def random_bytes(rnd):
    """Random items with a right magic, version and check."""
    while True:
        yield lend(rnd, finish(rnd.randbytes(rnd.choice([0, 1, 2, 3, 4, 8, rnd.randint(0, 251)])))), "?"


def random_alphabet(rnd):
    """Random bytes from those that matter, with a right magic, version and check."""
    letters = bytes([0x00, 0x01, 0x02, 0x03, 0x10, 0x11, 0x60, 0x61, 0x62, 0x80, 0x81, 0x20, 0xA0, 0x41, 0xC1, 0x7F, 0x1F])
    while True:
        n = rnd.choice([2, 3, 4, 5, 6, 8, 12, rnd.randint(0, 40)])
        yield lend(rnd, finish(bytes(rnd.choice(letters) for _ in range(n)))), "?"


def random_items(rnd):
    """Whole items of random tags with random data, right check: the walk is good, the rest as it falls."""
    while True:
        items = []
        room = rnd.choice([20, 60, 251])
        for _ in range(rnd.randint(0, 10)):
            tag = rnd.choice(KNOWN) if rnd.random() < 0.7 else rnd.randrange(256)
            n = tag >> 4 or rnd.choice([0, 1, 2, 5, 20])
            data = rnd.choice([rnd.randbytes(n), bytes(rnd.choice(b"\0\1\2\x20\x41\x7e\xc1\xa0") for _ in range(n))])
            one = item(tag, data)
            if len(one) > room:
                break
            room -= len(one)
            items.append(one)
        yield lend(rnd, finish(b"".join(items))), "?"


def mutated(rnd):
    """A good image with one to three bytes changed, the check mostly made right again."""
    while True:
        image = bytearray(next(good_mixed(rnd))[0])
        total = image[2]
        if total == 4:
            continue
        for _ in range(rnd.randint(1, 3)):
            k = rnd.randint(3, total - 2) if rnd.random() < 0.95 else rnd.randint(0, 2)
            image[k] = rnd.choice([rnd.randrange(256), image[k] ^ 1 << rnd.randrange(8), image[k] + 1 & 255])
        if rnd.random() < 0.95 and image[2] <= len(image) and image[2] >= 4:
            image[image[2] - 1] = crc8(image[:image[2] - 1])
        yield bytes(image), "?"


def paper_cases(rnd):
    """Cases 1 to 7 of the build paper."""
    while True:
        yield b"", refused(1, 0)
        yield bytes.fromhex("5602046F"), "accepted 0"
        yield bytes.fromhex("5602046E"), refused(5, 3)
        yield bytes.fromhex("56020C10000104746F70B157"), "accepted 2"
        yield bytes.fromhex("560206110F8F"), "accepted 1"
        yield bytes.fromhex("5603046F"), refused(3, 1)
        yield bytes.fromhex("5602056F"), refused(4, 2)


# a group and how many images it gives in each turn
GROUPS = [(good_mixed, 12), (good_each_tag, 6), (good_pool_counts, 4), (good_quotes, 2), (good_long_name, 2),
          (good_lengths, 6), (good_many, 1), (rule_1, 1), (rule_2, 1), (rule_3, 1), (rule_4, 2), (rule_5, 2), (rule_6, 6), (rule_7, 2),
          (rule_8, 3), (rule_9, 4), (rule_9_short, 2), (rule_10, 6), (rule_11, 8), (two_same, 2), (two_rules, 6),
          (truncations, 4), (truncations_checked, 4), (random_bytes, 3), (random_alphabet, 4), (random_items, 4),
          (mutated, 4)]


def images(seed):
    """All images, for ever: (group, image, what the full list answers)."""
    cases = paper_cases(None)
    for _ in range(7):
        yield ("paper_cases",) + next(cases)
    running = [(g.__name__, g(random.Random("%s %s" % (seed, g.__name__))), n) for g, n in GROUPS]
    while True:
        for name, group, n in running:
            for _ in range(n):
                yield (name,) + next(group)
