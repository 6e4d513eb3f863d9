"""The two formats of images, as the tests ask of them."""
import collections

import board_images
import board_runs
import tiny_images
import tiny_runs

# numbers far past those of any item, string or record: the first of more than 32 bits, and the last of 64
FAR = (str(2 ** 32), str(2 ** 64 - 1))
# what stands behind a call's name where it was asked: nothing for other numbers
ASKED = ("", *(" " + number for number in FAR))


def tiny_shown():
    """Each tag known and not known, references and strings as text and undecodable."""
    first = {tag: ("serial text", "serial undecodable") for tag in tiny_images.KNOWN}
    first.update({0x01: ("strings",), 0x11: ("flags",), 0x60: ("address",)})
    items = ("%s %02X %s" % (call, tag, what) for call in ("item", "step") for tag in tiny_images.KNOWN for what in ("unknown", *first[tag]))
    return (*items, "string text", *(said % asked for said in ("step%s none", "string%s undecodable") for asked in ASKED))


def board_shown():
    """Each structure known, the header with each Length, those that a list can lack not known too, and records of both kinds."""
    always = (board_images.MAP, board_images.BOARD, board_images.PROMSIG)
    shown = [(kind, "major") for kind in (*always, *board_images.LISTED)] + [(kind, "unknown") for kind in board_images.LISTED]
    shown += [(board_images.EEPROM, "Length %d" % length) for length in board_images.HEADERS]
    items = ("%s %s %s" % (call, kind.hex().upper(), what) for call in ("item", "step") for kind, what in shown)
    return (*items, "map MapLabel", "gpio GpioLabel", *("step%s none" % asked for asked in ASKED))


# a format: its name in those of programs; the full list, and another one; how many bytes a record has for its list and for its image's
# length, and a run of records or of requests at most; the numbers of its rules, those of them that ask the list, and those that follow
# them; the images of a seed, and the requests to its writer; the sources of its reference; the calls by number, and what
# they must have shown: the call, an item's kind, and what is shown first of it (of the header its Length) or "unknown"
Format = collections.namedtuple("Format", "name full another list_bytes length_bytes room rules listed late images runs sources calls shown")
TINY = Format("tiny", 255, lambda rnd: rnd.choice([0, 254, 253, 251, rnd.randrange(256)]), 1, 2, 65536, range(1, 12), range(8, 12),
              (42, 43, 44), tiny_images.images, tiny_runs, ("tiny.c",), ("item", "step", "string"), tiny_shown())
BOARD = Format("board", board_images.FULL, lambda rnd: rnd.choice([0, board_images.FULL - (1 << rnd.randint(8, 16)), rnd.getrandbits(17)]),
               4, 4, 262144, range(20, 35), board_images.ASK_LIST, (42,), board_images.images, board_runs,
               ("board.c", "board_write.c"), ("item", "step", "map", "gpio"), board_shown())


def outcome(call, first, second, kind, shown):
    """An outcome of a call by number in words: the call, its numbers if they are far, the kind of an item, and what is shown first (of the header its
    Length) or the refusal."""
    return " ".join(filter(None, (call, first, second and "record " + second, kind, shown)))


def due(form):
    """What the calls by number must have answered: what they show, each refusal of an image, and 42, at numbers near and far. (A step past the last says that
    none is left.)"""
    calls = [call + asked for call in form.calls for asked in ASKED]
    if "gpio" in form.calls:
        calls += ["gpio%s record %s" % (asked, record) for asked in ASKED for record in FAR]
    refused = {"%s refused %d" % (call, number) for call in calls for number in (*form.rules, 42)}
    return {*form.shown, *refused} - {"step%s refused 42" % asked for asked in ASKED}


def with_fewer(form, said):
    """What the judge must say with a shorter list, given what it must say with the full one: the same, unless a rule asked the list."""
    return "?" if said.startswith("refused") and int(said.split()[1]) in form.listed else said
