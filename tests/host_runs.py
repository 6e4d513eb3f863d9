#!/usr/bin/env python3
"""Holds the functions that are exported to C against tests/independent.rs, by tests/host.c, and runs the papers' cases through C. tests/README.md says more.

    host_runs.py IMAGES SEED                    compares this many images and a twentieth as many pairs; `make soak` calls it
    host_runs.py records KIND NUMBER SEED       writes the records that tests/host.c reads: KIND is tiny, board or pair
"""
import collections
import itertools
import os
import random
import re
import signal
import subprocess
import sys
import tempfile

import board_runs
from building import ENVIRONMENT, build, exported, fail, independent
from coverage import table
from formats import BOARD, TINY, with_fewer

UNKNOWN = (1 << 64) - 1
EEPROM = 1 << 40

# of 100 images; pairs come on top
SHARES = {"tiny": 60, "board": 40, "pair": 5}

# what each call of tests/host.c must have answered at least once, 0 for an answer that is no refusal
DUE = {
    "tiny-judge": (0, *TINY.rules),
    "board-judge": (0, *BOARD.rules),
    "firmware": (0, *BOARD.rules),
    "eeprom": (0,),
    "name": (0, *TINY.rules, 43, 44),
    "tiny-list": (0, *TINY.rules, 43),
    "board-list": (0, *BOARD.rules, 43),
    "step": (0, *TINY.rules, *BOARD.rules),
    "walk": (0, *TINY.rules, *BOARD.rules),
}


def number_of(said):
    """The answer that C must give, by the words of an image's maker: '?', 'accepted COUNT', 'refused NUMBER PLACE', and of a pair 'firmware LENGTH', 'eeprom
    LENGTH', 'neither NUMBER PLACE' or None."""
    word, *numbers = (said or "?").split()
    if word in ("refused", "neither"):
        return int(numbers[0]) << 32 | int(numbers[1])
    return UNKNOWN if word == "?" else int(numbers[0]) | (EEPROM if word == "eeprom" else 0)


def record(kind, kinds, said, *images):
    return b"".join([bytes([kind]), kinds.to_bytes(4, "little"), number_of(said).to_bytes(8, "little"),
                     *(len(image).to_bytes(4, "little") + image for image in images)])


def image_records(form, kind, number, seed):
    """Each image twice: with all kinds of its format, and with another list; kinds of the other format, and bits of none, at random."""
    rnd = random.Random("%s lists" % seed)
    for _, image, said in itertools.islice(form.images(seed), number):
        for kinds, due in ((form.full, said), (form.another(rnd), with_fewer(form, said))):
            yield record(kind, kinds | rnd.getrandbits(32) & ~form.full, due, image)


def pair_records(number, seed):
    for kinds, firmware, eeprom, said in itertools.islice(board_runs.pairs(seed), number):
        yield record(2, kinds, said, firmware, eeprom)


def records(kind, number, seed):
    return {"tiny": lambda: image_records(TINY, 0, number, seed), "board": lambda: image_records(BOARD, 1, number, seed),
            "pair": lambda: pair_records(number, seed)}[kind]()


def started(program, kind, number, seed):
    """tests/host.c at work on the records of a kind."""
    maker = subprocess.Popen([sys.executable, os.path.abspath(__file__), "records", kind, str(number), str(seed)], stdout=subprocess.PIPE)
    host = subprocess.Popen([program], stdin=maker.stdout, stdout=subprocess.PIPE, stderr=subprocess.PIPE, env=ENVIRONMENT)
    maker.stdout.close()
    return maker, host


def finished(kind, number, seed, maker, host):
    """How often each call answered each number; the record at which it stopped is shown."""
    said, complaint = host.communicate()
    if maker.wait() or host.returncode:
        stopped = re.search(rb"record (\d+)", complaint)
        shown = next(itertools.islice(records(kind, number, seed), int(stopped[1]), None)).hex() if stopped else "not known"
        fail("tests/host.c ended with status %d: %s\nthe record: %s" % (host.returncode, complaint.decode(errors="replace"), shown[:20000]))
    return {(call, int(answer)): int(times) for call, answer, times in (line.split() for line in said.decode().splitlines())}


def compare(program, images, seed):
    """Images and pairs: how often each call answered each number. Each that a call can answer is reached, and no other."""
    numbers = {kind: images * share // 100 for kind, share in SHARES.items()}
    running = [(kind, number, seed, *started(program, kind, number, seed)) for kind, number in numbers.items()]
    columns = {call: collections.Counter() for call in DUE}
    for one in running:
        for (call, number), times in finished(*one).items():
            columns[call][number] += times
    print("tests: %d tiny and %d board images with two lists each, and %d pairs of board images, answered through C as by tests/independent.rs"
          % tuple(numbers.values()))
    for call, answers in DUE.items():
        if set(columns[call]) != set(answers):
            fail("%s answered %s, and is to answer %s" % (call, sorted(columns[call]), sorted(answers)))
    return columns


def cases(folder, library):
    """The papers' cases through C, by tests/cases.c."""
    program = build(folder, "cases", "tests/cases.c", library)
    print("tests: " + subprocess.run([program], stdout=subprocess.PIPE, check=True, env=ENVIRONMENT).stdout.decode().strip())


def compare_host(folder, libraries, other, images, seed):
    """The papers' cases and the comparison with the other library; how often each call answered each number."""
    cases(folder, libraries["host"])
    return compare(build(folder, "host", "tests/host.c", libraries["host"], libraries["reader_c"], other), images, seed)


def main():
    if sys.argv[1:2] == ["records"]:
        kind, number, seed = sys.argv[2:]
        signal.signal(signal.SIGPIPE, signal.SIG_DFL)  # ends without a word where tests/host.c has stopped
        for one in records(kind, int(number), int(seed)):
            sys.stdout.buffer.write(one)
        return
    images, seed = map(int, sys.argv[1:])
    os.chdir(os.path.join(os.path.dirname(os.path.abspath(__file__)), ".."))
    with tempfile.TemporaryDirectory() as folder:
        other, _ = independent(folder)
        table(compare_host(folder, exported("host", "reader_c"), other, images, seed), (0, *TINY.rules, *BOARD.rules, 43, 44))


if __name__ == "__main__":
    main()
