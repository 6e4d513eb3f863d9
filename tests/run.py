#!/usr/bin/env python3
"""Holds the programs against things that were not written in Rattle. Run by .ci/run after `rt ci`; see tests/README.md.

    run.py [IMAGES [SEED [BOARDS]]]

1. every sample is listed as stored beside it; input of a million bytes is listed or refused; too many requests, records past the last
   byte that is read, a read error and an output that is full are met as they should be;
2. every answer of `tiny_answers` for IMAGES tiny images, each with two lists, is the answer of tests/reference/tiny.c and of
   tests/independent.rs (by tests/answers.rs); and where an image was made for an answer of the judge with the full list, it gets that, and
   with another list too unless a rule that asks the list was broken. The same for `board_answers`, BOARDS board images,
   tests/reference/board.c and tests/independent.rs;
3. `tiny_list` and `board_list` list some of them as the references do;
4. each refusal number from 1 to 11, and 42, 43 and 44, was among the answers for tiny images; from 20 to 34, and 42, for boards. Each tag
   and each structure was shown, known and where a list can lack it not known, the header with each Length that it may have, and strings, map
   records and GPIO records; each of these calls by number was refused with each number that it can be, at numbers up to the count and at 2^32
   and 2^64 - 1 (formats.py, `due`);
5. every answer of `tiny_write` for as many requests as tiny images, and at least 20,000, is the answer of tests/reference/tiny.c; where a
   request was made for an answer, it gets that; each refusal number of the writer was among the answers, and no other. The same for
   `board_write`, a third as many requests as board images, and tests/reference/board_write.c; boards were written with each header;
6. every answer of `choice_answers` for a third as many pairs of images as board images is the answer of tests/reference/board_write.c;
   where a pair was made for an answer, it gets that; firmware and EEPROM, each with each header, and neither were among the answers;
7. what the gate compares `tiny_answers`, `tiny_write`, `board_answers`, `board_list`, `board_write` and `choice_answers` with is what the
   references answer, and tests/independent.rs where it shows the same;
8. the CRCs exported to C are those of zlib and of a plain loop, and read nothing past either end (tests/crcs.c);
9. the header of the functions for C and their library are as the header says (tests/header_runs.py), the papers' cases through C are answered as they must
   be (tests/cases.c), and the command `chip` does what it must (tests/chip_runs.py, tests/upload_runs.py, tests/install_runs.py);
10. the words of each refusal are the same in chip/chip.h, in the programs, in docs/LISTING.md and in the references (tests/words.py), and codes
    are listed with what they mean there;
11. the judges, the choice, the name, the list and the walk exported to C answer as tests/independent.rs for 110,000 images (tests/host_runs.py and
    tests/host.c).
"""
import collections
import contextlib
import io
import itertools
import multiprocessing
import os
import random
import re
import subprocess
import sys
import tempfile
import zlib

sys.path.insert(0, os.path.dirname(os.path.abspath(__file__)))
import board_images
import board_runs
import tiny_images
from building import ENVIRONMENT, build, exported, fail, independent
from chip_runs import try_chip
from coverage import table
from documents import try_documents
from formats import BOARD, FAR, TINY, due, outcome, with_fewer
from header_runs import try_header
from host_runs import compare_host
from install_runs import try_install
from upload_runs import try_upload
from words import meanings, same_words

LISTED = 600
LENT = 3000  # of each format
REQUESTS = 20000  # to the tiny writer, at least
IMAGES = 110000  # through C
BIN = os.path.join("target", "bin")


def output(program, *words, given=b""):
    """What a program writes to standard output."""
    return subprocess.run([program, *words], input=given, stdout=subprocess.PIPE, check=True, env=ENVIRONMENT).stdout


def samples(references):
    """Each sample's listing is the stored one, by both listers of its format."""
    names = sorted(n[:-4] for n in os.listdir("samples") if n.endswith(".bin"))
    for name in names:
        with open("samples/%s.bin" % name, "rb") as f:
            image = f.read()
        with open("samples/%s.txt" % name, "rb") as f:
            stored = f.read()
        form = BOARD if name.startswith("board-") or image[:1] == b"$" else TINY
        for program, words in ((os.path.join(BIN, form.name + "_list"), []), (references[form], ["list"])):
            if output(program, *words, given=image) != stored:
                fail("samples/%s.bin: %s does not write samples/%s.txt" % (name, program, name))
    return len(names)


def codes(reference):
    """Each value of each code is listed with what it means in docs/LISTING.md, by both listers of boards."""
    documented, images = meanings("docs/LISTING.md"), list(board_images.coded_images())
    fields = "|".join({meaning.split()[0] for meaning in documented})
    for program, words in ((os.path.join(BIN, "board_list"), []), (reference, ["list"])):
        listed = b"".join(output(program, *words, given=image) for image in images).decode()
        found = set(re.findall(r"\b((?:%s) .*)$" % fields, listed, re.MULTILINE))
        if found != documented:
            fail("%s and docs/LISTING.md have other meanings of codes: %s" % (program, sorted(found ^ documented)))
    return len(documented)


def complaint(program, given):
    """What a program says on standard error of input that it does nothing with."""
    run = subprocess.run([os.path.join(BIN, program)], stdin=given, stdout=subprocess.PIPE, stderr=subprocess.PIPE, check=True)
    return b"" if run.stdout else run.stderr


def stored_answers(references, others):
    """What the gate compares these programs with is what the references answer, and each of the others of `tiny_answers` and `board_answers`."""
    asked = [(form, command, {"tests/reference/" + source: [references[form], command]}) for form, command, source in (
        (TINY, "write", "tiny.c"), (BOARD, "list", "board.c"), (BOARD, "write", "board_write.c"))]
    asked += [(form, "answers", others[form]) for form in (TINY, BOARD)]
    stored = [("%s_%s" % (form.name, command), programs) for form, command, programs in asked]
    stored.append(("choice_answers", {"tests/reference/board_write.c": [references[BOARD], "choice"]}))
    for crate, programs in stored:
        with open("crates/%s/stdin" % crate, "rb") as f:
            given = f.read()
        with open("crates/%s/stdout" % crate, "rb") as f:
            expected = f.read()
        for name, program in programs.items():
            if output(*program, given=given) != expected:
                fail("crates/%s/stdout is not what %s answers" % (crate, name))


def long_sample(form, name, length, listing):
    """A sample with zeros behind it up to a length, from a file, is listed as that sample is."""
    with open("samples/%s.bin" % name, "rb") as image, open("samples/%s.txt" % listing, "rb") as stored, tempfile.TemporaryFile() as long:
        long.write(image.read().ljust(length, b"\0"))
        long.seek(0)
        if subprocess.run([os.path.join(BIN, form.name + "_list")], stdin=long, stdout=subprocess.PIPE, check=True).stdout != stored.read():
            fail("samples/%s.bin with zeros behind it, %d bytes in all, is not listed as samples/%s.txt" % (name, length, listing))


def long_run(references):
    """A run of records that ends where reading does is answered whole; of a longer one the record that is cut is not answered."""
    image = board_images.case_13()
    long, half = image.ljust(65536 - 8, b"\0"), image.ljust(32768 - 6, b"\0")
    for program, command, small, one in (
            ("board_answers", "answers", record(BOARD, 0, b""), record(BOARD, BOARD.full, long)),
            ("choice_answers", "choice", board_runs.record(0, b"", b""), board_runs.record(BOARD.full, half, half))):
        for run in (one * 5, small + one * 5):
            ours, theirs = output(os.path.join(BIN, program), given=run), output(references[BOARD], command, given=run)
            if ours != theirs or ours.count(b"list ") != 4:
                fail("%s: of a run of over 262,144 bytes %d and %d records are answered"
                     % (program, ours.count(b"list "), theirs.count(b"list ")))


def long_requests(form, reference):
    """Requests of as many bytes as are read are answered; with a byte more, and where they cannot be read, the writer only complains."""
    program = form.name + "_write"
    said = "%s: standard input is over %s bytes or cannot be read\n" % (program, format(form.room, ","))
    *asked, answer = next(form.runs.requests(0))
    given = form.runs.line(random.Random(0), *asked).ljust(form.room, b"\n")
    if output(os.path.join(BIN, program), given=given) != answer.encode() + b"\n":
        fail("%s does not answer requests of %d bytes" % (program, form.room))
    if output(reference, "write", given=given) != answer.encode() + b"\n":
        fail("the reference does not answer requests of %d bytes" % form.room)
    with tempfile.TemporaryFile() as long:
        long.write(given + b"\n")
        long.seek(0)
        if complaint(program, long) != said.encode():
            fail("requests of over %d bytes are not refused by %s on standard error" % (form.room, program))
    folder = os.open(".", os.O_RDONLY)
    if complaint(program, folder) != said.encode():
        fail("%s does not say a read error on standard error" % program)
    os.close(folder)


def other_input():
    """Input that is too long, and input that cannot be read: a folder."""
    long_sample(TINY, "case4", 10 ** 6, "case4")
    long_sample(BOARD, "board-case13", 65536, "board-case13")
    long_sample(BOARD, "board-case13", 65537, "board-refused-20")
    long_sample(BOARD, "board-case13", 10 ** 6, "board-refused-20")
    folder = os.open(".", os.O_RDONLY)
    for program in ("tiny_list", "board_list"):
        if complaint(program, folder) != b"%s: standard input cannot be read\n" % program.encode():
            fail("%s does not say a read error on standard error" % program)
    os.close(folder)


def full_output():
    """A program whose output is full ends with status 1, and says why on standard error."""
    for program in ("tiny_list", "board_list", "tiny_write", "board_write", "tiny_answers", "board_answers", "choice_answers"):
        with open("crates/%s/stdin" % program, "rb") as given, open("/dev/full", "wb") as out:
            run = subprocess.run([os.path.join(BIN, program)], stdin=given, stdout=out, stderr=subprocess.PIPE)
        if run.returncode != 1 or b"No space left on device" not in run.stderr:
            fail("%s with a full output: status %d, %s" % (program, run.returncode, run.stderr.decode()))


def record(form, mask, image):
    return mask.to_bytes(form.list_bytes, "little") + len(image).to_bytes(form.length_bytes, "little") + image


def in_runs(records, room):
    """Records, each with what is expected of it, in runs of at most as many bytes as are read."""
    run, expected = bytearray(), []
    for one, wanted in records:
        if len(run) + len(one) > room:
            yield bytes(run), expected
            run, expected = bytearray(), []
        run += one
        expected.append(wanted)
    yield bytes(run), expected


def streams(form, made, seed):
    """Runs of records of the images, each with the full list and with another one."""
    rnd = random.Random(seed)
    return in_runs(
        (
            (record(form, mask, image), (group, image, mask, answer))
            for group, image, said in made
            for mask, answer in ((form.full, said), (form.another(rnd), with_fewer(form, said)))
        ),
        form.room,
    )


def answered(expected, *said):
    """What is expected of each record of a run, with what each side answers to it."""
    sides = [text.split(b"list ")[1:] for text in said]
    if any(len(side) != len(expected) for side in sides):
        fail("%d records, %s answered" % (len(expected), " and ".join(str(len(side)) for side in sides)))
    return zip(expected, *sides)


def shown(image):
    """An image in hexadecimal, or where it was put if it is large."""
    if len(image) <= 4096:
        return image.hex()
    with open("target/different.bin", "wb") as f:
        f.write(image)
    return "of %d bytes in target/different.bin" % len(image)


# of a line of `tiny_answers` or `board_answers`: the call, its first and its second number if they are far, the kind of an item, and what is shown first (of
# the header its Length) or the refusal
SHOWN = re.compile(r"^(item|step|string|map|gpio) (?:({far})|\d+)(?: (?:({far})|\d+))? (?:(?:tag|kind) (\w+) place \d+ length \d+ )?"
                   r"(?:major \d+ minor \d+ (?=Length \d+ StructLen ))?(refused \d+|serial \w+|Length \d+|\w+)".format(far="|".join(FAR)).encode(),
                   re.MULTILINE)

# of the bytes of a board image, as the writer and the choice show them: the low byte of the header's Length
HEADER = re.compile(rb" 24 45 65 70 72 6F 6D 24 (?:\w\w ){4}(\w\w) ")


def compare(form, others, made, seed):
    """All answers, image by image, against each of the others. How often each refusal number was answered, how many answers there were and how many
    were known before; and how often each outcome of the calls by number was among them."""
    counts, compared, known, parts = {}, 0, 0, collections.Counter()
    programs = [[os.path.join(BIN, form.name + "_answers")], *others.values()]
    for run, expected in streams(form, made, seed):
        said = [output(*program, given=run) for program in programs]
        parts.update(SHOWN.findall(said[0]))
        for (group, image, mask, wanted), ours, *answers in answered(expected, *said):
            judged = ours.split(b"\n")[1].decode()
            for name, theirs in zip(others, answers):
                if ours != theirs or wanted != "?" and judged != wanted:
                    fail("list %d, image %s (%s, made to be %s):\n%s\n%s:\n%s"
                         % (mask, shown(image), group, wanted, ours.decode(), name, theirs.decode()))
            key = refusal(judged)
            counts[key] = counts.get(key, 0) + 1
            for number in set(re.findall(rb"refused (4[234]) 0", ours)):
                counts[int(number)] = counts.get(int(number), 0) + 1
            compared += 1
            known += wanted != "?"
    return counts, compared, known, {outcome(*(word.decode() for word in part)): times for part, times in parts.items()}


def listings(form, reference, made):
    for group, image, _ in made:
        if output(os.path.join(BIN, form.name + "_list"), given=image) != output(reference, "list", given=image):
            fail("the listings of image %s (%s) differ" % (shown(image), group))


def compare_readers(form, reference, others, number, seed):
    """The images of a format: every answer, each refusal number and each outcome of the calls by number reached, some listings. How often each
    number was answered."""
    made = list(itertools.islice(form.images(seed), number))
    numbers = (*form.rules, *form.late)
    counts, compared, known, parts = compare(form, others, made, seed)
    print("tests: %d %s images with two lists each, %d answered as by %s, %d of them with a judge's answer known before"
          % (number, form.name, compared, " and by ".join(others), known))
    missing = [n for n in (0, *numbers) if not counts.get(n)]
    if missing:
        fail("no %s image was answered with %s" % (form.name, missing))
    if 2 * known < compared:
        fail("only %d answers for %s images were known before" % (known, form.name))
    missing = sorted(due(form) - set(parts))
    if missing:
        fail("no answer for a %s image has %s" % (form.name, missing))
    asked = ", ".join("%s %d" % (call, sum(times for part, times in parts.items() if part.split()[0] == call)) for call in form.calls)
    least = min(parts[part] for part in due(form))
    print("tests: asked by number: %s; each of %d outcomes that must be reached, at least %d times" % (asked, len(due(form)), least))
    listings(form, reference, made[:LISTED])
    print("tests: %d %s images listed as by tests/reference/%s.c" % (min(LISTED, number), form.name, form.name))
    return counts


def refusal(said):
    """The number of a judge's answer, 0 for an accepted image."""
    return int(said.split()[1]) if said.startswith("refused") else 0


def compare_crcs(folder, libraries, seed):
    """The functions of crc_c, by tests/crcs.c: the check values of tiny_images.crc8 and of zlib."""
    program = build(folder, "crcs", "tests/crcs.c", libraries["crc_c"])
    made = [image for form in (TINY, BOARD) for _, image, _ in itertools.islice(form.images(seed), LENT)]
    said = output(program, given=b"".join(len(image).to_bytes(4, "little") + image for image in made)).decode().splitlines()
    if len(said) != len(made):
        fail("%d images, %d summed by the functions exported to C" % (len(made), len(said)))
    for line, image in zip(said, made):
        blank = image[:0x14] + bytes(len(image[0x14:0x18])) + image[0x18:]
        if list(map(int, line.split())) != [tiny_images.crc8(image), zlib.crc32(image), zlib.crc32(blank)]:
            fail("the check values of image %s are %s by the functions exported to C" % (shown(image), line))
    print("tests: %d images summed through C, between pages that cannot be read, as by zlib and a plain loop" % len(made))


def lines(form, made, seed):
    """Lines for the writer: the requests, and among them lines that are none, and empty ones. With each goes what must be answered:
    a line, None where that is not known, or "" for no line at all."""
    rnd = random.Random(seed)
    others = tiny_images.cycle(rnd, form.runs.OTHER_LINES)
    for *asked, said in made:
        yield form.runs.line(rnd, *asked), said
        if rnd.random() < 0.05:
            yield next(others), "not a request"
        if rnd.random() < 0.02:
            yield b"", ""


def line_runs(form, made, seed):
    """The lines in runs of less bytes than are read; the last line of every other run has no newline."""
    run, expected, newline = b"", [], True
    for line, said in lines(form, made, seed):
        if len(run) + len(line) + 1 >= form.room:
            yield run if newline else run[:-1], expected
            run, expected, newline = b"", [], not newline
        run += line + b"\n"
        if said != "":
            expected.append((line, said))
    yield run if newline else run[:-1], expected


def shortened(text):
    return text if len(text) <= 10000 else text[:5000] + b" ... " + text[-5000:]


def header_of(said):
    """The Length of the header of the board image that an answer begins with, if it has one."""
    found = HEADER.search(said, 0, 100)
    return found and int(found[1], 16)


def each_header(what, headers):
    """Prints how often boards with each header were among the answers; none with one of them is a failure."""
    print("tests: boards %s, by the header's Length: %s" % (what, ", ".join("%Xh %d" % (length, headers[length]) for length in board_images.HEADERS)))
    missing = ["%Xh" % length for length in board_images.HEADERS if not headers[length]]
    if missing:
        fail("no board with the header's Length %s was %s" % (" or ".join(missing), what))


def compare_lines(form, reference, made, seed):
    """All answers to the lines; how often each refusal number (0: written) was answered, how many answers were known before, and how often an image was
    written with each header."""
    counts, known, headers = {}, 0, collections.Counter()
    for run, expected in line_runs(form, made, seed):
        ours = output(os.path.join(BIN, form.name + "_write"), given=run).split(b"\n")
        theirs = output(reference, "write", given=run).split(b"\n")
        for a, b, (line, said) in zip(ours, theirs, expected):
            if a != b or said is not None and a != said.encode():
                made_to_be = "anything" if said is None else shortened(said.encode())
                fail("%r (made to be %r):\n%r\nreference:\n%r" % (shortened(line), made_to_be, shortened(a), shortened(b)))
            words = a[:40].decode().split()
            key = int(words[1]) if words[0] == "refused" else 0 if words[0] == "length" else "none"
            counts[key] = counts.get(key, 0) + 1
            known += said is not None
            headers[header_of(a)] += 1
        if not len(ours) == len(theirs) == len(expected) + 1 or ours[-1] or theirs[-1]:
            fail("%d lines, %d and %d answered" % (len(expected), len(ours) - 1, len(theirs) - 1))
    return counts, known, headers


def compare_writers(form, reference, number, seed):
    """The requests to the writer of a format: every answer, each refusal number reached. How often each number was answered."""
    order = form.runs.ORDER
    counts, known, headers = compare_lines(form, reference, itertools.islice(form.runs.requests(seed), number), seed)
    print("tests: %d lines to the %s writer answered as by tests/reference/%s, %d of them with an answer known before"
          % (sum(counts.values()), form.name, form.sources[-1], known))
    missing = [n for n in (0, *order) if not counts.get(n)]
    if missing:
        fail("no request to the %s writer was answered with %s" % (form.name, missing))
    others = sorted(set(counts) - {0, "none", *order}, key=str)
    if others or 2 * known < sum(counts.values()):
        fail("the %s writer said %s, and %d answers were known before" % (form.name, others, known))
    if form is BOARD:
        each_header("written", headers)
    return {number: times for number, times in counts.items() if number != "none"}


def pair_runs(made):
    """Runs of records of the pairs."""
    return in_runs(
        (
            (board_runs.record(mask, firmware, eeprom), (mask, firmware, eeprom, said))
            for mask, firmware, eeprom, said in made
        ),
        BOARD.room,
    )


def compare_choices(reference, number, seed):
    """The pairs of images: which is chosen, with all of its bytes; each outcome reached, and each image chosen with each header."""
    counts, known = {"firmware": 0, "eeprom": 0, "neither": 0}, 0
    headers = {word: collections.Counter() for word in counts}
    for run, expected in pair_runs(itertools.islice(board_runs.pairs(seed), number)):
        ours, theirs = output(os.path.join(BIN, "choice_answers"), given=run), output(reference, "choice", given=run)
        for (mask, firmware, eeprom, said), a, b in answered(expected, ours, theirs):
            if a != b or said is not None and b"list " + a != board_runs.choice_text(mask, firmware, eeprom, said).encode():
                with open("target/different.bin", "wb") as f:
                    f.write(board_runs.record(mask, firmware, eeprom))
                fail("list %d, images in target/different.bin (made to be %s):\n%r\nreference:\n%r"
                     % (mask, said, shortened(a), shortened(b)))
            word = a.split(None, 2)[1].decode()
            counts[word] += 1
            headers[word][header_of(a)] += 1
            known += said is not None
    print("tests: %d pairs of images, the choice as by tests/reference/board_write.c, %d of them with an answer known before"
          % (sum(counts.values()), known))
    print("tests: chosen " + ", ".join("%s %d" % count for count in counts.items()))
    if not all(counts.values()) or 2 * known < sum(counts.values()):
        fail("of %d pairs %s were chosen, and %d answers were known before" % (number, counts, known))
    for word in ("firmware", "eeprom"):
        each_header("chosen as %s" % word, headers[word])


def fixed(references, others):
    """What needs no images made: documents, the words of refusals, what codes mean, samples, stored answers, input that is too long or cannot be read, an output that is full."""
    print("tests: the words of refusals are the same in each of %d places, %d of them compared" % same_words())
    print("tests: %d values of codes listed with what they mean" % codes(references[BOARD]))
    try_documents()
    print("tests: %d samples listed as stored" % samples(references))
    stored_answers(references, others)
    other_input()
    full_output()
    long_run(references)
    for form in (TINY, BOARD):
        long_requests(form, references[form])


jobs = []  # functions with their arguments; the processes below inherit them


def printed(number):
    """Runs the job of a number: what it prints and returns, and whether it came to its end."""
    function, *given = jobs[number]
    with io.StringIO() as text, contextlib.redirect_stdout(text):
        try:
            returned = function(*given)
            return text.getvalue(), returned, True
        except SystemExit:
            return text.getvalue(), None, False


def run_jobs():
    """Runs the jobs beside each other, as many as there are processors, prints what they print in their order, and returns what they return."""
    out = []
    with multiprocessing.get_context("fork").Pool() as pool:
        for text, returned, ended in pool.imap(printed, range(len(jobs))):
            print(text, end="", flush=True)
            if not ended:
                sys.exit(1)
            out.append(returned)
    return out


def main():
    os.chdir(os.path.join(os.path.dirname(os.path.abspath(__file__)), ".."))
    number = int(sys.argv[1]) if len(sys.argv) > 1 else 20000
    seed = int(sys.argv[2]) if len(sys.argv) > 2 else 1
    boards = int(sys.argv[3]) if len(sys.argv) > 3 else 12000
    with tempfile.TemporaryDirectory() as folder:
        references = {form: build(folder, form.name, *("tests/reference/" + name for name in form.sources)) for form in (TINY, BOARD)}
        library, answers = independent(folder)
        others = {form: {"tests/reference/%s.c" % form.name: [references[form], "answers"], "tests/independent.rs": [answers, form.name]}
                  for form in (TINY, BOARD)}
        jobs.extend([(compare_readers, TINY, references[TINY], others[TINY], number, seed),
                     (compare_readers, BOARD, references[BOARD], others[BOARD], boards, seed),
                     (compare_writers, TINY, references[TINY], max(number, REQUESTS), seed),
                     (compare_writers, BOARD, references[BOARD], boards // 3, seed),
                     (compare_choices, references[BOARD], boards // 3, seed), (fixed, references, others)])
        columns = dict(zip(("tiny-reader", "board-reader", "tiny-writer", "board-writer"), run_jobs()))
        libraries = exported("host", "reader_c", "crc_c")
        compare_crcs(folder, libraries, seed)
        try_header(folder, libraries)
        try_upload(folder, libraries, try_chip(folder, libraries))
        try_install(folder)
        table({**columns, **compare_host(folder, libraries, library, IMAGES, seed)}, (0, *TINY.rules, *BOARD.rules, *range(40, 47)))


main()
