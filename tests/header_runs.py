"""Tries chip/chip.h and the library that it declares: what compilers accept and refuse as C and as C++, how an answer is handed over, what the library has in
it, and how much stack its calls take."""
import collections
import itertools
import os
import random
import re
import shutil
import subprocess

import board_images
from building import fail
from formats import BOARD, TINY

STRICT = ("-Wall", "-Wextra", "-pedantic", "-Wconversion", "-Wshadow", "-Wcast-qual")
STANDARDS = {"c": ("c99", "c11", "c17"), "c++": ("c++11", "c++14", "c++17", "c++20")}
COMPILERS = {"c": ("gcc", "clang"), "c++": ("g++", "clang++")}
ASKED = 200  # images of each format whose calls are measured, and
LARGE = 32   # boards of about 65,536 bytes

# the functions of the library and those of the header that take an answer apart, each as it may be called, with the type of what it returns
ANSWERS = {"chip_tiny_judge(image, 4, CHIP_KINDS_FULL)": "chip_answer",
           "chip_board_judge(image, 4, CHIP_KINDS_FULL)": "chip_answer",
           "chip_board_choice(image, 4, image, 4, CHIP_KINDS_FULL)": "chip_answer",
           "chip_tiny_name(image, 4, CHIP_KINDS_FULL, buffer, 4)": "chip_answer"}
CALLS = {**ANSWERS, "chip_version()": "uint32_t", "chip_refusal(answer)": "unsigned", "chip_accepted(answer)": "bool", "chip_place(answer)": "uint32_t",
         "chip_value(answer)": "uint32_t", "chip_is_eeprom(answer)": "bool", "chip_refusal_text(1)": "const char *"}

# a way to compile: the compiler, the language, its standard, and options that have it warn of anything
Way = collections.namedtuple("Way", "compiler language standard strict")


def all_ways():
    """With each compiler that is there; gcc and g++ must be."""
    return [Way(compiler, language, standard, STRICT + (("-Wold-style-cast",) if language == "c++" else ()))
            for language, compilers in COMPILERS.items() for compiler in compilers if compiler.startswith("g") or shutil.which(compiler)
            for standard in STANDARDS[language]]


def compiled(way, source, *options):
    """What the compiler says of a source, and whether it took it."""
    run = subprocess.run([way.compiler, "-x", way.language, "-std=" + way.standard, "-Ichip", source, *options], stderr=subprocess.PIPE)
    return run.stderr.decode(), run.returncode == 0


def put(folder, name, form, calls):
    """A source that includes the header twice and has a statement of a form for each call; the statements' lines."""
    head = ['#include "chip.h"', '#include "chip.h"', "extern const uint8_t *image;", "extern uint8_t *buffer;", "void run(chip_answer answer);",
            "void run(chip_answer answer) {", "(void)answer;"]
    statements = [form % {"call": call, "type": kind, "number": number} for number, (call, kind) in enumerate(calls.items())]
    path = os.path.join(folder, name)
    with open(path, "w") as f:
        f.write("\n".join([*head, *statements, "}", ""]))
    return path, set(range(len(head) + 1, len(head) + 1 + len(statements)))


def refused(way, source, lines, why, *options):
    """The compiler refuses these lines of a source, each for this reason, and no other."""
    said, taken = compiled(way, source, "-c", "-o", os.devnull, *options)
    errors = re.findall(r"^%s:(\d+):\d+: error: (.*)$" % re.escape(source), said, re.MULTILINE)
    if taken or {int(line) for line, _ in errors} != lines or not all(why in text for _, text in errors):
        fail("%s -std=%s is to refuse the lines %s of %s, and says:\n%s" % (way.compiler, way.standard, sorted(lines), source, said))


def warnings(folder, ways):
    """An answer that is used is taken without a warning; one that is thrown away is warned of; one that is asked as a question is an error."""
    kept, _ = put(folder, "kept.c", "%(type)s kept_%(number)d = %(call)s; (void)kept_%(number)d;", CALLS)
    thrown = put(folder, "thrown.c", "%(call)s;", CALLS)
    question = put(folder, "question.c", "if (%(call)s) return;", ANSWERS)
    for way in ways:
        said, taken = compiled(way, kept, "-c", "-o", os.devnull, "-Werror", *way.strict)
        if not taken:
            fail("%s -std=%s does not take chip/chip.h without a warning:\n%s" % (way.compiler, way.standard, said))
        refused(way, *thrown, "unused-result", "-Werror")
        refused(way, *question, "")
    print("tests: chip/chip.h compiled %d ways without a warning, by %s; %d calls whose answer is thrown away and %d that are asked as a question refused in each"
          % (len(ways), ", ".join(sorted({way.compiler for way in ways})), len(thrown[1]), len(question[1])))


def samples():
    return sorted(os.path.join("samples", name) for name in os.listdir("samples") if name.endswith(".bin"))


def listed_words():
    """The words of each refusal that a sample is listed with."""
    found = {}
    for sample in samples():
        with open(sample[:-4] + ".txt", encoding="ascii") as f:
            refusal = re.match(r"refused (\d+) at \d+ \([0-9A-F]+h\): (.*)", f.readline())
        if refusal:
            found[refusal[1]] = refusal[2]
    return found


def handed_over(folder, ways, library):
    """Answers are the numbers that the library returns, in each language and by each compiler (tests/header.c); the words are those of the listings."""
    due, program = listed_words(), os.path.join(folder, "header")
    if set(map(int, due)) != {*TINY.rules, *BOARD.rules}:
        fail("no sample is listed with some refusals: %s are" % sorted(due, key=int))
    for way in ways:
        said, taken = compiled(way, "tests/header.c", "-x", "none", library, "-O2", "-Werror", *way.strict, "-o", program)
        if not taken:
            fail("%s -std=%s does not take tests/header.c:\n%s" % (way.compiler, way.standard, said))
        run = subprocess.run([program, *samples()], stdout=subprocess.PIPE, stderr=subprocess.STDOUT)
        found = dict(line.split(" ", 1) for line in run.stdout.decode().splitlines())
        if run.returncode or not all(int(found[part]) for part in ("value", "refusal", "place", "eeprom")):
            fail("tests/header.c as %s by %s ended with status %d:\n%s" % (way.standard, way.compiler, run.returncode, run.stdout.decode()))
        words = {number: text for number, text in found.items() if number.isdigit()}
        if {number: words.get(number) for number in due} != due or len(set(words.values())) != len(words):
            fail("chip_refusal_text has other words than the listings of the samples, or the same for two numbers:\n%s" % words)
        if set(map(int, words)) != {0, *TINY.rules, *BOARD.rules, *range(40, 47)}:
            fail("chip_refusal_text has words for %s" % sorted(map(int, words)))
    print("tests: answers for %d samples handed over as the library's numbers in each; %d words as in their listings" % (len(samples()), len(due)))


def symbols(library):
    """The library defines what the header declares and nothing else that a program sees, needs nothing that allocates, and has no data of its own."""
    def names(*options):
        said = subprocess.run(["nm", "--format=posix", *options, library], stdout=subprocess.PIPE, check=True).stdout.decode()
        return {tuple(line.split()[:2]) for line in said.splitlines() if len(line.split()) > 1}
    with open("chip/chip.h", encoding="ascii") as f:
        declared = set(re.findall(r"^CHIP_MUST_USE \w+ (\w+)\(", f.read(), re.MULTILINE))
    defined, needed = {name for name, _ in names("-g", "--defined-only")}, {name for name, _ in names("-u")}
    if not declared or defined != declared:
        fail("%s defines %s, and chip/chip.h declares %s" % (library, sorted(defined), sorted(declared)))
    if not needed <= {"memcmp", "memcpy", "memmove", "memset"}:
        fail("%s needs %s" % (library, sorted(needed)))
    data = sorted(name for name, kind in names("--defined-only") if kind.upper() not in ("T", "R"))
    sizes = subprocess.run(["size", library], stdout=subprocess.PIPE, check=True).stdout.decode().splitlines()[1:]
    if data or not sizes or any(line.split()[1:3] != ["0", "0"] for line in sizes):
        fail("%s has data of its own: %s\n%s" % (library, data, "\n".join(sizes)))
    print("tests: the library defines %s, needs %s, and has no static data" % (", ".join(sorted(defined)), ", ".join(sorted(needed)) or "nothing"))


def measured(images, program):
    """What tests/stack.c says of images."""
    given = b"".join(len(image).to_bytes(4, "little") + image for image in images)
    said = subprocess.run([program], input=given, stdout=subprocess.PIPE, check=True).stdout.decode()
    return {name: int(number) for name, number in (line.rsplit(" ", 1) for line in said.splitlines())}


def stack(folder, library):
    """No call takes more stack than CHIP_STACK (tests/stack.c), with a quarter to spare for images that were not tried."""
    program, images = os.path.join(folder, "stack"), []
    subprocess.run(["gcc", "-std=c11", "-O2", "-Wall", "-Wextra", "-pedantic", "-Werror", "-o", program, "tests/stack.c", library], check=True)
    for sample in samples():
        with open(sample, "rb") as f:
            images.append(f.read())
    images += [image for form in (TINY, BOARD) for _, image, _ in itertools.islice(form.images(1), ASKED)]
    images += [image for image, _ in itertools.islice(board_images.large(random.Random(1)), LARGE)]
    if board_images.LONGEST not in map(len, images):
        fail("no image of %d bytes is among those whose stack is measured" % board_images.LONGEST)
    found = measured(images, program)
    limit, known, taken = found.pop("CHIP_STACK"), found.pop("KNOWN"), found.pop("a function of KNOWN bytes")
    if not known <= taken <= known + 128:
        fail("%d bytes of stack were measured where %d are taken" % (taken, known))
    most = max(found.values())
    if most + most // 4 > limit:
        fail("CHIP_STACK is %d, and the calls took %s bytes" % (limit, found))
    print("tests: bytes of stack for %d images, of at most %d: %s" % (len(images), limit, ", ".join("%s %d" % one for one in found.items())))


def try_header(folder, libraries):
    """The header, and the library of the crate host."""
    ways = all_ways()
    warnings(folder, ways)
    handed_over(folder, ways, libraries["host"])
    symbols(libraries["host"])
    stack(folder, libraries["host"])
