"""The words of refusals, by number, as each place has them: the header for C, the manual pages, the Rattle programs, docs/LISTING.md and
the references in C.
And what codes mean in a listing."""
import os
import re

from building import fail

ROOT = os.path.join(os.path.dirname(os.path.abspath(__file__)), "..")
NUMBERS = (*range(1, 12), *range(20, 35), *range(40, 47))


def text_of(path):
    with open(os.path.join(ROOT, path), encoding="utf-8") as f:
        return f.read()


def by_number(path, rows):
    """The words that a file has for each number; a number may not be there twice."""
    words = {}
    for number, said in rows:
        if number in words:
            fail("%s has words for refusal %d twice" % (path, number))
        words[number] = said
    return words


def in_c(function):
    """What reads a function in C: `case NUMBER: return "words";`, or a name for the number that an enum of the file gives. 0 is no refusal."""
    def read(path):
        text = text_of(path)
        body = re.search(r"\b%s\([^)]*\) \{\n(.*?)^\}" % function, text, re.MULTILINE | re.DOTALL)
        rows = re.findall(r'\bcase (\w+):\s*(?:/\*[^*]*\*/\s*)?return "([^"]*)";', body[1]) if body else []
        names = dict(re.findall(r"\b([A-Z]\w*) = (\d+)\b", text))
        return by_number(path, ((int(names.get(name, name)), said) for name, said in rows if names.get(name, name) != "0"))
    return read


def in_rattle(path):
    """`NUMBER => "words",`."""
    return by_number(path, ((int(number), said) for number, said in re.findall(r'\b(\d+) =>\s*"([^"]*)"', text_of(path))))


def rows_of(path, heading):
    """The two cells of each row, in all tables with this heading."""
    tables = re.findall(r"^\| %s \|\n\|[-|]+\|\n((?:\|.*\|\n)+)" % re.escape(heading), text_of(path), re.MULTILINE)
    return [line[2:-2].split(" | ") for rows in tables for line in rows.splitlines()]


def in_tables(path):
    """The tables whose columns are `number` and `words`."""
    return by_number(path, ((int(number), said) for number, said in rows_of(path, "number | words")))


def in_page(path):
    """The rows of a manual page: a number, with its name in front or none, and the words as a block of text. A name is that of chip/chip.h."""
    rows = re.findall(r"^(?:(CHIP_\w+)\t)?(\d+)\tT\{\n(.*)\nT\}$", text_of(path), re.MULTILINE)
    for name, number, _ in rows:
        if name and "%s = %s" % (name, number) not in text_of("chip/chip.h"):
            fail("%s: %s is not %s in chip/chip.h" % (path, name, number))
    return by_number(path, ((int(number), said.replace("\\(aq", "'")) for _, number, said in rows))


def meanings(path):
    """The table whose columns are `code` and `meanings`: what each line of a listing with a code ends in, as `Speed 0 = Unknown`."""
    rows = ((cell.split("`")[1], values) for cell, values in rows_of(path, "code | meanings"))
    return {"%s %s = %s" % (field, *value) for field, values in rows for value in re.findall(r"(\w+) `([^`]*)`", values)}


# each place, what reads it, and the numbers that it must have
PLACES = (
    ("docs/LISTING.md", in_tables, NUMBERS),
    ("crates/console/src/words.rt", in_rattle, NUMBERS),
    ("chip/chip.h", in_c("chip_refusal_text"), NUMBERS),
    ("chip/chip.1", in_page, NUMBERS),
    ("chip/chip.3", in_page, NUMBERS),
    ("tests/reference/tiny.c", in_c("words_of"), (*range(1, 12), 40, 41, 46)),
    ("tests/reference/board.c", in_c("words_of"), (*range(20, 35), 40, 41, 45, 46)),
)


def same_words():
    """Every place has the words of docs/LISTING.md, for every number that it must have and for no number that is none. How many places
    there are, and how many words."""
    listed, compared = None, 0
    for path, read, numbers in PLACES:
        words = read(path)
        missing, others = sorted(set(numbers) - set(words)), sorted(set(words) - set(NUMBERS))
        if missing:
            fail("%s has no words for refusals %s" % (path, missing))
        if others:
            fail("%s has words for %s, which are no refusals" % (path, others))
        listed = listed or words
        for number in sorted(words):
            if words[number] != listed[number]:
                fail("refusal %d is %r in %s and %r in %s" % (number, words[number], path, listed[number], PLACES[0][0]))
            compared += 1
    return len(PLACES), compared
