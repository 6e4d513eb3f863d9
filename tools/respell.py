#!/usr/bin/env python3
"""Brings the repository's own names to today's spelling; run once, at the top, right after /opt/rattle/port/port.py.

1. Definitions, constructors, fields and variables of specs/ and proofs/ that were in camel case get snake case wherever they stand: in antt, in clauses, in
   must-fail edits and in the pages.
2. Names of laws and lemmas keep their dashes. port.py wrote those of DASHED with underscores, since a library had the same spelling; they get their dashes back
   in the files that define them or take them from a crate of this repository.
3. In must-fail edits a projection is written tight, and paths are today's.
"""
import glob
import re

TOKEN = r"(?<![\w'-])%s(?![\w'-])"
CAMEL = re.compile(r"(?<![\w'-])[a-z][\w'-]*?[a-z0-9][A-Z][\w'-]*")
HEXADECIMAL = re.compile(r"x[0-9A-F_]+$")
CRATES = [path.split("/")[1] for path in glob.glob("crates/*/src")]
# camel-case names that port.py respelled in crates/, and left in the edits and pages
CAMEL_TOO = """
bitsOf choiceOf chosenOf dataOf endAt entryOf fieldsAt fieldsOf firstOf formatOf isOf isSet isSigned itemAt kindAt knownOf listFrom listOf lowBits mapPlace
nameAt nameOf numberAt numberIn numberOf ofBoth orElse partOf partsOf placeOf restAt rowsAt runOf shapeAt shapeOf signatureAt signatureOf tagOf textOf
typeOf valueOf
""".split()
DASHED = """
above-on add-at add-most add-r add-start address-read after-first after-map all-append all-both all-getD all-map all-of all-split all-told and-right
answer-typed at-place at-row bits-below body-is by-bytes by-number by-parts byte-past bytes-counted bytes-pair chain-more clear-at count-of count-room
count-same count-turn covered-same covers-below cut-all cut-field cut-fits cut-short drop-min drop-past each-map end-back end-of end-same entry-at enum-told
fields-back fields-told fields-within fill-done fill-start filled-more first-of first-three found-none fresh-meets from-bits from-start front-length
gap-same goes-number goes-on going-done going-start half-spec head-in header-is header-of header-read header-row high-bits holds-more in-order in-within
index-same is-last item-back items-alike keep-all keep-append kept-under known-alike known-same label-same laid-end laid-more lanes-end lanes-start last-bit
last-byte later-last later-rows later-same length-part length-run list-same map-at map-read map-same map-whole more-bytes mul-at name-back next-grows
no-bits no-block no-fields no-label no-name no-place no-room none-above none-after none-at-all none-number none-passes not-known not-last nth-past
number-more number-past number-spelled one-byte one-grows one-of-three one-place only-none only-one only-two order-same other-byte over-none own-same
part-same part-slice picked-same placed-end plain-other put-first put-front put-last range-none rest-all rest-end rest-more rest-read room-most round-same
round-whole row-same row-zero rows-end rows-same rows-told run-at run-drop run-in run-lies run-more run-on run-past said-same same-length same-name
same-test second-fits second-is seen-alike seen-plain shape-same shown-of step-of step-same step-spec sub-number sum-is table-at table-of tag-of tag-same
take-min take-same taken-out tests-same text-same to-bits to-number top-bit two-bytes two-records two-run value-same value-spec value-taken walk-after
walk-ends walk-same weave-at whole-length write-spec written-over xor-assoc zero-bits
""".split()

# those that a file takes through a module's name, as `tiny.next-grows`
THROUGH = {
    "crates/board_rules/specs/laws/Accepted.antt": ["first-three"],
    "crates/promises/proofs/Images.antt": ["items-alike", "known-alike"],
    "crates/promises/proofs/Demand3.antt": ["list-same", "step-same", "walk-ends"],
    "crates/reader/specs/laws/Formats.antt": ["next-grows"],
}


def snake(word):
    word = word.replace("getD", "get_or")
    return re.sub(r"(?<=[a-z0-9])([A-Z])", lambda m: "_" + m.group(1).lower(), word).lower()


def read(path):
    with open(path, encoding="utf-8") as f:
        return f.read()


def write(path, text):
    with open(path, "w", encoding="utf-8") as f:
        f.write(text)


def files(pattern):
    return sorted(glob.glob(pattern, recursive=True))


def camel_names():
    """The camel-case names of antt, each with its new spelling."""
    found = set(CAMEL_TOO)
    for path in files("crates/*/*/**/*.antt"):
        found.update(CAMEL.findall(re.sub(r"--.*", "", read(path))))
    return {word: snake(word) for word in found if not HEXADECIMAL.match(word)}


def respelled(text, names):
    return re.sub(r"(?<![\w'-])[a-z][\w'-]*", lambda m: names.get(m.group(0), m.group(0)), text)


def is_own(text, word):
    """Whether a file defines the name, or takes it from a crate of this repository."""
    if re.search(r"^\s*(?:pub |abbrev |unfoldable )*%s :" % re.escape(word), text, re.MULTILINE):
        return True
    taken = re.findall(r"use Rattle\.(\w+)\.[\w.'+-]*\.\{([^}]*)\}", text)
    return any(crate in CRATES and word in re.split(r"[,\s]+", names) for crate, names in taken)


def dashed(path, text):
    for word in THROUGH.get(path, []):
        text = re.sub(r"(?<=[a-z]\.)" + word.replace("-", "_"), word, text)
    for word in DASHED:
        bare = word.replace("getD", "get_d").replace("-", "_")
        if is_own(text, bare):
            text = re.sub(TOKEN % re.escape(bare), word.replace("getD", "get_or"), text)
    return text


def main():
    names = camel_names()
    for path in files("crates/*/*/**/*.antt"):
        text = read(path)
        write(path, respelled(dashed(path, text), names))
    for path in files("crates/*/src/**/*.rt") + files("README.md") + files("docs/**/*.md") + files("tests/*.md"):
        write(path, respelled(read(path), names))
    for path in files("crates/*/must-fail/*.edit"):
        text = respelled(read(path), names)
        text = re.sub(r"(?<=[\w)]) \.(?=[a-z0-9])", ".", text)
        text = re.sub(r"Rattle·(\w+)\.specs\.", r"Rattle.\1.specs.", text)
        text = text.replace("mathlib.Core.Bool.cond", "Rattle.std.specs.Prelude.cond").replace("lib.Dec.eqb", "Rattle.std.specs.Prelude.eqb")
        write(path, text)


if __name__ == "__main__":
    main()
