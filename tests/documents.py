#!/usr/bin/env python3
"""Reads the documents and says all that is wrong in them; run by tests/run.py, or alone.

1. no line has over 100 columns, but for tables, code blocks and headings, and words that cannot be broken;
2. every path with a folder in it, and every file in backticks, is there, and so is every edit `crate/label`; in the documents of UNDER_CRATES a path that begins
   with the name of a crate is under crates/. Paths in the comments of crates/ are there too;
3. names in backticks right behind a file of a crate and a colon are in that file;
4. every link leads to a heading or a file;
5. every entry of docs/DECISIONS.md that a document, or a comment in crates/, cites (reading 44, F7, D45) is there, once; and its contents list every entry.
"""
import collections
import glob
import os
import re
import sys

sys.path.insert(0, os.path.dirname(os.path.abspath(__file__)))
from building import fail

COLUMNS = 100
DECISIONS = "docs/DECISIONS.md"
# documents in which a path that begins with the name of a crate is under crates/
UNDER_CRATES = ("docs/ARCHITECTURE.md", "docs/CHANGING.md", DECISIONS, "docs/PROMISES.md", "docs/PORT.md", "docs/DESIGN-PASS.md")
# made, and not always in the tree
MADE = re.compile(r"target/")
FOLDERS = ("crates", "chip", "scripts", "tests", "samples", "docs", "bench", ".ci")
PARTS = ("src", "specs", "proofs", "must-fail")  # folders of a crate

ENDING = r"\.(?:rt|antt|edit|c|h|py|rs|md|bin|txt)\b"
PATH = re.compile(r"(?<![\w/.:<*-])\.?[\w*-]+(?:(?:/[\w*.-]+)+/?|/(?![\w*/]))")
FILE = re.compile(r"`([\w-]+%s)`" % ENDING)
CODE = re.compile(r"`[^`]*`")
LINK = re.compile(r"\[[^\]]*\]\(([^)]*)\)")
HEADING = re.compile(r"^#+ (.*)$", re.MULTILINE)
ENTRY = re.compile(r"^\*\*([DF]?\d+)\. (.*?)[.:]?\*\*", re.MULTILINE | re.DOTALL)
MORE = r"(?:(?:, | and | to | or )[DF]?\d+)*"
CITED = re.compile(r"\b[Rr]eadings? (\d+%s)|(?<![\w-])([DF]\d{1,2}(?!\w)%s)" % (MORE, MORE))
SOURCE = r"`[\w/]+\.(?:antt|rt)`"
NAMED = re.compile(r"((?:%s(?:, | and ))*%s): ((?:`[^`/]+`(?: \([^()]*\))?(?:, )?)+)" % (SOURCE, SOURCE))
COMMENT = re.compile(r"(?://|--|^# )(.*)")

checked, wrong = collections.Counter(), []


def hold(what, holds, text, *words):
    """One thing that is looked at; if it does not hold, the text goes to the list of what is wrong."""
    checked[what] += 1
    if not holds:
        wrong.append(text % words)


class Document:
    """A document: its lines, which of them are code, and its text without code blocks."""

    def __init__(self, name):
        self.name = name
        with open(name, encoding="utf-8") as f:
            self.lines = f.read().split("\n")
        self.code = list(self.code_lines())
        self.prose = "\n".join("" if code else line for line, code in zip(self.lines, self.code))

    def code_lines(self):
        """Of each line whether it is in a code block, fenced or indented behind an empty line."""
        fenced = indented = False
        above = ""
        for line in self.lines:
            fence = line.startswith("```")
            indented = line.startswith("    ") and (indented or not above)
            yield fenced or fence or indented
            fenced ^= fence
            above = line

    def headings(self):
        """The headings as links name them."""
        return {re.sub(r"[^\w\- ]", "", found.lower()).replace(" ", "-") for found in HEADING.findall(self.prose)}


def long_lines(document):
    """Lines that could be shorter."""
    for number, (line, code) in enumerate(zip(document.lines, document.code), 1):
        free = code or line.startswith(("|", "#")) or " " not in line.strip("- ")
        hold("lines", free or len(line) <= COLUMNS, "%s:%d: %d columns", document.name, number, len(line))


def there(path, name, crates):
    """Whether a path that a document of this name gives is in the tree; NAME and * stand for any name."""
    path = path.replace("NAME", "*").rstrip("/")
    first = path.split("/")[0]
    folders = ["", os.path.dirname(name)]
    if name in UNDER_CRATES and first in crates:
        folders = ["crates"]
        if os.path.isfile("crates/%s/must-fail/%s.edit" % (first, path[len(first) + 1:])):
            return True
    elif first in PARTS:
        folders.append("crates/*")
    return any(glob.glob(os.path.join(folder, path)) for folder in folders)


def dead_paths(name, text, crates):
    """Paths with a folder in them."""
    for path in sorted({found.rstrip(".") for found in PATH.findall(text)}):
        first = path.split("/")[0]
        known = first in FOLDERS or first in PARTS or name in UNDER_CRATES and first in crates
        if (known or re.search("/$|%s$" % ENDING, path)) and not MADE.match(path):
            hold("paths", there(path, name, crates), "%s: no such path: %s", name, path)


def dead_names(document):
    """Names behind files of crates and a colon: each file must have them."""
    for files, listed in NAMED.findall(" ".join(document.prose.split())):
        for path in re.findall(r"`([^`]+)`", files):
            if os.path.isfile("crates/" + path):
                with open("crates/" + path, encoding="utf-8") as f:
                    text = f.read()
                for name in re.findall(r"`([^`]+)`", re.sub(r"\([^()]*\)", "", listed)):
                    found = re.search(r"(?<![\w'-])%s(?![\w'-])" % re.escape(name), text)
                    hold("names", found, "%s: %s has no %s", document.name, path, name)


def dead_links(document):
    """Links to headings of the document, or to files."""
    for link in LINK.findall(CODE.sub("", " ".join(document.prose.split()))):
        path, _, heading = link.partition("#")
        near = os.path.exists(os.path.join(os.path.dirname(document.name), path))
        hold("links", near if path else heading in document.headings(), "%s: a link that leads nowhere: %s", document.name, link)


def comments():
    """The comments of code, definitions, proofs and edits, file by file."""
    for path in sorted(glob.glob("crates/*/**/*", recursive=True)):
        if path.endswith((".rt", ".antt", ".edit")):
            with open(path, encoding="utf-8") as f:
                yield path, "\n".join(found[1] for found in map(COMMENT.search, f) if found)


def entries(decisions):
    """The numbers of the entries; each must be there once, and in the contents."""
    found = [(number, " ".join(title.split())) for number, title in ENTRY.findall(decisions.prose)]
    numbers = [number for number, _ in found]
    contents = " ".join(decisions.prose.split("\n## ")[1].split())
    for number, title in found:
        hold("entries", numbers.count(number) == 1, "%s: more than one entry %s", DECISIONS, number)
        hold("entries listed", re.search(r"[:;] %s %s[;.]" % (number, re.escape(title)), contents),
             "%s: the contents do not list %s %s", DECISIONS, number, title)
    return set(numbers)


def dead_entries(name, text, numbers):
    """Entries that a text cites."""
    for reading, other in CITED.findall(" ".join(text.split())):
        for number in re.findall(r"[DF]?\d+", reading) or re.findall(r"[DF]\d+", other):
            hold("entries cited", number in numbers, "%s: cites %s, which is no entry of %s", name, number, DECISIONS)


def try_documents():
    """Fails with a list of all that is wrong in the documents."""
    every = sorted(["README.md", *glob.glob("docs/*.md"), *glob.glob("tests/*.md"), "samples/README.md"])
    documents = [Document(name) for name in every]
    crates, numbers = set(os.listdir("crates")), entries(Document(DECISIONS))
    files = {name for folder, _, names in os.walk(".") if not folder.startswith(("./target", "./.git")) for name in names}
    for document in documents:
        long_lines(document)
        dead_paths(document.name, "\n".join(document.lines), crates)
        for name in FILE.findall(document.prose):
            hold("files", name in files, "%s: no such file: %s", document.name, name)
        dead_names(document)
        dead_links(document)
        dead_entries(document.name, CODE.sub("", document.prose), numbers)
    for path, text in comments():
        dead_paths(path, "\n".join(found for found in PATH.findall(text) if found.split("/")[0] in FOLDERS), crates)
        dead_entries(path, CODE.sub("", text), numbers)
    if wrong:
        fail("the documents:\n  " + "\n  ".join(wrong))
    print("tests: %d documents: %s" % (len(documents), ", ".join("%s %d" % count for count in checked.items())))


if __name__ == "__main__":
    os.chdir(os.path.join(os.path.dirname(os.path.abspath(__file__)), ".."))
    try_documents()
