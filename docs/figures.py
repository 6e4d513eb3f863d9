#!/usr/bin/env python3
"""Makes docs/FIGURES.md from the log of a run of the gate:

    { date; .ci/run; date; } 2>&1 | tee log
    docs/figures.py log >docs/FIGURES.md

The log must be of this tree: it has each crate of crates.txt proved, or kept from an earlier run on the same machine, each must-fail edit refused, the table of
tests/run.py and the verdict. Of a crate that was kept the log does not say how many functions it has. The minutes are taken from the lines of `date`, or from the
line `real` of `time`; without either they are left out.
"""
import collections
import datetime
import glob
import os
import re
import sys

ROOT = os.path.join(os.path.dirname(os.path.abspath(__file__)), "..")
FUNCTIONS = re.compile(r"logic=proved functions=(\d+) ")
PROVED = re.compile(r"rt: (\w+) proved$")
KEPT = re.compile(r"rt: (\w+) is kept: ")
REFUSED = re.compile(r"rt: must-fail (\w+)/(\w+)\.edit: refused, as it must be")
TABLE = re.compile(r"tests: +(number(?: +[\w-]+)+|(?:accepted|\d+)(?: +(?:\d+|-))+)$")
VERDICT = re.compile(r"(\d+ passed, \d+ failed)$")
REAL = re.compile(r"real\s+(?:(\d+)h)?(\d+)m([\d.]+)s$")
DATE = re.compile(r"[A-Z][a-z]{2} ([A-Z][a-z]{2} +\d+ \d\d:\d\d:\d\d (?:[AP]M )?)\S+ (\d{4})$")
CLOCKS = ("%b %d %H:%M:%S %Y", "%b %d %I:%M:%S %p %Y")


class Log:
    """What a log says: functions of each crate, the edits that were refused, lines and table of the tests, verdict and times."""

    def __init__(self, lines):
        self.functions, self.edits = {}, collections.defaultdict(set)
        self.tests, self.table, self.verdict, self.dates, self.real = [], [], None, [], None
        counted = None
        for line in lines:
            if found := FUNCTIONS.match(line):
                counted = int(found[1])
            elif found := PROVED.match(line):
                self.functions[found[1]] = counted
                counted = None
            elif found := KEPT.match(line):
                self.functions[found[1]] = "-"
            elif found := REFUSED.match(line):
                self.edits[found[1]].add(found[2])
            else:
                self.other(line)

    def other(self, line):
        """A line that is not about a crate: of the tests, the verdict, or a time."""
        if found := TABLE.match(line):
            self.table.append(found[1].split())
        elif line.startswith("tests: "):
            self.tests.append(line[len("tests: "):])
        elif found := VERDICT.match(line):
            self.verdict = found[1]
        elif found := REAL.match(line):
            self.real = int(found[1] or 0) * 60 + int(found[2]) + float(found[3]) / 60
        elif found := DATE.match(line):
            self.dates.append(clock(found[1] + found[2]))

    def minutes(self):
        """How long the run took, or None where the log does not say."""
        if len(self.dates) > 1:
            return (self.dates[-1] - self.dates[0]).total_seconds() / 60
        return self.real


def clock(text):
    """A time as `date` prints it, by 24 or by 12 hours."""
    return datetime.datetime.strptime(" ".join(text.split()), CLOCKS["M " in text])


def in_tree():
    """The crates in the order of crates.txt, and the labels of the edits of each."""
    with open(os.path.join(ROOT, "crates.txt"), encoding="utf-8") as f:
        crates = [line.split(":")[0].split()[0] for line in f if re.match(r"\w+( staticlib)?:", line)]
    return {name: sorted(os.path.basename(path)[:-5] for path in glob.glob(os.path.join(ROOT, "crates", name, "must-fail", "*.edit")))
            for name in crates}


def wrong(log, tree):
    """What the log lacks of a whole run over this tree."""
    found = ["crate %s: not proved in the log, with its count of functions" % name for name in tree if log.functions.get(name) is None]
    found += ["crate %s: in the log, and not in crates.txt" % name for name in log.functions if name not in tree]
    found += ["edit %s/%s: not refused in the log" % (name, label) for name in tree for label in tree[name] if label not in log.edits[name]]
    found += ["edit %s/%s: in the log, and not in the tree" % (name, label)
              for name in log.edits for label in log.edits[name] if label not in tree.get(name, ())]
    if [row[0] for row in log.table[:2]] != ["number", "accepted"] or len({len(row) for row in log.table}) != 1:
        found.append("no table of tests/run.py, with its head and as many columns in each row")
    if not log.verdict or not log.verdict.endswith(" 0 failed"):
        found.append("the verdict is %s, and not 'N passed, 0 failed'" % log.verdict)
    return found


def row(cells):
    return "| " + " | ".join(str(cell) for cell in cells) + " |"


def crates_table(log, tree):
    """A row for each crate, and one for all."""
    yield row(("crate", "functions", "edits"))
    yield row(["---"] + ["---:"] * 2)
    for name in tree:
        yield row(("`%s`" % name, log.functions[name], len(log.edits[name]) or "-"))
    counts = list(log.functions.values())
    yield row(("all", "-" if "-" in counts else sum(counts), sum(map(len, log.edits.values()))))


def numbers_table(log):
    """The table of tests/run.py."""
    head, *rows = log.table
    yield row(head)
    yield row("---:" for _ in head)
    yield from map(row, rows)


def page(log, tree):
    minutes = log.minutes()
    said = "" if minutes is None else " It took %.0f minutes." % minutes
    yield "# Figures of one run of the gate\n"
    yield "Made by docs/figures.py from the log of a run; not edited by hand. Its verdict was"
    yield "`%s`.%s\n" % (log.verdict, said)
    yield "## Crates\n"
    yield "A must-fail edit is one check of its crate.\n"
    yield from crates_table(log, tree)
    yield "\n## How often each number was answered\n"
    yield "Of tests/run.py: a row for each refusal number, a column for each reader, writer and call that was"
    yield "compared with another implementation. Of 42, 43 and 44, for the readers: how many images, each with"
    yield "a list, had it among their answers.\n"
    yield from numbers_table(log)
    yield "\n## What was compared\n"
    yield "The other lines of tests/run.py:\n"
    for line in log.tests:
        yield "    " + line


def main():
    if len(sys.argv) != 2:
        sys.exit(__doc__)
    with open(sys.argv[1], encoding="utf-8", errors="replace") as f:
        log = Log(line.rstrip("\n") for line in f)
    tree = in_tree()
    missing = wrong(log, tree)
    if missing:
        sys.exit("figures: %s is not the log of a whole run over this tree:\n  %s" % (sys.argv[1], "\n  ".join(missing)))
    print("\n".join(page(log, tree)))


main()
