#!/usr/bin/env python3
"""Compares the antt of two trees: compare_statements.py OLD NEW. OLD is best a checkout over which the scripts of a port have run, so that spellings agree.

Each declaration of specs/ and proofs/ (definitions, records, theorems and lemmas, with their bodies; not the proofs of functions) is found again in the same crate
with the same text, wherever it stands there. The others are listed, with what has the same name. The last line counts all and those that are the same.
"""
import collections
import glob
import os
import re
import sys

OF_FUNCTIONS = ("Proof.antt", "Answers.antt", "Invariants.antt")
SIGNATURE = re.compile(r"(\s*)(?:abbrev |pub |unfoldable |data |record )*([^\s:(){}]+)(?:\s*\([^)]*\))*\s*:\s")


def declarations(root):
    """Of each crate its declarations: name, text, file."""
    found = collections.defaultdict(list)
    for part in ("specs", "proofs"):
        for path in sorted(glob.glob(f"{root}/crates/*/{part}/**/*.antt", recursive=True)):
            if os.path.basename(path) in OF_FUNCTIONS:
                continue
            place = os.path.relpath(path, root)
            with open(path, encoding="utf-8") as f:
                text = re.sub(r"--.*", "", f.read()).replace(".specs.laws", ".proofs.laws")
            for block in re.split(r"\n\s*\n", text):
                lines = None
                for line in block.split("\n"):
                    signature = SIGNATURE.match(line)
                    if signature and not line.strip().startswith("use"):
                        lines = [line]
                        found[place.split("/")[1]].append((signature[2], lines, place))
                    elif lines is not None:
                        lines.append(line)
    return {crate: [(name, " ".join(" ".join(lines).split()), place) for name, lines, place in each] for crate, each in found.items()}


def main():
    if len(sys.argv) != 3:
        sys.exit(__doc__)
    old, new = map(declarations, sys.argv[1:])
    count = same = 0
    for crate in sorted(old):
        left = collections.Counter((name, text) for name, text, _ in new.get(crate, []))
        for name, text, place in old[crate]:
            count += 1
            if left[name, text]:
                left[name, text] -= 1
                same += 1
                continue
            print(f"{place}: {name}\n  was {text[:300]}")
            for other, now, where in new.get(crate, []):
                if other == name and left[other, now]:
                    print(f"  {where}: {now[:300]}")
    print(f"{count} declarations, {same} of them the same")


if __name__ == "__main__":
    main()
