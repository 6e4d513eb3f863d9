#!/usr/bin/env python3
"""Moves the laws of every crate from specs/laws to proofs/laws, with each path that names them; run once, at the top.

An edit of a definition is tried only where no theorem of specs/ rests on what it makes false, so theorems with others above them stand in proofs/. No statement
changes.
"""
import glob
import os
import re
import subprocess


def read(path):
    with open(path, encoding="utf-8") as f:
        return f.read()


def write(path, text):
    with open(path, "w", encoding="utf-8") as f:
        f.write(text)


def main():
    for laws in sorted(glob.glob("crates/*/specs/laws")):
        crate = laws.split("/")[1]
        top = f"crates/{crate}"
        os.makedirs(f"{top}/proofs", exist_ok=True)
        for name in ("laws", "laws.antt"):
            subprocess.run(["git", "mv", f"{top}/specs/{name}", f"{top}/proofs/{name}"], check=True)
        lib = f"{top}/specs/Lib.antt"
        write(lib, re.sub(r"^pub mod laws\n", "", read(lib), flags=re.MULTILINE))
        root = f"{top}/proofs/Lib.antt"
        if os.path.exists(root):
            write(root, read(root).rstrip("\n") + "\npub mod laws\n")
        else:
            write(root, "-- The laws of the definitions, which other crates may cite. Assumes nothing.\npub mod laws\n")
    for path in sorted(glob.glob("crates/*/*/**/*.antt", recursive=True)):
        text = read(path)
        moved = re.sub(r"\bRattle\.(\w+)\.specs\.laws\b", r"Rattle.\1.proofs.laws", text)
        if moved != text:
            write(path, moved)
    for path in ["README.md", *glob.glob("docs/**/*.md", recursive=True), *glob.glob("tests/*.md")]:
        if path != "docs/PORT.md":
            write(path, read(path).replace("specs/laws", "proofs/laws"))


if __name__ == "__main__":
    main()
