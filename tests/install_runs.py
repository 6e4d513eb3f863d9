"""Tries what is installed: `make install` into a folder, the programs of README.md and chip(3) against the installed library, and every example of
README.md and chip(1); and what is typed after `make`, with characters in it that a shell or make would read."""
import os
import re
import shutil
import stat
import subprocess

from building import fail
from chip_runs import named

FILES = {"bin/chip": 0o755, "libexec/chip/tiny_list": 0o755, "libexec/chip/board_list": 0o755, "libexec/chip/tiny_write": 0o755,
         "libexec/chip/board_write": 0o755, "lib/libchip.a": 0o644, "lib/pkgconfig/chip.pc": 0o644, "include/chip.h": 0o644,
         "share/man/man1/chip.1": 0o644, "share/man/man3/chip.3": 0o644, "share/doc/chip/LISTING.md": 0o644, "share/doc/chip/WRITING.md": 0o644}
FOLDER_MODE = 0o755
TYPED = ("PREFIX", "DESTDIR", "IMAGE", "FORMAT", "REQUEST", "IMAGES", "SEED", "BOARDS", "MAKEFLAGS")
AWKWARD = "a b'\"`touch RUN`$(touch RUN)$HOME\\;&*#"
LANGUAGES = (("gcc", "c", "c11"), ("g++", "c++", "c++17"))


def make(*words, status=0, **more):
    """What is typed after make, and nothing from outside."""
    outside = {name: value for name, value in os.environ.items() if name not in TYPED}
    run = subprocess.run(["make", "--no-print-directory", *words], capture_output=True, env=outside, **more)
    if run.returncode != status:
        fail("make %s: status %d\n%s%s" % (" ".join(words), run.returncode, run.stdout.decode(), run.stderr.decode()))
    if os.path.exists("RUN"):
        fail("make %s: a part of it was run" % " ".join(words))
    return run


def installed(root):
    """The files below a folder, with their permissions."""
    return {os.path.relpath(os.path.join(place, name), root): stat.S_IMODE(os.stat(os.path.join(place, name)).st_mode)
            for place, _, names in os.walk(root) for name in names}


def shut(folder):
    """With a strict umask others can use what is installed all the same."""
    root = os.path.join(folder, "shut")
    make("install", "PREFIX=" + root, preexec_fn=lambda: os.umask(0o077))
    modes = {stat.S_IMODE(os.stat(place).st_mode) for place, _, _ in os.walk(root)}
    if modes != {FOLDER_MODE} or installed(root) != FILES:
        fail("make install with a strict umask: folders of %s" % modes)


def half_built(folder):
    """What a check that failed has left is not taken for proved. An rt stands in that writes the programs and fails."""
    tree, stand_in = os.path.join(folder, "tree"), os.path.join(folder, "failing")
    with open("crates.txt", encoding="utf-8") as f:
        crates = re.findall(r"^(\w+)[^:\n]*:", f.read(), re.MULTILINE)
    for crate in crates:
        os.makedirs(os.path.join(tree, "crates", crate))
    os.mkdir(stand_in)
    for name in ("Makefile", "crates.txt", "scripts"):
        os.symlink(os.path.abspath(name), os.path.join(tree, name))
    with open(os.path.join(stand_in, "rt"), "w") as f:
        f.write("#!/bin/sh\nmkdir -p out/rlib\necho >out/rlib/stamp\nfor name in tiny_list board_list tiny_write board_write; do echo >out/$name; done\nexit 1\n")
    os.chmod(os.path.join(stand_in, "rt"), 0o755)
    for _ in range(2):
        run = subprocess.run(["make", "-C", tree, "target/proved"], capture_output=True, env={**os.environ, "PATH": stand_in + ":" + os.environ["PATH"]})
        if run.returncode != 2 or b"not everything is proved" not in run.stderr:
            fail("make after a check that failed: status %d, %s" % (run.returncode, run.stderr.decode()))


def awkward(folder):
    """Paths and requests are taken as they are typed, and nothing in them is run."""
    root = os.path.join(folder, AWKWARD)
    make("install", "PREFIX=/opt/" + AWKWARD, "DESTDIR=" + root)
    if installed(root + "/opt/" + AWKWARD) != FILES:
        fail("make install: %s" % installed(root))
    make("uninstall", "PREFIX=/opt/" + AWKWARD, "DESTDIR=" + root)
    if installed(root):
        fail("make uninstall left %s" % sorted(installed(root)))
    make("install", "PREFIX=relative", status=2)
    make("install", "PREFIX=", status=2)
    image = os.path.join(folder, AWKWARD + ".bin")
    shutil.copy("samples/case4.bin", image)
    with open("samples/case4.txt", "rb") as stored:
        if make("list", "IMAGE=" + image).stdout != stored.read():
            fail("make list IMAGE=%s: another listing" % image)
    for words, error, says in ((["list", "IMAGE=samples/refused-5.bin"], 1, b""), (["list", "IMAGE=" + AWKWARD], 3, b"is no file that can be read"),
                               (["list"], 2, b"which file?"), (["list", "IMAGE=samples/case4.bin", "FORMAT=" + AWKWARD], 2, b"FORMAT=tiny or FORMAT=board, and not"),
                               (["list", "IMAGE=samples/README.md"], 2, b"neither 56h (tiny) nor 24h (board)"),
                               (["write"], 2, b"what?"), (["write", "REQUEST=" + AWKWARD], 2, b"not a request"),
                               (["write", "REQUEST=11; 10 01 00; 74 6F 70 B1"], 1, b"refused 41 at 0 (0h): the lent buffer is too short")):
        said = make(*words, status=2).stderr
        if says not in said or b"Error %d" % error not in said:
            fail("make %s: %s" % (" ".join(words), said.decode()))
    if make("write", "REQUEST=12; 10 01 00; 74 6F 70 B1").stdout != b"length 12: 56 02 0C 10 00 01 04 74 6F 70 B1 57\n":
        fail("make write: another answer")


def progress(folder):
    """While crates are proved, a line for each on standard error; where one is not, the end of what the prover said. An rt stands in that only says so."""
    tree, stand_in = os.path.join(folder, "progress"), os.path.join(folder, "stand-in")
    for crate in ("chain", "octets"):
        os.makedirs(os.path.join(tree, "crates", crate, "out", "rlib"))
        with open(os.path.join(tree, "crates", crate, "out", "rlib", "stamp"), "w") as f:
            f.write("as it was\n")
    with open(os.path.join(tree, "crates.txt"), "w") as f:
        f.write("chain:\noctets: chain\n")
    os.symlink(os.path.abspath("scripts"), os.path.join(tree, "scripts"))
    os.mkdir(stand_in)
    with open(os.path.join(stand_in, "rt"), "w") as f:
        f.write('#!/bin/sh\necho said of it\ncase $PWD in */octets) echo now >out/rlib/stamp; exit $STATUS ;; esac\n')
    os.chmod(os.path.join(stand_in, "rt"), 0o755)
    for status, due in ((0, rb"proved 2 of 2 crates: octets \(\d s\)\n"),
                        (1, b"said of it\nsaid of it\nprove: not everything is proved; target/prove.log has what rt printed\n")):
        run = subprocess.run(["scripts/prove", "octets"], capture_output=True, cwd=tree,
                             env={**os.environ, "PATH": stand_in + ":" + os.environ["PATH"], "STATUS": str(status)})
        if run.returncode != status or run.stdout or not re.fullmatch(due, run.stderr):
            fail("scripts/prove: status %d, %s" % (run.returncode, run.stderr.decode()))


def environment(prefix):
    return {**os.environ, "PATH": prefix + "/bin:" + os.environ["PATH"], "PKG_CONFIG_PATH": prefix + "/lib/pkgconfig", "LC_ALL": "C.UTF-8"}


def examples(blocks):
    """Commands, each with the lines that follow it."""
    found = []
    for line in (line for block in blocks for line in block.strip("\n").split("\n")):
        if line.startswith("$ "):
            found.append((line[2:], []))
        else:
            found[-1][1].append(line + "\n")
    return found


def try_examples(name, blocks, desk, prefix):
    """Each example, typed in a folder that has the files it names, writes the lines that stand there."""
    count = 0
    for command, lines in examples(blocks):
        run = subprocess.run(["sh", "-c", command], cwd=desk, stdout=subprocess.PIPE, stderr=subprocess.STDOUT, env=environment(prefix))
        if run.stdout.decode() != "".join(lines):
            fail("%s: %s writes\n%s\nand not\n%s" % (name, command, run.stdout.decode(), "".join(lines)))
        count += 1
    return count


def page(name):
    """A manual page, which groff lays out without a warning where it is there, and its examples as they are read."""
    with open("chip/" + name) as f:
        source = f.read()
    if shutil.which("groff") and subprocess.run(["groff", "-man", "-t", "-ww", "-z", "-Tascii", "chip/" + name], capture_output=True).stderr:
        fail("chip/%s is not laid out without a warning" % name)
    return source, [block.replace("\\-", "-").replace("\\e", "\\") for block in re.findall(r"^\.EX\n(.*?)^\.EE\n", source, re.DOTALL | re.MULTILINE)]


def versions(prefix, pages):
    """One version everywhere."""
    with open("chip/chip.h") as f:
        version = re.search(r'CHIP_VERSION_TEXT "(.*)"', f.read())[1]
    known = subprocess.run(["pkg-config", "--modversion", "chip"], capture_output=True, env=environment(prefix)).stdout.decode().strip()
    if known != version or any('"chip %s"' % version not in source for source in pages):
        fail("chip.h is of version %s, chip.pc of %s, or a page of another" % (version, known))


def programs(folder, prefix, sources):
    """Each program compiles as C and C++ with the flags of pkg-config, without a warning, and prints the name of case 4."""
    for number, source in enumerate(sources):
        path = os.path.join(folder, "example%d.c" % number)
        with open(path, "w") as f:
            f.write(source)
        for compiler, language, standard in LANGUAGES:
            line = '%s -x %s -std=%s -Wall -Wextra -pedantic -Werror -o example "$0" -x none $(pkg-config --cflags --libs chip)' % (compiler, language, standard)
            subprocess.run(["sh", "-c", line, path], cwd=folder, check=True, env=environment(prefix))
            run = subprocess.run(["./example", os.path.abspath("samples/case4.bin")], cwd=folder, capture_output=True)
            if run.returncode or run.stdout != b"top1\n":
                fail("the program %s as %s: status %d, %s" % (path, standard, run.returncode, run.stdout))
    return len(sources) * len(LANGUAGES)


def try_install(folder):
    progress(folder)
    half_built(folder)
    awkward(folder)
    shut(folder)
    prefix, desk = os.path.join(folder, "prefix"), os.path.join(folder, "examples")
    make("install", "PREFIX=" + prefix)
    if installed(prefix) != FILES:
        fail("make install: %s" % installed(prefix))
    os.mkdir(desk)
    os.symlink(os.path.abspath("samples"), os.path.join(desk, "samples"))
    for name, content in (("carrier.bin", named(b"top1")), ("damaged.bin", named(b"top1")[:-1] + b"\0"), ("photograph.jpg", b"one"), ("another.jpg", b"two")):
        with open(os.path.join(desk, name), "wb") as f:
            f.write(content)
    shutil.copy("samples/board-case13.bin", os.path.join(desk, "board.bin"))
    command, commands = page("chip.1")
    library, (program,) = page("chip.3")
    with open("README.md") as f:
        readme = f.read()
    shown = re.findall(r"^```console\n(.*?)^```", readme, re.DOTALL | re.MULTILINE)
    tried = try_examples("chip(1)", commands, desk, prefix)
    typed = try_examples("README.md", shown, desk, prefix)
    compiled = programs(folder, prefix, [program, *re.findall(r"^```c\n(.*?)^```", readme, re.DOTALL | re.MULTILINE)])
    versions(prefix, (command, library))
    make("uninstall", "PREFIX=" + prefix)
    make("clean")
    if installed(prefix) or os.path.exists("target/chip"):
        fail("make uninstall left %s, or make clean target/chip" % sorted(installed(prefix)))
    if tried < 10 or typed < 5 or compiled < 4:
        fail("%d examples of chip(1), %d of README.md and %d programs" % (tried, typed, compiled))
    print("tests: installed and taken away; %d examples of chip(1) and %d of README.md write what they say, %d programs compiled with pkg-config"
          % (tried, typed, compiled))
