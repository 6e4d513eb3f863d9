"""Tries the command `chip`: each outcome of each command, with its exit status and what it writes, and what is then on the disk."""
import glob
import os
import re
import shutil
import signal
import subprocess

import board_images
import board_runs
import tiny_images
from building import ENVIRONMENT, build, fail

PROGRAMS = ("tiny_list", "board_list", "tiny_write", "board_write")
SOURCES = sorted(glob.glob("chip/*.c"))
DONE, REFUSED, USAGE, FILES = range(4)
REQUEST = b"12; 10 01 00; 74 6F 70 B1\n"
WRITTEN = bytes.fromhex("56020C1000010474 6F70B157")


def built(folder, library):
    """The command with the sanitizers, with the programs beside it as they are installed."""
    for place in ("bin", "libexec/chip"):
        os.makedirs(os.path.join(folder, place))
    for name in PROGRAMS:
        shutil.copy(os.path.join("target", "bin", name), os.path.join(folder, "libexec", "chip"))
    return build(os.path.join(folder, "bin"), "chip", *SOURCES, library)


def named(*names):
    """A chip with a serial number for each of these names."""
    serials = [tiny_images.item(0x10, [k]) for k in range(len(names))]
    return tiny_images.finish(b"".join(serials) + tiny_images.item(0x01, tiny_images.pack(names)))


class Desk:
    """A folder with files, and runs of the command in it."""

    def __init__(self, path, program):
        self.path, self.program, self.runs = path, program, 0
        os.mkdir(path)

    def put(self, name, content):
        with open(os.path.join(self.path, name), "wb") as f:
            f.write(content)

    def get(self, name):
        with open(os.path.join(self.path, name), "rb") as f:
            return f.read()

    def chip(self, status, *words, out="", says="", given=b"", **more):
        """Runs it: the status must be this one, standard output these lines (or match), and standard error must have these words."""
        run = subprocess.run([self.program, *words], cwd=self.path, input=given, capture_output=True, env=ENVIRONMENT, **more)
        wrote, said = run.stdout.decode("latin-1"), run.stderr.decode("latin-1")
        good = out.fullmatch(wrote) if isinstance(out, re.Pattern) else wrote == out
        if run.returncode != status or not good or says not in said or bool(says) != bool(said):
            fail("chip %s: status %d (due %d), standard output:\n%s(due)\n%s\nstandard error (%r is due):\n%s"
                 % (" ".join(words), run.returncode, status, wrote, out, says, said))
        self.runs += 1


def lists(desk):
    """The listing is the stored one, and a refused image is status 1."""
    for name in sorted(n[:-4] for n in os.listdir("samples") if n.endswith(".bin")):
        with open("samples/%s.bin" % name, "rb") as image, open("samples/%s.txt" % name) as listing:
            given, stored = image.read(), listing.read()
        form = "board" if name.startswith("board-") else "tiny"
        status = REFUSED if stored.startswith("refused ") else DONE
        desk.chip(status, "list", "-", "--format", form, given=given, out=stored)
        lines = stored.splitlines(keepends=True)
        judged = lines[0] if status else "accepted %s item%s\n" % (lines[0].split()[3], "" if lines[0].split()[3] == "1" else "s")
        desk.chip(status, "check", "--format=" + form, "-", given=given, out=judged)


def formats(desk):
    """The first byte tells the format; where it does not, nothing is guessed."""
    desk.chip(DONE, "check", "tiny", out="accepted 2 items\n")
    desk.chip(DONE, "check", "board", out="accepted 3 items\n")
    desk.chip(DONE, "check", "short", out="accepted 3 items\n")
    desk.chip(REFUSED, "check", "--format", "board", "tiny", out="refused 20 at 0 (0h): fewer than 32 bytes, or more than 65536\n")
    for name, header in (("short", board_images.SHORT), ("board", board_images.LONG)):
        desk.chip(REFUSED, "check", "-", given=desk.get(name)[:31], out="refused 20 at 0 (0h): fewer than 32 bytes, or more than 65536\n")
        desk.chip(REFUSED, "check", "-", given=desk.get(name)[:header],
                  out="refused 22 at 16 (10h): StructLen is below the header's Length or above the number of bytes\n")
    desk.chip(REFUSED, "check", "--format", "tiny", "board", out="refused 2 at 0 (0h): the first byte is not 56h\n")
    for command in ("check", "list", "name"):
        desk.chip(USAGE, command, "other", says="other: the first byte is 00h, neither 56h (tiny) nor 24h (board); type --format")
        desk.chip(USAGE, command, "empty", says="empty: no bytes")
    desk.chip(REFUSED, "list", "--format", "tiny", "empty", out="refused 1 at 0 (0h): fewer than 4 bytes\n")


def names(desk):
    """The name alone on a line, or why there is none."""
    desk.chip(DONE, "name", "tiny", out="top1\n")
    desk.chip(DONE, "name", "-", given=named(b"a \"b\\c/d"), out="a \"b\\c/d\n")
    desk.chip(REFUSED, "name", "-", given=named(b"one", b"two"), says="standard input: refused 44 at 0 (0h): no name:")
    desk.chip(REFUSED, "name", "damaged", says="damaged: refused 5 at 11 (Bh):")
    desk.chip(REFUSED, "name", "board", says="only tiny images have a name")


def known(desk):
    """What a rig with another list answers."""
    for text, status in (("full", DONE), ("01,10", DONE), ("$01,10", DONE), ("full-Logo-$uCode$", DONE), ("bare", REFUSED), ("full-01", REFUSED),
                         ("full-10", REFUSED), ("10", REFUSED), ("Logo$", REFUSED)):
        if status:
            desk.chip(status, "name", "--known", text, "tiny", says="refused 44 at 0 (0h)")
        else:
            desk.chip(status, "name", "--known=" + text, "tiny", out="top1\n")
    for text in (",", "01,", "full-", "full-99", "Full", "01-10", "logo", "full,01"):
        desk.chip(USAGE, "name", "--known", text, "tiny", says="is no kind")
    bad = board_images.plain(1, [board_images.structure(board_images.LOGO, b"\1" + bytes(15))]).image()
    desk.chip(REFUSED, "check", "-", given=bad, out=re.compile(r"refused 32 at \d+ \([0-9A-F]+h\): a reserved byte is not zero\n"))
    desk.chip(DONE, "check", "--known", "full-Logo", "-", given=bad, out="accepted 4 items\n")
    desk.chip(DONE, "choose", "--known", "full-Logo", "--which", "-", "board", given=bad, out="firmware\n")
    desk.chip(DONE, "choose", "--which", "-", "board", given=bad, out="eeprom\n")
    twice = board_images.plain(2, labels=(b"top1", b"top1"), version=9).image()
    for text in ("full", "bare"):
        desk.chip(REFUSED, "check", "--known", text, "-", given=twice, out="refused 34 at 128 (80h): two map records have the same label\n")
        desk.chip(DONE, "choose", "--known", text, "--which", "-", "board", given=twice, out="eeprom\n")
        desk.chip(DONE, "choose", "--known", text, "--which", "board", "-", given=twice, out="firmware\n")
        desk.chip(REFUSED, "choose", "--known", text, "-", "longer", given=twice, says="refused 34 at 128 (80h): two map records have the same label\n")


def choices(desk):
    """Which of two images, in words and in one, with either header; the chosen part as a file."""
    desk.chip(DONE, "choose", "board", "board", out="the firmware image, board: 224 bytes\n")
    desk.chip(DONE, "choose", "board", "short", out="the firmware image, board: 224 bytes\n")
    desk.chip(DONE, "choose", "short", "board", out="the firmware image, short: 208 bytes\n")
    for name, header, other in (("later-short", board_images.SHORT, "board"), ("later-long", board_images.LONG, "short")):
        later = board_images.plain(version=5, header=header).image()
        desk.put(name, later)
        desk.chip(DONE, "choose", "-o", "chosen", other, name, out="the EEPROM image, %s: %d bytes\n" % (name, len(later)))
        desk.chip(DONE, "choose", "--which", name, other, out="firmware\n")
        if desk.get("chosen") != later:
            fail("chip choose -o chosen: not the bytes of %s" % name)
    desk.chip(DONE, "choose", "tiny", "long", out="the EEPROM image, long: 224 bytes\n")
    desk.chip(DONE, "choose", "long", "longer", out="the firmware image, long: 224 bytes\n")
    desk.chip(DONE, "choose", "longer", "long", "--which", out="eeprom\n")
    desk.chip(DONE, "choose", "-o", "chosen", "longer", "long", out="the EEPROM image, long: 224 bytes\n")
    desk.chip(DONE, "choose", "-o", "-", "long", "longer", out=desk.get("board").decode("latin-1"))
    desk.chip(USAGE, "choose", "-o", "-", "--which", "long", "longer", says="--which and -o - both write to standard output")
    if desk.get("chosen") != desk.get("board"):
        fail("chip choose -o chosen: not the first StructLen bytes")
    desk.chip(FILES, "choose", "-o", "no-folder/x", "longer", "long", says="no-folder/x: cannot be written: No such file")
    desk.chip(REFUSED, "choose", "tiny", "longer", "-o", "never", says="tiny: refused 20 at 0 (0h)")
    desk.chip(REFUSED, "choose", "tiny", "longer", says="longer: refused 20 at 0 (0h)")
    desk.chip(USAGE, "choose", "-", "-", says="not both")
    if os.path.exists(os.path.join(desk.path, "never")):
        fail("chip choose -o never: a file was made of images that are refused")


def request_forms(desk):
    """The forms of a request that docs/WRITING.md has are in the help, in what is said where a line is none, and in chip(1)."""
    with open("docs/WRITING.md", encoding="utf-8") as f:
        forms = re.findall(r"^    (ROOM;.*)$", f.read(), re.MULTILINE)
    with open("chip/chip.1", encoding="utf-8") as f:
        page = f.read().splitlines()
    if len(forms) != 3 or any(form not in page for form in forms):
        fail("chip/chip.1 has not the forms of a request that docs/WRITING.md has: %s" % forms)
    for form in forms:
        desk.chip(DONE, "help", "write", out=re.compile(r"(.|\n)* %s [ o](.|\n)*" % form))
        desk.chip(USAGE, "write", "-", given=b"12; 1", says=" %s " % form)


def writes(desk):
    """An image in hexadecimal, or as a file that is replaced as a whole; a refusal, or no request."""
    desk.put("request", REQUEST)
    desk.chip(DONE, "write", "request", out="56 02 0C 10 00 01 04 74 6F 70 B1 57\n")
    desk.chip(DONE, "write", "-", given=b"\n" + REQUEST.replace(b"12", b"255") + b"\n", out="56 02 0C 10 00 01 04 74 6F 70 B1 57\n")
    desk.chip(DONE, "write", "request", "-o", "written", out="wrote written: 12 bytes\n")
    desk.chip(DONE, "write", "request", "-o", "-", out=WRITTEN.decode("latin-1"))
    desk.put("replaced", b"x" * 100)
    os.chmod(os.path.join(desk.path, "replaced"), 0o640)
    os.symlink("replaced", os.path.join(desk.path, "linked"))
    desk.chip(DONE, "write", "request", "-o", "linked", out="wrote linked: 12 bytes\n")
    if not desk.get("written") == desk.get("replaced") == WRITTEN or os.stat(os.path.join(desk.path, "replaced")).st_mode & 0o777 != 0o640:
        fail("chip write -o: another image, or other permissions")
    board = open("crates/board_write/stdin", "rb").read().splitlines()[0]
    desk.chip(DONE, "write", "-", given=board, out=re.compile(r"24 45 65 70 72 6F 6D 24 01 [0-9A-F ]*\n"))
    for header, image in ((b"20", board_runs.CASE_13_SHORT), (b"30", board_images.case_13())):
        desk.chip(DONE, "write", "-", given=b"; ".join(board_runs.case_parts(1, header)), out=image.hex(" ").upper() + "\n")
    case = board_runs.case_parts()
    for parts, says in ((board_runs.case_parts(1, b"21"), "not a request"), (case[:1] + case[2:], "no request"), (case + [b""], "no request")):
        desk.chip(USAGE, "write", "-", given=b"; ".join(parts), says=says)
    desk.chip(USAGE, "write", "--format", "board", "-", given=b"; ".join(case[:1] + case[2:]), says="not a request")
    twice = board_runs.asked(board_images.plain(2, labels=(b"top1", b"top1")))
    desk.chip(REFUSED, "write", "-", "-o", "never", given=b";".join([b"256", *(part.hex().encode() for part in twice)]),
              says="refused 34 at 128 (80h): two map records have the same label\n")
    desk.chip(REFUSED, "write", "-", "-o", "never", given=REQUEST.replace(b"12", b"11"), says="refused 41 at 0 (0h): the lent buffer is too short for the image\n")
    desk.chip(USAGE, "write", "-", given=REQUEST + REQUEST, says="one request is one line, and here are 2")
    desk.chip(USAGE, "write", "-", given=b"", says="one request is one line, and here are 0")
    desk.chip(USAGE, "write", "-", given=b"1; 2; 3; 4", says="no request")
    desk.chip(USAGE, "write", "-", given=b"12; 1", says="not a request")
    desk.chip(USAGE, "write", "--format", "board", "request", says="not a request")
    desk.chip(USAGE, "write", "-", given=b"1" * 262145, says="at most 262144 bytes")
    desk.chip(USAGE, "write", "-", given=b"12;" + b" " * 65536, says="at most 65536 bytes")
    desk.chip(DONE, "write", "-", given=REQUEST.replace(b"\n", b"\r\n"), out="56 02 0C 10 00 01 04 74 6F 70 B1 57\n")
    if any(name == "never" or name.startswith(".") for name in os.listdir(desk.path)):
        fail("chip write left %s" % sorted(os.listdir(desk.path)))


def outputs(desk):
    """-o to what is no file of its own, and where none can be."""
    desk.chip(DONE, "write", "request", "-o", "/dev/null", out="wrote /dev/null: 12 bytes\n")
    desk.chip(DONE, "write", "request", "-o", "/dev/stdout", out=WRITTEN.decode("latin-1"))
    desk.chip(DONE, "write", "request", "-oglued", out="wrote glued: 12 bytes\n")
    for script, due in (('echo precious >log; "$0" write request -o /dev/stdout >>log; od -An -tx1 log', b"70 72 65 63 69 6f 75 73 0a 56 02 0c"),
                        ('"$0" write request -o >(od -An -tx1 >piped) >/dev/null; while ! test -s piped; do :; done; cat piped', b"56 02 0c 10 00 01 04 74")):
        run = subprocess.run(["bash", "-c", script, desk.program], cwd=desk.path, capture_output=True, env=ENVIRONMENT)
        if b" ".join(run.stdout.split()).count(due) != 1 or run.stderr:
            fail("%s: %s%s" % (script, run.stdout.decode(), run.stderr.decode()))
        desk.runs += 1
    desk.put("secret", b"x")
    os.chmod(os.path.join(desk.path, "secret"), 0o4000)
    desk.chip(DONE, "write", "request", "-o", "secret", out="wrote secret: 12 bytes\n")
    if os.stat(os.path.join(desk.path, "secret")).st_mode & 0o7777:
        fail("chip write -o: permissions of a file that had none")
    os.symlink("nowhere", os.path.join(desk.path, "dangling"))
    for out, why in (("no-folder/x", "No such file"), (".", "Is a directory"), ("folder/", "Is a directory"), ("dangling", "No such file")):
        desk.chip(FILES, "write", "request", "-o", out, says="%s: cannot be written: %s" % (out, why))
    if not os.path.islink(os.path.join(desk.path, "dangling")) or os.path.exists(os.path.join(desk.path, "folder")) or desk.get("glued") != WRITTEN:
        fail("chip write -o: %s" % sorted(os.listdir(desk.path)))
    desk.chip(DONE, "list", "tiny", out=re.compile("tiny 2(.|\n)*"), preexec_fn=lambda: signal.signal(signal.SIGCHLD, signal.SIG_IGN))


def usage(desk):
    """Help, version, and command lines that are wrong."""
    version = re.search(r'CHIP_VERSION_TEXT "(.*)"', open("chip/chip.h").read())[1]
    commands = re.findall(r'^    \{"(\w+)", \d', open("chip/main.c").read(), re.MULTILINE)
    desk.chip(DONE, "--version", out="chip %s (library %s)\n" % (version, version))
    desk.chip(DONE, "--help", out=re.compile(r"usage: chip COMMAND(.|\n)*" + r"(.|\n)*".join("chip " + c for c in commands) + r"(.|\n)*"))
    desk.chip(USAGE, says="usage: chip COMMAND")
    desk.chip(USAGE, "frob", says="frob is no command")
    for command in commands:
        desk.chip(DONE, command, "--help", out=re.compile(r"usage: chip %s (.|\n)*Exit status(.|\n)*" % command))
        desk.chip(USAGE, command, says="a word is missing")
        desk.chip(USAGE, command, "a", "b", "c", "d", says="a word too many")
        desk.chip(USAGE, command, "--frob", says="no option of this command: --frob")
        desk.chip(DONE, command, "-h", out=re.compile(r"usage: chip %s (.|\n)*" % command))
        desk.chip(DONE, "help", command, out=re.compile(r"usage: chip %s (.|\n)*" % command))
    desk.chip(DONE, "help", out=re.compile(r"usage: chip COMMAND(.|\n)*"))
    desk.chip(USAGE, "help", "frob", says="frob is no command")
    for words in (["check", "tiny", "--format"], ["check", "tiny", "--known", ""], ["write", "-", "-o", ""], ["write", "-", "-o"]):
        desk.chip(USAGE, *words, says="an option has no value")
    desk.chip(USAGE, "check", "tiny", "--format", "Tiny", says="--format is tiny or board, and not Tiny")
    desk.chip(USAGE, "list", "--known", "full", "tiny", says="no option of this command: --known")
    with open("chip/chip.1") as f:
        described = re.findall(r"^\.TP\n\.B (\w+)$", f.read().split(".SH COMMANDS")[1].split(".SH OPTIONS")[0], re.MULTILINE)
    if sorted(commands) != sorted(described):
        fail("chip has the commands %s, and chip(1) describes %s" % (commands, described))


def files(desk):
    """Files that cannot be read; standard output that is full or closed; a program that is missing."""
    for command in ("list", "check", "name", "write"):
        desk.chip(FILES, command, "missing", says="missing: cannot be read: No such file")
        desk.chip(FILES, command, ".", says="cannot be read: Is a directory")
    desk.chip(FILES, "choose", "board", "missing", says="missing: cannot be read")
    desk.put("-dashed", desk.get("tiny"))
    desk.chip(DONE, "check", "--", "-dashed", out="accepted 2 items\n")
    for words in (["list", "tiny"], ["check", "tiny"], ["name", "tiny"], ["choose", "board", "board"], ["write", "request"], ["--help"], ["--version"]):
        for redirected, why in ((">/dev/full", "No space left"), (">&-", "Bad file descriptor")):
            run = subprocess.run(["sh", "-c", '"$0" "$@" ' + redirected, desk.program, *words], cwd=desk.path, stderr=subprocess.PIPE, env=ENVIRONMENT)
            if run.returncode != FILES or why.encode() not in run.stderr:
                fail("chip %s %s: status %d, %s" % (" ".join(words), redirected, run.returncode, run.stderr.decode()))
            desk.runs += 1
    lister = os.path.join(os.path.dirname(desk.program), "..", "libexec", "chip", "tiny_list")
    os.rename(lister, lister + "-away")
    desk.chip(FILES, "list", "tiny", says="libexec/chip/tiny_list: cannot be run: No such file")
    shutil.copy("/bin/false", lister)
    desk.chip(FILES, "list", "tiny", says="libexec/chip/tiny_list: it gave no answer")
    os.rename(lister + "-away", lister)


def try_chip(folder, libraries):
    program = built(os.path.join(folder, "command"), libraries["host"])
    desk = Desk(os.path.join(folder, "desk"), program)
    board, short = board_images.case_13(), board_images.plain(header=board_images.SHORT).image()
    for name, image in (("tiny", named(b"top1")), ("board", board), ("short", short), ("damaged", named(b"top1")[:-1] + b"\0"), ("other", b"\0" * 60),
                        ("empty", b""), ("long", board.ljust(65536, b"\0")), ("longer", board.ljust(65537, b"\0"))):
        desk.put(name, image)
    for part in (lists, formats, names, known, choices, request_forms, writes, outputs, usage, files):
        part(desk)
    print("tests: %d runs of the command chip ended as they must" % desk.runs)
    return program
