"""Tries `chip upload` and `-o`: each outcome, and that a stop at any point leaves the whole file under its name or none, and never one overwritten."""
import os
import random
import re
import resource
import shutil
import signal
import subprocess
import tempfile
import time

import tiny_images
from building import ENVIRONMENT, fail
from chip_runs import DONE, FILES, REFUSED, USAGE, SOURCES, Desk, named

PHOTOGRAPH, OTHER = b"a photograph" * 20000, b"another one"
LARGE = random.Random(0).randbytes(6000000)
BESIDE = ".unfinished\u00b7"  # how the name begins of a file that is being written
ROUNDS = 60  # kills at some time, at least
AT_ONCE = 8  # uploads at once


def entries(folder):
    """What is in a folder, by name."""
    found = {}
    for name in os.listdir(folder):
        with open(os.path.join(folder, name), "rb") as f:
            found[name] = f.read()
    return found


def outcomes(desk):
    """A photograph is stored once, and nothing is stored, here or elsewhere, where there is no name."""
    os.mkdir(os.path.join(desk.path, "photographs"))
    around = [os.path.join(place, "out") for place in ("/", desk.path, os.path.join(desk.path, ".."))]
    before = [os.path.exists(path) for path in around]
    for name, content in (("photo", PHOTOGRAPH), ("other", OTHER), ("chip", named(b"top1")), ("fresh", named(b"a b")), ("hidden", named(b".unfinished-1"))):
        desk.put(name, content)
    desk.chip(DONE, "upload", "chip", "photo", "photographs", out="stored photographs/top1\n")
    desk.chip(REFUSED, "upload", "chip", "other", "photographs", says="photographs/top1 is there already and stays as it is")
    desk.chip(DONE, "upload", "hidden", "photo", "photographs", out="stored photographs/.unfinished-1\n")
    for name, image, says in (
            ("damaged", named(b"top1")[:-1] + b"\0", "refused 5 at 11 (Bh)"), ("empty", b"", "refused 1 at 0 (0h)"),
            ("nameless", tiny_images.finish(b""), "refused 44 at 0 (0h)"), ("two", named(b"one", b"two"), "refused 44 at 0 (0h)"),
            ("outside", named(b"../out"), "cannot be the name of a file"), ("root", named(b"/out"), "cannot be the name of a file"),
            ("below", named(b"a/b"), "cannot be the name of a file"), ("dot", named(b"."), "cannot be the name of a file"),
            ("dots", named(b".."), "cannot be the name of a file")):
        desk.put(name, image)
        desk.chip(REFUSED, "upload", name, "photo", "photographs", says=says)
    desk.chip(FILES, "upload", "missing", "photo", "photographs", says="missing: cannot be read")
    desk.chip(FILES, "upload", "fresh", "missing", "photographs", says="missing: cannot be read")
    desk.chip(FILES, "upload", "fresh", "photographs", "photographs", says="photographs: cannot be read: Is a directory")
    desk.chip(FILES, "upload", "fresh", "photo", "no-folder", says="no-folder: no file can be made there")
    desk.chip(FILES, "upload", "fresh", "photo", "other", says="other: no file can be made there: Not a directory")
    desk.chip(USAGE, "upload", "-", "-", "photographs", says="not both")
    desk.chip(REFUSED, "upload", "fresh", "-", "photographs", says="standard input has no bytes and is not stored")
    closed = subprocess.run(["sh", "-c", '"$0" upload fresh photo photographs >&-', desk.program], cwd=desk.path, stderr=subprocess.PIPE, env=ENVIRONMENT)
    if closed.returncode != FILES or b"standard output" not in closed.stderr:
        fail("upload without a standard output: status %d, %s" % (closed.returncode, closed.stderr.decode()))
    desk.chip(DONE, "upload", "fresh", "-", "photographs", given=OTHER, out="stored photographs/a b\n")
    desk.chip(DONE, "upload", "-", "photo", "photographs", given=named(b"z" * 247), out="stored photographs/%s\n" % ("z" * 247))
    if entries(os.path.join(desk.path, "photographs")) != {"top1": PHOTOGRAPH, ".unfinished-1": PHOTOGRAPH, "a b": OTHER, "z" * 247: PHOTOGRAPH}:
        fail("upload stored %s" % sorted(os.listdir(os.path.join(desk.path, "photographs"))))
    if set(os.listdir(desk.path)) & {"b", "a"} or [os.path.exists(path) for path in around] != before:
        fail("upload stored a photograph outside the folder")


def order(desk, plain, stopper):
    """What the disk is asked for, in this order: the bytes and a sync before the name, a sync of the folder behind it."""
    folder, trace = folder_of(desk), os.path.join(desk.path, "trace")
    subprocess.run([plain, "upload", "chip", "photo", folder], cwd=desk.path, stdout=subprocess.PIPE, check=True,
                   env={**os.environ, "LD_PRELOAD": stopper, "TRACE": trace})
    with open(trace) as f:
        calls = f.read().split("\n")
    asked = " ".join(call for call in calls if call not in ("close", "openat", "flock", ""))
    if not re.fullmatch("(write )+fsync linkat fsync unlinkat( write)?", asked):
        fail("upload asks the disk for: " + asked)


def folder_of(desk):
    return tempfile.mkdtemp(dir=desk.path)


def whole_or_none(folder, due, when):
    """Each name has its whole photograph or is not there; how many files that were being written are left."""
    found = entries(folder)
    left = [name for name in found if name.startswith(BESIDE)]
    for name, content in found.items():
        if name not in left and due.get(name) != content:
            fail("%s: %s has %d bytes of another content" % (when, name, len(content)))
    return len(left)


def next_run(desk, folder):
    """Another upload takes away what is left, and stores its own."""
    desk.chip(DONE, "upload", "fresh", "other", folder, out="stored %s/a b\n" % folder)
    if any(name.startswith(BESIDE) for name in os.listdir(folder)):
        fail("%s is still there after the next upload" % sorted(os.listdir(folder)))


def leave(folder, name="0"):
    """Something that a process which was stopped has left: it has a name of its own, and no lock."""
    path = os.path.join(folder, BESIDE + name)
    with open(path, "wb") as f:
        f.write(b"left")
    os.chmod(path, 0o400)


def stops(desk, plain, stopper, **more):
    """Killed right before each call that matters, one after the other, in a folder where something was left."""
    left = stored = at = 0
    while True:
        at += 1
        folder = folder_of(desk)
        leave(folder)
        run = subprocess.run([plain, "upload", "chip", "photo", folder], cwd=desk.path, stdout=subprocess.PIPE,
                             env={**os.environ, "LD_PRELOAD": stopper, "STOP_AT": str(at), **more})
        if run.returncode not in (DONE, -signal.SIGKILL):
            fail("upload, stopped at call %d, ended with %d" % (at, run.returncode))
        left += whole_or_none(folder, {"top1": PHOTOGRAPH}, "upload stopped at call %d" % at)
        stored += os.path.exists(os.path.join(folder, "top1"))
        next_run(desk, folder)
        status = REFUSED if os.path.exists(os.path.join(folder, "top1")) else DONE
        again = subprocess.run([plain, "upload", "chip", "photo", folder], cwd=desk.path, capture_output=True)
        if again.returncode != status or entries(folder) != {"top1": PHOTOGRAPH, "a b": OTHER}:
            fail("after a stop at call %d an upload ended with %d, and left %s" % (at, again.returncode, sorted(os.listdir(folder))))
        if run.returncode == DONE:
            break
    if at < 15 or not 3 <= left or not 2 <= stored < at - 5:
        fail("%d stops left %d files behind and %d photographs stored" % (at, left, stored))
    return at - 1, left


def replacements(desk, plain, stopper):
    """The same of a file that -o replaces: it is as it was, or whole."""
    at, seen = 0, set()
    desk.put("request", b"12; 10 01 00; 74 6F 70 B1\n")
    while True:
        at += 1
        folder = folder_of(desk)
        desk.put(os.path.join(folder, "image"), OTHER)
        run = subprocess.run([plain, "write", "request", "-o", os.path.join(folder, "image")], cwd=desk.path, capture_output=True,
                             env={**os.environ, "LD_PRELOAD": stopper, "STOP_AT": str(at)})
        if at > 200:
            fail("a file that -o replaces is never written")
        if run.returncode == FILES:
            continue  # the writer that it runs was stopped, and not the command
        seen.add(entries(folder)["image"])
        if run.returncode == DONE:
            break
    if seen != {OTHER, named(b"top1")}:
        fail("a file that -o replaces had %s" % seen)
    return at - 1


def duration(desk, plain):
    """How long an upload of the large photograph takes, at best."""
    took = []
    for _ in range(3):
        began = time.monotonic()
        subprocess.run([plain, "upload", "chip", "large", folder_of(desk)], cwd=desk.path, stdout=subprocess.PIPE, check=True)
        took.append(time.monotonic() - began)
    return min(took)


def kills(desk, plain):
    """Killed at some time, again and again: until some left a file behind and some had stored the photograph. How many there were."""
    rnd, takes, left, stored, turn = random.Random(1), duration(desk, plain), 0, 0, 0
    while turn < ROUNDS or not left or not stored:
        turn += 1
        if turn > 20 * ROUNDS:
            fail("%d kills left %d files behind and %d photographs stored" % (turn, left, stored))
        folder = folder_of(desk)
        with subprocess.Popen([plain, "upload", "chip", "large", folder], cwd=desk.path, stdout=subprocess.PIPE) as process:
            time.sleep(rnd.uniform(0, 1.5 * takes))
            process.kill()
        left += whole_or_none(folder, {"top1": LARGE}, "upload killed at some time")
        stored += os.path.exists(os.path.join(folder, "top1"))
        next_run(desk, folder)
        shutil.rmtree(folder)
    return turn


def full_disks(desk, plain):
    """A file over the limit of its size, and a small file system where one can be made: nothing is left, and the status says it."""
    def limited():
        resource.setrlimit(resource.RLIMIT_FSIZE, (100000, 100000))

    folder = folder_of(desk)
    desk.chip(FILES, "upload", "chip", "photo", folder, says="the photograph cannot be written there: File too large", preexec_fn=limited)
    if os.listdir(folder):
        fail("a file over the limit left %s" % os.listdir(folder))
    mount = ["unshare", "-m", "sh", "-c", 'mount -t tmpfs -o size=128k none "$1" && shift && "$@"', "sh", folder]
    if not shutil.which("unshare") or subprocess.run([*mount, "true"], capture_output=True).returncode:
        return False
    script = '"$0" upload chip photo "$1"; status=$?; ls -A "$1"; echo there >"$1/top1"; "$0" upload chip photo "$1"; exit $((10 * status + $?))'
    run = subprocess.run([*mount, "sh", "-c", script, plain, folder], cwd=desk.path, capture_output=True)
    if run.returncode != 10 * FILES + REFUSED or run.stdout or b"No space left" not in run.stderr or b"there already" not in run.stderr:
        fail("a full disk: status %d, %s%s" % (run.returncode, run.stdout.decode(), run.stderr.decode()))
    return True


def unwritable(desk, plain):
    """A folder that may not be written. Root may write every folder, so it is tried as nobody."""
    folder = folder_of(desk)
    os.chmod(folder, 0o555)
    user = {"user": 65534, "group": 65534, "extra_groups": []} if os.geteuid() == 0 else {}
    try:
        subprocess.run([plain, "--version"], cwd=desk.path, stdout=subprocess.PIPE, check=True, **user)
    except PermissionError:
        print("tests: nobody cannot reach the folder of the tests, so a folder that may not be written is not tried")
        return
    run = subprocess.run([plain, "upload", "chip", "photo", folder], cwd=desk.path, capture_output=True, **user)
    if run.returncode != FILES or b"no file can be made there: Permission denied" not in run.stderr or os.listdir(folder):
        fail("a folder that may not be written: status %d, %s" % (run.returncode, run.stderr.decode()))


def at_once(desk, plain):
    """Several uploads of one name at once: one is stored, whole, and the others are told; and several names: all are stored."""
    photographs = {"photo%d" % k: bytes([k]) * (300000 + k) for k in range(AT_ONCE)}
    for name, content in photographs.items():
        desk.put(name, content)
        desk.put("chip-" + name, named(name.encode()))
    for turn in range(10):
        one, many = folder_of(desk), folder_of(desk)
        for number in range(4):
            leave(one, str(number))
            leave(many, str(number))
        running = [(name, chip, subprocess.Popen([plain, "upload", chip, name, folder], cwd=desk.path, stdout=subprocess.PIPE, stderr=subprocess.PIPE))
                   for name in photographs for chip, folder in (("chip", one), ("chip-" + name, many))]
        ended = [(name, chip, process.communicate() and process.returncode) for name, chip, process in running]
        winners = [name for name, chip, status in ended if chip == "chip" and status == DONE]
        others = [status for name, chip, status in ended if chip == "chip" and status != DONE]
        if len(winners) != 1 or set(others) != {REFUSED} or entries(one) != {"top1": photographs[winners[0]]}:
            fail("uploads of one name at once: %s stored, the others %s" % (winners, others))
        if any(status for _, chip, status in ended if chip != "chip") or entries(many) != photographs:
            fail("uploads of several names at once: %s stored" % sorted(entries(many)))


def slow(desk, plain):
    """What another upload is still writing stays."""
    folder = folder_of(desk)
    with subprocess.Popen([plain, "upload", "chip", "-", folder], cwd=desk.path, stdin=subprocess.PIPE, stdout=subprocess.PIPE) as process:
        process.stdin.write(PHOTOGRAPH[:100000])
        process.stdin.flush()
        until = time.monotonic() + 60
        while not any(name.startswith(BESIDE) for name in os.listdir(folder)):
            if time.monotonic() > until:
                fail("a slow upload has not begun to write after a minute")
            time.sleep(0.01)
        desk.chip(DONE, "upload", "fresh", "other", folder, out="stored %s/a b\n" % folder)
        if sum(name.startswith(BESIDE) for name in os.listdir(folder)) != 1:
            fail("what an upload is still writing was taken away: %s" % sorted(os.listdir(folder)))
        process.communicate(PHOTOGRAPH[100000:])
    if process.returncode or entries(folder) != {"top1": PHOTOGRAPH, "a b": OTHER}:
        fail("a slow upload ended with %d and left %s" % (process.returncode, sorted(os.listdir(folder))))


def try_upload(folder, libraries, program):
    """With the command that is built with the sanitizers, and where it is killed with a plain one."""
    os.chmod(folder, 0o755)  # so that nobody gets to what is in it
    desk = Desk(os.path.join(folder, "shop"), program)
    plain, stopper = os.path.join(os.path.dirname(program), "plain"), os.path.join(folder, "stopping.so")
    strict = ["gcc", "-std=c11", "-O2", "-Wall", "-Wextra", "-Werror"]
    subprocess.run([*strict, "-o", plain, *SOURCES, libraries["host"]], check=True)
    subprocess.run([*strict, "-shared", "-fPIC", "-o", stopper, "tests/stopping.c", "-ldl"], check=True)
    outcomes(desk)
    desk.put("large", LARGE)
    order(desk, plain, stopper)
    points, left = stops(desk, plain, stopper)
    unlinked, _ = stops(desk, plain, stopper, NO_LINKS="1")
    replaced = replacements(desk, plain, stopper)
    killed = kills(desk, plain)
    small = full_disks(desk, plain)
    unwritable(desk, plain)
    at_once(desk, plain)
    slow(desk, plain)
    print("tests: chip upload: %d runs ended as they must; killed at %d points one by one (%d files left behind, and taken away) and %d times at some time, "
          "-o at %d points, without links at %d; a limit of size%s; %d at once" % (desk.runs, points, left, killed, replaced, unlinked, " and a full disk" if small else "", AT_ONCE))
