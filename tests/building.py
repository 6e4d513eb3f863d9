"""What the tests are built with: C programs with the sanitizers, static libraries of crates, and the independent implementation in Rust."""
import os
import subprocess
import sys

# what is not freed at the end is no mistake here, and looking for it needs rights that a build machine may not give
ENVIRONMENT = {**os.environ, "ASAN_OPTIONS": "detect_leaks=0"}


def fail(text):
    print("tests: FAILED: " + text)
    sys.exit(1)


def build(folder, name, *sources):
    """A C program, with the sanitizers: its own mistakes must not count as answers."""
    program = os.path.join(folder, name)
    subprocess.run(["gcc", "-std=c11", "-O2", "-Wall", "-Wextra", "-pedantic", "-Werror", "-fsanitize=address,undefined",
                    "-fno-sanitize-recover=all", "-o", program, *sources], check=True)
    return program


def exported(*crates):
    """The static libraries of crates, as scripts/prove has built them, by crate."""
    return {crate: "target/staticlib/lib%s.a" % crate for crate in crates}


def independent(folder):
    """tests/independent.rs, with checks of overflow, once its own tests have passed: the library, and the program tests/answers.rs over it."""
    tests, library, answers = (os.path.join(folder, name) for name in ("independent_tests", "libindependent.a", "answers"))
    rustc = ["rustc", "--edition", "2021", "-D", "warnings", "-C", "opt-level=3", "-C", "overflow-checks=on", "-C", "debug-assertions=on"]
    subprocess.run([*rustc, "--test", "-o", tests, "tests/independent.rs"], check=True)
    subprocess.run([tests, "--quiet"], check=True, stdout=subprocess.DEVNULL)
    subprocess.run([*rustc, "-C", "panic=abort", "--crate-type", "staticlib", "-o", library, "tests/independent.rs"], check=True)
    subprocess.run([*rustc, "-C", "panic=abort", "-o", answers, "tests/answers.rs"], check=True)
    return library, answers
