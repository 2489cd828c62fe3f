"""The tests of tlbridge, among them those of bridge_threads, and the example of `tlbridge threads`, on a machine that is busy: each
test 50 times and the example 10 times while as many loops run as there are processors, then each test once and the example 10
times on one processor alone. By hand, since it keeps the whole machine for minutes.

    python3 tests/busy_threads.py TESTS PROGRAM

TESTS is crates/tlbridge/out/tlbridge_tests, as rt ci leaves it.
"""

import os
import subprocess
import sys
import time
from contextlib import contextmanager
from pathlib import Path

from ends import told
from scripts import SCRIPTS

ROUNDS, RUNS, SECONDS = 50, 10, 300
EXAMPLE = next(it for it in SCRIPTS if it.name == "threads.script")


@contextmanager
def busy():
    """As many loops as there are processors."""
    loops = [subprocess.Popen([sys.executable, "-c", "while True: pass"]) for _ in range(os.cpu_count())]
    try:
        yield
    finally:
        for loop in loops:
            loop.kill()
            loop.wait()


@contextmanager
def pinned():
    """One processor alone, for this process and all that it starts."""
    processors = os.sched_getaffinity(0)
    os.sched_setaffinity(0, {min(processors)})
    try:
        yield
    finally:
        os.sched_setaffinity(0, processors)


def ended(words, given=b""):
    """What a program ended with and printed; nothing where it takes too long."""
    try:
        return subprocess.run(words, input=given, capture_output=True, timeout=SECONDS)
    except subprocess.TimeoutExpired:
        return None


def tested(tests, name):
    ran = ended([tests, name])
    if ran is None:
        return f"no end after {SECONDS} seconds"
    return None if ran.returncode == 0 and b"test result: ok" in ran.stdout else f"status {ran.returncode}: {ran.stdout + ran.stderr!r}"


def exemplified(program):
    ran = ended([program, EXAMPLE.word], EXAMPLE.given)
    if ran is None:
        return f"no end after {SECONDS} seconds"
    is_right = (ran.returncode, ran.stdout, ran.stderr) == (EXAMPLE.status, EXAMPLE.text, b"")
    return None if is_right else f"status {ran.returncode} with {ran.stderr!r}"


def names_of(tests):
    listed = subprocess.run([tests, "--list"], capture_output=True, text=True, check=True).stdout
    return [line.removesuffix(": test") for line in listed.splitlines() if line.endswith(": test")]


def cases(tests, program):
    names = names_of(tests)
    yield "there are tests", None if names else "none is listed"
    for where, how, rounds in (("busy", busy, ROUNDS), ("on one processor", pinned, 1)):
        begin, failed = time.monotonic(), 0
        with how():
            for number in range(rounds):
                for name in names:
                    why = tested(tests, name)
                    failed += bool(why)
                    yield f"{name}, {where}, {number}", why
            for number in range(RUNS):
                why = exemplified(program)
                failed += bool(why)
                yield f"{EXAMPLE.name}, {where}, {number}", why
        took = time.monotonic() - begin
        tried = f"{rounds} rounds of {len(names)} tests and {RUNS} runs of {EXAMPLE.name}"
        print(f"{where}: {tried}, {failed} of them failed, {took:.0f} seconds", flush=True)


if __name__ == "__main__":
    sys.exit(told(cases(*(str(Path(it).resolve()) for it in sys.argv[1:3]))))
