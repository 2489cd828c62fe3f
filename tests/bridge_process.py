"""The model in the process of a test, beside the program: what tests/bridge_process.c carries out through interfaces/c/zuldegei.h.

Each script of `run` that is kept gives its trace and its fault, made by the calls of each step and by choice; so do scripts by lot, of
which many lines are refused. There the class of python/zuldegei/bridge.py, given the same calls, gives what the client of the program
gave; and so it does in the random testbench, which goes on in the process for many requests. Wrong calls get their errors and change
nothing. Each growth of memory that is refused is told, and behind the set-up there is none. Under valgrind and AddressSanitizer nothing
is lost, no access is bad, and no thread steps on another. The library is built first, where it isn't there as its sources are; what isn't
installed is named.

    python3 tests/bridge_process.py TLBRIDGE [SCRIPTS] [--requests N] [--seed WORD] [--library FOLDER]
"""

import os
import random
import subprocess
import sys
import tempfile
from itertools import zip_longest
from pathlib import Path

import script_cases
import stored
from c_programs import C, TOP, Part, c_compiler, compile_c, compiled, languages, library_of, watched, wrong_calls
from ends import Ended, asked, started, told
from run_traces import SECONDS, Hostile, Interactive

import random_bench
from zuldegei import ABeat, Bridge, BridgeError, Error, scoreboard

WAYS = ("calls", "choices")
MODEL = Part("bridge_process", "bridges", "model", (C / "zuldegei.c", C / "tlbridge.c"))
PIPED_STEPS = 2_000  # of the random testbench over pipes
STEPS_A_REQUEST = 26  # of the random testbench, at most
SETUP = script_cases.SETUP
GET = ABeat(opcode=4, param=0, size=3, source=0, address=0x10)
# Lines that the scoreboard alone knows, as docs/SCOREBOARD.md has them ("Lines").
SCOREBOARDS = "profile tilelink\n errors any\naxi strict\nx data\nfill 10000 1 2 3\ntime 5\nwaited A0 1\n= said\n"


# A beat that breaks each rule of channel A alone, by its name in docs/RULES.md, and the client that offers it: the port of client 1 is
# TL-UL. The first beat of a Put of 16 bytes has begun ahead of the last one, and the source of the one before is busy.
LEVELS, BEGUN = "config 2 4 16 2 16 12 hl\nregion 0 4 10 gpah\npage 10 4 good\n", ABeat(0, 0, 4, 9, 0x10)
BREAKS = (
    ("OPCODE", 0, ABeat(6, 0, 3, 0, 8)), ("LEVEL", 1, ABeat(2, 0, 3, 0, 8)), ("SIZE", 0, ABeat(4, 0, 13, 0, 0)),
    ("ATOMIC_SIZE", 0, ABeat(2, 0, 4, 0, 0x10)), ("ALIGN", 0, ABeat(4, 0, 3, 0, 4)), ("PARAM", 0, ABeat(4, 1, 3, 0, 8)),
    ("MASK", 0, ABeat(4, 0, 3, 0, 8, mask=0xF)), ("CORRUPT", 0, ABeat(4, 0, 3, 0, 8, corrupt=1)), ("SOURCE_BUSY", 0, ABeat(4, 0, 3, 7, 8)),
    ("BURST_CONTROL", 0, ABeat(0, 0, 4, 9, 0x20)),
)  # fmt: skip


class Recorded:
    """A bridge, and what each call of it was and gave."""

    def __init__(self, bridge):
        self.bridge, self.calls = bridge, []

    def __getattr__(self, name):
        found = getattr(self.bridge, name)
        if not callable(found):
            return found

        def call(*given, **named):
            gave = found(*given, **named)
            self.calls.append((name, given, named, gave))
            return gave

        return call


def other_call(wanted, got):
    """The first call that gave something else, or nothing."""
    for number, (it, other) in enumerate(zip_longest(wanted, got), 1):
        if it != other:
            return f"call {number} is {other!r}, not {it!r}"
    return None


def runs():
    """Each script of `run` that is kept, or made by script_cases.py: its name, what is given, and how it ends."""
    for name, word, given, *wanted in stored.scripts():
        if word == "run":
            yield name, given, wanted
    for name, given, *wanted in script_cases.cases():
        yield name, given, wanted


def carried_out(program):
    """Each script that is kept, by the calls of each step and by choice."""
    for name, given, wanted in runs():
        for way in WAYS:
            yield f"{name}, by {way}", started([program, way], given).wrong(*wanted)


def by_lot(program, tlbridge, library, rng, scripts):
    """Scripts by lot: in C the trace of the program, and in Python what its client gave."""
    for number in range(1, scripts + 1):
        with Interactive([tlbridge, "run"], SECONDS) as bridge:
            seen = Recorded(bridge)
            Hostile(seen, rng).run()
        given, wanted = ("\n".join(it) + "\n" for it in (bridge.script, bridge.trace))
        why = [started([program, way], given.encode()).wrong(0, wanted.encode(), b"") for way in WAYS]
        with Bridge(library=library) as inside:
            made = [(name, given, named, getattr(inside, name)(*given, **named)) for name, given, named, _ in seen.calls]
        yield f"script {number} by lot", next(filter(None, [*why, other_call(seen.calls, made)]), None)


def benches(tlbridge, library, rng, requests):
    """The random testbench over pipes and in the process, call by call; and in the process alone for many requests."""
    for seed in (rng.getrandbits(32) for _ in range(5)):
        calls = []
        for opened in (lambda: Interactive([tlbridge, "run"], SECONDS), lambda: Bridge(library=library, keeps=True)):
            with opened() as bridge:
                bench = random_bench.Bench(Recorded(bridge), seed)
                why = random_bench.tried(bench, PIPED_STEPS)
                calls.append([*bench.bridge.calls, tuple(bridge.script)])
            yield f"the random testbench, seed {seed}", why
        yield f"the random testbench by both ways, seed {seed}", other_call(*calls)
    seed = rng.getrandbits(32)
    with Bridge(library=library) as bridge:
        bench = random_bench.Bench(bridge, seed)
        yield f"the random testbench, seed {seed}, in the process", random_bench.tried(bench, STEPS_A_REQUEST * requests)
    yield f"{requests} requests", None if bench.accepted >= requests else f"only {bench.accepted} were accepted"


def by_words(tlbridge, library):
    """The random testbench by its words, over the program and in the process: it prints the same."""
    told_by = []
    for words in (["--program", tlbridge], ["--in-process"]):
        command = [sys.executable, "examples/testbench/random_bench.py", "7", *words]
        environment = {**os.environ, "ZULDEGEI_LIBRARY": str(library / "libzuldegei.so")}
        told_by.append(Ended.of(subprocess.run(command, cwd=TOP, env=environment, capture_output=True, check=False)))
    yield "the random testbench by its words", told_by[1].wrong(0, told_by[0].text, b"")


def in_python(library):
    """Wrong calls of the class, and what the program has no command for."""
    for it in stored.blocks(TOP / "tests/calls/bridge.calls"):
        with Bridge(SETUP, library) as bridge:
            why = it.refused({**globals(), "bridge": bridge, "library": library}, BridgeError, Error)
            yield it.name, why or (None if bridge.work() == 0 and bridge.choices() == 0 else "the bridge has changed")
    try:
        yield "a bridge that was closed", f"it gave {bridge.drain()!r}"
    except BridgeError as got:
        yield "a bridge that was closed", None if (got.status, str(got)) == (Error.NULL, "the bridge was closed") else str(got)
    with Bridge(f"# a scoreboard's\n{SETUP}{SCOREBOARDS}", library, keeps=True) as bridge:
        answer = bridge.offer(0, GET).kind, bridge.drain(), bridge.script[: len(SETUP.splitlines()) + 1]
        wanted = "accepted", 3, ["# a scoreboard's", *SETUP.splitlines()]
        yield "a model of a scoreboard's set-up", None if answer == wanted else f"{answer}, not {wanted}"
    with Bridge(SETUP, library, keeps=True) as bridge:
        bridge.offer(0, GET)
        steps = [bridge.choose(0), bridge.make(bridge.choose(0)).address, bridge.choose(0), bridge.make(bridge.choose(0)), bridge.choose(0)]
        steps += [bridge.make(bridge.choose(0)).last, bridge.in_flight(), bridge.choices()]
        wanted = [("pump",), 0x10010, ("do", 0, 0), "done", ("r", 0), 1, 0, 0]
        yield "steps by choice", None if steps == wanted else f"{steps}, not {wanted}"
        wanted = [*SETUP.splitlines(), "a 0 4 0 3 0 10 ff 0 0", "pump", "do 0 0", "r 0"]
        yield "the script that it keeps", None if bridge.script == wanted else f"{bridge.script}"


def refused(library):
    """The rule that each refused beat breaks."""
    with Bridge(LEVELS, library) as bridge:
        bridge.offer(0, ABeat(4, 0, 3, 7, 8))
        for rule, client, beat in BREAKS:
            if rule == "BURST_CONTROL":
                bridge.offer(0, BEGUN)
            answer = bridge.offer(client, beat)
            yield f"a beat that breaks {rule}", None if (answer.kind, answer.rule) == ("refused", rule) else f"it is {answer}"


def rows():
    """Each script of a file, which is tried under AddressSanitizer."""
    return (it for it in runs() if it[0].endswith(".script"))


def example(folder, library):
    """The example as C and as C++, which ends as interfaces/README.md shows (tests/page_commands.py)."""
    for name, compiler, standard, flags in languages("the example of the model"):
        built, why = compile_c(f"example-{name}", C / "example_bridge.c", "-Wpedantic", *flags, folder=folder, library=library,
                               compiler=compiler, standard=standard)
        ran = None if why else started([built], b"")
        yield f"the example as {name}", why or (None if ran.status == 0 and b"11 22 33 44 55 66 77 88\n" in ran.text else f"{ran}")


def cases(given):
    print(f"seed {given.seed}")
    if not c_compiler():
        print("skipped: the model in the process of a test, as there is no C compiler")
        return
    folder, why = library_of(given)
    if why:
        yield "the library", why
        return
    tlbridge, rng = str(given.tlbridge), random.Random(given.seed)
    library = scoreboard.load(folder / "libzuldegei.so")
    with tempfile.TemporaryDirectory() as room:
        program = compiled("bridge_process", TOP / "tests/bridge_process.c", folder=Path(room), library=folder)
        yield from example(Path(room), folder)
        yield from carried_out(program)
        yield from wrong_calls(MODEL, Path(room), folder)
        yield from watched(MODEL, "choices", rows(), Path(room), folder)
        yield from in_python(library)
        yield from refused(library)
        yield from by_words(tlbridge, folder)
        yield from by_lot(program, tlbridge, library, rng, given.scripts)
        yield from benches(tlbridge, library, rng, given.requests)


if __name__ == "__main__":
    words = asked(__doc__, "tlbridge", by_lot=True)
    words.add_argument("scripts", nargs="?", type=int, default=1_000, help="how many scripts by lot (1,000)")
    words.add_argument("--requests", type=int, default=100_000, help="how many requests in the process (100,000)")
    words.add_argument("--library", help="where libzuldegei.a and libzuldegei.so stand (out, where they are built)")
    sys.exit(told(cases(words.parse_args())))
