"""The scoreboard in the simulator's own process, over the testbench of examples/testbench/rtl under Verilator: the bridge with each of its
faults stops in the clock of the first beat that tlscore finds wrong of the lines of the same run, by both profiles, or at the run's end
where nothing but an answer is missing; what it tells is what tlscore tells, line by line; and the right bridge runs on to its end. A run
in which something is wrong, or that isn't judged, has a status other than 0 and says why it failed, with Verilator's limit of errors and
without; a set-up of 200,000 lines is read in few seconds. What is told as late is what zuldegei-times finds so in the lines of the run. What only an x shows is shown by whatever Verilator has in its place. Then the
same under Icarus, which has no DPI: tlscore reads the lines from a named pipe while the simulation runs. A simulator that isn't installed
is named.

    python3 tests/in_process_rtl.py TLSCORE [--seeds N] [--library FOLDER] [--only BUG]
"""

import argparse
import os
import re
import shutil
import signal
import subprocess
import sys
import tempfile
import time
from concurrent.futures import ThreadPoolExecutor
from itertools import zip_longest
from pathlib import Path
from typing import Iterator, Optional, Tuple

import stored
from ends import TOP, Case, asked, is_there, told

from simulators import QUICK, SYSTEMVERILOG, Simulated, built, run, started
from zuldegei.latency import End, Latencies

MODULES = [SYSTEMVERILOG / "zuldegei_pkg.sv", SYSTEMVERILOG / "zuldegei_monitor.sv", SYSTEMVERILOG / "example_bind.sv"]
TOLD = re.compile(r"(?m)(= (?:wrong|judged) .*)$")
TIMED = re.compile(r"(?m)^\[(\d+)\] %Error: .*zuldegei: (= wrong .*|the run failed: \d+ wrong)$")
LATE = re.compile(r"zuldegei: late: no reply after \d+ to client (\d+) source (\d+), which asked at (\d+)")
WAITED = re.compile(r"(?m)^waited ")
TOO_LONG = (300, 900)
NO_LIMIT = "+verilator+error+limit+1000000"  # each $error and $fatal goes on, as far as Verilator is asked
LONG_LINES = ("# a line of a set-up\n", "fill 10000 00 00 00 00\n")
ABORTED = -signal.SIGABRT  # as which Verilator ends a run, and a shell says 134
LINES, SECONDS = 200_000, 10  # of a long set-up; in how many it is read on a busy machine, by a testbench that isn't optimized
PIPED = (run.RIGHT, "REPLY_TWICE", "UNKNOWN_READ")


def made(bug: str, library: Path, folder: Path, runtime: Optional[Path]) -> Path:
    """The testbench with a fault, in a folder of its own. Verilator's own objects are those of another one, where there is one."""
    bench, room = run.Bench("bridge", run.Asked(), bug=bug), folder / bug
    room.mkdir()
    x = ["--x-assign", "unique"] if bug in run.SHOWN_BY_X else []
    words = ["verilator", "--cc", "--exe", "--main", "--timing", "-Wno-fatal", *x, *bench.defines, "--top-module", "testbench"]
    words += ["-Mdir", str(room), "-o", "bench", *run.FILES, *map(str, MODULES), str(library / "libzuldegei.a")]
    built(words, run.HERE, bug)
    for made_before in runtime.glob("verilated*.o") if runtime else ():
        shutil.copyfile(made_before, room / made_before.name)
    built(["make", "-s", "-f", "Vtestbench.mk", *QUICK], room, bug)
    return room / "bench"


def simulated(bench: Path, seed: int, setup: Path, *more: str) -> Simulated:
    seen = bench.parent / f"seen-{setup.stem}-{seed}-{len(more)}.lines"
    ran = started(bench, f"+seed={seed}", f"+observed={seen}", f"+zuldegei_setup={setup}", "+zuldegei_end", *more)
    return ran._replace(lines=seen.read_text(errors="replace"))


def whole_wrong(ran: Simulated, judged: str) -> Optional[str]:
    """How a run that isn't stopped doesn't tell what tlscore tells."""
    got, due = TOLD.findall(ran.text), TOLD.findall(judged)
    if got != due:
        return next((f"it told {it!r}, not {its!r}" for it, its in zip(got, due) if it != its), f"it told {len(got)} of {len(due)} lines")
    if "Verilog $finish" not in ran.text:
        return f"it didn't run to its end: {ran.text[-200:]!r}"
    wrong = int(due[-1].split()[4])
    how = f"the run failed: {wrong} wrong" if wrong else "the run is right"
    return failed_wrong(ran, int(wrong > 0), how)


def written_wrong(bench: Path, seed: int, setup: Path, score: Path, *more: str) -> Optional[str]:
    """How what the judging monitor writes isn't what the other one prints, with waits, or isn't judged as the run was."""
    written = setup.with_name(f"written-{setup.stem}-{seed}.lines")
    ran = simulated(bench, seed, setup, NO_LIMIT, "+waits", f"+zuldegei_observed={written}", *more)
    text, due = written.read_text(errors="replace"), f"{setup.read_text()}{ran.lines}= end\n"
    if text != due:
        pairs = zip_longest(text.splitlines(), due.splitlines())
        return next(f"line {at} is {its!r}, and {other!r} is printed" for at, (its, other) in enumerate(pairs, 1) if its != other)
    if not WAITED.search(text):
        return "no beat waited"
    got, said = TOLD.findall(run.judged(score, "", text)), TOLD.findall(ran.text)
    return None if got == said else f"tlscore tells {got[-3:]}, and the run {said[-3:]}"


def failed_wrong(ran: Simulated, status: int, how: str, module: str = "scoreboard") -> Optional[str]:
    """How a run doesn't end with this status, and with a last line that says how it ended."""
    last = ran.text.splitlines()[-1]
    return None if (ran.status, last) == (status, f"zuldegei: {how} (TOP.testbench.{module})") else f"status {ran.status}, {last!r}"


def stopped_wrong(ran: Simulated, first: run.Wrong, ends_it: bool) -> Optional[str]:
    """How a run that is to stop with the first wrong beat doesn't: it is told and stops at one time, and nothing comes behind that."""
    times = [int(it) for it, _ in TIMED.findall(ran.text)]
    if len(times) != 2 or ran.status == 0 or times[0] != times[1]:
        return f"told and stopped at {times}, with status {ran.status}, where tlscore has {first.name} at {first.time}"
    if ends_it:
        return None if "Verilog $finish" in ran.text and times[0] >= first.time else f"told at {times[0]}, ahead of the run's end"
    return f"told at {times[0]}, and wrong at {first.time}" if times[0] != first.time or "Verilog $finish" in ran.text else None


def aborted_wrong(ran: Simulated, judged: str) -> Optional[str]:
    """How a run that Verilator ends at the first $error isn't ended so."""
    is_told = TOLD.findall(ran.text)[:1] == TOLD.findall(judged)[:1]
    return None if is_told and (ran.status, ran.text[-12:]) == (ABORTED, "Aborting...\n") else f"status {ran.status}: {ran.text[-200:]!r}"


def stopped_below_limit(ran: Simulated, judged: str, count: int) -> Optional[str]:
    """How a run that is to stop with a wrong beat of this number, where Verilator goes on behind $fatal, doesn't: it tells what is wrong up
    to there, and ends itself."""
    due = [it for it in TOLD.findall(judged) if it.startswith("= wrong")]
    got = [it for it in TOLD.findall(ran.text) if it.startswith("= wrong")]
    if got[:count] != due[:count] or ran.text.count("Verilog $finish") != 1:
        return f"it told {got}, not {due[:count]}: {ran.text[-200:]!r}"
    is_given_up = f"zuldegei: the run failed: {len(got)} wrong\n" in ran.text
    return failed_wrong(ran, 1, f"the run failed: {len(got)} wrong") if is_given_up else f"it isn't stopped: {ran.text[-200:]!r}"


def late_wrong(ran: Simulated, limit: int) -> Optional[str]:
    """How the requests that are told as late aren't those of the run's lines: beyond these there may be some that got no reply, and whose
    time was over behind the last beat ahead of a reset or the end."""
    got, lines = LATE.findall(ran.text), ran.lines.splitlines()
    found, every = (Latencies(it, 1 << 20).take_all(lines) for it in (limit, 1))
    due = [it for it in found.watch.first if it.beat.kind == "A"]
    lacking = [it for it in (*every.watch.first, *every.under_way) if it.beat.kind == "A" and it.how is not End.ANSWERED]
    unanswered = [named(it) for it in lacking]
    told_of = [it for it in got if it not in unanswered]
    answered = [named(it) for it in due if it.how is End.ANSWERED]
    if told_of != answered or not {named(it) for it in due} <= set(got) or len(set(got)) != len(got):
        return f"told are {got}, and due {[named(it) for it in due]}"
    wrong = len([it for it in TOLD.findall(ran.text) if it.startswith("= wrong")])
    return failed_wrong(ran, 1, f"the run failed: {wrong} wrong, {len(got)} late") if got else None


def named(it: object) -> Tuple[str, str, str]:
    """The client and the source of a request, and when it began."""
    return it.beat.words[0], it.beat.words[4], str(it.begun)


def late_told(name: str, bench: Path, seed: int, setup: Path) -> Iterator[Case]:
    """Runs with resets, in which late replies are told, and one that takes none for late."""
    for limit in TOO_LONG:
        ran = simulated(bench, seed, setup, f"+zuldegei_late={limit}", f"+resets={seed}", NO_LIMIT, *[NO_LIMIT] * (limit > TOO_LONG[0]))
        yield f"{name}, late after {limit}", late_wrong(ran, limit)
    ran = simulated(bench, seed, setup, "+zuldegei_late=999999999", "+resets=1", NO_LIMIT)
    yield f"{name}, late after very long", f"told are {LATE.findall(ran.text)}" if " late" in ran.text else None


def words_tried(bench: Path) -> Iterator[Case]:
    """Words of the run by which nothing can be judged, and how that is said; each with Verilator's limit of errors, and without."""
    folder = bench.parent
    shutil.copy(run.HERE / "setup.lines", folder)
    (folder / "empty.lines").touch()
    (folder / "refused.lines").write_text("config 2 4 999 2 16 12 hh\n")
    for it in stored.blocks(TOP / "tests/words/monitor.words"):
        ran = started(bench, NO_LIMIT, *it.words)
        yield f"with {it.given}", failed_wrong(ran, 1, f"the run failed: {it.due}")
        ran = started(bench, *it.words)
        is_told = f"zuldegei: the run failed: {it.due}\n" in ran.text and ran.status == ABORTED
        yield f"with {it.given}, and no limit of errors", None if is_told else f"status {ran.status}: {ran.text[-300:]!r}"


def long_setup(bench: Path, line: str, module: str = "scoreboard") -> Iterator[Case]:
    """A set-up of very many lines, of which nearly all are this one."""
    setup = bench.parent / "long.lines"
    lines = (run.HERE / "setup.lines").read_text()
    setup.write_text(lines + line * (LINES - len(lines.splitlines())))
    began = time.monotonic()
    ran = started(bench, f"+zuldegei_setup={setup}", "+seed=1", "+zuldegei_end")
    took = time.monotonic() - began
    yield f"a set-up of {LINES} lines, {line!r}", failed_wrong(ran, 0, "the run is right", module)
    yield f"the time of a set-up of {LINES} lines, {line!r}", None if took < SECONDS else f"{took:.1f} s"


def tried(bug: str, bench: Path, given: argparse.Namespace) -> Iterator[Case]:
    """The runs of a testbench."""
    found = 0
    for profile in run.PROFILES:
        asked, setup = run.Asked(profile), bench.parent / f"{profile}.setup"
        setup.write_text(asked.setup)
        for seed in range(1, given.seeds + 1):
            name = f"{bug}, seed {seed}, by profile {profile}"
            x = [f"+verilator+seed+{seed}", "+verilator+rand+reset+2"] if bug in run.SHOWN_BY_X else []
            whole = simulated(bench, seed, setup, NO_LIMIT, *x)
            judged = run.judged(given.score, asked.setup, f"{whole.lines}= end\n")
            yield f"{name}, whole", whole_wrong(whole, judged)
            yield f"{name}, written", written_wrong(bench, seed, setup, given.score, *x)
            first = run.first_wrong(asked.setup, whole.lines, judged)
            if not first or first.name.endswith("UNANSWERED") or seed == 1:
                yield from late_told(name, bench, seed, setup)
            if first:
                found += 1
                stops = simulated(bench, seed, setup, "+zuldegei_stop=1", "+verilator+error+limit+2", *x)
                yield f"{name}, stopped", stopped_wrong(stops, first, "UNANSWERED" in first.name)
                yield f"{name}, without words", aborted_wrong(simulated(bench, seed, setup, *x), judged)
                for count in {1, judged.count("= wrong")}:
                    stops = simulated(bench, seed, setup, f"+zuldegei_stop={count}", NO_LIMIT, *x)
                    yield f"{name}, stopped by {count} below the limit of errors", stopped_below_limit(stops, judged, count)
    yield f"{bug} is found", None if bool(found) == (bug != run.RIGHT) else f"{found} runs are wrong"


def in_process(given: argparse.Namespace) -> Iterator[Case]:
    """Each bridge under Verilator."""
    if not is_there("the scoreboard in the simulator", "verilator"):
        return
    bugs = [given.only] if given.only else [run.RIGHT, *run.BUGS]
    with tempfile.TemporaryDirectory() as room, ThreadPoolExecutor(given.jobs) as pool:
        folder = Path(room)
        first = made(bugs[0], given.library, folder, None)
        benches = [first, *pool.map(lambda bug: made(bug, given.library, folder, first.parent), bugs[1:])]
        for found in pool.map(lambda it: [*tried(*it, given)], zip(bugs, benches)):
            yield from found
        yield from words_tried(first)
        for line in LONG_LINES if bugs[0] == run.RIGHT else ():
            yield from long_setup(first, line)


def piped(words: list, asked: run.Asked, score: Path, folder: Path) -> Tuple[str, str]:
    """What tlscore tells of the lines of a run that come through a named pipe, and of the same lines from a file."""
    pipe, seen = folder / "pipe", folder / "seen.lines"
    os.mkfifo(pipe)
    (folder / "setup.lines").write_text(asked.setup)
    command = ["sh", "-c", 'cat setup.lines pipe | "$0"', score]
    with subprocess.Popen(command, cwd=folder, stdout=subprocess.PIPE, text=True) as judge:
        run.simulated([*words, "+seed=1", f"+observed={pipe}"])
        told_by_pipe = judge.communicate(timeout=60)[0]
    pipe.unlink()
    run.simulated([*words, "+seed=1", f"+observed={seen}"])
    return told_by_pipe, run.judged(score, asked.setup, seen.read_text())


def by_pipe(given: argparse.Namespace) -> Iterator[Case]:
    """Bridges under Icarus, whose lines tlscore reads while they come."""
    if not is_there("tlscore behind a pipe from the simulator", "iverilog"):
        return
    for bug in PIPED:
        with tempfile.TemporaryDirectory() as room:
            asked = run.Asked("tilelink")
            words = run.compiled("iverilog", run.Bench("bridge", asked, bug=bug), Path(room))
            got, due = piped(words, asked, given.score, Path(room))
            is_told = ("= wrong" in due) == (bug != run.RIGHT)
            yield f"{bug} by a pipe from Icarus", None if got == due and is_told else f"it told {got[:100]!r}, not {due[:100]!r}"


def cases(given: argparse.Namespace) -> Iterator[Case]:
    yield from in_process(given)
    yield from by_pipe(given) if not given.only else ()


if __name__ == "__main__":
    words = asked(__doc__, "score", over_library=True)
    words.add_argument("--seeds", type=int, default=3, help="how many runs of each, by each profile (3)")
    words.add_argument("--only", help="this fault alone")
    words.add_argument("--jobs", type=int, default=os.cpu_count() or 1, help="how many at once (one a processor)")
    sys.exit(told(cases(words.parse_args())))
