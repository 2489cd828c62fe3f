"""The free memory and the predictor of interfaces/systemverilog, over the testbench of examples/testbench/rtl under Verilator. In front of
the memory the right bridges aren't blamed, by what each promises; and there are faults that are told in front of it, and hidden where it
keeps all in order; by words of the run its bursts fail, and it waits. The predictor finds nothing wrong of the right bridge, and a fault at the time at which tlscore finds the first wrong
reply of the same run, where it also stops. A run in which it finds one, or in which it or the memory can't do its work, has a status
other than 0, with Verilator's limit of errors and without; a set-up of 200,000 lines is read in few seconds. Each call of the model by
DPI-C gives what it should. The comparison of replies, which needs no library, takes an x as it should under Icarus. A simulator that
isn't installed is named, and what needs it isn't tried.

    python3 tests/bridge_process_rtl.py TLSCORE [--seeds N] [--library FOLDER] [--jobs N]
"""

import argparse
import os
import re
import shutil
import subprocess
import sys
import tempfile
from concurrent.futures import ThreadPoolExecutor
from pathlib import Path
from typing import Iterator, List, NamedTuple, Optional, Tuple

import stored
from ends import Case, asked, is_there, told
from in_process_rtl import TOP, failed_wrong, long_setup
from simulators import SYSTEMVERILOG, Simulated, by_icarus, by_verilator, run, started

MEMORY, PREDICTOR = SYSTEMVERILOG / "zuldegei_axi_memory.sv", SYSTEMVERILOG / "zuldegei_predictor.sv"
PACKAGE, BIND = SYSTEMVERILOG / "zuldegei_pkg.sv", SYSTEMVERILOG / "example_predictor_bind.sv"
REPLIES = SYSTEMVERILOG / "zuldegei_reply_pkg.sv"
# Faults that a memory which answers in order hides; by `profile tilelink` the first is none.
HIDDEN = run.BUGS_OF_ORDER
BY_ORDER_ALONE = ("UNGUARDED",)
PREDICTED = ("LANE_SWAPPED", "OTHER_SOURCE")  # faults that the predictor has to find
TOLD = re.compile(r"(?m)^\[(\d+)\] %Error: .*zuldegei: (.*)$")
ENDED = re.compile(r"(?m)^zuldegei: = predicted (\d+) wrong (\d+)$")
REPLY = re.compile(r"(?m)^= wrong \d+ reply (?!9 ).* at (\d+)$")
MANY = "+verilator+error+limit+1000000"


class Bench(NamedTuple):
    """A bridge in front of the free memory, and what is asked of it."""

    bug: str = run.RIGHT
    bridge: str = "bridge"
    habit: str = "EARLY"
    order: int = 1  # what the memory keeps in order: 0 all, 1 what AXI4 promises, 2 answers alone
    predicts: bool = False

    @property
    def name(self) -> str:
        return f"{run.Bench(self.bridge, run.Asked(), habit=self.habit).device if self.bug == run.RIGHT else self.bug}, ORDER {self.order}"

    @property
    def profiles(self) -> List[run.Asked]:
        if self.bridge != "bridge":
            return [run.Asked("tilelink", "any")]
        return [run.Asked(it) for it in run.PROFILES]


BENCHES = [Bench(predicts=True), Bench(order=2), Bench(order=0)]
BENCHES += [Bench(bridge="streaming_bridge"), Bench(bridge="streaming_bridge", habit="QUIET", order=2)]
BENCHES += [Bench(it, order=order) for it in HIDDEN for order in (1, 0)] + [Bench(it, predicts=True) for it in PREDICTED]


def made(bench: Bench, library: Path, folder: Path) -> Path:
    """The testbench, in a folder of its own."""
    room = Path(tempfile.mkdtemp(dir=folder))
    files = [it for it in run.FILES if it != "memory.sv"] + [str(MEMORY)]
    files += [str(it) for it in (PACKAGE, REPLIES, PREDICTOR, BIND, library / "libzuldegei.a")] if bench.predicts else []
    defines = run.Bench(bench.bridge, run.Asked(), bug=bench.bug, habit=bench.habit).defines
    return by_verilator(room, "testbench", files, f"-DFREE_MEMORY={bench.order}", *defines)


def simulated(bench: Path, seed: int, *more: str) -> Tuple[int, str, str]:
    """The status of a run, what it printed, and the lines of the monitor that prints them."""
    seen = bench.parent / "seen.lines"
    asked = [f"+seed={seed}", f"+zuldegei_seed={seed}", "+corners=0"]  # plain lots, of which interfaces/README.md tells
    words = [bench, *asked, f"+observed={seen}", f"+zuldegei_setup={run.HERE / 'setup.lines'}", *more]
    ran = subprocess.run(words, cwd=bench.parent, stdout=subprocess.PIPE, stderr=subprocess.STDOUT, text=True, timeout=300, check=False)
    return ran.returncode, ran.stdout, f"{seen.read_text()}= end\n"


def predicted_wrong(program: Path, seed: int, status: int, text: str, judged: str) -> Optional[str]:
    """How the predictor doesn't tell what tlscore tells of replies in order of acceptance, and stop there."""
    ended, times = ENDED.search(text), [int(time) for time, _ in TOLD.findall(text)]
    first = REPLY.search(judged)
    how = f"the run failed: {len(times)} wrong" if times else "the run is right"
    why = failed_wrong(Simulated(status, text, ""), int(bool(times)), how, "predictor")
    if why:
        return why
    if not ended or int(ended[1]) < 100 or int(ended[2]) != len(times):
        return f"it ends with {text[-200:]!r}"
    if not first:
        return f"it tells {TOLD.findall(text)[:1]}" if times else None
    if not times or times[0] != int(first[1]):
        return f"it tells {TOLD.findall(text)[:1]} first, where tlscore has {first[0]!r}"
    for limit in ("+verilator+error+limit+2", MANY):
        status, text, _ = simulated(program, seed, "+zuldegei_stop=1", limit)
        stopped = [int(time) for time, _ in TOLD.findall(text)]
        if not status or stopped != [times[0], times[0]]:
            return f"by {limit} it stops with status {status} at {stopped}"
    return failed_wrong(Simulated(status, text, ""), 1, "the run failed: 1 wrong", "predictor")


def words_tried(program: Path) -> Iterator[Case]:
    """Words of the run by which the predictor, or the memory, can't do its work; each with Verilator's limit of errors, and without."""
    folder = program.parent
    shutil.copy(run.HERE / "setup.lines", folder)
    (folder / "unknown.lines").write_text("config 2 4 16 2 16 12 hh\nprofile tilelink\nregions\n")
    for it in stored.blocks(TOP / "tests/words/predictor.words"):
        for limit in ([MANY], []):
            ran = started(program, *limit, *it.words)
            is_told = f"zuldegei: the run failed: {it.due}\n" in ran.text and (ran.status == 1 if limit else ran.status != 0)
            yield f"with {it.given} and {limit}", None if is_told else f"status {ran.status}: {ran.text[-300:]!r}"


def by_words(program: Path, score: str) -> Iterator[Case]:
    """What words of the run have the memory do: bursts fail by lot, which is right by `errors any` alone; and it takes and answers later."""
    for count, due in ((4, True), (0, False)):
        lines = simulated(program, 1, f"+zuldegei_errors={count}")[2]
        wrong = ["= wrong" in run.judged(score, it.setup, lines) for it in (run.Asked(), run.Asked("tilelink"), run.Asked("tilelink", "any"))]
        yield f"{count} of 16 bursts fail", None if wrong == [due, due, False] else f"{wrong} are told wrong, by each of three profiles"
    usual = last_time(simulated(program, 1)[2])
    for word in ("ready_waits", "b_waits", "r_waits"):
        late, soon = (last_time(simulated(program, 1, f"+zuldegei_{word}={it}")[2]) for it in (15, 0))
        yield f"+zuldegei_{word}", None if soon < 1.1 * usual and late > 1.3 * usual else f"it ends at {soon}, {usual} and {late}"


def last_time(lines: str) -> int:
    """The time of the last beat."""
    return int(re.findall(r"(?m)^time (\d+)$", lines)[-1])


def tried(bench: Bench, program: Path, given: argparse.Namespace) -> Iterator[Case]:
    """The runs of a testbench."""
    wrong = {asked.profile: 0 for asked in bench.profiles}
    for seed in range(1, given.seeds + 1):
        status, text, lines = simulated(program, seed, *(["+zuldegei_end", MANY] if bench.predicts else []))
        if "Verilog $finish" not in text:
            yield f"{bench.name}, seed {seed}", f"it ends with status {status}: {text[-200:]!r}"
        for asked in bench.profiles:
            judged = run.judged(given.score, asked.setup, lines)
            wrong[asked.profile] += "= wrong" in judged
            if bench.predicts and asked.profile == "bridge":
                yield f"{bench.name}, seed {seed}, predicted", predicted_wrong(program, seed, status, text, judged)
    for profile, count in wrong.items():
        if bench.bug in HIDDEN:
            print(f"{bench.name}, by profile {profile}: {count} of {given.seeds} runs are wrong", flush=True)
        is_right = bench.bug == run.RIGHT or bench.order == 0 or bench.bug in BY_ORDER_ALONE and profile == "tilelink"
        yield f"{bench.name}, by profile {profile}", None if bool(count) != is_right else f"{count} of {given.seeds} runs are wrong"


def calls(library: Path, folder: Path) -> Iterator[Case]:
    """The calls by DPI-C."""
    room = Path(tempfile.mkdtemp(dir=folder))
    bench = by_verilator(room, "bridge_process", (PACKAGE, TOP / "tests/bridge_process.sv", library / "libzuldegei.a"))
    ran = subprocess.run([bench], stdout=subprocess.PIPE, text=True, timeout=60, check=False)
    lines = [it for it in ran.stdout.splitlines() if not it.startswith("- ")]
    yield "the calls by DPI-C", None if lines == ["looked at 44"] and ran.returncode == 0 else f"status {ran.returncode}: {lines[:3]}"


def replies() -> Iterator[Case]:
    """The comparison of replies, by four states."""
    if not is_there("how the predictor compares replies with x", "iverilog"):
        return
    with tempfile.TemporaryDirectory() as room:
        words = by_icarus(Path(room, "replies.vvp"), "replies", (REPLIES, TOP / "tests/replies.sv"))
        ran = subprocess.run(words, stdout=subprocess.PIPE, text=True, timeout=60, check=False)
    lines = ran.stdout.splitlines()
    is_well = lines == ["compared 4010"] and ran.returncode == 0
    yield "the comparison of replies", None if is_well else f"status {ran.returncode}, {len(lines)} lines: {lines[:3]}"


def in_verilator(given: argparse.Namespace) -> Iterator[Case]:
    """What needs the library, in the simulator."""
    if not is_there("the free memory and the predictor in the simulator", "verilator"):
        return
    with tempfile.TemporaryDirectory() as room, ThreadPoolExecutor(given.jobs) as pool:
        folder, library = Path(room), given.library
        yield from calls(library, folder)
        programs = [*pool.map(lambda it: made(it, library, folder), BENCHES)]
        yield from words_tried(programs[0])
        yield from by_words(programs[1], given.score)
        yield from long_setup(programs[0], "fill 10000 00 00 00 00\n", "predictor")
        for found in pool.map(lambda it: [*tried(*it, given)], zip(BENCHES, programs)):
            yield from found


def cases(given: argparse.Namespace) -> Iterator[Case]:
    yield from replies()
    yield from in_verilator(given)


if __name__ == "__main__":
    words = asked(__doc__, "score", over_library=True)
    words.add_argument("--seeds", type=int, default=10, help="how many runs of each (10)")
    words.add_argument("--jobs", type=int, default=os.cpu_count() or 1, help="how many at once (one a processor)")
    sys.exit(told(cases(words.parse_args())))
