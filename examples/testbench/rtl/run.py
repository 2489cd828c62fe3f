"""Simulates the bridge of this folder in front of each memory, as it is, and with each of thirteen faults planted, and has tlscore
judge what the monitor saw.

    python3 examples/testbench/rtl/run.py [--runs N] [--first SEED] [--jobs N] [--simulator NAME] [--score PROGRAM]
                                          [--profile NAME] [--errors HOW] [--pages KIND] [--bridge NAME] [--habit NAME] [--calm]
                                          [--resets N] [--corners N]
    python3 examples/testbench/rtl/run.py --right [--runs N] [--first SEED] [--jobs N] [--simulator NAME] [--score PROGRAM]
                                          [--pages KIND] [--resets N] [--corners N]

For each of them it prints how many runs were told wrong, and after how many beats the first wrong line came. It ends with status 0
exactly where the right bridge is never blamed and each fault is told in some run, with 1 where not, with 2 for words that it doesn't
know, with 3 where a simulator or tlscore can't do its work, and with 4 where there is no simulator. --bridge streaming_bridge has
another one judged, which tells errors in its own way: it asks for --profile tilelink --errors any, or with --calm for the first alone.
By --errors any, without --calm, the memory whose good pages fail by lot is among them. By --pages any each memory begins with bytes
by lot, which nobody tells tlscore, and by --pages unknown with x. By --resets N all of a testbench is reset N times in each run, but
for the memory's bytes. By --corners N the clients look for a corner with N of 16 requests, and by 0 they ask by plain lots. What x
alone shows is left out where the simulator is Verilator, which has two states, and that is said.

--right has both bridges judged as they are, each by what it promises, N runs in all, and prints a table of them.
"""

import argparse
import os
import re
import shutil
import statistics
import subprocess
import sys
import tempfile
from collections import Counter
from concurrent.futures import ThreadPoolExecutor
from pathlib import Path
from typing import NamedTuple, Optional

import traffic

HERE = Path(__file__).resolve().parent
SETUP = (HERE / "setup.lines").read_text()
CLIENT = HERE.parents[2] / "interfaces/systemverilog/zuldegei_client.sv"  # plays a stimulus
FILES = ("testbench.sv", "client.sv", "bridge.sv", "streaming_bridge.sv", "fifo.sv", "memory.sv", "monitor.sv")
SIMULATORS = ("iverilog", "verilator")
HAVE_X = ("iverilog",)  # simulators of four states
BRIDGES = ("bridge", "streaming_bridge")
PROFILES = ("bridge", "tilelink")
ERRORS = ("strict", "any")
PAGES = {"good": "ZEROS", "any": "NOISE", "unknown": "UNKNOWN"}  # by the kind of the pages what the memory begins with
HABITS = ("EARLY", "QUIET")  # of the streaming bridge
MEMORIES = ("ANY_ORDER", "IN_ORDER", "AS_BEATS_COME", "SLOW")
CORNERS, MOST_CORNERS = 4, 16  # of 16 requests, how many look for a corner, and at the most; with 0 there are plain lots
FAILING = "FAILING"  # bursts to good pages fail by lot, which no set-up can say: for errors any alone
RIGHT = "NONE"
BUGS = ("LANE_SWAPPED", "STROBE_LOST", "OTHER_SOURCE", "REPLY_TWICE", "WLAST_EARLY", "PAGE_CROSSED", "REGION_UNASKED")
BUGS += ("FIRST_MASK", "ANSWERED_EARLY", "CUT_SHORT", "REPLY_LOST", "BEAT_DROPPED", "UNKNOWN_READ")
BUGS_OF_ORDER = ("UNGUARDED", "READS_MIXED", "WRITES_MIXED")  # which don't show in front of a memory that answers in order
BUGS_IN_CORNERS = ("BEHIND_REGION", "WAITING_DROPPED", "PAGE_BEGIN_MOVED", "EMPTY_LAST_FILLED")  # to which plain lots hardly come
SHOWN_BY_X = ("UNKNOWN_READ",)  # faults that nothing but an x shows for certain
WRONG = re.compile(r"^= wrong (\d+) (.*?)(?: expected .*?)?(?: at (\d+))?$", re.MULTILINE)
ENDED = re.compile(r"^= judged (\d+) wrong (\d+) outstanding (\d+) open (\d+) compared \d+ of \d+$", re.MULTILINE)


class Cannot(Exception):
    """A program can't do its work."""


class Asked(NamedTuple):
    """What is asked of a bridge, the order of its requests and how it may tell errors, and the kind of the pages behind it."""

    profile: str = PROFILES[0]
    errors: str = ERRORS[0]
    pages: str = "good"

    @property
    def setup(self):
        kind, x_data = ("any", "x data\n") if self.pages == "unknown" else (self.pages, "")
        return f"{SETUP.replace('good', kind)}profile {self.profile}\nerrors {self.errors}\n{x_data}"

    @property
    def memories(self):
        return (*MEMORIES, FAILING) if self.errors == "any" else MEMORIES


class Bench(NamedTuple):
    """A bridge, in front of a memory, with a fault planted or with none, and what is asked of it."""

    bridge: str
    asked: Asked
    memory: str = MEMORIES[0]
    bug: str = RIGHT
    habit: str = HABITS[0]
    is_calm: bool = False  # no access fails, and no beat is corrupt
    began: str = ""  # what the memory begins with, where that isn't what the set-up says
    resets: int = 0  # how often all is reset meanwhile
    corners: int = CORNERS
    is_played: bool = False  # by clients that play a stimulus

    @property
    def name(self):
        return self.memory if self.bug == RIGHT else self.bug

    @property
    def needs_x(self):
        return self.bug in SHOWN_BY_X or "UNKNOWN" in (self.began, PAGES[self.asked.pages])

    @property
    def device(self):
        return self.bridge if self.bridge == BRIDGES[0] else f"{self.bridge} {self.habit}"

    @property
    def words(self):
        return [f"+resets={self.resets}", f"+corners={self.corners}"]

    @property
    def defines(self):
        chosen = [f"-DBRIDGE={self.bridge}"] if self.bridge != BRIDGES[0] else []
        began = f"-DBEGAN={self.began or PAGES[self.asked.pages]}"
        played = ["-DPLAYED"] * self.is_played
        return [*chosen, *played, f"-DHABIT={self.habit}", f"-DMEMORY={self.memory}", began, f"-DBUG={self.bug}", f"-DCALM={int(self.is_calm)}"]

    @property
    def files(self):
        return [*FILES, CLIENT] if self.is_played else FILES


class Wrong(NamedTuple):
    """The first line that was told wrong: how many beats came up to it, the simulation's time, and what for."""

    beats: int
    time: int
    name: str


class Run(NamedTuple):
    """What a run gave: the scoreboard's lines, the first of them that is wrong, and what was under way."""

    told: str
    wrong: Optional[Wrong]
    traffic: traffic.Traffic


def first_wrong(setup, text, told):
    """What was told first of an observation behind a set-up."""
    found = WRONG.search(told)
    if not found:
        return None
    line, name, time = found.groups()
    seen = text.splitlines()[: int(line) - setup.count("\n")]
    return Wrong(sum(not it.startswith("time ") for it in seen), int(time), name)


def compiled(simulator, bench, folder):
    """Makes a testbench in a folder of its own, and returns the words that run it."""
    made = folder / "testbench"
    if simulator == "iverilog":
        words = ["iverilog", "-g2012", *bench.defines, "-s", "testbench", "-o", made]
        runs = ["vvp", "-n", made]
    else:
        words = ["verilator", "--binary", "--timing", "-Wno-fatal", *bench.defines, "--top-module", "testbench", "-Mdir", folder]
        words += ["-o", made.name]
        runs = [made]
    simulated([*words, *bench.files])
    return runs


def simulated(words):
    """Runs a simulator, which prints nothing that is looked at."""
    ran = subprocess.run(words, cwd=HERE, stdout=subprocess.PIPE, stderr=subprocess.STDOUT, text=True, check=False)
    if ran.returncode:
        raise Cannot(f"{ran.stdout[-2000:]}{words[0]} ended with status {ran.returncode}")


def judged(score, setup, text):
    """What the scoreboard prints of an observation. Its standard error, where it tells how its building goes, is ours."""
    try:
        ran = subprocess.run([score], input=setup + text, stdout=subprocess.PIPE, text=True, check=False)
    except OSError as why:
        raise Cannot(f"{score}: {why.strerror}") from why
    if ran.returncode > 1:
        raise Cannot(f"{score} ended with status {ran.returncode}")
    return ran.stdout


def ran(bench, seed, making, score, folder):
    """Runs a testbench with a seed, once it is made, and has it judged."""
    seen = folder / f"seen-{seed}.lines"
    simulated([*making.result(), f"+seed={seed}", *bench.words, f"+observed={seen}"])
    text = seen.read_text()
    seen.unlink()
    told = judged(score, bench.asked.setup, f"{text}= end\n")  # a testbench ends where all is answered, or nothing moves any more
    return Run(told, first_wrong(bench.asked.setup, text, told), traffic.of(text))


class Variant:
    """The runs of a testbench."""

    def __init__(self, bench):
        self.bench = bench
        self.traffic = traffic.Traffic()
        self.runs = self.beats = self.unfinished = 0
        self.first = []  # of each run that was told wrong: how many beats came up to the first wrong one
        self.names = Counter()  # what that one was told for
        self.seed = self.time = None  # of the first such run, and when its first wrong beat came

    def take(self, seed, run):
        """Notes what a run gave."""
        ended = ENDED.search(run.told)
        if not ended:
            raise Cannot(f"the scoreboard printed no last line of seed {seed}")
        judged, wrong, outstanding, still_open = map(int, ended.groups())
        self.runs += 1
        self.beats += judged
        self.unfinished += outstanding + still_open > 0
        self.traffic |= run.traffic
        if wrong:
            self.first.append(run.wrong.beats)
            self.names[run.wrong.name] += 1
            if self.seed is None:
                self.seed, self.time = seed, run.wrong.time

    def is_well(self):
        """The right bridge is never blamed and answers all; a fault is told."""
        return not self.first and not self.unfinished if self.bench.bug == RIGHT else bool(self.first)

    def __str__(self):
        counts = f"{self.bench.name:14} {len(self.first):5} of {self.runs} runs wrong"
        if not self.first:
            return f"{counts}, {self.unfinished} unfinished; {self.beats} beats"
        times = f"first at beat {min(self.first)} to {max(self.first)}, half of them by {statistics.median_low(self.first)}"
        return f"{counts}; {times}; {self.names.most_common(1)[0][0]}; as in seed {self.seed} at {self.time}"


def tried(plan, given, folder):
    """Runs testbenches, each with its seeds, several at once, and gives what was found of each in their order."""
    judged(given.score, SETUP, "")  # so that it is built before several ask for it
    pool = ThreadPoolExecutor(given.jobs)
    try:
        folders = [Path(tempfile.mkdtemp(dir=folder)) for _ in plan]
        made = [pool.submit(compiled, given.simulator, bench, its) for (bench, _), its in zip(plan, folders)]
        runs = [
            [pool.submit(ran, bench, seed, making, given.score, its) for seed in seeds]
            for (bench, seeds), making, its in zip(plan, made, folders)
        ]
        for (bench, seeds), its_runs in zip(plan, runs):
            variant = Variant(bench)
            for seed, run in zip(seeds, its_runs):
                variant.take(seed, run.result())
            yield variant
    finally:
        pool.shutdown(cancel_futures=True)


def benches(bridge, asked, is_calm=False, habit=HABITS[0]):
    """The bridge in front of each memory, and with each fault that is planted in it; of a calm run none is looked for."""
    bugs = BUGS if bridge == BRIDGES[0] and not is_calm else ()
    memories = MEMORIES if is_calm else asked.memories
    right = [Bench(bridge, asked, memory, habit=habit, is_calm=is_calm) for memory in memories]
    return right + [Bench(bridge, asked, bug=bug) for bug in bugs]


def right_plan(seeds, pages="good"):
    """Both bridges as they are, in front of each memory, by what each promises, but by errors any where good pages fail: each gets a
    seed in turn."""
    strict, free = Asked(pages=pages), Asked("tilelink", "any", pages)
    right = [Bench(BRIDGES[0], strict, memory) for memory in strict.memories] + [Bench(BRIDGES[0], free, FAILING)]
    right += [Bench(BRIDGES[1], free, memory, habit=habit) for habit in HABITS for memory in free.memories]
    return [(bench, seeds[at :: len(right)]) for at, bench in enumerate(right)]


def plan_of(given):
    """Each testbench that is asked for, with its seeds."""
    seeds = range(given.first, given.first + given.runs)
    asked = Asked(given.profile, given.errors, given.pages)
    chosen = [] if given.right else benches(given.bridge, asked, given.calm, given.habit)
    plan = right_plan(seeds, given.pages) if given.right else [(bench, seeds) for bench in chosen]
    return [(bench._replace(corners=given.corners), its) for bench, its in with_resets(plan, given.resets)]


def shown_in(plan, simulator):
    """The testbenches that a simulator can show, and the others: those that need an x, where it has two states."""
    lacks_x = simulator not in HAVE_X
    left_out = [bench for bench, _ in plan if lacks_x and bench.needs_x]
    return [(bench, seeds) for bench, seeds in plan if bench not in left_out], left_out


def with_resets(plan, resets):
    """The same testbenches, reset so often."""
    return [(bench._replace(resets=resets), seeds) for bench, seeds in plan]


HEAD = f"{'bridge':22} {'memory':14} {'runs':>5} {'blamed':>6}   at once  sources  IDs  overtaking  streamed  foretold"


def row(variant):
    """A line of the table of the right bridges."""
    bench, seen = variant.bench, variant.traffic
    counts = f"{bench.device:22} {bench.memory:14} {variant.runs:5} {len(variant.first):6}"
    was = f"{seen.at_once:9} {len(seen.sources):8} {len(seen.ids):4} {seen.overtaking:11} {seen.streamed:9} {seen.foretold:9}"
    why = f"; {variant.names.most_common(1)[0][0]}, as in seed {variant.seed} at {variant.time}" if variant.first else ""
    return f"{counts} {was}{why}" + (f"; {variant.unfinished} unfinished" if variant.unfinished else "")


def verdict(variants, is_table):
    """The last line."""
    failed = [it for it in variants if not it.is_well()]
    if is_table:
        runs, blamed, unfinished = (sum(counts) for counts in zip(*((it.runs, len(it.first), it.unfinished) for it in variants)))
        return f"{runs} runs of right bridges, {blamed} blamed, {unfinished} unfinished"
    if failed:
        return f"not as it should be: {', '.join(it.bench.name for it in failed)}"
    return "the right bridge was never blamed, and each fault was told"


def takes_programs(asked):
    """Which programs a call takes."""
    asked.add_argument("--simulator", choices=SIMULATORS, help="the first of these that is there")
    top = HERE.parents[2] / "tlscore"
    score = os.environ.get("TLSCORE") or (top if top.exists() else shutil.which("tlscore") or top)
    asked.add_argument("--score", type=resolved, default=score, help="the scoreboard (what TLSCORE names, else tlscore, at the top or on PATH)")


def resolved(path):
    return Path(path).resolve()


def installed(simulator=None):
    """This simulator, or the first of all, if it is there."""
    return next(filter(shutil.which, [simulator] if simulator else SIMULATORS), None)


def without_simulator(simulator):
    """Says that none is there, and gives the status."""
    print(f"no simulator: {simulator or ' or '.join(SIMULATORS)} has to be on PATH", file=sys.stderr)
    return 4


def words():
    """What is asked for."""
    asked = argparse.ArgumentParser(description="bridges in SystemVerilog, right and with faults, judged by tlscore")
    asked.add_argument("--right", action="store_true", help="both bridges as they are, each by what it promises: a table")
    asked.add_argument("--runs", type=int, default=20, help="how many runs of each, with --right in all (20)")
    asked.add_argument("--first", type=int, default=1, help="the seed of the first run, from 1; the others follow (1)")
    asked.add_argument("--profile", choices=PROFILES, help="what is asked of the bridge (bridge)")
    asked.add_argument("--errors", choices=ERRORS, help="how it may tell errors; any only by profile tilelink (strict)")
    asked.add_argument("--pages", choices=PAGES, default="good", help="what the memory begins with: zeros, bytes by lot, or x (good)")
    asked.add_argument("--bridge", choices=BRIDGES, help="which bridge (the one that the faults are of)")
    asked.add_argument("--habit", choices=HABITS, help="how the streaming bridge tells errors (EARLY)")
    asked.add_argument("--calm", action="store_true", help="no access fails, and no beat is corrupt")
    asked.add_argument("--resets", type=int, default=0, help="how often all is reset in each run (0)")
    asked.add_argument("--corners", type=int, default=CORNERS, help=f"of 16 requests how many look for a corner ({CORNERS})")
    asked.add_argument("--jobs", type=int, default=os.cpu_count() or 1, help="how many runs at once (one a processor)")
    takes_programs(asked)
    given = asked.parse_args()
    if min(given.runs, given.first, given.jobs) < 1 or given.resets < 0:
        asked.error("runs, seeds and jobs are counted from 1, and resets from 0")
    if not 0 <= given.corners <= MOST_CORNERS:
        asked.error(f"--corners {given.corners}: 0 to {MOST_CORNERS} of so many requests")
    if given.right and (given.calm or given.profile or given.errors or given.bridge or given.habit):
        asked.error("--right chooses the bridges, and what is asked of them, itself")
    if given.habit and given.bridge != BRIDGES[1]:
        asked.error(f"--habit stands with --bridge {BRIDGES[1]}")
    given.profile, given.errors = given.profile or PROFILES[0], given.errors or ERRORS[0]
    given.bridge, given.habit = given.bridge or BRIDGES[0], given.habit or HABITS[0]
    if given.errors == "any" and given.profile != "tilelink":
        asked.error("--errors any stands with --profile tilelink")
    return given


def main():
    given = words()
    wanted, given.simulator = given.simulator, installed(given.simulator)
    if not given.simulator:
        return without_simulator(wanted)
    plan, left_out = shown_in(plan_of(given), given.simulator)
    if not plan:
        return without_simulator(" or ".join(HAVE_X))
    print(f"{given.simulator}, seeds {given.first} to {given.first + given.runs - 1}", flush=True)
    if left_out:
        print(f"left out, as {given.simulator} has no x: {', '.join(bench.name for bench in left_out)}", flush=True)
    if given.right:
        print(HEAD, flush=True)
    variants = []
    try:
        with tempfile.TemporaryDirectory() as folder:
            for variant in tried(plan, given, Path(folder)):
                variants.append(variant)
                print(row(variant) if given.right else variant, flush=True)
    except Cannot as why:
        print(why, file=sys.stderr)
        return 3
    print(verdict(variants, given.right))
    return int(not all(it.is_well() for it in variants))


if __name__ == "__main__":
    sys.exit(main())
