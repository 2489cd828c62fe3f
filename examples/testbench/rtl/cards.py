"""How soon the faults of bridge.sv are told by requests by plain lots, by the cards of zuldegei-stimulus and by half of each, and what
cards add to a night of plain lots (docs/STIMULUS.md). Each run has 200 requests.

    python3 examples/testbench/rtl/cards.py [--runs N] [--part soon | corners | bins] [--only FAULT] [--jobs N] [--simulator NAME]
                                            [--score PROGRAM]

soon      of each fault after how many requests its first wrong line came, in half of the runs that told it, and in brackets how many did,
          where not all; `end` stands for the end of the run, and `-` for never
corners   of each fault that was planted in a corner how many runs of plain lots, of the client that looks for corners, and of cards for
          what a night of plain lots missed told it; and after how many requests half of the last did
bins      how many bins that night reached, and with one run of cards for what it missed: the least of ten

The night has 20 runs of plain lots with three resets each, some 4,000 requests. Status 0 says that the right bridge was never blamed, 1
that it was; the others are those of run.py.
"""

import argparse
import os
import sys
import tempfile
from concurrent.futures import ThreadPoolExecutor
from pathlib import Path
from typing import Dict, Iterator, List, NamedTuple, Optional, Sequence

import run

sys.path.append(str(run.HERE.parent))
import client  # noqa: E402, F401  (it knows where the package is)
from zuldegei.cover_read import Reader  # noqa: E402
from zuldegei.cover_report import Cover, Shown, cover_of, withouts_of  # noqa: E402
from zuldegei.cover_setup import Setup, beats_of  # noqa: E402
from zuldegei.stimulus import Stimulus, Wanted  # noqa: E402

REQUESTS, CLIENTS, RUNS = 200, 2, 10  # of a run, and how many runs
NIGHT, RESETS, BEHIND = 20, 3, 10  # runs of the night, and resets in each; runs of cards behind it
NIGHTLY = 154  # requests behind the last reset of such a run; with those ahead of it there are some 200
LOTS, CORNERS, CARDS, HALF, MISSED = "lots", "corners", "cards", "half", "missed"  # ways in which requests come
OF_DEALS = {CARDS: 0, HALF: 8, MISSED: 0}  # how many of 16 deals are by lot
FAULTS = (*run.BUGS, *run.BUGS_OF_ORDER, *run.BUGS_IN_CORNERS)
PARTS = ("soon", "corners", "bins")
WITHOUT = run.HERE / "without.lines"


class Told(NamedTuple):
    """What came of a run: what was observed, and after how many requests the first wrong line was told, where one was."""

    seen: str
    requests: Optional[int]
    is_at_end: bool


class Bench:
    """The testbench with a fault, once it is made for the bench's own clients, and once for those that play."""

    def __init__(self, given: argparse.Namespace, folder: Path, bug: str):
        self.given, self.folder, self.bug = given, folder, bug
        self.asked = run.Asked()
        self.made: Dict[bool, Sequence[object]] = {}

    def words(self, is_played: bool) -> Sequence[object]:
        if is_played not in self.made:
            room = Path(tempfile.mkdtemp(dir=self.folder))
            bench = run.Bench("bridge", self.asked, bug=self.bug, is_played=is_played)
            self.made[is_played] = run.compiled(self.given.simulator, bench, room)
        return self.made[is_played]

    def told(self, way: str, seed: int, resets: int = 0, missed: Optional[Sequence[str]] = None) -> Told:
        """Makes a run, and has it judged."""
        seen, play = (Path(tempfile.mkstemp(dir=self.folder)[1]) for _ in range(2))
        words = [*self.words(way in OF_DEALS), f"+seed={seed}", f"+resets={resets}", "+waits", f"+observed={seen}"]
        if way in OF_DEALS:
            wanted = Wanted(seed, REQUESTS, OF_DEALS[way], missed=missed, left_out=[it.pattern for it in withouts_of(WITHOUT)])
            play.write_text("\n".join(Stimulus(setup(self.asked), wanted).lines()))
            words += [f"+zuldegei_play={play}"]
        else:
            words += [f"+requests={(NIGHTLY if resets else REQUESTS) // CLIENTS}", f"+corners={run.CORNERS if way == CORNERS else 0}"]
        run.simulated(words)
        text = seen.read_text()
        found = run.WRONG.search(run.judged(self.given.score, self.asked.setup, f"{text}= end\n"))
        for it in (seen, play):
            it.unlink()
        line = int(found[1]) - self.asked.setup.count("\n") if found else 0
        return Told(text, requests_up_to(text, line) if found else None, line > text.count("\n"))


def setup(asked: run.Asked) -> Setup:
    return Reader().read(asked.setup.splitlines(True)).setup


def requests_up_to(text: str, line: int) -> int:
    """How many requests were begun up to a line."""
    count, left = 0, [0] * CLIENTS
    for it in text.splitlines()[:line]:
        words = it.split()
        if words[0] == "A":
            at = int(words[1])
            if not left[at]:
                count, left[at] = count + 1, beats_of(int(words[2]), int(words[4]))
            left[at] -= 1
        elif words[:2] == ["=", "reset"]:
            left = [0] * CLIENTS
    return count


def covered(found: Sequence[Told]) -> Cover:
    """What runs reached."""
    cover = Cover()
    for it in found:
        text = f"{run.Asked().setup}{it.seen}"
        cover.add(cover_of("a run", Reader().read(text.splitlines(True))))
    return cover


def shown(*covers: Cover) -> Shown:
    """What covers have in all, without what the bridge can't do."""
    both = Cover()
    for it in covers:
        both.add(it)
    return Shown(both, withouts_of(WITHOUT))


class Trial:
    """Runs of the testbench, several at once; `blamed` counts those in which the right bridge was told wrong."""

    def __init__(self, given: argparse.Namespace, folder: Path):
        self.given, self.folder, self.pool, self.blamed = given, folder, ThreadPoolExecutor(given.jobs), 0
        self.right = Bench(given, folder, run.RIGHT)

    def many(self, bench: Bench, way: str, seeds: Sequence[int], missed: Optional[Sequence[str]] = None, resets: int = 0) -> List[Told]:
        bench.words(way in OF_DEALS)
        found = [*self.pool.map(lambda seed: bench.told(way, seed, resets, missed), seeds)]
        self.blamed += len(told_in(found)) if bench.bug == run.RIGHT else 0
        return found

    def night(self) -> List[Told]:
        """A night of plain lots."""
        return self.many(self.right, LOTS, range(1, NIGHT + 1), resets=RESETS)

    def soon(self) -> Iterator[str]:
        """After how many requests faults are told."""
        ways, seeds = (LOTS, CARDS, HALF), range(1, self.given.runs + 1)
        yield f"{'fault':18} {'lots':>10} {'cards':>10} {'half':>10}"
        for bug in (run.RIGHT, *self.given.faults):
            bench = Bench(self.given, self.folder, bug)
            yield f"{bug:18} {' '.join(f'{half_of(self.many(bench, way, seeds)):>10}' for way in ways)}"

    def corners(self) -> Iterator[str]:
        """How often faults in corners are told, behind a night of plain lots."""
        missed, count = shown(covered(self.night())).missed, self.given.runs
        yield f"{'fault':18} {'lots':>8} {'corners':>8} {'missed':>8} {'requests':>9}   of {count} runs"
        for bug in (it for it in run.BUGS_IN_CORNERS if it in self.given.faults):
            bench = Bench(self.given, self.folder, bug)
            found = {way: self.many(bench, way, range(1, count + 1), missed) for way in (LOTS, CORNERS, MISSED)}
            counts = " ".join(f"{len(told_in(it)):8}" for it in found.values())
            yield f"{bug:18} {counts} {half_of(found[MISSED]):>9}"

    def bins(self) -> Iterator[str]:
        """How many bins a night reaches, and with a run behind it."""
        night = self.night()
        cover, requests = covered(night), sum(requests_up_to(it.seen, it.seen.count("\n")) for it in night)
        yield f"{requests} requests by lots: {shown(cover).reached()}"
        runs = self.many(self.right, MISSED, range(1, BEHIND + 1), shown(cover).missed)
        least = min((shown(cover, covered([it])) for it in runs), key=lambda it: it.hit)
        yield f"and {REQUESTS} from what was missed, the least of {BEHIND}: {least.reached()}; never {', '.join(least.missed) or 'nothing'}"


def told_in(found: Sequence[Told]) -> List[Told]:
    return [it for it in found if it.requests is not None]


def half_of(found: Sequence[Told]) -> str:
    """After how many requests half of those that told it did, and how many did where not all."""
    told = sorted((it.is_at_end, it.requests) for it in told_in(found))
    if not told:
        return "-"
    is_at_end, count = told[(len(told) - 1) // 2]
    return f"{'end' if is_at_end else count}{f' ({len(told)})' if len(told) < len(found) else ''}"


def words() -> argparse.Namespace:
    """What is asked for."""
    asked = argparse.ArgumentParser(description="how soon faults are told by plain lots, by cards, and by half of each")
    asked.add_argument("--runs", type=int, default=RUNS, help=f"how many runs of each fault and each way ({RUNS})")
    asked.add_argument("--part", choices=PARTS, help="one of the tables alone")
    only = "one of the faults; several such words name several (all)"
    asked.add_argument("--only", choices=FAULTS, action="append", dest="faults", help=only)
    asked.add_argument("--jobs", type=int, default=os.cpu_count() or 1, help="how many runs at once (one a processor)")
    run.takes_programs(asked)
    given = asked.parse_args()
    given.faults = given.faults or FAULTS
    if min(given.runs, given.jobs) < 1:
        asked.error("runs and jobs are counted from 1")
    return given


def main() -> int:
    given = words()
    wanted, given.simulator = given.simulator, run.installed(given.simulator)
    if not given.simulator:
        return run.without_simulator(wanted)
    if given.simulator not in run.HAVE_X:
        given.faults = [it for it in given.faults if it not in run.SHOWN_BY_X]
    with tempfile.TemporaryDirectory() as folder:
        try:
            trial = Trial(given, Path(folder))
            for part in [given.part] if given.part else PARTS:
                for line in getattr(trial, part)():
                    print(line, flush=True)
        except run.Cannot as why:
            print(why, file=sys.stderr)
            return 3
    return int(trial.blamed > 0)


if __name__ == "__main__":
    sys.exit(main())
