"""The stored runs of runs/: for each fault that can be planted in bridge.sv a small one in which it shows. NAME.lines is what tlscore
reads, the set-up, what the monitor printed, and `= end`; NAME.told is its verdict.

    python3 examples/testbench/rtl/runs.py [--write] [--simulator NAME] [--score PROGRAM]

Each run is simulated anew and compared with its lines, and its verdict with what is stored; --write stores both in their place. A
run that x alone shows is simulated only where the simulator has x, and that is said. It ends with status 1 where something differs,
and else as run.py does.
"""

import argparse
import sys
import tempfile
from pathlib import Path
from typing import NamedTuple, Optional

import run

RUNS = run.HERE / "runs"


class Stored(NamedTuple):
    """A run by its fault, its seed, and how many requests each client asks, by plain lots."""

    bug: str
    seed: int
    requests: int

    @property
    def lines(self) -> Path:
        return RUNS / f"{self.name}.lines"

    @property
    def told(self) -> Path:
        return RUNS / f"{self.name}.told"

    @property
    def name(self) -> str:
        return self.bug.lower().replace("_", "-")

    @property
    def bench(self) -> run.Bench:
        return run.Bench(run.BRIDGES[0], run.Asked(), bug=self.bug, corners=0)

    def is_shown_in(self, simulator: Optional[str]) -> bool:
        """Whether a simulator makes it: one is there, and has x where the fault is shown by that."""
        return bool(simulator) and (simulator in run.HAVE_X or not self.bench.needs_x)


STORED = (
    Stored("LANE_SWAPPED", 3, 4),
    Stored("STROBE_LOST", 3, 4),
    Stored("OTHER_SOURCE", 2, 4),
    Stored("REPLY_TWICE", 3, 4),
    Stored("WLAST_EARLY", 1, 4),
    Stored("PAGE_CROSSED", 1, 4),
    Stored("REGION_UNASKED", 11, 4),
    Stored("FIRST_MASK", 3, 4),
    Stored("ANSWERED_EARLY", 13, 6),
    Stored("CUT_SHORT", 8, 4),
    Stored("REPLY_LOST", 2, 4),
    Stored("BEAT_DROPPED", 1, 4),
    Stored("UNKNOWN_READ", 3, 4),
)


def simulated(stored: Stored, simulator: str, folder: Path) -> str:
    """What tlscore is to read of a run that is made anew."""
    bench, its_folder = stored.bench, Path(tempfile.mkdtemp(dir=folder))
    seen = folder / f"{stored.name}.seen"
    words = run.compiled(simulator, bench, its_folder)
    run.simulated([*words, f"+seed={stored.seed}", f"+requests={stored.requests}", *bench.words, f"+observed={seen}"])
    return f"{bench.asked.setup}{seen.read_text()}= end\n"


def differs(path: Path, text: str, writes: bool) -> Optional[str]:
    """What is to be said of a stored text that isn't this one."""
    if writes:
        path.write_text(text)
    return None if path.exists() and path.read_text() == text else f"{path.name} differs"


def compared(simulator: Optional[str], score: Path, writes: bool = False):
    """Each run's name, and what differs of it: its verdict, and where the simulator makes it its lines."""
    with tempfile.TemporaryDirectory() as folder:
        for stored in STORED:
            if stored.is_shown_in(simulator):
                yield f"{stored.name}, simulated anew", differs(stored.lines, simulated(stored, simulator, Path(folder)), writes)
            yield f"{stored.name}, judged", differs(stored.told, run.judged(score, "", stored.lines.read_text()), writes)


def without_x(simulator: str):
    """The runs that a simulator doesn't make, since it has no x."""
    return [stored for stored in STORED if not stored.is_shown_in(simulator)]


def main() -> int:
    asked = argparse.ArgumentParser(description=__doc__)
    asked.add_argument("--write", action="store_true", help="store what was made")
    run.takes_programs(asked)
    given = asked.parse_args()
    simulator = run.installed(given.simulator)
    if not simulator:
        return run.without_simulator(given.simulator)
    try:
        found = [*compared(simulator, given.score, given.write)]
    except run.Cannot as why:
        print(why, file=sys.stderr)
        return 3
    for name, why in found:
        print(f"{name}: {why or 'as stored'}")
    for stored in without_x(simulator):
        print(f"{stored.name} wasn't simulated anew: {simulator} has no x")
    return int(any(why for _, why in found))


if __name__ == "__main__":
    sys.exit(main())
