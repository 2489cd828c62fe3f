"""What the testbenches of examples/testbench reach, of the bins that their set-ups and their bridges allow: the one in RTL (three resets in
each run) under a simulator, and random_bench.py. Each run is right by tlscore. By plain lots both reach less than is asked of them. Each
bin that a file without.lines leaves out is one that no run reached, and of the RTL there are 45 at the most. And docs/coverage.png is
like the picture that the commands of docs/COVERAGE.md make, where Chromium is installed.

    python3 tests/reached.py TLSCORE TLBRIDGE [--runs N]

With --runs 20 it makes the whole of which the pages tell, some 4,000 requests of each, and asks for 97 %; else a tenth of it.
"""

import argparse
import shutil
import subprocess
import sys
import tempfile
from pathlib import Path
from typing import Callable, Iterator, List, NamedTuple

from ends import Case, asked, told
from package import RTL
from pictures import BROWSERS, pictured
from simulators import run

sys.path.append(str(RTL.parent))
import random_bench  # noqa: E402
from zuldegei.client import Interactive  # noqa: E402
from zuldegei.cover_read import Reader  # noqa: E402
from zuldegei.cover_report import Cover, Shown, cover_of, withouts_of  # noqa: E402

RESETS, STEPS = 3, 5_000  # of a run of the RTL; of one of random_bench.py
WHOLE, OF_THE_WHOLE = 20, 97  # runs, and how many per cent they have to reach
MOST_WITHOUT = 45
COLOURS = ("c00020", "e8a33d", "2f9e6b")  # of bins that were never, seldom and often reached


class Testbench(NamedTuple):
    """A testbench: where its bins that can't be reached are named, how many per cent of the others a tenth of the whole has to reach, and
    what is observed of a run by its seed and how many of 16 requests look for a corner."""

    name: str
    without: Path
    of_a_tenth: int
    observed: Callable[[int, int], str]

    def least(self, runs: int) -> int:
        return OF_THE_WHOLE if runs >= WHOLE else self.of_a_tenth

    def shown(self, observations: List[str]) -> Shown:
        cover = Cover()
        for text in observations:
            cover.add(cover_of(self.name, Reader().read(text.splitlines(True))))
        return Shown(cover, withouts_of(self.without))


def rtl(simulator: str, folder: Path) -> Testbench:
    """The bridge in RTL, once it is made."""
    bench = run.Bench("bridge", run.Asked(), resets=RESETS)
    words, seen = run.compiled(simulator, bench, folder), folder / "seen.lines"

    def observed(seed: int, corners: int) -> str:
        run.simulated([*words, f"+seed={seed}", *bench._replace(corners=corners).words, "+waits", f"+observed={seen}"])
        return f"{bench.asked.setup}{seen.read_text()}"

    return Testbench("the bridge in RTL", RTL / "without.lines", 85, observed)


def python(program: str) -> Testbench:
    """The bridge of the program, by random_bench.py."""

    def observed(seed: int, corners: int) -> str:
        with Interactive([program, "run"]) as bridge:
            why = random_bench.tried(random_bench.Bench(bridge, seed, corners), STEPS)
            if why:
                raise SystemExit(why)
            return random_bench.observed(bridge)

    return Testbench("random_bench.py", RTL.parent / "without.lines", 78, observed)


def reached(bench: Testbench, runs: int, score: str) -> Iterator[Case]:
    """What so many runs of a testbench reach."""
    observations = [bench.observed(seed, run.CORNERS) for seed in range(1, runs + 1)]
    for seed, text in enumerate(observations, 1):
        ran = subprocess.run([score], input=text, capture_output=True, text=True, check=False)
        yield f"{bench.name}, seed {seed}", None if ran.returncode == 0 else ran.stdout[-300:] + ran.stderr
    shown, lots = bench.shown(observations), bench.shown([bench.observed(seed, 0) for seed in range(1, runs + 1)])
    print(f"{bench.name}: {shown.total()}; by plain lots: {lots.total()}", flush=True)
    yield f"{bench.name} reaches its bins", None if share(shown) >= bench.least(runs) else f"not {', '.join(shown.missed)}"
    yield f"{bench.name} by plain lots", None if share(lots) < bench.least(runs) else f"it is as good: {lots.total()}"
    yield from left_out(bench, shown)


def share(shown: Shown) -> float:
    """How many per cent were reached."""
    return 100 * (1 - len(shown.missed) / len(shown.counts))


def left_out(bench: Testbench, shown: Shown) -> Iterator[Case]:
    """The bins that a file without.lines leaves out: each of its lines has some, where what they need was observed."""
    needs = {it.name for it in shown.groups if it.bins} | {name.partition("/")[0] for it in shown.withouts for name in it.bins}
    for it in shown.withouts:
        hit = [name for name in it.bins if shown.cover.bins[name].count]
        is_there = it.bins or it.pattern.partition("/")[0] not in needs
        yield f"{bench.name} without {it.pattern}", f"reached are {hit}" if hit else None if is_there else "there is no such bin"
    count = sum(len(it.bins) for it in shown.withouts)
    yield f"how many {bench.name} can't reach", None if count <= MOST_WITHOUT else str(count)


def cases(given: argparse.Namespace) -> Iterator[Case]:
    simulator, score = run.installed(), str(given.score)
    yield from reached(python(given.bridge), given.runs, score)
    with tempfile.TemporaryDirectory() as folder:
        if simulator:
            yield from reached(rtl(simulator, Path(folder)), given.runs, score)
        else:
            print(f"skipped: what the bridge in RTL reaches, as neither {' nor '.join(run.SIMULATORS)} is installed")
        if shutil.which("iverilog") and any(map(shutil.which, BROWSERS)):
            yield from pictured("coverage", COLOURS, 200, 1.1, Path(folder), TLSCORE=score)
        else:
            print("skipped: the picture of what runs reached: Chromium and iverilog aren't both installed")


if __name__ == "__main__":
    words = asked(__doc__, "score", "bridge")
    words.add_argument("--runs", type=int, default=WHOLE // 10, help=f"how many runs of each ({WHOLE // 10})")
    sys.exit(told(cases(words.parse_args())))
