"""What judging costs in a simulation, three ways in turn: the testbench of examples/testbench/rtl under Verilator with no monitor, with
the monitor that prints lines and tlscore behind a pipe, and with the scoreboard in the process, by both profiles. Each way simulates the
same seeds. It prints a table of medians, of the time on the clock and of processor time. It isn't part of ./test.

    python3 tests/in_process_times.py TLSCORE [--runs N] [--seeds N] [--library FOLDER]
"""

import argparse
import os
import resource
import statistics
import subprocess
import sys
import tempfile
import time
from pathlib import Path
from typing import Callable, Dict, List, Tuple

from in_process_rtl import MODULES, TOP
from simulators import built, run

Times = Tuple[float, float]  # on the clock, and of processors
REQUESTS = 20_000  # more than the testbench lets each client make before it ends


def made(name: str, folder: Path, library: Path, monitor: Path, modules: List[Path]) -> Path:
    """The right bridge with a monitor, and with these modules too, as fast as Verilator makes it."""
    room = folder / name
    room.mkdir()
    files = [str(monitor) if it == "monitor.sv" else it for it in run.FILES]
    words = ["verilator", "--binary", "--timing", "-O3", "-Wno-fatal", *run.Bench("bridge", run.Asked()).defines]
    words += ["--top-module", "testbench", "-Mdir", str(room), "-o", "bench", *files, *map(str, modules)]
    built([*words, *([str(library / "libzuldegei.a")] if modules else [])], run.HERE, name)
    return room / "bench"


def without_body(folder: Path) -> Path:
    """The monitor without what it does: its head and its end."""
    text = (run.HERE / "monitor.sv").read_text()
    path = folder / "no_monitor.sv"
    path.write_text(f"{text[: text.index(');') + 3]}endmodule\n")
    return path


def timed(work: Callable[[], None]) -> Times:
    """How long work takes that is done by processes which it waits for."""
    before, began = resource.getrusage(resource.RUSAGE_CHILDREN), time.monotonic()
    work()
    after = resource.getrusage(resource.RUSAGE_CHILDREN)
    return time.monotonic() - began, after.ru_utime + after.ru_stime - before.ru_utime - before.ru_stime


def ways(folder: Path, library: Path, given: argparse.Namespace) -> Dict[str, Callable[[], None]]:
    """Each way by its name: a loop over the seeds."""
    bare = made("none", folder, library, without_body(folder), [])
    prints = made("lines", folder, library, run.HERE / "monitor.sv", [])
    judges = made("inside", folder, library, without_body(folder), MODULES)
    os.mkfifo(folder / "pipe")

    def each(command: str) -> Callable[[], None]:
        loop = f"for seed in $(seq {given.seeds}); do {command}; done"
        return lambda: subprocess.run(["sh", "-ec", loop], cwd=folder, stdout=subprocess.DEVNULL, check=True)

    asked = f"+seed=$seed +requests={REQUESTS} +corners=0"
    found = {"no monitor": each(f"{bare} {asked}"), "lines to a file": each(f"{prints} {asked} +observed=seen")}
    for profile in run.PROFILES:
        (folder / profile).write_text(run.Asked(profile).setup)
        piped = f"cat {profile} pipe | {given.score} >told & {prints} {asked} +observed=pipe && wait"
        found[f"lines to tlscore, profile {profile}"] = each(piped)
        found[f"in the process, profile {profile}"] = each(f"{judges} {asked} +zuldegei_setup={profile}")
    return found


def main() -> int:
    asked = argparse.ArgumentParser(description=__doc__)
    asked.add_argument("score", metavar="TLSCORE", type=lambda it: Path(it).resolve())
    asked.add_argument("--runs", type=int, default=7, help="how many of each (7)")
    asked.add_argument("--seeds", type=int, default=10, help="how many simulations make one run (10)")
    asked.add_argument("--library", default=TOP / "out", help="where libzuldegei.a stands (out)")
    given = asked.parse_args()
    with tempfile.TemporaryDirectory() as room:
        folder = Path(room)
        found = ways(folder, Path(given.library).resolve(), given)
        times: Dict[str, List[Times]] = {name: [] for name in found}
        for _ in range(given.runs):
            for name, work in found.items():
                times[name].append(timed(work))
        beats = sum(not it.startswith("time") for it in (folder / "seen").read_text().splitlines())
    print(f"{given.seeds} simulations of some {beats} beats; medians of {given.runs} runs, in seconds")
    print(f"{'':38} {'clock':>6} {'processor':>9}")
    for name, taken in times.items():
        print(f"{name:38} {statistics.median(it[0] for it in taken):6.2f} {statistics.median(it[1] for it in taken):9.2f}")
    return 0


if __name__ == "__main__":
    sys.exit(main())
