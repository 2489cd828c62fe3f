"""What a step of the model costs in C, beside the same steps by the library's own calls: workloads of crates/benches, in turn in one run,
each timed by the processor's time of a run less that of an empty one. It prints a table of the best of each. It isn't part of ./test.

    python3 tests/bridge_process_times.py BENCHES [--runs N] [--times N] [--library FOLDER]

BENCHES is the program that `rt run benches` builds, crates/benches/out/benches.
"""

import argparse
import os
import subprocess
import sys
import tempfile
from pathlib import Path

from c_programs import TOP, compiled

WORKLOADS = (("requests", 64), ("requests", 1), ("drains", 64), ("drains", 1))


def seconds(*words):
    """The processor's time of a run."""
    with subprocess.Popen(words, stdout=subprocess.DEVNULL) as run:
        usage = os.wait4(run.pid, 0)[2]
        run.returncode = 0
    return usage.ru_utime + usage.ru_stime


def row(benches, inside, name, size, given):
    times = str(max(1, given.times // size))
    steps = int(subprocess.run([inside, name, str(size), times], capture_output=True, text=True, check=True).stdout.split()[1])
    best = {}
    for _ in range(given.runs):
        for program in (benches, inside):
            took = seconds(program, name, str(size), times) - seconds(program, name, str(size), "0")
            best[program] = min(took, best.get(program, took))
    own, c = (1e9 * best[it] / steps for it in (benches, inside))
    print(f"| `{name}`, {size} at once | {own:.0f} | {c:.0f} | {c / own:.2f} | {1e3 / c:.1f} |", flush=True)


def main():
    asked = argparse.ArgumentParser(description=__doc__)
    asked.add_argument("benches")
    asked.add_argument("--runs", type=int, default=15, help="how many runs of each (15)")
    asked.add_argument("--times", type=int, default=1_000_000, help="how many requests in each (1,000,000)")
    asked.add_argument("--library", help="where libzuldegei.a stands (out)")
    given = asked.parse_args()
    with tempfile.TemporaryDirectory() as room:
        library = Path(given.library or TOP / "out").resolve()
        inside = compiled("times", TOP / "tests/bridge_process_times.c", folder=Path(room), library=library)
        print("| workload | ns a step, the library's own | ns a step in C | ratio | million steps a second in C |\n|---|---|---|---|---|")
        for name, size in WORKLOADS:
            row(str(Path(given.benches).resolve()), str(inside), name, size, given)
    return 0


if __name__ == "__main__":
    sys.exit(main())
