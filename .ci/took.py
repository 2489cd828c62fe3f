"""Runs a part of ./test, and notes what it took of a processor and of the clock in out/took, by its kind.

    python3 .ci/took.py KIND COMMAND..      runs the command and ends as it does; `proofs` is the kind of rt ci
    python3 .ci/took.py --ahead             prints how long ./test will take, by .ci/took, where that is there
    python3 .ci/took.py --told              prints what all parts took together, by kind
    python3 .ci/took.py --keep              makes .ci/took and .ci/seconds from what a whole ./test anew noted

How ./test is called stands at the head of out/took.

Of `proofs` the proofs of tests and what rt ci tries of wrong bodies are told apart by looking at its processes, and out/seconds says
for how long each crate was being proved, by which .ci/build.py tells how long a build will take. What isn't proved anew keeps its
number there.
"""

import argparse
import os
import re
import resource
import subprocess
import sys
import time
from pathlib import Path
from typing import Dict, Iterator, List, NamedTuple, Optional, Tuple

TOOK, KEPT, SECONDS, EVERY = Path("out/took"), Path(".ci/took"), Path("out/seconds"), 2.0
# How ./test begins TOOK where it takes nothing that was kept, and where it tries the programs alone.
ANEW, PROGRAMS = "# ./test anew", "# ./test program"
# What KEPT says of the machine on which it was made, and how many processors that had where it says nothing.
MACHINE, PROCESSORS = re.compile(r"(?m)^# on (\d+) processors?$"), 4
TICK = os.sysconf("SC_CLK_TCK")
KINDS = ("proofs", "tests", "wrong bodies", "programs")
# How the folders are named in which rt ci checks copies of a crate: each with a wrong body, and the one that these begin with.
COPIES = "rt-edit-"


class Process(NamedTuple):
    """A process of the prover: its number with its start, its kind, the crate that it proves (of a crate alone), and its seconds."""

    key: Tuple[str, str]
    kind: str
    crate: Optional[str]
    seconds: float


def is_below(process: Path, parent: str) -> bool:
    """Whether a process was begun by another, or by one that it began."""
    number = process.name
    while number not in ("0", "1", parent):
        number = Path("/proc", number, "stat").read_text().rpartition(")")[2].split()[1]
    return number == parent


def read(process: Path) -> Optional[Process]:
    """A process, where it is the prover's and this one began it. rt ci checks wrong bodies over copies of a crate."""
    words = (process / "cmdline").read_bytes().split(b"\0")
    if b"--crate-name" not in words or not {b"build", b"check"} & {*words} or not is_below(process, str(os.getpid())):
        return None
    is_copy = (process / "cwd").resolve().name.startswith(COPIES)
    kind = "wrong bodies" if is_copy else "tests" if b"--test" in words else "proofs"
    stat = (process / "stat").read_text().rpartition(")")[2].split()
    crate = words[words.index(b"--crate-name") + 1].decode() if kind == "proofs" else None
    return Process((process.name, stat[19]), kind, crate, (int(stat[11]) + int(stat[12])) / TICK)


def seen() -> Iterator[Process]:
    for process in Path("/proc").glob("[0-9]*"):
        try:
            found = read(process)
        except (OSError, ValueError, IndexError):
            continue  # it has ended, or isn't ours to look at
        if found:
            yield found


class Watch:
    """What was seen of the prover: the processor seconds of each process, by kind, and for how long each crate was being proved."""

    def __init__(self) -> None:
        self.processes: Dict[Tuple[str, str], Process] = {}
        self.crates: Dict[str, float] = {}

    def look(self, passed: float) -> None:
        found = [*seen()]
        self.processes.update((it.key, it) for it in found)
        for name in {it.crate for it in found if it.crate}:
            self.crates[name] = self.crates.get(name, 0) + passed

    def seconds(self, kind: str) -> float:
        return sum(it.seconds for it in self.processes.values() if it.kind == kind)

    def note_crates(self) -> None:
        known = dict(line.split() for line in SECONDS.read_text().splitlines()) if SECONDS.exists() else {}
        known.update((name, f"{took:.0f}") for name, took in self.crates.items())
        SECONDS.write_text("".join(f"{name} {took}\n" for name, took in known.items()))


def run(kind: str, command: List[str]) -> int:
    """Runs a command and notes what it took; gives its status."""
    watch, began = Watch(), time.monotonic()
    TOOK.parent.mkdir(exist_ok=True)
    TOOK.touch()
    print(f"== {' '.join(Path(it).name for it in command[:2])}, after {sums(TOOK)[1]:.0f}{of_whole()} minutes", flush=True)
    with subprocess.Popen(command) as ran:
        last = began
        while kind == "proofs" and ran.poll() is None:
            time.sleep(EVERY)
            now = time.monotonic()
            watch.look(now - last)
            last = now
        status = ran.wait()
    used = resource.getrusage(resource.RUSAGE_CHILDREN)
    whole, clock = used.ru_utime + used.ru_stime, time.monotonic() - began
    apart = {it: watch.seconds(it) for it in KINDS if it != kind}
    with TOOK.open("a") as file:
        file.write(f"{whole - sum(apart.values()):.0f} {clock:.0f} {kind}\n")
        file.writelines(f"{it:.0f} 0 {name}\n" for name, it in apart.items() if it)
    if watch.crates:
        watch.note_crates()
    return status if status >= 0 else 1


def sums(file: Path) -> Tuple[Dict[str, float], float]:
    """The processor minutes by kind, and the minutes of the clock."""
    rows = [line.split(maxsplit=2) for line in file.read_text().splitlines() if not line.startswith("#")]
    minutes = {kind: sum(float(it[0]) for it in rows if it[2] == kind) / 60 for kind in KINDS}
    return minutes, sum(float(it[1]) for it in rows) / 60


def told(file: Path = TOOK) -> str:
    minutes, taken = sums(file)
    kinds = ", ".join(f"{kind} {it:.0f}" for kind, it in minutes.items() if it >= 0.5)
    return f"{sum(minutes.values()):.0f} processor minutes, {taken:.0f} of the clock: {kinds}"


def processors() -> int:
    """How many processors this process may use: those of the machine, or fewer where it was given some of them alone."""
    return len(os.sched_getaffinity(0))


def clock(lanes: int) -> float:
    """How many minutes a whole test takes on so many processors, by KEPT. What ran alone there takes as long here, the rest is shared."""
    kinds, taken = sums(KEPT)
    whole, machine = sum(kinds.values()), MACHINE.search(KEPT.read_text())
    there = int(machine[1]) if machine else PROCESSORS
    alone = max((there * taken - whole) / (there - 1), 0) if there > 1 else 0
    return alone + (whole - alone) / lanes


def called() -> str:
    """How ./test was called."""
    return TOOK.read_text().partition("\n")[0].strip() if TOOK.exists() else ""


def of_whole() -> str:
    """How long the whole of it takes, where that is known: who doesn't prove anew has most of it kept, unless it is the first time."""
    if not KEPT.exists() or called() == PROGRAMS:
        return ""
    return f" of {'' if called() == ANEW else 'at most '}some {clock(processors()):.0f}"


def ahead() -> Optional[str]:
    """How long ./test will take, where KEPT is there."""
    if not KEPT.exists():
        return None
    kinds, here = sums(KEPT)[0], processors()
    if called() == PROGRAMS:
        return f"./test program takes some {kinds['programs']:.0f} minutes"
    whole = f"some {clock(here):.0f} minutes on {here} processor{'s' if here > 1 else ''} ({sum(kinds.values()):.0f} processor minutes)"
    return f"./test anew takes {whole}" if called() == ANEW else f"./test takes {whole} where nothing was proved yet, and else less"


def keep() -> int:
    """Puts the tables of a whole run to the files that are kept. They have to have each crate."""
    names = [line.split(":")[0].split()[0] for line in Path("crates.txt").read_text().splitlines() if line and line[0] != "#"]
    known = dict(line.split() for line in SECONDS.read_text().splitlines())
    lacking = [it for it in names if it not in known] + [it for it in KINDS if not sums(TOOK)[0][it]]
    if ANEW not in TOOK.read_text().splitlines() or lacking:
        print(f"no whole ./test anew was noted here: {', '.join(lacking) or 'it took what was kept'}", file=sys.stderr)
        return 1
    Path(".ci/seconds").write_text("".join(f"{it} {known[it]}\n" for it in sorted(names)))
    minutes, taken = sums(TOOK)
    rows = (f"{60 * it:.0f} {60 * taken if kind == 'proofs' else 0:.0f} {kind}\n" for kind, it in minutes.items())
    KEPT.write_text("".join([f"# on {processors()} processors\n", *rows]))
    print(told())
    return 0


def main() -> int:
    words = argparse.ArgumentParser(description=__doc__, formatter_class=argparse.RawDescriptionHelpFormatter)
    words.add_argument("--ahead", action="store_true")
    words.add_argument("--told", action="store_true")
    words.add_argument("--keep", action="store_true")
    words.add_argument("kind", nargs="?", choices=KINDS)
    words.add_argument("command", nargs=argparse.REMAINDER)
    given = words.parse_args()
    if given.keep:
        return keep()
    if given.ahead or given.told:
        print(told() if given.told else ahead() or "how long it takes isn't known: .ci/took isn't there")
        return 0
    return run(given.kind, given.command)


if __name__ == "__main__":
    sys.exit(main())
