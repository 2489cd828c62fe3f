"""Proves and builds a program, or a static library, and the crates that it stands on, side by side where none stands on another.

    python3 .ci/build.py PROGRAM
    python3 .ci/build.py --ahead PROGRAM ..     builds nothing, and says how long all of these would take

It is called at the top of the repository, and prints what rt does. rt locks a crate and all below it, so each is built in a copy
of the tree in out/build, and what it gives is taken from there. A crate that was built of the sources as they are isn't built
again, so that a build which was stopped goes on there. On standard error it says first how long it will take, and which ways need no
proof, then how far it is and how long the rest will take, by what each crate took before: the table .ci/seconds, and out/seconds,
which it writes.
"""

import hashlib
import os
import shutil
import subprocess
import sys
import time
from concurrent.futures import FIRST_COMPLETED, ThreadPoolExecutor, wait
from pathlib import Path

ROOM, LANES, TABLES = Path("out/build"), len(os.sched_getaffinity(0)), (Path(".ci/seconds"), Path("out/seconds"))
# The ways to a program, and to the library, that need no proof.
OTHER_WAYS = "an archive needs no proof (docs/INSTALL.md); ./{0} --unproved .. answers in a minute or two, and proves nothing"
OTHER_WAY = "an archive has the library, and needs no proof (docs/INSTALL.md)"


class Crate:
    """A crate of this repository, with those that it stands on, the lowest first."""

    def __init__(self, line, below, is_last, seconds):
        self.line, self.name, self.below, self.seconds, self.began = line, line.split(":")[0].split()[0], below, seconds, None
        self.folder, self.copy, self.stamp = Path("crates", self.name), ROOM / self.name, ROOM / f"{self.name}.sum"
        is_static = "staticlib" in line.split(":")[0].split()
        self.is_static, self.words = is_static, ["rt", "run" if is_last and not is_static else "lib"]
        self.result = self.folder / "out" / (f"lib{self.name}.a" if is_static else self.name if is_last else "rlib")
        self.made = self.result if is_last else ROOM / f"{self.name}.rlib"
        self.is_built = not is_last and self.made.exists() and self.stamp.exists() and self.stamp.read_text() == self.sum()

    def sum(self):
        """The checksum of the sources that it is built from."""
        found = (it for crate in (*self.below, self) for it in crate.folder.rglob("*"))
        files = sorted(it for it in found if it.suffix in (".rt", ".antt") and "out" not in it.parts)
        lines = "".join(f"{it.line}\n" for it in (*self.below, self)).encode()
        return hashlib.sha256(lines + b"".join(b"%b\0%b\0" % (bytes(it), it.read_bytes()) for it in files)).hexdigest()

    def build(self):
        """Builds it in a copy of its own, with the libraries that stand there; gives what rt prints, and whether it is built."""
        sum = self.sum()
        shutil.rmtree(self.copy, ignore_errors=True)
        for crate in (*self.below, self):
            shutil.copytree(crate.folder, self.copy / crate.folder, ignore=shutil.ignore_patterns("out"))
        for crate in self.below:
            shutil.copytree(crate.made, self.copy / crate.result, copy_function=os.link)
        (self.copy / "crates.txt").write_text("".join(f"{it.line}\n" for it in (*self.below, self)))
        if Path("HANDLES").exists():
            shutil.copy("HANDLES", self.copy)
        given = self.copy / self.folder / "stdin"
        with open(given if given.exists() else os.devnull, "rb") as stdin:
            ran = subprocess.run(self.words, cwd=given.parent, stdin=stdin, stdout=subprocess.PIPE, stderr=subprocess.STDOUT)
        is_made = ran.returncode == 0 and (self.copy / self.result).exists()
        if is_made:
            self.made.parent.mkdir(exist_ok=True)
            shutil.rmtree(self.made, ignore_errors=True)
            (self.copy / self.result).replace(self.made)
            self.stamp.write_text(sum)
            shutil.rmtree(self.copy)
        return ran.stdout, is_made

    def begins(self):
        self.began = time.monotonic()

    def ends(self, is_made):
        """Notes that it is built, and how long it took. It is noted by the thread that says how far all is."""
        if is_made:
            self.is_built, self.seconds = True, time.monotonic() - self.began


def seconds_in(table):
    """How long each crate took, by a table; there may be none."""
    lines = table.read_text().splitlines() if table.exists() else []
    return {name: float(seconds) for name, seconds in map(str.split, lines)}


def crates_of(*programs):
    """Programs and each crate that they stand on, the lowest first, in whatever order the list names them."""
    lines = [line for line in Path("crates.txt").read_text().splitlines() if line and not line.startswith("#")]
    listed, crates = {line.split(":")[0].split()[0]: line for line in lines}, {}
    known = {name: seconds for table in TABLES for name, seconds in seconds_in(table).items()}

    def put_behind_those_below(name):
        below = [it for it in listed[name].split(":")[1].split() if it in listed]
        for it in below:
            if it not in crates:
                put_behind_those_below(it)
        lowest_first = [crate for crate in crates.values() if crate.name in below]
        crates[name] = Crate(listed[name], lowest_first, name in programs, known.get(name, 30.0))

    for name in programs:
        put_behind_those_below(name)
    return [*crates.values()]


def chains(crates, scale):
    """How many seconds are left of each crate and the longest chain of those that wait for it, and of all one after another."""
    chain, total = {}, 0
    for crate in reversed(crates):
        spent = time.monotonic() - crate.began if crate.began else 0
        left = 0 if crate.is_built else max(crate.seconds * scale - spent, 1)
        chain[crate], total = left + max((chain[it] for it in chain if crate in it.below), default=0), total + left
    return chain, total


def minutes(chain, total):
    """How long is left, by the chains and by all of it: as the longest chain takes, or as all takes side by side."""
    return max(*chain.values(), total / LANES) / 60


def counted(number, name):
    return f"{number} {name}{'' if number == 1 else 's'}"


def ahead(names, crates):
    """What is to be proved and built for some programs, how long that takes, and by what that is known."""
    left = [it for it in crates if not it.is_built]
    here = seconds_in(TABLES[1])
    source = "what they took here before" if all(it.name in here for it in left) else "the table .ci/seconds"
    took = f"some {max(minutes(*chains(crates, 1)), 1):.0f} min on {counted(LANES, 'processor')}, by {source}"
    return f"{', '.join(names)}: {counted(len(left), 'crate')} to prove and build first, which takes {took}"


def build(program, crates):
    """Builds all, first the crate that the longest chain waits for; gives the one that couldn't be built, if there is one."""
    before, running = {it: it.seconds for it in crates}, {}
    with ThreadPoolExecutor(LANES) as pool:
        while not all(it.is_built for it in crates):
            done = [it for it in crates if it.is_built and it.began]
            chain, total = chains(crates, sum(it.seconds for it in done) / sum(before[it] for it in done) if done else 1)
            waits = [it for it in crates if not it.began and not it.is_built and all(below.is_built for below in it.below)]
            for crate in sorted(waits, key=chain.get, reverse=True)[: LANES - len(running)]:
                crate.begins()
                running[pool.submit(crate.build)] = crate
            number, names = sum(it.is_built for it in crates), ", ".join(it.name for it in running.values())
            told(f"{program}: {number} of {len(crates)} built, {minutes(chain, total):.0f} min to go; now {names}")
            for ended in wait(running, return_when=FIRST_COMPLETED).done:
                crate = running.pop(ended)
                printed, is_made = ended.result()
                crate.ends(is_made)
                sys.stdout.buffer.write(printed)
                if not is_made:
                    return crate
    return None


def told(line):
    print(line, file=sys.stderr, flush=True)


def main(program):
    ROOM.mkdir(parents=True, exist_ok=True)
    crates = crates_of(program)
    told(ahead([program], crates))
    told(f"{program}: {OTHER_WAY if crates[-1].is_static else OTHER_WAYS.format(program)}")
    try:
        failed = build(program, crates)
    except KeyboardInterrupt:
        told(f"{program}: the build was stopped; the next call goes on there")
        return 130
    finally:
        TABLES[1].write_text("".join(f"{it.name} {max(it.seconds, 1):.0f}\n" for it in crates))
    print(f"{failed.name} wasn't proved and built" if failed else f"{program} is built")
    return 1 if failed else 0


if __name__ == "__main__":
    if sys.argv[1] == "--ahead":
        sys.exit(told(ahead(sys.argv[2:], crates_of(*sys.argv[2:]))))
    sys.exit(main(sys.argv[1]))
