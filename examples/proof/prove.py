"""Looks for the shortest way to an assertion that fails, by yosys and ABC, and writes it as a VCD.

    python3 prove.py [--depth N] [--seconds N] [--define NAME=VALUE] [--top MODULE] [--clock NAME] [--out FOLDER] FILE ..

The files are Verilog that yosys reads, among them zuldegei_rules.sv; all inputs of the top module but its clock are free, as far as its
assumptions allow. ABC looks at one clock after the other, up to so many; it says which assertion fails first, by the path of its label, and
FOLDER/broken.vcd shows the wires up to there, and a clock more. How long it took is on standard error. Statuses: 0 nothing fails, as far as it says; 1 an assertion fails; 2 words that can't be;
3 a program couldn't do its work; 4 yosys or ABC isn't installed. yosys 0.23 and ABC are Debian's `yosys` and `berkeley-abc`.
"""

import argparse
import re
import shutil
import subprocess
import sys
import time
from pathlib import Path
from typing import List, NamedTuple, NoReturn

# Elaborates the design into model.il, which is played, and model.aig, which is solved.
ELABORATE = """
read_verilog -sv -formal {defines} {files}
prep -top {top} -flatten
memory_map
async2sync
opt -full
write_rtlil model.il
setundef -undriven -anyseq
opt -fast
techmap
opt -fast
dffunmap
aigmap
opt_clean
write_aiger -zinit -map model.aim model.aig
"""
SOLVE = "read_aiger model.aig; fold; strash; print_stats; bmc3 -F {depth} -T {seconds}; write_cex -a broken.aiw"
PLAY = "read_rtlil model.il; sim -r broken.aiw -map model.aim -clock {clock} -vcd broken.vcd {top}"
SIZE = re.compile(r"i/o = *(\d+)/.*lat = *(\d+) .*and = *(\d+)")
BROKEN = re.compile(r"was asserted in frame (\d+)")
KEPT = re.compile(r"No output asserted in (\d+) frames")
CYCLE, FAILED = re.compile(r"Simulating cycle (\d+)"), re.compile(r"Assert \w+\.(\S+) .* failed")


class Found(NamedTuple):
    """How many clocks were looked at, and which assertions fail in the last of them."""

    clocks: int
    labels: List[str]


def end(status: int, why: str) -> NoReturn:
    print(f"prove: {why}", file=sys.stderr)
    sys.exit(status)


def solver() -> str:
    """The program of ABC, as Debian or as yosys names it."""
    found = next((it for it in ("berkeley-abc", "yosys-abc") if shutil.which(it)), None)
    return found if found and shutil.which("yosys") else end(4, "yosys or berkeley-abc isn't installed")


def ran(words: List[str], folder: Path) -> str:
    """What a program prints, which has to end well."""
    done = subprocess.run(words, cwd=folder, stdout=subprocess.PIPE, stderr=subprocess.STDOUT, text=True, check=False)
    return done.stdout if done.returncode == 0 else end(3, f"{words[0]} ended with status {done.returncode}: {done.stdout[-2000:]}")


def elaborate(given: argparse.Namespace) -> None:
    began = time.monotonic()
    files, defines = " ".join(str(it.resolve()) for it in given.files), " ".join(f"-D{it}" for it in given.define)
    (given.out / "model.ys").write_text(ELABORATE.format(files=files, defines=defines, top=given.top))
    ran(["yosys", "-q", "model.ys"], given.out)
    print(f"elaborated in {time.monotonic() - began:.0f} s", file=sys.stderr, flush=True)


def solve(given: argparse.Namespace, program: str) -> Found:
    """Looks at one clock after the other."""
    (given.out / "broken.aiw").unlink(missing_ok=True)
    began = time.monotonic()
    text = ran([program, "-c", SOLVE.format(depth=given.depth, seconds=given.seconds)], given.out)
    size, broken, kept = SIZE.search(text), BROKEN.search(text), KEPT.search(text)
    if not size or not (broken or kept):
        end(3, f"{program} doesn't say what it found: {text[-2000:]}")
    print(f"solved in {time.monotonic() - began:.1f} s: {size[1]} inputs, {size[2]} registers, {size[3]} gates", file=sys.stderr)
    return Found(int(broken[1]) + 1, played(given)) if broken else Found(int(kept[1]), [])


def played(given: argparse.Namespace) -> List[str]:
    """Plays what ABC found, and a clock more, so that the last beats are in the dump; gives the labels that fail in the last clock."""
    witness = given.out / "broken.aiw"
    lines = [it for it in (line.partition("#")[0] for line in witness.read_text().splitlines()) if it]
    witness.write_text("\n".join([*lines, lines[-1]]) + "\n")
    text = ran(["yosys", "-p", PLAY.format(clock=given.clock, top=given.top)], given.out)
    cycles = CYCLE.split(text)
    last = dict(zip(cycles[1::2], cycles[2::2])).get(str(len(lines) - 2), "")
    return sorted({*FAILED.findall(last)}) or end(3, f"yosys finds no assertion that fails where ABC does: {text[-2000:]}")


def words() -> argparse.Namespace:
    asked = argparse.ArgumentParser(description=__doc__, formatter_class=argparse.RawDescriptionHelpFormatter)
    asked.add_argument("files", nargs="+", type=Path, metavar="FILE")
    asked.add_argument("--depth", type=int, default=12, help="how many clocks are looked at, that of the reset among them (12)")
    asked.add_argument("--seconds", type=int, default=600, help="for how long ABC looks (600)")
    asked.add_argument("--define", action="append", default=[], metavar="NAME=VALUE")
    asked.add_argument("--top", default="proof")
    asked.add_argument("--clock", default="clock")
    asked.add_argument("--out", type=Path, default=Path("out"))
    return asked.parse_args()


def main() -> int:
    given, program = words(), solver()
    given.out.mkdir(parents=True, exist_ok=True)
    elaborate(given)
    found = solve(given, program)
    if not found.labels:
        print(f"= nothing is broken in {found.clocks} clocks")
        return 0
    print(f"= broken in clock {found.clocks}: {' '.join(found.labels)}")
    return 1


if __name__ == "__main__":
    sys.exit(main())
