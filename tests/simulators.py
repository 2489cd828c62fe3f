"""Testbenches, made by Icarus or Verilator, and their runs (for all that simulate)."""

import subprocess
import sys
from pathlib import Path
from typing import Iterable, List, NamedTuple

from ends import TOP

sys.dont_write_bytecode = True
sys.path += [str(TOP / "examples/testbench/rtl"), str(TOP / "python")]
import run  # noqa: E402

SYSTEMVERILOG = TOP / "interfaces/systemverilog"
QUICK = ["OPT_FAST=-O0", "OPT_SLOW=-O0", "OPT_GLOBAL=-O0"]  # it is made in less time than it would save


class Simulated(NamedTuple):
    """A run: its status, what it printed, and the lines of the monitor that prints them."""

    status: int
    text: str
    lines: str


def built(words: List[str], folder: Path, what: str) -> None:
    """Calls what makes something in a folder, and ends the test where that can't be made."""
    ran = subprocess.run(words, cwd=folder, capture_output=True, text=True, timeout=900, check=False)
    if ran.returncode:
        raise SystemExit(f"{what}: {ran.stdout[-1000:]}{ran.stderr[-1000:]}")


def by_icarus(program: Path, top: str, files: Iterable[object], *words: str) -> List[str]:
    """Has Icarus make a testbench; gives the words that run it."""
    built(["iverilog", "-g2012", *words, "-s", top, "-o", str(program), *map(str, files)], run.HERE, str(program))
    return ["vvp", "-n", str(program)]


def by_verilator(folder: Path, top: str, files: Iterable[object], *words: str, is_strict: bool = False) -> Path:
    """Has Verilator make a testbench in a folder, where it is strict also without a warning; gives the program."""
    made = ["verilator", "--binary", "--timing", *([] if is_strict else ["-Wno-fatal"]), "-MAKEFLAGS", " ".join(QUICK), *words]
    built([*made, "--top-module", top, "-Mdir", str(folder), "-o", "bench", *map(str, files)], run.HERE, str(folder))
    return folder / "bench"


def started(bench: Path, *words: object) -> Simulated:
    """A run by its words, of whose lines nobody asks."""
    pipe = subprocess.PIPE
    ran = subprocess.run([bench, *words], cwd=bench.parent, stdout=pipe, stderr=subprocess.STDOUT, text=True, timeout=300, check=False)
    return Simulated(ran.returncode, ran.stdout, "")
