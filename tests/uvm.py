"""The recorder for UVM over stand-ins for the classes of UVM that it needs. Under Verilator it gets the beats of stored runs, those of a time
in another order. Over a stand-in for the library it hands over the lines that the monitor printed, tells what is found wrong by `uvm_error,
and by `uvm_fatal what ends the run; over the library, where it is built, its verdicts are the stored ones. UVM itself isn't tried, since no
simulator of Debian reads it.

    python3 tests/uvm.py [--library FOLDER]
"""

import os
import re
import subprocess
import sys
import tempfile
from pathlib import Path
from typing import Iterator, List, Tuple

from ends import TOP, Case, asked, is_there, told
from package import RTL
from simulators import SYSTEMVERILOG, built, by_verilator

FILES = (SYSTEMVERILOG / "zuldegei_pkg.sv", TOP / "tests/uvm_pkg.sv", SYSTEMVERILOG / "zuldegei_uvm.sv", TOP / "tests/uvm.sv")
RUNS = ("answered-early", "cut-short", "page-crossed")
SETUP = ("config", "region", "page", "bad", "profile", "errors", "axi", "x", "fill")


def made(folder: Path, library: Path) -> Path:
    """The recorder with its stand-ins, over a library."""
    return by_verilator(folder, "uvm", (*FILES, library), f"-I{TOP / 'tests'}")


def recorded(bench: Path, words: List[str], wrong: str = "") -> str:
    """What a run printed."""
    environment = {**os.environ, **({"WRONG": wrong} if wrong else {})}
    ran = subprocess.run([bench, *words], cwd=bench.parent, env=environment, stdout=subprocess.PIPE, text=True, timeout=120, check=False)
    return ran.stdout


def in_time(lines: List[str]) -> Iterator[str]:
    """Beats as they passed: the monitor prints a W beat behind its AW, with its own time ahead of it."""
    timed, now = [], 0
    for it in lines:
        now = int(it.split()[1]) if it.startswith("time ") else now
        timed += [] if it.startswith("time ") else [(now, it)]
    for time, it in sorted(timed, key=lambda both: both[0]):
        yield from (f"time {time}", it)


def laid_out(name: str, room: Path) -> Tuple[List[str], List[str]]:
    """The set-up of a stored run, and what was observed, which are put into files too."""
    lines = (RTL / f"runs/{name}.lines").read_text().splitlines()
    setup = [it for it in lines if it.split()[:1] and it.split()[0] in SETUP]
    beats = [it for it in lines if it not in setup and not it.startswith("#")]
    (room / "setup.lines").write_text("".join(f"{it}\n" for it in setup))
    (room / "run.lines").write_text("".join(f"{it}\n" for it in in_time(beats)))
    return setup, beats


def judged(bench: Path, name: str) -> Iterator[Case]:
    """The verdict of a stored run, but for the numbers of its lines."""
    laid_out(name, bench.parent)
    printed = recorded(bench, ["+setup=setup.lines", "+run=run.lines"])
    due = re.sub(r"(?m)^= wrong \d+", "= wrong", (RTL / f"runs/{name}.told").read_text()).splitlines()
    found = [re.sub(r"= wrong \d+", "= wrong", it) for it in re.findall(r"(?m)^(?:error|info) ZULDEGEI: (.*)$", printed)]
    yield f"{name}, its verdict", None if found == due else f"{found}, not {due}"


def of_run(bench: Path, name: str) -> Iterator[Case]:
    """A stored run: its lines, and the one that the stand-in finds wrong."""
    room = bench.parent
    setup, beats = laid_out(name, room)
    wrong = next(it for it in beats if it.startswith("D "))
    printed = recorded(bench, ["+setup=setup.lines", "+observed=seen.lines", "+run=run.lines"], wrong)
    due = [*setup, *(it for it in beats if it != "= end"), "= end"]
    seen = (room / "seen.lines").read_text().splitlines()
    at = next((number for number, both in enumerate(zip(seen, due)) if both[0] != both[1]), min(len(seen), len(due)))
    yield f"{name}, its lines", None if seen == due else f"line {at + 1} of {len(seen)} and {len(due)}: {seen[at : at + 1]}, not {due[at : at + 1]}"
    count = beats.index(wrong) + 1
    counted = len(due) - len(setup)
    is_told = f"error ZULDEGEI: = wrong {count} reply 7 PAYLOAD\n" in printed and printed.count("error ") == 1
    is_told = is_told and f"info ZULDEGEI: = judged {counted} wrong 1 outstanding 0 open 0 " in printed
    yield f"{name}, what is wrong", None if is_told else printed[-300:]


def cases(library: Path) -> Iterator[Case]:
    if not is_there("the recorder for UVM", "verilator", "cc"):
        return
    with tempfile.TemporaryDirectory() as folder:
        stand_in = Path(folder) / "stand_in.o"
        built(["cc", "-std=c99", "-c", "-o", str(stand_in), str(TOP / "tests/uvm.c")], TOP, "the stand-in for the library")
        bench = made(Path(folder), stand_in)
        for name in RUNS:
            yield from of_run(bench, name)
        (Path(folder) / "odd.lines").write_text("region 0 1 1 g---\n")
        for name, words, said in (
            ("a set-up that isn't there", ["+setup=none.lines"], "fatal ZULDEGEI: none.lines can't be read"),
            ("a set-up that is refused", ["+setup=odd.lines"], "fatal ZULDEGEI: no scoreboard: script fault: line 1, word 1 (-1001)"),
            ("a folder that isn't there", ["+setup=setup.lines", "+observed=none/x"], "fatal ZULDEGEI: none/x can't be written"),
        ):
            printed = recorded(bench, [*words, "+run=run.lines"])
            yield name, None if said in printed else printed[-300:]
    if not library.exists():
        print(f"skipped: the recorder over the library, as {library} isn't built")
        return
    with tempfile.TemporaryDirectory() as folder:
        bench = made(Path(folder), library)
        for name in RUNS:
            yield from judged(bench, name)


if __name__ == "__main__":
    sys.exit(told(cases(asked(__doc__, over_library=True).parse_args().library / "libzuldegei.a")))
