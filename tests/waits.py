"""How long beats wait for ready, on wires by hand (tests/waits.sv): what the monitor of examples/testbench/rtl prints by each simulator
that is installed, what zuldegei-waves reads from a dump of the same wires, and what the monitor in the process writes under Verilator is
said here line by line, and tlscore judges it as the run was judged, also where the run is stopped. A file that can't be written ends the
run at its begin. What zuldegei-cover, zuldegei-times, zuldegei-explain and zuldegei-wave-of make of such lines. A simulator that isn't
installed is named.

    python3 tests/waits.py TLSCORE [--library FOLDER]
"""

import json
import re
import shutil
import subprocess
import sys
import tempfile
from pathlib import Path
from typing import Iterator, List, Tuple

from ends import Case, asked, is_there, told, unlike
from in_process_rtl import ABORTED, NO_LIMIT, TOLD, TOP
from package import command
from simulators import SYSTEMVERILOG, Simulated, by_icarus, by_verilator, run, started

MONITOR, WIRES = TOP / "examples/testbench/rtl/monitor.sv", TOP / "tests/waits.sv"
JUDGES = [SYSTEMVERILOG / f"zuldegei_{it}.sv" for it in ("pkg", "monitor")]
# What passes by the tables of waits.sv, behind a set-up. The Get of client 1 is withdrawn once, and waits anew behind that; W data come ahead
# of their AW; and a request that waits ahead of a reset is offered anew behind it.
SETUP, LINES = re.split(r"(?m)^(?=time 35$)", (TOP / "tests/waits.lines").read_text())
WITHOUT = re.sub(r"(?m)^waited .*\n", "", LINES)
LAST = "D 0 1 0 3 5 0 0000000000000000 0\n"
WRONG = LAST.replace("0 0\n", "1 0\n")
RIGHT_END = "= judged 11 wrong 0 outstanding 0 open 0 compared 16 of 16"
WRONG_TOLD = f"= wrong 32 reply 7 PAYLOAD expected {LAST.strip()} at 175"
WRONG_END = RIGHT_END.replace("wrong 0", "wrong 1")
# Bins of the group `wait`, with how often they are reached and in which line first.
BINS = ("A0/0 1 30", "A0/2-7 1 7", "A1/1 1 10", "AW/1 1 13", "W/1 1 16", "AR/0 1 18", "B/2-7 1 20", "R/1 1 23", "D0/0 1 32", "D0/1 1 25", "D1/0 1 27")
# Commands, and what each is given of a run.
COMMANDS = {"explain": ("lines", "told"), "wave_of": ("lines", "told", "vcd")}
# What zuldegei-times has of them.
WAITED = (TOP / "tests/waits.tables").read_text()


def judged(score: Path, text: str) -> List[str]:
    """What tlscore tells of an observation."""
    return TOLD.findall(subprocess.run([score], input=text, capture_output=True, text=True).stdout)


def printed(words: List[str], folder: Path, *more: str) -> str:
    """What the monitor prints in a run."""
    seen = folder / "seen.lines"
    run.simulated([*words, f"+observed={seen}", *more])
    return seen.read_text()


def by_print(name: str, words: List[str], folder: Path) -> Iterator[Case]:
    """The monitor that prints, with waits and without; and a dump of the same wires."""
    yield f"lines by {name}", unlike(printed(words, folder, "+waits", f"+dump={folder / 'run.vcd'}"), LINES)
    yield f"lines by {name}, without waits", unlike(printed(words, folder), WITHOUT)
    shutil.copy(TOP / "tests/waits.map", folder / "ports.map")
    for said, due in (((), WITHOUT), (("--waits",), LINES)):
        ran = command("waves", folder / "ports.map", folder / "run.vcd", *said)
        yield f"a dump by {name}, {said}", unlike((ran.returncode, ran.stdout), (0, due))


def in_icarus() -> Iterator[Case]:
    if not is_there("waits by Icarus", "iverilog"):
        return
    with tempfile.TemporaryDirectory() as room:
        yield from by_print("Icarus", by_icarus(Path(room, "bench.vvp"), "testbench", (WIRES, MONITOR)), Path(room))


def bench(folder: Path, library: Path) -> Path:
    """The wires with both monitors under Verilator."""
    return by_verilator(folder, "testbench", (*JUDGES, MONITOR, WIRES, library / "libzuldegei.a"), "--trace", "-DJUDGES")


def written(program: Path, *words: str) -> Tuple[Simulated, str]:
    """A run whose monitor in the process writes what it judges."""
    setup, seen = program.parent / "setup.lines", program.parent / "written.lines"
    setup.write_text(SETUP.rstrip("\n"))
    ran = started(program, f"+zuldegei_setup={setup}", f"+zuldegei_observed={seen}", f"+observed={program.parent / 'seen.lines'}", *words)
    return ran, seen.read_text()


def in_verilator(score: Path, library: Path) -> Iterator[Case]:
    if not is_there("waits by Verilator", "verilator"):
        return
    with tempfile.TemporaryDirectory() as room:
        program = bench(Path(room), library)
        setup = Path(room) / "setup.lines"
        setup.write_text(SETUP)
        yield from by_print("Verilator", [str(program), f"+zuldegei_setup={setup}"], Path(room))
        yield from in_process(score, program)
        yield from refused(program)


def in_process(score: Path, program: Path) -> Iterator[Case]:
    """What the monitor in the process writes, of a run that is right, of one that is wrong, and where that is stopped."""
    ran, text = written(program)
    yield "what is written", unlike(text, f"{SETUP}{LINES}")
    yield "what is written is judged as the run", unlike((ran.status, TOLD.findall(ran.text), judged(score, text)), (0, [RIGHT_END], [RIGHT_END]))
    ran, text = written(program, "+zuldegei_end")
    yield "what is written with its end", unlike((TOLD.findall(ran.text), text, judged(score, text)), ([RIGHT_END], f"{SETUP}{LINES}= end\n", [RIGHT_END]))
    wrong = f"{SETUP}{LINES.removesuffix(LAST)}{WRONG}"
    ran, text = written(program, "+wrong", NO_LIMIT)
    due = [WRONG_TOLD, WRONG_END]
    yield "a wrong run", unlike((ran.status, TOLD.findall(ran.text), text, judged(score, text)), (1, due, wrong, due))
    for name, words, status in (("stopped", ["+zuldegei_stop=1", NO_LIMIT], 1), ("ended by Verilator", [], ABORTED)):
        ran, text = written(program, "+wrong", "+zuldegei_end", *words)
        yield f"a wrong run that is {name}", unlike((ran.status, TOLD.findall(ran.text)[0], text, judged(score, text)), (status, due[0], wrong, due))


def refused(program: Path) -> Iterator[Case]:
    """Files that nobody can write."""
    setup = program.parent / "setup.lines"
    for word, why in (("=no/such.lines", "no/such.lines can't be written"), ("=", "the file of +zuldegei_observed= can't be written")):
        ran = started(program, f"+zuldegei_setup={setup}", f"+zuldegei_observed{word}", NO_LIMIT)
        last = f"zuldegei: the run failed: {why} (TOP.testbench.scoreboard)"
        yield f"the file {word}", unlike((ran.status, ran.text.splitlines()[-1]), (1, last))


def made(name: str, folder: Path, of: str, words: Tuple[str, ...]) -> Tuple[int, str]:
    """The status of a command, and what it prints and writes."""
    ran = command(name, *(folder / f"{of}.{word}" for word in words))
    vcd = folder / f"{of}.vcd"
    return ran.returncode, ran.stdout + (vcd.read_text() if "vcd" in words else "")


def by_command(score: Path) -> Iterator[Case]:
    """What tlscore and the commands make of the lines: they pass over waits as over comments, but for zuldegei-cover and zuldegei-times."""
    wrong = f"{SETUP}{LINES.removesuffix(LAST)}{WRONG}"
    with tempfile.TemporaryDirectory() as room:
        folder = Path(room)
        for name, text in (("waits", wrong), ("comments", re.sub("(?m)^waited", "# waited", wrong))):
            (folder / f"{name}.lines").write_text(text)
            (folder / f"{name}.told").write_text("".join(f"{it}\n" for it in judged(score, text)))
        yield "waits beside comments, by tlscore", unlike(*((folder / f"{it}.told").read_text() for it in ("waits", "comments")))
        for name, words in COMMANDS.items():
            yield f"zuldegei-{name}", unlike(*(made(name, folder, it, words) for it in ("waits", "comments")))
        told, without = (made("times", folder, it, ("lines",)) for it in ("waits", "comments"))
        yield "zuldegei-times", unlike((told[0], re.sub(" +", " ", WAITED) in re.sub(" +", " ", told[1])), (0, True))
        yield "zuldegei-times without waits", unlike((without[0], "waited" in without[1]), (0, False))
        ran = command("cover", folder / "waits.lines", "--json", folder / "waits.json")
        bins = json.loads((folder / "waits.json").read_text())["bins"].items()
        found = [f"{name[5:]} {it[0]} {it[2]}" for name, it in bins if name.startswith("wait/") and it[0]]
        yield "bins of waits", unlike((ran.returncode, sorted(found)), (0, sorted(BINS)))


def cases(score: Path, library: Path) -> Iterator[Case]:
    yield from by_command(score)
    yield from in_icarus()
    yield from in_verilator(score, library)


if __name__ == "__main__":
    given = asked(__doc__, "score", over_library=True).parse_args()
    sys.exit(told(cases(given.score, given.library)))
