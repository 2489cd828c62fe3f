"""The monitor and the predictor of interfaces/systemverilog on observations by hand, which testbenches don't bring about: resets in
mid-run, data ahead of their address, busy sources, noise in lanes that tell nothing. What the monitor tells has to be what tlscore finds
wrong of the same lines. What the predictor has to tell stands beside its lines. And the free memory by hand: strobes, narrow bursts, errors, and resets in
the midst of bursts. Where Verilator isn't installed that is said, and nothing is tried.

    python3 tests/played.py TLSCORE [--library FOLDER]
"""

import re
import sys
import tempfile
from pathlib import Path
from typing import Iterator, Optional

from ends import Case, asked, is_there, told
from in_process_rtl import NO_LIMIT, TOLD, TOP
from simulators import SYSTEMVERILOG, by_verilator, run, started
from stored import observations
from systemc import AT_PORTS, END, by_hand, parts

FILES = [SYSTEMVERILOG / f"zuldegei_{it}.sv" for it in ("pkg", "reply_pkg", "monitor", "predictor")]
PREDICTED = re.compile(r"%Error: .*zuldegei: (.*)$|^zuldegei: (= predicted .*)$", re.M)
ENDLESS = AT_PORTS / "predictor/a-get.lines"


def bench(folder: Path, *files: Path) -> Path:
    """A testbench, in a folder of its own."""
    return by_verilator(Path(tempfile.mkdtemp(dir=folder)), "testbench", files)


def played(program: Path, setup: str, lines: str, *words: str) -> str:
    """What is printed of lines that are played, of which `= end` says that all should be quiet then."""
    folder, end = program.parent, ["+zuldegei_end"] if END in lines else []
    (folder / "setup.lines").write_text(setup)
    (folder / "played.lines").write_text(lines.replace(END, ""))
    return started(program, f"+zuldegei_setup={folder / 'setup.lines'}", f"+played={folder / 'played.lines'}", NO_LIMIT, *end, *words).text


def judged(program: Path, score: Path) -> Iterator[Case]:
    """What the monitor tells, and how it says that the run ended."""
    for name, setup, given, lines in by_hand():
        text, due = played(program, setup, given), TOLD.findall(run.judged(score, setup, lines))
        got, wrong = TOLD.findall(text), int(due[-1].split()[4])
        how = f"the run failed: {wrong} wrong" if wrong else "the run is right" if " judged 0 " not in due[-1] else "nothing was judged"
        is_well = got == due and f"zuldegei: {how} (TOP.testbench.scoreboard)" in text.splitlines() and "no beat" not in text
        yield f"the monitor: {name}", None if is_well else f"it tells {got}, and not {due}: {text[-300:]!r}"


def foretold(program: Path) -> Iterator[Case]:
    """What the predictor tells; the same where the last line of the set-up has no end."""
    for path in observations(AT_PORTS / "predictor"):
        setup, lines = parts(path)
        yield f"the predictor: {path.stem}", untold(played(program, setup, lines, "+predicts"), path)
    text = played(program, parts(ENDLESS)[0].rstrip("\n"), parts(ENDLESS)[1], "+predicts")
    yield "the predictor: a set-up whose last line has no end", untold(text, ENDLESS)


def untold(text: str, path: Path) -> Optional[str]:
    """How what is printed isn't what the predictor has to tell of what is played."""
    due, got = path.with_suffix(".foretold").read_text().splitlines(), [first or second for first, second in PREDICTED.findall(text)]
    return None if got == due and "no beat" not in text else f"it tells {got}, and not {due}: {text[-300:]!r}"


def memory(program: Path) -> Iterator[Case]:
    """What the free memory keeps and answers."""
    ran = started(program)
    lines = [it for it in ran.text.splitlines() if not it.startswith("- ")]
    yield "the free memory", None if lines == ["looked at 2702"] and ran.status == 0 else f"status {ran.status}, {len(lines)} lines: {lines[:3]}"


def cases(score: Path, library: Path) -> Iterator[Case]:
    if not is_there("the monitor and the predictor by hand", "verilator"):
        return
    with tempfile.TemporaryDirectory() as folder:
        program = bench(Path(folder), *FILES, library / "libzuldegei.a", TOP / "tests/played.sv")
        yield from judged(program, score)
        yield from foretold(program)
        yield from memory(bench(Path(folder), SYSTEMVERILOG / "zuldegei_axi_memory.sv", TOP / "tests/free_memory.sv"))


if __name__ == "__main__":
    given = asked(__doc__, "score", over_library=True).parse_args()
    sys.exit(told(cases(given.score, given.library)))
