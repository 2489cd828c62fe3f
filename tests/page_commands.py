"""Runs the commands that README.md, docs/TESTBENCH.md, docs/COVERAGE.md, docs/STIMULUS.md, python/README.md and interfaces/README.md show, each block of
`shell` in turn at the top of the repository, those of README.md in a folder that is laid out as an unpacked archive, and compares what
they print, and the last status, with the block of `printed` behind it. A block that needs a program which isn't installed, or the library
where it isn't built, is left out, and named. (Those of docs/INSTALL.md are tried by installed.py, in an archive, as are those of README.md
once more.)

    python3 tests/page_commands.py TLSCORE
"""

import os
import re
import shutil
import subprocess
import sys
import tempfile
from itertools import zip_longest
from pathlib import Path
from typing import Iterator, Optional

from ends import TOP, Case, told

PAGES = ("README.md", "docs/TESTBENCH.md", "docs/COVERAGE.md", "docs/STIMULUS.md", "python/README.md", "interfaces/README.md")
BLOCK = re.compile(r"(?ms)^```shell\n(.*?)^```\n\n```printed (\d+)\n(.*?)^```$")
SHOWN = re.compile(r"(?m)^```shell$")
TOOLS = ("waves", "fill", "explain", "wave-of", "times", "regress", "cover", "stimulus")
NEEDED = ("iverilog", "verilator", "fst2vcd", "vcd2fst", "cc", "chromium")  # of Debian, where a block names one
NEEDS_LIBRARY = re.compile(r"libzuldegei|inside/bench|import .*(?:Scoreboard|Bridge)")


def installed(folder: Path, score: str) -> dict:
    """An environment in which the commands of the package, and this scoreboard, are on PATH."""
    (folder / "tlscore").symlink_to(score)
    for tool in TOOLS:
        script = folder / f"zuldegei-{tool}"
        script.write_text(f'#!/bin/sh\nexec "{sys.executable}" -m zuldegei.{tool.replace("-", "_")} "$@"\n')
        script.chmod(0o755)
    path = f"{folder}:{os.environ['PATH']}"
    return {**os.environ, "PATH": path, "PYTHONPATH": str(TOP / "python"), "PYTHONDONTWRITEBYTECODE": "1", "COLUMNS": "100"}


def unpacked(folder: Path, tools: Path) -> Path:
    """A folder in which programs and pages stand as they do in an archive."""
    (folder / "share/doc").mkdir(parents=True)
    (folder / "bin").symlink_to(tools)
    (folder / "share/doc/zuldegei").symlink_to(TOP)
    return folder


def absent(commands: str) -> Optional[str]:
    """What commands need that isn't there."""
    lacking = [it for it in NEEDED if re.search(rf"\b{it}\b", commands) and not shutil.which(it)]
    if lacking:
        return f"{' and '.join(lacking)} isn't installed"
    is_built = all((TOP / f"out/libzuldegei.{kind}").exists() for kind in ("a", "so"))
    return None if is_built or not NEEDS_LIBRARY.search(commands) else "the library isn't built"


def differs(commands: str, status: int, printed: str, environment: dict, folder: Path = TOP) -> Optional[str]:
    """How commands don't print what their page shows."""
    ran = subprocess.run(
        ["sh", "-c", commands], cwd=folder, env=environment, stdout=subprocess.PIPE, stderr=subprocess.STDOUT, text=True, timeout=300
    )  # fmt: skip
    if ran.stdout != printed:
        both = zip_longest(ran.stdout.splitlines(), printed.splitlines(), fillvalue="(nothing)")
        return next((f"line {at} is {got!r}, not {due!r}" for at, (got, due) in enumerate(both, 1) if got != due), "a line's end")
    return None if ran.returncode == status else f"status {ran.returncode}, not {status}"


def cases(score: str) -> Iterator[Case]:
    (TOP / "out").mkdir(exist_ok=True)
    with tempfile.TemporaryDirectory() as folder, tempfile.TemporaryDirectory() as room:
        environment, archive = installed(Path(folder), score), unpacked(Path(room), Path(folder))
        for page in PAGES:
            text = (TOP / page).read_text()
            blocks = BLOCK.findall(text)
            is_whole = blocks and len(blocks) == len(SHOWN.findall(text))
            yield f"the commands of {page}", None if is_whole else "a block isn't followed by what it prints"
            for number, (commands, status, printed) in enumerate(blocks, 1):
                lacking = absent(commands)
                if lacking:
                    print(f"skipped: block {number} of {page} and what rests on it, as {lacking}")
                    if NEEDS_LIBRARY.search(commands):
                        continue  # nothing rests on it
                    break
                place = archive if page == "README.md" else TOP
                yield f"block {number} of {page}", differs(commands, int(status), printed, environment, place)


if __name__ == "__main__":
    sys.exit(told(cases(str(Path(sys.argv[1]).resolve()))))
