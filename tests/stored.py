"""Cases that are kept as files: what is given, and beside it what has to come of it (tests/histories/README.md says how).

NAME.lines is an observation, of which tlscore says NAME.told; NAME.script is a script of tlbridge, by `check` or `threads` where NAME begins
with that word, and else by `run`, with NAME.trace. NAME.fault is the line on standard error, where there is one. NAME.ends has ends of an
input, each a block of lines: comments, which say what it is, lines that are given behind those of NAME.lines or NAME.script, if that is
there, and behind arrows what is printed, the line on standard error last.

A file of `words`, `calls` or `commands` has cases by such blocks too: behind `#` what a case is, what is given, and behind an arrow what
has to come of it (the README.md of its folder says what each of them is).
"""

import re
import shlex
from enum import IntEnum
from pathlib import Path
from subprocess import CompletedProcess
from typing import Dict, Iterator, List, NamedTuple, Optional, Type

from ends import TOP, unlike

TEXT = {".lines": ".told", ".script": ".trace"}
# The status of a fault, and what a text has that ends with status 1, by the word of a run: what is found wrong, or refused.
FAULTS = {b"script": 2, b"set-up": 2, b"thread": 5}
FOUND = {"score": re.compile(rb"(?m)^= wrong "), "check": re.compile(rb"(?m)^= (refused|noclient)\b")}


class Case(NamedTuple):
    """The word of a run, which is `score` for tlscore, what is given, and how the run ends."""

    name: str
    word: str
    given: bytes
    status: int
    text: bytes
    line: bytes


def word_of(file: Path) -> str:
    """By which word what a file gives is tried."""
    if file.suffix == ".lines":
        return "score"
    return next((it for it in ("check", "threads") if file.stem.startswith(it)), "run")


def case_of(name: str, word: str, given: bytes, text: bytes, line: bytes) -> Case:
    """A case with its status."""
    found = FOUND.get(word)
    return Case(name, word, given, FAULTS[line.split()[0]] if line else int(bool(found and found.search(text))), text, line)


def whole(file: Path) -> Case:
    """The case of a file, and of those beside it."""
    text, fault = file.with_suffix(TEXT[file.suffix]), file.with_suffix(".fault")
    line = fault.read_bytes() if fault.exists() else b""
    return case_of(str(file.relative_to(TOP)), word_of(file), file.read_bytes(), text.read_bytes(), line)


def end(name: str, word: str, before: bytes, block: List[str]) -> Case:
    """The case of a block of a file of ends."""
    comments = [it[2:] for it in block if it.startswith("# ")]
    given = [it for it in block if not it.startswith(("# ", "-> "))]
    printed = [f"{it[3:]}\n".encode() for it in block if it.startswith("-> ")]
    line = printed.pop() if printed and b" fault: " in printed[-1] else b""
    return case_of(f"{name}: {' '.join(comments)}", word, before + "".join(f"{it}\n" for it in given).encode(), b"".join(printed), line)


def ends(file: Path, kind: str) -> Iterator[Case]:
    """Each end of a file of them."""
    before = file.with_suffix(kind)
    given = before.read_bytes() if before.exists() else b""
    for block in file.read_text().strip().split("\n\n"):
        yield end(str(file.relative_to(TOP)), word_of(before), given, block.splitlines())


def cases(folder: Path, kind: str) -> Iterator[Case]:
    """Each case of a folder of observations or of scripts, those in its folders too."""
    for file in sorted(folder.rglob("*")):
        if file.suffix == kind:
            yield whole(file)
        elif file.suffix == ".ends":
            yield from ends(file, kind)


def unread(folder: Path, kind: str) -> Optional[str]:
    """Which files of a folder no case reads, or that there is no case."""
    files = [it for it in folder.rglob("*") if it.is_file() and it.name != "README.md"]
    read = {it.with_suffix(end) for it in files if it.suffix == kind for end in (kind, TEXT[kind], ".fault")}
    odd = sorted(it.name for it in files if it not in read and it.suffix != ".ends")
    return f"no case reads {', '.join(odd)}" if odd else None if read else "there is no case"


def observations(folder: Path) -> List[Path]:
    """The observations of a folder, of which there are some."""
    found = sorted(folder.glob("*.lines"))
    if not found:
        raise FileNotFoundError(f"{folder} has no observation")
    return found


class Block(NamedTuple):
    """A case that is some lines of a file: what it is, what is given, and behind an arrow what has to come of it."""

    name: str
    given: str
    due: str

    @property
    def words(self) -> List[bytes]:
        """The words of a call, as a shell takes them, in quotes also bytes by their numbers."""
        return [it.encode().decode("unicode_escape").encode("latin-1") for it in shlex.split(self.given)]

    def one_line(self, ran: "CompletedProcess[str]", name: str) -> Optional[str]:
        """How a call of a command, by its name, doesn't end with the status that is due, and one line that has what is due behind it."""
        status, _, said = self.due.partition(" ")
        is_well = ran.returncode == int(status) and ran.stderr.startswith(f"{name}: ") and said in ran.stderr and ran.stderr.count("\n") == 1
        return None if is_well else f"status {ran.returncode}, {ran.stderr[-300:]!r}"

    def refused(self, names: Dict[str, object], error: Type[Exception], statuses: Type[IntEnum]) -> Optional[str]:
        """How a call in Python, among these names, doesn't raise an error with the status and the text that are due."""
        status, _, text = self.due.partition(": ")
        try:
            return f"it gave {eval(self.given, names)!r}"
        except error as why:
            return unlike((why.status, str(why)), (eval(status, dict(statuses.__members__)), text))
        except Exception as why:
            return f"it raised {type(why).__name__}: {why}"


def blocks(file: Path) -> Iterator[Block]:
    """The cases of a file of them. One that isn't named is so by what is given."""
    for block in file.read_text().strip().split("\n\n"):
        lines = block.splitlines()
        names, due = ([it.removeprefix(mark) for it in lines if it.startswith(mark)] for mark in ("# ", "-> "))
        given = "\n".join(it for it in lines if not it.startswith(("# ", "-> ")))
        yield Block("".join(names) or given, given, "\n".join(due))


def scripts() -> Iterator[Case]:
    """Each script of the examples and each worked row."""
    for folder in ("examples", "tests/rows"):
        yield from cases(TOP / folder, ".script")
