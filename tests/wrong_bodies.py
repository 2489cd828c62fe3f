"""Tries the wrong bodies crates/NAME/wrong-bodies/*.edit (body_edits.py reads them): the prover has to refuse each. Those of
different functions are tried in one check, a round, since a function is proved from its own body and the contracts of what it calls.

    python3 tests/wrong_bodies.py [NAME..] [--anew] [--jobs N] [--as-built] [--folder FOLDER] [--top FOLDER] [--prover FILE]

In a round a wrong body passes by which a goal of a function that it changes is refused, where no goal of a function that none changes
is. What a round doesn't settle is tried alone; there any function's goal counts, where the crate as it is has been proved. So is one
that changes more than bodies. A wrong body fails that is proved, that is refused only because a proof names what it takes away, that
doesn't compile, that meets a limit at which the prover gives no verdict, or whose check was killed or couldn't be made.

A round asks only for the functions that it changes and those that they call. It goes on over what the rounds before it kept, and the
first one begins with what `rt check` left in the crate's out/incremental, but for --anew. That the crates as they are are proved is for
rt ci to say, behind which this is run: with --as-built over the libraries that rt ci left, else over those of `rt lib`.
What was told is kept in out/wrong_bodies.json, by the checksum of all that was read, and not tried again, but for --anew.
"""

import argparse
import hashlib
import json
import os
import re
import shutil
import subprocess
import sys
import tempfile
import time
from concurrent.futures import ThreadPoolExecutor, as_completed
from dataclasses import dataclass
from enum import Enum
from pathlib import Path
from typing import Dict, Iterable, Iterator, List, NamedTuple, Optional, Tuple

import body_edits
from body_edits import Edit, Unusable

PARTS = ("src", "specs", "proofs")
# What isn't passed of what is checked: its name and why. A hole is another's goal, and no refusal.
NOT_PASSED = re.compile(r"^(?:fn|impl|struct|enum) (\S+): (?!(?:proved|no holes|assumed|depends on a hole)\b)(.*)", re.M)
# What the prover says of a proof that names what isn't there.
NAMES = re.compile(r"has no field|is not in scope|has no `|was not admitted|is no name")
# Where a source can't be compiled.
UNREADABLE = re.compile(r"error\[[\w-]+\]: .*(?:\n.*?)??(src/[\w/]+\.rt):(\d+)|(src/[\w/]+\.rt):(\d+):\d+: error")
LAST = re.compile(r"(?:only=\d+ )?holes=\d+")
# The status with which the prover ends that gives no verdict.
NO_VERDICT = 3


class Verdict(Enum):
    REFUSED = "refused"
    PROVED = "NOT REFUSED"
    NAMES = "NOT REFUSED, but only named by a proof"
    LIMIT = "NOT REFUSED, but by a limit of the prover"
    UNREADABLE = "BAD: it doesn't compile"
    UNTRIED = "NOT TRIED"


class Told(NamedTuple):
    """What was told of a wrong body, and where or why."""

    verdict: Verdict
    why: str = ""

    def line(self) -> str:
        return f"{self.verdict.value}: {self.why}" if self.why else self.verdict.value


@dataclass(frozen=True)
class Said:
    """What the prover said of a copy of a crate, and its status."""

    text: str
    status: int

    def last(self) -> str:
        return self.text.rstrip("\n").rpartition("\n")[2]

    def is_whole(self) -> bool:
        """Whether the check went to its end, so that what it doesn't refuse it takes."""
        return self.status in (0, 1) and bool(LAST.match(self.last()))

    def unreadable(self) -> Optional[Tuple[body_edits.Place, str]]:
        """The line of a source that can't be compiled, if that is how the check ended, and what was said of it."""
        found = UNREADABLE.search(self.text) if self.status == 1 and not self.is_whole() else None
        return (body_edits.Place(found[1] or found[3], int(found[2] or found[4]) - 1), found[0][:120]) if found else None

    def goals(self, name: str, why: str) -> Tuple[List[str], List[str]]:
        """The goals of a function that aren't proved, and what else its proof's files are refused for: names."""
        folder = re.escape("/".join(name.split("::")[1:]))
        errors = re.findall(rf"^(?:\./)?proofs/{folder}/\w+\.antt:\S+ error: (.*)", self.text, re.M)
        open_goals = [it for it in errors if not NAMES.search(it)] + re.findall(r"`search` did not prove `.*", why)
        return open_goals, [it for it in errors if NAMES.search(it)]

    def refusals(self) -> Iterator[Tuple[str, Told]]:
        """Each function that is refused by itself, and what is told of it; none that only stands on another."""
        for name, why in NOT_PASSED.findall(self.text):
            goals, names = self.goals(name, why)
            if goals:
                yield name, Told(Verdict.REFUSED, f"{name}: {goals[0][:120]}")
            elif "could not tell" in why:
                yield name, Told(Verdict.LIMIT, name)
            elif names and "it calls" not in why:
                yield name, Told(Verdict.NAMES, name)


@dataclass(frozen=True)
class Tools:
    """The prover, its folder of libraries, and the tree whose crates are tried."""

    top: Path
    kit: Path
    prover: Path


@dataclass(frozen=True)
class Crate:
    """A crate, with its words in crates.txt and the libraries that it stands on: of this tree and of the kit."""

    tools: Tools
    name: str
    words: Tuple[str, ...]
    own: Tuple[str, ...]
    of_kit: Tuple[str, ...]

    @property
    def folder(self) -> Path:
        return self.tools.top / "crates" / self.name

    def libraries(self) -> List[Path]:
        crates, kit = self.tools.top / "crates", self.tools.kit
        return [kit / f"rlibs/{it}.rlib" for it in ("std", *self.of_kit)] + [crates / f"{it}/out/rlib/{it}.rlib" for it in self.own]

    def sum(self) -> str:
        """The checksum of all that a check of it reads, and of what tells of it."""
        files = sorted(it for part in PARTS for it in (self.folder / part).rglob("*") if it.is_file())
        files += [it / "format" for it in self.libraries()] + [self.tools.kit / "KIT-ID", Path(__file__), Path(body_edits.__file__)]
        read = [(str(it.relative_to(self.tools.top)) if self.tools.top in it.parents else it.name, it.read_bytes()) for it in files]
        return hashlib.sha256(repr((self.words, read)).encode()).hexdigest()

    def command(self, work: Path, only: Iterable[str]) -> List[str]:
        root = "src/main.rt" if (self.folder / "src/main.rt").is_file() else "src/lib.rt"
        words = [str(self.tools.prover), "check", "--crate-name", self.name, root, "--allow-holes", "--jobs", "1"]
        words += ["--incremental", str(work), *(it for path in only for it in ("--only", path))]
        for it in self.libraries():
            words += ["--extern", f"{it.stem}={it}", "-L", f"dependency={it.parent}"]
        kit = self.tools.kit
        words += ["--antt-project", f"{kit}/rattle/logic/antt-project.json", "--logic-built", f"{kit}/logic_built", "--links", f"{self.name}="]
        return words + (["--crate-type", "staticlib"] if "staticlib" in self.words else [])

    def check(self, edits: Iterable[Edit], work: Path, only: Iterable[str] = ()) -> Said:
        """Has a copy with these wrong bodies checked over what the folder work keeps: all of it, or some functions and what they call."""
        with tempfile.TemporaryDirectory(prefix="wrong-bodies-") as room:
            for part in (it for it in PARTS if (self.folder / it).is_dir()):
                shutil.copytree(self.folder / part, f"{room}/{part}")
            for place, line in (it for edit in edits for it in edit.lines.items()):
                file = Path(room, place.file)
                lines = file.read_text().split("\n")
                file.write_text("\n".join([*lines[: place.line], line, *lines[place.line + 1 :]]))
            out = {"stdin": subprocess.DEVNULL, "stdout": subprocess.PIPE, "stderr": subprocess.STDOUT}
            ran = subprocess.run(self.command(work, only), cwd=room, text=True, errors="replace", check=False, **out)
        return Said(ran.stdout, ran.returncode)


def next_round(edits: List[Edit]) -> Tuple[List[Edit], List[Edit]]:
    """As many as can be tried in one check, at most one of each function, and the others. One that is tried alone is a round of its own."""
    chosen: List[Edit] = []
    left: List[Edit] = []
    for edit in sorted(edits, key=lambda it: (it.is_alone, it.name)):
        meets = any(edit.is_alone or it.is_alone or edit.functions & it.functions for it in chosen)
        (left if meets else chosen).append(edit)
    return chosen, left


class Round(NamedTuple):
    """What the check of a round tells, and whether it is void, so that it says nothing of the others."""

    told: Dict[Edit, Told]
    is_void: bool


def of_round(edits: List[Edit], said: Said) -> Round:
    """A round is void whose check didn't go to its end, or refused a function that none of its wrong bodies changes."""
    place = said.unreadable()
    if place:
        return Round({it: Told(Verdict.UNREADABLE, place[1]) for it in edits if place[0] in it.lines}, True)
    found = [(next((it for it in edits if it.owns(name)), None), told) for name, told in said.refusals()]
    if not said.is_whole() or any(edit is None for edit, _ in found):
        return Round({}, True)
    told: Dict[Edit, Told] = {}
    for edit, it in found:
        if it.verdict is Verdict.REFUSED:
            told.setdefault(edit, it)
    return Round(told, False)


def of_one(said: Said) -> Told:
    """What the check of one wrong body alone tells, where the crate as it is is proved."""
    place = said.unreadable()
    if place:
        return Told(Verdict.UNREADABLE, place[1])
    if not said.is_whole() and said.status != NO_VERDICT:
        return Told(Verdict.UNTRIED, f"its check ended with status {said.status}: {said.last()[:120]}")
    told = [it for _, it in said.refusals()]
    told += [Told(Verdict.LIMIT, said.last()[:120])] if said.status == NO_VERDICT else []
    wanted = (Verdict.REFUSED, Verdict.LIMIT, Verdict.NAMES)
    return next((it for verdict in wanted for it in told if it.verdict is verdict), Told(Verdict.PROVED))


class Rounds:
    """The rounds of a crate, over a folder that keeps what was proved from one to the next."""

    def __init__(self, crate: Crate, work: Path):
        self.crate, self.work = crate, work
        self.told: Dict[Edit, Told] = {}
        self.lacks: Optional[str] = None

    def together(self, edits: List[Edit]) -> None:
        """Tries a round, and then what it doesn't settle."""
        only = sorted({it.path for edit in edits for it in edit.functions})
        told, is_void = of_round(edits, self.crate.check(edits, self.work, only))
        self.told.update(told)
        left, half = [it for it in edits if it not in told], len(edits) // 2
        if not is_void or half == 0:
            self.alone(left)
        else:
            for part in [left] if told else [edits[:half], edits[half:]]:
                self.together(part)

    def lacking(self) -> str:
        """How the crate as it is isn't proved, if it isn't."""
        if self.lacks is None:
            said = self.crate.check([], self.work)
            self.lacks = f"the crate as it is isn't proved: {said.last()[:120]}" if said.status else ""
        return self.lacks

    def alone(self, edits: List[Edit]) -> None:
        for edit in edits:
            lacks = self.lacking()
            self.told[edit] = Told(Verdict.UNTRIED, lacks) if lacks else of_one(self.crate.check([edit], self.work))

    def run(self, edits: List[Edit]) -> Dict[Edit, Told]:
        left = edits
        while left:
            chosen, left = next_round(left)
            (self.alone if chosen[0].is_alone else self.together)(chosen)
        return self.told


def tried(crate: Crate, edits: List[Edit], is_anew: bool) -> Tuple[Dict[Edit, Told], float]:
    """What is told of the wrong bodies of a crate, begun with what `rt check` kept, but where all is tried anew; and the seconds."""
    kept, began = crate.folder / "out/incremental", time.monotonic()
    with tempfile.TemporaryDirectory(prefix="wrong-bodies-work-") as work:
        if kept.is_dir() and not is_anew:
            shutil.copytree(kept, work, dirs_exist_ok=True)
        return Rounds(crate, Path(work)).run(edits), time.monotonic() - began


class Kept:
    """What was told of wrong bodies, by the checksum of all that was read."""

    def __init__(self, file: Path, is_anew: bool):
        self.file = file
        self.told: Dict[str, List[str]] = json.loads(file.read_text()) if file.is_file() and not is_anew else {}

    def find(self, name: str) -> Optional[Told]:
        return Told(Verdict[self.told[name][0]], self.told[name][1]) if name in self.told else None

    def keep(self, name: str, told: Told) -> None:
        if told.verdict is not Verdict.UNTRIED:
            self.told[name] = [told.verdict.name, told.why]

    def write(self) -> None:
        self.file.parent.mkdir(exist_ok=True)
        self.file.write_text(json.dumps(self.told, indent=0))


class Task:
    """The wrong bodies of a crate: what is known of each, and which are to be tried."""

    def __init__(self, crate: Crate, folder: str, kept: Kept):
        self.crate, self.kept, self.told, self.names, self.edits = crate, kept, {}, {}, []
        files = sorted((crate.folder / folder).glob("*"))
        try:
            self.before = crate.sum() if files else ""
        except OSError as why:  # a library that isn't built, say
            self.told.update((it.stem, Told(Verdict.UNTRIED, f"{why.filename} can't be read")) for it in files)
            return
        for file in files:
            self.read(file)

    def read(self, file: Path) -> None:
        try:
            if file.suffix != ".edit":
                raise Unusable("its name doesn't end in .edit")
            edit = body_edits.read(self.crate.folder, file)
        except (OSError, ValueError, Unusable) as why:
            self.told[file.stem] = Told(Verdict.UNTRIED, str(why))
            return
        self.names[edit] = hashlib.sha256((self.before + edit.text).encode()).hexdigest()
        found = self.kept.find(self.names[edit])
        if found:
            self.told[edit.name] = found
        else:
            self.edits.append(edit)

    def weight(self) -> int:
        """About how long it takes, for those that take longest to begin first."""
        return len(self.edits) * sum(it.stat().st_size for it in (self.crate.folder / "proofs").rglob("*.antt"))

    def end(self, told: Dict[Edit, Told]) -> None:
        """Notes what was told; it is kept where what was read is as it was."""
        self.told.update((edit.name, it) for edit, it in told.items())
        if self.crate.sum() == self.before:
            for edit, it in told.items():
                self.kept.keep(self.names[edit], it)
            self.kept.write()

    def lines(self) -> Iterator[str]:
        yield from (f"{self.crate.name}/{name}: {it.line()}" for name, it in sorted(self.told.items()))


def listed(tools: Tools) -> Iterator[Crate]:
    """The crates of crates.txt."""
    lines = [line.partition("#")[0].partition(":") for line in (tools.top / "crates.txt").read_text().splitlines()]
    crates = {head.split()[0]: (head.split()[1:], uses.split()) for head, _, uses in lines if head.strip()}
    for name, (words, uses) in crates.items():
        own, of_kit = [it for it in uses if it in crates], [it for it in uses if it not in crates]
        yield Crate(tools, name, tuple(words), tuple(own), tuple(of_kit))


def build_libraries(tools: Tools, crates: List[Crate]) -> None:
    """Has each library built that one of these stands on, where it isn't."""
    for name in dict.fromkeys(it for crate in crates for it in crate.own):
        if subprocess.run(["rt", "lib"], cwd=tools.top / "crates" / name, stdout=subprocess.DEVNULL, check=False).returncode:
            sys.exit(f"the library {name} can't be built")


def try_all(tasks: List[Task], jobs: int, is_anew: bool) -> None:
    """Tries what is to be tried, crates side by side, and prints a line for each wrong body when its crate is done."""
    began, left = time.monotonic(), sum(len(it.edits) for it in tasks)
    with ThreadPoolExecutor(jobs) as pool:
        waiting = sorted((it for it in tasks if it.edits), key=lambda it: -it.weight())
        ran = {pool.submit(tried, it.crate, it.edits, is_anew): it for it in waiting}
        for done in as_completed(ran):
            task, (told, seconds) = ran[done], done.result()
            task.end(told)
            left -= len(task.edits)
            print(*task.lines(), sep="\n")
            minutes = (time.monotonic() - began) / 60
            print(f"({task.crate.name} took {seconds:.0f} s; {left} wrong bodies are left, after {minutes:.0f} minutes)", flush=True)


def given_words() -> argparse.Namespace:
    words = argparse.ArgumentParser(description=__doc__, formatter_class=argparse.RawDescriptionHelpFormatter)
    words.add_argument("names", nargs="*", metavar="NAME", help="crates; all of them where none is named")
    words.add_argument("--anew", action="store_true", help="takes nothing that was kept")
    words.add_argument("--jobs", type=int, default=len(os.sched_getaffinity(0)), help="how many crates at a time")
    words.add_argument("--as-built", action="store_true", help="takes the libraries as rt ci left them")
    words.add_argument("--folder", default="wrong-bodies", help="of each crate, where its wrong bodies are")
    words.add_argument("--top", type=Path, default=Path(__file__).resolve().parent.parent, help="of the tree whose crates are tried")
    words.add_argument("--prover", type=Path, help="in place of the toolchain's")
    return words.parse_args()


def main() -> int:
    given = given_words()
    kit = Path(subprocess.run(["rt", "doc"], stdout=subprocess.PIPE, text=True, check=True).stdout.strip()).parent
    tools = Tools(given.top.resolve(), kit, given.prover or kit / "bin/rattle")
    crates = [it for it in listed(tools) if not given.names or it.name in given.names]
    if {*given.names} - {it.name for it in crates}:
        sys.exit(f"crates.txt doesn't list all of {' '.join(given.names)}")
    if not given.as_built:
        build_libraries(tools, [it for it in crates if any((it.folder / given.folder).glob("*.edit"))])
    kept = Kept(tools.top / "out/wrong_bodies.json", given.anew)
    tasks = [Task(it, given.folder, kept) for it in crates]
    for task in tasks:
        if task.told and not task.edits:
            print(*task.lines(), sep="\n")
    try_all(tasks, given.jobs, given.anew)
    told = [it for task in tasks for it in task.told.values()]
    failed = sum(it.verdict is not Verdict.REFUSED for it in told)
    print(f"{len(told) - failed} passed, {failed} failed")
    return 1 if failed else 0


if __name__ == "__main__":
    sys.exit(main())
