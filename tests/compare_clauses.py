"""Compares what two commits promise: the head of each public function with its clauses, what a contract sees of each type (its model),
and each definition of specs/. Prints what is gone, what is new and what says something else; the status is 1 where anything does.

    python3 tests/compare_clauses.py BEFORE [AFTER]

AFTER is the working tree where it isn't given. Comments and the layout of lines play no part, nor the file of a crate in which a
function or a definition stands, so that what only moved is the same.
"""

import argparse
import re
import subprocess
import sys
from pathlib import Path
from typing import Callable, Dict, Iterator, List, Optional, Tuple

import body_edits

TOP = Path(__file__).resolve().parent.parent
SOURCE = re.compile(r"crates/(\w+)/src/(.*)\.rt$")
SPECS = re.compile(r"crates/(\w+)/specs/(.*)\.antt$")
PUBLIC = re.compile(r'^ *pub (?:const )?(?:unsafe )?(?:extern "C" )?fn (\w+)', re.M)
MODEL = re.compile(r"^ *impl\b[^{\n]*\bModel for (\w+)", re.M)
# A definition begins in the first column, and its name is behind the words that say what kind it is.
DEFINED = re.compile(r"(?:(?:pub|abbrev|data|record|opaque|unfolding|mutual) )*([^\s(){}:]+)")
Read = Callable[[str], str]


def files(commit: Optional[str]) -> Tuple[List[str], Read]:
    """The files of a commit, or of the working tree, and what reads one."""
    words = ["ls-tree", "-r", "--name-only", commit] if commit else ["ls-files"]
    names = subprocess.run(["git", *words], cwd=TOP, stdout=subprocess.PIPE, text=True, check=True).stdout.split("\n")
    if commit is None:
        return [it for it in names if it and (TOP / it).is_file()], lambda name: (TOP / name).read_text()
    show = lambda name: subprocess.run(["git", "show", f"{commit}:{name}"], cwd=TOP, stdout=subprocess.PIPE, text=True, check=True).stdout
    return [it for it in names if it], show


def plain(text: str) -> str:
    """A text without comments, and with one space for each gap."""
    return " ".join(re.sub(r"(?m)^\s*(?://|--).*$", "", text).split())


def to_the_end(text: str, start: int) -> str:
    """A function's head or a block: up to the line that is or ends with the bracket of its own column."""
    lines = text[start:].split("\n")
    depth = body_edits.depth_of(lines[0])
    for number, line in enumerate(lines):
        at = body_edits.depth_of(line)
        if at == depth and line.rstrip().endswith("{"):
            return "\n".join(lines[: number + 1])
    return text[start:]


def block(text: str, start: int) -> str:
    """An impl with all that stands in it."""
    depth = body_edits.depth_of(text[start:].split("\n")[0])
    end = re.compile(rf"^ {{{depth}}}}}", re.M).search(text, start)
    return text[start : end.end()] if end else text[start:]


def promises(crate: str, file: str, text: str) -> Iterator[Tuple[str, str]]:
    """The public functions of a source and the models of its types, by crate and name."""
    lines = text.split("\n")
    for found in PUBLIC.finditer(text):
        outer = body_edits.enclosing(lines, text.count("\n", 0, found.start()))
        owner = next((it[0] for it in outer if it[0].startswith(("impl", "pub trait", "trait"))), "")
        owner = body_edits.without_parameters(owner).replace("impl ", "").replace("trait ", "").strip(" {")
        yield f"{crate}: {owner + '::' if owner else ''}{found[1]}", plain(to_the_end(text, found.start()))
    for found in MODEL.finditer(text):
        yield f"{crate}: the model of {found[1]}", plain(block(text, found.start()))


def definitions(crate: str, file: str, text: str) -> Iterator[Tuple[str, str]]:
    """What a file of specs/ defines, by crate and name: each passage that begins in the first column, but for what it brings in."""
    passages: Dict[str, List[str]] = {}
    name = ""
    for line in text.split("\n"):
        found = DEFINED.match(line) if line and not line[0].isspace() and not line.startswith("--") else None
        if found and found[1] not in ("use", "mod", "module"):
            name = found[1]
        elif found:
            name = ""
        if name:
            passages.setdefault(name, []).append(line)
    yield from ((f"{crate}: the definition {it}", plain("\n".join(lines))) for it, lines in passages.items())


def said(commit: Optional[str]) -> Dict[str, str]:
    """All that a commit promises."""
    names, read = files(commit)
    found: Dict[str, str] = {}
    for name in names:
        for pattern, take in ((SOURCE, promises), (SPECS, definitions)):
            place = pattern.match(name)
            for key, text in take(place[1], place[2], read(name)) if place else ():
                found[key] = f"{found[key]} {text}" if key in found else text
    return found


def main() -> int:
    words = argparse.ArgumentParser(description=__doc__, formatter_class=argparse.RawDescriptionHelpFormatter)
    words.add_argument("before")
    words.add_argument("after", nargs="?")
    given = words.parse_args()
    before, after = said(given.before), said(given.after)
    for name in sorted(before.keys() - after.keys()):
        print(f"gone: {name}")
    for name in sorted(after.keys() - before.keys()):
        print(f"new: {name}")
    others = sorted(it for it in before.keys() & after.keys() if before[it] != after[it])
    for name in others:
        print(f"other: {name}\n  was {before[name]}\n  is  {after[name]}")
    print(f"{len(before)} promises before, {len(after)} after")
    return 1 if before.keys() ^ after.keys() or others else 0


if __name__ == "__main__":
    sys.exit(main())
