"""Reads wrong bodies: which lines of a crate's sources each changes, and in the bodies of which functions these stand.

A wrong body is a file NAME.edit: a line `file: src/..`, then pairs of lines `old: ..` and `new: ..`, each text one line that stands in
that file just once. Other lines aren't read. It is the format of the edits in must-fail/, which the prover's own command tries, and of
those in tests/slips (slips.py).
"""

import re
from dataclasses import dataclass
from pathlib import Path
from typing import Dict, FrozenSet, List, NamedTuple, Optional, Tuple

WORD = re.compile(r"(file|old|new): ?(.*)")
FUNCTION = re.compile(r'(?:pub(?:\([^)]*\))? )?(?:const )?(?:unsafe )?(?:extern "C" )?fn (\w+)')
OWNER = re.compile(r"(?:pub(?:\([^)]*\))? )?(?:impl (?:([\w:]+) for )?&?(?:mut )?([\w:]+)|trait (\w+))")


class Unusable(Exception):
    """Why an edit can't be applied."""


class Place(NamedTuple):
    """A line of a crate's file, counted from 0."""

    file: str
    line: int


class Function(NamedTuple):
    """A function as its source has it: the modules of its file, its type with the trait of its impl (or a trait), and its name."""

    modules: Tuple[str, ...]
    owner: str
    name: str

    @property
    def path(self) -> str:
        """By what the prover can be asked for it: a method by its type, since that may be declared in another module."""
        return "::".join([self.owner, self.name] if self.owner else [*self.modules, self.name])

    def owns(self, name: str) -> bool:
        """Whether the prover has the function, or a closure in it, under this name, which begins with the crate."""
        parts = re.sub(r"\+\w+(::\w+)?$", "", name).split("::")[1:]
        if "fn" in parts:  # a closure stands below its function
            parts = [it for it in parts[:-1] if it != "fn"]
        own = self.path.split("::")
        return parts[-len(own) :] == own if self.owner else parts == own


@dataclass(frozen=True, eq=False)
class Edit:
    """A wrong body: its name, its text, the lines that it changes, each as it is then, and the functions in whose bodies they stand.
    Where it changes more than bodies, and so what others see, it is tried alone."""

    name: str
    text: str
    lines: Dict[Place, str]
    functions: FrozenSet[Function]
    is_alone: bool

    def owns(self, name: str) -> bool:
        return any(it.owns(name) for it in self.functions)


def without_parameters(line: str) -> str:
    """A head without what stands in angle brackets."""
    line, was = line.replace("->", ""), ""
    while line != was:
        line, was = re.sub(r"<[^<>]*>", "", line), line
    return line


def depth_of(line: str) -> int:
    return len(line) - len(line.lstrip())


def enclosing(lines: List[str], at: int) -> List[Tuple[str, bool]]:
    """The lines that a line stands in, the innermost first, by the layout of the sources, and whether a body begins behind each of
    them: a head may go on over some lines, with clauses, up to a bracket in its own column."""
    found, inside, opened = [], depth_of(lines[at]), set()
    for line in reversed(lines[:at]):
        depth, text = depth_of(line), line.strip()
        if not text or depth >= inside:
            continue
        if text.endswith("{"):
            opened.add(depth)
        if text == "{" or text.startswith((")", "where")):
            inside = depth + 1  # the head is further up, in this column
            continue
        found.append((text, depth in opened))
        inside = depth
    return found


def function_at(file: str, lines: List[str], at: int) -> Optional[Function]:
    """The function in whose body a line of a file stands, if it stands in one."""
    outer = enclosing(lines, at)
    heads = [(place, FUNCTION.match(text), is_body) for place, (text, is_body) in enumerate(outer)]
    place, head, is_body = next((it for it in heads if it[1]), (0, None, False))
    if head is None or not is_body:
        return None
    owners = (OWNER.match(without_parameters(text)) for text, _ in outer[place + 1 :])
    owner = next((it for it in owners if it), None)
    names = [it.rpartition("::")[2] for it in (owner[2] or owner[3], owner[1] or "")] if owner else []
    modules = [it for it in Path(file).with_suffix("").parts[1:] if it not in ("lib", "main", "mod")]
    return Function(tuple(modules), "".join(names), head[1])


def changed(top: Path, text: str, folder: str = "src/") -> Dict[str, Tuple[List[str], List[str]]]:
    """The files below a folder of a crate, or of another tree, that an edit changes: the lines of each before and after."""
    file, old, was, now = "", "", {}, {}
    for word, line in (it.groups() for it in map(WORD.match, text.splitlines()) if it):
        if word == "file":
            file = line.strip()
            if not file.startswith(folder) or not (top / file).is_file():
                raise Unusable(f"{file!r} is no file below {folder or 'the top'}")
            was.setdefault(file, (top / file).read_text())
            now.setdefault(file, was[file])
        elif word == "old":
            old = line
        elif not file or not old or now[file].count(old) != 1:
            raise Unusable(f"{old.strip()!r} stands in {file or 'no file'} {now[file].count(old) if file and old else 0} times")
        else:
            now[file], old = now[file].replace(old, line), ""
    if was == now:
        raise Unusable("it changes nothing")
    return {file: (was[file].split("\n"), now[file].split("\n")) for file in was}


def read(crate: Path, file: Path) -> Edit:
    """Reads an edit of a crate. What it changes is found by lines, so that edits of other lines can be applied beside it."""
    text = file.read_text()
    lines, functions = {}, set()
    for name, (was, now) in changed(crate, text).items():
        for at in (it for it, pair in enumerate(zip(was, now)) if pair[0] != pair[1]):
            lines[Place(name, at)] = now[at]
            functions.add(function_at(name, was, at))
    return Edit(file.stem, text, lines, frozenset(functions - {None}), None in functions)
