#!/usr/bin/env python3
"""Prints a definition of crates/*/specs, and all that it rests on; or what one of the statements that a user relies on rests on.

    docs/definitions.py NAME              a definition, by NAME, FILE.NAME or CRATE/FILE.NAME
    docs/definitions.py --statement NAME  a statement
    docs/definitions.py                   how to use it, and the statements
    docs/definitions.py --write           writes the table of statements in docs/WORDS.md, after a definition has changed
    docs/definitions.py --check           fails where that table is out of date
"""
import argparse
import re
import signal
import sys
import textwrap
from dataclasses import dataclass, field
from difflib import get_close_matches
from pathlib import Path
from typing import Dict, Iterator, List, Optional, Set, Tuple, Union

TOP = Path(__file__).resolve().parent.parent
WORDS = TOP / "docs" / "WORDS.md"
TABLE_HEAD = "| statement | what it is | call and clauses | definitions | new | lines |\n|---|---|---|---|---|---|\n"


@dataclass(frozen=True)
class Statement:
    """A statement: its short name, its title, the call and the clauses that say it, and the definitions that these name."""

    name: str
    title: str
    clauses: str
    roots: Tuple[Tuple[str, str, str], ...]  # crate, file and name


STATEMENTS = (
    Statement(
        "run",
        "The main theorem",
        "`world_run::run`, clause `one_at_a_time`.",
        (
            ("world_run", "Headline", "IsOneAtATime"),
            ("setups", "Setups", "lists_of"),
            ("world_run", "Runs", "handed_of"),
            ("world", "World", "in_flight"),
            ("world", "World", "byte_of"),
        ),
    ),
    Statement(
        "record",
        "What a run's record is",
        "`world_run::run`, clause `shows`.",
        (("world_run", "Runs", "IsRunOf"), ("setups", "Setups", "lists_of")),
    ),
    Statement(
        "step",
        "What a step by hand keeps",
        "`world_run::opened` and `world_run::ordered_step`, clause `order`.",
        (
            ("world_run", "InOrder", "KeepsOrder"),
            ("world_run", "InOrder", "IsForeseen"),
            ("world_run", "Serial", "Order"),
            ("setups", "Setups", "faults_of"),
            ("setups", "Setups", "lists_of"),
        ),
    ),
    Statement(
        "drain",
        "What `drain` does",
        "`world::World::drain`, clause `drains`.",
        (("world", "Laws", "IsDrained"),),
    ),
    Statement(
        "text",
        "The text of `run` and `check`, and the status",
        "`tlbridge::carried_out`, clauses `run` and `check`, and `tlbridge::status_of`.",
        (
            ("tlbridge", "Endings", "EndsAs"),
            ("run_script", "Run", "run_reading"),
            ("check_script", "Check", "check_reading"),
            ("script_text", "Scripts", "text_of"),
            ("script_text", "Scripts", "text_before_failure"),
            ("tlbridge", "Modes", "Flushes"),
            ("tlbridge", "Results", "status_of"),
        ),
    ),
    Statement(
        "threads",
        "A run in threads",
        "`bridge_threads::run_threads`, clauses `report`, `one_at_a_time`, `refused`, `full` and `beat`.",
        (
            ("thread_reports", "Reports", "IsReport"),
            ("thread_reports", "Reports", "items_of"),
            ("thread_reports", "Refusals", "is_refused"),
            ("thread_reports", "FullHistories", "IsFullHistory"),
            ("bridge_threads", "RefusedBeats", "IsRefusedBeat"),
            ("world_run", "Headline", "IsOneAtATime"),
            ("setups", "Setups", "lists_of"),
            ("world_run", "Runs", "sent_in"),
            ("world", "World", "byte_of"),
        ),
    ),
    Statement(
        "threads-text",
        "The text of `threads`",
        "`tlbridge::carried_out_in_threads`, clause `ending`.",
        (("tlbridge", "Threads", "EndsAsRead"), ("tlbridge", "Modes", "Flushes")),
    ),
    Statement(
        "judge",
        "When what was observed is right",
        "`scoreboard::Scoreboard::judge`, clauses `exactly`, `memory` and `known`.",
        (
            ("scoreboard", "Right", "IsRight"),
            ("scoreboard", "Boards", "opening_from"),
            ("scoreboard", "Boards", "IsReached"),
            ("scoreboard", "InsideBoards", "board_of"),
            ("scoreboard", "Boards", "MayBegin"),
            ("meaning", "Meaning", "bytes_after_all"),
        ),
    ),
    Statement(
        "observed",
        "What is seen of a run, and that it is right",
        "`observed_run::observed`, clauses `shows` and `right`.",
        (
            ("observed_run", "SeenRuns", "observed"),
            ("scoreboard", "Right", "IsRight"),
            ("scoreboard", "Boards", "from_zeros"),
            ("setups", "Setups", "lists_of"),
        ),
    ),
    Statement(
        "board",
        "What the scoreboard says",
        "`scoreboard::Scoreboard::judge`, clauses `answer` and `state`, and the board that `exactly` begins with.",
        (
            ("scoreboard", "Boards", "wrong_at"),
            ("scoreboard", "Boards", "after_seen"),
            ("scoreboard", "InsideBoards", "board_of"),
            ("scoreboard", "Boards", "IsReached"),
            ("scoreboard", "Boards", "opening_from"),
            ("scoreboard", "Right", "IsRight"),
        ),
    ),
    Statement(
        "real-time",
        "What the scoreboard finds wrong in real time is wrong in every order",
        "`scoreboard::Scoreboard::judge`, clause `rightly`.",
        (
            ("scoreboard", "RealTime", "JudgesRightly"),
            ("scoreboard", "InsideBoards", "board_of"),
        ),
    ),
    Statement(
        "profiles",
        "How its verdicts in real time and in order of acceptance agree",
        "`scoreboard::Scoreboard::judge`, clauses `right` and `wider`.",
        (
            ("scoreboard", "Wider", "LetsRightPass"),
            ("scoreboard", "Wider", "IsWiderAlong"),
            ("scoreboard", "InsideBoards", "board_of"),
        ),
    ),
    Statement(
        "unknown",
        "What the scoreboard says of beats with unknown bytes",
        "`scoreboard::Scoreboard::judge_unknown`, clauses `answer`, `state`, `known` and `board`.",
        (
            ("scoreboard", "Unknown", "unknown_wrong"),
            ("scoreboard", "Unknown", "after_seen_unknown"),
            ("scoreboard", "Unknown", "some_begun"),
            ("scoreboard", "InsideBoards", "unknown_board"),
            ("scoreboard", "InsideBoards", "board_of"),
            ("scoreboard", "Boards", "wrong_at"),
            ("scoreboard", "Boards", "after_seen"),
        ),
    ),
    Statement(
        "reset",
        "What a reset leaves",
        "`scoreboard::Scoreboard::reset`, clauses `state` and `rightly`.",
        (
            ("scoreboard", "Resets", "ResetsRightly"),
            ("scoreboard", "Resets", "reset_on"),
            ("scoreboard", "InsideBoards", "board_of"),
        ),
    ),
    Statement(
        "fill",
        "What the memory began with, as a tester says it",
        "`scoreboard::Scoreboard::fill`, clauses `filled`, `opening` and `err`.",
        (
            ("scoreboard", "Filling", "filled_on"),
            ("scoreboard", "Filling", "filled_beginning"),
            ("scoreboard", "Boards", "opening_from"),
            ("scoreboard", "InsideBoards", "board_of"),
            ("serial_memory", "SerialMemory", "can_fill"),
        ),
    ),
    Statement(
        "room",
        "When the scoreboard may want memory",
        "`scoreboard::Scoreboard::judge`, clauses `refused` and `cause`.",
        (
            ("scoreboard", "Room", "asks_for_room"),
            ("scoreboard", "InsideBoards", "board_of"),
            ("serial_memory", "SerialMemory", "rooms_of"),
        ),
    ),
    Statement(
        "places",
        "What the scoreboard says of where bursts go",
        "`scoreboard::AxiPlaces::judge`.",
        (("scoreboard", "Places", "wrong_place"),),
    ),
    Statement(
        "missing",
        "What is missing at the end",
        "`scoreboard::Scoreboard::source_due`, `scoreboard::Scoreboard::open_write`, `scoreboard::Scoreboard::open_read`, "
        "`scoreboard::Scoreboard::writes_without_address` and `scoreboard::Scoreboard::source_begun`.",
        (
            ("scoreboard", "Unanswered", "sources_due"),
            ("scoreboard", "Unanswered", "writes_open"),
            ("scoreboard", "Unanswered", "reads_open"),
            ("scoreboard", "Unanswered", "writes_without_address"),
            ("scoreboard", "Unanswered", "source_begun"),
            ("scoreboard", "InsideBoards", "board_of"),
        ),
    ),
    Statement(
        "score-text",
        "The text of the scoreboard",
        "`score_script::score_text_with`.",
        (
            ("script_text", "Stops", "EndsHolding"),
            ("score_script", "Scores", "score_reading"),
            ("score_script", "Scores", "opening_state"),
        ),
    ),
    Statement(
        "score-fault",
        "Why a fault of the scoreboard's text is one",
        "`score_script::fault_reason`.",
        (("score_script", "FaultReasons", "fault_reason"),),
    ),
    Statement(
        "score-handle",
        "What a call of the scoreboard's handle does",
        "`score_calls::Handle::call`.",
        (("score_calls", "Handles", "Called"),),
    ),
    Statement(
        "bridge-handle",
        "What a call of the model's handle does",
        "`bridge_calls::BridgeHandle::call`.",
        (("bridge_calls", "Handles", "Called"),),
    ),
    Statement(
        "score-calls",
        "What a list of calls of the scoreboard's handle comes to",
        "`score_calls::Handle::new`, clause `exactly`.",
        (("score_calls", "HandleRuns", "OnlyExact"),),
    ),
    Statement(
        "bridge-calls",
        "What a list of calls of the model's handle comes to",
        "`bridge_calls::BridgeHandle::new`, clause `runs`.",
        (("bridge_calls", "HandleRuns", "OnlyRuns"),),
    ),
    Statement(
        "opening",
        "What lies at the pointer that opening a handle hands out",
        "`zuldegei::tlscore_open` and `zuldegei::tlbridge_open`.",
        (("zuldegei", "Opened", "HandedOut"), ("score_calls", "HandleRuns", "IsNew"), ("bridge_calls", "HandleRuns", "IsNew")),
    ),
)

BEGINS = re.compile(r"^(?:(?:abbrev|unfoldable|opaque) )?(?:pub )?(?:(record|data) )?([\w◌≡-]+)(?= )")
NAMES = re.compile(r"^use (?:Rattle\.)?([\w.]+?)(?:\.\{(.*)\}| as (\w+))$")


@dataclass
class Definition:
    """A definition: its place, whether it is a record or data, and its text with its comments."""

    crate: str
    file: str
    name: str
    kind: str
    text: List[str] = field(default_factory=list)

    @property
    def place(self) -> str:
        """Its file."""
        return f"crates/{self.crate}/specs/{self.file}.antt"

    @property
    def full_name(self) -> str:
        """The name that no other definition has."""
        return f"{self.crate}/{self.file}.{self.name}"

    @property
    def lines(self) -> List[str]:
        """Its lines without the comments."""
        return [line for line in self.text if not line.lstrip().startswith("--")]

    @property
    def words(self) -> str:
        """The comment above it."""
        first = next(at for at, line in enumerate(self.text) if not line.startswith("--"))
        return " ".join(line[2:].strip() for line in self.text[:first])


@dataclass
class File:
    """What a file of definitions has, and what it brings in from others."""

    definitions: Dict[str, Definition] = field(default_factory=dict)
    named: Dict[str, Tuple[str, str]] = field(default_factory=dict)  # a name stands for a path and a name
    modules: Dict[str, str] = field(default_factory=dict)  # a module's name stands for a path


Files = Dict[Tuple[str, str], File]
Found = Union[Definition, str, None]  # a definition, or a Rust type by its name


def crates() -> Iterator[str]:
    """The names of the crates, in the order of crates.txt."""
    for line in (TOP / "crates.txt").read_text(encoding="utf-8").splitlines():
        line = line.split("#")[0].strip()
        if line:
            yield line.split(":")[0].split()[0]


def brought_in(line: str, named: Dict[str, Tuple[str, str]], modules: Dict[str, str]) -> None:
    """Notes what a line `use` brings in."""
    path, names, alias = NAMES.match(line).groups()
    if alias:
        modules[alias] = path
    for name in (names or "").split(","):
        own, _, here = name.strip().partition(" as ")
        named[(here or own).strip()] = path, own.strip()


def begun(file: File, crate: str, stem: str, line: str) -> Definition:
    """The definition that a line begins, or goes on with."""
    kind, name = BEGINS.match(line).groups()
    return file.definitions.setdefault(name, Definition(crate, stem, name, kind or ""))


def read(crate: str, path: Path) -> File:
    """Reads a file of definitions."""
    file, comment, now = File(), [], None
    for line in path.read_text(encoding="utf-8").splitlines():
        if line.startswith("--"):
            comment.append(line)
            continue
        if line.startswith("use "):
            brought_in(line, file.named, file.modules)
        elif line and line[0] not in " )":
            now = begun(file, crate, path.stem, line)
        if now and line.strip() and not line.startswith("use "):
            now.text += [*comment, line]
        comment = []
    return file


def all_files() -> Iterator[Tuple[Tuple[str, str], File]]:
    """Every file of definitions, by its crate and its name."""
    for crate in crates():
        for path in sorted((TOP / "crates" / crate / "specs").glob("*.antt")):
            if path.stem != "Lib":
                yield (crate, path.stem), read(crate, path)


def with_constructor(file: File, name: str) -> Optional[Definition]:
    """The data of a file that have a constructor of that name."""
    constructor = re.compile(rf"(?m)^  (?:pub )?{re.escape(name)} :")
    return next((it for it in file.definitions.values() if it.kind == "data" and constructor.search("\n".join(it.text))), None)


def found_at(files: Files, path: str, name: str) -> Found:
    """The definition of a name in a module, or the Rust type of that name or of that variant; none where it isn't ours."""
    parts = path.split(".")
    if len(parts) < 3 or not (TOP / "crates" / parts[0]).is_dir() or parts[1] != "specs":
        return None
    if parts[2] == "declared":
        return f"{parts[0]}::{[it for it in parts if it != 'TheVariants'][-1]}"
    file = files.get((parts[0], parts[2]))
    return file and (file.definitions.get(name) or with_constructor(file, name))


def named_by(files: Files, it: Definition) -> List[Found]:
    """What a definition names, in order."""
    file, seen = files[it.crate, it.file], []
    text = "\n".join(line.split(" -- ")[0] for line in it.lines)
    for module, name in re.findall(r"(?:\b(\w+)\.)?([A-Za-z_◌][\w◌-]*)", text):
        if module and module in file.modules:
            found = found_at(files, file.modules[module], name)
        elif name in file.definitions and name != it.name:
            found = file.definitions[name]
        elif name in file.named:
            found = found_at(files, *file.named[name])
        else:
            found = None
        if found is not None and found not in seen:
            seen.append(found)
    return seen


def reached(files: Files, roots: List[Definition], before: Set[str]) -> Tuple[List[Definition], List[str]]:
    """The definitions that some roots reach and that weren't reached before, nearest first, and the Rust types."""
    left, here, types = list(roots), [], []
    for it in left:
        if it.full_name in before:
            continue
        before.add(it.full_name)
        here.append(it)
        for found in named_by(files, it):
            if isinstance(found, Definition):
                left.append(found)
            elif found not in types:
                types.append(found)
    return here, sorted(types)


def rests_on(files: Files, statement: Statement, before: Set[str]) -> Tuple[List[Definition], List[str]]:
    """What a statement rests on, but for what was reached before."""
    return reached(files, [files[crate, file].definitions[name] for crate, file, name in statement.roots], before)


def lines_of(definitions: List[Definition]) -> int:
    """How many lines some definitions have, without the comments."""
    return sum(len(it.lines) for it in definitions)


def filled(words: str, indent: str) -> str:
    """Words in lines of at most 100 columns."""
    return textwrap.fill(words, 100, initial_indent=indent, subsequent_indent=indent, break_long_words=False, break_on_hyphens=False)


def headed(head: str, words: str) -> str:
    """A head, and words below it where there are any."""
    return f"{head}\n{filled(words, '    ')}" if words else head


def listed(definitions: List[Definition], types: List[str]) -> Iterator[str]:
    """Each definition with its file and its words, and then the Rust types."""
    yield from (headed(f"{it.name}  {it.place}", it.words) for it in definitions)
    if types:
        yield f"\n{filled('Rust types: ' + ', '.join(types) + '.', '')}"


def shown_definition(files: Files, it: Definition) -> Iterator[str]:
    """The text of a definition, its file, and what it rests on."""
    (_, *others), types = reached(files, [it], set())
    yield f"{it.place}\n"
    yield from it.text
    count = f"{len(others)} more, of {lines_of(others)} lines, the nearest first:" if others else "no other."
    yield f"\nOf the definitions in crates/*/specs it rests on {count}\n"
    yield from listed(others, types)


def shown_statement(files: Files, statement: Statement) -> Iterator[str]:
    """The call and the clauses of a statement, and what it rests on."""
    definitions, types = rests_on(files, statement, set())
    yield f"{statement.title}: {statement.clauses.replace('`', '')}"
    yield f"\nIt rests on {len(definitions)} definitions of {lines_of(definitions)} lines, the nearest first:\n"
    yield from listed(definitions, types)


def called(files: Files, asked: str) -> List[Definition]:
    """The definitions that a name asks for; where there is none, the data with a constructor of that name."""
    every = [it for file in files.values() for it in file.definitions.values()]
    found = [it for it in every if asked in (it.name, f"{it.file}.{it.name}", it.full_name)]
    return found or [it for it in (with_constructor(file, asked) for file in files.values()) if it]


def nearest(files: Files, asked: str) -> List[str]:
    """The names of definitions that are most like one that there isn't."""
    lower = {it.lower(): it for file in files.values() for it in file.definitions}
    return [lower[it] for it in get_close_matches(asked.rpartition(".")[2].lower(), lower, 5, 0.5)]


def answer_to(files: Files, asked: str) -> int:
    """Prints the definition that is asked for, or tells why it can't; gives the status."""
    found = called(files, asked)
    if len(found) == 1:
        print("\n".join(shown_definition(files, found[0])))
        return 0
    if found:
        print(f"{asked} is the name of {len(found)} definitions; say which:", file=sys.stderr)
        print("\n".join(headed(it.full_name, it.words) for it in found), file=sys.stderr)
    else:
        near = nearest(files, asked)
        print(f"no definition is called {asked}{'; the nearest: ' if near else ''}{', '.join(near)}", file=sys.stderr)
    return 2


def counted(files: Files) -> Iterator[Tuple[Statement, int, int, int]]:
    """Each statement with the number of its definitions, of those that none before it has, and of its lines."""
    before: Set[str] = set()
    for statement in STATEMENTS:
        definitions, _ = rests_on(files, statement, set())
        new, _ = rests_on(files, statement, before)
        yield statement, len(definitions), len(new), lines_of(definitions)


def table(files: Files) -> str:
    """The table of statements, as docs/WORDS.md has it."""
    rows = (f"| `{it.name}` | {it.title} | {it.clauses} | {count} | {new} | {lines} |\n" for it, count, new, lines in counted(files))
    return TABLE_HEAD + "".join(rows)


def with_table(page: str, new: str) -> str:
    """A page with a new table in the place of its own."""
    before, head, behind = page.partition(TABLE_HEAD)
    if not head:
        raise ValueError(f"{WORDS.name} has no table of statements")
    return before + new + re.sub(r"\A(?:\|.*\n)*", "", behind)


def overview(files: Files) -> Iterator[str]:
    """The statements, as they are shown to one who asks for nothing."""
    yield f"\n{'statements':<12} {'definitions':>11} {'lines':>6}"
    for statement, count, _, lines in counted(files):
        yield f"{statement.name:<12} {count:>11} {lines:>6}  {statement.title}"


def parser() -> argparse.ArgumentParser:
    """What the command can be asked for."""
    made = argparse.ArgumentParser(prog="docs/definitions.py", description="Prints a definition, or a statement, and what it rests on.")
    one = made.add_mutually_exclusive_group()
    one.add_argument("name", metavar="NAME", nargs="?", help="a definition, by NAME, FILE.NAME or CRATE/FILE.NAME")
    names = [it.name for it in STATEMENTS]
    one.add_argument("--statement", metavar="NAME", choices=names, help="a statement, by its name below")
    one.add_argument("--write", action="store_true", help="write the table of statements in docs/WORDS.md")
    one.add_argument("--check", action="store_true", help="fail where that table is out of date")
    return made


def main() -> int:
    """Answers the command line; gives the status."""
    signal.signal(signal.SIGPIPE, signal.SIG_DFL)
    sys.stdout.reconfigure(encoding="utf-8")
    asked, files = parser().parse_args(), dict(all_files())
    if asked.name:
        return answer_to(files, asked.name)
    if asked.statement:
        print("\n".join(shown_statement(files, next(it for it in STATEMENTS if it.name == asked.statement))))
        return 0
    if not (asked.write or asked.check):
        parser().print_help()
        print("\n".join(overview(files)))
        return 0
    page = WORDS.read_text(encoding="utf-8")
    due = with_table(page, table(files))
    if asked.write:
        WORDS.write_text(due, encoding="utf-8")
    elif page != due:
        print(f"docs/{WORDS.name} is out of date")
        return 1
    return 0


if __name__ == "__main__":
    sys.exit(main())
