"""An observation as tlscore reads it, and its verdict: lines of set-up, beats with their times, and what was told wrong of them."""

import re
from itertools import islice
from typing import Dict, Iterable, Iterator, List, NamedTuple, Optional, Sequence, Set, Tuple

from .command import Fault
from .forms import check_words, may_be_told

A, D, AW, AR, W, B, R = BEATS = ("A", "D", "AW", "AR", "W", "B", "R")
FIELDS = {A: 9, D: 8, AW: 5, AR: 5, W: 3, B: 2, R: 4}
PAYLOAD_OF_A = 7  # its place among the fields of an A beat
TIME, EVENT = "time", "="  # the first words of other lines
RESET, DRAINED, END = EVENTS = ("reset", "drained", "end")
NOT_TAKEN = ("noclient", "refused", "notready", "exhausted")
SHOWN = 80  # characters of a line that a fault shows
GET, INTENT, LAST_WITH_DATA, LAST_PUT = 4, 5, 3, 1
OPERATIONS = ("PutFull", "PutPartial", "Arithmetic", "Logical", "Get", "Intent")
BUS, PAGE, WORD = 8, 4096, 8  # bytes
GOOD = ("good", "any")  # kinds of pages that have bytes
PERMITS = "ppaagh"  # the letter of a region that permits each opcode
AT_END = ("UNANSWERED", "UNFINISHED")  # what is told of the end of an observation, and of no beat
UNKNOWN = frozenset("xXzZ")
WRONG = re.compile(
    r"= wrong (?P<line>\d{1,20}) (?P<kind>client|request|axi|reply) (?P<number>\d{1,20}) (?P<name>\w+)"
    r"(?: expected (?P<due>D(?: \d{1,3}){5} [01] [0-9a-f]{16} [01]))?(?: client (?P<client>\d{1,3}) source (?P<source>\d{1,3}))?"
    r"(?: (?P<side>write|read|data)(?: (?P<id>\d{1,3}))?)?(?: at (?P<time>\d{1,20}))?",
    re.ASCII,
)
JUDGED = re.compile(
    r"= judged (?P<beats>\d{1,20}) wrong (?P<wrong>\d{1,20}) outstanding (?P<outstanding>\d{1,20}) open (?P<open>\d{1,20}) "
    r"compared (?P<compared>\d{1,20}) of (?P<told>\d{1,20})",
    re.ASCII,
)


class Beat(NamedTuple):
    """A beat: its kind, its words behind that, and the line and time in which it stands."""

    line: int
    time: Optional[int]
    kind: str
    words: List[str]


class Event(NamedTuple):
    """A line that isn't a beat and changes what is under way: `reset`, `drained` or `end`."""

    line: int
    time: Optional[int]
    name: str


class Region(NamedTuple):
    """Pages that lead to the AXI4 port."""

    first: int
    pages: int
    leads_to: int
    permits: str = "gpah"


class Wrong(NamedTuple):
    """A line that was told wrong: what for, and what was due, where that is told."""

    line: int
    kind: str
    number: int
    name: str
    due: Optional[str]
    client: Optional[int]
    source: Optional[int]
    side: Optional[str]
    id: Optional[int]
    time: Optional[int]
    text: str


class Judged(NamedTuple):
    """The counts of a verdict's last line."""

    beats: int
    wrong: int
    outstanding: int
    open: int
    compared: int
    told: int


class Verdict(NamedTuple):
    """What tlscore printed; without a last line it didn't read the whole observation."""

    wrong: List[Wrong]
    judged: Optional[Judged]

    @property
    def by_line(self) -> Dict[int, Wrong]:
        """What was told of a line first."""
        return {it.line: it for it in reversed(self.wrong)}


class Observation:
    """The lines of an observation: what they say is there, and the beats in their order."""

    def __init__(self, text: str):
        self.lines = ["", *text.splitlines()]
        self.regions: List[Region] = []
        self.fills: List[Tuple[int, int, List[int]]] = []  # line, address and bytes
        self.pages: List[Tuple[range, str]] = []  # numbers of pages on the AXI4 port, and their kind
        self.bad: Set[int] = set()  # words, by the address of their first byte
        self.is_by_tilelink = self.are_errors_any = False
        self.bus, self.depth = BUS, 0
        self.entries: List[object] = []  # of beats and events
        self.times: List[Optional[int]] = [None] * len(self.lines)
        self.read()

    def read(self) -> None:
        """Takes each line."""
        for it in passed(islice(self.lines, 1, None)):
            self.times[it.line] = it.time
            try:
                if it.kind in FIELDS:
                    self.entries.append(it)
                elif it.kind == EVENT and it.words[:1] and it.words[0] in EVENTS:
                    self.entries.append(Event(it.line, it.time, it.words[0]))
                else:
                    self.set_up(it.line, [it.kind, *it.words])
            except (ValueError, IndexError) as why:
                raise fault_of(it, why) from why

    def set_up(self, number: int, words: List[str]) -> None:
        """Takes what is looked at of a set-up line."""
        if words[0] == "config":
            self.bus, self.depth = int(words[8]) if len(words) > 8 else BUS, int(words[4])
        elif words[0] == "region":
            self.regions.append(Region(int(words[1], 16), int(words[2]), int(words[3], 16), words[4]))
        elif words[0] == "page":
            self.pages.append((range(int(words[1], 16), int(words[1], 16) + int(words[2])), words[3]))
        elif words[0] == "bad":
            self.bad.add(int(words[1], 16) // WORD * WORD)
        elif words[0] == "fill":
            self.fills.append((number, int(words[1], 16), [int(it, 16) for it in words[2:]]))
        elif words[0] == "profile":
            self.is_by_tilelink = words[1] == "tilelink"
        elif words[0] == "errors":
            self.are_errors_any = words[1] == "any"

    def beats(self) -> Iterator[Beat]:
        return (it for it in self.entries if isinstance(it, Beat))

    def on_the_port(self, address: int) -> Optional[int]:
        """Where a TileLink address lies on the AXI4 port; nowhere, if no region leads there."""
        for it in self.regions:
            if it.first <= address // PAGE < it.first + it.pages:
                return address + (it.leads_to - it.first) * PAGE
        return None

    def permits(self, opcode: int, address: int) -> bool:
        """Whether the region of a TileLink address permits a request."""
        regions = (it for it in self.regions if it.first <= address // PAGE < it.first + it.pages)
        return opcode < len(PERMITS) and any(PERMITS[opcode] in it.permits for it in regions)

    def kind_of(self, port_address: int) -> Optional[str]:
        """The kind of a page on the AXI4 port; nothing, if no line lists it."""
        return next((kind for numbers, kind in self.pages if port_address // PAGE in numbers), None)

    def place(self, line: int) -> str:
        """A line's number with its time."""
        time = self.times[line] if line < len(self.times) else None
        return f"line {line}" + (f" at {time}" if time is not None else "")


def passed(lines: Iterable[str]) -> Iterator[Beat]:
    """The lines of an observation that say something, in their order, each in the form of a beat, with its first word for its kind. One of
    channel A comes once the next one doesn't say that it wasn't taken; but of one with an unknown field that says nothing."""
    now, waiting = None, None
    for number, line in enumerate(lines, 1):
        rest = line.split()
        kind = rest.pop(0) if rest else "#"
        if kind[0] == "#":
            continue
        if waiting and not (kind == EVENT and rest and rest[0] in NOT_TAKEN):
            yield waiting
        waiting = None
        try:
            check_words(kind, rest)
            now = int(rest[0]) if kind == TIME else now
        except ValueError as why:
            raise fault_of(Beat(number, now, kind, rest), why) from why
        if kind == A and UNKNOWN.isdisjoint("".join(rest[:PAYLOAD_OF_A] + rest[PAYLOAD_OF_A + 1 :])):
            waiting = Beat(number, now, kind, rest)
        else:
            yield Beat(number, now, kind, rest)
    if waiting:
        yield waiting


def fault_of(it: Beat, why: Exception) -> Fault:
    """What is at fault with a line."""
    said = str(why) if isinstance(why, Fault) else "isn't what tlscore reads"
    return Fault(f"line {it.line} of the observation, {' '.join((it.kind, *it.words))[:SHOWN]!r}, {said}")


def number(text: str, base: int = 10) -> Optional[int]:
    """A field's number, or nothing where a digit of it isn't known."""
    return int(text, base) if UNKNOWN.isdisjoint(text) else None


def byte_of(payload: str, lane: int) -> Optional[int]:
    """The byte in a lane of a payload, or nothing where it isn't known; one such digit alone stands for all."""
    digits = payload.rjust(2 * WORD, payload if len(payload) == 1 and payload in UNKNOWN else "0")
    return number(digits[len(digits) - 2 * lane - 2 : len(digits) - 2 * lane], 16)


def verdict_of(text: str) -> Verdict:
    """Reads what tlscore printed; its other lines are passed over."""
    wrong, judged = [], None
    for line in text.splitlines():
        found, last = WRONG.fullmatch(line.rstrip()), JUDGED.fullmatch(line.rstrip())
        if found:
            wrong.append(wrong_of(found))
        elif line.startswith("= wrong"):
            raise Fault(f"{line[:120]!r} is no verdict of tlscore")
        elif last:
            judged = Judged(*map(int, last.groups()))
    if not wrong and not judged:
        raise Fault("this isn't what tlscore prints: it has no verdict")
    return Verdict(wrong, judged)


def check_same(observation: Observation, verdict: Verdict) -> None:
    """Refuses a verdict that can't be of this observation: each wrong line is a beat, or the end."""
    beats = {it.line: it.kind for it in observation.beats()}
    ends = {it.line for it in observation.entries if isinstance(it, Event) and it.name == "end"}
    for wrong in verdict.wrong:
        is_at_end = wrong.name in AT_END and wrong.line in ends
        if not is_at_end and not may_be_told(wrong.kind, wrong.name, beats.get(wrong.line, "")):
            raise Fault(f"the verdict isn't of this observation: {wrong.text[:80]!r}, and line {wrong.line} isn't what it tells of")


def wrong_of(found: "re.Match[str]") -> Wrong:
    numbers = {name: None if found[name] is None else int(found[name]) for name in ("line", "number", "client", "source", "id", "time")}
    return Wrong(kind=found["kind"], name=found["name"], due=found["due"], side=found["side"], text=found[0], **numbers)


def plural(count: int, noun: str) -> str:
    return f"{count} {noun}" if count == 1 else f"{count} {noun}s"


def spans(values: Sequence[int]) -> str:
    """Hexadecimal addresses in one text, neighbours as a range."""
    parts: List[List[int]] = []
    for value in values:
        if parts and parts[-1][-1] == value - 1:
            parts[-1].append(value)
        else:
            parts.append([value])
    return ", ".join(f"{it[0]:08x}" if len(it) == 1 else f"{it[0]:08x} to {it[-1]:08x}" for it in parts)
