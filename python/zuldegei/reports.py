"""What is told of many runs: a table, JUnit XML and JSON. The files are made piece by piece, however many runs there are. The JSON of a part
of a call has all that is needed to make these of all parts together.
"""

import enum
import itertools
import json
import textwrap
from collections import Counter
from dataclasses import dataclass
from functools import cached_property
from typing import Dict, Iterator, List, NamedTuple, Optional, Sequence, Tuple
from xml.etree import ElementTree

from .command import Status, one_line
from .cover_report import Cover, Shown, Without
from .waivers import Waiver

MOST_SEEDS = 1_000_000
MOST_NAMED, LONGEST = 20, 4096  # runs and parts that aren't there and that the table names, and characters of a name


class State(enum.Enum):
    """How a run ended."""

    RIGHT = "right"
    WRONG = "wrong"
    NOTHING = "nothing"
    FAILED = "failed"
    LATE = "late"
    SLOW = "slow"
    WAIVED = "waived"
    UNJUDGED = "unjudged"


# States that are named only where there is one.
SELDOM = (State.SLOW, State.WAIVED, State.UNJUDGED)


class Job(NamedTuple):
    """A run that is asked for: its place among all, and a file, or a command with its seed."""

    place: int
    name: str
    file: Optional[str] = None
    command: Optional[str] = None
    seed: Optional[int] = None


class Part(NamedTuple):
    """One of so many parts of a call, numbered from 1: each has every so manyth run."""

    number: int
    of: int

    def __str__(self) -> str:
        return f"part {self.number} of {self.of}"


@dataclass
class Asked:
    """The runs that are asked for: files, and of a command one run for each seed; or a part of these."""

    files: Sequence[str]
    command: Optional[str]
    seeds: Sequence[range]
    part: Optional[Part] = None

    @property
    def count(self) -> int:
        """How many there are in all parts."""
        return len(self.files) + (0 if self.command is None else sum(map(len, self.seeds)) if self.seeds else 1)

    def places(self) -> range:
        """Their places among those of all parts."""
        return range(self.count) if self.part is None else range(self.part.number - 1, self.count, self.part.of)

    def __len__(self) -> int:
        return len(self.places())

    def __iter__(self) -> Iterator[Job]:
        places, files = self.places(), len(self.files)
        of_files = range(places.start, files, places.step)
        for place in of_files:
            yield Job(place, self.files[place], file=self.files[place])
        rest = places[len(of_files) :]
        if rest and not self.seeds:
            yield Job(files, self.command, command=self.command)
        seeds = itertools.islice(itertools.chain(*self.seeds), rest.start - files, None, rest.step)
        for place, seed in zip(rest, seeds):
            yield Job(place, f"seed {seed}", command=self.command.replace("{seed}", str(seed)), seed=seed)

    def number(self, job: Job) -> int:
        """Which run of its name it is among those of all parts, from 1."""
        ahead, count = job.place - len(self.files), 1 + self.files[: job.place].count(job.name)
        for seeds in self.seeds if job.seed is not None else ():
            count += job.seed in seeds[: max(0, ahead)]
            ahead -= len(seeds)
        return count


class Outcome(NamedTuple):
    """What came of a run."""

    job: Job
    state: State
    seconds: float = 0.0
    beats: int = 0
    wrong: int = 0
    compared: int = 0
    told: int = 0
    first: str = ""  # the first wrong line
    line: Optional[int] = None
    time: Optional[int] = None
    why: str = ""  # of a run that couldn't be judged
    unkept: str = ""  # why its files couldn't be kept
    waivers: Tuple[Tuple[int, int], ...] = ()  # of each waiver that waived any line its place, and how many
    late: int = 0  # requests and bursts that took too long
    first_late: str = ""  # the first of them
    cover: Optional[Cover] = None  # what it reached, where that is asked for
    uncovered: str = ""  # why that can't be said

    @property
    def waived(self) -> int:
        """How many of its wrong lines were waived."""
        return sum(count for _, count in self.waivers)

    def said(self) -> str:
        """Why it isn't right, in one line."""
        waived = f"{self.waived} waived" if self.waived else ""
        late = f"{self.late} late, first {self.first_late}" if self.late else ""
        return one_line("; ".join(filter(None, (self.why, self.first, waived, late))))

    def entry(self) -> Dict[str, object]:
        """What the JSON has of it."""
        names = ("beats", "wrong", "compared", "told", "first", "line", "time", "why", "waived", "late", "first_late", "uncovered")
        kept = {name: getattr(self, name) for name in names}
        return {"run": self.job.name, "seed": self.job.seed, "status": self.state.value, "seconds": round(self.seconds, 3), **kept}

    def part_entry(self) -> Dict[str, object]:
        """What the JSON of a part has of it: all but its cover, which is that of all runs together."""
        return {**self.entry(), "waivers": self.waivers, "unkept": self.unkept}


@dataclass
class Covered:
    """What all runs reached, and which bins aren't counted."""

    cover: Cover
    withouts: Sequence[Without]

    @cached_property
    def shown(self) -> Shown:
        """What is shown of it, once all runs have ended."""
        return Shown(self.cover, self.withouts)

    def entry(self) -> Dict[str, object]:
        """What the JSON has of it."""
        return {"runs": self.cover.runs, "beats": self.cover.beats, "bins": len(self.shown.counts), "hit": self.shown.hit}


class Lacking(NamedTuple):
    """A part that isn't there as a whole, or a file that is none, and why."""

    what: str
    why: str


@dataclass
class Report:
    """What came of the runs that are asked for, by their places."""

    asked: Asked
    made: Dict[int, Outcome]
    seconds: float
    stopped: Sequence[str] = ("",)  # of each part why a run of it wasn't judged, where one wasn't
    waivers: Sequence[Waiver] = ()
    covered: Optional[Covered] = None
    lacking: Sequence[Lacking] = ()
    call: Optional[Dict[str, object]] = None  # where this is a part, what it has in common with the others

    def outcomes(self) -> Iterator[Outcome]:
        """What came of each run, in the order in which they were asked for."""
        for job in self.asked:
            yield self.made.get(job.place) or Outcome(job, State.UNJUDGED, why=self.stopped[job.place % len(self.stopped)])

    def count(self, state: State) -> int:
        if state is State.UNJUDGED:
            return len(self.asked) - len(self.made)
        return sum(it.state is state for it in self.made.values())

    def status(self) -> Status:
        """The status of all runs together."""
        if self.count(State.WRONG) or self.count(State.SLOW):
            return Status.WRONG
        are_all_good = self.count(State.RIGHT) + self.count(State.WAIVED) == len(self.asked)
        return Status.DONE if are_all_good and not self.lacking else Status.FAULT

    def met(self) -> Iterator[Tuple[Waiver, int]]:
        """Each waiver, and how many lines it waived."""
        counts: "Counter[int]" = Counter()
        for it in self.made.values():
            counts.update(dict(it.waivers))
        return ((it, counts[place]) for place, it in enumerate(self.waivers))

    # ---- the table

    def table(self) -> Iterator[str]:
        """A line for each run that was judged and isn't right, and the counts of all."""
        rows = sorted((it for it in self.made.values() if it.state is not State.RIGHT), key=lambda it: it.job.place)
        wide = max([len(name_of(it)) for it in self.made.values()] + [3])
        if rows:
            yield f"{'run':{wide}}  status   beats  compared  first wrong line\n"
        for it in rows:
            compared = f"{it.compared}/{it.told}"
            yield f"{name_of(it):{wide}}  {it.state.value:7}{it.beats:7}  {compared:>8}  {it.said()}\n"
        yield from self.unjudged()
        for waiver, count in self.met():
            yield f"{f'waived {count}' if count else 'met nothing'}: {waiver_text(waiver)}\n"
        yield from self.coverage()
        yield from (f"{one_line(it.what)}: {one_line(it.why)}\n" for it in self.lacking[:MOST_NAMED])
        if len(self.lacking) > MOST_NAMED:
            yield f"and {len(self.lacking) - MOST_NAMED} more parts or files\n"
        if self.asked.part:
            yield f"{self.asked.part}: {len(self.asked)} of {self.asked.count} runs\n"
        yield f"{len(self.asked)} runs: {self.counts()}\n"

    def coverage(self) -> Iterator[str]:
        """What the runs reached, where that is asked for; first the runs that don't count in it."""
        if self.covered is None:
            return
        lacking = sorted((it for it in self.made.values() if it.uncovered), key=lambda it: it.job.place)
        for it in lacking[:MOST_NAMED]:
            yield f"not covered: {name_of(it)}: {one_line(it.uncovered)}\n"
        if len(lacking) > MOST_NAMED:
            yield f"not covered: {len(lacking) - MOST_NAMED} more\n"
        yield from (f"{it}\n" for it in self.covered.shown.notes())
        yield f"covered: {self.covered.shown.total()}\n"

    def unjudged(self) -> Iterator[str]:
        """The names of the runs that weren't judged, and how many more there are."""
        count = self.count(State.UNJUDGED)
        if count:
            names = (one_line(it.job.name) for it in self.outcomes() if it.state is State.UNJUDGED)
            more = f" and {count - MOST_NAMED} more" if count > MOST_NAMED else ""
            yield f"unjudged: {', '.join(itertools.islice(names, MOST_NAMED))}{more}\n"

    def counts(self) -> str:
        """How many runs ended in which way, and how much was looked at."""
        states = [it for it in State if it not in SELDOM or self.count(it)]
        beats, compared, told = (sum(getattr(it, name) for it in self.made.values()) for name in ("beats", "compared", "told"))
        ends = ", ".join(f"{self.count(it)} {it.value}" for it in states)
        return f"{ends}; {beats} beats, {compared} of {told} bytes compared"

    # ---- files

    def junit(self) -> Iterator[str]:
        """JUnit XML: a wrong run or a slow one is a failure, one that is waived is skipped, and one that couldn't be judged, or wasn't, an
        error. What each waiver waived is a property, and so is what the runs reached, and each part that isn't there as a whole."""
        bad, waived, count = self.count(State.WRONG) + self.count(State.SLOW), self.count(State.WAIVED), len(self.asked)
        errors = count - bad - waived - self.count(State.RIGHT)
        counts = f'tests="{count}" failures="{bad}" errors="{errors}" time="{self.seconds:.3f}"'
        yield f'<?xml version="1.0" encoding="utf-8"?>\n<testsuites {counts}>\n<testsuite name="tlscore" {counts} skipped="{waived}">\n'
        found = self.properties()
        if found:
            yield f"{ElementTree.tostring(properties_of(found), encoding='unicode')}\n"
        for it in self.outcomes():
            yield f"{ElementTree.tostring(case_of(it), encoding='unicode')}\n"
        yield "</testsuite>\n</testsuites>\n"

    def properties(self) -> List[Tuple[str, str]]:
        """What is said of all runs together: each a name and a value."""
        found = [(waiver_text(waiver), f"waived {count}" if count else "met nothing") for waiver, count in self.met()]
        found += [("covered", self.covered.shown.reached())] if self.covered else []
        return found + [(one_line(it.what), one_line(it.why)) for it in self.lacking]

    def reached(self) -> Iterator[str]:
        """What the runs reached, for zuldegei-cover."""
        if self.covered is not None:
            yield self.covered.cover.json()

    def json(self) -> Iterator[str]:
        """JSON: the seconds of all, what each waiver waived, what the runs reached, and an entry for each run."""
        yield f'{{\n "seconds": {round(self.seconds, 3)},\n'
        yield from (f" {json.dumps(name)}: {json.dumps(entry)},\n" for name, entry in self.heads())
        yield ' "runs": ['
        for at, it in enumerate(self.outcomes()):
            entry = it.part_entry() if self.asked.part else it.entry()
            yield f"{',' if at else ''}\n{textwrap.indent(json.dumps(entry, indent=1), '  ')}"
        yield "\n ]\n}\n"

    def heads(self) -> Iterator[Tuple[str, object]]:
        """What the JSON has ahead of the runs, where there is any of it."""
        if self.asked.part:
            yield "part", self.part_entry()
        if self.waivers:
            yield "waivers", [{"place": it.place, "what": it.what(), "reason": it.reason, "waived": count} for it, count in self.met()]
        if self.covered:
            yield "covered", self.covered.entry()
        if self.lacking:
            yield "lacking", [it._asdict() for it in self.lacking]

    def part_entry(self) -> Dict[str, object]:
        """Which part it is, of which call, why a run of it wasn't judged, and what its runs reached."""
        reached = json.loads(self.covered.cover.json()) if self.covered else None
        return {**self.asked.part._asdict(), "call": self.call, "stopped": self.stopped[0], "reached": reached}


def name_of(it: Outcome) -> str:
    """A run's name as it is shown."""
    return one_line(it.job.name, LONGEST)


def waiver_text(it: Waiver) -> str:
    """A waiver in one line."""
    return one_line(f"{it.place}, {it.what()}: {it.reason}")


def properties_of(found: Sequence[Tuple[str, str]]) -> ElementTree.Element:
    """Properties in JUnit XML."""
    properties = ElementTree.Element("properties")
    for name, value in found:
        ElementTree.SubElement(properties, "property", {"name": name, "value": value})
    return properties


def case_of(it: Outcome) -> ElementTree.Element:
    """A run in JUnit XML."""
    names = {"classname": "tlscore", "name": name_of(it), "time": f"{it.seconds:.3f}"}
    case = ElementTree.Element("testcase", names)
    if it.state is State.WAIVED:
        ElementTree.SubElement(case, "skipped", {"message": it.said()})
    elif it.state is not State.RIGHT:
        kind = "failure" if it.state in (State.WRONG, State.SLOW) else "error"
        ElementTree.SubElement(case, kind, {"type": it.state.value, "message": it.said()}).text = it.said()
    out = f"beats {it.beats}, wrong {it.wrong}, compared {it.compared} of {it.told} bytes"
    out += f", seed {it.job.seed}" if it.job.seed is not None else ""
    ElementTree.SubElement(case, "system-out").text = out + (f", not covered: {one_line(it.uncovered)}" if it.uncovered else "")
    return case
