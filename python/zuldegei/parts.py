"""Parts of a call of zuldegei-regress, which many machines make: what the JSON of each has, and one report of all."""

import hashlib
import json
from dataclasses import replace
from pathlib import Path
from typing import Callable, Dict, Iterator, List, NamedTuple, Optional, Sequence, TypeVar

from . import __version__
from .beside import Beside
from .command import Fault
from .cover_report import NOT_THIS, Cover, Without, cover_of_entry, natural
from .observation import plural
from .reports import MOST_SEEDS, Asked, Covered, Job, Lacking, Outcome, Part, Report, State
from .waivers import Waiver, waiver_of

MOST_PARTS, MOST_NUMBER, MOST_SECONDS = 10_000, 1 << 64, 1e12
# Fields of a run: numbers, numbers that may be missing, and texts.
NUMBERS, PLACES = ("beats", "wrong", "compared", "told", "late"), ("line", "time")
TEXTS = ("first", "why", "first_late", "uncovered", "unkept")
# What parts of one call have in common, and the words that say it.
WORDS = {
    "version": "the version of zuldegei-regress",
    "files": "RUN",
    "command": "--command",
    "seeds": "--seeds",
    "setup": "the lines of --setup",
    "late": "--late",
    "waivers": "--waive",
    "cover": "--cover",
    "clock": "--clock",
    "without": "--without",
}
T = TypeVar("T")


# ---- what parts of a call have in common


class Call(NamedTuple):
    """A call, as far as its runs and what is said of them depend on it; and what the JSON of each part has of that."""

    asked: Asked
    waivers: Sequence[Waiver]
    withouts: Optional[Sequence[Without]]  # where it is asked what the runs reach
    entry: Dict[str, object]

    @classmethod
    def of(cls, asked: Asked, setup: bytes, beside: Beside, withouts: Optional[Sequence[Without]]) -> "Call":
        """The call of these words."""
        waivers = beside.waivers.all if beside.waivers else ()
        entry = {
            "version": __version__,
            "files": list(asked.files),
            "command": asked.command,
            "seeds": [[it[0], it[-1]] for it in asked.seeds],
            "setup": hashlib.sha256(setup).hexdigest(),
            "late": beside.late,
            "waivers": [[it.place, f"{it.what()} {it.reason}"] for it in waivers],
            "cover": beside.is_covered,
            "clock": beside.clock,
            "without": [[it.line, it.pattern, it.reason] for it in withouts or ()],
        }
        return cls(asked, waivers, withouts, entry)

    @classmethod
    def read(cls, entry: Dict[str, object], part: Part) -> "Call":
        """That of which the JSON of a part has this."""
        asked = Asked([text_in(it) for it in entry["files"]], maybe(text_in, entry["command"]), seeds_in(entry["seeds"]), part)
        waivers = [waiver_of(text_in(place), text_in(line).encode()) for place, line in entry["waivers"]]
        withouts = [Without(number_in(line), text_in(pattern), text_in(reason)) for line, pattern, reason in entry["without"]]
        if None in waivers or type(entry["cover"]) is not bool:
            raise ValueError(entry)
        return cls(asked, waivers, withouts if entry["cover"] else None, entry)

    def apart(self, other: "Call") -> str:
        """By which words another call has other runs, or asks something else of them."""
        differ = [word for name, word in WORDS.items() if self.entry.get(name) != other.entry.get(name)]
        return " and ".join(differ)


def seeds_in(found: Sequence[Sequence[object]]) -> List[range]:
    """Ranges of seeds, no more than there may be."""
    ends = [(natural(first), natural(last)) for first, last in found]
    if any(last < first for first, last in ends) or sum(last + 1 - first for first, last in ends) > MOST_SEEDS:
        raise ValueError(found)
    return [range(first, last + 1) for first, last in ends]


def number_in(value: object) -> int:
    """A number that counts, and isn't absurd."""
    if natural(value) > MOST_NUMBER:
        raise ValueError(value)
    return value


def text_in(value: object) -> str:
    if type(value) is not str:
        raise ValueError(value)
    return value


def maybe(read: Callable[[object], T], value: object) -> Optional[T]:
    return None if value is None else read(value)


# ---- a part


class Found:
    """What a file has of a part."""

    def __init__(self, path: str):
        found = json.loads(Path(path).read_text(encoding="utf-8"))
        entry = found["part"]
        self.path, self.part = path, Part(number_in(entry["number"]), number_in(entry["of"]))
        if not 1 <= self.part.number <= self.part.of <= MOST_PARTS:
            raise ValueError(self.part)
        self.call = Call.read(entry["call"], self.part)
        self.stopped, self.seconds = text_in(entry["stopped"]), seconds_in(found["seconds"])
        self.cover = cover_of_entry(entry["reached"]) if self.call.withouts is not None else Cover()
        self.made = list(self.outcomes(found["runs"]))

    def outcomes(self, runs: Sequence[Dict[str, object]]) -> Iterator[Outcome]:
        """What came of its runs that were judged."""
        if len(runs) != len(self.call.asked):
            raise ValueError("another number of runs")
        made = (outcome_of(job, it, len(self.call.waivers)) for job, it in zip(self.call.asked, runs))
        return (it for it in made if it.state is not State.UNJUDGED)

    def lack(self) -> Iterator[Lacking]:
        """What isn't there of it."""
        count = len(self.call.asked)
        if len(self.made) < count:
            yield Lacking(str(self.part), f"of its {plural(count, 'run')} {count - len(self.made)} weren't judged")


def outcome_of(job: Job, found: Dict[str, object], waivers: int) -> Outcome:
    """Reads what `Outcome.part_entry` gave."""
    if (found["run"], found["seed"]) != (job.name, job.seed):
        raise ValueError("another run")
    counts = tuple((number_in(place), number_in(count)) for place, count in found["waivers"])
    if any(place >= waivers for place, _ in counts):
        raise ValueError("another waiver")
    values = {name: number_in(found[name]) for name in NUMBERS}
    values.update({name: maybe(number_in, found[name]) for name in PLACES})
    values.update({name: text_in(found[name]) for name in TEXTS})
    return Outcome(job, State(found["status"]), seconds_in(found["seconds"]), waivers=counts, **values)


def seconds_in(value: object) -> float:
    if type(value) not in (int, float) or not 0 <= value <= MOST_SECONDS:
        raise ValueError(value)
    return value


# ---- all parts


class Parts:
    """Parts of a call, as far as they are there: of this one, in so many parts, or of that of the first that is taken."""

    def __init__(self, call: Optional[Call] = None, of: int = 0):
        self.call, self.of, self.first = call, of, "this call"
        self.found: Dict[int, Found] = {}
        self.lacking: List[Lacking] = []

    def add(self, path: str) -> None:
        """Takes the part of a file. A file that has none as a whole is noted; a part of another call, or that is there, is refused."""
        try:
            it = Found(path)
        except OSError as why:
            self.lacking.append(Lacking(path, why.strerror or str(why)))
        except (*NOT_THIS, Fault):
            is_empty = not Path(path).read_bytes()
            self.lacking.append(Lacking(path, "it is empty" if is_empty else "it is cut, or isn't what --part writes"))
        else:
            self.take(it)

    def take(self, it: Found) -> None:
        """Takes a part."""
        if self.call is None:
            self.call, self.of, self.first = it.call, it.part.of, it.path
        apart = self.call.apart(it.call)
        if apart:
            raise Fault(f"{it.path} isn't of the call of {self.first}: they differ in {apart}")
        if it.part.of != self.of:
            raise Fault(f"{it.path} is one of {it.part.of} parts, and {self.first} of {self.of}")
        if it.part.number in self.found:
            raise Fault(f"{it.part} is there twice: {self.found[it.part.number].path} and {it.path}")
        self.found[it.part.number] = it

    def report(self) -> Report:
        """What came of the runs of all parts."""
        if self.call is None:
            raise Fault(f"no file has a part: {'; '.join(f'{it.what}: {it.why}' for it in self.lacking)}")
        cover, made, stopped, lacking = Cover(), {}, [], list(self.lacking)
        for part in (Part(number, self.of) for number in range(1, self.of + 1)):
            it = self.found.get(part.number)
            stopped.append(it.stopped if it else f"{part} is missing")
            lacking += it.lack() if it else [Lacking(str(part), "missing")]
            if it:
                cover.add(it.cover)
                made.update({outcome.job.place: outcome for outcome in it.made})
        covered = Covered(cover, self.call.withouts) if self.call.withouts is not None else None
        asked = replace(self.call.asked, part=None)
        return Report(asked, made, sum(it.seconds for it in self.found.values()), stopped, self.call.waivers, covered, lacking)


def merged(paths: Sequence[str], call: Optional[Call] = None, of: int = 0) -> Report:
    """What came of the runs of parts that files have: of those of a call, or of the one that the first has."""
    parts = Parts(call, of)
    for path in paths:
        parts.add(path)
    return parts.report()
