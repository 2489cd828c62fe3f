"""What runs reached in all: counts that are added, in any order, and what is shown of them as text, JSON and lcov's .info."""

import json
import re
from dataclasses import dataclass, field
from fnmatch import fnmatchcase
from functools import cached_property
from pathlib import Path
from typing import Dict, Iterator, List, NamedTuple, Optional, Sequence, Tuple

from .command import Fault
from .cover_bins import CORNERS, GROUPS, RANK
from .cover_read import Reader
from .observation import plural
from .whole import written

FORMAT = "zuldegei-cover"
VERSION = 1
NAMED = 3  # bins that a row of the table names
NOT_THIS = (ValueError, TypeError, KeyError, AttributeError, RecursionError)  # how JSON that has something else can't be read
NAME = re.compile(r"[a-z-]+/[\w+/-]+", re.ASCII)
PART = re.compile(r"(\d+)")


class First(NamedTuple):
    """Where a bin was reached first: a run, and a line of it."""

    run: str
    line: int


@dataclass
class Count:
    """How often a bin was reached, and where first: the least by run and line."""

    count: int = 0
    first: Optional[First] = None

    def add(self, other: "Count") -> None:
        self.count += other.count
        self.first = min((it for it in (self.first, other.first) if it is not None), default=None)

    def entry(self) -> list:
        return [self.count, *(self.first or ())]


@dataclass
class Cover:
    """What runs reached."""

    runs: int = 0
    beats: int = 0
    bins: Dict[str, Count] = field(default_factory=dict)
    beside: Dict[str, Count] = field(default_factory=dict)  # what beats reached that the set-up of their run hasn't

    def add(self, other: "Cover") -> None:
        """Adds what other runs reached."""
        self.runs += other.runs
        self.beats += other.beats
        for mine, its in ((self.bins, other.bins), (self.beside, other.beside)):
            add_all(mine, its)

    def json(self) -> str:
        """JSON that doesn't depend on the order in which runs were added."""
        found = {FORMAT: VERSION, "runs": self.runs, "beats": self.beats}
        parts = [f"{json.dumps(name)}: {json.dumps(value)}" for name, value in found.items()]
        for name, counts in (("bins", self.bins), ("beside", self.beside)):
            entries = ",\n".join(f"  {json.dumps(it)}: {json.dumps(counts[it].entry())}" for it in sorted(counts, key=place_of))
            parts.append(f'"{name}": {{\n{entries}\n }}' if entries else f'"{name}": {{}}')
        return "{\n " + ",\n ".join(parts) + "\n}\n"


def add_all(mine: Dict[str, Count], its: Dict[str, Count]) -> None:
    for name, count in its.items():
        mine.setdefault(name, Count()).add(count)


def cover_of(run: str, reader: Reader) -> Cover:
    """What one run reached."""
    cover = Cover(1, reader.beats, {name: Count() for name in reader.bins()})
    for name, (count, line) in reader.hits.found.items():
        counts = cover.bins if name in cover.bins else cover.beside
        counts[name] = Count(count, First(run, line))
    return cover


def cover_of_json(text: str, name: str) -> Cover:
    """Reads what `json` wrote."""
    try:
        return cover_of_entry(json.loads(text))
    except NOT_THIS as why:
        raise Fault(f"{name} isn't what zuldegei-cover --json writes, or zuldegei-regress --cover") from why


def cover_of_entry(found: Dict[str, object]) -> Cover:
    """Reads what the JSON of a cover has; what it hasn't is one of NOT_THIS."""
    if found[FORMAT] != VERSION:
        raise ValueError("another format")
    counts = [{a_name(it): count_of(entry) for it, entry in found[part].items()} for part in ("bins", "beside")]
    return Cover(natural(found["runs"]), natural(found["beats"]), *counts)


def a_name(name: str) -> str:
    """A name that a bin may have."""
    if not NAME.fullmatch(name) or name.partition("/")[0] not in RANK:
        raise ValueError(name)
    return name


def natural(value: object) -> int:
    """A number that counts."""
    if type(value) is not int or value < 0:
        raise ValueError(value)
    return value


def count_of(entry: Sequence[object]) -> Count:
    """A count, with the place of its first hit where it isn't zero."""
    if len(entry) == 1 and natural(entry[0]) == 0:
        return Count()
    count, run, line = entry
    if type(run) is not str or natural(count) == 0:
        raise ValueError(entry)
    return Count(count, First(run, natural(line)))


def place_of(name: str) -> Tuple[int, List[Tuple[int, object]]]:
    """A bin's place among all: by its group, and then by its name, in which numbers count as such."""
    group, _, rest = name.partition("/")
    return RANK.get(group, len(RANK)), [(0, int(it)) if it.isdigit() and it.isascii() else (1, it) for it in PART.split(rest)]


# ---- bins that are left out


@dataclass
class Without:
    """Bins that are left out: a pattern of their names, and the reason; and which were found."""

    line: int
    pattern: str
    reason: str
    bins: List[str] = field(default_factory=list)


def withouts_of(path: Path) -> List[Without]:
    """Reads a file of lines `without PATTERN REASON`."""
    found = []
    for number, line in enumerate(path.read_text(errors="replace").splitlines(), 1):
        words = line.split(None, 2)
        if not words or words[0].startswith("#"):
            continue
        if len(words) < 3 or words[0] != "without":
            raise Fault(f"line {number} of {path}, {line[:80]!r}, isn't `without PATTERN REASON`")
        found.append(Without(number, words[1], words[2]))
    return found


# ---- what is shown


class Row(NamedTuple):
    """A group or a rule, and its bins."""

    name: str
    says: str
    bins: List[str]
    missed: List[str]

    @property
    def hit(self) -> int:
        return len(self.bins) - len(self.missed)


class Shown:
    """What is shown of a cover, without the bins that are left out."""

    def __init__(self, cover: Cover, withouts: Sequence[Without] = ()):
        self.cover, self.withouts = cover, withouts
        self.counts: Dict[str, Count] = {}
        for name in sorted(cover.bins, key=place_of):
            left_out = next((it for it in withouts if fnmatchcase(name, it.pattern)), None)
            if left_out:
                left_out.bins.append(name)
            else:
                self.counts[name] = cover.bins[name]

    def row(self, name: str, says: str, bins: List[str]) -> Row:
        return Row(name, says, bins, [it for it in bins if not self.counts[it].count])

    @cached_property
    def groups(self) -> List[Row]:
        """Each group with its bins."""
        of_group: Dict[str, List[str]] = {}
        for name in self.counts:
            of_group.setdefault(name.partition("/")[0], []).append(name)
        return [self.row(it.name, it.says, of_group.get(it.name, [])) for it in GROUPS]

    @cached_property
    def rules(self) -> List[Row]:
        """Each rule with its corners."""
        of_rule = {rule: [it for it in self.counts if any(fnmatchcase(it, at) for at in patterns)] for rule, patterns in CORNERS.items()}
        return [self.row(rule, ", ".join(CORNERS[rule]), bins) for rule, bins in of_rule.items()]

    @cached_property
    def missed(self) -> List[str]:
        """The bins that were never reached."""
        return [it for it, count in self.counts.items() if not count.count]

    @property
    def hit(self) -> int:
        """How many bins were reached."""
        return len(self.counts) - len(self.missed)

    def reached(self) -> str:
        """How many bins were reached of how many."""
        count = len(self.counts)
        return f"{self.hit} of {plural(count, 'bin')}, {percent(self.hit, count)} %"

    def total(self) -> str:
        """The last line."""
        return f"{plural(self.cover.runs, 'run')}, {plural(self.cover.beats, 'beat')}: {self.reached()}"

    def notes(self) -> Iterator[str]:
        """What is said of bins that are left out, and of those that no set-up has."""
        for it in self.withouts:
            hit = [name for name in it.bins if self.cover.bins[name].count]
            if not it.bins:
                yield f"without line {it.line}: no bin that is left has a name like {it.pattern}"
            elif hit:
                yield f"without line {it.line}: {plural(len(hit), 'bin')} left out and reached all the same: {some(hit)}"
        left_out = sum(len(it.bins) for it in self.withouts)
        if left_out:
            yield f"{plural(left_out, 'bin')} left out"
        beside = [it for it in sorted(self.cover.beside, key=place_of) if it not in self.cover.bins]
        if beside:
            yield f"reached, and of no set-up: {some(beside)}"

    # ---- text

    def text(self, is_all: bool) -> str:
        """The table of groups, the rules whose corners weren't all reached, and how much it is."""
        lines = [f"{'group':10} {'bins':>6} {'hit':>6} {'%':>5}  never reached"]
        lines += [text_of_group(it) for it in self.groups]
        rules = [it for it in self.rules if it.missed]
        lines += ["", f"{'rule':26} {'corners':>7} {'hit':>6} {'%':>5}"] if rules else []
        lines += [f"{it.name:26} {len(it.bins):7} {it.hit:6} {percent(it.hit, len(it.bins)):>5}" for it in rules]
        lines += ["", *self.missed] if is_all and self.missed else []
        return "\n".join([*lines, "", *self.notes(), self.total()])

    # ---- lcov

    def lcov(self, path: Path) -> None:
        """Writes lcov's .info, and in a folder beside it a file for each group, of which each line is a bin."""
        folder = Path(f"{path}.bins")
        folder.mkdir(exist_ok=True)
        rows = [it for it in self.groups if it.bins]
        for row in rows:
            with written(folder / row.name) as file:
                file.write("".join(f"{it}\n" for it in row.bins))
        with written(path) as file:
            file.write("".join(self.record(it, folder.resolve() / it.name) for it in rows))

    def record(self, row: Row, file: Path) -> str:
        """A group in an .info file."""
        data = [f"DA:{at},{self.counts[it].count}" for at, it in enumerate(row.bins, 1)]
        return "\n".join(["TN:", f"SF:{file}", *data, f"LF:{len(row.bins)}", f"LH:{row.hit}", "end_of_record", ""])


def percent(hit: int, count: int) -> str:
    """Per cent, to a tenth and never rounded up; nothing of nothing is nothing."""
    tenths = 1000 * hit // count if count else 0
    return f"{tenths // 10}.{tenths % 10}"


def some(found: Sequence[str]) -> str:
    """The first of some names."""
    more = f" and {len(found) - NAMED} more" if len(found) > NAMED else ""
    return ", ".join(found[:NAMED]) + more


def text_of_group(row: Row) -> str:
    """A group's line in the table."""
    if not row.bins:
        return f"{row.name:10} {'-':>6} {'-':>6} {'-':>5}  {why_none(row.name)}"
    missed = some([it.partition("/")[2] for it in row.missed])
    return f"{row.name:10} {len(row.bins):6} {row.hit:6} {percent(row.hit, len(row.bins)):>5}  {missed}".rstrip()


def why_none(name: str) -> str:
    """Why a group has no bins."""
    needs = GROUPS[RANK[name]].needs
    return f"none: no line `{needs}`, or all are left out" if needs else "none by the set-up, or all are left out"
