"""Waivers: wrong lines that are known, by their rule and by a client or pages, and why they are let pass."""

import re
from collections import Counter
from dataclasses import dataclass
from pathlib import Path
from typing import Iterable, List, NamedTuple, Optional, Sequence

from .command import Fault, one_line
from .forms import AXI_RULES
from .history import Burst, History, Request
from .observation import A, AR, AT_END, AW, PAGE, Observation, Verdict, Wrong, check_same, number, verdict_of

# The names of the rules that tlscore tells of, by their kinds, as docs/SCOREBOARD.md has them under "Verdicts".
RULES = {
    "client": ("NO_CLIENT",),
    "request": tuple("OPCODE LEVEL SIZE ATOMIC_SIZE ALIGN PARAM MASK CORRUPT SOURCE_BUSY BURST_CONTROL X UNFINISHED".split()),
    "axi": (*AXI_RULES, "UNANSWERED"),
    "reply": tuple("UNASKED INTERLEAVED OPCODE SIZE DENIED CORRUPT PAYLOAD X UNANSWERED".split()),
}
FORM = re.compile(r"(\S+) +(\S+) +(?:client +(\S+)|pages +(\S+) +(\S+))(?: +(.*))?")
MOST_CLIENT, LAST_PAGE = 7, (1 << 20) - 1
IN_ORDER = "a line is `KIND RULE client N REASON` or `KIND RULE pages FIRST COUNT REASON`"


class Waiver(NamedTuple):
    """A line of a file of waivers."""

    place: str  # its file and line
    kind: str
    rule: str
    client: Optional[int]
    pages: Optional[range]
    reason: str

    def what(self) -> str:
        """What it waives, as its line says it."""
        where = f"client {self.client}" if self.pages is None else f"pages {self.pages[0]:x} {len(self.pages)}"
        return f"{self.kind} {self.rule} {where}"

    def fits(self, wrong: Wrong, client: Optional[int], pages: Sequence[int]) -> bool:
        """Whether it waives a wrong line, which is of this client, and of these pages."""
        if (wrong.kind, wrong.name) != (self.kind, self.rule):
            return False
        return client == self.client if self.pages is None else bool(pages) and all(it in self.pages for it in pages)


@dataclass
class Waived:
    """Wrong lines of a run that no waiver lets pass, and how many each waiver does."""

    left: List[Wrong]
    counts: "Counter[int]"  # by the place of a waiver among all


class Waivers:
    """All waivers of a file, in their order: a wrong line is waived by the first that fits it."""

    def __init__(self, path: str):
        lines = Path(path).read_bytes().split(b"\n")
        found = (waiver_of(f"{path} line {place}", line) for place, line in enumerate(lines, 1))
        self.all = [it for it in found if it]

    def applied(self, observation: Path, verdict: str) -> Waived:
        """What they let pass of a run."""
        told = verdict_of(verdict)
        rules = {(it.kind, it.rule) for it in self.all}
        if not any((it.kind, it.name) in rules for it in told.wrong):
            return Waived(told.wrong, Counter())
        seen = Observation(observation.read_text(errors="replace"))
        check_same(seen, told)
        places = Places(seen, told)
        found = [self.first(it, places) for it in told.wrong]
        left = [wrong for wrong, waiver in zip(told.wrong, found) if waiver is None]
        return Waived(left, Counter(it for it in found if it is not None))

    def first(self, wrong: Wrong, places: "Places") -> Optional[int]:
        """The first waiver that fits a wrong line."""
        client, pages = places.client(wrong), places.pages(wrong)
        return next((place for place, it in enumerate(self.all) if it.fits(wrong, client, pages)), None)


class Places:
    """Of which client and of which pages a wrong line is: TileLink's pages for a rule of requests and replies, else those of the AXI4 port."""

    def __init__(self, observation: Observation, verdict: Verdict):
        self.observation, self.history = observation, History(observation, verdict)

    def client(self, wrong: Wrong) -> Optional[int]:
        if wrong.kind == "axi" or wrong.client is not None:
            return wrong.client
        return number(self.observation.lines[wrong.line].split()[1])

    def pages(self, wrong: Wrong) -> List[int]:
        """The pages of a wrong line; none, where the beats don't show which."""
        if wrong.name in AT_END:
            return pages_of(self.unanswered(wrong))
        found = self.history.of_line.get(wrong.line)
        if found is not None:
            return pages_of([found])
        words = self.observation.lines[wrong.line].split()
        address = {A: words[6:7], AW: words[2:3], AR: words[2:3]}.get(words[0], [])
        return [it // PAGE for it in (number(it, 16) for it in address) if it is not None]

    def unanswered(self, wrong: Wrong) -> Iterable[object]:
        """The requests or bursts without an answer that a line about the end may tell of."""
        if wrong.side is None:
            return [it for it in self.history.requests if it.ended is None and (it.client, it.source) == (wrong.client, wrong.source)]
        is_write = wrong.side == "write"
        return [it for it in self.history.bursts if it.answer is None and (it.is_write, it.id) == (is_write, wrong.id)]


def pages_of(found: Iterable[object]) -> List[int]:
    """The pages in which requests and bursts begin."""
    return [it.address // PAGE for it in found if isinstance(it, (Request, Burst))]


def waiver_of(place: str, line: bytes) -> Optional[Waiver]:
    """The waiver of a line; nothing, where it is empty or a comment."""
    try:
        text = line.decode().strip()
    except UnicodeDecodeError as why:
        raise Fault(f"{place}: it isn't UTF-8") from why
    if not text or text.startswith("#"):
        return None
    found = FORM.fullmatch(text)
    if not found:
        raise refused(place, text, IN_ORDER)
    kind, rule, client, first, count, reason = found.groups()
    if rule not in RULES.get(kind, ()):
        raise refused(place, text, f"tlscore has no rule {kind} {rule}")
    if not reason:
        raise refused(place, text, "it has no reason")
    if client is not None and kind == "axi":
        raise refused(place, text, "a rule of the AXI4 port is of no client: name pages")
    its_client = in_range(client, 10, MOST_CLIENT) if client is not None else None
    pages = pages_from(first, count) if client is None else None
    if its_client is None and pages is None:
        raise refused(place, text, "a client is 0 to 7" if client is not None else "FIRST is a page in hexadecimal, COUNT how many there are")
    return Waiver(place, kind, rule, its_client, pages, reason)


def pages_from(first: str, count: str) -> Optional[range]:
    """Pages, where these are numbers of some."""
    begin, pages = in_range(first, 16, LAST_PAGE), in_range(count, 10, LAST_PAGE + 1)
    return range(begin, begin + pages) if begin is not None and pages and begin + pages <= LAST_PAGE + 1 else None


def in_range(text: str, base: int, most: int) -> Optional[int]:
    """A number of up to `most`."""
    digits = "0123456789abcdefABCDEF"[: 10 if base == 10 else 22]
    value = int(text, base) if 0 < len(text) <= 8 and set(text) <= set(digits) else most + 1
    return value if value <= most else None


def refused(place: str, text: str, why: str) -> Fault:
    return Fault(f"{place}, {one_line(text, 80)!r}: {why}")
