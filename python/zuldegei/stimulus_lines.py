"""The lines of a stimulus, as zuldegei-stimulus prints them and players read them (docs/STIMULUS.md)."""

import re
from typing import Dict, Iterable, Iterator, List, NamedTuple, Tuple

from .command import Fault
from .forms import ADDRESS, FLAG, LANES, PAYLOAD

ANY_SOURCE = "*"  # any that is free
CLIENT, NUMBER = "[0-7]", r"(?:25[0-5]|2[0-4]\d|1?\d?\d)"
CLOCKS, PACE = r"\d{1,6}", r"(?:1[0-5]|\d)"
# What stands behind the first word of a line.
FORMS: Dict[str, Tuple[str, ...]] = {
    "seed": (r"\d{1,18}",),
    "a": (CLIENT, NUMBER, NUMBER, NUMBER, rf"(?:{NUMBER}|\*)", ADDRESS, LANES, PAYLOAD, FLAG),
    "wait": (CLIENT, CLOCKS),
    "hold": (CLIENT, CLOCKS),
    "await": (CLIENT,),
    "pace": (CLIENT, PACE, PACE),
    "meet": (),
}
PATTERNS = {kind: re.compile(" ".join(words), re.ASCII) for kind, words in FORMS.items()}
SHOWN = 80


class Line(NamedTuple):
    """A line: its first word, and those behind it."""

    number: int
    kind: str
    words: List[str]


def lines_of(text: Iterable[str]) -> Iterator[Line]:
    """The lines of a stimulus that say something; a fault names one that isn't of it."""
    for number, line in enumerate(text, 1):
        kind, *words = line.split() or ["#"]
        if kind.startswith("#"):
            continue
        if kind not in PATTERNS or not PATTERNS[kind].fullmatch(" ".join(words)):
            raise Fault(f"line {number} of the stimulus, {line.strip()[:SHOWN]!r}, isn't one of docs/STIMULUS.md")
        yield Line(number, kind, words)
