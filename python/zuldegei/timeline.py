"""The time line of an observation, as one HTML file without a network: requests by client and source, bursts by ID, and what is wrong."""

import itertools
import json
from pathlib import Path
from string import Template
from typing import Dict, List, Optional, Sequence

from .history import Burst, History, Request
from .index import Index
from .observation import AT_END, GET, Beat, Verdict, Wrong

HERE = Path(__file__).parent
LONGEST = 14  # characters of an operation's name in a bar
NOT_ASKED = "not asked for"


class Timeline:
    """The bars, rows and marks of a picture."""

    def __init__(self, history: History, verdict: Verdict, index: Index):
        self.history, self.observation, self.verdict, self.index = history, history.observation, verdict, index
        self.last = max([self.time(it.line) for it in self.observation.beats()] + [1])
        names = sorted({self.request_row(it) for it in history.requests}) + sorted({self.burst_row(it) for it in history.bursts})
        self.rows: Dict[tuple, int] = {name: at for at, name in enumerate([*names, (2, 0, 0)])}

    def time(self, line: int) -> int:
        """A line's time; where the observation has no times, its number."""
        time = self.observation.times[line] if line < len(self.observation.times) else None
        return line if time is None else time

    def request_row(self, request: Request) -> tuple:
        return 0, request.client, request.source

    def burst_row(self, burst: Burst) -> tuple:
        return 1, 0 if burst.is_write else 1, burst.id

    def row_name(self, row: tuple) -> str:
        """What a row is called."""
        kind, part, place = row
        return f"client {part} source {place}" if kind == 0 else f"{'read' if part else 'write'} ID {place}" if kind == 1 else NOT_ASKED

    def beats(self, beats: Sequence[Beat], is_reply: bool) -> List[list]:
        return [[self.time(it.line), it.line, int(is_reply)] for it in beats]

    def request_bar(self, request: Request) -> list:
        """A bar from a request's first beat to the last of its reply."""
        kind = "put" if request.is_put else "get" if not request.has_data and request.opcode == GET else "other"
        label = f"{request.name().partition(' of ')[0][:LONGEST]} {request.address:x}+{request.bytes}"
        beats = self.beats(request.beats, False) + self.beats(request.replies, True)
        end = self.time(request.ended) if request.ended is not None else self.last
        return [self.rows[self.request_row(request)], kind, label, self.time(request.begun), end, beats]

    def burst_bar(self, burst: Burst) -> list:
        """A bar from a burst's address to its last answer."""
        beats = self.beats([burst.beat, *(it.beat for it in burst.transfers if burst.is_write)], False)
        back = [burst.answer] if burst.is_write and burst.answer else [it.beat for it in burst.transfers if not burst.is_write]
        beats += self.beats(back, True)
        label = f"{burst.beat.kind} {burst.address:x}+{burst.last_byte - burst.address + 1}"
        end = max(it[0] for it in beats) if burst.answer else self.last
        return [self.rows[self.burst_row(burst)], burst.beat.kind.lower(), label, min(it[0] for it in beats), end, beats]

    def mark(self, wrong: Wrong, behind: Sequence[object]) -> list:
        """A wrong beat: its time, its line, its text, the row of a mark of its own (none where it stands in a bar), when what is behind it
        began, and the first lines of that."""
        time = self.time(wrong.line)
        found = self.history.of_line.get(wrong.line)
        waiting = self.waiting(wrong)
        if found is not None:
            row = -1
        elif waiting is not None:
            row = self.rows[self.request_row(waiting) if isinstance(waiting, Request) else self.burst_row(waiting)]
        else:
            row = self.rows[(2, 0, 0)]
        firsts = [it.begun if isinstance(it, Request) else it.beat.line for it in (*behind, found, waiting) if it is not None]
        return [time, wrong.line, wrong.text, row, min([self.time(it) for it in firsts] + [time]), sorted(set(firsts))]

    def waiting(self, wrong: Wrong) -> Optional[object]:
        """What a beat that belongs to nothing is shown beside: a request or burst without an answer, or the last request of its source."""
        if wrong.side is not None:
            return self.index.unanswered.get((wrong.side == "write", wrong.id))
        client, source = wrong.client, wrong.source
        if wrong.name == "UNASKED":
            words = self.observation.lines[wrong.line].split()
            client, source = (int(it) if it.isdigit() else None for it in (words[1], words[5]))
        return self.index.last_of(client, source, wrong.line, wrong.name in AT_END)

    def data(self, texts: List[str], causes: Sequence[Sequence[object]], late: Sequence[int]) -> dict:
        """All that the page's script draws; `causes` has what is behind each of the first wrong beats, `late` the first lines of what took
        too long."""
        bars = [self.request_bar(it) for it in self.history.requests] + [self.burst_bar(it) for it in self.history.bursts]
        resets = [self.time(it.line) for it in self.history.events if it.name == "reset"]
        return {
            "rows": [self.row_name(it) for it in self.rows],
            "bars": sorted(bars, key=lambda it: it[3]),
            "wrong": [self.mark(it, behind) for it, behind in zip(self.verdict.wrong, itertools.chain(causes, itertools.repeat(())))],
            "lines": self.observation.lines,
            "resets": resets,
            "late": list(late),
            "texts": texts,
        }


def page(
    history: History, verdict: Verdict, texts: List[str], causes: Sequence[Sequence[object]], title: str,
    index: Optional[Index] = None, late: Sequence[int] = (),
) -> str:  # fmt: skip
    """The page of a time line."""
    drawn = Timeline(history, verdict, index or Index(history)).data(texts, causes, late)
    data = json.dumps(drawn, separators=(",", ":")).replace("<", "\\u003c")
    escaped = title.replace("&", "&amp;").replace("<", "&lt;")
    return Template((HERE / "timeline.html").read_text()).substitute(
        TITLE=escaped, DATA=data, SCRIPT=(HERE / "timeline.js").read_text()
    )  # fmt: skip
