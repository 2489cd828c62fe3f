"""Which bins were reached, how often and where first; and those of times: gaps within a message, and what passes in one clock."""

from typing import Dict, Iterator, List, Optional, Set, Tuple

from .cover_bins import CLOCKS_BETWEEN, OTHERS_BETWEEN, clocks

LONGEST_GAP = CLOCKS_BETWEEN[-1][0] + 2  # clocks from one beat to the next: of more it needn't be known how many


class Hits:
    """The bins that were reached, each with how often, and in which line first."""

    def __init__(self):
        self.found: Dict[str, List[int]] = {}

    def hit(self, name: str, line: int) -> None:
        known = self.found.get(name)
        if known is None:
            self.found[name] = [1, line]
        else:
            known[0] += 1

    def add(self, name: str, count: int, line: int) -> None:
        """Adds hits, of which the first is in some line."""
        known = self.found.setdefault(name, [0, line])
        known[0] += count
        known[1] = min(known[1], line)


class Times:
    """The times of beats. How long a clock takes is known at the end: it is the least time between two beats."""

    def __init__(self, hits: Hits, clock: Optional[int]):
        self.hits, self.clock = hits, clock
        self.least: Optional[int] = clock
        self.last: Dict[str, int] = {}  # by port, when its last beat passed
        self.gaps: Dict[Tuple[str, int], List[int]] = {}  # by port and time between two beats: how often, and where first
        self.now: Optional[int] = None
        self.ports: Set[str] = set()  # with a beat in this time
        self.line = 0  # of the last beat
        self.has_times = False

    def at(self, time: int) -> None:
        """A line `time`: beats behind it pass then."""
        self.has_times = True
        self.settle(time)

    def settle(self, time: Optional[int] = None) -> None:
        """What passed in one time is whole."""
        if time == self.now and time is not None:
            return
        if len(self.ports) > 1:
            for name in together(self.ports):
                self.hits.hit(f"together/{name}", self.line)
        if self.now is not None and time is not None and time > self.now and self.clock is None:
            self.least = min(self.least or time - self.now, time - self.now)
        self.now = time
        self.ports = set()

    def seen(self, port: str, line: int) -> None:
        """A beat of a port, in the order of lines."""
        self.line = line
        if self.now is not None:
            self.ports.add(port)

    def passed(self, port: str, time: Optional[int]) -> None:
        """A beat that counts."""
        if time is not None:
            self.last[port] = time

    def gap(self, port: str, line: int, time: Optional[int]) -> None:
        """A beat of the message or burst of which the port's last beat was."""
        before = self.last.get(port)
        if time is None or before is None or time < before:
            return
        between = time - before
        if self.least and between > LONGEST_GAP * self.least:
            between = -1  # more clocks than are told apart, since a clock takes no longer than that
        known = self.gaps.setdefault((port, between), [0, line])
        known[0] += 1

    def finish(self) -> None:
        """Names the gaps, once it is known how long a clock takes."""
        self.settle()
        for (port, between), (count, line) in self.gaps.items():
            if self.least:
                many = between // self.least - 1 if between >= 0 else LONGEST_GAP
                self.hits.add(f"gap/{port}/{clocks(max(0, many), CLOCKS_BETWEEN, OTHERS_BETWEEN)}", count, line)


def together(ports: Set[str]) -> Iterator[str]:
    """What is said of the ports that had a beat in one time."""
    clients = {it[1:] for it in ports if it[0] == "A" and it not in ("AW", "AR")}
    if len(clients) > 1:
        yield "A-of-two-clients"
    if any(f"D{it}" in ports for it in clients):
        yield "A-and-D-of-a-client"
    if "AW" in ports and "AR" in ports:
        yield "AW-and-AR"
    if "B" in ports and "R" in ports:
        yield "B-and-R"
        if "last" in ports:
            yield "B-and-last-R"
