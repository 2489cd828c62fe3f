"""How long the beats of each port waited for ready, in clocks, by the lines `waited PORT CLOCKS` of an observation."""

from typing import Dict, Iterator, List, Optional, Tuple

from .cover_bins import WAITS
from .latency import Times
from .observation import A, AR, AW, B, D, FIELDS, R, W, Beat

ORDER = (A, D, AW, W, B, AR, R)


class Port:
    """The beats of a port, and which of them was the first that waited longest."""

    def __init__(self):
        self.times = Times()
        self.longest: Optional[Beat] = None

    def add(self, it: Beat, clocks: int) -> None:
        if clocks > self.times.most:
            self.longest = it
        self.times.add(clocks, 0)


class Waits:
    """Takes the beats of an observation, and tells how long they waited: one without a line `waited` not at all."""

    def __init__(self):
        self.of_port: Dict[str, Port] = {}
        self.ahead: Dict[str, int] = {}  # by port, for how long its next beat waited
        self.are_told = False  # whether there is any such line

    def take(self, it: Beat) -> None:
        """Takes a line."""
        if it.kind == WAITS:
            self.are_told = True
            self.ahead[it.words[0]] = int(it.words[1])
        elif it.kind in FIELDS:
            port = f"{it.kind}{int(it.words[0])}" if it.kind in (A, D) else it.kind
            self.of_port.setdefault(port, Port()).add(it, self.ahead.pop(port, 0))

    def ports(self) -> List[Tuple[str, Port]]:
        """Each port with its beats, where it is told how long any waited."""
        return sorted(self.of_port.items(), key=lambda it: place_of(it[0])) if self.are_told else []


def place_of(port: str) -> Tuple[int, int]:
    """A port's place among all: by its channel, and by its client."""
    channel = port.rstrip("0123456789")
    return ORDER.index(channel), int(port[len(channel) :] or 0)
