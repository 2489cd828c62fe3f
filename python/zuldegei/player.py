"""Plays a stimulus at the ports of TileLink clients, clock by clock, for a driver of yours (docs/STIMULUS.md, "In Python").

    player = Player(open("play.lines"), clients=2)
    while not player.is_over:
        player.clock()
        for port in player.ports:
            ...  # drive port.offer on channel A and port.is_ready on channel D; then tell what passed by port.taken() and port.heard(..)
"""

import random
from collections import deque
from typing import Callable, Deque, Dict, Iterable, List, Optional, Set, TextIO

from .client import ABeat
from .command import Fault
from .cover_setup import beats_of
from .stimulus_lines import ANY_SOURCE, Line, lines_of

PACES, WITH_DATA, MOST_CLIENTS, MOST_SOURCES = 16, 1, 8, 256


class Port:
    """A client's port. In a clock `offer` is the beat on channel A, or nothing, and `is_ready` whether a beat of channel D is taken."""

    def __init__(self, player: "Player", client: int, sources: int):
        self.player, self.client, self.sources = player, client, sources
        self.lines: Deque[Line] = deque()
        self.offer: Optional[ABeat] = None
        self.is_ready = False
        self.busy: Set[int] = set()  # sources whose replies are still to come
        self.left = self.came = 0  # beats of the message behind the one that is offered; beats of the reply that came
        self.source = 0  # of the message that was begun last
        self.waiting = self.holding = self.a_pace = self.d_pace = 0
        self.is_met = False  # it stands at a line `meet`
        self.untaken = 0  # whole requests whose replies the lines that were played don't take
        self.has_heard = False  # a reply has come since
        self.is_first = True  # the beat that is offered begins a message

    @property
    def is_over(self) -> bool:
        """Whether all its lines are played, and all replies have come."""
        return not self.lines and self.offer is None and not self.busy

    # ---- a clock

    def clock(self) -> None:
        """Another clock: what is offered stays until it is taken."""
        self.is_ready = not self.holding and self.lot(PACES) >= self.d_pace
        self.holding = max(0, self.holding - 1)
        if self.offer is not None:
            return
        rests = self.waiting > 0 or self.lot(PACES) < self.a_pace
        self.waiting = max(0, self.waiting - 1)
        while not rests and self.lines:
            rests = STEPS[self.lines[0].kind](self, self.lines[0])

    def lot(self, bound: int) -> int:
        return self.player.lot.randrange(bound)

    # Each of these does a line, or leaves it there; it tells whether the clock ends with it.

    def beat(self, it: Line) -> bool:
        self.is_first = self.left == 0
        if self.is_first:
            source = self.free_source() if it.words[4] == ANY_SOURCE else int(it.words[4])
            if source is None or source in self.busy:
                return True
            self.source = source
            self.busy.add(source)
        self.offer = beat_of(it, self.source)
        self.left = (self.left or beats_of(self.offer.opcode, self.offer.size)) - 1
        self.lines.popleft()
        return True

    def free_source(self) -> Optional[int]:
        free = [it for it in range(self.sources) if it not in self.busy]
        return free[self.lot(len(free))] if free else None

    def wait(self, it: Line) -> bool:
        self.waiting = max(0, int(it.words[1]) - 1)  # beside this clock
        self.lines.popleft()
        return it.words[1].strip("0") != ""

    def hold(self, it: Line) -> bool:
        self.holding = int(it.words[1])
        self.lines.popleft()
        return False

    def set_pace(self, it: Line) -> bool:
        self.a_pace, self.d_pace = int(it.words[1]), int(it.words[2])
        self.lines.popleft()
        return False

    def await_all(self, it: Line) -> bool:
        if not self.busy:
            self.lines.popleft()
        return bool(self.busy)

    def meet(self, it: Line) -> bool:
        self.is_met = True
        return True

    def reset(self) -> None:
        """All that is under way is gone, and so are the beats that a message still has; a line `meet` is still to be met."""
        while self.left and self.lines:
            self.left -= self.lines.popleft().kind == "a"
        self.offer, self.is_ready, self.is_met, self.has_heard = None, False, False, False
        self.busy.clear()
        self.left = self.came = self.waiting = self.holding = self.a_pace = self.d_pace = self.untaken = 0

    # ---- what passed

    def taken(self) -> None:
        """The beat that is offered was taken."""
        if self.is_first and self.has_heard:
            self.player.note("drain", *[f"take {self.client}"] * self.untaken)
            self.untaken, self.has_heard = 0, False
        it = self.offer
        data = f"{it.address:08x}", f"{it.mask:02x}", f"{it.payload:016x}", it.corrupt
        words = (self.client, it.opcode, it.param, it.size, it.source, *data)
        self.player.note(f"a {' '.join(map(str, words))}")
        self.untaken += self.left == 0
        self.offer = None

    def heard(self, opcode: int, size: int, source: int) -> None:
        """A beat of channel D was taken; with the last of its reply the source is free."""
        self.came += 1
        if self.came == (max(1, (1 << size) // 8) if opcode == WITH_DATA else 1):
            self.came = 0
            self.busy.discard(source)
            self.has_heard = True


STEPS: Dict[str, Callable[[Port, Line], bool]] = {
    "a": Port.beat, "wait": Port.wait, "hold": Port.hold, "await": Port.await_all, "pace": Port.set_pace, "meet": Port.meet,
}  # fmt: skip


class Player:
    """The ports of all clients, and the lines that they still have to play."""

    def __init__(self, lines: Iterable[str], clients: int, sources: int = 16, played: Optional[TextIO] = None):
        """`played` gets the beats as they pass, as lines for `tlbridge run` behind a set-up."""
        if not 1 <= clients <= MOST_CLIENTS or not 1 <= sources <= MOST_SOURCES:
            raise ValueError(f"{clients} clients with {sources} sources: up to {MOST_CLIENTS}, and up to {MOST_SOURCES}")
        self.played, self.lot = played, random.Random(0)
        self.ports = [Port(self, it, sources) for it in range(clients)]
        for it in lines_of(lines):
            for port in self.ports_of(it):
                port.lines.append(it)

    def ports_of(self, it: Line) -> List[Port]:
        """The ports that play a line."""
        if it.kind == "seed":
            self.lot.seed(int(it.words[0]))
            return []
        if not it.words:
            return self.ports
        if int(it.words[0]) >= len(self.ports):
            raise Fault(f"line {it.number} of the stimulus is of client {it.words[0]}, and there are {len(self.ports)}")
        if it.kind == "a" and it.words[4] != ANY_SOURCE and int(it.words[4]) >= self.ports[0].sources:
            raise Fault(f"line {it.number} of the stimulus has source {it.words[4]}, and a client has {self.ports[0].sources}")
        return [self.ports[int(it.words[0])]]

    @property
    def is_over(self) -> bool:
        """Whether all lines are played, and all replies have come."""
        return all(it.is_over for it in self.ports)

    def clock(self) -> None:
        """Another clock of all ports: those that meet go on where all are there."""
        if all(it.is_met or not it.lines for it in self.ports):
            for it in self.ports:
                if it.is_met:
                    it.is_met = False
                    it.lines.popleft()
        for it in self.ports:
            it.clock()

    def reset(self) -> None:
        """A clock in which all is reset: what is under way is gone, and the lines behind it are still to be played."""
        for it in self.ports:
            it.reset()

    def note(self, *lines: str) -> None:
        """Lines that were played."""
        if self.played is not None:
            self.played.writelines(f"{it}\n" for it in lines)


def beat_of(it: Line, source: int) -> ABeat:
    """The beat of a line, of a source."""
    _, opcode, param, size, _, address, mask, payload, corrupt = it.words
    return ABeat(int(opcode), int(param), int(size), source, int(address, 16), int(mask, 16), int(payload, 16), int(corrupt))
