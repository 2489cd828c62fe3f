"""Plain models of the tables of rules in docs/RULES.md: a client's TileLink port, and an AXI4 port. Of a beat they answer the first rule that
it breaks, in the order of its table; behind a refused TileLink beat all is as before, and behind a wrong AXI4 beat as docs/SCOREBOARD.md
says."""

from __future__ import annotations

from collections import deque
from collections.abc import Callable, Iterable
from dataclasses import dataclass, field

from model import ARITHMETIC, GET, INTENT, LOGICAL, PUT_PARTIAL, ABeat, beats_of, full_mask

ATOMICS = (ARITHMETIC, LOGICAL)
PARAMS = (1, 1, 5, 4, 1, 2)  # how many params each opcode has


# ---- a client's TileLink port


@dataclass
class Port:
    """What has come of the message that has begun, and the sources of whole ones that weren't freed."""

    level: str
    largest: int
    message: list = field(default_factory=list)
    busy: set = field(default_factory=set)

    def broken(self, beat: ABeat) -> str | None:
        """The first rule that a beat breaks."""
        return next((name for name, breaks in (LATER if self.message else FIRST) if breaks(self, beat)), None)

    def take(self, beat: ABeat) -> str:
        """Takes a beat, or refuses it; answers the name of the rule, MORE or WHOLE."""
        name = self.broken(beat)
        if name:
            return name
        self.message.append(beat)
        if len(self.message) < beats_of(beat.size, beat.opcode < GET):
            return "MORE"
        self.message.clear()
        self.busy.add(beat.source)
        return "WHOLE"


def is_masked(beat: ABeat) -> bool:
    full = full_mask(beat.size, beat.address)
    return beat.mask | full == full if beat.opcode == PUT_PARTIAL else beat.mask == full


def is_alike(beat: ABeat, first: ABeat) -> bool:
    return all(getattr(beat, it) == getattr(first, it) for it in ("opcode", "param", "size", "source", "address"))


# The rules on a first beat and on a later one, each in the order of its tests.
Rule = tuple[str, Callable[[Port, ABeat], bool]]
FIRST: tuple[Rule, ...] = (
    ("OPCODE", lambda port, it: it.opcode > INTENT),
    ("LEVEL", lambda port, it: port.level == "l" and (it.opcode in (*ATOMICS, INTENT) or it.size > 3)),
    ("SIZE", lambda port, it: it.size > port.largest),
    ("ATOMIC_SIZE", lambda port, it: it.opcode in ATOMICS and it.size > 3),
    ("ALIGN", lambda port, it: it.address % 2**it.size != 0),
    ("PARAM", lambda port, it: it.param >= PARAMS[it.opcode]),
    ("MASK", lambda port, it: not is_masked(it)),
    ("CORRUPT", lambda port, it: it.opcode >= GET and it.corrupt == 1),
    ("SOURCE_BUSY", lambda port, it: it.source in port.busy),
)
LATER: tuple[Rule, ...] = (
    ("BURST_CONTROL", lambda port, it: not is_alike(it, port.message[0])),
    ("MASK", lambda port, it: not is_masked(it)),
)
NUMBERS = {name: number for number, name in enumerate((*(name for name, _ in FIRST), "BURST_CONTROL"), 1)}


# ---- the AXI4 port

AXI_RULES = ("SIZE", "BURST_KIND", "CROSS_4K", "ID_RANGE", "DEPTH", "W_WITHOUT_AW", "STROBE", "WLAST", "B_WITHOUT_WRITE",
             "R_WITHOUT_READ", "RLAST", "EXOKAY")  # fmt: skip


@dataclass
class Burst:
    """A burst by its address beat, and how many of its transfers came."""

    id: int
    address: int
    len: int
    size: int
    came: int = 0

    @property
    def span(self) -> range:
        """The bytes from its address to its last one."""
        return range(self.address, (self.address >> self.size << self.size) + ((self.len + 1) << self.size))

    def lanes(self, bus: int) -> int:
        """Those of the next transfer, as AXI4 counts its bytes."""
        aligned = self.address >> self.size << self.size
        begin = self.address if self.came == 0 else aligned + (self.came << self.size)
        return sum(1 << at % bus for at in range(begin, aligned + ((self.came + 1) << self.size)))

    def is_last(self) -> bool:
        return self.came == self.len


def crosses(address: int, len: int, size: int) -> bool:
    """Whether the first and the last byte of a burst lie in different pages."""
    span = Burst(0, address, len, size).span
    return span[0] >> 12 != span[-1] >> 12


@dataclass
class Side:
    """The outstanding bursts of a side: of each ID that has some, the oldest first."""

    of_id: dict[int, deque[Burst]] = field(default_factory=dict)
    count: int = 0

    def depth(self, id: int) -> int:
        return len(self.of_id.get(id, ()))

    def oldest(self, id: int) -> Burst | None:
        return self.of_id[id][0] if id in self.of_id else None

    def bursts(self) -> list[Burst]:
        return [it for own in self.of_id.values() for it in own]

    def open(self, burst: Burst) -> None:
        self.of_id.setdefault(burst.id, deque()).append(burst)
        self.count += 1

    def close(self, id: int) -> None:
        """The oldest of an ID is answered."""
        self.of_id[id].popleft()
        self.count -= 1
        if not self.of_id[id]:
            del self.of_id[id]


@dataclass
class AxiPort:
    """The outstanding bursts of both sides, and the writes that lack data, in the order of their address beats."""

    ids: int
    depth: int
    width: int
    writes: Side = field(default_factory=Side)
    reads: Side = field(default_factory=Side)
    lacking: deque[Burst] = field(default_factory=deque)

    def address(self, side: Side, id: int, address: int, len: int, size: int, burst: int) -> str | None:
        """Takes an AW or an AR, and answers the first rule that it breaks. It opens its burst all the same if that is BURST_KIND, CROSS_4K or
        DEPTH, it breaks no other, and fewer than twice the depth are open."""
        broken = (2**size > self.width, burst != 1, crosses(address, len, size), id >= self.ids, side.depth(id) >= self.depth)
        if not (broken[0] or broken[3] or side.depth(id) >= 2 * self.depth):
            opened = Burst(id, address, len, size)
            side.open(opened)
            if side is self.writes:
                self.lacking.append(opened)
        return AXI_RULES[broken.index(True)] if any(broken) else None

    def take(self, channel: str, fields: Iterable) -> str | None:
        """Takes a beat of any channel, and answers the first rule that it breaks."""
        if channel in ("AW", "AR"):
            return self.address(self.writes if channel == "AW" else self.reads, *fields)
        return {"W": self.w, "B": self.b, "R": self.r}[channel](*fields)

    def opened(self) -> int:
        """How many bursts aren't answered."""
        return self.writes.count + self.reads.count

    def to_fill(self) -> Burst | None:
        """The oldest write that lacks data."""
        return self.lacking[0] if self.lacking else None

    def w(self, payload: int, strobes: int, last: int) -> str | None:
        burst = self.to_fill()
        if burst is None:
            return "W_WITHOUT_AW"
        broken = strobes & ~burst.lanes(self.width) != 0, bool(last) != burst.is_last()
        if burst.is_last():
            self.lacking.popleft()
        burst.came += 1
        return AXI_RULES[6 + broken.index(True)] if any(broken) else None

    def b(self, id: int, resp: str) -> str | None:
        burst = self.writes.oldest(id)
        if id >= self.ids:
            return "ID_RANGE"
        if burst is None or burst.came <= burst.len:
            return "B_WITHOUT_WRITE"
        if resp == "EXOKAY":
            return "EXOKAY"
        self.writes.close(id)
        return None

    def r(self, id: int, payload: int, resp: str, last: int) -> str | None:
        burst = self.reads.oldest(id)
        if id >= self.ids:
            return "ID_RANGE"
        if burst is None:
            return "R_WITHOUT_READ"
        if bool(last) != burst.is_last():
            return "RLAST"
        if resp == "EXOKAY":
            return "EXOKAY"
        burst.came += 1
        if last:
            self.reads.close(id)
        return None
