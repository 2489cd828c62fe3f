"""Beats by lot for TileLink ports and for an AXI4 port, hundreds of thousands each, most of them illegal, beside the plain models of
port_models.py: the answer has to be the first rule that a beat breaks. Each answer has to come at least 1,000 times.

    python3 tests/beats.py TLSCORE TLBRIDGE [--seed WORD]
"""

import argparse
import random
import sys
from collections import Counter
from dataclasses import replace
from pathlib import Path
from typing import Callable, Iterator, NamedTuple

from ends import asked, started, told
from model import GET, INTENT, PUT_FULL, PUT_PARTIAL, ABeat, a_line, full_mask
from port_models import ATOMICS, AXI_RULES, NUMBERS, PARAMS, AxiPort, Port, Side, crosses

LEAST = 1_000
SPOILS = 16  # of so many beats 6 are legal, 7 have a field that isn't, 2 have two, and of one all fields are by lot

# ---- TileLink ports, each a client's of a script of `check`

# The clients' levels and the largest size of a script's ports.
PORTS = (("lh", 3), ("h", 6), ("lh", 12)) * 2
LINES = 65_000


class Beats:
    """Draws beats near what a port takes."""

    def __init__(self, rng: random.Random, port: Port):
        self.rng, self.port = rng, port

    def draw(self) -> ABeat:
        spoils = self.rng.randrange(SPOILS)
        if spoils == SPOILS - 1:
            return self.any()
        beat = self.later(self.port.message[0]) if self.port.message else self.first()
        for _ in range((spoils >= 6) + (spoils >= 13)):
            beat = self.broken_later(beat) if self.port.message else self.broken_first(beat)
        return beat

    def first(self) -> ABeat:
        """A first beat that breaks no rule, where its source isn't busy."""
        rng, port = self.rng, self.port
        opcode = rng.choice((PUT_FULL, PUT_PARTIAL, GET)) if port.level == "l" else rng.randrange(6)
        is_small = port.level == "l" or opcode in ATOMICS or rng.random() < 0.5
        size = rng.randrange((3 if is_small else port.largest) + 1)
        address = rng.getrandbits(32) >> size << size
        full = full_mask(size, address)
        mask = full & rng.getrandbits(8) if opcode == PUT_PARTIAL else full
        corrupt = int(opcode < GET and rng.random() < 0.125)
        return ABeat(opcode, rng.randrange(PARAMS[opcode]), size, rng.randrange(8), address, mask, rng.getrandbits(64), corrupt)

    def later(self, first: ABeat) -> ABeat:
        """A later beat that breaks no rule."""
        mask = self.rng.getrandbits(8) if first.opcode == PUT_PARTIAL else 0xFF
        return replace(first, mask=mask, payload=self.rng.getrandbits(64), corrupt=int(self.rng.random() < 0.125))

    def any(self) -> ABeat:
        """A beat whose fields are all by lot."""
        rng = self.rng
        size = rng.getrandbits(8) if rng.random() < 0.125 else rng.randrange(14)
        address = rng.getrandbits(32) & rng.getrandbits(32) & rng.getrandbits(32)
        mask = 0xFF if rng.random() < 0.5 else rng.getrandbits(8)
        opcode, param, source = rng.randrange(8), rng.randrange(6), rng.randrange(8)
        return ABeat(opcode, param, size, source, address, mask, rng.getrandbits(64), rng.getrandbits(1))

    def broken_first(self, beat: ABeat) -> ABeat:
        """The same beat with a field that breaks one of rules 1 to 8, or another where its port can't break that one."""
        rng, largest, few = self.rng, self.port.largest, self.rng.randrange(1, 7)
        changes = (
            lambda: {"opcode": rng.randrange(6, 256)},
            lambda: {"opcode": rng.choice(ATOMICS)},
            lambda: {"size": largest + few},
            lambda: {"opcode": rng.choice(ATOMICS), "size": rng.randrange(4, max(5, largest + 1))},
            lambda: {"address": (beat.address + few) % 2**32},
            lambda: {"param": few},
            lambda: {"mask": beat.mask ^ 1 << rng.randrange(8)},
            lambda: {"opcode": rng.choice((GET, INTENT)), "corrupt": 1},
        )
        return replace(beat, **rng.choice(changes)())

    def broken_later(self, beat: ABeat) -> ABeat:
        """The same beat with another field, which the mask of a PutPartialData may be."""
        rng, lane = self.rng, 1 << self.rng.randrange(8)
        changes = (
            lambda: {"opcode": beat.opcode ^ 1},
            lambda: {"param": rng.getrandbits(8)},
            lambda: {"size": rng.randrange(13)},
            lambda: {"source": rng.getrandbits(8)},
            lambda: {"address": beat.address ^ 8 * lane},
            lambda: {"mask": beat.mask ^ lane},
        )
        return replace(beat, **rng.choice(changes)())


def offered(rng: random.Random, levels: str, largest: int, counts: Counter) -> tuple[str, str]:
    """A script of `check`, and its trace. Most sources are freed as soon as their message is whole."""
    ports = [Port(level, largest) for level in levels]
    lines, trace = [f"config {len(ports)} 1 1 1 1 {largest} {levels}"], []
    while len(lines) < LINES:
        client = rng.randrange(len(ports))
        port = ports[client]
        beat = Beats(rng, port).draw()
        answer = port.take(beat)
        counts[answer] += 1
        line = a_line(client, beat)
        said = f"refused {NUMBERS[answer]} {answer}" if answer in NUMBERS else answer.lower()
        lines.append(line.replace("A", "a", 1))
        trace += [line, f"= {said}"]
        if answer == "WHOLE" and (rng.random() < 0.75 or len(port.busy) > 2):
            freed = rng.choice(sorted(port.busy))
            port.busy.remove(freed)
            lines.append(f"free {client} {freed}")
            trace.append("= freed")
    return "\n".join(lines) + "\n", "\n".join(trace) + "\n"


def of_ports(rng: random.Random, tlbridge: Path) -> Iterator:
    counts = Counter()
    for levels, largest in PORTS:
        script, trace = offered(rng, levels, largest, counts)
        yield f"ports {levels} of size {largest}", started([tlbridge, "check"], script.encode()).wrong(1, trace.encode(), b"")
    yield from often("port", counts, (*NUMBERS, "MORE", "WHOLE"))


def often(name: str, counts: Counter, answers: tuple) -> Iterator:
    print(f"{name}: {sum(counts.values())} beats, {', '.join(f'{counts[it]} {it}' for it in answers)}")
    yield f"{name}: other answers", f"{counts}" if set(counts) - set(answers) else None
    for answer in answers:
        yield f"{name}: {answer}", None if counts[answer] >= LEAST else f"{counts[answer]} times"


# ---- the AXI4 port, whose beats are an observation

# IDs, bursts of an ID that may be unanswered, and the bytes of the bus.
AXI_PORTS = ((16, 4, 8), (4, 2, 8), (1, 1, 8), (5, 3, 4))
AXI_BEATS = 100_000
RESPONSES = ("OKAY",) * 4 + ("EXOKAY",) * 2 + ("SLVERR", "DECERR")
# The rules that a beat of each channel may break.
BROKEN = {
    **dict.fromkeys(("AW", "AR"), AXI_RULES[:5]),
    "W": AXI_RULES[5:8],
    "B": ("ID_RANGE", "B_WITHOUT_WRITE", "EXOKAY"),
    "R": ("ID_RANGE", "R_WITHOUT_READ", "RLAST", "EXOKAY"),
}
AXI_ANSWERS = tuple((channel, name) for channel, names in BROKEN.items() for name in (*names, "TAKEN"))


class AxiBeats:
    """Draws beats near what an AXI4 port takes."""

    def __init__(self, rng: random.Random, port: AxiPort):
        self.rng, self.port = rng, port

    def draw(self) -> tuple[str, list]:
        """The channel of a beat, and its fields."""
        rng, port, kind = self.rng, self.port, self.rng.randrange(16)
        if kind < 4:
            channel, side = ("AW", port.writes) if kind < 2 else ("AR", port.reads)
            return channel, [*self.address(side)]
        if kind < 9:
            return "W", [*self.data()]
        if kind < 11:
            return "B", [self.id_of(port.writes), rng.choice(RESPONSES)]
        id = self.id_of(port.reads)
        burst = port.reads.oldest(id)
        last = (burst is not None and burst.is_last()) != (rng.random() < 0.25)
        return "R", [id, rng.getrandbits(64), rng.choice(RESPONSES), int(last)]

    def address(self, side: Side) -> tuple[int, int, int, int, int]:
        """ID, address, len, size and burst: those of a beat that breaks no rule but DEPTH, or with another field or two, or all by
        lot."""
        rng, spoils = self.rng, self.rng.randrange(SPOILS)
        if spoils == SPOILS - 1:
            return rng.randrange(32), rng.getrandbits(32), rng.getrandbits(8), rng.randrange(5), rng.randrange(3)
        id, size = rng.randrange(self.port.ids), rng.randrange(4 if self.port.width == 8 else 3)
        address = rng.choice((0xFFFFF000, 0, 0x10000, 0x10000)) + rng.randrange(4096)
        len = rng.getrandbits(8) if rng.random() < 0.005 else rng.randrange(4)
        beat = id, address, 0 if crosses(address, len, size) else len, size, 1
        for _ in range((spoils >= 6) + (spoils >= 13)):
            beat = self.spoiled(side, *beat)
        return beat

    def spoiled(self, side: Side, id: int, address: int, len: int, size: int, burst: int) -> tuple[int, int, int, int, int]:
        rng = self.rng
        changes = (
            lambda: (id, address, len, rng.randrange(2, 6), burst),
            lambda: (id, address, len, rng.getrandbits(8), burst),
            lambda: (id, address, len, size, rng.choice((0, 2, 3, 255))),
            lambda: (id, address | 0xFF8, rng.randrange(4), size, burst),
            lambda: (rng.randrange(self.port.ids, 256), address, len, size, burst),
            lambda: (rng.choice([*side.of_id] or [id]), address, len, size, burst),
        )
        return rng.choice(changes)()

    def data(self) -> tuple[int, int, int]:
        """Payload, strobes and last: those of the next data of a write, or with others, or all by lot."""
        rng, burst = self.rng, self.port.to_fill()
        kind = rng.randrange(16)
        if burst is None or kind == 15:
            return rng.getrandbits(64), rng.getrandbits(8), rng.getrandbits(1)
        lanes = burst.lanes(self.port.width)
        strobes = lanes if rng.random() < 0.5 else lanes & rng.getrandbits(8)
        other = 1 << rng.randrange(8) if kind in (8, 9, 10, 14) else 0
        return rng.getrandbits(64), strobes ^ other, int(burst.is_last() != (kind in (11, 12, 13, 14)))

    def id_of(self, side: Side) -> int:
        """An ID: of a burst of a side, mostly, of any that the port has, or of any at all."""
        rng, kind = self.rng, self.rng.randrange(8)
        if kind == 0:
            return rng.randrange(self.port.ids, 256)
        if kind == 2:
            return rng.randrange(32)
        return rng.choice([*side.of_id]) if side.of_id and kind != 1 else rng.randrange(self.port.ids)


def line_of(channel: str, fields: list) -> str:
    digits = {"AW": {1: "08x"}, "AR": {1: "08x"}, "W": {0: "016x", 1: "02x"}, "R": {1: "016x"}}.get(channel, {})
    return " ".join((channel, *(format(it, digits.get(place, "")) for place, it in enumerate(fields))))


class Observed(NamedTuple):
    """An observation of beats by lot, what is said of it, how often each channel had each answer, and how many bursts were open at most."""

    lines: bytes
    said: bytes
    counts: Counter
    most: int


def observed(port: AxiPort, draw: Callable[[], tuple[str, list]], count: int, longest: int) -> Observed:
    """So many beats at an AXI4 port, and by the plain model of it the first rule that each breaks."""
    lines, said, counts, most = [f"config 1 1 {port.ids} {port.depth} {longest} 12 h {port.width}"], [], Counter(), 0
    for number in range(2, count + 2):
        channel, fields = draw()
        name = port.take(channel, fields)
        lines.append(line_of(channel, fields))
        counts[channel, name or "TAKEN"] += 1
        most = max(most, port.opened())
        if name:
            said.append(f"= wrong {number} axi {AXI_RULES.index(name) + 1} {name}")
    said.append(f"= judged {count} wrong {len(said)} outstanding 0 open {port.opened()} compared 0 of 0")
    return Observed(*("".join(f"{it}\n" for it in them).encode() for them in (lines, said)), counts, most)


def of_axi(rng: random.Random, tlscore: Path) -> Iterator:
    counts = Counter()
    for limits in AXI_PORTS:
        port = AxiPort(*limits)
        seen = observed(port, AxiBeats(rng, port).draw, AXI_BEATS, 16)
        counts += seen.counts
        yield f"an AXI4 port of {limits}", started([tlscore], seen.lines).wrong(1, seen.said, b"")
    yield from often("AXI4 port", counts, AXI_ANSWERS)


def cases(given: argparse.Namespace) -> Iterator:
    print(f"seed {given.seed}")
    rng = random.Random(given.seed)
    yield from of_ports(rng, given.tlbridge)
    yield from of_axi(rng, given.tlscore)


if __name__ == "__main__":
    sys.exit(told(cases(asked(__doc__, "tlscore", "tlbridge", by_lot=True).parse_args())))
