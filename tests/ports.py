"""AXI4 ports of many IDs or of great depth: beats by lot, most of them right, beside the plain model of `port_models.py`. Bursts are
opened until the port is nearly full, then they are answered in any order until few are left, and so on.

    python3 tests/ports.py TLSCORE [BEATS] [--seed WORD]
"""

import argparse
import random
import sys
from collections import Counter
from dataclasses import dataclass
from typing import Iterator

from beats import BROKEN, RESPONSES, observed
from ends import asked, started, told
from port_models import AxiPort, Side, crosses

# IDs, bursts of an ID that may be unanswered on a side, and the bytes of the bus: at most 4,096 on a side.
PORTS = ((256, 16, 8), (16, 256, 8), (1, 256, 4), (256, 1, 8), (200, 20, 4))
# One beat of so many has a field drawn anew.
SPOILS = 24


@dataclass
class Beats:
    """Draws beats for a port, which is filled, and then emptied."""

    rng: random.Random
    port: AxiPort
    is_filling: bool = True

    def draw(self) -> tuple[str, list]:
        """The channel of a beat and its fields."""
        room, rng = 2 * self.port.ids * self.port.depth, self.rng
        self.is_filling = self.port.opened() < (room * 9 // 10 if self.is_filling else room // 8)
        channel, fields = self.address() if rng.random() < (0.7 if self.is_filling else 0.1) else self.answer()
        if rng.randrange(SPOILS) == 0:
            place = rng.randrange(len(fields))
            fields[place] = self.other(channel, place)
        return channel, fields

    def address(self) -> tuple[str, list]:
        rng, port = self.rng, self.port
        len, size = rng.choice((0, 0, 0, 1, 3)), rng.randrange(4 if port.width == 8 else 3)
        address = rng.getrandbits(20) << 12 | rng.choice((0, 8, 3, 4090))
        return rng.choice(("AW", "AR")), [rng.randrange(port.ids), address, 0 if crosses(address, len, size) else len, size, 1]

    def answer(self) -> tuple[str, list]:
        """Data of a write that lacks some, most often; else the answer of an ID that has a burst, if one has; or any data."""
        rng, burst = self.rng, self.port.to_fill()
        if rng.randrange(SPOILS) == 0:
            return "W", [rng.getrandbits(64), rng.getrandbits(8), rng.getrandbits(1)]
        if burst and rng.random() < 0.6:
            return "W", [rng.getrandbits(64), rng.getrandbits(8) & burst.lanes(self.port.width), int(burst.is_last())]
        if rng.random() < 0.5:
            return "B", [self.id_of(self.port.writes), rng.choice(("OKAY", "DECERR"))]
        id = self.id_of(self.port.reads)
        burst = self.port.reads.oldest(id)
        return "R", [id, rng.getrandbits(64), rng.choice(("OKAY", "SLVERR")), int(burst is not None and burst.is_last())]

    def id_of(self, side: Side) -> int:
        """An ID that has a burst on this side, but for one answer of so many: then any of the port's."""
        if self.rng.randrange(SPOILS) and side.of_id:
            return self.rng.choice([*side.of_id])
        return self.rng.randrange(self.port.ids)

    def other(self, channel: str, place: int):
        """Another word at a place of a beat."""
        widths = {"W": (64, 8, 1), "B": (8, 0), "R": (8, 64, 0, 1)}.get(channel, (8, 32, 8, 3, 2))
        return self.rng.getrandbits(widths[place]) if widths[place] else self.rng.choice(RESPONSES)


def cases(given: argparse.Namespace) -> Iterator:
    print(f"seed {given.seed}")
    counts = Counter()
    for ids, depth, width in PORTS:
        port = AxiPort(ids, depth, width)
        seen = observed(port, Beats(random.Random(f"{given.seed} {ids}"), port).draw, given.beats // len(PORTS), 256)
        answers = Counter(name for _, name in seen.counts.elements())
        counts += answers
        print(f"{ids} IDs of depth {depth}: {answers['TAKEN']} beats taken, {seen.most} bursts open at most")
        yield f"{ids} IDs of depth {depth}", started([given.tlscore], seen.lines).wrong(1, seen.said, b"")
        yield f"{ids} IDs of depth {depth}: nearly full", None if seen.most >= ids * depth * 3 // 2 else f"{seen.most} bursts open at most"
    for name in {it for names in BROKEN.values() for it in names}:
        yield f"beats that break {name}", None if counts[name] else "none"


if __name__ == "__main__":
    words = asked(__doc__, "tlscore", by_lot=True)
    words.add_argument("beats", nargs="?", type=int, default=100_000)
    sys.exit(told(cases(words.parse_args())))
