"""Right runs of a bridge that takes requests in any order: clients ask for the same few bytes at once, and each request is carried out
whole on a plain memory some time between its last beat and the first of its reply. Nothing is seen of an AXI4 port. Either many ask at once
for very few bytes, or a few requests race for each of very many words, of which it stays open what they are (for values.py)."""

import random
from dataclasses import dataclass
from typing import Iterator, List, NamedTuple, Optional

from model import GOOD, Memory, Ranges, Setup

from client import ABeat, DBeat  # model.py says where it stands
from random_bench import ARITHMETIC, LOGICAL, beats_by_lot, random_kind

CLIENTS, SOURCES, WINDOW, PAGES = 8, 16, 64, 12
SETUP = Setup(CLIENTS, 4, 16, 2, 16, 6, 8, ((0, PAGES, 0x10, "gpah"),), Ranges([(0x10, PAGES, GOOD)]), ())


class Traffic(NamedTuple):
    """How many requests there are, of how many bytes, as powers of two, atomics aside, and how many a client has at once; how many ask
    for bytes of a window before the next one's turn comes, and how many windows there are."""

    requests: int
    smallest: int
    largest: int
    at_once: int
    each: int = 1
    windows: int = 1

    def window(self, begun: int) -> int:
        """Where the window lies from which a request asks, by how many had begun before."""
        return begun // self.each % self.windows * WINDOW


DEEP = [Traffic(200, 0, 4, at_once) for at_once in (1, 2, 3)]
WIDE = Traffic(4000, 6, 6, 2, each=4, windows=PAGES * 4096 // WINDOW)


@dataclass(eq=False)
class Request:
    """A request: its beats, how many of them came, and its reply, once it is carried out, as far as that is still to come."""

    client: int
    beats: List[ABeat]
    came: int = 0
    reply: Optional[List[DBeat]] = None
    has_begun: bool = False  # its reply

    @property
    def is_whole(self) -> bool:
        return self.came == len(self.beats)


class AnyOrder:
    """Clients, and the memory behind the bridge."""

    def __init__(self, rng: random.Random, traffic: Traffic):
        self.rng, self.memory, self.traffic = rng, Memory(SETUP), traffic
        self.live: List[Request] = []
        self.begun = 0

    def lines(self) -> Iterator[str]:
        """What tlscore reads of a run."""
        config, *rest = SETUP.lines
        yield from (config, "profile tilelink", *rest)
        moves = (self.ask, self.carry_out, self.answer)
        while self.begun < self.traffic.requests or self.live:
            line = self.rng.choice(moves)()
            if line:
                yield line
        yield "= end"

    def ask(self) -> Optional[str]:
        """The next beat of a client's message, or the first of another."""
        client = self.rng.randrange(CLIENTS)
        own = [it for it in self.live if it.client == client]
        request = next((it for it in own if not it.is_whole), None)
        if not request and self.begun < self.traffic.requests and len(own) < self.traffic.at_once:
            request = self.begin(client, {it.beats[0].source for it in own})
        if not request:
            return None
        it = request.beats[request.came]
        request.came += 1
        return f"A {client} {it.opcode} {it.param} {it.size} {it.source} {it.address:08x} {it.mask:02x} {it.payload:016x} {it.corrupt}"

    def begin(self, client: int, busy: "set[int]") -> Request:
        opcode, size, param = random_kind(self.rng)
        if opcode not in (ARITHMETIC, LOGICAL):
            size = max(self.traffic.smallest, min(size, self.traffic.largest))
        source = self.rng.choice([it for it in range(SOURCES) if it not in busy])
        address = self.traffic.window(self.begun) + (self.rng.randrange(WINDOW >> size) << size)
        request = Request(client, beats_by_lot(self.rng, opcode, size, param, source, address))
        self.live.append(request)
        self.begun += 1
        return request

    def carry_out(self) -> None:
        waiting = [it for it in self.live if it.is_whole and it.reply is None]
        if waiting:
            request = self.rng.choice(waiting)
            request.reply = list(self.memory.carry_out(request.client, request.beats))

    def answer(self) -> Optional[str]:
        """The next beat of a client's reply, or the first of another."""
        client = self.rng.randrange(CLIENTS)
        due = [it for it in self.live if it.client == client and it.reply]
        going_on = [it for it in due if it.has_begun]
        if not due:
            return None
        request = (going_on or [self.rng.choice(due)])[0]
        it, request.has_begun = request.reply.pop(0), True
        if not request.reply:
            self.live.remove(request)
        return f"D {client} {it.opcode} {it.param} {it.size} {it.source} {it.denied} {it.payload:016x} {it.corrupt}"


def observed(seed: int, traffic: Optional[Traffic] = None) -> str:
    """A run, by its seed."""
    rng = random.Random(seed)
    return "".join(f"{it}\n" for it in AnyOrder(rng, traffic or rng.choice(DEEP)).lines())


def wide(seed: int) -> str:
    """One over many words."""
    return observed(seed, WIDE)
