"""Short histories of requests to a few bytes, most of which race, by `profile tilelink`: what comes on both ports, and of each request in
which lines (for value_orders.py). Right and wrong bytes are drawn by lot; all else is right."""

import math
import random
from collections import defaultdict
from dataclasses import dataclass, field, replace
from typing import Dict, Iterable, List, Optional, Set, Tuple

from model import ARITHMETIC, GET, GOOD, INTENT, LOGICAL, PUT_FULL, PUT_PARTIAL, REPLIES, Memory, Ranges, Setup

from client import ABeat, DBeat, beats_of  # model.py says where it stands
from random_bench import applied, full_mask

PUTS, CLIENTS, SOURCES, PAGE, AXI, BYTES = (PUT_FULL, PUT_PARTIAL), 3, 2, 0x10, 0x10000, 16
SETUP = Setup(CLIENTS, 4, 16, 2, 16, 12, 8, ((0, 1, PAGE, "gpah"),), Ranges([(PAGE, 1, GOOD)]), ())
# Opcodes, params and sizes of requests, all of which lie in the first bytes of a page.
PLAIN = [(PUT_FULL, 0, 4), (PUT_FULL, 0, 3), (PUT_FULL, 0, 0), (PUT_PARTIAL, 0, 4), (GET, 0, 0), (GET, 0, 4), *[(GET, 0, 3)] * 2]
OTHERS = [(opcode, param, size) for opcode, params in ((ARITHMETIC, 5), (LOGICAL, 4)) for param in range(params) for size in (0, 3)]
OTHERS += [(INTENT, param, 3) for param in range(2)]
ADDRESSES, MASKS = (0, 3, 8), (0xFF, 0xF0, 0x0F, 0x11, 0)
# How many moves and requests there are at the most, how many requests a client has at once, and how many Gets when all is quiet.
MOVES, REQUESTS, AT_ONCE, QUIET = 200, 7, 2, 2
# The shares of resets and error responses among moves, and of beats that are corrupt or have a byte that nobody knows, if there are some.
SHARES = (("reset", 0.05), ("strike", 0.05), ("corrupt", 0.2), ("x", 0.05))
Value = Optional[int]  # a byte, or one that nobody knows


@dataclass(eq=False)
class Request:
    """A request by lot, and in which lines what came of it."""

    client: int
    opcode: int
    param: int
    size: int
    source: int
    address: int
    masks: List[int]
    payloads: List[int]
    unknown: List[Set[int]]  # of each beat the lanes that nobody knows
    corrupt: List[int]
    came: List[int] = field(default_factory=list)  # its beats
    replied: List[int] = field(default_factory=list)  # the beats of its reply
    told: Dict[int, Dict[int, Value]] = field(default_factory=dict)  # by line, what beats told that are looked at
    struck: float = math.inf  # an error response told of it
    ended: float = math.inf
    cut: float = math.inf  # by a reset
    due: Tuple[DBeat, ...] = ()  # its reply in order of acceptance, once it is whole

    @property
    def span(self) -> range:
        return range(self.address, self.address + 2**self.size)

    @property
    def writes(self) -> bool:
        return self.opcode < GET

    @property
    def tells(self) -> bool:
        """Whether its reply has data."""
        return self.opcode not in (*PUTS, INTENT)

    @property
    def lacks(self) -> bool:
        """Whether a beat of it is still to come."""
        return len(self.came) < len(self.masks)

    @property
    def is_answered(self) -> bool:
        return len(self.replied) == beats_of(self.size, self.tells)

    def beats(self) -> List[ABeat]:
        """Its message, with zeros where nobody knows a byte."""
        lanes = [sum(0xFF << 8 * it for it in unknown) for unknown in self.unknown]
        rest = zip(self.masks, (payload & ~it for payload, it in zip(self.payloads, lanes)), self.corrupt)
        return [ABeat(self.opcode, self.param, self.size, self.source, self.address, *it) for it in rest]

    def offered(self, address: int) -> Tuple[bool, Value]:
        """Whether its mask has a byte, and the byte that it offers, for an atomic as its operand."""
        at, lane = (address - (self.address & -8)) // 8, address % 8
        return bool(self.masks[at] >> lane & 1), None if lane in self.unknown[at] else self.payloads[at] >> 8 * lane & 0xFF

    def has_failed(self, time: int, errors: str) -> bool:
        """Whether it has failed by a time: a beat was corrupt, or, by errors any, a response told of it."""
        is_corrupt = any(corrupt for corrupt, line in zip(self.corrupt, self.came) if line <= time)
        return is_corrupt or errors == "any" and self.struck <= time

    def read_by(self, time: int, wrong: Iterable[int]) -> Dict[int, Value]:
        """What it was told by a time, by beats that weren't wrong."""
        lines = (told for line, told in self.told.items() if line <= time and line not in wrong)
        return {address: value for told in lines for address, value in told.items() if value is not None}

    def made(self, read: Dict[int, Value]) -> Dict[int, Value]:
        """What an atomic makes of what it was told."""
        old, operand = [read.get(it) for it in self.span], [self.offered(it)[1] for it in self.span]
        if None in old or None in operand:
            return dict.fromkeys(self.span)
        numbers = (int.from_bytes(bytes(it), "little") for it in (old, operand))
        return dict(zip(self.span, applied(self.opcode, self.param, len(old), *numbers).to_bytes(len(old), "little")))

    def gives_by(self, time: int, errors: str, wrong: Iterable[int]) -> Dict[int, Value]:
        """What it gives, as far as that is known by a time. By errors strict a corrupt one gives nothing, once it is whole, or from its
        first beat on, if that is corrupt."""
        is_whole, is_strict = not self.lacks and self.came[-1] <= time, errors == "strict"
        if not self.writes or is_strict and (self.has_failed(time, errors) if is_whole else self.corrupt[0]):
            return {}
        if not is_whole:
            return dict.fromkeys(self.span)
        left = {it: self.offered(it)[1] for it in self.span if self.offered(it)[0]}
        left = left if self.opcode in PUTS else self.made(self.read_by(time, wrong))
        return dict.fromkeys(left) if self.has_failed(time, errors) else left

    def is_sure_by(self, time: int, errors: str) -> bool:
        """Whether it has taken effect for certain."""
        return self.writes and self.ended <= time < self.cut and not self.has_failed(time, errors)


class History:
    """Clients that make requests and are told replies in a random schedule, and when all is quiet Gets that read what is left."""

    def __init__(self, rng: random.Random):
        self.rng, self.errors, self.pages = rng, rng.choice(("strict", "any")), rng.choice(("good", "good", "any"))
        kinds = replace(SETUP, pages=Ranges([(PAGE, 1, self.pages)])).lines
        self.lines, self.memory = [*kinds, "profile tilelink", f"errors {self.errors}", "x data"], Memory(SETUP)
        self.due: Dict[int, str] = {}  # by line, the beat that was due in order of acceptance
        self.requests: List[Request] = []
        self.kinds = PLAIN + rng.choices(OTHERS, k=rng.choice((0, 0, 6, 12)))
        self.is_few = rng.random() < 0.5  # hardly any different bytes
        self.honest = rng.choice((0, 0.5, 0.9, 0.97))
        self.given: Dict[int, List[int]] = defaultdict(lambda: [self.byte() if self.pages == "any" else 0])
        self.shares = {it: rng.choice((0, share)) for it, share in SHARES}
        for _ in range(MOVES):
            self.move()
        self.end()
        for _ in range(QUIET):
            self.begin(0, (GET, 0, 4))
            self.end()

    def does(self, what: str) -> bool:
        return self.rng.random() < self.shares[what]

    def byte(self) -> int:
        return self.rng.randrange(1, 4 if self.is_few else 256)

    def live(self, client: Optional[int] = None) -> List[Request]:
        """Those that haven't ended."""
        return [it for it in self.requests if it.ended == math.inf and client in (None, it.client)]

    def move(self) -> None:
        """A reset, an error response, a beat of a reply, or one of a message."""
        rng, client = self.rng, self.rng.randrange(CLIENTS)
        is_over = len(self.requests) >= REQUESTS
        if not is_over and self.does("reset"):
            self.reset()
        elif self.errors == "any" and self.live() and self.does("strike"):
            self.strike()
        elif rng.random() < 0.5:
            self.answer(client)
        else:
            lacking = [it for it in self.live(client) if it.lacks]
            if lacking:
                self.offer(lacking[0])
            elif not is_over and len(self.live(client)) < AT_ONCE:
                self.begin(client, rng.choice(self.kinds))

    def end(self) -> None:
        """All requests end."""
        while self.live():
            for request in self.live():
                if request.lacks:
                    self.offer(request)
                else:
                    self.answer(request.client)

    def reset(self) -> None:
        self.lines.append("= reset")
        for request in self.live():
            request.ended = request.cut = len(self.lines)

    def strike(self) -> None:
        """A burst fails, of which nobody knows whose it is: each in flight that shares a byte with it may have failed."""
        word, is_write = self.rng.choice((0, 8)), self.rng.random() < 0.5
        self.lines.append(f"{'AW' if is_write else 'AR'} 0 {AXI + word:08x} 0 3 1")
        self.lines += [f"W {0:016x} ff 1", "B 0 SLVERR"] if is_write else [f"R 0 {0:016x} DECERR 1"]
        for request in self.live():
            if set(request.span) & set(range(word, word + 8)):
                request.struck = min(request.struck, len(self.lines))

    # ---- channel A

    def begin(self, client: int, kind: Tuple[int, int, int]) -> None:
        """The first beat of a request comes."""
        rng, (opcode, param, size) = self.rng, kind
        address = rng.choice(ADDRESSES) & -(2**size)
        source = min(set(range(SOURCES)) - {it.source for it in self.live(client) if not it.replied or it.lacks})  # free once a reply begins
        request = Request(client, opcode, param, size, source, address, [], [], [], [])
        full = full_mask(size, address)
        for _ in range(beats_of(size, request.writes)):
            request.masks.append(full & rng.choice(MASKS) if opcode == PUT_PARTIAL else full)
            request.payloads.append(int.from_bytes(bytes(self.byte() for _ in range(8)), "little"))
            request.unknown.append({rng.randrange(8)} if request.writes and self.does("x") else set())
            request.corrupt.append(int(opcode in PUTS and self.does("corrupt")))
        self.requests.append(request)
        self.offer(request)

    def offer(self, request: Request) -> None:
        """The next beat of a message comes, which may end its request."""
        at = len(request.came)
        payload = shown(request.payloads[at], request.unknown[at])
        fields = f"{request.opcode} {request.param} {request.size} {request.source} {request.address:08x} {request.masks[at]:02x}"
        self.lines.append(f"A {request.client} {fields} {payload} {request.corrupt[at]}")
        request.came.append(len(self.lines))
        if request.is_answered:
            request.ended = len(self.lines)
        if not request.lacks:
            request.due = self.memory.carry_out(request.client, request.beats())
        for address in request.span[8 * at : 8 * at + 8] if request.opcode in PUTS else ():
            has, value = request.offered(address)
            self.given[address] += [value] if has and value is not None else []

    # ---- channel D

    def answer(self, client: int) -> None:
        """The next beat of a client's reply comes, or the first one of another, at times before its request is whole."""
        going_on = [it for it in self.live(client) if it.replied and not it.is_answered]
        due = [it for it in self.live(client) if not it.replied and (not it.lacks or self.errors == "any" and self.rng.random() < 0.3)]
        if going_on or due:
            self.reply(self.rng.choice(going_on or due))

    def reply(self, request: Request) -> None:
        line = len(self.lines) + 1
        if request.tells:
            self.tell(request, line)
        else:
            is_denied, opcode = int(request.has_failed(line, self.errors) and self.errors == "strict"), REPLIES[request.opcode]
            self.lines.append(f"D {request.client} {opcode} 0 {request.size} {request.source} {is_denied} {0:016x} 0")
        request.replied.append(line)
        if request.is_answered and not request.lacks:
            request.ended = line
        if request.tells and request.writes:
            for address, value in request.made(request.read_by(line, ())).items():
                self.given[address] += [] if value is None else [value]

    def tell(self, request: Request, line: int) -> None:
        """A beat tells bytes: most often what was given last, in some order, or else what was given some time, or anything."""
        read = {it: self.drawn(it) for it in request.span[8 * len(request.replied) :][:8]}
        unknown = {self.rng.choice(list(read)) % 8} if self.does("x") else set()
        payload = shown(sum(value << 8 * (it % 8) for it, value in read.items()), unknown)
        self.lines.append(f"D {request.client} 1 0 {request.size} {request.source} 0 {payload} 0")
        due = request.due[len(request.replied)]
        self.due[line] = f"D {request.client} 1 0 {request.size} {request.source} {due.denied} {due.payload:016x} {due.corrupt}"
        if not request.has_failed(line, self.errors):
            request.told[line] = {it: None if it % 8 in unknown else value for it, value in read.items()}

    def drawn(self, address: int) -> int:
        rng, given = self.rng, self.given[address]
        if rng.random() < self.honest:
            return given[-1]
        return rng.choice(given[-3:]) if rng.random() < 0.8 else rng.choice([*given, rng.randrange(256)])


def shown(payload: int, unknown: Set[int]) -> str:
    """A payload with x in the lanes that nobody knows."""
    digits = f"{payload:016x}"
    return "".join("x" if 7 - at // 2 in unknown else digit for at, digit in enumerate(digits))
