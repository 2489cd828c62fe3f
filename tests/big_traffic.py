"""Requests by lot to pages of a big memory, several clients' and sources' in flight together, and the replies that a plain memory
gives, which carries them out whole, one at a time: in order of acceptance, or at any time between the last beat of a request and the
first beat of its reply. It is told of each beat of a Get which of its bytes are *settled*: given last by a Put that was alone there,
no other request in flight touching the byte, and read by the Get likewise; and which are *fresh*: given by nobody. Of replies in order
of acceptance it is counted how many of their bytes are *known*: given by a Put, or made by an atomic of bytes that are. What some bytes
began with is told at first: these are settled and known."""

from __future__ import annotations

import random
from dataclasses import dataclass, field, replace
from typing import NamedTuple

from big_memory import EACH, GETS
from model import (
    ARITHMETIC, GET, GOOD, INTENT, LOGICAL, PAGE, PUT_FULL, PUT_PARTIAL, UNKNOWN, ABeat, DBeat, Memory, Setup, a_line, beats_of,
    d_line, full_mask,
)  # fmt: skip
from port_models import ATOMICS, PARAMS

PUTS = (PUT_FULL, PUT_PARTIAL)
OPCODES = [PUT_FULL] * 3 + [PUT_PARTIAL] * 2 + [ARITHMETIC, LOGICAL, INTENT] + [GET] * 6
SIZES = [0, 1, 2] * 8 + [3] * 60 + [4, 5, 6] * 8 + [7, 8, 9] * 2 + [10, 11, 12]
WINDOW, RECENT, SOURCES = 128, 3, 32
WINDOWS = 0, 0xA80, PAGE - WINDOW  # where most requests lie in their page
FILLED = 8  # of one page among so many it is told what some bytes began with
AT_ONCE = 1, 2, 4, 8  # how many requests of a client may be in flight: one of these for some requests, then another


class Asked(NamedTuple):
    """By what replies are judged."""

    profile: str
    errors: str

    @property
    def lines(self) -> list[str]:
        return [f"profile {self.profile}", f"errors {self.errors}"]


@dataclass(eq=False)
class Flight:
    """A request."""

    client: int
    beats: tuple[ABeat, ...]  # of its message
    at: int | None  # the address of the memory where it acts; None where it is denied or acts on no good page
    sent: int = 0  # how many beats of its message came
    reply: tuple[DBeat, ...] = ()  # once it was carried out
    told: int = 0  # how many beats of the reply came
    has_failed: bool = False
    alone: bytearray = field(default_factory=bytearray)  # 1 for each byte that no other request in flight touched

    @property
    def first(self) -> ABeat:
        return self.beats[0]

    @property
    def is_whole(self) -> bool:
        return self.sent == len(self.beats)

    @property
    def is_writer(self) -> bool:
        return self.at is not None and self.first.opcode in PUTS + ATOMICS

    def gives(self, at: int) -> bool:
        """Whether its mask has a byte."""
        return self.first.opcode != PUT_PARTIAL or bool(self.beats[at // 8].mask >> (self.first.address + at) % 8 & 1)

    def lanes(self, beat: int) -> list[tuple[int, int]]:
        """The lanes that a beat of data tells, and which bytes of the request they are."""
        begin = self.first.address % 8 if self.first.size < 3 else 0
        return [(begin + at, 8 * beat + at) for at in range(min(8, 2**self.first.size))]


class Bytes:
    """Which bytes of a page are settled, fresh and known. Zeros are settled and known where nobody gave any."""

    def __init__(self, are_zeros: bool) -> None:
        self.settled, self.known = (bytearray([are_zeros]) * PAGE for _ in range(2))
        self.fresh = bytearray([not are_zeros]) * PAGE


class Known(dict):
    """What is known of the bytes of the memory by what was given, by page."""

    def __init__(self, setup: Setup) -> None:
        super().__init__()
        self.setup = setup

    def __missing__(self, page: int) -> Bytes:
        self[page] = Bytes(self.setup.pages.kind(page) != UNKNOWN)
        return self[page]

    def filled(self, at: int, count: int) -> None:
        """It is told what so many bytes began with."""
        it, begin = self[at // PAGE], at % PAGE
        it.settled[begin : begin + count] = it.known[begin : begin + count] = b"\1" * count
        it.fresh[begin : begin + count] = bytes(count)

    def accepted(self, flight: Flight) -> list[int]:
        """A request is carried out in order of acceptance, not corrupt. Answers which of the bytes are known that it reads."""
        known, begin, count = self[flight.at // PAGE].known, flight.at % PAGE, 2**flight.first.size
        read = known[begin : begin + count]
        if flight.first.opcode in ATOMICS and not all(read):
            known[begin : begin + count] = bytes(count)
        for at in filter(flight.gives, range(count)) if flight.first.opcode in PUTS else ():
            known[begin + at] = 1
        return read

    def begun(self, flight: Flight, others: list[Flight]) -> None:
        """A request comes beside others in flight."""
        count = 2**flight.first.size
        flight.alone = bytearray([1]) * count
        if flight.at is None:
            return
        for other in others:
            if other.at is None or other.at // PAGE != flight.at // PAGE:
                continue
            begin, end = max(flight.at, other.at), min(flight.at + count, other.at + len(other.alone))
            for it in (flight, other) if begin < end else ():
                it.alone[begin - it.at : end - it.at] = bytes(end - begin)
        if flight.is_writer:
            begin = flight.at % PAGE
            self[flight.at // PAGE].fresh[begin : begin + count] = bytes(count)

    def ended(self, flight: Flight) -> None:
        """A request is in flight no more. One that was corrupt may have given something, or nothing."""
        if not flight.is_writer:
            return
        settled, begin, count = self[flight.at // PAGE].settled, flight.at % PAGE, len(flight.alone)
        if flight.first.opcode in ATOMICS or flight.has_failed:
            settled[begin : begin + count] = bytes(count)
        elif flight.first.opcode == PUT_FULL:
            settled[begin : begin + count] = flight.alone
        else:
            for at in filter(flight.gives, range(count)):
                settled[begin + at] = flight.alone[at]


class Traffic:
    """What is seen of some requests: the lines, and what is known of those that tell data."""

    def __init__(self, setup: Setup, asked: Asked, pages: int, requests: int, seed: str) -> None:
        self.setup, self.asked, self.rng = setup, asked, random.Random(f"{seed} {asked}")
        self.memory, self.sure = Memory(setup, seed), Known(setup)
        self.lines = [*setup.lines, *asked.lines]
        self.flights: list[list[Flight]] = [[] for _ in range(setup.clients)]
        self.new, self.spare, self.twins = new_pages(self.rng, setup, pages), spare_pages(self.rng, setup), twins(setup)
        self.seen: list[int] = []
        self.last: dict[int, tuple[int, int]] = {}  # by a page, the size and the place of the last Put to it
        self.given: set[int] = set()  # the pages that were given bytes
        self.left, self.at_once, self.share = requests, 1, pages / requests
        self.beats = self.told = 0  # how many beats there are, and how many bytes replies tell
        self.known = self.unknown = 0  # how many of these are known in order of acceptance, where no word is bad, and how many aren't
        self.settled: dict[int, dict[int, int]] = {}  # by the line of a beat: the lanes that tell a settled byte, and the byte
        self.fresh: dict[int, list[int]] = {}  # and those that tell a fresh one
        self.raced = self.failed = 0  # how many requests weren't alone, and how many failed
        for page in self.rng.sample(self.new, pages // FILLED):
            self.fill(setup.place_of(page) * PAGE)
        while self.left or self.new or any(self.flights):
            self.move()

    def fill(self, page: int) -> None:
        """It is told what some bytes of a page began with."""
        rng, given = self.rng, self.rng.randbytes(self.rng.randrange(1, 33))
        at = page + rng.choice(WINDOWS) + rng.randrange(WINDOW - len(given) + 1)
        self.memory.pages[at // PAGE][at % PAGE : at % PAGE + len(given)] = given
        self.sure.filled(at, len(given))
        self.lines.append(f"fill {at:08x} {given.hex(' ')}")

    def say(self, line: str) -> None:
        self.lines.append(line)
        self.beats += 1

    def move(self) -> None:
        """A client offers a beat, or is told one."""
        rng, client = self.rng, self.rng.randrange(self.setup.clients)
        flights = self.flights[client]
        if rng.random() < 0.5:
            begun = next((it for it in flights if not it.is_whole), None)
            if begun:
                self.offer(begun)
            elif (self.left or self.new) and len(flights) < self.at_once:
                self.begin(client)
            return
        whole = [it for it in flights if it.is_whole]
        if whole:
            self.tell(next((it for it in whole if it.told), None) or rng.choice(whole))
        elif self.asked.profile == "tilelink" and rng.random() < 0.3:
            self.carry_out_any()

    def carry_out_any(self) -> None:
        """Carries out a request that is whole."""
        waiting = [it for flights in self.flights for it in flights if it.is_whole and not it.reply]
        if waiting:
            self.carry_out(self.rng.choice(waiting))

    # ---- requests

    def begin(self, client: int) -> None:
        """A client asks. A new page is given bytes at once."""
        rng = self.rng
        if rng.random() < 0.02:
            self.at_once = rng.choice(AT_ONCE)
        self.left = max(0, self.left - 1)
        if self.new and (not self.left or not self.seen or rng.random() < self.share):
            self.seen.append(self.new.pop())
            beats = self.request(client, PUT_FULL, self.seen[-1], 0)
        else:
            opcode = rng.choice(OPCODES)
            beats = self.request(client, opcode, self.page(opcode), 0.02)
        flight = Flight(client, beats, self.place(beats[0]))
        self.sure.begun(flight, [it for flights in self.flights for it in flights])
        self.flights[client].append(flight)
        self.offer(flight)

    def page(self, opcode: int) -> int:
        """A page of which a request may ask."""
        rng, lot = self.rng, self.rng.random()
        if lot < 0.04:
            return rng.choice(self.spare)
        page = rng.choice(self.seen[-RECENT:] if lot < 0.8 else self.seen)
        twin = self.twins.get(self.setup.place_of(page))
        return twin if twin is not None and opcode == GET and lot < 0.5 else page

    def request(self, client: int, opcode: int, page: int, corrupt: float) -> tuple[ABeat, ...]:
        """The beats of a request, each corrupt by lot."""
        rng = self.rng
        size, at = self.span(opcode, page)
        param = rng.randrange(PARAMS[opcode])
        source = rng.choice(sorted({*range(SOURCES)} - {it.first.source for it in self.flights[client]}))
        address, beats = page * PAGE + at, []
        full = full_mask(size, address)
        for _ in range(beats_of(size, opcode < GET)):
            mask = full & rng.getrandbits(8) if opcode == PUT_PARTIAL else full
            is_corrupt = int(opcode < GET and rng.random() < corrupt)
            beats.append(ABeat(opcode, param, size, source, address, mask, rng.getrandbits(64), is_corrupt))
        return tuple(beats)

    def span(self, opcode: int, page: int) -> tuple[int, int]:
        """The size of a request, and its place in a page: often that of the last Put, else mostly near it."""
        rng, begin = self.rng, self.rng.choice(WINDOWS)
        size, at = self.last.get(page, (0, 0))
        if page not in self.last or rng.random() < 0.4:
            size = rng.choice(SIZES)
            room = max(WINDOW, 2**size)
            at = (begin & -room) + (rng.randrange(room >> size) << size)
        if opcode in PUTS:
            self.last[page] = size, at
        return min(size, 3) if opcode in ATOMICS else size, at

    def place(self, first: ABeat) -> int | None:
        """Where a request acts on a good page, if none of its beats is corrupt."""
        at = self.setup.place([replace(first, corrupt=0)])
        return at if at is not None and self.setup.pages.get(at // PAGE) == GOOD else None

    def offer(self, flight: Flight) -> None:
        """The next beat of a message comes."""
        self.say(a_line(flight.client, flight.beats[flight.sent]))
        flight.sent += 1
        if flight.is_whole and self.asked.profile == "bridge":
            self.carry_out(flight)

    # ---- replies

    def carry_out(self, flight: Flight) -> None:
        """Carries out a request. By errors any one that failed may have done what it was to do, and is told of that in any way."""
        is_corrupt = any(it.corrupt for it in flight.beats)
        flight.reply = self.memory.carry_out(flight.client, flight.beats)
        flight.has_failed = is_corrupt or flight.at is None or any(it.corrupt for it in flight.reply) or self.is_bad(flight)
        self.failed += flight.has_failed
        if flight.has_failed and self.asked.errors == "any":
            if is_corrupt and self.rng.random() < 0.5:
                self.memory.carry_out(flight.client, tuple(replace(it, corrupt=0) for it in flight.beats))
            flight.reply = self.retold(flight.reply)
        if flight.at is not None and not is_corrupt:
            self.take(flight)

    def take(self, flight: Flight) -> None:
        """A request was carried out on a good page, and not corrupt."""
        if flight.is_writer and any(it.mask for it in flight.beats):
            self.given.add(flight.at // PAGE)
        if self.asked.profile == "bridge" and not self.is_bad(flight):
            read = self.sure.accepted(flight)
            reads = flight.first.opcode in (GET, *ATOMICS)
            self.known += sum(read) if reads else 0
            self.unknown += len(read) - sum(read) if reads else 0

    def is_bad(self, flight: Flight) -> bool:
        """Whether it reads a bad word."""
        reads = flight.at is not None and flight.first.opcode in (GET, *ATOMICS)
        words = range(flight.at & ~7, flight.at + 2**flight.first.size, 8) if reads else ()
        return any(not self.setup.is_readable(it) for it in words)

    def retold(self, reply: tuple[DBeat, ...]) -> tuple[DBeat, ...]:
        """An error, told in a way by lot."""
        rng, denied = self.rng, self.rng.randrange(2)
        if reply[0].opcode != 1:
            return (replace(reply[0], denied=denied),)
        told = [replace(it, denied=denied, payload=rng.getrandbits(64)) for it in reply]
        return tuple(replace(it, corrupt=denied or rng.randrange(2)) for it in told)

    def tell(self, flight: Flight) -> None:
        """The next beat of a reply comes."""
        if not flight.reply:
            self.carry_out(flight)
        it, beat = flight.reply[flight.told], flight.told
        self.say(d_line(replace(it, payload=self.shown(flight, it))))
        flight.told += 1
        if it.opcode == 1:
            self.told += min(8, 2**it.size)
        if it.opcode == 1 and flight.first.opcode == GET and not flight.has_failed:
            self.note(flight, beat, it.payload)
        if flight.told == len(flight.reply):
            self.flights[flight.client].remove(flight)
            self.raced += 0 in flight.alone
            self.sure.ended(flight)

    def shown(self, flight: Flight, beat: DBeat) -> int:
        """The payload of a beat. By profile tilelink anything stands in lanes that tell nothing."""
        if self.asked.profile == "bridge":
            return beat.payload
        lanes = full_mask(flight.first.size, flight.first.address) if beat.opcode == 1 and not beat.corrupt else 0
        told = sum(0xFF << 8 * lane for lane in range(8) if lanes >> lane & 1)
        return beat.payload & told | self.rng.getrandbits(64) & ~told

    def note(self, flight: Flight, beat: int, payload: int) -> None:
        """Notes which lanes of the last line tell settled bytes, and which tell fresh ones."""
        it, begin, lanes = self.sure[flight.at // PAGE], flight.at % PAGE, flight.lanes(beat)
        sure = {lane: payload >> 8 * lane & 0xFF for lane, at in lanes if it.settled[begin + at] and flight.alone[at]}
        free = [lane for lane, at in lanes if it.fresh[begin + at]]
        if sure:
            self.settled[len(self.lines)] = sure
        if free:
            self.fresh[len(self.lines)] = free


def new_pages(rng: random.Random, setup: Setup, count: int) -> list[int]:
    """Pages of TileLink's that lead to good ones, by lot: with those that a region for Gets leads to as well among them, and with some
    whose numbers differ in one bit, behind each other."""
    regions = [it for it in setup.regions if it[3] == EACH]
    twice = {to for _, _, to, letters in setup.regions if letters == GETS}
    found = dict.fromkeys(first + at for first, _, to, _ in regions if to in twice for at in range(8))
    while len(found) < count:
        first, many, _, _ = rng.choice(regions)
        beside = next(reversed(found)) ^ 1 << rng.randrange(20)
        page = beside if rng.random() < 0.3 else first + rng.randrange(many)
        if any(first <= page < first + many and setup.pages.get(to + page - first) == GOOD for first, many, to, _ in regions):
            found[page] = None
    return [*found]


def spare_pages(rng: random.Random, setup: Setup) -> list[int]:
    """Pages of TileLink's of which a request fails: those for Gets alone, those that fail, are absent or in no region."""
    ends = [first + at for first, many, _, _ in setup.regions for at in (0, many - 1, many - 2)]
    others = [page for page in rng.sample(range(1 << 20), 64) if setup.place_of(page) is None]
    alone = [first for first, _, _, letters in setup.regions if letters == GETS]
    return [page for page in ends if setup.pages.get(setup.place_of(page)) != GOOD] + others[:8] + alone


def twins(setup: Setup) -> dict[int, int]:
    """By a page of the memory, the page of a region for Gets that leads there."""
    regions = [it for it in setup.regions if it[3] == GETS]
    return {to + at: first + at for first, many, to, _ in regions for at in range(many)}
