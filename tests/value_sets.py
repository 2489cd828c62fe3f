"""Which values the bytes of replies may have where requests take effect in any order that keeps real time: the rule of values, written
plainly and one byte at a time, of an observation in which nothing but payloads is wrong.

A request is numbered as it begins, from 1, over resets too, and it has ended when so many have begun. What it gives to a byte is known once
it is whole, of an atomic once its reply has told all that it reads; what one leaves that has failed nobody knows.
A reader may be told what a writer gave, or what was there at the start, unless another writer stands between them in every order: one that
took effect for certain and had ended before the reader began, and that began after the first had ended. Nothing is ever forgotten.
"""

from collections import defaultdict
from dataclasses import dataclass, field
from enum import Enum
from typing import Dict, FrozenSet, List, NamedTuple, Optional, Sequence, Set, Tuple

from compared import WITHDRAWN
from model import GET, GOOD, PUT_FULL, PUT_PARTIAL, UNKNOWN, Ranges, Setup
from unknown import known, lanes_in

from client import ABeat, beats_of  # model.py says where it stands
from random_bench import applied

PUTS, WITH_DATA = (PUT_FULL, PUT_PARTIAL), 1  # opcodes: of requests, and of a reply that tells bytes
ERRORS, BURSTS = ("SLVERR", "DECERR"), ("AW", "AR")
Value = Optional[int]  # a byte, or one that nobody knows


class Why(Enum):
    """Whether a told byte can be compared, and if not, why. Its request has failed; its word can't be read; it may be what the memory began
    with, and nobody knows that; a request that failed, or was cut off, may have left anything; or one in flight may still give anything."""

    COMPARED, FAILED, BAD_WORD, NEVER_GIVEN = "compared", "of failed requests", "of bad words", "never given"
    SPOILED, RACED = "spoiled by failed ones", "raced with any"


class Byte(NamedTuple):
    """A byte that a reply told: its lane, its address, what it was, and what it may have been, where its request hasn't failed."""

    lane: int
    address: int
    value: Value
    may: FrozenSet[Value]
    why: Why

    def is_wrong_as(self, value: Value) -> bool:
        """Whether another value in its place is wrong."""
        return self.why is Why.COMPARED and value not in self.may


@dataclass(eq=False)
class Request:
    """What was seen of a request: `at` is where it acts in good pages, if it does, and `gives` has each byte that it may give."""

    number: int
    client: int
    first: ABeat
    at: Optional[int]
    beats: List[Tuple[ABeat, Set[int]]] = field(default_factory=list)  # each with its lanes that nobody knows
    failed: bool = False
    replied: int = 0  # beats of its reply
    ended: Optional[int] = None
    cut: bool = False  # by a reset
    told: Dict[int, int] = field(default_factory=dict)
    gives: Dict[int, Value] = field(default_factory=dict)

    @property
    def span(self) -> range:
        return range(0) if self.at is None else range(self.at, self.at + 2**self.first.size)

    @property
    def writes(self) -> bool:
        return self.first.opcode < GET

    @property
    def is_whole(self) -> bool:
        return len(self.beats) == beats_of(self.first.size, self.writes)

    @property
    def is_answered(self) -> bool:
        return self.replied == beats_of(self.first.size, self.first.opcode in range(PUT_PARTIAL + 1, GET + 1))

    @property
    def is_sure(self) -> bool:
        """Whether it takes effect for certain."""
        return self.is_whole and not (self.failed or self.cut)

    def offered(self, address: int) -> Tuple[bool, Value]:
        """Whether the mask of its beat has a byte, and what that byte is."""
        beat, unknown = self.beats[address // 8 - self.at // 8]
        lane = address % 8
        return bool(beat.mask >> lane & 1), None if lane in unknown else beat.payload >> 8 * lane & 0xFF

    def made(self) -> Dict[int, Value]:
        """What an atomic makes of what it was told."""
        old, operand = [self.told.get(it) for it in self.span], [self.offered(it)[1] for it in self.span]
        if None in old or None in operand:
            return dict.fromkeys(self.span)
        numbers = (int.from_bytes(bytes(it), "little") for it in (old, operand))
        return dict(zip(self.span, applied(self.first.opcode, self.first.param, len(old), *numbers).to_bytes(len(old), "little")))

    def left(self) -> Dict[int, Value]:
        """What it gives once it is whole, if it hasn't failed."""
        if self.first.opcode not in PUTS:
            return self.made() if self.writes else {}
        return {address: value for address in self.span for has, value in [self.offered(address)] if has}

    def looked_at_anew(self) -> None:
        """Says anew what it gives."""
        left = self.left() if self.is_whole or not self.writes else dict.fromkeys(self.span)
        self.gives = dict.fromkeys(left) if self.failed else left


class Telling(NamedTuple):
    """A beat of a reply with data: its line, its request, how many had begun by then, and its bytes."""

    line: int
    request: Request
    begun: int
    told: List[Byte]

    def is_wrong(self, values: Sequence[Value]) -> bool:
        return any(it.is_wrong_as(value) for it, value in zip(self.told, values))


class ValueSets:
    """Takes the lines of an observation one after another, and keeps what each reply told."""

    def __init__(self, lines: Sequence[str]):
        self.errors_any = False
        self.regions, self.pages, self.bad, self.filled = [], Ranges(()), set(), {}
        self.begun = 0
        self.requests: List[Request] = []  # those in flight, in the order in which they began
        self.writers: Dict[int, List[Request]] = defaultdict(list)  # of each byte
        self.bursts: Dict[str, list] = {"W": [], "R": []}
        self.tellings: List[Telling] = []
        held = None
        for number, line in enumerate(lines, 1):
            words = line.split()
            if held and not (words[:1] == ["="] and words[1] in WITHDRAWN):
                self.take_a(held)
            held = words if words[:1] == ["A"] else None
            if words and not held:
                self.take(number, words)
        if held:
            self.take_a(held)

    def take(self, number: int, words: List[str]) -> None:
        """Takes any line but one of channel A."""
        if words[0] in ("region", "page", "bad", "errors", "fill"):
            self.set_up(words)
        elif words[0] == "D":
            self.take_d(number, words)
        elif words[0] in BURSTS:
            self.open(words)
        elif words[0] in ("B", "R"):
            self.answered(words)
        elif words[0] == "=" and words[1] in ("drained", "reset"):
            self.bursts = {"W": [], "R": []}
            if words[1] == "reset":
                self.reset()

    # ---- the set-up

    def set_up(self, words: List[str]) -> None:
        if words[0] == "region":
            self.regions.append((int(words[1], 16), int(words[2]), int(words[3], 16), words[4]))
        elif words[0] == "page":
            self.pages = Ranges([*self.pages.listed, (int(words[1], 16), int(words[2]), words[3])])
        elif words[0] == "bad":
            self.bad.add(int(words[1], 16) & ~7)
        elif words[0] == "errors":
            self.errors_any = words[1] == "any"
        else:
            self.filled.update((int(words[1], 16) + at, int(it, 16)) for at, it in enumerate(words[2:]))

    def place(self, first: ABeat) -> Optional[int]:
        """Where a request acts in good pages, if it does."""
        at = Setup(0, 0, 0, 0, 0, 0, 8, tuple(self.regions), self.pages, ()).leads(first)
        return at if at is not None and self.pages.get(at >> 12) == GOOD else None

    def at_start(self, address: int) -> Value:
        return self.filled.get(address, None if self.pages.kind(address >> 12) == UNKNOWN else 0)

    # ---- channel A

    def take_a(self, words: List[str]) -> None:
        """A message begins or goes on."""
        beat = ABeat(*(int(it, 16 if at in (6, 7, 8) else 10) for at, it in enumerate(known(words)[2:], 2)))
        client = int(words[1])
        request = next((it for it in self.requests if it.client == client and not it.is_whole), None) or self.begin(client, beat)
        request.beats.append((beat, lanes_in(words)))
        self.failed_so_far(request, beat)
        request.looked_at_anew()
        if request.is_whole and request.is_answered:  # its reply came early
            self.end(request)

    def begin(self, client: int, first: ABeat) -> Request:
        self.begun += 1
        request = Request(self.begun, client, first, self.place(first))
        self.requests.append(request)
        for address in request.span if request.writes else ():
            self.writers[address].append(request)
        return request

    def failed_so_far(self, request: Request, beat: ABeat) -> None:
        """A beat may say that its request fails. Where errors are told as this project's bridge tells them that does nothing, from its
        first beat on if that is corrupt, else once it is whole."""
        is_bad = request.first.opcode not in PUTS and any(it & ~7 in self.bad for it in request.span)
        if self.errors_any:
            request.failed |= request.at is None or bool(beat.corrupt) or is_bad
            return
        is_corrupt = request.first.corrupt or request.is_whole and any(it.corrupt for it, _ in request.beats)
        if is_corrupt or is_bad and request.writes:
            for address in request.span:
                self.writers[address].remove(request)
            request.at = None

    # ---- channel D

    def take_d(self, number: int, words: List[str]) -> None:
        client, opcode, source, is_corrupt = int(words[1]), int(words[2]), int(words[5]), int(words[8])
        request = self.due(client, source)
        if opcode == WITH_DATA:
            self.tell(number, request, words, is_corrupt)
        request.replied += 1
        request.looked_at_anew()
        if request.is_answered and request.is_whole:
            self.end(request)

    def due(self, client: int, source: int) -> Request:
        """The request to which a beat is due: the one whose reply goes on, or else the first of its source."""
        own = [it for it in self.requests if it.client == client]
        going_on = (it for it in own if it.replied and not it.is_answered)
        return next(going_on, None) or next(it for it in own if it.first.source == source and not it.replied)

    def end(self, request: Request) -> None:
        request.ended = self.begun
        self.requests.remove(request)

    def tell(self, number: int, request: Request, words: List[str], is_corrupt: int) -> None:
        """A beat of a reply tells bytes. What is found wrong wasn't told."""
        payload, unknown = int(known(words)[7], 16), lanes_in(words)
        low = (request.first.address & ~7) + 8 * request.replied
        span = range(max(request.first.address, low), min(request.first.address + 2**request.first.size, low + 8))
        shift = 0 if request.at is None else request.at - request.first.address
        values = [None if it % 8 in unknown else payload >> 8 * (it % 8) & 0xFF for it in span]
        told = [self.byte(request, it + shift, value, is_corrupt) for it, value in zip(span, values)]
        telling = Telling(number, request, self.begun, told)
        self.tellings.append(telling)
        if not telling.is_wrong(values):
            request.told.update((it.address, it.value) for it in told if it.value is not None and it.why not in (Why.FAILED, Why.BAD_WORD))

    def byte(self, request: Request, address: int, value: Value, is_corrupt: int) -> Byte:
        """A byte that was told, with what it may be."""
        if request.at is None or request.failed or is_corrupt:
            is_bad = is_corrupt and request.at is not None and not request.failed
            return Byte(address % 8, address, value, frozenset(), Why.BAD_WORD if is_bad else Why.FAILED)
        start, givers = self.may_find(request, address)
        may = frozenset([*start, *(it.gives[address] for it in givers)])
        return Byte(address % 8, address, value, may, self.why(start, [it for it in givers if it.gives[address] is None]))

    @staticmethod
    def why(start: List[Value], unknown: List[Request]) -> Why:
        """Why a byte can't be compared, by what it may be of the memory's beginning, and by those that may have given what nobody knows."""
        if None in start:
            return Why.NEVER_GIVEN
        if any(it.failed or it.cut for it in unknown):
            return Why.SPOILED
        return Why.RACED if unknown else Why.COMPARED

    # ---- the rule

    def may_find(self, reader: Request, address: int) -> Tuple[List[Value], List[Request]]:
        """What a request may find of a byte, in some order: what it was at the start, if it may still be that, and what these gave."""
        others = [it for it in self.writers[address] if it is not reader and address in it.gives]
        passed = [it.number for it in others if it.is_sure and it.ended is not None and it.ended < reader.number]
        last = max(passed, default=0)  # whatever had ended before this one began is hidden behind it
        return [self.at_start(address)] * (not last), [it for it in others if it.ended is None or it.ended >= last]

    # ---- what ends or spoils requests in flight

    def reset(self) -> None:
        """Each request in flight took effect before, or never does."""
        for request in list(self.requests):
            request.cut = True
            self.end(request)

    def open(self, words: List[str]) -> None:
        """A burst, with the range of its bytes."""
        address, length, size = int(words[2], 16), int(words[3]), int(words[4])
        last = (address >> size << size) + (length + 1 << size) - 1
        self.bursts[words[0][1]].append((int(words[1]), range(address, last + 1)))

    def answered(self, words: List[str]) -> None:
        """An answer to the oldest burst of its ID. An error may tell of each request in flight that shares a byte with that."""
        bursts, response = self.bursts["W" if words[0] == "B" else "R"], words[2 if words[0] == "B" else 3]
        burst = next(it for it in bursts if it[0] == int(words[1]))
        if words[0] == "B" or words[4] == "1":
            bursts.remove(burst)
        if self.errors_any and response in ERRORS:
            for request in self.requests:
                if request.span and request.at <= burst[1][-1] and burst[1][0] <= request.span[-1]:
                    request.failed = True
                    request.looked_at_anew()
