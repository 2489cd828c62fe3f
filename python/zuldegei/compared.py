"""Which bytes of replies tlscore compared, and why it didn't compare the others: by the rules of docs/RACES.md, and of docs/SCOREBOARD.md,
"What was compared", each byte that isn't determined has the reason for which it isn't."""

from dataclasses import dataclass, field
from enum import Enum
from typing import Dict, List, NamedTuple, Optional, Set, Tuple

from .history import Burst, History, Request
from .observation import A, B, D, GOOD, R, WORD, Beat, Event, byte_of, number

ERRORS = ("SLVERR", "DECERR")


class Why(Enum):
    """Why bytes weren't compared."""

    RACED = "raced"
    LEFT = "were left by requests that raced"
    BEGAN = "are of pages of `any`, where nobody knows what the memory began with"
    GIVEN = "were given as x or z"
    FAILED = "are of requests that fail"
    SPOILED = "were left by requests that failed"
    ANSWERED = "are of requests that may have failed with a burst"
    RESET = "may have been written by a request in flight at a reset"


class Reason(NamedTuple):
    """Why a byte isn't determined: the request behind it, the one with which that raced, and the line of what happened."""

    why: Why
    request: Optional[Request] = None
    other: Optional[Request] = None
    line: Optional[int] = None


class Missed(NamedTuple):
    """Bytes of a reply's beat that weren't compared: its line, its request, their TileLink addresses, and why."""

    line: int
    request: Request
    addresses: Tuple[int, ...]
    reason: Reason


@dataclass(eq=False)
class Flight:
    """A request in flight: the bytes that it may read or write, and why some of them aren't determined."""

    request: Request
    begin: int
    end: int
    reads: bool
    writes: bool
    doubts: Dict[int, Reason] = field(default_factory=dict)
    came: int = 0  # beats of its reply

    def shared(self, other: "Flight") -> range:
        return range(max(self.begin, other.begin), min(self.end, other.end))

    def doubt(self, addresses: range, reason: Reason) -> None:
        """These bytes aren't determined any more; those that weren't keep their reason."""
        for address in addresses:
            self.doubts.setdefault(address, reason)

    def fail(self, reason: Reason) -> None:
        """No byte of it is determined any more."""
        self.doubt(range(self.begin, self.end), reason)


class Comparison:
    """Goes through an observation once, beside its history: of each beat of a reply the lanes that are looked at, and what is missed."""

    def __init__(self, history: History):
        self.history, self.observation = history, history.observation
        self.is_any = self.observation.is_by_tilelink and self.observation.are_errors_any
        self.told = self.compared = 0
        self.looked: Dict[int, Set[int]] = {}  # the lanes that are compared, by the line of a beat of a reply
        self.missed: List[Missed] = []
        self.left: Dict[int, Optional[Reason]] = {}  # by the address of a byte that isn't as it began: why nobody knows it, or nothing
        self.flights: Dict[Request, Flight] = {}  # in flight, and those whose reply goes on
        self.replying: Dict[int, Flight] = {}  # by client
        for _, address, values in self.observation.fills:
            self.left.update(dict.fromkeys(range(address, address + len(values))))
        takers = {A: self.ask, D: self.reply, B: self.answer, R: self.answer}
        for entry in self.observation.entries:
            if isinstance(entry, Event):
                self.event(entry)
            elif entry.kind in takers:
                takers[entry.kind](entry)

    # ---- bytes

    def doubt_of(self, address: int) -> Optional[Reason]:
        """Why nobody knows a byte of the memory; nothing, where it is known."""
        if address in self.left:
            return self.left[address]
        return Reason(Why.BEGAN) if self.observation.kind_of(address) == "any" else None

    def place(self, request: Request, beats: List[Beat]) -> Optional[int]:
        """Where it acts on a good page; nowhere, if it is denied at once: a corrupt one too, unless errors are told in any way."""
        if request.port_address is None or not self.observation.permits(request.opcode, request.address):
            return None
        is_good = self.observation.kind_of(request.port_address) in GOOD
        return request.port_address if is_good and (self.is_any or not is_corrupt(beats)) else None

    def fails(self, request: Request, beats: List[Beat], at: int) -> bool:
        """Whether its reply, or this word of it, is due with an error where errors are told in one way."""
        place = self.place(request, beats)
        return place is None or is_corrupt(beats) or request.has_reply_data and place // WORD * WORD + WORD * at in self.observation.bad

    # ---- channel A

    def ask(self, beat: Beat) -> None:
        """A request begins, goes on, or is whole."""
        request = self.history.of_line.get(beat.line)
        if not isinstance(request, Request):
            return
        is_first, is_last = beat.line == request.begun, beat.line == request.accepted
        if is_first and (self.observation.is_by_tilelink or is_last):
            self.begin(request, request.beats[:1], is_last)
        elif not is_first and self.is_any and beat.words[8] == "1" and request in self.flights:
            self.flights[request].fail(Reason(Why.FAILED, request))
        if is_last and not is_first:
            self.complete(request, request.beats)

    def begin(self, request: Request, beats: List[Beat], is_whole: bool) -> None:
        """With its first beat it joins those in flight, and they lose what it may write."""
        flight = self.alone(request, beats)
        if self.observation.is_by_tilelink:
            self.join(flight, beats)
        if is_whole:
            self.give(flight, beats)
        if self.observation.is_by_tilelink:
            self.stand_beside(flight)
        self.flights[request] = flight

    def alone(self, request: Request, beats: List[Beat]) -> Flight:
        """What it does to the memory, and what of that nobody knows were no other in flight."""
        place = self.place(request, beats)
        flight = Flight(request, place or 0, (place or 0) + request.bytes, place is not None and request.is_read, False)
        flight.writes = place is not None and request.has_data
        if flight.reads:
            doubts = ((it, self.doubt_of(it)) for it in range(flight.begin, flight.end))
            flight.doubts = {address: reason for address, reason in doubts if reason}
        return flight

    def join(self, flight: Flight, beats: List[Beat]) -> None:
        """What those in flight may write isn't determined in it."""
        for other in self.flights.values():
            if other.writes and (flight.reads or flight.writes):
                flight.doubt(flight.shared(other), Reason(Why.RACED, flight.request, other.request))
        if self.is_any and (self.place(flight.request, beats) is None or self.is_failing(flight.request, beats)):
            flight.fail(Reason(Why.FAILED, flight.request))

    def is_failing(self, request: Request, beats: List[Beat]) -> bool:
        return any(self.fails(request, beats, at) for at in range(request.replies_due))

    def stand_beside(self, flight: Flight) -> None:
        """Those in flight lose what it may write; of an atomic that reads what it may write, nobody knows any byte that is left."""
        for other in self.flights.values():
            shared = flight.shared(other)
            if flight.writes and shared and (other.reads or other.writes):
                reason = Reason(Why.RACED, other.request, flight.request)
                if other.reads and other.writes:
                    self.left.update(dict.fromkeys(range(other.begin, other.end), reason._replace(why=Why.LEFT)))
                other.doubt(shared, reason)

    def complete(self, request: Request, beats: List[Beat]) -> None:
        """With its last beat a request of several is whole; where its reply came before that it is over."""
        flight = self.flights.get(request)
        if flight is None:
            flight = self.flights[request] = self.alone(request, beats)
        flight.writes = flight.writes and self.place(request, beats) is not None
        self.give(flight, beats)
        if flight.came:
            del self.flights[request]

    def give(self, flight: Flight, beats: List[Beat]) -> None:
        """It writes: of a byte that isn't determined in it nobody knows what is left, and so of all that an atomic gives of such."""
        first = next(iter(flight.doubts.values()), None) if flight.reads else None
        for address in range(flight.begin, flight.end) if flight.writes else ():
            beat, lane = beats[(address - flight.begin) // WORD], address % WORD
            if number(beat.words[6], 16) >> lane & 1:
                reason = flight.doubts.get(address) or first
                self.left[address] = left_by(reason) if reason else None
        if self.place(flight.request, beats) is not None and flight.request.has_data:
            self.unknown(flight, beats)

    def unknown(self, flight: Flight, beats: List[Beat]) -> None:
        """Bytes that it gives as x or z aren't known, and no byte of an atomic with such a byte."""
        given = [(it, beats[(it - flight.begin) // WORD]) for it in range(flight.begin, flight.end)]
        given = [(address, beat) for address, beat in given if number(beat.words[6], 16) >> address % WORD & 1]
        found = [(address, beat) for address, beat in given if byte_of(beat.words[7], address % WORD) is None]
        for address, beat in given if found and flight.reads else found:
            self.left[address] = Reason(Why.GIVEN, flight.request, line=beat.line)

    # ---- channel D

    def reply(self, beat: Beat) -> None:
        """A beat of a reply: what of it is compared, and whether it ends its request, or another whose reply it cuts short."""
        client, beside = number(beat.words[0]), self.history.in_place_of.get(beat.line)
        flight = self.flights.get(beside or self.history.of_line.get(beat.line))
        if flight is None:
            return
        self.count(beat.line, self.replying.get(client, flight))
        if beside:
            return
        cut = self.replying.pop(client, None)
        if cut is not None and cut is not flight:
            self.flights.pop(cut.request, None)
        flight.came += 1
        if flight.came < flight.request.replies_due:
            self.replying[client] = flight
        elif flight.request.accepted is not None and flight.request.accepted < beat.line:
            del self.flights[flight.request]

    def count(self, line: int, flight: Flight) -> None:
        """How much the next beat of a reply tells, and how much of that is compared."""
        request, at = flight.request, flight.came
        self.looked[line] = set()
        if not request.has_reply_data:
            return
        begin = request.address // WORD * WORD + WORD * at
        told = range(max(begin, request.address), min(begin + WORD, request.address + request.bytes))
        self.told += len(told)
        is_error = self.fails(request, request.beats, at) and not self.is_any
        if is_error and not self.observation.is_by_tilelink:
            self.compared += len(told)  # its data are due as zeros
            return
        failed = Reason(Why.FAILED, request) if is_error else None
        missed = {it: failed or flight.doubts.get(it - request.address + flight.begin) for it in told}
        self.looked[line] = {address % WORD for address, its in missed.items() if its is None}
        self.compared += len(self.looked[line])
        for its in dict.fromkeys(filter(None, missed.values())):
            self.missed.append(Missed(line, request, tuple(address for address in told if missed[address] == its), its))

    # ---- what else there is

    def answer(self, beat: Beat) -> None:
        """An error response: each request in flight that shares a byte with its burst may have failed, if errors are told in any way."""
        burst, response = self.history.of_line.get(beat.line), beat.words[1 if beat.kind == B else 2]
        if not self.is_any or not isinstance(burst, Burst) or response not in ERRORS:
            return
        for flight in self.flights.values():
            if (flight.reads or flight.writes) and flight.begin <= burst.last_byte and burst.address < flight.end:
                reason = Reason(Why.ANSWERED, flight.request, line=beat.line)
                if flight.writes:
                    self.left.update(dict.fromkeys(range(flight.begin, flight.end), reason))
                flight.fail(reason)

    def event(self, event: Event) -> None:
        """A reset: what is in flight may have been carried out."""
        if event.name != "reset":
            return
        for flight in self.flights.values():
            if flight.writes:
                reason = Reason(Why.RESET, flight.request, line=event.line)
                self.left.update(dict.fromkeys(range(flight.begin, flight.end), reason))
        self.flights.clear()
        self.replying.clear()


def is_corrupt(beats: List[Beat]) -> bool:
    return any(it.words[8] == "1" for it in beats)


def left_by(reason: Reason) -> Reason:
    """Why nobody knows a byte that a request left in which it wasn't determined."""
    why = {Why.RACED: Why.LEFT, Why.FAILED: Why.SPOILED}.get(reason.why, reason.why)
    return reason._replace(why=why)
