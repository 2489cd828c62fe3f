"""What belongs to a line, a source, a client or a byte in a history, found without going through all of it for each wrong line."""

from bisect import bisect_left, bisect_right
from typing import Dict, Iterator, List, NamedTuple, Optional, Sequence, Tuple

from .history import Burst, History, Request, Transfer
from .observation import PAGE, WORD, Beat, number

NEVER = 1 << 64  # a line behind all others


class Part(NamedTuple):
    """A W or R beat in the word that its bytes lie in."""

    line: int
    burst: Burst
    transfer: Transfer


class Data(NamedTuple):
    """Bytes that a beat gives, and which: from the lowest lane that it gives on, so that it doesn't matter where they stand."""

    lanes: int
    payload: int


class PutBeat(NamedTuple):
    """A beat of a Put."""

    line: int
    request: Request


class Sorted:
    """Things by their lines, in the order of these."""

    def __init__(self):
        self.lines: List[int] = []
        self.things: List[object] = []

    def add(self, line: int, thing: object) -> None:
        """Puts a thing in its place, which is the last most often."""
        at = len(self.lines) if not self.lines or self.lines[-1] <= line else bisect_right(self.lines, line)
        self.lines.insert(at, line)
        self.things.insert(at, thing)

    def before(self, line: int) -> Iterator[object]:
        """Those ahead of a line, the last first."""
        return (self.things[at] for at in range(bisect_left(self.lines, line) - 1, -1, -1))

    def between(self, after: int, before: int) -> List[object]:
        return self.things[bisect_right(self.lines, after) : bisect_left(self.lines, before)]


class Index:
    """Made once of a history."""

    def __init__(self, history: History):
        self.history = history
        self.beats: Dict[int, Beat] = {it.line: it for it in history.observation.beats()}
        self.of_source: Dict[Tuple[int, int], Sorted] = {}
        self.open_of_source: Dict[Tuple[int, int], Sorted] = {}  # those that never ended
        self.writers: Dict[int, Sorted] = {}  # by a word on the port: accepted requests that may write a byte of it
        self.unmapped: Dict[int, Sorted] = {}  # by the place in a page: requests whose page no region leads to
        self.written: Dict[int, Sorted] = {}  # by a word on the port: W beats
        self.read: Dict[int, Sorted] = {}  # and R beats
        self.unanswered: Dict[Tuple[bool, int], Burst] = {}  # of writes or reads of an ID the oldest
        self.data_alone = history.data_alone()
        self.written_data: Dict[Data, Sorted] = {}  # W beats by what they write
        self.given_data: Dict[Data, Sorted] = {}  # beats of Puts by what they give
        for request in history.requests:
            self.add_request(request)
        for burst in history.bursts:
            self.add_burst(burst)
        self.in_flight, self.races = self.sweep()

    def add_request(self, request: Request) -> None:
        """Adds a request to what it is found by."""
        source = request.client, request.source
        for beat in request.beats if request.is_put else ():
            for data in data_of(beat.words[6], beat.words[7], self.history.observation.bus):
                self.given_data.setdefault(data, Sorted()).add(beat.line, PutBeat(beat.line, request))
        self.of_source.setdefault(source, Sorted()).add(request.begun, request)
        if request.ended is None:
            self.open_of_source.setdefault(source, Sorted()).add(request.begun, request)
        if request.port_address is None:
            self.unmapped.setdefault(request.address % PAGE, Sorted()).add(request.begun, request)
        elif request.has_data and request.accepted is not None:
            for word in words_of(request):
                self.writers.setdefault(word, Sorted()).add(request.accepted, request)

    def add_burst(self, burst: Burst) -> None:
        """Adds a burst and its beats to what they are found by."""
        if not burst.answer:
            self.unanswered.setdefault((burst.is_write, burst.id), burst)
        parts = self.written if burst.is_write else self.read
        for transfer in burst.transfers:
            part = Part(transfer.beat.line, burst, transfer)
            parts.setdefault(transfer.first // WORD, Sorted()).add(part.line, part)
            for data in data_of(transfer.beat.words[1], transfer.beat.words[0], burst.bus) if burst.is_write else ():
                self.written_data.setdefault(data, Sorted()).add(part.line, part)

    def last_of(self, client: Optional[int], source: Optional[int], line: int, is_open: bool = False) -> Optional[Request]:
        """The last request of a client's source ahead of a line, or the last that never ended."""
        found = (self.open_of_source if is_open else self.of_source).get((client, source))
        return next(found.before(line), None) if found else None

    def parts(self, port_address: int, is_write: bool) -> Sorted:
        """The W or R beats of a byte's word."""
        return (self.written if is_write else self.read).get(port_address // WORD, Sorted())

    def sweep(self) -> Tuple[Dict[int, List[Request]], Dict[Request, List[Request]]]:
        """Goes through the lines once: by each wrong beat of channel D the requests of its client that wait for a reply, and by each request
        with such a beat those in flight with it that may write a byte of it."""
        wrong = [self.beats[it] for it in self.history.wrong if it in self.beats and self.beats[it].kind == "D"]
        found = (self.history.of_line.get(it.line) for it in wrong)
        races: Dict[Request, List[Request]] = {it: [] for it in found if isinstance(it, Request)}
        waiting: Dict[int, List[Request]] = {}
        active: Dict[Request, None] = {}
        for line, kind, it in sorted(self.steps(wrong), key=lambda it: it[:2]):
            if kind == 0:
                waiting[line] = [other for other in active if other.client == number(it.words[0])]
            elif kind == 1:
                note_races(it, active, races)
                active[it] = None
            else:
                active.pop(it, None)
        return waiting, races

    def steps(self, wrong: List[Beat]) -> Iterator[Tuple[int, int, object]]:
        """What happens, by its line: ahead of all else there a wrong beat comes, then a request begins, and then one ends."""
        yield from ((it.line, 0, it) for it in wrong)
        for request in self.history.requests:
            yield request.begun, 1, request
            yield NEVER if request.ended is None else request.ended, 2, request


def data_of(lanes: str, payload: str, bus: int) -> Sequence[Data]:
    """What a beat gives, apart for each transfer of a bus, if all of it is known and not all of it is zero."""
    mask, value = number(lanes, 16), number(payload, 16)
    if mask is None or value is None:
        return ()
    value &= BITS[mask]
    if bus == WORD:
        return (moved(mask, value),) if value else ()
    halves = ((mask & 0xF, value & 0xFFFFFFFF), (mask >> 4, value >> 32))
    return [moved(its_mask, its_value) for its_mask, its_value in halves if its_value]


def moved(mask: int, value: int) -> Data:
    lowest = (mask & -mask).bit_length() - 1
    return Data(mask >> lowest, value >> 8 * lowest)


BITS = [sum(0xFF << 8 * lane for lane in range(WORD) if mask >> lane & 1) for mask in range(1 << WORD)]


def words_of(request: Request) -> range:
    """The words on the port that its bytes lie in."""
    return range(request.port_address // WORD, (request.port_address + request.bytes - 1) // WORD + 1)


def note_races(request: Request, active: Dict[Request, None], races: Dict[Request, List[Request]]) -> None:
    """A request begins: it races with those in flight, of which one writes and both share a byte; some requests are asked for."""
    for other in active if request.port_address is not None else ():
        first, second = other.port_address, request.port_address
        if first is not None and first < second + request.bytes and second < first + other.bytes:
            if request in races and other.has_data:
                races[request].append(other)
            if other in races and request.has_data:
                races[other].append(request)
