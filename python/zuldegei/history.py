"""Requests with their replies and bursts with their beats, put together from the beats of an observation.

Which burst carries out which request is nothing that a port tells. Here a burst belongs to a request that it may be of: one that has
begun, whose bytes it touches, and whose bytes no burst before it had all of; the one that it fits best, of these one that got a reply, and
of these the oldest."""

from collections import deque
from dataclasses import dataclass, field
from typing import Deque, Dict, List, NamedTuple, Optional, Tuple

from .observation import (
    A, AR, AW, B, D, GET, INTENT, LAST_PUT, LAST_WITH_DATA, OPERATIONS, R, W, WORD, Beat, Event, Observation, Verdict, Wrong, byte_of, number,
)  # fmt: skip

RESETS = ("reset", "drained")
# What was told of a beat that changed nothing, as docs/SCOREBOARD.md has it under "Verdicts".
NO_REPLY = ("UNASKED", "NO_CLIENT")
OPENS_ANYWAY = ("DEPTH", "CROSS_4K", "BURST_KIND", "PLACE", "W_WITHOUT_AW", "STROBE", "WLAST")
COUNTS_ANYWAY = ("STROBE", "WLAST")
RESPONSES = ("OKAY", "EXOKAY", "SLVERR", "DECERR")
BESIDE = 1  # how well a burst fits that touches no byte of a request, and is as long
LATE = 16  # requests that have ended and whose bursts may still come


@dataclass(eq=False)
class Request:
    """A request: its beats on channel A, and the beats of its reply."""

    client: int
    opcode: int
    param: int
    size: int
    source: int
    address: int
    port_address: Optional[int]  # on the AXI4 port, where a region leads there
    beats: List[Beat] = field(default_factory=list)
    replies: List[Beat] = field(default_factory=list)
    bursts: List["Burst"] = field(default_factory=list)
    accepted: Optional[int] = None  # the line of its last beat
    ended: Optional[int] = None  # the line from which it was in flight no more

    @property
    def bytes(self) -> int:
        return 1 << self.size

    @property
    def begun(self) -> int:
        return self.beats[0].line

    @property
    def has_data(self) -> bool:
        return self.opcode <= LAST_WITH_DATA

    @property
    def is_put(self) -> bool:
        return self.opcode <= LAST_PUT

    @property
    def is_read(self) -> bool:
        return not self.is_put

    @property
    def is_intent(self) -> bool:
        return self.opcode == INTENT

    @property
    def has_reply_data(self) -> bool:
        return self.opcode <= GET and not self.is_put

    @property
    def beats_due(self) -> int:
        return max(1, self.bytes // WORD) if self.has_data else 1

    @property
    def replies_due(self) -> int:
        return max(1, self.bytes // WORD) if self.has_reply_data else 1

    def gives(self, address: int) -> Optional["Given"]:
        """What it gives for the byte at a TileLink address, and where: nothing, where its mask leaves it out."""
        at = address // WORD - self.address // WORD
        if not self.has_data or not 0 <= at < len(self.beats):
            return None
        beat, lane = self.beats[at], address % WORD
        mask = number(beat.words[6], 16)
        if mask is None or not mask >> lane & 1:
            return None
        return Given(beat.line, byte_of(beat.words[7], lane) if self.is_put else None)

    def covers(self, port_address: int) -> bool:
        return self.port_address is not None and self.port_address <= port_address < self.port_address + self.bytes

    def own_address(self, port_address: int) -> int:
        """The TileLink address of a byte on the AXI4 port that it covers."""
        return port_address - self.port_address + self.address

    def name(self) -> str:
        operation = OPERATIONS[self.opcode] if self.opcode < len(OPERATIONS) else f"opcode {self.opcode}"
        return f"{operation} of {self.bytes} bytes at {self.address:08x}, client {self.client} source {self.source}"


class Given(NamedTuple):
    """A byte that a request gives, or None where that isn't known, and the line of its beat."""

    line: int
    value: Optional[int]


class Transfer(NamedTuple):
    """A W or R beat of a burst, with the addresses of its bytes: `word` is that of lane 0."""

    beat: Beat
    word: int
    first: int
    last: int

    def byte(self, port_address: int) -> Optional[int]:
        payload = self.beat.words[0] if self.beat.kind == W else self.beat.words[1]
        return byte_of(payload, port_address - self.word)

    def is_written(self, port_address: int) -> bool:
        strobes = number(self.beat.words[1], 16) if self.beat.kind == W else None
        return strobes is None or bool(strobes >> (port_address - self.word) & 1)


@dataclass(eq=False)
class Burst:
    """A burst on the AXI4 port: its address, its data, and its answer."""

    beat: Beat
    id: int
    address: int
    length: int
    size: int
    bus: int
    transfers: List[Transfer] = field(default_factory=list)
    answer: Optional[Beat] = None  # the B, or the last R beat
    request: Optional[Request] = None

    @property
    def is_write(self) -> bool:
        return self.beat.kind == AW

    @property
    def last_byte(self) -> int:
        each = 1 << self.size
        return self.address // each * each + (self.length + 1) * each - 1

    def covers(self, port_address: Optional[int]) -> bool:
        return port_address is not None and self.address <= port_address <= self.last_byte

    def take(self, beat: Beat) -> None:
        """Adds the next transfer."""
        each, at = 1 << self.size, len(self.transfers)
        first = self.address if at == 0 else self.address // each * each + at * each
        self.transfers.append(Transfer(beat, first // self.bus * self.bus, first, first // each * each + each - 1))

    def transfer_of(self, port_address: int) -> Optional[Transfer]:
        return next((it for it in self.transfers if it.first <= port_address <= it.last), None)

    @property
    def is_whole(self) -> bool:
        return len(self.transfers) > self.length

    def name(self) -> str:
        end = f"{self.address:08x} to {self.last_byte:08x}"
        return f"{self.beat.kind} of ID {self.id}, {self.length + 1} times {1 << self.size} bytes, {end}"


class History:
    """Goes through the beats of an observation once, with what was told wrong of them."""

    def __init__(self, observation: Observation, verdict: Verdict):
        self.observation, self.wrong = observation, verdict.by_line
        self.requests: List[Request] = []
        self.bursts: List[Burst] = []
        self.of_line: Dict[int, object] = {}  # the request or burst of a beat
        self.cut: Dict[int, Request] = {}  # by the beat that begins another reply: the request whose reply that one cuts short
        self.in_place_of: Dict[int, Request] = {}  # of a beat in the midst of another request's reply: that request
        self.events: List[Event] = []
        self.begun: Dict[int, Request] = {}  # by client, while its beats come
        self.due: Dict[Tuple[int, int], Deque[Request]] = {}  # by client and source
        self.replying: Dict[int, Request] = {}  # by client, while its reply comes
        self.lacking: Deque[Burst] = deque()  # writes that lack data
        self.early: Deque[Beat] = deque()  # W beats ahead of their AW
        self.open: Dict[Tuple[str, int], Deque[Burst]] = {}
        takers = {A: self.ask, D: self.reply, AW: self.open_burst, AR: self.open_burst, W: self.write, B: self.answer, R: self.read}
        for entry in observation.entries:
            if isinstance(entry, Event):
                self.event(entry)
            else:
                takers[entry.kind](entry)
        self.pair()

    def told(self, beat: Beat) -> Optional[Wrong]:
        return self.wrong.get(beat.line)

    def event(self, event: Event) -> None:
        """Forgets what a reset or a drained port has ended."""
        self.events.append(event)
        if event.name in RESETS:
            for kept in (self.lacking, self.early, self.open):
                kept.clear()
        if event.name == "reset":
            for request in self.requests:
                request.ended = event.line if request.ended is None else request.ended
            for kept in (self.begun, self.due, self.replying):
                kept.clear()

    def ask(self, beat: Beat) -> None:
        """Takes a beat of channel A."""
        numbers = [number(it) for it in beat.words[:5]] + [number(beat.words[5], 16)]
        numbers += [number(beat.words[6], 16), number(beat.words[8])]
        if None in numbers or self.told(beat) and self.told(beat).name != "X":
            return  # a beat that is refused changes nothing
        client = numbers[0]
        request = self.begun.get(client)
        if request is None:
            request = Request(*numbers[:6], self.observation.on_the_port(numbers[5]))
            self.requests.append(request)
            self.due.setdefault((client, request.source), deque()).append(request)
        request.beats.append(beat)
        self.of_line[beat.line] = request
        self.begun[client] = request
        if len(request.beats) == request.beats_due:
            request.accepted = beat.line
            del self.begun[client]
            request.ended = beat.line if request.ended is not None else None  # a reply that came early

    def reply(self, beat: Beat) -> None:
        """Takes a beat of channel D."""
        told = self.told(beat)
        client, source = number(beat.words[0]), number(beat.words[4])
        if told and (told.name in NO_REPLY or told.name == "X" and not told.due):
            return
        if told and told.name == "INTERLEAVED" and client in self.replying:
            if not any(it.accepted for it in list(self.due.get((client, source), ()))[:1]):
                self.in_place_of[beat.line] = self.replying[client]
                return  # it is of no reply that is due, and changes nothing
            self.cut[beat.line] = self.replying.pop(client)  # that one ended early
            self.end(self.cut[beat.line], beat)
        request = self.replying.get(client)
        if request is None:
            waiting = self.due.get((client, source))
            if not waiting:
                return
            request = waiting.popleft()
        request.replies.append(beat)
        self.of_line[beat.line] = request
        self.replying[client] = request
        if len(request.replies) == request.replies_due:
            self.end(request, beat)
            del self.replying[client]

    def end(self, request: Request, beat: Beat) -> None:
        """Notes where a request was in flight no more."""
        request.ended = max(beat.line, request.accepted or beat.line)

    def open_burst(self, beat: Beat) -> None:
        """Takes an AW or an AR."""
        told = self.told(beat)
        numbers = [number(beat.words[0]), number(beat.words[1], 16), number(beat.words[2]), number(beat.words[3])]
        if None in numbers:
            return
        burst = Burst(beat, *numbers, self.observation.bus)
        self.bursts.append(burst)
        self.of_line[beat.line] = burst
        waiting = self.open.setdefault((beat.kind, burst.id), deque())
        if told and (told.name not in OPENS_ANYWAY or len(waiting) >= 2 * self.observation.depth > 0):
            return
        waiting.append(burst)
        if burst.is_write:
            self.lacking.append(burst)
            while self.early and self.lacking:
                self.hand_over(self.early.popleft())

    def write(self, beat: Beat) -> None:
        """Takes a W beat, which waits where no burst lacks data."""
        told = self.told(beat)
        is_clear = number(beat.words[1], 16) is not None and number(beat.words[2]) is not None
        if told and told.name not in COUNTS_ANYWAY and not (told.name == "X" and is_clear):
            return
        if self.lacking:
            self.hand_over(beat)
        else:
            self.early.append(beat)

    def hand_over(self, beat: Beat) -> None:
        """Gives a W beat to the oldest burst that lacks data."""
        burst = self.lacking[0]
        burst.take(beat)
        self.of_line[beat.line] = burst
        if burst.is_whole:
            self.lacking.popleft()

    def data_alone(self) -> List[List[Beat]]:
        """The W beats for which no AW came, by their writes, each of which ends with its last beat."""
        writes: List[List[Beat]] = []
        for beat in self.early:
            if not writes or writes[-1][-1].words[2] == "1":
                writes.append([])
            writes[-1].append(beat)
        return writes

    def answer(self, beat: Beat) -> None:
        """Takes a B."""
        waiting = self.open.get((AW, number(beat.words[0])))
        if waiting and not self.told(beat):
            burst = waiting.popleft()
            burst.answer = beat
            self.of_line[beat.line] = burst

    def read(self, beat: Beat) -> None:
        """Takes an R beat."""
        waiting, told = self.open.get((AR, number(beat.words[0]))), self.told(beat)
        if not waiting or told and (told.name != "X" or beat.words[2] not in RESPONSES or number(beat.words[3]) is None):
            return
        burst = waiting[0]
        burst.take(beat)
        self.of_line[beat.line] = burst
        if burst.is_whole:
            burst.answer = beat
            waiting.popleft()

    def pair(self) -> None:
        """Gives each burst a request that it may be of."""
        served: Dict[int, List[Burst]] = {}
        waiting: List[Request] = []
        begun = iter([*self.requests, None])
        coming = next(begun)
        for burst in self.bursts:
            while coming is not None and coming.begun < burst.beat.line:
                waiting.append(coming)
                coming = next(begun)
            waiting = still_waiting(waiting, burst.beat.line)
            waiting = [it for it in waiting if not is_served(it, served.get(id(it), []))]
            fits = [(fitness(it, burst), it) for it in waiting]
            fits = [(fit, it) for fit, it in fits if fit > BESIDE or not it.bursts and (it.ended is None or it.ended > burst.beat.line)]
            best = max((fit for fit, _ in fits), default=0)
            if best:
                fitting = [it for fit, it in fits if fit == best]
                burst.request = next((it for it in fitting if it.replies), fitting[0])
                burst.request.bursts.append(burst)
                if best > BESIDE:
                    served.setdefault(id(burst.request), []).append(burst)


def fitness(request: Request, burst: Burst) -> int:
    """How well a burst fits a request: not at all, by its length alone, by a byte, within its bytes, at its first, or with all of them."""
    if request.port_address is None or burst.is_write and not request.has_data or not burst.is_write and request.is_put:
        return 0
    first, last = request.port_address, request.port_address + request.bytes - 1
    if burst.last_byte < first or last < burst.address:
        return BESIDE if burst.last_byte - burst.address == last - first else 0
    if not (first <= burst.address and burst.last_byte <= last):
        return BESIDE + 1
    return BESIDE + 2 + (burst.address == first) + (burst.address == first and burst.last_byte == last)


def still_waiting(requests: List[Request], line: int) -> List[Request]:
    """Those in flight at a line, and the last ones that had ended without all their bursts: their replies may have come too soon."""
    in_flight = [it for it in requests if it.ended is None or it.ended > line]
    ended = [it for it in requests if it.ended is not None and it.ended <= line][-LATE:]
    return [it for it in ended if it.is_put] + in_flight + [it for it in ended if not it.is_put]


def is_served(request: Request, bursts: List[Burst]) -> bool:
    """Whether the bursts that it has are of all its bytes already; an atomic has both kinds."""
    if request.port_address is None:
        return True
    kinds = {AW: sum(it.last_byte - it.address + 1 for it in bursts if it.is_write)}
    kinds[AR] = sum(it.last_byte - it.address + 1 for it in bursts if not it.is_write)
    needed = (AW, AR) if request.has_data and not request.is_put else (AW,) if request.is_put else (AR,)
    return all(kinds[it] >= request.bytes for it in needed)
