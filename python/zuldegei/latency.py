"""How long requests and bursts take: one pass over the lines of an observation, in memory that doesn't grow with the run.

A request goes from its first beat on channel A to the last beat of its reply, or to its own last beat where that comes later; a write
from its AW to its B, and a read from its AR to its last R beat. No verdict is asked for: a beat that no request and no burst waits for, or
one with an x where it would have to be known, is passed over."""

from collections import Counter, OrderedDict, deque
from dataclasses import dataclass, field
from enum import Enum
from typing import Deque, Dict, Iterable, List, Optional, Tuple

from .command import Fault
from .observation import (
    A, AR, AW, B, D, DRAINED, EVENT, FIELDS, GET, INTENT, LAST_PUT, LAST_WITH_DATA, OPERATIONS, R, RESET, TIME, W, WORD, Beat, number,
)  # fmt: skip
from .one_pass import read

MOST_SIZE, MOST_TRANSFER = 12, 3  # binary logarithms of the bytes of a request, and of a burst's transfer
READ, WRITE = "AXI4 read", "AXI4 write"
FINE = 6  # binary digits of a time that a histogram tells apart


class End(Enum):
    """How a request or a burst ended, in words that stand before how long it took."""

    ANSWERED = "answered after"
    CUT = "cut by a reset after"
    OPEN = "not answered for"


@dataclass(eq=False)
class Transaction:
    """A request with its reply, or a burst with its answer."""

    beat: Beat  # its first one
    side: str  # a client, or a direction of the AXI4 port
    kind: str  # the side, and of a request the operation
    bytes: int
    asks: int  # beats of its own that are still to come
    answers: int  # beats of its answer that are still to come
    ended: Optional[int] = None  # when
    how: End = End.OPEN

    @property
    def begun(self) -> int:
        return self.beat.time

    @property
    def moved(self) -> int:
        """The bytes that it moves, which are none of an Intent."""
        return 0 if self.kind.endswith("intent") else self.bytes

    def took(self, now: int) -> int:
        return (now if self.ended is None else self.ended) - self.begun

    def place(self) -> str:
        """What it is, as the verdicts of tlscore name it."""
        words = self.beat.words
        return f"{self.side} source {int(words[4])}" if self.beat.kind == A else f"{self.side.split()[1]} {int(words[0])}"

    def text(self, now: int) -> str:
        """How long it took, and what it is."""
        words = self.beat.words
        what, address = (OPERATIONS[int(words[1])], words[5]) if self.beat.kind == A else (self.beat.kind, words[1])
        return f"{self.place()} at {self.begun} {self.how.value} {self.took(now)}: {what} of {self.bytes} bytes at {int(address, 16):08x}"


@dataclass
class Times:
    """How long the transactions of a kind took: counts, and no list of them."""

    count: int = 0
    total: int = 0
    least: int = 0
    most: int = 0
    bytes: int = 0
    fine: "Counter[int]" = field(default_factory=Counter)  # by the time, to its first binary digits

    def add(self, took: int, size: int) -> None:
        self.least = min(self.least, took) if self.count else took
        self.most = max(self.most, took)
        self.count, self.total, self.bytes = self.count + 1, self.total + took, self.bytes + size
        cut = max(0, took.bit_length() - FINE)
        self.fine[took >> cut << cut] += 1

    def part(self, tenths: int) -> int:
        """The time that so many tenths of them took at most, rounded down to its first binary digits."""
        left = -(-self.count * tenths // 10)
        for took in sorted(self.fine):
            left -= self.fine[took]
            if left <= 0:
                return max(took, self.least)
        return self.most

    def histogram(self) -> Dict[int, int]:
        """How many took 0, 1, 2 to 3, 4 to 7 and so on, by the least of each."""
        counts: "Counter[int]" = Counter()
        for took, count in self.fine.items():
            counts[1 << took.bit_length() - 1 if took else 0] += count
        return dict(sorted(counts.items()))


@dataclass
class Load:
    """How many transactions of a side are in flight."""

    now: int = 0
    most: int = 0
    total: int = 0  # how long all of them were, together

    def begin(self) -> None:
        self.now += 1
        self.most = max(self.most, self.now)

    def end(self, took: int) -> None:
        self.now -= 1
        self.total += took


class Watch:
    """Looks out for what takes longer than a limit: how many there are, and the first of them, by when they began."""

    def __init__(self, limit: int, most: int):
        self.limit, self.most = limit, most
        self.open: "OrderedDict[Transaction, None]" = OrderedDict()
        self.count = 0
        self.first: List[Transaction] = []

    def pass_to(self, now: int) -> None:
        """It is now so late: what began too long ago is told."""
        while self.open:
            oldest = next(iter(self.open))
            if now - oldest.begun <= self.limit:
                return
            del self.open[oldest]
            self.count += 1
            if len(self.first) < self.most:
                self.first.append(oldest)


class Latencies:
    """Takes the beats of an observation, and tells how long what they carry took."""

    def __init__(self, late: Optional[int] = None, most: int = 1):
        self.kinds: Dict[str, Times] = {}
        self.sides: Dict[str, Load] = {}
        self.watch = Watch(late, most) if late is not None else None
        self.first: Optional[int] = None  # the first time at which a beat passed
        self.now = 0  # the latest time
        self.step: Optional[int] = None  # the least between two times
        self.under_way: Dict[Transaction, None] = {}
        self.begun: Dict[int, Transaction] = {}  # by client, while its beats come
        self.due: Dict[Tuple[int, int], Deque[Transaction]] = {}  # by client and source
        self.open: Dict[Tuple[str, int], Deque[Transaction]] = {}  # by kind of address and ID
        self.takers = {A: self.ask, D: self.reply, AW: self.open_burst, AR: self.open_burst, B: self.answer, R: self.answer}

    def take_all(self, lines: Iterable[str]) -> "Latencies":
        """Takes a whole observation."""
        read(lines, self)
        return self

    def take(self, it: Beat) -> None:
        """Takes a line."""
        if it.kind in FIELDS:
            self.check_time(it)
            self.first = it.time if self.first is None else self.first
            if it.kind in self.takers:
                self.takers[it.kind](it)
        elif it.kind == TIME:
            self.pass_to(it.time)
        elif it.kind == EVENT and it.words[:1] in ([RESET], [DRAINED]):
            self.cut(it.words[0] == RESET)

    def check_time(self, it: Beat) -> None:
        """A W beat that was held back until its AW came has an earlier time than the beats ahead of it; no other may."""
        if it.time is None:
            raise Fault("has no time: no line `time T` stands ahead of it")
        if it.time < self.now and it.kind != W:
            raise Fault(f"goes back to {it.time}, and it was {self.now}: no beat but W may")

    def finish(self) -> None:
        """The observation is over."""
        if self.first is None:
            raise Fault("it has no beat")
        for it in self.under_way:
            self.sides[it.side].end(it.took(self.now))

    def cut(self, are_all: bool) -> None:
        """A reset ends all that is under way, a drained port its bursts."""
        for it in [it for it in self.under_way if are_all or it.beat.kind != A]:
            self.end(it, End.CUT)
        self.open.clear()
        if are_all:
            self.begun.clear()
            self.due.clear()

    def pass_to(self, time: int) -> None:
        """A line `time`; one that goes back changes nothing."""
        if time <= self.now:
            return
        if self.first is not None:
            self.step = min(self.step or time, time - self.now)
        self.now = time
        if self.watch:
            self.watch.pass_to(time)

    # ---- beats

    def ask(self, beat: Beat) -> None:
        """A beat of channel A: a request begins, or goes on."""
        known = [number(it) for it in beat.words[:5]]
        if None in (*known, number(beat.words[5], 16)):
            return
        client, opcode, _, size, source = known
        request = self.begun.get(client)
        if request is None:
            if size > MOST_SIZE or opcode > INTENT:
                return
            request = self.begin(request_of(beat, client, opcode, size))
            self.due.setdefault((client, source), deque()).append(request)
        request.asks -= 1
        if request.asks:
            self.begun[client] = request
            return
        self.begun.pop(client, None)
        if not request.answers:
            self.end(request, End.ANSWERED)  # its reply came early

    def reply(self, beat: Beat) -> None:
        """A beat of channel D: it is of the oldest request of its client and source."""
        key = number(beat.words[0]), number(beat.words[4])
        waiting = self.due.get(key)
        if not waiting:
            return
        waiting[0].answers -= 1
        if waiting[0].answers:
            return
        request = waiting.popleft()
        if not waiting:
            del self.due[key]
        if not request.asks:
            self.end(request, End.ANSWERED)

    def open_burst(self, beat: Beat) -> None:
        """An AW or an AR: a burst begins."""
        numbers = number(beat.words[0]), number(beat.words[1], 16), number(beat.words[2]), number(beat.words[3])
        if None in numbers or numbers[3] > MOST_TRANSFER:
            return
        self.open.setdefault((beat.kind, numbers[0]), deque()).append(self.begin(burst_of(beat, *numbers[1:])))

    def answer(self, beat: Beat) -> None:
        """A B or R beat: it is of the oldest burst of its ID."""
        key = AW if beat.kind == B else AR, number(beat.words[0])
        waiting = self.open.get(key)
        if not waiting:
            return
        waiting[0].answers -= 1
        if waiting[0].answers:
            return
        self.end(waiting.popleft(), End.ANSWERED)
        if not waiting:
            del self.open[key]

    # ---- transactions

    def begin(self, it: Transaction) -> Transaction:
        self.under_way[it] = None
        self.sides.setdefault(it.side, Load()).begin()
        if self.watch:
            self.watch.open[it] = None
        return it

    def end(self, it: Transaction, how: End) -> None:
        it.ended, it.how = self.now, how
        del self.under_way[it]
        self.sides[it.side].end(it.took(self.now))
        if how is End.ANSWERED:
            self.kinds.setdefault(it.kind, Times()).add(it.took(self.now), it.moved)
        if self.watch:
            self.watch.open.pop(it, None)


def request_of(beat: Beat, client: int, opcode: int, size: int) -> Transaction:
    """The request that begins with this beat."""
    words = max(1, (1 << size) // WORD)
    has_data, is_put = opcode <= LAST_WITH_DATA, opcode <= LAST_PUT
    operation = "put" if is_put else "atomic" if has_data else "get" if opcode == GET else "intent"
    answers = words if opcode <= GET and not is_put else 1
    return Transaction(beat, f"client {client}", f"client {client} {operation}", 1 << size, words if has_data else 1, answers)


def burst_of(beat: Beat, address: int, length: int, size: int) -> Transaction:
    """The burst that this address opens; of its first transfer the bytes below the address aren't counted."""
    side, each = WRITE if beat.kind == AW else READ, 1 << size
    return Transaction(beat, side, side, (length + 1) * each - address % each, 0, 1 if beat.kind == AW else length + 1)
