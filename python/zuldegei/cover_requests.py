"""Which bins the beats of channels A and D reach, in one pass: what requests are, and what is in flight beside them."""

from collections import Counter, OrderedDict, deque
from functools import lru_cache
from typing import Deque, Dict, Iterator, List, Optional, Sequence, Set, Tuple

from .cover_bins import step
from .cover_setup import ABSENT, KINDS, NO_REGION, NOT_PERMITTED, PARAMS, Setup, beats_of, full_mask, has_data, replies_of
from .cover_times import Hits, Times
from .observation import OPERATIONS, PAGE, PERMITS, WORD

PUT_FULL, PUT_PARTIAL, MASK_OF_A_WORD = 0, 1, 0xFF
INTENT, WITH_REPLY_DATA = "intent", ("get", "atomic")
REMEMBERED = 16  # requests whose replies have ended
BLOCK = 32  # bytes within which two requests lie beside each other


class Request:
    """A request: what its first beat says, and what its beats and replies have shown so far."""

    __slots__ = (
        "client", "opcode", "size", "source", "address", "param", "kind", "first", "beats_due", "replies_due", "beats", "replies",
        "first_mask", "differs", "is_empty", "corrupt", "is_first_corrupt", "is_last_corrupt", "denied", "bad_replies",
    )  # fmt: skip

    def __init__(self, client: int, opcode: int, param: int, size: int, source: int, address: int, first: Optional[int]):
        self.client, self.opcode, self.param, self.size, self.source, self.address = client, opcode, param, size, source, address
        self.kind, self.first = KINDS[opcode], first  # of its bytes on the AXI4 port, where a region leads there
        self.beats_due, self.replies_due = beats_of(opcode, size), replies_of(opcode, size)
        self.beats = self.replies = self.corrupt = self.bad_replies = self.first_mask = 0
        self.is_first_corrupt = self.is_last_corrupt = self.denied = self.differs = False
        self.is_empty = True

    @property
    def is_whole(self) -> bool:
        return self.beats == self.beats_due


class Requests:
    """The requests in flight, and the last ones whose replies ended."""

    def __init__(self, setup: Setup, hits: Hits, times: Times):
        self.setup, self.hit, self.times = setup, hits.hit, times
        self.live: List["OrderedDict[int, Request]"] = [OrderedDict() for _ in setup.clients]  # by source, in order of acceptance
        self.begun: List[Optional[Request]] = [None] * setup.config.clients
        self.replying: List[Optional[Request]] = [None] * setup.config.clients
        self.on_page: Dict[int, Dict[Request, None]] = {}  # those in flight, by their page on the AXI4 port
        self.kinds: "Counter[str]" = Counter()  # of those in flight
        self.ended: Deque[Request] = deque(maxlen=REMEMBERED)  # the last first
        self.last_ended: Dict[int, int] = {}  # by client the source whose reply ended last, until the next request
        self.last_opcode: Dict[Tuple[int, int], int] = {}  # by client and source
        self.edges = edges_of(setup)

    # ---- channel A

    def ask(self, words: Sequence[str], line: int, time: Optional[int]) -> None:
        """Takes a beat of channel A; one that breaks a rule changes nothing."""
        client, opcode, param, size, source = map(int, words[:5])
        address, mask, is_corrupt = int(words[5], 16), int(words[6], 16), int(words[8]) == 1
        if client >= len(self.live):
            return
        request = self.begun[client]
        if request is None:
            request = self.first_beat(client, opcode, param, size, source, address)
            if request is None or not is_legal_mask(opcode, mask, full_mask(size, address)) or is_corrupt and not has_data(opcode):
                return
            self.begins(request, line)
        elif (opcode, param, size, source, address) != (request.opcode, request.param, request.size, request.source, request.address):
            return
        elif not is_legal_mask(opcode, mask, MASK_OF_A_WORD):
            return
        else:
            self.times.gap(f"A{client}", line, time)
        self.times.passed(f"A{client}", time)
        if request.opcode == PUT_PARTIAL:
            self.mask(request, mask, line)
        self.corrupt(request, is_corrupt)
        request.beats += 1
        self.begun[client] = request
        if request.is_whole:
            self.accepted(request, line)

    def first_beat(self, client: int, opcode: int, param: int, size: int, source: int, address: int) -> Optional[Request]:
        """The request of a first beat, if it keeps rules 1 to 6 and 9."""
        if not self.setup.is_legal(client, opcode, param, size, address) or source in self.live[client]:
            return None
        place = self.setup.place(address // PAGE)
        return Request(client, opcode, param, size, source, address, None if place is None else address + place.added)

    def begins(self, request: Request, line: int) -> None:
        """A request begins: what it is, and what is under way then."""
        self.shape(request, line)
        self.edge(request, line)
        self.standing(request, line)
        self.sources(request, line)
        self.flight(request, line)
        if request.first is not None:
            self.conflicts(request, line)
            self.acknowledged(request, line)
            self.on_page.setdefault(request.first // PAGE, {})[request] = None
        self.live[request.client][request.source] = request
        self.kinds[request.kind] += 1

    def shape(self, request: Request, line: int) -> None:
        """Its operation, bytes, kind and place in a word."""
        operation, size = OPERATIONS[request.opcode], request.size
        self.hit(f"request/{operation}/{1 << size}B/client{request.client}", line)
        if operation in PARAMS:
            self.hit(f"param/{operation}/{PARAMS[operation][request.param]}", line)
        if 1 << size < WORD:
            self.hit(f"lane/{operation}/{1 << size}B/at{request.address % WORD}", line)

    def edge(self, request: Request, line: int) -> None:
        """Whether it lies at the edge of a page, of a region that permits it, or just behind one."""
        operation, first, behind = OPERATIONS[request.opcode], request.address, request.address + (1 << request.size)
        if first % PAGE == 0:
            self.hit(f"edge/{operation}/{1 << request.size}B/page-begin", line)
            for name in self.edges.get((request.opcode, first), ()):
                self.hit(f"edge/{operation}/{name}", line)
        if behind % PAGE == 0:
            self.hit(f"edge/{operation}/{1 << request.size}B/page-end", line)
            if (request.opcode, ~behind) in self.edges:
                self.hit(f"edge/{operation}/region-end", line)

    def standing(self, request: Request, line: int) -> None:
        """The kind of its page, and whether it has a bad word."""
        place, operation = self.setup.place(request.address // PAGE), OPERATIONS[request.opcode]
        if place is None:
            kind = NO_REGION
        elif PERMITS[request.opcode] not in place.region.permits:
            kind = NOT_PERMITTED
        else:
            kind = place.kind
            if self.setup.bad and kind != ABSENT and request.kind != INTENT and self.has_bad_word(request):
                self.hit(f"bad-word/{operation}", line)
        self.hit(f"standing/{operation}/{'beats' if 1 << request.size > WORD else 'word'}/{kind}", line)

    def has_bad_word(self, request: Request) -> bool:
        first = request.first // WORD * WORD
        return any(first <= it < request.first + (1 << request.size) for it in self.setup.bad)

    def sources(self, request: Request, line: int) -> None:
        """Whether its source was used before, or is used by another client."""
        client, source = request.client, request.source
        if self.last_ended.pop(client, None) == source:
            self.hit("source/again-at-once", line)
        if self.last_opcode.get((client, source), request.opcode) != request.opcode:
            self.hit("source/again-other-operation", line)
        self.last_opcode[client, source] = request.opcode
        if any(source in it for it in self.live):
            self.hit("source/of-two-clients", line)

    def flight(self, request: Request, line: int) -> None:
        """How many are in flight with it, and of which kinds."""
        count = sum(map(len, self.live)) + 1
        self.hit(f"flight/all/{step(count)}", line)
        self.hit(f"flight/client{request.client}/{step(len(self.live[request.client]) + 1)}", line)
        if count > 1:
            self.hit(f"flight/{request.kind}/{'alike' if self.kinds[request.kind] == count - 1 else 'mixed'}", line)

    def conflicts(self, request: Request, line: int) -> None:
        """The requests in flight whose bytes meet its own, or lie beside them."""
        for old in self.on_page.get(request.first // PAGE, ()) if request.kind != INTENT else ():
            if old.kind == INTENT:
                continue
            if old.first // BLOCK == request.first // BLOCK or old.size > 5 or request.size > 5:
                where = overlap(old, request)
                if where and not (old.kind == request.kind == "get"):
                    self.hit(f"conflict/{old.kind}-then-{request.kind}/{where}/{whose(old, request)}", line)

    def acknowledged(self, request: Request, line: int) -> None:
        """The requests for some of its bytes whose replies ended last."""
        if request.kind not in ("get", "put"):
            return
        page = request.first // PAGE
        for at, old in enumerate(self.ended):
            if old.first // PAGE == page and overlap(old, request) in ("same", "inside", "around"):
                for name in after(old, request):
                    self.hit(f"after-ack/{name}/{whose(old, request)}/{'later' if at else 'at-once'}", line)

    def mask(self, request: Request, mask: int, line: int) -> None:
        """A mask of PutPartialData, and at the last beat those of the message."""
        where = "one-beat" if request.beats_due == 1 else "beats"
        for name in masks(mask, full_mask(request.size, request.address)):
            self.hit(f"mask/{where}/{name}", line)
        request.first_mask = request.first_mask if request.beats else mask
        request.differs |= mask != request.first_mask
        request.is_empty &= mask == 0
        if request.beats_due > 1 and request.beats == request.beats_due - 1:
            found = {
                "differ": request.differs,
                "all-empty": request.is_empty,
                "first-beat-empty": request.first_mask == 0 and not request.is_empty,
                "last-beat-empty": mask == 0 and not request.is_empty,
            }
            for name in (it for it, holds in found.items() if holds):
                self.hit(f"mask/message/{name}", line)

    def corrupt(self, request: Request, is_corrupt: bool) -> None:
        """Counts the beats that are corrupt."""
        request.corrupt += is_corrupt
        request.is_first_corrupt |= is_corrupt and request.beats == 0
        request.is_last_corrupt |= is_corrupt and request.beats == request.beats_due - 1

    def accepted(self, request: Request, line: int) -> None:
        """A message is whole."""
        self.begun[request.client] = None
        if request.corrupt:
            for name in corrupt_beats(request):
                self.hit(f"corrupt/{OPERATIONS[request.opcode]}/{name}", line)
        if request.replies == request.replies_due:
            self.end(request)

    # ---- channel D

    def reply(self, words: Sequence[str], line: int, time: Optional[int]) -> None:
        """Takes a beat of channel D; one for which no reply is due changes nothing."""
        client, _, _, _, source, denied = map(int, words[:6])
        is_corrupt = int(words[7]) == 1
        if client >= len(self.live):
            return
        request, waiting = self.replying[client], self.live[client].get(source)
        if request is None or request.source != source:
            may_begin = waiting is not None and (waiting.is_whole or request is None and self.setup.may_replies_come_early)
            if not may_begin or waiting.replies:
                return
            if request is not None:
                self.end(request)  # that reply ended early
            request = waiting
            request.denied = denied == 1
            self.passed_over(request, line)
        else:
            self.times.gap(f"D{client}", line, time)
        self.times.passed(f"D{client}", time)
        request.replies += 1
        request.bad_replies += is_corrupt
        self.replying[client] = request
        if request.replies == request.replies_due:
            self.replied(request, line)

    def passed_over(self, request: Request, line: int) -> None:
        """A reply begins: which older requests of its client it passes."""
        older: "Counter[str]" = Counter()
        for it in self.live[request.client].values() if request.kind != INTENT else ():
            if it is request:
                break
            older[it.kind] += not it.replies and it.kind != INTENT
        count = "1" if sum(older.values()) == 1 else "2+"
        for kind in (it for it in older if older[it]):
            self.hit(f"order/{request.kind}-over-{kind}/{count}", line)

    def replied(self, request: Request, line: int) -> None:
        """A reply is over."""
        self.replying[request.client] = None
        self.hit(f"reply/{request.kind}/{'denied' if request.denied else 'plain'}", line)
        if request.bad_replies and not request.denied and request.kind in WITH_REPLY_DATA:
            how = "" if request.replies_due == 1 else "-all-beats" if request.bad_replies == request.replies_due else "-some-beats"
            self.hit(f"reply/{request.kind}/corrupt{how}", line)
        if request.is_whole:
            self.end(request)

    def end(self, request: Request) -> None:
        """A request is in flight no more."""
        del self.live[request.client][request.source]
        self.kinds[request.kind] -= 1
        self.last_ended[request.client] = request.source
        if request.first is not None:
            page = self.on_page[request.first // PAGE]
            del page[request]
            if not page:
                del self.on_page[request.first // PAGE]
            if not request.denied:
                self.ended.appendleft(request)

    def reset(self) -> Iterator[str]:
        """Forgets all; says what was under way."""
        found = {
            "in-flight": any(it.is_whole for them in self.live for it in them.values()),
            "put-begun": any(it is not None and it.kind == "put" for it in self.begun),
            "reply-begun": any(self.replying),
        }
        is_idle = not any(self.live)
        self.live = [OrderedDict() for _ in self.live]
        self.begun, self.replying = [None] * len(self.live), [None] * len(self.live)
        for kept in (self.on_page, self.kinds, self.ended, self.last_ended, self.last_opcode):
            kept.clear()
        yield from (name for name, holds in found.items() if holds)
        if is_idle:
            yield "idle"


def edges_of(setup: Setup) -> Dict[Tuple[int, int], List[str]]:
    """The edges of regions by opcode and address: of their ends the complement of the address behind them."""
    found: Dict[Tuple[int, int], List[str]] = {}
    behind = dict((it, at) for it, at in setup.ends())
    for region in setup.regions:
        for opcode in (it for it in range(len(OPERATIONS)) if PERMITS[it] in region.permits):
            found.setdefault((opcode, region.first * PAGE), []).append("region-begin")
            found.setdefault((opcode, ~((region.first + region.pages) * PAGE)), []).append("region-end")
            if region in behind:
                found.setdefault((opcode, behind[region]), []).append("behind-region")
    return found


def is_legal_mask(opcode: int, mask: int, full: int) -> bool:
    """Whether a mask keeps rule 7 of docs/RULES.md."""
    return not mask & ~full if opcode == PUT_PARTIAL else mask == full


@lru_cache(1 << 13)
def masks(mask: int, full: int) -> Tuple[str, ...]:
    """What is said of a mask beside the full one: which lanes are out."""
    if mask in (full, 0):
        return ("empty",) if mask == 0 else ("full",)
    if mask & mask - 1 == 0:
        return ("one-lane",)
    run = mask // (mask & -mask)
    found = {"first-out": not mask & full & -full, "last-out": mask.bit_length() < full.bit_length(), "hole": bool(run & run + 1)}
    return tuple(name for name, holds in found.items() if holds)


def overlap(old: Request, new: Request) -> Optional[str]:
    """How the bytes of two requests lie to each other: the later one's are inside those of the older one, or around them."""
    if old.first == new.first and old.size == new.size:
        return "same"
    size = max(old.size, new.size)
    if old.first >> size == new.first >> size:
        return "inside" if new.size < old.size else "around" if new.size > old.size else None
    if old.first // WORD == new.first // WORD:
        return "beside-in-word"
    return "beside-in-32B" if old.first // BLOCK == new.first // BLOCK else None


def whose(old: Request, new: Request) -> str:
    return "same-client" if old.client == new.client else "other-client"


def after(old: Request, new: Request) -> Set[str]:
    """What a Get or a Put is behind one whose reply has ended."""
    found = {f"{new.kind}-after-{old.kind}"} if (old.kind, new.kind) in (("put", "get"), ("put", "put"), ("get", "put")) else set()
    return found | ({"get-after-partial-put"} if old.opcode == PUT_PARTIAL and new.kind == "get" else set())


def corrupt_beats(request: Request) -> Iterator[str]:
    """Which beats of a message are corrupt."""
    if request.beats_due == 1 or request.corrupt == request.beats_due:
        yield "only" if request.beats_due == 1 else "all"
        return
    found = {"first": request.is_first_corrupt, "last": request.is_last_corrupt}
    yield from (name for name, holds in found.items() if holds)
    if request.corrupt > sum(found.values()):
        yield "middle"
