"""Whether what was observed at the ports of a bridge can be right, said of whole lists and found by search: what docs/RULES.md
says of each port, and that replies are those of the accepted requests, carried out whole, one at a time, in order of acceptance;
and that nobody knows some lanes of a beat where they tell something.
It keeps every reading of what each client was told that is still possible; where none is left, the beat can't be right."""

from dataclasses import dataclass, replace

from model import GET, GOOD, INTENT, PUT_FULL, PUT_PARTIAL, Memory, beats_of
from port_models import AxiPort, Port
from unknown import doubted, given_lanes, lanes_of_mask

WITHDRAWN = ("noclient", "refused", "notready", "exhausted")


@dataclass(frozen=True)
class Told:
    """A reading: which of its requests a client was not told the whole reply of, and of which of these so many beats came."""

    due: frozenset
    begun: int = None
    came: int = 0

    def open(self):
        """The requests whose reply may go on or begin."""
        return self.due if self.begun is None else {self.begun}

    def step(self, number, replies):
        """One beat more came of the reply to a request."""
        ended = self.came + 1 == len(replies[number])
        return Told(self.due - {number}) if ended else Told(self.due, number, self.came + 1)

    def with_wrong(self, source, replies):
        """The readings by which a wrong beat of a source counts: as the one of its source that was due, if one was; else as the first
        of the reply to another request, if that is of its source, and the reply that had begun is over."""
        own = [it for it in self.open() if replies[it][self.came].source == source]
        if own:
            return [self.step(it, replies) for it in own]
        others = Told(self.due - {self.begun})
        return [others.step(it, replies) for it in others.due if replies[it][0].source == source]

    def shown(self, beat, replies, hidden, lanes):
        """The requests of whose reply a beat on channel D may be the next, where nobody knows what is hidden of each reply, nor these
        lanes of the beat."""
        return [it for it in self.open() if is_shown(replies[it][self.came], beat, hidden[it][self.came] | lanes)]


def is_shown(due, beat, hidden):
    """Whether a beat is the one that is due, but for these lanes of its payload."""
    bits = sum(0xFF << 8 * lane for lane in hidden)
    return (due.payload ^ beat.payload) & ~bits == 0 and replace(due, payload=beat.payload) == beat


@dataclass
class Client:
    level: str
    message: tuple = ()  # what came of the message that has begun
    unknown: tuple = ()  # of each of these beats the lanes that nobody knows
    readings: frozenset = frozenset({Told(frozenset())})

    def sources(self, reading, replies):
        """The sources of what isn't replied."""
        return {replies[number][0].source for number in reading.due}


class Observation:
    """Beats are taken in the order observed. One that can't be right is left out, but that of a due reply counts as come, and a reply
    that ended early is over with the first beat of another; so does write data count; and an address opens its burst if its
    transfers fit the bus, and fewer than twice the depth are open of its ID."""

    def __init__(self, setup, levels):
        self.setup, self.memory = setup, Memory(setup)
        self.clients = [Client(it) for it in levels]
        self.replies = []  # of each accepted request
        self.hidden = []  # the lanes of their beats that tell what isn't known
        self.looked = []  # the lanes of their beats that are compared
        self.writes_at = []  # the bytes that each may write
        self.doubts = set()  # the bytes that aren't known
        self.taken = 0
        self.is_unknown = False  # whether the last beat would be right, if nobody knew everything of it
        self.drained()

    def drained(self):
        """AXI4 beats went unseen, the last of every burst among them: both sides are as at the start."""
        self.port = AxiPort(self.setup.ids, self.setup.depth, self.setup.width)

    def reset(self):
        """What had begun is gone, and nobody knows what a request in flight may have written."""
        for it in self.clients:
            self.doubts.update(*(self.writes_at[number] for told in it.readings for number in told.due))
            it.message, it.unknown, it.readings = (), (), frozenset({Told(frozenset())})
        self.drained()

    def is_right(self, channel, beat, client=None, lanes=frozenset()):
        """Takes a beat of which nobody knows these lanes of the payload, and answers whether it can be right."""
        self.taken += 1
        self.is_unknown = False
        if channel in "AD" and client >= len(self.clients):
            return False
        if channel in "AD":
            is_right, looked = (self.asks if channel == "A" else self.tells)(self.clients[client], client, beat, lanes)
        else:
            looked = self.looked_at(channel, beat)
            is_right = self.port.take(channel, beat) is None
        self.is_unknown = is_right and bool(looked & lanes)
        return is_right and not self.is_unknown

    def is_unclear(self):
        """Takes a beat of which nobody knows a field but the payload: nothing comes of it."""
        self.taken += 1
        self.is_unknown = True

    def outstanding(self):
        return sum(len(next(iter(it.readings)).due) for it in self.clients)

    def open(self):
        return self.port.opened()

    # ---- channels A and D

    # Each of them answers whether a beat is right as far as it is known, and the lanes that are looked at then.

    def asks(self, it, client, beat, lanes):
        message = (*it.message, beat)
        if Port(it.level, self.setup.largest, [*it.message]).broken(beat):
            return False, set()
        if not it.message:
            free = frozenset(told for told in it.readings if beat.source not in it.sources(told, self.replies))
            if not free:
                return False, set()
            it.readings = free
        it.message, it.unknown = message, (*it.unknown, lanes)
        if len(message) == beats_of(beat.size, beat.opcode < GET):
            number = len(self.replies)
            self.accept(client, message, it.unknown)
            it.message, it.unknown = (), ()
            it.readings = frozenset(Told(told.due | {number}, told.begun, told.came) for told in it.readings)
        return True, given_lanes(beat.opcode, beat.mask)

    def accept(self, client, message, lanes):
        """Carries out a request. What an atomic makes of bytes that aren't known isn't known, and what a Put gives is, but in these lanes
        of its beats."""
        first, at = message[0], self.setup.place(message)
        is_put, reads_alone = first.opcode in (PUT_FULL, PUT_PARTIAL), first.opcode in (GET, INTENT)
        span = range(at, at + 2**first.size) if at is not None and self.setup.pages.get(at >> 12) == GOOD else range(0)
        unknown = set() if is_put else self.doubts & set(span)
        reply = self.memory.carry_out(client, message)
        self.replies.append(reply)
        self.hidden.append([lanes_at(due, k, unknown, span) for k, due in enumerate(reply)])
        self.looked.append([lanes_at(due, k, set(span) - unknown, span) for k, due in enumerate(reply)])
        self.writes_at.append(set() if reads_alone else set(span))
        given = set() if reads_alone else {x for x in span if not is_put or message[x // 8 - span[0] // 8].mask >> x % 8 & 1}
        (self.doubts.update if unknown else self.doubts.difference_update)(given)
        if span:
            self.doubts |= {(at & ~7) + 8 * k + lane for k, unsure in enumerate(doubted(message, lanes)) for lane in unsure}

    def tells(self, it, client, beat, lanes):
        shown = [(told, number) for told in it.readings for number in told.shown(beat, self.replies, self.hidden, lanes)]
        if shown:
            it.readings = frozenset(told.step(number, self.replies) for told, number in shown)
            return True, set.union(*(self.looked[number][told.came] for told, number in shown))
        counted = (after for told in it.readings for after in told.with_wrong(beat.source, self.replies))
        it.readings = frozenset(counted) or it.readings
        return False, set()

    # ---- the AXI4 port

    def looked_at(self, channel, beat):
        """The lanes of a beat's payload that are looked at, if it is right."""
        if channel == "W":
            _, strobes, _ = beat
            return lanes_of_mask(strobes)
        burst = self.port.reads.oldest(beat[0]) if channel == "R" else None
        return lanes_of_mask(burst.lanes(self.setup.width)) if burst else set()


def lanes_at(due, k, told, span):
    """The lanes of beat k of a reply that tell these bytes."""
    if due.opcode != 1 or due.corrupt:
        return set()
    first = span[0] // 8 * 8 + 8 * k if told else 0
    return {lane for lane in range(8) if first + lane in told}

