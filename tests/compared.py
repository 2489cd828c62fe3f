"""How many of the bytes that replies told were compared, by docs/SCOREBOARD.md ("What was compared"): of an input of tlscore, and of what it
said of it. Which beats are wrong is taken from there; what each reply may show is followed here, as docs/RACES.md has it."""

import re
from dataclasses import dataclass, field

from model import GET, GOOD, INTENT, PUT_FULL, PUT_PARTIAL, UNKNOWN, ABeat, Memory, beats_of, setup_of
from port_models import Burst, Side
from unknown import doubted, is_unclear, known, lanes_in

WRONG = re.compile(r"(?m)^= wrong (\d+) (\w+) (\d+)")
COUNTING = (None, "request 17", "axi 13")  # what a beat is called that counts all the same, where nobody knows lanes of it alone
WITHDRAWN = ("noclient", "refused", "notready", "exhausted")


@dataclass
class Footprint:
    """What a request does to the memory, and which of its bytes are determined."""

    reads: bool = False
    writes: bool = False
    at: int = 0
    size: int = 0
    failed: bool = False
    sure: set = field(default_factory=set)

    @property
    def span(self):
        return range(self.at, self.at + 2**self.size)

    def fail(self):
        self.failed, self.sure = True, set()

    def depends_on(self, other):
        return self.reads and self.writes and other.writes and set(self.span) & set(other.span)


@dataclass
class Flight:
    source: int
    reply: list  # the beats that are left
    footprint: Footprint


@dataclass
class Client:
    front: list = field(default_factory=list)  # what came of the message that has begun
    unknown: list = field(default_factory=list)  # of each of these beats the lanes that nobody knows
    due: list = field(default_factory=list)
    begun: Flight = None
    coming: Footprint = field(default_factory=Footprint)
    early: int = None  # the source of the reply that may come before its request is whole

    def flights(self):
        return self.due + [self.begun] * (self.begun is not None)


class Counts:
    """Takes the lines of an input one after another, and counts the bytes that were told and compared."""

    def __init__(self, lines, text):
        self.wrong = {int(line): f"{kind} {rule}" for line, kind, rule in WRONG.findall(text)}
        self.told = self.compared = 0
        self.looked, self.due = {}, {}  # of a beat of a reply, by its line: the lanes that are compared, and the beat that is due
        self.setup, _, profile, errors, _ = setup_of(lines)
        self.real_time, self.any = profile == "tilelink", errors == "any"
        self.memory, self.clients = Memory(self.setup), [Client() for _ in range(self.setup.clients)]
        self.drained()
        self.written = {}  # whether a byte is indeterminate that isn't as it was at the start
        held = None
        for number, line in enumerate(lines, 1):
            words = line.split()
            if not words or words[0].startswith("#"):
                continue
            channel = None if is_unclear(words) else words[0]
            if held and not (words[0] == "=" and words[1] in WITHDRAWN):
                self.take_a(*held)
            held = None
            if channel == "A":
                held = number, words
            elif channel in ("D", "AW", "AR", "B", "R"):
                {"D": self.take_d, "AW": self.open, "AR": self.open, "B": self.answered, "R": self.answered}[channel](number, words)
            elif words[:2] == ["=", "drained"]:
                self.drained()
            elif words[:2] == ["=", "reset"]:
                self.reset()
            elif words[0] == "fill":
                self.fill(int(words[1], 16), words[2:])
        if held:
            self.take_a(*held)

    # ---- bytes

    def is_unsure(self, address):
        return self.written.get(address, self.setup.pages.kind(address >> 12) == UNKNOWN)

    def fill(self, address, words):
        for at, word in enumerate(words, address):
            self.memory.pages[at >> 12][at & 0xFFF] = int(word, 16)
            self.written[at] = False

    def place(self, beats):
        """Where a request may act on a good page: corrupt, if errors are told in any way."""
        at, is_spoiled = self.setup.leads(beats[0]), any(it.corrupt for it in beats) and not self.any
        return at if at is not None and self.setup.pages.get(at >> 12) == GOOD and not is_spoiled else None

    def alone(self, beats):
        first, at = beats[0], self.place(beats)
        puts = first.opcode in (PUT_FULL, PUT_PARTIAL)
        footprint = Footprint(at is not None and not puts, at is not None and first.opcode not in (GET, INTENT), at or 0, first.size)
        footprint.sure = {it for it in footprint.span if not (footprint.reads and self.is_unsure(it))}
        return footprint

    def footprints(self):
        return [it.footprint for client in self.clients for it in client.flights()] + [client.coming for client in self.clients]

    def reset(self):
        """What had begun is gone, and what it may have written isn't known."""
        for footprint in self.footprints():
            if footprint.writes:
                self.written.update(dict.fromkeys(footprint.span, True))
        self.clients = [Client() for _ in self.clients]
        self.drained()

    # ---- channel A

    def take_a(self, number, words):
        if self.wrong.get(number) not in COUNTING:
            return
        client = self.clients[int(words[1])]
        client.unknown.append(lanes_in(words))
        client.front.append(ABeat(*(int(it, 16 if at in (6, 7, 8) else 10) for at, it in enumerate(known(words)[2:], 2))))
        beats, first = client.front, client.front[0]
        if len(beats) < beats_of(first.size, first.opcode < GET):
            if self.real_time:
                self.go_on(client, beats)
            return
        unknown, client.front, client.unknown = client.unknown, [], []
        self.accept(int(words[1]), client, beats)
        self.doubt(beats, unknown)

    def doubt(self, beats, unknown):
        """A request was carried out: what it gives that nobody knows is indeterminate."""
        at = self.place(beats)
        for k, lanes in enumerate(doubted(beats, unknown) if at is not None else ()):
            self.written.update(dict.fromkeys(((at & ~7) + 8 * k + lane for lane in lanes), True))

    def go_on(self, client, beats):
        if len(beats) > 1:
            if self.any and beats[-1].corrupt:
                client.coming.fail()
            return
        footprint = self.joining(beats, beats[0].corrupt)
        self.beside(footprint)
        client.coming = footprint
        client.early = beats[0].source if self.any else None

    def accept(self, number, client, beats):
        has_begun, replied = len(beats) > 1, False
        reply = list(self.memory.carry_out(number, beats))
        errors = any(it.denied or it.corrupt for it in reply)
        if not self.real_time:
            footprint = self.alone(beats)
            self.give(footprint, beats)
        elif has_begun:
            footprint = self.alone(beats)
            if self.any and (self.place(beats) is None or errors):
                footprint.fail()
            footprint.sure &= client.coming.sure
            footprint.failed |= client.coming.failed
            replied = self.any and client.early is None
            self.give(footprint, beats)
        else:
            footprint = self.joining(beats, errors)
            self.give(footprint, beats)
            self.beside(footprint)
        client.coming, client.early = Footprint(), None
        if not replied:
            client.due.append(Flight(beats[0].source, reply, footprint))

    def joining(self, beats, errors):
        footprint = self.alone(beats)
        for other in self.footprints():
            if other.writes:
                footprint.sure -= set(other.span)
        if self.any and (self.place(beats) is None or errors):
            footprint.fail()
        return footprint

    def beside(self, footprint):
        """Others lose what it may write; what those leave is indeterminate of which what they write may depend on it."""
        for other in self.footprints():
            if other.depends_on(footprint):
                self.written.update(dict.fromkeys(other.span, True))
            if footprint.writes:
                other.sure -= set(footprint.span)

    def give(self, footprint, beats):
        if not footprint.writes:
            return
        is_fixed = not footprint.reads or set(footprint.span) <= footprint.sure
        for at in footprint.span:
            if beats[(at - footprint.at) // 8].mask >> at % 8 & 1:
                self.written[at] = not (at in footprint.sure and is_fixed)

    # ---- channel D

    def take_d(self, number, words):
        if int(words[1]) >= len(self.clients):
            return
        client, source = self.clients[int(words[1])], int(words[5])
        due = next((it for it in client.due if it.source == source), None)
        flight = client.begun or due
        if flight is None:
            if client.early == source:
                client.early = None
            return
        self.count(number, flight)
        if client.begun and due and client.begun.source != source:  # it ended early, and is over with the first beat of another
            client.begun, flight = None, due
        if client.begun is None:
            client.due.remove(flight)
            client.begun = flight
        if flight.source == source:
            del flight.reply[0]
        if not flight.reply:
            client.begun = None

    def count(self, number, flight):
        """How much the next beat of a reply tells, and how much of that is compared."""
        due, footprint = flight.reply[0], flight.footprint
        self.looked[number], self.due[number] = set(), due
        if due.opcode != 1:
            return
        k = beats_of(footprint.size, True) - len(flight.reply)
        told = [it for it in footprint.span if (it >> 3) - (footprint.at >> 3) == k]
        self.told += len(told)
        known_ones = [it for it in told if it in footprint.sure or not (footprint.reads or self.real_time)]
        if not due.corrupt and not (self.real_time and footprint.failed):
            self.looked[number] = {it % 8 for it in known_ones}
        self.compared += len(told) if due.corrupt and not self.real_time else len(self.looked[number])

    # ---- the AXI4 port

    def drained(self):
        self.sides = {"W": Side(), "R": Side()}

    def open(self, number, words):
        """An address opens its burst, whatever is wrong with it, if its transfers fit the bus, and fewer than twice DEPTH bursts are open of
        its ID, which is one of the port's."""
        side, burst = self.sides[words[0][1]], Burst(int(words[1]), int(words[2], 16), int(words[3]), int(words[4]))
        if 2**burst.size <= self.setup.width and burst.id < self.setup.ids and side.depth(burst.id) < 2 * self.setup.depth:
            side.open(burst)

    def answered(self, number, words):
        if self.wrong.get(number) not in COUNTING:
            return
        side, resp = (self.sides["W"], words[2]) if words[0] == "B" else (self.sides["R"], words[3])
        burst = side.oldest(int(words[1]))
        if words[0] == "B" or words[4] == "1":
            side.close(burst.id)
        if self.any and resp in ("SLVERR", "DECERR"):
            self.hit(burst.span)

    def hit(self, span):
        for footprint in self.footprints():
            if (footprint.reads or footprint.writes) and footprint.at <= span[-1] and span[0] < footprint.span.stop:
                if footprint.writes:
                    self.written.update(dict.fromkeys(footprint.span, True))
                footprint.fail()


def compared(lines, text):
    """The end of the last line."""
    counts = Counts(lines, text)
    return f"compared {counts.compared} of {counts.told}"
