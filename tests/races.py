"""Histories of few requests by lot, most of which race, and what tlscore says of their replies by `profile tilelink`. What a reply
may show is found by search: in each order of the requests that have begun in which none stands behind one that began after it was
whole and its whole reply had come, they are carried out whole, one at a time; a Put that isn't whole gives any bytes, or none.
Where each byte of a beat is so in some order, the beat isn't blamed. Where a byte is so in none, and was given last by a Put with
which nothing raced, the beat is blamed. Every other history is one by `errors any`, in which no beat is corrupt, and some Puts are
replied to before they are whole.

    python3 tests/races.py TLSCORE [HISTORIES] [--seed WORD]
"""

import random
import re
import sys
from collections import Counter
from dataclasses import dataclass, replace

from compared import compared
from ends import asked, started, told
from model import (
    ARITHMETIC, GET, GOOD, INTENT, LOGICAL, PUT_FULL, PUT_PARTIAL, ABeat, DBeat, Memory, Ranges, Setup, a_line, applied, beats_of, d_line, full_mask,
)  # fmt: skip

SETUP = Setup(3, 4, 16, 2, 16, 12, 8, ((0, 4, 0x10, "gpah"),), Ranges([(0x10, 1, GOOD)]), ())
PUTS, GIVES_NONE = (PUT_FULL, PUT_PARTIAL), (GET, INTENT)
# Opcodes, params and sizes of requests: of each kind, and of those that show which came first, a sum or a Put of one of its bytes.
ALL = [(PUT_FULL, 0, 4), (PUT_FULL, 0, 0), (PUT_PARTIAL, 0, 4), (GET, 0, 3), (GET, 0, 3), (GET, 0, 4)] * 3 + [(PUT_FULL, 0, 3)] * 2
ALL += [*((ARITHMETIC, param, size) for param in range(5) for size in (0, 3)), *((LOGICAL, param, 3) for param in range(4))]
ALL += [(INTENT, param, size) for param in range(2) for size in (3, 4)]
SUMS = [(ARITHMETIC, 4, 3), (PUT_FULL, 0, 0), (GET, 0, 3)]
# All requests lie in the first 16 bytes of the memory.
BYTES, ADDRESSES, MASKS = 16, (0, 3, 8, 15), (0xFF, 0xF0, 0x0F, 0x01, 0)
# How many moves and requests are made by lot, how many Gets when all is quiet, and the share of bytes that are spoiled in a beat.
MOVES, MOST, QUIET, SPOILED = 40, 6, 3, (0, 0, 0.1)
VERDICT = re.compile(r"(?m)^= wrong (\d+) (.*)$")
# How many beats these are at least in a history, on the average; `History.read` says what the words mean.
WANTED = {"raced": 1, "wrong": 1, "surely wrong": 1, "blamed": 1, "early": 0.02}


@dataclass(eq=False)
class Request:
    client: int
    beats: tuple  # of its message
    began: int  # the line of its first beat
    came: int = 0  # how many of these beats came
    reply: tuple = ()  # in order of acceptance, once it is whole
    replied: int = 0  # how many beats of the reply came
    ended: int = None  # the line of the last of them, or of its own last beat, if that came later

    @property
    def first(self):
        return self.beats[0]

    @property
    def span(self):
        """The addresses of its bytes."""
        return range(self.first.address, self.first.address + 2**self.first.size)

    def may_write(self, address):
        return self.first.opcode not in GIVES_NONE and address in self.span

    def gives(self):
        """The byte that it gives to each address of its span, in an atomic the operand; None where it gives none."""
        if self.first.opcode in GIVES_NONE or any(it.corrupt for it in self.beats):
            return [None] * len(self.span)
        lanes = [(self.beats[at // 8], address % 8) for at, address in enumerate(self.span)]
        return [beat.payload >> 8 * lane & 0xFF if beat.mask >> lane & 1 else None for beat, lane in lanes]

    def leaves(self, read):
        """What it makes of the bytes of its span, if it is whole. None is a byte that may be any."""
        gives, first, count = self.gives(), self.first, len(read)
        if first.opcode in GIVES_NONE + PUTS:
            return tuple(old if new is None else new for old, new in zip(read, gives))
        if None in read:
            return (None,) * count
        old, operand = (int.from_bytes(bytes(it), "little") for it in (read, gives))
        return tuple(applied(first.opcode, first.param, count, old, operand).to_bytes(count, "little"))

    def outcomes(self, memory, anything):
        """The memories that it may leave. A Put that isn't whole may turn out corrupt, and does if its first beat is; else it gives
        anything."""
        begin, end = self.span.start, self.span.stop
        given = [self.leaves(memory[begin:end]) if self.reply else memory[begin:end]]
        if not self.reply and not self.first.corrupt:
            given.append(anything[begin:end])
        return [memory[:begin] + it + memory[end:] for it in given]


def readings(requests, target, anything):
    """All that a request reads in some order. What stands behind it there doesn't matter."""
    found, seen, states = set(), set(), [(frozenset(requests), (0,) * BYTES)]
    while states:
        state = left, memory = states.pop()
        if state in seen:
            continue
        seen.add(state)
        ended = min((it.ended for it in left if it.ended), default=None)
        for request in left:
            if ended and ended < request.began:
                continue
            if request is target:
                found.add(memory[target.span.start : target.span.stop])
            else:
                states += [(left - {request}, after) for after in request.outcomes(memory, anything)]
    return found


def is_settled(requests, target, address):
    """Whether a request reads a byte that nobody may write, or that a Put gave which was alone there: all others that may write it
    had ended before this Put began, and the Put had before the request did."""
    writers = [it for it in requests if it is not target and it.may_write(address)]
    if not writers:
        return True
    *others, last = writers
    if last.first.opcode not in PUTS or last.gives()[address - last.first.address] is None:
        return False
    return all(it.ended and it.ended < later.began for it, later in [(last, target), *((it, last) for it in others)])


class History:
    """Clients that make requests and are told their replies in a random schedule. When all is quiet Gets read what they may have
    left, one at a time; then comes a Put, and behind its reply a Get of which each byte is wrong."""

    def __init__(self, rng, errors):
        self.rng, self.memory, self.lines = rng, Memory(SETUP), [*SETUP.lines, "profile tilelink", f"errors {errors}"]
        self.is_any, self.early = errors == "any", 0  # and how many replies came before their requests were whole
        self.kinds, self.requests = rng.choice((ALL, ALL, SUMS)), []
        self.told = {}  # by the line of each beat with data: the line that was due in order of acceptance, and what is said of it
        for _ in range(MOVES):
            self.move()
        self.end()
        for _ in range(QUIET):
            self.begin(0, GET, 0, 4, 0)
            self.end(rng.choice(SPOILED))
        size, address = rng.choice(((4, 0), (3, 8), (0, 3)))
        self.begin(0, PUT_FULL, 0, size, address)
        self.end()
        self.begin(1, GET, 0, size, address)
        self.end(spoiled=1)

    def move(self):
        """A client is told a beat of a reply, goes on with its message, or begins another."""
        rng, client = self.rng, self.rng.randrange(SETUP.clients)
        live = [it for it in self.requests if it.client == client and not it.ended]
        whole = [it for it in live if it.reply]
        if rng.random() < 0.45:
            begun = [it for it in live if not it.reply and not it.replied and self.is_any]
            may = [it for it in whole if it.replied] or whole + begun
            if may:
                self.tell(rng.choice(may), rng.choice(SPOILED))
        elif len(whole) < len(live):
            self.offer(next(it for it in live if not it.reply))
        elif len(live) < 2 and len(self.requests) < MOST:
            opcode, param, size = rng.choice(self.kinds)
            self.begin(client, opcode, param, size, rng.choice(ADDRESSES) & -(2**size), corrupt=0 if self.is_any else 0.1)

    def end(self, spoiled=0):
        """All requests end, first those of which the reply goes on."""
        for request in sorted(self.requests, key=lambda it: not it.replied):
            while not request.reply:
                self.offer(request)
            while not request.ended:
                self.tell(request, spoiled)

    def begin(self, client, opcode, param, size, address, corrupt=0):
        """The first beat of a request comes. Of a Put each beat may be corrupt."""
        rng, full, beats = self.rng, full_mask(size, address), []
        source = min({0, 1} - {it.first.source for it in self.requests if it.client == client and not it.ended})
        for _ in range(beats_of(size, opcode < GET)):
            mask = full & rng.choice(MASKS) if opcode == PUT_PARTIAL else full
            is_corrupt = int(opcode in PUTS and rng.random() < corrupt)
            beats.append(ABeat(opcode, param, size, source, address, mask, rng.getrandbits(64), is_corrupt))
        self.requests.append(Request(client, tuple(beats), len(self.lines) + 1))
        self.offer(self.requests[-1])

    def offer(self, request):
        """The next beat of a message comes."""
        self.lines.append(a_line(request.client, request.beats[request.came]))
        request.came += 1
        if request.came == len(request.beats):
            request.reply = self.memory.carry_out(request.client, request.beats)
            request.ended = len(self.lines) if request.replied else None

    def tell(self, request, spoiled):
        """The next beat of a reply comes, or the only one, before its request is whole."""
        if not request.reply:
            self.early += 1
            self.lines.append(d_line(DBeat(request.client, 0, 0, request.first.size, request.first.source, 0, 0, 0)))
            request.replied = 1
            return
        due = request.reply[request.replied]
        payload = self.read(request, due, spoiled) if due.opcode == 1 else 0
        self.lines.append(d_line(replace(due, payload=payload)))
        request.replied += 1
        if request.replied == len(request.reply):
            request.ended = len(self.lines)

    def read(self, request, due, spoiled):
        """Draws the payload of a beat with data: what is read in an order by lot, but some bytes are spoiled. It is wrong where a
        byte is so in no order, and surely wrong where such a byte is settled. It has raced where it is right, and another was due
        in order of acceptance."""
        rng, part = self.rng, slice(8 * request.replied, 8 * request.replied + 8)
        read = rng.choice(sorted(readings(self.requests, request, tuple(rng.randbytes(BYTES)))))[part]
        shown = [it ^ rng.randrange(1, 256) if rng.random() < spoiled else it for it in read]
        may = [{*it} for it in zip(*readings(self.requests, request, (None,) * BYTES))][part]
        wrong = [address for address, it, so in zip(request.span[part], shown, may) if not so & {it, None}]
        payload = int.from_bytes(bytes(shown), "little") << 8 * (request.first.address % 8)
        is_sure = any(is_settled(self.requests, request, it) for it in wrong)
        said = {"raced": not wrong and payload != due.payload, "wrong": wrong, "surely wrong": is_sure}
        self.told[len(self.lines) + 1] = d_line(due), {it for it in said if said[it]}
        return payload


def fault_of(program, history, counts):
    """Tells in one line how the verdicts on a history aren't as they have to be, or nothing."""
    ran = started([program], "".join(f"{it}\n" for it in history.lines).encode())
    verdicts = {int(line): verdict for line, verdict in VERDICT.findall(ran.text.decode())}
    counts.update(blamed=len(verdicts))
    if ran.status != 1 or ran.line:
        return f"status {ran.status}, not 1, and {ran.line!r} on standard error"
    text = ran.text.decode()
    if not text.endswith(f" {compared(history.lines, text)}\n"):
        return f"{text.splitlines()[-1]}, not {compared(history.lines, text)}"
    for line, verdict in verdicts.items():
        due, said = history.told.get(line, (None, ()))
        if verdict != f"reply 7 PAYLOAD expected {due}":
            return f"the verdict on line {line}, {history.lines[line - 1]}, is {verdict}"
        if "wrong" not in said:
            return f"line {line}, {history.lines[line - 1]}, is blamed, and each of its bytes is so in some order"
    for line, (_, said) in history.told.items():
        if "surely wrong" in said and line not in verdicts:
            return f"line {line}, {history.lines[line - 1]}, isn't blamed, and a byte is wrong with which nothing raced"
    return None


def cases(given):
    counts = Counter()
    for number in range(given.histories):
        history = History(random.Random(f"{given.seed} {number}"), ("strict", "any")[number % 2])
        counts.update(early=history.early)
        counts.update(kind for _, said in history.told.values() for kind in said)
        yield f"seed {given.seed}, history {number}", fault_of(given.tlscore, history, counts)
    for what, least in WANTED.items():
        count, least = counts[what], least * given.histories
        print(f"{count} beats are {what}")
        yield f"seed {given.seed}: beats that are {what}", None if count >= least else f"{count}, not {least}"


if __name__ == "__main__":
    words = asked(__doc__, "tlscore", by_lot=True)
    words.add_argument("histories", nargs="?", type=int, default=300)
    sys.exit(told(cases(words.parse_args())))
