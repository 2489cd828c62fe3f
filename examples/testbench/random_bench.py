"""Two clients with a random schedule. Each reply, and the memory at the end, is compared with a plain model, which carries
out the requests whole, one at a time, in the order in which they were accepted.

    python3 examples/testbench/random_bench.py [--steps N] [--corners N] [--play FILE] [--observed FILE] [--in-process] [SEED]

Of 16 requests so many as --corners says (4) look for a corner: the edge of a page or a region, a page that fails or isn't there, a bad
word, masks that are empty, a message that is corrupt in all beats; and for a while replies are taken soon, or none is taken, no answer is
given or no burst is sent. With 0 there are plain lots. --play has the requests of a
stimulus in their place (docs/STIMULUS.md). --observed writes what tlscore and zuldegei-cover read of the run. With
--in-process the model is that of the library (interfaces/README.md), and else the program's. Both give the same.
"""

import argparse
import random
import sys
from dataclasses import replace
from pathlib import Path

from client import ABeat, DBeat, Ended, Interactive, beats_of
from zuldegei.player import Player

PUT_FULL, PUT_PARTIAL, ARITHMETIC, LOGICAL, GET, INTENT = range(6)
REPLIES = (0, 0, 1, 1, 1, 2)  # the opcode of the reply to each: AccessAck, AccessAckData, HintAck
WITH_DATA, LARGEST_OF_A_BEAT, LARGEST = 1, 3, 6
CLIENTS, IDS, SOURCES = 2, 4, 16
# TileLink pages 0 to 3 lead to AXI pages 10 to 13 (hexadecimal): two are good, one answers SLVERR, and one isn't there. Page 8 leads to
# AXI page 10 for Gets alone. Pages 4 and 9, which are behind both regions, are in none.
PAGE, READ_ONLY, NOWHERE, AXI, BYTES = 0x0000, 0x8000, 0x9000, 0x10000, 0x1000
GOOD, SLVERR, ABSENT, REFUSED = "good", "slverr", "absent", "refused"
KINDS = {PAGE: GOOD, PAGE + BYTES: GOOD, PAGE + 2 * BYTES: SLVERR, PAGE + 3 * BYTES: ABSENT}
BEHIND = PAGE + len(KINDS) * BYTES
PAGES = (*KINDS, BEHIND, READ_ONLY, NOWHERE)
BAD = 0xFD8  # the place of a word in the first page that reads with an error
# All requests by plain lots lie within so many bytes, so that many of them conflict. The others lie as near to the edges of their pages.
ROOM = 128
PLACES = (*range(ROOM), *range(BYTES - ROOM, BYTES + ROOM), *range(2 * BYTES - ROOM, 2 * BYTES))  # of the good pages
CORNERS, MOST_CORNERS = 4, 16  # of 16 requests, how many look for a corner, and at the most
MOOD_STEPS = 32  # how many steps a mood lasts on average: in some moods replies are taken soon, and in others something isn't done


def set_up(bridge):
    regions = [f"{PAGE >> 12:x} {len(KINDS)} {AXI >> 12:x} gpah", f"{READ_ONLY >> 12:x} 1 {AXI >> 12:x} g---"]
    pages = [f"{(AXI + page) >> 12:x} 1 {kind}" for page, kind in KINDS.items() if kind != ABSENT]
    bridge.setup(f"{CLIENTS} 4 {IDS} 2 4 {LARGEST} {'h' * CLIENTS}", regions, pages, [f"{AXI + BAD:x}"])


def full_mask(size, address):
    return 0xFF if size >= 3 else (2 ** (2**size) - 1) << address % 8


def random_kind(rng):
    """Opcode, size and param of a request."""
    opcode = rng.randrange(6)
    size = rng.randrange(LARGEST_OF_A_BEAT + 1) if opcode in (ARITHMETIC, LOGICAL) else rng.randrange(LARGEST + 1)
    return opcode, size, rng.randrange({ARITHMETIC: 5, LOGICAL: 4, INTENT: 2}.get(opcode, 1))


def beats_by_lot(rng, opcode, size, param, source, address):
    """The beats of a request, with masks and payloads by lot, and now and then a corrupt one."""
    full = full_mask(size, address)
    beats = []
    for _ in range(beats_of(size, opcode < GET)):
        mask = full & rng.getrandbits(8) if opcode == PUT_PARTIAL else full
        corrupt = int(opcode < GET and rng.random() < 0.02)
        beats.append(ABeat(opcode, param, size, source, address, mask, rng.getrandbits(64), corrupt))
    return beats


def in_room(rng, size):
    """An address by plain lots."""
    page = rng.choice([PAGE] * 8 + [READ_ONLY, NOWHERE])
    return page + rng.randrange(ROOM >> size) * 2**size


def random_request(rng, source):
    """The beats of a request by plain lots."""
    opcode, size, param = random_kind(rng)
    return beats_by_lot(rng, opcode, size, param, source, in_room(rng, size))


def at_an_edge(rng, source):
    """A request at the begin or the end of a page."""
    opcode, size, param = random_kind(rng)
    address = rng.choice(PAGES) + rng.choice((0, BYTES - 2**size))
    return beats_by_lot(rng, opcode, size, param, source, address)


def in_any_page(rng, source):
    """A request in a page that may fail, or that nothing leads to."""
    opcode, size, param = random_kind(rng)
    return beats_by_lot(rng, opcode, size, param, source, rng.choice(PAGES) + rng.randrange(ROOM >> size) * 2**size)


def at_the_bad_word(rng, source):
    """A request that has the bad word, or some of its bytes."""
    opcode, size, param = random_kind(rng)
    return beats_by_lot(rng, opcode, size, param, source, PAGE + (BAD + rng.randrange(8) >> size << size))


def long_put(rng, source, opcode):
    """A Put of several beats by plain lots."""
    size = rng.randrange(LARGEST_OF_A_BEAT + 1, LARGEST + 1)
    return beats_by_lot(rng, opcode, size, 0, source, in_room(rng, size))


def with_empty_masks(rng, source):
    """A Put of several beats whose masks are all empty, or the first or the last of them."""
    beats = long_put(rng, source, PUT_PARTIAL)
    last = len(beats) - 1
    empty = rng.choice((range(last + 1), (0,), (last,)))
    return [replace(it, mask=0) if at in empty else it for at, it in enumerate(beats)]


def all_corrupt(rng, source):
    """A Put of several beats that are all corrupt."""
    return [replace(it, corrupt=1) for it in long_put(rng, source, rng.choice((PUT_FULL, PUT_PARTIAL)))]


AT_CORNERS = (at_an_edge, at_an_edge, at_an_edge, in_any_page, in_any_page, at_the_bad_word, with_empty_masks, all_corrupt)


def standing(beats):
    """How a request stands: by the kind of its page, or as one that is refused before the memory is asked."""
    first = beats[0]
    page = first.address & -BYTES
    is_permitted = page in KINDS or page == READ_ONLY and first.opcode == GET
    if not is_permitted or any(it.corrupt for it in beats):
        return REFUSED
    return GOOD if first.opcode == INTENT else KINDS.get(page, GOOD)


class Model:
    """The good pages, and what each accepted request does to them."""

    def __init__(self):
        self.memory = bytearray(2 * BYTES)

    def carry_out(self, client, beats):
        """Carries out a request whole, and returns the beats of its reply."""
        first, kind = beats[0], standing(beats)
        opcode = REPLIES[first.opcode]
        is_denied = kind in (REFUSED, ABSENT) or kind == SLVERR and opcode != WITH_DATA
        data = self.meaning(beats) if kind == GOOD else bytes(2**first.size)
        words = self.payloads(first, data) if opcode == WITH_DATA else [0]
        fails = [opcode == WITH_DATA and (kind != GOOD or is_bad(first, at)) for at in range(len(words))]
        answers = [(0, 1) if it else (word, 0) for it, word in zip(fails, words)]
        return tuple(DBeat(client, opcode, 0, first.size, first.source, int(is_denied), *it) for it in answers)

    @staticmethod
    def payloads(first, data):
        """The bytes as words of eight lanes; the byte at address x is in lane x mod 8."""
        lanes = bytes(first.address % 8) + data
        lanes += bytes(-len(lanes) % 8)
        return [int.from_bytes(lanes[at : at + 8], "little") for at in range(0, len(lanes), 8)]

    def meaning(self, beats):
        """Carries out a request that isn't denied, and returns the bytes that it reads."""
        first = beats[0]
        at, count = place(first), 2**first.size
        old = bytes(self.memory[at : at + count])
        if first.opcode in (PUT_FULL, PUT_PARTIAL):
            for i in range(count):
                beat, lane = beats[i // 8], (first.address + i) % 8
                if beat.mask >> lane & 1:
                    self.memory[at + i] = beat.payload >> 8 * lane & 0xFF
        elif first.opcode in (ARITHMETIC, LOGICAL) and not is_bad(first, 0):
            operand = (first.payload >> 8 * (at % 8)) % 2 ** (8 * count)
            new = applied(first.opcode, first.param, count, int.from_bytes(old, "little"), operand)
            self.memory[at : at + count] = new.to_bytes(count, "little")
        return old


def place(first):
    """Where the bytes of a request are in the good pages."""
    return first.address % READ_ONLY  # page 8 leads where page 0 does


def is_bad(first, word):
    """Whether a word of a request is the bad one."""
    return place(first) // 8 + word == BAD // 8


def applied(opcode, param, count, old, operand):
    """What an atomic of so many bytes leaves."""
    top = 2 ** (8 * count)
    signed = lambda it: it - top if it >= top // 2 else it
    arithmetic = [
        lambda: min(old, operand, key=signed),
        lambda: max(old, operand, key=signed),
        lambda: min(old, operand),
        lambda: max(old, operand),
        lambda: (old + operand) % top,
    ]
    logical = [lambda: old ^ operand, lambda: old | operand, lambda: old & operand, lambda: operand]
    return (arithmetic if opcode == ARITHMETIC else logical)[param]()


class Bench:
    """What the two sides of the bridge know: the requests under way, and the beats of bursts that are still to be performed."""

    def __init__(self, bridge, seed, corners=CORNERS):
        self.bridge, self.seed, self.corners, self.rng, self.model = bridge, seed, corners, random.Random(seed), Model()
        self.offered = [[] for _ in range(CLIENTS)]  # the beats of a client's request, and how many of them were taken
        self.taken = [0] * CLIENTS
        self.wanted = {}  # the replies that are still to come, by number
        self.accepted = self.replied = 0
        self.unperformed = []  # serial and beat

    def offer(self):
        client = self.rng.randrange(CLIENTS)
        if not self.offered[client]:
            live = {beats[0].source for at, beats in self.wanted.values() if at == client}
            source = self.rng.choice([it for it in range(SOURCES) if it not in live])
            is_plain = not self.corners or self.rng.randrange(MOST_CORNERS) >= self.corners
            self.offered[client] = (random_request if is_plain else self.rng.choice(AT_CORNERS))(self.rng, source)
        beats = self.offered[client]
        answer = self.bridge.offer(client, beats[self.taken[client]])
        if answer.kind != "notready":
            self.took(client, answer, self.taken[client] + 1 == len(beats))

    def took(self, client, answer, last):
        """The bridge took the next beat of a client's request."""
        check(answer.kind == ("accepted" if last else "more"), f"a legal beat was answered {answer}")
        self.taken[client] += 1
        if last:
            check(answer.number == self.accepted, f"request {self.accepted} was told as {answer.number}")
            reply = self.model.carry_out(client, self.offered[client])
            self.wanted[answer.number] = client, reply
            self.accepted += 1
            self.offered[client], self.taken[client] = [], 0

    def pump(self):
        burst = self.bridge.pump()
        if burst:
            self.unperformed += [(burst.serial, beat) for beat in range(burst.len + 1)]

    def perform(self):
        if self.unperformed:
            serial, beat = self.unperformed.pop(self.rng.randrange(len(self.unperformed)))
            answer = self.bridge.perform(serial, beat)
            check(answer == "done", f"beat {beat} of burst {serial} was answered {answer}")

    def answer_b(self):
        self.bridge.answer_b(self.rng.randrange(IDS))

    def answer_r(self):
        self.bridge.answer_r(self.rng.randrange(IDS))

    def take(self):
        self.taken_by(self.rng.randrange(CLIENTS))

    def taken_by(self, client):
        """Takes a reply, if one is there, and compares it. Tells whether one was."""
        reply = self.bridge.take(client)
        if reply:
            check(reply.number in self.wanted, f"a reply to request {reply.number}, which waits for none")
            of, beats = self.wanted.pop(reply.number)
            check(of == client, f"client {client} was given the reply to request {reply.number} of client {of}")
            check(reply.beats == beats, f"request {reply.number}: {reply.beats}, not {beats}")
            self.replied += 1
            self.replied_with(client, beats)
        return reply is not None

    def replied_with(self, client, beats):
        """A client was given a reply."""

    def moves(self, *left_out):
        """What is done by lot, each move as often as it stands there."""
        moves = [self.offer] * 4 + [self.pump] * 2 + [self.perform] * 6 + [self.answer_b] * 2 + [self.answer_r] * 4 + [self.take]
        return [it for it in moves if it not in left_out]

    def run(self, steps):
        set_up(self.bridge)
        moves = self.moves()
        fast = moves + [self.take] * 3
        moods = fast, fast, self.moves(self.answer_b, self.answer_r), self.moves(self.take), self.moves(self.pump)
        for _ in range(steps):
            if self.corners and self.rng.randrange(MOOD_STEPS) == 0:
                moves = self.rng.choice(moods)
            self.rng.choice(moves)()
        self.end()

    def end(self):
        """Has all carried out that is under way, and compares what comes of it."""
        # (a drain makes steps for both sides, so nothing is to be performed after it)
        self.bridge.drain()
        check(self.bridge.work() == 0, "work is left after a drain")
        for client in range(CLIENTS):
            while self.taken_by(client):
                pass
        check(not self.wanted, f"no reply to the requests {sorted(self.wanted)}")
        for at in PLACES:
            byte = self.bridge.byte(AXI + at)
            check(byte == self.model.memory[at], f"the byte at {AXI + at:x} is {byte}, not {self.model.memory[at]}")


class Played(Bench):
    """The requests of a stimulus in place of those by lot. Each step is a clock of its clients."""

    def __init__(self, bridge, seed, lines):
        super().__init__(bridge, seed, corners=0)
        self.player = Player(lines, CLIENTS, SOURCES)

    def offer(self):
        port = self.rng.choice(self.player.ports)
        if port.offer is None:
            return
        beats = self.offered[port.client] = self.offered[port.client][: self.taken[port.client]] + [port.offer]
        answer = self.bridge.offer(port.client, port.offer)
        if answer.kind != "notready":
            is_last = len(beats) == beats_of(port.offer.size, port.offer.opcode < GET)
            self.took(port.client, answer, is_last)
            port.taken()

    def taken_by(self, client):
        port = self.player.ports[client]
        return port.is_ready and super().taken_by(client)

    def replied_with(self, client, beats):
        for it in beats:
            self.player.ports[client].heard(it.opcode, it.size, it.source)

    def run(self, steps):
        set_up(self.bridge)
        moves = self.moves() + [self.take] * 3
        for _ in range(steps):
            self.player.clock()
            self.rng.choice(moves)()
            if self.player.is_over:
                break
        check(self.player.is_over, f"the stimulus isn't over in {steps} steps")
        self.end()


class Wrong(Exception):
    """The program isn't as the model."""


def check(is_well, why):
    if not is_well:
        raise Wrong(why)


def tried(bench, steps):
    """Runs a bench, and tells in one line what was wrong, or nothing."""
    try:
        bench.run(steps)
    except (Wrong, Ended, TimeoutError) as why:
        script = bench.bridge.script
        return f"seed {bench.seed}{f', line {len(script)}, `{script[-1]}`' if script else ''}: {why}"
    return None if bench.replied else f"seed {bench.seed}: no request had a reply"


def bridge_of(given):
    """A bridge without a set-up, which keeps its script."""
    if given.in_process:
        from zuldegei import Bridge

        return Bridge(keeps=True)
    return Interactive([given.program, "run"])


def observed(bridge):
    """A run as tlscore and zuldegei-cover read it."""
    setup = [it for it in bridge.script if it.startswith(("config", "region", "page", "bad"))]
    return "".join(f"{it}\n" for it in (*setup, *bridge.trace))


def arguments():
    """What is asked for."""
    words = argparse.ArgumentParser(description="two clients with a random schedule against a plain model")
    words.add_argument("seed", nargs="?", type=int, default=0)
    words.add_argument("--steps", type=int, default=1_000)
    words.add_argument("--corners", type=int, default=CORNERS, help=f"of 16 requests how many look for a corner ({CORNERS})")
    words.add_argument("--observed", type=Path, metavar="FILE", help="where the set-up and the trace go, as tlscore reads them")
    words.add_argument("--play", type=Path, metavar="FILE", help="the requests are those of a stimulus, within so many steps")
    words.add_argument("--program", default="./tlbridge")
    words.add_argument("--in-process", action="store_true", help="the model of the library, in this process")
    given = words.parse_args()
    if not 0 <= given.corners <= MOST_CORNERS:
        words.error(f"--corners {given.corners}: 0 to {MOST_CORNERS} of so many requests")
    if given.observed and given.in_process:
        words.error("--observed takes the trace of the program")
    return given


def main():
    given = arguments()
    with bridge_of(given) as bridge:
        bench = Played(bridge, given.seed, given.play.open()) if given.play else Bench(bridge, given.seed, given.corners)
        why = tried(bench, given.steps)
        if why:
            print("\n".join(bridge.script))
            sys.exit(why)
        if given.observed:
            given.observed.write_text(observed(bridge))
    print(f"seed {given.seed}: {len(bridge.script)} lines, {bench.replied} replies and {len(PLACES)} bytes, all as the model has them")


if __name__ == "__main__":
    main()
