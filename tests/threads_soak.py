"""Eight clients at once, half of whose requests lie in the same 256 bytes. Carrying the requests out whole, one at a time, in
the order of their numbers, on a plain memory (model.py) has to give just the replies that the program prints, and its bytes.

    python3 tests/threads_soak.py PROGRAM [RUNS] [--seed WORD] [--steps N] [--rates]

A seed makes the scripts and their words; the schedule is the machine's. A run makes as many steps as it may with N at most,
200,000 if it isn't told otherwise. --rates tells how many requests and steps a second 1, 2, 4 and 8 clients make.
"""

import random
import subprocess
import sys
import time
from dataclasses import dataclass

from ends import asked, told
from model import ARITHMETIC, GET, GOOD, INTENT, LOGICAL, PUT_FULL, PUT_PARTIAL, ABeat, Memory, Ranges, Setup, a_line, beats_of, full_mask

from client import byte_of, reply_of  # model.py says where it stands

SECONDS = 120
MOST_BEATS = 4096
# TileLink pages 0 to 3 lead to good pages, 4 to one that answers with an error, 5 to one that isn't there. Pages 6 and 7 lead
# to good pages too, 6 for Gets alone; page 8 is in no region.
REGIONS = ((0, 6, 0x10, "gpah"), (6, 1, 0x10, "g---"), (7, 1, 0x11, "gpah"))
PAGES = Ranges([(0x10, 4, GOOD), (0x14, 1, "slverr")])
# Half of all requests lie in these bytes, by way of a page or of another.
SHARED, ROOM = 0x400, 256
BAD = (0x10000 + SHARED + 0x48, 0x10000 + SHARED + 0xC0, 0x11000, 0x11FF8, 0x13000)


def setup_of(rng, clients, width):
    quota, ids, depth = rng.choice((1, 2, 4, 8)), rng.randint(1, 16), rng.randint(1, 4)
    return Setup(clients, quota, ids, depth, rng.choice((2, 4, 16, 256)), rng.randint(6, 12), width, REGIONS, PAGES, BAD)


def address(rng, size):
    if rng.random() < 0.5:
        page, begin, count = rng.choice((0, 0, 0, 0, 0, 0, 0, 6)), SHARED, ROOM
    else:
        page, begin, count = rng.choice((0, 1, 2, 3) * 4 + (4, 5, 6, 7, 8)), 0, 4096
    return page * 4096 + begin + rng.randrange(count >> size) * 2**size


def request(rng):
    """The beats of a request: by weight a quarter Puts of 64 bytes, Puts and Gets of 8 with some Intents, atomics of 4 and 8, and
    Gets of 64."""
    kind, param, size = rng.randrange(4), 0, 6
    if kind == 0:
        opcode = rng.choice((PUT_FULL, PUT_PARTIAL))
    elif kind == 1:
        opcode, size = rng.choice((PUT_FULL, PUT_PARTIAL, GET) * 4 + (INTENT,)), 3
        param = rng.randrange(2) if opcode == INTENT else 0
    elif kind == 2:
        opcode, size = rng.choice((ARITHMETIC, LOGICAL)), rng.choice((2, 3))
        param = rng.randrange(5 if opcode == ARITHMETIC else 4)
    else:
        opcode = GET
    at, source, beats = address(rng, size), rng.randrange(12), []
    for _ in range(beats_of(size, opcode < GET)):
        mask = full_mask(size, at)
        mask &= rng.getrandbits(8) if opcode == PUT_PARTIAL else 0xFF
        corrupt = int(opcode < GET and rng.random() < 0.005)
        beats.append(ABeat(opcode, param, size, source, at, mask, rng.getrandbits(64), corrupt))
    return tuple(beats)


@dataclass(frozen=True)
class Load:
    """What the clients ask for."""

    setup: Setup
    requests: tuple  # of each client, in its order
    addresses: tuple  # whose bytes are shown
    given: bytes
    beats: int
    steps: int

    @property
    def count(self):
        return sum(map(len, self.requests))


def requests_of(rng, setup, most):
    """As many requests as may be for all clients: no client has more than 4,096 beats, nor all of them more than so many steps.
    And how many beats and steps they are."""
    requests, beats, steps = [[] for _ in range(setup.clients)], [0] * setup.clients, 0
    while True:
        client = min(range(setup.clients), key=beats.__getitem__)
        next_one = request(rng)
        if beats[client] + len(next_one) > MOST_BEATS or steps + setup.steps(next_one) > most:
            return tuple(map(tuple, requests)), sum(beats), steps
        requests[client].append(next_one)
        beats[client] += len(next_one)
        steps += setup.steps(next_one)


def load(seed, clients, width, memories, most):
    """Some load, whose lines are in any mixture."""
    rng = random.Random(f"{seed} {clients} {width} {memories}")
    setup = setup_of(rng, clients, width)
    requests, beats, steps = requests_of(rng, setup, most)
    words = [(rng.getrandbits(64), memories - 1)] + [(rng.getrandbits(64), rng.randrange(memories)) for _ in range(500)]
    lines = [[f"word {word} {memory}" for word, memory in words]]
    lines += [[a_line(client, beat).lower() for it in own for beat in it] for client, own in enumerate(requests)]
    order = [which for which, own in enumerate(lines) for _ in own]
    rng.shuffle(order)
    rows = [iter(own) for own in lines]
    shared = range(0x10000 + SHARED, 0x10000 + SHARED + ROOM)
    addresses = (*shared, *(rng.randrange(0x10000, 0x16000) for _ in range(500)))
    text = [*setup.lines, *(next(rows[which]) for which in order), *(f"mem {it:x}" for it in addresses)]
    return Load(setup, requests, addresses, "".join(f"{it}\n" for it in text).encode(), beats, steps)


def replies_of(text, clients):
    """What each client received, and the bytes."""
    lines = iter(text.decode().splitlines())
    check(next(lines) == "= ok", "it doesn't begin with = ok")
    replies, line = [], next(lines, "")
    for client in range(clients):
        check(line == f"client {client}", f"{line!r} stands where client {client} begins")
        replies.append([])
        line = next(lines, "")
        while line.startswith("= reply "):
            row = iter((line,))
            replies[-1].append(reply_of(lambda: next(row, None) or next(lines)))
            line = next(lines, "")
    return replies, [byte_of(lambda it=it: it) for it in (line, *lines)]


class Wrong(Exception):
    """The program isn't as the model."""


def check(is_well, why):
    if not is_well:
        raise Wrong(why)


def compare(load, text):
    """The replies are those of the requests in the order of their numbers, and the memory is as these leave it. Returns how often
    a request follows one of another client."""
    replies, shown = replies_of(text, load.setup.clients)
    numbered = {}
    for client, (own, asked) in enumerate(zip(replies, load.requests)):
        check(len(own) == len(asked), f"client {client} has {len(own)} replies to {len(asked)} requests")
        for reply, beats in zip(sorted(own, key=lambda it: it.number), asked):
            check(reply.number not in numbered, f"reply {reply.number} came twice")
            numbered[reply.number] = client, beats, reply
    check(set(numbered) == set(range(load.count)), "the numbers of the replies aren't those of the requests")
    memory = Memory(load.setup)
    for number in range(load.count):
        client, beats, reply = numbered[number]
        wanted = memory.carry_out(client, beats)
        check(reply.beats == wanted, f"reply {number} to {beats[0]} of client {client} is {reply.beats}, not {wanted}")
    wanted = [memory.byte(it) for it in load.addresses]
    check(len(shown) == len(wanted), f"{len(shown)} bytes are shown, not {len(wanted)}")
    for at, byte, right in zip(load.addresses, shown, wanted):
        check(byte == right, f"the byte at {at:x} is {byte}, not {right}")
    return sum(numbered[it][0] != numbered[it + 1][0] for it in range(load.count - 1))


def run(program, load):
    """The text of a run, and how many seconds it took."""
    begin = time.monotonic()
    ran = subprocess.run([program, "threads"], input=load.given, capture_output=True, timeout=SECONDS)
    took = time.monotonic() - begin
    check((ran.returncode, ran.stderr) == (0, b""), f"status {ran.returncode} with {ran.stderr!r}")
    return ran.stdout, took


def soak(program, seed, width, memories, most):
    """What is wrong with a run, or nothing."""
    it = load(seed, 8, width, memories, most)
    try:
        text, took = run(program, it)
        changes = compare(it, text)
    except (Wrong, ValueError, IndexError, StopIteration, RuntimeError, subprocess.TimeoutExpired) as why:
        return f"{type(why).__name__}: {why}"
    size = f"{it.beats} beats, {it.count} requests, {it.steps} steps"
    print(f"seed {seed}, width {width}, {memories} memory threads: {size}, {took:.2f} seconds; {changes} changes of client")
    return None


def rates(program, seed, most):
    for clients in (1, 2, 4, 8):
        it = load(seed, clients, 8, 1, most)
        text, took = run(program, it)
        compare(it, text)
        print(f"clients {clients}: {it.count / took:.0f} requests and {it.steps / took:.0f} steps a second")


def cases(program, runs, seed, most):
    for number in range(runs):
        width, memories = (8, 4)[number % 2], number // 2 % 4 + 1
        own = f"{seed}.{number}"
        yield f"seed {own}, width {width}, {memories} memory threads", soak(program, own, width, memories, most)


if __name__ == "__main__":
    words = asked(__doc__, "program", by_lot=True)
    words.add_argument("runs", nargs="?", type=int, default=3)
    words.add_argument("--steps", type=int, default=200_000)
    words.add_argument("--rates", action="store_true")
    given = words.parse_args()
    if given.rates:
        rates(given.program, given.seed, given.steps)
    sys.exit(told(cases(given.program, given.runs, given.seed, given.steps)))
