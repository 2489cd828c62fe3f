"""Random scripts of `run`, with what is refused or of nobody between the beats of their messages, and what the scoreboard says
of each trace by both profiles: nothing is wrong, and as many beats are judged as the trace says that were taken. Each trace is
cut behind any of its lines but an A line, whose answer would be missing. Then it is judged with x and z in lanes of some payloads:
told are just the lines where such a lane is looked at.

    python3 tests/run_traces.py TLSCORE TLBRIDGE [SCRIPTS] [--seed WORD]
"""

import random
import re
import subprocess
import sys
from collections import Counter
from dataclasses import dataclass, field, replace

from compared import Counts, compared
from ends import asked, told
from model import GET
from port_models import Burst, Side
from unknown import PAYLOADS, given_lanes, lanes_in, lanes_of_mask, with_unknown

from client import Interactive  # model.py says where it stands
from random_bench import random_request

PROFILES = ("bridge", "tilelink")
TAKEN = ("more", "accepted")
BEATS = ("AW", "AR", "W", "B", "R", "D")
# TileLink pages 0 and 8 lead to AXI page 10, page 8 for Gets alone. Page 9 is in no region.
REGIONS, PAGES, BAD = ("0 1 10 gpah", "8 1 10 g---"), ("10 1 good",), ("10018",)
STEPS, SECONDS = 200, 20
# Answers straight behind A lines and behind the answers to these, and how often each stands there at least in 300 scripts.
WANTED = {
    "= more behind A": 1000,
    "= accepted behind A": 1000,
    "= noclient behind A": 300,
    "= refused behind A": 300,
    "= notready behind A": 300,
    "= noclient behind = more": 100,
    "= noclient behind = accepted": 100,
}
ENDED = re.compile(r"= judged (\d+) wrong 0 outstanding \d+ open \d+ (compared \d+ of \d+)\n")


@dataclass
class Client:
    level: str
    beats: tuple = ()  # of the request that it offers
    taken: int = 0  # how many of them were
    busy: set = field(default_factory=set)  # the sources of what isn't replied


class Hostile:
    """Clients that offer requests in a random schedule, and between their beats what can't be taken."""

    def __init__(self, bridge, rng):
        self.bridge, self.rng, self.unperformed = bridge, rng, []
        self.clients = [Client(rng.choice("lhhh")) for _ in range(rng.choice((1, 2, 3, 8)))]
        self.ids, self.largest = rng.choice((1, 2, 4)), rng.choice((4, 5, 6))
        longest, width = rng.choice(((1, 8), (4, 8), (16, 8), (2, 4), (8, 4)))
        limits = f"{rng.randrange(1, 4)} {self.ids} {rng.randrange(1, 5)} {longest} {self.largest}"
        bridge.setup(f"{len(self.clients)} {limits} {''.join(it.level for it in self.clients)} {width}", REGIONS, PAGES, BAD)
        self.setup = list(bridge.script)

    def run(self):
        """Runs a script. What it prints stands in the bridge's trace."""
        moves = [self.offer] * 10 + [self.perform] * 5 + [self.pump, self.answer_b, self.answer_r, self.take] * 3
        moves += [self.take_of_nobody] * 3 + [self.offer_of_nobody, self.offer_what_is_wrong, self.ask]
        for _ in range(STEPS):
            self.rng.choice(moves)()
            if self.rng.random() < 0.005:
                self.drain()

    def one(self):
        """A client, and its number."""
        number = self.rng.randrange(len(self.clients))
        return number, self.clients[number]

    def nobody(self):
        """The number of a client that isn't there."""
        return self.rng.choice((len(self.clients), 9, 255))

    def request(self, client):
        """The beats of a request that its level allows, under a source that is free; of TL-UH two of three have several beats."""
        source = self.rng.choice([it for it in range(16) if it not in client.busy])
        least = 2 if client.level == "h" and self.rng.randrange(3) else 1
        while True:
            beats = random_request(self.rng, source)
            first = beats[0]
            allowed = client.level == "h" or first.opcode in (0, 1, GET) and first.size <= 3
            if allowed and first.size <= self.largest and len(beats) >= least:
                return tuple(beats)

    def offer(self):
        number, client = self.one()
        client.beats = client.beats or self.request(client)
        beat = client.beats[client.taken]
        kind = self.bridge.offer(number, beat).kind
        last = client.taken + 1 == len(client.beats)
        assert kind == ("accepted" if last else "more") or last and kind == "notready", f"a legal beat was answered {kind}"
        if kind == "more":
            client.taken += 1
        if kind == "accepted":
            client.busy.add(beat.source)
            client.beats, client.taken = (), 0

    def offer_of_nobody(self):
        kind = self.bridge.offer(self.nobody(), random_request(self.rng, 0)[0]).kind
        assert kind == "noclient", f"a beat of a client that isn't there was answered {kind}"

    def offer_what_is_wrong(self):
        """A beat that breaks a rule: one of another message within one, of a busy source, or of an opcode that isn't there."""
        number, client = self.one()
        beat = client.beats[client.taken] if client.taken else self.request(client)[0]
        wrong = [{"opcode": 6}, {"opcode": 255}, {"param": 7}]
        if client.taken:
            wrong += [{"source": beat.source ^ 1}, {"address": beat.address ^ 64}, {"opcode": GET}]
        else:
            wrong += [{"source": it} for it in sorted(client.busy)]
        kind = self.bridge.offer(number, replace(beat, **self.rng.choice(wrong))).kind
        assert kind == "refused", f"a beat that breaks a rule was answered {kind}"

    def pump(self):
        burst = self.bridge.pump()
        if burst:
            self.unperformed += [(burst.serial, beat) for beat in range(burst.len + 1)]

    def perform(self):
        if self.unperformed:
            self.bridge.perform(*self.unperformed.pop(self.rng.randrange(len(self.unperformed))))

    def answer_b(self):
        self.bridge.answer_b(self.rng.randrange(self.ids))

    def answer_r(self):
        self.bridge.answer_r(self.rng.randrange(self.ids))

    def take(self):
        number, client = self.one()
        reply = self.bridge.take(number)
        if reply:
            client.busy.remove(reply.beats[0].source)

    def take_of_nobody(self):
        self.bridge.take(self.nobody())

    def ask(self):
        self.rng.choice((self.bridge.work, lambda: self.bridge.byte(0x10000), lambda: self.bridge.perform(2**64 - 1, 0)))()

    def drain(self):
        self.bridge.drain()
        self.unperformed = []


def trace_of(program, rng):
    """The set-up of a random script, and its trace up to some line."""
    with Interactive([program, "run"], SECONDS) as bridge:
        hostile = Hostile(bridge, rng)
        hostile.run()
    ends = [at for at, line in enumerate(bridge.trace, 1) if not line.startswith("A ")]
    return hostile.setup, bridge.trace[: rng.choice(ends)]


def behind(trace):
    """Each answer straight behind an A line, or behind one that says that the beat was taken."""
    for line, after in zip(trace, trace[1:]):
        words, answer = line.split(), after.split()[:2]
        if answer[0] == "=" and (words[0] == "A" or words[1] in TAKEN):
            yield f"{' '.join(answer)} behind {words[0] if words[0] == 'A' else ' '.join(words[:2])}"


def taken_in(trace):
    """How many beats a trace says that were taken."""
    return sum(it.split()[0] in BEATS for it in trace) + sum(
        after.split()[1] in TAKEN for line, after in zip(trace, trace[1:]) if line.startswith("A ")
    )


def judged(program, lines):
    """What the scoreboard gives of lines, and its text."""
    ran = subprocess.run([program], input="\n".join(lines).encode(), capture_output=True, timeout=SECONDS, check=False)
    return ran, ran.stdout.decode()


def wrong(program, lines, beats):
    """Tells in one line how the scoreboard finds something wrong, judges another number of beats, or compares another number of bytes,
    or nothing."""
    ran, text = judged(program, lines)
    ended = ENDED.fullmatch(text)
    if ran.returncode or ran.stderr or not ended:
        return f"status {ran.returncode}, {ran.stderr.decode()!r}, {text[:200]!r}"
    if int(ended[1]) != beats:
        return f"{ended[1]} beats are judged, and {beats} were taken"
    wanted = compared(lines, text)
    return None if ended[2] == wanted else f"{ended[2]}, not {wanted}"


# ---- lanes that nobody knows


def with_some_unknown(rng, lines):
    """Lines with x and z in lanes of the payload of some beats, of each channel as often, or in a lane of each request."""
    channels = [[at for at, line in enumerate(lines) if line.split()[0] == channel] for channel in PAYLOADS]
    requests, channels, lines = channels[0], [it for it in channels if it], list(lines)
    some = {rng.choice(rng.choice(channels)) for _ in range(rng.choice((1, 4, 30)) if channels else 0)}
    for at in rng.choice((some, some, requests)):
        lines[at] = with_unknown(rng, lines[at], rng.sample(range(8), rng.choice((1, 2, 8))))
    return lines


class Reads:
    """The bursts of a right observation that were not read whole."""

    def __init__(self, width):
        self.width, self.side = width, Side()

    def take(self, words):
        """Takes a line; of an R line it gives the lanes of its transfer."""
        if words[:2] == ["=", "drained"]:
            self.side = Side()
        elif words[0] == "AR":
            self.side.open(Burst(int(words[1]), int(words[2], 16), int(words[3]), int(words[4])))
        if words[0] != "R":
            return set()
        burst = self.side.oldest(int(words[1]))
        lanes = lanes_of_mask(burst.lanes(self.width))
        burst.came += 1
        if burst.came > burst.len:
            self.side.close(burst.id)
        return lanes


def expected(words, due):
    """The beat of a D line as it could have been shown: with the lanes of the one that is due where nobody knows its own."""
    bits = sum(0xFF << 8 * lane for lane in lanes_in(words))
    digits = re.sub("[xXzZ]", "0", words[7])
    return " ".join([*words[:7], f"{int(digits, 16) & ~bits | due.payload & bits:016x}", words[8]])


def told_of(lines, counts, width):
    """The lines that are told of a right observation of which nobody knows some lanes, where this was followed of it."""
    reads = Reads(width)
    for number, (line, after) in enumerate(zip(lines, [*lines[1:], "="]), 1):
        words = line.split()
        transfer, lanes = reads.take(words), lanes_in(words)
        if words[0] == "A" and after.split()[1] in TAKEN and lanes & given_lanes(int(words[2]), int(words[7], 16)):
            yield f"= wrong {number} request 17 X"
        elif words[0] == "W" and lanes & lanes_of_mask(int(words[2], 16)) or words[0] == "R" and lanes & transfer:
            yield f"= wrong {number} axi 13 X"
        elif words[0] == "D" and lanes & counts.looked[number]:
            yield f"= wrong {number} reply 8 X expected {expected(words, counts.due[number])}"


def wrong_of_unknown(program, lines, changed):
    """Tells in one line how the scoreboard says something else of a right trace, changed so that nobody knows some lanes, than what they
    tell; or nothing."""
    counts = Counts(changed, "")
    wanted = [*told_of(changed, counts, counts.setup.width)]
    ending = rf" wrong {len(wanted)} \1 compared {counts.compared} of {counts.told}"
    found = re.sub(r" wrong 0 (.*) compared .*", ending, judged(program, lines)[1])
    ran, text = judged(program, changed)
    if text == "".join(f"{line}\n" for line in wanted) + found and ran.returncode == bool(wanted):
        return None
    differing = next((pair for pair in zip([*wanted, *found.splitlines()], text.splitlines()) if pair[0] != pair[1]), None)
    return f"status {ran.returncode}, {ran.stderr.decode()!r}; wanted and said: {differing}"


def cases(given):
    counts = Counter()
    for number in range(given.scripts):
        rng = random.Random(f"{given.seed} {number}")
        setup, trace = trace_of(given.tlbridge, rng)
        counts.update(behind(trace))
        for profile in PROFILES:
            lines = [*setup, f"profile {profile}", *trace]
            name = f"seed {given.seed}, script {number}, profile {profile}"
            yield name, wrong(given.tlscore, lines, taken_in(trace))
            changed = [*lines[: -len(trace)], *with_some_unknown(rng, trace)]
            yield f"{name}, of which nobody knows some lanes", wrong_of_unknown(given.tlscore, lines, changed)
    for what, least in WANTED.items():
        count, least = counts[what], least * given.scripts // 300
        yield f"seed {given.seed}: {what}", None if count >= least else f"{count} times, not {least}"


if __name__ == "__main__":
    words = asked(__doc__, "tlscore", "tlbridge", by_lot=True)
    words.add_argument("scripts", nargs="?", type=int, default=300)
    sys.exit(told(cases(words.parse_args())))
