"""Observations of bridges, right and wrong, beside the program that judges them. Which lines are wrong, and of which kind, is
what a search over whole lists says (observed.py): of the traces of this project's bridge, of these with lines changed, and of
beats by lot.

    python3 tests/scoreboard.py TLSCORE TLBRIDGE [MUTATED] [BEATS] [--seed WORD]
"""

import random
import re
import subprocess
import sys

from compared import Counts
from ends import TOP, asked, told
from model import GET, LOGICAL, PUT_PARTIAL, ABeat, DBeat, full_mask, setup_of
from observed import WITHDRAWN, Observation
from unknown import DIGITS, PAYLOADS, is_unclear, known, lanes_in, with_unknown

KINDS = {"A": "request", "D": "reply", "AW": "axi", "W": "axi", "B": "axi", "AR": "axi", "R": "axi"}
FIELDS = {"A": 9, "D": 8, "AW": 5, "AR": 5, "W": 3, "B": 2, "R": 4}
HEX = {"A": (6, 7, 8), "D": (7,), "AW": (2,), "AR": (2,), "W": (1, 2), "B": (), "R": (2,)}
RESPONSES = ("OKAY", "EXOKAY", "SLVERR", "DECERR")


def taken(board, words):
    """Has an observation take the beat of a line, and answers whether it can be right."""
    if is_unclear(words):
        board.is_unclear()
        return False
    return board.is_right(*beat_of(known(words)), lanes_in(words))


def beat_of(words):
    """Channel, beat and client of a line."""
    channel, rest = words[0], words[1:]
    values = [int(it, 16) if at + 1 in HEX[channel] else it if it in RESPONSES else int(it) for at, it in enumerate(rest)]
    if channel == "A":
        return channel, ABeat(*values[1:]), values[0]
    if channel == "D":
        return channel, DBeat(*values), values[0]
    return channel, values, None


def kind_of(board, words):
    """The kind of a beat that was found wrong, and whether all that is wrong is that nobody knows some of it."""
    if words[0] in "AD" and int(words[1]) >= board.setup.clients:
        return "client", False
    return KINDS[words[0]], board.is_unknown


def counts_in(lines, wrong):
    """How many bytes are compared, and how many told, where these lines are wrong."""
    names = ((number, kind, {"request": 17, "axi": 13}.get(kind, 8) if lacks else 0) for number, kind, lacks in wrong)
    return Counts(lines, "\n".join(f"= wrong {number} {kind} {rule}" for number, kind, rule in names))


class Judging:
    """Takes the lines behind a set-up one after another, and keeps which of them are wrong and of which kind."""

    def __init__(self, lines):
        said = setup_of(lines)
        self.board, self.wrong, self.held, self.first = Observation(said.setup, said.levels), [], None, said.count

    def take(self, number, words):
        """A line that isn't empty, and no comment."""
        answer = words[1] if words[0] == "=" else None
        # Only the line straight behind an A line may withdraw it, and any other settles it.
        if answer in WITHDRAWN:
            self.held = None
        self.settle()
        if answer == "drained":
            self.board.drained()
        elif answer == "reset":
            self.board.reset()
        elif words[0] in KINDS:
            self.held = number, words
            if words[0] != "A" or is_unclear(words):
                self.settle()

    def settle(self):
        """The beat that was held came."""
        if self.held:
            number, words = self.held
            self.held = None
            if not taken(self.board, words):
                self.wrong.append((number, *kind_of(self.board, words)))

    def ended(self, lines):
        """Which lines are wrong and of which kind, and the counts of the last line."""
        self.settle()
        counts, board = counts_in(lines, self.wrong), self.board
        return self.wrong, (board.taken, len(self.wrong), board.outstanding(), board.open(), counts.compared, counts.told)


def judged(lines):
    """The same, of all lines of an input."""
    judging = Judging(lines)
    for number, line in enumerate(lines[judging.first :], judging.first + 1):
        words = line.split()
        if words and not words[0].startswith("#"):
            judging.take(number, words)
    return judging.ended(lines)


WRONG = re.compile(r"= wrong (\d+) (request|reply|axi|client) \d+ (X\b)?")
ENDED = re.compile(r"= judged (\d+) wrong (\d+) outstanding (\d+) open (\d+) compared (\d+) of (\d+)")


def answered(program, lines):
    """The same, as the program says it."""
    ran = subprocess.run([program], input="\n".join(lines).encode(), capture_output=True, timeout=600, check=False)
    text = ran.stdout.decode()
    wrong = [(int(it[1]), it[2], bool(it[3])) for it in WRONG.finditer(text)]
    ended = ENDED.search(text)
    return wrong, tuple(map(int, ended.groups())) if ended else ran.stderr.decode()


# ---- changed traces


def changed(rng, lines, first):
    """Lines with one of their beats changed, left out, written twice or moved, or said to come after a drain or a reset, or with an
    answer between two of them, or with some that nobody knows whole."""
    lines = list(lines)
    places = [at for at in range(first, len(lines)) if lines[at].split()[:1] and lines[at].split()[0] in KINDS]
    at = rng.choice(places)
    kind = rng.randrange(10)
    if kind >= 8:
        for at in rng.sample(places, min(len(places), rng.randrange(1, 8))):
            lines[at] = " ".join(lacking(rng, lines[at].split()))
    elif kind == 6:
        lines.insert(rng.randrange(first, len(lines) + 1), f"= {rng.choice((*WITHDRAWN, 'more', 'accepted 0'))}")
    elif kind == 0:
        del lines[at]
    elif kind == 1:
        lines.insert(at, lines[at])
    elif kind in (3, 7):
        lines.insert(at, "= drained 1" if kind == 3 else "= reset")
    elif kind == 2:
        line = lines.pop(at)
        lines.insert(min(len(lines), at + rng.randrange(1, 6)), line)
    else:
        words = lines[at].split()
        place = rng.randrange(1, len(words))
        words[place] = altered(rng, words[0], place, words[place])
        lines[at] = " ".join(words)
    return lines


def lacking(rng, words):
    """The words of a beat of which nobody knows some lanes, or seldom another field."""
    places = [at for at in range(1, len(words)) if at != PAYLOADS.get(words[0]) and (at > 1 or words[0] not in "AD")]
    if words[0] in PAYLOADS and rng.random() < 0.9:
        return with_unknown(rng, " ".join(words), rng.sample(range(8), rng.choice((1, 1, 2, 8)))).split()
    at = rng.choice(places)
    digits = list(words[at] if words[at] not in RESPONSES else "0")
    digits[rng.randrange(len(digits))] = rng.choice(DIGITS)
    return [*words[:at], "".join(digits), *words[at + 1 :]]


def altered(rng, channel, place, word):
    """Another value of a field."""
    if word in RESPONSES:
        return rng.choice([it for it in RESPONSES if it != word])
    if place in HEX[channel]:
        return f"{int(word, 16) ^ 1 << rng.randrange(4 * len(word)):x}"
    if (channel, place) in (("A", 9), ("D", 6), ("D", 8), ("W", 3), ("R", 4)):
        return str(1 - int(word))
    return str(rng.choice([it for it in (*range(8), int(word) ^ 1 << rng.randrange(8)) if it != int(word) and it < 256]))


# ---- beats by lot


class Lot:
    """Draws beats, most of them right, and judges them as they come."""

    def __init__(self, rng):
        self.rng = rng
        self.set_up = ["config 3 4 4 2 16 6 hlh", "region 0 2 10 gpah", "region 8 1 10 g---", "page 10 1 good", "page 11 1 slverr", "bad 10018"]
        self.drawn = []
        self.judging = Judging(self.set_up)
        self.board = self.judging.board

    def draw(self):
        """One line more, which is judged."""
        self.drawn.append(self.line())
        self.judging.take(len(self.set_up) + len(self.drawn), self.drawn[-1].split())
        self.judging.settle()

    def line(self):
        rng = self.rng
        if rng.random() < 0.002:
            return "= drained 9"
        if rng.random() < 0.002:
            return "= reset"
        kind = rng.randrange(100)
        line = self.a() if kind < 35 else self.d() if kind < 65 else self.axi()
        if rng.random() < 0.03:
            words = line.split()
            place = rng.randrange(1, len(words))
            words[place] = altered(rng, words[0], place, words[place])
            line = " ".join(words)
        if rng.random() < 0.03:
            line = " ".join(lacking(rng, line.split()))
        return line

    def a(self):
        rng = self.rng
        client = rng.randrange(3)
        message = self.board.clients[client].message
        if message:
            first = message[0]
            opcode, param, size, source, address = first.opcode, first.param, first.size, first.source, first.address
        else:
            opcode = rng.choice((0, 1, GET)) if client == 1 else rng.randrange(6)
            size = rng.randrange(4) if opcode in (LOGICAL - 1, LOGICAL) or client == 1 else rng.choice((0, 1, 2, 3, 3, 3, 4, 5, 6))
            param = rng.randrange((1, 1, 5, 4, 1, 2)[opcode])
            source = rng.randrange(6)
            address = rng.choice((0, 0, 0, 0x1000, 0x8000, 0x9000)) + rng.randrange(128 >> size) * 2**size
        full = full_mask(size, address)
        mask = full & rng.getrandbits(8) if opcode == PUT_PARTIAL else full
        corrupt = int(opcode < GET and rng.random() < 0.02)
        return f"A {client} {opcode} {param} {size} {source} {address:x} {mask:x} {rng.getrandbits(64):x} {corrupt}"

    def d(self):
        rng = self.rng
        clients = [at for at, it in enumerate(self.board.clients) if next(iter(it.readings)).due]
        if not clients:
            return f"D {rng.randrange(3)} {rng.randrange(3)} 0 3 {rng.randrange(6)} 0 0 0"
        client = rng.choice(clients)
        told = next(iter(self.board.clients[client].readings))
        number = rng.choice(sorted(told.open()))
        it = self.board.replies[number][told.came]
        return f"D {client} {it.opcode} {it.param} {it.size} {it.source} {it.denied} {it.payload:x} {it.corrupt}"

    def axi(self):
        rng, port = self.rng, self.board.port
        lacks, whole = port.to_fill(), [it for it in port.writes.bursts() if it.came > it.len]
        kind = rng.randrange(5)
        if kind == 0 or kind == 1 and lacks is None:
            size = rng.randrange(4)
            burst = f"{rng.randrange(4)} {rng.randrange(8192):x} {rng.choice((0, 0, 1, 3, 15))} {size} 1"
            return rng.choice(("AW", "AR")) + " " + burst
        if kind == 1:
            lanes = lacks.lanes(8) & rng.getrandbits(8)
            return f"W {rng.getrandbits(64):x} {lanes:x} {int(lacks.is_last())}"
        if kind == 2 and whole:
            return f"B {rng.choice(whole).id} {rng.choice(('OKAY', 'OKAY', 'SLVERR', 'DECERR'))}"
        if port.reads.count:
            first = port.reads.oldest(rng.choice(port.reads.bursts()).id)
            return f"R {first.id} {rng.getrandbits(64):x} {rng.choice(('OKAY', 'SLVERR'))} {int(first.is_last())}"
        return f"B {rng.randrange(5)} OKAY"


def differs(wanted, got):
    """The first line that one of them finds wrong and the other doesn't, or the last lines; nothing where they are the same."""
    first = min(set(wanted[0]) ^ set(got[0]), default=None)
    return f"line {first[0]}, {first[1]}" if first else None if wanted == got else f"{wanted[1]} and {got[1]}"


def cases(given):
    print(f"seed {given.seed}")
    rng, traces, found = random.Random(given.seed), observations(), 0
    for name, lines in traces.items():
        wanted = judged(lines)
        why = f"a right trace is found wrong at line {wanted[0][0][0]}" if wanted[0] else None
        yield name, differs(wanted, answered(given.tlscore, lines)) or why
    for _ in range(given.mutated):
        name = rng.choice(sorted(traces))
        lines = changed(rng, traces[name], setup_of(traces[name]).count)
        wanted = judged(lines)
        found += bool(wanted[0])
        yield f"{name}, changed", differs(wanted, answered(given.tlscore, lines))
    print(f"{found} of {given.mutated} changed traces are wrong")
    lot = Lot(rng)
    for _ in range(given.beats):
        lot.draw()
    lines = lot.set_up + lot.drawn
    wrong, counts = wanted = lot.judging.ended(lines)
    yield "beats by lot", differs(wanted, answered(given.tlscore, lines))
    print(f"{len(wrong)} of {counts[0]} beats by lot are wrong")


def observations():
    """The stored traces that `run` prints, each behind its set-up."""
    found = {}
    for script in sorted((TOP / "examples").glob("*.script")):
        trace = script.with_suffix(".trace").read_text().splitlines()
        lines = script.read_text().splitlines()
        if any(it.startswith(("= accepted", "= refused")) for it in trace):
            found[script.stem] = [*lines[: setup_of(lines).count], *trace]
    return found


if __name__ == "__main__":
    words = asked(__doc__, "tlscore", "tlbridge", by_lot=True)
    words.add_argument("mutated", nargs="?", type=int, default=1000)
    words.add_argument("beats", nargs="?", type=int, default=1_000_000)
    sys.exit(told(cases(words.parse_args())))
