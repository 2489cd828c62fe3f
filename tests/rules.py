"""The assertions of interfaces/systemverilog/zuldegei_rules.sv beside tlscore: beats by lot on both ports, legal and near to it, several
in a clock, some of which wait, and resets between. The rule that the assertions tell of each beat has to be tlscore's, or none for both,
and each rule has to be broken so often. Lots are drawn beside plain models of the tables of docs/RULES.md, which go on behind a wrong beat
as docs/SCOREBOARD.md says, and replies tell what the set-up's pages let them tell, so that nothing is wrong by the memory alone. AXI4
ports of 128 bits and more, which tlscore doesn't take, are judged by the plain model. Then by hand what is offered, waits and changes, and
beats with x. The labels are compared with the proved names, and beside the testbench of examples/testbench/rtl the assertions tell what
tlscore finds. One shape of the ports is played by Verilator too, and yosys reads the file. What isn't installed of these is named.

    python3 tests/rules.py TLSCORE [--seed WORD] [--clocks N] [--rounds N]
"""

import argparse
import random
import re
import subprocess
import sys
import tempfile
from collections import Counter, deque
from dataclasses import dataclass, field
from pathlib import Path
from typing import Deque, Dict, Iterator, List, NamedTuple, Optional, Tuple

from beats import Beats
from ends import TOP, Case, asked, is_there, started, told
from model import INTENT, ABeat, beats_of
from port_models import AXI_RULES, NUMBERS, AxiPort, Port, crosses
from simulators import by_icarus, by_verilator

RULES, RTL = TOP / "interfaces/systemverilog/zuldegei_rules.sv", TOP / "examples/testbench/rtl"
LEAST = 50
REPLY_RULES = ("UNASKED", "INTERLEAVED", "OPCODE", "SIZE", "DENIED", "CORRUPT")
RESPONSES = ("OKAY", "EXOKAY", "SLVERR", "DECERR")
EARLY = 256  # of W beats that wait for their AW, by profile tilelink
REGION, GOOD = 0x10000, 0xE000  # the bytes of the set-up's region, and those of its good pages, from 0 on; the others answer SLVERR
# The fields of each channel with their bits, in the order in which tests/rules.sv has them, and beats of a clock count. SOURCE, ID and BUS are
# those of the port.
FIELDS = {
    "A": "opcode:3 param:3 size:4 source:SOURCE address:32 mask:8 corrupt:1",
    "AW": "id:ID addr:32 len:8 size:3 burst:2",
    "AR": "id:ID addr:32 len:8 size:3 burst:2",
    "W": "data:DATA strb:BUS last:1",
    "B": "id:ID resp:2",
    "R": "id:ID data:DATA resp:2 last:1",
    "D": "opcode:3 param:2 size:4 source:SOURCE denied:1 data:64 corrupt:1",
}
TOLD = re.compile(r"zuldegei: (\w+) (?:(\d+) )?(\w+) at (\d+) \(\S*?(\w+)\)")
# Which channel a label is of, where it doesn't begin with its name.
CHANNELS = {"W_WITHOUT_AW": "W", "STROBE": "W", "WLAST": "W", "EARLY_STROBE": "AW", "EARLY_WLAST": "AW", "B_WITHOUT_WRITE": "B",
            "R_WITHOUT_READ": "R", "RLAST": "R"}  # fmt: skip
Wires = Tuple[int, ...]  # a beat's fields, in the order of FIELDS


class Shape(NamedTuple):
    """The ports of a case."""

    is_uh: int = 1
    max_size: int = 12
    is_tilelink: int = 0
    errors_any: int = 0
    source_bits: int = 8
    id_bits: int = 8
    ids: int = 4
    depth: int = 4
    bus_bytes: int = 8
    stays: int = 0

    def setup(self) -> str:
        config = f"config 1 1 {self.ids} {self.depth} 16 {self.max_size} {'lh'[self.is_uh]} {self.bus_bytes}"
        profile = "profile tilelink\n" * self.is_tilelink + "errors any\n" * self.errors_any
        return f"{config}\nregion 0 16 10 gpah\npage 10 14 good\npage 1e 2 slverr\n{profile}"

    def bits(self, name: str) -> int:
        known = {"SOURCE": self.source_bits, "ID": self.id_bits, "BUS": self.bus_bytes, "DATA": 8 * self.bus_bytes}
        return known.get(name) or int(name)

    def widths(self, channel: str) -> List[int]:
        return [self.bits(it.partition(":")[2]) for it in FIELDS[channel].split()]


SHAPES = (
    Shape(),
    Shape(0, 3, ids=3, depth=1, id_bits=2, source_bits=4),
    Shape(1, 6, 1, ids=16, depth=2, id_bits=4, bus_bytes=4, source_bits=3),
    Shape(1, 5, 1, 1, ids=1, depth=4, id_bits=1),
    Shape(0, 12, 1, ids=5, depth=3, bus_bytes=4),
    Shape(1, 12, 1, 1, ids=2, depth=1, id_bits=3, source_bits=5),
    Shape(1, 8, ids=64, depth=8, bus_bytes=4),
    Shape(1, 4, ids=1, depth=1, id_bits=1, source_bits=2),
)
WIDE = (Shape(ids=4, depth=2, bus_bytes=16), Shape(ids=2, depth=1, bus_bytes=32, is_tilelink=1), Shape(ids=3, depth=2, bus_bytes=128))


# ---- plain models


class Due(NamedTuple):
    """What each beat of a reply has to show."""

    source: int
    opcode: int
    size: int
    denied: int
    corrupt: int

    def beats(self) -> int:
        return beats_of(self.size, self.opcode == 1)


def due_to(message: List[ABeat]) -> Due:
    """The reply to a request, by the set-up's region and pages (docs/RULES.md, "The bridge between both sides")."""
    first = message[0]
    opcode = 0 if first.opcode < 2 else 2 if first.opcode == INTENT else 1
    is_failing = first.opcode != INTENT and not first.address < GOOD
    denied = first.address >= REGION or any(it.corrupt for it in message) or is_failing and opcode == 0
    return Due(first.source, opcode, first.size, int(denied), int(opcode == 1 and (denied or is_failing)))


@dataclass
class Replies:
    """The replies of a client that are due, by their sources, the one that has begun with the beats that are left, and by `errors any` the
    message that has begun, where its reply may come."""

    due: Dict[int, Due] = field(default_factory=dict)
    begun: Optional[Due] = None
    left: int = 0
    early: Optional[Due] = None

    def next(self, source: int) -> Optional[Due]:
        """The reply whose next beat one of this source may be."""
        early = self.early if self.early and self.early.source == source else None
        return self.begun or self.due.get(source) or early

    def take(self, source: int) -> None:
        """A beat of a source came, whatever it shows."""
        if self.begun and self.begun.source != source and source in self.due:
            self.begun = None  # it ended early
        if not self.begun and source in self.due:
            self.begun = self.due.pop(source)
            self.left = self.begun.beats()
        elif not self.begun and self.early and self.early.source == source:
            self.early = None
        if self.begun and self.begun.source == source:
            self.left -= 1
            self.begun = self.begun if self.left else None


@dataclass
class EarlyPort:
    """An AXI4 port at which W beats may wait for their AW."""

    port: AxiPort
    room: int
    early: Deque[Tuple[int, int, int]] = field(default_factory=deque)

    def w(self, *beat: int) -> Optional[str]:
        if self.port.to_fill() or len(self.early) >= self.room:
            return self.port.w(*beat)
        self.early.append(beat)
        return None

    def aw(self, *beat: int) -> Optional[str]:
        broken = self.port.address(self.port.writes, *beat)
        while self.early and self.port.to_fill():
            of_data = self.port.w(*self.early.popleft())
            broken = broken or of_data
        return broken


# ---- lots


class Lot:
    """Draws beats near what the ports of a shape take, and has plain models take them."""

    def __init__(self, rng: random.Random, shape: Shape):
        self.rng, self.shape = rng, shape
        self.reset()

    def reset(self) -> None:
        shape = self.shape
        self.client = Port("lh"[shape.is_uh], shape.max_size)
        self.replies = Replies()
        self.axi = AxiPort(shape.ids, shape.depth, shape.bus_bytes)
        self.port = EarlyPort(self.axi, EARLY if shape.is_tilelink else 0)

    def is_rare(self, one_in: int) -> bool:
        return self.rng.randrange(one_in) == 0

    def fitting(self, channel: str, *fields: int) -> Wires:
        """A beat with as many bits of each field as there are wires."""
        return tuple(it & (1 << bits) - 1 for it, bits in zip(fields, self.shape.widths(channel)))

    def a(self) -> Optional[Wires]:
        drawn, replies = Beats(self.rng, self.client), self.replies
        message = self.client.message
        beat = drawn.draw() if self.is_rare(4) else drawn.later(message[0]) if message else drawn.first()
        address = beat.address if message else beat.address & 0x8001FFFF
        fields = self.fitting("A", beat.opcode, beat.param, beat.size, beat.source, address, beat.mask, beat.corrupt)
        beat = ABeat(*fields[:6], 0, fields[6])
        begun = replies.begun if not self.shape.is_tilelink else None
        self.client.busy = {*replies.due, *([begun.source] if begun else [])}
        was = [*message, beat]
        answer = self.client.take(beat)
        if answer == "WHOLE" and not (self.shape.errors_any and len(was) > 1 and not replies.early):
            replies.due[beat.source] = due_to(was)
        if answer == "WHOLE":
            replies.early = None
        if answer == "MORE" and self.shape.errors_any and len(was) == 1:
            replies.early = Due(beat.source, 0, beat.size, 0, 0)
        return fields

    def d(self) -> Optional[Wires]:
        rng, replies = self.rng, self.replies
        sources = [*replies.due] + ([replies.early.source] if replies.early else [])
        source = replies.begun.source if replies.begun else rng.choice(sources) if sources else -1
        if source < 0 and not self.is_rare(8):
            return None
        if source < 0 or self.is_rare(6 if replies.begun else 12):
            source = rng.choice(sources or [0]) if self.is_rare(2) else rng.getrandbits(self.shape.source_bits)
        due = replies.next(source)
        goes_on = bool(replies.begun)
        if replies.begun and replies.begun.source != source:  # what it shows is of its own reply
            due, goes_on = replies.due.get(source, due), False
        beat = self.shown(due or Due(source, rng.randrange(3), rng.randrange(4), 0, 0), source, goes_on)
        replies.take(source)
        return beat

    def shown(self, due: Due, source: int, goes_on: bool) -> Wires:
        """A beat of a reply, as it is due or near it. What only the memory tells is as it is due."""
        fields = {"opcode": due.opcode, "param": 0, "size": due.size, "denied": due.denied, "corrupt": due.corrupt}
        by_itself = {"corrupt": 1 - due.corrupt} if due.opcode != 1 or due.denied else {}
        changes = [{"opcode": self.rng.randrange(8)}, {"param": self.rng.randrange(4)}, {"size": self.rng.randrange(16)}, by_itself]
        if goes_on:
            changes += [{"denied": 1 - due.denied, "corrupt": int(due.opcode == 1)}] * 4
        for _ in range(self.is_rare(4 if goes_on else 8) + self.is_rare(48)):
            fields.update(self.rng.choice(changes))
        return (fields["opcode"], fields["param"], fields["size"], source, fields["denied"], 0, fields["corrupt"])

    def address(self, channel: str) -> Optional[Wires]:
        rng, port = self.rng, self.axi
        size = rng.randrange(self.shape.bus_bytes.bit_length())
        at = rng.choice((0xFFFFF000, 0, 0x10000)) + rng.randrange(4096)
        length = rng.getrandbits(8) if self.is_rare(60) else rng.randrange(4)
        side = port.writes if channel == "AW" else port.reads
        free = [it for it in range(port.ids) if side.depth(it) < port.depth]
        if not self.is_rare(1 if free else 12):
            return None
        beat = [rng.choice(free or range(port.ids)), at, 0 if crosses(at, length, size) else length, size, 1]
        spoils = ((3, rng.randrange(8)), (2, rng.getrandbits(8)), (4, rng.randrange(4)), (1, at | 0xFF8), (0, rng.getrandbits(8)))
        for _ in range(self.is_rare(6) + self.is_rare(24)):
            place, value = rng.choice((*spoils, (0, rng.randrange(port.ids))))
            beat[place] = value
        return self.fitting(channel, *beat)

    def aw(self) -> Optional[Wires]:
        beat = None if self.axi.lacking and not self.is_rare(4) else self.address("AW")  # data have to come along
        self.broken = self.port.aw(*beat) if beat else None
        return beat

    def ar(self) -> Optional[Wires]:
        beat = None if self.axi.reads.count and not self.is_rare(3) else self.address("AR")
        self.broken = self.axi.address(self.axi.reads, *beat) if beat else None
        return beat

    def w(self) -> Optional[Wires]:
        rng, burst, bus = self.rng, self.axi.to_fill(), self.shape.bus_bytes
        if burst is None and not self.is_rare(3 if self.is_flooded else 10):
            return None
        lanes = burst.lanes(bus) if burst else rng.getrandbits(bus)
        strobes = lanes if self.is_rare(2) else lanes & rng.getrandbits(bus)
        strobes ^= self.is_rare(16) << rng.randrange(bus)
        last = int((burst.is_last() if burst else self.is_rare(3)) != self.is_rare(16))
        self.broken = self.port.w(0, strobes, last)
        return 0, strobes, last

    is_flooded = False

    def id_of(self, side: str) -> int:
        open_ids = [*getattr(self.axi, side).of_id]
        if open_ids and not self.is_rare(16):
            return self.rng.choice(open_ids)
        return self.rng.getrandbits(self.shape.id_bits) if self.is_rare(2) else self.rng.randrange(self.axi.ids)

    def b(self) -> Optional[Wires]:
        id = self.id_of("writes")
        burst = self.axi.writes.oldest(id)
        if (burst is None or burst.came <= burst.len) and not self.is_rare(12):
            return None
        resp = 1 if self.is_rare(16) else self.rng.choice((0, 0, 2, 3))
        self.broken = self.axi.b(id, RESPONSES[resp])
        return id, resp

    def r(self) -> Optional[Wires]:
        id = self.id_of("reads")
        burst = self.axi.reads.oldest(id)
        if burst is None and not self.is_rare(5):
            return None
        last = int((burst is not None and burst.is_last()) != self.is_rare(16))
        resp = 1 if self.is_rare(16) else self.rng.choice((0, 0, 2, 3))
        self.broken = self.axi.r(id, 0, RESPONSES[resp], last)
        return id, 0, resp, last

    def beat(self, channel: str) -> Tuple[Optional[Wires], Optional[str]]:
        """A beat of a channel, and on the AXI4 port the rule that it breaks by the plain model."""
        self.broken = None
        beat = getattr(self, channel.lower())()
        return beat, self.broken


class Clock(NamedTuple):
    """The beats that are offered in a clock, in order; whether they pass; and the rules that the plain model finds on the AXI4 port."""

    beats: Dict[str, Wires] = {}
    passes: bool = True
    reset: bool = False
    broken: Dict[str, str] = {}


def clocks_of(rng: random.Random, shape: Shape, many: int) -> List[Clock]:
    lot, clocks = Lot(rng, shape), [Clock(reset=True)]
    while len(clocks) < many:
        if lot.is_rare(400):
            clocks += [Clock(reset=True)] * rng.randrange(1, 3)
            lot.reset()
            lot.is_flooded = lot.is_rare(3)
        alone = rng.choice([*FIELDS, *"AAADDDWWRR"]) if lot.is_rare(3) else None
        beats, broken = {}, {}
        for channel in FIELDS:
            if alone == channel or not alone and rng.random() < 0.55:
                beat, name = lot.beat(channel)
                beats.update({channel: beat} if beat else {})
                broken.update({channel: name} if name else {})
        if alone and beats and lot.is_rare(3):  # it waits
            clocks += [Clock(beats, passes=False)] * rng.randrange(1, 3)
        clocks.append(Clock(beats, broken=broken))
    return clocks


# ---- what is played, and what is told


def line_of(channel: str, it: Wires) -> str:
    """A beat as tlscore reads it."""
    if channel == "A":
        return "A 0 {} {} {} {} {:x} {:x} 0 {}".format(*it)
    if channel == "D":
        return "D 0 {} {} {} {} {} 0 {}".format(*it[:5], it[6])
    if channel == "W":
        return f"W 0 {it[1]:x} {it[2]}"
    if channel == "B":
        return f"B {it[0]} {RESPONSES[it[1]]}"
    return f"R {it[0]} 0 {RESPONSES[it[2]]} {it[3]}" if channel == "R" else "{} {} {:x} {} {} {}".format(channel, *it)


def packed(shape: Shape, clock: Clock) -> str:
    """The wires of a clock as words. What isn't offered has noise."""
    number, all_bits = int(clock.reset), 1
    for channel in FIELDS:
        beat, widths = clock.beats.get(channel), shape.widths(channel)
        all_bits += 2 + sum(widths)
        number = number << 2 | (0 if beat is None else 3 if clock.passes else 2)
        for at, bits in enumerate(widths):
            number = number << bits | (beat[at] if beat else (1 << bits) - 1)
    digits = f"{number:0{(all_bits + 31) // 32 * 8}x}"
    return " ".join(digits[at : at + 8] for at in range(0, len(digits), 8))


Verdicts = Dict[Tuple[int, str], str]  # by clock and channel: port, number and name of the rule


def by_score(score: str, shape: Shape, clocks: List[Clock]) -> Verdicts:
    """What tlscore finds wrong."""
    lines, places = [shape.setup().rstrip()], {}
    ahead = shape.setup().count("\n")
    for at, clock in enumerate(clocks):
        if clock.reset:
            lines.append("= reset")
        for channel, beat in clock.beats.items() if clock.passes else ():
            lines.append(line_of(channel, beat))
            places[ahead - 1 + len(lines)] = at, channel
    ran = started([score], ("\n".join(lines) + "\n").encode())
    found = re.findall(r"(?m)^= wrong (\d+) (\w+ \d+ \w+)", ran.text.decode())
    if ran.status not in (0, 1):
        raise SystemExit(f"tlscore ended with status {ran.status}: {ran.line.decode()}")
    return {places[int(line)]: rule for line, rule in found}


def by_model(clocks: List[Clock]) -> Verdicts:
    """What the plain model finds wrong on the AXI4 port."""
    numbers = {name: f"axi {number} {name}" for number, name in enumerate(AXI_RULES, 1)}
    return {(at, channel): numbers[name] for at, clock in enumerate(clocks) for channel, name in clock.broken.items()}


class Simulator(NamedTuple):
    """How the testbench is made, and run."""

    name: str
    folder: Path

    def made(self, shape: Shape) -> List[str]:
        """The words that run it for ports of a shape."""
        names = {it.upper(): value for it, value in shape._asdict().items()}
        program = self.folder / f"{self.name}-{'-'.join(map(str, names.values()))}"
        files = (RULES, TOP / "tests/rules.sv")
        if self.name == "iverilog":
            given = [f"-Ptestbench.{name}={value}" for name, value in names.items()]
            return ["vvp", "-n", str(program)] if program.exists() else by_icarus(program, "testbench", files, *given)
        given = [f"-G{name}={value}" for name, value in names.items()]
        bench = program / "bench" if program.exists() else by_verilator(program, "testbench", files, "--assert", *given, is_strict=True)
        return [str(bench), "+verilator+error+limit+1000000"]

    def played(self, shape: Shape, clocks: List[Clock]) -> List[Tuple[int, str, str]]:
        """What the assertions tell, in order: the clock, the label, and what they say is broken."""
        return self.told(shape, [packed(shape, it) for it in clocks])

    def told(self, shape: Shape, lines: List[str]) -> List[Tuple[int, str, str]]:
        """The same of the clocks' words."""
        (self.folder / "played").write_text("".join(f"{it}\n" for it in lines))
        runs = [*self.made(shape), f"+clocks={self.folder / 'played'}"]
        done = subprocess.run(runs, capture_output=True, text=True, timeout=600, check=False)
        if f"played to {10 * len(lines)}" not in done.stdout:
            raise SystemExit(f"{self.name} ended with status {done.returncode}: {(done.stdout + done.stderr)[-2000:]}")
        return [(int(at) // 10, label, f"{port} {number} {name}") for port, number, name, at, label in TOLD.findall(done.stdout + done.stderr)]


def channel_of(label: str, rule: str) -> str:
    """The channel on which an assertion looks."""
    if label in CHANNELS:
        return CHANNELS[label]
    return {"request": "A", "reply": "D"}.get(rule.split()[0]) or label.partition("_")[0]


def by_assertions(clocks: List[Clock], found: List[Tuple[int, str, str]]) -> Tuple[Verdicts, List[str]]:
    """What the assertions tell of the beats that pass, and what else they tell: another rule of such a beat, or one of a beat that waits."""
    verdicts: Verdicts = {}
    odd = []
    for at, label, rule in found:
        place = at, channel_of(label, rule)
        if clocks[at].passes and place not in verdicts:
            verdicts[place] = rule
        else:
            odd.append(f"{label} at clock {at}")
    return verdicts, odd


def compared(name: str, clocks: List[Clock], due: Verdicts, found: List[Tuple[int, str, str]]) -> Case:
    """A case: how the first verdict on which both differ isn't the same."""
    verdicts, odd = by_assertions(clocks, found)
    differ = sorted(place for place in {*due, *verdicts} if due.get(place) != verdicts.get(place))
    if odd:
        return name, f"the assertions tell too much: {odd[0]}"
    if not differ:
        return name, None
    at, channel = place = differ[0]
    beats = f"clock {at}, {channel} {clocks[at].beats.get(channel)}"
    return name, f"{len(differ)} differ, the first at {beats}: {due.get(place)} is due, the assertions tell {verdicts.get(place)}"


# ---- the cases


def of_lots(rng: random.Random, score: str, simulator: Simulator, many: int, rounds: int, counts: Counter) -> Iterator[Case]:
    """Lots by each shape, beside tlscore."""
    for number in range(rounds):
        for shape in SHAPES:
            clocks = clocks_of(rng, shape, many)
            due = by_score(score, shape, clocks)
            counts.update(due.values())
            counts["beats"] += sum(len(it.beats) for it in clocks if it.passes)
            yield compared(f"{simulator.name}, round {number}, {shape}", clocks, due, simulator.played(shape, clocks))


def in_verilator(given: argparse.Namespace, folder: Path) -> Iterator[Case]:
    """Lots by one shape, which is compiled anew: that takes longer than to play them. Bound to the testbench, the rules are only read."""
    files = [*sorted(RTL.glob("*.sv")), RULES, RULES.with_name("example_rules.sv")]
    words = ["verilator", "--lint-only", "--timing", "--assert", "-Wno-fatal", f"-I{RTL}", "--top-module", "testbench", *map(str, files)]
    done = subprocess.run(words, capture_output=True, text=True, timeout=120, check=False)
    lines = [it for it in done.stderr.splitlines() if it.startswith("%") and "_rules.sv" in it]
    yield "the rules bound for Verilator", f"status {done.returncode}: {lines[:3]}" if done.returncode or lines else None
    shape, simulator = SHAPES[3], Simulator("verilator", folder)
    clocks = clocks_of(random.Random(given.seed), shape, given.clocks)
    yield compared(f"verilator, {shape}", clocks, by_score(given.score, shape, clocks), simulator.played(shape, clocks))


def of_wide(rng: random.Random, simulator: Simulator, many: int) -> Iterator[Case]:
    """AXI4 ports of more than 64 bits, beside the plain model."""
    for shape in WIDE:
        clocks = clocks_of(rng, shape, many * 8 // shape.bus_bytes)
        found = [it for it in simulator.played(shape, clocks) if it[2].startswith("axi")]
        yield compared(f"{simulator.name}, {8 * shape.bus_bytes} bits", clocks, by_model(clocks), found)


def unknown(shape: Shape, clock: Clock, channel: str) -> str:
    """The words of a clock, of which the digits that lie in the fields of a channel's beat are x."""
    text, below = packed(shape, clock), 0
    for name in reversed(FIELDS):
        bits = sum(shape.widths(name))
        if name == channel:
            return "".join(it if it == " " or not below <= 4 * at < below + bits - 3 else "x" for at, it in places(text))
        below += 2 + bits
    raise SystemExit(f"there is no channel {channel}")


def places(text: str) -> List[Tuple[int, str]]:
    """The characters of words, with the places of their digits from the end of all, where a blank has the place of none."""
    left = sum(it != " " for it in text)
    found = []
    for it in text:
        left -= it != " "
        found.append((left, it))
    return found


def of_unknown(simulator: Simulator) -> Iterator[Case]:
    """Of a beat with x nothing is told, and it changes nothing: what is right behind it is right, and what is wrong there is told."""
    shape = Shape(id_bits=8, source_bits=8)
    put, ack = (0, 0, 3, 5, 8, 0xFF, 0), (0, 0, 3, 5, 0, 0, 0)
    write, data, answer = (1, 0x10000, 0, 3, 1), (0, 0xFF, 1), (1, 0)
    right: List[Dict[str, Wires]] = [{"A": put}, {"AW": write}, {"W": data}, {"B": answer}, {"D": ack}]
    clocks = [Clock(reset=True), *map(Clock, right), Clock({"B": answer}), Clock({"D": ack}), Clock({"W": data})]
    for channel, beat in (("A", put), ("AW", write), ("B", answer), ("AR", write), ("D", ack)):
        text = "".join(f"{packed(shape, it)}\n" for it in clocks).splitlines()
        text.insert(1, unknown(shape, Clock({channel: beat}), channel))
        found = [(at, label) for at, label, _ in simulator.told(shape, text)]
        due = [(7, "B_WITHOUT_WRITE"), (8, "D_UNASKED"), (9, "W_WITHOUT_AW")]
        yield f"x on {channel}", None if found == due else f"{found} is told, and not {due}"


# Bridges of the example's testbench, which are right or break a rule that isn't the memory's.
BENCHES = ("-DBRIDGE=streaming_bridge", "-DBUG=NONE", "-DBUG=OTHER_SOURCE", "-DBUG=PAGE_CROSSED", "-DBUG=CUT_SHORT", "-DBUG=REPLY_TWICE")


def of_benches(score: str, folder: Path) -> Iterator[Case]:
    """The assertions beside the testbench of examples/testbench/rtl by plain lots, as examples/proof/README.md shows them: all that they tell, with its
    time, is what tlscore finds wrong of the lines that the monitor prints."""
    seen = folder / "seen.lines"
    files = [*sorted(RTL.glob("*.sv")), RULES, RULES.with_name("example_rules.sv")]
    for given in BENCHES:
        words = by_icarus(folder / "bench.vvp", "testbench", files, given, f"-I{RTL}", "-s", "example_rules")
        text = subprocess.run([*words, "+seed=3", "+corners=0", f"+observed={seen}"], capture_output=True, text=True, timeout=120, check=True).stdout
        found = sorted((int(at), f"{port} {number} {name}") for port, number, name, at, _ in TOLD.findall(text))
        lines = (RTL / "setup.lines").read_text().replace("axi strict\n", "profile tilelink\nerrors any\n") + seen.read_text()
        said = started([score], lines.encode()).text.decode()
        all_due = re.findall(r"(?m)^= wrong \d+ (\w+ \d+ \w+).* at (\d+)$", said)
        due = sorted((int(at), rule) for rule, at in all_due if rule != "reply 7 PAYLOAD")
        is_broken = given.startswith("-DBUG=") and not given.endswith("NONE")
        yield f"the testbench by {given}", None if found == due and bool(due) == is_broken else f"{found[:3]} and not {due[:3]}"


# A right beat of each channel whose wires are asked to stay, behind those that it needs.
READ, WRITE = (1, 0x10000, 0, 2, 1), (2, 0x10000, 0, 2, 1)
STAYING: Dict[str, Tuple[List[Dict[str, Wires]], Wires]] = {
    "AW": ([], WRITE),
    "AR": ([], READ),
    "W": ([{"AW": WRITE}], (0x1234, 3, 1)),
    "B": ([{"AW": WRITE}, {"W": (0, 3, 1)}], (2, 0)),
    "R": ([{"AR": READ}], (1, 0x1234, 0, 1)),
    "D": ([{"A": (4, 0, 3, 5, 0x8, 0xFF, 0)}], (1, 0, 3, 5, 0, 0x1234, 0)),
}
# A field of each that may change without breaking another rule.
OTHER = {"AW": (1, 0x10004), "AR": (1, 0x10004), "W": (0, 0x1235), "B": (1, 2), "R": (1, 0x1235), "D": (5, 0x1235)}


def of_wires(simulator: Simulator) -> Iterator[Case]:
    """What is offered, and waits: it stays, changes, or is withdrawn."""
    for stays in (1, 0):
        shape = Shape(stays=stays)
        for channel, (ahead, beat) in STAYING.items():
            place, value = OTHER[channel]
            changed = (*beat[:place], value, *beat[place + 1 :])
            clocks = [Clock(reset=True), *map(Clock, ahead), Clock({channel: beat}, passes=False)]
            due = {f"{channel}_STAYS"} if stays or channel != "D" else set()
            for name, end, wanted in (
                ("stays", [Clock({channel: beat}, passes=False), Clock({channel: beat})], set()),
                ("changes", [Clock({channel: changed})], due),
                ("is withdrawn", [Clock(), Clock({channel: beat})], due),
                ("is reset", [Clock(reset=True), *map(Clock, ahead), Clock({channel: changed})], set()),
            ):
                told_of = {label for _, label, _ in simulator.played(shape, [*clocks, *end])}
                yield f"{simulator.name}, {channel} {name}, STAYS {stays}", None if told_of == wanted else f"{sorted(told_of)} are told"


def labels(text: str) -> Iterator[Case]:
    """The labels and what they tell, beside the proved names and numbers."""
    found = re.findall(r'`ZULDEGEI_\w+\((\w+), "(\w+) (?:(\d+) )?(\w+)"', text)
    requests, replies, axi = (names_of(it) for it in ("tl_checker", "scoreboard", "axi_checker"))
    due = {(name, "request", number, name) for name, number in requests.items() if int(number) <= 10}
    due |= {(f"D_{name}", "reply", number, name) for name, number in replies.items() if int(number) <= 6}
    axi_labels = {(label, "axi", number, name) for label, port, number, name in found if port == "axi"}
    wires = {(f"{it}_STAYS", "wires", "", f"{it}_STAYS") for it in STAYING}
    odd = {*found} ^ (due | axi_labels | wires)
    yield "labels of TileLink and of wires", f"apart are {sorted(odd)}" if odd or len({*found}) != len(found) else None
    other = [it for it in axi_labels if axi.get(it[3]) != it[2] or not re.fullmatch(rf"((AW|AR|W|B|R|EARLY)_)?{it[3]}", it[0])]
    yield "labels of AXI4", f"{other}" if other or {it[3] for it in axi_labels} != {*axi} else None


def names_of(crate: str) -> Dict[str, str]:
    """The names of a crate's rules, with their numbers, as its definitions have them."""
    text = (TOP / f"crates/{crate}/specs/Names.antt").read_text()
    numbers = dict(re.findall(r"(?m)^\w*number\w* (\w+) = (\d+)$", text))
    return {name: numbers[variant] for variant, name in re.findall(r'(?m)^\w*name\w* (\w+) = codes "(\w+)"$', text)}


def by_yosys() -> Iterator[Case]:
    """yosys reads both modules, by each parameter that changes what they are, and has a cell by each label."""
    due = {it for it in re.findall(r"`ZULDEGEI_\w+\((\w+), ", RULES.read_text())}
    for module, given in (("tl", ""), ("axi", ""), ("axi", "-chparam EARLY 4"), ("axi", "-chparam BUS_BYTES 4")):
        top = f"zuldegei_{module}_rules"
        script = f"read_verilog -sv -formal {RULES}; hierarchy {given} -top {top}; proc; check -assert; select -list t:$assert"
        done = subprocess.run(["yosys", "-p", script], capture_output=True, text=True, timeout=120, check=False)
        found = {*re.findall(r"(?m)^\S*_rules\S*/(\w+)$", done.stdout)}
        why = f"status {done.returncode}: {(done.stdout + done.stderr)[-500:]}" if done.returncode or "Warning" in done.stdout else None
        yield f"{top} by yosys {given}", why or (f"it has {sorted(found - due)}" if not found or found - due else None)


def often(counts: Counter) -> Iterator[Case]:
    """Each rule was broken so often."""
    due = [f"request {number} {name}" for name, number in NUMBERS.items()]
    due += [f"reply {number} {name}" for number, name in enumerate(REPLY_RULES, 1)]
    due += [f"axi {number} {name}" for number, name in enumerate(AXI_RULES, 1)]
    print(f"{counts['beats']} beats, {', '.join(f'{counts[it]} {it}' for it in due)}")
    for rule in due:
        yield f"{rule} is broken {LEAST} times", None if counts[rule] >= LEAST else f"{counts[rule]} times"
    other = sorted({*counts} - {*due, "beats"})
    yield "tlscore tells no other rule", f"{other}" if other else None


def cases(given: argparse.Namespace) -> Iterator[Case]:
    yield from labels(RULES.read_text())
    print(f"seed {given.seed}")
    counts: Counter = Counter()
    with tempfile.TemporaryDirectory() as folder:
        if is_there("the assertions by Icarus", "iverilog"):
            simulator = Simulator("iverilog", Path(folder))
            rng = random.Random(given.seed)
            yield from of_lots(rng, given.score, simulator, given.clocks, given.rounds, counts)
            yield from often(counts)
            yield from of_wide(rng, simulator, given.clocks)
            yield from of_wires(simulator)
            yield from of_unknown(simulator)
            yield from of_benches(given.score, Path(folder))
        if is_there("the assertions by Verilator", "verilator"):
            yield from in_verilator(given, Path(folder))
    if is_there("the assertions by yosys", "yosys"):
        yield from by_yosys()


if __name__ == "__main__":
    words = asked(__doc__, "score", by_lot=True)
    words.add_argument("--clocks", type=int, default=6_000, help="of each case (6000)")
    words.add_argument("--rounds", type=int, default=1, help="how often each shape of the ports is tried (1)")
    sys.exit(told(cases(words.parse_args())))
