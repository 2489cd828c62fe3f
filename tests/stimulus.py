"""zuldegei-stimulus, and zuldegei.player. Each card reaches the bin that it names, in front of a bridge of this file which answers whole requests
in any order; each request is legal by tlbridge check, on set-ups by hand and by lot. Weights, lots, what was missed, what is left out; words
and files at fault. What a player plays is carried out by tlbridge run, with no beat that isn't taken; and random_bench.py plays what it missed.

    python3 tests/stimulus.py TLBRIDGE [--seed WORD]
"""

import argparse
import io
import os
import random
import subprocess
import sys
import tempfile
from collections import Counter
from pathlib import Path
from typing import Iterator, List, NamedTuple, Optional, Sequence, Set, Tuple

from ends import TOP, Case, asked, told
import package
from package import RTL
from stored import blocks

sys.path[:0] = [str(RTL.parent), str(TOP / "python")]
import random_bench  # noqa: E402
from zuldegei.client import Interactive  # noqa: E402
from zuldegei.command import Fault  # noqa: E402
from zuldegei.cover_bins import GROUPS, TIMES, WAITS, bins_of  # noqa: E402
from zuldegei.cover_read import Reader  # noqa: E402
from zuldegei.cover_report import Count, Cover, First, Shown, cover_of, withouts_of  # noqa: E402
from zuldegei.cover_setup import Setup, beats_of, replies_of  # noqa: E402
from zuldegei.player import Player, Port  # noqa: E402
from zuldegei.stimulus import Stimulus, Wanted  # noqa: E402
from zuldegei.stimulus_cards import CARDS, Cards  # noqa: E402

EXAMPLE = (RTL / "setup.lines").read_text()
WIDE = """config 3 4 4 4 16 7 lhh
region 0 4 10 gpah
region 8 2 14 g---
region fffff 1 16 gp-h
page 10 2 good
page 12 1 slverr
page 14 1 any
page 16 1 good
bad 10fd8
profile tilelink
errors any
"""
# Groups whose bins are reached by what the clients do. A card may need several deals where the bridge has a part in it.
BY_CLIENTS = {it: 1 for it in ("request", "param", "lane", "mask", "edge", "standing", "corrupt", "bad-word")}
BY_CLIENTS.update({"conflict": 12, "after-ack": 12, "flight": 12, "source": 12, "order": 60})
MOST_CLOCKS, SOURCES, BY_LOT = 20_000, 16, 60


# ---- a bridge that answers in any order


class Asked(NamedTuple):
    """A whole request: what its reply is made of."""

    opcode: int
    size: int
    source: int


class Bridge:
    """Takes beats while a client has fewer live requests than its quota, and answers whole requests in any order; what passes is an
    observation."""

    def __init__(self, player: Player, setup: str, lot: random.Random):
        self.player, self.lot, self.quota = player, lot, setup_of(setup).config.quota
        self.seen = [setup]
        self.whole: List[List[Asked]] = [[] for _ in player.ports]  # by client
        self.reply: List[Optional[Tuple[Asked, int]]] = [None] * len(player.ports)  # the reply that goes out, and its beats that are left
        self.waited = [0] * len(player.ports)

    def run(self) -> str:
        """Plays all lines, and gives what was observed."""
        for time in range(MOST_CLOCKS):
            if self.player.is_over:
                return "\n".join(self.seen)
            self.player.clock()
            self.seen.append(f"time {time}")
            for port in self.player.ports:
                self.take(port)
            for port in self.player.ports:
                self.give(port)
        raise AssertionError("the stimulus has no end")

    def take(self, port: Port) -> None:
        """Takes the beat that a client offers, three times of four."""
        it, live = port.offer, len(self.whole[port.client]) + (self.reply[port.client] is not None)
        if it is None or self.lot.randrange(4) == 0 or port.is_first and live >= self.quota:
            return
        words = (it.opcode, it.param, it.size, it.source, f"{it.address:x}", f"{it.mask:x}", f"{it.payload:x}", it.corrupt)
        self.seen.append(f"A {port.client} {' '.join(map(str, words))}")
        if port.left == 0:
            self.whole[port.client].append(Asked(it.opcode, it.size, it.source))
        port.taken()

    def give(self, port: Port) -> None:
        """Gives a beat of a reply, where the client takes it."""
        client = port.client
        if self.reply[client] is None and self.whole[client] and self.lot.randrange(6) == 0:
            asked = self.whole[client].pop(self.lot.randrange(len(self.whole[client])))
            self.reply[client] = asked, replies_of(asked.opcode, asked.size)
        if self.reply[client] is None:
            return
        asked, left = self.reply[client]
        if not port.is_ready:
            self.waited[client] += 1
            return
        if self.waited[client]:
            self.seen.append(f"waited D{client} {self.waited[client]}")
        opcode = {0: 0, 1: 0, 5: 2}.get(asked.opcode, 1)
        self.seen.append(f"D {client} {opcode} 0 {asked.size} {asked.source} 0 0 0")
        self.waited[client] = 0
        self.reply[client] = (asked, left - 1) if left > 1 else None
        port.heard(opcode, asked.size, asked.source)


def played(setup: Setup, text: str, lines: Sequence[str], lot: random.Random, into: Optional[io.StringIO] = None) -> Set[str]:
    """The bins that some lines reach."""
    player = Player(["seed 5", *lines], setup.config.clients, SOURCES, into)
    observed = Bridge(player, text, lot).run()
    cover = cover_of("a run", Reader(1).read(observed.splitlines(True)))
    return {name for name, count in cover.bins.items() if count.count}


def setup_of(text: str) -> Setup:
    return Reader().read(text.splitlines(True)).setup


def misses(text: str, lot: random.Random) -> Iterator[str]:
    """The bins of a set-up that their cards don't reach."""
    setup = setup_of(text)
    for name in bins_of(setup, (TIMES, WAITS)):
        deals = BY_CLIENTS.get(name.partition("/")[0], 0)
        if deals and not any(name in played(setup, text, dealt(setup, name, lot), lot) for _ in range(deals)):
            yield name


def dealt(setup: Setup, name: str, lot: random.Random) -> List[str]:
    """The lines of a card."""
    cards = Cards(setup, lot, 1000, SOURCES)
    cards.deal(name)
    return [*cards.handed_over()]


# ---- cards


def cards(seed: str) -> Iterator[Case]:
    """Each card reaches its bin, and each group has cards but for that of resets."""
    without = {it.name for it in GROUPS} - {*CARDS}
    yield "the groups without cards", None if without == {"reset"} else f"they are {without}"
    for name, text in (("the example", EXAMPLE), ("a wide set-up", WIDE)):
        missed = [*misses(text, random.Random(f"{seed} {name}"))]
        yield f"the cards of {name}", f"these don't reach their bins: {', '.join(missed)}" if missed else None


def setup_by_lot(lot: random.Random) -> str:
    """A set-up with regions and pages by lot."""
    clients, bus = lot.randrange(1, 9), lot.choice((4, 8))
    levels = "".join(lot.choice("lh") for _ in range(clients))
    words = (clients, lot.randrange(1, 9), lot.choice((1, 2, 16)), lot.randrange(1, 5), lot.choice((2, 4, 16, 256)), lot.randrange(3, 13))
    lines = [f"config {' '.join(map(str, words))} {levels} {bus}"]
    for at in range(lot.randrange(4)):
        permits = "".join(it if lot.randrange(3) else "-" for it in "gpah")
        lines.append(f"region {at * 8 + lot.randrange(4):x} {lot.randrange(1, 5)} {at * 8 + lot.randrange(2, 5):x} {permits}")
    pages = sorted(lot.sample(range(32), lot.randrange(9)))
    kinds = [(it, lot.choice(("good", "good", "any", "slverr"))) for it in pages]
    lines += [f"page {it:x} 1 {kind}" for it, kind in kinds]
    good = [it for it, kind in kinds if kind == "good"]
    return "\n".join([*lines, *(f"bad {it:x}{lot.randrange(512) * 8:03x}" for it in good[:2])]) + "\n"


def legal(program: str, seed: str) -> Iterator[Case]:
    """Requests on set-ups by lot: each of them is legal by tlbridge check, all are answered, and all clients that there are ask."""
    for number in range(BY_LOT):
        lot = random.Random(f"{seed} legal {number}")
        text = setup_by_lot(lot)
        setup = setup_of(text)
        wanted = Wanted(number, 120, lot.choice((0, 0, 8, 16)))
        played_lines = io.StringIO()
        player = Player(Stimulus(setup, wanted).lines(), setup.config.clients, SOURCES, played_lines)
        asking = {it.client for it in player.ports if any(line.kind == "a" for line in it.lines)}
        seen = Bridge(player, text, lot).run().splitlines()
        config = " ".join(text.split("\n")[0].split()[:8])
        script = "\n".join([config, *checked(seen)]) + "\n"
        ran = subprocess.run([program, "check"], input=script, capture_output=True, text=True, timeout=120, check=False)
        is_well = ran.returncode == 0 and not refusals(ran.stdout) and len(asking) == setup.config.clients and requests(script) == 120
        yield f"set-up {number} by lot", None if is_well else f"status {ran.returncode}, {ran.stderr} {refusals(ran.stdout)[:2]}, of {asking}: {text}"


def checked(seen: Sequence[str]) -> Iterator[str]:
    """The beats of an observation as tlbridge check takes them, and where a source is free again."""
    came: "Counter[Tuple[str, str]]" = Counter()
    for line in seen:
        kind, *words = line.split() or ["#"]
        if kind == "A":
            yield f"a {' '.join(words)}"
        elif kind == "D":
            at = words[0], words[4]
            came[at] += 1
            if came[at] == (max(1, (1 << int(words[3])) // 8) if words[1] == "1" else 1):
                del came[at]
                yield f"free {words[0]} {words[4]}"


def refusals(trace: str) -> List[str]:
    return [it for it in trace.splitlines() if it.startswith(("= refused", "= noclient"))]


# ---- the command


def called(folder: Path, *words: object) -> "subprocess.CompletedProcess[str]":
    return package.command("stimulus", *words, cwd=folder, environment={"COLUMNS": "100"})


def deals(printed: str) -> List[str]:
    """What was dealt, by the comments."""
    return [it[2:] for it in printed.splitlines()[1:] if it.startswith("# ")]


def requests(printed: str) -> int:
    """How many requests are asked."""
    left: "Counter[str]" = Counter()
    count = 0
    for words in (it.split() for it in printed.splitlines() if it.startswith("a ")):
        if not left[words[1]]:
            count, left[words[1]] = count + 1, beats_of(int(words[2]), int(words[4]))
        left[words[1]] -= 1
    return count


def command(folder: Path) -> Iterator[Case]:
    """The words of the command."""
    (folder / "setup.lines").write_text(EXAMPLE)
    base = ("--setup", "setup.lines")
    one, same, other = (called(folder, *base, "--seed", seed).stdout for seed in (1, 1, 2))
    yield "the same words", None if one == same != other else "they don't give the same lines, or another seed does"
    for count in (1, 7, 350):
        text = called(folder, *base, "--requests", count).stdout
        yield f"{count} requests", None if requests(text) == count else f"they are {requests(text)}"
    names = {*bins_of(setup_of(EXAMPLE), (TIMES, WAITS))}
    yield "what is dealt", None if {*deals(one)} <= names and len({*deals(one)}) > 60 else f"{deals(one)[:9]}"
    lots = deals(called(folder, *base, "--lots", 16).stdout)
    yield "lots alone", None if lots == ["by lot"] * 200 else f"{lots[:9]}"
    half = deals(called(folder, *base, "--lots", 8, "--requests", 2000).stdout)
    yield "half of the deals by lot", None if 0.45 < half.count("by lot") / len(half) < 0.55 else f"{half.count('by lot')} of {len(half)}"
    none = deals(called(folder, *base, "--weights", "edge=0,lane=0").stdout)
    heavy = deals(called(folder, *base, "--weights", "conflict=99").stdout)
    share = sum(it.startswith("conflict/") for it in heavy) / len(heavy)
    yield "a weight of 0", None if none and not any(it.startswith(("edge/", "lane/")) for it in none) else f"{none[:9]}"
    yield "a weight of 99", None if share > 0.8 else f"{share}"
    sources = {it.split()[5] for it in called(folder, *base, "--sources", 2, "--weights", "source=99").stdout.splitlines() if it.startswith("a ")}
    yield "two sources", None if sources == {"*", "0", "1"} else f"{sources}"
    yield from missed(folder, base, names)
    yield from at_fault(folder)


def missed(folder: Path, base: Sequence[str], names: Set[str]) -> Iterator[Case]:
    """What was missed counts more, and what is left out doesn't count."""
    three = {"edge/Get/region-end", "conflict/put-then-get/inside/other-client", "mask/message/all-empty"}
    hit = {it: Count(1, First("a run", 9)) for it in names - three}
    (folder / "night.cover").write_text(Cover(1, 9, {**hit, **{it: Count() for it in three}}).json())
    (folder / "all.cover").write_text(Cover(1, 9, {it: Count(1, First("a run", 9)) for it in names}).json())
    (folder / "without.lines").write_text("without edge/Get/region-end the bridge has none\n")
    printed = called(folder, *base, "--missed", "night.cover", "--requests", 800).stdout
    share = sum(it in three for it in deals(printed)) / len(deals(printed))
    head = "800 requests, from 3 bins that no run reached"
    yield "what was missed", None if 0.8 < share < 0.95 and head in printed.splitlines()[0] else f"{share}, {printed.splitlines()[0]}"
    printed = called(folder, *base, "--missed", "night.cover", "--without", "without.lines", "--requests", 800).stdout
    yield "what is left out", None if "edge/Get/region-end" not in deals(printed) and "from 2 bins" in printed else printed[:99]
    printed = called(folder, *base, "--missed", "all.cover").stdout
    is_well = "and no bin with a card was missed" in printed.splitlines()[0] and len({*deals(printed)}) > 60
    yield "nothing was missed", None if is_well else printed[:99]


def at_fault(folder: Path) -> Iterator[Case]:
    """Words and files that can't be: a status, and one line that says why."""
    (folder / "no.lines").write_text("region 0 1 0 gpah\n")
    (folder / "odd.cover").write_text("{}\n")
    (folder / "odd.lines").write_text("without edge/*\n")
    for it in blocks(TOP / "tests/words/stimulus.words"):
        yield it.name, it.one_line(called(folder, *map(os.fsdecode, it.words)), "zuldegei-stimulus")


# ---- the player


def clocks(player: Player, count: int) -> List[List[Tuple[Optional[int], bool]]]:
    """What each port shows in so many clocks, of a bridge that takes all and answers nothing: the address that is offered, and its ready."""
    shown = []
    for _ in range(count):
        player.clock()
        shown.append([(it.offer and it.offer.address, it.is_ready) for it in player.ports])
        for it in player.ports:
            if it.offer:
                it.taken()
    return shown


GET = "a {client} 4 0 3 {source} {address} ff 0 0"


def get(address: str, client: int = 0, source: object = "*") -> str:
    return GET.format(client=client, source=source, address=address)


def by_hand() -> Iterator[Case]:
    """What each line does, clock by clock."""
    taken = True
    for name, lines, due in (
        ("a wait", [get("8"), "wait 0 2", get("10")], [(8, taken), (None, taken), (None, taken), (16, taken)]),
        ("no wait", [get("8"), "wait 0 0", get("10")], [(8, taken), (16, taken)]),
        ("a hold", ["hold 0 2", get("8")], [(8, taken), (None, False), (None, False), (None, taken)]),
        ("an await that has no end", [get("8"), "await 0", get("10")], [(8, taken), (None, taken), (None, taken)]),
        ("a busy source", [get("8", 0, 3), get("10", 0, 3)], [(8, taken), (None, taken)]),
        ("comments", ["# a card", "", get("8")], [(8, taken)]),
    ):
        shown = [it[0] for it in clocks(Player(lines, 1), len(due))]
        yield name, None if shown == due else f"{shown}"
    both = clocks(Player(["wait 1 3", "meet", get("8"), get("10", 1)], 2), 5)
    begins = [next(at for at, ports in enumerate(both) if ports[it][0]) for it in range(2)]
    yield "a meeting", None if begins[0] == begins[1] >= 3 else f"{both}"
    paced = clocks(Player(["seed 3", "pace 0 12 4", *[get("8")] * 400], 1, 256), 800)
    offers, takes = (sum(bool(ports[0][it]) for ports in paced) / 800 for it in range(2))
    yield "a pace", None if 0.18 < offers < 0.32 and 0.68 < takes < 0.82 else f"{offers}, {takes}"
    player = Player([get("8", 0, 3), get("10", 0, 3)], 1)
    clocks(player, 3)
    player.ports[0].heard(1, 3, 3)
    yield "a source that is free again", None if clocks(player, 1)[0][0][0] == 16 else "it isn't asked again"
    yield from resets()
    for name, lines, said in (
        ("a line that is none", ["meet", "hld 0 1"], "line 2 of the stimulus, 'hld 0 1'"),
        ("a word too many", ["meet 0"], "line 1"),
        ("a digit that is none", ["a 0 4 0 3 x 8 ff 0 0"], "line 1"),
        ("another client", [get("8", 2)], "line 1 of the stimulus is of client 2"),
        ("another source", [get("8", 0, 16)], "line 1 of the stimulus has source 16"),
    ):
        try:
            Player(lines, 2)
            yield name, "it is taken"
        except Fault as why:
            yield name, None if said in str(why) else f"{why}"


def resets() -> Iterator[Case]:
    """A reset takes away what is under way, also the rest of a message, and what stands behind it is played."""
    put = [f"a 0 0 0 5 4 40 ff {it} 0" for it in range(4)]
    player = Player([*put, get("8")], 1)
    clocks(player, 2)
    player.reset()
    shown = [it[0][0] for it in clocks(player, 2)]
    yield "a reset within a message", None if shown == [8, None] and player.ports[0].busy else f"{shown}"
    player.reset()
    yield "a reset of what waits for its reply", None if player.is_over else "it waits on"


def carried_out(program: str, seed: str) -> Iterator[Case]:
    """What was played, as lines for tlbridge run: it takes each beat."""
    for number, text in enumerate((EXAMPLE, WIDE)):
        setup, into = setup_of(text), io.StringIO()
        head = "".join(f"{it}\n".replace(" any", " good") for it in text.splitlines() if it.startswith(("config", "region", "page", "bad")))
        player = Player(Stimulus(setup, Wanted(5, 300)).lines(), setup.config.clients, SOURCES, into)
        Bridge(player, text, random.Random(f"{seed} played {number}")).run()
        ran = subprocess.run([program, "run"], input=head + into.getvalue(), capture_output=True, text=True, timeout=120, check=False)
        is_well = ran.returncode == 0 and ran.stdout.count("= accepted") == 300 and not refusals(ran.stdout)
        is_well = is_well and "= notready" not in ran.stdout
        yield f"what was played, {number}", None if is_well else f"status {ran.returncode}, {ran.stderr}, {refusals(ran.stdout)[:2]}, {ran.stdout[-300:]}"


def at_the_model(program: str) -> Iterator[Case]:
    """random_bench.py plays what a run of it missed: each reply is as its model has it, and nearly all bins are reached then."""
    without = RTL.parent / "without.lines"
    with Interactive([program, "run"]) as bridge:
        why = random_bench.tried(random_bench.Bench(bridge, 1), 1_000)
        text = random_bench.observed(bridge)
    before = cover_of("a run", Reader().read(text.splitlines(True)))
    missed = Shown(before, withouts_of(without)).missed
    lines = [*Stimulus(setup_of(text), Wanted(1, 500, missed=missed, left_out=[it.pattern for it in withouts_of(without)])).lines()]
    with Interactive([program, "run"]) as bridge:
        why = why or random_bench.tried(random_bench.Played(bridge, 2, lines), 50_000)
        after = cover_of("another run", Reader().read(random_bench.observed(bridge).splitlines(True)))
    yield "a stimulus at the model", why
    after.add(before)
    shown = Shown(after, withouts_of(without))
    print(f"random_bench.py missed {len(missed)} bins; with 500 requests from these: {shown.reached()}", flush=True)
    yield "what it reaches there", None if len(missed) > 200 and len(shown.missed) < 25 else f"it misses {len(missed)}, and then {shown.missed}"
    with Interactive([program, "run"]) as bridge:
        why = random_bench.tried(random_bench.Played(bridge, 2, lines), 100)
    yield "a stimulus that isn't over", None if why and "isn't over in 100 steps" in why else f"it says {why}"


def cases(given: argparse.Namespace) -> Iterator[Case]:
    yield from by_hand()
    yield from cards(given.seed)
    program = str(given.bridge)
    yield from legal(program, given.seed)
    yield from carried_out(program, given.seed)
    yield from at_the_model(program)
    with tempfile.TemporaryDirectory() as folder:
        yield from command(Path(folder))


if __name__ == "__main__":
    words = asked(__doc__, "bridge")
    words.add_argument("--seed", default="1")
    sys.exit(told(cases(words.parse_args())))
