"""How many wrong payloads tlscore tells by `profile tilelink` where requests race, beside the rule of values, written plainly
(value_sets.py). Of right runs none is found wrong, and nearly all bytes are compared that can be: of both bridges of
examples/testbench/rtl, in front of each memory, and of this project's bridge with its atomics, all by plain lots, which ask often for the
same bytes. Then a bit is flipped of a byte that a reply told, or its word is stale: an older writer's bytes stand in place of those that
came, which may be right. What the rule tells of these at that very beat tlscore tells there, and nothing else. Rows by themselves have runs
of many requests at once to very few bytes, and of races for very many words (any_order.py): more than a scoreboard may keep.

    python3 tests/values.py TLSCORE TLBRIDGE [--runs N] [--changes N] [--jobs N] [--seed WORD] [--measure]

It prints a table. By --measure it isn't asked how much tlscore compares and tells. --runs 580 has 20 seeds of each testbench,
and --runs 2000 --changes 0 --jobs 4 judges right runs alone.
"""

import argparse
import random
import re
import secrets
import sys
import tempfile
from collections import Counter, defaultdict
from concurrent.futures import ThreadPoolExecutor
from pathlib import Path
from typing import Callable, Dict, Iterator, List, NamedTuple, Optional, Tuple

import any_order
from ends import started, told
from value_sets import Telling, Value, ValueSets, Why
from waves import RTL

sys.path.append(str(RTL.parent))
import random_bench  # noqa: E402
import run  # noqa: E402
from zuldegei.client import Interactive  # noqa: E402

STRICT, FREE = run.Asked("tilelink"), run.Asked("tilelink", "any")
# Of memory.sv: where it begins, how many words it has, which part of the lots is that of its first bytes; and the most bytes of a line.
MEMORY, WORDS, MEMORY_PART, LONGEST_FILL, FILLED = 0x10000, 2048, 3, 32, "bytes that were filled"
STEPS = 2_000  # of a run of random_bench.py
OLDER = 4  # of so many writers before it a stale word may be
# How many per cent are asked for: of the bytes that can be compared, and of what the rule tells of flipped bits and of stale words.
COMPARED, FLIPPED, STALE = 90, 97, 95
MANY, WIDE = "many at once", "many words"  # the rows that stand by themselves
NOT_COMPARABLE = (Why.FAILED, Why.BAD_WORD, Why.NEVER_GIVEN, Why.SPOILED)  # by no rule
PAYLOAD = re.compile(rb"(?m)^= wrong (\d+) reply 7 PAYLOAD")
JUDGED = re.compile(rb"(?m)^= judged \d+ wrong (\d+) outstanding 0 open 0 compared (\d+) of (\d+)$")
Case = Tuple[str, Optional[str]]


class Testbench(NamedTuple):
    """A testbench, the row of the table to which its runs belong, and what tlscore reads of a run, by its seed."""

    row: str
    name: str
    observed: Callable[[int], str]


# ---- right runs


def benches() -> Iterator[Tuple[str, run.Bench]]:
    """The testbenches in RTL, by rows: both bridges as they are."""
    for memory in run.MEMORIES:
        yield "bridge", run.Bench("bridge", STRICT, memory)
        yield "streaming, calm", run.Bench("streaming_bridge", STRICT, memory, is_calm=True)
    for memory, habit in zip((run.FAILING, *run.MEMORIES), run.HABITS * 3):
        yield "streaming, errors any", run.Bench("streaming_bridge", FREE, memory, habit=habit)
    yield "bridge", run.Bench("bridge", FREE, run.FAILING)
    for bench in (run.Bench("bridge", STRICT), run.Bench("streaming_bridge", FREE)):
        yield "two resets", bench._replace(resets=2)
        yield "bytes of any kind", bench._replace(asked=bench.asked._replace(pages="any"))
        yield FILLED, bench._replace(began="NOISE")
    yield "bytes of any kind", run.Bench("bridge", STRICT._replace(pages="unknown"))


def fill_lines(seed: int) -> Iterator[str]:
    """What memory.sv begins with by -DBEGAN=NOISE, as the set-up has it."""
    lots, words = (seed * 4 + MEMORY_PART) * 0x9E3779B1 % 2**32, []
    for _ in range(2 * WORDS):
        lots ^= lots << 13 & 0xFFFFFFFF
        lots ^= lots >> 17
        lots ^= lots << 5 & 0xFFFFFFFF
        words.append((lots % 0xFFFFFFFF).to_bytes(4, "little"))
    for at in range(0, 4 * len(words), LONGEST_FILL):
        yield f"fill {MEMORY + at:x} {b''.join(words)[at : at + LONGEST_FILL].hex(' ')}"


def rtl(simulator: str, folder: Path, row: str, bench: run.Bench) -> Testbench:
    """A testbench in RTL, once it is made."""
    its_folder = Path(tempfile.mkdtemp(dir=folder))
    words = run.compiled(simulator, bench, its_folder)

    def observed(seed: int) -> str:
        seen = its_folder / f"{seed}.lines"
        run.simulated([*words, f"+seed={seed}", *bench.words, f"+observed={seen}"])
        filled = "".join(f"{it}\n" for it in (fill_lines(seed) if row == FILLED else ()))
        return f"{bench.asked.setup}{filled}{seen.read_text()}= end\n"

    return Testbench(row, f"{bench.device} {bench.memory}", observed)


def own(program: str, corners: int) -> Testbench:
    """This project's bridge, by random_bench.py."""

    def observed(seed: int) -> str:
        with Interactive([program, "run"]) as bridge:
            why = random_bench.tried(random_bench.Bench(bridge, seed, corners), STEPS)
            if why:
                raise SystemExit(why)
            config, rest = random_bench.observed(bridge).split("\n", 1)
            return f"{config}\nprofile tilelink\n{rest}"

    return Testbench("this project's bridge", "random_bench.py", observed)


def testbenches(given: argparse.Namespace, folder: Path) -> List[Testbench]:
    """All of them; where no simulator is installed those alone which need none."""
    simulator, many = run.installed(), [Testbench(MANY, "any_order.py", any_order.observed)] * 3
    others = [own(given.bridge, 0)] * 3 + [own(given.bridge, random_bench.CORNERS), *many, Testbench(WIDE, "any_order.py", any_order.wide)]
    if not simulator:
        print(f"skipped: runs of the bridges in RTL, as neither {' nor '.join(run.SIMULATORS)} is installed")
        return others
    has_x = simulator in run.HAVE_X
    if not has_x:
        print(f"skipped: a memory that begins with x, as {simulator} has none")
    chosen = [(row, bench) for row, bench in benches() if has_x or not bench.needs_x][: given.runs]
    return [rtl(simulator, folder, row, bench._replace(corners=0)) for row, bench in chosen] + others


# ---- wrong beats


class Change(NamedTuple):
    """A beat of a right run and what its bytes are in a changed copy."""

    telling: Telling
    values: List[Value]

    def lines(self, lines: List[str]) -> List[str]:
        """The copy up to that beat."""
        *before, line = lines[: self.telling.line]
        words = line.split()
        for it, value in zip(self.telling.told, self.values):
            if value != it.value:
                end = len(words[7]) - 2 * it.lane
                words[7] = f"{words[7][: end - 2]}{value:02x}{words[7][end:]}"
        return [*before, " ".join(words)]


def comparable(telling: Telling) -> List[int]:
    """Which bytes of a beat may be compared, by their places."""
    return [at for at, it in enumerate(telling.told) if it.why not in NOT_COMPARABLE and it.value is not None]


def flipped(rng: random.Random, telling: Telling) -> Change:
    """One bit of one byte is flipped."""
    values, at = [it.value for it in telling.told], rng.choice(comparable(telling))
    values[at] ^= 1 << rng.randrange(8)
    return Change(telling, values)


def stale(rng: random.Random, telling: Telling, sets: ValueSets) -> Optional[Change]:
    """All bytes of the beat that one of the last writers of a byte gave are as that gave them, if that is something else."""
    address = telling.told[rng.choice(comparable(telling))].address
    older = [it for it in sets.writers[address] if it.number <= telling.begun and it is not telling.request and it.is_whole]
    given = rng.choice(older[-OLDER:]).left() if older else {}
    values = [it.value if given.get(it.address) is None else given[it.address] for it in telling.told]
    return Change(telling, values) if values != [it.value for it in telling.told] else None


def changes(rng: random.Random, sets: ValueSets, count: int) -> Iterator[Tuple[str, Change]]:
    """So many flipped bits and stale words of a run, where there are so many."""
    tellings = [it for it in sets.tellings if comparable(it)]
    weights = [len(comparable(it)) for it in tellings]
    if not tellings:
        return
    yield from (("flipped", flipped(rng, it)) for it in rng.choices(tellings, weights, k=count))
    found = (stale(rng, it, sets) for it in rng.choices(tellings, weights, k=4 * count))
    yield from (("stale", it) for it in [it for it in found if it][:count])


# ---- what is told of them


class Tried:
    """A right run and its changed copies: what is told of them, by tlscore and by the rule, and how that isn't as it has to be."""

    def __init__(self, score: str, rng: random.Random, text: str, count: int):
        self.score, self.lines, self.counts, self.wrong = score, text.splitlines(), Counter(runs=1), []
        sets, ran = ValueSets(self.lines), started([score], text.encode())
        judged = JUDGED.search(ran.text)
        if ran.status or not judged:
            self.counts["blamed"] += 1
            self.wrong.append(f"a right run is found wrong: status {ran.status}, {ran.text[-200:].decode()}{ran.line.decode()}")
            return
        self.counts.update(compared=int(judged[2]), told=int(judged[3]))
        self.counts.update(it.why for telling in sets.tellings for it in telling.told)
        if int(judged[3]) != sum(len(it.told) for it in sets.tellings):
            self.wrong.append(f"{judged[0].decode()}: the bytes that are told aren't so many")
        self.wrong += [f"line {it.line} isn't right by the rule" for it in sets.tellings if it.is_wrong([byte.value for byte in it.told])]
        for kind, change in changes(rng, sets, count):
            self.change(kind, change)

    def change(self, kind: str, change: Change) -> None:
        """Takes a changed copy, of which tlscore may tell no more than the rule."""
        copy = change.lines(self.lines)
        told_at = {int(it) for it in PAYLOAD.findall(started([self.score], "".join(f"{it}\n" for it in copy).encode()).text)}
        is_told, is_wrong = change.telling.line in told_at, change.telling.is_wrong(change.values)
        self.counts.update({kind: 1, f"{kind} told": is_told, f"{kind} by the rule": is_wrong, f"{kind} both": is_told and is_wrong})
        if is_told and not is_wrong:
            self.wrong.append(f"{copy[-1]} is found wrong in line {len(copy)}, and may be right")


class Row(NamedTuple):
    """A row of the table: what is told of its runs and of their changed copies."""

    counts: Counter

    @property
    def comparable(self) -> int:
        return self.counts["told"] - sum(self.counts[it] for it in NOT_COMPARABLE)

    def cells(self) -> List[str]:
        it = self.counts
        uncompared = [str(it[why]) for why in Why if why is not Why.COMPARED]
        changed = [f"{it[kind]}: {it[f'{kind} told']}, {it[f'{kind} by the rule']}" for kind in ("flipped", "stale")]
        return [str(it["runs"]), str(it["blamed"]), str(it["told"]), *uncompared, str(it["compared"]), str(it[Why.COMPARED]), *changed]


HEAD = ["", "runs", "blamed", "bytes told", *(it.value for it in Why if it is not Why.COMPARED), "compared", "by the rule"]
HEAD += ["bits flipped: told, by the rule", "stale words: told, by the rule"]


def together(rows: Dict[str, Row]) -> Row:
    """All rows but those that stand by themselves."""
    return Row(sum((row.counts for name, row in rows.items() if name not in (MANY, WIDE)), Counter()))


def table(rows: Dict[str, Row]) -> Iterator[str]:
    yield f"| {' | '.join(HEAD)} |"
    yield "|---" * len(HEAD) + "|"
    of_all = {name: row for name, row in rows.items() if name not in (MANY, WIDE)}
    last = {name: rows[name] for name in (MANY, WIDE) if name in rows}
    yield from (f"| {name} | {' | '.join(row.cells())} |" for name, row in {**of_all, "all of these": together(rows), **last}.items())


def asked_of(row: Row) -> Iterator[Case]:
    """What is asked of all rows together."""
    counts = row.counts
    for name, got, of, least in (
        ("bytes that can be compared", counts["compared"], row.comparable, COMPARED),
        ("flipped bits that the rule tells", counts["flipped both"], counts["flipped by the rule"], FLIPPED),
        ("stale words that the rule tells", counts["stale both"], counts["stale by the rule"], STALE),
    ):
        yield f"{name}, {least} per cent", None if 100 * got >= least * of else f"{got} of {of}"


def tried(given: argparse.Namespace, number: int, bench: Testbench) -> Tuple[str, str, Tried]:
    """A run by its number: its row, its name, and what came of it."""
    rng = random.Random(f"{given.seed} {number}")
    seed = rng.randrange(1, 10**6)
    name = f"--seed {given.seed}, run {number}, {bench.name} of seed {seed}"
    return bench.row, name, Tried(given.score, rng, bench.observed(seed), given.changes)


def cases(given: argparse.Namespace) -> Iterator[Case]:
    rows: Dict[str, Row] = defaultdict(lambda: Row(Counter()))
    with tempfile.TemporaryDirectory() as folder, ThreadPoolExecutor(given.jobs) as jobs:
        all_of_them = testbenches(given, Path(folder))
        chosen = [all_of_them[number % len(all_of_them)] for number in range(given.runs)]
        for row, name, found in jobs.map(tried, [given] * given.runs, range(given.runs), chosen):
            rows[row].counts.update(found.counts)
            yield name, "; ".join(found.wrong)
    print("\n".join(table(rows)), flush=True)
    if not given.measure:
        yield from asked_of(together(rows))


def main() -> int:
    asked = argparse.ArgumentParser(description=__doc__)
    asked.add_argument("score", metavar="TLSCORE")
    asked.add_argument("bridge", metavar="TLBRIDGE")
    asked.add_argument("--runs", type=int, default=29, help="how many runs in all (29)")
    asked.add_argument("--changes", type=int, default=20, help="in how many copies of a run a bit is flipped, and a word is stale (20)")
    asked.add_argument("--jobs", type=int, default=1, help="how many runs at once (1)")
    asked.add_argument("--seed", default=secrets.token_hex(4))
    asked.add_argument("--measure", action="store_true", help="don't ask how much is compared and told")
    return told(cases(asked.parse_args()))


if __name__ == "__main__":
    sys.exit(main())
