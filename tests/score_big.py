"""Memories of 1 GB and of 4 GB of which thousands of pages are touched, that began with bytes which nobody told tlscore, or with
zeros, but for some bytes that are told. Requests by lot get the replies that a plain memory gives (big_traffic.py), by both profiles,
and with errors told in any way.

- Right replies aren't blamed.
- Each beat of a Get in which a bit is flipped of a byte that was given alone, and read so, is blamed, alone or beside many, and no
  other beat is. What nobody gave to a page of unknown bytes may be spoiled: it isn't compared.
- At most 6 KiB are held for each page that was given bytes, beside what an empty script takes.
- Where a growth of memory is refused, for these pages too, tlscore ends with status 4 behind the text of the lines before.

    python3 tests/score_big.py TLSCORE [PAGES] [REQUESTS] [--kinds KIND ..] [--every] [--seed WORD]
"""

from __future__ import annotations

import argparse
import functools
import random
import re
import sys
from collections import Counter
from typing import Iterator, NamedTuple

from big_memory import KINDS, SHAPES
from big_traffic import Asked, Traffic, new_pages
from ends import asked, told
from model import GOOD, PAGE, UNKNOWN
from score_memory import PROFILES, Line, Script, growths
from shim import Ran, Shim

ALL_ASKED = Asked("bridge", "strict"), Asked("tilelink", "strict"), Asked("tilelink", "any")
ROOM = 6  # KiB for each page
MANY, ALONE = 3, 4  # runs in which a bit is flipped in each beat where one may be, and in which one bit is
FILLS = 8  # how many pages take room by what they began with
ENDS, SPREAD = 24, 60  # how many growths are refused at the begin and at the end, and how many between
VERDICT = re.compile(r"= wrong (\d+) reply 7 PAYLOAD expected D \d+ 1 0 \d+ \d+ 0 ([0-9a-f]{16}) 0")
ENDED = re.compile(r"= judged (\d+) wrong (\d+) outstanding 0 open 0 compared (\d+) of (\d+)")
# What all runs have to show at least, for each page of one of them.
WANTED = {"raced": 0.1, "failed": 0.05, "flipped": 10, "spoiled": 1}


class Plan(NamedTuple):
    """A memory, and by what replies are judged."""

    shape: str
    kind: str
    asked: Asked

    def __str__(self) -> str:
        return f"{self.shape}, {self.kind}, by profile {self.asked.profile} and errors {self.asked.errors}"


def plans(kinds: list[str]) -> Iterator[Plan]:
    """Each memory by each profile; of zeros one alone."""
    for asked in ALL_ASKED:
        yield from (Plan(shape, UNKNOWN, asked) for shape in SHAPES if UNKNOWN in kinds)
        yield from (Plan(shape, GOOD, asked) for shape in list(SHAPES)[:1] if GOOD in kinds)


def text_of(lines: list[str]) -> bytes:
    return "".join(f"{line}\n" for line in lines).encode()


def changed(traffic: Traffic, masks: dict[int, int]) -> bytes:
    """The lines, with bits turned in the payloads of some."""
    lines = list(traffic.lines)
    for number, mask in masks.items():
        words = lines[number - 1].split()
        words[7] = f"{int(words[7], 16) ^ mask:016x}"
        lines[number - 1] = " ".join(words)
    return text_of(lines)


def fault_of(ran: Ran, plan: Plan, traffic: Traffic, flipped: dict[int, int]) -> str | None:
    """Tells in one line how not just the beats are blamed in which a bit was flipped of a byte, by the lane of that, or nothing."""
    if ran.line or ran.status != bool(flipped):
        return f"status {ran.status}, not {int(bool(flipped))}, and {ran.line!r} on standard error"
    *verdicts, last = ran.text.decode().splitlines()
    blamed = {}
    for verdict in verdicts:
        found = VERDICT.fullmatch(verdict)
        if not found or int(found[1]) not in flipped:
            return f"it is said {verdict}, of a line that is right"
        blamed[int(found[1])] = int(found[2], 16)
    for number, lane in flipped.items():
        if number not in blamed:
            return f"line {number}, {traffic.lines[number - 1]}, isn't blamed where a bit of lane {lane} is flipped"
        if blamed[number] >> 8 * lane & 0xFF != traffic.settled[number][lane]:
            return f"line {number}: lane {lane} was to be {traffic.settled[number][lane]:02x}, and not as in {blamed[number]:016x}"
    return fault_of_last(last, plan, traffic, len(flipped))


def fault_of_last(last: str, plan: Plan, traffic: Traffic, wrong: int) -> str | None:
    """Tells how the last line isn't as it has to be, or nothing: all settled bytes are compared, and in order of acceptance those that
    are known, and none that isn't."""
    found = ENDED.fullmatch(last)
    if not found or [*map(int, found.groups())][:2] != [traffic.beats, wrong]:
        return f"the last line is {last}, of {traffic.beats} beats and {wrong} wrong ones"
    least, most = sum(map(len, traffic.settled.values())), traffic.told
    if plan.asked.profile == "bridge":
        least, most = traffic.known, traffic.told - traffic.unknown
    if int(found[4]) != traffic.told or not least <= int(found[3]) <= most:
        return f"the last line is {last}, of {traffic.told} bytes told, and {least} to {most} that can be compared"
    return None


def flips(rng: random.Random, traffic: Traffic, numbers: list[int]) -> tuple[dict[int, int], dict[int, int]]:
    """A bit of a settled byte of each of some lines: the lane, and the bit in the payload."""
    lanes = {number: rng.choice(sorted(traffic.settled[number])) for number in numbers}
    return lanes, {number: 1 << 8 * lane + rng.randrange(8) for number, lane in lanes.items()}


def spoiled(rng: random.Random, traffic: Traffic) -> dict[int, int]:
    """Other bytes in all lanes that tell what nobody gave."""
    return {number: sum(rng.randrange(1, 256) << 8 * lane for lane in lanes) for number, lanes in traffic.fresh.items()}


def of_traffic(shim: Shim, plan: Plan, given: argparse.Namespace, base: int, counts: Counter) -> Iterator[tuple[str, str | None]]:
    """What is said of the replies of a plan, right and wrong, and what memory it takes."""
    traffic = Traffic(SHAPES[plan.shape](plan.kind), plan.asked, given.pages, given.requests, given.seed)
    rng, numbers = random.Random(f"{given.seed} {plan}"), sorted(traffic.settled)
    ran = shim.run([], text_of(traffic.lines))
    yield "right replies", fault_of(ran, plan, traffic, {})
    most = ROOM * len(traffic.given)
    held = ran.peak - base
    yield "memory", None if held <= most else f"{held} KiB for {len(traffic.given)} pages"
    for name, some in [("many bits flipped", numbers)] * MANY + [("a bit flipped", [it]) for it in rng.sample(numbers, ALONE)]:
        lanes, masks = flips(rng, traffic, some)
        yield name, fault_of(shim.run([], changed(traffic, masks)), plan, traffic, lanes)
        counts.update(flipped=len(lanes))
    if plan.kind == UNKNOWN:
        masks = spoiled(rng, traffic)
        yield "bytes that nobody gave spoiled", fault_of(shim.run([], changed(traffic, masks)), plan, traffic, {})
        counts.update(spoiled=len(masks))
    counts.update(raced=traffic.raced, failed=traffic.failed, beats=traffic.beats)
    print(f"{plan}: {traffic.beats} beats, {held / len(traffic.given):.2f} KiB a page")


def puts(plan: Plan, given: argparse.Namespace) -> Script:
    """What some pages began with; then a Put to each page, its acknowledgement, and the byte that it gave."""
    setup, rng = SHAPES[plan.shape](plan.kind), random.Random(f"{given.seed} {plan}")
    fills, lines = [], []
    for page in new_pages(rng, setup, given.pages):
        at, word = 8 * rng.randrange(PAGE // 8), rng.getrandbits(64)
        place, is_filled = setup.place_of(page) * PAGE + at, len(fills) < FILLS
        if is_filled:
            fills.append(Line(f"fill {place:08x} 5a", takes_room=PROFILES))
        lines.append(Line(f"A 0 0 0 3 0 {page * PAGE + at:08x} ff {word:016x} 0"))
        lines.append(Line("D 0 0 0 3 0 0 0 0", takes_room=() if is_filled else PROFILES))
        lines.append(Line(f"mem {place:08x}", f"= mem {word & 0xFF:02x}"))
    last = Line("", f"= judged {2 * given.pages} wrong 0 outstanding 0 open 0 compared 0 of 0")
    return Script(tuple(setup.lines), (*fills, *lines), last)


def some(rng: random.Random, count: int) -> list[int]:
    """The first and the last of so many growths, one that isn't made, and some between."""
    return sorted({*range(1, ENDS), *range(count - ENDS, count + 2), *(rng.randrange(1, count) for _ in range(SPREAD))})


def of_refusals(shim: Shim, given: argparse.Namespace) -> Iterator[tuple[str, str | None]]:
    """Growths of memory refused, all of them or the first, the last and some between."""
    for profile, shape in zip(PROFILES, list(SHAPES)[1:]):
        script = puts(Plan(shape, given.kinds[-1], Asked(profile, "strict")), given)
        chosen = None if given.every else functools.partial(some, random.Random(given.seed))
        yield from ((f"{shape}, {name}", why) for name, why in growths(shim, script, profile, chosen))


def cases(given: argparse.Namespace) -> Iterator[tuple[str, str | None]]:
    shim, counts = Shim(given.tlscore), Counter()
    base = shim.run([], b"").peak
    for plan in plans(given.kinds):
        for name, why in of_traffic(shim, plan, given, base, counts):
            yield f"seed {given.seed}, {plan}: {name}", why
    for what, least in WANTED.items():
        print(f"{counts[what]} are {what}")
        if what == "spoiled" and UNKNOWN not in given.kinds:
            continue
        yield f"seed {given.seed}: how many are {what}", None if counts[what] >= least * given.pages else f"{counts[what]}"
    yield from ((f"seed {given.seed}, {name}", why) for name, why in of_refusals(shim, given))


if __name__ == "__main__":
    words = asked(__doc__, "tlscore", by_lot=True)
    words.add_argument("pages", nargs="?", type=int, default=3000, help="how many are touched in each run (3000; with fewer the board itself weighs more than 6 KiB a page)")
    words.add_argument("requests", nargs="?", type=int, default=6000, help="how many there are in each run (6000)")
    words.add_argument("--kinds", nargs="*", choices=KINDS, default=KINDS, help="what the pages are (good any)")
    words.add_argument("--every", action="store_true", help="each growth of memory is refused, and not some of them")
    sys.exit(told(cases(words.parse_args())))
