"""A plain memory behind regions, on which requests are carried out whole, one at a time: what docs/RULES.md says of replies
and docs/SCRIPT.md of pages and bad words. It knows nothing of bursts but how many steps they make. And what a set-up says, by its lines."""

from __future__ import annotations

import random
import sys
from bisect import bisect_right
from collections.abc import Iterable, Iterator
from dataclasses import dataclass
from pathlib import Path
from typing import NamedTuple

sys.path.append(str(Path(__file__).resolve().parent.parent / "examples" / "testbench"))

from client import ABeat, DBeat, beats_of  # noqa: E402
from random_bench import ARITHMETIC, GET, INTENT, LOGICAL, PUT_FULL, PUT_PARTIAL, applied, full_mask  # noqa: E402, F401


def a_line(client: int, it: ABeat) -> str:
    """The line of a beat on channel A, as tlscore reads it and traces have it."""
    head = f"A {client} {it.opcode} {it.param} {it.size} {it.source}"
    return f"{head} {it.address:08x} {it.mask:02x} {it.payload:016x} {it.corrupt}"


def d_line(it: DBeat) -> str:
    """The line of a beat on channel D."""
    return f"D {it.client} {it.opcode} {it.param} {it.size} {it.source} {it.denied} {it.payload:016x} {it.corrupt}"


# The letter of a region that permits a request, and the opcode of the reply.
LETTERS = {PUT_FULL: "p", PUT_PARTIAL: "p", ARITHMETIC: "a", LOGICAL: "a", GET: "g", INTENT: "h"}
REPLIES = {PUT_FULL: 0, PUT_PARTIAL: 0, ARITHMETIC: 1, LOGICAL: 1, GET: 1, INTENT: 2}
PAGE = 4096
GOOD, UNKNOWN = "good", "any"  # kinds of pages that requests may act on: of zeros at first, and of bytes that nobody knows


class Ranges:
    """The pages that lines of a set-up list: a first one, how many, and a kind."""

    def __init__(self, listed: Iterable[tuple[int, int, str]]) -> None:
        self.listed = list(listed)
        self.by_first = sorted(self.listed)
        self.firsts = [first for first, _, _ in self.by_first]

    def kind(self, page: int) -> str | None:
        """The last word of the line that lists a page."""
        at = bisect_right(self.firsts, page) - 1
        first, count, kind = self.by_first[at] if at >= 0 else (0, 0, "")
        return kind if first <= page < first + count else None

    def get(self, page: int) -> str | None:
        """The same, but a page whose bytes nobody knows at first answers as a good one does."""
        kind = self.kind(page)
        return GOOD if kind == UNKNOWN else kind

    def __contains__(self, page: int) -> bool:
        return self.kind(page) is not None


@dataclass(frozen=True)
class Setup:
    clients: int
    quota: int
    ids: int
    depth: int
    longest: int  # how many transfers a burst has at most
    largest: int  # the base-2 logarithm of the largest request's bytes
    width: int
    regions: tuple  # of a TileLink page, a number of pages, an AXI page, and what is permitted
    pages: Ranges
    bad: tuple

    @property
    def lines(self) -> Iterator[str]:
        """The lines of a script."""
        limits = f"{self.clients} {self.quota} {self.ids} {self.depth} {self.longest} {self.largest}"
        yield f"config {limits} {'h' * self.clients} {self.width}"
        yield from (f"region {first:x} {count} {to:x} {letters}" for first, count, to, letters in self.regions)
        yield from (f"page {first:x} {count} {kind}" for first, count, kind in self.pages.listed)
        yield from (f"bad {address:x}" for address in self.bad)

    def place_of(self, page: int) -> int | None:
        """The AXI page to which a region leads from a TileLink page, whatever it permits."""
        return next((to + page - first for first, count, to, _ in self.regions if first <= page < first + count), None)

    def leads(self, first: ABeat) -> int | None:
        """The AXI address to which a region leads from that of a beat, if it permits it; else None."""
        for page, count, to, letters in self.regions:
            if page <= first.address >> 12 < page + count and LETTERS[first.opcode] in letters:
                return first.address + (to - page) * 4096
        return None

    def place(self, beats: tuple[ABeat, ...]) -> int | None:
        """The AXI address of a request that isn't denied at once; else None."""
        return None if any(it.corrupt for it in beats) else self.leads(beats[0])

    def steps(self, beats: tuple[ABeat, ...]) -> int:
        """How many steps a request makes, whatever the schedule is: one for each beat of it and one for its reply, one for each
        burst, one for each beat of that which is performed, one for each R and one for each B."""
        first, at = beats[0], self.place(beats)
        if at is None or first.opcode == INTENT:
            return len(beats) + 1
        transfers = max(1, 2**first.size // self.width)
        bursts = -(-transfers // self.longest)
        read, write = bursts + 2 * transfers, bursts + transfers + bursts
        if first.opcode == GET:
            return len(beats) + read + 1
        if first.opcode in (PUT_FULL, PUT_PARTIAL):
            return len(beats) + write + 1
        return len(beats) + read + (write if self.is_readable(at) else 0) + 1

    def is_readable(self, at: int) -> bool:
        """Whether a read of the eight-byte word at an address is answered with OKAY."""
        return self.pages.get(at >> 12) == GOOD and at & ~7 not in self.bad


class Said(NamedTuple):
    """What a set-up says, by whose level each client asks, and how many lines of it stand ahead of all others."""

    setup: Setup
    levels: str
    profile: str
    errors: str
    count: int


def setup_of(lines: Iterable[str]) -> Said:
    """What the lines of an input say of its set-up."""
    found: dict[str, list[list[str]]] = {it: [] for it in ("config", "region", "page", "bad", "profile", "errors")}
    count, is_ahead = 0, True
    for words in (line.partition("#")[0].split() for line in lines):
        is_ahead = is_ahead and (not words or words[0] in ("config", "region", "page", "bad"))
        count += is_ahead
        if words and words[0] in found:
            found[words[0]].append(words[1:])
    clients, quota, ids, depth, longest, largest, levels, *width = found["config"][0]
    limits = map(int, (clients, quota, ids, depth, longest, largest, *(width or ["8"])))
    regions = tuple((int(first, 16), int(many), int(to, 16), letters) for first, many, to, letters in found["region"])
    pages = Ranges((int(first, 16), int(many), kind) for first, many, kind in found["page"])
    bad = tuple(int(address, 16) & ~7 for address, *_ in found["bad"])
    profile, errors = (found[it][0][0] if found[it] else "" for it in ("profile", "errors"))
    return Said(Setup(*limits, regions, pages, bad), levels, profile, errors, count)


class Pages(dict):
    """The bytes of good pages, which take room when they are looked at. Where nobody knows them at first they began by lot, if there is
    a seed, and else with zeros."""

    def __init__(self, ranges: Ranges, seed: str = "") -> None:
        super().__init__()
        self.ranges, self.seed = ranges, seed

    def __contains__(self, page: object) -> bool:
        return isinstance(page, int) and self.ranges.get(page) == GOOD

    def __missing__(self, page: int) -> bytearray:
        is_by_lot = self.seed and self.ranges.kind(page) == UNKNOWN
        self[page] = bytearray(random.Random(f"{self.seed} {page}").randbytes(PAGE)) if is_by_lot else bytearray(PAGE)
        return self[page]


class Memory:
    def __init__(self, setup: Setup, seed: str = "") -> None:
        self.setup, self.pages = setup, Pages(setup.pages, seed)

    def byte(self, address: int) -> int | None:
        """None outside good pages."""
        return self.pages[address >> 12][address & 0xFFF] if address >> 12 in self.pages else None

    def carry_out(self, client: int, beats: tuple[ABeat, ...]) -> tuple[DBeat, ...]:
        """Carries out a request whole, and returns the beats of its reply."""
        first, at = beats[0], self.setup.place(beats)
        opcode = REPLIES[first.opcode]
        denied, words = 1, [(0, int(opcode == 1))] * beats_of(first.size, opcode == 1)
        if at is not None and (first.opcode == INTENT or at >> 12 in self.setup.pages):
            denied, words = self.answered(at, beats)
        return tuple(DBeat(client, opcode, 0, first.size, first.source, denied, *word) for word in words)

    def answered(self, at: int, beats: tuple[ABeat, ...]) -> tuple[int, list[tuple[int, int]]]:
        """Of a request whose page is listed, or an Intent: whether it is denied; the payload of each beat of the reply, and
        whether that is corrupt."""
        first = beats[0]
        if first.opcode == INTENT:
            return 0, [(0, 0)]
        if first.opcode in (PUT_FULL, PUT_PARTIAL):
            if at >> 12 not in self.pages:
                return 1, [(0, 0)]
            self.put(at, beats)
            return 0, [(0, 0)]
        words = self.read(at, 2**first.size)
        if first.opcode != GET and not words[0][1]:
            self.change(at, first, words[0][0])
        return 0, words

    def read(self, at: int, count: int) -> list[tuple[int, int]]:
        """The byte at address x is in lane x mod 8; the other lanes are zero."""
        words = []
        for word in range(at & ~7, at + count, 8):
            if not self.setup.is_readable(word):
                words.append((0, 1))
                continue
            begin, end = max(at, word), min(at + count, word + 8)
            given = self.pages[word >> 12][begin & 0xFFF : (begin & 0xFFF) + end - begin]
            words.append((int.from_bytes(given, "little") << 8 * (begin % 8), 0))
        return words

    def put(self, at: int, beats: tuple[ABeat, ...]) -> None:
        page, begin = self.pages[at >> 12], at & 0xFFF
        for i in range(2 ** beats[0].size):
            beat, lane = beats[i // 8], (at + i) % 8
            if beat.mask >> lane & 1:
                page[begin + i] = beat.payload >> 8 * lane & 0xFF

    def change(self, at: int, beat: ABeat, payload: int) -> None:
        """Carries out an atomic over a word that was read."""
        count, shift = 2**beat.size, 8 * (at % 8)
        operand = (beat.payload >> shift) % 2 ** (8 * count)
        new = applied(beat.opcode, beat.param, count, payload >> shift, operand)
        self.pages[at >> 12][at & 0xFFF : (at & 0xFFF) + count] = new.to_bytes(count, "little")
