"""Set-ups of memories of a GB and more, whose pages are ranges."""

from __future__ import annotations

import random

from model import GOOD, PAGE, UNKNOWN, Ranges, Setup

FAILING = "slverr"
KINDS = GOOD, UNKNOWN
GIGABYTE, ALL = 1 << 18, 1 << 20  # in pages
EACH, GETS = "gpah", "g---"  # what a region permits


def setup_of(regions: list[tuple], listed: list[tuple], bad: list[int]) -> Setup:
    """Three clients before regions, pages and bad words."""
    return Setup(3, 8, 16, 16, 256, 12, 8, tuple(regions), Ranges(listed), tuple(bad))


def one_range(kind: str) -> Setup:
    """A GB in a line. Regions lead there, for Gets alone to its first pages, to pages that fail, and to some that aren't there."""
    first, end = 0x80000, 0x80000 + GIGABYTE
    regions = [(0x10000, GIGABYTE, first, EACH), (0x60000, 64, first, GETS), (0x70000, 4, end, EACH), (0x78000, 4, 0x1000, EACH)]
    return setup_of(regions, [(first, GIGABYTE, kind), (end, 4, FAILING)], [first * PAGE + 8 * at for at in range(0, 1 << 15, 513)])


def many_ranges(kind: str) -> Setup:
    """Somewhat more than a GB in 62 lines, each in a part of all pages of its own, and behind each range one page that fails and one
    that isn't there. Regions lead to the parts in another order, one for Gets alone to the first pages, and one to absent pages."""
    rng, parts, part = random.Random(62), 62, ALL // 64
    count = -(-GIGABYTE // parts)
    firsts = [part * at + rng.randrange(part - count - 2) for at in range(parts)]
    listed = [(first, count, kind) for first in firsts] + [(first + count, 1, FAILING) for first in firsts]
    regions = [(part * at, count + 2, first, EACH) for at, first in enumerate(rng.sample(firsts, parts))]
    regions += [(62 * part, 64, firsts[0], GETS), (63 * part, 64, 63 * part, EACH)]
    return setup_of(regions, rng.sample(listed, len(listed)), [first * PAGE + 8 * rng.randrange(512) for first in firsts])


def all_pages(kind: str) -> Setup:
    """4 GB in a line: all pages that there are. The upper half stands first, and its first pages a second time, for Gets alone."""
    half, last = ALL // 2, 64
    regions = [(0, half, half, EACH), (half, half - last, 0, EACH), (ALL - last, last, half, GETS)]
    return setup_of(regions, [(0, ALL, kind)], [half * PAGE + 8 * at for at in range(0, 1 << 15, 513)])


SHAPES = {"1 GB in a range": one_range, "1 GB in 62 ranges": many_ranges, "4 GB": all_pages}
