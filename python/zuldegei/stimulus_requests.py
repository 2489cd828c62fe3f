"""Requests of a stimulus as lines: where they go, by the pages of a set-up, and what is drawn by lot of them."""

import random
from functools import lru_cache
from typing import Iterator, List, Optional, Sequence, Tuple

from .cover_setup import ABSENT, KIND, NO_REGION, NOT_PERMITTED, PAGES, PARAMS, Setup, beats_of, full_mask, has_data, permits
from .observation import GOOD, OPERATIONS, PAGE, WORD, Region
from .stimulus_lines import ANY_SOURCE

BLOCK = 32  # bytes within which requests of a card meet
BLOCKS = PAGE // BLOCK
OFTEN = (64, 96, PAGE - BLOCK)  # places of a page to which many requests go


class Places:
    """The TileLink pages of a set-up, by how requests stand there."""

    def __init__(self, setup: Setup):
        self.setup = setup
        self.usual = lru_cache(None)(self.usual_pages)
        self.standing = lru_cache(None)(self.standing_pages)

    def usual_pages(self, *operations: str) -> List[range]:
        """Pages in which all of these operations are carried out; where there are none some in which they are permitted, or any."""
        regions = [it for it in self.setup.regions if all(permits(it, operation) for operation in operations)]
        good = [found for it in regions for kind in GOOD for found in self.of_kind(it, kind)]
        return good or some([*map(pages_of, regions)]) or some([*map(pages_of, self.setup.regions)]) or [range(PAGES)]

    def standing_pages(self, operation: str, standing: str) -> List[range]:
        """Pages in which an operation stands so; the usual ones where there are none."""
        if standing == NO_REGION:
            found = without(range(PAGES), [*map(pages_of, self.setup.regions)])
        elif standing == NOT_PERMITTED:
            found = [pages_of(it) for it in self.setup.regions if not permits(it, operation)]
        else:
            found = [pages for it in self.setup.regions if permits(it, operation) for pages in self.of_kind(it, standing)]
        return some(found) or self.usual(operation)

    def regions(self, operation: str) -> List[range]:
        """The pages of each region that permits an operation; the usual ones where there are none."""
        return some([pages_of(it) for it in self.setup.regions if permits(it, operation)]) or self.usual(operation)

    def of_kind(self, region: Region, kind: str) -> List[range]:
        """The pages of a region that lead to those of a kind."""
        shift, mine = region.first - region.leads_to, pages_of(region)
        listed = [(shared(mine, range(it.start + shift, it.stop + shift)), listed_kind) for it, listed_kind in self.setup.pages]
        if kind == ABSENT:
            return without(mine, [it for it, _ in listed])
        return some([it for it, listed_kind in listed if listed_kind == kind])

    def bad_words(self, operation: str) -> List[int]:
        """The TileLink addresses of bad words that an operation reaches."""
        regions = [it for it in self.setup.regions if permits(it, operation)]
        reached = ((at, it) for at in regions for it in sorted(self.setup.bad) if it // PAGE - at.leads_to in range(at.pages))
        found = (it + (at.first - at.leads_to) * PAGE for at, it in reached)
        return [it for it in found if it < PAGES * PAGE]


def pages_of(region: Region) -> range:
    return shared(range(region.first, region.first + region.pages), range(PAGES))


def shared(one: range, other: range) -> range:
    """The numbers that two ranges share."""
    return range(max(one.start, other.start), min(one.stop, other.stop))


def some(found: Sequence[range]) -> List[range]:
    """The ranges that have a number."""
    return [it for it in found if it]


def without(pages: range, others: Sequence[range]) -> List[range]:
    """What is left of some pages without others."""
    left, at = [], pages.start
    for it in sorted(some(others), key=lambda it: it.start):
        left.append(range(at, min(it.start, pages.stop)))
        at = max(at, it.stop)
    return some([*left, range(at, pages.stop)])


class Requests:
    """Says requests as lines, and counts them up to the most."""

    def __init__(self, setup: Setup, lot: random.Random, most: int, sources: int):
        self.setup, self.lot, self.most, self.sources, self.places = setup, lot, most, sources, Places(setup)
        self.asked = 0
        self.said: List[str] = []
        self.hot = 0  # where requests by lot meet
        self.move()

    def say(self, *words: object) -> None:
        self.said.append(" ".join(map(str, words)))

    def handed_over(self) -> Iterator[str]:
        """The lines that were said since."""
        yield from self.said
        self.said.clear()

    # ---- what is drawn by lot

    def operation(self, kind: str) -> str:
        return self.lot.choice([it for it in self.setup.permitted if KIND[it] == kind])

    def any_operation(self, client: Optional[int] = None) -> str:
        """An operation that is permitted somewhere, or where none is any, of a client."""
        mine = [it for it in OPERATIONS if client in (None, *self.setup.clients_of(it)) and self.setup.clients_of(it)]
        return self.lot.choice([it for it in self.setup.permitted if it in mine] or mine)

    def client(self, operation: str, size: int = 0) -> int:
        """A client that has an operation of a size."""
        return self.lot.choice([it for it in self.setup.clients_of(operation) if size in self.setup.sizes(operation, it)])

    def size(self, operation: str, least: int = 0, client: Optional[int] = None) -> int:
        """A size of at least so much, where there is one, and else the largest."""
        sizes = self.setup.all_sizes(operation) if client is None else self.setup.sizes(operation, client)
        return self.lot.randrange(min(least, sizes[-1]), sizes[-1] + 1)

    def page(self, pages: Sequence[range]) -> int:
        """The address of a page."""
        return self.lot.choice(self.lot.choice(pages)) * PAGE

    def place(self, size: int, page: int) -> int:
        """An address in a page for a request of a size."""
        where = self.lot.choice((*OFTEN, BLOCK * self.lot.randrange(BLOCKS)))
        return page + (where + self.lot.randrange(BLOCK) >> size << size)

    def usual_place(self, operation: str, size: int) -> int:
        return self.place(size, self.page(self.places.usual(operation)))

    def move(self) -> None:
        """Requests by lot meet at another place."""
        self.hot = self.page(self.places.usual(*self.setup.permitted)) + self.lot.choice(OFTEN)

    def masks(self, beats: int) -> List[int]:
        """A mask for each beat."""
        return [self.lot.getrandbits(WORD) for _ in range(beats)]

    # ---- lines

    def ask(
        self, client: int, operation: str, size: int, address: int, *, source: object = ANY_SOURCE, masks: Sequence[int] = (),
        corrupt: Sequence[int] = (), param: Optional[int] = None, gap: Optional[int] = None,
    ) -> None:  # fmt: skip
        """Says a request: masks of PutPartialData by beat, which beats are corrupt, and for how many clocks each later beat waits."""
        if self.asked == self.most:
            return
        self.asked += 1
        opcode, full = OPERATIONS.index(operation), full_mask(size, address)
        beats = beats_of(opcode, size)
        if param is None:
            param = self.lot.randrange(len(PARAMS.get(operation, "0")))
        masks = (masks or self.masks(beats)) if operation == "PutPartial" else [full] * beats
        for beat in range(beats):
            if beat and gap:
                self.say("wait", client, gap)
            payload = self.lot.getrandbits(8 * WORD) if has_data(opcode) else 0
            words = (opcode, param, size, source, f"{address:x}", f"{masks[beat] & full:x}", f"{payload:x}", int(beat in corrupt))
            self.say("a", client, *words)

    def usual(self, operation: str, size: Optional[int] = None, client: Optional[int] = None, **how: object) -> None:
        """Says a request that is carried out."""
        if size is None:
            size = self.size(operation, 0, client)
        its = self.client(operation, size) if client is None else client
        self.ask(its, operation, size, self.usual_place(operation, size), **how)

    def by_lot(self) -> None:
        """Says a request by lot, mostly at the bytes where others meet, or at the end of a page."""
        operation = self.any_operation()
        client = self.client(operation)
        size = self.size(operation, 0, client)
        pages = self.places.usual(operation)
        block = self.lot.choice((self.hot, self.hot, self.hot ^ BLOCK, self.page(pages) + PAGE - BLOCK))
        corrupt = [0] if has_data(OPERATIONS.index(operation)) and self.lot.randrange(32) == 0 else []
        self.ask(client, operation, size, block + self.lot.randrange(BLOCK) >> size << size, corrupt=corrupt)

    def pace(self, client: int, offers: int = 0, takes: int = 0) -> None:
        """Says of how many of 16 clocks none is offered, and none is taken, by lot."""
        self.say("pace", client, offers, takes)

    def mood(self) -> None:
        """Clients are fast, or slow to ask, or slow to take."""
        for client in self.setup.clients:
            self.pace(client, *self.lot.choice(((0, 0), (0, 0), (4, 4), (12, 0), (0, 12), (0, 4))))


def bounds(steps: str) -> Tuple[int, int]:
    """The least and the most of a range that a bin names, as 3-4 or 65+."""
    low, _, high = steps.rstrip("+").partition("-")
    return int(low), int(high or low)
