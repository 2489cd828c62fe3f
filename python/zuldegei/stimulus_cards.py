"""The cards of a stimulus: of each bin that zuldegei-cover names what clients can do so that it is reached.

A card is the name of a bin. What it leaves open is drawn by lot. Bins that come about behind the bridge, as orders of answers, are tried by
many requests at once; a reset is nothing that a client does, so that its bins have no cards."""

from typing import Callable, Dict, List, Optional, Sequence, Tuple

from .cover_setup import ABSENT, KIND, LARGEST_OF_A_BEAT, NO_REGION, NOT_PERMITTED, PARAMS, beats_of, permits
from .observation import LAST_WITH_DATA, OPERATIONS, PAGE, WORD
from .stimulus_requests import BLOCK, Requests, bounds

LARGEST_THAT_MEETS = 5  # the size of a block
FLOOD, MOST_OF_FLOOD = 6, 12  # requests at once
SLVERR = "slverr"
OF_SIDE = {"AW": ("put", "atomic"), "AR": ("get", "atomic"), "W": ("put", "atomic"), "R": ("get", "atomic"), "B": ("put", "atomic")}
Pair = Tuple[int, int, int, int]  # the sizes and addresses of two requests


class Cards(Requests):
    """Deals cards: says the lines of each."""

    def deal(self, card: str) -> None:
        """Says what a bin's name asks for."""
        group, *words = card.split("/")
        self.say("#", card)
        CARDS[group](self, *words)

    # ---- a request alone

    def request(self, operation: str, count: str, client: str) -> None:
        self.usual(operation, size_of(count), int(client[6:]))

    def param(self, operation: str, name: str) -> None:
        self.usual(operation, param=PARAMS[operation].index(name))

    def lane(self, operation: str, count: str, at: str) -> None:
        size = size_of(count)
        word = self.usual_place(operation, LARGEST_OF_A_BEAT)
        self.ask(self.client(operation, size), operation, size, word + int(at[2:]))

    def mask(self, where: str, kind: str) -> None:
        size = LARGEST_OF_A_BEAT if where == "one-beat" else self.size("PutPartial", LARGEST_OF_A_BEAT + 1)
        beats = beats_of(OPERATIONS.index("PutPartial"), size)
        self.usual("PutPartial", size, masks=self.message(kind, beats) if where == "message" else [self.shape(kind)] * beats)

    def shape(self, kind: str) -> int:
        """A mask of a word."""
        lot = self.lot.randrange
        first_out, last_out, hole = 0xFE << lot(6) & 0xFF, 0x7F >> lot(6), 0x81 | lot(16) << 2
        return {"full": 0xFF, "empty": 0, "one-lane": 1 << lot(8), "first-out": first_out, "last-out": last_out, "hole": hole}[kind]

    def message(self, kind: str, beats: int) -> List[int]:
        """The masks of a message of several beats."""
        masks = [self.lot.randrange(1, 0xFF) for _ in range(beats)]
        if kind == "differ":
            masks[0] = masks[-1] ^ 0xFF
        elif kind == "all-empty":
            masks = [0] * beats
        else:
            masks[0 if kind == "first-beat-empty" else -1] = 0
        return masks

    def edge(self, operation: str, what: str, where: Optional[str] = None) -> None:
        if where is None:
            self.edge_of_region(operation, what)
            return
        size = size_of(what)
        page = self.page(self.places.usual(operation))
        self.ask(self.client(operation, size), operation, size, page if where == "page-begin" else page + PAGE - (1 << size))

    def edge_of_region(self, operation: str, where: str) -> None:
        """A request at the begin or the end of a region that permits it, or just behind it."""
        size = self.size(operation)
        if where == "behind-region":
            address = self.lot.choice([behind for it, behind in self.setup.ends() if permits(it, operation)])
        else:
            pages = self.lot.choice(self.places.regions(operation))
            address = pages.start * PAGE if where == "region-begin" else pages.stop * PAGE - (1 << size)
        self.ask(self.client(operation, size), operation, size, address)

    def standing(self, operation: str, length: str, kind: str) -> None:
        size = self.size_by_length(operation, length == "beats")
        page = self.page(self.places.standing(operation, kind))
        self.ask(self.client(operation, size), operation, size, self.place(size, page))

    def size_by_length(self, operation: str, has_beats: bool) -> int:
        return self.size(operation, LARGEST_OF_A_BEAT + 1) if has_beats else self.lot.randrange(LARGEST_OF_A_BEAT + 1)

    def corrupt(self, operation: str, where: str) -> None:
        least = LARGEST_OF_A_BEAT + (2 if where == "middle" else 1)
        size = self.lot.randrange(LARGEST_OF_A_BEAT + 1) if where == "only" else self.size(operation, least)
        last = beats_of(OPERATIONS.index(operation), size) - 1
        beats = {"only": [0], "first": [0], "last": [last], "all": range(last + 1), "middle": [self.lot.randrange(1, max(2, last))]}
        self.usual(operation, size, corrupt=beats[where])

    def bad_word(self, operation: str, least: int = 0, most: Optional[int] = None) -> None:
        """A request that has a bad word, of a size within bounds."""
        size = self.size(operation, least) if most is None else self.lot.randrange(least, most + 1)
        words = self.places.bad_words(operation)
        if words:
            self.ask(self.client(operation, size), operation, size, self.lot.choice(words) + self.lot.randrange(WORD) >> size << size)

    # ---- two requests

    def pair(self, where: str, largest: int, largest_later: int) -> Pair:
        """Two requests in a block: the later one's bytes are so to those of the older one."""
        lot, block = self.lot.randrange, self.page(self.places.usual(*self.setup.permitted)) + BLOCK * self.lot.randrange(PAGE // BLOCK)
        if where == "beside-in-word":
            half = 4 * lot(2)
            word = block + WORD * lot(BLOCK // WORD)
            return self.within(word + half, 4, lot(3)) + self.within(word + 4 - half, 4, lot(3))
        if where == "beside-in-32B":
            one, other = self.lot.sample(range(BLOCK // WORD), 2)
            return self.within(block + WORD * one, WORD, lot(4)) + self.within(block + WORD * other, WORD, lot(4))
        if where == "same":
            its = self.within(block, BLOCK, lot(min(largest, largest_later) + 1))
            return its + its
        most = largest if where == "inside" else largest_later
        outer = self.within(block, BLOCK, lot(1, most + 1))
        inner = self.within(outer[1], 1 << outer[0], lot(min(outer[0], (largest_later if where == "inside" else largest) + 1)))
        return outer + inner if where == "inside" else inner + outer

    def within(self, first: int, count: int, size: int) -> Tuple[int, int]:
        """A size, and an address for it within so many bytes."""
        return size, first + (self.lot.randrange(count) >> size << size)

    def two_clients(self, first: str, second: str, whose: str) -> Tuple[int, int]:
        """Who asks for two operations."""
        one, other = self.client(first), self.client(second)
        if whose == "same-client":
            both = [it for it in self.setup.clients_of(first) if it in self.setup.clients_of(second)]
            one = self.lot.choice(both or [one])
            return one, one
        others = [it for it in self.setup.clients_of(second) if it != one]
        return one, self.lot.choice(others or [other])

    def largest(self, operation: str, client: int) -> int:
        return min(LARGEST_THAT_MEETS, self.setup.sizes(operation, client)[-1])

    def conflict(self, kinds: str, where: str, whose: str) -> None:
        first, second = map(self.operation, kinds.split("-then-"))
        one, other = self.two_clients(first, second, whose)
        size, place, later_size, later_place = self.pair(where, self.largest(first, one), self.largest(second, other))
        self.begin_together(one, other)
        if self.lot.randrange(2):
            self.say("hold", one, self.lot.randrange(8, 32))
        self.ask(one, first, size, place)
        if other != one:
            self.say("wait", other, self.lot.randrange(1, 5))
        self.ask(other, second, later_size, later_place)

    def begin_together(self, *clients: int) -> None:
        """Clients that are fast from here on, and begin in the same clock where there are several."""
        if len({*clients}) > 1:
            self.say("meet")
        for it in {*clients}:
            self.pace(it)

    def after_ack(self, kinds: str, whose: str, when: str) -> None:
        later, kind = kinds.split("-after-")
        first = "PutPartial" if kind == "partial-put" and "PutPartial" in self.setup.permitted else self.operation(kind.split("-")[-1])
        second = self.operation(later)
        one, other = self.two_clients(first, second, whose)
        where = self.lot.choice(("same", "inside", "around"))
        size, place, later_size, later_place = self.pair(where, self.largest(first, one), self.largest(second, other))
        self.say("await", one)
        self.begin_together(one, other)
        self.ask(one, first, size, place)
        self.say("await", one)
        if when == "later":
            self.usual(first, client=one)
            self.say("await", one)
        if other != one:
            self.say("meet")
        self.ask(other, second, later_size, later_place)

    # ---- several requests

    def order(self, kinds: str, many: str) -> None:
        new, old = kinds.split("-over-")
        older, newer = self.operation(old), self.operation(new)
        one, _ = self.two_clients(older, newer, "same-client")
        self.begin_together(one)
        for _ in range(1 if many == "1" else 2):
            self.usual(older, self.size(older, LARGEST_OF_A_BEAT, one), one)
        if self.can(one, newer):
            self.usual(newer, self.lot.randrange(LARGEST_OF_A_BEAT + 1), one)

    def can(self, client: int, operation: str) -> bool:
        return client in self.setup.clients_of(operation)

    def flight(self, who: str, many: str) -> None:
        if many in ("alike", "mixed"):
            self.few(who, many == "alike")
            return
        clients = [int(who[6:])] if who.startswith("client") else [*self.setup.clients]
        self.flood(clients, min(bounds(many)[1], MOST_OF_FLOOD), is_held=True)

    def few(self, kind: str, is_alike: bool) -> None:
        """Some requests of a kind in flight together and no others, or one behind one of another kind."""
        for it in self.setup.clients:
            self.say("await", it)
        self.say("meet")
        operation = self.operation(kind)
        one = self.client(operation)
        self.pace(one)
        self.say("hold", one, self.lot.randrange(16, 64))
        others = [it for it in self.setup.permitted if KIND[it] != kind and self.can(one, it)]
        before = operation if is_alike or not others else self.lot.choice(others)
        self.usual(before, client=one)
        self.usual(operation, client=one)
        self.say("await", one)
        self.say("meet")

    def flood(self, clients: Sequence[int], count: int, kinds: Sequence[str] = (), is_held: bool = False) -> None:
        """Many requests at once, of these kinds, or of any: their replies aren't taken meanwhile, or as they come."""
        for it in clients:
            self.pace(it)
            if is_held:
                self.say("hold", it, 4 * count + self.lot.randrange(64))
        for at in range(count):
            client = clients[at % len(clients)]
            mine = [it for it in self.setup.permitted if self.can(client, it) and (not kinds or KIND[it] in kinds)]
            operation = self.lot.choice(mine) if mine else self.any_operation(client)
            self.usual(operation, client=client)

    def source(self, how: str) -> None:
        number = self.lot.randrange(self.sources)
        if how == "of-two-clients":
            self.say("meet")
            for it in self.lot.sample([*self.setup.clients], 2):
                self.usual(self.any_operation(it), client=it, source=number)
            return
        one = self.lot.choice([*self.setup.clients])
        operation = self.any_operation(one)
        others = [it for it in self.setup.permitted if it != operation and self.can(one, it)]
        self.say("await", one)
        self.usual(operation, client=one, source=number)
        self.say("await", one)
        self.usual(self.lot.choice(others or [operation]) if how == "again-other-operation" else operation, client=one, source=number)

    # ---- what comes about behind the bridge

    def burst(self, side: str, what: str) -> None:
        operation = self.lot.choice(self.setup.writes if side == "AW" else self.setup.reads)
        largest, bus = self.setup.all_sizes(operation)[-1], self.setup.config.bus
        if what.endswith("-at-4K"):
            size = self.size(operation)
            self.edge(operation, f"{1 << size}B", "page-begin" if what.startswith("begins") else "page-end")
        elif what == "narrow":
            self.usual(operation, self.lot.randrange(bus.bit_length() - 1))
        elif what == "longest":
            self.usual(operation, largest)
        else:
            self.usual(operation, min(largest, (bounds(what)[1] * bus).bit_length() - 1))

    def behind(self, port: str, *_: str) -> None:
        """A flood of the requests that come to a port, or of any, whose replies wait now and then."""
        self.flood([*self.setup.clients], FLOOD, kinds_of(port), self.lot.randrange(2) == 0)

    def answer(self, port: str, resp: str, when: str = "first") -> None:
        operation = self.lot.choice(self.setup.writes if port == "B" else self.setup.reads)
        kind = {"SLVERR": SLVERR, "DECERR": ABSENT}.get(resp)
        has_beats = self.setup.is_long(operation) and when == "later"
        if kind and self.places.standing(operation, kind) != self.places.usual(operation):
            self.standing(operation, "beats" if has_beats else "word", kind)
        elif kind == SLVERR and port == "R":
            self.bad_word(operation, LARGEST_OF_A_BEAT + 1 if has_beats else 0)
        else:
            self.usual(operation, self.size_by_length(operation, has_beats))

    def reply(self, kind: str, how: str) -> None:
        operation = self.operation(kind)
        if how == "denied":
            self.denied(operation)
        elif how == "corrupt-some-beats":
            self.bad_word(operation, LARGEST_OF_A_BEAT + 1)
        elif how == "corrupt-all-beats":
            self.standing(operation, "beats", SLVERR)
        elif how == "corrupt" and self.places.bad_words(operation):
            self.bad_word(operation, 0, LARGEST_OF_A_BEAT)
        else:
            self.standing(operation, "word", SLVERR if how == "corrupt" else "good")

    def denied(self, operation: str) -> None:
        """A request that is denied: by its page, or by a corrupt beat."""
        kinds = [it for it in (NO_REGION, NOT_PERMITTED, ABSENT) if it in self.setup.standings(operation)]
        if OPERATIONS.index(operation) <= LAST_WITH_DATA and (not kinds or self.lot.randrange(4) == 0):
            self.corrupt(operation, "only")
        elif kinds:
            self.standing(operation, "word", self.lot.choice(kinds))

    # ---- clocks

    def gap(self, port: str, clocks: str) -> None:
        if is_behind("gap", port):
            self.behind(port)
            return
        least = bounds(clocks)[0]
        one, operation = int(port[1:]), self.operation("put" if port[0] == "A" else "get")
        self.pace(one, 0, 0 if port[0] == "A" or not least else 15 if least > 2 else 10)
        gap = least + self.lot.randrange(1 + least) if least else None
        self.usual(operation, self.size(operation, LARGEST_OF_A_BEAT + 1, one), one, gap=gap if port[0] == "A" else None)

    def wait(self, port: str, clocks: str) -> None:
        """A reply that waits for its client, or between its beats; of other ports many requests."""
        if is_behind("wait", port):
            self.behind(port)
            return
        one = int(port[1:])
        has_beats, least = clocks == "within", 2 if clocks == "within" else bounds(clocks)[0]
        operation = self.operation("get") if has_beats else self.any_operation(one)
        size = self.size(operation, LARGEST_OF_A_BEAT + 1, one) if has_beats else None
        self.pace(one, 0, 0 if least == 0 else 6 if least == 1 else 12)
        self.usual(operation, size, one)
        if least > 2:
            self.say("hold", one, self.lot.randrange(24, 64))
            self.say("wait", one, self.lot.randrange(8, 32))


def is_behind(group: str, port: str) -> bool:
    """Whether a bin comes about by many requests at once, since no client alone says when beats pass at its port."""
    return CARDS[group] == Cards.behind or group == "wait" and port[0] != "D" or group == "gap" and port in ("W", "R")


def kinds_of(port: str) -> Sequence[str]:
    """The kinds of requests that come to a port of AXI4, or to which a name of the group `axi` belongs; none stands for all."""
    return OF_SIDE.get(port.partition("-")[0], ())


def card_of(name: str) -> str:
    """The card of a bin: its name, but one flood for all bins that come about by the same flood."""
    group, port = name.split("/")[:2]
    if is_behind(group, port):
        return f"flood {' '.join(kinds_of(port))}"
    return name


def size_of(count: str) -> int:
    """The size of a request of so many bytes, as a bin names them."""
    return int(count[:-1]).bit_length() - 1


CARDS: Dict[str, Callable[..., None]] = {
    "request": Cards.request, "param": Cards.param, "lane": Cards.lane, "mask": Cards.mask, "edge": Cards.edge, "standing": Cards.standing,
    "corrupt": Cards.corrupt, "bad-word": Cards.bad_word, "conflict": Cards.conflict, "after-ack": Cards.after_ack, "order": Cards.order,
    "flight": Cards.flight, "source": Cards.source, "burst": Cards.burst, "id": Cards.behind, "open": Cards.behind, "depth": Cards.behind,
    "axi": Cards.behind, "answer": Cards.answer, "reply": Cards.reply, "gap": Cards.gap, "together": Cards.behind, "wait": Cards.wait,
}  # fmt: skip
