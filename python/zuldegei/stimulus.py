"""zuldegei-stimulus: requests for a bridge's clients as lines, dealt from the names of what zuldegei-cover counts."""

import argparse
import random
import re
import sys
from fnmatch import fnmatchcase
from pathlib import Path
from typing import Callable, Dict, Iterator, List, Mapping, NamedTuple, Optional, Sequence

from . import __version__
from .command import Fault, Status, ended, naming, words_of
from .cover_bins import GROUPS, TIMES, WAITS, bins_of
from .cover_read import Reader
from .cover_report import cover_of_json, withouts_of
from .cover_setup import Setup
from .observation import plural
from .one_pass import opened
from .stimulus_cards import CARDS, Cards, card_of

NAME = "zuldegei-stimulus"
MOST_REQUESTS = 1_000_000_000
MOODS, OF_MISSED, MISSED = 6, 8, 7  # a mood before one deal of so many; of so many deals of a missed bin, or of any
DEALS = 16  # of so many deals --lots says how many are requests by lot
MORE = """
Each case that --setup allows, a bin of zuldegei-cover, is a card: it deals a request, or several, that reach the bin; what its name leaves
open is drawn by lot. The cards are dealt in an order by lot, each once and then again. With --missed, a file that zuldegei-regress --cover
or zuldegei-cover --json wrote, seven of eight cards are those of bins that no run of it reached.

  zuldegei-regress --setup setup.lines --seeds 1-20 --cover night.cover --command './simulate {seed}'
  zuldegei-stimulus --setup setup.lines --missed night.cover --seed 21 >missed.play

The lines that it prints are played by interfaces/systemverilog/zuldegei_client.sv, or by zuldegei.player in Python; docs/STIMULUS.md says
what each of them does. Comments name the card that is dealt behind them. The same words give the same lines.
"""


class Deck:
    """Cards in an order by lot, each once, and then again."""

    def __init__(self, cards: Sequence[str], lot: random.Random):
        self.cards, self.lot = cards, lot
        self.left: List[str] = []

    def next(self) -> str:
        if not self.left:
            self.left = self.lot.sample(self.cards, len(self.cards))
        return self.left.pop()


def bins_with_cards(setup: Setup, left_out: Sequence[str]) -> List[str]:
    """The bins of a set-up that have a card, but those that are left out."""
    bins = (it for it in bins_of(setup, (TIMES, WAITS)) if it.partition("/")[0] in CARDS)
    return [it for it in bins if not any(fnmatchcase(it, pattern) for pattern in left_out)]


def cards_of(bins: Sequence[str], weights: Mapping[str, int]) -> List[str]:
    """The cards of some bins, each as often as its group's weight says, and by the name of its first bin."""
    cards = {card_of(it): it for it in reversed(bins)}
    return [it for it in reversed([*cards.values()]) for _ in range(weights.get(it.partition("/")[0], 1))]


class Wanted(NamedTuple):
    """What is asked of a stimulus; `missed` are bins that count more, where some are known, and `left_out` patterns of bins without
    cards."""

    seed: int = 1
    requests: int = 200
    lots: int = 0  # of sixteen deals
    sources: int = 16
    missed: Optional[Sequence[str]] = None
    left_out: Sequence[str] = ()
    weights: Mapping[str, int] = {}


class Stimulus:
    """The lines of a stimulus."""

    def __init__(self, setup: Setup, wanted: Wanted):
        self.wanted, self.lot = wanted, random.Random(wanted.seed)
        self.cards = Cards(setup, self.lot, wanted.requests, wanted.sources)
        self.bins = bins_with_cards(setup, wanted.left_out)
        self.missed = [it for it in self.bins if it in {*(wanted.missed or ())}]
        self.all, self.of_missed = (Deck(cards_of(it, wanted.weights), self.lot) for it in (self.bins, self.missed))

    def lines(self) -> Iterator[str]:
        """The head, and then a card or a request by lot at a time, until all requests are asked."""
        yield f"# {NAME} {__version__}: {plural(self.wanted.requests, 'request')}, {self.says()}"
        yield f"seed {self.wanted.seed}"
        while self.cards.asked < self.wanted.requests:
            if self.lot.randrange(MOODS) == 0:
                self.cards.move()
                self.cards.mood()
            self.deal()
            yield from self.cards.handed_over()

    def deal(self) -> None:
        """Deals a card, or where there is none, or so many are asked for, a request by lot."""
        if not self.all.cards or self.lot.randrange(DEALS) < self.wanted.lots:
            self.cards.say("# by lot")
            self.cards.by_lot()
        else:
            is_missed = self.of_missed.cards and self.lot.randrange(OF_MISSED) < MISSED
            self.cards.deal((self.of_missed if is_missed else self.all).next())

    def says(self) -> str:
        """What is dealt."""
        if self.wanted.missed is None:
            return f"from {plural(len(self.bins), 'bin')}"
        return f"from {plural(len(self.missed), 'bin')} that no run reached" if self.missed else "and no bin with a card was missed"


USUAL = Wanted()

# ---- what is asked for


def setup_of(path: str) -> Setup:
    """The set-up of a file of set-up lines, or of an observation."""
    with naming(path), opened(path) as file:
        try:
            return Reader().read(file).setup
        except Fault as why:
            raise Fault(f"{path}: {why}") from why


def missed_of(path: str) -> List[str]:
    """The bins that a file of zuldegei-regress --cover has, and that no run reached."""
    with naming(path), opened(path) as file:
        return [name for name, count in cover_of_json(file.read(), path).bins.items() if not count.count]


def number(least: int, most: int) -> Callable[[str], int]:
    """Reads a number within bounds."""

    def read(text: str) -> int:
        if not re.fullmatch(r"\d{1,18}", text, re.ASCII) or not least <= int(text) <= most:
            raise argparse.ArgumentTypeError(f"{text} is none of {least} to {most}")
        return int(text)

    return read


def weights_of(text: str) -> Dict[str, int]:
    """Reads GROUP=N,.."""
    found = {}
    for part in text.split(","):
        group, _, count = part.partition("=")
        if group not in {it.name for it in GROUPS} or not re.fullmatch(r"\d{1,3}", count, re.ASCII):
            raise argparse.ArgumentTypeError(f"{part!r} isn't GROUP=N, with a group of zuldegei-cover and up to three digits")
        if group not in CARDS:
            raise argparse.ArgumentTypeError(f"no client can reach {group}, so that it has no cards")
        found[group] = int(count)
    return found


def work(arguments: Sequence[str]) -> int:
    """Does what the words ask for."""
    words = words_of(NAME, __doc__, MORE)
    words.add_argument("--setup", required=True, metavar="FILE", help="the set-up, as tlscore reads it")
    words.add_argument("--seed", type=number(0, 10**18 - 1), default=1, metavar="N", help="chooses the lines (1)")
    requests, sources = f"how many requests of all clients ({USUAL.requests})", f"how many sources a client has ({USUAL.sources})"
    words.add_argument("--requests", type=number(1, MOST_REQUESTS), default=USUAL.requests, metavar="N", help=requests)
    words.add_argument("--missed", metavar="FILE", help="what runs reached: cards of what they missed count more")
    words.add_argument("--without", type=Path, metavar="FILE", help="bins that have no cards, as zuldegei-cover takes them")
    words.add_argument("--weights", type=weights_of, default={}, metavar="GROUP=N,..", help="how often a group's cards are in the deck (1)")
    words.add_argument("--lots", type=number(0, DEALS), default=0, metavar="N", help=f"of {DEALS} deals how many are requests by lot (0)")
    words.add_argument("--sources", type=number(1, 256), default=USUAL.sources, metavar="N", help=sources)
    given = words.parse_args(arguments)
    missed = missed_of(given.missed) if given.missed else None
    left_out = [it.pattern for it in withouts_of(given.without)] if given.without else []
    wanted = Wanted(given.seed, given.requests, given.lots, given.sources, missed, left_out, given.weights)
    for line in Stimulus(setup_of(given.setup), wanted).lines():
        print(line)
    return Status.DONE


def main() -> int:
    return ended(NAME, lambda: work(sys.argv[1:]))


if __name__ == "__main__":
    sys.exit(main())
