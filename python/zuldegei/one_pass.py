"""One pass over the lines of an observation, in which all that take them get each."""

from pathlib import Path
from typing import Dict, Iterable, Protocol, TextIO, Union

from .command import Fault
from .observation import Beat, fault_of, passed


class Taker(Protocol):
    """What takes lines in their order, and refuses one by a Fault, a ValueError or an IndexError."""

    def take(self, it: Beat) -> None:
        """Takes a line."""

    def finish(self) -> None:
        """The observation is over."""


def opened(path: Union[str, Path]) -> TextIO:
    """The lines of a file that has an observation."""
    return open(path, encoding="ascii", errors="replace", newline="\n")


def read(lines: Iterable[str], taker: Taker) -> None:
    """Hands over a whole observation; a fault names the line that is refused."""
    for it in passed(lines):
        try:
            taker.take(it)
        except (ValueError, IndexError, Fault) as why:
            raise fault_of(it, why) from why
    taker.finish()


class Several:
    """Some that take the same lines, each up to a fault of its own."""

    def __init__(self, *takers: Taker):
        self.going = takers
        self.faults: Dict[Taker, Fault] = {}

    def take(self, it: Beat) -> None:
        for taker in self.going:
            try:
                taker.take(it)
            except (ValueError, IndexError, Fault) as why:
                self.drop(taker, fault_of(it, why))

    def finish(self) -> None:
        for taker in self.going:
            try:
                taker.finish()
            except Fault as why:
                self.drop(taker, why)

    def drop(self, taker: Taker, fault: Fault) -> None:
        """One takes no more lines."""
        self.going = tuple(it for it in self.going if it is not taker)
        self.faults[taker] = fault
