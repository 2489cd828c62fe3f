"""zuldegei-times: how long requests and bursts took, how many were in flight, what took too long, and how long beats waited for ready."""

import argparse
import json
import sys
from pathlib import Path
from typing import Dict, Iterator, List, Optional, Sequence

from .command import Fault, Status, Words, ended, words_of
from .latency import Latencies, Times
from .observation import Beat
from .one_pass import opened, read
from .wait_times import Waits
from .whole import written

NAME = "zuldegei-times"
MOST_SHOWN, MOST_NUMBER = 20, (1 << 64) - 1
MORE = """
OBSERVATION is what tlscore reads, with a line `time T` ahead of the beats of each clock: all times are in its unit, and so is N. A
request goes from its first beat on channel A to the last beat of its reply, a write from AW to B, a read from AR to its last R beat.
Of each client's operations, and of the reads and writes of the AXI4 port, it prints

  count           how many were answered
  least .. most   what they took: the least, what half of them took at most, what 9 of 10 took at most, the most; half and 9 of 10
                  are rounded down, by less than a 32nd
  bytes a clock   the bytes of their requests or bursts in a clock, from the first beat to the last time
  how many took   a histogram: from 0, 1, 2, 4, 8 .. up to the next
  in flight       how many were at once, on average and at most

A clock is the least step between two times, unless --clock says how long it is. What a reset cuts, and what isn't answered at the
end, counts as in flight and isn't among the answered.

Where lines `waited PORT CLOCKS` stand in it, it prints of each port for how many clocks its beats waited for ready, 0 where no line
says so, which waited longest first, and a histogram. These are clocks, and no units of time; no --late looks at them.

With --late N each request and each burst that took longer than N is told, the first to begin first, answered or not:

  = late 229 client 0 source 13 at 2215 answered after 1290: PutFull of 2 bytes at 00001fe0

Status 0: nothing is late, or --late isn't asked for; 1: something is. No rule of TileLink or AXI4 says how long an answer may take.
"""


def counting(text: str) -> int:
    """A number of 1 or more."""
    if not (text.isascii() and text.isdigit() and 1 <= int(text[:21]) <= MOST_NUMBER):
        raise argparse.ArgumentTypeError(f"{text[:40]!r} is no number from 1 to {MOST_NUMBER}")
    return int(text)


class Tables:
    """What is told of an observation, as text and as JSON."""

    def __init__(self, found: Latencies, waits: Waits, clock: Optional[int]):
        self.found = found
        self.waits = waits.ports()
        self.clock = clock or found.step or 1
        self.clocks = (found.now - found.first) / self.clock + 1
        self.kinds = sorted(found.kinds.items())
        self.sides = sorted(found.sides.items())

    def text(self) -> Iterator[str]:
        """All tables, line by line."""
        wide = max([len(name) for name, _ in (*self.kinds, *self.sides)] + [13])
        if self.kinds:
            yield f"{'answered':{wide}} {'count':>7} {'least':>7} {'half':>7} {'9 of 10':>7} {'most':>7}  bytes a clock"
        for name, it in self.kinds:
            numbers = (it.count, it.least, it.part(5), it.part(9), it.most)
            yield f"{name:{wide}} {' '.join(f'{number:7}' for number in numbers)}  {it.bytes / self.clocks:13.3f}"
        yield from histograms("how many took", wide, {name: it.histogram() for name, it in self.kinds})
        if self.sides:
            yield f"{'in flight':{wide}} average    most"
        for name, load in self.sides:
            yield f"{name:{wide}} {self.average(load.total):7.3f} {load.most:7}"
        yield from self.waited(wide)
        yield f"from {self.found.first} to {self.found.now}, with a clock of {self.clock}"

    def waited(self, wide: int) -> Iterator[str]:
        """How many clocks beats waited, by port."""
        if self.waits:
            yield f"{'waited, clocks':{wide}} {'beats':>7} {'least':>7} {'half':>7} {'9 of 10':>7} {'most':>7}  first"
        for name, it in self.waits:
            times, longest = it.times, it.longest
            numbers = (times.count, times.least, times.part(5), times.part(9), times.most)
            first = f"  line {longest.line} at {longest.time}" if longest else ""
            yield f"{name:{wide}} {' '.join(f'{number:7}' for number in numbers)}{first}"
        yield from histograms("of these beats", wide, {name: it.times.histogram() for name, it in self.waits})

    def average(self, total: int) -> float:
        """How many were in flight on average, of which all together were so long."""
        return total / (self.found.now - self.found.first or 1)

    def late(self) -> Iterator[str]:
        """What took too long."""
        watch = self.found.watch
        for it in watch.first:
            yield f"= late {it.beat.line} {it.text(self.found.now)}"
        if watch.count > len(watch.first):
            yield f"and {watch.count - len(watch.first)} more"
        yield f"{watch.count} took longer than {watch.limit}"

    def entry(self) -> Dict[str, object]:
        """What the JSON has."""
        found, late = self.found, {}
        if found.watch:
            late = {"late": {"limit": found.watch.limit, "count": found.watch.count, "first": self.late_entries()}}
        kinds = {name: self.kind_entry(it) for name, it in self.kinds}
        sides = {name: {"average": round(self.average(it.total), 6), "most": it.most} for name, it in self.sides}
        waits = {name: {**numbers_of(it.times), "longest": it.longest and it.longest.line} for name, it in self.waits}
        more = {**({"waited": waits} if waits else {}), **late}
        return {"begin": found.first, "end": found.now, "clock": self.clock, "answered": kinds, "in flight": sides, **more}

    def kind_entry(self, it: Times) -> Dict[str, object]:
        return {**numbers_of(it), "bytes": it.bytes, "bytes a clock": round(it.bytes / self.clocks, 6)}

    def late_entries(self) -> List[Dict[str, object]]:
        now = self.found.now
        return [
            {"line": it.beat.line, "of": it.place(), "begun": it.begun, "took": it.took(now), "end": it.how.name.lower(), "text": it.text(now)}
            for it in self.found.watch.first
        ]


def numbers_of(it: Times) -> Dict[str, object]:
    """What the JSON has of times."""
    numbers = {"count": it.count, "least": it.least, "half": it.part(5), "9 of 10": it.part(9), "most": it.most}
    histogram = {str(least): count for least, count in it.histogram().items()}
    return {**numbers, "mean": round(it.total / it.count, 6), "histogram": histogram}


def histograms(title: str, wide: int, counts: Dict[str, Dict[int, int]]) -> Iterator[str]:
    """How many took how long: a column for each power of two, from the least that any took to the most."""
    used = sorted({least for it in counts.values() for least in it})
    columns = [it for it in (0, *(1 << at for at in range(65))) if used and used[0] <= it <= used[-1]]
    if columns:
        yield f"{title:{wide}} {' '.join(f'{it:>7}' for it in columns)}"
    for name, it in counts.items():
        yield f"{name:{wide}} {' '.join(f'{it.get(least, 0):7}' for least in columns)}"


class Found:
    """Takes an observation: how long what it has took, and how long beats waited."""

    def __init__(self, late: Optional[int], most: int):
        self.latencies, self.waits = Latencies(late, most), Waits()

    def take(self, it: Beat) -> None:
        """Takes a line."""
        self.latencies.take(it)
        self.waits.take(it)

    def finish(self) -> None:
        """The observation is over."""
        self.latencies.finish()


def found_in(path: str, late: Optional[int], most: int) -> Found:
    """What a file has."""
    found = Found(late, most)
    with opened(path) as file:
        try:
            read(file, found)
        except Fault as why:
            raise Fault(f"{path}: {why}") from why
    return found


def all_words() -> Words:
    words = words_of(NAME, __doc__, MORE)
    words.add_argument("observation", metavar="OBSERVATION", help="what tlscore read, with times")
    words.add_argument("--late", type=counting, metavar="N", help="tell what took longer than N units of time")
    words.add_argument("-n", type=counting, default=MOST_SHOWN, metavar="COUNT", help=f"how many late ones are shown ({MOST_SHOWN})")
    words.add_argument("--clock", type=counting, metavar="N", help="the units of time of a clock (the least step between two times)")
    words.add_argument("--json", metavar="FILE", help="where JSON goes")
    return words


def work(arguments: Sequence[str]) -> int:
    """Does what the words ask for."""
    given = all_words().parse_args(arguments)
    both = found_in(given.observation, given.late, given.n)
    found = both.latencies
    tables = Tables(found, both.waits, given.clock)
    for line in tables.text():
        print(line)
    for line in tables.late() if found.watch else ():
        print(line)
    if given.json:
        with written(Path(given.json)) as file:
            file.write(json.dumps(tables.entry(), indent=1) + "\n")
    return Status.WRONG if found.watch and found.watch.count else Status.DONE


def main() -> int:
    return ended(NAME, lambda: work(sys.argv[1:]))


if __name__ == "__main__":
    sys.exit(main())
