"""zuldegei-waves: the beats in a dump of a bridge's ports, as lines for the scoreboard."""

import sys
import time
from pathlib import Path
from typing import Callable, Dict, List, Optional, Sequence, Tuple

from .command import Fault, Status, ended, words_of
from .ports import Domain, Observer, Port
from .signal_map import HELP, TILELINK, Finder, Reader, SignalMap, ready
from .signals import Names
from .vcd import Dump, opened

NAME = "zuldegei-waves"
MOST_TOLD = 6  # names in a remark
SIDES = (tuple(TILELINK), ("aw", "w", "b"), ("ar", "r"))  # channels of which none is without beats where another has some
SHOWN = tuple(channel for side in SIDES for channel in side)
EVERY = 0.5  # seconds between two looks at the progress


class Progress:
    """A line on a terminal that says how far a long dump is read, and how fast."""

    def __init__(self, dump: Dump, size: int):
        self.dump, self.size, self.began = dump, size, time.monotonic()
        self.next = self.began + EVERY
        self.is_shown = sys.stderr.isatty()
        self.was_shown = False

    def look(self, beats: int) -> None:
        """Shows how far it is, if it is time."""
        now = time.monotonic() if self.is_shown else 0
        if not self.is_shown or now < self.next:
            return
        self.next, self.was_shown = now + EVERY, True
        read = self.dump.lines.bytes / 1e6
        share = f" of {self.size / 1e6:.0f}" if self.size else ""
        rate = read / (now - self.began)
        print(f"\r{NAME}: {read:.0f}{share} MB, {rate:.1f} MB/s, {beats:,} beats ", end="", file=sys.stderr, flush=True)

    def close(self) -> None:
        if self.was_shown:
            print("\r\x1b[K", end="", file=sys.stderr, flush=True)


def values_of(dump: Dump, finder: Finder, the_map: SignalMap) -> Dict[bytes, int]:
    """Chooses the signals that the map names; gives the slot of each."""
    return dump.want([it.signal for it in finder.all_of(the_map.clocks)])


def observe(dump: Dump, the_map: SignalMap, write: Callable[[str], object], size: int = 0, has_waits: bool = False) -> Observer:
    """Prints what passed at the ports that a map names, and if that is asked for how long it waited there."""
    names = Names(dump.head)
    names.layouts = the_map.layouts
    finder = Finder(names)
    slots = values_of(dump, finder, the_map)
    domains = [Domain(it, finder, slots) for it in the_map.clocks if it.channels]
    observer = Observer(the_map, domains, write, has_waits)
    progress = Progress(dump, size)
    try:
        sample(dump, domains, observer, [b"x"] * len(slots), progress)
    finally:
        progress.close()
    for domain in domains:
        if not domain.edges:
            raise Fault(f"the clock {domain.name} has no {'falling' if domain.edge[1] == '0' else 'rising'} edge in the dump")
    return observer


def sample(dump: Dump, domains: List[Domain], observer: Observer, values: List[bytes], progress: Progress) -> None:
    """Goes through the times of a dump; at an edge the values are those before it."""
    clocks = {domain.slot for domain in domains}
    for now, changes in dump.steps():
        if not clocks.isdisjoint(changes):
            risen = [it for it in domains if it.has_edge(values, changes)]
            if risen:
                if dump.off is not None and observer.beats:
                    raise Fault(f"the dump is off from {dump.off} on, so that beats went unseen")
                dump.off = None
                observer.edges(now, risen, values)
                progress.look(observer.beats)
        for slot, value in changes.items():
            values[slot] = value


def ports_of(observer: Observer) -> Dict[str, List[Tuple[Domain, Port]]]:
    """The channels of each port, with their clocks, by the port's name: the clients first."""
    found = [(domain, port) for domain in observer.domains for port in domain.ports]
    found.sort(key=lambda it: (it[1].key.client is None, it[1].key.client or 0, SHOWN.index(it[1].key.channel)))
    ports: Dict[str, List[Tuple[Domain, Port]]] = {}
    for domain, port in found:
        ports.setdefault("AXI4" if port.key.client is None else f"client {port.key.client}", []).append((domain, port))
    return ports


def counted(ports: Dict[str, List[Tuple[Domain, Port]]]) -> str:
    """How many beats passed at each port."""
    parts = [f"{name} {', '.join(f'{it.key.channel.upper()} {it.beats}' for _, it in channels)}" for name, channels in ports.items()]
    return f"beats: {'; '.join(parts)}"


def held(domain: Domain) -> Optional[str]:
    """What to look at where the reset of a clock held at most of its edges, and no beat passed at the others."""
    if domain.reset is None or 2 * domain.resets <= domain.edges or any(it.beats for it in domain.ports):
        return None
    advice = "is high in reset, leave out the word `low`" if domain.released == "1" else "is low in reset, write `low` behind it"
    edges = f"at {'all' if domain.resets == domain.edges else f'{domain.resets} of'} {domain.edges} edges of {domain.name}"
    return f"the reset {domain.reset_name} held, or wasn't known, {edges}, so that no beat passed: if it {advice}; else look at its name"


def silent(name: str, channels: List[Tuple[Domain, Port]]) -> List[str]:
    """What to look at where a port has no beat, or one of its channels none where another of its side has some."""
    if not any(it.beats for _, it in channels):
        waiting = [it for it in channels if it[1].waits] or channels
        return [f"no beat passed at {name}: {why(*waiting[0])}; look at its names and its clock"] if channels else []
    by_channel = {it.key.channel: (domain, it) for domain, it in channels}
    said = []
    for side in SIDES:
        its = [by_channel[it] for it in side if it in by_channel]
        if any(port.beats for _, port in its):
            said += [f"no beat passed on {it[1].key.channel.upper()} of {name}: {why(*it)}" for it in its if not it[1].beats]
    return said


def why(domain: Domain, port: Port) -> str:
    """How the handshake of a channel without a beat stood."""
    valid, ready = port.fields["valid"].name, port.fields["ready"].name
    if port.waits:
        return f"its valid {valid} was high at {port.waits} edges of {domain.name}, and its ready {ready} at none of them"
    return f"its valid {valid} was high at no edge of {domain.name}"


def remarks(observer: Observer) -> List[str]:
    """What is to be said of an observation beside its lines."""
    ports = ports_of(observer)
    said = [counted(ports), *filter(None, map(held, observer.domains))]
    said += [it for name, its in ports.items() for it in silent(name, [it for it in its if not held(it[0])])][:MOST_TOLD]
    lacking = [name for domain in observer.domains for name in domain.lacking]
    if lacking:
        shown = ", ".join(lacking[:MOST_TOLD]) + (f" and {len(lacking) - MOST_TOLD} more" if len(lacking) > MOST_TOLD else "")
        said.append(f"not in the dump, and taken as what a design without it has: {shown}")
    if observer.unknown:
        said.append(f"valid or ready was unknown {observer.unknown} times, first at {observer.unknown_at}: no beat was printed there")
    if observer.held:
        said.append(f"no AW came for the last {len(observer.held)} W beats: they weren't printed")
    return said


def work(arguments: Sequence[str]) -> int:
    """Does what the words ask for."""
    words = words_of(NAME, f"{__doc__}\n{HELP}", f"The ready maps are {', '.join(ready())}.")
    words.add_argument("map", help="where the ports stand in the dump")
    words.add_argument("dump", help="a VCD (.gz too), or an FST")
    words.add_argument("--setup", help="a file of set-up lines that is printed first", metavar="FILE")
    words.add_argument("--end", action="store_true", help="a line `= end` is printed last: all should be quiet there")
    words.add_argument("--waits", action="store_true", help="a line `waited PORT CLOCKS` is printed ahead of each beat that waited for ready")
    given = words.parse_args(arguments)
    the_map = Reader(given.map).read(Path(given.map).read_text(errors="replace"))
    write = sys.stdout.write
    if given.setup:
        write("".join(f"{line}\n" for line in Path(given.setup).read_text(errors="replace").splitlines()))
    with opened(given.dump) as stream:
        size = Path(given.dump).stat().st_size if given.dump.endswith(".vcd") else 0
        observer = observe(Dump(stream), the_map, write, size, given.waits)
    if given.end:
        write("= end\n")
    for remark in remarks(observer):
        print(f"{NAME}: {remark}", file=sys.stderr)
    return Status.DONE


def main() -> int:
    return ended(NAME, lambda: work(sys.argv[1:]))


if __name__ == "__main__":
    sys.exit(main())
