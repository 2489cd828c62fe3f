"""Takes an observation in one pass, line by line, and notes which bins its beats reach. What it keeps grows with what is in flight, and not
with the run."""

from typing import Callable, Dict, Iterable, List, Optional

from .command import Fault
from .cover_bins import CLOCKS_WAITED, OTHERS_WAITED, TIMES, WAITS, bins_of, clocks
from .cover_port import Port
from .cover_requests import Requests
from .cover_setup import Config, Setup, config_of
from .cover_times import Hits, Times
from .observation import A, AR, AW, B, D, DRAINED, EVENT, FIELDS, R, RESET, TIME, W, Beat, Observation
from .one_pass import read

SET_UP = ("region", "page", "bad", "profile", "errors")  # lines that stand ahead of all beats


class Reader:
    """Takes the lines of an observation, in their order."""

    def __init__(self, clock: Optional[int] = None):
        self.hits = Hits()
        self.times = Times(self.hits, clock)
        self.seen = Observation("")  # what the set-up says
        self.config: Optional[Config] = None
        self.setup: Optional[Setup] = None  # whole from the first beat on
        self.requests: Optional[Requests] = None
        self.port: Optional[Port] = None
        self.waited: Dict[str, int] = {}  # by port the clocks for which its next beat waited
        self.unwaited: Dict[str, List[int]] = {}  # by port how many beats had no such line ahead, and which was the first
        self.has_waits = False
        self.beats = 0
        self.takers: Dict[str, Callable[[Beat], None]] = {
            TIME: self.time, WAITS: self.wait, "config": self.configure, "fill": self.skip, EVENT: self.event, "mem": self.skip,
        }  # fmt: skip

    def read(self, lines: Iterable[str]) -> "Reader":
        """Takes a whole observation."""
        read(lines, self)
        return self

    def take(self, it: Beat) -> None:
        """Takes a line."""
        if it.kind in FIELDS:
            self.beat(it)
        elif it.kind in self.takers:
            self.takers[it.kind](it)
        elif self.setup is None:
            self.seen.set_up(it.line, [it.kind, *it.words])
        elif it.kind in SET_UP:
            raise ValueError("a line of the set-up behind a beat")

    def finish(self) -> None:
        """The observation is over."""
        if self.setup is None:
            self.begin()
        self.times.finish()
        for port, (count, line) in self.unwaited.items() if self.has_waits else ():
            self.hits.add(f"wait/{port}/0", count, line)

    # ---- lines

    def skip(self, it: Beat) -> None:
        """A line that plays no part here."""

    def time(self, it: Beat) -> None:
        self.times.at(it.time)

    def configure(self, it: Beat) -> None:
        """Takes the config line."""
        if self.config is not None:
            raise Fault("is a second config line")
        self.seen.set_up(it.line, [it.kind, *it.words])
        self.config = config_of(it.words)

    def wait(self, it: Beat) -> None:
        """A line `waited`: the clocks for which the port's next beat waited."""
        self.has_waits = True
        self.waited[it.words[0]] = int(it.words[1])

    def event(self, it: Beat) -> None:
        """A reset, or a port of which beats weren't seen."""
        name = it.words[0] if it.words else ""
        if name not in (RESET, DRAINED):
            return
        if self.setup is None:
            self.begin()
        if name == DRAINED:
            self.port.clear()
            return
        found, also = [*self.requests.reset()], [*self.port.reset()]
        is_idle = "idle" in found and "idle" in also
        for state in ["idle"] if is_idle else [state for state in found + also if state != "idle"]:
            self.hits.hit(f"reset/{state}", it.line)

    # ---- beats

    def begin(self) -> None:
        """The set-up is whole."""
        if self.config is None:
            raise Fault("no config line stands ahead of the first beat or reset")
        self.setup = Setup(self.config, self.seen)
        self.requests = Requests(self.setup, self.hits, self.times)
        self.port = Port(self.setup, self.hits, self.times)

    def beat(self, it: Beat) -> None:
        """Takes a beat; one with an unknown field changes nothing."""
        if self.setup is None:
            self.begin()
        kind, words = it.kind, it.words
        self.beats += 1
        port = kind + str(int(words[0])) if kind in (A, D) else kind
        self.times.seen(port, it.line)
        self.ready(port, it.line)
        try:
            if kind == A:
                self.requests.ask(words, it.line, it.time)
            elif kind == D:
                self.requests.reply(words, it.line, it.time)
            elif kind in (AW, AR):
                self.port.address(kind, words, it.line, it.time)
            else:
                {W: self.port.write, B: self.port.answer, R: self.port.read}[kind](words, it.line, it.time)
        except ValueError:  # a digit that nobody knows
            pass

    def ready(self, port: str, number: int) -> None:
        """How long a beat waited for ready: not at all where no line says so."""
        count = self.waited.pop(port, None)
        if count is None:
            known = self.unwaited.setdefault(port, [0, number])
            known[0] += 1
            return
        self.hits.hit(f"wait/{port}/{clocks(count, CLOCKS_WAITED, OTHERS_WAITED)}", number)
        if count and self.is_within(port):
            self.hits.hit(f"wait/{port}/within", number)

    def is_within(self, port: str) -> bool:
        """Whether a port's next beat belongs to a message or burst that has begun."""
        if port in ("W", "R"):
            return self.port.is_amid if port == "W" else self.port.reading is not None
        of_client = {"A": self.requests.begun, "D": self.requests.replying}.get(port[0]) if port[1:].isdigit() else None
        return of_client is not None and int(port[1:]) < len(of_client) and of_client[int(port[1:])] is not None

    # ---- what came of it

    def bins(self) -> List[str]:
        """The bins that there are for what was read."""
        return bins_of(self.setup, [TIMES] * self.times.has_times + [WAITS] * self.has_waits)
