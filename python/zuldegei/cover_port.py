"""Which bins the beats of the AXI4 port reach, in one pass: what bursts are, and what is open beside them."""

from collections import OrderedDict, deque
from typing import Deque, Dict, Iterator, Optional, Sequence, Tuple

from .cover_bins import id_range, step
from .cover_setup import Setup
from .cover_times import Hits, Times
from .observation import PAGE

INCR, RESPONSES = 1, ("OKAY", "SLVERR", "DECERR")  # EXOKAY is never right, and others aren't known
OPEN_BEYOND = 2  # times DEPTH: as many bursts of an ID are followed, as tlscore does


class Burst:
    """A burst that is open."""

    __slots__ = ("side", "id", "transfers", "passed")

    def __init__(self, side: str, ident: int, transfers: int):
        self.side, self.id, self.transfers, self.passed = side, ident, transfers, 0

    @property
    def is_whole(self) -> bool:
        return self.passed == self.transfers


class Port:
    """The bursts that are open."""

    def __init__(self, setup: Setup, hits: Hits, times: Times):
        self.setup, self.config, self.hit, self.times = setup, setup.config, hits.hit, times
        self.most = {side: setup.transfers(side) for side in setup.sides}
        self.clear()

    def clear(self) -> None:
        """No burst is open."""
        self.open: Dict[str, "OrderedDict[Burst, None]"] = {"AW": OrderedDict(), "AR": OrderedDict()}  # the oldest first
        self.of_id: Dict[Tuple[str, int], Deque[Burst]] = {}
        self.lacking: Deque[Burst] = deque()  # writes that lack data
        self.early = 0  # W beats for which no AW has come
        self.is_amid = False  # the last W beat wasn't the last of its burst
        self.reading: Optional[Burst] = None  # the read of the last R beat, if that wasn't its last

    def address(self, side: str, words: Sequence[str], line: int, time: Optional[int]) -> None:
        """Takes an AW or an AR; one that opens no burst changes nothing."""
        ident, address, length, size, kind = (int(it, 16 if at == 1 else 10) for at, it in enumerate(words))
        mine, config = self.of_id.setdefault((side, ident), deque()), self.config
        if ident >= config.ids or 1 << size > config.bus or kind != INCR or len(mine) >= OPEN_BEYOND * config.depth:
            return
        self.shape(side, address, length + 1, size, line)
        burst = Burst(side, ident, length + 1)
        if side == "AW":
            self.begin_write(burst, line)
        self.open[side][burst] = None
        mine.append(burst)
        self.hit(f"id/{side}/{id_range(ident, config.ids)}", line)
        self.hit(f"open/{side}/{step(len(self.open[side]))}", line)
        self.hit(f"depth/{side}/{step(len(mine))}", line)
        if len(mine) == config.depth > 1:
            self.hit(f"depth/{side}/deepest", line)
        if self.of_id.get(("AR" if side == "AW" else "AW", ident)):
            self.hit("axi/read-and-write-of-ID", line)
        self.times.passed(side, time)

    def shape(self, side: str, address: int, transfers: int, size: int, line: int) -> None:
        """A burst's transfers, and where it lies."""
        each = 1 << size
        behind = address // each * each + transfers * each
        self.hit(f"burst/{side}/{step(transfers)}", line)
        found = {
            "longest": transfers == self.most.get(side) != 1,
            "narrow": each < self.config.bus,
            "begins-at-4K": address % PAGE == 0,
            "ends-at-4K": behind % PAGE == 0,
        }
        for name in (it for it, holds in found.items() if holds):
            self.hit(f"burst/{side}/{name}", line)

    def begin_write(self, burst: Burst, line: int) -> None:
        """An AW takes the data that came ahead of it."""
        if self.lacking:
            self.hit("axi/AW-with-older-W-due", line)
        if self.early:
            self.hit("axi/W-ahead-of-AW", line)
        burst.passed = min(self.early, burst.transfers)
        self.early -= burst.passed
        if not burst.is_whole:
            self.lacking.append(burst)

    def write(self, words: Sequence[str], line: int, time: Optional[int]) -> None:
        """Takes a W beat."""
        int(words[1], 16)
        is_last = int(words[2]) == 1
        if not self.lacking and not self.setup.may_data_come_early:
            return
        if self.is_amid:
            self.times.gap("W", line, time)
        self.times.passed("W", time)
        self.is_amid = not is_last
        if self.lacking:
            self.lacking[0].passed += 1
            if self.lacking[0].is_whole:
                self.lacking.popleft()
        else:
            self.early += 1

    def answer(self, words: Sequence[str], line: int, time: Optional[int]) -> None:
        """Takes a B, which answers the oldest write of its ID."""
        mine = self.of_id.get(("AW", int(words[0])))
        if not mine or not mine[0].is_whole or words[1] not in RESPONSES:
            return
        self.hit(f"answer/B/{words[1]}", line)
        self.close(mine.popleft(), "axi/B-out-of-order", line)
        self.times.passed("B", time)

    def read(self, words: Sequence[str], line: int, time: Optional[int]) -> None:
        """Takes an R beat, which is of the oldest read of its ID."""
        mine = self.of_id.get(("AR", int(words[0])))
        if not mine or words[2] not in RESPONSES or (int(words[3]) == 1) != (mine[0].passed + 1 == mine[0].transfers):
            return
        burst = mine[0]
        self.hit(f"answer/R/{words[2]}/{'later' if burst.passed else 'first'}", line)
        if self.reading is burst:
            self.times.gap("R", line, time)
        elif self.reading is not None:
            self.hit("axi/R-between-IDs", line)
        self.times.passed("R", time)
        burst.passed += 1
        self.reading = None if burst.is_whole else burst
        if burst.is_whole:
            self.times.ports.add("last")
            self.close(mine.popleft(), "axi/R-out-of-order", line)

    def close(self, burst: Burst, name: str, line: int) -> None:
        """A burst is answered, perhaps ahead of an older one."""
        if next(iter(self.open[burst.side])) is not burst:
            self.hit(name, line)
        del self.open[burst.side][burst]

    def reset(self) -> Iterator[str]:
        """Forgets all; says what was under way."""
        found = {"write-lacks-data": bool(self.lacking), "read-open": bool(self.open["AR"])}
        is_idle = not any(self.open.values())
        self.clear()
        yield from (name for name, holds in found.items() if holds)
        if is_idle:
            yield "idle"
