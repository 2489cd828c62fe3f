"""What passes at the ports of a bridge at each edge of their clocks, as lines for tlscore."""

from collections import deque
from typing import Callable, Deque, Dict, List, Optional, Sequence, Tuple

from .command import Fault
from .signal_map import MOST_BITS, Channel, Clock, Finder, Key, SignalMap
from .signals import Level, Wires, decimal, hexadecimal, in_lanes, is_known, wires

ORDER = ("a", "aw", "ar", "w", "b", "r", "d")  # of the lines of one time, as docs/SCOREBOARD.md has it
BEHIND_W = ORDER[4:]
RESPONSES = ("OKAY", "EXOKAY", "SLVERR", "DECERR")
ALL_LANES, LAST_WITH_DATA, ACCESS_ACK_DATA = 0xFF, 3, "1"
WORD_SIZE = 2  # of a request that a port of 32 bits carries in one beat, at the most


class Port:
    """A channel at which beats pass, whose values are read where valid and ready are high."""

    def __init__(self, channel: Channel):
        self.key, self.fields = channel.key, channel.fields
        data = channel.fields.get("data")
        self.is_narrow = isinstance(data, Wires) and data.width == 32 and channel.key.client is not None
        self.lacks_corrupt = channel.key.channel == "d" and "corrupt" in channel.lacking
        self.valid, self.ready = Level(channel.fields["valid"]), Level(channel.fields["ready"])
        self.beats = self.waits = 0  # edges at which a beat passed, and at which valid was high and ready low
        self.waited = self.last_wait = 0  # such edges in a row, and the number of the last of them

    def read(self, values: Sequence[bytes], time: int) -> Dict[str, str]:
        """The digits of each field, none of more bits than a line has for it."""
        read = {name: wire.read(values) for name, wire in self.fields.items()}
        for name, most in MOST_BITS.items():
            if len(read.get(name, "")) > most and "1" in read[name][:-most]:
                raise Fault(f"at {time} {self.fields[name].name} is {hexadecimal(read[name], 1)}, of more than {most} bits: slice it")
        if self.lacks_corrupt:
            read["corrupt"] = read["denied"] if decimal(read["opcode"]) == ACCESS_ACK_DATA else "0"
        return read

    def is_passing(self, values: Sequence[bytes]) -> Optional[bool]:
        """Whether a beat passes where valid isn't low; None where that isn't known."""
        ready = self.ready.look(values)
        return True if self.valid.digit == ready == "1" else False if ready == "0" else None

    def wait(self, edge: int) -> None:
        """Ready is low at the edge of this number."""
        self.waits += 1
        if self.valid.digit == "1":
            self.waited = self.waited + 1 if self.last_wait == edge - 1 else 1
            self.last_wait = edge

    def take(self, edge: int) -> None:
        """A beat passes at the edge of this number."""
        self.beats += 1
        self.waited = self.waited if self.last_wait == edge - 1 else 0

    def ahead(self) -> str:
        """The line ahead of a beat that waited for ready, if it did."""
        client = "" if self.key.client is None else self.key.client
        return f"waited {self.key.channel.upper()}{client} {self.waited}\n" if self.waited else ""


class Domain:
    """The ports of a clock, and how they stand to its reset."""

    def __init__(self, clock: Clock, finder: Finder, slots: Dict[bytes, int]):
        self.name, self.clock = clock.path, wires(clock.path, finder.found[clock.path], slots)
        if self.clock.width != 1:
            raise Fault(f"the clock {clock.path} has {self.clock.width} bits")
        self.slot = self.clock.pieces[0].slot
        self.edge = ("1", "0") if clock.is_falling else ("0", "1")
        self.reset = Level(wires(clock.reset, finder.found[clock.reset], slots)) if clock.reset else None
        self.reset_name, self.released = clock.reset, "1" if clock.is_reset_low else "0"
        made = [finder.channel(key, fields, slots) for key, fields in clock.channels.items()]
        self.ports = [Port(it) for it in made]
        self.lacking = [f"{name} of {it.key}" for it in made for name in it.lacking]
        self.edges = self.resets = 0  # edges of its clock, and those at which its reset held, or wasn't known
        self.is_up, self.is_awaited = False, False

    def has_edge(self, values: Sequence[bytes], changes: Dict[int, bytes]) -> bool:
        """Whether its clock has its edge with these changes."""
        return self.slot in changes and (self.clock.read(values), self.clock.read(changes)) == self.edge

    def is_reset(self, values: Sequence[bytes]) -> bool:
        """Whether its reset holds, or isn't known."""
        return self.reset is not None and self.reset.look(values) != self.released


class Observer:
    """Prints the beats that pass, in the order that tlscore asks for."""

    def __init__(self, the_map: SignalMap, domains: List[Domain], write: Callable[[str], object], has_waits: bool = False):
        self.map, self.domains, self.write, self.has_waits = the_map, domains, write, has_waits
        self.beats = self.unknown = 0
        self.unknown_at: Optional[int] = None
        self.last_time: Optional[int] = None
        self.held: Deque[Tuple[int, str]] = deque()  # W lines that no AW was printed for, with their times
        self.lacking = 0  # how many W beats the printed AWs lack
        self.requests: Dict[Tuple[int, str], Tuple[int, bool]] = {}  # lanes, and whether the upper half, by client and source

    def edges(self, time: int, domains: List[Domain], values: Sequence[bytes]) -> None:
        """Takes the edges of clocks at one time: the values are those that stood before it."""
        passing = []
        for domain in domains:
            domain.edges += 1
            if self.is_up(domain, values):
                for port in domain.ports:
                    if port.valid.look(values) != "0":
                        passes = port.is_passing(values)
                        if passes:
                            passing.append(port)
                            port.take(domain.edges)
                        elif passes is None:
                            self.note_unknown(time)
                        else:
                            port.wait(domain.edges)
        passing.sort(key=lambda it: (ORDER.index(it.key.channel), it.key.client or 0))
        sent = [it for it in passing if it.key.channel not in BEHIND_W]
        for port in sent:
            self.beat(time, port, port.read(values, time))
        while self.held and self.lacking:
            self.line(*self.held.popleft())
            self.lacking -= 1
        for port in passing[len(sent) :]:
            self.beat(time, port, port.read(values, time))

    def is_up(self, domain: Domain, values: Sequence[bytes]) -> bool:
        """Whether beats pass in a domain. Where the first of several is reset, the others' beats are gone until they are reset too,
        or none is reset any more."""
        if domain.is_reset(values):
            domain.resets += 1
            if domain.is_up and not domain.is_awaited:
                self.note_reset(domain)
            domain.is_up = domain.is_awaited = False
            return False
        domain.is_up = True
        if domain.is_awaited and not any(it.is_reset(values) for it in self.domains):
            for it in self.domains:
                it.is_awaited = False
        return not domain.is_awaited

    def note_reset(self, domain: Domain) -> None:
        """Prints that all is reset, and forgets what was held."""
        self.write("= reset\n")
        self.held.clear()
        self.lacking = 0
        for it in self.domains:
            it.is_awaited = it is not domain and it.reset is not None and it.is_up

    def note_unknown(self, time: int) -> None:
        """Notes that nobody knows whether a beat passed."""
        self.unknown += 1
        self.unknown_at = time if self.unknown_at is None else self.unknown_at

    def line(self, time: int, text: str) -> None:
        """Prints a beat's lines, behind one of its time where that is another."""
        if time != self.last_time:
            self.write(f"time {time}\n")
            self.last_time = time
        self.write(text)
        self.beats += 1

    def beat(self, time: int, port: Port, read: Dict[str, str]) -> None:
        """Prints a beat, behind how long it waited for ready, or holds it, if it is of W: they wait for their AW."""
        key, ahead = port.key, port.ahead() if self.has_waits else ""
        if key.channel == "w":
            self.held.append((time, ahead + w_line(read)))
        elif key.channel == "a":
            self.line(time, ahead + self.a_line(time, key.client, read, port.is_narrow))
        elif key.channel == "d":
            self.line(time, ahead + self.d_line(key.client, read, port.is_narrow))
        else:
            if key.channel == "aw":
                self.lacking += (int(read["len"], 2) if is_known(read["len"]) else 0) + 1
            its = answer_line(key.channel, read, self.map.ids) if key.channel in "br" else address_line(key, read, self.map.ids)
            self.line(time, ahead + its)

    def a_line(self, time: int, client: int, read: Dict[str, str], is_narrow: bool) -> str:
        """The line of a beat on channel A."""
        has_data = not is_known(read["opcode"]) or int(read["opcode"], 2) <= LAST_WITH_DATA
        mask, data, is_upper = read["mask"], read["data"], False
        if is_narrow:
            if is_known(read["size"]) and int(read["size"], 2) > WORD_SIZE:
                raise Fault(f"at {time} client {client} asks for 2^{int(read['size'], 2)} bytes on 32 bits: one-beat messages fit alone")
            is_upper = read["address"][-3:-2] == "1"
            mask, data = upper(mask, is_upper, 4), upper(data, is_upper, 32)
        lanes = int(mask, 2) if is_known(mask) else ALL_LANES
        self.requests[client, read["source"]] = lanes, is_upper
        told = in_lanes(data, lanes if has_data else 0)
        return (
            f"A {client} {decimal(read['opcode'])} {decimal(read['param'])} {decimal(read['size'])} {self.source(client, read)} "
            f"{hexadecimal(read['address'][-32:], 8)} {hexadecimal(mask, 2)} {hexadecimal(told, 16)} {read['corrupt']}\n"
        )

    def d_line(self, client: int, read: Dict[str, str], is_narrow: bool) -> str:
        """The line of a beat on channel D, with zeros in lanes that tell nothing."""
        lanes, is_upper = self.requests.get((client, read["source"]), (ALL_LANES, False))
        data = upper(read["data"], is_upper, 32) if is_narrow else read["data"]
        has_data = (not is_known(read["opcode"]) or decimal(read["opcode"]) == ACCESS_ACK_DATA) and read["corrupt"] != "1"
        told = data if self.map.are_replies_whole else in_lanes(data, lanes if has_data else 0)
        return (
            f"D {client} {decimal(read['opcode'])} {decimal(read['param'])} {decimal(read['size'])} {self.source(client, read)} "
            f"{read['denied']} {hexadecimal(told, 16)} {read['corrupt']}\n"
        )

    def source(self, client: int, read: Dict[str, str]) -> str:
        """A source, by the number that the map has for it."""
        told = decimal(read["source"])
        return str(self.map.sources.get((client, int(told)), told)) if told.isdigit() else told


def upper(bits: str, is_upper: bool, width: int) -> str:
    """A half of a wider word, beside zeros."""
    zeros = "0" * width
    return bits.rjust(width, "0") + zeros if is_upper else zeros + bits.rjust(width, "0")


def its_id(read: Dict[str, str], ids: Dict[int, int]) -> str:
    """An ID, by the number that the map has for it."""
    told = decimal(read["id"])
    return str(ids.get(int(told), told)) if told.isdigit() else told


def address_line(key: Key, read: Dict[str, str], ids: Dict[int, int]) -> str:
    """The line of an AW or an AR."""
    rest = f"{decimal(read['len'])} {decimal(read['size'])} {decimal(read['burst'])}"
    return f"{key.channel.upper()} {its_id(read, ids)} {hexadecimal(read['addr'][-32:], 8)} {rest}\n"


def w_line(read: Dict[str, str]) -> str:
    """The line of a W beat, with zeros in lanes without a strobe."""
    lanes = int(read["strb"], 2) if is_known(read["strb"]) else ALL_LANES
    return f"W {hexadecimal(in_lanes(read['data'], lanes), 16)} {hexadecimal(read['strb'], 2)} {read['last']}\n"


def answer_line(channel: str, read: Dict[str, str], ids: Dict[int, int]) -> str:
    """The line of a B or an R."""
    response = RESPONSES[int(read["resp"], 2)] if is_known(read["resp"]) else "x"
    if channel == "b":
        return f"B {its_id(read, ids)} {response}\n"
    return f"R {its_id(read, ids)} {hexadecimal(read['data'], 16)} {response} {read['last']}\n"
