"""Where the value of a field of a port comes from: a signal of a dump or a part of it, or a number; and how its digits are printed."""

import difflib
import re
from typing import Dict, List, NamedTuple, Sequence, Tuple, Union

from .command import Fault
from .vcd import Head, Signal

SLICE = re.compile(r"(.+)\[(\d+)(?::(\d+))?\]")
NEAREST, MOST_COMPARED = 4, 20_000  # names that a fault tells, and names that are compared with the one that isn't there


class Piece(NamedTuple):
    """The bits from `first` up to `last`, counted from the highest, of the signal in a slot."""

    slot: int
    width: int
    first: int
    last: int

    def read(self, values: Union[Sequence[bytes], Dict[int, bytes]]) -> str:
        """The digits; a value that is shorter than its signal goes on as its first digit says."""
        text = values[self.slot]
        if len(text) < self.width:
            text = (b"0" if text[:1] == b"1" else text[:1]) * (self.width - len(text)) + text
        return text[self.first : self.last].decode()


class Wires(NamedTuple):
    """One signal, or several side by side, the highest first."""

    name: str
    width: int
    pieces: Tuple[Piece, ...]

    def read(self, values: Union[Sequence[bytes], Dict[int, bytes]]) -> str:
        """The digits of all its pieces, by the values of their slots."""
        first, *others = self.pieces
        return first.read(values) + "".join([it.read(values) for it in others]) if others else first.read(values)


class Number(NamedTuple):
    """A number that stands for a signal."""

    name: str
    width: int
    digits: str

    def read(self, values: Sequence[bytes]) -> str:
        return self.digits


class Level:
    """A signal of one bit, which is read anew only where the value that it stands in is another one."""

    def __init__(self, wire: Union[Wires, Number]):
        self.wire, self.slot = wire, wire.pieces[0].slot if isinstance(wire, Wires) else 0
        self.value, self.digit = b"", "x"

    def look(self, values: Sequence[bytes]) -> str:
        """The digit as it is now."""
        if values[self.slot] is not self.value:
            self.value, self.digit = values[self.slot], self.wire.read(values)
        return self.digit


def number(value: int) -> Number:
    digits = f"{value:b}"
    return Number(f"={value}", len(digits), digits)


class Selection(NamedTuple):
    """Bits of a signal, by their places as the dump declares them."""

    signal: Signal
    high: int
    low: int


class Names:
    """The signals of a dump by their paths. Outer scopes may be left out, where one signal alone ends in a path."""

    def __init__(self, head: Head):
        self.head = head
        self.layouts: Dict[str, List[Tuple[str, int]]] = {}
        self.ends: Dict[str, List[str]] = {}
        for path in (*head.signals, *head.bits):
            self.ends.setdefault(path.rpartition(".")[2], []).append(path)

    def whole(self, path: str) -> List[Selection]:
        """The signal, bit by bit where it is dumped so, of this path; nothing where there is none."""
        found = self.resolved(path)
        if found in self.head.signals:
            signal = self.head.signals[found]
            return [Selection(signal, signal.left, signal.right)]
        bits = self.head.bits.get(found, {})
        return [Selection(bits[place], place, place) for place in sorted(bits, reverse=True)]

    def resolved(self, path: str) -> str:
        """The full path of the one signal that ends in this path, or the path itself."""
        if path in self.head.signals or path in self.head.bits:
            return path
        found = [it for it in self.ends.get(path.rpartition(".")[2], ()) if it.endswith(f".{path}")]
        codes = {self.head.signals[it].code if it in self.head.signals else it for it in found}
        if len(codes) > 1:
            raise Fault(f"several signals of the dump end in {path}: {', '.join(sorted(found)[:NEAREST])}")
        return found[0] if found else path

    def find(self, path: str) -> List[Selection]:
        """The bits of a path, which may be a slice, or a part of a vector that the map lays out."""
        whole = self.whole(path) or self.laid_out(path)
        sliced = SLICE.fullmatch(path)
        if whole or not sliced:
            return whole
        left = int(sliced[2])
        right = left if sliced[3] is None else int(sliced[3])
        parent = self.whole(sliced[1]) or self.laid_out(sliced[1])
        return self.cut(path, parent, left, right) if parent else []

    def cut(self, path: str, parent: List[Selection], left: int, right: int) -> List[Selection]:
        """Of a signal, or of its bits, those between two places."""
        if len(parent) > 1:
            found = [it for it in parent if min(left, right) <= it.high <= max(left, right)]
        else:
            low, high = sorted((parent[0].high, parent[0].low))
            found = [Selection(parent[0].signal, left, right)] if low <= min(left, right) and max(left, right) <= high else []
        if sum(abs(it.high - it.low) + 1 for it in found) != abs(left - right) + 1:
            raise Fault(f"{path} isn't within the signal: it has the bits {parent[0].high} to {parent[-1].low}")
        return found

    def laid_out(self, path: str) -> List[Selection]:
        """A part of a vector whose parts the map names."""
        for base, parts in self.layouts.items():
            if path.startswith(f"{base}.") and path[len(base) + 1 :] in dict(parts):
                vector = self.whole(base)
                return self.part_of(base, vector[0], parts, path[len(base) + 1 :]) if vector else []
        return []

    def part_of(self, base: str, vector: Selection, parts: List[Tuple[str, int]], name: str) -> List[Selection]:
        """The bits of a part of a vector, whose parts stand with the highest first."""
        width, told = abs(vector.high - vector.low) + 1, sum(width for _, width in parts)
        if width != told:
            raise Fault(f"{base} has {width} bits in the dump, and its layout {told}")
        behind = 0
        for part, its_width in reversed(parts):
            if part == name:
                return [Selection(vector.signal, vector.low + behind + its_width - 1, vector.low + behind)]
            behind += its_width
        return []

    def nearest(self, path: str) -> str:
        """The names that a fault tells of a signal that isn't there."""
        scope, _, name = path.rpartition(".")
        beside = [it for it in self.all_paths() if it.rpartition(".")[0].endswith(scope)] if scope else []
        others = self.ends.get(name, []) if not beside else beside
        candidates = (others or self.all_paths())[:MOST_COMPARED]
        close = difflib.get_close_matches(path, candidates, NEAREST, 0.4) or candidates[:NEAREST]
        return ", ".join(close)

    def all_paths(self) -> List[str]:
        return [*self.head.signals, *self.head.bits]


def wires(name: str, found: List[Selection], slots: Dict[bytes, int]) -> Wires:
    """What is read of the bits that were found."""
    pieces = []
    for signal, high, low in found:
        if abs(signal.left - signal.right) + 1 != signal.width:
            raise Fault(f"{name} is declared with {signal.width} bits, and in the places {signal.left} to {signal.right}")
        if signal.left >= signal.right:
            first, last = signal.left - high, signal.left - low + 1
        else:
            first, last = high - signal.left, low - signal.left + 1
        pieces.append(Piece(slots[signal.code], signal.width, min(first, last - 1), max(first, last - 1) + 1))
    return Wires(name, sum(it.last - it.first for it in pieces), tuple(pieces))


def unknown_digit(bits: str) -> str:
    """The digit for bits of which one at least is unknown, as Verilog has it: in capitals where not all of them are alike."""
    letter = "x" if "x" in bits else "z"
    return letter if bits.count(letter) == len(bits) else letter.upper()


def is_known(bits: str) -> bool:
    return "x" not in bits and "z" not in bits


def decimal(bits: str) -> str:
    """A number, or one digit for one that isn't known."""
    return str(int(bits, 2)) if is_known(bits) else unknown_digit(bits)


def hexadecimal(bits: str, digits: int) -> str:
    """So many digits at the least; a digit of which a bit isn't known stands for itself."""
    if is_known(bits):
        return f"{int(bits, 2):0{digits}x}"
    starts = range(len(bits) % 4 - 4 if len(bits) % 4 else 0, len(bits), 4)
    groups = [bits[max(at, 0) : at + 4] for at in starts]
    return "".join(f"{int(it, 2):x}" if is_known(it) else unknown_digit(it) for it in groups).rjust(digits, "0")


def in_lanes(bits: str, lanes: int) -> str:
    """What these lanes hold, and zero elsewhere, be it unknown there."""
    count = len(bits) // 8
    return "".join(bits[8 * at : 8 * at + 8] if lanes >> (count - 1 - at) & 1 else "00000000" for at in range(count))
