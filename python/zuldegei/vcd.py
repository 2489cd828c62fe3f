"""Reads a dump of signals: VCD, packed by gzip or not, or FST through fst2vcd. It gives the head's signals, and the changes of those
that are wanted, one time after another."""

import gzip
import os
import select
import shutil
import subprocess
import zlib
from contextlib import contextmanager
from pathlib import Path
from typing import BinaryIO, Dict, Iterator, List, NamedTuple, Optional, Tuple

from .command import Fault, Status

CHUNK, LONGEST = 1 << 20, 1 << 24  # bytes that are read at once, and of a line
SILENT = 60  # seconds for which fst2vcd may give nothing
CONTROLS = bytes({*range(32), 127} - set(b"\t\n\v\f\r"))
FST_HEAD, GZIP_HEAD = b"\0", b"\x1f\x8b"
# A value's digits as VCD writes them, also those of nine-valued VHDL, and what they are here: 0, 1, x or z.
DIGITS, MEANINGS = b"01xXzZuUwW-hHlL", b"01xxzzxxxxx1100"
PLAIN = bytes.maketrans(DIGITS, MEANINGS)
SCALARS = {digit: bytes([meaning]) for digit, meaning in zip(DIGITS, MEANINGS)}
VECTOR, VECTOR_CAPITAL, TIME = b"bB#"
SKIPPED_VALUES = b"rRsS"  # reals and strings, which no port has
BLOCKS = (b"$dumpvars", b"$dumpall", b"$dumpon", b"$end")
UNDECLARED = -1


class Signal(NamedTuple):
    """A signal of a dump: its code, and the places of its first and last bit as they are declared."""

    code: bytes
    width: int
    left: int
    right: int


class Head:
    """What a dump says ahead of its values."""

    def __init__(self) -> None:
        self.timescale = ""
        self.signals: Dict[str, Signal] = {}
        self.bits: Dict[str, Dict[int, Signal]] = {}  # of vectors that are dumped bit by bit, by place
        self.widths: Dict[bytes, int] = {}

    def declare(self, words: List[str], scopes: List[str]) -> None:
        """Takes the words of a $var: kind, width, code, name and, for a vector, its range."""
        if len(words) < 4 or not words[1].isdigit():
            raise ValueError("a signal lacks its name")
        width, code, name, places = int(words[1]), words[2].encode("latin-1"), words[3], "".join(words[4:])
        if not places and name.endswith("]") and ":" in name:
            name, _, places = name.rpartition("[")
        path, span = ".".join((*scopes, name)), [int(it) for it in places.strip("[]").split(":")] if places else [width - 1, 0]
        self.widths[code] = width
        if len(span) == 1:
            self.bits.setdefault(path, {})[span[0]] = Signal(code, width, span[0], span[0])
        else:
            self.signals[path] = Signal(code, width, span[0], span[-1])


class Lines:
    """The lines of a stream, in blocks, with what was read of it counted."""

    def __init__(self, stream: BinaryIO):
        self.stream, self.bytes, self.number, self.is_cut = stream, 0, 0, False

    def blocks(self) -> Iterator[List[bytes]]:
        """Lists of whole lines; of a last line without an end it notes that it is cut."""
        rest = b""
        while True:
            try:
                chunk = self.stream.read1(CHUNK)
            except (EOFError, gzip.BadGzipFile, zlib.error) as why:
                raise Fault(f"the dump can't be unpacked: {why}") from why
            if not chunk:
                self.is_cut = bool(rest.strip())
                return
            text, end, rest = (rest + chunk).rpartition(b"\n")
            if len(rest) > LONGEST:
                raise Fault(f"the dump has a line of more than {LONGEST} bytes")
            self.check(text)
            self.bytes += len(chunk)
            if end:
                yield text.replace(b"\r\n", b"\n").rstrip(b"\r").split(b"\n")

    def check(self, text: bytes) -> None:
        """Refuses what is no text: bytes that aren't UTF-8, or control characters."""
        try:
            text.decode()
        except UnicodeDecodeError as why:
            raise Fault(f"the dump is no text at byte {self.bytes + why.start}") from why
        if len(text.translate(None, CONTROLS)) != len(text):
            raise Fault(f"the dump is no text: it has control characters behind byte {self.bytes}")


class Dump:
    """A dump of which the head was read, and whose values follow."""

    def __init__(self, stream: BinaryIO):
        self.lines = Lines(stream)
        self.blocks = self.lines.blocks()
        self.head, self.rest = Head(), []  # the lines of the head's last block that stand behind it
        self.slots: Dict[bytes, Optional[int]] = {}
        self.lengths: List[int] = []  # of each slot's value, at the most
        self.is_commented = False
        self.off: Optional[int] = None  # when the dump was turned off
        self.time = 0
        self.read_head()

    def fault(self, why: str) -> Fault:
        return Fault(f"the dump, line {self.lines.number}: {why}")

    def read_head(self) -> None:
        """Reads declarations, which may take several lines each, up to $enddefinitions."""
        words, scopes = [], []
        for block in self.blocks:
            for place, line in enumerate(block):
                self.lines.number += 1
                words += line.decode("latin-1").split()
                while "$end" in words:
                    end = words.index("$end")
                    declaration, words = words[:end], words[end + 1 :]
                    if self.declared(declaration, scopes):
                        self.rest = block[place + 1 :]
                        return
                if len(words) > 10_000 or words and not words[0].startswith("$"):
                    raise self.fault("this is no head of a VCD")
        raise self.fault("it ends in its head")

    def declared(self, words: List[str], scopes: List[str]) -> bool:
        """Takes a declaration; tells whether it is the head's last."""
        kind = words[0] if words else ""
        try:
            if kind == "$scope":
                scopes.append(words[2])
            elif kind == "$upscope":
                scopes.pop()
            elif kind == "$timescale":
                self.head.timescale = "".join(words[1:])
            elif kind == "$var":
                self.head.declare(words[1:], scopes)
        except (IndexError, ValueError) as why:
            raise self.fault(f"{' '.join(words)[:80]} is no declaration") from why
        return kind == "$enddefinitions"

    def want(self, signals: List[Signal]) -> Dict[bytes, int]:
        """Chooses the signals whose changes are given; gives each code's slot."""
        wanted = {code: slot for slot, code in enumerate(dict.fromkeys(it.code for it in signals))}
        self.slots = {**dict.fromkeys(self.head.widths), **wanted}
        self.lengths = [self.head.widths[code] for code in wanted]
        return wanted

    def steps(self) -> Iterator[Tuple[int, Dict[int, bytes]]]:
        """Each time at which something wanted changes, and the new values by their slots."""
        changes: Dict[int, bytes] = {}
        slot_of, scalars, vector, is_time = self.slots.get, SCALARS, VECTOR, TIME
        is_commented = False
        for block in self.all_blocks():
            before = self.lines.number
            for place, line in enumerate(block, 1):
                first = line[0] if line and not is_commented else 0
                if first in scalars:
                    slot = slot_of(line[1:], UNDECLARED)
                    if slot is None:
                        continue
                    if slot >= 0:
                        changes[slot] = scalars[first]
                        continue
                elif first == vector:
                    value, _, code = line.partition(b" ")
                    slot = slot_of(code, UNDECLARED)
                    if slot is None:
                        continue
                    digits = value[1:]
                    if slot >= 0 and digits and not digits.translate(None, b"01xz") and len(digits) <= self.lengths[slot]:
                        changes[slot] = digits
                        continue
                elif first == is_time:
                    if changes:
                        yield self.time, changes
                        changes = {}
                    if line[1:].isdigit() and int(line[1:]) >= self.time:
                        self.time = int(line[1:])
                        continue
                self.lines.number = before + place
                changes.update(self.by_words(line))
                is_commented = self.is_commented
            self.lines.number = before + len(block)
        if changes:
            yield self.time, changes
        if self.lines.is_cut:
            self.lines.number += 1
            raise self.fault("it ends in the midst of this line")

    def all_blocks(self) -> Iterator[List[bytes]]:
        yield self.rest
        yield from self.blocks

    def vector(self, value: bytes, code: bytes) -> bytes:
        """The digits of a vector's value."""
        if not value or value.translate(None, DIGITS) or len(value) > self.head.widths[code]:
            raise self.fault(f"{value[:80]!r} is no value of {self.head.widths[code]} bits")
        return value.translate(PLAIN)

    def by_words(self, line: bytes) -> Dict[int, bytes]:
        """The changes of a line that is read word by word: a time, a block's ends, a comment, or several values in a line."""
        changes: Dict[int, bytes] = {}
        words = iter(line.split())
        for word in words:
            if self.is_commented:
                self.is_commented = word != b"$end"
            elif word == b"$comment":
                self.is_commented = True
            elif word == b"$dumpoff":
                self.off = self.time
            elif word[:1] == b"#":
                self.go_to(word[1:])
            elif word not in BLOCKS:
                changes.update(self.change(word, words))
        return changes

    def go_to(self, digits: bytes) -> None:
        """Goes on to a time."""
        if not digits.isdigit() or int(digits) < self.time:
            raise self.fault(f"{digits[:80]!r} is no time behind {self.time}")
        self.time = int(digits)

    def change(self, word: bytes, words: Iterator[bytes]) -> Dict[int, bytes]:
        """The change that a word begins, and, where it is a vector's, the next one ends; nothing, where nobody wants it."""
        is_vector = word[0] in (VECTOR, VECTOR_CAPITAL)
        code = next(words, b"") if is_vector or word[:1] in (b"r", b"R", b"s", b"S") else word[1:]
        slot = self.slots.get(code, UNDECLARED)
        if slot == UNDECLARED or not is_vector and word[0] not in SCALARS and word[0] not in SKIPPED_VALUES:
            raise self.fault(f"{word[:40]!r} {code[:40]!r} is no change of a signal")
        if slot is None or word[0] in SKIPPED_VALUES:
            return {}
        return {slot: self.vector(word[1:], code) if is_vector else SCALARS[word[0]]}


@contextmanager
def opened(path: str) -> Iterator[BinaryIO]:
    """The VCD of a file, whichever of the three kinds it is."""
    with Path(path).open("rb") as file:
        head = file.peek(2)[:2]  # a pipe can't be wound back
        if head[:1] == FST_HEAD or path.endswith(".fst"):
            with converted(path) as stream:
                yield stream
        elif head == GZIP_HEAD:
            with gzip.open(file) as stream:
                yield stream
        else:
            yield file


class Given:
    """What a program gives, which doesn't keep silent for ever, as fst2vcd does on some files that are damaged."""

    def __init__(self, program: subprocess.Popen, path: str):
        self.place, self.path = program.stdout.fileno(), path

    def read1(self, most: int) -> bytes:
        """Bytes as soon as there are any; none at the end."""
        if not select.select([self.place], [], [], SILENT)[0]:
            raise Fault(f"fst2vcd gave nothing of {self.path} for {SILENT} s: the file may be damaged")
        return os.read(self.place, most)


@contextmanager
def converted(path: str) -> Iterator[BinaryIO]:
    """The VCD that fst2vcd makes of an FST."""
    if not shutil.which("fst2vcd"):
        raise Fault(f"{path} is read by fst2vcd, which isn't installed: Debian has it in the package gtkwave", Status.CANNOT)
    with subprocess.Popen(["fst2vcd", path], stdout=subprocess.PIPE, stderr=subprocess.DEVNULL, bufsize=0) as program:
        try:
            yield Given(program, path)
            if program.wait():
                raise Fault(f"fst2vcd ended with status {program.returncode} on {path}")
        finally:
            if program.poll() is None:
                program.kill()
