"""Reads images of a memory: what $readmemh reads, a binary, and an ELF. Each gives stretches of bytes with their addresses."""

import re
import struct
from typing import Iterator, List, NamedTuple, Optional, Tuple

from .command import Fault

TOKEN = re.compile(r"//[^\n]*|/\*.*?(?:\*/|\Z)|@[0-9a-fA-F_]+|[0-9a-fA-FxXzZ_?]+|\S", re.DOTALL)
ELF_MAGIC, LOADED = b"\x7fELF", 1
MOST_ZEROS = 1 << 24  # that are given behind a segment's bytes
# Of an ELF's head, by whether it is of 64 bits: the format behind its first 16 bytes, and that of a program header.
HEADS = {1: "HHIIIIIHHH", 2: "HHIQQQIHHH"}
PROGRAMS = {1: "IIIIIIII", 2: "IIQQQQQQ"}


class Stretch(NamedTuple):
    """Bytes that stand side by side; None is one that isn't known."""

    address: int
    values: List[Optional[int]]


def of_binary(data: bytes) -> Iterator[Stretch]:
    yield Stretch(0, list(data))


def of_readmemh(text: str, width: int, is_big_endian: bool) -> Iterator[Stretch]:
    """Words of `width` bytes, which `@` places by their number; a digit that isn't known leaves its byte unknown."""
    begun, values = 0, []
    for token in TOKEN.findall(text):
        if token.startswith("/*") and not (token.endswith("*/") and len(token) > 3):
            raise Fault(f"a comment has no end: {token[:40]!r}")
        if token.startswith(("//", "/*")):
            continue
        if token.startswith("@"):
            yield Stretch(begun * width, values)
            begun, values = int(token[1:].replace("_", "") or "0", 16), []
        else:
            values.extend(word_bytes(token, width, is_big_endian))
    yield Stretch(begun * width, values)


def word_bytes(token: str, width: int, is_big_endian: bool) -> List[Optional[int]]:
    """The bytes of a word, that of the lowest address first."""
    digits = token.replace("_", "").lower().replace("?", "z")
    if not digits or len(digits) > 2 * width and digits[: -2 * width].strip("0") or set(digits) - set("0123456789abcdefxz"):
        raise Fault(f"{token[:40]!r} is no word of {width} bytes")
    digits = digits[-2 * width :].rjust(2 * width, "0")
    pairs = [digits[at : at + 2] for at in range(0, 2 * width, 2)]
    values = [None if set(it) & set("xz") else int(it, 16) for it in pairs]
    return values if is_big_endian else values[::-1]


def of_elf(data: bytes, is_virtual: bool, has_zeros: bool) -> Iterator[Stretch]:
    """The segments that a loader puts into memory, at their physical or virtual addresses."""
    try:
        kind, order = data[4], {1: "<", 2: ">"}[data[5]]
        head = struct.unpack_from(order + HEADS[kind], data, 16)
        start, size, count = head[4], head[8], head[9]
        check_table(data, start, size, count, struct.calcsize(order + PROGRAMS[kind]))
        for at in range(count):
            yield from of_segment(data, kind, struct.unpack_from(order + PROGRAMS[kind], data, start + at * size), is_virtual, has_zeros)
    except (IndexError, KeyError, struct.error) as why:
        raise Fault(f"this is no whole ELF: {why}") from why


def check_table(data: bytes, start: int, size: int, count: int, least: int) -> None:
    """Refuses an ELF whose program headers don't lie in it, or are too small to be such."""
    if count and (size < least or start + count * size > len(data)):
        raise Fault(f"this is no whole ELF: {count} program headers of {size} bytes at {start:x}, in {len(data)} bytes")


def of_segment(data: bytes, kind: int, fields: Tuple[int, ...], is_virtual: bool, has_zeros: bool) -> Iterator[Stretch]:
    """What a segment gives; behind its bytes in the file it may have zeros."""
    if kind == 1:
        its_type, offset, virtual, physical, in_file, in_memory = fields[:6]
    else:
        its_type, _, offset, virtual, physical, in_file, in_memory = fields[:7]
    if its_type != LOADED:
        return
    if offset + in_file > len(data):
        raise Fault("this ELF is cut: a segment lies behind its end")
    address = virtual if is_virtual else physical
    yield Stretch(address, list(data[offset : offset + in_file]))
    if has_zeros and in_memory - in_file > MOST_ZEROS:
        zeros = f"{in_memory - in_file} zeros behind the segment at {address:x}"
        raise Fault(f"{zeros} are too many for `fill` lines: without --zeros pages of the kind `good` begin with them")
    if has_zeros and in_memory > in_file:
        yield Stretch(address + in_file, [0] * (in_memory - in_file))
