"""zuldegei-fill: what a memory began with, as `fill` lines for the scoreboard's set-up."""

import argparse
import sys
from pathlib import Path
from typing import Iterator, List, Sequence

from .command import Fault, Status, ended, words_of
from .images import ELF_MAGIC, Stretch, of_binary, of_elf, of_readmemh

NAME = "zuldegei-fill"
MOST, TOP, WIDEST = 32, 1 << 32, 4096  # bytes of a line, addresses, and bytes of a word
MORE = """
The addresses of `fill` lines are those of the AXI4 port, so --at says where the image's first byte stands there; of an ELF it is added to
the addresses of its segments. The format is told by the file: an ELF by its first bytes, else a text that $readmemh reads by its digits.
A digit x or z of such a text leaves its byte unknown, and no line has it: give such pages the kind `any`.
"""


def lines(stretches: Iterator[Stretch], base: int) -> Iterator[str]:
    """A line for at most 32 known bytes that stand side by side."""
    for address, values in stretches:
        at = 0
        while at < len(values):
            if values[at] is None:
                at += 1
                continue
            known = run_of(values[at : at + MOST])
            first = base + address + at
            if not 0 <= first <= TOP - len(known):
                raise Fault(f"address {first:x}: addresses of the AXI4 port have 32 bits here")
            yield f"fill {first:x} {bytes(known).hex(' ')}\n"
            at += len(known)


def run_of(values: Sequence) -> List[int]:
    """The known bytes ahead of the first unknown one."""
    return list(values[: values.index(None)]) if None in values else list(values)


def format_of(data: bytes) -> str:
    """What a file is, by its bytes."""
    if data.startswith(ELF_MAGIC):
        return "elf"
    is_text = not data.translate(None, b"0123456789abcdefABCDEFxXzZ_?@ \t\r\n")
    return "readmemh" if is_text or data.lstrip().startswith((b"//", b"/*", b"@")) else "binary"


def stretches_of(data: bytes, given: argparse.Namespace) -> Iterator[Stretch]:
    """The bytes of an image, as the words have its format."""
    kind = given.format or format_of(data)
    if kind == "elf":
        return of_elf(data, given.virtual, given.zeros)
    if kind == "binary":
        return of_binary(data)
    return of_readmemh(data.decode("latin-1"), given.width, given.big_endian)


def number(text: str) -> int:
    return int(text, 16)


def work(arguments: Sequence[str]) -> int:
    """Does what the words ask for."""
    words = words_of(NAME, __doc__, MORE)
    words.add_argument("image", help="the file")
    words.add_argument("--format", choices=("readmemh", "binary", "elf"), help="what the file is")
    words.add_argument("--at", type=number, default=0, metavar="HEX", help="where it stands on the AXI4 port (0)")
    words.add_argument("--width", type=int, default=8, metavar="BYTES", help="bytes of a word of $readmemh (8)")
    words.add_argument("--big-endian", action="store_true", help="a word's first digits are those of its lowest address")
    words.add_argument("--virtual", action="store_true", help="an ELF's virtual addresses, and not its physical ones")
    words.add_argument("--zeros", action="store_true", help="also the zeros behind an ELF's segments (bss)")
    given = words.parse_args(arguments)
    if not 1 <= given.width <= WIDEST:
        words.error(f"a word has 1 to {WIDEST:,} bytes")
    for line in lines(stretches_of(Path(given.image).read_bytes(), given), given.at):
        sys.stdout.write(line)
    return Status.DONE


def main() -> int:
    return ended(NAME, lambda: work(sys.argv[1:]))


if __name__ == "__main__":
    sys.exit(main())
