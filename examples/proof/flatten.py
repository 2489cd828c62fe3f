"""Writes SystemVerilog so that yosys 0.23 reads it, which knows no array of vectors as a port and no array that instances drive: each becomes one
vector, of which its uses take a part. It knows what the bridges of examples/testbench/rtl have, and no more.

    python3 flatten.py <bridge.sv >flat.sv
"""

import re
import sys
from typing import Dict

# An array of vectors in a declaration: `logic [1:0][3:0] name`; and a list of arrays of so many: `wire [7:0] one[4], other[4];`.
PACKED = re.compile(r"\blogic \[1:0\]\[(\d+):0\] (\w+)")
ARRAYS = re.compile(r"\b(logic|wire)( \[(\d+):0\])? (\w+\[\d+\](?:, \w+\[\d+\])*);")
FUNCTION = re.compile(r"(function automatic [^;]*? (\w+)\([^;]*\);\s*)return ")
# What is spelt in another way there.
SPELT = (
    (r"\blocalparam (int|bit|logic) ", "localparam "),
    (r"\bparameter (int|bit) ", "parameter "),
    (r"(\blogic \[[^\]]*\] items)\[ITEMS\]", r"\1[0:ITEMS-1]"),
    (r"for \(int i =", "for (i ="),
)


def end_of(text: str, at: int) -> int:
    """Where the bracket that opens at a place is closed."""
    depth = 0
    for place in range(at, len(text)):
        depth += {"[": 1, "]": -1}.get(text[place], 0)
        if depth == 0:
            return place
    sys.exit("a bracket isn't closed")


def parted(text: str, bits: Dict[str, int]) -> str:
    """The same with each use `name[index]` of an array as a part of its vector, and of each `name[index][bits]`."""
    made, at = "", 0
    for found in re.finditer(rf"(?<![.\w])({'|'.join(bits)})\[", text):
        if found.start() < at:
            sys.exit(f"an index of an array stands within another: {found[0]}")
        end, width = end_of(text, found.end() - 1), bits[found[1]]
        index = f"{width} * ({parted(text[found.end():end], bits)})"
        made += f"{text[at:found.start()]}{found[1]}"
        if text[end + 1] == "[":
            last = end_of(text, end + 1)
            high, colon, low = text[end + 2 : last].partition(":")
            made += f"[{index} + {low} +: {int(high) - int(low) + 1}]" if colon else f"[{index} + ({high})]"
            end = last
        else:
            made += f"[{index} +: {width}]" if width > 1 else f"[{text[found.end():end]}]"
        at = end + 1
    return made + text[at:]


def flat(text: str) -> str:
    """A file as yosys reads it."""
    bits: Dict[str, int] = {name: int(high) + 1 for high, name in PACKED.findall(text)}
    text = PACKED.sub(lambda it: f"logic [{2 * bits[it[2]] - 1}:0] {it[2]}", text)
    made, at = "", 0
    for found in ARRAYS.finditer(text):
        width = int(found[3] or 0) + 1
        names = re.findall(r"(\w+)\[(\d+)\]", found[4])
        bits.update((name, width) for name, _ in names)
        made += text[at : found.start()] + " ".join(f"{found[1]} [{width * int(many) - 1}:0] {name};" for name, many in names)
        at = found.end()
    text = parted(made + text[at:], bits) if bits else text
    if "for (int i =" in text:
        text = text.replace("    localparam", "    integer i;\n    localparam", 1)
    for old, new in SPELT:
        text = re.sub(old, new, text)
    return FUNCTION.sub(r"\1\2 = ", text)


if __name__ == "__main__":
    sys.stdout.write(flat(sys.stdin.read()))
