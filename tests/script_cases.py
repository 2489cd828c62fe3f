"""Scripts of `run` that are made here, what each prints and its fault: each front of the first script, inputs of as many lines as may be,
and Gets in their bursts. Those that are kept as files stand in tests/rows."""

from ends import TOP
from stored import blocks

CONFIG = "config 1 1 1 1 1 12 h"
SETUP = "config 2 4 16 2 16 12 hh\nregion 0 4 10 gpah\npage 10 4 good\n"

# The first script, line by line: the line; for each number of its bytes the word at fault where the input ends there, with X
# for ten, or a dot where that part may stand as a line; and the line's trace.
FIRST = [(*it.given.split("\n"), f"{it.due}\n" if it.due else "") for it in blocks(TOP / "tests/first_script.blocks")]

# Empty lines, of which an input may have 65,536 lines, and the line and word at fault.
LONG = {
    "65,536 empty lines": ("\n" * 65_536, 65_537, 1),
    "65,537 empty lines": ("\n" * 65_537, 65_537, 0),
    "a config line, 65,536 empty ones, and a CR": (CONFIG + "\n" * 65_536 + "\r", 65_537, 0),
    "a config line, 65,536 empty ones, and a comment": (CONFIG + "\n" * 65_536 + "#", 65_537, 0),
}

# Gets of client 0, each burst of which is answered before the next goes: the config line, size and address, and the address, len
# and size of each burst.
PLANS = {
    "a page in bursts of 16 transfers": (
        "config 1 1 1 1 16 12 h", 12, 0x1000, [(0x11000 + 0x80 * at, 15, 3) for at in range(32)],
    ),
    "64 bytes in single transfers": ("config 1 1 1 1 1 12 h", 6, 0x40, [(0x10040 + 8 * at, 0, 3) for at in range(8)]),
    "four bytes": ("config 1 1 1 1 16 12 h", 2, 0x14, [(0x10014, 0, 2)]),
    "a page on a bus of four bytes": (
        "config 1 1 1 1 256 12 h 4", 12, 0x1000, [(0x11000 + 0x400 * at, 255, 2) for at in range(4)],
    ),
    "eight bytes on a bus of four": ("config 1 1 1 1 2 12 h 4", 3, 8, [(0x10008, 1, 2)]),
    "a byte on a bus of four bytes": ("config 1 1 1 1 16 12 h 4", 0, 0xD, [(0x1000D, 0, 0)]),
}

# A status, and the line on standard error.
ENDED = 0, ""


def setup_of(script):
    """The set-up lines of a script."""
    words = (b"config", b"region", b"page", b"bad")
    return b"".join(line for line in script.splitlines(True) if line.split()[:1] and line.split()[0] in words)


def script_fault(line, word):
    return 2, f"script fault: line {line}, word {word}\n"


def fronts():
    """The script's end is where the input ends. A shorter address is that of another page."""
    before = done = ""
    for number, (line, codes, trace) in enumerate(FIRST, 1):
        assert len(codes) == len(line), line
        for count, code in enumerate(codes, 1):
            own = "" if code != "." else trace if count == len(line) else "= mem --\n"
            name = f"the first script, cut after {count} bytes of line {number}"
            ending = ENDED if code == "." else script_fault(number, "0123456789X".index(code))
            yield name, before + line[:count], done + own, ending
        before, done = f"{before}{line}\n", done + trace


def planned(config, size, address, bursts):
    """The script of a Get, and its trace."""
    mask = 0xFF if size >= 3 else (2 ** 2**size - 1) << address % 8
    given = [config, "region 0 4 10 gpah", "page 10 4 good", f"a 0 4 0 {size} 0 {address:x} {mask:x} 0 0"]
    trace = [f"A 0 4 0 {size} 0 {address:08x} {mask:02x} {0:016x} 0", "= accepted 0"]
    for serial, (begin, last, width) in enumerate(bursts):
        given.append("pump")
        trace += [f"= sent {serial}", f"AR 0 {begin:08x} {last} {width} 1"]
        for beat in range(last + 1):
            given += [f"do {serial} {beat}", "r 0"]
            trace += ["= done", f"R 0 {0:016x} OKAY {int(beat == last)}"]
    beats = max(1, 2**size // 8)
    given += ["pump", "take 0"]
    trace += ["= idle", "= reply 0", *[f"D 0 1 0 {size} 0 0 {0:016x} 0"] * beats]
    return "\n".join(given) + "\n", "\n".join(trace) + "\n"


def of_run():
    yield from fronts()
    for name, (script, line, word) in LONG.items():
        yield name, script, "", script_fault(line, word)
    for name, plan in PLANS.items():
        yield f"a Get of {name}", *planned(*plan), ENDED


def cases():
    """The name of each case, what is given, and what is wanted: the status, the text, and the line on standard error."""
    for name, script, text, (status, line) in of_run():
        yield f"run: {name}", script.encode(), status, text.encode(), line.encode()
