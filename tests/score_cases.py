"""Tries tlscore on the histories of tests/histories, on rows of examples/scoreboard by the other profile, and on inputs of many lines.

    python3 tests/score_cases.py TLSCORE
"""

import re
import sys
from typing import Iterator, Optional, Tuple

import compared
import stored
from ends import started, told
from stored import TOP

# What is given, and what is wanted: the status, the text, and the line on standard error.
Wanted = Tuple[str, bytes, int, bytes, bytes]

HISTORIES = TOP / "tests/histories"
# Lines that stand in histories of such a folder, and others by which the same is said.
OTHERS = {
    "either-profile": (b"profile bridge\n", {"profile tilelink": b"profile tilelink\n"}),
    "strict/bridge": (b"profile bridge\nerrors strict\n", {"no line": b"#\n#\n"}),
    "strict/tilelink": (b"profile tilelink\nerrors strict\n", {"errors strict ahead": b"errors strict\nprofile tilelink\n"}),
}

# Rows of examples/scoreboard of which `profile tilelink` says the same.
STORED = (TOP / "tests/either_profile.rows").read_text().split()

# Inputs with a line of many bytes, or behind many lines: what is given, and the fault.
CONFIG = b"config 1 1 1 1 1 12 h\n"
LONG = {
    "a line of 10,000 bytes": (CONFIG + b"#" * 10_000 + b"\n", b"line 2, word 0: a line of more than 128 bytes"),
    "a long line behind a block of others": (
        CONFIG + b"= more\n" * 9_350 + b" " * 200 + b"\n",
        b"line 9352, word 0: a line of more than 128 bytes",
    ),
    "a beat behind more than a block of lines": (
        CONFIG + b"= more\n" * 20_000 + b"D 0 1 0 3 5 0 q 0\n",
        b"line 20002, word 8: this is no hexadecimal number",
    ),
}


def histories() -> Iterator[Wanted]:
    """Each history that is kept, also by other lines where the same is said by those."""
    for name, _, given, *wanted in stored.cases(HISTORIES, ".lines"):
        yield name, given, *wanted
        lines, others = next((it for folder, it in OTHERS.items() if f"/{folder}/" in name), (b"", {}))
        for how, other in others.items():
            assert lines in given, name
            yield f"{name}, by {how}", given.replace(lines, other, 1), *wanted


def stored_by_tilelink(row: str) -> Wanted:
    """A stored row with `profile tilelink` behind its first line: the lines behind it are one further down."""
    text, line, status = ((TOP / f"examples/scoreboard/{row}.{kind}").read_bytes() for kind in ("out", "err", "status"))
    first, _, rest = (TOP / f"examples/scoreboard/{row}.in").read_bytes().partition(b"\n")
    later = re.sub(rb"(?m)^= wrong (\d+)", lambda found: b"= wrong %d" % (int(found[1]) + 1), text)
    given = first + b"\nprofile tilelink\n" + rest
    counts = compared.compared(given.decode().splitlines(), later.decode())
    return f"{row}, by profile tilelink", given, int(status), re.sub(rb"compared .*", counts.encode(), later), line


def all_cases() -> Iterator[Wanted]:
    """The name of each case, what is given, and what is wanted."""
    yield from histories()
    yield from (stored_by_tilelink(row) for row in STORED)


def cases(program: str) -> Iterator[Tuple[str, Optional[str]]]:
    """What is wrong with each."""
    yield "the files of tests/histories", stored.unread(HISTORIES, ".lines")
    for name, given, *wanted in all_cases():
        yield f"tlscore: {name}", started([program], given).wrong(*wanted)
    for name, (given, fault) in LONG.items():
        yield f"tlscore: {name}", started([program], given).wrong(2, b"", b"script fault: %b\n" % fault)


if __name__ == "__main__":
    sys.exit(told(cases(sys.argv[1])))
