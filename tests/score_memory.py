"""Refuses each growth of memory of tlscore in turn, alone and with all after it.

Words that can't be had come first (status 6), then want of memory before any text (status 4). A page takes room where a line
says what it began with, or with the first request that gives it bytes, and with no other: by `profile bridge` at its last beat, by `profile tilelink` at its first. Where
memory is refused there, the program ends with status 4 behind the text of the lines before. Where one growth alone is refused a
vector may ask once more, for just what it needs, and so grow sooner again: then nothing is wanting. With the word `--version` room
is wanted for the words and the line alone, and nothing is read.

    python3 tests/score_memory.py TLSCORE
"""

import re
import sys
from typing import NamedTuple

from ends import MEMORY, SCORE_USAGE, TOP, told
from shim import Shim

VERSION = (TOP / "VERSION").read_text().strip()
SETUP = "config 2 4 16 2 16 12 hh", "region 0 4 10 gpah", "page 10 4 good"
PROFILES = "bridge", "tilelink"


class Line(NamedTuple):
    """A line, its text, and the profiles by which a page takes room there."""

    given: str
    text: str = ""
    takes_room: tuple = ()



# A line of a script, its text behind an arrow, and ahead of it by which profiles a page takes room there. A beat on channel A is judged at the
# line behind it.
ENTRY = re.compile(r"(?m)^(?:# room by (.*)\n)?([A-Za-z].*)\n(?:-> (.*)\n)?")
ENTRIES = ENTRY.findall((TOP / "tests/score_memory.lines").read_text())
LINES = tuple(Line(given, text, tuple(rooms.split(" and ")) if rooms else ()) for rooms, given, text in ENTRIES)
LAST = Line("", "= judged 8 wrong 0 outstanding 7 open 0 compared 0 of 0", PROFILES)


class Script(NamedTuple):
    """The set-up but for the profile, the lines behind it, and the last line that is printed."""

    setup: tuple[str, ...]
    lines: tuple[Line, ...]
    last: Line

    def given(self, profile: str) -> bytes:
        return "".join(f"{line}\n" for line in (*self.setup, f"profile {profile}", *(line.given for line in self.lines))).encode()


def text_of(lines) -> bytes:
    """The text of some lines."""
    return "".join(f"{line.text}\n" for line in lines if line.text).encode()


def fronts(script, profile):
    """What may have been written where memory is refused, in this order: nothing, and what stands before a page takes room."""
    text = b""
    yield text
    for line in (*script.lines, script.last):
        if profile in line.takes_room:
            yield text
        text += text_of((line,))


def wrong_end(ran, ends):
    """Tells how a run in which memory was refused doesn't end as one of these, the first of which are done with."""
    place = next((place for place, end in enumerate(ends) if end == (ran.status, ran.text)), None)
    if place is None:
        return f"status {ran.status} behind {len(ran.text)} bytes of text that end in {ran.text[-80:]!r}"
    del ends[:place]
    return ran.wrong(ran.status, ran.text, SCORE_USAGE if ran.status == 6 else MEMORY)


def growths(shim, script, profile, chosen=None):
    """Growths refused, each or, of how many there are, those chosen, the end that each gives, and that all ends were seen."""
    given, text = script.given(profile), text_of((*script.lines, script.last))
    free = shim.run([], given)
    yield "no growth refused", free.wrong(0, text, b"")
    asked, seen = free.counts["growth"], set()
    ends = [(6, b""), *((4, front) for front in fronts(script, profile))]
    wanted = set(ends)
    calls = chosen(asked) if chosen else asked + 1
    for at, alone, ran, name in shim.refused([], given, "growth", calls):
        if at > asked or alone and ran.status == 0 and ran.counts["growth"] > asked:
            yield name, ran.wrong(0, text, b"")
            continue
        seen.add((ran.status, ran.text))
        yield name, wrong_end(ran, ends)
    if not chosen:
        yield "each end was seen", None if seen == wanted else f"{len(seen ^ wanted)} of {len(wanted)} weren't, or others were"
    print(f"profile {profile}: {asked if not chosen else len(calls)} of {asked} growths refused")


def growths_of_version(shim):
    """Growths refused where the version is asked for: the words can't be had, or the room for its line."""
    words, line, seen = ["--version"], f"tlscore {VERSION}\n".encode(), set()
    free, ends = shim.run(words, b""), [(6, b""), (4, b"")]
    yield "no growth refused", free.wrong(0, line, b"") or ("it reads" if free.counts["read"] else None)
    asked, wanted = free.counts["growth"], set(ends)
    for _, alone, ran, name in shim.refused(words, b"", "growth", asked):
        if alone and ran.status == 0 and ran.counts["growth"] > asked:
            yield name, ran.wrong(0, line, b"")
            continue
        seen.add((ran.status, ran.text))
        yield name, wrong_end(ran, ends)
    yield "each end was seen", None if seen == wanted else f"{len(seen ^ wanted)} of {len(wanted)} weren't, or others were"
    print(f"--version: {asked} of {asked} growths refused")


def cases(program):
    shim = Shim(program)
    for profile in PROFILES:
        script = Script(SETUP, LINES, LAST)
        yield from ((f"profile {profile}: {name}", why) for name, why in growths(shim, script, profile))
    yield from ((f"--version: {name}", why) for name, why in growths_of_version(shim))


if __name__ == "__main__":
    sys.exit(told(cases(sys.argv[1])))
