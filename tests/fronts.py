"""Gives each front of the scripts: it is carried out, or its last line alone is at fault; the text is that of its whole lines,
and of the last one where that is a command without its line feed.

    python3 tests/fronts.py PROGRAM
"""

import sys
from pathlib import Path

from ends import started, told
from scripts import SCRIPTS

# How many of a long script's first bytes are its fronts, beyond which one in so many is tried.
DENSE, STRIDE, SECONDS = 400, 97, 60


def lengths_of(script):
    length = len(script.given)
    if len(script.steps) <= 100:
        return range(length + 1)
    return [*range(DENSE), *range(DENSE, length, STRIDE), length]


def fronts(program, script):
    """Yields each front, and what is wrong with it."""
    tried = faults = 0
    for length in lengths_of(script):
        given = script.given[:length]
        ran = started([program, script.word], given, SECONDS)
        tried, faults = tried + 1, faults + (ran.status == 2)
        yield f"the first {length} bytes", wrong(script, ran, given.count(b"\n"), given.rpartition(b"\n")[2].decode())
    print(f"{script.name}: {tried} fronts, {faults} of them with a fault in the last line")
    yield "fronts of both kinds", None if 0 < faults < tried else f"{faults} of {tried} with a fault"


def wrong(script, ran, lines, rest):
    """Of a run on so many lines and a rest of another one."""
    text = script.text_of(lines)
    if ran.line.startswith(b"set-up fault: BadWord") and rest.startswith("bad "):
        return ran.wrong(2, b"", ran.line)
    if ran.status == 2:
        # A script without config is at fault at the first line.
        at = f"script fault: line {lines + 1}, word ".encode()
        if not (rest or lines == 0) or not ran.line.startswith(at):
            return f"{ran.line!r} for the last line {rest!r}"
        return ran.wrong(2, text, ran.line)
    if ran.status not in (0, 1):
        return f"status {ran.status} with {ran.line!r}"
    return wrong_text(script, ran, lines, rest)


def wrong_text(script, ran, lines, rest):
    """Of a run that ends well."""
    is_whole = rest == script.steps[lines][0] if lines < len(script.steps) else not rest
    text = script.text_at_end(lines + is_whole)
    if rest.startswith("mem ") and ran.text.startswith(text) and ran.text != text:
        # A shorter address is another address.
        text += b"= mem --\n"
    elif rest and not is_whole and ran.text.startswith(text):
        # A shorter number may be a number too: then there is some text of one command more, or none of a skipped line.
        text = ran.text
    return ran.wrong(ran.status, text, b"")


def cases(program):
    program = str(Path(program).resolve())
    for script in SCRIPTS:
        yield from ((f"{script.name}: {name}", why) for name, why in fronts(program, script))


if __name__ == "__main__":
    sys.exit(told(cases(sys.argv[1])))
