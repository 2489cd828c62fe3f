"""Refuses each call of the program that may fail in turn, and where that says more, with all calls of its kind after it.

A growth of memory: words that can't be had come first (status 6), then want of memory (status 4), then, in `threads`, a thread
that can't be made (status 5), nothing being written in any case; then the program asks no more, however long a script of `run`
or `check` is, and ends as it does with memory enough. Where one growth alone is refused a vector may ask once more, for just
what it needs: then nothing is wanting, and the run asked once more than it does with memory enough. The calls of the libraries
that take memory have tests of their own, as those of `crates/layer_tests`, of which each growth is refused too. Each script of
`tests/rows` asks no more often than its set-up alone, so a world that is driven asks for no memory.

A thread that can't be made is told. A read that fails is told, and the text of the lines that were read whole stands. A write
that fails is told, and what was written is a front of the text; one that is interrupted is tried again.

    python3 tests/refusals.py PROGRAM
"""

import errno
import sys

import stored
from ends import MEMORY, READ, SPAWN, TOP, USAGE, WRITE, told
from script_cases import setup_of
from scripts import SCRIPTS, SETUP, Script
from shim import Shim

# In this order.
LINES = {6: USAGE, 4: MEMORY, 5: SPAWN}
# Where no command comes the world is made at the input's end.
NO_COMMAND = (
    Script("a set-up alone", "run", tuple((line, "") for line in SETUP), 0),
    Script("a set-up alone, of check", "check", (("config 1 1 1 1 1 12 h", ""),), 0),
)
# Eight clients and four memory threads.
TWELVE = Script(
    "twelve threads",
    "threads",
    (("config 8 1 1 1 1 12 hhhhhhhh", ""), ("word 0 3", "")),
    0,
    "= ok\n" + "".join(f"client {client}\n" for client in range(8)),
)
# The tests of the calls that take memory: where each stands, its name, and the errors that it may end with, in this order.
CALLS = (
    *(("layer_tests", f"constructors::{name}", ("AllocError",)) for name in (
        "request", "reply_box", "burst_box", "port", "monitor", "flight", "gather")),
    *(("layer_tests", f"constructors::{name}", ("NoMemory",)) for name in (
        "page_map", "bridge", "device", "world", "opened_world", "a_run")),
    ("tlbridge", "growths::shared", ("NoMemory",)),
    # The lists that it is given come first.
    ("tlbridge", "growths::threads", ("AllocError", "NoMemory", "Spawn")),
)
# How many bytes a read moves at most, so that a script takes many; how many the program has room for until a read fills all of
# it, and from then on.
PIECE, FIRST_ROOM, ROOM = 64, 4096, 65536


class Stages:
    """The ends that growths may give in turn: once one was seen none before it comes again."""

    def __init__(self, ends):
        self.ends, self.at = ends, 0
        self.seen = dict.fromkeys(ends, 0)

    def wrong(self, end, alone):
        """Takes the next end, and counts it where one growth alone was refused."""
        if end not in self.ends or self.ends.index(end) < self.at:
            return f"{end!r} after {self.ends[self.at]!r}"
        self.at = self.ends.index(end)
        self.seen[end] += alone
        return None


def growths(shim, script):
    free = shim.run([script.word], script.given)
    asked, again = free.counts["growth"], 0
    stages = Stages([6, 4, 5] if script.word == "threads" else [6, 4])
    yield "no growth refused", free.wrong(script.status, script.text, b"")
    for at, alone, ran, name in shim.refused([script.word], script.given, "growth", asked + 1):
        asked_again = alone and ran.counts["growth"] == asked + 1
        if at > asked or asked_again and ran.status == script.status:
            again += asked_again
            yield name, ran.wrong(script.status, script.text, b"")
        else:
            yield name, stages.wrong(ran.status, alone) or ran.wrong(ran.status, b"", LINES[ran.status])
    counts = ", ".join(f"{count} with status {status}" for status, count in stages.seen.items())
    print(f"{script.name}: growths refused: {counts}, and {again} that were asked again")
    yield "growths refused", None if all(stages.seen.values()) else f"{stages.seen}"


def growths_of_call(crate, name, errors):
    """Each growth that is refused of a test."""
    shim, words = Shim(TOP / "crates" / crate / "out" / f"{crate}_tests"), [f"tests::{name}"]
    free, stages = shim.run(words, b""), Stages(errors)
    asked = free.counts["growth"]
    yield "no growth refused", wrong_call(free, None)
    for at, alone, ran, case in shim.refused(words, b"", "growth", asked + 1):
        found = error_of(ran)
        if at > asked or alone and found is None and ran.counts["growth"] == asked + 1:
            yield case, wrong_call(ran, None)
        else:
            yield case, stages.wrong(found, alone) or wrong_call(ran, found)
    print(f"{crate}, {name}: refused {', '.join(f'{count} growths with {error}' for error, count in stages.seen.items())}")
    yield "growths refused", None if all(stages.seen.values()) else f"{stages.seen}"


def error_of(ran):
    """The error that a test ended with."""
    line = ran.line.decode(errors="replace").partition("\n")[0]
    return line.removeprefix("error: ") if ran.status else None


def wrong_call(ran, error):
    """Tells how a test doesn't end with an error, or well where that is none."""
    line = f"error: {error}\nthe test failed: its result gives status 1\n" if error else ""
    return ran.wrong(101 if error else 0, None, line.encode())


def pages_again():
    """A page that is refused its room gets it when it is asked for again, and one that has room asks for none: the test asks a
    hundred times."""
    shim, words = Shim(TOP / "crates" / "score_tests" / "out" / "score_tests_tests"), ["tests::sparse_memories::reserved_again"]
    free = shim.run(words, b"")
    asked = free.counts["growth"]
    print(f"sparse_memory: {asked} growths where two pages get room, each refused alone and with all after it")
    yield "no growth refused", wrong_call(free, None)
    yield "few growths", None if 0 < asked < 20 else f"{asked}"
    for _, alone, ran, case in shim.refused(words, b"", "growth", asked):
        yield case, wrong_call(ran, None if alone else "AllocError")


def growths_of_long(shim, word, long, alone):
    """A script asks no more often than its set-up alone."""
    counts = [shim.run([word], it).counts["growth"] for it in (long, alone)]
    yield "no more growths than of its set-up alone", None if counts[0] == counts[1] > 0 else f"{counts}"


def rows():
    """Each worked row of `run` whose set-up is right: its name and its script."""
    for name, word, script, _, _, line in stored.cases(TOP / "tests/rows", ".script"):
        if word == "run" and not line:
            yield name, script


def threads(shim, script, count):
    made = shim.run([script.word], script.given).counts["thread"]
    yield "its threads", None if made == count else f"{made}, not {count}"
    for at, _, ran, name in shim.refused([script.word], script.given, "thread", count + 1):
        yield name, ran.wrong(*((5, b"", LINES[5]) if at <= count else (script.status, script.text, b"")))
    print(f"{script.name}: {count} threads refused in turn")


def starts_of_reads(length, piece):
    """Where the reads of so many bytes begin, if none moves more than a piece; the last finds the input's end."""
    starts, room = [0], FIRST_ROOM
    while starts[-1] < length:
        moved = min(piece, room, length - starts[-1])
        starts.append(starts[-1] + moved)
        room = ROOM if moved == room else room
    return starts


def reads(shim, script, piece, error):
    starts = starts_of_reads(len(script.given), piece)
    free = shim.run([script.word], script.given, most=piece)
    yield "no read refused", free.wrong(script.status, script.text, b"")
    if free.counts["read"] != len(starts):
        yield "its reads", f"{free.counts['read']}, not {len(starts)}, of at most {piece} bytes for {len(script.given)}"
    words = [script.word]
    for at, _, ran, name in shim.refused(words, script.given, "read", len(starts), error, piece, onward=False):
        whole_lines = script.given[: starts[at - 1]].count(b"\n")
        yield name, ran.wrong(3, script.text_of(whole_lines), READ)
    print(f"{script.name}: {len(starts)} reads of at most {piece} bytes refused in turn with {errno.errorcode[error]}")


def writes(shim, script, piece, error):
    free = shim.run([script.word], script.given, most=piece)
    count = free.counts["write"]
    yield "no write refused", free.wrong(script.status, script.text, b"") or (None if count else "it writes nothing")
    for _, alone, ran, name in shim.refused([script.word], script.given, "write", count, error, piece):
        yield name, ran.wrong(3, None, WRITE) or wrong_front(ran.text, script.text, alone)
    print(f"{script.name}: {count} writes of at most {piece or 'any number of'} bytes refused in turn with {errno.errorcode[error]}")


def wrong_front(text, whole, alone):
    """Where one write alone fails, the buffer may still be written when it is let go."""
    if not whole.startswith(text):
        return "what was written is no front of the text"
    return None if alone or len(text) < len(whole) else "the whole text was written"


def interrupted_writes(shim, script):
    count = shim.run([script.word], script.given, most=PIECE).counts["write"]
    for _, _, ran, name in shim.refused([script.word], script.given, "write", count, errno.EINTR, PIECE, onward=False):
        yield name, ran.wrong(script.status, script.text, b"")


def few_calls(shim):
    """A file of as many lines as may be costs no more writes than one for each 8,192 bytes of text and one for each read."""
    steps = [(line, "") for line in SETUP] + [("work", "= work 0\n")] * (65_536 - len(SETUP))
    script = Script("65,536 lines", "run", tuple(steps), 0)
    ran = shim.run([script.word], script.given)
    read, wrote = ran.counts["read"], ran.counts["write"]
    print(f"{script.name}: {read} reads and {wrote} writes for {len(script.given)} bytes and {len(script.text)} of text")
    is_few = wrote <= len(script.text) // 8192 + read and read <= len(script.given) // 65_536 + 2
    return ran.wrong(0, script.text, b"") or (None if is_few else "more calls")


def is_long(script):
    return len(script.steps) > 100


def of_growths(shim):
    for script in (*SCRIPTS, *NO_COMMAND, TWELVE):
        yield script.name, growths(shim, script)
    for script, alone in ((SCRIPTS[1], NO_COMMAND[0]), (SCRIPTS[3], NO_COMMAND[1])):
        yield script.name, growths_of_long(shim, script.word, script.given, alone.given)
    for name, script in rows():
        yield name, growths_of_long(shim, "run", script, setup_of(script))
    for crate, name, errors in CALLS:
        yield f"{crate}, {name}", growths_of_call(crate, name, errors)
    yield "pages", pages_again()


def of_threads(shim):
    for script, count in ((SCRIPTS[4], 2), (SCRIPTS[5], 4), (TWELVE, 12)):
        yield script.name, threads(shim, script, count)


def of_reads(shim):
    short = ((1, errno.EIO), (1, errno.EINTR))
    long = ((PIECE, errno.EIO), (8 * PIECE, errno.EINTR), (ROOM, errno.EIO))
    for script in SCRIPTS:
        for piece, error in long if is_long(script) else short:
            yield script.name, reads(shim, script, piece, error)


def of_writes(shim):
    for script in SCRIPTS:
        # (threads that wait for each other take their time)
        most = 1 if not is_long(script) else 1024 if script.word == "threads" else 256
        for piece, error in ((0, errno.EIO), (most, errno.ENOSPC)):
            yield script.name, writes(shim, script, piece, error)
    for script in (SCRIPTS[0], SCRIPTS[4]):
        yield script.name, interrupted_writes(shim, script)


def cases(program):
    shim = Shim(program)
    for kind in (of_growths, of_threads, of_reads, of_writes):
        for subject, tried in kind(shim):
            yield from ((f"{subject}: {name}", why) for name, why in tried)
    yield "few calls for a long script", few_calls(shim)


if __name__ == "__main__":
    sys.exit(told(cases(sys.argv[1])))
