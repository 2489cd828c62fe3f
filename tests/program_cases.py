"""Tries the program as it was built, and the launcher over a stand-in for rt. A case that fails has one line; the last
line is 'N passed, M failed'. What is wanted stands beside the examples, in docs/SCRIPT.md, in tests/rows and in the tables here.

    python3 tests/program_cases.py PROGRAM

Where tlscore was built too, its cases are tried as well.
"""

import os
import re
import subprocess
import sys
from pathlib import Path

TOP = Path(__file__).resolve().parent.parent
sys.path.insert(0, str(TOP / "examples" / "testbench"))
sys.dont_write_bytecode = True

import client  # noqa: E402
import launcher_cases  # noqa: E402
import random_bench  # noqa: E402
import script_cases  # noqa: E402
import stored  # noqa: E402
from ends import READ, SCORE_USAGE, USAGE, WRITE, Ended, started  # noqa: E402

FIRST = (TOP / "examples/first.script").read_bytes()
TRACE = (TOP / "examples/first.trace").read_bytes()
SETUP = script_cases.SETUP.encode()
CONFIG = script_cases.CONFIG.encode() + b"\n"
THREADS = (TOP / "examples/threads.script").read_bytes()
GET = b"a 0 4 0 3 0 8 ff 0 0\n"
UNALIGNED, ALIGN = CONFIG + b"a 0 4 0 3 0 4 ff 0 0\n", b"7 BeatRefused client 0 beat 0 rule 5 ALIGN"
# A Get of 4,096 bytes makes 1,058 steps over bursts of 16 beats: its offer, 32 bursts, 512 beats performed and answered, and
# its take. One of 8 bytes makes 5, an Intent 2.
LARGE_GET, INTENT = b"a 0 4 0 12 0 0 ff 0 0\n", b"a 0 5 0 3 0 8 ff 0 0\n"
ONE_LIVE = b"config 1 1 16 2 16 12 h\nregion 0 4 10 gpah\npage 10 4 good\n"
HINTED = b"D 0 2 0 3 0 0 0000000000000000 0\n"
MOST_STEPS = ONE_LIVE + LARGE_GET * 189 + GET * 6 + INTENT * 4
VERSION = (TOP / "VERSION").read_text().strip()
# The commands of the package, each with its module.
COMMANDS = re.findall(r'(?m)^(zuldegei-[\w-]+) = "(zuldegei\.\w+):main"$', (TOP / "python/pyproject.toml").read_text())
# A script on a page, by its word, and, by its status, its trace, or its line on standard error where it has no trace.
SHOWN = re.compile(r"(?m)^```script (\w+)\n((?:(?!```).*\n)*)```\n\n```(trace|fault) (\d)\n((?:(?!```).*\n)*)```$")


def zeros(first, count, reply):
    """The text of so many replies to requests from a number on, whose beats these are."""
    return b"".join(b"= reply %d\n%b" % (first + at, reply) for at in range(count))


def read(size):
    """The beats of zeros that answer a Get of client 0."""
    return b"D 0 1 0 %d 0 0 0000000000000000 0\n" % size * (2**size // 8)


def faulty(script, line, word):
    """A script of `threads` with a fault: nothing is written."""
    return ["threads"], script, 2, b"", b"script fault: line %d, word %d\n" % (line, word)


def refused(script, fault):
    """A script of `threads` whose run has a fault."""
    return ["threads"], script, 5, b"", b"thread fault: %b\n" % fault


# What is given and what is wanted, where it is an example with other ends of its lines or has many lines: the words, standard input, the
# status, the text, and the line on standard error.
TABLE = {
    "no word": ([], FIRST, 0, TRACE, b""),
    "run": (["run"], FIRST, 0, TRACE, b""),
    "lines ended by CR LF": (["run"], FIRST.replace(b"\n", b"\r\n"), 0, TRACE, b""),
    "a last line without an end": (["run"], FIRST[:-1], 0, TRACE, b""),
    "a last line that a CR ends": (["run"], FIRST[:-1] + b"\r", 0, TRACE, b""),
    "a CR that ends no line": (["run"], FIRST + b"pump\r \n", 2, TRACE, b"script fault: line 10, word 0\n"),
    "as many lines as may be": (["run"], CONFIG + b"\n" * 65_535, 0, b"", b""),
    "a line more": (["run"], CONFIG + b"\n" * 65_536, 2, b"", b"script fault: line 65537, word 0\n"),
    "65,533 answers": (["run"], SETUP + b"work\n" * 65_533, 0, b"= work 0\n" * 65_533, b""),
    # ---- threads
    "more requests than the quota and the sources": (
        ["threads"], ONE_LIVE + GET * 4096, 0, b"= ok\nclient 0\n" + zeros(0, 4096, read(3)), b"",
    ),
    "as many steps as may be": (
        ["threads"],
        MOST_STEPS,
        0,
        b"= ok\nclient 0\n" + zeros(0, 189, read(12)) + zeros(189, 6, read(3)) + zeros(195, 4, HINTED),
        b"",
    ),
    "more steps than may be": refused(MOST_STEPS + INTENT, b"6 HistoryFull"),
    "as many lines as may be, in threads": (["threads"], CONFIG + b"word 1\n" * 65_535, 0, b"= ok\nclient 0\n", b""),
    "as many addresses as may be": (
        ["threads"], CONFIG + b"mem 0\n" * 65_535, 0, b"= ok\nclient 0\n" + b"= mem --\n" * 65_535, b"",
    ),
    "a line more, in threads": faulty(CONFIG + b"word 1\n" * 65_536, 65_537, 0),
    "a 4,097th beat of a client": faulty(SETUP + GET * 4096 + b"a 1 4 0 3 0 8 ff 0 0\n" * 4096 + GET, 8196, 1),
    "a 4,097th beat with a wrong word": faulty(SETUP + GET * 4096 + b"a 0 4 0 3 0 8 zz 0 0\n", 4100, 1),
    "4,096 beats of each client": faulty(SETUP + GET * 4096 + b"a 1 4 0 3 0 8 ff 0 0\n" * 4096 + b"word\n", 8196, 2),
}

# What the shell does with the program, its standard input, the status, the text, and the line on standard error.
REDIRECTED = {
    "standard input closed": ('"$0" run <&-', b"", 3, b"", READ),
    "standard input closed, to check": ('"$0" check <&-', b"", 3, b"", READ),
    "standard input closed, to threads": ('"$0" threads <&-', b"", 3, b"", READ),
    "a folder as standard input": ('"$0" run </', b"", 3, b"", READ),
    "standard output closed": ('"$0" run >&-', FIRST, 3, b"", WRITE),
    "standard output closed, to check": ('"$0" check >&-', CONFIG + b"free 0 0\n", 3, b"", WRITE),
    "standard output closed, to threads": ('"$0" threads >&-', CONFIG, 3, b"", WRITE),
    "standard output closed, and a fault of the beats": ('"$0" threads >&-', *refused(UNALIGNED, ALIGN)[1:]),
    "standard output closed, and no text": ('"$0" run >&-', CONFIG, 0, b"", b""),
    "a full device": ('"$0" run >/dev/full', FIRST, 3, b"", WRITE),
    "a full device, and much text": ('"$0" run >/dev/full', SETUP + b"work\n" * 65_000, 3, b"", WRITE),
    "a full device, and text before a fault": ('"$0" run >/dev/full', FIRST + b"x\n", 3, b"", WRITE),
    "a full device, to threads": ('"$0" threads >/dev/full', THREADS, 3, b"", WRITE),
    "a full device, and much text of threads": ('"$0" threads >/dev/full', MOST_STEPS, 3, b"", WRITE),
    "a full device, and a fault of the script of threads": ('"$0" threads >/dev/full', *faulty(THREADS + b"x\n", 8, 1)[1:]),
    "standard error closed": ('"$0" run 2>&-', b"", 2, b"", b""),
    "a full device as standard error": ('"$0" walk 2>/dev/full', b"", 6, b"", b""),
    "all three closed": ('exec "$0" run <&- >&- 2>&-', b"", 3, b"", b""),
}


def refused_words(program):
    """Words that a program refuses, and one that is very long."""
    yield from ((it.name, it.words) for it in stored.blocks(TOP / f"tests/words/{program}.words"))
    yield "a word of 100,000 bytes", ["x" * 100_000]


def of_table(program):
    for name, words in refused_words("tlbridge"):
        yield name, lambda w=words: started([program, *w], FIRST).wrong(6, b"", USAGE)
    for name, (words, given, *wanted) in TABLE.items():
        yield name, lambda w=words, g=given, x=wanted: started([program, *w], g).wrong(*x)
    for name, (line, given, *wanted) in REDIRECTED.items():
        yield name, lambda s=line, g=given, x=wanted: started(["sh", "-c", s, program], g).wrong(*x)


def of_scripts(program):
    for name, given, *wanted in script_cases.cases():
        yield name, lambda g=given, x=wanted: started([program, "run"], g).wrong(*x)


def of_examples(program):
    """Each example and each row against its trace, an example with CR LF too; each faulty one also against its line on standard
    error."""
    yield "the files of tests/rows", lambda: stored.unread(TOP / "tests/rows", ".script")
    for name, word, given, *wanted in stored.scripts():
        yield name, lambda w=word, g=given, x=wanted: started([program, w], g).wrong(*x)
        if name.startswith("examples"):
            crlf = given.replace(b"\n", b"\r\n")
            yield f"{name} with CR LF", lambda w=word, g=crlf, x=wanted: started([program, w], g).wrong(*x)


def score_of(program):
    """Where tlscore is built, beside a program."""
    return str(Path(program).resolve().parents[2] / "tlscore/out/tlscore")


def of_pages(program):
    """Each script of a page, by its word, against the trace or the fault that stands after it, with its status."""
    for page in sorted((TOP / "docs").glob("*.md")):
        scripts = SHOWN.findall(page.read_text())
        alone = page.read_text().count("\n```script ") - len(scripts)
        yield f"each script of {page.name} is shown with what it prints", lambda n=alone: f"{n} aren't" if n else None
        for number, (word, script, kind, status, shown) in enumerate(scripts):
            name, shown = f"script {number + 1} of {page.name}", shown.encode()
            wanted = (int(status), b"", shown) if kind == "fault" else (int(status), shown, b"")
            words = [score_of(program)] if word == "score" else [program, word]
            yield name, lambda w=words, g=script.encode(), x=wanted: started(w, g).wrong(*x)


def reader_gone(program, word, given):
    """A pipe whose reader goes away before the first byte."""
    reads, writes = os.pipe()
    os.close(reads)
    try:
        ran = subprocess.run([program, word], input=given, stdout=writes, stderr=subprocess.PIPE, timeout=120)
    finally:
        os.close(writes)
    return Ended.of(ran).wrong(3, None, WRITE)


def talks(program):
    """One command at a time: its answer is there before the next command."""
    with client.Interactive([program, "run"], seconds=10) as bridge:
        for line in FIRST.decode().splitlines():
            bridge.send(line)
        return None if bridge.trace == TRACE.decode().splitlines() else f"it answered {bridge.trace!r}"


def answers(program, commands):
    """Many commands in a row over pipes: each answer comes at once."""
    with client.Interactive([program, "run"], seconds=10) as bridge:
        bridge.setup("2 4 16 2 16 12 hh", regions=["0 4 10 gpah"], pages=["10 4 good"])
        if any(bridge.pump() is not None for _ in range(commands)):
            return "it sent a burst"
        return None


def bench(program, seed, steps):
    with client.Interactive([program, "run"]) as bridge:
        return random_bench.tried(random_bench.Bench(bridge, seed), steps)


def of_pipes(program):
    yield "a pipe whose reader is gone", lambda: reader_gone(program, "run", FIRST)
    yield "a pipe whose reader is gone, and much text", lambda: reader_gone(program, "run", SETUP + b"work\n" * 65_000)
    yield "a pipe whose reader is gone, and text of threads", lambda: reader_gone(program, "threads", MOST_STEPS)
    yield "interactive use", lambda: talks(program)
    yield "10,000 commands, each answered before the next", lambda: answers(program, 10_000)
    for seed in range(5):
        yield f"the random bench, seed {seed}", lambda s=seed: bench(program, s, 2_000)


def of_scores(program):
    """What was observed, against what tlscore says of it: each row, its words, and each trace of a run, which is right."""
    score = score_of(program)
    yield "tlscore is built", lambda: None if os.access(score, os.X_OK) else "it isn't there"
    for row in sorted(TOP.glob("examples/scoreboard/*.in")):
        wanted = int(row.with_suffix(".status").read_text().split()[-1]), row.with_suffix(".out").read_bytes(), row.with_suffix(".err").read_bytes()
        given, name = row.read_bytes(), f"tlscore: {row.stem}"
        yield name, lambda g=given, x=wanted: started([score], g).wrong(*x)
        yield f"{name} with CR LF", lambda g=given.replace(b"\n", b"\r\n"), x=wanted: started([score], g).wrong(*x)
    for name, words in refused_words("tlscore"):
        given = (TOP / "examples/scoreboard/right.in").read_bytes()
        yield f"tlscore: {name}", lambda w=words, g=given: started([score, *w], g).wrong(6, b"", SCORE_USAGE)
    for name, word, script, _, trace, line in stored.scripts():
        if word == "run" and not line:
            given = script_cases.setup_of(script) + trace
            yield f"tlscore: the trace of {name}", lambda g=given: of_right(started([score], g))
    for how, *wanted in (
        ("<&-", 3, b"", READ), (">&-", 3, b"", WRITE), (">/dev/full", 3, b"", WRITE), ("</", 3, b"", READ),
    ):
        given = (TOP / "examples/scoreboard/right.in").read_bytes()
        yield f"tlscore {how}", lambda h=how, g=given, x=wanted: started(["sh", "-c", f'"$0" {h}', score], g).wrong(*x)


def of_versions(program):
    """The version that tlscore and the commands of the package print: that of the file VERSION, behind their names."""
    score, line = score_of(program), f"tlscore {VERSION}\n".encode()
    yield "tlscore: the version", lambda: started([score, "--version"], b"").wrong(0, line, b"")
    yield "tlscore: the version, and input that isn't read", lambda: unread([score, "--version"], 0, line, b"")
    yield "tlscore: a word, and input that isn't read", lambda: unread([score, "run"], 6, b"", SCORE_USAGE)
    for how, *wanted in (("<&-", 0, line, b""), ("2>&-", 0, line, b""), (">&-", 3, b"", WRITE), (">/dev/full", 3, b"", WRITE)):
        yield f"tlscore --version {how}", lambda h=how, x=wanted: started(["sh", "-c", f'"$0" --version {h}', score], b"").wrong(*x)
    yield "tlscore: the version, to a pipe whose reader is gone", lambda: reader_gone(score, "--version", b"")
    yield "the commands of the package", lambda: None if COMMANDS else "pyproject.toml lists none"
    for name, module in COMMANDS:
        words, line = ["env", f"PYTHONPATH={TOP / 'python'}", sys.executable, "-B", "-m", module], f"{name} {VERSION}\n".encode()
        closed, full = (f"{name}: {why}\n".encode() for why in ("standard output: Bad file descriptor", "a file: No space left on device"))
        for how, *wanted in (("", 0, line, b""), ("2>&-", 0, line, b""), (">&-", 3, b"", closed), (">/dev/full", 3, b"", full)):
            yield f"{name} --version {how}", lambda h=how, w=words, x=wanted: started(["sh", "-c", f'"$@" --version {h}', "sh", *w], b"").wrong(*x)
        yield f"{name} --help >&-", lambda w=words, x=closed: started(["sh", "-c", '"$@" --help >&-', "sh", *w], b"").wrong(3, b"", x)
        wrong = f"{name}: a word that isn't there, and nowhere to say so"
        yield wrong, lambda w=words: started(["sh", "-c", '"$@" --there-is-none 2>/dev/full', "sh", *w], b"").wrong(6, b"", b"")


def unread(words, *wanted):
    """A pipe with a byte in it, which is still there when the program has ended."""
    reads, writes = os.pipe()
    with open(reads, "rb") as left:
        with open(writes, "wb") as given:
            given.write(b"x")
        ran = subprocess.run(words, stdin=left, capture_output=True, timeout=120)
        return Ended.of(ran).wrong(*wanted) or (None if left.read() == b"x" else "it reads its input")


def of_right(ran):
    """Tells how a run isn't one that found nothing wrong."""
    last = ran.text.splitlines()[-1:]
    if ran.status or ran.line or not last or b" wrong 0 " not in last[0]:
        return f"status {ran.status}, {ran.line[-200:]!r}, {ran.text[-200:]!r}"
    return None


def main(program):
    program = str(Path(program).resolve())
    if not os.access(program, os.X_OK):
        print("the program isn't built: ./tlbridge builds it, and so does ./test\n0 passed, 1 failed")
        return 1
    passed = failed = 0
    for cases in (of_examples, of_pages, of_table, of_scripts, of_pipes, of_scores, of_versions, launcher_cases.cases):
        for name, case in cases(program):
            try:
                why = case()
            except Exception as error:  # a case that can't be tried has failed
                why = f"{type(error).__name__}: {error}"
            passed, failed = passed + (not why), failed + bool(why)
            if why:
                print(f"FAILED: {name}: {why}", flush=True)
    print(f"{passed} passed, {failed} failed")
    return 1 if failed else 0


if __name__ == "__main__":
    sys.exit(main(sys.argv[1]))
