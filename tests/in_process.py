"""The scoreboard in the process of a test, beside the program: what tests/in_process.c tells through interfaces/c/zuldegei.h.

Each observation that is kept is told as tlscore tells it, by lines and by numbers: the rows of examples/scoreboard and of score_cases.py,
the stored runs of examples/testbench/rtl, and each trace of tests/rows behind its set-up. So are beats by lot, by both profiles. Wrong
calls get their errors and change nothing. Each malloc and realloc that is refused in turn gives that error and nothing else, and the
beat is taken when it is handed over again. Under valgrind and AddressSanitizer nothing is lost, no access is bad, and no thread steps on
another. A process that is told to fail doesn't end with 0. The header and the example of interfaces/c are C and C++. The class of
python/zuldegei/scoreboard.py does what it says. The library is built first, where it isn't there as its sources are; what isn't installed
is named.

    python3 tests/in_process.py TLSCORE [BEATS] [--seed WORD] [--library FOLDER]
"""

import os
import random
import re
import subprocess
import sys
import tempfile
from pathlib import Path

import in_process_python
import score_cases
import stored
from c_programs import C, STRICT, TOP, Part, c_compiler, compile_c, compiled, languages, library_of, watched, wrong_calls
from ends import asked, is_there, started, told
from scoreboard import Lot
from script_cases import setup_of

ROWS, RUNS = TOP / "examples/scoreboard", TOP / "examples/testbench/rtl/runs"
BOARDS = Part("in_process", "boards", "scoreboard", (C / "zuldegei.c",))
PROFILES, WAYS = ("bridge", "tilelink"), ("lines", "numbers")
# Where a set-up is refused that a line with a fault stands behind: tlscore reads that line first, and tlscore_new never sees it.
HISTORIES = "tests/histories"
REFUSED_FIRST = {f"{HISTORIES}/faults/at-the-start.ends: A byte that is none, behind a set-up that is refused.": (2, b"", b"set-up fault: BadConfig 0\n")}
# The ways of what can't be asked by both: numbers don't show how a flag was written; a text of C has no zero byte, and in_process.c looks for
# the config line itself, ahead of which a mark of UTF-8 stands.
FEWER_WAYS = {
    f"{HISTORIES}/faults/behind-a-config-line-of-one-client.ends: LAST of two digits.": ("lines",),
    f"{HISTORIES}/line-ends/a-zero-byte.lines": (),
    f"{HISTORIES}/line-ends/a-mark-of-utf-8-before-the-config-line.lines": (),
}


def stored_rows():
    """Each row of examples/scoreboard, and each stored run: what is given, and how it ends."""
    for row in sorted(ROWS.glob("*.in")):
        part = {kind: row.with_suffix(f".{kind}") for kind in ("status", "out", "err")}
        status = int(part["status"].read_text()) if part["status"].exists() else 0
        yield row.stem, row.read_bytes(), (status, part["out"].read_bytes(), part["err"].read_bytes() if part["err"].exists() else b"")
    for run in sorted(RUNS.glob("*.lines")):
        yield f"the run {run.stem}", run.read_bytes(), (1, run.with_suffix(".told").read_bytes(), b"")


def traces(tlscore):
    """Each trace of tests/rows behind its set-up, as tlscore ends with it."""
    for name, _, script, _, trace, _ in stored.cases(TOP / "tests/rows", ".script"):
        if name.endswith(".script"):
            given = setup_of(script) + trace
            ended = started([tlscore], given)
            yield f"the trace of {name}", given, (ended.status, ended.text, ended.line)


def observations(tlscore):
    yield from stored_rows()
    yield from traces(tlscore)
    for name, given, *wanted in score_cases.all_cases():
        yield name, given, wanted


def without_reason(status, text, line):
    """The same end of a call of the library, which names the place of a fault alone."""
    return status, text, re.sub(rb"^(script fault: line \d+, word \d+): .*", rb"\1", line)


def told_alike(program, tlscore):
    """Each observation that is kept, by lines and by numbers."""
    for name, given, wanted in observations(tlscore):
        for way in FEWER_WAYS.get(name, WAYS):
            yield f"{name}, by {way}", started([program, way], given).wrong(*without_reason(*REFUSED_FIRST.get(name, wanted)))


def by_lot(program, tlscore, rng, beats):
    """Beats by lot, by both profiles, beside tlscore."""
    lot = Lot(rng)
    for _ in range(beats):
        lot.draw()
    for profile in PROFILES:
        given = "\n".join([*lot.set_up, f"profile {profile}", *lot.drawn, ""]).encode()
        wanted = started([tlscore], given, 1200)
        for way in WAYS:
            ended = started([program, way], given, 1200)
            name = f"{beats} beats by lot, by profile {profile}, by {way}"
            yield name, ended.wrong(wanted.status, wanted.text, wanted.line) or lacking(ended, beats)


def lacking(ended, beats):
    """Whether too few beats were found wrong for a test."""
    wrong = ended.text.count(b"= wrong ")
    return None if wrong * 100 > beats else f"only {wrong} of {beats} beats are wrong"


def rows():
    """Each stored row, as the calls end with it."""
    for name, given, wanted in stored_rows():
        yield name, given, without_reason(*wanted)


def ends(folder, library):
    """How a process ends that was told to fail, by main's own status; and one that wasn't."""
    program = compiled("ends", TOP / "tests/in_process_ends.c", folder=folder, library=library)
    for calls, status, due in ((0, 0, 0), (0, 3, 3), (1, 0, 1), (1000, 0, 1), (1, 3, 3), (2, 134, 134)):
        ended = started([program, str(calls), str(status)], b"")
        yield f"{calls} calls to fail and a status of {status}", ended.wrong(due, b"last\nfirst\n", b"")


def example(folder, library):
    """The header, the calls and the example, as C and as C++, over both libraries."""
    wanted = b"40 ns: 207, = wrong 12 reply 7 PAYLOAD expected D 1 1 0 3 7 0 1122334455667788 0 at 40\n"
    for name, compiler, standard, flags in languages("the example"):
        for source in (*C.glob("*.h"), C / "zuldegei.c", C / "tlbridge.c"):
            words = [compiler, standard, *STRICT, "-Wpedantic", *(flags or ["-x", "c"]), "-c", str(source), "-o", os.devnull]
            ran = subprocess.run(words, capture_output=True, text=True, check=False)
            yield f"{source.name} as {name}", ran.stderr[-500:] or None
        strict = ["-Wpedantic", *flags]
        built, why = compile_c(f"example-{name}", C / "example.c", *strict, folder=folder, library=library, compiler=compiler,
                               standard=standard)
        yield f"the example as {name}", why or started([built], b"").wrong(1, wanted, b"")
    if not is_there("the example over the shared library", "pkg-config"):
        return
    words = ["pkg-config", "--cflags", "--libs", "zuldegei"]
    flags = subprocess.run(words, env={**os.environ, "PKG_CONFIG_PATH": str(library)}, capture_output=True, text=True, check=False)
    built, why = compile_c("example-shared", C / "example.c", folder=folder, behind=flags.stdout.split())
    yield "the example over the shared library", flags.stderr or why or started([built], b"").wrong(1, wanted, b"")


def declared():
    """The calls that zuldegei.h declares."""
    return set(re.findall(r"(?m)^\w[\w *]*?\b(tl(?:score|bridge)_\w+)\(", (C / "zuldegei.h").read_text()))


def shown(library):
    """Each call of the header is in the shared library, and nothing else; and versions agree."""
    if is_there("what the shared library shows", "nm"):
        listed = subprocess.run(["nm", "-D", "--defined-only", library / "libzuldegei.so"], capture_output=True, text=True, check=True)
        apart = sorted({line.split()[-1] for line in listed.stdout.splitlines()} ^ declared())
        yield "what the shared library shows", f"the header has others: {', '.join(apart)}" if apart else None
    header, package = (C / "zuldegei.h").read_text(), (TOP / "python/pyproject.toml").read_text()
    parts = [re.search(rf"VERSION_{part} (\d+)", header)[1] for part in ("MAJOR", "MINOR", "PATCH")]
    packed = (library / "zuldegei.pc").read_text()
    sources = ((header, r'ZULDEGEI_VERSION "(.*)"'), (package, r'(?m)^version = "(.*)"'), (packed, r"(?m)^Version: (.*)$"))
    versions = {".".join(parts), *(re.search(pattern, text)[1] for text, pattern in sources)}
    yield "one version", None if len(versions) == 1 else f"there are {', '.join(sorted(versions))}"


def cases(given):
    print(f"seed {given.seed}")
    if not c_compiler():
        print("skipped: the scoreboard in the process of a test, as there is no C compiler")
        return
    library, why = library_of(given)
    if why:
        yield "the library", why
        return
    with tempfile.TemporaryDirectory() as room:
        folder = Path(room)
        program = compiled("in_process", TOP / "tests/in_process.c", folder=folder, library=library)
        yield from shown(library)
        yield from example(folder, library)
        yield from ends(folder, library)
        yield from wrong_calls(BOARDS, folder, library)
        yield from watched(BOARDS, "numbers", rows(), folder, library)
        yield from told_alike(program, given.tlscore)
        yield from by_lot(program, given.tlscore, random.Random(given.seed), given.beats)
        yield from in_process_python.cases(library)


if __name__ == "__main__":
    words = asked(__doc__, "tlscore", by_lot=True)
    words.add_argument("beats", nargs="?", type=int, default=100_000)
    words.add_argument("--library", help="where libzuldegei.a and libzuldegei.so stand (out, where they are built)")
    sys.exit(told(cases(words.parse_args())))
