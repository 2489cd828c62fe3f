"""Slips in what isn't proved, which the tests of `./test program` have to find: puts each edit of tests/slips into a copy of the tree, and
runs the tests that it names there. By hand, since it takes an hour of a processor.

    python3 tests/slips.py TLSCORE TLBRIDGE LIBRARY [--only NAME ..] [--jobs N]

TLSCORE and TLBRIDGE are the programs as `rt ci` leaves them, and LIBRARY is the libzuldegei.a that interfaces/build made. They stay as they
are, but for interfaces/c, which is compiled anew for each slip.

A slip is a file NAME.edit: a line `tests: NAME ..`, the tests that have to find it, that of the least time first; a line `file: ..` by
its path from the top of the repository; then `old: ..` and `new: ..`, as body_edits.py reads them. A test is given the words that ./test
gives it. A slip passes that one of its tests finds: by the first line `FAILED: ..` that this test doesn't print without a slip too, or
by an end without a last line. So each test is run once without one. Of a slip that no test finds a line `but: ..` says why that is, and
what it could do: it passes where none does.
"""

import argparse
import os
import re
import shutil
import signal
import subprocess
import sys
import tempfile
from concurrent.futures import ThreadPoolExecutor
from contextlib import contextmanager, suppress
from pathlib import Path
from typing import Dict, Iterator, List, NamedTuple, Optional, Set, Tuple

import body_edits
from ends import TOP, told

SLIPS = TOP / "tests/slips"
TESTS, BUT = re.compile(r"^tests: (.+)$", re.M), re.compile(r"^but: (.+)$", re.M)
# In ./test: a list of tests that are called alike, and a call.
LISTED, CALLED = re.compile(r"for name in (.+); do"), re.compile(r'\s*try (?:"\$(name)"|(\w+))(.*)')
LAST = re.compile(r"\d+ passed, \d+ failed")
PLACES = {'"$scorer"': "crates/tlscore/out/tlscore", '"$program"': "crates/tlbridge/out/tlbridge"}
NOT_COPIED = shutil.ignore_patterns("out", ".git", "__pycache__", "wrong-bodies", "must-fail")
WIDEST = 160  # characters of what a test tells


class Slip(NamedTuple):
    """A slip: its name, its text, and the tests that have to find it."""

    name: str
    text: str
    tests: Tuple[str, ...]


class Given(NamedTuple):
    """What was proved and built."""

    tlscore: Path
    tlbridge: Path
    library: Path


def slips_of(names: List[str]) -> List[Slip]:
    """The slips of these names, or all."""
    files = [SLIPS / f"{it}.edit" for it in names] or sorted(SLIPS.glob("*.edit"))
    texts = [(it.stem, it.read_text()) for it in files]
    return [Slip(name, text, tuple(TESTS.search(text)[1].split())) for name, text in texts]


def words_by_test() -> Dict[str, List[str]]:
    """The words that ./test gives each test."""
    words: Dict[str, List[str]] = {}
    names: List[str] = []
    for line in (TOP / "test").read_text().splitlines():
        listed, called = LISTED.fullmatch(line), CALLED.fullmatch(line)
        if listed:
            names = listed[1].split()
        elif called:
            its = [PLACES.get(it, it) for it in called[3].split()]
            words.update((name, its) for name in (names if called[1] else [called[2]]))
    return words


@contextmanager
def copy(given: Given, text: str) -> Iterator[Path]:
    """A copy of the tree with an edit, the programs, and the library, which interfaces/build makes."""
    with tempfile.TemporaryDirectory(prefix="slip.", ignore_cleanup_errors=True) as made:
        tree = Path(made, "tree")
        shutil.copytree(TOP, tree, ignore=NOT_COPIED)
        for file, (_, lines) in body_edits.changed(tree, text, "").items() if text else ():
            (tree / file).write_text("\n".join(lines))
        for program in (given.tlscore, given.tlbridge):
            folder = tree / "crates" / program.name / "out"
            folder.mkdir()
            shutil.copy2(program, folder)
        build(tree, given.library)
        yield tree


def build(tree: Path, library: Path) -> None:
    """Makes the library in a copy: over the archive of one that was built, with a stand-in for rt, whose allocator is in there."""
    kit, archive = tree / "out/kit", tree / "crates/zuldegei/out"
    (kit / "c").mkdir(parents=True)
    (kit / "rt").write_text('#!/bin/sh\necho "$0"\n')
    (kit / "rt").chmod(0o755)
    (kit / "c/liblibc_c.a").write_bytes(b"!<arch>\n")
    archive.mkdir()
    shutil.copy2(library, archive / "libzuldegei.a")
    words = '. ./.ci/stamp.sh && note_built_from zuldegei "$(sources)" && interfaces/build'
    environment = {**os.environ, "PATH": f"{kit}:{os.environ['PATH']}"}
    ran = subprocess.run(["sh", "-c", words], cwd=tree, env=environment, capture_output=True, text=True, check=False)
    if ran.returncode:
        raise body_edits.Unusable(f"the library can't be built, status {ran.returncode}: {ran.stderr.strip()[-WIDEST:]}")


def failures(tree: Path, test: str) -> Iterator[str]:
    """What a test tells of failures, line by line; where that is enough it is ended, with all that it began."""
    words, room = [sys.executable, f"tests/{test}.py", *words_by_test()[test]], tree.parent / "room"
    room.mkdir(exist_ok=True)
    environment, pipe = {**os.environ, "TMPDIR": str(room)}, subprocess.PIPE
    with subprocess.Popen(words, cwd=tree, env=environment, stdout=pipe, stderr=subprocess.STDOUT, start_new_session=True) as program:
        line = ""
        try:
            for line in (it.decode(errors="replace").rstrip() for it in program.stdout):
                if line.startswith("FAILED"):
                    yield line
            if not LAST.fullmatch(line):
                yield f"status {program.wait()}: {line}"
        finally:
            with suppress(ProcessLookupError):
                os.killpg(program.pid, signal.SIGKILL)


def finder(given: Given, slip: Slip, known: Dict[str, Set[str]]) -> str:
    """By which of its tests a slip is found, and what that tells; nothing, where none finds it."""
    with copy(given, slip.text) as tree:
        for test in slip.tests:
            line = next((it for it in failures(tree, test) if it not in known[test]), None)
            if line is not None:
                return f"{test}: {line[:WIDEST]}"
    return ""


def tried(given: Given, slip: Slip, known: Dict[str, Set[str]]) -> Optional[str]:
    """Why a slip fails: no test of its own finds it, or it can't be tried. What came of one that passes is printed."""
    try:
        by, but = finder(given, slip, known), BUT.search(slip.text)
    except body_edits.Unusable as why:
        return str(why)
    if bool(by) == bool(but):
        return f"caught by {by}" if by else f"NOT CAUGHT by {', '.join(slip.tests)}"
    print(f"{slip.name}: caught by {by}" if by else f"{slip.name}: not caught: {but[1]}", flush=True)
    return None


def without(given: Given, tests: List[str]) -> Dict[str, Set[str]]:
    """What each test tells of failures without a slip."""
    with copy(given, "") as tree:
        return {test: set(failures(tree, test)) for test in tests}


def cases(given: Given, slips: List[Slip], jobs: int) -> Iterator[Tuple[str, Optional[str]]]:
    known = without(given, list(dict.fromkeys(test for it in slips for test in it.tests)))
    for test, lines in known.items():
        yield f"{test}, without a slip", "; ".join(sorted(lines))[:WIDEST]
    with ThreadPoolExecutor(jobs) as pool:
        yield from zip((it.name for it in slips), pool.map(lambda it: tried(given, it, known), slips))


def main() -> int:
    asked = argparse.ArgumentParser(description=__doc__, formatter_class=argparse.RawDescriptionHelpFormatter)
    for name in Given._fields:
        asked.add_argument(name, metavar=name.upper(), type=lambda it: Path(it).resolve(strict=True))
    asked.add_argument("--only", nargs="+", default=[], metavar="NAME", help="these slips alone")
    asked.add_argument("--jobs", type=int, default=1, help="how many at once (1)")
    words = asked.parse_args()
    lacking = [it for it in words.only if not (SLIPS / f"{it}.edit").is_file()]
    if lacking:
        asked.error(f"tests/slips has no {', '.join(lacking)}")
    return told(cases(Given(words.tlscore, words.tlbridge, words.library), slips_of(words.only), words.jobs))


if __name__ == "__main__":
    sys.exit(main())
