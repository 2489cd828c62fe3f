"""What all tests share: the words that they are called by, how a run of a program ends and how that isn't as it is wanted, what isn't
installed, and the last line."""

import argparse
import secrets
import shutil
import subprocess
import tempfile
from dataclasses import dataclass
from itertools import zip_longest
from pathlib import Path
from typing import Callable, Iterable, Iterator, Optional, Sequence, Tuple, Union

TOP = Path(__file__).resolve().parent.parent
# A case: its name, and what is wrong with it, or nothing.
Case = Tuple[str, Optional[str]]
Word = Union[str, bytes, Path]

# Lines on standard error, as docs/SCRIPT.md has them, and docs/SCOREBOARD.md.
USAGE, SCORE_USAGE = b"usage: tlbridge run, check or threads\n", b"usage: tlscore [--version]\n"
READ, WRITE = b"read fault\n", b"write fault\n"
MEMORY, SPAWN = b"out of memory\n", b"thread fault: 3 Spawn\n"


@dataclass(frozen=True)
class Ended:
    """A status, the text on standard output, and the line on standard error."""

    status: int
    text: bytes
    line: bytes

    @classmethod
    def of(cls, ran: "subprocess.CompletedProcess[bytes]") -> "Ended":
        """Of what subprocess gives."""
        return cls(ran.returncode, ran.stdout, ran.stderr)

    def wrong(self, status: int, text: Optional[bytes], line: bytes) -> Optional[str]:
        """Tells in one line how the run isn't so, or nothing. Where no text is wanted, any will do."""
        if self.status != status:
            return f"status {self.status}, not {status}; it said {self.line[-200:]!r}"
        if self.line != line:
            return f"{self.line[-200:]!r} on standard error, not {line!r}"
        if text is None or self.text == text:
            return None
        both = zip_longest(self.text.split(b"\n"), text.split(b"\n"))
        number, got, wanted = next((number, *it) for number, it in enumerate(both, 1) if it[0] != it[1])
        return f"line {number} of {len(self.text)} bytes of text is {got!r}, not {wanted!r}"


def asked(page: str, *files: str, by_lot: bool = False, over_library: bool = False) -> argparse.ArgumentParser:
    """The words of a test: files that it needs by these names, the seed of what it draws by lot, and the folder of the library."""
    words = argparse.ArgumentParser(description=page, formatter_class=argparse.RawDescriptionHelpFormatter)
    for name in files:
        words.add_argument(name, metavar=name.upper(), type=lambda it: Path(it).resolve())
    if by_lot:
        words.add_argument("--seed", default=secrets.token_hex(4))
    if over_library:
        words.add_argument("--library", type=lambda it: Path(it).resolve(), default=TOP / "out", help="where libzuldegei.a stands (out)")
    return words


def is_there(what: str, *programs: str) -> bool:
    """Whether all of these programs are installed that something needs; else that is left out, and named."""
    lacking = [it for it in programs if not shutil.which(it)]
    if lacking:
        print(f"skipped: {what}, as {' and '.join(lacking)} {'is' if len(lacking) == 1 else 'are'}n't installed", flush=True)
    return not lacking


def unlike(got: object, due: object) -> Optional[str]:
    """How something isn't what is due, or nothing."""
    return None if got == due else f"{got!r}, not {due!r}"


def started(words: Sequence[Word], given: bytes, seconds: int = 120) -> Ended:
    """Runs a program with its words on a standard input."""
    return Ended.of(subprocess.run(words, input=given, capture_output=True, timeout=seconds))


def told(cases: Iterable[Case]) -> int:
    """Tries cases, and prints those that fail, and the last line."""
    passed = failed = 0
    for name, why in cases:
        passed, failed = passed + (not why), failed + bool(why)
        if why:
            print(f"FAILED: {name}: {why}", flush=True)
    print(f"{passed} passed, {failed} failed")
    return 1 if failed else 0


def told_in_a_folder(cases: Callable[..., Iterator[Case]], *given: object) -> int:
    """The same of cases that are tried in a folder for temporary files."""
    with tempfile.TemporaryDirectory() as folder:
        return told(cases(Path(folder).resolve(), *given))
