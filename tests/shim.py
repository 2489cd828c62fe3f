"""Runs a program with refuse.c between it and the C library."""

import errno
import os
import shutil
import struct
import subprocess
import tempfile
from dataclasses import dataclass
from pathlib import Path

from ends import Ended

HERE = Path(__file__).resolve().parent
KINDS = ("growth", "read", "write", "thread")
LAYOUT = struct.Struct("15q")
FOR_EVER = 1 << 62


@dataclass(frozen=True)
class Ran(Ended):
    """How a run ended, how many calls of each kind it made, and the most memory that it held, in KiB."""

    counts: dict
    peak: int


class Shim:
    """The library, built under a folder that goes with it, and the program that it is lent to."""

    def __init__(self, program):
        self.program = str(Path(program).resolve())
        self.room = tempfile.TemporaryDirectory(prefix="shim-")
        # Orders and input change with each run: in memory, where there is such a folder, they cost no write to a disc.
        memory = "/dev/shm" if os.access("/dev/shm", os.W_OK) else None
        self.files = tempfile.TemporaryDirectory(prefix="shim-", dir=memory)
        self.library = f"{self.room.name}/refuse.so"
        self.orders, self.given = f"{self.files.name}/orders", f"{self.files.name}/given"
        compiler = shutil.which("cc") or shutil.which("gcc")
        if not compiler:
            raise SystemExit("a C compiler is needed, cc or gcc\n0 passed, 1 failed")
        subprocess.run([compiler, "-O1", "-shared", "-fPIC", "-o", self.library, str(HERE / "refuse.c"), "-ldl"], check=True)

    def refused(self, words, given, kind, calls, error=0, most=0, onward=True):
        """Runs the program anew for each call of a kind, of so many or of those listed, refused alone and, where that is asked for,
        with all after it. Yields the call's number, whether it alone was refused, how the run ended, and a name."""
        with_errno = f" with {errno.errorcode[error]}" if error else ""
        count = calls if isinstance(calls, int) else max(calls)
        for at in range(1, count + 1) if isinstance(calls, int) else calls:
            for until in (at, FOR_EVER) if onward else (at,):
                others = "" if until == at else ", and all after it,"
                ran = self.run(words, given, kind, at, until, error, most)
                yield at, until == at, ran, f"{kind} {at} of {count}{others} refused{with_errno}"

    def run(self, words, given, refuse=None, at=0, until=None, error=0, most=0):
        """Runs the program on words and standard input. Of the calls of the kind `refuse` those from `at` to `until`, by
        default the one at `at`, are refused, a read or a write with the errno `error`; no read or write moves more than
        `most` bytes, where that isn't 0."""
        first, last = [0] * 4, [0] * 4
        if refuse:
            first[KINDS.index(refuse)], last[KINDS.index(refuse)] = at, until or at
        Path(self.orders).write_bytes(LAYOUT.pack(0, 0, 0, 0, *first, *last, error, most, 0))
        environment = {"LD_PRELOAD": self.library, "REFUSE": self.orders}
        # From a file, since a pipe gives what is there at the time, and so any number of reads.
        Path(self.given).write_bytes(given)
        with open(self.given, "rb") as file:
            ran = subprocess.run([self.program, *words], stdin=file, capture_output=True, timeout=60, env=environment)
        orders = LAYOUT.unpack(Path(self.orders).read_bytes())
        return Ran(ran.returncode, ran.stdout, ran.stderr, dict(zip(KINDS, orders)), orders[-1])
