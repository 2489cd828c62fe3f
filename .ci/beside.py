"""Runs commands beside each other, as many at once as there are processors, and prints what each printed once it has ended.

    python3 .ci/beside.py FILE      a command a line of FILE, each word behind a tab; begun in this order

A command is a test of ./test: it ends with a line `N passed, M failed`. The last line adds them up. One that ends without such a line,
or that fails and says nothing of it there, is one failure more. Ends with 1 where something failed.
"""

import os
import re
import subprocess
import sys
import threading
import time
from concurrent.futures import ThreadPoolExecutor, as_completed
from pathlib import Path
from typing import List, NamedTuple, Tuple

LAST = re.compile(r"(\d+) passed, (\d+) failed")


class Ran(NamedTuple):
    """A command that has ended: its words, all that it printed, its status, and its seconds."""

    words: List[str]
    printed: str
    status: int
    seconds: float

    def counts(self) -> Tuple[int, int]:
        """How much passed, and how much failed."""
        lines = self.printed.splitlines()
        last = LAST.fullmatch(lines[-1]) if lines else None
        passed, failed = (int(last[1]), int(last[2])) if last else (0, 1)
        return passed, failed or int(self.status != 0)

    def text(self, far: str) -> str:
        name = " ".join(Path(it).name for it in self.words[:2])
        return f"== {name}, {far}, {self.seconds:.0f} seconds\n{self.printed}"


class Beside:
    """The commands that run: they are ended where this one is."""

    def __init__(self) -> None:
        self.running: List["subprocess.Popen[bytes]"] = []
        self.lock = threading.Lock()
        self.is_over = False

    def run(self, words: List[str]) -> Ran:
        began = time.monotonic()
        with self.lock:
            if self.is_over:
                return Ran(words, "", 1, 0)
            process = subprocess.Popen(words, stdin=subprocess.DEVNULL, stdout=subprocess.PIPE, stderr=subprocess.STDOUT)
            self.running.append(process)
        printed = process.communicate()[0].decode(errors="replace")
        with self.lock:
            self.running.remove(process)
        return Ran(words, printed, process.returncode, time.monotonic() - began)

    def end(self) -> None:
        with self.lock:
            self.is_over = True
            for process in self.running:
                process.terminate()


def all_run(commands: List[List[str]]) -> Tuple[int, int]:
    """Runs all of them, and prints each where it has ended; how much passed of all, and how much failed."""
    beside, passed, failed = Beside(), 0, 0
    with ThreadPoolExecutor(len(os.sched_getaffinity(0))) as lanes:
        began = [lanes.submit(beside.run, words) for words in commands]
        try:
            for at, done in enumerate(as_completed(began), 1):
                ran = done.result()
                print(ran.text(f"{at} of {len(commands)}"), end="", flush=True)
                passed, failed = passed + ran.counts()[0], failed + ran.counts()[1]
        finally:
            beside.end()
    return passed, failed


def main() -> int:
    if len(sys.argv) != 2:
        print(__doc__, file=sys.stderr)
        return 2
    lines = Path(sys.argv[1]).read_text().splitlines()
    passed, failed = all_run([line.split("\t")[1:] for line in lines])
    print(f"{passed} passed, {failed} failed")
    return 1 if failed else 0


if __name__ == "__main__":
    sys.exit(main())
