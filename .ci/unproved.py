"""Builds a program of which nothing is proved, out/PROGRAM.unproved, from the sources as they are.

    python3 .ci/unproved.py PROGRAM

It is called at the top of the repository, and prints what rt does. `rt try` builds a program before any proof, runs it once and takes
it away; here it runs on no input, and is kept while it stands there. Such a program is the same code with checks of memory in it
(AddressSanitizer), which cost it time and room.
"""

import os
import subprocess
import sys
import tempfile
import time
from contextlib import suppress
from pathlib import Path
from typing import Optional

EVERY = 0.01  # seconds between two looks


def standing(room: Path) -> Optional[bytes]:
    """The program, where rt has one in a folder of its own: the first one, since it gets its name when it is whole."""
    with suppress(OSError, ValueError):
        return min(room.glob("*/*/program"), key=lambda it: it.stat().st_ctime_ns).read_bytes()
    return None


def tried(folder: Path, room: Path) -> Optional[bytes]:
    """Has rt build and run the program of a crate; gives the program, where it was built."""
    found = None
    how = {"cwd": folder, "stdin": subprocess.DEVNULL, "stderr": subprocess.STDOUT, "env": {**os.environ, "TMPDIR": str(room)}}
    with subprocess.Popen(["rt", "try"], **how) as ran:
        while ran.poll() is None:
            found = found or standing(room)
            time.sleep(EVERY)
    return found


def put(place: Path, program: bytes) -> None:
    """Puts a program to its place at once, so that who runs one there has the whole of it."""
    new = place.with_name(f"{place.name}.{os.getpid()}")
    new.write_bytes(program)
    new.chmod(0o755)
    new.replace(place)


def main(program: str) -> int:
    try:
        with tempfile.TemporaryDirectory(prefix=f"{program}-") as room:
            found = tried(Path("crates", program), Path(room))
    except KeyboardInterrupt:
        print(f"{program}: the build was stopped", file=sys.stderr)
        return 130
    if found is None:
        print(f"{program} wasn't built")
        return 1
    put(Path("out", f"{program}.unproved"), found)
    print(f"{program} is built, and nothing of it is proved")
    return 0


if __name__ == "__main__":
    sys.exit(main(sys.argv[1]))
