"""Calls the commands of python/ from this checkout (for all that try them)."""

import os
import pty
import signal
import subprocess
import sys
from pathlib import Path
from typing import Dict, List, Optional, Tuple

from ends import TOP

RTL = TOP / "examples/testbench/rtl"
sys.dont_write_bytecode = True
sys.path.append(str(TOP / "python"))


def environment(**more: str) -> Dict[str, str]:
    """That of this process as it is now, in which the package is found, and more."""
    return {**os.environ, "PYTHONPATH": str(TOP / "python"), "PYTHONDONTWRITEBYTECODE": "1", **more}


def words_of(module: str, *words: object) -> List[str]:
    return [sys.executable, "-m", f"zuldegei.{module}", *map(str, words)]


def command(module: str, *words: object, seconds: int = 120, **more: object) -> "subprocess.CompletedProcess[str]":
    """Runs a command."""
    its_own = environment(**more.pop("environment", {}))
    return subprocess.run(words_of(module, *words), capture_output=True, text=True, timeout=seconds, env=its_own, **more)


def begun(folder: Path, module: str, *words: object, **more: object) -> "subprocess.Popen[str]":
    """A command that goes on in the background."""
    signal.signal(signal.SIGINT, signal.default_int_handler)  # a shell has a command in the background ignore it, and what that starts
    return subprocess.Popen(words_of(module, *words), cwd=folder, env=environment(), stderr=subprocess.PIPE, text=True, **more)


def on_a_terminal(module: str, *words: object, **more: object) -> Tuple[int, bytes]:
    """The status of a command, and what a terminal is told as its standard error."""
    parent, child = pty.openpty()
    with subprocess.Popen(words_of(module, *words), stdout=subprocess.DEVNULL, stderr=child, env=environment(), **more) as ran:
        os.close(child)
        said = b""
        try:
            while True:
                said += os.read(parent, 4096)
        except OSError:
            pass  # a terminal that nobody writes to any more
    os.close(parent)
    return ran.returncode, said


def one_line(ran: subprocess.CompletedProcess, lines: str = "", named: Tuple[str, ...] = (), status: int = 2) -> Optional[str]:
    """How a run of a command didn't end in one line that has these words, a status, and the first of these lines."""
    if ran.returncode != status:
        return f"status {ran.returncode}, not {status}; it said {ran.stderr.strip()[-300:]!r}"
    if ran.stderr.count("\n") != 1 or not all(it in ran.stderr for it in named):
        return f"it said {ran.stderr[-300:]!r}, without {named}"
    return None if lines.startswith(ran.stdout) else "it printed lines that weren't observed"
