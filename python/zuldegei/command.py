"""What the commands of this package have in common: their statuses, their one line of fault, and their words."""

import argparse
import enum
import errno
import io
import os
import sys
import traceback
from contextlib import contextmanager
from pathlib import Path
from typing import IO, Callable, Iterator, NoReturn, Optional, Union

from . import __version__


class Status(enum.IntEnum):
    """How a command ends: as tlscore does, and as a shell has it of one that was interrupted."""

    DONE = 0
    WRONG = 1  # something that was judged is wrong
    FAULT = 2  # what was read can't be what it should
    CANNOT = 3  # a file can't be read or written, or a program can't be run
    MEMORY = 4
    USAGE = 6
    UNEXPECTED = 7  # a fault of the command itself
    INTERRUPTED = 130


class Fault(Exception):
    """Why a command can't go on, in one line, and the status that it ends with."""

    def __init__(self, why: str, status: Status = Status.FAULT):
        super().__init__(why)
        self.status = status


class Closed(io.TextIOBase):
    """Standard output that was closed before the command began: nothing can be written there."""

    def write(self, text: str) -> int:
        raise OSError(errno.EBADF, os.strerror(errno.EBADF), "standard output")


class Words(argparse.ArgumentParser):
    """The words of a command; a word that it doesn't know ends it with status 6."""

    def error(self, message: str) -> NoReturn:
        tell(f"{self.prog}: {message} ({self.prog} --help says more)")
        sys.exit(Status.USAGE)

    def _print_message(self, message: str, file: Optional[IO[str]] = None) -> None:
        """Prints a page or a version; unlike the library's own, it tells where that can't be written."""
        (file or sys.stderr).write(message)


def words_of(name: str, description: str, more: str = "") -> Words:
    """The words of a command, with a page of its own, which is printed as it stands."""
    words = Words(prog=name, description=description, epilog=more, formatter_class=argparse.RawDescriptionHelpFormatter)
    words.add_argument("--version", action="version", version=f"%(prog)s {__version__}", help="print name and version and exit")
    return words


def one_line(text: object, most: int = 400) -> str:
    """A text in one line that a terminal shows as it is, of so many characters at most."""
    return "".join(it if it.isprintable() else "?" for it in " ".join(str(text).split()))[:most]


def reason(why: OSError) -> str:
    """What couldn't be done with which file."""
    return f"{why.filename or 'a file'}: {why.strerror or why}"


@contextmanager
def naming(file: Union[str, Path]) -> Iterator[None]:
    """Where what is read or written within fails without a name, as on a full disc, it gets this one."""
    try:
        yield
    except OSError as why:
        why.filename = str(file) if why.filename is None else why.filename
        raise


def unexpected(why: Exception) -> str:
    """What is to be reported of a fault of the command itself: its kind, its text, where it came up, and the version."""
    places = traceback.extract_tb(why.__traceback__)
    place = f" at {Path(places[-1].filename).name} line {places[-1].lineno}" if places else ""
    asked = "please report this line, with the files that were read"
    return f"unexpected {type(why).__name__}{place} of version {__version__}, {asked}: {why}"


def tell(line: str) -> None:
    """A line on standard error, where that is open and takes it."""
    try:
        if sys.stderr is not None:
            print(line, file=sys.stderr, flush=True)
    except OSError:
        pass  # the status tells


def finished(work: Callable[[], int]) -> int:
    """The status of a command's work, or of words by which there is none, once what it printed is written."""
    try:
        status = work()
    except SystemExit as ends:
        status = int(ends.code or Status.DONE)
    with naming("standard output"):
        sys.stdout.flush()
    return status


def let_go() -> None:
    """What is printed and not written yet is written, or goes nowhere where that can't be."""
    try:
        sys.stdout.flush()
    except OSError:
        os.dup2(os.open(os.devnull, os.O_WRONLY), sys.stdout.fileno())


def ended(name: str, work: Callable[[], int]) -> int:
    """Does the work of a command; gives its status, and where it can't go on its one line on standard error."""
    if sys.stdout is None:
        sys.stdout = Closed()
    if isinstance(sys.stdout, io.TextIOWrapper):
        sys.stdout.reconfigure(errors="backslashreplace")  # a name that the terminal's encoding hasn't is shown too
    try:
        return finished(work)
    except Fault as why:
        said, status = str(why), why.status
    except BrokenPipeError:
        said, status = "nobody reads what it writes", Status.CANNOT
    except OSError as why:
        said, status = reason(why), Status.CANNOT
    except MemoryError:
        said, status = "out of memory", Status.MEMORY
    except KeyboardInterrupt:
        said, status = "interrupted", Status.INTERRUPTED
    except Exception as why:
        said, status = unexpected(why), Status.UNEXPECTED
    let_go()
    tell(f"{name}: {one_line(said)}")
    return status
