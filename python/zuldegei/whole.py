"""Files that are written whole, or aren't there."""

import contextlib
from pathlib import Path
from typing import Iterator, TextIO


@contextlib.contextmanager
def written(path: Path) -> Iterator[TextIO]:
    """A file that is written; where it can't be written whole, what was written of it is taken away, and the fault names it."""
    file = path.open("w", encoding="utf-8", errors="backslashreplace")  # a name may have bytes that are no text
    try:
        with file:
            yield file
    except BaseException as why:
        if path.is_file():
            path.unlink()
        if isinstance(why, OSError):
            raise OSError(why.errno, why.strerror, str(path)) from why
        raise
