"""Makes the pictures of the pages: what a browser shows of pages that the commands write.

    python3 docs/picture.py [NAME [FILE]]

timeline is the stored run answered-early of examples/testbench/rtl, explained by zuldegei-explain; coverage is the page that the first
commands of docs/COVERAGE.md write, which need Icarus Verilog, and tlscore (what TLSCORE names, else that on PATH or at the top). Without a
NAME it makes both, as docs/NAME.png. It needs Chromium. It ends with status 3 where something is missing, or where no picture comes of it.
"""

import os
import re
import shutil
import subprocess
import sys
import tempfile
from pathlib import Path
from typing import Callable, Dict, NamedTuple

TOP = Path(__file__).resolve().parent.parent
RUN = TOP / "examples/testbench/rtl/runs/answered-early.lines"
BROWSERS = ("chromium", "chromium-browser", "google-chrome")
TOOLS = ("regress", "cover")  # commands that docs/COVERAGE.md calls
COMMANDS = re.compile(r"(?ms)^```shell\n(.*?)^```$")
PAGE = re.compile(r"--html (\S+)")


class Picture(NamedTuple):
    """A picture: how its page is made, given a folder for files that aren't kept, and the size of the browser's window."""

    page: Callable[[Path], Path]
    size: str


def environment() -> Dict[str, str]:
    return {**os.environ, "PYTHONPATH": str(TOP / "python"), "PYTHONDONTWRITEBYTECODE": "1"}


def timeline(folder: Path) -> Path:
    """The page of a run."""
    page = folder / "run.html"
    words = [sys.executable, "-m", "zuldegei.explain", RUN, RUN.with_suffix(".told"), "--html", page]
    subprocess.run(words, env=environment(), stdout=subprocess.DEVNULL, check=False)
    return page


def coverage(folder: Path) -> Path:
    """The page of what runs reached, by the commands that docs/COVERAGE.md shows first."""
    for tool in TOOLS:
        script = folder / f"zuldegei-{tool}"
        script.write_text(f'#!/bin/sh\nexec "{sys.executable}" -m zuldegei.{tool} "$@"\n')
        script.chmod(0o755)
    commands = COMMANDS.search((TOP / "docs/COVERAGE.md").read_text())[1]
    path = f"{folder}:{os.environ['PATH']}:{TOP}"
    (folder / "examples").symlink_to(TOP / "examples")
    subprocess.run(["sh", "-ec", commands], cwd=folder, env={**environment(), "PATH": path}, stdout=subprocess.DEVNULL, check=False)
    return folder / "out" / PAGE.search(commands)[1]


PICTURES = {"timeline": Picture(timeline, "1080,640"), "coverage": Picture(coverage, "1080,900")}


def made(picture: Picture, browser: str, file: Path) -> bool:
    """Makes a picture, and says whether it is there."""
    file.unlink(missing_ok=True)
    with tempfile.TemporaryDirectory() as folder:
        page = picture.page(Path(folder))
        words = [browser, "--headless", "--no-sandbox", "--disable-gpu", "--hide-scrollbars", f"--user-data-dir={folder}/browser"]
        words += [f"--window-size={picture.size}", f"--screenshot={file}", page.as_uri()]
        if page.exists():
            subprocess.run(words, capture_output=True, check=False)
    return file.exists()


def main(name: str = "", file: str = "") -> int:
    browser = next(filter(shutil.which, BROWSERS), None)
    if not browser:
        print(f"no browser: one of {', '.join(BROWSERS)} has to be on PATH", file=sys.stderr)
        return 3
    names = [name] if name else PICTURES
    return 0 if all([made(PICTURES[it], browser, Path(file or TOP / f"docs/{it}.png").resolve()) for it in names]) else 3


if __name__ == "__main__":
    sys.exit(main(*sys.argv[1:]))
