"""Tries wrong_bodies.py itself on small crates made for it: what it tells of wrong bodies that are refused, together and alone, that
mean the same, that only a name refuses, that don't compile, that meet a limit, whose check is killed, that can't be applied, of a
crate of which a contract is false; which checks it makes of them, and that what was told is kept.

    python3 tests/wrong_body_cases.py [--anew]

What passed isn't tried again while these files and the toolchain are the same, but for --anew.
"""

import hashlib
import os
import re
import shutil
import subprocess
import sys
import tempfile
from pathlib import Path
from typing import Dict, Iterator, List, Tuple

from ends import TOP, Case, told


REFUSED, STANDS, UNTRIED = "refused: ", "NOT REFUSED", "NOT TRIED"
# The crates, which `names` lists, with their sources as text and their wrong bodies, of each of which `told` says what has to be told; the
# prover is killed at one wrong body, gives no verdict of another, and notes each check.
CRATES = TOP / "tests/small_crates"
TOLD: Dict[str, str] = dict(re.findall(r"(?m)^(\S+): (.*)$", (CRATES / "told").read_text()))


def run(tree: Path, rattle: Path) -> Tuple[subprocess.CompletedProcess, Dict[str, str], List[str]]:
    """A run of the script: how it ended, what it told of each wrong body, and the checks that it made."""
    (tree / "checks").write_text("")
    environment = {**os.environ, "CHECKS": str(tree / "checks"), "RATTLE": str(rattle)}
    words = [sys.executable, TOP / "tests/wrong_bodies.py", "--top", tree, "--prover", tree / "prover", "--as-built"]
    ran = subprocess.run(words, capture_output=True, text=True, env=environment)
    lines = [line.partition(": ") for line in ran.stdout.splitlines() if "/" in line.partition(": ")[0]]
    return ran, {name: why for name, _, why in lines}, (tree / "checks").read_text().splitlines()


def copy_crates(tree: Path) -> None:
    """Has the crates stand in a folder as rt wants them: here rt would take their sources for stray ones of this repository."""
    shutil.copytree(CRATES, tree, dirs_exist_ok=True)
    (tree / "names").rename(tree / "crates.txt")
    for source in list(tree.rglob("*.text")):
        source.rename(source.with_suffix(""))


def cases(tree: Path, kit: Path) -> Iterator[Case]:
    copy_crates(tree)
    ran, found, checks = run(tree, kit / "bin/rattle")
    yield "the checks", None if len(checks) <= 20 else f"{len(checks)} were made"
    for name, due in TOLD.items():
        got = found.get(name, f"nothing; {ran.stderr[-300:]}")
        yield name, None if got.startswith(due) and (due != STANDS or got == due) else f"{got!r}, and not {due!r}"
    refused = sum(due.startswith(REFUSED) for due in TOLD.values())
    last = f"{refused} passed, {len(TOLD) - refused} failed"
    yield "the last line", None if ran.returncode == 1 and ran.stdout.splitlines()[-1:] == [last] else f"status {ran.returncode}, {ran.stdout[-200:]!r}"
    for name in [name for name, due in TOLD.items() if due.startswith(UNTRIED)]:
        crate, _, edit = name.partition("/")
        (tree / f"crates/{crate}/wrong-bodies/{edit}.edit").unlink()
    _, again, anew = run(tree, kit / "bin/rattle")
    apart = {name: it for name, it in again.items() if found.get(name) != it}
    is_kept = again and not anew and not apart
    yield "what is kept", None if is_kept else f"{len(anew)} checks were made anew, {apart}"


def sum_of_all(kit: Path) -> str:
    """The checksum of what the cases rest on."""
    scripts = [Path(__file__), TOP / "tests/wrong_bodies.py", TOP / "tests/body_edits.py", kit / "KIT-ID"]
    read = [*scripts, *sorted(it for it in CRATES.rglob("*") if it.is_file())]
    return hashlib.sha256(b"\0".join(it.read_bytes() for it in read)).hexdigest()


def main() -> int:
    if not shutil.which("rt"):
        print("skipped: the wrong bodies of a small crate, without rt")
        return told([])
    kit = Path(subprocess.run(["rt", "doc"], stdout=subprocess.PIPE, text=True).stdout.strip()).parent
    kept, now = TOP / "out/wrong_body_cases.sum", sum_of_all(kit)
    if kept.is_file() and kept.read_text() == now and "--anew" not in sys.argv:
        print("(the cases of wrong_bodies.py passed before, over the same files)")
        return told((name, None) for name in ["the checks", *TOLD, "the last line", "what is kept"])
    with tempfile.TemporaryDirectory() as tree:
        status = told(cases(Path(tree), kit))
    if not status:
        kept.parent.mkdir(exist_ok=True)
        kept.write_text(now)
    return status


if __name__ == "__main__":
    sys.exit(main())
