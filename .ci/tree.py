"""Makes the tree that ./install copies below a prefix and that ./release packs: programs, libraries, commands, sources, pages and
manual pages, where Debian's packages have them. docs/INSTALL.md lists it.

    python3 .ci/tree.py TREE [--built FOLDER]

What isn't built is built first, with its progress on standard error. With --built the programs and libraries are taken as they
stand in that folder, and nothing is said of a proof. Nothing in the tree names a folder of the machine: what looks for another
part looks beside itself, so that the tree can be moved.
"""

import argparse
import hashlib
import re
import shutil
import subprocess
import sys
from pathlib import Path
from typing import Dict, Iterator, NoReturn, Optional

TOP = Path(__file__).resolve().parent.parent
sys.path.insert(0, str(TOP / "docs"))
sys.dont_write_bytecode = True

import manual  # noqa: E402

LIBRARY, PAGES = "libzuldegei.so", "share/doc/zuldegei"
# Folders of the tree, and which files of which of the repository's folders stand there.
COPIED = (
    ("include", "interfaces/c", "zuldegei.h"),
    ("include", "interfaces/systemc", "zuldegei_systemc.h"),
    ("share/zuldegei/systemverilog", "interfaces/systemverilog", "*"),
    ("share/zuldegei/python/zuldegei", "python/zuldegei", "*"),
    ("share/zuldegei/python", "python", "pyproject.toml wheel_of_package.py"),
    (PAGES, ".", "README.md VERSION"),
    (f"{PAGES}/docs", "docs", "*.md *.png"),
    (f"{PAGES}/python", "python", "README.md"),
    (f"{PAGES}/interfaces", "interfaces", "README.md c/example* systemc/example*"),
    (f"{PAGES}/examples", "examples", "*"),
)
# What a file says of the repository, and what it says where it is installed.
CHANGED = {
    "python/zuldegei/scoreboard.py": ('parents[2] / "out/libzuldegei.so"', 'parents[4] / "lib/libzuldegei.so"'),
    "python/wheel_of_package.py": ('parent / "out/libzuldegei.so"', 'parents[2] / "lib/libzuldegei.so"'),
    "examples/testbench/client.py": ('parents[2] / "python"', 'parents[4] / "zuldegei/python"'),
    "examples/testbench/rtl/run.py": ('HERE.parents[2] / "interfaces/systemverilog', 'HERE.parents[4] / "zuldegei/systemverilog'),
}
# The scripts of the commands in Python. The package isn't on Python's own path, which is another for each version.
COMMAND = '''#!/usr/bin/env python3
"""Runs {command} of the package that stands beside the folder of this script."""
import sys
from pathlib import Path

sys.dont_write_bytecode = True
sys.path.insert(0, str(Path(__file__).resolve().parent.parent / "share/zuldegei/python"))
from zuldegei.{module} import main  # noqa: E402

sys.exit(main())
'''
PKG_CONFIG = """prefix=${{pcfiledir}}/../..
libdir=${{prefix}}/lib
includedir=${{prefix}}/include
systemverilogdir=${{prefix}}/share/zuldegei/systemverilog
pythondir=${{prefix}}/share/zuldegei/python
examplesdir=${{prefix}}/share/doc/zuldegei/examples

Name: zuldegei
Description: The scoreboard and the model of a TileLink to AXI4 bridge, in the process of a test
Version: {version}
Libs: -L${{libdir}} -lzuldegei
Cflags: -I${{includedir}}
"""
PROVED = """zuldegei {version}
commit: {commit}
toolchain: {toolchain}
proved: {proved}
for: Linux on x86-64, glibc 2.{glibc} or later
"""
BY_TOOLCHAIN = "each function of the crates of tlbridge, tlscore and the library, by this toolchain (docs/GUARANTEES.md says what of each)"
NOT_TOLD = "not told, since the programs and libraries were given as they stood in a folder"


def cannot(why: str) -> NoReturn:
    sys.exit(f"the tree can't be made: {why}")


def asked(*words: str) -> str:
    """What a command prints, which has to end well."""
    try:
        ran = subprocess.run(words, cwd=TOP, stdout=subprocess.PIPE, text=True, check=False)
    except OSError as why:
        cannot(f"{words[0]}: {why.strerror}")
    return ran.stdout if ran.returncode == 0 else cannot(f"{' '.join(words)} ended with status {ran.returncode}")


def tell_ahead() -> None:
    """Says what isn't built yet, and how long it takes to build it."""
    asks = ". ./.ci/stamp.sh; for it in tlbridge tlscore zuldegei; do is_built $it || echo $it; done"
    unbuilt = asked("sh", "-c", asks).split()
    if unbuilt:
        subprocess.run([sys.executable, ".ci/build.py", "--ahead", *unbuilt], cwd=TOP, check=True)
        print("then all is put together, in a minute; no wrong body is tried on the way", file=sys.stderr, flush=True)


def build(room: Path) -> None:
    """Puts programs and libraries into a folder; what isn't built is built."""
    tell_ahead()
    for program in ("tlbridge", "tlscore"):
        if subprocess.run([f"./{program}"], cwd=TOP, input=b"config 1 1 1 1 1 12 h\n", stdout=subprocess.DEVNULL).returncode:
            cannot(f"{program} wasn't built")
        shutil.copy(TOP / f"crates/{program}/out/{program}", room)
    if subprocess.run(["interfaces/build", str(room)], cwd=TOP).returncode:
        cannot("the library wasn't built")


def files_of(folder: str, patterns: str) -> Iterator[Path]:
    """The files of a folder of the repository, from its top on, whose names are of these patterns; none that is ignored."""
    wanted = [f"{folder}/{it}" for it in patterns.split()]
    listed = asked("git", "ls-files", "-z", "--cached", "--others", "--exclude-standard", "--", *wanted).split("\0")
    yield from (Path(it) for it in sorted({*listed}) if it and (TOP / it).is_file())


def as_installed(file: Path) -> bytes:
    """A file of the repository as it is installed."""
    data = (TOP / file).read_bytes()
    old, new = (it.encode() for it in CHANGED.get(str(file), ("", "")))
    if old and data.count(old) != 1:
        cannot(f"{file} doesn't have {old.decode()} once")
    return data.replace(old, new) if old else data


class Tree:
    """The tree as it grows."""

    def __init__(self, root: Path):
        self.root, self.version = root, (TOP / "VERSION").read_text().strip()

    def write(self, place: str, data: bytes, mode: int = 0o644) -> None:
        path = self.root / place
        path.parent.mkdir(parents=True, exist_ok=True)
        path.write_bytes(data)
        path.chmod(mode)

    def link(self, place: str, to: str) -> None:
        (self.root / place).symlink_to(to)

    def copy(self) -> None:
        """The files of the repository."""
        for place, folder, patterns in COPIED:
            for file in files_of(folder, patterns):
                is_run = bool((TOP / file).stat().st_mode & 0o100)
                self.write(f"{place}/{file.relative_to(folder)}", as_installed(file), 0o755 if is_run else 0o644)

    def binaries(self, room: Path) -> None:
        """The programs, the libraries and what finds them."""
        for program in ("tlbridge", "tlscore"):
            self.write(f"bin/{program}", (room / program).read_bytes(), 0o755)
        self.write("lib/libzuldegei.a", (room / "libzuldegei.a").read_bytes())
        self.write(f"lib/{LIBRARY}.{self.version}", (room / LIBRARY).read_bytes())
        major = f"{LIBRARY}.{self.version.partition('.')[0]}"
        self.link(f"lib/{major}", f"{LIBRARY}.{self.version}")
        self.link(f"lib/{LIBRARY}", major)
        self.write("lib/pkgconfig/zuldegei.pc", PKG_CONFIG.format(version=self.version).encode())

    def commands(self) -> None:
        for command in manual.COMMANDS:
            module = command.partition("-")[2].replace("-", "_")
            self.write(f"bin/{command}", COMMAND.format(command=command, module=module).encode(), 0o755)

    def manuals(self) -> None:
        for name, text in manual.pages(asked("git", "log", "-1", "--format=%cs").strip()):
            self.write(f"share/man/man1/{name}", text.encode())

    def origin(self, is_built_here: bool) -> None:
        """Which sources these are of, what proved them, and the checksums of what was built."""
        commit, changed = asked("git", "rev-parse", "HEAD").strip(), asked("git", "status", "--porcelain").strip()
        told: Dict[str, str] = {
            "commit": commit + (" with changes that aren't in it" if changed else ""),
            "toolchain": asked("rt", "version").strip() if is_built_here else NOT_TOLD,
            "proved": BY_TOOLCHAIN if is_built_here else NOT_TOLD,
        }
        names = ("bin/tlbridge", "bin/tlscore", "lib/libzuldegei.a", f"lib/{LIBRARY}.{self.version}")
        built = {name: (self.root / name).read_bytes() for name in names}
        glibc = max(int(it) for data in built.values() for it in re.findall(rb"GLIBC_2\.(\d+)", data))
        sums = [f"sha256 {hashlib.sha256(data).hexdigest()}  {name}\n" for name, data in built.items()]
        self.write(f"{PAGES}/PROVED", (PROVED.format(version=self.version, glibc=glibc, **told) + "".join(sums)).encode())


def make(root: Path, built: Optional[Path]) -> None:
    """Makes the tree in a folder, which is made anew."""
    shutil.rmtree(root, ignore_errors=True)
    room = built or root.parent / f"{root.name}.built"
    if not built:
        shutil.rmtree(room, ignore_errors=True)
        room.mkdir(parents=True)
        build(room)
    for name in ("tlbridge", "tlscore", "libzuldegei.a", LIBRARY):
        if not (room / name).is_file():
            cannot(f"{room} has no {name}")
    tree = Tree(root)
    tree.copy()
    tree.binaries(room)
    tree.commands()
    tree.manuals()
    tree.origin(not built)
    for folder in (root, *(it for it in root.rglob("*") if it.is_dir())):
        folder.chmod(0o755)


def main() -> int:
    words = argparse.ArgumentParser(description=__doc__, formatter_class=argparse.RawDescriptionHelpFormatter)
    words.add_argument("tree", type=Path)
    words.add_argument("--built", type=Path, metavar="FOLDER", help="where tlbridge, tlscore and the libraries stand")
    given = words.parse_args()
    make(given.tree.resolve(), given.built and given.built.resolve())
    return 0


if __name__ == "__main__":
    sys.exit(main())
