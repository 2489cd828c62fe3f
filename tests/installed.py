"""What ./install and ./release give. Each name that is installed is on docs/INSTALL.md, and the other way round; modes, links and
manual pages are as Debian asks; nothing names the folder of the build; the C example is compiled by pkg-config's words;
--uninstall leaves nothing. Archives of two copies of the repository are the same bytes; unpacked in an empty folder, with nothing
of the toolchain on PATH, the commands of the page print what it shows, and pip installs its package without a network. In the
copies a stand-in for rt builds what isn't built.

    python3 tests/installed.py TLSCORE TLBRIDGE LIBRARY
"""

import hashlib
import os
import re
import shutil
import subprocess
import sys
import tarfile
import tempfile
from pathlib import Path
from typing import Dict, Iterator, List, Optional, Set, Tuple

import stored
from ends import TOP, Case, is_there, told
from page_commands import BLOCK, SHOWN

VERSION = (TOP / "VERSION").read_text().strip()
PROOF = (TOP / "examples/proof/README.md").read_text()
PAGE = (TOP / "docs/INSTALL.md").read_text().replace("VERSION", VERSION).replace(f"/{VERSION}`", "/VERSION`")
BARE = {"PATH": "/usr/bin:/bin", "LANG": "C.UTF-8"}  # nothing of the toolchain is there
# What a block needs of Debian, by what it names: prove.py runs yosys and ABC on the small bridge.
NEEDED = {"verilator": "verilator", "g++": "g++", "pkg-config": "pkg-config", "iverilog": "iverilog",
          "prove.py": "berkeley-abc", "small_bridge.sv": "yosys"}  # fmt: skip
LIST = "share/zuldegei/installed.list"
MODULES = ("waves", "fill", "explain", "wave-of", "times", "regress", "cover", "stimulus")
CRATES = "tlbridge:\ntlscore:\nzuldegei staticlib:\n"
# What is said in Python of an answer that no write asked for.
SETUP = "config 1 4 16 2 16 12 h\npage 10 4 good\n"
SCOREBOARD = f"from zuldegei.scoreboard import Scoreboard; print(Scoreboard({SETUP!r}).b(id=0).text)"


def ran(words: List[str], cwd: Path = TOP, env: Optional[Dict[str, str]] = None, umask: int = -1) -> subprocess.CompletedProcess:
    return subprocess.run(words, cwd=cwd, env=env, capture_output=True, text=True, timeout=900, umask=umask, check=False)


def why(done: subprocess.CompletedProcess, status: int = 0) -> Optional[str]:
    """How a command didn't end as it should."""
    return None if done.returncode == status else f"status {done.returncode}: {(done.stdout + done.stderr)[-400:]}"


def files_below(root: Path) -> Set[str]:
    return {str(it.relative_to(root)) for it in root.rglob("*") if it.is_symlink() or not it.is_dir()}


def listed() -> Tuple[Set[str], Set[str]]:
    """The files, and the folders, that the table of the page has."""
    table = re.search(r"(?m)^\| place below the prefix.*\n(?:\|.*\n)+", PAGE)
    names = {name for row in (table[0] if table else "").splitlines()[2:] for name in re.findall(r"`([^`]+)`", row.split("|")[1])}
    return {it for it in names if not it.endswith("/")}, {it for it in names if it.endswith("/")}


def named(root: Path) -> Iterator[Case]:
    """What is installed beside what the page lists."""
    there, (files, folders) = files_below(root), listed()
    unnamed = sorted(it for it in there - files if not it.startswith(tuple(folders)))
    yield "what is installed is on the page", f"it lacks {unnamed[:5]}" if unnamed or not there else None
    lacking = sorted(files - there) + sorted(it for it in folders if not any(name.startswith(it) for name in there))
    yield "what is on the page is installed", f"it isn't: {lacking[:5]}" if lacking or not files else None


def modes(root: Path) -> Iterator[Case]:
    """Modes of files, folders and links, as lintian asks."""
    faults = []
    for path in (root, *root.rglob("*")):
        mode, name = path.lstat().st_mode & 0o7777, str(path.relative_to(root))
        if path.is_symlink():
            faults += [] if not os.readlink(path).startswith("/") and path.exists() else [f"{name} leads to {os.readlink(path)}"]
        elif path.is_dir():
            faults += [] if mode == 0o755 else [f"{name} has {mode:o}"]
        else:
            is_run = name.startswith("bin/") or path.read_bytes()[:2] == b"#!"
            faults += [] if mode == (0o755 if is_run else 0o644) else [f"{name} has {mode:o}"]
    yield "modes and links", ", ".join(faults[:5]) or None


def apart(root: Path, folders: List[Path]) -> Iterator[Case]:
    """No file names a folder in which it was built, and no program a way to libraries of its own."""
    names = [os.fsencode(it) for it in folders]
    files = [root / it for it in sorted(files_below(root)) if not (root / it).is_symlink()]
    found = [f"{path.name} names {name.decode()}" for path in files for name in names if name in path.read_bytes()]
    yield "no file names the folder of the build", ", ".join(found[:5]) or None
    binary = [it for it in files if it.read_bytes()[:4] == b"\x7fELF"]
    libraries = [ran(["readelf", "-d", str(it)]).stdout for it in binary]
    lines = [line for text in libraries for line in text.splitlines()]
    other = [it for it in lines if "PATH)" in it or "(NEEDED)" in it and "libc.so.6" not in it]
    yield "programs and libraries need the C library alone", ", ".join(other) or (None if len(binary) == 3 else f"{binary}")
    newest = max((int(it) for path in binary for it in re.findall(rb"GLIBC_2\.(\d+)", path.read_bytes())), default=99)
    yield "the version of glibc that the page has", None if f"glibc 2.{newest} or later" in PAGE else f"it is 2.{newest}"
    soname = f"libzuldegei.so.{VERSION.split('.')[0]}"
    yield "the shared library's name", None if any(f"[{soname}]" in it for it in libraries) else f"it isn't {soname}"


def manuals(root: Path) -> Iterator[Case]:
    """Each program has a manual page, in which neither formatter finds anything."""
    pages, programs = {it.name: it for it in (root / "share/man/man1").iterdir()}, {it.name for it in (root / "bin").iterdir()}
    odd = {f"{it}.1" for it in programs} ^ {*pages}
    yield "a manual page for each program", f"apart are {sorted(odd)}" if odd else None
    for tool, words in (("mandoc", ["mandoc", "-Tlint"]), ("man", ["man", "--warnings", "-E", "UTF-8", "-l", "-Tutf8", "-Z"])):
        if not is_there("manual pages by this tool", tool):
            continue
        for name, path in sorted(pages.items()):
            done = ran([*words, str(path)], env={**os.environ, "LC_ALL": "C.UTF-8", "MANROFFSEQ": "", "MANWIDTH": "80"})
            said = done.stdout + done.stderr if tool == "mandoc" else done.stderr
            yield f"{name} by {tool}", said.strip()[:300] or why(done)
    text = pages["tlscore.1"].read_text()
    lacking = [it for it in ("WHICH PORTS FIT", "UNANSWERED", f'"zuldegei {VERSION}"') if it not in text]
    yield "tlscore.1 has its page", f"it lacks {lacking}" if lacking else None


def versions(root: Path) -> Iterator[Case]:
    """The version is the same everywhere."""
    number = r"(\d+\.\d+\.\d+)"
    for name, pattern in {
        "README.md": rf"(?m)^This is version {number} \(",
        "python/zuldegei/__init__.py": rf'(?m)^__version__ = "{number}"$',
        "python/pyproject.toml": rf'(?m)^version = "{number}"$',
        "interfaces/c/zuldegei.h": rf'(?m)^#define \w*VERSION\w* "{number}"$',
    }.items():
        found = re.search(pattern, (TOP / name).read_text())
        yield f"the version of {name}", None if found and found[1] == VERSION else f"it is {found and found[1]}, not {VERSION}"
    done = ran(["pkg-config", "--modversion", "zuldegei"], env={**BARE, "PKG_CONFIG_PATH": str(root / "lib/pkgconfig")})
    yield "the version by pkg-config", None if done.stdout == f"{VERSION}\n" else done.stdout + done.stderr
    yield "the version is a semantic one", None if re.fullmatch(number, VERSION) else VERSION


def compiled(root: Path, room: Path) -> Iterator[Case]:
    """The examples in C, C++ and SystemC, by what pkg-config says, with the shared library and with the static one."""
    if not is_there("the examples in C and SystemC", "pkg-config", "cc", "c++"):
        return
    env = {**BARE, "PKG_CONFIG_PATH": str(root / "lib/pkgconfig"), "TMPDIR": str(room), "LD_LIBRARY_PATH": str(root / "lib")}
    flags = ran(["pkg-config", "--cflags", "--libs", "zuldegei"], env=env).stdout.split()
    static = [*flags[:1], str(root / "lib/libzuldegei.a")]
    c = ["cc", "-std=c99", "c/example.c"], "= wrong 12 reply 7 PAYLOAD expected D 1 1 0 3 7 0 1122334455667788 0 at 40\n"
    cpp = ["c++", "-x", "c++", "c/example.c", "-x", "none"], c[1]
    systemc = ["c++", "systemc/example.cpp"], "stopped at 90 ns: = wrong 22 reply 7 PAYLOAD "
    tried = {"C": (*c, flags), "C, static": (*c, static), "C++": (*cpp, flags)}
    if Path("/usr/include/systemc").exists():
        tried["SystemC"] = (*systemc, [*flags, "-lsystemc"])
    else:
        print("skipped: the installed example in SystemC, as libsystemc-dev isn't installed")
    sources = root / "share/doc/zuldegei/interfaces"
    for name, (words, due, last) in tried.items():
        built = ran([*words, "-Wall", "-Wextra", "-Werror", *last, "-o", str(room / name)], sources, env)
        fault = why(built)
        if not fault:
            done = ran([str(room / name), "wrong"], room, {**env, "LD_LIBRARY_PATH": "" if last == static else str(root / "lib")})
            fault = why(done, 1) or (None if due in done.stdout else done.stdout)
        yield f"the installed example in {name}", fault


def commands(root: Path, home: Path) -> Iterator[Case]:
    """Each command runs from where it stands and tells its version, as tlscore does; example and scoreboard in Python run too."""
    for module in MODULES:
        done = ran([str(root / f"bin/zuldegei-{module}"), "--help"], home, BARE)
        yield f"zuldegei-{module}", why(done) or (None if done.stdout.startswith(f"usage: zuldegei-{module} ") else done.stdout)
    for name in ("tlscore", *(f"zuldegei-{it}" for it in MODULES)):
        done = ran([str(root / f"bin/{name}"), "--version"], home, BARE)
        yield f"{name} --version", why(done) or (None if done.stdout == f"{name} {VERSION}\n" else done.stdout)
    bench = str(root / "share/doc/zuldegei/examples/testbench/random_bench.py")
    done = ran(["python3", "-B", bench, "--program", str(root / "bin/tlbridge"), "--steps", "200", "7"], home, BARE)
    yield "the example in Python", why(done)
    done = ran(["python3", "-c", SCOREBOARD], home, {**BARE, "PYTHONPATH": str(root / "share/zuldegei/python")})
    yield "the scoreboard in Python", why(done) or (None if done.stdout.startswith("= wrong 3 axi 9 ") else done.stdout)


def taken_away(room: Path, built: Path) -> Iterator[Case]:
    """Installing twice, over a file of somebody else, and taking away; what was there before stays, and nothing else."""
    stage, env = room / "other stage", {**os.environ, "DESTDIR": str(room / "other stage")}
    words = ["./install", "--prefix", "/usr/a tool", "--built", str(built)]
    first, second = ran(words, env=env), ran(words, env=env)
    yield "installing twice", why(first) or why(second)
    root, before = stage / "usr/a tool", files_below(stage)
    kept = {name.partition(" ")[2] for name in (root / LIST).read_text().splitlines() if name.startswith("file ")}
    odd = sorted(kept ^ files_below(root))
    yield "the list has what is installed", f"apart are {odd[:5]}" if odd else None
    ran(["python3", "-c", "import zuldegei.waves"], env={**BARE, "PYTHONPATH": str(root / "share/zuldegei/python")})
    (root / "share/mine").write_text("mine")
    cached = files_below(stage) - before
    gone = ran(["./install", "--uninstall", "--prefix", "/usr/a tool"], env=env)
    left = files_below(stage)
    is_right = left == {"usr/a tool/share/mine"} and len(cached) > 1
    yield "taking away", why(gone) or (None if is_right else f"{sorted(left)[:5]} are left")
    (root / "bin").mkdir(parents=True)
    (root / "bin/tlscore").write_text("another's")
    refused = ran(words, env=env)
    odd = sorted(files_below(stage) ^ (left | {"usr/a tool/bin/tlscore"}))
    yield "a file of somebody else", why(refused, 3) or (f"it changed {odd[:5]}" if odd else None)
    shutil.rmtree(stage)
    whole = why(ran(words, env=env)) or why(ran(["./install", "--uninstall", "--prefix=/usr/a tool"], env=env))
    yield "taking away all", whole or ("folders are left" if stage.exists() else None)


def unlinked() -> Iterator[Case]:
    """The prover refuses a repository with a link in it, so building and installing leave none there."""
    found = [str(it.relative_to(TOP)) for it in TOP.rglob("*") if it.is_symlink() and ".git" not in it.parts]
    yield "no link in the repository", ", ".join(found[:3]) or None


def words() -> Iterator[Case]:
    """Words that can't be, of each script: the status and the start of what is said."""
    for it in stored.blocks(TOP / "tests/words/scripts.words"):
        status, _, said = it.due.partition(" ")
        done = ran(["sh", "-c", f"./{it.given}"], env={**os.environ, "DESTDIR": "/nowhere"})
        yield it.name, why(done, int(status)) or (None if done.stderr.startswith(said) else done.stderr)


def copied(room: Path, name: str, given: Path) -> Tuple[Path, Dict[str, str]]:
    """A copy of the repository whose crates are three, with the stand-in for rt, and the environment to use it in."""
    copy = room / name
    shutil.copytree(TOP, copy, ignore=lambda folder, _: {"out", "crates"} if Path(folder) == TOP else set(), symlinks=True)
    for crate in ("tlbridge", "tlscore", "zuldegei"):
        (copy / f"crates/{crate}/src").mkdir(parents=True)
        (copy / f"crates/{crate}/src/main.rt").write_text("a source\n")
    (copy / "crates.txt").write_text(CRATES)
    (room / "path").mkdir(exist_ok=True)
    shutil.copy(TOP / "tests/stand_ins/rt_that_copies", room / "path/rt")
    return copy, {**os.environ, "PATH": f"{room / 'path'}:{os.environ['PATH']}", "GIVEN": str(given)}


def archives(room: Path, given: Path) -> Iterator[Case]:
    """An archive of each of two copies, which are built on the way; a third of the first, where all stands there."""
    made = {}
    for name in ("a", "b in another"):
        copy, env = copied(room, name, given)
        if not made:
            yield "a release of files that differ from the commit", why(ran(["./release"], copy, env), 3)
        done = ran(["./release", "--changed"], copy, env, umask=0o027 if made else 0o022)
        made[name] = copy / f"out/zuldegei-{VERSION}.tar.gz"
        progress = ("tlbridge, tlscore, zuldegei: 3 crates to prove and build first, which takes some ", "no wrong body is tried")
        progress += ("tlbridge: built in", "tlscore: 0 of 1 built", "zuldegei: an archive has the library", "zuldegei: 0 of 1 built")
        lacking = [it for it in progress if it not in done.stderr]
        yield f"a release of copy {name}", why(done) or (f"on standard error is no {lacking}" if lacking else None)
    if not all(it.exists() for it in made.values()):
        return
    again = ran(["./release", "--changed", str(room / "again")], room / "a", env)
    yield "a release where all is built", why(again) or (f"it was built: {again.stderr}" if again.stderr else None)
    texts = {it.read_bytes() for it in (*made.values(), room / f"again/zuldegei-{VERSION}.tar.gz")}
    yield "three archives are the same bytes", None if len(texts) == 1 else f"there are {len(texts)}"


def packed(archive: Path) -> Iterator[Case]:
    """What stands in the archive beside the names: order, owners, times, modes."""
    with tarfile.open(archive) as tar:
        members = tar.getmembers()
        proved = tar.extractfile(f"zuldegei-{VERSION}/share/doc/zuldegei/PROVED").read().decode()
        sums = {name: hashlib.sha256(tar.extractfile(f"zuldegei-{VERSION}/{name}").read()).hexdigest()
                for name in re.findall(r"(?m)^sha256 \w+  (.*)$", proved)}  # fmt: skip
    committed = int(ran(["git", "log", "-1", "--format=%ct"]).stdout)
    kinds = {(it.uid, it.gid, it.mtime, 0o644 if it.issym() else it.mode) for it in members}
    odd = sorted(kinds - {(0, 0, committed, 0o644), (0, 0, committed, 0o755)})
    yield "owners, times and modes in the archive", f"{odd[:5]}" if odd else None
    names = [it.name for it in members]
    yield "the top of the archive", None if {it.split("/")[0] for it in names} == {f"zuldegei-{VERSION}"} else f"{names[:3]}"
    odd = [it for it, due in zip(names, sorted(names, key=lambda it: it.split("/"))) if it != due]
    yield "the order of names in the archive", f"{odd[0]} isn't in its place" if odd else None
    commit = ran(["git", "rev-parse", "HEAD"]).stdout.strip()
    due = [f"zuldegei {VERSION}\n", f"commit: {commit} with changes", "toolchain: stand-in 1\n", "proved: each function"]
    due += [f"for: Linux on x86-64, {it}\n" for it in re.findall(r"glibc 2\.\d+ or later", PAGE)]
    lacking = [it for it in due if it not in proved]
    yield "what PROVED says of its origin", f"it lacks {lacking}: {proved}" if lacking else None
    wrong = [name for name, sum in sums.items() if f"sha256 {sum}  {name}\n" not in proved]
    yield "the checksums in PROVED", f"{wrong}" if wrong or len(sums) != 4 else None


def as_readme(unpacked: Path) -> Iterator[Case]:
    """The commands of README.md in the folder of the archive, whose own copy of it is read."""
    blocks = BLOCK.findall((unpacked / "share/doc/zuldegei/README.md").read_text())
    yield "the commands of README.md", None if len(blocks) == 1 else f"it has {len(blocks)}"
    for block, status, due in blocks:
        done = ran(["sh", "-c", block], unpacked, BARE)
        yield "README.md in the archive", why(done, int(status)) or (None if done.stdout == due else f"it prints {done.stdout!r}")


def as_the_page(room: Path, archive: Path) -> Iterator[Case]:
    """The commands of the page in an empty folder, in turn, as a new user calls them, and behind them those of the page of the assertions; what
    one exports the others have."""
    shutil.copy(archive, room)
    shutil.copy(f"{archive}.sha256", room)
    exported = ""
    for page, text, many in (("docs/INSTALL.md", PAGE, 3), ("examples/proof/README.md", PROOF, 2)):
        blocks = BLOCK.findall(text)
        is_whole = len(blocks) == len(SHOWN.findall(text)) == many
        yield f"the commands of {page}", None if is_whole else "a block isn't followed by what it prints"
        for number, (block, status, due) in enumerate(blocks, 1):
            lacking = [tool for name, tool in NEEDED.items() if name in block and not shutil.which(tool, path=BARE["PATH"])]
            if lacking:
                print(f"skipped: block {number} of {page}, as {' and '.join(lacking)} isn't installed")
                continue
            done = ran(["sh", "-c", exported + block], room, {**BARE, "HOME": str(room)})
            printed = None if done.stdout == due else f"it prints {done.stdout!r}"
            yield f"block {number} of {page}", why(done, int(status)) or printed
            exported += "".join(f"{line}\n" for line in block.splitlines() if line.startswith("export "))


def by_pip(room: Path) -> Iterator[Case]:
    """The package of the unpacked archive by pip, as the page says, without a network: its commands, and the scoreboard over the library
    that was packed with it."""
    if ran(["python3", "-m", "pip", "--version"], room, BARE).returncode:
        print("skipped: the package by pip, as python3-pip isn't installed")
        return
    command = re.search(r"(?m)^ +(python3 -m pip install .*)$", PAGE)
    place = room / "by pip"
    env = {**BARE, "HOME": str(room), "PIP_NO_INDEX": "1", "PIP_CONFIG_FILE": os.devnull, "PIP_TARGET": str(place), "PYTHONPATH": str(place)}
    before = files_below(room)
    done = ran(["sh", "-c", command[1] if command else "false"], room, env)
    yield "the package by pip", why(done)
    if done.returncode:
        return
    odd = sorted(it for it in files_below(room) ^ before if not it.startswith(("by pip/", ".cache/")) and "__pycache__" not in it)
    yield "pip leaves the archive as it is", f"apart are {odd[:5]}" if odd else None
    for module in MODULES:
        done = ran([str(place / f"bin/zuldegei-{module}"), "--version"], room, env)
        yield f"zuldegei-{module} by pip", why(done) or (None if done.stdout == f"zuldegei-{module} {VERSION}\n" else done.stdout)
    done = ran(["python3", "-c", SCOREBOARD], room, env)
    yield "the scoreboard by pip", why(done) or (None if done.stdout.startswith("= wrong 3 axi 9 ") else done.stdout)
    package = {it.name: it for it in (place / "zuldegei").iterdir() if it.is_file()}
    due = {it.name for it in (TOP / "python/zuldegei").iterdir() if it.is_file()} | {"libzuldegei.so"}
    odd = sorted(due ^ {*package})
    yield "the files of the package by pip", f"apart are {odd[:5]}" if odd else None


def moved(room: Path, given: Path) -> Iterator[Case]:
    """The unpacked archive under another name, and what its own ./install gives beside what the repository's does."""
    place = room / "moved here"
    shutil.move(room / f"zuldegei-{VERSION}", place)
    yield from commands(place, room)
    yield from as_readme(place)
    examples = TOP / "examples"
    tried = (("tlscore", "scoreboard/right.in", "scoreboard/right.out"), ("tlbridge", "first.script", "first.trace"))
    for program, source, due in tried:
        text = (examples / source).read_bytes()
        done = subprocess.run([place / "bin" / program], input=text, env=BARE, capture_output=True, check=False)
        is_right = (done.returncode, done.stdout) == (0, (examples / due).read_bytes())
        yield f"{program} in another folder", None if is_right else f"status {done.returncode}, {done.stdout[-200:]!r}"
    first = ran(["./install", "--prefix", str(room / "one")], place, BARE)
    second = ran(["./install", "--prefix", str(room / "two"), "--built", str(given)])
    yield "installing from both", why(first) or why(second)
    one, two = ({name: (root / name).read_bytes() for name in files_below(root)} for root in (room / "one", room / "two"))
    odd = sorted(it for it in {*one} | {*two} if one.get(it) != two.get(it) and not it.endswith("PROVED"))
    yield "the archive installs what the repository does", f"apart are {odd[:5]}" if odd else None


def given_at(room: Path, score: Path, bridge: Path, library: Path) -> Path:
    """A folder with the programs and libraries, and what the stand-in for rt needs."""
    given = room / "given"
    (given / "kit/c").mkdir(parents=True)
    for source, name in ((score, "tlscore"), (bridge, "tlbridge"), (library / "libzuldegei.a", "libzuldegei.a")):
        shutil.copy(source, given / name)
    shutil.copy(library / "libzuldegei.so", given)
    ran(["ar", "rcD", str(given / "kit/c/liblibc_c.a")])
    return given


def cases(score: Path, bridge: Path, library: Path) -> Iterator[Case]:
    needed = (score, bridge, library / "libzuldegei.a", library / "libzuldegei.so")
    lacking = [it.name for it in needed if not it.is_file()]
    if lacking:
        yield "what is to be installed", f"{' and '.join(lacking)} isn't there (interfaces/build makes the library)"
        return
    with tempfile.TemporaryDirectory(prefix="zuldegei-") as folder:
        room = Path(folder).resolve()
        given, stage = given_at(room, score, bridge, library), room / "stage"
        done = ran(["./install", "--built", str(given)], env={**os.environ, "DESTDIR": str(stage)}, umask=0o077)
        yield "installing below DESTDIR", why(done)
        if done.returncode:
            return
        root = stage / "usr/local"
        for tried in (named(root), modes(root), apart(root, [TOP, room, library]), manuals(root), versions(root)):
            yield from tried
        yield from compiled(root, room)
        yield from commands(root, room)
        yield from taken_away(room, given)
        yield from unlinked()
        yield from words()
        yield from archives(room, given)
        archive = room / f"a/out/zuldegei-{VERSION}.tar.gz"
        if archive.exists():
            (room / "new").mkdir()
            for tried in (packed(archive), as_the_page(room / "new", archive), by_pip(room / "new"), moved(room / "new", given)):
                yield from tried


if __name__ == "__main__":
    sys.exit(told(cases(*(Path(it).resolve() for it in sys.argv[1:4]))))
