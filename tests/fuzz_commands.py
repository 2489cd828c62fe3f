"""The commands of python/ on what nobody meant to give them: dumps, maps, images, observations, verdicts and set-ups in which bytes and
lines were flipped, cut, repeated and moved by lot. Each call ends in its time with a status of python/README.md that isn't that of a fault
of its own (7) or of memory (4), and status 1 stands for a wrong beat alone; where it can't go on it says so in one line. What the scoreboard
judged of such observations isn't refused.

    python3 tests/fuzz_commands.py TLSCORE [--count N] [--seed N] [--only COMMAND] [--case N --keep FOLDER]

Inputs are made by the seed, the command and the number of the case alone; --case makes one again, and leaves its files in FOLDER.
"""

import argparse
import contextlib
import gzip
import importlib
import io
import itertools
import json
import os
import random
import re
import resource
import shutil
import signal
import struct
import subprocess
import sys
import tempfile
import traceback
from collections import Counter
from pathlib import Path
from typing import Dict, Iterator, List, NamedTuple, Optional, Sequence, Tuple
from xml.etree import ElementTree

from ends import TOP, Case, asked, told
from package import RTL, command
from waves import HAND, MAP, UNKNOWN, a_beat, hand
from zuldegei import vcd
from zuldegei.command import Fault, Status
from zuldegei.cover_read import Reader
from zuldegei.cover_report import cover_of, cover_of_json
from zuldegei.observation import A, Observation, check_same, verdict_of
from zuldegei.player import Player

COMMANDS = ("waves", "fill", "explain", "wave_of", "times", "regress", "cover", "stimulus")
COUNT, SEED, BATCH, AT_ONCE, MOST_TOLD, JUDGED = 2000, 1, 100, 2, 9, 500
SECONDS, WAITED, MEMORY = 10, 120, 2 << 30  # of a processor and of the clock, for a call, and bytes for those of a batch
# The statuses of python/README.md that an input may lead to.
STATUSES = {"waves": (0, 2, 3), **dict.fromkeys(("fill", "cover", "stimulus"), (0, 2)), **dict.fromkeys(("explain", "wave_of", "times", "regress"), (0, 1, 2))}
WORDS = (
    *(b"0 1 -1 2 3 7 8 255 256 x z X zzzz ff 00000000 ffffffff 100000000 99999999999999 18446744073709551616 1e5 0x10".split()),
    *(b"A D AW AR W B R = time waited fill config region page reset end wrong judged expected at client of part".split()),
    *(b"#0 #5 @ @ffffffff /* */ //".split()),
    *(b"$end $var $scope $upscope $enddefinitions $dumpoff $dumpvars $comment b101 bx use clock layout width renumber axi flat a".split()),
    *(b"", b"9" * 5000, b"f" * 400, "\u0663".encode(), b"\xff\xfe", b"\0", b"\x1b[2J"),
    *(b"=1 =-1 = [3:0] [ * a.b.c".split()),
)
NUMBERS = (0, 1, 2, 31, 32, 56, 0x7F, 0xFF, 0xFFFF, 0x7FFF_FFFF, 0x8000_0000, 0xFFFF_FFFF, 1 << 40, (1 << 63) - 1, 1 << 63, (1 << 64) - 1)
# The status and what JUnit has of a run in each state; of all others these are 2 and an error.
ENDS = {"right": (0, "system-out"), "waived": (0, "skipped"), "wrong": (1, "failure"), "slow": (1, "failure")}
WAIVERS = b"# known\nreply PAYLOAD client 1 the old DMA\nreply UNANSWERED pages 0 8 lost\naxi CROSS_4K pages 10010 4 pages\naxi WLAST pages 0 99 w\n"


class Call(NamedTuple):
    """A call of a command: its words, and its files by their names."""

    words: List[str]
    files: Dict[str, bytes]


class Slow(BaseException):
    """A call that takes too long."""


# ---- inputs


def changed(data: bytes, lot: random.Random, is_text: bool = True) -> bytes:
    """A file with one to four changes by lot. Half of the texts are changed in ways that leave most lines what they are."""
    ways = (by_byte, by_span, by_line, by_word, *(() if is_text else (by_number, by_number, by_number)))
    ways = (by_digit, by_digit, by_line, by_word) if is_text and lot.randrange(2) else ways
    for _ in range(lot.choice((1, 1, 1, 2, 3, 4))):
        data = lot.choice(ways)(data, lot)
    return data


def by_digit(data: bytes, lot: random.Random) -> bytes:
    """A digit is another one, or one that nobody knows."""
    places = [it.start() for it in re.finditer(rb"(?<![A-Za-z_])[0-9]", data)]
    if not places:
        return data
    at = lot.choice(places)
    return data[:at] + lot.choice((b"0", b"1", b"2", b"4", b"7", b"9", b"x", b"")) + data[at + 1 :]


def by_byte(data: bytes, lot: random.Random) -> bytes:
    """A byte is another one, or has another bit."""
    if not data:
        return lot.randbytes(5)
    made, at = bytearray(data), lot.randrange(len(data))
    made[at] = made[at] ^ 1 << lot.randrange(8) if lot.randrange(2) else lot.choice(b"\0\n\r\t 09afxzZ#=-.@$\x7f\x80\xff")
    return bytes(made)


def by_span(data: bytes, lot: random.Random) -> bytes:
    """A span is left out, comes again, many times too, or ends the file."""
    first, last = sorted(lot.randrange(len(data) + 1) for _ in range(2))
    last = min(last, first + lot.choice((1, 4, 40, 400)))
    how = lot.randrange(4)
    if how == 0:
        return data[:first] + data[last:]
    if how == 1:
        return data[:first]
    if how == 2:
        return data[:last] + data[first:last] * lot.choice((1, 2, 9)) + data[last:]
    return data[:first] + lot.randbytes(4) + data[first:]


def by_line(data: bytes, lot: random.Random) -> bytes:
    """A line is left out, comes again, changes its place with another, or is cut."""
    lines = data.split(b"\n")
    at, other, how = lot.randrange(len(lines)), lot.randrange(len(lines)), lot.randrange(5)
    if how == 0:
        del lines[at]
    elif how == 1:
        lines[other:other] = [lines[at]] * lot.choice((1, 1, 2, 50))
    elif how == 2:
        lines[at], lines[other] = lines[other], lines[at]
    elif how == 3:
        lines[at] = lines[at][: lot.randrange(len(lines[at]) + 1)]
    else:
        lines[at : at + 2] = [b" ".join(lines[at : at + 2])]
    return b"\n".join(lines)


def by_word(data: bytes, lot: random.Random) -> bytes:
    """A word is another one, or is left out, or one more."""
    lines = data.split(b"\n")
    at = lot.randrange(len(lines))
    words = lines[at].split(b" ")
    place = lot.randrange(len(words))
    new = lot.choice(WORDS) if lot.randrange(3) == 0 else lot.choice(lot.choice(lines).split(b" "))
    words[place : place + (lot.randrange(4) > 0)] = [new] if lot.randrange(5) else []
    lines[at] = b" ".join(words)
    return b"\n".join(lines)


def by_number(data: bytes, lot: random.Random) -> bytes:
    """A number of 1 to 8 bytes is another one, mostly near the file's head, as in an ELF."""
    size, order = lot.choice(((1, "B"), (2, "H"), (4, "I"), (8, "Q"))), lot.choice("<>")
    at = lot.randrange(0, min(len(data), 200) + 1)
    return data[:at] + struct.pack(order + size[1], lot.choice(NUMBERS) & (1 << 8 * size[0]) - 1) + data[at + size[0] :]


class Inputs:
    """What the calls are made of, before it is changed."""

    def __init__(self, score: str):
        self.score = score
        stored = sorted((RTL / "runs").glob("*.lines"))
        rows = [it for it in sorted((TOP / "examples/scoreboard").glob("*.in")) if b"= judged" in it.with_suffix(".out").read_bytes()]
        self.runs = [(it.read_bytes(), it.with_suffix(".told").read_bytes()) for it in stored]
        self.stored = len(self.runs)  # with times
        self.runs += [(it.read_bytes(), it.with_suffix(".out").read_bytes()) for it in rows]
        self.setup = (RTL / "setup.lines").read_bytes()
        self.dumps = [dump(is_by_bit) for is_by_bit in (False, True)]
        self.packed = as_fst(self.dumps[0])
        laid_out = "layout top.a_mask low:4 high:4\na 0 source top.a_mask.low\nd 0 source =5\n"
        parts = "client 1 flat top. part 0 of 1\nd 1 data top.a_data[63:0]\nw strb =255\nreset top.d_corrupt\n"
        self.maps = [f"{HAND}{more}".encode() for more in ("renumber id 9 2\nrenumber source 0 5 6\n", laid_out, parts)]
        self.maps += [MAP.encode(), b"use rocket-chip top\n", b"use opentitan top", b"use pulp top ID=4"]
        self.maps += [it.read_bytes() for it in sorted((TOP / "tests/dumps").glob("*.map"))]
        self.counts = cover_of("a run", Reader().read(self.runs[0][0].decode().splitlines(True))).json().encode()
        self.parts = parts_of(score, self.runs[: self.stored : 3])
        self.images = [(TOP / "tests/images/words.hex").read_bytes(), b"\1\2\3" * 40]
        self.images += [elf(kind, order) for kind, order in itertools.product((1, 2), "<>")]

    def waves(self, lot: random.Random) -> Call:
        dumped, its_map, how = lot.choice(self.dumps), lot.choice(self.maps[: lot.choice((3, 3, 3, 9))]), lot.randrange(4)
        dumped, its_map = changed(dumped, lot) if how else dumped, changed(its_map, lot) if how < 2 else its_map
        others = (gzip.compress(dumped, 1), self.packed) if lot.randrange(8) == 0 else ()
        packed = changed(lot.choice(others), lot, False) if others else None
        files = {"ports.map": its_map, "run.vcd": packed or dumped, "set.lines": changed(self.setup, lot)}
        return Call(["ports.map", "run.vcd", *lot.choice(([], ["--setup", "set.lines"], ["--end"]))], files)

    def fill(self, lot: random.Random) -> Call:
        words = lot.choice(([], [], ["--zeros"], ["--virtual", "--zeros"], ["--big-endian"], ["--at", "ffffff00"], ["--width", "1"]))
        words += lot.choice(([], [], ["--format", "elf"], ["--format", "readmemh"], ["--format", "binary"]))
        return Call(["image", *words], {"image": changed(lot.choice(self.images), lot, False)})

    def explain(self, lot: random.Random) -> Call:
        words = lot.choice(([], ["-n", "9"], ["--uncompared"], ["--html", "run.html", "-n", "3"], ["--html", "run.html", "--late", "300"]))
        return Call(["run.lines", "run.told", *words], self.judged(lot))

    def times(self, lot: random.Random) -> Call:
        words = lot.choice(([], ["--late", "300"], ["--late", "1", "-n", "3"], ["--clock", "7", "--json", "times.json"]))
        lines = lot.choice(self.runs[: lot.choice((self.stored, len(self.runs)))])[0]
        return Call(["run.lines", *words], {"run.lines": changed(lines, lot)})

    def wave_of(self, lot: random.Random) -> Call:
        return Call(["run.lines", "run.told", "run.vcd"], self.judged(lot))

    def judged(self, lot: random.Random) -> Dict[str, bytes]:
        """An observation and its verdict, of which at least one is changed, or which are of two runs."""
        (lines, verdict), how = lot.choice(self.runs), lot.randrange(3)
        lines, verdict = changed(lines, lot) if how < 2 else lines, changed(verdict, lot) if how else verdict
        return {"run.lines": lines, "run.told": lot.choice(self.runs)[1] if lot.randrange(20) == 0 else verdict}

    def regress(self, lot: random.Random) -> Call:
        """A run by the scoreboard, or a verdict by a scoreboard that gives what it reads, or parts that are merged."""
        if lot.randrange(3) == 0:
            return self.merge(lot)
        files = self.judged(lot)
        files["set.lines"] = changed(self.setup, lot) if lot.randrange(2) else self.setup
        words = ["--score", "cat", "run.told"] if lot.randrange(2) else ["--score", self.score, "run.lines"]
        words += lot.choice(([], ["--setup", "set.lines"], ["--keep", "kept"], ["--late", "300"], ["--waive", "known.waivers"]))
        words += lot.choice(([], ["--cover", "night.cover"]))
        files["known.waivers"] = changed(WAIVERS, lot) if lot.randrange(2) else WAIVERS
        return Call([*words, "--json", "runs.json", "--junit", "junit.xml", "-j", "1"], files)

    def merge(self, lot: random.Random) -> Call:
        """The parts of a call, of which one is changed, or lacks."""
        names = [f"{number}.json" for number in range(len(self.parts))]
        files, other = dict(zip(names, self.parts)), lot.choice(names)
        files[other] = changed(files[other], lot)
        taken = lot.choice((names, names, names[::-1], names[1:], [*names, lot.choice(names)]))
        more = lot.choice(([], ["--cover", "night.cover"]))
        return Call(["--merge", *taken, *more, "--json", "runs.json", "--junit", "junit.xml"], files)

    def cover(self, lot: random.Random) -> Call:
        """Two observations of which at least one is changed, or a file of counts that is; and which bins are left out."""
        files = {"run.lines": changed(lot.choice(self.runs)[0], lot), "other.lines": lot.choice(self.runs)[0]}
        files["counts.json"] = changed(self.counts, lot) if lot.randrange(4) else self.counts
        files["without.lines"] = changed(b"without id/*/7 six slots\nwithout reset/* none\n", lot)
        words = lot.choice((["run.lines", "other.lines"], ["other.lines", "run.lines"], ["counts.json"], ["counts.json", "other.lines"]))
        words += lot.choice(([], ["--missed"], ["--clock", "10"], ["--without", "without.lines"]))
        return Call([*words, "--json", "cover.json", "--html", "cover.html", "--lcov", "cover.info"], files)

    def stimulus(self, lot: random.Random) -> Call:
        """A set-up, or an observation, what runs reached, and which bins are left out, of which some are changed."""
        files = {"set.lines": changed(lot.choice((self.setup, self.setup, lot.choice(self.runs)[0])), lot)}
        files["night.cover"] = changed(self.counts, lot) if lot.randrange(3) == 0 else self.counts
        files["without.lines"] = changed(b"without id/*/7 six slots\nwithout edge/* none\n", lot)
        words = lot.choice(([], ["--missed", "night.cover"], ["--lots", "8"], ["--weights", "conflict=3,edge=0"], ["--without", "without.lines"]))
        return Call(["--setup", "set.lines", "--seed", str(lot.randrange(99)), "--requests", "40", *words], files)


def dump(is_by_bit: bool) -> bytes:
    """A dump of beats of each channel."""
    made = hand(is_by_bit)
    for values, _ in UNKNOWN[:4]:
        made.clock(values)
    made.clock(a_beat())
    made.clock({"m_axi_awvalid": "1", "m_axi_awid": "1", "m_axi_awaddr": "1000", "m_axi_awlen": "0", "m_axi_awsize": "11"})
    made.clock({"m_axi_wvalid": "1", "m_axi_wdata": "101", "m_axi_wstrb": "11111111", "m_axi_wlast": "1"})
    made.clock({"m_axi_bvalid": "1", "m_axi_bid": "1", "m_axi_bresp": "0"})
    made.clock({"m_axi_arvalid": "1", "m_axi_arid": "1", "m_axi_araddr": "1000", "m_axi_arlen": "0", "m_axi_arsize": "11"})
    made.clock({"m_axi_rvalid": "1", "m_axi_rid": "1", "m_axi_rdata": "x", "m_axi_rresp": "0", "m_axi_rlast": "1"})
    reply = {"opcode": "1", "size": "11", "source": "101", "denied": "0", "data": "1", "corrupt": "0"}
    made.clock({"d_valid": "1", **{f"d_{name}": digits for name, digits in reply.items()}})
    return made.text()


def parts_of(score: str, runs: Sequence[Tuple[bytes, bytes]]) -> List[bytes]:
    """The JSON of each of three parts of a call."""
    with tempfile.TemporaryDirectory() as folder:
        for name, data in (*((f"{at}.lines", lines) for at, (lines, _) in enumerate(runs)), ("known.waivers", WAIVERS)):
            Path(folder, name).write_bytes(data)
        words = [*(f"{at}.lines" for at in range(len(runs))), "--late", 3000, "--waive", "known.waivers", "--cover", "/dev/null", "--score", score]
        for number in (1, 2, 3):
            command("regress", *words, "--part", f"{number}/3", "--json", f"{number}.json", cwd=folder)
        return [Path(folder, f"{number}.json").read_bytes() for number in (1, 2, 3)]


def as_fst(dumped: bytes) -> bytes:
    """A dump as FST, where that can be made."""
    if not shutil.which("vcd2fst"):
        return dumped
    with tempfile.TemporaryDirectory() as folder:
        Path(folder, "run.vcd").write_bytes(dumped)
        subprocess.run(["vcd2fst", "run.vcd", "run.fst"], cwd=folder, check=True, capture_output=True)
        return Path(folder, "run.fst").read_bytes()


def elf(kind: int, order: str) -> bytes:
    """An ELF of 32 or 64 bits in one byte order, with two segments, of which the second has zeros behind it."""
    head, program = {1: ("HHIIIIIHHHHHH", "IIIIIIII"), 2: ("HHIQQQIHHHHHH", "IIQQQQQQ")}[kind]
    first = 16 + struct.calcsize(f"{order}{head}")
    each, data = struct.calcsize(f"{order}{program}"), bytes(range(100))
    its_head = struct.pack(f"{order}{head}", 2, 243, 1, 0x8000_0000, first, 0, 0, first, each, 2, 0, 0, 0)
    body = b""
    for at in range(2):
        place = (first + 2 * each + 50 * at, 0x1000 * at, 0x8000_0000 + 0x1000 * at, 50, 50 + 30 * at)
        body += struct.pack(f"{order}{program}", *((1, *place, 7, 1) if kind == 1 else (1, 7, *place, 1)))
    return b"\x7fELF" + bytes([kind, {"<": 1, ">": 2}[order], 1]) + bytes(9) + its_head + body + data


# ---- calls


class Ended(NamedTuple):
    """How a call in this process ended."""

    status: int
    printed: str
    said: str


def called(command: str, words: Sequence[str]) -> Ended:
    """Calls a command's `main` in this process, as if by its name."""
    module = importlib.import_module(f"zuldegei.{command}")
    printed, said, sys.argv = io.StringIO(), io.StringIO(), [f"zuldegei-{command}", *words]
    with contextlib.redirect_stdout(printed), contextlib.redirect_stderr(said):
        try:
            status = module.main()
        except Exception:  # what it should have caught
            traceback.print_exc()
            status = -1
    return Ended(int(status), printed.getvalue(), said.getvalue())


def wrong(command: str, call: Call, ended: Ended) -> Optional[str]:
    """How a call didn't end as it may. A part may say that a file couldn't be written."""
    statuses = (*STATUSES[command], Status.CANNOT) if "--merge" in call.words else STATUSES[command]
    if ended.status not in statuses or "Traceback" in ended.said:
        return f"status {ended.status}; it said {ended.said[-600:]!r}"
    is_told = ended.said.count("\n") == 1 and ended.said.startswith(f"zuldegei-{command.replace('_', '-')}: ")
    if ended.status >= Status.FAULT and not is_told and "runs: " not in ended.printed:
        return f"status {ended.status}, and it said {ended.said[-600:]!r}"
    if command == "stimulus" and ended.status == Status.DONE:
        return unplayable(ended.printed)
    return at_fault(command, ended) if command in ("explain", "times", "regress") else None


def at_fault(command: str, ended: Ended) -> Optional[str]:
    """Whether status 1 and what was printed say the same of wrong beats."""
    if command == "explain":
        count = re.search(r"(?m)^(\d+) wrong lines?, ", ended.printed)
        is_wrong = bool(count and int(count[1]))
    elif command == "times":
        count, is_wrong = "with a clock of" in ended.printed, "\n= late " in ended.printed
    else:
        count = re.search(r"(?m)^\d+ runs: (.*);", ended.printed)
        is_wrong = bool(count and ended.status != Status.CANNOT and re.search(r"\b[1-9]\d* (?:wrong|slow)\b", count[1]))
    if (ended.status == Status.WRONG) != is_wrong or ended.status <= Status.WRONG and not count:
        return f"status {ended.status}, and it printed {ended.printed[-300:]!r}"
    return None


def unplayable(printed: str) -> Optional[str]:
    """Whether a player refuses some of the lines, or they are of no request."""
    try:
        return None if any(it.lines for it in Player(printed.splitlines(), 8).ports) else "it printed no request"
    except Fault as why:
        return f"a player refuses what it printed: {why}"


def unreadable(command: str, call: Call, status: int) -> Optional[str]:
    """Whether the files that a call wrote can be read, and say what its status says."""
    try:
        if command == "explain" and "--html" in call.words and status <= Status.WRONG:
            json.loads(re.search(r'(?s)<script id="data" type="application/json">(.*?)</script>', Path("run.html").read_text())[1])
        if command == "cover" and status == Status.DONE:
            text, info = Path("cover.json").read_text(), Path("cover.info").read_text()
            is_same = cover_of_json(text, "").json() == text and Path("cover.html").read_text().endswith("</html>\n")
            return None if is_same and info.count("end_of_record\n") == info.count("TN:\n") else "its files aren't whole"
        if command == "regress" and "--cover" in call.words and Path("runs.json").exists():
            text = Path("night.cover").read_text()
            if cover_of_json(text, "").json() != text:
                return "night.cover isn't whole"
        if command == "regress" and Path("runs.json").exists():
            found = json.loads(Path("runs.json").read_text())
            states = [it["status"] for it in found["runs"]]
            tags = [it[0].tag for it in ElementTree.parse("junit.xml").iter("testcase")]
            due = [ENDS.get(it, (2, "error")) for it in states]
            worst = min((it for it, _ in due if it), default=2 if "lacking" in found else 0)
            is_well = tags == [it for _, it in due] and status in (worst, *([3] if "--merge" in call.words else []))
            return None if is_well and len(states) == (5 if "--merge" in call.words else 1) else f"status {status}, files of {states} {tags}"
    except (ValueError, TypeError, OSError, ElementTree.ParseError, IndexError, Fault) as why:
        return f"its files can't be read: {why!r}"
    return None


def tried(inputs: Inputs, command: str, seed: int, number: int) -> Tuple[int, Optional[str]]:
    """Makes a case in the folder in which it is, and calls the command; gives the status, and what is wrong with it."""
    call = getattr(inputs, command)(random.Random(f"{seed} {command} {number}"))
    for name in ("runs.json", "junit.xml", "night.cover", "run.html", "cover.json", "cover.html", "cover.info", *call.files):
        Path(name).unlink(missing_ok=True)
    for name, data in call.files.items():
        Path(name).write_bytes(data)
    set_timers(SECONDS, WAITED)
    try:
        ended = called(command, call.words)
    except Slow:
        return -1, f"it took longer than {SECONDS} s of a processor, or {WAITED} s: {' '.join(call.words)}"
    finally:
        set_timers(0, 0)
    why = wrong(command, call, ended) or unreadable(command, call, ended.status)
    return ended.status, f"{why}; its words are {' '.join(call.words)}" if why else None


def set_timers(seconds: int, waited: int) -> None:
    """Has a call end after so many seconds of a processor, or of the clock; 0 ends it no more."""
    for timer, signalled, after in ((signal.ITIMER_PROF, signal.SIGPROF, seconds), (signal.ITIMER_REAL, signal.SIGALRM, waited)):
        signal.signal(signalled, too_slow)
        signal.setitimer(timer, after)


def too_slow(*_: object) -> None:
    raise Slow


# ---- many calls


class Batch:
    """Cases of a command that are tried in a process of their own, which says of each how it ended."""

    def __init__(self, inputs: Inputs, command: str, seed: int, numbers: range):
        self.command, self.numbers = command, numbers
        out, into = os.pipe()
        self.process = os.fork()
        if self.process == 0:
            os.close(out)
            self.child(inputs, seed, into)
        os.close(into)
        self.pipe = open(out, "rb")

    def child(self, inputs: Inputs, seed: int, into: int) -> None:
        """Tries the cases, in the child's process, which ends with them."""
        status = 1
        try:
            resource.setrlimit(resource.RLIMIT_AS, (MEMORY, MEMORY))
            resource.setrlimit(resource.RLIMIT_CPU, (SECONDS * 9, SECONDS * 9))
            with tempfile.TemporaryDirectory() as folder, open(into, "wb") as pipe:
                os.chdir(folder)
                for number in self.numbers:
                    pipe.write(json.dumps(tried(inputs, self.command, seed, number)).encode() + b"\n")
                    pipe.flush()
                os.chdir("/")
            status = 0
        finally:
            os._exit(status)

    def told(self) -> Iterator[Tuple[int, int, Optional[str]]]:
        """Of each case its number, its status, and what is wrong with it. The one in which the process ended is wrong."""
        with self.pipe:
            lines = self.pipe.read().splitlines()
        status = os.waitstatus_to_exitcode(os.waitpid(self.process, 0)[1])
        for number, line in zip(self.numbers, lines):
            yield (number, *json.loads(line))
        if status or len(lines) < len(self.numbers):
            yield self.numbers[min(len(lines), len(self.numbers) - 1)], -1, f"the process ended with status {status}"


def fuzzed(inputs: Inputs, command: str, seed: int, count: int) -> Iterator[Case]:
    """Many cases of a command, a few processes at once: the first that are wrong; and at the end all, and whether they were of each kind."""
    starts, running, seen, wrong_ones = iter(range(0, count, BATCH)), [], Counter(), 0
    while True:
        for start in itertools.islice(starts, AT_ONCE - len(running)):
            running.append(Batch(inputs, command, seed, range(start, min(start + BATCH, count))))
        if not running:
            break
        for number, status, why in running.pop(0).told():
            seen[status] += 1
            wrong_ones += bool(why)
            if why and wrong_ones <= MOST_TOLD:
                yield f"{command}, case {number} of seed {seed}", why
    yield f"{command}, {count} cases", f"{wrong_ones} are wrong" if wrong_ones else few(seen, count)


def withdrawn(inputs: Inputs) -> Iterator[Case]:
    """An A beat that wasn't taken, with each of its fields unknown: it is there where the scoreboard tells of it."""
    for at in range(10):
        words = "A 0 0 0 3 5 00000008 ff 1122334455667788 0".split()
        words[at : at + 1] = ["x"] if at else [A]
        text = f"config 2 4 16 2 16 12 hh\nregion 0 4 10 gpah\npage 10 4 good\n{' '.join(words)}\n= refused 1 OPCODE\n"
        verdict = subprocess.run([inputs.score], input=text, capture_output=True, text=True).stdout
        count = len([*Observation(text).beats()]) if "= judged" in verdict else 0
        yield f"a beat that wasn't taken, with an x for field {at}", None if count == verdict.count("= wrong") else f"{count} beats, {verdict!r}"


def explained(inputs: Inputs, seed: int) -> Iterator[Case]:
    """Changed observations that the scoreboard reads to their end: none is refused, and neither is its verdict."""
    count = 0
    for number in range(JUDGED):
        lot = random.Random(f"{seed} judged {number}")
        text = changed(lot.choice(inputs.runs)[0], lot)
        verdict = subprocess.run([inputs.score], input=text, capture_output=True).stdout
        if b"\n= judged " in b"\n" + verdict:
            count += 1
            try:
                check_same(Observation(text.decode()), verdict_of(verdict.decode()))
            except Fault as why:
                yield f"observation {number} of seed {seed}, which the scoreboard judged", str(why)
    yield "observations that the scoreboard judged", None if count > JUDGED // 10 else f"{count} of {JUDGED} were"


def few(seen: "Counter[int]", count: int) -> Optional[str]:
    """Whether many cases were refused, and many weren't."""
    good, refused = seen[Status.DONE] + seen[Status.WRONG], seen[Status.FAULT]
    return None if min(good, refused) > count // 20 and sum(seen.values()) == count else f"the statuses were {dict(seen)}"


def caught() -> Iterator[Case]:
    """What a command doesn't expect ends in one line, which names it and asks for a report, and in a status of its own."""

    def broken(_: object) -> int:
        raise RuntimeError("a\nfault\x1b")

    for command in COMMANDS:
        module = importlib.import_module(f"zuldegei.{command}")
        kept, module.work = module.work, broken
        ended = called(command, [])
        module.work = kept
        wanted = rf"zuldegei-[a-z-]+: unexpected RuntimeError at fuzz_commands\.py line \d+ of version \S+, please report .*: a fault\?\n"
        is_well = ended.status == 7 and not ended.printed and re.fullmatch(wanted, ended.said)
        yield f"what {command} doesn't expect", None if is_well else str(ended)


def with_number(data: bytes, at: int, form: str, number: int) -> bytes:
    """A file with another number at a place."""
    return data[:at] + struct.pack(form, number) + data[at + struct.calcsize(form) :]


def refused(inputs: Inputs) -> Iterator[Tuple[str, str, Call, str]]:
    """Inputs by hand that can't be what they should: a name, the command, the call, and what its line names."""
    image = elf(2, "<")  # in its head e_phoff stands at 32, e_phentsize at 54 and e_phnum at 56; p_memsz at 40 of a header
    for name, data in (
        ("program headers far away", with_number(image, 32, "<Q", 1 << 63)),
        ("65,535 program headers", with_number(image, 56, "<H", 0xFFFF)),
        ("65,535 program headers of no byte", with_number(with_number(image, 54, "<H", 0), 56, "<H", 0xFFFF)),
    ):
        yield name, "fill", Call(["image"], {"image": data}), "program headers"
    absurd = with_number(image, 64 + 56 + 40, "<Q", 1 << 60)
    yield "a segment with zeros without end", "fill", Call(["image", "--zeros"], {"image": absurd}), "zeros behind the segment at 80001000"
    yield "a comment without end", "fill", Call(["image"], {"image": b"@0 11 /* no end\n" + b"/* " * 50_000}), "a comment has no end"
    lines, verdict = inputs.runs[0]
    cut = re.sub(rb"(expected D 1 1).*", rb"\1", verdict)
    both = ["run.lines", "run.told"]
    yield "an expected beat that is cut", "explain", Call(both, {"run.lines": lines, "run.told": cut}), "expected D 1 1"
    long = re.sub(rb"(?m)^(A \d \d \d) \d+", rb"\1 12345678901234", lines, count=1)
    number = lines[: re.search(rb"(?m)^A ", lines).start()].count(b"\n") + 1
    for command in ("explain", "wave_of"):
        call = Call([*both, *(["run.vcd"] if command == "wave_of" else [])], {"run.lines": long, "run.told": verdict})
        yield f"a size of 14 digits for {command}", command, call, f"line {number} of the observation"
    alien = re.sub(rb"reply 7 PAYLOAD.*(?= at)", b"axi 8 WLAST", verdict)
    yield "a rule of W for a D beat", "explain", Call(both, {"run.lines": lines, "run.told": alien}), "of this observation"
    packed = bytearray(gzip.compress(inputs.dumps[0]))
    packed[len(packed) // 2 :] = bytes(it ^ 0x55 for it in packed[len(packed) // 2 :])
    yield "a packed dump with other bytes", "waves", Call(["map", "run.vcd"], {"map": inputs.maps[0], "run.vcd": bytes(packed)}), "unpacked"
    wide = inputs.dumps[0].replace(b"$var wire 64 a_data", b"$var wire 6 a_data")
    yield "a signal of other bits than places", "waves", Call(["map", "run.vcd"], {"map": inputs.maps[0], "run.vcd": wide}), "top.a_data"
    yield "a converter that is silent", "waves", Call(["map", "run.fst"], {"map": inputs.maps[0], "run.fst": b"\0"}), "gave nothing of run.fst"
    odd = HAND.replace("flat top.", "flat =1").encode()
    yield "a number for a prefix", "waves", Call(["map", "run.vcd"], {"map": odd, "run.vcd": inputs.dumps[0]}), "line 2: "


def by_hand(inputs: Inputs) -> Iterator[Case]:
    """The inputs by hand: each ends with status 2, and one line that names what is at fault."""
    with tempfile.TemporaryDirectory() as folder:
        before, path = os.getcwd(), os.environ["PATH"]
        os.chdir(folder)
        Path("fst2vcd").write_text("#!/bin/sh\nexec sleep 60\n")
        Path("fst2vcd").chmod(0o755)
        kept, vcd.SILENT, os.environ["PATH"] = vcd.SILENT, 0.2, f"{folder}:{path}"
        for name, command, call, named in refused(inputs):
            for file, data in call.files.items():
                Path(file).write_bytes(data)
            ended = called(command, call.words)
            is_well = ended.status == Status.FAULT and named in ended.said and ended.said.count("\n") == 1
            yield name, None if is_well else f"status {ended.status}; it said {ended.said[-400:]!r}"
        os.chdir(before)
        vcd.SILENT, os.environ["PATH"] = kept, path


def main(given: argparse.Namespace) -> int:
    inputs = Inputs(str(given.tlscore))
    if given.case is not None:
        Path(given.keep).mkdir(parents=True, exist_ok=True)
        os.chdir(given.keep)
        print(*tried(inputs, given.only, given.seed, given.case))
        return 0
    commands = [given.only] if given.only else COMMANDS
    first = itertools.chain(caught(), by_hand(inputs), withdrawn(inputs), explained(inputs, given.seed))
    return told(itertools.chain(first, *(fuzzed(inputs, it, given.seed, given.count) for it in commands)))


if __name__ == "__main__":
    words = asked(__doc__, "tlscore")
    words.add_argument("--count", type=int, default=COUNT, help="how many cases of each command")
    words.add_argument("--seed", type=int, default=SEED)
    words.add_argument("--only", choices=COMMANDS)
    words.add_argument("--case", type=int, help="one case alone, of the command that --only names")
    words.add_argument("--keep", default="out/fuzz", help="the folder in which its files stay")
    sys.exit(main(words.parse_args()))
