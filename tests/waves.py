"""The lines that zuldegei-waves reads from dumps: those that the monitor of examples/testbench/rtl printed in the same run, byte for byte,
from VCD and FST, by each simulator that is installed, of the right bridge and of each fault that is planted in it; of one client, of
names as in rocket-chip, OpenTitan and PULP, and of ports in two clocks (tests/dumps). Then dumps and maps that can't be right, each of
which ends in one line and a status, what is told of ports without a beat and of resets that hold, and unknown digits, as the Verilog
standard prints them. And the fill lines of memory images.

    python3 tests/waves.py TLSCORE [--all]
"""

import gzip
import io
import itertools
import os
import random
import re
import resource
import shutil
import struct
import subprocess
import sys
import threading
import time
from pathlib import Path
from typing import Dict, Iterator, List, NamedTuple, Optional, Tuple

import stored
from ends import TOP, Case, asked, is_there, told_in_a_folder
from package import RTL, command, on_a_terminal, one_line
from simulators import by_icarus, by_verilator, run
from zuldegei.command import Fault
from zuldegei.signal_map import Reader
from zuldegei.vcd import Dump
from zuldegei.waves import observe

DUMPS = TOP / "tests/dumps"
MAP = (RTL / "ports.map").read_text()
ONE_CLIENT = "".join(line for line in MAP.splitlines(True) if not line.startswith(("client 1", "a 1", "d 1")))
LINES = MAP.count("\n")
DESIGN = [str(RTL / name) for name in ("bridge.sv", "client.sv", "fifo.sv", "memory.sv", "monitor.sv", "streaming_bridge.sv")]


class Bench(NamedTuple):
    """A testbench: its top module, its files, and what is defined for it."""

    top: str
    files: List[str]
    defines: List[str] = []


def testbench(bug: str = run.RIGHT, bridge: str = "bridge") -> Bench:
    defines = [f"-DBUG={bug}"] + ([f"-DBRIDGE={bridge}"] if bridge != "bridge" else [])
    return Bench("testbench", [str(RTL / "testbench.sv"), *DESIGN], defines)


def style(top: str) -> Bench:
    return Bench(top, [str(DUMPS / f"{top}.sv"), *DESIGN])


def made(bench: Bench, simulator: str, folder: Path, tracing: Tuple[str, ...] = ("--trace",)) -> List[str]:
    """Makes a testbench with a simulator; gives the words that run it."""
    folder.mkdir(exist_ok=True)
    searched = [f"-I{RTL}", f"-I{DUMPS}", *bench.defines]
    if simulator == "iverilog":
        return by_icarus(folder / bench.top, bench.top, bench.files, *searched)
    return [str(by_verilator(folder, bench.top, bench.files, *tracing, *searched))]


def simulated(runs: List[str], folder: Path, dump: str, *more: str) -> Tuple[str, str]:
    """Runs a testbench, which writes a dump; gives what its monitor printed, and what it said itself."""
    seen = folder / "seen.lines"
    words = [*runs, *(["-fst"] if dump.endswith(".fst") and runs[0] == "vvp" else []), *more, "+seed=3"]
    ran = subprocess.run([*words, f"+observed={seen}", f"+dump={folder / dump}"], capture_output=True, text=True, cwd=folder)
    return seen.read_text(), ran.stdout + ran.stderr


def read(folder: Path, the_map: str, dump: str) -> subprocess.CompletedProcess:
    (folder / "ports.map").write_text(the_map)
    return command("waves", folder / "ports.map", folder / dump)


def same(ran: subprocess.CompletedProcess, wanted: str) -> Optional[str]:
    """How a run of the command didn't print these lines."""
    if ran.returncode:
        return f"status {ran.returncode}; it said {ran.stderr.strip()[-300:]!r}"
    if ran.stdout == wanted:
        return None if wanted.count("\n") > 20 else "the run has hardly a beat"
    lines = zip(ran.stdout.splitlines() + ["(nothing)"], wanted.splitlines() + ["(nothing)"])
    return next((f"line {at} is {got!r}, not {due!r}" for at, (got, due) in enumerate(lines, 1) if got != due), "it ends early")


def timed(lines: str) -> Iterator[Tuple[int, str]]:
    """Each line of an observation with its time."""
    now = 0
    for line in lines.splitlines():
        if line.startswith("time "):
            now = int(line.split()[1])
        else:
            yield now, line


def printed(lines: Iterator[Tuple[int, str]]) -> str:
    """The text of an observation, in which a time stands where it is another than the one before."""
    text, last = [], None
    for now, line in lines:
        text += [f"time {now}\n"] if now != last and not line.startswith("=") else []
        text.append(f"{line}\n")
        last = last if line.startswith("=") else now
    return "".join(text)


def without_client(lines: str, client: int) -> str:
    return printed((now, line) for now, line in timed(lines) if line.split()[:2] not in (["A", str(client)], ["D", str(client)]))


def icarus(folder: Path) -> Iterator[Case]:
    """Each fault by Icarus, and of the right bridge each kind of dump, and resets."""
    for bug in (run.RIGHT, *run.BUGS):
        runs = made(testbench(bug), "iverilog", folder)
        lines, _ = simulated(runs, folder, "run.vcd", "+requests=25")
        yield f"{bug}, VCD", same(read(folder, MAP, "run.vcd"), lines)
        if bug == run.RIGHT:
            yield "one client of two", same(read(folder, ONE_CLIENT, "run.vcd"), without_client(lines, 1))
            packed = folder / "run.vcd.gz"
            packed.write_bytes(gzip.compress((folder / "run.vcd").read_bytes()))
            yield "VCD packed by gzip", same(read(folder, MAP, "run.vcd.gz"), lines)
            yield from hostile(folder, (folder / "run.vcd").read_bytes(), lines)
            yield from commanded(folder, lines)
            lines, _ = simulated(runs, folder, "run.vcd", "+requests=60", "+resets=3")
            why = same(read(folder, MAP, "run.vcd"), lines)
            yield "resets in mid-run", why or (None if lines.count("= reset") == 3 else "the run has other resets")
    runs = made(testbench(bridge="streaming_bridge"), "iverilog", folder)
    lines, _ = simulated(runs, folder, "run.vcd", "+requests=40", "+resets=1")
    yield "the streaming bridge", same(read(folder, MAP.replace("replies whole", ""), "run.vcd"), lines)


def fst(folder: Path) -> Iterator[Case]:
    """FST, as Icarus writes it, of the right bridge and of two faults."""
    for bug in (run.RIGHT, run.BUGS[1], run.BUGS[-1]):
        runs = made(testbench(bug), "iverilog", folder)
        lines, _ = simulated(runs, folder, "run.fst", "+requests=25")
        yield f"{bug}, FST", same(read(folder, MAP, "run.fst"), lines)
    whole = (folder / "run.fst").read_bytes()
    (folder / "cut.fst").write_bytes(whole[: len(whole) // 2])
    yield "an FST that is cut", one_line(read(folder, MAP, "cut.fst"), lines)


def styles(folder: Path) -> Iterator[Case]:
    """Names in the styles of other projects."""
    for top in ("rocket", "opentitan"):
        lines, _ = simulated(made(style(top), "iverilog", folder), folder, "run.vcd")
        yield f"names of {top}", same(read(folder, (DUMPS / f"{top}.map").read_text(), "run.vcd"), lines)
    yield "a reply of OpenTitan's that is denied", None if re.search(r"(?m)^D 0 1 .* 1 0{16} 1$", lines) else "none was"


def two_clocks(folder: Path, simulator: str) -> Case:
    """Ports in two clocks, each with a reset of its own, as the monitor saw them in two runs, once in each clock."""
    runs = made(style("two_clocks"), simulator, folder)
    bus, said = simulated(runs, folder, "run.vcd")
    memory, _ = simulated(runs, folder, "again.vcd", "+axi")
    resets = [int(it) + 3 for it in re.findall(r"reset at (\d+)", said)]
    ran = read(folder, (DUMPS / "two_clocks.map").read_text(), "run.vcd")
    return f"two clocks, each with a reset, by {simulator}", same(ran, merged(bus, memory, resets))


def merged(bus: str, memory: str, resets: List[int]) -> str:
    """What two monitors printed in two clocks, as one: in one time A lines, those of the AXI4 port, and D lines. From the first edge under
    reset in the clock of channels A and D (`resets`) nothing is told of the AXI4 port until it was reset too."""
    parts = [it.split("= reset\n") for it in (bus, memory)]
    lines: List[Tuple[int, str]] = []
    for at, (ours, theirs) in enumerate(zip(*parts)):
        placed = [(now, 0 if line[0] == "A" else 2, (now, line)) for now, line in timed(ours)]
        latest, end = 0, resets[at] if at < len(resets) else sys.maxsize
        for now, line in timed(theirs):
            latest = max(now, latest)  # W lines stand where their AW came
            placed += [(latest, 1, (now, line))] if latest < end else []
        lines += ([(0, "= reset")] if at else []) + [it for _, _, it in sorted(placed, key=lambda it: it[:2])]
    return printed(iter(lines))


def verilator(folder: Path, faults: Tuple[str, ...]) -> Iterator[Case]:
    """Dumps by Verilator: FST of the testbench, and VCD in which structs are scopes; and VCD of these faults."""
    lines, _ = simulated(made(testbench(), "verilator", folder / "fst", ("--trace-fst",)), folder, "run.fst", "+requests=60", "+resets=3")
    yield "the right bridge by Verilator, FST, with resets", same(read(folder, MAP, "run.fst"), lines)
    runs = made(style("opentitan"), "verilator", folder / "structs", ("--trace", "--trace-structs"))
    lines, _ = simulated(runs, folder, "run.vcd")
    yield "structs as scopes by Verilator", same(read(folder, (DUMPS / "opentitan.map").read_text(), "run.vcd"), lines)
    yield two_clocks(folder / "clocks", "verilator")
    for bug in faults:
        runs = made(testbench(bug), "verilator", folder / bug)
        lines, _ = simulated(runs, folder, "run.vcd", "+requests=25")
        yield f"{bug} by Verilator, VCD", same(read(folder, MAP, "run.vcd"), lines)


def in_process(the_map: str, dump: bytes) -> Tuple[str, str]:
    """The lines of a dump, and the fault that ended them or nothing."""
    text: List[str] = []
    try:
        observe(Dump(io.BytesIO(dump)), Reader("ports.map").read(the_map), text.append)
    except Fault as why:
        return "".join(text), str(why)
    return "".join(text), ""


def hostile(folder: Path, dump: bytes, lines: str) -> Iterator[Case]:
    """Dumps that are cut, that have noise in them, or lack what the map names."""
    lot = random.Random(7)
    head = dump.index(b"$enddefinitions")
    places = [*range(0, 400), *(lot.randrange(head) for _ in range(100)), *(lot.randrange(head, len(dump)) for _ in range(60))]
    wrong = [at for at in places if not cut_well(dump, lines, at)]
    yield "a dump that is cut anywhere", f"not when cut at {wrong[:5]}" if wrong else None
    yield "a dump with noise in it", noisy(dump, lines, lot)
    for name, data in (("noise", lot.randbytes(100_000)), ("no byte", b""), ("a packed dump that is cut", gzip.compress(dump)[:9000])):
        (folder / "hostile.vcd").write_bytes(data)
        yield f"{name} for a dump", one_line(read(folder, MAP, "hostile.vcd"), lines)
    (folder / "noise.fst").write_bytes(b"\0" + lot.randbytes(5000))
    if shutil.which("fst2vcd"):
        yield "noise for an FST", one_line(read(folder, MAP, "noise.fst"))
    ran = command("waves", folder / "ports.map", folder / "noise.fst", environment={"PATH": ""})
    yield "an FST without fst2vcd", one_line(ran, named=("fst2vcd", "gtkwave"), status=3)
    for how, status in (("exit 3", 3), ("kill -9 $$", -9)):
        yield f"an fst2vcd that ends by {how}", one_line(given_up(folder, dump, how), lines, ("fst2vcd", f"status {status}"))
    (folder / "hostile.vcd").write_bytes(dump[: dump.index(b"\n#5\n") + 1])
    yield "a clock without an edge", one_line(read(folder, MAP, "hostile.vcd"), named=("testbench.clock", "edge"))
    off = dump.replace(b"\n#500\n", b"\n#500\n$dumpoff\nx!\n$end\n", 1)
    (folder / "hostile.vcd").write_bytes(off)
    late = dump.replace(b"\n#5\n", b"\n$dumpoff\nx!\n$end\n$dumpon\n0!\n$end\n#5\n", 1)
    yield "a dump that is turned on late", None if in_process(MAP, late) == (lines, "") else in_process(MAP, late)[1] or "it has other lines"
    yield "a dump that is turned off", one_line(read(folder, MAP, "hostile.vcd"), lines, ("off from 500",))


def given_up(folder: Path, dump: bytes, how: str) -> subprocess.CompletedProcess:
    """What is said of an FST of which fst2vcd gives a whole dump, and then ends as it shouldn't."""
    (folder / "whole.vcd").write_bytes(dump)
    (folder / "fst2vcd").write_text(f"#!/bin/sh\ncat '{folder / 'whole.vcd'}'\n{how}\n")
    (folder / "fst2vcd").chmod(0o755)
    return command("waves", folder / "ports.map", folder / "noise.fst", environment={"PATH": f"{folder}:{os.environ['PATH']}"})


def cut_well(dump: bytes, lines: str, at: int) -> bool:
    """Whether a dump that is cut gives the first of its lines, and a fault where it ends in the head or in the midst of a line."""
    got, why = in_process(MAP, dump[:at])
    is_whole = at > dump.index(b"$enddefinitions $end\n") + 20 and dump[at - 1 : at] == b"\n"
    return lines.startswith(got) and (is_whole or bool(why))


def noisy(dump: bytes, lines: str, lot: random.Random) -> Optional[str]:
    """Whether bytes by lot in a dump are told, or do no harm, as in signals that the map doesn't name."""
    told_of, harmed = 0, []
    for _ in range(60):
        data, at = bytearray(dump), lot.randrange(len(dump) - 50)
        data[at : at + 40] = lot.randbytes(40)
        got, why = in_process(MAP, bytes(data))
        told_of += bool(why)
        harmed += [] if why or got == lines else [at]
    return f"not at {harmed[:5]}" if harmed else None if told_of > 20 else f"{told_of} of 60 were told"


def commanded(folder: Path, lines: str) -> Iterator[Case]:
    """Maps at fault, and the command's words, on the dump of a right run."""
    faults = (
        ("a signal that isn't there", MAP.replace("axi flat testbench.", "axi flat testbench.m_"), ("m_aw_valid", "testbench.aw_valid")),
        ("a clock that isn't there", MAP.replace("testbench.clock", "testbench.clk"), ("testbench.clk", "testbench.clock")),
        ("a field that nothing names", MAP.replace("b ready =1\n", "b ready testbench.b_redy\n"), ("b_redy", "testbench.w_ready")),
        ("a port of 128 bits", f"{MAP}a 0 data testbench.a_data\n", ("testbench.a_data has 128 bits",)),
        ("a port of 128 lanes", f"{MAP}w strb testbench.a_mask\n", ("testbench.a_mask has 16 bits",)),
        ("a slice out of range", f"{MAP}w strb testbench.w_strb[8:1]\n", ("testbench.w_strb[8:1]",)),
        ("parts that don't fit", MAP.replace("part 0 of 2", "part 0 of 3"), ("parts",)),
        ("a path of several signals", MAP.replace("testbench.clock", "a_valid"), ("several signals",)),
        ("a word that no line begins with", f"{MAP}clok testbench.clock\n", (f"line {LINES + 1}", "clok")),
        ("a style that isn't there", MAP.replace("axi flat", "axi fat"), ("axi fat",)),
        ("a port ahead of its clock", f"client 3 flat testbench.\n{MAP}", ("line 1",)),
        ("a field that isn't there", f"{MAP}aw qos =0\n", (f"line {LINES + 1}", "aw qos")),
        ("a ready map that isn't there", f"{MAP}use rocket testbench\n", ("rocket-chip", "opentitan", "pulp")),
        ("a map of nothing", "# nothing\n", ("names no port",)),
    )
    for name, the_map, named in faults:
        yield name, one_line(read(folder, the_map, "run.vcd"), named=named)
    (folder / "ports.map").write_text(MAP)
    setup = RTL / "setup.lines"
    ran = command("waves", folder / "ports.map", folder / "run.vcd", "--setup", setup, "--end")
    yield "a set-up and an end", same(ran, f"{setup.read_text()}{lines}= end\n")
    yield "a dump that isn't there", one_line(command("waves", folder / "ports.map", folder / "none.vcd"), named=("none.vcd",), status=3)
    ran = command("waves", folder / "ports.map")
    yield "a word too few", one_line(ran, named=("--help",), status=6)
    ran = command("waves", "--help")
    yield "the help", None if ran.returncode == 0 and all(it in ran.stdout for it in ("renumber", "chisel", "opentitan")) else ran.stderr
    yield "progress on a terminal", progress(folder)


def progress(folder: Path) -> Optional[str]:
    """Whether a terminal is told how far a dump is read, that comes through a pipe with a rest in between."""
    pipe = folder / "pipe.vcd"
    os.mkfifo(pipe)
    feeder = threading.Thread(target=fed, args=(pipe, (folder / "run.vcd").read_bytes()))
    feeder.start()
    status, said = on_a_terminal("waves", folder / "ports.map", pipe)
    feeder.join()
    return None if re.search(rb"\d MB, [\d.]+ MB/s, [\d,]+ beats", said) and status == 0 else repr(said[-200:])


def fed(pipe: Path, data: bytes) -> None:
    """Writes to a pipe half at once, and the rest after a second."""
    with pipe.open("wb") as stream:
        stream.write(data[: len(data) // 2])
        stream.flush()
        time.sleep(1)
        stream.write(data[len(data) // 2 :])


# A dump by hand: a client's port and an AXI4 port, in each of two forms, with digits that nobody knows.
WIDTHS = {"opcode": 3, "param": 3, "size": 4, "source": 4, "address": 32, "mask": 8, "data": 64, "corrupt": 1, "denied": 1, "id": 4}
HAND = """clock top.clock
client 0 flat top.
axi amba top.m_axi_
"""


class Hand:
    """A dump by hand, one beat in each clock."""

    def __init__(self, is_by_bit: bool = False):
        self.is_by_bit, self.names, self.body, self.time = is_by_bit, {}, [], 0
        self.declared = ["$timescale 1ns $end", "$scope module top $end", "$var wire 1 clock clock $end"]

    def signal(self, name: str, width: int) -> None:
        """Declares a signal, whole or bit by bit, as some simulators dump vectors."""
        self.names[name] = width
        if self.is_by_bit and width > 1:
            self.declared += [f"$var wire 1 {name}.{at} {name} [{at}] $end" for at in range(width)]
        else:
            span = f"{name} [{width - 1}:0]" if width > 1 else name
            self.declared.append(f"$var wire {width} {name} {span} $end")

    def change(self, name: str, digits: str) -> None:
        width = self.names[name]
        if self.is_by_bit and width > 1:
            filled = digits.rjust(width, "0" if digits[0] == "1" else digits[0])
            self.body += [f"{digit}{name}.{width - 1 - at}" for at, digit in enumerate(filled)]
        else:
            self.body.append(f"b{digits} {name}" if width > 1 else f"{digits}{name}")

    def clock(self, values: Dict[str, str]) -> None:
        """A clock in which these values stand, and all signals of `valid` that aren't named are low."""
        self.body += [f"#{self.time}", "0clock"]
        for name in self.names:
            if "valid" in name or "ready" in name:
                self.change(name, values.get(name, "0" if "valid" in name else "1"))
        for name, digits in values.items():
            self.change(name, digits)
        self.body += [f"#{self.time + 5}", "1clock"]
        self.time += 10

    def text(self) -> bytes:
        return "\n".join([*self.declared, "$upscope $end", "$enddefinitions $end", *self.body, ""]).encode()


FIELDS_A = ("opcode", "param", "size", "source", "address", "mask", "data", "corrupt")
AXI_WIDTHS = {"awid": 4, "awaddr": 32, "awlen": 8, "awsize": 3, "wdata": 64, "wstrb": 8, "wlast": 1, "bid": 4, "bresp": 2}
AXI_WIDTHS.update(arid=4, araddr=32, arlen=8, arsize=3, rid=4, rdata=64, rresp=2, rlast=1)


def hand(is_by_bit: bool) -> Hand:
    made_by_hand = Hand(is_by_bit)
    for channel, names in (("a", FIELDS_A), ("d", ("opcode", "size", "source", "denied", "data", "corrupt"))):
        for name in ("valid", "ready", *names):
            made_by_hand.signal(f"{channel}_{name}", WIDTHS.get(name, 1))
    for channel in ("aw", "w", "b", "ar", "r"):
        for name in ("valid", "ready"):
            made_by_hand.signal(f"m_axi_{channel}{name}", 1)
    for name, width in AXI_WIDTHS.items():
        made_by_hand.signal(f"m_axi_{name}", width)
    return made_by_hand


def a_beat(**fields: str) -> Dict[str, str]:
    plain = dict(opcode="0", param="0", size="11", source="101", address="1000", mask="11111111", data="1", corrupt="0")
    return {"a_valid": "1", **{f"a_{name}": digits for name, digits in {**plain, **fields}.items()}}


# Each clock of the dump by hand, and the lines that are due: digits as IEEE 1800 has them for %h and %d, in capitals where only some of
# the bits of a digit aren't known; and zeros in lanes that tell nothing.
UNKNOWN = (
    (a_beat(), "A 0 0 0 3 5 00000008 ff 0000000000000001 0"),
    (a_beat(data="x"), "A 0 0 0 3 5 00000008 ff xxxxxxxxxxxxxxxx 0"),
    (a_beat(data="z0001111"), "A 0 0 0 3 5 00000008 ff zzzzzzzzzzzzzzZf 0"),
    (a_beat(data="1x01zzzz"), "A 0 0 0 3 5 00000008 ff 00000000000000Xz 0"),
    (a_beat(data="x00000001", mask="1"), "A 0 0 0 3 5 00000008 01 0000000000000001 0"),
    (a_beat(opcode="100", data="x"), "A 0 4 0 3 5 00000008 ff 0000000000000000 0"),
    (a_beat(size="x", source="1x"), "A 0 0 0 x X 00000008 ff 0000000000000001 0"),
    (a_beat(address="x0000", corrupt="x"), "A 0 0 0 3 5 xxxxxxx0 ff 0000000000000001 x"),
    (a_beat(data="0hl1HL"), "A 0 0 0 3 5 00000008 ff 0000000000000016 0"),  # by the nine values of VHDL: weak ones are known
    (a_beat(data="0u0U0w0W"), "A 0 0 0 3 5 00000008 ff 00000000000000XX 0"),
    (a_beat(data="0-000001"), "A 0 0 0 3 5 00000008 ff 00000000000000X1 0"),
    (a_beat(source="zzzz", mask="z"), "A 0 0 0 3 z 00000008 zz 0000000000000001 0"),
    ({"a_valid": "x"}, None),
    ({**a_beat(), "a_ready": "0"}, None),
)


def by_hand() -> Iterator[Case]:
    """Unknown digits, in signals that are dumped whole and bit by bit."""
    for is_by_bit in (False, True):
        dump = hand(is_by_bit)
        for values, _ in UNKNOWN:
            dump.clock(values)
        got, why = in_process(HAND, dump.text())
        wanted = printed((10 * at + 5, line) for at, (_, line) in enumerate(UNKNOWN) if line)
        form = "bit by bit" if is_by_bit else "whole"
        yield f"unknown digits, vectors {form}", why or (None if got == wanted else f"{got!r}, not {wanted!r}")
    yield from refused_by_hand()
    yield from reset_by_hand()


def refused_by_hand() -> Iterator[Case]:
    """What can be seen at a beat alone: a burst on 32 bits, and an address of too many bits; and IDs with other numbers."""
    dump = hand(False)
    dump.signal("wide", 40)
    dump.signal("narrow", 32)
    dump.signal("lanes", 4)
    dump.clock({**a_beat(size="10", address="1100"), "wide": "1" + "0" * 36, "narrow": "1", "lanes": "1111"})
    narrow = f"{HAND}a 0 data top.narrow\na 0 mask top.lanes\n"
    got, why = in_process(narrow, dump.text())
    yield "a word of 32 bits in the upper half", why or (None if got == "time 5\nA 0 0 0 2 5 0000000c f0 0000000100000000 0\n" else got)
    yield "a burst on 32 bits", refusal(in_process(narrow, dump.text().replace(b"b10 a_size", b"b11 a_size")), "32 bits")
    yield "an address of 40 bits", refusal(in_process(f"{HAND}a 0 address top.wide\n", dump.text()), "more than 32 bits")
    got, why = in_process(f"{HAND}a 0 address top.wide[31:0]\nrenumber source 0 5 17\n", dump.text())
    yield "a slice, and another number", why or (None if got.startswith("time 5\nA 0 0 0 2 17 00000000 ") else got)
    yield from six_bits()
    dump.signal("clocks", 2)
    body = dump.text().replace(b"1clock", b"1clock\nb10 clocks").replace(b"0clock", b"0clock\nb1 clocks")
    got, why = in_process(HAND.replace("top.clock", "top.clocks[1]"), body)
    yield "a clock in a vector", why or (None if got.startswith("time 5\nA 0 ") else got)
    yield "a clock of two bits", refusal(in_process(HAND.replace("top.clock", "top.clocks"), body), "2 bits")
    dump = hand(False)
    dump.clock({"m_axi_bvalid": "1", "m_axi_bid": "1001", "m_axi_bresp": "10"})
    dump.clock({"m_axi_rvalid": "1", "m_axi_rid": "1", "m_axi_rdata": "x", "m_axi_rresp": "xx", "m_axi_rlast": "1"})
    got, why = in_process(f"{HAND}renumber id 9 2\n", dump.text())
    wanted = "time 5\nB 2 SLVERR\ntime 15\nR 1 xxxxxxxxxxxxxxxx x 1\n"
    yield "another number for an ID", why or (None if got == wanted else got)


def six_bits() -> Iterator[Case]:
    """An address of six bits, which four doesn't divide, and of which some aren't known."""
    for bits, digits in (("1x0001", "X1"), ("xx0101", "x5"), ("1100x1", "3X")):
        dump = hand(False)
        dump.signal("six", 6)
        dump.clock({**a_beat(), "six": bits})
        got, why = in_process(f"{HAND}a 0 address top.six\n", dump.text())
        yield f"an address of the bits {bits}", why or (None if got == f"time 5\nA 0 0 0 3 5 000000{digits} ff 0000000000000001 0\n" else got)


SENT = {"m_axi_awvalid": "1", "m_axi_awid": "1", "m_axi_awaddr": "1000", "m_axi_awlen": "0", "m_axi_awsize": "11"}
DATA, NEXT_DATA = ({"m_axi_wvalid": "1", "m_axi_wdata": it, "m_axi_wstrb": "11111111", "m_axi_wlast": "1"} for it in ("1", "10"))
AW_LINE, W_LINE = "AW 1 00000008 0 3 1\n", "W 000000000000000{} ff 1\n"
# What a reset takes away: of each clock what stands there, and the lines that are due.
OVER = (
    ("data ahead of their address", (DATA, {"reset": "1"}, SENT, NEXT_DATA), f"= reset\ntime 25\n{AW_LINE}time 35\n{W_LINE.format(2)}"),
    ("an address without its data", (SENT, {"reset": "1"}, DATA, SENT, NEXT_DATA, SENT),
        f"time 5\n{AW_LINE}= reset\ntime 35\n{AW_LINE}time 25\n{W_LINE.format(1)}time 55\n{AW_LINE}time 45\n{W_LINE.format(2)}"),
)  # fmt: skip


def reset_by_hand() -> Iterator[Case]:
    """Writes that are under way at a reset."""
    for name, clocks, wanted in OVER:
        dump = hand(False)
        dump.signal("reset", 1)
        for values in clocks:
            dump.clock({"reset": "0", **values})
        got, why = in_process(RESET.format(""), dump.text())
        yield f"a reset behind {name}", why or (None if got == wanted else f"{got!r}, not {wanted!r}")


TWO_RESETS = "clock top.clock\nreset top.a\nclient 0 flat top.\nclock top.clock\nreset top.b\naxi flat top.\n"
BEYOND = ("client -1 flat top.", "client 8 flat top.", "a 8 corrupt =0", "d -1 denied =0", "renumber source 8 1 2", "use rocket-chip top 8")
ONCE = (TWO_RESETS, "use opentitan top\nuse pulp top\n", f"{HAND}client 7 flat top.\n", "use opentitan top\nd 0 denied =0\n",
        f"{HAND}clock top.clock falling\nclient 1 flat top.\n")


def said_twice() -> Iterator[Case]:
    """Maps in which a second line stands for one thing, and those with a client that no bridge has; and such as have neither."""
    behind_an_empty_line = stored.Block("a field", f"{HAND}a 0 corrupt =0\n\na 0 corrupt =1", "line 6; corrupt of a of client 0; line 4")
    for it in (*stored.blocks(TOP / "tests/commands/maps/twice.blocks"), behind_an_empty_line):
        _, said = in_process(f"{it.given}\n", hand(False).text())
        yield f"{it.name} twice", None if all(part in said for part in it.due.split("; ")) and said.startswith("the map") else f"it said {said!r}"
    for line in BEYOND:
        yield line, refusal(in_process(f"{HAND.replace('client 0', 'client 1')}{line}\n", hand(False).text()), "clients are 0 to 7")
    for the_map in ONCE:
        try:
            Reader("ports.map").read(the_map)
            yield f"{the_map!r}", None
        except Fault as why:
            yield f"{the_map!r}", str(why)


COUNTED = ({**a_beat(), "m_axi_arvalid": "1", "m_axi_arid": "1"}, {**a_beat(), "m_axi_arvalid": "1"}, {"d_valid": "1", "d_opcode": "0"})
RESET, NO_R = HAND.replace("\n", "\nreset top.reset{}\n", 1), "no beat passed on R of AXI4: its valid"
# What the command says of a dump by hand on standard error, behind its name: of each clock, the map, and whole lines or parts of them.
COUNTS = (
    ("each port has beats", COUNTED, HAND, ("beats: client 0 A 2, D 1; AXI4 AW 0, W 0, B 0, AR 2, R 0", NO_R)),
    ("a port without a beat", COUNTED[2:], HAND,
        ("client 0 A 0, D 1;", "on A of client 0: its valid top.a_valid was high at no edge of top.clock", "at AXI4")),
    ("a ready that is never high", ({**a_beat(), "a_ready": "0"},) * 3, HAND,
        ("no beat passed at client 0: its valid top.a_valid was high at 3 edges of top.clock, and its ready top.a_ready at none",)),
    ("a reset with the wrong polarity", COUNTED, RESET.format(""), ("reset top.reset held", "all 3 edges", "write `low`")),
    ("a reset with `low` too many", COUNTED, RESET.format(" low").replace("reset low", "none low"),
        ("reset top.none held", "all 3 edges", "leave out the word `low`")),
    ("a reset with the wrong polarity, of a bench that begins in reset", ({"reset": "0"}, *COUNTED), RESET.format(""),
        ("beats: client 0 A 0, D 0;", "reset top.reset held", "3 of 4 edges", "write `low`")),
    ("a reset that is right", COUNTED, RESET.format(" low"), ("beats: client 0 A 2, D 1;", NO_R)),
)  # fmt: skip


def counts_told(folder: Path) -> Iterator[Case]:
    """How many beats each port had, on standard error, and what to look at where it had none."""
    for name, clocks, the_map, named in COUNTS:
        dump = hand(False)
        dump.signal("reset", 1)
        dump.signal("none", 1)
        for values in clocks:
            dump.clock({"reset": "1", "none": "0", **values})
        (folder / "counts.vcd").write_bytes(dump.text())
        ran = read(folder, the_map, "counts.vcd")
        lines = ran.stderr.splitlines()[1:] if "not in the dump" in ran.stderr else ran.stderr.splitlines()
        is_told = all(it in ran.stderr for it in named) and len(lines) <= 4 and all(it.startswith("zuldegei-waves: ") for it in lines)
        is_quiet = ("held" in ran.stderr) == ("held" in "".join(named))
        yield f"counts where {name}", None if ran.returncode == 0 and is_told and is_quiet else ran.stderr


def shown_maps() -> Iterator[Case]:
    """The maps that python/README.md shows, line by line."""
    page = (TOP / "python/README.md").read_text()
    found = re.findall(r"(?m)^(?:    (?:use|clock|reset|client|axi|renumber|a|d|aw) .*\n)+", page)
    for number, text in enumerate(found, 1):
        try:
            Reader("README.md").read(text)
            yield f"map {number} of the page", None
        except Fault as why:
            yield f"map {number} of the page", str(why)
    yield "the maps of the page", None if len(found) == 2 else f"it has {len(found)}"


def refusal(ended: Tuple[str, str], named: str) -> Optional[str]:
    return None if named in ended[1] and not ended[0] else f"it said {ended[1]!r} behind {ended[0]!r}"


def filled(ran: subprocess.CompletedProcess) -> Dict[int, int]:
    """The bytes of fill lines, each of which has 32 at the most."""
    lines = [line.split() for line in ran.stdout.splitlines()]
    assert all(line[0] == "fill" and len(line) <= 34 for line in lines), ran.stdout
    return {int(line[1], 16) + at: int(byte, 16) for line in lines for at, byte in enumerate(line[2:])}


def images(folder: Path, score: str) -> Iterator[Case]:
    """The fill lines of each kind of image."""
    shutil.copytree(TOP / "tests/images", folder, dirs_exist_ok=True)
    if shutil.which("iverilog"):
        ran = subprocess.run(by_icarus(folder / "reads", "top", [folder / "reads.sv"]), capture_output=True, text=True, cwd=folder)
        wanted = {0x10000 + int(line.split()[0], 16): int(line.split()[1], 16) for line in ran.stdout.splitlines() if " " in line[4:5]}
        got = filled(command("fill", folder / "words.hex", "--at", "10000"))
        yield "what $readmemh reads, as Icarus does", None if got == wanted and len(got) > 40 else f"{got}, not {wanted}"
    if is_there("the image of an ELF", "objcopy"):
        yield "an ELF, as objcopy has it", elf(folder)
    yield from elves(folder)
    data = random.Random(3).randbytes(100)
    (folder / "image.bin").write_bytes(data)
    ran = command("fill", folder / "image.bin", "--format", "binary", "--at", "10ff0")
    yield "a binary", None if filled(ran) == {0x10FF0 + at: byte for at, byte in enumerate(data)} else ran.stdout + ran.stderr
    yield from judged_behind(ran.stdout, data, score)
    (folder / "words.hex").write_text("11223344556677889")
    yield "a word that is too long", one_line(command("fill", folder / "words.hex", "--width", "8"), named=("11223344556677889",))
    ran = command("fill", folder / "image.bin", "--format", "binary", "--at", "fffffff0")
    yield "an address of more than 32 bits", one_line(ran, ran.stdout, ("32 bits",))
    (folder / "image.bin").write_bytes(bytes(32))
    ran = command("fill", folder / "image.bin", "--format", "binary", "--at", "ffffffe0")
    yield "the last bytes of 32 bits", None if (ran.returncode, ran.stdout) == (0, f"fill ffffffe0{' 00' * 32}\n") else ran.stderr
    ran = command("fill", folder / "image.bin", "--format", "binary", "--at", "ffffffe1")
    yield "a byte behind them", one_line(ran, named=("32 bits",))
    os.truncate(folder / "image.bin", 64 << 20)  # of 512 MB as a list
    bounded = lambda: resource.setrlimit(resource.RLIMIT_AS, (300 << 20, 300 << 20))  # noqa: E731
    ran = command("fill", folder / "image.bin", "--format", "binary", preexec_fn=bounded)
    yield "an image that memory has no room for", one_line(ran, named=("out of memory",), status=4)


def elf(folder: Path) -> Optional[str]:
    """An ELF's fill lines, and whether one that is cut is refused."""
    linked = ["-nostdlib", "-static", "-Wl,-Ttext=0x80000000", "-Wl,--build-id=none", "-Wl,-z,noseparate-code", "-fno-pie", "-no-pie"]
    subprocess.run(["cc", *linked, "-o", "image.elf", "image.c"], cwd=folder, check=True, capture_output=True)
    subprocess.run(["objcopy", "-O", "binary", "image.elf", "image.bin"], cwd=folder, check=True)
    got, image = filled(command("fill", folder / "image.elf")), (folder / "image.bin").read_bytes()
    places = [at for at in got if bytes(got.get(at + k, 0) for k in range(len(image))) == image]
    with_zeros = filled(command("fill", folder / "image.elf", "--zeros"))
    if not places or len(with_zeros) < len(got) + 80:
        return f"{len(got)} bytes, of which none begins the image of {len(image)}, or {len(with_zeros)} with zeros"
    (folder / "cut.elf").write_bytes((folder / "image.elf").read_bytes()[:100])
    ran = command("fill", folder / "cut.elf")
    return one_line(ran, ran.stdout, ("ELF",))


def elf_of(bits: int, order: str) -> bytes:
    """An ELF as the System V ABI has it: four bytes for the virtual address 400000 and the physical 1000, of eight in memory."""
    form, head, program = {32: ("HHIIIIIHHHHHH", 52, 32), 64: ("HHIQQQIHHHHHH", 64, 56)}[bits]
    data, kind = head + program, b"\x7fELF" + bytes([bits // 32, "<>".index(order) + 1, 1]) + bytes(9)
    heads = kind + struct.pack(order + form, 2, 0, 1, 0, head, 0, 0, head, program, 1, 0, 0, 0)
    if bits == 32:
        return heads + struct.pack(f"{order}8I", 1, data, 0x400000, 0x1000, 4, 8, 4, 4) + bytes([1, 2, 3, 4])
    return heads + struct.pack(f"{order}2I6Q", 1, 4, data, 0x400000, 0x1000, 4, 8, 4) + bytes([1, 2, 3, 4])


def elves(folder: Path) -> Iterator[Case]:
    """The fill lines of ELFs by hand, of 32 and 64 bits and of each order of bytes, by each word that says which."""
    begin, zeros = "01 02 03 04", "00 00 00 00"
    due = {"": f"fill 1000 {begin}\n", "--virtual": f"fill 400000 {begin}\n", "--zeros": f"fill 1000 {begin}\nfill 1004 {zeros}\n"}
    for bits, order in itertools.product((32, 64), "<>"):
        (folder / "hand.elf").write_bytes(elf_of(bits, order))
        for word, lines in due.items():
            ran = command("fill", folder / "hand.elf", *filter(None, [word]))
            yield f"an ELF of {bits} bits, {order}, {word}", None if (ran.returncode, ran.stdout) == (0, lines) else ran.stdout + ran.stderr


def judged_behind(lines: str, data: bytes, score: str) -> Iterator[Case]:
    """What the scoreboard says of a Get of bytes that fill lines tell, where pages begin with nobody knows what."""
    word = int.from_bytes(data[0x18:0x20], "little")
    for name, told_word, status in (("right", word, 0), ("wrong", word ^ 1, 1)):
        text = f"config 2 4 16 2 16 12 hh\nregion 0 4 10 gpah\npage 10 4 any\n{lines}"
        text += f"A 1 4 0 3 7 00001008 ff 0 0\nD 1 1 0 3 7 0 {told_word:016x} 0\n"
        ran = subprocess.run([score], input=text, capture_output=True, text=True)
        is_well = ran.returncode == status and "compared 8 of 8" in ran.stdout
        yield f"a Get of what was filled, {name}", None if is_well else f"status {ran.returncode}, {ran.stdout}{ran.stderr}"


def cases(folder: Path, score: str, faults: Tuple[str, ...]) -> Iterator[Case]:
    yield from by_hand()
    yield from said_twice()
    yield from counts_told(folder)
    yield from shown_maps()
    yield from images(folder, score)
    if is_there("dumps by Icarus", "iverilog"):
        yield from icarus(folder)
        yield from styles(folder)
        yield two_clocks(folder, "iverilog")
        if is_there("FST", "fst2vcd"):
            yield from fst(folder)
    if is_there("dumps by Verilator", "verilator", "fst2vcd"):
        yield from verilator(folder, faults)


if __name__ == "__main__":
    words = asked(__doc__, "tlscore")
    words.add_argument("--all", action="store_true", help="also each fault by Verilator, which takes long to build each")
    given = words.parse_args()
    sys.exit(told_in_a_folder(cases, given.tlscore, run.BUGS if given.all else ()))
