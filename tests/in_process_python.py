"""The class Scoreboard of the package in python/, for tests/in_process.py: what its calls find and refuse, and that each stored row of
examples/scoreboard is told by it as by tlscore; and the client of that package, by its old name too."""

import os
import re
import subprocess
import sys
import threading
import types
from pathlib import Path
from typing import Callable, Iterator, List

import stored
from ends import TOP, Case, unlike

sys.path.insert(0, str(TOP / "python"))

import zuldegei  # noqa: E402
from zuldegei import Channel, Error, Judged, Response, Scoreboard, ScoreboardError, scoreboard  # noqa: E402
from zuldegei.client import Interactive  # noqa: E402

SETUP = "config 2 4 16 2 16 12 hh\nregion 0 4 10 gpah\npage 10 4 good\n"
DATA, PUT = 0x1122334455667788, {"opcode": 0, "size": 3, "source": 5, "address": 8, "mask": 0xFF}
GET = {"opcode": 4, "size": 3, "source": 7, "address": 8, "mask": 0xFF}
SETUP_WORDS = ("config", "region", "page", "bad", "profile", "axi", "errors", "x")


def refused(library: object) -> Iterator[Case]:
    for it in stored.blocks(TOP / "tests/calls/scoreboard.calls"):
        with Scoreboard(SETUP, library) as board:
            why = it.refused({**globals(), "board": board, "library": library}, ScoreboardError, Error)
            yield it.name, why or unlike(board.counts(), Judged(0, 0, 0, 0, 0, 0))
    board.close()
    try:
        yield "a board that was closed", f"it gave {board.reset()!r}"
    except ScoreboardError as why:
        yield "a board that was closed", unlike((why.status, str(why)), (Error.NULL, "the board was closed"))


def fillings(library: object) -> Iterator[Case]:
    """A filling that can't be whole fills nothing: one that leaves its pages at their end, one over a gap, and one over the last address.
    What lies on pages of both kinds that can be filled is, to its last byte."""
    setup = SETUP + "page 20 1 any\npage 21 1 slverr\npage fffff 1 good\n"
    for name, first, length in (("its page", 0x20000 - 9000 % 4096, 9000), ("good pages", 0x13000, 9000), ("pages of any", 0x20000, 9000),
                                ("all addresses", 0xFFFFFF00, 9000)):  # fmt: skip
        with Scoreboard(setup, library) as board:
            places = range(first, min(first + 4096, 2**32), 32)
            before = [board.byte(at) for at in places]
            try:
                why = f"it gave {board.fill(first, bytes([7]) * length)!r}"
            except ScoreboardError as got:
                why = unlike(got.status, Error.WORD - 2)
            yield f"a filling that leaves {name}", why or unlike([board.byte(at) for at in places], before)
    with Scoreboard(setup, library) as board:
        board.fill(0x10000, bytes([7]) * 0x4000)
        board.fill(0x20000, [8] * 4096)
        board.fill(0x13FFF, b"")
        filled = [board.byte(at) for at in (0x10000, 0x13FFF, 0x20000, 0x20FFF, 0xFFFFF000)]
        yield "whole pages that are filled", unlike(filled, [7, 7, 8, 8, 0])


def found(library: object) -> Iterator[Case]:
    """What calls find: the example of docs/SCOREBOARD.md, with times, and beats that nobody knows."""
    with Scoreboard(SETUP, library) as board:
        board.fill(0x10010, bytes(range(1, 71)))
        yield "a long filling", unlike([board.byte(0x10010 + at) for at in (0, 31, 32, 69, 70)], [1, 32, 33, 70, 0])
        calls: List[Callable[[], zuldegei.Found]] = [
            lambda: board.a(0, **PUT, data=DATA), lambda: board.aw(0, 0x10008, 0, 3), lambda: board.w(DATA, 0xFF, True),
            lambda: board.b(0), lambda: board.d(0, opcode=0, size=3, source=5), lambda: board.a(1, **GET),
            lambda: board.ar(3, 0x10008, 0, 3), lambda: board.r(3, DATA, 1, Response.OKAY), lambda: board.time(40.0),
            lambda: board.time(2**64 - 1),
        ]  # fmt: skip
        yield "right beats", unlike([call() for call in calls], [(0, "")] * len(calls))
        wrong = board.d(1, opcode=1, size=3, source=7, data=DATA + 1)
        text = f"= wrong 17 reply 7 PAYLOAD expected D 1 1 0 3 7 0 {DATA:016x} 0 at {2**64 - 1}\n"
        yield "a wrong byte", unlike((wrong, bool(wrong), wrong.port, wrong.rule), ((207, text), True, "reply", 7))
        only = wrong.wrong[0]
        yield "what is told of it", unlike((only.line, only.name, only.due, only.time), (17, "PAYLOAD", f"D 1 1 0 3 7 0 {DATA:016x} 0", 2**64 - 1))
        no_client, unclear = board.unknown(Channel.D, 2), board.unknown(Channel.R)
        yield "no client, and an x", unlike((no_client.port, no_client.rule, unclear.port, unclear.rule), ("client", 0, "axi", 13))
        yield "bytes", unlike((board.byte(0x10008), board.byte(0x10007), board.byte(0)), (0x88, 0, None))
        yield "counts", unlike(board.counts(), Judged(11, 3, 0, 0, 8, 8))
    yield "bits as a simulator writes them", unlike(scoreboard.known("0" * 40 + "1x000000" + "z" * 8 + "00000011"), (0x800003, 0b110))


def is_setup(words: List[str]) -> bool:
    """Whether a line may stand ahead of the first that is judged."""
    if not words or words[0].startswith("#") or words[0] in SETUP_WORDS:
        return True
    return words[0] == "=" and words[1:2] not in (["reset"], ["end"], ["drained"])


def rows(library: object) -> Iterator[Case]:
    """Each stored row that has no fault, line by line."""
    for row in sorted(TOP.glob("examples/scoreboard/*.in")):
        wanted, lines = row.with_suffix(".out").read_text(), row.read_text().splitlines()
        if "= judged" not in wanted:
            continue
        end = next((at for at, it in enumerate(lines) if not is_setup(it.split())), len(lines))
        with Scoreboard("".join(f"{it}\n" for it in lines[:end]), library) as board:
            text = "".join(board.line(it).text or board._text("text") for it in [*lines[end:], "= more"])
            it = board.counts()
        text += f"= judged {it.beats} wrong {it.wrong} outstanding {it.outstanding} open {it.open} compared {it.compared} of {it.told}\n"
        yield f"{row.stem} in Python", unlike(text, wanted)


def threads(library: object) -> Iterator[Case]:
    """Boards in threads beside each other."""
    counts: List[Judged] = []

    def judges() -> None:
        with Scoreboard(SETUP, library) as board:
            for at in range(2000):
                board.a(0, **{**PUT, "source": at % 256, "address": at % 512 * 8}, data=at)
                board.d(0, opcode=0, size=3, source=at % 256, denied=at % 4 == 0)
            counts.append(board.counts())

    started = [threading.Thread(target=judges) for _ in range(4)]
    for it in started:
        it.start()
    for it in started:
        it.join()
    yield "boards in threads", unlike(counts, [Judged(4000, 500, 0, 0, 0, 0)] * 4)


def raised(call: Callable[[], object]) -> str:
    """What a call raises, by its kind and its text."""
    try:
        return f"it gave {call()!r}"
    except Exception as why:
        return f"{type(why).__name__}: {why}"


def lines_of_client() -> Iterator[Case]:
    """The client takes one line at a time. `cat` answers what it is given, whatever that is."""
    for name, line in (("two lines", "mem 10000\nmem 10001"), ("a line feed ahead", "\npump"), ("two line feeds", "pump\n\n"), ("bytes", b"pump")):
        with Interactive(["cat"], seconds=20) as other:
            got = raised(lambda line=line, other=other: other.send(line))
            yield f"the client is given {name}", unlike(got, f"ValueError: {line!r} isn't one line of a script") or unlike(other.script, [])
    with Interactive(["sed", "-u", "s/.*/= work 4/"], seconds=20) as other:
        yield "the client is given a line with its line feed", unlike((other.send("work\n"), other.script, other.trace), (4, ["work"], ["= work 4"]))


def others_of_client() -> Iterator[Case]:
    """Programs that aren't `tlbridge run`: one that says what it is given, one that says nothing, one that ends."""
    setup = "2 4 16 2 16 12 hh"
    for name, words, seconds, due in (
        ("says what it is given", ["cat"], 20, f"OtherAnswer: a set-up and `work` were answered by 'config {setup}', as no `tlbridge run` does"),
        ("says nothing", ["sleep", "20"], 0.2, f"TimeoutError: no answer to 'config {setup}' within 0.2 seconds"),
        ("ends", ["sh", "-c", "read line; echo gone >&2; exit 3"], 20, "Ended: gone (status 3)"),
    ):
        other = Interactive(words, seconds=seconds)
        yield f"a set-up of a program that {name}", unlike(raised(lambda other=other: other.setup(setup)), due)
        other.program.kill()
        other.close()
    with Interactive(["cat"], seconds=20) as other:
        yield "a step of a program that says what it is given", unlike(raised(other.pump), "OtherAnswer: 'pump' was answered by 'pump'")


def client() -> Iterator[Case]:
    """The client of the package, by its old name too."""
    yield from lines_of_client()
    yield from others_of_client()
    program = "import client, zuldegei.client as new; print(client.Interactive is new.Interactive, client.beats_of is new.beats_of)"
    ran = subprocess.run([sys.executable, "-c", program], cwd=TOP / "examples/testbench", capture_output=True, text=True, check=False)
    yield "the client by its old name", unlike(ran.stdout + ran.stderr, "True True\n")


class Wire:
    """A signal of a stand-in for cocotb: its bits, the highest first."""

    def __init__(self, bits: str):
        self.value, self.binstr = self, bits

    def __int__(self) -> int:
        return int(self.binstr, 2)

    def __bool__(self) -> bool:
        return self.binstr == "1"


class Edge:
    """An edge that comes at once."""

    def __init__(self, *_: object):
        pass

    def __await__(self) -> Iterator[None]:
        yield


def cocotb() -> Iterator[Case]:
    """The example of examples/testbench/README.md, over a stand-in for cocotb: a beat whose opcode is none, or has an x."""
    shown = (TOP / "examples/testbench/README.md").read_text()
    block = re.search(r"(?ms)^```python\n(import cocotb\n.*?)^```$", shown)[1].replace("setup.lines", str(TOP / "examples/testbench/rtl/setup.lines"))
    modules = {name: types.ModuleType(name) for name in ("cocotb", "cocotb.triggers", "cocotb.utils")}
    modules["cocotb"].test = lambda: lambda it: it
    modules["cocotb.triggers"].ReadOnly = modules["cocotb.triggers"].RisingEdge = Edge
    modules["cocotb.utils"].get_sim_time = lambda unit: 40
    fields = {"clk": "1", "a_valid": "1", "a_ready": "1", "a_param": "000", "a_size": "0011", "a_source": "0001", "a_address": "0" * 32,
              "a_mask": "1" * 8, "a_data": "x" * 64, "a_corrupt": "0"}  # fmt: skip
    for opcode, rule in (("111", "1 OPCODE"), ("1x0", "17 X"), ("000", "17 X")):
        dut = types.SimpleNamespace(**{name: Wire(bits) for name, bits in {**fields, "a_opcode": opcode}.items()})
        space: dict = {}
        sys.modules.update(modules)
        exec(block, space)
        run = space["nothing_is_wrong"](dut)
        try:
            while True:
                run.send(None)
        except (AssertionError, StopIteration) as why:
            got = str(why)
        yield f"the example for cocotb, opcode {opcode}", unlike(got, f"= wrong 7 request {rule} at 40\n")
    for name in modules:
        del sys.modules[name]


def cases(folder: Path) -> Iterator[Case]:
    library = scoreboard.load(folder / "libzuldegei.so")
    yield "the library's version", unlike(library.tlscore_version().decode(), zuldegei.__version__)
    for tried in (refused, fillings, found, rows, threads):
        yield from tried(library)
    yield from client()
    os.environ["ZULDEGEI_LIBRARY"] = str(folder / "libzuldegei.so")
    yield from cocotb()
