"""The scoreboard of tlscore in this process, over the shared library that interfaces/build makes (docs/SCOREBOARD.md says what is judged).

    with Scoreboard("config 2 4 16 2 16 12 hh\\nregion 0 4 10 gpah\\npage 10 4 good\\n") as board:
        found = board.a(0, opcode=0, size=3, source=5, address=0x8, mask=0xFF, data=0x1122334455667788)
        if found:
            print(found.text)

Each call that judges gives a Found, which is true where something is wrong. A call that can't be carried out raises a ScoreboardError,
and changes nothing (zuldegei.h has the one exception, and `fill` another, where memory is refused). A field of a wrong type or out of its
range is named there, with what was given. There may be any number of boards.
"""

import ctypes
import os
from ctypes import POINTER, byref, c_bool, c_char_p, c_int, c_int64, c_size_t, c_uint, c_uint64, c_void_p, create_string_buffer
from enum import IntEnum
from operator import index
from pathlib import Path
from typing import Dict, Iterable, List, NamedTuple, Optional, Sequence, Set, Tuple, Type, Union

from .observation import WRONG, Judged, Wrong, wrong_of

LANES = 8  # of a payload
FILLING = 32  # bytes of a fill
BYTE, WORD, LONG = 2**8, 2**32, 2**64  # what numbers are below
PAGE = 4096  # bytes of a page
FILLED = ("good", "any")  # the kinds of pages that may be filled
Text = Union[str, bytes]


class Error(IntEnum):
    """Why a call did nothing, as zuldegei.h has it."""

    NULL = -1
    RANGE = -2
    MEMORY = -3
    SETUP = -4
    NO_BYTE = -5
    WORD = -1000  # less the number of the first wrong word


WHY = {
    Error.NULL: "the board was closed",
    Error.RANGE: "a field is out of its range",
    Error.MEMORY: "out of memory",
    Error.SETUP: "the set-up is refused",
}


class Channel(IntEnum):
    """The channels of both ports."""

    A, D, AW, W, B, AR, R = range(7)


class Response(IntEnum):
    """The responses of the AXI4 port, by their numbers on the wires."""

    OKAY, EXOKAY, SLVERR, DECERR = range(4)


class ScoreboardError(Exception):
    """A call that wasn't carried out: its status, as zuldegei.h has it, and the first wrong word of a line, where one is at fault."""

    def __init__(self, status: int, text: str = ""):
        self.status = status
        self.word: Optional[int] = Error.WORD - status if status <= Error.WORD else None
        super().__init__(text or WHY.get(status) or f"word {self.word} is at fault")


class Found(NamedTuple):
    """What a call found: 0 where nothing is wrong, else the number that zuldegei.h gives the first of it; and the lines of tlscore."""

    code: int
    text: str

    def __bool__(self) -> bool:
        return self.code != 0

    @property
    def port(self) -> Optional[str]:
        """Whose rule is broken: client, request, reply or axi; nothing where none is."""
        return ("client", "request", "reply", "axi")[self.code // 100] if self.code else None

    @property
    def rule(self) -> int:
        """The number of the rule in docs/RULES.md; 0 where none is broken."""
        return self.code % 100 if self.code >= 100 else 0

    @property
    def wrong(self) -> List[Wrong]:
        """What is wrong, each with its line, its rule, the beat that was due and its time."""
        return [wrong_of(it) for it in map(WRONG.fullmatch, self.text.splitlines()) if it]


def known(bits: str) -> Tuple[int, int]:
    """A payload as a simulator writes its bits, the highest first, such as `binstr` of cocotb: its number, with 0 for each x and z, and the
    lanes that have one, as `unknown` takes them."""
    lanes = [bits[max(end - 8, 0) : end] for end in range(len(bits), 0, -8)]
    unclear = sum(1 << lane for lane, it in enumerate(lanes) if set(it) - set("01"))
    return int("".join(it if it == "1" else "0" for it in bits) or "0", 2), unclear


def _signatures() -> Dict[str, Tuple[object, Sequence[object]]]:
    """The calls of zuldegei.h: what they give, and what they take behind the board."""
    data, head, counts = [c_char_p, c_size_t, c_uint64], [c_uint] * 5, [POINTER(c_uint64), POINTER(c_uint64)]
    return {
        "a": (c_int, [*head, c_uint64, c_uint64, *data, c_bool]),
        "d": (c_int, [*head, c_bool, *data, c_bool]),
        "aw": (c_int, [c_uint, c_uint64, c_uint, c_uint, c_uint]),
        "ar": (c_int, [c_uint, c_uint64, c_uint, c_uint, c_uint]),
        "w": (c_int, [*data, c_uint64, c_bool]),
        "b": (c_int, [c_uint, c_uint]),
        "r": (c_int, [c_uint, *data, c_uint, c_bool]),
        "unknown": (c_int, [c_uint, c_uint]),
        "fill": (c_int, [c_uint64, c_char_p, c_size_t]),
        "time": (c_int, [c_uint64]),
        **{name: (c_int, []) for name in ("drained", "reset", "end")},
        "line": (c_int, [c_char_p]),
        **{name: (c_int64, [c_char_p, c_size_t]) for name in ("text", "fault")},
        **{name: (c_int64, []) for name in ("outstanding", "open_bursts")},
        **{name: (c_int, counts) for name in ("judged", "compared")},
        "byte": (c_int, [c_uint64]),
        "free": (None, []),
    }


def load(path: Union[str, Path, None] = None) -> ctypes.PyDLL:
    """The shared library: at a path, at the one that ZULDEGEI_LIBRARY names, beside this module, where pip puts it, or as interfaces/build
    leaves it in this repository. Other threads wait while a call of it runs."""
    built, packed = Path(__file__).resolve().parents[2] / "out/libzuldegei.so", Path(__file__).resolve().with_name("libzuldegei.so")
    library = ctypes.PyDLL(str(path or os.environ.get("ZULDEGEI_LIBRARY") or (packed if packed.exists() else built)))
    library.tlscore_version.restype = c_char_p
    library.tlscore_new.restype = c_void_p
    library.tlscore_new.argtypes = [c_char_p, POINTER(c_int), c_char_p, c_size_t]
    for name, (gives, takes) in _signatures().items():
        call = getattr(library, f"tlscore_{name}")
        call.restype, call.argtypes = gives, [c_void_p, *takes]
    return library


class Scoreboard:
    """A board for a bridge: of the lines that stand ahead of the first beat, `fill` lines too."""

    def __init__(self, setup: Text, library: Optional[ctypes.PyDLL] = None):
        self._board: Optional[int] = None
        given = bytes_of("setup", setup)
        self._library = library or load()
        status, fault = c_int(), create_string_buffer(256)
        self._board = self._library.tlscore_new(given, byref(status), fault, len(fault))
        if not self._board:
            raise ScoreboardError(status.value, fault.value.decode())
        self._filled = _pages_filled(given)

    def close(self) -> None:
        """Gives it back; no other call may follow."""
        if self._board:
            self._library.tlscore_free(self._board)
        self._board = None

    def __enter__(self) -> "Scoreboard":
        return self

    def __exit__(self, *_: object) -> None:
        self.close()

    def __del__(self) -> None:
        self.close()

    def _status(self, name: str, *given: object) -> int:
        """Makes a call, whose numbers fit."""
        if not self._board:
            raise ScoreboardError(Error.NULL)
        return getattr(self._library, f"tlscore_{name}")(self._board, *given)

    def _text(self, name: str) -> str:
        """The text of what was found, or of a fault."""
        length = self._status(name, None, 0)
        if length < 0:
            raise ScoreboardError(length)
        room = create_string_buffer(length + 1)
        self._status(name, room, len(room))
        return room.value.decode()

    def _judged(self, name: str, *given: object) -> Found:
        code = self._status(name, *given)
        if code < 0:
            raise ScoreboardError(code, "" if code in (Error.NULL, Error.RANGE, Error.MEMORY) else self._text("fault"))
        return Found(code, self._text("text") if code else "")

    def a(self, client: int, opcode: int, size: int, source: int, address: int, mask: int, data: int = 0, param: int = 0,
          corrupt: bool = False, unknown: int = 0) -> Found:  # fmt: skip
        """A beat on channel A; `unknown` has a bit for each lane of the payload that nobody knows."""
        head = _bytes_of(client=client, opcode=opcode, param=param, size=size, source=source)
        rest = number("address", address, WORD), number("mask", mask, BYTE), *_payload(data, unknown)
        return self._judged("a", *head, *rest, flag("corrupt", corrupt))

    def d(self, client: int, opcode: int, size: int, source: int, data: int = 0, param: int = 0, denied: bool = False,
          corrupt: bool = False, unknown: int = 0) -> Found:  # fmt: skip
        """A beat on channel D."""
        head = _bytes_of(client=client, opcode=opcode, param=param, size=size, source=source)
        return self._judged("d", *head, flag("denied", denied), *_payload(data, unknown), flag("corrupt", corrupt))

    def aw(self, id: int, address: int, len: int, size: int, burst: int = 1) -> Found:
        """A write address."""
        return self._judged("aw", number("id", id, BYTE), number("address", address, WORD), *_bytes_of(len=len, size=size, burst=burst))

    def w(self, data: int, strobes: int, last: bool, unknown: int = 0) -> Found:
        """Write data."""
        return self._judged("w", *_payload(data, unknown), number("strobes", strobes, BYTE), flag("last", last))

    def b(self, id: int, resp: int = Response.OKAY) -> Found:
        """A write response."""
        return self._judged("b", number("id", id, BYTE), number("resp", resp, len(Response)))

    def ar(self, id: int, address: int, len: int, size: int, burst: int = 1) -> Found:
        """A read address."""
        return self._judged("ar", number("id", id, BYTE), number("address", address, WORD), *_bytes_of(len=len, size=size, burst=burst))

    def r(self, id: int, data: int, last: bool, resp: int = Response.OKAY, unknown: int = 0) -> Found:
        """Read data."""
        it = number("id", id, BYTE), *_payload(data, unknown), number("resp", resp, len(Response))
        return self._judged("r", *it, flag("last", last))

    def unknown(self, channel: int, client: int = 0) -> Found:
        """A beat of which a field other than the payload is x or z; on the AXI4 port the client is 0."""
        number("channel", channel, len(Channel))
        return self._judged("unknown", channel, number("client", client, BYTE if channel <= Channel.D else 1))

    def fill(self, address: int, data: bytes) -> None:
        """The bytes with which the memory began, from an address on: all of them, or, where it raises, none. Where memory is refused some
        may be filled; then the same call may be made again."""
        at, held = number("address", address, WORD), _filling(data)
        if held and (at + len(held) > WORD or any(page not in self._filled for page in _pages(at, len(held)))):
            raise ScoreboardError(Error.WORD - 2, f"address is {at:#x}, from where {len(held)} bytes don't lie on pages that can be filled")
        for first in range(0, len(held), FILLING):
            part = held[first : first + FILLING]
            self._judged("fill", at + first, part, len(part))

    def time(self, time: float) -> Found:
        """The time of what comes, a whole number. A beat that an earlier line holds is judged."""
        whole = int(time) if isinstance(time, float) and time.is_integer() else time
        return self._judged("time", number("time", whole, LONG))

    def drained(self) -> Found:
        """AXI4 beats went unseen until no burst was open."""
        return self._judged("drained")

    def reset(self) -> Found:
        """The bridge was reset."""
        return self._judged("reset")

    def end(self) -> Found:
        """The observation is over: what has no answer is wrong."""
        return self._judged("end")

    def line(self, line: Text) -> Found:
        """A line as tlscore reads it, without its line feed."""
        return self._judged("line", bytes_of("line", line))

    def byte(self, address: int) -> Optional[int]:
        """The byte at an address of a good page, as the requests that were judged leave it; None outside these pages."""
        byte = self._status("byte", number("address", address, WORD))
        if byte < 0 and byte != Error.NO_BYTE:
            raise ScoreboardError(byte)
        return None if byte < 0 else byte

    def counts(self) -> Judged:
        """What was judged so far, as the last line of tlscore has it."""
        judged, wrong, compared, told = (c_uint64() for _ in range(4))
        self._status("judged", byref(judged), byref(wrong))
        self._status("compared", byref(compared), byref(told))
        due = self._status("outstanding"), self._status("open_bursts")
        return Judged(judged.value, wrong.value, *due, compared.value, told.value)


def number(name: str, value: object, bound: int, kind: Type[ScoreboardError] = ScoreboardError) -> int:
    """The number of a field, which is below a bound."""
    try:
        found = index(value)
    except TypeError:
        found = -1
    if 0 <= found < bound:
        return found
    most = f"{bound - 1}" if bound <= BYTE else f"{bound - 1:#x}"
    raise kind(Error.RANGE, f"{name} is {value!r}, and not a number from 0 to {most}")


def flag(name: str, value: object, kind: Type[ScoreboardError] = ScoreboardError) -> bool:
    """A field that is true or false, or a bit."""
    try:
        if value in (0, 1):
            return bool(value)
    except (TypeError, ValueError):
        pass
    raise kind(Error.RANGE, f"{name} is {value!r}, and neither True nor False")


def _bytes_of(**fields: int) -> Iterable[int]:
    """Fields that are bytes, in this order."""
    return [number(name, value, BYTE) for name, value in fields.items()]


def _payload(data: int, unknown: int) -> Tuple[bytes, int, int]:
    """A payload as C takes it, the lowest lane first: its bytes, how many, and which of its lanes nobody knows."""
    return number("data", data, LONG).to_bytes(LANES, "little"), LANES, number("unknown", unknown, BYTE)


def _filling(data: object) -> bytes:
    """What is to be filled."""
    try:
        return bytes(data) if not isinstance(data, (int, str)) else bytes(memoryview(data))
    except (TypeError, ValueError):
        raise ScoreboardError(Error.RANGE, f"data is {data!r}, and not bytes") from None


def _pages(address: int, length: int) -> Iterable[int]:
    """The pages that bytes lie on."""
    return range(address // PAGE, (address + length - 1) // PAGE + 1)


def _pages_filled(setup: bytes) -> Set[int]:
    """The pages of a set-up that may be filled, by the lines of it that a library has taken."""
    lines = [words for words in map(bytes.split, setup.split(b"\n")) if words[:1] == [b"page"]]
    return {int(words[1], 16) + k for words in lines if words[3].decode() in FILLED for k in range(int(words[2]))}


def bytes_of(name: str, text: Text, kind: Type[ScoreboardError] = ScoreboardError) -> bytes:
    """A text for C, where a zero byte would end it: one that no line may have stands for it."""
    if not isinstance(text, (str, bytes)):
        raise kind(Error.RANGE, f"{name} is {text!r}, and not a text")
    return (text if isinstance(text, bytes) else text.encode(errors="surrogatepass")).replace(b"\0", b"\1")
