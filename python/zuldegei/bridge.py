"""The model of tlbridge in this process, over the shared library that interfaces/build makes: a bridge and the memory behind it, one step
at a time (docs/SCRIPT.md, "Commands of run").

    with Bridge("config 2 4 16 2 16 12 hh\\nregion 0 4 10 gpah\\npage 10 4 good\\n") as bridge:
        bridge.offer(0, ABeat(opcode=4, param=0, size=3, source=0, address=0x10))
        bridge.drain()
        reply = bridge.take(0)

Its calls are those of client.py, which talks to the program, and give the same, so that a testbench runs over either. A call that can't
be carried out raises a BridgeError, and changes nothing; a field of a wrong type or out of its range is named there, with what was given.
There may be any number of bridges, and there is no limit of steps.
"""

import ctypes
from ctypes import POINTER, Structure, byref, c_bool, c_char_p, c_int, c_int64, c_size_t, c_uint, c_uint8, c_uint32, c_uint64, c_void_p
from typing import Dict, List, Optional, Sequence, Tuple, Union

from . import scoreboard
from .client import ABeat, BBeat, Burst, DBeat, Offered, RBeat, Reply, WBeat
from .scoreboard import BYTE, LANES, LONG, WORD, Error, ScoreboardError, Text, bytes_of, flag, number

# What a step gave, as zuldegei.h has it, by the words of docs/SCRIPT.md.
ANSWERS = ("more", "accepted", "notready", "exhausted", "refused", "noclient", "sent", "idle", "done", "nosuch", "already", "b", "r",
           "nothing", "reply")  # fmt: skip
RESPONSES = ("OKAY", "EXOKAY", "SLVERR", "DECERR")
RULES = ("", "OPCODE", "LEVEL", "SIZE", "ATOMIC_SIZE", "ALIGN", "PARAM", "MASK", "CORRUPT", "SOURCE_BUSY", "BURST_CONTROL")
# The kinds of steps that bridge and memory make, by the words of a script.
KINDS = ("", "pump", "do", "b", "r")
# The lines of a scoreboard's set-up that a model doesn't know, by their first words: they are left out.
SCOREBOARDS = (b"profile", b"axi", b"errors", b"x", b"fill", b"time", b"waited", b"=")


class BridgeError(ScoreboardError):
    """A call that wasn't carried out: its status, as zuldegei.h has it, and the first wrong word of a line, where one is at fault."""


class _Burst(Structure):
    _fields_ = [("serial", c_uint64), ("address", c_uint64),
                *((name, c_uint32) for name in ("is_write", "id", "len", "size", "burst", "w_beats"))]  # fmt: skip


class _WBeat(Structure):
    _fields_ = [("data", c_uint64), ("strobes", c_uint32), ("last", c_uint32)]


class _DBeat(Structure):
    _fields_ = [("data", c_uint64), *((name, c_uint32) for name in ("opcode", "param", "size", "source", "denied", "corrupt"))]


class _Step(Structure):
    _fields_ = [("serial", c_uint64), ("kind", c_uint32), ("place", c_uint32)]


def _signatures() -> Dict[str, Tuple[object, Sequence[object]]]:
    """The calls of zuldegei.h: what they give, and what they take behind the bridge."""
    number = POINTER(c_uint64)
    return {
        "offer": (c_int, [c_uint] * 5 + [c_uint64, c_uint64, c_char_p, c_size_t, c_bool, number]),
        "take": (c_int, [c_uint, number, POINTER(c_uint)]),
        "reply_d": (c_int, [c_uint, POINTER(_DBeat)]),
        "pump": (c_int, [POINTER(_Burst)]),
        "sent_w": (c_int, [c_uint, POINTER(_WBeat)]),
        "perform": (c_int, [c_uint64, c_uint]),
        "answer_b": (c_int, [c_uint, POINTER(c_uint)]),
        "answer_r": (c_int, [c_uint, POINTER(c_uint8 * 8), POINTER(c_uint), POINTER(c_bool)]),
        "choose": (c_int, [c_uint64, POINTER(_Step)]),
        "byte": (c_int, [c_uint64]),
        **{name: (c_int64, []) for name in ("drain", "choices", "work", "in_flight")},
        "free": (None, []),
    }


def _declared(library: ctypes.PyDLL) -> ctypes.PyDLL:
    """The library, which knows what the calls take."""
    library.tlbridge_new.restype = c_void_p
    library.tlbridge_new.argtypes = [c_char_p, POINTER(c_int), c_char_p, c_size_t]
    for name, (gives, takes) in _signatures().items():
        call = getattr(library, f"tlbridge_{name}")
        call.restype, call.argtypes = gives, [c_void_p, *takes]
    return library


class Bridge:
    """A bridge and a memory of zeros: of the lines of a script that stand ahead of the first command, or, where none are given, of what
    `setup` says. A scoreboard's set-up may be given too, of which the lines that the scoreboard alone knows are left out. Where it keeps
    them, `script` has the lines by which the program does the same."""

    def __init__(self, setup: Optional[Text] = None, library: Optional[ctypes.PyDLL] = None, keeps: bool = False):
        self._bridge: Optional[int] = None
        self._why_none = "there is no set-up: give one to Bridge, or call setup"
        self._library = _declared(library or scoreboard.load())
        self.script: Optional[List[str]] = [] if keeps else None
        self._number, self._beats, self._resp, self._last = c_uint64(), c_uint(), c_uint(), c_bool()
        self._data, self._burst, self._w, self._d, self._step = (c_uint8 * 8)(), _Burst(), _WBeat(), _DBeat(), _Step()
        if setup is not None:
            self._open(bytes_of("setup", setup, BridgeError))

    def _open(self, given: bytes) -> None:
        setup = b"".join(line for line in given.splitlines(keepends=True) if not line.split()[:1] or line.split()[0] not in SCOREBOARDS)
        status, fault = c_int(), ctypes.create_string_buffer(256)
        self._bridge = self._library.tlbridge_new(setup, byref(status), fault, len(fault))
        if not self._bridge:
            raise BridgeError(status.value, fault.value.decode())
        if self.script is not None:
            self.script += setup.decode(errors="replace").splitlines()

    def setup(self, config: str, regions: Sequence[str] = (), pages: Sequence[str] = (), bad: Sequence[str] = ()) -> None:
        """The set-up of a bridge that has none; each item is the words of its line."""
        if self._bridge:
            raise BridgeError(Error.SETUP, "there is a set-up already")
        items = (("config", [config]), ("region", regions), ("page", pages), ("bad", bad))
        other = next(((keyword, its) for keyword, its in items if not isinstance(its, (list, tuple))), None)
        if other:
            raise BridgeError(Error.RANGE, f"the items of {other[0]} are {other[1]!r}, and not a list of texts")
        self._open(bytes_of("setup", "".join(f"{keyword} {it}\n" for keyword, its in items for it in its), BridgeError))

    def close(self) -> None:
        """Gives it back; no other call may follow."""
        if self._bridge:
            self._library.tlbridge_free(self._bridge)
        self._bridge, self._why_none = None, "the bridge was closed"

    def __enter__(self) -> "Bridge":
        return self

    def __exit__(self, *_: object) -> None:
        self.close()

    def __del__(self) -> None:
        self.close()

    def _made(self, name: str, *given: object) -> int:
        """Makes a call, whose numbers fit, and gives its answer."""
        if not self._bridge:
            raise BridgeError(Error.NULL, self._why_none)
        answer = getattr(self._library, f"tlbridge_{name}")(self._bridge, *given)
        if answer < 0 and answer != Error.NO_BYTE:
            raise BridgeError(answer)
        return answer

    def _note(self, *words: object) -> None:
        if self.script is not None:
            self.script.append(" ".join(map(str, words)))

    def offer(self, client: int, beat: ABeat) -> Offered:
        """A client offers a beat."""
        fields, it = (_number("client", client, BYTE), *_head(beat)), beat
        address, mask = _number("address", it.address, WORD), _number("mask", it.mask, BYTE)
        payload, corrupt = _number("payload", it.payload, LONG), flag("corrupt", it.corrupt, BridgeError)
        data = payload.to_bytes(LANES, "little")
        answer = ANSWERS[self._made("offer", *fields, address, mask, data, LANES, corrupt, self._number)]
        if self.script is not None:
            self._note("a", *fields, f"{address:x} {mask:x} {payload:x} {int(corrupt)}")
        if answer == "accepted":
            return Offered(answer, number=self._number.value)
        return Offered(answer, rule=RULES[self._number.value]) if answer == "refused" else Offered(answer)

    def pump(self) -> Optional[Burst]:
        """The burst that the bridge sends, or None."""
        it = self._burst
        answer = self._made("pump", it)
        self._note("pump")
        if ANSWERS[answer] != "sent":
            return None
        data = tuple(self._sent(k) for k in range(it.w_beats))
        return Burst(it.serial, "AW" if it.is_write else "AR", it.id, it.address, it.len, it.size, it.burst, data)

    def _sent(self, k: int) -> WBeat:
        self._made("sent_w", k, self._w)
        return WBeat(self._w.data, self._w.strobes, self._w.last)

    def perform(self, serial: int, beat: int) -> str:
        """done, nosuch or already."""
        it = _number("serial", serial, LONG), _number("beat", beat, 2**16)
        answer = self._made("perform", *it)
        self._note("do", *it)
        return ANSWERS[answer]

    def answer_b(self, id: int) -> Optional[BBeat]:
        """The B beat, or None."""
        its = _number("id", id, BYTE)
        answer = self._made("answer_b", its, self._resp)
        self._note("b", its)
        return BBeat(its, RESPONSES[self._resp.value]) if ANSWERS[answer] == "b" else None

    def answer_r(self, id: int) -> Optional[RBeat]:
        """The R beat, or None."""
        its = _number("id", id, BYTE)
        answer = self._made("answer_r", its, self._data, self._resp, self._last)
        self._note("r", its)
        if ANSWERS[answer] != "r":
            return None
        return RBeat(its, int.from_bytes(self._data, "little"), RESPONSES[self._resp.value], int(self._last.value))

    def take(self, client: int) -> Optional[Reply]:
        """The reply that the client takes, or None."""
        its = _number("client", client, BYTE)
        answer = self._made("take", its, self._number, self._beats)
        self._note("take", its)
        if ANSWERS[answer] != "reply":
            return None
        return Reply(self._number.value, tuple(self._beat(its, k) for k in range(self._beats.value)))

    def _beat(self, client: int, k: int) -> DBeat:
        it = self._d
        self._made("reply_d", k, it)
        return DBeat(client, it.opcode, it.param, it.size, it.source, it.denied, it.data, it.corrupt)

    def byte(self, address: int) -> Optional[int]:
        """The byte of the memory at an AXI address; None outside good pages."""
        at = _number("address", address, WORD)
        byte = self._made("byte", at)
        self._note("mem", f"{at:x}")
        return None if byte < 0 else byte

    def drain(self) -> int:
        """How many steps bridge and memory made by themselves."""
        steps = self._made("drain")
        self._note("drain")
        return steps

    def work(self) -> int:
        """How many such steps are left."""
        work = self._made("work")
        self._note("work")
        return work

    # What the program has no command for.

    def in_flight(self) -> int:
        """How many accepted requests aren't done."""
        return self._made("in_flight")

    def choices(self) -> int:
        """How many different steps bridge and memory can make now by themselves."""
        return self._made("choices")

    def choose(self, k: int) -> Tuple[str, ...]:
        """Step k of these, from 0, as the words of its line: its keyword, and the numbers that belong to it."""
        its, many = _number("k", k, LONG), self.choices()
        if its >= many:
            raise BridgeError(Error.RANGE, f"k is {its}, and there are {many} steps to choose from")
        self._made("choose", its, self._step)
        it = self._step
        words = {"do": (it.serial, it.place), "pump": ()}.get(KINDS[it.kind], (it.place,))
        return (KINDS[it.kind], *words)

    def make(self, step: Tuple[str, ...]) -> Union[Burst, BBeat, RBeat, str, None]:
        """Makes such a step, and gives what the call of its kind gives."""
        makes = {"pump": self.pump, "do": self.perform, "b": self.answer_b, "r": self.answer_r}
        kind, *numbers = step if isinstance(step, (tuple, list)) and step and isinstance(step[0], str) else ("",)
        if len(numbers) != {"pump": 0, "do": 2, "b": 1, "r": 1}.get(kind):
            raise BridgeError(Error.RANGE, f"step is {step!r}, and not one that choose gives")
        return makes[kind](*numbers)


def _number(name: str, value: object, bound: int) -> int:
    return number(name, value, bound, BridgeError)


def _head(beat: ABeat) -> Tuple[int, ...]:
    """The fields of a beat that are bytes, in the order of a line."""
    if not isinstance(beat, ABeat):
        raise BridgeError(Error.RANGE, f"beat is {beat!r}, and not an ABeat")
    return tuple(_number(name, getattr(beat, name), BYTE) for name in ("opcode", "param", "size", "source"))
