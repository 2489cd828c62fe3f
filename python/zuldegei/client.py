"""Drives `tlbridge run` from Python, with the standard library alone: each command of a script is a method, which returns
the parsed answer. docs/SCRIPT.md says what the commands do.

`Interactive` holds one run of the program, writes a command and reads its answer.
"""

import select
import subprocess
import tempfile
import time
from dataclasses import dataclass


@dataclass(frozen=True)
class ABeat:
    """A beat that a client offers."""

    opcode: int
    param: int
    size: int
    source: int
    address: int
    mask: int = 0xFF
    payload: int = 0
    corrupt: int = 0


@dataclass(frozen=True)
class Offered:
    """What came of an offered beat. kind is more, accepted, notready, exhausted, refused or noclient."""

    kind: str
    number: int = None  # of the request, where it was accepted
    rule: str = None  # the rule that the beat breaks, where it was refused


@dataclass(frozen=True)
class WBeat:
    payload: int
    strobes: int
    last: int


@dataclass(frozen=True)
class Burst:
    """A burst that the bridge sent: kind is AW or AR; data are its W beats."""

    serial: int
    kind: str
    id: int
    address: int
    len: int
    size: int
    burst: int
    data: tuple = ()


@dataclass(frozen=True)
class BBeat:
    id: int
    resp: str


@dataclass(frozen=True)
class RBeat:
    id: int
    payload: int
    resp: str
    last: int


@dataclass(frozen=True)
class DBeat:
    client: int
    opcode: int
    param: int
    size: int
    source: int
    denied: int
    payload: int
    corrupt: int


@dataclass(frozen=True)
class Reply:
    """The reply to the request with this number."""

    number: int
    beats: tuple


class Ended(Exception):
    """The program ended where an answer was awaited: its status and its line on standard error."""


class OtherAnswer(Exception):
    """The program answered something that `tlbridge run` doesn't."""


def beats_of(size, has_data):
    return max(1, 2**size // 8) if has_data else 1


# Each of these takes a function that gives the next line of the trace, and reads one command's answer from it.


def offered_of(line):
    line()  # the A line
    words = line().split()[1:]
    if words[0] == "accepted":
        return Offered("accepted", number=int(words[1]))
    if words[0] == "refused":
        return Offered("refused", rule=words[2])
    return Offered(words[0])


def burst_of(line):
    words = line().split()[1:]
    if words[0] == "idle":
        return None
    kind, number, address, *shape = line().split()
    length, size, burst = map(int, shape)
    data = []
    for _ in range(length + 1 if kind == "AW" else 0):
        _, payload, strobes, last = line().split()
        data.append(WBeat(int(payload, 16), int(strobes, 16), int(last)))
    return Burst(int(words[1]), kind, int(number), int(address, 16), length, size, burst, tuple(data))


def b_of(line):
    words = line().split()
    return BBeat(int(words[1]), words[2]) if words[0] == "B" else None


def r_of(line):
    words = line().split()
    return RBeat(int(words[1]), int(words[2], 16), words[3], int(words[4])) if words[0] == "R" else None


def d_beat_of(text):
    words = text.split()[1:]
    return DBeat(*map(int, words[:6]), int(words[6], 16), int(words[7]))


def reply_of(line):
    words = line().split()[1:]
    if words[0] != "reply":
        return None
    beats = [d_beat_of(line())]
    for _ in range(1, beats_of(beats[0].size, has_data=beats[0].opcode == 1)):
        beats.append(d_beat_of(line()))
    return Reply(int(words[1]), tuple(beats))


def word_of(line):
    return line().split()[1]


def steps_of(line):
    return int(line().split()[2])


def byte_of(line):
    text = line().split()[2]
    return None if text == "--" else int(text, 16)


# The commands, and how the answer of each is read. Other lines have none.
ANSWERS = {
    "a": offered_of,
    "pump": burst_of,
    "do": word_of,
    "b": b_of,
    "r": r_of,
    "take": reply_of,
    "mem": byte_of,
    "drain": steps_of,
    "work": steps_of,
}


class Commands:
    """The commands of `run`. Who inherits from this says how a line is sent and where the lines of its answer come from.
    `script` has the lines that were sent, `trace` those that were answered: a run that went wrong can be kept and run again."""

    def __init__(self):
        self.script, self.trace = [], []

    def send(self, line):
        """Sends a line of a script, one alone, and returns its parsed answer; None for a line of the set-up."""
        if not isinstance(line, str) or "\n" in line.removesuffix("\n"):
            raise ValueError(f"{line!r} isn't one line of a script")
        self.script.append(line.removesuffix("\n"))
        self.write(self.script[-1])
        answer = ANSWERS.get((line.split() or [""])[0])
        return self.understood(answer) if answer else None

    def understood(self, answer):
        """What the program answers, by the function that reads it."""
        try:
            return answer(self.line)
        except (IndexError, ValueError, TypeError):
            raise OtherAnswer(f"{self.script[-1]!r} was answered by {self.trace[-1]!r}") from None

    def line(self):
        self.trace.append(self.read())
        return self.trace[-1]

    def setup(self, config, regions=(), pages=(), bad=()):
        """Sends the set-up; each item is the words of its line. A program that took it answers that nothing is to be done yet, which
        neither the script nor the trace shows."""
        self.send(f"config {config}")
        for keyword, items in (("region", regions), ("page", pages), ("bad", bad)):
            for item in items:
                self.send(f"{keyword} {item}")
        self.write("work")
        answer = self.read()
        if answer != "= work 0":
            raise OtherAnswer(f"a set-up and `work` were answered by {answer!r}, as no `tlbridge run` does")

    def offer(self, client, beat):
        words = (client, beat.opcode, beat.param, beat.size, beat.source)
        data = f"{beat.address:x} {beat.mask:x} {beat.payload:x} {beat.corrupt}"
        return self.send(f"a {' '.join(map(str, words))} {data}")

    def pump(self):
        """The burst that the bridge sends, or None."""
        return self.send("pump")

    def perform(self, serial, beat):
        """done, nosuch or already."""
        return self.send(f"do {serial} {beat}")

    def answer_b(self, id):
        """The B beat, or None."""
        return self.send(f"b {id}")

    def answer_r(self, id):
        """The R beat, or None."""
        return self.send(f"r {id}")

    def take(self, client):
        """The reply that the client takes, or None."""
        return self.send(f"take {client}")

    def byte(self, address):
        """The byte of the memory at an AXI address; None outside good pages."""
        return self.send(f"mem {address:x}")

    def drain(self):
        """How many steps bridge and memory made by themselves."""
        return self.send("drain")

    def work(self):
        """How many such steps are left."""
        return self.send("work")

    def __enter__(self):
        return self

    def __exit__(self, *_):
        self.close()


class Interactive(Commands):
    """One run of the program, which answers each command before the next is sent."""

    def __init__(self, words=("./tlbridge", "run"), seconds=None):
        """seconds: how long an answer may take; with none, as long as it likes, as where the program is built first."""
        super().__init__()
        self.seconds, self.text, self.errors = seconds, b"", tempfile.TemporaryFile()
        pipe = subprocess.PIPE
        self.program = subprocess.Popen(list(words), stdin=pipe, stdout=pipe, stderr=self.errors, bufsize=0)

    def write(self, line):
        try:
            self.program.stdin.write(f"{line}\n".encode())
        except BrokenPipeError:
            self.ended()

    def read(self):
        until = None if self.seconds is None else time.monotonic() + self.seconds
        while b"\n" not in self.text:
            left = None if until is None else max(0, until - time.monotonic())
            if not select.select([self.program.stdout], [], [], left)[0]:
                raise TimeoutError(f"no answer to {self.script[-1]!r} within {self.seconds} seconds")
            more = self.program.stdout.read(65_536)
            if not more:
                self.ended()
            self.text += more
        line, _, self.text = self.text.partition(b"\n")
        return line.decode()

    def ended(self):
        status = self.program.wait()
        self.errors.seek(0)
        raise Ended(f"{self.errors.read().decode(errors='replace').strip()} (status {status})")

    def close(self):
        """Ends the input and waits for the program."""
        self.program.stdin.close()
        self.program.stdout.close()
        self.program.wait()
        self.errors.close()
