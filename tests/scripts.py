"""Scripts of each kind whose traces are known: the lines of each with the text that each prints. The first of each kind
is an example beside its trace; the long ones hold every command, and docs/SCRIPT.md says what each prints. Those of `threads`
have one client with a quota of one, so that their text is the same in every schedule."""

from dataclasses import dataclass
from pathlib import Path

EXAMPLES = Path(__file__).resolve().parent.parent / "examples"
# In the first four bytes of payloads the number of a round stands, so that all differ.
SETUP = ["config 2 4 16 2 16 12 hl", "region 0 4 10 gpah", "page 10 4 good", "bad 13ff8"]
SETUP_OF_ONE = ["config 1 1 16 2 16 12 h", *SETUP[1:]]


@dataclass(frozen=True)
class Script:
    name: str
    word: str
    steps: tuple  # of each line, and the text that it prints
    status: int
    opening: str = ""  # what is printed before the text of the first line

    @property
    def given(self):
        return "".join(f"{line}\n" for line, _ in self.steps).encode()

    @property
    def text(self):
        return self.text_at_end(len(self.steps))

    def text_of(self, lines):
        """What stands there after so many lines, before the input's end: `threads` prints all of its text at that."""
        return b"" if self.word == "threads" else self.text_at_end(lines)

    def text_at_end(self, lines):
        """The text where the input ends after so many lines."""
        return "".join((self.opening, *(text for _, text in self.steps[:lines]))).encode()


def text_of_command(line, trace):
    """Takes the text of a command off the front of a trace, as its first word and the text itself tell how long it is."""
    word = line.split()[0]
    if word in ("config", "region", "page", "bad"):
        return []
    taken = [trace.pop(0)]
    if word == "a":
        taken.append(trace.pop(0))
    if taken[0].startswith("= sent"):
        taken.append(trace.pop(0))
        while taken[1].startswith("AW") and (taken[-1].startswith("AW") or taken[-1].endswith(" 0")):
            taken.append(trace.pop(0))
    if taken[0].startswith("= reply"):
        taken.append(trace.pop(0))
        _, _, opcode, _, size, *_ = taken[1].split()
        for _ in range(max(1, 2 ** int(size) // 8) - 1 if opcode == "1" else 0):
            taken.append(trace.pop(0))
    return taken


def example(name, word, status):
    lines = (EXAMPLES / f"{name}.script").read_text().splitlines()
    trace = (EXAMPLES / f"{name}.trace").read_text().splitlines()
    steps = tuple((line, "".join(f"{it}\n" for it in text_of_command(line, trace))) for line in lines)
    assert not trace, f"the trace of {name} is longer than its script says"
    return Script(f"{name}.script", word, steps, status)


def example_of_threads():
    """The text of an `a` line is the reply, that of a `mem` line its byte."""
    trace = (EXAMPLES / "threads.trace").read_text().splitlines(keepends=True)
    steps = []
    for line in (EXAMPLES / "threads.script").read_text().splitlines():
        count = {"a": 2, "mem": 1}.get(line.split()[0], 0)
        steps.append((line, "".join(trace[2 : 2 + count])))
        del trace[2 : 2 + count]
    assert trace == ["= ok\n", "client 0\n"], "the trace of threads is longer than its script says"
    return Script("threads.script", "threads", tuple(steps), 0, "".join(trace))


def round_of_run(number):
    """A Put of eight bytes and a Get of them, with every command; bursts, requests and serials are two more each time."""
    address = 8 * (number % 2048 if number % 2048 != 2047 else 0)
    axi, source, payload = address + 0x10000, number % 8, f"{number:08x}000000{number % 251:02x}"
    request = 2 * number
    put = f"0 0 0 3 {source} {address:08x} ff {payload} 0"
    get = f"1 4 0 3 {source} {address:08x} ff {0:016x} 0"
    return (
        (f"a {put}", f"A {put}\n= accepted {request}\n"),
        ("work", "= work 3\n"),
        ("pump", f"= sent {request}\nAW 0 {axi:08x} 0 3 1\nW {payload} ff 1\n"),
        (f"do {request} 1", "= nosuch\n"),
        (f"do {request} 0", "= done\n"),
        (f"do {request} 0", "= already\n"),
        (f"mem {axi:x}", f"= mem {number % 251:02x}\n"),
        ("b 0", "B 0 OKAY\n"),
        ("r 0", "= nothing\n"),
        ("take 0", f"= reply {request}\nD 0 0 0 3 {source} 0 {0:016x} 0\n"),
        ("# a line that is skipped", ""),
        (f"a {get}", f"A {get}\n= accepted {request + 1}\n"),
        ("drain", "= drained 3\n"),
        ("take 1", f"= reply {request + 1}\nD 1 1 0 3 {source} 0 {payload} 0\n"),
    )


def round_of_check(number):
    source, address = number % 256, 8 * (number % 512)
    get = f"0 4 0 3 {source} {address:08x} ff {0:016x} 0"
    return (
        (f"a {get}", f"A {get}\n= whole\n"),
        (f"a {get}", f"A {get}\n= refused 9 SOURCE_BUSY\n"),
        (f"free 0 {source}", "= freed\n"),
        (f"free 0 {source}", "= notbusy\n"),
    )


def round_of_threads(number):
    """A Put of eight bytes and a Get of them, and words of some memory threads; the numbers are two more each time."""
    address, source, payload = 8 * (number % 256), number % 8, f"{number:08x}000000{number % 251:02x}"
    return (
        (f"a 0 0 0 3 {source} {address:x} ff {payload} 0", f"= reply {2 * number}\nD 0 0 0 3 {source} 0 {0:016x} 0\n"),
        (f"word {2**64 - 1 - number}", ""),
        ("# a line that is skipped", ""),
        (f"a 0 4 0 3 {source} {address:x} ff 0 0", f"= reply {2 * number + 1}\nD 0 1 0 3 {source} 0 {payload} 0\n"),
        (f"word {number} {number % 3}", ""),
    )


def bytes_at_end(puts, count):
    """The lowest bytes of words that the last of so many Puts wrote."""
    for number in range(puts - count, puts):
        yield f"mem {0x10000 + 8 * (number % 256):x}", f"= mem {number % 251:02x}\n"


def long(word, setup, of_round, status, lines=2000, ending=lambda rounds: (), opening=""):
    steps = [(line, "") for line in setup]
    number = 0
    while len(steps) < lines:
        steps.extend(of_round(number))
        number += 1
    steps.extend(ending(number))
    return Script(f"{len(steps)} lines of {word}", word, tuple(steps), status, opening)


SCRIPTS = (
    example("first", "run", 0),
    long("run", SETUP, round_of_run, 0),
    example("check", "check", 1),
    long("check", ["config 1 1 1 1 1 12 h"], round_of_check, 1),
    example_of_threads(),
    long("threads", SETUP_OF_ONE, round_of_threads, 0, 1800, lambda puts: bytes_at_end(puts, 200), "= ok\nclient 0\n"),
)
