"""zuldegei-wave-of: an observation and its verdict as a VCD for GTKWave, with strings for beats and a mark at each wrong one."""

import math
import re
import statistics
import sys
from pathlib import Path
from typing import Dict, Iterator, List, NamedTuple, Sequence, TextIO, Tuple

from .command import Status, ended, words_of
from .explain import read
from .observation import A, AR, AW, B, D, OPERATIONS, R, W, Beat, Observation, Verdict
from .whole import written

NAME = "zuldegei-wave-of"
SCOPE, WRONG = "tlscore", "wrong"
SHOWN_TIMES, WIDEST = 12, 3  # times that the window shows, and how many units it has where GTKWave's zoom is 0
MORE = """
OBSERVATION is what tlscore read, with `time` lines, and VERDICT what it printed. The VCD has a string for each channel, as
line12_Get_00000008+8_s7, a wire that is high with each beat, and `wrong`, the text of each wrong line. Beside it a file NAME.gtkw is
written, with all of them and a marker at the first wrong one: gtkwave NAME.vcd NAME.gtkw. Open it beside the design's own dump, in
the same unit (--timescale), to see both.
"""


class Change(NamedTuple):
    """A text that a signal shows from a time on."""

    time: int
    signal: str
    text: str


def shown(beat: Beat) -> str:
    """A beat's text, in one word."""
    words = beat.words
    if beat.kind == A:
        operation = OPERATIONS[int(words[1])] if words[1].isdigit() and int(words[1]) < len(OPERATIONS) else f"opcode{words[1]}"
        parts = [operation, f"{words[5]}+{size_of(words[3])}", f"s{words[4]}", words[7], *(["corrupt"] if words[8] != "0" else [])]
    elif beat.kind == D:
        flags = [name for name, digit in (("denied", words[5]), ("corrupt", words[7])) if digit != "0"]
        parts = [f"opcode{words[1]}", f"s{words[4]}", words[6], *flags]
    elif beat.kind in (AW, AR):
        parts = [f"id{words[0]}", words[1], f"{words[2]}+1", f"times{size_of(words[3])}"]
    elif beat.kind == W:
        parts = [words[0], words[1], *(["last"] if words[2] != "0" else [])]
    elif beat.kind == B:
        parts = [f"id{words[0]}", words[1]]
    else:
        parts = [f"id{words[0]}", words[1], words[2], *(["last"] if words[3] != "0" else [])]
    return "_".join([f"line{beat.line}", *parts])


def size_of(text: str) -> str:
    return str(1 << int(text)) if text.isdigit() and int(text) < 13 else "x"


def signal_of(beat: Beat) -> str:
    return f"{beat.kind}{beat.words[0]}" if beat.kind in (A, D) else beat.kind


def changes(observation: Observation, verdict: Verdict) -> List[Change]:
    """What is shown, in the order of its times; a line without a time has its number."""
    found = []
    for beat in observation.beats():
        time = beat.line if beat.time is None else beat.time
        found.append(Change(time, signal_of(beat), shown(beat)))
    for wrong in verdict.wrong:
        time = observation.times[wrong.line] if wrong.line < len(observation.times) else None
        found.append(Change(wrong.line if time is None else time, WRONG, re.sub(r"\s+", "_", wrong.text.lstrip("= "))))
    return sorted(found, key=lambda it: it.time)


def names_of(found: Sequence[Change]) -> List[str]:
    """The signals, requests and replies first, then the port, then what is wrong."""
    order = {A: 0, D: 1, AW: 2, W: 3, B: 4, AR: 5, R: 6, WRONG: 7}
    names = {it.signal for it in found}
    return sorted(names, key=lambda it: (order[it.rstrip("0123456789")], int(re.sub(r"\D", "", it) or 0)))


def code(number: int) -> str:
    """A short name of a signal, as VCD has them: of the printable characters."""
    text = ""
    while True:
        text += chr(33 + number % 94)
        number //= 94
        if not number:
            return text


def write_vcd(found: Sequence[Change], timescale: str, file: TextIO) -> None:
    """Writes the VCD: a string and a pulse for each signal; a pulse is low again in the middle of the time to the next change."""
    codes = {name: (code(2 * at), code(2 * at + 1)) for at, name in enumerate(names_of(found))}
    file.write(f"$timescale {timescale} $end\n$scope module {SCOPE} $end\n")
    for name, (text, pulse) in codes.items():
        file.write(f"$var string 1 {text} {name} $end\n$var wire 1 {pulse} {name}_passes $end\n")
    file.write("$upscope $end\n$enddefinitions $end\n#0\n" + "".join(f"0{pulse}\n" for _, pulse in codes.values()))
    for time, at_once, following in groups(found):
        file.write(f"#{time}\n")
        for name, texts in at_once.items():
            file.write(f"s{'|'.join(texts)} {codes[name][0]}\n1{codes[name][1]}\n")
        if following > time + 1:
            file.write(f"#{time + (following - time) // 2}\n" + "".join(f"0{codes[name][1]}\n" for name in at_once))


def groups(found: Sequence[Change]) -> Iterator[Tuple[int, Dict[str, List[str]], int]]:
    """The changes of each time by their signals, with the next time."""
    by_time: Dict[int, Dict[str, List[str]]] = {}
    for change in found:
        by_time.setdefault(change.time, {}).setdefault(change.signal, []).append(change.text)
    times = list(by_time)
    for time, following in zip(times, [*times[1:], times[-1] + 10 if times else 0]):
        yield time, by_time[time], following


def write_gtkw(found: Sequence[Change], vcd: Path, file: TextIO) -> None:
    """Writes GTKWave's list of the signals, with its marker at the first wrong beat and the times ahead of it in the window."""
    first = next((it.time for it in found if it.signal == WRONG), 0)
    gaps = [following - time for time, _, following in groups(found)] or [1]
    span = SHOWN_TIMES * max(1, statistics.median_low(gaps))
    start, zoom = max(0, first - span * 3 // 4), math.log2(WIDEST / span)
    file.write(f'[dumpfile] "{vcd.name}"\n[timestart] {start}\n*{zoom:.6f} {first}{" -1" * 26}\n')
    for name in names_of(found):
        file.write(f"@820\n{SCOPE}.{name}\n@28\n{SCOPE}.{name}_passes\n")  # as text, and as a bit


def work(arguments: Sequence[str]) -> int:
    """Does what the words ask for."""
    words = words_of(NAME, __doc__, MORE)
    words.add_argument("observation", help="what tlscore read")
    words.add_argument("verdict", help="what tlscore printed")
    words.add_argument("vcd", help="where the VCD goes; beside it a .gtkw is written")
    words.add_argument("--timescale", default="1ns", help="the unit of the times (1ns)")
    given = words.parse_args(arguments)
    if not re.fullmatch(r"(1|10|100)\s?(s|ms|us|ns|ps|fs)", given.timescale):
        words.error(f"{given.timescale} is no unit of a VCD, as 1ns and 10ps are")
    observation, verdict = read(given.observation, given.verdict)
    found, vcd = changes(observation, verdict), Path(given.vcd)
    with written(vcd) as file:
        write_vcd(found, given.timescale, file)
    with written(vcd.with_suffix(".gtkw")) as file:
        write_gtkw(found, vcd, file)
    return Status.WRONG if verdict.wrong else Status.DONE


def main() -> int:
    return ended(NAME, lambda: work(sys.argv[1:]))


if __name__ == "__main__":
    sys.exit(main())
