"""What zuldegei-times tells of observations with times. Of hand-written ones: the tables, whose numbers were worked out by hand, what is late,
what a reset cuts, and what is refused. Of observations by lot: each number in JSON beside a plain computation from the same requests,
bursts and waits. Of the stored runs: that an answer which the scoreboard finds lost is late. And how fast it is, in how much memory.

    python3 tests/times.py TLSCORE [--seed WORD] [--histories N]
"""

import argparse
import json
import random
import re
import subprocess
import sys
from collections import Counter
from pathlib import Path
from typing import Dict, Iterator, List, NamedTuple, Optional, Sequence, Tuple

from ends import TOP, Case, asked, told_in_a_folder
from package import RTL, command, one_line
from stored import blocks, observations

SETUP = "config 2 4 16 2 16 12 hh\nregion 0 4 10 gpah\npage 10 4 good\n"
ZEROS = "0000000000000000"
BEATS_OF_A_RUN = ("A", "D", "AW", "AR", "B", "R")
BEATS_A_SECOND, BEATS, ROOM = 30_000, 200_000, 3 << 20  # bytes that a run ten times as long may take more

# A Put of 100 to 130 and an atomic of 120 to 180 by client 0, a Get of 110 to 180 and an Intent of 190 to 200 by client 1, a write of 110
# to 130 and a read of 120 to 160: 11 clocks of 10.
HAND = TOP / "tests/commands"
EACH, ITS_TABLES = ((HAND / f"times/requests-and-bursts-of-each-kind.{it}").read_text() for it in ("lines", "tables"))
GET, TOLD = f"A 0 4 0 3 {{}} 00000008 ff {ZEROS} 0\n", f"D 0 1 0 3 {{}} 0 {ZEROS} 0\n"
READ, DATA = "AR {} 00010008 0 3 1\n", f"R {{}} {ZEROS} OKAY 1\n"


def called(folder: Path, lines: str, words: str = "") -> "subprocess.CompletedProcess[str]":
    """A call for an observation."""
    (folder / "seen.lines").write_text(lines)
    return command("times", "seen.lines", *words.split(), cwd=folder)


def by_hand(folder: Path) -> Iterator[Case]:
    """Observations by hand."""
    ran = called(folder, EACH, "--json times.json")
    yield "the tables", None if (ran.returncode, ran.stdout) == (0, ITS_TABLES) else f"status {ran.returncode}: {ran.stdout}{ran.stderr}"
    found = json.loads((folder / "times.json").read_text())
    due = {"count": 1, "least": 70, "half": 70, "9 of 10": 70, "most": 70, "mean": 70.0, "bytes": 32, "bytes a clock": 2.909091}
    is_well = found["answered"]["client 1 get"] == {**due, "histogram": {"64": 1}} and found["in flight"]["client 0"] == {"average": 0.9, "most": 2}
    yield "JSON", None if is_well and [found[it] for it in ("begin", "end", "clock")] == [100, 200, 10] else str(found)
    ran = called(folder, EACH, "--clock 20")  # 6 clocks
    yield "another clock", None if " 5.333\n" in ran.stdout and "with a clock of 20\n" in ran.stdout else ran.stdout
    yield from late(folder)
    for path in observations(HAND / "times/refused"):
        said = path.with_suffix(".said").read_text().strip()
        ran = command("times", path.name, cwd=path.parent)
        yield f"refused: {path.stem}", one_line(ran, named=(said,))
    (folder / "seen.lines").write_text(EACH)
    for it in blocks(TOP / "tests/words/times.words"):
        yield f"refused: {it.name}", it.one_line(command("times", *it.given.split(), cwd=folder), "zuldegei-times")


def late(folder: Path) -> Iterator[Case]:
    """What is late in observations by hand: all that is told from the first late line on, behind the words of the call."""
    for path in observations(HAND / "late"):
        name = path.stem
        call, _, due = path.with_suffix(".late").read_text().partition("\n")
        ran = called(folder, path.read_text(), f"{call.partition('.lines ')[2]} --json times.json")
        at = re.search(r"(?m)^(= late|\d+ took)", ran.stdout)
        status = int("= late" in due)
        got = ran.stdout[at.start() :] if at else ran.stdout + ran.stderr
        yield f"late: {name}", None if (ran.returncode, got) == (status, due) else f"status {ran.returncode}: {got}"
        counted = json.loads((folder / "times.json").read_text())["late"]
        lines_of = [int(it) for it in re.findall(r"(?m)^= late (\d+)", due)]
        is_well = [it["line"] for it in counted["first"]] == lines_of and f"{counted['count']} took longer than {counted['limit']}\n" in due
        yield f"late, in JSON: {name}", None if is_well else str(counted)


# ---- by lot


class Spell(NamedTuple):
    """A request or a burst by lot: its kind and side, when it begins and ends, its bytes, and its first and last line."""

    kind: str
    side: str
    begin: int
    end: int
    bytes: int
    first: str
    last: str


def spells(lot: random.Random, count: int) -> List[Spell]:
    """Gets, Puts and bursts of single beats, no two of which are in flight together with one source or ID."""
    made, free = [], {}
    for at in range(count):
        place, begin = lot.randrange(16), 10 * lot.randrange(5 * count)
        size = lot.randrange(4)
        end, client = begin + 10 * lot.choice((1, 2, 3, lot.randrange(1, 40), lot.randrange(1, 400))), lot.randrange(2)
        kind = lot.choice(("get", "put", "read", "write"))
        key = (client, place) if kind in ("get", "put") else (kind, place)
        if any(begin <= other_end and other_begin <= end for other_begin, other_end in free.get(key, ())):
            continue
        free.setdefault(key, []).append((begin, end))
        made.append(spell(kind, client, place, size, begin, end))
    return made


def spell(kind: str, client: int, place: int, size: int, begin: int, end: int) -> Spell:
    """The lines of a request or a burst."""
    if kind in ("read", "write"):
        first = f"{'AR' if kind == 'read' else 'AW'} {place} 00010008 0 {size} 1"
        last = f"R {place} {ZEROS} OKAY 1" if kind == "read" else f"B {place} OKAY"
        return Spell(f"AXI4 {kind}", f"AXI4 {kind}", begin, end, 1 << size, first, last)
    first = f"A {client} {4 if kind == 'get' else 0} 0 {size} {place} 00000008 {(1 << (1 << size)) - 1:02x} {ZEROS} 0"
    last = f"D {client} {int(kind == 'get')} 0 {size} {place} 0 {ZEROS} 0"
    return Spell(f"client {client} {kind}", f"client {client}", begin, end, 1 << size, first, last)


def observation(made: Sequence[Spell]) -> str:
    """Their lines by their times; of one time, the ends stand behind the begins."""
    events = sorted([(it.begin, 0, at, it.first) for at, it in enumerate(made)] + [(it.end, 1, at, it.last) for at, it in enumerate(made)])
    lines, now = [], None
    for time, _, _, line in events:
        lines += [line] if time == now else [f"time {time}", line]
        now = time
    return "\n".join(lines) + "\n"


def with_waits(text: str, lot: random.Random) -> Tuple[str, Dict[str, List[int]]]:
    """An observation with lines `waited` ahead of some beats by lot, and by port for how many clocks each beat waited."""
    lines, waits = [], {}
    for line in text.splitlines():
        words = line.split()
        if words[0] in BEATS_OF_A_RUN:
            port, clocks = words[0] + (words[1] if words[0] in "AD" else ""), lot.choice((0, 0, 1, 2, lot.randrange(300)))
            waits.setdefault(port, []).append(clocks)
            lines += [f"waited {port} {clocks}"] if clocks or lot.randrange(2) else []
        lines.append(line)
    return "\n".join(lines) + "\n", waits


def waited(found: Dict[str, object], waits: Dict[str, List[int]], text: str) -> Optional[str]:
    """What the JSON has otherwise of how long beats waited."""
    found = found.get("waited", {})
    for port, its in waits.items() if "waited " in text else ():
        entry, its_most = found.get(port), max(its)
        counts = Counter(str(2 ** (it.bit_length() - 1) if it else 0) for it in its)
        due = [len(its), min(its), its_most, counts, (text.splitlines().index(f"waited {port} {its_most}") + 5) if its_most else None]
        if not entry or [entry[it] for it in ("count", "least", "most", "histogram", "longest")] != due:
            return f"{port}: {entry}, and due are {due}"
    return None if set(found) == (set(waits) if "waited " in text else set()) else f"the ports are {sorted(found)}"


def apart(made: Sequence[Spell], found: Dict[str, object], late: int) -> Optional[str]:
    """What the JSON has otherwise than a plain computation."""
    begin, end = min(it.begin for it in made), max(it.end for it in made)
    if set(found["answered"]) != {it.kind for it in made}:
        return f"the kinds are {sorted(found['answered'])}"
    for kind, entry in found["answered"].items():
        took, size = sorted(it.end - it.begin for it in made if it.kind == kind), sum(it.bytes for it in made if it.kind == kind)
        due = [len(took), took[0], took[-1], size, round(size / ((end - begin) / found["clock"] + 1), 6)]
        counts = Counter(str(2 ** (it.bit_length() - 1)) for it in took)
        got = [entry[it] for it in ("count", "least", "most", "bytes", "bytes a clock")]
        exact = took[(len(took) + 1) // 2 - 1], took[-(-9 * len(took) // 10) - 1]
        is_near = all(0 <= it - entry[name] < max(1, it / 32) for it, name in zip(exact, ("half", "9 of 10")))
        if got != due or entry["histogram"] != counts or not is_near or abs(entry["mean"] - sum(took) / len(took)) > 1e-5:
            return f"{kind}: {entry}, and due are {due}, {counts}, {exact}"
    for side, entry in found["in flight"].items():
        its = [it for it in made if it.side == side]
        most = max(sum(other.begin <= it.begin <= other.end for other in its) for it in its)
        average = sum(it.end - it.begin for it in its) / (end - begin)
        if entry["most"] != most or abs(entry["average"] - average) > 1e-5:
            return f"{side}: {entry}, and due are {most} and {average}"
    began = sorted(it.begin for it in made if it.end - it.begin > late)
    got = [it["begun"] for it in found["late"]["first"]]
    return None if got == began[:20] and found["late"]["count"] == len(began) else f"late are {got}, and due are {began}"


def by_lot(folder: Path, seed: str, count: int) -> Iterator[Case]:
    """Observations by lot, beside a plain computation."""
    for at in range(count):
        lot = random.Random(f"{seed} {at}")
        made, late = spells(lot, lot.choice((3, 30, 300))), lot.choice((10, 100, 1000))
        text, waits = with_waits(observation(made), lot)
        ran = called(folder, SETUP + text, f"--late {late} --json times.json")
        found = json.loads((folder / "times.json").read_text()) if ran.returncode < 2 else None
        yield f"history {at} of seed {seed}", (apart(made, found, late) or waited(found, waits, text)) if found else ran.stderr


# ---- stored runs, and a long one


def stored(score: Path) -> Iterator[Case]:
    """Stored runs in which the scoreboard finds an answer lost: it is late, and what isn't late any more is all of it, from some N on."""
    lost = 0
    for path in sorted((RTL / "runs").glob("*.lines")):
        verdict = subprocess.run([score], stdin=path.open(), capture_output=True, text=True).stdout
        wanted = set(re.findall(r"UNANSWERED (client \d+ source \d+|write \d+|read \d+)", verdict))
        ran = command("times", path, "--late", 1, "-n", 1000)
        open_at_end = {it[0] for it in re.findall(r"(?m)^= late \d+ (\S+ \d+( source \d+)?) at \d+ not answered for", ran.stdout)}
        lost += bool(wanted)
        yield f"{path.stem}: what isn't answered", None if wanted <= open_at_end else f"{wanted - open_at_end} aren't late"
        ran = command("times", path, "--late", 10**9)
        yield f"{path.stem}: nothing takes so long", None if ran.returncode == 0 and "\n0 took longer" in ran.stdout else ran.stdout[-300:]
    yield "lost answers in the stored runs", None if lost > 2 else f"{lost} runs have one"


def long_run(path: Path, beats: int) -> None:
    """An observation of so many beats, each request with a burst, and one reply that never comes."""
    with path.open("w") as file:
        file.write(f"{SETUP}time 1\n{GET.format(255)}")
        for at in range(beats // 4):
            source, time = at % 16, 10 * at + 10
            file.write(f"time {time}\n{GET.format(source)}{READ.format(source)}time {time + 5}\n{DATA.format(source)}{TOLD.format(source)}")


def measured(folder: Path, beats: int) -> Tuple[float, int]:
    """The seconds of a processor and the bytes that a call for so many beats takes."""
    path = folder / "long.lines"
    long_run(path, beats)
    asked = "import resource, sys\nfrom zuldegei.times import main\nmain()\n"
    asked += "used = resource.getrusage(resource.RUSAGE_SELF)\nprint(used.ru_utime + used.ru_stime, used.ru_maxrss * 1024)"
    words = [sys.executable, "-c", asked, str(path), "--late", "1000000"]
    ran = subprocess.run(words, capture_output=True, text=True, env={"PYTHONPATH": str(TOP / "python"), "PYTHONDONTWRITEBYTECODE": "1"})
    seconds, room = ran.stdout.splitlines()[-1].split()
    return float(seconds), int(room)


def speed(folder: Path) -> Iterator[Case]:
    """How fast it is, and that its memory doesn't grow with the run."""
    (_, less), (seconds, more) = measured(folder, BEATS // 10), measured(folder, BEATS)
    yield "beats a second", None if BEATS / seconds >= BEATS_A_SECOND else f"{BEATS / seconds:.0f} of a processor's seconds"
    yield "memory", None if more - less < ROOM else f"{less} bytes for {BEATS // 10} beats, and {more} for {BEATS}"


def cases(folder: Path, given: argparse.Namespace) -> Iterator[Case]:
    yield from by_hand(folder)
    yield from by_lot(folder, given.seed, given.histories)
    yield from stored(given.score)
    yield from speed(folder)


if __name__ == "__main__":
    words = asked(__doc__, "score", by_lot=True)
    words.add_argument("--histories", type=int, default=40)
    sys.exit(told_in_a_folder(cases, words.parse_args()))
