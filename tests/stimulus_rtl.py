"""A stimulus in a simulator: zuldegei_client.sv plays it at both clients of examples/testbench/rtl. The right bridge isn't blamed and answers all,
also over resets, and what was played is carried out by tlbridge run; lines and files at fault end the run; Icarus and Verilator show the same
beats. And a tenth of what examples/testbench/rtl/cards.py tells: cards from what a night of plain lots missed reach nearly all of the rest, and
tell faults in corners; the right bridge isn't blamed. A simulator that isn't installed is named, and what needs it isn't tried.

    python3 tests/stimulus_rtl.py TLSCORE TLBRIDGE
"""

import argparse
import os
import re
import subprocess
import sys
import tempfile
from pathlib import Path
from typing import Iterator, List, NamedTuple

from ends import Case, asked, is_there, told
from package import RTL
from simulators import by_verilator

sys.path.append(str(RTL))
import cards  # noqa: E402
import run  # noqa: E402
from zuldegei.stimulus import Stimulus, Wanted  # noqa: E402

REQUESTS, TENTH = 150, 2  # of a run; runs of a night
LEAST, TOLD_IN_CORNERS = 92, 3  # per cent of the bins behind such a night, and faults in corners that one run of each has to tell
JUDGED = re.compile(r"(?m)^= judged \d+ wrong 0 outstanding 0 open 0 ")
GET = "a {} 4 0 3 * 8 ff 0 0\n"


class Played(NamedTuple):
    """How a run of a simulator ended: its status, what it printed, what was seen, and what the clients say they played."""

    status: int
    text: str
    seen: str
    played: str


def played(program: List[object], folder: Path, lines: str, *more: str) -> Played:
    """Has lines played."""
    play, seen, into = folder / "play.lines", folder / "seen.lines", folder / "played.lines"
    play.write_text(lines)
    for it in (seen, into):
        it.unlink(missing_ok=True)
    words = [*map(str, program), "+seed=1", f"+zuldegei_play={play}", f"+zuldegei_played={into}", f"+observed={seen}", *more]
    ran = subprocess.run(words, cwd=folder, stdout=subprocess.PIPE, stderr=subprocess.STDOUT, text=True, timeout=300, check=False)
    return Played(ran.returncode, ran.stdout, *(it.read_text() if it.exists() else "" for it in (seen, into)))


def lines_of(seed: int) -> str:
    wanted = Wanted(seed, REQUESTS, left_out=[it.pattern for it in cards.withouts_of(cards.WITHOUT)])
    return "\n".join(Stimulus(cards.setup(run.Asked()), wanted).lines()) + "\n"


def right(program: List[object], folder: Path, given: argparse.Namespace) -> Iterator[Case]:
    """The right bridge answers all that is played, and isn't blamed."""
    for seed, more in ((1, ()), (2, ("+resets=3",))):
        ran = played(program, folder, lines_of(seed), *more)
        judged = run.judged(given.score, run.Asked().setup, f"{ran.seen}= end\n")
        asked = cards.requests_up_to(ran.seen, ran.seen.count("\n"))
        is_well = ran.status == 0 and JUDGED.search(judged) and (asked == REQUESTS or more and REQUESTS > asked > 0.8 * REQUESTS)
        yield f"the right bridge, {' '.join(more) or 'no reset'}", None if is_well else f"status {ran.status}, {asked} asked, {judged[-300:]}"
        if not more:
            yield from carried_out(given.bridge, ran)


def within_messages(program: List[object], folder: Path, given: argparse.Namespace) -> Iterator[Case]:
    """Resets within messages of one beat in ten clocks: the rest of such a message isn't played."""
    beats = [f"a 0 0 0 5 * {64 * (at % 2):x} ff {at:x} 0\nwait 0 9\n" * 4 for at in range(40)]
    ran = played(program, folder, "".join(beats), "+resets=3")
    judged = run.judged(given.score, run.Asked().setup, f"{ran.seen}= end\n")
    is_well = JUDGED.search(judged) and ran.seen.count("= reset") == 3 and ran.played.count("\na ") > 80
    yield "resets within messages", None if is_well else f"status {ran.status}, {judged[-300:]}"


def carried_out(program: str, ran: Played) -> Iterator[Case]:
    """tlbridge run takes each beat that was played behind the set-up."""
    head = "".join(f"{it}\n" for it in run.SETUP.splitlines() if it.startswith(("config", "region", "page")))
    done = subprocess.run([program, "run"], input=head + ran.played, capture_output=True, text=True, timeout=120, check=False)
    answers = [done.stdout.count(f"\n= {it}") for it in ("accepted", "refused", "notready")]
    beats = sum(it.startswith("A ") for it in ran.seen.splitlines()), sum(it.startswith("a ") for it in ran.played.splitlines())
    is_well = done.returncode == 0 and answers == [REQUESTS, 0, 0] and beats[0] == beats[1]
    yield "what was played", None if is_well else f"status {done.returncode}, {answers}, {beats}; {done.stderr}"


def at_fault(program: List[object], folder: Path) -> Iterator[Case]:
    """Lines that are none, and files that aren't there, end the run with a status that isn't 0."""
    whole = f"seed 1\nmeet\n# a card\n{GET.format(0)}{GET.format(1)}wait 0 2\nhold 1 3\nawait 0\npace 1 0 3\n{GET.format(1)}"
    ran = played(program, folder, whole)
    yield "each kind of line", None if ran.status == 0 and ran.played.count("\na ") + ran.played.startswith("a ") == 3 else f"{ran}"
    for name, line in (
        ("a word that is none", "hld 0 1"), ("a word too few", "wait 0"), ("a word too many", "pace 0 1 1 1"), ("a pace of 16", "pace 0 16 0"),
        ("a source of 16", "a 0 4 0 3 16 8 ff 0 0"), ("a meeting of one", "meet 0"), ("a beat that is cut", "a 0 4 0 3 * 8 ff"),
    ):  # fmt: skip
        ran = played(program, folder, f"seed 1\n{line}\n")
        is_well = ran.status != 0 and f"line 2 of {folder / 'play.lines'} isn't one of a stimulus" in ran.text
        yield name, None if is_well else f"status {ran.status}: {ran.text[-300:]}"
    for name, words, said in (
        ("no file", ("+zuldegei_play=none.lines",), "none.lines can't be read"),
        ("no word", (), "+zuldegei_play=FILE has to name"),
        ("a folder that isn't there", (f"+zuldegei_play={folder / 'play.lines'}", "+zuldegei_played=none/x"), "none/x can't be written"),
    ):
        ran = subprocess.run([*map(str, program), *words], cwd=folder, stdout=subprocess.PIPE, stderr=subprocess.STDOUT, text=True, timeout=300, check=False)
        yield name, None if ran.returncode != 0 and f"zuldegei: the run failed: {said}" in ran.stdout else f"status {ran.returncode}: {ran.stdout[-300:]}"


def clocks_kept(program: List[object], folder: Path) -> Iterator[Case]:
    """What lines say of clocks: by the times of the beats behind them, of ten units a clock."""
    first, second = GET.format(0), GET.format(1)
    for name, lines, pattern, least in (
        ("a wait", f"{first}wait 0 50\n{first}", r"A 0 .*", 540),
        ("a hold", f"hold 0 60\n{first}", r"D 0 .*", 640),
        ("a meeting", f"wait 1 40\nmeet\n{first}{second}", r"A 0 .*", 440),
        ("an await", f"hold 0 60\n{first}await 0\n{first}", r"A 0 .*", 640),
        ("a pace", "pace 0 15 0\n" + 20 * first, r"A 0 .*", 2000),
    ):
        seen = played(program, folder, f"seed 1\n{lines}").seen
        times = [int(it) for it in re.findall(rf"(?m)^time (\d+)$(?=\n(?:[^t].*\n)*?{pattern}$)", seen)]
        yield f"{name}, in clocks", None if times and times[-1] >= least else f"the last at {times[-1:]}, not before {least}: {seen[-300:]}"


def alike(program: List[object], folder: Path) -> Iterator[Case]:
    """Both simulators show the same beats."""
    bench = run.Bench("bridge", run.Asked(), is_played=True)
    made = by_verilator(folder, "testbench", bench.files, *bench.defines)
    both = [played(it, folder, lines_of(3)) for it in (program, [made])]
    is_well = both[0].seen == both[1].seen and both[0].seen.count("\n") > REQUESTS
    is_well = is_well and sorted(both[0].played.splitlines()) == sorted(both[1].played.splitlines())
    yield "Icarus and Verilator", None if is_well else f"{len(both[0].seen)} and {len(both[1].seen)} bytes were seen; {both[1].text[-300:]}"
    ran = played([folder / "bench"], folder, "hld 0 1\n", "+verilator+error+limit+1000000")
    is_well = ran.status == 1 and "line 1 of" in ran.text
    yield "a fault that Verilator would pass over", None if is_well else f"status {ran.status}: {ran.text[-300:]}"


def tenth(simulator: str, given: argparse.Namespace, folder: Path) -> Iterator[Case]:
    """A tenth of what cards.py tells."""
    trial = cards.Trial(argparse.Namespace(simulator=simulator, score=given.score, jobs=os.cpu_count() or 1), folder)
    night = trial.many(trial.right, cards.LOTS, range(1, TENTH + 1), resets=cards.RESETS)
    before = cards.covered(night)
    after = cards.shown(before, cards.covered(trial.many(trial.right, cards.MISSED, [1], cards.shown(before).missed)))
    share = 100 * after.hit // len(after.counts)
    print(f"{TENTH} runs of plain lots: {cards.shown(before).reached()}; and one from what they missed: {after.reached()}", flush=True)
    yield "what cards reach behind a night", None if share >= LEAST else f"they reach {after.reached()}"
    found = [trial.many(cards.Bench(trial.given, folder, bug), cards.MISSED, [1], cards.shown(before).missed)[0] for bug in run.BUGS_IN_CORNERS]
    count = sum(it.requests is not None for it in found)
    yield "faults in corners", None if count >= TOLD_IN_CORNERS else f"{count} of {len(found)} are told"
    trial.many(trial.right, cards.HALF, [1])
    yield "the right bridge by each way", f"it is blamed in {trial.blamed} runs" if trial.blamed else None


def cases(given: argparse.Namespace) -> Iterator[Case]:
    simulator = run.installed()
    if not simulator:
        print(f"skipped: a stimulus in a simulator, as neither {' nor '.join(run.SIMULATORS)} is installed")
        return
    with tempfile.TemporaryDirectory() as room:
        folder = Path(room)
        made = Path(tempfile.mkdtemp(dir=folder))
        program = run.compiled(simulator, run.Bench("bridge", run.Asked(), is_played=True), made)
        yield from right(program, folder, given)
        yield from within_messages(program, folder, given)
        yield from at_fault(program, folder)
        yield from clocks_kept(program, folder)
        if is_there("a stimulus in both simulators", *run.SIMULATORS):
            yield from alike(program, Path(tempfile.mkdtemp(dir=folder)))
        yield from tenth(simulator, given, folder)


if __name__ == "__main__":
    sys.exit(told(cases(asked(__doc__, "score", "bridge").parse_args())))
