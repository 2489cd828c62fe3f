"""zuldegei-regress: many observations, or commands that print them, judged side by side or in parts: a table, JUnit XML and JSON."""

import argparse
import contextlib
import hashlib
import itertools
import os
import re
import shlex
import shutil
import signal
import subprocess
import sys
import tempfile
import time
from collections import Counter
from dataclasses import replace
from concurrent.futures import FIRST_COMPLETED, Future, ThreadPoolExecutor, wait
from pathlib import Path
from typing import BinaryIO, Callable, Dict, Iterator, List, NamedTuple, Optional, Sequence, Set, TextIO, Tuple
from urllib.parse import quote_plus

from .beside import Beside, Helpers, Request
from .command import Fault, Status, Words, ended, naming, one_line, reason, tell, unexpected, words_of
from .cover import CLOCK
from .cover_report import Cover, withouts_of
from .observation import Verdict, plural, verdict_of
from .parts import MOST_PARTS, Call, merged
from .reports import MOST_SEEDS, Asked, Covered, Job, Outcome, Part, Report, State
from .slurm import Array
from .times import counting
from .waivers import Waivers

NAME = "zuldegei-regress"
MOST_AT_ONCE, MOST_SECONDS = 1024, 10**9
MOST_OF_A_LINE, CHUNK = 128, 1 << 20  # bytes
LONGEST_NAME, KEPT_OF_A_NAME = 100, 60  # characters of a file's name
SEEDS = re.compile(r"([0-9]{1,20})(?:-([0-9]{1,20}))?")
PART = re.compile(r"([0-9]{1,5})/([0-9]{1,5})")
TO_MERGE = ("merge", "junit", "json", "cover")  # the words of a call that makes no run
MORE = """
Each RUN is a file that tlscore reads, or, by --command, a command for a shell that prints one; {seed} in it is each seed of --seeds in
turn. The set-up of --setup is put ahead of each. A run is

  right      nothing is wrong
  wrong      tlscore found a wrong beat, which the table and both files name with its time
  nothing    it has no beat, so that nothing was judged
  failed     its command failed, or its observation is at fault, or its verdict: one without its last line, with another count of wrong
             lines than that line says, or with another status than its lines have
  late       it took longer than --timeout, with its verdict, and with what --late, --waive and --cover ask of it
  slow       nothing is wrong, and by --late N a request or a burst in it took longer than N units of its `time` lines
  waived     all that is wrong in it is waived by --waive FILE
  unjudged   the call was interrupted, or couldn't go on, before this run was judged

Status 0: all are right or waived; 1: one is wrong or slow; 2: none is, and one isn't right or waived, or a part is missing; 3: no run
could be made, as where tlscore isn't there, or a file that was asked for couldn't be written; 6: a word that it doesn't know; 130:
interrupted, by SIGINT or SIGTERM. Table, JUnit and JSON tell all that was judged, however the call ends, and name the rest. JUnit, JSON and
the folder of --keep are opened ahead of the first run.

A line of --waive FILE is `KIND RULE client N REASON`, or `KIND RULE pages FIRST COUNT REASON` with FIRST in hexadecimal, such as

  reply PAYLOAD client 1 the old DMA reads ahead of its own writes
  axi CROSS_4K pages 10010 4 its bursts cross pages, and that memory takes them

What each waived, and which met nothing, stands in the table and both files.

With --cover FILE it counts which of the cases that their set-ups allow the runs reached, and writes that for zuldegei-cover. The table
and both files say how many there are and how many were reached. Wrong runs count as right ones do. A run that can't count, as one that
failed or took longer than --timeout, is named with the reason. Lines of --without FILE are `without PATTERN REASON`, as zuldegei-cover
has them.

With --keep FOLDER the observation and the verdict of each run that isn't right are kept there, for zuldegei-explain, as NAME.lines and
NAME.told: NAME is the run's, with + for a space and %2F for /, and so for other characters; of a name of more than 100 characters it
is a sum and the last 60; and behind the second run of one name stands =2.

By --part I/N it judges the Ith of N parts: of all runs the Ith, and each Nth behind it. --merge joins what parts wrote by --json, in any
order, and the table, JUnit, JSON and counts are those of one call, but for times:

  zuldegei-regress --seeds 1-200 --command 'vvp bench +seed={seed}' --part 3/8 --json night/part-3.json
  zuldegei-regress --merge night/part-*.json --junit night.xml

A part that is missing, cut or interrupted is named, as `part 3 of 8: missing`, and its runs are unjudged. It can be made again alone, and
all merged. Parts of another call, and a part that is there twice, are refused.

With --slurm N Slurm makes N parts, as an array of jobs, and they are joined once all have ended. What they wrote goes into FOLDER of
--parts, which all machines must see: of part 3 part-3.json and part-3.log. `sh FOLDER/part.sh 3` makes it again.
"""


class Keeper:
    """Keeps files of runs in a folder, under names that no two runs share, be they of other parts."""

    def __init__(self, folder: Path, asked: Asked):
        self.folder, self.asked = folder, asked
        folder.mkdir(parents=True, exist_ok=True)
        with naming(folder), tempfile.TemporaryFile(dir=folder):
            pass  # a file can be made there

    def name(self, job: Job) -> str:
        """What the files of a run are called."""
        name = quote_plus(job.name.encode(errors="surrogateescape"))
        if len(name) > LONGEST_NAME:
            name = f"{hashlib.sha256(name.encode()).hexdigest()[:32]}={name[-KEPT_OF_A_NAME:]}"
        number = self.asked.number(job)
        return name if number == 1 else f"{name}={number}"

    def keep(self, job: Job, joined: Path, verdict: str) -> str:
        """Keeps an observation and its verdict; why it can't, if it can't, and then it leaves neither."""
        name = self.name(job)
        lines, told = (self.folder / f"{name}{end}" for end in (".lines", ".told"))
        try:
            with naming(lines), lines.open("wb") as file:
                copied(joined, file, lines)
            with naming(told):
                told.write_text(verdict, encoding="utf-8")
        except OSError as why:
            for file in (lines, told):
                with contextlib.suppress(OSError):
                    file.unlink()
            return reason(why)
        return ""


def copied(source: Path, target: BinaryIO, its_name: Path, until: float = float("inf")) -> None:
    """Copies a file behind what another has; what can't be read or written is told by its own name."""
    with naming(source), source.open("rb") as file:
        while True:
            chunk = file.read(CHUNK)
            if not chunk:
                return
            if time.monotonic() > until:
                raise subprocess.TimeoutExpired(str(source), until)
            with naming(its_name):
                target.write(chunk)


class Runner:
    """Makes runs and has them judged."""

    def __init__(self, score: str, setup: bytes, timeout: float, keeper: Optional[Keeper], beside: Beside):
        self.score, self.setup, self.timeout, self.keeper, self.beside = score, setup, timeout, keeper, beside
        self.running: Set[int] = set()  # the commands that go on, each with all that it began
        self.helpers = Helpers()
        self.is_stopped = False

    def outcome(self, job: Job) -> Outcome:
        """Makes a run, and says what came of it, whatever goes wrong with it."""
        began = time.monotonic()
        try:
            with tempfile.TemporaryDirectory() as folder:
                return self.made(job, Path(folder, "joined.lines"), began)
        except OSError as why:
            said = reason(why)
        except MemoryError:
            said = "out of memory"
        except Exception as why:
            said = unexpected(why)
        return Outcome(job, State.FAILED, time.monotonic() - began, why=said, uncovered=said if self.beside.is_covered else "")

    def made(self, job: Job, joined: Path, began: float) -> Outcome:
        """Makes a run, whose observation goes into a file, has it judged, and keeps it where it isn't right."""
        until = began + self.timeout
        try:
            why = self.observed(job, joined, until)
            state, verdict, why = (State.FAILED, "", why) if why else self.judged(joined, began)
        except subprocess.TimeoutExpired:
            state, verdict, why = State.LATE, "", self.too_long()
        made = told(job, state, verdict, why, time.monotonic() - began)
        made = self.with_beside(Request(self.beside, made, joined, verdict), until)
        if self.keeper and made.state is not State.RIGHT:
            return made._replace(unkept=self.keeper.keep(job, joined, verdict))
        return made

    def too_long(self) -> str:
        return f"it took longer than {self.timeout:g} s"

    def with_beside(self, asked: Request, until: float) -> Outcome:
        """A run with what is asked of it beside its verdict."""
        made, beside = asked.made, self.beside
        if not beside.asks(made.state):
            return made._replace(uncovered=made.why) if beside.is_covered else made
        try:
            answer = self.helpers.answer(asked, until)
        except OSError as why:
            return beside.unsaid(made, State.FAILED, reason(why))
        if answer is not None:
            return answer
        if time.monotonic() > until:
            return beside.unsaid(made, State.LATE, self.too_long())
        return beside.unsaid(made, State.FAILED, "the process ended that reads it for what was asked beside its verdict")

    def observed(self, job: Job, joined: Path, until: float) -> str:
        """Puts an observation behind its set-up; why it can't, if it can't."""
        with naming(joined), joined.open("wb") as file:
            file.write(self.setup)
            file.flush()
            if job.file is not None:
                try:
                    copied(Path(job.file), file, joined, until)
                except OSError as why:
                    return reason(why)
                return ""
            with tempfile.TemporaryFile() as errors:
                ran = self.finished(["sh", "-c", job.command], None, file, errors, self.timeout)
                said = text_of(errors).strip().splitlines()
        return f"the command ended with status {ran}: {' '.join(said[-1:])[:200]}" if ran else ""

    def finished(self, words: List[str], given: Optional[BinaryIO], output: BinaryIO, errors: BinaryIO, seconds: float) -> int:
        """The status of a command; where it takes too long it is ended, with all that it began."""
        given = subprocess.DEVNULL if given is None else given
        with subprocess.Popen(words, stdin=given, stdout=output, stderr=errors, start_new_session=True) as program:
            self.running.add(program.pid)
            try:
                if self.is_stopped:
                    os.killpg(program.pid, signal.SIGKILL)
                return program.wait(seconds)
            except BaseException:
                os.killpg(program.pid, signal.SIGKILL)
                raise
            finally:
                self.running.discard(program.pid)

    def stop(self) -> None:
        """Ends all commands that go on, and those that begin from here on."""
        self.is_stopped = True
        self.helpers.stop()
        for group in list(self.running):
            with contextlib.suppress(ProcessLookupError):  # it has ended by itself
                os.killpg(group, signal.SIGKILL)

    def judged(self, joined: Path, began: float) -> Tuple[State, str, str]:
        """How tlscore ended on an observation."""
        left = max(0.1, self.timeout - (time.monotonic() - began))
        with joined.open("rb") as file, tempfile.TemporaryFile() as output, tempfile.TemporaryFile() as errors:
            ran = self.finished([self.score], file, output, errors, left)
            verdict, said = text_of(output), text_of(errors).strip()[-200:]
        if ran not in (Status.DONE, Status.WRONG):
            return State.FAILED, verdict, f"tlscore ended with status {ran}: {said}"
        return State.WRONG if ran else State.RIGHT, verdict, ""


def text_of(file: BinaryIO) -> str:
    """All that was written into a file."""
    file.seek(0)
    return file.read().decode(errors="replace")


def told(job: Job, state: State, verdict: str, why: str, seconds: float) -> Outcome:
    """What a verdict says of a run; one that isn't whole says nothing."""
    if why and not verdict.strip():
        return Outcome(job, state, seconds, why=why)
    try:
        found = verdict_of(verdict)
    except Fault as fault:
        return Outcome(job, State.FAILED, seconds, why=why or str(fault))
    why = why or not_whole(found, state is State.WRONG)
    state = State.FAILED if why else state
    first, last = (found.wrong or [None])[0], found.judged
    counts = (last.beats, last.wrong, last.compared, last.told) if last else (0, len(found.wrong), 0, 0)
    if state is State.RIGHT and not last.beats:
        state, why = State.NOTHING, "no beat was observed"
    return Outcome(job, state, seconds, *counts, *((first.text[2:], first.line, first.time) if first else ("", None, None)), why)


def not_whole(found: Verdict, is_wrong: bool) -> str:
    """Why this can't be all that tlscore printed of an observation that it ended with; nothing where it can."""
    lines = plural(len(found.wrong), "wrong line")
    if found.judged is None:
        return f"the verdict has no last line, `= judged ..`: {lines}"
    if found.judged.wrong != len(found.wrong):
        return f"the verdict has {lines}, and its last line says {found.judged.wrong}"
    if is_wrong != bool(found.wrong):
        return f"the verdict has {lines}, and tlscore ended with status {int(is_wrong)}"
    return ""


def make(asked: Asked, runner: Runner, at_once: int, take: Callable[[Outcome], None]) -> None:
    """Makes the runs, so many at once, and gives what comes of each as they end. Where it is interrupted it ends them."""
    waiting, running = iter(asked), set()
    with ThreadPoolExecutor(at_once) as pool:
        try:
            while True:
                running |= {pool.submit(runner.outcome, job) for job in itertools.islice(waiting, at_once - len(running))}
                if not running:
                    return
                take_ended(wait(running, return_when=FIRST_COMPLETED).done, running, take)
        except BaseException:
            take_ended({it for it in running if it.done()}, running, take)
            runner.stop()
            raise


def take_ended(ended_now: Set[Future], running: Set[Future], take: Callable[[Outcome], None]) -> None:
    """Gives what came of runs that have ended."""
    for future in ended_now:
        take(future.result())
        running.discard(future)


class Progress:
    """A line on a terminal that says how far it is."""

    def __init__(self, stream: TextIO):
        self.stream, self.is_shown = stream, stream.isatty()

    def show(self, text: str) -> None:
        if self.is_shown:
            print(f"\r{NAME}: {text} ", end="", file=self.stream, flush=True)

    def close(self) -> None:
        if self.is_shown:
            print("\r\x1b[K", end="", file=self.stream, flush=True)


class Made(NamedTuple):
    """What came of a call's runs, and what ended them ahead of their end, if anything did."""

    report: Report
    stopped: Optional[BaseException] = None


def made_here(asked: Asked, runner: Runner, at_once: int, covered: Optional[Covered], call: Optional[Dict[str, object]]) -> Made:
    """Makes all runs."""
    began, progress, stopped = time.monotonic(), Progress(sys.stderr), None
    made: Dict[int, Outcome] = {}
    ends: "Counter[State]" = Counter()

    def take(outcome: Outcome) -> None:
        if covered and outcome.cover:
            covered.cover.add(outcome.cover)
        made[outcome.job.place] = outcome._replace(cover=None)
        ends[outcome.state] += 1
        progress.show(f"{len(made)} of {len(asked)}, {len(made) - ends[State.RIGHT]} not right")

    try:
        make(asked, runner, at_once, take)
    except BaseException as why:
        stopped = why
    runner.helpers.close()
    progress.close()
    name = "" if stopped is None else "interrupted" if isinstance(stopped, KeyboardInterrupt) else type(stopped).__name__
    why = [f"regress ended before it was judged: {name}" if name else ""]
    waivers = runner.beside.waivers.all if runner.beside.waivers else ()
    return Made(Report(asked, made, time.monotonic() - began, why, waivers, covered, call=call), stopped)


def made_by(array: Array, call: Call) -> Made:
    """Has Slurm make all parts, and merges them."""
    progress, stopped = Progress(sys.stderr), None
    try:
        array.run(lambda count: progress.show(f"{count} of {array.of} parts have ended"))
    except BaseException as why:
        stopped = why
    progress.close()
    report = merged(array.files(), call, array.of)
    return Made(replace(report, lacking=list(array.said(report.lacking))), stopped)


class Output:
    """A file that is asked for, or none; it is opened ahead of the first run, so that one that can't be written is told at once."""

    def __init__(self, path: Optional[str]):
        self.path, self.file = path, open(path, "w", encoding="utf-8") if path else None

    def write(self, pieces: Iterator[str]) -> str:
        """Writes it as a whole; why it can't, if it can't."""
        try:
            if self.file is not None:
                with naming(self.path), self.file:
                    self.file.writelines(pieces)
        except OSError as why:
            return reason(why)
        return ""


def printed(pieces: Iterator[str]) -> str:
    """Prints a text; why it can't, if it can't."""
    try:
        with naming("standard output"):
            sys.stdout.writelines(pieces)
            sys.stdout.flush()
    except OSError as why:
        return reason(why)
    return ""


def unkept(report: Report) -> str:
    """Why a run couldn't be kept, and how many others weren't."""
    found = [it.unkept for it in report.made.values() if it.unkept]
    return (found[0] + (f", and {len(found) - 1} more runs weren't kept" if found[1:] else "")) if found else ""


class Outputs:
    """The files that are asked for."""

    def __init__(self, given: argparse.Namespace):
        self.junit, self.json, self.cover = (Output(it) for it in (given.junit, given.json, given.cover))

    def told(self, made: Made) -> int:
        """Writes them, and prints the table; gives the status."""
        report, stopped = made
        failures = [self.junit.write(report.junit()), self.json.write(report.json()), self.cover.write(report.reached())]
        said = "; ".join(filter(None, [*failures, printed(report.table()), unkept(report)]))
        if stopped is not None:
            if said:
                tell(f"{NAME}: {one_line(said)}")
            raise stopped
        if said:
            raise Fault(said, Status.CANNOT)
        return report.status()


def seeds_of(text: str) -> List[range]:
    """The seeds of a list as 1-20,33."""
    ranges, count = [], 0
    for part in text.split(","):
        found = SEEDS.fullmatch(part.strip())
        if not found:
            raise argparse.ArgumentTypeError(f"{part[:40]!r} is no seed and no range of seeds, as 33 and 1-20 are")
        first, last = int(found[1]), int(found[2] or found[1])
        if last < first:
            raise argparse.ArgumentTypeError(f"the range {part[:50]!r} ends before it begins")
        count += last + 1 - first
        if count > MOST_SEEDS:
            raise argparse.ArgumentTypeError(f"{text[:50]!r} has more than {MOST_SEEDS:,} seeds")
        ranges.append(range(first, last + 1))
    return ranges


def part_of(text: str) -> Part:
    """A part, as 3/8."""
    found = PART.fullmatch(text)
    part = Part(int(found[1]), int(found[2])) if found else Part(0, 0)
    if not 1 <= part.number <= part.of <= MOST_PARTS:
        raise argparse.ArgumentTypeError(f"{text[:40]!r} is no part: 3/8 is the third of 8, and there are {MOST_PARTS:,} at the most")
    return part


def count_of_parts(text: str) -> int:
    """How many parts there are."""
    count = counting(text)
    if count > MOST_PARTS:
        raise argparse.ArgumentTypeError(f"there are {MOST_PARTS:,} parts at the most")
    return count


def shell_words(text: str) -> List[str]:
    """Words as a shell has them."""
    try:
        return shlex.split(text)
    except ValueError as why:
        raise argparse.ArgumentTypeError(f"{text[:40]!r} aren't words of a shell") from why


def setup_of(path: str) -> bytes:
    """The set-up lines of a file, the last of which ends with a line feed too; none of them may be one that tlscore can't read."""
    lines = Path(path).read_bytes().split(b"\n")
    lines = lines if lines[-1] else lines[:-1]
    for number, line in enumerate(lines, 1):
        check_line(f"{path}, line {number}", line[:-1] if line.endswith(b"\r") else line)
    return b"".join(line + b"\n" for line in lines)


def check_line(place: str, line: bytes) -> None:
    """Refuses a line that is too long, or has a byte that no line of tlscore may have, be it in a comment."""
    odd = next((it for it in line if not 0x20 <= it <= 0x7E), None)
    if odd is not None:
        raise Fault(f"{place}: the byte {odd:02x} may not stand in a line for tlscore, comments too: each is ASCII, from 20 to 7e")
    if len(line) > MOST_OF_A_LINE:
        raise Fault(f"{place}: it has {len(line)} bytes, and a line for tlscore {MOST_OF_A_LINE} at most")


def score_of(given: Optional[str]) -> str:
    """The scoreboard that is asked for: by its word, by TLSCORE, or that on PATH."""
    score = given or os.environ.get("TLSCORE") or "tlscore"
    found = shutil.which(score)
    if not found:
        raise Fault(f"{shlex.quote(score)} can't be run: name the scoreboard by --score or TLSCORE, or put it on PATH", Status.CANNOT)
    return found


def all_words() -> Words:
    words = words_of(NAME, __doc__, MORE)
    words.add_argument("runs", nargs="*", metavar="RUN", help="a file that tlscore reads")
    words.add_argument("--command", help="a command that prints an observation")
    words.add_argument("--seeds", type=seeds_of, default=[], metavar="LIST", help="as 1-20,33: 1,000,000 at the most")
    words.add_argument("-j", "--jobs", type=int, help="how many runs at once (one a processor; by --slurm 1 in each part)")
    words.add_argument("--score", help="the scoreboard (what TLSCORE names, else tlscore)")
    words.add_argument("--setup", metavar="FILE", help="set-up lines that are put ahead of each run")
    words.add_argument("--timeout", type=float, default=600, metavar="SECONDS", help="for a run, its verdict and what else is asked of it (600)")
    words.add_argument("--junit", metavar="FILE", help="where JUnit XML goes")
    words.add_argument("--json", metavar="FILE", help="where JSON goes")
    words.add_argument("--late", type=counting, metavar="N", help="a run in which something took longer than N units of time is slow")
    words.add_argument("--waive", metavar="FILE", help="wrong lines that are let pass, by rule and client or pages, each with a reason")
    words.add_argument("--cover", metavar="FILE", help="where the counts go of what the runs reached, for zuldegei-cover")
    words.add_argument("--without", type=Path, metavar="FILE", help="which bins are left out of the numbers of --cover, and why")
    words.add_argument("--clock", type=counting, metavar="UNITS", help=f"for --cover, {CLOCK}")
    words.add_argument("--keep", metavar="FOLDER", help="where runs that aren't right are kept")
    words.add_argument("--part", type=part_of, metavar="I/N", help="judge the Ith of N parts of the runs, for --merge")
    words.add_argument("--merge", nargs="+", metavar="FILE", help="join what parts wrote by --json")
    words.add_argument("--slurm", type=count_of_parts, metavar="N", help="have Slurm make N parts, and join them")
    words.add_argument("--parts", type=Path, metavar="FOLDER", help="where the parts of --slurm go")
    words.add_argument("--sbatch", type=shell_words, metavar="WORDS", help="more words for sbatch, as --sbatch='--partition=night --time=60'")
    return words


def given_of(arguments: Sequence[str]) -> argparse.Namespace:
    """The words, where they ask for something."""
    words = all_words()
    given = words.parse_args(arguments)
    said = said_of_merge(words, given) if given.merge else said_of_runs(given) or said_of_parts(given)
    if said:
        words.error(said)
    return given


def said_of_merge(words: Words, given: argparse.Namespace) -> str:
    """Why words don't ask for a merge, if they don't."""
    others = {name: value for name, value in vars(given).items() if name not in TO_MERGE and value != []}
    if any(value != words.get_default(name) for name, value in others.items()):
        return "--merge makes no run: with it go --junit, --json and --cover alone"
    outputs = {os.path.realpath(it) for it in (given.junit, given.json, given.cover) if it}
    taken = next((it for it in given.merge if os.path.realpath(it) in outputs), None)
    return f"{taken} is a part, and would be written over" if taken else ""


def said_of_runs(given: argparse.Namespace) -> str:
    """Why words don't ask for runs, if they don't."""
    if not given.runs and given.command is None or given.seeds and "{seed}" not in (given.command or ""):
        return "it takes a RUN or a --command, with {seed} where there are --seeds"
    if given.cover is None and (given.without, given.clock) != (None, None):
        return "--without and --clock are for --cover"
    if given.jobs is not None and not 1 <= given.jobs <= MOST_AT_ONCE or not 0 < given.timeout <= MOST_SECONDS:
        return f"it makes 1 to {MOST_AT_ONCE:,} runs at once, and a run takes some time, of {MOST_SECONDS:,} seconds at the most"
    return ""


def said_of_parts(given: argparse.Namespace) -> str:
    """Why words don't ask for parts, if they do so otherwise than they may."""
    if given.part and (given.slurm or given.json is None):
        return "--part goes with --json, for --merge, and without --slurm"
    if (given.slurm is None) != (given.parts is None) or given.sbatch and not given.slurm:
        return "--slurm goes with --parts, and --parts and --sbatch with --slurm"
    return ""


def words_of_part(given: argparse.Namespace) -> List[str]:
    """The words by which each part of a call makes its runs."""
    seeds = ",".join(f"{it[0]}-{it[-1]}" for it in given.seeds) or None
    values = {"command": given.command, "seeds": seeds, "jobs": given.jobs or 1, "cover": "/dev/null" if given.cover else None}
    others = ("score", "setup", "timeout", "late", "waive", "without", "clock", "keep")
    values.update({name: getattr(given, name) for name in others})
    return [*(f"--{name}={value}" for name, value in values.items() if value is not None), "--", *given.runs]


def merge(given: argparse.Namespace) -> int:
    """Joins parts."""
    report = merged(given.merge)
    if given.cover and not report.covered:
        raise Fault("no part counted what its runs reached: each takes --cover for that")
    return Outputs(given).told(Made(report))


def work(arguments: Sequence[str]) -> int:
    """Does what the words ask for. What was judged is told, however it ends."""
    given = given_of(arguments)
    if given.merge:
        return merge(given)
    score, setup = score_of(given.score), setup_of(given.setup) if given.setup else b""
    beside = Beside(given.late, Waivers(given.waive) if given.waive else None, bool(given.cover), given.clock)
    covered = Covered(Cover(), withouts_of(given.without) if given.without else []) if given.cover else None
    asked = Asked(given.runs, given.command, given.seeds, given.part)
    call = Call.of(asked, setup, beside, covered.withouts if covered else None)
    if given.slurm:
        array = Array(NAME, given.slurm, given.parts, given.jobs or 1, given.sbatch or [])
        outputs = Outputs(given)
        array.prepare(words_of_part(given))
        return outputs.told(made_by(array, call))
    outputs = Outputs(given)
    runner = Runner(score, setup, given.timeout, Keeper(Path(given.keep), asked) if given.keep else None, beside)
    at_once = given.jobs or os.cpu_count() or 1
    return outputs.told(made_here(asked, runner, at_once, covered, call.entry if given.part else None))


def main() -> int:
    signal.signal(signal.SIGTERM, signal.default_int_handler)
    return ended(NAME, lambda: work(sys.argv[1:]))


if __name__ == "__main__":
    sys.exit(main())
