"""What zuldegei-regress says of a run beside its verdict: which of its wrong lines are waived, what took too long in it, and what it reached.
Processes of their own say it, so that several runs are read at once, and one that takes too long can be ended."""

import contextlib
import pickle
import queue
import signal
import subprocess
import sys
import threading
import time
from pathlib import Path
from typing import BinaryIO, Dict, NamedTuple, Optional, Sequence, Set

from .command import Fault, reason, unexpected
from .cover_read import Reader
from .cover_report import cover_of
from .latency import Latencies
from .one_pass import Several, Taker, opened, read
from .reports import Outcome, State
from .waivers import Waivers

JUDGED = (State.RIGHT, State.WRONG, State.WAIVED)  # states of a run in which beats were judged
START = "import sys; sys.dont_write_bytecode = True; sys.path.append(sys.argv[1]); from zuldegei.beside import serve; serve()"


class Beside(NamedTuple):
    """What a run is asked beside its verdict: which wrong lines are waived, that nothing takes longer than `late`, and whether it is told
    what the run reached, with clocks of `clock`, if that is given."""

    late: Optional[int] = None
    waivers: Optional[Waivers] = None
    is_covered: bool = False
    clock: Optional[int] = None

    def asks(self, state: State) -> bool:
        """Whether anything is asked of a run that ended so."""
        is_waived = state is State.WRONG and self.waivers is not None
        return is_waived or self.late is not None and state in JUDGED or self.is_covered and state in (*JUDGED, State.NOTHING)

    def applied(self, made: Outcome, observation: Path, verdict: str) -> Outcome:
        """A wrong run without what is waived of it, and one that was judged with what took too long and what it reached."""
        if made.state is State.WRONG and self.waivers:
            made = without_waived(made, self.waivers, observation, verdict)
        latencies = Latencies(self.late, 1) if self.late is not None and made.state in JUDGED else None
        reader = Reader(self.clock) if self.is_covered else None
        faults = read_once(observation, [it for it in (latencies, reader) if it is not None])
        made = with_late(made, latencies, faults.get(latencies)) if latencies else made
        return with_cover(made, reader, faults.get(reader)) if reader else made

    def unsaid(self, made: Outcome, state: State, why: str) -> Outcome:
        """A run of which it isn't known what is asked: where nothing was wrong, it isn't right either."""
        state = made.state if made.state is State.WRONG else state
        return made._replace(state=state, why=why, uncovered=why if self.is_covered else "")


def read_once(observation: Path, takers: Sequence[Taker]) -> Dict[Taker, Fault]:
    """Reads an observation for all that take it; gives the faults that ended the parts of some."""
    several = Several(*takers)
    try:
        if takers:
            with opened(observation) as lines:
                read(lines, several)
    except Fault as why:
        return {**dict.fromkeys(takers, why), **several.faults}
    return several.faults


def without_waived(made: Outcome, waivers: Waivers, observation: Path, verdict: str) -> Outcome:
    """A wrong run without the lines that are waived; where it can't be said which are, none is."""
    try:
        found = waivers.applied(observation, verdict)
    except Fault as why:
        return made._replace(why=f"nothing was waived: {why}")
    first = found.left[0] if found.left else None
    told = (first.text[2:], first.line, first.time) if first else ("", None, None)
    state = State.WRONG if found.left else State.WAIVED
    made = made._replace(state=state, wrong=len(found.left), waivers=tuple(sorted(found.counts.items())))
    return made._replace(first=told[0], line=told[1], time=told[2])


def with_late(made: Outcome, found: Latencies, fault: Optional[Fault]) -> Outcome:
    """A run with what took too long; where that can't be said of one in which nothing is wrong, it isn't right either."""
    if fault:
        return made._replace(state=made.state if made.state is State.WRONG else State.FAILED, why=f"no times: {fault}")
    if not found.watch.count:
        return made
    first = found.watch.first[0]
    state = made.state if made.state is State.WRONG else State.SLOW
    return made._replace(state=state, late=found.watch.count, first_late=f"line {first.beat.line} {first.text(found.now)}")


def with_cover(made: Outcome, reader: Reader, fault: Optional[Fault]) -> Outcome:
    """A run with what it reached, or why that can't be said."""
    return made._replace(uncovered=str(fault)) if fault else made._replace(cover=cover_of(made.job.name, reader))


# ---- processes


class Request(NamedTuple):
    """What a process is asked: what, of which run, and where its observation and its verdict are."""

    beside: Beside
    made: Outcome
    observation: Path
    verdict: str

    def answer(self) -> Outcome:
        """What is said of the run, whatever goes wrong."""
        try:
            return self.beside.applied(self.made, self.observation, self.verdict)
        except OSError as why:
            return self.beside.unsaid(self.made, State.FAILED, reason(why))
        except MemoryError:
            return self.beside.unsaid(self.made, State.FAILED, "out of memory")
        except Exception as why:
            return self.beside.unsaid(self.made, State.FAILED, unexpected(why))


def serve() -> None:
    """Answers requests, one behind the other, until there are no more."""
    signal.signal(signal.SIGINT, signal.SIG_IGN)
    given, taken = sys.stdin.buffer, sys.stdout.buffer
    while True:
        try:
            request = pickle.load(given)
        except EOFError:
            return
        pickle.dump(request.answer(), taken)
        taken.flush()


class Helper:
    """A process that answers requests."""

    def __init__(self):
        words = [sys.executable, "-I", "-c", START, str(Path(__file__).resolve().parent.parent)]
        pipe = subprocess.PIPE
        self.process = subprocess.Popen(words, stdin=pipe, stdout=pipe, stderr=subprocess.DEVNULL, start_new_session=True)

    def answer(self, request: Request, seconds: float) -> Optional[Outcome]:
        """Its answer; none, where it was ended or ended by itself."""
        timer = threading.Timer(seconds, self.end)
        timer.start()
        try:
            return self.exchanged(request, self.process.stdin, self.process.stdout)
        finally:
            timer.cancel()

    @staticmethod
    def exchanged(request: Request, given: BinaryIO, taken: BinaryIO) -> Optional[Outcome]:
        try:
            pickle.dump(request, given)
            given.flush()
            return pickle.load(taken)
        except (EOFError, BrokenPipeError, pickle.UnpicklingError):
            return None

    def end(self) -> None:
        """Ends it."""
        self.process.kill()

    def close(self) -> None:
        """Ends it, and waits for that."""
        self.end()
        for pipe in (self.process.stdin, self.process.stdout):
            with contextlib.suppress(OSError):
                pipe.close()
        self.process.wait()


class Helpers:
    """Processes that answer requests, as many as are needed at once."""

    def __init__(self):
        self.idle: "queue.SimpleQueue[Helper]" = queue.SimpleQueue()
        self.all: Set[Helper] = set()
        self.is_stopped = False

    def answer(self, request: Request, until: float) -> Optional[Outcome]:
        """What a process answers, if it does so in time."""
        helper = self.one()
        answer = helper.answer(request, max(0.1, until - time.monotonic()))
        if answer is None:
            self.all.discard(helper)
            helper.close()
        else:
            self.idle.put(helper)
        return answer

    def one(self) -> Helper:
        """A process that isn't asked anything now."""
        try:
            return self.idle.get_nowait()
        except queue.Empty:
            helper = Helper()
            self.all.add(helper)
        if self.is_stopped:
            helper.end()
        return helper

    def stop(self) -> None:
        """Ends all, and those that begin from here on."""
        self.is_stopped = True
        for helper in list(self.all):
            helper.end()

    def close(self) -> None:
        """Ends all; nobody asks any more."""
        for helper in list(self.all):
            helper.close()
