"""zuldegei-explain: what is behind the wrong beats of an observation, as text, and as a time line in one HTML file."""

import sys
from pathlib import Path
from typing import List, Sequence, Tuple

from .causes import Cause, Explainer
from .command import Status, ended, words_of
from .compared import Comparison
from .history import History
from .latency import Latencies
from .observation import Observation, Verdict, Wrong, check_same, plural, verdict_of
from .timeline import page
from .times import counting
from .uncompared import uncompared
from .whole import written

NAME = "zuldegei-explain"
MORE = """
OBSERVATION is what tlscore read, set-up first, and VERDICT what it printed of that:

  tlscore < joined.lines > joined.told; zuldegei-explain joined.lines joined.told --html joined.html

-n COUNT explains so many wrong lines, from the first, 1 or more. --uncompared lists in their place the bytes of replies that tlscore
didn't compare: the pairs of requests that raced, so that a test can keep them apart, and of each other byte why. --late N counts the
requests and bursts that took longer than N units of the `time` lines, as zuldegei-times does, and the picture has a ring around each.

The file needs no network. Keys: + and - zoom, the arrows go on, n and p lead to the next wrong beat and the one before, f to the
first, and a shows all.
Status 0: nothing was wrong; 1: something was, and it is explained.
"""


def explained(cause: Cause, observation: Observation, wrong: Wrong) -> str:
    """The text about a wrong line."""
    line = observation.lines[wrong.line] if wrong.line < len(observation.lines) else ""
    return f"{observation.place(wrong.line)}: {line}\n  {wrong.text}\n{cause.text()}\n"


def summary(verdict: Verdict, history: History) -> str:
    counts = [plural(len(verdict.wrong), "wrong line"), plural(len(history.requests), "request"), plural(len(history.bursts), "burst")]
    return ", ".join(counts)


def late_lines(observation: Observation, late: int) -> List[int]:
    """The first lines of what took longer than this."""
    return [it.beat.line for it in Latencies(late, len(observation.lines)).take_all(observation.lines[1:]).watch.first]


def read(observation: str, verdict: str) -> Tuple[Observation, Verdict]:
    """An observation and its verdict."""
    seen, told = Observation(Path(observation).read_text(errors="replace")), verdict_of(Path(verdict).read_text(errors="replace"))
    check_same(seen, told)
    return seen, told


def work(arguments: Sequence[str]) -> int:
    """Does what the words ask for."""
    words = words_of(NAME, __doc__, MORE)
    words.add_argument("observation", help="what tlscore read")
    words.add_argument("verdict", help="what tlscore printed")
    words.add_argument("-n", type=int, default=1, metavar="COUNT", help="how many wrong lines are explained, from the first (1)")
    words.add_argument("--uncompared", action="store_true", help="which bytes weren't compared, and why")
    words.add_argument("--late", type=counting, metavar="N", help="count and draw what took longer than N units of time")
    words.add_argument("--html", metavar="FILE", help="where the time line goes")
    given = words.parse_args(arguments)
    if given.n < 1:
        words.error(f"-n {given.n}: a count of wrong lines is 1 or more")
    observation, verdict = read(given.observation, given.verdict)
    late = late_lines(observation, given.late) if given.late else []
    history = History(observation, verdict)
    explainer = Explainer(history, Comparison(history))
    verdict = verdict._replace(wrong=explainer.in_order(verdict.wrong))
    shown = verdict.wrong[: given.n]
    causes = [explainer.cause(it) for it in shown]
    texts = [explained(cause, observation, it) for cause, it in zip(causes, shown)]
    said = [uncompared(explainer.comparison, verdict.judged)] if given.uncompared else texts
    counted = f", {len(late)} took longer than {given.late}" if given.late else ""
    print("\n".join([*said, summary(verdict, history) + counted]))
    if given.html:
        name = Path(given.observation).name
        drawn = page(history, verdict, texts, [it.behind for it in causes], name, explainer.index, late)
        with written(Path(given.html)) as file:
            file.write(drawn)
    return Status.WRONG if verdict.wrong else Status.DONE


def main() -> int:
    return ended(NAME, lambda: work(sys.argv[1:]))


if __name__ == "__main__":
    sys.exit(main())
