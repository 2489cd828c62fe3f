"""What zuldegei-explain --uncompared lists of bytes that tlscore didn't compare. Of hand-written observations: the requests that raced, in
pairs, with their lines, and of each other byte why. Of the rows of score_cases.py, the stored runs and examples, and histories by lot: that
the list counts as the verdict does, and each byte once.

    python3 tests/uncompared.py TLSCORE [HISTORIES] [--seed WORD]
"""

import argparse
import random
import re
import subprocess
import sys
import tempfile
from collections import Counter
from pathlib import Path
from typing import Iterator, List, Optional, Tuple

from ends import TOP, Case, asked, told
from package import RTL, command
from races import History as Races
from score_cases import all_cases
from stored import observations
from zuldegei.command import Fault
from zuldegei.compared import Comparison, Why
from zuldegei.history import History
from zuldegei.observation import Observation, verdict_of
from zuldegei.uncompared import uncompared


def listed(score: str, folder: Path) -> Iterator[Case]:
    """The lists of observations by hand, which tlscore finds right, with the count of its verdict."""
    verdict = folder / "listed.told"
    for lines in observations(TOP / "tests/commands/uncompared"):
        name, text = lines.stem, lines.with_suffix(".list").read_text()
        lacking, all_of_it = map(int, re.match(r"(\d+) of (\d+) ", text).groups())
        judged = subprocess.run([score], stdin=lines.open("rb"), capture_output=True, text=True)
        verdict.write_text(judged.stdout)
        counted = f"compared {all_of_it - lacking} of {all_of_it}\n"
        yield f"{name}: the verdict", None if judged.returncode == 0 and judged.stdout.endswith(counted) else judged.stdout + judged.stderr
        ran, wanted = command("explain", "--uncompared", lines, verdict), f"{text}\n0 wrong lines, "
        is_well = ran.returncode == 0 and ran.stdout.startswith(wanted) and ran.stdout.count("\n") == wanted.count("\n") + 1
        yield name, None if is_well else f"status {ran.returncode}, {ran.stdout}{ran.stderr}, not {wanted}"
    lines = TOP / "tests/commands/uncompared/a-get-that-raced-with-nothing.lines"
    verdict.write_text("= judged 4 wrong 0 outstanding 0 open 0 compared 8 of 9\n")
    ran = command("explain", "--uncompared", lines, verdict)
    yield "a verdict with another count", None if "(the verdict says compared 8 of 9: " in ran.stdout else ran.stdout


def counted(lines: str, verdict: str) -> Tuple[Optional[str], Counter]:
    """How the list of an observation doesn't count as its verdict, or has a byte twice; and how many bytes it has by each reason."""
    told_of = verdict_of(verdict)
    comparison = Comparison(History(Observation(lines), told_of))
    by_reason = Counter()
    for it in comparison.missed:
        by_reason[it.reason.why] += len(it.addresses)
    beats = Counter((it.line, address) for it in comparison.missed for address in it.addresses)
    got, due = (comparison.compared, comparison.told), (told_of.judged.compared, told_of.judged.told)
    if got != due:
        return f"compared {got[0]} of {got[1]}, not {due[0]} of {due[1]}", by_reason
    if sum(by_reason.values()) != due[1] - due[0] or any(it > 1 for it in beats.values()):
        return f"{sum(by_reason.values())} bytes are listed, of {due[1] - due[0]}", by_reason
    text = uncompared(comparison, told_of.judged)
    heads = [int(it) for it in re.findall(r"(?m)^(\d+) bytes? (?!of|that)", text.partition("\n")[2])]
    return None if sum(heads) == due[1] - due[0] and "(the verdict" not in text else text, by_reason


def stored() -> Iterator[Tuple[str, str, str]]:
    """Observations with their verdicts: rows of other tests, examples and stored runs."""
    for name, given, status, text, _ in all_cases():
        if status < 2:
            yield name, given.decode(), text.decode()
    pairs = [(it, it.with_suffix(".told")) for it in sorted((RTL / "runs").glob("*.lines"))]
    pairs += [(it, it.with_suffix(".out")) for it in sorted((TOP / "examples/scoreboard").glob("*.in"))]
    for lines, verdict in pairs:
        if "= judged" in verdict.read_text():
            yield lines.stem, lines.read_text(), verdict.read_text()


def by_lot(score: str, given: argparse.Namespace) -> Iterator[Tuple[str, str, str]]:
    """Histories by lot, most of which race, and what tlscore says of them."""
    for number in range(given.histories):
        history = Races(random.Random(f"{given.seed} {number}"), ("strict", "any")[number % 2])
        lines = "".join(f"{it}\n" for it in history.lines)
        yield f"history {number}", lines, subprocess.run([score], input=lines, capture_output=True, text=True).stdout


def agreeing(those: Iterator[Tuple[str, str, str]], least: int, reasons: List[Why], what: str) -> Iterator[Case]:
    """Whether the lists of observations count as their verdicts do, and have bytes by each of these reasons."""
    seen, count = Counter(), 0
    for name, lines, verdict in those:
        try:
            why, by_reason = counted(lines, verdict)
        except Fault as fault:
            why, by_reason = str(fault), Counter()
        seen, count = seen + by_reason, count + 1
        if why:
            yield f"the count of {name}", why
    lacking = [it.name for it in reasons if not seen[it]]
    yield f"the counts of {what}", None if count >= least and not lacking else f"of {count}, none with {lacking}"


def cases(given: argparse.Namespace) -> Iterator[Case]:
    print(f"seed {given.seed}")
    with tempfile.TemporaryDirectory() as folder:
        yield from listed(given.tlscore, Path(folder))
    yield from agreeing(stored(), 250, list(Why), "rows, examples and stored runs")
    yield from agreeing(by_lot(given.tlscore, given), given.histories, [Why.RACED, Why.LEFT], "histories by lot")


if __name__ == "__main__":
    words = asked(__doc__, "tlscore", by_lot=True)
    words.add_argument("histories", nargs="?", type=int, default=60)
    sys.exit(told(cases(words.parse_args())))
