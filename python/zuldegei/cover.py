"""zuldegei-cover: which of the cases that a set-up allows were reached by runs, by name: as text, HTML, JSON and lcov's .info."""

import sys
from itertools import chain
from pathlib import Path
from typing import Optional, Sequence

from .command import Fault, Status, ended, naming, words_of
from .cover_groups import Covergroups
from .cover_page import Page, in_ascii
from .cover_read import Reader
from .cover_report import Cover, Shown, cover_of, cover_of_json, withouts_of
from .one_pass import opened
from .times import counting
from .whole import written

NAME = "zuldegei-cover"
CLOCK = "how long a clock takes (the least time between two lines `time`)"
MORE = """
RUN is what tlscore reads, set-up first, or what zuldegei-regress --cover or an earlier call with --json wrote. All are added, and where a
bin was reached first is the least by run and line, so that the order of files plays no part.

  zuldegei-regress --setup setup.lines --seeds 1-20 --command 'vvp bench +seed={seed}' --cover night.cover
  zuldegei-cover night.cover --html night.html
  zuldegei-cover monday.cover tuesday.cover more.lines --lcov week.info; genhtml week.info -o week

--without FILE has lines `without PATTERN REASON`: the bins whose names are like that, with * and ?, are left out of what is shown, as
`without id/*/7 the bridge has six slots`. JSON has all of them.

It judges nothing, and wrong runs count as right ones do: zuldegei-regress says which are wrong.
"""


def read(path: str, clock: Optional[int]) -> Cover:
    """What a file says that runs reached: JSON, of which no observation has the first character, or an observation."""
    with naming(path), opened(path) as file:
        first = file.readline()
        if first.startswith("{"):
            return cover_of_json(first + file.read(), path)
        try:
            return cover_of(path, Reader(clock).read(chain([first], file)))
        except Fault as why:
            raise Fault(f"{path}: {why}") from why


def work(arguments: Sequence[str]) -> int:
    """Does what the words ask for."""
    words = words_of(NAME, __doc__, MORE)
    words.add_argument("runs", nargs="+", metavar="RUN", help="an observation, or what earlier calls found")
    words.add_argument("--without", type=Path, metavar="FILE", help="which bins are left out, and why")
    words.add_argument("--missed", action="store_true", help="list each bin that was never reached")
    words.add_argument("--json", type=Path, metavar="FILE", help="where the counts go, for later calls")
    words.add_argument("--html", type=Path, metavar="FILE", help="where the page goes")
    words.add_argument("--lcov", type=Path, metavar="FILE", help="where lcov's .info goes, with a folder FILE.bins beside it")
    words.add_argument("--covergroups", type=Path, metavar="FILE", help="where a module of covergroups goes, with these bins")
    words.add_argument("--clock", type=counting, metavar="UNITS", help=CLOCK)
    given = words.parse_args(arguments)
    withouts = withouts_of(given.without) if given.without else []
    cover = Cover()
    for run in given.runs:
        cover.add(read(run, given.clock))
    shown = Shown(cover, withouts)
    print(shown.text(given.missed))
    if given.json:
        with written(given.json) as file:
            file.write(cover.json())
    if given.html:
        with written(given.html) as file:
            file.write(in_ascii(Page(shown, given.html).text()))
    if given.lcov:
        shown.lcov(given.lcov)
    if given.covergroups:
        with written(given.covergroups) as file:
            file.write(Covergroups(shown).text())
    return Status.DONE


def main() -> int:
    return ended(NAME, lambda: work(sys.argv[1:]))


if __name__ == "__main__":
    sys.exit(main())
