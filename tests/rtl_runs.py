"""The bridges in RTL under a simulator: the first one, in front of each memory, isn't found wrong, and each fault that is planted in
it is told, by both profiles; the other one, whose Puts are seen as their beats come, isn't found wrong by what TileLink asks
where no access fails. Then 20 runs of both as they are, as run.py --right makes them, in front of the memory too whose good pages
fail by lot, and 20 more in which all is reset twice: none is found wrong, and those of the second one do what they are to show.
By errors strict what fails so is found wrong. All of it once where the memory begins with zeros, and once where it begins with
bytes that nobody told tlscore; these are found wrong where the set-up has zeros. Where it begins with x, the right bridges and the
fault that an x shows are simulated alone; these bridges are found wrong where the set-up has no line `x data`. Before them the
stored runs, of which each shows a fault, are simulated anew and judged. Where there is no simulator these are judged alone, and that
is said, and what the simulator can't show, since it has no x, is named.

    python3 tests/rtl_runs.py TLSCORE [--right N]
"""

import argparse
import functools
import operator
import os
import sys
import tempfile
from pathlib import Path

from ends import asked, told

sys.path.append(str(Path(__file__).resolve().parent.parent / "examples/testbench/rtl"))
import run
import runs


SOURCES, IDS, AT_ONCE = 2 * 16, 8, 4  # of both clients; of both sides; at the least
RESETS = 2


def blamed(pages):
    """What is found wrong of a bridge that is right: by errors strict that good pages fail, or bytes that the set-up has as zeros; or x in
    data, where the set-up doesn't say that there may be some."""
    if pages == "unknown":
        yield from (run.Bench("bridge", run.Asked(profile, pages="any"), began="UNKNOWN") for profile in run.PROFILES)
        return
    yield run.Bench("streaming_bridge", run.Asked("tilelink", pages=pages), run.FAILING, is_calm=True)
    if pages == "good":
        yield from (run.Bench("bridge", run.Asked(profile), began="NOISE") for profile in run.PROFILES)


def planted(pages):
    """The testbenches by the profiles that are their own."""
    strict = run.Asked("bridge", pages=pages), run.Asked("tilelink", pages=pages)
    if pages == "unknown":
        return [run.Bench("bridge", asked, bug=bug) for asked in strict for bug in run.SHOWN_BY_X]
    benches = [bench for asked in strict for bench in run.benches("bridge", asked)]
    return benches + run.benches("streaming_bridge", run.Asked("tilelink", pages=pages), is_calm=True)


def plan_of(pages, right):
    """A run of each testbench, and so many runs of the right ones, and as many in which all is reset twice."""
    plan = run.right_plan(range(1, right + 1), pages)
    return [(bench, [1]) for bench in (*planted(pages), *blamed(pages))] + plan + run.with_resets(plan, RESETS)


def idle(traffic):
    """What runs of the streaming bridge have to show and don't."""
    counts = {
        "sources": len(traffic.sources) == SOURCES,
        "IDs": len(traffic.ids) == IDS,
        "requests at once": traffic.at_once >= AT_ONCE,
        "replies out of order": traffic.overtaking,
        "addresses ahead of a Put's last beat": traffic.streamed,
        "replies ahead of a request's last beat": traffic.foretold,
    }
    return [name for name, is_there in counts.items() if not is_there]


def cases(asked_for):
    """Each testbench, and what the right ones did."""
    simulator = run.installed()
    yield from ((f"the stored run {name}", why) for name, why in runs.compared(simulator, asked_for.tlscore))
    for stored in runs.without_x(simulator) if simulator else ():
        print(f"skipped: to simulate the stored run {stored.name} anew, as {simulator} has no x")
    if not simulator:
        print(f"skipped: the bridges in RTL, as neither {' nor '.join(run.SIMULATORS)} is installed")
        return
    given = argparse.Namespace(simulator=simulator, score=asked_for.tlscore, jobs=os.cpu_count() or 1)
    for pages in run.PAGES:
        seen, wrong = [], [*blamed(pages)]
        plan, left_out = run.shown_in(plan_of(pages, asked_for.right), simulator)
        for bench in left_out:
            print(f"skipped: {name_of(bench)}, as {simulator} has no x")
        with tempfile.TemporaryDirectory() as folder:
            for variant in run.tried(plan, given, Path(folder)):
                yield name_of(variant.bench), None if variant.is_well() != (variant.bench in wrong) else str(variant)
                seen += [variant.traffic] if variant.bench.bridge == "streaming_bridge" and not variant.bench.is_calm else []
        lacking = idle(functools.reduce(operator.or_, seen, run.traffic.Traffic()))
        if plan:
            yield f"what the streaming bridge's runs show, {pages}", f"none had {', '.join(lacking)}" if lacking else None


def name_of(bench):
    asked = bench.asked
    resets = f", reset {bench.resets} times" if bench.resets else ""
    fault = f" with {bench.bug}" if bench.bug != run.RIGHT else ""
    return f"{bench.device} in RTL{fault}, by profile {asked.profile} and errors {asked.errors}, {asked.pages} pages{resets}"


if __name__ == "__main__":
    words = asked(__doc__, "tlscore")
    words.add_argument("--right", type=int, default=20, help="how many runs of the right bridges, by each kind of pages (20)")
    sys.exit(told(cases(words.parse_args())))
