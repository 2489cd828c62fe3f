"""What zuldegei-cover finds in observations. Of one written by hand for each group (tests/cover) all bins of the group, how often each was
reached and in which line first, as the file beside it has them; each of these observations is right by tlscore. Beats that break a rule
reach no bin of a request; no history of score_cases.py is refused, and no right one reaches what its set-up hasn't. Merging in any order
and any parts gives the same file. The corners of each rule of docs/RULES.md, and the groups of docs/COVERAGE.md. What genhtml, lcov and
Chromium make of what it writes, where they are installed. Its words, its faults and its files. Its speed, and that a longer run takes no
more room.

    python3 tests/cover.py TLSCORE
"""

import itertools
import json
import random
import re
import shutil
import subprocess
import sys
import tempfile
import time
import tracemalloc
from collections import Counter
from fnmatch import fnmatchcase
from html.parser import HTMLParser
from pathlib import Path
from typing import Dict, Iterator, List, Optional, Tuple

from ends import TOP, Case, is_there, told
from package import RTL, command
from pictures import BROWSERS
from score_cases import all_cases
from zuldegei.command import Fault
from zuldegei.cover_bins import CORNERS, GROUPS, bins_of
from zuldegei.cover_read import Reader
from zuldegei.cover_report import Cover, cover_of, cover_of_json
from zuldegei.cover_setup import Setup, config_of
from zuldegei.observation import Observation

CASES, COMMAND, RUNS = TOP / "tests/cover", TOP / "tests/commands/cover", sorted((RTL / "runs").glob("*.lines"))
RULE = re.compile(r"(?m)^\| (\d+ [A-Z0-9_]+)[^|]*\| `crates/")  # of a row that has a rule's places
GROUP = re.compile(r"(?m)^\| `([a-z-]+)` \| ")  # of a row of docs/COVERAGE.md
LEAST_SPEED, SPEED_BEATS, TRIES = 30_000, 60_000, 8  # beats a second of a processor, of so many beats, the best of so many
MOST_MORE = 1.2  # times the room that a run of a quarter takes
MERGES = 40
# A set-up in which each group and each rule has bins.
WIDE = (COMMAND / "wide.lines").read_text()
# Beats that break a rule each, behind which nothing of a request is reached.
BROKEN = (COMMAND / "broken.beats").read_text()


def read(text: str) -> Reader:
    return Reader().read(text.splitlines(True))


# ---- bins


def reached(reader: Reader, group: str) -> Dict[str, str]:
    """The bins of a group as a file of tests/cover has them."""
    found = {name: " ".join(map(str, at)) for name, at in reader.hits.found.items() if name.startswith(f"{group}/")}
    return {**{name: "-" for name in reader.bins() if name.startswith(f"{group}/")}, **found}


def listed(path: Path) -> Dict[str, str]:
    """The bins that a file of tests/cover has: how often, and in which line first, or `-`."""
    rows = (line.split(" ", 1) for line in path.read_text().splitlines())
    return {f"{path.stem}/{name}": rest for name, rest in rows}


def by_hand(score: str) -> Iterator[Case]:
    """The observations written by hand, one for each group."""
    there = {it.stem for it in CASES.iterdir()}
    yield "an observation for each group", None if there == {it.name for it in GROUPS} else f"there are {sorted(there)}"
    for group in GROUPS:
        path = CASES / f"{group.name}.lines"
        text, due = path.read_text(), listed(path.with_suffix(".bins"))
        found = reached(read(text), group.name)
        apart = [f"{it}: {found.get(it)}, not {due.get(it)}" for it in sorted({*found, *due}) if found.get(it) != due.get(it)]
        yield f"the bins of {group.name}", "; ".join(apart) or None
        ran = subprocess.run([score], input=text, capture_output=True, text=True)
        yield f"the observation of {group.name} is right", None if ran.returncode == 0 else f"{ran.stdout[-200:]} {ran.stderr}"
        yield f"{group.name} has bins of both kinds", both_kinds(group.name, due)


def both_kinds(group: str, due: Dict[str, str]) -> Optional[str]:
    """Whether some bins of a case are reached; where there are three or more, also whether it says of others that they aren't."""
    missed = sum(it == "-" for it in due.values())
    is_all = group in ("together", "reset", "source", "id", "open", "depth", "bad-word")
    return None if missed < len(due) and (missed or is_all) else f"{missed} of {len(due)} aren't reached"


def broken(score: str) -> Iterator[Case]:
    """Beats that break a rule."""
    for line in BROKEN.splitlines():
        ran = subprocess.run([score], input=f"{WIDE}{line}\n", capture_output=True, text=True)
        found = sorted(read(f"{WIDE}{line}\n").hits.found)
        yield f"{line!r} is wrong", None if ran.returncode == 1 else ran.stdout
        yield f"{line!r} reaches nothing", ", ".join(found) or None
    later = "A 1 0 0 4 0 00000000 ff 0 0\nA 1 0 0 4 1 00000000 ff 0 0\nA 1 0 0 4 0 00000000 ff 0 0\n"
    gaps = [it for it in read(f"{WIDE}time 1\n{later}time 2\n").hits.found if it.startswith("flight/all")]
    yield "a later beat of another source begins nothing", None if gaps == ["flight/all/1"] else str(gaps)


def histories() -> Iterator[Case]:
    """The observations of score_cases.py that the scoreboard reads to their end: none is refused, and what a right one reaches its set-up
    has."""
    count = 0
    for name, given, status, *_ in all_cases():
        if status > 1:
            continue
        count += status == 0
        try:
            beside = sorted(cover_of(name, read(given.decode())).beside)
        except Fault as why:
            beside = [str(why)]
        if beside and (status == 0 or beside[0].startswith("line")):
            yield name, ", ".join(beside)
    yield "histories of the scoreboard", None if count > 20 else f"{count} of them are right"


def tables() -> Iterator[Case]:
    """The rules and the groups, beside the pages."""
    rules = Counter(RULE.findall((TOP / "docs/RULES.md").read_text()))
    ours = Counter(it.partition(" ")[2] for it in CORNERS)
    yield "the rules of docs/RULES.md", None if rules == ours and len(rules) > 30 else f"apart: {sorted((rules - ours) + (ours - rules))}"
    lines = WIDE.splitlines()
    seen = Observation("")
    for line in lines:
        seen.set_up(0, line.split())
    names = bins_of(Setup(config_of(lines[0].split()[1:]), seen), ["time", "waited"])
    yield "each bin has one name", None if len(names) == len({*names}) else "some have the same"
    yield "each group has bins", ", ".join(it.name for it in GROUPS if not any(name.startswith(f"{it.name}/") for name in names)) or None
    for rule, patterns in CORNERS.items():
        empty = [it for it in patterns if not any(fnmatchcase(name, it) for name in names)]
        yield f"the corners of {rule}", f"no bin is like {', '.join(empty)}" if empty or not patterns else None
    page = [*dict.fromkeys(GROUP.findall((TOP / "docs/COVERAGE.md").read_text()))]
    yield "the groups of docs/COVERAGE.md", None if page == [it.name for it in GROUPS] else f"it has {page}"


# ---- merging


def covers() -> List[Cover]:
    """What single runs reached."""
    paths = [*RUNS, *sorted(CASES.glob("*.lines"))]
    return [cover_of(it.name, read(it.read_text())) for it in paths]


def merged(parts: List[Cover]) -> Cover:
    cover = Cover()
    for part in parts:
        cover.add(part)
    return cover


def in_parts(texts: List[str], lot: random.Random) -> str:
    """Merges files in an order and in parts by lot, as far as one file is left."""
    texts = lot.sample(texts, len(texts))
    while len(texts) > 1:
        count = lot.randrange(2, len(texts) + 1)
        part = [cover_of_json(it, "a part") for it in texts[:count]]
        texts = lot.sample([*texts[count:], merged(part).json()], len(texts) - count + 1)
    return texts[0]


def merging() -> Iterator[Case]:
    """Any order and any parts give the same file; counts are those of all runs together, and first hits the least."""
    all_covers, lot = covers(), random.Random(1)
    texts = [it.json() for it in all_covers]
    whole = merged(all_covers).json()
    yield "what was written is read", None if all(cover_of_json(it, "").json() == it for it in texts) else "it is another"
    apart = [number for number in range(MERGES) if in_parts(texts, lot) != whole]
    yield "merging in any order and parts", f"{len(apart)} of {MERGES} give another file" if apart else None
    found, parts = json.loads(whole), [json.loads(it) for it in texts]
    yield "runs and beats are added", None if all(found[it] == sum(part[it] for part in parts) for it in ("runs", "beats")) else "not so"
    for name, entry in found["bins"].items():
        entries = [part["bins"][name] for part in parts if name in part["bins"]]
        due = [sum(it[0] for it in entries), *min((it[1:] for it in entries if it[0]), default=[])]
        if entry != due:
            yield f"the sum of {name}", f"{entry}, not {due}"
    yield "sums were looked at", None if sum(it[0] > 0 for it in found["bins"].values()) > 150 else "hardly any"


# ---- what others read


class Squares(HTMLParser):
    """Counts the squares of a page by their kind, and keeps their names and links."""

    def __init__(self):
        super().__init__()
        self.kinds: "Counter[str]" = Counter()
        self.links: Dict[str, str] = {}
        self.table = ""

    def handle_starttag(self, tag: str, attributes: List[Tuple[str, Optional[str]]]) -> None:
        found = dict(attributes)
        self.table = found.get("id", self.table) if tag in ("table", "ul") else self.table
        if tag == "a" and self.table == "groups":
            self.kinds[found["class"]] += 1
            self.links[found["title"].partition(":")[0]] = found.get("href", "")


def outputs(folder: Path) -> Iterator[Case]:
    """JSON, lcov's .info and the page of two runs, of which one has a picture beside it, and whether others read them."""
    for name in ("cut-short", "first-mask"):
        shutil.copy(RTL / f"runs/{name}.lines", folder)
    (folder / "cut-short.html").write_text("a picture")
    words = ("cut-short.lines", "first-mask.lines", "--json", "all.json", "--html", "all.html", "--lcov", "all.info")
    ran = command("cover", *words, cwd=folder)
    last = re.search(r"(?m)^2 runs, (\d+) beats: (\d+) of (\d+) bins, ([\d.]+) %$", ran.stdout)
    yield "two runs", None if ran.returncode == 0 and last and not ran.stderr else f"{ran.returncode} {ran.stderr} {ran.stdout[-300:]}"
    if not last:
        return
    bins = json.loads((folder / "all.json").read_text())["bins"]
    counts = Counter("never" if not it[0] else "few" if it[0] < 3 else "often" for it in bins.values())
    yield "the last line", None if (int(last[2]), int(last[3])) == (len(bins) - counts["never"], len(bins)) else last[0]
    yield from page((folder / "all.html"), bins, counts)
    yield from lcov(folder, bins)
    again = command("cover", "all.json", "--json", "again.json", cwd=folder)
    same = (folder / "again.json").read_text() == (folder / "all.json").read_text()
    yield "the file alone, merged", None if again.returncode == 0 and same and again.stdout == ran.stdout else again.stderr or "another"


def page(path: Path, bins: Dict[str, list], counts: "Counter[str]") -> Iterator[Case]:
    """The squares of a page, and what a browser makes of it."""
    squares, text = Squares(), path.read_text()
    squares.feed(text)
    yield "the page's squares", None if squares.kinds == counts else f"{squares.kinds}, not {counts}"
    runs = {"cut-short.lines": "cut-short.html", "first-mask.lines": "first-mask.lines"}
    wrong = [it for it, entry in bins.items() if squares.links.get(it) != (runs[entry[1]] if entry[0] else "")]
    yield "where they lead", f"{len(wrong)} elsewhere, as {wrong[0]} to {squares.links.get(wrong[0])}" if wrong else None
    yield "the page asks for nothing from elsewhere", "it does" if re.search(r"(?i)src=|https?:|@import|<script", text) else None
    browser = next(filter(None, map(shutil.which, BROWSERS)), None)
    if not browser:
        print("skipped: the page in a browser: Chromium isn't installed", flush=True)
        return
    shot = path.with_suffix(".png")
    words = [browser, "--headless", "--no-sandbox", "--disable-gpu", f"--user-data-dir={path.parent / 'profile'}", f"--screenshot={shot}"]
    subprocess.run([*words, "--window-size=1200,1600", path.as_uri()], capture_output=True, timeout=300)
    yield "the page in a browser", None if shot.is_file() and shot.stat().st_size > 20_000 else "it shows nothing"


def lcov(folder: Path, bins: Dict[str, list]) -> Iterator[Case]:
    """What lcov and genhtml say of the .info file."""
    hit, groups = sum(it[0] > 0 for it in bins.values()), {it.partition("/")[0] for it in bins}
    if not is_there("the file for lcov", "lcov", "genhtml"):
        return
    said = subprocess.run(["lcov", "--summary", "all.info"], cwd=folder, capture_output=True, text=True)
    due = f"({hit} of {len(bins)} lines)"
    yield "lcov's summary", None if due in said.stdout + said.stderr and said.returncode == 0 else f"{said.stdout}{said.stderr}"
    subprocess.run(["lcov", "-q", "-a", "all.info", "-a", "all.info", "-o", "twice.info"], cwd=folder, capture_output=True)
    doubled = [int(it) for it in re.findall(r"(?m)^DA:\d+,(\d+)", (folder / "twice.info").read_text())]
    yield "lcov adds", None if sum(doubled) == 2 * sum(it[0] for it in bins.values()) else "another sum"
    made = subprocess.run(["genhtml", "-q", "all.info", "-o", "pages"], cwd=folder, capture_output=True, text=True)
    pages = {it.name.partition(".")[0] for it in folder.glob("pages/**/*.gcov.html")}
    yield "genhtml's pages", None if made.returncode == 0 and pages == groups else f"{made.stderr}{pages ^ groups}"
    shown = "".join(it.read_text() for it in folder.glob("pages/**/request.gcov.html"))
    yield "genhtml's names", None if "request/Get/32B/client1" in shown else "they aren't there"


# ---- words and faults


def without(folder: Path) -> Iterator[Case]:
    """Bins that are left out, by patterns and with reasons."""
    shutil.copy(CASES / "source.lines", folder)
    lines = ("# reasons", "without source/of-* one client at a time", "without wait/* nobody prints them", "without reset/idle no reset")
    (folder / "out.lines").write_text("\n".join(lines))
    all_, ran = (command("cover", "source.lines", *more, cwd=folder) for more in ((), ("--without", "out.lines", "--html", "out.html")))
    before, after = (re.search(r": (\d+) of (\d+) bins", it.stdout) for it in (all_, ran))
    due = (int(before[1]) - 1, int(before[2]) - 2)
    yield "bins that are left out", None if (int(after[1]), int(after[2])) == due and "\n2 bins left out\n" in ran.stdout else ran.stdout
    due_line = "line 2: 1 bin left out and reached all the same: source/of-two-clients"
    yield "one that was reached all the same", None if due_line in ran.stdout else ran.stdout
    yield "a pattern without a bin", None if "line 3: no bin that is left has a name like wait/*" in ran.stdout else ran.stdout
    text = (folder / "out.html").read_text()
    yield "the reasons on the page", None if "<td>one client at a time</td>" in text else "they aren't there"
    (folder / "odd.lines").write_text("without reset/idle\n")
    yield "a line without a reason", fault(command("cover", "source.lines", "--without", "odd.lines", cwd=folder), 2, "line 1 of odd.lines")
    missed = command("cover", "source.lines", "--missed", cwd=folder).stdout.splitlines()
    names = [it for it in missed if re.fullmatch(r"[a-z-]+/\S+", it)]
    yield "the list of what was missed", None if len(names) == int(before[2]) - int(before[1]) and "reset/idle" in names else str(len(names))


def fault(ran: subprocess.CompletedProcess, status: int, said: str) -> Optional[str]:
    """How a call didn't end with a status and one line that says this."""
    is_one_line = ran.stderr.count("\n") == 1 and ran.stderr.startswith("zuldegei-cover: ")
    return None if ran.returncode == status and is_one_line and said in ran.stderr else f"status {ran.returncode}, {ran.stderr[-300:]!r}"


def faults(folder: Path) -> Iterator[Case]:
    """Calls that can't be carried out."""
    for said in sorted((COMMAND / "faults").glob("*.said")):
        given = next(it for it in said.parent.glob(f"{said.stem}.*") if it != said)
        yield given.name, fault(command("cover", given.name, cwd=given.parent), 2, said.read_text().strip())
    yield "no such file", fault(command("cover", "nothing.lines", cwd=folder), 3, "nothing.lines: No such file")
    yield "no words", fault(command("cover", cwd=folder), 6, "RUN")
    yield "a clock of nothing", fault(command("cover", "--clock", "0", RUNS[0], cwd=folder), 6, "--clock: '0'")
    yield "a full disc", fault(command("cover", RUNS[0], "--json", "/dev/full", cwd=folder), 3, "/dev/full: No space left")
    text = (CASES / "gap.lines").read_text()
    slow = Reader(5).read(text.splitlines(True)).hits.found
    yield "a clock that is given", None if slow["gap/A0/1"] == [1, 8] and "gap/A0/0" not in slow else str(slow)


# ---- long runs


def long_run(beats: int) -> Iterator[str]:
    """The stored runs behind each other, with resets between, again and again, up to so many beats."""
    bodies = [re.sub(r"(?m)^(config|region|page|axi|profile|errors|= end).*\n", "", it.read_text()).splitlines(True) for it in RUNS]
    yield from (RTL / "setup.lines").read_text().splitlines(True)
    count = 0
    for body in itertools.cycle(bodies):
        yield "= reset\n"
        yield from body
        count += sum(it[0] in "ADWBR" for it in body)
        if count >= beats:
            return


def room(beats: int) -> int:
    """The most room that reading a run takes."""
    tracemalloc.start()
    Reader().read(long_run(beats))
    most = tracemalloc.get_traced_memory()[1]
    tracemalloc.stop()
    return most


def long_runs() -> Iterator[Case]:
    """Speed and room."""
    lines, best = [*long_run(SPEED_BEATS)], 0.0
    for _ in range(TRIES):
        began = time.process_time()
        beats = Reader().read(lines).beats
        best = max(best, beats / (time.process_time() - began))
        if best > 1.5 * LEAST_SPEED:
            break
    yield "its speed", None if best >= LEAST_SPEED and beats >= SPEED_BEATS else f"{best:.0f} beats a second, of {beats}"
    short, long = room(5_000), room(20_000)
    yield "its room", None if long < MOST_MORE * short else f"{short} bytes for a run, and {long} for one that is four times as long"


def cases(score: str) -> Iterator[Case]:
    yield from by_hand(score)
    yield from broken(score)
    yield from histories()
    yield from tables()
    yield from merging()
    for part in (outputs, without, faults):
        with tempfile.TemporaryDirectory() as folder:
            yield from part(Path(folder))
    yield from long_runs()


if __name__ == "__main__":
    sys.exit(told(cases(sys.argv[1])))
