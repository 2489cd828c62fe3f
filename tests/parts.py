"""zuldegei-regress in parts: what they wrote, merged in any order, is the table, JUnit, JSON and coverage of one call, but for times. Parts that
are cut, killed, interrupted or missing are named, the rest is whole, and they can be made again alone. Parts of another call, or that are given
twice, are refused. --slurm with stand-ins for Slurm's commands (tests/slurm.py tries Slurm itself).

    python3 tests/parts.py TLSCORE
"""

import contextlib
import io
import json
import os
import random
import re
import shutil
import signal
import subprocess
import sys
from pathlib import Path
from typing import Dict, Iterator, List, Optional, Sequence, Tuple

from ends import TOP, Case, told_in_a_folder
from fuzz_commands import called
from package import RTL, begun, command
from regress import KNOWN, stopped, taken
from stored import blocks
from zuldegei import regress
from zuldegei.parts import merged
from zuldegei.reports import Asked, Part

RIGHT = TOP / "examples/scoreboard/right.in"
RUNS = sorted((RTL / "runs").glob("*.lines"))
TIMES = re.compile(r'(?<=time=")[0-9.]+|(?<="seconds": )[0-9.]+')
FILES = ("night.xml", "night.json", "night.cover")
# What another call has otherwise, and by which words it is told.
OTHERS = {
    "other seeds": (["--seeds", "1-5"], "--seeds"),
    "another command": (["--command", "cat known.lines # {seed}"], "--command"),
    "one run less": (["known.lines"], "RUN"),
    "another set-up": (["--setup", "other.lines"], "the lines of --setup"),
    "no times": (["--late", "35"], "--late"),
    "other waivers": (["--waive", "other.waivers"], "--waive"),
    "other bins that are left out": (["--without", "without.lines"], "--without"),
    "a clock": (["--clock", "7"], "--clock"),
}
CUTS = 40


def here(folder: Path, *words: object) -> subprocess.CompletedProcess:
    """A call in a folder, in this process."""
    before = os.getcwd()
    os.chdir(folder)
    ended = called("regress", [str(it) for it in words])
    os.chdir(before)
    return subprocess.CompletedProcess(words, ended.status, ended.printed, ended.said)


class Made:
    """A call in a folder, with its table and what it wrote."""

    def __init__(self, folder: Path, *words: object, **more: object):
        for name in FILES:
            (folder / name).unlink(missing_ok=True)
        words = [*words, "--junit", "night.xml", "--json", "night.json"]
        self.ran = command("regress", *words, cwd=folder, **more) if more else here(folder, *words)
        self.table = self.ran.stdout
        self.files = {it: (folder / it).read_text() for it in FILES if (folder / it).exists()}
        self.runs = json.loads(self.files.get("night.json") or '{"runs": []}')["runs"]


def apart(one: Made, other: Made) -> Optional[str]:
    """What two calls tell otherwise, but for times."""
    both = [{**it.files, "the table": it.table, "the status": f"{it.ran.returncode}"} for it in (one, other)]
    first, second = ({name: TIMES.sub("", text) for name, text in it.items()} for it in both)
    differ = [name for name in {**first, **second} if first.get(name) != second.get(name)]
    if not differ and one.runs:
        return None
    return f"{', '.join(differ)} differ: status {other.ran.returncode}, {other.ran.stderr[-300:]!r}, {other.table[-300:]!r}"


def part(folder: Path, number: int, of: int, words: Sequence[object], name: str = "part") -> subprocess.CompletedProcess:
    """Makes a part of a call with these words, in NAME-NUMBER.json."""
    return here(folder, *words, "--part", f"{number}/{of}", "--json", f"{name}-{number}.json")


def prepared(folder: Path) -> Path:
    """The files of a night."""
    (folder / "known.lines").write_text(KNOWN)
    (folder / "nothing.lines").write_text("config 2 4 16 2 16 12 hh\n")
    ahead = KNOWN.splitlines(True)
    (folder / "waived.lines").write_text("".join(ahead[:9]))
    for name, ends in (("right", 45), ("slow", 4500)):
        reply = "D 0 1 0 3 5 0 1122334455667788 0\n= end\n"
        (folder / f"{name}.lines").write_text("".join([*ahead[:7], f"time {ends}\n", reply]))
    (folder / "known.waivers").write_text("reply PAYLOAD client 0 the old DMA\naxi WLAST pages 0 9 none\naxi CROSS_4K pages 11 1 bursts\n")
    (folder / "other.waivers").write_text("reply PAYLOAD client 0 the old DMA\n")
    (folder / "without.lines").write_text("without wait/* none\nwithout request/* all of them\n")
    (folder / "setup.lines").write_text("# a comment\n")
    (folder / "other.lines").write_text("# another one\n")
    return folder


def night(score: str) -> List[object]:
    """The words of a night in which a run is in each state but for `late` and `unjudged`."""
    text = "case {seed} in 3) exit 9;; 4) cat known.lines;; *) cat right.lines;; esac"
    files = ["known.lines", *RUNS[:2], "nothing.lines", "known.lines", "none.lines", "slow.lines", "waived.lines"]
    words = ["--command", text, "--seeds", "3-5,9", "--waive", "known.waivers", "--late", 1200, "--cover", "night.cover"]
    return [*files, *words, "--without", "without.lines", "--setup", "setup.lines", "--score", score, "-j", 2]


def in_parts(folder: Path, score: str) -> Iterator[Case]:
    """A night in one call and in 1, 3 and 14 parts, of which the last have no run."""
    words, lot = night(score), random.Random(1)
    one = Made(folder, *words)
    states = {it["status"] for it in one.runs}
    yield "a night in one call", None if states == {"right", "wrong", "nothing", "failed", "slow", "waived"} else f"{states}, {one.ran}"
    for of in (1, 3, 14):
        names = [f"part-{number}.json" for number in range(1, of + 1)]
        made = [part(folder, number, of, words) for number in range(1, of + 1)]
        lot.shuffle(names)
        due = [f"part {at} of {of}: {len(range(at - 1, len(one.runs), of))} of {len(one.runs)} runs" for at in range(1, of + 1)]
        yield f"the tables of {of}", None if [it.stdout.splitlines()[-2] for it in made] == due else f"{made[0]}"
        yield f"in {of} parts", apart(one, Made(folder, "--merge", *names, "--cover", "night.cover"))


def places() -> Iterator[Case]:
    """Calls by lot, in parts by lot: every run is in one part, with its name and its number among those of its name."""
    lot = random.Random(1)
    for number in range(300):
        files = [lot.choice(("a", "b", "seed 2", "c {seed}")) for _ in range(lot.randrange(6))]
        first = [lot.randrange(9) for _ in range(lot.randrange(4))]
        seeds = [range(it, it + lot.randrange(1, 7)) for it in first]
        asked, of = Asked(files, lot.choice((None, "c {seed}")), seeds), lot.randrange(1, 12)
        jobs = list(asked)
        parts = [list(Asked(files, asked.command, seeds, Part(at, of))) for at in range(1, of + 1)]
        dealt = [parts[place % of][place // of] for place in range(len(jobs))] if sum(map(len, parts)) == len(jobs) else None
        names = [it.name for it in jobs]
        numbers = [names[: it.place + 1].count(it.name) for it in jobs]
        is_well = dealt == jobs and [asked.number(it) for it in jobs] == numbers and [it.place for it in jobs] == list(range(len(asked)))
        if not is_well:
            yield f"parts by lot, {number}", f"{asked}, {of}: {parts}"
    yield "parts by lot", None


def lacking(folder: Path, score: str) -> Iterator[Case]:
    """Parts that aren't there: named, with why, and the rest is whole. Parts that are there twice."""
    words = [*RUNS[:7], "--score", score, "--cover", "night.cover"]
    one = Made(folder, *words)
    for number in (1, 2, 3):
        part(folder, number, 3, words)
    (folder / "empty.json").write_text("")
    (folder / "else.json").write_text(json.dumps({"runs": []}))
    due = {it["run"]: it["status"] for it in one.runs} | {str(it): "unjudged" for it in RUNS[1:7:3]}
    for name, why in ((None, ""), ("none.json", "No such file or directory"), ("empty.json", "it is empty"), ("else.json", "it is cut, or ")):
        made = Made(folder, "--merge", "part-3.json", "part-1.json", *filter(None, [name]), "--cover", "night.cover")
        is_well = made.ran.returncode == 1 and {it["run"]: it["status"] for it in made.runs} == due and "\npart 2 of 3: missing\n" in made.table
        is_told = name is None or f"\n{name}: {why}" in made.table and all(made.files[it].count(name) == 1 for it in FILES[:2])
        is_named = made.files["night.xml"].count("part 2 of 3") == 1 + 2 * 2  # a property, and of each of its runs a message and a text
        yield f"a part that is missing, and {name}", None if is_well and is_told and is_named else f"{due}, {made.ran}, {made.files['night.xml']}"
    yield "that part again", apart(one, Made(folder, "--merge", *(f"part-{it}.json" for it in (2, 3, 1)), "--cover", "night.cover"))
    for name, files, said in (
        ("a part that is there twice", ["part-1.json", "part-2.json", "part-1.json"], "part 1 of 3 is there twice: part-1.json and part-1.json"),
        ("no part", ["none.json", "empty.json"], "no file has a part: none.json: No such file or directory; empty.json: it is empty"),
    ):
        yield name, refused(here(folder, "--merge", *files), 2, said)
    part(folder, 1, 1, [RIGHT, "--score", score], "bare")
    ran = here(folder, "--merge", "bare-1.json", "--cover", "it")
    yield "a merge of what no part counted", refused(ran, 2, "--cover")
    yield "parts without a wrong run", right_ones(folder, score)
    yield from cut(folder)


def right_ones(folder: Path, score: str) -> Optional[str]:
    """The status where a part is missing, and all others are right: with a run, and without one."""
    statuses = []
    for of in (2, 3):
        for number in range(1, of):
            part(folder, number, of, [RIGHT, RIGHT, "--score", score], f"right-{of}")
        statuses.append(here(folder, "--merge", *(f"right-{of}-{number}.json" for number in range(1, of))).returncode)
    return None if statuses == [2, 2] else f"{statuses}"


def refused(ran: subprocess.CompletedProcess, status: int, said: str) -> Optional[str]:
    """How a call didn't end with a status and a line that has this."""
    is_well = ran.returncode == status and said in ran.stderr and ran.stderr.count("\n") == 1 and not ran.stdout
    return None if is_well else f"status {ran.returncode}, {ran.stderr[-400:]!r}, {ran.stdout[-200:]!r}"


def cut(folder: Path) -> Iterator[Case]:
    """A part's JSON that is cut anywhere."""
    text, lot = (folder / "part-2.json").read_bytes(), random.Random(1)
    for at in [*(lot.randrange(1, len(text) - 2) for _ in range(CUTS)), len(text) - 3]:
        (folder / "cut.json").write_bytes(text[:at])
        report = merged([str(folder / it) for it in ("part-1.json", "cut.json", "part-3.json")])
        whys = [it.why for it in report.lacking]
        if whys != ["it is cut, or isn't what --part writes", "missing"] or len(report.made) != 5:
            yield f"a part that is cut at {at}", f"{report.lacking}"
    yield "parts that are cut", None


def of_others(folder: Path, score: str) -> Iterator[Case]:
    """Parts of other calls: refused, by what they have otherwise."""
    base = {"RUN": ["known.lines", RIGHT], "--command": ["cat known.lines; : {seed}"], "--seeds": ["1-4"], "--setup": ["setup.lines"]}
    base.update({"--late": ["34"], "--waive": ["known.waivers"], "--without": ["other"], "--clock": ["10"], "--cover": ["/dev/null"]})
    (folder / "other").write_text("without id/*/7 six slots\n")
    part(folder, 1, 2, words_of(base, score), "first")
    for name, (words, said) in OTHERS.items():
        changes = {words[0]: words[1:]} if len(words) > 1 else {"RUN": words}
        part(folder, 2, 2, words_of({**base, **changes}, score), "other")
        ran = here(folder, "--merge", "first-1.json", "other-2.json")
        yield f"a part of a call with {name}", refused(ran, 2, f"other-2.json isn't of the call of first-1.json: they differ in {said}\n")
    bare = {name: it for name, it in base.items() if name not in ("--cover", "--without", "--clock")}
    part(folder, 2, 2, words_of(bare, score), "other")
    said = "they differ in --cover and --clock and --without"
    yield "a part that counts nothing", refused(here(folder, "--merge", "first-1.json", "other-2.json"), 2, said)
    part(folder, 2, 3, words_of(base, score), "other")
    said = "other-2.json is one of 3 parts, and first-1.json of 2"
    yield "one of other parts", refused(here(folder, "--merge", "first-1.json", "other-2.json"), 2, said)
    changed = (folder / "first-1.json").read_text().replace('"version": "', '"version": "0')
    (folder / "changed.json").write_text(changed)
    said = "they differ in the version of zuldegei-regress"
    yield "a part of another version", refused(here(folder, "--merge", "first-1.json", "changed.json"), 2, said)


def words_of(named: Dict[str, List[object]], score: str) -> List[object]:
    """The words of a call: its runs, and what its other words are."""
    others = [word for name, values in named.items() if name != "RUN" for word in (name, *values)]
    return [*named["RUN"], *others, "--score", score, "-j", 2]


def ended_early(folder: Path, score: str) -> Iterator[Case]:
    """Parts that get a signal in their second run: what was judged counts where it was told, and they are made again alone."""
    text = f"case {{seed}} in 1|2) cat '{RUNS[1]}';; *) [ -e again ] || {{ touch began; sleep 60; }}; cat '{RUNS[0]}';; esac"
    words = ["--command", text, "--seeds", "1-5", "-j", 1, "--score", score, "--cover", "night.cover"]
    for by, left, why in ((signal.SIGTERM, 2, "of its 3 runs 2 weren't judged"), (signal.SIGKILL, 3, "missing")):
        (folder / "again").unlink(missing_ok=True)
        with begun(folder, "regress", *words, "--part", "1/2", "--json", "part-1.json", stdout=subprocess.DEVNULL) as program:
            stopped(folder, program, by)
        (folder / "again").touch()
        part(folder, 2, 2, words)
        made = Made(folder, "--merge", "part-1.json", "part-2.json", "--cover", "night.cover")
        count = [it["status"] for it in made.runs].count("unjudged")
        is_named = f"\npart 1 of 2: {why}\n" in made.table and made.ran.returncode == 1
        yield f"a part by {by.name}", None if is_named and count == left else f"{count} unjudged, {made.ran}"
        part(folder, 1, 2, words)
        again = Made(folder, "--merge", "part-1.json", "part-2.json", "--cover", "night.cover")
        yield f"made again after {by.name}", apart(Made(folder, *words), again)


def kept(folder: Path, score: str) -> Iterator[Case]:
    """Runs that are kept: by parts in one folder as by one call, those of one name too; and one that can't be."""
    words = [RUNS[0], RIGHT, RUNS[0], RUNS[0], "--command", f"cat '{RUNS[1]}' # {{seed}}", "--seeds", "2-3,1-3", "--score", score]
    command("regress", *words, "--keep", "by-one", cwd=folder)
    for number in (1, 2, 3):
        part(folder, number, 3, [*words, "--keep", "by-parts"])
    both = [{it.name: it.read_text() for it in (folder / name).iterdir()} for name in ("by-one", "by-parts")]
    yield "runs that are kept", None if both[0] == both[1] and len(both[0]) == 2 * 8 else f"{[sorted(it) for it in both]}"
    (folder / "room").mkdir()
    (folder / "room/seed+1.lines").symlink_to("/dev/full")
    words = ["--command", f"cat '{RUNS[1]}' # {{seed}}", "--seeds", "1-2", "--score", score, "--keep", "room"]
    made = [part(folder, number, 2, words) for number in (1, 2)]
    joined = here(folder, "--merge", "part-1.json", "part-2.json")
    said = "room/seed+1.lines: No space left on device"
    is_well = [it.returncode for it in (*made, joined)] == [3, 1, 3] and said in joined.stderr and "2 wrong" in joined.stdout
    yield "a run that a part can't keep", None if is_well else f"{made}, {joined}"


def said_of(*words: str) -> Tuple[int, str]:
    """The status of words, and what is said of them."""
    said = io.StringIO()
    with contextlib.redirect_stderr(said), contextlib.redirect_stdout(io.StringIO()):
        try:
            status = regress.work(list(words))
        except SystemExit as ends:
            status = ends.code
    return int(status), said.getvalue()


def worded() -> Iterator[Case]:
    """Words that can't be."""
    for it in blocks(TOP / "tests/words/regress.words"):
        status, said = said_of(*(os.fsdecode(word) for word in it.words))
        yield f"the words {it.given}", it.one_line(subprocess.CompletedProcess(it.words, status, "", said), "zuldegei-regress")


def stand_ins(folder: Path, ahead: str = "") -> Dict[str, str]:
    """Stand-ins for Slurm's commands, and for what the page's lines call: first on PATH, and with what they do by their variables."""
    (folder / "bin").mkdir(exist_ok=True)
    for name in ("sbatch", "scancel", "squeue", "bsub", "ssh", "zuldegei-regress"):
        shutil.copy(TOP / "tests/stand_ins" / name, folder / "bin")
    shutil.copy(TOP / "tests/stand_ins/simulate", folder)
    variables = {"AHEAD": ahead, "RIGHT": str(RIGHT), "PYTHON": sys.executable, "PACKAGE": str(TOP / "python")}
    return {"PATH": f"{folder / 'bin'}:/usr/bin:/bin", **variables}


def by_stand_ins(folder: Path, score: str) -> Iterator[Case]:
    """What --slurm makes of the commands of Slurm, by stand-ins."""
    words, more = night(score), ["--slurm", 3, "--parts", "a night's 5 % parts"]
    one = Made(folder, *words)
    parts = folder / "a night's 5 % parts"
    parts.mkdir()
    (parts / "part-3.json").write_text("of yesterday")
    (parts / "part-3.log").write_text("of yesterday")
    yield "by a stand-in", apart(one, Made(folder, *words, *more, "--sbatch=--partition='my own' --time=5", environment=stand_ins(folder)))
    called = (folder / "called").read_text().splitlines()
    is_well = {"--wait", "--array=1-3", "--cpus-per-task=2", "--partition=my own", "--time=5"} <= {*called} and called[-1] == str(parts / "part.sh")
    yield "how sbatch is called", None if is_well else f"{called}"
    made = Made(folder, *words, *more, environment=stand_ins(folder, "of=2"))
    is_named = re.search(r"\npart 3 of 3: missing; \S+.*part-3.json: it is empty\n", made.table) and "of yesterday" not in made.table
    yield "a part that never comes", None if is_named and "4 unjudged" in made.table else f"{made.ran}"
    for name, ahead, said in (
        ("sbatch that refuses", "echo no such partition >&2; exit 4", "sbatch ended with status 4: no such partition"),
        ("sbatch that is killed", "kill -9 $$", "sbatch was ended by signal 9"),
    ):
        made = Made(folder, *words, *more, environment=stand_ins(folder, ahead))
        count = [it["status"] for it in made.runs].count("unjudged")
        is_well = made.ran.returncode == 3 and said in made.ran.stderr and made.ran.stderr.count("\n") == 1 and count == len(one.runs)
        yield name, None if is_well else f"{made.ran}"
    yield "what is cancelled", None if re.fullmatch(r"--name=zuldegei-regress-\w{8}\n", taken(folder / "cancelled")) else "it isn't that array"
    ran = command("regress", *words, *more, cwd=folder, environment={"PATH": f"{folder}/none"})
    yield "no sbatch", refused(ran, 3, "sbatch can't be run")


def on_the_page(folder: Path, score: str) -> Iterator[Case]:
    """The lines of the page for LSF and ssh, by stand-ins: the files are those of one call."""
    variables = {**stand_ins(folder), "TLSCORE": score}
    text = (TOP / "python/README.md").read_text()
    words = ("--seeds", "1-20", "--command", "./simulate {seed}", "--junit", "one.xml", "--score", score)
    one = command("regress", *words, cwd=folder, environment={"RIGHT": str(RIGHT)})
    due = TIMES.sub("", (folder / "one.xml").read_text())
    for name in ("LSF", "ssh"):
        lines = re.search(rf"(?m)^    # {name}: .*\n((?:    .*\n)+)", text)[1].replace("1-200", "1-20")
        subprocess.run(["rm", "-rf", folder / "night"])
        (folder / "night").mkdir()
        ran = subprocess.run(["sh", "-c", lines], cwd=folder, env=variables, capture_output=True, text=True)
        got = TIMES.sub("", taken(folder / "night.xml"))
        log = ran.stdout or (folder / "night/merged.log").read_text()
        yield f"the page's lines for {name}", None if got == due and log == one.stdout and "19 right" in log else f"{ran}, {log[-300:]!r}"
    machines = (folder / "machines").read_text().split()
    yield "the machines", None if sorted(machines) == ["ann", "bob", "cid", "dan"] else f"{machines}"


def cases(folder: Path, score: str) -> Iterator[Case]:
    tried = (in_parts, lacking, of_others, ended_early, kept, by_stand_ins, on_the_page)
    yield from places()
    yield from worded()
    for it in tried:
        (folder / it.__name__).mkdir()
        yield from it(prepared(folder / it.__name__), score)


if __name__ == "__main__":
    sys.exit(told_in_a_folder(cases, str(Path(sys.argv[1]).resolve())))
