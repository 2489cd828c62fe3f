"""What zuldegei-regress makes of runs: of the stored ones of examples/testbench/rtl the first wrong lines that are stored, in its table, in
JUnit XML and in JSON; of right ones, of ones that can't be judged, and of ones that take too long their statuses; and runs side by side.
Scoreboards whose verdict isn't whole, files that can't be written, and calls that are interrupted: no run is right that wasn't judged, and
what was judged is told. What runs reached: the file of --cover is that of zuldegei-cover, in whatever order and parts they were run, and runs
that can't count are named; junitparser reads how much it was, where that is installed.

    python3 tests/regress.py TLSCORE
"""

import json
import os
import random
import re
import resource
import signal
import subprocess
import sys
import threading
import time
from pathlib import Path
from typing import Iterator, List, Optional, Tuple
from xml.etree import ElementTree

from ends import TOP, Case, told_in_a_folder
from package import RTL, begun, command, on_a_terminal
from stored import blocks
from zuldegei.beside import Beside, Helpers, Request
from zuldegei.regress import Runner
from zuldegei.reports import Job, Outcome, State

RIGHT = TOP / "examples/scoreboard/right.in"
PYTHONS = (sys.executable, "/usr/bin/python3")  # of which one may have junitparser
READ = """import junitparser, sys
for suite in junitparser.JUnitXml.fromfile(sys.argv[1]):
    print(*(f"{it.name}: {it.value}" for it in suite.properties()), *(it.system_out for it in suite), sep="\\n")
"""
RUNS = sorted((RTL / "runs").glob("*.lines"))


class Made:
    """A call of the command, with what it wrote."""

    def __init__(self, folder: Path, score: str, *words: object):
        files = ["--junit", folder / "junit.xml", "--json", folder / "runs.json"]
        for file in files[1::2]:
            Path(file).unlink(missing_ok=True)
        self.ran = command("regress", *words, *files, *(["--score", score] if score else []), cwd=folder)
        self.runs = json.loads(files[3].read_text())["runs"] if files[3].exists() else []
        self.suite = ElementTree.parse(files[1]).getroot().find("testsuite") if files[1].exists() else None

    def wrong(self, status: int, states: List[str]) -> Optional[str]:
        """How the call didn't end with this status and these states of its runs, in both files."""
        got = [it["status"] for it in self.runs]
        if self.ran.returncode != status or got != states:
            return f"status {self.ran.returncode}, {got}; {self.ran.stdout[-400:]}{self.ran.stderr[-400:]}"
        kinds = {"right": [], "wrong": ["failure"], "slow": ["failure"], "waived": ["skipped"]}
        wanted = [kinds.get(it, ["error"]) for it in states]
        cases = [[kind.tag for kind in it if kind.tag != "system-out"] for it in self.suite.findall("testcase")]
        counts = {name: int(self.suite.get(name)) for name in ("tests", "failures", "errors", "skipped")}
        due = {"tests": len(states), "failures": wanted.count(["failure"]), "errors": wanted.count(["error"])}
        due["skipped"] = wanted.count(["skipped"])
        return None if cases == wanted and counts == due else f"JUnit has {cases}, {counts}"


def stored(folder: Path, score: str) -> Iterator[Case]:
    """The stored runs: the first wrong line of each, as it is stored."""
    made = Made(folder, score, *RUNS, "-j", 3)
    yield "the stored runs", made.wrong(1, ["wrong"] * len(RUNS)) or (None if len(RUNS) >= 12 else f"{len(RUNS)} are stored")
    for entry, path in zip(made.runs, RUNS):
        verdict = path.with_suffix(".told").read_text()
        first, last = verdict.splitlines()[0], verdict.splitlines()[-1].split()
        due = {"run": str(path), "first": first[2:], "line": int(first.split()[2]), "time": int(first.split()[-1])}
        due.update(beats=int(last[2]), wrong=int(last[4]), compared=int(last[10]), told=int(last[12]))
        apart = {name: entry.get(name) for name in due if entry.get(name) != due[name]}
        yield f"{path.stem} in JSON", f"{apart}" if apart else None
        row = re.search(rf"(?m)^{re.escape(str(path))} +wrong .* {re.escape(first[2:])}$", made.ran.stdout)
        yield f"{path.stem} in the table", None if row else f"no row {first[2:]!r}"


def states(folder: Path, score: str) -> Iterator[Case]:
    """Each state of a run, and each status."""
    (folder / "nothing.lines").write_text("config 2 4 16 2 16 12 hh\n")
    (folder / "fault.lines").write_text("config 2 4 16 2 16 12 hh\nA 0 0\n")
    yield "a right run", Made(folder, score, RIGHT).wrong(0, ["right"])
    yield "a run without a beat", Made(folder, score, RIGHT, "nothing.lines").wrong(2, ["right", "nothing"])
    yield "an observation at fault", Made(folder, score, "fault.lines", RIGHT).wrong(2, ["failed", "right"])
    yield "a file that isn't there", Made(folder, score, "none.lines").wrong(2, ["failed"])
    yield "a wrong run and a failed one", Made(folder, score, "fault.lines", RUNS[0]).wrong(1, ["failed", "wrong"])
    made = Made(folder, score, "--command", "echo why it fails >&2; exit 3")
    said = made.runs[0]["why"] if made.runs else ""
    yield "a command that fails", made.wrong(2, ["failed"]) or (None if "status 3: why it fails" in said else said)
    yield "a command that takes too long", Made(folder, score, "--command", "sleep 60", "--timeout", 0.5).wrong(2, ["late"])
    began = time.monotonic()
    why = interrupted(folder, score)
    yield "a run that is interrupted", why or (None if time.monotonic() - began < 40 else "it waits for its commands")
    yield "no scoreboard", ended(Made(folder, "", RIGHT, "--score", folder / "none"), 3, "none")
    yield "no run", ended(Made(folder, score), 6, "--help")
    yield "seeds without a place", ended(Made(folder, score, "--command", "true", "--seeds", "1-3"), 6, "{seed}")


def stopped(folder: Path, program: subprocess.Popen, by: int) -> Tuple[str, str]:
    """What a call prints that gets a signal once a command of it has begun, which makes a file `began`."""
    while program.poll() is None and not (folder / "began").exists():
        time.sleep(0.1)
    (folder / "began").unlink(missing_ok=True)
    program.send_signal(by)
    return program.communicate(timeout=60)


def interrupted(folder: Path, score: str) -> Optional[str]:
    """Whether a call that is interrupted ends, with its command."""
    words = ["--command", "touch began; sleep 60; touch ended", "--score", score]
    with begun(folder, "regress", *words, stdout=subprocess.DEVNULL) as program:
        _, said = stopped(folder, program, signal.SIGINT)
    return None if program.returncode == 130 and said.strip().endswith("interrupted") else f"status {program.returncode}, {said!r}"


def ended(made: Made, status: int, named: str) -> Optional[str]:
    """How a call that makes no run didn't end with a status and a line that has this."""
    is_well = made.ran.returncode == status and named in made.ran.stderr and made.ran.stderr.count("\n") == 1 and not made.runs
    return None if is_well else f"status {made.ran.returncode}, {made.ran.stderr[-300:]!r}"


def seeded(folder: Path, score: str) -> Iterator[Case]:
    """Commands with seeds: each waits for the others, so that they end where all are made at once."""
    came = "[ -e came.1 ] && [ -e came.2 ] && [ -e came.5 ]"
    waits = f"touch came.{{seed}}; n=0; until {came}; do sleep 0.1; n=$((n+1)); [ $n -lt 300 ] || exit 9; done"
    made = Made(folder, score, "--command", f"{waits}; tail -n +4 '{RIGHT}'", "--seeds", "1-2,5", "-j", 3, "--setup", setup_of(folder))
    yield "three at once", made.wrong(0, ["right"] * 3) or (None if [it["seed"] for it in made.runs] == [1, 2, 5] else str(made.runs))
    kept = folder / "kept"
    made = Made(folder, score, RUNS[0], RIGHT, "--keep", kept)
    files = {it.suffix: it.read_text() for it in kept.iterdir()} if kept.exists() else {}
    due = {".lines": RUNS[0].read_text(), ".told": RUNS[0].with_suffix(".told").read_text()}
    yield "runs that are kept", None if files == due else f"{ {name: len(text) for name, text in files.items()} }"
    yield "progress on a terminal", progress(folder, score)


def kept(folder: Path, score: str) -> Iterator[Case]:
    """Runs whose names are alike: each is kept under a name of its own."""
    long = [f"{letter}{'n' * 120}.lines" for letter in "xyz"]
    names = ["a/b.lines", "a_b.lines", "a b.lines", "a+b.lines", "a=2.lines", "a%2Fb.lines", "a\nb\x1b.lines", "a\udcffb.lines", *long]
    (folder / "a").mkdir()
    for at, name in enumerate(names):
        (folder / name).write_text(f"{RUNS[0].read_text()}# run {at}\n")
    made = Made(folder, score, *names, names[0], "--keep", "alike")
    found = sorted(re.findall(r"# run (\d+)", "".join(it.read_text() for it in (folder / "alike").glob("*.lines"))), key=int)
    verdicts = [it.read_text() for it in (folder / "alike").glob("*.told")]
    wanted = sorted([*map(str, range(len(names))), "0"], key=int)
    is_well = found == wanted and verdicts == [RUNS[0].with_suffix(".told").read_text()] * len(wanted)
    yield "runs whose names are alike", made.wrong(1, ["wrong"] * len(wanted)) or (None if is_well else f"kept are {found} of {wanted}")
    too_long = [it.name for it in (folder / "alike").iterdir() if len(it.name) > 110]
    yield "the length of kept names", f"{too_long[:2]}" if too_long else None


def stand_in(folder: Path, text: str) -> Path:
    """A script in the place of the scoreboard."""
    path = folder / "stand-in"
    path.write_text(f"#!/bin/sh\n{text}\n")
    path.chmod(0o755)
    return path


def untrusted(folder: Path, score: str) -> Iterator[Case]:
    """Scoreboards that swallow their verdict or a part of it, or whose status isn't that of the verdict: no run is right by them."""
    last = "'= judged 5 wrong %d outstanding 0 open 0 compared 8 of 8\\n'"
    for name, text in (
        ("nothing, status 0", "cat >/dev/null"),
        ("nothing, status 1", "cat >/dev/null; exit 1"),
        ("an empty line", "echo"),
        ("other text", "echo all is well"),
        ("a verdict without its last line", f"'{score}' | sed '$d'; exit 1"),
        ("a last line that is cut", f"'{score}' | sed 's/ compared.*//'; exit 1"),
        ("a status that isn't the verdict's", f"'{score}'; exit 0"),
        ("a last line without the wrong ones", f"'{score}' | tail -n 1; exit 1"),
        ("a right verdict, status 1", f"printf {last} 0; exit 1"),
        ("one wrong line of two", f"printf '= wrong 5 reply 1 UNASKED\\n'; printf {last} 2; exit 1"),
    ):
        made = Made(folder, "", RUNS[0], "--score", stand_in(folder, text))
        yield f"a scoreboard that gives {name}", made.wrong(2, ["failed"]) or (None if made.runs[0]["why"] else "it doesn't say why")
    made = Made(folder, "", RIGHT, "--score", stand_in(folder, f"'{score}' | sed '$d'"))
    yield "a right verdict without its last line", made.wrong(2, ["failed"])
    began = time.monotonic()
    made = Made(folder, "", RIGHT, "--timeout", 0.5, "--score", stand_in(folder, "sleep 50; true"))
    yield "a scoreboard that takes too long", made.wrong(2, ["late"]) or (None if time.monotonic() - began < 40 else "it was waited for")
    slow = stand_in(folder, f"sleep 1.5; exec '{score}'")
    made = Made(folder, "", "--command", f"sleep 1.5; cat '{RIGHT}'", "--timeout", 2.5, "--score", slow)
    yield "a run that takes too long with its verdict", made.wrong(2, ["late"])


def early(folder: Path, score: str) -> Iterator[Case]:
    """Files that can't be written: told ahead of the first run."""
    (folder / "a-file").write_text("")
    for word in ("--junit", "--json", "--cover", "--keep"):
        path = "a-file/kept" if word == "--keep" else "none/file"
        ran = command("regress", "--command", "touch ran", word, path, "--score", score, cwd=folder)
        why = f"status {ran.returncode}, {ran.stderr[-300:]!r}" if ran.returncode != 3 or path not in ran.stderr else None
        yield f"{word} where nothing can be written", why or ("a run was made first" if (folder / "ran").exists() else None)
        (folder / "ran").unlink(missing_ok=True)


def full(folder: Path, score: str) -> Iterator[Case]:
    """Files on a full disc: they are named, and the others are whole."""
    for word, other in (("--junit", "--json"), ("--json", "--junit")):
        ran = command("regress", RUNS[0], RIGHT, word, "/dev/full", other, "other", "--score", score, cwd=folder)
        text, is_told = taken(folder / "other"), ran.returncode == 3 and "/dev/full: No space left on device" in ran.stderr
        is_whole = len(json.loads(text)["runs"] if other == "--json" and text else re.findall("<testcase", text)) == 2
        is_well = is_told and is_whole and "2 runs: 1 right, 1 wrong," in ran.stdout
        yield f"{word} on a full disc", None if is_well else f"status {ran.returncode}, {ran.stderr[-300:]!r}, {ran.stdout[-300:]}"
    with open("/dev/full", "w") as nowhere:
        words = [RUNS[0], "--json", "other", "--score", score]
        with begun(folder, "regress", *words, stdout=nowhere) as program:
            _, said = program.communicate(timeout=60)
    is_well = program.returncode == 3 and "standard output: No space left" in said and '"wrong"' in taken(folder / "other")
    yield "the table on a full disc", None if is_well else f"status {program.returncode}, {said[-300:]!r}"
    yield "a folder of kept runs on a full disc", unkept(folder, score)
    small = lambda: resource.setrlimit(resource.RLIMIT_FSIZE, (20_000, 20_000))  # noqa: E731
    (folder / "long.lines").write_text(RUNS[0].read_text() + "# and no beat\n" * 3000)
    ran = command("regress", "long.lines", RIGHT, "--json", "other", "--score", score, cwd=folder, preexec_fn=small)
    runs = json.loads(taken(folder / "other") or '{"runs": []}')["runs"]
    is_well = ran.returncode == 2 and [it["status"] for it in runs] == ["failed", "right"] and "joined.lines: " in runs[0]["why"]
    yield "no room for an observation", None if is_well else f"status {ran.returncode}, {runs}, {ran.stderr[-300:]!r}"


def taken(path: Path) -> str:
    """The text of a file, which is gone afterwards; nothing, where there is none."""
    text = path.read_text() if path.exists() else ""
    path.unlink(missing_ok=True)
    return text


def unkept(folder: Path, score: str) -> Optional[str]:
    """Whether a run is told that can't be kept, with the file that can't be written, and the others are kept."""
    for name in ("full", "else"):
        (folder / f"{name}.lines").write_text(RUNS[0].read_text())
    (folder / "room").mkdir()
    (folder / "room/full.lines.lines").symlink_to("/dev/full")
    made = Made(folder, score, "full.lines", "else.lines", "--keep", "room")
    left = sorted(it.name for it in (folder / "room").iterdir())
    is_told = "room/full.lines.lines: No space left on device" in made.ran.stderr and made.ran.stderr.count("\n") == 1
    is_well = is_told and left == ["else.lines.lines", "else.lines.told"] and "2 wrong" in made.ran.stdout
    return made.wrong(3, ["wrong"] * 2) or (None if is_well else f"{made.ran.stderr[-300:]!r}, left are {left}")


def halfway(folder: Path, score: str) -> Iterator[Case]:
    """A call that gets a signal in its third run of 40: what was judged is told, and the rest is named."""
    text = f"case {{seed}} in 1) cat '{RIGHT}';; 2) cat '{RUNS[0]}';; *) touch began; sleep 60;; esac"
    files = {"--junit": "junit.xml", "--json": "runs.json", "--cover": "night.cover"}
    words = ["--command", text, "--seeds", "1-40", "-j", "1", "--score", score, *(word for it in files.items() for word in it)]
    for by in (signal.SIGINT, signal.SIGTERM):
        for name in files.values():
            (folder / name).unlink(missing_ok=True)
        with begun(folder, "regress", *words, stdout=subprocess.PIPE) as program:
            printed, said = stopped(folder, program, by)
        yield f"{by.name} in mid-run", lacking(folder, program.returncode, printed, said)


def lacking(folder: Path, status: int, printed: str, said: str) -> Optional[str]:
    """What a call that was interrupted in its third run didn't tell."""
    if status != 130 or not said.strip().endswith("interrupted") or "Traceback" in said:
        return f"status {status}, {said[-400:]!r}"
    if not re.search(r"(?m)^seed 2 +wrong ", printed) or "unjudged: seed 3, seed 4, " not in printed or "38 unjudged" not in printed:
        return f"it printed {printed!r}"
    runs = json.loads(taken(folder / "runs.json") or '{"runs": []}')["runs"]
    if [it["status"] for it in runs] != ["right", "wrong"] + ["unjudged"] * 38 or runs[-1]["run"] != "seed 40":
        return f"JSON has {runs[:3]}"
    if json.loads(taken(folder / "night.cover") or '{"runs": 0}')["runs"] != 2:
        return "its cover isn't of two runs"
    suite = ElementTree.parse(folder / "junit.xml").getroot().find("testsuite")
    counts = [suite.get(it) for it in ("tests", "failures", "errors")]
    counts += [len(suite.findall(it)) for it in ("testcase", "*/failure", "*/error")]
    return None if counts == ["40", "1", "38", 40, 1, 38] else f"JUnit has {counts}"


def set_up(folder: Path, score: str) -> Iterator[Case]:
    """Set-ups: the last line without a line feed, and lines that the scoreboard couldn't read."""
    lines = setup_of(folder).read_text()
    for name, text in (("a line", lines[:-1]), ("a comment", f"{lines}# no line feed")):
        (folder / "cut.lines").write_text(text)
        made = Made(folder, score, "--command", f"tail -n +4 '{RIGHT}'", "--setup", "cut.lines")
        due = Made(folder, score, RIGHT).runs[0]["beats"]
        yield f"a set-up that ends in {name}", made.wrong(0, ["right"]) or (None if made.runs[0]["beats"] == due else "a beat is lost")
    for name, data, named in (
        ("a byte that isn't UTF-8", "# für\n".encode("latin-1"), "fc"),
        ("a letter that isn't ASCII", "# für\n".encode(), "c3"),
        ("a tabulator", b"#\tfour\n", "09"),
        ("a line that is too long", b"#" * 129 + b"\r\n", "129"),
    ):
        (folder / "odd.lines").write_bytes(lines.encode() + data)
        made = Made(folder, score, RIGHT, "--setup", "odd.lines")
        yield f"a set-up with {name}", ended(made, 2, "odd.lines, line 4: ") or (None if named in made.ran.stderr else made.ran.stderr)


def lists(folder: Path, score: str) -> Iterator[Case]:
    """Lists of seeds that are none, or have no end: no run is made, and they aren't written out."""
    bounded = lambda: resource.setrlimit(resource.RLIMIT_AS, (1 << 30, 1 << 30))  # noqa: E731
    for text in ("3-1", "1-3000000000", "1-1000000,2000000", f"1-{'9' * 30}", "1-", "-", "", "1,,2", "a", "1_0", "5-4,1"):
        words = ["--command", ": {seed}", f"--seeds={text}", "--score", score, "--json", "listed"]
        ran = command("regress", *words, cwd=folder, preexec_fn=bounded)
        is_well = ran.returncode == 6 and "--seeds" in ran.stderr and ran.stderr.count("\n") == 1 and not (folder / "listed").exists()
        yield f"the seeds {text!r}", None if is_well else f"status {ran.returncode}, {ran.stderr[-300:]!r}"


# Two clients, each of which gets a reply with other bytes than those that it put (lines 9 and 16), and a burst over the end of a page (18).
KNOWN = (TOP / "tests/commands/waivers/known.lines").read_text()
WAIVED = re.compile(r"(\w+): (\d+) left, the first in line (\d+); waived (.*)")
# Waivers that no line of a file of cases can hold: what is given, the state, how many wrong lines are left, and how many each one waived.
ODD_WAIVERS = (
    ("all", "# known\n\nreply PAYLOAD client 0 a\r\n  reply PAYLOAD client 1 b\naxi CROSS_4K pages 11 1 c", "waived", 0, None, [1, 1, 1]),
    ("no waiver", "# none", "wrong", 3, 9, []),
)


def waivers() -> Iterator[Tuple[str, str, str, int, Optional[int], List[int]]]:
    """Files of waivers, how the run ends by each, how many wrong lines are left, the first of these, and how many each waiver waived."""
    for it in blocks(TOP / "tests/commands/waivers/waived.blocks"):
        state, left, line, counts = WAIVED.fullmatch(it.due).groups()
        yield it.name, it.given, state, int(left), int(line), [*map(int, counts.split())]
    yield from ODD_WAIVERS


def waived(folder: Path, score: str) -> Iterator[Case]:
    """Wrong lines that are known: how many are left, by each rule and place; and what each waiver waived, in the table and both files."""
    (folder / "known.lines").write_text(KNOWN)
    for name, text, state, left, line, counts in waivers():
        (folder / "known.waivers").write_text(text)
        made = Made(folder, score, "known.lines", "--waive", "known.waivers")
        yield f"waived: {name}", made.wrong(int(state == "wrong"), [state]) or waiving(folder, made, left, line, counts)
    refused = [(it.name, it.given.encode(), it.due) for it in blocks(TOP / "tests/commands/waivers/refused.blocks")]
    for name, text, said in (*refused, ("bytes that are no text", b"reply PAYLOAD client 0 f\xfcr", "it isn't UTF-8")):
        (folder / "no.waivers").write_bytes(b"# known\nreply SIZE client 0 ok\n" + text)
        made = Made(folder, score, "known.lines", "--waive", "no.waivers")
        yield f"no waiver: {name}", ended(made, 2, "no.waivers line 3") or (None if said in made.ran.stderr else made.ran.stderr)
    yield "waivers that aren't there", ended(Made(folder, score, "known.lines", "--waive", "none"), 3, "none: No such file")
    (folder / "known.waivers").write_text("reply UNANSWERED pages 2 2 slow\naxi UNANSWERED pages 11 1 none\nreply UNANSWERED client 1 lost")
    made = Made(folder, score, RTL / "runs/reply-lost.lines", "--waive", "known.waivers")  # 00001ff0 of client 0, and 00001fe0 of client 1
    yield "waived at the end", made.wrong(1, ["wrong"]) or waiving(folder, made, 1, 65, [0, 0, 1])
    (folder / "known.waivers").write_text("reply UNANSWERED pages 1 1 lost")
    made = Made(folder, score, RTL / "runs/reply-lost.lines", RIGHT, "--waive", "known.waivers")
    yield "waived by their pages at the end", made.wrong(0, ["waived", "right"]) or waiving(folder, made, 0, None, [2])


def waiving(folder: Path, made: Made, left: int, line: Optional[int], counts: List[int]) -> Optional[str]:
    """What the files and the table have otherwise of a run with waivers."""
    run = made.runs[0]
    if [run[it] for it in ("wrong", "line", "waived")] != [left, line, sum(counts)]:
        return f"{run}"
    listed = json.loads((folder / "runs.json").read_text()).get("waivers", [])
    values = [it.get("value") for it in made.suite.findall("properties/property")]
    rows = re.findall(r"(?m)^(waived \d+|met nothing): known\.waivers line \d+, ", made.ran.stdout)
    due = [f"waived {it}" if it else "met nothing" for it in counts]
    is_well = [it["waived"] for it in listed] == counts and values == rows == due
    return None if is_well else f"{listed}, {values}, {rows}"


def late(folder: Path, score: str) -> Iterator[Case]:
    """Runs in which something took longer than N: slow where nothing is wrong, and told of wrong ones too."""
    timed = "".join(KNOWN.splitlines(True)[:7]) + "time 45\nD 0 1 0 3 5 0 1122334455667788 0\n= end\n"  # of 10 to 45
    (folder / "timed.lines").write_text(timed)
    made = Made(folder, score, "timed.lines", "--late", 35)
    yield "nothing took longer than 35", made.wrong(0, ["right"])
    made = Made(folder, score, "timed.lines", RIGHT, "--late", 34)
    due = "line 7 client 0 source 5 at 10 answered after 35: Get of 8 bytes at 00000008"
    why = made.wrong(1, ["slow", "failed"]) or (None if (made.runs[0]["late"], made.runs[0]["first_late"]) == (1, due) else f"{made.runs[0]}")
    yield "something took longer than 34, and a run without times", why or (None if "no times: " in made.runs[1]["why"] else f"{made.runs[1]}")
    row = f"slow         4       8/8  1 late, first {due}\n"
    yield "the table of a slow run", None if row in made.ran.stdout and "1 failed, 0 late, 1 slow; " in made.ran.stdout else made.ran.stdout
    (folder / "wrong.lines").write_text(timed.replace("1122334455667788 0\n= end", "1122334455667789 0\n= end"))
    made = Made(folder, score, "wrong.lines", "--late", 34)
    yield "a wrong run that is slow", made.wrong(1, ["wrong"]) or (None if made.runs[0]["late"] == 1 else f"{made.runs[0]}")
    (folder / "known.waivers").write_text("reply PAYLOAD client 0 known")
    made = Made(folder, score, "wrong.lines", "--late", 34, "--waive", "known.waivers")
    yield "a waived run that is slow", made.wrong(1, ["slow"]) or (None if made.runs[0]["waived"] == 1 else f"{made.runs[0]}")
    yield "--late 0", ended(Made(folder, score, "wrong.lines", "--late", 0), 6, "--late")


def covered(folder: Path, score: str) -> Iterator[Case]:
    """What runs reached: the file is that of zuldegei-cover, and the table and both files say how much it is."""
    runs, lot = [*RUNS, RIGHT], random.Random(1)
    ran = command("cover", *runs, "--json", "due.cover", cwd=folder)
    due, last = (folder / "due.cover").read_text(), ran.stdout.splitlines()[-1]
    made = Made(folder, score, *runs, "--cover", "night.cover", "-j", 3)
    states = ["wrong"] * len(RUNS) + ["right"]
    yield "what runs reached", made.wrong(1, states) or (None if (folder / "night.cover").read_text() == due else "another file than due")
    yield "the table of what they reached", None if f"\ncovered: {last}\n" in made.ran.stdout else made.ran.stdout[-300:]
    yield from counted(folder, last)
    for number in range(4):
        shuffled, at = lot.sample(runs, len(runs)), lot.randrange(1, len(runs))
        for name, part in (("one.cover", shuffled[:at]), ("other.cover", shuffled[at:])):
            command("regress", *part, "--cover", name, "--score", score, "-j", 1 + number, cwd=folder)
        command("cover", *lot.sample(["one.cover", "other.cover"], 2), "--json", "both.cover", cwd=folder)
        yield f"in parts, {number}", None if (folder / "both.cover").read_text() == due else "another file than of all at once"
    command("regress", "--command", f"cat '{RUNS[0]}' # {{seed}}", "--seeds", "3-4", "--cover", "seeds.cover", "--score", score, cwd=folder)
    names = {it[1] for it in json.loads((folder / "seeds.cover").read_text())["bins"].values() if it[0]}
    yield "the names of runs", None if names == {"seed 3"} else f"they are {names}"
    (folder / "out.lines").write_text("without wait/* none\nwithout request/* all of them\n")
    again = ["regress", *runs, "--cover", "night.cover", "--score", score]
    both = (command(*it, "--without", "out.lines", cwd=folder) for it in (["cover", "due.cover"], again))
    shown, made_again = (it.stdout.splitlines() for it in both)
    is_well = made_again[-4:-1] == [*shown[-3:-1], f"covered: {shown[-1]}"] and "request/" not in shown[-1] and shown[-1] != last
    yield "bins that are left out", None if is_well and (folder / "night.cover").read_text() == due else f"{shown[-3:]}, {made_again[-4:]}"


def counted(folder: Path, last: str) -> Iterator[Case]:
    """How much was reached, in JSON and for a reader of JUnit."""
    runs, beats, hit, bins = (int(it) for it in re.findall(r"\d+", last)[:4])
    found = json.loads((folder / "runs.json").read_text())["covered"]
    yield "how much it is, in JSON", None if found == {"runs": runs, "beats": beats, "bins": bins, "hit": hit} else str(found)
    python = next((it for it in PYTHONS if subprocess.run([it, "-c", "import junitparser"], capture_output=True).returncode == 0), None)
    if python is None:
        print("skipped: what junitparser reads: Debian's package python3-junitparser isn't installed", flush=True)
        return
    ran = subprocess.run([python, "-c", READ, folder / "junit.xml"], capture_output=True, text=True)
    lines, due = ran.stdout.splitlines(), f"covered: {last.partition(': ')[2]}"
    yield "what junitparser reads", None if lines[:1] == [due] and len(lines) == 1 + runs else f"{lines[:2]}, {ran.stderr[-300:]}"


def uncovered(folder: Path, score: str) -> Iterator[Case]:
    """Runs that can't count in what was reached: they are named, with the reason."""
    (folder / "nothing.lines").write_text("config 2 4 16 2 16 12 hh\n")
    text = f"case {{seed}} in 1) cat '{RUNS[0]}';; *) head -n 20 '{RUNS[0]}'; echo it broke >&2; exit 3;; esac"
    made = Made(folder, score, "nothing.lines", "none.lines", "--command", text, "--seeds", "1-2", "--cover", "some.cover")
    due = ["none.lines: none.lines: No such file or directory", "seed 2: the command ended with status 3: it broke"]
    found = re.findall(r"(?m)^not covered: (.*)$", made.ran.stdout)
    yield "runs that don't count", made.wrong(1, ["nothing", "failed", "wrong", "failed"]) or (None if found == due else f"{found}")
    yield "runs that do", None if json.loads((folder / "some.cover").read_text())["runs"] == 2 else "it isn't two"
    said = [it.get("uncovered") for it in made.runs]
    in_junit = [it.text.partition("not covered: ")[2] for it in made.suite.iter("system-out")]
    yield "why, in both files", None if said == in_junit and [bool(it) for it in said] == [0, 1, 0, 1] else f"{said}, {in_junit}"
    made = Made(folder, score, "--command", f"cat '{RUNS[0]}'; sleep 60", "--timeout", 0.5, "--cover", "some.cover")
    is_well = "\nnot covered: cat " in made.ran.stdout and ": it took longer than 0.5 s\ncovered: 0 runs" in made.ran.stdout
    yield "a run that is cut", made.wrong(2, ["late"]) or (None if is_well else made.ran.stdout)
    right = stand_in(folder, "cat >/dev/null; printf '= judged 5 wrong 0 outstanding 0 open 0 compared 8 of 8\\n'")
    (folder / "bare.lines").write_text("A 0 4 0 3 5 00000008 ff 0000000000000000 0\n")
    made = Made(folder, "", "bare.lines", "--cover", "some.cover", "--score", right)
    said = "not covered: bare.lines: line 1 of the observation, 'A 0 4 0 3 5 00000008 ff 0000000000000000 0', no config line stands ahead"
    is_well = said in made.ran.stdout and "\ncovered: 0 runs, 0 beats: 0 of 0 bins, 0.0 %\n" in made.ran.stdout
    yield "a right run that can't be covered", made.wrong(0, ["right"]) or (None if is_well else made.ran.stdout)
    (folder / "timeless.lines").write_text(RIGHT.read_text())
    made = Made(folder, score, "timeless.lines", "--late", 5, "--cover", "some.cover")
    count = json.loads((folder / "some.cover").read_text())["runs"]
    yield "a run without times is covered", made.wrong(2, ["failed"]) or (None if count == 1 else f"{count} runs")
    (folder / "large.lines").write_text(RUNS[0].read_text() + "# and no beat\n" * 3000)
    small = lambda: resource.setrlimit(resource.RLIMIT_FSIZE, (20_000, 20_000))  # noqa: E731
    ran = command("regress", "large.lines", "--cover", "/dev/null", "--score", score, cwd=folder, preexec_fn=small)
    yield "a run without room", None if re.search(r"(?m)^not covered: large.lines: .*joined.lines: ", ran.stdout) else ran.stdout
    for word in ("--without", "--clock"):
        yield f"{word} without --cover", ended(Made(folder, score, RIGHT, word, 5), 6, "--cover")


def beside(folder: Path, score: str) -> Iterator[Case]:
    """What is asked beside a verdict: it is read once for all that ask, and ends with the time of the run."""
    os.mkfifo(folder / "once")
    threading.Thread(target=lambda: (folder / "once").write_text(RUNS[0].read_text()), daemon=True).start()
    found = []
    made = Outcome(Job(0, "once"), State.RIGHT)
    reading = threading.Thread(target=lambda: found.append(Beside(200, None, True).applied(made, folder / "once", "")), daemon=True)
    reading.start()
    reading.join(30)
    is_well = found and found[0].late > 3 and found[0].cover.beats == 65
    yield "an observation that can be read once", None if is_well else f"{found}"
    os.mkfifo(folder / "stuck")  # nobody writes there
    for state, ends in ((State.RIGHT, State.LATE), (State.WAIVED, State.LATE), (State.WRONG, State.WRONG)):
        runner = Runner(score, b"", 0.5, None, Beside(None, None, True))
        asked = Request(runner.beside, Outcome(Job(0, "a run"), state), folder / "stuck", "")
        got = runner.with_beside(asked, time.monotonic() + runner.timeout)
        runner.helpers.close()
        is_well = (got.state, got.why, got.uncovered) == (ends, *["it took longer than 0.5 s"] * 2)
        yield f"what takes too long beside its verdict: {state}", None if is_well else str(got)
    helpers = Helpers()
    helper = helpers.one()
    helper.end()
    helpers.idle.put(helper)
    asked = Request(Beside(None, None, True), Outcome(Job(0, "a run"), State.RIGHT), RUNS[0], "")
    answers = [helpers.answer(asked, time.monotonic() + 60) for _ in range(2)]
    helpers.close()
    yield "a process that ended, and the next one", None if answers[0] is None and answers[1].cover.beats == 65 else f"{answers}"


def setup_of(folder: Path) -> Path:
    """The set-up of the right run, by itself."""
    path = folder / "setup.lines"
    path.write_text("".join(RIGHT.read_text().splitlines(True)[:3]))
    return path


def progress(folder: Path, score: str) -> Optional[str]:
    """Whether a terminal is told how many runs have ended."""
    status, said = on_a_terminal("regress", RIGHT, RUNS[0], "--score", score, "-j", 1, cwd=folder)
    return None if b"2 of 2, 1 not right" in said and status == 1 else repr(said)


def cases(folder: Path, score: str) -> Iterator[Case]:
    yield from stored(folder, score)
    yield from states(folder, score)
    yield from seeded(folder, score)
    yield from kept(folder, score)
    yield from untrusted(folder, score)
    yield from early(folder, score)
    yield from full(folder, score)
    yield from halfway(folder, score)
    yield from set_up(folder, score)
    yield from lists(folder, score)
    yield from waived(folder, score)
    yield from late(folder, score)
    yield from covered(folder, score)
    yield from uncovered(folder, score)
    yield from beside(folder, score)


if __name__ == "__main__":
    sys.exit(told_in_a_folder(cases, str(Path(sys.argv[1]).resolve())))
