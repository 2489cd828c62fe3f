"""What zuldegei-explain says of the stored runs of examples/testbench/rtl: of each planted fault the side on which it lies (what bridge.sv
says of the fault), and beats that have what is said of them; and of observations by hand what it says of data that went elsewhere, replies
ahead of their answers, other lanes, and beats of others in the midst of a message, where each is so and where it isn't. Its time line in a
browser, where Chromium is installed: each request, burst and beat of a run is an element there, the picture isn't blank, and a run of
100,000 beats is shown in a window. A run with 8,000 wrong lines within its time, pages that can't be written whole, observations and
verdicts that can't be read. And what zuldegei-wave-of makes of the stored runs for GTKWave: each beat and each wrong line at its time.
Stored runs that were changed by lot are explained and drawn, whatever is wrong of them.

    python3 tests/explain.py TLSCORE
"""

import json
import random
import re
import resource
import shutil
import subprocess
import sys
from collections import Counter
from pathlib import Path
from typing import Callable, Dict, Iterator, List, Optional, Tuple

from ends import TOP, Case, is_there, told_in_a_folder
from package import RTL, command, one_line
from pictures import BROWSERS, pictured
from stored import observations
from zuldegei.causes import Explainer
from zuldegei.history import History
from zuldegei.observation import Observation, verdict_of
from zuldegei.timeline import page

RUNS = RTL / "runs"
# Where each fault lies, as bridge.sv says of it, by the first word of a side.
SIDES = {
    "lane-swapped": "read",
    "strobe-lost": "write",
    "other-source": "reply",
    "reply-twice": "reply",
    "wlast-early": "write",
    "page-crossed": "limit",
    "region-unasked": "limit",
    "first-mask": "write",
    "answered-early": "order",
    "cut-short": "reply",
    "reply-lost": "reply",
    "beat-dropped": "request",
    "unknown-read": "read",
}
# Words of the sentences that say where bytes are that went astray, and the stored runs in which they are true.
ASTRAY = ("went to", "stands in", "came before R", "among its data")
ASTRAY_IN = {"lane-swapped": ["stands in"]}
# What is missing at the end of rows of examples/scoreboard: the side, and what is said of it.
MISSING = {
    "end-with-a-lost-address": ("write", "no AW asks for them", "1 W beat from line 7 on"),
    "end-with-data-alone": ("write", "2 W beats from line 8 on", "1 W beat from line 13 on"),
    "end-with-messages-begun": ("request", "stopped after 1 beat of 2", "client 0 source 6 (line 5)"),
}
HEAD = "config 2 4 16 2 16 12 hh\nregion 0 4 10 gpah\npage 10 4 good\n"
PUT, GET, DONE = "A 0 0 0 3 5 00000008 ff 1122334455667788 0", "A 1 4 0 3 7 00000008 ff 0000000000000000 0", "D 0 0 0 3 5 0 0000000000000000 0"
AW, W, B = "AW 0 00010008 0 3 1", "W 1122334455667788 ff 1", "B 0 OKAY"
READ_ZEROS = (GET, "AR 3 00010008 0 3 1", "R 3 0000000000000000 OKAY 1", "D 1 1 0 3 7 0 0000000000000000 0")
COLOURS = ("cfe3ff", "d8f5d0", "9fc4f5", "aee3a0", "dd0000")  # of Puts, Gets, writes, reads and what is wrong


def run_of(name: str) -> Tuple[Path, Path]:
    return RUNS / f"{name}.lines", RUNS / f"{name}.told"


def sides() -> Iterator[Case]:
    """The side of each fault, and whether the lines that the text names have the bytes that it says of them."""
    stored = {it.stem for it in RUNS.glob("*.lines")}
    others = set(SIDES) ^ stored
    yield "a side for each stored run", f"not both: {', '.join(sorted(others))}" if others else None
    for name, side in SIDES.items():
        ran = command("explain", *run_of(name))
        found = re.search(r"(?m)^  look at the (\w+)", ran.stdout)
        why = None if found and found[1] == side and ran.returncode == 1 else f"status {ran.returncode}, {ran.stdout}{ran.stderr}"
        yield f"the side of {name}", why or misquoted(ran.stdout, run_of(name)[0].read_text().splitlines())
        all_of_it = command("explain", *run_of(name), "-n", "99").stdout
        astray = [it for it in ASTRAY if it in all_of_it]
        yield f"what went astray in {name}", None if astray == ASTRAY_IN.get(name, []) else f"{astray}, {all_of_it}"


def missing(folder: Path) -> Iterator[Case]:
    """What is missing at the end of an observation: its side, what is said of it, and that it is drawn."""
    for name, (side, *said) in MISSING.items():
        row, page = TOP / "examples/scoreboard" / name, folder / "missing.html"
        ran = command("explain", row.with_suffix(".in"), row.with_suffix(".out"), "--html", page)
        is_said = f"  look at the {side}" in ran.stdout and all(it in ran.stdout for it in said)
        is_well = ran.returncode == 1 and is_said and page.exists()
        yield f"what is missing: {name}", None if is_well else f"status {ran.returncode}, {ran.stdout}{ran.stderr}"


def misquoted(text: str, lines: List[str]) -> Optional[str]:
    """What a text says of a line that the line doesn't have."""
    for line, kind in re.findall(r"line (\d+)(?: at \d+)?[,;] (AW|AR|W|R|B)\b", text):
        if not lines[int(line) - 1].startswith(f"{kind} "):
            return f"line {line} is {lines[int(line) - 1]!r}, and not of {kind}"
    for opcode, size, address, client, source, line in re.findall(
        r"(\w+) of (\d+) bytes at (\w{8}), client (\d+) source (\d+) \(line (\d+)", text
    ):  # fmt: skip
        words = lines[int(line) - 1].split()
        names = {"PutFull": "0", "PutPartial": "1", "Get": "4"}
        wanted = ["A", client, names[opcode], "0", str(int(size).bit_length() - 1), source, address]
        if words[:7] != wanted:
            return f"line {line} is {' '.join(words)!r}, and not {' '.join(wanted)!r}"
    return giver_missed(text, lines)


def giver_missed(text: str, lines: List[str]) -> Optional[str]:
    """Of each byte that was given, whether the beat that is said to have given it last has the due byte in its lane."""
    for address, due, rest in re.findall(r"(?m)^    at (\w{8}).*: due (\w\w).*\n((?:      .*\n)+)", text):
        found = re.search(r"last given by .*line (\d+)", rest)
        if found:
            words, lane = lines[int(found[1]) - 1].split(), int(address, 16) % 8
            mask, payload = int(words[7], 16), int(words[8], 16)
            if not mask >> lane & 1 or payload >> 8 * lane & 255 != int(due, 16):
                return f"line {found[1]} doesn't give {due} at {address}"
    return None


def judged(score: str, lines: str) -> str:
    """What tlscore prints of an observation."""
    return subprocess.run([score], input=lines, capture_output=True, text=True).stdout


def sentences(folder: Path, score: str) -> Iterator[Case]:
    """What is said of observations by hand, of which one beat is wrong: side, sentence and what it rests on, and the bursts in the picture."""
    verdict, drawn_page = folder / "sentence.told", folder / "sentence.html"
    for lines in observations(TOP / "tests/commands/explain"):
        name, text = lines.stem, lines.read_text()
        wrong, *says = lines.with_suffix(".says").read_text().splitlines()
        verdict.write_text(judged(score, text))
        told_wrong = [it for it in verdict.read_text().splitlines() if it.startswith("= wrong ")]
        yield f"{name}: the verdict", None if told_wrong == [wrong] else f"{told_wrong}, not {wrong}"
        ran = command("explain", lines, verdict, "--html", drawn_page)
        is_well = ran.returncode == 1 and all((it.removeprefix("not: ") in ran.stdout) != it.startswith("not: ") for it in says)
        yield name, (None if is_well else f"status {ran.returncode}, {ran.stdout}{ran.stderr}") or misquoted(ran.stdout, text.splitlines())
        yield f"{name}: the picture", None if rung(ran.stdout, drawn_page, text) else "a burst of the text isn't in the picture"


def rung(text: str, drawn_page: Path, lines: str) -> bool:
    """Whether each burst that a text names as the way of its data is among what the page puts a ring around."""
    found = re.search(r'"wrong":(\[\[.*?\]\]\])', drawn_page.read_text())
    marked = json.loads(found[1])[0][5]
    named = [int(it) for it in re.findall(r"line (\d+), AW of ID", text)]
    return all(it in marked for it in named) and lines.count("\n") >= max(marked)


def many(folder: Path) -> Iterator[Case]:
    """A run of 250,000 beats of which 8,000 are wrong, payloads or replies that nobody waits for: text and page within 20 s of processor."""
    for name, kept in (("payloads", False), ("replies that nobody waits for", True)):
        lines, verdict, drawn_page = (folder / f"many.{it}" for it in ("lines", "told", "html"))
        text, wrong = many_wrong(kept)
        lines.write_text(text)
        verdict.write_text(wrong)
        words = ("explain", lines, verdict, "-n", "8000", "--html", drawn_page)
        ran = command(*words, seconds=300, preexec_fn=limited(resource.RLIMIT_CPU, 20))
        is_well = ran.returncode == 1 and ran.stdout.count("\n  = wrong ") == 8000 and ran.stdout.count("  look at the re") == 8000
        counted = drawn_page.exists() and drawn_page.read_text().count(" reply 7 PAYLOAD " if not kept else " UNASKED")
        yield f"8,000 wrong {name} of 250,000 beats", None if is_well and counted >= 8000 else f"status {ran.returncode}, {ran.stderr[-200:]}"
        drawn_page.unlink()


def many_wrong(is_again: bool) -> Tuple[str, str]:
    """Puts and Gets in turn; the payload of one reply in three is wrong, or the reply comes again."""
    text, wrong = [HEAD.rstrip()], []
    number = 3
    for at in range(27_778):
        address, is_wrong = at % 512 * 8, at % 3 == 0 and len(wrong) < 8000
        shown = at + 1 ^ (is_wrong and not is_again)
        beats = [f"A 0 0 0 3 {at % 16} {address:x} ff {at + 1:x} 0", f"AW 0 {0x10000 + address:x} 0 3 1", f"W {at + 1:x} ff 1", "B 0 OKAY"]
        beats += [f"D 0 0 0 3 {at % 16} 0 0 0", f"A 1 4 0 3 {at % 16} {address:x} ff 0 0", f"AR 0 {0x10000 + address:x} 0 3 1"]
        beats += [f"R 0 {at + 1:x} OKAY 1"] + [f"D 1 1 0 3 {at % 16} 0 {shown:x} 0"] * (1 + (is_wrong and is_again))
        text += beats
        number += len(beats)
        due = "reply 1 UNASKED" if is_again else f"reply 7 PAYLOAD expected D 1 1 0 3 {at % 16} 0 {at + 1:016x} 0"
        wrong += [f"= wrong {number} {due}"] if is_wrong else []
    return "\n".join([*text, ""]), "\n".join([*wrong, f"= judged {number - 3} wrong {len(wrong)} outstanding 0 open 0 compared 0 of 0", ""])


def limited(kind: int, most: int) -> Callable[[], None]:
    """What limits a process that is about to begin."""
    return lambda: resource.setrlimit(kind, (most, most))


def unended(folder: Path) -> Iterator[Case]:
    """A burst and a request without an answer in the picture: their bars go on to its end, those of others to their answers."""
    lines, verdict, drawn_page = (folder / f"unended.{it}" for it in ("lines", "told", "html"))
    ended = f"time 10\n{PUT}\n{AW}\ntime 20\n{W}\ntime 30\n{B}\ntime 40\n{DONE}\n"
    lines.write_text(HEAD + f"{ended}time 50\n{PUT}\n{AW}\ntime 60\n{W}\ntime 90\n{GET}\n")
    verdict.write_text("= judged 9 wrong 0 outstanding 2 open 1 compared 0 of 0\n")
    command("explain", lines, verdict, "--html", drawn_page)
    found = re.findall(r'\[\d+,"(\w+)","[^"]*",(\d+),(\d+),\[\[', drawn_page.read_text())
    due = [("put", "10", "40"), ("aw", "10", "30"), ("put", "50", "90"), ("aw", "50", "90"), ("get", "90", "90")]
    yield "bars of what has no answer", None if sorted(found) == sorted(due) else f"{found}"


def cut(folder: Path) -> Iterator[Case]:
    """Files that can't be written whole: none is left behind, and the fault names it."""
    lines, verdict = run_of("lane-swapped")
    for name, module, words in (("page", "explain", ("--html",)), ("vcd", "wave_of", ())):
        file = folder / f"cut.{name}"
        ran = command(module, lines, verdict, *words, file, preexec_fn=limited(resource.RLIMIT_FSIZE, 1500))
        yield f"a {name} that is cut", one_line(ran, ran.stdout, (str(file),), 3) or (f"{file} is there" if file.exists() else None)
        ran = command(module, lines, verdict, *words, "/dev/full")
        yield f"a {name} on a full disc", one_line(ran, ran.stdout, ("/dev/full",), 3) or (None if Path("/dev/full").exists() else "it's gone")


def hostile(folder: Path) -> Iterator[Case]:
    """What isn't an observation, or no verdict; and one of which nothing is wrong."""
    lines, verdict = run_of("lane-swapped")
    (folder / "noise").write_bytes(random.Random(5).randbytes(3000))
    yield "noise for a verdict", one_line(command("explain", lines, folder / "noise"), named=("tlscore",))
    (folder / "bad.lines").write_text(lines.read_text() + "A 0 0 0 3\n")
    yield "a beat that is cut", one_line(command("explain", folder / "bad.lines", verdict), named=("line 95",))
    (folder / "bad.lines").write_text(lines.read_text() + "A 0 0 0 99999999999999 5 00000008 ff 0 0\n")
    yield "a field of 14 digits", one_line(command("explain", folder / "bad.lines", verdict), named=("line 95",))
    for count in ("0", "-3"):
        yield f"-n {count}", one_line(command("explain", lines, verdict, "-n", count), named=(f"-n {count}",), status=6)
    (folder / "bad.told").write_text("= wrong 89 reply 7 PAYLOAD expected D 0 1 0 5\n")
    yield "a due beat that is cut", one_line(command("explain", lines, folder / "bad.told"), named=("wrong 89",))
    (folder / "bad.told").write_text("= wrong 89 axi 8 WLAST at 1505\n")
    yield "a verdict on a beat of another kind", one_line(command("explain", lines, folder / "bad.told"), named=("isn't of this observation",))
    ran = command("explain", lines, run_of("reply-lost")[1])
    yield "a verdict of another run", one_line(ran, named=("isn't of this observation", "65"))
    yield "an observation that isn't there", one_line(command("explain", folder / "none", verdict), named=("none",), status=3)
    (folder / "right.told").write_text("= judged 47 wrong 0 outstanding 0 open 0 compared 32 of 32\n")
    ran = command("explain", lines, folder / "right.told", "--html", folder / "right.html")
    is_well = ran.returncode == 0 and ran.stdout.startswith("0 wrong lines, 8 requests")
    yield "where nothing is wrong", None if is_well else ran.stdout + ran.stderr


def mutated(score: str) -> Iterator[Case]:
    """Stored runs with lines by lot left out, doubled, swapped, or with another word: each wrong line is explained and drawn."""
    lot, judged, sides_seen = random.Random(11), 0, Counter()
    texts = [it.read_text() for it in (*sorted(RUNS.glob("*.lines")), *sorted((TOP / "examples/scoreboard").glob("*.in")))]
    for number in range(200):
        text = changed(lot.choice(texts).splitlines(), lot)
        ran = subprocess.run([score], input=text, capture_output=True, text=True)
        if ran.returncode > 1:
            continue
        judged += 1
        observation, verdict = Observation(text), verdict_of(ran.stdout)
        history = History(observation, verdict)
        causes = [Explainer(history).cause(it) for it in verdict.wrong]
        sides_seen.update(it.side.name for it in causes)
        drawn_text = page(history, verdict, [it.text() for it in causes], [it.behind for it in causes], "changed")
        if len(causes) != len(verdict.wrong) or '"wrong":' not in drawn_text:
            yield f"changed run {number}", f"{len(causes)} causes of {len(verdict.wrong)}"
    yield "changed runs", None if judged > 80 and len(sides_seen) == 7 else f"{judged} were judged, with {sides_seen}"


def changed(lines: List[str], lot: random.Random) -> str:
    """A run with up to three changes by lot."""
    for _ in range(lot.randrange(1, 4)):
        at, other, how = lot.randrange(len(lines)), lot.randrange(len(lines)), lot.randrange(5)
        words = lines[at].split()
        if how == 0 and len(lines) > 5:
            del lines[at]
        elif how == 1:
            lines.insert(at, lines[other])
        elif how == 2 and len(words) > 2:
            place = lot.randrange(2, len(words))
            words[place] = lot.choice(["x", "0", "1", "5", words[place][::-1], f"{words[place][:-1]}z"])
            lines[at] = " ".join(words)
        elif how == 3:
            lines.insert(at, lot.choice(["= reset", "= drained", "= noclient"]))
        else:
            lines[at - 1], lines[at] = lines[at], lines[at - 1]
    return "\n".join(lines) + "\n"


def counts(lines: str) -> Dict[str, int]:
    """The requests, bursts and beats of an observation, by its lines alone."""
    kinds, lacking, requests = Counter(line.split()[0] for line in lines.splitlines()), Counter(), 0
    for line in lines.splitlines():
        words = line.split()
        if words[0] == "A":
            requests += lacking[words[1]] == 0
            beats = max(1, 2 ** int(words[4]) // 8) if words[2] in "0123" else 1
            lacking[words[1]] = (lacking[words[1]] or beats) - 1
    beats = sum(kinds[it] for it in ("A", "D", "AW", "AR", "W", "B", "R"))
    return {"requests": requests, "bursts": kinds["AW"] + kinds["AR"], "beats": beats}


def dom(browser: str, folder: Path, page: str) -> str:
    """What a browser makes of a page."""
    words = [browser, "--headless", "--no-sandbox", "--disable-gpu", f"--user-data-dir={folder / 'browser'}", "--dump-dom", page]
    return subprocess.run(words, capture_output=True, text=True, timeout=300).stdout


def drawn(text: str) -> Dict[str, int]:
    """The elements of a time line."""
    bars = Counter(it for found in re.findall(r'class="bar ([^"]*)"', text) for it in found.split())
    requests, bursts = sum(bars[it] for it in ("put", "get", "other")), bars["aw"] + bars["ar"]
    return {"requests": requests, "bursts": bursts, "beats": len(re.findall(r'class="beat ', text))}


def browsed(browser: str, folder: Path, score: str) -> Iterator[Case]:
    """The time lines of two runs in a browser."""
    for name in ("answered-early", "reply-lost"):
        lines, verdict = run_of(name)
        page = folder / f"{name}.html"
        command("explain", lines, verdict, "--html", page)
        links = re.findall(r'(?:src|href)="|https?://(?!www\.w3\.org)', page.read_text())
        yield f"{name}, without a network", f"it has links: {links}" if links else None
        text = dom(browser, folder, f"{page.as_uri()}#all")
        wanted = counts(lines.read_text())
        yield f"{name}, all of it drawn", None if drawn(text) == wanted else f"{drawn(text)}, not {wanted}"
        text = dom(browser, folder, page.as_uri())
        line = verdict.read_text().split()[2]
        marks = re.findall(rf'class="(?:wrong|flag)"[^>]*data-lines="{line}"', text)
        yield f"{name}, its first wrong beat", None if marks and f"wrong {line} " in text else f"{len(marks)} marks of line {line}"
    yield from used(browser, folder)
    yield from rung_late(browser, folder)
    yield from pictured("timeline", COLOURS, 20, 1.25, folder)
    yield "100,000 beats", large(browser, folder, score)


def acted(browser: str, folder: Path, page: Path, script: str) -> str:
    """What a browser makes of a page once a script has acted on it."""
    copy = folder / "acted.html"
    copy.write_text(page.read_text().replace("</html>", f"<script>{script}</script></html>"))
    return dom(browser, folder, copy.as_uri())


def window(text: str) -> Tuple[int, int]:
    """The times between which a page shows a run."""
    found = re.search(r'id="window">(-?\d+) to (-?\d+) ', text)
    return int(found[1]), int(found[2])


def used(browser: str, folder: Path) -> Iterator[Case]:
    """Keys, and the lines of a bar to which one points."""
    lines, verdict = run_of("other-source")
    page = folder / "other-source.html"
    command("explain", lines, verdict, "--html", page)
    press = "document.dispatchEvent(new KeyboardEvent('keydown', {key: '%s'}));"
    begin, end = window(acted(browser, folder, page, ""))
    spans = {key: window(acted(browser, folder, page, press % key)) for key in ("+", "-", "ArrowRight", "n", "a")}
    wrong = [int(it.split()[-1]) for it in verdict.read_text().splitlines()[:-1]]
    yield "it begins at the first wrong beat", None if begin < wrong[0] < end < wrong[1] else f"{begin} to {end} is shown"
    yield "the key +", None if abs((spans["+"][1] - spans["+"][0]) * 2 - (end - begin)) <= 4 else str(spans)
    yield "the key -", None if abs(spans["-"][1] - spans["-"][0] - (end - begin) * 2) <= 4 else str(spans)
    yield "an arrow", None if spans["ArrowRight"][0] > begin and spans["ArrowRight"][1] > end else str(spans)
    yield "the key n", None if spans["n"][0] < wrong[1] < spans["n"][1] else str(spans)
    times = [int(it.split()[1]) for it in lines.read_text().splitlines() if it.startswith("time ")]
    yield "the key a", None if spans["a"] == (min(times), max(times)) else f"{spans['a']}, not {min(times)} to {max(times)}"
    point = "document.querySelector('rect.aw').dispatchEvent(new MouseEvent('mousemove', {bubbles: true, clientX: 300, clientY: 90}));"
    tip = re.search(r'(?s)<div id="tip"[^>]*>(.*?)</div>', acted(browser, folder, page, point))[1]
    named = [line.strip(" !").partition(": ") for line in tip.splitlines()]
    is_well = len(named) >= 3 and all(lines.read_text().splitlines()[int(number) - 1] == text for number, _, text in named)
    yield "the lines of a bar", None if is_well else repr(tip)


def rung_late(browser: str, folder: Path) -> Iterator[Case]:
    """The rings around what took longer than --late: in this run three took longer than 700, and none longer than 10,000."""
    lines, verdict = run_of("reply-lost")
    page = folder / "late.html"
    for late, firsts in ((700, ["13", "15", "22"]), (10_000, [])):
        ran = command("explain", lines, verdict, "--late", late, "--html", page)
        text = dom(browser, folder, f"{page.as_uri()}#all")
        rung = re.findall(r'<g data-lines="(\d+)[^"]*"><rect [^>]*></rect><rect class="late"', text)
        is_told = ran.stdout.endswith(f", {len(firsts)} took longer than {late}\n") and (f"{len(firsts)} took too long" in text) == bool(firsts)
        is_well = sorted(rung, key=int) == firsts and is_told
        yield f"rings of what took longer than {late}", None if is_well else f"around bars of lines {rung}; {ran.stdout[-100:]!r}"


def large(browser: str, folder: Path, score: str) -> Optional[str]:
    """A run of 100,000 beats whose last reply is wrong: it is explained, and the window shows its end."""
    text = ["config 2 4 16 2 16 12 hh", "region 0 4 10 gpah", "page 10 4 good"]
    for at in range(12_500):
        address, time = at % 512 * 8, 40 * at
        text += [f"time {time}", f"A 0 0 0 3 {at % 16} {address:x} ff {at:x} 0", f"AW 0 {0x10000 + address:x} 0 3 1", f"W {at:x} ff 1"]
        text += [f"time {time + 10}", "B 0 OKAY", f"D 0 0 0 3 {at % 16} 0 0 0"]
        text += [f"time {time + 20}", f"A 1 4 0 3 {at % 16} {address:x} ff 0 0", f"AR 0 {0x10000 + address:x} 0 3 1", f"R 0 {at:x} OKAY 1"]
        text += [f"time {time + 30}", f"D 1 1 0 3 {at % 16} 0 {at ^ (at == 12_499):x} 0"]
    lines, verdict, page = folder / "large.lines", folder / "large.told", folder / "large.html"
    lines.write_text("\n".join(text) + "\n")
    verdict.write_bytes(subprocess.run([score], stdin=lines.open("rb"), capture_output=True).stdout)
    ran = command("explain", lines, verdict, "--html", page, seconds=300)
    if "look at the read" not in ran.stdout or "judged 112500 wrong 1 " not in verdict.read_text():
        return ran.stdout + ran.stderr + verdict.read_text()[-200:]
    shown = drawn(dom(browser, folder, page.as_uri()))
    return None if 2 <= shown["requests"] < 300 and 2 <= shown["bursts"] < 300 else f"{shown} are shown"


def waved(folder: Path) -> Iterator[Case]:
    """The VCD of each stored run: a string for each beat, and one for each wrong line, at their times; and GTKWave's list of signals."""
    is_packed = is_there("VCD files made FST", "vcd2fst")
    for name in SIDES:
        lines, verdict = run_of(name)
        vcd = folder / f"{name}.vcd"
        ran = command("wave_of", lines, verdict, vcd)
        yield f"a VCD of {name}", f"status {ran.returncode}, {ran.stderr}" if ran.returncode != 1 else misplaced(vcd, lines, verdict)
        if is_packed:
            packed = subprocess.run(["vcd2fst", vcd, vcd.with_suffix(".fst")], capture_output=True, text=True)
            yield f"the VCD of {name} as an FST", packed.stderr if packed.returncode else None
    yield "a VCD of a run without times", untimed(folder)
    ran = command("wave_of", lines, verdict, vcd, "--timescale", "3ns")
    yield "a unit that VCD hasn't", one_line(ran, named=("3ns",), status=6)


def untimed(folder: Path) -> Optional[str]:
    """What of a run without times doesn't stand at the number of its line."""
    lines, verdict, vcd = (folder / f"untimed.{it}" for it in ("lines", "told", "vcd"))
    lines.write_text(HEAD + "\n".join([*READ_ZEROS, ""]))
    verdict.write_text("= wrong 7 reply 1 UNASKED\n= judged 4 wrong 1 outstanding 0 open 0 compared 0 of 8\n")
    ran = command("wave_of", lines, verdict, vcd)
    found = [(int(time), text) for time, text in re.findall(r"(?m)^#(\d+)\ns(line\d+)_", vcd.read_text())]
    is_well = found == [(it, f"line{it}") for it in range(4, 8)] and ran.returncode == 1
    return None if is_well and " 7 -1" in vcd.with_suffix(".gtkw").read_text() else f"{found}"


def misplaced(vcd: Path, lines: Path, verdict: Path) -> Optional[str]:
    """What a VCD lacks of a run's beats and wrong lines, or GTKWave's list of the VCD's signals."""
    now, due = 0, Counter()
    for number, line in enumerate(lines.read_text().splitlines(), 1):
        words = line.split()
        now = int(words[1]) if words[0] == "time" else now
        if words[0] in ("A", "D", "AW", "AR", "W", "B", "R"):
            due[now, f"{words[0]}{words[1]}" if words[0] in "AD" else words[0], f"line{number}"] += 1
    for line in verdict.read_text().splitlines()[:-1]:
        due[int(line.split()[-1]), "wrong", "wrong"] += 1
    text, found, now = vcd.read_text(), Counter(), 0
    names = {code: name for code, name in re.findall(r"\$var string 1 (\S+) (\S+) ", text)}
    for line in text[text.index("$enddefinitions") :].splitlines():
        now = int(line[1:]) if line.startswith("#") else now
        if line.startswith("s"):
            value, code = line[1:].split(" ")
            found.update((now, names[code], part.split("_")[0]) for part in value.split("|"))
    if found != due:
        return f"it has {[*(found - due)][:3]}, and not {[*(due - found)][:3]}"
    listed = vcd.with_suffix(".gtkw").read_text()
    first = verdict.read_text().splitlines()[0].split()[-1]
    shown = set(re.findall(r"(?m)^tlscore\.(\w+)$", listed))
    is_marked = re.search(rf"(?m)^\*-?\d+\.\d+ {first} ", listed)
    return None if is_marked and shown == set(re.findall(r"\$var \w+ 1 \S+ (\w+) ", text)) else f"its list is {listed!r}"


def cases(folder: Path, score: str) -> Iterator[Case]:
    yield from sides()
    yield from missing(folder)
    yield from sentences(folder, score)
    yield from many(folder)
    yield from unended(folder)
    yield from cut(folder)
    yield from waved(folder)
    yield from hostile(folder)
    yield from mutated(score)
    browser = next(filter(shutil.which, BROWSERS), None)
    if browser:
        yield from browsed(browser, folder, score)
    else:
        print(f"skipped: the time line in a browser, as none of {', '.join(BROWSERS)} is installed")


if __name__ == "__main__":
    sys.exit(told_in_a_folder(cases, sys.argv[1]))
