"""The monitor and the predictor in SystemC, interfaces/systemc, beside tlscore: stored runs of examples/testbench/rtl, by both profiles,
and some more are played at their ports. What the monitor reports, and when it stops, has to be what tlscore finds wrong of the same
lines; the predictor has to find the first wrong reply of them at its time. The example has to end as its page says. Where SystemC isn't
installed that is said, and nothing is tried.

    python3 tests/systemc.py TLSCORE LIBRARY
"""

import re
import shutil
import subprocess
import sys
import tempfile
from pathlib import Path
from typing import Dict, Iterator, List, Optional, Tuple

from ends import TOP, Case, told
from stored import observations

RUNS = TOP / "examples/testbench/rtl/runs"
REPORTED = re.compile(r"(?m)^Error: (?:\(\w+\) )?zuldegei: (= wrong .*(?:\n= wrong .*)*)$")
FORETOLD = re.compile(r"(?m)^Error: (?:\(\w+\) )?zuldegei: D .*\nIn file: .*\nIn process: .* @ (\d+) ns$")
# A reply that is wrong by itself; one that stops short or is missing shows only at the end.
REPLY = re.compile(r"(?m)^= wrong \d+ reply [13-8] .* at (\d+)$")
COUNTED = re.compile(r"(?m)^judged (\d+) wrong (\d+)$")
END = "= end\n"
AT_PORTS = TOP / "tests/at_ports"
EXAMPLE = {
    (): (0, "9 beats judged, 0 wrong\n"),
    ("wrong",): (
        1,
        "stopped at 90 ns: = wrong 22 reply 7 PAYLOAD expected D 0 1 0 3 7 0 1122334455667788 0 at 90000\n"
        "9 beats judged, 1 wrong\n",
    ),
}


def judged(tlscore: str, text: str) -> Tuple[List[str], Tuple[str, str]]:
    """What tlscore finds wrong, and how many beats it judged and found wrong."""
    ran = subprocess.run([tlscore], input=text, capture_output=True, text=True, check=False)
    lines = ran.stdout.splitlines()
    words = lines[-1].split() if lines else []
    return [it for it in lines if it.startswith("= wrong ")], (words[2], words[4]) if len(words) > 4 else ("no", "verdict")


def difference(program: Path, tlscore: str, given: str, lines: str) -> Optional[str]:
    """How what the monitor reports isn't what tlscore finds; first of a run to its end, and then of one that stops."""
    due, counts = judged(tlscore, lines)
    ran = subprocess.run([program], input=given, capture_output=True, text=True, check=False)
    got, counted = [line for it in REPORTED.findall(ran.stdout) for line in it.split("\n")], COUNTED.search(ran.stdout)
    if got != due or not counted or counted.groups() != counts:
        return f"it reports {got[:2]}, and {counted and counted[0]}, and not {due[:2]}, {counts}: {ran.stderr[-200:]}"
    stopped = subprocess.run([program, "stops"], input=given, capture_output=True, text=True, check=False).stdout
    if due and f"stopped: {due[0]}\n" not in stopped or not due and "stopped" in stopped:
        return f"it ends with {stopped[-300:]!r}"
    return None


def foretold(program: Path, told_of: str, lines: str) -> Optional[str]:
    """How the predictor doesn't find the first wrong reply of an observation, by profile bridge, at its time."""
    given = re.sub(r"(?m)^(profile|axi|errors) .*\n", "", in_turn(lines))
    ran = subprocess.run([program, "predicts"], input=given, capture_output=True, text=True, check=False)
    got, due = FORETOLD.findall(ran.stdout), REPLY.findall(told_of)
    if "compared " not in ran.stdout:
        return f"it ends with {ran.stdout[-200:]!r}"
    return None if got[:1] == due[:1] else f"the first wrong reply is at {got[:1]}, and not at {due[:1]}"


def in_turn(lines: str) -> str:
    """An observation in order of time: its lines have a W beat that came before its AW behind that, with the beat's own time."""
    setup, *clocks = re.split(r"(?m)^(?=time )", lines.replace(END, ""))
    at: Dict[int, str] = {}
    for clock in clocks:
        time, _, beats = clock.partition("\n")
        at[int(time.split()[1])] = at.get(int(time.split()[1]), "") + beats
    return setup + "".join(f"time {time}\n{at[time]}" for time in sorted(at)) + (END if END in lines else "")


def built(source: Path, library: Path, room: Path) -> Path:
    """A program of a source with SystemC."""
    program = room / source.stem
    words = ["g++", "-Wall", "-Wextra", "-Werror", f"-I{TOP / 'interfaces/c'}", f"-I{TOP / 'interfaces/systemc'}", str(source)]
    words += [str(library / "libzuldegei.a"), "-lsystemc", "-o", str(program)]
    ran = subprocess.run(words, capture_output=True, text=True, check=False)
    if ran.returncode:
        raise SystemExit(f"{source.name}: {ran.stderr[-2000:]}")
    return program


def runs() -> Iterator[Tuple[str, str, str]]:
    """Stored runs by both profiles: name, what is played, and the lines. Those with an x have no place on wires of two states."""
    for path in sorted(RUNS.glob("*.lines")):
        text = path.read_text()
        if not re.search(r"(?m)^[ADWRB]\w* .*[xz]", text):
            for profile in ("bridge", "tilelink"):
                lines = re.sub(r"(?m)^profile \w+$", f"profile {profile}", text)
                yield f"{path.stem}, profile {profile}", in_turn(lines), lines


def parts(path: Path) -> Tuple[str, str]:
    """The set-up of a file of AT_PORTS, and the lines behind it."""
    setup, _, lines = path.read_text().partition("\n\n")
    return setup.partition("\n")[2] + "\n", lines


def by_hand() -> Iterator[Tuple[str, str, str, str]]:
    """What is played at the ports of a monitor: its name, the set-up, what is played, and the lines that it is to be judged as."""
    for path in observations(AT_PORTS / "monitor"):
        (setup, given), judged_as = parts(path), path.with_suffix(".judged")
        yield path.stem, setup, given, parts(judged_as)[1] if judged_as.exists() else given


def cases(tlscore: str, library: Path) -> Iterator[Case]:
    if not shutil.which("g++") or not Path("/usr/include/systemc").exists():
        print("skipped: the monitor and the predictor in SystemC, as libsystemc-dev isn't installed")
        return
    if not (library / "libzuldegei.a").is_file():
        yield "the library", f"{library} has no libzuldegei.a; interfaces/build makes it"
        return
    with tempfile.TemporaryDirectory() as folder:
        sources = ("tests/systemc.cpp", "interfaces/systemc/example.cpp")
        player, example = (built(TOP / it, library, Path(folder)) for it in sources)
        found = 0
        for name, given, lines in (*runs(), *((name, setup + given, setup + lines) for name, setup, given, lines in by_hand())):
            yield name, difference(player, tlscore, given, lines)
            found += bool(judged(tlscore, lines)[0])
        for name, _, lines in runs():
            if name.endswith("profile bridge"):
                yield f"{name}, predicted", foretold(player, "\n".join(judged(tlscore, lines)[0]), lines)
        yield "most runs are wrong", None if found > 20 else f"{found} are"
        for words, (status, text) in EXAMPLE.items():
            ran = subprocess.run([example, *words], capture_output=True, text=True, check=False)
            printed = ran.stdout.replace("\nInfo: /OSCI/SystemC: Simulation stopped by user.\n", "")
            right = ran.returncode == status and printed == text
            yield " ".join(("the example", *words)), None if right else f"status {ran.returncode}, {ran.stdout!r}"
        refused = subprocess.run([player], input="config 9\ntime 1\n", capture_output=True, text=True, check=False)
        why = refused.stdout + refused.stderr
        yield "a set-up that is refused", None if "the set-up is refused: script fault: line 1, word 3" in why else why[-300:]


if __name__ == "__main__":
    sys.exit(told(cases(str(Path(sys.argv[1]).resolve()), Path(sys.argv[2]).resolve())))
