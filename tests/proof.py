"""The bounded proof of examples/proof: nothing is broken of the small bridge in so many clocks, and of each fault planted in it an assertion
fails, with a dump that zuldegei-waves reads and in which tlscore finds the same rule broken first, in the same clock; but what is of the
wires alone tlscore doesn't see. prove.py says what words can't be, and what isn't there. The flattened bridges do in a simulation what they
did before. Where yosys, ABC or Icarus isn't installed that is said.

    python3 tests/proof.py TLSCORE [--depth N]
"""

import re
import subprocess
import sys
import tempfile
from concurrent.futures import ThreadPoolExecutor
from pathlib import Path
from typing import Dict, Iterator, List, Optional

from ends import TOP, Case, asked, is_there, told
from package import command
from simulators import by_icarus

PROOF, RTL, RULES = TOP / "examples/proof", TOP / "examples/testbench/rtl", TOP / "interfaces/systemverilog/zuldegei_rules.sv"
FILES = [PROOF / "small_bridge.sv", PROOF / "word.sv", PROOF / "small_proof.sv", RULES]
# The faults of the small bridge, and the assertion that fails first: of a reply that nobody waits for it may be another of channel D, since the
# source may have asked for something else.
NOT_DUE = r"client\.D_(UNASKED|OPCODE|SIZE)"
FAULTS = {
    "LANE_SWAPPED": r"word\.PAYLOAD",
    "STROBE_LOST": r"word\.PAYLOAD",
    "WIDE_STROBES": r"port\.STROBE",
    "OTHER_SOURCE": NOT_DUE,
    "REPLY_TWICE": NOT_DUE,
    "WLAST_LOST": r"port\.WLAST",
    "ANSWERED_EARLY": r"word\.PAYLOAD",
    "DENIED_CLEAN": r"client\.D_CORRUPT",
    "REGION_UNASKED": r"word\.AR_PLACE",
    "AW_WITHDRAWN": r"port\.AW_STAYS",
}
CLOCK = 10  # how long a clock is in the dump


def proved(*words: object, environment: Optional[Dict[str, str]] = None) -> subprocess.CompletedProcess:
    given = [sys.executable, str(PROOF / "prove.py"), *map(str, words)]
    return subprocess.run(given, capture_output=True, text=True, timeout=900, env=environment, check=False)


def timed(done: subprocess.CompletedProcess) -> str:
    """How long it took, as prove.py says."""
    return ", ".join(re.findall(r"(?m)^(?:elaborated|solved) in [\d.]+ s", done.stderr))


def judged(score: str, folder: Path) -> List[str]:
    """What tlscore says of the dump."""
    seen = command("waves", PROOF / "small.map", folder / "broken.vcd")
    lines = (PROOF / "small.lines").read_text() + seen.stdout
    return subprocess.run([score], input=lines, capture_output=True, text=True, timeout=60, check=False).stdout.splitlines()


def of_fault(score: str, folder: Path, bug: str, label: str) -> Case:
    """A fault: the assertion, and what tlscore says of the dump."""
    done = proved("--define", f"BUG={bug}", "--out", folder / bug, *FILES)
    found = re.fullmatch(rf"= broken in clock (\d+): ({label})\n", done.stdout)
    if done.returncode != 1 or not found:
        return bug, f"status {done.returncode}, {done.stdout + done.stderr[-300:]}, and not {label}"
    print(f"{bug}: {found[2]} in clock {found[1]}, {timed(done)}", flush=True)
    said = judged(score, folder / bug)
    name, at = re.sub(r"^(D|AW|AR)_", "", found[2].partition(".")[2]), CLOCK * int(found[1])
    wrong = [it for it in said if it.startswith("= wrong")]
    if name == "STAYS":
        return bug, f"tlscore finds {wrong}" if wrong or len(said) != 1 else None
    is_alike = len(wrong) == 1 and re.fullmatch(rf"= wrong \d+ \w+ \d+ {name}( .*)? at {at}", wrong[0])
    return bug, None if is_alike else f"{found[2]} in clock {found[1]}, and tlscore says {said}"


def of_right(folder: Path, depth: int) -> Case:
    done = proved("--depth", depth, "--out", folder / "right", *FILES)
    is_right = (done.returncode, done.stdout) == (0, f"= nothing is broken in {depth} clocks\n")
    print(f"the right bridge: {depth} clocks, {timed(done)}", flush=True)
    return "the right bridge", None if is_right else f"status {done.returncode}: {done.stdout + done.stderr[-300:]}"


def of_words(folder: Path) -> Iterator[Case]:
    """Words that can't be, a file that yosys doesn't read, and programs that aren't there."""
    broken = folder / "broken.sv"
    broken.write_text("module proof (input wire clock); assign nowhere; endmodule\n")
    bare = {"PATH": "/nowhere"}
    for name, status, words, environment in (
        ("no file", 2, ("--depth", "3"), None),
        ("a depth that is no number", 2, ("--depth", "x", broken), None),
        ("a file that yosys doesn't read", 3, ("--out", folder / "out", broken), None),
        ("no yosys", 4, ("--out", folder / "out", broken), bare),
    ):
        done = proved(*words, environment=environment)
        is_right = done.returncode == status and not done.stdout and "Traceback" not in done.stderr
        yield name, None if is_right else f"status {done.returncode}: {done.stdout + done.stderr[-300:]}"


def seen_of(folder: Path, words: List[str], files: List[Path]) -> str:
    """What the monitor prints of a run of the testbench with these files."""
    seen = folder / "seen.lines"
    runs = by_icarus(folder / "bench.vvp", "testbench", files, f"-I{RTL}", *words)
    subprocess.run([*runs, "+seed=5", f"+observed={seen}"], check=True, timeout=120, stdout=subprocess.DEVNULL)
    return seen.read_text()


def of_flattened(folder: Path) -> Iterator[Case]:
    """Each bridge, flattened, in the testbench."""
    for bridge, words in (("bridge", []), ("streaming_bridge", ["-DBRIDGE=streaming_bridge"])):
        text = subprocess.run([sys.executable, str(PROOF / "flatten.py")], input=(RTL / f"{bridge}.sv").read_text(), capture_output=True, text=True)
        flat = folder / f"flat_{bridge}.sv"
        flat.write_text(text.stdout)
        files = sorted(RTL.glob("*.sv"))
        whole, other = seen_of(folder, words, files), seen_of(folder, words, [flat if it.stem == bridge else it for it in files])
        yield f"{bridge}, flattened", None if whole == other and whole.count("\n") > 500 else f"it isn't the same: {text.stderr[-300:]}"


def cases(score: str, depth: int) -> Iterator[Case]:
    with tempfile.TemporaryDirectory() as name:
        folder = Path(name)
        if is_there("the bounded proof", "yosys", "berkeley-abc"):
            yield from of_words(folder)
            with ThreadPoolExecutor() as pool:
                waiting = [pool.submit(of_right, folder, depth)]
                waiting += [pool.submit(of_fault, score, folder, bug, label) for bug, label in FAULTS.items()]
                yield from (it.result() for it in waiting)
        if is_there("the flattened bridges", "iverilog"):
            yield from of_flattened(folder)


if __name__ == "__main__":
    words = asked(__doc__, "score")
    words.add_argument("--depth", type=int, default=11, help="how many clocks are looked at of the right bridge (11: those in which each fault fails)")
    given = words.parse_args()
    sys.exit(told(cases(given.score, given.depth)))
