"""The module of covergroups that zuldegei-cover --covergroups writes. Of set-ups in which each group has bins: each bin of the table stands in
it once, under its number, in the covergroup of its group, by a name of its own that SystemVerilog takes, and is sampled there. No free
simulator reads covergroups: that they are well formed Verilog-Perl says, where it is installed; and what stands around them runs in
Verilator, bound in a testbench, without them: the counts that it samples are those of zuldegei-cover, by the lines of a run and by a file.

    python3 tests/covergroups.py
"""

import re
import shutil
import subprocess
import sys
import tempfile
from collections import Counter
from pathlib import Path
from typing import Dict, Iterator, List, Optional, Tuple

from cover import CASES, RUNS, WIDE, read
from ends import TOP, Case, is_there, told
from package import RTL, command
from zuldegei.cover_bins import GROUPS, bins_of
from zuldegei.cover_groups import Covergroups, identifier
from zuldegei.cover_report import Count, Cover, First, Shown, cover_of, cover_of_json

NAMED = re.compile(r'(?m)^        "(\S+)",?$')  # a bin's name in the list of all
GROUP = re.compile(r"(?ms)^    covergroup (\w+)_group with function sample\(int bin\);\n(.*?)^    endgroup\n    (\w+)_group (\w+)_bins = new;$")
SAYS, BIN = re.compile(r'option\.comment = "(.*)";'), re.compile(r"(?m)^            bins ([A-Za-z]\w*) = \{(\d+)\};  // (\S+)$")
SAMPLED = re.compile(r"if \(bin <= (\d+)\) (\w+)_bins\.sample\(bin\);")
# Names as they are spelt, by hand.
SPELT = {
    "Get/8B/client0": "Get__8B__client0", "put-then-get/beside-in-32B/other-client": "put_then_get__beside_in_32B__other_client",
    "all/9-16": "all__9_to_16", "all/65+": "all__65_or_more", "AW/1": "AW__1", "R-between-IDs": "R_between_IDs", "idle": "idle",
}  # fmt: skip
PARSED = """use Verilog::Netlist;
my $netlist = new Verilog::Netlist();
$netlist->read_file(filename => $ARGV[0]);
$netlist->link();
$netlist->exit_if_error();
print map { $_->name . "\\n" } $netlist->modules_sorted();
"""
BENCH = "module testbench;\n    initial #10 $finish;\nendmodule\nbind testbench zuldegei_cover covered ();\n"
COUNTED = re.compile(r"(?m)^([a-z-]+/\S+) (\d+)$")
MOST = 1000  # samples of a bin


def module(cover: Cover) -> str:
    return Covergroups(Shown(cover)).text()


def setups() -> Iterator[Tuple[str, Cover, List[str]]]:
    """Covers of set-ups, and the bins that the table has for each."""
    for name, text in (("each group", WIDE), ("the example", (RTL / "setup.lines").read_text())):
        setup = read(text).setup
        bins = bins_of(setup, ["time", "waited"])
        yield name, Cover(1, 0, {it: Count() for it in bins}), bins
    run = cover_of("a run", read(RUNS[0].read_text()))
    yield "a run without waits", run, [it for it in run.bins if not it.startswith("wait/")]


def names(name: str, text: str, due: List[str]) -> Iterator[Case]:
    """Each bin of the table once, name by name."""
    listed, groups = NAMED.findall(text), GROUP.findall(text)
    yield f"{name}: the names", None if Counter(listed) == Counter(due) and len({*due}) == len(due) > 200 else "others than the table's"
    size = re.search(r"localparam int BINS = (\d+);", text)
    yield f"{name}: how many there are", None if size and int(size[1]) == len(due) else f"{size}"
    says = {identifier(it.name): it for it in GROUPS}
    seen: "Counter[str]" = Counter()
    last: Dict[str, int] = {}
    for group, body, kind, instance in groups:
        bins, comment = BIN.findall(body), SAYS.search(body)
        seen.update(bin_name for _, _, bin_name in bins)
        last[group] = max(int(number) for _, number, _ in bins)
        wrong = [it for spelt, number, it in bins if listed[int(number)] != it or spelt != identifier(it.partition("/")[2])]
        wrong += [it for _, _, it in bins if it.partition("/")[0] != says[group].name]
        is_well = not wrong and comment and comment[1] == says[group].says and len({it for it, *_ in bins}) == len(bins)
        yield f"{name}: the covergroup {group}", None if is_well and kind == instance == group else f"{wrong[:3]}, {comment}"
    yield f"{name}: each bin in one covergroup", None if seen == Counter(due) else f"{[*((seen - Counter(due)) + (Counter(due) - seen))][:3]}"
    sampled = [(group, int(most)) for most, group in SAMPLED.findall(text)]
    yield f"{name}: where they are sampled", None if sampled == [*last.items()] else f"{sampled}, not {last}"


def tables() -> Iterator[Case]:
    """The module beside the table."""
    for name, spelt in SPELT.items():
        yield f"how {name} is spelt", None if identifier(name) == spelt else identifier(name)
    groups = set()
    for name, cover, due in setups():
        text = module(cover)
        groups |= {it[0] for it in GROUP.findall(text)}
        yield from names(name, text, due)
    yield "each group has a covergroup", None if groups == {identifier(it.name) for it in GROUPS} else f"{groups}"


def parsed(folder: Path) -> Iterator[Case]:
    """What Verilog-Perl makes of it, and that it refuses what isn't well formed."""
    if not shutil.which("perl") or subprocess.run(["perl", "-MVerilog::Netlist", "-e", "1"], capture_output=True).returncode:
        print("skipped: covergroups in a parser: Debian's package libverilog-perl isn't installed", flush=True)
        return
    text = module(next(setups())[1])
    lost, odd = text.replace("};  //", ";  //", 1), text.replace("__at0", "/at0", 1)
    for name, changed in (("whole", text), ("a brace lost", lost), ("a name that is none", odd)):
        (folder / "parsed.sv").write_text(changed)
        ran = subprocess.run(["perl", "-e", PARSED, folder / "parsed.sv"], capture_output=True, text=True)
        is_read = ran.returncode == 0 and ran.stdout == "zuldegei_cover\n"
        yield f"parsed: {name}", None if is_read == (name == "whole") else f"status {ran.returncode}, {ran.stderr[-300:]}"


def simulated(folder: Path) -> Iterator[Case]:
    """What is sampled in a simulation: the counts of zuldegei-cover, up to the most."""
    if not is_there("covergroups in a simulation", "verilator"):
        return
    shutil.copy(RUNS[2], folder / "run.lines")
    shutil.copy(CASES / "wait.lines", folder / "other.lines")
    made = command("cover", "run.lines", "other.lines", "--covergroups", "cover.sv", "--json", "both.cover", cwd=folder)
    (folder / "bench.sv").write_text(BENCH)
    words = ["verilator", "--binary", "-CFLAGS", "-O0", "-MAKEFLAGS", "OPT_FAST=-O0", "-Wno-fatal", "-DZULDEGEI_NO_COVERGROUPS"]
    words += ["--top-module", "testbench", "-Mdir", "made", "-o", "bench", "bench.sv", "cover.sv"]
    built = subprocess.run(words, cwd=folder, capture_output=True, text=True, timeout=600)
    yield "built by Verilator", None if built.returncode == 0 else f"{made.stderr}{built.stderr[-500:]}"
    if built.returncode:
        return
    script = folder / "zuldegei-cover"
    script.write_text(f'#!/bin/sh\nPYTHONPATH="{TOP}/python" exec "{sys.executable}" -B -m zuldegei.cover "$@"\n')
    script.chmod(0o755)
    both, odd = (cover_of_json((folder / "both.cover").read_text(), "") for _ in range(2))
    odd.bins["id/AW/1"], odd.bins["request/Get/4096B/client7"] = Count(MOST + 5, First("a run", 1)), Count(3, First("a run", 1))
    odd.beside["id/AW/2"] = Count(7, First("a run", 1))
    (folder / "odd.cover").write_text(odd.json())
    of_run = cover_of("run.lines", read((folder / "run.lines").read_text()))
    yield "the lines of a run", sampled(folder, "+zuldegei_observed=run.lines", of_run, "")
    yield "a file of counts", sampled(folder, "+zuldegei_cover=both.cover", both, "")
    yield "a file of another set-up", sampled(folder, "+zuldegei_cover=odd.cover", odd, "bins of that file that aren't in this module: 1")
    for name, word, said in (("no file", "+zuldegei_cover=none", "none can't be read"), ("no word", "+none", "it needs +zuldegei_observed=FILE")):
        ran = ended(folder, word)
        yield name, None if ran.returncode and said in ran.stdout + ran.stderr else f"status {ran.returncode}, {ran.stdout}{ran.stderr}"


def ended(folder: Path, word: str) -> subprocess.CompletedProcess:
    """A simulation with a word, in which zuldegei-cover is on PATH."""
    return subprocess.run(["sh", "-c", f'PATH="$PWD:$PATH" made/bench {word}'], cwd=folder, capture_output=True, text=True, timeout=120)


def sampled(folder: Path, word: str, cover: Cover, said: str) -> Optional[str]:
    """How a simulation doesn't sample the counts of a cover, or doesn't say this."""
    ran = ended(folder, word)
    counts = {name: int(count) for name, count in COUNTED.findall(ran.stdout)}
    apart = {name: count for name, count in counts.items() if count != min(MOST, cover.bins.get(name, Count()).count)}
    is_well = ran.returncode == 0 and len(counts) > 300 and any(counts.values()) and said in ran.stdout
    return None if is_well and not apart else f"status {ran.returncode}, {len(counts)} counts, apart are {apart}, {ran.stdout[:300]}{ran.stderr}"


def cases() -> Iterator[Case]:
    yield from tables()
    with tempfile.TemporaryDirectory() as folder:
        yield from parsed(Path(folder))
        yield from simulated(Path(folder))


if __name__ == "__main__":
    sys.exit(told(cases()))
