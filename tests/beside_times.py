"""What two programs of the same words cost, in turn: two scoreboards on observations of this project's bridge, or two bridges in threads.
OTHER may be an older build, or another program that reads the same lines. It prints a table of the best of many runs. It isn't part of
./test.

    python3 tests/beside_times.py scoreboard OTHER TLSCORE --bridge TLBRIDGE [--runs N]
    python3 tests/beside_times.py threads OTHER TLBRIDGE [--runs N]
"""

import argparse
import os
import sys
import tempfile
import time
from pathlib import Path
from typing import Callable, Dict, Iterator, List, NamedTuple, Sequence, Tuple

HEAD = ["region 0 64 10 gpah", "page 10 64 good"]
CLIENTS, SOURCES, BEATS = 8, 8, 4096
PAGE = 0x1000


class Cost(NamedTuple):
    """Seconds of a run: on the clock, and of processors."""

    clock: float
    processor: float


def config(clients: int, quota: int, ids: int, longest: int) -> List[str]:
    return [f"config {clients} {quota} {ids} 4 {longest} 12 {'h' * clients}", *HEAD]


def put(client: int, source: int, address: int, size: int = 3) -> List[str]:
    """The beats of a Put of whole words."""
    words = range(max(1, (1 << size) // 8))
    return [f"a {client} 0 0 {size} {source} {address:x} ff {(address + word) * 0x9E3779B97F4A7C15 % 2**64:x} 0" for word in words]


def get(client: int, source: int, address: int, size: int = 3) -> List[str]:
    return [f"a {client} 4 0 {size} {source} {address:x} ff 0 0"]


def drained(requests: Sequence[List[str]]) -> List[str]:
    """These requests of all clients in turn, a drain, and each client's replies taken."""
    beats = [beat for request in requests for beat in request]
    return [*beats, "drain", *(f"take {k % CLIENTS}" for k in range(len(requests)))]


def rounds(count: int, each: Callable[[int, int, int], List[str]]) -> List[str]:
    """So many rounds of 64 requests in flight, of which `each` gives one by round, client and source."""
    places = [(k % CLIENTS, k // CLIENTS) for k in range(CLIENTS * SOURCES)]
    return [line for r in range(count) for line in drained([each(r, client, source) for client, source in places])]


def single(count: int) -> List[str]:
    """One Put of eight bytes at a time, each of its steps asked for by itself."""
    return [line for k in range(count) for line in [*put(0, 0, 8 * k % PAGE), "pump", f"do {k} 0", "b 0", "take 0"]]


def open_bursts(count: int) -> List[str]:
    """Sixteen requests of four bursts each: all are sent, performed from the last to the first, and answered."""
    lines: List[str] = []
    for r in range(count):
        asked = [put if r % 2 == 0 else get] * 16
        lines += [beat for k, ask in enumerate(asked) for beat in ask(k % CLIENTS, k // CLIENTS, k * PAGE, 5)]
        lines += ["pump"] * 64 + [f"do {64 * r + k} 0" for k in reversed(range(64))]
        lines += [f"{'b' if r % 2 == 0 else 'r'} {k}" for k in range(16) for _ in range(4)]
        lines += [f"take {k % CLIENTS}" for k in range(16)]
    return lines


def place(r: int, client: int, source: int) -> int:
    """Each of a round on a page of its own."""
    return (8 * source + client) * PAGE + 8 * (r % 512)


def mixed(r: int, client: int, source: int) -> List[str]:
    return (put if (r + client + source) % 2 else get)(client, source, place(r, client, source))


def scripts() -> Dict[str, List[str]]:
    """The workloads by name: what the bridge is asked."""
    deep, whole = config(8, 8, 16, 16), config(8, 8, 16, 256)
    return {
        "one Put at a time": [*config(1, 1, 1, 16), *single(8000)],
        "Gets, 64 in flight": [*deep, *rounds(200, lambda *at: get(at[1], at[2], place(*at)))],
        "Puts and Gets, 64 in flight": [*deep, *rounds(200, mixed)],
        "Gets of 4 KB": [*whole, *rounds(6, lambda r, client, source: get(client, source, place(0, client, source), 12))],
        "Puts of 4 KB": [*whole, *rounds(1, lambda r, client, source: put(client, source, place(0, client, source), 12))],
        "64 open bursts": [*config(8, 8, 16, 1), *open_bursts(200)],
    }


def threads(clients: int, memories: int) -> List[str]:
    """A script of threads: each client's Puts and Gets, on pages of its own."""
    asked = [(put if k % 2 == 0 else get, k) for k in range(BEATS)]
    beats = [beat for client in range(clients) for ask, k in asked for beat in ask(client, k % SOURCES, client * PAGE + 8 * (k // 2 % 512))]
    return [*config(clients, 8, 16, 16), *beats, *(f"word {7 + k}" for k in range(memories))]


def once(words: List[str], given: Path, told: Path) -> Cost:
    """One run of a command on a file."""
    began = time.monotonic()
    files = [
        (os.POSIX_SPAWN_OPEN, 0, str(given), os.O_RDONLY, 0),
        (os.POSIX_SPAWN_OPEN, 1, str(told), os.O_WRONLY | os.O_CREAT | os.O_TRUNC, 0o600),
    ]
    pid = os.posix_spawn(words[0], words, os.environ, file_actions=files)
    _, status, used = os.wait4(pid, 0)
    if os.waitstatus_to_exitcode(status) != 0:
        sys.exit(f"{' '.join(words)} < {given} ended with status {os.waitstatus_to_exitcode(status)}")
    return Cost(time.monotonic() - began, used.ru_utime + used.ru_stime)


def best(commands: List[List[str]], given: Path, runs: int) -> List[Cost]:
    """The best of so many runs of each command, in turn."""
    costs: List[List[Cost]] = [[] for _ in commands]
    for run in range(runs):
        for k in sorted(range(len(commands)), reverse=run % 2 == 1):
            costs[k].append(once(commands[k], given, given.with_suffix(f".told{k}")))
    return [Cost(*(min(times) for times in zip(*of))) for of in costs]


def observations(bridge: Path, room: Path) -> Iterator[Tuple[str, Path]]:
    """Each workload as the bridge carries it out, some 300,000 beats of it."""
    for k, (name, lines) in enumerate(scripts().items()):
        script, trace = room / f"{k}.script", room / f"{k}.trace"
        script.write_text("".join(f"{line}\n" for line in lines))
        once([str(bridge), "run"], script, trace)
        seen = trace.read_text()
        beats = sum(not line.startswith("=") for line in seen.splitlines())
        trace.write_text("".join(f"{line}\n" for line in lines[:3]) + seen * max(1, 300_000 // beats))
        yield name, trace


def shared(room: Path) -> Iterator[Tuple[str, Path]]:
    """The scripts of threads by clients and memory threads."""
    for clients in (1, 2, 4, 8):
        for memories in (1, 2, 4):
            path = room / f"{clients}.{memories}.script"
            path.write_text("".join(f"{line}\n" for line in threads(clients, memories)))
            yield f"threads of {clients} clients and {memories} of memory", path


def main() -> int:
    asked = argparse.ArgumentParser(description=__doc__, formatter_class=argparse.RawDescriptionHelpFormatter)
    asked.add_argument("what", choices=["scoreboard", "threads"])
    asked.add_argument("programs", metavar="PROGRAM", nargs=2, type=lambda it: Path(it).resolve())
    asked.add_argument("--bridge", type=lambda it: Path(it).resolve(), help="tlbridge, which makes the observations")
    asked.add_argument("--runs", type=int, default=15, help="how many of each (15)")
    given = asked.parse_args()
    if given.what == "scoreboard" and given.bridge is None:
        asked.error("a scoreboard needs --bridge")
    words = ["threads"] if given.what == "threads" else []
    commands = [[str(program), *words] for program in given.programs]
    print("| workload | other ms | this ms | ratio | other ms of processors | this | ratio |\n|---|---|---|---|---|---|---|")
    with tempfile.TemporaryDirectory() as room:
        for name, path in shared(Path(room)) if given.what == "threads" else observations(given.bridge, Path(room)):
            other, this = best(commands, path, given.runs)
            cells = [cell for a, b in zip(other, this) for cell in (f"{1e3 * a:.1f}", f"{1e3 * b:.1f}", f"{b / a:.2f}")]
            print(f"| {name} | {' | '.join(cells)} |", flush=True)
    return 0


if __name__ == "__main__":
    sys.exit(main())
