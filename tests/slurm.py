"""zuldegei-regress by Slurm: a night in parts has the table, JUnit, JSON and coverage of one call, but for times; a part that is killed in
mid-run is named and the rest is whole, and that part can be made again alone; a call that is interrupted cancels its jobs, and tells what was
judged. Slurm is one of the test's own, on this machine, with its sockets, ports and files in a folder of its own.

    python3 tests/slurm.py TLSCORE [--seeds N] [--in N]
"""

import contextlib
import json
import os
import pwd
import shutil
import signal
import socket
import subprocess
import sys
import time
from pathlib import Path
from typing import Dict, Iterator, List, Optional

from ends import TOP, Case, asked, told_in_a_folder
from package import RTL, begun, command
from parts import Made, apart
from regress import stopped

PROGRAMS = ("munged", "slurmctld", "slurmd", "sbatch", "scancel", "squeue", "sinfo")
SECONDS, MOST = 60, 600  # in which the daemons are there, or have ended; and in which all has, but for 2 for each seed
CONFIG = (TOP / "tests/slurm.conf").read_text()
PATH = f"{os.environ['PATH']}:/usr/sbin:/sbin"  # where the daemons may be
USER = pwd.getpwuid(os.getuid()).pw_name
RUNS = sorted((RTL / "runs").glob("*.lines"))


class Cluster:
    """A Slurm of one machine in a folder. Its daemons are this process's own, and are ended as such."""

    def __init__(self, folder: Path):
        self.folder, self.daemons = folder, []
        for name in ("state", "spool"):
            (folder / name).mkdir(parents=True)
        (folder / "munge.key").touch(0o600)
        (folder / "munge.key").write_bytes(os.urandom(64))
        names = {"host": socket.gethostname().partition(".")[0], "user": USER}
        (folder / "slurm.conf").write_text(CONFIG.format(ports=free_ports(2), folder=folder, **names))
        os.environ["SLURM_CONF"] = str(folder / "slurm.conf")

    def __enter__(self) -> "Cluster":
        files = {"socket": "munge.socket", "key-file": "munge.key", "log-file": "munge.log", "pid-file": "munge.pid", "seed-file": "munge.seed"}
        self.start("munged", "--foreground", "--force", *(f"--{name}={self.folder / file}" for name, file in files.items()))
        self.start("slurmctld", "-D")
        self.start("slurmd", "-D")
        return self

    def __exit__(self, *_: object) -> None:
        subprocess.run(["scancel", f"--user={USER}"], capture_output=True)
        for daemon in reversed(self.daemons):
            daemon.terminate()
            try:
                daemon.wait(SECONDS)
            except subprocess.TimeoutExpired:
                daemon.kill()
                daemon.wait()

    def start(self, name: str, *words: str) -> None:
        """Starts a daemon, which goes on in the foreground of a session of its own."""
        path = shutil.which(name, path=PATH)
        with (self.folder / f"{name}.said").open("wb") as said:
            daemon = subprocess.Popen([path, *words], stdin=subprocess.DEVNULL, stdout=said, stderr=said, start_new_session=True)
        self.daemons.append(daemon)

    def lacking(self) -> Optional[str]:
        """Why no job can be made, if none can."""
        until, shown = time.monotonic() + SECONDS, ""
        while time.monotonic() < until and all(it.poll() is None for it in self.daemons):
            shown = subprocess.run(["sinfo", "--noheader", "--format=%t"], capture_output=True, text=True).stdout.strip()
            if shown == "idle":
                return None
            time.sleep(0.5)
        said = {it.name: it.read_text(errors="replace")[-300:] for it in self.folder.glob("*.said")}
        return f"its node is {shown!r}; {said}"

    def jobs(self) -> str:
        """The jobs that wait, run or end."""
        return subprocess.run(["squeue", "--noheader", "--format=%i %j %t"], capture_output=True, text=True).stdout


def free_ports(count: int) -> List[int]:
    """Ports that nobody listens at."""
    with contextlib.ExitStack() as stack:
        sockets = [stack.enter_context(socket.socket()) for _ in range(count)]
        for it in sockets:
            it.bind(("127.0.0.1", 0))
        return [it.getsockname()[1] for it in sockets]


def night(score: str, seeds: int) -> List[str]:
    """The words of a night: each seed prints one of the stored runs, or a right one."""
    choices = "".join(f"{at}) cat '{run}';; " for at, run in enumerate(RUNS[:3]))
    text = f"case $(({{seed}} % 5)) in {choices}*) cat '{RTL}/../../scoreboard/right.in';; esac"
    return ["--command", text, "--seeds", f"1-{seeds}", "--cover", "night.cover", "--score", score]


def whole(folder: Path, score: str, seeds: int, of: int) -> Iterator[Case]:
    """A night in parts, and in one call."""
    one = Made(folder / "one", *night(score, seeds))
    by_slurm = Made(folder / "whole", *night(score, seeds), "--slurm", of, "--parts", "parts")
    yield f"{seeds} seeds in {of} parts", apart(one, by_slurm)


def killed(folder: Path, score: str) -> Iterator[Case]:
    """A part that is killed in mid-run, by its process id; and made again alone."""
    words = night(score, 8)
    one = Made(folder / "one", *words)
    words[1] = f"[ -e whole ] || [ {{seed}} != 7 ] || kill -9 $PPID; {words[1]}"
    made = Made(folder / "killed", *words, "--slurm", 4, "--parts", "a night's parts")
    left = [it["run"] for it in made.runs if it["status"] == "unjudged"]
    is_named = "\npart 3 of 4: missing" in made.table and made.ran.returncode == 1
    yield "a part that is killed", None if is_named and left == ["seed 3", "seed 7"] else f"{made.ran}, unjudged {left}"
    others = [it for it in one.runs if it["run"] not in left]
    yield "the rest", None if untimed(others) == untimed(it for it in made.runs if it["run"] not in left) else "it isn't whole"
    (folder / "killed/whole").touch()
    parts = folder / "killed/a night's parts"
    subprocess.run(["sh", parts / "part.sh", "3"], capture_output=True)
    again = Made(folder / "killed", "--merge", *sorted(parts.glob("part-*.json")), "--cover", "night.cover")
    apart_by = apart(Made(folder / "killed", *words), again)
    yield "that part made again", apart_by


def untimed(runs) -> List[Dict[str, object]]:
    """What the JSON has of runs, but for how long they took."""
    return [{name: value for name, value in it.items() if name != "seconds"} for it in runs]


def interrupted(folder: Path, score: str, cluster: Cluster) -> Iterator[Case]:
    """A call that is interrupted while two parts make their second run."""
    began = "touch came.{seed}; [ -e came.3 ] && [ -e came.4 ] && touch began; sleep 300"
    text = f"case {{seed}} in [12]) cat '{RUNS[0]}';; *) {began};; esac"
    words = ["--command", text, "--seeds", "1-6", "--score", score, "--slurm", 2, "--parts", "parts", "--json", "runs.json"]
    with begun(folder, "regress", *words, stdout=subprocess.PIPE) as program:
        printed, said = stopped(folder, program, signal.SIGINT)
    states = [it["status"] for it in json.loads((folder / "runs.json").read_text())["runs"]]
    is_well = program.returncode == 130 and states == ["wrong"] * 2 + ["unjudged"] * 4 and said.strip().endswith("interrupted")
    yield "a call that is interrupted", None if is_well else f"status {program.returncode}, {states}, {said!r}, {printed!r}"
    yield "its jobs", f"{cluster.jobs()!r} are there" if cluster.jobs() else None


def refused(folder: Path, score: str) -> Iterator[Case]:
    """An array that Slurm refuses."""
    words = ["--slurm", 2, "--parts", "parts", "--sbatch=--partition=none", "--score", score]
    ran = command("regress", RUNS[0], *words, cwd=folder)
    is_well = ran.returncode == 3 and "Invalid partition" in ran.stderr and "unjudged: " in ran.stdout
    yield "an array that is refused", None if is_well else f"status {ran.returncode}, {ran.stderr!r}, {ran.stdout!r}"


def too_long(*_: object) -> None:
    raise TimeoutError("Slurm makes no job")


def cases(folder: Path, score: str, seeds: int, of: int) -> Iterator[Case]:
    lacking = [it for it in PROGRAMS if not shutil.which(it, path=PATH)]
    if lacking:
        print(f"skipped: {', '.join(lacking)} of Debian's packages slurm-wlm and munge aren't installed", flush=True)
        return
    for name in ("one", "whole", "killed", "interrupted", "refused"):
        (folder / name).mkdir()
    signal.signal(signal.SIGALRM, too_long)
    signal.alarm(MOST + 2 * seeds)
    with Cluster(folder / "slurm") as cluster:
        why = cluster.lacking()
        yield "a Slurm of one machine", why
        if why:
            return
        yield from whole(folder, score, seeds, of)
        yield from killed(folder, score)
        yield from interrupted(folder / "interrupted", score, cluster)
        yield from refused(folder / "refused", score)
    signal.alarm(0)


if __name__ == "__main__":
    words = asked(__doc__, "tlscore")
    words.add_argument("--seeds", type=int, default=8, help="how many runs the night has")
    words.add_argument("--in", type=int, default=4, dest="of", help="in how many parts")
    given = words.parse_args()
    sys.exit(told_in_a_folder(cases, str(given.tlscore), given.seeds, given.of))
