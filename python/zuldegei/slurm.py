"""Parts of a call of zuldegei-regress by Slurm: handed over as one array of jobs, waited for, and cancelled where the call is interrupted."""

import contextlib
import secrets
import shlex
import shutil
import subprocess
import sys
import tempfile
import time
from pathlib import Path
from typing import BinaryIO, Callable, Iterator, List, Sequence

from .command import Fault, Status, naming, one_line, reason, tell
from .reports import Lacking, Part

SHOWN_EVERY, ASKED_EVERY, MOST_ENDING = 5.0, 0.5, 60.0  # seconds
MOST_OF_A_LOG = 4096  # bytes
START = "import sys; sys.dont_write_bytecode = True; sys.path.append(sys.argv.pop(1)); from zuldegei.regress import main; sys.exit(main())"
SCRIPT = """#!/bin/sh
# Makes one part of a call of zuldegei-regress: that of Slurm's array, or the Nth by `sh {name} N`.
part=${{1:-$SLURM_ARRAY_TASK_ID}}
cd -- {cwd} || exit 3
exec {python} {start} --part="$part/{of}" --json={folder}/part-"$part.json" {words}
"""


class Array:
    """An array of jobs, of which each makes a part, in a folder that all machines see."""

    def __init__(self, name: str, of: int, folder: Path, at_once: int, more: Sequence[str]):
        if not shutil.which("sbatch"):
            raise Fault("sbatch can't be run: --slurm needs Slurm's commands on PATH", Status.CANNOT)
        self.of, self.folder = of, folder.absolute()
        self.name = f"{name}-{secrets.token_hex(4)}"
        log = str(self.folder / "part-").replace("%", "%%") + "%a.log"
        chosen = [f"--array=1-{of}", f"--job-name={self.name}", f"--output={log}", f"--cpus-per-task={at_once}"]
        self.words = ["sbatch", "--wait", "--parsable", *chosen, *more, str(self.script)]

    @property
    def script(self) -> Path:
        """What each job runs."""
        return self.folder / "part.sh"

    def file(self, number: int, end: str) -> Path:
        """A file of a part."""
        return self.folder / f"part-{number}.{end}"

    def files(self) -> List[str]:
        """Where the parts are."""
        return [str(self.file(number, "json")) for number in range(1, self.of + 1)]

    def prepare(self, words: Sequence[str]) -> None:
        """Writes the script, by which each part is called with these words, and empties what other calls left of the parts."""
        self.folder.mkdir(parents=True, exist_ok=True)
        start = shlex.join(["-I", "-c", START, str(Path(__file__).resolve().parent.parent)])
        names = {"cwd": Path.cwd(), "python": sys.executable, "folder": self.folder}
        quoted = {name: shlex.quote(str(it)) for name, it in names.items()}
        text = SCRIPT.format(name=self.script.name, start=start, of=self.of, words=shlex.join(words), **quoted)
        with naming(self.script):
            self.script.write_text(text, encoding="utf-8", errors="surrogateescape")
        for number in range(1, self.of + 1):
            self.file(number, "json").write_bytes(b"")
            with contextlib.suppress(FileNotFoundError):
                self.file(number, "log").unlink()

    def ended(self) -> int:
        """How many parts have written what they have to tell."""
        files = (self.file(number, "json") for number in range(1, self.of + 1))
        return sum(it.exists() and it.stat().st_size > 0 for it in files)

    def run(self, show: Callable[[int], None]) -> None:
        """Hands the parts over, and waits until all jobs have ended; where it is interrupted it cancels them."""
        with tempfile.TemporaryFile() as output, tempfile.TemporaryFile() as errors:
            try:
                status = self.waited(output, errors, show)
            except BaseException:
                self.cancel()
                raise
            output.seek(0)
            if output.read().strip():  # the array's number, so that the status is that of its jobs
                return
            errors.seek(0)
            said = errors.read().decode(errors="replace").strip().splitlines()
        raise Fault(f"sbatch ended with status {status}: {' '.join(said[-1:])}", Status.CANNOT)

    def waited(self, output: BinaryIO, errors: BinaryIO, show: Callable[[int], None]) -> int:
        """The status of sbatch, once it has ended."""
        with subprocess.Popen(self.words, stdin=subprocess.DEVNULL, stdout=output, stderr=errors, start_new_session=True) as program:
            try:
                while program.poll() is None:
                    show(self.ended())
                    with contextlib.suppress(subprocess.TimeoutExpired):
                        program.wait(SHOWN_EVERY)
            finally:
                program.terminate()
        if program.returncode < 0:
            raise Fault(f"sbatch was ended by signal {-program.returncode}", Status.CANNOT)
        return program.returncode

    def cancel(self) -> None:
        """Cancels all jobs, and waits until they have told what they judged."""
        try:
            subprocess.run(["scancel", f"--name={self.name}"], capture_output=True, check=True)
            until = time.monotonic() + MOST_ENDING
            while self.are_there() and time.monotonic() < until:
                time.sleep(ASKED_EVERY)
        except (OSError, subprocess.CalledProcessError) as why:
            said = reason(why) if isinstance(why, OSError) else f"scancel ended with status {why.returncode}"
            tell(f"{self.name} may go on in Slurm: {one_line(said)}")

    def are_there(self) -> bool:
        """Whether a job waits, runs or ends."""
        ran = subprocess.run(["squeue", "--noheader", f"--name={self.name}"], capture_output=True)
        return ran.returncode != 0 or bool(ran.stdout.strip())

    def said(self, lacking: Sequence[Lacking]) -> Iterator[Lacking]:
        """What isn't there of the parts, each once, with why its file has none and the last line of its log."""
        parts = {str(Part(number, self.of)): number for number in range(1, self.of + 1)}
        whys = {it.what: it.why for it in lacking}
        files = {str(self.file(number, "json")): number for number in parts.values()}
        for it in lacking:
            if it.what in parts:
                file, log = self.file(parts[it.what], "json"), self.last_line(parts[it.what])
                more = [f"{file}: {whys[str(file)]}" if str(file) in whys else "", f"its log ends with: {log}" if log else ""]
                yield it._replace(why="; ".join(filter(None, (it.why, *more))))
            elif it.what not in files:
                yield it

    def last_line(self, number: int) -> str:
        """The last line of a part's log, where there is one."""
        try:
            with self.file(number, "log").open("rb") as file:
                file.seek(0, 2)
                file.seek(max(0, file.tell() - MOST_OF_A_LOG))
                lines = file.read().decode(errors="replace").strip().splitlines()
        except OSError:
            return ""
        return one_line(lines[-1]) if lines else ""
