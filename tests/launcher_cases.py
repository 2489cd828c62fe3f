"""Cases of the launcher, tried on copies of it in a folder for temporary files. A stand-in for rt builds what it runs, so
each takes a moment: the `program` that it makes prints what its source had, its words and its standard input."""

import os
import shutil
import signal
import subprocess
import sys
import tempfile
import time
from pathlib import Path

TOP = Path(__file__).resolve().parent.parent
CANNOT = 70
# The processors that this process, and what it starts, may use.
LANES = len(os.sched_getaffinity(0))

# Stand-ins for rt and for the prover.
STAND_INS = TOP / "tests/stand_ins"


class Copy:
    """A copy of the launcher over a tree of two crates, below a folder with the stand-in on the path."""

    def __init__(self, room, name=b"tree"):
        self.room = os.fsencode(room)
        self.root = os.path.join(self.room, name)
        self.noted = os.path.join(self.room, b"noted")
        self.path = os.path.join(self.room, b"bin")
        os.makedirs(self.path, exist_ok=True)
        self.write(os.path.join(self.path, b"rt"), (STAND_INS / "rt").read_text(), mode=0o755)
        for file in ("tlbridge", "tlscore", ".ci/stamp.sh", ".ci/build.py", ".ci/unproved.py"):
            to = os.path.join(self.root, file.encode())
            os.makedirs(os.path.dirname(to), exist_ok=True)
            shutil.copy(TOP / file, to)
        self.source("crates.txt", "# the crates\nlow:\nother: low\ntlbridge: clap low\n")
        for crate, file in (("low", "lib"), ("other", "lib"), ("tlbridge", "main"), ("tlbridge", "more")):
            self.source(f"crates/{crate}/src/{file}.rt", f"{file} 1")
        self.source("crates/tlbridge/stdin", "")

    @staticmethod
    def write(path, text, mode=0o644):
        os.makedirs(os.path.dirname(path), exist_ok=True)
        with open(path, "w") as it:
            it.write(text)
        os.chmod(path, mode)

    def file(self, name):
        return os.path.join(self.root, os.fsencode(name))

    def source(self, name, text):
        self.write(self.file(name), text)

    def call(self, words=(b"run",), called=None, does="", drop=(), path=None, **how):
        """Runs the launcher and returns its status, text, lines on standard error, and the calls of the stand-in."""
        if os.path.exists(self.noted):
            os.remove(self.noted)
        path = self.path + b":" + os.environb[b"PATH"] if path is None else path
        env = {**os.environb, b"PATH": path, b"NOTED": self.noted, b"DOES": does.encode(), b"TREE": self.root, **how.pop("env", {})}
        given = [*drop, called or self.file("tlbridge"), *words]
        ran = subprocess.run(given, input=how.pop("given", b"input\n"), capture_output=True, env=env, timeout=60, **how)
        noted = Path(os.fsdecode(self.noted)).read_text().splitlines() if os.path.exists(self.noted) else []
        return ran.returncode, ran.stdout, ran.stderr.decode(errors="replace").splitlines(), noted


def made(text="main 1", words="run"):
    return f"made from {text}: ./crates/tlbridge/out/tlbridge {words}\ninput\n".encode()


# What is built: the library and the program, the program alone, nothing, or the program of which nothing is proved.
ALL, PROGRAM, NOTHING, UNPROVED = ["lib low", "run tlbridge"], ["run tlbridge"], [], ["try tlbridge"]


def runs(answer, text=None, builds=None, status=3):
    """Tells how an answer isn't that of the program; builds: what was built for it, where that matters."""
    got, output, errors, noted = answer
    if (got, output) != (status, made() if text is None else text):
        return f"status {got}, {output[-200:]!r}, {errors[-2:]!r}"
    if builds is not None and noted != builds:
        return f"it was built by {noted!r}"
    return None if noted or not errors else f"{errors!r} on standard error"


def cannot(answer, words):
    """Tells how an answer isn't the launcher's own status, with one line of these words and none of the stand-in's."""
    got, output, errors, _ = answer
    if got != CANNOT or output:
        return f"status {got}, {output[-200:]!r}, {errors[-2:]!r}"
    if not errors or not errors[-1].startswith("tlbridge: ") or words not in errors[-1]:
        return f"{errors[-2:]!r} on standard error"
    return None if all(it.startswith("tlbridge: ") for it in errors) else f"{errors!r} on standard error"


def of_first_use(copy):
    status, output, errors, noted = copy.call()
    lanes = f"{LANES} processor{'s' if LANES > 1 else ''}"
    wanted = [
        f"tlbridge: 2 crates to prove and build first, which takes some 1 min on {lanes}, by the table .ci/seconds",
        "tlbridge: an archive needs no proof (docs/INSTALL.md); ./tlbridge --unproved .. answers in a minute or two, and proves nothing",
        "tlbridge: 0 of 2 built, 1 min to go; now low",
        "tlbridge: 1 of 2 built, 0 min to go; now tlbridge",
    ]
    if errors[1:-1] != wanted or "out/tlbridge.log" not in errors[0] or not errors[-1].startswith("tlbridge: built in 0 min"):
        return f"{errors!r} on standard error"
    if b"a line of the prover" not in Path(os.fsdecode(copy.file("out/tlbridge.log"))).read_bytes():
        return "the log lacks what rt printed"
    return runs((status, output, [], noted), builds=ALL) or runs(copy.call(), builds=NOTHING)


def of_a_build_that_goes_on(copy):
    """A library that was built before a build stopped isn't built again; how long it took then is known."""
    copy.call(does="stops")
    return runs(copy.call(), builds=PROGRAM)


def of_a_build_that_the_keyboard_stops(copy):
    """By the keyboard, once the library is built: nothing but a line is said, and the next call goes on there."""
    path = copy.path + b":" + os.environb[b"PATH"]
    env = {**os.environb, b"PATH": path, b"NOTED": copy.noted, b"DOES": b"waits", b"TREE": copy.root}
    # (who starts the tests may have them ignore the keyboard)
    heeds = lambda: signal.signal(signal.SIGINT, signal.default_int_handler)
    how = dict(stdin=subprocess.DEVNULL, stderr=subprocess.PIPE, start_new_session=True, preexec_fn=heeds)
    with subprocess.Popen([copy.file("tlbridge")], env=env, **how) as ran:
        for _ in range(300):
            if os.path.exists(copy.noted) and Path(os.fsdecode(copy.noted)).read_text().splitlines() == ALL:
                break
            time.sleep(0.1)
        os.killpg(ran.pid, signal.SIGINT)
        lines = ran.communicate(timeout=30)[1].decode(errors="replace").splitlines()
    if "tlbridge: the build was stopped; the next call goes on there" not in lines or any("Traceback" in it for it in lines):
        return f"{lines!r} on standard error"
    return runs(copy.call(), builds=PROGRAM)


def of_how_long_a_build_will_take(copy):
    """Of a chain all of it, by what each took before; by what it took here, where each was built here."""
    copy.source(".ci/seconds", "low 600\ntlbridge 9\n")
    copy.source("out/seconds", "low 1200\nother 30\ntlbridge 1200\n")
    ahead = [sys.executable, ".ci/build.py", "--ahead", "tlbridge", "other"]
    line = subprocess.run(ahead, cwd=copy.root, stderr=subprocess.PIPE, text=True, timeout=60).stderr
    if not line.startswith("tlbridge, other: 3 crates to prove and build first, which takes some 40 min on ") or "before" not in line:
        return f"ahead it says {line!r}"
    copy.source("out/seconds", "tlbridge 1200\n")
    _, _, errors, _ = copy.call()
    if "tlbridge: 0 of 2 built, 30 min to go; now low" not in errors or " some 30 min on " not in errors[1]:
        return f"{errors!r} on standard error"
    table = Path(os.fsdecode(copy.file("out/seconds"))).read_text()
    return None if table == "low 1\ntlbridge 1\n" else f"it noted {table!r}"


def of_a_list_in_any_order(copy):
    """The list names a crate ahead of one that it stands on."""
    copy.source("crates.txt", "tlbridge: other low\nother: low\nlow:\n")
    return runs(copy.call(), builds=["lib low", "lib other", "run tlbridge"])


def of_this_repositorys_own_list(copy):
    """By this repository's own list: what each program is built of stands behind all that it stands on."""
    code = "import build, sys; [print(it.name, *(below.name for below in it.below)) for it in build.crates_of(sys.argv[1])]"
    for program in ("tlbridge", "tlscore", "zuldegei"):
        env = {**os.environ, "PYTHONPATH": ".ci"}
        ran = subprocess.run([sys.executable, "-c", code, program], cwd=TOP, env=env, capture_output=True, text=True)
        lines = [line.split() for line in ran.stdout.splitlines()]
        names = [line[0] for line in lines]
        early = [name for at, (name, *below) in enumerate(lines) if not {*below} <= {*names[:at]}]
        if ran.returncode or names[-1:] != [program] or len(names) < 20 or early:
            return f"{program}: {ran.stderr[-200:]!r}, {len(names)} crates, too early {early}"
    return None


def of_how_long_each_crate_took(copy):
    """While another command proves: of each crate, but not of its tests; of a processor by kind; the command's status stays."""
    copy.source("out/seconds", "other 40\n")
    copy.write(copy.file("prove"), (STAND_INS / "prover").read_text(), 0o755)
    command = "./prove build --crate-name low & ./prove build --test --crate-name far; wait; exit 7"
    ran = subprocess.run([sys.executable, TOP / ".ci/took.py", "proofs", "sh", "-c", command], cwd=copy.root, timeout=60)
    seconds, took = (Path(os.fsdecode(copy.file(it))).read_text().splitlines() for it in ("out/seconds", "out/took"))
    table, kinds = dict(line.split() for line in seconds), {line.split(maxsplit=2)[2]: float(line.split()[0]) for line in took}
    is_right = table.keys() == {"other", "low"} and table["other"] == "40" and 2 <= int(table["low"]) <= 60
    is_right = is_right and kinds.keys() == {"proofs", "tests"} and 1 <= kinds["tests"] <= 5 <= kinds["proofs"]
    return None if ran.returncode == 7 and is_right else f"status {ran.returncode}, {table}, {kinds}"


def of_how_long_a_whole_test_took(copy):
    """Those of a test that took nothing that was kept, and of no other."""
    noted = "300 90 proofs\n60 0 tests\n120 40 wrong bodies\n60 20 programs\n60 30 programs\n"
    copy.source("out/seconds", "low 600\ntlbridge 9\nother 5\n")
    keep = [sys.executable, TOP / ".ci/took.py", "--keep"]
    copy.source("out/took", f"# ./test \n{noted}")
    refused = subprocess.run(keep, cwd=copy.root, stderr=subprocess.DEVNULL, timeout=60).returncode
    copy.source("out/took", f"# ./test anew\n{noted}")
    ran = subprocess.run(keep, cwd=copy.root, stdout=subprocess.PIPE, text=True, timeout=60)
    seconds, took = (Path(os.fsdecode(copy.file(it))).read_text() for it in (".ci/seconds", ".ci/took"))
    rows = f"# on {LANES} processors\n300 180 proofs\n60 0 tests\n120 0 wrong bodies\n120 0 programs\n"
    is_right = refused == 1 and (seconds, took) == ("low 600\nother 5\ntlbridge 9\n", rows)
    is_right = is_right and ran.stdout == "10 processor minutes, 3 of the clock: proofs 5, tests 1, wrong bodies 2, programs 2\n"
    return None if is_right else f"status {refused}, then {ran.stdout!r}, {seconds!r}, {took!r}"


def of_how_long_a_whole_test_will_take(copy):
    """What ran alone on two processors, 20 minutes of 60, runs alone here; the other 80 minutes of a processor are shared."""
    ahead = [sys.executable, TOP / ".ci/took.py", "--ahead"]
    printed = lambda words: subprocess.run(words, cwd=copy.root, stdout=subprocess.PIPE, text=True, timeout=60).stdout
    copy.source("out/took", "# ./test anew\n")
    unknown = printed(ahead)
    copy.source(".ci/took", "# on 2 processors\n3000 3600 proofs\n600 0 tests\n1200 0 wrong bodies\n1200 0 programs\n")
    took = f"some {20 + 80 / LANES:.0f} minutes"
    wanted = {
        "# ./test anew\n": (f"./test anew takes {took} on {LANES} processor", f"of {took.rpartition(' ')[0]} minutes"),
        "# ./test \n": (f"./test takes {took} on {LANES} processor", f"of at most {took.rpartition(' ')[0]} minutes"),
        "# ./test program\n": ("./test program takes some 20 minutes", "after 0 minutes"),
    }
    for called, (first, far) in wanted.items():
        copy.source("out/took", called)
        said, part = printed(ahead), printed([sys.executable, TOP / ".ci/took.py", "programs", "true"])
        if not said.startswith(first) or far not in part:
            return f"{called!r}: {said!r}, then {part!r}"
    return None if "isn't known" in unknown else repr(unknown)


def of_commands_beside_each_other(copy):
    """Commands by .ci/beside.py: what they count is added up; a last line of another kind, or a status that no line explains, is a failure."""
    said = {"3 passed, 0 failed": 0, "one fails\\n2 passed, 1 failed": 1, "nothing": 0, "5 passed, 0 failed": 3}
    command = f"\t{sys.executable}\t-c\tprint('%s'); raise SystemExit(%d)\n"
    copy.source("tries", "".join(command % it for it in said.items()))
    ran = subprocess.run([sys.executable, TOP / ".ci/beside.py", "tries"], cwd=copy.root, stdout=subprocess.PIPE, text=True, timeout=60)
    lines = ran.stdout.splitlines()
    is_right = ran.returncode == 1 and lines[-1] == "10 passed, 3 failed" and "one fails" in lines
    return None if is_right and sum(it.startswith("== ") for it in lines) == 4 else f"status {ran.returncode}, {lines}"


def of_commands_beside_each_other_none_of_which_fails(copy):
    copy.source("tries", f"\t{sys.executable}\t-c\tprint('3 passed, 0 failed')\n" * 9)
    ran = subprocess.run([sys.executable, TOP / ".ci/beside.py", "tries"], cwd=copy.root, stdout=subprocess.PIPE, text=True, timeout=60)
    return None if (ran.returncode, ran.stdout.splitlines()[-1]) == (0, "27 passed, 0 failed") else f"status {ran.returncode}, {ran.stdout!r}"


def unproved(answer, text="main 1", builds=None, tool="tlbridge"):
    """Tells how an answer isn't that of a program of which nothing is proved, which is said each time."""
    got, output, errors, noted = answer
    if (got, output) != (3, f"unproved from {text}: ./out/{tool}.unproved run\ninput\n".encode()):
        return f"status {got}, {output!r}, {errors[-1:]!r}"
    if not errors[0].startswith(f"{tool}: nothing of this program is proved"):
        return f"{errors!r} on standard error"
    if builds is not None and noted != builds:
        return f"it was built by {noted!r}"
    return None if noted or len(errors) == 1 else f"{errors!r} on standard error"


TRIED = dict(words=(b"--unproved", b"run"))


def of_a_program_that_isnt_proved(copy):
    """It is built once, and again where a source has changed."""
    why = unproved(copy.call(**TRIED), builds=UNPROVED) or unproved(copy.call(**TRIED), builds=NOTHING)
    copy.source("crates/low/src/lib.rt", "lib 2")
    copy.source("crates/tlbridge/src/main.rt", "main 2")
    return why or unproved(copy.call(**TRIED), "main 2", UNPROVED) or unproved(copy.call(**TRIED), "main 2", NOTHING)


def of_a_program_that_isnt_proved_and_one_that_is(copy):
    """Neither is taken for the other, not even with its stamp."""
    why = unproved(copy.call(**TRIED)) or runs(copy.call(), builds=ALL)
    why = why or unproved(copy.call(**TRIED), builds=NOTHING) or runs(copy.call(), builds=NOTHING)
    for kind in ("", ".stamp"):
        place = f"out/tlbridge{kind}" if kind else "crates/tlbridge/out/tlbridge"
        shutil.copy(copy.file(f"out/tlbridge.unproved{kind}"), copy.file(place))
    return why or runs(copy.call(), builds=PROGRAM) or runs(copy.call(), builds=NOTHING)


def of_a_program_that_isnt_proved_and_cant_be_built(copy):
    """An older one stands there, and isn't run; nor is one whose sources changed during the build."""
    copy.call(**TRIED)
    copy.source("crates/tlbridge/src/main.rt", "main 2")
    why = cannot(copy.call(**TRIED, does="fails"), "tlbridge wasn't built")
    why = why or cannot(copy.call(**TRIED, does="edits"), "changed during the build")
    return why or unproved(copy.call(**TRIED), "edited", UNPROVED)


def of_the_word_for_it_behind_another(copy):
    """Behind the first word it is one of the program's."""
    status, output, _, noted = copy.call(words=(b"run", b"--unproved"))
    return None if (status, output, noted) == (3, made(words="run --unproved"), ALL) else f"{status}, {output!r}, {noted}"


def of_a_scoreboard_that_isnt_proved(copy):
    """By the name of tlscore its own program."""
    copy.source("crates.txt", "low:\ntlbridge: low\ntlscore: low\n")
    copy.source("crates/tlscore/src/main.rt", "score 1")
    called = dict(called=copy.file("tlscore"), **TRIED)
    why = unproved(copy.call(**called), "score 1", ["try tlscore"], "tlscore")
    return why or unproved(copy.call(**called), "score 1", NOTHING, "tlscore") or unproved(copy.call(**TRIED), builds=UNPROVED)


def of_the_words(copy):
    """Also while the program is built."""
    for _ in range(2):
        _, output, _, _ = copy.call(words=(b"a b", b"-x", b"\xff"))
        if output != b"made from main 1: ./crates/tlbridge/out/tlbridge a b -x \xff\ninput\n":
            return repr(output)
    return None


def of_an_edited_source(copy):
    copy.call()
    copy.source("crates/tlbridge/src/main.rt", "main 2")
    return runs(copy.call(), made("main 2"), PROGRAM) or runs(copy.call(), made("main 2"), NOTHING)


def of_an_edited_source_of_a_library(copy):
    copy.call()
    copy.source("crates/low/src/lib.rt", "lib 2")
    return runs(copy.call(), builds=ALL)


def of_an_edited_source_with_an_old_date(copy):
    copy.call()
    copy.source("crates/tlbridge/src/main.rt", "main 2")
    os.utime(copy.file("crates/tlbridge/src/main.rt"), (0, 0))
    return runs(copy.call(), made("main 2"), PROGRAM)


def of_a_source_dated_in_the_future(copy):
    os.utime(copy.file("crates/tlbridge/src/main.rt"), (time.time() + 10_000,) * 2)
    copy.call()
    return runs(copy.call(), builds=NOTHING)


def of_a_deleted_source(copy):
    copy.call()
    os.remove(copy.file("crates/tlbridge/src/more.rt"))
    return runs(copy.call(), builds=PROGRAM) or runs(copy.call(), builds=NOTHING)


def of_a_new_source(copy):
    copy.call()
    copy.source("crates/tlbridge/specs/New.antt", "")
    return runs(copy.call(), builds=PROGRAM)


def of_another_list_of_crates(copy):
    copy.call()
    copy.source("crates.txt", "low:\ntlbridge: low\n")
    return runs(copy.call(), builds=PROGRAM)


def changed_during_the_build(does):
    def case(copy):
        copy.call()
        copy.source("crates/tlbridge/src/main.rt", "main 2")
        why = cannot(copy.call(does=does), "changed during the build")
        text = "edited" if does == "edits" else "main 2"
        return why or runs(copy.call(), made(text), PROGRAM) or runs(copy.call(), made(text), NOTHING)

    return case


def fails(does, words):
    """An older program stands there, and isn't run."""

    def case(copy):
        copy.call()
        copy.source("crates/tlbridge/src/main.rt", "main 2")
        for _ in range(2):
            why = cannot(copy.call(does=does), words)
            if why:
                return why
        return runs(copy.call(), made("main 2"), PROGRAM)

    return case


def of_a_build_that_makes_nothing(copy):
    return cannot(copy.call(does="makes_nothing"), "tlbridge wasn't proved and built")


def of_no_rt(copy):
    """Over a path with what the launcher calls, and no more."""
    tools = os.path.join(copy.room, b"tools")
    os.makedirs(tools)
    for tool in ("readlink", "find", "cksum", "sort", "cmp", "sed", "mkdir", "date", "cat"):
        os.symlink(shutil.which(tool), os.path.join(tools, tool.encode()))
    why = cannot(copy.call(path=tools), "rt, which proves and builds it, isn't on PATH")
    copy.call()
    return why or runs(copy.call(path=tools), builds=NOTHING)


def of_another_program_in_its_place(copy):
    """A program that this launcher didn't build, as one that rt made of other sources."""
    copy.call()
    copy.write(copy.file("crates/tlbridge/out/tlbridge"), "#!/bin/sh\necho other\n", 0o755)
    return runs(copy.call(), builds=PROGRAM)


def of_a_program_that_was_deleted(copy):
    copy.call()
    os.remove(copy.file("crates/tlbridge/out/tlbridge"))
    return runs(copy.call(), builds=PROGRAM)


def allow(folder, writing):
    """Lets the owner write in the folder and to the files below it, or nobody."""
    for at, _, files in os.walk(folder):
        for it in (at, *(os.path.join(at, name) for name in files)):
            os.chmod(it, 0o755 if writing else 0o555)


def of_a_folder_that_cant_be_written(copy):
    """A folder that isn't the caller's: what is built runs, what isn't can't be. (root may write anywhere, and drops that.)"""
    drop = ["setpriv", "--reuid=65534", "--regid=65534", "--clear-groups"] if os.geteuid() == 0 else []
    allow(copy.root, False)
    why = cannot(copy.call(drop=drop), "can't be written")
    allow(copy.root, True)
    copy.call()
    allow(copy.root, False)
    why = why or runs(copy.call(drop=drop), builds=NOTHING)
    allow(copy.root, True)
    copy.source("crates/tlbridge/src/main.rt", "main 2")
    allow(copy.root, False)
    why = why or cannot(copy.call(drop=drop), "can't be written")
    allow(copy.root, True)
    return why


def of_links(copy):
    links = os.path.join(copy.room, b"links")
    os.makedirs(links)
    os.symlink(copy.file("tlbridge"), os.path.join(links, b"far"))
    os.symlink(b"../tree/tlbridge", os.path.join(links, b"near"))
    os.symlink(b"near", os.path.join(links, b"twice"))
    os.symlink(copy.root, os.path.join(links, b"folder"))
    copy.call()
    for name in (b"far", b"near", b"twice", b"folder/tlbridge"):
        why = runs(copy.call(called=os.path.join(links, name)), builds=NOTHING)
        if why:
            return f"{name.decode()}: {why}"
    return runs(copy.call(called=b"links/near", cwd=copy.room), builds=NOTHING)


def of_calls_from_elsewhere(copy):
    """Other folders, CDPATH, PATH, and sh with the file's name."""
    copy.call()
    path = copy.path + b":" + copy.root + b":" + os.environb[b"PATH"]
    sh = ["/bin/sh"]
    calls = [
        dict(called=b"tree/tlbridge", cwd=copy.room),
        dict(called=b"tree/tlbridge", cwd=copy.room, env={b"CDPATH": b".:..:" + copy.room}),
        dict(called=b"./tlbridge", cwd=copy.root, env={b"CDPATH": b"/:.."}),
        dict(called=b"../tlbridge", cwd=copy.file("crates")),
        dict(called=b"/usr/bin/env", words=(b"tlbridge", b"run"), path=path, cwd=b"/"),
        dict(drop=sh, called=b"tlbridge", cwd=copy.root),
    ]
    for call in calls:
        why = runs(copy.call(**call), builds=NOTHING)
        if why:
            return f"{call!r}: {why}"
    return None


def of_closed_descriptors(copy):
    """Closed ones come to the program as they are."""
    copy.call()
    shell = lambda line: copy.call(drop=["sh", "-c", line], words=())
    status, output, errors, _ = shell('"$0" run <&- 2>/dev/null')
    if (status, output) != (3, made().replace(b"input\n", b"")):
        return f"input closed: status {status}, {output!r}"
    status, output, _, _ = shell('"$0" run >&-')
    return None if (status, output) == (3, b"") else f"output closed: status {status}, {output!r}"


def of_the_script_while_it_is_built(copy):
    """What builds the program doesn't read the script."""
    return runs(copy.call(given=b"input\n"), builds=ALL)


def in_folder(name, program=None):
    """In a folder of such a name; with the program itself, by its first example."""

    def case(copy):
        copy = Copy(copy.room, name)
        if program is None:
            return runs(copy.call(), builds=ALL) or runs(copy.call(), builds=NOTHING)
        given, wanted = ((TOP / f"examples/first.{it}").read_bytes() for it in ("script", "trace"))
        env = {b"COPIED": os.fsencode(program)}
        why = runs(copy.call(does="copies", env=env, given=given), wanted, ALL, status=0)
        return why or runs(copy.call(given=given), wanted, NOTHING, status=0)

    return case


def cases(program):
    """Each function `of_..`, which is named by its case, and some that are made."""
    folders = {
        "spaces": b"a  b ",
        "bytes that aren't UTF-8": b"caf\xe9\x81\x88",
        "a line's end": b"a\nb\n",
        "a dash": b"-a",
        "a quote": b"a'\"$b\\n*",
    }
    table = {name[3:].replace("_", " "): case for name, case in globals().items() if name.startswith("of_")}
    table.update({
        "a source edited during the build": changed_during_the_build("edits"),
        "a source deleted during the build": changed_during_the_build("deletes"),
        "a build that fails": fails("fails", "tlbridge wasn't proved and built"),
        "a build that is stopped": fails("stops", "tlbridge wasn't proved and built"),
        **{f"a folder's name with {it}": in_folder(name) for it, name in folders.items()},
        **{f"the program in a folder's name with {it}": in_folder(name, program) for it, name in folders.items()},
    })
    for name, case in table.items():
        yield f"launcher: {name}", lambda it=case: in_room(it)


def in_room(case):
    with tempfile.TemporaryDirectory(prefix="tlbridge-") as room:
        os.chmod(room, 0o755)
        return case(Copy(room))
