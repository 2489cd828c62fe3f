"""The program as somebody uses it who gives it anything: endless input, lines of megabytes, noise, descriptors that don't
do what they should, hardly any memory. No signal ends it, it doesn't hang, its memory stays flat, and it ends as
docs/SCRIPT.md says.

    python3 tests/stranger.py PROGRAM
"""

import os
import random
import signal
import subprocess
import sys
from pathlib import Path

import script_cases
from ends import MEMORY, READ, SPAWN, USAGE, WRITE, Ended, started, told
from scripts import SCRIPTS

FIRST, LONG, THREADS = SCRIPTS[0], SCRIPTS[1], SCRIPTS[4]
SETUP = script_cases.SETUP.encode()
SECONDS, MEGA = 30, 1 << 20


def given(program, word, text, status, trace, line):
    return started([program, word], text, SECONDS).wrong(status, trace, line)


def piped(program, command, word, status, line):
    """What another program prints is the standard input."""
    whole = f'{command} 2>/dev/null | {{ timeout {SECONDS - 1} "$0" {word}; echo "status $?"; }}'
    ran = subprocess.run(["sh", "-c", whole, program], capture_output=True)
    return Ended(int(ran.stdout.rpartition(b" ")[2]), ran.stdout, ran.stderr).wrong(status, None, line)


def fault(line, word=0):
    return f"script fault: line {line}, word {word}\n".encode()


def fault_of_noise(noise):
    """The first line that isn't skipped is at fault: as a whole, or since it is no config line."""
    for number, line in enumerate(noise.split(b"\n"), 1):
        line = line.removesuffix(b"\r")
        if len(line) > 128 or any(not 0x20 <= byte <= 0x7E for byte in line):
            return fault(number)
        if line.strip(b" ") and not line.lstrip(b" ").startswith(b"#"):
            return fault(number, 1)
    raise ValueError("the noise has no fault")


def of_input(program):
    for word, text in (("run", b""), ("check", b""), ("threads", b"= ok\nclient 0\nclient 1\n")):
        config = SETUP.splitlines(keepends=True)[0]
        for size in (129, 10 * MEGA):
            for end in (b"", b"\n", b"\r\n"):
                name = f"{word}: a line of {size} bytes and {end!r}"
                yield name, lambda w=word, s=size, e=end: given(program, w, b"#" * s + e, 2, b"", fault(1))
                yield f"{name}, after config", lambda w=word, s=size, e=end, c=config: given(program, w, c + b" " * s + e, 2, b"", fault(2))
        for seed in range(8):
            noise = random.Random(seed).randbytes(MEGA)
            yield f"{word}: noise {seed}", lambda w=word, n=noise: given(program, w, n, 2, b"", fault_of_noise(n))
            lines = random.Random(seed).randbytes(MEGA).translate(bytes(b"\n #a~"[i % 5] for i in range(256)))
            yield f"{word}: noise {seed} of plain bytes", lambda w=word, n=lines: given(program, w, n, 2, b"", fault_of_noise(n))
        largest = config + (b"#" * 128 + b"\n") * 65_535
        yield f"{word}: the largest script", lambda w=word, g=largest, t=text: given(program, w, g, 0, t, b"")
        many = "yes '#' | head -c 200000000"
        yield f"{word}: 200 MB of lines", lambda w=word, m=many: piped(program, m, w, 2, fault(65_537))
        yield f"{word}: 200 MB of one line", lambda w=word: piped(program, "head -c 200000000 /dev/zero | tr '\\0' ' '", w, 2, fault(1))
        yield f"{word}: zeros without end", lambda w=word: piped(program, "cat /dev/zero", w, 2, fault(1))


def opened(program, word, into, out, status, line):
    """Standard input and output are the descriptors given."""
    ran = subprocess.run([program, word], stdin=into, stdout=out, stderr=subprocess.PIPE, timeout=SECONDS)
    return Ended.of(ran).wrong(status, None, line)


def nothing_there_yet(program, word):
    """A standard input that doesn't wait: a read that finds nothing has failed."""
    reads, writes = os.pipe()
    os.set_blocking(reads, False)
    try:
        return opened(program, word, reads, subprocess.DEVNULL, 3, READ)
    finally:
        os.close(reads)
        os.close(writes)


def other_way(program, script, name):
    """A standard input that can only be written, or a standard output that can only be read."""
    file = os.open("/dev/null", os.O_WRONLY if name == "input" else os.O_RDONLY)
    reads, writes = os.pipe()
    os.write(writes, script.given)
    os.close(writes)
    try:
        if name == "input":
            return opened(program, script.word, file, subprocess.DEVNULL, 3, READ)
        return opened(program, script.word, reads, file, 3, WRITE)
    finally:
        os.close(file)
        os.close(reads)


def reader_leaves(program):
    """A reader that leaves after the first bytes of a long text."""
    pipe = subprocess.PIPE
    with subprocess.Popen([program, "run"], bufsize=0, stdin=pipe, stdout=pipe, stderr=pipe) as ran:
        try:
            ran.stdin.write(FIRST.given)
            ran.stdout.read(10)
            ran.stdout.close()
            try:
                ran.stdin.write(b"work\n" * 20_000)
            except BrokenPipeError:
                pass
            ran.stdin.close()
            line = ran.stderr.read()
            status = ran.wait(SECONDS)
        finally:
            ran.kill()
    return None if (status, line) == (3, WRITE) else f"status {status} with {line!r}"


def reader_leaves_at_end(program):
    """A reader that leaves after the first bytes of a text that is printed at the input's end, and that no pipe holds."""
    gets = b"a 0 4 0 3 0 8 ff 0 0\n" * 4096
    pipe = subprocess.PIPE
    with subprocess.Popen([program, "threads"], bufsize=0, stdin=pipe, stdout=pipe, stderr=pipe) as ran:
        try:
            ran.stdin.write(SETUP + gets)
            ran.stdin.close()
            text = ran.stdout.read(10)
            ran.stdout.close()
            line = ran.stderr.read()
            status = ran.wait(SECONDS)
        finally:
            ran.kill()
    return None if (status, line, text) == (3, WRITE, b"= ok\nclien") else f"status {status} with {line!r} after {text!r}"


def most_memory(process):
    """The most bytes that a process had in memory so far."""
    for line in Path(f"/proc/{process}/status").read_text().splitlines():
        if line.startswith("VmHWM:"):
            return 1024 * int(line.split()[1])
    raise ValueError("it tells no VmHWM")


def flat(program):
    """30,000 commands, and the largest lines beside them, take no memory over that of the first."""
    with subprocess.Popen([program, "run"], stdin=subprocess.PIPE, stdout=subprocess.PIPE) as ran:
        try:
            ran.stdin.write(SETUP + b"work\n" + (b"#" * 128 + b"\n") * 2000 + b"work\n")
            ran.stdin.flush()
            text = ran.stdout.readline() + ran.stdout.readline()
            before = most_memory(ran.pid)
            for _ in range(300):
                ran.stdin.write((b"work\n" + b"#" * 128 + b"\n") * 100)
                ran.stdin.flush()
                for _ in range(100):
                    text += ran.stdout.readline()
            after = most_memory(ran.pid)
            ran.stdin.close()
            status = ran.wait(SECONDS)
        finally:
            ran.kill()
    print(f"in memory {before // 1024} KiB after the first commands, {after // 1024} KiB after 30,000")
    if (status, text) != (0, b"= work 0\n" * 30_002):
        return f"status {status} and {len(text)} bytes of text"
    return None if after <= before + MEGA // 4 else f"{after - before} bytes more"


def narrow(limit, text, *words):
    """Runs a program in an address space of so many bytes; its status, its text and its line on standard error."""
    line = 'ulimit -v "$0" && exec "$@"'
    ran = subprocess.run(["sh", "-c", line, str(limit // 1024), *words], input=text, capture_output=True, timeout=SECONDS)
    return ran.returncode, ran.stdout, ran.stderr


def address_spaces(program, script, most):
    """From 2 MB up. Where the loader can't even begin it says so; then words, script, threads, and all of it find room, in
    turn."""
    stages = [(6, b"", USAGE), (4, b"", MEMORY), (0, script.text, b"")]
    if script.word == "threads":
        stages.insert(2, (5, b"", SPAWN))
    seen = []
    for limit in range(2 * MEGA, most, MEGA // 4):
        ran = narrow(limit, script.given, program, script.word)
        # Where it has no room for the C library it can't begin, as no other program can.
        if not seen and (b"error while loading shared libraries" in ran[2] or narrow(limit, b"", "/bin/true")[0]):
            continue
        if ran not in stages:
            return f"in {limit} bytes: status {ran[0]}, {len(ran[1])} bytes of text, {ran[2]!r}"
        if seen and stages.index(ran) < stages.index(seen[-1]):
            return f"in {limit} bytes: status {ran[0]} again"
        if ran not in seen:
            print(f"{script.word}: from {limit // 1024} KiB of address space on: status {ran[0]}")
            seen.append(ran)
    return None if seen and seen[-1] == stages[-1] else "it never found room"


def too_long(*_):
    raise TimeoutError("it doesn't answer")


def tried(case):
    """What is wrong with a case, or that it took too long."""
    signal.signal(signal.SIGALRM, too_long)
    signal.alarm(SECONDS)
    try:
        return case()
    except (TimeoutError, subprocess.TimeoutExpired) as error:
        return f"{error}"
    finally:
        signal.alarm(0)


def cases(program):
    program = str(Path(program).resolve())
    yield from ((name, tried(case)) for name, case in of_input(program))
    for script in (FIRST, THREADS):
        word = script.word
        yield f"{word}: nothing to read yet", tried(lambda: nothing_there_yet(program, word))
        yield f"{word}: a standard input that can only be written", tried(lambda: other_way(program, script, "input"))
        yield f"{word}: a standard output that can only be read", tried(lambda: other_way(program, script, "output"))
    yield "a reader that leaves", tried(lambda: reader_leaves(program))
    yield "a reader that leaves at the end of the input", tried(lambda: reader_leaves_at_end(program))
    yield "flat memory", tried(lambda: flat(program))
    yield "small address spaces", tried(lambda: address_spaces(program, LONG, 40 * MEGA))
    yield "small address spaces for threads", tried(lambda: address_spaces(program, THREADS, 60 * MEGA))


if __name__ == "__main__":
    sys.exit(told(cases(sys.argv[1])))
