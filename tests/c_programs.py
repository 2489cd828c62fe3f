"""Programs in C over the library of interfaces/c: compiled with every warning, and tried alone, under valgrind and AddressSanitizer, as
tests/in_process.py and tests/bridge_process.py have it: of a part NAME they are NAME.c, NAME_calls.c and NAME_refused.c."""

import shutil
import subprocess
from pathlib import Path
from typing import Iterator, NamedTuple, Tuple

from ends import TOP, Ended, is_there, started

C = TOP / "interfaces/c"
STRICT = ["-Wall", "-Wextra", "-Werror", "-O2", f"-I{C}"]
WATCHED = ["-fsanitize=address,undefined", "-fno-sanitize-recover=all", "-g"]
VALGRIND = ["valgrind", "-q", "--leak-check=full", "--show-leak-kinds=all", "--error-exitcode=99"]
LANGUAGES = (("C", "cc", "-std=c99", []), ("C++", "c++", "-std=c++11", ["-x", "c++"]))


class Part(NamedTuple):
    """A part of the library: the name of its programs, what is made of it, what its lines say that it is, and its own sources."""

    name: str
    many: str
    what: str
    sources: Tuple[Path, ...]


def c_compiler():
    return next(filter(shutil.which, ("cc", "gcc")), None)


def compile_c(name, source, *flags, folder, library=None, compiler=None, standard="-std=c99", behind=()):
    """A program of a C file, over the static library where one is given, and what the compiler says where there is none."""
    words = [compiler or c_compiler(), standard, *STRICT, *flags, str(source), *(["-x", "none"] if "-x" in flags else [])]
    words += [str(library / "libzuldegei.a")] if library else []
    ran = subprocess.run([*words, *behind, "-o", str(folder / name)], capture_output=True, text=True, check=False)
    return folder / name, ran.stderr[-2000:] if ran.returncode else None


def compiled(name, source, *flags, folder, library):
    program, why = compile_c(name, source, *flags, folder=folder, library=library)
    if why:
        raise SystemExit(f"{source.name} wasn't compiled: {why}")
    return program


def silent(name, *words):
    """A program that prints nothing and ends with 0 where all is well."""
    ended = Ended.of(subprocess.run(words, capture_output=True, timeout=600, check=False))
    return name, ended.wrong(0, b"", b"")


def languages(what: str) -> Iterator[Tuple[str, str, str, list]]:
    """C and C++, each with its compiler, its standard and its flags, where there is one."""
    for name, compiler, standard, flags in LANGUAGES:
        compiler = c_compiler() if name == "C" else compiler
        if shutil.which(compiler):
            yield name, compiler, standard, flags
        else:
            print(f"skipped: {what} as {name}, as there is no compiler of it")


def library_of(asked):
    """The folder of the library, which is built where none is given, and why it isn't there."""
    folder = Path(asked.library or TOP / "out").resolve()
    ran = None if asked.library else subprocess.run([TOP / "interfaces/build"], capture_output=True, text=True, check=False)
    is_there = all((folder / f"libzuldegei.{kind}").exists() for kind in ("a", "so"))
    return folder, ran.stderr[-500:] if ran and ran.returncode else None if is_there else f"it isn't in {folder}"


def wrong_calls(part: Part, folder, library):
    """Wrong calls and refused memory, alone and under valgrind."""
    calls = compiled(f"{part.name}-calls", TOP / f"tests/{part.name}_calls.c", "-pthread", folder=folder, library=library)
    wrap = "-Wl,--wrap=malloc,--wrap=realloc"
    refused = compiled(f"{part.name}-refused", TOP / f"tests/{part.name}_refused.c", wrap, folder=folder, library=library)
    yield silent("wrong calls", calls)
    yield silent("each malloc and realloc refused in turn", refused)
    if not is_there(f"the calls of the {part.what} under valgrind", "valgrind"):
        return
    yield silent("wrong calls under valgrind", *VALGRIND, calls)
    yield silent("refused memory under valgrind", *VALGRIND, refused)
    yield silent(f"{part.many} in threads under valgrind", "valgrind", "-q", "--tool=helgrind", "--error-exitcode=99", calls)


def watched(part: Part, way, rows, folder, library):
    """What C there is, under AddressSanitizer and with undefined behaviour watched: wrong calls, and rows by a way."""
    flags = [*WATCHED, *map(str, part.sources), "-pthread"]
    calls, why = compile_c("watched-calls", TOP / f"tests/{part.name}_calls.c", *flags, folder=folder, library=library)
    if why:
        print(f"skipped: the calls of the {part.what} under AddressSanitizer, as they weren't compiled: {why.splitlines()[-1]}")
        return
    yield silent("wrong calls under AddressSanitizer", calls)
    program = compiled("watched", TOP / f"tests/{part.name}.c", *flags, folder=folder, library=library)
    for name, given, wanted in rows:
        yield f"{name}, under AddressSanitizer", started([program, way], given).wrong(*wanted)
