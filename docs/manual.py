"""Makes the manual pages: tlbridge.1 of docs/SCRIPT.md, tlscore.1 of docs/SCOREBOARD.md, and one for each command of python/ of
what its --help prints. What the file VERSION has, and the date that is given, stand at the foot of each.

    python3 docs/manual.py FOLDER [DATE]
"""

import os
import re
import subprocess
import sys
import textwrap
from pathlib import Path
from typing import Dict, Iterator, List, Tuple

TOP = Path(__file__).resolve().parent.parent
# The programs: the page of each, what it does, and each way in which it is called.
PROGRAMS = {
    "tlbridge": ("SCRIPT", "run scripts on a model of a TileLink to AXI4 bridge", ("tlbridge [run | check | threads] <SCRIPT",)),
    "tlscore": (
        "SCOREBOARD",
        "tell which beat at the ports of a TileLink to AXI4 bridge is wrong",
        ("tlscore <OBSERVATION", "tlscore --version"),
    ),
}
COMMANDS = {
    "zuldegei-waves": "read the beats from a dump of a bridge's ports",
    "zuldegei-fill": "read a memory image as fill lines for tlscore",
    "zuldegei-explain": "explain and draw the wrong beats of an observation",
    "zuldegei-wave-of": "make a VCD of the beats and the verdict of an observation",
    "zuldegei-times": "tell how long requests and bursts took",
    "zuldegei-regress": "judge many runs of a bridge side by side",
    "zuldegei-cover": "list which cases of a set-up runs have reached",
    "zuldegei-stimulus": "make requests from the cases that runs have missed",
}
STATUSES = (
    "0, nothing is wrong; 1, something that was judged is; 2, what was read can't be what it should; 3, a file or a program "
    "can't be read, written or run; 4, out of memory; 6, a word isn't known; 7, the command itself is at fault, and its line says what "
    "to report; 130, interrupted. But for 0 and 1 one line on standard error says what is at fault."
)
PAGES = "The pages stand in share/doc/zuldegei below the prefix, with examples; docs/INSTALL.md there lists what is installed."
# The characters that a formatter would print as others.
TYPED = str.maketrans({"\\": "\\e", "-": "\\-", "'": "\\(aq", "`": "\\(ga", "^": "\\(ha", "~": "\\(ti"})
WIDTH = 76  # of a line of prose in the source of a page
KINDS = {"head": "#", "table": "|", "item": "- ", "code": "    "}  # parts of a page, by how their first line begins
ITEM = re.compile(r"  (\S.*?)(?:  +(\S.*))?$")  # an option in the text of --help, and what it does
LAUNCHED = re.compile(r"\./(tlbridge|tlscore)(?!` at the top)")  # in the repository; what is installed is on PATH
SPAN = re.compile(r"(`[^`]+`|\*\*.+?\*\*)", re.DOTALL)


def literal(text: str) -> str:
    """A text as it is typed: each character comes out as itself."""
    return text.translate(TYPED)


def plain(text: str) -> str:
    """A text as prose: a quote and a single hyphen come out as a printer has them."""
    return text.translate({it: TYPED[it] for it in map(ord, "\\^~")}).replace("--", "\\-\\-")


def spans(text: str) -> str:
    """Markdown within a line: code and what is stressed become bold, a link its words."""
    text = re.sub(r"\[([^\]]+)\]\([^)]+\)", r"\1", text)
    parts = []
    for part in SPAN.split(text):
        if part.startswith("`"):
            parts.append(f"\\fB{literal(part[1:-1])}\\fR")
        elif part.startswith("**"):
            parts.append(f"\\fB{plain(part[2:-2])}\\fR")
        else:
            parts.append(plain(part))
    return "".join(parts)


def guarded(line: str) -> str:
    """A line of text that isn't taken for a request."""
    return f"\\&{line}" if line.startswith((".", "'")) else line


def prose(text: str) -> List[str]:
    lines = textwrap.wrap(spans(" ".join(text.split())), WIDTH, break_long_words=False, break_on_hyphens=False)
    return [guarded(it) for it in lines]


def block(lines: List[str]) -> List[str]:
    """Lines as they stand, in a block that is set in."""
    return [".PP", ".RS 4", ".EX", *(guarded(literal(it)) if it else "\\&" for it in lines), ".EE", ".RE"]


def cells(row: str) -> List[str]:
    return [it.strip() for it in row.strip()[1:-1].split("|")]


def table(rows: List[str]) -> List[str]:
    """A table as a list: its first cell heads a row; each other has the head of its column before it, if there are more."""
    heads, lines = cells(rows[0]), []
    for row in rows[2:]:
        first, *rest = cells(row)
        lines += [".TP", guarded(spans(first)) or "\\-"]
        named = [f"{head}: {cell}" if head and len(rest) > 1 else cell for head, cell in zip(heads[1:], rest) if cell]
        for number, text in enumerate(named):
            lines += [*([".br"] if number else []), *prose(text)]
    return lines


def chunks(text: str) -> Iterator[Tuple[str, List[str]]]:
    """The parts of a page: head, code, table, item or prose, each with its lines."""
    lines = text.splitlines()
    while lines:
        first = lines.pop(0)
        if not first.strip():
            continue
        if first.startswith("```"):
            end = lines.index("```")
            yield "code", lines[:end]
            del lines[: end + 1]
            continue
        kind = next((kind for kind, begins in KINDS.items() if first.startswith(begins)), "prose")
        more = [first]
        while kind != "head" and lines and goes_on(kind, lines[0]):
            more.append(lines.pop(0))
        yield kind, [it[4:] for it in more] if kind == "code" else more


def goes_on(kind: str, line: str) -> bool:
    """Whether a line belongs to the part before it."""
    if kind == "code":
        return line.startswith("    ")
    if kind == "table":
        return line.startswith("|")
    return bool(line.strip()) and not line.startswith(("```", "|", "- ", "#"))


def of_page(text: str) -> List[str]:
    """A page as sections; what stands before its first heading is the description."""
    made: List[str] = []
    for kind, lines in chunks(text):
        if kind == "head":
            title = lines[0].lstrip("# ")
            made += [".SH DESCRIPTION"] if lines[0].startswith("# ") else [f'.SH "{plain(title.replace("`", "")).upper()}"']
        elif kind == "code":
            made += block(lines)
        elif kind == "table":
            made += table(lines)
        elif kind == "item":
            made += [".IP \\(bu 2", *prose(" ".join(lines)[2:])]
        else:
            made += [".PP", *prose(" ".join(lines))]
    return without_first_break(made)


def without_first_break(lines: List[str]) -> List[str]:
    """A paragraph straight behind a heading is one without being asked."""
    return [it for at, it in enumerate(lines) if it != ".PP" or not (at and lines[at - 1].startswith(".SH"))]


def of_text(lines: List[str]) -> List[str]:
    """Text of --help: lines that are set in stand as they are, and those between them are prose."""
    made: List[str] = []
    while lines:
        is_block = lines[0].startswith(" ")
        count = next((at for at, it in enumerate(lines) if not it or it.startswith(" ") != is_block), len(lines))
        if count:
            text = lines[:count]
            made += block(textwrap.dedent("\n".join(text)).splitlines()) if is_block else [".PP", *prose(" ".join(text))]
        del lines[: max(count, 1)]
    return made


def of_options(lines: List[str]) -> List[str]:
    made: List[str] = []
    for line in lines:
        item = ITEM.match(line) if line[2:3] != " " else None
        if item:
            made += [".TP", f"\\fB{literal(item[1])}\\fR", *prose(item[2] or "")]
        elif line.strip():
            made += prose(line)
    return made


def of_help(text: str) -> Dict[str, List[str]]:
    """The sections of what --help prints."""
    usage, _, rest = text.partition("\n\n")
    heads = re.compile(r"(?m)^(positional arguments|options|optional arguments):\n((?:  .*\n?)+)")
    first = heads.search(rest)
    before, after = rest[: first.start()], heads.sub("", rest[first.start() :])
    said = before.partition(": ")[2] if ": " in before else before
    options = [line for _, lines in heads.findall(rest) for line in lines.splitlines()]
    return {
        "SYNOPSIS": block(textwrap.dedent(usage.replace("usage: ", "       ")).splitlines())[3:-2],
        "DESCRIPTION": of_text([said[:1].upper() + said[1:].partition("\n")[0], *said.partition("\n")[2].splitlines()]),
        "OPTIONS": of_options(options),
        "NOTES": of_text(after.strip("\n").splitlines()),
        "EXIT STATUS": prose(STATUSES),
    }


def help_of(command: str) -> str:
    """What --help of a command prints."""
    module = f"zuldegei.{command.split('-', 1)[1].replace('-', '_')}"
    environment = {**os.environ, "PYTHONPATH": str(TOP / "python"), "PYTHONDONTWRITEBYTECODE": "1", "COLUMNS": "78"}
    ran = subprocess.run([sys.executable, "-m", module, "--help"], env=environment, capture_output=True, text=True, check=True)
    return ran.stdout


def whole(name: str, what: str, sections: List[str], date: str) -> str:
    """A manual page of its sections."""
    version = (TOP / "VERSION").read_text().strip()
    others = ",\n".join(f".BR {it} (1)" for it in (*PROGRAMS, *COMMANDS) if it != name)
    head = [f'.TH {name.upper()} 1 "{date}" "zuldegei {version}" "User Commands"', ".SH NAME", f"{name} \\- {plain(what)}"]
    return "\n".join([*head, *sections, ".SH SEE ALSO", others, ".PP", *prose(PAGES), ""])


def pages(date: str) -> Iterator[Tuple[str, str]]:
    """Each manual page: its name and its text."""
    for name, (page, what, calls) in PROGRAMS.items():
        synopsis = [".SH SYNOPSIS", "\n.br\n".join(map(literal, calls))]
        text = LAUNCHED.sub(r"\1", (TOP / f"docs/{page}.md").read_text())
        yield f"{name}.1", whole(name, what, [*synopsis, *of_page(text)], date)
    for name, what in COMMANDS.items():
        sections = [line for head, lines in of_help(help_of(name)).items() if lines for line in (f".SH {head}", *lines)]
        yield f"{name}.1", whole(name, what, without_first_break(sections), date)


def main(folder: str, date: str = "") -> int:
    Path(folder).mkdir(parents=True, exist_ok=True)
    for name, text in pages(date):
        (Path(folder) / name).write_text(text, encoding="utf-8")
    return 0


if __name__ == "__main__":
    sys.exit(main(*sys.argv[1:]))
