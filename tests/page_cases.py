"""Tries the pages, but for the commands that they show (page_commands.py): README is short, each guarantee of docs/GUARANTEES.md names a
call and a clause that the source has, each file that a page names is there, and each of its headings, each crate has a page, and in
ARCHITECTURE a level, the crates on which it stands and a row with its files of definitions, tests/README.md has each entry of tests/ once,
each example of the library stands in a test as it stands on its page, the table of statements in docs/WORDS.md is up to date,
docs/definitions.py prints the definitions that it is asked for and lists each that a clause of a statement names, each place that
docs/ROWS.md and docs/WRONG_BODIES.md name is there, docs/RULES.md has each rule, with its definition, a test and a wrong body, no
function asks for what nobody can give, and no file that is kept is a log or names a folder of one machine.

    python3 tests/page_cases.py
"""

import re
import subprocess
import sys
from collections import Counter
from pathlib import Path

TOP = Path(__file__).resolve().parent.parent
sys.path.insert(0, str(TOP / "docs"))
sys.dont_write_bytecode = True

import body_edits  # noqa: E402
import definitions  # noqa: E402
from ends import told  # noqa: E402

NAMED = re.compile(r"`(\w+)(?:::[A-Z]\w*)?::(\w+)`,\s+`(\w+)`")
# A file that a page names, from the top, and one of its headings where that is named too; and what heads a part of a page.
LINK = re.compile(r'`((?:docs|examples|crates|interfaces|python|tests|\.ci)/[\w./-]+|README\.md)`(?:,\s+"([^"]+)")?')
HEADING = re.compile(r"(?m)^#+ (.*)$|^(?:- )?\*\*(.+?)\.?\*\*")
# A row of ARCHITECTURE's levels: the level, the crate, and those on which it stands; the levels, of which the first two stand on
# nothing else, and the last two carry none of those before them.
ON_LEVEL = re.compile(r"(?m)^\| (\w+) \| `(\w+)` \| .* \| ([\w, ]*) \|$")
LEVELS = ("words", "rules", "meaning", "machine", "scoreboard", "text", "outside")
# An entry of tests/ in the list of them.
TRIED = re.compile(r"(?m)^\| `([\w.]+)` \| \S.* \|$")
# A row of a table of crates: the crate, and its files of definitions.
ROW = re.compile(r"(?m)^\| (\w+) \| ((?:\w+, )*\w+) \| ")
# An example of the library, and the tests that have each as it stands.
EXAMPLE = re.compile(r"(?ms)^```rust\n(.*?)^```$")
TESTED = TOP / "crates/layer_tests/src/tests/pages.rt"
# A call that a statement is of, and a clause of a function's head.
CALL = re.compile(r"`(\w+)::(?:(\w+)::)?(\w+)`")
OWNER = re.compile(r"(?m)^impl(?:<.*?>)? (?:[\w:<>, ]+ for )?(\w+)")
CLAUSE = re.compile(r"(?ms)^ *ensures\*? (?:(\w+) )?{(.*?)}$")
# A clause that a caller has to meet, and what in one nobody can: no value is of an empty type, and nothing lies at null.
ASKED = re.compile(r"(?ms)^ *requires\*? (?:\w+ )?{(.*?)}$")
UNMET = re.compile(r"\bffalse\b|⊥|\bEmpty\b|\bFalse\b|(?<![\w)] )\b(?:false ≡ true|true ≡ false)\b|≡ *\(?null\b|\bnull(?:_mut)?\b *≡")
NAME = re.compile(r"(?:\b(\w+)\.)?([A-Za-z_]\w*)")
# A guarantee of the list, from its dash to its end.
GUARANTEE = re.compile(r"(?m)^- .*(?:\n  .*)*")
# A place of a worked row: a file, and what is named of it up to the next place: entries and comments in quotes, functions and tables.
PLACE = re.compile(r"`((?:[\w-]+/)+[\w.-]+)`([^;]*)")
ENTRY, DEFINED = re.compile(r'"([^"]+)"'), re.compile(r"`(\w+)`")
# What has to come of a file stands beside it, by the ends of their names.
WANTED = {".script": ".trace", ".in": ".out", ".lines": ".told"}
# A table of a page, with its head; in docs/RULES.md the rule of a row, and a wrong body that is another rule's.
TABLE = re.compile(r"(?m)^\| (.*) \|\n\|[-|]+\|\n((?:\| .* \|\n)+)")
RULE, OTHERS = re.compile(r"^\| (\d+ \w+)"), re.compile(r"as (\d+): (`[^`]*`)")
# A rule's number where it is defined, its name, both, and both of what is missing at the end.
NUMBERED, CALLED = re.compile(r"(?m)^\w+ (\w+) = (\d+)$"), re.compile(r'(?m)^\w+ (\w+) = codes "(\w+)"$')
SAID = re.compile(r'(\w+) = rule_words number \(codes "(?:request|axi)"\) (\d+) \(codes "(\w+)"\)')
MISSING = re.compile(r'codes "(?:request|reply|axi)" ∷ codes "(\d+)" ∷ codes ("(\w+)")')
# A folder of one machine, in which a path goes on.
MACHINE = re.compile(rb"(?<![\w.])/(?:home|mnt|opt|root|srv|tmp|work|Users)/\w")


def heads(crate, call, owner=""):
    """The head of each public function of that name, of that type where one is given, which ends before its body, with the text of its
    file."""
    for file in (TOP / "crates" / crate / "src").rglob("*.rt"):
        text = file.read_text()
        for head in re.finditer(rf'(?ms)^ *pub(?:\(crate\))? (?:unsafe )?(?:extern "C" )?fn {call}\b.*?^ *{{$', text):
            if not owner or OWNER.findall(text[: head.start()])[-1:] == [owner]:
                yield head[0], text


def has_clause(crate, call, clause):
    """Whether a function of the crate has a clause of that name before its body."""
    return any(re.search(rf"(?m)^ *ensures {clause} {{", head) for head, _ in heads(crate, call))


def named_in(files, clause, text):
    """The definitions that a clause names, by what its file brings in."""
    named, modules = {}, {}
    for line in re.findall(r"(?m)^ *ghost (use .*);$", text):
        definitions.brought_in(line, named, modules)
    for module, name in NAME.findall(clause):
        place = (modules[module], name) if module in modules else named.get(name)
        found = place and definitions.found_at(files, *place)
        if isinstance(found, definitions.Definition):
            yield found


def rests_on(files, statement):
    """Each definition that the clauses of a statement name: of a call those that are named with it, and one without a name."""
    wanted = ["", *re.findall(r"`(\w+)`", statement)]
    for crate, owner, call in CALL.findall(statement):
        for head, text in heads(crate, call, owner):
            for clause, body in CLAUSE.findall(head):
                if clause in wanted:
                    yield from named_in(files, body, text)


def asked(*words):
    """What docs/definitions.py gives for some words: its status and its text."""
    ran = subprocess.run([sys.executable, TOP / "docs/definitions.py", *words], capture_output=True, text=True, encoding="utf-8")
    return ran.returncode, ran.stdout + ran.stderr


def trusted():
    """Each statement, where the command lists each definition that its clauses name, by its file."""
    files = dict(definitions.all_files())
    for statement in definitions.STATEMENTS:
        lines = "\n".join(definitions.shown_statement(files, statement)).splitlines()
        rows = {f"{it.name}  crates/{it.crate}/specs/{it.file}.antt" for it in rests_on(files, statement.clauses)}
        missing = sorted(rows - set(lines))
        why = f"it lacks {', '.join(missing)}" if missing else None if rows else "its clauses name no definition"
        yield f"what is trusted for: {statement.title}", why


def passage(path, name):
    """A definition as its file has it: the passage, with no empty line within, in which a line begins with its name."""
    passages = path.read_text(encoding="utf-8").split("\n\n")
    return next(it for it in passages if re.search(rf"(?m)^(?:[a-z]+ )*{name} ", it)).strip()


def printed():
    """The command, asked for the first definition of each statement, for names that can't be answered, and for the statements."""
    for crate, file, name in sorted({it.roots[0] for it in definitions.STATEMENTS}):
        path = TOP / "crates" / crate / "specs" / f"{file}.antt"
        status, text = asked(f"{crate}/{file}.{name}")
        is_whole = f"\n{passage(path, name)}\n" in text and text.startswith(f"{path.relative_to(TOP)}\n")
        yield f"the definition {crate}/{file}.{name}", None if status == 0 and is_whole else f"status {status}: {text[:200]}"
    for name, told_of in (("byte_show", "byte_shown"), ("in_flight", "world/World.in_flight")):
        status, text = asked(name)
        yield f"no definition for {name}", None if status == 2 and told_of in text else f"status {status}: {text[:200]}"
    status, text = asked("--statement", "run")
    title = definitions.STATEMENTS[0].title
    yield "a statement that is asked for", None if status == 0 and text.startswith(title) else f"status {status}: {text[:200]}"
    status, text = asked()
    missing = [it.name for it in definitions.STATEMENTS if not re.search(rf"(?m)^{it.name} +\d+ +\d+  ", text)]
    yield "the statements that are listed", f"status {status}, without {', '.join(missing)}" if status or missing else None


def headings(path):
    """What heads the parts of a page: its headings, and what begins a paragraph in bold."""
    return [(head or bold).replace("`", "") for head, bold in HEADING.findall(path.read_text())]


def broken(page):
    """Each file that a page names and that isn't there, each heading that isn't in it, and the marks of a merge."""
    if re.search(r"(?m)^(<{7}|>{7}) ", page.read_text()):
        yield "marks of a merge"
    for name, heading in LINK.findall(page.read_text()):
        named, path = " ".join(heading.replace("`", "").split()), TOP / name
        if "NAME" in name or "/out/" in name:
            continue  # any crate's, or what is built
        if not path.exists():
            yield f"{name} isn't there"
        elif named and path.suffix == ".md" and not any(it.startswith(named) for it in headings(path)):
            yield f"{name} has no {named!r}"


def links():
    """Each page, where all that it names is there."""
    for page in sorted(TOP / it for it in listed_by_git("*.md")):
        yield f"what {page.relative_to(TOP)} names", ", ".join(broken(page)) or None


def below():
    """Each crate of crates.txt, with all crates of this repository on which it stands."""
    lines = [line.split(":") for line in (TOP / "crates.txt").read_text().splitlines() if line and not line.startswith("#")]
    names = {name.split()[0]: rest.split() for name, rest in lines}
    return {name: {it for it in rest if it in names} for name, rest in names.items()}


def misplaced(level, levels, under):
    """How a crate of a level stands on one on which none of that level may stand."""
    ranks = {LEVELS.index(levels[it]) for it in under if it in levels}
    rank = LEVELS.index(level)
    is_wrong = any(it > rank for it in ranks) if rank < 2 else any(it > max(rank, 4) for it in ranks)
    return f"it is on the level {level}, and stands on {sorted(LEVELS[it] for it in ranks)}" if is_wrong else None


def levels():
    """Each crate, where ARCHITECTURE has it once, on a level, and names those on which it stands and no others stand for it."""
    crates = below()
    rows = ON_LEVEL.findall((TOP / "docs/ARCHITECTURE.md").read_text())
    counts, by_name = Counter(name for _, name, _ in rows), {name: level for level, name, _ in rows if level in LEVELS}
    odd = sorted(name for name in {*crates, *counts} if counts[name] != 1 or name not in crates or name not in by_name)
    yield "the levels of the crates", f"not once, or on no level: {', '.join(odd)}" if odd or not rows else None
    for level, name, stands in (it for it in rows if it[0] in LEVELS):
        under, all_under = {*stands.replace(",", " ").split()}, crates.get(name, set())
        direct = {it for it in all_under if not any(it in crates[other] for other in all_under)}
        apart = sorted(under ^ direct)
        yield f"what {name} stands on", f"apart are {', '.join(apart)}" if apart else misplaced(level, by_name, all_under)


def tests_listed():
    """The entries of tests/, each of which its page has once."""
    listed = Counter(TRIED.findall((TOP / "tests/README.md").read_text()))
    there = {Path(it).parts[1] for it in listed_by_git("tests")}
    odd = sorted(it for it in {*listed, *there} if listed[it] != 1 or it not in there)
    yield "the list of tests/README.md", f"not once, or not there: {', '.join(odd)}" if odd or not there else None


def tables():
    """Each crate with files of definitions, where ARCHITECTURE's table of crates has a row of just these."""
    page = (TOP / "docs" / "ARCHITECTURE.md").read_text()
    table, _, _ = page[page.index("| crate | definitions") :].partition("\n\n")
    listed = dict(ROW.findall(table))
    for specs in sorted(TOP.glob("crates/*/specs")):
        crate, there = specs.parent.name, {it.stem for it in specs.glob("*.antt")} - {"Lib"}
        apart = sorted(there ^ set(listed.get(crate, "").split(", "))) if there else []
        yield f"the definitions of {crate}", f"ARCHITECTURE has others: {', '.join(apart)}" if apart else None


def lacking(path, named):
    """What a file that a page names lacks, of what is named of it; a script has its trace beside it, an observation its text."""
    beside = WANTED.get(Path(path).suffix)
    files = [TOP / path, *([(TOP / path).with_suffix(beside)] if beside else [])]
    absent = [it.name for it in files if not it.is_file()]
    if absent:
        return absent
    text = files[0].read_text()
    entries = [it for it in ENTRY.findall(named) if not any(form in text for form in (f'"{it}"', f"// {it}\n", f"# {it}\n"))]
    defined = r"(?m)\b(?:fn|def|const|record|abbrev pub) {0}\b|^{0} = "
    return entries + [it for it in DEFINED.findall(named) if not re.search(defined.format(it), text)]


def not_there(cell):
    """How files that a cell names, or what is named of them, aren't there; or that it names none."""
    found = PLACE.findall(cell)
    missing = sorted(name for path, named in found for name in lacking(path, named))
    return f"it lacks {', '.join(missing)}" if missing else None if found else "it has no place"


def places(page, heading, what):
    """Each row of a page's tables behind a heading: whether the files of its last cell, and what is named of them, are there."""
    listed = re.findall(r"(?m)^\| (.*) \| (.*`.*) \|$", (TOP / "docs" / page).read_text().partition(heading)[2])
    yield f"each {what}", None if listed else f"{page} lists none"
    yield from ((f"the {what}: {row[:60]}", not_there(cell)) for row, cell in listed)


def rule_names():
    """Each rule, by its number and its name, with what a definition names it by: its value, or else its name as it is told."""
    for crate in ("tl_checker", "axi_checker", "scoreboard"):
        text = (TOP / f"crates/{crate}/specs/Names.antt").read_text()
        names = dict(CALLED.findall(text))
        yield from ((f"{number} {names[value]}", value) for value, number in NUMBERED.findall(text))
    found, unanswered = ((TOP / f"crates/score_script/specs/{it}.antt").read_text() for it in ("FindingTexts", "UnansweredTexts"))
    yield from ((f"{number} {name}", value) for value, number, name in SAID.findall(found))
    yield from ((f"{number} {name}", value) for number, value, name in MISSING.findall(unanswered))


def rule_tables(column):
    """The rows of each table of docs/RULES.md that has such a column: the rule, and the other cells."""
    for head, rows in TABLE.findall((TOP / "docs/RULES.md").read_text()):
        if column in head.split(" | "):
            yield [["".join(RULE.findall(row)[:1]), *row[2:-2].split(" | ")[1:]] for row in rows.splitlines()]


def undefined(cell, value):
    """How a cell doesn't name definitions of a rule, one of which names its value."""
    found = [(TOP / path, DEFINED.findall(named) if path.endswith(".antt") else []) for path, named in PLACE.findall(cell)]
    if not all(names for _, names in found):
        return "it names a file without a definition"
    text = "\n".join(passage(path, name) for path, names in found for name in names)
    return None if re.search(rf"(?<!\w){value}(?!\w)", text) else f"none of them names {value}"


def wanted_by(path, named):
    """What a test wants: what stands beside its file, or in it behind the entry that is named, up to the next, or in all of it."""
    beside = WANTED.get(Path(path).suffix)
    if beside:
        return (TOP / path).with_suffix(beside).read_text()
    text, entry = (TOP / path).read_text(), ENTRY.search(named)
    if entry:
        return text.partition(entry[0])[2].partition('\n    "')[0]
    return text if DEFINED.search(named) else ""


def untold(cell, rule):
    """How a cell doesn't name tests that want a rule told, by its number and its name."""
    told_there = rf"\b{rule}\b".replace(" ", r"\W+")
    silent = [path for path, named in PLACE.findall(cell) if not re.search(told_there, wanted_by(path, named))]
    return f"{', '.join(silent)} doesn't tell it there" if silent else None


def unturned(cell, others):
    """How a cell doesn't name wrong bodies that turn a line of a function; another rule's is what its own row has."""
    for rule, other in OTHERS.findall(cell):
        if others.get(rule) != other:
            return f"that of rule {rule} is another"
    try:
        edits = [body_edits.read((TOP / path).parent.parent, TOP / path) for path, _ in PLACE.findall(cell)]
    except body_edits.Unusable as why:
        return str(why)
    return None if all(it.functions for it in edits) else "it turns no line of a function"


def rules():
    """Each rule that has a number and a name, where docs/RULES.md has a row of where it is broken and one of its places; then each
    of these places, where it is there and the rule's."""
    values = dict(rule_names())
    broken, placed = (Counter(rule for rows in rule_tables(it) for rule, *_ in rows) for it in ("broken where", "definition"))
    for rule in sorted({*values, *broken, *placed}):
        faults = [] if rule in values else ["no checker has it"]
        counts = (("where it is broken", broken[rule]), ("its places", placed[rule]))
        faults += [f"it has {count} rows of {what}" for what, count in counts if count != 1]
        yield f"the rule {rule}", ", ".join(faults) or None
    for rows in rule_tables("definition"):
        bodies = {rule.partition(" ")[0]: body for rule, _, _, body in rows}
        for rule, definition, test, body in rows:
            yield f"the definition of rule {rule}", not_there(definition) or undefined(definition, values.get(rule))
            yield f"the test of rule {rule}", not_there(test) or untold(test, rule)
            yield f"the wrong body of rule {rule}", not_there(body) or unturned(body, bodies)


def without_space(text):
    return "".join(text.split())


def examples():
    """Each example of docs/USE.md and of a crate's page, which is tested, and so proved and run, where the tests have its text."""
    tested = without_space(TESTED.read_text())
    for page in [TOP / "docs/USE.md", *sorted(TOP.glob("crates/*/README.md"))]:
        for number, example in enumerate(EXAMPLE.findall(page.read_text())):
            name = f"example {number + 1} of {page.relative_to(TOP)}"
            yield name, None if without_space(example) in tested else f"{TESTED.relative_to(TOP)} doesn't have it"


def unmet(file):
    """Each clause of a source that a caller has to meet and can't, with its line. The prover takes such a function: nobody calls it."""
    text = file.read_text()
    for clause in ASKED.finditer(text):
        found = UNMET.search(clause[1])
        if found:
            yield f"{file.relative_to(TOP)}:{text.count(chr(10), 0, clause.start()) + 1}: nobody can meet `{found[0]}`"


def contracts():
    """Each source whose functions ask for what nobody can give; then all of them as one case."""
    sources = sorted(TOP.glob("crates/*/src/**/*.rt"))
    for file in sources:
        yield from ((why, "it stands in a `requires`") for why in unmet(file))
    asked = sum(len(ASKED.findall(it.read_text())) for it in sources)
    clauses = sum(len(re.findall(r"(?m)^ *requires\b", it.read_text())) for it in sources)
    yield "what callers have to meet", None if asked == clauses else f"{clauses - asked} of {clauses} clauses weren't read"


def listed_by_git(*patterns):
    """The files that are kept, or will be; those of some patterns where any are given."""
    words = ["git", "ls-files", "-z", "--cached", "--others", "--exclude-standard", "--", *patterns]
    listed = subprocess.run(words, cwd=TOP, capture_output=True)
    return sorted(it for it in {*listed.stdout.decode().split("\0")} if it and (TOP / it).exists())


def kept():
    """Each file that is kept, but where it is neither a log nor names a folder of one machine: then all of them as one case."""
    names = listed_by_git()
    faults = [(name, "it is a log") for name in names if name.endswith(".log")]
    for name in names:
        found = MACHINE.search((TOP / name).read_bytes()) if (TOP / name).is_file() else None
        if found:
            faults.append((name, f"it names a folder of one machine, {found[0].decode()!r} .."))
    yield from faults
    yield "the files that are kept", None if names else "git lists none"


# The minutes that a first build, and a whole test, takes on four processors, by the tables in .ci; without .ci/took the second is 0.
TAKEN = """import build, took
build.TABLES = build.TABLES[:1]
crates = build.crates_of("tlbridge")
for crate in crates:
    crate.is_built = False
chain, total = build.chains(crates, 1)
print(max(*chain.values(), total / 4) / 60, took.clock(4) if took.KEPT.exists() else 0)"""


def times():
    """What README says of times, which by the tables may be up to half as much again, or two thirds of it."""
    ran = subprocess.run([sys.executable, "-B", "-c", TAKEN], cwd=TOP, env={"PYTHONPATH": ".ci"}, capture_output=True, text=True)
    page, taken = (TOP / "README.md").read_text(), [float(it) for it in ran.stdout.split()]
    said = re.search(r"some (\d+) minutes on four processors", page), re.search(r"about (an hour) the first time", page)
    for name, found, minutes in zip(("a first build", "a whole test"), said, taken or [0, 0]):
        named = 60 if found and found[1] == "an hour" else int(found[1]) if found else 0
        is_right = named / 1.5 <= minutes <= named * 1.5 or name == "a whole test" and not minutes and named
        yield f"the time of {name}", None if is_right else f"README has {named} minutes, and the tables {minutes:.0f} {ran.stderr[-200:]}"


def is_short(page, most):
    lines = len((TOP / page).read_text().splitlines())
    yield f"{page} is short", None if lines <= most else f"it has {lines} lines"


def guarantees():
    """Each guarantee, where it names a call and a clause that the source has."""
    page = (TOP / "docs/GUARANTEES.md").read_text()
    guaranteed = page[page.index("## What is guaranteed") :].partition("\n## ")[0]
    sentences = GUARANTEE.findall(guaranteed)
    yield "the guarantees", None if len(sentences) >= 11 else f"there are {len(sentences)}"
    for sentence in sentences:
        names = NAMED.findall(sentence)
        yield sentence[2:60], None if names else "it names no call and clause"
        for crate, call, clause in names:
            yield f"{crate}::{call}, {clause}", None if has_clause(crate, call, clause) else "the source has no such clause"


def cases():
    yield from is_short("README.md", 80)
    yield from is_short("docs/WORDS.md", 100)
    yield from times()
    yield from guarantees()
    yield from links()
    yield from levels()
    yield from tests_listed()
    for crate in sorted(it.parent for it in TOP.glob("crates/*/src")):
        own = crate / "README.md"
        lines = len(own.read_text().splitlines()) if own.exists() else 0
        yield f"the page of {crate.name}", None if 20 <= lines <= 60 else f"it has {lines} lines"
    yield from tables()
    yield from examples()
    yield from trusted()
    yield from printed()
    yield from places("ROWS.md", "# Worked rows", "worked row")
    yield from places("WRONG_BODIES.md", "## Those that", "wrong body")
    yield from rules()
    yield from contracts()
    yield from kept()
    status, text = asked("--check")
    yield "the table of statements in docs/WORDS.md", None if status == 0 else text[-200:]


if __name__ == "__main__":
    sys.exit(told(cases()))
