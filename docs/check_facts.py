"""Facts that a document tells and a source, a page or another document tells too: docs/check asks whether they agree. Each function here yields
triples: does it hold, where, and what is wrong. `tree` has what docs/check has read: `read`, the `declared` names of each file, the `programs`,
and what docs/believed and docs/public have found (`believed`, `public`)."""

import glob
import re
from collections import Counter

# What docs/PROMISES.md must say in a section, since no proof says it.
UNPROVED = {
    "What is assumed": {
        r"\bits logic\b[^.;]*\bbuilt\b": "the toolchain's built logic",
        r"\bnative\b[^.]*\bnumbers\b": "native numbers",
        r"\bback end\b": "the compiler's back end",
        r"opened[^.]*\bC of the toolchain's own\b": "the toolchain's C that opens files",
        r"\bstack enough\b": "that there is stack enough",
        r"`include/xrs\.h`": "the pointers of a call",
    },
    "What is tested only": {
        r"`rust/`": "the Rust wrapper",
        r"`python/`": "the Python wrapper",
        r"\bslice of a compared card\b": "the wrappers' slice of a compared card",
        r"`XRS_STACK`": "the stack of a call",
        r"`c/drift`": "that header and wrappers agree",
    },
}

# What was said once and was found false, and no other file has the truth to compare it with.
REFUTED = {
    r"(?<![\d,])718\s+instructions|\binstructions\b[^.]*?(?<![\d,])718(?!,?\d)": "718 instructions for a clean word: counted again, they are 822",
}

DEFINITION = re.compile(r"^(?: *(?:abbrev|unfoldable|opaque) pub|pub(?: record| data)?) (?!mod |use |record |data )([^\s:({]+)", re.M)


def tables(text):
    """The tables of a text: the cells of the heading, and those of the rows below the rule."""
    for block in re.findall(r"(?:^\|.*\n?)+", text, re.M):
        cells = [[cell.strip() for cell in re.split(r"(?<!\\)\|", row.strip()[1:-1])] for row in block.splitlines()]
        yield cells[0], cells[2:]


def section(text, heading):
    found = re.search(rf"^## {heading}.*?(?=^## |\Z)", text, re.M | re.S)
    return found[0] if found else ""


def arrows(tree):
    """An arrow names the file that has the definition; each file of definitions is pointed to, and no list of them is kept."""
    document = "docs/REQUIREMENTS.md"
    pointed = {file for _, file, _ in tree.believed["ARROWS"]}
    for paragraph, file, name in tree.believed["ARROWS"]:
        if name:
            yield name in tree.declared.get(file, ()), f"{document}: {paragraph}", f"an arrow names {file}, which declares no `{name}`"
    for file in tree.believed["FILES"]:
        if "/inner/" not in file:
            yield file in pointed, document, f"no arrow points to {file}"
    for _, rows in tables(tree.read(document)):
        for row in rows:
            yield not re.match(r"`\w+/specs/", row[0]), document, f"a list of files is kept, which docs/believed prints: {row[0]}"


def additions(tree):
    """Section 12 of the requirements has every program but document 01's own, and `vectors`, which nobody is handed."""
    text = section(tree.read("docs/REQUIREMENTS.md"), "12")
    for program in sorted(set(tree.programs) - {"cardlist", "vectors"}):
        listed = f"`{program}`" in text.split("\n12.1 ")[0]
        yield listed and re.search(rf"^12\.\d+ `{program}`:", text, re.M), "docs/REQUIREMENTS.md: 12", f"the program `{program}` is missing"


def public_functions(tree):
    """No entry point has a `requires`, and no list of public functions is kept."""
    names = {function.name for function in tree.public["PUBLIC"]}
    for function, kind in tree.public["KINDS"].items():
        if kind == "entry points":
            yield not function.requires, f"crates/{function.crate}", f"the entry point `{function.name}` has a requires"
    for _, rows in tables(tree.read("docs/DECISIONS.md")):
        for row in rows:
            listed = [name for name in re.findall(r"`(\w+)`", " ".join(row)) if name in names]
            kept = len(listed) > 2 or set(re.findall(r"`(\w+)`", row[0])) & names
            yield not kept, "docs/DECISIONS.md", f"a list of public functions is kept, which docs/public prints: {', '.join(listed)}"


def statuses(tree):
    """The table of docs/FORMAT.md, the pages and the sources have the same statuses; there is no second table, but for what README.md says of 1."""
    said = {}
    for heading, rows in tables(tree.read("docs/FORMAT.md")):
        if heading == ["program", "0", "1", "2"]:
            said = {row[0].strip("`"): [number for number, cell in zip("012", row[1:]) if cell] for row in rows}
    for program in sorted(set(tree.programs) - {"vectors"}):
        told = re.findall(r"^\.B (\d+)$", tree.read(f"man/{program}.1").partition(".SH EXIT STATUS\n")[2].partition("\n.SH ")[0], re.M)
        answers = "Status::AnsweredNo" in tree.read(f"crates/programs/src/{program}.rt")
        yield said.get(program) == told, "docs/FORMAT.md", f"the statuses of `{program}` are {said.get(program)}, and {told} on its page"
        yield ("1" in said.get(program, "")) == answers, "docs/FORMAT.md", f"`{program}` answers {'' if answers else 'never '}1 by its source"
    for document in glob.glob("docs/*.md"):
        for heading, _ in tables(tree.read(document)) if document != "docs/FORMAT.md" else ():
            yield not {"status", "0"} & set(heading), document, "a second table of statuses: that of docs/FORMAT.md is the one"
    for heading, rows in tables(tree.read("README.md")):
        for at in (at for at, cell in enumerate(heading) if cell.startswith("status 1")):
            for program, row in ((row[0].strip("`").split()[0], row) for row in rows):
                yield bool(row[at]) == ("1" in said.get(program, "")), "README.md", f"the status 1 of `{program}` is not that of docs/FORMAT.md"


def promises(tree):
    """What is assumed or tested only is said, and a promise of some number of bytes says no more than that."""
    text = tree.read("docs/PROMISES.md")
    for heading, things in UNPROVED.items():
        for pattern, thing in things.items():
            yield re.search(pattern, section(text, heading)), f"docs/PROMISES.md: {heading}", f"{thing} is not named"
    records = [record for path in glob.glob("crates/programs/specs/*.antt") for record in re.split(r"\n\n", tree.read(path))]
    counted = {found[1] for record in records if ".written ≡ " in record and (found := re.search(r"^pub record (\w+)", record, re.M))}
    for _, rows in tables(section(text, "The programs")):
        for row in rows:
            for name in counted & set(re.findall(r"`(\w+)`", row[1])):
                yield "as many" in row[0], "docs/PROMISES.md: The programs", f"`{name}` fixes how many bytes are written, and not which"


def benchmarks(tree):
    """The document and its script say one thing, and so do a sentence and the table."""
    text, document = tree.read("docs/BENCHMARKS.md"), "docs/BENCHMARKS.md"
    said, told = (re.findall(r"(\w+) minutes", part) for part in (text.split("\n|")[0], tree.read("bench/run").split("\nset ")[0]))
    yield said == told, document, f"how many minutes bench/run takes: {said} here, {told} there"
    empty = {column for heading, rows in tables(text) for row in rows for column, cell in zip(heading, row) if column and not cell}
    for sentence in re.findall(r"[^.;]*\bnot timed\b[^.;]*", text):
        timed = not any(column in " ".join(sentence.split()) for column in empty)
        yield not timed, document, f"no column is empty that is not timed: {' '.join(sentence.split())}"
    for said, whose in ((r"\bclears the buffers\b", "a program's buffer"), (r"\boutput is (?:not )?cleared\b", "a call's output")):
        yield re.search(said, " ".join(text.split())), document, f"not said of {whose}: whether it is cleared first"


def sentences(tree):
    """What was refuted does not come back; and who says that no name means two things names those that do."""
    defined = Counter(name for path in glob.glob("crates/*/specs/**/*.antt", recursive=True) for name in set(DEFINITION.findall(tree.read(path))))
    twice = {name for name, count in defined.items() if count > 1}
    for document in sorted(glob.glob("*.md") + glob.glob("docs/**/*.md", recursive=True)):
        text = tree.read(document)
        for pattern, why in REFUTED.items():
            yield not re.search(pattern, text), document, why
        for sentence in re.findall(r"[^.]*\b[Nn]ames?\b[^.]*\btwo\s+(?:things|meanings)\b[^.]*", text):
            # an older entry of CHANGELOG.md has its names as they were spelled then
            left = sorted(name for name in twice if name not in sentence and re.sub(r"_(\w)", lambda found: found[1].upper(), name) not in sentence)
            yield not left, document, f"of names with two meanings {', '.join(left)} is left out: {' '.join(sentence.split())}"


def entries(tree):
    """An entry of a landing has its check times, and what moved or is new and what stayed; the first had nothing before it."""
    for entry in re.split(r"^### ", tree.read("CHANGELOG.md"), flags=re.M)[1:]:
        title, _, said = entry.split("\n## ")[0].partition("\n")
        wanted = {r"^- Check\b": "check times", r"^- (?:Moved|New)\b": "what moved", r"\bStayed:": "what stayed"}
        for pattern, what in wanted.items() if title != "9 to 22: requests (a) to (n)" else ():  # these have notes
            holds = re.search(pattern, said, re.M) or title.startswith("1: ") and what == "what stayed"
            yield holds, f"CHANGELOG.md: {title}", f"the entry does not say {what}"


FACTS = (arrows, additions, public_functions, statuses, promises, benchmarks, sentences, entries)
