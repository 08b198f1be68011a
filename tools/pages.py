#!/usr/bin/env python3
"""Writes the parts of the pages that are made from the sources, or looks whether they are up to
date.

Usage: pages.py [--check]

A part stands in its page between the lines `<!-- pages.py: PART -->` and `<!-- pages.py: end -->`;
what stands outside them is written by hand. The parts are

    crates       of docs/ARCHITECTURE.md: the crates, what each stands on, and the first sentence of
                 its guide
    reading      of docs/ARCHITECTURE.md: the files of definitions that the promise of the top call
                 rests on
    tools        of docs/ARCHITECTURE.md: the tools and their packages, and the first sentence of
                 what each says of itself
    promises     of docs/PROMISES.md: each public function with a contract, crate by crate, and the
                 promise that the crate's guide makes
    definitions  of docs/DEFINITIONS.md: each file of definitions with its head, and its public
                 names with the remarks before them
    planted      of docs/PLANTED.md: the edits that must fail and the number of planted bugs of each
                 crate

A guide is the remark at the head of a crate's root file. With --check nothing is written: a page
that would change is named with the first line that differs, and so is each path or heading that a
page names and that doesn't exist; the exit status is 1 where there is one of either.
"""
import ast
import re
import textwrap

import command_line
from definitions import (CRATES, HEAD, TOP, WORD, closure, definitions, imports, public_functions,
                         resolved)
from plant import bugs_of
from reading import starts
from rtn.reading import Fault

WIDTH = 100
PROMISE = "Promise: "
END = "<!-- pages.py: end -->"


def wrapped(text, first="", rest=""):
    """A paragraph in lines of at most WIDTH columns, which end in no short piece of code."""
    text = " ".join(text.split())
    text = re.sub(r"`[^`]{1,64}`", lambda code: code.group(0).replace(" ", "\0"), text)
    lines = textwrap.fill(text, WIDTH, initial_indent=first, subsequent_indent=rest,
                          break_long_words=False, break_on_hyphens=False)
    return lines.replace("\0", " ")


def listed():
    """The crates of crates.txt in their order, each with the crates that it names, and the heads of
    the layers as None and a text.

    A head stands right above a crate; a remark is followed by an empty line."""
    lines = (TOP / "crates.txt").read_text().splitlines()
    for line, following in zip(lines, lines[1:] + [""]):
        if line.startswith("#"):
            if following.strip():
                yield None, line.lstrip("# ")
        elif line.strip():
            name, _, needs = line.partition(":")
            yield name, [need for need in needs.split() if (CRATES / need).is_dir()]


def crate_names():
    return [name for name, _ in listed() if name]


def root_of(crate):
    """The root file of a crate."""
    library = CRATES / crate / "src" / "lib.rt"
    return library if library.exists() else library.with_name("main.rt")


def guide(crate):
    """The paragraphs of a crate's guide."""
    lines = root_of(crate).read_text().splitlines()
    told = [re.sub(r"^//! ?", "", line) for line in lines if line.startswith("//!")]
    return "\n".join(told).split("\n\n")


def first_sentence(text):
    """A text up to its first full stop that ends a sentence."""
    text = " ".join(text.split())
    return re.split(r"(?<=[.?!])\s+(?=[A-Z`*(])", text)[0]


def capital(text):
    return text[:1].upper() + text[1:]


# ---- the crates

def below(crate, needs):
    """All crates that a crate stands on, directly or by another one."""
    found, todo = set(), list(needs[crate])
    while todo:
        name = todo.pop()
        if name not in found:
            found.add(name)
            todo += needs[name]
    return found


def crates_part():
    """The table of the crates; what comes with another crate isn't named."""
    needs = {name: crates for name, crates in listed() if name}
    yield "| crate | stands on | what it is for |"
    yield "|---|---|---|"
    for name, crates in listed():
        if name is None:
            yield f"| **{crates}** | | |"
            continue
        implied = set().union(*(below(crate, needs) for crate in crates))
        direct = ", ".join(f"`{crate}`" for crate in crates if crate not in implied)
        yield f"| `{name}` | {direct} | {first_sentence(guide(name)[0])} |"


# ---- what to read, and the tools

def reading_part():
    """How much the clause `wrote` rests on, and its files crate by crate, the top call first."""
    found = closure(starts([]))
    files = {(crate, file) for crate, file, _ in found}
    lines = sum(len(definitions(crate)[0][(file, name)]) for crate, file, name in found)
    yield wrapped(f"These are {lines:,} lines of {len(found):,} definitions in {len(files)} files:")
    yield "\n| crate | files of `specs/` |\n|---|---|"
    order = crate_names()

    def rank(crate):
        return crate != "record_core", order.index(crate)

    for crate in sorted({crate for crate, _ in files}, key=rank):
        named = sorted(f"`{file}`" for name, file in files if name == crate)
        yield f"| `{crate}` | {', '.join(named)} |"


def tools_part():
    """The table of the tools, and of the modules of their packages but the tests'."""
    tools = TOP / "tools"
    yield "| tool | what it does |\n|---|---|"
    for path in sorted(path for path in tools.iterdir() if path.is_file()):
        yield f"| `{path.name}` | {said_of_itself(path)} |"
    for package in sorted(path.parent for path in tools.glob("*/__init__.py")):
        yield f"| **`{package.name}/`** | {said_of_itself(package / '__init__.py')} |"
        for path in sorted(package.rglob("*.py")):
            if path.name != "__init__.py" and package.name != "tests":
                yield f"| `{path.relative_to(tools)}` | {said_of_itself(path)} |"


def said_of_itself(path):
    """The first sentence of what a file of Python says of itself."""
    told = ast.get_docstring(ast.parse(path.read_text()))
    if not told:
        raise Fault(f"{path.relative_to(TOP)} says nothing of itself")
    return first_sentence(told.split("\n\n")[0])


# ---- the promises

def remark_before(text, start, mark):
    """The lines of a remark that end right before a place of a text; attributes may stand
    between."""
    found = []
    for line in reversed(text[:start].splitlines()):
        line = line.strip()
        if line.startswith(mark):
            found.append(line[len(mark):].strip())
        elif found or not line.startswith("#["):
            break
    return "\n".join(reversed(found))


def owner_of(block):
    """The type or trait of a block's line, followed by two colons; nothing where there is no
    block."""
    while re.search(r"<[^<>]*>", block):
        block = re.sub(r"<[^<>]*>", "", block)
    owner = block.split(" for ")[-1].split(" where ")[0].split(":")[0]
    words = WORD.findall(re.sub(r"\b(pub|impl|trait)\b", "", owner))
    return f"{words[-1]}::" if words else ""


def contract(head):
    """The clauses of a function's head as they stand there, with the remarks between them."""
    lines = head.rstrip().splitlines()
    is_clause = re.compile(r"\s+(requires|ensures)\b").match
    at = next((k for k, line in enumerate(lines) if is_clause(line)), None)
    if at is None or not any(re.match(r"\s+ensures\b", line) for line in lines):
        return []
    while lines[at - 1].strip().startswith("//"):
        at -= 1
    return textwrap.dedent("\n".join(line for line in lines[at:] if line.strip())).splitlines()


def said_by(clauses, text):
    """A sentence that names the definitions of the clauses with their files."""
    bound, files = imports(text), {}
    code = "\n".join(line for line in clauses if not line.strip().startswith("//"))
    for word in WORD.findall(code):
        found = resolved(*bound[word]) if word in bound else None
        if found:
            crate, file, name = found
            names = files.setdefault(f"crates/{crate}/specs/{file}.antt", [])
            names += [] if name in names else [name]
    told = (", ".join(f"`{name}`" for name in names) + f" in `{path}`"
            for path, names in files.items())
    return f"Said by {'; '.join(told)}." if files else ""


def promises_of(crate):
    """The lines of a crate's public functions that have clauses."""
    for file, text, name, head, block, start in public_functions(crate):
        clauses = contract(head)
        if not clauses:
            continue
        told = first_sentence(remark_before(text, start, "///").split("\n\n")[0])
        yield ""
        where = f"`{owner_of(block)}{name}` in `{file.relative_to(TOP)}`"
        yield wrapped(f"{where}: {told}" if told else f"{where}.")
        yield ""
        yield "```text"
        yield from clauses
        yield "```"
        said = said_by(clauses, text)
        if said:
            yield ""
            yield wrapped(said)


def section(crate):
    """What a crate promises by its guide, and its functions; nothing where it promises safety and
    an end alone."""
    promise = next((text for text in guide(crate) if text.startswith(PROMISE)), None)
    told = list(promises_of(crate))
    if promise or told:
        yield f"\n## `{crate}`\n"
        safety = "It promises safety and an end."
        yield wrapped(capital(promise.removeprefix(PROMISE)) if promise else safety)
        yield from told


def promises_part():
    """The names of the crates as links, and what they promise."""
    sections = {crate: list(section(crate)) for crate in crate_names()}
    links = (f"[{crate}](#{crate})" for crate, lines in sections.items() if lines)
    yield wrapped(", ".join(links) + ".")
    for lines in sections.values():
        yield from lines


# ---- the definitions

def head_remark(lines):
    """The remark at the head of a file of definitions."""
    head = []
    for line in lines:
        if not line.startswith("--"):
            break
        head.append(line.lstrip("- "))
    return " ".join(head)


def public_names(lines):
    """The public definitions of a file in their order, each with the remark right before it."""
    remark, is_mutual = [], False
    for line in lines:
        if line.strip().startswith("--"):
            remark.append(line.strip().lstrip("- "))
            continue
        if re.match(r"(abbrev |unfoldable )*mutual\s*$", line):
            is_mutual = True
            continue
        if line and not line[0].isspace():
            is_mutual = False
        found = re.match(("  " if is_mutual else "") + HEAD, line)
        if found and found.group(1):
            yield found.group(3), " ".join(remark)
        remark = []


def definitions_of(crate):
    """The lines of a crate's files of definitions. Of computed values only the head is told."""
    for path in sorted((CRATES / crate / "specs").glob("*.antt")):
        lines = path.read_text().splitlines()
        if path.stem in ("Lib", "Inner"):
            continue
        head = head_remark(lines)
        yield ""
        yield wrapped(f"`{path.stem}`: {head}")
        is_worked = path.stem.startswith("Worked")
        names = [] if is_worked else list(public_names(lines[len(head_lines(lines)):]))
        told = [(name, remark) for name, remark in names if remark]
        bare = [f"`{name}`" for name, remark in names if not remark]
        yield from [""] if names else []
        yield from (wrapped(f"- `{name}`: {remark}", rest="  ") for name, remark in told)
        if bare:
            yield wrapped(f"- {'Also ' if told else ''}{', '.join(bare)}.", rest="  ")


def head_lines(lines):
    """The lines of a file's head remark."""
    count = next((k for k, line in enumerate(lines) if not line.startswith("--")), len(lines))
    return lines[:count]


def definitions_part():
    for crate in crate_names():
        told = list(definitions_of(crate))
        if told:
            yield f"\n## `{crate}/specs`"
            yield from told


# ---- the planted bugs

def planted_part():
    """The edits of each crate by name, and how many bugs are planted in it."""
    edits_in_all = bugs_in_all = 0
    yield "| crate | edits that must fail | planted |"
    yield "|---|---|---|"
    for crate in crate_names():
        edits = sorted(path.stem for path in (CRATES / crate / "must-fail").glob("*.edit"))
        path = TOP / "tools" / "planted" / f"{crate}.bugs"
        bugs = len(bugs_of(path)) if path.exists() else 0
        edits_in_all, bugs_in_all = edits_in_all + len(edits), bugs_in_all + bugs
        if edits or bugs:
            yield f"| `{crate}` | {', '.join(edit.replace('_', ' ') for edit in edits)} | {bugs} |"
    yield f"| all | {edits_in_all:,} edits | {bugs_in_all:,} |"


# ---- the pages

PARTS = {
    "docs/ARCHITECTURE.md": {"crates": crates_part, "reading": reading_part, "tools": tools_part},
    "docs/PROMISES.md": {"promises": promises_part},
    "docs/DEFINITIONS.md": {"definitions": definitions_part},
    "docs/PLANTED.md": {"planted": planted_part},
}


def made(text, part, lines):
    """A page with these lines as its part."""
    begin = f"<!-- pages.py: {part} -->"
    if text.count(begin) != 1 or END not in text[text.index(begin):]:
        raise Fault(f"a page has no place for {part}")
    before, rest = text.split(begin)
    return before + begin + "\n" + "\n".join(lines).strip("\n") + "\n" + rest[rest.index(END):]


def first_difference(old, new):
    """The first line of a page that is another one, or isn't there, with what it has to be."""
    old, new = old.splitlines(), new.splitlines()
    both = enumerate(zip(old, new))
    at = next((k for k, pair in both if pair[0] != pair[1]), min(len(old), len(new)))
    there = old[at] if at < len(old) else "not there"
    due = new[at] if at < len(new) else "nothing"
    return f"line {at + 1} is {there!r} in place of {due!r}"


def named_paths(text):
    """The paths below the top that a page names; NAME in one stands for any. `CRATE/specs/FILE` is
    below crates/, and so is `CRATE/proofs/FILE`."""
    text = re.sub(r"(?ms)^```.*?^```", "", text)
    named = re.findall(r"`((?:crates|docs|tools|examples)/[\w./-]+)`", text)
    named += re.findall(r"\b((?:docs|tools|examples)/[\w/-]+\.(?:md|py|rtn|src))\b", text)
    proved = re.findall(r"`([a-z_]+/(?:specs|proofs)/[\w/]+)`", text)
    named += [f"crates/{name}.antt" for name in proved]
    return [name for name in named if "NAME" not in name]


def anchors(path):
    """What a link to a heading of a page may name."""
    heads = re.findall(r"(?m)^#+ (.*)$", re.sub(r"(?ms)^```.*?^```", "", path.read_text()))
    return {re.sub(r"[^\w -]", "", head.lower()).replace(" ", "-") for head in heads}


def absent(path):
    """The paths that a page names, and the links in it, that lead nowhere."""
    text = path.read_text()
    yield from (name for name in named_paths(text) if not (TOP / name).exists())
    for link, _, head in re.findall(r"\]\(([\w./-]*)(#([\w-]+))?\)", text):
        target = path.parent / link if link else path
        if not target.exists() or head and head not in anchors(target):
            yield f"{link}#{head}" if head else link


def pages():
    """All pages that somebody reads."""
    docs = sorted((TOP / "docs").glob("*.md"))
    return [TOP / "README.md", TOP / "CHANGELOG.md", *docs, TOP / "examples" / "README.md"]


def main():
    words = command_line.Parser(__doc__)
    words.add_argument("--check", action="store_true")
    is_check, wrong = words.words().check, 0
    for name, parts in PARTS.items():
        old = new = (TOP / name).read_text()
        for part, lines in parts.items():
            new = made(new, part, lines())
        if is_check and new != old:
            wrong += 1
            print(f"{name}: {first_difference(old, new)}")
        elif not is_check:
            (TOP / name).write_text(new)
    for path in pages():
        for name in sorted(set(absent(path))):
            wrong += 1
            print(f"{path.relative_to(TOP)} names {name}, which isn't there")
    return 1 if wrong else 0


if __name__ == "__main__":
    command_line.run(main)
