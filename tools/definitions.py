"""The definitions of specs/ and what cites what, for reading.py, apart.py and pages.py: it prints
nothing itself.

A definition is named by its crate, its file below specs/ (`Trees`, or `Inner/Tables`) and its own
name. What it cites is found by its words: a name of its own file, or one that the file imports. A
field or a constructor stands for the definition that declares it. So what is found is never too
little; it is too much where a variable has a definition's name.
"""
import functools
import pathlib
import re

TOP = pathlib.Path(__file__).resolve().parent.parent
CRATES = TOP / "crates"
WORD = re.compile(r"[A-Za-z_][\w'-]*")
IMPORT = re.compile(r"(?m)^\s*(?:ghost |pub )*use Rattle\.(\w+)\.specs\.([\w.]+)\.\{([^}]*)\}")
HEAD = r"(?:abbrev |unfoldable )*(pub )?(data |record )?([A-Za-z_][\w'-]*)\s*[({:]"
BLOCK = re.compile(r"(?m)^(?:impl|pub trait|trait)\b[^{\n]*")
FUNCTION = re.compile(r"(?m)^([ \t]*)((?:pub(?:\([a-z]+\))? )?)"
                      r"(?:const |ghost |unsafe )*fn (\w+)")


def crates():
    return sorted(path.name for path in CRATES.iterdir() if (path / "src").is_dir())


def imports(text):
    """What a file imports from specs/ of this repository: its own name of it, to crate, file and
    name."""
    found = {}
    for crate, path, names in IMPORT.findall(text):
        if (CRATES / crate).is_dir():
            for name in filter(None, map(str.strip, names.split(","))):
                first, _, alias = map(str.strip, name.partition(" as "))
                found[alias or first] = (crate, path.replace(".", "/"), first)
    return found


@functools.cache
def definitions(crate):
    """The definitions of a crate, each with its lines, and the fields and constructors, each with
    its definition."""
    lines_of, owner = {}, {}
    for file in sorted((CRATES / crate / "specs").rglob("*.antt")):
        name = file.relative_to(CRATES / crate / "specs").with_suffix("").as_posix()
        current, mutual, remarks = None, False, []
        for line in file.read_text().split("\n"):
            if re.match(r"(abbrev |unfoldable )*mutual\s*$", line):
                current, mutual = None, True
                continue
            if line and not line[0].isspace() and not line.startswith("--"):
                mutual = False
            indent = "  " if mutual else ""
            head = re.match(indent + HEAD, line)
            if head and (head.group(1) or head.group(2) or " : " in line):
                current = (name, head.group(3))
                lines_of.setdefault(current, []).extend(remarks)
            if line.strip().startswith("--"):
                remarks.append(line)
                continue
            remarks = []
            if not line.strip() or line.startswith(("use ", "pub mod")):
                continue
            if current:
                lines_of[current].append(line)
                part = re.match(indent + r"  (?:pub )?([A-Za-z_][\w'-]*) :", line)
                if part:
                    owner[(name, part.group(1))] = current
    return lines_of, owner


@functools.cache
def imports_of(crate, file):
    return imports((CRATES / crate / "specs" / f"{file}.antt").read_text())


def resolved(crate, file, name):
    """The definition that a name of this file is, or None."""
    lines_of, owner = definitions(crate)
    if (file, name) in lines_of:
        return crate, file, name
    if (file, name) in owner:
        return (crate, *owner[(file, name)])
    return None


def cited(definition):
    """The definitions that a definition cites."""
    crate, file, name = definition
    lines, found = definitions(crate)[0][(file, name)], set()
    code = "\n".join(line for line in lines if not line.strip().startswith("--"))
    for word in set(WORD.findall(code)):
        other = resolved(crate, file, word)
        if not other and word in imports_of(crate, file):
            other = resolved(*imports_of(crate, file)[word])
        if other and other != definition:
            found.add(other)
    return found


def closure(start):
    """The definitions, and all that they cite."""
    seen, todo = set(), list(start)
    while todo:
        definition = todo.pop()
        if definition not in seen:
            seen.add(definition)
            todo += cited(definition)
    return seen


def cited_in(text, names):
    """The definitions that a piece of code cites, by what its file imports."""
    found = (resolved(*names[word]) for word in set(WORD.findall(text)) if word in names)
    return set(filter(None, found))


def functions(text):
    """The functions of a file: name, the word before `fn`, head up to the body, the line of the
    `impl` or trait round it, and where it begins."""
    blocks = [(m.start(), m.group(0)) for m in BLOCK.finditer(text)]
    for m in FUNCTION.finditer(text):
        end = re.compile(r"^" + re.escape(m.group(1)) + r"\{|\{[ \t]*$|;[ \t]*$", re.M)
        heads = (text[m.start():found.start()] for found in end.finditer(text, m.end()))
        closed = (head for head in heads if head.count("{") == head.count("}"))
        head = next(closed, text[m.start():])
        around = [line for at, line in blocks if at < m.start()] if m.group(1) else []
        yield m.group(3), m.group(2).strip(), head, around[-1] if around else "", m.start()


def exported(crate):
    """The names that the root file hands out, and its public modules."""
    root = CRATES / crate / "src" / "lib.rt"
    text = root.read_text() if root.exists() else ""
    names = {word for line in re.findall(r"pub use ([^;]+);", text) for word in WORD.findall(line)}
    return names, set(re.findall(r"pub mod (\w+)", text))


def sources(crate):
    """The files of a crate's code, each with its text without tests."""
    for file in sorted((CRATES / crate / "src").rglob("*.rt")):
        yield file, re.split(r"#\[cfg\(test\)\]", file.read_text())[0]


def public_functions(crate):
    """The functions that others can call: file, its text, name, head, the line of the block round
    it, and where it begins."""
    names, modules = exported(crate)
    for file, text in sources(crate):
        is_open = file.stem in modules or file.stem in ("lib", "main")
        types = set(re.findall(r"(?m)^pub (?:struct|enum|trait) (\w+)", text)) if is_open else set()
        for name, public, head, block, start in functions(text):
            is_member = bool(set(WORD.findall(block)) & (names | types))
            is_of_trait = "trait " in block or " for " in block
            is_own = public == "pub" and (name in names or is_open or is_member)
            if is_own or public == "" and is_member and is_of_trait:
                yield file, text, name, head, block, start


def public_citations(crate):
    """What the contracts of a crate's public functions and the views of its types cite. An
    invariant of a type isn't among it: it is proved."""
    found = set()
    for _, text, _, head, _, _ in public_functions(crate):
        found |= cited_in(head, imports(text))
    for _, text in sources(crate):
        for view in re.findall(r"(?ms)^impl[^\n]*Model[^\n]*\{.*?^\}", text):
            view = re.sub(r"(?ms)^    ghost invariant = \{.*?\};\n", "", view)
            found |= cited_in(re.sub(r"(?m)^\s*ghost use .*$", "", view), imports(text))
    return found
