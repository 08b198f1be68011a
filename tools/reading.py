#!/usr/bin/env python3
"""Prints what has to be read to believe a clause of the top call: the definitions that it cites,
and those that they cite, with their lines.

Usage: reading.py [CLAUSE | FILE..]

CLAUSE is a clause of `record_call` in crates/record_core/src/call.rt, `wrote` where nothing is
given. Where files of specs/ are given, it starts from all of their definitions. For each file it
prints how many of its lines are of these definitions, with the remarks above them, and how many
lines it has. The definitions of the standard library are not among them.

The types of the code that these files name, `use Rattle.CRATE.specs.declared.FILE.TYPE`, are
declared in crates/CRATE/src/FILE.rt, or in the crate's root file; these files are named behind the
sum, and their lines, most of which are code, are not counted.
"""
import collections
import pathlib
import re

import command_line
from definitions import CRATES, TOP, cited_in, closure, definitions, imports
from rtn.reading import Fault

CALL = CRATES / "record_core" / "src" / "call.rt"
DECLARED = re.compile(r"(?m)^use Rattle\.(\w+)\.specs\.(?:declared|contracts)\.(\w+)[\w.]*"
                      r"\.\{([^}]*)\}")


def clause_of(text, name):
    """The text of the clause of `record_call`."""
    head = text[text.index("pub fn record_call"):]
    found = re.search(rf"(?s)ensures {name} \{{(.*?)\}}\n", head)
    if not found:
        raise Fault(f"record_call has no clause {name}")
    return found.group(1)


def starts(words):
    """The definitions of the files that are given, or those that the clause names."""
    if words and "/" in words[0]:
        return [(crate, file, name) for crate, file in map(file_of, words)
                for other, name in definitions(crate)[0] if other == file]
    text = CALL.read_text()
    return cited_in(clause_of(text, words[0] if words else "wrote"), imports(text))


def file_of(word):
    """The crate and the file below specs/ of a path."""
    path = pathlib.Path(word).resolve()
    if not path.is_relative_to(CRATES) or not path.is_file():
        raise Fault(f"{word} is no file of specs/")
    crate, _, *file = path.relative_to(CRATES).with_suffix("").parts
    return crate, "/".join(file)


def source_of(crate, module):
    """The file that declares a type, whose path has its module, unless it stands in the root
    file."""
    file = CRATES / crate / "src" / f"{module}.rt"
    return file if file.exists() else CRATES / crate / "src" / "lib.rt"


def types_of(found):
    """The files of the code that declare the types which the definitions name."""
    sources = set()
    for crate, file, name in found:
        text = "\n".join(definitions(crate)[0][(file, name)])
        told = (CRATES / crate / "specs" / f"{file}.antt").read_text()
        for other, module, names in DECLARED.findall(told):
            own = [part.split(" as ")[-1].strip() for part in names.split(",")]
            is_named = any(re.search(rf"\b{re.escape(word)}\b", text) for word in own)
            if (CRATES / other).is_dir() and is_named:
                sources.add(source_of(other, module))
    return sources


def main():
    words = command_line.Parser(__doc__)
    words.add_argument("start", nargs="*")
    found = closure(starts(words.words().start))
    lines = collections.Counter()
    for crate, file, name in found:
        lines[(crate, file)] += len(definitions(crate)[0][(file, name)])
    for (crate, file), count in sorted(lines.items()):
        path = CRATES / crate / "specs" / f"{file}.antt"
        print(f"{count:6} of {len(path.read_text().splitlines()):4} {path.relative_to(TOP)}")
    print(f"{sum(lines.values()):6} lines, of {len(found)} definitions in {len(lines)} files")
    types = types_of(found)
    print(f"The types that they name are declared in {len(types)} files:")
    for file in sorted(types):
        print(f"       {file.relative_to(TOP)}")


if __name__ == "__main__":
    command_line.run(main)
