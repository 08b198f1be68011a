#!/usr/bin/env python3
"""Says which clauses of public functions another state of the repository has and this one hasn't,
or the other way round.

Usage: clauses.py OTHER [NAME=NAME..]

OTHER is a folder with another checkout, as `git worktree add` makes one. Of each public function
that has a contract the clauses are compared: their kinds and names, and their texts word by word. A
function is looked for in the crate of the same name, and else in the one crate that has a function
of that name and of that type; NAME=NAME says that a function or a type of the first name has the
second name here. Where two texts differ in names alone, and each name of the one stands everywhere
in the crate for one name of the other, it is a renaming and counted as such; all else is printed
with both texts. The last line counts functions and clauses; the exit status is 1 where a clause is
missing here.
"""
import collections
import pathlib
import re

import command_line
import definitions
from rtn.reading import Fault

CLAUSE = re.compile(r"\b(requires|ensures)\b[ \t]*(\w+)?[ \t\n]*\{")
TOKEN = re.compile(r"[A-Za-z_][\w'.-]*|\S")


def clauses(head):
    """The clauses of a function's head: kind, name, and its words."""
    found = []
    for start in CLAUSE.finditer(head):
        depth, at = 1, start.end()
        while depth:
            depth += {"{": 1, "}": -1}.get(head[at], 0)
            at += 1
        words = TOKEN.findall(head[start.end():at - 1])
        found.append((start.group(1), start.group(2) or "", words))
    return found


def promises(top):
    """The clauses of each public function of a checkout: by crate, type and name."""
    definitions.TOP, definitions.CRATES = top, top / "crates"
    definitions.definitions.cache_clear()
    if not definitions.CRATES.is_dir():
        raise Fault(f"{top} is no checkout")
    found = {}
    for crate in definitions.crates():
        for _, _, name, head, around, _ in definitions.public_functions(crate):
            if listed := clauses(head):
                kind = re.sub(r"^impl(<[^{]*?>)? |<.*|\s*\{.*", "", around)
                found.setdefault((crate, kind, name), []).extend(listed)
    return found


def partner(key, there, here, names):
    """The function here that is the other state's of this key."""
    key = (key[0], *(names.get(word, word) for word in key[1:]))
    if key in here:
        return key
    same = [other for other in here if other[1:] == key[1:] and other not in there]
    same = same or [other for other in here if other[2] == key[2] and other not in there]
    return same[0] if len(same) == 1 else None


def renamed(old, new, names):
    """Whether two texts differ in names alone, one for one; what stands for what is added to the
    names."""
    if len(old) != len(new):
        return False
    for a, b in zip(old, new):
        if a != b and not (a[0].isalpha() and b[0].isalpha() and names.setdefault(a, b) == b):
            return False
    return True


def told(key, kind, name, there, here):
    """A clause in both states, of which one may have none."""
    texts = ["-" if words is None else " ".join(words) for words in (there, here)]
    return f"{'::'.join(key)}: {kind} {name}\n    there: {texts[0]}\n    here:  {texts[1]}"


class Comparison:
    """The clauses of another state held against those of this one."""

    def __init__(self):
        self.counts = collections.Counter()
        self.names = collections.defaultdict(dict)   # what stands for what in each crate

    def compare(self, key, old, new):
        """Compares the clauses of a function; those that differ are printed."""
        rest = list(new)
        for kind, name, words in old:
            at = next((k for k, (a, b, _) in enumerate(rest) if (a, b) == (kind, name)), None)
            own = rest.pop(at)[2] if at is not None else None
            if own == words:
                self.counts["same"] += 1
            elif own is not None and renamed(words, own, self.names[key[0]]):
                self.counts["renamed"] += 1
            else:
                self.counts["lost"] += kind == "ensures" or own is not None
                print(told(key, kind, name, words, own))
        for kind, name, words in rest:
            self.counts["lost"] += kind == "requires"
            print(told(key, kind, name, None, words))


def main():
    words = command_line.Parser(__doc__)
    words.add_argument("other", metavar="OTHER", type=pathlib.Path)
    words.add_argument("names", metavar="NAME=NAME", nargs="*")
    given = words.words()
    if not all(pair.count("=") == 1 for pair in given.names):
        words.error("a renaming is NAME=NAME")
    here, there = promises(definitions.TOP), promises(given.other.resolve())
    names = dict(pair.split("=") for pair in given.names)
    comparison, met = Comparison(), set()
    for key, old in sorted(there.items()):
        other = partner(key, there, here, names)
        met.add(other)
        comparison.compare(key, old, here.get(other, []))
    for key in sorted(set(here) - met):
        listed = ", ".join(f"{kind} {name}".strip() for kind, name, _ in here[key])
        print(f"new: {'::'.join(key)}: {listed}")
    renamings = len({pair for own in comparison.names.values() for pair in own.items()})
    counts = comparison.counts
    print(f"{len(there)} functions there, {len(here)} here; "
          f"{counts['same']} clauses word for word, {counts['renamed']} by {renamings} renamings, "
          f"{counts['lost']} that differ")
    return 1 if counts["lost"] else 0


if __name__ == "__main__":
    command_line.run(main)
