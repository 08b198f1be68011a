#!/usr/bin/env python3
"""Plants the bugs of tools/planted/CRATE.bugs in a copy of the repository, and asks `rt check` of
each.

Usage: plant.py CRATE [NAME..]
       plant.py --stale

Bugs in different functions are planted together, and each is judged by its own function's proof;
what is not decided so is planted once more, alone. For each bug it prints `refused`, `PROVED` (the
contracts let it pass) or `stale` (the text that it changes stands no longer there once, or the
changed text doesn't compile), with the function that was checked, and what was not proved of it;
nothing stands there where a proof by hand failed. The last line counts them; the exit status is 1
where one was proved. Libraries that `./record` has built are not built again. With `--stale`
nothing is checked: the bugs of all crates are listed whose text stands no longer where it stood, or
whose function or type is gone.

A file of bugs has for each bug the lines

    bug: its name
    only: the function that is checked, with those that it calls
    file: a file of the crate
    old: text that stands in it once; further lines of it begin with a bar
    new: the text in its place, likewise

where `file`, `old` and `new` may come several times.
"""
from __future__ import annotations

import collections
import contextlib
import dataclasses
import enum
import os
import pathlib
import re
import shutil
import subprocess
import tempfile
from collections.abc import Iterator

import command_line
from rtn.reading import Fault

TOP = pathlib.Path(__file__).resolve().parent.parent
PLANTED = TOP / "tools" / "planted"

# How many bugs are planted together.
ROUND = 12


class Verdict(enum.Enum):
    """What becomes of a bug."""

    REFUSED = "refused"
    PROVED = "PROVED"
    STALE = "stale"


@dataclasses.dataclass(frozen=True)
class Edit:
    """A file of a crate, and a text that stands in it once, with the one in its place."""

    file: str
    old: str
    new: str


@dataclasses.dataclass
class Bug:
    """A bug: its name, the function that is checked, and its edits."""

    name: str
    only: str = ""
    edits: list[Edit] = dataclasses.field(default_factory=list)


def fields_of(path: pathlib.Path) -> list[list[str]]:
    """The lines of a file of bugs: each word with its text, which may have several lines."""
    fields: list[list[str]] = []
    for line in path.read_text().split("\n"):
        word, _, rest = line.partition(": ")
        if line.startswith("|"):
            fields[-1][1] += "\n" + line[1:]
        elif word in ("bug", "only", "file", "old", "new") or line in ("old:", "new:"):
            fields.append([word.rstrip(":"), rest])
    return fields


def bugs_of(path: pathlib.Path) -> list[Bug]:
    """The bugs of a file."""
    bugs: list[Bug] = []
    file = old = ""
    for word, text in fields_of(path):
        match word:
            case "bug":
                bugs.append(Bug(text))
            case "only":
                bugs[-1].only = text
            case "file":
                file = text
            case "old":
                old = text
            case "new":
                bugs[-1].edits.append(Edit(file, old, text))
    return bugs


class Planted:
    """The files of a crate as they were, where bugs are planted in it."""

    def __init__(self, crate: pathlib.Path):
        self.crate = crate
        self.kept: dict[pathlib.Path, str] = {}

    def plant(self, bug: Bug) -> bool:
        """Makes the edits of a bug; False, and nothing made, where one can't be."""
        made: dict[pathlib.Path, str] = {}
        for edit in bug.edits:
            path = self.crate / edit.file
            text = made.get(path) or path.read_text()
            if text.count(edit.old) != 1:
                return False
            made[path] = text.replace(edit.old, edit.new)
        for path, text in made.items():
            self.kept.setdefault(path, path.read_text())
            path.write_text(text)
        return True

    def restore(self) -> None:
        for path, text in self.kept.items():
            path.write_text(text)


@contextlib.contextmanager
def planting(crate: pathlib.Path) -> Iterator[Planted]:
    """Plants bugs in a crate, which is afterwards as it was."""
    planted = Planted(crate)
    try:
        yield planted
    finally:
        planted.restore()


# ---- The check


def check(crate: pathlib.Path, bugs: list[Bug]) -> tuple[str, bool]:
    """What `rt check` prints of the functions of these bugs, and whether all is proved."""
    asked = [word for bug in bugs for word in ("--only", bug.only)]
    run = subprocess.run(["rt", "check", *asked], cwd=crate, stdout=subprocess.PIPE,
                         stderr=subprocess.STDOUT, text=True, check=False)
    return run.stdout, run.returncode == 0


def unproved(told: str) -> dict[str, list[str]]:
    """The functions that a check did not prove, each with the goals that it names."""
    found, goals = {}, []
    for line in told.split("\n"):
        goals += re.findall(r"^note: \S+: .* \(`(\S+)`\)", line)
        if line.startswith("fn "):
            function, _, words = line[3:].partition(": ")
            if words.startswith(("not proved", "no proof")):
                found[function] = goals
            goals = []
    return found


def try_alone(crate: pathlib.Path, bug: Bug) -> tuple[Verdict, list[str]]:
    """What becomes of one bug, and the goals that fell."""
    with planting(crate) as planted:
        if not planted.plant(bug):
            return Verdict.STALE, []
        told, is_proved = check(crate, [bug])
    if is_proved:
        return Verdict.PROVED, []
    fallen = unproved(told)
    if not fallen and re.search(r"src/\S+: error\[", told):
        return Verdict.STALE, []
    return Verdict.REFUSED, [f"{function}: {goal}" for function, goals in fallen.items()
                             for goal in goals]


def try_together(crate: pathlib.Path, bugs: list[Bug]) -> dict[str, list[str]]:
    """Those of these bugs, each in another function, whose own proof fails, by name with the goals
    that fell."""
    with planting(crate) as planted:
        there = [bug for bug in bugs if planted.plant(bug)]
        fallen = unproved(check(crate, there)[0])
    refused = {}
    for bug in there:
        own = [goals for name, goals in fallen.items()
               if name == bug.only or name.endswith("::" + bug.only)]
        if own:
            refused[bug.name] = own[0]
    return refused


def rounds(bugs: list[Bug]) -> Iterator[list[Bug]]:
    """The bugs in rounds of at most ROUND, no function twice in one."""
    left = list(bugs)
    while left:
        now, later, functions = [], [], set()
        for bug in left:
            if bug.only in functions or len(now) == ROUND:
                later.append(bug)
            else:
                now.append(bug)
                functions.add(bug.only)
        yield now
        left = later


def judged(crate: pathlib.Path, bugs: list[Bug]) -> Iterator[tuple[Bug, Verdict, list[str]]]:
    """Each bug with what becomes of it, and the goals that fell."""
    undecided = []
    for now in rounds(bugs):
        refused = try_together(crate, now) if len(now) > 1 else {}
        for bug in now:
            if bug.name in refused:
                yield bug, Verdict.REFUSED, refused[bug.name]
            else:
                undecided.append(bug)
    for bug in undecided:
        yield bug, *try_alone(crate, bug)


# ---- The copy


def copied(one: str, other: str) -> str:
    """Copies a file, and of a library that was built only its name: `rt` replaces such files, and
    changes none."""
    if "/out/rlib/" in one:
        try:
            os.link(one, other)
            return other
        except OSError:
            pass
    return shutil.copy2(one, other)


def is_stale(crate: pathlib.Path, bug: Bug) -> bool:
    """Whether the text that a bug changes, or what is checked of it, stands no longer there."""
    if not crate.is_dir():
        return True
    with planting(crate) as planted:
        if not planted.plant(bug):
            return True
    item = re.compile(rf"\b(fn|struct|enum) {bug.only.rpartition('::')[2]}\b")
    return not any(item.search(path.read_text()) for path in (crate / "src").rglob("*.rt"))


def list_stale() -> int:
    """Prints the stale bugs of all crates, on a copy of their sources; the exit status."""
    found = 0
    with tempfile.TemporaryDirectory() as folder:
        copy = pathlib.Path(folder) / "crates"
        shutil.copytree(TOP / "crates", copy, ignore=shutil.ignore_patterns("out"))
        for path in sorted(PLANTED.glob("*.bugs")):
            for bug in bugs_of(path):
                if is_stale(copy / path.stem, bug):
                    found += 1
                    print(f"{path.stem}: {bug.name} in {bug.only}")
    print(f"{found} stale")
    return 1 if found else 0


def judge(crate: str, bugs: list[Bug]) -> int:
    """Prints what becomes of these bugs of a crate; the exit status."""
    counts = collections.Counter()
    with tempfile.TemporaryDirectory() as folder:
        copy = pathlib.Path(folder) / "record"
        shutil.copytree(TOP, copy, symlinks=True, ignore=shutil.ignore_patterns(".git"),
                        copy_function=copied)
        for bug, found, fallen in judged(copy / "crates" / crate, bugs):
            counts[found] += 1
            goals = f": {', '.join(fallen)}" if fallen else ""
            print(f"{found.value:8} {bug.name} in {bug.only}{goals}", flush=True)
    print(f"{counts[Verdict.REFUSED]} refused, {counts[Verdict.PROVED]} proved, "
          f"{counts[Verdict.STALE]} stale")
    return 1 if counts[Verdict.PROVED] else 0


def main():
    words = command_line.Parser(__doc__)
    words.add_argument("--stale", action="store_true")
    words.add_argument("crate", metavar="CRATE", nargs="?")
    words.add_argument("names", metavar="NAME", nargs="*")
    given = words.words()
    if given.stale == bool(given.crate):
        words.error("either a crate or --stale")
    if given.stale:
        return list_stale()
    path = PLANTED / f"{given.crate}.bugs"
    if not path.exists():
        raise Fault(f"no bugs of {given.crate} stand in tools/planted")
    bugs = bugs_of(path)
    unknown = set(given.names) - {bug.name for bug in bugs}
    if unknown:
        raise Fault(f"{given.crate} has no bug {min(unknown)}")
    return judge(given.crate, [bug for bug in bugs if not given.names or bug.name in given.names])


if __name__ == "__main__":
    command_line.run(main)
