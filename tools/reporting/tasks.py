"""Programs as command lines name them, and their code."""
from __future__ import annotations

import dataclasses
import pathlib
from collections.abc import Iterable

from rtn.calls import Program
from rtn.images import Image
from rtn.names import Setting, Store
from rtn.reading import Fault

MEMORY, PART = '.mem', '.part'


@dataclasses.dataclass(frozen=True)
class Task:
    """A program text, with the part that stands in a bank and the memory text that it begins with,
    where there are any."""

    source: pathlib.Path
    part: pathlib.Path | None = None
    memory: pathlib.Path | None = None

    def code(self, record: Program, netlist: pathlib.Path, is_tuned: bool = False) -> str:
        """The image of the program on a netlist, for a part by `dual`, else by `tune` or `compile`;
        a Fault where one is refused."""
        if self.part:
            return record.done('dual', netlist, self.source, self.part)
        return record.done('tune' if is_tuned else 'compile', netlist, self.source)

    def start(self, image: Image, store: Store, settings: Iterable[Setting] = ()) -> str:
        """The memory text that the program begins with: its own, and behind it these settings of
        the variables that it has."""
        own = self.memory.read_text(errors='replace') if self.memory else ''
        names = {place.name for place in image.places}
        known = [setting for setting in settings if setting.name in names]
        return own + ''.join(f'{line}\n' for line in store.memory_lines(image, known))


def read_tasks(words: Iterable[str]) -> list[Task]:
    """The programs of a command line, `PROGRAM.src [PROGRAM.part] [MEMORY.mem]` each."""
    tasks: list[Task] = []
    for word in words:
        path = pathlib.Path(word)
        field = {MEMORY: 'memory', PART: 'part'}.get(path.suffix)
        if field is None:
            tasks.append(Task(path))
        elif not tasks or getattr(tasks[-1], field):
            raise Fault(f'{word} stands behind no program of its own')
        else:
            tasks[-1] = dataclasses.replace(tasks[-1], **{field: path})
    return tasks
