"""Calls of the program that the tools try."""
from __future__ import annotations

import dataclasses
import os
import pathlib
import subprocess
import tempfile
from collections.abc import Mapping

from rtn.reading import Fault


@dataclasses.dataclass(frozen=True)
class Answer:
    """How a call ended: its exit status, and what it wrote on both outputs."""

    status: int
    text: str
    errors: str

    @property
    def line(self) -> str:
        """The first line of the answer."""
        return self.text.split('\n')[0]

    @property
    def fault(self) -> str:
        """What a call says that didn't do what it was asked."""
        return self.text.strip() or self.errors.strip() or f'status {self.status}'

    @property
    def done(self) -> str:
        """What a call wrote that has status 0; a Fault with what it says where it hasn't."""
        if self.status:
            raise Fault(self.fault)
        return self.text


@dataclasses.dataclass(frozen=True)
class Program:
    """A program by its path, and the seconds that a call of it may take, if they are bounded."""

    path: pathlib.Path
    seconds: float | None = None

    def __call__(self, *words, folder: pathlib.Path | None = None,
                 environment: Mapping[str, str] | None = None, given: str = '') -> Answer:
        """Runs the program on these words, in a folder, with a text to read and with variables
        beside those that there are. A Fault where it can't be run or takes too long."""
        try:
            run = subprocess.run([self.path, *map(str, words)], input=given.encode(), cwd=folder,
                                 env={**os.environ, **(environment or {})}, capture_output=True,
                                 timeout=self.seconds, check=False)
        except subprocess.TimeoutExpired:
            raise Slow(f'{self.path.name} takes longer than {self.seconds} seconds') from None
        except OSError as fault:
            raise Fault(f'{self.path}: {fault.strerror}') from fault
        return Answer(run.returncode, run.stdout.decode(errors='replace'),
                      run.stderr.decode(errors='replace'))

    def text(self, *words) -> str:
        """What a call writes, whatever its status."""
        return self(*words).text

    def done(self, *words) -> str:
        """What a call writes that has status 0; a Fault with what it says where it hasn't."""
        return self(*words).done

    def on_text(self, text: str, *words) -> Answer:
        """Runs the program on these words and a file with this text."""
        with tempfile.TemporaryDirectory() as folder:
            path = pathlib.Path(folder) / 'text'
            path.write_text(text)
            return self(*words, path)


class Slow(Fault):
    """A call takes longer than it may."""
