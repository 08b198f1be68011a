"""Names of the netlist text, taken from the source."""
from __future__ import annotations

import re

from rtn.reading import ADDED, RESERVED

LONGEST = 32
TAKEN = RESERVED | {'version', *ADDED.values()}


def word_of(name: str) -> str:
    """A source's name as one of the netlist language."""
    word = re.sub(r'\W+', '_', name, flags=re.ASCII).strip('_') or 'n'
    word = word if re.match('[A-Za-z_]', word) else f'_{word}'
    return f'{word}_' if word in TAKEN else word


class Names:
    """Each name once: the last part of the source's, or all of it, or with a number behind."""

    def __init__(self):
        self.used: set[str] = set()
        self.given: dict[object, str] = {}

    def of(self, key: object, wanted: str) -> str:
        """The name of a thing, which is made at the first call."""
        if key not in self.given:
            self.given[key] = self.new(wanted)
            self.used.add(self.given[key])
        return self.given[key]

    def new(self, wanted: str) -> str:
        wanted = wanted.lstrip('\\')
        options = [word_of(wanted.rsplit('.', 1)[-1]), word_of(wanted)]
        for option in options:
            if len(option) <= LONGEST and option not in self.used:
                return option
        stem, number = options[0][:LONGEST - 5], 2
        while f'{stem}_{number}' in self.used:
            number += 1
        return f'{stem}_{number}'
