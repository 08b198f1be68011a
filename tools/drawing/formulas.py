"""Control in writing: what the instruction word decides alone."""
from __future__ import annotations

from typing import TYPE_CHECKING

from drawing.dot import span
from drawing.nets import CASE, CONSTANT, PORT, SLICE, WORD, Net
from rtn.operators import OPERATORS, WIRING

if TYPE_CHECKING:
    from drawing.picture import Drawing

# The operators of control that stand between their operands.
INFIX = [word for word, operator in OPERATORS.items()
         if operator.is_control and operator.is_symmetric]


class Formula:
    """Writes nets of a drawing; the places that a text names are put into `sources`."""

    def __init__(self, drawing: Drawing, sources: dict[str, bool]):
        self.drawing, self.sources = drawing, sources

    def text(self, net: Net, is_top: bool = False, is_nested: bool = False) -> str:
        """A net in writing, whose name stands for it unless it is on top."""
        if net.op == CONSTANT:
            return str(net.number)
        if net.op == WORD:
            self.sources[self.drawing.place(net)] = True
            return net.storage.name
        if net.is_field:
            self.sources[self.drawing.field(net)] = True
            return net.names[0] if net.names else net.parts[0].storage.name + span(*net.bounds)
        if net.op == PORT:
            return self.text(net.parts[0], is_nested=is_nested)
        if net.names and not is_top and net.op not in WIRING:
            return self.drawing.decode(net, self.sources)
        text = self.gate(net)
        return f'({text})' if is_nested and ' ' in text else text

    def gate(self, net: Net) -> str:
        if net.op == CASE:
            return self.choice(net)
        if net.op == 'not' and net.parts[0].op == 'eq' and not net.parts[0].names:
            return self.gate(net.parts[0]).replace(' = ', ' ≠ ', 1)
        parts = [self.text(part, is_nested=True) for part in net.parts]
        if net.op == SLICE:
            return parts[0] + span(*net.bounds)
        if net.op == 'zext':
            return parts[0]
        if net.op == 'cat':
            return '{' + ', '.join(parts) + '}'
        if net.op in INFIX:
            return f' {OPERATORS[net.op].drawn} '.join(parts)
        return f'{net.op} ' + ', '.join(parts)

    def choice(self, net: Net) -> str:
        """A case: the numbers for which it is 1 where that is all, else its rows."""
        selector = self.text(net.parts[0], is_nested=True)
        rows = list(zip(net.rows, net.parts[1:]))
        if net.width == 1 and all(part.op == CONSTANT for _, part in rows):
            rest = [part.number for numbers, part in rows if not numbers]
            sign, one = ('=', 1) if rest in ([], [0]) else ('≠', 0)
            listed = (str(number) for numbers, part in rows if part.number == one
                      for number in numbers)
            return f'{selector} {sign} ' + ', '.join(listed)
        texts = (f'{", ".join(map(str, numbers)) or "else"} → {self.text(part, is_nested=True)}'
                 for numbers, part in rows)
        return f'{selector}: ' + '; '.join(texts)


def formula_of(drawing: Drawing, net: Net, sources: dict[str, bool], is_top: bool = False) -> str:
    """A net that the word decides, in writing; the places that it names are put into `sources`."""
    return Formula(drawing, sources).text(net, is_top)
