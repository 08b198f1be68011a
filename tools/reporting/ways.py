"""The drawing of a netlist as SVG, in which each transfer's way can be lit."""
from __future__ import annotations

import pathlib
import re
import shutil

from drawing.dot import BRIGHT, HOT, WARM, node_of
from drawing.nets import Graph
from drawing.paths import Path
from drawing.picture import Drawing
from reporting.html import Markup
from rtn.calls import Program
from rtn.reading import Fault

PORT = re.compile(r'<TD PORT="(\w+)"([^>]*)>')
LIT_CELL = re.compile(rf'<TD PORT="(\w+)"[^>]* BGCOLOR="(?:{HOT}|{BRIGHT}|{WARM})"')
NODE = re.compile(r'"(?:[^"\\]|\\.)*" \[')


class Ways:
    """The drawing of a netlist: its nodes, their cells with a port and its lines are parts with
    names. graphviz calls the lines `edge1`, `edge2` and so on."""

    def __init__(self, graph: Graph):
        self.graph, self.plain = graph, Drawing(graph)
        # as they are before the layout adds its tags
        self.nodes = nodes(self.plain)
        self.numbers = {node_of(node): number for number, node in enumerate(self.nodes)}

    def node(self, text: str) -> str:
        """The name of a node's part, by the node's text."""
        return f'node_{self.numbers[node_of(text)]}'

    def svg(self) -> Markup:
        """The drawing as an element, whose size is that of its place; a Fault where there is no
        graphviz."""
        path = shutil.which('dot')
        if path is None:
            raise Fault('no dot on the path: install graphviz (apt-get install graphviz)')
        answer = Program(pathlib.Path(path))('-Tsvg', given=self.text())
        if answer.status:
            raise Fault(f'dot: {answer.fault}')
        drawn = answer.text[answer.text.index('<svg'):]
        # graphviz names a cell only where it is a link
        drawn = re.sub(r'</?a\b[^>]*>', '', drawn).replace('id="a_cell_', 'class="cell" id="cell_')
        return Markup(re.sub(r'<title>.*?</title>\n?', '', drawn))

    def text(self) -> str:
        """The drawing for graphviz, with the names of its parts."""
        return '\n'.join(self.line(line) for line in self.plain.text().split('\n'))

    def line(self, line: str) -> str:
        """A line of the drawing, with names where it is a node's."""
        if not NODE.match(line) or node_of(line) not in self.numbers:
            return line
        name = self.node(line)
        cells = PORT.sub(rf'<TD PORT="\1" HREF="#" ID="cell_{name}_\1"\2>', line)
        return cells.replace(' [', f' [id="{name}", ', 1)

    def lit(self, path: Path) -> list[str]:
        """The parts that a path passes."""
        drawing = Drawing(self.graph, path)
        found = [f'edge{number}' for number, (*_, style) in enumerate(drawing.edges, 1)
                 if style.get('color') == HOT]
        for plain, node in zip(self.nodes, nodes(drawing), strict=True):
            if plain != node:
                name = self.node(node)
                cells = LIT_CELL.findall(node)
                found += [f'cell_{name}_{cell}' for cell in cells] or [name]
        return found


def nodes(drawing: Drawing) -> list[str]:
    """The texts of a drawing's nodes."""
    return [node for several in drawing.nodes.values() for node in several]
