"""The drawing of a netlist, in which the path of a pattern may be coloured."""
from __future__ import annotations

import html
from collections.abc import Iterator

from drawing.dot import (BLUE, BRIGHT, GREY, HOT, INK, WARM, WHITE, attributes, cell, quoted, small,
                         span, table)
from drawing.formulas import formula_of
from drawing.nets import (BUS, CASE, CONSTANT, PORT, READ, REGISTER, SLICE, WORD, Graph, Kind, Net,
                          Storage)
from drawing.order import Layout
from drawing.paths import Path
from rtn.operators import OPERATORS, WIRING

LONGEST_FORMULA = 44
DECODE = 'decode'
MOST_DECODE_ROWS = 6


class Drawing:
    """Nodes by the part that they are in, and edges. What isn't used by a storage isn't drawn."""

    def __init__(self, graph: Graph, path: Path | None = None):
        self.graph, self.path = graph, path
        self.nodes: dict[str, list[str]] = {'': []}
        self.edges: list[tuple[str, str, dict]] = []
        self.ids: dict[Net | Storage, str] = {}
        self.counts: dict[tuple[str, str], int] = {}
        self.decoded: dict[Net, tuple[str, str] | None] = {}
        self.fields: dict[Storage, dict[tuple[int, int], Net]] = {}
        self.reads: dict[Storage, list[Net]] = {}
        self.find_reads()
        draw = {Kind.REGISTER: self.draw_register, Kind.MEMORY: self.draw_memory,
                Kind.WORD: self.draw_word}
        for storage in graph.storages.values():
            if storage.kind in draw:
                draw[storage.kind](storage)
        self.draw_decode()
        for word in graph.words:
            self.draw_fields(word)

    def find_reads(self) -> None:
        """The addresses at which each memory is read."""
        for net in self.graph.made.values():
            if net.op == READ and net.uses:
                addresses = self.reads.setdefault(net.storage, [])
                if net.parts[0] not in addresses:
                    addresses.append(net.parts[0])

    # the path

    def is_lit(self, what: Net | Storage) -> bool:
        """Whether the path passes a net or a storage."""
        return bool(self.path) and what in self.path.nets

    def is_lit_input(self, sink: Net | Storage, slot: int | str) -> bool:
        return bool(self.path) and (sink, slot) in self.path.inputs

    def fill(self, what: Net | Storage) -> str:
        return WARM if self.is_lit(what) else WHITE

    # nodes and edges

    def put(self, name: str, home: str = '', **given) -> None:
        """A node."""
        self.nodes.setdefault(home, []).append(quoted(name) + attributes(given))

    def line(self, tail: str, head: str, is_control: bool = False, is_lit: bool = False,
             label: str = '', **given) -> None:
        """An edge."""
        style = {}
        if is_lit:
            style = {'color': HOT, 'penwidth': 1.2 if is_control else 2.4}
        elif is_control:
            style = {'color': GREY, 'penwidth': 0.7}
        if is_control:
            style |= {'style': 'dashed', 'arrowsize': 0.5}
        if label:
            style |= {'label': label, 'fontcolor': HOT if is_lit else BLUE}
        self.edges.append((tail, head, style | given))

    def feed(self, net: Net, head: str, sink: Net | Storage, slot: int | str) -> None:
        """Data to an input; a constant is left to the sink, but for storages and names of
        inputs."""
        shows_constants = isinstance(sink, Net) or sink.kind == Kind.BUS
        if net.op == CONSTANT and shows_constants:
            return
        tail, label = self.origin(net)
        self.line(tail, head, is_lit=self.is_lit_input(sink, slot), label=label)

    def origin(self, net: Net) -> tuple[str, str]:
        """The drawn place that a net comes from, and what the wire on the way is called and
        does."""
        labels = []
        while net.op in WIRING and not net.is_field and not (net.names and net.uses > 1):
            does = span(*net.bounds) if net.op == SLICE else f'{net.op} {net.width}'
            labels.append(' '.join([*net.names, does]))
            net = net.parts[0]
        tail = self.place(net)
        if net.names and net.op not in WIRING and net.op != WORD:
            labels.append(net.name)
        return tail, ' '.join(reversed(labels))

    # storages

    def draw_register(self, register: Storage) -> None:
        name = quoted(register.name)
        title = f'<B>{register.name}</B> {small(str(register.width))}'
        row = [cell(title, 'in', bgcolor=self.fill(register), cellpadding=6)]
        if register.when:
            row.append(cell(small(self.enable(register)), 'when', cellpadding=2))
        self.put(register.name, shape='plain', label=table([row]))
        self.feed(register.value, name + ':in:n', register, 'value')

    def enable(self, storage: Storage) -> str:
        """The text of the enable of a register or memory, with its lines."""
        if not storage.when:
            return 'always'
        return 'when ' + self.control(storage.when, quoted(storage.name) + ':when:n', storage)

    def draw_memory(self, memory: Storage) -> None:
        """A column for the write with its value and address, and one for each address of a
        read."""
        name, reads = quoted(memory.name), self.reads.get(memory, [])
        written = [cell(small('write'), 'in'), cell(small('at'), 'at'),
                   cell(small(self.enable(memory)), 'when')]
        top = written + [cell(small('read at'), f'at{k}') for k in range(len(reads))]
        title = cell(f'<B>{memory.name}</B> {small(f"{memory.size} × {memory.width}")}', 'title',
                     colspan=len(top), bgcolor=self.fill(memory))
        bottom = [cell('', colspan=len(written), border=0)]
        bottom += [cell(small('out'), f'out{k}') for k in range(len(reads))]
        rows = [top, [title], *[bottom] * bool(reads)]
        self.put(memory.name, shape='plain', label=table(rows))
        self.feed(memory.value, name + ':in:n', memory, 'value')
        self.feed(memory.at, name + ':at:n', memory, 'at')
        for k, address in enumerate(reads):
            read = self.graph.net(READ, (address,), memory.width, storage=memory)
            self.feed(address, f'{name}:at{k}:n', read, 0)

    def draw_word(self, word: Storage) -> None:
        self.line(quoted(word.at.storage.name), quoted(word.name) + ':word', label='fetch',
                  constraint='false')

    def draw_bus(self, bus: Storage) -> None:
        name, cells = quoted(bus.name), []
        self.ids[bus] = name
        for k, (value, when) in enumerate(bus.drivers):
            text = small(self.control(when, name, bus)) + constant_line(value)
            colour = BRIGHT if self.is_lit_input(bus, k) else WHITE
            cells.append(cell(text, f'd{k}', bgcolor=colour, color=GREY))
            self.feed(value, f'{name}:d{k}:n', bus, k)
        bar = f'<FONT COLOR="white"><B>{bus.name}</B> {small(str(bus.width), WHITE)}</FONT>'
        colour = HOT if self.is_lit(bus) else INK
        bottom = [cell(bar, 'bar', colspan=len(cells), bgcolor=colour)]
        self.put(bus.name, shape='plain', label=table([cells, bottom]))

    # nets

    def place(self, net: Net) -> str:
        """The node and port of a net; it is drawn where it isn't yet."""
        if net.op == REGISTER:
            return quoted(net.storage.name)
        if net.op == WORD:
            return quoted(net.storage.name) + ':word'
        if net.is_field:
            return self.field(net)
        if net.op == READ:
            column = self.reads[net.storage].index(net.parts[0])
            return f'{quoted(net.storage.name)}:out{column}:s'
        if net.op == BUS:
            if net.storage not in self.ids:
                self.draw_bus(net.storage)
            return self.ids[net.storage] + ':bar:s'
        if net not in self.ids:
            self.draw_net(net)
        return self.ids[net]

    def draw_net(self, net: Net) -> None:
        key = net.home, net.op
        self.counts[key] = self.counts.get(key, 0) + 1
        own = net.port if net.op == PORT else f'{net.op}{self.counts[key]}'
        name = f'{net.home}.{own}' if net.home else own
        self.ids[net] = quoted(name)
        draw = {CASE: self.draw_case, PORT: self.draw_port, CONSTANT: self.draw_constant}
        draw.get(net.op, self.draw_operator)(net, name)

    def field(self, net: Net) -> str:
        """The place of a field in the table of the word."""
        word, (high, low) = net.parts[0].storage, net.bounds
        self.fields.setdefault(word, {})[net.bounds] = net
        return f'{quoted(word.name)}:b{high}_{low}:s'

    def draw_constant(self, net: Net, name: str) -> None:
        self.put(name, shape='plaintext', label=str(net.number), width=0, height=0, margin=0.03)

    def draw_port(self, net: Net, name: str) -> None:
        of = net.parts[0]
        text = f'{net.port} = {of.number}' if of.op == CONSTANT else net.port
        colour = HOT if self.is_lit(net) else GREY
        self.put(name, net.home, shape='plaintext', label=text, fontcolor=colour, width=0, height=0,
                 margin=0.03)
        self.feed(of, self.ids[net], net, 0)

    def draw_operator(self, net: Net, name: str) -> None:
        shape = 'plaintext' if net.op in WIRING else 'ellipse'
        self.put(name, net.home, shape=shape, label=sign_of(net), style='filled',
                 fillcolor=self.fill(net), width=0.38, height=0.32, margin='0.04,0.02')
        is_symmetric = net.op in OPERATORS and OPERATORS[net.op].is_symmetric
        has_constant = any(part.op == CONSTANT for part in net.parts)
        is_sided = len(net.parts) == 2 and not is_symmetric and not has_constant
        for k, part in enumerate(net.parts):
            side = (':nw', ':ne')[k] if is_sided else ''
            self.feed(part, self.ids[net] + side, net, k)

    def draw_case(self, net: Net, name: str) -> None:
        head, cells = self.ids[net], []
        for k, (numbers, part) in enumerate(zip(net.rows, net.parts[1:]), 1):
            text = small(', '.join(map(str, numbers)) or 'else') + constant_line(part)
            colour = BRIGHT if self.is_lit_input(net, k) else None
            cells.append(cell(text, f'r{k}', bgcolor=colour))
            self.feed(part, f'{head}:r{k}:n', net, k)
        text, rows = self.control(net.parts[0], head, net), [cells]
        if text:
            rows.append([cell(small(text), colspan=len(cells), border=0)])
        self.put(name, net.home, shape='polygon', sides=4, distortion=0.18,
                 label=table(rows, cellpadding=2, color=GREY), style='filled',
                 fillcolor=self.fill(net), width=0, height=0, margin='0,0')

    # control

    def control(self, net: Net, head: str, sink: Net | Storage) -> str:
        """The formula of a selector or enable, empty where it isn't the word's alone, with dashed
        lines to the head."""
        decides = self.is_lit(sink) and (net in self.path.deciding or self.is_lit_input(sink, 0))
        if not net.is_static:
            tail, label = self.origin(net)
            self.line(tail, head, is_control=True, is_lit=decides, label=label)
            return ''
        sources: dict[str, bool] = {}
        text = formula_of(self, net, sources)
        for tail in sources:
            if not any((tail, head) == edge[:2] for edge in self.edges):
                self.line(tail, head, is_control=True, is_lit=decides)
        return text if len(text) <= LONGEST_FORMULA else text[:LONGEST_FORMULA] + '..'

    def decode(self, net: Net, sources: dict[str, bool]) -> str:
        """The name of a control net, which has its formula in the table `decode`."""
        name = f'{net.home}.{net.names[0]}' if net.home else net.names[0]
        if net not in self.decoded:
            self.decoded[net] = None
            self.decoded[net] = name, formula_of(self, net, {}, is_top=True)
        sources[quoted(DECODE)] = True
        return name

    def draw_decode(self) -> None:
        if not self.decoded:
            return
        deciding = self.path.deciding if self.path else []
        height = min(len(self.decoded), MOST_DECODE_ROWS)
        columns = -(-len(self.decoded) // height)
        rows = [[cell('<B>decode</B>', colspan=2 * columns)], *([] for _ in range(height))]
        for k, (net, told) in enumerate(self.decoded.items()):
            colour = WARM if net in deciding else WHITE
            rows[1 + k % height] += [cell(small(text), f'{port}{k}', bgcolor=colour, align='left')
                                     for port, text in zip(('name', 'formula'), told)]
        self.put(DECODE, shape='plain', label=table(rows, cellpadding=2, color=GREY))
        self.line(quoted(self.graph.words[0].name), quoted(DECODE), is_control=True)

    # the instruction word

    def draw_fields(self, word: Storage) -> None:
        """The word as a table: a column for each stretch of bits, and as many rows as slices lie
        over one another."""
        found = self.fields.get(word, {})
        bounds = {bit for high, low in found for bit in (high + 1, low)} | {0, word.width}
        edges = sorted(bounds, reverse=True)
        title = f'<B>{word.name}</B> {small(f"{word.size} × {word.width}")}'
        lines = [[cell(title, 'word', colspan=len(edges) - 1)]]
        for row in rows_of(found):
            lines.append(self.field_row(row, found, edges))
        self.put(word.name, shape='plain', label=table(lines, color=GREY))

    def field_row(self, row: list[tuple[int, int]], found: dict[tuple[int, int], Net],
                  edges: list[int]) -> list[str]:
        """The cells of a row of fields, with empty ones between them."""
        cells, above = [], edges[0]
        for high, low in [*row, (-1, 0)]:
            if above > high + 1:
                columns = edges.index(high + 1) - edges.index(above)
                cells.append(cell('', colspan=columns, border=0))
            if high >= 0:
                columns = edges.index(low) - edges.index(high + 1)
                cells.append(self.field_cell(found[high, low], columns))
            above = low
        return cells

    def field_cell(self, net: Net, columns: int) -> str:
        (high, low), values = net.bounds, self.path.fields() if self.path else {}
        text = html.escape(net.name) + '<BR/>' if net.names else ''
        where = small(str(high) if high == low else f'{high}:{low}', GREY)
        colour = WARM if self.is_lit(net) or net in values else WHITE
        value = f'<BR/>{small("= " + str(values[net]), HOT)}' if net in values else ''
        return cell(text + where + value, f'b{high}_{low}', colspan=columns, bgcolor=colour,
                    width=8 * net.width)

    # the text

    def text(self, title: str | None = None) -> str:
        """The drawing in the language of graphviz."""
        layout = Layout(self)
        edges = [f'{tail} -> {head}{attributes(style)}' for tail, head, style in layout.turned()]
        lines = ['digraph netlist {', *(kind + attributes(given) for kind, given in styles(title))]
        for home, nodes in self.nodes.items():
            lines += self.frame(home, nodes) if home else nodes
        top = [quoted(word.name) for word in self.graph.words]
        top += [quoted(DECODE)] if self.decoded else []
        return '\n'.join([*lines, f'{{ rank=source {" ".join(top)} }}', *edges, '}', ''])

    def frame(self, home: str, nodes: list[str]) -> Iterator[str]:
        """A part, with its inputs in one row."""
        ports = [own for net, own in self.ids.items()
                 if isinstance(net, Net) and net.op == PORT and net.home == home]
        style = {'label': f'{home} : {self.graph.part(home).module}', 'style': 'rounded',
                 'color': GREY, 'fontsize': 10, 'fontcolor': GREY}
        yield from [f'subgraph {quoted("cluster_" + home)} {{', 'graph' + attributes(style)]
        yield from [*nodes, f'{{ rank=same {" ".join(ports)} }}', '}']


def constant_line(net: Net) -> str:
    """The value of a constant below another text."""
    return f'<BR/>{small("= " + str(net.number))}' if net.op == CONSTANT else ''


def sign_of(net: Net) -> str:
    """What stands in the node of an operator; a constant operand stands there, too."""
    if net.op in WIRING:
        does = span(*net.bounds) if net.op == SLICE else f'{net.op} {net.width}'
        return f'{net.name} {does}'
    if net.op == 'cat':
        parts = (f'{part.number}#{part.width}' if part.op == CONSTANT else '·'
                 for part in net.parts)
        return '{' + ', '.join(parts) + '}'
    drawn = OPERATORS[net.op].drawn
    if len(net.parts) != 2:
        return drawn
    constants = [str(part.number) if part.op == CONSTANT else '' for part in net.parts]
    if OPERATORS[net.op].is_symmetric and constants[0] and not constants[1]:
        constants.reverse()
    return ' '.join(filter(None, [constants[0], drawn, constants[1]]))


def rows_of(found: dict[tuple[int, int], Net]) -> list[list[tuple[int, int]]]:
    """The bounds of fields in rows in which none lies over another."""
    rows: list[list[tuple[int, int]]] = []
    for high, low in sorted(found, key=lambda bounds: (-bounds[0], bounds[1])):
        row = next((row for row in rows if row[-1][1] > high), None)
        if row is None:
            rows.append(row := [])
        row.append((high, low))
    return rows


def styles(title: str | None) -> Iterator[tuple[str, dict]]:
    """How the graph, its nodes and its edges look."""
    font = {'fontname': 'Helvetica'}
    yield 'graph', {'rankdir': 'TB', 'newrank': 'true', 'nodesep': 0.18, 'ranksep': 0.35, **font,
                    'labelloc': 't', 'label': title}
    yield 'node', {**font, 'fontsize': 11, 'color': INK, 'fontcolor': INK}
    yield 'edge', {**font, 'fontsize': 9, 'color': INK, 'fontcolor': BLUE, 'arrowsize': 0.6,
                   'penwidth': 1.1}
