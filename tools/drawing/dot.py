"""The language of graphviz: nodes, labels and tables as texts."""
from __future__ import annotations

import html
import re
from collections.abc import Sequence

INK, GREY, BLUE, WHITE = '#222222', '#8a8a8a', '#1864ab', 'white'
HOT, BRIGHT, WARM = '#d9480f', '#ffa94d', '#ffe3cf'


class Table(str):
    """A label that graphviz reads as HTML."""


def quoted(text: str) -> str:
    return '"' + text.replace('\\', '\\\\').replace('"', '\\"') + '"'


def attributes(given: dict) -> str:
    """The attributes of a node or an edge; those that are None are left out."""
    texts = [f'{key}={value if isinstance(value, Table) else quoted(str(value))}'
             for key, value in given.items() if value is not None]
    return f' [{", ".join(texts)}]' if texts else ''


def cell(text: str, port: str | None = None, **given) -> str:
    """A cell of a table."""
    more = ''.join(f' {key.upper()}="{value}"' for key, value in given.items() if value is not None)
    place = f' PORT={quoted(port)}' if port else ''
    return f'<TD{place}{more}>{text}</TD>'


def table(rows: Sequence[Sequence[str]], **given) -> Table:
    """A label of rows of cells."""
    usual = {'border': 0, 'cellborder': 1, 'cellspacing': 0, 'cellpadding': 4, 'color': INK}
    more = ''.join(f' {key.upper()}="{value}"' for key, value in {**usual, **given}.items())
    body = ''.join(f'<TR>{"".join(row)}</TR>' for row in rows)
    return Table(f'<<TABLE{more}>{body}</TABLE>>')


def node_of(place: str) -> str:
    """The node of a place, which may have a port."""
    return re.match('"[^"]*"', place)[0]


def small(text: str, colour: str = INK) -> str:
    return f'<FONT POINT-SIZE="9" COLOR="{colour}">{html.escape(text)}</FONT>'


def span(high: int, low: int) -> str:
    """The bits of a slice as they are written behind a name."""
    return f'[{high}]' if high == low else f'[{high}:{low}]'
