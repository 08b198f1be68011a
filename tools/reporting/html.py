"""HTML as text: elements whose contents are escaped unless they are elements themselves."""
from __future__ import annotations

import html

VOID = ('meta', 'br', 'col')


class Markup(str):
    """A text that is HTML already."""


def markup(content: str) -> Markup:
    """A content as HTML."""
    return content if isinstance(content, Markup) else Markup(html.escape(content))


def joined(*contents: str) -> Markup:
    return Markup(''.join(map(markup, contents)))


def element(name: str, *contents: str, **attributes: str | int | None) -> Markup:
    """An element. `klass` is the attribute `class`, a low line in a name is a hyphen, and
    attributes that are None are left out."""
    given = ''.join(f' {key.replace("klass", "class").replace("_", "-")}='
                    f'"{html.escape(str(value))}"'
                    for key, value in attributes.items() if value is not None)
    if name in VOID:
        return Markup(f'<{name}{given}>')
    return Markup(f'<{name}{given}>{joined(*contents)}</{name}>')
