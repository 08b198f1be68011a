"""Tables as lines of text."""
from collections.abc import Sequence


def table(rows: Sequence[Sequence[str]]) -> list[str]:
    """Rows of texts with their columns one below the other."""
    widths = [max(map(len, column)) for column in zip(*rows)]
    return [' '.join(text.ljust(width) for text, width in zip(row, widths)).rstrip()
            for row in rows]
