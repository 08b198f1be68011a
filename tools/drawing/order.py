"""The order of storages in a drawing, in which few lines lead upwards."""
from __future__ import annotations

from collections.abc import Iterator
from typing import TYPE_CHECKING

from drawing.dot import GREY, HOT, WARM, node_of, quoted
from drawing.nets import Kind

if TYPE_CHECKING:
    from drawing.picture import Drawing

MOST_UPWARDS = 10
PALE = '#f1f3f5'


class Layout:
    """Which storages the nodes of a drawing lead to, and the lines as the layout needs them."""

    def __init__(self, drawing: Drawing):
        self.drawing, self.edges = drawing, drawing.edges
        self.storages = {quoted(name) for name, storage in drawing.graph.storages.items()
                         if storage.kind in (Kind.REGISTER, Kind.MEMORY)}
        self.after: dict[str, set[str]] = {}
        for tail, head, _ in self.edges:
            self.after.setdefault(node_of(tail), set()).add(node_of(head))
        self.reached: dict[str, set[str]] = {}
        for node in sorted(self.after):
            self.reach(node)
        self.places = {storage: place for place, storage in enumerate(self.order())}
        self.tags: dict[tuple[str, str], str] = {}

    def reach(self, node: str) -> set[str]:
        """The storages that a node leads to without a storage between."""
        if node not in self.reached:
            self.reached[node] = {node} if node in self.storages else set()
            if node not in self.storages:
                for head in sorted(self.after.get(node, ())):
                    self.reached[node] |= self.reach(head)
        return self.reached[node]

    def order(self) -> list[str]:
        """The storages, those first that lead to more than they are led to, and memories before
        all."""
        leads = {storage: set().union(*map(self.reach, self.after.get(storage, ())))
                 for storage in self.storages}
        memories = {quoted(storage.name) for storage in self.drawing.reads}
        left, order = sorted(leads), []

        def gain(storage: str) -> tuple[bool, int]:
            led = sum(other in leads[storage] for other in left)
            return storage in memories, led - sum(storage in leads[other] for other in left)

        while left:
            order.append(max(left, key=gain))
            left.remove(order[-1])
        return order

    def leads_up(self, tail: str, head: str) -> bool:
        """Whether a line leads to a storage that doesn't stand below the one that it comes
        from."""
        own = self.places.get(node_of(tail))
        reached = self.reached.get(node_of(head), ())
        return own is not None and any(self.places[storage] <= own for storage in reached)

    def turned(self) -> Iterator[tuple[str, str, dict]]:
        """The lines, of which those that lead upwards are turned round, so that the layout keeps
        the order. Where there are many, each begins at a tag with the storage's name instead."""
        upwards = sum(self.leads_up(tail, head) for tail, head, _ in self.edges)
        for tail, head, style in self.edges:
            if not self.leads_up(tail, head):
                yield tail, head, style
            elif upwards <= MOST_UPWARDS:
                yield head, tail, {'dir': 'back', **style}
            else:
                yield self.tag(tail, head, style.get('color') == HOT), head, style

    def tag(self, tail: str, head: str, is_lit: bool) -> str:
        storage = node_of(tail).strip('"')
        key = storage, node_of(head)
        if key not in self.tags:
            self.tags[key] = f'{storage} tag {len(self.tags) + 1}'
            self.drawing.put(self.tags[key], shape='box', style='rounded,filled', label=storage,
                             fontsize=9, color=GREY, fillcolor=WARM if is_lit else PALE, width=0.3,
                             height=0.2, margin='0.06,0.02')
        return quoted(self.tags[key])
