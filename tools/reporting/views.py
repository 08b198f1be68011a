"""Transfers of a netlist with a bank, from the view of one memory back to both
(docs/RTN.md#a-second-data-memory).
"""
from __future__ import annotations

import dataclasses

from rtn.names import Store
from rtn.patterns import Pattern
from rtn.syntax import Constant, Expression, Extension, Operation, Read


@dataclasses.dataclass(frozen=True)
class Transfer:
    """A transfer as trees: its storage, where that is written if it has cells, and its value."""

    storage: str
    address: Expression | None
    value: Expression


def transfer_of(pattern: Pattern, store: Store) -> Transfer:
    """The transfer of a pattern between the storages of the netlist itself."""
    storage, address, value = pattern.storage, pattern.address, pattern.value
    if store.bank is None:
        return Transfer(storage, address, value)
    if storage == store.memory and address is not None:
        storage, address = place_of(address, store)
    return Transfer(storage, address and outside(address, store), outside(value, store))


def place_of(address: Expression, store: Store) -> tuple[str, Expression]:
    """The memory with a cell of the view, and its address there."""
    match address:
        case Operation('add', (Extension(inner, _, False), Constant(store.span, _))):
            return store.bank, inner
        case Extension(inner, _, False):
            return store.memory, inner
    return store.memory, address


def outside(of: Expression, store: Store) -> Expression:
    """An expression over the view as one over both memories."""
    if isinstance(of, tuple):
        return tuple(outside(part, store) for part in of)
    if not dataclasses.is_dataclass(of):
        return of
    if isinstance(of, Read) and of.memory == store.memory:
        memory, address = place_of(of.address, store)
        return Read(memory, outside(address, store))
    parts = {field.name: outside(getattr(of, field.name), store)
             for field in dataclasses.fields(of)}
    return dataclasses.replace(of, **parts)
