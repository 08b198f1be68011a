"""Where code ends: at its end mark, or without one at its first jump to itself."""
from __future__ import annotations

from rtn.clock import Netlist
from rtn.images import Image
from rtn.settling import settled_values


def end_of(netlist: Netlist, image: Image) -> int | None:
    """The address of the end mark or, where there is none, of the first word that goes to itself
    from every state; None where no word does."""
    if image.end is not None:
        return image.end
    return next((at for at, word in enumerate(image.words)
                 if goes_to_itself(netlist, word.number, at)), None)


def goes_to_itself(netlist: Netlist, word: int, address: int) -> bool:
    """Whether a word leaves the program counter at this address, whatever else the state is. The
    counter has no enable by the rules."""
    edge = netlist.edges[netlist.code.counter]
    values = settled_values(netlist, word, {netlist.code.counter: address})
    return values[edge.value] == address
