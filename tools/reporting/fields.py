"""The fields of the instruction word: the slices of it that a netlist takes."""
from drawing.dot import span
from drawing.nets import Graph, Net


def fields_of(graph: Graph) -> list[Net]:
    """The fields of a netlist, from the top bit on."""
    fields = (net for net in graph.made.values() if net.is_field and net.uses)
    return sorted(fields, key=lambda net: (-net.bounds[0], net.bounds[1]))


def field_name(net: Net) -> str:
    """A field by its name, where it has one, and its bits."""
    return f'{net.name} {net.parts[0].storage.name}{span(*net.bounds)}'.lstrip()
