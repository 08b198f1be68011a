"""A data memory outside the processor, put where its ports are."""
from __future__ import annotations

from .mapping import Ports
from .netlist import Memory, Netlist, ReadPort, WritePort
from .refusals import Refused, Rule

LEADING = ('read_address', 'read_data', 'write_address', 'write_data', 'write_enable')


def connected(netlist: Netlist, ports: Ports) -> Netlist:
    """A netlist with an array in place of the ports that lead to a memory outside."""
    bits = {}
    for role in LEADING:
        name = getattr(ports, role)
        port = netlist.ports.get(name)
        inward = role == 'read_data'
        if port is None or port.inward != inward:
            raise Refused(Rule.OPTION, f'--ports: no {"input" if inward else "output"} is called '
                          f'{name}')
        bits[role] = port.bits
    if ports.name in netlist.memories:
        raise Refused(Rule.OPTION, f'--ports: there is a memory {ports.name} already')
    width = len(bits['read_data'])
    if len(bits['write_data']) != width:
        raise Refused(Rule.OPTION, f'--ports: {ports.read_data} has {width} bits, and '
                      f'{ports.write_data} {len(bits["write_data"])}')
    enable = bits['write_enable']
    if width % len(enable):
        raise Refused(Rule.OPTION, f'--ports: {ports.write_enable} has {len(enable)} bits, which '
                      f'do not divide the {width} of {ports.write_data}')
    clocks = {(register.clock, register.rising) for register in netlist.flip_flops}
    clock, rising = next(iter(clocks), ('0', True))
    place = netlist.names[ports.read_data].place
    read = ReadPort(bits['read_address'], bits['read_data'], False, place)
    write = WritePort(bits['write_address'], bits['write_data'],
                      tuple(enable[k * len(enable) // width] for k in range(width)), clock,
                      rising, True, frozenset(), place)
    reach = max(len(bits['read_address']), len(bits['write_address']))
    memory = Memory(ports.name, place, width, 1 << reach, 0, [read], [write])
    left = {name: port for name, port in netlist.ports.items()
            if name not in {getattr(ports, role) for role in LEADING}}
    return Netlist(netlist.top, left, netlist.names, netlist.gates, netlist.flip_flops,
                   {**netlist.memories, ports.name: memory})
