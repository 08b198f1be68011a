"""Random states of netlists."""
import random

from rtn.clock import Netlist, State


def random_state(pick: random.Random, netlist: Netlist) -> State:
    """A state whose program counter is 0; some of its registers are 0, and many cells small."""
    state = netlist.zeros()
    for name, register in netlist.registers.items():
        if name != netlist.code.counter and pick.random() < 0.7:
            state[name] = pick.randrange(1 << register.width)
    for name, memory in netlist.memories.items():
        state[name] = [pick.choice([0, 1, 2, 3, pick.randrange(1 << memory.width)])
                       for _ in range(memory.size)]
    return state
