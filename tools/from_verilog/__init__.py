"""Reads a processor in Verilog, through Yosys, and writes it as a netlist text (docs/RTN.md).

What flows, and the module that makes it:

    options     the words of the command as `Options`; their faults
    load        the files by Yosys: `Loaded`, the flat design and the names that were declared
    netlist     `Netlist`: flip-flops, memories with their ports, gates, each with path and place
    ports       a data memory outside, put where its ports are
    phases      a netlist whose instructions take several clocks, as one of one clock
    roles       `Roles`: what is the code, the counter, the memory, the file, the bank, the mode
    diagrams    sets of words and opaque bits as binary decision diagrams
    conditions  a bit of the netlist as such a diagram
    terms       the words of an expression (`Term`), and how they are cut and joined
    widths      how many bits of each gate are asked for
    gates       a gate as a term
    guards      tests of the source that an address is within its memory
    values      bits of the netlist as terms
    choices     by which field of the word a term is decided, and what is left of it then
    names       the source's names as names of the text
    texts       terms as text
    writing     the storages, and the text as a whole
    hints       what the processor lacks for `record compile`
    mapping     `Map`: each storage of the text with its register or array of the Verilog
    reading     all of this in order: `Reading`
    refusals    `Refusal`: why there is no text, as data: rule, place, what to do
    vhdl        VHDL by GHDL's synthesis, where the GHDL at hand gets it right

Beside it:

    proving     the text against the Verilog, by satisfiability: `Proof`
    cutting     a module of either, cut at its storages: `Side`
    miter       both cuts under one word and one state, and what is claimed of them
    bench       the two side by side under Icarus: `Run`
    way_back    a program in the Verilog's own memories, for tools/to-hex
    harness     the designer's module in a bench
    calls       calls of Yosys, Icarus and GHDL
"""
