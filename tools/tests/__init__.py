"""The tests of the tools.

    python3 -m unittest discover tools

runs them all. Those that need a program which isn't there are skipped, with the reason: Icarus
Verilog (`iverilog`), Yosys (`yosys`), and `record`, which the variable RECORD_BINARY names, as in
`RECORD_BINARY=crates/record_cli/out/record_cli` behind `rt ci`. No test builds it.
"""
