"""Netlists (docs/RTN.md) for the tools beside it, written apart from the program that these try:
operators, reading, an independent clock, random netlists, Verilog, patterns, and calls of the
program.
"""
