"""Drawings of netlists for graphviz, as tools/picture.py prints them: the nets of a netlist, the
path of a pattern through them, and the text of the drawing.
"""
