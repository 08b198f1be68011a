"""Guesses at which words of hand code the tests of its program are, and where its variables are
there, as tools/views.py prints it.
"""
