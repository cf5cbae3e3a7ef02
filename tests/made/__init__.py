"""Inputs of the tests: made at random, by a seed, from a format alone, or read from examples/. Whoever imports them has
tests/ on the path.
"""
