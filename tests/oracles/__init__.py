"""Plain programs that work out by docs/formats and docs/MODEL.md, on small inputs and without the library, what the
programs have to answer: the tests compare with them. Whoever imports them has tests/ on the path.
"""
