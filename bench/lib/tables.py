"""Tables of results, in Markdown."""

# The figures that were over their limits.
OVER = []


def line(cells):
    return f"| {' | '.join(map(str, cells))} |"


def head(*names):
    yield line(names)
    yield f"|{'---|' * len(names)}"


def compared_head(what="What"):
    """The head of a table of `compared` lines."""
    return head(what, "Ours", "Rival", "Ratio", "Limit")


def compared(what, ours, rival=None, limit=None, times=None, digits=0):
    """A line: a figure of ours, the rival's, their ratio, and the most that is allowed: a figure, or a ratio."""
    most = limit if times is None else times * rival
    if most is not None and round(ours, digits) > most:
        OVER.append(what)
    ratio = f"{ours / rival:.2f}" if rival else ""
    allowed = f"{times} times" if times else "" if limit is None else f"{limit:,}"
    shown = ["" if count is None else f"{count:,.{digits}f}" for count in (ours, rival)]
    return line([what, *shown, ratio, allowed])
