"""Makes a script shorter that shows a difference."""
from collections.abc import Callable

Lines = list[bytes]


def shrunk(lines: Lines, differs: Callable[[Lines], bool]) -> Lines:
    """The lines without runs of them that the difference does not need: long runs first, single lines last."""
    size = len(lines) // 2
    while size:
        lines = without_runs(lines, size, differs)
        size //= 2
    return lines


def without_runs(lines: Lines, size: int, differs: Callable[[Lines], bool]) -> Lines:
    at = 0
    while at < len(lines):
        fewer = lines[:at] + lines[at + size :]
        if differs(fewer):
            lines = fewer
        else:
            at += size
    return lines
