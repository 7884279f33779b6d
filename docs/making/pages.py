"""The made parts of pages: what stands between `made: NAME` and `end of NAME`, each in a comment of the page's language."""
import difflib
import importlib.machinery
import importlib.util
import sys
from pathlib import Path
from typing import NamedTuple

ROOT = Path(__file__).resolve().parent.parent.parent
sys.path.append(str(ROOT / "docs"))
sys.path.append(str(ROOT / "tools"))
sys.path.append(str(ROOT / "bench"))

# What a comment begins and ends with, by the ending of the file's name.
COMMENTS = {".md": ("<!-- ", " -->"), ".py": ("# ", ""), ".1": ('.\\" ', "")}
SHOWN = 12  # lines of a difference


class Part(NamedTuple):
    """A made part: the page, the name between its marks, and its lines. A part without a name is the whole page."""

    page: str
    name: str
    lines: list[str]


class Fault(Exception):
    """What is wrong with a page, in words."""


def marks(page, name):
    """The lines that a made part stands between."""
    begin, end = COMMENTS[Path(page).suffix]
    return f"{begin}made: {name}{end}", f"{begin}end of {name}{end}"


def place_of(page, lines, name):
    """The numbers of the two lines that the part stands between."""
    found = []
    for mark in marks(page, name):
        if lines.count(mark) != 1:
            raise Fault(f"{page}: the line `{mark}` stands {lines.count(mark)} times, and once is wanted")
        found.append(lines.index(mark))
    return found


def with_part(text, part):
    """The text of the page with the part of now."""
    if not part.name:
        return "\n".join(part.lines) + "\n"
    lines = text.split("\n")
    start, end = place_of(part.page, lines, part.name)
    blank = [""] if part.page.endswith(".md") else []
    return "\n".join([*lines[: start + 1], *blank, *part.lines, *blank, *lines[end:]])


def made_pages(parts):
    """Each page that has made parts: its text of now, and what it is to be."""
    found = {}
    for part in parts:
        before, after = found.get(part.page) or [(ROOT / part.page).read_text()] * 2
        found[part.page] = before, with_part(after, part)
    return found


def difference(page, before, after):
    """How the page differs from what it is to be, in words."""
    told = [*difflib.unified_diff(before.split("\n"), after.split("\n"), page, f"{page}, made", n=0, lineterm="")]
    return "\n".join([*told[:SHOWN], *(["and more"] if len(told) > SHOWN else [])])


def script(path):
    """A script of the repository as a module, of which only functions are called."""
    loader = importlib.machinery.SourceFileLoader(Path(path).name, str(ROOT / path))
    module = importlib.util.module_from_spec(importlib.util.spec_from_loader(loader.name, loader))
    loader.exec_module(module)
    return module
