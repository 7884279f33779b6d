"""The tables that were measured last: a file for each in results/, which `bench/run --keep` writes and `docs/make` reads.

A file begins with a line `date:` and lines `about:`. A blank line follows, and then what `bench/run` printed.
"""
import contextlib
import datetime
import io
import sys
from collections.abc import Iterator
from pathlib import Path
from typing import NamedTuple

RESULTS = Path(__file__).resolve().parent / "results"


class Table(NamedTuple):
    """A table: when it was measured, on what, and its rows by the names of their columns."""

    date: str
    about: list[str]
    rows: list[dict[str, str]]


def cells(line: str) -> list[str]:
    """What stands between the bars of a table's line."""
    return [cell.strip() for cell in line.strip().strip("|").split("|")]


def number(cell: str) -> float | None:
    """A number with commas, if the cell has one above 0."""
    digits = cell.replace(",", "")
    return float(digits) if digits.isdigit() and int(digits) > 0 else None


def table(name: str) -> Table:
    """The first table of a file."""
    head, _, printed = (RESULTS / f"{name}.txt").read_text().partition("\n\n")
    said = [line.partition(": ") for line in head.split("\n")]
    (date,) = [words for key, _, words in said if key == "date"]
    titles, _, *lines = printed.split("\n\n")[0].strip().split("\n")
    rows = [dict(zip(cells(titles), cells(line))) for line in lines]
    return Table(date, [words for key, _, words in said if key == "about"], rows)


class Both(io.StringIO):
    """What is written here is printed too."""

    def write(self, words: str) -> int:
        sys.__stdout__.write(words)
        sys.__stdout__.flush()
        return super().write(words)


@contextlib.contextmanager
def keeping(name: str, about: str) -> Iterator[None]:
    """Keeps what is printed meanwhile as the table of this name, unless an error ends it."""
    with contextlib.redirect_stdout(Both()) as printed:
        yield
    head = f"date: {datetime.date.today()}\nabout: {about}\n\n"
    (RESULTS / f"{name}.txt").write_text(head + printed.getvalue())
