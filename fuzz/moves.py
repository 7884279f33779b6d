"""Ops of an edit: how they change a text, how they are undone, and how a decoration follows them; and how it follows a
change of the kind of line ending."""
from bisect import bisect_right
from collections.abc import Iterable
from enum import Enum, auto
from typing import NamedTuple

from texts import Text

GROWS_AT_START = (0, 2)  # modes in which a start stays where text is put in at it
STAYS_AT_END = (1, 2)  # modes in which an end does


class Op(NamedTuple):
    """A text in the place of the units from `start` to `end`."""

    start: int
    end: int
    text: str
    force: bool = False

    @property
    def growth(self) -> int:
        return len(self.text) - (self.end - self.start)


class Decoration(NamedTuple):
    """A part of the text that is followed."""

    id: int
    owner: int
    start: int
    end: int
    stick: int
    collapse: bool

    def at(self, start: int, end: int) -> "Decoration":
        """The same decoration at another place."""
        if start == self.start and end == self.end:
            return self
        return Decoration(self.id, self.owner, start, end, self.stick, self.collapse)


class Edge(Enum):
    """What a mark does that stands at an op's edge."""

    STAY = auto()
    MOVE = auto()
    OWN = auto()


def applied(units: str, ops: Iterable[Op]) -> str:
    """The text after sorted ops: kept parts and new texts in turn."""
    parts, done = [], 0
    for op in ops:
        parts += [units[done : op.start], op.text]
        done = op.end
    return "".join([*parts, units[done:]])


def inverse(units: str, ops: Iterable[Op]) -> list[Op]:
    """The ops that bring the text back, over the text after these."""
    back, growth = [], 0
    for op in ops:
        start = op.start + growth
        back.append(Op(start, start + len(op.text), units[op.start : op.end]))
        growth += op.growth
    return back


def unforced(ops: Iterable[Op]) -> list[Op]:
    return [op._replace(force=False) if op.force else op for op in ops]


def passes(mark: int, place: int, edge: Edge, sticks: bool) -> bool:
    """Whether a mark stands before a place, or at it and stays."""
    return mark < place or (mark == place and (edge is Edge.STAY or (edge is Edge.OWN and sticks)))


def moved_mark(mark: int, sticks: bool, op: Op) -> int:
    removed, added = op.end - op.start, len(op.text)
    own = Edge.MOVE if op.force else Edge.OWN
    if passes(mark, op.start, Edge.STAY if removed and not op.force else own, sticks):
        return mark
    kept = min(removed, added)
    if kept and not op.force and passes(mark, op.start + kept, Edge.STAY if removed > added else Edge.OWN, sticks):
        return mark
    if passes(mark, op.end, own, sticks):
        return op.start + added
    return mark + added - removed


def moved(decoration: Decoration, op: Op) -> Decoration:
    """The decoration after one op."""
    if decoration.collapse and op.start <= decoration.start and decoration.end <= op.end:
        return decoration.at(op.start, op.start)
    start = moved_mark(decoration.start, decoration.stick in GROWS_AT_START, op)
    end = moved_mark(decoration.end, decoration.stick in STAYS_AT_END, op)
    return decoration.at(start, max(start, end))


def carried(decorations: dict[int, Decoration], ops: list[Op]) -> dict[int, Decoration]:
    """All decorations after sorted ops, which they take from the last to the first."""
    for op in reversed(ops):
        decorations = {id: moved(decoration, op) for id, decoration in decorations.items()}
    return decorations


def recast_mark(mark: int, old: Text, new: Text) -> int:
    """Where a mark stands when lines end otherwise: it keeps line and column, and leaves an ending to its line's content."""
    line = bisect_right(old.starts, mark) - 1
    column = min(mark, old.ends[line]) - old.starts[line]
    return new.starts[line] + column


def recast(decorations: dict[int, Decoration], old: Text, new: Text) -> dict[int, Decoration]:
    """All decorations after a change of the text into one of the same lines with other endings."""
    moves = {mark: recast_mark(mark, old, new) for it in decorations.values() for mark in (it.start, it.end)}
    return {id: it.at(moves[it.start], moves[it.end]) for id, it in decorations.items()}
