"""The brackets of a whole text, parsed afresh."""
import re
from bisect import bisect_left, bisect_right
from collections.abc import Iterator
from dataclasses import dataclass, field

from hiding import Hiding, tokens_in_view
from texts import Text

MOST_OPEN = 300
Pairs = tuple[tuple[str, str], ...]
STANDARD: Pairs = (("(", ")"), ("[", "]"), ("{", "}"))


class Table:
    """Which texts are brackets, and the pattern that finds the longest one at a place."""

    def __init__(self, pairs: Pairs) -> None:
        self.kinds = {text: (kind, side == 0) for kind, pair in enumerate(pairs) for side, text in enumerate(pair)}
        longest_first = sorted(self.kinds, key=len, reverse=True)
        self.token = re.compile("|".join(map(re.escape, longest_first)))


@dataclass(slots=True)
class Entry:
    """A bracket of the text. It is unclosed until its partner is found."""

    at: int
    units: int
    kind: int
    status: str
    level: int
    partner: "Entry | None" = None


@dataclass(slots=True)
class Parse:
    """What is open as the text is read from its front."""

    entries: list[Entry] = field(default_factory=list)
    opened: list[Entry] = field(default_factory=list)
    token_starts: list[int] = field(default_factory=list)
    levels: list[int] = field(default_factory=list)  # how many are open behind each token

    def take(self, at: int, units: int, kind: int, is_opening: bool) -> None:
        """Goes on behind one token."""
        if is_opening:
            self.take_opening(at, units, kind)
        else:
            self.take_closing(at, units, kind)
        self.token_starts.append(at)
        self.levels.append(len(self.opened))

    def take_opening(self, at: int, units: int, kind: int) -> None:
        if len(self.opened) < MOST_OPEN:
            entry = Entry(at, units, kind, "u", len(self.opened))
            self.entries.append(entry)
            self.opened.append(entry)

    def take_closing(self, at: int, units: int, kind: int) -> None:
        if all(entry.kind != kind for entry in self.opened):
            self.entries.append(Entry(at, units, kind, "x", len(self.opened)))
            return
        while (partner := self.opened.pop()).kind != kind:
            pass
        entry = Entry(at, units, kind, "c", len(self.opened), partner)
        partner.status, partner.partner = "o", entry
        self.entries.append(entry)

    def between(self, start: int, end: int) -> list[Entry]:
        """The brackets that start at these places, the last one counted."""
        first = bisect_left(self.entries, start, key=lambda entry: entry.at)
        last = bisect_right(self.entries, end, key=lambda entry: entry.at)
        return self.entries[first:last]

    def level_at(self, place: int) -> int:
        """How many are open after all tokens that start before the place."""
        before = bisect_left(self.token_starts, place)
        return self.levels[before - 1] if before else 0


def parse(text: Text, table: Table, hiding: Hiding | None) -> Parse:
    """Reads the text."""
    done = Parse()
    for at, token in tokens_in_view(text, table.token, hiding) if hiding else tokens_of(text, table):
        done.take(at, len(token), *table.kinds[token])
    return done


def tokens_of(text: Text, table: Table) -> Iterator[tuple[int, str]]:
    """All brackets, and where they start. None has a break in it, so none goes over a line's end."""
    return ((found.start(), found[0]) for found in table.token.finditer(text.units))
