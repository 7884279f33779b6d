"""Which brackets comments and strings hide: a line is read unit by unit, from the state in which the one before ended."""
from collections.abc import Iterator
from re import Match, Pattern
from typing import NamedTuple

from texts import Text

BACKSLASH = "\\"
Pair = tuple[str, str]


class Hiding(NamedTuple):
    """The marks of a document."""

    line: str | None = None
    block: Pair | None = None
    quotes: str = ""


class Line:
    """A line that is read from its front. A block comment may go on from one line to the next, and a string may not."""

    def __init__(self, units: str, is_block: bool, hiding: Hiding) -> None:
        self.units = units
        self.at = 0
        self.is_block = is_block
        self.hiding = hiding

    def stands(self, text: str | None) -> bool:
        return text is not None and self.units.startswith(text, self.at)

    def passes(self, text: str | None) -> bool:
        """Goes on behind the text, if it stands here."""
        if not self.stands(text):
            return False
        self.at += len(text)
        return True

    def tokens(self, token: Pattern[str]) -> Iterator[Match[str]]:
        """The brackets that nothing hides."""
        opening, closing = self.hiding.block or (None, None)
        while self.at < len(self.units):
            if self.is_block:
                if self.passes(closing):
                    self.is_block = False
                else:
                    self.at += 1
            elif self.stands(self.hiding.line):
                self.at = len(self.units)
            elif self.passes(opening):
                self.is_block = True
            elif self.units[self.at] in self.hiding.quotes:
                self.pass_string(self.units[self.at])
            elif found := token.match(self.units, self.at):
                yield found
                self.at = found.end()
            else:
                self.at += 1

    def pass_string(self, quote: str) -> None:
        """Goes on behind the next such quote, or to the line's end."""
        self.at += 1
        while self.at < len(self.units) and self.units[self.at] != quote:
            self.at += 2 if self.units[self.at] == BACKSLASH else 1
        self.at = min(self.at + 1, len(self.units))


def tokens_in_view(text: Text, token: Pattern[str], hiding: Hiding) -> Iterator[tuple[int, str]]:
    """The brackets of the text that nothing hides, and where they start."""
    is_block = False
    for start, end in zip(text.starts, text.ends):
        line = Line(text.units[start:end], is_block, hiding)
        for found in line.tokens(token):
            yield start + found.start(), found[0]
        is_block = line.is_block
