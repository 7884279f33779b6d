"""Texts as lists of UTF-16 units: a string with one character for each unit, so that a surrogate stands by itself."""
import re
from functools import cached_property

ASTRAL = re.compile("[\U00010000-\U0010ffff]")
BREAK = re.compile("\r\n|\r|\n")
ESCAPED = re.compile('[\x00-\x1f"\\\\]')
ESCAPES = {'"': '\\"', "\\": "\\\\", "\n": "\\n", "\r": "\\r", "\t": "\\t"}
MIXED = "mixed"  # the kind of a text whose line endings may be any
ENDINGS = {"lf": "\n", "crlf": "\r\n"}  # those of the other kinds


def units_of(text: str) -> str:
    """The units of a text of whole characters."""
    return ASTRAL.sub(lambda found: pair_of(ord(found[0])), text)


def pair_of(code: int) -> str:
    """The two surrogates that stand for a character."""
    return chr(0xD7C0 + (code >> 10)) + chr(0xDC00 + (code & 0x3FF))


def text_of(units: str) -> str:
    """The text of these units. A surrogate that stands in no pair is U+FFFD."""
    return units if units.isascii() else units.encode("utf-16-le", "surrogatepass").decode("utf-16-le", "replace")


def quoted(units: str) -> str:
    """The JSON string of these units, as replies have it."""
    return f'"{ESCAPED.sub(escape, text_of(units))}"'


def escape(found: re.Match[str]) -> str:
    return ESCAPES.get(found[0]) or f"\\u{ord(found[0]):04x}"


def is_high(unit: str) -> bool:
    return "\ud800" <= unit <= "\udbff"


def is_low(unit: str) -> bool:
    return "\udc00" <= unit <= "\udfff"


def cuts_pair(units: str, at: int) -> bool:
    """Whether the place stands between the two surrogates of one character."""
    return 0 < at < len(units) and is_high(units[at - 1]) and is_low(units[at])


def cuts_ending(units: str, at: int) -> bool:
    """Whether the place stands between a CR and the LF behind it."""
    return at > 0 and units[at - 1 : at + 1] == "\r\n"


def normalized(units: str, kind: str) -> str:
    """The units with the line ending of the kind in the place of each other one."""
    return units if kind == MIXED else BREAK.sub(ENDINGS[kind], units)


class Text:
    """A text whose line endings are those of its kind, with where its lines start, and where their contents end."""

    def __init__(self, units: str, kind: str = MIXED) -> None:
        self.units = units
        self.kind = kind

    @cached_property
    def breaks(self) -> list[tuple[int, int]]:
        return [found.span() for found in BREAK.finditer(self.units)]

    @property
    def endings(self) -> list[str]:
        """What each line but the last ends with."""
        return [self.units[start:end] for start, end in self.breaks]

    @cached_property
    def starts(self) -> list[int]:
        return [0, *(end for _, end in self.breaks)]

    @cached_property
    def ends(self) -> list[int]:
        return [*(start for start, _ in self.breaks), len(self.units)]

    def is_place(self, offset: int) -> bool:
        return offset <= len(self.units) and not self.cuts(offset)

    def occurrences(self, sought: str) -> list[tuple[int, int]]:
        """The spans at which these units stand between two places, from left to right, each behind the one before."""
        found, at = [], self.units.find(sought)
        while at >= 0:
            end = at + len(sought)
            stands = self.is_place(at) and self.is_place(end)
            if stands:
                found.append((at, end))
            at = self.units.find(sought, end if stands else at + 1)
        return found

    def cuts(self, offset: int) -> bool:
        """Whether the offset stands inside a pair of surrogates, or inside the CR LF of a text that has these alone."""
        return cuts_pair(self.units, offset) or (self.kind == "crlf" and cuts_ending(self.units, offset))
