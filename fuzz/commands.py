"""Script lines as commands: JSON that is read strictly, and the fields of each command."""
import json
import re
from collections.abc import Callable
from dataclasses import dataclass
from typing import Any, NamedTuple

from brackets import Pairs
from hiding import BACKSLASH, Hiding, Pair
from texts import ENDINGS, is_high, is_low, units_of

MOST_NUMBER = 2**64 - 1
MOST_NESTING = 127
MOST_PAIRS = 64
MOST_BRACKET_UNITS = 32
MOST_QUOTES = 8

STRING = re.compile(r'"(?:[^"\\]|\\.)*"')
ESCAPE = re.compile(r"\\(?:u([0-9a-fA-F]{4})|.)")
Reader = Callable[[Any], Any]


class Refused(Exception):
    """What changes nothing, and is answered `! REASON`."""


# ---- JSON


def whole_number(digits: str) -> int | float:
    """A number without point and exponent. `-0` is none that counts units."""
    value = int(digits) if len(digits) < 30 else finite_number(digits)
    return -0.0 if value == 0 and digits[0] == "-" else value


def finite_number(digits: str) -> float:
    value = float(digits)
    if value in (float("inf"), float("-inf")):
        raise Refused("syntax")
    return value


def no_constant(_: str) -> None:
    raise Refused("syntax")


JSON = json.JSONDecoder(parse_int=whole_number, parse_float=finite_number, parse_constant=no_constant)


def read_json(line: bytes) -> Any:
    """The value of the bytes, of which all are looked at, those too that a later field of the same name replaces."""
    try:
        text = line.decode("utf-8")
        check_escapes(text)
        if line.count(b"[") + line.count(b"{") > MOST_NESTING:
            check_nesting(text)
        return JSON.decode(text)
    except (ValueError, RecursionError):
        raise Refused("syntax") from None


def check_escapes(text: str) -> None:
    """A surrogate that is escaped stands in a pair, both of whose parts are."""
    if "\\u" not in text:
        return
    high = -1  # where the last high surrogate ended
    for found in ESCAPE.finditer(text):
        code = int(found[1] or "0", 16)
        is_low = 0xDC00 <= code < 0xE000
        if (high >= 0) != is_low or (is_low and high != found.start()):
            raise Refused("syntax")
        high = found.end() if 0xD800 <= code < 0xDC00 else -1
    if high >= 0:
        raise Refused("syntax")


def check_nesting(text: str) -> None:
    depth = 0
    for mark in re.findall(r"[\[\]{}]", STRING.sub("", text)):
        depth += 1 if mark in "[{" else -1
        if depth > MOST_NESTING:
            raise Refused("syntax")


# ---- Fields


def number(value: Any) -> int:
    if type(value) is not int or not 0 <= value <= MOST_NUMBER:
        raise Refused("syntax")
    return value


def text(value: Any) -> str:
    if type(value) is not str:
        raise Refused("syntax")
    return units_of(value)


def sought(value: Any) -> str:
    """A text that is looked for."""
    units = text(value)
    if not units:
        raise Refused("syntax")
    return units


def flag(value: Any) -> bool:
    if type(value) is not bool:
        raise Refused("syntax")
    return value


def listed(value: Any) -> list[Any]:
    if type(value) is not list:
        raise Refused("syntax")
    return value


def numbers(value: Any) -> list[int]:
    return [number(item) for item in listed(value)]


def span(value: Any) -> list[int]:
    if len(listed(value)) != 2:
        raise Refused("syntax")
    return numbers(value)


def positions(value: Any) -> list[int]:
    if len(listed(value)) != 4:
        raise Refused("syntax")
    return numbers(value)


def kind(value: Any) -> str:
    """A kind of line ending. Texts of any endings have no word."""
    if type(value) is not str or value not in ENDINGS:
        raise Refused("syntax")
    return value


def pairs(value: Any) -> Pairs:
    """The brackets of a new document."""
    found = tuple(tuple(map(text, listed(pair))) for pair in listed(value))
    texts = [text for pair in found for text in pair]
    if not 1 <= len(found) <= MOST_PAIRS or any(len(pair) != 2 for pair in found) or len(set(texts)) != len(texts):
        raise Refused("syntax")
    if not all(map(is_bracket_text, texts)):
        raise Refused("syntax")
    return found


def is_bracket_text(units: str) -> bool:
    return 1 <= len(units) <= MOST_BRACKET_UNITS and "\r" not in units and "\n" not in units


def mark(value: Any) -> str:
    """What begins or ends a comment. It may have what a bracket may."""
    units = text(value)
    if not is_bracket_text(units):
        raise Refused("syntax")
    return units


def block(value: Any) -> Pair:
    if len(listed(value)) != 2:
        raise Refused("syntax")
    return mark(value[0]), mark(value[1])


def quotes(value: Any) -> str:
    found = [text(item) for item in listed(value)]
    if len(found) > MOST_QUOTES or len(set(found)) != len(found) or not all(map(is_quote, found)):
        raise Refused("syntax")
    return "".join(found)


def is_quote(units: str) -> bool:
    return len(units) == 1 and units not in f"\r\n{BACKSLASH}" and not is_high(units) and not is_low(units)


@dataclass(slots=True, frozen=True)
class Fields:
    """The fields of an object, and those that it may lack, in the order in which their values are given."""

    needed: dict[str, Reader]
    optional: dict[str, Reader]

    def read(self, value: Any) -> list[Any]:
        """The values, None for one that is not there."""
        if type(value) is not dict or not self.needed.keys() <= value.keys():
            raise Refused("syntax")
        if not value.keys() <= self.needed.keys() | self.optional.keys():
            raise Refused("syntax")
        found = [read(value[name]) for name, read in self.needed.items()]
        return found + [read(value[name]) if name in value else None for name, read in self.optional.items()]


def fields(optional: dict[str, Reader] | None = None, **needed: Reader) -> Fields:
    return Fields(needed, optional or {})


OP = fields({"at": span, "range": positions, "force": flag}, text=text)
NEW_DECORATION = fields({"collapse": flag}, at=span, stick=number)


MARKS = fields({"line": mark, "block": block, "quotes": quotes})


def marks(value: Any) -> Hiding:
    """What begins and ends comments and strings in a new document."""
    line, block, quotes = MARKS.read(value)
    return Hiding(line, block, quotes or "")


@dataclass(slots=True, frozen=True)
class LineOp:
    """An op with a span of offsets, or with the line and column of its start and of its end."""

    at: list[int] | None
    range: list[int] | None
    text: str
    force: bool


def op(value: Any) -> LineOp:
    new, at, range_, force = OP.read(value)
    if (at is None) == (range_ is None):
        raise Refused("syntax")
    return LineOp(at, range_, new, bool(force))


def ops(value: Any) -> list[LineOp]:
    if not listed(value):
        raise Refused("syntax")
    return [op(item) for item in value]


DOC_EDIT = fields(doc=number, ops=ops)


def edits(value: Any) -> list[tuple[int, list[LineOp]]]:
    """The batches of a joint edit, each with the number of its document, which may be any."""
    if len(listed(value)) < 2:
        raise Refused("syntax")
    return [(doc, ops) for doc, ops in map(DOC_EDIT.read, value)]


def new_decorations(value: Any) -> list[tuple[list[int], int, bool]]:
    found = [NEW_DECORATION.read(item) for item in listed(value)]
    return [(at, stick, bool(collapse)) for at, stick, collapse in found]


COMMANDS: dict[str, Fields] = {
    "open": fields({"brackets": pairs, "marks": marks, "eol": kind}, text=text),
    "edit": fields(ops=ops),
    "undo": fields(),
    "redo": fields(),
    "stop": fields(),
    "eol": fields(kind=kind),
    "decorate": fields(owner=number, remove=numbers, add=new_decorations),
    "deco": fields(id=number),
    "decos": fields({"owner": number}, at=span),
    "size": fields(),
    "version": fields(),
    "changes": fields(),
    "line": fields(n=number),
    "value": fields(at=span),
    "offset": fields(line=number, col=number),
    "position": fields(offset=number),
    "stops": fields(n=number),
    "snapshot": fields(),
    "read": fields(id=number, count=number),
    "close": fields(id=number),
    "find": fields(text=sought),
    "replace": fields(find=sought, text=text),
    "brackets": fields(**{"from": number, "to": number}),
    "match": fields(line=number, col=number),
    "level": fields(line=number, col=number),
    "mirror": fields(),
    "send": fields(),
    "deliver": fields(n=number),
    "mirrored": fields(n=number),
    "joint": fields(edits=edits),
}
OF_SEVERAL = "joint"  # the one command that has no field `doc`


class Request(NamedTuple):
    """What a line asks: a command with the values of its fields, and the number of its document, which may be any."""

    name: str
    doc: int
    values: list[Any]


def request_of(line: bytes) -> Request:
    """What the line asks, refused where it is no command."""
    value = read_json(line)
    if type(value) is not dict:
        raise Refused("syntax")
    name = value.pop("cmd", None)
    if type(name) is not str or name not in COMMANDS:
        raise Refused("syntax")
    doc = 0 if name == OF_SEVERAL else number(value.pop("doc", 0))
    return Request(name, doc, COMMANDS[name].read(value))


def command_of(line: bytes) -> tuple[str, list[Any]]:
    """The command of a line on document 0, and the values of its fields; refused where it is none, or on another document."""
    name, doc, values = request_of(line)
    if doc or name == OF_SEVERAL:
        raise Refused("unknown")
    return name, values
