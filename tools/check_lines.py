#!/usr/bin/env -S python3 -B
"""Prints which lines of a script are invalid, at which byte, and why.

./textmodel check [FILE]     reads standard input by default, or for `-`

A line of the output is FILE:LINE:BYTE: WHY, both counted from 1, with `<stdin>` for standard input. These are exactly the
lines to which `textmodel run` replies `! syntax`, and those too long, to which it replies `! limit`. The status is 0 if
there is none, 1 if there is one, 2 if the command line is invalid, 4 if the script could not be read, and 5 if the output
could not be written. docs/SCRIPT.md has the rules of a line.
"""
import contextlib
import difflib
import json
import math
import re
import signal
import sys
from collections.abc import Callable, Iterable, Iterator
from dataclasses import dataclass
from typing import Any, NoReturn

# made: limits
MOST_BYTES = 2**24
MOST_NUMBER = 2**64 - 1
MOST_NESTING = 127
MOST_PAIRS = 64
MOST_BRACKET_UNITS = 32
MOST_QUOTES = 8
# end of limits
KINDS = ("lf", "crlf")
USAGE, UNREADABLE, UNWRITTEN = 2, 4, 5
SHOWN = 40

BLANKS = b" \t\r"
SPACE = re.compile(rb"[ \t\r]*")
PLAIN = re.compile(rb'[^"\\\x00-\x1f]*')
ESCAPE = re.compile(rb'\\(?:["\\/bfnrt]|u([0-9a-fA-F]{4}))')
NUMBER = re.compile(rb"-?(?:0|[1-9][0-9]*)(\.[0-9]+)?([eE][+-]?[0-9]+)?")
WORD = re.compile(rb"[A-Za-z_]+")
CONSTANTS: dict[bytes, tuple[str, Any]] = {b"true": ("flag", True), b"false": ("flag", False), b"null": ("null", None)}
# What a value of each kind is called. A number is a whole one below 2^64; any other is a `fraction`.
CALLED = {
    "number": "a number", "fraction": "not a whole number from 0 to 2^64 - 1", "text": "a text", "flag": "true or false",
    "null": "null", "array": "an array", "object": "an object",
}  # fmt: skip


@dataclass(slots=True)
class Node:
    """A JSON value, and the byte at which it starts, from 0. That of an object has its fields, by their names."""

    kind: str
    value: Any
    at: int


class Fault(Exception):
    """Why a line is invalid, and at which byte, from 0."""

    def __init__(self, at: int, why: str) -> None:
        super().__init__(why)
        self.at, self.why = at, why


# ---- JSON


class Reader:
    """Reads the one value of a line, of which all bytes are UTF-8."""

    def __init__(self, line: bytes) -> None:
        self.line, self.at, self.depth = line, 0, 0

    def whole(self) -> Node:
        node = self.value("a JSON object")
        if self.at < len(self.line):
            self.fail(text_behind(node, self.line, self.at))
        return node

    def fail(self, why: str) -> NoReturn:
        raise Fault(self.at, why)

    def space(self) -> None:
        self.at = SPACE.match(self.line, self.at).end()

    def next_is(self, mark: bytes) -> bool:
        """Skips the mark and the blanks after it, if it comes next."""
        if not self.line.startswith(mark, self.at):
            return False
        self.at += len(mark)
        self.space()
        return True

    def expect(self, mark: bytes, wanted: str) -> None:
        if not self.next_is(mark):
            self.fail(f"not JSON: expected {wanted}, found {self.here()}")

    def here(self) -> str:
        """The text at this byte, for a message."""
        if self.at >= len(self.line):
            return "the end of the line"
        if word := WORD.match(self.line, self.at):
            return f"`{word[0].decode()[:SHOWN]}`"
        return byte_name(self.line[self.at :])

    def value(self, wanted: str) -> Node:
        self.space()
        at, first = self.at, self.line[self.at : self.at + 1]
        if first == b"{":
            node = Node("object", self.nested(self.members), at)
        elif first == b"[":
            node = Node("array", self.nested(self.items), at)
        elif first == b'"':
            node = Node("text", self.string(), at)
        else:
            node = self.number() or self.constant(wanted)
        self.space()
        return node

    def nested(self, inner: Callable[[], Any]) -> Any:
        if self.depth == MOST_NESTING:
            self.fail(f"nested deeper than {MOST_NESTING}")
        self.depth += 1
        found = inner()
        self.depth -= 1
        return found

    def members(self) -> dict[str, tuple[int, Node]]:
        """The fields: where the name of each starts, and its value. If one is repeated, the last one counts."""
        self.next_is(b"{")
        found: dict[str, tuple[int, Node]] = {}
        if self.next_is(b"}"):
            return found
        while True:
            at = self.at
            if self.line[at : at + 1] != b'"':
                self.fail(f"not JSON: expected the name of a field in quotes, found {self.here()}")
            name = self.string()
            self.space()
            self.expect(b":", f"a colon after the field's name `{shown(name)}`")
            found[name] = at, self.value(f"a value for `{shown(name)}`")
            if self.next_is(b"}"):
                return found
            self.expect(b",", "a comma, or `}` at the end of the object")

    def items(self) -> list[Node]:
        self.next_is(b"[")
        found: list[Node] = []
        if self.next_is(b"]"):
            return found
        while True:
            found.append(self.value("a value"))
            if self.next_is(b"]"):
                return found
            self.expect(b",", "a comma, or `]` at the end of the array")

    def string(self) -> str:
        start = self.at
        self.at += 1
        while True:
            self.at = PLAIN.match(self.line, self.at).end()
            if self.at == len(self.line):
                raise Fault(start, "not JSON: a text is not closed before the end of the line")
            if self.line[self.at] == ord('"'):
                self.at += 1
                return json.loads(self.line[start : self.at])
            self.escape()

    def escape(self) -> None:
        """Passes an escape, or two that spell a pair of surrogates."""
        found = ESCAPE.match(self.line, self.at)
        if not found:
            self.fail(no_escape(self.line, self.at))
        code = int(found[1] or b"0", 16)
        spelled = f"the escape `{found[0].decode()}`"
        if 0xDC00 <= code < 0xE000:
            self.fail(f"{spelled} is the second half of a surrogate pair, without the first")
        if 0xD800 <= code < 0xDC00:
            second = ESCAPE.match(self.line, found.end())
            if not second or not 0xDC00 <= int(second[1] or b"0", 16) < 0xE000:
                self.fail(f"{spelled} is the first half of a surrogate pair, without the second")
            found = second
        self.at = found.end()

    def number(self) -> Node | None:
        found = NUMBER.match(self.line, self.at)
        if not found:
            return None
        node = Node("fraction", found[0].decode(), self.at)
        is_integer = found.start(1) < 0 and found.start(2) < 0 and not found[0].startswith(b"-")
        if is_integer and len(found[0]) <= len(str(MOST_NUMBER)) and int(found[0]) <= MOST_NUMBER:
            node = Node("number", int(found[0]), self.at)
        elif math.isinf(float(found[0])):
            self.fail(f"the number `{shown(node.value)}` is too large: JSON is read with numbers of 64 bits")
        self.at = found.end()
        return node

    def constant(self, wanted: str) -> Node:
        found = WORD.match(self.line, self.at)
        # What begins so is read, and what is behind it is refused then.
        for word, (kind, value) in CONSTANTS.items():
            if found and found[0] == word:
                node = Node(kind, value, self.at)
                self.at = found.end()
                return node
        self.fail(f"not JSON: expected {wanted}, found {self.here()}")


def shown(text: str) -> str:
    """The text as it may be shown on a terminal, cut if it is long."""
    part = text if len(text) <= SHOWN else text[:SHOWN] + ".."
    return "".join(it if it.isprintable() else it.encode("unicode_escape", "surrogatepass").decode() for it in part)


def byte_name(rest: bytes) -> str:
    """What the first byte, or the character that starts there, is called."""
    if rest[0] < 0x20 or rest[0] == 0x7F:
        return f"the control character 0x{rest[0]:02x}"
    return f"`{shown(rest[:4].decode('utf-8', 'ignore')[:1])}`"


def no_escape(line: bytes, at: int) -> str:
    if line[at] == ord("\\"):
        return f"invalid JSON escape: `{shown(line[at : at + 6].decode('utf-8', 'ignore'))}`"
    return f"a raw control character 0x{line[at]:02x} in a text: write it as the escape `\\u{line[at]:04x}`"


def text_behind(node: Node, line: bytes, at: int) -> str:
    """The fault of the text after the value."""
    behind = f"text after the {'object' if node.kind == 'object' else 'value'}"
    if b"\r" in line[len(line[:at].rstrip(BLANKS)) : at]:
        return f"{behind}: a line of a script ends with LF, not with CR alone"
    return f"{behind}: {byte_name(line[at:])}"


# ---- What a line may be before it is JSON


def encoding_fault(line: bytes) -> Fault | None:
    """Why the bytes are no UTF-8, or begin with a mark."""
    if line.startswith((b"\xff\xfe", b"\xfe\xff")) or is_wide(line):
        return Fault(0, "UTF-16: a script is UTF-8")
    if line.startswith(b"\xef\xbb\xbf"):
        return Fault(0, "a byte order mark: a script begins with its first command")
    try:
        line.decode("utf-8")
    except UnicodeDecodeError as fault:
        return Fault(fault.start, f"not UTF-8: the byte 0x{line[fault.start]:02x}")
    return None


def is_wide(line: bytes) -> bool:
    """Whether it looks as ASCII does in UTF-16: each second byte is 0. No command has such a byte."""
    return any(len(part) > 0 and not any(part) for part in (line[::2], line[1::2]))


# ---- Fields

Check = Callable[[Node, str], None]


def wrong(node: Node, name: str, wanted: str) -> NoReturn:
    raise Fault(node.at, f"{name} is {CALLED[node.kind]}; expected {wanted}")


def of_kind(kind: str) -> Check:
    def check(node: Node, name: str) -> None:
        if node.kind != kind:
            wrong(node, name, CALLED[kind])

    return check


number, text, flag = of_kind("number"), of_kind("text"), of_kind("flag")


def sought(node: Node, name: str) -> None:
    """A text to search for."""
    text(node, name)
    if not node.value:
        raise Fault(node.at, f"{name} is empty; expected a text of one unit or more")


def several(count: int, wanted: str) -> Check:
    """An array of so many numbers."""
    def check(node: Node, name: str) -> None:
        if node.kind != "array":
            wrong(node, name, f"an array of {wanted}")
        if len(node.value) != count:
            raise Fault(node.at, f"{name} is an array of {len(node.value)}; expected {wanted}")
        check_items(node, name, number)

    return check


span = several(2, "two numbers (start, end)")
positions = several(4, "four numbers (line and column of the start, then of the end)")


def check_items(node: Node, name: str, check: Check) -> None:
    for place, item in enumerate(node.value, 1):
        check(item, f"item {place} of {name}")


def list_of(check: Check, wanted: str, least: int = 0) -> Check:
    def check_list(node: Node, name: str) -> None:
        if node.kind != "array":
            wrong(node, name, wanted)
        if len(node.value) < least:
            raise Fault(node.at, f"{name} {'has one item' if node.value else 'is empty'}; expected {wanted}")
        check_items(node, name, check)

    return check_list


@dataclass(slots=True, frozen=True)
class Fields:
    """The fields that an object has, and those that it may lack."""

    needed: dict[str, Check]
    optional: dict[str, Check]

    def check(self, node: Node, name: str) -> None:
        known = self.needed | self.optional
        for field, (at, _) in node.value.items():
            if field not in known:
                raise Fault(at, f"unknown field `{shown(field)}`: {name} has {listed(known)}")
        for field in self.needed:
            if field not in node.value:
                raise Fault(node.at, f"field `{field}` is missing: {name} has {listed(known)}")
        for field, (_, value) in node.value.items():
            known[field](value, f"field `{field}`")


def listed(names: Iterable[str]) -> str:
    quoted = [f"`{name}`" for name in names]
    return ", ".join(quoted) if quoted else "no field beside `cmd`"


def op(node: Node, name: str) -> None:
    if node.kind != "object":
        wrong(node, name, "an object")
    places = [place for place in OPS if place in node.value]
    if len(places) == 2:
        raise Fault(node.value["range"][0], f"{name} has both `at` and `range`; expected one")
    if not places and not node.value.keys() - {"text", "force"}:
        raise Fault(node.at, f"{name} has neither `at` nor `range`; expected one")
    OPS[places[0] if places else "at"].check(node, name)


ops = list_of(op, "an array of one op or more", least=1)
numbers = list_of(number, "an array of numbers")


def doc_edit(node: Node, name: str) -> None:
    """The batch of one document in a joint edit."""
    if node.kind != "object":
        wrong(node, name, "an object")
    DOC_EDIT.check(node, name)


def new_decoration(node: Node, name: str) -> None:
    if node.kind != "object":
        wrong(node, name, "an object")
    NEW_DECORATION.check(node, name)


def pair_of(check: Check) -> Check:
    """An array of two such texts."""
    def check_pair(node: Node, name: str) -> None:
        if node.kind != "array" or len(node.value) != 2:
            raise Fault(node.at, f"{name} is not an array of two texts, an opening and a closing one")
        check_items(node, name, check)

    return check_pair


def units_of(node: Node) -> int:
    return len(node.value.encode("utf-16-le")) // 2


def in_line(called: str) -> Check:
    """A text that may stand in a line: a bracket, or a mark of comments."""
    def check(node: Node, name: str) -> None:
        text(node, name)
        if not 1 <= (units := units_of(node)) <= MOST_BRACKET_UNITS:
            raise Fault(node.at, f"{name} has {units} units; a {called} has 1 to {MOST_BRACKET_UNITS}")
        if "\r" in node.value or "\n" in node.value:
            raise Fault(node.at, f"{name} has a CR or LF; a {called} must not")

    return check


bracket, mark = in_line("bracket"), in_line("mark")


def quote(node: Node, name: str) -> None:
    text(node, name)
    if (units := units_of(node)) != 1:
        raise Fault(node.at, f"{name} has {units} units; a quote has 1")
    if node.value in "\r\n\\":
        raise Fault(node.at, f"{name} is a CR, an LF or a backslash; a quote must not be")


def check_differ(nodes: Iterable[Node], name: str) -> None:
    found = set()
    for node in nodes:
        if node.value in found:
            raise Fault(node.at, f"{name} has the text `{shown(node.value)}` twice")
        found.add(node.value)


def quotes(node: Node, name: str) -> None:
    list_of(quote, "an array of quotes")(node, name)
    if len(node.value) > MOST_QUOTES:
        raise Fault(node.at, f"{name} has {len(node.value)} quotes; expected at most {MOST_QUOTES}")
    check_differ(node.value, name)


block = pair_of(mark)


def marks(node: Node, name: str) -> None:
    if node.kind != "object":
        wrong(node, name, "an object")
    MARKS.check(node, name)


def kind(node: Node, name: str) -> None:
    """The word of a kind of line ending."""
    wanted = " or ".join(f"`{word}`" for word in KINDS)
    if node.kind != "text":
        wrong(node, name, wanted)
    if node.value not in KINDS:
        raise Fault(node.at, f"{name} is `{shown(node.value)}`; expected {wanted}")


def pairs(node: Node, name: str) -> None:
    list_of(pair_of(bracket), "an array of pairs")(node, name)
    if not 1 <= len(node.value) <= MOST_PAIRS:
        raise Fault(node.at, f"{name} has {len(node.value)} pairs; expected 1 to {MOST_PAIRS}")
    check_differ((half for both in node.value for half in both.value), name)


new_decorations = list_of(new_decoration, "an array of new decorations")
edits = list_of(doc_edit, "an array of two batches or more", least=2)

# docs/make makes these tables from docs/commands.json.
# made: commands
OPS = {
    "at": Fields({"at": span, "text": text}, {"force": flag}),
    "range": Fields({"range": positions, "text": text}, {"force": flag}),
}
NEW_DECORATION = Fields({"at": span, "stick": number}, {"collapse": flag})
DOC_EDIT = Fields({"doc": number, "ops": ops}, {})
MARKS = Fields({}, {"line": mark, "block": block, "quotes": quotes})
COMMANDS: dict[str, Fields] = {
    "open": Fields({"text": text}, {"brackets": pairs, "marks": marks, "eol": kind, "doc": number}),
    "edit": Fields({"ops": ops}, {"doc": number}),
    "undo": Fields({}, {"doc": number}),
    "redo": Fields({}, {"doc": number}),
    "stop": Fields({}, {"doc": number}),
    "eol": Fields({"kind": kind}, {"doc": number}),
    "decorate": Fields({"owner": number, "remove": numbers, "add": new_decorations}, {"doc": number}),
    "deco": Fields({"id": number}, {"doc": number}),
    "decos": Fields({"at": span}, {"owner": number, "doc": number}),
    "version": Fields({}, {"doc": number}),
    "changes": Fields({}, {"doc": number}),
    "brackets": Fields({"from": number, "to": number}, {"doc": number}),
    "match": Fields({"line": number, "col": number}, {"doc": number}),
    "level": Fields({"line": number, "col": number}, {"doc": number}),
    "size": Fields({}, {"doc": number}),
    "line": Fields({"n": number}, {"doc": number}),
    "value": Fields({"at": span}, {"doc": number}),
    "offset": Fields({"line": number, "col": number}, {"doc": number}),
    "position": Fields({"offset": number}, {"doc": number}),
    "snapshot": Fields({}, {"doc": number}),
    "read": Fields({"id": number, "count": number}, {"doc": number}),
    "close": Fields({"id": number}, {"doc": number}),
    "stops": Fields({"n": number}, {"doc": number}),
    "find": Fields({"text": sought}, {"doc": number}),
    "replace": Fields({"find": sought, "text": text}, {"doc": number}),
    "mirror": Fields({}, {"doc": number}),
    "send": Fields({}, {"doc": number}),
    "deliver": Fields({"n": number}, {"doc": number}),
    "mirrored": Fields({"n": number}, {"doc": number}),
    "joint": Fields({"edits": edits}, {}),
}
# end of commands


def nearest(name: str) -> str:
    """The known command most like the name, for a message."""
    found = difflib.get_close_matches(name.lower(), COMMANDS, 1)
    return f"; the nearest is `{found[0]}`" if found else ""


def check_command(node: Node) -> None:
    """Refuses an invalid command."""
    if node.kind != "object":
        raise Fault(node.at, f"the line is {CALLED[node.kind]}; expected a JSON object")
    if "cmd" not in node.value:
        raise Fault(node.at, "field `cmd` is missing: it names the command")
    _, command = node.value.pop("cmd")
    if command.kind != "text":
        wrong(command, "field `cmd`", "the name of a command in quotes")
    if command.value not in COMMANDS:
        raise Fault(command.at, f"unknown command `{shown(command.value)}`{nearest(command.value)}")
    COMMANDS[command.value].check(node, f"`{command.value}`")


# ---- Lines


def fault_of(line: bytes) -> Fault | None:
    """Returns why the line, without its LF, is invalid; None if it is valid or empty."""
    if len(line) > MOST_BYTES:
        return Fault(MOST_BYTES, f"too long: the line has {len(line):,} bytes; the limit is {MOST_BYTES:,} (`! limit`)")
    if not line.strip(BLANKS):
        return None
    if fault := encoding_fault(line):
        return fault
    try:
        check_command(Reader(line).whole())
    except Fault as fault:
        return fault
    return None


def faults_in(lines: Iterable[bytes]) -> Iterator[tuple[int, Fault]]:
    """Returns the invalid lines, by their numbers."""
    for line_number, line in enumerate(lines, 1):
        if fault := fault_of(line.removesuffix(b"\n")):
            yield line_number, fault


def tell_of(name: str, lines: Iterable[bytes]) -> int:
    """Prints where and why lines are invalid, and returns their number."""
    found = 0
    for line_number, fault in faults_in(lines):
        print(f"{name}:{line_number}:{fault.at + 1}: {fault.why}")
        found += 1
    return found


class Unreadable(Exception):
    """Why the script could not be read."""


def say(why: str) -> None:
    with contextlib.suppress(OSError):
        print(f"textmodel: {why}", file=sys.stderr)


def lines_of(name: str) -> Iterator[bytes]:
    """The lines of the file of this name, or of standard input for `-`."""
    try:
        if name == "-" and sys.stdin is None:
            raise Unreadable("it is closed")
        with sys.stdin.buffer if name == "-" else open(name, "rb") as lines:
            yield from lines
    except OSError as fault:
        raise Unreadable(fault.strerror) from None


def check_script(name: str) -> int:
    """Tells of the lines of a script; the status."""
    try:
        return 1 if tell_of("<stdin>" if name == "-" else name, lines_of(name)) else 0
    except Unreadable as fault:
        say(f"{'standard input' if name == '-' else name}: {fault}")
        return UNREADABLE


def main() -> int:
    signal.signal(signal.SIGPIPE, signal.SIG_DFL)  # so that `| head` ends it quietly
    words = sys.argv[1:]
    if len(words) > 1 or words and words[0].startswith("-") and words[0] != "-":
        print("usage: textmodel check [FILE]", file=sys.stderr)
        return USAGE
    if sys.stdout is None:
        say("standard output is closed")
        return UNWRITTEN
    try:
        status = check_script(words[0] if words else "-")
        sys.stdout.flush()
        return status
    except OSError as fault:
        say(f"standard output: {fault.strerror}")
        sys.stdout = None  # or Python would try again at its end
        return UNWRITTEN


if __name__ == "__main__":
    sys.exit(main())
