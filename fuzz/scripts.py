"""Writes the lines on one document. Each is made for it as it stands, so that most are accepted, and some just not."""
import json
from collections.abc import Callable
from itertools import accumulate
from random import Random
from typing import Any

import hostile
from brackets import STANDARD
from flat import UNJUDGED, Document, Flat
from hiding import Hiding
from moods import BREAKS, Mood, drawn_alphabet, drawn_hiding, drawn_mood, drawn_table, mark_texts, opened_brackets
from texts import ENDINGS, cuts_pair, text_of, units_of

NO_NUMBERS = ["null", "true", "-1", "0.0", '"0"', "[0]", "18446744073709551616"]
ODD_NUMBERS = [0, 1, 2, 2**31, 2**32, 2**53 + 1, 2**63 - 1, 2**63, 2**64 - 1, 2**64]
NO_TABLES = [
    [], [["a", "a"]], [["", "b"]], [["a"]], [["a", "b", "c"]], [["a\r", "b"]], [["a", "\nb"]], [["x" * 33, "y"]],
    [["a", "b"], ["b", "c"]], [[chr(64 + n), chr(256 + n)] for n in range(65)], [["\U0001f600" * 17, "y"]], "()", [1],
]  # fmt: skip
NO_MARKS = [
    None, [], "//", {"line": ""}, {"line": None}, {"line": ["//"]}, {"line": "x" * 33}, {"line": "\U0001f600" * 17},
    {"line": "a\n"}, {"lines": "//"}, {"line": "//", "strings": []}, {"block": None}, {"block": []}, {"block": ["/*"]},
    {"block": ["/*", "*/", "*/"]}, {"block": ["/*", ""]}, {"block": ["", "*/"]}, {"block": ["\r", "*/"]},
    {"block": ["/*", "y" * 33]}, {"block": ["/*", 1]}, {"block": "/**/"}, {"quotes": None}, {"quotes": '"'},
    {"quotes": [1]}, {"quotes": [""]}, {"quotes": ["''"]}, {"quotes": ['"', "'", '"']}, {"quotes": ["\\"]}, {"quotes": ["\n"]},
    {"quotes": ["\r"]}, {"quotes": ["\U0001f600"]}, {"quotes": [*"123456789"]}, {"quotes": {}},
]  # fmt: skip
NO_CHANGES = [
    '{"cmd":"eol"}', '{"cmd":"eol","eol":"lf"}', '{"cmd":"eol","kind":"lf","n":1}', '{"cmd":"eol","kind":"crlf","text":""}',
]  # fmt: skip
NO_KINDS = ["mixed", "cr", "LF", "lf ", "", "\n", None, True, 1, ["lf"], {"kind": "lf"}]
NO_SEARCHES = [
    '{"cmd":"find"}', '{"cmd":"find","text":null}', '{"cmd":"find","find":"a"}', '{"cmd":"find","text":"a","from":0}',
    '{"cmd":"replace","find":"a"}', '{"cmd":"replace","text":"a"}', '{"cmd":"replace","find":"","text":"a"}',
    '{"cmd":"replace","find":["a"],"text":"b"}', '{"cmd":"replace","find":"a","text":"b","force":true}',
]  # fmt: skip
BEHIND_A_REPLACE = [
    ["undo"], ["undo", "undo"], ["undo", "edit"], ["undo", "redo", "undo"], ["undo", "undo", "edit"], ["undo", "replace"],
    ["undo", "find"], ["version", "undo"], ["deliver", "send"], ["mirrored", "deliver", "send"], ["redo", "send", "undo"],
]  # fmt: skip


class Writer:
    """Makes lines on the document of one number, by what the flat document of that number is."""

    def __init__(self, seed: str, number: int = 0, flat: Flat | None = None) -> None:
        self.draw = Random(seed)
        self.number = number
        self.flat = flat or Flat()
        self.table = drawn_table(self.draw)
        self.hiding: Hiding | None = None
        self.place = 0  # where something happened last
        self.coming: list[str] = []  # the commands that come next
        self.set_mood(drawn_mood(self.draw))

    @property
    def document(self) -> Document:
        return self.flat.documents[self.number]

    def set_mood(self, mood: Mood) -> None:
        self.mood = mood
        self.alphabet = drawn_alphabet(self.draw, mood, self.table, self.hiding)
        self.names = list(mood.weights)
        self.sums = list(accumulate(mood.weights.values()))

    def chance(self, of: float) -> bool:
        return self.draw.random() < of

    def name(self) -> str:
        """A command. Edits drop what could be redone, so a `redo` comes more often where it can do something."""
        if self.coming:
            return self.coming.pop()
        if self.document.redo_steps and self.chance(0.12):
            return "redo"
        name = self.draw.choices(self.names, cum_weights=self.sums)[0]
        if name == "undo" and self.mood.run and self.chance(0.2):
            self.coming = self.undone_and_redone()
        return "undo" if name == "redo" and not self.document.redo_steps and self.chance(0.6) else name

    def undone_and_redone(self) -> list[str]:
        """Undos and redos behind an undo, the next one last."""
        often = self.draw.randint(1, self.mood.run)
        return ["undo", "redo"] * often if self.chance(0.5) else ["redo"] * often + ["undo"] * (often - 1)

    def line(self, name: str | None = None) -> bytes:
        """The line of this command, or of one that is drawn."""
        name = name or self.name()
        if name == "hostile":
            return hostile.made_from(self.draw, self.line())
        line = self.addressed(MAKERS[name](self))
        if self.chance(0.02):
            line = hostile.spelled_otherwise(self.draw, line)
        return line.encode("utf-8")

    def addressed(self, line: str) -> str:
        """The line with the number of its document, which that of number 0 may do without; now and then with none that may be."""
        if self.number == 0 and self.chance(0.9):
            return line
        doc = self.draw.choice(NO_NUMBERS) if self.chance(0.005) else str(self.number)
        place = line.index(",") if "," in line and self.chance(0.5) else len(line) - 1
        return f'{line[:place]},"doc":{doc}{line[place:]}'

    # ---- parts of lines

    def text(self, most: int) -> str:
        return "".join(self.draw.choices(self.alphabet, k=self.draw.randint(0, most)))

    def spelled(self, text: str) -> str:
        return json.dumps(text, ensure_ascii=self.chance(0.3))

    def few(self) -> int:
        """Mostly 0 to 3, sometimes some more."""
        return min(int(self.draw.expovariate(0.6)), 12)

    def offset(self) -> int:
        """A place of the text, with a liking for those where something is; now and then none."""
        units = len(self.document.text.units)
        kind = self.draw.random()
        if kind < 0.015:
            return self.draw.choice([units + 1, units + self.few(), *ODD_NUMBERS])
        if kind < 0.25 and self.document.decorations:
            mark = self.document.decorations[self.known_decoration()]
            place = mark.start if self.chance(0.5) else mark.end
        elif kind < 0.45:
            place = self.place
        elif kind < 0.6:
            place = self.draw.choice(self.document.text.starts) - self.draw.choice([0, 1, 1, 2])
        else:
            place = self.draw.randint(0, units)
        place = min(max(place + (self.few() if self.chance(0.2) else 0), 0), units)
        return place - 1 if self.document.text.cuts(place) and self.chance(0.9) else place

    def span(self) -> tuple[int, int]:
        start = self.offset()
        end = min(start + self.few(), len(self.document.text.units))
        if self.document.text.cuts(end) and self.chance(0.9):
            end += 1
        if self.chance(0.1):
            end = self.offset()
        return (start, end) if self.chance(0.02) else (min(start, end), max(start, end))

    def span_in_front(self) -> tuple[int, int]:
        """A span of the first few places."""
        places = [self.whole(self.few()) for _ in range(2)]
        return min(places), max(places)

    def line_number(self) -> int:
        lines = len(self.document.text.starts)
        if self.chance(0.04):
            return self.draw.choice([0, lines + 1, *ODD_NUMBERS])
        return self.draw.randint(max(1, lines - 3) if self.is_apart() else 1, lines)

    def position(self) -> tuple[int, int]:
        """Often that of a bracket. One between a CR and its LF is none."""
        if self.chance(0.03):
            return self.draw.choice([(0, 1), (1, 0), (self.line_number(), self.draw.choice(ODD_NUMBERS))])
        entries = self.document.parsed().entries
        if entries and self.chance(0.5):
            entry = self.draw.choice(entries[-9:] if self.is_apart() else entries)
            return self.document.position_of(entry.at + self.chance(0.2))
        offset = self.offset()
        return self.document.position_of(offset) if offset <= len(self.document.text.units) else (1, offset)

    def is_apart(self) -> bool:
        """Whether an edit keeps to the front here, and a question to the end."""
        return self.mood.is_apart and self.chance(0.7)

    def known_decoration(self) -> int:
        return self.draw.choice(list(self.document.decorations))

    def decoration(self) -> int:
        if self.chance(0.9) and self.document.decorations:
            return self.known_decoration()
        return self.draw.choice([0, self.document.next_decoration, self.draw.randint(1, self.document.next_decoration)])

    def snapshot(self) -> int:
        if self.chance(0.95) and self.document.snapshots:
            return self.draw.choice(list(self.document.snapshots))
        return self.draw.choice([0, self.document.next_snapshot, self.draw.randint(1, self.document.next_snapshot)])

    # ---- lines

    def open(self) -> str:
        mood = drawn_mood(self.draw)
        self.table = drawn_table(self.draw)
        self.hiding = drawn_hiding(self.draw, mood)
        self.set_mood(mood)
        self.place = 0
        opening = opened_brackets(self.draw, mood, self.table)
        fields = [f'"text":{self.spelled(opening + self.text(mood.units))}']
        self.mood = mood._replace(units=mood.units + len(opening))
        if self.table is not STANDARD or self.chance(0.2):
            table = self.draw.choice(NO_TABLES) if self.chance(0.05) else self.table
            fields.append(f'"brackets":{json.dumps(table, ensure_ascii=self.chance(0.5))}')
        if self.hiding:
            fields.append(f'"marks":{json.dumps(self.marks(self.hiding), ensure_ascii=self.chance(0.5))}')
        if self.chance(mood.of_kind):
            fields.append(f'"eol":{self.kind()}')
        return f'{{"cmd":"open",{",".join(fields)}}}'

    def marks(self, hiding: Hiding) -> Any:
        """The marks as a line has them; now and then none that may be."""
        if self.chance(0.06):
            return self.draw.choice(NO_MARKS)
        found = {name: part for name, part in hiding._asdict().items() if part}
        return found | ({"quotes": [*hiding.quotes]} if hiding.quotes or self.chance(0.3) else {})

    def kind(self) -> str:
        """A kind of line ending, mostly another than that of the text; now and then none."""
        if self.chance(0.03):
            return json.dumps(self.draw.choice(NO_KINDS))
        others = [kind for kind in ENDINGS if kind != self.document.text.kind]
        return json.dumps(self.draw.choice(others if self.chance(0.7) else [*ENDINGS]))

    def eol(self) -> str:
        if self.chance(0.04):
            return self.draw.choice(NO_CHANGES)
        return f'{{"cmd":"eol","kind":{self.kind()}}}'

    def edit(self) -> str:
        return f'{{"cmd":"edit","ops":[{self.ops()}]}}'

    def ops(self) -> str:
        if self.hiding and self.chance(self.mood.curtains):
            return self.op_of_a_mark()
        many = self.mood.ops if self.chance(0.03) else min(self.mood.ops, 5)
        count = 1 if self.chance(0.7) else self.draw.randint(2, many)
        spans = [self.span_in_front() if self.is_apart() else self.span() for _ in range(count)]
        if count > 1 and self.chance(0.8):
            spans = apart(spans)
            self.draw.shuffle(spans)
        return ",".join(map(self.op, spans))

    def edit_beyond(self) -> str:
        """An edit that is refused: its last op is behind the text."""
        beyond = len(self.document.text.units) + 1
        return f'{{"cmd":"edit","ops":[{self.op(self.span())},{{"at":[{beyond},{beyond}],"text":"x"}}]}}'

    def eol_again(self) -> str:
        """A change of line endings that finds nothing to do, where the text has a kind."""
        kind = self.document.text.kind
        return f'{{"cmd":"eol","kind":{json.dumps(kind if kind in ENDINGS else "lf")}}}'

    def op(self, span: tuple[int, int]) -> str:
        start, end = span
        self.place = start if self.chance(0.5) else end
        units = len(self.document.text.units)
        if units > self.mood.units and self.chance(0.3) and start <= units:
            end = min(units, start + self.draw.randint(0, units // 2))
        text = self.spelled(self.text(3 if units > self.mood.units else 5))
        force = self.draw.choice(["", "", "", "", ',"force":true', ',"force":false'])
        if self.chance(0.25) and max(start, end) <= units:
            positions = [*self.document.position_of(start), *self.document.position_of(end)]
            return f'{{"range":{json.dumps(positions)},"text":{text}{force}}}'
        return f'{{"at":[{start},{end}],"text":{text}{force}}}'

    def op_of_a_mark(self) -> str:
        """Takes out a mark that stands in the text, or a part of one, often the first; or puts one in, often in front."""
        opening, text = (self.hiding.block or (None, None))[0], self.document.text
        mark = opening if opening and self.chance(0.4) else self.draw.choice(mark_texts(self.hiding))
        in_front = self.is_apart() or self.chance(0.5)
        start = end = self.whole(self.few() if in_front else self.draw.randint(0, len(text.units)))
        at = text.units.find(units_of(mark), 0 if in_front else start)
        if at >= 0 and self.chance(0.85):
            start, end, mark = at, at + len(units_of(mark)), ""
        self.place = start
        return f'{{"at":[{start},{end}],"text":{self.spelled(mark)}}}'

    def find(self) -> str:
        if self.chance(0.03):
            return self.draw.choice(NO_SEARCHES)
        return f'{{"cmd":"find","text":{self.spelled(text_of(self.sought()))}}}'

    def replace(self) -> str:
        """What comes behind it often shows that it is a step by itself."""
        if self.chance(0.03):
            return self.draw.choice(NO_SEARCHES)
        sought = self.sought()
        spans = self.document.text.occurrences(sought) if sought else []
        if spans:
            self.place = self.draw.choice(self.draw.choice(spans))
        if not self.coming and self.chance(0.4):
            self.coming = [*self.draw.choice(BEHIND_A_REPLACE)]
        new = self.replacing(sought, len(spans))
        return f'{{"cmd":"replace","find":{self.spelled(text_of(sought))},"text":{self.spelled(text_of(new))}}}'

    def replacing(self, sought: str, count: int) -> str:
        """A text in the place of so many, no longer than the sought one where the document would grow too long."""
        kind = self.draw.random()
        if kind < 0.2:
            new = ""
        elif kind < 0.35:
            new = sought + units_of(self.text(1)) if self.chance(0.7) else sought * 2
        else:
            new = units_of(self.text(4))
        room = self.mood.units + 20 - len(self.document.text.units)
        if count * (len(new) - len(sought)) <= max(room, 0):
            return new
        return sought if self.chance(0.1) else self.cut(new, 0, len(sought))

    def sought(self) -> str:
        """Units that are looked for: often such as stand in the text, and often more than once; now and then none."""
        kind = self.draw.random()
        if kind < 0.015:
            return ""
        if kind < 0.3:
            return units_of(self.draw.choice(self.alphabet)) * (self.draw.randint(1, 3) if self.chance(0.3) else 1)
        if kind < 0.4:
            return units_of(self.text(4)) or "a"
        if kind < 0.48:
            return self.draw.choice([*BREAKS, "\n\r", "\n\n", "\r\n\r\n"])
        return self.piece_of_the_text() or "a"

    def piece_of_the_text(self) -> str:
        """Units that stand in the text: at any place, around an edge or a line's end, nearly all; now and then one is another."""
        units = self.document.text.units
        kind = self.draw.random()
        if kind < 0.45:
            start = self.draw.randint(0, len(units))
        elif kind < 0.7:
            start = self.place - self.few()
        elif kind < 0.9:
            start = self.draw.choice(self.document.text.ends) - self.few()
        else:
            start = self.few()
        most = len(units) if kind >= 0.9 else 60 if self.chance(0.1) else 6
        start = min(max(start, 0), len(units))
        piece = self.cut(units, start, start + self.draw.randint(1, max(most, 1)))
        if self.chance(0.08):
            piece = self.cut(piece, 0, len(piece) - 1) + units_of(self.draw.choice(self.alphabet))
        return piece

    def cut(self, units: str, start: int, end: int) -> str:
        """These units without halves of pairs, which no line can bring in."""
        return units[start + cuts_pair(units, start) : end + cuts_pair(units, end)]

    def decorate(self) -> str:
        owner = self.draw.choice([1, 1, 1, 2, 2, 3, *ODD_NUMBERS[:-1]]) if self.chance(0.2) else self.draw.randint(1, 2)
        mine = [id for id, it in self.document.decorations.items() if it.owner == owner]
        is_full = len(self.document.decorations) > self.mood.marks
        fewer = self.few() * (4 if is_full else 1) if self.chance(0.6) else 0
        remove = self.draw.sample(mine, k=min(len(mine), fewer))
        if self.chance(0.04):
            remove.append(self.decoration())
        add = [self.new_decoration() for _ in range(60 if self.chance(0.005) else self.few())]
        if len(self.document.decorations) < self.mood.heap and self.chance(0.4):
            add = self.heaped()
        elif self.chance(self.mood.at_endings):
            add = self.at_an_ending()
        return f'{{"cmd":"decorate","owner":{owner},"remove":{json.dumps(remove)},"add":[{",".join(add)}]}}'

    def heaped(self) -> list[str]:
        """Many decorations of one place, of one span, or of most of the text."""
        count, units = self.draw.randint(self.mood.heap // 2, self.mood.heap), len(self.document.text.units)
        start, end = self.span()
        edges = [(start, start if self.chance(0.5) else end)] * count
        if self.chance(0.3):
            edges = [(self.whole(self.few()), self.whole(units - self.few())) for _ in edges]
        return [self.spelled_decoration(min(edge), max(edge), self.draw.randint(0, 3)) for edge in edges]

    def at_an_ending(self) -> list[str]:
        """Decorations that start and end close to the end of a line, also inside its ending where that is a place."""
        end = self.draw.choice(self.document.text.ends)
        places = [self.whole(end + self.draw.randint(-1, 3)) for _ in range(2 * self.draw.randint(2, 6))]
        edges = zip(places[::2], places[1::2])
        return [self.spelled_decoration(min(edge), max(edge), self.draw.randint(0, 3)) for edge in edges]

    def whole(self, place: int) -> int:
        """The nearest place of the text that is no later."""
        place = min(max(place, 0), len(self.document.text.units))
        return place - self.document.text.cuts(place)

    def new_decoration(self) -> str:
        stick = self.draw.choice([4, *ODD_NUMBERS]) if self.chance(0.01) else self.draw.randint(0, 3)
        return self.spelled_decoration(*self.span(), stick)

    def spelled_decoration(self, start: int, end: int, stick: int) -> str:
        collapse = self.draw.choice(["", "", ',"collapse":true', ',"collapse":false'])
        return f'{{"at":[{start},{end}],"stick":{stick}{collapse}}}'

    def deco(self) -> str:
        return f'{{"cmd":"deco","id":{self.decoration()}}}'

    def decos(self) -> str:
        start, end = self.span()
        owner = f',"owner":{self.draw.choice([1, 2, 9])}' if self.chance(0.3) else ""
        return f'{{"cmd":"decos","at":[{start},{end}]{owner}}}'

    def value(self) -> str:
        start, end = self.span()
        return f'{{"cmd":"value","at":[{start},{end}]}}'

    def ask_line(self, name: str) -> str:
        return f'{{"cmd":"{name}","n":{self.line_number()}}}'

    def ask_position(self, name: str) -> str:
        line, column = self.position()
        return f'{{"cmd":"{name}","line":{line},"col":{column}}}'

    def ask_offset(self) -> str:
        return f'{{"cmd":"position","offset":{self.offset()}}}'

    def brackets(self) -> str:
        first, last = self.line_number(), self.line_number()
        if self.chance(0.95):
            first, last = min(first, last), max(first, last)
        if self.mood.units > 1000:
            last = min(last, first + 20)
        return f'{{"cmd":"brackets","from":{first},"to":{last}}}'

    def read(self) -> str:
        most = 6 if self.mood.units < 1000 else 300
        count = self.draw.choice([0, 1, 9, 30, *ODD_NUMBERS]) if self.chance(0.2) else self.draw.randint(2, most)
        return f'{{"cmd":"read","id":{self.snapshot()},"count":{count}}}'

    def close(self) -> str:
        return f'{{"cmd":"close","id":{self.snapshot()}}}'

    def deliver(self) -> str:
        """Mostly the next event, if it was sent; else one that comes again, too early or out of order, or none."""
        sent, follower = self.document.sent, self.document.follower
        n = self.draw.randint(0, len(sent) + 1) if self.chance(0.1) else self.draw.randint(1, max(1, len(sent)))
        next_ones = [at for at, event in enumerate(sent, 1) if follower and event.before == follower.version]
        if next_ones and self.chance(0.7):
            n = self.draw.choice(next_ones)
        return f'{{"cmd":"deliver","n":{self.draw.choice(ODD_NUMBERS) if self.chance(0.01) else n}}}'

    def mirrored(self) -> str:
        lines = len(self.document.follower.text.starts) if self.document.follower else 1
        n = self.draw.choice([0, lines + 1, *ODD_NUMBERS]) if self.chance(0.04) else self.draw.randint(1, lines)
        return f'{{"cmd":"mirrored","n":{n}}}'


def apart(spans: list[tuple[int, int]]) -> list[tuple[int, int]]:
    """The same places as spans that do not overlap, some of which touch."""
    places = sorted(place for span in spans for place in span)
    return list(zip(places[::2], places[1::2]))


def bare(name: str) -> Callable[[Writer], str]:
    return lambda _: f'{{"cmd":"{name}"}}'


def about(asked: Callable[[Writer, str], str], name: str) -> Callable[[Writer], str]:
    return lambda writer: asked(writer, name)


MAKERS: dict[str, Callable[[Writer], str]] = {
    "open": Writer.open,
    "edit": Writer.edit,
    "edit beyond": Writer.edit_beyond,
    "eol again": Writer.eol_again,
    "eol": Writer.eol,
    "decorate": Writer.decorate,
    "deco": Writer.deco,
    "decos": Writer.decos,
    "value": Writer.value,
    "position": Writer.ask_offset,
    "brackets": Writer.brackets,
    "read": Writer.read,
    "close": Writer.close,
    "find": Writer.find,
    "replace": Writer.replace,
    "deliver": Writer.deliver,
    "mirrored": Writer.mirrored,
    **{name: bare(name) for name in ("undo", "redo", "stop", "size", "version", "changes", "snapshot", "mirror", "send")},
    **{name: about(Writer.ask_line, name) for name in ("line", "stops")},
    **{name: about(Writer.ask_position, name) for name in ("offset", "match", "level")},
}


def is_same(reply: bytes, expected: bytes) -> bool:
    return reply == expected or expected == UNJUDGED
