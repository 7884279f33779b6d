"""The scripts that bench/run times: each case is made from a seed of its own, so that it is the same in every run."""
import json
import random
from collections.abc import Callable, Iterator
from functools import lru_cache, partial
from typing import NamedTuple

LINE = "some words of a line that is as long as most\n"
CHUNK = 15_000_000  # units that one script line may bring in: less than 2^24 bytes
MILLION = 1_000_000
ORDERS = ("rising", "falling", "mixed")
MARKS = (1_000, 30_000)  # how many decorations
MANY_MARKS = (*MARKS, 100_000)  # the same, where an edit stands among them
WAYS = (("one a line", False), ("all in one line", True))

Lines = list[str]
Pair = tuple[Lines, Lines]  # lines, and as many that are refused


class Case(NamedTuple):
    """One row: lines to be timed, and as many of the same shape and length that are refused, after a setup."""

    what: str
    size: str
    setup: Lines
    lines: Lines
    refused: Lines
    flat: int  # how many of the lines the flat baseline gets: 0 where already the setup would take it too long

    @property
    def before(self) -> Lines:
        """What is not timed: the setup, and one refused line, for which the program takes its first memory."""
        return self.setup + self.refused[:1]


class Scale(NamedTuple):
    """How large and how long the cases are."""

    texts: list[tuple[int, int]]  # units, and how many questions that go over all of them the flat baseline gets
    nested: list[tuple[int, int]]  # units, and after how many edits the flat baseline parses all brackets
    count: int  # lines to be timed, where a line takes little
    enough: float  # seconds of processor time after which a case is not run again


FULL = Scale([(10_000, 20_000), (1_000_000, 500), (100_000_000, 10)], [(1_000_000, 10), (10_000_000, 3)], 50_000, 2)
QUICK = Scale([(10_000, 2_000), (1_000_000, 100)], [(1_000_000, 3)], 5_000, 0.2)


def size_of(units: int) -> str:
    """A number of units in words."""
    return f"{units // 1_000_000} MB" if units >= 1_000_000 else f"{units // 1_000} KB"


def op(start: int, end: int, text: str) -> str:
    """An op of an edit. A line feed in the text stands escaped."""
    return f'{{"at":[{start},{end}],"text":"{text}"}}'


def op_in_line(line: int, start: int, end: int, text: str) -> str:
    """The same of a span between two columns of a line."""
    return f'{{"range":[{line},{start},{line},{end}],"text":"{text}"}}'


def edit(*ops: str) -> str:
    """A line that edits."""
    return f'{{"cmd":"edit","ops":[{",".join(ops)}]}}'


def at(command: str, line: int, col: int) -> str:
    """A line that asks about a position."""
    return f'{{"cmd":"{command}","line":{line},"col":{col}}}'


def nowhere(command: str, line: int, col: int) -> str:
    """The same line, as long as that, about a position that no text has."""
    return at(command, 0, 10 ** (len(f"{line}{col}") - 2))


def brackets(first: int, last: int) -> str:
    """A line that asks for the brackets of lines."""
    return f'{{"cmd":"brackets","from":{first},"to":{last}}}'


def decorate(remove: list[int], add: list[tuple[int, int]]) -> str:
    """A line that changes decorations. The mode of a new one is told by its place."""
    new = ",".join(f'{{"at":[{start},{end}],"stick":{(start + end) % 4}}}' for start, end in add)
    return f'{{"cmd":"decorate","owner":7,"remove":[{",".join(map(str, remove))}],"add":[{new}]}}'


def opened(text: str, marks: str = "") -> Lines:
    """Lines that make a document of this text, with these marks of comments and strings."""
    chunks = [json.dumps(text[start : start + CHUNK])[1:-1] for start in range(0, len(text), CHUNK)]
    later = [edit(op(start * CHUNK, start * CHUNK, chunk)) for start, chunk in enumerate(chunks) if start > 0]
    return [f'{{"cmd":"open","text":"{chunks[0]}"{marks}}}', *later]


@lru_cache(maxsize=1)
def plain(units: int) -> Lines:
    """A document of words."""
    return opened((LINE * (units // len(LINE) + 1))[:units])


def in_pieces(units: int) -> Lines:
    """A document of words in many pieces: an edit replaces a unit in each hundred, or at most 100,000; lines stay."""
    draw, step = random.Random(1), max(100, units // 100_000)
    places = (start + draw.randrange(step - 1) for start in range(0, units - step, step))
    ops = [op(place, place + 1, "x") for place in places if place % len(LINE) != len(LINE) - 1]
    return [*plain(units), edit(*ops)]


# ---- the text


def edits(units: int, count: int) -> Pair:
    """Edits at random places that add as many units as they remove, and the same with their spans turned round."""
    draw, lines, refused = random.Random(2), [], []
    for _ in range(count):
        length, text = draw.choice([(1, "q"), (2, ".."), (3, "xyz"), (3, "a\\nb")])
        start = draw.randrange(units - length)
        lines.append(edit(op(start, start + length, text)))
        refused.append(edit(op(start + length, start, text)))
    return lines, refused


def growing(units: int, count: int) -> Pair:
    """In turn an edit at a random place that adds more than it removes, and where an offset is and where a line begins."""
    draw, size, lines, refused = random.Random(10), units, [], []
    for _ in range(count):
        length, text = draw.choice([(0, "k"), (0, "ab"), (1, "uvw"), (2, "wxyz"), (3, "pqrst")])
        start = draw.randrange(size - length)
        size += len(text) - length
        offset, line = draw.randrange(1, size), draw.randrange(1, units // len(LINE))
        lines += edit(op(start, start + length, text)), f'{{"cmd":"position","offset":{offset}}}', at("offset", line, 1)
        turned = op(start + length, start, text) if length else op(start + 1, start, text)
        refused += edit(turned), f'{{"cmd":"position","offset":{offset + size}}}', nowhere("offset", line, 1)
    return lines, refused


def in_lines(by_position: bool, units: int, count: int) -> Pair:
    """Edits within random lines, whose lengths they leave, told by positions or by offsets."""
    draw, lines, refused = random.Random(8), [], []
    for _ in range(count):
        length, text = draw.choice([(1, "q"), (2, ".."), (3, "xyz")])
        line, start = draw.randrange(units // len(LINE)), draw.randrange(len(LINE) - 1 - length)
        for kept, (first, last) in ((lines, (start, start + length)), (refused, (start + length, start))):
            if by_position:
                kept.append(edit(op_in_line(line + 1, first + 1, last + 1, text)))
            else:
                kept.append(edit(op(line * len(LINE) + first, line * len(LINE) + last, text)))
    return lines, refused


def typed(places: int, units: int, count: int) -> Pair:
    """A unit typed at each of so many places in turn, behind what was typed there, and the same with bad spans."""
    lines, refused = [], []
    for done in range(count):
        turn, which = divmod(done, places)
        at_first = units * (2 * which + 1) // (2 * places)
        now = at_first + turn + which * (turn + 1)  # behind what was typed there, and at the places before it
        lines.append(edit(op(now, now, "x")))
        refused.append(edit(op(now + 1, now, "x")))
    return lines, refused


def positions(units: int, count: int) -> Pair:
    """Questions about the positions of random offsets, and of offsets behind the text."""
    draw = random.Random(3)
    offsets = [draw.randrange(1, units) for _ in range(count)]
    return tuple([f'{{"cmd":"position","offset":{offset + past}}}' for offset in offsets] for past in (0, units))


def offsets(units: int, count: int) -> Pair:
    """Questions about the offsets of random positions, and of none."""
    draw = random.Random(4)
    places = [(draw.randrange(1, units // len(LINE)), draw.randrange(1, len(LINE))) for _ in range(count)]
    return tuple([asked("offset", *place) for place in places] for asked in (at, nowhere))


def reading(units: int, count: int) -> Pair:
    """Lines one after another, from the middle of the text on, and lines behind the text."""
    last = units // len(LINE)
    numbers = [(last // 2 + done) % last + 1 for done in range(count)]
    return tuple([f'{{"cmd":"line","n":{number + past}}}' for number in numbers] for past in (0, units + 1))


def text_cases(scale: Scale) -> Iterator[Case]:
    """Edits of plain texts, and questions about their lines and places."""
    rows = (
        ("edit at a random place", plain, edits),
        ("edit within a line, by offsets", plain, partial(in_lines, False)),
        ("edit within a line, by positions", plain, partial(in_lines, True)),
        ("type at one place", plain, partial(typed, 1)),
        ("type at fifty places in turn", plain, partial(typed, 50)),
        ("position of a random offset", in_pieces, positions),
        ("offset of a random position", in_pieces, offsets),
        ("lines one after another", in_pieces, reading),
    )
    for what, document, made in rows:
        for units, flat in scale.texts:
            yield Case(what, size_of(units), document(units), *made(units, scale.count), flat)


def growing_cases(scale: Scale) -> Iterator[Case]:
    """A text that grows as it is edited and asked, twice as many steps as other rows have lines: 100,000 edits make 190 KB of
    the 10. Edits and questions count."""
    for units, flat in scale.texts[:2]:
        lines, refused = growing(units, 2 * scale.count)
        compared = len(lines) if units <= 10_000 else flat
        yield Case("edit, position, line as it grows", size_of(units), plain(units), lines, refused, compared)


def undo_cases(scale: Scale) -> Iterator[Case]:
    """Undo and redo of many steps of one edit each. What is refused is a redo of nothing. In the text of 100 MB the first step
    pasted it, whose undo and redo are the dearest lines."""
    count = 2 * scale.count
    for units, _ in scale.texts:
        steps = [line for step in edits(units, count)[0] for line in (step, '{"cmd":"stop"}')]
        lines = ['{"cmd":"undo"}'] * count + ['{"cmd":"redo"}'] * count
        flat = 2 * count if units <= 10_000 else 0
        name = f"undo, then redo {count:,} edits"
        yield Case(name, size_of(units), plain(units) + steps, lines, ['{"cmd":"redo"}'] * (2 * count), flat)


# ---- search


TAIL = " lines zone"  # with which a text of words ends, and which has what is looked for
WORST = "a" * 63 + "b"
PIECES = 100_000
# what is looked for, what the text has again and again before its end, that end, and, for each line of most other rows, over
# how many units the lines of a row go. No unit before the end is a `z`; of the 45 units of a line ten are as the first one of
# ` lines`, and at one of them the text goes on as ` line`; in the worst case 63 units are the same at each place
SEARCHES = (
    ("rare unit", "zone", LINE, TAIL, 20_000),
    ("common unit", " lines", LINE, TAIL, 20_000),
    ("worst case", WORST, "a", WORST, 40),
)


def ended(filler: str, units: int, tail: str) -> str:
    """A text of so many units: the filler again and again, and this at its end."""
    return (filler * (units // len(filler) + 1))[: units - len(tail)] + tail


def torn(text: str) -> Lines:
    """A document of this text in as many pieces: an edit puts units in again that stand apart, half as many."""
    step = len(text) // (PIECES // 2)
    places = range(step // 2, len(text), step)
    return [*opened(text), edit(*(op(place, place + 1, json.dumps(text[place])[1:-1]) for place in places))]


def scattered(count: int) -> Callable[[str], Lines]:
    """A document of a text, of which so many units at random places were put in again, each by a line of its own."""

    def document(text: str) -> Lines:
        places = random.Random(17).choices(range(len(text)), k=count)
        return [*opened(text), *(edit(op(place, place + 1, json.dumps(text[place])[1:-1])) for place in places)]

    return document


def find(sought: str) -> str:
    """A line that looks for a text."""
    return f'{{"cmd":"find","text":"{sought}"}}'


def replace(sought: str, text: str) -> str:
    """A line that puts a text in the place of all that is found."""
    return f'{{"cmd":"replace","find":"{sought}","text":"{text}"}}'


def misnamed(line: str) -> str:
    """The same line with another name of the command, or of a field."""
    return line.replace("find", "fins", 1)


def find_cases(scale: Scale) -> Iterator[Case]:
    """Searches of all of a text, which find what its end has. Where the name is another stands for what is refused."""
    ways = [("one piece", opened, scale.texts[1:]), (f"{PIECES:,} pieces", torn, scale.texts[1:])]
    ways += [(f"after {count:,} edits", scattered(count), scale.texts[1:2]) for count in (10_000, 50_000)]
    for way, document, texts in ways:
        for what, sought, filler, tail, often in SEARCHES:
            for units, flat in texts:
                count = max(1, scale.count * often // units)
                lines, refused = ([line] * count for line in (find(sought), misnamed(find(sought))))
                setup = document(ended(filler, units, tail))
                yield Case(f"find, {what}, {way}", size_of(units), setup, lines, refused, min(flat, count))
    units = scale.texts[-1][0] // 8
    lines, refused = ([line] * 2 for line in (find("a" * (units - 1) + "b"), misnamed(find("a" * (units - 1) + "b"))))
    yield Case("find, half of the text", size_of(2 * units), opened("a" * 2 * units), lines, refused, 2)


def with_places(count: int) -> tuple[Lines, list[int]]:
    """A document of a million units with a `q` at so many places, and these."""
    places = sorted(random.Random(13).sample(range(0, MILLION, 2), count))
    units = [*ended(LINE, MILLION, TAIL)]
    for place in places:
        units[place] = "q"
    return opened("".join(units)), places


REPLACES = [replace("q", "zz"), replace("zz", "q")]


def replaced(_places: list[int]) -> Pair:
    """Each `q` becomes `zz`, then each `zz` a `q`. Where the name of a field is another stands for what is refused."""
    return REPLACES, [misnamed(line) for line in REPLACES]


def edited(places: list[int]) -> Pair:
    """The same by edits, and with their first spans turned round."""
    there = [op(place, place + 1, "zz") for place in places]
    back = [op(place + before, place + before + 2, "q") for before, place in enumerate(places)]
    turned = op(places[0] + 1, places[0], "zz"), op(places[0] + 2, places[0], "q")
    return [edit(*there), edit(*back)], [edit(first, *rest[1:]) for first, rest in zip(turned, (there, back))]


def undone(_places: list[int]) -> Pair:
    """The last step back and on. Where nothing is left to redo stands for what is refused."""
    return ['{"cmd":"undo"}', '{"cmd":"redo"}'], ['{"cmd":"redo"}'] * 2


def replace_cases(scale: Scale) -> Iterator[Case]:
    """Replaces of one unit by two and back, the same by edits, and one that is undone and redone. Replaces and edits leave the
    same text and the same history; so the difference of the two rows is the search, and the making of the ops. The flat document
    moves all units behind each op, so of many places it gets the first line alone."""
    rows = (("replace, there and back", replaced), ("the same by edits", edited), ("undo, redo of a replace", undone))
    for what, made in rows:
        for count in (1, 1_000, 2 * scale.count):
            document, places = with_places(count)
            setup = [*document, *REPLACES[:1]] if made is undone else document
            turns = max(1, min(scale.count // 100, scale.count // (2 * count)))
            lines, refused = (turn * turns for turn in made(places))
            yield Case(what, f"{count:,}", setup, lines, refused, len(lines) if count <= 1_000 else 1)


def search_cases(scale: Scale) -> Iterator[Case]:
    """All that look for a text."""
    yield from find_cases(scale)
    yield from replace_cases(scale)


# ---- decorations


def marks(count: int, order: str) -> list[tuple[int, int]]:
    """Spans in a text of a million units, in this order."""
    step = MILLION // count
    spans = [(start, start + 1 + start // step % 30) for start in range(0, step * count, step)]
    if order == "mixed":
        random.Random(5).shuffle(spans)
    return spans[::-1] if order == "falling" else spans


def among(count: int, edited: int) -> Pair:
    """In turn an edit at a random place and a question about one of so many decorations."""
    ids = random.Random(6).choices(range(1, count + 1), k=edited)
    asked = ([f'{{"cmd":"deco","id":{one + past}}}' for one in ids] for past in (0, count))
    both = zip(edits(MILLION, edited), asked)
    return tuple([line for turn in zip(changes, questions) for line in turn] for changes, questions in both)


def groups(values: list, at_once: bool) -> list[list]:
    """What each line has: all of the values, or one."""
    return [values] if at_once else [[value] for value in values]


def decoration_cases(scale: Scale) -> Iterator[Case]:
    """Edits among decorations, and decorations added and removed."""
    document = plain(MILLION)
    full = {count: [*document, decorate([], marks(count, "mixed"))] for count in MANY_MARKS}
    for count in MANY_MARKS:
        lines, refused = among(count, scale.count // 50)
        yield Case("edit, then ask where one is", f"{count:,}", full[count], lines, refused, scale.texts[1][1])
    for way, at_once in WAYS:
        for order in ORDERS:
            for count in MARKS:
                good = marks(count, order)
                both = (good, [span[::-1] for span in good])
                lines, refused = ([decorate([], group) for group in groups(many, at_once)] for many in both)
                yield Case(f"add {way}, {order}", f"{count:,}", document, lines, refused, len(lines))
    for way, at_once in WAYS:
        for count in MARKS:
            ids = random.Random(7).sample(range(1, count + 1), count)
            both = (ids, [one + count for one in ids])
            lines, refused = ([decorate(group, []) for group in groups(many, at_once)] for many in both)
            yield Case(f"remove {way}, mixed", f"{count:,}", full[count], lines, refused, len(lines))


# ---- kinds of line ending


def eol(kind: str) -> str:
    """A line that changes the kind of line ending."""
    return f'{{"cmd":"eol","kind":"{kind}"}}'


def kind_cases(scale: Scale) -> Iterator[Case]:
    """Changes of the kind of line ending among so many decorations, and one that is undone and redone. Where nothing is
    left to redo stands for what is refused."""
    turns = scale.count // 2_500
    documents = {count: [*plain(MILLION), decorate([], marks(count, "mixed"))] for count in MARKS}
    lines, refused = ([eol(kind) for kind in kinds] * turns for kinds in (("crlf", "lf"), ("crlg", "lg")))
    for count, document in documents.items():
        yield Case("eol crlf, eol lf in turn", f"{count:,}", document, lines, refused, len(lines))
    lines, refused = ['{"cmd":"undo"}', '{"cmd":"redo"}'] * turns, ['{"cmd":"redo"}'] * (2 * turns)
    for count, document in documents.items():
        yield Case("undo, redo of one eol in turn", f"{count:,}", [*document, eol("crlf")], lines, refused, len(lines))


# ---- brackets


def nested(units: int) -> tuple[Lines, int]:
    """A document of lines of 32 units, with brackets in each and up to twelve open, and how many lines it has."""
    opening = ["  " * depth + "if(x[i]) {" for depth in range(10)]
    block = [line.ljust(31) for line in opening + ["  " * depth + "}" for depth in reversed(range(10))]]
    count = units // 32
    return opened("\n".join(block[number % len(block)] for number in range(count))), count


def questions(command: str, last: int, count: int, draw: random.Random) -> Pair:
    """Questions at random places of lines up to this one, most of them brackets, and the same refused."""
    numbers = [draw.randrange(1, last - 60) for _ in range(count)]
    if command == "brackets":
        return [brackets(n, n + 59) for n in numbers], [brackets(n + 59, n) for n in numbers]
    cols = [(number - 1) % 20 * 2 + 3 if (number - 1) % 20 < 10 else draw.randrange(10, 31) for number in numbers]
    places = list(zip(numbers, cols))
    return [at(command, *place) for place in places], [nowhere(command, *place) for place in places]


def after_edits(units: int, last: int, asked: tuple[str, ...], rounds: int) -> Pair:
    """In turn a balanced text put in at a random place, and questions."""
    draw, lines, refused = random.Random(11), [], []
    for _ in range(rounds):
        place = draw.randrange(units - 60)
        turn = [tuple([edit(op(start, place, "([{x}])"))] for start in (place, place + 1))]
        for good, bad in turn + [questions(command, last, 1, draw) for command in asked]:
            lines += good
            refused += bad
    return lines, refused


def nested_cases(scale: Scale) -> Iterator[Case]:
    """Questions about nested brackets, where the tree is kept and after edits: there all lines count, and the first question
    after an edit parses again."""
    for command in ("level", "match", "brackets"):
        for units, flat in scale.nested:
            document, last = nested(units)
            lines, refused = questions(command, last, scale.count // 5, random.Random(10))
            name = "brackets of 60 lines" if command == "brackets" else command
            yield Case(f"{name}, tree kept", size_of(units), [*document, at("level", 1, 1)], lines, refused, 3 * flat)
    for name, asked in (("level, match", ("level", "match")), ("brackets of 60 lines", ("brackets",))):
        for units, flat in scale.nested:
            document, last = nested(units)
            lines, refused = after_edits(units, last, asked, scale.count // 25)
            flat_lines = flat * (1 + len(asked))
            yield Case(f"edit, then {name}", size_of(units), [*document, at("level", 1, 1)], lines, refused, flat_lines)


def parse_cases() -> Iterator[Case]:
    """What changes the level of all brackets: one opened before all others; and the first question."""
    document = opened(("f(x[i])".ljust(59) + "\n") * 42_000)
    lines = [edit(op(0, 0, "{")), brackets(1, 60)] * 100
    refused = [edit(op(1, 0, "{")), brackets(60, 1)] * 100
    yield Case("{ typed first, then 60 lines", "2.5 MB", [*document, at("level", 1, 1)], lines, refused, 10)
    block = ["{"] * 4 + ["(a)"] * 5 + ["}"] * 4 + [""]
    text = "".join(block[n % 14].ljust(27 + (n % 7 < 4)) + "\n" for n in range(35_000))
    lines, refused = ([asked("level", 35_000, 1)] for asked in (at, nowhere))
    yield Case("first parse, 45,000 brackets", "1 MB", opened(text), lines, refused, 1)


# ---- comments and strings


C_MARKS = ',"marks":{"line":"//","block":["/*","*/"],"quotes":["\\"","\'"]}'
MARKED = {"no marks": "", "marks": C_MARKS}
C_WIDTH = 64  # of a line of C, with its ending
TAILS = ["  // some words (or more)", '  puts("some words");', "  a = b; c = 'd';"]
BLOCK_TAIL = "  /* some words */"


def of_c(units: int, with_blocks: bool) -> tuple[str, int]:
    """A text of C, and how many lines it has: brackets in each, up to eleven open, and few in comments, in pairs also where
    nothing hides them. Some of the block comments, if it has any, go over two lines."""
    tails = [*TAILS, BLOCK_TAIL if with_blocks else TAILS[0]]
    code = ["  " * depth + "if(x[i]) {" for depth in range(10)] + ["  " * depth + "}" for depth in reversed(range(10))]
    block = [line.ljust(31) + tails[number % 4] for number, line in enumerate(code)]
    if with_blocks:
        block[9:11] = [code[9].ljust(31) + "  /* some words (or", "more) */".ljust(18) + "}"]
    count = units // C_WIDTH // len(block) * len(block)
    return "".join(block[number % len(block)].ljust(C_WIDTH - 1) + "\n" for number in range(count)), count


def inserts(last: int, rounds: int) -> Pair:
    """In turn a balanced text put into the code of a random line, and the level and the match at another place."""
    draw, lines, refused = random.Random(12), [], []
    for _ in range(rounds):
        line = draw.randrange(1, last)
        turn = [tuple([edit(op_in_line(line, start, 31, "([{x}])"))] for start in (31, 32))]
        for good, bad in turn + [questions(command, last, 1, draw) for command in ("level", "match")]:
            lines += good
            refused += bad
    return lines, refused


def hidden_cases(scale: Scale) -> Iterator[Case]:
    """Texts with comments and strings, with and without their marks; and a block mark in front of all lines, which makes a
    comment of them. The growth of a row with marks is what they cost: of an insert it is to be at most x2."""
    rounds = scale.count // 25
    for units, flat in scale.nested:
        text, last = of_c(units, True)
        for way, marks in MARKED.items():
            lines, refused = ([asked("level", last, 1)] for asked in (at, nowhere))
            yield Case(f"first parse of {size_of(units)} of C", way, opened(text, marks), lines, refused, 1)
        for way, marks in MARKED.items():
            setup = [*opened(text, marks), at("level", 1, 1)]
            yield Case(f"insert in {size_of(units)} of C, level, match", way, setup, *inserts(last, rounds), 3 * flat)
    text, last = of_c(42_000 * C_WIDTH, False)
    setup, level = [*opened(text, C_MARKS), at("level", 1, 1)], (at("level", last, 1), nowhere("level", last, 1))
    typed, taken = [edit(op(start, 0, "/*")) for start in (0, 1)], [edit(op(*span, "")) for span in ((0, 2), (2, 0))]
    lines, refused = ([put, asked, out, asked] * 50 for put, asked, out in zip(typed, level, taken))
    yield Case("/* typed first, level, taken out", "42,000", setup, lines, refused, 8)
    for way, before in (("code", []), ("comment", [typed[0], level[0]])):
        yield Case("insert in 42,000, level, match", way, setup + before, *inserts(last, rounds), 30)


# ---- lines


HOSTILE = {
    "bad JSON": ['{"cmd":"edit","ops":[{"at":[1,2],"text":"x"}]', '{"cmd":"line","n":1}}', "not json", '["', "[" * 200],
    "unknown names": ['{"cmd":"erase","at":[1,2]}', '{"cmd":"line","n":1,"m":1}', '{"command":"size"}'],
    "wrong types": ['{"cmd":"line","n":"1"}', '{"cmd":"edit","ops":7}', '{"cmd":"position","offset":1.5}', "[1]", "7"],
}


def line_cases(scale: Scale) -> Iterator[Case]:
    """Lines that are no commands, and one that is as long as a line may be."""
    for name, kinds in HOSTILE.items():
        lines = [kinds[number % len(kinds)] for number in range(scale.count)]
        yield Case(f"hostile lines, {name}", "", [], lines, [], len(lines))
    head = '{"cmd":"open","text":"'
    words = (LINE.replace("\n", "\\n") * (2**24 // len(LINE)))[: 2**24 - len(head) - 2].rstrip("\\")
    whole = head + words.ljust(2**24 - len(head) - 2) + '"}'
    yield Case("open a line of 2^24 bytes", "16 MB", [], [whole], [whole.replace("open", "oper", 1)], 1)


def all_cases(scale: Scale) -> Iterator[Case]:
    """Every case, made as it is asked for."""
    for group in (text_cases, growing_cases, undo_cases, search_cases, decoration_cases, kind_cases, nested_cases, hidden_cases):
        yield from group(scale)
    yield from parse_cases()
    yield from line_cases(scale)
