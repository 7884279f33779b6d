"""The scripts of `bench/run --shapes`: where a program that keeps trees may be slower than a flat document."""
import random
import sys
from collections.abc import Iterator
from itertools import accumulate
from pathlib import Path
from typing import NamedTuple

from cases import LINE, MILLION, TAIL, Case, Lines, at, decorate, edit, ended, find, op, opened, plain, torn

sys.path.append(str(Path(__file__).resolve().parent.parent / "fuzz"))
from played import script  # noqa: E402

UNDO, REDO = '{"cmd":"undo"}', '{"cmd":"redo"}'


class Shape(NamedTuple):
    """A case of which no line is refused, and what is told of the memory that is resident."""

    case: Case
    first: int = 0  # behind how many of the lines it is looked at first; then it is behind the last
    counted: dict[str, int] = {}  # how many the text has of what: what comes to be resident is told for one of them
    is_of_most: bool = False  # whether that is the most that was resident at any time, in place of what stays


def shape(what: str, size: str, setup: Lines, lines: Lines, **rest: object) -> Shape:
    """The shape of these lines, all of which the flat baseline gets."""
    return Shape(Case(what, size, setup, lines, [], len(lines)), **rest)


# ---- decorations


def decoration_shapes(part: int) -> Iterator[Shape]:
    """Edits at many decorations of one place, and of many places inside wide ones."""
    for count, units, place, inserts in ((100_000, 1_000, 0, 20), (1_000, 100_000, 50_000, 200)):
        document = [*plain(units), decorate([], [(place, place)] * (count // part))]
        lines = [batch([place], 0)] * inserts
        yield shape("insert at decorations of one place", f"{count // part:,}", document, lines)
    count, units, draw = 1_000 // part, 100_000, random.Random(20)
    wide = [(draw.randrange(1_000), units - draw.randrange(1_000)) for _ in range(count)]
    batches = [batch(sorted(draw.sample(range(2_000, units - 2_000), count)), 0) for _ in range(5)]
    yield shape("as many ops among wide decorations", f"{count:,}", [*plain(units), decorate([], wide)], batches)


def batch(places: list[int], removed: int) -> str:
    """One edit that puts a unit at each of these places, in place of so many."""
    return edit(*(op(place, place + removed, "x") for place in places))


# ---- brackets and lines


def level_shapes(part: int) -> Iterator[Shape]:
    """Brackets that are closed by nothing, or stand beyond the most open, in texts of which the first line is edited."""
    texts = (("([)", "", 100_000, 5), ("(", "", 100_000, 5), ("([])", "(" * 299 + "\n", MILLION, 2))
    for line, before, count, rounds in texts:
        text = before + f"{line}\n" * (count // part)
        name = f"299 (, then {line}" if before else line
        document = [*opened(text), at("level", 1, 1)]
        lines = [batch([0], 0), at("level", text.count("\n") + 1, 1)] * rounds
        yield shape(f"insert at 0, then level: {name}", f"{count // part:,}", document, lines)


def edited_shapes(part: int) -> Iterator[Shape]:
    """Each second line edited at once, then the first and the last in turn, with a parse before that and without."""
    count = 100_000 // part
    text = "\n".join(["f(x)"] * count)
    each_second = batch([5 * line for line in range(0, count, 2)], 1)
    ends = [place for done in range(0, 200, 2) for place in (0, len(text) + done + 1)]
    for size, parse in (("no parse", []), ("a parse", [at("level", 1, 1)])):
        lines = [batch([place], 0) for place in ends]
        yield shape(f"first, last of {count:,} lines in turn", size, [*opened(text), *parse, each_second], lines)


def parse_shapes(part: int) -> Iterator[Shape]:
    """The first question about brackets, and what the answer keeps."""
    texts = (("", 5), ("()", 3), ("abcdefghijklmnopqrst", 1), ("f(x)[y]", 1), ("(", 1), ("([])", 1))
    for line, millions in texts:
        count, brackets = millions * MILLION // part, sum(unit in "()[]" for unit in line)
        counted = {"line": count} | ({"bracket": brackets * count} if brackets else {})
        name = f"first parse: {line or 'empty lines'}"
        yield shape(name, f"{count:,}", opened(f"{line}\n" * count), [at("level", count, 1)], counted=counted)


# ---- steps, pieces, and all together


def one_unit_edits(units: int, count: int) -> Lines:
    """Edits at random places, each of which puts in, takes out or replaces a unit."""
    draw = random.Random(21)
    kinds = [draw.choice([(0, "x"), (1, ""), (1, "x")]) for _ in range(count)]
    lengths = accumulate((len(text) - removed for removed, text in kinds), initial=units)
    starts = [draw.randrange(length) for length, _ in zip(lengths, kinds)]
    return [edit(op(start, start + removed, text)) for start, (removed, text) in zip(starts, kinds)]


def undo_shapes(part: int) -> Iterator[Shape]:
    """One step that is undone and redone again and again."""
    units, count = MILLION // part, 10_000 // part
    both = [UNDO, REDO]
    yield shape(f"undo, redo {units:,} units deleted", "", [*plain(units), edit(op(0, units, ""))], both * 200, first=2)
    document = [*plain(100_000), *one_unit_edits(100_000, count)]
    yield shape(f"undo, redo {count:,} edits of a unit", "", document, both * 50, first=2)


def snapshot_shapes(part: int) -> Iterator[Shape]:
    """Snapshots of a text that a hundred thousand units in their own pieces stand in, or between."""
    places = sorted(random.Random(22).sample(range(0, MILLION, 2), 50_000 // part))
    lines = [line for id in range(1, 11) for line in ('{"cmd":"snapshot"}', f'{{"cmd":"close","id":{id}}}')]
    yield shape("snapshot, close: pieces", f"{100_000 // part:,}", [*plain(MILLION), batch(places, 1)], lines)


def event_shapes(part: int) -> Iterator[Shape]:
    """Typed units, each of which is sent, and events that a mirror takes."""
    count, send = 10_000 // part, '{"cmd":"send"}'
    typed = [line for at in range(1_000, 1_000 + count) for line in (edit(op(at, at, "x")), send)]
    yield shape("type a unit, send it", f"{count:,}", plain(1_000), typed, counted={"event": count})
    alone = [line for at in range(1_000, 1_000 + count) for line in (edit(op(at, at, "x")), '{"cmd":"size"}')]
    yield shape("type a unit, ask the size", f"{count:,}", plain(1_000), alone, counted={"edit": count})
    count, draw = 1_000 // part, random.Random(23)
    taken = [f'{{"cmd":"deliver","n":{n}}}' for n in range(1, count + 1)]
    sent = [line for _ in range(count) for line in (batch([draw.randrange(40_000)], 1), send)]
    yield shape("deliver", f"{count:,}", [*plain(50_000), '{"cmd":"mirror"}', *sent], taken)


def find_shapes(part: int) -> Iterator[Shape]:
    """Searches of all of a text, in one piece and in many."""
    units = 100 * MILLION // part
    for way, document in (("one piece", opened), ("pieces", torn)):
        setup = document(ended(LINE, units, TAIL))
        yield shape(f"find: {way}", f"{units:,}", setup, [find("zone")] * 10, counted={"unit": units}, is_of_most=True)


def played_shapes(part: int) -> Iterator[Shape]:
    """The lines that `textmodel play COUNT 7` makes by itself."""
    for count in (20_000, 100_000, 160_000):
        yield shape("play, seed 7", f"{count // part:,}", [], list(script(count // part, 7)))


def all_shapes(part: int) -> Iterator[Shape]:
    """Every shape, made as it is asked for; each size is divided by this."""
    groups = (
        decoration_shapes, level_shapes, edited_shapes, played_shapes, undo_shapes, snapshot_shapes, event_shapes, find_shapes,
        parse_shapes,
    )  # fmt: skip
    for group in groups:
        yield from group(part)
