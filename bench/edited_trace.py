"""The trace of a text that is edited everywhere: parts of script lines, from a seed of its own, the same in every run.

The edits are carried out in a text here too, which tells how long it is and how many lines it has.
"""
import random
from collections.abc import Callable
from typing import NamedTuple

from cases import LINE, Lines, at, edit, nowhere, op

SEED = 31
LETTERS = "abcdefghijklmnopqrstuvwxyz" * 5 + " " * 26
CHUNK = 10_000  # units in a chunk of the text, or a hundredth of it
JUMP = 50  # units that are typed at one place
SNAPSHOTS = 10  # how many are taken one after another
SNAPSHOTS_AFTER = (1_000, 10_000, 50_000)  # edits

Both = tuple[str, str]  # a line, and one of nearly the same length that is refused
Kind = Callable[[], Both]


class Part(NamedTuple):
    """Lines of a trace, a fixed number in each round, and as many that are refused. They need as many parts before them as they follow;
    `before` is the text that the first of all these meets."""

    what: str  # nothing where it is not shown
    rounds: int
    lines: Lines
    refused: Lines
    before: bytes
    follows: int = 0

    def first(self, rounds: int) -> tuple[Lines, Lines]:
        """The lines of the first rounds, at most a given number, and those that are refused."""
        count = self.count(rounds)
        return self.lines[:count], self.refused[:count]

    def count(self, rounds: int) -> int:
        """How many lines a number of rounds has."""
        return min(rounds, self.rounds) * len(self.lines) // self.rounds

    def head(self, rounds: int) -> str:
        """The line before the part, as edited.c reads it, where the flat document gets at most a given number of rounds: the last ones,
        but the first ones of an undo, which are of the edits that it got last."""
        all_of_them, some = len(self.lines), self.count(rounds) if self.what else 0
        start = 0 if self.follows == 1 else all_of_them - some
        return f"# {all_of_them} {start} {start + some}"


class Text:
    """A text in chunks, so that an edit of a large one moves little."""

    def __init__(self, units: int) -> None:
        whole, size = (LINE * (units // len(LINE) + 1))[:units].encode(), max(CHUNK, units // 100)
        self.chunks = [bytearray(whole[start : start + size]) for start in range(0, units, size)]
        self.breaks = [chunk.count(b"\n") for chunk in self.chunks]
        self.units, self.whole = units, whole

    @property
    def lines(self) -> int:
        """How many lines there are."""
        return sum(self.breaks) + 1

    def joined(self) -> bytes:
        """All of it."""
        self.whole = self.whole or b"".join(self.chunks)
        return self.whole

    def find(self, offset: int) -> tuple[int, int]:
        """In which chunk the offset is, and where in it."""
        for number, chunk in enumerate(self.chunks):
            if offset < len(chunk):
                return number, offset
            offset -= len(chunk)
        return len(self.chunks) - 1, len(self.chunks[-1])

    def replace(self, start: int, length: int, new: str) -> int:
        """Replaces units of one chunk, and gives where these began: before `start`, where the chunk ends."""
        number, within = self.find(start)
        chunk = self.chunks[number]
        back = max(0, within + length - len(chunk))
        span = slice(within - back, within - back + length)
        self.breaks[number] += new.count("\n") - chunk[span].count(b"\n")
        chunk[span] = new.encode()
        self.units += len(new) - length
        self.whole = b""
        return start - back

    def line_of(self, offset: int) -> int:
        """The line of an offset, from 1."""
        number, within = self.find(offset)
        return sum(self.breaks[:number]) + self.chunks[number].count(b"\n", 0, within) + 1


def replaced(start: int, length: int, new: str) -> Both:
    """A line that edits, and the same with its span turned round."""
    text = new.replace("\n", "\\n")
    turned = (start + length, start) if length else (start + 1, start)
    return edit(op(start, start + length, text)), edit(op(*turned, text))


def named(command: str) -> Kind:
    """A command without fields, and its name with another letter at the end."""
    return lambda: (f'{{"cmd":"{command}"}}', f'{{"cmd":"{command[:-1]}x"}}')


class Trace:
    """Draws parts, one after another."""

    def __init__(self, units: int) -> None:
        self.draw, self.text = random.Random(SEED), Text(units)
        self.place, self.line, self.typed, self.snapshots = 0, 1, 0, 0

    def units(self, count: int) -> str:
        """So many random units, of which as many break a line as in the text at first."""
        drawn = (self.draw.choice(LETTERS) if self.draw.randrange(len(LINE)) else "\n" for _ in range(count))
        return "".join(drawn)

    def edit(self) -> Both:
        """A replace of one to three units at a random place by one to three."""
        length, new = self.draw.randrange(1, 4), self.units(self.draw.randrange(1, 4))
        start = self.text.replace(self.draw.randrange(self.text.units - length), length, new)
        return replaced(start, length, new)

    def position_of(self, offset: int) -> Both:
        """A question about the position of an offset, and of one behind the text."""
        return tuple(f'{{"cmd":"position","offset":{offset + past}}}' for past in (0, 2 * self.text.units))

    def line_at(self, number: int) -> Both:
        """A question about a line, and about one behind the text."""
        return tuple(f'{{"cmd":"line","n":{number + past}}}' for past in (0, 2 * self.text.units))

    def any_position(self) -> Both:
        """A question about the position of a random offset."""
        return self.position_of(self.draw.randrange(1, self.text.units))

    def any_line(self) -> Both:
        """A question about a random line."""
        return self.line_at(self.draw.randrange(1, self.text.lines + 1))

    def any_start(self) -> Both:
        """A question about where a random line begins, and where one that no text has."""
        number = self.draw.randrange(1, self.text.lines + 1)
        return at("offset", number, 1), nowhere("offset", number, 1)

    def type_unit(self) -> Both:
        """A unit typed behind the last one, or at a random place where enough stand there."""
        if self.typed % JUMP == 0:
            self.place = self.draw.randrange(self.text.units)
            self.line = self.text.line_of(self.place)
        new = self.units(1)
        self.text.replace(self.place, 0, new)
        self.place, self.line, self.typed = self.place + 1, self.line + new.count("\n"), self.typed + 1
        return replaced(self.place - 1, 0, new)

    def position_here(self) -> Both:
        """A question about the place behind the last unit that was typed."""
        return self.position_of(self.place)

    def line_here(self) -> Both:
        """A question about the line of that place."""
        return self.line_at(self.line)

    def snapshot(self) -> Both:
        """A snapshot."""
        self.snapshots += 1
        return named("snapshot")()

    def close(self) -> Both:
        """The end of the last snapshot."""
        return f'{{"cmd":"close","id":{self.snapshots}}}', '{"cmd":"close","id":0}'

    def part(self, what: str, rounds: int, *kinds: Kind, follows: int = 0) -> Part:
        """A part in each round of which each of these is drawn once."""
        before = b"" if follows else self.text.joined()
        pairs = [kind() for _ in range(rounds) for kind in kinds]
        return Part(what, rounds, [line for line, _ in pairs], [refused for _, refused in pairs], before, follows)


def edited_parts(units: int, tenths: int) -> list[Part]:
    """The parts of a text that is edited, asked, typed into, and undone. Of each a number of tenths."""
    trace, many, some = Trace(units), 10_000 * tenths, 2_000 * tenths
    return [
        trace.part("edit", many, trace.edit),
        trace.part("position", some, trace.any_position),
        trace.part("line start", some, trace.any_start),
        trace.part("line", some, trace.any_line),
        trace.part("edit, position, line start", many, trace.edit, trace.any_position, trace.any_start),
        trace.part("type a unit, position, line", some, trace.type_unit, trace.position_here, trace.line_here),
        trace.part("stop, edit", some, named("stop"), trace.edit),
        trace.part("undo one edit", some, named("undo"), follows=1),
        trace.part("redo one edit", some, named("redo"), follows=2),
    ]


def snapshot_parts(units: int, tenths: int) -> list[Part]:
    """Snapshots between edits."""
    trace, parts, done = Trace(units), [], 0
    for after in (count * tenths // 10 for count in SNAPSHOTS_AFTER):
        parts.append(trace.part("", after - done, trace.edit))
        parts.append(trace.part(f"snapshot, close: {after:,} edits", SNAPSHOTS, trace.snapshot, trace.close))
        done = after
    return parts


def memory_parts(units: int, tenths: int) -> list[Part]:
    """What memory is counted for, each on a text of its own."""
    random_edits, steps, typed = (Trace(units) for _ in range(3))
    return [
        random_edits.part("edits, one step", 10_000 * tenths, random_edits.edit),
        steps.part("edits, a step each", 10_000 * tenths, named("stop"), steps.edit),
        typed.part("typed units, a step each", 10_000 * tenths, named("stop"), typed.type_unit),
    ]
