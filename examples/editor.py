#!/usr/bin/env -S python3 -B
"""The core of an editor on the Python module, without a terminal: files in one session, and the questions of an editor.

examples/editor.py FILE ..     prints the unpaired brackets of files, except those in comments and strings
examples/editor.py --test      10,000 random steps on three files; after each the screens are compared with the documents

Positions are a line and a column from 1. A column counts bytes of UTF-8, as in compiler messages.
"""
import codecs
import re
import sys
import tempfile
from bisect import bisect_right
from collections.abc import Callable, Iterable
from itertools import accumulate
from pathlib import Path
from random import Random

sys.path.append(str(Path(__file__).resolve().parent.parent / "python"))

from textmodel import Bracket, BracketState, Change, Document, JointError  # noqa: E402
from textmodel import Position, RangeError, Session, Span, Stick, units  # noqa: E402

LANGUAGES = {".c": "c", ".h": "c", ".py": "python", ".rs": "rust", ".js": "javascript", ".sh": "shell"}
DIAGNOSTICS = 1  # the owner of these decorations
ALONE = {BracketState.UNCLOSED: "nothing closes this bracket", BracketState.UNEXPECTED: "this bracket closes nothing"}
ENDED = re.compile(r"[^\r\n]*(?:\r\n?|\n)")


def lines_of(text: str) -> list[str]:
    """The lines of a text with their endings; the last one has none."""
    ended = ENDED.findall(text)
    return [*ended, text[sum(map(len, ended)) :]]


def ending_of(data: bytes) -> str | None:
    """The line ending of a file; None where it has several."""
    return {(b"\r\n",): "crlf", (b"\n",): "lf", (): "lf"}.get((*{*re.findall(rb"\r\n?|\n", data)},))


def follow(lines: list[str], change: Change) -> None:
    """Makes the lines that the change touches anew, and the one before them, whose CR may get an LF behind it."""
    starts = [0, *accumulate(map(units, lines))]
    first, last = (bisect_right(starts, at, hi=len(lines)) - 1 for at in change[:2])
    first, is_at_end = max(first - 1, 0), last + 1 == len(lines)
    old = "".join(lines[first : last + 1]).encode("utf-16-le")
    front, back = old[: 2 * (change.start - starts[first])], old[2 * (change.end - starts[first]) :]
    new = lines_of(front.decode("utf-16-le") + change.text + back.decode("utf-16-le"))
    lines[first : last + 1] = new if is_at_end else new[:-1]  # behind an ending the next line stands already


class File:
    """A file that is open: its document, a screen of that, and what diagnostics say, by their ids."""

    def __init__(self, path: Path, document: Document) -> None:
        data = path.read_bytes()
        self.path, self.document, self.messages = path, document, dict[int, str]()
        self.mark = codecs.BOM_UTF8 if data.startswith(codecs.BOM_UTF8) else b""
        document.open(data[len(self.mark) :], LANGUAGES.get(path.suffix), ending=ending_of(data))
        self.screen, self.version = lines_of(document.text), document.version

    def follow(self) -> None:
        """Brings the screen up to date. It is called after each change, so that no version is missed."""
        if self.version != self.document.version:
            for change in self.document.changes():
                follow(self.screen, change)
            self.version += 1

    def place(self, offset: int) -> Position:
        """The place of an offset. That of a decoration may have come to stand inside a character: then in front of that."""
        try:
            return self.document.position(offset, "utf-8")
        except RangeError:
            return self.document.position(offset - 1, "utf-8")

    def type(self, start: Position, end: Position, text: str) -> None:
        self.document.edit_at(start, end, text, "utf-8")
        self.follow()

    def brackets(self, first: int, last: int) -> list[Bracket]:
        """The brackets of the lines that are seen."""
        return self.document.brackets(first, last, "utf-8")

    def diagnose(self, found: Iterable[tuple[Position, Position, str]]) -> None:
        """Has these diagnostics in the place of those before. They follow the text from now on."""
        told = [([self.document.offset(*place, "utf-8") for place in ends], message) for *ends, message in found]
        ids = self.document.decorate(DIAGNOSTICS, [(*span, Stick.NONE) for span, _ in told], remove=self.messages)
        self.messages = dict(zip(ids, (message for _, message in told)))

    def diagnostics(self, first: int, last: int) -> list[tuple[Position, Position, str]]:
        """Those of the lines that are seen."""
        end = self.document.offset(last, len(self.document.line_utf8(last)) + 1, "utf-8")
        found = self.document.decorations(self.document.offset(first, 1), end, DIAGNOSTICS)
        return [(self.place(it.start), self.place(it.end), self.messages[it.id]) for it in found]

    def find(self, text: str) -> list[Position]:
        return [self.place(span.start) for span in self.document.find(text)]

    def is_word(self, span: Span) -> bool:
        """Whether a name is no part of a longer one."""
        (line, start), (_, end) = (self.document.position(at, "utf-32") for at in span)
        content = self.document.line(line)
        return not re.match(r"\w", content[: start - 1][-1:]) and not re.match(r"\w", content[end - 1 :])

    def save(self) -> None:
        """Writes the file anew, and then puts it in the place of the old one."""
        new = self.path.with_name(self.path.name + ".new")
        with new.open("wb") as file:
            file.write(self.mark)
            file.writelines(part.encode() for part in self.document.parts())
        new.replace(self.path)


class Editor:
    """Up to 64 files. A step of undo may go through several of them."""

    def __init__(self) -> None:
        self.session, self.files = Session(), []

    def open(self, path: Path) -> File:
        self.files.append(File(path, self.session[len(self.files)]))
        return self.files[-1]

    def go(self, way: Callable[[Document], bool | None], file: File) -> bool | None:
        """Calls `Document.undo`, `Document.redo` or another; what that tells."""
        done = way(file.document)
        for other in self.files:
            other.follow()
        return done

    def rename(self, name: str, new: str) -> int:
        """Gives a name another one in all files, as one step; how often it stood there."""
        found = {file.document: [*filter(file.is_word, file.document.find(name))] for file in self.files}
        edits = {it.number: [(*span, new) for span in spans] for it, spans in found.items() if spans}
        if edits:
            self.session.joint(edits)
        for file in self.files:
            file.follow()
        return sum(map(len, edits.values()))


def step(editor: Editor, draw: Random) -> None:
    file, kind = draw.choice(editor.files), draw.random()
    lines = [(n, file.document.line(n)) for n in (draw.randint(1, file.document.line_count) for _ in "12")]
    start, end = sorted(Position(n, len(line[: draw.randint(0, len(line))].encode()) + 1) for n, line in lines)
    if kind < 0.6:
        text = "".join(draw.choices("x y()[]{}\n\r\"'/*#é😀", k=draw.randint(0, 9)))
        file.type(start, end if kind < 0.1 or len(file.document) > 300 else start, text)
    elif kind < 0.8:
        editor.go(Document.undo if kind < 0.72 else Document.redo, file)
    elif kind < 0.9:
        editor.rename(draw.choice(["x", "y", "name"]), draw.choice(["name", "x", "é😀"]))
    elif kind < 0.95:
        file.diagnose([(start, end, "here"), (end, end, "there")])
    else:
        editor.go(Document.stop if kind < 0.97 else lambda it: it.set_ending(draw.choice([None, "lf", "crlf"])), file)


def check(file: File) -> None:
    """The screen is what a full redraw shows, and what is told stands where it is told."""
    seen = ["".join(file.screen), *(line.rstrip("\r\n") for line in file.screen)]
    assert seen == [file.document.text, *file.document.lines()]
    last, line_of = file.document.line_count, file.document.line_utf8
    assert len(file.diagnostics(1, last)) == len(file.messages)
    assert all(line_of(it.line)[it.column - 1] in b"()[]{}" for it in file.brackets(max(1, last - 9), last))
    assert all(line_of(line)[column - 1 :].startswith("😀".encode()) for line, column in file.find("😀"))


def test(steps: int = 10_000) -> None:
    editor, draw, refused = Editor(), Random(7), 0
    with tempfile.TemporaryDirectory() as room:
        for name, data in {"a.c": b"int name; /* ( */\n", "b.py": codecs.BOM_UTF8 + b"name\r\n", "c.rs": b"a\rname\n"}.items():
            (path := Path(room, name)).write_bytes(data)
            editor.open(path)
        assert editor.rename("name", "x") == 3 and editor.go(Document.undo, editor.files[1])
        for _ in range(steps):
            try:
                step(editor, draw)
            except JointError:
                refused += 1
            for file in editor.files:
                check(file)
        for file in editor.files:
            file.save()
            assert file.path.read_bytes() == file.mark + file.document.text.encode()
    print(f"editor: {steps} steps, of which {refused} were refused, and no screen differs")


def main(paths: list[str]) -> None:
    for file in map(Editor().open, map(Path, paths)):
        for it in file.brackets(1, file.document.line_count):
            if it.state in ALONE:
                print(f"{file.path}:{it.line}:{it.column}: {ALONE[it.state]}")


if __name__ == "__main__":
    test() if sys.argv[1:] == ["--test"] else main(sys.argv[1:])
