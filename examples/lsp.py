"""The files that an editor has open, as a language server keeps them: documents of one session of the Python module.

Positions are those of the Language Server Protocol: lines and characters count from 0, characters in the agreed encoding. They are
clamped: a character beyond its line to the end of the line, a line beyond the last to the end of the text, and a position inside a
character to its start. Lines end with LF, CR LF and CR, as in the module.
"""
import re
import sys
from bisect import bisect_left
from collections.abc import Iterator, Mapping
from dataclasses import dataclass, field
from itertools import chain
from operator import itemgetter
from pathlib import Path
from typing import Any, NamedTuple

sys.path.append(str(Path(__file__).resolve().parent.parent / "python"))

from textmodel import DOCUMENTS, LANGUAGES, BracketState, Document, Hiding, Partner, RangeError, Session  # noqa: E402
from textmodel import Span, TextModelError, units  # noqa: E402

LINES_AT_ONCE = 4000
MOST_NUMBER = 2**31 - 1
ENCODINGS = ("utf-8", "utf-16", "utf-32")
UTF_16 = "utf-16-le"
OPENING, CLOSING = int(BracketState.OPENING), int(BracketState.CLOSING)  # plain numbers are compared faster
WORD = re.compile(r"[\w\u0300-\u036f]+")  # with the accents that stand behind their letters

# What hides brackets, by the words that editors have for languages. For any other nothing does.
HIDING: dict[str, Hiding] = {
    name: hiding
    for names, hiding in {
        "c cpp c++ objc objcpp objective-c objective-cpp cuda csharp java kotlin scala dart groovy php scss less": LANGUAGES["c"],
        "javascript javascriptreact js jsx typescript typescriptreact ts tsx go": LANGUAGES["javascript"],
        "rust swift jsonc json5 zig": LANGUAGES["rust"],
        "python": LANGUAGES["python"],
        "shellscript sh bash zsh fish ruby perl r": LANGUAGES["shell"],
        "yaml toml make makefile cmake dockerfile": Hiding("#", quotes='"'),
        "css": Hiding(block=("/*", "*/"), quotes="\"'"),
        "json": Hiding(quotes='"'),
        "sql": Hiding("--", ("/*", "*/"), "\"'"),
        "lua ada": Hiding("--", quotes="\"'"),
        "haskell elm": Hiding("--", ("{-", "-}"), '"'),
        "lisp emacs-lisp scheme clojure": Hiding(";", quotes='"'),
    }.items()
    for name in names.split()
}


class Place(NamedTuple):
    """A position."""

    line: int
    character: int


class Range(NamedTuple):
    """From `start` to `end`, which stands behind what is meant."""

    start: Place
    end: Place

    def as_json(self) -> dict[str, dict[str, int]]:
        return {"start": self.start._asdict(), "end": self.end._asdict()}


Row = tuple[int, ...]  # a bracket as the module tells it: its line and column from 1, its length, its kind, level and state
Pair = tuple[Row, Row]  # an opening bracket and the one that closes it


class Lost(Exception):
    """The text of a file is not known, or cannot be kept."""


def place_of(json: Any) -> Place:
    """The place that JSON tells; ValueError where it tells none."""
    told: Any = json if isinstance(json, dict) else {}
    line, character = told.get("line"), told.get("character")
    if not all(type(number) is int and 0 <= number <= MOST_NUMBER for number in (line, character)):
        raise ValueError(f"no position: {json}")
    return Place(line, character)


def range_of(json: Any) -> Range:
    """The range that JSON tells, turned round where it ends before it starts; ValueError where it tells none."""
    if not isinstance(json, dict):
        raise ValueError(f"no range: {json}")
    return Range(*sorted((place_of(json.get("start")), place_of(json.get("end")))))


def range_at(line: int, column: int, length: int) -> Range:
    """The range of a bracket, of which the module told this."""
    return Range(Place(line - 1, column - 1), Place(line - 1, column - 1 + length))


def well_formed(text: str) -> str:
    """The text with each pair of surrogates as the one character that it is, and U+FFFD for each other surrogate."""
    return text.encode(UTF_16, "surrogatepass").decode(UTF_16, "replace")


class File:
    """A file that is open: its document, and the version that the editor gave its text. Where that is lost, `lost` says why."""

    def __init__(self, uri: str, version: int | None, encoding: str) -> None:
        self.uri, self.version, self.encoding = uri, version, encoding
        self.held: Document | None = None
        self.lost: str | None = None
        self._pairs: tuple[int, list[Pair]] = (0, [])  # with a version of the document that has this text

    @property
    def document(self) -> Document:
        if self.held is None:
            raise Lost(f"the text of {self.uri} is not known: {self.lost}")
        return self.held

    # Changes

    def change(self, changes: list[dict[str, Any]]) -> None:
        """Each change speaks of the text that the one before it left. Those of one call are one step of undo."""
        self.document.stop()
        for change in changes:
            json = change.get("range")
            start, end = map(self.offset, range_of(json)) if json is not None else (0, len(self.document))
            self.document.edit(start, end, well_formed(change["text"]))

    # Places

    def offset(self, place: Place) -> int:
        """The offset of a place, or of the one that it means."""
        line, column = place.line + 1, place.character + 1
        try:
            return self.document.offset(line, column, self.encoding)
        except RangeError:
            return self._offset_near(line, column)

    def _offset_near(self, line: int, column: int) -> int:
        if line > self.document.line_count:
            return len(self.document)
        end = self.document.offset(line, 1) + units(self.document.line(line))
        column = min(column, self.document.position(end, self.encoding).column)
        while True:  # at most to the first byte of the character
            try:
                return self.document.offset(line, column, self.encoding)
            except RangeError:
                column -= 1

    def place(self, offset: int) -> Place:
        line, column = self.document.position(offset, self.encoding)
        return Place(line - 1, column - 1)

    def range(self, span: Span) -> Range:
        return Range(*map(self.place, span))

    # Brackets

    def rows(self) -> Iterator[Iterator[Row]]:
        """All brackets, some lines after the others. The text is not to change meanwhile."""
        lines = self.document.line_count
        for first in range(1, lines + 1, LINES_AT_ONCE):
            yield self.document.bracket_rows(first, min(first + LINES_AT_ONCE - 1, lines), self.encoding)

    def pairs(self) -> list[Pair]:
        """All pairs, in the order of their closing brackets. They are found in one pass, once for each text."""
        version = self.document.alternative
        if self._pairs[0] != version:
            opened: list[Row] = []
            pairs: list[Pair] = []
            for row in chain.from_iterable(self.rows()):
                if row[5] == OPENING:
                    opened.append(row)
                elif row[5] == CLOSING:
                    pairs.append((opened.pop(), row))
            self._pairs = version, pairs
        return self._pairs[1]

    def unpaired(self) -> Iterator[list[Row]]:
        """The brackets that are unclosed or unexpected, some lines after the others. The text is not to change meanwhile."""
        for rows in self.rows():
            yield [row for row in rows if row[5] not in (OPENING, CLOSING)]

    def pair(self, place: Place) -> list[Range]:
        """The bracket that starts at a place, or else ends there, and the other one of its pair; none where it has none."""
        offset = self.offset(place)
        for at in range(offset, max(offset - 2, -1), -1):
            other = self._partner(at)
            own = other and self.document.match(other.line, other.column, self.encoding)
            if own and other:
                return sorted((range_at(*own), range_at(*other)))
        return []

    def _partner(self, offset: int) -> Partner | None:
        try:
            return self.document.match(*self.document.position(offset, self.encoding), self.encoding)
        except RangeError:  # half a character or half a line break, which is no bracket
            return None

    def around(self, place: Place) -> list[Range]:
        """What the pairs of brackets around a place hold, without and then with them, the nearest first; then the whole text."""
        position, pairs, ranges = self.document.position(self.offset(place), self.encoding), self.pairs(), []
        for opening, closing in pairs[bisect_left(pairs, position, key=itemgetter(1)) :]:
            if opening < position:
                (start, inner_start), (inner_end, end) = range_at(*opening[:3]), range_at(*closing[:3])
                ranges += [Range(inner_start, inner_end), Range(start, end)]
        return [*ranges, self.range(Span(0, len(self.document)))]

    def folds(self, has_lines: bool) -> list[Pair]:
        """The pairs of brackets that reach over several lines, and where that is asked have a line between them."""
        return [pair for pair in self.pairs() if pair[0][0] < pair[1][0] - has_lines]

    # Words

    def word(self, place: Place) -> tuple[str, Span] | None:
        """The word at a place or before it, and where it stands."""
        line, column = self.document.position(self.offset(place), "utf-32")
        for found in WORD.finditer(self.document.line(line)):
            if found.start() < column <= found.end() + 1:
                return found[0], Span(*(self.document.offset(line, at + 1, "utf-32") for at in found.span()))
        return None

    def words(self, word: str) -> list[Span]:
        """Wherever this stands as a whole word."""
        spans = self.document.find(word)
        text = self.document.text.encode(UTF_16, "surrogatepass") if spans else b""
        return [span for span in spans if is_whole(text, *span)]


def is_whole(text: bytes, start: int, end: int) -> bool:
    """Whether no word goes on in front of these units, or behind them."""
    before, behind = text[max(0, 2 * start - 4) : 2 * start], text[2 * end : 2 * end + 4]
    return not (WORD.match(before.decode(UTF_16, "replace")[-1:]) or WORD.match(behind.decode(UTF_16, "replace")))


@dataclass
class Rename:
    """A rename that was offered to the editor: the edits of each file, and the text that they make of it.

    `versions` are those that the texts before it have in the model. `steps` counts the changes by which the editor carries it out
    in a file, and `done` has the files where it has done so.
    """

    edits: dict[str, list[tuple[int, int, str]]]
    texts: dict[str, str]
    versions: dict[str, int]
    steps: dict[str, int] = field(default_factory=dict)
    done: set[str] = field(default_factory=set)


class Files:
    """The files that are open, by their URIs: up to 64, since they are documents of one session."""

    def __init__(self) -> None:
        self.session = Session()
        self.encoding = "utf-16"
        self.files: dict[str, File] = {}
        self.free = [*range(DOCUMENTS)]
        self.offered: Rename | None = None

    def close_all(self) -> None:
        self.files.clear()
        self.session.close()

    def add(self, uri: str, version: int | None) -> File:
        """A file, whose text is to be put into it yet. One that is open already is closed before."""
        if uri in self.files:
            self.close(uri)
        self.files[uri] = File(uri, version, self.encoding)
        return self.files[uri]

    def open(self, file: File, language: str, text: str) -> None:
        """Lost where as many files are open as a session has documents."""
        if not self.free:
            raise Lost(f"{DOCUMENTS} files are open, and there is no room for another one")
        file.held = self.session[self.free.pop()]
        file.held.open(well_formed(text), hiding=HIDING.get(language))

    def lose(self, file: File, why: str) -> None:
        """Gives the text of a file up."""
        file.lost = why
        if file.held is not None:
            file.held.open("")
            self.free.append(file.held.number)
            file.held = None
        if self.offered and file.uri in self.offered.edits:
            self.offered = None

    def close(self, uri: str) -> None:
        self.lose(self.files.pop(uri), "it is closed")

    def known(self) -> list[File]:
        """The files whose texts are known."""
        return [file for file in self.files.values() if file.held is not None]

    # Renames

    def rename(self, word: str, name: str) -> Mapping[str, list[tuple[int, int, str]]]:
        """The edits that put a name in the place of a word in all files, by their URIs. They are carried out by the editor."""
        spans = {file.uri: file.words(word) for file in self.known()}
        edits = {uri: [(*span, name) for span in found] for uri, found in spans.items() if found}
        for uri in edits:
            self.files[uri].document.stop()
        self._carry_out(edits)
        texts = {uri: self.files[uri].document.text for uri in edits}
        self.files[next(iter(edits))].document.undo()  # in all of them
        self.offered = Rename(edits, texts, {uri: self.files[uri].document.alternative for uri in edits})
        return edits

    def _carry_out(self, edits: Mapping[str, list[tuple[int, int, str]]]) -> None:
        self.session.joint({self.files[uri].document.number: batch for uri, batch in edits.items()})

    def changed(self, file: File) -> None:
        """Where the editor has now carried a rename out in all of its files, makes it one joint step, which is undone as one.

        The editor tells of the changes one file after the other. Until the last one has come each is a step of its own.
        """
        rename = self.offered
        if rename is None or file.uri not in rename.edits:
            return
        rename.steps[file.uri] = steps = rename.steps.get(file.uri, 0) + 1
        if file.uri in rename.done or steps > len(rename.edits[file.uri]):
            self.offered = None
        elif file.document.text == rename.texts[file.uri]:
            rename.done.add(file.uri)
            if len(rename.done) == len(rename.edits):
                self._join(rename)

    def _join(self, rename: Rename) -> None:
        self.offered = None
        undone: list[Document] = []
        try:
            for uri, version in rename.versions.items():
                document = self.files[uri].document
                while document.alternative != version and document.undo():
                    undone.append(document)
            self._carry_out(rename.edits)
        except TextModelError:  # the steps stay those that they were
            for document in reversed(undone):
                document.redo()
