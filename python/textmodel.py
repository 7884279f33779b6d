"""A proved text model, in process: documents with undo, decorations, brackets, search, snapshots and mirrors.

>>> from textmodel import Document
>>> document = Document("f(x); // )\\n", language="c")
>>> document[2:3] = "[y]"
>>> document.line(1)
'f([y]); // )'
>>> document.match(1, 2)
Partner(line=1, column=6, length=1)
>>> document.undo()
True
>>> document.text
'f(x); // )\\n'
>>> document.close()

A `Session` has 64 documents; a joint edit may change several at once. `Document(text)` makes a session of its own.

Offsets and lengths count UTF-16 units, offsets from 0. A character above U+FFFF has two units; `units` counts those of a `str`.
Lines and columns count from 1. A column counts units, or with an `encoding` of `"utf-8"` bytes, of `"utf-32"` code points.
A valid offset is from 0 to `len(document)`, not inside a character, and not between a CR and its LF in a document with CR LF line
endings. A valid span has two valid offsets, the start not above the end; it excludes the unit at its end. Numbers are below 2**64.

A call that raises has changed nothing. `TextModelError` is the base of the errors of this module. The message names the refused
document, edit or decoration; `document` and `index` have their numbers. Each error is also one of Python's built-in errors. An
unknown keyword, as for an encoding or a line ending, raises ValueError, and an argument of a wrong type TypeError.

Any thread may call. Calls on one session wait for one another; calls on different sessions run at once.

The library is the file that the environment variable TEXTMODEL_LIBRARY names; else libtextmodel.so.1 or libtextmodel.so in the folder
of this file, then in a checkout in bin/; else the one that the loader finds. If it is in a folder unproved_library/ of these, a
RuntimeWarning says that it is not proved.
"""
from __future__ import annotations

import ctypes
import enum
import json
import operator
import os
import warnings
import weakref
from codecs import utf_16_le_decode
from dataclasses import dataclass
from functools import partial
from pathlib import Path
from struct import Struct
from threading import RLock
from typing import Any, Callable, ClassVar, Dict, Iterable, Iterator, List, Mapping, NamedTuple, Optional, Sequence
from typing import Tuple, Type, TypeVar, Union

__all__ = [
    "Bracket", "BracketState", "Change", "ClosedError", "Decoration", "Document", "Edit", "EncodingError", "Event", "GapError",
    "Hiding", "JointError", "LANGUAGES", "LimitError", "MirrorState", "NewDecoration", "NoMemoryError", "OverlapError",
    "Partner", "Position", "RangeError", "Session", "Snapshot", "Span", "Stick", "TextModelError", "UnknownError",
    "library_version", "units",
]  # fmt: skip

__version__ = "1.0.0"

DOCUMENTS = 64
MOST_NUMBER = 2**64 - 1
MAJOR = 1
NAMES = ("libtextmodel.so.1", "libtextmodel.so")
VARIABLE = "TEXTMODEL_LIBRARY"
UTF_16 = "utf-16-le"
LONE = "surrogatepass"  # a lone surrogate is a unit of the text like any other

# The first sizes of the buffers for a line and for lists, and the length of a part of a text.
UNITS_AT_FIRST = 256
ITEMS_AT_FIRST = 64
BRACKETS_AT_FIRST = 1 << 14
PART_UNITS = 1 << 15

OK, NOTHING, UNKNOWN, RANGE, OVERLAP, LIMIT, MEMORY, ENCODING, EMPTY, SHORT, JOINT, GAP = range(12)
ENDINGS = (None, "lf", "crlf")  # the index is the number in C
ENCODINGS = {"utf-8": 8, "utf-16": 16, "utf-32": 32}
COUNTED = {"utf-8": "bytes of UTF-8", "utf-16": "units of UTF-16", "utf-32": "code points"}

Place = Tuple[int, int]
Pair = Tuple[str, str]
Item = TypeVar("Item")
New = Tuple[int, int, int, bool]  # the fields of a new decoration


# ---- Errors


class TextModelError(Exception):
    """A call was refused, and changed nothing.

    `document` is the number of the document for which it was refused. `index` is the index of the invalid item, from 0: of an edit
    among those of its document, of a decoration in `add` or in `remove`, or of a byte in a text. Each is None if it is not known.
    """

    document: Optional[int] = None
    index: Optional[int] = None


class UnknownError(TextModelError, LookupError):
    """There is no document, decoration, snapshot, mirror or event with this number."""


class RangeError(TextModelError, IndexError):
    """An offset, a span, a line, a column or another argument is out of range or invalid."""


class OverlapError(TextModelError, ValueError):
    """Two edits of one document overlap. `index` is that of the first edit that overlaps an earlier one."""


class LimitError(TextModelError, ValueError):
    """The text, a version, an id, or the number of decorations, snapshots or events would pass its limit."""


class NoMemoryError(TextModelError, MemoryError):
    """There was no memory for the call."""


class EncodingError(TextModelError, ValueError):
    """The bytes are not valid UTF-8. `index` is that of the first invalid byte."""


class ClosedError(TextModelError, ValueError):
    """The session, the document or the snapshot is closed."""


class JointError(TextModelError, ValueError):
    """A joint step is not the last or next step of `document`: undo or redo the other steps there first."""


class GapError(TextModelError, ValueError):
    """A mirror lacks earlier events: it has version `have`, and the event leads from version `need`."""

    have = need = 0


# The error of each status, and its message if nothing more is known.
ERRORS: Dict[int, Tuple[Type[TextModelError], str]] = {
    UNKNOWN: (UnknownError, "there is no such number"),
    RANGE: (RangeError, "it is out of range"),
    OVERLAP: (OverlapError, "two edits overlap"),
    LIMIT: (LimitError, "the text would have 2**40 units or more, or its version would pass 2**63 - 1"),
    MEMORY: (NoMemoryError, "out of memory"),
    ENCODING: (EncodingError, "byte {0.index} is not valid UTF-8"),
    EMPTY: (ClosedError, "the session is closed"),
    JOINT: (JointError, "its step is a joint one, and document {0.doc} has another step to go first"),
    GAP: (GapError, "the mirror has version {0.have}, and the event leads from version {0.need}"),
}

NO_LENGTH = "a bracket begins or ends inside a character, and has no such column or length"
NOTHING_SOUGHT = "the sought text is empty"
NO_MARKS = (
    "the brackets or the hiding are invalid: at most 64 pairs of brackets, all texts different; each text of 1 to 32 units without CR "
    "or LF; a block comment with both texts or none; at most 8 quotes, all different, none a backslash or a surrogate"
)

# The limits of calls that do not change the text.
LIMITS = {
    "decorate": "there would be more than 2**20 decorations, or an id would pass 2**63 - 1",
    "snapshot": "1,000 snapshots are open, or its id would pass 2**63 - 1",
    "send": "65,536 events were sent since the document was opened",
}

Why = Union[None, str, Callable[[], Optional[str]]]  # a cause, or a function that finds it once the call was refused


def refusal(status: int, what: str, why: Why = None, fault: Any = None) -> TextModelError:
    """Returns the error of a status. If an argument was refused, finds its cause."""
    error, plain = ERRORS.get(status, (TextModelError, f"the library returned status {status}"))
    cause = (why() if callable(why) else why) if status in (UNKNOWN, RANGE, OVERLAP) else None
    made = error(f"{what}: {cause or plain.format(fault)}")
    if isinstance(made, EncodingError):
        made.index = fault.index
    if isinstance(made, GapError):
        made.have, made.need = fault.have, fault.need
    return made


# ---- Arguments and results


class Position(NamedTuple):
    """A line and a column, both counted from 1."""

    line: int
    column: int


class Span(NamedTuple):
    """The units from offset `start` up to offset `end`."""

    start: int
    end: int


class Edit(NamedTuple):
    """One of several edits: it replaces the units from `start` up to `end` by the text. With `force`, a decoration that starts or ends
    there moves to the end of the new text, whatever its `stick`.
    """

    start: int
    end: int
    text: str
    force: bool = False


class Change(NamedTuple):
    """An edit of the last change: the text replaced the units from `start` up to `end`. Both offsets refer to the text after the edits
    before this one.
    """

    start: int
    end: int
    text: str


class Stick(enum.IntEnum):
    """The ends of a decoration at which typed text makes it grow: both, neither, its start or its end."""

    BOTH = 0
    NONE = 1
    BEFORE = 2
    AFTER = 3


class NewDecoration(NamedTuple):
    """A decoration to add, over the units from `start` up to `end`. With `collapse`, an edit that replaces all of its text leaves it
    empty, at the start of the edit.
    """

    start: int
    end: int
    stick: int = Stick.BOTH
    collapse: bool = False


class Decoration(NamedTuple):
    """A decoration over the units from `start` up to `end`. An edit around one of its ends may leave that end inside a character."""

    id: int
    owner: int
    start: int
    end: int
    stick: Stick
    collapse: bool

    @property
    def span(self) -> Span:
        return Span(self.start, self.end)


class BracketState(enum.IntEnum):
    """The state of a bracket: the opening or closing one of a pair, an opening one never closed, or a closing one without its opening.
    """

    OPENING = 0
    CLOSING = 1
    UNCLOSED = 2
    UNEXPECTED = 3


STATES = tuple(BracketState)


class Bracket(NamedTuple):
    """A bracket: its position, and its length in the unit of the column. `kind` is the index of its pair, from 0. `level` is the number
    of brackets open around it.
    """

    line: int
    column: int
    length: int
    kind: int
    level: int
    state: BracketState

    @property
    def position(self) -> Position:
        return Position(self.line, self.column)


class Partner(NamedTuple):
    """The other bracket of a pair: its position, and its length in the unit of the column."""

    line: int
    column: int
    length: int

    @property
    def position(self) -> Position:
        return Position(self.line, self.column)


class Event(NamedTuple):
    """A change that was sent as an event: its number, and the version from which it leads."""

    number: int
    version: int


class MirrorState(NamedTuple):
    """The state of a mirror: its version, and the number of units and lines of its text."""

    version: int
    units: int
    line_count: int


@dataclass(frozen=True)
class Hiding:
    """The texts that begin and end comments and strings, in which brackets are ignored. An empty text means that there are none.

    `line` begins a comment up to the end of its line. `block` has the two texts around a block comment. Each unit of `quotes` begins a
    string, which ends after the next such unit or with its line; a backslash in a string escapes the next unit. These texts have at
    most 32 units, without CR or LF, and there are at most 8 quotes.
    """

    line: str = ""
    block: Pair = ("", "")
    quotes: str = ""


LANGUAGES: Dict[str, Hiding] = {
    "c": Hiding("//", ("/*", "*/"), "\"'"),
    "python": Hiding("#", quotes="\"'"),
    "rust": Hiding("//", ("/*", "*/"), '"'),
    "javascript": Hiding("//", ("/*", "*/"), "\"'`"),
    "shell": Hiding("#", quotes="\"'"),
}
"""Comments and strings of some languages, for `Document(text, language="c")`. Each string ends with its line, even if the language
lets it go on, as with three quotes.
"""

NewLike = Union[NewDecoration, Tuple[int, int], Tuple[int, int, int], Tuple[int, int, int, bool]]
EditLike = Union[Edit, Change, Tuple[int, int, str], Tuple[int, int, str, bool]]

U64 = ctypes.c_uint64
NUMBER = ctypes.c_uint32
FLAG = ctypes.c_bool


def struct(**fields: Any) -> Type[ctypes.Structure]:
    """A struct of C with these fields."""
    return type("struct", (ctypes.Structure,), {"_fields_": [*fields.items()]})


CFault = struct(index=U64, doc=U64, have=U64, need=U64)
CSession = struct(at=ctypes.c_void_p, fault=CFault)
CPlace = struct(line=U64, column=U64)
COp = struct(doc=U64, start=U64, end=U64, units=U64, force=FLAG)
CChange = struct(start=U64, end=U64, units=U64)
CPair = struct(opening=U64, closing=U64)
CNewDecoration = struct(start=U64, end=U64, stick=U64, collapse=FLAG)
CDecoration = struct(id=U64, owner=U64, start=U64, end=U64, stick=U64, collapse=FLAG)
CFound = struct(start=U64, end=U64)
CBracket = struct(line=U64, column=U64, length=U64, kind=U64, level=U64, state=NUMBER)
BRACKET = Struct("=5QI4x")  # the same, to read many at once
CPartner = struct(line=U64, column=U64, length=U64)
CFollowed = struct(version=U64, units=U64, lines=U64)


def decoration_of(it: Any) -> Decoration:
    return Decoration(it.id, it.owner, it.start, it.end, Stick(it.stick), it.collapse)


def mirror_state_of(it: Any) -> MirrorState:
    return MirrorState(it.version, it.units, it.lines)


# ---- The library

ADDRESS = ctypes.c_void_p  # of any type, so that bytes, arrays and references can be passed
TEXT = [ADDRESS, U64]  # the address of units, bytes, structs or numbers, and their number
OUT = [ADDRESS, U64, ADDRESS]  # the address of a buffer, its length, and the address for the number of items
DOC = U64
MARKS = [*TEXT, *TEXT, U64, U64, U64, *TEXT]  # the pairs, their texts, the lengths of marks, and the marks

# The parameters of the calls after the session. Every call returns a status.
SIGNATURES: Dict[str, List[Any]] = {
    "tm_make tm_free": [],
    "tm_stop tm_can_undo tm_can_redo": [DOC],
    "tm_raw_undo tm_raw_redo tm_kind tm_len tm_line_count tm_next_change tm_snapshot tm_mirror tm_mirror_now": [DOC, ADDRESS],
    "tm_versions tm_send": [DOC, ADDRESS, ADDRESS],
    "tm_set_eol": [DOC, NUMBER],
    "tm_close": [DOC, U64],
    "tm_deco": [DOC, U64, ADDRESS],
    "tm_raw_deliver": [DOC, U64, ADDRESS, ADDRESS, ADDRESS],
    "tm_position": [DOC, U64, NUMBER, ADDRESS],
    "tm_offset tm_match tm_level": [DOC, U64, U64, NUMBER, ADDRESS],
    "tm_raw_open": [DOC, NUMBER, *TEXT, *MARKS],
    "tm_raw_open_utf8": [DOC, NUMBER, *TEXT, *MARKS, ADDRESS],
    "tm_raw_edit": [DOC, U64, U64, *TEXT],
    "tm_raw_edit_at": [DOC, U64, U64, U64, U64, NUMBER, *TEXT],
    "tm_raw_joint": [*TEXT, *TEXT],
    "tm_raw_joint_fault": [*TEXT, U64, NUMBER, ADDRESS],
    "tm_raw_replace_all": [DOC, *TEXT, *TEXT, ADDRESS],
    "tm_raw_decorate": [DOC, U64, *TEXT, *TEXT, ADDRESS],
    "tm_raw_decorate_fault": [DOC, U64, *TEXT, *TEXT, NUMBER, ADDRESS],
    "tm_raw_line tm_raw_line_utf8 tm_raw_read_into tm_raw_read tm_raw_mirrored": [DOC, U64, *OUT],
    "tm_raw_value": [DOC, U64, U64, *OUT],
    "tm_raw_stops": [DOC, U64, NUMBER, *OUT],
    "tm_raw_find": [DOC, *TEXT, U64, FLAG, U64, *OUT],
    "tm_raw_decos": [DOC, U64, U64, U64, FLAG, *OUT],
    "tm_raw_brackets": [DOC, U64, U64, NUMBER, *OUT],
    "tm_raw_change_text": OUT,
    "tm_raw_answer": [*TEXT, ADDRESS],
    "tm_raw_reply": [U64, *OUT],
}
CALLS = {name: signature for names, signature in SIGNATURES.items() for name in names.split()}


def in_folder(folder: Path) -> Optional[str]:
    """Returns the path of the library in the folder, if any."""
    return next((str(folder / name) for name in NAMES if (folder / name).exists()), None)


def found_library() -> Optional[str]:
    """Returns the path of the library in the folder of this file, or in its checkout."""
    here = Path(__file__)
    top = here.resolve().parent.parent
    folders = [here.parent, top / "bin"] if (top / "crates.txt").exists() else [here.parent]
    for folder in folders:
        proved, unproved = in_folder(folder), in_folder(folder / "unproved_library")
        if unproved and not proved:
            warnings.warn(f"{unproved} is not proved, and slower; ./build makes the proved one", RuntimeWarning, stacklevel=2)
        if proved or unproved:
            return proved or unproved
    return None


def opened_library() -> Tuple[str, ctypes.CDLL]:
    """Returns the path of the library, and the library; OSError if there is none."""
    named = os.environ.get(VARIABLE) or found_library()
    faults = []
    for name in [named] if named else NAMES:
        try:
            return name, ctypes.CDLL(name)
        except OSError as error:
            faults.append(str(error))
    raise OSError(f"{'; '.join(faults)}; in a checkout ./build --unproved makes one, and {VARIABLE} may name another")


def loaded() -> ctypes.CDLL:
    """Loads the library and sets the types of its calls; ImportError if its major version is another, or it lacks a call."""
    name, library = opened_library()
    try:
        library.tm_version.argtypes, library.tm_version.restype = [], NUMBER
        version = library.tm_version()
        if version // 10_000 != MAJOR:
            raise ImportError(f"{name}: it has version {spelled(version)}, and major version {MAJOR} is needed")
        for call, arguments in CALLS.items():
            function = getattr(library, call)
            function.argtypes, function.restype = [ADDRESS, *arguments], NUMBER
    except AttributeError as error:
        raise ImportError(f"{name}: it lacks a call: {error}") from None
    return library


def spelled(version: int) -> str:
    return f"{version // 10_000}.{version // 100 % 100}.{version % 100}"


LIBRARY = loaded()


def library_version() -> str:
    """Returns the version of the library, such as 1.0.0."""
    return spelled(LIBRARY.tm_version())


# ---- Numbers, words and texts


def units(text: str) -> int:
    """Returns the length of a text in UTF-16 units.

    >>> units("a"), units("\\U0001f600")
    (1, 2)
    """
    return len(encoded(text)) // 2


def encoded(text: str) -> bytes:
    """Returns the units of a text as bytes, which start at an even address."""
    if not isinstance(text, str):
        raise TypeError(f"a text is a str, not {type(text).__name__}")
    return text.encode(UTF_16, LONE)


def crossing(text: str) -> Tuple[bytes, int]:
    """Returns a text as calls take it: its units and their number."""
    data = encoded(text)
    return data, len(data) // 2


def decoded(data: Union[bytes, bytearray, memoryview]) -> str:
    """Returns the text of these units; halves of characters are kept as lone surrogates."""
    return utf_16_le_decode(data, LONE, True)[0]


def number(value: int, what: str, error: Type[TextModelError] = RangeError) -> int:
    """Returns the number if it is from 0 to 2**64 - 1, else raises the error."""
    found = operator.index(value)
    if found < 0:
        raise error(f"{what} {found} is below 0")
    if found > MOST_NUMBER:
        raise error(f"{what} {found} is above 2**64 - 1")
    return found


def numbers(**values: int) -> List[int]:
    """Returns such numbers, given with their names."""
    return [number(value, what) for what, value in values.items()]


def ending_number(ending: Optional[str]) -> int:
    if ending not in ENDINGS:
        raise ValueError(f"a line ending is None, 'lf' or 'crlf', not {ending!r}")
    return ENDINGS.index(ending)


def encoding_number(encoding: str) -> int:
    if encoding not in ENCODINGS:
        raise ValueError(f"an encoding of columns is 'utf-8', 'utf-16' or 'utf-32', not {encoding!r}")
    return ENCODINGS[encoding]


def hiding_of(language: Optional[str], hiding: Optional[Hiding]) -> Hiding:
    """Returns the hiding of the language, or the one given."""
    if language is None:
        return hiding or Hiding()
    if hiding is not None:
        raise ValueError("give `language` or `hiding`, not both")
    if language not in LANGUAGES:
        raise ValueError(f"a language is one of {', '.join(LANGUAGES)}, not {language!r}: `hiding` is for any other")
    return LANGUAGES[language]


def edit_of(words: EditLike) -> Edit:
    """Returns the edit, with valid numbers."""
    fields: Tuple[Any, ...] = words
    edit = Edit(*fields)
    return edit._replace(start=number(edit.start, "offset"), end=number(edit.end, "offset"))


def new_decoration(words: NewLike) -> New:
    """Returns the fields of a new decoration, with valid numbers."""
    fields: Tuple[Any, ...] = words
    new = NewDecoration(*fields)
    return number(new.start, "offset"), number(new.end, "offset"), number(new.stick, "stick"), new.collapse


def array(of: Type[Any], items: Sequence[Any]) -> Any:
    """Returns an array of the items, which has an address even if it is empty."""
    return (of * max(len(items), 1))(*items)


class Room:
    """A buffer for `count` items of `size` bytes, and the number of items that the library wrote."""

    def __init__(self, count: int, size: int = 2) -> None:
        self.items = max(count, 1)
        self.size = size
        self.bytes = bytearray(size * self.items)
        self.count = U64()

    @property
    def out(self) -> Tuple[Any, int, Any]:
        """The arguments of a call that fills it."""
        return ctypes.byref(ctypes.c_char.from_buffer(self.bytes)), self.items, ctypes.byref(self.count)

    @property
    def told(self) -> memoryview:
        """The items that were written."""
        return memoryview(self.bytes)[: self.size * self.count.value]


# ---- Sessions


class Session:
    """64 documents, numbered from 0, all empty at first.

    >>> with Session() as session:
    ...     session[0].open("fn old() {}")
    ...     session[3].open("use old;")
    ...     session.joint({0: [(3, 6, "new")], 3: [(4, 7, "new")]})
    ...     print(session[3].text)
    ...     print(session[0].undo(), session[3].text)
    use new;
    True use old;

    A session is closed by `close`, at the end of a `with`, or when neither it nor its documents are referenced any more. A call on a
    closed session raises ClosedError.
    """

    def __init__(self) -> None:
        held = CSession()
        self._at, self._fault = ctypes.byref(held), held.fault
        self._lock = RLock()
        self._generations = [0] * DOCUMENTS  # how often each document was opened
        status = LIBRARY.tm_make(self._at)
        if status != OK:
            raise refusal(status, "a session")
        self._end = weakref.finalize(self, LIBRARY.tm_free, self._at)

    def __len__(self) -> int:
        """Returns the number of documents, which is 64."""
        return DOCUMENTS

    def __getitem__(self, number: int) -> Document:
        """Returns the document with this number; UnknownError if there is none."""
        found = operator.index(number)
        if not 0 <= found < DOCUMENTS:
            raise UnknownError(f"there is no document {found}: they are numbered from 0 to {DOCUMENTS - 1}")
        document = Document.__new__(Document)
        document._session, document._number, document._is_alone = self, found, False
        return document

    def __iter__(self) -> Iterator[Document]:
        """Returns the documents, from number 0 on."""
        return (self[n] for n in range(DOCUMENTS))

    def joint(self, edits: Mapping[int, Iterable[EditLike]]) -> None:
        """Carries out edits in several documents, all or none, as one undo step in all of them.

        `edits` maps the number of a document to its edits, as `Document.batch` takes them. A document without edits is left out. With
        edits in one document only, this is its `batch`. UnknownError if a number is above 63; else RangeError if there is no edit or a
        span is invalid; else OverlapError; else LimitError.
        """
        given = [(self[number], batch) for number, batch in edits.items()]
        self._carry_out("joint edit", [(document, document._edits_of("joint edit", batch)) for document, batch in given])

    def _carry_out(self, what: str, batches: Sequence[Tuple[Document, Sequence[Edit]]]) -> None:
        """Carries out the edits of each document, all or none."""
        made = [(document, at, edit, encoded(edit.text)) for document, batch in batches for at, edit in enumerate(batch)]
        fields = [(document.number, edit.start, edit.end, len(text) // 2, edit.force) for document, _, edit, text in made]
        ops = array(COp, fields), len(fields)
        joined = b"".join(text for *_, text in made)
        with self._lock:
            status = LIBRARY.tm_raw_joint(self._at, *ops, joined, len(joined) // 2)
            if status == OK:
                return
            if LIBRARY.tm_raw_joint_fault(self._at, *ops, len(joined) // 2, status, self._fault_at("index")) == OK:
                document, at, edit, _ = made[self._fault.index]
                cause = document._why_no_span(edit.start, edit.end) if status == RANGE else "it overlaps an earlier one"
                raise document._error(ERRORS[status][0], what, f"edit {at}: {cause}", at)
            why = None if made else "there are no edits"
            raise batches[0][0]._refusal(status, what, why) if len(batches) == 1 else refusal(status, what, why)

    def answer(self, line: Union[bytes, str]) -> bytes:
        """Answers a script line, given without its LF. Returns the bytes of the reply with its LF, or none for a blank line.

        The reply is that of the program. An invalid line gets a reply too, and raises no error.

        >>> Session().answer('{"cmd":"open","doc":3,"text":"ab"}')
        b'ok 1 2 1\\n'
        """
        data = line.encode("utf-8", LONE) if isinstance(line, str) else line
        if not isinstance(data, bytes):
            raise TypeError(f"a line is bytes or a str, not {type(line).__name__}")
        with self._lock:
            count = U64()
            self._check(LIBRARY.tm_raw_answer(self._at, data, len(data), ctypes.byref(count)), "a line")
            reply = Room(count.value, 1)
            self._check(LIBRARY.tm_raw_reply(self._at, 0, *reply.out), "a reply")
            if reply.told[:5] == b"ok 1 ":
                self._note_opened(data)
            return bytes(reply.told)

    def _note_opened(self, line: bytes) -> None:
        """Notes which document a line opened, if any. Called if the reply has version 1, as that to an open has."""
        command = json.loads(line)
        if command["cmd"] == "open":
            self._generations[command.get("doc", 0)] += 1

    def _fault_at(self, field: str) -> Any:
        """Returns the address of this field of the fault."""
        return ctypes.byref(self._fault, getattr(CFault, field).offset)

    def _check(self, status: int, what: str) -> None:
        if status != OK:
            raise refusal(status, what)

    @property
    def closed(self) -> bool:
        return not self._end.alive

    def close(self) -> None:
        """Frees all documents. Does nothing if the session is closed already."""
        with self._lock:
            self._end()

    def __enter__(self) -> Session:
        return self

    def __exit__(self, *_: object) -> None:
        self.close()

    def __repr__(self) -> str:
        return "<textmodel.Session, closed>" if self.closed else f"<textmodel.Session of {DOCUMENTS} documents>"


# ---- Documents


class Document:
    """A document of a session, or one in a session of its own.

    `language` is one of `LANGUAGES`; brackets in its comments and strings are ignored. `hiding` defines those of any other language.
    Without both, there are no comments or strings. `ending` None keeps line endings as they come: LF, CR or CR LF. `"lf"` and `"crlf"`
    convert them, in text inserted later too. `brackets` are at most 64 pairs of an opening and a closing text, all different, each of
    1 to 32 units without a line break; None means `()`, `[]` and `{}`.

    >>> with Document("if [ a ]; then # ]", language="shell", brackets=[("if", "fi"), ("[", "]")]) as document:
    ...     [(it.column, it.state.name) for it in document.brackets(1, 1)]
    [(1, 'UNCLOSED'), (4, 'OPENING'), (8, 'CLOSING')]

    A `str` may have lone surrogates. `bytes` are UTF-8, else EncodingError. A byte order mark counts as a unit of the text.
    RangeError if the brackets or the hiding are invalid; LimitError if the text would have 2**40 units or more.

    A document with a session of its own is closed by `close`, at the end of a `with`, or when it is not referenced any more.
    """

    __iter__: ClassVar[None] = None  # call `lines` or `parts` instead

    def __init__(
        self, text: Union[str, bytes] = "", language: Optional[str] = None, *, ending: Optional[str] = None,
        brackets: Optional[Iterable[Pair]] = None, hiding: Optional[Hiding] = None,
    ) -> None:  # fmt: skip
        self._session, self._number, self._is_alone = Session(), 0, True
        try:
            self.open(text, language, ending=ending, brackets=brackets, hiding=hiding)
        except BaseException:
            self.close()
            raise

    def open(
        self, text: Union[str, bytes] = "", language: Optional[str] = None, *, ending: Optional[str] = None,
        brackets: Optional[Iterable[Pair]] = None, hiding: Optional[Hiding] = None,
    ) -> None:  # fmt: skip
        """Replaces the document by a new one, of version 1. The arguments are those of `Document`.

        The decorations, snapshots, undo steps, mirror and events of the old one are lost.
        """
        kind, hidden = ending_number(ending), hiding_of(language, hiding)
        pairs = None if brackets is None else [(opening, closing) for opening, closing in brackets]
        if pairs == []:
            raise self._error(RangeError, "open", "the list of brackets is empty: None means `()`, `[]` and `{}`")
        marks = marks_of(pairs or [], hidden)
        with self._session._lock:
            if isinstance(text, bytes):
                words = kind, text, len(text), *marks, self._session._fault_at("index")
                self._do(LIBRARY.tm_raw_open_utf8, *words, what="open", why=NO_MARKS)
            else:
                self._do(LIBRARY.tm_raw_open, kind, *crossing(text), *marks, what="open", why=NO_MARKS)
            self._session._generations[self._number] += 1

    @property
    def session(self) -> Session:
        """The session of this document."""
        return self._session

    @property
    def number(self) -> int:
        """The number of the document in its session."""
        return self._number

    @property
    def closed(self) -> bool:
        return self._session.closed

    def close(self) -> None:
        """Frees a document with a session of its own, else raises ValueError. Does nothing if it is closed already."""
        if not self._is_alone:
            raise ValueError(f"document {self._number} is closed with its session")
        self._session.close()

    def __enter__(self) -> Document:
        return self

    def __exit__(self, *_: object) -> None:
        self.close()

    def __eq__(self, other: object) -> bool:
        """Returns whether the other is the same document of the same session."""
        if not isinstance(other, Document):
            return NotImplemented
        return self._session is other._session and self._number == other._number

    def __hash__(self) -> int:
        return hash((id(self._session), self._number))

    def __repr__(self) -> str:
        name = "Document" if self._is_alone else f"Document {self._number}"
        if self.closed:
            return f"<textmodel.{name}, closed>"
        return f"<textmodel.{name} of {len(self)} units and {self.line_count} lines, version {self.version}>"

    # Calls and their results

    def _called(self, what: str) -> str:
        """Returns the name of a call in a message."""
        return what if self._is_alone else f"{what} in document {self._number}"

    def _error(self, error: Type[TextModelError], what: str, cause: Optional[str], index: Optional[int] = None) -> TextModelError:
        made = error(f"{self._called(what)}: {cause}")
        made.document, made.index = self._number, index
        return made

    def _refusal(self, status: int, what: str, why: Why = None) -> TextModelError:
        if status == LIMIT and what in LIMITS:
            return self._error(LimitError, what, LIMITS[what])
        fault = self._session._fault
        error = refusal(status, self._called(what), why, fault)
        error.document = fault.doc if status == JOINT else self._number
        return error

    def _do(self, call: Callable[..., int], *words: Any, what: str, why: Why = None) -> bool:
        """Makes a call. Returns whether it did or found something; raises if it was refused."""
        with self._session._lock:
            status = call(self._session._at, self._number, *words)
            if status > NOTHING:
                raise self._refusal(status, what, why)
            return status == OK

    def _number_of(self, call: Callable[..., int], *words: Any, what: str, why: Why = None) -> Optional[int]:
        """Returns the number that a call sets; None if it found nothing."""
        found = U64()
        return found.value if self._do(call, *words, ctypes.byref(found), what=what, why=why) else None

    def _told(self, call: Callable[..., int], room: Room, *words: Any, what: str, why: Why = None) -> memoryview:
        """Returns what a call writes into the buffer, or into a longer one if it needs that."""
        with self._session._lock:
            status = call(self._session._at, self._number, *words, *room.out)
            if status == SHORT:
                room = Room(room.count.value, room.size)
                status = call(self._session._at, self._number, *words, *room.out)
            if status > NOTHING:
                raise self._refusal(status, what, why)
            return room.told

    def _list(
        self, call: Callable[..., int], of: Type[Any], made: Callable[[Any], Item], *words: Any, what: str, why: Why
    ) -> List[Item]:
        """Returns the items made of the structs that a call writes."""
        size = ctypes.sizeof(of)
        told = self._told(call, Room(ITEMS_AT_FIRST, size), *words, what=what, why=why)
        return [made(of.from_buffer(told, at)) for at in range(0, len(told), size)]

    # Changes

    def edit(self, start: int, end: int, text: str) -> None:
        """Replaces the units from `start` up to `end` by the text. The version goes up by 1.

        RangeError if the span is invalid; LimitError if the text would have 2**40 units or more, or the version would pass 2**63 - 1.

        >>> document = Document("ab\\U0001f600")
        >>> document.edit(3, 4, "x")
        Traceback (most recent call last):
        textmodel.RangeError: edit: offset 3 is inside a character
        """
        words = numbers(start=start, end=end)
        self._do(LIBRARY.tm_raw_edit, *words, *crossing(text), what="edit", why=partial(self._why_no_span, *words))

    def edit_at(self, start: Place, end: Place, text: str, encoding: str = "utf-16") -> None:
        """Like `edit`, from one position up to another, each a line and a column. RangeError also if a position is invalid.

        >>> document = Document("été")
        >>> document.edit_at((1, 3), (1, 4), "T", "utf-8")
        >>> document.text
        'éTé'
        """
        words, counts = [*place_words(start), *place_words(end)], encoding_number(encoding)

        def why() -> Optional[str]:
            no_start = self._why_no_position(words[0], words[1], encoding)
            no_end = self._why_no_position(words[2], words[3], encoding)
            return no_start or no_end or f"its start, {tuple(words[:2])}, is after its end, {tuple(words[2:])}"

        self._do(LIBRARY.tm_raw_edit_at, *words, counts, *crossing(text), what="edit", why=why)

    def batch(self, edits: Iterable[EditLike]) -> None:
        """Carries out several edits, all or none. The version goes up by 1. All offsets refer to the text before the call. Texts
        inserted at the same offset come in the order of their edits.

        RangeError if there are no edits or a span is invalid; else OverlapError if two edits overlap; else LimitError.

        >>> document = Document("abcdef")
        >>> document.batch([(4, 5, "Y"), (1, 2, "XX")])
        >>> document.text
        'aXXcdYf'
        """
        self._session._carry_out("batch", [(self, self._edits_of("batch", edits))])

    def _edits_of(self, what: str, edits: Iterable[EditLike]) -> List[Edit]:
        """Returns the edits, with valid numbers."""
        found: List[Edit] = []
        try:
            for words in edits:
                found.append(edit_of(words))
        except RangeError as error:
            raise self._error(RangeError, what, f"edit {len(found)}: {error}", len(found)) from None
        return found

    def undo(self) -> bool:
        """Restores the text before the last step. The version goes up by 1. Returns False if there is no step.

        Consecutive edits without a `stop` between them are one step. A joint edit is undone in all its documents; JointError if it is
        not the last step of each of them. LimitError as in `edit`.
        """
        return self._do(LIBRARY.tm_raw_undo, self._session._fault_at("doc"), what="undo")

    def redo(self) -> bool:
        """Restores the text after the step that was undone last. The version goes up by 1. Returns False if there is none.

        A joint edit is redone in all its documents; JointError if it is not the next step of each of them. LimitError as in `edit`.
        """
        return self._do(LIBRARY.tm_raw_redo, self._session._fault_at("doc"), what="redo")

    @property
    def can_undo(self) -> bool:
        """Whether there is a step to undo."""
        return self._do(LIBRARY.tm_can_undo, what="undo")

    @property
    def can_redo(self) -> bool:
        """Whether there is a step to redo."""
        return self._do(LIBRARY.tm_can_redo, what="redo")

    def stop(self) -> None:
        """Makes the next edit begin a new undo step."""
        self._do(LIBRARY.tm_stop, what="stop")

    @property
    def ending(self) -> Optional[str]:
        """The line endings of the document: None for mixed ones, `"lf"` or `"crlf"`."""
        kind = NUMBER()
        self._do(LIBRARY.tm_kind, ctypes.byref(kind), what="ending")
        return ENDINGS[kind.value]

    def set_ending(self, ending: Optional[str]) -> bool:
        """Converts all line endings to this kind, as an undo step of its own. The version goes up by 1. Returns False if the document
        has this kind already. None leaves the text unchanged. LimitError as in `edit`.
        """
        return self._do(LIBRARY.tm_set_eol, ending_number(ending), what="line endings")

    def changes(self) -> List[Change]:
        """Returns the edits of the last change, an edit, an undo, a redo, a replace or new line endings. Applied in order, they
        turn the text before it into the present one. The list is empty in version 1.

        >>> document = Document("one two")
        >>> document.batch([(0, 3, "1"), (4, 7, "2")])
        >>> document.changes()
        [Change(start=4, end=7, text='2'), Change(start=0, end=3, text='1')]
        """
        with self._session._lock:
            try:
                return [*self._changes_in_turn()]
            except BaseException:  # the library starts again only after the last one
                while LIBRARY.tm_next_change(self._session._at, self._number, ctypes.byref(CChange())) == OK:
                    pass
                raise

    def _changes_in_turn(self) -> Iterator[Change]:
        told = CChange()
        while self._do(LIBRARY.tm_next_change, ctypes.byref(told), what="changes"):
            room = Room(told.units)
            self._session._check(LIBRARY.tm_raw_change_text(self._session._at, *room.out), self._called("changes"))
            yield Change(told.start, told.end, decoded(room.told))

    # The text

    def __len__(self) -> int:
        """Returns the length of the text in units."""
        return self._number_of(LIBRARY.tm_len, what="length") or 0

    def __bool__(self) -> bool:
        """Returns True, even if the text is empty."""
        return True

    @property
    def line_count(self) -> int:
        """The number of lines, at least 1."""
        return self._number_of(LIBRARY.tm_line_count, what="lines") or 0

    @property
    def version(self) -> int:
        """The version: 1 at first, and 1 more after each change."""
        return self._versions()[0]

    @property
    def alternative(self) -> int:
        """The version at which the text was last the same as now."""
        return self._versions()[1]

    def _versions(self) -> Tuple[int, int]:
        version, alternative = U64(), U64()
        self._do(LIBRARY.tm_versions, ctypes.byref(version), ctypes.byref(alternative), what="version")
        return version.value, alternative.value

    @property
    def text(self) -> str:
        """The text."""
        with self._session._lock:
            return self.value(0, len(self))

    def __str__(self) -> str:
        return self.text

    def __getitem__(self, span: slice) -> str:
        """Returns the text of a slice, which counts units as that of a list counts items; RangeError if a bound is invalid.

        >>> document = Document("hello")
        >>> document[1:3], document[-2:]
        ('el', 'lo')
        """
        with self._session._lock:
            return self.value(*self._ends_of(span))

    def __setitem__(self, span: slice, text: str) -> None:
        """Replaces a slice by the text, as `edit` does."""
        with self._session._lock:
            self.edit(*self._ends_of(span), text)

    def __delitem__(self, span: slice) -> None:
        """Deletes a slice, as `edit` does."""
        self[span] = ""

    def _ends_of(self, span: slice) -> Span:
        if not isinstance(span, slice):
            raise TypeError("a document is read by slices, as document[3:4], not by one offset")
        if span.step not in (None, 1):
            raise ValueError("a slice of a document has no step")
        start, end, _ = span.indices(len(self))
        return Span(start, max(start, end))

    def value(self, start: int, end: int) -> str:
        """Returns the text from `start` up to `end`; RangeError if the span is invalid."""
        start, end = numbers(start=start, end=end)
        with self._session._lock:
            room = Room(min(end, len(self)) - start)
            why = partial(self._why_no_span, start, end)
            return decoded(self._told(LIBRARY.tm_raw_value, room, start, end, what="value", why=why))

    def read(self, offset: int, most: int = PART_UNITS) -> str:
        """Returns at most `most` units from `offset` on, one fewer if that would split a surrogate pair or a CR LF line ending.
        RangeError if the offset is invalid or `most` is below 2.
        """
        offset, most = numbers(offset=offset, most=most)

        def why() -> Optional[str]:
            return self._why_no_offset(offset) or f"`most` is {most}, and must be at least 2: a character may have two units"

        with self._session._lock:
            room = Room(min(most, max(len(self), 2)))
            return decoded(self._told(LIBRARY.tm_raw_read_into, room, offset, what="read", why=why))

    def parts(self) -> Iterator[str]:
        """Returns the text in parts, so that it is never whole in memory. The document must not change meanwhile."""
        offset = 0
        while part := self.read(offset):
            yield part
            offset += units(part)

    def line(self, n: int) -> str:
        """Returns the line with this number, from 1, without its ending; RangeError if there is none."""
        return decoded(self._line(LIBRARY.tm_raw_line, n, 2))

    def line_utf8(self, n: int) -> bytes:
        """Returns the same in UTF-8; a lone surrogate becomes U+FFFD."""
        return bytes(self._line(LIBRARY.tm_raw_line_utf8, n, 1))

    def _line(self, call: Callable[..., int], n: int, size: int) -> memoryview:
        n = number(n, "line")
        return self._told(call, Room(UNITS_AT_FIRST, size), n, what="line", why=partial(self._why_no_line, n))

    def lines(self, first: int = 1, last: Optional[int] = None) -> Iterator[str]:
        """Returns the lines from `first` to `last`, both included, or to the end. Each is read when the iterator reaches it."""
        n = first
        while n <= (self.line_count if last is None else last):
            yield self.line(n)
            n += 1

    # Places

    def position(self, offset: int, encoding: str = "utf-16") -> Position:
        """Returns the line and column of an offset; RangeError if it is invalid.

        >>> document = Document("a\\néb")
        >>> document.position(3), document.position(3, "utf-8")
        (Position(line=2, column=2), Position(line=2, column=3))
        """
        offset, counts, at = number(offset, "offset"), encoding_number(encoding), CPlace()
        with self._session._lock:
            if not self._do(LIBRARY.tm_position, offset, counts, ctypes.byref(at), what="position"):
                raise self._error(RangeError, "position", self._why_no_offset(offset))
        return Position(at.line, at.column)

    def offset(self, line: int, column: int, encoding: str = "utf-16") -> int:
        """Returns the offset of a line and a column; RangeError if the line is missing, or the column is beyond its end or inside a
        character.
        """
        words, counts = place_words((line, column)), encoding_number(encoding)
        with self._session._lock:
            found = self._number_of(LIBRARY.tm_offset, *words, counts, what="offset")
            if found is None:
                raise self._error(RangeError, "offset", self._why_no_position(*words, encoding))
        return found

    def stops(self, n: int, encoding: str = "utf-16") -> List[int]:
        """Returns the columns of a line at which a cursor may stop: the starts of Unicode's extended grapheme clusters. The end of the
        line is left out. RangeError if there is no such line.

        >>> document = Document("e\\u0301x")
        >>> document.stops(1), document.stops(1, "utf-8")
        ([1, 3], [1, 4])
        """
        n, counts, room = number(n, "line"), encoding_number(encoding), Room(ITEMS_AT_FIRST, ctypes.sizeof(U64))
        told = self._told(LIBRARY.tm_raw_stops, room, n, counts, what="stops", why=partial(self._why_no_line, n))
        return told.cast("Q").tolist()

    # Search

    def find(self, text: str, start: Optional[int] = None, back: bool = False, most: Optional[int] = None) -> List[Span]:
        """Returns the spans at which the text occurs, unit for unit, found from left to right; none overlaps the one before.

        Returned are those that start at or after `start`, or with `back` those that end at or before it, the last one first. None
        means the start of the document, or with `back` its end. At most `most` are returned, or all. RangeError if the text is empty.

        >>> document = Document("abab")
        >>> document.find("b")
        [Span(start=1, end=2), Span(start=3, end=4)]
        >>> document.find("b", back=True, most=1)
        [Span(start=3, end=4)]
        """
        begin = (MOST_NUMBER if back else 0) if start is None else number(start, "start")
        words = *crossing(text), begin, back, MOST_NUMBER if most is None else number(most, "most")
        of = CFound, lambda it: Span(it.start, it.end)
        return self._list(LIBRARY.tm_raw_find, *of, *words, what="find", why=NOTHING_SOUGHT)

    def replace_all(self, text: str, other: str) -> int:
        """Replaces each span that `find` finds, as an undo step of its own. Returns their number. The version goes up by 1, but is
        unchanged if there are none.

        RangeError if the sought text is empty; LimitError as in `edit`.
        """
        words = *crossing(text), *crossing(other)
        return self._number_of(LIBRARY.tm_raw_replace_all, *words, what="replace", why=NOTHING_SOUGHT) or 0

    # Decorations

    def decorate(self, owner: int, add: Iterable[NewLike] = (), remove: Iterable[int] = ()) -> range:
        """Removes decorations of an owner by their ids, and adds others, all or none. Returns the ids of the added ones, in order.

        UnknownError if one to be removed is missing, has another owner, or is repeated; else RangeError if a span or a `stick` is
        invalid; else LimitError if there would be more than 2**20, or an id would pass 2**63 - 1.

        >>> document = Document("let x = 1;")
        >>> document.decorate(owner=7, add=[(4, 5), (8, 9, Stick.NONE)])
        range(1, 3)
        >>> document.edit(0, 3, "const")
        >>> document.decoration(1).span
        Span(start=6, end=7)
        """
        owner = number(owner, "owner")
        gone = [number(id_, "decoration", UnknownError) for id_ in remove]
        made = [new_decoration(new) for new in add]
        words = owner, array(U64, gone), len(gone), array(CNewDecoration, made), len(made)
        first = U64()
        with self._session._lock:
            status = LIBRARY.tm_raw_decorate(self._session._at, self._number, *words, ctypes.byref(first))
            if status != OK:
                raise self._decorate_refusal(status, words, gone, made)
        return range(first.value, first.value + len(made))

    def _decorate_refusal(self, status: int, words: Tuple[Any, ...], gone: Sequence[int], made: Sequence[New]) -> TextModelError:
        at_fault = *words, status, self._session._fault_at("index")
        if LIBRARY.tm_raw_decorate_fault(self._session._at, self._number, *at_fault) != OK:
            return self._refusal(status, "decorate")
        at = self._session._fault.index
        if status == UNKNOWN:
            cause = f"decoration {gone[at]} cannot be removed: it is missing, has another owner, or is repeated"
        else:
            start, end, stick, _ = made[at]
            cause = f"new decoration {at}: {self._why_no_span(start, end) or f'there is no stick {stick}'}"
        return self._error(ERRORS[status][0], "decorate", cause, at)

    def decoration(self, id: int) -> Decoration:
        """Returns the decoration with this id; UnknownError if there is none."""
        found = CDecoration()
        if not self._do(LIBRARY.tm_deco, number(id, "decoration", UnknownError), ctypes.byref(found), what="decoration"):
            raise self._error(UnknownError, "decoration", f"there is none with id {id}")
        return decoration_of(found)

    def decorations(self, start: int, end: int, owner: Optional[int] = None) -> List[Decoration]:
        """Returns the decorations that overlap or touch the span from `start` up to `end`: those of an owner, or all.

        They are sorted by start, then by end, then by id. RangeError if the span is invalid.
        """
        start, end = numbers(start=start, end=end)
        words = start, end, 0 if owner is None else number(owner, "owner"), owner is None
        why = partial(self._why_no_span, start, end)
        return self._list(LIBRARY.tm_raw_decos, CDecoration, decoration_of, *words, what="decorations", why=why)

    # Brackets

    def brackets(self, first: int, last: int, encoding: str = "utf-16") -> List[Bracket]:
        """Returns the brackets of the lines from `first` to `last`, both included, except those in comments and strings. An opening
        bracket inside 300 others is text.

        RangeError if a line is missing, `first` is above `last`, or a bracket begins or ends inside a character, as half of a surrogate
        pair may.
        """
        rows = self.bracket_rows(first, last, encoding)
        return [Bracket(line, column, length, kind, level, STATES[state]) for line, column, length, kind, level, state in rows]

    def bracket_rows(self, first: int, last: int, encoding: str = "utf-16") -> Iterator[Tuple[int, ...]]:
        """Like `brackets`, but returns tuples of line, column, length, kind, level and state, which is faster for many brackets.

        >>> [*Document("f(x)").bracket_rows(1, 1)]
        [(1, 2, 1, 0, 0, 0), (1, 4, 1, 0, 0, 1)]
        """
        words, counts = numbers(first=first, last=last), encoding_number(encoding)
        room = Room(min(max(ITEMS_AT_FIRST, 4 * (words[1] - words[0])), BRACKETS_AT_FIRST), BRACKET.size)

        def why() -> Optional[str]:
            is_turned = f"its first line, {words[0]}, is after its last, {words[1]}" if words[0] > words[1] else None
            return self._why_no_line(words[0]) or self._why_no_line(words[1]) or is_turned or NO_LENGTH

        return BRACKET.iter_unpack(self._told(LIBRARY.tm_raw_brackets, room, *words, counts, what="brackets", why=why))

    def match(self, line: int, column: int, encoding: str = "utf-16") -> Optional[Partner]:
        """Returns the bracket that matches the one at this position; None if no bracket starts there or it has no match.

        RangeError if the position is invalid, or the match begins or ends inside a character.
        """
        words, counts, partner = place_words((line, column)), encoding_number(encoding), CPartner()
        why = lambda: self._why_no_position(*words, encoding) or NO_LENGTH  # noqa: E731
        is_there = self._do(LIBRARY.tm_match, *words, counts, ctypes.byref(partner), what="match", why=why)
        return Partner(partner.line, partner.column, partner.length) if is_there else None

    def level(self, line: int, column: int, encoding: str = "utf-16") -> int:
        """Returns how many brackets are open after those that start before this position; RangeError if it is invalid."""
        words, counts = place_words((line, column)), encoding_number(encoding)
        why = partial(self._why_no_position, *words, encoding)
        return self._number_of(LIBRARY.tm_level, *words, counts, what="level", why=why) or 0

    # Snapshots

    def snapshot(self) -> Snapshot:
        """Keeps the present text, to be read while the document changes; LimitError if 1,000 are open.

        >>> document = Document("before")
        >>> with document.snapshot() as snapshot:
        ...     document[:] = "after"
        ...     print(snapshot.read())
        before
        """
        with self._session._lock:
            id_ = self._number_of(LIBRARY.tm_snapshot, what="snapshot") or 0
            return Snapshot(self, id_, len(self))

    # Mirrors

    def mirror(self) -> int:
        """Starts a mirror with the present text: a second text that follows this one by events. Returns its version.

        It replaces the old mirror. The events that were sent are kept.

        >>> document = Document("ab")
        >>> document.mirror()
        1
        >>> document[0:0] = "x"
        >>> event = document.send()
        >>> document.mirrored(1), document.deliver(event.number), document.mirrored(1)
        ('ab', MirrorState(version=2, units=3, line_count=1), 'xab')
        """
        return self._number_of(LIBRARY.tm_mirror, what="mirror") or 0

    def send(self) -> Optional[Event]:
        """Sends the last change as an event, and keeps it. Returns None in version 1. LimitError if 65,536 were sent."""
        n, version = U64(), U64()
        is_sent = self._do(LIBRARY.tm_send, ctypes.byref(n), ctypes.byref(version), what="send")
        return Event(n.value, version.value) if is_sent else None

    def deliver(self, n: int) -> Optional[MirrorState]:
        """Delivers the event with this number to the mirror. Returns the mirror's new state, or None if it is past that event.

        UnknownError if there is no mirror or no such event; GapError if the mirror lacks earlier events.
        """
        n, told = number(n, "event", UnknownError), CFollowed()
        words = n, ctypes.byref(told), *map(self._session._fault_at, ("have", "need"))
        is_taken = self._do(LIBRARY.tm_raw_deliver, *words, what=f"event {n}", why=partial(self._why_not_mirrored, "event"))
        return mirror_state_of(told) if is_taken else None

    def mirror_now(self) -> Optional[MirrorState]:
        """Returns the state of the mirror; None if there is none."""
        told = CFollowed()
        return mirror_state_of(told) if self._do(LIBRARY.tm_mirror_now, ctypes.byref(told), what="mirror") else None

    def mirrored(self, n: int) -> str:
        """Returns a line of the mirror, without its ending; UnknownError if there is no mirror, RangeError if there is no such line."""
        n, room = number(n, "line"), Room(UNITS_AT_FIRST)
        what, why = f"line {n} of the mirror", partial(self._why_not_mirrored, "line")
        return decoded(self._told(LIBRARY.tm_raw_mirrored, room, n, what=what, why=why))

    # Why a call was refused

    def _why_no_offset(self, offset: int) -> Optional[str]:
        if offset > len(self):
            return f"offset {offset} is beyond the end of the text, {len(self)}"
        if self._do(LIBRARY.tm_position, offset, ENCODINGS["utf-16"], ctypes.byref(CPlace()), what="position"):
            return None
        is_ending = self.value(offset - 1, offset + 1) == "\r\n"
        return f"offset {offset} is " + ("between a CR and its LF" if is_ending else "inside a character")

    def _why_no_span(self, start: int, end: int) -> Optional[str]:
        is_turned = f"its start, {start}, is after its end, {end}" if start > end else None
        return self._why_no_offset(start) or self._why_no_offset(end) or is_turned

    def _why_no_line(self, n: int) -> Optional[str]:
        if n == 0:
            return "lines count from 1"
        return f"there is no line {n}: the text has {self.line_count}" if n > self.line_count else None

    def _why_no_position(self, line: int, column: int, encoding: str = "utf-16") -> Optional[str]:
        no_line = self._why_no_line(line)
        if no_line or column == 0:
            return no_line or "columns count from 1"
        if self._number_of(LIBRARY.tm_offset, line, column, ENCODINGS[encoding], what="offset") is not None:
            return None
        last = self.position(self.offset(line, 1) + units(self.line(line)), encoding).column
        if column > last:
            return f"column {column} is beyond the end of line {line}, column {last} in {COUNTED[encoding]}"
        return f"column {column} of line {line} is inside a character, in {COUNTED[encoding]}"

    def _why_not_mirrored(self, what: str) -> str:
        return f"there is no such {what}" if self.mirror_now() else "there is no mirror"


def place_words(place: Place) -> Tuple[int, int]:
    """Returns the line and the column of a position, as a call takes them."""
    line, column = place
    return number(line, "line"), number(column, "column")


def marks_of(pairs: Sequence[Pair], hiding: Hiding) -> List[Any]:
    """Returns the bracket pairs and the hiding, as calls take them."""
    lengths = array(CPair, [CPair(units(opening), units(closing)) for opening, closing in pairs])
    brackets = crossing("".join(opening + closing for opening, closing in pairs))
    opening, closing = hiding.block
    marks = crossing(hiding.line + opening + closing + hiding.quotes)
    return [lengths, len(pairs), *brackets, units(hiding.line), units(opening), units(closing), *marks]


# ---- Snapshots


class Snapshot:
    """The text that a document had, read from its start. It is closed by `close`, or at the end of a `with`.

    A snapshot that is not closed is kept until its document is closed or opened anew. After a new open, a read raises UnknownError.
    """

    def __init__(self, document: Document, id_: int, most_left: int) -> None:
        self.id = id_
        self._document, self._most_left = document, most_left
        self._generation = document._session._generations[document._number]
        self._is_open = True

    def read(self, most: Optional[int] = None) -> str:
        """Returns the next units, at most `most` or all that are left, one fewer if that would split a surrogate pair; at the end an
        empty text. RangeError if `most` is below 2.
        """
        if not self._is_open:
            raise self._error(ClosedError, "it is closed")
        wanted = max(self._most_left, 2) if most is None else number(most, "most")
        with self._document._session._lock:
            if not self._is_of_now():
                raise self._error(UnknownError, "its document was opened anew")
            room, what = Room(min(wanted, max(self._most_left, 2))), f"snapshot {self.id}"
            why = "it is not open" if wanted >= 2 else f"`most` is {wanted}, and must be at least 2: a character may have two units"
            told = self._document._told(LIBRARY.tm_raw_read, room, self.id, what=what, why=why)
            self._most_left -= len(told) // room.size
            return decoded(told)

    def _error(self, error: Type[TextModelError], cause: str) -> TextModelError:
        return self._document._error(error, f"snapshot {self.id}", cause)

    def _is_of_now(self) -> bool:
        """Returns whether the document was not opened anew since the snapshot."""
        return self._generation == self._document._session._generations[self._document._number]

    def __iter__(self) -> Iterator[str]:
        """Returns what was not read yet, in parts."""
        while part := self.read(PART_UNITS):
            yield part

    def close(self) -> None:
        """Closes the snapshot. Does nothing if it is closed already, or its document is closed or was opened anew."""
        with self._document._session._lock:
            is_there = self._is_open and self._is_of_now() and not self._document.closed
            self._is_open = False
            if is_there:
                self._document._do(LIBRARY.tm_close, self.id, what=f"snapshot {self.id}", why="it is not open")

    def __enter__(self) -> Snapshot:
        return self

    def __exit__(self, *_: object) -> None:
        self.close()
