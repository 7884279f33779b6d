#!/usr/bin/env -S python3 -B
"""Makes random calls of the library, refused ones among them, and compares each with what flat documents answer.

examples/c/random_calls.py LIBRARY CALLS [SEED]

LIBRARY is the folder of libtextmodel.so. The header is that of the checkout, or in the folder that HEADER names. The flat
documents are those of fuzz/: what docs/SCRIPT.md says, done in the plainest way. The status is 1 where an answer differs.
"""
import itertools
import os
import re
import sys
from collections import Counter
from ctypes import CDLL, Structure, byref, c_bool, c_uint8, c_uint16, c_uint32, c_uint64, c_void_p
from pathlib import Path
from random import Random

TOP = Path(__file__).resolve().parent.parent.parent
HEADER = Path(os.environ.get("HEADER", TOP / "crates" / "textmodel_c"), "textmodel.h")
sys.path.insert(0, str(TOP / "fuzz"))

from commands import LineOp, Refused  # noqa: E402
from flat import Flat  # noqa: E402
from hiding import Hiding  # noqa: E402
from texts import MIXED, cuts_pair, text_of, units_of  # noqa: E402

DOCUMENTS = [0, 1, 2, 63]
NO_DOCUMENTS = [64, 65, 2**32, 2**63, 2**64 - 1]
MOST = 2**64 - 1
ROOM = 4096
MOST_UNITS = 250  # edits keep to texts of about this length
ENCODINGS = [8, 16, 32]
NO_ENCODINGS = [0, 7, 2**32 - 1]
KINDS = [MIXED, "lf", "crlf"]
STATES = "ocux"
HIGH, LOW = "\ud83d", "\ude00"
ALPHABET = ["a", "b", "ab", " ", "(", ")", "[", "]", "{", "}", "\n", "\r", "\r\n", "/*", "*/", "//", '"', "\\", "\u00e9",
            "\u4e2d", HIGH + LOW, "e\u0301", HIGH, LOW, "<", ">", "be", "end"]  # fmt: skip
SOUGHT = ["a", "ab", "aa", "\n", "\r\n", HIGH + LOW, LOW, "((", "\u00e9"]
PAIRS = [None, None, (("<", ">"), ("be", "end")), (("a", "b"),), (("(", ")"), (HIGH + LOW, "]"))]
HIDINGS = [None, None, Hiding("//", ("/*", "*/"), "\"'"), Hiding(None, ("a", "b")), Hiding("b"), Hiding(None, None, '"')]
NO_PAIRS = [(("a", "a"),), (("a", "b"), ("b", "c")), (("", "b"),), (("a\n", "b"),), (("a" * 33, "b"),)]
NO_HIDINGS = [Hiding("\n"), Hiding("x" * 33), Hiding(None, ("a", "")), Hiding(None, None, '""'), Hiding(None, None, "\\")]
FRACTIONS = [b"\xff", b"\xc3", b"\xed\xa0\x80", b"\xf0\x9f\x98", b"\x80"]

OK, NOTHING, UNKNOWN, RANGE, OVERLAP, LIMIT, MEMORY, ENCODING, EMPTY, SHORT, JOINT, GAP = range(12)
STATUSES = {"unknown": UNKNOWN, "range": RANGE, "overlap": OVERLAP, "limit": LIMIT, "joint": JOINT, "gap": GAP}
NUMBERS = {"uint64_t": c_uint64, "size_t": c_uint64, "uint32_t": c_uint32, "bool": c_bool}


# ---- What crosses


def library_in(folder):
    """The library, with the types of the parameters that the header has."""
    library = CDLL(str(Path(folder).resolve() / "libtextmodel.so"))
    header = re.sub(r"/\*.*?\*/", "", HEADER.read_text(), flags=re.S)
    for name, parameters in re.findall(r"^uint32_t (tm_\w+)\(([^)]*)\);", header, re.M):
        types = [it.strip() for it in parameters.split(",") if it.strip() != "void"]
        call = getattr(library, name)
        call.argtypes = [c_void_p if "*" in it else NUMBERS[it.split()[0]] for it in types]
        call.restype = c_uint32
    return library, header


def structs_of(header):
    """The structs of the header, by their names without `tm_`."""
    made = {}
    for name, body in re.findall(r"typedef struct tm_(\w+) \{([^}]*)\}", header):
        fields = [it.split()[-2:] for it in body.split(";") if it.strip()]
        types = [c_void_p if "*" in field else NUMBERS.get(type_) or made[type_[3:]] for type_, field in fields]
        made[name] = type(name, (Structure,), {"_fields_": [(field.lstrip("*"), it) for (_, field), it in zip(fields, types)]})
    return made


def given(units):
    """A text and its length, as a slice."""
    raw = units.encode("utf-16-le", "surrogatepass")
    return (c_uint16 * max(1, len(units))).from_buffer_copy(raw or b"\0\0"), len(units)


def given_utf8(units):
    return array(c_uint8, text_of(units).encode("utf-8"))


def is_whole(units):
    """Whether no surrogate stands in no pair, so that UTF-8 has the text."""
    return units_of(text_of(units)) == units


def array(type_, items):
    return (type_ * max(1, len(items)))(*items), len(items)


def fields_of(it):
    return tuple(getattr(it, name) for name, _ in it._fields_)


# ---- What is expected beside the flat documents' own words


def length_in(encoding, units):
    """How many bytes, units or code points these units have."""
    text = text_of(units)
    return {8: len(text.encode("utf-8")), 16: len(units), 32: len(text)}[encoding]


def column_in(encoding, content, before):
    """The column that so many bytes, units or code points stand before; one that is none where there is no such place."""
    at, done = 0, 0
    while done < before and at < len(content):
        size = 2 if cuts_pair(content, at + 1) else 1
        done += length_in(encoding, content[at : at + size])
        at += size
    return at + 1 if done == before else MOST


def first_at_fault(items, is_refused):
    """The place of the first item with which those up to it are refused."""
    return next((at for at in range(len(items)) if is_refused(items[: at + 1])), None)


def valid_up_to(raw):
    try:
        raw.decode("utf-8")
    except UnicodeDecodeError as why:
        return why.start
    return len(raw)


class Differs(Exception):
    """A call that answers otherwise."""


class Player:
    """Makes calls on a session, and the same on flat documents."""

    def __init__(self, folder, seed):
        self.library, header = library_in(folder)
        for name, made in structs_of(header).items():
            setattr(self, name, made)
        self.draw = Random(seed)
        self.flat = Flat()
        self.handle = self.session()
        self.units, self.bytes, self.numbers = (c_uint16 * ROOM)(), (c_uint8 * ROOM)(), (c_uint64 * ROOM)()
        self.lists = {name: (getattr(self, name) * ROOM)() for name in ("decoration", "found", "bracket")}
        self.count = c_uint64()
        self.bad = c_uint64()  # the byte at fault
        self.why = ""  # for what a flat document refused the last call
        self.coming = []  # the names of what comes next
        self.before = {}  # the texts of the versions before
        self.half_told = ()  # a document, its version, and the text that the edits told so far lead to
        self.seen = Counter()
        self.names = [name for name, often in CALLS.items() for _ in range(often)]
        self.same(self.library.tm_can_undo(byref(self.handle), 0), EMPTY)
        self.same(self.library.tm_make(byref(self.handle)), OK)

    def chance(self, of):
        return self.draw.random() < of

    def play(self):
        """The next call, on the same document mostly where it belongs to the one before."""
        if not self.coming or self.chance(0.1):
            self.doc = self.draw.choice(DOCUMENTS)
            self.coming = [self.draw.choice(self.names)]
        self.name = self.coming.pop(0)
        if self.name == "elsewhere":
            self.doc, self.name = self.draw.choice(DOCUMENTS), self.coming.pop(0)
        self.named = self.doc if self.chance(0.99) else self.draw.choice(NO_DOCUMENTS)
        getattr(self, f"play_{self.name}")()
        self.coming = self.coming or self.draw.choice(BEHIND.get(self.name, [""])).split()

    @property
    def document(self):
        return self.flat.documents[self.doc]

    def ask(self, name, *parameters):
        return getattr(self.library, f"tm_{name}")(byref(self.handle), self.named, *parameters)

    def ask_with(self, name, words, texts, *rest):
        """A call that takes these texts, as units or in UTF-8. Before some, the same call is refused for a text that is not valid."""
        if self.chance(0.05):
            self.refuse_utf8(name, words, texts, rest)
        if self.chance(0.5) or not all(map(is_whole, texts)):
            return self.ask(f"raw_{name}", *words, *(it for text in texts for it in given(text)), *rest)
        self.bad.value = MOST
        told = [it for text in texts for it in given_utf8(text)]
        status = self.ask(f"raw_{name}_utf8", *words, *told, *rest, byref(self.bad))
        self.same(self.bad.value, MOST)
        return status

    def refuse_utf8(self, name, words, texts, rest):
        at = self.draw.randrange(len(texts))
        raws = [text_of(text).encode("utf-8") for text in texts]
        raws[at] += self.draw.choice(FRACTIONS) + self.draw.choice([b"", b"a"])
        told = [it for raw in raws for it in array(c_uint8, raw)]
        self.same(self.ask(f"raw_{name}_utf8", *words, *told, *rest, byref(self.bad)), ENCODING)
        self.same(self.bad.value, valid_up_to(raws[at]))
        self.seen[name, ENCODING] += 1

    def same(self, got, wanted):
        if got != wanted:
            raise Differs(f"{got!r} in place of {wanted!r}")

    def wanted(self, say, *words, **other):
        """A status and numbers, by what a flat document says. Some refusals have another status than its words."""
        self.why = ""
        if self.named != self.doc:
            return UNKNOWN, ()
        try:
            said = say(*words)
        except Refused as why:
            self.why = str(why)
            reason = self.why.split()[0]
            return other.get(reason, STATUSES[reason]), ()
        if isinstance(said, tuple):
            return OK, said
        if said in (" none", " old"):
            return NOTHING, ()
        return OK, tuple(map(int, said.split()))

    def out_of_range(self):
        """What is wanted of a call of which the flat documents know nothing, and which is wrong."""
        return RANGE if self.named == self.doc else UNKNOWN, ()

    def judge(self, status, told, wanted):
        """Compares a status, and what is told where it is OK, with what is wanted."""
        self.seen[self.name, status] += 1
        self.same((status, told() if status == OK else ()), wanted)

    def judge_list(self, status, told, room, wanted):
        """The same of a list, which may have no room."""
        status_wanted, items = wanted
        if status_wanted == OK and len(items) > room:
            self.seen[self.name, status] += 1
            self.same((status, self.count.value), (SHORT, len(items)))
        else:
            self.judge(status, lambda: told(self.count.value), wanted)

    # ---- What is drawn

    def text(self, most=6):
        return "".join(self.draw.choices(ALPHABET, k=self.draw.randint(0, most)))

    def offset(self):
        units = len(self.document.text.units)
        return self.draw.choice([0, units, units + 1, MOST]) if self.chance(0.05) else self.draw.randint(0, units)

    def span(self):
        start = self.offset()
        if self.chance(0.05):
            return start, self.offset()
        most = 100 if len(self.document.text.units) > MOST_UNITS else 3
        return start, min(MOST, start + self.draw.choice([0, 0, 1, 2, 5, most]))

    def line(self):
        lines = len(self.document.text.starts)
        return self.draw.choice([0, lines + 1, MOST]) if self.chance(0.05) else self.draw.randint(1, lines)

    def column(self, line, encoding=16):
        if not 1 <= line <= len(self.document.text.starts) or self.chance(0.03):
            return self.draw.choice([0, 1, 2, MOST])
        return self.draw.randint(1, length_in(encoding, self.document.content(line)) + 1)

    def room(self):
        return self.draw.randint(0, 4) if self.chance(0.1) else ROOM

    def ops(self, count):
        """Ops, mostly of places that are apart."""
        spans = [self.span() for _ in range(count)]
        if self.chance(0.85):
            text = self.document.text
            places = sorted(self.draw.choices(range(len(text.units) + 1), k=2 * count))
            places = [at - (not text.is_place(at)) for at in places]
            spans = [*zip(places[::2], places[1::2])]
            self.draw.shuffle(spans)
        return [LineOp([*span], None, self.text(3), self.chance(0.1)) for span in spans]

    # ---- Changes

    def keep_texts(self):
        return {doc: (self.flat.documents[doc].version, self.flat.documents[doc].text.units) for doc in DOCUMENTS}

    def sizes(self, doc):
        """The version, the units and the lines by calls."""
        version, alternative, units, lines = (c_uint64() for _ in range(4))
        self.library.tm_versions(byref(self.handle), doc, byref(version), byref(alternative))
        self.library.tm_len(byref(self.handle), doc, byref(units))
        self.library.tm_line_count(byref(self.handle), doc, byref(lines))
        return version.value, units.value, lines.value

    def judge_change(self, status, say, *words, **other):
        """A call that may change texts. The texts from before are kept, for `changes`."""
        before = self.keep_texts()
        wanted = self.wanted(say, *words, **other)
        for doc, (version, units) in before.items():
            if self.flat.documents[doc].version == version + 1:
                self.before[doc] = units
        self.judge(status, lambda: self.sizes(self.doc), wanted)

    def play_open(self):
        units, kind, pairs, hiding = self.text(40), self.draw.randrange(3), self.draw.choice(PAIRS), self.draw.choice(HIDINGS)
        fault = self.draw.random()
        if fault < 0.1:
            kind = self.draw.choice([3, 8, 2**32 - 1])
        elif fault < 0.2:
            pairs = self.draw.choice(NO_PAIRS)
        elif fault < 0.3:
            hiding = self.draw.choice(NO_HIDINGS)
        raw = text_of(units).encode("utf-8") if self.chance(0.4) else None
        if raw is not None:
            units = units_of(text_of(units))
            raw += self.draw.choice(FRACTIONS) + self.draw.choice([b"", b"a"]) if 0.3 <= fault < 0.5 else b""
        status, bad = self.opened(units, raw, kind, pairs, hiding)
        if raw is not None and 0.3 <= fault < 0.5:  # which is told before all else
            self.judge(status, tuple, (ENCODING, ()))
            self.same(bad, valid_up_to(raw))
        elif fault < 0.3:
            self.judge(status, tuple, self.out_of_range())
        else:
            self.judge_change(status, self.flat.open, self.doc, units, pairs, hiding, None if kind == 0 else KINDS[kind])
        if status == OK:
            self.half_told = ()

    def opened(self, units, raw, kind, pairs, hiding):
        """A status, and which byte is at fault."""
        lengths = array(self.pair, [self.pair(len(opening), len(closing)) for opening, closing in pairs or ()])
        line, block, quotes = hiding or Hiding()
        opening, closing = block or ("", "")
        marks = given((line or "") + opening + closing + quotes)
        rest = [*lengths, *given("".join(map("".join, pairs or ()))), len(line or ""), len(opening), len(closing), *marks]
        if raw is None:
            return self.ask("raw_open", kind, *given(units), *rest), None
        bad = c_uint64(MOST)
        status = self.ask("raw_open_utf8", kind, *array(c_uint8, raw), *rest, byref(bad))
        return status, bad.value

    def play_edit(self):
        (start, end), text = self.span(), self.text()
        status = self.ask_with("edit", [start, end], [text])
        self.judge_change(status, self.flat.change, "edit", self.doc, [[LineOp([start, end], None, text, False)]])

    def play_edit_at(self):
        encoding = self.draw.choice(ENCODINGS)
        places = []
        for _ in range(2):
            line = places[0] if places and self.chance(0.8) else self.line()
            places += [line, self.column(line, encoding)]
        if self.chance(0.6):
            places[2:] = places[:2]
        text = self.text()
        told = self.told_encoding(encoding)
        status = self.ask_with("edit_at", [*places, told], [text])
        positions = [*self.position(encoding, *places[:2]), *self.position(encoding, *places[2:])]
        if told != encoding:
            positions = [0, 0, 0, 0]
        self.judge_change(status, self.flat.change, "edit", self.doc, [[LineOp(None, positions, text, False)]])

    def told_encoding(self, encoding):
        """Mostly this one."""
        return encoding if self.chance(0.97) else self.draw.choice(NO_ENCODINGS)

    def position(self, encoding, line, column):
        """The position in units of one in an encoding."""
        if encoding == 16 or not 1 <= line <= len(self.document.text.starts) or column == 0:
            return line, column
        return line, column_in(encoding, self.document.content(line), column - 1)

    def play_replace_all(self):
        sought, text = self.draw.choice([*SOUGHT, ""]), self.text(2)
        spans = self.document.text.occurrences(sought) if sought else []
        if len(self.document.text.units) > 2 * MOST_UNITS:
            text = ""
        status = self.ask_with("replace_all", [], [sought, text], byref(self.count))
        if sought:
            self.judge_change(status, self.flat.change, "replace", self.doc, [sought, text])
            if status == OK:
                self.same(self.count.value, len(spans))
        else:
            self.judge(status, tuple, self.out_of_range())

    def play_undo(self):
        self.go("undo", self.flat.undo)

    def play_redo(self):
        self.go("redo", self.flat.redo)

    def go(self, name, say):
        """A step back or on. A refusal tells the document that holds it up."""
        other = c_uint64(MOST)
        status = self.ask(f"raw_{name}", byref(other))
        self.judge_change(status, say, self.doc)
        self.same(other.value, int(self.why.split()[1]) if status == JOINT else MOST)

    def play_set_eol(self):
        kind = self.draw.choice([0, 1, 1, 2, 2, 3, 2**32 - 1])
        status = self.ask("set_eol", kind)
        if kind < len(KINDS):
            self.judge_change(status, self.flat.change, "eol", self.doc, [KINDS[kind]])
        else:
            self.judge(status, tuple, self.out_of_range())

    def play_joint(self):
        """Edits of one document or of several. Those of one stand side by side, mostly."""
        docs = self.draw.sample(DOCUMENTS, k=self.draw.choice([0, 1, 1, 1, 1, 2, 2, 2, 3, 4]))
        if docs and self.chance(0.1):
            docs[self.draw.randrange(len(docs))] = self.draw.choice([*NO_DOCUMENTS, *docs])
        edits = []
        for doc in docs:
            self.doc = doc if doc < 64 else self.doc
            ops = self.ops(self.draw.randint(1, 3))
            if edits and edits[-1][0] == doc:
                edits[-1][1].extend(ops)
            else:
                edits.append((doc, ops))
        self.named = self.doc
        self.ask_jointly(edits)

    def ask_jointly(self, edits):
        ops = [(doc, op) for doc, ops in edits for op in ops]
        in_utf8 = self.chance(0.5) and all(is_whole(op.text) for _, op in ops)
        texts = [text_of(op.text).encode("utf-8") if in_utf8 else op.text for _, op in ops]
        sizes, joined = [*map(len, texts)], (b"" if in_utf8 else "").join(texts)
        wanted = None
        if self.chance(0.05):
            wanted, joined = self.misfit(texts, sizes, joined)
        told = array(self.op, [self.op(doc, *op.at, size, op.force) for (doc, op), size in zip(ops, sizes)])
        status = self.asked_jointly(told, joined)
        if wanted is None:
            self.judge_change(status, self.joint_of, edits)
        else:
            self.judge(status, tuple, (wanted, ()))
        if status in (UNKNOWN, RANGE, OVERLAP):
            self.judge_edit_fault(told, len(joined), status, ops, sizes)

    def misfit(self, texts, sizes, joined):
        """A joined text that the others do not fill, or one of them cut inside a character, and the status of that."""
        ends = [at for at, text in enumerate(texts[:-1]) if isinstance(text, bytes) and text and text[-1] >= 0x80]
        if ends:
            at = self.draw.choice(ends)
            sizes[at] -= 1
            sizes[at + 1] += 1
            return RANGE, joined
        if isinstance(joined, str):
            return RANGE, joined[:-1] if joined and self.chance(0.5) else joined + "x"
        joined = joined[:-1] if joined and self.chance(0.5) else joined + b"x"
        return RANGE if valid_up_to(joined) == len(joined) else ENCODING, joined

    def asked_jointly(self, told, joined):
        if isinstance(joined, str):
            return self.library.tm_raw_joint(byref(self.handle), *told, *given(joined))
        status = self.library.tm_raw_joint_utf8(byref(self.handle), *told, *array(c_uint8, joined), byref(self.bad))
        if status == ENCODING:
            self.same(self.bad.value, valid_up_to(joined))
        return status

    def judge_edit_fault(self, told, left, status, ops, sizes):
        """The edit at fault is told: with those before it alone, the call would not be refused so."""
        index = c_uint64(MOST)
        came = self.library.tm_raw_joint_fault(byref(self.handle), *told, left, status, byref(index))
        if status == UNKNOWN:
            at = first_at_fault(ops, self.are_named_badly)
        elif status == RANGE:
            at = first_at_fault([*zip(ops, sizes)], lambda some: self.is_out_of_range(some, left))
        else:
            at = first_at_fault(ops, self.overlap)
        self.same((came, index.value), (NOTHING, MOST) if at is None else (OK, at))

    def are_named_badly(self, ops):
        docs = [doc for doc, _ in itertools.groupby(doc for doc, _ in ops)]
        return len(set(docs)) < len(docs) or max(docs) > 63

    def is_out_of_range(self, ops, left):
        """Whether one of these passes the end of the text, or has no span of its document."""
        return sum(size for _, size in ops) > left or any(not self.has_span(doc, *op.at) for (doc, op), _ in ops)

    def has_span(self, doc, start, end):
        if doc > 63:  # as in an empty document
            return start == end == 0
        text = self.flat.documents[doc].text
        return start <= end and text.is_place(start) and text.is_place(end)

    def overlap(self, ops):
        """Whether two of these overlap in their document."""
        spans = sorted(((doc, op.at[1], op.at[0]) for doc, op in ops))
        return any(one == other and end > start for (one, end, _), (other, _, start) in zip(spans, spans[1:]))

    def joint_of(self, edits):
        if not edits:
            raise Refused("range")
        if len(edits) > 1:
            self.flat.joint(edits)
        elif edits[0][0] > 63:
            raise Refused("unknown")
        else:
            self.flat.change("edit", edits[0][0], [edits[0][1]])
        return tuple(map(int, self.document.sizes().split()))

    def play_stop(self):
        self.judge(self.ask("stop"), tuple, self.wanted(self.document.stop))

    # ---- Questions

    def play_state(self):
        """The small questions."""
        self.judge_steps()
        kind = c_uint32()
        kinds = KINDS.index(self.document.text.kind)
        self.judge(self.ask("kind", byref(kind)), lambda: (kind.value,), self.wanted(lambda: (kinds,)))
        version, alternative = c_uint64(), c_uint64()
        status = self.ask("versions", byref(version), byref(alternative))
        self.judge(status, lambda: (version.value, alternative.value), self.wanted(self.document.versions))
        for name, number in (("len", len(self.document.text.units)), ("line_count", len(self.document.text.starts))):
            self.judge(self.ask(name, byref(self.count)), lambda: (self.count.value,), self.wanted(lambda it=number: (it,)))

    def judge_steps(self):
        for name, steps in (("can_undo", self.document.undo_steps), ("can_redo", self.document.redo_steps)):
            self.judge(self.ask(name), tuple, self.wanted(lambda it=steps: () if it else " none"))

    def play_position(self):
        offset, encoding = self.offset(), self.draw.choice([*ENCODINGS * 5, *NO_ENCODINGS])
        place = self.place()
        status = self.ask("position", offset, encoding, byref(place))
        self.judge(status, lambda: fields_of(place), self.wanted(self.place_of, offset, encoding))

    def place_of(self, offset, encoding):
        if encoding not in ENCODINGS:
            raise Refused("range")
        if not self.document.text.is_place(offset):
            return " none"
        line, column = self.document.position_of(offset)
        before = self.document.content(line)[: column - 1]
        is_in_ending = len(before) < column - 1  # between a CR and its LF
        return line, length_in(encoding, before) + is_in_ending + 1

    def play_offset(self):
        line, encoding = self.line(), self.draw.choice(ENCODINGS)
        column = self.column(line, encoding)
        if self.chance(0.05):
            status = self.ask("offset", line, column, 9, byref(self.count))
            self.judge(status, tuple, self.out_of_range())
            return
        status = self.ask("offset", line, column, encoding, byref(self.count))
        position = self.position(encoding, line, column)
        self.judge(status, lambda: (self.count.value,), self.wanted(self.document.offset, *position, range=NOTHING))

    def told_units(self, count):
        return tuple(self.units[:count])

    def wanted_units(self, say, *words):
        return self.wanted(lambda: tuple(map(ord, say(*words))))

    def value_of(self, start, end):
        self.document.check_span(start, end)
        return self.document.text.units[start:end]

    def play_text(self, name, words, room, say, *said):
        """A call that hands a text out, as units or in UTF-8."""
        if self.chance(0.5):
            status = self.ask(f"raw_{name}", *words, self.units, room, byref(self.count))
            self.judge_list(status, self.told_units, room, self.wanted_units(say, *said))
        else:
            status = self.ask(f"raw_{name}_utf8", *words, self.bytes, room, byref(self.count))
            self.judge_list(status, self.told_bytes, room, self.wanted_bytes(say, *said))

    def told_bytes(self, count):
        return tuple(self.bytes[:count])

    def wanted_bytes(self, say, *words):
        return self.wanted(lambda: tuple(text_of(say(*words)).encode("utf-8")))

    def play_value(self):
        start, end = self.span()
        self.play_text("value", [start, end], self.room(), self.value_of, start, end)

    def play_line(self):
        line = self.line()
        self.play_text("line", [line], self.room(), self.document.content, line)

    def play_read_into(self):
        offset, room = self.offset(), self.draw.randint(0, 20)
        status = self.ask("raw_read_into", offset, self.units, room, byref(self.count))
        self.judge(status, lambda: self.told_units(self.count.value), self.wanted_units(self.units_from, offset, room))

    def play_read_into_utf8(self):
        offset, room = self.offset(), self.draw.randint(0, 40)
        place = c_uint64(offset)
        status = self.ask("raw_read_into_utf8", byref(place), self.bytes, room, byref(self.count))
        self.judge(status, lambda: self.told_bytes(self.count.value), self.wanted_bytes(self.units_from, offset, room // 3))
        self.same(place.value, offset + len(self.units_from(offset, room // 3)) if status == OK else offset)

    def units_from(self, offset, room):
        text = self.document.text
        self.document.check_span(offset, offset)
        if room < 2:
            raise Refused("range")
        end = min(offset + room, len(text.units))
        return text.units[offset : end - (not text.is_place(end))]

    def play_stops(self):
        line, room, encoding = self.line(), self.room(), self.draw.choice(ENCODINGS)
        told = self.told_encoding(encoding)
        status = self.ask("raw_stops", line, told, self.numbers, room, byref(self.count))
        wanted = self.out_of_range() if told != encoding else self.wanted(self.stops_of, encoding, line)
        self.judge_list(status, lambda count: tuple(self.numbers[:count]), room, wanted)

    def stops_of(self, encoding, line):
        return tuple(self.extent(encoding, line, int(column), 0)[0] for column in self.document.stops(line).split())

    def extent(self, encoding, line, column, units):
        """The column at which so many units begin, and how long they are."""
        content, start = self.document.content(line), column - 1
        if encoding != 16 and (cuts_pair(content, start) or cuts_pair(content, start + units)):
            raise Refused("range")
        return length_in(encoding, content[:start]) + 1, length_in(encoding, content[start : start + units])

    # ---- Search, decorations, brackets

    def listed(self, name):
        """What a list has, one field after another."""
        return lambda count: tuple(fields_of(it) for it in self.lists[name][:count])

    def in_fields(self, wanted, size):
        """The numbers that a flat document says, some at a time."""
        status, numbers = wanted
        return status, tuple(numbers[at : at + size] for at in range(0, len(numbers), size))

    def play_find(self):
        sought, room = self.draw.choice([*SOUGHT, ""]), self.room()
        place, back, most = self.offset(), self.chance(0.5), self.draw.choice([0, 1, 2, MOST, MOST])
        words = [place, back, most, self.lists["found"], room, byref(self.count)]
        status = self.ask_with("find", [], [sought], *words)
        wanted = self.wanted(self.found_of, sought, place, back, most) if sought else self.out_of_range()
        self.judge_list(status, self.listed("found"), room, wanted)

    def found_of(self, sought, place, back, most):
        spans = self.document.text.occurrences(sought)
        if back:
            return tuple(span for span in reversed(spans) if span[1] <= place)[:most]
        return tuple(span for span in spans if span[0] >= place)[:most]

    def play_decorate(self):
        live = self.document.decorations
        owner = self.draw.randint(1, 3)
        own = [id for id in live if live[id].owner == owner]
        remove = self.draw.sample(own, k=min(len(own), self.draw.randint(0, 2 if len(live) < 12 else 8)))
        if self.chance(0.1):
            remove += self.draw.choice([[77777], self.draw.sample([*live], k=min(len(live), 1)), remove[:1]])
        sticks = [0, 1, 2, 3] if self.chance(0.97) else [4, MOST]
        add = [([*self.span()], self.draw.choice(sticks), self.chance(0.3)) for _ in range(self.draw.randint(0, 2))]
        new = array(self.new_decoration, [self.new_decoration(*at, stick, collapse) for at, stick, collapse in add])
        words = owner, *array(c_uint64, remove), *new
        before = dict(live)
        status = self.ask("raw_decorate", *words, byref(self.count))
        wanted, numbers = self.wanted(self.document.decorate, owner, remove, add)
        self.judge(status, lambda: (self.count.value,), (wanted, numbers[:1]))
        if status in (UNKNOWN, RANGE) and self.named == self.doc:
            self.judge_decoration_fault(words, status, owner, before, remove, add)

    def judge_decoration_fault(self, words, status, owner, live, remove, add):
        """The decoration at fault is told, the first one of those to be removed or of the new ones."""
        def is_unknown(ids):
            return len(set(ids)) < len(ids) or any(id not in live or live[id].owner != owner for id in ids)

        def is_bad(new):
            return any(stick > 3 or not self.has_span(self.doc, *at) for at, stick, _ in new)

        index = c_uint64(MOST)
        came = self.ask("raw_decorate_fault", *words, status, byref(index))
        at = first_at_fault(remove, is_unknown) if status == UNKNOWN else first_at_fault(add, is_bad)
        self.same((came, index.value), (OK, at))

    def play_deco(self):
        id = self.draw.choice([0, self.draw.randint(0, self.document.next_decoration), *self.document.decorations])
        one = self.decoration()
        status = self.ask("deco", id, byref(one))
        self.judge(status, lambda: fields_of(one), self.wanted(self.decoration_of, id, unknown=NOTHING))

    def decoration_of(self, id):
        self.document.deco(id)
        it = self.document.decorations[id]
        return it.id, it.owner, it.start, it.end, it.stick, it.collapse

    def play_decos(self):
        (start, end), owner, any_, room = self.span(), self.draw.randint(1, 3), self.chance(0.5), self.room()
        status = self.ask("raw_decos", start, end, owner, any_, self.lists["decoration"], room, byref(self.count))
        wanted, numbers = self.wanted(self.document.decos, [start, end], None if any_ else owner)
        self.judge_list(status, self.listed("decoration"), room, (wanted, tuple(map(self.decoration_of, numbers[::3]))))

    def play_brackets(self):
        first, last, room, encoding = self.line(), self.line(), self.room(), self.draw.choice(ENCODINGS)
        if self.chance(0.9):
            first, last = min(first, last), max(first, last)
        told = self.told_encoding(encoding)
        status = self.ask("raw_brackets", first, last, told, self.lists["bracket"], room, byref(self.count))
        wanted = self.out_of_range() if told != encoding else self.wanted(self.brackets_of, encoding, first, last)
        self.judge_list(status, self.listed("bracket"), room, wanted)

    def brackets_of(self, encoding, first, last):
        words = self.document.brackets(first, last).split()
        entries = [words[at : at + 6] for at in range(0, len(words), 6)]
        return tuple(self.bracket_of(encoding, *map(int, it[:4]), it[4], int(it[5])) for it in entries)

    def bracket_of(self, encoding, line, column, units, kind, state, level):
        return (line, *self.extent(encoding, line, column, units), kind, level, STATES.index(state))

    def play_match(self):
        line, encoding = self.line(), self.draw.choice(ENCODINGS)
        column, partner = self.column(line, encoding), self.partner()
        entries = self.document.parsed().entries
        entries = [it for it in entries if it.partner] or entries
        if entries and self.chance(0.7):
            line, unit = self.document.position_of(self.draw.choice(entries).at)
            column = length_in(encoding, self.document.content(line)[: unit - 1]) + 1
        told = self.told_encoding(encoding)
        status = self.ask("match", line, column, told, byref(partner))
        wanted = self.out_of_range() if told != encoding else self.wanted(self.match_of, encoding, line, column)
        self.judge(status, lambda: fields_of(partner), wanted)

    def match_of(self, encoding, line, column):
        found = self.document.match(*self.position(encoding, line, column))
        if found == " none":
            return found
        other, unit, units = map(int, found.split())
        return (other, *self.extent(encoding, other, unit, units))

    def play_level(self):
        line, encoding = self.line(), self.draw.choice(ENCODINGS)
        column, told = self.column(line, encoding), self.told_encoding(encoding)
        status = self.ask("level", line, column, told, byref(self.count))
        level = lambda: self.document.level(*self.position(encoding, line, column))  # noqa: E731
        self.judge(status, lambda: (self.count.value,), self.out_of_range() if told != encoding else self.wanted(level))

    # ---- Snapshots, mirrors and changes

    def play_snapshot(self):
        if len(self.document.snapshots) > 5:
            return
        self.judge(self.ask("snapshot", byref(self.count)), lambda: (self.count.value,), self.wanted(self.document.snapshot))

    def a_snapshot(self):
        """Mostly one that is open."""
        few = [*self.document.snapshots] or range(10)
        return self.draw.choice(few if self.chance(0.9) else range(10))

    def play_read(self):
        id, room, in_utf8 = self.a_snapshot(), self.draw.randint(0, 20), self.chance(0.5)
        before = self.document.snapshots.get(id, "")
        if in_utf8:
            status = self.ask("raw_read_utf8", id, self.bytes, room, byref(self.count))
        else:
            status = self.ask("raw_read", id, self.units, room, byref(self.count))
        wanted, _ = self.wanted(lambda: self.document.read(id, room // 3 if in_utf8 else room) and ())
        passed = before[: len(before) - len(self.document.snapshots.get(id, ""))]
        units, told = (text_of(passed).encode("utf-8"), self.told_bytes) if in_utf8 else (map(ord, passed), self.told_units)
        self.judge(status, lambda: told(self.count.value), (wanted, tuple(units)))

    def play_close(self):
        id = self.a_snapshot()
        self.judge(self.ask("close", id), tuple, self.wanted(self.document.close, id))

    def play_mirror(self):
        self.judge(self.ask("mirror", byref(self.count)), lambda: (self.count.value,), self.wanted(self.document.mirror))

    def play_send(self):
        before = c_uint64()
        status = self.ask("send", byref(self.count), byref(before))
        self.judge(status, lambda: (self.count.value, before.value), self.wanted(self.document.send))

    def play_deliver(self):
        sent = len(self.document.sent)
        number = self.draw.randint(max(0, sent - 4), sent + 1)
        if self.document.follower and self.chance(0.6):
            version = self.document.follower.version
            number = next((n for n, event in enumerate(self.document.sent, 1) if event.before == version), number)
        followed, have, need = self.followed(), c_uint64(MOST), c_uint64(MOST)
        status = self.ask("raw_deliver", number, byref(followed), byref(have), byref(need))
        self.judge(status, lambda: fields_of(followed), self.wanted(self.document.deliver, number))
        versions = tuple(map(int, self.why.split()[1:])) if status == GAP else (MOST, MOST)
        self.same((have.value, need.value), versions)
        self.judge_mirror()

    def judge_mirror(self):
        followed = self.followed()
        status = self.ask("mirror_now", byref(followed))
        self.judge(status, lambda: fields_of(followed), self.wanted(self.mirror_of))

    def mirror_of(self):
        it = self.document.follower
        return (it.version, len(it.text.units), len(it.text.starts)) if it else " none"

    def play_mirrored(self):
        lines = len(self.document.follower.text.starts) if self.document.follower else 1
        line = self.draw.randint(0, lines + 1)
        self.play_text("mirrored", [line], self.room(), self.mirrored_of, line)

    def mirrored_of(self, line):
        self.document.mirrored(line)
        text = self.document.follower.text
        return text.units[text.starts[line - 1] : text.ends[line - 1]]

    def play_changes(self):
        """The edits of the last change lead from the text before it to that of now. Some may be left for the next time."""
        if self.named != self.doc:
            self.judge(self.ask("next_change", byref(self.change())), tuple, (UNKNOWN, ()))
            return
        state = self.document, self.document.version
        units = self.before.get(self.doc) if self.document.version > 1 else self.document.text.units
        if self.half_told[:2] == state:
            units = self.half_told[2]
        change = self.change()
        while (status := self.ask("next_change", byref(change))) == OK:
            self.same(self.library.tm_raw_change_text(byref(self.handle), self.units, ROOM, byref(self.count)), OK)
            self.same(self.count.value, change.units)
            text = "".join(map(chr, self.told_units(change.units)))
            self.same(self.library.tm_raw_change_text_utf8(byref(self.handle), self.bytes, ROOM, byref(self.count)), OK)
            self.same(bytes(self.bytes[: self.count.value]), text_of(text).encode("utf-8"))
            units = units[: change.start] + text + units[change.end :]
            if self.chance(0.2):
                self.half_told = *state, units
                return
        self.half_told = ()
        self.judge(status, tuple, (NOTHING, ()))
        self.same(units, self.document.text.units)


CALLS = {
    "open": 2, "edit": 32, "edit_at": 20, "joint": 28, "replace_all": 2, "undo": 16, "redo": 4, "set_eol": 4, "stop": 6,
    "state": 8, "position": 10, "offset": 10, "value": 8, "line": 10, "read_into": 6, "read_into_utf8": 6, "stops": 6, "find": 8,
    "decorate": 10, "deco": 8, "decos": 8, "brackets": 8, "match": 8, "level": 8, "snapshot": 4, "read": 6, "close": 1,
    "mirror": 2, "send": 12, "deliver": 8, "mirrored": 4, "changes": 12,
}  # fmt: skip
BEHIND = {
    "open": ["edit changes open edit changes", "joint changes open joint changes", "", ""],
    "mirror": ["edit send deliver mirrored edit_at send undo send deliver deliver", "undo send deliver mirrored deliver", ""],
    "undo": ["redo", "undo redo redo", "changes redo changes", "edit redo", "", "", ""],
    "joint": ["undo", "changes undo redo changes", "edit undo undo redo redo", "decorate undo deco redo", "",
              "undo elsewhere undo elsewhere redo redo", "undo undo elsewhere redo redo"],
    "snapshot": ["edit read", "read read", ""],
}


def main(words):
    if len(words) not in (2, 3):
        raise SystemExit(__doc__)
    calls, seed = int(words[1]), words[2] if len(words) == 3 else "7"
    player = Player(words[0], seed)
    for number in range(calls):
        try:
            player.play()
        except Differs as why:
            print(f"random_calls: seed {seed}, call {number + 1}, {player.name} of document {player.doc}: {why}", file=sys.stderr)
            return 1
    player.same(player.library.tm_free(byref(player.handle)), OK)
    refused = sum(often for (_, status), often in player.seen.items() if status > NOTHING)
    print(f"random_calls: {sum(player.seen.values())} answers are the same, {refused} of them refusals")
    return 0


if __name__ == "__main__":
    sys.exit(main(sys.argv[1:]))
