#!/usr/bin/env -S python3 -B
"""Tests the Python module: each call with what it raises, the examples of its docstrings, the worked scripts, and random calls
beside flat documents.

python/test_textmodel.py [--calls N] [--seed WORD] [words of unittest]     20,000 random calls where no number is told

The library is found as the module finds it: TEXTMODEL_LIBRARY may name it. The scripts and the random calls need Python 3.11,
for the reader and the flat documents of fuzz/.
"""
import argparse
import copy
import doctest
import gc
import os
import re
import shutil
import subprocess
import sys
import tempfile
import threading
import unittest
import unittest.mock
from ctypes.util import find_library
from pathlib import Path
from random import Random

HERE = Path(__file__).resolve().parent
TOP = HERE.parent
sys.path[:0] = [str(HERE), str(TOP / "fuzz")]

import textmodel  # noqa: E402
from textmodel import (  # noqa: E402
    Bracket,
    BracketState,
    Change,
    ClosedError,
    Decoration,
    Document,
    Edit,
    EncodingError,
    Event,
    GapError,
    Hiding,
    JointError,
    LimitError,
    MirrorState,
    NewDecoration,
    OverlapError,
    Partner,
    Position,
    RangeError,
    Session,
    Snapshot,
    Span,
    Stick,
    TextModelError,
    UnknownError,
    units,
)

CALLS, SEED = 20_000, "7"
SCRIPT_CALLS = 1000
SMILE = "\U0001f600"
FAR = 2**64 - 1
NO_NUMBERS = [-1, 2**64]
ENCODINGS = ("utf-8", "utf-16", "utf-32")
NEEDS_FUZZ = unittest.skipIf(sys.version_info < (3, 11), "fuzz/ needs Python 3.11")


def load_tests(_, tests, __):
    tests.addTests(doctest.DocTestSuite(textmodel))
    return tests


class Case(unittest.TestCase):
    def document(self, *words, **named):
        document = Document(*words, **named)
        self.addCleanup(document.close)
        return document

    def session(self, *texts):
        """A session whose first documents have these texts."""
        session = Session()
        self.addCleanup(session.close)
        for number, text in enumerate(texts):
            session[number].open(text)
        return session

    def refuses(self, error, said, call, *words, **named):
        """The call raises this error, whose message has these words."""
        with self.assertRaises(error) as caught:
            call(*words, **named)
        self.assertIs(type(caught.exception), error)
        self.assertIsInstance(caught.exception, TextModelError)
        self.assertIn(said, str(caught.exception))
        return caught.exception

    def at_fault(self, document, index, error, said, call, *words, **named):
        """The same, and the error tells which document, and which edit, decoration or byte."""
        raised = self.refuses(error, said, call, *words, **named)
        self.assertEqual((raised.document, raised.index), (document, index))

    def no_range(self, said, call, *words, **named):
        self.assertIsInstance(self.refuses(RangeError, said, call, *words, **named), IndexError)


class Opening(Case):
    def test_empty(self):
        document = self.document()
        self.assertEqual((len(document), document.line_count, document.version, document.ending), (0, 1, 1, None))
        self.assertEqual((list(document.lines()), bool(document), document.number), ([""], True, 0))

    def test_text(self):
        document = self.document("a\r\nb\rc\n" + SMILE)
        self.assertEqual((len(document), document.line_count), (9, 4))
        self.assertEqual(list(document.lines()), ["a", "b", "c", SMILE])
        self.assertEqual((document.text, str(document)), ("a\r\nb\rc\n" + SMILE,) * 2)

    def test_bytes(self):
        self.assertEqual(self.document(("é" + SMILE).encode()).text, "é" + SMILE)
        self.assertEqual(self.document(b"").text, "")
        self.assertEqual(self.document(b"a\nb", "python", ending="crlf", brackets=["ab"]).text, "a\r\nb")

    def test_no_utf_8(self):
        for bad, at in [(b"\xff", 0), (b"ab\xc3", 2), ("é".encode() + b"\xed\xa0\x80", 2), (b"a\x00\x80", 2)]:
            error = self.refuses(EncodingError, f"open: byte {at} is not valid UTF-8", Document, bad)
            self.assertEqual((error.index, isinstance(error, ValueError)), (at, True))
        document = self.session("", "kept")[1]
        self.at_fault(1, 0, EncodingError, "open in document 1", document.open, b"\xff")
        self.assertEqual(document.text, "kept")

    def test_endings(self):
        self.assertEqual(self.document("a\r\nb\rc\nd", ending="lf").text, "a\nb\nc\nd")
        self.assertEqual(self.document(b"a\r\nb\rc\nd", ending="crlf").text, "a\r\nb\r\nc\r\nd")
        self.assertEqual(self.document(ending="crlf").ending, "crlf")
        for no_ending in ("cr", "LF", "", 1, b"lf"):
            self.assertRaises(ValueError, Document, "", ending=no_ending)

    def test_types(self):
        for no_text in (None, 1, ["a"], bytearray(b"a")):
            self.assertRaises(TypeError, Document, no_text)

    def test_lone_surrogates_stay(self):
        document = self.document("a\ud800b\udc00")
        self.assertEqual((document.text, len(document)), ("a\ud800b\udc00", 4))

    def test_a_zero_is_a_character(self):
        self.assertEqual(self.document("a\0b").text, "a\0b")

    def test_anew(self):
        document = self.document("a")
        document.edit(0, 1, "b")
        document.decorate(1, [(0, 1)])
        document.open("c(", ending="lf")
        self.assertEqual((document.text, document.version, document.can_undo, document.ending), ("c(", 1, False, "lf"))
        self.assertEqual(document.decorations(0, 2), [])

    def test_a_refused_one_leaves_the_old(self):
        document = self.document("a")
        document.edit(1, 1, "b")
        self.no_range("open: the brackets or the hiding are invalid", document.open, "c", brackets=["aa"])
        self.assertEqual((document.text, document.version), ("ab", 2))

    def test_languages(self):
        hidden = {"c": "/*(*/ //(", "python": "'(' #(", "rust": '"(" //(', "javascript": "`(` //(", "shell": '"(" #('}
        self.assertEqual(hidden.keys(), textmodel.LANGUAGES.keys())
        for language, text in hidden.items():
            self.assertEqual(self.document(f"[]{text}", language).brackets(1, 1)[2:], [], language)
        self.assertEqual(len(self.document("/*(*/").brackets(1, 1)), 1)
        self.assertEqual([it.column for it in self.document("'('", "rust").brackets(1, 1)], [2])
        self.assertRaises(ValueError, Document, "", "pascal")
        self.assertRaises(ValueError, Document, "", "c", hiding=Hiding("//"))

    def test_bracket_rows(self):
        document = self.document("[\n{é(]) // }\n" * 6000 + "((", "c")  # more than there is room for at first
        for encoding in textmodel.ENCODINGS:
            found = document.brackets(1, document.line_count, encoding)
            self.assertEqual([*document.bracket_rows(1, document.line_count, encoding)], [tuple(it) for it in found])
            self.assertEqual(len(found), 6000 * 5 + 2)
        self.assertEqual([*document.bracket_rows(12001, 12001)], [(12001, 1, 1, 0, 0, 2), (12001, 2, 1, 0, 1, 2)])
        self.no_range("brackets: there is no line 12002: the text has 12001", document.bracket_rows, 1, 12002)

    def test_hiding(self):
        hiding = Hiding(line="--", block=("{-", "-}"), quotes='"')
        document = self.document('( -- (\n{- ( \n ( -} "(" )', hiding=hiding)
        self.assertEqual(document.match(1, 1), (3, 11, 1))
        self.assertEqual(len(document.brackets(1, 3)), 2)
        document.open('( -- (\n{- ( \n ( -} "(" )')
        self.assertEqual(len(document.brackets(1, 3)), 8)

    def test_no_hiding(self):
        for hiding in [
            Hiding("x" * 33), Hiding("a\n"), Hiding(block=("/*", "")), Hiding(block=("", "*/")), Hiding(block=("/*", SMILE * 17)),
            Hiding(quotes="123456789"), Hiding(quotes='"\'"'), Hiding(quotes="\\"), Hiding(quotes=SMILE), Hiding(quotes="\n"),
            Hiding(quotes="\ud800"),
        ]:  # fmt: skip
            self.no_range("open: the brackets or the hiding are invalid", Document, "a", hiding=hiding)
            self.no_range("open: the brackets or the hiding are invalid", Document, b"a", hiding=hiding)

    def test_brackets_of_its_own(self):
        document = self.document("begin ab end", brackets=[("begin", "end"), ("<", ">")])
        self.assertEqual(document.match(1, 10), (1, 1, 5))
        self.assertEqual(self.document("()", brackets=(pair for pair in ["()"])).match(1, 1), (1, 2, 1))
        self.no_range("the list of brackets is empty", Document, "", brackets=[])
        many = [(chr(2 * n), chr(2 * n + 1)) for n in range(100, 165)]
        for brackets in ["(("], [("", ")")], [("a\n", "b")], [("x" * 33, "y")], many:
            self.no_range("open: the brackets or the hiding are invalid", Document, "", brackets=brackets)
        self.assertEqual(len(self.document("", brackets=many[1:])), 0)
        self.refuses(EncodingError, "byte 0", Document, b"\xff", brackets=["(("])

    def test_version_of_the_library(self):
        self.assertRegex(textmodel.library_version(), r"^1\.\d+\.\d+$")


class Sessions(Case):
    def test_documents(self):
        session = self.session("a", "bc")
        self.assertEqual((len(session), [len(it) for it in session][:3], len([*session])), (64, [1, 2, 0], 64))
        self.assertEqual((session[1].text, session[1].number, session[1].session), ("bc", 1, session))
        self.assertEqual((session[1], hash(session[1])), (session[1], hash(session[1])))
        self.assertNotEqual(session[1], session[2])
        self.assertNotEqual(session[1], self.session()[1])
        self.assertNotEqual(session[1], "bc")
        session[63].edit(0, 0, "x")
        self.assertEqual((session[63].text, session[0].text), ("x", "a"))

    def test_no_documents(self):
        for no_document in (64, -1, FAR, *NO_NUMBERS):
            error = self.refuses(UnknownError, f"no document {no_document}", self.session().__getitem__, no_document)
            self.assertIsInstance(error, LookupError)
        self.assertRaises(TypeError, self.session().__getitem__, "a")

    def test_errors_tell_the_document(self):
        document = self.session("", "ab")[1]
        self.at_fault(1, None, RangeError, "edit in document 1: offset 3 is beyond the end of the text, 2", document.edit, 0, 3, "")
        self.at_fault(1, 1, RangeError, "batch in document 1: edit 1: offset 9", document.batch, [(0, 0, ""), (0, 9, "")])
        self.at_fault(1, 1, RangeError, "batch in document 1: edit 1: offset -1", document.batch, [(0, 0, ""), (0, -1, "")])
        self.at_fault(1, None, RangeError, "batch in document 1: there are no edits", document.batch, [])
        self.at_fault(1, None, UnknownError, "decoration in document 1", document.decoration, 1)
        self.at_fault(1, None, RangeError, "position in document 1", document.position, 3)
        self.at_fault(1, None, RangeError, "snapshot 1 in document 1", document.snapshot().read, 1)
        self.at_fault(None, None, RangeError, "owner -1 is below 0", document.decorate, -1)

    def test_joint(self):
        session = self.session("fn old() {}", "use old;\nold();", "# old")
        session.joint({2: [(2, 5, "new")], 0: [Edit(3, 6, "new")], 1: [(4, 7, "new"), (9, 12, SMILE)]})
        self.assertEqual([session[n].text for n in range(3)], ["fn new() {}", f"use new;\n{SMILE}();", "# new"])
        self.assertTrue(session[1].undo())
        self.assertEqual([session[n].text for n in range(3)], ["fn old() {}", "use old;\nold();", "# old"])
        self.assertTrue(session[2].redo())
        session[0].edit(0, 0, "x")
        self.at_fault(0, None, JointError, "undo in document 1", session[1].undo)
        self.assertIsInstance(self.refuses(JointError, "document 0 has another step", session[2].undo), ValueError)
        self.assertTrue(session[0].undo() and session[1].undo())
        self.assertEqual(session[2].text, "# old")
        session[0].edit(0, 0, "y")
        self.assertTrue(session[1].redo())
        self.assertEqual(session[2].text, "# old")

    def test_a_redo_that_another_document_holds_up(self):
        session = self.session()
        session[1].edit(0, 0, "a")
        session.joint({0: [(0, 0, "b")], 1: [(1, 1, "c")]})
        self.assertTrue(session[0].undo() and session[1].undo())
        self.at_fault(1, None, JointError, "redo in document 0", session[0].redo)
        self.assertTrue(session[1].redo() and session[0].redo())
        self.assertEqual((session[0].text, session[1].text), ("b", "ac"))

    def test_a_joint_edit_of_one_document(self):
        session = self.session("ab", "cd")
        session.joint({1: [(0, 1, "x"), (2, 2, "y")], 0: []})
        self.assertEqual((session[1].text, session[1].version, session[0].version), ("xdy", 2, 1))
        session[1].edit(3, 3, "z")
        self.assertTrue(session[1].undo())
        self.assertEqual(session[1].text, "cd")
        self.at_fault(1, 1, OverlapError, "joint edit in document 1: edit 1", session.joint, {1: [(0, 2, ""), (1, 2, "")]})
        self.at_fault(0, None, RangeError, "there are no edits", session.joint, {0: []})

    def test_no_joint(self):
        session = self.session("ab" + SMILE, "cd")
        one = [(0, 0, "x")]
        self.at_fault(None, None, RangeError, "joint edit: there are no edits", session.joint, {})
        self.refuses(UnknownError, "no document 64", session.joint, {0: one, 64: one})
        for document, index, error, said, edits in [
            (1, 1, RangeError, "edit 1: offset 3 is beyond", {0: one, 1: [*one, (2, 3, "")]}),
            (0, 0, RangeError, "edit 0: offset 3 is inside a character", {0: [(3, 3, "")], 1: one}),
            (1, 0, RangeError, "edit 0: its start, 2, is after", {0: one, 1: [(2, 1, "")]}),
            (1, 0, RangeError, "edit 0: offset -1 is below 0", {0: one, 1: [(-1, 1, "")]}),
            (0, 2, OverlapError, "edit 2: it overlaps an earlier one", {1: one, 0: [(1, 2, ""), *one, (0, 2, "")]}),
        ]:  # fmt: skip
            self.at_fault(document, index, error, f"joint edit in document {document}: {said}", session.joint, edits)
        self.assertEqual((session[0].text, session[1].text, session[0].version), ("ab" + SMILE, "cd", 1))

    def test_force_in_a_joint_edit(self):
        session = self.session("ab", "cd")
        for number in (0, 1):
            session[number].decorate(1, [(0, 1, Stick.NONE)])
        session.joint({0: [(1, 1, "x")], 1: [(1, 1, "y", True)]})
        self.assertEqual([session[number].decoration(1).span for number in (0, 1)], [(0, 1), (0, 2)])

    def test_with(self):
        with Session() as session:
            document, snapshot = session[3], session[3].snapshot()
            self.assertEqual(repr(session), "<textmodel.Session of 64 documents>")
            self.assertEqual(repr(document), "<textmodel.Document 3 of 0 units and 1 lines, version 1>")
            self.assertRaises(ValueError, document.close)
            self.assertFalse(session.closed or document.closed)
        self.assertTrue(session.closed and document.closed)
        self.assertIn("closed", repr(session))
        self.assertIn("closed", repr(document))
        snapshot.close()
        session.close()
        self.refuses(ClosedError, "undo in document 3: the session is closed", document.undo)
        self.refuses(ClosedError, "closed", session.joint, {0: [(0, 0, "")], 1: [(0, 0, "")]})
        self.refuses(ClosedError, "closed", session.answer, b"")

    def test_a_document_keeps_its_session(self):
        document = Session()[5]
        gc.collect()
        document.edit(0, 0, "a")
        self.assertEqual(document.text, "a")

    def test_a_copy_is_the_same_document(self):
        document = self.session()[5]
        copy.copy(document).edit(0, 0, "a")
        self.assertEqual(document.text, "a")


class Header(Case):
    """What crosses is what the header has."""

    NUMBERS = {"uint64_t": textmodel.U64, "size_t": textmodel.U64, "uint32_t": textmodel.NUMBER, "bool": textmodel.FLAG}
    STRUCTS = {
        "tm_session": textmodel.CSession,
        "tm_fault": textmodel.CFault,
        "tm_place": textmodel.CPlace,
        "tm_op": textmodel.COp,
        "tm_change": textmodel.CChange,
        "tm_pair": textmodel.CPair,
        "tm_new_decoration": textmodel.CNewDecoration,
        "tm_decoration": textmodel.CDecoration,
        "tm_found": textmodel.CFound,
        "tm_bracket": textmodel.CBracket,
        "tm_partner": textmodel.CPartner,
        "tm_followed": textmodel.CFollowed,
    }

    def setUp(self):
        header = (TOP / "crates" / "textmodel_c" / "textmodel.h").read_text(encoding="utf-8")
        self.header = re.sub(r"\s+", " ", re.sub(r"/\*.*?\*/", "", header, flags=re.S))

    def type_of(self, c):
        return textmodel.ADDRESS if "*" in c else {**self.NUMBERS, "tm_fault": textmodel.CFault}[c.split()[0]]

    def test_calls(self):
        found = re.findall(r"uint32_t (tm_\w+)\(tm_session \*\w+(?:, )?([^)]*)\);", self.header)
        calls = {name: [self.type_of(c) for c in rest.split(", ") if c] for name, rest in found}
        for name, arguments in textmodel.CALLS.items():
            self.assertEqual(arguments, calls.get(name), name)

    def test_structs(self):
        found = dict(re.findall(r"typedef struct (\w+) \{(.*?)\}", self.header))
        for name, struct in self.STRUCTS.items():
            fields = [c.strip() for c in found[name].split(";") if c.strip()]
            self.assertEqual([(re.search(r"\w+$", c)[0], self.type_of(c)) for c in fields], struct._fields_, name)

    def test_numbers(self):
        told = {name: int(number) for name, number in re.findall(r"TM_(\w+) = (\d+)", self.header)}
        (statuses,) = re.findall(r"enum tm_status \{(.*?)\}", self.header)
        for name in re.findall(r"TM_(\w+)", statuses):
            self.assertEqual(told[name], getattr(textmodel, name), name)
        for name, number in textmodel.ENCODINGS.items():
            self.assertEqual(told[name.upper().replace("-", "")], number)
        self.assertEqual([told[name] for name in ("MIXED", "LF", "CRLF")], [0, 1, 2])

    def test_languages(self):
        texts = dict(re.findall(r"static const uint16_t (\w+)\[\] = \{(.*?)\};", self.header))
        found = re.findall(r"static const tm_hiding tm_hiding_(\w+) = \{(\w+), (\d+), (\d+), (\d+), (\d+)\};", self.header)
        self.assertEqual({name for name, *_ in found}, textmodel.LANGUAGES.keys())
        for language, name, *numbers in found:
            length, line, opening, closing = map(int, numbers)
            marks = "".join(re.findall(r"'\\?(.)'", texts[name]))[:length]
            hiding = textmodel.LANGUAGES[language]
            self.assertEqual(hiding.line + "".join(hiding.block) + hiding.quotes, marks)
            self.assertEqual((line, opening, closing), (len(hiding.line), *map(len, hiding.block)))


class Closing(Case):
    def test_each_call_on_a_closed_document(self):
        document = Document("f(x)")
        snapshot = document.snapshot()
        document.close()
        document.close()
        snapshot.close()
        calls = [
            lambda: len(document), lambda: document.line_count, lambda: document.version, lambda: document.alternative,
            lambda: document.ending, lambda: document.text, lambda: str(document), lambda: document.can_undo,
            lambda: document.can_redo, lambda: list(document.lines()), lambda: document.edit(0, 0, ""),
            lambda: document.edit_at((1, 1), (1, 1), ""), lambda: document.batch([(0, 0, "")]), document.undo,
            document.redo, document.stop, document.mirror_now, lambda: document.set_ending("lf"),
            lambda: document.position(0), lambda: document.offset(1, 1), lambda: document.value(0, 0), lambda: document[:],
            lambda: document.line(1), lambda: document.line_utf8(1), lambda: document.decorate(1), lambda: document.decoration(1),
            lambda: document.decorations(0, 0), lambda: document.brackets(1, 1), lambda: document.match(1, 1),
            lambda: document.level(1, 1), lambda: document.find("f"), lambda: document.replace_all("f", "g"), document.snapshot,
            snapshot.read, lambda: document.stops(1), lambda: document.session.answer(b""), document.changes, document.mirror,
            document.send, lambda: document.deliver(1), lambda: document.mirrored(1), lambda: document.open("a"),
            lambda: document.read(0), lambda: list(document.parts()), lambda: document.batch([]),
        ]  # fmt: skip
        for call in calls:
            self.assertIsInstance(self.refuses(ClosedError, "closed", call), ValueError)
        self.assertIn("closed", repr(document))

    def test_with(self):
        with Document("a\n") as document:
            self.assertEqual(repr(document), "<textmodel.Document of 2 units and 2 lines, version 1>")
        self.refuses(ClosedError, "undo: the session is closed", document.undo)

    def test_one_that_nothing_holds(self):
        for _ in range(2000):
            Document("x" * 1000)


class Edits(Case):
    def test_edit(self):
        document = self.document("ab\ncd")
        document.edit(1, 4, "X")
        self.assertEqual((document.text, document.version, document.alternative), ("aXd", 2, 2))
        document.edit(3, 3, SMILE)
        self.assertEqual((document.text, len(document)), ("aXd" + SMILE, 5))

    def test_no_span(self):
        document = self.document("ab" + SMILE)
        behind, inside = "is beyond the end of the text, 4", "offset 3 is inside a character"
        for said, start, end in [
            ("its start, 1, is after its end, 0", 1, 0), (f"offset 5 {behind}", 0, 5), (f"offset 5 {behind}", 5, 5),
            (inside, 3, 3), (inside, 0, 3), (f"offset {FAR} {behind}", FAR, FAR), ("start -1 is below 0", -1, 0),
            (f"end {2**64} is above", 0, 2**64),
        ]:  # fmt: skip
            self.no_range(said, document.edit, start, end, "x")
        self.assertEqual((document.text, document.version), ("ab" + SMILE, 1))
        self.assertRaises(TypeError, document.edit, 0.0, 1, "")
        self.assertRaises(TypeError, document.edit, 0, 1, b"")
        self.no_range("offset 1 is between a CR and its LF", self.document("\r\n", ending="crlf").edit, 1, 1, "")

    def test_edit_at(self):
        document = self.document("a\r\nb")
        document.edit_at((1, 2), Position(2, 1), "-")
        self.assertEqual(document.text, "a-b")
        for said, start, end in [
            ("its start, (1, 3), is after its end, (1, 2)", (1, 3), (1, 2)),
            ("there is no line 2: the text has 1", (2, 1), (2, 1)),
            ("lines count from 1", (0, 1), (1, 1)), ("columns count from 1", (1, 0), (1, 1)),
            ("column 5 is beyond the end of line 1, column 4", (1, 1), (1, 5)), ("line -1 is below 0", (-1, 1), (1, 1)),
        ]:  # fmt: skip
            self.no_range(said, document.edit_at, start, end, "x")
        self.assertEqual(document.text, "a-b")

    def test_edit_at_in_encodings(self):
        for encoding, column in [("utf-8", 7), ("utf-16", 4), ("utf-32", 3)]:
            document = self.document(f"é{SMILE}x")
            document.edit_at((1, column), (1, column), "|", encoding)
            self.assertEqual(document.text, f"é{SMILE}|x")
        inside = "column 4 of line 1 is inside a character, in bytes of UTF-8"
        self.no_range(inside, document.edit_at, (1, 4), (1, 4), "", "utf-8")
        self.no_range("line 1, column 5 in code points", document.edit_at, (1, 1), (1, 6), "", "utf-32")
        self.assertRaises(ValueError, document.edit_at, (1, 1), (1, 1), "", "latin-1")

    def test_slices(self):
        document = self.document("abcdef")
        self.assertEqual((document[:], document[1:3], document[-2:]), ("abcdef", "bc", "ef"))
        self.assertEqual((document[4:99], document[3:1]), ("ef", ""))
        document[1:3] = "X"
        del document[-1:]
        document[99:] = "!"
        document[2:1] = "|"
        self.assertEqual(document.text, "aX|de!")
        document[:] = SMILE
        self.no_range("offset 1 is inside a character", document.__getitem__, slice(0, 1))
        self.no_range("offset 1 is inside a character", document.__setitem__, slice(1, 2), "")
        self.assertRaises(TypeError, lambda: document[0])
        self.assertRaises(ValueError, lambda: document[::2])
        self.assertRaises(TypeError, iter, document)

    def test_batch(self):
        document = self.document("abcdef")
        document.batch([(4, 5, "Y"), Edit(1, 2, "XX"), (0, 0, SMILE), (0, 0, "")])
        self.assertEqual((document.text, document.version), (SMILE + "aXXcdYf", 2))
        overlap = [(2, 5, ""), (5, 6, ""), (4, 5, "z"), (4, 5, "")]
        self.at_fault(0, 2, OverlapError, "batch: edit 2: it overlaps an earlier one", document.batch, overlap)
        self.assertIsInstance(self.refuses(OverlapError, "edit 1", document.batch, [(4, 6, ""), (2, 5, "")]), ValueError)
        self.at_fault(0, 1, RangeError, "batch: edit 1: offset 1 is inside", document.batch, [(2, 2, ""), (1, 1, "z")])
        self.at_fault(0, 0, RangeError, "batch: edit 0: offset -1 is below 0", document.batch, [(-1, 2, "")])
        self.no_range("batch: there are no edits", document.batch, [])
        self.assertEqual((document.text, document.version), (SMILE + "aXXcdYf", 2))

    def test_force(self):
        document = self.document("ab")
        document.decorate(1, [(0, 1, Stick.NONE)])
        document.batch([Edit(1, 1, "x")])
        self.assertEqual(document.decoration(1).span, (0, 1))
        document.batch([Edit(1, 1, "y", force=True)])
        self.assertEqual(document.decoration(1).span, (0, 2))

    def test_texts_that_are_long(self):
        document = self.document()
        document.edit(0, 0, "0123456789" * 10_000)
        document.edit(0, 0, "\n")
        self.assertEqual((document.line(2), document.value(1, 11)), ("0123456789" * 10_000, "0123456789"))
        self.assertEqual((document.stops(2), document.line_utf8(2)), ([*range(1, 100_001)], b"0123456789" * 10_000))


class Changes(Case):
    def test_edits(self):
        document = self.document("one two\r\nthree\n")
        self.assertEqual(document.changes(), [])
        document.batch([(0, 3, "1"), (4, 7, "2")])
        self.assertEqual(document.changes(), [Change(4, 7, "2"), Change(0, 3, "1")])
        self.assertEqual(document.changes(), [(4, 7, "2"), (0, 3, "1")])
        document.edit(3, 3, SMILE)
        self.assertEqual(document.changes(), [(3, 3, SMILE)])
        document.undo()
        self.assertEqual(document.changes(), [(3, 5, ""), (2, 3, "two"), (0, 1, "one")])
        document.set_ending("lf")
        self.assertEqual(document.changes(), [(7, 9, "\n")])
        document.open("a")
        self.assertEqual(document.changes(), [])

    def test_they_may_be_played(self):
        document = self.document("one two\r\nthree\n")
        document.batch([(0, 3, "1"), (4, 7, "2")])
        other = self.document("one two\r\nthree\n")
        for change in document.changes():
            other.edit(*change)
        self.assertEqual(other.text, document.text)

    def test_after_an_interrupt(self):
        document = self.document("abc")
        document.batch([(0, 1, "x"), (1, 2, "y"), (2, 3, "z")])
        with unittest.mock.patch.object(textmodel, "decoded", side_effect=KeyboardInterrupt):
            self.assertRaises(KeyboardInterrupt, document.changes)
        self.assertEqual(document.changes(), [(2, 3, "z"), (1, 2, "y"), (0, 1, "x")])

    def test_several_documents(self):
        session = self.session("a", "b")
        session.joint({0: [(0, 0, "x"), (1, 1, "y")], 1: [(1, 1, "z")]})
        first, second = [(1, 1, "y"), (0, 0, "x")], [(1, 1, "z")]
        self.assertEqual([session[n].changes() for n in (0, 1, 0, 2)], [first, second, first, []])


class Steps(Case):
    def test_undo_and_redo(self):
        document = self.document()
        self.assertFalse(document.undo() or document.redo() or document.can_undo or document.can_redo)
        document.edit(0, 0, "a")
        document.edit(1, 1, "b")
        document.stop()
        document.edit(2, 2, "c")
        self.assertTrue(document.can_undo)
        self.assertTrue(document.undo())
        self.assertEqual((document.text, document.version, document.alternative), ("ab", 5, 3))
        self.assertTrue(document.can_redo)
        self.assertTrue(document.redo())
        self.assertEqual((document.text, document.version, document.alternative), ("abc", 6, 4))
        self.assertFalse(document.redo())
        self.assertTrue(document.undo() and document.undo())
        self.assertEqual((document.text, document.can_undo), ("", False))

    def test_line_endings(self):
        document = self.document("a\r\nb\rc", ending="lf")
        self.assertTrue(document.set_ending("crlf"))
        self.assertEqual((document.text, document.ending, document.version), ("a\r\nb\r\nc", "crlf", 2))
        self.no_range("between a CR and its LF", document.position, 2)
        document.edit(7, 7, "x\ny")
        self.assertEqual(document.value(7, 11), "x\r\ny")
        self.assertFalse(document.set_ending("crlf"))
        self.assertTrue(document.set_ending(None))
        self.assertEqual((document.ending, document.position(2)), (None, (1, 3)))
        self.no_range("column 3 is beyond the end of line 1", document.offset, 1, 3)
        self.assertTrue(document.undo() and document.undo() and document.undo())
        self.assertEqual((document.text, document.ending), ("a\nb\nc", "lf"))
        self.assertRaises(ValueError, document.set_ending, "cr")


class Places(Case):
    def test_positions(self):
        document = self.document("ab\r\n" + SMILE)
        self.assertEqual([document.position(n) for n in (0, 2, 3, 4, 6)], [(1, 1), (1, 3), (1, 4), (2, 1), (2, 3)])
        self.assertIsInstance(document.position(0), Position)
        self.no_range("position: offset 5 is inside a character", document.position, 5)
        for offset in (7, FAR, *NO_NUMBERS):
            self.no_range(f"offset {offset} ", document.position, offset)
        self.assertRaises(ValueError, document.position, 0, "utf-7")

    def test_offsets(self):
        document = self.document("ab\r\n" + SMILE)
        self.assertEqual([document.offset(*at) for at in [(1, 1), (1, 3), (2, 1), (2, 3)]], [0, 2, 4, 6])
        for said, line, column in [
            ("column 4 is beyond the end of line 1", 1, 4), ("column 2 of line 2 is inside a character", 2, 2),
            ("column 4 is beyond", 2, 4),
            ("there is no line 3: the text has 2", 3, 1), ("lines count from 1", 0, 1), ("columns count from 1", 1, 0),
            (f"there is no line {FAR}", FAR, FAR), ("line -1 is below 0", -1, 1), (f"column {2**64} is above", 1, 2**64),
        ]:  # fmt: skip
            self.no_range(said, document.offset, line, column)
        self.assertRaises(ValueError, document.offset, 1, 1, "utf-7")

    def test_encodings(self):
        texts = ["", "ab", "é", "€", SMILE, "\ud800", f"a{SMILE}é\udc00b€{SMILE}", "\r", "x\n", f"é\r\n{SMILE}a\n"]
        for text in texts:
            document = self.document(text)
            for n, line in enumerate(document.lines(), 1):
                start = document.offset(n, 1)
                for at in range(len(line) + 1):
                    front = line[:at]
                    counts = {"utf-8": len(front.encode("utf-8", "surrogatepass")), "utf-16": units(front), "utf-32": at}
                    for encoding, count in counts.items():
                        self.assertEqual(document.position(start + units(front), encoding), (n, count + 1))
                        self.assertEqual(document.offset(n, count + 1, encoding), start + units(front))
        between = self.document("é\r\nx")
        self.assertEqual([between.position(2, encoding).column for encoding in ENCODINGS], [4, 3, 3])
        inside = "column 2 of line 1 is inside a character, in bytes of UTF-8"
        self.no_range(inside, self.document("é").offset, 1, 2, "utf-8")

    def test_values(self):
        document = self.document("a\r\nb\rc\nd")
        self.assertEqual((document.value(1, 4), document.value(8, 8)), ("\r\nb", ""))
        for start, end in [(1, 0), (0, 9), (9, 9), (0, FAR), (FAR, 0), (-1, 0)]:
            self.no_range("start -1 is below 0" if start < 0 else "value: ", document.value, start, end)

    def test_lines(self):
        document = self.document(f"a\r\nb\rc\nd{SMILE}\ud800")
        self.assertEqual([document.line(n) for n in range(1, 5)], ["a", "b", "c", f"d{SMILE}\ud800"])
        self.assertEqual((document.line_utf8(4), document.line_utf8(1)), (f"d{SMILE}\ufffd".encode(), b"a"))
        self.assertEqual(list(document.lines(2, 3)), ["b", "c"])
        self.assertEqual(list(document.lines(5)), [])
        for n in (0, 5, FAR, *NO_NUMBERS):
            self.no_range("line", document.line, n)
            self.no_range("line", document.line_utf8, n)
        self.no_range("lines count from 1", list, document.lines(0))
        self.no_range("there is no line 5", list, document.lines(4, 5))

    def test_reading(self):
        text = ("ab" + SMILE) * 30_000
        document = self.document(text)
        self.assertEqual((document.read(0, 3), document.read(2, 5), document.read(len(document))), ("ab", SMILE + "ab", ""))
        parts = list(document.parts())
        self.assertEqual(("".join(parts), len(parts) > 1), (text, True))
        self.no_range("offset 3 is inside a character", document.read, 3)
        self.no_range("`most` is 1, and must be at least 2", document.read, 0, 1)
        self.no_range("is beyond the end of the text", document.read, 10**9)
        self.assertEqual(self.document("a\r\nb", ending="crlf").read(0, 2), "a")
        self.assertEqual(self.document("").read(0, 2), "")

    def test_stops(self):
        document = self.document("e\u0301x" + SMILE + "\n")
        self.assertEqual((document.stops(1), document.stops(2)), ([1, 3, 4], []))
        self.assertEqual([document.stops(1, encoding) for encoding in ENCODINGS], [[1, 4, 5], [1, 3, 4], [1, 3, 4]])
        for n in (0, 3, *NO_NUMBERS):
            self.no_range("line", document.stops, n)
        self.assertRaises(ValueError, document.stops, 1, "latin-1")

    def test_find(self):
        document = self.document("aaa" + SMILE)
        self.assertEqual(document.find("aa"), [Span(0, 2)])
        self.assertEqual(document.find("a"), [(0, 1), (1, 2), (2, 3)])
        self.assertEqual(document.find(SMILE), [(3, 5)])
        self.assertEqual(document.find("\ud83d"), [])
        self.assertEqual(self.document("a" * 1000).find("a")[-1], (999, 1000))
        self.no_range("find: the sought text is empty", document.find, "")

    def test_find_from_a_place(self):
        document = self.document("aaaaa")
        self.assertEqual(document.find("aa", 1), [(2, 4)])
        self.assertEqual(document.find("aa", 2), [(2, 4)])
        self.assertEqual(document.find("aa", FAR), [])
        self.assertEqual(document.find("aa", back=True), [(2, 4), (0, 2)])
        self.assertEqual(document.find("aa", 3, back=True), [(0, 2)])
        self.assertEqual(document.find("a", 4, True, 2), [(3, 4), (2, 3)])
        self.assertEqual((document.find("a", most=1), document.find("a", most=0)), ([(0, 1)], []))
        self.no_range("start -1 is below 0", document.find, "a", -1)
        self.no_range("most -1 is below 0", document.find, "a", most=-1)

    def test_replace_all(self):
        document = self.document("aaa")
        document.edit(3, 3, "b")
        self.assertEqual(document.replace_all("z", "x"), 0)
        self.assertEqual(document.replace_all("a", SMILE), 3)
        self.assertEqual((document.text, document.version), (3 * SMILE + "b", 3))
        self.assertTrue(document.undo())
        self.assertEqual(document.text, "aaab")
        self.no_range("replace: the sought text is empty", document.replace_all, "", "x")

    def test_units(self):
        self.assertEqual((units(""), units("ab"), units(SMILE), units("\ud800")), (0, 2, 2, 1))


class Decorations(Case):
    def setUp(self):
        self.text = self.document("abcdefgh")

    def test_what_follows_the_text(self):
        self.assertEqual(self.text.decorate(7, [(2, 5), NewDecoration(2, 5, Stick.NONE, True)]), range(1, 3))
        self.text.edit(2, 2, "xyz")
        self.assertEqual(self.text.decoration(1), Decoration(1, 7, 2, 8, Stick.BOTH, False))
        self.assertEqual(self.text.decoration(2), (2, 7, 5, 8, Stick.NONE, True))
        self.assertIsInstance(self.text.decoration(2).span, Span)
        self.text.edit(5, 8, "..")
        self.assertEqual(self.text.decoration(2).span, (5, 5))

    def test_an_end_inside_a_character(self):
        self.text.decorate(1, [(1, 3)])
        self.text.edit(0, 2, SMILE)
        self.assertEqual(self.text.decoration(1).span, (1, 3))
        self.no_range("offset 1 is inside a character", self.text.value, *self.text.decoration(1).span)

    def test_sticks(self):
        self.text.decorate(1, [(2, 4, stick) for stick in Stick])
        self.text.edit(4, 4, ">")
        self.text.edit(2, 2, "<")
        self.assertEqual([self.text.decoration(id_).span for id_ in range(1, 5)], [(2, 6), (3, 5), (2, 5), (3, 6)])

    def test_those_of_a_span(self):
        self.text.decorate(1, [(5, 6), (0, 2), (2, 2)])
        self.text.decorate(FAR, [(2, 4)])
        found = self.text.decorations(2, 3)
        self.assertEqual([it.id for it in found], [2, 3, 4])
        self.assertEqual([it.id for it in self.text.decorations(0, 8, owner=1)], [2, 3, 1])
        self.assertEqual([it.id for it in self.text.decorations(0, 8, owner=FAR)], [4])
        self.assertEqual(self.text.decorations(0, 8, owner=3), [])
        for start, end in [(3, 2), (0, 9), (-1, 0)]:
            self.no_range("", self.text.decorations, start, end)
        self.no_range("owner -1 is below 0", self.text.decorations, 0, 1, -1)

    def test_many_of_a_span(self):
        self.text.decorate(1, [(3, 3)] * 1000)
        self.assertEqual([it.id for it in self.text.decorations(0, 8)], [*range(1, 1001)])

    def test_removal(self):
        self.text.decorate(1, [(0, 1), (1, 2)])
        self.assertEqual(self.text.decorate(1, remove=[1]), range(3, 3))
        self.refuses(UnknownError, "there is none with id 1", self.text.decoration, 1)
        for index, owner, gone in [(0, 1, [1]), (1, 1, [2, 1]), (0, 2, [2]), (1, 1, [2, 2])]:
            said = f"decorate: decoration {gone[index]} cannot be removed"
            self.at_fault(0, index, UnknownError, said, self.text.decorate, owner, [(9, 9)], gone)
        for no_number in NO_NUMBERS:
            self.refuses(UnknownError, f"decoration {no_number}", self.text.decorate, 1, remove=[no_number])
        self.assertEqual(self.text.decorate(1, [(2, 3)], [2]), range(3, 4))

    def test_no_ids(self):
        for id_ in (0, 1, FAR, *NO_NUMBERS):
            self.refuses(UnknownError, str(id_), self.text.decoration, id_)

    def test_no_spans(self):
        for said, new in [
            ("its start, 1, is after", (1, 0)), ("offset 9 is beyond", (0, 9)), ("there is no stick 4", (0, 1, 4)),
        ]:  # fmt: skip
            self.at_fault(0, 1, RangeError, f"new decoration 1: {said}", self.text.decorate, 1, [(0, 1), new, new])
        self.no_range("offset -1 is below 0", self.text.decorate, 1, [(-1, 0)])
        self.no_range("stick -1 is below 0", self.text.decorate, 1, [(0, 0, -1)])
        for owner in NO_NUMBERS:
            self.no_range(f"owner {owner}", self.text.decorate, owner)
        self.assertEqual(self.text.decorations(0, 8), [])

    def test_too_many(self):
        many = [(0, 0)] * (2**20 + 1)
        self.assertIsInstance(self.refuses(LimitError, "decorate: there would be more than 2**20", self.text.decorate, 1, many), ValueError)


class Brackets(Case):
    def test_brackets(self):
        document = self.document("([)\n]")
        first, second, third = document.brackets(1, 1)
        self.assertEqual(first, Bracket(1, 1, 1, 0, 0, BracketState.OPENING))
        self.assertEqual(second, (1, 2, 1, 1, 1, BracketState.UNCLOSED))
        self.assertEqual((third.position, third.state), (Position(1, 3), BracketState.CLOSING))
        self.assertEqual([it.state for it in document.brackets(2, 2)], [BracketState.UNEXPECTED])
        self.assertEqual(len(document.brackets(1, 2)), 4)
        for said, first, last in [
            ("lines count from 1", 0, 1), ("its first line, 2, is after its last, 1", 2, 1),
            ("there is no line 3", 1, 3), ("first -1", -1, 1),
        ]:  # fmt: skip
            self.no_range(said, document.brackets, first, last)

    def test_encodings(self):
        document = self.document(f"é{SMILE}(«é»)", brackets=["()", ("«é", "»")])
        for encoding, columns, length in [("utf-8", [7, 8, 12, 14], 4), ("utf-16", [4, 5, 7, 8], 2), ("utf-32", [3, 4, 6, 7], 2)]:
            found = document.brackets(1, 1, encoding)
            self.assertEqual(([it.column for it in found], found[1].length), (columns, length))
            self.assertEqual(document.match(1, columns[2], encoding), Partner(1, columns[1], length))
            self.assertEqual([document.level(1, column, encoding) for column in columns], [0, 1, 2, 1])
        for call in (document.match, document.level):
            self.no_range("column 4 of line 1 is inside a character, in bytes of UTF-8", call, 1, 4, "utf-8")
            self.assertRaises(ValueError, call, 1, 1, "utf-9")
        self.assertRaises(ValueError, document.brackets, 1, 1, "utf-9")

    def test_a_bracket_that_is_half_of_a_character(self):
        document = self.document(f"{SMILE}]", brackets=[("\ude00", "]")])
        self.assertEqual((document.match(1, 3), len(document.brackets(1, 1))), ((1, 2, 1), 2))
        for encoding in ("utf-8", "utf-32"):
            column = len(SMILE.encode(encoding)) if encoding == "utf-8" else 1
            self.no_range("begins or ends inside a character", document.brackets, 1, 1, encoding)
            self.no_range("begins or ends inside a character", document.match, 1, column + 1, encoding)

    def test_many(self):
        document = self.document("()" * 1000)
        self.assertEqual([it.column for it in document.brackets(1, 1)], [*range(1, 2001)])

    def test_match(self):
        document = self.document("f(x)")
        self.assertEqual(document.match(1, 2), Partner(1, 4, 1))
        self.assertEqual(document.match(1, 4).position, (1, 2))
        self.assertIsNone(document.match(1, 1))
        for line, column in [(1, 6), (2, 1), (0, 0), (1, -1)]:
            self.no_range("", document.match, line, column)

    def test_level(self):
        document = self.document("f(x)")
        self.assertEqual([document.level(1, column) for column in range(1, 6)], [0, 0, 1, 1, 0])
        for said, line, column in [("column 6 is beyond", 1, 6), ("line 2", 2, 1), ("lines count", 0, 0), ("column -1", 1, -1)]:
            self.no_range(said, document.level, line, column)


class Snapshots(Case):
    def test_reading(self):
        document = self.document("hello " + SMILE)
        with document.snapshot() as snapshot:
            document.edit(0, 5, "J")
            self.assertEqual([snapshot.read(n) for n in (3, 4, 9, 9)], ["hel", "lo ", SMILE, ""])
            self.assertEqual(snapshot.read(), "")
            for most in (1, 0):
                self.no_range(f"`most` is {most}, and must be at least 2", snapshot.read, most)
            self.no_range("most -1 is below 0", snapshot.read, -1)
        self.refuses(ClosedError, "snapshot 1: it is closed", snapshot.read)

    def test_reading_all(self):
        text = ("ab" + SMILE) * 30_000
        document = self.document(text)
        first, second = document.snapshot(), document.snapshot()
        document.edit(0, len(document), "")
        self.assertEqual((first.read(2), first.read()), ("ab", text[2:]))
        parts = list(second)
        self.assertEqual("".join(parts), text)
        self.assertGreater(len(parts), 1)

    def test_one_of_a_document_that_was_opened_anew(self):
        session = self.session("old", "other")
        document, other = session[0], session[1].snapshot()
        for open_anew in (lambda: document.open("new"), lambda: session.answer('{"cmd":"open","text":"new"}')):
            snapshot = document.snapshot()
            self.assertEqual(snapshot.read(2), document.text[:2])
            open_anew()
            self.assertEqual(document.snapshot().id, 1)
            self.refuses(UnknownError, f"snapshot {snapshot.id} in document 0: its document was opened anew", snapshot.read)
            snapshot.close()
        self.assertEqual(other.read(), "other")

    def test_what_a_script_closed(self):
        document = self.document("a")
        snapshot = document.snapshot()
        self.assertEqual(document.session.answer(b'{"cmd":"close","id":1}'), b"ok\n")
        self.refuses(UnknownError, "snapshot 1: it is not open", snapshot.read)
        self.refuses(UnknownError, "snapshot 1: it is not open", snapshot.close)
        snapshot.close()

    def test_too_many(self):
        document = self.document("a")
        kept = [document.snapshot() for _ in range(1000)]
        self.refuses(LimitError, "snapshot: 1,000 snapshots are open", document.snapshot)
        kept[500].close()
        self.assertEqual(document.snapshot().read(), "a")


class Mirrors(Case):
    def test_following(self):
        document = self.document("ab")
        self.assertIsNone(document.send())
        self.assertEqual(document.mirror(), 1)
        document.edit(0, 0, "x")
        self.assertEqual(document.send(), Event(1, 1))
        document.undo()
        self.assertEqual(document.send(), (2, 2))
        said = "event 2: the mirror has version 1, and the event leads from version 2"
        error = self.refuses(GapError, said, document.deliver, 2)
        self.assertEqual((error.have, error.need, isinstance(error, ValueError)), (1, 2, True))
        self.assertEqual(document.mirror_now(), MirrorState(1, 2, 1))
        self.assertEqual(document.deliver(1), MirrorState(2, 3, 1))
        self.assertEqual(document.mirror_now(), (2, 3, 1))
        self.assertEqual((document.mirrored(1), document.deliver(1), document.deliver(2)), ("xab", None, (3, 2, 1)))
        self.assertEqual(document.mirrored(1), "ab")

    def test_what_is_not_there(self):
        document = self.session("ab")[0]
        self.assertIsNone(document.mirror_now())
        self.refuses(UnknownError, "event 1 in document 0: there is no mirror", document.deliver, 1)
        self.refuses(UnknownError, "line 1 of the mirror in document 0: there is no mirror", document.mirrored, 1)
        document.mirror()
        for n in (0, 1, FAR):
            self.refuses(UnknownError, f"event {n} in document 0: there is no such event", document.deliver, n)
        for n in NO_NUMBERS:
            self.refuses(UnknownError, f"event {n}", document.deliver, n)
        for n in (0, 2, FAR):
            self.no_range(f"line {n} of the mirror in document 0: there is no such line", document.mirrored, n)
        document.open("cd")
        self.assertIsNone(document.mirror_now())

    def test_a_long_line(self):
        document = self.document("x" * 10_000)
        document.mirror()
        self.assertEqual(document.mirrored(1), document.text)

    def test_too_many_events(self):
        document = self.document("a")
        document.edit(0, 0, "b")
        for _ in range(65_536):
            document.send()
        self.refuses(LimitError, "send: 65,536 events were sent", document.send)


class Answers(Case):
    def test_worked_scripts(self):
        scripts = [*sorted((TOP / "examples").glob("*.jsonl")), TOP / "fuzz" / "no_commands.jsonl"]
        self.assertGreater(len(scripts), 10)
        for script in scripts:
            with self.subTest(script.name), Session() as session:
                lines = script.read_bytes().split(b"\n")
                replies = b"".join(map(session.answer, lines))
                self.assertEqual(replies, script.with_name(script.name + ".stdout").read_bytes())

    def test_beside_calls(self):
        session = self.session("ab")
        self.assertEqual(session.answer('{"cmd":"size"}'), b"ok 2 1\n")
        session[0].edit(0, 0, "\n")
        self.assertEqual(session.answer(b'{"cmd":"line","n":2}'), b'ok "ab"\n')
        self.assertEqual(session.answer(b'{"cmd":"open","doc":9,"text":"\\ud83d\\ude00"}'), b"ok 1 2 1\n")
        self.assertEqual(session[9].text, SMILE)

    def test_what_is_no_command(self):
        session = self.session("a")
        for line in ("", " ", b"\t\r"):
            self.assertEqual(session.answer(line), b"")
        for line in ("x", b"\xff", "\ud800", '{"cmd":"undo","cmd":1}'):
            self.assertEqual(session.answer(line), b"! syntax\n")
        self.assertEqual(session.answer(b"x" * (2**24 + 1)), b"! limit\n")
        for no_line in (5, None, bytearray(b"x"), [b"x"]):
            self.assertRaises(TypeError, session.answer, no_line)
        self.assertEqual(session[0].text, "a")

    def test_a_long_reply(self):
        text = "x" * 100_000
        self.assertEqual(self.session(text).answer(b'{"cmd":"line","n":1}'), f'ok "{text}"\n'.encode())


class Threads(Case):
    def run_all(self, works):
        """Runs these at once; what they raised."""
        raised = []

        def run(work):
            try:
                work()
            except BaseException as error:
                raised.append(error)

        threads = [threading.Thread(target=run, args=(work,)) for work in works]
        for thread in threads:
            thread.start()
        for thread in threads:
            thread.join()
        self.assertEqual(raised, [])

    def test_documents_of_one_session(self):
        session = self.session()

        def work(number):
            document = session[number]
            for n in range(300):
                document[n:n] = "x"
                document.edit(n, n + 1, chr(97 + number))
                assert document.changes() == [(n, n + 1, chr(97 + number))], document.changes()
                assert document.line(1) == chr(97 + number) * (n + 1), document.line(1)

        self.run_all([lambda n=n: work(n) for n in range(4)])

    def test_one_document(self):
        document = self.document()

        def work():
            for _ in range(300):
                document[:0] = "ab"
                assert set(document.text) == {"a", "b"}

        self.run_all([work] * 4)
        self.assertEqual(len(document), 2400)

    def test_another_thread_may_close(self):
        document = self.document("a")
        self.run_all([document.close])
        self.refuses(ClosedError, "closed", document.undo)


NO_MEMORY = """
import resource
from textmodel import Document, NoMemoryError
text = b"a" * 100_000_000
document = Document("kept")
pages = int(open("/proc/self/statm").read().split()[0])
resource.setrlimit(resource.RLIMIT_AS, (pages * resource.getpagesize() + 30_000_000,) * 2)
try:
    document.open(text)
except NoMemoryError as error:
    print(isinstance(error, MemoryError), document.value(0, 4))
"""


class Loading(Case):
    """Which library is taken, by modules in folders of their own."""

    def says(self, *places, named=""):
        """What the last line of an import says, where these places have a file that is no library."""
        with tempfile.TemporaryDirectory() as room:
            module = Path(room, "python", "textmodel.py")
            for place in ["crates.txt", *places]:
                Path(room, place).parent.mkdir(parents=True, exist_ok=True)
                Path(room, place).write_text("no library")
            module.parent.mkdir(exist_ok=True)
            module.write_bytes((HERE / "textmodel.py").read_bytes())
            more = {"TEXTMODEL_LIBRARY": named, "PYTHONPATH": str(module.parent), "LD_LIBRARY_PATH": ""}
            words = [sys.executable, "-B", "-c", "import textmodel"]
            done = subprocess.run(words, cwd=room, stderr=subprocess.PIPE, text=True, env={**os.environ, **more}, timeout=60)
            return done.stderr.replace(str(Path(room).resolve()), "ROOM").replace(room, "ROOM")

    def test_places(self):
        one, other = "bin/libtextmodel.so", "bin/unproved_library/libtextmodel.so.1"
        beside = ["python/libtextmodel.so", "python/libtextmodel.so.1"]
        self.assertIn(f"OSError: ROOM/{one}: ", self.says(one, other))
        self.assertNotIn("Warning", self.says(one, other))
        self.assertIn(f"OSError: ROOM/{other}: ", self.says(other))
        self.assertIn("RuntimeWarning: ROOM/", self.says(other))
        self.assertIn(f"OSError: ROOM/{beside[1]}: ", self.says(one, *beside))
        self.assertIn(f"OSError: ROOM/{beside[0]}: ", self.says(one, beside[0]))
        self.assertIn("OSError: /nowhere.so: ", self.says(one, named="/nowhere.so"))

    @unittest.skipIf(find_library("textmodel"), "the loader finds one")
    def test_none(self):
        said = self.says()
        self.assertIn("libtextmodel.so.1: cannot open", said)
        self.assertIn("./build --unproved makes one", said)

    @unittest.skipUnless(shutil.which("cc"), "there is no cc")
    def test_another_version(self):
        with tempfile.TemporaryDirectory() as room:
            for version, said in [(400, "it has version 0.4.0"), (20_003, "it has version 2.0.3"), (10_100, "it lacks a call")]:
                source = f"unsigned tm_version(void) {{ return {version}; }}"
                library = str(Path(room, f"{version}.so"))
                subprocess.run(["cc", "-shared", "-fPIC", "-o", library, "-x", "c", "-"], input=source, text=True, check=True)
                self.assertIn(f"ImportError: {library}: {said}", self.says(named=library))


class Memory(Case):
    @unittest.skipUnless(Path("/proc/self/statm").exists(), "memory is limited on Linux alone")
    def test_want_of_memory(self):
        words = [sys.executable, "-B", "-c", NO_MEMORY]
        done = subprocess.run(words, cwd=HERE, stdout=subprocess.PIPE, timeout=60, check=True)
        self.assertEqual(done.stdout, b"True kept\n")


# ---- Scripts, by calls


class Player:
    """Carries out the commands of a script by calls of the module, and tells what came of each as its reply does."""

    REASONS = {UnknownError: "unknown", RangeError: "range", OverlapError: "overlap", LimitError: "limit"}
    STATES = "ocux"

    def __init__(self):
        self.session = Session()
        self.snapshots = {}

    def reply(self, name, doc, values):
        """The reply to a command."""
        try:
            said = self.joint(*values) if name == "joint" else getattr(self, name)(self.session[doc], *values)
        except JointError as error:
            return f"! joint {error.document}".encode()
        except GapError as error:
            return f"! gap {error.have} {error.need}".encode()
        except TextModelError as error:
            return f"! {self.REASONS[type(error)]}".encode()
        return ("ok" + said).encode("utf-8")

    def sizes(self, document):
        return f" {document.version} {len(document)} {document.line_count}"

    def moved(self, document, was_there):
        return self.sizes(document) if was_there else " none"

    def open(self, document, text, pairs, hiding, kind):
        hidden = Hiding(hiding.line or "", hiding.block or ("", ""), hiding.quotes) if hiding else None
        document.open(text, ending=kind, brackets=pairs, hiding=hidden)
        return self.sizes(document)

    def edit(self, document, ops):
        op = ops[0]
        if len(ops) == 1 and not op.force and op.at:
            document.edit(*op.at, op.text)
        elif len(ops) == 1 and not op.force:
            document.edit_at(op.range[:2], op.range[2:], op.text)
        else:
            document.batch(self.edits(document, ops))
        return self.sizes(document)

    def edits(self, document, ops):
        return [Edit(*self.span_of(document, op), op.text, op.force) for op in ops]

    def span_of(self, document, op):
        return op.at or (document.offset(*op.range[:2]), document.offset(*op.range[2:]))

    def joint(self, edits):
        documents = [(self.session[doc], ops) for doc, ops in edits]
        self.session.joint({document.number: self.edits(document, ops) for document, ops in documents})
        return "".join(f" {document.number}{self.sizes(document)}" for document, _ in documents)

    def undo(self, document):
        could = document.can_undo
        assert could == (did := document.undo())
        return self.moved(document, did)

    def redo(self, document):
        could = document.can_redo
        assert could == (did := document.redo())
        return self.moved(document, did)

    def stop(self, document):
        document.stop()
        return ""

    def eol(self, document, kind):
        was = document.ending
        assert (was != kind) == (did := document.set_ending(kind))
        return self.moved(document, did)

    def changes(self, document):
        return f" {document.version}" + "".join(f" {start} {end}{self.text(text)}" for start, end, text in document.changes())

    def decorate(self, document, owner, remove, add):
        ids = document.decorate(owner, [NewDecoration(*at, stick, collapse) for at, stick, collapse in add], remove)
        return f" {ids.start} {len(ids)}"

    def deco(self, document, id_):
        it = document.decoration(id_)
        return f" {it.start} {it.end} {int(it.stick)} {it.owner}"

    def decos(self, document, at, owner):
        return "".join(f" {it.id} {it.start} {it.end}" for it in document.decorations(*at, owner=owner))

    def find(self, document, text):
        return "".join(f" {start} {end}" for start, end in document.find(text))

    def replace(self, document, sought, text):
        found = len(document.find(sought))
        assert found == (did := document.replace_all(sought, text))
        return self.moved(document, did)

    def size(self, document):
        return f" {len(document)} {document.line_count}"

    def version(self, document):
        return f" {document.version} {document.alternative}"

    def line(self, document, n):
        return self.text(document.line(n))

    def value(self, document, at):
        return self.text(document.value(*at))

    def text(self, text):
        from texts import quoted, units_of

        return f" {quoted(units_of(text))}"

    def offset(self, document, line, column):
        return f" {document.offset(line, column)}"

    def position(self, document, offset):
        return " {} {}".format(*document.position(offset))

    def stops(self, document, n):
        return "".join(f" {column}" for column in document.stops(n))

    def brackets(self, document, first, last):
        found = document.brackets(first, last)
        return "".join(f" {it.line} {it.column} {it.length} {it.kind} {self.STATES[it.state]} {it.level}" for it in found)

    def match(self, document, line, column):
        found = document.match(line, column)
        return " {} {} {}".format(*found) if found else " none"

    def level(self, document, line, column):
        return f" {document.level(line, column)}"

    def snapshot(self, document):
        made = document.snapshot()
        self.snapshots[document.number, made.id] = made
        return f" {made.id}"

    def named(self, document, id_):
        """The snapshot of an id, of one too that a line made or that there is not."""
        found = self.snapshots.get((document.number, id_))
        return found if found and found._is_of_now() else Snapshot(document, id_, 2**20)

    def read(self, document, id_, count):
        return self.text(self.named(document, id_).read(count))

    def close(self, document, id_):
        snapshot = self.named(document, id_)
        self.snapshots.pop((document.number, id_), None)
        snapshot.close()
        return ""

    def mirror(self, document):
        return f" {document.mirror()}"

    def send(self, document):
        event = document.send()
        return f" {event.number} {event.version}" if event else " none"

    def deliver(self, document, n):
        state = document.deliver(n)
        return " {} {} {}".format(*state) if state else " old"

    def mirrored(self, document, n):
        return self.text(document.mirrored(n))


@NEEDS_FUZZ
class Scripts(Case):
    def test_worked_scripts(self):
        scripts = sorted((TOP / "examples").glob("*.jsonl"))
        self.assertGreater(len(scripts), 10)
        for script in scripts:
            wanted = script.with_name(script.name + ".stdout").read_bytes().splitlines()
            with self.subTest(script.name):
                self.play(script.read_bytes().splitlines(), wanted)

    def play(self, lines, wanted):
        from commands import Refused, request_of

        player = Player()
        self.assertEqual(len(lines), len(wanted))
        for line, reply in zip(lines, wanted):
            try:
                came = player.reply(*request_of(line))
            except Refused as refused:
                came = f"! {refused}".encode()
            self.assertEqual(came, reply, line)
        player.session.close()


# ---- Random calls


@NEEDS_FUZZ
class RandomCalls(Case):
    def test_beside_flat_documents(self):
        left, number = CALLS, 0
        while left > 0:
            self.play(f"{SEED}/{number}", min(left, SCRIPT_CALLS))
            left -= SCRIPT_CALLS
            number += 1
        print(f"test_textmodel: {CALLS} random calls of the seed {SEED}, none differs")

    def play(self, seed, count):
        """Calls on three documents, some of which are edited together. One in ten is answered as a line of a script."""
        from scripts import is_same
        from writers import COMPANIES, Writers

        draw, player, writers = Random(seed), Player(), Writers(seed)
        writers.company = COMPANIES[draw.choice(["joined", "twins"])][1]._replace(documents=3)
        writers.played = writers.drawn_documents(3)
        writers.last = writers.played[0]
        for n in range(count):
            line = writers.line()
            request, expected = self.request(line), writers.flat.reply(line) or b""
            is_line = request is None or draw.random() < 0.1
            came = player.session.answer(line).rstrip(b"\n") if is_line else player.reply(*request)
            if not is_same(came, expected):
                self.fail(f"seed {seed}, call {n}: {line!r} gives {came!r}, and {expected!r} is wanted")
            if n % 50 == 0:
                for doc in writers.played:
                    self.compare(player.session[doc], writers.flat.documents[doc], draw)
        player.session.close()

    def request(self, line):
        """What a line asks, where a call does; none where it names a document twice, which a dict can't."""
        from commands import Refused, request_of

        try:
            request = request_of(line) if line.strip() else None
        except Refused:
            return None
        if request and request.name == "joint" and len({doc for doc, _ in request.values[0]}) < len(request.values[0]):
            return None
        return request

    def compare(self, document, flat, draw):
        from texts import MIXED, text_of, units_of

        self.assertEqual(units_of(document.text), flat.text.units)
        self.assertEqual("".join(document.parts()), document.text)
        self.assertEqual(list(document.lines()), [text_of(flat.content(n)) for n in range(1, document.line_count + 1)])
        self.assertEqual(document.ending, None if flat.text.kind == MIXED else flat.text.kind)
        self.assertEqual((document.can_undo, document.can_redo), (bool(flat.undo_steps), bool(flat.redo_steps)))
        marks = [(it.id, it.owner, it.start, it.end, it.stick, it.collapse) for it in flat.decorations.values()]
        self.assertEqual(sorted(document.decorations(0, len(document))), sorted(marks))
        self.compare_columns(document, flat, draw)

    def compare_columns(self, document, flat, draw):
        """The columns of a place in all encodings."""
        n = draw.randint(1, document.line_count)
        line, start = document.line(n), flat.text.starts[n - 1]
        front = line[: draw.randint(0, len(line))]
        counts = [len(front.encode("utf-8", "surrogatepass")), units(front), len(front)]
        for encoding, count in zip(ENCODINGS, counts):
            self.assertEqual(document.position(start + units(front), encoding), (n, count + 1))
            self.assertEqual(document.offset(n, count + 1, encoding), start + units(front))
        self.assertEqual(document.line_utf8(n).decode(), line)


if __name__ == "__main__":
    words = argparse.ArgumentParser(description=__doc__.splitlines()[0], add_help=False)
    words.add_argument("--calls", type=int, default=CALLS)
    words.add_argument("--seed", default=SEED)
    given, others = words.parse_known_args()
    CALLS, SEED = given.calls, given.seed
    unittest.main(argv=[sys.argv[0], *others])
