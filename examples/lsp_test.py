#!/usr/bin/env -S python3 -B
"""Tests the language server through its stdio: recorded and generated changes, questions on brackets and words, and errors.

examples/lsp_test.py EVENTS

EVENTS, as lsp/events.json, is a JSON array of `textDocument/didOpen` and `textDocument/didChange` notifications of the Language
Server Protocol, of one document.
"""
import json
import os
import random
import select
import subprocess
import sys
import time
from collections import deque
from pathlib import Path
from typing import Any

from client import check
from lsp import WORD, Files
from lsp_server import (
    INVALID_PARAMS,
    INVALID_REQUEST,
    METHOD_NOT_FOUND,
    MOST_DIAGNOSTICS,
    PARSE_ERROR,
    REQUEST_CANCELLED,
    REQUEST_FAILED,
    SERVER_NOT_INITIALIZED,
    Frames,
    frame,
)
from textmodel import DOCUMENTS

HERE = Path(__file__).resolve().parent
Json = Any
SEED = 7
SECONDS = 20
FOLD = ("startLine", "startCharacter", "endLine", "endCharacter")
CHANGES = 150
ALPHABET = ["a", "b", " ", "\n", "\r\n", "\r", "😀", "e\u0301", "\u2028", "é", "(", ")", "[", "]", "{", "}", "x\ny"]
C_FILE = '''/* :-( and :-) are [faces */
#include <stdio.h>
int main(void) { // not closed: {
    puts("(\\"}"); putchar('(');
    return ")"[0];
}
'''
# Files in which the word `old` is renamed, and how often it stands there.
RENAMED = {
    "file:///a.c": ("int 😀old, older; // old\n(old)", 3),
    "file:///b.py": ("old = old2\nold", 2),
    "file:///c.txt": ("older", 0),
    "file:///d.txt": ("{old\r\n}\r\nold", 2),
}
MANY_BRACKETS = "{xy\n}y\n a" * 110_000


class Flat:
    """A document as one list of units, for the check. Characters of a line count as the encoding says."""

    def __init__(self, text: str, encoding: str = "utf-16") -> None:
        self.units, self.encoding = units_of(text), encoding

    def change(self, changes: list[Json]) -> None:
        for change in changes:
            range_ = change.get("range")
            start, end = sorted(self.offset(**range_[side]) for side in ("start", "end")) if range_ else (0, len(self.units))
            self.units[start:end] = units_of(change["text"])

    def offset(self, line: int, character: int) -> int:
        spans = self.lines()
        if line >= len(spans):
            return len(self.units)
        return max(at for at, column in self.stops(*spans[line]) if column <= character)

    def stops(self, start: int, end: int) -> list[tuple[int, int]]:
        """The places of a line, each as its offset and its character."""
        stops = [(start, 0)]
        for character in text_of(self.units[start:end]):
            at, column = stops[-1]
            count = len(units_of(character))
            stops.append((at + count, column + {"utf-8": len(character.encode()), "utf-16": count, "utf-32": 1}[self.encoding]))
        return stops

    def lines(self) -> list[tuple[int, int]]:
        """Where the content of each line starts and ends."""
        spans, start, at = [], 0, 0
        while at < len(self.units):
            width = 2 if self.units[at : at + 2] == [13, 10] else 1
            if self.units[at] in (10, 13):
                spans.append((start, at))
                start = at + width
            at += width
        return [*spans, (start, len(self.units))]

    def place(self, offset: int) -> Json:
        line, span = [(line, span) for line, span in enumerate(self.lines()) if span[0] <= offset][-1]
        return place(line, dict(self.stops(*span))[offset])

    def range(self, start: int, end: int) -> Json:
        return {"start": self.place(start), "end": self.place(end)}

    def text(self) -> str:
        return text_of(self.units)


class Editor:
    """The other end of a language server: asks it, and keeps the diagnostics that it told last of each document."""

    def __init__(self, chance: random.Random, counts: tuple[int, ...] = (1, 7, 65536)) -> None:
        """`counts` are how many bytes are read at a time."""
        words = [str(HERE / "lsp_server.py"), "--test"]
        self.server = subprocess.Popen(words, stdin=subprocess.PIPE, stdout=subprocess.PIPE, bufsize=0)
        self.chance, self.counts, self.frames = chance, counts, Frames()
        self.come: deque[Json] = deque()
        self.asked = 0
        self.diagnostics: dict[str, Json] = {}
        self.told: list[Json] = []

    def send(self, message: Json) -> None:
        self.send_bytes(frame({"jsonrpc": "2.0", **message}))

    def send_bytes(self, data: bytes) -> None:
        """In pieces of any size, at the head of the message in very small ones."""
        sent = 0
        while sent < len(data):
            count = self.chance.choice((1, 2, 30)) if sent < 60 else self.chance.choice((30, 5000, len(data)))
            self.server.stdin.write(data[sent : sent + count])
            sent += count

    def note(self, method: str, **params: Json) -> None:
        self.send({"method": method, "params": params})

    def reply(self, method: str, **params: Json) -> Json:
        """The whole response to a request."""
        self.asked += 1
        self.send({"id": self.asked, "method": method, "params": params})
        return self.response(self.asked)

    def ask(self, method: str, **params: Json) -> Json:
        return self.reply(method, **params)["result"]

    def response(self, id_: Json) -> Json:
        while True:
            message = self.message()
            if "id" in message:
                check_same("the id of a response", message["id"], id_)
                return message

    def message(self) -> Json:
        """The next message; notifications are kept too."""
        out = self.server.stdout.fileno()
        while not self.come:
            if not select.select([out], [], [], SECONDS)[0]:
                raise SystemExit(f"lsp: the server wrote nothing for {SECONDS} s")
            data = os.read(out, self.chance.choice(self.counts))
            if not data:
                raise SystemExit(f"lsp: the server ended with status {self.server.wait(SECONDS)}")
            self.come.extend(json.loads(body) for body in self.frames.feed(data))
        message = self.come.popleft()
        if message.get("method") == "textDocument/publishDiagnostics":
            self.diagnostics[message["params"]["uri"]] = message["params"]
        elif "method" in message:
            self.told.append(message)
        return message

    def start(self, **capabilities: Json) -> Json:
        """What the server can."""
        result = self.ask("initialize", processId=None, rootUri=None, capabilities=capabilities)
        self.note("initialized")
        return result["capabilities"]

    def open(self, uri: str, text: str, language: str = "text") -> None:
        self.note("textDocument/didOpen", textDocument={"uri": uri, "languageId": language, "version": 1, "text": text})

    def close(self, uri: str) -> None:
        self.note("textDocument/didClose", textDocument={"uri": uri})

    def change(self, uri: str, version: int, changes: list[Json]) -> None:
        self.note("textDocument/didChange", textDocument={"uri": uri, "version": version}, contentChanges=changes)

    def text(self, uri: str) -> str:
        return self.ask("lodvark/text", textDocument={"uri": uri})["text"]

    def await_diagnostics(self, uri: str, version: int) -> Json:
        """The diagnostics of this version of a text."""
        while self.diagnostics.get(uri, {}).get("version") != version:
            self.message()
        return self.diagnostics[uri]["diagnostics"]

    def end(self) -> int:
        """The status, after the two last messages."""
        self.ask("shutdown")
        self.note("exit")
        return self.server.wait(SECONDS)


def check_same(moment: str, came: object, wanted: object) -> None:
    if came != wanted:
        raise SystemExit(f"lsp: {moment}: {came!r}, wanted {wanted!r}")


def units_of(text: str) -> list[int]:
    bytes_ = text.encode("utf-16-le")
    return [bytes_[at] | bytes_[at + 1] << 8 for at in range(0, len(bytes_), 2)]


def text_of(units: list[int]) -> str:
    return b"".join(unit.to_bytes(2, "little") for unit in units).decode("utf-16-le")


def place(line: int, character: int) -> Json:
    return {"line": line, "character": character}


def range_(*numbers: int) -> Json:
    return {"start": place(*numbers[:2]), "end": place(*numbers[2:])}


def undo_all(events: list[Json]) -> None:
    """Plays the changes without a server, and takes each of them back."""
    opened, *changed = (event["params"] for event in events)
    flat = Flat(opened["textDocument"]["text"])
    files = Files()
    file = files.add(opened["textDocument"]["uri"], 1)
    files.open(file, "typescript", flat.text())
    texts = [flat.text()]
    for params in changed:
        file.change(params["contentChanges"])
        flat.change(params["contentChanges"])
        texts.append(flat.text())
        check_same(f"version {params['textDocument']['version']}", file.document.text, texts[-1])
    for text in reversed(texts[:-1]):
        file.document.undo()
        check_same("undone", file.document.text, text)
    files.close_all()
    print(f"changes played and undone: {len(changed)}")


def replay(events: list[Json], editor: Editor) -> None:
    """Sends the notifications as they were recorded, and asks for the text after each."""
    document = events[0]["params"]["textDocument"]
    flat = Flat(document["text"])
    for event in events:
        editor.send(event)
        flat.change(event["params"].get("contentChanges", []))
        check_same(f"after {event['method']}", editor.text(document["uri"]), flat.text())
    print(f"notifications replayed: {len(events)}")


def made_text(chance: random.Random, most: int) -> str:
    return "".join(chance.choice(ALPHABET) for _ in range(chance.randrange(most)))


def made_change(chance: random.Random, flat: Flat) -> Json:
    """A change anywhere in the text: inside a pair of surrogates, behind a line's end, behind the last line, turned round."""
    if chance.random() < 0.03:
        return {"text": made_text(chance, 60)}
    lines = len(flat.lines())
    start = place(chance.randrange(lines + 2), chance.choice((0, 1, 2, 3, 5, 8, 2**31 - 1)))
    end = start if chance.random() < 0.5 else place(start["line"] + chance.randrange(-1, 2), chance.randrange(9))
    end["line"] = max(0, end["line"])
    return {"range": {"start": start, "end": end}, "text": made_text(chance, 8)}


def edit_at_random(editor: Editor, chance: random.Random, encoding: str, count: int) -> None:
    """Three documents at once, by messages of several changes each."""
    flats = {f"file:///made/{number}.txt": Flat(made_text(chance, 80), encoding) for number in range(3)}
    versions = dict.fromkeys(flats, 1)
    for uri, flat in flats.items():
        editor.open(uri, flat.text())
    for version in range(2, count + 2):
        uri, flat = chance.choice([*flats.items()])
        changes = []
        for _ in range(chance.randrange(1, 4)):
            changes.append(made_change(chance, flat))
            flat.change(changes[-1:])
        editor.change(uri, version, changes)
        versions[uri] = version
        if version % 5 == 0:
            check_same(f"version {version} of {uri}", editor.text(uri), flat.text())
            ask_anywhere(editor, chance, uri, flat)
    for uri, flat in flats.items():
        check_same(f"the end of {uri}", editor.text(uri), flat.text())
        check_alone(editor, uri, versions[uri], flat)
        editor.close(uri)
    print(f"messages of changes at random, with characters of {encoding}: {count}")


def check_alone(editor: Editor, uri: str, version: int, flat: Flat) -> None:
    """Waits until the brackets are told that stand alone in the text of this version."""
    editor.await_diagnostics(uri, version)
    check_same(f"alone in {uri}", told_alone(editor, uri), [(flat.place(at), code) for at, code in sorted(parsed(flat)[1])])


def told_alone(editor: Editor, uri: str) -> list[tuple[Json, str]]:
    return [(told["range"]["start"], told["code"]) for told in editor.diagnostics[uri]["diagnostics"]]


def parsed(flat: Flat) -> tuple[list[tuple[int, int]], list[tuple[int, str]]]:
    """The offsets of the pairs, and of the brackets that stand alone, where fewer than 300 are open at once."""
    opened: list[int] = []
    pairs, alone = [], []
    for at, unit in enumerate(map(chr, flat.units)):
        partner = "([{"[")]}".index(unit)] if unit in ")]}" else None
        if unit in "([{":
            opened.append(at)
        elif partner and all(chr(flat.units[before]) != partner for before in opened):
            alone.append((at, "unexpected"))
        elif partner:
            while chr(flat.units[opened[-1]]) != partner:
                alone.append((opened.pop(), "unclosed"))
            pairs.append((opened.pop(), at))
    return pairs, alone + [(at, "unclosed") for at in opened]


def ask_anywhere(editor: Editor, chance: random.Random, uri: str, flat: Flat) -> None:
    """Compares what is answered of brackets, at places that need not be some of the text."""
    pairs, _ = parsed(flat)
    document = {"uri": uri}
    folds = [fold for fold in (flat.range(start + 1, end) for start, end in pairs) if fold["start"]["line"] < fold["end"]["line"]]
    told = editor.ask("textDocument/foldingRange", textDocument=document)
    check_same("folds", [range_(*map(fold.get, FOLD)) for fold in told], folds)
    for _ in range(5):
        at = place(chance.randrange(len(flat.lines()) + 1), chance.randrange(12))
        offset = flat.offset(**at)
        told = editor.ask("textDocument/documentHighlight", textDocument=document, position=at)
        wanted = pair_at(flat, pairs, offset) or word_at(flat, offset)
        check_same(f"highlights at {at}", [highlight["range"] for highlight in told], wanted)
        told = editor.ask("textDocument/selectionRange", textDocument=document, positions=[at])
        check_same(f"around {at}", parents(told[0]), around(flat, pairs, offset))


def pair_at(flat: Flat, pairs: list[tuple[int, int]], offset: int) -> list[Json]:
    found = [pair for at in (offset, offset - 1) for pair in pairs if at in pair]
    return [flat.range(at, at + 1) for at in found[0]] if found else []


def word_at(flat: Flat, offset: int) -> list[Json]:
    """Wherever the word stands that is at an offset, or before it."""
    text = flat.text()
    words = [(len(units_of(text[: found.start()])), found[0]) for found in WORD.finditer(text)]
    words_here = [word for at, word in words if at <= offset <= at + len(units_of(word))]
    return [flat.range(at, at + len(units_of(word))) for at, word in words if [word] == words_here]


def around(flat: Flat, pairs: list[tuple[int, int]], offset: int) -> list[Json]:
    """The nearest pair begins last. What two pairs both hold stands there once."""
    outer = sorted((pair for pair in pairs if pair[0] < offset <= pair[1]), reverse=True)
    spans = [span for start, end in outer for span in ((start + 1, end), (start, end + 1))]
    return [flat.range(*span) for span in dict.fromkeys([*spans, (0, len(flat.units))])]


def ask_of_brackets(editor: Editor) -> None:
    uri = "file:///brackets.txt"
    editor.open(uri, "f(😀 [1,\r\n  {2}],\n\t3)\n]")
    document = {"uri": uri}

    def highlights(line: int, character: int) -> list[Json]:
        found = editor.ask("textDocument/documentHighlight", textDocument=document, position=place(line, character))
        return [highlight["range"] for highlight in found]

    check_same("at `(`", highlights(0, 1), [range_(0, 1, 0, 2), range_(2, 2, 2, 3)])
    check_same("behind `]`", highlights(1, 6), [range_(0, 5, 0, 6), range_(1, 5, 1, 6)])
    check_same("inside a character", highlights(0, 3), [range_(0, 1, 0, 2), range_(2, 2, 2, 3)])
    check("behind the end", highlights(9, 9), [])
    asked = editor.ask("textDocument/selectionRange", textDocument=document, positions=[place(1, 4), place(3, 0)])
    whole = range_(0, 0, 3, 1)
    around = [(1, 3, 1, 4), (1, 2, 1, 5), (0, 6, 1, 5), (0, 5, 1, 6), (0, 2, 2, 2), (0, 1, 2, 3)]
    check_same("around `2`", parents(asked[0]), [*(range_(*numbers) for numbers in around), whole])
    check_same("around the last line", parents(asked[1]), [whole])
    folds = [
        {"startLine": 0, "startCharacter": 6, "endLine": 1, "endCharacter": 5},
        {"startLine": 0, "startCharacter": 2, "endLine": 2, "endCharacter": 2},
    ]
    check_same("folds", editor.ask("textDocument/foldingRange", textDocument=document), folds)
    editor.await_diagnostics(uri, 1)
    check("diagnostics", told_alone(editor, uri), [(place(3, 0), "unexpected")])
    editor.close(uri)


def parents(selection: Json) -> list[Json]:
    return [selection["range"], *parents(selection["parent"])] if "parent" in selection else [selection["range"]]


def open_what_is_odd(editor: Editor) -> None:
    """A text with a lone surrogate, one of many lines, changes that are none, and a document that is not open."""
    uri = "file:///odd.txt"
    editor.open(uri, "a\ud83db")
    check("a lone surrogate", editor.text(uri), "a\ufffdb")
    editor.change(uri, 2, [{"range": range_(0, 1, 0, 2), "text": "\ud83d\ude00"}])
    check("a pair of escapes", editor.text(uri), "a😀b")
    editor.open(uri, "{[\n" + "()\n" * 20_000 + "]\n}")
    check("many lines", len(editor.text(uri)), 60_006)
    asked = editor.ask("textDocument/selectionRange", textDocument={"uri": uri}, positions=[place(15_000, 1)])
    around_all = [(0, 2, 20_001, 0), (0, 1, 20_001, 1), (0, 1, 20_002, 0), (0, 0, 20_002, 1)]
    check_same("around a line far away", parents(asked[0])[2:], [range_(*numbers) for numbers in around_all])
    look_far(editor)
    editor.change(uri, 3, [{"range": {"start": "here"}, "text": ""}])
    failed = editor.reply("lodvark/text", textDocument={"uri": uri})
    check("a change that is none", "error" in failed and editor.told[-1]["method"], "window/showMessage")
    editor.open(uri, "again")
    check("opened again", editor.text(uri), "again")
    editor.change("file:///nowhere.txt", 2, [{"text": ""}])
    check("not open", error_code(editor, "file:///nowhere.txt"), INVALID_PARAMS)
    editor.close(uri)


def look_far(editor: Editor) -> None:
    """Diagnostics of a text that is looked through in pieces, and of one with more than are told."""
    uri, flat = "file:///far.txt", Flat("]\n" + "x\n" * 9_000 + "(")
    editor.open(uri, flat.text())
    editor.await_diagnostics(uri, 1)
    check("far away", told_alone(editor, uri), [(place(0, 0), "unexpected"), (place(9_001, 0), "unclosed")])
    editor.change(uri, 2, [{"text": "]\n" * (MOST_DIAGNOSTICS + 500)}])
    check("at most", len(editor.await_diagnostics(uri, 2)), MOST_DIAGNOSTICS)
    editor.close(uri)


def error_code(editor: Editor, uri: str) -> int:
    return editor.reply("lodvark/text", textDocument={"uri": uri})["error"]["code"]


def hide_by_language(editor: Editor) -> None:
    """Brackets in comments and strings count as text where the language is known, and else as brackets."""
    texts = {
        "c": C_FILE,
        "cpp": C_FILE,
        "rust": "fn f() {} // (\n/* [ */ const S: &str = \"{\";\n",
        "python": "f() # (\ns = ']' + \"{\"\n",
        "javascript": "f(`)`, '(') // }\n",
        "typescript": "f(`)`, '(') // }\n",
        "shellscript": "f() { echo '(' \")\"; } # {\n",
    }
    for language, text in texts.items():
        editor.open(f"file:///hidden.{language}", text, language)
        check(f"alone in {language}", editor.await_diagnostics(f"file:///hidden.{language}", 1), [])
        editor.close(f"file:///hidden.{language}")
    editor.open("file:///hidden.txt", C_FILE)
    check("alone in a text", len(editor.await_diagnostics("file:///hidden.txt", 1)) > 3, True)
    editor.close("file:///hidden.txt")


def open_many(editor: Editor) -> None:
    """As many files as a session has documents; one more is refused, until another one is closed."""
    uris = [f"file:///many/{number}.txt" for number in range(DOCUMENTS + 1)]
    for uri in uris:
        editor.open(uri, f"text of {uri}")
    check("one file too many", error_code(editor, uris[-1]), REQUEST_FAILED)
    told = editor.told[-1]
    is_said = f"{DOCUMENTS} files are open" in told["params"]["message"]
    check("what is told of it", (told["method"], is_said), ("window/showMessage", True))
    editor.change(uris[-1], 2, [{"text": "not known"}])
    for uri in uris[:-1]:
        check_same("of many", editor.text(uri), f"text of {uri}")
    editor.close(uris[0])
    editor.close(uris[-1])
    editor.open(uris[-1], "in its place")
    check("in its place", editor.text(uris[-1]), "in its place")
    for uri in uris[1:]:
        editor.close(uri)


def rename(editor: Editor) -> None:
    """A word becomes another one in all files where it stands, which is one step of undo in all of them."""
    flats = {uri: Flat(text) for uri, (text, _) in RENAMED.items()}
    for uri, flat in flats.items():
        editor.open(uri, flat.text())
        editor.change(uri, 5, [{"range": range_(0, 0, 0, 0), "text": " "}])
        flat.change([{"range": range_(0, 0, 0, 0), "text": " "}])
    document, at = {"uri": "file:///a.c"}, place(0, 9)
    prepared = editor.ask("textDocument/prepareRename", textDocument=document, position=at)
    check_same("the word", prepared, {"range": range_(0, 7, 0, 10), "placeholder": "old"})
    check("no word", editor.ask("textDocument/prepareRename", textDocument=document, position=place(0, 18)), None)
    asked = {"textDocument": document, "position": at}
    refused = editor.reply("textDocument/rename", textDocument=document, position=place(0, 18), newName="new")
    check("no word to rename", refused["error"]["code"], REQUEST_FAILED)
    check("no name", editor.reply("textDocument/rename", newName="n w", **asked)["error"]["code"], INVALID_PARAMS)
    offered = editor.ask("textDocument/rename", newName="brand_new", **asked)["documentChanges"]
    told = [(*of["textDocument"].values(), len(of["edits"])) for of in offered]
    check_same("files to change", told, [(uri, 5, count) for uri, (_, count) in RENAMED.items() if count])
    for uri, flat in flats.items():
        check_same("not renamed yet", editor.text(uri), flat.text())
    before = {uri: flat.text() for uri, flat in flats.items()}
    carry_out(editor, flats, offered)
    check("renamed", flats["file:///a.c"].text(), " int 😀brand_new, older; // brand_new\n(brand_new)")
    undo_renamed(editor, flats, before)


def carry_out(editor: Editor, flats: dict[str, Flat], offered: list[Json]) -> None:
    """As editors do: one file after the other, by a message for each edit, by one for all, or by one with the whole text."""
    for number, of in enumerate(offered):
        uri = of["textDocument"]["uri"]
        changes = [{"range": edit["range"], "text": edit["newText"]} for edit in reversed(of["edits"])]
        renamed = Flat(flats[uri].text())
        renamed.change(changes)
        messages = [[], *([change] for change in changes)], [changes], [[{"text": renamed.text()}]]
        for version, message in enumerate(messages[number], 6):
            editor.change(uri, version, message)
            flats[uri].change(message)
            check_same(f"renamed in {uri}", editor.text(uri), flats[uri].text())


def undo_renamed(editor: Editor, flats: dict[str, Flat], before: dict[str, str]) -> None:
    """One undo in one of the files takes the rename back in all; one more, what was typed in that file before."""
    editor.ask("lodvark/undo", textDocument={"uri": "file:///b.py"})
    for uri, text in before.items():
        check_same(f"undone in {uri}", editor.text(uri), text)
    editor.ask("lodvark/undo", textDocument={"uri": "file:///b.py"})
    check("typed before", editor.text("file:///b.py"), RENAMED["file:///b.py"][0])
    check_same("and nowhere else", editor.text("file:///a.c"), before["file:///a.c"])
    for uri in flats:
        editor.close(uri)


def rename_in_part(editor: Editor) -> None:
    """An editor that carries a rename out in one file alone, and then types: the texts are right, and the steps its own."""
    uris = ["file:///one.txt", "file:///two.txt"]
    for uri in uris:
        editor.open(uri, "old")
    asked = {"textDocument": {"uri": uris[0]}, "position": place(0, 0)}
    editor.ask("textDocument/rename", newName="new", **asked)
    editor.change(uris[0], 2, [{"range": range_(0, 0, 0, 3), "text": "new"}])
    editor.change(uris[1], 2, [{"range": range_(0, 3, 0, 3), "text": "er"}])
    editor.change(uris[1], 3, [{"range": range_(0, 0, 0, 3), "text": "new"}])
    check("in part", [editor.text(uri) for uri in uris], ["new", "newer"])
    editor.ask("lodvark/undo", textDocument={"uri": uris[1]})
    check("undone alone", [editor.text(uri) for uri in uris], ["new", "older"])
    for uri in uris:
        editor.close(uri)


def fold_much() -> None:
    """The folds of 1 MB with very many brackets all come. How long that took is told, and not judged."""
    editor = Editor(random.Random(SEED), (1 << 20,))
    editor.start()
    editor.open("file:///many.txt", MANY_BRACKETS)
    editor.text("file:///many.txt")
    passed, used = time_to_fold(editor, "file:///many.txt")
    print(f"folds of 220,000 brackets, just opened: {passed:.2f} s, {used:.2f} s of a processor")
    times = []
    for version in range(2, 7):
        editor.change("file:///many.txt", version, [{"range": range_(0, 0, 0, 0), "text": " "}])
        editor.text("file:///many.txt")
        times.append(time_to_fold(editor, "file:///many.txt"))
    passed, used = map(min, zip(*times))
    print(f"folds of 220,000 brackets, after an edit: {passed:.2f} s, {used:.2f} s of a processor")
    check("status", editor.end(), 0)


def time_to_fold(editor: Editor, uri: str) -> tuple[float, float]:
    """The seconds until all folds have come, and those of the server; that they are read as JSON is left out."""
    begun, used = time.monotonic(), seconds_of(editor.server.pid)
    editor.send({"id": 0, "method": "textDocument/foldingRange", "params": {"textDocument": {"uri": uri}}})
    data = bytearray()
    while not data.endswith(b"]}"):
        data += os.read(editor.server.stdout.fileno(), 1 << 20)
    times = time.monotonic() - begun, seconds_of(editor.server.pid) - used
    editor.come.extend(json.loads(body) for body in editor.frames.feed(bytes(data)))
    folds = editor.response(0)["result"]
    check_same("folds of much", (len(folds), folds[-1]), (110_000, dict(zip(FOLD, (219_998, 3, 219_999, 0)))))
    return times


def seconds_of(process: int) -> float:
    """The seconds that a process has used of its processor."""
    user, system = Path(f"/proc/{process}/stat").read_text().rpartition(")")[2].split()[11:13]
    return (int(user) + int(system)) / os.sysconf("SC_CLK_TCK")


def cancel(editor: Editor) -> None:
    """Of two requests that come at once the second one is cancelled before it is taken. What is unknown may be cancelled too."""
    uri = "file:///cancel.txt"
    editor.open(uri, "(\n)")
    params = {"textDocument": {"uri": uri}}
    asked = [{"id": id_, "method": "textDocument/foldingRange", "params": params} for id_ in ("first", "second", 3)]
    cancelled = [{"method": "$/cancelRequest", "params": {"id": id_}} for id_ in ("second", "never asked", 1, None, [])]
    messages = [{"jsonrpc": "2.0", **message} for message in asked + cancelled]
    editor.server.stdin.write(b"".join(map(frame, messages)))  # less than a pipe takes at once, so that they come together
    check("the first", len(editor.response("first")["result"]), 1)
    check("the second", editor.response("second")["error"]["code"], REQUEST_CANCELLED)
    check("the third", len(editor.response(3)["result"]), 1)
    editor.note("$/cancelRequest", id="first")
    check("an id anew", len(editor.reply("textDocument/foldingRange", **params)["result"]), 1)
    editor.close(uri)


def read_slowly() -> None:
    """An editor that writes very much before it reads anything: the server takes it all, and answers each request in the end."""
    editor = Editor(random.Random(SEED), (1 << 20,))
    editor.start()
    uri, count = "file:///slow.txt", 3000
    editor.open(uri, MANY_BRACKETS)
    editor.text(uri)
    params = {"textDocument": {"uri": uri}}
    asked = [{"jsonrpc": "2.0", "id": id_, "method": "textDocument/foldingRange", "params": params} for id_ in range(count)]
    change = {"textDocument": {"uri": uri, "version": 2}, "contentChanges": [{"text": "(the newest"}]}
    changed = {"jsonrpc": "2.0", "method": "textDocument/didChange", "params": change}
    write_unread(editor, b"".join(map(frame, [*asked, changed])))
    answers = [editor.response(id_) for id_ in range(count)]
    codes = {answer["error"]["code"] for answer in answers if "error" in answer}
    check("answers before the pipe was full, and errors behind that", ("result" in answers[0], codes), (True, {REQUEST_FAILED}))
    check("the newest text", editor.text(uri), "(the newest")
    check("its diagnostics", len(editor.await_diagnostics(uri, 2)), 1)
    check("status", editor.end(), 0)


def write_unread(editor: Editor, data: bytes) -> None:
    """Writes all of it, and reads nothing meanwhile."""
    into = editor.server.stdin.fileno()
    os.set_blocking(into, False)
    while data:
        if not select.select([], [into], [], SECONDS)[1]:
            raise SystemExit(f"lsp: the server read nothing for {SECONDS} s")
        data = data[os.write(into, data) :]
    os.set_blocking(into, True)


def agree_on_encodings(chance: random.Random) -> None:
    """The first encoding of the editor's that the server knows, or else UTF-16."""
    for wanted, encoding in ((["utf-7", "utf-8", "utf-16"], "utf-8"), (["utf-32", "utf-16"], "utf-32"), (["utf-7"], "utf-16")):
        editor = Editor(chance)
        check("positions", editor.start(general={"positionEncodings": wanted})["positionEncoding"], encoding)
        editor.open("file:///é.txt", "é😀(\n)")
        told = editor.ask("textDocument/foldingRange", textDocument={"uri": "file:///é.txt"})
        wanted_at = {"utf-8": 7, "utf-16": 4, "utf-32": 3}[encoding]
        check("a character", told[0]["startCharacter"], wanted_at)
        edit_at_random(editor, chance, encoding, CHANGES // 3)
        check("status", editor.end(), 0)


def refuse(editor: Editor) -> None:
    """Requests that are answered by an error; the server goes on after each."""
    check("no JSON", sent_raw(editor, b"{", None), PARSE_ERROR)
    check("deep", sent_raw(editor, b"[" * 100_000, None), PARSE_ERROR)
    check("no request", sent_raw(editor, b"[1]", None), INVALID_REQUEST)
    check("too early", editor.reply("textDocument/foldingRange")["error"]["code"], SERVER_NOT_INITIALIZED)
    capabilities = editor.start(workspace={"workspaceEdit": {"documentChanges": True}})
    check("positions", (capabilities["positionEncoding"], capabilities["textDocumentSync"]["change"]), ("utf-16", 2))
    check("a second time", editor.reply("initialize", capabilities={})["error"]["code"], INVALID_REQUEST)
    for unknown in ("textDocument/hover", "$/unknown", "$/cancelRequest"):
        check("unknown", editor.reply(unknown)["error"]["code"], METHOD_NOT_FOUND)
    check("no position", editor.reply("textDocument/selectionRange", position=[])["error"]["code"], INVALID_PARAMS)
    for unknown in ("$/unknown", "$/setTrace", "textDocument/didSave", "unknown"):
        editor.note(unknown, textDocument={})
    editor.send({"id": 77, "result": None})


def sent_raw(editor: Editor, body: bytes, id_: Json) -> int:
    head = b"content-length: %d\r\nContent-Type: application/vscode-jsonrpc; charset=utf-8\r\n\r\n" % len(body)
    editor.send_bytes(head + body)
    return editor.response(id_)["error"]["code"]


def end_early() -> None:
    """How the server ends where its editor does not say it properly, and where it says all at once and reads nothing."""
    all_said = [{"id": 1, "method": "initialize", "params": {"capabilities": {}}}, {"id": 2, "method": "shutdown"}]
    all_said.append({"method": "exit"})
    lasts = {
        "exit alone": (frame({"jsonrpc": "2.0", "method": "exit"}), 1),
        "nothing": (b"", 1),
        "no head": (b"hello\r\n\r\n", 1),
        "all at once": (b"".join(frame({"jsonrpc": "2.0", **message}) for message in all_said), 0),
    }
    for name, (last, status) in lasts.items():
        words = [str(HERE / "lsp_server.py")]
        ran = subprocess.run(words, input=last, stdout=subprocess.PIPE, stderr=subprocess.DEVNULL, timeout=SECONDS, check=False)
        check(name, ran.returncode, status)


def ask_as_a_plain_editor() -> None:
    """An editor that folds whole lines, and few of them, and that knows no versions of documents in an edit."""
    editor = Editor(random.Random(SEED))
    folding = {"lineFoldingOnly": True, "rangeLimit": 2}
    check("renames", editor.start(textDocument={"foldingRange": folding})["renameProvider"], True)
    editor.open("file:///folds.txt", "[(\n)]\n{\n\n}\n(\n1\n2\n)\n(\n\n)")
    told = editor.ask("textDocument/foldingRange", textDocument={"uri": "file:///folds.txt"})
    check_same("folds of lines", told, [{"startLine": 2, "endLine": 3}, {"startLine": 5, "endLine": 7}])
    editor.open("file:///plain.txt", "a b a")
    told = editor.ask("textDocument/rename", textDocument={"uri": "file:///plain.txt"}, position=place(0, 0), newName="c")
    wanted = [{"range": range_(0, at, 0, at + 1), "newText": "c"} for at in (0, 4)]
    check_same("plain changes", told, {"changes": {"file:///plain.txt": wanted}})
    check("status", editor.end(), 0)


def main() -> None:
    if len(sys.argv) != 2:
        raise SystemExit(__doc__)
    events = json.loads(Path(sys.argv[1]).read_text(encoding="utf-8"))
    chance = random.Random(SEED)
    undo_all(events)
    editor = Editor(chance)
    refuse(editor)
    replay(events, editor)
    editor.close(events[0]["params"]["textDocument"]["uri"])
    ask_of_brackets(editor)
    open_what_is_odd(editor)
    edit_at_random(editor, chance, "utf-16", CHANGES)
    hide_by_language(editor)
    open_many(editor)
    rename(editor)
    rename_in_part(editor)
    cancel(editor)
    check("status", editor.end(), 0)
    ask_as_a_plain_editor()
    agree_on_encodings(chance)
    fold_much()
    read_slowly()
    end_early()


if __name__ == "__main__":
    main()
