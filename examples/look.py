#!/usr/bin/env -S python3 -B
"""Shows a file as the text model sees it, in a browser: brackets by their levels, decorations that move with the text, versions.

examples/look.py FILE [--port N]     prints the address of the page; Ctrl-C ends it

The file is read once, its line endings converted to LF, and never written. Only this page is served, on the loopback address, to
programs of this machine: requests for another path, or from another page or host name, are refused.
"""
import argparse
import json
import sys
from collections import deque
from collections.abc import Callable
from contextlib import suppress
from http import HTTPStatus
from http.server import BaseHTTPRequestHandler, ThreadingHTTPServer
from itertools import accumulate
from pathlib import Path
from threading import Lock
from typing import Any

sys.path.append(str(Path(__file__).resolve().parent.parent / "python"))

from textmodel import BracketState, Document, Span, TextModelError, units  # noqa: E402

LOOPBACK = "127.0.0.1"
LANGUAGES = {".c": "c", ".h": "c", ".py": "python", ".rs": "rust", ".js": "javascript", ".ts": "javascript", ".sh": "shell"}
BRACKETS = "()[]{}"
OWNER = 1  # of the decorations
MOST_BYTES = 1 << 20  # of a file, and of a question
MOST_FOUND, MOST_VERSIONS, MOST_CHANGES, MOST_SHOWN = 1000, 60, 4, 30
SECONDS = 20.0  # for which one request may take
Question = dict[str, Any]
NONSENSE = (LookupError, TypeError, ValueError, RecursionError, TextModelError)
POLICY = "default-src 'none'; style-src 'unsafe-inline'; script-src 'unsafe-inline'; connect-src 'self'; frame-ancestors 'none'"
HEADERS = {"Cache-Control": "no-store", "Content-Security-Policy": POLICY, "X-Content-Type-Options": "nosniff"}


class Look:
    """The document of a file, and what the page asks of it."""

    def __init__(self, name: str, data: bytes, language: str | None) -> None:
        self.document = Document(data, language, ending="lf")
        self.name, self.language = name, language
        self.lock = Lock()
        self.versions: deque[dict[str, Any]] = deque(maxlen=MOST_VERSIONS)
        self.note()

    def ask(self, question: Question) -> dict[str, Any]:
        """Does what the page wants, and tells what is there then. It raises one of `NONSENSE` where it cannot be done."""
        actions: dict[str, Callable[[Question], dict[str, Any]]] = {
            "view": lambda _: {}, "edit": self.edit, "undo": lambda _: self.go(self.document.undo), "next": self.next,
            "redo": lambda _: self.go(self.document.redo), "decorate": self.decorate, "place": self.place,
        }  # fmt: skip
        action = actions[question["do"]]
        with self.lock:
            told = action(question)
            self.note()
            return told if question["do"] == "place" else self.view(question.get("sought", "")) | told

    def note(self) -> None:
        """Keeps what the last change did, where there was one."""
        document = self.document
        if not self.versions or self.versions[-1]["version"] != document.version:
            changes = [[it.start, it.end, it.text[:MOST_SHOWN]] for it in document.changes()[:MOST_CHANGES]]
            self.versions.append({"version": document.version, "alternative": document.alternative, "changes": changes})

    def view(self, sought: str) -> dict[str, Any]:
        document, text = self.document, self.document.text
        told, brackets = document.decorations(0, len(document), OWNER), self.brackets(text)
        return {
            "name": self.name, "language": self.language, "text": text, "units": len(document), "lines": document.line_count,
            "version": document.version, "alternative": document.alternative, "versions": [*self.versions],
            "canUndo": document.can_undo, "canRedo": document.can_redo, "brackets": brackets,
            "hidden": self.hidden({start for start, *_ in brackets}),
            "decorations": [[it.id, it.start, it.end, it.stick] for it in told],
            "found": document.find(sought, most=MOST_FOUND) if sought else [],
        }  # fmt: skip

    def brackets(self, text: str) -> list[list[Any]]:
        """Where each bracket starts and ends, its level, and whether it stands alone."""
        starts = [0, *accumulate(units(line) + 1 for line in text.split("\n"))]
        alone = (BracketState.UNCLOSED, BracketState.UNEXPECTED)
        found = self.document.brackets(1, self.document.line_count)
        places = ((starts[it.line - 1] + it.column - 1, it) for it in found)
        return [[at, at + it.length, it.level, it.state in alone] for at, it in places]

    def hidden(self, told: set[int]) -> list[Span]:
        """The brackets of the text that are none to the model, since they stand in comments or strings, or 300 are open."""
        found = (span for bracket in BRACKETS for span in self.document.find(bracket))
        return sorted(span for span in found if span.start not in told)

    def edit(self, question: Question) -> dict[str, Any]:
        if question["version"] != self.document.version:
            return {"stale": True}
        if question.get("stop"):
            self.document.stop()
        self.document.edit(question["start"], question["end"], question["text"])
        return {}

    def go(self, way: Callable[[], bool]) -> dict[str, Any]:
        """Undo or redo. What comes behind the change is where the cursor is to stand."""
        if not way():
            return {}
        (*_, last) = self.document.changes()
        return {"select": [last.start + units(last.text)] * 2}

    def decorate(self, question: Question) -> dict[str, Any]:
        """Adds decorations, each a start, an end and a number of `Stick`; those of before are taken out where that is wanted."""
        old = self.document.decorations(0, len(self.document), OWNER) if question["clear"] else []
        self.document.decorate(OWNER, question["add"], remove=[it.id for it in old])
        return {}

    def next(self, question: Question) -> dict[str, Any]:
        """The next place of the sought text behind an offset, or before it; where there is none, from the other end on."""
        sought, back = question["sought"], question.get("back", False)
        found = self.document.find(sought, question["from"], back, 1) or self.document.find(sought, back=back, most=1)
        return {"select": found[0] if found else None}

    def place(self, question: Question) -> dict[str, Any]:
        """The line, column and level of an offset, and where the partner is of the bracket that starts there."""
        document, (line, column) = self.document, self.document.position(question["at"])
        partner, level = document.match(line, column), document.level(line, column)
        start = document.offset(*partner.position) if partner else 0
        span = [start, start + partner.length] if partner else None
        return {"line": line, "column": column, "level": level, "partner": span}


class Handler(BaseHTTPRequestHandler):
    """Answers the page at `/`, and its questions at `/ask`."""

    look: Look
    server_version, sys_version, timeout = "look", "", SECONDS

    def do_GET(self) -> None:
        if self.is_right("/"):
            self.answer(HTTPStatus.OK, "text/html; charset=utf-8", PAGE.encode())

    def do_POST(self) -> None:
        length = self.headers.get("Content-Length", "")
        is_short = length.isascii() and length.isdecimal() and len(length) < 8 and int(length) <= MOST_BYTES
        if self.is_right("/ask"):
            if is_short and self.headers.get("Content-Type") == "application/json":
                self.answer_question(self.rfile.read(int(length)))
            else:
                self.refuse(HTTPStatus.BAD_REQUEST)

    def is_right(self, path: str) -> bool:
        """Whether this path was asked for, of this address by its name, by its own page or by none; else that is refused."""
        hosts = {f"{name}:{self.connection.getsockname()[1]}" for name in (LOOPBACK, "localhost")}
        asked: list[str] = self.headers.get_all("Host", [])
        origins: list[str] = self.headers.get_all("Origin", [])
        is_own = len(asked) == 1 and asked[0] in hosts and all(it == f"http://{asked[0]}" for it in origins)
        if not is_own or self.path != path:
            self.refuse(HTTPStatus.NOT_FOUND if is_own else HTTPStatus.FORBIDDEN)
        return is_own and self.path == path

    def answer_question(self, body: bytes) -> None:
        try:
            status, told = HTTPStatus.OK, self.look.ask(json.loads(body))
        except NONSENSE as error:
            status, told = HTTPStatus.BAD_REQUEST, {"error": f"{type(error).__name__}: {error}"}
        self.answer(status, "application/json", json.dumps(told).encode())

    def refuse(self, status: HTTPStatus) -> None:
        self.answer(status, "text/plain; charset=utf-8", status.phrase.encode())

    def answer(self, status: HTTPStatus, kind: str, body: bytes) -> None:
        self.send_response(status)
        for name, value in {"Content-Type": kind, "Content-Length": str(len(body)), **HEADERS}.items():
            self.send_header(name, value)
        self.end_headers()
        self.wfile.write(body)

    def log_message(self, *_: Any) -> None:
        """Nothing is told of requests."""


PAGE = """<!doctype html>
<html lang="en"><meta charset="utf-8"><title>Lodvark: look</title>
<style>
* { box-sizing: border-box }
body { margin: 0; height: 100vh; display: flex; flex-direction: column; font: 14px system-ui, sans-serif; background: #f6f8fa }
header { display: flex; gap: 6px; align-items: center; padding: 8px 12px; flex-wrap: wrap } header b { margin-right: auto }
input { width: 150px } button, select, input { font: inherit; padding: 2px 8px } footer { padding: 4px 12px; min-height: 27px }
main { flex: 1; display: flex; min-height: 0 } #edit { position: relative; flex: 1; background: #fff; border: 1px solid #d0d7de }
#shown, #typed { position: absolute; inset: 0; margin: 0; padding: 12px; font: 15px/1.5 "DejaVu Sans Mono", monospace; white-space: pre;
  tab-size: 4; overflow: auto; border: 0 } #shown { overflow: hidden }
#typed { background: none; color: transparent; caret-color: #000; resize: none; outline: none }
#typed::selection { background: #0969da33 } aside { width: 320px; overflow: auto; padding: 0 12px } h2 { font-size: 13px; margin: 12px 0 4px }
ol, ul { margin: 0; padding: 0 } li { font: 12px/1.6 monospace; list-style: none; white-space: pre } #versions li:first-child { color: #0969da }
.level0 { color: #0550ae } .level1 { color: #c44800 } .level2 { color: #1a7f37 } .level3 { color: #8250df } .level4 { color: #bf3989 }
.level5 { color: #6e5c00 } .alone { color: #fff; background: #cf222e } .hidden { color: #b6bec7 } .found { background: #ffd8a8 }
.deco { text-decoration: underline 2px #d4a72c; background: #fff8c5 } .partner { outline: 2px solid #0969da }
</style>
<header><b id="name"></b><button id="undo">Undo</button><button id="redo">Redo</button><select id="stick">
<option value="0">grows at both ends<option value="1" selected>grows at no end<option value="2">grows at its start
<option value="3">grows at its end</select><button id="mark">Decorate</button><button id="clear">Clear</button>
<input id="sought" placeholder="Find"><button id="back">Previous</button><button id="next">Next</button><span id="count"></span></header>
<main><div id="edit"><pre id="shown"></pre><textarea id="typed" spellcheck="false" autofocus></textarea></div>
<aside><h2>Decorations</h2><ul id="decorations"></ul><h2>Versions, the last first</h2><ol id="versions"></ol></aside></main>
<footer id="told"></footer>
<script>
"use strict";
const at = Object.fromEntries([...document.querySelectorAll("[id]")].map((it) => [it.id, it])), typed = at.typed;
let now = { text: "" }, sent = "", waiting = 0, last = 0, asked = Promise.resolve(), partner = null;

async function post(question) {
  const headers = { "Content-Type": "application/json" };
  const told = await (await fetch("/ask", { method: "POST", headers, body: JSON.stringify(question) })).json();
  if (told.error) throw new Error(told.error);
  return told;
}

// Questions go one after another. `make` tells the question when its turn comes; what is shown waits for the last one.
function ask(make) {
  waiting += 1;
  return (asked = asked.then(async () => {
    try {
      now = await post({ sought: at.sought.value, ...make() });
    } catch (error) {
      now = { ...(await post({ do: "view" })), stale: true };
    }
    waiting -= 1;
    if (now.stale || waiting === 0) show();
  }));
}

const isHigh = (text, i) => i >= 0 && i < text.length && (text.charCodeAt(i) & 0xfc00) === 0xd800;

// The edit that leads from one text to another; no pair of surrogates is cut.
function difference(old, text) {
  let start = 0, end = 0;
  const most = Math.min(old.length, text.length);
  while (start < most && old[start] === text[start]) start += 1;
  if (isHigh(old, start - 1)) start -= 1;
  while (end < most - start && old[old.length - 1 - end] === text[text.length - 1 - end]) end += 1;
  if (end && (isHigh(old, old.length - 1 - end) || isHigh(text, text.length - 1 - end))) end -= 1;
  return { start, end: old.length - end, text: text.slice(start, text.length - end) };
}

// What was typed on a text that has become another one meanwhile is dropped.
function typedSomething() {
  if (typed.value === sent) return;
  const on = sent, edit = difference(on, typed.value), stop = Date.now() - last > 1000;
  last = Date.now();
  sent = typed.value;
  ask(() => (now.text === on ? { do: "edit", version: now.version, stop, ...edit } : { do: "view" }));
}

function show() {
  if (typed.value !== now.text) {
    const ends = [typed.selectionStart, typed.selectionEnd];
    typed.value = now.text;
    typed.setSelectionRange(...ends);
  }
  sent = now.text;
  if (now.select) typed.setSelectionRange(...now.select);
  at.name.textContent = `${now.name}: ${now.units} units, ${now.lines} lines, version ${now.version}`;
  at.undo.disabled = !now.canUndo;
  at.redo.disabled = !now.canRedo;
  at.count.textContent = at.sought.value ? `${now.found.length} found` : "";
  const stick = (it) => at.stick.options[it].text;
  list(at.decorations, now.decorations.map(([id, start, end, it]) => `${id}: ${start} to ${end}, ${stick(it)}`));
  const changed = (it) => it.changes.map(([start, end, text]) => `${start}-${end} ${JSON.stringify(text)}`).join(" ");
  const same = (it) => (it.alternative < it.version ? ` = ${it.alternative}` : "");
  list(at.versions, now.versions.map((it) => `${it.version}${same(it)}  ${changed(it)}`).reverse());
  partner = null;
  draw();
  place();
}

const list = (into, rows) =>
  into.replaceChildren(...rows.map((row) => Object.assign(document.createElement("li"), { textContent: row })));

// The text in pieces, between the ends of all that is to be seen of it.
function draw() {
  const spans = [
    ...now.decorations.map(([, start, end]) => [start, end, ["deco"]]), ...now.found.map(([start, end]) => [start, end, ["found"]]),
    ...now.brackets.map(([start, end, level, alone]) => [start, end, alone ? ["alone"] : [`level${level % 6}`]]),
    ...now.hidden.map(([start, end]) => [start, end, ["hidden"]]), ...(partner ? [[...partner, ["partner"]]] : []),
  ];
  const cuts = new Map([[0, []], [now.text.length, []]]);
  for (const [start, end, names] of spans.filter(([start, end]) => start < end)) {
    for (const [place, count] of [[start, 1], [end, -1]]) cuts.set(place, [...(cuts.get(place) ?? []), [names, count]]);
  }
  const places = [...cuts.keys()].sort((one, other) => one - other), on = new Map();
  at.shown.replaceChildren(...places.map((start, index) => {
    for (const [names, count] of cuts.get(start)) for (const name of names) on.set(name, (on.get(name) ?? 0) + count);
    const piece = document.createElement("span");
    piece.textContent = now.text.slice(start, places[index + 1] ?? start);
    piece.className = [...on].filter(([, count]) => count > 0).map(([name]) => name).join(" ");
    return piece;
  }), "\\n");
}

// Where the cursor is, and the partner of a bracket there. While something else is asked for, that will show it.
async function place() {
  const told = waiting ? null : await post({ do: "place", at: typed.selectionStart }).catch(() => null);
  if (!told || waiting) return;
  at.told.textContent = `line ${told.line}, column ${told.column}, brackets open here: ${told.level}`;
  partner = told.partner;
  draw();
}

const find = (back) => at.sought.value
  && ask(() => ({ do: "next", back, from: back ? typed.selectionStart : typed.selectionEnd })).then(() => typed.focus());
const selected = () => [typed.selectionStart, typed.selectionEnd, Number(at.stick.value)];
typed.oninput = typedSomething;
typed.onscroll = () => { at.shown.scrollTop = typed.scrollTop; at.shown.scrollLeft = typed.scrollLeft; };
typed.onkeyup = typed.onclick = place;
typed.onkeydown = (event) => {
  const key = (event.ctrlKey || event.metaKey) && event.key.toLowerCase();
  if (key !== "z" && key !== "y") return;
  event.preventDefault();
  ask(() => ({ do: key === "y" || event.shiftKey ? "redo" : "undo" }));
};
for (const name of ["undo", "redo"]) at[name].onclick = () => ask(() => ({ do: name }));
at.mark.onclick = () => ask(() => ({ do: "decorate", add: [selected()], clear: false }));
at.clear.onclick = () => ask(() => ({ do: "decorate", add: [], clear: true }));
at.next.onclick = () => find(false);
at.back.onclick = () => find(true);
at.sought.oninput = () => ask(() => ({ do: "view" }));
at.sought.onkeydown = (event) => event.key === "Enter" && find(event.shiftKey);
ask(() => ({ do: "view" }));
</script></html>
"""


def main() -> None:
    words = argparse.ArgumentParser(description=__doc__.splitlines()[0])
    words.add_argument("file", type=Path, help="the file that is shown")
    words.add_argument("--port", type=int, default=0, help="the port, by default one that is free")
    given = words.parse_args()
    try:
        data = given.file.read_bytes()
        if len(data) > MOST_BYTES:
            sys.exit(f"look: {given.file} has {len(data)} bytes, and the page is for {MOST_BYTES} at most")
        Handler.look = Look(given.file.name, data, LANGUAGES.get(given.file.suffix))
    except (OSError, TextModelError) as error:
        sys.exit(f"look: {given.file}: {error}")
    with ThreadingHTTPServer((LOOPBACK, given.port), Handler) as server, suppress(KeyboardInterrupt):
        print(f"http://{LOOPBACK}:{server.server_address[1]}/", flush=True)
        server.serve_forever()


if __name__ == "__main__":
    main()
