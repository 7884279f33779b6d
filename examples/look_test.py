#!/usr/bin/env -S python3 -B
"""Tests the page that shows a file: its questions over HTTP, what it refuses, and the page in Chromium, where that is installed.

examples/look_test.py [--picture FILE]     with a picture of the page in the end
"""
import argparse
import base64
import http.client
import json
import os
import select
import shutil
import socket
import subprocess
import sys
import tempfile
from collections.abc import Callable
from pathlib import Path
from time import monotonic, sleep
from typing import Any

HERE = Path(__file__).resolve().parent
FILE = "turns.c"
TEXT = """/* What stands in a comment or a string is no bracket: ( [ { */
static int turns(const struct board *board, int turn[static 4]) {
    int count = 0;
    for (int at = 0; at < board->size; at++) {
        if (is_free(board, at) && (turn[at % 4] > 0 || board->rule[(at)])) {
            count += turn[at % 4]; // one more :-)
        }
    }
    log(board, ":-( %d turns", count);
    return count;
}

static void show(const struct board *board) {
    printf("[%d] %s\\n", turns(board, (int[]){ 1, 2, 3, 4 }), name(board);
}
"""
SECONDS = 60.0
WIDTH, HEIGHT = 1200, 700
Json = Any


def check(what: str, came: object, wanted: object) -> None:
    if came != wanted:
        raise SystemExit(f"look: {what}: {came!r}, and wanted {wanted!r}")


class Page:
    """The page of a file, as a program of its own serves it."""

    def __init__(self, path: Path) -> None:
        self.process = subprocess.Popen([sys.executable, "-B", HERE / "look.py", path], stdout=subprocess.PIPE, text=True)
        ready, _, _ = select.select([self.process.stdout], [], [], SECONDS)
        self.url = self.process.stdout.readline().strip() if ready else ""
        self.host = self.url.removeprefix("http://").removesuffix("/")

    def __enter__(self) -> "Page":
        return self

    def __exit__(self, *_: object) -> None:
        self.process.terminate()
        self.process.wait(SECONDS)

    def request(self, way: str, path: str, body: str | None = None, **headers: str) -> tuple[int, str]:
        """The status and the text of an answer. A header with `_` in its name is one with `-`."""
        wire = http.client.HTTPConnection(self.host, timeout=SECONDS)
        wire.request(way, path, body, {name.replace("_", "-"): value for name, value in headers.items()})
        answer = wire.getresponse()
        text = answer.read().decode()
        wire.close()
        return answer.status, text

    def ask(self, do: str, **question: Json) -> Json:
        status, text = self.request("POST", "/ask", json.dumps({"do": do, **question}), Content_Type="application/json")
        check(f"status of {do}", status, 200)
        return json.loads(text)

    def edit(self, start: int, end: int, text: str, **others: Json) -> Json:
        return self.ask("edit", version=self.ask("view")["version"], start=start, end=end, text=text, **others)


def ask_questions(page: Page) -> None:
    """Edits, undo, brackets, decorations and search, over HTTP."""
    told = page.ask("view")
    check("the text", told["text"], TEXT)
    levels = {TEXT[start:end] + str(start): (level, alone) for start, end, level, alone in told["brackets"]}
    opened = TEXT.index("(const")
    check("a bracket of the text", levels[f"({opened}"], (0, False))
    check("one inside another", levels[f"[{TEXT.index('[static')}"], (1, False))
    alone = TEXT.index('("[%d]')
    check("one that nothing closes", levels[f"({alone}"], (1, True))
    hidden = [TEXT[start:end] for start, end in told["hidden"]]
    check("what comments and strings hide", "".join(hidden), "([{)([]")

    told = page.ask("decorate", add=[[opened, opened + 6, 1]], clear=False)
    check("a decoration", told["decorations"], [[1, opened, opened + 6, 1]])
    told = page.edit(0, 0, "😀\n")
    check("it moves", told["decorations"], [[1, opened + 3, opened + 9, 1]])
    check("after an edit", (told["version"], told["canUndo"], told["units"]), (2, True, len(TEXT) + 3))
    told = page.edit(told["units"], told["units"], "}", stop=True)
    check("the last one is alone", told["brackets"][-1][2:], [0, True])
    told = page.ask("undo")
    check("after an undo", (told["text"] == f"😀\n{TEXT}", told["alternative"], told["select"]), (True, 2, [len(TEXT) + 3] * 2))
    told = page.ask("redo")
    check("after a redo", (told["version"], told["alternative"], told["canRedo"]), (5, 3, False))
    check("versions", [it["changes"] for it in told["versions"]][1:3], [[[0, 0, "😀\n"]], [[len(TEXT) + 3, len(TEXT) + 3, "}"]]])

    sought = TEXT.index("board")
    told = page.ask("next", sought="board", **{"from": 0})
    check("the first one found", (told["select"], len(told["found"])), ([sought + 3, sought + 8], TEXT.count("board")))
    told = page.ask("next", sought="board", back=True, **{"from": 0})
    check("before it the last one", told["select"], [TEXT.rindex("board") + 3, TEXT.rindex("board") + 8])
    told = page.ask("place", at=TEXT.index("{\n    int") + 3)
    closing = TEXT.index("}\n\nstatic") + 3
    check("the partner of a bracket", (told["line"], told["level"], told["partner"]), (3, 0, [closing, closing + 1]))
    page.ask("decorate", add=[], clear=True)
    page.ask("undo"), page.ask("undo")
    check("all undone", page.ask("view")["text"], TEXT)


def refuse(page: Page) -> None:
    """What is not for the page, and what is nonsense."""
    json_kind, view, name = {"Content_Type": "application/json"}, '{"do":"view"}', page.host.replace("127.0.0.1", "localhost")
    check("the page", [page.request("GET", "/")[0], page.request("GET", "/", Host=name)[0]], [200, 200])
    for path in ("/ask", "/look.py", "/../look.py", "/?x", f"http://{page.host}/"):
        check(f"path {path}", page.request("GET", path)[0], 404)
    for host in ("evil.example", f"evil.example:{page.host.split(':')[1]}", "127.0.0.1", "127.0.0.1:1", ""):
        check(f"host {host}", page.request("GET", "/", Host=host)[0], 403)
        check(f"a question to host {host}", page.request("POST", "/ask", view, Host=host, **json_kind)[0], 403)
    for origin in ("http://evil.example", "null", f"https://{page.host}", f"http://{name}", ""):
        check(f"origin {origin}", page.request("POST", "/ask", view, Origin=origin, **json_kind)[0], 403)
    check("its own origin", page.request("POST", "/ask", view, Origin=f"http://{page.host}", **json_kind)[0], 200)
    check("a form", page.request("POST", "/ask", view, Content_Type="text/plain")[0], 400)
    check("too long", page.request("POST", "/ask", "", Content_Length=str(1 << 30), **json_kind)[0], 400)
    check("another way", page.request("PUT", "/")[0], 501)
    with socket.socket() as wire:
        check("another address", wire.connect_ex(("127.0.0.2", int(page.host.split(":")[1]))) != 0, True)
    before = page.ask("view")
    nonsense = ['{"do":"line"}', '{"do":"edit"}', '{"do":"place","at":-1}', '{"do":"next","sought":"","from":0}']
    for body in ("", "1", "[]", "{}", "[" * 100_000, *nonsense):
        check(f"question {body[:40]}", page.request("POST", "/ask", body, **json_kind)[0], 400)
    stale = page.ask("edit", version=before["version"] + 1, start=0, end=0, text="x")
    check("an edit of another version", (stale["stale"], stale["text"]), (True, before["text"]))


class Browser:
    """Chromium without a window, which is told what to do through pipes, by messages of JSON that end with a zero byte."""

    def __init__(self, program: str, folder: str) -> None:
        (their_in, self.into), (self.out, their_out) = os.pipe(), os.pipe()
        self.number, self.unread, self.session = 0, b"", None
        words = [
            program, "--headless=new", "--remote-debugging-pipe", f"--user-data-dir={folder}", "--disable-gpu", "--no-first-run",
            "--disable-dev-shm-usage", "--hide-scrollbars", *(["--no-sandbox"] if os.geteuid() == 0 else []),
        ]  # fmt: skip
        # The two ends are to have the numbers 3 and 4 there.
        shell = ["sh", "-c", f'exec "$@" 3<&{their_in} 4>&{their_out}', "sh", *words]
        quiet = {"stdout": subprocess.DEVNULL, "stderr": subprocess.DEVNULL}
        self.process = subprocess.Popen(shell, pass_fds=[their_in, their_out], **quiet)
        os.close(their_in), os.close(their_out)

    def __enter__(self) -> "Browser":
        return self

    def __exit__(self, *_: object) -> None:
        self.process.terminate()
        self.process.wait(SECONDS)

    def open(self, url: str) -> None:
        target = self.call("Target.createTarget", url="about:blank")["targetId"]
        self.session = self.call("Target.attachToTarget", targetId=target, flatten=True)["sessionId"]
        self.call("Emulation.setDeviceMetricsOverride", width=WIDTH, height=HEIGHT, deviceScaleFactor=1, mobile=False)
        self.call("Page.navigate", url=url)

    def call(self, method: str, **params: Json) -> Json:
        self.number += 1
        message = {"id": self.number, "method": method, "params": params} | ({"sessionId": self.session} if self.session else {})
        os.write(self.into, json.dumps(message).encode() + b"\0")
        while (told := self.read()).get("id") != self.number:
            pass
        if "error" in told:
            raise SystemExit(f"look: {method}: {told['error']}")
        return told["result"]

    def read(self) -> Json:
        while b"\0" not in self.unread:
            ready, _, _ = select.select([self.out], [], [], SECONDS)
            data = os.read(self.out, 1 << 16) if ready else b""
            if not data:
                raise SystemExit("look: Chromium does not answer")
            self.unread += data
        message, _, self.unread = self.unread.partition(b"\0")
        return json.loads(message)

    def value(self, script: str) -> Json:
        return self.call("Runtime.evaluate", expression=script, returnByValue=True)["result"].get("value")

    def wait(self, what: str, script: str, is_right: Callable[[Json], bool]) -> None:
        end = monotonic() + SECONDS
        while not is_right(came := self.value(script)):
            if monotonic() > end:
                raise SystemExit(f"look: {what}: {came!r} in Chromium")
            sleep(0.05)


def texts_of(name: str) -> str:
    """A script that tells the texts of the pieces of this class."""
    return f'[...document.querySelectorAll("#shown .{name}")].map((it) => it.textContent)'


def look_at(browser: Browser, page: Page, picture: Path | None) -> None:
    """Types, undoes, decorates and looks for something in the page, as one does who looks at it."""
    browser.open(page.url)
    browser.wait("the text", "document.querySelector('#shown')?.textContent", lambda it: it == f"{TEXT}\n")
    check("hidden brackets", browser.value(texts_of("hidden")), [*"([{)([]"])
    check("the one alone", browser.value(texts_of("alone")), ["("])
    start = TEXT.index("count = 0")
    browser.value(f"typed.focus(), typed.setSelectionRange({start}, {start + 5}), at.mark.click()")
    browser.wait("a decoration", texts_of("deco"), lambda it: it == ["count"])
    browser.value("typed.setSelectionRange(0, 0)")
    for part in ("// 😀", "{\n"):
        browser.call("Input.insertText", text=part)
    typed = f"// 😀{{\n{TEXT}"
    browser.wait("typed text", "document.querySelector('#shown').textContent", lambda it: it == f"{typed}\n")
    check("the decoration moved", browser.value(texts_of("deco")), ["count"])
    check("the model has it", page.ask("view")["text"], typed)
    browser.value('typed.setRangeText("😁", 3, 5), typed.oninput()')
    browser.wait("half of a pair is the same", "now.text", lambda it: it == typed.replace("😀", "😁"))
    changes = [change for it in page.ask("view")["versions"] for change in it["changes"]]
    check("edits that change nothing", [[start, end] for start, end, text in changes if start == end and not text], [])
    while page.ask("view")["canUndo"]:
        browser.value("at.undo.click()")
        browser.wait("undone", "waiting", lambda it: it == 0)
    browser.wait("all undone", "document.querySelector('#shown').textContent", lambda it: it == f"{TEXT}\n")
    close = TEXT.index("name(board)") + len("name(board)")
    browser.value(f"typed.focus(), typed.setSelectionRange({close}, {close})")
    browser.call("Input.insertText", text=")")
    browser.wait("the bracket that was missing", texts_of("alone"), lambda it: it == [])
    browser.value("at.undo.click()")
    browser.wait("without it", texts_of("alone"), lambda it: it == ["("])
    browser.value('at.sought.value = "board", at.sought.oninput(), typed.setSelectionRange(0, 0), at.next.click()')
    browser.wait("found", texts_of("found"), lambda it: it == ["board"] * TEXT.count("board"))
    found = TEXT.index("board")
    browser.wait("the first one", "[typed.selectionStart, typed.selectionEnd]", lambda it: it == [found, found + 5])
    if picture:
        data = browser.call("Page.captureScreenshot", format="png")["data"]
        picture.write_bytes(base64.b64decode(data))


def main() -> None:
    words = argparse.ArgumentParser(description=__doc__.splitlines()[0])
    words.add_argument("--picture", type=Path, help="where a picture of the page is written")
    given = words.parse_args()
    chromium = shutil.which("chromium") or shutil.which("chromium-browser")
    with tempfile.TemporaryDirectory(ignore_cleanup_errors=True) as folder:
        path = Path(folder) / FILE
        path.write_text(TEXT)
        with Page(path) as page:
            ask_questions(page)
            refuse(page)
        if not chromium:
            print("look: there is no chromium, and the page was not opened in it")
            return
        with Page(path) as page, Browser(chromium, f"{folder}/chromium") as browser:
            look_at(browser, page, given.picture)
        check("the file", path.read_text(), TEXT)


if __name__ == "__main__":
    main()
