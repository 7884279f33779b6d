#!/usr/bin/env -S python3 -B
"""A language server for brackets and words, over stdio: it shows the other bracket of a pair or other occurrences of a word, selects
and folds by brackets, reports unpaired ones, and renames a word in all open files. Brackets are `()`, `[]` and `{}`, except in
comments and strings of the languages that it knows by their `languageId`. All files are documents of one session of
python/textmodel.py in this process; at most 64 can be open.

neovim, in init.lua, and emacs with eglot, in init.el (for PATH put the folder of this repository):

    vim.api.nvim_create_autocmd({"BufReadPost", "BufNewFile"}, {callback = function()
      lodvark = lodvark or vim.lsp.start_client({name = "lodvark", cmd = {"PATH/examples/lsp_server.py"}})
      vim.lsp.buf_attach_client(0, lodvark) end})

    (with-eval-after-load 'eglot
      (add-to-list 'eglot-server-programs '(text-mode "PATH/examples/lsp_server.py"))
      (setq eglot-move-to-column-function (lambda (column) ; for eglot 1.9, which hangs without it
        (while (and (> column 0) (not (eolp)))
          (setq column (- column (if (> (char-after) #xffff) 2 1)))
          (unless (< column 0) (forward-char))))))
    (add-hook 'text-mode-hook 'eglot-ensure)

If a file's last line has no break, or a buffer was emptied, neovim 0.7 sends wrong changes at the end of the text;
`flags = {allow_incremental_sync = false}` beside `cmd` makes it send the whole text.

eglot 1.9 loops forever, and emacs with it, if a diagnostic has a column inside a surrogate pair. None has one in its own text, and
each is sent with the version of that text. But eglot 1.9 ignores versions, and shows diagnostics of an older text on a newer one.
The function above stops before such a pair; a newer eglot does not need it.

examples/lsp_server.py [--test]     with --test it also answers `lodvark/text` with its text of a file, and `lodvark/undo`,
                                    which undoes the last step of a file in the model only
"""
import gc
import json
import os
import select
import sys
import time
from collections import deque
from collections.abc import Callable, Iterator
from typing import Any

from lsp import ENCODINGS, WORD, File, Files, Lost, Range, Row, place_of, range_at
from textmodel import BracketState, Span

PARSE_ERROR = -32700
INVALID_REQUEST = -32600
METHOD_NOT_FOUND = -32601
INVALID_PARAMS = -32602
INTERNAL_ERROR = -32603
SERVER_NOT_INITIALIZED = -32002
REQUEST_FAILED = -32803
REQUEST_CANCELLED = -32800

# Diagnostics begin where so many seconds bring no message.
REST = 0.15
MOST_DIAGNOSTICS = 1000
AT_ONCE = 1 << 16
MOST_HEAD = 1 << 12
MOST_MESSAGES = 1000
MOST_UNREAD = 1 << 24
LAST_SECONDS = 2.0
INCREMENTAL = 2
WARNING = 2
ERROR = 1
TEXT = 1  # a highlight of any kind

Json = Any


class Fault(Exception):
    """A request that is answered by an error of JSON-RPC."""

    def __init__(self, code: int, message: str) -> None:
        super().__init__(message)
        self.code, self.message = code, message


class Written(str):
    """JSON that is written already."""


class Frames:
    """Cuts what comes into messages, in whatever pieces it comes."""

    def __init__(self) -> None:
        self.rest = bytearray()

    def feed(self, data: bytes) -> Iterator[bytes]:
        """The bodies of the messages that are whole now; ValueError where a head tells no length."""
        self.rest += data
        while (end := self.rest.find(b"\r\n\r\n", 0, MOST_HEAD)) >= 0:
            start = end + 4
            length = length_of(bytes(self.rest[:end]))
            if len(self.rest) < start + length:
                return
            body = bytes(self.rest[start : start + length])
            del self.rest[: start + length]
            yield body
        if len(self.rest) >= MOST_HEAD:
            raise ValueError("a message whose head does not end")


def length_of(head: bytes) -> int:
    """The length that the head of a message tells."""
    for field in head.split(b"\r\n"):
        name, _, value = field.partition(b":")
        if name.strip().lower() == b"content-length" and value.strip().isdigit():
            return int(value)
    raise ValueError("a message without Content-Length")


def frame(message: Json) -> bytes:
    body = written(message).encode("ascii")
    return b"Content-Length: %d\r\n\r\n%s" % (len(body), body)


def written(value: Json) -> str:
    return value if isinstance(value, Written) else json.dumps(value)


class Output:
    """What is to be written, which waits here until the editor reads it.

    Some editors write a whole request before they read on, so a server that waits for them to read may wait for ever. This one
    never does: the end of the pipe does not block, and what it does not take stays in `unsent` while messages are read and changes
    are followed. That has a bound: above MOST_UNREAD bytes requests are answered by a short error and not by a result, and
    diagnostics, which are of the newest text alone, wait until the editor has read everything.
    """

    def __init__(self, end: int) -> None:
        self.end, self.unsent = end, bytearray()
        os.set_blocking(end, False)

    def put(self, message: Json) -> None:
        self.unsent += frame(message)
        self.flush()

    def flush(self) -> None:
        """Writes as much as the pipe takes now; BrokenPipeError where nobody reads from it any more."""
        try:
            while self.unsent:
                del self.unsent[: os.write(self.end, self.unsent[:AT_ONCE])]
        except BlockingIOError:
            pass

    @property
    def is_full(self) -> bool:
        return len(self.unsent) >= MOST_UNREAD

    def finish(self, seconds: float) -> None:
        """Writes the rest, if the editor reads it in time, and leaves the pipe as it was."""
        end, poll = time.monotonic() + seconds, select.poll()
        poll.register(self.end, select.POLLOUT)
        while self.unsent and poll.poll(max(0.0, end - time.monotonic()) * 1000):
            self.flush()
        os.set_blocking(self.end, True)


class Look:
    """What is known of the diagnostics of a file: those that were found, and whether they were told."""

    def __init__(self) -> None:
        self.unpaired: list[Row] = []
        self.rest: Iterator[list[Row]] | None = None
        self.is_told = False

    def go_on(self, file: File) -> bool:
        """Looks some lines further for brackets that stand alone; whether that was all."""
        if self.rest is None:
            self.rest = file.unpaired()
        found = next(self.rest, None)
        self.unpaired += found or []
        return found is None or len(self.unpaired) >= MOST_DIAGNOSTICS


class Server:
    """Takes messages one after the other, and puts out what is to be written."""

    def __init__(self, output: Output, is_test: bool) -> None:
        self.output = output
        self.waiting: deque[Json] = deque()
        self.cancelled: set[int | str] = set()
        self.files = Files()
        self.looks: dict[str, Look] = {}
        self.is_initialized = self.is_shut_down = False
        self.status: int | None = None
        self.capabilities: Json = {}
        self.requests: dict[str, Callable[[Json], Json]] = {
            "initialize": self.initialize,
            "shutdown": self.shutdown,
            "textDocument/documentHighlight": self.document_highlight,
            "textDocument/selectionRange": self.selection_range,
            "textDocument/foldingRange": self.folding_range,
            "textDocument/prepareRename": self.prepare_rename,
            "textDocument/rename": self.rename,
        }
        if is_test:
            self.requests |= {"lodvark/text": self.text, "lodvark/undo": self.undo}
        self.notifications: dict[str, Callable[[Json], None]] = {
            "textDocument/didOpen": self.did_open,
            "textDocument/didChange": self.did_change,
            "textDocument/didClose": self.did_close,
        }

    # Messages

    def arrive(self, body: bytes) -> None:
        """Keeps a message until it is taken. One that cancels a request which waits is heeded now."""
        try:
            message = json.loads(body)
        except (ValueError, RecursionError) as error:
            self.output.put(error_of(None, Fault(PARSE_ERROR, f"no JSON: {error}")))
            return
        if isinstance(message, dict) and message.get("method") == "$/cancelRequest" and "id" not in message:
            self.cancel(message.get("params"))
        else:
            self.waiting.append(message)

    def cancel(self, params: Json) -> None:
        """A request that was answered already, or that never came, is not there to be cancelled."""
        id_ = params.get("id") if isinstance(params, dict) else None
        if isinstance(id_, (int, str)) and any(is_request(message) and message["id"] == id_ for message in self.waiting):
            self.cancelled.add(id_)

    def take(self) -> None:
        """Does what the next message says. A response is passed over, since nothing is asked of the editor."""
        message = self.waiting.popleft()
        if is_request(message):
            self.output.put(self.answer(message["id"], message["method"], message.get("params")))
        elif isinstance(message, dict) and isinstance(message.get("method"), str):
            self.note(message["method"], message.get("params"))
        elif not is_response(message):
            self.output.put(error_of(None, Fault(INVALID_REQUEST, "neither a request nor a notification")))

    def answer(self, id_: Json, method: str, params: Json) -> Json:
        try:
            if not isinstance(id_, (int, str)):
                raise Fault(INVALID_REQUEST, "an id is a number or a string")
            if id_ in self.cancelled:
                self.cancelled.remove(id_)
                raise Fault(REQUEST_CANCELLED, f"{method} was cancelled")
            return Written(f'{{"jsonrpc": "2.0", "id": {written(id_)}, "result": {written(self.result(method, params))}}}')
        except Fault as fault:
            return error_of(id_, fault)

    def result(self, method: str, params: Json) -> Json:
        if self.is_shut_down or (method == "initialize" and self.is_initialized):
            raise Fault(INVALID_REQUEST, f"too late for {method}")
        if not self.is_initialized and method != "initialize":
            raise Fault(SERVER_NOT_INITIALIZED, f"{method} before initialize")
        if method not in self.requests:
            raise Fault(METHOD_NOT_FOUND, f"no request: {method}")
        if self.output.is_full and method != "shutdown":
            raise Fault(REQUEST_FAILED, f"{method}: {len(self.output.unsent)} bytes wait to be read")
        try:
            return self.requests[method](params)
        except (ValueError, TypeError, KeyError, AttributeError) as error:
            raise Fault(INVALID_PARAMS, f"{method}: {error!r}") from error
        except Fault:
            raise
        except Exception as error:
            raise Fault(INTERNAL_ERROR, f"{method}: {error!r}") from error

    def note(self, method: str, params: Json) -> None:
        if method == "exit":
            self.status = 0 if self.is_shut_down else 1
        elif self.is_initialized and not self.is_shut_down and method in self.notifications:
            try:
                self.notifications[method](params)
            except Exception as error:
                self.tell("window/logMessage", type=ERROR, message=f"{method}: {error!r}")

    def tell(self, method: str, **params: Json) -> None:
        self.output.put({"jsonrpc": "2.0", "method": method, "params": params})

    # The life of the server

    def initialize(self, params: Json) -> Json:
        self.capabilities = params["capabilities"]
        wanted = self.of_editor("general", "positionEncodings") or []
        self.files.encoding = next((encoding for encoding in wanted if encoding in ENCODINGS), "utf-16")
        self.is_initialized = True
        capabilities = {
            "positionEncoding": self.files.encoding,
            "textDocumentSync": {"openClose": True, "change": INCREMENTAL},
            "documentHighlightProvider": True,
            "selectionRangeProvider": True,
            "foldingRangeProvider": True,
            "renameProvider": {"prepareProvider": True} if self.of_editor("textDocument", "rename", "prepareSupport") else True,
        }
        return {"capabilities": capabilities, "serverInfo": {"name": "lodvark"}}

    def of_editor(self, *path: str) -> Json:
        """What the editor said that it can; None where it said nothing."""
        found = self.capabilities
        for name in path:
            found = found.get(name) if isinstance(found, dict) else None
        return found

    def shutdown(self, _: Json) -> None:
        self.is_shut_down = True
        self.looks.clear()
        self.files.close_all()

    # Files

    def did_open(self, params: Json) -> None:
        item = params["textDocument"]
        uri, text = item["uri"], item["text"]
        file = self.files.add(uri, item.get("version"))
        self.looks[uri] = Look()
        with Following(self, file):
            self.files.open(file, item.get("languageId"), text)

    def did_change(self, params: Json) -> None:
        file = self.files.files[params["textDocument"]["uri"]]
        if file.held is None:
            return
        with Following(self, file):
            file.change(params["contentChanges"])
            file.version = params["textDocument"].get("version")
            self.looks[file.uri] = Look()
            if params["contentChanges"]:
                self.files.changed(file)

    def did_close(self, params: Json) -> None:
        uri = params["textDocument"]["uri"]
        self.files.close(uri)
        del self.looks[uri]
        self.tell("textDocument/publishDiagnostics", uri=uri, diagnostics=[])

    def file_of(self, params: Json) -> File:
        """The file of which something is asked, whose text is known."""
        uri = params["textDocument"]["uri"]
        if uri not in self.files.files:
            raise Fault(INVALID_PARAMS, f"not open: {uri}")
        file = self.files.files[uri]
        if file.held is None:
            raise Fault(REQUEST_FAILED, f"the text of {uri} is not known: {file.lost}")
        return file

    # Questions

    def text(self, params: Json) -> Json:
        return {"text": self.file_of(params).document.text}

    def undo(self, params: Json) -> Json:
        return self.file_of(params).document.undo()

    def document_highlight(self, params: Json) -> Json:
        """The two brackets of a pair; where there is none, wherever the word stands."""
        file, place = self.file_of(params), place_of(params["position"])
        ranges = file.pair(place)
        if not ranges and (found := file.word(place)):
            ranges = [file.range(span) for span in file.words(found[0])]
        return [{"range": range_.as_json(), "kind": TEXT} for range_ in ranges]

    def selection_range(self, params: Json) -> Json:
        file = self.file_of(params)
        return [nested(file.around(place_of(position))) for position in params["positions"]]

    def folding_range(self, params: Json) -> Json:
        """Where brackets are many so are the folds, and each is written by itself, which takes half the time."""
        can = self.of_editor("textDocument", "foldingRange") or {}
        folds = self.file_of(params).folds(can.get("lineFoldingOnly") is True)[: can.get("rangeLimit")]
        if can.get("lineFoldingOnly"):  # the line of the closing bracket is left to be seen
            parts = [f'{{"startLine":{opening[0] - 1},"endLine":{closing[0] - 2}}}' for opening, closing in folds]
        else:
            parts = [
                f'{{"startLine":{line - 1},"startCharacter":{column - 1 + length},"endLine":{end - 1},"endCharacter":{at - 1}}}'
                for (line, column, length, _, _, _), (end, at, _, _, _, _) in folds
            ]
        return Written(f"[{','.join(parts)}]")

    def prepare_rename(self, params: Json) -> Json:
        file = self.file_of(params)
        found = file.word(place_of(params["position"]))
        return found and {"range": file.range(found[1]).as_json(), "placeholder": found[0]}

    def rename(self, params: Json) -> Json:
        """The edits that put a name in the place of a word, in comments and strings too, for the editor to carry out."""
        found = self.file_of(params).word(place_of(params["position"]))
        if not found:
            raise Fault(REQUEST_FAILED, "there is no word to rename")
        if not WORD.fullmatch(params["newName"]):
            raise Fault(INVALID_PARAMS, f"not a word: {params['newName']}")
        edits = self.files.rename(found[0], params["newName"])
        changes = {uri: [self.edit_of(uri, edit) for edit in batch] for uri, batch in edits.items()}
        if not self.of_editor("workspace", "workspaceEdit", "documentChanges"):
            return {"changes": changes}
        named = [({"uri": uri, "version": self.files.files[uri].version}, batch) for uri, batch in changes.items()]
        return {"documentChanges": [{"textDocument": name, "edits": batch} for name, batch in named]}

    def edit_of(self, uri: str, edit: tuple[int, int, str]) -> Json:
        return {"range": self.files.files[uri].range(Span(*edit[:2])).as_json(), "newText": edit[2]}

    # Diagnostics

    def to_look_at(self) -> File | None:
        """A file whose diagnostics are still to be told; none while the editor has something to read."""
        if self.output.unsent:
            return None
        return next((self.files.files[uri] for uri, look in self.looks.items() if not look.is_told), None)

    def look_at(self, file: File) -> None:
        """A part of the diagnostics of a file, and where that was all, tells them."""
        look = self.looks[file.uri]
        with Following(self, file):
            if look.go_on(file):
                look.is_told, look.rest = True, None
                self.publish(file)

    def publish(self, file: File) -> None:
        """The version goes with them, so that an editor whose text is newer by now can pass them over."""
        shown = [diagnostic(row) for row in self.looks[file.uri].unpaired[:MOST_DIAGNOSTICS]]
        version = {} if file.version is None else {"version": file.version}
        self.tell("textDocument/publishDiagnostics", uri=file.uri, diagnostics=shown, **version)


class Following:
    """Where something goes wrong inside, the text of the file is not known any more, and the editor is told so."""

    def __init__(self, server: Server, file: File) -> None:
        self.server, self.file = server, file

    def __enter__(self) -> None:
        pass

    def __exit__(self, kind: type | None, error: BaseException | None, _: object) -> bool:
        if not isinstance(error, Exception) or isinstance(error, BrokenPipeError):
            return False
        why = str(error) if isinstance(error, Lost) else repr(error)
        self.server.files.lose(self.file, why)
        self.server.looks[self.file.uri] = look = Look()
        look.is_told = True
        message = f"lodvark: {self.file.uri} is not followed until it is opened again: {why}"
        self.server.tell("window/showMessage", type=ERROR, message=message)
        self.server.publish(self.file)
        return True


def is_request(message: Json) -> bool:
    return isinstance(message, dict) and isinstance(message.get("method"), str) and "id" in message


def is_response(message: Json) -> bool:
    return isinstance(message, dict) and "id" in message and ("result" in message or "error" in message)


def error_of(id_: Json, fault: Fault) -> Json:
    return {"jsonrpc": "2.0", "id": id_, "error": {"code": fault.code, "message": fault.message}}


def nested(ranges: list[Range]) -> Json:
    """A selection range, whose parent is the one after it. Of two that are equal one is left out."""
    parent: Json = None
    for range_ in reversed(ranges):
        if parent is None or parent["range"] != range_.as_json():
            parent = {"range": range_.as_json(), **({"parent": parent} if parent else {})}
    return parent


def diagnostic(row: Row) -> Json:
    is_open = row[5] == BracketState.UNCLOSED
    code = "unclosed" if is_open else "unexpected"
    message = "Nothing closes this bracket." if is_open else "This bracket closes nothing."
    range_ = range_at(*row[:3]).as_json()
    return {"range": range_, "severity": WARNING, "source": "lodvark", "code": code, "message": message}


class Loop:
    """Reads, writes and works, whichever can be done, until a message says `exit`, or no more come."""

    def __init__(self, server: Server, output: Output) -> None:
        self.server, self.output, self.frames = server, output, Frames()
        self.has_ended = False

    def run(self) -> int:
        while self.server.status is None:
            if self.has_ended and not self.server.waiting:
                return 1
            self.turn()
        return self.server.status

    def turn(self) -> None:
        """One message is taken at a time, so that those which come meanwhile may cancel others."""
        file = self.server.to_look_at()
        ready = self.ready(0 if self.server.waiting else self.pause(file))
        if 1 in ready:
            self.output.flush()
        if 0 in ready:
            self.read()
        if self.server.waiting:
            self.server.take()
        elif file and not ready:
            self.server.look_at(file)

    def pause(self, file: File | None) -> float | None:
        """How long a message is waited for. Diagnostics begin where none came for a while, and then go on."""
        if file is None:
            return None
        return 0 if self.server.looks[file.uri].rest else REST * 1000

    def ready(self, pause: float | None) -> set[int]:
        """At which ends something can be done."""
        poll = select.poll()
        if not self.has_ended and len(self.server.waiting) < MOST_MESSAGES:
            poll.register(0, select.POLLIN)
        if self.output.unsent:
            poll.register(self.output.end, select.POLLOUT)
        return {end for end, _ in poll.poll(pause)}

    def read(self) -> None:
        data = os.read(0, AT_ONCE)
        self.has_ended = not data
        for body in self.frames.feed(data):
            self.server.arrive(body)


def main() -> None:
    if sys.argv[1:] not in ([], ["--test"]):
        raise SystemExit(__doc__)
    gc.set_threshold(100_000)  # a text has a great many brackets, and none of them is part of a cycle
    output = Output(1)
    try:
        status = Loop(Server(output, "--test" in sys.argv), output).run()
        output.finish(LAST_SECONDS)
    except ValueError as error:
        print(f"lsp_server: {error}", file=sys.stderr)
        status = 1
    except BrokenPipeError:
        status = 1
    sys.exit(status)


if __name__ == "__main__":
    main()
