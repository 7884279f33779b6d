#!/usr/bin/env -S python3 -B
"""A client to copy: starts the program, and edits a document as an editor would.

examples/client.py [PROGRAM]     by default the program of ./build or .ci/run; ./textmodel also runs an unproved one, which
                                 ./build --unproved makes in a minute or two

Each call sends a line of JSON to the program and reads a line back. `Client` is all that another program needs. It is for one
thread, and needs a system with `poll`. Offsets count UTF-16 units from 0. Lines and columns count from 1, columns in units
too; see docs/SCRIPT.md. `units` counts the units of a Python string.
"""
import functools
import importlib
import json
import os
import re
import select
import subprocess
import sys
from collections import deque
from collections.abc import Iterable, Iterator, Sequence
from pathlib import Path
from types import ModuleType
from typing import Any, NamedTuple

HERE = Path(__file__).resolve().parent
PROVED = HERE.parent / "bin" / "textmodel"
SECONDS = 10.0
MOST_BYTES = 1 << 24  # of a line, its LF not counted
PIECE = 1 << 16
# What a line may have beside a text: 64 pairs of brackets and all marks, each unit as an escape, take the most.
BESIDE = 1 << 15
CHECKER = HERE.parent / "tools" / "check_lines.py"
NO_PROGRAM = """there is no proved program: ./build makes it
PROGRAM may be ./textmodel, which runs an unproved one until then; ./build --unproved makes that in a minute or two"""

Command = dict[str, Any]
Marks = dict[str, str | list[str]]
Value = int | str
to_json = json.JSONEncoder(ensure_ascii=False, allow_nan=False, separators=(",", ":")).encode
read_json = json.JSONDecoder().raw_decode
WORD = re.compile("[^ ]+")


class Refused(Exception):
    """The program answered `! REASON`, and changed nothing. After `memory` the same call may be tried again.

    `word` is that of the reply, as `range`, `numbers` are those behind it, as the two of `gap`, and `reason` is all of it. `command` is
    what was asked, `line` its number among the lines of this session, from 1, and `why` more about it in words, or None.
    """

    def __init__(self, reason: str, command: Command, line: int, why: str | None = None) -> None:
        super().__init__(reason, command, line, why)
        self.reason, self.command, self.line, self.why = reason, command, line, why
        self.word, *numbers = reason.split()
        self.numbers = [int(number) for number in numbers]

    def __str__(self) -> str:
        asked = to_json(self.command)
        asked = asked if len(asked) <= 200 else asked[:200] + ".."
        return f"line {self.line}: ! {self.reason}" + (f" ({self.why})" if self.why else "") + f": {asked}"


class Ended(Exception):
    """The program ended, or did not answer in time. The client is of no more use but to be closed."""


class Word(str):
    """A word of a reply that is neither a number nor a text, as `none`, `old`, or the status of a bracket."""


class Bracket(NamedTuple):
    """A bracket: where it starts, its units, the place of its pair among the pairs from 0, its status and its level.

    The status is `o` or `c` for the two of a pair, `u` for an opening one that nothing closes, and `x` for a closing one that
    closes nothing. The level is how many brackets are open around it, from 0 to 299.
    """

    line: int
    column: int
    length: int
    kind: int
    status: str
    level: int


class Pipes:
    """The pipes to a running program. What is sent waits here until the program takes it, and replies are read meanwhile.

    So this side never waits at one full pipe while the program waits at the other, however much is sent at once.
    """

    def __init__(self, words: Sequence[str], seconds: float) -> None:
        self.seconds = seconds
        self.process = subprocess.Popen(words, stdin=subprocess.PIPE, stdout=subprocess.PIPE, bufsize=0)
        self.into, self.out = self.process.stdin.fileno(), self.process.stdout.fileno()
        self.unsent = bytearray()
        self.unfinished: list[bytes] = []
        self.to_read, self.to_read_or_write = select.poll(), select.poll()
        for poll in (self.to_read, self.to_read_or_write):
            poll.register(self.out, select.POLLIN)
        self.to_read_or_write.register(self.into, select.POLLOUT)
        for end in (self.into, self.out):
            os.set_blocking(end, False)

    def turn(self) -> list[bytes]:
        """Writes and reads as much as can be now, and waits where nothing can; the replies that came, each without its LF."""
        self._write()
        poll = self.to_read_or_write if self.unsent else self.to_read
        ready = poll.poll(self.seconds * 1000)
        if not ready:
            self.process.kill()
            raise Ended(f"the program did nothing for {self.seconds} s")
        return self._read() if any(end == self.out for end, _ in ready) else []

    def _write(self) -> None:
        try:
            while self.unsent:
                del self.unsent[: os.write(self.into, self.unsent)]
        except BlockingIOError:
            pass
        except BrokenPipeError:  # it has ended, and what it wrote before that is still to be read
            self.unsent.clear()

    def _read(self) -> list[bytes]:
        """LF alone ends a reply: a text may have U+2028 and others, at which `splitlines` would cut it."""
        data = os.read(self.out, PIECE)
        if not data:
            raise Ended(f"the program ended with status {self._status()}")
        end, *others = data.split(b"\n")
        self.unfinished.append(end)
        if not others:
            return []
        whole = [b"".join(self.unfinished), *others[:-1]]
        self.unfinished = [others[-1]]
        return whole

    def close(self) -> int:
        self.process.stdin.close()
        self.process.stdout.close()
        return self._status()

    def _status(self) -> int:
        try:
            return self.process.wait(self.seconds)
        except subprocess.TimeoutExpired:
            self.process.kill()
            self.process.wait()
            raise Ended(f"the program did not end in {self.seconds} s") from None


# made: commands
# The commands, with their fields, and what stands behind `ok` in the reply. Each but `joint` takes `doc` too.
#   open      text [brackets] [marks] [eol]   VERSION UNITS LINES
#   edit      ops                             VERSION UNITS LINES
#   undo                                      VERSION UNITS LINES | none
#   redo                                      VERSION UNITS LINES | none
#   stop
#   eol       kind                            VERSION UNITS LINES | none
#   decorate  owner remove add                FIRSTID COUNT
#   deco      id                              START END STICK OWNER
#   decos     at [owner]                      for each decoration ID START END
#   version                                   VERSION ALTERNATIVE
#   changes                                   VERSION for each edit START END "TEXT"
#   brackets  from to                         for each bracket LINE COL LEN KIND STATUS LEVEL
#   match     line col                        LINE COL LEN | none
#   level     line col                        LEVEL
#   size                                      UNITS LINES
#   line      n                               "TEXT"
#   value     at                              "TEXT"
#   offset    line col                        OFFSET
#   position  offset                          LINE COL
#   snapshot                                  ID
#   read      id count                        "TEXT"
#   close     id
#   stops     n                               for each cluster COL
#   find      text                            for each span START END
#   replace   find text                       VERSION UNITS LINES | none
#   mirror                                    VERSION
#   send                                      N FROM | none
#   deliver   n                               VERSION UNITS LINES | old
#   mirrored  n                               "TEXT"
#   joint     edits                           for each document DOC VERSION UNITS LINES
# end of commands
# made: replies
# How many values such a reply begins with, and how many it has for each thing that it tells of.
EACH = {"decos": (0, 3), "changes": (1, 3), "brackets": (0, 6), "stops": (0, 1), "find": (0, 2), "joint": (0, 4)}
# end of replies


class Client:
    """A running program with one document, which is empty at first. A call is over when its reply has come.

    Each call may raise `Refused`, where the program refuses a command, and `Ended`. The program takes no lone surrogate, so a
    call raises ValueError, and sends nothing, where a string has surrogates: `well_formed` makes one without. A call that
    was interrupted from the keyboard may leave replies behind: close the client then. `line` counts the replies that came.
    """

    def __init__(self, program: str | Sequence[str], seconds: float = SECONDS) -> None:
        """Starts the program, a path or words that `run` is put behind; OSError where there is none.

        A call waits at most so many seconds at a time for the program to read or to write something.
        """
        words = [program] if isinstance(program, str) else [*program]
        self.pipes = Pipes([*words, "run"], seconds)
        self.line = 0
        self.owed = 0

    def __enter__(self) -> "Client":
        return self

    def __exit__(self, *_: object) -> None:
        if not self.pipes.process.stdin.closed:
            self.close()

    def ask(self, cmd: str, **fields: object) -> str:
        """What stands behind `ok` in the reply to a command with these fields; "" where nothing does."""
        return self.ask_all([{"cmd": cmd, **fields}])[0]

    def ask_all(self, commands: Iterable[Command]) -> list[str]:
        """What stands behind `ok` in each reply, as many as there are commands, which are objects with `cmd` and fields.

        Many are on their way at once, so that none waits for the others' replies. All of them are carried out; where some
        were refused, the first `Refused` of them is raised after that.
        """
        answers = self.answers(commands)
        for answer in answers:
            if isinstance(answer, Refused):
                raise answer
        return answers

    def answers(self, commands: Iterable[Command]) -> list[str | Refused]:
        """The same, where the `Refused` of a command that was refused stands in the place of its reply.

        Where `commands` itself raises something, the commands before were carried out, and their replies are passed over.
        """
        waiting: deque[Command] = deque()
        answers: list[str | Refused] = []
        try:
            for command in commands:
                self.pipes.unsent += line_of(command) + b"\n"
                waiting.append(command)
                if len(self.pipes.unsent) >= PIECE:
                    answers += self._take(waiting)
            while waiting:
                answers += self._take(waiting)
        finally:
            self.owed += len(waiting)
        return answers

    def _take(self, waiting: "deque[Command]") -> Iterator[str | Refused]:
        """The answers that came to the first of the commands that wait for one."""
        for reply in self.pipes.turn():
            self.line += 1
            if self.owed:
                self.owed -= 1
                continue
            yield answer_to(waiting.popleft(), reply, self.line)

    def values(self, cmd: str, **fields: object) -> list[Value]:
        """The values behind `ok`, as `[1, 5, 2]`, `["text"]` or `[]`; `["none"]` where that is the reply, with a `Word` in it."""
        return values_of(self.ask(cmd, **fields))

    def rows(self, cmd: str, **fields: object) -> list[tuple[Any, ...]]:
        """The values for each thing that a reply of `EACH` tells of; those that such a reply begins with are left out."""
        before, count = EACH[cmd]
        found = self.values(cmd, **fields)[before:]
        return [tuple(found[at : at + count]) for at in range(0, len(found), count)]

    def numbers(self, cmd: str, **fields: object) -> list[int]:
        """The numbers of a reply that has nothing else; ValueError where it has, as `none`."""
        return [int(word) for word in self.ask(cmd, **fields).split()]

    def text(self, cmd: str, **fields: object) -> str:
        """The text of a reply that is a JSON string, as those of `line`, `value` and `read` are. It has no surrogate."""
        return json.loads(self.ask(cmd, **fields))

    def open(self, text: str, brackets: list[list[str]] | None = None, marks: Marks | None = None) -> list[int]:
        """Opens a text of any size in place of the document; its version, units and lines.

        `brackets` are 1 to 64 pairs of an opening and a closing text; None are `()`, `[]` and `{}`. `marks` say what begins and
        ends comments and strings, in which brackets are text: `line` is a text, `block` a list of two, and `quotes` a list of
        texts of one unit, each if wanted.

        A text that is too long for one line of the script is opened with its first part, and edits append the others. Its version
        is then the number of parts and not 1, and the first step of undo takes the appended parts away; later edits are
        steps of their own. Where an appended part is refused, as with `limit`, the document has the parts before it.
        """
        first, *others = parts(text)
        given = {name: value for name, value in (("brackets", brackets), ("marks", marks)) if value is not None}
        state = self.numbers("open", text=first, **given)
        for part in others:
            state = self.numbers("edit", ops=[replace(state[1], state[1], part)])
        if others:
            self.ask("stop")
        return state

    def splice(self, start: int, end: int, text: str) -> list[int]:
        """Puts a text of any size in the place of the units from `start` to `end`; the version, units and lines after it.

        Refused with `range` where these are no places of the text, or `start` is above `end`.
        A text that is too long for one line takes several edits, which are one step of undo, and the version rises with each.
        """
        for part in [*parts(text)]:
            state = self.numbers("edit", ops=[replace(start, end, part)])
            start = end = start + units(part)
        return state

    def lines(self, first: int, last: int) -> list[str]:
        """The contents of the lines from `first` to `last`, without their breaks; refused with `range` where one is not there."""
        return [json.loads(text) for text in self.ask_all({"cmd": "line", "n": n} for n in range(first, last + 1))]

    def find(self, text: str) -> list[tuple[int, int]]:
        """Where a text stands: the start and the end of each place, from left to right, none over the one before."""
        return self.rows("find", text=text)

    def brackets(self, first: int, last: int) -> list[Bracket]:
        """The brackets that start in the lines from `first` to `last`, in the order of the text; refused as `lines` is."""
        return [Bracket(*row) for row in self.rows("brackets", **{"from": first, "to": last})]

    def close(self) -> int:
        """Ends the script, and gives the program's status: 0, or 1 where a line was refused."""
        return self.pipes.close()


def answer_to(command: Command, reply: bytes, line: int) -> str | Refused:
    """What stands behind `ok` in the reply to a command, or why it was refused."""
    word, _, rest = reply.decode("utf-8").partition(" ")
    return Refused(rest, command, line, why(rest, command)) if word == "!" else rest


def values_of(answer: str) -> list[Value]:
    """The values of what stands behind `ok`: numbers, texts, and each other word as it is."""
    found: list[Value] = []
    at = 0
    while at < len(answer):
        if answer[at] == '"':
            value, end = read_json(answer, at)
        else:
            end = WORD.match(answer, at).end()
            value = value_of(answer[at:end])
        found.append(value)
        at = end + 1
    return found


def value_of(word: str) -> Value:
    return int(word) if word.isdecimal() else Word(word)


def line_of(command: Command) -> bytes:
    """The line of a command, in UTF-8 and without its LF; ValueError or TypeError where JSON or UTF-8 has none for it."""
    return to_json(command).encode("utf-8")


def parts(text: str, most: int = MOST_BYTES - BESIDE) -> Iterator[str]:
    """A text in parts whose JSON has at most so many bytes, an empty one as one part. No character is cut."""
    start = 0
    while start == 0 or start < len(text):
        part = text[start : start + most]
        while len(to_json(part).encode("utf-8")) > most:
            part = part[: len(part) // 2]
        yield part
        start += max(len(part), 1)


def units(text: str) -> int:
    """How many UTF-16 units a text has."""
    return len(text.encode("utf-16-le", "surrogatepass")) // 2


def well_formed(text: str) -> str:
    """The text with each pair of surrogates as the one character that it is, and U+FFFD for each other surrogate.

    It has as many units as before. A Python string gets surrogates by escapes of JSON, or from bytes by `surrogateescape`.
    """
    return text.encode("utf-16-le", "surrogatepass").decode("utf-16-le", "replace")


def why(reason: str, command: Command) -> str | None:
    """More about a refusal in words, where there is more to tell."""
    line = line_of(command)
    if reason == "limit" and len(line) > MOST_BYTES:
        return f"the line has {len(line)} bytes, and may have {MOST_BYTES}"
    fault = checker().fault_of(line) if reason == "syntax" and CHECKER.exists() else None
    return fault and f"byte {fault.at + 1}: {fault.why}"


@functools.cache
def checker() -> ModuleType:
    """The checker of script lines, of which this client needs nothing else."""
    sys.path.append(str(CHECKER.parent))
    return importlib.import_module(CHECKER.stem)


def program_of(words: list[str]) -> str:
    """The program that is named, or the proved one. What is not there is told now, not at the first document."""
    if not words and not PROVED.exists():
        raise SystemExit(NO_PROGRAM)
    return words[0] if words else str(PROVED)


def replace(start: int, end: int, text: str) -> dict[str, object]:
    """An op: the text in the place of the units from `start` to `end`, counted from 0."""
    return {"at": [start, end], "text": text}


def check(what: str, came: object, wanted: object) -> None:
    """Prints what came, and ends the program where it is something else than was wanted."""
    print(f"{what}: {came}")
    if came != wanted:
        raise SystemExit(f"client: {what}: wanted {wanted}")


def edit_a_document(model: Client) -> None:
    check("version, units, lines", model.open("fn f(x) {\n    g[x\n}\n"), [1, 20, 4])

    # A squiggle below `g[x`, which grows by no text at its ends.
    first, _ = model.numbers("decorate", owner=1, remove=[], add=[{"at": [14, 17], "stick": 1}])

    # Two edits at once, at places of the text before them: a parameter more, and the bracket that is missing.
    check("after an edit", model.numbers("edit", ops=[replace(6, 6, ", y"), replace(17, 17, "]")]), [2, 24, 4])
    check("line 2", model.text("line", n=2), "    g[x]")
    start, end, _, _ = model.numbers("deco", id=first)
    check("the squiggle", model.text("value", at=[start, end]), "g[x")
    model.numbers("decorate", owner=1, remove=[first], add=[])

    check("the bracket of `{`", model.numbers("match", line=1, col=12)[:2], [3, 1])
    check("brackets open at `x`", model.numbers("level", line=2, col=7), [2])

    # What is refused has changed nothing.
    try:
        model.ask("edit", ops=[replace(3, 1, "")])
    except Refused as refused:
        check("refused", refused.word, "range")
    check("units, lines", model.numbers("size"), [24, 4])

    check("after an undo", model.values("undo"), [3, 20, 4])
    check("line 2 after an undo", model.text("line", n=2), "    g[x")

    # A name becomes another one wherever it stands, in one step of undo.
    check("where `x` stands", model.find("x"), [(5, 6), (16, 17)])
    check("after a replace", model.numbers("replace", find="x", text="at"), [4, 22, 4])
    check("line 2 after it", model.text("line", n=2), "    g[at")

    # What stands in a comment or a string is no bracket.
    model.open("f(')'); // (\n", marks={"line": "//", "block": ["/*", "*/"], "quotes": ['"', "'"]})
    check("brackets of line 1", [(it.column, it.status) for it in model.brackets(1, 1)], [(2, "o"), (6, "c")])


def main() -> None:
    with Client(program_of(sys.argv[1:])) as model:
        edit_a_document(model)
        check("status", model.close(), 1)


if __name__ == "__main__":
    main()
