#!/usr/bin/env -S python3 -B
"""Tests the client: texts of any size and kind, many commands sent at once, and its errors.

examples/client_test.py [PROGRAM]     by default the program of ./build or .ci/run
"""
import json
import sys
from pathlib import Path

from client import (
    BESIDE,
    CHECKER,
    EACH,
    MOST_BYTES,
    Client,
    Ended,
    Refused,
    Word,
    check,
    line_of,
    parts,
    program_of,
    replace,
    to_json,
    units,
    values_of,
    well_formed,
)

HERE = Path(__file__).resolve().parent
SHAPES = json.loads((HERE.parent / "docs" / "commands.json").read_text())["commands"]

LINES = 3000
# A program that answers nothing until it has read all, one that answers late, and one that stops in the middle of a reply.
READS_NOTHING = "import time; time.sleep(60)"
ENDS = "import sys; sys.stdin.readline(); print('ok 1', end=''); sys.exit(3)"
ECHOES = "import sys\nfor line in sys.stdin: print('ok ' + line[:-1] * 10, flush=True)"


def raised(kind: type[Exception], call, *words, **fields) -> Exception:
    """What the call raises, of this kind."""
    try:
        call(*words, **fields)
    except kind as error:
        return error
    raise SystemExit(f"client: no {kind.__name__}")


def cut_texts() -> None:
    """Parts make up the text, each fits, and no character is cut."""
    for text in ("", "a", "ab" * 50, "\u0001" * 40, "😀é\n\"" * 30, "\\" * 99):
        cut = [*parts(text, 40)]
        check(f"parts of {len(text)} characters", "".join(cut) == text, True)
        check("each fits", all(len(to_json(part).encode()) <= 40 for part in cut), True)
    op = {"cmd": "edit", "ops": [replace(2**40, 2**40, "")]}
    mark, quotes = "\x01" * 32, ["\x01"] * 8
    marks = {"line": mark, "block": [mark] * 2, "quotes": quotes}
    opened = {"cmd": "open", "text": "", "brackets": [[mark] * 2] * 64, "marks": marks}
    check("room beside a part", max(len(line_of(op)), len(line_of(opened))) <= BESIDE, True)


def value_shape(name: str, values: list) -> bool:
    """Whether these are values as a reply to this command has them."""
    said = SHAPES[name]
    if values in ([other] for other in said.get("or", [])):
        return type(values[0]) is Word
    shape = said.get("reply", "").split()
    each = [word for words in said.get("each", {}).values() for word in words.split()]
    shape += each * ((len(values) - len(shape)) // len(each)) if each else []
    kinds = {'"TEXT"': str, "STATUS": Word}
    return [type(value) for value in values] == [kinds.get(word, int) for word in shape]


def read_replies() -> None:
    """The replies that stand in files: their values are of the kinds that docs/commands.json tells, and make the reply again."""
    seen = set()
    for script in sorted(HERE.glob("*.jsonl")):
        replies = script.with_name(script.name + ".stdout").read_text().splitlines()
        for line, reply in zip(script.read_text().splitlines(), replies, strict=True):
            name, (word, _, rest) = json.loads(line)["cmd"], reply.partition(" ")
            if word == "ok":
                values = values_of(rest)
                again = " ".join(to_json(it) if type(it) is str else str(it) for it in values)
                if again != rest or not value_shape(name, values):
                    check(f"{script.name}: the values of {reply}", values, rest)
                seen.add(name)
    check("commands without a reply", SHAPES.keys() - seen, set())
    check("values", values_of('"none \\" 1" 18446744073709551615 none "" o'), ['none " 1', 2**64 - 1, "none", "", "o"])
    check("long ones", values_of(" ".join(["1", to_json('"\n😀' * 10**6)])) == [1, '"\n😀' * 10**6], True)


def tell_values(model: Client) -> None:
    """The values of replies, and a refusal by its word."""
    check("version, units, lines", model.values("open", text="(a\na)"), [1, 5, 2])
    check("nothing", (model.values("stop"), model.values("undo")), ([], ["none"]))
    check("a text", model.values("line", n=1), ["(a"])
    check("no word", type(model.values("line", n=1)[0]), str)
    batches = [{"doc": doc, "ops": [replace(0, 0, "a")]} for doc in (1, 0)]
    asked = {
        "decos": {"at": [0, 0]}, "changes": {}, "brackets": {"from": 1, "to": 2}, "stops": {"n": 1}, "find": {"text": "a"},
        "joint": {"edits": batches},
    }  # fmt: skip
    check("replies with rows", asked.keys(), EACH.keys())
    rows = {name: model.rows(name, **fields) for name, fields in asked.items()}
    check("no decorations and no changes", (rows["decos"], rows["changes"]), ([], []))
    check("brackets", rows["brackets"], [(1, 1, 1, 0, "o", 0), (2, 2, 1, 0, "c", 0)])
    check("stops and spans", [rows["stops"], rows["find"]], [[(1,), (2,)], [(1, 2), (3, 4)]])
    check("documents", rows["joint"], [(1, 2, 1, 1), (0, 2, 6, 2)])
    check("changes", model.rows("changes"), [(0, 0, "a")])
    model.ask("mirror")
    model.ask("edit", ops=[replace(0, 0, "b")])
    model.ask("edit", ops=[replace(0, 0, "c")])
    event, _ = model.values("send")
    gap = raised(Refused, model.values, "deliver", n=event)
    check("a refusal", (gap.word, gap.numbers, gap.reason), ("gap", [2, 3], "gap 2 3"))
    plain = raised(Refused, model.values, "line", n=9)
    check("one without numbers", (plain.word, plain.numbers), ("range", []))


def read_what_was_written(model: Client) -> None:
    """Each character comes back as it went, also those at which a line may seem to end."""
    text = "".join(map(chr, range(1, 0x300))) + "\u2028\u2029\x85\x0b\x0c\x1c\ufeff\uffff😀e\u0301"
    model.open(text)
    check("units", model.numbers("size")[0], units(text))
    check("the text is the same", model.text("value", at=[0, units(text)]) == text, True)


def send_many(model: Client) -> None:
    """More than both pipes hold, both ways at once."""
    contents = [f"line {number} " + "é" * (number % 50) for number in range(LINES)]
    model.open("\r\n".join(contents))
    check("lines read at once", model.lines(1, LINES) == contents, True)
    big = model.ask_all({"cmd": "value", "at": [0, 60_000]} for _ in range(60))
    check("long replies to many", {len(json.loads(text)) for text in big}, {60_000})
    before = model.numbers("size")[0]
    words = model.ask_all([{"cmd": "edit", "ops": [replace(0, 0, "x" * 70_000)]}] * 5)
    check("long commands", [int(word.split()[1]) - before for word in words], [70_000 * count for count in range(1, 6)])


def tell_what_was_refused(model: Client) -> None:
    model.open("abc")
    before = model.line
    refused = raised(Refused, model.ask_all, [{"cmd": "size"}, {"cmd": "line", "n": 9}, {"cmd": "size"}])
    check("refused", (refused.reason, refused.command["n"], refused.line - before), ("range", 9, 2))
    check("the line after it was answered", model.line - before, 3)
    answers = model.answers([{"cmd": "line", "n": n} for n in (0, 1)])
    check("in its place", (type(answers[0]), answers[1]), (Refused, '"abc"'))
    wrong = raised(Refused, model.ask, "siez")
    check("no command", (wrong.reason, (wrong.why is not None) == CHECKER.exists()), ("syntax", True))
    long = raised(Refused, model.ask, "edit", ops=[replace(0, 0, "x" * MOST_BYTES)])
    check("too long", (long.reason, "bytes" in long.why, len(str(long)) < 400), ("limit", True, True))


def send_nothing_wrong(model: Client) -> None:
    """What is no line is not sent, and what was broken off leaves no reply to a later call."""
    model.open("abc")
    before = model.line
    raised(ValueError, model.ask, "open", text="a\ud83d")
    raised(TypeError, model.ask, "open", text=b"bytes")
    check("nothing sent", model.line, before)

    def broken_off():
        yield {"cmd": "size"}
        yield {"cmd": "line", "n": 1}
        raise KeyError

    raised(KeyError, model.ask_all, broken_off())
    check("a reply of its own", model.numbers("version"), [1, 1])
    check("well formed", well_formed("\ud83d\ude00 \ud83d \udc80"), "😀 \ufffd \ufffd")
    check("as many units", units(well_formed("\ud83d\ude00\udc80")), units("\ud83d\ude00\udc80"))


def open_by_parts(model: Client) -> None:
    """A text for several lines: versions above 1, and one step of undo for all that was appended."""
    text = ("\u0001" * 99 + "😀\r\n") * 30_000
    state = model.open(text)
    check("version, units, lines", state, [len([*parts(text)]), units(text), 30_001])
    end = units(text)
    check("the text is the same", model.text("value", at=[0, end]) == text, True)
    model.ask("edit", ops=[replace(0, 3, "")])
    model.ask("undo")
    check("its own step", model.numbers("size"), state[1:])
    model.ask("undo")
    check("one step for the parts", model.numbers("size")[0], units(next(parts(text))))
    check("and no more", model.ask("undo"), "none")
    model.open("abc")
    check("put in", model.splice(1, 2, text)[:2], [3, end + 2])
    check("as one", model.text("value", at=[0, end + 2]) == f"a{text}c", True)
    model.ask("undo")
    check("one step of undo", model.text("value", at=[0, 3]), "abc")


def end_badly() -> None:
    """Programs that do not answer as they should. `-c` makes `run` a word that they do not look at."""
    late = Client([sys.executable, "-c", READS_NOTHING], seconds=0.2)
    check("late", "0.2 s" in str(raised(Ended, late.ask_all, ({"cmd": "size"} for _ in range(100_000)))), True)
    late.close()
    with Client([sys.executable, "-c", ENDS]) as ended:
        check("ended", "status 3" in str(raised(Ended, ended.ask_all, [{"cmd": "size"}] * 100_000)), True)
    with Client([sys.executable, "-c", ECHOES], seconds=20) as echoing:
        check("replies longer than commands", len(echoing.ask_all({"cmd": "x" * 90} for _ in range(5000))), 5000)
    raised(OSError, Client, "/nowhere/textmodel")


def main() -> None:
    cut_texts()
    read_replies()
    end_badly()
    with Client(program_of(sys.argv[1:]), seconds=60) as model:
        read_what_was_written(model)
        tell_values(model)
        send_many(model)
        tell_what_was_refused(model)
        send_nothing_wrong(model)
        open_by_parts(model)
        check("status", model.close(), 1)


if __name__ == "__main__":
    main()
