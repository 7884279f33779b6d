#!/usr/bin/env -S python3 -B
"""A copy of a document that follows it by events, some of them lost, some repeated, in any order.

examples/mirror.py [PROGRAM]     by default the program of ./build or .ci/run

`Copy` is the state of a second view: it delivers each event that it gets to the program's mirror, waits if an earlier one is
missing, and reads its lines from the mirror after each new version. It never reads the document itself.
"""
import random
import sys

from client import Client, Refused, check, program_of, replace


class Copy:
    """The lines of a document at some version, which events bring on to the next ones."""

    def __init__(self, model: Client) -> None:
        """Begins at the text of now."""
        self.model = model
        (self.version,) = model.numbers("mirror")
        self.lines: list[str] = []
        self.early: set[int] = set()  # events that came before others that they need

    def take(self, event: int) -> None:
        """An event reached this side, by its number."""
        self.early.add(event)
        while any([self._went_on(number) for number in sorted(self.early)]):
            pass

    def _went_on(self, event: int) -> bool:
        """Whether this one was the next; one that is old is wanted no more."""
        try:
            reply = self.model.values("deliver", n=event)
        except Refused as refused:
            if refused.word == "gap":
                return False
            raise
        self.early.discard(event)
        if reply == ["old"]:
            return False
        self.version, _, count = reply
        self.lines = [self.model.text("mirrored", n=n) for n in range(1, count + 1)]
        return True


def change(model: Client, draw: random.Random) -> None:
    """One change of the document: an edit, other line endings, an undo or a redo; an edit where there is none of these."""
    units, _ = model.numbers("size")
    kind = draw.random()
    if kind < 0.15 and model.ask("undo") != "none" or kind < 0.25 and model.ask("redo") != "none":
        return
    if kind < 0.3 and model.ask("eol", kind=draw.choice(["lf", "crlf"])) != "none":
        return
    at = draw.choice([0, units])
    model.ask("edit", ops=[replace(at, at, draw.choice(["a", "line\n", "😀"]))])
    if draw.random() < 0.3:
        model.ask("stop")


def sent_and_delivered(model: Client, draw: random.Random) -> tuple[list[str], list[str]]:
    """The lines of a document after many changes, and those of a copy that followed it."""
    model.open("one\ntwo\n")
    copy = Copy(model)
    on_the_way = []
    for _ in range(200):
        change(model, draw)
        event, _ = model.numbers("send")
        on_the_way += [event] * draw.choice([0, 1, 1, 2])  # lost, or once, or twice
        if draw.random() < 0.5 and on_the_way:
            copy.take(on_the_way.pop(draw.randrange(len(on_the_way))))
    for event in range(1, event + 1):  # what was lost is asked for again
        copy.take(event)
    _, count = model.numbers("size")
    check("version of the copy", copy.version, model.numbers("version")[0])
    return copy.lines, model.lines(1, count)


def main() -> None:
    with Client(program_of(sys.argv[1:])) as model:
        lines, wanted = sent_and_delivered(model, random.Random(42))
        check("lines of the copy", len(lines), len(wanted))
        if lines != wanted:
            raise SystemExit("mirror: the copy has other lines than the document")


if __name__ == "__main__":
    main()
