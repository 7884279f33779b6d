"""What lines cost: the rows and the picture of README, and the tables of bench/README.md, from the tables in bench/results."""
from making.pages import Part, script

import kept  # of bench/, which making.pages makes known

HEAD = ["| at 1 MB | Lodvark | flat document |", "|---|--:|--:|"]
SHOWN = "Lodvark / flat document"
# the rows that bench/README.md shows of each table, with the sizes
TEXTS = [
    "edit at a random place",
    "type at one place",
    "position of a random offset",
    "lines one after another",
    "undo, then redo 100,000 edits",
]
QUESTIONS = ["level, tree kept", "brackets of 60 lines, tree kept", "edit, then level, match"]
SEARCHES = [f"find, {what}, {way}" for way in ("one piece", "100,000 pieces") for what in ("rare unit", "common unit", "worst case")]
CALLS = ["edit at a random place", "type at one place", "position of a random offset", "insert, then level, match"]
FILES = {
    "lines": "all rows",
    "search": "searches and replaces",
    "growth": "memory of repeated lines",
    "edited": "a text edited everywhere",
    "hidden": "comments and strings",
    "shapes": "what is hard for a tree",
    "calls": "the library for C, in process",
}
SLOW = 5  # times as long as the flat document takes


def both(drawing, ours, flat):
    """What a row takes here and in the flat document; the second where it was measured."""
    costs = [kept.number(cell) for cell in (ours, flat)]
    return " / ".join(drawing.told(cost) if cost else "too long" for cost in costs)


def by_size(drawing, name, whats, sizes, column):
    """A table of these rows, with a column for each size."""
    yield f"| {SHOWN} | {' | '.join(sizes)} |"
    yield f"|---|{'--:|' * len(sizes)}"
    cells = {(row["what"], row["size"]): both(drawing, row[f"ours {column}"], row[f"flat {column}"]) for row in kept.table(name).rows}
    for what in whats:
        yield f"| {what} | {' | '.join(cells.get((what, size), '') for size in sizes)} |"


def slow_shapes():
    """The shapes that take much longer than in the flat document."""
    yield "| what | size | times as long |"
    yield "|---|--:|--:|"
    for row in kept.table("shapes").rows:
        if (times := float(row["ours / flat"].removeprefix("x") or 0)) > SLOW:
            yield f"| {row['what']} | {row['size']} | {times:.0f} |"


def calls(drawing):
    """Some calls at 1 MB, beside the same work by lines."""
    yield "| at 1 MB | a call | a line, with reading it |"
    yield "|---|--:|--:|"
    for row in kept.table("calls").rows:
        if row["size"] == "1 MB" and row["what"] in CALLS:
            yield f"| {row['what']} | {' | '.join(drawing.told(kept.number(row[key])) for key in ('calls ns', 'ours ns'))} |"


def results():
    """The files, and when each was measured."""
    yield "| file | what | measured on |"
    yield "|---|---|---|"
    for name, what in FILES.items():
        yield f"| `results/{name}.txt` | {what} | {kept.table(name).date} |"


def parts():
    """The rows of README, the whole picture, and the tables of bench/README.md."""
    drawing = script("bench/picture")
    rows = drawing.table()
    measured = f"Measured on {kept.table('lines').date} (`bench/README.md`)."
    yield Part("README.md", "figures", [*HEAD, *drawing.shown(rows), "", measured])
    yield Part("bench/cost.svg", "", drawing.picture(rows).rstrip("\n").split("\n"))
    page = "bench/README.md"
    yield Part(page, "results", [*results()])
    yield Part(page, "texts", [*by_size(drawing, "lines", TEXTS, ["10 KB", "1 MB", "100 MB"], "diff")])
    yield Part(page, "questions", [*by_size(drawing, "lines", QUESTIONS, ["1 MB", "10 MB"], "diff")])
    yield Part(page, "searches", [*by_size(drawing, "search", SEARCHES, ["1 MB"], "ns")])
    yield Part(page, "slow shapes", [*slow_shapes()])
    yield Part(page, "calls", [*calls(drawing)])
