"""What kinds of documents and commands the parts of a script are made of, so that unlikely things meet often."""
from random import Random
from typing import NamedTuple

import clusters
from brackets import MOST_OPEN, STANDARD, Pairs
from hiding import BACKSLASH, Hiding

WEIGHTS = {
    "edit": 30, "undo": 8, "redo": 8, "stop": 4, "version": 3, "changes": 4, "size": 1, "eol": 2,
    "decorate": 7, "deco": 4, "decos": 4,
    "line": 3, "value": 3, "offset": 4, "position": 5, "stops": 3,
    "snapshot": 2, "read": 3, "close": 1,
    "find": 3, "replace": 1.5,
    "brackets": 6, "match": 5, "level": 5,
    "mirror": 0.3, "send": 4, "deliver": 5, "mirrored": 1.5,
    "open": 1, "hostile": 4,
}  # fmt: skip

BREAKS = ["\r", "\n", "\r\n"]
LETTERS = ["a", "b"]
PAIRED = ["\U0001f600", "\U0001d4b3"]
JOINED = [*clusters.CLASSES]
QUOTED = ['"', BACKSLASH, "\t", "\x01", "\x7f", "\u2028", "\ufeff", "/"]


class Mood(NamedTuple):
    """How large the texts are, how often each command comes, and how texts are made."""

    units: int  # the length that edits keep to
    weights: dict[str, float]
    alphabets: list[list[str]]
    with_brackets: int  # how often a bracket stands among the characters
    depth: int = 0  # how many brackets a new text opens in its first line, or some fewer
    ragged: int = 0  # how often what leaves brackets open, or closes none, stands among the characters
    marks: int = 24  # how many decorations there are before more are taken out than put in
    heap: int = 0  # how many decorations may be put in at once, at one place or wide, while there are fewer than that
    ops: int = 40  # the most ops of an edit
    run: int = 0  # how many an undo and a redo may be in turn, or undos and then as many redos
    is_apart: bool = False  # edits keep to the front, and questions to the end
    of_kind: float = 0.3  # how often a new text has a kind of line ending
    hidden: float = 0.25  # how often a new text has marks of comments and strings
    strewn: float = 1  # how often such marks stand among the characters, where there are any
    curtains: float = 0.1  # how often an edit is of one such mark
    at_endings: float = 0.03  # how often new decorations stand around one line ending


def more(**weights: float) -> dict[str, float]:
    return WEIGHTS | weights


FAR = {name: 1 for name in WEIGHTS} | {"edit": 150, "undo": 4, "redo": 4, "decos": 2, "mirror": 0.1}  # long runs without a question
FOLLOWED = more(edit=30, undo=12, redo=12, eol=4, mirror=1, send=40, deliver=50, mirrored=15)
ASKED = more(brackets=12, match=10, level=25, undo=12, redo=8, stop=8, decorate=1, deco=1, decos=1)
SOUGHT = more(find=30, replace=12, undo=12, redo=8, stop=6, eol=3, send=8, deliver=8, mirrored=3)
CROWDED = more(edit=150, snapshot=4, read=6, close=3)  # small edits alone, so that pieces are written anew
TORN = more(edit=60, find=50, replace=2, brackets=2, match=2, level=2)
ENDED = more(eol=8, undo=15, redo=8, stop=8, version=6, decorate=25, deco=12, decos=12, position=12, value=8, open=3)

MOODS = {
    "mixed": (10, Mood(40, WEIGHTS, [LETTERS, BREAKS, PAIRED, JOINED, QUOTED], 4)),
    "tiny": (6, Mood(6, more(open=3), [LETTERS, BREAKS, PAIRED], 1)),
    "lines": (4, Mood(30, more(position=20, offset=15, line=15, brackets=2), [BREAKS, BREAKS, LETTERS], 1)),
    "marks": (6, Mood(30, more(decorate=25, deco=15, decos=15, brackets=1, match=1, level=1), [LETTERS, PAIRED], 1)),
    "nests": (6, Mood(40, more(brackets=25, match=20, level=20, deco=1, decos=1), [BREAKS, LETTERS], 12)),
    "forest": (3, Mood(300, more(brackets=4, match=20, level=20), [BREAKS, LETTERS, LETTERS], 8)),
    "steps": (5, Mood(30, more(undo=30, redo=30, stop=15, version=10), [LETTERS, BREAKS], 2)),
    "endings": (5, Mood(30, ENDED, [BREAKS[2:], BREAKS, LETTERS], 2, of_kind=0.1, at_endings=0.5)),
    "shelves": (3, Mood(30, more(snapshot=20, read=30, close=8, edit=20), [PAIRED, LETTERS, BREAKS], 1)),
    "clusters": (3, Mood(25, more(stops=40, line=5), [JOINED, JOINED, JOINED, BREAKS], 1)),
    "hostile": (3, Mood(20, more(hostile=60), [LETTERS, BREAKS, PAIRED], 1)),
    "deep": (2, Mood(60, more(brackets=4, match=15, level=25, open=2), [BREAKS, LETTERS], 4, MOST_OPEN)),
    "heaps": (0.3, Mood(60, more(edit=50, decorate=12, decos=2, undo=4), [LETTERS, BREAKS], 1, marks=700, heap=700)),
    "piles": (1, Mood(20, more(edit=40, decorate=12, decos=4, stop=8), [LETTERS, PAIRED], 1, marks=90, heap=90, ops=9)),
    "ragged": (2, Mood(400, more(brackets=4, match=15, level=25), [BREAKS, LETTERS], 2, ragged=9, is_apart=True)),
    "capped": (1, Mood(300, more(brackets=2, match=15, level=25), [BREAKS, LETTERS], 0, MOST_OPEN, 9, is_apart=True)),
    "far": (1, Mood(600, FAR, [BREAKS, LETTERS], 3, ragged=1, ops=150)),
    "told": (4, Mood(30, more(changes=80, undo=20, redo=20, stop=10, eol=8, replace=6), [LETTERS, BREAKS, PAIRED], 1)),
    "followed": (5, Mood(30, FOLLOWED, [LETTERS, BREAKS, PAIRED], 1)),
    "swings": (1, Mood(60, more(undo=15, redo=15, stop=15, level=10, eol=5), [LETTERS, BREAKS, PAIRED], 3, run=60)),
    "pieces": (1, Mood(1500, more(edit=60, snapshot=15, read=30, close=12), [PAIRED, LETTERS, BREAKS], 1, ops=150)),
    "crowded": (2, Mood(1500, CROWDED, [LETTERS, LETTERS, BREAKS], 1, ops=3)),
    "comments": (8, Mood(60, ASKED, [BREAKS, LETTERS], 8, hidden=1, curtains=0.5)),
    "curtains": (4, Mood(300, ASKED, [BREAKS, BREAKS, LETTERS], 6, hidden=1, strewn=0.2, curtains=0.6)),
    "covers": (3, Mood(200, ASKED, [BREAKS, LETTERS], 4, ragged=2, is_apart=True, hidden=1, strewn=0.3, curtains=0.6)),
    "stripes": (1, Mood(1500, ASKED, [BREAKS, BREAKS, LETTERS], 3, hidden=1, curtains=0.4)),
    "asleep": (0.5, Mood(500, FAR, [BREAKS, LETTERS], 4, ragged=1, hidden=1, strewn=0.5, curtains=0.5)),
    "sought": (6, Mood(40, SOUGHT, [LETTERS, LETTERS, BREAKS, PAIRED], 1, of_kind=0.5)),
    "periods": (2, Mood(200, SOUGHT, [LETTERS], 0, of_kind=0)),
    "torn": (1, Mood(1500, TORN, [PAIRED, LETTERS, BREAKS], 1, ops=150)),
    "large": (1, Mood(4000, more(brackets=4, open=2, stops=1, hostile=1), [LETTERS, LETTERS, BREAKS, PAIRED], 2)),
}

TABLES: list[Pairs] = [
    (("<", "<<"),),
    (("begin", "end"), ("be", "en")),
    (("a", "b"),),
    (("ab", "ba"), ("a", "b")),
    (("(", "(("), (")", "))")),
    (("\U0001f600", "\U0001d4b3"),),
    ((".", "*"), ("|", "+"), ("\\", "^"), ("$", "?")),
    (("x" * 32, "x" * 31), ("x", "xx")),
    (("\U0001f600" * 16, "\U0001f600"), ("a\u0301", "\u0301")),
    tuple((chr(97 + kind % 26) + chr(65 + kind), chr(97 + kind % 26) + chr(33 + kind)) for kind in range(32)),
    tuple((f"<{kind}", f">{kind}") for kind in range(64)),
]

C_LIKE = Hiding("//", ("/*", "*/"), "\"'")
HIDINGS = [
    C_LIKE,
    C_LIKE,
    Hiding("#", quotes="\"'`"),
    Hiding("--", ("{-", "-}"), '"'),
    Hiding(";", ("#|", "|#"), '"'),
    Hiding(None, ("(*", "*)"), "'"),
    Hiding("/", ("/*", "*/"), "/*"),
    Hiding("/*/", ("/*", "*/"), "/"),
    Hiding("//", ("/", "//"), "*"),
    Hiding("((", ("(", ")"), ")"),
    Hiding("[", ("[[", "]]"), "{"),
    Hiding(None, ("/", "/"), "'"),
    Hiding("ab", ("a", "ba"), "ab"),
    Hiding("b", quotes="a"),
    Hiding(BACKSLASH, (BACKSLASH * 2, "\\a"), "b"),
    Hiding("\U0001f600", ("\U0001d4b3", "\U0001f600"), "\u0301"),
    Hiding("begin", ("be", "end"), "n"),
    Hiding("x" * 32, ("x" * 31, "xx"), "y"),
    Hiding("\U0001f600" * 16, ("x" * 32, "y" * 32), "12345678"),
    Hiding("\0", ("\t", "\u2028"), "\ufeff\0 "),
]


def drawn_mood(draw: Random) -> Mood:
    weights, moods = zip(*MOODS.values())
    return draw.choices(moods, weights)[0]


def drawn_table(draw: Random) -> Pairs:
    """Mostly the standard one."""
    return STANDARD if draw.random() < 0.6 else draw.choice(TABLES)


def drawn_hiding(draw: Random, mood: Mood) -> Hiding | None:
    """The marks of a new text, mostly all three kinds, if it has any."""
    if draw.random() >= mood.hidden:
        return None
    line, block, quotes = (part if draw.random() < 0.85 else None for part in draw.choice(HIDINGS))
    return Hiding(line, block, quotes or "")


def mark_texts(hiding: Hiding | None) -> list[str]:
    """The marks, a part of one, one behind a backslash, which takes a quote along, and what ends a line."""
    if not hiding:
        return []
    marks = [*filter(None, [hiding.line, *(hiding.block or ()), *hiding.quotes])]
    parts = [part for mark in marks if len(mark) > 1 for part in (mark[0], mark[1:])]
    return [*marks * 3, *parts, *(BACKSLASH + mark for mark in marks), BACKSLASH, *BREAKS]


def drawn_alphabet(draw: Random, mood: Mood, table: Pairs, hiding: Hiding | None) -> list[str]:
    """Few kinds of characters, so that equal ones meet, some brackets, and some marks that hide them."""
    alphabet = []
    for group in draw.sample(mood.alphabets, k=min(len(mood.alphabets), 3)):
        alphabet += draw.choices(group, k=draw.randint(1, 4))
    texts = [text for pair in draw.choices(table, k=2) for text in pair]
    nests = [nest(draw, table) for _ in range(mood.with_brackets // 2)]
    torn = draw.choices([rag(draw, table) for _ in range(2)], k=mood.ragged)
    marks = draw.choices(mark_texts(hiding), k=draw.randint(0, 5)) if hiding and draw.random() < mood.strewn else []
    return alphabet + draw.choices(texts, k=mood.with_brackets) + nests + torn + marks


def nest(draw: Random, table: Pairs) -> str:
    """Some pairs inside one another."""
    pairs = draw.choices(table, k=draw.randint(1, 4))
    return "".join(opening for opening, _ in pairs) + "".join(closing for _, closing in reversed(pairs))


def rag(draw: Random, table: Pairs) -> str:
    """Brackets of which not each is one of a pair."""
    (opening, closing), (other, its_closing) = draw.choices(table, k=2)
    torn = [opening, closing, opening * 3, opening + other + closing, opening + its_closing, closing + opening]
    return draw.choice(torn)


def opened_brackets(draw: Random, mood: Mood, table: Pairs) -> str:
    """A line with as many open brackets as the mood wants, or a few fewer."""
    if not mood.depth:
        return ""
    openings = [opening for opening, _ in table]
    return "".join(draw.choices(openings, k=mood.depth - draw.randint(0, 12))) + draw.choice(BREAKS)
