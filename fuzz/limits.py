"""One script of lines at the limits that a script can reach: bytes of a line, decorations, snapshots, brackets and what
hides them, events, units that a replace would make, documents."""
from collections.abc import Iterable

MOST_DOCUMENTS = 64
MOST_LINE_BYTES = 2**24
MOST_DECORATIONS = 2**20
MOST_SNAPSHOTS = 1_000
MOST_OPEN = 300
MOST_EVENTS = 65_536
MOST_BRACKET_UNITS = 32
MOST_QUOTES = 8
ROOT_OF_UNITS = 2**20  # as many places, each with as many units, have one unit more than a text may have


def padded(line: bytes, size: int) -> bytes:
    """The line with blanks in front of it, of so many bytes in all."""
    return b" " * (size - len(line)) + line


def new_decorations(count: int) -> bytes:
    add = b",".join([b'{"at":[0,0],"stick":0}'] * count)
    return b'{"cmd":"decorate","owner":1,"remove":[],"add":[%b]}' % add


def long_lines() -> list[bytes]:
    size = b'{"cmd":"size"}'
    text = b'{"cmd":"open","text":"%b"}'
    long_text = text % (b"a" * (MOST_LINE_BYTES - len(text) + 2))
    return [
        padded(size, MOST_LINE_BYTES),
        padded(size, MOST_LINE_BYTES + 1),
        b" " * MOST_LINE_BYTES,
        b" " * (MOST_LINE_BYTES + 1),
        b"\t\r" * (MOST_LINE_BYTES // 2),
        long_text,
        size,
        long_text[:-2] + b'a"}',
        size,
        b"[" * MOST_LINE_BYTES,
        b'{"cmd":"edit","ops":[{"at":[16000000,16000000],"text":"\\n("}]}',
        b'{"cmd":"position","offset":16000002}',
        b'{"cmd":"level","line":2,"col":2}',
        b'{"cmd":"undo"}',
    ]


def many_decorations() -> list[bytes]:
    half = MOST_DECORATIONS // 2
    lines = [b'{"cmd":"open","text":"ab"}', new_decorations(half), new_decorations(half), new_decorations(1)]
    lines += [
        b'{"cmd":"decorate","owner":1,"remove":[7],"add":[{"at":[1,2],"stick":1},{"at":[1,2],"stick":1}]}',
        b'{"cmd":"decorate","owner":1,"remove":[7],"add":[{"at":[1,2],"stick":1}]}',
        b'{"cmd":"deco","id":7}',
        b'{"cmd":"decos","at":[1,2]}',
        b'{"cmd":"edit","ops":[{"at":[0,0],"text":"x\\nz"}]}',
        b'{"cmd":"deco","id":1048577}',
        b'{"cmd":"eol","kind":"crlf"}',
        b'{"cmd":"deco","id":1}',
        b'{"cmd":"decos","at":[5,6]}',
        b'{"cmd":"undo"}',
        b'{"cmd":"deco","id":1}',
        b'{"cmd":"deco","id":1048577}',
    ]
    return lines


def many_snapshots() -> list[bytes]:
    lines = [b'{"cmd":"open","text":"ab"}', *[b'{"cmd":"snapshot"}'] * (MOST_SNAPSHOTS + 1)]
    lines += [b'{"cmd":"close","id":1}', b'{"cmd":"snapshot"}', b'{"cmd":"close","id":1}']
    return [*lines, b'{"cmd":"read","id":%d,"count":9}' % (MOST_SNAPSHOTS + 1)]


def many_brackets() -> list[bytes]:
    lines = []
    for count in (MOST_OPEN - 1, MOST_OPEN, MOST_OPEN + 1, 100_000):
        lines += [b'{"cmd":"open","text":"%b)"}' % (b"(" * count), b'{"cmd":"brackets","from":1,"to":1}']
        columns = (1, MOST_OPEN, MOST_OPEN + 1, count, count + 1, count + 2)
        lines += [b'{"cmd":"level","line":1,"col":%d}' % column for column in columns]
        lines += [b'{"cmd":"match","line":1,"col":%d}' % column for column in columns]
    return lines


def marked(units: int, quotes: int, text: bytes) -> bytes:
    """A new document with marks of so many units, and so many quotes."""
    few = b",".join(b'"%d"' % quote for quote in range(quotes))
    marks = b'"line":"%b","block":["%b","%b"],"quotes":[%b]' % (b"#" * units, b"<" * units, b">" * units, few)
    return b'{"cmd":"open","marks":{%b},"text":"%b"}' % (marks, text)


def typed_in_front(text: bytes) -> bytes:
    return b'{"cmd":"edit","ops":[{"at":[0,0],"text":"%b"}]}' % text


def many_hidden() -> list[bytes]:
    most = (MOST_BRACKET_UNITS, MOST_QUOTES)
    opening, closing, many = b"<" * MOST_BRACKET_UNITS, b">" * MOST_BRACKET_UNITS, b"(" * 100_000
    level = b'{"cmd":"level","line":3,"col":%d}' % (MOST_OPEN + 2)
    lines = [marked(*most, b""), marked(MOST_BRACKET_UNITS + 1, 0, b""), marked(1, MOST_QUOTES + 1, b"")]
    for front in (b"7" + many, b"#" * MOST_BRACKET_UNITS + many, opening + many + closing):
        lines += [marked(*most, front + b"\\n\\n" + b"(" * (MOST_OPEN + 1)), level]
        lines += [typed_in_front(opening), level, b'{"cmd":"undo"}', level]
    lines += [marked(1, 1, b"(\\n\\n" * 100_000 + b")"), b'{"cmd":"brackets","from":100000,"to":100002}']
    for front in (b"<", b"\\n0", b"#"):
        lines += [typed_in_front(front), b'{"cmd":"brackets","from":199999,"to":200001}', b'{"cmd":"undo"}']
        lines += [b'{"cmd":"match","line":200001,"col":1}']
    return lines


def many_events() -> list[bytes]:
    lines = [b'{"cmd":"open","text":"ab"}', b'{"cmd":"send"}', b'{"cmd":"mirror"}']
    lines += [b'{"cmd":"edit","ops":[{"at":[0,1],"text":"xy"}]}', *[b'{"cmd":"send"}'] * (MOST_EVENTS + 1)]
    lines += [b'{"cmd":"deliver","n":%d}' % event for event in (MOST_EVENTS + 1, MOST_EVENTS, 1)]
    lines += [b'{"cmd":"mirrored","n":1}', b'{"cmd":"open","text":""}', b'{"cmd":"send"}', b'{"cmd":"deliver","n":1}']
    return lines


def replaced(sought: bytes, text: bytes) -> bytes:
    return b'{"cmd":"replace","find":"%b","text":"%b"}' % (sought, text)


def many_found() -> list[bytes]:
    """Texts as long as a line can bring, sought and put in, many places, and a replace that passes the most units by one."""
    long_text, many = b"a" * (MOST_LINE_BYTES - 40), b"a" * ROOT_OF_UNITS
    lines = [b'{"cmd":"open","text":"%b"}' % long_text, b'{"cmd":"find","text":"%b"}' % long_text]
    lines += [b'{"cmd":"find","text":"%b"}' % (b"b" + long_text[1:]), replaced(long_text, b"b"), replaced(b"b", long_text)]
    lines += [b'{"cmd":"undo"}', b'{"cmd":"size"}', b'{"cmd":"undo"}', b'{"cmd":"size"}']
    lines += [b'{"cmd":"open","text":"%b"}' % many, b'{"cmd":"find","text":"aa"}', replaced(b"aa", b"b")]
    lines += [b'{"cmd":"undo"}', replaced(b"a", many), b'{"cmd":"version"}', b'{"cmd":"redo"}', b'{"cmd":"size"}']
    return lines


def joint(docs: Iterable[int], text: bytes) -> bytes:
    """The same text put in at the front of each of these documents at once."""
    return b'{"cmd":"joint","edits":[%b]}' % b",".join(
        b'{"doc":%d,"ops":[{"at":[0,0],"text":"%b"}]}' % (doc, text) for doc in docs
    )


def many_documents() -> list[bytes]:
    """A joint edit of all documents, and of one more; texts of them as long as a line can bring; and many such steps."""
    every, last = range(MOST_DOCUMENTS), MOST_DOCUMENTS - 1
    long_text = b"a" * (MOST_LINE_BYTES // MOST_DOCUMENTS - 60)
    sizes = [b'{"cmd":"size","doc":%d}' % doc for doc in every]
    undo, redo = b'{"cmd":"undo","doc":%d}' % last, b'{"cmd":"redo","doc":1}'
    lines = [b'{"cmd":"open","doc":%d,"text":"%d"}' % (doc, doc) for doc in range(MOST_DOCUMENTS + 1)]
    lines += [joint(every, b"x\\n"), joint(range(MOST_DOCUMENTS + 1), b"x"), joint([*every, 0], b"x"), *sizes]
    lines += [joint(reversed(every), long_text), *sizes, undo, redo, undo, *sizes]
    lines += [b'{"cmd":"edit","doc":40,"ops":[{"at":[0,0],"text":"y"}]}', redo, *sizes, undo, redo]
    lines += [b'{"cmd":"undo","doc":40}', undo]
    for round in range(200):
        lines += [joint((round % MOST_DOCUMENTS, (round + 1) % MOST_DOCUMENTS), b"%d" % round)]
    for round in range(200):
        lines += [b'{"cmd":"undo","doc":%d}' % ((199 - round) % MOST_DOCUMENTS)]
    return [*lines, *sizes]


def lines() -> list[bytes]:
    few = [*long_lines(), *many_snapshots(), *many_brackets(), *many_hidden(), *many_events(), *many_decorations()]
    return [*few, *many_found(), *many_documents()]
