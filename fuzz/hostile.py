"""Lines that are no commands, or commands spelled in strange ways, made from lines that are."""
import json
import re
from collections.abc import Callable
from random import Random
from typing import Any

RAW = "@raw@"
BYTES = b'\x00\x01\t\r "\\{}[]:,.-+0159eEuntf\x7f\x80\xbf\xc0\xc2\xe2\xed\xef\xf0\xff'
NUMBERS = [
    "0", "1", "2", "-0", "-1", "1.0", "0.0", "1e2", "1E0", "1e-1", "01", "1.", ".5", "+1", "0x1", "1e", "NaN",
    "Infinity", "-Infinity", "1e308", "1e309", "1e999", "-1e999", "0e999", "1e-999", "18446744073709551615",
    "18446744073709551616", "9223372036854775808", "9" * 40, "1" + "0" * 400, "4294967296", "null", "true",
]  # fmt: skip
VALUES: list[Any] = [
    None, True, False, -1, 0.5, 2**64, "1", "", "lf", [], {}, [1], [1, 2], [[1, 2]], [1, 2, 3], {"at": [0, 0]},
    "//", ["a"], ["a", "a"], ["/*", "*/"], {"line": "a"}, 63, 64, {"doc": 1, "ops": [{"at": [0, 0], "text": ""}]},
]  # fmt: skip
KEYS = [
    "x", "cmd", "text", "at", "range", "force", "n", "owner", "id", "collapse", "stick", "brackets", "eol", "kind", "",
    "Cmd", "marks", "line", "block", "quotes", "find", "doc", "doc", "edits", "ops",
]  # fmt: skip
WHOLE = [
    b"[]", b"{}", b"1", b'"size"', b"null", b"{", b"}", b"[" * 128, b"[" * 127 + b"]" * 127, b"[" * 5000,
    b'{"a":' * 200, b"\xff", b"\xef\xbb\xbf{\"cmd\":\"size\"}", b'{"cmd":"size"} x', b'{"cmd":"size"}{}',
    b'{"cmd":"size",}', b"{'cmd':'size'}", b'{"cmd":"\xed\xa0\x80"}', b'{"cmd":"\xc0\xaf"}',
    b'{"cmd":"\xf4\x90\x80\x80"}', b'{"cmd":"size\x00"}', b'{"cmd":"size"}\x00', b'{"cmd":"open","text":"\\ud83d"}',
    b'{"cmd":"open","text":"\\ude00"}', b'{"cmd":"open","text":"\\ud83dx"}',
    b'{"cmd":"open","text":"\\ud83d\\ud83d\\ude00"}', b'{"cmd":"open","text":"\\ude00\\ud83d"}',
    b'{"cmd":"open","text":"\\x41"}', b'{"cmd":"open","text":"\\u12"}', b'{"cmd":"open","text":"\\uD83D\\uDE00"}',
    b'{"cmd":"open","text":"a\tb"}', b'{"cmd":"open","text":"\\b\\f\\n\\r\\t\\/\\\\\\""}', b'{"cmd":"\\u0073ize"}',
    b'{"\\u0063md":"size"}', b'{"cmd":"size" }\r', b'{"cmd":"undo","n":1}', b'{"cmd":"SIZE"}', b'{"cmd":"size "}',
    b'{"cmd":"run"}', b'{"cmd":["size"]}', b'[{"cmd":"size"}]', b'{"cmd":"edit","ops":[]}', b'{"cmd":"edit","ops":{}}',
    b'{"cmd":"edit","ops":[{"at":[0,0],"range":[1,1,1,1],"text":""}]}', b'{"cmd":"edit","ops":[{"text":""}]}',
    b'{"cmd":"edit","ops":[{"at":null,"range":[1,1,1,1],"text":""}]}',
    b'{"cmd":"edit","ops":[{"at":[0,0],"text":"","force":null}]}',
    b'{"cmd":"edit","ops":[{"at":[0,0],"text":"","force":1}]}', b'{"cmd":"edit","ops":[{"at":[0,0,0],"text":""}]}',
    b'{"cmd":"edit","ops":[{"range":[1,1,1],"text":""}]}', b'{"cmd":"decos","at":[0,0],"owner":null}',
    b'{"cmd":"open","text":"","brackets":null}', b'{"cmd":"open","text":"","eol":null}', b'{"cmd":"eol","kind":null}',
    b'{"cmd":"open","text":"","eol":"mixed"}', b'{"cmd":"open","text":"","eol":"lf","kind":"lf"}', b'{"cmd":"eol"}',
    b'{"cmd":"open","text":"\\n","eol":"cr","eol":"crlf"}', b'{"cmd":"eol","kind":"LF"}', b'{"cmd":"eol","eol":"lf"}',
    b'{"cmd":"eol","kind":"\\u006cf"}', b'{"cmd":"eol","kind":"lf","at":[0,0]}', b'{"cmd":"eol","kind":"lf\\u0000"}',
    b'{"cmd":"open","text":"","marks":null}', b'{"cmd":"open","text":"","marks":[]}',
    b'{"cmd":"open","text":"(","marks":{}}', b'{"cmd":"open","text":"(","marks":{"quotes":[]}}',
    b'{"cmd":"open","text":"","marks":{"line":""}}', b'{"cmd":"open","text":"","marks":{"line":null}}',
    b'{"cmd":"open","text":"","marks":{"lines":"//"}}', b'{"cmd":"open","text":"","marks":{"line":"//","cmd":"open"}}',
    b'{"cmd":"open","text":"","line":"//"}', b'{"cmd":"open","text":"","marks":{"block":["/*"]}}',
    b'{"cmd":"open","text":"","marks":{"block":["/*","*/","*/"]}}',
    b'{"cmd":"open","text":"","marks":{"line":1,"line":"//"}}', b'{"cmd":"open","text":"","marks":{"line":"\\u000a"}}',
    b'{"cmd":"open","text":"","marks":{"quotes":["\\""," \\\\"]}}',
    b'{"cmd":"open","text":"","marks":{"quotes":["\\\\"]}}', b'{"cmd":"open","text":"","marks":{"quotes":["ab"]}}',
    b'{"cmd":"open","text":"","marks":{"quotes":[""]}}', b'{"cmd":"open","text":"","marks":{"quotes":["\\u0061","a"]}}',
    b'{"cmd":"open","text":"","marks":{"quotes":["a",null]}}',
    b'{"cmd":"open","text":"","marks":{"quotes":["\\ud83d"]}}',
    b'{"cmd":"open","text":"","marks":{"quotes":["\\ud83d\\ude00"]}}',
    b'{"cmd":"open","text":"","marks":{"quotes":["1","2","3","4","5","6","7","8","9"]}}', b'{"cmd":"size","marks":{}}',
    b'{"cmd":"find"}', b'{"cmd":"find","text":""}', b'{"cmd":"find","text":null}', b'{"cmd":"find","text":["a"]}',
    b'{"cmd":"find","find":"a"}', b'{"cmd":"find","text":"a","text":""}', b'{"cmd":"find","text":"","text":"\\u0061"}',
    b'{"cmd":"find","text":"a","at":[0,1]}', b'{"cmd":"find","text":"\\ude00"}', b'{"cmd":"find","text":"\\r\\n"}',
    b'{"cmd":"replace","find":"a"}', b'{"cmd":"replace","text":"a"}', b'{"cmd":"replace","find":"","text":"a"}',
    b'{"cmd":"replace","find":null,"text":"a"}', b'{"cmd":"replace","find":"a","text":null}',
    b'{"cmd":"replace","find":"a","find":"","text":""}', b'{"cmd":"replace","find":"","find":"\\u0000","text":""}',
    b'{"cmd":"replace","find":"a","text":"b","force":false}', b'{"cmd":"replace","text":"\\n","find":"\\u000a"}',
    b'{"cmd":"size","doc":64}', b'{"cmd":"size","doc":18446744073709551615}', b'{"cmd":"size","doc":18446744073709551616}',
    b'{"cmd":"size","doc":null}', b'{"cmd":"size","doc":-0}', b'{"cmd":"size","doc":1.0}', b'{"cmd":"size","doc":"1"}',
    b'{"cmd":"size","doc":[1]}', b'{"cmd":"size","Doc":1}', b'{"cmd":"size","doc":null,"doc":1}',
    b'{"cmd":"size","doc":1,"doc":null}',
    b'{"cmd":"size","\\u0064oc":63}', b'{"doc":99,"cmd":"open","text":""}', b'{"doc":99,"cmd":"open","text":1}',
    b'{"cmd":"edit","doc":64,"ops":[{"at":[9,8],"text":""}]}', b'{"cmd":"edit","doc":1,"ops":[{"at":[0,0],"text":"","doc":1}]}',
    b'{"cmd":"joint"}', b'{"cmd":"joint","edits":null}', b'{"cmd":"joint","edits":[]}', b'{"cmd":"joint","edits":[1,2]}',
    b'{"cmd":"joint","edits":[{"doc":1,"ops":[{"at":[0,0],"text":""}]}]}',
    b'{"cmd":"joint","edits":[{"doc":64,"ops":[{"at":[0,0],"text":""}]},{"doc":64,"ops":[{"at":[0,0],"text":""}]}]}',
    b'{"cmd":"joint","edits":[{"doc":1,"ops":[{"at":[0,0],"text":""}]},{"doc":1,"ops":[{"at":[9,0],"text":""}]}]}',
    b'{"cmd":"joint","edits":[{"doc":1,"ops":[{"at":[0,0],"text":""}]},{"doc":2,"ops":[]}]}',
    b'{"cmd":"joint","edits":[{"doc":1,"ops":[{"at":[0,0],"text":""}]},{"doc":2,"ops":[{"at":[0,0],"text":""}]}],"doc":1}',
    b'{"cmd":"joint","edits":[{"doc":1,"ops":[{"at":[0,0],"text":""}]},{"doc":2,"doc":64,"ops":[{"at":[0,0],"text":""}]}]}',
    b'{"cmd":"joint","edits":[{"doc":1,"ops":[{"at":[1,0],"text":""}]},{"ops":[{"at":[0,0],"text":""}],"doc":64}]}',
    b'{"cmd":"joint","edits":[{"doc":1,"ops":[{"at":[1,0],"text":""}]},{"doc":2,"ops":[{"at":[0,0],"text":1}]}]}',
    b'{"cmd":"joint","edits":[{"doc":1,"ops":[]},{"doc":2,"ops":[]}],"edits":[]}',
    b'{"cmd":"\\u006aoint","edits":[{"doc":62,"ops":[{"at":[0,0],"text":"\\r"}]},{"ops":[{"at":[0,0],"text":"x"}],"doc":63}]}',
    b'{"cmd":1,"cmd":"size"}', b'{"cmd":"undo","cmd":"size"}',
    b'{"cmd":1e999,"cmd":"size"}', b'{"cmd":"\\ud800","cmd":"size"}', b"", b" ", b"\t \r", b"\r", b"\x0b", b"\x0c",
    b"\xc2\xa0", b"// x", b"{\"cmd\":\"size\"/**/}",
]  # fmt: skip


def made_from(draw: Random, line: bytes) -> bytes:
    """A hostile line, now and then one that has nothing to do with the given one."""
    return draw.choice(WAYS)(draw, line).replace(b"\n", b" ")


def whole(draw: Random, _: bytes) -> bytes:
    return draw.choice(WHOLE)


def nested(draw: Random, _: bytes) -> bytes:
    """As deep as may be, or one deeper, in a field that a later one replaces."""
    depth = draw.choice([125, 126, 127, 128])
    opening, closing = draw.choice([(b"[", b"]"), (b'{"a":', b"}")])
    return b'{"cmd":' + opening * depth + b"1" + closing * depth + b',"cmd":"size"}'


def cut(draw: Random, line: bytes) -> bytes:
    return line[: draw.randint(0, len(line))]


def changed(draw: Random, line: bytes) -> bytes:
    """One byte is another, goes, or comes."""
    at = draw.randint(0, len(line))
    return line[:at] + bytes(draw.choices(BYTES, k=draw.randint(0, 2))) + line[at + draw.randint(0, 2) :]


def with_number(draw: Random, line: bytes) -> bytes:
    """One of its numbers is another."""
    found = list(re.finditer(rb"\d+", line))
    if not found:
        return line
    start, end = draw.choice(found).span()
    return line[:start] + draw.choice(NUMBERS).encode() + line[end:]


def with_parts(draw: Random, line: bytes) -> bytes:
    """An object or an array of it has a part more, a part less, or another part."""
    value = loosely_read(line.decode("utf-8", "replace"))
    inner = draw.choice([part for part in parts(value) if isinstance(part, (dict, list))] or [value])
    if isinstance(inner, dict):
        change_fields(draw, inner)
    elif isinstance(inner, list):
        change_items(draw, inner)
    return json.dumps(value, separators=(",", ":")).replace(f'"{RAW}"', draw.choice(NUMBERS)).encode()


def loosely_read(line: str) -> Any:
    """What Python takes the line for; None where it is too strange."""
    try:
        return json.loads(line)
    except (ValueError, RecursionError):
        return None


def parts(value: Any) -> list[Any]:
    """The value, and all that is in it."""
    items = value.values() if isinstance(value, dict) else value if isinstance(value, list) else []
    return [value, *(part for item in items for part in parts(item))]


def change_fields(draw: Random, fields: dict[str, Any]) -> None:
    name = draw.choice([*fields, draw.choice(KEYS)])
    if draw.random() < 0.3:
        fields.pop(name, None)
    else:
        fields[name] = draw.choice([*VALUES, RAW])


def change_items(draw: Random, items: list[Any]) -> None:
    at = draw.randint(0, len(items))
    if draw.random() < 0.4:
        del items[at : at + 1]
    else:
        items[at : at + draw.randint(0, 1)] = [draw.choice([*VALUES, *items, RAW])]


def doubled(draw: Random, line: bytes) -> bytes:
    """A field stands twice, and the last one counts."""
    key = draw.choice(re.findall(rb'"(\w+)":', line) or [b"cmd"])
    value = json.dumps(draw.choice(VALUES)).encode()
    if draw.random() < 0.7:
        return line.replace(b'"%b":' % key, b'"%b":%b,"%b":' % (key, value, key), 1)
    return line[:-1] + b',"%b":%b}' % (key, value)


def respelled(draw: Random, line: bytes) -> bytes:
    return spelled_otherwise(draw, line.decode("utf-8", "replace")).encode("utf-8", "surrogatepass")


def spelled_otherwise(draw: Random, line: str) -> str:
    """The same command: blanks between its parts, fields in another order, letters as escapes."""
    value = loosely_read(line)
    if isinstance(value, dict):
        value = dict(draw.sample(list(value.items()), k=len(value)))
    blank = draw.choice(["", " ", "\t", "\r "])
    line = json.dumps(value, ensure_ascii=draw.random() < 0.5, separators=(blank + "," + blank, blank + ":" + blank))
    if draw.random() < 0.5:
        line = re.sub(r'(?<=")[a-z]', lambda found: f"\\u{ord(found[0]):04x}", line)
    return blank + line + blank


WAYS: list[Callable[[Random, bytes], bytes]] = [
    whole, whole, nested, cut, changed, changed, changed, with_number, with_number, with_parts, with_parts, with_parts,
    doubled, respelled,
]  # fmt: skip
