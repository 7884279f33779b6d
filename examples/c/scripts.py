#!/usr/bin/env -S python3 -B
"""Turns scripts into programs in C that make the calls of their commands and print the replies.

examples/c/scripts.py SCRIPT                      writes the program of a script on standard output
examples/c/scripts.py --check LIBRARY SCRIPT ..   compiles and runs each, and compares with SCRIPT.stdout

LIBRARY is the folder of libtextmodel.so. The header is that of the checkout, or in the folder that HEADER names.
"""
import os
import re
import subprocess
import sys
import tempfile
from pathlib import Path

HERE = Path(__file__).resolve().parent
TOP = HERE.parent.parent
HEADER = os.environ.get("HEADER", TOP / "crates" / "textmodel_c")
sys.path.insert(0, str(TOP / "fuzz"))

from commands import Refused, request_of  # noqa: E402
from texts import text_of  # noqa: E402

ENDINGS = {"lf": "TM_LF", "crlf": "TM_CRLF"}
ESCAPES = {'"': '\\"', "\\": "\\\\", "\n": "\\n", "\r": "\\r", "\t": "\\t", "?": "\\?"}
WORDS = ["-std=c11", "-Wall", "-Wextra", "-Werror", "-pedantic", f"-I{HERE}", f"-I{HEADER}"]

# ---- Values in C


def character(it):
    code = ord(it)
    if 0x20 <= code < 0x7F or it in ESCAPES:
        return ESCAPES.get(it, it)
    return f"\\{code:03o}" if code < 0xA0 else f"\\u{code:04x}" if code < 0x10000 else f"\\U{code:08x}"


def text(units):
    return f'u"{"".join(map(character, text_of(units)))}"'


def sized(units):
    """A text, and how many units it has."""
    return f"{text(units)}, {len(units)}"


def listed(type_, items):
    """Some items, and how many they are."""
    return f"({type_}[]){{{', '.join(items)}}}, {len(items)}" if items else "NULL, 0"


def flag(value):
    return "true" if value else "false"


# ---- Commands with texts and lists


def opened(doc, units, pairs, hiding, ending):
    fields = {"utf16": text(units), "length": len(units)}
    if ending:
        fields["ending"] = ENDINGS[ending]
    if pairs:
        brackets = "".join(map("".join, pairs))
        lengths = ", ".join(f"{{{len(opening)}, {len(closing)}}}" for opening, closing in pairs)
        fields |= {"pairs": f"(tm_pair[]){{{lengths}}}", "pair_count": len(pairs)}
        fields |= {"brackets": text(brackets), "brackets_length": len(brackets)}
    if hiding:
        parts = [hiding.line or "", *(hiding.block or ("", "")), hiding.quotes]
        lengths = ", ".join(str(len(part)) for part in parts[:3])
        fields["hiding"] = f"&(tm_hiding){{{sized(''.join(parts))}, {lengths}}}"
    opening = ", ".join(f".{name} = {value}" for name, value in fields.items())
    return f"changed(tm_open(&session, {doc}, &(tm_opening){{{opening}}}), {doc});"


def span(doc, op):
    """The offsets of an op, which a position is turned into."""
    if op.at:
        return ", ".join(map(str, op.at))
    line, column, end_line, end_column = op.range
    return f"offset_at({doc}, {line}, {column}), offset_at({doc}, {end_line}, {end_column})"


def edited(doc, ops):
    if len(ops) > 1 or ops[0].force:
        return f"changed({jointly([(doc, ops)])}, {doc});"
    if ops[0].at:
        return f"changed(tm_edit(&session, {doc}, {span(doc, ops[0])}, {sized(ops[0].text)}), {doc});"
    line, column, end_line, end_column = ops[0].range
    places = f"(tm_place){{{line}, {column}}}, (tm_place){{{end_line}, {end_column}}}"
    return f"changed(tm_edit_at(&session, {doc}, {places}, TM_UTF16, {sized(ops[0].text)}), {doc});"


def jointly(edits):
    """The call that makes edits of several documents, or several of one."""
    ops = [f"{{{doc}, {span(doc, op)}, {len(op.text)}, {flag(op.force)}}}" for doc, ops in edits for op in ops]
    return f"tm_joint(&session, {listed('tm_op', ops)}, {sized(''.join(op.text for _, ops in edits for op in ops))})"


def joint(_, edits):
    return f"jointly_changed({jointly(edits)}, {listed('uint64_t', [str(doc) for doc, _ in edits])});"


def replaced(doc, sought, units):
    return f"changed(tm_replace_all(&session, {doc}, {sized(sought)}, {sized(units)}, &count), {doc});"


def decorated(doc, owner, remove, add):
    new = [f"{{{at[0]}, {at[1]}, {stick}, {flag(collapse)}}}" for at, stick, collapse in add]
    old = listed("uint64_t", [str(id) for id in remove])
    return f"reply_decorate({doc}, {owner}, {old}, {listed('tm_new_decoration', new)});"


def decorations(doc, at, owner):
    return f"reply_decos({doc}, {at[0]}, {at[1]}, {owner or 0}, {flag(owner is None)});"


MAKERS = {
    "open": opened,
    "edit": edited,
    "joint": joint,
    "replace": replaced,
    "decorate": decorated,
    "decos": decorations,
    "undo": lambda doc: f"changed(tm_undo(&session, {doc}), {doc});",
    "redo": lambda doc: f"changed(tm_redo(&session, {doc}), {doc});",
    "stop": lambda doc: f"done(tm_stop(&session, {doc}));",
    "eol": lambda doc, kind: f"changed(tm_set_eol(&session, {doc}, {ENDINGS[kind]}), {doc});",
    "value": lambda doc, at: f"reply_value({doc}, {at[0]}, {at[1]});",
    "find": lambda doc, sought: f"reply_find({doc}, {sized(sought)});",
    "snapshot": lambda doc: f"told_count(tm_snapshot(&session, {doc}, &count));",
    "read": lambda doc, id, room: f"told_units(tm_read(&session, {doc}, {id}, units, {room}, &count));",
    "level": lambda doc, line, column: f"told_count(tm_level(&session, {doc}, {line}, {column}, TM_UTF16, &count));",
    "close": lambda doc, id: f"done(tm_close(&session, {doc}, {id}));",
    "mirrored": lambda doc, n: f"told_units(tm_mirrored(&session, {doc}, {n}, units, REPLY_ROOM, &count));",
}
EMPTY_SEARCH = re.compile(rb'{"cmd":"find","text":""}')


def call(line):
    """The call of a line. One that seeks nothing is a wrong line, and a call that is refused."""
    if EMPTY_SEARCH.fullmatch(line):
        return "reply_find(0, NULL, 0);"
    name, doc, values = request_of(line)
    if name in MAKERS:
        return MAKERS[name](doc, *values)
    return f"reply_{name}({', '.join(map(str, [doc, *values]))});"


def program(script):
    try:
        calls = "".join(f"  {call(line)}\n" for line in script.read_bytes().splitlines())
    except Refused as why:
        raise SystemExit(f"scripts: {script}: {why}") from None
    begins = "  if (tm_make(&session) != TM_OK) return 1;\n"
    return f'#include "replies.h"\n\nint main(void) {{\n{begins}{calls}  tm_free(&session);\n  return 0;\n}}\n'


# ---- Runs


def replies(script, library, room):
    """What the program prints."""
    source, made = room / "script.c", room / "script"
    source.write_text(program(script))
    subprocess.run(["cc", *WORDS, "-o", made, source, f"-L{library}", "-ltextmodel", f"-Wl,-rpath,{library}"], check=True)
    return subprocess.run([made], stdout=subprocess.PIPE, timeout=60, check=True).stdout


def passes(script, library):
    wanted = Path(f"{script}.stdout").read_bytes()
    with tempfile.TemporaryDirectory() as room:
        came = replies(script, library, Path(room))
    for number, (got, want) in enumerate(zip(came.splitlines(), wanted.splitlines()), 1):
        if got != want:
            print(f"{script}: reply {number} is {got.decode()} in place of {want.decode()}", file=sys.stderr)
    if came != wanted:
        print(f"{script}: the replies of calls differ", file=sys.stderr)
    return came == wanted


def main(words):
    if len(words) == 1 and not words[0].startswith("-"):
        print(program(Path(words[0])), end="")
        return 0
    if len(words) < 3 or words[0] != "--check":
        raise SystemExit(__doc__)
    library = Path(words[1]).resolve()
    try:
        return 0 if all([passes(Path(script), library) for script in words[2:]]) else 1
    except subprocess.SubprocessError as why:
        raise SystemExit(f"scripts: {why}") from None


if __name__ == "__main__":
    sys.exit(main(sys.argv[1:]))
