"""The numbers with a name that the definitions of docs/BELIEVE.md take from the code or have themselves, from the sources."""
import collections
import re
from pathlib import Path
from typing import NamedTuple

from making.commands import power
from making.constants import CONSTANT, value_of
from making.pages import ROOT, Part, script

import crates
from contracts import crate_of, doc_above, said_first

HEAD = ["| name | value | what it is | where |", "|---|--:|---|---|"]
NUMBER = re.compile(r"(?:abbrev|unfoldable) pub (\w+) : ℕ\n\1 = (.+)$")
ROUND = 100_000  # a number above it is written as a power of two, where it is one or one less


class Constant(NamedTuple):
    """A constant: its value, what the comment above it says, and its file."""

    value: int
    said: str
    path: Path


def coded():
    """The constants of the code, by their crates and names."""
    found, values = {}, collections.defaultdict(dict)
    for path in sorted(ROOT.glob("crates/*/src/**/*.rt")):
        crate, lines = crate_of(path), path.read_text().split("\n")
        for at, line in enumerate(lines):
            match = CONSTANT.match(line)
            if match and (value := value_of(match[2], values[crate])) is not None:
                values[crate][match[1]] = value
                found[crate, match[1]] = Constant(value, said_first(doc_above(lines, at)), path)
    return found


def defined(definition, value):
    """A definition that is a number itself."""
    place, own, _ = definition
    lines = (ROOT / place).read_text().split("\n")
    return Constant(value, said_first(doc_above(lines, lines.index(own[0]))), ROOT / place)


def named():
    """The constants by their crates and names, and the definitions that are one of them under another name."""
    lister = script("docs/believed")
    definitions, of_code = lister.definitions(), coded()
    constants, others = {}, collections.defaultdict(list)
    for key in lister.listed(definitions):
        _, lines, imports = definitions[key]
        text = "\n".join(lines)
        of = {(crate, name) for crate, file, name in lister.named_in(text, imports) if file.endswith("TheConstants")}
        constants |= {it: of_code[it] for it in of & of_code.keys()}
        if match := NUMBER.match(text):
            for same in (it for it in of if it[1] == match[2]):
                others[same].append(key[2])
            if (value := value_of(match[2])) is not None:
                constants[key[0], key[2]] = defined(definitions[key], value)
    return constants, others


def shown(value):
    """The number, as a page writes it."""
    written = power(value).replace("**", "^")
    return written if "^" in written and value > ROUND else f"{value:,}"


def row(name, others, constant):
    """A row of the table; a constant without a comment is what its name says."""
    names = ", ".join(f"`{it}`" for it in [name, *sorted(others)])
    said = constant.said or name.replace("_", " ").lower()
    where = constant.path.relative_to(ROOT / "crates").as_posix()
    return f"| {names} | {shown(constant.value)} | {said[0].upper()}{said[1:]} | `{where}` |"


def parts():
    constants, others = named()
    order = [*crates.read()]
    keys = sorted(constants, key=lambda key: (order.index(key[0]), key[1]))
    yield Part("docs/BELIEVE.md", "limits", HEAD + [row(key[1], others[key], constants[key]) for key in keys])
