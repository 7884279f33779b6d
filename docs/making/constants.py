"""Constants that are said twice: a constant of the code and a definition of the same value, from the sources.

A definition that cites the constant is no second one. Values below LEAST are left out: many things are that small.
"""
import re
from typing import NamedTuple

from making.pages import ROOT, Part

import crates
from contracts import crate_of

CONSTANT = re.compile(r"^(?:pub(?:\(\w+\))? )?const (\w+): \w+ = (.+);$", re.M)
PUBLIC = re.compile(r"^pub const (\w+): \w+ = (.+);$", re.M)
DEFINITION = re.compile(r"^(?:abbrev pub|unfoldable pub|abbrev) (\w+) : (?:ℕ|ℤ)\n\1 = ([^A-Za-z\n]+)$", re.M)
LEAST = 1_000


class Constant(NamedTuple):
    """A constant or a definition: of which crate, its name and its value."""

    crate: str
    name: str
    value: int


def value_of(written, known=None):
    """The number that is written, if it is one; names may stand in it whose values are known."""
    written = re.sub(r"\b[A-Z_]{2,}\b", lambda it: str((known or {}).get(it[0], it[0])), written)
    plain = re.sub(r"\bas \w+", "", written).replace("_", "").replace("u32::MAX", str(2**32 - 1))
    plain = plain.replace("^", "**").strip()
    if not re.fullmatch(r"(?:0x[0-9A-Fa-f]+|[\d\s()+*<-])+", plain):
        return None
    return eval(plain, {"__builtins__": {}})  # numbers and signs alone


def found_in(folder, ending, pattern):
    """What the pattern finds in the crates of program and library, with a value that is not small."""
    shipped = crates.shipped(crates.read())
    for path in sorted(ROOT.glob(f"crates/*/{folder}/**/*{ending}")):
        crate = crate_of(path)
        for name, written in pattern.findall(path.read_text()):
            value = value_of(written)
            if crate in shipped and value is not None and value >= LEAST:
                yield Constant(crate, name, value)


def stands_on(known, one, other):
    """Whether the one crate is the other, or stands on it."""
    return other in {it.name for it in crates.below(known, [one])}


def same_as(known, definition, constants):
    """The constants that say what a definition says: of its name, or else all of its value."""
    found = [it for it in constants if it.value == definition.value and stands_on(known, it.crate, definition.crate)]
    return [it for it in found if it.name.lower() == definition.name] or found


def told(one, others):
    """A value that is said more than once, in words."""
    return f"`{one.name}` of `{one.crate}` by {' and '.join(f'`{it.name}` of `{it.crate}`' for it in others)}"


def twice():
    """What is said twice: definitions, and then public constants of a crate below."""
    known = crates.read()
    code = [*found_in("src", ".rt", CONSTANT)]
    for definition in found_in("specs", ".antt", DEFINITION):
        if others := same_as(known, definition, code):
            yield told(definition, others)
    for constant in found_in("src", ".rt", PUBLIC):
        if others := [it for it in same_as(known, constant, code) if it.crate != constant.crate]:
            yield told(constant, others)


def parts():
    found = [*twice()]
    yield Part("docs/DECISIONS.md", "constants", [f"Said again, by a constant of the code: {'; '.join(found)}."])
