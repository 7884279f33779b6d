"""What each promise of README cites in the parentheses at its end: calls with their clauses, laws and definitions.

A part of it, up to a `;`, names calls, as `Type::call`, or `call` of the type that was named last, and those of their clauses
that are meant: all of a call where none of it is named. A type alone means its public calls. A law or a definition is
named beside its file, as `CRATE/proofs/FILE`.
"""
import collections
import functools
import re
from pathlib import Path
from typing import NamedTuple

from making.pages import ROOT

import crates
from contracts import Clause, Function, crate_of, every_function

PART = re.compile(r"^## What it promises\n(.*?)^## ", re.M | re.S)
PROMISE = re.compile(r"^(\d+)\. .*?(?:\(([^()]*)\))?$", re.M)
NAME = re.compile(r"`([^`]+)`")


class Promise(NamedTuple):
    """A promise, and what it cites: calls, each with its clauses, laws and definitions with their files, and what is nowhere."""

    number: int
    said: str
    calls: list[tuple[Function, list[Clause]]]
    words: list[tuple[Path, str]]
    lost: list[str]


@functools.cache
def functions():
    """The functions of program and library by their types and names: methods, and public ones that are of no type."""
    found, shipped = collections.defaultdict(list), crates.shipped(crates.read())
    for it in every_function():
        if crate_of(it.path) in shipped and (it.owner or it.is_public):
            found[it.owner, it.name].append(it)
    return dict(found)


@functools.cache
def methods(type_):
    """The public methods of a type, or those of a trait."""
    return [it for (owner, _), found in functions().items() if owner == type_ for it in found if it.is_public]


def called(owner, name):
    """The functions that a name means, of the type that was named last; a type means its methods."""
    if "::" in name:
        return functions().get((*name.split("::"),), [])
    return functions().get((owner, name)) or functions().get(("", name)) or methods(name)


def has(path, name):
    """Whether a file of specs or proofs has this name at the front of a line."""
    return path.exists() and re.search(rf"^(?:[a-z]+ )*{re.escape(name)}\b", path.read_text(), re.M)


def meant(function, names):
    """The clauses of a call that are meant, with what the call asks for: all where none of them is named."""
    if not any(it.name in names for it in function.clauses):
        return function.clauses
    return [it for it in function.clauses if it.name in names or it.kind == "requires"]


def clauses_of(calls):
    """The names of the clauses of these calls."""
    return {clause.name for call in calls for clause in call.clauses}


def cited_in(number, said):
    """A promise, from what stands in its parentheses."""
    found, owner = Promise(number, said, [], [], []), ""
    for part in said.split(";"):
        calls, others = [], []
        for name in NAME.findall(part):
            of = [] if name in clauses_of(calls) else called(owner, name)
            owner = (of[0].owner if of else "") or owner
            (calls.extend(of) if of else others.append(name))
        files = [ROOT / f"crates/{name.removesuffix('.antt')}.antt" for name in others if "/" in name]
        found.calls.extend((it, meant(it, others)) for it in calls)
        for name in (it for it in others if "/" not in it and it not in clauses_of(calls)):
            places = [(path, name) for path in files if has(path, name)]
            (found.words.extend(places) if places else found.lost.append(name))
    return found


@functools.cache
def promises():
    """The promises of README."""
    return [cited_in(int(number), said) for number, said in PROMISE.findall(PART.search((ROOT / "README.md").read_text())[1])]
