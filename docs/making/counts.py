"""How many there are of what pages speak of."""
from making.commands import commands
from making.pages import ROOT, Part, script
from making.sources import files, functions_in

import crates


def counted():
    """Each thing that is counted, and how many there are of it."""
    known = crates.read()
    functions = [it for crate, path in files() for it in functions_in(crate, path.read_text())]
    examples = {path.name.split(".")[0] for path in (ROOT / "examples").glob("*.jsonl")}
    return {
        "crates": len(known),
        "crates that the program and the library for C stand on, with these two": len(crates.shipped(known)),
        "crates in the longest chain of these": max(len(crates.longest_chain(known, name)) for name in crates.SHIPPED),
        "crates in the longest chain, with tests": len(crates.longest_chain(known)),
        "commands": len(commands()),
        "calls of the library for C": sum(it.is_export for it in functions),
        "scripts that pages show": len(examples),
        "tests": sum(it.is_test for it in functions),
        "wrong bodies that the gate tries": len([*ROOT.glob("crates/*/must-fail/*.edit")]),
        "wrong bodies beside it": len([*ROOT.glob("docs/wrong_bodies/*/*.edit")]),
    }


def believed():
    """How long the lists of definitions are, and of which promises, in sentences."""
    lister = script("docs/believed")
    found = lister.definitions()
    for name, listed in lister.lists(found).items():
        files, definitions, lines = lister.sums(found, listed.own)
        others, further, more = lister.sums(found, listed.above)
        of = f"of promise{'s' * (len(listed.promises) > 1)} {joined(listed.promises)}" if listed.promises else "of the library for C"
        said = f"The list, {of}, has {definitions} definitions of {lines} lines in {files} files"
        above = f", and {further} more of {more} lines in {others} file{'s' * (others > 1)} above"
        yield Part("docs/BELIEVE.md", name, [f"{said}{above if others else ''}."])


def joined(numbers):
    """Numbers in a row, in words."""
    *first, last = map(str, numbers)
    return f"{', '.join(first)} and {last}" if first else last


def parts():
    yield from believed()
    yield Part("docs/DESIGN.md", "counts", ["| how many | |", "|---|--:|", *(f"| {what} | {many} |" for what, many in counted().items())])
