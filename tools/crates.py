#!/usr/bin/env -S python3 -B
"""What crates.txt says: the crates, and on which libraries each stands.

tools/crates.py names NAME..       these crates and those below them, the lowest first
tools/crates.py lines NAME..       their lines of crates.txt, in order of their names
tools/crates.py above NAME..       these crates and those that stand on one of them, the lowest first
tools/crates.py libraries NAME     what a crate stands on by its line, also the kit's crates
tools/crates.py group WORD..       the crates of the groups whose headings begin with one of the words (as Tests)
tools/crates.py chain [NAME]       the longest chain of crates, up to NAME if it is given, the lowest first

With --in FOLDER, first, crates.txt is that of another folder.
"""
import re
import sys
from pathlib import Path
from typing import NamedTuple

TOP = Path(__file__).resolve().parent.parent
SHIPPED = ("textmodel", "textmodel_c")
LINE = re.compile(r"(\w+)( staticlib)?:(.*)")


class Crate(NamedTuple):
    """A crate, the heading of its group, and what it stands on, in the order of its line."""

    name: str
    line: str
    is_static: bool
    libraries: list[str]
    group: str


def read(folder=TOP):
    """The crates of the repository by their names, in the order of crates.txt."""
    found, group = {}, ""
    for line in (Path(folder) / "crates.txt").read_text().splitlines():
        if line.startswith("#"):
            group = line.lstrip("# ")
        elif match := LINE.fullmatch(line.strip()):
            found[match[1]] = Crate(match[1], line.strip(), bool(match[2]), match[3].split(), group)
    return found


def below(crates, names):
    """These crates and those below them, the lowest first."""
    found = {}

    def take(name):
        for library in crates[name].libraries:
            if library in crates and library not in found:
                take(library)
        found[name] = crates[name]

    for name in names:
        if name not in found:
            take(name)
    return list(found.values())


def above(crates, names):
    """These crates and those that stand on one of them, the lowest first."""
    found = set(names)
    for crate in below(crates, crates):
        if found.intersection(crate.libraries):
            found.add(crate.name)
    return [crate for crate in below(crates, crates) if crate.name in found]


def longest_chain(crates, name=None):
    """The longest chain of crates, each of which stands on the one before it, up to the crate of this name."""
    chains = {}
    for crate in below(crates, [name] if name else crates):
        lower = [chains[library] for library in crate.libraries if library in crates]
        chains[crate.name] = max(lower, key=len, default=[]) + [crate.name]
    return max(chains.values(), key=len)


def shipped(crates):
    """The names of the crates that the program and the library for C stand on, with these two."""
    return {crate.name for crate in below(crates, SHIPPED)}


def main(words):
    folder = TOP
    if words[:1] == ["--in"]:
        folder, words = words[1], words[2:]
    crates = read(folder)
    command, names = words[0] if words else "", words[1:]
    if command != "group" and (missing := [name for name in names if name not in crates]):
        sys.exit(f"crates.py: no crate {missing[0]} in crates.txt")
    if command == "names":
        told = [crate.name for crate in below(crates, names)]
    elif command == "lines":
        told = sorted(crate.line for crate in below(crates, names))
    elif command == "above":
        told = [crate.name for crate in above(crates, names)]
    elif command == "libraries" and len(names) == 1:
        told = crates[names[0]].libraries
    elif command == "group":
        told = [crate.name for crate in crates.values() if crate.group.startswith(tuple(names))]
    elif command == "chain":
        told = longest_chain(crates, *names)
    else:
        sys.exit(__doc__)
    print("\n".join(told))


if __name__ == "__main__":
    main(sys.argv[1:])
