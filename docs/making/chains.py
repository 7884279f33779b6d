"""The crates, what each is and stands on, and the longest chain of them, from crates.txt and the first lines of the sources."""
import re

from making.pages import ROOT, Part

import crates  # of tools/, which making.pages makes known

HEAD = ["| crate | what it is | stands on |", "|---|---|---|"]


def said_of(crate):
    """What the first comment of a crate says first."""
    source = next(path for name in ("lib", "main") if (path := ROOT / f"crates/{crate}/src/{name}.rt").exists())
    lines = source.read_text().split("\n")
    said = " ".join(line.removeprefix("//!").strip() for line in lines if line.startswith("//!"))
    return re.split(r"(?<=\.)\s", said)[0].removesuffix(".").replace("|", "\\|")


def stands_on(known, name):
    """What a crate stands on, without what one of those stands on itself."""
    libraries = known[name].libraries
    below = {library: {it.name for it in crates.below(known, [library])} - {library} for library in libraries if library in known}
    return [library for library in libraries if not any(library in lower for lower in below.values())]


def table(known):
    """The table of crates, in the groups and the order of crates.txt."""
    group = None
    for name, crate in known.items():
        if crate.group != group:
            group = crate.group
            yield f"| | *{group[0].lower() + group[1:]}* | |"
        yield f"| `{name}` | {said_of(name)} | {', '.join(f'`{it}`' for it in stands_on(known, name))} |".replace("|  |", "| |")


def chain(known):
    """How long chains of crates are, in a sentence."""
    tested = crates.longest_chain(known)
    shipped = max((crates.longest_chain(known, name) for name in ("textmodel", "textmodel_c")), key=len)
    names = ", ".join(f"`{name}`" for name in shipped)
    return [f"The longest chain of crates, each on the one before it, has {len(shipped)}, with tests {len(tested)}: {names}."]


def parts():
    known = crates.read()
    yield Part("docs/DESIGN.md", "crates", [*HEAD, *table(known)])
    yield Part("docs/DESIGN.md", "chain", chain(known))
