"""Whether each name that pages put in backticks stands somewhere in the sources, so that none outlives what it names."""
import re

from making.pages import ROOT

PAGES = ["README.md", "CONTRIBUTING.md", "docs/DESIGN.md", "docs/DECISIONS.md", "docs/BELIEVE.md", "docs/GLOSSARY.md", "bench/README.md"]
SOURCES = ["crates/*/src/**/*.rt", "crates/*/specs/**/*.antt", "crates/*/proofs/*.antt", "crates/*/*.h", "crates.txt", "docs/commands.json"]
BESIDE = ["bench/*", "fuzz/*", "tools/*", "examples/*", "python/*", "docs/wrong_bodies/*/*", "crates/*/must-fail/*", "build", "install"]
OF_THE_KIT = {"Threads", "Wait", "Net", "Processes"}  # words of HANDLES, which name what no crate asks for
WORD = re.compile(r"[A-Za-z_][\w-]*")
MENTION = re.compile(r"`([A-Za-z_]\w{2,}(?:::\w+)?)`")


def words():
    """All words of the sources and of the files' names."""
    found = set()
    for pattern in SOURCES + BESIDE:
        for path in ROOT.glob(pattern):
            found.add(path.stem)
            if path.is_file() and path.suffix not in (".md", ".svg", ".pyc"):
                found.update(WORD.findall(path.read_text(errors="replace")))
    return found


def faults():
    known = words() | OF_THE_KIT
    for page in PAGES:
        for name in sorted(set(MENTION.findall((ROOT / page).read_text()))):
            if lost := [part for part in name.split("::") if part not in known]:
                yield f"{page}: `{name}`: nothing is called {lost[0]}"
