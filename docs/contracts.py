"""The contracts in crates/*/src as text: which clauses a function has, and where their words are defined."""
import functools
import itertools
import re
import sys
from pathlib import Path
from typing import NamedTuple

ROOT = Path(__file__).resolve().parent.parent
sys.path.append(str(ROOT / "tools"))  # where crates.py stands
IMPORT = re.compile(r"\s*(?:ghost |pub )?use Rattle\.(\w+)\.specs\.([\w.]+?)(?:\.\{(.*)\}| as (\w+))")
FUNCTION = re.compile(r'( *)(pub )?(?:pub\(\w+\) )?(extern "C" )?fn (\w+)')
TYPE = re.compile(r"\b[A-Z]\w*")
CLAUSE = re.compile(r" *(requires|ensures)\*? (?:(\w+) )?\{")
OWNER = re.compile(r"(?:pub(?:\(\w+\))? )?(impl|trait)\b(?:<[^>]*>)? (.* for )?(\w+)")
EXPORT = re.compile(r"pub use (\w+)::(?:\{([^}]*)\}|(\w+));")
DOC = re.compile(r" *(?:///|--) ?(.*)")


class Clause(NamedTuple):
    """One fact of a contract. A clause may have no name."""

    kind: str
    name: str
    text: str


class Function(NamedTuple):
    """A function or method with its contract, whether it is public, as those of a trait are, or exported to C, what its comment
    says, the types that its head names, and its file."""

    name: str
    owner: str
    is_public: bool
    is_export: bool
    clauses: list[Clause]
    doc: str
    types: set[str]
    path: Path


def crate_of(path):
    """The name of the crate that a file is of."""
    return path.relative_to(ROOT / "crates").parts[0]


@functools.cache
def imports_of(path):
    """The names that a file imports from specs of the repository, each with where it is defined; a whole file has no name."""
    found = {}
    for line in path.read_text().split("\n"):
        if match := IMPORT.match(line):
            crate, file, names, whole = match.groups()
            for name in (names or f" as {whole}").split(","):
                original, *alias = name.split(" as ")
                found[(alias or [original])[0].strip()] = (crate, file, original.strip())
    return found


def clause_at(lines, start):
    """The clause that begins in this line, up to the brace that closes it."""
    match, depth, text = CLAUSE.match(lines[start]), 0, ""
    for line in lines[start:]:
        text += line.strip() + " "
        depth += line.count("{") - line.count("}")
        if depth == 0:
            break
    return Clause(match[1], match[2] or "", text[text.index("{") + 1 : text.rindex("}")].strip())


def doc_above(lines, at):
    """What the comment above this line says."""
    said = []
    while at and (lines[at - 1].lstrip().startswith("#[") or DOC.match(lines[at - 1])):
        at -= 1
        said += [match[1] for match in [DOC.match(lines[at])] if match]
    return " ".join(reversed(said))


def said_first(doc):
    """What a comment says first: a sentence, or two where the first is short."""
    first, *rest = re.split(r"(?<=\.)\s", re.sub(r"\[(`[^`]+`)\](?:\([^)]*\))?", r"\1", doc))
    said = " ".join([first, *rest[:1]]) if len(first) < 30 else first
    return said.removesuffix(".").replace("|", "\\|")


def types_in_head(lines, at):
    """The types that the head of the function in this line names, up to its contract or its body."""
    head = itertools.takewhile(lambda line: not CLAUSE.match(line) and line.strip() != "{", lines[at:])
    return set(TYPE.findall(" ".join(head)))


def functions_of(path):
    """The functions of a source file, in order."""
    lines, owner, of_trait, found = path.read_text().split("\n"), "", False, []
    for at, line in enumerate(lines):
        if match := OWNER.match(line):
            owner, of_trait = match[3], match[1] == "trait" or bool(match[2])
        elif line == "}":
            owner, of_trait = "", False
        elif match := FUNCTION.match(line):
            indent, of = len(match[1]), owner if match[1] else ""
            is_public = bool(match[2]) or bool(indent) and of_trait
            told = doc_above(lines, at), types_in_head(lines, at), path
            found.append(Function(match[4], of, is_public, bool(match[3]) and is_public, [], *told))
        elif found and CLAUSE.match(line) and len(line) - len(line.lstrip()) == indent + 4:
            found[-1].clauses.append(clause_at(lines, at))
    return found


@functools.cache
def every_function():
    """The functions of all crates."""
    return [it for path in sorted(ROOT.glob("crates/*/src/**/*.rt")) for it in functions_of(path)]


def exported(crate):
    """What a crate hands on of its own: what its lib.rt names of its modules, or has itself."""
    lib = ROOT / "crates" / crate / "src/lib.rt"
    text = lib.read_text() if lib.exists() else ""
    own = re.findall(r"^(?:pub )?mod (\w+);", text, re.M)
    names = [many or one for module, many, one in EXPORT.findall(text) if module in own]
    itself = re.findall(r"^pub (?:struct|enum|trait|fn) (\w+)", text, re.M)
    return {name.split(" as ")[0].strip() for listed in [*names, *itself] for name in listed.split(",")}
