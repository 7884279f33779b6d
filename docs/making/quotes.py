"""What CONTRIBUTING.md quotes of the sources, from the line that begins so to the next blank line, or to the brace that closes it."""
from making.pages import ROOT, Fault, Part

PAGE = "CONTRIBUTING.md"
CRATE = "crates/column_encodings"
# the part's name, the language, the file, how the first line begins, and the line before which it ends
QUOTES = [
    ("definition", "text", f"{CRATE}/specs/Columns.antt", "-- the number of bytes, units or code points of the units", ""),
    ("function", "rust", f"{CRATE}/src/lib.rt", "fn length_in(", ""),
    ("invariants", "text", f"{CRATE}/proofs/length_in/Invariants.antt", "abbrev pub invariant-loop-rest", "use "),
    ("answer", "text", f"{CRATE}/proofs/length_in/Answers.antt", "pub overflow_add-length :", ""),
    ("wrong body", "text", "docs/wrong_bodies/column_encodings/pairs_are_two_characters.edit", "file: ", "# tried"),
    ("command", "json", "docs/commands.json", '    "changes": {', '    "'),
]


def quoted(path, first, end):
    """The lines, without what all of them are indented by."""
    lines = (ROOT / path).read_text().split("\n")
    starts = [at for at, line in enumerate(lines) if line.startswith(first)]
    if len(starts) != 1:
        raise Fault(f"{path}: {len(starts)} lines begin with `{first}`, and one is wanted")
    (at,) = starts
    is_end = (lambda line: line.startswith(end)) if end else (lambda line: not line)
    to = next((to for to in range(at + 1, len(lines)) if is_end(lines[to])), len(lines))
    indent = len(first) - len(first.lstrip())
    found = [line[indent:] for line in lines[at:to]]
    return found if found[-1] else found[:-1]


def parts():
    for name, language, path, first, end in QUOTES:
        yield Part(PAGE, name, [f"```{language}", *quoted(path, first, end), "```"])
