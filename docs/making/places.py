"""Where a new command goes: each place is found in the sources by what stands in it, so the table has no place that is not there."""
from making.grammar import sole
from making.pages import ROOT, Part

HEAD = ["| place | what |", "|---|---|"]
# the files among which a place is, what stands in it, and what a new command adds there
PROVED = [
    ("crates/*/specs/*.antt", r"flat_level : ", "its rule, in a file like this one, where there is none yet; `Lib.antt` names a new file"),
    ("crates/model_core/src/**/*.rt", r"pub fn stops\b", "its call on the document"),
    ("crates/*/src/docs.rt", r"fn level_at", "its call on one document of the group, where it changes that or may parse it"),
    ("crates/*/src/*.rt", r"pub enum Command\b", "a variant, with its fields"),
    ("crates/*/specs/*.antt", r"commands : List Row", "its row, and its variant among the imports; a reader of its own where no shape of `Rows.antt` fits"),
    ("crates/*/src/*.rt", r"fn command_named", "its arm, in the same place"),
    ("crates/*/specs/*.antt", r"step_on : ", "a line of `step_on`, and imports"),
    ("crates/*/proofs/*.antt", r"goes_step : ", "an arm of `goes_step`, and imports"),
    ("crates/*/src/*.rt", r"session: &mut Session, doc: u64, command: Command\) -> Outcome", "an arm of `carry_out`, and the function that makes its reply"),
    ("crates/*/proofs/reply/carry_out/Answers.antt", r"", "an answer"),
    ("crates/*/proofs/ReplyLemmas.antt", r"", "that its reply is one line"),
    ("crates/*/proofs/GoesLemmas.antt", r"", "where it changes a text"),
]
BESIDE = [
    ("docs/commands.json", r"", "the command; `docs/make` puts it into four pages and tools"),
    ("docs/SCRIPT.md", r"", "a paragraph, with a sample that is a script of `examples/`"),
    ("docs/BELIEVE.md", r"", "a new file of definitions, in its list"),
    ("fuzz/commands.py", r"", "its fields"),
    ("fuzz/flat.py", r"", "what it does to the flat document"),
    ("fuzz/scripts.py", r"", "a writer of such lines"),
    ("fuzz/all_commands.jsonl", r"", "a line of it"),
    ("bench/flat.c", r"", "what it does to the flat document in C, where it is measured"),
    ("crates/*/src/**/every_command.rt", r"EVERY_COMMAND", "a line of it"),
    ("crates/*/src/**/flat_document.rt", r"", "what it does to the flat document of the generated tests, where they are to play it"),
]


def row(pattern, mark, what):
    path = sole(pattern, mark).relative_to(ROOT).as_posix().removeprefix("crates/")
    return f"| `{path}` | {what} |"


def parts():
    proved, beside = [row(*place) for place in PROVED], [row(*place) for place in BESIDE]
    said = f"It touches {len(proved)} places that are proved, and {len(beside)} others:"
    yield Part("docs/DESIGN.md", "command places", [said, "", *HEAD, *proved, *beside])
