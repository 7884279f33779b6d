"""Whether the other places that know the commands have those of docs/commands.json: the fuzz, the flat document in C, the
definitions, the scripts that have each of them, and the sentences of docs/SCRIPT.md."""
import importlib
import json
import re
import sys

from making.commands import commands, fields_of, language
from making.pages import ROOT

ROW = re.compile(r'row \(codes "(\w+)"\) (\w+|\(.*?\))\n')
CODES = re.compile(r'codes "(\w+)"')
FLAT = re.compile(r'\{"\{\\"cmd\\":\\"(\w+)\\"(?:,\\"(\w+)\\":)?')
REASON = re.compile(r"`! (\w+)")
# What each reader of fuzz/commands.py is called, where it is not called as its kind.
OBJECTS = {"op": "OP", "new decoration": "NEW_DECORATION", "batch": "DOC_EDIT", "marks": "MARKS"}
# The fields of the shapes that rows of the definitions have without naming them.
POSITION = ["line", "col"]


def unlike(place, found, wanted):
    """The fault of a place that has other names than it is to have, in words; none where they are the same."""
    found, wanted = set(found), set(wanted)
    told = [f"lacks {', '.join(sorted(wanted - found))}"] * bool(wanted - found)
    told += [f"has {', '.join(sorted(found - wanted))}, which docs/commands.json has not"] * bool(found - wanted)
    return [f"{place} {it}" for it in told]


def sole(pattern, mark):
    """The one file that the pattern leads to and in which the mark stands."""
    found = [path for path in sorted(ROOT.glob(pattern)) if re.search(mark, path.read_text())]
    if len(found) != 1:
        raise SystemExit(f"docs/make: {len(found)} files {pattern} have {mark}, and one is wanted")
    return found[0]


# ---- the fuzz


def fuzz():
    """The module that reads lines for the fuzz."""
    sys.path.append(str(ROOT / "fuzz"))
    return importlib.import_module("commands")


def kinds_of(table):
    """The fields of a table of the fuzz, each with its kind, as docs/commands.json writes them."""
    needed = {name: read.__name__ for name, read in table.needed.items()}
    return needed | {name: f"{read.__name__}, optional" for name, read in table.optional.items()}


def written(fields):
    """Fields as the fuzz has them, which reads alternatives as optional."""
    return {it.name: it.kind + ", optional" * (it.is_optional or it.is_alternative) for it in fields}


def fuzz_faults():
    module = fuzz()
    place = "fuzz/commands.py"
    yield from unlike(f"{place}: COMMANDS", module.COMMANDS, [command.name for command in commands()])
    tables = {it.name: (written(it.own), module.COMMANDS.get(it.name)) for it in commands()}
    for name, said in language()["objects"].items():
        tables[name] = written(fields_of(said)), getattr(module, OBJECTS[name])
    for name, (wanted, table) in tables.items():
        if table and kinds_of(table) != wanted:
            yield f"{place}: `{name}` has {kinds_of(table)}, and docs/commands.json {wanted}"
    several = {*language()["of_every_command_but"]}
    makers = importlib.import_module("scripts").MAKERS
    yield from unlike("fuzz/scripts.py: MAKERS", {*makers} & {*module.COMMANDS}, {*module.COMMANDS} - several)
    for name, most in language()["limits"].items():
        if getattr(module, name, most) != most:
            yield f"{place}: {name} is {getattr(module, name)}, and {most} in docs/commands.json"


# ---- the flat document in C


def flat_faults():
    found = dict(FLAT.findall((ROOT / "bench/flat.c").read_text()))
    yield from unlike("bench/flat.c: COMMANDS", found, [command.name for command in commands() if command.is_benched])
    fields = {command.name: [field.name for field in command.fields] for command in commands()}
    for name, first in found.items():
        if first and first not in fields.get(name, []):
            yield f"bench/flat.c: `{name}` begins with `{first}`, which is not a field of it"


# ---- the definitions


def fields_read(reads, text):
    """The fields of a row of the definitions: those that it names, or those of the reader that it names."""
    if reads.startswith("("):
        return POSITION if "of_position" in reads else CODES.findall(reads)
    match = re.search(rf"^{reads} d = if has_(?:fields|only) (.*?) d then|^{reads} d = if has_(?:fields|only) (.*?) d$", text, re.M)
    return CODES.findall(match[0]) if match else None


def definition_faults():
    table = sole("crates/*/specs/*.antt", r"commands : List Row")
    text = "\n".join(path.read_text() for path in table.parent.glob("*.antt"))
    rows = dict(ROW.findall(table.read_text()))
    place = table.relative_to(ROOT)
    joint = [name for name in language()["of_every_command_but"] if f'name (codes "{name}")' in text]
    yield from unlike(str(place), [*rows, *joint], [command.name for command in commands()])
    for command in commands():
        if command.name in rows:
            found = fields_read(rows[command.name], text)
            yield from unlike(f"{place}: `{command.name}`", found or [], [field.name for field in command.own])


# ---- scripts and sentences


def script_faults():
    names = [command.name for command in commands()]
    lines = (ROOT / "fuzz/all_commands.jsonl").read_text().splitlines()
    yield from unlike("fuzz/all_commands.jsonl", [json.loads(line)["cmd"] for line in lines], names)
    table = sole("crates/*/src/**/every_command.rt", "EVERY_COMMAND")
    found = re.findall(r'"cmd":"(\w+)"', table.read_text())
    yield from unlike(str(table.relative_to(ROOT)), {*found}, {*names})


def sentence_faults():
    """The paragraphs on commands name each of them, and the reasons of those that they are on."""
    seen = []
    for paragraph in (ROOT / "docs/SCRIPT.md").read_text().split("\n\n"):
        of = [command for command in commands() if f"**`{command.name}`**" in paragraph]
        seen += [command.name for command in of]
        place = f"docs/SCRIPT.md: the paragraph of {', '.join(command.name for command in of)}"
        wanted = {reason for command in of for reason in command.refused}
        yield from unlike(place, set(REASON.findall(paragraph)) - {"syntax"}, wanted) if of else []
    yield from unlike("docs/SCRIPT.md", seen, [command.name for command in commands()])


def faults():
    """What differs, in words."""
    for check in (fuzz_faults, flat_faults, definition_faults, script_faults, sentence_faults):
        yield from check()
