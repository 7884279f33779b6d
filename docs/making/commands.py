"""The commands of docs/commands.json: in the table of docs/SCRIPT.md, the man page, the line checker and the client."""
import functools
import json
from typing import NamedTuple

from making.pages import ROOT, Part

SCRIPT_HEAD = ["| command | fields | reply | refused with |", "|---|---|---|---|"]
# What the tables of the line checker are called.
OBJECTS = {"new decoration": "NEW_DECORATION", "batch": "DOC_EDIT", "marks": "MARKS"}


class Field(NamedTuple):
    """A field of a command or an object. Of those that are alternatives one is wanted."""

    name: str
    kind: str
    is_optional: bool
    is_alternative: bool


class Command(NamedTuple):
    """A command: its fields, `doc` among them; the reply behind `ok`; what it is refused with, and for what cause; what it does."""

    name: str
    fields: list[Field]
    reply: str
    each: tuple[str, str] | None
    others: list[str]
    refused: dict[str, str]
    does: str
    is_benched: bool

    @property
    def own(self):
        """The fields that not every command has."""
        return [field for field in self.fields if field.name != "doc"]


@functools.cache
def language():
    """All that the file says."""
    return json.loads((ROOT / "docs/commands.json").read_text())


def fields_of(written):
    """Fields as they are written: a kind, and behind it a word."""
    found = []
    for name, said in written.items():
        kind, _, word = said.partition(", ")
        found.append(Field(name, kind, word == "optional", word == "or"))
    return found


@functools.cache
def commands():
    """The commands, in the order of the file."""
    (but, common), = language()["of_every_command_but"].items()
    return [command_of(name, said, {} if name == but else common) for name, said in language()["commands"].items()]


def command_of(name, said, common):
    each = next(iter(said["each"].items())) if "each" in said else None
    fields = fields_of(said["fields"] | common)
    return Command(name, fields, said.get("reply", ""), each, said.get("or", []), said["refused"], said["does"], said["benched"])


def replies_of(command):
    """The replies of a command that is not refused, each in words."""
    first = f"ok {command.reply}".rstrip()
    return [first, *(f"ok {other}" for other in command.others)]


# ---- docs/SCRIPT.md


def called(field):
    """A field and what it is, for the page."""
    return f"`{field.name}`: {language()['kinds'][field.kind]}{', optional' if field.is_optional else ''}"


def script_row(command):
    replies = ", or ".join(f"`{reply}`" for reply in replies_of(command))
    if command.each:
        of, shape = command.each
        replies = f"`{replies_of(command)[0]}` and for each {of} ` {shape}`"
    reasons = ", ".join(f"`{reason}`" for reason in command.refused)
    cells = [f"`{command.name}`", "; ".join(map(called, command.own)), replies, reasons]
    return f"| {' | '.join(cells)} |".replace("|  |", "| |").replace("|  |", "| |")


# ---- the man page


def shape_of(fields):
    """The names of the fields, as the man page shows them."""
    needed = [field.name for field in fields if not field.is_optional and not field.is_alternative]
    one_of = " or ".join(field.name for field in fields if field.is_alternative)
    optional = [f"[, {field.name}]" for field in fields if field.is_optional]
    named = ", ".join([*([one_of] if one_of else []), *needed])
    return " ".join([named, *optional]) if named else " ".join(optional).replace("[, ", "[", 1)


def man_head(name, fields):
    """The line that an entry of the man page begins with."""
    shape = shape_of(fields)
    return [f'.BR "{name}" ": {shape}"' if shape else f".B {name}"]


def man_command(command):
    replies = ", or ".join(replies_of(command))
    if command.each:
        replies = "{} and for each {} {}".format(replies_of(command)[0], *command.each)
    causes = "; ".join(f"{reason} where {cause}" for reason, cause in command.refused.items()).replace("`", "")
    refused = [".br", f"Refused with {causes}."] if causes else []
    return [".TP", *man_head(command.name, command.own), command.does, ".br", f"Reply: {replies}.", *refused]


def man_object(name, fields):
    told = "; ".join(f"{field.name}: {language()['kinds'][field.kind]}" for field in fields).replace("`", "")
    return [".TP", *man_head(name, fields), f"An object; {told}."]


def man_lines():
    objects = {name: fields_of(said) for name, said in language()["objects"].items()}
    lines = [line for command in commands() for line in man_command(command)]
    lines += [".PP", "Some fields have objects:"]
    return lines + [line for name, fields in objects.items() for line in man_object(name, fields)]


# ---- the line checker


def power(number):
    """A number as a power of two where it is one, or one less."""
    for less in (0, 1):
        if number > 1_000 and (number + less).bit_count() == 1:
            return f"2**{(number + less).bit_length() - 1}" + " - 1" * less
    return str(number)


def checked(fields):
    """What the line checker is to look for in an object with these fields."""
    needed = ", ".join(f'"{field.name}": {field.kind}' for field in fields if not field.is_optional)
    optional = ", ".join(f'"{field.name}": {field.kind}' for field in fields if field.is_optional)
    return f"Fields({{{needed}}}, {{{optional}}})"


def op_tables(fields):
    """The op, once for each of its alternatives."""
    yield "OPS = {"
    for one in (field for field in fields if field.is_alternative):
        kept = [field for field in fields if field is one or not field.is_alternative]
        yield f'    "{one.name}": {checked(kept)},'
    yield "}"


def checker_lines():
    objects = {name: fields_of(said) for name, said in language()["objects"].items()}
    yield from op_tables(objects["op"])
    yield from (f"{table} = {checked(objects[name])}" for name, table in OBJECTS.items())
    yield "COMMANDS: dict[str, Fields] = {"
    yield from (f'    "{command.name}": {checked(command.fields)},' for command in commands())
    yield "}"


# ---- the client


def client_lines():
    """The commands as comments: what `ask` takes, and what it gives."""
    yield "# The commands, with their fields, and what stands behind `ok` in the reply. Each but `joint` takes `doc` too."
    for command in commands():
        given = " ".join(f"[{field.name}]" if field.is_optional else field.name for field in command.own)
        reply = " | ".join([command.reply, *command.others])
        if command.each:
            reply = "{} for each {} {}".format(command.reply, *command.each).strip()
        yield f"#   {command.name:9} {given:31} {reply}".rstrip()


def each_lines():
    """How the client cuts replies that tell of several things."""
    yield "# How many values such a reply begins with, and how many it has for each thing that it tells of."
    counts = {it.name: (len(it.reply.split()), len(it.each[1].split())) for it in commands() if it.each}
    yield f"EACH = {counts}".replace("'", '"')


def parts():
    yield Part("docs/SCRIPT.md", "commands", SCRIPT_HEAD + [script_row(command) for command in commands()])
    yield Part("docs/textmodel.1", "commands", man_lines())
    yield Part("tools/check_lines.py", "limits", [f"{name} = {power(most)}" for name, most in language()["limits"].items()])
    yield Part("tools/check_lines.py", "commands", [*checker_lines()])
    yield Part("examples/client.py", "commands", [*client_lines()])
    yield Part("examples/client.py", "replies", [*each_lines()])
