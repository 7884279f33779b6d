"""docs/script.schema.json: a JSON Schema of the script's lines, of the commands of docs/commands.json."""
import json

from making.commands import commands, fields_of, language, replies_of
from making.pages import Fault, Part

PAGE = "docs/script.schema.json"
DIALECT = "https://json-schema.org/draft/2020-12/schema"
SAID = (
    "A value that is invalid by this schema makes a line that is answered `! syntax`. It is of values, and cannot say these things of "
    "a line: it has at most {MOST_BYTES} bytes, in UTF-8 without a byte order mark; it is nested at most {MOST_NESTING} deep; no escape "
    "is one half of a pair of surrogates; a number is written without sign, point and exponent; the texts of several pairs of brackets "
    "are all distinct; and {MOST_BRACKET_UNITS} is the most UTF-16 units of a bracket or mark, where a schema counts characters. Of a "
    "field that stands twice the last one counts."
)
# A unit that is no CR, LF, backslash or surrogate, written so that each dialect of regular expressions reads it.
QUOTE = r"^[\u0000-\u0009\u000b\u000c\u000e-\u005b\u005d-\ud7ff\ue000-\uffff]$"


def of(name):
    return {"$ref": f"#/$defs/{name}"}


def array(of_items, least=0, most=None, **others):
    counts = {"minItems": least} if least else {}
    counts |= {"maxItems": most} if most is not None else {}
    return {"type": "array", "items": of_items, **counts, **others}


def text(**others):
    return {"type": "string", **others}


def in_line(most):
    """A text that may stand in a line. `$` would let an LF at its end through where Python reads the pattern."""
    return text(minLength=1, maxLength=most, **{"not": {"pattern": r"[\r\n]"}})


def kinds():
    """What each kind of docs/commands.json is that is no object."""
    most = language()["limits"]
    bracket = in_line(most["MOST_BRACKET_UNITS"])
    return {
        "number": {"type": "integer", "minimum": 0, "maximum": most["MOST_NUMBER"]},
        "numbers": array(of("number")),
        "text": text(),
        "sought": text(minLength=1),
        "flag": {"type": "boolean"},
        "span": array(of("number"), 2, 2),
        "positions": array(of("number"), 4, 4),
        "kind": {"enum": ["lf", "crlf"]},
        "pairs": array(array(bracket, 2, 2, uniqueItems=True), 1, most["MOST_PAIRS"], uniqueItems=True),
        "mark": bracket,
        "block": array(of("mark"), 2, 2),
        "quotes": array(text(maxLength=1, pattern=QUOTE), most=most["MOST_QUOTES"], uniqueItems=True),
        "ops": array(of("op"), 1),
        "new_decorations": array(of("new_decoration")),
        "edits": array(of("batch"), 2),
    }


def object_of(fields, **named):
    """An object with these fields and no others."""
    needed = [field.name for field in fields if not field.is_optional and not field.is_alternative]
    alternatives = [{"required": [field.name]} for field in fields if field.is_alternative]
    made = {"type": "object", "properties": named | {field.name: of(field.kind) for field in fields}}
    made |= {"required": [*named, *needed]} if named or needed else {}
    made |= {"oneOf": alternatives} if alternatives else {}
    return made | {"additionalProperties": False}


def command_schema(command):
    replies = " or ".join(f"`{reply}`" for reply in replies_of(command))
    each = f", and for each {command.each[0]} ` {command.each[1]}`" if command.each else ""
    told = f"{command.does} The reply: {replies}{each}."
    return {"title": command.name, "description": told, **object_of(command.fields, cmd={"const": command.name})}


def definitions():
    """The schemas of all kinds and objects, each as it is said of."""
    told, made = language()["kinds"], kinds()
    made |= {name.replace(" ", "_"): object_of(fields_of(said)) for name, said in language()["objects"].items()}
    if unknown := told.keys() - made.keys():
        raise Fault(f"docs/making/schema.py does not know the kinds {', '.join(sorted(unknown))}")
    return made


def lines():
    """The schema, with a line for each definition and each command."""
    head = {"$schema": DIALECT, "title": "A line of a script", "description": SAID.format(**language()["limits"])}
    yield "{"
    yield from (f"  {written(name)}: {written(said)}," for name, said in head.items())
    yield '  "oneOf": ['
    yield from listed([written(command_schema(command)) for command in commands()])
    yield "  ],"
    yield '  "$defs": {'
    yield from listed([f"{written(name)}: {written(made)}" for name, made in definitions().items()])
    yield "  }"
    yield "}"


def written(value):
    return json.dumps(value, ensure_ascii=False)


def listed(items):
    """Items of an array or an object, a line each."""
    return [f"    {item}," for item in items[:-1]] + [f"    {items[-1]}"]


def parts():
    yield Part(PAGE, "", [*lines()])
