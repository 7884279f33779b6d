"""Whether a value is valid by a JSON Schema, for the words of draft 2020-12 that docs/script.schema.json has, and for no other."""
import re
from typing import Any

Schema = dict[str, Any]
TOLD = {"$schema", "title", "description", "$defs"}  # words that make no value invalid


def is_integer(value: Any) -> bool:
    """A number is an integer where its fraction is 0, however it is written."""
    return isinstance(value, int) and not isinstance(value, bool) or isinstance(value, float) and value.is_integer()


TYPES = {
    "object": lambda value: isinstance(value, dict),
    "array": lambda value: isinstance(value, list),
    "string": lambda value: isinstance(value, str),
    "boolean": lambda value: isinstance(value, bool),
    "integer": is_integer,
}


def same(one: Any, other: Any) -> bool:
    """Whether two values are one in JSON, where true is not 1. Arrays are of texts here."""
    return type(one) is type(other) and one == other


def differ(values: list[Any]) -> bool:
    return not any(same(one, other) for at, one in enumerate(values) for other in values[:at])


# What each word wants of a value of its type. A value of another type it lets through.
WANTED = {
    "minimum": (is_integer, lambda value, least: value >= least),
    "maximum": (is_integer, lambda value, most: value <= most),
    "minLength": (TYPES["string"], lambda value, least: len(value) >= least),
    "maxLength": (TYPES["string"], lambda value, most: len(value) <= most),
    "pattern": (TYPES["string"], lambda value, pattern: re.search(pattern, value) is not None),
    "minItems": (TYPES["array"], lambda value, least: len(value) >= least),
    "maxItems": (TYPES["array"], lambda value, most: len(value) <= most),
    "uniqueItems": (TYPES["array"], lambda value, wanted: not wanted or differ(value)),
    "required": (TYPES["object"], lambda value, names: all(name in value for name in names)),
}


class Validator:
    """A schema that stands in a document of schemas, which `$ref` leads into."""

    def __init__(self, whole: Schema) -> None:
        self.whole = whole

    def is_valid(self, value: Any, schema: Schema | None = None) -> bool:
        schema = self.whole if schema is None else schema
        return all(self._allows(word, said, value, schema) for word, said in schema.items() if word not in TOLD)

    def _allows(self, word: str, said: Any, value: Any, schema: Schema) -> bool:
        if word in WANTED:
            is_of_type, holds = WANTED[word]
            return not is_of_type(value) or holds(value, said)
        if word in ("properties", "additionalProperties"):
            return not isinstance(value, dict) or self._allows_fields(word, said, value, schema)
        if word == "items":
            return not isinstance(value, list) or all(self.is_valid(item, said) for item in value)
        return {
            "type": lambda: TYPES[said](value),
            "const": lambda: same(value, said),
            "enum": lambda: any(same(value, one) for one in said),
            "$ref": lambda: self.is_valid(value, self.whole["$defs"][said.removeprefix("#/$defs/")]),
            "oneOf": lambda: sum(self.is_valid(value, one) for one in said) == 1,
            "not": lambda: not self.is_valid(value, said),
        }[word]()

    def _allows_fields(self, word: str, said: Any, value: dict[str, Any], schema: Schema) -> bool:
        if word == "additionalProperties":
            return said or value.keys() <= schema["properties"].keys()
        return all(self.is_valid(value[name], one) for name, one in said.items() if name in value)
