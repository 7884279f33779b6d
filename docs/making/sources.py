"""The functions of crates/*/src with their bodies, and the structs with their fields, as text; no program of the kit is asked."""
import re
from typing import NamedTuple

from making.pages import ROOT

from contracts import crate_of

TOKEN = re.compile(r'//[^\n]*|b?"(?:\\.|[^"\\])*"|r#"(?s:.*?)"#|\'(?:\\.|[^\'\\\n])\'|[A-Za-z_]\w*|::|->|=>|[^\s\w]|\d\w*')
OWNER = re.compile(r"(?:pub(?:\(\w+\))? )?(impl|trait)\b(.*)")
FUNCTION = re.compile(r'(?:(pub)(\(\w+\))? )?(?:extern "C" )?fn (\w+)')
TYPE = re.compile(r"(?:pub(?:\(\w+\))? )?(struct|enum|trait|type) (\w+)")
VARIANT = re.compile(r"    (\w+)\((.+)\),$")
FIELD = re.compile(r"    (?:pub(?:\(\w+\))? )?(\w+): (.+),$")
CLAUSES = {"requires", "ensures", "invariant", "decreases", "ghost"}
ALIAS = re.compile(r"^(?:pub(?:\(\w+\))? )?type (\w+)(?:<.*?>)? = (.*);", re.M)
CAPITAL = re.compile(r"\b[A-Z]\w*")


class Function(NamedTuple):
    """A function: of which crate and file, of which type and trait it is, its parameters, what it answers, and its tokens."""

    crate: str
    owner: str
    trait: str
    name: str
    is_public: bool
    is_export: bool
    is_test: bool
    parameters: dict[str, str]
    answer: str
    tokens: list[str]

    @property
    def key(self):
        return self.crate, self.owner, self.name


def bare(text):
    """The text without comments in lines of their own, and with each type under the name that its crate gives it."""
    text = re.sub(r"^\s*//.*$", "", text, flags=re.M)
    for name, alias in re.findall(r"\b([A-Z]\w*) as ([A-Z]\w*)\b", "\n".join(re.findall(r"^use .*?;", text, re.M | re.S))):
        text = re.sub(rf"(?<!as )\b{alias}\b", name, text)
    return text


def tokens_of(text):
    """The words and marks of a text, without its comments; a string is one token."""
    return [it for it in TOKEN.findall(text) if not it.startswith("//")]


def head_of(rest):
    """The type and the trait of an `impl` or a `trait`, from what stands behind that word."""
    depth, plain = 0, ""
    for letter in rest.replace("->", ""):
        depth += (letter == "<") - (letter == ">")
        plain += letter if depth == 0 and letter != ">" else ""
    words = re.split(r"\bwhere\b|\{", plain)[0].split(" for ")
    names = [CAPITAL.findall(word.split(":")[0]) for word in words]
    names = [found[-1] if found else "" for found in names]
    return (names[1], names[0]) if len(names) == 2 else (names[0], "")


def closing(tokens, start):
    """Where what is opened at this token is closed."""
    depth = 0
    for at in range(start, len(tokens)):
        depth += (tokens[at] in "([{") - (tokens[at] in ")]}")
        if depth == 0:
            return at
    return len(tokens)


def without_contracts(tokens):
    """The tokens without the clauses, whose words are of another language."""
    plain, at = [], 0
    while at < len(tokens):
        if tokens[at] in CLAUSES:
            start = next((to for to in range(at + 1, min(at + 5, len(tokens))) if tokens[to] == "{"), None)
            if start:
                at = closing(tokens, start) + 1
                continue
        plain.append(tokens[at])
        at += 1
    return plain


def split_at(tokens, mark):
    """The parts of a list of tokens between the marks that stand in no brackets."""
    parts, depth = [[]], 0
    for token in tokens:
        depth += (token in "([{<") - (token in ")]}>")
        if token == mark and depth == 0:
            parts.append([])
        else:
            parts[-1].append(token)
    return parts


def signature(tokens):
    """The parameters of a function by their names, and what it answers, from the tokens behind its name."""
    start = tokens.index("(") if "(" in tokens else 0
    end = closing(tokens, start)
    parameters = {}
    for part in split_at(tokens[start + 1 : end], ","):
        if ":" in part:
            at = part.index(":")
            parameters[part[at - 1]] = " ".join(part[at + 1 :])
    answer = []
    if tokens[end + 1 : end + 2] == ["->"]:
        for token in tokens[end + 2 :]:
            if token in ("{", "where", ";"):
                break
            answer.append(token)
    return parameters, " ".join(answer)


def functions_in(crate, text):
    """The functions of a source file. Its layout tells where each ends: rt fmt has made it."""
    lines, owner, trait, is_trait, is_test, found = text.split("\n"), "", "", False, False, []
    for at, line in enumerate(lines):
        if line.startswith("}"):
            owner, trait, is_trait = "", "", False
        elif match := OWNER.match(line):
            owner, trait = head_of(match[2])
            is_trait = match[1] == "trait"
            trait = owner if is_trait else trait
        elif "#[test]" in line:
            is_test = True
        elif match := FUNCTION.match(line.lstrip()):
            indent = len(line) - len(line.lstrip())
            end = next((to for to in range(at + 1, len(lines)) if is_end(lines[to], indent)), len(lines))
            tokens = without_contracts(tokens_of("\n".join(lines[at:end])))
            parameters, answer = signature(tokens[tokens.index("fn") + 2 :])
            is_public = bool(match[1]) and not match[2]
            is_export = 'extern "C"' in line and is_public
            of = (owner, trait) if indent else ("", "")
            found.append(Function(crate, *of, match[3], is_public, is_export, is_test, parameters, answer, tokens))
            is_test = False
    return found


def is_end(line, indent):
    """Whether a function that is indented so far has ended before this line."""
    own = len(line) - len(line.lstrip())
    return bool(line.strip()) and own <= indent and not line.lstrip().startswith(("{", "requires", "ensures", ")", "where"))


def files():
    """The source files of all crates, each with the name of its crate."""
    return [(crate_of(path), path) for path in sorted(ROOT.glob("crates/*/src/**/*.rt"))]


def fields_in(text):
    """The fields of structs and the variants of enums in a source file: of which type, their names and their types."""
    owner = ""
    for line in text.split("\n"):
        if match := TYPE.match(line):
            owner = match[2]
        elif line.startswith("}"):
            owner = ""
        elif owner and (match := FIELD.match(line) or VARIANT.match(line)):
            yield owner, match[1], match[2]
