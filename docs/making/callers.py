"""Who calls the public functions of the crates: which the program reaches, which the library for C alone, which tests alone.

It goes by names. A call `x.name(..)` is one of each method of this name of the types that `x` may have: those of parameters, of
fields, and of what the calls before it answer, as they are written. Where these tell nothing, it is one of each method of this
name in the crate and below it. So it may take a function for called that is not, and hardly one that is for uncalled.
"""
import collections
import functools
import re

from making.pages import Part
from making.sources import ALIAS, CAPITAL, bare, fields_in, files, functions_in

import crates
from contracts import exported

# Calls that answer what they are called on, or a part of it that is of the same types.
SAME = {
    "unwrap", "expect", "as_ref", "as_mut", "ok_or", "map_err", "iter", "iter_mut", "into_iter", "get", "get_mut", "last", "clone",
    "last_mut", "first", "borrow", "take", "by_ref", "as_deref", "as_deref_mut", "copied", "cloned", "unwrap_or", "pop", "ok",
}  # fmt: skip
HEAD = ["| called by | what |", "|---|---|"]


class Sources:
    """All functions, fields and types, by their names."""

    def __init__(self):
        self.known = crates.read()
        self.functions, self.aliases = [], {}
        self.fields = collections.defaultdict(set)
        for crate, path in files():
            text = bare(path.read_text())
            self.functions += functions_in(crate, text)
            self.aliases.update(ALIAS.findall(text))
            for owner, name, written in fields_in(text):
                self.fields[name].add((owner, written))
        self.by_name = collections.defaultdict(list)
        for function in self.functions:
            self.by_name[function.name].append(function)
        self.owners = {it.owner for it in self.functions} | {owner for of in self.fields.values() for owner, _ in of}
        self.errors = {owner for owner in self.owners if owner.endswith(("Error", "Fault", "Refused", "Refusal"))}

    @functools.cache
    def near(self, crate):
        """The names of the crates whose functions one may call: itself, and those of its line."""
        return {crate, *self.known[crate].libraries}

    @functools.cache
    def below(self, crate):
        """The names of the crates whose types one may come to hold: itself, and all below it."""
        return {it.name for it in crates.below(self.known, [crate])}

    def types_in(self, written, owner):
        """The types of the repository that a written type names; None where it names none, or a parameter of a type."""
        written = re.sub(r"\w+", lambda it: self.aliases.get(it[0], it[0]), written)
        names = {owner if it == "Self" else it for it in CAPITAL.findall(written)}
        found = names & self.owners
        return found if found and not any(len(it) <= 1 for it in names) else None


class Body:
    """A function's body: what it calls, by names."""

    def __init__(self, sources, function):
        self.sources, self.function, self.tokens = sources, function, function.tokens
        self.types = {name: sources.types_in(written, function.owner) for name, written in function.parameters.items()}
        self.types["self"] = {function.owner} if function.owner else None
        self.matched = None  # the types of what the last `match` is of
        self.calls = set()
        self.read()

    def read(self):
        """Goes through the tokens once, in order, so that a variable is known before it is used."""
        tokens = self.tokens
        for at, token in enumerate(tokens):
            before = tokens[at - 1] if at else ""
            after = tokens[at + 1] if at + 1 < len(tokens) else ""
            if token == "let":
                self.bind(at)
            elif token == "match":
                self.matched = self.type_before(self.block_behind(at) - 1)
            elif after == "(" and tokens[at + 3 : at + 4] == [")"]:
                self.bind_in_pattern(token, before, at)
            if not re.match(r"[A-Za-z_]", token) or before == "fn":
                continue
            if before == "." and after in ("(", "::"):
                self.call_method(token, self.type_before(at - 2))
            elif before == "::":
                self.call_path(token, self.owner_before(at - 2))
            elif after == "(" or tokens[at + 1 : at + 3] == ["::", "<"] or (before in ("(", ",") and after in (")", ",")):
                self.call_free(token)

    def owner_before(self, at):
        """The word of a path that ends with this token, as that of `Owner::<..>`."""
        tokens, depth = self.tokens, 0
        while tokens[at] == ">" or depth:
            depth += (tokens[at] == ">") - (tokens[at] == "<")
            at -= 1
        return tokens[at - 1] if tokens[at] == "::" else tokens[at]

    def bind(self, at):
        """The types of the variable that `let NAME = ..`, or `let Some(NAME) = ..`, makes."""
        tokens = self.tokens
        end = next((to for to in range(at, len(tokens)) if tokens[to] in ("=", ";")), len(tokens))
        names = [it for it in tokens[at + 1 : end] if re.match(r"[a-z_]", it) and it not in ("mut", "ref")]
        stop = next((to for to in range(end, len(tokens)) if tokens[to] in (";", "else", "{")), len(tokens))
        if len(names) == 1 or (names and ":" in tokens[at:end]):
            written = " ".join(tokens[at:end]).partition(" : ")[2]
            self.types[names[0]] = self.sources.types_in(written, self.function.owner) or self.type_before(stop - 1)

    def block_behind(self, at):
        """Where the block begins behind the expression that begins here."""
        depth = 0
        for to in range(at, len(self.tokens)):
            if self.tokens[to] == "{" and depth == 0:
                return to
            depth += (self.tokens[to] in "([") - (self.tokens[to] in ")]")
        return at

    def bind_in_pattern(self, token, before, at):
        """The types of the variable that a pattern of one variant makes, if these tokens are one."""
        name = self.tokens[at + 2]
        if self.tokens[at + 4 : at + 5] not in (["=>"], ["if"], ["|"]):
            return
        if token in ("Some", "Ok"):
            self.types[name] = self.matched
        elif token == "Err":
            self.types[name] = self.sources.errors
        elif before == "::":
            owner = self.function.owner if self.tokens[at - 2] == "Self" else self.tokens[at - 2]
            self.types[name] = self.type_of_field(token, {owner})

    def type_before(self, at):
        """The types of the expression that ends with this token; None where they are not known."""
        tokens = self.tokens
        while at >= 0 and tokens[at] == "?":
            at -= 1
        if at < 0:
            return None
        if tokens[at] in (")", "]"):
            start = self.opening(at)
            if tokens[at] == "]":
                return self.type_before(start - 1)
            return self.type_of_call(start - 1)
        if tokens[at - 1] == ".":
            return self.type_of_field(tokens[at], self.type_before(at - 2))
        return self.types.get(tokens[at])

    def opening(self, at):
        """Where what this token closes was opened."""
        depth = 0
        for back in range(at, -1, -1):
            depth += (self.tokens[back] in ")]}") - (self.tokens[back] in "([{")
            if depth == 0:
                return back
        return 0

    def type_of_call(self, at):
        """What the call answers whose name is this token."""
        tokens, name = self.tokens, self.tokens[at]
        if tokens[at - 1] == ".":
            on = self.type_before(at - 2)
            if name in SAME:
                return on
            return self.answers([it for it in self.sources.by_name[name] if it.owner and (not on or it.owner in on)])
        if tokens[at - 1] == "::":
            owner = self.function.owner if tokens[at - 2] == "Self" else tokens[at - 2]
            return self.answers([it for it in self.sources.by_name[name] if it.owner in (owner, "")])
        return self.answers([it for it in self.sources.by_name[name] if not it.owner])

    def answers(self, functions):
        """The types that these functions answer."""
        found = [self.sources.types_in(it.answer, it.owner) for it in functions]
        return None if not found or None in found else set().union(*found)

    def type_of_field(self, name, on):
        """The types of a field, of structs of these types if they are known."""
        written = [it for owner, it in self.sources.fields[name] if not on or owner in on]
        found = [self.sources.types_in(it, "") for it in written]
        return None if not found or None in found else set().union(*found)

    def call_method(self, name, on):
        """A call of a method, on one of these types if they are known."""
        near = self.sources.below(self.function.crate)
        found = [it for it in self.sources.by_name[name] if it.owner and (it.trait or it.crate in near)]
        of_these = [it for it in found if not on or it.owner in on or it.trait in on]
        if on is not self.sources.errors:
            of_these = of_these or found
        traits = {it.trait for it in of_these if it.trait}  # of which a call of an `impl` is one too
        self.calls |= {it.key for it in [*of_these, *(it for it in found if it.owner in traits)]}

    def call_path(self, name, before):
        """A call, or a name handed on, as `Owner::name` or `module::name`."""
        owner = self.function.owner if before == "Self" else before
        is_type, is_known = before[:1].isupper(), owner in self.sources.owners
        for it in self.sources.by_name[name]:
            if (owner in (it.owner, it.trait)) if is_known else bool(it.trait) if is_type else not it.owner:
                self.calls.add(it.key)

    def call_free(self, name):
        """A call of a function that is of no type, or its name handed on."""
        near = self.sources.near(self.function.crate)
        self.calls |= {it.key for it in self.sources.by_name[name] if not it.owner and it.crate in near}


def walked(calls, roots):
    """The keys of the functions that these lead to."""
    seen, todo = set(), [it.key for it in roots]
    while todo:
        key = todo.pop()
        if key not in seen:
            seen.add(key)
            todo += calls[key]
    return seen


def callers(sources):
    """Who may reach each function: by each name a set of keys, in the order in which they count."""
    calls = collections.defaultdict(set)
    for function in sources.functions:
        calls[function.key] |= Body(sources, function).calls
    tests = set(sources.known) - crates.shipped(sources.known)
    own = {it.trait for it in sources.functions if it.trait == it.owner}
    # what std calls: a drop, a conversion by `?`
    silent = [it for it in sources.functions if it.trait and it.trait not in own and it.crate not in tests]
    program = [it for it in sources.functions if it.name == "main" and it.crate not in tests]
    library = [it for it in sources.functions if it.is_export]
    return {
        "": walked(calls, program + silent),
        "the library for C alone": walked(calls, library + silent),
        "tests and benches alone": walked(calls, [it for it in sources.functions if it.crate in tests or it.is_test]),
        "nobody": {it.key for it in sources.functions},
    }


def public(sources):
    """The public functions and methods of the crates of program and library, but for exports to C."""
    handed_on = {name: exported(name) for name in crates.shipped(sources.known)}
    for it in sources.functions:
        is_open = it.is_public or (it.trait and it.trait == it.owner)
        if it.crate in handed_on and is_open and not it.is_export and (it.owner or it.name) in handed_on[it.crate]:
            yield it


def uncalled(sources):
    """The public functions that the program does not reach, in lists by who calls them."""
    found, known = collections.defaultdict(set), callers(sources)
    for it in public(sources):
        found[next(who for who, keys in known.items() if it.key in keys)].add(it.key)
    return {who: found[who] for who in known if who and found[who]}


def named(keys):
    """The functions of these keys by their names, those of one type, or of one crate, together."""
    of = collections.defaultdict(list)
    for crate, owner, name in sorted(keys):
        of[crate, owner].append(name)
    for (crate, owner), names in of.items():
        first = f"`{owner}::{names[0]}`" if owner else f"`{names[0]}`"
        yield ", ".join([first, *(f"`{name}`" for name in names[1:])]) + ("" if owner else f" of `{crate}`")


def parts():
    rows = [f"| {who} | {'; '.join(named(them))} |" for who, them in uncalled(Sources()).items()]
    yield Part("docs/DESIGN.md", "uncalled", HEAD + rows)
