"""The flat document: one list of units, decorations moved edit by edit, undo by kept texts, brackets parsed afresh, and
what hides some of them read afresh too. And several of them, which joint edits change at once.

It shares nothing with the program: what is right is what `docs/SCRIPT.md` says, done in the plainest way.
"""
from bisect import bisect_right
from collections.abc import Callable, Iterable
from dataclasses import dataclass, field
from typing import Any, NamedTuple

import clusters
from brackets import STANDARD, Entry, Pairs, Parse, Table, parse
from commands import LineOp, Refused, Request, request_of
from hiding import Hiding
from moves import Decoration, Op, applied, carried, inverse, recast, unforced
from texts import MIXED, Text, cuts_pair, normalized, quoted

DOCUMENTS = 64
MOST_LINE_BYTES = 2**24
MOST_UNITS = 2**40 - 1
MOST_DECORATIONS = 2**20
MOST_SNAPSHOTS = 1_000
MOST_SENT = 65_536
MOST_STICK = 3
BLANKS = b" \t\r"
UNJUDGED = b"?"  # in place of a reply of which the flat document knows nothing
STANDARD_TABLE = Table(STANDARD)


@dataclass(slots=True)
class Batch:
    """What one edit did."""

    before: str
    ops: list[Op]
    after: str


@dataclass(slots=True)
class Recast:
    """What one change of the kind of line ending did."""

    before: Text
    after: Text


class Tag(NamedTuple):
    """What the steps of one joint edit share: the least of its documents, the version of that one then, and all of them."""

    least: int
    version: int
    members: frozenset[int]


@dataclass(slots=True)
class Step:
    """Edits that are undone together, or one change of kind, with the alternative versions around it."""

    done: list[Batch] | Recast
    before: int
    after: int
    tag: Tag | None = None  # where it is one of several documents


def tags_of(steps: Iterable[Step]) -> set[Tag]:
    return {step.tag for step in steps if step.tag}


@dataclass(slots=True, frozen=True)
class Mirror:
    """A text that follows a document, and the version whose text it has."""

    version: int
    text: Text


@dataclass(slots=True, frozen=True)
class Event:
    """A change, by the version before it and the whole text after it."""

    before: int
    after: str


@dataclass
class Document:
    """The state that commands change and ask about."""

    text: Text = field(default_factory=lambda: Text(""))
    table: Table = STANDARD_TABLE
    hiding: Hiding | None = None
    decorations: dict[int, Decoration] = field(default_factory=dict)
    next_decoration: int = 1
    undo_steps: list[Step] = field(default_factory=list)
    redo_steps: list[Step] = field(default_factory=list)
    is_step_open: bool = False
    version: int = 1
    alternative: int = 1
    snapshots: dict[int, str] = field(default_factory=dict)
    next_snapshot: int = 1
    follower: Mirror | None = None
    sent: list[Event] = field(default_factory=list)
    text_before: str = ""
    edits: list[tuple[int, int, str]] = field(default_factory=list)
    kept_parse: tuple[Text, Parse] | None = None

    # ---- places

    def check_span(self, start: int, end: int) -> None:
        if start > end or not self.text.is_place(start) or not self.text.is_place(end):
            raise Refused("range")

    def check_line(self, line: int) -> None:
        if not 1 <= line <= len(self.text.starts):
            raise Refused("range")

    def offset_of(self, line: int, column: int) -> int:
        self.check_line(line)
        offset = self.text.starts[line - 1] + column - 1
        if column < 1 or offset > self.text.ends[line - 1] or not self.text.is_place(offset):
            raise Refused("range")
        return offset

    def position_of(self, offset: int) -> tuple[int, int]:
        line = bisect_right(self.text.starts, offset)
        return line, offset - self.text.starts[line - 1] + 1

    def content(self, line: int) -> str:
        self.check_line(line)
        return self.text.units[self.text.starts[line - 1] : self.text.ends[line - 1]]

    # ---- the text

    def sizes(self) -> str:
        return f" {self.version} {len(self.text.units)} {len(self.text.starts)}"

    def edit(self, line_ops: list[LineOp]) -> str:
        ops = self.ops_of(line_ops)
        self.check_apart(ops)
        self.check_growth(ops)
        self.carry_out(ops)
        return self.sizes()

    def ops_of(self, line_ops: list[LineOp]) -> list[Op]:
        """The ops in the order of the text."""
        return sorted(map(self.op_of, line_ops), key=lambda op: (op.end, op.start))

    def check_apart(self, ops: list[Op]) -> None:
        if any(op.end > following.start for op, following in zip(ops, ops[1:])):
            raise Refused("overlap")

    def replace(self, sought: str, text: str) -> str:
        new = normalized(text, self.text.kind)
        ops = [Op(start, end, new) for start, end in self.text.occurrences(sought)]
        if not ops:
            return " none"
        self.check_growth(ops)
        self.carry_out_alone(ops)
        return self.sizes()

    def check_growth(self, ops: list[Op]) -> None:
        if len(self.text.units) + sum(op.growth for op in ops) > MOST_UNITS:
            raise Refused("limit")

    def carry_out(self, ops: list[Op]) -> None:
        """Makes the next version by sorted ops that are apart."""
        batch = Batch(self.text.units, ops, applied(self.text.units, ops))
        self.begin_version()
        self.push(batch)
        self.alternative = self.version
        self.redo_steps = []
        self.change(batch.after, ops)

    def carry_out_alone(self, ops: list[Op]) -> None:
        """A step by itself: the open one is closed before and after."""
        self.is_step_open = False
        self.carry_out(ops)
        self.is_step_open = False

    def op_of(self, op: LineOp) -> Op:
        if op.at:
            start, end = op.at
        else:
            start, end = self.offset_of(*op.range[:2]), self.offset_of(*op.range[2:])
        self.check_span(start, end)
        return Op(start, end, normalized(op.text, self.text.kind), op.force)

    def eol(self, kind: str) -> str:
        if kind == self.text.kind:
            return " none"
        after = Text(normalized(self.text.units, kind), kind)
        if len(after.units) > MOST_UNITS:
            raise Refused("limit")
        self.begin_version()
        self.undo_steps.append(Step(Recast(self.text, after), self.alternative, self.version))
        self.is_step_open = False
        self.alternative = self.version
        self.redo_steps = []
        self.recast(after)
        return self.sizes()

    def push(self, batch: Batch) -> None:
        """Lets the open step have the batch, or a new one that this opens."""
        if not self.is_step_open:
            self.undo_steps.append(Step([], self.alternative, 0))
        self.is_step_open = True
        self.undo_steps[-1].done.append(batch)
        self.undo_steps[-1].after = self.version

    def begin_version(self) -> None:
        """The next version, whose changes are told by `changes`."""
        self.version += 1
        self.text_before = self.text.units
        self.edits = []

    def change(self, units: str, ops: list[Op]) -> None:
        self.edits += [(op.start, op.end, op.text) for op in reversed(ops)]
        self.text = Text(units, self.text.kind)
        self.decorations = carried(self.decorations, ops)

    def recast(self, text: Text) -> None:
        """Puts the text in the place of one with the same lines and other endings."""
        changed = zip(self.text.breaks, self.text.endings, text.endings)
        self.edits += [(start, end, after) for (start, end), before, after in changed if before != after][::-1]
        self.decorations = recast(self.decorations, self.text, text)
        self.text = text

    def undo(self) -> str:
        if not self.undo_steps:
            return " none"
        step = self.undo_steps.pop()
        self.begin_version()
        if isinstance(step.done, Recast):
            self.recast(step.done.before)
        else:
            for batch in reversed(step.done):
                self.change(batch.before, inverse(batch.before, batch.ops))
        self.redo_steps.append(step)
        self.alternative = step.before
        self.is_step_open = False
        return self.sizes()

    def redo(self) -> str:
        if not self.redo_steps:
            return " none"
        step = self.redo_steps.pop()
        self.begin_version()
        if isinstance(step.done, Recast):
            self.recast(step.done.after)
        else:
            for batch in step.done:
                self.change(batch.after, unforced(batch.ops))
        self.undo_steps.append(step)
        self.alternative = step.after
        return self.sizes()

    def stop(self) -> str:
        self.is_step_open = False
        return ""

    def take_off(self, tag: Tag) -> None:
        """Its step, if there is one, is a step of this document alone now."""
        for step in [*self.undo_steps, *self.redo_steps]:
            if step.tag == tag:
                step.tag = None

    def size(self) -> str:
        return f" {len(self.text.units)} {len(self.text.starts)}"

    def versions(self) -> str:
        return f" {self.version} {self.alternative}"

    def changes(self) -> str:
        """The edits of the last change. One after another they give the text of now, else the flat document is at fault."""
        text = self.text_before if self.version > 1 else self.text.units
        for start, end, new in self.edits:
            text = text[:start] + new + text[end:]
        assert text == self.text.units
        return f" {self.version}" + "".join(f" {start} {end} {quoted(new)}" for start, end, new in self.edits)

    def line(self, line: int) -> str:
        return f" {quoted(self.content(line))}"

    def value(self, at: list[int]) -> str:
        self.check_span(*at)
        return f" {quoted(self.text.units[at[0] : at[1]])}"

    def find(self, sought: str) -> str:
        return "".join(f" {start} {end}" for start, end in self.text.occurrences(sought))

    def offset(self, line: int, column: int) -> str:
        return f" {self.offset_of(line, column)}"

    def position(self, offset: int) -> str:
        self.check_span(offset, offset)
        return " {} {}".format(*self.position_of(offset))

    def stops(self, line: int) -> str | None:
        columns = clusters.starts(self.content(line))
        return None if columns is None else "".join(f" {column}" for column in columns)

    # ---- decorations

    def decorate(self, owner: int, remove: list[int], add: list[tuple[list[int], int, bool]]) -> str:
        owned = (id in self.decorations and self.decorations[id].owner == owner for id in remove)
        if len(set(remove)) != len(remove) or not all(owned):
            raise Refused("unknown")
        for at, stick, _ in add:
            self.check_span(*at)
            if stick > MOST_STICK:
                raise Refused("range")
        if len(self.decorations) - len(remove) + len(add) > MOST_DECORATIONS:
            raise Refused("limit")
        for id in remove:
            del self.decorations[id]
        first = self.next_decoration
        for id, (at, stick, collapse) in enumerate(add, first):
            self.decorations[id] = Decoration(id, owner, *at, stick, collapse)
        self.next_decoration += len(add)
        return f" {first} {len(add)}"

    def deco(self, id: int) -> str:
        found = self.decorations.get(id)
        if not found:
            raise Refused("unknown")
        return f" {found.start} {found.end} {found.stick} {found.owner}"

    def decos(self, at: list[int], owner: int | None) -> str:
        self.check_span(*at)
        start, end = at
        met = [it for it in self.decorations.values() if it.start <= end and it.end >= start]
        mine = [(it.start, it.end, it.id) for it in met if owner in (None, it.owner)]
        return "".join(f" {id} {start} {end}" for start, end, id in sorted(mine))

    # ---- brackets

    def parsed(self) -> Parse:
        if not self.kept_parse or self.kept_parse[0] is not self.text:
            self.kept_parse = self.text, parse(self.text, self.table, self.hiding)
        return self.kept_parse[1]

    def brackets(self, first: int, last: int) -> str:
        if first > last:
            raise Refused("range")
        self.check_line(first)
        self.check_line(last)
        return "".join(map(self.entry, self.parsed().between(self.text.starts[first - 1], self.text.ends[last - 1])))

    def entry(self, it: Entry) -> str:
        line, column = self.position_of(it.at)
        return f" {line} {column} {it.units} {it.kind} {it.status} {it.level}"

    def match(self, line: int, column: int) -> str:
        offset = self.offset_of(line, column)
        partners = [entry.partner for entry in self.parsed().between(offset, offset) if entry.partner]
        if not partners:
            return " none"
        return " {} {} {}".format(*self.position_of(partners[0].at), partners[0].units)

    def level(self, line: int, column: int) -> str:
        return f" {self.parsed().level_at(self.offset_of(line, column))}"

    # ---- snapshots

    def snapshot(self) -> str:
        if len(self.snapshots) >= MOST_SNAPSHOTS:
            raise Refused("limit")
        id = self.next_snapshot
        self.snapshots[id] = self.text.units
        self.next_snapshot += 1
        return f" {id}"

    def read(self, id: int, count: int) -> str:
        if id not in self.snapshots:
            raise Refused("unknown")
        if count < 2:
            raise Refused("range")
        rest = self.snapshots[id]
        count -= cuts_pair(rest, count)
        self.snapshots[id] = rest[count:]
        return f" {quoted(rest[:count])}"

    def close(self, id: int) -> str:
        if id not in self.snapshots:
            raise Refused("unknown")
        del self.snapshots[id]
        return ""

    # ---- what follows it

    def mirror(self) -> str:
        self.follower = Mirror(self.version, Text(self.text.units))
        return f" {self.version}"

    def send(self) -> str:
        if self.version == 1:
            return " none"
        if len(self.sent) >= MOST_SENT:
            raise Refused("limit")
        event = Event(self.version - 1, self.text.units)
        self.sent.append(event)
        return f" {len(self.sent)} {event.before}"

    def deliver(self, n: int) -> str:
        if not self.follower or not 1 <= n <= len(self.sent):
            raise Refused("unknown")
        have, event = self.follower.version, self.sent[n - 1]
        if event.before < have:
            return " old"
        if event.before > have:
            raise Refused(f"gap {have} {event.before}")
        self.follower = Mirror(have + 1, Text(event.after))
        return f" {have + 1} {len(event.after)} {len(self.follower.text.starts)}"

    def mirrored(self, n: int) -> str:
        if not self.follower:
            raise Refused("unknown")
        text = self.follower.text
        if not 1 <= n <= len(text.starts):
            raise Refused("range")
        return f" {quoted(text.units[text.starts[n - 1] : text.ends[n - 1]])}"


class Flat:
    """Answers the lines of a script. A document of each number is there from the start, and empty."""

    def __init__(self) -> None:
        self.documents = [Document() for _ in range(DOCUMENTS)]

    # ---- one document

    def open(self, doc: int, units: str, pairs: Pairs | None, hiding: Hiding | None, kind: str | None) -> str:
        text = Text(normalized(units, kind or MIXED), kind or MIXED)
        if len(text.units) > MOST_UNITS:
            raise Refused("limit")
        old = self.documents[doc]
        self.documents[doc] = Document(text, Table(pairs) if pairs else STANDARD_TABLE, hiding)
        self.lose(tags_of(old.undo_steps) | tags_of(old.redo_steps))
        return self.documents[doc].sizes()

    def change(self, name: str, doc: int, values: list[Any]) -> str:
        """A change empties the redo list, and its tags are lost. A call that is refused or finds nothing to do loses none."""
        document = self.documents[doc]
        before = tags_of(document.redo_steps)
        said = getattr(document, name)(*values)
        self.lose(before - tags_of(document.redo_steps))
        return said

    # ---- several documents

    def lose(self, tags: set[Tag]) -> None:
        """Where one document lost a tag, the steps of the others are theirs alone."""
        for tag in tags:
            for member in tag.members:
                self.documents[member].take_off(tag)

    def joint(self, edits: list[tuple[int, list[LineOp]]]) -> str:
        """A batch in each of these documents, all or none. Each reason to refuse is looked for in all of them."""
        docs = [doc for doc, _ in edits]
        if max(docs) >= DOCUMENTS or len(set(docs)) < len(docs):
            raise Refused("unknown")
        members = [self.documents[doc] for doc in docs]
        batches = [document.ops_of(line_ops) for document, (_, line_ops) in zip(members, edits)]
        for document, ops in zip(members, batches):
            document.check_apart(ops)
        for document, ops in zip(members, batches):
            document.check_growth(ops)
        tag = Tag(min(docs), self.documents[min(docs)].version + 1, frozenset(docs))
        lost = set().union(*(tags_of(document.redo_steps) for document in members))
        for document, ops in zip(members, batches):
            document.carry_out_alone(ops)
            document.undo_steps[-1].tag = tag
        self.lose(lost)
        return "".join(f" {doc}{document.sizes()}" for doc, document in zip(docs, members))

    def undo(self, doc: int) -> str:
        return self.go(doc, Document.undo, lambda document: document.undo_steps)

    def redo(self, doc: int) -> str:
        return self.go(doc, Document.redo, lambda document: document.redo_steps)

    def go(self, doc: int, way: Callable[[Document], str], steps_of: Callable[[Document], list[Step]]) -> str:
        """The next step of the document, and with it those of all other documents that made it at once."""
        tags = [next((step.tag for step in steps_of(document)[-1:]), None) for document in self.documents]
        if not tags[doc]:
            return way(self.documents[doc])
        for member in sorted(tags[doc].members):
            if tags[member] != tags[doc]:
                raise Refused(f"joint {member}")
        for member in tags[doc].members:
            way(self.documents[member])
        return self.documents[doc].sizes()

    # ---- lines

    def said(self, request: Request) -> str | None:
        name, doc, values = request
        if name == "joint":
            return self.joint(*values)
        if doc >= DOCUMENTS:
            raise Refused("unknown")
        if name in ("open", "undo", "redo"):
            return getattr(self, name)(doc, *values)
        if name in ("edit", "eol", "replace"):
            return self.change(name, doc, values)
        return getattr(self.documents[doc], METHODS.get(name, name))(*values)

    def reply(self, line: bytes) -> bytes | None:
        """The reply to a line without its LF; None where it has none."""
        if len(line) > MOST_LINE_BYTES:
            return b"! limit"
        if not line.strip(BLANKS):
            return None
        try:
            said = self.said(request_of(line))
        except Refused as refused:
            return f"! {refused}".encode()
        return UNJUDGED if said is None else b"ok" + said.encode("utf-8")


METHODS = {"version": "versions"}
