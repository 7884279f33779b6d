"""Writes scripts over several documents, some of which are edited and undone together."""
from collections.abc import Iterator
from random import Random
from typing import NamedTuple

import hostile
from flat import DOCUMENTS, Flat, Step
from scripts import Writer

PLACES = [0, 0, 0, 1, 2, 3, 4, 7, 31, 32, 62, 63]  # the numbers of the documents that are played most
NO_DOCUMENTS = [DOCUMENTS, DOCUMENTS, DOCUMENTS + 1, 127, 2**32, 2**63, 2**64 - 1]
OP = '{"at":[0,0],"text":"x"}'
EDIT = f'{{"doc":1,"ops":[{OP}]}}'
NO_EDITS = [
    "", EDIT, f"{EDIT},", f"{EDIT},null", f"{EDIT},[]", f"{EDIT},{{}}", f"{OP},{EDIT}", f'{EDIT},{{"ops":[{OP}]}}',
    f'{EDIT},{{"doc":2}}', f'{EDIT},{{"doc":2,"ops":[]}}', f'{EDIT},{{"doc":2,"ops":{OP}}}', f'{EDIT},{{"doc":null,"ops":[{OP}]}}',
    f'{EDIT},{{"doc":2.0,"ops":[{OP}]}}', f'{EDIT},{{"doc":-1,"ops":[{OP}]}}', f'{EDIT},{{"doc":2,"ops":[{OP}],"text":""}}',
    f'{EDIT},{{"doc":2,"ops":[{OP}],"edits":[]}}', f'{EDIT},{{"doc":2,"ops":[{OP},{{"at":[0],"text":""}}]}}',
    f'{EDIT},{{"doc":18446744073709551616,"ops":[{OP}]}}', f'{EDIT},{{"doc":64,"ops":[{{"at":[0,0],"text":1}}]}}',
]  # fmt: skip
NO_JOINTS = [
    '{"cmd":"joint"}', '{"cmd":"joint","edits":null}', '{"cmd":"joint","edits":{}}', f'{{"cmd":"joint","ops":[{OP}]}}',
    f'{{"cmd":"joint","doc":0,"edits":[{EDIT},{EDIT}]}}', f'{{"cmd":"joint","edits":[{EDIT},{EDIT}],"doc":64}}',
    f'{{"cmd":"joint","edits":[{EDIT},{EDIT}],"force":true}}', f'{{"cmd":"edit","edits":[{EDIT},{EDIT}]}}',
    f'{{"cmd":"edit","doc":1,"ops":[{OP}],"edits":[]}}', f'{{"cmd":"joint","edits":[[{EDIT}],[{EDIT}]]}}',
]  # fmt: skip

# What comes behind a joint edit: commands on two of its documents, a and b, on a third one or one of these, c, and on one
# that is none of them where there is one, o.
BEHIND_A_JOINT = [
    "undo a", "undo a, undo b", "undo a, redo b", "undo a, redo b, undo b, redo a", "undo a, redo a, edit b, undo b, undo a",
    "edit b, undo a, undo b, undo a, redo b", "edit a, edit c, undo b, undo a, undo b, undo c, undo b",
    "undo a, edit b, redo a, redo b", "undo a, edit b, undo b, redo a, redo b, undo a", "undo a, eol b, redo a, undo b, redo b",
    "undo a, replace b, redo a", "undo a, edit b, edit a, undo a, undo b", "undo a, edit beyond b, redo a, undo b",
    "undo a, eol again b, redo c, undo a", "undo a, open b, redo a, undo a, redo b", "open b, undo a, redo a, undo b",
    "open a, joint ab, undo b, undo c", "joint ab, undo a, undo b, redo a, redo b", "joint bc, undo a, undo c, undo b, redo b",
    "undo a, joint ab, undo b", "undo a, joint ao, redo b, undo b, undo o", "undo a, joint ao, undo a, redo c, redo o",
    "joint ao, undo b, undo a, undo b, redo c, redo o", "undo a, joint beyond ab, redo b", "stop a, edit a, undo b, undo a, undo b",
    "edit a, edit b, stop b, undo c, redo b, undo a", "version a, version b, undo a, version b, version c",
    "send a, undo b, send a, deliver a, deliver a, mirrored a", "mirror b, undo a, send b, deliver b, redo c, send b, deliver b",
    "decorate a, undo b, deco a, redo a, deco a", "snapshot b, undo a, read b, redo b, close b",
    "level b, undo a, level b, match b",
    "undo a, undo a, redo b, redo b", "undo a, undo b, undo c, redo a, redo b, redo c", "redo a, undo o, redo o, undo a",
    "undo a, decorate b, stop b, redo a, undo b", "undo a, undo o, redo b, redo o", "line a, undo b, line a, line b, size c",
]  # fmt: skip


class Script(NamedTuple):
    """Lines without their LF, and the replies of the flat documents to those that are not empty."""

    lines: list[bytes]
    replies: list[bytes]
    has_last_end: bool = True

    @property
    def bytes(self) -> bytes:
        return b"\n".join(self.lines) + b"\n" * self.has_last_end

    @property
    def status(self) -> int:
        return int(any(reply.startswith(b"!") for reply in self.replies))


class Company(NamedTuple):
    """How many documents a script is about, and how often they are changed at once."""

    documents: int
    joint: float = 0  # how often a line is a joint edit
    tagged: float = 0  # how often a step of several documents is undone or made again, where one is next
    stays: float = 0.7  # how often a line is on the document of the one before


COMPANIES = {
    "alone": (8, Company(1)),
    "beside": (2, Company(3)),
    "joined": (6, Company(3, joint=0.06, tagged=0.1)),
    "twins": (4, Company(2, joint=0.15, tagged=0.25, stays=0.5)),
    "loose": (3, Company(4, joint=0.1, tagged=0.03, stays=0.4)),
    "crowd": (1, Company(9, joint=0.1, tagged=0.2, stays=0.3)),
    "all": (0.2, Company(DOCUMENTS, joint=0.1, tagged=0.2, stays=0.3)),
}


class Writers:
    """Makes the lines of one script, by a writer for each document, and answers each line by flat documents."""

    def __init__(self, seed: str) -> None:
        self.seed = seed
        self.draw = Random(seed)
        self.flat = Flat()
        weights, companies = zip(*COMPANIES.values())
        self.company = self.draw.choices(companies, weights)[0]
        self.played = self.drawn_documents(self.company.documents)
        self.writers: dict[int, Writer] = {}
        self.last = self.played[0]  # the document of the line before
        self.coming: list[str] = []  # what comes next, the next one last

    def drawn_documents(self, count: int) -> list[int]:
        """So many numbers. One document alone is that of number 0 mostly."""
        if count == 1:
            return [0 if self.chance(0.8) else self.draw.choice(PLACES)]
        found = {self.draw.choice(PLACES) for _ in range(count)}
        rest = [n for n in range(DOCUMENTS) if n not in found]
        return [*found, *self.draw.sample(rest, k=count - len(found))]

    def chance(self, of: float) -> bool:
        return self.draw.random() < of

    def script(self, count: int, most_bytes: int) -> Script:
        """A script of so many lines, or of fewer where the replies would be too long."""
        lines, replies, size = [], [], 0
        while len(lines) < count and size < most_bytes:
            line = self.line()
            reply = self.flat.reply(line)
            lines.append(line)
            if reply is not None:
                replies.append(reply)
                size += len(reply) + 1
        return Script(lines, replies, has_last_end=not self.chance(0.2))

    def writer(self, doc: int) -> Writer:
        if doc not in self.writers:
            self.writers[doc] = Writer(f"{self.seed}, document {doc}", doc, self.flat)
        return self.writers[doc]

    def line(self) -> bytes:
        if self.coming:
            *words, where = self.coming.pop().split()
            name, docs = " ".join(words), [int(n) for n in where.split("+")]
            if name.startswith("joint"):
                return self.joint_of(docs, is_beyond=name == "joint beyond")
            return self.writer(docs[0]).line(name)
        if self.chance(self.company.joint):
            return self.joint()
        if self.chance(0.002):
            return self.on_no_document()
        if not self.chance(self.company.stays):
            self.last = self.draw.randrange(DOCUMENTS) if self.chance(0.01) else self.draw.choice(self.played)
        return self.writer(self.last).line(self.tagged_way())

    def tagged_way(self) -> str | None:
        """An undo or a redo, where that is one of a step of several documents, and comes now."""
        if not self.chance(self.company.tagged):
            return None
        document = self.flat.documents[self.last]
        ways = [name for name, steps in (("undo", document.undo_steps), ("redo", document.redo_steps)) if is_tagged(steps)]
        return self.draw.choice(ways) if ways else None

    def on_no_document(self) -> bytes:
        line = self.writer(self.last).line()
        return line[:-1] + b',"doc":%d}' % self.draw.choice(NO_DOCUMENTS)

    # ---- joint edits

    def joint(self) -> bytes:
        """One in some documents, mostly two or three; what comes behind it often shows that they go together."""
        most = len(self.played) if self.chance(0.2) else min(len(self.played), 3)
        members = self.draw.sample(self.played, k=self.draw.randint(2, most))
        if self.chance(0.7):
            self.coming = [*self.behind(members)][::-1]
        return self.joint_of(members)

    def behind(self, members: list[int]) -> Iterator[str]:
        """What comes behind a joint edit in these, with their numbers."""
        a, b, c = (self.draw.sample(members, k=min(3, len(members))) * 2)[:3]
        others = [doc for doc in self.played if doc not in members] or [self.draw.randrange(DOCUMENTS)]
        numbers = {"a": a, "b": b, "c": c, "o": self.draw.choice(others)}
        for step in self.draw.choice(BEHIND_A_JOINT).split(", "):
            *words, where = step.split()
            yield " ".join([*words, "+".join(str(numbers[letter]) for letter in where)])

    def joint_of(self, members: list[int], is_beyond: bool = False) -> bytes:
        """A joint edit in these; now and then none that may be."""
        if self.chance(0.03):
            return self.draw.choice(NO_JOINTS).encode()
        if self.chance(0.02):
            return b'{"cmd":"joint","edits":[%b]}' % self.draw.choice(NO_EDITS).encode()
        named = [*members]
        if self.chance(0.02):
            named[self.draw.randrange(len(named))] = self.draw.choice([*NO_DOCUMENTS, *named])
        edits = [self.edit(doc, self.writer(member).ops()) for doc, member in zip(named, members)]
        if is_beyond:
            edits[-1] = edits[-1].replace('"ops":[', '"ops":[{"range":[9999,1,9999,1],"text":"x"},')
        line = f'{{"cmd":"joint","edits":[{",".join(edits)}]}}'
        if self.chance(0.02):
            return hostile.made_from(self.draw, line.encode("utf-8"))
        return (hostile.spelled_otherwise(self.draw, line) if self.chance(0.02) else line).encode("utf-8")

    def edit(self, doc: int, ops: str) -> str:
        """The batch of one document, its fields in either order."""
        fields = [f'"doc":{doc}', f'"ops":[{ops}]']
        return f"{{{','.join(fields if self.chance(0.9) else fields[::-1])}}}"


def is_tagged(steps: list[Step]) -> bool:
    return bool(steps) and steps[-1].tag is not None
