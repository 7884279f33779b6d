"""Whether each wrong body still applies: its crate and its file are there, and the line that it takes out stands once."""
import re

from making.pages import ROOT

import crates

TRIED = re.compile(r"^# tried: (never|unknown|[0-9a-f]{7,40})$", re.M)


def pairs_of(text):
    """The lines that an edit takes out and puts in, each with its file."""
    path = old = ""
    for line in text.split("\n"):
        word, _, rest = line.partition(": ")
        if word == "file":
            path = rest.strip()
        elif word == "old":
            old = rest
        elif line.startswith("new:"):
            yield path, old, line.removeprefix("new:").removeprefix(" ")


def fault_of(edit, crate):
    """Why an edit of the crate does not apply, or None."""
    texts, pairs = {}, [*pairs_of(edit.read_text())]
    for path, old, new in pairs:
        source = ROOT / "crates" / crate / path
        if not source.is_file():
            return f"there is no {source.relative_to(ROOT)}"
        text = texts.get(path) or source.read_text()
        if text.count(old) != 1:
            return f"its line stands {text.count(old)} times in {source.relative_to(ROOT)}: {old.strip()}"
        texts[path] = text.replace(old, new)
    return None if pairs else "it changes nothing"


def faults():
    """What is wrong with the edits of the gate and with those beside it, in words."""
    known = crates.read()
    gate = [(edit, edit.parent.parent.name) for edit in sorted(ROOT.glob("crates/*/must-fail/*.edit"))]
    beside = [(edit, edit.parent.name) for edit in sorted(ROOT.glob("docs/wrong_bodies/*/*.edit"))]
    for edit, crate in gate + beside:
        fault = fault_of(edit, crate) if crate in known else f"there is no crate {crate}"
        if fault:
            yield f"{edit.relative_to(ROOT)}: {fault}"
    for edit, _ in beside:
        if len(TRIED.findall(edit.read_text())) != 1:
            yield f"{edit.relative_to(ROOT)}: no line says at which commit it was tried"
