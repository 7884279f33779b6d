"""Renames a word in several files as one joint edit, shows the lines that changed, and undoes it in all of them.

PYTHONPATH=python python3 examples/rename.py OLD NEW FILE ..
"""
import re
import sys
from collections.abc import Iterator
from pathlib import Path

from textmodel import Document, Edit, Session


def edits_of(document: Document, old: str, new: str) -> Iterator[Edit]:
    """The edits that replace the word where it stands alone."""
    word = re.compile(rf"\b{re.escape(old)}\b")
    for number, line in enumerate(document.lines(), 1):
        for found in word.finditer(line):
            # an index of a str counts code points from 0, a column from 1
            start, end = (document.offset(number, at + 1, "utf-32") for at in found.span())
            yield Edit(start, end, new)


def main(old: str, new: str, *paths: str) -> None:
    with Session() as session:
        files = dict(zip(paths, session))
        for path, document in files.items():
            document.open(Path(path).read_bytes())
        found = {path: [*edits_of(document, old, new)] for path, document in files.items()}
        edits = {files[path].number: batch for path, batch in found.items() if batch}
        if not edits:
            raise SystemExit(f"{old} is in none of these files")
        changed = {path: sorted({files[path].position(edit.start).line for edit in batch}) for path, batch in found.items()}

        session.joint(edits)  # all of them, or none
        for path, lines in changed.items():
            for number in lines:
                print(f"{path}:{number}: {files[path].line(number)}")

        session[min(edits)].undo()  # in any of the files, it undoes the edit in all
        for path, document in files.items():
            is_back = document.text.encode() == Path(path).read_bytes()
            print(f"{path}: version {document.version}, {'as it was' if is_back else 'changed'}")


if __name__ == "__main__":
    main(*sys.argv[1:])
