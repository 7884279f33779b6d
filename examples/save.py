"""Saves a file from a snapshot on a thread of its own, while the text is edited.

PYTHONPATH=python python3 examples/save.py FILE
"""
import os
import sys
from pathlib import Path
from threading import Thread

from textmodel import Document, Snapshot


def save(snapshot: Snapshot, path: Path) -> None:
    """Writes the text of the snapshot; the old file stays until the new one is whole."""
    new = path.with_name(path.name + ".new")
    with snapshot, new.open("wb") as file:
        for part in snapshot:  # so the text is never whole in memory
            file.write(part.encode("utf-8", "replace"))
    os.replace(new, path)


def main(name: str) -> None:
    text = "line\n" * 100_000
    with Document(text) as document:
        saved = document.alternative
        saving = Thread(target=save, args=(document.snapshot(), Path(name)))
        saving.start()
        for _ in range(1000):
            document[:0] = "typed while it is saved\n"
        saving.join()
        print(f"{document.line_count} lines; the file has the text of the snapshot: {Path(name).read_bytes() == text.encode()}")
        print(f"changed since: {document.alternative != saved}")
        document.undo()
        print(f"changed since, after an undo: {document.alternative != saved}")  # the version is another, the text is not


if __name__ == "__main__":
    main(sys.argv[1])
