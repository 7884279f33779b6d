"""Opens a file, inserts a text at a line and a column, undoes and redoes that, and saves the file.

PYTHONPATH=python python3 examples/edit_file.py FILE LINE COLUMN TEXT

The file keeps its line endings, which the new text gets too, and its byte order mark.
"""
import codecs
import re
import sys
from pathlib import Path

from textmodel import Document, RangeError


def ending_of(data: bytes) -> str | None:
    """The line ending of a file; None where it has several, which then stay as they are."""
    found = {*re.findall(rb"\r\n|\r|\n", data)}
    return "crlf" if found == {b"\r\n"} else "lf" if found <= {b"\n"} else None


def main(name: str, line: str, column: str, text: str) -> None:
    path = Path(name)
    data = path.read_bytes()
    mark = codecs.BOM_UTF8 if data.startswith(codecs.BOM_UTF8) else b""  # not a part of the text
    with Document(data[len(mark) :], ending=ending_of(data)) as document:
        place = int(line), int(column)
        try:
            document.edit_at(place, place, text, "utf-8")  # the column counts bytes, as compilers count
        except RangeError as error:
            raise SystemExit(f"{name}: {error}") from None
        print(f"version {document.version}: {document.line(place[0])}")
        document.undo()
        print(f"version {document.version}: {document.line(place[0])}")
        document.redo()
        print(f"version {document.version}: {document.line(place[0])}")
        with path.open("wb") as file:
            file.write(mark)
            for part in document.parts():
                file.write(part.encode())


if __name__ == "__main__":
    main(*sys.argv[1:])
