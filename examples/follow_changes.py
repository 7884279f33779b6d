"""A copy of a document that follows each change, as a view does, or a language client that sends changes to its server.

PYTHONPATH=python python3 examples/follow_changes.py
"""
from textmodel import Document


class Copy:
    """The units of a document, as bytes of UTF-16."""

    def __init__(self, document: Document) -> None:
        self.document = document
        self.read_again()

    def read_again(self) -> None:
        self.version = self.document.version
        self.units = bytearray(self.document.text.encode("utf-16-le", "surrogatepass"))

    def follow(self) -> None:
        """Brings the copy to the text of now."""
        missed = self.document.version - self.version
        if missed > 1:  # the document tells only its last change
            print("read again")
            return self.read_again()
        for change in self.document.changes() if missed else ():
            print(change)
            # each place counts in the text that the changes before it left, so they are made in this order
            self.units[2 * change.start : 2 * change.end] = change.text.encode("utf-16-le", "surrogatepass")
        self.version = self.document.version

    def __str__(self) -> str:
        return self.units.decode("utf-16-le", "surrogatepass")


def main() -> None:
    with Document("one two three\n") as document:
        copy = Copy(document)
        document.batch([(0, 3, "1"), (4, 7, "\N{WHITE SMILING FACE}"), (8, 13, "3")])
        copy.follow()
        document.set_ending("crlf")
        copy.follow()
        document[:0] = "zero "
        copy.follow()
        document.undo()
        document.redo()
        copy.follow()
        print(repr(str(copy)), str(copy) == document.text)


if __name__ == "__main__":
    main()
