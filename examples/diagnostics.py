"""Diagnostics that stay with their words while the text is edited, until the next check replaces them.

PYTHONPATH=python python3 examples/diagnostics.py
"""
from textmodel import Document, Stick

CHECKER = 1  # who owns the decorations; another tool takes another number
WORDS = {"teh": "did you mean 'the'?", "recieve": "did you mean 'receive'?"}


class Checker:
    """The messages of a document, by the ids of their decorations."""

    def __init__(self, document: Document) -> None:
        self.document, self.messages = document, dict[int, str]()

    def check(self) -> None:
        """Takes the old diagnostics out and puts the new ones in, as one call."""
        found = [(span, message) for word, message in WORDS.items() for span in self.document.find(word)]
        # what is typed right beside a word does not belong to it; a word that is deleted leaves an empty span
        new = [(*span, Stick.NONE, True) for span, _ in found]
        ids = self.document.decorate(CHECKER, add=new, remove=self.messages)
        self.messages = dict(zip(ids, (message for _, message in found)))

    def show(self, title: str) -> None:
        print(f"{title}:")
        for it in self.document.decorations(0, len(self.document), CHECKER):
            if it.start < it.end:
                line, column = self.document.position(it.start)
                print(f"  {line}:{column}: {self.document[it.start : it.end]}: {self.messages[it.id]}")


def main() -> None:
    with Document("I recieve teh letter.\nAnd teh parcel.\n") as document:
        checker = Checker(document)
        checker.check()
        checker.show("checked")
        document.edit_at((1, 1), (1, 2), "Today\nwe")
        checker.show("after an edit before them")
        document.edit(*document.find("teh")[0], "the")
        checker.show("after a correction, before the next check")
        checker.check()
        checker.show("checked again")


if __name__ == "__main__":
    main()
