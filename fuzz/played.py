"""The script that `textmodel play COUNT SEED` plays, line by line."""
from collections.abc import Iterator

MULTIPLIER, INCREMENT, WORD = 6364136223846793005, 1442695040888963407, 2**64
TEXTS = [('"a"', 1), ('"\\n"', 1), ('"\\r"', 1), ('"("', 1), ('")"', 1), ('"[x]"', 3), ('"bc d"', 4), ('"{"', 1)]


class Lines:
    """The script that a seed stands for, without its first line."""

    def __init__(self, seed: int) -> None:
        self.state = seed
        self.units = 0
        self.is_redo_next = False

    def below(self, most: int) -> int:
        self.state = (self.state * MULTIPLIER + INCREMENT) % WORD
        return (self.state >> 33) % most

    def line(self) -> str:
        if self.is_redo_next:
            self.is_redo_next = False
            return '{"cmd":"redo"}'
        kind = self.below(16)
        return self.edit() if kind < 8 else self.other(kind)

    def other(self, kind: int) -> str:
        """A line that leaves the number of units."""
        match kind:
            case 8:
                self.is_redo_next = True
                return '{"cmd":"undo"}'
            case 9:
                return '{"cmd":"stop"}'
            case 10:
                return self.decorate()
            case 11:
                return f'{{"cmd":"position","offset":{self.below(self.units + 1)}}}'
            case 12:
                return '{"cmd":"level","line":1,"col":1}'
            case 13:
                return '{"cmd":"brackets","from":1,"to":1}'
            case 14:
                return self.decos()
            case _:
                return '{"cmd":"size"}'

    def span(self, most: int) -> tuple[int, int]:
        start = self.below(self.units + 1)
        return start, start + min(self.below(most), self.units - start)

    def edit(self) -> str:
        start, end = self.span(4)
        text, units = TEXTS[self.below(8)]
        self.units += units - (end - start)
        return f'{{"cmd":"edit","ops":[{{"at":[{start},{end}],"text":{text}}}]}}'

    def decorate(self) -> str:
        start, end = self.span(8)
        return f'{{"cmd":"decorate","owner":1,"remove":[],"add":[{{"at":[{start},{end}],"stick":{self.below(4)}}}]}}'

    def decos(self) -> str:
        start = self.below(self.units + 1)
        return f'{{"cmd":"decos","at":[{start},{start}]}}'


def script(count: int, seed: int) -> Iterator[str]:
    lines = Lines(seed)
    for number in range(count):
        yield '{"cmd":"open","text":""}' if number == 0 else lines.line()
