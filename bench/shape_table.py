"""The table of shapes: what a line takes, beside the flat baseline, and the memory that stays."""
from functools import partial
from pathlib import Path
from typing import NamedTuple

from cases import FULL, Scale
from measuring import Program, compare, print_row, repeated
from running import InFile
from shapes import Shape, all_shapes

COLUMNS = ("ns", "growth", "KiB", "KiB kept", "kept")


class Shaped(NamedTuple):
    """What one program took for a shape: nanoseconds a line, the most memory, and that resident at first, at most since, and
    last."""

    line: float
    peak: int
    first: int
    most: int
    last: int
    replies: list[bytes]

    def kept(self, shape: Shape) -> str:
        """What came to be resident: in bytes for each that is counted, or the last beside the first."""
        if shape.first:
            return f"x{self.last / self.first:.2f}"
        grown = ((self.most if shape.is_of_most else self.last) - self.first) * 1024
        return ", ".join(f"{grown / count:,.1f} per {name}" for name, count in shape.counted.items())

    def cells(self, shape: Shape, before: "Shaped | None") -> list[str]:
        """The columns of a program, with the growth since the row before, if that is of the same kind."""
        growth = f"x{self.line / before.line:.2f}" if before else ""
        return [f"{self.line:,.0f}", growth, f"{self.peak:,}", f"{self.last:,}", self.kept(shape)]


def run_once(command: list[str], shape: Shape, folder: Path) -> tuple[Shaped, int]:
    """Runs the shape once; gives also the processor time of all of it."""
    running = InFile(command, folder)
    replies = running.answers(shape.case.before)
    began = running.nanoseconds()
    replies += running.answers(shape.case.lines[: shape.first])
    first, before = running.resident_kib(), running.peak_kib()
    running.forget_peak()
    replies += running.answers(shape.case.lines[shape.first :])
    ended = running.nanoseconds()
    line = (ended - began) / len(shape.case.lines)
    most = running.peak_kib()
    shaped = Shaped(line, max(before, most), first, most, running.resident_kib(), replies)
    running.end()
    return shaped, ended


def measure(program: Program, shape: Shape, enough: float, folder: Path) -> Shaped:
    """The run of a few in which the program took the least."""
    return min(repeated(partial(run_once, program.command, shape, folder), enough), key=lambda run: run.line)


def ratio(now: dict[str, Shaped]) -> str:
    """How often the flat baseline's time ours is."""
    return f"x{now['ours'].line / now['flat'].line:.2f}" if "flat" in now else ""


def print_shapes(programs: list[Program], scale: Scale, folder: Path) -> None:
    """Measures every shape, and prints it as a row."""
    titles = [f"{program.name} {column}" for program in programs for column in COLUMNS]
    print_row(["what", "size", "lines"], ["ours / flat", *titles])
    print_row(["---", "--:", "--:"], ["--:"] * (len(titles) + 1))
    before, what = {}, ""
    for shape in all_shapes(1 if scale is FULL else 10):
        now: dict[str, Shaped] = {}
        row, case = [], shape.case
        for program in (it for it in programs if it.command):
            now[program.name] = measure(program, shape, scale.enough, folder)
            compare(case, case, now["ours"], now[program.name], program.name)
        for program in programs:
            last = before.get(program.name) if case.what == what else None
            row += now[program.name].cells(shape, last) if program.command else ["no cc", "", "", "", ""]
        print_row([case.what, case.size, f"{len(case.lines):,}"], [ratio(now), *row])
        before, what = now, case.what
