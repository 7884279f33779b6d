"""What one program takes for a case, beside another whose replies must be the same."""
import shutil
import subprocess
from collections.abc import Callable
from functools import partial
from pathlib import Path
from typing import NamedTuple, TypeVar

from cases import Case
from running import InFile

HERE = Path(__file__).resolve().parent
MOST_RUNS = 5
Run = TypeVar("Run")
COLUMNS = ("ns", "refused", "diff", "growth", "KiB")
ALONE = ("dearest", "of mean")


class Program(NamedTuple):
    """What is measured: its name in the table's head, its command, if there is one, and whether it is the baseline."""

    name: str
    command: list[str]
    is_flat: bool

    @property
    def columns(self) -> tuple[str, ...]:
        """What the table shows of it."""
        return COLUMNS if self.is_flat else COLUMNS + ALONE


class Measured(NamedTuple):
    """What one program took for a case: nanoseconds a line, for its lines and the refused ones, and its replies."""

    line: float
    refused: float | None
    kib: int
    replies: list[bytes]

    @property
    def difference(self) -> float:
        """What a line takes beside being read and refused."""
        return self.line - (self.refused or 0)


def run_once(command: list[str], case: Case, folder: Path) -> tuple[Measured, int]:
    """Runs the case once; gives also the processor time of all of it."""
    running = InFile(command, folder)
    clocks, replies = [], []
    for lines in (case.before, case.refused, case.lines):
        replies += running.answers(lines)
        clocks.append(running.nanoseconds())
    count = len(case.lines)
    refused = (clocks[1] - clocks[0]) / count if case.refused else None
    measured = Measured((clocks[2] - clocks[1]) / count, refused, running.peak_kib(), replies)
    running.end()
    return measured, clocks[2]


def in_turn(onces: list[Callable[[], tuple[Run, int]]], enough: float) -> list[list[Run]]:
    """What a few runs of each gave. A run tells its processor time too: no more of a kind begin when they have taken enough.
    They take turns, so that what else the machine does for a while meets all kinds alike."""
    runs, spent = [[] for _ in onces], [0] * len(onces)
    for turn in range(MOST_RUNS):
        for kind, once in enumerate(onces):
            if turn == 0 or spent[kind] < enough * 1e9:
                measured, took = once()
                runs[kind].append(measured)
                spent[kind] += took
    return runs


def repeated(once: Callable[[], tuple[Run, int]], enough: float) -> list[Run]:
    """The same of one kind."""
    return in_turn([once], enough)[0]


def least_of(runs: list[Measured]) -> Measured:
    """The least time of some runs of one case, and the most memory."""
    refused = None if runs[0].refused is None else min(run.refused for run in runs)
    return Measured(min(run.line for run in runs), refused, max(run.kib for run in runs), runs[0].replies)


def measure_all(parts: list[tuple[Program, Case]], enough: float, folder: Path) -> dict[str, Measured]:
    """The least that each program took for its part of a case."""
    onces = [partial(run_once, program.command, part, folder) for program, part in parts]
    runs = in_turn(onces, enough)
    return {program.name: least_of(own) for (program, _), own in zip(parts, runs, strict=True)}


def measure(program: Program, case: Case, enough: float, folder: Path) -> Measured:
    """The same of one program."""
    return measure_all([(program, case)], enough, folder)[program.name]


def compare(case: Case, part: Case, ours: Measured, theirs: Measured, name: str) -> None:
    """Ends the run where a reply of the other program, which got a part of the case, is not ours."""
    before = len(case.before)
    lines = ours.replies[before + len(case.refused) :]
    expected = ours.replies[: before + len(part.refused)] + lines[: len(part.lines)]
    asked = part.before + part.refused + part.lines
    for number, (line, our, their) in enumerate(zip(asked, expected, theirs.replies, strict=True), 1):
        if our != their:
            told = "\n".join((line[:200], f"ours: {our[:200]!r}", f"{name}: {their[:200]!r}"))
            raise SystemExit(f"{case.what}, {case.size}: {name} replies otherwise to line {number}:\n{told}")


def print_row(first: list[str], rest: list[str]) -> None:
    """A row of the table, as wide as all others."""
    named = [f"{first[0]:34}", *(f"{cell:>8}" for cell in first[1:])]
    print("|", " | ".join(named + [f"{cell:>11}" for cell in rest]), "|", flush=True)


def flat_program(folder: Path) -> Program:
    """The flat baseline, built here where there is a C compiler."""
    if not shutil.which("cc"):
        return Program("flat", [], True)
    built = folder / "flat"
    subprocess.run(["cc", "-O2", "-Wall", "-Wextra", "-o", built, HERE / "flat.c"], check=True)
    return Program("flat", [str(built)], True)
