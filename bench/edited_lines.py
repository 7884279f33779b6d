"""The trace of an edited text by lines: the program gets all of it, the flat document the first rounds of each part."""
from functools import partial
from pathlib import Path
from typing import NamedTuple

from cases import Case, Lines, opened, plain, size_of
from edited_trace import Part
from measuring import Program, compare, measure, repeated, run_once
from running import InFile


class ByLines(NamedTuple):
    """What the program and the flat document take for the lines of a trace."""

    ours: Program
    flat: Program
    folder: Path


class Both(NamedTuple):
    """Nanoseconds for lines, and for as many that are refused."""

    lines: int
    refused: int


def must_accept(part: Part, replies: list[bytes]) -> None:
    """Ends the run where a line was refused."""
    for line, reply in zip(part.lines, replies, strict=True):
        if reply.startswith(b"!"):
            raise SystemExit(f"{part.what}: {line[:200]}\nours: {reply[:200]!r}")


def all_once(command: list[str], setup: Lines, parts: list[Part], folder: Path) -> tuple[list[Both], int]:
    """Nanoseconds of each part for its lines, and for as many that are refused; and the processor time of all."""
    running, took = InFile(command, folder), []
    running.answers(setup)
    for part in parts:
        clocks = [running.nanoseconds()]
        for lines in (part.refused, part.lines):
            replies = running.answers(lines)
            clocks.append(running.nanoseconds())
        must_accept(part, replies)
        took.append(Both(clocks[2] - clocks[1], clocks[1] - clocks[0]))
    running.end()
    return took, clocks[-1]


def of_ours(by: ByLines, setup: Lines, parts: list[Part], enough: float) -> list[float]:
    """What a round of each part takes the program, by the least of a few runs for its lines and of those that are refused."""
    runs = repeated(partial(all_once, by.ours.command, setup, parts, by.folder), enough)
    least = [[min(times) for times in zip(*of_part, strict=True)] for of_part in zip(*runs, strict=True)]
    return [(lines - refused) / part.rounds for part, (lines, refused) in zip(parts, least, strict=True)]


def some_of(parts: list[Part], number: int, units: int, rounds: int) -> Case:
    """The first rounds of a part, on the text that it met, and after as many rounds of the parts that it follows."""
    part, first = parts[number], number - parts[number].follows
    followed = [line for earlier in parts[first:number] for line in earlier.first(rounds)[0]]
    lines, refused = part.first(rounds)
    setup = [*opened(parts[first].before.decode()), *followed]
    return Case(part.what, size_of(units), setup, lines, refused, len(lines))


def of_flat(by: ByLines, case: Case, rounds: int) -> float | None:
    """The least of a few runs of the flat document for a round, whose replies are the program's. None where there is no such
    document."""
    if not by.flat.command:
        return None
    ours, _ = run_once(by.ours.command, case, by.folder)
    flat = measure(by.flat, case, 0.2, by.folder)
    compare(case, case, ours, flat, by.flat.name)
    return flat.difference * len(case.lines) / rounds


def lines_of(by: ByLines, units: int, parts: list[Part], rounds: int, enough: float) -> list[tuple[float, float | None]]:
    """What a round of each part takes the program, and the flat document, which gets at most a given number of rounds."""
    ours, flat = of_ours(by, plain(units), parts, enough), []
    for number, part in enumerate(parts):
        case = some_of(parts, number, units, rounds) if part.what else None
        flat.append(of_flat(by, case, min(rounds, part.rounds)) if case else None)
    return list(zip(ours, flat, strict=True))
