"""The trace of an edited text by calls of the library in process, through edited.c."""
import re
import subprocess
from functools import partial
from pathlib import Path
from typing import NamedTuple

from cases import Lines
from edited_trace import Part
from measuring import HERE, repeated

HEADER = HERE.parent / "crates" / "textmodel_c"


class Took(NamedTuple):
    """Nanoseconds a round of the library and of the flat document, which got none where it is None."""

    ours: float
    flat: float | None


def built(library: Path, folder: Path) -> Path:
    """The program that makes the calls, with the library in this folder."""
    made, beside = folder / "edited", library.resolve()
    words = ["cc", "-O2", "-Wall", "-Wextra", "-Wno-unused-function", f"-I{HEADER}", "-o", made, HERE / "edited.c"]
    subprocess.run([*words, f"-L{beside}", f"-Wl,-rpath,{beside}", "-ltextmodel"], check=True)
    return made


def script_of(setup: Lines, parts: list[tuple[str, Lines]]) -> bytes:
    """A script of parts with their heads."""
    lines = [*setup, *(line for head, own in parts for line in (head, *own))]
    return "".join(line + "\n" for line in lines).encode("ascii")


def told(program: Path, word: str, setup: Lines, parts: list[tuple[str, Lines]]) -> list[list[int]]:
    """The numbers of each line that the program writes."""
    done = subprocess.run([program, word], input=script_of(setup, parts), stdout=subprocess.PIPE, check=False)
    if done.returncode:
        raise SystemExit(done.returncode)
    return [[int(number) for number in line.split()] for line in done.stdout.splitlines()]


def traced_once(program: Path, setup: Lines, parts: list[Part], rounds: int) -> tuple[list[Took], int]:
    """What each part took, of which the flat document gets at most a given number of rounds; and how long all took."""
    numbers = told(program, "trace", setup, [(part.head(rounds), part.lines) for part in parts])
    took = []
    for part, (ours, flat) in zip(parts, numbers, strict=True):
        of_flat = flat / min(rounds, part.rounds) if part.what else None
        took.append(Took(ours / part.rounds, of_flat))
    return took, sum(ours + flat for ours, flat in numbers)


def least(runs: list[Took]) -> Took:
    """The least of some runs of a part."""
    flat = [run.flat for run in runs if run.flat is not None]
    return Took(min(run.ours for run in runs), min(flat, default=None))


def traced(program: Path, setup: Lines, parts: list[Part], rounds: int, enough: float) -> list[Took]:
    """The least that each part took in a few runs."""
    runs = repeated(partial(traced_once, program, setup, parts, rounds), enough)
    return [least(list(of_part)) for of_part in zip(*runs, strict=True)]


def grown(program: Path, setup: Lines, part: Part) -> tuple[float, float]:
    """By how many bytes a round the memory grew in the part that is resident, and that malloc has in use."""
    ((resident, in_use),) = told(program, "memory", setup, [(part.head(0), part.lines)])
    return resident / part.rounds, in_use / part.rounds


def each(program: Path, setup: Lines, lines: Lines, runs: int) -> list[int]:
    """The least nanoseconds that each of the lines took as a call, over several runs."""
    all_runs = [told(program, "each", setup, [(f"# {len(lines)} 0 0", lines)]) for _ in range(runs)]
    return [min(numbers)[0] for numbers in zip(*all_runs, strict=True)]


def instructions(program: Path, setup: Lines, part: Part) -> float:
    """How many instructions a round of the part takes, as callgrind counts them."""
    counting = ["valgrind", "--tool=callgrind", "--callgrind-out-file=/dev/null", "--toggle-collect=by_ours*"]
    script = script_of(setup, [(part.head(0), part.lines)])
    done = subprocess.run([*counting, program, "memory"], input=script, capture_output=True, check=True)
    return int(re.search(rb"Collected : (\d+)", done.stderr)[1]) / part.rounds
