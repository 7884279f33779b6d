"""The table of calls: the library in process, beside the same work by script lines and beside the flat baseline."""
import shutil
import subprocess
from collections.abc import Iterator
from functools import partial
from pathlib import Path
from typing import NamedTuple

from cases import Case, Scale, after_edits, at, nested, size_of, text_cases
from measuring import HERE, Program, compare, measure, print_row, repeated

HEADER = HERE.parent / "crates" / "textmodel_c"
ROWS = (
    "edit at a random place",
    "type at one place",
    "position of a random offset",
    "offset of a random position",
    "lines one after another",
)
COLUMNS = ["calls ns", "ours diff", "calls - diff", "ours ns", "flat diff"]


class Called(NamedTuple):
    """What the library took for a case: nanoseconds a call, and the replies of the program for its lines."""

    call: float
    replies: list[bytes]


def call_cases(scale: Scale) -> Iterator[Case]:
    """Texts of all sizes with what each line of is one call, and questions about brackets after edits."""
    yield from (case for case in text_cases(scale) if case.what in ROWS)
    for units, flat in scale.texts[:2]:
        document, last = nested(units)
        lines, refused = after_edits(units, last, ("level", "match"), scale.count // 25)
        setup = [*document, at("level", 1, 1)]
        yield Case("insert, then level, match", size_of(units), setup, lines, refused, min(3 * flat, len(lines)))


def built(library: Path, folder: Path) -> Path:
    """The program that makes the calls, with this library."""
    made, beside = folder / "calls", library.resolve().parent
    words = ["cc", "-O2", "-Wall", "-Wextra", "-Wno-unused-function", f"-I{HEADER}", "-o", made, HERE / "calls.c"]
    subprocess.run([*words, f"-L{beside}", f"-Wl,-rpath,{beside}", "-ltextmodel"], check=True)
    return made


def run_once(program: Path, case: Case) -> tuple[Called, int]:
    """Makes the calls once; gives also what they took together."""
    script = "".join(line + "\n" for line in [*case.before, *case.lines]).encode("ascii")
    done = subprocess.run([program, str(len(case.before))], input=script, capture_output=True, check=False)
    if done.returncode:
        raise SystemExit(f"{case.what}, {case.size}: {done.stderr.decode()}")
    took = int(done.stderr)
    return Called(took / len(case.lines), done.stdout.split(b"\n")[:-1]), took


def called(program: Path, case: Case, enough: float) -> Called:
    """The run of a few whose calls took the least."""
    return min(repeated(partial(run_once, program, case), enough), key=lambda run: run.call)


def compare_calls(case: Case, wanted: list[bytes], calls: Called) -> None:
    """Ends the run where a call tells something else than the line does."""
    for line, want, came in zip(case.lines, wanted, calls.replies, strict=True):
        if want != came:
            raise SystemExit(f"{case.what}, {case.size}: {line[:200]}\nours: {want[:200]!r}\ncalls: {came[:200]!r}")


def print_calls(ours: Program, flat: Program, library: Path, scale: Scale, folder: Path) -> None:
    """Measures each case by calls, by lines, and on the flat baseline, and prints it as a row."""
    if not shutil.which("cc"):
        raise SystemExit("the calls need a C compiler")
    program = built(library, folder)
    print_row(["what", "size", "lines"], COLUMNS)
    print_row(["---", "--:", "--:"], ["--:"] * len(COLUMNS))
    for case in call_cases(scale):
        by_lines = measure(ours, case, scale.enough, folder)
        calls = called(program, case, scale.enough)
        compare_calls(case, by_lines.replies[-len(case.lines) :], calls)
        part = case._replace(lines=case.lines[: case.flat], refused=case.refused[: case.flat])
        theirs = measure(flat, part, scale.enough, folder)
        compare(case, part, by_lines, theirs, flat.name)
        numbers = calls.call, by_lines.difference, calls.call - by_lines.difference, by_lines.line, theirs.difference
        print_row([case.what, case.size, f"{len(case.lines):,}"], [f"{number:,.0f}" for number in numbers])
