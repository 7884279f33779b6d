"""Programs that answer scripts: one that stands in a file, and one that the toolchain builds without proofs."""
import re
import resource
import subprocess
import tempfile
from collections.abc import Iterable, Iterator
from functools import partial
from pathlib import Path
from typing import NamedTuple

TOP = Path(__file__).resolve().parent.parent
PROVED = TOP / "bin" / "textmodel"
CASE = re.compile(rb"^case=(\S+) run=(\S+)(?: status=(\d+))?", re.MULTILINE)
SECONDS = 300


class Answer(NamedTuple):
    """What a program wrote for a script, and its status, or how else it ended."""

    written: bytes
    status: int | str


class Built:
    """A program in a file. It is started once for each script, and gets no more memory than so many bytes, if that is said."""

    def __init__(self, path: Path, environment: dict[str, str] | None = None, most_bytes: int | None = None) -> None:
        self.command = [str(path.resolve()), "run"]
        self.environment = environment
        self.bound = partial(resource.setrlimit, resource.RLIMIT_AS, (most_bytes, most_bytes)) if most_bytes else None

    def answer(self, script: bytes) -> Answer:
        how = {"stdout": subprocess.PIPE, "timeout": SECONDS, "env": self.environment, "preexec_fn": self.bound}
        try:
            ran = subprocess.run(self.command, input=script, **how)
        except subprocess.TimeoutExpired as late:
            return Answer(late.stdout or b"", f"no end in {SECONDS} seconds")
        return Answer(ran.stdout, ran.returncode)

    def answers(self, scripts: Iterable[bytes]) -> Iterator[Answer]:
        return map(self.answer, scripts)


class Tried:
    """The sources of a repository, built once without proofs, and with checks, for all scripts that are there."""

    def __init__(self, top: Path, words: Iterable[str] = ()) -> None:
        self.folder = top.resolve() / "crates" / "textmodel"
        self.words = [*words]

    def answers(self, scripts: Iterable[bytes]) -> Iterator[Answer]:
        with tempfile.TemporaryDirectory() as cases:
            names = write_cases(Path(cases), scripts)
            command = ["rt", "try", *self.words, "--cases", cases, "--", "run"]
            ran = subprocess.run(command, cwd=self.folder, capture_output=True)
        found = CASE.findall(ran.stderr)
        ends = {case.decode(): int(status) if status else end.decode() for case, end, status in found}
        if ends.keys() != set(names):
            raise SystemExit(f"rt try answered {len(ends)} of {len(names)} scripts:\n{ran.stderr.decode()[-2000:]}")
        written = dict(written_by_case(ran.stdout))
        for name in names:
            yield Answer(written.get(name, b""), ends[name])


def write_cases(folder: Path, scripts: Iterable[bytes]) -> list[str]:
    """Writes each script into a file, and gives the names of the files."""
    names = []
    for number, script in enumerate(scripts):
        names.append(f"{number:06}")
        (folder / names[-1]).write_bytes(script)
    return names


def written_by_case(written: bytes) -> Iterator[tuple[str, bytes]]:
    """What stands under each line `== NAME`. No reply begins so."""
    for part in re.split(rb"^== ", written, flags=re.MULTILINE)[1:]:
        name, _, replies = part.partition(b"\n")
        yield name.decode(), replies
