#!/usr/bin/env -S python3 -B
"""Scripts with lines of the greatest length, and longer, with many decorations, and with the deepest nesting.

examples/large.py [PROGRAM]                  by default the program of ./build or .ci/run
examples/large.py --least-stack [PROGRAM]    prints the smallest stack on which they are answered
"""
import argparse
import resource
import subprocess
import sys
from functools import partial
from pathlib import Path
from typing import NamedTuple

PROVED = Path(__file__).resolve().parent.parent / "bin" / "textmodel"
SECONDS = 60.0
MOST_BYTES = 1 << 24
MANY = 100_000
MOST_OPEN, MOST_NESTED = 300, 127
LEAST_STACK, MOST_STACK, STACK_STEP = 16, 8192, 4  # KiB
SIZE = b'{"cmd":"size"}'


class Case(NamedTuple):
    """A script, with what is written for it and the status."""

    name: str
    script: bytes
    written: bytes
    status: int


def as_long(count: int) -> bytes:
    """A command with blanks in it, of so many bytes."""
    return SIZE[:-1] + b" " * (count - len(SIZE)) + b"}"


def decorate(remove: list[int], add: int) -> bytes:
    """Takes these decorations out, and puts so many in."""
    added = b",".join(b'{"at":[%d,%d],"stick":1}' % (at % 9, 9) for at in range(add))
    return b'{"cmd":"decorate","owner":1,"remove":%s,"add":[%s]}\n' % (str(remove).encode("ascii"), added)


def hundred_and_an_edit() -> bytes:
    """A hundred decorations of one unit each, of which an edit moves those behind it."""
    added = b",".join(b'{"at":[%d,%d],"stick":1}' % (2 * at, 2 * at + 1) for at in range(100))
    asked = b"".join(b'{"cmd":"deco","id":%d}\n' % number for number in (25, 26, 100))
    return (
        b'{"cmd":"open","text":"%s"}\n{"cmd":"decorate","owner":1,"remove":[],"add":[%s]}\n' % (b"a" * 200, added)
        + b'{"cmd":"edit","ops":[{"at":[50,50],"text":"xyz"}]}\n%s{"cmd":"decos","at":[50,52]}\n' % asked
    )


def nested_brackets() -> bytes:
    """As many brackets inside one another as may be open, and questions before and after an edit in their middle."""
    text = b"([{" * (MOST_OPEN // 3) + b"\\n" + b"}])" * (MOST_OPEN // 3)
    asked = b'{"cmd":"level","line":2,"col":1}\n{"cmd":"match","line":1,"col":1}\n'
    edited = b'{"cmd":"edit","ops":[{"at":[%d,%d],"text":"()"}]}\n' % (MOST_OPEN, MOST_OPEN)
    return b'{"cmd":"open","text":"%s"}\n%s%s%s' % (text, asked, edited, asked)


def nested_line() -> bytes:
    """A line of arrays, which is no command, as deep as a line may be."""
    return b"[" * MOST_NESTED + b"]" * MOST_NESTED + b"\n"


def mixed(count: int) -> list[int]:
    """The numbers from 1 on, so many, in mixed order."""
    return [number * 61_803 % count + 1 for number in range(count)]


CASES = [
    Case("a command as long as may be", as_long(MOST_BYTES) + b"\n", b"ok 0 1\n", 0),
    Case("a longer one", as_long(MOST_BYTES + 1) + b"\n" + SIZE + b"\n", b"! limit\nok 0 1\n", 1),
    Case(
        "a hundred decorations, and an edit among them",
        hundred_and_an_edit(),
        b"ok 1 200 1\nok 1 100\nok 2 203 1\nok 48 49 1 1\nok 53 54 1 1\nok 201 202 1 1\nok\n",
        0,
    ),
    Case(
        "brackets as deep as may be",
        nested_brackets(),
        b"ok 1 601 2\nok 300\nok 2 300 1\nok 2 603 2\nok 297\nok 2 297 1\n",
        0,
    ),
    Case("a line as deep as may be", nested_line() + SIZE + b"\n", b"! syntax\nok 0 1\n", 1),
    Case(
        "many decorations in one line, and all of them out again in another",
        b'{"cmd":"open","text":"123456789"}\n' + decorate([], MANY) + decorate(mixed(MANY), 1) + b'{"cmd":"decos","at":[0,9]}\n',
        b"ok 1 9 1\nok 1 %d\nok %d 1\nok %d 0 9\n" % (MANY, MANY + 1, MANY + 1),
        0,
    ),
]


def answered(program: Path, case: Case, stack: int | None = None) -> tuple[bytes, int]:
    """What the program writes for the case, and its status: on a stack of so many KiB, if that is told."""
    limit = stack and partial(resource.setrlimit, resource.RLIMIT_STACK, (stack * 1024, stack * 1024))
    how = {"stdout": subprocess.PIPE, "timeout": SECONDS, "check": False, "preexec_fn": limit}
    ran = subprocess.run([program, "run"], input=case.script, **how)
    return ran.stdout, ran.returncode


def failures(program: Path) -> int:
    """How many cases are answered otherwise, each of which is told."""
    failed = 0
    for case in CASES:
        written, status = answered(program, case)
        if (written, status) != (case.written, case.status):
            print(f"large: {case.name}: status {status}, {written[:100]!r}", file=sys.stderr)
            failed += 1
    return failed


def least_stack(program: Path, case: Case) -> int:
    """The least stack on which the case is answered, in KiB and to within a page; more where the most is too little."""
    too_little, enough = LEAST_STACK, MOST_STACK + STACK_STEP
    while enough - too_little > STACK_STEP:
        tried = (too_little + enough) // (2 * STACK_STEP) * STACK_STEP
        if answered(program, case, tried) == (case.written, case.status):
            enough = tried
        else:
            too_little = tried
    return enough


def main() -> None:
    """Runs all cases; the status is 1 where one is answered otherwise."""
    words = argparse.ArgumentParser(description=__doc__.splitlines()[0])
    words.add_argument("program", nargs="?", type=Path, default=PROVED, help="the program, by default the proved build")
    words.add_argument("--least-stack", action="store_true", help="tell the least stack for each case")
    given = words.parse_args()
    program = given.program.resolve()
    if failures(program):
        sys.exit(1)
    for case in CASES if given.least_stack else []:
        print(f"{least_stack(program, case):>5} KiB: {case.name}")


if __name__ == "__main__":
    main()
