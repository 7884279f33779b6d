#!/usr/bin/env -S python3 -B
"""Passes typed lines to the program, and says on standard error why one is invalid.

tools/at_terminal.py PROGRAM     started by `textmodel run` if standard input and output are a terminal

Each line goes to `PROGRAM run`, and its reply to standard output. It ends with the program's status or by its signal.
"""
import contextlib
import importlib
import os
import signal
import subprocess
import sys

# If Python has readline, lines can be edited and recalled, and are not cut at 4,095 bytes.
with contextlib.suppress(ImportError):
    importlib.import_module("readline")

# The checker needs a newer Python than this does.
try:
    from check_lines import fault_of
except (ImportError, SyntaxError, TypeError):
    fault_of = None

NOT_READ, NOT_WRITTEN = 4, 5
SIGNALS = (signal.SIGHUP, signal.SIGINT, signal.SIGQUIT, signal.SIGTERM)


class NotRead(Exception):
    """Typed lines can't be read any more, as when the terminal is closed."""


class Signalled(BaseException):
    """A signal that ends the run: raised, so that the terminal is left as it was."""


def take_signals():
    def ended(number, _):
        for it in SIGNALS:
            signal.signal(it, signal.SIG_IGN)
        raise Signalled(number)

    for it in SIGNALS:
        signal.signal(it, ended)


def end_by(number):
    signal.signal(number, signal.SIG_DFL)
    os.kill(os.getpid(), number)


def typed_lines():
    """The lines that are typed, in bytes and without their LF."""
    while True:
        try:
            line = input()
        except EOFError:
            return
        except OSError:
            raise NotRead from None
        yield line.encode(sys.stdin.encoding, "surrogateescape")


def tell_why(line, number):
    fault = fault_of(line) if fault_of else None
    if fault:
        print(f"textmodel: line {number}, byte {fault.at + 1}: {fault.why}", file=sys.stderr, flush=True)


def converse(program):
    """Hands the program a line at a time, as long as lines and replies come."""
    for number, line in enumerate(typed_lines(), 1):
        program.stdin.write(line + b"\n")
        program.stdin.flush()
        if not line.strip(b" \t\r"):
            continue
        reply = program.stdout.readline()
        if not reply:
            return
        sys.stdout.buffer.write(reply)
        sys.stdout.buffer.flush()
        if reply == b"! syntax\n":
            tell_why(line, number)


def status_of(words):
    """Runs the program as long as lines come, and returns how it ended."""
    program = subprocess.Popen([*words, "run"], stdin=subprocess.PIPE, stdout=subprocess.PIPE)
    try:
        converse(program)
        with contextlib.suppress(BrokenPipeError):
            program.stdin.close()
        return program.wait()
    except BrokenPipeError:
        return program.wait()
    except NotRead:
        program.kill()
        return NOT_READ
    except OSError:
        program.kill()
        return NOT_WRITTEN
    except Signalled as ended:
        program.send_signal(ended.args[0])
        program.wait()
        return -ended.args[0]


def main():
    sys.stdin.reconfigure(errors="surrogateescape")
    take_signals()
    try:
        status = status_of(sys.argv[1:])
    except Signalled as ended:
        status = -ended.args[0]
    if status < 0:
        end_by(-status)
    sys.exit(status)


if __name__ == "__main__":
    main()
