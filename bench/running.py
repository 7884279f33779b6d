"""A program that reads a script and writes replies, and the clock that Linux keeps of it."""
import subprocess
import time
from contextlib import suppress
from pathlib import Path

from cases import Lines


class Running:
    """A program that reads a script from a pipe and writes its replies into a file, or another pipe."""

    def __init__(self, command: list[str], sink: int) -> None:
        self.process = subprocess.Popen(command, stdin=subprocess.PIPE, stdout=sink)

    def send(self, lines: Lines) -> None:
        """Writes the lines."""
        with suppress(BrokenPipeError):  # it ended, which is told where the replies are awaited
            self.process.stdin.write("".join(line + "\n" for line in lines).encode("ascii"))
            self.process.stdin.flush()

    def must_run(self) -> None:
        """Ends the run where the program has ended."""
        if self.process.poll() is not None:
            raise SystemExit(f"{self.process.args[0]} ended by itself, with status {self.process.returncode}")

    def nanoseconds(self) -> int:
        """Processor time so far, user and system, by the clock that Linux keeps of each process."""
        return time.clock_gettime_ns((~self.process.pid << 3) | 2)

    def peak_kib(self) -> int:
        """The most memory that was resident so far."""
        return self.told_kib("VmHWM")

    def forget_peak(self) -> None:
        """Lets the most memory be what is resident now, and what comes to be."""
        Path(f"/proc/{self.process.pid}/clear_refs").write_text("5")

    def resident_kib(self) -> int:
        """The memory that is resident now."""
        return self.told_kib("VmRSS")

    def told_kib(self, name: str) -> int:
        """What Linux tells of the process under this name."""
        status = Path(f"/proc/{self.process.pid}/status").read_text()
        return int(status.split(f"{name}:")[1].split()[0])

    def end(self) -> None:
        """Lets it read the script's end, and waits for its own."""
        self.process.stdin.close()
        self.process.wait()


class InFile(Running):
    """One that gets many lines at once."""

    def __init__(self, command: list[str], folder: Path) -> None:
        written = folder / "replies"
        with written.open("wb") as sink:
            super().__init__(command, sink)
        self.replies = written.open("rb")

    def answers(self, lines: Lines) -> list[bytes]:
        """Sends the lines, and gives the replies when all of them have come."""
        self.send(lines)
        come = b""
        while come.count(b"\n") < len(lines):
            self.must_run()
            time.sleep(0.001)
            come += self.replies.read()
        return come.splitlines()

    def end(self) -> None:
        super().end()
        self.replies.close()


class OneByOne(Running):
    """One that gets a line when it has replied to the one before."""

    def __init__(self, command: list[str]) -> None:
        super().__init__(command, subprocess.PIPE)

    def answer(self, line: str) -> bytes:
        """Sends the line, and gives the reply."""
        self.send([line])
        reply = self.process.stdout.readline()
        if not reply:
            self.process.wait()
            self.must_run()
        return reply

    def clocked(self, lines: Lines) -> list[int]:
        """The processor time of each line, from when it is sent to when its reply has come."""
        clocks = [self.nanoseconds()]
        for line in lines:
            self.answer(line)
            clocks.append(self.nanoseconds())
        return [then - now for now, then in zip(clocks, clocks[1:])]

    def end(self) -> None:
        super().end()
        self.process.stdout.close()


def least_of_each(command: list[str], before: Lines, lines: Lines, runs: int) -> list[int]:
    """The least nanoseconds that each line took in so many runs, where it is sent by itself.

    What grows, grows at the same line in each run, and other work of the machine comes at others: so the least counts. A line by
    itself takes longer than among others, since the program sleeps and wakes for each."""
    least: list[int] = []
    for _ in range(runs):
        running = OneByOne(command)
        for line in before:
            running.answer(line)
        now = running.clocked(lines)
        running.end()
        least = [min(pair) for pair in zip(least, now)] if least else now
    return least
