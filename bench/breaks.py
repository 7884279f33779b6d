"""Times how breaks are found in 100 MB of text with a line each 30 units: by lanes, and one unit after another.

Each pass begins one unit further on. Making the text is timed by itself and taken off. So large a text comes from memory, whose
speed bounds the lanes.
"""
import resource
import subprocess
from pathlib import Path

TIMED = Path(__file__).resolve().parent.parent / "crates" / "timed_breaks" / "out" / "timed_breaks"
UNITS = 50_000_010
PASSES = 10
RUNS = 5
WAYS = (("count the breaks", "count", "plain_count"), ("find the line starts", "starts", "plain_starts"))


def seconds(way: str) -> float:
    """The least processor time of a few runs in the way of this name."""
    spent = []
    for _run in range(RUNS):
        before = resource.getrusage(resource.RUSAGE_CHILDREN)
        subprocess.run([TIMED, way], check=True, stdout=subprocess.DEVNULL)
        after = resource.getrusage(resource.RUSAGE_CHILDREN)
        spent.append(after.ru_utime + after.ru_stime - before.ru_utime - before.ru_stime)
    return min(spent)


def print_breaks() -> None:
    """A row for each of the two calls: nanoseconds for 1,000 units, without making the text."""
    if not TIMED.is_file():
        print("\nNo breaks are timed: `rt run` in crates/timed_breaks makes the program.")
        return
    text = seconds("text")
    print("\n| nanoseconds for 1,000 units | by lanes | one by one | times |")
    print("| --- | --: | --: | --: |")
    for what, lanes, plain in WAYS:
        ours, theirs = (max(seconds(way) - text, 1e-6) * 1e12 / (UNITS * PASSES) for way in (lanes, plain))
        print(f"| {what} | {ours:,.0f} | {theirs:,.0f} | x{theirs / ours:.1f} |")
