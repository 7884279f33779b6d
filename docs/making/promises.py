"""Whether each promise of README cites what is there, and calls that the program or the library for C makes."""
from making.callers import Sources, uncalled
from making.cited import promises


def faults():
    shipped = "the library for C alone"
    idle = {(owner, name) for who, keys in uncalled(Sources()).items() if who != shipped for _, owner, name in keys}
    for promise in promises():
        place = f"README.md: promise {promise.number} cites"
        if not promise.said:
            yield f"{place} nothing, in parentheses at its end"
        yield from (f"{place} `{name}`, and nothing is called so" for name in promise.lost)
        for owner, name in sorted({(it.owner, it.name) for it, _ in promise.calls} & idle):
            yield f"{place} `{owner}::{name}`, which neither the program nor the library for C calls"
