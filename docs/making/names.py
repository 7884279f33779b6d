"""Types of one name in several crates, from the sources."""
import collections
import re

from making.pages import ROOT, Part

import crates

TYPE = re.compile(r"^(?:pub(?:\(\w+\))? )?(?:struct|enum|trait|type) (\w+)", re.M)
RECORD = re.compile(r"^(?:pub |abbrev pub |abbrev )?(?:record|data) (?:pub )?(\w+)", re.M)
NAMED = 3  # crates; of names in fewer the number alone is told
WORDS = ["no", "one", "two", "three", "four", "five", "six", "seven", "eight", "nine", "ten", "eleven", "twelve"]


def crates_of_names():
    """The crates that have a type of each name in code, or a record or a sum in definitions; tests are left out."""
    shipped, found = crates.shipped(crates.read()), collections.defaultdict(set)
    for path in ROOT.glob("crates/*/*/**/*"):
        crate, folder = path.relative_to(ROOT / "crates").parts[:2]
        pattern = {("src", ".rt"): TYPE, ("specs", ".antt"): RECORD}.get((folder, path.suffix))
        if pattern and crate in shipped:
            for name in pattern.findall(path.read_text()):
                found[name].add(crate)
    return found


def parts():
    """The names in many crates, and how many stand in two."""
    counts = collections.defaultdict(list)
    for name, of in crates_of_names().items():
        counts[len(of)].append(f"`{name}`")
    told = [f"{', '.join(sorted(counts[count]))} in {WORDS[count]}" for count in sorted(counts, reverse=True) if count >= NAMED]
    fewer = len(counts[2])
    said = "Types of one name stand in several crates, each for that crate's own thing"
    yield Part("docs/GLOSSARY.md", "names", [f"{said}: {'; '.join(told)}; and {fewer} names in two."])
