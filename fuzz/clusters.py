"""Extended grapheme clusters, of the characters that are tabulated here alone, by the rules of Unicode 18.0.

Python has no library for them. The scripts take their texts from this table, so nearly every line is judged.
"""
import re

from texts import text_of

OTHER, CONTROL, EXTEND, LINKER, JOINER, SPACING, PREPEND, REGIONAL, PICTURE, CONSONANT = "OCXKJSPREN"
LEADING, VOWEL, TRAILING, SYLLABLE, CLOSED_SYLLABLE = "LVTGH"

TABLE: dict[str, str] = {
    OTHER: "\u00e9\u00f6\u4e2d\ufffd\u00a0\U0001d4b3",
    CONTROL: "\u007f\u0085\u2028\u200b\ufeff",
    EXTEND: "\u0301\u0308\ufe0f\U0001f3fb",
    LINKER: "\u094d",
    JOINER: "\u200d",
    SPACING: "\u0903\u093e",
    PREPEND: "\u0600\U000110bd",
    REGIONAL: "\U0001f1e9\U0001f1ea",
    PICTURE: "\U0001f600\U0001f468\U0001f469\u2764\u00a9",
    CONSONANT: "\u0915\u0937",
    LEADING: "\u1100",
    VOWEL: "\u1161",
    TRAILING: "\u11a8",
    SYLLABLE: "\uac00",
    CLOSED_SYLLABLE: "\uac01",
}
CLASSES = {character: name for name, characters in TABLE.items() for character in characters}
CLASSES |= {chr(code): OTHER for code in range(0x20, 0x7F)} | {chr(code): CONTROL for code in range(0x20)}

JOINS_ANY = EXTEND + LINKER + JOINER + SPACING  # what never stands at a cluster's start, but behind a control
HANGUL = re.compile("L[LVGH]|[GV][VT]|[HT]T")
CONJUNCT = re.compile("K[XKJ]*$")
JOINED_PICTURE = re.compile("E[XK]*J$")
REGIONS = re.compile("R*$")
PLAIN = re.compile("[ -~]*")


def starts(content: str) -> list[int] | None:
    """The columns at which the clusters of a line's content start; None where a character is not tabulated."""
    if PLAIN.fullmatch(content):
        return list(range(1, len(content) + 1))
    text = text_of(content)
    classes = "".join(CLASSES.get(character, "?") for character in text)
    if "?" in classes:
        return None
    columns, column = [], 1
    for at, character in enumerate(text):
        if at == 0 or not joins(classes[:at], classes[at]):
            columns.append(column)
        column += 1 + (character > "\uffff")
    return columns


def joins(before: str, following: str) -> bool:
    """Whether a character goes on with the cluster of what stands before it in its line."""
    last = before[-1]
    if CONTROL in (last, following):
        return False
    if following in JOINS_ANY or last == PREPEND or HANGUL.fullmatch(last + following):
        return True
    if following == CONSONANT:
        return CONJUNCT.search(before) is not None
    if following == PICTURE:
        return JOINED_PICTURE.search(before) is not None
    return following == REGIONAL and len(REGIONS.search(before)[0]) % 2 == 1
