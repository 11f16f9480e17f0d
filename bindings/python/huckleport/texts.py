"""Between Python's characters and UTF-16 units: a character from U+10000 has two, and a surrogate may stand alone."""

from __future__ import annotations

import sys
from typing import List, Sequence

from .errors import BadIndex, BadValue

# UTF-16 as the library has it: units of this machine, without a mark.
UTF16 = f"utf-16-{'le' if sys.byteorder == 'little' else 'be'}"


def utf16_length(text: str) -> int:
    """How many units a text has."""
    return len(text) if text.isascii() else len(text.encode(UTF16, "surrogatepass")) // 2


def utf16_offset(text: str, index: int) -> int:
    """The offset in units of the character at an index of a str."""
    if not 0 <= index <= len(text):
        raise BadIndex(None, "", f"index {index} is not from 0 to {len(text)}")
    return utf16_length(text[:index])


def utf16_index(text: str, offset: int) -> int:
    """Returns the index in a str of the character at an offset in units. Within a character of two units there is none: ValueError."""
    at = 0
    for index, it in enumerate(text):
        if at >= offset:
            break
        at += 2 if it > "\uffff" else 1
    else:
        index = len(text)
    if offset < 0 or offset > at:
        raise BadIndex(None, "", f"offset {offset} is not from 0 to {at}")
    if offset < at:
        raise BadValue(None, "", f"offset {offset} is between the two units of a character")
    return index


def to_units(text: str) -> List[int]:
    """The units of a text, as lines have them where a surrogate stands alone."""
    return list(memoryview(text.encode(UTF16, "surrogatepass")).cast("H"))


def from_units(units: Sequence[int]) -> str:
    """The text of units, which may hold surrogates that stand alone."""
    from array import array

    return array("H", units).tobytes().decode(UTF16, "surrogatepass")


def is_well_formed(text: str) -> bool:
    """Whether no surrogate stands alone, so that the text can be written as UTF-8."""
    try:
        text.encode()
        return True
    except UnicodeEncodeError:
        return False


def well_formed(text: str) -> str:
    """The text with U+FFFD in place of each surrogate that stands alone: it can be written to a file."""
    return text if is_well_formed(text) else "".join("\ufffd" if "\ud800" <= it <= "\udfff" else it for it in text)
