"""Characters as numbers and as text: d00 to dff is data, k00 to kff is special, and inv is no character."""
from typing import Iterable

# The number of what is no character.
NO_CHAR = 0x200


def char_text(number: int) -> str:
    """The text of a character."""
    if 0 <= number < 0x100:
        return f"d{number:02x}"
    return f"k{number - 0x100:02x}" if 0x100 <= number < 0x200 else "inv"


def text_of(numbers: Iterable[int]) -> str:
    """The texts of characters, single spaces between them."""
    return " ".join(map(char_text, numbers))


def char_of(text: str) -> int:
    """The character of a text."""
    if text == "inv":
        return NO_CHAR
    if len(text) != 3 or text[0] not in "dk" or text.lower() != text:
        raise ValueError(f"{text!r} is no character")
    return int(text[1:], 16) + (0x100 if text[0] == "k" else 0)


def chars_of(text: str) -> "list[int]":
    """The characters of a text, spaces between them."""
    return [char_of(word) for word in text.split()]
