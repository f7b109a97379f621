"""Words of a text: names as they are printed, and numbers in a row."""
from urllib.parse import unquote_to_bytes


def printed(name):
    """A name as a word: what isn't a visible ASCII character, and the percent sign, as two hexadecimal digits."""
    found = name.encode("utf-8", "surrogateescape")
    return "".join(chr(b) if 0x21 <= b <= 0x7E and b != 0x25 else f"%{b:02X}" for b in found) or "%"


def unquoted(word):
    """A text in which a percent sign and two digits stand for a byte."""
    return unquote_to_bytes(word).decode("utf-8", "surrogateescape")


def name_of(word):
    """The name that was printed as a word."""
    return "" if word == "%" else unquoted(word)


def listed(numbers):
    return " ".join(map(str, numbers)) or "-"


def natural(word):
    if not (word.isascii() and word.isdecimal()):
        raise ValueError(word)
    return int(word)


def numbers(words):
    """What was listed."""
    return [] if words == ["-"] else [natural(word) for word in words]


def text_of(lines):
    return "".join(f"{line}\n" for line in lines)


def some(value, default):
    """A key that is null counts as absent."""
    return default if value is None else value
