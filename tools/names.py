"""Names as they are shown to people: as they are wherever each letter can be seen, else as the program prints them."""
import difflib

from model.words import printed, unquoted

MOST_LETTERS = 60


def plain(name):
    """A name of a document; of a very long one the beginning."""
    shown = name if name and name.isprintable() else printed(name)
    return shown if len(shown) <= MOST_LETTERS else shown[:MOST_LETTERS - 2] + ".."


def shown(word):
    """A name that the program has printed."""
    if word == "%":
        return word
    name = unquoted(word)
    return name if name.isprintable() else word


def near(word, others, likeness=0.75):
    """The one that is most like a word, in letters of either case, if one is like it."""
    like = {it.lower(): it for it in sorted(others, reverse=True)}
    found = difflib.get_close_matches(word.lower(), sorted(like), 1, likeness)
    return like[found[0]] if found else None


def listed(words, most=3):
    """Some words in a row, of many the first and how many more there are."""
    words = list(words)
    if len(words) > most + 1:
        words = [*words[:most], f"{len(words) - most} more"]
    return words[0] if len(words) == 1 else " and ".join([", ".join(words[:-1]), words[-1]]) if words else "none"


def counted(count, noun):
    return f"{count} {noun}{'' if count == 1 else 's'}"
