"""Words of the text form: what is wrong with one, and numbers."""
import re

from console import quoted


class Fault(Exception):
    """What is wrong with a word or a line of the text form; `line` is the line's number, once it is known."""

    line = None


def number(word, low=-(2**63), high=2**63 - 1, what="the number"):
    """A number: decimal digits, leading zeros allowed, with a minus before them where it is negative, and nothing else."""
    if not re.fullmatch("-?[0-9]+", word):
        raise Fault(f"{quoted(word)} is not a number; a number has decimal digits and, below zero, a minus before them")
    digits = word.lstrip("-").lstrip("0")
    value = int(digits[:20] or "0") * (-1 if word.startswith("-") else 1)
    if len(digits) > 20 or not low <= value <= high:
        raise Fault(f"{what} {quoted(word)} is not between {low:,} and {high:,}")
    return value


def choice(word, choices, what):
    """The place of a word in a list."""
    if word not in choices:
        raise Fault(f"{quoted(word)} is no {what}; there are {' '.join(choices)}")
    return choices.index(word)


def plural(n, word):
    return f"{n:,} {word}" if n == 1 else f"{n:,} {word}s"
