"""Turns the monitor's printed output, read from standard input, into sentences.

    explain CONTAINER < OUTPUT   sees that every line of the output fits the container's file, and says for a refusal why
    explain < OUTPUT             sees that the lines fit one another, as far as that shows without the container
    explain -h                   prints this help

Of a run with overlays each is named by '--overlay FILE', at most four, in the order in which they were lent; an empty file is no overlay.
The output is the monitor's own: where a line does not fit, nothing of it is explained, and one line on standard error says which one
and why. With the container the script evaluates the plan itself, to compare and to explain; what is released comes from the
monitor alone. It needs no draws: a value that NOISE made is not compared. No value of a refused container is printed. Steps, groups,
tables, rows and columns count from 0.

Exit status: 0 the output, a release or a refusal, is explained; 1 a line does not fit; 2 something could not be read or written.
"""
import console
from console import Failure
from overlays import OVERLAYS
from printed import LONGEST_OUTPUT, followed, lines_of
from reading import Reading, fitted, told
from sentences import Explained


def explained(data, path=None, overlay_paths=()):
    """The sentences for an output and, where they are given, its container's file and those of its overlays."""
    reading = Reading(path, overlay_paths) if path is not None else None
    lines = lines_of(data)
    followed(lines)
    if reading:
        fitted(lines, reading.evaluated(told(lines)))
    return "".join(f"{sentence}\n" for sentence in Explained(lines, reading).sentences())


def overlay_options(words):
    """The files of the options '--overlay FILE', and the words beside them."""
    overlay_paths, rest, words = [], [], list(words)
    while words:
        word = words.pop(0)
        if word != "--overlay":
            rest.append(word)
        elif not words or words[0].startswith("-"):
            raise Failure("'--overlay' has a file behind it; -h prints help")
        else:
            overlay_paths.append(words.pop(0))
    return overlay_paths, rest


def main(words):
    if console.wants_help(words):
        return 0, __doc__
    overlay_paths, words = overlay_options(words)
    console.no_options(words)
    if len(words) > 1:
        raise Failure(f"there is one word, the container's file, and not {len(words)}; -h prints help")
    if len(overlay_paths) > OVERLAYS:
        raise Failure(f"there are at most {OVERLAYS} overlays, and not {len(overlay_paths)}; -h prints help")
    if overlay_paths and not words:
        raise Failure("an overlay is of a container, and no container is named; -h prints help")
    return 0, explained(console.read_standard_input(LONGEST_OUTPUT, "explain CONTAINER < OUTPUT"), *words, overlay_paths=overlay_paths)


if __name__ == "__main__":
    console.run("explain", main)
