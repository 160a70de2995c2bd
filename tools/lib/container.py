"""Makes containers from readable text, and text from containers. docs/CONTAINER.md describes both.

    container make TEXT DIR                     writes a file for each container of TEXT into DIR, and one for its draws, four for its
                                                overlays or one for what it is converted to, where TEXT has them
    container verify TEXT DIR [NAMES [ANSWERS]] sees whether the files of DIR are those that TEXT makes, and whether the files NAMES
                                                and ANSWERS are what 'names' and 'expect' print
    container names TEXT                        prints the files' names, one to a line
    container expect TEXT                       prints the answers that TEXT expects, as the trial programs do
    container show FILE [OVERLAY..]             prints the container FILE as text, with at most four overlays
    container label WORD                        explains a label: eight hexadecimal digits, or stages as 'T(cut3)+A(sum,20)'
    container -h                                prints this help

A text that cannot be read makes nothing: one line on standard error names the file, the line and what was read.

Exit status: 0 done; 1 'verify' found a file that TEXT does not make, or 'label' an ill-formed word; 2 something could not be read,
written or understood.
"""
import os

import console
import labels
from console import Failure, plain, quoted, why
from text import Text, shown
from words import Fault


def names_of(text):
    return "".join(f"{name}\n" for name in text.file_names())


def make(path, folder):
    made = Text(path).files()
    try:
        os.makedirs(folder, exist_ok=True)
    except OSError as error:
        raise Failure(f"{plain(folder)}: {why(error)}") from None
    for name, data in made.items():
        console.write_file(os.path.join(folder, name), data)
    return 0, ""


def contents(path, most):
    """A file's bytes, one more than `most` where it is longer, or None where there is no such file."""
    return console.read_file(path, most) if os.path.isfile(path) else None


def verify(path, folder, names_path=None, answers_path=None):
    text = Text(path)
    wanted = {os.path.join(folder, name): data for name, data in text.files().items()}
    try:
        found = {os.path.join(folder, name) for name in os.listdir(folder)}
    except OSError as error:
        raise Failure(f"{plain(folder)}: {why(error)}") from None
    if names_path:
        wanted[names_path] = names_of(text).encode()
    if answers_path:
        wanted[answers_path] = text.expected().encode()
    wrong = [one for one in sorted(found | set(wanted)) if one not in wanted or contents(one, len(wanted[one])) != wanted[one]]
    return (1 if wrong else 0), "".join(f"{plain(one)}: not what the text makes\n" for one in wrong)


def names(path):
    return 0, names_of(Text(path))


def expect(path):
    return 0, Text(path).expected()


def show(path, *overlay_paths):
    return 0, shown(path, *overlay_paths)


def label(word):
    try:
        bits = labels.label_word(word)
    except Fault as fault:
        raise Failure(str(fault)) from None
    lines = labels.explained(bits)
    return (1 if labels.faults(bits) else 0), "".join(f"{line}\n" for line in lines)


# each command with the number of its words
COMMANDS = {
    "make": (make, (2,)),
    "verify": (verify, (2, 3, 4)),
    "names": (names, (1,)),
    "expect": (expect, (1,)),
    "show": (show, (1, 2, 3, 4, 5)),
    "label": (label, (1,)),
}


def main(words):
    if console.wants_help(words):
        return 0, __doc__
    console.no_options(words)
    if not words:
        raise Failure("there is no command; -h prints help")
    if words[0] not in COMMANDS:
        raise Failure(f"{quoted(words[0])} is no command; -h prints help")
    command, counts = COMMANDS[words[0]]
    if len(words) - 1 not in counts:
        raise Failure(f"'{words[0]}' has {' or '.join(map(str, counts))} words behind it and not {len(words) - 1}; -h prints help")
    return command(*words[1:])


if __name__ == "__main__":
    console.run("container", main)
