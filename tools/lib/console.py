"""How the scripts read, write and fail: one line to standard error and an exit status, never a traceback."""
import os
import signal
import sys


class Failure(Exception):
    """What could not be done: a line for standard error, or none where nobody reads on, and the exit status."""

    def __init__(self, message, status=2):
        super().__init__(message)
        self.status = status


def plain(text):
    """The text on one line: a character that does not print stands as its escape."""
    return "".join(c if c.isprintable() else c.encode("unicode_escape").decode("ascii") for c in text)


def quoted(text, most=60):
    """What was read, in quotation marks, at most so many characters of it."""
    return f"'{plain(text[:most])}'" if len(text) <= most else f"'{plain(text[:most])}..'"


def why(error):
    """What the system says of an error."""
    return plain(getattr(error, "strerror", None) or str(error))


def read_file(path, most):
    """The bytes of a file; one more than `most` where it is longer."""
    try:
        with open(path, "rb") as file:
            return file.read(most + 1)
    except (OSError, ValueError) as error:
        raise Failure(f"{plain(path)}: {why(error)}") from None


def read_standard_input(most, form):
    """The bytes of standard input; one more than `most` where it is longer. Nobody is left waiting at a terminal."""
    if os.isatty(0):
        raise Failure(f"standard input is a terminal; it is to be a file, as in '{form}'")
    try:
        with open(0, "rb", closefd=False) as file:
            return file.read(most + 1)
    except OSError as error:
        raise Failure(f"standard input: {why(error)}") from None


def write_file(path, data):
    try:
        with open(path, "wb") as file:
            file.write(data)
    except OSError as error:
        raise Failure(f"{plain(path)}: {why(error)}") from None


def write_all(descriptor, text):
    data = text.encode("utf-8", "backslashreplace")
    while data:
        data = data[os.write(descriptor, data) :]


def print_out(text):
    try:
        write_all(1, text)
    except BrokenPipeError:
        raise Failure("") from None
    except OSError as error:
        raise Failure(f"standard output: {why(error)}") from None


def complain(message):
    try:
        write_all(2, message + "\n")
    except OSError:
        pass  # nobody can be told


def wants_help(words):
    return "-h" in words or "--help" in words


def no_options(words):
    """A word that begins with '-' is no file and no command."""
    for word in words:
        if word.startswith("-"):
            raise Failure(f"{quoted(word)} is no option; -h prints help")


def run(name, main):
    """Runs a script: `main` takes the words of the command line and answers the exit status and what to print."""
    signal.signal(signal.SIGINT, signal.SIG_DFL)
    try:
        status, text = main(sys.argv[1:])
        print_out(text)
    except Failure as failure:
        if str(failure):
            complain(f"{name}: {failure}")
        status = failure.status
    sys.exit(status)
