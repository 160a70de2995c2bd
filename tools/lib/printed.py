"""The monitor's printed output: its lines, and what can be seen of them without the container."""
import re
from collections import namedtuple

import steps
from console import Failure, quoted
from layout import COLUMNS, DEPTH, LONGEST, ROWS, STEPS, TABLES, pair_at
from words import plural

LONGEST_OUTPUT = 65536  # bytes; 64 lines S and 256 lines R are shorter

INPUT = range(11, 23)  # refusals with a byte offset
OVERLAY = (21, 22)  # those of them whose offset is in an overlay
NO_DRAW = 37  # no draw is left for a row
NO_ROOM = 51  # the text of a release has no room
STATE = (1, *range(31, 38), NO_ROOM)  # refusals with a step, a row and a column
AT_RELEASE = (35, 36, NO_ROOM)  # those that come after the last step

# a line: its letter and its numbers
Line = namedtuple("Line", "letter numbers")
# of a table on the stack, what its trace line says
Shape = namedtuple("Shape", "rows columns stages")


class Misfit(Failure):
    """A line that is not what the monitor prints there. Nothing of such an output is explained."""

    def __init__(self, line, what):
        super().__init__(f"line {line}: {what}", 1)


def lines_of(data):
    """The lines of an output."""
    if len(data) > LONGEST_OUTPUT:
        raise Failure(f"standard input has more than {LONGEST_OUTPUT:,} bytes, and the monitor prints less", 1)
    if not data:
        raise Failure("standard input is empty, and the monitor always prints a line", 1)
    texts = data.decode("latin-1").split("\n")
    lines = [line_of(count, text) for count, text in enumerate(texts[:-1], 1)]
    if texts[-1]:
        known_letter(len(texts), texts[-1])
        raise Misfit(len(texts), "it has no newline at its end: the output was cut off")
    return lines


def known_letter(count, text):
    if text[:1] not in ("S", "R", "X"):
        raise Misfit(count, f"{quoted(text, 20)} is no line of the monitor; its lines begin with S, R or X")


def line_of(count, text):
    number = "(?:0|-?[1-9][0-9]{0,19})"
    if re.fullmatch(f"[SRX](?: {number})+", text):
        return Line(text[0], [int(word) for word in text.split()[1:]])
    if text.endswith("\r"):
        raise Misfit(count, "it ends in a carriage return: the output was changed on its way")
    known_letter(count, text)
    raise Misfit(count, f"it is not {text[0]} and numbers behind single spaces")


# Lines that fit one another


class Follower:
    """The shapes on the stack after the lines so far, and what does not follow from them."""

    def __init__(self):
        self.stack, self.steps, self.released, self.ended = [], 0, 0, False

    def take(self, line):
        """Why the line does not follow, or None."""
        if self.ended:
            return "it stands behind the refusal, which ends the output"
        return {"S": self.step, "R": self.row, "X": self.refusal}[line.letter](line.numbers)

    def step(self, numbers):
        if len(numbers) != 5:
            return "it is not S and five numbers"
        k, kind, *shape = numbers
        shape = Shape(*shape)
        if self.released:
            return "it is the line of a step, and stands behind a released row"
        if k != self.steps:
            return f"it is the line of step {k}, and step {self.steps} comes next"
        if k >= STEPS:
            return f"a plan has at most {STEPS} steps"
        reason = shape_fault(shape) or step_fault(kind, shape, self.stack)
        if reason is None:
            taken = {1: 0, 2: 2, 3: 2}.get(kind, 1)
            self.stack = self.stack[: len(self.stack) - taken] + [shape]
            self.steps += 1
        return reason

    def row(self, values):
        reason = unfinished(self.stack)
        if reason:
            return f"it is a released row, and {reason}"
        columns = self.stack[-1].columns
        if len(values) != columns:
            return f"it is a row of {plural(len(values), 'value')}, and the table has {plural(columns, 'column')}"
        if not all(steps.LEAST <= value <= steps.MOST for value in values):
            return "it has a number out of the range of values"
        self.released += 1
        if self.released > self.stack[-1].rows:
            return f"it is row {self.released - 1}, and the table has {plural(self.stack[-1].rows, 'row')}"
        return None

    def refusal(self, numbers):
        self.ended = True
        number, place = numbers[0], numbers[1:]
        if number not in INPUT and number not in STATE:
            return f"refusal {number} does not exist"
        if len(place) != (1 if number in INPUT else 3) or min(place) < 0:
            return f"the place of refusal {number} is {'one number' if number in INPUT else 'three numbers'}"
        if self.released:
            return "it is a refusal, and stands behind a released row"
        if number in INPUT or number == 1:
            if self.steps:
                return f"refusal {number} comes before the first step, and a step is finished"
            return input_place_fault(number, place[0]) if number in INPUT else too_short_fault(place)
        return state_place_fault(number, *place, self.stack, self.steps)

    def end(self):
        """Why the output does not end here, or None."""
        if self.ended:
            return None
        reason = unfinished(self.stack)
        if reason:
            return f"there is neither a release nor a refusal: {reason}"
        if self.released != self.stack[-1].rows:
            return f"the table has {plural(self.stack[-1].rows, 'row')}, and {self.released} are printed"
        return None


def unfinished(stack):
    """Why nothing can be released after the steps that leave these tables, or None."""
    if not stack:
        return "no step is finished"
    if len(stack) > 1:
        return f"the steps so far leave {len(stack)} tables, and one is released"
    if stack[-1].stages:
        return f"the last step leaves {plural(stack[-1].stages, 'stage')}, and a release has none"
    return None


def shape_fault(shape):
    """Why no table has this shape, or None."""
    rows, columns, stages = shape
    if not 0 <= rows <= ROWS:
        return f"no table has {rows} rows"
    if not 1 <= columns <= COLUMNS:
        return f"no table has {columns} columns"
    if not 0 <= stages <= 4 * rows * columns:
        return f"{plural(rows, 'row')} of {plural(columns, 'column')} cannot have {stages} stages left"
    return None


def step_fault(kind, made, stack):
    """Why a step of this kind cannot make this from these, or None."""
    if kind not in range(1, len(steps.KINDS)):
        return f"kind {kind} does not exist"
    needs = {1: 0, 2: 2, 3: 2}.get(kind, 1)
    name = steps.KINDS[kind]
    if len(stack) < needs:
        return f"{name} needs {plural(needs, 'table')}, and the steps before it leave {len(stack) or 'none'}"
    if kind == steps.SCAN:
        return f"it is a SCAN onto {DEPTH} tables" if len(stack) == DEPTH else None
    fits = united_fits(made, *stack[-2:]) if kind == steps.UNION else None
    fits = joined_fits(made, *stack[-2:]) if kind == steps.JOIN else fits
    fits = single_fits(kind, made, stack[-1]) if fits is None else fits
    return None if fits else f"a {name} cannot make {shape_text(made)} here"


def shape_text(shape):
    return f"{plural(shape.rows, 'row')} of {plural(shape.columns, 'column')} with {plural(shape.stages, 'stage')} left"


def united_fits(made, left, right):
    return left.columns == right.columns and made == Shape(left.rows + right.rows, left.columns, left.stages + right.stages)


def joined_fits(made, left, right):
    most = left.stages * right.rows + right.stages * left.rows
    return made.columns == left.columns + right.columns - 1 and made.rows <= left.rows * right.rows and made.stages <= most


def single_fits(kind, made, read):
    if kind == steps.FILTER:
        return made.columns == read.columns and made.rows <= read.rows and made.stages <= read.stages
    if kind == steps.KEEP:
        return made.rows == read.rows and made.columns <= read.columns and made.stages <= read.stages
    if kind in (steps.APPLY, steps.NOISE):
        most = read.stages if kind == steps.APPLY else min(read.rows, read.stages)  # NOISE leaves N alone
        wider = made.rows == read.rows and made.columns == read.columns + 1
        return wider and read.stages <= made.stages <= read.stages + most
    grouped = made.rows <= read.rows and (made.rows > 0) == (read.rows > 0)
    return grouped and made.columns <= read.columns + 1 and made.stages <= min(2 * made.rows, read.stages)


def input_place_fault(number, place):
    """Why no refusal with this number has this byte offset, or None."""
    pairs = [pair_at(part) for part in range(TABLES + 1)]
    ends = [pair_at(count) for count in range(2, TABLES + 2)]
    fits = {
        11: place == 0,
        12: place in pairs,
        16: place in ends,
        17: any(place in range(end, end + STEPS * steps.LENGTH, steps.LENGTH) for end in ends),
    }
    fits[18] = fits[17] or any(place == end + STEPS * steps.LENGTH for end in ends)
    fits[19] = fits[17]
    # an overlay's pairs, parts and labels; the first part begins at 10 or later
    fits[21] = place in (0, 2) or place % 4 == 2 and 10 <= place <= LONGEST
    fits[22] = place % 4 == 2 and 14 <= place <= LONGEST - 4
    lowest = ends[0] + {13: 0, 14: 4, 15: 12}.get(number, 0)
    if not fits.get(number, lowest <= place <= LONGEST):
        return f"refusal {number} cannot stand at byte {place}"
    return None


def too_short_fault(place):
    return None if place == [0, 0, 0] else "the place of refusal 1 is 0 0 0"


def state_place_fault(number, step, row, column, stack, finished):
    """Why no refusal with this number has this place after these steps, or None."""
    if step != finished:
        return f"it is a refusal at step {step}, and step {finished} comes next"
    if not stack:
        return f"refusal {number} needs a table, and no step is finished"
    if step == STEPS and number not in AT_RELEASE:
        return f"a plan has at most {STEPS} steps"
    if number == 34:
        return too_many_fault(row, column, stack)
    if number in (35, 36):
        return release_place_fault(number, row, column, stack)
    if number == NO_ROOM:
        return no_room_fault(row, column, stack)
    read = stack[-2:] if number == 31 else stack[-1:]
    if row >= sum(shape.rows for shape in read) or column >= max(shape.columns for shape in read):
        return f"there is no row {row}, column {column} in what step {step} can read"
    if number != NO_DRAW and not any(shape.stages for shape in read):
        return f"refusal {number} needs a cell with a label, and no stage is left"
    return None


def too_many_fault(row, column, stack):
    if (row, column) != (ROWS, 0):
        return f"the place of refusal 34 is the step, {ROWS} and 0"
    if len(stack) < 2 or max(stack[-2].rows * stack[-1].rows, stack[-2].rows + stack[-1].rows) <= ROWS:
        return f"no UNION or JOIN of these tables makes more than {ROWS} rows"
    return None


def release_place_fault(number, row, column, stack):
    if len(stack) != 1:
        return f"refusal {number} is of the last table, and the steps leave {len(stack)}"
    if row >= stack[-1].rows or column >= stack[-1].columns:
        return f"the last table has no row {row}, column {column}"
    if (stack[-1].stages == 0) != (number == 36):
        return f"the last step leaves {plural(stack[-1].stages, 'stage')}, and {number} is another refusal"
    return None


def no_room_fault(row, column, stack):
    """51 stands where the rows of a release would."""
    if (row, column) != (0, 0):
        return f"the place of refusal {NO_ROOM} is the number of steps, 0 and 0"
    reason = unfinished(stack)
    return f"refusal {NO_ROOM} stands in place of a release, and {reason}" if reason else None


def followed(lines):
    """Sees that the lines fit one another."""
    follower = Follower()
    for count, line in enumerate(lines, 1):
        reason = follower.take(line)
        if reason:
            raise Misfit(count, reason)
    reason = follower.end()
    if reason:
        raise Failure(f"after line {len(lines)}: {reason}", 1)
