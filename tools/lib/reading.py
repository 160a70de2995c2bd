"""A container and its overlays as the scripts read them themselves, and whether an output is the one that this reading gives."""
from itertools import zip_longest

import evaluate
import layout
import overlays
import steps
from console import plain, read_file
from printed import AT_RELEASE, NO_DRAW, NO_ROOM, Line, Misfit
from words import plural

# the refusals of a step, with the kinds of steps that give them
REFUSES = {
    31: (steps.JOIN, steps.FILTER, steps.GROUP),
    32: (steps.APPLY, steps.GROUP, steps.NOISE),
    33: (steps.APPLY,),
    34: (steps.UNION, steps.JOIN),
    NO_DRAW: (steps.NOISE,),
}


def told(lines):
    """What an output tells of the draws: how many there were, where too few were lent, and which cell is the first OVER."""
    letter, (number, *place) = lines[-1]
    if (letter, number) == ("X", NO_DRAW):
        return evaluate.Told(draws=evaluate.draws_used(line.numbers[1:] for line in lines[:-1]) + place[1])
    if (letter, number) == ("X", 36):
        return evaluate.Told(over=tuple(place[1:]))
    return evaluate.Told()


class Reading:
    """A container's file and those of its overlays: why the input is refused and whether a conversion helps, or the plan, the tables with the
    labels that the overlays and the rule year leave them, and, once it was evaluated, the evaluation."""

    def __init__(self, path, overlay_paths=()):
        data, self.overlays = read_file(path, layout.LONGEST), [read_file(one, overlays.LONGEST) for one in overlay_paths]
        with_overlays = f"with {plural(len(self.overlays), 'overlay')}" if self.overlays else "without overlays"
        self.name = f"{plain(path)} {with_overlays}"
        self.refusal = layout.check(data) or overlays.check(data, self.overlays)
        self.conversion = layout.conversion(data, self.refusal) if self.refusal else None
        self.plan, self.tables, self.result = [], [], None
        if self.refusal is None:
            year, self.plan, self.given_tables = layout.contents(data)
            self.labels = overlays.Labels(self.overlays)
            self.composed_tables = self.labels.composed(self.given_tables)
            self.tables = evaluate.under_year(year, self.composed_tables)

    def shares(self, source):
        """What the label of a table's cell is composed of: the container's and, of the overlays, each that is not zero."""
        _, label = self.given_tables[source.table].rows[source.row][source.column]
        return [overlays.Share(None, label), *self.labels.over(source.table, source.row, source.column)]

    def raised(self, source):
        """Whether the rule year reads a higher group minimum in the label of a table's cell than the overlays leave it."""
        composed, read = (tables[source.table].rows[source.row][source.column] for tables in (self.composed_tables, self.tables))
        return composed != read

    def evaluated(self, told):
        """The same after the evaluation, where this is told of the draws."""
        if self.refusal is None:
            self.result = evaluate.evaluate(self.plan, self.tables, told)
        return self

    def settled(self):
        """Whether the container settles every line, the values that NOISE makes left out."""
        return self.result is None or self.result.settled()

    def lines(self, room=True):
        """The lines that the monitor prints by this reading, as far as it is settled, with None for a value that the draws decide; without
        room for its text, 51 stands in place of a release's rows."""
        if self.refusal:
            return [Line("X", [self.refusal.number, self.refusal.place])]
        lines = [Line("S", [k, *line]) for k, line in enumerate(self.result.lines)]
        if self.result.refused:
            return lines + [Line("X", list(self.result.refused))]
        if not self.settled():
            return lines
        if not room:
            return lines + [Line("X", [NO_ROOM, len(self.plan), 0, 0])]
        return lines + [Line("R", [cell.value for cell in row.cells]) for row in self.result.stack[-1].rows]

    def open_lines(self, lines):
        """What the container asks of an output's lines from the step on whose rows the draws decide: of a step its kind and its columns,
        with None for the rest, and of the end that a refusal is one of its step's."""
        finished = len(self.result.lines)
        columns = layout.columns_made(self.plan, [table.columns for table in self.tables])
        wanted = [Line("S", [k, self.plan[k].kind, None, columns[k], None]) for k in range(finished, len(self.plan))]
        last = lines[-1]
        number, step = last.numbers[:2] if last.letter == "X" else (None, None)
        if number in REFUSES and finished <= step < len(self.plan) and self.plan[step].kind in REFUSES[number]:
            return wanted[: step - finished] + [last]
        return wanted + [line for line in lines[len(self.plan) :] if line.letter == "R" or number in AT_RELEASE]

    def step(self, k):
        return steps.described(self.plan[k])


def phrase(line):
    """What a line is. No value of a row is said."""
    if line.letter == "S":
        return f"the line of step {line.numbers[0]}"
    if line.letter == "R":
        return "a released row"
    return f"refusal {line.numbers[0]} at {' '.join(map(str, line.numbers[1:]))}"


def step_difference(line, wanted, reading):
    """How the line of a step differs from the step that the container has."""
    k, kind, rows, columns, stages = wanted.numbers
    step = f"step {k} of the container, {reading.step(k)},"
    if line.numbers[1] != kind:
        return f"it says kind {line.numbers[1]}, and {step} has kind {kind}"
    if rows not in (None, line.numbers[2]):
        return f"it says {plural(line.numbers[2], 'row')}, and {step} makes {rows}"
    if line.numbers[3] != columns:
        return f"it says {plural(line.numbers[3], 'column')}, and {step} makes {columns}"
    return f"it says {plural(line.numbers[4], 'stage')} left, and {step} leaves {stages}"


def difference(line, wanted, reading):
    """How a line differs from the one that the container asks for; either may be missing."""
    if line is None:
        return f"it is missing, and {phrase(wanted)} stands here by the container"
    if wanted is None:
        return f"it is {phrase(line)}, and by the container the output has ended before it"
    if line.letter == wanted.letter == "S":
        return step_difference(line, wanted, reading)
    if line.letter == wanted.letter == "R":
        return "it is a row with other values than the container gives there"
    return f"it is {phrase(line)}, and by the container {phrase(wanted)} stands here"


def same(line, wanted):
    """Whether a line is the one that the container asks for; None stands for every number."""
    if line is None or wanted is None or line.letter != wanted.letter:
        return line is wanted
    return len(line.numbers) == len(wanted.numbers) and all(two in (None, one) for one, two in zip(line.numbers, wanted.numbers))


def fitted(lines, reading):
    """Sees that every line is the one that the container asks for, and that none is missing.

    After 1 no container was read. 51 may stand in place of the rows of every release: the container does not settle it. Nor does it settle
    what NOISE makes.
    """
    if lines == [Line("X", [1, 0, 0, 0])]:
        return
    room = (lines[-1].letter, lines[-1].numbers[0]) != ("X", NO_ROOM)
    wanted_lines = reading.lines(room) + ([] if reading.settled() else reading.open_lines(lines))
    for count, (line, wanted) in enumerate(zip_longest(lines, wanted_lines), 1):
        if not same(line, wanted):
            blame = f"the output was changed, is not that of {reading.name}, or is misread by this script"
            raise Misfit(count, f"{difference(line, wanted, reading)}: {blame}")
