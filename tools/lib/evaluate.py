"""A plain evaluation of a plan, which keeps where each cell came from. crates/plan/specs has the definitions.

This is a reading of its own, beside the monitor's, to explain an output: what is released comes from the monitor alone. It needs no
draws: a value that NOISE makes is not known, and where such values decide which rows a step makes, the evaluation ends.
"""
from collections import Counter, namedtuple
from fractions import Fraction

import labels
import steps
from layout import DRAWS, ROWS, taken

OVER = 2**47
DRAWN = None  # a value that the draws decide, OVER or in range
LONGEST_TEXT = 35097  # bytes of a released table's text

# a cell with what it was made of: a FromTable, a FromApply, a FromGroup or a FromNoise; a copy keeps it
Cell = namedtuple("Cell", "value label source")
FromTable = namedtuple("FromTable", "table row column")
FromApply = namedtuple("FromApply", "step first")  # the step's number, and the first operand's cell
FromGroup = namedtuple("FromGroup", "step group members sheets first")  # the group's number, cells and number of sheets, its first row's origin
FromNoise = namedtuple("FromNoise", "step first")  # the step's number, and the cell whose value the draw was added to
# a row's origin: the places it was joined from, each the row of a table or of a GROUP
TableRow = namedtuple("TableRow", "table row")
GroupRow = namedtuple("GroupRow", "step row")
# a row's mark says of which sheet it is: a sheet number, or the TableRow of a row that is a sheet of its own
Row = namedtuple("Row", "cells origin mark")
Table = namedtuple("Table", "columns rows")
Refused = namedtuple("Refused", "number step row column")
# what the container does not settle: how many draws were lent, and where a cell that the draws decide is the first OVER, or None
Told = namedtuple("Told", "draws over", defaults=(DRAWS, None))
# what a step may use beside the stack: the container's tables, and the number of draws left
Given = namedtuple("Given", "tables left")


class Result(namedtuple("Result", "plan lines refused stack")):
    """The trace lines, the refusal or None, and the stack where the evaluation ended."""

    def settled(self):
        """Whether it came to its release or its refusal, and no step's rows were left to the draws."""
        return self.refused is not None or len(self.lines) == len(self.plan)


def settled(value):
    return value if steps.LEAST <= value <= steps.MOST else OVER


def in_range(value):
    return value != OVER


def first_not_clear(table, columns):
    """The row and column of the first cell in these columns that is not clear, or None."""
    for number, row in enumerate(table.rows):
        for column in columns:
            if row.cells[column].label:
                return number, column
    return None


def drawn(table, columns):
    """Whether the draws decide a value in these columns."""
    return any(row.cells[column].value is DRAWN for row in table.rows for column in columns)


# The eight steps: what is refused, (number, row, column) or None, and the table made; twice None where the draws decide its rows


def scan(step, k, given, stack):
    table = given.tables[step.a]
    rows = []
    for r, cells in enumerate(table.rows):
        made = tuple(Cell(v, label, FromTable(step.a, r, c)) for c, (v, label) in enumerate(cells))
        here = TableRow(step.a, r)
        rows.append(Row(made, (here,), here if table.sheets is None else made[table.sheets].value))
    return None, Table(table.columns, rows)


def union(step, k, given, stack):
    left, right = stack[-2:]
    return None, Table(left.columns, left.rows + right.rows)


def join_refusal(step, left, right):
    place = first_not_clear(left, [step.a])
    if place:
        return (31, *place)
    place = first_not_clear(right, [step.b])
    return (31, len(left.rows) + place[0], place[1]) if place else None


def joined_count(step, left, right):
    """How many rows a join makes."""
    keys = Counter(row.cells[step.b].value for row in right.rows if in_range(row.cells[step.b].value))
    return sum(keys[row.cells[step.a].value] for row in left.rows)


def join(step, k, given, stack):
    left, right = stack[-2:]
    refusal = join_refusal(step, left, right)
    if refusal or drawn(left, [step.a]) or drawn(right, [step.b]):
        return refusal, None
    if joined_count(step, left, right) > ROWS:
        return (34, ROWS, 0), None
    by_key = {}
    for row in right.rows:
        by_key.setdefault(row.cells[step.b].value, []).append(row)
    by_key.pop(OVER, None)
    rows = []
    for one in left.rows:
        for other in by_key.get(one.cells[step.a].value, []):
            rest = other.cells[: step.b] + other.cells[step.b + 1 :]
            rows.append(Row(one.cells + rest, one.origin + other.origin, one.mark))
    return None, Table(left.columns + right.columns - 1, rows)


def second_value(step, row):
    return row.cells[step.d].value if step.c == 1 else step.constant


def holds(comparison, a, b):
    if not (in_range(a) and in_range(b)):
        return False
    return (a == b, a != b, a < b, a <= b, a > b, a >= b)[comparison]


def filter_rows(step, k, given, stack):
    table = stack[-1]
    operands = sorted({step.a, step.d} if step.c == 1 else {step.a})
    place = first_not_clear(table, operands)
    if place:
        return (31, *place), None
    if drawn(table, operands):
        return None, None
    rows = [row for row in table.rows if holds(step.b, row.cells[step.a].value, second_value(step, row))]
    return None, Table(table.columns, rows)


def keep(step, k, given, stack):
    columns = steps.columns_of(step.a)
    rows = [row._replace(cells=tuple(row.cells[c] for c in columns)) for row in stack[-1].rows]
    return None, Table(len(columns), rows)


def transformed(step, value, row):
    """A value after APPLY's operation."""
    other = second_value(step, row)
    if OVER in (value, other):
        return OVER
    if DRAWN in (value, other):
        return DRAWN
    if step.b == steps.CUT:
        return abs(value) // 10**other * (-1 if value < 0 else 1)
    if step.b == steps.BAND:
        return settled(value // other * other)
    return settled(value + other if step.b == 0 else value - other)


def cut_digits(step):
    return step.constant if step.b == steps.CUT else 0


def apply_refusal(step, table):
    for number, row in enumerate(table.rows):
        if labels.forbids_t(row.cells[step.a].label):
            return 32, number, step.a
        if step.c == 1 and row.cells[step.d].label:
            return 33, number, step.d
    return None


def apply(step, k, given, stack):
    table = stack[-1]
    refusal = apply_refusal(step, table)
    if refusal:
        return refusal, None
    rows = []
    for row in table.rows:
        first = row.cells[step.a]
        label = labels.after_t(first.label, step.b, cut_digits(step))
        new = Cell(transformed(step, first.value, row), label, FromApply(k, first))
        rows.append(row._replace(cells=row.cells + (new,)))
    return None, Table(table.columns + 1, rows)


def aggregate_value(operation, values):
    if operation == 0:
        return len(values)
    if OVER in values:
        return OVER
    if DRAWN in values:
        return DRAWN
    if operation == 4:
        return settled(round(Fraction(sum(values), len(values))))  # to the nearest, a tie to the even one
    return settled((sum, min, max)[operation - 1](values))


def aggregate_label(operation, members, sheets):
    label = 0
    for cell in members:
        label = labels.composed(label, labels.after_a(cell.label, operation, sheets))
    return label


def group_refusal(step, table):
    place = first_not_clear(table, steps.columns_of(step.a))
    if place:
        return (31, *place)
    for number, row in enumerate(table.rows):
        if labels.forbids_a(row.cells[step.c].label):
            return 32, number, step.c
    return None


def group(step, k, given, stack):
    table, keys = stack[-1], steps.columns_of(step.a)
    refusal = group_refusal(step, table)
    if refusal or drawn(table, keys):
        return refusal, None
    groups = {}
    for row in table.rows:
        groups.setdefault(tuple(row.cells[c].value for c in keys), []).append(row)
    rows = []
    for number, rows_of in enumerate(groups.values()):
        first, members, sheets = rows_of[0], [row.cells[step.c] for row in rows_of], len({row.mark for row in rows_of})
        value, label = aggregate_value(step.b, [cell.value for cell in members]), aggregate_label(step.b, members, sheets)
        new = Cell(value, label, FromGroup(k, number, members, sheets, first.origin))
        rows.append(Row(tuple(first.cells[c] for c in keys) + (new,), (GroupRow(k, number),), first.mark))
    return None, Table(len(keys) + 1, rows)


def noise_refusal(step, table, left):
    for number, row in enumerate(table.rows):
        if labels.forbids_n(row.cells[step.a].label):
            return 32, number, step.a
        if number == left:
            return 37, number, step.a
    return None


def noise(step, k, given, stack):
    table = stack[-1]
    refusal = noise_refusal(step, table, given.left)
    if refusal:
        return refusal, None
    rows = []
    for row in table.rows:
        first = row.cells[step.a]
        new = Cell(OVER if first.value == OVER else DRAWN, labels.after_n(first.label), FromNoise(k, first))
        rows.append(row._replace(cells=row.cells + (new,)))
    return None, Table(table.columns + 1, rows)


MAKERS = {
    steps.SCAN: scan,
    steps.UNION: union,
    steps.JOIN: join,
    steps.FILTER: filter_rows,
    steps.KEEP: keep,
    steps.APPLY: apply,
    steps.GROUP: group,
    steps.NOISE: noise,
}


def stages_left(table):
    return sum(bin(cell.label >> 28).count("1") for row in table.rows for cell in row.cells)


def release_refusal(table, over):
    place = first_not_clear(table, range(table.columns))
    if place:
        return (35, *place)
    for number, row in enumerate(table.rows):
        for column, cell in enumerate(row.cells):
            if cell.value == OVER or cell.value is DRAWN and (number, column) == over:
                return 36, number, column
    return None


def text_of(table):
    """The comma-separated text of a released table."""
    lines = [[f"c{column}" for column in range(table.columns)]]
    lines += [[str(cell.value) for cell in row.cells] for row in table.rows]
    return "".join(f"{','.join(line)}\r\n" for line in lines)


def draws_used(lines):
    """How many draws the steps of these trace lines have used."""
    return sum(rows for kind, rows, *_ in lines if kind == steps.NOISE)


def under_year(year, tables):
    """The tables of a container, with their composed labels as its rule year reads them."""
    if year == 0:
        return tables
    return [table._replace(rows=[[(value, labels.floored(label)) for value, label in row] for row in table.rows]) for table in tables]


def evaluate(plan, tables, told=Told()):
    """The plan of an accepted container over its tables, with their labels composed and read under its rule year, to the release, the refusal,
    or a step whose rows the draws decide."""
    lines, stack, refusal = [], [], None
    for k, step in enumerate(plan):
        refusal, made = MAKERS[step.kind](step, k, Given(tables, told.draws - draws_used(lines)), stack)
        if made and len(made.rows) > ROWS:
            refusal = (34, ROWS, 0)
        if refusal or not made:
            break
        lines.append((step.kind, len(made.rows), made.columns, stages_left(made)))
        stack = stack[: len(stack) - taken(step)] + [made]
    else:
        refusal = release_refusal(stack[-1], told.over)
    refused = Refused(refusal[0], len(lines), *refusal[1:]) if refusal else None
    return Result(plan, lines, refused, stack)
