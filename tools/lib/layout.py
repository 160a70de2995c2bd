"""A container's layout and its input checks, each refusal with its reason. crates/container/specs has the definitions.

This is a reading of its own, beside the monitor's: it serves sentences and messages, and decides nothing that is released.
"""
import struct
from collections import namedtuple

import labels
import steps
from words import plural

LONGEST = 65536
COLUMNS, ROWS, STEPS, TABLES, DEPTH = 8, 256, 64, 8, 3
DRAWS = (STEPS - 1) * ROWS  # no plan uses more: its first step is a SCAN
CELL = 12

# why the input is refused: the number of documents 01 and 02, the byte offset, the reason in words, and the label where it is one
Refusal = namedtuple("Refusal", "number place reason label", defaults=(None,))
Contents = namedtuple("Contents", "year plan tables")
# a table as the container has it: the column of sheet numbers, or None; its rows are lists of pairs, value and label
Table = namedtuple("Table", "columns sheets rows")
# what the checks of a container go by: the smallest group minimum and the last rule year, as the monitor has them and as the program convert does
Rules = namedtuple("Rules", "least year")
MONITOR, CONVERT = Rules(labels.LEAST_MINIMUM, 1), Rules(labels.EARLIER_MINIMUM, 0)


def part_count(data):
    return data[0]


def rule_year(data):
    """The rule year (#108) of a container, which says how its group minima are read."""
    return data[1]


def pair_at(part):
    return 2 + 8 * part


def pair(data, part):
    """The offset and the length that the directory gives a part."""
    return struct.unpack_from("<II", data, pair_at(part))


def part_name(part):
    return "the plan" if part == 0 else f"table {part - 1}"


def laid_parts(data, count):
    """So many parts of a container or an overlay, or None where the directory does not lay them one after the other to the end."""
    if count < 1 or len(data) < pair_at(count):
        return None
    parts, at = [], pair_at(count)
    for part in range(count):
        offset, length = pair(data, part)
        if offset != at:
            return None
        parts.append(data[at : at + length])
        at += length
    return parts if at == len(data) else None


def parts_of(data):
    """The parts of a container, or None where its directory is wrong."""
    return laid_parts(data, part_count(data)) if len(data) >= 2 else None


def container_fault(data, last):
    """Why a container's length, rule year, part count or room for its directory is wrong, or None."""
    if len(data) > LONGEST:
        return f"it has more than {LONGEST:,} bytes"
    if len(data) < 2:
        return f"it has {plural(len(data), 'byte')}, and its part count and rule year alone need 2"
    if rule_year(data) > last:
        right = "it is 0 or 1" if last else "a container that is converted has 0"
        return f"its rule year, byte 1, is {rule_year(data)}, and {right}"
    count = part_count(data)
    if not 2 <= count <= TABLES + 1:
        return f"its part count is {count}, and it is 2 to {TABLES + 1}: the plan and 1 to {TABLES} tables"
    if len(data) < pair_at(count):
        return f"it has {len(data):,} bytes, and the directory of {count} parts ends at {pair_at(count)}"
    return None


def check_container(data, last):
    """11."""
    reason = container_fault(data, last)
    return Refusal(11, 0, reason) if reason else None


def check_directory(data):
    """12, where 11 is passed."""
    count = part_count(data)
    at = pair_at(count)
    for part in range(count):
        offset, length = pair(data, part)
        if offset != at:
            before = "the directory" if part == 0 else part_name(part - 1)
            reason = f"{part_name(part)} is said to begin at {offset:,}, and {before} ends at {at:,}"
            return Refusal(12, pair_at(part), reason)
        at += length
    if at != len(data):
        reason = f"{part_name(count - 1)} is said to end at {at:,}, and the container ends at {len(data):,}"
        return Refusal(12, pair_at(count - 1), reason)
    return None


def header(part):
    """A table's columns, its byte 1 and its rows."""
    return struct.unpack_from("<BBH", part)


def header_fault(part):
    if len(part) < 4:
        return f"it has {plural(len(part), 'byte')}, and its header alone needs 4"
    columns, _, rows = header(part)
    if not 1 <= columns <= COLUMNS:
        return f"it has {plural(columns, 'column')}, and a table has 1 to {COLUMNS}"
    if rows > ROWS:
        return f"it has {rows:,} rows, and a table has at most {ROWS}"
    if len(part) != 4 + CELL * rows * columns:
        needs = f"{plural(rows, 'row')} of {plural(columns, 'column')} need {4 + CELL * rows * columns:,}"
        return f"it has {plural(len(part), 'byte')}, and {needs}"
    return None


def cells(part):
    """The cells of a table's part, value and label, in order."""
    return list(struct.iter_unpack("<qI", part[4:]))


def cell_fault(table, columns, at, cell, value, label, least):
    """14 and 15 of one cell of a part that begins at `at`."""
    where = f"table {table}, row {cell // columns}, column {cell % columns}"
    if not steps.LEAST <= value <= steps.MOST:
        return Refusal(14, at + 4 + CELL * cell, f"{where} has a value outside {steps.LEAST:,} .. {steps.MOST:,}")
    broken = labels.faults(label, least)
    if broken:
        return Refusal(15, at + 12 + CELL * cell, f"{where} has the label {label:08X}: {'; '.join(broken)}", label)
    return None


def sheet_column(part):
    """The column of sheet numbers, or None where each row counts as a sheet of its own."""
    return part[1] - 1 if part[1] else None


def sheets_fault(table, part):
    """20: why a table's sheet numbers are wrong, or None."""
    columns, column = part[0], sheet_column(part)
    if column is None:
        return None
    if column >= columns:
        return f"table {table}: its byte 1 is {part[1]}, for sheet numbers in column {column}, and {no_column(column, columns, 'the table')}"
    for row, (value, label) in enumerate(cells(part)[column::columns]):
        wrong = ["negative"] * (value < 0) + [f"not clear, with the label {labels.label_text(label)}"] * (label != 0)
        if wrong:
            return f"table {table}, row {row}, column {column} is a sheet number, and it is {' and '.join(wrong)}"
    return None


def check_tables(parts, starts, least):
    """For each table 13, then for each cell 14, 15, then 20."""
    for part, at, table in zip(parts[1:], starts[1:], range(len(parts))):
        broken = header_fault(part)
        if broken:
            return Refusal(13, at, f"table {table}: {broken}")
        for cell, (value, label) in enumerate(cells(part)):
            refusal = cell_fault(table, part[0], at, cell, value, label, least)
            if refusal:
                return refusal
        broken = sheets_fault(table, part)
        if broken:
            return Refusal(20, at, broken)
    return None


def plan_of(part):
    """The records of a plan's part; bytes behind the last whole one are left out."""
    whole = len(part) // steps.LENGTH
    return [steps.unpack(part[steps.LENGTH * k : steps.LENGTH * (k + 1)]) for k in range(whole)]


# 18 and 19: the widths of the tables on the stack, the last pushed last


def tables_fault(step, depth):
    """Why a step does not have its tables, or None."""
    if step.kind == steps.SCAN:
        return f"it is a SCAN onto {DEPTH} tables, and {DEPTH} are the most" if depth == DEPTH else None
    needs = 2 if step.kind in (steps.UNION, steps.JOIN) else 1
    if depth < needs:
        return f"it needs {plural(needs, 'table')}, and the steps before it leave {depth or 'none'}"
    return None


def no_column(column, width, table="the table that it reads"):
    if column < width:
        return None
    has = "1 column, column 0" if width == 1 else f"{width} columns, 0 to {width - 1}"
    return f"column {column} does not exist: {table} has {has}"


def first_of(*reasons):
    return next((reason for reason in reasons if reason), None)


def union_fault(step, stack):
    left, right = stack[-2:]
    if left == right:
        return None
    return f"the left table has {plural(left, 'column')} and the right one {plural(right, 'column')}, and UNION needs equal widths"


def join_fault(step, stack):
    return first_of(no_column(step.a, stack[-2], "the left table"), no_column(step.b, stack[-1], "the right table"))


def mask_fault(step, stack):
    return first_of(*(no_column(column, stack[-1]) for column in steps.columns_of(step.a)))


def operands_fault(step, stack):
    return first_of(no_column(step.a, stack[-1]), no_column(step.d, stack[-1]) if step.c == 1 else None)


def columns_fault(step, widths, stack):
    """Why a table or a column that a step names does not exist, or None."""
    if step.kind == steps.SCAN:
        has = "1 table, table 0" if len(widths) == 1 else f"{len(widths)} tables, 0 to {len(widths) - 1}"
        return None if step.a < len(widths) else f"table {step.a} does not exist: the container has {has}"
    if step.kind == steps.GROUP:
        return first_of(mask_fault(step, stack), no_column(step.c, stack[-1]))
    faults = {steps.UNION: union_fault, steps.JOIN: join_fault, steps.KEEP: mask_fault}
    return faults.get(step.kind, operands_fault)(step, stack)


def made_columns(step, widths, stack):
    """The columns of the table that a step makes."""
    if step.kind == steps.SCAN:
        return widths[step.a]
    if step.kind == steps.JOIN:
        return stack[-2] + stack[-1] - 1
    if step.kind == steps.KEEP:
        return len(steps.columns_of(step.a))
    if step.kind == steps.GROUP:
        return len(steps.columns_of(step.a)) + 1
    return stack[-1] + (step.kind in (steps.APPLY, steps.NOISE))


def width_fault(step, widths, stack):
    """19: a table or column that does not exist, unequal widths, or too many columns."""
    broken = columns_fault(step, widths, stack)
    if broken:
        return broken
    made = made_columns(step, widths, stack)
    if made <= COLUMNS:
        return None
    if step.kind == steps.JOIN:
        both = f"{stack[-2]} of the left table and {stack[-1] - 1} of the right one"
        return f"it would make {made} columns, {both}, and {COLUMNS} are the most"
    return f"it would make {made} columns, and {COLUMNS} are the most"


def taken(step):
    """How many tables a step takes off the stack."""
    return {steps.SCAN: 0, steps.UNION: 2, steps.JOIN: 2}.get(step.kind, 1)


def columns_made(plan, widths):
    """The columns of the table that each step of an accepted plan makes."""
    stack, made = [], []
    for step in plan:
        made.append(made_columns(step, widths, stack))
        stack = stack[: len(stack) - taken(step)] + made[-1:]
    return made


def check_step(step, at, widths, stack):
    """17, 18 and 19 of one step."""
    for number, fault in (
        (17, lambda: steps.fault(step)),
        (18, lambda: tables_fault(step, len(stack))),
        (19, lambda: width_fault(step, widths, stack)),
    ):
        reason = fault()
        if reason:
            return Refusal(number, at, reason)
    return None


def check_plan(part, at, widths):
    """16; then for each step 17, 18, 19; and 18 at the plan's end."""
    if len(part) % steps.LENGTH or not 1 <= len(part) // steps.LENGTH <= STEPS:
        reason = f"the plan has {plural(len(part), 'byte')}, and it has 1 to {STEPS} steps of {steps.LENGTH} bytes"
        return Refusal(16, at, reason)
    stack = []
    for k, step in enumerate(plan_of(part)):
        refusal = check_step(step, at + steps.LENGTH * k, widths, stack)
        if refusal:
            return refusal._replace(reason=f"step {k}, {steps.described(step)}: {refusal.reason}")
        stack = stack[: len(stack) - taken(step)] + [made_columns(step, widths, stack)]
    if len(stack) != 1:
        return Refusal(18, at + len(part), f"the plan ends and leaves {len(stack)} tables, and it must leave one")
    return None


def check(data, rules=MONITOR):
    """The refusal of a container because of the input, or None."""
    refusal = check_container(data, rules.year) or check_directory(data)
    if refusal:
        return refusal
    parts = parts_of(data)
    starts = [pair(data, part)[0] for part in range(len(parts))]
    return check_tables(parts, starts, rules.least) or check_plan(parts[0], starts[0], [part[0] for part in parts[1:]])


def conversion(data, refusal):
    """What the program convert does with the minimum of 1 for which a container, or an overlay of it, is refused; None for another refusal."""
    if refusal.label is None or not labels.has_earlier_minimum(refusal.label):
        return None
    if refusal.number != 15:
        return "overlays are not converted: have this one delivered anew"
    earlier = check(data, CONVERT)
    if earlier is None:
        return "the program convert raises each minimum of 1 in this container to 2"
    also = f"it refuses this container with {earlier.number} at byte {earlier.place}: {earlier.reason}"
    return f"the program convert raises each minimum of 1 to 2 where nothing else is wrong, and {also}"


def table_of(part):
    columns, _, rows = header(part)
    every = cells(part)
    return Table(columns, sheet_column(part), [every[columns * row : columns * (row + 1)] for row in range(rows)])


def contents(data):
    """The rule year, the plan and the tables of an accepted container."""
    parts = parts_of(data)
    return Contents(rule_year(data), plan_of(parts[0]), [table_of(part) for part in parts[1:]])
