"""Sentences for the monitor's output: what each step made, why it refused, and what to do."""
import re

import labels
import steps
from evaluate import LONGEST_TEXT, FromApply, FromNoise, FromTable, TableRow
from evaluate import cut_digits, drawn, draws_used, evaluate, joined_count, text_of
from printed import AT_RELEASE, OVERLAY
from words import plural

# What a refusal says of itself where the container is not at hand. docs/REFUSALS.md has the same numbers.
INPUT = {
    11: "the container's length, its rule year, its part count or the room for its directory is wrong",
    12: "the directory does not lay the parts one after the other to the container's end",
    13: "a table's header or length is wrong",
    14: "a value is out of range",
    15: "a label is ill-formed",
    16: "the plan's length is not 1 to 64 steps of 16 bytes",
    17: "a step's record is wrong",
    18: "a step finds too few tables or one too many, or the plan does not leave one table",
    19: "a step names a table or column that does not exist, unequal widths or too many columns",
    20: "a table's sheet numbers are wrong",
    21: "its length, its count, its directory, or the header or length of a part does not fit the container",
    22: "a label is ill-formed, or not zero in a column of sheet numbers",
}
STATE = {
    1: "the program lent the monitor too little memory, and nothing was read",
    31: "{cell} decides which rows are kept, matched or grouped, and it is not clear",
    32: "{cell} has a label whose highest stage forbids this operation",
    33: "{cell} is the second operand, and it is not clear",
    34: "the step would make more than 256 rows",
    35: "{cell} still has a stage of its label",
    36: "{cell} is OVER, a result outside the range of values",
    37: "no draw is left for {cell}",
    51: "the program lent the monitor too few bytes for the table's comma-separated text",
}
CAUSES = {
    31: "Causes: the raw column was used, and not the copy that an APPLY appends; a cut took too few digits off; the operation is not"
    " among those that the label allows; a count or another aggregate kept its label, because its group has too few sheets or the"
    " label does not allow it; an N that no NOISE has removed; or H, which no step removes.",
    32: "Causes: H, which no step removes; or, in a GROUP, a T that no APPLY has removed: the raw column was aggregated and not its"
    " copy, a cut took too few digits off, or the operation is not among those that the label allows; or, in a NOISE, such a T, or an A"
    " that no GROUP has removed.",
    33: "Causes: the operands stand the wrong way round; a labelled column is added to itself; or an earlier step did not remove the"
    " label, because it cut too few digits off, is not allowed by the label, or had too few sheets in a group.",
    34: "Causes: in a JOIN, keys that repeat on both sides; in a UNION, tables that have more than 256 rows together.",
    35: "Causes: a group with fewer sheets than a label asks for, which under rule year 1 is ten at least; an aggregate or operation that"
    " a label does not allow; a cut that took too few digits off; an N that no NOISE has removed; a raw column left in beside its copy;"
    " or H, which no step removes.",
    36: "Causes: a sum, a difference, a band or a value with noise left the range of values, or one of its operands was OVER already.",
    37: "Cause: a NOISE uses a draw for each row that it reads, and the program lent fewer. Run it again with new draws, and never with old ones.",
    51: f"Cause: the program lends fewer bytes than the text has; {LONGEST_TEXT:,} are enough for every text.",
}
# The clerk's action for each number, the same words as in docs/REFUSALS.md.
ACTIONS = {
    1: "Tell the vendor of the program that calls the monitor. Your file is not at fault.",
    11: "See that it is the right file and send it again, byte for byte. If it is refused again, ask whoever wrote it for a new one.",
    12: "Send the file again, byte for byte and not as text. If it is refused again, tell the vendor of the program that wrote it.",
    13: "Ask whoever wrote the table for a new one. Never have the rows of one precinct put into two tables.",
    14: "Ask whoever wrote the table to correct the cell.",
    15: "If its minimum is 1, have the container converted; otherwise ask whoever sets the labels to write this one again. Never have it set"
    " to zero.",
    16: "Ask the analyst for the plan again.",
    17: "Ask the analyst to write the step again.",
    18: "Ask the analyst to mend the plan.",
    19: "Ask the analyst to mend the plan.",
    20: "Ask whoever wrote the table to correct its sheet numbers. Never have it sent without them: each row would then count as a sheet.",
    21: "See that it is the overlay for this container and send it again, byte for byte. If it is refused again, ask whoever wrote it for"
    " a new one. Never run the report without it.",
    22: "Ask whoever wrote the overlay to write this label again. Never run the report without the overlay.",
    31: "Ask the analyst to change the plan. Never ask for the label to be taken off.",
    32: "Ask the analyst to change the plan. Never ask for the label to be taken off.",
    33: "Ask the analyst to change the plan. Never ask for the label to be taken off.",
    34: "Ask the analyst for a report over fewer rows. Never have the rows of one precinct split between reports.",
    35: "Publish nothing of it, no other row either. Ask the analyst for larger groups or fewer columns.",
    36: "Ask the analyst for another column or a coarser unit.",
    37: "Have new draws made, enough for all steps of the plan, and run it again with these. Never use draws a second time.",
    51: "Tell the vendor of the program that calls the monitor. Your file is not at fault.",
}


UNKNOWN = "Whether this is the answer to a container, only the container can tell."


# Where a cell comes from, and why a label is left on it


def row_place(origin):
    """A row's origin in words."""
    return " joined with ".join(
        f"row {at.row} of table {at.table}" if isinstance(at, TableRow) else f"group {at.row} of step {at.step}"
        for at in origin
    )


def source_place(source):
    if isinstance(source, FromTable):
        return f"row {source.row}, column {source.column} of table {source.table}"
    if isinstance(source, (FromApply, FromNoise)):
        return f"what step {source.step} made"
    return f"the aggregate of group {source.group} in step {source.step}"


def not_among(name, allowed):
    return f"{name} is not among {', '.join(allowed)}" if allowed else f"{name} is not allowed, nor is anything else"


def apply_reason(step, label):
    """Why an APPLY left a stage on this label."""
    name, top = labels.TRANSFORMS[step.b], labels.highest(label)
    if top != "T":
        return f"an APPLY removes T alone; {labels.asks(label, top)}"
    if labels.allows_transform(label, step.b, cut_digits(step)):
        rest = labels.without_t(label)
        return f"T is gone; {labels.asks(rest, labels.highest(rest))}"
    text = labels.stage_text(label, "T")
    if step.b == steps.CUT and "cut" in labels.transforms(label):
        return f"it cut {plural(step.constant, 'digit')} off, and {text} asks for at least {labels.digits(label)}"
    return f"{not_among(name, labels.transforms(label))} ({text})"


def group_reason(step, label, sheets):
    """Why a GROUP over so many sheets left a stage on this label."""
    name, top = labels.AGGREGATES[step.b], labels.highest(label)
    if top == "N":
        return labels.asks(label, "N")
    text, reasons = labels.stage_text(label, "A"), []
    if not labels.allows_aggregate(label, step.b):
        reasons.append(f"{not_among(name, labels.aggregates(label))} ({text})")
    if labels.minimum(label) > sheets:
        reasons.append(f"{text} asks for {labels.minimum(label)}")
    return ", and ".join(reasons) or f"A is gone; {labels.asks(labels.without_a(label), 'N')}"


def table_cell(cell, plan):
    """The cell of a table from which a cell has its label; of a group's members the first that keeps a stage."""
    source = cell.source
    if isinstance(source, FromTable):
        return cell
    if isinstance(source, (FromApply, FromNoise)):
        return table_cell(source.first, plan)
    return table_cell(kept_member(source, plan), plan)


def kept_member(source, plan):
    """The first member of a group on whose label a stage is left."""
    return next(member for member in source.members if labels.after_a(member.label, plan[source.step].b, source.sheets))


def listed(words):
    """Words with commas between them and 'and' before the last."""
    return words[0] if len(words) == 1 else f"{', '.join(words[:-1])} and {words[-1]}"


def names_floor(sentence):
    """Whether a sentence names a label with a group minimum of ten."""
    return bool(re.search(rf"A\(([a-z]+,)*{labels.FLOOR}\)", sentence))


def with_origin(sentence, cell, reading):
    """A sentence about a cell's label, and behind it what the label is composed of, where an overlay has a share in it, and that the rule year
    raised its group minimum, where the sentence names it so."""
    source = table_cell(cell, reading.plan).source
    (_, own), *others = reading.shares(source)
    raised = reading.raised(source) and names_floor(sentence)
    if not (others or raised):
        return sentence
    shares = [f"{labels.label_text(own)} in the container"] * (own != 0)
    shares += [f"{labels.label_text(share.label)} in overlay {share.overlay}" for share in others]
    composed = "composed of " * (len(shares) > 1)
    clear = "; in the container the cell is clear" * (own == 0)
    floor = " The container's rule year 1 reads each minimum below ten as ten." * raised
    return f"{sentence} The label of {source_place(source)} is {composed}{listed(shares)}{clear}.{floor}"


def as_it_is(source, reading):
    """A table's cell, as it is before step 0."""
    over = ["its overlays"] * bool(reading.shares(source)[1:]) + ["rule year 1"] * reading.raised(source)
    return f"It is {source_place(source)}" + (f" under {listed(over)}" if over else " as the container has it")


def left_on(cell, reading):
    """Why a cell has a label, in a sentence."""
    source, text, plan = cell.source, labels.label_text(cell.label), reading.plan
    if isinstance(source, FromTable):
        asked = labels.asks(cell.label, labels.highest(cell.label))
        return f"{as_it_is(source, reading)}, labelled {text}: {asked}."
    step = plan[source.step]
    if isinstance(source, (FromApply, FromNoise)):
        made = f"Step {source.step}, {steps.described(step)}, made it of {source_place(source.first.source)}"
        label = source.first.label
        return f"{made}: {apply_reason(step, label) if isinstance(source, FromApply) else labels.asks(label, 'N')}."
    rows, sheets = len(source.members), source.sheets
    size = plural(sheets, "sheet") + f" in {rows} rows" * (rows != sheets)
    group = f"Step {source.step}, group {source.group}, first row: {row_place(source.first)}, has {size}"
    return f"{group}; {group_reason(step, kept_member(source, plan).label, sheets)}."


def advice(label, kind):
    """What comes before a GROUP or a NOISE that a label forbids."""
    above = [stage for stage in labels.stages(label) if stage in ("TA" if kind == steps.NOISE else "T")]
    for stage in above:
        if not labels.removable(label, stage):
            return labels.asks(label, stage)
    ways = ", then ".join(labels.removal(label, stage) for stage in above)
    use, maker = "NOISE on" if kind == steps.NOISE else "GROUP with", "APPLY" if above[-1] == "T" else "GROUP"
    return f"first {ways}, then {use} the column that the {maker} appends"


def forbidden(cell, reading, kind):
    """What 32 says of a cell: its label, and what to apply before a step of this kind."""
    if not labels.removable(cell.label, labels.highest(cell.label)):
        return left_on(cell, reading)
    text, before = labels.label_text(cell.label), advice(cell.label, kind)
    if isinstance(cell.source, FromTable):
        return f"{as_it_is(cell.source, reading)}, labelled {text}: {before}."
    return f"{left_on(cell, reading)} The label is {text}: {before}."


def too_many(step, stack):
    left, right = (len(table.rows) for table in stack[-2:])
    made = left + right if step.kind == steps.UNION else joined_count(step, *stack[-2:])
    both = f"The left table has {plural(left, 'row')} and the right one {plural(right, 'row')}"
    return f"{both}; the step would make {plural(made, 'row')}."


def over(cell, plan):
    """Which step made an OVER cell."""
    return f"Step {cell.source.step}, {steps.described(plan[cell.source.step])}, made it."


def no_room(table):
    """How many bytes the text has that found no room."""
    open_values = drawn(table, range(table.columns))
    length = "more bytes than the program lent" if open_values else f"{len(text_of(table)):,} bytes, and the program lent fewer"
    return f"The text has {length}; {LONGEST_TEXT:,} are enough for every text."


def no_draw(reading, k, left):
    """How many draws a plan needs from step k on, for whose rows so many were left, and from its beginning."""
    used, rows = draws_used(reading.result.lines), len(reading.result.stack[-1].rows)
    need = rows + draws_used(evaluate(reading.plan, reading.tables).lines[k + 1 :])
    some = f"{left or 'none'} {'was' if left == 1 else 'were'} left"
    here = f"From step {k} on the plan needs at least {plural(need, 'draw')}, one for each row that a NOISE reads, and {some}"
    return f"{here}. Run it again with at least {plural(used + need, 'new draw')}, and never with old ones."


class Explained:
    """The sentences for the lines of an output; `reading` is that of the container and its overlays, or None."""

    def __init__(self, lines, reading):
        self.lines, self.reading = lines, reading
        self.plan = reading.plan if reading else []
        self.result = reading.result if reading else None

    def sentences(self):
        last = self.lines[-1]
        said = self.empty_overlays() + [self.step(*line.numbers) for line in self.lines if line.letter == "S"]
        if last.letter == "X":
            return said + self.refused(last.numbers[0], last.numbers[1:])
        rows = [line.numbers for line in self.lines if line.letter == "R"]
        said += [f"Released row {row}: {', '.join(map(str, values))}." for row, values in enumerate(rows)]
        columns = self.lines[len(self.lines) - len(rows) - 1].numbers[3]
        return said + [self.whole(len(rows), columns)]

    def empty_overlays(self):
        """Which files of overlays are empty: they may have been meant to say something."""
        empty = [str(number) for number, data in enumerate(self.reading.overlays if self.reading else []) if not data]
        if len(empty) > 1:
            return [f"Overlays {listed(empty)} are empty files, and so no overlays."]
        return [f"Overlay {number} is an empty file, and so no overlay." for number in empty]

    def whole(self, rows, columns):
        shape = f"{plural(rows, 'row')} of {plural(columns, 'column')}"
        if not self.reading:
            return f"These lines fit one another: {shape}. {UNKNOWN}"
        if not self.reading.settled():
            return f"These lines fit one another and the plan: {shape}. {self.decided()}"
        noisy = [str(column) for column in range(columns) if drawn(self.result.stack[-1], [column])]
        not_compared = f" The draws decide values of column{'s' * (len(noisy) > 1)} {', '.join(noisy)}, which are not compared."
        return f"The release is whole: {shape}.{not_compared if noisy else ''}"

    def decided(self):
        """Why the container does not settle the lines from a step on."""
        return f"Values that NOISE made decide the rows of step {len(self.result.lines)}, so from there on the rows are not compared."

    def name(self, k, kind=0):
        words = steps.described(self.plan[k]) if k < len(self.plan) else steps.KINDS[kind]
        return f"Step {k}, {words}" if words else f"Step {k}"

    def step(self, k, kind, rows, columns, stages):
        left = f"{plural(stages, 'stage')} left" if stages else "no stage left"
        return f"{self.name(k, kind)}: {plural(rows, 'row')} of {plural(columns, 'column')}, {left}."

    def refused(self, number, place):
        if number in INPUT:
            said = self.refused_input(number, *place)
        elif number == 1:
            said = [f"The run is refused (1): {STATE[1]}."]
        else:
            said = self.refused_state(number, *place)
        said += ["Nothing is released.", f"What to do: {ACTIONS[number]} (docs/REFUSALS.md has more on {number}.)"]
        return said if self.reading else said + [UNKNOWN]

    def refused_input(self, number, place):
        what = "An overlay is refused ({}) at its byte {}" if number in OVERLAY else "The container is refused ({}) at byte {}"
        said = [f"{what.format(number, place)}: {INPUT[number]}."]
        if self.reading:
            said += [f"{one[0].upper()}{one[1:]}." for one in (self.reading.refusal.reason, self.reading.conversion) if one]
        return said

    def refused_state(self, number, k, row, column):
        who = "The release" if number in AT_RELEASE else self.name(k)
        said = [f"{who} is refused ({number}): {STATE[number].format(cell=self.cell_place(number, k, row, column))}."]
        if not self.reading:
            return said + [CAUSES[number]]
        if not self.reading.settled():
            return said + [self.decided(), CAUSES[number]]
        return said + [self.reason(number, k, row, column)]

    def sides(self, number, k, row):
        """Which table a row of a refusal is of, counted from the top of the stack, and the row's number there."""
        if number == 31 and self.plan[k].kind == steps.JOIN:
            left = len(self.result.stack[-2].rows)
            return (-2, row) if row < left else (-1, row - left)
        return -1, row

    def cell_place(self, number, k, row, column):
        """A cell of the table that the step reads, or of the table that would be released."""
        if number in AT_RELEASE:
            return f"row {row}, column {column} of the last table"
        if not (self.reading and self.reading.settled()):
            join = " (in a JOIN the right rows are numbered on from the left ones)" if number == 31 else ""
            return f"row {row}, column {column} of what it reads{join}"
        if self.plan[k].kind == steps.JOIN:
            table, at = self.sides(number, k, row)
            return f"row {at}, column {column} of the {'left' if table == -2 else 'right'} table"
        return f"row {row}, column {column} of the table it reads"

    def reason(self, number, k, row, column):
        """What the container shows of a refusal because of the state."""
        if number == 34:
            return too_many(self.plan[k], self.result.stack)
        if number == 37:
            return no_draw(self.reading, k, row)
        if number == 51:
            return no_room(self.result.stack[-1])
        table, at = (-1, row) if number in AT_RELEASE else self.sides(number, k, row)
        cell = self.result.stack[table].rows[at].cells[column]
        if number == 36:
            return over(cell, self.plan)
        if number == 32:
            return with_origin(forbidden(cell, self.reading, self.plan[k].kind), cell, self.reading)
        raw = number == 35 and isinstance(cell.source, FromTable)
        drop = " KEEP drops the column where it is not to be published." * raw
        return with_origin(left_on(cell, self.reading), cell, self.reading) + drop
