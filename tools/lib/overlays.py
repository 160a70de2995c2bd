"""An overlay's layout and its checks, each refusal with its reason, and the labels of tables under overlays. The definitions are in
crates/overlay_part/specs, crates/overlay_check/specs and crates/overlays/specs.

This is a reading of its own, beside the monitor's: it serves sentences and messages, and decides nothing that is released.
"""
import struct
from collections import namedtuple

import labels
import layout
from layout import Refusal
from words import plural

LONGEST = 65536
OVERLAYS = 4
LABEL = 4

# a label of a table's cell, and whose it is: the container's (None) or that of the overlay with this number
Share = namedtuple("Share", "overlay label")


def count_of(data):
    """The count of an overlay, which has no rule year: all of its 16 bits."""
    return int.from_bytes(data[:2], "little")


def parts_of(data):
    """The parts of an overlay, or None where its directory is wrong."""
    return layout.laid_parts(data, count_of(data))


def part_length(table):
    """The bytes of an overlay's part for a table's part of a container."""
    columns, _, rows = layout.header(table)
    return 4 + LABEL * rows * columns


def check_count(data, tables):
    """21 at 0: the length, the count and the room for the directory."""
    count, ends = count_of(data), layout.pair_at(len(tables))
    if len(data) > LONGEST:
        reason = f"it has more than {LONGEST:,} bytes"
    elif len(data) < 2:
        reason = f"it has {plural(len(data), 'byte')}, and its count alone needs 2"
    elif count != len(tables):
        reason = f"its count is {count:,}, and the container has {plural(len(tables), 'table')}"
    elif len(data) < ends:
        reason = f"it has {len(data):,} bytes, and the directory for {plural(count, 'table')} ends at {ends}"
    else:
        return None
    return Refusal(21, 0, reason)


def check_directory(data):
    """21 at a pair, where the count is right."""
    count = count_of(data)
    at = layout.pair_at(count)
    for table in range(count):
        offset, length = layout.pair(data, table)
        if offset != at:
            before = "the directory ends" if table == 0 else f"those of table {table - 1} end"
            return Refusal(21, layout.pair_at(table), f"the labels of table {table} are said to begin at {offset:,}, and {before} at {at:,}")
        at += length
    if at != len(data):
        reason = f"the labels of table {count - 1} are said to end at {at:,}, and the overlay ends at {len(data):,}"
        return Refusal(21, layout.pair_at(count - 1), reason)
    return None


def part_fault(part, table):
    """Why a part does not fit its table, or None."""
    columns, byte_1, rows = layout.header(table)
    if len(part) != part_length(table):
        return f"have {plural(len(part), 'byte')}, and {plural(rows, 'row')} of {plural(columns, 'column')} need {part_length(table):,}"
    named = zip(layout.header(part), (columns, byte_1, rows), ("the columns", "byte 1", "the rows"))
    wrong = [f"{got:,} and not {wanted:,} for {name}" for got, wanted, name in named if got != wanted]
    return f"have another header than the table: {', '.join(wrong)}" if wrong else None


def check_parts(parts, tables, starts):
    """21 at a part, where the directory is right."""
    for table, (part, of) in enumerate(zip(parts, tables)):
        broken = part_fault(part, of)
        if broken:
            return Refusal(21, starts[table], f"the labels of table {table} {broken}")
    return None


def label_words(part):
    """The labels of a part that fits its table, in order."""
    return [label for (label,) in struct.iter_unpack("<I", part[4:])]


def label_fault(label, is_sheet_number):
    """Why a label is refused, or None."""
    broken = labels.faults(label)
    if broken:
        return f"has the label {label:08X}: {'; '.join(broken)}"
    if is_sheet_number and label:
        return f"is a sheet number, and its label here is {labels.label_text(label)} and not zero"
    return None


def check_labels(parts, tables, starts):
    """22, where every part fits its table."""
    for table, (part, of) in enumerate(zip(parts, tables)):
        columns, sheets = of[0], layout.sheet_column(of)
        for cell, label in enumerate(label_words(part)):
            broken = label_fault(label, cell % columns == sheets)
            if broken:
                reason = f"table {table}, row {cell // columns}, column {cell % columns} {broken}"
                return Refusal(22, starts[table] + 4 + LABEL * cell, reason, label)
    return None


def check_overlay(data, tables):
    """Why an overlay is refused, or None; `tables` are the parts of the container's tables. Where there are no bytes there is no overlay."""
    if not data:
        return None
    refusal = check_count(data, tables) or check_directory(data)
    if refusal:
        return refusal
    parts = parts_of(data)
    starts = [layout.pair(data, table)[0] for table in range(len(parts))]
    return check_parts(parts, tables, starts) or check_labels(parts, tables, starts)


def check(data, overlays):
    """The refusal of the overlays of an accepted container, or None."""
    tables = layout.parts_of(data)[1:]
    for number, overlay in enumerate(overlays):
        refusal = check_overlay(overlay, tables)
        if refusal:
            return refusal._replace(reason=f"overlay {number}: {refusal.reason}")
    return None


class Labels:
    """The labels of accepted overlays, by table, row and column."""

    def __init__(self, overlays):
        parts = [(number, parts_of(overlay)) for number, overlay in enumerate(overlays) if overlay]
        self.tables = [(number, [(part[0], label_words(part)) for part in of]) for number, of in parts]

    def over(self, table, row, column):
        """The labels that are not zero, each with its overlay's number."""
        found = []
        for number, tables in self.tables:
            columns, words = tables[table]
            if words[row * columns + column]:
                found.append(Share(number, words[row * columns + column]))
        return found

    def composed(self, tables):
        """The tables with these labels composed onto their own."""
        return [
            table._replace(rows=[[self.cell(t, r, c, *cell) for c, cell in enumerate(row)] for r, row in enumerate(table.rows)])
            for t, table in enumerate(tables)
        ]

    def cell(self, table, row, column, value, label):
        for share in self.over(table, row, column):
            label = labels.composed(label, share.label)
        return value, label
