"""A seeded generator of damaged texts, outputs and containers."""
import random

WORDS = (
    "5: 5:A(sum,2) 5:A(10,sum) T(cut1,cut4) T() H+ 20030000 -1 0 00 01067 0x10 1_000 9999999999999999999999 {i} {i/0} {i*9+1} "
    "repeat repeat 3: 999999: with d=1 STEP kind=9 bytes 00 FF zeros 70000 SCAN UNION JOIN FILTER KEEP APPLY GROUP count sum avg "
    "column = <= cut band add plan table 2 part raw damage answer answers check container append truncate offset X S R 31 35 ; # "
    "NOISE draws noise N(noise) 37 sheets 20 overlay overlays labels clear . 21 22 converted convert 20020001 46 year 255 "
    "\u0663 \u00a0 ( ) , : +"
).split(" ")
CHARACTERS = "0123456789:;(),+-{}#=SRXHTAN \n\t\r\x00\u00e9\u2028"


def damaged_text(rng, text):
    """The text after one to four changes of characters, words or lines."""
    for _ in range(rng.randint(1, 4)):
        text = rng.choice((character, word, line))(rng, text)
    return text


def character(rng, text):
    at = rng.randint(0, len(text))
    change = rng.randrange(4)
    if change == 0:
        return text[:at] + rng.choice(CHARACTERS) + text[at:]
    if change == 1:
        return text[:at] + text[at + rng.randint(1, 3) :]
    if change == 2:
        return text[:at] + rng.choice(CHARACTERS) + text[at + 1 :]
    return text[:at] if rng.random() < 0.2 else text


def word(rng, text):
    """A word replaced, added or dropped."""
    lines = text.split("\n")
    at = rng.randrange(len(lines))
    words = lines[at].split(" ")
    place = rng.randrange(len(words) + 1)
    words[place : place + rng.randrange(2)] = rng.choice(([], [rng.choice(WORDS)], [rng.choice(WORDS), rng.choice(WORDS)]))
    lines[at] = " ".join(words)
    return "\n".join(lines)


def line(rng, text):
    """A line dropped, doubled, moved, or followed by a new one."""
    lines = text.split("\n")
    at, other = rng.randrange(len(lines)), rng.randrange(len(lines))
    change = rng.randrange(4)
    if change == 0:
        del lines[at]
    elif change == 1:
        lines.insert(other, lines[at])
    elif change == 2:
        lines[at], lines[other] = lines[other], lines[at]
    else:
        lines.insert(at, " ".join(rng.choice(WORDS) for _ in range(rng.randint(1, 4))))
    return "\n".join(lines)


def number(rng, text):
    """A number of a line raised, lowered or replaced."""
    lines = text.split("\n")
    at = rng.randrange(max(len(lines) - 1, 1))
    words = lines[at].split(" ")
    place = rng.randrange(len(words))
    if words[place].lstrip("-").isascii() and words[place].lstrip("-").isdigit():
        changed = rng.choice((int(words[place][:30]) + rng.choice((-1, 1, 8, 256)), rng.choice((0, 1, 7, 2**47, -(2**47)))))
        words[place] = str(changed)
    lines[at] = " ".join(words)
    return "\n".join(lines)


def damaged_output(rng, text):
    """An output after one or two changes, most of them of numbers."""
    for _ in range(rng.randint(1, 2)):
        text = rng.choice((number, number, line, character))(rng, text)
    return text


def damaged_bytes(rng, data):
    """A container after one to three changes of bytes."""
    data = bytearray(data)
    for _ in range(rng.randint(1, 3)):
        at = rng.randrange(len(data) + 1)
        change = rng.randrange(5)
        if change == 0:
            data[at:at] = bytes(rng.choice((1, 4, 12, 16)))
        elif change == 1:
            del data[at : at + rng.choice((1, 4, 12, 16))]
        else:
            data[at : at + 1] = bytes([rng.choice((0, 1, 2, 8, 255, rng.randrange(256)))])
    return bytes(data)


# Containers that pass the input checks


def value(rng):
    return rng.choice((0, 1, 2, 7, -1, 10, 99, 12345, -12345, 2**47 - 1, -(2**47), rng.randint(-20, 20)))


LABELS = (
    ["", "", "", "H", "T()", "T(add)", "T(cut2)", "T(sub,band)", "N()", "N(noise)", "A(2)", "A(sum,2)", "A(sum,3)", "A(count,2)"]
    + ["A(count,sum,min,max,avg,3)", "T(cut1)+A(sum,2)", "T(add,band)+A(avg,2)", "A(sum,2)+N()", "H+A(sum,2)", "A(min,max,2)"]
    + ["N(noise)", "A(count,sum,2)+N(noise)", "T(add,sub)+N(noise)", "A(sum,257)", "A(count,sum,9)", "A(count,sum,10)", "A(sum,avg,11)"]
)


def table(rng, labelled):
    """A table of at most eleven rows; each column has labels or none, and one may have sheet numbers."""
    columns = rng.randint(1, 4)
    cells = [labelled_cell if labelled and rng.random() < 0.4 else clear_cell for _ in range(columns)]
    begun = f"table {columns}"
    if rng.random() < 0.5:
        sheets = rng.randrange(columns)
        cells[sheets] = sheet_number
        begun += f" sheets {sheets}"
    rows = rng.choice((0, 1, 2, 3, 5, 8, 9, 10, 11))
    return columns, [begun] + ["  " + " ".join(cell(rng) for cell in cells) for _ in range(rows)]


def clear_cell(rng):
    return str(value(rng))


def labelled_cell(rng):
    label = rng.choice(LABELS)
    return f"{value(rng)}:{label}" if label else str(value(rng))


def sheet_number(rng):
    return str(rng.choice((0, 1, 2, 2, 3, 256, 2**47 - 1, *range(4, 20))))


def operand(rng, width):
    return f"column {rng.randrange(width)}" if rng.random() < 0.4 else str(value(rng))


def next_step(rng, widths, stack, noise):
    """A step that fits the widths on the stack, and the widths after it. `noise` is how often it is a NOISE."""
    if not stack or (len(stack) < 3 and rng.random() < 0.25):
        t = rng.randrange(len(widths))
        return f"SCAN {t}", stack + [widths[t]]
    if len(stack) > 1 and rng.random() < 0.5:
        left, right = stack[-2:]
        if left == right and rng.random() < 0.5:
            return "UNION", stack[:-2] + [left]
        if left + right - 1 <= 8:
            return f"JOIN {rng.randrange(left)} {rng.randrange(right)}", stack[:-2] + [left + right - 1]
    width = stack[-1]
    some = sorted(rng.sample(range(width), rng.randint(1, width)))
    if width < 8 and rng.random() < noise:
        return f"NOISE {rng.randrange(width)}", stack[:-1] + [width + 1]
    kind = rng.randrange(4)
    if kind == 0:
        return f"FILTER {rng.randrange(width)} {rng.choice(('=', '!=', '<', '<=', '>', '>='))} {operand(rng, width)}", stack
    if kind == 1 and width < 8:
        by = rng.choice((f"add {operand(rng, width)}", f"sub {operand(rng, width)}", f"cut {rng.randint(1, 6)}", f"band {rng.randint(1, 30)}"))
        return f"APPLY {rng.randrange(width)} {by}", stack[:-1] + [width + 1]
    if kind == 2 and len(some) < 8:
        keys = some[: rng.randint(0, len(some))]
        by = f"{rng.choice(('count', 'sum', 'min', 'max', 'avg'))} {rng.randrange(width)}"
        return " ".join(["GROUP", *map(str, keys), by]), stack[:-1] + [len(keys) + 1]
    return " ".join(["KEEP", *map(str, some)]), stack[:-1] + [len(some)]


def closing_step(rng, stack):
    """A step that leaves one table fewer, or a KEEP on the way to it."""
    left, right = stack[-2:]
    if left == right:
        return "UNION", stack[:-2] + [left]
    if left + right - 1 <= 8:
        return f"JOIN {rng.randrange(left)} {rng.randrange(right)}", stack[:-2] + [left + right - 1]
    return "KEEP 0", stack[:-1] + [1]


def ballots(rng):
    """A table of about ten sheets, of one row or two each, with a group minimum of about ten or less, and a plan that aggregates them."""
    sheets, rows = rng.choice((4, 8, 9, 9, 10, 11)), rng.choice((1, 1, 2))
    minimum = rng.choice((2, 3, 4, 8, 9, 10, 11))
    label = rng.choice(("A(count,sum,{})", "A(sum,{})", "A(count,sum,{})+N(noise)", "T(add)+A(count,sum,{})")).format(minimum)
    cells = [f"  {i % sheets} 7 {rng.randrange(100)}:{label}" for i in range(sheets * rows)]
    column = 3 if label.startswith("T") and rng.random() < 0.9 else 2
    plan = ["SCAN 0", *rng.choice(([], [], ["SCAN 0", "UNION"])), *(["APPLY 2 add 1"] * (column - 2))]
    plan.append(f"GROUP 1 {rng.choice(('count', 'sum', 'sum', 'avg'))} {column}")
    plan += rng.choice(([], [], ["FILTER 1 >= 0"], ["KEEP 0"], ["NOISE 1"], ["APPLY 0 add column 1"], ["GROUP 1 count 0"]))
    return [f"  {step}" for step in plan], [["table 3" + rng.choice(("", " sheets 0")), *cells]]


def right_lines(rng, name, noise, years):
    """The lines of a container of one of these rule years that passes the input checks, and the lines of each of its tables."""
    plan, tables = ballots(rng) if rng.random() < 0.3 else any_plan(rng, noise)
    lines = [f"container {name}", "# generated", f"year {rng.choice(years)}", "plan", *plan]
    return lines + sum(tables, []), tables


def any_plan(rng, noise):
    """The lines of a plan, and those of each of its tables."""
    tables = [table(rng, rng.random() < 0.8) for _ in range(rng.randint(1, 3))]
    widths = [columns for columns, _ in tables]
    plan, stack = [], []
    for _ in range(rng.randint(1, 8)):
        step, stack = next_step(rng, widths, stack, noise)
        plan.append(f"  {step}")
    while len(stack) > 1:
        step, stack = closing_step(rng, stack)
        plan.append(f"  {step}")
    return plan, [rows for _, rows in tables]


def right_text(rng, name, noise=0.05, years=(0, 1)):
    """The text of a container of one of these rule years that passes the input checks."""
    return "\n".join(right_lines(rng, name, noise, years)[0]) + "\n"


def labels_for(rng, table):
    """The lines of an overlay's part for the table of these lines. Few cells have a label, and no sheet number."""
    begun, *rows = table
    _, columns, *sheets = begun.split()
    often = rng.choice((0, 0.1, 0.5))

    def label(column):
        labelled = sheets[1:] != [str(column)] and rng.random() < often
        return rng.choice(LABELS) or "." if labelled else "."

    return ["labels", *("  " + " ".join(label(column) for column in range(int(columns))) for _ in rows)]


def overlay_for(rng, tables):
    """The lines of an overlay for tables: empty, right, or, now and then, with a byte or its end wrong."""
    if rng.random() < 0.3:
        return ["overlay"]
    lines = ["overlay", *(line for table in tables for line in labels_for(rng, table))]
    if rng.random() < 0.1:
        at = rng.randrange(2 + 12 * len(tables))
        lines += ["damage", rng.choice((f"  bytes {at} {rng.randrange(256):02X}", f"  truncate {at}", "  append 00"))]
    return lines


def overlaid_text(rng, name):
    """The text of a right container with up to four overlays, and of the same with the overlays in reverse order, under the name 'reversed'."""
    lines, tables = right_lines(rng, name, 0.05, (0, 1))
    overlays = [overlay_for(rng, tables) for _ in range(4)]
    texts = [[*lines, *sum(overlays, [])], ["container reversed", *lines[1:], *sum(reversed(overlays), [])]]
    return "answers overlays\n" + "".join("\n".join(text) + "\n" for text in texts)


def earlier(rng, data, at):
    """A container whose labels, at these offsets, have a minimum of 1 in place of 2, now and then, and that is damaged now and then."""
    data = bytearray(data)
    for place in at:
        if data[place] == 2 and rng.random() < 0.6:
            data[place] = 1
    return damaged_bytes(rng, bytes(data)) if rng.random() < 0.3 else bytes(data)


def draws(rng):
    """A list of draws, most of them small."""
    return [rng.choice((0, 1, -1, rng.randint(-9, 9), 2**47, -(2**47), 2**63 - 1, -(2**63))) for _ in range(rng.choice((0, 1, 2, 5, 9, 40)))]


def seeded(seed):
    return random.Random(seed)
