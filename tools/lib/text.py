"""The text form of containers. docs/CONTAINER.md describes it."""
import contextlib
import os
import re
import struct
from bisect import bisect_right

import labels
import layout
import overlays
import steps
from console import Failure, plain, quoted, read_file
from words import Fault, choice, number, plural

# Bounds, so that every text is read in little time and memory.
LONGEST_TEXT = 4 * 2**20  # bytes of a text
LONGEST_LINE = 4096  # characters of a line
MOST_REPEATED = 1000  # lines that one 'repeat' stands for
LONGEST_MADE = 2 * layout.LONGEST  # bytes of a container or an overlay, a wrong one too
MOST_DAMAGE = 100  # directives for a container or an overlay
LONGEST_OF_ALL = 16 * 2**20  # bytes of all containers of a text, 1,024 for each, and characters of repeated lines, 64 for each

SECTIONS = ("plan", "table", "part", "raw", "damage", "draws", "overlay", "labels", "converted", "answer")
# answers of the input checks, of a run with the container alone, with the draws of a section, and with overlays, and of the conversion
FORMS = ("check", "run", "noise", "overlays", "convert")
ONLY_IN = {"draws": "noise", "overlay": "overlays", "converted": "convert"}  # sections that stand in texts of one form alone
DRAWS = ".draws"  # behind a container's name, the file of its draws
OVERLAYS = tuple(f".overlay{number}" for number in range(overlays.OVERLAYS))  # the files of its overlays
CONVERTED = ".converted"  # the file of what it is converted to
LONGEST_DRAW = 21  # bytes of its lines
INPUT = "1[1-9]|20"  # refusals of a container because of the input
PAIRS = "pairs of hexadecimal digits, as in '00 FF'"
TABLES_ALONE = "behind 'converted' stand tables, and then the answer"


@contextlib.contextmanager
def at_line(line):
    """Puts the line's number to a fault that has none."""
    try:
        yield
    except Fault as fault:
        if fault.line is None:
            fault.line = line
        raise


class Budget:
    """What a text may still make, in bytes and characters."""

    def __init__(self):
        self.left = LONGEST_OF_ALL

    def take(self, count):
        self.left -= count
        if self.left < 0:
            raise Fault(f"the text makes more than {LONGEST_OF_ALL:,} bytes and repeated characters to here")


# Lines


def counted(text, i):
    """The text with each {i}, {i*3+1} and so on replaced. '/' is the quotient, rounded down; operations go left to right."""

    def value(match):
        inside = re.fullmatch(r"i((?:[-+*/%][0-9]{1,9}){0,9})", match[1])
        if not inside:
            raise Fault(f"{quoted(match[0])} is not i with at most 9 operations by numbers of at most 9 digits, as in {{i*3+1}}")
        n = i
        for sign, digits in re.findall(r"([-+*/%])([0-9]+)", inside[1]):
            by = int(digits)
            if sign in "/%" and by == 0:
                raise Fault(f"{quoted(match[0])} divides by 0")
            n = {"+": n + by, "-": n - by, "*": n * by, "/": n // (by or 1), "%": n % (by or 1)}[sign]
            if abs(n) >= 2**63:
                raise Fault(f"{quoted(match[0])} becomes too large")
        return str(n)

    return re.sub(r"\{([^{}]*)\}", value, text)


def repeated(line, budget):
    """The lines that 'repeat N: LINE' stands for, or the line itself."""
    if line.split(None, 1)[0] != "repeat" and not line.startswith("repeat:"):
        if "{" in line:
            raise Fault("'{' stands only in a line behind 'repeat N: '")
        return [line]
    m = re.fullmatch(r"repeat ([0-9]+): +(\S.*)", line)
    if not m:
        raise Fault(f"{quoted(line)}: a repetition is written 'repeat N: LINE', with a space behind the colon")
    if m[2].startswith("repeat"):
        raise Fault("a repetition does not stand in another one")
    times = number(m[1], 0, MOST_REPEATED, "the number of lines")
    budget.take(times * (len(m[2]) + 64))
    return [counted(m[2], i) for i in range(times)]


def hex_bytes(words):
    wrong = [word for word in words if not re.fullmatch("[0-9A-Fa-f]{2}", word)]
    if wrong or not words:
        raise Fault(f"{quoted(' '.join(wrong[:1]))} is no byte; bytes are {PAIRS}")
    return bytes(int(word, 16) for word in words)


def zeros_or_bytes(words):
    if words[:1] != ["zeros"]:
        return hex_bytes(words)
    if len(words) != 2:
        raise Fault(f"{quoted(' '.join(words))}: zeros is written as in 'zeros 15'")
    return bytes(number(words[1], 0, LONGEST_MADE, "the number of zeros"))


def whole_label(text):
    """Sees that a label was not cut by a space."""
    if text.count("(") != text.count(")"):
        raise Fault(f"{quoted(text)} has a bracket without its other one; a label has no spaces")


def cell_bytes(text):
    """A cell: its value, or its value, a colon and its label."""
    value, colon, label = text.partition(":")
    if colon and not label:
        forms = f"a clear cell is {quoted(value)}, a labelled one '5:A(sum,2)'"
        raise Fault(f"{quoted(text)} has a colon and no label right behind it; {forms}")
    if colon and not value:
        raise Fault(f"{quoted(text)} has no value before its colon")
    whole_label(text)
    return struct.pack("<qI", number(value, what="the value"), labels.label_word(label) if colon else 0)


def label_bytes(text):
    """A label of an overlay: a point for zero, or a label as a cell has it."""
    whole_label(text)
    return struct.pack("<I", 0 if text == "." else labels.label_word(text))


def cell_text(value, label):
    return f"{value}:{labels.label_text(label)}" if label else str(value)


def table_header(words):
    """The columns and byte 1 of a table that is begun by these words: 'table 2', or 'table 2 sheets 0'."""
    if len(words) != 2 and (len(words) != 4 or words[2] != "sheets"):
        sheets = "with sheet numbers in its column 0 'table 2 sheets 0'"
        raise Fault(f"a table is begun by 'table' and its number of columns, as in 'table 2', and {sheets}")
    columns = number(words[1], 0, 255, "the number of columns")
    return columns, 0 if len(words) == 2 else number(words[3], 0, 254, "the column of sheet numbers") + 1


# A container and its overlays


class Part:
    """A part as the text gives it: its bytes, of a table those behind its header, and the lines that they come from."""

    def __init__(self, section, line, columns=None, byte_1=0):
        self.section, self.line, self.columns, self.byte_1 = section, line, columns, byte_1
        self.body, self.rows, self.places = bytearray(), 0, []

    def add(self, data, line, budget):
        budget.take(len(data))
        if not self.places or self.places[-1][1] != line:
            self.places.append((len(self.body), line))
        self.body += data
        if len(self.body) > LONGEST_MADE:
            raise Fault(f"this part has more than {LONGEST_MADE:,} bytes")

    def add_row(self, words, line, budget):
        """A row of a table: its cells."""
        row = b"".join(map(cell_bytes, words))
        if len(words) != self.columns:
            raise Fault(f"a row of {plural(len(words), 'cell')} in a table of {plural(self.columns, 'column')}")
        if self.rows == 65535:
            raise Fault("this table has more than 65,535 rows")
        self.add(row, line, budget)
        self.rows += 1

    def header(self):
        return b"" if self.columns is None else struct.pack("<BBH", self.columns, self.byte_1, self.rows)

    def made(self):
        return self.header() + self.body

    def line_of(self, place):
        """The line that the byte at a place of the part comes from."""
        if place < len(self.header()) or not self.places:
            return self.line
        return self.places[bisect_right(self.places, (place - len(self.header()), 2**62)) - 1][1]


class Labels(Part):
    """A part of an overlay: the labels of a table, whose header it has."""

    def __init__(self, line, table):
        super().__init__("labels", line)
        self.table = table

    def add_row(self, words, line, budget):
        row = b"".join(map(label_bytes, words))
        if len(words) != self.table.columns:
            raise Fault(f"a row of {plural(len(words), 'label')} for a table of {plural(self.table.columns, 'column')}")
        self.add(row, line, budget)

    def header(self):
        return self.table.header()


class Whole:
    """What a text makes of parts or gives as a whole, and then damages: a container, or an overlay of one."""

    kind, most_parts = "container", 255

    def __init__(self, name, first_table, budget):
        """`first_table` is the part of table 0."""
        self.name, self.first_table, self.budget = name, first_table, budget
        self.parts, self.raw, self.damage, self.year = [], None, [], None

    # Reading

    def begin_raw(self, line):
        if self.parts or self.raw is not None:
            raise Fault(f"'raw' is the whole {self.kind}, so there is no other part")
        if self.year is not None:
            raise Fault("'raw' is the whole container, so there is no line 'year'")
        self.raw = Part("raw", line)

    def add_part(self, part):
        if self.raw is not None:
            raise Fault(f"'raw' is the whole {self.kind}, so there is no other part")
        if len(self.parts) == self.most_parts:
            raise Fault(f"there are more than {self.most_parts:,} parts")
        self.parts.append(part)

    def add(self, section, line, count):
        """Adds a line to the section that was begun."""
        if section == "raw":
            self.raw.add(zeros_or_bytes(line.split()), count, self.budget)
        elif section == "damage":
            self.damage.append((count, line.split()))
            if len(self.damage) > MOST_DAMAGE:
                raise Fault(f"there are more than {MOST_DAMAGE} lines of damage")
        else:
            for one in repeated(line, self.budget):
                self.add_to_part(self.parts[-1], one, count)

    def add_to_part(self, part, line, count):
        words = line.split()
        if words[0] == "bytes":
            part.add(hex_bytes(words[1:]), count, self.budget)
        elif words[0] == "zeros":
            part.add(zeros_or_bytes(words), count, self.budget)
        elif part.section == "plan":
            for step in line.split(";"):
                part.add(steps.pack(steps.from_words(step.split())), count, self.budget)
        elif part.section == "part":
            raise Fault("a section 'part' has lines 'bytes 00 FF' and 'zeros 15' alone")
        else:
            part.add_row(words, count, self.budget)

    # Making

    def made_wrong(self):
        """Whether the text marks it as wrong by what it is made of."""
        return bool(self.raw is not None or self.damage or any(part.section == "part" for part in self.parts))

    def made(self):
        """The bytes."""
        whole = bytearray(self.raw.body) if self.raw is not None else self.assembled()
        for line, words in self.damage:
            with at_line(line):
                whole = self.damaged(whole, words)
        if len(whole) > LONGEST_MADE:
            raise Fault(f"{self.name} has more than {LONGEST_MADE:,} bytes")
        return bytes(whole)

    def assembled(self):
        parts = [part.made() for part in self.parts]
        at = layout.pair_at(len(parts))
        whole = bytearray(struct.pack("<H", len(parts) + 256 * (self.year or 0)))
        for part in parts:
            whole += struct.pack("<II", at, len(part))
            at += len(part)
        return whole + b"".join(parts)

    def starts(self):
        """Where each part begins."""
        at, starts = layout.pair_at(len(self.parts)), []
        for part in self.parts:
            starts.append(at)
            at += len(part.made())
        return starts

    def line_in(self, place):
        """The line that the byte at a place of the parts comes from."""
        starts = self.starts()
        part = bisect_right(starts, place) - 1
        return self.parts[part].line_of(place - starts[part])

    # Damage

    def damaged(self, whole, words):
        """The bytes after one directive of the section 'damage'."""
        if words[0] not in DIRECTIVES:
            raise Fault(f"{quoted(words[0])} is no damage; there are {' '.join(DIRECTIVES)}")
        count, change = DIRECTIVES[words[0]]
        if not (len(words) - 1 == count if count else len(words) > 1):
            raise Fault(f"{words[0]} has {'words' if not count else plural(count, 'number')} behind it")
        changed = change(self, whole, *words[1:])
        if len(changed) > LONGEST_MADE:
            raise Fault(f"{self.name} has more than {LONGEST_MADE:,} bytes")
        return changed

    def header_at(self, table):
        """Where the header of a table begins."""
        starts = self.starts()[self.first_table :]
        if not starts:
            raise Fault(f"{self.name} has no table")
        return starts[number(table, 0, len(starts) - 1, "the table")]


class Overlay(Whole):
    """An overlay of a text."""

    kind, most_parts = "overlay", 65535

    def __init__(self, number, line, budget):
        super().__init__(f"overlay {number}", 0, budget)
        self.line = line

    def begin_labels(self, words, line, tables):
        """Begins the labels of the next table of the container."""
        if words[1:] not in ([], ["clear"]):
            raise Fault("labels are begun by 'labels', or as a whole given by 'labels clear'")
        at = len(self.parts)
        if at >= len(tables) or tables[at].columns is None:
            raise Fault(f"there is no section 'table' for table {at}, whose labels these would be")
        self.add_part(Labels(line, tables[at]))
        if words[1:]:
            self.parts[-1].add(bytes(overlays.LABEL * tables[at].rows * tables[at].columns), line, self.budget)

    def made(self):
        """The bytes; none where there is nothing of the overlay."""
        return super().made() if self.parts or self.made_wrong() else b""

    def line_of(self, refusal):
        return self.line_in(refusal.place) if refusal.place >= layout.pair_at(len(self.parts)) else self.line


class Converted(Whole):
    """What a container of a text is converted to: the same plan, and tables of its own."""

    def __init__(self, line, plan, budget):
        super().__init__("what it is converted to", 1, budget)
        self.line, self.parts = line, [plan]


class Source(Whole):
    """A container of a text, with its draws, its overlays or what it is converted to, and its answer; `rules` are what its checks go by."""

    def __init__(self, name, line, budget, rules):
        super().__init__(name, 1, budget)
        self.line, self.rules = line, rules
        self.comments, self.answer, self.answered, self.draws, self.overlays, self.converted = [], [], False, None, [], None

    # Reading

    def target(self):
        """What the sections 'table', 'part', 'raw' and 'damage' are of: the container, the overlay that was begun last, or what is converted."""
        return self.overlays[-1] if self.overlays else self.converted or self

    def take_year(self, words, section):
        """Takes the line 'year N'."""
        if section is not None:
            raise Fault("'year' stands before the first section")
        if len(words) != 2:
            raise Fault("a rule year is written as in 'year 1'")
        if self.year is not None:
            raise Fault(f"{self.name} has its rule year already")
        self.year = number(words[1], 0, 255, "the rule year")

    def begin(self, words, line):
        """Begins the section that a line names."""
        section = words[0]
        if section in ("plan", "table") and self.overlays:
            raise Fault("the plan and the tables stand before the overlays")
        if self.converted and section not in ("table", "answer"):
            raise Fault(TABLES_ALONE)
        if section == "table":
            self.target().add_part(Part("table", line, *table_header(words)))
        elif section == "labels":
            if not self.overlays:
                raise Fault("'labels' stands only behind 'overlay'")
            self.overlays[-1].begin_labels(words, line, self.parts[1:])
        elif len(words) != 1:
            raise Fault(f"the section '{section}' is begun by a line with this word alone")
        elif section == "plan" and self.parts:
            raise Fault("the plan is the first part, and there is one")
        elif section in ("plan", "part"):
            self.target().add_part(Part(section, line))
        elif section == "raw":
            self.target().begin_raw(line)
        elif section == "overlay":
            if len(self.overlays) == overlays.OVERLAYS:
                raise Fault(f"a container has at most {overlays.OVERLAYS} overlays")
            self.overlays.append(Overlay(len(self.overlays), line, self.budget))
        elif section == "converted":
            if not self.parts:
                raise Fault("'converted' stands behind the plan and the tables")
            self.converted = Converted(line, self.parts[0], self.budget)
        elif section == "answer":
            self.answered = True
        elif section == "draws":
            if self.draws is not None:
                raise Fault(f"{self.name} has its draws already")
            self.draws = []

    def add_line(self, section, line, count):
        """Adds a line to the section that was begun."""
        if section == "answer":
            self.answer += repeated(line, self.budget)
        elif section == "draws":
            words = [word for one in repeated(line, self.budget) for word in one.split()]
            self.budget.take(LONGEST_DRAW * len(words))
            self.draws += [number(word, what="the draw") for word in words]
        elif section == "overlay":
            raise Fault("an overlay has sections 'labels', one for each table of the container")
        elif section == "converted":
            raise Fault(TABLES_ALONE)
        elif section is None:
            raise Fault(f"{quoted(line)} stands before the first section; sections are {' '.join(SECTIONS)}")
        else:
            self.target().add(section, line, count)

    # Making

    def refused_with(self, numbers):
        """Whether the answer says that the input is refused with one of these numbers."""
        return bool(self.answer and re.fullmatch(f"X ({numbers}) [0-9]+", self.answer[0]))

    def made(self):
        """The container's bytes."""
        if not self.comments:
            raise Fault(f"{self.name} has no comment, a line with # that says what it shows")
        if self.raw is None and not self.parts:
            raise Fault(f"{self.name} has no plan")
        whole = super().made()
        if not (self.made_wrong() or self.refused_with(INPUT)):
            self.check(whole)
        return whole

    def made_draws(self):
        """The bytes of the file of draws."""
        if self.draws is None:
            raise Fault(f"{self.name} has no section 'draws', which may be empty")
        return "".join(f"{draw}\n" for draw in self.draws).encode()

    def made_overlay(self, number):
        """The bytes of an overlay, which may be none. One that is not marked as wrong passes its checks."""
        if number >= len(self.overlays):
            return b""
        overlay, container = self.overlays[number], super().made()
        made = overlay.made()
        if not (overlay.made_wrong() or self.refused_with("21|22")) and layout.check(container) is None:
            refusal = overlays.check_overlay(made, layout.parts_of(container)[1:])
            if refusal:
                raise unmarked(refusal, f"{overlay.name}: {refusal.reason}", overlay.line_of(refusal))
        return made

    def made_converted(self):
        """The bytes of what the container is converted to; none where that is refused."""
        if not self.answered:
            raise Fault(f"{self.name} has no section 'answer', which may be empty")
        if self.refused_with(INPUT):
            if self.converted:
                raise Fault(f"{self.name} is refused, so there is no section 'converted'")
            return b""
        before = super().made()
        after = self.converted.made() if self.converted else before
        with at_line(self.converted.line if self.converted else self.line):
            see_changed(before, after, [number(line, 0, layout.LONGEST - 1, "the offset") for line in self.answer])
        return after

    def check(self, data):
        """A container that is not marked as wrong passes the input checks."""
        if self.parts[0].section != "plan":
            raise Fault(f"{self.name} has no plan; its section comes before the tables")
        if len(self.parts) == 1:
            raise Fault(f"{self.name} has no table")
        refusal = layout.check(data, self.rules)
        if refusal:
            raise unmarked(refusal, refusal.reason, self.line_of(refusal))

    def line_of(self, refusal):
        if refusal.number < 13:
            return self.line
        if refusal.number == 16:
            return self.parts[0].line
        if refusal.number in (17, 18, 19):
            return self.parts[0].line_of(refusal.place - self.starts()[0])
        return self.line_in(refusal.place)


def unmarked(refusal, reason, line):
    """The fault of what the monitor would refuse, though the text does not say so."""
    fault = Fault(f"{reason} ({refusal.number} at byte {refusal.place}; what is meant to be wrong says so in its section 'answer')")
    fault.line = line
    return fault


def see_changed(before, after, offsets):
    """Sees that a container and what it is converted to differ at these offsets alone, by a 1 that becomes 2, and that no 1 is left."""
    if len(before) != len(after):
        raise Fault(f"the container has {len(before):,} bytes, and what it is converted to {len(after):,}")
    changed = [at for at, (one, two) in enumerate(zip(before, after)) if one != two]
    if changed != offsets:
        said, seen = (", ".join(map(str, some[:8])) + ", .." * (len(some) > 8) or "none" for some in (offsets, changed))
        raise Fault(f"the offsets of its answer are {said}, and those of the bytes that change are {seen}")
    if any((before[at], after[at]) != (1, 2) for at in changed):
        raise Fault("a byte changes otherwise than from 1 to 2")
    refusal = layout.check(after)
    if refusal:
        raise Fault(f"what it is converted to is refused with {refusal.number} at byte {refusal.place}: {refusal.reason}")


def put(whole, at, new):
    if at + len(new) > len(whole):
        raise Fault(f"byte {at + len(new) - 1:,} is past the end")
    whole[at : at + len(new)] = new
    return whole


def damage_pair(where):
    def change(source, whole, part, value):
        at = layout.pair_at(number(part, 0, 65534, "the part")) + where
        return put(whole, at, struct.pack("<I", steps.wide(value, 32, "the number")))

    return change


def damage_columns(source, whole, table, value):
    return put(whole, source.header_at(table), bytes([steps.wide(value, 8, "the byte")]))


def damage_rows(source, whole, table, value):
    return put(whole, source.header_at(table) + 2, struct.pack("<H", steps.wide(value, 16, "the number")))


def damage_bytes(source, whole, at, *pairs):
    return put(whole, number(at, 0, LONGEST_MADE, "the offset"), hex_bytes(pairs))


# each directive with the numbers that stand behind it (None: at least one word) and what it does
DIRECTIVES = {
    "count": (1, lambda source, whole, value: put(whole, 0, struct.pack("<H", steps.wide(value, 16, "the number")))),
    "offset": (2, damage_pair(0)),
    "length": (2, damage_pair(4)),
    "columns": (2, damage_columns),
    "rows": (2, damage_rows),
    "bytes": (None, damage_bytes),
    "truncate": (1, lambda source, whole, length: whole[: number(length, 0, len(whole), "the length")]),
    "append": (None, lambda source, whole, *words: whole + zeros_or_bytes(list(words))),
}


# A whole text


class Text:
    """The containers of a text, and whether their answers are those of the input checks, or of a run, and with what."""

    def __init__(self, path):
        self.path, self.form, self.sources, self.section = path, "run", [], None
        self.names, self.budget = set(), Budget()
        for count, line in enumerate(lines_of(path), 1):
            self.guarded(count, lambda: self.line(line.strip(" \t\r"), count))
        if not self.sources:
            raise Failure(f"{plain(path)}: there is no container in it")

    def guarded(self, line, act):
        """What `act` answers; a fault of it becomes the script's own line."""
        try:
            with at_line(line):
                return act()
        except Fault as fault:
            raise Failure(f"{plain(self.path)}:{fault.line}: {fault}") from None

    def line(self, line, count):
        if not line:
            return
        if line.startswith("#"):
            if self.sources:
                self.sources[-1].comments.append(line[1:].strip())
            return
        if len(line) > LONGEST_LINE:
            raise Fault(f"this line has more than {LONGEST_LINE:,} characters")
        strange = re.search(r"[^\t -~]", line)
        if strange:
            raise Fault(f"the character U+{ord(strange[0]):04X} stands outside a comment")
        self.words(line, line.split(), count)

    def words(self, line, words, count):
        if words[0] == "answers":
            self.begin_answers(words)
        elif words[0] == "container":
            self.begin_container(words, count)
        elif not self.sources:
            raise Fault(f"{quoted(line)} stands before the first line 'container NAME'")
        elif words[0] == "year":
            self.sources[-1].take_year(words, self.section)
        elif words[0] in SECTIONS:
            if ONLY_IN.get(words[0], self.form) != self.form:
                raise Fault(f"'{words[0]}' stands only in a text that begins with 'answers {ONLY_IN[words[0]]}'")
            self.sources[-1].begin(words, count)
            self.section = words[0]
        else:
            self.sources[-1].add_line(self.section, line, count)

    def begin_answers(self, words):
        if self.sources or len(words) != 2:
            raise Fault("'answers check', 'run', 'noise', 'overlays' or 'convert' stands before the first container")
        choice(words[1], FORMS, "kind of answers")
        self.form = words[1]

    def begin_container(self, words, count):
        if len(words) != 2 or not re.fullmatch("[a-z0-9_]{1,100}", words[1]):
            form = "'container' and one name of a to z, 0 to 9 and _, of at most 100 characters"
            raise Fault(f"{quoted(' '.join(words))}: a container is begun by {form}")
        if words[1] in self.names:
            raise Fault(f"there is another container '{words[1]}'")
        self.budget.take(1024)
        self.names.add(words[1])
        rules = layout.CONVERT if self.form == "convert" else layout.MONITOR
        self.sources.append(Source(words[1], count, self.budget, rules))
        self.section = None

    def file_names(self):
        """The names of all files: each container's, and behind it those of its draws, its overlays or what it is converted to."""
        ends = ("", *{"noise": (DRAWS,), "overlays": OVERLAYS, "convert": (CONVERTED,)}.get(self.form, ()))
        return [source.name + end for source in self.sources for end in ends]

    def files(self):
        """Each file's name and bytes."""
        files = {}
        for source in self.sources:
            files[source.name] = self.guarded(source.line, source.made)
            if self.form == "noise":
                files[source.name + DRAWS] = self.guarded(source.line, source.made_draws)
            if self.form == "overlays":
                for number, end in enumerate(OVERLAYS):
                    files[source.name + end] = self.guarded(source.line, lambda: source.made_overlay(number))
            if self.form == "convert":
                files[source.name + CONVERTED] = self.guarded(source.line, source.made_converted)
        return files

    def expected(self):
        """The answers, as the trial programs print them."""
        lines = []
        for source in self.sources:
            if not (source.answer or self.form == "convert" and source.answered):
                raise Failure(f"{plain(self.path)}:{source.line}: {source.name} has no answer")
            if self.form == "check":
                lines.append(f"{source.name} {' '.join(source.answer)}")
            else:
                lines += [source.name, *source.answer]
        return "".join(f"{line}\n" for line in lines)


def lines_of(path):
    data = read_file(path, LONGEST_TEXT)
    if len(data) > LONGEST_TEXT:
        raise Failure(f"{plain(path)}: it has more than {LONGEST_TEXT:,} bytes")
    try:
        return data.decode("utf-8-sig").split("\n")
    except UnicodeDecodeError as error:
        line = data.count(b"\n", 0, error.start) + 1
        raise Failure(f"{plain(path)}:{line}: byte {error.start:,} is not UTF-8, so this is no text") from None


# From bytes to text


def lines_of_bytes(data, word=""):
    return [f"  {word}{data[i : i + 32].hex(' ')}" for i in range(0, len(data), 32)]


def shown_plan(part):
    whole = len(part) // steps.LENGTH * steps.LENGTH
    plan = [f"  {steps.text(step)}" for step in layout.plan_of(part)]
    return ["plan", *plan, *lines_of_bytes(part[whole:], "bytes ")]


def shown_table(part):
    if len(part) < 4:
        return ["part", *lines_of_bytes(part, "bytes ")]
    columns, _, rows = layout.header(part)
    if columns == 0 or len(part) != 4 + layout.CELL * rows * columns:
        return ["part", *lines_of_bytes(part, "bytes ")]
    sheets = layout.sheet_column(part)
    every = [cell_text(*cell) for cell in layout.cells(part)]
    rows_shown = ["  " + " ".join(every[k : k + columns]) for k in range(0, len(every), columns)]
    return [f"table {columns}" + ("" if sheets is None else f" sheets {sheets}"), *rows_shown]


def shown_labels(part, table):
    """The part of an overlay for a table."""
    if overlays.part_fault(part, table):
        return ["part", *lines_of_bytes(part, "bytes ")]
    every = ["." if label == 0 else labels.label_text(label) for label in overlays.label_words(part)]
    if set(every) <= {"."}:
        return ["labels clear"]
    return ["labels", *("  " + " ".join(every[k : k + part[0]]) for k in range(0, len(every), part[0]))]


def shown_overlay(data, tables):
    """An overlay of a container with these tables, or with none that are right."""
    if not data:
        return ["overlay"]
    parts = overlays.parts_of(data)
    if parts is None or len(parts) != len(tables):
        return ["overlay", "raw", *lines_of_bytes(data)]
    return ["overlay", *(line for part, table in zip(parts, tables) for line in shown_labels(part, table))]


def shown_container(data):
    parts = layout.parts_of(data)
    if parts is None:
        return ["raw", *lines_of_bytes(data)]
    year = [f"year {layout.rule_year(data)}"] * (layout.rule_year(data) != 0)
    return year + shown_plan(parts[0]) + [line for part in parts[1:] for line in shown_table(part)]


def read_made(path, kind):
    """The bytes of a file that may be a container or an overlay."""
    data = read_file(path, LONGEST_MADE)
    if len(data) > LONGEST_MADE:
        raise Failure(f"{plain(path)}: it has more than {LONGEST_MADE:,} bytes, so it is no {kind}")
    return data


def shown(path, *overlay_paths):
    """A container's file as text, with its overlays; what the checks refuse is marked as wrong by its answer."""
    data, over = read_made(path, "container"), [read_made(one, "overlay") for one in overlay_paths]
    name = re.sub("[^a-z0-9_]", "_", os.path.basename(path).lower())[:100] or "_"
    lines = (["answers overlays"] if over else []) + [f"container {name}", f"# {plural(len(data), 'byte')}"]
    refused = layout.check(data)
    tables = [] if refused else layout.parts_of(data)[1:]
    refusal = refused or overlays.check(data, over)
    if refusal:
        lines.append(f"# Refused with {refusal.number} at byte {refusal.place}: {refusal.reason}.")
        lines += [f"# {one[0].upper()}{one[1:]}." for one in [layout.conversion(data, refusal)] if one]
    lines += shown_container(data)
    for overlay in over:
        lines += shown_overlay(overlay, tables)
    if refusal:
        lines += ["answer", f"  X {refusal.number} {refusal.place}"]
    return "".join(f"{line}\n" for line in lines)
