"""The steps of a plan: records of 16 bytes, their text, and what is wrong with one; defined in crates/records/specs."""
import re
import struct
from collections import namedtuple

from console import quoted
from labels import AGGREGATES, TRANSFORMS
from words import Fault, choice, number

KINDS = ("", "SCAN", "UNION", "JOIN", "FILTER", "KEEP", "APPLY", "GROUP", "NOISE")
SCAN, UNION, JOIN, FILTER, KEEP, APPLY, GROUP, NOISE = range(1, 9)
COMPARISONS = ("=", "!=", "<", "<=", ">", ">=")
BAND, CUT = TRANSFORMS.index("band"), TRANSFORMS.index("cut")
LEAST, MOST = -(2**47), 2**47 - 1
LENGTH = 16

Record = namedtuple("Record", "kind a b c d spare constant", defaults=(0,) * 7)


def unpack(data):
    kind, a, b, c, d = data[:5]
    return Record(kind, a, b, c, d, int.from_bytes(data[5:8], "little"), struct.unpack("<q", data[8:])[0])


def pack(step):
    return bytes(step[:5]) + step.spare.to_bytes(3, "little") + struct.pack("<q", step.constant)


def columns_of(mask):
    return [i for i in range(8) if mask >> i & 1]


# What is wrong with a record (17)


def unused(step, names):
    """Of the fields named, the first that is not zero."""
    for name in names:
        if getattr(step, name) != 0:
            return f"{name} is {getattr(step, name)}, and this step does not use it, so it is zero"
    return None


def operand_fault(step):
    """FILTER's second operand, and that of add and sub: the constant, or column d."""
    if step.c == 0:
        if not LEAST <= step.constant <= MOST:
            return f"the constant {step.constant} is out of the range of values"
        return unused(step, ["d"])
    if step.c == 1:
        return unused(step, ["constant"])
    return f"c is {step.c}, and it is 0 for the constant or 1 for a column"


def apply_fault(step):
    if step.b > BAND:
        return f"operation {step.b} does not exist; they are 0 add, 1 sub, 2 cut, 3 band"
    if step.b not in (CUT, BAND):
        return operand_fault(step)
    name, most = ("cut", 6) if step.b == CUT else ("band", MOST)
    if step.c != 0:
        return f"{name} takes a constant, so c is zero and not {step.c}"
    if not 1 <= step.constant <= most:
        return f"the constant of {name} is 1 to {most:,} and not {step.constant:,}"
    return unused(step, ["d"])


def filter_fault(step):
    if step.b >= len(COMPARISONS):
        return f"comparison {step.b} does not exist; they are 0 to 5"
    return operand_fault(step)


def keep_fault(step):
    return "it keeps no column" if step.a == 0 else unused(step, ["b", "c", "d", "constant"])


def group_fault(step):
    if step.b >= len(AGGREGATES):
        return f"aggregate {step.b} does not exist; they are 0 count, 1 sum, 2 min, 3 max, 4 avg"
    return unused(step, ["d", "constant"])


FAULTS = {
    SCAN: lambda step: unused(step, ["b", "c", "d", "constant"]),
    UNION: lambda step: unused(step, ["a", "b", "c", "d", "constant"]),
    JOIN: lambda step: unused(step, ["c", "d", "constant"]),
    FILTER: filter_fault,
    KEEP: keep_fault,
    APPLY: apply_fault,
    GROUP: group_fault,
    NOISE: lambda step: unused(step, ["b", "c", "d", "constant"]),
}


def fault(step):
    """Why a record is no step, or None."""
    if step.spare != 0:
        return "one of its bytes 5 to 7 is not zero"
    if step.kind not in FAULTS:
        return f"kind {step.kind} does not exist; they are 1 to 8"
    return FAULTS[step.kind](step)


# From text


def misspelt(name, words, *forms):
    """The fault of a step whose words are too few, too many or in another order."""
    written = " or ".join(f"'{form}'" for form in forms)
    return Fault(f"{quoted(' '.join([name, *words]))}: {name} is written as in {written}")


def byte(word, what="the column"):
    return number(word, 0, 255, what)


def mask(words):
    columns = [number(word, 0, 7, "the column") for word in words]
    if columns != sorted(set(columns)):
        raise Fault(f"columns rise, each once, and {' '.join(words)} do not")
    return sum(1 << column for column in columns)


def operand(words):
    """The fields of '5' or 'column 2', or None."""
    if len(words) == 2 and words[0] == "column":
        return {"c": 1, "d": byte(words[1])}
    return {"constant": number(words[0], what="the constant")} if len(words) == 1 else None


def scan_fields(words):
    if len(words) != 1:
        raise misspelt("SCAN", words, "SCAN 0")
    return {"a": byte(words[0], "the table")}


def union_fields(words):
    if words:
        raise misspelt("UNION", words, "UNION")
    return {}


def join_fields(words):
    if len(words) != 2:
        raise misspelt("JOIN", words, "JOIN 0 1")
    return {"a": byte(words[0]), "b": byte(words[1])}


def filter_fields(words):
    second_operand = operand(words[2:])
    if second_operand is None:
        raise misspelt("FILTER", words, "FILTER 1 >= 5", "FILTER 1 < column 2")
    return {"a": byte(words[0]), "b": choice(words[1], COMPARISONS, "comparison"), **second_operand}


def keep_fields(words):
    return {"a": mask(words)}


def apply_fields(words):
    second_operand = operand(words[2:])
    if second_operand is None:
        raise misspelt("APPLY", words, "APPLY 1 cut 3", "APPLY 0 add column 1")
    return {"a": byte(words[0]), "b": choice(words[1], TRANSFORMS, "operation"), **second_operand}


def group_fields(words):
    if len(words) < 2 or not words[-2].isalpha():
        raise misspelt("GROUP", words, "GROUP 0 1 sum 2", "GROUP count 0")
    return {"a": mask(words[:-2]), "b": choice(words[-2], AGGREGATES, "aggregate"), "c": byte(words[-1])}


def noise_fields(words):
    if len(words) != 1:
        raise misspelt("NOISE", words, "NOISE 1")
    return {"a": byte(words[0])}


FIELDS = {
    "SCAN": scan_fields,
    "UNION": union_fields,
    "JOIN": join_fields,
    "FILTER": filter_fields,
    "KEEP": keep_fields,
    "APPLY": apply_fields,
    "GROUP": group_fields,
    "NOISE": noise_fields,
}


def wide(word, bits, what):
    """A number of so many bits in what is meant to be wrong: it may have hexadecimal digits behind 0x."""
    if re.fullmatch("0x[0-9A-Fa-f]{1,8}", word):
        word = str(int(word, 16))
    return number(word, 0, 2**bits - 1, what)


def assignments(words):
    """Fields named one by one, as 'kind=4 a=1'."""
    fields = {}
    for word in words:
        name, equals, value = word.partition("=")
        if name not in Record._fields or not equals or name in fields:
            raise Fault(f"{quoted(word)} is no field with its number, each once; the fields are {' '.join(Record._fields)}")
        if name == "spare":
            fields[name] = wide(value, 24, "spare")
        else:
            fields[name] = number(value, what="the constant") if name == "constant" else byte(value, name)
    return fields


def from_words(words):
    """The record that the words of a step say."""
    if not words:
        raise Fault("a step is missing beside ';'")
    if words[0] == "STEP":
        return Record(**assignments(words[1:]))
    if "with" in words:
        at = words.index("with")
        return from_words(words[:at])._replace(**assignments(words[at + 1 :]))
    kind = choice(words[0], KINDS[1:], "step") + 1
    return Record(kind=kind, **FIELDS[words[0]](words[1:]))


# To text


def second(step):
    return f"column {step.d}" if step.c == 1 else str(step.constant)


def words_for(step):
    """The words of a right record, or of one that has a name for its kind and its choice."""
    kind, a, b, c = step[:4]
    if kind == FILTER:
        return f"FILTER {a} {COMPARISONS[b]} {second(step)}"
    if kind == KEEP:
        return " ".join(["KEEP", *map(str, columns_of(a))])
    if kind == APPLY:
        return f"APPLY {a} {TRANSFORMS[b]} {second(step)}"
    if kind == GROUP:
        return " ".join(["GROUP", *map(str, columns_of(a)), AGGREGATES[b], str(c)])
    return {SCAN: f"SCAN {a}", UNION: "UNION", JOIN: f"JOIN {a} {b}", NOISE: f"NOISE {a}"}[kind]


def text(step):
    """A step in words, or field by field where it is not one."""
    if fault(step) is None:
        return words_for(step)
    values = step._replace(spare=f"0x{step.spare:06x}")
    return " ".join(["STEP", *(f"{name}={value}" for name, value in zip(Record._fields, values))])


def described(step):
    """A step in a sentence."""
    kind, a, b, c = step[:4]
    if fault(step) is not None:
        return f"{KINDS[kind]}, a wrong record" if kind in FAULTS else f"a record of kind {kind}"
    if kind == JOIN:
        return f"JOIN of left column {a} with right column {b}"
    if kind == FILTER:
        return f"FILTER for rows whose column {a} {COMPARISONS[b]} {second(step)}"
    if kind == KEEP:
        return f"KEEP of column{'s' * (len(columns_of(a)) > 1)} {', '.join(map(str, columns_of(a)))}"
    if kind == APPLY:
        return f"APPLY of {TRANSFORMS[b]} {second(step)} to column {a}"
    if kind == GROUP:
        keys = columns_of(a)
        by = f"by column{'s' * (len(keys) > 1)} {', '.join(map(str, keys))}" if keys else "of all rows"
        return f"GROUP {by}, {AGGREGATES[b]} of column {c}"
    return {SCAN: f"SCAN of table {a}", UNION: "UNION", NOISE: f"NOISE on column {a}"}[kind]
