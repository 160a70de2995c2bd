"""The label, one 32-bit word: its fields, its rules, its text, and what it asks for; defined in crates/label/specs."""
import functools
import re

from console import quoted
from words import Fault, number, plural

STAGES = "HTAN"
TRANSFORMS = ("add", "sub", "cut", "band")  # allowed at T: bits 24 to 27
AGGREGATES = ("count", "sum", "min", "max", "avg")  # allowed at A: bits 16 to 20
RESERVED = (22, 21, 15, 14, 13)
LEAST_MINIMUM = 2  # the smallest group minimum
EARLIER_MINIMUM = 1  # the smallest one in containers that the program convert reads
FLOOR = 10  # each smaller one is read as this under rule year 1 (#108)


def field(word, at, width):
    return word >> at & (1 << width) - 1


def has(word, stage):
    return word >> (31 - STAGES.index(stage)) & 1 == 1


def stages(word):
    """The stages present, the highest first."""
    return [stage for stage in STAGES if has(word, stage)]


def highest(word):
    return (stages(word) or [""])[0]


def digits(word):
    return field(word, 10, 3)


def minimum(word):
    return field(word, 0, 10)


def transforms(word):
    """The operations allowed at T."""
    return [name for i, name in enumerate(TRANSFORMS) if word >> (24 + i) & 1]


def aggregates(word):
    """The aggregates allowed at A."""
    return [name for i, name in enumerate(AGGREGATES) if word >> (16 + i) & 1]


# Well-formed words


def faults(word, least=LEAST_MINIMUM):
    """The rules that a word breaks, in sentences; none where it is well-formed. `least` is the smallest group minimum."""
    ones = [str(bit) for bit in RESERVED if word >> bit & 1]
    found = [f"bits 22, 21, 15, 14 and 13 are zero, and here {', '.join(ones)} {'is' if len(ones) == 1 else 'are'} not"] if ones else []
    if transforms(word) and not has(word, "T"):
        found.append(f"it allows {', '.join(transforms(word))} at T, and T (bit 30) is absent")
    if "cut" in transforms(word) and not 1 <= digits(word) <= 6:
        found.append(f"it allows cut with {digits(word)} digits, and these are 1 to 6")
    if digits(word) and "cut" not in transforms(word):
        found.append(f"it has digits, {digits(word)}, and cut (bit 26) is not allowed")
    if aggregates(word) and not has(word, "A"):
        found.append(f"it allows {', '.join(aggregates(word))} at A, and A (bit 29) is absent")
    if has(word, "A") and minimum(word) < least:
        found.append(f"A is present with a group minimum of {minimum(word)}, and this is {least} to 1,023")
    if minimum(word) and not has(word, "A"):
        found.append(f"it has a group minimum, {minimum(word)}, and A (bit 29) is absent")
    if allows_noise(word) and not has(word, "N"):
        found.append("it allows noise at N, and N (bit 28) is absent")
    return found


def has_earlier_minimum(word):
    """Whether a word is ill-formed for its group minimum of 1 alone, which was allowed before."""
    return bool(faults(word)) and not faults(word, EARLIER_MINIMUM)


# Discharge and composition


def without_t(word):
    return word & ~(1 << 30 | 15 << 24 | 7 << 10)


def without_a(word):
    return word & ~(1 << 29 | 31 << 16 | 1023)


def without_n(word):
    return word & ~(1 << 28 | 1 << 23)


def allows_transform(word, operation, cut_digits):
    """T allows the operation: 0 add, 1 sub, 2 cut of so many digits, 3 band."""
    return word >> (24 + operation) & 1 == 1 and (TRANSFORMS[operation] != "cut" or digits(word) <= cut_digits)


def allows_aggregate(word, operation):
    return word >> (16 + operation) & 1 == 1


def allows_noise(word):
    return word >> 23 & 1 == 1


def forbids_t(word):
    return highest(word) == "H"


def forbids_a(word):
    return highest(word) in ("H", "T")


def forbids_n(word):
    return highest(word) in ("H", "T", "A")


def after_t(word, operation, cut_digits):
    """The label that an operation of level T leaves."""
    return without_t(word) if highest(word) == "T" and allows_transform(word, operation, cut_digits) else word


def after_a(word, operation, sheets):
    """The label that an aggregate over so many sheets leaves."""
    enough = allows_aggregate(word, operation) and minimum(word) <= sheets
    return without_a(word) if highest(word) == "A" and enough else word


def after_n(word):
    """The label that noise leaves."""
    return without_n(word) if highest(word) == "N" and allows_noise(word) else word


def composed(a, b):
    """The composition of two labels: a stage that one has is kept, of one that both have the stricter fields count."""
    whole = (a | b) & 15 << 28
    both = a & b
    whole |= both & 15 << 24 if has(both, "T") else (a | b) & 15 << 24
    whole |= both & 1 << 23 if has(both, "N") else (a | b) & 1 << 23
    whole |= both & 31 << 16 if has(both, "A") else (a | b) & 31 << 16
    cut_kept = whole >> 26 & 1
    whole |= (max(digits(a), digits(b)) if cut_kept else 0) << 10
    return whole | max(minimum(a), minimum(b))


# The floor of ten


def below_floor(word):
    """Whether a label has a group minimum that rule year 1 reads as ten."""
    return has(word, "A") and minimum(word) < FLOOR


def floored(word):
    """A label as rule year 1 reads it."""
    return word - minimum(word) + FLOOR if below_floor(word) else word


# Text


def stage_text(word, stage):
    if stage == "H":
        return "H"
    if stage == "T":
        return "T(" + ",".join(f"cut{digits(word)}" if name == "cut" else name for name in transforms(word)) + ")"
    if stage == "A":
        return "A(" + ",".join(aggregates(word) + [str(minimum(word))]) + ")"
    return "N(noise)" if allows_noise(word) else "N()"


def label_text(word):
    """The stages of a well-formed word, or the hexadecimal digits of another."""
    if word == 0 or faults(word):
        return f"{word:08X}"
    return "+".join(stage_text(word, stage) for stage in stages(word))


def operation_bits(stage, operation):
    """The bits of one operation in the brackets of a stage."""
    cut = re.fullmatch("cut([1-6])", operation)
    if stage == "T" and cut:
        return 1 << 26 | int(cut[1]) << 10
    if stage == "T" and operation in ("add", "sub", "band"):
        return 1 << (24 + TRANSFORMS.index(operation))
    if stage == "A" and operation in AGGREGATES:
        return 1 << (16 + AGGREGATES.index(operation))
    if stage == "N" and operation == "noise":
        return 1 << 23
    if stage == "T" and operation.startswith("cut"):
        raise Fault(f"{quoted(operation)} is not cut1 to cut6, cut with the digits that it must take off")
    known = {"T": "add, sub, cut1 to cut6 and band", "A": "count, sum, min, max and avg", "N": "noise alone"}
    raise Fault(f"{quoted(operation)} is no operation of {stage}, which has {known[stage]}")


def minimum_bits(stage_name, inside):
    """The group minimum, the last word in the brackets of A."""
    word = inside[-1]
    if not re.fullmatch("-?[0-9]+", word):
        numbers = [one for one in inside if re.fullmatch("[0-9]+", one)]
        problem = f"the group minimum {numbers[0]} does not stand last" if numbers else "there is no group minimum"
        raise Fault(f"in {quoted(stage_name)} {problem}; A(sum,10) asks for a sum over at least 10 sheets")
    return number(word, LEAST_MINIMUM, 1023, "the group minimum")


def stage_word(text):
    """The bits of one stage, as T(add,cut3) or A(sum,20)."""
    if text == "":
        raise Fault("a stage is missing beside '+'")
    if text[0] not in STAGES:
        raise Fault(f"{quoted(text)} is no stage; the stages are H, T(..), A(..) and N(..)")
    stage, bits = text[0], 1 << (31 - STAGES.index(text[0]))
    if stage == "H":
        if text != "H":
            raise Fault(f"{quoted(text)} is no stage; H stands alone, and stages are joined by '+'")
        return bits
    m = re.fullmatch(r".\(([^()]*)\)", text)
    if not m:
        raise Fault(f"{quoted(text)} is no stage; {stage} has one pair of brackets, and stages are joined by '+'")
    inside = m[1].split(",") if m[1] else []
    if stage == "A":
        bits |= minimum_bits(text, inside or [""])
        inside = inside[:-1]
    names = [re.sub("[1-6]$", "", one) if one.startswith("cut") else one for one in inside]
    for one, name in zip(inside, names):
        if one == "":
            raise Fault(f"in {quoted(text)} an operation is missing beside a comma")
        bits |= operation_bits(stage, one)
        if names.count(name) > 1:
            raise Fault(f"in {quoted(text)} {name} stands twice")
    return bits


@functools.lru_cache(maxsize=4096)
def label_word(text):
    """A label as eight hexadecimal digits, or its stages joined by '+'."""
    if re.fullmatch("[0-9A-Fa-f]{8}", text):
        return int(text, 16)
    if text == "":
        raise Fault("there is no label")
    if re.fullmatch("(0[xX])?[0-9A-Fa-f]+", text) and text not in STAGES:
        raise Fault(f"{quoted(text)} is no label; a label has eight hexadecimal digits, or stages as A(sum,2)")
    words = [stage_word(stage) for stage in text.split("+")]
    for one, following in zip(words, words[1:]):
        if one >> 28 == following >> 28:
            raise Fault(f"in {quoted(text)} {highest(one)} stands twice")
        if one >> 28 < following >> 28:
            raise Fault(f"in {quoted(text)} {highest(following)} stands behind {highest(one)}; the order is H, T, A, N")
    return sum(words)


# What a label asks for


def either(names):
    return names[0] if len(names) == 1 else f"{', '.join(names[:-1])} or {names[-1]}"


def applications(word):
    """The operations that T allows, as words of an APPLY."""
    return [f"cut by at least {plural(digits(word), 'digit')}" if name == "cut" else name for name in transforms(word)]


def aggregation(word):
    """The aggregates that A allows, as words of a GROUP."""
    return f"{either(aggregates(word))} over at least {plural(minimum(word), 'sheet')}"


def removal(word, stage):
    """The steps that remove T or A, in words."""
    return either([f"APPLY {name}" for name in applications(word)]) if stage == "T" else f"GROUP with {aggregation(word)}"


def asks(word, stage):
    """What a stage of a label asks for."""
    text = stage_text(word, stage)
    if stage == "H":
        return "no step removes H, so no APPLY, GROUP or NOISE may use the cell, and it is never released"
    if stage == "T" and transforms(word):
        return f"{text} asks for an APPLY of {either(applications(word))}"
    if stage == "A" and aggregates(word):
        return f"{text} asks for a GROUP with {aggregation(word)}"
    if stage == "N" and allows_noise(word):
        return f"{text} asks for a NOISE"
    return f"{text} allows nothing, so no step removes it, and neither the cell nor what is made of it is released"


def removable(word, stage):
    """Whether some step can remove the stage, once it is the highest."""
    return bool({"H": False, "T": transforms(word), "A": aggregates(word), "N": allows_noise(word)}[stage])


def explained(word):
    """A label in sentences."""
    if word == 0:
        return ["00000000 is the label of a clear cell: it may be compared, computed with and released."]
    if faults(word):
        conversion = ["A container that was written when 1 was allowed may have it: the program convert raises it to 2."] * has_earlier_minimum(word)
        return [f"{word:08X} is ill-formed: {fault}." for fault in faults(word)] + conversion
    lines, present = [f"{word:08X} is {label_text(word)}."], stages(word)
    for i, stage in enumerate(present):
        lines.append(f"{'Then' if i else 'First'} {stage}: {asks(word, stage)}.")
        if not removable(word, stage):
            below = present[i + 1 :]
            return lines + ([f"What stands below is never reached: {', '.join(below)}."] if below else [])
    return lines + ["What these steps make is clear and may be released. The cell itself keeps its label."]
