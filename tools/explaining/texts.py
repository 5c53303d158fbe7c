"""Refusals of `dtal verify` in words."""
from .tokens import column_of, line_of, shown

REGISTERS = "registers are r0 to r15, slots s0 to s239"
FORMS = {
    "dtal": "`dtal 1`", "type": "`type {N|rows} cell T` or `type {N|rows} tuple T ..`", "fun": "`fun NAME {N|rows} (T ..) {N|rows} T`",
    "label": "`label N {N|rows} [PLACE:T ..]`", "end": "`end`", "by": "`by LINE;LINE..`, a line `h ROW`, `g`, `c I N I N` or `t N I`",
    "li": "`li rD NUMBER`", "lb": "`lb rD 0` or `lb rD 1`", "mv": "`mv P Q`", "add": "`add rD rA rB`", "sub": "`sub rD rA rB`", "mul": "`mul rD rA rB`",
    "div": "`div rD rA rB`", "mod": "`mod rD rA rB`", "set": "`set C rD rA rB`, C one of lt le eq ne", "br": "`br C rA rB L {..}`, C one of lt le eq ne",
    "bt": "`bt rA L {..}`", "bf": "`bf rA L {..}`", "jmp": "`jmp L {..}`", "call": "`call F P (Q ..)`", "ret": "`ret P`", "len": "`len rD rA`",
    "ld": "`ld rD rA rI`", "st": "`st rA rI rV`", "new": "`new rD T rN rV`", "tup": "`tup P T (Q ..)`", "untup": "`untup T Q (P ..)`", "print": "`print rA`",
}
JUMPS = ("br", "bt", "bf", "jmp")

RULES = {
    "name": "an earlier function has this name",
    "main": "no function is called `main`, or its parameters and result are of other kinds: parameters are int, bool or arr(0,..), the result is int",
    "target": "there is no such label in this function, or no such function",
    "type": "there is no such type (0 is int, 1 is bool, the written ones count from 2), or a cell type stands where a tuple type has to",
    "place": "a place is read that need not hold anything, or a place is listed twice",
    "count": "there are more or fewer arguments, or parts, than the function or type has",
    "kind": "a place holds another kind (int, bool, arr, tup) or another type number than is asked for; on a jump also nothing",
    "alone": "an index variable stands nowhere alone as an index behind its quantifier, so that no value could be found for it",
    "edge": "the jump lists a variable that is one of the function's header or none of the label's, or a label has fewer variables than the header",
    "form": "a row or an index names a variable that is not there, or a form that is needed passes its bounds",
    "size": "there are more than 1,024 index variables, or more than 512 rows",
    "lines": "the `by` lines are not one for each row that is owed here and not known, in order, each proving its row",
}
HINTS = {
    "place": "a function begins with its parameters in r0, r1, ..; behind a label only the places listed there hold something, and a call leaves only what was there",
    "target": "labels are numbered 1, 2, .. within a function, functions from 0 in the order of the text",
    "lines": "each `by` belongs to the instruction above it; the owed rows are listed in docs/dtal.md",
}


class Function:
    """The lines of a function by their numbers: its header, its labels and its instructions."""

    def __init__(self, header):
        self.header, self.labels, self.instructions = header, [], []


def lines_by_place(text):
    """The numbers of the type lines, and the functions."""
    types, functions = [], []
    for number, line in enumerate(text.split(b"\n"), 1):
        word = line.split(b" ")[0]
        if word == b"fun":
            functions.append(Function(number))
        elif word == b"type" and not functions:
            types.append(number)
        elif word == b"label" and functions:
            functions[-1].labels.append(number)
        elif word not in (b"by", b"end", b"dtal", b"") and functions:
            functions[-1].instructions.append(number)
    return types, functions


def numbers_in(where):
    return [int(word) for word in where.split() if word.isdigit()]


def line_of_place(text, where):
    """The number of the line that `type P`, `function F`, `function F label L`, `function F instruction I` or `program` names; None where there is none."""
    types, functions = lines_by_place(text)
    numbers = numbers_in(where)
    try:
        if where.startswith("type"):
            return types[numbers[0] - 2]
        if where == "program":
            return next((function.header for function in functions if text.split(b"\n")[function.header - 1].startswith(b"fun main ")), None)
        function = functions[numbers[0]]
        return function.header if len(numbers) == 1 else function.labels[numbers[1] - 1] if " label " in where else function.instructions[numbers[1]]
    except IndexError:
        return None


def explained_refusal(path, text, where, rule):
    number = line_of_place(text, where)
    place = f"{path}:{number}" if number else path
    says = RULES.get(rule, "docs/dtal.md says what this rule asks for")
    if where == "program" and number is None:
        says = "no function is called `main`"
    lines = [f"{place}: refused ({where}), rule {rule}: {says}"]
    if number:
        start = sum(len(line) + 1 for line in text.split(b"\n")[:number - 1])
        lines += ["  " + shown(text, start)[0]]
    return lines + ([f"  hint: {HINTS[rule]}"] if rule in HINTS else [])


def text_hint(text, at):
    """What a line of this kind looks like, or what is commonly wrong with a byte."""
    byte, first = text[at:at + 1], text.rfind(b"\n", 0, at) + 1
    word = text[first:].split(b"\n")[0].split(b" ")[0].decode("latin1")
    if byte == b"\r":
        return "lines end with a newline alone, without a carriage return"
    if byte == b"" and not text.endswith(b"end\n"):
        return "the text ends too early: the last function ends with a line `end` and its newline"
    if byte in (b" ", b"\t"):
        return "single spaces stand between words, and none in front or at the end of a line"
    if word in FORMS:
        return f"such a line is {FORMS[word]}; {REGISTERS}"
    return "a line begins with one of: " + " ".join(sorted(FORMS))


def explained_text_fault(path, text, at):
    place = f"{path}:{line_of(text, at)}:{column_of(text, at)}"
    stands = f"the byte `{chr(text[at])}`" if at < len(text) and 32 <= text[at] < 127 else "this byte" if at < len(text) else "the end"
    return [f"{place}: up to here a text could go on, but not with {stands}"] + ["  " + line for line in shown(text, at)] + [f"  hint: {text_hint(text, at)}"]
