"""Goals in words: what is needed in the names of the program, what is known of it, and a hint."""
from .forms import in_words, variables_of
from .tokens import column_of, line_of, shown

MOST_KNOWN = 6
MOST_HINTS = 2

GAVE_NOTHING = {
    "!=": "where `{text}` holds (line {line}) nothing more is known, since it says less or greater: test with `<` or `>`",
    "==": "where `{text}` fails (line {line}) nothing more is known, since that says less or greater: test with `<` or `>`",
    "or": "where `{text}` holds (line {line}) nothing more is known, since either side may: test one thing at a time",
    "and": "where `{text}` fails (line {line}) nothing more is known, since either side may: test one thing at a time",
}

CAUSES = {
    "if int": "the `if` in line {line} changes `{who}` and no `join` names it, so what was known of it is forgotten: add `join {{k: int | ..}} ({of})`",
    "if array": "the `if` in line {line} changes `{who}` and no `join` names it, so its length is forgotten: add `join {{m: nat | ..}} ({of})`",
    "while int": "the loop in line {line} changes `{who}` and no `with` names it, so nothing is known of it at the head: add `with {{k: int | ..}} ({of})`",
    "while array": "the loop in line {line} assigns `{who}` and no `with` names it, so its length is forgotten: add `with {{m: nat | ..}} ({of})`",
    "quotient": "what is known of `{of}` follows from what is known of the number that is divided: say more of that, or test the quotient",
    "quotient by a variable": "nothing is known of `{of}`, since its divisor is no number that is written out: test the quotient",
    "remainder": "of `{of}` it is known that it is at least 0 and less than the divisor",
    "product": "nothing is known of `{of}`, since neither side is a number that is written out: test the product",
    "large": "nothing is known of `{of}`, since its numbers are too large for a form",
    "element": "nothing is known of an element but what its cell type says: test it, or declare a cell type with a row",
    "result": "of `{of}` only what the function's result says is known: say more there, as `: {{m: int | ..}} int(m)`",
    "tuple": "of the parts only what the tuple's type says is known: say more there",
}

SORTS = {
    "call": "test it before the call, or ask for it in front of the parameters of this function",
    "join": "a `join` has to hold behind each branch, and where the test fails if there is no `else`: say less in it, or set the variable so that it holds",
    "entry": "a `with` has to hold before the first time too: say less in it, or begin with a value that meets it",
    "back": "a `with` has to hold again at the end of the body: it may say too much, or too little to be kept (add what the body keeps)",
    "result": "test it before the `return`, or promise less in the result's type",
    "part": "test it before, or ask for less in the type",
    "cell": "test it before, or ask for less in the cell type",
}


def names_of(goal, variables):
    """A name for each variable: its quantifier's where no other has it too, else its number."""
    names = [goal.about[key].name for key in variables]
    return {key: name if name and names.count(name) == 1 else f"v{key}" for key, name in zip(variables, names)}


def related(goal):
    """The known rows that speak of the goal's variables, the most telling ones first."""
    wanted = set(variables_of(goal.row))
    rows = [row for row in goal.rows if wanted & set(variables_of(row))]
    return sorted(rows, key=lambda row: len(set(variables_of(row)) - wanted))[:MOST_KNOWN]


def needed(goal):
    rows = related(goal)
    variables = sorted({key for row in [goal.row] + rows for key in variables_of(row)})
    names = names_of(goal, variables)
    lines = [f"needed: {in_words(goal.row, names.get)}"]
    known = ", ".join(in_words(row, names.get) for row in rows) if rows else "nothing of it"
    where = "; ".join(f"{names[key]} is {goal.about[key].words}" for key in variables)
    return lines + [f"known: {known}"] + ([f"where: {where}"] if where else [])


def hints_of(goal):
    variables = set(variables_of(goal.row))
    abouts = [goal.about[key] for key in sorted(variables) if goal.about[key].cause in CAUSES]
    found = [CAUSES[about.cause].format(of=about.of, who=about.of.split(":")[0], line=about.line) for about in abouts]
    found += [GAVE_NOTHING[reason].format(text=text, line=line) for reason, text, line, spoken in goal.weak if variables & spoken]
    if goal.test and not found:
        return [f"nothing on the way here says so: test it, as `if ({goal.test}) {{ .. }}`, or ask for it in a quantifier"]
    return found[:MOST_HINTS] or [SORTS.get(goal.sort, "")]


def explained_goal(path, source, number, at, answer, goal):
    """The lines for a goal that is not proved; `goal` is None where nothing but its line is known."""
    place = f"{path}:{line_of(source, at)}:{column_of(source, at)}"
    says = f": {goal.says}" if goal else ""
    lines = [f"{place}: goal {number} is {answer}{says}"] + ["  " + line for line in shown(source, at)]
    if goal:
        lines += ["  " + line for line in needed(goal)] + [f"  hint: {hint}" for hint in hints_of(goal) if hint]
    return lines
