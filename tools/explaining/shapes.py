"""Faults of shape in words."""
from .kinds import kind_fault
from .tokens import Token, line_of, tokens_of
from .tree import Refused, tree_of

NOTHING = Token("end", "", 0, 0)


class Place:
    """The token of a fault with its neighbours, and the source's tokens and tree."""

    def __init__(self, source, at):
        self.source, self.tokens = source, tokens_of(source)
        self.number = next((number for number, token in enumerate(self.tokens) if token.at == at), len(self.tokens) - 1)
        self.at, self.tree = at, tree_of(self.tokens)

    def near(self, by):
        place = self.number + by
        return self.tokens[place] if 0 <= place < len(self.tokens) else NOTHING

    def text(self):
        return self.near(0).text

    def sort(self):
        """What a name at this place names."""
        if self.near(0).kind == "upper":
            return "type"
        if self.at in self.tree.index_names:
            return "index variable"
        return "function" if self.near(1).text == "(" and self.near(-1).text != "let" else "variable"

    def declared(self):
        """The line of the last declaration of the variable before the place, or None."""
        found = [token for before, token in zip(self.tokens, self.tokens[1:]) if token.text == self.text() and before.text == "var" and token.at < self.at]
        return line_of(self.source, found[-1].at) if found else None


def twice(place):
    if place.near(-1).text == "var":
        return f"a variable `{place.text()}` can be seen here already", f"to change it, write `{place.text()} = ..` without `var`; else take another name"
    return f"`{place.text()}` is declared a second time", "take another name"


def unknown(place):
    sort, line = place.sort(), place.declared()
    what = f"no {sort} `{place.text()}` is known here"
    if sort == "variable":
        seen = f"it is declared in line {line}, but can be seen only behind its declaration, up to the end of its block"
        return what, seen if line else f"declare it before, as `var {place.text()} = ..;`"
    if sort == "index variable":
        return what, f"declare it in a quantifier, as `{{{place.text()}: int}}`, in front of the parameters, the type or the clause that it stands in"
    return what, f"declare it: `{'type' if sort == 'type' else 'fun'} {place.text()}` .. anywhere in the source"


ADVICE = {
    ("a truth value", "a number"): "compare, as `x > 0`",
    ("a number", "a truth value"): "truth values are tested, not computed with",
}


def other_kind(place):
    found = kind_fault(place.tree, place.at)
    if not found:
        return "what begins here is of another kind than is asked for", "kinds are number, truth value, array of some cells, and each tuple type"
    what = f"{found.who} asks for {found.wanted}, but here is {found.given}"
    if place.text() == "return":
        return what, "a function with the result `unit` has `return;`, any other `return e;`"
    if found.given == "nothing":
        return what, "a function with the result `unit` gives no value: call it as a statement"
    if found.wanted == "an array":
        return what, "only arrays have cells and a length"
    return what, ADVICE.get((found.wanted, found.given), "kinds are number, truth value, array of some cells, and each tuple type")


def wrong_number(place):
    if place.text() == "let":
        return "`let` has another number of names than the tuple has parts", "name each part"
    nodes = [node for node in place.tree.functions + place.tree.types if node.name == place.text()]
    count = len(nodes[0].parameters if nodes[0].kind == "fun" else nodes[0].parts)
    return f"`{place.text()}` takes {count} argument{'' if count == 1 else 's'}", "give as many"


def outside_test(place):
    return f"`{place.text()}` stands only in the test of an `if` or `while`", "use an `if`: `var b = false; if (x && y) { b = true; }`"


def useless_binder(place):
    name = place.text()
    return f"the index variable `{name}` stands nowhere alone as an index behind its quantifier", \
        f"its value has to be met somewhere, as `int({name})` or `int[{name}]`; `int({name} + 1)` is not enough"


def cell_type(place):
    return f"`{place.text()}` is a cell type, a name for what cells hold, and no type of variables", "write its type out, or declare a tuple type, with parentheses"


def no_return(place):
    return f"the function `{place.near(1).text}` can come to its end without a `return`", \
        "end it with a `return`; behind a loop too, and behind an `if` one of whose branches goes on"


def not_reached(place):
    return "nothing comes to this statement, since the one before it never goes on", "take it out"


def no_main(place):
    return "there is no function `main`", "a run begins there: `fun main(): int { .. }`"


def wrong_main(place):
    if place.near(1).text == ":":
        return f"`main` cannot have the parameter `{place.text()}`", "its parameters are numbers, truth values and arrays of numbers"
    return "the result of `main` is no number", "it is `int`, or `int(e)`"


SHAPES = {
    1: twice, 2: unknown, 3: other_kind, 4: wrong_number, 5: outside_test, 6: useless_binder, 7: cell_type, 8: no_return, 9: not_reached, 10: no_main, 11: wrong_main,
}


def shape_fault(source, number, at):
    """What a fault of shape says in words, and a hint."""
    try:
        return SHAPES[number](Place(source, at))
    except (KeyError, IndexError, Refused):
        return f"a fault of shape {number}", "docs/language.md, \"Faults of shape\", says what it is"
