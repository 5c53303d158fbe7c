"""The goals of a source, each with what it asks for in words.

This is a second reading of the rules by which `xanadu goals` makes them, for words alone: it decides nothing. An explanation uses the words of a goal only
where its number, place and row agree with the program's line."""
from .forms import constant, fits, is_constant, minus, plus, put_in, times, variable, variables_of
from .packed import Header, declarations, index_of, pack, text_of, with_index
from .tokens import line_of


class Limit(Exception):
    """A form that is needed passes its bounds."""


class Variable:
    """What an index variable stands for: its name where a quantifier of a function or a clause has one, how it came to be, and of what."""

    def __init__(self, name, words, cause="", of="", line=0):
        self.name, self.words, self.cause, self.of, self.line = name, words, cause, of, line


class Goal:
    """A demanded row: what sort of demand it is, in words too, a test that would give it, the rows that are known, and the tests on the way that gave none."""

    def __init__(self, at, row, sort, says, test, context, about):
        self.at, self.row, self.sort, self.says, self.test = at, row, sort, says, test
        self.rows, self.weak, self.about = list(context.rows), list(context.weak), about


class Context:
    """The rows that are known, and the tests on the way that gave no row: each its reason, its text, its line and its variables."""

    def __init__(self, rows, weak):
        self.rows, self.weak = rows, weak

    def with_rows(self, rows):
        context = Context(list(self.rows), self.weak)
        for row in rows:
            context.add(row)
        return context

    def knows(self, row):
        return is_constant(row) and row[None] >= 0 or row in self.rows

    def add(self, row):
        if fits(row) and not self.knows(row):
            self.rows.append(row)

    def weaker(self, *test):
        return Context(list(self.rows), self.weak + [test])


class State:
    """What a join or a loop's head begins with; `packed` is its clause, where it has one."""

    def __init__(self, node, context, types, indices):
        self.node, self.context, self.types, self.indices, self.packed = node, context, dict(types), indices, None

    def named(self):
        return {part.name for part in self.node.clause.variables} if self.node.clause else set()


def changed_by(statements):
    """The variables that statements assign, or that a clause within them names."""
    found = set()
    for node in statements:
        if node.kind == "set" and not node.declares:
            found.add(node.name)
        if node.kind in ("if", "while"):
            found |= {part.name for part in node.clause.variables} if node.clause else set()
            found |= changed_by(node.body if node.kind == "while" else node.on_true + node.on_false)
    return found


class Walk:
    """The walk through a function: the index variables so far, what is known, the types of the visible variables and the index names."""

    def __init__(self, source, declared, headers, goals):
        self.source, self.declared, self.headers, self.goals = source, declared, headers, goals
        self.about, self.context, self.types, self.indices, self.header, self.compared = [], Context([], []), {}, {}, None, set()

    def text(self, node):
        return text_of(self.source, node)

    def line(self, at):
        return line_of(self.source, at)

    def fresh(self, *about):
        self.about.append(Variable(*about))
        return variable(len(self.about) - 1)

    def demand(self, at, row, sort, says, test=""):
        if not fits(row):
            raise Limit
        if not self.context.knows(row):
            self.goals.append(Goal(at, row, sort, says, test, self.context, self.about))

    def function(self, node):
        self.header = self.headers[node.name]
        self.indices = self.header.indices
        self.declare(self.header.parameters, [part.name for part in node.parameters], "the parameter `{}`")
        self.context = Context([], []).with_rows(row for row, _ in self.header.parameters.rows)
        self.types = {part.name: type for part, type in zip(node.parameters, self.header.parameters.types)}
        self.block(node.body)

    def declare(self, packed, names, where):
        """Makes the variables of a header or a clause: those that are written, then those of bare types. Each is the index of some parameter or variable."""
        for own in packed.own():
            place = next(place for place, type in enumerate(packed.types) if index_of(type) == variable(own))
            length = "the length of " if packed.types[place][0] == "array" else ""
            name = packed.names[own - packed.first] if own - packed.first < len(packed.names) else None
            self.fresh(name, length + where.format(names[place]))

    # Matches.

    def matched(self, packed, present):
        """The values of the variables, and the demanded rows: each with the place of its type and `most` or `least`, or with its text."""
        values = {}
        for own in packed.own():
            places = [place for place, type in enumerate(packed.types) if index_of(type) == variable(own)]
            values[own] = index_of(present[places[0]]) if places else constant(0)
        rows = []
        for place, type in enumerate(packed.types):
            if index_of(type) is not None:
                wanted, have = put_in(index_of(type), values), index_of(present[place])
                rows += [(minus(wanted, have), place, "at most"), (minus(have, wanted), place, "at least")] if wanted != have else []
        return values, rows + [(put_in(row, values), None, text) for row, text in packed.rows]

    def demand_match(self, at, packed, present, sort, who, parts):
        """`who` asks for the rows; `parts` has, for each type, the words for what is matched and its wanted type."""
        values, rows = self.matched(packed, present)
        for row, place, text in rows:
            if place is None:
                says = f"{who} asks for `{text}`" if text != "a length is at least 0" else f"{who}: {text}"
            else:
                what, wanted = parts[place]
                says = f"{what} is {text} what {wanted} asks for"
            self.demand(at, row, sort, says)
        return values

    def parts(self, packed, words, nodes, wanted):
        """For each type the words `the length of X` or `X`, and the text of the wanted type."""
        lengths = ["the length of " if type[0] == "array" else "" for type in packed.types]
        return [(f"{length}{what} `{self.text(node)}`", want) for length, what, node, want in zip(lengths, words, nodes, wanted)]

    def put(self, type, values):
        form = index_of(type) and put_in(index_of(type), values)
        if form and not fits(form):
            raise Limit
        return with_index(type, form)

    def unpack(self, name, whole, words, cause, line):
        """The types of the parts of a declared type; the part of a cell that is a tuple is that tuple."""
        packed, is_tuple = self.declared[name]
        if is_tuple and not whole:
            return [("named", name)]
        values = {own: self.fresh(None, words, cause, words, line) for own in packed.own()}
        for row, _ in packed.rows:
            self.context.add(put_in(row, values))
        return [self.put(type, values) for type in packed.types]

    # Statements; each says whether it completes.

    def block(self, statements):
        visible, indices = list(self.types), self.indices
        completes = all([self.statement(node) for node in statements])
        self.types, self.indices = {name: self.types[name] for name in visible}, indices
        return completes

    def statement(self, node):
        return getattr(self, "do_" + node.kind)(node)

    def do_set(self, node):
        self.types = {**self.types, node.name: self.value(node.value)}
        return True

    def do_let(self, node):
        _, name = self.value(node.value)
        parts = self.unpack(name, True, f"an index of `{self.text(node.value)}`", "tuple", self.line(node.start))
        self.types = {**self.types, **dict(zip(node.names, parts))}
        return True

    def do_store(self, node):
        array, index, value = self.value(node.array), self.value(node.index), self.value(node.value)
        self.demand_bounds(node, array, index)
        self.demand_cell(node.at, array[1], value, node.value, "cell")
        return True

    def do_do(self, node):
        self.value(node.value)
        return True

    do_print = do_do

    def do_return(self, node):
        if node.value is not None:
            packed, type = self.header.result, self.value(node.value)
            parts = self.parts(packed, ["the result"], [node.value], [f"the result's type `{self.text(self.header.node.result)}`"])
            self.demand_match(node.at, packed, [type], "result", "the result", parts)
        return False

    def do_if(self, node):
        before, types = self.context.with_rows([]), self.types
        ends = []
        for side, statements, way in zip(self.sides(node.test), (node.on_true, node.on_false), ("first", "second")):
            self.context, self.types = side, types
            if self.block(statements):
                ends.append((self.context, self.types, f"behind the {way} branch" if statements else "where the test fails"))
        if not ends or node.clause is None and len(ends) == 1:
            self.context, self.types = ends[0][:2] if ends else (before, types)
            return bool(ends)
        joined = self.made_anew(node, before, types, node.on_true + node.on_false)
        for context, present, way in ends:
            self.edge(joined, context, present, "join", f"on the way into the `join`, {way},")
        self.context, self.types, self.indices = joined.context, joined.types, joined.indices
        return True

    def do_while(self, node):
        head = self.made_anew(node, self.context, self.types, node.body)
        self.edge(head, self.context, self.types, "entry", "where the loop begins,")
        self.context, self.types, self.indices = head.context.with_rows([]), head.types, head.indices
        inside, behind = self.sides(node.test)
        self.context = inside
        if self.block(node.body):
            self.edge(head, self.context, self.types, "back", "at the end of the loop's body,")
        self.context, self.types = behind, head.types
        return True

    def made_anew(self, node, before, types, statements):
        """The state of a join or a loop's head: the clause's variables, and one for each other variable that the statements change."""
        where, line = ("at the head of the loop" if node.kind == "while" else "behind the `if`"), self.line(node.start)
        state = State(node, before.with_rows([]), types, self.indices)
        if node.clause:
            parts = node.clause.variables
            state.packed, state.indices = pack(self.source, node.clause.quantifier, [part.type for part in parts], len(self.about), self.indices)
            self.declare(state.packed, [part.name for part in parts], "`{}` " + f"{where} in line {line}")
            state.types.update(zip([part.name for part in parts], state.packed.types))
            state.context = before.with_rows(row for row, _ in state.packed.rows)
        changed = changed_by(statements) - state.named()
        for name in types:
            if name in changed:
                self.forget(state, name, where, line)
        return state

    def forget(self, state, name, where, line):
        """Gives a variable that no clause names a new index, of which nothing is known."""
        type = state.types[name]
        if type[0] in ("int", "array"):
            length, part = ("the length of ", f"{name}: {type[1]}[m]") if type[0] == "array" else ("", f"{name}: int(k)")
            state.types[name] = with_index(type, self.fresh(None, f"{length}`{name}` {where} in line {line}", f"{state.node.kind} {type[0]}", part, line))

    def edge(self, target, context, present, sort, way):
        clause, self.context = target.node.clause, context
        if clause:
            lengths = ["the length of " if type[0] == "array" else "" for type in target.packed.types]
            parts = [(f"{way} {length}`{part.name}`", f"`{self.text(part)}`") for length, part in zip(lengths, clause.variables)]
            self.demand_match(target.node.at, target.packed, [present[part.name] for part in clause.variables], sort, f"{way} the clause", parts)

    # Tests: what is known where they hold and where they fail.

    def sides(self, node):
        return getattr(self, "sides_" + node.kind, self.sides_value)(node)

    def sides_value(self, node):
        self.value(node)
        return self.context.with_rows([]), self.context.with_rows([])

    def sides_not(self, node):
        return tuple(reversed(self.sides(node.part)))

    def sides_all(self, node):
        return self.sides_of_parts(node, "and")

    def sides_any(self, node):
        return tuple(reversed(self.sides_of_parts(node, "or")))

    def sides_of_parts(self, node, word):
        """What is known where every part is as the word asks, and where some part is not, which is nothing new."""
        before, outer, self.compared = self.context.with_rows([]), self.compared, set()
        for part in node.parts:
            true, false = self.sides(part)
            self.context = true if word == "and" else false
        unknown = before.weaker(word, self.text(node), self.line(node.start), self.compared)
        self.compared = outer | self.compared
        return self.context, unknown

    def sides_compare(self, node):
        left, right = (index_of(self.value(side)) for side in (node.left, node.right))
        if node.mark in (">", ">="):
            left, right = right, left
        self.compared |= set(variables_of(left)) | set(variables_of(right))
        if node.mark in ("==", "!="):
            equal = self.context.with_rows([minus(left, right), minus(right, left)])
            other = self.context.weaker(node.mark, self.text(node), self.line(node.start), set(variables_of(minus(left, right))))
            return (equal, other) if node.mark == "==" else (other, equal)
        less = 1 if node.mark in ("<", ">") else 0
        return self.context.with_rows([minus(right, left, less)]), self.context.with_rows([minus(left, right, 1 - less)])

    # Values; each gives its type.

    def value(self, node):
        return getattr(self, "value_" + node.kind)(node)

    def numbered(self, form, node, cause):
        """The number of this form, or of a fresh variable where there is none within the bounds."""
        if form is not None and fits(form):
            return "int", form
        return "int", self.fresh(None, f"the value of `{self.text(node)}` in line {self.line(node.at)}", cause, self.text(node), self.line(node.at))

    def value_number(self, node):
        return self.numbered(constant(node.number), node, "large")

    def value_truth(self, node):
        return ("bool",)

    def value_variable(self, node):
        return self.types[node.name]

    def value_negative(self, node):
        return self.numbered(times(index_of(self.value(node.part)), -1), node, "large")

    def value_compare(self, node):
        self.value(node.left), self.value(node.right)
        return ("bool",)

    def value_chain(self, node):
        left, right = index_of(self.value(node.left)), index_of(self.value(node.right))
        if node.mark in ("+", "-"):
            return self.numbered(plus(left, right, 1 if node.mark == "+" else -1), node, "large")
        if node.mark == "*":
            known = times(left, right[None]) if is_constant(right) else times(right, left[None]) if is_constant(left) else None
            return self.numbered(known, node, "large" if known else "product")
        self.demand(node.at, minus(right, constant(1)), "divisor", f"the divisor `{self.text(node.right)}` is at least 1", f"{self.text(node.right)} > 0")
        return self.quotient(node, left, right) if node.mark == "/" else self.remainder(node, right)

    def quotient(self, node, left, right):
        by_number = is_constant(right) and right[None] >= 1
        type = self.numbered(None, node, "quotient" if by_number else "quotient by a variable")
        if by_number:
            below = times(index_of(type), right[None])
            self.context.add(minus(left, below))
            self.context.add(minus(plus(below, constant(right[None])), left, 1))
        return type

    def remainder(self, node, right):
        type = self.numbered(None, node, "remainder")
        self.context.add(index_of(type))
        self.context.add(minus(right, index_of(type), 1))
        return type

    def value_len(self, node):
        length = index_of(self.value(node.array))
        self.context.add(length)
        return "int", length

    def demand_bounds(self, node, array, index):
        index_text, array_text = self.text(node.index), self.text(node.array)
        below, above = f"the index `{index_text}` is at least 0", f"the index `{index_text}` is less than the length of `{array_text}`"
        self.demand(node.at, index_of(index), "lower", below, f"{index_text} >= 0")
        self.demand(node.at, minus(index_of(array), index_of(index), 1), "upper", above, f"{index_text} < len({array_text})")

    def value_cell(self, node):
        array, index = self.value(node.array), self.value(node.index)
        self.demand_bounds(node, array, index)
        words = ("the length of " if self.declared[array[1]][0].types[0][0] == "array" else "") + f"the element `{self.text(node)}` in line {self.line(node.at)}"
        return self.unpack(array[1], False, words, "element", self.line(node.at))[0]

    def demand_cell(self, at, name, type, node, sort):
        packed, is_tuple = self.declared[name]
        if not is_tuple:
            parts = self.parts(packed, ["the value"], [node], [f"the cell type `{name}`"])
            self.demand_match(at, packed, [type], sort, f"the cell type `{name}`", parts)

    def value_new(self, node):
        length, fill = self.value(node.length), self.value(node.fill)
        self.demand(node.at, index_of(length), "length", f"the length `{self.text(node.length)}` is at least 0", f"{self.text(node.length)} >= 0")
        self.demand_cell(node.at, node.element, fill, node.fill, "cell")
        return "array", node.element, index_of(length)

    def value_make(self, node):
        present = [self.value(part) for part in node.values]
        packed = self.declared[node.name][0]
        parts = self.parts(packed, ["the part"] * len(present), node.values, [f"the type `{node.name}`"] * len(present))
        self.demand_match(node.at, packed, present, "part", f"the type `{node.name}`", parts)
        return "named", node.name

    def value_call(self, node):
        present = [self.value(part) for part in node.values]
        header = self.headers[node.name]
        wanted = [f"`{self.text(part)}` of `{node.name}`" for part in header.node.parameters]
        parts = self.parts(header.parameters, ["the argument"] * len(present), node.values, wanted)
        values = self.demand_match(node.at, header.parameters, present, "call", f"`{node.name}`", parts)
        if header.result is None:
            return "int", constant(0)
        length = "the length of " if header.result.types[0][0] == "array" else ""
        words = f"{length}the result of `{self.text(node)}` in line {self.line(node.at)}"
        values |= {own: self.fresh(None, words, "result", self.text(node), self.line(node.at)) for own in header.result.own()}
        for row, _ in header.result.rows:
            self.context.add(put_in(row, values))
        return self.put(header.result.types[0], values)


def goals_of(source, tree):
    """The goals of a whole program, in order; none where a needed form passes its bounds."""
    declared, headers, goals = declarations(source, tree), {node.name: Header(source, node) for node in tree.functions}, []
    try:
        for node in tree.functions:
            Walk(source, declared, headers, goals).function(node)
    except Limit:
        return []
    return goals
