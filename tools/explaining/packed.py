"""Types with index variables: declared types, headers of functions and clauses, as quantified lists of types."""
from .forms import constant, minus, plus, variable


class Packed:
    """Index variables from the number `first` on, rows with their text, and types. Written variables come first, then `bare` ones, by places of types."""

    def __init__(self, first, names, bare, rows, types):
        self.first, self.names, self.bare, self.rows, self.types = first, names, bare, rows, types
        self.count = len(names) + len(bare)

    def own(self):
        return range(self.first, self.first + self.count)


def linear(terms, indices):
    total = constant(0)
    for number, name in terms:
        total = plus(total, indices[name] if name else constant(1), number)
    return total


RELATION_ROWS = {
    "<=": lambda a, b: [minus(b, a)],
    "<": lambda a, b: [minus(b, a, 1)],
    ">=": lambda a, b: [minus(a, b)],
    ">": lambda a, b: [minus(a, b, 1)],
    "=": lambda a, b: [minus(a, b), minus(b, a)],
}


def index_of(type):
    """The form in a type: a number's value or an array's length."""
    return type[-1] if type[0] in ("int", "array") else None


def with_index(type, form):
    return type if form is None else type[:-1] + (form,)


def is_bare(node):
    return node.kind == "plain" and node.name == "int" or node.kind == "array" and node.index is None


def typed(node, indices, bare):
    """The type of a node; `bare` is the variable of a bare one."""
    if node.kind == "exact":
        return "int", linear(node.index, indices)
    if node.kind == "array":
        return "array", node.element, bare if node.index is None else linear(node.index, indices)
    return ("int", bare) if node.name == "int" else ("bool",) if node.name == "bool" else ("named", node.name)


def rows_of(source, quantifier, first, indices):
    rows = [(variable(first + place), f"{name} >= 0") for place, (name, sort) in enumerate(quantifier.binders) if sort == "nat"]
    for relation in quantifier.relations:
        sides = linear(relation.left, indices), linear(relation.right, indices)
        rows += [(row, text_of(source, relation)) for row in RELATION_ROWS[relation.mark](*sides)]
    return rows


def pack(source, quantifier, nodes, first, outer):
    """A quantifier in front of types, and the index names with the outer ones."""
    names = [name for name, _ in quantifier.binders]
    indices = {**outer, **{name: variable(first + place) for place, name in enumerate(names)}}
    rows = rows_of(source, quantifier, first, indices)
    bare = [place for place, node in enumerate(nodes) if is_bare(node)]
    variables = {place: variable(first + len(names) + number) for number, place in enumerate(bare)}
    types = [typed(node, indices, variables.get(place)) for place, node in enumerate(nodes)]
    rows += [(variables[place], "a length is at least 0") for place in bare if nodes[place].kind == "array"]
    return Packed(first, names, bare, rows, types), indices


class Header:
    """A function's parameters, and its result with the variables of its own; None for `unit`."""

    def __init__(self, source, node):
        self.node = node
        self.parameters, self.indices = pack(source, node.quantifier, [part.type for part in node.parameters], 0, {})
        self.result = node.result and pack(source, node.own, [node.result], self.parameters.count, self.indices)[0]


def declarations(source, tree):
    """The cell types int and bool and the declared types, each with whether it is a tuple type."""
    declared = {"int": (Packed(0, [], [0], [], [("int", variable(0))]), False), "bool": (Packed(0, [], [], [], [("bool",)]), False)}
    for node in tree.types:
        declared[node.name] = pack(source, node.quantifier, node.parts, 0, {})[0], node.is_tuple
    return declared


def text_of(source, node):
    """The text of a node, with single blanks between words."""
    return " ".join(source[node.start:node.end].decode("utf-8", "replace").split())
