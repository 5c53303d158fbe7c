"""Kinds of values, to say in words why an expression is of another kind than is asked for."""

NUMBER, TRUTH, NOTHING = "number", "truth value", "nothing"


class Found(Exception):
    """The fault that the program reported: who asks, for which kind, and which kind stands there."""

    def __init__(self, who, wanted, given):
        self.who, self.wanted, self.given = who, wanted, given


def in_words(kind):
    if kind == NOTHING:
        return "nothing"
    if isinstance(kind, str):
        return f"a {kind}"
    sort, name = kind
    cells = {"int": "numbers", "bool": "truth values"}
    return f"a tuple `{name}`" if sort == "tuple" else f"an array of {cells.get(name, f'cells `{name}`')}"


class Kinds:
    """A walk through the functions in the order in which the program looks for faults; it stops at the place that the program named."""

    def __init__(self, tree, at):
        self.at, self.names, self.result = at, {}, None
        self.functions, self.types = {node.name: node for node in tree.functions}, {node.name: node for node in tree.types}

    def of_type(self, node):
        if node.kind == "array":
            return "array", node.element
        return NUMBER if node.kind == "exact" else self.of_name(node.name, False)

    def of_name(self, name, in_cell):
        """The kind that the name of a type stands for; a cell type stands for its part, in cells."""
        if name in ("int", "bool"):
            return NUMBER if name == "int" else TRUTH
        node = self.types[name]
        return ("tuple", name) if node.is_tuple or not in_cell else self.of_type(node.parts[0])

    def ask(self, node, wanted, who):
        self.judge(node, wanted, self.of(node), who)

    def judge(self, node, wanted, given, who):
        if given != wanted and self.at in (node.start, node.first):
            raise Found(who, in_words(wanted), in_words(given))

    # Expressions.

    def of(self, node):
        return getattr(self, "of_" + node.kind)(node)

    def of_number(self, node):
        return NUMBER

    def of_truth(self, node):
        return TRUTH

    def of_variable(self, node):
        return self.names[node.name]

    def of_negative(self, node):
        self.ask(node.part, NUMBER, "`-`")
        return NUMBER

    def of_chain(self, node):
        self.ask(node.left, NUMBER, f"`{node.mark}`")
        self.ask(node.right, NUMBER, f"`{node.mark}`")
        return NUMBER

    def of_compare(self, node):
        self.of_chain(node)
        return TRUTH

    def of_array(self, node, who):
        given = self.of(node)
        if given[0] != "array" and self.at in (node.start, node.first):
            raise Found(who, "an array", in_words(given))
        return given

    def of_cell(self, node):
        _, name = self.of_array(node.array, "`[..]`")
        self.ask(node.index, NUMBER, "an index")
        return self.of_name(name, True)

    def of_len(self, node):
        self.of_array(node.array, "`len`")
        return NUMBER

    def of_call(self, node):
        called = self.functions[node.name]
        for value, parameter in zip(node.values, called.parameters):
            self.ask(value, self.of_type(parameter.type), f"the parameter `{parameter.name}` of `{node.name}`")
        return NOTHING if called.result is None else self.of_type(called.result)

    def of_make(self, node):
        for value, part in zip(node.values, self.types[node.name].parts):
            self.ask(value, self.of_type(part), f"a part of `{node.name}`")
        return "tuple", node.name

    def of_new(self, node):
        self.ask(node.length, NUMBER, "a length")
        self.ask(node.fill, self.of_name(node.element, True), "the value for the cells")
        return "array", node.element

    def test(self, node):
        if node.kind in ("all", "any"):
            for part in node.parts:
                self.test(part)
        elif node.kind == "not":
            self.test(node.part)
        else:
            self.ask(node, TRUTH, "a test")

    # Statements.

    def block(self, statements):
        names = dict(self.names)
        for node in statements:
            getattr(self, "do_" + node.kind)(node)
        self.names = names

    def do_set(self, node):
        given = self.of(node.value)
        if node.declares:
            if given == NOTHING:
                self.judge(node.value, "value", given, "`var`")
            self.names[node.name] = given
        else:
            self.judge(node.value, self.names[node.name], given, f"the variable `{node.name}`")

    def do_store(self, node):
        kind = self.of_cell(node)
        self.ask(node.value, kind, "the cell")

    def do_let(self, node):
        given = self.of(node.value)
        if given[0] != "tuple":
            self.judge(node.value, "tuple", given, "`let`")
        self.names.update(zip(node.names, map(self.of_type, self.types[given[1]].parts)))

    def do_do(self, node):
        self.of(node.value)

    def do_print(self, node):
        self.ask(node.value, NUMBER, "`print`")

    def do_return(self, node):
        if (node.value is None) != (self.result is None) and self.at == node.start:
            raise Found("the function's result", "nothing" if self.result is None else in_words(self.result), "nothing" if node.value is None else "a value")
        if node.value is not None:
            self.ask(node.value, self.result, "the function's result")

    def do_if(self, node):
        self.test(node.test)
        self.block(node.on_true)
        self.block(node.on_false)
        self.clause(node.clause)

    def do_while(self, node):
        self.test(node.test)
        self.clause(node.clause)
        self.block(node.body)

    def clause(self, node):
        for part in node.variables if node else []:
            if self.of_type(part.type) != self.names[part.name] and self.at == part.type.start:
                raise Found(f"the variable `{part.name}`", in_words(self.names[part.name]), in_words(self.of_type(part.type)))

    def function(self, node):
        self.names = {part.name: self.of_type(part.type) for part in node.parameters}
        self.result = node.result and self.of_type(node.result)
        self.block(node.body)


def kind_fault(tree, at):
    """Who asks for which kind at the place, and which kind stands there; None where the walk does not find it."""
    kinds = Kinds(tree, at)
    try:
        for node in tree.functions:
            kinds.function(node)
    except Found as found:
        return found
    except (KeyError, TypeError, IndexError):
        return None
    return None
