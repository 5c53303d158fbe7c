"""A reader of sources: the tree that explanations need, and at a fault what could have stood there."""

RELATIONS = ("<", "<=", ">", ">=", "==", "!=")
INDEX_RELATIONS = ("<", "<=", ">", ">=", "=")


class Node:
    """A part of a source: its kind, where it starts and ends, brackets around it too, where it starts without them (`first`), where its goals stand (`at`), and its parts."""

    def __init__(self, kind, start, end, at=None, **parts):
        self.kind, self.start, self.first, self.end, self.at = kind, start, start, end, start if at is None else at
        self.__dict__.update(parts)


class Refused(Exception):
    """The token at `at` continues no program; `wanted` has what could stand there."""

    def __init__(self, at, wanted):
        self.at, self.wanted = at, wanted


class Reader:
    def __init__(self, tokens):
        self.tokens, self.place, self.wanted, self.index_names = tokens, 0, [], set()

    # Single tokens.

    def now(self):
        return self.tokens[self.place]

    def sees(self, *choices):
        """Whether one of the choices stands next: `lower`, `upper`, `num`, `end`, or a keyword or mark as it is written."""
        token = self.now()
        self.wanted += [choice for choice in choices if choice not in self.wanted]
        return (token.kind if token.kind in ("lower", "upper", "num", "end") else token.text) in choices

    def take(self, *choices):
        if not self.sees(*choices):
            raise Refused(self.now().at, self.wanted)
        self.place, self.wanted = self.place + 1, []
        return self.tokens[self.place - 1]

    def taken(self, *choices):
        return self.take(*choices) if self.sees(*choices) else None

    def listed(self, read):
        """One or more, with commas between."""
        parts = [read()]
        while self.taken(","):
            parts.append(read())
        return parts

    def node(self, kind, start, **parts):
        """A node that ends where the token before this one ends."""
        return Node(kind, start, self.tokens[self.place - 1].end, **parts)

    # Declarations.

    def program(self):
        types, functions = [], []
        while not self.taken("end"):
            if self.sees("type"):
                types.append(self.type_declaration())
            else:
                functions.append(self.function())
        return self.node("program", 0, types=types, functions=functions)

    def type_declaration(self):
        start = self.take("type").at
        name = self.take("upper").text
        self.take("=")
        quantifier = self.quantifier()
        is_tuple = bool(self.taken("("))
        parts = self.listed(self.type) if is_tuple else [self.type()]
        if is_tuple:
            self.take(")")
        self.take(";")
        return self.node("type", start, name=name, quantifier=quantifier, parts=parts, is_tuple=is_tuple)

    def function(self):
        start = self.take("fun").at
        name = self.take("lower").text
        quantifier = self.quantifier()
        self.take("(")
        parameters = [] if self.sees(")") else self.listed(self.parameter)
        self.take(")")
        self.take(":")
        own, result = (None, None) if self.taken("unit") else (self.quantifier(), self.type())
        body = self.block()
        return self.node("fun", start, name=name, quantifier=quantifier, parameters=parameters, own=own, result=result, body=body)

    def parameter(self):
        name = self.take("lower")
        self.take(":")
        return self.node("parameter", name.at, name=name.text, type=self.type())

    def quantifier(self):
        start = self.now().at
        if not self.taken("{"):
            return Node("quantifier", start, start, binders=[], relations=[])
        binders = self.listed(self.binder)
        relations = self.listed(self.relation) if self.taken("|") else []
        self.take("}")
        return self.node("quantifier", start, binders=binders, relations=relations)

    def binder(self):
        name = self.take("lower").text
        self.take(":")
        return name, self.take("int", "nat").text

    def relation(self):
        start, left = self.now().at, self.linear()
        mark, right = self.take(*INDEX_RELATIONS).text, self.linear()
        return self.node("relation", start, left=left, mark=mark, right=right)

    def linear(self):
        """An index expression, as a list of (coefficient, name or None)."""
        terms = [self.linear_term(-1 if self.taken("-") else 1)]
        while mark := self.taken("+", "-"):
            terms.append(self.linear_term(-1 if mark.text == "-" else 1))
        return terms

    def linear_term(self, sign):
        token = self.take("num", "lower")
        if token.kind == "lower":
            return sign, self.index_name(token)
        return sign * int(token.text), self.index_name(self.take("lower")) if self.taken("*") else None

    def index_name(self, token):
        self.index_names.add(token.at)
        return token.text

    def type(self):
        token = self.take("int", "bool", "upper")
        if token.text == "int" and self.taken("("):
            index = self.linear()
            self.take(")")
            return self.node("exact", token.at, index=index)
        if self.taken("["):
            index = None if self.sees("]") else self.linear()
            self.take("]")
            return self.node("array", token.at, element=token.text, index=index)
        return self.node("plain", token.at, name=token.text)

    # Statements.

    def block(self):
        self.take("{")
        statements = []
        while not self.taken("}"):
            statements.append(self.statement())
        return statements

    def statement(self):
        token = self.take("var", "let", "lower", "print", "if", "while", "return", "}")
        if token.text in ("if", "while"):
            return self.branching(token)
        parts = {"var": self.var, "let": self.let, "print": self.print, "return": self.return_}.get(token.text, self.assignment)
        node = parts(token)
        self.take(";")
        return node

    def var(self, token):
        name = self.take("lower").text
        self.take("=")
        return self.node("set", token.at, name=name, value=self.expression(), declares=True)

    def let(self, token):
        self.take("(")
        names = self.listed(lambda: self.take("lower").text)
        self.take(")")
        self.take("=")
        return self.node("let", token.at, names=names, value=self.expression())

    def print(self, token):
        return self.node("print", token.at, value=self.expression())

    def return_(self, token):
        return self.node("return", token.at, value=None if self.sees(";") else self.expression())

    def assignment(self, token):
        if self.sees("("):
            return self.node("do", token.at, value=self.call(token))
        cell = Node("variable", token.at, token.end, name=token.text)
        while mark := self.taken("["):
            cell = self.cell(cell, mark)
        self.take("=")
        if cell.kind == "variable":
            return self.node("set", token.at, name=token.text, value=self.expression(), declares=False)
        return self.node("store", token.at, at=cell.at, array=cell.array, index=cell.index, value=self.expression())

    def branching(self, token):
        self.take("(")
        test = self.expression()
        self.take(")")
        if token.text == "while":
            clause = self.clause() if self.taken("with") else None
            return self.node("while", token.at, test=test, clause=clause, body=self.block())
        on_true = self.block()
        on_false = self.block() if self.taken("else") else []
        clause = self.clause() if self.taken("join") else None
        return self.node("if", token.at, test=test, on_true=on_true, on_false=on_false, clause=clause)

    def clause(self):
        start = self.now().at
        quantifier = self.quantifier()
        self.take("(")
        variables = self.listed(self.parameter)
        self.take(")")
        return self.node("clause", start, quantifier=quantifier, variables=variables)

    # Expressions.

    def expression(self):
        return self.several("any", "||", lambda: self.several("all", "&&", self.negation))

    def several(self, kind, mark, part):
        parts = [part()]
        while self.taken(mark):
            parts.append(part())
        return parts[0] if len(parts) == 1 else self.node(kind, parts[0].start, parts=parts)

    def negation(self):
        mark = self.taken("!")
        inner = self.comparison()
        return self.node("not", mark.at, part=inner) if mark else inner

    def comparison(self):
        left = self.chain(("+", "-"), lambda: self.chain(("*", "/", "%"), self.unary))
        mark = self.taken(*RELATIONS)
        if not mark:
            return left
        right = self.chain(("+", "-"), lambda: self.chain(("*", "/", "%"), self.unary))
        return self.node("compare", left.start, mark=mark.text, left=left, right=right)

    def chain(self, marks, part):
        left = part()
        while mark := self.taken(*marks):
            left = self.node("chain", left.start, at=mark.at, mark=mark.text, left=left, right=part())
        return left

    def unary(self):
        mark = self.taken("-")
        inner = self.postfix()
        return self.node("negative", mark.at, part=inner) if mark else inner

    def postfix(self):
        node = self.primary()
        while mark := self.taken("["):
            node = self.cell(node, mark)
        return node

    def cell(self, array, mark):
        index = self.expression()
        self.take("]")
        return self.node("cell", array.start, at=mark.at, array=array, index=index)

    def primary(self):
        token = self.take("num", "true", "false", "lower", "upper", "len", "new", "(")
        if token.kind == "num":
            return Node("number", token.at, token.end, number=int(token.text))
        if token.text in ("true", "false"):
            return Node("truth", token.at, token.end)
        if token.text == "new":
            return self.new(token)
        if token.kind == "lower" and not self.sees("("):
            return Node("variable", token.at, token.end, name=token.text)
        if token.text in ("len", "("):
            return self.bracketed(token)
        return self.call(token)

    def bracketed(self, token):
        if token.text == "len":
            self.take("(")
        inner = self.expression()
        self.take(")")
        if token.text == "len":
            return self.node("len", token.at, array=inner)
        inner.start, inner.end = token.at, self.tokens[self.place - 1].end
        return inner

    def call(self, token):
        self.take("(")
        values = [] if token.kind == "lower" and self.sees(")") else self.listed(self.expression)
        self.take(")")
        return self.node("call" if token.kind == "lower" else "make", token.at, name=token.text, values=values)

    def new(self, token):
        element = self.take("int", "bool", "upper").text
        self.take("[")
        length = self.expression()
        self.take("]")
        self.take("(")
        fill = self.expression()
        self.take(")")
        return self.node("new", token.at, element=element, length=length, fill=fill)


def tree_of(tokens):
    """The tree of a program; `index_names` has the places at which index variables are named."""
    reader = Reader(tokens)
    tree = reader.program()
    tree.index_names = reader.index_names
    return tree
