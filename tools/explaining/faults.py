"""Faults of sources in words: bytes, grammar, shapes and limits."""
from .tokens import first_too_deep, tokens_of
from .tree import INDEX_RELATIONS, Refused, tree_of

KINDS = {"lower": "a name", "upper": "a type's name", "num": "a number", "end": "the end of the source"}
GROUPS = [
    ({"num", "true", "false", "lower", "upper", "len", "new", "("}, "an expression"),
    ({"var", "let", "lower", "print", "if", "while", "return"}, "a statement"),
    ({"*", "/", "%", "+", "-", "<", "<=", ">", ">=", "==", "!=", "&&", "||"}, "an operator"),
    ({"*", "/", "%", "+", "-", "&&", "||"}, "an operator"),
    ({"<", "<=", ">", ">=", "="}, "a relation (`<`, `<=`, `>`, `>=` or `=`)"),
    ({"int", "bool", "upper"}, "a type"),
]

LIMITS = {
    "length": "a source has at most {most} bytes",
    "nesting": "at most {most} brackets may be open at one place",
    "functions": "a source has at most {most} functions",
    "types": "a source has at most {most} declared types",
    "parameters": "a function has at most {most} parameters, and a tuple type at most {most} parts",
    "variables": "a function has at most {most} index variables, those of its clauses, calls, elements and quotients counted: split it into several",
    "rows": "at most {most} rows may be known at one place, or stand in one quantifier: split the function into several",
    "terms": "a sum of index variables has at most {most} of them",
    "magnitude": "numbers in index expressions and in proofs go up to {most}",
    "places": "a function has at most {most} variables and temporaries: split it into several",
    "cone": "the proof of a goal may use at most {most} index variables that hang together",
    "system": "a step of a proof may use at most {most} rows",
}


def limit_in_words(kind, most):
    return LIMITS.get(kind, "a limit of {most} is passed").format(most=most)


def byte_fault(source, at):
    """What is wrong with the byte at which no token begins, and a hint."""
    byte = source[at:at + 1]
    if byte.isdigit():
        digits = source[at:at + 40].split()[0]
        zero = digits[:1] == b"0"
        return ("a number has a zero in front", "write it without") if zero else ("a number is too large", "numbers go up to 9223372036854775807")
    if byte in b"&":
        return "a single `&` is no token", "write `&&`, in the test of an `if` or `while`"
    if byte in b"\"'":
        return f"`{byte.decode()}` begins no token", "there are no texts or letters, only numbers, truth values, arrays and tuples"
    if byte >= b"\x80" or byte < b"\x20":
        return f"the byte {byte[0]} begins no token", "outside comments only ASCII letters, digits and marks may stand"
    return f"`{byte.decode()}` begins no token", "a name begins with a letter; the marks are in docs/language.md, \"Tokens\""


def choices_in_words(wanted):
    """What may stand at a place; a group of tokens by its name."""
    left, words = set(wanted), []
    for group, name in GROUPS:
        if group <= left:
            left -= group
            words.append(name)
    words += [KINDS.get(choice, f"`{choice}`") for choice in wanted if choice in left]
    return words[0] if len(words) == 1 else ", ".join(words[:-1]) + " or " + words[-1]


def parse_hint(before, token, wanted):
    if before.text == "else" and token.text == "if":
        return "there is no `else if`: write `else { if .. }`"
    if token.kind == "keyword" and wanted == ["lower"]:
        return f"`{token.text}` is a keyword and no name"
    if {"lower"} == set(wanted) and token.kind == "upper":
        return "names of variables and functions begin with a small letter, those of types with a capital"
    if wanted == ["upper"] and token.kind == "lower":
        return "names of types begin with a capital letter"
    if set(INDEX_RELATIONS) <= set(wanted) and token.text in ("==", "!="):
        return "equality in a quantifier is `=`; there is no `!=`"
    if "=" in wanted and token.text == "==":
        return "an assignment is `=`"
    if "==" in wanted and token.text == "=":
        return "equality is `==`"
    if token.text in ("-", "!") and before.text == token.text:
        return f"write `{token.text}({token.text}a)`"
    if token.kind == "end" and "}" in wanted:
        return "is a `}` missing?"
    if ";" in wanted:
        return "is a `;` missing in front of it?"
    return "the grammar is in docs/language.md"


def parse_fault(source, at):
    """What is wrong with the token at which no program goes on, and a hint."""
    tokens = tokens_of(source)
    place = next((place for place, token in enumerate(tokens) if token.at == at or token.kind == "end"))
    stands = f"`{tokens[place].text}`" if tokens[place].text else "the end of the source"
    try:
        tree_of(tokens)
    except Refused as refused:
        if refused.at == at or tokens[place].kind == "end":
            hint = parse_hint(tokens[place - 1] if place else tokens[-1], tokens[place], refused.wanted)
            return f"{stands} cannot stand here, but only {choices_in_words(refused.wanted)}", hint
    return f"{stands} cannot stand here", "the grammar is in docs/language.md"


def nesting_place(source):
    token = first_too_deep(tokens_of(source))
    return token.at if token else None
