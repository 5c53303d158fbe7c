"""Linear forms over index variables, and rows in words. A form is a dictionary from variables to numbers, with the constant under None."""

BOUND = 2**62 - 1
MOST_TERMS = 16


def constant(number):
    return {None: number}


def variable(number):
    return {None: 0, number: 1}


def plus(left, right, by=1):
    """The sum of the one form and `by` times the other."""
    total = dict(left)
    for key, number in right.items():
        total[key] = total.get(key, 0) + by * number
    return {key: number for key, number in total.items() if number or key is None}


def minus(left, right, less=0):
    return plus(plus(left, right, -1), constant(-less))


def times(form, by):
    return plus(constant(0), form, by)


def variables_of(form):
    return sorted(key for key in form if key is not None)


def is_constant(form):
    return len(form) == 1


def put_in(form, values):
    """The form with values in place of those variables that have one."""
    total = constant(form[None])
    for key in variables_of(form):
        total = plus(total, values.get(key, variable(key)), form[key])
    return total


def fits(form):
    return len(form) - 1 <= MOST_TERMS and all(abs(number) <= BOUND for number in form.values())


def spelled(form):
    """As the programs write it."""
    return "".join(f"{form[key]:+d}v{key}" for key in variables_of(form)) + f"{form[None]:+d}"


def product(number, name):
    return name if number == 1 else f"{number}*{name}"


def summed(parts, number):
    pieces = parts + ([str(number)] if number or not parts else [])
    return " + ".join(pieces)


def in_words(row, name):
    """A row as a relation, with the names that are given for variables."""
    upper = [product(row[key], name(key)) for key in variables_of(row) if row[key] > 0]
    lower = [product(-row[key], name(key)) for key in variables_of(row) if row[key] < 0]
    number = row[None]
    if not upper and not lower:
        return f"{number} >= 0, which never holds"
    if not lower:
        return f"{summed(upper, 0)} >= {-number}"
    if not upper:
        return f"{summed(lower, 0)} <= {number}"
    if number == -1:
        return f"{summed(lower, 0)} < {summed(upper, 0)}"
    return f"{summed(lower, max(0, -number))} <= {summed(upper, max(0, number))}"
