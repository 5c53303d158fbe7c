#!/usr/bin/env python3
"""Compares what both highlighters make of the examples with what is wanted.

check.py [FILE..]

`wanted.txt` has the examples. A line `= NAME` begins one; then each line of it stands with `|` in front, and below it, with `>` in front, a letter
for the class of each byte: k keyword, t type, T declared type, b truth value, f function, i index variable, n number, o operator, p place, l label,
c comment, ! fault, and a space for anything else. Vim is run without a screen; the TextMate grammars are read by the reader below.
For FILEs, sources or texts that are right, it is only asked that both highlighters agree and see no fault.
"""
import json, os, re, subprocess, sys, tempfile

HERE = os.path.dirname(os.path.abspath(__file__))
VIM_CLASSES = {
    "Keyword": "k", "Instruction": "k", "Comparison": "k", "Rule": "k", "Type": "t", "Sort": "t", "Element": "t", "TypeName": "T", "ElementName": "T",
    "Boolean": "b", "Function": "f", "FunctionName": "f", "Index": "i", "Number": "n", "Operator": "o", "Place": "p", "Label": "l", "Target": "l",
    "Comment": "c", "Fault": "!",
}
SCOPE_CLASSES = [
    ("keyword.operator", "o"), ("keyword", "k"), ("storage.type", "t"), ("entity.name.type", "T"), ("constant.language", "b"), ("entity.name.function", "f"),
    ("variable.parameter", "i"), ("constant.numeric", "n"), ("variable.language", "p"), ("entity.name.label", "l"), ("comment", "c"), ("invalid", "!"),
]


def scope_class(name):
    return next((letter for scope, letter in SCOPE_CLASSES if name.startswith(scope)), " ")


# The reader of TextMate grammars: `match`, `begin`, `end`, `name`, captures and `include`, as far as the two grammars use them.

def rules_of(grammar, patterns):
    """The rules of a list of patterns, with what they include in their place."""
    for rule in patterns:
        if "include" in rule:
            yield from rules_of(grammar, [grammar["repository"][rule["include"][1:]]])
        elif "match" in rule or "begin" in rule:
            yield rule
        else:
            yield from rules_of(grammar, rule["patterns"])


def paint(classes, found, rule, captures):
    """Gives the bytes of a match the class of its rule, and those of its groups theirs."""
    names = {0: rule.get("name", ""), **{int(group): part["name"] for group, part in rule.get(captures, {}).items()}}
    for group in sorted(names):
        if names[group] and found.start(group) >= 0:
            classes[found.start(group):found.end(group)] = scope_class(names[group]) * len(found.group(group))


def next_rule(grammar, stack, line, at):
    """The match that begins first from `at` on, its rule, and whether it ends the rule on top of the stack."""
    ending = [(re.compile(stack[-1]["end"]), stack[-1], True)] if stack else []
    inner = rules_of(grammar, stack[-1].get("patterns", []) if stack else grammar["patterns"])
    tried = ending + [(re.compile(rule.get("match") or rule["begin"]), rule, False) for rule in inner]
    found = [(pattern.search(line, at), rule, ends) for pattern, rule, ends in tried]
    return min((choice for choice in found if choice[0]), key=lambda choice: choice[0].start(), default=None)


def classes_of_line(grammar, stack, line):
    classes, at = [" "] * len(line), 0
    while choice := next_rule(grammar, stack, line, at):
        found, rule, ends = choice
        if ends:
            paint(classes, found, {}, "endCaptures")
            stack.pop()
        elif "begin" in rule:
            paint(classes, found, {}, "")
            paint(classes, found, {"beginCaptures": rule.get("beginCaptures", {})}, "beginCaptures")
            stack.append(rule)
        else:
            paint(classes, found, rule, "captures")
        at = found.end() if found.end() > found.start() or ends or "begin" in rule else found.end() + 1
        if at > len(line):
            break
    return "".join(classes)


def lines_of(text):
    lines = text.split("\n")
    return lines if lines[-1] else lines[:-1]


def by_textmate(name, text):
    with open(os.path.join(HERE, "vscode", "syntaxes", language(name) + ".tmLanguage.json")) as file:
        grammar = json.load(file)
    stack = []
    return [classes_of_line(grammar, stack, line) for line in lines_of(text)]


DUMP = """
set encoding=latin1 nomore synmaxcol=0
exe 'set rtp^=' . $PLUGIN
filetype on
syntax on
exe 'edit ++enc=latin1 ++ff=unix ' . $EXAMPLE
let rows = [&filetype]
for row in range(1, line('$'))
  call add(rows, join(map(range(1, col([row, '$']) - 1), 'synIDattr(synID(row, v:val, 1), "name")')))
endfor
call writefile(rows, $DUMPED)
qall!
"""


def by_vim(name, text):
    with tempfile.TemporaryDirectory() as folder:
        paths = {"PLUGIN": os.path.join(HERE, "vim"), "EXAMPLE": os.path.join(folder, name), "DUMPED": os.path.join(folder, "dumped")}
        with open(paths["EXAMPLE"], "w", encoding="latin1", newline="") as file:
            file.write(text)
        with open(os.path.join(folder, "dump.vim"), "w") as file:
            file.write(DUMP)
        subprocess.run(["vim", "-es", "-N", "-u", "NONE", "-i", "NONE", "-S", os.path.join(folder, "dump.vim")], env={**os.environ, **paths}, timeout=300)
        with open(paths["DUMPED"], encoding="latin1") as file:
            kind, *rows = file.read().split("\n")[:-1]
    if kind != language(name):
        sys.exit(f"{name}: Vim takes it for '{kind}'")
    return ["".join(VIM_CLASSES.get(re.sub("^(xanadu|dtal)", "", group), " ") for group in row.split(" ")) if row else "" for row in rows]


def language(name):
    return "xanadu" if name.endswith(".xan") else "dtal"


def of_tokens(line, classes):
    """The classes of a line without those of blanks outside comments, in which the two may differ."""
    return "".join(" " if byte in " \t" and letter != "c" else letter for byte, letter in zip(line, classes)).rstrip()


def examples():
    """Name, text and wanted classes of each example of wanted.txt."""
    name, lines, wanted = None, [], []
    with open(os.path.join(HERE, "wanted.txt"), encoding="latin1") as file:
        for row in file.read().split("\n"):
            if row.startswith("= ") and name:
                yield name, lines, wanted
                lines, wanted = [], []
            if row.startswith("= "):
                name = row[2:]
            elif row.startswith("|"):
                lines.append(row[1:])
            elif row.startswith(">"):
                wanted.append(row[1:])
    yield name, lines, wanted


def differences(name, lines, wanted, got, who):
    if len(got) != len(lines):
        sys.exit(f"{name}: {who} told {len(got)} of {len(lines)} lines")
    for number, (line, want, row) in enumerate(zip(lines, wanted, got), 1):
        have = of_tokens(line, row)
        if have != want.rstrip():
            print(f"{name}:{number}: {who}\n  |{line}\n  >{have}\n  wanted\n  >{want}")
            yield number


def check_example(name, lines, wanted):
    text = "".join(line + "\n" for line in lines)
    failed = len(lines) != len(wanted)
    for who, got in (("Vim", by_vim(name, text)), ("TextMate", by_textmate(name, text))):
        failed += len(list(differences(name, lines, wanted, got, who)))
    return failed


def check_file(path):
    with open(path, encoding="latin1", newline="") as file:
        text = file.read()
    name, lines, wanted = os.path.basename(path), lines_of(text), by_textmate(path, text)
    shown = [of_tokens(line, row) for line, row in zip(lines, wanted)]
    faults = sum("!" in row for row in shown)
    if faults:
        print(f"{name}: {faults} lines with a fault")
    return faults + len(list(differences(name, lines, shown, by_vim(name, text), "Vim, and TextMate as wanted")))


def main():
    failed = [check_file(path) for path in sys.argv[1:]] or [check_example(*example) for example in examples()]
    print(f"{sum(not number for number in failed)} passed, {sum(map(bool, failed))} failed")
    sys.exit(1 if any(failed) else 0)


if __name__ == "__main__":
    main()
