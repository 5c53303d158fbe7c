"""The tokens of a source, and places in words."""
import re
from typing import NamedTuple

KEYWORDS = set("fun type var let if else join while with return print new len true false int nat bool unit".split())
TOKEN = re.compile(rb"(?P<blank>[ \t\r\n]+|//[^\n]*)|(?P<name>[A-Za-z][A-Za-z0-9_]*)|(?P<num>[0-9]+)|(?P<mark><=|>=|==|!=|&&|\|\||[(){}\[\],;:|=+\-*/%<>!])")
GREATEST = 2**63 - 1
DEEPEST = 64


class Token(NamedTuple):
    kind: str  # lower, upper, num, keyword, mark, end
    text: str
    at: int
    end: int


def kind_of(found):
    text = found.group().decode()
    if found.lastgroup == "name":
        return "keyword" if text in KEYWORDS else "lower" if text[0].islower() else "upper"
    return found.lastgroup


def tokens_of(source):
    """The tokens up to the end or the first fault, with a token of kind `end` behind them."""
    tokens, at = [], 0
    while found := TOKEN.match(source, at):
        text = found.group().decode("latin1")
        if found.lastgroup == "num" and (len(text) > 1 and text[0] == "0" or int(text) > GREATEST):
            break
        if found.lastgroup != "blank":
            tokens.append(Token(kind_of(found), text, at, found.end()))
        at = found.end()
    return tokens + [Token("end", "", at, at)]


def first_too_deep(tokens):
    """The first token at which too many brackets are open; they are counted in groups, as docs/language.md says."""
    groups, before = [], ""
    for token, behind in zip(tokens, tokens[1:] + tokens[-1:]):
        if token.text == "[" and before == "]" and groups:
            groups[-1] += 1
        elif token.text in ("(", "[", "{"):
            groups.append(1)
        if sum(groups) > DEEPEST:
            return token
        if token.text in (")", "]", "}") and groups and not (token.text == "]" and behind.text == "["):
            groups.pop()
        before = token.text
    return None


def line_of(source, at):
    """The number of the line of a byte, from 1."""
    return source.count(b"\n", 0, at) + 1


def column_of(source, at):
    return at - source.rfind(b"\n", 0, at)


def shown(source, at, widest=120):
    """The line of a byte, cut where it is long, and a caret below the byte; nothing where the line is empty."""
    first = source.rfind(b"\n", 0, at) + 1
    last = source.find(b"\n", at)
    line = source[first:len(source) if last < 0 else last].rstrip(b"\r")
    if not line:
        return []
    cut = 0 if len(line) <= widest else max(0, min(at - first - widest // 2, len(line) - widest))
    front, end = (".. " if cut else ""), (" .." if cut + widest < len(line) else "")
    piece = line[cut:cut + widest].decode("utf-8", "replace")
    before = line[cut:at - first].decode("utf-8", "replace")
    blanks = "".join("\t" if letter == "\t" else " " for letter in front + before)
    return [front + piece + end, blanks + "^"]
