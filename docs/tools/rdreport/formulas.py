"""Formulas with the values of two calls put in."""
import re

from traces import WORD

SIGNS = {"=", "!=", "<", "<="}
NUMBER = re.compile(r"-?[0-9]+")


def methods_of(text):
    """The names of the arguments and the result of each method of each kind of a specification of version 1."""
    kinds, kind = {}, None
    for line in text.splitlines():
        words = line.split()
        if words[:1] == ["kind"]:
            kind = kinds.setdefault(words[1], {})
        elif words[:1] == ["method"]:
            kind[words[1]] = [*words[2:-2], words[-1]]
    return kinds


def tokens_of(formula):
    """The tokens, the brackets apart from what they hold."""
    for word in WORD.findall(formula):
        while word.startswith("("):
            yield "("
            word = word[1:]
        closing = len(word) - len(word.rstrip(")")) if not word.startswith('"') else 0
        end = re.fullmatch(r'("(?:\\.|[^"\\])*")(\)*)', word)
        if end:
            word, closing = end[0], len(end[2])
        yield word[:len(word) - closing]
        yield from ")" * closing


def relate(left, sign, right):
    if sign in ("=", "!="):
        return (left == right) == (sign == "=")           # a value has one spelling
    if not (NUMBER.fullmatch(left) and NUMBER.fullmatch(right)):
        return False
    return int(left) < int(right) or sign == "<=" and int(left) == int(right)


def parts_of(formula, sides):
    """The parts of a formula, each as (text, the same with values, whether it holds); of what joins them, (text, None, None)."""
    tokens, values = list(tokens_of(formula)), {}
    for number, (names, call) in enumerate(sides, 1):
        for name, value in zip(names, [*call.arguments, call.result]):
            values[f"{name}@{number}"] = value
    parts, at = [], 0
    while at < len(tokens):
        if tokens[at + 1:at + 2] and tokens[at + 1] in SIGNS:
            left, sign, right = tokens[at:at + 3]
            here = values.get(left, left), sign, values.get(right, right)
            parts.append((f"{left} {sign} {right}", " ".join(here), relate(*here)))
            at += 3
        else:
            word = tokens[at]
            parts.append((word, word, word == "true") if word in ("true", "false") else (word, None, None))
            at += 1
    return parts


def holds(parts):
    """Whether the whole holds."""
    def either(at):
        value, at = both(at)
        while at < len(parts) and parts[at][0] == "or":
            right, at = both(at + 1)
            value = value or right
        return value, at

    def both(at):
        value, at = negated(at)
        while at < len(parts) and parts[at][0] == "and":
            right, at = negated(at + 1)
            value = value and right
        return value, at

    def negated(at):
        if parts[at][0] == "not":
            value, at = negated(at + 1)
            return not value, at
        if parts[at][0] == "(":
            value, at = either(at + 1)
            return value, at + 1
        return parts[at][2], at + 1
    return either(0)[0]


def failed(told, later, earlier, kinds):
    """The parts of the formula that two calls fail, as `told` in the report; none where the kind's methods aren't known."""
    kind, first, second, _, formula = told.split(" ", 4)
    names = kinds.get(kind, {})
    if first not in names or second not in names:
        return None
    orders = [(earlier, later), (later, earlier)]
    for one, other in orders:
        if (one.method, other.method) == (first, second):
            parts = parts_of(formula, [(names[first], one), (names[second], other)])
            if not holds(parts):
                return parts
    return None


def joined(parts, show):
    """The parts as one line, each by `show`, the brackets without blanks inside."""
    return re.sub(r"\( | \)", lambda blank: blank[0].strip(), " ".join(map(show, parts)))
