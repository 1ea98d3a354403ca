#!/usr/bin/env python3
"""Compares `spec` with a slow reader of specifications that follows the rules by itself.

    check_specifications.py --rd2 PROGRAM [--count N] [--seed N] [--keep FILE]

N random texts of version 2 and half as many of version 1, right ones and wrong ones, and rows with their answers: `spec` has to say of each what the slow reader says.
The reader gathers all causes of a line, asks of each token whether any right line begins with the tokens so far, and writes the canonical text of what is right, which
it has to read again as the same. Tells how often each answer came, and of how many texts the answers differ: the first ten are kept in FILE. Ends with 1 where
something differs or, with at least 2,000 texts, where a cause came fewer than five times.
"""
import argparse, collections, itertools, pathlib, random, re, subprocess, sys, tempfile

sys.dont_write_bytecode = True
from draw_specifications import drawn

LIMITS = {'kinds': 32, 'methods': 16, 'arguments': 6, 'nodes': 64, 'depth': 32, 'predicates': 5, 'tokens': 512, 'text': 1048576}
TAKEN = ['register', 'counter', 'set', 'dictionary', 'bag', 'peak', 'queue', 'tally']
SIGNS = ['=', '!=', '<', '<=']
# of the causes of a line the first of these is told, where it stands leftmost
CAUSES = ['header', 'limit tokens', 'syntax', 'unknown-method', 'unknown-variable', 'no-variable', 'outside-fragment', 'duplicate', 'missing-pair', 'kind-taken',
          'limit kinds', 'limit methods', 'limit arguments', 'limit nodes', 'limit depth', 'limit predicates']
NAMES = ['accepted', 'header', 'syntax', 'unknown-method', 'unknown-variable', 'no-variable', 'outside-fragment cross-relation', 'outside-fragment not-over-cross',
         'outside-fragment or-of-cross', 'duplicate', 'missing-pair', 'kind-taken', *(f'limit {name} {number}' for name, number in LIMITS.items())]
Token = collections.namedtuple('Token', 'word place')      # a token that is wrong by itself has no word
Cause = collections.namedtuple('Cause', 'name place text')


# ---- tokens

def is_text(word):
    """Whether a quoted token is the spelling of a text: `"` and `\\` behind a `\\`, the printable bytes as they are, each other as `\\x` and two digits."""
    pieces = re.fullmatch(r'"((?:[ !#-\[\]-~]|\\["\\]|\\x[0-9a-f]{2})*)"', word)
    if not pieces:
        return False
    pieces = re.findall(r'\\x..|\\.|.', pieces[1])
    return len(pieces) <= 255 and not any(len(piece) == 4 and 0x20 <= int(piece[2:], 16) <= 0x7e for piece in pieces)


def is_value(word):
    if re.fullmatch(r'0|-?[1-9][0-9]*', word):
        return -2 ** 63 <= int(word) < 2 ** 63
    return word in ('nil', 'true', 'false') or word[0] == '"'


def is_name(word):
    return bool(re.fullmatch(r'[A-Za-z0-9_.:$#@-]{1,64}', word))


def is_variable(word):
    return bool(re.fullmatch(r'[A-Za-z][A-Za-z0-9_]{0,63}', word)) and word not in ('true', 'false', 'nil', 'not', 'and', 'or', 'when')


def is_sided(word):
    return word[-2:] in ('@1', '@2') and is_variable(word[:-2])


def tokens_of(line):
    """The tokens of a line, each with the number of its first byte, from 1."""
    tokens, at = [], 0
    while at < len(line):
        end, word = at + 1, line[at]
        if word == '"':
            while end < len(line) and line[end] != '"':
                end += 2 if line[end] == '\\' else 1       # a backslash takes the next byte with it
            end += 1
            word = line[at:end] if end <= len(line) and is_text(line[at:end]) else None
        elif word not in ' ()':
            run = re.compile(r"[!#-'*-~]+").match(line, at)
            end, word = (run.end(), run[0]) if run else (end, None)
        if word != ' ':
            tokens.append(Token(word, at + 1))
        at = end
    return tokens


# ---- forms of lines

CLASSES = {'NAME': is_name, 'VARIABLE': is_variable, 'SIDED': is_sided, 'VALUE': is_value, 'SIGN': SIGNS.__contains__, 'TRUTH': ['true', 'false'].__contains__}
LINES = {
    'kind': 'kind NAME',
    'method': 'method NAME -> VARIABLE | method NAME variables -> VARIABLE',
    'define': 'define NAME VARIABLE when disj',
    'default': 'default TRUTH',
    'commute': 'commute NAME SECOND when disj',
}


def grammar(version, first, allowed):
    """The forms of the lines that may stand here; `first` is the first word of the line."""
    term = 'VARIABLE | VALUE' if first == 'define' else 'SIDED | VALUE'
    prim = 'true | false | ( disj ) | term SIGN term' + (' | SIDED' if version == 2 and first == 'commute' else '')
    rules = {'line': ' | '.join(LINES[word] for word in allowed), 'variables': 'VARIABLE | variables VARIABLE', 'disj': 'conj | disj or conj',
             'conj': 'neg | conj and neg', 'neg': 'prim | not neg', 'prim': prim, 'term': term}
    return {head: [tuple(form.split()) for form in forms.split(' | ')] for head, forms in rules.items()}


def first_wrong(rules, count, fits):
    """The first of so many tokens at which no right line begins with the tokens so far: `count` where the line ends too early, none where it is right.

    Kept are all beginnings: a form of a head, how much of it was seen, and the token at which it began."""
    begun, new = [], [('line', form, 0, 0) for form in rules['line']]
    for at in range(count + 1):
        here = set()
        while new:
            item = new.pop()
            if item in here:
                continue
            here.add(item)
            head, form, seen, start = item
            if seen == len(form):
                new += [(h, f, s + 1, b) for h, f, s, b in begun[start] if s < len(f) and f[s] == head]
            elif form[seen] in rules:
                new += [(form[seen], f, 0, at) for f in rules[form[seen]]]
        begun.append(here)
        if at == count:
            return None if any(head == 'line' and seen == len(form) for head, form, seen, _ in here) else at
        new = [(head, form, seen + 1, start) for head, form, seen, start in here if seen < len(form) and form[seen] not in rules and fits(form[seen], at)]
        if not new:
            return at


# ---- formulas: what they are, where it stands, and their parts

def parts(formula):
    return formula[2:] if formula[0] in ('not', 'and', 'or') else ()


def tree(tokens, sided):
    """The formula of tokens that are one: apart at the last `or` outside parentheses, else at the last `and`."""
    for word in ('or', 'and'):
        inside, last = 0, None
        for at, token in enumerate(tokens):
            inside += (token.word == '(') - (token.word == ')')
            last = at if token.word == word and not inside else last
        if last is not None:
            return word, tokens[last].place, tree(tokens[:last], sided), tree(tokens[last + 1:], sided)
    word, place = tokens[0]
    if word == 'not':
        return 'not', place, tree(tokens[1:], sided)
    if word == '(':
        return tree(tokens[1:-1], sided)
    if len(tokens) == 3:
        return 'relation', tokens[1].place, tokens[1].word, *[(term(token.word, sided), token.place) for token in (tokens[0], tokens[2])]
    return (word, place) if word in ('true', 'false') else ('name', place, term(word, sided))


def term(word, sided):
    """The side of a term and its word: 0 for a variable without a side, none for a value."""
    if sided and is_sided(word):
        return int(word[-1]), word[:-2]
    return (0 if not sided and is_variable(word) else None), word


def leaves(formula):
    return [leaf for part in parts(formula) for leaf in leaves(part)] or [formula]


def meaning(formula, definitions):
    """The formula with its names expanded, and of each relation what it gives."""
    what, place = formula[:2]
    if what == 'name':
        side, name = formula[2]
        return on_side(definitions[side, name], side)
    if what == 'relation':
        _, _, sign, (left, _), (right, _) = formula
        if None not in (left[0], right[0]) and left[0] != right[0]:
            return ('cross', place, *sorted([left, right])) if sign == '!=' else ('mixed', place)
        return ('not', place, ('atom', place, '=', left, right)) if sign == '!=' else ('atom', place, sign, left, right)
    return (what, place, *(meaning(part, definitions) for part in parts(formula)))


def on_side(formula, side):
    if formula[0] == 'atom':
        return (*formula[:3], *((side if at == 0 else at, word) for at, word in formula[3:]))
    return (*formula[:2], *(on_side(part, side) for part in parts(formula)))


def nodes(formula):
    return 1 + sum(map(nodes, parts(formula)))


def depth(formula):
    return 1 + max(map(depth, parts(formula)), default=0)


def is_across(formula):
    return formula[0] in ('cross', 'mixed') or any(map(is_across, parts(formula)))


def outside(formula):
    """The first that keeps a formula out of the fragment, parts before the whole: its place and why, or none."""
    for part in parts(formula):
        found = outside(part)
        if found:
            return found
    what, place = formula[:2]
    if what == 'mixed':
        return place, 'cross-relation'
    if what == 'not' and is_across(formula):
        return place, 'not-over-cross'
    if what == 'or' and all(map(is_across, parts(formula))):
        return place, 'or-of-cross'
    return None


def is_conjunction(formula):
    return formula[0] in ('true', 'false', 'cross') or formula[0] == 'and' and all(map(is_conjunction, parts(formula)))


def is_one_sided(formula):
    return formula[0] not in ('cross', 'mixed') and all(map(is_one_sided, parts(formula)))


def is_inside(formula):
    """The fragment by its grammar."""
    if is_conjunction(formula) or is_one_sided(formula):
        return True
    return formula[0] in ('and', 'or') and all(map(is_inside, parts(formula))) and (formula[0] == 'and' or any(map(is_one_sided, parts(formula))))


def predicates(formula, side):
    """The relations that speak of this side alone, without it."""
    if formula[0] == 'atom':
        return {(formula[2], *((None if at is None else 0, word) for at, word in formula[3:]))} if side in (formula[3][0], formula[4][0]) else set()
    return set().union(*(predicates(part, side) for part in parts(formula)))


def spelled(formula, unless=()):
    """The canonical text of a formula, in parentheses where it is one of those."""
    what = formula[0]
    if what in unless:
        return f'({spelled(formula)})'
    if what == 'atom' or what == 'not' and formula[2][:1] + formula[2][2:3] == ('atom', '='):
        _, _, sign, left, right = formula if what == 'atom' else (*formula[2][:2], '!=', *formula[2][3:])
        return ' '.join([of_side(left), sign, of_side(right)])
    if what == 'cross':
        return f'{of_side(formula[2])} != {of_side(formula[3])}'
    if what == 'not':
        return f'not {spelled(formula[2], ("and", "or"))}'
    if what == 'and':
        return f'{spelled(formula[2], ("or",))} and {spelled(formula[3], ("and", "or"))}'
    if what == 'or':
        return f'{spelled(formula[2])} or {spelled(formula[3], ("or",))}'
    return what


def of_side(one):
    side, word = one
    return word if side is None else f'{word}@{side}'


# ---- reading

class Kind:
    def __init__(self, name):
        self.name, self.stage, self.default = name, 'method', None
        self.methods, self.definitions, self.pairs = {}, {}, {}    # by method: its variables; by method and name; by numbers of methods

    def number(self, method):
        return list(self.methods).index(method)

    def missing(self):
        """The first pair that nothing is said of, or none."""
        pairs = itertools.combinations_with_replacement(self.methods, 2)
        return next((pair for pair in pairs if self.default is None and tuple(map(self.number, pair)) not in self.pairs), None)

    def lines(self):
        yield f'kind {self.name}'
        for method, variables in self.methods.items():
            yield ' '.join(['method', method, *variables[:-1], '->', variables[-1]])
        for pair in itertools.combinations_with_replacement(self.methods, 2):
            formula = self.pairs.get(tuple(map(self.number, pair)), (self.default,))
            yield f'commute {pair[0]} {pair[1]} when {spelled(formula)}'


class Reading:
    """What was read so far. Each line without a cause is kept."""
    def __init__(self):
        self.version, self.kinds = None, []

    def causes(self, line):
        """All causes of a line that isn't skipped."""
        tokens, causes = tokens_of(line), []
        words = [token.word for token in tokens]
        if self.version is None:
            if words in (['rdspec', '1'], ['rdspec', '2']):
                self.version = int(words[1])
                return []
            return [Cause('header', 0, 'header')]
        if words[0] in ['commute', 'define'][:self.version] and words[3:4] == ['when'] and len(words) - 4 > LIMITS['tokens']:
            causes.append(limit('tokens', tokens[3]))
        wrong = first_wrong(grammar(self.version, words[0], self.allowed()), len(tokens), lambda symbol, at: self.fits(symbol, at, words))
        if wrong is not None:
            return causes + [Cause('syntax', tokens[wrong].place if wrong < len(tokens) else len(line) + 1, 'syntax')]
        return causes + list(getattr(self, f'of_{words[0]}')(tokens, words))

    def allowed(self):
        """The first words of the lines that may stand here."""
        if not self.kinds:
            return ['kind']
        stages = ['method', 'define', 'default', 'commute']
        return [word for word in stages[stages.index(self.kinds[-1].stage):] if self.version == 2 or word not in ('define', 'default')] + ['kind']

    def fits(self, symbol, at, words):
        if words[at] is None:
            return False
        if symbol == 'SECOND':                             # a name that isn't that of a method before the first
            methods = list(self.kinds[-1].methods)
            return is_name(words[at]) and not (words[1] in methods and words[at] in methods[:methods.index(words[1])])
        return CLASSES[symbol](words[at]) if symbol in CLASSES else words[at] == symbol

    def of_kind(self, tokens, words):
        name = tokens[1]
        if any(kind.name == name.word for kind in self.kinds):
            yield Cause('duplicate', name.place, 'duplicate')
        missing = self.kinds and self.kinds[-1].missing()
        if missing:
            yield Cause('missing-pair', 0, 'missing-pair %s %s' % missing)
        if name.word in TAKEN:
            yield Cause('kind-taken', name.place, 'kind-taken')
        if len(self.kinds) == LIMITS['kinds']:
            yield limit('kinds', name)
        self.kinds.append(Kind(name.word))

    def of_method(self, tokens, words):
        kind, (_, name, *arguments, _, result) = self.kinds[-1], tokens
        variables = [token.word for token in (*arguments, result)]
        if name.word in kind.methods:
            yield Cause('duplicate', name.place, 'duplicate')
        for at, token in enumerate((*arguments, result)):
            if token.word in variables[:at]:
                yield Cause('duplicate', token.place, 'duplicate')
        if len(kind.methods) == LIMITS['methods']:
            yield limit('methods', name)
        if len(arguments) > LIMITS['arguments']:
            yield limit('arguments', arguments[LIMITS['arguments']])
        kind.methods.setdefault(name.word, variables)

    def of_default(self, tokens, words):
        kind = self.kinds[-1]
        if kind.default is not None:
            yield Cause('duplicate', tokens[0].place, 'duplicate')
        kind.stage, kind.default = 'default', words[1]

    def of_define(self, tokens, words):
        kind, (_, method, name, when) = self.kinds[-1], tokens[:4]
        kind.stage = 'define'
        yield from self.unknown([method])
        variables = kind.methods.get(method.word)
        formula, wrong = self.formula(tokens[4:], {0: variables}, {})
        yield from wrong
        if variables is not None and (name.word in variables or (method.word, name.word) in kind.definitions):
            yield Cause('duplicate', name.place, 'duplicate')
        if formula:
            yield from too_large(formula, when)
            kind.definitions.setdefault((method.word, name.word), formula)

    def of_commute(self, tokens, words):
        kind, (_, *methods, when) = self.kinds[-1], tokens[:4]
        kind.stage = 'commute'
        yield from self.unknown(methods)
        sides = dict(enumerate((method.word for method in methods), 1))
        known = {(side, name): formula for (method, name), formula in kind.definitions.items() for side in sides if sides[side] == method}
        formula, wrong = self.formula(tokens[4:], {side: kind.methods.get(method) for side, method in sides.items()}, known)
        yield from wrong
        if not all(method in kind.methods for method in sides.values()):
            return
        pair = tuple(map(kind.number, sides.values()))
        if pair in kind.pairs:
            yield Cause('duplicate', methods[0].place, 'duplicate')
        if not formula:
            return
        found = outside(formula)
        assert is_inside(formula) == (found is None), spelled(formula)
        if found:
            yield Cause('outside-fragment', found[0], f'outside-fragment {found[1]}')
        yield from too_large(formula, when)
        kind.pairs.setdefault(pair, formula)
        for number in set(pair):
            told = [predicates(one, side) for firsts, one in kind.pairs.items() for side in (1, 2) if firsts[side - 1] == number]
            if len(set().union(*told)) > LIMITS['predicates']:
                yield limit('predicates', when)

    def unknown(self, methods):
        return [Cause('unknown-method', method.place, 'unknown-method') for method in methods if method.word not in self.kinds[-1].methods]

    def formula(self, tokens, variables, known):
        """The formula of a line, none where something in it is unknown, and the causes. `variables` are those of each side, none where its method is unknown."""
        read, wrong = tree(tokens, 0 not in variables), []
        for leaf in leaves(read):
            if leaf[0] == 'name' and variables[leaf[2][0]] is not None and leaf[2] not in known:
                wrong.append(Cause('unknown-variable', leaf[1], 'unknown-variable'))
            if leaf[0] == 'relation':
                for (side, word), place in leaf[3:]:
                    if side is not None and variables[side] is not None and word not in variables[side]:
                        wrong.append(Cause('unknown-variable', place, 'unknown-variable'))
                if all(one[0] is None for one, _ in leaf[3:]):
                    wrong.append(Cause('no-variable', leaf[1], 'no-variable'))
        return None if wrong or None in variables.values() else meaning(read, known), wrong


def limit(name, token):
    return Cause(f'limit {name}', token.place, f'limit {name} {LIMITS[name]}')


def too_large(formula, when):
    if nodes(formula) > LIMITS['nodes']:
        yield limit('nodes', when)
    if depth(formula) > LIMITS['depth']:
        yield limit('depth', when)


Answer = collections.namedtuple('Answer', 'status text version causes')


def wanted(text):
    """What `spec` answers to a text and writes, the version of the text where it has a header, and the causes of the line that is refused."""
    reading = Reading()
    if len(text) > LIMITS['text']:
        return refused(reading, 0, [Cause('limit text', 0, f'limit text {LIMITS["text"]}')])
    lines = text.split('\n')
    lines = lines[:-1] if not lines[-1] else lines         # the last line may lack its line feed
    for number, line in enumerate(lines, 1):
        if line.strip(' ') and line[0] != '#':
            causes = reading.causes(line)
            if causes:
                return refused(reading, number, sorted(causes, key=lambda cause: (CAUSES.index(cause.name), cause.place)))
    if reading.version is None:
        return refused(reading, len(lines) + 1, [Cause('header', 0, 'header')])
    missing = reading.kinds and reading.kinds[-1].missing()
    if missing:
        return refused(reading, len(lines) + 1, [Cause('missing-pair', 0, 'missing-pair %s %s' % missing)])
    return Answer(0, '\n'.join(['rdspec 1', *(line for kind in reading.kinds for line in kind.lines()), '']), reading.version, [])


def refused(reading, number, causes):
    name, place, text = causes[0]
    return Answer(9 if name.startswith('limit') else 3, f'refused spec line {number} place {place} {text}\n', reading.version, causes)


# ---- rows with their answers

CELL = 'kind cell\nmethod put value -> prev\nmethod get -> value\n'
NAMED = f'rdspec 2\n{CELL}define put same when value = prev\ndefault true\ncommute put put when same@1 and same@2\ncommute put get when same@1\n'
SHORT = 'kind k\nmethod m a -> r\n'
DICT = 'rdspec 1\nkind dict\nmethod put key value -> prev\ncommute put put when '


def behind(text, *lines):
    """Rows of which each has one more line behind a text."""
    return [(f'{text}{line}\n', answer) for line, answer in lines]


ROWS = [
    # names and a default, and what is wrong without them
    (NAMED, f'rdspec 1\n{CELL}commute put put when value@1 = prev@1 and value@2 = prev@2\ncommute put get when value@1 = prev@1\ncommute get get when true\n'),
    (NAMED.replace('rdspec 2', 'rdspec 1'), 'line 5 place 1 syntax'),
    (NAMED.replace('put get when same@1', 'put get when other@1'), 'line 8 place 22 unknown-variable'),
    (NAMED.replace('default true\n', ''), 'line 8 place 0 missing-pair get get'),
    # the canonical text
    (f'rdspec 1\n{CELL}commute get get when (true)\ncommute put get when not (value@1 != prev@1)\ncommute put put when ( value@1 = prev@1 ) and value@2 = prev@2\n',
     f'rdspec 1\n{CELL}commute put put when value@1 = prev@1 and value@2 = prev@2\ncommute put get when not value@1 != prev@1\ncommute get get when true\n'),
    (f'rdspec 1\n{CELL}commute put put when true\ncommute put get when true\n', 'line 7 place 0 missing-pair get get'),
    ('rdspec 1\nkind queue\n', 'line 2 place 6 kind-taken'),
    # the fragment
    *behind(DICT, ('key@1 != key@2 or value@1 != value@2', 'line 4 place 37 outside-fragment or-of-cross'), ('key@1 = key@2', 'line 4 place 28 outside-fragment cross-relation'),
            ('not (key@1 != key@2)', 'line 4 place 22 outside-fragment not-over-cross')),
    # causes of lines and formulas
    *behind(f'rdspec 1\n{SHORT}', ('commute m n when true', 'line 4 place 11 unknown-method'), ('commute m m when b@1 = 1', 'line 4 place 18 unknown-variable'),
            ('commute m m when 1 = 2', 'line 4 place 20 no-variable'), ('commute m m when a@1 =', 'line 4 place 23 syntax'), ('commute m m true', 'line 4 place 13 syntax'),
            ('method m -> r', 'line 4 place 8 duplicate')),
    *behind(f'rdspec 1\n{CELL}', ('commute put put when value@1=prev@1', 'line 5 place 22 syntax'), ('commute put put when value@1 == nil', 'line 5 place 30 syntax'),
            ('commute put put when value@1 = null', 'line 5 place 32 syntax'), ('commute put put when value = nil', 'line 5 place 22 syntax'),
            ('commute put put when (true', 'line 5 place 27 syntax'), ('commute put put when true # never', 'line 5 place 27 syntax'),
            ('commute get put when true', 'line 5 place 13 syntax'), ('commute get put', 'line 5 place 13 syntax'), ('commute \x01 put', 'line 5 place 9 syntax'),
            ('method set value', 'line 5 place 17 syntax'), ('commute put size when true', 'line 5 place 13 unknown-method'),
            ('commute size put when true', 'line 5 place 9 unknown-method'),
            ('commute put get when prev@2 = nil', 'line 5 place 22 unknown-variable'), ('commute put get when 1 = 2', 'line 5 place 24 no-variable'),
            ('commute put put when value@1 != value@2 or prev@1 != prev@2', 'line 5 place 41 outside-fragment or-of-cross'),
            ('method put value -> prev', 'line 5 place 8 duplicate'), ('method set value value -> prev', 'line 5 place 18 duplicate'),
            ('method put a a -> a', 'line 5 place 8 duplicate'),
            ('kind next', 'line 5 place 0 missing-pair put put'), ('kind cell', 'line 5 place 6 duplicate'), ('kind set', 'line 5 place 0 missing-pair put put'),
            ('', 'line 6 place 0 missing-pair put put'),
            (' # x', 'line 5 place 2 syntax'), ('commute put put when value@1', 'line 5 place 29 syntax'), ('commute put put when true and = 1', 'line 5 place 31 syntax'),
            ('commute put put when nil', 'line 5 place 25 syntax'), ('commute put put when "\\\\" = value@1 x', 'line 5 place 37 syntax'),
            ('commute put put when true\t', 'line 5 place 26 syntax'),
            ('commute put put when true = value@1  ', 'line 6 place 0 missing-pair put get')),
    *behind(f'rdspec 2\n{CELL}', ('commute put put when value@1', 'line 5 place 22 unknown-variable'),
            ('default true\ncommute put put when put@1 = 1', 'line 6 place 22 unknown-variable'),
            ('define put value when true', 'line 5 place 12 duplicate'), ('define put same when value', 'line 5 place 27 syntax'),
            ('define put same when value@1 = 1', 'line 5 place 22 syntax'),
            ('define put same when 1 = 2', 'line 5 place 24 no-variable'), ('define size same when true', 'line 5 place 8 unknown-method'),
            ('define put when when true', 'line 5 place 12 syntax'),
            ('define get same when prev = 1', 'line 5 place 22 unknown-variable'), ('define put same when true\ndefine put same when true', 'line 6 place 12 duplicate'),
            ('default true\ndefine put same when true', 'line 6 place 1 syntax'), ('default true\nmethod set -> r', 'line 6 place 1 syntax'),
            ('default true\ndefault true', 'line 6 place 1 duplicate'), ('default true\n  default false', 'line 6 place 3 duplicate'),
            ('default true\ndefault maybe', 'line 6 place 9 syntax'),
            ('commute put put when true\ndefault true', 'line 6 place 1 syntax'), ('default true true', 'line 5 place 14 syntax'), ('default', 'line 5 place 8 syntax')),
    (NAMED.replace('same@2', 'same@2 = 1'), 'line 7 place 33 unknown-variable'), (NAMED.replace('put get when same@1', 'put get when same@2'), 'line 8 place 22 unknown-variable'),
    # headers and lines
    ('', 'line 1 place 0 header'), ('# none\n\n', 'line 3 place 0 header'), ('\n', 'line 2 place 0 header'), ('rdspec"1"\n', 'line 1 place 0 header'),
    ('rdspec 1 \x01\n', 'line 1 place 0 header'),
    ('rdspec 1\r\n', 'line 1 place 0 header'), ('  rdspec   2 ', 'rdspec 1\n'), ('rdspec 1\nrdspec 1\n', 'line 2 place 1 syntax'),
    ('rdspec 2\nmethod m -> r\n', 'line 2 place 1 syntax'),
    ('rdspec 1\nkind k\ncommute m m when true', 'line 3 place 9 unknown-method'), ('rdspec 2\nkind k\ndefine m a when true', 'line 3 place 8 unknown-method'),
    ('rdspec 2\nkind k\ndefault false', 'rdspec 1\nkind k\n'),
    ('rdspec 1\nkind when\nmethod true -> r\ncommute true true when true', 'rdspec 1\nkind when\nmethod true -> r\ncommute true true when true\n'),
    # limits: reached, and passed by one
    *[(f'rdspec {version}\n{SHORT}commute m m when {formula}\n', answer) for version in (1, 2) for formula, answer in [
        (' or '.join(f'a@1 = {i}' for i in range(6)), 'line 4 place 13 limit predicates 5'), ('not ' * 32 + 'true', 'line 4 place 13 limit depth 32'),
        (' and '.join(['true'] * 33), 'line 4 place 13 limit nodes 64'), ('(' * 256 + 'true' + ')' * 256, 'line 4 place 13 limit tokens 512'),
        ('\x01' * 513, 'line 4 place 13 limit tokens 512'),
        ('\x01' * 512, 'line 4 place 18 syntax'), ('a@1 != r@2 or ' + ' and '.join(['a@1 != r@2'] * 40), 'line 4 place 29 outside-fragment or-of-cross')]],
    *[(f'rdspec {version}\n{SHORT}commute m m when {formula}\n', f'rdspec 1\n{SHORT}commute m m when {canonical or formula}\n') for version in (1, 2) for formula, canonical in [
        (' or '.join(f'a@1 = {i}' for i in range(5)), None), ('not ' * 31 + 'true', None), (' and '.join(['true'] * 32), None), ('(' * 255 + 'true' + ')' * 255, 'true'),
        ('r@2 != a@1', 'a@1 != r@2'), ('not a@1 = 1', 'a@1 != 1'), ('not not a@1 = 1', 'not a@1 != 1'), ('not (true or false) and (true and (false or true))', None)]],
    ('rdspec 2\nkind k\nmethod m a b c d e f g -> r\n', 'line 3 place 22 limit arguments 6'),
    *[(f'rdspec {version}\n' + ''.join(f'kind k{i}\n' for i in range(33)), 'line 34 place 6 limit kinds 32') for version in (1, 2)],
    *[(f'rdspec {version}\nkind k\n' + ''.join(f'method m{i} -> r\n' for i in range(17)), 'line 19 place 8 limit methods 16') for version in (1, 2)],
    (f'rdspec 2\n{SHORT}define m p when {" and ".join(["true"] * 33)}\n', 'line 4 place 12 limit nodes 64'),
    (f'rdspec 2\n{SHORT}define m p when {"not " * 32}true\n', 'line 4 place 12 limit depth 32'),
    (f'rdspec 2\n{SHORT}define m p when {"(" * 256}true{")" * 256}\n', 'line 4 place 12 limit tokens 512'),
    (f'rdspec 1\n{SHORT}define m p when {"(" * 256}true{")" * 256}\n', 'line 4 place 1 syntax'),
    (f'rdspec 2\n{SHORT}define m p when a != 1 and a != 2\ncommute m m when {" and ".join(["p@1"] * 11)}\n', 'line 5 place 13 limit nodes 64'),
    (f'rdspec 2\n{SHORT}define m p when {" or ".join(f"a = {i}" for i in range(6))}\ndefault true\ncommute m m when p@1\n', 'line 6 place 13 limit predicates 5'),
    ('rdspec 1\n' + '#' * (LIMITS['text'] - 9), 'rdspec 1\n'), ('rdspec 1\n' + '#' * (LIMITS['text'] - 8), 'line 0 place 0 limit text 1048576'),
]


# ---- the checks

class Runs:
    def __init__(self, rd2, folder):
        self.rd2, self.file = rd2, pathlib.Path(folder) / 'some.spec'

    def spec(self, text):
        self.file.write_bytes(text.encode('latin-1'))
        done = subprocess.run([self.rd2, 'spec', self.file], capture_output=True)
        return done.returncode, done.stdout.decode('latin-1')


def check(runs, text, version, right, counts):
    """What is wrong with the answer to a text, or none."""
    answer = wanted(text)
    told = runs.spec(text)
    if told != answer[:2]:
        return f'spec answers {told}, and not {answer[:2]}'
    if right and answer.status:
        return f'a text that is right by construction is refused: {answer[:2]}'
    if not answer.status and wanted(answer.text)[:2] != answer[:2]:
        return 'the canonical text is read as another'
    name = answer.causes[0].text.split(' ') if answer.causes else ['accepted']
    counts[answer.version or version, ' '.join(name[:1] if name[0] == 'missing-pair' else name)] += 1
    counts['lines with two causes'] += len({cause.name for cause in answer.causes}) > 1
    return None


def main():
    options = argparse.ArgumentParser(usage=__doc__)
    options.add_argument('--rd2', required=True)
    options.add_argument('--count', type=int, default=2000)
    options.add_argument('--seed', type=int, default=1)
    options.add_argument('--keep', default=pathlib.Path(tempfile.gettempdir()) / 'specifications_that_differ.txt')
    given = options.parse_args()
    sys.setrecursionlimit(10000)                           # for a formula of 512 tokens
    counts, differing = collections.Counter(), []
    with tempfile.TemporaryDirectory() as folder:
        runs = Runs(str(pathlib.Path(given.rd2).resolve()), folder)
        for text, answer in ROWS:
            row = (0, answer) if answer.startswith('rdspec') else (9 if ' limit ' in answer else 3, f'refused spec {answer}\n')
            if wanted(text)[:2] != row:
                differing.append((f'the slow reader answers {wanted(text)[:2]} to a row, and not {row}', text))
            elif runs.spec(text) != row:
                differing.append((f'spec answers {runs.spec(text)} to a row, and not {row}', text))
        for version, number in [(2, number) for number in range(given.count)] + [(1, number) for number in range(given.count // 2)]:
            text, right = drawn(random.Random(f'{given.seed} {version} {number}'), version, number)
            wrong = check(runs, text, version, right, counts)
            if wrong:
                differing.append((f'text {number} of version {version}: {wrong}', text))
    seldom = []
    print(f'{len(ROWS)} rows, {counts["lines with two causes"]} lines with two causes')
    for version in (1, 2):
        told = {name: counts[version, name] for name in NAMES}
        print(f'version {version}: ' + ', '.join(f'{count} {name}' for name, count in told.items()))
        seldom += [f'{name} in version {version}' for name, count in told.items() if count < 5 and given.count >= 2000]
    if seldom:
        print('fewer than five: ' + ', '.join(seldom))
    if differing:
        pathlib.Path(given.keep).write_bytes('\n\n'.join(f'{wrong}\n--\n{text}' for wrong, text in differing[:10]).encode('latin-1'))
        print('\n'.join(wrong[:300] for wrong, _ in differing[:10]) + f'\n{len(differing)} differ, the first are in {given.keep}')
    else:
        print('none differs')
    sys.exit(1 if differing or seldom else 0)


if __name__ == '__main__':
    main()
