#!/usr/bin/env python3
"""Draws texts of specifications for check_specifications.py: right ones by construction, and changed ones, most of which are wrong.

A line is the list of its words, or its text; a formula is a tree over leaves.
"""
import collections, itertools, re

MOST_NODES, MOST_LEVELS, MOST_BYTES = 64, 32, 1048576
TAKEN = ['register', 'counter', 'set', 'dictionary', 'bag', 'peak', 'queue', 'tally']
SIGNS = ['=', '!=', '<', '<=']
Leaf = collections.namedtuple('Leaf', 'words nodes depth')
LONG = 'l' * 64
VARIABLES = ['key', 'value', 'prev', 'done', 'a', 'b', 'x1', 'Z_9', 'nothing', 'same', LONG]
METHODS = ['put', 'get', 'size', 'add', 'm', '7', 'a@1', 'java.util.Map#x:y$-', 'when', 'true', 'commute', 'N' * 64]
KINDS = ['cell', 'k', 'kind', 'K9', 'own.Kind@2', 'define', 'default', '0', '-', 'or', '#', 'Register']
VALUES = ['nil', 'true', 'false', '0', '1', '-1', '9223372036854775807', '-9223372036854775808', '""', '"a"', '"a b"', '"\\x0a\\xff"', '"\\"\\\\"', '"(or)"', f'"{"q" * 255}"']
ODD = ['a@3', '@1', '1@1', 'true@1', 'key@', 'key', 'a@1=1', '<>', '==', '>', '&&', '1.5', '-0', '007', '+1', '9223372036854775808', '"a', '"\\x41"', '"\\x0A"', '"\\',
       "'a'", f'"{"q" * 256}"', 'rdspec', '->', '#', '\t', '\r', '\x00', '\x80', 'a\x80b', LONG + 'l', LONG + 'l@1', '{', 'V', 'k' * 65, 'is-open', 'a.b']
WORDS = ['(', ')', 'true', 'false', 'nil', 'not', 'and', 'or', 'when', '=', '!=', '<', '<=', 'key@1', 'value@2', 'same@1', 'same@2', 'kind', 'method', 'commute', 'define', 'default', '->',
         *METHODS[:4], *VARIABLES[:4], *VALUES[:5], *ODD]


def size(formula):
    """Nodes and levels of a drawn formula."""
    if isinstance(formula, Leaf):
        return formula.nodes, formula.depth
    sizes = [size(part) for part in formula[1:]]
    return 1 + sum(count for count, _ in sizes), 1 + max(levels for _, levels in sizes)


def words_of(r, formula, place=0):
    """The words of a formula, in parentheses where it needs them and here and there besides; 0 is the place of an `or`, 1 of an `and`, 2 of what stands behind them."""
    if isinstance(formula, Leaf):
        words, needs = list(formula.words), False
    elif formula[0] == 'not':
        words, needs = ['not', *words_of(r, formula[1], 2)], False
    else:
        own = 1 if formula[0] == 'and' else 0
        words, needs = [*words_of(r, formula[1], own), formula[0], *words_of(r, formula[2], own + 1)], own < place
    return ['(', *words, ')'] if needs or r.random() < .06 else words


def grown(r, leaf, levels):
    if levels == 0 or r.random() < .2:
        return leaf()
    what = r.choice(['not', 'and', 'or', 'and', 'or'])
    return (what, *(grown(r, leaf, levels - 1) for _ in range(1 if what == 'not' else 2)))


def of_nodes(r, count, small):
    """A formula of so many nodes over some leaves, one of which has one node."""
    fitting = [leaf for leaf in small if leaf.nodes == count]
    if fitting and (count == 1 or r.random() < .6):
        return r.choice(fitting)
    if count == 2 or r.random() < .1:
        return 'not', of_nodes(r, count - 1, small)
    left = r.randint((count - 1) // 3 or 1, (count - 1) // 2)
    both = [of_nodes(r, left, small), of_nodes(r, count - 1 - left, small)]
    return (r.choice(['and', 'or']), *r.sample(both, 2))


def of_depth(r, levels, small):
    """A formula of so many levels."""
    formula = r.choice([leaf for leaf in small if leaf.depth <= levels])
    while size(formula)[1] < levels:
        other = r.choice([leaf for leaf in small if leaf.nodes == 1])
        formula = r.choice([('not', formula)] * 5 + [('and', formula, other), ('or', other, formula)])
    return formula


def relation(r, left, sign, right):
    if sign == '=' and r.random() < .4:
        return Leaf([left, '!=', right], 2, 2)
    return Leaf([left, sign, right], 1, 1)


def crossing(r, first, second):
    left, right = r.sample([f'{first}@1', f'{second}@2'], 2)
    return Leaf([left, '!=', right], 1, 1)


class Shape:
    """A kind that is right: its methods, at most five predicates of each, definitions, a default, and formulas."""
    def __init__(self, r, version, name):
        self.r, self.name = r, name
        names = r.sample(METHODS, r.choice([0, 1, 1, 2, 2, 2, 3, 4]))
        self.methods = {method: r.sample(VARIABLES, r.choice([1, 2, 2, 3, 7])) for method in names}
        self.predicates = {method: self.relations(method, r.randint(0, 5)) for method in names}
        self.definitions = {method: {} for method in names}
        for method in names if version == 2 and r.random() < .8 else []:
            left = [name for name in VARIABLES if name not in self.methods[method]]
            for name in r.sample(left, r.choice([0, 1, 1, 2])):
                self.definitions[method][name] = grown(r, lambda: self.one_sided([(method, 0)]), r.choice([0, 1, 2]))
        self.default = r.choice([None, 'true', 'false']) if version == 2 else None
        pairs = list(itertools.combinations_with_replacement(names, 2))
        self.pairs = {pair: self.inside(*pair) for pair in r.sample(pairs, len(pairs)) if self.default is None or r.random() < .6}

    def relations(self, method, count):
        """So many different relations of variables of a method and values."""
        made = set()
        for _ in range(50 * count):
            left, right = (self.r.choice([(word, True) for word in self.methods[method]] + [(self.r.choice(VALUES), False)]) for _ in range(2))
            if len(made) < count and (left[1] or right[1]):
                made.add((left, self.r.choice(['=', '=', '=', '<', '<=']), right))
        return sorted(made)

    def one_sided(self, sides):
        """A leaf that speaks of one side of these, a method with each, or of none."""
        method, side = self.r.choice(sides)
        if side and self.definitions[method] and self.r.random() < .5:
            name, formula = self.r.choice(list(self.definitions[method].items()))
            return Leaf([f'{name}@{side}'], *size(formula))
        if not self.predicates[method] or self.r.random() < .15:
            return Leaf([self.r.choice(['true', 'false'])], 1, 1)
        (left, is_left), sign, (right, is_right) = self.r.choice(self.predicates[method])
        at = f'@{side}' if side else ''
        return relation(self.r, left + at * is_left, sign, right + at * is_right)

    def inside(self, first, second):
        """A formula of the fragment within the limits."""
        r, sides = self.r, [(first, 1), (second, 2)]
        one = lambda: grown(r, lambda: self.one_sided(sides), r.choice([0, 1, 2, 3]))
        cross = lambda: crossing(r, r.choice(self.methods[first]), r.choice(self.methods[second]))
        def drawn(levels):
            what = r.random()
            if levels == 0 or what < .3:
                return r.choice([one, cross, cross, lambda: ('and', cross(), cross())])()
            if what < .6:
                return 'and', drawn(levels - 1), drawn(levels - 1)
            return ('or', *r.sample([drawn(levels - 1), one()], 2))
        while True:
            formula = drawn(r.choice([0, 1, 1, 2, 3])) if r.random() < .6 else one()
            if size(formula)[0] <= MOST_NODES and size(formula)[1] <= MOST_LEVELS:
                return formula

    def lines(self):
        yield ['kind', self.name]
        for method, variables in self.methods.items():
            yield ['method', method, *variables[:-1], '->', variables[-1]]
        for method, named in self.r.sample(list(self.definitions.items()), len(self.definitions)):
            for name, formula in named.items():
                yield ['define', method, name, 'when', *words_of(self.r, formula)]
        if self.default:
            yield ['default', self.default]
        for (first, second), formula in self.pairs.items():
            yield ['commute', first, second, 'when', *words_of(self.r, formula)]


def kinds(r, version, count):
    """The lines of a right text of so many kinds."""
    return [['rdspec', str(version)], *(line for name in r.sample(KINDS, count) for line in Shape(r, version, name).lines())]


def sound(r, version):
    return kinds(r, version, r.choice([0, 1, 1, 1, 2, 3]))


def some(r, version, first):
    """A right text and the number of one of its lines with this first word."""
    while True:
        lines = sound(r, version)
        numbers = [at for at, line in enumerate(lines) if line[0] == first]
        if numbers:
            return lines, r.choice(numbers)


def is_term(word):
    """Whether this may be a variable, with or without a side."""
    return bool(re.fullmatch(r'[A-Za-z][A-Za-z0-9_]*(?:@[12])?', word)) and word not in ('true', 'false', 'nil', 'not', 'and', 'or', 'when')


def variables_at(lines, at):
    """The variables of the methods of the kind in which a line stands."""
    begin = max(number for number in range(at + 1) if lines[number][0] == 'kind')
    block = itertools.takewhile(lambda line: line[0] == 'method', lines[begin + 1:])
    return {line[1]: [word for word in line[2:] if word != '->'] for line in block}


# ---- changes that make a line wrong; most lines have then one cause, some more, some none

def other_method(r, lines, at):
    lines[at][r.choice([1, 1, 2] if lines[at][0] == 'commute' else [1])] = r.choice(['nobody', *METHODS])


def other_variable(r, lines, at):
    numbers = [n for n, word in enumerate(lines[at]) if n > 3 and is_term(word)]
    if numbers:
        n = r.choice(numbers)
        name, *side = lines[at][n].split('@')
        lines[at][n] = '@'.join([r.choice([name, *VARIABLES]), *(r.choice('12') for _ in side)])


def only_values(r, lines, at):
    numbers = [n for n, word in enumerate(lines[at]) if n > 3 and word in SIGNS]
    n = r.choice(numbers) if numbers else len(lines[at]) + 2
    if not numbers:
        lines[at] += ['and', '1', '=', '1']
    lines[at][n - 1], lines[at][n + 1] = r.choice(VALUES), r.choice(VALUES)


def odd_term(r, lines, at):
    """A term that is hardly one, or hardly not one."""
    numbers = [n for n, word in enumerate(lines[at]) if n > 3 and word in SIGNS]
    if numbers:
        word = r.choice(['9223372036854775808', '-9223372036854775809', '-9223372036854775808', '9223372036854775807', f'"{"q" * 256}"', f'"{"q" * 254}\\x0a"', *ODD])
        lines[at][r.choice(numbers) + r.choice([-1, 1])] = word


def odd_name(r, lines, at):
    """A name or variable that is hardly one, or hardly not one."""
    line = lines[at]
    n = r.choice([1, 1, *range(1, len(line))][:4])
    line[n] = r.choice(['k' * 64, 'k' * 65, 'a/b', 'a.b', '1', '1a', '_a', 'a_', 'when', 'true', 'A', '@', '"a"', 'a\xe4', '->', LONG, LONG + 'l'])


def one_more(r, lines, at):
    """Something of a formula put in front of one or behind it."""
    variables = variables_at(lines, at)
    names = [word + side for side in ('@1', '@2', '') for word in variables.get(lines[at][1], VARIABLES) + VARIABLES[:3]]
    more = r.choice([[r.choice(names)], [r.choice(names), r.choice(SIGNS), r.choice(names)], ['1', '<', r.choice(names)], ['not', *['('] * 3, 'true', *[')'] * 3],
                     ['not'] * r.choice([29, 31, 32])])
    if more[-1] == 'not' or r.random() < .5:
        lines[at][4:4] = more + ([r.choice(['and', 'or'])] if more[-1] != 'not' else [])
    else:
        lines[at] += [r.choice(['and', 'or']), *more]


def across(r, lines, at):
    """Any formula that relates the sides."""
    variables = variables_at(lines, at)
    first, second = (r.choice(variables.get(method, VARIABLES)) for method in lines[at][1:3])
    def leaf():
        what = r.random()
        if what < .5:
            return crossing(r, first, second)
        if what < .6:
            return Leaf([f'{first}@1', r.choice(['=', '<', '<=']), f'{second}@2'], 1, 1)
        return relation(r, f'{first}@1', '=', '1') if what < .8 else relation(r, 'nil', '=', f'{second}@2')
    lines[at][4:] = words_of(r, grown(r, leaf, r.choice([1, 2, 3])))


def use_of_name(r, lines, at):
    """A defined name of the kind, or a variable, used on a side: alone or beside a sign."""
    begin = max(n for n in range(at) if lines[n][0] == 'kind')
    names = [line[2] for line in lines[begin:at] if line[0] == 'define'] + [r.choice(VARIABLES)]
    use = f'{r.choice(names)}@{r.choice("12")}'
    lines[at] += [r.choice(['and', 'or']), *r.choice([[use], [use], ['not', use], [use, '=', '1'], ['nil', '<=', use]])]


def heads_again(r, lines, at):
    """The heads of another line of this kind."""
    lines[at][1:3] = r.choice([line for line in lines if line[0] == lines[at][0]])[1:3]


def heads_turned(r, lines, at):
    lines[at][1:3] = lines[at][2:0:-1]


def defined_again(r, lines, at):
    lines[at][2] = r.choice(variables_at(lines, at).get(lines[at][1], VARIABLES) + VARIABLES + ['when', 'a@1', '7'])


def other_word(r, lines, at):
    """A word dropped, doubled, exchanged with the next, put in or replaced."""
    line, what = lines[at], r.random()
    n = r.randrange(len(line))
    if what < .2 and len(line) > 1:
        del line[n]
    elif what < .3:
        line.insert(n, line[n])
    elif what < .5:
        line[n:n + 2] = line[n:n + 2][::-1]
    elif what < .75:
        line.insert(n + 1, r.choice(WORDS))
    else:
        line[n] = r.choice(WORDS)


def piled(r, lines, at):
    """Two or more causes on one line of a pair: something in its heads, or parts of its formula, each with a cause of its own."""
    line, variables = lines[at], variables_at(lines, at)
    first, second = (variables[method][0] + side for method, side in zip(line[1:3], ('@1', '@2')))
    cross, small = f'{first} != {second}', [Leaf(['true'], 1, 1), Leaf([first, '<', '7'], 1, 1)]
    causes = {'method': '', 'again': '', 'variable': r.choice(['nobody@1 = 1', f'{first} != nobody@2']), 'values': '1 < 2', 'nodes': ' '.join(words_of(r, of_nodes(r, 65, small))),
              'depth': ' '.join(words_of(r, of_depth(r, 33, small))), 'predicates': ' or '.join(f'{first} = {i}' for i in range(6)), 'syntax': r.choice(['true true', '\x01', 'nil', first + ' =']),
              'mixed': f'{second} <= {first}', 'not': f'not ({cross} and true)', 'or': f'{cross} or true and {cross}'}
    chosen = r.sample(sorted(causes), r.choice([2, 2, 3]))
    line[4:] = f'{" and ".join(f"({causes[cause]})" for cause in chosen if causes[cause])}'.split() or ['true']
    if 'method' in chosen:
        line[r.choice([1, 2])] = 'nobody'
    if 'again' in chosen:
        lines.insert(at + 1, [*line[:4], 'true'])
        lines[at], lines[at + 1] = lines[at + 1], lines[at]


def other_kind(r, lines, at):
    lines[at][1] = r.choice([*TAKEN, *KINDS])


def kind_again(r, lines, at):
    lines[at][1] = r.choice([line for line in lines if line[0] == 'kind'])[1]


def pair_less(r, lines, at):
    """A pair of the kind before is missing."""
    pairs = [n for n in range(at) if lines[n][0] == 'commute']
    if pairs:
        lines[r.choice(pairs)] = '# a pair'


def method_again(r, lines, at):
    lines[at][1] = r.choice([line for line in lines if line[0] == 'method'])[1]


def variable_again(r, lines, at):
    lines[at].insert(r.choice([2, len(lines[at]) - 2]), r.choice(lines[at][2:]))


def many_arguments(r, lines, at):
    lines[at][2:2] = [f'v{i}' for i in range(r.choice([4, 5, 6, 7, 8]))]


def default_again(r, lines, at):
    lines.insert(r.randint(at + 1, min(len(lines), at + 3)), r.choice([['default', 'true'], ['default', 'false'], ['default', 'maybe'], ['default', 'true', 'true'], ['default']]))


def default_less(r, lines, at):
    del lines[at]


def last_kind(r, version):
    """A text of several kinds with some causes on its last kind line."""
    lines = kinds(r, version, 3)
    at = max(n for n, line in enumerate(lines) if line[0] == 'kind')
    for harm in r.sample([other_kind, kind_again, pair_less, pair_less], r.choice([1, 2, 3])):
        harm(r, lines, at)
    return lines


def later(r, lines, at):
    lines.insert(r.randint(at, len(lines)), lines.pop(at))


HARMS = {
    'commute': [other_method, other_variable, other_variable, only_values, odd_term, odd_name, one_more, across, use_of_name, heads_again, heads_turned, other_word],
    'define': [other_method, other_variable, only_values, odd_term, odd_name, one_more, defined_again, defined_again, other_word, later],
    'default': [default_again, default_again, default_less, other_word, later],
    'method': [method_again, variable_again, many_arguments, many_arguments, odd_name, other_word, later],
    'kind': [other_kind, other_kind, kind_again, kind_again, pair_less, odd_name, other_word],
}


def harmed(first, times, harms=None):
    def drawn(r, version):
        lines, at = some(r, version, first)
        for harm in sorted(r.sample(harms or HARMS[first], times), key=[other_word, later, default_less].__contains__):
            harm(r, lines, at)
        return lines
    return drawn


# ---- whole texts

def other_header(r, version):
    lines = sound(r, version)
    lines[0] = r.choice([['rdspec', '3'], ['rdspec'], ['rdspec', '1', 'x'], ['rdspec', '"1"'], ['rdspec', '\x01'], ['rdspec1'], ['rdtrace', '1'], ['rdspec', '01'], ['rdspec', '1\r'],
                         ['\xef\xbb\xbfrdspec', '1'], ['kind', 'k'], ['commute', 'm', 'm', 'when', *['true'] * 600], '# only a comment'])
    return lines if r.random() < .8 else lines[:1] if r.random() < .5 else []


def other_version(r, version):
    """A text with the other header."""
    return [['rdspec', str(version)], *sound(r, 3 - version)[1:]]


def other_lines(r, version):
    """Lines dropped, doubled, exchanged or moved."""
    lines = sound(r, version) + sound(r, version)[1:]
    for _ in range(r.choice([1, 1, 2])):
        at, what = r.randrange(1, len(lines)) if len(lines) > 1 else 0, r.random()
        if what < .25:
            del lines[at]
        elif what < .35:
            lines.insert(at, r.choice(['\t', ' \t ', ' # x', '  #', '\r', '\x0c', '#\t', '     ', '()', '"', 'define', 'default true']))
        elif what < .5:
            lines.insert(at, list(lines[at]))
        elif what < .7:
            lines[at:at + 2] = lines[at:at + 2][::-1]
        else:
            lines.insert(r.randint(1, len(lines)), lines.pop(at))
        if not lines:
            break
    return lines


def other_bytes(r, version):
    """Bytes put in, taken out or replaced."""
    lines = sound(r, version)
    for _ in range(r.choice([1, 1, 2])):
        at = r.randrange(len(lines))
        line = lines[at] if isinstance(lines[at], str) else ' '.join(lines[at])
        n = r.randrange(len(line) + 1)
        lines[at] = line[:n] + r.choice(['', *' \t\r\0\x7f\x80\xff"\\()@#=!<->1x_', ' #', '""', ' ( ', '\n']) + line[n + r.choice([0, 0, 1, 1, 2]):]
    return lines


def many_kinds(r, version):
    count = r.choice([32, 33, 33])
    lines = [['rdspec', str(version)], *(line for i in range(count) for line in [['kind', f'k{i}'], *[['method', 'm', '->', 'r'], ['commute', 'm', 'm', 'when', 'true']] * (r.random() < .2)])]
    for harm in r.sample([other_kind, kind_again, pair_less], r.choice([0, 0, 1, 2])):
        harm(r, lines, max(at for at, line in enumerate(lines) if line[0] == 'kind'))
    return lines


def many_methods(r, version):
    names = [f'm{i}' for i in range(r.choice([16, 17, 17]))]
    lines = [['rdspec', str(version)], ['kind', 'k'], *(['method', name, '->', 'r'] for name in names)]
    for harm in r.sample([method_again, variable_again, many_arguments], r.choice([0, 0, 0, 1, 2])):
        harm(r, lines, len(lines) - 1)
    if version == 2 and r.random() < .5:
        return lines + [['default', 'false'], ['commute', names[3], names[12], 'when', 'r@1', '!=', 'r@2']]
    return lines + [['commute', *pair, 'when', 'true'] for pair in itertools.combinations_with_replacement(names, 2)]


def at_limit(what):
    """A text with one line that reaches a limit of formulas or passes it by one, mostly by names."""
    def drawn(r, version):
        while True:
            lines, at = some(r, version, r.choice(['commute', 'commute', 'define']) if version == 2 else 'commute')
            heads, variables = lines[at][:4], variables_at(lines, at)
            defined = {line[2]: line[4:] for line in lines[:at] if line[0] == 'define' and line[1] == heads[1]}
            if heads[0] == 'define' or not defined or r.random() < .8:
                break
        side = '' if heads[0] == 'define' else '@1'
        name = variables[heads[1]][0] + side
        small = [Leaf(['true'], 1, 1), Leaf(['false'], 1, 1), Leaf([name, '<', '5'], 1, 1), Leaf([name, '!=', '5'], 2, 2)]
        if version == 2 and side and r.random() < .8:                  # a definition of its own, in front of all others of the kind
            begin = max(n for n in range(at) if lines[n][0] == 'kind') + 1 + len(variables)
            formula = grown(r, lambda: Leaf([name[:-2], r.choice(['=', '<=']), 'nil'], 1, 1), r.choice([1, 2, 3]))
            lines.insert(begin, ['define', heads[1], 'limit', 'when', *words_of(r, formula)])
            small += [Leaf([f'limit{side}'], *size(formula))] * 3
            at += 1
        past = r.choice([0, 1, 1, 2])
        lines[at] = heads + words_of(r, of_nodes(r, 64 + past, small) if what == 'nodes' else of_depth(r, 32 + past, small))
        return lines
    return drawn


def many_predicates(r, version):
    """A kind of which one method has five predicates, or six, on several lines, in both places and by names."""
    lines, at = some(r, version, 'commute')
    method, variables = lines[at][1], variables_at(lines, at)
    name = variables[method][0]
    begin = max(n for n in range(at) if lines[n][0] == 'kind') + 1 + len(variables)
    for n in [n for n in range(begin, len(lines)) if lines[n][0] == 'commute' and method in lines[n][1:3]]:
        lines[n][4:] = ['true']
    numbers = list(range(r.choice([5, 6, 6, 7])))
    while numbers:
        places = [n for n in range(begin, len(lines)) if lines[n][0] == 'commute' and method in lines[n][1:3]]
        n, number = r.choice(places), numbers.pop()
        side = r.choice([side for side in (1, 2) if lines[n][side] == method])
        if version == 2 and r.random() < .4:
            lines.insert(begin, ['define', method, f'p{number}', 'when', name, r.choice(['=', '!=']), str(number)])
            lines[n + 1] += ['and', f'p{number}@{side}']
        else:
            lines[n] += r.choice([['and', f'{name}@{side}', r.choice(['=', '!=']), str(number)], ['or', 'not', str(number), '<', f'{name}@{side}']])
    if r.random() < .3:
        r.choice([other_method, other_variable, across, only_values])(r, lines, max(n for n in range(len(lines)) if lines[n][0] == 'commute'))
    return lines


def many_tokens(r, version):
    """A line of some 512 tokens behind its `when`, some of them wrong, in its place or not."""
    lines, at = some(r, version, r.choice(['commute', 'commute', 'define']) if version == 2 else 'commute')
    line = lines[at][:4]
    count = r.choice([510, 511, 512, 513, 514, 515])
    body = ['not'] * (count % 2 == 0) + ['('] * ((count - 1) // 2) + ['true'] + [')'] * ((count - 1) // 2)
    for _ in range(r.choice([0, 0, 0, 1, 2])):
        n = r.randrange(len(body))
        body[n:n + 1] = r.choice([['\x01'], ['\x01\x02', '"\\x41"'], ['"a"'], [], ['(', '(']])
    if r.random() < .1:
        body.append('"no end ( ) ( )')
    if r.random() < .2:
        line[r.choice([0, 1, 2, 3])] = r.choice(['define', '\x01', '"x"', 'commute', 'when'])
    line += body
    lines[at] = line
    if r.random() < .2:
        lines[0] = ['rdspec', str(3 - version)]
    if r.random() < .2:
        lines.insert(r.randint(0, len(lines)), lines.pop(at))
    return lines


def many_bytes(r, version):
    """A text of some 1,048,576 bytes; its last line is no comment where it is right."""
    lines = sound(r, version)
    if r.random() < .3:
        other_word(r, lines, r.randrange(len(lines)))
    told = '\n'.join(line if isinstance(line, str) else ' '.join(line) for line in lines) + '\n'
    left = MOST_BYTES + r.choice([0, 1, 1, 1, 2, 1000]) - len(told)
    comment = '#' + 'c' * r.choice([30, 5000, left]) + '\n'
    comments = comment * (left // len(comment) + 1)
    return comments[:left - 1] + '\n' + told


def spaced(r, words, free):
    """The words of a line with spaces between them, of which some may be more or none."""
    line = ' ' * (r.choice([0, 0, 0, 1, 3]) if free else 0)
    for n, word in enumerate(words):
        tight = n and (words[n - 1][-1:] in ('(', ')', '"') or word[:1] in ('(', ')', '"'))
        spaces = 0 if n == 0 or tight and (words[n - 1] == '(' or word == ')' or free and r.random() < .4) else r.choice([1] * 12 + [2, 5]) if free else 1
        line += ' ' * spaces + word
    return line + ' ' * (r.choice([0, 0, 0, 0, 1, 2]) if free else 0)


def text_of(r, lines):
    if isinstance(lines, str):
        return lines
    free, told = r.random() < .5, []
    for line in lines:
        if free and r.random() < .08:
            told.append(r.choice(['', '# a comment', '#', '   ', '#kind k', '#\x80\t"']))
        told.append(line if isinstance(line, str) else spaced(r, line, free))
    return '\n'.join(told) + (r.choice(['\n', '\n', '', '\n\n', '\n  ', '\n#']) if told and free else '\n' * bool(told))


WAYS = [sound, sound, sound, other_header, other_version, other_lines, other_lines, other_bytes, other_bytes,
        *[harmed('commute', 1)] * 5, *[harmed('commute', 2)] * 4, *[harmed('commute', 1, [across])] * 2, *[harmed('commute', 1, [piled])] * 3, harmed('commute', 1, [odd_term, odd_name]),
        harmed('method', 1), *[harmed('method', 2)] * 2, harmed('method', 1, [many_arguments]), harmed('kind', 1, [other_kind]), harmed('kind', 1), harmed('kind', 2), *[last_kind] * 2,
        *[many_kinds, many_methods] * 2, *[at_limit('nodes')] * 2, *[at_limit('depth')] * 2, *[many_predicates] * 2, *[many_tokens] * 2]
OF_TWO = [harmed('method', 1, [later]), harmed('define', 1, [later]), *[harmed('define', 1)] * 4, *[harmed('define', 2)] * 2, *[harmed('default', 1)] * 2]


def drawn(r, version, number):
    """A text, and whether it is right by construction. Each way to draw one has its turn."""
    ways = WAYS + OF_TWO * (version == 2)
    way = many_bytes if number % 50 == 25 else ways[number % len(ways)]
    return text_of(r, way(r, version)), way is sound
