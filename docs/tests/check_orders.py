#!/usr/bin/env python3
"""Compares the verdict and `reorder` with a slow program that follows the definitions by itself.

    check_orders.py --rd2 PROGRAM [--traces N] [--orders N] [--small N] [--seed N]

On N random traces for which `check` says `deterministic`, so many numbers each: `reorder` has to write the order that the slow program finds by turns
over all pairs of events, `check` has to say the same of it, and `replay` the same states, which are those of machines written anew. On N small
traces with races every order is tried: it is told in how many of them two orders differ in a result or at the end, and `reorder` has to find
such a pair in each. Ends with 1 where something differs.
"""
import argparse, collections, itertools, pathlib, random, subprocess, sys, tempfile


# ---- machines

def wrapped(n):
    return (n + 2 ** 63) % 2 ** 64 - 2 ** 63


class Object:
    """What an object of a built-in kind holds. Values are spellings; a call answers its result."""
    def __init__(self, kind):
        self.kind, self.value, self.items, self.row = kind, '0' if kind == 'counter' else 'nil', {}, []

    def call(self, method, args):
        old = self.value
        if self.kind == 'register':
            if method != 'read':
                self.value = args[0]
            return 'nil' if method == 'write' else old
        if self.kind == 'counter':
            if method == 'get':
                return old
            self.value = str(wrapped(int(old) + int(args[0])))
            return 'nil'
        if self.kind == 'peak':
            if method == 'raise' and (old == 'nil' or int(old) < int(args[0])):
                self.value = args[0]
            return old
        if self.kind == 'queue':
            if method == 'enqueue':
                self.row.append(args[0])
                return 'nil'
            if method == 'size':
                return str(len(self.row))
            return self.row.pop(0) if self.row else 'nil'
        if self.kind in ('bag', 'tally'):
            if method == 'total':
                return str(sum(self.items.values()))
            count = self.items.get(args[0], 0)
            if method == 'count':
                return str(count)
            if method == 'remove':
                self.items[args[0]] = max(count - 1, 0)
                return 'true' if count else 'false'
            self.items[args[0]] = count + 1
            return 'nil'
        if method == 'size':
            return str(len(self.items))
        there = args[0] in self.items
        if self.kind == 'set':
            if method == 'add':
                self.items[args[0]] = None
            elif method == 'remove':
                self.items.pop(args[0], None)
            return 'true' if there != (method == 'add') else 'false'
        found = self.items.get(args[0], 'nil')
        if method == 'put':
            self.items.pop(args[0], None)
            if args[1] != 'nil':
                self.items[args[0]] = args[1]
        return found

    def state(self):
        if self.kind in ('register', 'peak'):
            return f'one {self.value}'
        if self.kind == 'queue':
            return ' '.join(['row', *self.row])
        if self.kind == 'counter':
            return f'number {self.value}'
        def rank(value):
            return (0, 0) if value == 'nil' else (1, ['false', 'true'].index(value)) if value in ('false', 'true') else (2, int(value))
        keys = sorted(self.items, key=rank)
        if self.kind == 'set':
            return ' '.join(['items', *keys])
        if self.kind in ('bag', 'tally'):
            return ' '.join(['counts', *(word for key in keys if self.items[key] for word in (key, str(self.items[key])))])
        return ' '.join(['map', *(word for key in keys for word in (key, self.items[key]))])


def states(objects, events):
    """What the objects hold behind these events, or none where a call has another result than was recorded."""
    held = {name: Object(kind) for name, kind in objects}
    for event in events:
        if event[0] == 'call':
            _, _, name, method, *rest = event
            if held[name].call(method, rest[:-2]) != rest[-1]:
                return None
    return [f'state {name} {held[name].state()}' for name, _ in objects]


# ---- random traces

CALLS = {
    'register': [('read', 0), ('write', 1), ('swap', 1)],
    'counter': [('get', 0), ('add', 1)],
    'set': [('add', 1), ('remove', 1), ('contains', 1), ('size', 0)],
    'dictionary': [('get', 1), ('put', 2), ('size', 0)],
    'bag': [('add', 1), ('remove', 1), ('count', 1)],
    'peak': [('raise', 1), ('get', 0)],
    'queue': [('enqueue', 1), ('dequeue', 0), ('size', 0)],
    'tally': [('hit', 1), ('count', 1), ('total', 0)],
}


class Course:
    """A run of a program with threads, event by event."""
    def __init__(self, r, version, threads, objects):
        self.r, self.version, self.most = r, version, threads
        self.roots = ['main'] + [f'root{i}' for i in range(r.choice([0, 0, 1]))]
        self.live, self.begun, self.events = list(self.roots), len(self.roots), []
        self.objects = [(f'o{i}', r.choice(list(CALLS))) for i in range(objects)]
        self.held = {name: Object(kind) for name, kind in self.objects}
        self.taken = collections.Counter()        # by lock, thread, way
        self.guard = r.random() < .8             # calls of an object are made under its lock

    def free(self, lock, thread, way):
        return not any(count for (one, other, how), count in self.taken.items() if one == lock and other != thread and (way == 'acquire' or how == 'acquire'))

    def take(self, thread, lock, way):
        if self.free(lock, thread, way):
            self.taken[lock, thread, way] += 1
            self.events.append((way, thread, lock))
            return True
        return False

    def give(self, thread, lock, way):
        self.taken[lock, thread, way] -= 1
        self.events.append(('release' if way == 'acquire' else 'unshare', thread, lock))

    def call(self, thread, name, kind, reads):
        r = self.r
        methods = [m for m in CALLS[kind] if not reads or m[0] in ('read', 'get', 'contains', 'size', 'count', 'total')]
        method, count = r.choice(methods)
        values = ['0', '1', '-2'] if kind in ('counter', 'peak') else ['nil', 'true', '0', '1', '5'][kind == 'queue':]
        args = [r.choice(values) for _ in range(count)]
        self.events.append(('call', thread, name, method, *args, '->', self.held[name].call(method, args)))

    def step(self):
        r = self.r
        thread, act = r.choice(self.live), r.random()
        if act < .12 and self.begun < self.most:
            child = f'w{self.begun}'
            self.begun += 1
            self.live.append(child)
            self.events.append(('fork', thread, child))
        elif act < .18 and len(self.live) > 1:
            other = r.choice([name for name in self.live if name != thread])
            self.live.remove(other)
            self.events.append(('join', thread, other))
        elif act < .3:
            lock = f'l{r.randrange(2)}'
            self.take(thread, lock, r.choice(['acquire', 'share']) if self.version == 2 else 'acquire')
        elif act < .42:
            mine = [(lock, way) for (lock, who, way), count in self.taken.items() if who == thread and count]
            if mine:
                self.give(thread, *r.choice(mine))
        else:
            name, kind = r.choice(self.objects)
            reads = self.version == 2 and r.random() < .4
            way = 'share' if reads else 'acquire'
            if self.guard and self.take(thread, f'of_{name}', way):
                self.call(thread, name, kind, reads)
                self.give(thread, f'of_{name}', way)
            elif not self.guard:
                self.call(thread, name, kind, reads)

    def lines(self):
        out = [f'rdtrace {self.version}'] + [f'thread {name}' for name in self.roots] + ['# a comment'] + [f'object {name} {kind}' for name, kind in self.objects]
        return out + [' '.join(event) for event in self.events]


def course(r, threads, objects, steps):
    made = Course(r, r.choice([1, 2]), threads, objects)
    for _ in range(steps):
        made.step()
    return made


# ---- the order, by all pairs

def is_linked(a, b):
    """Does the event come directly before another one behind it?"""
    return (a[1] == b[1] or a[0] == 'fork' and a[2] == b[1] or b[0] == 'join' and b[2] == a[1] or a[0] == 'fork' and b[0] == 'join' and a[2] == b[2]
            or a[0] == 'release' and b[0] in ('acquire', 'share') and a[2] == b[2] or a[0] == 'unshare' and b[0] == 'acquire' and a[2] == b[2])


def reaching(events):
    """For each event the set of the places that reach it."""
    reach = []
    for j, b in enumerate(events):
        mine = set()
        for i, a in enumerate(events[:j]):
            if is_linked(a, b):
                mine |= reach[i] | {i}
        reach.append(mine)
    return reach


def numbers_of(made):
    """The number of each thread: the roots by their lines, then the forked ones by their forks."""
    return {name: at for at, name in enumerate(made.roots + [event[2] for event in made.events if event[0] == 'fork'])}


def ready(events, reach, numbers, placed):
    """The next places of the ready threads, in order of the threads' numbers."""
    first = {}
    for at, event in enumerate(events):
        if at not in placed:
            first.setdefault(numbers[event[1]], at)
    return [at for _, at in sorted(first.items()) if reach[at] <= placed]


def turns(events, reach, numbers, number):
    order, placed = [], set()
    while len(order) < len(events):
        choices = ready(events, reach, numbers, placed)
        at, number = choices[number % len(choices)], number // len(choices)
        order.append(at)
        placed.add(at)
    return order


def all_numbers(events, reach, numbers):
    """A number for each order: choices are digits, the first the least."""
    def walk(placed, weight, number):
        if len(placed) == len(events):
            yield number
            return
        choices = ready(events, reach, numbers, placed)
        for digit, at in enumerate(choices):
            yield from walk(placed | {at}, weight * len(choices), number + digit * weight)
    return walk(frozenset(), 1, 0)


def written(made, order):
    lines = made.lines()
    head = [line for line in lines if line.split()[0] in ('rdtrace', 'thread', 'object')]
    return '\n'.join(head + [' '.join(made.events[at]) for at in order]) + '\n'


# ---- runs

class Runs:
    def __init__(self, rd2, folder):
        self.rd2, self.trace, self.other = rd2, pathlib.Path(folder) / 'run.trace', pathlib.Path(folder) / 'other.trace'

    def run(self, *words):
        done = subprocess.run([self.rd2, *map(str, words)], capture_output=True)
        return done.returncode, done.stdout.decode('latin-1')


def check_shown(runs, made, orders, r, counts):
    """What is wrong with the orders of a deterministic trace, or none."""
    events, numbers = made.events, numbers_of(made)
    reach = reaching(events)
    wanted = states(made.objects, events)
    if runs.run('replay', runs.trace) != (0, '\n'.join(['replay exact', *wanted]) + '\n'):
        return 'the states of the recorded order are others'
    for number in [0, 2 ** 64 - 1] + [r.randrange(2 ** 64) for _ in range(orders - 2)]:
        order = turns(events, reach, numbers, number)
        status, text = runs.run('reorder', runs.trace, number)
        if status != 0 or text != written(made, order):
            return f'reorder {number} writes another order'
        if states(made.objects, [events[at] for at in order]) != wanted:
            return f'the machines end otherwise in the order of {number}'
        runs.other.write_text(text)
        if runs.run('check', runs.other) != (0, 'races 0\nreplay exact\nverdict deterministic\n'):
            return f'check says something else of the order of {number}'
        if runs.run('replay', runs.other) != (0, '\n'.join(['replay exact', *wanted]) + '\n'):
            return f'replay says something else of the order of {number}'
        counts['orders'] += 1
        counts['orders that are not the recorded one'] += order != sorted(order)
    return None


def check_small(runs, made, counts):
    """What is wrong with a small trace that has races, or none: whether two orders of it differ, by all orders and by `reorder`."""
    events, numbers = made.events, numbers_of(made)
    reach = reaching(events)
    ends = {}
    for number in itertools.islice(all_numbers(events, reach, numbers), 5000):
        order = turns(events, reach, numbers, number)
        end = states(made.objects, [events[at] for at in order])
        ends.setdefault(tuple(end) if end else None, number)
    counts['small traces with races'] += 1
    if len(ends) < 2:
        return None
    counts['small traces of which two orders differ'] += 1
    told = set()
    for number in list(ends.values())[:2]:
        if number >= 2 ** 64:
            return 'a number is too large'
        status, text = runs.run('reorder', runs.trace, number)
        runs.other.write_text(text)
        told.add(runs.run('replay', runs.other))
    if len(told) == 2:
        counts['small traces of which reorder gives two that differ'] += 1
        return None
    return 'reorder gives no two orders that differ'


def main():
    options = argparse.ArgumentParser(usage=__doc__)
    options.add_argument('--rd2', required=True)
    options.add_argument('--traces', type=int, default=1000)
    options.add_argument('--orders', type=int, default=20)
    options.add_argument('--small', type=int, default=300)
    options.add_argument('--seed', type=int, default=1)
    given = options.parse_args()
    counts, good, seed = collections.Counter(), True, given.seed
    with tempfile.TemporaryDirectory() as folder:
        runs = Runs(str(pathlib.Path(given.rd2).resolve()), folder)

        def tell(wrong):
            nonlocal good
            if wrong:
                good = False
                print(f'seed {seed}: {wrong}', flush=True)
                if counts['faults'] == 0:
                    print(runs.trace.read_text(), flush=True)
                counts['faults'] += 1
        while counts['deterministic traces'] < given.traces:
            r = random.Random(seed)
            made = course(r, r.choice([2, 3, 6]), r.choice([1, 2, 3]), r.choice([5, 20, 40, 80]))
            runs.trace.write_text('\n'.join(made.lines()) + '\n')
            status, text = runs.run('check', runs.trace)
            shown = text.endswith('races 0\nreplay exact\nverdict deterministic\n')
            if status not in (0, 1) or shown != (status == 0):
                tell(f'status {status}: {text[-200:]}')
            if status == 0 and any(event[0] == 'call' for event in made.events):
                counts['deterministic traces'] += 1
                tell(check_shown(runs, made, given.orders, r, counts))
            seed += 1
        while counts['small traces with races'] < given.small:
            r = random.Random(seed)
            made = course(r, 3, r.choice([1, 2]), r.choice([6, 8, 10]))
            runs.trace.write_text('\n'.join(made.lines()) + '\n')
            status, _ = runs.run('check', runs.trace)
            if status == 1 and len(made.events) <= 12:
                tell(check_small(runs, made, counts))
            seed += 1
    print(', '.join(f'{count} {what}' for what, count in sorted(counts.items())))
    sys.exit(0 if good else 1)


if __name__ == '__main__':
    main()
