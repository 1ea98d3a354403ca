#!/usr/bin/env python3
"""Compares `check-json` with `check`: on random traces, and on each trace of examples/, alone and with each specification.

    check_json.py --rd2 PROGRAM [--traces N] [--seed N]

Each line of a JSON report has to be an object that python3 reads and writes again byte for byte, with exactly its keys, in the order of their
bytes. The text that the objects tell has to be the report of `check`, with the same status. Ends with 1 where something differs.
"""
import argparse, collections, json, pathlib, random, subprocess, sys, tempfile

TOP = pathlib.Path(__file__).resolve().parents[2]
CALL = {'call': str, 'clock': str, 'line': int}
OBJECTS = [                                       # each object that a report has, by its fields
    {'earlier': CALL, 'formula': str, 'later': CALL},
    {'ending': str, 'races': int, 'replay': str, 'verdict': str},
    {'ending': str, 'races': int},
    {'ending': str},
]
SPEC = r'''rdspec 1
kind note
method set text -> done
method get -> text
commute set set when text@1 = text@2 or done@1 = "a \"b\" \\ \x00\xff"
commute set get when text@1 = "\\" or not (text@2 = "\"")
commute get get when true
'''
BAD_LINES = ['', '# a "comment" \\', 'thread late', 'object main register', 'object o0 register', 'object new nothing', 'fork nobody x', 'fork main main',
             'join main main', 'join main nobody', 'release main l9', 'acquire nobody l', 'call main o0 sing -> nil', 'call main none read -> 1',
             'call main o0 read 1 2 3 -> nil', 'call main o0 read -> "\\"', 'call main o0 read -> 1 ', 'rdtrace 1', 'write "main"', 'x' * 9000]


# ---- random traces

def spelled(text):
    plain = {34: '\\"', 92: '\\\\'}
    return '"' + ''.join(plain.get(b) or (chr(b) if 32 <= b < 127 else f'\\x{b:02x}') for b in text) + '"'


def value(r):
    """A value's spelling; texts have many quotes, backslashes and bytes that are no letters."""
    form = r.randrange(8)
    if form < 2:
        return str(r.choice([0, 1, 2, 3, -1, 10, 2 ** 63 - 1, -2 ** 63, r.randrange(10 ** 6)]))
    if form < 4:
        return r.choice(['nil', 'true', 'false'])
    letters = r.choice([b'"\\', b'ab "\\\x00\n\x7f\xff', bytes(range(256))])
    return spelled(bytes(r.choice(letters) for _ in range(r.choice([0, 1, 2, 3, 8, 8, 30, 255]))))


class Machine:
    """An object of a kind, by its calls: the result that it gives."""
    def __init__(self, kind):
        self.kind, self.held, self.items = kind, 'nil' if kind != 'counter' else '0', {}

    def call(self, r, values):
        """A method, its arguments and the result."""
        v, held = r.choice(values), self.held
        if self.kind == 'note':
            return r.choice([('set', v, 'true'), ('set', v, r.choice(values)), ('get', None, r.choice(values))])
        if self.kind == 'register':
            word = r.choice(['read', 'write', 'swap'])
            self.held = held if word == 'read' else v
            return (word, None, held) if word == 'read' else (word, v, 'nil' if word == 'write' else held)
        if self.kind == 'counter':
            if r.random() < .4:
                return 'get', None, held
            n = r.choice([0, 1, 5, -3])
            self.held = str(int(held) + n)
            return 'add', str(n), 'nil'
        if r.random() < .2:
            return 'size', None, str(len(self.items))
        there = v in self.items
        if self.kind == 'set':
            word = r.choice(['add', 'remove', 'contains'])
            if word == 'add':
                self.items[v] = v
            elif word == 'remove':
                self.items.pop(v, None)
            return word, v, 'true' if there != (word == 'add') else 'false'
        old, new = self.items.get(v, 'nil'), r.choice(values)
        if r.random() < .4:
            return 'get', v, old
        self.items.pop(v, None)
        if new != 'nil':
            self.items[v] = new
        return 'put', f'{v} {new}', old


def walk(r, kinds):
    """The lines of a trace that is accepted."""
    out, live, ended, locks = ['rdtrace 1'], [], [], {}
    values, honest = [value(r) for _ in range(r.choice([2, 5, 20]))], r.random() < .6
    live += ['main'] + [f'root{i}' for i in range(r.choice([0, 0, 2]))]
    out += [f'thread {name}' for name in live]
    objects = [(f'o{i}', Machine(r.choice(kinds))) for i in range(r.choice([1, 2, 5]))]
    out += [f'object {name} {machine.kind}' for name, machine in objects]
    most = r.choice([2, 3, 8, 60])
    for step in range(r.choice([3, 20, 60, 150])):
        actor, act = r.choice(live), r.random()
        if act < .15 and len(live) + len(ended) < most or len(live) < 2 and act < .5:
            live.append(f'w.{step}')
            out.append(f'fork {actor} {live[-1]}')
        elif act < .2 and len(live) > 1:
            other = r.choice([name for name in live if name != actor])
            live.remove(other)
            ended.append(other)
            out.append(f'join {actor} {other}')
        elif act < .3:
            lock = f'l{r.randrange(3)}'
            if not locks.get(lock) or locks[lock][0] == actor:
                locks.setdefault(lock, []).append(actor)
                out.append(f'acquire {actor} {lock}')
        elif act < .4:
            mine = [lock for lock, by in locks.items() if by and by[0] == actor]
            if mine:
                lock = r.choice(mine)
                locks[lock].pop()
                out.append(f'release {actor} {lock}')
        elif act < .45:
            out.append(r.choice(['', '# a comment']))
        else:
            name, machine = r.choice(objects)
            word, arguments, result = machine.call(r, values)
            result = result if honest or r.random() < .8 else r.choice(values)
            out.append(' '.join(['call', actor, name, word, *([arguments] if arguments else []), '->', result]))
    return out


def random_files(r):
    """The bytes of a trace, and of a specification or none; some are refused, and some cut off."""
    said, kinds = r.random() < .3, ['register', 'counter', 'set', 'dictionary']
    lines = walk(r, kinds + ['note', 'note'] if said else kinds)
    if r.random() < .25:
        lines.insert(r.randrange(len(lines) + 1), r.choice(BAD_LINES))
    if r.random() < .05:
        del lines[r.randrange(len(lines))]
    text, spec = '\n'.join(lines).encode() + b'\n', SPEC.encode() if said else None
    if r.random() < .1:
        text = text[:r.randrange(len(text))]
    if said and r.random() < .2:
        at = r.randrange(len(spec))
        spec = r.choice([spec[:at], spec[:at] + bytes([r.choice(b'"\\ @x\n\xff')]) + spec[at:]])
    return text, spec


# ---- reports

def object_of(line):
    """The object of a line, as python3 reads it; its keys stand in the order of their bytes, each once."""
    def in_order(pairs):
        keys = [key.encode() for key, _ in pairs]
        if keys != sorted(set(keys)):
            raise ValueError(f'the keys {keys}')
        return dict(pairs)
    made = json.loads(line, object_pairs_hook=in_order)
    if json.dumps(made, separators=(',', ':')) != line:
        raise ValueError('python3 writes it otherwise')
    if not any(is_like(made, fields) for fields in OBJECTS):
        raise ValueError('its fields are others')
    return made


def is_like(made, fields):
    if not isinstance(fields, dict):
        return type(made) is fields
    return type(made) is dict and set(made) == set(fields) and all(is_like(made[key], fields[key]) for key in fields)


def told(made):
    """What `check` writes for an object."""
    if 'later' in made:
        later, earlier = made['later'], made['earlier']
        return (f'race line {later["line"]} {later["call"]} clock {later["clock"]}\n'
                f'with line {earlier["line"]} {earlier["call"]} clock {earlier["clock"]}\nformula {made["formula"]}\n')
    races = f'races {made["races"]}\n' if 'races' in made else ''
    ending = f'replay {made["replay"]}\nverdict {made["verdict"]}' if made['ending'] == 'end' else made['ending']
    return f'{races}{ending}\n'


def difference(rd2, words, counts):
    """What is wrong in the two reports on these files, or none."""
    runs = [subprocess.run([rd2, command, *words], capture_output=True) for command in ('check', 'check-json')]
    text, report = (run.stdout.decode('latin-1') for run in runs)
    counts[f'status {runs[0].returncode}'] += 1
    if runs[0].returncode != runs[1].returncode:
        return f'status {runs[0].returncode} and {runs[1].returncode}'
    if not report.endswith('\n'):
        return 'the report has no line feed last'
    objects = []
    for line in report[:-1].split('\n'):
        try:
            objects.append(object_of(line))
        except ValueError as error:
            return f'{error}: {line}'
    races = [made for made in objects if 'later' in made]
    counts['objects'] += len(objects)
    counts['races'] += len(races)
    if races != objects[:-1] or objects[-1].get('races', 0) != len(races):
        return 'the ending is not the last object, or counts other races'
    if objects[-1]['ending'] == 'end' and 'replay' not in objects[-1]:
        return 'the replay and the verdict are missing'
    return None if ''.join(map(told, objects)) == text else 'the text is another'


def main():
    options = argparse.ArgumentParser(usage=__doc__)
    options.add_argument('--rd2', required=True)
    options.add_argument('--traces', type=int, default=1000)
    options.add_argument('--seed', type=int, default=1)
    given = options.parse_args()
    rd2, counts, good = str(pathlib.Path(given.rd2).resolve()), collections.Counter(), True

    def compare(what, *words):
        nonlocal good
        counts['pairs of reports'] += 1
        wrong = difference(rd2, words, counts)
        if wrong:
            good = False
            print(f'{what}: {wrong}', flush=True)
    with tempfile.TemporaryDirectory() as folder:
        trace, spec = pathlib.Path(folder) / 'run.trace', pathlib.Path(folder) / 'run.spec'
        for number in range(given.seed, given.seed + given.traces):
            text, said = random_files(random.Random(number))
            trace.write_bytes(text)
            spec.write_bytes(said or b'')
            counts['random traces'] += 1
            compare(f'random trace {number}', trace, *([spec] if said is not None else []))
        compare('no trace', pathlib.Path(folder) / 'none')
        compare('no specification', trace, pathlib.Path(folder) / 'none')
    specs = sorted((TOP / 'examples').glob('*.spec'))
    for path in sorted((TOP / 'examples').glob('*.trace')):
        counts['traces of examples'] += 1
        compare(path.name, path)
        for spec in specs:
            compare(f'{path.name} {spec.name}', path, spec)
    print(', '.join(f'{count} {what}' for what, count in sorted(counts.items(), key=lambda each: (each[0][:6] == 'status', each[0]))))
    sys.exit(0 if good else 1)


if __name__ == '__main__':
    main()
