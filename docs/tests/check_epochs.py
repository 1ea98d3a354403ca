#!/usr/bin/env python3
"""Compares `epochs` with a slow program that follows the definitions by itself.

    check_epochs.py --rd2 PROGRAM [--traces N] [--seed N]

On N random traces of reads and writes, some of which end with a line that is refused, the whole output and the status have to be those of the slow
program: it orders all pairs of events, and asks of each access all earlier ones to its variable. Where a trace was read to its end, `check` has to tell the same
first races of the trace of objects that it stands for. Of what the recorder of accesses prints, in whatever order its threads ran, the unguarded field alone has to
race. Ends with 1 where something differs.
"""
import argparse, collections, pathlib, random, re, subprocess, sys, tempfile

sys.dont_write_bytecode = True
from check_orders import Runs, reaching

NAME = r'[A-Za-z0-9_.:$#@-]{1,64}'
LINE = re.compile(rf'rdmem 1|thread {NAME}|(?:fork|join|acquire|release|read|write) {NAME} {NAME}')
SPEC = 'rdspec 1\nkind variable\nmethod read -> r\nmethod write -> r\ncommute read read when true\ncommute read write when false\ncommute write write when false\n'
LONGEST = 8192                                    # bytes of a line, with its line feed


class Reading:
    """What is known behind the lines that were accepted."""
    def __init__(self):
        self.headed, self.threads, self.ended = False, [], set()
        self.held = {}                            # by lock: its thread, and how often
        self.events, self.numbers = [], []        # the events, and the numbers of their lines

    def cause(self, line):
        """Why this line can't be accepted, or none."""
        if not LINE.fullmatch(line):
            return 'bad-line'
        what, *names = line.split(' ')
        if (what == 'rdmem') == self.headed:
            return 'header-first'
        if what == 'rdmem':
            return None
        if what == 'thread':
            return 'late-root' if self.events else 'name-taken' if names[0] in self.threads else None
        thread, other = names
        if what == 'fork' and other in self.threads:
            return 'name-taken'
        if thread not in self.threads or what == 'join' and other not in self.threads:
            return 'unknown-thread'
        if thread in self.ended:
            return 'thread-ended'
        if what == 'join' and thread == other:
            return 'own-thread'
        holder, count = self.held.get(other, (None, 0))
        if what == 'acquire' and count and holder != thread:
            return f'lock-held {holder}'
        if what == 'release' and not (count and holder == thread):
            return 'not-held'
        return None

    def accept(self, number, line):
        what, *names = line.split(' ')
        if what == 'rdmem':
            self.headed = True
        elif what == 'thread':
            self.threads.append(names[0])
        else:
            thread, other = names
            self.events.append((what, thread, other))
            self.numbers.append(number)
            if what == 'fork':
                self.threads.append(other)
            elif what == 'join':
                self.ended.add(other)
            elif what in ('acquire', 'release'):
                count = self.held.get(other, (None, 0))[1]
                self.held[other] = (thread, count + (1 if what == 'acquire' else -1))


def is_access(event):
    return event[0] in ('read', 'write')


def first_races(reading):
    """The first race of each variable: the variable, the line, and that of the latest earlier access that races with it."""
    told, events, reach = {}, reading.events, reaching(reading.events)
    for j, b in enumerate(events):
        if is_access(b) and b[2] not in told:
            racing = [i for i, a in enumerate(events[:j]) if is_access(a) and a[2] == b[2] and 'write' in (a[0], b[0]) and i not in reach[j]]
            if racing:
                told[b[2]] = (reading.numbers[j], reading.numbers[max(racing)])
    return [(variable, *lines) for variable, lines in told.items()]


def wanted(text):
    """What `epochs` writes and answers, and what was read."""
    reading, ending = Reading(), None
    *lines, rest = text.split('\n')
    number = 0
    for number, line in enumerate(lines, 1):
        cause = None
        if len(line) >= LONGEST:
            cause = f'limit line {LONGEST}'
        elif line and line[0] != '#':
            cause = reading.cause(line)
            if not cause:
                reading.accept(number, line)
        if cause:
            ending = f'refused line {number} {cause}'
            break
    else:
        if len(rest) >= LONGEST:
            ending = f'refused line {number + 1} limit line {LONGEST}'
        elif rest:
            ending = f'refused line {number + 1} no-final-newline'
        elif not reading.headed:
            ending = f'refused line {number + 1} header-first'
    races = first_races(reading)
    told = [f'first {variable} line {later} with line {earlier}' for variable, later, earlier in races] + [f'races {len(races)}']
    status = (1 if races else 0) if not ending else 9 if ' limit ' in ending else 4
    return status, '\n'.join(told + [ending] * bool(ending)) + '\n', reading, ending


def of_objects(text):
    """The trace of objects that it stands for, and for each line of that the number of its own."""
    lines, numbers, declared = [], [None], set()
    for number, line in enumerate(text.split('\n')[:-1], 1):
        what, *names = line.split(' ')
        if what in ('read', 'write'):
            if names[1] not in declared:
                lines.append(f'object {names[1]} variable')
                numbers.append(number)
            declared.add(names[1])
            line = f'call {names[0]} {names[1]} {what} -> nil'
        lines.append('rdtrace 1' if line == 'rdmem 1' else line)
        numbers.append(number)
    return '\n'.join(lines) + '\n', numbers


WRONG = ['rdmem 1', 'rdmem 2', 'rdmem 1 ', 'rdtrace 1', 'rdtrace 2', 'object v0 register', 'call main v0 read -> nil', 'call main v0 write 1 -> nil',
         'share main l0', 'unshare main l0', 'read main', 'read main  v0', 'read main v0 ', ' read main v0', 'read main v0 v1', 'Write main v0', 'write main v0\r',
         'write main v/0', 'write\tmain v0', 'write main v0 -> nil', 'thread', 'thread main x', 'fork main', 'join', 'acquire main', 'release main l0 l1',
         'read nobody v0', 'write nobody new', 'write main ' + 'v' * 65, ' ', '\ufeff# a mark', '#' * 8192, 'read main ' + 'v' * 8182, '#' * 8191, '# a comment', '']


def drawn(r):
    """A random text, whose lines mostly keep the rules."""
    reading = Reading()
    threads, variables, locks = r.choice([1, 2, 3, 6]), r.choice([1, 2, 5]), r.choice([1, 2, 3])
    care, wrong, broken, cut = r.random(), r.choice([0, 0, 0, .02]), r.choice([0, 0, .02, .1]), r.choice([0, 0, 0, 0, 0, .5])
    lines = ['# drawn'] * (r.random() < .2)
    head = ['rdmem 1'] + [f'thread {name}' for name in ['main', 'root'][:r.choice([1, 1, 2])]]
    if r.random() < .02:
        r.shuffle(head)
    plan = head[r.random() < .02:]
    for _ in range(r.choice([3, 10, 30, 60])):
        names = reading.threads * 4 + ['main', f't{r.randrange(threads)}']
        thread, lock, variable = r.choice(names), f'l{r.randrange(locks)}', f'v{r.randrange(variables)}'
        if r.random() < .05:
            lock = variable = thread              # names of threads, locks and variables are apart
        access = f'{r.choice(["read", "read", "write"])} {thread} {variable}'
        held = [name for name, (holder, count) in reading.held.items() if count and holder == thread]
        act = r.random()
        if act < .12:
            plan.append(f'fork {thread} t{r.randrange(threads)}')
        elif act < .18:
            plan.append(f'join {thread} {r.choice(names)}')
        elif act < .28:
            plan.append(f'acquire {thread} {lock}')
        elif act < .38:
            plan.append(f'release {thread} {r.choice(held or [lock])}')
        elif act < .38 + wrong:
            plan.append(r.choice(WRONG))
        elif act < .45:
            plan.append(r.choice(['# a comment', '', '#', 'thread late']))
        elif r.random() < care:
            plan += [f'acquire {thread} of.{variable}', access, f'release {thread} of.{variable}']
        else:
            plan.append(access)
        for line in plan:
            cause = reading.cause(line) if line and line[0] != '#' else None
            if cause and cause != 'bad-line' and r.random() >= broken:
                continue                          # a line that breaks a rule is mostly left out
            lines.append(line)
            if line and line[0] != '#' and not cause:
                reading.accept(0, line)
        plan = []
    return '\n'.join(lines + ['' if r.random() >= cut else 'read main'])


def check_trace(runs, spec, text, counts):
    """What is wrong with the answers to a text, or none."""
    runs.trace.write_bytes(text.encode())
    status, told, reading, ending = wanted(text)
    got = runs.run('epochs', runs.trace)
    if got != (status, told):
        return f'epochs answers {got}, and not {(status, told)}'
    counts['events'] += len(reading.events)
    counts['first races'] += told.count('first ')
    counts[f'endings {ending.split(" ", 3)[3].split(" ")[0]}' if ending else 'read to their end'] += 1
    if ending:
        return None
    other, numbers = of_objects(text)
    runs.other.write_text(other)
    firsts = {}
    for later, variable, earlier in re.findall(r'race line (\d+) \S+ (\S+) .*\nwith line (\d+) ', runs.run('check', runs.other, spec)[1]):
        firsts.setdefault(variable, (numbers[int(later)], numbers[int(earlier)]))
    if [(variable, *lines) for variable, lines in firsts.items()] != first_races(reading):
        return f'check tells other first races: {firsts}'
    return None


def check_recorder(runs):
    """What is wrong with the answer to a recorded run, or none."""
    recorder = pathlib.Path(__file__).resolve().parents[1] / 'recorders' / 'python' / 'accesses.py'
    runs.trace.write_bytes(subprocess.run([sys.executable, recorder], check=True, stdout=subprocess.PIPE).stdout)
    status, told = runs.run('epochs', runs.trace)
    wanted = r'first account\.balance line \d+ with line \d+\nraces 1\n'
    return None if status == 1 and re.fullmatch(wanted, told) else f'epochs answers {(status, told)}'


def main():
    options = argparse.ArgumentParser(usage=__doc__)
    options.add_argument('--rd2', required=True)
    options.add_argument('--traces', type=int, default=3000)
    options.add_argument('--seed', type=int, default=1)
    given = options.parse_args()
    counts, good = collections.Counter(), True
    with tempfile.TemporaryDirectory() as folder:
        runs, spec = Runs(str(pathlib.Path(given.rd2).resolve()), folder), pathlib.Path(folder) / 'variable.spec'
        spec.write_text(SPEC)
        for seed in range(given.seed, given.seed + given.traces):
            text = drawn(random.Random(seed))
            wrong = check_trace(runs, spec, text, counts)
            if wrong:
                good = False
                print(f'seed {seed}: {wrong}\n{text}', flush=True)
            counts['traces'] += 1
        for _ in range(10):
            wrong = check_recorder(runs)
            if wrong:
                good = False
                print(f'a recorded run: {wrong}', flush=True)
            counts['recorded runs'] += 1
    print(', '.join(f'{count} {what}' for what, count in sorted(counts.items())))
    sys.exit(0 if good else 1)


if __name__ == '__main__':
    main()
