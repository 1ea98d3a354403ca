#!/usr/bin/env python3
"""Compares `weave` with a slow program that follows the definitions by itself.

    check_weave.py --rd2 PROGRAM [--runs N] [--logs N] [--seed N]

N random runs are taken apart into the logs that their threads would have kept, and woven: what is written has to be, to the letter, the header, the roots, the
objects, and the events by turns that ask each log in its order; the same events have to be ordered as in the run, and `check` refuses no line of it. Logs that were drawn or
changed at random have to be stuck exactly where no order of all their events keeps the rules, which is found by trying every one. Bad lines, a limit and a file
that isn't there are told as such. Ends with 1 where something differs.
"""
import argparse, collections, pathlib, random, re, subprocess, sys, tempfile

sys.dont_write_bytecode = True
from check_orders import reaching

NAME = r'[A-Za-z0-9_.:$#@-]{1,64}'
VALUE = r'(?:nil|true|false|0|-?[1-9][0-9]{0,17})'
LINE = re.compile(rf'object {NAME} {NAME}|(?:fork|join|release) {NAME}|acquire {NAME} [1-9][0-9]{{0,9}}|call {NAME} {NAME}(?: {VALUE}){{0,6}} -> {VALUE}')
LONGEST = 8192                                    # bytes of a line, with its line feed


# ---- what logs say

class Log:
    def __init__(self, thread):
        self.thread, self.objects, self.events = thread, [], []


def read(text):
    """What a log says, or the number of its first bad line."""
    log = None
    *lines, rest = text.split('\n')
    for number, line in enumerate(lines, 1):
        if not line or line[0] == '#':
            continue
        if log is None:
            if not re.fullmatch(rf'rdlog 1 {NAME}', line):
                return number
            log = Log(line.split(' ')[2])
            continue
        if not LINE.fullmatch(line) or line.startswith('acquire') and int(line.split(' ')[2]) > 4294967295:
            return number
        what, *words = line.split(' ')
        if what == 'object':
            log.objects.append(tuple(words))
        elif what == 'acquire':
            log.events.append(('acquire', log.thread, words[0], int(words[1])))
        else:
            log.events.append((what, log.thread, words[0], ' '.join(words[1:])))
    return log if log and not rest else len(lines) + 1


class Placed:
    """What is known behind events that were placed; a join is placed at any time where `early` is so."""
    def __init__(self, logs, early):
        self.logs, self.early = logs, early
        forked = {event[2] for log in logs for event in log.events if event[0] == 'fork'}
        self.roots = [log.thread for log in logs if log.thread not in forked]
        self.objects = {name for log in logs for name, _ in log.objects}

    def may(self, at, l):
        """Whether log l may give its next event, where so many events of each were placed."""
        if at[l] == len(self.logs[l].events):
            return False
        before = [event for log, count in zip(self.logs, at) for event in log.events[:count]]
        known = set(self.roots) | {event[2] for event in before if event[0] == 'fork'}
        what, thread, name, more = self.logs[l].events[at[l]]
        if thread not in known or any(event[0] == 'join' and event[2] == thread for event in before):
            return False
        depth = collections.Counter()
        for event in before:
            if event[2] == name and event[0] in ('acquire', 'release'):
                depth[event[1]] += 1 if event[0] == 'acquire' else -1
        if what == 'fork':
            return name not in known
        if what == 'join':
            left = any(log.thread == name and count < len(log.events) for log, count in zip(self.logs, at))
            return name in known and name != thread and (self.early or not left)
        if what == 'acquire':
            count = sum(event[0] == 'acquire' and event[2] == name for event in before)
            return more == count + 1 and not any(held for other, held in depth.items() if other != thread)
        if what == 'release':
            return depth[thread] > 0
        return name in self.objects

    def turns(self):
        """The log of each turn: the first that may give its next event."""
        at, order = [0] * len(self.logs), []
        while True:
            given = next((l for l in range(len(self.logs)) if self.may(at, l)), None)
            if given is None:
                return order, at
            at[given] += 1
            order.append(given)

    def has_order(self):
        """Whether all events can be placed, by trying every order. What may follow depends on how many of each log were placed alone."""
        seen, rest, last = set(), [tuple(0 for _ in self.logs)], tuple(len(log.events) for log in self.logs)
        while rest:
            at = rest.pop()
            if at == last:
                return True
            for l in range(len(self.logs)):
                if self.may(at, l):
                    new = at[:l] + (at[l] + 1,) + at[l + 1:]
                    if new not in seen:
                        seen.add(new)
                        rest.append(new)
        return False


def has_twins(logs):
    """Two logs of one thread, or two lines of one object."""
    threads, objects = [log.thread for log in logs], [name for log in logs for name, _ in log.objects]
    return len(set(threads)) < len(threads) or len(set(objects)) < len(objects)


def in_turns(logs, order):
    """The events by the log that gives at each turn."""
    rests = [iter(log.events) for log in logs]
    return [next(rests[l]) for l in order]


def line_of(event):
    what, thread, name, more = event
    return f'call {thread} {name} {more}' if what == 'call' else f'{what} {thread} {name}'


def wanted(texts):
    """What `weave` answers and writes."""
    logs = []
    for number, text in enumerate(texts, 1):
        *lines, rest = text.split('\n')
        long = next((at for at, line in enumerate([*lines, rest], 1) if len(line) >= LONGEST), None)
        if long:
            return 9, f'refused log {number} line {long} limit line {LONGEST}\n'
    for number, text in enumerate(texts, 1):
        log = read(text)
        if isinstance(log, int):
            return 11, f'refused log {number} line {log} bad-log\n'
        logs.append(log)
    if has_twins(logs):
        return 11, 'refused logs stuck' + ' 0' * len(logs) + '\n'
    placed = Placed(logs, False)
    order, at = placed.turns()
    if any(count < len(log.events) for log, count in zip(logs, at)):
        return 11, 'refused logs stuck' + ''.join(f' {count}' for count in at) + '\n'
    lines = ['rdtrace 1'] + [f'thread {root}' for root in placed.roots] + [f'object {name} {kind}' for log in logs for name, kind in log.objects]
    return 0, '\n'.join(lines + [line_of(event) for event in in_turns(logs, order)]) + '\n'


# ---- drawing logs

def drawn_run(r):
    """A run: the log of each thread, and the events in the order of the run, each with the number of its log and its place there."""
    count = r.choice([1, 2, 3, 4, 6])
    threads = [f't{i}' for i in range(count)]
    locks, objects = [f'l{i}' for i in range(r.choice([1, 2, 3]))], [f'o{i}' for i in range(r.choice([1, 2]))]
    begun, ended = list(range(r.choice([1, 1, min(2, count)]))), set()
    held, taken = {}, collections.Counter()
    lines, run = [[] for _ in threads], []
    for _ in range(r.choice([3, 10, 30, 60])):
        choices = [t for t in begun if t not in ended]
        if not choices:
            break
        t, act = r.choice(choices), r.random()
        lock = r.choice(locks)
        if act < .15 and len(begun) < count:
            event, line = ('fork', threads[t], threads[len(begun)], ''), f'fork {threads[len(begun)]}'
            begun.append(len(begun))
        elif act < .25:
            others = [u for u in begun if u != t and u not in ended]
            if not others:
                continue
            u = r.choice(others)
            ended.add(u)
            event, line = ('join', threads[t], threads[u], ''), f'join {threads[u]}'
        elif act < .5:
            if held.get(lock, (t, 0))[0] != t and held[lock][1]:
                continue
            held[lock] = (t, (held.get(lock, (t, 0))[1] if held.get(lock, (t, 0))[0] == t else 0) + 1)
            taken[lock] += 1
            event, line = ('acquire', threads[t], lock, taken[lock]), f'acquire {lock} {taken[lock]}'
        elif act < .7:
            mine = [l for l, (holder, depth) in held.items() if holder == t and depth]
            if not mine:
                continue
            lock = r.choice(mine)
            held[lock] = (t, held[lock][1] - 1)
            event, line = ('release', threads[t], lock, ''), f'release {lock}'
        else:
            name = r.choice(objects)
            more = f'write {len(run)} -> nil' if r.random() < .5 else f'read -> {len(run)}'
            event, line = ('call', threads[t], name, more), f'call {name} {more}'
        run.append(((t, len(lines[t])), event))
        lines[t].append(line)
    order = list(range(count))
    r.shuffle(order)
    logs = [[f'rdlog 1 {threads[t]}', *lines[t]] for t in order]
    for name in objects:
        log = r.choice(logs)
        log.insert(r.randrange(1, len(log) + 1), f'object {name} register')
    for log in logs:
        for _ in range(r.choice([0, 0, 1, 3])):
            log.insert(r.randrange(len(log) + 1), r.choice(['', '# a comment', '#']))
    return ['\n'.join([*log, '']) for log in logs], run, {t: at for at, t in enumerate(order)}


WRONG = ['rdlog 1 t0', 'rdlog 2 t0', 'rdtrace 1', 'thread t0', 'fork', 'fork t0 t1', 'fork  t1', 'join t1 ', ' release l0', 'acquire l0', 'acquire l0 0', 'acquire l0 01',
         'acquire l0 4294967296', 'acquire l0 -1', 'acquire l0 x', 'release l/0', 'call o0 read', 'call o0 read -> ', 'call o0 -> 1', 'call o0 read 1 2 3 4 5 6 7 -> 1', 'object o9',
         'object o9 register x', 'share l0', 'read o0', '\t', 'call o0 read -> 1\r', 'x' * 8192, 'fork t1#']
SOUND = ['fork t1', 'fork t9', 'join t1', 'join t9', 'acquire l0 1', 'acquire l0 2', 'acquire l1 1', 'acquire l0 4294967295', 'release l0', 'release l1', 'call o0 read -> 1', 'call o7 read -> 1',
         'object o0 register', 'object o7 bag', '# a comment', '']


def changed(r, texts):
    """Logs in which a line was changed, or a whole log."""
    logs = [text.split('\n')[:-1] for text in texts]
    for _ in range(r.choice([1, 1, 2])):
        log = r.choice(logs)
        at, act = r.randrange(len(log)), r.random()
        if act < .3:
            del log[at]
        elif act < .5:
            log.insert(at, r.choice(SOUND))
        elif act < .7:
            numbered = [i for i, line in enumerate(log) if line.startswith('acquire ')]
            if numbered:
                i = r.choice(numbered)
                what, lock, number = log[i].split(' ')
                log[i] = f'acquire {lock} {max(1, int(number) + r.choice([-1, 1]))}'
        elif act < .8 and at + 1 < len(log):
            log[at], log[at + 1] = log[at + 1], log[at]
        elif act < .85:
            logs.append(list(log))
        elif act < .95:
            log.insert(at, r.choice(WRONG))
        if not log:
            log.append('rdlog 1 t8')
    made = ['\n'.join([*log, '']) for log in logs]
    if r.random() < .05:
        made[-1] = made[-1][:-1]
    return made


def drawn_logs(r):
    """Small logs of any events."""
    count = r.choice([1, 2, 3])
    return ['\n'.join([f'rdlog 1 t{t}', *(['object o0 register'] if t == 0 else []), *(r.choice(SOUND) for _ in range(r.randrange(5))), '']) for t in range(count)]


# ---- the checks

class Weaver:
    def __init__(self, rd2, folder):
        self.rd2, self.folder = rd2, pathlib.Path(folder)

    def weave(self, texts):
        files = [self.folder / f'log{number}' for number in range(len(texts))]
        for file, text in zip(files, texts):
            file.write_bytes(text.encode())
        return self.run(*files)

    def run(self, *files):
        return self.ask('weave', *files)

    def ask(self, *words):
        done = subprocess.run([self.rd2, *map(str, words)], capture_output=True)
        return done.returncode, done.stdout.decode('latin-1')


def ordered(events):
    """The pairs of events of which the first reaches the second: so also how many of each thread stand in a clock."""
    reach = reaching([event for _, event in events])
    return {(events[i][0], key) for j, (key, _) in enumerate(events) for i in reach[j]}


def races(events):
    """How many pairs of calls on one object are unordered."""
    reach = reaching([event for _, event in events])
    calls = [(at, event) for at, (_, event) in enumerate(events) if event[0] == 'call']
    return sum(i < j and x[2] == y[2] and i not in reach[j] for i, x in calls for j, y in calls)


def check_run(weaver, r, counts):
    """What is wrong with the weaving of a run, or none."""
    texts, run, places = drawn_run(r)
    status, text = wanted(texts)
    if status:
        return f'the slow program weaves no run: {text}', texts
    if weaver.weave(texts) != (0, text):
        return f'weave answers {weaver.weave(texts)}, and not {(status, text)}', texts
    logs = [read(text) for text in texts]
    order, at = Placed(logs, False).turns()
    given, woven = collections.Counter(), []
    for l, event in zip(order, in_turns(logs, order)):
        woven.append(((l, given[l]), event))
        given[l] += 1
    if ordered(woven) != ordered([((places[t], place), event) for (t, place), event in run]):
        return 'other events are ordered than in the run', texts
    trace = weaver.folder / 'woven.trace'
    trace.write_text(text)
    checked = weaver.ask('check', trace)[1]
    if 'refused' in checked:
        return f'check refuses the weaving: {checked}', texts
    counts['runs'] += 1
    counts['unordered pairs of calls'] += races(woven)
    return None


def check_logs(weaver, texts, counts):
    """What is wrong with the answer to logs, or none."""
    told = wanted(texts)
    if weaver.weave(texts) != told:
        return f'weave answers {weaver.weave(texts)}, and not {told}'
    counts[f'status {told[0]}'] += 1
    logs = [read(text) for text in texts]
    if all(isinstance(log, Log) for log in logs) and told[0] in (0, 11) and sum(len(log.events) for log in logs) < 40:
        if (told[0] == 0) != (not has_twins(logs) and Placed(logs, True).has_order()):
            return 'there is an order where the logs are stuck, or none where they are woven'
        counts['every order tried'] += 1
    return None


def main():
    options = argparse.ArgumentParser(usage=__doc__)
    options.add_argument('--rd2', required=True)
    options.add_argument('--runs', type=int, default=2000)
    options.add_argument('--logs', type=int, default=4000)
    options.add_argument('--seed', type=int, default=1)
    given = options.parse_args()
    counts, good = collections.Counter(), True
    with tempfile.TemporaryDirectory() as folder:
        weaver = Weaver(str(pathlib.Path(given.rd2).resolve()), folder)
        for seed in range(given.seed, given.seed + given.runs):
            wrong = check_run(weaver, random.Random(seed), counts)
            if wrong:
                good = False
                print(f'run {seed}: {wrong[0]}\n' + '--\n'.join(wrong[1]), flush=True)
        for seed in range(given.seed, given.seed + given.logs):
            r = random.Random(f'logs {seed}')
            texts = drawn_logs(r) if r.random() < .5 else changed(r, drawn_run(r)[0])
            wrong = check_logs(weaver, texts, counts)
            if wrong:
                good = False
                print(f'logs {seed}: {wrong}\n' + '--\n'.join(texts), flush=True)
        there = weaver.folder / 'log0'
        there.write_text('rdlog 1 a\nfork\n')
        if weaver.run(there, weaver.folder / 'none') != (6, 'fault input\n'):
            good = False
            print(f'a file that is not there: {weaver.run(there, weaver.folder / "none")}')
    print(', '.join(f'{count} {what}' for what, count in sorted(counts.items())))
    sys.exit(0 if good else 1)


if __name__ == '__main__':
    main()
