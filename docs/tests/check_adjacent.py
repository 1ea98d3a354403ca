#!/usr/bin/env python3
"""Compares `adjacent` with a slow program that follows the definitions by itself.

    check_adjacent.py --rd2 PROGRAM [--traces N] [--seed N]

On N random traces it asks for all pairs of calls, and for some lines that are none. What is written has to be the order that the slow program
makes over all pairs of events, or its path, or the line that isn't that of a call. And `check` has to tell the same races as pairs of calls: two calls
race where it reports one with the other in the order in which they are neighbours, and what it reports of the trace itself has to follow
from these. Ends with 1 where something differs.
"""
import argparse, collections, pathlib, random, re, sys, tempfile

sys.dont_write_bytecode = True
from check_orders import Runs, course, is_linked, reaching, written


def path(events, reach, i, j):
    """The places from one to the other, each the last that an edge leads to and that is the other or reaches it."""
    places = [i]
    while places[-1] != j:
        here = places[-1]
        places.append(max(k for k in range(here + 1, j + 1) if is_linked(events[here], events[k]) and (k == j or k in reach[j])))
    return places


def beside(reach, i, j):
    """The order in which the two are neighbours."""
    before = [k for k in range(len(reach)) if k in reach[i] | reach[j]]
    return before + [i, j] + [k for k in range(len(reach)) if k not in before and k not in (i, j)]


def races(report):
    """The two lines of each race that a report tells."""
    return set(re.findall(r'race line (\d+) .*\nwith line (\d+) ', report))


def check_pairs(runs, made, r, counts):
    """What is wrong with the pairs of a trace, or none."""
    events = made.events
    reach, lines = reaching(events), made.lines()
    first = len(lines) - len(events) + 1          # the line of the first event
    calls = [at for at, event in enumerate(events) if event[0] == 'call']
    racing = set()
    for j in calls:
        for i in calls:
            if i >= j:
                continue
            words = [first + i, first + j]
            r.shuffle(words)
            status, text = runs.run('adjacent', runs.trace, *words)
            if i in reach[j]:
                wanted = ' '.join(['ordered', *(str(first + k) for k in path(events, reach, i, j))]) + '\n'
                counts['paths'] += 1
            else:
                order = beside(reach, i, j)
                wanted = written(made, order)
                counts['orders'] += 1
            if (status, text) != (0, wanted):
                return f'adjacent {words} writes {text[:400]!r}, and not {wanted[:400]!r}'
            if i not in reach[j] and events[i][2] == events[j][2]:
                runs.other.write_text(text)
                here = len(wanted.splitlines()) - len(events) + 1 + order.index(i)
                if (str(here + 1), str(here)) in races(runs.run('check', runs.other)[1]):
                    racing.add((i, j))
    latest = {(str(first + j), str(first + max(i for i, other in racing if other == j))) for j in {j for _, j in racing}}
    if races(runs.run('check', runs.trace)[1]) != latest:
        return f'check tells other races than {sorted(latest)}'
    counts['races'] += len(latest)
    for _ in range(5):
        some, other = r.sample(range(len(lines) + 3), 2)
        wrong = [line for line in sorted((some, other)) if line - first not in calls]
        if wrong:
            counts['lines of no call'] += 1
            if runs.run('adjacent', runs.trace, some, other) != (10, f'refused line {wrong[0]} not-a-call\n'):
                return f'adjacent {some} {other} says something else'
    return None


def main():
    options = argparse.ArgumentParser(usage=__doc__)
    options.add_argument('--rd2', required=True)
    options.add_argument('--traces', type=int, default=1000)
    options.add_argument('--seed', type=int, default=1)
    given = options.parse_args()
    counts, good = collections.Counter(), True
    with tempfile.TemporaryDirectory() as folder:
        runs = Runs(str(pathlib.Path(given.rd2).resolve()), folder)
        for seed in range(given.seed, given.seed + given.traces):
            r = random.Random(seed)
            made = course(r, r.choice([2, 3, 6]), r.choice([1, 2, 3]), r.choice([5, 10, 20, 40]))
            runs.trace.write_text('\n'.join(made.lines()) + '\n')
            wrong = check_pairs(runs, made, r, counts)
            if wrong:
                good = False
                print(f'seed {seed}: {wrong}\n{runs.trace.read_text()}', flush=True)
            counts['traces'] += 1
    print(', '.join(f'{count} {what}' for what, count in sorted(counts.items())))
    sys.exit(0 if good else 1)


main()
