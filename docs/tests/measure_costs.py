#!/usr/bin/env python3
"""Measures what runs of the program cost, and prints the tables of docs/costs.md.

    measure_costs.py --rd2 PROGRAM [--tables NAME,..] [--only ROW] [--into PAGE] [--check PAGE] [--keep FOLDER]

- Instructions are callgrind's (valgrind) for 30,000 lines, without those of a run on the lines before them, so they hardly change from run to run.
- Lines a second are by wall time, the least of five runs on 300,000 lines; megabytes are the peak of such a run.
- The tables are `kinds`, `threads`, `growth` and `largest`, the last of inputs near the limits, by processor time.

--into puts the rows into the tables of a page, --check compares its instructions with those of this program: it lists each that is more than a tenth away, and
ends with 1 where there is one. Traces are made here from fixed seeds; --keep leaves them in a folder.
"""
import argparse, multiprocessing, os, pathlib, random, re, subprocess, sys, tempfile, time

TOP = pathlib.Path(__file__).resolve().parents[2]
COUNTED, TIMED, TIME = 30000, 300000, '/usr/bin/time'
TRACE, SHARED, MEMORY, SPEC = 'rdtrace 1', 'rdtrace 2', 'rdmem 1', 'rdspec 1'
NUMBER = '12345678901234567890'


def forks(count, name='t'):
    return ['thread main'] + [f'fork main {name}{i}' for i in range(count)]


# Each maker gives the lines before, which aren't counted, and about so many lines.

def comments(count):
    return ['thread main'], [f'# line {i:07} of a trace that tells nothing else' for i in range(count)]


def joins(threads):
    def make(count):
        draw, half = random.Random(1), threads // 2
        return forks(threads), [f'join t{draw.randrange(half)} t{draw.randrange(half, threads)}' for _ in range(count)]
    return make


def objects(count):
    return ['thread main'], [f'object java.util.Registers@{i:x} register' for i in range(min(count, 65536))]


def locks(threads, number):
    """Threads that acquire free locks, up to three at once, and release them again."""
    def make(count):
        draw, held, free, out = random.Random(2), [[] for _ in range(threads)], set(range(number)), []
        while len(out) < count:
            thread, lock = draw.randrange(threads), draw.randrange(number)
            if len(held[thread]) < 3 and lock in free and draw.random() < 0.6:
                free.remove(lock)
                held[thread].append(lock)
                out.append(f'acquire t{thread} lock{lock}')
            elif held[thread]:
                free.add(held[thread][-1])
                out.append(f'release t{thread} lock{held[thread].pop()}')
        return forks(threads), out
    return make


def lock_in_turns(count):
    """One lock, which each of four threads takes a dozen times before the next."""
    return forks(4), [f'{what} t{i // 12 % 4} l' for i in range(count // 2) for what in ('acquire', 'release')]


def readers(count):
    """One lock of eight threads: each tenth turn is a writer's, else four readers share it at once."""
    draw, out, turn = random.Random(3), [], 0
    while len(out) < count:
        turn += 1
        those = [f't{i}' for i in draw.sample(range(8), 4)]
        if turn % 10 == 0:
            out += [f'acquire {those[0]} table', f'release {those[0]} table']
        else:
            out += [f'share {thread} table' for thread in those] + [f'unshare {thread} table' for thread in sorted(those)]
    return forks(8), out


def dictionary(threads=4, keys=32, locked=True, own=False, turns=False):
    """Puts, gets and sizes of one dictionary, each under its lock or alone; of keys of their own, half of them texts, threads put and get alone."""
    def make(count):
        draw, held, out = random.Random(4), {}, []
        for i in range(count // 3 if locked else count):
            thread = i % threads if turns else draw.randrange(threads)
            key = draw.randrange(keys // threads) * threads + thread if own else draw.randrange(keys)
            told, what = f'"key-{key}"' if own and key % 2 else str(key), draw.random()
            if what < 0.5:
                call = f'put {told} {i + 1} -> {held.get(key, "nil")}'
                held[key] = i + 1
            elif what < 0.8 or own:
                call = f'get {told} -> {held.get(key, "nil")}'
            else:
                call = f'size -> {len(held)}'
            lines = [f'call t{thread} d {call}']
            out += [f'acquire t{thread} l', *lines, f'release t{thread} l'] if locked else lines
        return ['object d dictionary', *forks(threads)], out
    return make


def one_key(count):
    """Four threads in turns put one key under a lock: each call is kept in the memory of the thread's last one."""
    out, last = [], 'nil'
    for i in range(count // 3):
        out += [f'acquire t{i % 4} l', f'call t{i % 4} d put 1 {i} -> {last}', f'release t{i % 4} l']
        last = i
    return ['object d dictionary', *forks(4)], out


def few_items(count):
    """One of 64 threads adds and removes six items of a set: too few cells for a sweep."""
    calls = [f'call main s {method} {i % 6} -> true' for i in range(count // 2) for method in ('add', 'remove')]
    return ['object s set', *forks(63)], calls


def races(count):
    return ['thread p', 'thread q', 'object x register'], [f'call {"pq"[i % 2]} x write {i} -> nil' for i in range(count)]


def tables(count):
    """Fifty dictionaries, each under a lock of readers and writers, of which a tenth write."""
    draw, held, out = random.Random(5), {}, []
    for i in range(count // 3):
        thread, table, key = draw.randrange(16), draw.randrange(50), draw.randrange(20)
        old = held.get((table, key), 'nil')
        if draw.random() < 0.1:
            held[table, key] = i
            out += [f'acquire t{thread} l{table}', f'call t{thread} d{table} put {key} {i} -> {old}', f'release t{thread} l{table}']
        else:
            out += [f'share t{thread} l{table}', f'call t{thread} d{table} get {key} -> {old}', f'unshare t{thread} l{table}']
    return [*(f'object d{i} dictionary' for i in range(50)), *forks(16)], out


def counters(number):
    def make(count):
        draw = random.Random(6)
        return ['thread main', *(f'object o{i} counter' for i in range(number))], [f'call main o{draw.randrange(number)} add 0 -> nil' for _ in range(count)]
    return make


def accesses(count):
    """Reads and writes under locks: a lock guards ten variables."""
    draw, out = random.Random(7), []
    for _ in range(count // 6):
        thread, variable = draw.randrange(8), draw.randrange(500)
        what = [f'{draw.choice(("read", "read", "write"))} t{thread} v{variable}' for _ in range(4)]
        out += [f'acquire t{thread} l{variable % 50}', *what, f'release t{thread} l{variable % 50}']
    return forks(8), out


def reads(count):
    draw = random.Random(8)
    return ['thread main', *(f'write main v{i}' for i in range(8)), *forks(8)[1:]], [f'read t{draw.randrange(8)} v{draw.randrange(8)}' for _ in range(count)]


def own_variables(count):
    draw = random.Random(9)
    return forks(8), [f'{draw.choice(("read", "write"))} t{t} heap.{t}.{draw.randrange(2000)}' for _ in range(count) for t in [draw.randrange(8)]]


def read_then_written(count):
    """Eight threads read eight variables under a lock, and then the next one writes them."""
    out, turn = [], 0
    while len(out) < count:
        for thread in range(8):
            out += [f'acquire t{thread} l', *(f'read t{thread} v{i}' for i in range(8)), f'release t{thread} l']
        out += [f'acquire t{turn % 8} l', *(f'write t{turn % 8} v{i}' for i in range(8)), f'release t{turn % 8} l']
        turn += 1
    return forks(8), out


def kinds(number, methods=16):
    """Kinds of sixteen methods with six arguments, of which five stand in a relation of their own."""
    def relation(side):
        return ' and '.join(f'a{i}@{side} = {i}' for i in range(5))

    def make(_):
        out = []
        for k in range(number):
            out += [f'kind k{k}', *(f'method m{i} a0 a1 a2 a3 a4 a5 -> r' for i in range(methods))]
            out += [f'commute m{i} m{j} when a0@1 != a0@2 or {relation(1)}' + (f' or {relation(2)}' if i != j else '')
                    for i in range(methods) for j in range(i, methods)]
        return [], out
    return make


# name, words of the command, header, maker; `gen` makes its own lines
KINDS = [
    ('comments', 'check TRACE', TRACE, comments), ('joins, 64 threads', 'check TRACE', TRACE, joins(64)),
    ('joins, 2,000 threads', 'check TRACE', TRACE, joins(2000)), ('objects', 'check TRACE', TRACE, objects),
    ('1,000 locks', 'check TRACE', TRACE, locks(8, 1000)), ('a lock in turns', 'check TRACE', TRACE, lock_in_turns),
    ('a lock of readers', 'check TRACE', SHARED, readers), ('300 calls', 'check TRACE', TRACE, lambda count: dictionary()(900)),
    ('a locked dictionary', 'check TRACE', TRACE, dictionary()), ('one key', 'check TRACE', TRACE, one_key),
    ('few items', 'check TRACE', TRACE, few_items), ('each call races', 'check TRACE', TRACE, races),
    ('the same as JSON', 'check-json TRACE', TRACE, races), ('10,000 keys', 'check TRACE', TRACE, dictionary(8, 10000, False, own=True)),
    ('tables of readers', 'check TRACE', SHARED, tables), ('`replay`', 'replay TRACE', TRACE, dictionary(locked=False)),
    ('`reorder`', 'reorder TRACE ' + NUMBER, TRACE, dictionary()), ('`gen`', 'gen 2 COUNT', None, None),
    ('`gen-text`', 'gen-text 2 COUNT', None, None), ('`spec`, large', 'spec TRACE', SPEC, kinds(4)),
    ('`points`, large', 'points TRACE', SPEC, kinds(1)), ('`epochs`, locks', 'epochs TRACE', MEMORY, accesses),
    ('`epochs`, reads', 'epochs TRACE', MEMORY, reads), ('`epochs`, own variables', 'epochs TRACE', MEMORY, own_variables),
    ('`epochs`, read, written', 'epochs TRACE', MEMORY, read_then_written),
]
THREADS = [(f'{number:,}', 'check TRACE', TRACE, dictionary(number - 1, turns=True)) for number in (4, 16, 64, 256, 1024, 4096)]
# what grows, from and to which number, and what is measured of each: lines, or such a maker; and the command, where it isn't `check`
GROWTH = [
    ('calls', 3000, 300000, None), ('threads', 16, 1024, lambda number: dictionary(number - 1, turns=True)), ('locks', 10, 10000, lambda number: locks(8, number)),
    ('objects', 10, 60000, counters), ('keys', 80, 20000, lambda number: dictionary(8, number, False, own=True)),
    ('threads of `reorder`', 16, 4096, lambda number: dictionary(number - 1, turns=True), 'reorder TRACE ' + NUMBER),
]


# ---- the largest inputs within the limits

def each_thread(count=4096):
    names = [f't{i}' for i in range(1, count)]
    return ['thread main', 'object x counter', *(line.format(name) for line in ('fork main {}', 'call {} x add 0 -> nil', 'join main {}') for name in names)]


def threads_that_meet(count=4096):
    turns = [f'{what} {thread} l' for thread in ['main', *(f't{i}' for i in range(count - 1))] * 2 for what in ('acquire', 'release')]
    return forks(count - 1) + turns


def all_locks(count=65536):
    return forks(8) + [f'{what} t{i % 8} l{i}' for i in range(count) for what in ('acquire', 'release')]


def locks_with_news(count=65536):
    """Each release follows news of another thread, so each lock has a clock of its own."""
    return forks(4095) + [f'{what} t{i % 4095} {lock}' for i in range(count - 1) for lock in ('all', f'l{i}') for what in ('acquire', 'release')]


def dictionaries(count=65536):
    return ['thread main', *(f'object o{i} dictionary' for i in range(count)), *(f'call main o{i} put 1 2 -> nil' for i in range(count))]


def open_reads(variables=65536):
    return ['thread main', *(f'write main v{i}' for i in range(variables)), *forks(64)[1:], *(f'read t{t} v{i}' for t in range(64) for i in range(variables))]


def long_lines():
    text, name = '"' + '\\x00' * 255 + '"', 'n' * 64
    return [f'thread {name}', f'object {name} {name}', *['#' + 'x' * 8190, f'call {name} {name} {name} ' + ' '.join([text] * 6) + f' -> {text}'] * 5000]


def long_kind():
    name = 'n' * 64
    return [f'kind {name}', f'method {name} a b c d e f -> g', f'commute {name} {name} when a@1 != a@2']


def dear_kinds():
    """Seventeen kinds whose methods have five relations of their own, each two with twenty of both."""
    slots, names, out = 'abcdef', 'abcdefghijklmnop', []
    across = [f'{slots[k // 6]}@1 != {slots[(k + k // 6) % 6]}@2' for k in range(20)]
    for k in range(17):
        out += [f'kind k{k}', *(f'method {m} {" ".join(slots)} -> r' for m in names)]
        for i, first in enumerate(names):
            for second in names[i:]:
                sides = ''.join(' or (' + ' and '.join(f'{slots[n]}@{side} = {n}' for n in range(5)) + ')' for side in ((1,) if first == second else (1, 2)))
                out.append(f'commute {first} {second} when ({" and ".join(across)})' + sides)
    return out


def calls_of_dear_kinds():
    return ['thread main', *(f'object o{k} k{k}' for k in range(17)), *(f'call main o{k} {m} 0 1 2 3 4 5 -> 6' for k in range(17) for m in 'abcdefghijklmnop')]


def chosen(what, number):
    """Names or values that were chosen to have one hash, by docs/costs."""
    program = 'chosen_values.py' if what in ('chosen', 'others') else 'chosen_names.py'
    return subprocess.run([sys.executable, TOP / 'docs' / 'costs' / program, what, str(number)], capture_output=True, text=True).stdout.splitlines()[1:]


LARGEST = [
    ('4,096 threads, forked, called, joined', 'check', [(TRACE, each_thread)]), ('4,096 threads that hand a lock on', 'check', [(TRACE, threads_that_meet)]),
    ('65,536 locks', 'check', [(TRACE, all_locks)]), ('65,536 locks, each with news', 'check', [(TRACE, locks_with_news)]),
    ('65,536 dictionaries with a key each', 'check', [(TRACE, dictionaries)]),
    ('400,000 calls of 4,000 threads: `reorder`', 'reorder ' + NUMBER, [(TRACE, lambda: dictionary(3999)(1200000))]),
    ('65,536 variables, read by 64 threads', 'epochs', [(MEMORY, open_reads)]), ('lines of 8,191 bytes', 'check', [(TRACE, long_lines), (SPEC, long_kind)]),
    ('17 dear kinds: `spec`', 'spec', [(SPEC, dear_kinds)]), ('the same: `points`', 'points', [(SPEC, dear_kinds)]),
    ('the same: `check`', 'check', [(TRACE, calls_of_dear_kinds), (SPEC, dear_kinds)]),
    ('65,536 objects with names of one hash', 'check', [(TRACE, lambda: chosen('objects', 65536))]),
    ('32,000 keys that end in the hash\'s constant', 'check', [(TRACE, lambda: chosen('chosen', 32000))]),
]


# ---- measuring

class Bench:
    def __init__(self, rd2, folder):
        self.rd2, self.folder = str(pathlib.Path(rd2).resolve()), pathlib.Path(folder)

    def written(self, name, header, make, *how):
        """A file with what is made, by a process of its own: what this one held would count as held by the programs that it begins."""
        path = self.folder / re.sub(r'\W+', '-', name)

        def write():
            made = make(*how)
            before, lines = made if isinstance(made, tuple) else ([], made)
            path.write_text('\n'.join([header, *before, *lines]) + '\n')
            path.with_suffix('.before').write_text('\n'.join([header, *before]) + '\n')
            path.with_suffix('.lines').write_text(str(len(lines)))
        writer = multiprocessing.get_context('fork').Process(target=write)
        writer.start()
        writer.join()
        return path, path.with_suffix('.before'), int(path.with_suffix('.lines').read_text())

    def instructions(self, words):
        with tempfile.TemporaryDirectory() as folder:
            before = ['valgrind', '--tool=callgrind', f'--callgrind-out-file={folder}/out']
            done = subprocess.run([*before, self.rd2, *words], stdout=subprocess.DEVNULL, stderr=subprocess.PIPE, text=True)
        if done.returncode not in (0, 1):
            sys.exit(f'rd2 {" ".join(map(str, words))} ends with {done.returncode}')
        return int(re.search(r'Collected : (\d+)', done.stderr)[1])

    def seconds(self, words, runs=5):
        def once():
            begin = time.perf_counter()
            subprocess.run([self.rd2, *words], stdout=subprocess.DEVNULL)
            return time.perf_counter() - begin
        return min(once() for _ in range(runs))

    def processor(self, words):
        """Processor seconds, megabytes at the peak. Without `time`, what this process holds is the least that can be told."""
        before = [TIME, '-f', '%U %S %M'] if os.path.exists(TIME) else []
        child = subprocess.Popen([*before, self.rd2, *words], stdout=subprocess.DEVNULL, stderr=subprocess.PIPE, text=True)
        told = child.stderr.read().split()[-3:]
        usage = os.wait4(child.pid, 0)[2]
        if before:
            return float(told[0]) + float(told[1]), int(told[2]) / 1024
        return usage.ru_utime + usage.ru_stime, usage.ru_maxrss / 1024

    def of_lines(self, row, lines):
        """The words of a run on so many lines, of one on the lines before them, and how many they are."""
        name, command, header, make = row
        if make is None:                                  # the program makes the lines; for a count of calls
            words = [str(lines // 3) if word == 'COUNT' else word for word in command.split()]
            told = subprocess.run([self.rd2, 'gen', '2', str(lines // 3)], capture_output=True, text=True).stdout
            return words, [*words[:2], '0'], int(re.search(r'lines (\d+)', told)[1])
        path, before, count = self.written(name, header, make, lines)
        return tuple([file if word == 'TRACE' else word for word in command.split()] for file in (path, before)) + (count,)

    def a_line(self, row, lines=COUNTED):
        words, before, count = self.of_lines(row, lines)
        return (self.instructions(words) - self.instructions(before)) / count

    def row(self, row, timed=True):
        told = f'| {row[0]} | {self.a_line(row):,.0f} |'
        if not timed:
            return told + ' .. | .. |'
        words, before, count = self.of_lines(row, TIMED)
        passed = self.seconds(words) - self.seconds(before)
        told += f' {count / passed / 1e6:.3g} |' if passed > 0.002 else ' - |'      # a start takes about that long
        return f'{told} {self.processor(words)[1]:.1f} |'

    def growth(self, what, least, most, maker, command='check TRACE'):
        header = TRACE
        if maker is None:
            few, many = (self.a_line((what, command, header, dictionary()), lines) for lines in (least, most))
        else:
            few, many = (self.a_line((what, command, header, maker(number))) for number in (least, most))
        return f'| {what} | {least:,} | {most:,} | {few:,.0f} | {many:,.0f} |'

    def largest(self, name, command, files):
        paths = [self.written(f'{name} {header}', header, make)[0] for header, make in files]
        words = command.split()
        seconds, peak = self.processor([words[0], *paths, *words[1:]])
        return f'| {name} | {sum(path.stat().st_size for path in paths) / 1e6:.1f} | {seconds:.2f} | {peak:.0f} |'


HEADS = {
    'kinds': '| trace | instructions a line | million lines a second | MB |', 'threads': '| threads | instructions a line | million lines a second | MB |',
    'growth': '| what grows | from | to | instructions a line | then |', 'largest': '| input | MB | seconds | MB at the peak |',
}
ROWS = {'kinds': KINDS, 'threads': THREADS, 'growth': GROWTH, 'largest': LARGEST}


def rows_of(bench, table, only, timed):
    for row in ROWS[table]:
        if only in row[0]:
            yield bench.growth(*row) if table == 'growth' else bench.largest(*row) if table == 'largest' else bench.row(row, timed)


def on_page(page):
    """The rows of the tables of a page, by table and first cell, and the numbers of their lines."""
    found, table = {}, None
    for number, line in enumerate(page.read_text().split('\n')):
        table = next((name for name, head in HEADS.items() if line == head), table if line.startswith('|') else None)
        if table and line not in HEADS.values() and not line.startswith('|-'):
            found[table, line.split('|')[1].strip()] = number, line
    return found


def told(line, table):
    """The instructions that a row has, or none."""
    cells = [cell.strip().replace(',', '') for cell in line.split('|')[1:-1]]
    return [int(cell) if cell.isdigit() else None for cell in (cells[3:5] if table == 'growth' else cells[1:2])]


def main():
    options = argparse.ArgumentParser(usage=__doc__)
    options.add_argument('--rd2', required=True)
    options.add_argument('--tables', default='kinds,threads,growth,largest')
    options.add_argument('--only', default='')
    options.add_argument('--into', type=pathlib.Path)
    options.add_argument('--check', type=pathlib.Path)
    options.add_argument('--keep')
    given = options.parse_args()
    page, away = on_page(given.check or given.into) if given.check or given.into else {}, []
    lines = given.into.read_text().split('\n') if given.into else []
    with tempfile.TemporaryDirectory() as name:
        folder = pathlib.Path(given.keep or name)
        folder.mkdir(exist_ok=True)
        bench = Bench(given.rd2, folder)
        for table in given.tables.split(','):
            if given.check and table == 'largest':
                continue
            print(f'\n{HEADS[table]}\n|{"---|" * (HEADS[table].count("|") - 1)}')
            for row in rows_of(bench, table, given.only, not given.check):
                print(row, flush=True)
                number, there = page.get((table, row.split('|')[1].strip()), (None, None))
                if given.into and number is not None:
                    lines[number] = row
                if given.check:
                    wanted = told(there, table) if there else [None]
                    if None in wanted or any(abs(now - then) > then / 10 for now, then in zip(told(row, table), wanted)):
                        away.append(f'{row.split("|")[1].strip()}: {told(row, table)}, on the page {wanted}')
    if given.into:
        given.into.write_text('\n'.join(lines))
    if away:
        sys.exit('\n'.join(['more than a tenth away:', *away]))


if __name__ == '__main__':
    main()
