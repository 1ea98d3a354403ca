#!/usr/bin/env python3
"""Checks rdreport (docs/tools): its groups, statuses, files, pictures and page.

    check_report.py --rd2 PROGRAM [--seed N] [--races N]

On each trace of examples/, on drawn ones with locks and places, and on one with some 20,000 races. The groups are counted anew from the text that
`check` writes; orders are compared with `adjacent` and with the clocks. SARIF is checked by schemas/sarif.json where python3-jsonschema is
there, the names of that schema by python3-sarif-python-om where it is; JUnit by schemas/junit.xsd where xmllint is; the page in Chromium where that is.
Lists what differs and what was left out, and ends with 1 where something differs.
"""
import argparse, collections, json, os, pathlib, random, re, shutil, subprocess, sys, tempfile, time
import xml.etree.ElementTree

sys.dont_write_bytecode = True
TOP = pathlib.Path(__file__).resolve().parents[2]
TOOL = TOP / 'docs' / 'tools' / 'rdreport'
SCHEMAS = pathlib.Path(__file__).resolve().parent / 'schemas'
sys.path.insert(0, str(TOOL))
sys.path.insert(0, str(pathlib.Path(__file__).resolve().parent))
import browser, formulas, page, traces

faults, left_out, checked = [], [], collections.Counter()


def expect(what, found, wanted):
    checked[what.split(':')[0]] += 1
    if found != wanted:
        faults.append(f'{what}: {repr(found)[:300]}, and not {repr(wanted)[:300]}')


class Tools:
    """rd2 and rdreport, run in a folder."""
    def __init__(self, rd2, folder):
        self.rd2, self.folder = rd2, folder

    def run(self, *words):
        return subprocess.run([self.rd2, *map(str, words)], capture_output=True, text=True)

    def report(self, *words, cwd=None):
        return subprocess.run([sys.executable, str(TOOL), '--rd2', self.rd2, *map(str, words)], capture_output=True, text=True, cwd=cwd or self.folder)

    def groups(self, *words):
        """What --json tells, with the status."""
        done = self.report(*words, '--json', '-')
        return done.returncode, json.loads(done.stdout)


def counted(report, lines):
    """From the text of `check`: how many reports there are of each formula and two sides, by place where the trace has it."""
    counts, calls = collections.Counter(), []
    for text in report.splitlines():
        call = re.match(r'(race|with) line (\d+) \S+ \S+ (\S+)', text)
        if call:
            above = lines[int(call[2]) - 2]
            calls = (calls if call[1] == 'with' else []) + [(above[2:] if re.match('# .+:\\d+$', above) else '', call[3])]
        elif text.startswith('formula '):
            counts[text[8:], tuple(sorted(calls))] += 1
    return counts


def told(groups):
    """The same from the JSON of rdreport."""
    counts = collections.Counter()
    for group in groups:
        sides = [('{file}:{line}'.format(**side['place']) if side['place'] else '', side['method']) for side in group['sides']]
        counts[group['formula'], tuple(sorted(sides))] += group['reports']
    return counts


def check_trace(tools, trace, *spec):
    """The groups of a trace, its status, and its first races as `check` has them."""
    done, name = tools.run('check', trace, *spec), pathlib.Path(trace).name
    status, groups = tools.groups(trace, *spec)
    expect(f'status: {name}', status, done.returncode)
    lines = pathlib.Path(trace).read_text(errors='replace').split('\n')
    expect(f'groups: {name}', told(groups['groups']), counted(done.stdout, lines))
    order = [group['reports'] for group in groups['groups']]
    expect(f'most first: {name}', order, sorted(order, reverse=True))
    text = tools.report(trace, *spec).stdout
    for group in groups['groups']:
        first = group['first']
        words = ' '.join(f'{one} line {first[side]["line"]} {shown(first[side])}' for one, side in (('race', 'later'), ('with', 'earlier')))
        both = re.findall(r'(race line .*)\n(with line .*)\nformula (.*)', done.stdout)
        expect(f'first race: {name}', next((f'{a} {b}' for a, b, c in both if c == group['formula'] and f'{a} {b}' == words), None), words)
        expect(f'values: {name}', formulas.holds([(part['formula'], part['here'], part['holds']) for part in first['parts']]), False)
        expect(f'text: {name}', f'{group["reports"]} time' in text and f'line {first["later"]["line"]}' in text, True)
    return groups


def shown(call):
    return ' '.join([call['thread'], call['object'], call['method'], *call['arguments'], '->', call['result'], 'clock', call['clock']])


FORMULAS = [                                      # a formula, the calls of its sides, the text with values, whether it holds
    ('d put put when key@1 != key@2 or value@1 = prev@1 and value@2 = prev@2', 'put "a b" 1 -> 1', 'put "a b" 2 -> 1',
     '"a b" != "a b" (false) or 1 = 1 (true) and 2 = 1 (false)', False),
    ('d put put when not (key@1 = 1 or key@1 < 3) and "(" != prev@2', 'put 3 1 -> 1', 'put 7 2 -> ")"',
     'not (3 = 1 (false) or 3 < 3 (false)) and "(" != ")" (true)', True),
    ('d put put when 10 <= key@1 and key@2 <= 9', 'put 10 1 -> nil', 'put -3 nil -> nil', '10 <= 10 (true) and -3 <= 9 (true)', True),
    ('d put put when key@1 < 9 or "\\"" = key@2', 'put nil 1 -> nil', 'put "\\"" nil -> nil', 'nil < 9 (false) or "\\"" = "\\"" (true)', True),
    ('d put put when false', 'put 1 1 -> nil', 'put 1 nil -> nil', 'false (false)', False),
    ('d put put when not not (true and (false or true))', 'put 1 1 -> nil', 'put 1 nil -> nil', 'not not (true (true) and (false (false) or true (true)))', True),
]


def check_formulas():
    import outputs
    for text, one, other, wanted, value in FORMULAS:
        calls = [traces.Call.of({'call': f't o {call}', 'clock': 't:1', 'line': 1}) for call in (one, other)]
        parts = formulas.parts_of(text.split(' ', 4)[4], [(['key', 'value', 'prev'], call) for call in calls])
        expect(f'formula: {text}', (outputs.here(parts), formulas.holds(parts)), (wanted, value))


def drawn(draw, events):
    """A trace of four threads and locks, shared ones too, with a place in front of most calls."""
    lines, threads, held, shares = ['rdtrace 2', 'thread main', 'object x register', 'object d dictionary'], ['main'], {}, collections.Counter()
    ended, values = set(), {}
    while len(lines) < events:
        thread = draw.choice([each for each in threads if each not in ended])
        lock, what = f'l{draw.randrange(2)}', draw.randrange(12)
        if what == 0 and len(threads) < 5:
            threads.append(f't{len(threads)}')
            lines.append(f'fork {thread} {threads[-1]}')
        elif what == 1 and thread == 'main' and len(threads) > 3:
            other = draw.choice(threads[1:])
            ended.add(other)
            lines.append(f'join main {other}')
        elif what in (2, 3, 4):
            if held.get(lock) == thread:
                del held[lock]
                lines.append(f'release {thread} {lock}')
            elif lock not in held and not any(count and lock == on for (on, _), count in shares.items()):
                held[lock] = thread
                lines.append(f'acquire {thread} {lock}')
        elif what == 5:
            if shares[lock, thread]:
                shares[lock, thread] -= 1
                lines.append(f'unshare {thread} {lock}')
            elif lock not in held:
                shares[lock, thread] += 1
                lines.append(f'share {thread} {lock}')
        else:
            lines += [f'# src/{draw.choice(("shop", "bank"))}.py:{draw.randrange(1, 4)}'] * (draw.random() < 0.8)
            if draw.random() < 0.5:
                value = draw.randrange(3)
                lines.append(f'call {thread} x swap {value} -> {values.get("x", "nil")}')
                values['x'] = value
            else:
                key, value = draw.randrange(3), draw.randrange(3)
                lines.append(f'call {thread} d put {key} {value} -> {values.get(key, "nil")}')
                values[key] = value
    return '\n'.join(lines) + '\n'


def check_orders(tools, path, draw):
    """The order of the events against `adjacent`, and what a call knows against the clocks of `check`."""
    trace = traces.Trace(path)
    order = traces.Order(trace)
    calls = [line for line, event in order.events.items() if event.word == 'call']
    for _ in range(12):
        one, other = sorted(draw.sample(calls, 2))
        said = tools.run('adjacent', path, one, other).stdout.split()
        way = order.path(one, other)
        expect(f'order: {one} {other} of {path}', way is not None, said[0] == 'ordered')
        if way is None:
            continue
        at = one                                  # each step begins where the thread of the one before has come to
        for source, line in way:
            expect(f'path: {source} {line} of {path}', (order.events[source].thread == order.events[at].thread, at <= source, source in order.before[line]),
                   (True, True, True))
            at = line
        expect(f'path: its end {other} of {path}', (order.events[at].thread == order.events[other].thread, at <= other), (True, True))
    for line, clock in re.findall(r'(?:race|with) line (\d+) .* clock (\S+)', tools.run('check', path).stdout):
        knows = ','.join(f'{thread}:{count}' for thread in order.threads for count in [page.known_to(order, int(line)).get(thread)] if count)
        expect(f'clock: {line} of {path}', knows, clock)


def check_files(tools, path, groups):
    """What the other formats tell of the same groups."""
    folder = pathlib.Path(tools.folder)
    done = tools.report(path, '--github', '--sarif', 'out.sarif', '--junit', 'out.xml', '--html', 'out.html', '--svg', 'out.svg')
    expect('files: status', done.returncode, 1)
    wanted = groups['groups']
    notes = re.findall(r'(?m)^::error file=([^,]+),line=(\d+),title=([^:,]+)::(.+)$', done.stdout)
    expect('github', [(file, int(line)) for file, line, _, _ in notes], [place_of(group, path) for group in wanted])
    results = json.loads((folder / 'out.sarif').read_text())['runs'][0]['results']
    at = [result['locations'][0]['physicalLocation'] for result in results]
    expect('sarif', [(each['artifactLocation']['uri'], each['region']['startLine'], result['occurrenceCount']) for each, result in zip(at, results)],
           [(pathlib.Path(file).as_uri() if os.path.isabs(file) else file, line, group['reports'])
            for group in wanted for file, line in [place_of(group, path)]])
    expect('sarif: fingerprints', len({result['partialFingerprints']['rdreport/1'] for result in results}) > 0, True)
    suite = xml.etree.ElementTree.parse(folder / 'out.xml').getroot()[0]
    expect('junit', (len(suite.findall('testcase/failure')), suite.get('failures'), suite.get('tests')), (len(wanted), str(len(wanted)), str(len(wanted))))
    xml.etree.ElementTree.parse(folder / 'out.svg')
    validate(folder)


def place_of(group, trace):
    later = group['first']['later']
    return (later['place']['file'], later['place']['line']) if later['place'] else (str(trace), later['line'])


def validate(folder):
    """The files by their schemas."""
    python = next((each for each in (sys.executable, '/usr/bin/python3')
                   if subprocess.run([each, '-c', 'import jsonschema'], capture_output=True).returncode == 0), None)
    if python:
        text = 'import json, sys, jsonschema; jsonschema.Draft7Validator(json.load(open(sys.argv[1])), format_checker=jsonschema.FormatChecker()).validate(json.load(open(sys.argv[2])))'
        done = subprocess.run([python, '-c', text, str(SCHEMAS / 'sarif.json'), str(folder / 'out.sarif')], capture_output=True, text=True)
        expect('sarif: schema', (done.returncode, done.stderr[-300:]), (0, ''))
    else:
        left_out.append('SARIF by its schema: no jsonschema')
    if shutil.which('xmllint'):
        done = subprocess.run(['xmllint', '--noout', '--schema', str(SCHEMAS / 'junit.xsd'), str(folder / 'out.xml')], capture_output=True, text=True)
        expect('junit: schema', (done.returncode, done.stderr[-300:] if done.returncode else ''), (0, ''))
    else:
        left_out.append('JUnit by its schema: no xmllint')


def check_schema():
    """The names and the needed parts of the schema are those of the model that the distribution has of the whole one."""
    text = ('import json, attr, sarif_om; print(json.dumps({name: [sorted(f.metadata["schema_property_name"] for f in attr.fields(each)), '
            'sorted(f.metadata["schema_property_name"] for f in attr.fields(each) if f.default is attr.NOTHING)] '
            'for name, each in vars(sarif_om).items() if attr.has(each)}))')
    done = subprocess.run(['/usr/bin/python3', '-c', text], capture_output=True, text=True) if os.path.exists('/usr/bin/python3') else None
    if not done or done.returncode:
        left_out.append('the names of SARIF: no python3-sarif-python-om')
        return
    model, schema = json.loads(done.stdout), json.loads((SCHEMAS / 'sarif.json').read_text())
    for name, part in [('sarifLog', schema), *schema['definitions'].items()]:
        names, needed = model[name[0].upper() + name[1:]]
        expect(f'schema: names of {name}', sorted(set(part['properties']) - {'$schema'} - set(names)), [])
        expect(f'schema: needed of {name}', sorted(set(needed) - set(part.get('required', []))), [])


def check_known(tools, path, groups):
    """Known groups are left out and counted, also where lines moved; a pattern knows many."""
    folder = pathlib.Path(tools.folder)
    source = folder / 'src'
    source.mkdir(exist_ok=True)
    for name in ('shop', 'bank'):
        (source / f'{name}.py').write_text(''.join(f'{name} += "{number}" * {number}\n' for number in range(1, 4)))
    known = folder / 'known'
    known.unlink(missing_ok=True)
    expect('known: status before', tools.report(path, '--add-known', 'known').returncode, 1)
    rows = known.read_text().splitlines()
    expect('known: a row a group', len(rows), len(groups['groups']))
    done = tools.report(path, '--known', 'known')
    reports = sum(group['reports'] for group in groups['groups'])
    expect('known: all', (done.returncode, done.stdout.splitlines()[:2]),
           (0, ['0 reports in 0 groups', f'and {reports} reports in {len(rows)} groups that are known']))
    known.write_text(''.join(row + '\n' for row in rows[1:]))
    expect('known: all but one', (tools.report(path, '--known', 'known').stdout.splitlines()[0].endswith('in 1 group'), tools.report(path, '--known', 'known').returncode), (True, 1))
    moved = folder / 'moved.trace'
    for name in ('shop', 'bank'):
        file = source / f'{name}.py'
        file.write_text('\n\n' + file.read_text())
    moved.write_text(re.sub(r'(?m)^(# .+:)(\d+)$', lambda place: place[1] + str(int(place[2]) + 2), path.read_text()))
    known.write_text(''.join(row + '\n' for row in rows))
    expect('known: where lines moved', tools.report(moved, '--known', 'known').returncode, 0)
    known.write_text('# all\n* * * * *\n')
    expect('known: by a pattern', tools.report(path, '--known', 'known').returncode, 0)
    known.write_text('a b\n')
    expect('known: a bad line', (tools.report(path, '--known', 'known').returncode, 'known line 1' in tools.report(path, '--known', 'known').stderr), (2, True))
    shutil.rmtree(source)


def check_many(tools, paths):
    """Over many traces: the groups of all, side by side, one after another, or merged from the JSON of each."""
    statuses = [tools.run('check', path).returncode for path in paths]
    wanted = next((status for status in statuses if status not in (0, 1, 5)), 1 if 1 in statuses else 5 if 5 in statuses else 0)
    status, together = tools.groups(*paths)
    expect('many: status', status, wanted)
    expect('many: one after another', tools.groups(*paths, '--jobs', 1), (status, together))
    names = []
    for number, path in enumerate(paths):
        names.append(f'{tools.folder}/one{number}.json')
        tools.report(path, '--json', names[-1])
    expect('many: merged', tools.groups(*names), (status, together))
    counts = collections.Counter()
    for path in paths:
        counts += counted(tools.run('check', path).stdout, pathlib.Path(path).read_text(errors='replace').split('\n'))
    expect('many: groups', told(together['groups']), counts)
    expect('many: traces', sum(sum(group['traces'].values()) for group in together['groups']), sum(counts.values()))


def check_words(tools, racing):
    """The command line: what rd2 wrote before, sources, places passed over, wrong words."""
    folder = pathlib.Path(tools.folder)
    said = folder / 'said'
    said.write_text(tools.run('check-json', racing).stdout)
    expect('words: --races', tools.groups(racing, '--races', said), tools.groups(racing))
    account = [TOP / 'examples' / name for name in ('account_race.trace', 'account.spec')]
    expect('words: either order', tools.groups(*account), tools.groups(*reversed(account)))
    below = folder / 'a' / 'deep'
    below.mkdir(parents=True)
    (below / 'wrapper.py').write_text('one\n')
    (below / 'user.py').write_text('one\ntwo\n')
    trace = folder / 'places.trace'
    trace.write_text('rdtrace 1\nthread main\nthread b\nobject x register\n# deep/user.py:2\n# wrapper.py:1\ncall main x write 1 -> nil\n# wrapper.py:1\ncall b x write 2 -> nil\n')

    def places(*words):
        later, earlier = (tools.groups(trace, *words)[1]['groups'][0]['first'][side]['place'] for side in ('later', 'earlier'))
        return [f'{place["file"]}:{place["line"]}' for place in (earlier, later)]
    expect('places: as recorded', places(), ['wrapper.py:1', 'wrapper.py:1'])
    expect('places: whole', places('--source', 'a'), ['a/deep/wrapper.py:1', 'a/deep/wrapper.py:1'])
    expect('places: passed over', places('--source', '.', '--skip', '*wrapper.py'), ['a/deep/user.py:2', 'a/deep/wrapper.py:1'])
    expect('places: passed over by line', places('--skip', 'wrapper.py:1'), ['deep/user.py:2', 'wrapper.py:1'])
    for words, status in (([], 2), (['none.trace'], 6), ([racing, racing, '--races', said], 2), ([racing, '--jobs', 0], 2), ([racing, '--rd2', 'no-such-rd2'], 2),
                          ([account[1], account[1]], 2), ([racing, '--pair', 1, 2], 2), (['bad.json'], 2)):
        (folder / 'bad.json').write_text('{"later": 1}')
        done = tools.report(*words)
        expect(f'words: {words}', (done.returncode, 'Traceback' in done.stderr, done.stderr != ''), (status, False, True))


def check_pictures(tools):
    """Two calls side by side, or the way from one to the other."""
    guarded = TOP / 'examples' / 'guarded.trace'
    done = tools.report(guarded, '--pair', 13, 10, '--html', 'pair.html')
    expect('pair: ordered', done.stdout.splitlines()[-2:], ["Line 10 comes before line 13, so they don't race.", 'The way from line 10 to line 13: 11 to 12 (lock balance.lock).'])
    text = (pathlib.Path(tools.folder) / 'pair.html').read_text()
    expect('pair: drawn', (text.count('class="path known"'), 'class="racing"' in text), (1, False))
    done = tools.report(TOP / 'examples' / 'dictionary_update.trace', '--pair', 8, 11, '--html', 'pair.html')
    expect('pair: apart', done.stdout.splitlines()[-1], 'Line 11 knows no event of a, so nothing orders it with line 8.')


def check_page(tools, large):
    """The page in a browser: no fault, no network, by click and by keyboard, quick, at two widths."""
    if not shutil.which('chromium'):
        left_out.append('the page in a browser: no chromium')
        return
    folder = pathlib.Path(tools.folder)
    tools.report(TOP / 'examples' / 'dictionary_update.trace', '--html', 'small.html')
    tools.report(large, '--html', 'large.html')
    with browser.Browser() as seen:
        for name in ('small.html', 'large.html'):
            for width, dark in ((1280, False), (390, True)):
                seconds = seen.open(folder / name, width, dark)
                expect(f'page: {name} opens at {width} within two seconds', seconds < 2, True)
                expect(f'page: {name} faults at {width}', seen.faults(), [])
                expect(f'page: {name} asks for files at {width}', seen.asked(), [f'file://{folder / name}'])
                within = 'document.documentElement.scrollWidth <= document.documentElement.clientWidth'
                expect(f'page: {name} within the window of {width}', seen.run(within), True)
        seen.open(folder / 'small.html', 1280, False)
        expect('page: dark and light', len({seen.open(folder / 'small.html', 800, dark) and seen.run('getComputedStyle(document.body).backgroundColor') for dark in (False, True)}), 2)
        below = 'document.querySelector(".lines").textContent'
        for _ in range(3):                        # the groups' headings, then the events
            if seen.run('document.activeElement.classList.contains("event")'):
                break
            seen.key('Tab')
        seen.key('ArrowDown')
        expect('page: arrow', seen.run(below).splitlines()[4].strip(), '6  fork main a')
        seen.key('End')
        expect('page: End', seen.run(below).splitlines()[-1].strip(), '14  call main stock get "apples" -> 11')
        seen.key('Escape')
        expect('page: Escape', seen.run(below), '')
        seen.key('Enter')
        expect('page: Enter', seen.run('document.querySelector(".lines b").textContent').strip(), '14  call main stock get "apples" -> 11')
        seen.run('document.querySelector(".call-earlier").dispatchEvent(new MouseEvent("click"))')
        expect('page: click', seen.run('document.querySelector(".lines b").textContent').strip(), '9  call b stock get "apples" -> 10')


def check_documents(tools):
    """What the guide shows, and the picture of the README, are what the tool writes."""
    lines = (TOP / 'docs' / 'commands.md').read_text().split('\n')
    for at, line in enumerate(lines):
        if line.startswith('    python3 docs/tools/rdreport examples/'):
            shown = lines[at + 2:lines.index('    ..', at)]
            written = tools.report(*line.split()[2:], cwd=TOP).stdout.split('\n')
            expect('documents: commands.md', [text[4:] for text in shown], written[:len(shown)])
    tools.report('examples/dictionary_update.trace', '--svg', f'{tools.folder}/picture.svg', cwd=TOP)
    picture = (TOP / 'docs' / 'pictures' / 'dictionary_update.svg').read_text()
    expect('documents: the picture', (pathlib.Path(tools.folder) / 'picture.svg').read_text() == picture, True)
    help_text = tools.report('--help').stdout
    words = {word for line in lines for word in re.findall(r'`(--[a-z-]+)', line)}
    expect('documents: options', sorted(words), sorted(set(re.findall(r'(?m)^  (--[a-z-]+)', help_text)) & words))


STOCK = """import sys
import rdrecord as rd
with rd.Recorder(sys.argv[1]) as to:
    stock = rd.Dictionary(to, {"apples": 10}, "stock")
    def worker():
        stock["apples"] += 1
    threads = [rd.Thread(to, worker) for _ in range(2)]
    for each in threads: each.start()
    for each in threads: each.join()
"""


def project(tools):
    """A program with the tools beside it, as the recipes want it."""
    folder = pathlib.Path(tempfile.mkdtemp(dir=tools.folder))
    for below in ('tests', 'tools'):
        (folder / below).mkdir()
    (folder / 'tests' / 'stock.py').write_text(STOCK)
    (folder / 'tests' / 'known-races').touch()
    shutil.copytree(TOP / 'docs' / 'recorders' / 'python' / 'rdrecord', folder / 'tests' / 'rdrecord')
    shutil.copytree(TOOL, folder / 'tools' / 'rdreport')
    os.symlink(tools.rd2, folder / 'tools' / 'rd2')
    return folder


def check_recipes(tools):
    """The recipes for CI: what they run ends with 1 in a program that races, with 0 once its races are known, and writes its files."""
    def shell(folder, text, **more):
        return subprocess.run(['bash', '-e', '-c', text], cwd=folder, capture_output=True, text=True, env={**os.environ, **more})
    recipes = TOP / 'docs' / 'ci'
    folder = project(tools)
    done = shell(folder, f'make -j4 -f {recipes}/races.mk RUNS=4')
    expect('recipes: make', (done.returncode, 'in 4 of 4 traces' in done.stdout, '# tests/stock.py:' in (folder / 'runs' / '1.trace').read_text()), (2, True, True))
    expect('recipes: make, known', shell(folder, f'python3 tools/rdreport --rd2 tools/rd2 runs/*.trace --add-known tests/known-races || make -f {recipes}/races.mk RUNS=4').returncode, 0)
    yaml = '/usr/bin/python3'
    if subprocess.run([yaml, '-c', 'import yaml'], capture_output=True).returncode:
        left_out.append('the recipes of GitHub and GitLab: no python3-yaml')
        return
    read = 'import sys, json, yaml; print(json.dumps(yaml.load(open(sys.argv[1]), yaml.BaseLoader)))'
    github, gitlab = (json.loads(subprocess.run([yaml, '-c', read, str(recipes / f'{name}.yml')], capture_output=True, text=True).stdout) for name in ('github', 'gitlab'))
    folder = project(tools)
    steps = [step['run'] for step in github['jobs']['races']['steps'] if 'run' in step]
    expect('recipes: github', [shell(folder, step.replace('seq 20', 'seq 3')).returncode for step in steps], [0, 1])
    expect('recipes: github, files', [(folder / name).is_file() for name in ('races.sarif', 'races.html')], [True, True])
    folder = project(tools)
    done = [shell(folder, '\n'.join(gitlab['record']['script']), CI_NODE_INDEX=str(number)).returncode for number in (1, 2)]
    done.append(shell(folder, '\n'.join(gitlab['tell']['script'])).returncode)
    expect('recipes: gitlab', (done, [(folder / name).is_file() for name in ('races.xml', 'races.html')]), ([0, 0, 1], [True, True]))


def main():
    options = argparse.ArgumentParser(usage=__doc__)
    options.add_argument('--rd2', required=True)
    options.add_argument('--seed', type=int, default=1)
    options.add_argument('--races', type=int, default=20000)
    given = options.parse_args()
    draw = random.Random(given.seed)
    with tempfile.TemporaryDirectory() as folder:
        folder = str(pathlib.Path(folder).resolve())
        tools = Tools(shutil.which(given.rd2) and str(pathlib.Path(shutil.which(given.rd2)).resolve()), folder)
        check_documents(tools)
        check_formulas()
        check_schema()
        examples = sorted((TOP / 'examples').glob('*.trace'))
        spec = {'account_race': 'account', 'account_in_turn': 'account', 'queue_race': 'bounded_queue'}
        for path in examples:
            check_trace(tools, path, *[TOP / 'examples' / f'{spec[path.stem]}.spec'][:path.stem in spec] if path.stem in spec else ())
        check_many(tools, examples[:20])
        made = []
        for number in range(8):
            path = pathlib.Path(folder) / f'drawn{number}.trace'
            path.write_text(drawn(draw, 150))
            made.append(path)
            groups = check_trace(tools, path)
            check_orders(tools, path, draw)
        check_many(tools, made)
        check_files(tools, made[-1], groups)
        check_known(tools, made[-1], groups)
        check_words(tools, made[-1])
        check_pictures(tools)
        check_recipes(tools)
        large = pathlib.Path(folder) / 'large.trace'
        lines = tools.run('gen-text', 1, 2 * given.races).stdout.splitlines(keepends=True)
        large.write_text(''.join(f'# src/shop.py:{draw.randrange(1, 9)}\n{line}' if line.startswith('call') and draw.random() < 0.9 else line for line in lines))
        began = time.time()
        groups = check_trace(tools, large)
        print(f'{sum(group["reports"] for group in groups["groups"])} races of {len(lines)} lines in {len(groups["groups"])} groups, {time.time() - began:.1f} s')
        check_files(tools, large, groups)
        check_page(tools, large)
    print(', '.join(f'{count} {what}' for what, count in sorted(checked.items())))
    for each in dict.fromkeys(left_out):
        print(f'left out: {each}')
    for each in faults[:50]:
        print(each)
    sys.exit(1 if faults else 0)


if __name__ == '__main__':
    main()
