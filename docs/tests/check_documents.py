#!/usr/bin/env python3
"""Checks that what the documents name is there, and that what they show is so.

    check_documents.py [--rd2 PROGRAM] [--all]

Lists each fault as FILE:LINE: WHAT, and ends with 1 where there is one. With --rd2 it runs the program on each command, trace and
specification that a document shows, compares the output with the one shown beside it, and runs check_report.py and what docs/first-hour.md has for
the languages that are here. --all lists too what was checked.
"""
import argparse, collections, gzip, lzma, os, pathlib, re, shutil, subprocess, sys, tempfile

TOP = pathlib.Path(__file__).resolve().parents[2]
DOCUMENTS = [TOP / 'README.md', TOP / 'CHANGELOG.md', *sorted((TOP / 'docs').rglob('*.md')), *sorted(TOP.glob('crates/*/README.md'))]
NAMING = [TOP / 'docs' / name for name in ('proved.md', 'definitions.md', 'architecture.md', 'DECISIONS.md')]
MOST = {'README.md': 850, 'first-hour.md': 1600, 'recording.md': 2600, 'specifications.md': 2600, 'commands.md': 2600, 'errors.md': 1600, 'formats.md': 2200,
        'CHANGELOG.md': 400}                      # words of the documents for users
OUTSIDE = {'out'}                                 # folders of crates that builds make
MADE = {'run.trace', 'run.out', 'report.txt', 'shop.py'}     # files that a command in a document writes
ENDINGS = r'\.(?:trace|spec|out|md|py|rt|antt|edit|txt|java|go|cpp|hpp)'
PROGRAM = r'(?:crates/rd2/out/)?rd2'
REPORT = re.compile(r'(race line \d|first \S+ line \d|races \d|replay (exact|differs line \d|not shipped)|verdict (deterministic|not shown)|refused (line|spec line) \d|refused usage)')

faults, checked = [], collections.Counter()


def fault(document, line, text):
    faults.append(f'{document.path.relative_to(TOP)}:{line}: {text}')


class Block(list):
    """The lines of a block of code, and the number of its first one."""
    def __init__(self, first, language=''):
        self.first, self.language = first, language


class Document:
    """A page: its lines of prose by number, its blocks of code, which end at empty lines, its anchors."""
    def __init__(self, path):
        self.path, self.prose, self.blocks, self.anchors = path, {}, [], set()
        fence = block = None
        listed = 0                                # how far a list indents its text
        lines = path.read_text(encoding='utf-8').split('\n')
        for number, line in enumerate(lines, 1):
            begin = re.match(r' *```(\w*)', line)
            if begin:
                fence = None if fence is not None else Block(number + 1, begin[1])
                if fence is not None:
                    self.blocks.append(fence)
                continue
            if fence is not None:
                fence.append(line)
                continue
            item = re.match(r'( *)(?:-|\d+\.) +', line)
            if item and not re.match(r' {4}', line):
                listed = len(item[0])
            elif line and not line.startswith(' '):
                listed = 0
            indented = line.startswith(' ' * (listed + 4)) and not item
            if indented and line.strip() and (block is not None or not lines[number - 2].strip()):
                if block is None:
                    block = Block(number)
                    self.blocks.append(block)
                block.append(line[listed + 4:])
                continue
            block = None
            self.prose[number] = line
            heading = re.match(r'#+ (.*)', line)
            if heading:
                self.anchors.add(re.sub(r'[^\w\- ]', '', heading[1].strip().lower()).replace(' ', '-'))

    def codes(self, first=0, last=sys.maxsize):
        """What stands in backticks between two lines, with its line."""
        for number, line in self.prose.items():
            if first <= number <= last:
                for code in re.findall(r'(?<!`)`([^`]+)`(?!`)', line):
                    yield number, code


def text_files(folder):
    for path in folder.rglob('*'):
        if path.is_file() and not OUTSIDE.intersection(path.relative_to(TOP).parts):
            yield path


def like(pattern):
    """A path with words in capitals, which stand for any name, as a pattern of names."""
    return re.sub(r'\b[A-Z]+\b(?!\.md)', '*', re.sub(r'(?<=_)[A-Z]+(?=\.)', '*', pattern))


def is_there(document, path):
    """Whether a path leads to a file, from the top, from crates/, or from the page's own folder."""
    folders = (TOP, TOP / 'crates', document.path.parent)
    return any(any(True for _ in folder.glob(like(path.rstrip('/')))) for folder in folders if not path.startswith('/'))


def check_links(document, anchors):
    for number, line in document.prose.items():
        for target in re.findall(r'\]\(([^)\s]+)\)', re.sub(r'`[^`]*`', '', line)):
            if re.match(r'\w+:', target):
                continue
            path, _, anchor = target.partition('#')
            to = (document.path.parent / path).resolve() if path else document.path
            checked['links'] += 1
            if not to.exists():
                fault(document, number, f'the link leads to no file: {target}')
            elif anchor and anchor not in anchors(to):
                fault(document, number, f'the link leads to no heading: {target}')


def check_paths(document, names):
    for number, code in document.codes():
        for word in code.split():
            word = word.rstrip(',;')
            if re.fullmatch(r'(?:examples|docs|crates|rd_\w+|recorders)/[\w./*-]+', word):
                checked['paths'] += 1
                if 'crates/rd2/out/' not in word and not is_there(document, word):
                    fault(document, number, f'no such file: {word}')
            elif re.fullmatch(r'[\w-]+' + ENDINGS, word) and word not in MADE:
                checked['names of files'] += 1
                pattern = like(word)
                there = word in names or '*' in pattern and any(pathlib.PurePath(name).match(pattern) for name in names)
                if not there and not is_there(document, word):
                    fault(document, number, f'no file of this name: {word}')


def commands_of(document):
    """The commands that a page shows, each with its line, its words, and the lines below it in its block."""
    for block in document.blocks:
        for at, line in enumerate(block):
            for found in re.finditer(r'(?:^|\$ |[;|(] *|&& |do )' + PROGRAM + r' ([^|;>#)]*)', line):
                shown = block[at + 1:] if line.startswith('$ ') else []
                piped = '|' in line or ';' in line
                yield block.first + at, found[1].split(), None if piped else shown
            trial = re.search(r'rt (?:run|try)(?P<given>.*?) -- (?P<words>[^)]*)\)', line)
            if trial:
                given = dict(pair.split('=') for pair in re.findall(r'--data (\S+)', trial['given']))
                words = [given.get(word, word) for word in trial['words'].split()]
                yield block.first + at, [word.replace('../../', '') for word in words], None
    wrong = {number for number, _ in table(document, '| you wrote')}
    for number, code in document.codes():
        found = re.fullmatch(PROGRAM + r'((?: [^|\s]+)+)(?: \|.*)?', code)
        if found and number not in wrong and len(found[1].split()) > 1:
            yield number, found[1].split(), None


def usages(commands):
    """The commands with each number of words that they take, and words to try, by the table of docs/commands.md."""
    known = {}
    for line in commands.prose.values():
        row = re.match(r'\| `rd2 (\w[\w-]*)([^`]*)` \|', line)
        words = row[2].split() if row else []
        tries = ['set' if word.strip('[]') in ('TRACE', 'SPEC', 'FILE', 'NAME') else str(place) for place, word in enumerate(words, 1)]
        least, most = len([word for word in words if word[0] not in '[.']), len(words)
        if '..' in words:                         # as many as one likes
            tries, most = tries[:least] * 4, least + 3
        for count in range(least, most + 1) if row else ():
            known[row[1], count] = tries[:count]
    return known


def check_usages(commands, known, program):
    """The program has each command of the table."""
    for (word, count), words in sorted(known.items()) if program else ():
        checked['usages, run'] += 1
        if program.run(word, *words) == ['refused usage']:
            fault(commands, 1, f'the program has no command {word} with {count} more words')


def table(document, head):
    """The rows of the tables that begin so, each with its line and its cells."""
    within = False
    for number, line in document.prose.items():
        line = line.strip()
        within = line.startswith(head) or within and line.startswith('|')
        if within and not line.startswith((head, '|---')):
            yield number, [cell.strip() for cell in re.split(r'(?<!\\)\|', line)[1:-1]]


def check_wrong_words(document, program):
    """The table of wrong words: each command, and each wrong file, ends with the answer beside it."""
    trace = (TOP / 'examples' / 'two_puts.trace').read_bytes()
    files = {'a compressed file': [gzip.compress(trace), lzma.compress(trace)], 'an empty file': [b''],
             '`share` after': [b'rdtrace 1\nthread a\nshare a l\n', b'rdtrace 3\n']}
    for number, cells in table(document, '| you wrote') if program else ():
        answers = re.findall(r'`([^`]+)`', cells[1])
        for text in next((texts for name, texts in files.items() if cells[0].startswith(name)), ()):
            checked['wrong words, run'] += 1
            said = program.run_on('check', text)[-1]
            if not any(said.endswith(answer) for answer in answers):
                fault(document, number, f'{cells[0]} gives {said}')
        tried = re.findall(r'`([^`]+)`', cells[0]) if cells[0].startswith('`rd2 ') else []
        for words in tried:
            checked['wrong words, run'] += 1
            said = program.run(*words.removeprefix('rd2 ').split())[-1]
            if said != answers[0]:
                fault(document, number, f'`{words}` gives {said}')


def past_limits():
    """Of each limit but two, which no text of a test can pass: the command, and a text that passes it."""
    begin = 'rdtrace 1\nthread main\n'
    yield 'line', 'check', begin + '#' * 8192 + '\n'
    yield 'threads', 'check', begin + ''.join(f'fork main t{n}\n' for n in range(4096))
    yield 'locks', 'check', begin + ''.join(f'acquire main l{n}\n' for n in range(65537))
    yield 'objects', 'check', begin + ''.join(f'object o{n} set\n' for n in range(65537))
    yield 'depth', 'check', begin + 'acquire main l\n' * 65536
    method, pair = 'rdspec 1\nkind k\nmethod m a b c d e f -> g\n', 'commute m m when '
    yield 'kinds', 'spec', 'rdspec 1\n' + ''.join(f'kind k{n}\n' for n in range(33))
    yield 'methods', 'spec', 'rdspec 1\nkind k\n' + ''.join(f'method m{n} -> a\n' for n in range(17))
    yield 'arguments', 'spec', 'rdspec 1\nkind k\nmethod m a b c d e f g -> h\n'
    yield 'nodes', 'spec', method + pair + ' or '.join(['a@1 = 1'] * 33) + '\n'
    yield 'depth of a formula', 'spec', method + pair + 'not ' * 32 + 'true\n'
    yield 'predicates', 'spec', method + pair + ' or '.join(f'{name}@1 = nil' for name in 'abcdef') + '\n'
    yield 'tokens', 'spec', method + pair + '(' * 256 + 'true' + ')' * 256 + '\n'
    yield 'text', 'spec', '#' * 1048577


def check_limits(traces, specs, program):
    """The tables of limits have the numbers that the program refuses by; two are compared with the source."""
    told = {}
    for document in (traces, specs):
        for number, cells in [*table(document, '| name | number |'), *table(document, '| limit | number |')]:
            for name, most in zip(re.findall(r'`([a-z]+)`', cells[0]), cells[1].split(', ')):
                told[name + ' of a formula' * (name in told)] = document, number, most
    source = (TOP / 'crates' / 'rd_base' / 'src' / 'limits.rt').read_text().replace('_', '')
    for name in ('bytes', 'events'):
        document, number, most = told.pop(name)
        checked['limits'] += 1
        if f'{name}: {most},' not in source:
            fault(document, number, f'the source has another limit {name}')
    for name, command, text in past_limits() if program else ():
        document, number, most = told.pop(name)
        checked['limits, run'] += 1
        said = program.run_on(command, text)[-1]
        if not said.endswith(f' limit {name.split()[0]} {most}'):
            fault(document, number, f'what passes the limit {name} gives {said}')
    for name, (document, number, _) in told.items() if program else ():
        fault(document, number, f'no text passes the limit {name}')


def check_kinds(documents, program):
    """Each built-in kind has its methods in the tables of the documents."""
    kinds = ('register', 'counter', 'set', 'dictionary', 'bag', 'peak', 'queue', 'tally')
    for document in documents:
        told, kind = collections.defaultdict(set), None
        for _, cells in table(document, '| kind |'):
            kind = cells[0].strip('`') or kind
            told[kind] |= {code.split()[0] for code in re.findall(r'`([^`]+)`', cells[-1])}
        for kind in kinds if program else ():
            methods = {line.split()[1] for line in program.run('kind', kind) if line.startswith('method ')}
            checked['kinds'] += 1
            for lacking in sorted(methods - told[kind] - told['most']):
                fault(document, 1, f'the table of kinds has no {kind} {lacking}')


def check_statuses(readme, commands):
    """README has the statuses of the table of docs/commands.md, and each command ends with some of them."""
    told = [[int(status) for _, cells in table(document, '| status |') for status in cells[0].split(', ')] for document in (readme, commands)]
    checked['statuses'] += len(told[1])
    if told[0] != told[1]:
        fault(readme, 1, f'README has the statuses {told[0]}, and docs/commands.md {told[1]}')
    for number, cells in table(commands, '| command |'):
        if not set(map(int, cells[2].split(', '))) <= set(told[1]):
            fault(commands, number, 'a status that no table has')


def check_recording_costs(document):
    """The table of what recording costs has the least and the greatest number of each page of a recorder."""
    picked = {'Python': ('python', r'', ['as it is', 'recorded, `--calm`', 'recorded']),
              'Java, agent': ('java', r'a `put` of one map|own lock, taken and given back', ['alone', 'no yields', 'agent']),
              'Go': ('go', r'assignment|lock pair', ['by Go', 'recorded, no shaking', 'recorded']),
              'C, C++, preloaded': ('cpp', r'', ['unrecorded', 'preloaded, no shaking', 'preloaded'])}
    for number, cells in table(document, '| | as it is |'):
        folder, rows, names = picked[cells[0]]
        page = Document(TOP / 'docs' / 'recorders' / folder / 'README.md')
        for name, shown in zip(names, cells[1:]):
            numbers = []
            for head in sorted({line for line in page.prose.values() if line.startswith('| |')}):
                columns = [cell.strip() for cell in head.split('|')[1:-1]]
                for _, row in table(page, head):
                    here = row[1:] if row[0] == name else [row[columns.index(name)]] if name in columns and re.match(rows, row[0]) else []
                    numbers += [float(each) for cell in here for each in re.findall(r'[\d.]+', cell)]
            checked['costs'] += 1
            if [float(each) for each in re.findall(r'[\d.]+', shown)] != [min(numbers, default=0), max(numbers, default=0)]:
                fault(document, number, f'{cells[0]}, {name}: {min(numbers, default=0)} to {max(numbers, default=0)}')


def check_taken(document, program):
    """The table of formulas that are taken or not: the program answers so."""
    for number, cells in table(document, '| a formula |') if program else ():
        text = f'rdspec 1\nkind k\nmethod put key value -> done\ncommute put put when {cells[0].strip("`")}\n'
        said = program.run_on('spec', text)
        checked['formulas, run'] += 1
        if (said[0] == 'rdspec 1') != cells[1].startswith('yes') or not all(said[0].endswith(why) for why in re.findall(r'^no, `([^`]+)`', cells[1])):
            fault(document, number, f'{cells[0]} gives {said[0]}')


def check_sizes(document):
    """The documents for users are no longer than they may be, and none of their tables is wider than 120 columns."""
    text = document.path.read_text()
    checked['sizes'] += 1
    if len(text.split()) > MOST[document.path.name]:
        fault(document, 1, f'{len(text.split())} words, and {MOST[document.path.name]} at most')
    if document.path.name == 'README.md' and len(text.encode()) > 5120:
        fault(document, 1, f'{len(text.encode())} bytes, and 5120 at most')
    for number, line in document.prose.items():
        if line.strip().startswith('|') and len(line) > 120:
            fault(document, number, f'a table of {len(line)} columns')


def check_commands(document, known):
    for number, words, _ in commands_of(document):
        checked['commands'] += 1
        words = [word for word in words if word[0] != '[']
        if (words[0], len(words) - 1) not in known:
            fault(document, number, f'no such command: rd2 {" ".join(words)}')
        for word in words[1:]:
            if re.search(ENDINGS + '$', word) and word not in MADE and not is_there(document, word):
                fault(document, number, f'the command names a file that is not there: {word}')
    for block in document.blocks:
        for at, line in enumerate(block):
            for path in re.findall(r'(?:python3|g\+\+[^|;]*?|go run) ([\w./-]+\.(?:py|cpp)|\./\w+)', line):
                checked['programs'] += 1
                if not is_there(document, path) and not list((TOP / 'docs' / 'recorders').glob('*/' + path)):
                    fault(document, block.first + at, f'no such program: {path}')


def check_numbered(document):
    """Blocks of numbered lines are those of the example that the text in front of them names last."""
    for block in document.blocks:
        rows = [re.match(r' *(\d+)  (.*)$', line) for line in block]
        if len(rows) < 3 or not all(rows):
            continue
        named = [code for _, code in document.codes(block.first - 6, block.first) if re.fullmatch(r'examples/[\w.]+', code)]
        if not named:
            fault(document, block.first, 'numbered lines, and no example is named before them')
            continue
        checked['numbered lines'] += len(rows)
        lines = (TOP / named[-1]).read_text().split('\n')
        for at, row in enumerate(rows):
            number, shown = int(row[1]), row[2]
            here = lines[number - 1] if number <= len(lines) else None
            same = here == shown or shown.endswith(' ..') and here is not None and here.startswith(shown[:-3])
            if not same:
                fault(document, block.first + at, f'line {number} of {named[-1]} is another')


def stored(words):
    """The file with the stored output of a command, or none."""
    if len(words) < 2 or not words[1].startswith('examples/'):
        return None
    base, ending = words[1].rsplit('.', 1)
    path = TOP / {'check': base + '.out', 'epochs': base + '.out', 'replay': base + '.replay.out', 'points': base + '.points.out',
                  'spec': base + '.spec.out'}.get(words[0], 'none')
    return path if path.is_file() else None


class Program:
    """The built program, or none."""
    def __init__(self, path):
        self.path, self.folder = path and str(pathlib.Path(path).resolve()), tempfile.mkdtemp()

    def __bool__(self):
        return bool(self.path)

    def run(self, *words):
        run = subprocess.run([self.path, *words], cwd=TOP, capture_output=True)
        return run.stdout.decode().rstrip('\n').split('\n')

    def shell(self, line, folder, **variables):
        """The status and the output of a line of the shell, for which the program is rd2."""
        own = pathlib.Path(self.folder) / 'bin'
        if not own.exists():
            own.mkdir()
            (own / 'rd2').symlink_to(self.path)
        run = subprocess.run(['bash', '-c', line], cwd=folder, capture_output=True, text=True,
                             env={**os.environ, 'PATH': f'{own}:{os.environ["PATH"]}', 'PYTHONDONTWRITEBYTECODE': '1', **variables})
        return run.returncode, run.stdout

    def run_on(self, command, *texts):
        names = []
        for number, text in enumerate(texts):
            path = pathlib.Path(self.folder) / f'file{number}'
            path.write_bytes(text if isinstance(text, bytes) else text.encode())
            names.append(str(path))
        return self.run(command, *names)


def check_outputs(document, program):
    """Below a command that begins with `$ ` stands what it writes."""
    for number, words, shown in commands_of(document):
        if not shown or not shown[0].strip() or any(re.fullmatch('[A-Z]+', word) for word in words):
            continue
        path, wanted = stored(words), list(shown)
        if path:
            checked['outputs, with a file'] += 1
            if path.read_text().rstrip('\n').split('\n') != wanted:
                fault(document, number, f'{path.relative_to(TOP)} has another output than the one shown')
        if program:
            checked['outputs, run'] += 1
            if program.run(*words) != wanted:
                fault(document, number, f'rd2 {" ".join(words)} writes something else')
    for block in document.blocks if program else ():
        if block[0].startswith('$ ') and '|' in block[0] and all(map(shutil.which, re.findall(r'\| (\w+)', block[0]))):
            checked['outputs, run'] += 1
            if program.shell(block[0][2:], TOP)[1].splitlines() != block[1:]:
                fault(document, block.first, f'{block[0][2:]} writes something else')


def check_sentences(document, program):
    """Sentences that a command writes a file, or has the lines of the block below it."""
    for number, line in document.prose.items() if program else ():
        around = ' '.join(document.prose.get(at, '') for at in (number, number + 1))
        for words, name in [found.groups() for found in re.finditer(r'`rd2 ([^`]+)` writes `(examples/[\w.]+)`', around) if found.start() < len(line)]:
            checked['outputs, run'] += 1
            if '\n'.join(program.run(*words.split())) + '\n' != (TOP / name).read_text():
                fault(document, number, f'rd2 {words} writes another file than {name}')
        for words in re.findall(r'`rd2 ([^`]+)` has, ', line):
            checked['outputs, run'] += 1
            block = next(block for block in document.blocks if block.first > number)
            if '\n'.join(block) + '\n' not in '\n'.join(program.run(*words.split())) + '\n':
                fault(document, number, f'rd2 {words} has other lines')


def head(block):
    """The first line that is no comment."""
    return next((line for line in block if line and not line.startswith('#')), '')


def variants(document, spec, first, last):
    """What the text between two lines makes of a specification: a line behind it, or without a part."""
    for _, code in document.codes(first, last):
        if code.startswith(('commute ', 'method ')):
            yield spec + code + '\n'
    for number, line in document.prose.items():
        for part in re.findall(r'Without `([^`]+)`', line) if first <= number <= last else ():
            yield spec.replace(' ' + part, '')
    yield spec


def check_whole_texts(document, program):
    """Whole traces and specifications give what is shown behind them; other reports stand in a file of examples/."""
    spec = trace = command = None
    before = 0                                    # where the block before ends
    reports = ['\n' + path.read_text() for path in (TOP / 'examples').glob('*.out')]
    for block in document.blocks:
        text = '\n'.join(block) + '\n'
        if head(block) in ('rdspec 1', 'rdspec 2'):
            if program and head(block) == 'rdspec 1' and (spec or '').startswith('rdspec 2'):
                checked['shown texts, run'] += 1      # what the names above it stand for
                if program.run_on('spec', spec) != block:
                    fault(document, block.first, 'rd2 spec writes something else of the text above it')
            spec, trace = text, None
        elif head(block) in ('rdtrace 1', 'rdmem 1'):
            trace, command = text, 'check' if head(block) == 'rdtrace 1' else 'epochs'
        elif REPORT.match(block[0]):
            refused = block[0].startswith('refused spec')
            if not trace and not (refused and spec):
                checked['reports of examples'] += 1
                if not any('\n' + text in each for each in reports):
                    fault(document, block.first, 'a report that no file of examples/ has')
            elif program:
                checked['shown texts, run'] += 1
                specs = list(variants(document, spec, before, block.first)) if spec else []
                if refused:
                    answers = [program.run_on('spec', each) for each in specs]
                else:
                    answers = [program.run_on(command, trace, *specs[:command == 'check'])]
                if block not in answers:
                    fault(document, block.first, f'the text above it gives {" / ".join(answers[-1][:2])}')
        elif head(block).startswith('kind ') and program:
            name = block[0].split()[1]
            if name in ('register', 'counter', 'set', 'dictionary', 'bag', 'peak', 'queue', 'tally'):
                checked['shown kinds, run'] += 1
                if program.run('kind', name)[1:] != block:
                    fault(document, block.first, f'rd2 kind {name} writes something else')
        before = block.first + len(block)


def check_refusals(document, program):
    """The tables of refused lines of specifications, each line behind the four lines above its table."""
    heads = [block for block in document.blocks if len(block) == 4 and block[0] in ('rdspec 1', 'rdspec 2')]
    for number, line in document.prose.items():
        row = re.match(r'\| `([^`]+)`(, also [^|]*)? \| `(line 5 place [^`]+)` \|', line)
        if not row or not program:
            continue
        checked['refused lines, run'] += 1
        begin = '\n'.join([block for block in heads if block.first < number][-1]) + '\n'
        answer = program.run_on('spec', begin + row[1] + '\n')
        if answer != ['refused spec ' + row[3]]:
            fault(document, number, f'`{row[1]}` gives {answer[0]}')
        for word in re.findall(r'`([^`]+)`', row[2] or ''):
            other = re.sub(r'(==|null|= value@2|<)(?= |$)', lambda old: '< value@2' if old[1] == '= value@2' else word, row[1], count=1)
            checked['refused lines, run'] += 1
            said = program.run_on('spec', begin + other + '\n')[0].split()
            if said[6:] != row[3].split()[4:]:
                fault(document, number, f'`{other}` gives {" ".join(said)}')


def as_bytes(shown):
    """The line that `cat -A` shows so, or a plain line."""
    line = (shown[:-1] if shown.endswith('$') else shown).encode()
    line = line.replace(b'^M', b'\r').replace(b'^I', b'\t').replace(b'M-oM-;M-?', b'\xef\xbb\xbf')
    return line.replace(b'M-CM-$', b'\xc3\xa4')


def check_bad_lines(document, program):
    """The table of what looks right: each line of its second column is refused as `bad-line`, each of its third is not."""
    rows, within = [], False
    for number, line in document.prose.items():
        within = line.startswith('| in the line |') or within and line.startswith('|')
        if within and line.startswith('|') and number:
            rows.append((number, [re.findall(r'`([^`]+)`', cell) for cell in line.split('|')[2:4]]))
    for number, cells in rows if program else ():
        for bad, codes in zip((True, False), cells):
            for code in codes:
                body = as_bytes(code)
                access = re.match(rb'(read|write) ', body)
                if not bad and not access and not re.match(rb'(call|fork|rdtrace|nil|true|-?\d|".*"$)', body):
                    continue                      # a part of a line
                if not access and not re.match(rb'(call|fork|\xef\xbb\xbf|rdtrace)', body):
                    body = b'call a x write ' + body + b' -> nil'
                begin = b'rdmem 1\nthread a\n' if access else b'' if b'rdtrace' in body else b'rdtrace 1\nthread main\nthread a\nobject x register\n'
                answer = program.run_on('epochs' if access else 'check', begin + body + b'\n')
                checked['lines that look right, run'] += 1
                if bad != any(re.fullmatch(r'refused line \d+ bad-line', line) for line in answer):
                    fault(document, number, f'`{code}` gives {answer[-1]}')


def check_causes(document):
    """Each cause of the tables of refused lines has an example whose report tells it."""
    told = ' '.join(path.read_text() for path in (TOP / 'examples').glob('*.out'))
    for head, place in (('| cause | where |', r'line \d+'), ('| cause | the line |', r'spec line \d+ place \d+')):
        for number, cells in table(document, head):
            cause = re.fullmatch(r'`([a-z-]+)( [A-Z]+)*`', cells[0])
            if cause and cause[1] != 'limit':
                checked['causes'] += 1
                if not re.search(rf'refused {place} {cause[1]}\b', told):
                    fault(document, number, f'no example of {cause[1]}')


def crates():
    """The crates of crates.txt, each with those that it stands on."""
    rows = [line.split('#')[0].partition(':') for line in (TOP / 'crates.txt').read_text().split('\n')]
    return {name.split()[0]: below.split() for name, _, below in rows if name.strip()}


def check_crates(document):
    below, rows, within = crates(), {}, False
    for number, line in document.prose.items():
        cells = [cell.strip() for cell in line.split('|')]
        within = line.startswith('| crate |') or within and line.startswith('|')
        if within and re.match(r'rd(2|_)', cells[1]):
            rows.update(dict.fromkeys(cells[1].split(', '), number))
    for name, number in rows.items():
        checked['crates'] += 1
        if name not in below:
            fault(document, number, f'{name} is not in crates.txt')
        for other in below.get(name, ()):
            if rows.get(other, 0) > number:
                fault(document, number, f'{name} stands on {other}, whose row is below its own')
    for name in sorted(set(below) - set(rows)):
        fault(document, 1, f'{name} is in crates.txt and in no row of the table')
    for name in sorted(below):
        if not (TOP / 'crates' / name / 'README.md').is_file():
            fault(document, 1, f'{name} has no README.md')
    drawn = subprocess.run([sys.executable, TOP / 'docs' / 'tools' / 'draw_crates.py', '--check'], capture_output=True, text=True)
    checked['pictures'] += 1
    if drawn.returncode:
        fault(document, 1, drawn.stderr.strip())


def check_names(document, words, own):
    """Names in backticks stand in some crate, and where the crate is named, in that one."""
    for number, code in document.codes():
        if not re.fullmatch(r'[A-Za-z_]\w*(?:::\w+)*(?:\(\))?', code) or re.fullmatch('[A-Z]+', code):
            continue
        parts = re.findall(r'\w+', code)
        where = words
        if parts[0] in own:
            where, parts = own[parts[0]], parts[1:]
        for part in parts:
            checked['names'] += 1
            if part not in where:
                fault(document, number, f'no such name: {code}')


def squeezed(lines):
    """Code without its layout: the lines' words, and commas before a closing bracket left out."""
    return re.sub(r',(?=[)}\]])', '', ''.join(''.join(lines).split()))


def check_excerpts(document, sources):
    """A block of Rust in a crate's README stands in a source; a line of two dots leaves some of it out."""
    for block in document.blocks:
        if block.language != 'rust':
            continue
        checked['excerpts'] += 1
        parts = [squeezed(part.split('\n')).rstrip(',') for part in re.split(r'(?m)^ *\.\.$', '\n'.join(block))]
        pattern = re.compile('.*?'.join(re.escape(part) for part in parts))
        if not any(pattern.search(source) for source in sources):
            fault(document, block.first, 'this block of Rust stands in no source')


def check_definitions(document):
    """No two crates define one name in `specs/`, so that a word means one thing."""
    owners = collections.defaultdict(set)
    for path in TOP.glob('crates/*/specs/**/*.antt'):
        for name in re.findall(r'(?m)^(?:\w+ )*pub (?!mod |use )(?:\w+ )*?([^\s:{(]+)\s*[:({]', path.read_text()):
            owners[name].add(path.relative_to(TOP).parts[1])
    for name, crates_of in sorted(owners.items()):
        checked['definitions'] += 1
        if len(crates_of) > 1:
            fault(document, 1, f'{name} is defined in {" and ".join(sorted(crates_of))}')


def check_counts(trials, proved):
    """The pages tell as many examples and rows as are run."""
    wanted = (trials.path.parent / 'stdout').read_text().splitlines()
    examples = sum(line.endswith(', as wanted') for line in wanted)
    lines = list(trials.prose.values())
    begin = next((number for number, line in enumerate(lines) if line.startswith('The examples, ')), len(lines))
    told = sum(int(number) for line in lines[begin:begin + 6] if line.startswith('- ') for number in re.findall(r'\b\d+\b', line))
    if told != examples:
        fault(trials, 1, f'the list has {told} examples, and stdout {examples}')
    runs = (trials.path.parent / 'stdout').read_text().split()[0]
    for document, pattern in ((trials, rf'Runs of `run` \(rd_run\), {runs} of them'), (proved, rf'rd_trials, {runs} in rows')):
        checked['counts'] += 1
        if not any(re.search(pattern, line) for line in document.prose.values()):
            fault(document, 1, f'rd_trials has {runs} runs')


def check_tables(document):
    """No table is wider than 120 columns."""
    for number, line in document.prose.items():
        checked['rows of tables'] += line.startswith('|')
        if line.startswith('|') and len(line) > 120:
            fault(document, number, f'a table of {len(line)} columns')


def check_costs(document):
    """The page of costs has the rows that measure_costs.py measures, but for the largest inputs."""
    sys.dont_write_bytecode = True
    sys.path.insert(0, str(TOP / 'docs' / 'tests'))
    import measure_costs
    told = set(measure_costs.on_page(document.path))
    measured = {(table, row[0]) for table, rows in measure_costs.ROWS.items() if table != 'largest' for row in rows}
    checked['rows of costs'] += len(measured)
    for table, row in sorted(told ^ measured):
        fault(document, 1, f'the page and measure_costs.py have other rows: {table}, {row}')


def check_kit(document):
    """The kit that README names is the one that `rt` tells of itself."""
    if shutil.which('rt'):
        line = subprocess.run(['rt', 'version'], capture_output=True, text=True).stdout.strip()
        named = [code for _, code in document.codes() if code.startswith('rattle-kit-')]
        checked['kits'] += 1
        if named != [line]:
            fault(document, 1, f'`rt version` here prints {line}')


def check_manual(document):
    """The manual page has each heading and command of docs/commands.md, and the readers of such pages find no fault in it."""
    page = subprocess.run([sys.executable, TOP / 'docs' / 'tools' / 'manual.py'], capture_output=True, text=True)
    if page.returncode:
        fault(document, 1, f'manual.py: {page.stderr}')
        return
    with tempfile.TemporaryDirectory() as folder:
        path = pathlib.Path(folder) / 'rd2.1'
        path.write_text(page.stdout)
        for words in (['mandoc', '-T', 'lint', '-W', 'warning'], ['man', '--warnings', '-E', 'UTF-8', '-l', '-Tutf8']):
            if shutil.which(words[0]):
                checked['manual pages'] += 1
                read = subprocess.run([*words, path], stdout=subprocess.PIPE, stderr=subprocess.STDOUT, text=True, env={**os.environ, 'MANPAGER': 'cat', 'MANWIDTH': '100'})
                if read.returncode or words[0] == 'mandoc' and read.stdout or re.search('(?m)^(?:troff|groff|tbl|<standard input>|an.tmac).*(?:warning|error)', read.stdout):
                    fault(document, 1, f'{" ".join(words)}: {read.stdout[:400]}')
    words = ' '.join(re.sub(r'\\f[BIRP]|\\&', '', page.stdout).replace('\\-', '-').replace('\\e', '\\').split())
    for number, cells in table(document, '| command |'):
        checked['commands in the manual page'] += 1
        if cells[0].strip('`') not in words:
            fault(document, number, f'the manual page lacks {cells[0]}')


FIRST_HOUR = {                                    # by its first words in the page: the folder in docs/tests/first_hour, what is needed, what comes first, what stands for names
    '**Python**': ('python', 'python3', 'true', {}),
    '**[Java]': ('java', 'javac', 'javac -d classes Shop.java', {'CLASSES PROGRAM': 'classes Shop'}),
    '**[Go]': ('go', 'go', 'cp go.module go.mod', {'~/bin': '$HERE'}),
    '**[C and C++]': ('c', 'gcc', 'gcc -I DOCS/recorders/cpp shop.c -pthread -o shop', {'PROGRAM': 'shop'}),
    'Or all reads and writes': ('memory', 'gcc', 'true', {'PROGRAM': 'till'}),
}


def check_first_hour(document, program):
    """What the page has for each language finds the race of a program in docs/tests/first_hour, or of the page's own."""
    ends = sorted(number for number, line in document.prose.items() if line.startswith(('## ', *FIRST_HOUR)))
    for begin, (name, needed, setting, names) in FIRST_HOUR.items() if program else ():
        first = next((number for number in ends if document.prose[number].startswith(begin)), None)
        if first is None:
            fault(document, 1, f'no line begins with {begin}')
            continue
        if not shutil.which(needed) or name == 'java' and not pathlib.Path('/usr/share/java/asm.jar').exists():
            continue
        last = next(number for number in ends if number > first)
        folder = pathlib.Path(program.folder) / name
        source = TOP / 'docs' / 'tests' / 'first_hour' / name
        shutil.copytree(source, folder) if source.exists() else folder.mkdir()
        objects = [code for _, code in document.codes(first, last) if code.startswith('dictionary ')]
        lines = ['trap "exit 99" ERR', setting]
        for block in document.blocks:
            if block.language == 'python' and first < block.first < last:
                (folder / 'shop.py').write_text('\n'.join(block) + '\n')
            elif block[0].startswith('dictionary ') and first < block.first < last:
                objects += block
            elif first < block.first < last:
                lines += [line for line in block if not line.startswith('rd2 ')]
        (folder / 'objects').write_text('\n'.join(objects) + '\n')
        text = '\n'.join([*lines, 'trap - ERR', 'if [ -f run.mem ]; then rd2 epochs run.mem; else rd2 check run.trace; fi']).replace('DOCS', str(TOP / 'docs'))
        for word, other in names.items():
            text = text.replace(word, other)
        statuses = []
        while len(statuses) < 5 and not {1, 99}.intersection(statuses):
            checked['first hours, run'] += 1
            statuses.append(program.shell(text, folder, HERE=str(folder))[0])
        if 1 not in statuses:
            fault(document, first, f'what the page has ends with {statuses}, in {name}')


def check_levels(document, program):
    """At the level of the object the race of its users is found, and at that of its lock it isn't."""
    if not program:
        return
    folder = pathlib.Path(program.folder) / 'levels'
    shutil.copytree(TOP / 'docs' / 'tests' / 'first_hour' / 'python', folder)
    whole = [line for block in document.blocks for line in block if line.startswith('lru ')]
    inner = [code for _, code in document.codes() if code.endswith('.Cache.items')]
    for line, spec, wanted in ((whole, TOP / 'examples' / 'kinds' / 'lru.spec', 1), (inner, '', 0)):
        checked['levels, run'] += 1
        (folder / 'objects').write_text(''.join(each + '\n' for each in line))
        status, told = program.shell(f'python3 -m rdrecord --objects objects cache.py && rd2 check run.trace {spec}', folder,
                                     PYTHONPATH=str(TOP / 'docs' / 'recorders' / 'python'))
        if not line or status != wanted or wanted == 0 and not told.endswith('verdict deterministic\n'):
            fault(document, 1, f'{line} ends with {status}: {told[-200:]}')


def main():
    options = argparse.ArgumentParser(usage=__doc__)
    options.add_argument('--rd2')
    options.add_argument('--all', action='store_true')
    given = options.parse_args()
    program = Program(given.rd2)
    documents = {path: Document(path) for path in DOCUMENTS}

    def anchors(path):
        return documents[path].anchors if path in documents else set()
    files = [path for folder in ('docs', 'crates') for path in text_files(TOP / folder)]
    files += [path for path in TOP.iterdir() if path.is_file()]
    names = {path.name for path in files}
    own = collections.defaultdict(set)
    for path in files:
        if path.suffix in ('.rt', '.antt', '.edit', '.txt', '.row', '') and path.parts[len(TOP.parts)] == 'crates':
            crate = path.parts[len(TOP.parts) + 1]
            own[crate] |= set(re.findall(r'\w+', path.read_text(errors='replace'))) | {path.stem}
    sources = [squeezed(path.read_text().split('\n')) for path in files if path.suffix == '.rt']
    words = set().union(*own.values()) | {word for name, below in crates().items() for word in (name, *name.split('_'), *below)}
    pages = {path.name: document for path, document in documents.items() if path.parent in (TOP, TOP / 'docs')}
    known = usages(pages['commands.md'])
    for path, document in documents.items():
        check_links(document, anchors)
        check_paths(document, names)
        check_commands(document, known)
        check_numbered(document)
        check_outputs(document, program)
        check_sentences(document, program)
        check_whole_texts(document, program)
        if path in NAMING or path.parent.parent == TOP / 'crates':
            check_names(document, words, own)
            check_tables(document)
        if path.parent.parent == TOP / 'crates':
            check_excerpts(document, sources)
    check_usages(pages['commands.md'], known, program)
    for name in MOST:
        check_sizes(pages[name])
    for check in (check_refusals, check_bad_lines, check_wrong_words):
        check(pages['errors.md'], program)
    check_causes(pages['errors.md'])
    check_taken(pages['specifications.md'], program)
    check_limits(pages['commands.md'], pages['errors.md'], program)
    check_kinds([pages['formats.md'], pages['recording.md']], program)
    check_statuses(pages['README.md'], pages['commands.md'])
    check_recording_costs(pages['first-hour.md'])
    check_manual(pages['commands.md'])
    check_first_hour(pages['first-hour.md'], program)
    check_levels(pages['first-hour.md'], program)
    check_crates(documents[TOP / 'docs' / 'architecture.md'])
    check_definitions(documents[TOP / 'docs' / 'definitions.md'])
    check_counts(documents[TOP / 'crates' / 'rd_trials' / 'README.md'], documents[TOP / 'docs' / 'proved.md'])
    check_costs(documents[TOP / 'docs' / 'costs.md'])
    check_kit(documents[TOP / 'README.md'])
    shutil.rmtree(program.folder)
    if program:                                   # of the tools that docs/commands.md tells of, by their own tests
        own = subprocess.run([sys.executable, TOP / 'docs' / 'tests' / 'check_report.py', '--rd2', program.path, '--races', '1000'], capture_output=True, text=True)
        checked['tests of rdreport'] += 1
        if own.returncode:
            fault(pages['commands.md'], 1, f'check_report.py: {own.stdout[-2000:]}{own.stderr[-2000:]}')
    if given.all:
        for what, count in sorted(checked.items()):
            print(f'{count:6} {what}')
    for each in faults:
        print(each)
    sys.exit(1 if faults else 0)


if __name__ == '__main__':
    main()
