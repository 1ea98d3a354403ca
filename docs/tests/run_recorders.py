#!/usr/bin/env python3
"""Runs the recorders: each bank, and what uses all that a recorder has (constructs/), so many times with a race and without, and the
programs that documents show.

    run_recorders.py --rd2 PROGRAM [--runs N] [python|java|go|cpp ..]

Writes a line for each program with the statuses of `rd2 check` on its traces, and ends with 1 where a run without a race isn't told as
status 0, or no run with one as status 1. A language whose compiler or interpreter isn't there is left out.
"""
import argparse, collections, os, pathlib, shutil, subprocess, sys, tempfile

sys.dont_write_bytecode = True
from check_documents import Document, TOP

RECORDERS = TOP / 'docs' / 'recorders'
LANGUAGES = {                                     # what it needs, how the bank is built, how it is run
    'python': (['python3'], [], ['python3', 'bank.py']),
    'java': (['javac', 'java'], ['javac', '-d', 'out', 'RdRecord.java', 'Bank.java'], ['java', '-cp', 'out', 'Bank']),
    'go': (['go'], ['go', 'build', '-o', 'made', './bank'], ['./made']),
    'cpp': (['g++'], ['g++', '-std=c++20', '-pthread', 'bank.cpp', '-o', 'made'], ['./made']),
}
EXAMPLES = {                                      # the same of a program that a document shows, and what stands around it
    'python': ('example.py', '{}', [], ['python3', 'example.py']),
    'java': ('Example.java', 'import java.util.*;\nclass Example {{ public static void main(String[] words) throws Exception {{\n{}\n}} }}\n',
             ['javac', '-d', 'out', 'RdRecord.java', 'Example.java'], ['java', '-cp', 'out', 'Example']),
    'go': ('example/example.go', 'package main\nimport "rdrecord"\nfunc main() {{\n{}\nif err != nil {{ panic(err) }}\n}}\n',
           ['go', 'build', '-o', 'example/made', './example'], ['example/made']),
    'cpp': ('example.cpp', '#include "rdrecord.hpp"\nint main() {{\n{}\n}}\n',
            ['g++', '-std=c++20', '-pthread', 'example.cpp', '-o', 'example'], ['./example']),
}

AGENT = 'java -javaagent:rdagent.jar=run.trace -cp out Unchanged "$1"'
LOGS = '"$RD2" weave run.*.log > run.trace'
UNCHANGED = {                                     # programs that know of no recorder: by which way, how they are built, and how they are run in the mode "$1"
    'python': [('unchanged', [], 'python3 -m rdrecord --objects unchanged.objects unchanged.py "$1"'),
               ('unchanged, tasks', [], 'python3 -m rdrecord --tasks --objects unchanged.objects unchanged.py "$1"'),
               ('unchanged, calm, callers', [], 'python3 -m rdrecord --calm --callers 2 --objects unchanged.objects unchanged.py "$1"'),
               ('unchanged, logs', [], 'python3 -m rdrecord --logs --objects unchanged.objects unchanged.py "$1" && ' + LOGS)],
    'java': [('unchanged', ['agent/build.sh .', 'javac -d out Unchanged.java'], AGENT),
             ('unchanged, asked objects', [], 'RDRECORD_OBJECTS=Unchanged.objects ' + AGENT),
             ('unchanged, tasks', [], 'RDRECORD_TASKS=yes ' + AGENT),
             ('unchanged, logs', [], f'RDRECORD_LOGS=yes {AGENT} && ' + LOGS)],
    'go': [('unchanged', ['go build -o tool ./rdrecord-go'], 'RDRECORD_OBJECTS=unchanged/objects ./tool run ./unchanged "$1" run.trace'),
           ('constructs, logs', [], 'RDRECORD_LOGS=yes example/made "$1" run.trace && ' + LOGS)],
    'cpp': [('unchanged, preloaded', ['gcc -O2 -shared -fPIC rdpreload.c -o librdpreload.so -ldl', 'g++ -std=c++20 -pthread -I . unchanged.cc -o unchanged'],
             'RDRECORD=run.trace LD_PRELOAD=./librdpreload.so ./unchanged "$1"'),
            ('unchanged, logs', [], 'RDRECORD_LOGS=yes RDRECORD=run.trace LD_PRELOAD=./librdpreload.so ./unchanged "$1" && ' + LOGS),
            ('unchanged, compiled', ['g++ -std=c++20 -fsanitize=thread -g -c -I . unchanged.cc -o unchanged.o', 'gcc -O2 -c rdmemory.c',
                                     'g++ unchanged.o rdmemory.o -pthread -ldl -o unchanged'], 'RDRECORD_MEMORY=no RDRECORD=run.trace ./unchanged "$1"')],
}


def shown(language):
    """The programs that the guide and the recorder's page show, each with its place."""
    for path in (TOP / 'docs' / 'recording.md', RECORDERS / language / 'README.md'):
        for block in Document(path).blocks:
            here = block.language == language or not block.language and path.parent.name == language
            if here and any('run.trace"' in line for line in block):
                yield f'{path.relative_to(TOP)}:{block.first}', '\n'.join(block)


def run(folder, *words):
    done = subprocess.run(words, cwd=folder, capture_output=True, text=True, timeout=300)
    if done.returncode != 0:
        sys.exit(f'{" ".join(words)} ends with {done.returncode}\n{done.stdout}{done.stderr}')


def statuses(rd2, folder, words, runs, *spec):
    """How many of so many runs of a program, which writes run.trace, end with each status of `rd2 check`."""
    counts = collections.Counter()
    for _ in range(runs):
        run(folder, *words)
        for path in folder.glob('run.*.log'):
            path.unlink()
        counts[subprocess.run([rd2, 'check', 'run.trace', *spec], cwd=folder, capture_output=True).returncode] += 1
    return counts


def main():
    options = argparse.ArgumentParser(usage=__doc__)
    options.add_argument('--rd2', required=True)
    options.add_argument('--runs', type=int, default=20)
    options.add_argument('languages', nargs='*')
    given = options.parse_args()
    rd2, good = str(pathlib.Path(given.rd2).resolve()), True

    def tell(what, counts, wanted):
        nonlocal good
        good = good and wanted
        told = ', '.join(f'status {status} {count} times' for status, count in sorted(counts.items()))
        print(f'{what}: {told}{"" if wanted else ": WRONG"}', flush=True)

    def try_both(what, rd2, folder, words, runs, *spec):
        counts = statuses(rd2, folder, [*words, 'clean', 'run.trace'], runs, *spec)
        tell(f'{what} clean', counts, set(counts) == {0})
        counts = statuses(rd2, folder, [*words, 'race', 'run.trace'], runs, *spec)
        tell(f'{what} race', counts, counts[1] > 0 and set(counts) <= {0, 1})
    for language in given.languages or LANGUAGES:
        needed, build, words = LANGUAGES[language]
        if not all(map(shutil.which, needed)):
            print(f'{language}: left out, for {" or ".join(needed)} is missing')
            continue
        with tempfile.TemporaryDirectory() as made:
            folder = pathlib.Path(made) / language
            shutil.copytree(RECORDERS / language, folder)
            os.environ.update(GOCACHE=str(pathlib.Path.home() / '.cache' / 'go-build'), PYTHONDONTWRITEBYTECODE='1')
            if build:
                run(folder, *build)
            try_both(f'{language} bank', rd2, folder, words, given.runs)
            name, around, build, words = EXAMPLES[language]
            (folder / name).parent.mkdir(exist_ok=True)
            source = next((TOP / 'docs' / 'tests' / 'constructs').glob('*' + pathlib.Path(name).suffix)).read_text()
            (folder / name).write_text(source.replace('class Constructs', 'class Example'))
            if build:
                run(folder, *build)
            try_both(f'{language} constructs', rd2, folder, words, given.runs)
            for path in (TOP / 'docs' / 'tests' / 'constructs').glob({'python': 'unchanged.[op]*', 'java': 'java/*', 'cpp': 'unchanged.cc'}.get(language, 'none')):
                shutil.copy(path, folder)
            os.environ['RD2'] = rd2
            missing = language == 'java' and not pathlib.Path('/usr/share/java/asm.jar').exists()
            if missing:
                print('java unchanged: left out, for ASM is missing')
            for what, building, running in () if missing else UNCHANGED[language]:
                for line in building:
                    run(folder, 'bash', '-c', line)
                try_both(f'{language} {what}', rd2, folder, ['bash', '-c', running, 'bash'], given.runs, TOP / 'examples' / 'kinds' / 'memo.spec')
            if language == 'python':
                tests = folder / 'tests'
                tests.mkdir()
                shutil.copy(TOP / 'docs' / 'tests' / 'constructs' / 'test_stock.py', tests)
                (tests / 'objects').write_text('dictionary test_stock.Stock.items\n')
                python = next((each for each in ('python3', '/usr/bin/python3') if subprocess.run([each, '-c', 'import pytest'], capture_output=True).returncode == 0), None)
                if python:
                    os.environ['PYTHONPATH'] = str(folder)
                    run(tests, python, '-m', 'pytest', '-q', '-p', 'rdrecord.plugin', '--rdrecord', 'traces', '--rdrecord-objects', 'objects')
                    counts = collections.Counter(subprocess.run([rd2, 'check', path], capture_output=True).returncode for path in (tests / 'traces').iterdir())
                    tell('python pytest, a test with its lock and one without', counts, counts == {0: 1, 1: 1})
            for place, text in shown(language):
                (folder / name).write_text(around.format(text))
                if build:
                    run(folder, *build)
                spec = [str(TOP / 'examples' / 'account.spec')] if '"account"' in text else []
                counts = statuses(rd2, folder, words, 1, *spec)
                tell(place, counts, set(counts) == {0})
    sys.exit(0 if good else 1)


main()
