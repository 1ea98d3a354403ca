#!/usr/bin/env python3
"""Compares `epochs` on recorded C programs with the compilers' own sanitizer of threads.

    check_memory.py --rd2 PROGRAM [--runs N] [NAME ..]

Each program of memory/ (or NAME) is compiled by gcc and by clang, where they are there: once with the sanitizer, once for the recorder
rdmemory.c. Both are run N times, and tell a race or none. A program whose name begins with `race` has one, another none. Writes a
line for each program and compiler, and ends with 1 where a verdict isn't that of the name, or the two differ.
"""
import argparse, os, pathlib, platform, shutil, subprocess, sys, tempfile

TOP = pathlib.Path(__file__).resolve().parents[2]
RECORDER = TOP / 'docs' / 'recorders' / 'cpp'


def must(*words):
    done = subprocess.run([str(word) for word in words], capture_output=True, text=True, timeout=300)
    if done.returncode:
        sys.exit(f'{" ".join(map(str, words))} ends with {done.returncode}\n{done.stdout}{done.stderr}')


def sanitizer(program, folder):
    """Whether the sanitizer tells a race in a run; none where it can't run here."""
    words = [program]
    for before in ([], ['setarch', platform.machine(), '-R']):       # some kernels place memory where it can't have it
        done = subprocess.run([*before, *words], cwd=folder, capture_output=True, text=True, timeout=120,
                              env={**os.environ, 'TSAN_OPTIONS': 'exitcode=66'})
        if done.returncode == 66 and 'data race' in done.stderr:
            return True
        if done.returncode == 0:
            return False
    return None


def epochs(rd2, program, folder):
    """Whether `epochs` tells a race in a recorded run."""
    trace = folder / 'run.mem'
    trace.unlink(missing_ok=True)
    done = subprocess.run([program], cwd=folder, capture_output=True, text=True, timeout=120, env={**os.environ, 'RDRECORD': str(trace)})
    if done.returncode:
        sys.exit(f'{program} ends with {done.returncode} when it is recorded\n{done.stderr}')
    told = subprocess.run([rd2, 'epochs', trace], capture_output=True, text=True)
    if told.returncode not in (0, 1):
        sys.exit(f'{program}: epochs ends with {told.returncode}\n{told.stdout}')
    return told.returncode == 1


def main():
    options = argparse.ArgumentParser(usage=__doc__)
    options.add_argument('--rd2', required=True)
    options.add_argument('--runs', type=int, default=5)
    options.add_argument('names', nargs='*')
    given = options.parse_args()
    programs = [path for path in sorted((TOP / 'docs' / 'tests' / 'memory').glob('*.c')) if not given.names or path.stem in given.names]
    rd2, good = str(pathlib.Path(given.rd2).resolve()), True
    with tempfile.TemporaryDirectory() as made:
        folder = pathlib.Path(made)
        for compiler in filter(shutil.which, ('gcc', 'clang')):
            must(compiler, '-O1', '-c', RECORDER / 'rdmemory.c', '-o', folder / 'rdmemory.o')
            for path in programs:
                must(compiler, '-g', '-O1', '-fsanitize=thread', path, '-o', folder / 'sanitized', '-pthread')
                must(compiler, '-g', '-O1', '-fsanitize=thread', '-c', path, '-o', folder / 'recorded.o')
                must(compiler, folder / 'recorded.o', folder / 'rdmemory.o', '-pthread', '-ldl', '-o', folder / 'recorded')
                theirs = [sanitizer(folder / 'sanitized', folder) for _ in range(given.runs)]
                ours = [epochs(rd2, folder / 'recorded', folder) for _ in range(given.runs)]
                wanted = path.stem.startswith('race')
                right = all(told == wanted for told in ours) and (None in theirs or any(theirs) == wanted)
                good = good and right
                print(f'{compiler} {path.stem}: epochs tells a race in {sum(ours)} of {given.runs} runs, the sanitizer in '
                      f'{"none that it could run" if None in theirs else sum(theirs)}{"" if right else ": WRONG"}', flush=True)
    sys.exit(0 if good else 1)


main()
