#!/usr/bin/env python3
"""Records packages of the distribution by their own tests or by a stress, unchanged, and checks the traces.

    real_programs.py --rd2 PROGRAM [--runs N] [NAME ..]

Each folder of docs/tests/real is a package: `run.sh plain` and `run.sh recorded` run it in an empty folder, `known` has each group of races
that is reported, with a line above it that says what it is, `spec` is its specification, if it has one. Writes a row for each: tests, traces,
lines, the seconds of both, reports, groups; and ends with 1 where a trace is refused, a replay differs, or a group isn't known. What the
distribution hasn't installed is left out.
"""
import argparse, json, os, pathlib, re, subprocess, sys, tempfile, time

TOP = pathlib.Path(__file__).resolve().parents[2]
REAL = TOP / 'docs' / 'tests' / 'real'
TOOL = TOP / 'docs' / 'tools' / 'rdreport'


def told(package, word):
    """What a comment of run.sh tells."""
    found = re.search(rf'(?m)^# {word}: (.*)$', (package / 'run.sh').read_text())
    return found[1] if found else ''


def installed(names):
    return all(subprocess.run(['dpkg', '-s', name], capture_output=True).returncode == 0 for name in names)


def run(package, mode, rd2):
    """Runs a package in a folder of its own: how many tests, the seconds, the traces."""
    folder = pathlib.Path(tempfile.mkdtemp())
    traces = folder / 'traces'
    traces.mkdir()
    (folder / 'work').mkdir()
    began = time.time()
    done = subprocess.run(['bash', '-eu', package / 'run.sh', mode], cwd=folder / 'work', capture_output=True, text=True,
                          env={**os.environ, 'TOP': str(TOP), 'HERE': str(package), 'RD2': rd2, 'TRACES': str(traces)})
    tests = re.findall(r'(?m)^tests (\d+)$', done.stdout)
    if done.returncode or not tests:
        sys.exit(f'{package.name} {mode} ends with {done.returncode}\n{done.stdout[-2000:]}{done.stderr[-2000:]}')
    return int(tests[-1]), time.time() - began, sorted(traces.glob('**/*.trace'))


def main():
    options = argparse.ArgumentParser(usage=__doc__)
    options.add_argument('--rd2', required=True)
    options.add_argument('--runs', type=int, default=1)
    options.add_argument('names', nargs='*')
    given = options.parse_args()
    rd2, good = str(pathlib.Path(given.rd2).resolve()), True
    print('| package | tests | traces | lines | plain | recorded | checked | reports | groups |\n|---|---|---|---|---|---|---|---|---|')
    for package in sorted(REAL.iterdir()):
        if given.names and package.name not in given.names or not (package / 'run.sh').is_file():
            continue
        if not installed(told(package, 'needs').split()):
            print(f'{package.name}: left out, for it needs {told(package, "needs")}')
            continue
        for _ in range(given.runs):
            _, plain, _ = run(package, 'plain', rd2)
            tests, recorded, traces = run(package, 'recorded', rd2)
            lines = sum(path.read_bytes().count(b'\n') for path in traces)
            files = [*traces, *([package / 'spec'] if (package / 'spec').is_file() else [])]
            began = time.time()
            done = subprocess.run([sys.executable, TOOL, '--rd2', rd2, '--known', package / 'known', '--json', traces[0].parent / 'groups.json', *files], capture_output=True, text=True)
            checked = time.time() - began
            groups = json.loads((traces[0].parent / 'groups.json').read_text())['groups'] if done.returncode < 2 else []
            reports = sum(group['reports'] for group in groups)
            print(f'| {package.name} | {tests} | {len(traces)} | {lines:,} | {plain:.1f} s | {recorded:.1f} s | {checked:.1f} s | {reports} | {len(groups)} |', flush=True)
            if done.returncode:
                good = False
                print(f'{package.name}: status {done.returncode}\n{done.stdout[:3000]}{done.stderr[:1000]}')
    sys.exit(0 if good else 1)


if __name__ == '__main__':
    main()
