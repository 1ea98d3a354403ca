"""Runs rd2 over traces, side by side, and groups what it tells."""
import concurrent.futures
import functools
import json
import os
import shutil
import subprocess
import sys

import formulas
from groups import Grouping, Run
from traces import Trace

FAULT_INPUT = 6                                   # rd2's status where a file can't be read


class Trouble(Exception):
    """What keeps rdreport from a report, in words, and the status that it ends with."""

    def __init__(self, words, status=2):
        super().__init__(words)
        self.status = status


def program(given):
    """rd2: the one that is given, the one that RD2 names, the one on the path."""
    found = given or os.environ.get("RD2") or shutil.which("rd2")
    if not found or not shutil.which(found):
        raise Trouble(f"no program {found or 'rd2'}: put rd2 on the path, or name it by --rd2 or RD2")
    return found


def kinds(rd2, spec):
    """The methods of the kinds, those that are built in and those of a specification; none where rd2 doesn't tell."""
    try:
        commands = [["kind", name] for name in ("register", "counter", "set", "dictionary", "bag", "peak", "queue", "tally")]
        commands += [["spec", spec]] if spec else []
        texts = [subprocess.run([rd2, *words], capture_output=True, text=True).stdout for words in commands]
    except OSError:
        return {}
    return {name: methods for text in texts for name, methods in formulas.methods_of(text).items()}


def races_of(lines, trace, sources, methods):
    """The groups of what `check-json` wrote of a trace, and its ending."""
    grouping, read, places = Grouping(), None, {}

    def place_of(line):
        if line not in places:
            places[line] = sources.place(read.places(line))
        return places[line]
    for line in lines:
        try:
            told = json.loads(line)
        except ValueError:
            raise Trouble(f"{trace}: rd2 wrote {line.strip()!r}, which is no JSON") from None
        if "later" not in told:
            return grouping, told
        read = read or Trace(trace)
        grouping.add_race(trace, told, place_of, methods)
    raise Trouble(f"{trace}: the report has no ending")


def status_of(ending, races):
    """rd2's status by the ending of its report."""
    how = ending["ending"]
    if how == "end":
        return 1 if races else 5 if ending["replay"].startswith("differs") else 0
    if how == "fault input":
        return FAULT_INPUT
    return 9 if " limit " in how else 3 if how.startswith("refused spec") else 4


def check(trace, rd2, spec, sources, methods, told=None):
    """The groups of one trace; `told` is what `check-json` wrote of it, where it isn't to be run."""
    if told is not None:
        grouping, ending = races_of(told, trace, sources, methods)
        status = status_of(ending, sum(group.reports for group in grouping.groups.values()))
    else:
        words = [rd2, "check-json", trace] + ([spec] if spec else [])
        with subprocess.Popen(words, stdout=subprocess.PIPE, text=True, encoding="utf-8", errors="replace") as running:
            try:
                grouping, ending = races_of(running.stdout, trace, sources, methods)
            except BaseException:
                running.kill()
                raise
        status = running.returncode
        if status < 0:
            raise Trouble(f"{trace}: rd2 ended by signal {-status}")
    grouping.runs.append(Run(trace, status, ending.get("races", 0), ending))
    return grouping


def check_all(traces, jobs, **given):
    """The groups of all traces, which are checked side by side, in the order in which they are named."""
    if len(traces) < 2 or jobs == 1:
        yield from (check(trace, **given) for trace in traces)
        return
    with concurrent.futures.ProcessPoolExecutor(max_workers=min(jobs, len(traces))) as pool:
        yield from pool.map(functools.partial(check, **given), traces)


def is_specification(path):
    """Whether the first line that isn't skipped is the header of a specification."""
    with open(path, encoding="utf-8", errors="replace") as file:
        for line in file:
            if line.strip() and not line.startswith("#"):
                return line.split()[:1] == ["rdspec"]
    return False


def is_groups(path):
    with open(path, "rb") as file:
        return file.read(1) == b"{"


def sort_files(paths):
    """The files by what they are: traces, the specification or none, groups that an earlier run wrote."""
    traces, specs, merged = [], [], []
    for path in paths:
        try:
            (merged if is_groups(path) else specs if is_specification(path) else traces).append(path)
        except OSError as error:
            raise Trouble(f"{path}: {error.strerror}", FAULT_INPUT) from None
    if len(specs) > 1:
        raise Trouble(f"two specifications: {specs[0]} and {specs[1]}")
    return traces, specs[0] if specs else None, merged


def read_groups(path):
    try:
        with open(path, encoding="utf-8") as file:
            return Grouping.read(file.read())
    except (ValueError, KeyError, TypeError) as error:
        raise Trouble(f"{path}: no groups that rdreport wrote ({error})") from None


def write(path, text):
    if path == "-":
        sys.stdout.write(text)
    else:
        with open(path, "w", encoding="utf-8", errors="replace") as file:
            file.write(text)
