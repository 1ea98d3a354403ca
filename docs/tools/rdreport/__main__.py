#!/usr/bin/env python3
"""Groups the races of traces by the two places in the source, and tells them where they are read."""
import argparse
import os
import sys

sys.dont_write_bytecode = True
import checking
import outputs
import page
from checking import Trouble
from groups import Grouping, Known
from sources import Sources

USE = """rdreport [options] TRACE .. [SPEC]
       rdreport [options] GROUPS.json ..

Runs `rd2 check-json` on each trace and tells its races in groups: by the two places in the source, the kind, the methods and the
formula, most reports first, each with its first race. A file whose header is `rdspec` is the specification, and one that --json wrote
is merged. Ends with rd2's status: 0 where all groups are known; of several traces the first status that is neither 0, 1 nor 5, else
1 where a group isn't known, else 5 where a replay differs."""


def options():
    """The command line."""
    parser = argparse.ArgumentParser(prog="rdreport", usage=USE)
    parser.add_argument("files", nargs="+", help=argparse.SUPPRESS)
    parser.add_argument("--rd2", metavar="PROGRAM", help="the program rd2; else what RD2 names, else the one on the path")
    parser.add_argument("--races", metavar="FILE", help="what `rd2 check-json` wrote of the one trace, instead of running it; - is the standard input")
    parser.add_argument("--jobs", metavar="N", type=int, default=os.cpu_count(), help="so many traces at a time; else as many as there are processors")
    parser.add_argument("--source", metavar="FOLDER", action="append", default=[], help="look for the sources below it, and tell whole paths; may come often")
    parser.add_argument("--skip", metavar="PATTERN", action="append", default=[], help="pass over places like it (* and ?), as of a wrapper, to their callers; may come often")
    parser.add_argument("--known", metavar="FILE", help="leave out the groups that this file knows, and count them")
    parser.add_argument("--add-known", metavar="FILE", help="write the groups that are not known yet behind those of FILE")
    parser.add_argument("--github", action="store_true", help="write annotations for a job of GitHub too")
    parser.add_argument("--sarif", metavar="FILE", help="write SARIF 2.1.0")
    parser.add_argument("--junit", metavar="FILE", help="write JUnit's XML")
    parser.add_argument("--json", metavar="FILE", help="write the groups, to be merged or read by a program")
    parser.add_argument("--html", metavar="PAGE", help="write a page with a picture of each group's first race")
    parser.add_argument("--svg", metavar="FILE", help="write the picture of the first race alone")
    parser.add_argument("--pair", metavar="LINE", type=int, nargs=2, help="picture these two calls of the one trace instead, which may be ordered")
    given = parser.parse_args()
    if given.jobs < 1:
        parser.error("--jobs needs a number above 0")
    if [given.sarif, given.junit, given.json, given.html, given.svg].count("-") > 1:
        parser.error("one thing alone can go to the standard output")
    return given


def grouped(given):
    """The groups of all files, and the specification."""
    traces, spec, merged = checking.sort_files(given.files)
    if given.races and len(traces) != 1 or given.pair and len(traces) != 1:
        raise Trouble("--races and --pair go with one trace")
    sources, grouping = Sources(given.source, given.skip), Grouping()
    if traces:
        rd2 = checking.program(given.rd2)
        about = {"rd2": rd2, "spec": spec, "sources": sources, "methods": checking.kinds(rd2, spec)}
        if given.races:
            with sys.stdin if given.races == "-" else open(given.races, encoding="utf-8", errors="replace") as told:
                grouping.merge(checking.check(traces[0], told=told, **about))
        else:
            for each in checking.check_all(traces, given.jobs, **about):
                grouping.merge(each)
    for path in merged:
        grouping.merge(checking.read_groups(path))
    return grouping, sources


def status(grouping, groups):
    """rd2's status over all traces, by what isn't known."""
    statuses = [run.status for run in grouping.runs]
    return next((each for each in statuses if each not in (0, 1, 5)), 1 if groups else 5 if 5 in statuses else 0)


def main():
    given = options()
    try:
        grouping, sources = grouped(given)
        known = Known(given.known)
        pair = page.pair(given.rd2, grouping.runs[0].trace, given.pair) if given.pair else None
        groups, left_out = [], []
        for group in grouping.listed():
            (left_out if (group, sources) in known else groups).append(group)
        if given.add_known and groups:
            with open(given.add_known, "a", encoding="utf-8") as file:
                file.writelines(f"{Known.row(group, sources)}\n" for group in groups)
        made = {given.sarif: lambda: outputs.sarif(grouping, groups, sources), given.junit: lambda: outputs.junit(grouping, groups, left_out),
                given.json: grouping.text, given.html: lambda: page.page(grouping, groups, left_out, sources, pair),
                given.svg: lambda: page.picture(groups, pair)}
        for path, text in sorted((each for each in made.items() if each[0]), key=lambda each: each[0] == "-"):
            checking.write(path, text())                  # the standard output last: who reads it may end before
        if "-" not in made:
            print("\n".join([*outputs.report(grouping, groups, left_out), *(page.told(pair[1]) if pair else ())]))
        if given.github:
            print("\n".join(outputs.annotations(grouping, groups)))
        sys.stdout.flush()
        return status(grouping, groups)
    except BrokenPipeError:                               # nobody reads on
        os.dup2(os.open(os.devnull, os.O_WRONLY), sys.stdout.fileno())
        return status(grouping, groups)
    except (Trouble, OSError, ValueError) as error:
        print(f"rdreport: {error}", file=sys.stderr)
        return getattr(error, "status", 2)


if __name__ == "__main__":
    sys.exit(main())
