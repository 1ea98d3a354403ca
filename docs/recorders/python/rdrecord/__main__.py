"""Runs a program as it is, and records it."""
import argparse
import importlib.util
import os
import pathlib
import re
import runpy
import sys
import unittest

from . import unchanged, watched
from .recorder import Recorder


def options(words):
    """The command line; what stands behind the program is the program's."""
    parser = argparse.ArgumentParser(prog="python -m rdrecord", description="Runs PROGRAM, or a module by -m, as it is, and writes the trace of its run.")
    parser.add_argument("--trace", default=os.environ.get("RDRECORD", "run.trace"), metavar="FILE", help="the trace (run.trace)")
    parser.add_argument("--tests", metavar="FOLDER", help="a trace of each test of unittest, and of what runs such tests, in this folder instead")
    parser.add_argument("--objects", default=os.environ.get("RDRECORD_OBJECTS"), metavar="FILE", help="the objects that are recorded, a line each")
    parser.add_argument("--calm", action="store_true", default=os.environ.get("RDRECORD_SHAKING") == "no", help="don't give way behind recorded steps")
    parser.add_argument("--tasks", action="store_true", default=os.environ.get("RDRECORD_TASKS") == "yes", help="a pool's task is a thread, and not its worker")
    parser.add_argument("--logs", action="store_true", default=os.environ.get("RDRECORD_LOGS") == "yes", help="a log of each thread, for `rd2 weave`")
    parser.add_argument("--callers", type=int, default=int(os.environ.get("RDRECORD_CALLERS", 0)), metavar="N", help="places of so many callers beside each call's own")
    parser.add_argument("-m", dest="module", action="store_true", help="PROGRAM is a module")
    parser.add_argument("program", metavar="PROGRAM")
    parser.add_argument("words", nargs=argparse.REMAINDER, metavar="ARG")
    return parser.parse_args(words)


def recorded(given, path, note=""):
    return Recorder(path, note, shaking=not given.calm, callers=given.callers, logs=given.logs)


def each_test(given):
    """From here on each test has a trace of its own."""
    real, folder = unittest.TestCase.run, pathlib.Path(given.tests)
    folder.mkdir(parents=True, exist_ok=True)

    def run(self, result=None):
        name = re.sub(r"[^\w.-]+", "_", self.id())[-200:]
        with recorded(given, folder / f"{name}.trace", self.id()) as to:
            unchanged.install(to, given.tasks)
            try:
                return real(self, result)
            finally:
                unchanged.install(None)
    unittest.TestCase.run = run


def run_program(given, finder):
    if finder and finder.of_main:
        if given.module:
            spec = importlib.util.find_spec(given.program)
            watched.run_main(finder, spec.origin, spec.parent)
        else:
            watched.run_main(finder, os.path.abspath(given.program))
    elif given.module:
        runpy.run_module(given.program, run_name="__main__", alter_sys=True)
    else:
        runpy.run_path(given.program, run_name="__main__")


def main():
    given = options(sys.argv[1:])
    sys.argv = [given.program, *given.words]
    sys.path[0] = os.getcwd() if given.module else os.path.dirname(os.path.abspath(given.program))
    unchanged.install(None)
    finder = watched.watch(given.objects) if given.objects else None
    if given.tests:
        each_test(given)
        run_program(given, finder)
        return
    with recorded(given, given.trace) as to:
        unchanged.install(to, given.tasks)
        try:
            run_program(given, finder)
        finally:
            unchanged.wait_for_threads()
            unchanged.install(None)


main()
