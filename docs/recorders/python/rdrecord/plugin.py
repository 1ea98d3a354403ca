"""pytest -p rdrecord.plugin --rdrecord FOLDER [--rdrecord-objects FILE]: a trace of each test, as it is."""
import os
import pathlib
import re

import pytest

from . import unchanged, watched
from .recorder import Recorder


def pytest_addoption(parser):
    group = parser.getgroup("rdrecord")
    group.addoption("--rdrecord", metavar="FOLDER", default=None, help="write a trace of each test into this folder")
    group.addoption("--rdrecord-objects", metavar="FILE", default=None, help="the objects that are recorded, a line each")
    group.addoption("--rdrecord-calm", action="store_true", help="don't give way behind recorded steps")
    group.addoption("--rdrecord-tasks", action="store_true", help="a pool's task is a thread, and not its worker")


def pytest_configure(config):
    if config.getoption("--rdrecord"):
        os.makedirs(config.getoption("--rdrecord"), exist_ok=True)
        unchanged.install(None)
        if config.getoption("--rdrecord-objects"):
            watched.watch(config.getoption("--rdrecord-objects"))


@pytest.hookimpl(hookwrapper=True)
def pytest_runtest_protocol(item, nextitem):
    folder = item.config.getoption("--rdrecord")
    if not folder:
        yield
        return
    name = re.sub(r"[^\w.\[\]-]+", "_", item.nodeid)[-200:]
    with Recorder(pathlib.Path(folder) / f"{name}.trace", item.nodeid, shaking=not item.config.getoption("--rdrecord-calm")) as to:
        unchanged.install(to, item.config.getoption("--rdrecord-tasks"))
        try:
            yield
        finally:
            unchanged.install(None)
