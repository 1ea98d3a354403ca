"""Objects of a program that is recorded as it is, which a file names by a line each.

`KIND MODULE.NAME` or `KIND MODULE.CLASS.NAME`: a global or an attribute: of the kind `register` its reads and writes are calls; of the
kinds `dictionary`, `set` and `queue` the dict, set or deque in it is recorded, whatever is put there.
`KIND MODULE.CLASS METHOD=NAME ..`: each object of the class, with these of its methods under the kind's names.
"""
import ast
import builtins
import collections
import functools
import gc
import importlib
import importlib.abc
import importlib.util
import re
import sys
import types

from .recorder import Object
from . import unchanged
from .unchanged import QUIET, kept, recorder
from .values import MISSING, value_of

ATTRIBUTES = []                                   # that are watched, each with its class
HOLDERS = {"dictionary": dict, "set": set, "queue": collections.deque}


class Watched(Object):
    """An object of the program, which is declared at its first call."""

    def __init__(self, to, kind, name, first=()):
        with to.step():
            super().__init__(to, kind, name)
            for method, args, result in first:
                self.tell(method, args, result)


def read(path):
    """The lines of a file of objects: kind, what, the methods with their names."""
    with open(path, encoding="utf-8") as file:
        for number, line in enumerate(file, 1):
            words = line.split("#")[0].split()
            if not words:
                continue
            if len(words) < 2 or not all(re.fullmatch(r"[^=]+=[^=]+", word) for word in words[2:]):
                raise ValueError(f"{path} line {number}: not KIND WHAT [METHOD=NAME ..]")
            yield words[0], words[1], dict(word.split("=") for word in words[2:])


class Watch(importlib.abc.MetaPathFinder):
    """Puts the recorded objects in place once a module is imported."""

    def __init__(self, rows):
        self.rows, self.within, self.done = list(rows), set(), set()

    def find_spec(self, name, path=None, target=None):
        if name in self.within or not any(what.startswith(name + ".") for _, what, _ in self.rows):
            return None
        self.within.add(name)
        try:
            spec = importlib.util.find_spec(name)
        finally:
            self.within.discard(name)
        if spec and spec.loader and hasattr(spec.loader, "exec_module"):
            run = spec.loader.exec_module

            def exec_module(module):
                run(module)
                self.put_in_place(module)
            spec.loader.exec_module = exec_module
        return spec

    def put_in_place(self, module):
        """Watches what is there of this module and isn't watched yet."""
        for row in self.rows:
            kind, what, methods = row
            if row[1] in self.done or not what.startswith(module.__name__ + "."):
                continue
            *owners, name = what[len(module.__name__) + 1:].split(".")
            at = module
            for each in owners:
                at = getattr(at, each, None)
            if at is None or owners and not isinstance(at, type) or not owners and not hasattr(module, name):
                continue                          # that of a module below, or not defined yet
            self.done.add(what)
            if methods:
                watch_class(kind, getattr(at, name), methods)
            elif at is module:
                watch_global(kind, module, name)
            else:
                setattr(at, name, Attribute(kind, at, name))

    @property
    def of_main(self):
        """Whether something of the main program is watched."""
        return any(what.startswith("__main__.") for _, what, _ in self.rows)


def run_main(finder, path, package=None):
    """Runs a file as the main program, and watches what it defines, each thing behind the statement that does so."""
    module = types.ModuleType("__main__")
    module.__file__, module.__package__, module.__builtins__ = path, package, builtins
    module.__dict__["__rdrecord__"] = lambda: finder.put_in_place(module)
    names = {what.split(".")[1] for _, what, _ in finder.rows if what.startswith("__main__.")}
    with open(path, "rb") as file:
        tree = ast.parse(file.read(), path)
    body = []
    for statement in tree.body:
        body.append(statement)
        if any(isinstance(node, (ast.Name, ast.ClassDef)) and (node.id if isinstance(node, ast.Name) else node.name) in names
               for node in ([statement] if isinstance(statement, ast.ClassDef) else getattr(statement, "targets", []))):
            call = ast.Expr(ast.Call(ast.Name("__rdrecord__", ast.Load()), [], []))
            body.append(ast.fix_missing_locations(ast.copy_location(call, statement)))
    tree.body = body
    sys.modules["__main__"] = module
    exec(compile(tree, path, "exec"), module.__dict__)


def watch(path):
    """Watches what a file names, now where it is imported and else once it is."""
    finder = Watch(read(path))
    sys.meta_path.insert(0, finder)
    for module in list(sys.modules.values()):
        if any(what.startswith(getattr(module, "__name__", "") + ".") for _, what, _ in finder.rows):
            finder.put_in_place(module)
    return finder


def watch_class(kind, cls, methods):
    """Each call of these methods is a call of the object; what it locks inside isn't written."""
    for method, name in methods.items():
        def wrap(real, name):
            @functools.wraps(real)
            def call(self, *args, **kwargs):
                to = recorder()
                if to is None:
                    return real(self, *args, **kwargs)
                mine = kept(self, lambda made_for: Watched(made_for, kind, cls.__name__))
                QUIET.depth = getattr(QUIET, "depth", 0) + 1
                try:
                    result = real(self, *args, **kwargs)
                finally:
                    QUIET.depth -= 1
                mine.tell(name, [*args, *kwargs.values()], result)
                return result
            return call
        setattr(cls, method, wrap(getattr(cls, method), name))


def watch_global(kind, module, name):
    if kind not in HOLDERS:
        raise ValueError(f"{module.__name__}.{name}: a global can be a {', '.join(HOLDERS)}; put a register into a class")
    setattr(module, name, recorded_holder(kind, getattr(module, name), name))


class Attribute:
    """An attribute of the objects of a class: a register, or what holds items."""

    def __init__(self, kind, cls, name):
        self.kind, self.name, self.cell = kind, name, f"_recorded_{name}"
        self.value = f"_watched_{name}"
        self.named, self.first = f"{cls.__name__}.{name}", vars(cls).get(name)
        if kind != "register":                    # the class's own, which its objects share
            self.first = recorded_holder(kind, self.first, self.named)
        ATTRIBUTES.append((cls, self))
        if kind == "register" and self.first is not None:
            self._declare_at_making(cls)

    def _declare_at_making(self, cls):
        """A value that the class has for its objects is written by who makes one, for it comes before all that others do with it."""
        real = cls.__init__

        @functools.wraps(real)
        def init(of, *args, **kwargs):
            real(of, *args, **kwargs)
            to = recorder()
            if to:
                self._register(to, of)
        cls.__init__ = init

    def declare(self, to, of):
        """What was there before the recorder began is written by the thread that begins it."""
        if self.kind == "register" and (self.value in of.__dict__ or self.name in of.__dict__ or self.first is not None):
            self._register(to, of)
        elif self.kind != "register" and self.name in of.__dict__:
            self._value(of)

    def _value(self, of):
        if self.name in of.__dict__:              # set before the class was watched
            value = of.__dict__.pop(self.name)
            of.__dict__[self.value] = value if self.kind == "register" else recorded_holder(self.kind, value, self.named)
        if self.value in of.__dict__:
            return of.__dict__[self.value]
        if self.first is None:
            raise AttributeError(self.name)
        return self.first

    def _register(self, to, of):
        found = of.__dict__.get(self.cell)
        if found is None or found.to is not to:
            with to.lock:
                found = of.__dict__.get(self.cell)
                if found is None or found.to is not to:
                    value = self._value(of) if self.value in of.__dict__ or self.name in of.__dict__ else self.first
                    first = [] if value is None else [("write", [value], None)]
                    found = of.__dict__[self.cell] = Watched(to, "register", self.named, first)
        return found

    def __get__(self, of, cls=None):
        if of is None:                            # asked of the class: its own, which of a register has no calls
            if self.first is None:
                raise AttributeError(self.name)
            return self.first
        to = recorder()
        if self.kind != "register" or to is None:
            return self._value(of)
        return self._register(to, of).call("read", [], lambda: self._value(of), asks=False)

    def __set__(self, of, value):
        to = recorder()
        if self.kind != "register":
            value = recorded_holder(self.kind, value, self.named)
        if self.kind != "register" or to is None:
            of.__dict__[self.value] = value
            return
        if self.cell not in of.__dict__ and self.value not in of.__dict__:
            of.__dict__[self.value] = value       # its first value, which its first line writes
            self._register(to, of)
            return
        self._register(to, of).call("write", [value], lambda: of.__dict__.__setitem__(self.value, value))

    def __delete__(self, of):
        of.__dict__.pop(self.value, None)


def recorded_holder(kind, value, name):
    """The dict, set or deque, so that its calls are recorded, with what it holds now; anything else as it is."""
    if type(value) is not HOLDERS[kind]:
        return value
    made = {"dictionary": WatchedDict, "set": WatchedSet, "queue": WatchedDeque}[kind](value)
    made.named = name
    made._object()
    return made


def declare_all(to):
    """Declares all that is watched and there, with what it holds, before anything else happens."""
    for each in gc.get_objects():
        if type(each) in (WatchedDict, WatchedSet, WatchedDeque):
            each._object()
        for cls, attribute in ATTRIBUTES:
            if issubclass(type(each), cls) and type(each).__dictoffset__:
                attribute.declare(to, each)


unchanged.AT_INSTALLATION.append(declare_all)


class WatchedDict(dict):
    """A dict whose calls are those of a dictionary. A value None is spelled as the text of a value."""
    named = "dict"

    def _object(self):
        to = recorder()
        return None if to is None else kept(self, lambda made_for: Watched(made_for, "dictionary", self.named, [
            ("put", [key, value_of(value)], None) for key, value in dict.items(self)]))

    def _ask(self, key):
        mine = self._object()
        if mine:
            mine.call("get", [key], lambda: value_of(dict.get(self, key, MISSING)), asks=False)

    def __getitem__(self, key):
        self._ask(key)
        return super().__getitem__(key)

    def get(self, key, default=None):
        self._ask(key)
        return super().get(key, default)

    def __contains__(self, key):
        self._ask(key)
        return super().__contains__(key)

    def _put(self, key, value, run):
        mine = self._object()
        if not mine:
            return run()
        answer = []

        def step():
            old = value_of(dict.get(self, key, MISSING))
            answer.append(run())
            return old
        mine.call("put", [key, value], step, asks=False)
        return answer[0]

    def __setitem__(self, key, value):
        self._put(key, value_of(value), lambda: super(WatchedDict, self).__setitem__(key, value))

    def __delitem__(self, key):
        self._put(key, None, lambda: super(WatchedDict, self).__delitem__(key))

    def pop(self, key, *default):
        if not default and not super().__contains__(key):
            self._ask(key)
        return self._put(key, None, lambda: super(WatchedDict, self).pop(key, *default))

    def setdefault(self, key, default=None):
        to = recorder()
        with to.step() if to else QUIET_STEP:
            if dict.__contains__(self, key):
                self._ask(key)
                return super().__getitem__(key)
            self[key] = default
            return default

    def popitem(self):
        to = recorder()
        with to.step() if to else QUIET_STEP:
            key = next(reversed(self.keys()), MISSING)
            if key is MISSING:
                return super().popitem()
            return key, self.pop(key)

    def update(self, *args, **kwargs):
        for key, value in dict(*args, **kwargs).items():
            self[key] = value

    def clear(self):
        for key in list(super().keys()):
            self.pop(key, None)

    def _size(self):
        mine = self._object()
        if mine:
            mine.call("size", [], lambda: dict.__len__(self))

    def __len__(self):
        self._size()
        return super().__len__()

    def __bool__(self):
        return len(self) > 0

    def __iter__(self):
        self._size()
        for key in list(super().keys()):
            self._ask(key)
            yield key

    def items(self):
        self._size()
        found = list(super().items())
        for key, _ in found:
            self._ask(key)
        return dict(found).items()

    def values(self):
        return dict(self.items()).values()


class WatchedSet(set):
    """A set whose calls are those of a set."""
    named = "set"

    def _object(self):
        to = recorder()
        return None if to is None else kept(self, lambda made_for: Watched(made_for, "set", self.named, [("add", [item], True) for item in set.__iter__(self)]))

    def _change(self, method, item, change):
        mine = self._object()
        if not mine:
            return change(item)

        def step():
            before = set.__len__(self)
            change(item)
            return set.__len__(self) != before
        return mine.call(method, [item], step)

    def add(self, item):
        self._change("add", item, super().add)

    def discard(self, item):
        self._change("remove", item, super().discard)

    def remove(self, item):
        mine = self._object()
        if not mine:
            super().remove(item)
        elif not self._change("remove", item, super().discard):
            raise KeyError(item)

    def __contains__(self, item):
        mine = self._object()
        return mine.call("contains", [item], lambda: set.__contains__(self, item)) if mine else super().__contains__(item)

    def __len__(self):
        mine = self._object()
        return mine.call("size", [], lambda: set.__len__(self)) if mine else super().__len__()

    def __iter__(self):
        len(self)
        return iter([item for item in list(super().__iter__()) if item in self])

    def pop(self):
        to = recorder()
        with to.step() if to else QUIET_STEP:
            item = next(super().__iter__(), MISSING)
            if item is MISSING:
                return super().pop()
            self.remove(item)
            return item

    def clear(self):
        for item in list(super().__iter__()):
            self.discard(item)

    def update(self, *others):
        for item in set().union(*others):
            self.add(item)


class WatchedDeque(collections.deque):
    """A deque that is a queue: `append` and `popleft`, its length."""
    named = "queue"

    def _object(self):
        to = recorder()
        return None if to is None else kept(self, lambda made_for: Watched(made_for, "queue", self.named, [
            ("enqueue", [value_of(item)], None) for item in collections.deque.__iter__(self)]))

    def append(self, item):
        mine = self._object()
        if mine:
            mine.call("enqueue", [value_of(item)], lambda: super(WatchedDeque, self).append(item))
        else:
            super().append(item)

    def popleft(self):
        mine = self._object()
        if not mine:
            return super().popleft()
        taken = []

        def step():
            if not collections.deque.__len__(self):
                return None
            taken.append(super(WatchedDeque, self).popleft())
            return value_of(taken[0])
        mine.call("dequeue", [], step, asks=False)
        return taken[0] if taken else super().popleft()

    def __len__(self):
        mine = self._object()
        return mine.call("size", [], lambda: collections.deque.__len__(self)) if mine else super().__len__()

    def __bool__(self):
        return len(self) > 0


class QuietStep:
    """No step, where nothing is recorded."""
    def __enter__(self):
        return self

    def __exit__(self, *_):
        return None


QUIET_STEP = QuietStep()

