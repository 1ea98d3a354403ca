"""Puts what is recorded in place of Python's own threads, locks, queues, pools and tasks, so that a program runs as it is.

`install(to)` does so, `install(None)` ends it. A lock is recorded where the program makes it, and not where the standard library does for
itself; what carries messages always is.
"""
import _queue
import asyncio
import collections
import concurrent.futures
import concurrent.futures.thread
import functools
import queue
import re
import sys
import sysconfig
import threading

from .recorder import OWN, REAL_LOCK, REAL_RLOCK
from .threads import Holder, Messages

STANDARD = sysconfig.get_path("stdlib")
TESTS = STANDARD + "/test/"
ITSELF = threading.__file__
QUIET = threading.local()                         # inside a recorded object's method, whose own locks aren't written


class Installed:
    """What is installed: the recorder, or none, and whether a pool's task is a thread."""
    to, tasks = None, False


def recorder():
    """The recorder, where this thread is to be recorded now."""
    return None if getattr(QUIET, "depth", 0) else Installed.to


def install(to, tasks=False):
    """From here on `to` records; a pool's workers are its threads, or, with `tasks`, its tasks are."""
    Installed.to, Installed.tasks = to, tasks
    if not hasattr(threading.Thread.start, "recorded"):
        _put_in_place()
    for each in AT_INSTALLATION if to else ():
        each(to)


AT_INSTALLATION = []                              # what is done with each new recorder


def of_program(skipped):
    """Whether the program makes this, or a class of `threading` on its behalf that is one of `skipped`."""
    frame = sys._getframe(2)
    while frame:
        file = frame.f_code.co_filename
        if file == ITSELF:
            if frame.f_code.co_name != "__init__" or type(frame.f_locals.get("self")).__name__ not in skipped:
                return False
        elif not file.startswith(OWN):
            return not file.startswith(STANDARD) or file.startswith(TESTS) or "-packages/" in file
        frame = frame.f_back
    return False


def kept(of, make):
    """What belongs to this object in the trace that is written now, made at its first use."""
    to = recorder()
    if to is None:
        return None
    found = of.__dict__.get("_recorded")
    if found is None or found[0] is not to:
        with to.lock:                             # two threads may come first
            found = of.__dict__.get("_recorded")
            if found is None or found[0] is not to:
                found = of.__dict__["_recorded"] = to, make(to)
    return found[1]


class Lock:
    """A lock of the program; `kind` is what makes the real one."""
    kind = staticmethod(REAL_LOCK)
    sort = "lock"

    def __init__(self):
        self.held = self.kind()

    def _lines(self):
        return kept(self, lambda to: Holder(to, to.fresh(self.sort)))

    def acquire(self, blocking=True, timeout=-1):
        got = self.held.acquire(blocking, timeout)
        if got:
            lines = self._lines()
            if lines:
                lines.taken()
        return got

    __enter__ = acquire

    def release(self):
        found = self.__dict__.get("_recorded")
        if found and found[0] is Installed.to:        # what was written as taken is written as given
            found[1].given()
        self.held.release()
        if found and Installed.to:
            Installed.to.rest()

    def __exit__(self, *_):
        self.release()

    def locked(self):
        if self.held.acquire(False):
            self.held.release()
            return False
        return True

    def __getattr__(self, name):                  # _at_fork_reinit and the like
        return getattr(self.held, name)

    def _is_owned(self):                            # this one and the next two are what a condition asks for
        if self.held.acquire(False):
            self.held.release()
            return False
        return True

    def _release_save(self):
        self.release()
        return 1

    def _acquire_restore(self, depth):
        for _ in range(depth):
            self.acquire()


class RLock(Lock):
    """One that its thread may take again."""
    kind = staticmethod(REAL_RLOCK)

    def _is_owned(self):
        return self.held._is_owned()

    def locked(self):
        return not self.held.acquire(False) or bool(self.held.release())

    def _release_save(self):
        depth = 0
        while self.held._is_owned():
            self.release()
            depth += 1
        return depth


def make_lock():
    return Lock() if recorder() and of_program({"Condition"}) else REAL_LOCK()


def make_rlock(*_):
    return RLock() if recorder() and of_program({"Condition"}) else REAL_RLOCK()


# Threads

def thread_name(thread):
    """Its own name, or that of its target where it has only a number."""
    numbered = re.fullmatch(r"Thread-\d+(?: \((.*)\))?", thread.name)
    return (numbered[1] or "thread") if numbered else thread.name


def start(real, self):
    to = recorder()
    of_pool = Installed.tasks and sys._getframe(2).f_code.co_filename == concurrent.futures.thread.__file__
    if to and not self._started.is_set() and not of_pool and "_forked" not in self.__dict__:
        self._forked = to, to.fresh(thread_name(self))
        self.run = to.forked(self._forked[1], self.run)
    real(self)
    if to:
        to.rest()


def join(real, self, timeout=None):
    real(self, timeout)
    ended(self)


def is_alive(real, self):
    alive = real(self)
    if not alive and sys._getframe(2).f_code.co_filename != ITSELF:
        ended(self)
    return alive


def ended(thread):
    """The asking thread has seen that this one has ended."""
    forked, to = thread.__dict__.get("_forked"), recorder()
    if forked and forked[0] is to and thread._is_stopped:
        to.joined(forked[1])


def wait_for_threads():
    """What the interpreter does in the end: it waits for the threads that are no daemons, and this is recorded."""
    for thread in threading.enumerate():
        if thread is not threading.current_thread() and not thread.daemon:
            thread.join()


# What waits for one another

def pair_of(sort):
    def pair(of):
        to = recorder()
        name = kept(of, lambda made_for: made_for.fresh(sort))
        if to and name:
            to.pair(name)
    return pair


event_pair, done_pair = pair_of("event"), pair_of("queue.done")


def is_internal(event):
    """Whether it is a thread's own."""
    return "_internal" in event.__dict__


def event_init(real, self):
    maker = sys._getframe(2)
    if maker.f_code.co_filename == ITSELF and isinstance(maker.f_locals.get("self"), threading.Thread):
        self._internal = True
    real(self)


def event_set(real, self):
    if not is_internal(self):
        event_pair(self)
    real(self)


def event_seen(real, self, *args):
    came = real(self, *args)
    if came and not is_internal(self) and sys._getframe(2).f_code.co_filename not in (ITSELF, asyncio.locks.__file__):
        event_pair(self)
    return came


def event_wait(real, self, timeout=None):
    came = real(self, timeout)
    if came and not is_internal(self):
        event_pair(self)
    return came


def permits(semaphore):
    return kept(semaphore, lambda to: (to.fresh("semaphore"), collections.deque([None] * semaphore._value)))


def semaphore_acquire(real, self, blocking=True, timeout=None):
    mine = permits(self)
    got = real(self, blocking, timeout)
    if got and mine and mine[1]:
        message = mine[1].popleft()
        if message:
            recorder().receive(message)
    return got


def semaphore_release(real, self, n=1):
    mine = permits(self)
    for _ in range(n if mine else 0):
        mine[1].append(recorder().send(f"{mine[0]}.permit"))
    real(self, n)


def barrier_wait(real, self, timeout=None):
    to = recorder()
    mine = kept(self, lambda made_for: [made_for.fresh("barrier"), 0])
    if not to:
        return real(self, timeout)
    with to.lock:
        number, mine[1] = mine[1] // self.parties, mine[1] + 1
    to.pair(f"{mine[0]}.{number}")
    place = real(self, timeout)
    to.pair(f"{mine[0]}.{number}")
    return place


# Messages

def messages(of):
    return kept(of, lambda to: Messages(to, f"{to.fresh('queue')}.message"))


def put(real, self, item, *args, **kwargs):
    mine = messages(self)
    message = mine.sending(item) if mine else None
    try:
        real(self, item, *args, **kwargs)
    except BaseException:
        if message:
            mine.taken_back(item, message)
        raise


def get(real, self, *args, **kwargs):
    item = real(self, *args, **kwargs)
    mine = messages(self)
    if mine:
        mine.received(item)
    return item


def task_done(real, self):
    done_of(self)
    real(self)


def queue_join(real, self):
    real(self)
    done_of(self)


def done_of(of):
    mine, to = messages(of), recorder()
    if mine:
        to.pair(mine.sort.replace(".message", ".done"))


class SimpleQueue(_queue.SimpleQueue):
    """Of C, so its methods are written here."""

    def put(self, item, block=True, timeout=None):
        put(_queue.SimpleQueue.put, self, item, block, timeout)

    def put_nowait(self, item):
        self.put(item)

    def get(self, block=True, timeout=None):
        return get(_queue.SimpleQueue.get, self, block, timeout)

    def get_nowait(self):
        return self.get(False)


# Pools

def submit(real, self, body, /, *args, **kwargs):
    to = recorder()
    if not (to and Installed.tasks):
        return real(self, body, *args, **kwargs)
    name = to.fresh("task")
    future = real(self, to.forked(name, body), *args, **kwargs)
    future._task = to, name
    return future


def set_future(real, self, *args):
    to = recorder()
    if to and "_task" not in self.__dict__ and "_told" not in self.__dict__:
        self._told = to, to.send("future")
    real(self, *args)


def see_future(real, self, *args, **kwargs):
    try:
        return real(self, *args, **kwargs)
    finally:
        if self._state in ("FINISHED", "CANCELLED_AND_NOTIFIED"):
            seen(self)


def seen(future):
    """The asking thread has seen that the future is done."""
    to = recorder()
    told, task = future.__dict__.get("_told"), future.__dict__.get("_task")
    if told and told[0] is to:
        to.receive(told[1], again=False)
    if task and task[0] is to:
        to.joined(task[1])


def future_done(real, self):
    done = real(self)
    if done:
        seen(self)
    return done


def future_wait(real, *args, **kwargs):
    result = real(*args, **kwargs)
    for future in result.done:
        seen(future)
    return result


# Tasks of asyncio

def loop_init(real, self, *args, **kwargs):
    from .tasks import Future, Task
    real(self, *args, **kwargs)

    def make(loop, coroutine, **more):
        to = recorder()
        return Task(to, coroutine, loop=loop, **more) if to else asyncio.Task(coroutine, loop=loop, **more)
    self.set_task_factory(make)
    self.create_future = lambda: Future(recorder(), loop=self) if recorder() else asyncio.Future(loop=self)


async def async_acquire(real, self):
    await real(self)
    lines = kept(self, lambda to: Holder(to, to.fresh("lock")))
    if lines:
        lines.taken()
    return True


def async_release(real, self):
    found = self.__dict__.get("_recorded")
    if found and found[0] is Installed.to:
        found[1].given()
    real(self)


async def async_event_wait(real, self):
    await real(self)
    event_pair(self)
    return True


async def async_semaphore_acquire(real, self):
    mine = permits(self)
    await real(self)
    if mine and mine[1]:
        message = mine[1].popleft()
        if message:
            recorder().receive(message)
    return True


def async_semaphore_release(real, self):
    mine = permits(self)
    if mine:
        mine[1].append(recorder().send(f"{mine[0]}.permit"))
    real(self)


def _put_in_place():
    def wrap(owner, name, ours):
        real = getattr(owner, name)

        @functools.wraps(real)
        def method(*args, **kwargs):
            return ours(real, *args, **kwargs)
        method.recorded = True
        setattr(owner, name, method)

    def wrap_async(owner, name, ours):
        real = getattr(owner, name)

        @functools.wraps(real)
        async def method(*args, **kwargs):
            return await ours(real, *args, **kwargs)
        setattr(owner, name, method)
    for name, ours in (("start", start), ("join", join), ("is_alive", is_alive)):
        wrap(threading.Thread, name, ours)
    for name, ours in (("__init__", event_init), ("set", event_set), ("wait", event_wait), ("is_set", event_seen)):
        wrap(threading.Event, name, ours)
    wrap(threading.Semaphore, "acquire", semaphore_acquire)
    threading.Semaphore.__enter__ = threading.Semaphore.acquire
    wrap(threading.Semaphore, "release", semaphore_release)
    wrap(threading.BoundedSemaphore, "release", semaphore_release)
    wrap(threading.Barrier, "wait", barrier_wait)
    threading.Lock, threading.RLock = make_lock, make_rlock
    for name, ours in (("put", put), ("get", get), ("task_done", task_done), ("join", queue_join)):
        wrap(queue.Queue, name, ours)
    queue.SimpleQueue = SimpleQueue
    wrap(concurrent.futures.ThreadPoolExecutor, "submit", submit)
    future = concurrent.futures.Future
    for name, ours in (("set_result", set_future), ("set_exception", set_future), ("result", see_future), ("exception", see_future), ("done", future_done)):
        wrap(future, name, ours)
    real_wait = concurrent.futures.wait
    concurrent.futures.wait = functools.wraps(real_wait)(lambda *args, **kwargs: future_wait(real_wait, *args, **kwargs))
    wrap(asyncio.BaseEventLoop, "__init__", loop_init)
    wrap_async(asyncio.Lock, "acquire", async_acquire)
    wrap(asyncio.Lock, "release", async_release)
    wrap(asyncio.Event, "set", event_set)
    wrap(asyncio.Event, "is_set", event_seen)
    wrap_async(asyncio.Event, "wait", async_event_wait)
    wrap_async(asyncio.Semaphore, "acquire", async_semaphore_acquire)
    wrap(asyncio.Semaphore, "release", async_semaphore_release)
    wrap(asyncio.Queue, "put_nowait", put)
    wrap(asyncio.Queue, "get_nowait", get)
