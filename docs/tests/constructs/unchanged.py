"""unchanged.py clean|race: a program that knows of no recorder, with all that `python -m rdrecord` stands in for; in a race one call has no lock."""
import asyncio
import collections
import concurrent.futures
import multiprocessing.pool
import os
import queue
import sys
import threading

RACE = sys.argv[1] == "race"


class Desk:
    """What is shared; unchanged.objects names it."""
    turns = 0
    board = {"open": True}

    def __init__(self):
        self.hits, self.shelf, self.names, self.row = 0, {}, set(), collections.deque()


class Squares:
    """A memo with a lock of its own."""

    def __init__(self):
        self.lock, self.known = threading.Lock(), {}

    def square(self, number):
        with self.lock:
            return self.known.setdefault(number, number * number)


class Worker(threading.Thread):
    """A thread by a class of its own."""

    def __init__(self, body):
        super().__init__()
        self.body = body

    def run(self):
        self.body()


desk, squares, guard = Desk(), Squares(), threading.RLock()


def hit(alone=False):
    if alone:
        desk.hits += 1
    else:
        with guard, guard:
            desk.hits += 1
            desk.turns += 1
            Desk.board["turns"] = desk.board.get("turns", 0) + 1


def threads():
    full, came, mutex, round = threading.Condition(), threading.Event(), threading.Semaphore(1), threading.Barrier(2)
    messages, results, baton = queue.Queue(3), queue.PriorityQueue(), threading.Lock()

    def first():
        with full:
            while "full" not in desk.shelf:
                full.wait(5)
        desk.names.add("first")
        came.set()
        round.wait()
        desk.shelf["list"] = [1]
        desk.shelf["list"].append(2)
        round.wait()
        with mutex:
            desk.shelf["turn"] = desk.shelf.get("turn", 0) + 1
        messages.put("done")
        messages.join()

    def second():
        came.wait()
        assert "first" in desk.names
        round.wait()
        round.wait()
        desk.shelf["list"] = [9]
        with mutex:
            desk.shelf["turn"] = desk.shelf.get("turn", 0) + 1
        messages.get()
        results.put((2, "b"))
        results.put((1, "a"))
        messages.task_done()
    baton.acquire()
    started = [Worker(first), threading.Thread(target=second), threading.Thread(target=baton.release, daemon=True)]
    for each in started:
        each.start()
    with full:
        desk.shelf["full"] = None
        full.notify_all()
    for each in started:
        each.join()
    with baton:
        assert desk.shelf.pop("full") is None and desk.shelf["turn"] == 2
    assert results.get()[1] == "a" and desk.shelf["list"] == [9]


def pools():
    with concurrent.futures.ThreadPoolExecutor(2) as pool:
        handed = [pool.submit(hit) for _ in range(3)]
        assert [each.result() for each in handed] == [None] * 3 and list(pool.map(squares.square, [1, 2, 2])) == [1, 4, 4]
        last = pool.submit(lambda: desk.names.add("pool"))
    assert last.done() and "pool" in desk.names
    with multiprocessing.pool.ThreadPool(2) as pool:
        assert pool.map(squares.square, [3, 3]) == [9, 9]
        pool.apply_async(hit).get()
    handed = concurrent.futures.Future()
    worker = threading.Thread(target=lambda: (desk.shelf.__setitem__("future", 1), handed.set_result(1)))
    worker.start()
    assert handed.result() == 1 and desk.shelf["future"] == 1
    worker.join()


def items():
    for number in (1, 1.0, True, 2 ** 70, "a" * 300, (1, "a"), None, b"a"):
        desk.shelf[number] = number
        assert desk.shelf[number] == number
    desk.row.extend([]) or desk.row.append(None)
    desk.row.append("x")
    assert desk.row.popleft() is None and len(desk.row) == 1 and desk.row.popleft() == "x"
    assert sorted(map(str, desk.shelf)) and len(desk.shelf.items()) > 3 and desk.shelf.setdefault("new", 1) == 1
    desk.names.discard("first")
    assert desk.names == {"pool"} and "first" not in desk.names
    if os.fork() == 0:                                # what the child does is no part of the trace
        desk.hits += 1
        os._exit(0)
    os.wait()


async def tasks():
    lock, came, row, few = asyncio.Lock(), asyncio.Event(), asyncio.Queue(1), asyncio.Semaphore(1)

    async def make(number):
        async with lock:
            desk.shelf["tasks"] = desk.shelf.get("tasks", 0) + 1
            await asyncio.sleep(0)
        async with few:
            desk.shelf["few"] = number
        await row.put(number)

    async def take():
        for _ in range(3):
            await row.get()
        desk.shelf["taken"] = True
        came.set()
    running = [asyncio.create_task(make(number)) for number in range(3)] + [asyncio.create_task(take())]
    await came.wait()
    assert desk.shelf["taken"] is True
    await asyncio.gather(*running)
    await asyncio.to_thread(hit)
    assert desk.shelf["tasks"] == 3


def planted():
    workers = [threading.Thread(target=hit, args=(RACE and number == 1,)) for number in range(3)]
    for each in workers:
        each.start()
    for each in workers:
        each.join()


planted()
threads()
pools()
items()
asyncio.run(tasks())
