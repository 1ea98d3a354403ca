"""constructs.py clean|race OUT: what the recorder has, used once each; in a race one call has no lock."""
import asyncio
import sys

import rdrecord as rd

RACE = sys.argv[1] == "race"


def threads(to):
    x, box = rd.Register(to, 0, "x"), rd.Register(to, name="box")
    shelf, count = rd.Dictionary(to, {"a": 1}, "shelf"), rd.Counter(to, 3, "count")
    full, put, mutex, round = rd.Condition(to, name="full"), rd.Event(to), rd.Semaphore(to, 1), rd.Barrier(to, 2)
    messages = rd.Queue(to, 3)

    def wait():
        with full, full:                            # the lock is held twice
            while box.read() is None:
                full.wait(5)

    def begin():
        shelf["b"] = 2
        put.set()
        round.wait()
        shelf["c"] = 1
        round.wait()
        with mutex:
            x.write(x.read() + 1)
        messages.put("done")
        messages.join()

    def follow():
        put.wait()
        assert shelf["b"] == 2
        round.wait()
        round.wait()
        assert shelf["c"] == 1
        if RACE:
            x.write(x.read() + 1)
        else:
            with mutex:
                x.write(x.read() + 1)
        messages.get()
        count.add(2)
        messages.task_done()
    started = [rd.Thread(to, each) for each in (wait, begin, follow)]
    for each in started:
        each.start()
    with full:
        box.write("full")
        full.notify_all()
    for each in started:
        each.join()
    assert count.get() == 5 and box.read() == "full"
    assert box.compare_and_set("full", 1) and not box.compare_and_set("full", 1) and box.swap(2) == 1


def collections(to):
    shelf, items = rd.Dictionary(to, {"a": 1}), rd.Set(to, ["i"])
    assert shelf.pop("a") == 1 and shelf.setdefault("a", 4) == 4 and list(shelf) == ["a"] and len(shelf) == 1
    shelf.popitem()
    shelf.clear()
    items.add("j")
    items.remove("i")
    assert "j" in items and list(items) == ["j"] and items.pop() == "j" and not items
    with rd.Pool(to, 2) as pool:
        handed = [pool.submit(shelf.__setitem__, n, n) for n in range(3)]
        handed[0].result()
        assert shelf[0] == 0 and list(pool.map(lambda n: n + 1, [1, 2])) == [2, 3]
    assert len(shelf) == 3


def more(to):
    parts, high = rd.Bag(to, ["nut", "nut"], "parts"), rd.Peak(to, 3, "high")
    jobs, words = rd.ItemQueue(to, ["a", "b"], "jobs"), rd.Tally(to, ["x"], "words")
    guard, got = rd.Lock(to, "guard"), []

    def work():
        with guard:
            got.append(jobs.dequeue())
        parts.add("bolt")
        words.hit("x")
        high.raise_to(2)
    workers = [rd.Thread(to, work) for _ in range(2)]
    for each in workers:
        each.start()
    for each in workers:
        each.join()
    assert sorted(got) == ["a", "b"] and jobs.dequeue() is None and len(jobs) == 0
    assert parts.remove("nut") and parts.remove("nut") and not parts.remove("nut") and parts.count("bolt") == 2
    assert high.raise_to(7) == 3 and high.get() == 7 and rd.Peak(to).get() is None
    assert words.count("x") == 3 and words.count("y") == 0 and words.total() == 3


async def tasks(to):
    rd.record_tasks(to)
    hits, guard = rd.Register(to, 0, "hits"), rd.AsyncLock(to)

    async def hit(alone=False):
        if alone:
            hits.write(hits.read() + 1)
        else:
            async with guard:
                hits.write(hits.read() + 1)
    first, second = asyncio.create_task(hit()), rd.Task(to, hit())
    await first
    await second
    hits.read()
    await asyncio.gather(hit(), hit(RACE), asyncio.create_task(hit()))
    hits.read()
    done, _ = await asyncio.wait([asyncio.create_task(hit())])
    for each in done:
        each.result()
    await asyncio.wait_for(hit(), 5)
    assert hits.read() == 7


with rd.Recorder(sys.argv[2]) as recorder:
    threads(recorder)
    collections(recorder)
    more(recorder)
    asyncio.run(tasks(recorder))
