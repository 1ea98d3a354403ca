"""A cache that is safe for threads, and two of them that look and then put."""
import threading


class Cache:
    def __init__(self):
        self.items, self.guard = {}, threading.Lock()

    def get(self, key):
        with self.guard:
            return self.items.get(key)

    def put(self, key, value):
        with self.guard:
            self.items[key] = value


cache = Cache()


def count():
    for _ in range(5):
        cache.put("hits", (cache.get("hits") or 0) + 1)


threads = [threading.Thread(target=count) for _ in range(2)]
for thread in threads:
    thread.start()
for thread in threads:
    thread.join()
