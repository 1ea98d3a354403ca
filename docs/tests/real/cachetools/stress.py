"""stress.py locked|bare: four threads ask a cached function for eleven numbers."""
import sys
import threading

import cachetools
from stores import Stores

stores = Stores()


@cachetools.cached(stores.items, lock=threading.Lock() if sys.argv[1] == "locked" else None)
def square(number):
    return number * number


def ask(step):
    for turn in range(50):
        assert square(turn * step % 11) == (turn * step % 11) ** 2


threads = [threading.Thread(target=ask, args=(step,)) for step in (1, 2, 3, 5)]
for thread in threads:
    thread.start()
for thread in threads:
    thread.join()
