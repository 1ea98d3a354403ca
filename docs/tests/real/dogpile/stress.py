"""Four threads ask a cached function for seven numbers."""
import threading

from dogpile.cache import make_region

region = make_region().configure("dogpile.cache.memory")


@region.cache_on_arguments()
def square(number):
    return number * number


def ask(step):
    for turn in range(30):
        assert square(turn * step % 7) == (turn * step % 7) ** 2


threads = [threading.Thread(target=ask, args=(step,)) for step in (1, 2, 3, 5)]
for thread in threads:
    thread.start()
for thread in threads:
    thread.join()
