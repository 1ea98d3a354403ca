"""python3 cost.py: what recording costs, in microseconds for each call or pair of a lock, by threads, as it is, recorded, and recorded calmly."""
import os
import subprocess
import sys
import tempfile
import threading
import time

LOOPS = 4000


class Desk:
    """What is shared."""

    def __init__(self):
        self.shelf, self.guard = {}, threading.Lock()


def call(desk, thread, turn):
    desk.shelf[thread] = turn


def lock(desk, _thread, _turn):
    with desk.guard:
        pass


def measure():
    """Runs each of both with 1, 4 and 16 threads."""
    for body in (call, lock):
        for count in (1, 4, 16):
            desk, loops = Desk(), LOOPS // count

            def work(thread):
                for turn in range(loops):
                    body(desk, thread, turn)
            threads = [threading.Thread(target=work, args=(thread,)) for thread in range(count)]
            began = time.perf_counter()
            for thread in threads:
                thread.start()
            for thread in threads:
                thread.join()
            print(f"{(time.perf_counter() - began) / (loops * count) * 1e6:.1f}", end=" ")
    print()


if __name__ == "__main__":
    if sys.argv[1:] == ["measure"]:
        measure()
        sys.exit()
    print("microseconds: a call with 1, 4, 16 threads; a lock taken and given back with 1, 4, 16")
    folder = os.path.dirname(os.path.abspath(__file__))
    with tempfile.TemporaryDirectory() as made:
        objects = os.path.join(made, "objects")
        with open(objects, "w") as file:
            file.write("dictionary __main__.Desk.shelf\n")
        recorded = ["-m", "rdrecord", "--trace", os.path.join(made, "run.trace"), "--objects", objects]
        for name, words in (("as it is", []), ("recorded", recorded), ("recorded, --calm", [*recorded, "--calm"]), ("logs, --calm", [*recorded, "--calm", "--logs"])):
            done = subprocess.run([sys.executable, *words, os.path.abspath(__file__), "measure"], capture_output=True, text=True, cwd=folder)
            print(f"{name}: {done.stdout.strip() or done.stderr}")
