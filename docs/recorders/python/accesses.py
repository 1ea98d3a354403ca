#!/usr/bin/env python3
"""Records the reads and writes of objects' attributes, each a variable, and the threads and locks that order them: a trace for `rd2 epochs`.

Two threads each make a deposit, and the lock guards one field of two.
"""
import threading

lines = ["rdmem 1", "# Two deposits, recorded from a Python program: the lock guards one field of two.", "thread main"]
inside = threading.RLock()           # the recorder's own lock, of which no line tells
threading.current_thread().name = "main"

def tell(what, name):
    with inside: lines.append(f"{what} {threading.current_thread().name} {name}")

class Recorded:
    """Each attribute is a variable. An access to it is one step with its line."""
    def __init__(self, name, **values):
        self.__dict__.update(_name=name, _values={})
        for attribute, value in values.items(): setattr(self, attribute, value)
    def __getattr__(self, attribute):
        with inside:
            tell("read", f"{self._name}.{attribute}")
            return self._values[attribute]
    def __setattr__(self, attribute, value):
        with inside:
            tell("write", f"{self._name}.{attribute}")
            self._values[attribute] = value

class Lock:
    def __init__(self, name): self.name, self.lock = name, threading.Lock()
    def __enter__(self): self.lock.acquire(); tell("acquire", self.name)
    def __exit__(self, *error): tell("release", self.name); self.lock.release()

class Thread(threading.Thread):
    def start(self): tell("fork", self.name); super().start()
    def join(self): super().join(); tell("join", self.name)

account, guard = Recorded("account", balance=10, deposits=0), Lock("account.lock")
def deposit():
    account.balance += 1
    with guard: account.deposits += 1
threads = [Thread(target=deposit, name=name) for name in ("a", "b")]
for each in threads: each.start()
for each in threads: each.join()
print("\n".join(lines))
