"""Tests as pytest has them, which know of no recorder: with its lock the stock doesn't race, without it it does."""
import threading

import pytest


class Stock:
    """What is tested."""

    def __init__(self):
        self.items, self.guard = {"apples": 10}, threading.Lock()

    def more(self, locked):
        """One apple more."""
        if locked:
            with self.guard:
                self.items["apples"] += 1
        else:
            self.items["apples"] += 1


@pytest.mark.parametrize("locked", [True, False])
def test_more(locked):
    stock = Stock()
    threads = [threading.Thread(target=stock.more, args=(locked,)) for _ in range(3)]
    for each in threads:
        each.start()
    for each in threads:
        each.join()
    assert stock.items["apples"] <= 13
