"""What holds a cache's items, so that a file of objects can name it."""


class Stores:
    def __init__(self):
        self.items = {}
