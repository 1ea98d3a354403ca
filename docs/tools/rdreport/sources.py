"""The program's sources: which file a place names, and what stands there."""
import fnmatch
import os
import pathlib

from traces import Place

LEFT_OUT = {"node_modules", "__pycache__"}


class Sources:
    """Finds files below some folders, and passes over places that match a pattern."""

    def __init__(self, folders=(), skipped=()):
        self.skipped, self.by_name, self.texts, self.found = skipped, {}, {}, {}
        for folder in folders:
            for at, below, files in os.walk(folder):
                below[:] = sorted(name for name in below if not name.startswith(".") and name not in LEFT_OUT)
                for name in files:
                    self.by_name.setdefault(name, set()).add(os.path.relpath(os.path.join(at, name)))

    def whole(self, file):
        """The path of a file from here, or as it was recorded where no file below the folders, or more than one, ends so."""
        if file not in self.found:
            self.found[file] = self._whole(file)
        return self.found[file]

    def _whole(self, file):
        path = pathlib.PurePath(file)
        if path.is_absolute():
            try:
                return path.relative_to(pathlib.Path.cwd()).as_posix()
            except ValueError:
                return path.as_posix()
        if os.path.isfile(file):
            return path.as_posix()
        ends = [each for each in self.by_name.get(path.name, ()) if pathlib.PurePath(each).parts[-len(path.parts):] == path.parts]
        return pathlib.PurePath(ends[0]).as_posix() if len(ends) == 1 else path.as_posix()

    def place(self, places):
        """The first of a call's places that isn't passed over; the innermost where all are; none where there is none."""
        first = None
        for place in places:
            place = Place(self.whole(place.file), place.line)
            first = first or place
            if not any(fnmatch.fnmatch(text, pattern) for pattern in self.skipped for text in (place.file, str(place))):
                return place
        return first

    def lines(self, file):
        """The lines of a file; none where it can't be read."""
        if file not in self.texts:
            try:
                with open(file, encoding="utf-8", errors="replace") as opened:
                    self.texts[file] = opened.read().split("\n")
            except OSError:
                self.texts[file] = []
        return self.texts[file]

    def line(self, place):
        """What stands at a place, without the blanks around it."""
        lines = self.lines(place.file)
        return " ".join(lines[place.line - 1].split()) if 1 <= place.line <= len(lines) else ""
