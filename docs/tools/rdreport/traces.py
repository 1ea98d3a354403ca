"""A trace and the races that rd2 tells of it: calls as fields, places in the source, what comes before what."""
import bisect
import collections
import dataclasses
import re
import typing

WORD = re.compile(r'"(?:\\.|[^"\\])*"|[^ ]+')     # a text may hold spaces
PLACE = re.compile(r"# (.+):(\d+)")
EVENTS = {"fork", "join", "acquire", "release", "share", "unshare", "call"}


class Place(typing.NamedTuple):
    """A line of the source."""
    file: str
    line: int

    def __str__(self):
        return f"{self.file}:{self.line}"


@dataclasses.dataclass
class Call:
    """A call of a race. Values are spelled as in the trace, and `clock` as in the report."""
    line: int
    thread: str
    object: str
    method: str
    arguments: typing.List[str]
    result: str
    clock: str
    place: typing.Optional[Place] = None

    @classmethod
    def of(cls, told):
        """The call of one side of a race of `check-json`."""
        thread, on, method, *values = WORD.findall(told["call"])
        return cls(told["line"], thread, on, method, values[:-2], values[-1], told["clock"])

    @classmethod
    def of_fields(cls, fields):
        place = fields["place"]
        return cls(**{**fields, "place": Place(**place) if place else None})

    def fields(self):
        return {**dataclasses.asdict(self), "place": self.place._asdict() if self.place else None}

    def known(self):
        """How many events of each thread are this call or come before it."""
        counts = {}
        for part in self.clock.split(","):
            thread, _, count = part.rpartition(":")
            counts[thread] = int(count)
        return counts

    def __str__(self):
        return " ".join([self.thread, self.object, self.method, *self.arguments, "->", self.result])


class Trace:
    """The lines of a trace, which are counted from 1."""

    def __init__(self, path):
        self.path = path
        with open(path, encoding="utf-8", errors="replace", newline="\n") as file:
            self.lines = file.read().split("\n")

    def line(self, number):
        return self.lines[number - 1]

    def places(self, number):
        """The places in front of a call's line: its own one first, then that of its caller, and so on."""
        for before in range(number - 2, -1, -1):
            place = PLACE.fullmatch(self.lines[before])
            if not place:
                return
            yield Place(place[1], int(place[2]))


class Event(typing.NamedTuple):
    """A line that is an event: its thread, the how manieth it is there, from 1, and the words behind the thread."""
    line: int
    thread: str
    number: int
    word: str
    rest: str


class Order:
    """The events of a trace that rd2 accepts, and what comes directly before what in another thread."""

    def __init__(self, trace):
        self.events, self.of_thread, self.threads = {}, collections.defaultdict(list), []
        self.forks, self.joins, self.before = {}, {}, {}
        released, unshared = {}, collections.defaultdict(list)
        for line, text in enumerate(trace.lines, 1):
            word, _, rest = text.partition(" ")
            if word == "thread":
                self.threads.append(rest)
            elif word in EVENTS:
                thread, _, rest = rest.partition(" ")
                own = self.of_thread[thread]
                sources = []
                if not own and thread in self.forks:
                    sources.append(self.forks[thread])
                if word == "fork":
                    self.threads.append(rest)
                    self.forks[rest] = line
                elif word == "join":
                    self.joins.setdefault(rest, line)
                    ended = self.of_thread.get(rest)
                    if ended or rest in self.forks:
                        sources.append(ended[-1] if ended else self.forks[rest])
                elif word in ("acquire", "share"):
                    sources += [released[rest]] if rest in released else []
                    if word == "acquire":
                        sources += unshared.pop(rest, [])
                elif word == "release":
                    released[rest] = line
                elif word == "unshare":
                    unshared[rest].append(line)
                own.append(line)
                self.events[line] = Event(line, thread, len(own), word, rest)
                sources = [each for each in sources if self.events[each].thread != thread]
                if sources:
                    self.before[line] = sources
        self.entries = collections.defaultdict(list)      # of each thread the events that something elsewhere comes before
        for line in self.before:
            self.entries[self.events[line].thread].append(line)

    def nth(self, thread, number):
        """The event of this number of a thread; none where it has not so many."""
        own = self.of_thread.get(thread, [])
        return own[number - 1] if 1 <= number <= len(own) else None

    def path(self, first, last):
        """The steps between threads, as pairs of lines, of a shortest way from an event to a later one; none where there is no way."""
        goal, came = self.events[first].thread, {}
        reached, turn = {self.events[last].thread: last}, [(self.events[last].thread, 0, last, None)]
        while turn:
            found = next((step for thread, _, upto, step in turn if thread == goal and upto >= first), False)
            if found is not False:
                steps = []
                while found:
                    steps.append(found)
                    found = came[found]
                return steps
            following = {}
            for thread, above, upto, step in turn:
                lines = self.entries[thread]
                for line in lines[bisect.bisect_right(lines, above):bisect.bisect_right(lines, upto)]:
                    for source in self.before[line]:
                        came[source, line] = step
                        there = self.events[source].thread
                        if source > following.get(there, (0, None))[0]:
                            following[there] = (source, (source, line))
            turn = []
            for thread, (source, step) in following.items():
                if source > reached.get(thread, 0):
                    turn.append((thread, reached.get(thread, 0), source, step))
                    reached[thread] = source
        return None

    def held(self, line):
        """The lines between which the thread of this event holds a lock around it: (taken, given back or none)."""
        thread, open_locks = self.events[line].thread, {}
        own = self.of_thread[thread]
        at = bisect.bisect_left(own, line)
        for each in own[:at]:
            event = self.events[each]
            if event.word in ("acquire", "share"):
                open_locks.setdefault((event.word, event.rest), []).append(each)
            elif event.word in ("release", "unshare"):
                taken = open_locks.get(("acquire" if event.word == "release" else "share", event.rest))
                if taken:
                    taken.pop()
        for (word, lock), taken in open_locks.items():
            if taken:
                yield taken[0], self._given_back(own, at, "release" if word == "acquire" else "unshare", lock, len(taken))

    def _given_back(self, own, at, word, lock, depth):
        taking = "acquire" if word == "release" else "share"
        for each in own[at:]:
            event = self.events[each]
            if event.rest == lock and event.word in (word, taking):
                depth += 1 if event.word == taking else -1
                if depth == 0:
                    return each
        return None
