"""Groups of races: one for each two places of the source, kind, methods and formula."""
import collections
import dataclasses
import json
import re
import shlex
import typing

import formulas
from traces import Call, Place

FORMAT = "rdreport 1"


class Side(typing.NamedTuple):
    """What one call of a group is: its method, its place if the trace tells it."""
    method: str
    place: typing.Optional[Place]


@dataclasses.dataclass
class Race:
    """One race: two calls, the formula as the report tells it, and its parts with their values, if the methods are known."""
    trace: str
    later: Call
    earlier: Call
    formula: str
    parts: typing.Optional[list] = None

    @property
    def kind(self):
        return self.formula.split(" ", 1)[0]

    def fields(self):
        parts = [{"formula": text, "here": here, "holds": holds} for text, here, holds in self.parts or []]
        return {"trace": self.trace, "later": self.later.fields(), "earlier": self.earlier.fields(), "formula": self.formula, "parts": parts}

    @classmethod
    def of_fields(cls, fields):
        parts = [(part["formula"], part["here"], part["holds"]) for part in fields["parts"]]
        return cls(fields["trace"], Call.of_fields(fields["later"]), Call.of_fields(fields["earlier"]), fields["formula"], parts or None)


@dataclasses.dataclass
class Group:
    """The races of one kind, formula and pair of sides: how many, in which traces, on which objects, and the first."""
    kind: str
    formula: str
    sides: typing.Tuple[Side, Side]
    first: Race
    reports: int = 0
    traces: collections.Counter = dataclasses.field(default_factory=collections.Counter)
    objects: collections.Counter = dataclasses.field(default_factory=collections.Counter)

    def add(self, other):
        self.reports += other.reports
        self.traces.update(other.traces)
        self.objects.update(other.objects)

    def fields(self):
        sides = [{"method": side.method, "place": side.place._asdict() if side.place else None} for side in self.sides]
        return {"reports": self.reports, "kind": self.kind, "formula": self.formula, "sides": sides, "traces": dict(self.traces),
                "objects": dict(self.objects.most_common()), "first": self.first.fields()}

    @classmethod
    def of_fields(cls, fields):
        sides = tuple(Side(side["method"], Place(**side["place"]) if side["place"] else None) for side in fields["sides"])
        return cls(fields["kind"], fields["formula"], sides, Race.of_fields(fields["first"]), fields["reports"],
                   collections.Counter(fields["traces"]), collections.Counter(fields["objects"]))

    @property
    def title(self):
        """The kind and the two methods, in the order of the formula."""
        kind, first, second, _ = self.formula.split(" ", 3)
        return f"{kind} {first} races with {second}"


@dataclasses.dataclass
class Run:
    """What became of one trace: rd2's status, how many races, the ending as `check-json` tells it."""
    trace: str
    status: int
    races: int
    ending: typing.Dict[str, typing.Any]

    def told(self):
        """The ending in words: of a trace that was read to its end, or why it wasn't."""
        ending = self.ending
        return ending["ending"] if ending["ending"] != "end" else f"replay {ending['replay']}, verdict {ending['verdict']}"

    @property
    def ended(self):
        return self.ending["ending"] == "end"

    @property
    def refused_line(self):
        """The line of the trace that was refused."""
        found = re.match(r"refused line (\d+) ", self.ending["ending"])
        return int(found[1]) if found else None


class Grouping:
    """The groups of one trace or of several."""

    def __init__(self):
        self.groups, self.runs = {}, []

    def add_race(self, trace, told, place_of, kinds):
        """Counts a race of `check-json`; the first of its group is kept whole."""
        later, earlier = told["later"], told["earlier"]
        words = [side["call"].split(" ", 3) for side in (later, earlier)]
        sides = [Side(word[2], place_of(side["line"])) for word, side in zip(words, (later, earlier))]
        ordered = tuple(sorted(sides, key=lambda side: (side.place or Place("", 0), side.method)))
        key = told["formula"], ordered
        group = self.groups.get(key)
        if group is None:
            race = Race(trace, Call.of(later), Call.of(earlier), told["formula"])
            race.later.place, race.earlier.place = (side.place for side in sides)
            race.parts = formulas.failed(race.formula, race.later, race.earlier, kinds)
            group = self.groups[key] = Group(race.kind, race.formula, ordered, race)
        group.reports += 1
        group.traces[trace] += 1
        group.objects[words[0][1]] += 1

    def add_group(self, group):
        key = group.formula, group.sides
        if key in self.groups:
            self.groups[key].add(group)
        else:
            self.groups[key] = group

    def merge(self, other):
        for group in other.groups.values():
            self.add_group(group)
        self.runs += other.runs

    def listed(self):
        """Most reports first; those of equally many as their first races stand."""
        numbers = {run.trace: number for number, run in enumerate(self.runs)}

        def rank(group):
            first = group.first
            return -group.reports, numbers.get(first.trace, -1), first.later.line, first.earlier.line
        return sorted(self.groups.values(), key=rank)

    def text(self):
        """As JSON, which `read` reads again."""
        return json.dumps({"format": FORMAT, "traces": [dataclasses.asdict(run) for run in self.runs],
                           "groups": [group.fields() for group in self.listed()]}, indent=1) + "\n"

    @classmethod
    def read(cls, text):
        told, grouping = json.loads(text), cls()
        if told.get("format") != FORMAT:
            raise ValueError(f"no groups of {FORMAT}")
        grouping.runs = [Run(**run) for run in told["traces"]]
        for group in told["groups"]:
            grouping.add_group(Group.of_fields(group))
        return grouping


class Known:
    """Groups that are known: a line each, KIND METHOD PLACE METHOD PLACE, in which a `*` stands for anything.

    A place is FILE:LINE, or FILE:TEXT with the line of the source itself, which stays where lines move; `-` is none.
    """

    def __init__(self, path=None):
        self.rows = []
        if path:
            with open(path, encoding="utf-8") as file:
                for number, line in enumerate(file, 1):
                    words = shlex.split(line, comments=True)
                    if len(words) not in (0, 5):
                        raise ValueError(f"{path} line {number}: not KIND METHOD PLACE METHOD PLACE")
                    if words:
                        self.rows.append(words)

    def __contains__(self, asked):
        group, source = asked
        one, other = ([side.method, self.spellings(side, source)] for side in group.sides)
        return any(like(kind, [group.kind]) and any(
            like(method, [left[0]]) and like(place, left[1]) and like(second, [right[0]]) and like(there, right[1])
            for left, right in ((one, other), (other, one))) for kind, method, place, second, there in self.rows)

    @staticmethod
    def spellings(side, source):
        if not side.place:
            return ["-"]
        text = source.line(side.place)
        return [str(side.place)] + ([f"{side.place.file}:{text}"] if text else [])

    @classmethod
    def row(cls, group, source):
        """The line that makes a group known."""
        words = [group.kind]
        for side in group.sides:
            words += [side.method, cls.spellings(side, source)[-1]]
        return " ".join(shlex.quote(word) for word in words)


def like(pattern, words):
    expression = ".*".join(re.escape(part) for part in pattern.split("*"))
    return any(re.fullmatch(expression, word) for word in words)
