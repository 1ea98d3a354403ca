"""The picture of two calls: a column for each thread, with what stands around them and what the later one knows."""
import bisect
import dataclasses
import typing
from html import escape

from traces import Order

FEW = 26                                          # a trace of so many events is pictured whole
STEPS = 8                                         # of a longer path the middle is left out
WIDEST, CHARACTER, ROW, TOP, LEFT = 34, 7.3, 34, 44, 58


@dataclasses.dataclass
class View:
    """Two calls in a trace: what of it is pictured, the paths between their threads, whether the earlier comes before the later."""
    order: Order
    later: int
    earlier: int
    knows: typing.Dict[str, int]                  # how many events of each thread the later one knows
    path: typing.List[typing.Tuple[int, int]]     # by which steps between threads it knows the last of them of the earlier's thread
    known_last: typing.Optional[int]              # that one
    ordered: bool
    lines: typing.List[int] = dataclasses.field(default_factory=list)


def view(order, later, earlier, knows):
    """What a picture of these two calls shows."""
    there = order.events[earlier].thread
    ordered = knows.get(there, 0) >= order.events[earlier].number
    last = earlier if ordered else order.nth(there, knows.get(there, 0))
    path = order.path(last, later) or [] if last else []
    made = View(order, later, earlier, knows, path, last, ordered)
    made.lines = sorted(chosen(made))
    return made


def chosen(made):
    """The events that are pictured: all of a short trace, else the two calls, their forks, joins, locks, neighbours and paths."""
    order = made.order
    if len(order.events) <= FEW:
        return set(order.events)
    lines = {made.later, made.earlier}
    steps = made.path if len(made.path) <= STEPS else made.path[:STEPS // 2] + made.path[-STEPS // 2:]
    lines.update(line for step in steps for line in step)
    if made.known_last:
        lines.add(made.known_last)
    for call in (made.later, made.earlier):
        event = order.events[call]
        lines.update(each for each in (order.nth(event.thread, event.number + step) for step in (-2, -1, 1)) if each)
        for taken, given in order.held(call):
            lines.update(each for each in (taken, given) if each)
            lines.update(order.before.get(taken, ())[-1:])
        thread = event.thread
        for _ in range(3):
            if thread in order.forks:
                lines.add(order.forks[thread])
                thread = order.events[order.forks[thread]].thread
        if event.thread in order.joins:
            lines.add(order.joins[event.thread])
    return lines


def shown(event):
    """An event as its line has it, without its thread; a call without its word."""
    return event.rest if event.word == "call" else f"{event.word} {event.rest}"


def cut(text):
    return text if len(text) <= WIDEST else text[:WIDEST - 1] + "…"


COLOURS = {                                       # of a light page and of a dark one
    "ink": ("#1f2328", "#e6edf3"), "faint": ("#8c959f", "#848d97"), "paper": ("#ffffff", "#0d1117"), "line": ("#c4cbd3", "#3d444d"),
    "known": ("#0969da", "#4493f8"), "race": ("#c2281d", "#ff7b72"), "later": ("#ffe2df", "#4b1512"), "earlier": ("#fff1d6", "#44310a"),
}
STYLE = """
.picture text { paint-order: stroke; stroke: var(--paper); stroke-width: 4px; stroke-linejoin: round; font: 12px ui-monospace, SFMono-Regular, Menlo, Consolas, "DejaVu Sans Mono", monospace; fill: var(--ink); }
.picture .number, .picture .gap { fill: var(--faint); }
.picture .name { font-weight: 700; }
.picture .life, .picture .step { stroke: var(--line); stroke-width: 2; fill: none; }
.picture .life.known, .picture .step.known { stroke: var(--known); }
.picture .path { stroke: var(--known); stroke-width: 4; fill: none; }
.picture .life.unknown { stroke: var(--race); stroke-width: 2.5; stroke-dasharray: 2 5; fill: none; }
.picture .racing { stroke: var(--race); stroke-width: 2; stroke-dasharray: 6 4; fill: none; }
.picture circle { fill: var(--paper); stroke: var(--ink); stroke-width: 1.5; }
.picture .of-past circle { fill: var(--known); stroke: var(--known); }
.picture .call-later text, .picture .call-earlier text { stroke: none; }
.picture .call-later circle, .picture .call-earlier circle { fill: var(--race); stroke: var(--race); }
.picture .head { fill: var(--line); }
.picture .head.known { fill: var(--known); }
.picture .event rect { fill: transparent; stroke: transparent; }
.picture .event.call-later rect { fill: var(--later); stroke: var(--race); }
.picture .event.call-earlier rect { fill: var(--earlier); stroke: var(--race); }
.picture.ordered .call-later rect, .picture.ordered .call-earlier rect { stroke: var(--known); }
.picture.ordered .call-later circle, .picture.ordered .call-earlier circle { fill: var(--known); stroke: var(--known); }
.picture .event:focus { outline: none; }
.picture .event:focus rect, .picture .event.picked rect { stroke: var(--known); stroke-width: 2; }
"""


def variables(at):
    return " ".join(f"--{name}: {pair[at]};" for name, pair in COLOURS.items())


def themes(selector):
    """The colours, light and dark."""
    return f"{selector} {{ {variables(0)} }} @media (prefers-color-scheme: dark) {{ {selector} {{ {variables(1)} }} }}"


class Drawing:
    """Places of columns and rows, and the parts of the picture, those behind first."""

    def __init__(self, made):
        self.made, order = made, made.order
        self.rows, row, before = {}, 0, None
        self.gaps, every = [], list(order.events)
        for line in made.lines:
            between = bisect.bisect_left(every, line) - bisect.bisect_right(every, before) if before else 0
            if between:
                self.gaps.append((row, between))
                row += 1
            self.rows[line], before, row = row, line, row + 1
        self.height = TOP + row * ROW + 8
        threads = {order.events[line].thread for line in made.lines}
        threads |= {order.events[line].rest for line in made.lines if order.events[line].word == "fork"}
        self.threads = [thread for thread in order.threads if thread in threads]
        self.x, x = {}, LEFT + 14
        for thread in self.threads:
            labels = [thread] + [shown(order.events[line]) for line in made.lines if order.events[line].thread == thread]
            self.x[thread] = x
            x += 42 + CHARACTER * min(WIDEST, max(map(len, labels)))
        self.width = x

    def y(self, line):
        return TOP + self.rows[line] * ROW + ROW / 2

    def point(self, line):
        return self.x[self.made.order.events[line].thread], self.y(line)

    def lives(self):
        """Each thread's line: what the later call knows of it, and what it doesn't."""
        order, made = self.made.order, self.made
        for thread in self.threads:
            x, own = self.x[thread], [line for line in made.lines if order.events[line].thread == thread]
            yield f'<text class="name" x="{x - 5:.0f}" y="{TOP - 18}">{escape(cut(thread))}</text>'
            if not own:
                continue
            start, end = (TOP - 10 if thread not in order.forks else self.y(own[0])), self.y(own[-1])
            count = made.knows.get(thread, 0)
            known = [line for line in own if order.events[line].number <= count]
            middle = self.y(known[-1]) if known else start
            if known:
                yield f'<path class="life known" d="M{x:.0f} {start:.0f}V{middle:.0f}"/>'
            if end > middle:
                beside = thread == order.events[made.earlier].thread and not made.ordered
                yield f'<path class="life{" unknown" if beside else ""}" d="M{x:.0f} {middle:.0f}V{end:.0f}"/>'

    def steps(self):
        """The arrows: forks, joins, hand-overs of locks, and over them the path by which the later call knows the other thread."""
        made, order = self.made, self.made.order
        steps = [(source, line) for line in made.lines for source in order.before.get(line, ()) if source in self.rows]
        path = [step for step in made.path if all(line in self.rows for line in step)]
        for step in steps:
            if step not in path:
                event = order.events[step[1]]
                yield self.arrow(step, "step known" if event.number <= made.knows.get(event.thread, 0) else "step")
        for step in path:
            yield self.arrow(step, "path known")

    def arrow(self, step, marks):
        (x, y), (to_x, to_y) = map(self.point, step)
        side = 1 if to_x > x else -1
        tip = to_x - side * 6
        bend = min(abs(to_x - x) / 2, 60) * side
        return (f'<path class="{marks}" d="M{x:.0f} {y:.0f}C{x + bend:.0f} {y:.0f} {tip - bend:.0f} {to_y:.0f} {tip - 5 * side:.0f} {to_y:.0f}"/>'
                f'<path class="head{" known" if "known" in marks else ""}" d="M{tip:.0f} {to_y:.0f}l{-8 * side} -5v10z"/>')

    def race(self):
        """The line between two calls that nothing orders."""
        if self.made.ordered:
            return
        (x, y), (to_x, to_y) = self.point(self.made.earlier), self.point(self.made.later)
        yield f'<path class="racing" d="M{x:.0f} {y:.0f}L{to_x:.0f} {to_y:.0f}"/>'

    def events(self):
        """The dots with their lines, which can be picked."""
        made, order = self.made, self.made.order
        for line in made.lines:
            event = order.events[line]
            x, y = self.point(line)
            text = cut(shown(event))
            marks = [mark for mark, here in (("call-later", line == made.later), ("call-earlier", line == made.earlier),
                                             ("of-past", event.number <= made.knows.get(event.thread, 0))) if here]
            space = 19 if any(self.point(source)[0] > x for source in order.before.get(line, ()) if source in self.rows) else 10
            told = escape(f"line {line}: {event.thread} {shown(event)}", quote=True)
            yield (f'<g class="{" ".join(["event", *marks])}" data-line="{line}" tabindex="0" role="button" aria-label="{told}"><title>{told}</title>'
                   f'<rect x="{x - 9:.0f}" y="{y - 12:.0f}" width="{space + 12 + CHARACTER * len(text):.0f}" height="24" rx="5"/>'
                   f'<circle cx="{x:.0f}" cy="{y:.0f}" r="4.5"/><text x="{x + space:.0f}" y="{y + 4:.0f}">{escape(text)}</text></g>')

    def margin(self):
        """The numbers of the lines, and how many are left out between them."""
        for line in self.made.lines:
            yield f'<text class="number" x="{LEFT - 14}" y="{self.y(line) + 4:.0f}" text-anchor="end">{line}</text>'
        for row, between in self.gaps:
            yield f'<text class="gap" x="{LEFT - 14}" y="{TOP + row * ROW + ROW / 2 + 4:.0f}" text-anchor="end">⋮</text>'
            yield f'<text class="gap" x="{LEFT}" y="{TOP + row * ROW + ROW / 2 + 4:.0f}">{between} more</text>'


def svg(made, title, alone):
    """The picture; `alone` with its colours, as a file of its own."""
    drawing = Drawing(made)
    style = f"<style>{themes('svg')}{STYLE}</style><rect width=\"100%\" height=\"100%\" fill=\"var(--paper)\"/>" if alone else ""
    parts = [*drawing.race(), *drawing.lives(), *drawing.steps(), *drawing.margin(), *drawing.events()]
    size = f'width="{drawing.width:.0f}" height="{drawing.height:.0f}" viewBox="0 0 {drawing.width:.0f} {drawing.height:.0f}"'
    names = ' xmlns="http://www.w3.org/2000/svg"' if alone else ""
    return f'<svg{names} class="picture{" ordered" if made.ordered else ""}" {size} role="group" aria-label="{escape(title, quote=True)}">{style}{"".join(parts)}</svg>\n'
