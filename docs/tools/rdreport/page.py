"""A page of one file, which needs no network: the groups, and of each one's first race a picture, its lines and its sources."""
import json
import subprocess
from html import escape

import checking
import formulas
import outputs
import pictures
from traces import Order, Trace

AROUND = 4                                        # lines of the trace around an event that a click shows
BESIDE = 2                                        # lines of the source around a place
PICTURES = 100                                    # of so many groups the first race is pictured

STYLE = """
:root { color-scheme: light dark; }
body { margin: 0 auto; max-width: 78rem; padding: 1rem 1.25rem 4rem; background: var(--paper); color: var(--ink);
  font: 15px/1.5 system-ui, -apple-system, "Segoe UI", "DejaVu Sans", sans-serif; }
p { overflow-wrap: anywhere; }
h1 { font-size: 1.4rem; margin: .4rem 0; }
h2 { font-size: 1.05rem; margin: 0; display: inline; overflow-wrap: anywhere; }
code, pre { font: 12.5px/1.55 ui-monospace, SFMono-Regular, Menlo, Consolas, "DejaVu Sans Mono", monospace; }
code { overflow-wrap: anywhere; }
pre { margin: .3rem 0; padding: .5rem .7rem; overflow-x: auto; border: 1px solid var(--line); border-radius: 6px; }
details.group { border: 1px solid var(--line); border-radius: 8px; margin: .8rem 0; }
details.group > summary { padding: .6rem .8rem; cursor: pointer; }
details.group > div { padding: 0 .8rem .8rem; }
summary:focus-visible, .scroll:focus-visible { outline: 2px solid var(--known); outline-offset: 1px; border-radius: 6px; }
.count { display: inline-block; min-width: 3.2rem; font-weight: 700; color: var(--race); }
.places, .faint { color: var(--faint); }
.calls { display: grid; grid-template-columns: repeat(auto-fit, minmax(min(100%, 24rem), 1fr)); gap: .8rem; }
.scroll { overflow-x: auto; border: 1px solid var(--line); border-radius: 6px; margin-top: .6rem; }
.part { white-space: nowrap; border-radius: 4px; padding: .05rem .25rem; }
.part.no { background: var(--later); }
.part.yes { background: var(--earlier); }
pre b { background: var(--earlier); font-weight: inherit; }
.lines:empty { display: none; }
"""

SCRIPT = """
"use strict";
const lines = JSON.parse(document.getElementById("lines").textContent);
function show(group, event) {
  const below = group.querySelector(".lines"), known = lines[group.dataset.trace] || {}, at = Number(event.dataset.line);
  for (const each of group.querySelectorAll(".event.picked")) each.classList.remove("picked");
  event.classList.add("picked");
  below.textContent = "";
  for (let line = at - AROUND; line <= at + AROUND; line++) if (known[line] !== undefined) {
    const row = document.createElement(line === at ? "b" : "span");
    row.textContent = String(line).padStart(7) + "  " + known[line];
    below.append(row, "\\n");
  }
}
function reveal(group) {
  const inside = group.querySelector(".scroll"), left = inside.getBoundingClientRect().left - inside.scrollLeft;
  const calls = [...group.querySelectorAll(".call-earlier, .call-later")].map(each => each.getBoundingClientRect());
  inside.scrollLeft = Math.max(0, Math.min(...calls.map(each => each.left)) - left - 60);
}
for (const group of document.querySelectorAll(".pictured")) {
  reveal(group);
  group.addEventListener("toggle", () => reveal(group));
  const events = [...group.querySelectorAll(".event")];
  for (const [index, event] of events.entries()) {
    event.addEventListener("click", () => { event.focus(); show(group, event); });
    event.addEventListener("keydown", key => {
      const to = { ArrowDown: index + 1, ArrowUp: index - 1, Home: 0, End: events.length - 1 }[key.key];
      if (to !== undefined && events[to]) { events[to].focus(); show(group, events[to]); }
      else if (key.key === "Enter" || key.key === " ") show(group, event);
      else if (key.key === "Escape") { event.classList.remove("picked"); group.querySelector(".lines").textContent = ""; }
      else return;
      key.preventDefault();
    });
  }
}
""".replace("AROUND", str(AROUND))


class Traces:
    """The traces that are pictured, each read once, and those of their lines that the page keeps."""

    def __init__(self):
        self.read, self.kept = {}, {}

    def order(self, path):
        if path not in self.read:
            try:
                trace = Trace(path)
                self.read = {path: (trace, Order(trace))}         # one at a time, for they may be large
            except OSError:
                self.read = {path: None}
        return self.read[path]

    def keep(self, made, trace):
        kept = self.kept.setdefault(trace.path, {})
        for line in made.lines:
            for each in range(max(line - AROUND, 1), min(line + AROUND, len(trace.lines) - 1) + 1):
                kept[each] = trace.line(each)


def view_of(race, traces):
    """What the picture of a race shows; none where the trace can't be read any more, or is another one."""
    read = traces.order(race.trace)
    if not read:
        return None
    trace, order = read
    for call in (race.later, race.earlier):
        if call.line not in order.events or trace.line(call.line) != f"call {call}":
            return None
    made = pictures.view(order, race.later.line, race.earlier.line, race.later.known())
    traces.keep(made, trace)
    return made


def title(made):
    order = made.order
    one, other = (f"line {line}, {pictures.shown(order.events[line])} of {order.events[line].thread}," for line in (made.earlier, made.later))
    return f"{one} and {other} {'are ordered' if made.ordered else 'race'}"


def told(made):
    """What the picture says, in words."""
    order, there = made.order, made.order.events[made.earlier].thread
    if made.ordered:
        yield f"Line {made.earlier} comes before line {made.later}, so they don't race."
    elif made.known_last:
        count = order.events[made.known_last].number
        events = outputs.plural(count, "event")
        yield (f"Line {made.later} knows {events} of {there}, the last in line {made.known_last}, "
               f"and line {made.earlier} is event {order.events[made.earlier].number}: nothing orders the two.")
    else:
        yield f"Line {made.later} knows no event of {there}, so nothing orders it with line {made.earlier}."
    if made.path:
        yield "The way from line {} to line {}: {}.".format(
            made.known_last, made.later, ", ".join(f"{source} to {line} ({by(order, source, line)})" for source, line in made.path[:pictures.STEPS]))
        if len(made.path) > pictures.STEPS:
            yield f"And {len(made.path) - pictures.STEPS} steps more."


def by(order, source, line):
    """What orders two events of different threads."""
    one, other = order.events[source], order.events[line]
    if other.word == "join" and one.thread == other.rest:
        return f"join {other.rest}"
    if one.word == "fork" and one.rest == other.thread:
        return f"fork {one.rest}"
    return f"lock {other.rest}"


def formula(group):
    race = group.first
    yield f"<p><code>{escape(race.formula)}</code><br>"
    if any(holds is not None and text != there for text, there, holds in race.parts or []):
        def part(each):
            if each[2] is None:
                return escape(each[0])
            mark, word = ("yes", "true") if each[2] else ("no", "false")
            return f'<span class="part {mark}"><code>{escape(each[1])}</code> is {word}</span>'
        yield f"here {formulas.joined(race.parts, part)}"
    yield "</p>"


def call(word, side, sources):
    """One of the two calls, with its source if it can be read."""
    yield f"<div><b>{word}</b> line {side.line} <code>{escape(str(side))}</code>"
    if side.place:
        yield f'<br><code class="places">{escape(str(side.place))}</code>'
        lines = sources.lines(side.place.file)
        at = side.place.line
        if 1 <= at <= len(lines):
            rows = []
            for number in range(max(at - BESIDE, 1), min(at + BESIDE, len(lines)) + 1):
                row = escape(f"{number:5}  {lines[number - 1]}")
                rows.append(f"<b>{row}</b>" if number == at else row)
            yield "<pre>" + "\n".join(rows) + "</pre>"
    yield "</div>"


def section(group, number, grouping, sources, traces):
    """A group, the first one open."""
    race = group.first
    places = " and ".join(str(side.place) for side in group.sides if side.place)
    made = view_of(race, traces) if number <= PICTURES else None
    yield f'<details class="group{" pictured" if made else ""}" data-trace="{escape(race.trace, quote=True)}"{" open" if number == 1 else ""}>'
    yield f'<summary><span class="count">{group.reports}</span> <h2>{escape(group.title)}</h2> <code class="places">{escape(places)}</code></summary><div>'
    yield f'<p class="faint">{outputs.plural(group.reports, "report")}{outputs.among(group, grouping)}; the first in {escape(race.trace)}.'
    yield f" Objects: {escape(', '.join(f'{name} ({count})' for name, count in group.objects.most_common(5)))}{' ..' if len(group.objects) > 5 else ''}</p>"
    yield '<div class="calls">'
    yield from call("race", race.later, sources)
    yield from call("with", race.earlier, sources)
    yield "</div>"
    yield from formula(group)
    if made:
        yield from pictured(made)
    yield "</div></details>"


def pictured(made):
    yield f"<p>{escape(' '.join(told(made)))}</p>"
    yield f'<div class="scroll">{pictures.svg(made, title(made), alone=False)}</div><pre class="lines" aria-live="polite"></pre>'


def pair(rd2, path, lines):
    """The view of two calls that are asked for, by rd2's own word whether they are ordered where it takes the trace."""
    earlier, later = sorted(lines)
    trace = Trace(path)
    order = Order(trace)
    for line in (earlier, later):
        if line not in order.events or order.events[line].word != "call":
            raise checking.Trouble(f"{path} line {line} is not the line of a call")
    said = subprocess.run([checking.program(rd2), "adjacent", path, str(earlier), str(later)], capture_output=True, text=True).stdout.split()
    way = order.path(earlier, later)
    made = pictures.View(order, later, earlier, known_to(order, later), way or [], earlier if way is not None else None, way is not None)
    if not made.ordered:
        made = pictures.view(order, later, earlier, made.knows)
    if said[:1] == ["ordered"]:
        numbers = [int(word) for word in said[1:]]
        made.ordered, made.known_last = True, earlier
        made.path = [step for step in zip(numbers, numbers[1:]) if order.events[step[0]].thread != order.events[step[1]].thread]
    made.lines = sorted(pictures.chosen(made))
    return trace, made


def known_to(order, last):
    """How many events of each thread are this one or come before it."""
    counts, turn = {}, [last]
    while turn:
        line = turn.pop()
        event = order.events[line]
        had = counts.get(event.thread, 0)
        if event.number <= had:
            continue
        counts[event.thread] = event.number
        own = order.of_thread[event.thread]
        for each in own[had:event.number]:
            turn += order.before.get(each, ())
    return counts


def picture(groups, pair):
    """The picture of the first race, or of the pair, as a file of its own."""
    if pair:
        made = pair[1]
    else:
        made = view_of(groups[0].first, Traces()) if groups else None
    if made is None:
        raise checking.Trouble("no race to picture")
    return pictures.svg(made, title(made), alone=True)


def page(grouping, groups, known, sources, pair):
    """The whole page."""
    traces, parts = Traces(), []
    reports = sum(group.reports for group in groups)
    heading = f"{outputs.plural(reports, 'report')} in {outputs.plural(len(groups), 'group')}"
    parts.append(f"<h1>{heading}</h1>")
    if known:
        parts.append(f"<p>And {outputs.plural(sum(group.reports for group in known), 'report')} in {outputs.plural(len(known), 'group')} that are known.</p>")
    parts.append("<p>" + "<br>".join(escape(line) for line in outputs.endings(grouping)) + "</p>")
    parts.append('<p class="faint">Blue is what the later call knows: what comes before it. Red and dotted is what the earlier call\'s thread did besides. '
                 "A click on an event, or Enter, gives its lines; the arrow keys go from one to the next.</p>")
    if pair:
        trace, made = pair
        traces.keep(made, trace)
        parts.append(f'<section class="pictured" data-trace="{escape(trace.path, quote=True)}"><h2>{escape(title(made))}</h2>')
        parts += pictured(made)
        parts.append("</section>")
    for number, group in enumerate(groups, 1):
        parts += section(group, number, grouping, sources, traces)
    if len(groups) > PICTURES:
        parts.append(f"<p>The first races of the groups behind the {PICTURES}th have no picture.</p>")
    kept = json.dumps(traces.kept).replace("<", "\\u003c")
    return (f'<!doctype html>\n<html lang="en"><head><meta charset="utf-8"><meta name="viewport" content="width=device-width, initial-scale=1">'
            f'<meta http-equiv="Content-Security-Policy" content="default-src \'none\'; style-src \'unsafe-inline\'; script-src \'unsafe-inline\'">'
            f"<title>{escape(heading)}</title><style>{pictures.themes(':root')}{STYLE}{pictures.STYLE}</style></head><body>\n"
            + "\n".join(parts) + f'\n<script type="application/json" id="lines">{kept}</script><script>{SCRIPT}</script></body></html>\n')
