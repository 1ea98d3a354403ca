#!/usr/bin/env python3
"""Draws the graph of crates, without those of the tests, from crates.txt and the tables of docs/architecture.md.

    draw_crates.py [--check]

Writes docs/pictures/crates.svg; with --check it ends with 1 where that picture is another. A crate stands above all that it stands on. A line leads to a
crate that no other line leads to on the way. Its colour is that of its table.
"""
import pathlib, re, sys

TOP = pathlib.Path(__file__).resolve().parents[2]
PICTURE = TOP / 'docs' / 'pictures' / 'crates.svg'
COLOURS = ['#e8e8e8', '#cfe6cf', '#f6e3b4', '#cfe0f5', '#f5cfcf', '#e2d3f0', '#e9d8c4', '#fbd9b5', '#c9ecec', '#dddddd']
WIDTH, HEIGHT, GAP, RISE = 118, 22, 10, 58


def subjects():
    """The tables of crates, each a heading with its crates; the last one is of the tests."""
    found = {}
    for line in (TOP / 'docs' / 'architecture.md').read_text().split('\n'):
        heading = re.match(r'### (.*)', line)
        row = re.match(r'\| (rd2|rd_\w+) \|', line)
        if heading:
            name = heading[1]
        elif row:
            found.setdefault(name, []).append(row[1])
    return dict(list(found.items())[:-1])


def below(crates):
    """For each crate those that it stands on directly, without those that another of these stands on too."""
    rows = (line.split('#')[0].partition(':') for line in (TOP / 'crates.txt').read_text().split('\n'))
    named = {name.strip(): [word for word in words.split() if word in crates] for name, _, words in rows if name.strip() in crates}
    deep = {}

    def all_below(name):
        if name not in deep:
            deep[name] = set(named[name]).union(*map(all_below, named[name]))
        return deep[name]
    return {name: [one for one in ones if not any(one in all_below(other) for other in ones)] for name, ones in named.items()}


def levels(edges):
    level = {}

    def of(name):
        if name not in level:
            level[name] = 1 + max(map(of, edges[name]), default=-1)
        return level[name]
    for name in edges:
        of(name)
    return level


def laid_out(edges, level):
    """The middle of each crate and of each line at each level, so that lines cross few crates."""
    above, rows = {name: [] for name in edges}, [[] for _ in range(max(level.values()) + 1)]
    links = []                                          # between neighbours, the upper first
    for name in edges:
        rows[level[name]].append(name)
        for low in edges[name]:
            chain = [name] + [(name, low, at) for at in range(level[name] - 1, level[low], -1)] + [low]
            for at, point in enumerate(chain[1:-1], 1):
                rows[level[name] - at].append(point)
            links += list(zip(chain, chain[1:]))
    near = {point: [] for row in rows for point in row}
    for high, low in links:
        near[high].append(low)
        near[low].append(high)
    width = {point: WIDTH if isinstance(point, str) else 6 for point in near}
    middle = {}
    for row in rows:
        for at, point in enumerate(row):
            middle[point] = at * (WIDTH + GAP)
    for turn in range(60):
        for row in rows if turn % 2 else reversed(rows):
            wanted = {point: sum(middle[other] for other in near[point]) / len(near[point]) if near[point] else middle[point] for point in row}
            if turn < 50:
                row.sort(key=lambda point: (wanted[point], str(point)))
            place(row, wanted, width, middle)
    left = min(middle[point] - width[point] / 2 for point in middle)
    return {point: round(x - left, 1) for point, x in middle.items()}, links


def place(row, wanted, width, middle):
    """Puts the points of a row near where they are wanted, in their order, none over another: groups that meet are moved as one."""
    groups = []
    for point in row:
        groups.append([[point], wanted[point]])
        while len(groups) > 1 and reach(groups[-2], width)[1] + GAP > reach(groups[-1], width)[0]:
            points, x = groups.pop()
            both = groups[-1][0] + points
            total = (groups[-1][1] * len(groups[-1][0]) + x * len(points)) / len(both)
            groups[-1] = [both, total]
    for points, x in groups:
        at = reach([points, x], width)[0]
        for point in points:
            middle[point] = at + width[point] / 2
            at += width[point] + GAP


def reach(group, width):
    whole = sum(width[point] + GAP for point in group[0]) - GAP
    return group[1] - whole / 2, group[1] + whole / 2


def drawing():
    tables = subjects()
    crates = [name for names in tables.values() for name in names]
    edges = below(crates)
    level = levels(edges)
    x, links = laid_out(edges, level)
    top = max(level.values())
    across = max(x.values()) + WIDTH / 2 + 20
    down = (top + 1) * RISE + 30 + 22 * ((len(tables) + 4) // 5)

    def y(point):
        return 20 + (top - (level[point] if isinstance(point, str) else point[2])) * RISE
    out = [f'<svg xmlns="http://www.w3.org/2000/svg" viewBox="0 0 {across:.0f} {down:.0f}" font-family="sans-serif" font-size="11">',
           f'<rect width="{across:.0f}" height="{down:.0f}" fill="white"/>']
    for high, low in links:
        begin = y(high) + (HEIGHT if isinstance(high, str) else HEIGHT / 2)
        end = y(low) + (0 if isinstance(low, str) else HEIGHT / 2)
        half = (begin + end) / 2
        out.append(f'<path d="M{x[high] + 10} {begin} C{x[high] + 10} {half} {x[low] + 10} {half} {x[low] + 10} {end}" fill="none" stroke="#999"/>')
    for colour, names in zip(COLOURS, tables.values()):
        for name in names:
            out.append(f'<rect x="{x[name] + 10 - WIDTH / 2}" y="{y(name)}" width="{WIDTH}" height="{HEIGHT}" rx="4" fill="{colour}" stroke="#555"/>')
            out.append(f'<text x="{x[name] + 10}" y="{y(name) + 15}" text-anchor="middle">{name}</text>')
    for at, (colour, name) in enumerate(zip(COLOURS, tables)):
        left, high = 10 + at % 5 * 230, (top + 1) * RISE + 20 + 22 * (at // 5)
        out.append(f'<rect x="{left}" y="{high}" width="14" height="14" fill="{colour}" stroke="#555"/>')
        out.append(f'<text x="{left + 20}" y="{high + 11}">{name}</text>')
    return '\n'.join(out + ['</svg>', ''])


def main():
    if sys.argv[1:] == ['--check']:
        sys.exit(0 if PICTURE.is_file() and PICTURE.read_text() == drawing() else 'docs/pictures/crates.svg is another')
    PICTURE.write_text(drawing())


main()
