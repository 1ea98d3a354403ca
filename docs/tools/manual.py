#!/usr/bin/env python3
"""Writes docs/commands.md as a manual page, to be read by man or mandoc.

    manual.py > rd2.1
    man ./rd2.1
"""
import pathlib, re, sys

PAGE = pathlib.Path(__file__).resolve().parents[1] / 'commands.md'
HEAD = r'''.TH RD2 1 2026-12-02 rd2 "User Commands"
.SH NAME
rd2 \- finds calls that race in the record of a run
.SH SYNOPSIS
'''


def plain(text):
    """Text as roff reads it."""
    return text.replace('\\', r'\e').replace('-', r'\-').replace("'", r'\(aq')


def inline(text):
    """A line's code and emphasis as fonts; of a link its text alone."""
    text = re.sub(r'\[([^\]]+)\]\([^)]+\)', r'\1', text)
    made = ''
    for part in re.split(r'(`[^`]+`|\*\*.+?\*\*|\*[^*\s][^*]*\*)', text):
        if part.startswith('`'):
            made += r'\fB' + plain(part[1:-1]) + r'\fR'
        elif part.startswith('**'):
            made += r'\fB' + plain(re.sub('`', '', part[2:-2])) + r'\fR'
        elif part.startswith('*'):
            made += r'\fI' + plain(part[1:-1]) + r'\fR'
        else:
            made += plain(part)
    return made


def put(text):
    """A line of the page, which begins no request by itself."""
    print(r'\&' + text if text[:1] in ("'", '.') else text)


def rows(table):
    """A table as a list: its first column in front of the others; of more than two columns those after the second have their heads."""
    head, *body = [[cell.strip() for cell in re.split(r'(?<!\\)\|', line)[1:-1]] for line in table if not line.startswith('|---')]
    for cells in body:
        print('.TP')
        put(inline(cells[0]) if cells[0] else r'\&')
        others = [inline(cells[1])] + [f'{inline(name)}: {inline(cell)}' for name, cell in zip(head[2:], cells[2:]) if cell]
        put('; '.join(text for text in others if text) or r'\&')


def code(lines):
    print('.PP\n.RS 4\n.nf')
    for line in lines:
        put(plain(line))
    print('.fi\n.RE')


def paragraphs(text):
    """The parts of a page: each a sort and its lines, without the empty lines around them."""
    for part in re.split(r'\n(?=#)|\n\n', text):
        lines = part.rstrip().split('\n')
        while lines and not lines[0].strip():
            lines.pop(0)
        if not lines:
            continue
        sort = 'heading' if lines[0].startswith('#') else 'table' if lines[0].startswith('|') else 'list' if lines[0].startswith('- ') else None
        inner = lines[0].startswith('      ')
        yield sort or ('code' if inner or lines[0].startswith('    ') else 'text'), [line[6 if inner else 4:] if not sort and line.startswith('    ') else line for line in lines]


def body(text):
    before = 'heading'
    for sort, lines in paragraphs(text):
        if sort == 'heading':
            print('.SH "' + plain(lines[0].lstrip('# ').upper()) + '"')
        elif sort == 'table':
            rows(lines)
        elif sort == 'code':
            code(lines)
        elif sort == 'list':
            for item in re.split(r'\n(?=- )', '\n'.join(lines)):
                print('.IP \\(bu 2')
                put(inline(' '.join(item[2:].split())))
        else:
            if before != 'heading':
                print('.PP')
            put(inline(' '.join(lines)))
        before = sort


def main():
    title, text = PAGE.read_text(encoding='utf-8').split('\n', 1)
    sys.stdout.write(HEAD)
    for number, usage in enumerate(re.findall(r'(?m)^\| `(rd2 [^`]+)` \|', text)):
        if number:
            print('.br')
        put(inline(f'`{usage}`'))
    print('.SH DESCRIPTION')
    body(text)
    print('.SH SEE ALSO')
    put(inline('The pages of the folder `docs`: `first-hour.md`, `recording.md`, `specifications.md`, `errors.md`, `formats.md`.'))


main()
