#!/usr/bin/env python3
"""man_pages.py [--check]: makes man/ixdtf_check.1 and man/ixdtf_lines.1 from docs/PROGRAM.md.

A page has the section of its program up to the heading "What is proved". A table becomes a list of its rows.

The tool prints nothing. With --check, it writes no file either. It prints each page that is not what it would write, and the exit status is 1
if there is one."""
import os
import re
import sys

TOP = os.path.dirname(os.path.dirname(os.path.abspath(__file__)))
SOURCE = 'docs/PROGRAM.md'
# what each program does, for the line NAME of its page
NAMES = {
    'ixdtf_check': 'reports the lines of files that are not valid dates, times or durations',
    'ixdtf_lines': 'answers each line of its input with the values of its date, time or duration',
}
# the paragraph or the table that begins a section of a page, by its first words
SECTIONS = {'| Option |': 'OPTIONS', '| Word |': 'WORDS', 'The exit status is': 'EXIT STATUS'}


def read(path):
    """The text of a file of the repository."""
    with open(os.path.join(TOP, path), encoding='utf-8') as file:
        return file.read()


def parts(program):
    """The headings, paragraphs, lists, tables and blocks of the section of a program, each with its lines."""
    page = read(SOURCE)
    section = re.search(rf'^## `{program}`\n(.*?)^### What is proved$', page, re.M | re.S)[1]
    line = re.search(r'^A \*line\* .*$', page, re.M)[0]
    found = re.findall(r'^```text\n.*?^```$|(?:^[^\n]+\n)+', f'{section}\n{line}\n', re.M | re.S)
    return [it.rstrip('\n').split('\n') for it in found]


def plain(text):
    """The text, with each character escaped that has a meaning for `man`."""
    return text.replace('\\', '\\e').replace('-', '\\-').replace('`', '\\(ga').replace('^', '\\(ha').replace("'", '\\(aq')


def guarded(line):
    """The line, protected so that `man` does not read it as a command."""
    return '\\&' + line if line.startswith('.') else line


def inline(text):
    """A text of the document, with its code in bold and its defined words in italics."""
    pieces = re.split(r'(`[^`]*`|\*[^*\s][^*]*\*)', text)
    marked = []
    for piece in pieces:
        if piece.startswith('`'):
            marked.append('\\fB' + plain(piece[1:-1]) + '\\fR')
        elif piece.startswith('*') and len(piece) > 1:
            marked.append('\\fI' + plain(piece[1:-1]) + '\\fR')
        else:
            marked.append(plain(piece) if piece else '')
    return guarded(''.join(marked))


def block(lines):
    """A block of text, as it is."""
    return ['.PP', '.nf', '.RS 4', *(guarded(plain(it)) for it in lines), '.RE', '.fi']


def items(lines):
    """A list, each item with a bullet."""
    return [it for line in lines for it in ('.IP \\(bu 2', inline(line.removeprefix('- ')))]


def rows(lines):
    """A table as a list. Each item is the first cell of a row, with the other cells below it."""
    cells = [[cell.strip() for cell in line.strip('|').split(' | ')] for line in lines]
    heads, _, *others = cells
    written = []
    for first, *rest in others:
        written += ['.TP', inline(first)]
        if len(rest) == 1:
            written.append(inline(rest[0]))
        else:
            written += [it for pair in zip(heads[1:], rest) for it in (inline(f'{pair[0]}: {pair[1]}'), '.br')][:-1]
    return written


def written(part):
    """The lines of the page for one part of the document."""
    first = part[0]
    if first.startswith('### '):
        return [f'.SH {first.removeprefix("### ").upper()}']
    head = [f'.SH {section}' for words, section in SECTIONS.items() if first.startswith(words)]
    if first.startswith('```'):
        return block(part[1:-1])
    if first.startswith('- '):
        return items(part)
    if first.startswith('|'):
        return head + rows(part)
    return (head or ['.PP']) + [inline(' '.join(part))]


def page(program):
    """The page of a program."""
    version = re.search(r'^version = "([^"]*)"', read(f'rust/{program}/Cargo.toml'), re.M)[1]
    found = parts(program)
    synopsis = next((it for it in found if it[0] == '```text' and it[1].startswith(program)), None)
    if synopsis:
        found.remove(synopsis)
    lines = [f'.\\" Made from {SOURCE} by tools/man_pages.py.', f'.TH {program.upper()} 1 "" "{program} {version}"', '.SH NAME',
             f'{program} \\- {NAMES[program]}', '.SH SYNOPSIS', *(block(synopsis[1:-1])[1:] if synopsis else [f'.B {program}']), '.SH DESCRIPTION']
    # The meaning of the word "line" comes first.
    for part in [found[-1], *found[:-1]]:
        lines += written(part)
    return '\n'.join(lines) + '\n'


def main(words):
    """Writes the pages, or checks them. Returns the exit status."""
    wrong = []
    for program in NAMES:
        path = f'man/{program}.1'
        if words != ['--check']:
            os.makedirs(os.path.join(TOP, 'man'), exist_ok=True)
            with open(os.path.join(TOP, path), 'w', encoding='utf-8') as file:
                file.write(page(program))
        elif not os.path.exists(os.path.join(TOP, path)) or read(path) != page(program):
            wrong.append(path)
    for path in wrong:
        print(f'{path} is not what tools/man_pages.py makes from {SOURCE}')
    return 1 if wrong else 0


if __name__ == '__main__':
    if sys.argv[1:] not in ([], ['--check']):
        sys.exit(__doc__)
    sys.exit(main(sys.argv[1:]))
