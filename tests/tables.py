"""tables.py: reads the tables of tests/. It is a module: run.py, run_other.py and tools of tools/ import it.

A table has comments, then a line with the names of its columns, and then one row on each line. A row can be about several readers, both profiles
and both widths. A `Case` is one of them: one text for one reader, one profile and one width."""
import os
import re
from typing import Iterator, NamedTuple

FOLDER = os.path.dirname(os.path.abspath(__file__))
# the readers that have two profiles
PROFILED = ('month-day', 'time', 'duration')
PROFILES = {'any': (False, True), 'crate': (False,), 'strict': (True,)}
WIDTHS = {'8': (8,), '16': (16,), 'both': (8, 16)}
ESCAPE = re.compile(r'\\(?:x([0-9a-f]{2})|u([0-9a-f]{4})|(.))|([^\\])')
COMPARED = ('fields', 'canonical', 'instant', 'error', 'at', 'part', 'reason', 'message', 'hint', 'calls')
LETTERS = {'t': '\t', 'n': '\n', 'r': '\r', '\\': '\\'}


class Row:
    """A row of a table: the name of the file, the number of the line, and the cells by the names of their columns."""

    def __init__(self, file: str, line: int, cells: dict):
        self.file, self.line, self.cells = file, line, cells

    def __str__(self) -> str:
        return f'tests/{self.file}:{self.line}'

    def __getitem__(self, column: str) -> str:
        return self.cells[column]


class Case(NamedTuple):
    """One text of a row, with the word of its reader. `handler` is empty for a reader without a handler."""
    row: Row
    reader: str
    is_strict: bool
    width: int
    units: tuple
    handler: str = ''

    @property
    def word(self) -> str:
        """The word of ixdtf_lines for the reader and its profile."""
        return f'strict-{self.reader}' if self.is_strict else self.reader

    def __str__(self) -> str:
        handler = f' with the handler {self.handler}' if self.handler else ''
        return f'{self.row}: {self.word}{handler} of {self.width}-bit `{self.row["text"]}`'


def units_of(text: str) -> tuple:
    """The code units of a text as a table writes it."""
    return tuple(int(byte or unit, 16) if byte or unit else ord(LETTERS[letter] if letter else plain)
                 for byte, unit, letter, plain in ESCAPE.findall(text))


def rows(file: str) -> Iterator[Row]:
    """The rows of a table."""
    with open(os.path.join(FOLDER, file), encoding='ascii', newline='\n') as lines:
        columns = None
        for number, line in enumerate(lines, 1):
            if line.startswith('#'):
                continue
            cells = line.rstrip('\n').split('\t')
            if columns is None:
                columns = cells
            elif len(cells) != len(columns):
                raise SystemExit(f'tests/{file}:{number}: expected {len(columns)} cells, found {len(cells)}')
            else:
                yield Row(file, number, dict(zip(columns, cells)))


def cases_of(row: Row) -> Iterator[Case]:
    """The cases of a row."""
    units = units_of(row['text'])
    for reader in row['readers'].split(','):
        profiles = PROFILES[row.cells.get('profile', 'crate')]
        for is_strict in profiles if reader in PROFILED else (False,):
            for width in WIDTHS[row['bits']]:
                for handler in row.cells.get('handlers', '').split(','):
                    yield Case(row, reader, is_strict, width, units, handler)


def cases(*files: str) -> list:
    """The cases of these tables."""
    return [case for file in files for row in rows(file) for case in cases_of(row)]


def error_texts() -> dict:
    """The text of each error, by its name."""
    return {row['error']: row['text'] for row in rows('errors.tsv')}


def differences(case, answer):
    """The columns in which an answer differs from the row of a case, each with what was expected and what was found."""
    expected = {it: case.row.cells[it] for it in COMPARED if case.row.cells.get(it)}
    if case.handler:
        expected['calls'] = case.row['calls']
    found = {'error': 'no error', **answer} if 'error' in expected else answer
    for column, wanted in expected.items():
        if column in found and found[column] != wanted:
            yield column, wanted, found[column]
    if 'error' in answer and 'error' not in expected:
        yield 'error', 'no error', answer['error']
