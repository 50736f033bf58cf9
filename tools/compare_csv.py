#!/usr/bin/env python3
"""compare_csv.py [COUNT [SEED [PROGRAM]]]: makes COUNT lines (200,000 if you do not give it), and compares the text that `ixdtf_check --csv`
reads in each of them with the text that the module `csv` of Python reads.

A line that a pattern from RFC 4180, section 2, does not match must be refused because of its quotes. `csv` either refuses it too (with
strict=True), or it has a quote in a field that is not in quotes, which `csv` accepts. Any other line must be read. Then the text of the program is
the field of `csv`, or neither of them has the field.

The program shows the text of a field in the report about it, so the tool makes only texts that are refused and short. PROGRAM is the path of the
program. Without it, cargo builds the program in rust/ixdtf_check."""
import collections
import csv
import os
import random
import re
import subprocess
import sys
import tempfile

TOP = os.path.dirname(os.path.dirname(os.path.abspath(__file__)))
# records of RFC 4180, section 2, whose fields may have any byte
FIELD = '(?:"(?:[^"]|"")*"|[^",]*)'
RECORD = re.compile(f'{FIELD}(?:,{FIELD})*', re.S)
BROKEN = {'a quote is not closed in this line', 'text after a closing quote', 'a quote in a field without quotes'}
PIECES = ['"', '"', '"', '""', ',', ',', 'a', 'bc', ' ', 'x y', '2020', '-', 'é']


def made_field(made):
    """A field: without quotes, in quotes as RFC 4180 has it, or any pieces."""
    kind = made.random()
    text = ''.join(made.choices(PIECES, k=made.randrange(6)))
    if kind < 0.4:
        return text.replace('"', '').replace(',', '')
    if kind < 0.8:
        return '"' + text.replace('"', '""') + '"'
    return text


def made_line(made):
    """A line that is a record, or nearly one."""
    return ','.join(made_field(made) for _ in range(made.randint(1, 4)))


def wanted(line, number):
    """The field that `csv` reads, None if there are too few fields, or 'broken'. The pattern decides which lines are records."""
    try:
        rows = list(csv.reader([line], strict=True))
    except csv.Error:
        assert not RECORD.fullmatch(line), f'csv refuses a record: {line!r}'
        return 'broken'
    if not RECORD.fullmatch(line):
        return 'broken'
    fields = rows[0] if rows and rows[0] else ['']
    return fields[number - 1] if number <= len(fields) else None


def reports_of(program, path, number):
    """The report about each line: its message and, if there is one, its text."""
    ran = subprocess.run([program, '--csv', '--field', str(number), '--kind', 'duration', path], capture_output=True, text=True, encoding='utf-8')
    found = {}
    rows = ran.stdout.split('\n')
    for index, row in enumerate(rows):
        head = re.fullmatch(re.escape(path) + r':(\d+):(\d+): (.*)', row)
        if head:
            found[int(head[1])] = (head[3], rows[index + 1], int(head[2]))
    return found


def main(words):
    """Compares, and prints the counts. Returns the exit status."""
    count = int(words[0]) if words else 200_000
    made = random.Random(int(words[1]) if len(words) > 1 else 1)
    if len(words) > 2:
        program = words[2]
    else:
        folder = os.path.join(TOP, 'rust', 'ixdtf_check')
        subprocess.run(['cargo', 'build', '--quiet', '--offline', '--release'], cwd=folder, check=True)
        program = os.path.join(os.environ.get('CARGO_TARGET_DIR', os.path.join(folder, 'target')), 'release', 'ixdtf_check')
    counts = collections.Counter()
    number = 2
    lines = [made_line(made) for _ in range(count)]
    with tempfile.TemporaryDirectory() as folder:
        path = os.path.join(folder, 'f')
        with open(path, 'w', encoding='utf-8', newline='') as file:
            file.write(''.join(it + '\n' for it in lines))
        reports = reports_of(program, path, number)
    for place, line in enumerate(lines, 1):
        # No text that is made here is a duration, so each line has a report.
        message, text, column = reports[place]
        expected = wanted(line, number)
        kind = 'broken' if expected == 'broken' else 'no such field' if expected is None else 'text'
        if kind == 'broken':
            same = message in BROKEN
        elif kind == 'no such field':
            same = message == 'no such field' and column == len(line.encode()) + 1
        else:
            same = message not in BROKEN and message != 'no such field' and text == expected
        counts[kind] += 1
        if not same:
            counts['different'] += 1
            if counts['different'] <= 10:
                print(f'line {line!r}: wanted {expected!r}, but the report is {message!r} at {column} with {text!r}')
    print(', '.join(f'{kind}: {number}' for kind, number in sorted(counts.items())))
    return 1 if counts['different'] else 0


if __name__ == '__main__':
    if len(sys.argv) > 4 or sys.argv[1:2] in (['-h'], ['--help']):
        sys.exit(__doc__)
    sys.exit(main(sys.argv[1:]))
