#!/usr/bin/env python3
"""run_other.py [--suite SUITE] [--reader READER] PROGRAM [ARGUMENT..]: says which texts of a standard another parser gets wrong.

PROGRAM reads texts from standard input, one on each line, in UTF-8. It writes one line for each text: a line that begins with `ok` if it accepts the text, and
one that begins with `error` if it refuses it.

    --suite SUITE    rfc3339, rfc9557 or temporal; without this option, it is rfc3339
    --reader READER  with --suite temporal, the part of the Temporal grammar, by the word of tests/README.md; without this option, it is parse

It prints each text that PROGRAM gets wrong, with its row and with the source of the right answer, and then the counts. Texts that are not UTF-8, or have a
newline, are left out. The exit status is 1 if a text is wrong, and 2 if PROGRAM fails or its answers are not understood."""
import argparse
import subprocess
import sys

import tables


# the readers that have a suite of their own
EXACT = ('rfc3339', 'rfc9557')


def bytes_of(row):
    """The bytes of the text of a row. None if the row is not about 8-bit text, or if the text is no line of UTF-8."""
    if row['bits'] == '16':
        return None
    text = bytes(tables.units_of(row['text']))
    try:
        return None if '\n' in text.decode() else text
    except UnicodeDecodeError:
        return None


def chosen(suite, reader):
    """The rows of a suite for a reader, each with its text and whether the text is accepted."""
    for file in ('accepted.tsv', 'refused.tsv'):
        for row in tables.rows(file):
            text = bytes_of(row)
            belongs = suite in row['suite'].split(',') and reader in row['readers'].split(',') and (suite == 'temporal') == (reader not in EXACT)
            if belongs and row['profile'] != 'crate' and text is not None:
                yield row, text, file == 'accepted.tsv'


def answers(command, texts):
    """Whether the program accepts each text. Ends this program if an answer is missing or not understood."""
    try:
        run = subprocess.run(command, input=b''.join(text + b'\n' for text in texts), stdout=subprocess.PIPE)
    except OSError as why:
        sys.exit(f'run_other.py: {command[0]}: {why.strerror}')
    words = [line[:2] for line in run.stdout.split(b'\n')[:-1]]
    if run.returncode or len(words) != len(texts) or not set(words) <= {b'ok', b'er'}:
        print(f'run_other.py: {command[0]} ended with status {run.returncode}, after {len(words)} of {len(texts)} answers', file=sys.stderr)
        sys.exit(2)
    return [word == b'ok' for word in words]


def main():
    parser = argparse.ArgumentParser(usage=__doc__, add_help=False)
    parser.add_argument('--suite', choices=('rfc3339', 'rfc9557', 'temporal'), default='rfc3339')
    parser.add_argument('--reader', default='parse')
    parser.add_argument('command', nargs=argparse.REMAINDER)
    options = parser.parse_args()
    if not options.command:
        parser.error('expected a program')
    reader = options.reader if options.suite == 'temporal' else options.suite
    rows = list(chosen(options.suite, reader))
    if not rows:
        parser.error(f'{options.suite} has no texts for {reader}')
    wrong = {True: 0, False: 0}
    for (row, _, is_accepted), accepts in zip(rows, answers(options.command, [text for _, text, _ in rows])):
        if accepts != is_accepted:
            wrong[accepts] += 1
            print(f'{row}: {"accepts" if accepts else "refuses"} `{row["text"]}` ({row["source"]})')
    of = f'temporal, {reader}' if options.suite == 'temporal' else options.suite
    print(f'{of}: {len(rows) - sum(wrong.values())} of {len(rows)} texts are right; '
          f'{wrong[True]} are accepted and {wrong[False]} are refused wrongly')
    return 1 if sum(wrong.values()) else 0


if __name__ == '__main__':
    sys.exit(main())
