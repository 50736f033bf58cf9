#!/usr/bin/env python3
"""Tests of compare_printed.py: its model gives the canonical texts of the tables in docs/GRAMMAR.md, and the comparison finds wrong answers."""
import os
import re
import sys
import unittest
from typing import Callable
from unittest import mock

sys.path.insert(0, os.path.dirname(os.path.abspath(__file__)))
import compare_printed

ROOT = os.path.dirname(os.path.dirname(os.path.abspath(__file__)))
# the kind of each reader in the tables
READERS = dict(zip(('parse', 'parse_year_month', 'parse_month_day', 'parse_time', 'parse_offset', 'parse_identifier', 'IsoDurationParser::parse'),
                   compare_printed.KINDS))


def tables() -> list[tuple[str, str, str]]:
    """The rows of the three tables of canonical texts: the reader, a text, and the canonical text of this text."""
    with open(os.path.join(ROOT, 'docs', 'GRAMMAR.md'), encoding='utf-8') as file:
        lines = file.read().partition('\n## The canonical form\n')[2].splitlines()
    rows, reader = [], None
    for line in lines:
        cells = [re.findall('`([^`]*)`', cell) for cell in line.strip('|').split('|')]
        if line.endswith('| is printed as |'):
            reader = cells[0][0] if cells[0] else ''
        elif not line.startswith('|'):
            reader = None
        elif reader is not None and not line.startswith('|---'):
            name = reader or cells[0][0]
            rows += [(name, text, cells[-1][0]) for text in cells[-2]]
    return rows


# texts that the model must refuse, by the words of their readers
REFUSED = {
    'parse': ('2021-02-29', '-000000-01-01', '2020-1101', '2020-01-01T24', '2020-01-01T00:00+24', '2020-01-01+01', '2020-01-01[!x=y]', '2020-01-01[a/]',
              '2020-01-01[u-ca=a][!u-ca=b]', '2020-01-01[x=y][cet]', '2020-01-01T00:00:60.', '2020-01-01 00:0000', '2020-01-01[+01:00:00]'),
    'year-month': ('2020-13', '2020--11', '-00000001', '2020-11-01'),
    'month-day': ('02-30', '1-01', '-11-07', '11-31', '00-01'),
    'time': ('1200', '2021-12', '121430', 'T', '12:', 'T12:30.5', '12:0000'),
    'offset': ('Z', '+24', '+01:60', '+01:00:60', '+0100:00', '+01.5'),
    'zone': ('', '+01:00:00', 'a//b', '5', 'a=b', 'Z\xfcrich'),
    'duration': ('P', 'PT', 'P1YT', 'P1D1Y', 'PT1.5H1M', 'P1.5Y', 'P4294967296Y', 'PT18446744073709551616H', 'P1Y4294967296Y', 'T1H'),
}


class Model(unittest.TestCase):
    def test_tables(self):
        """The model gives the canonical text of each row."""
        rows = tables()
        self.assertEqual({name for name, _, _ in rows}, set(READERS))
        self.assertGreaterEqual(len(rows), 26)
        for name, text, canonical in rows:
            self.assertEqual(READERS[name].model(text), canonical, text)
            self.assertEqual(READERS[name].model(canonical), canonical)

    def test_refused_texts(self):
        for kind in compare_printed.KINDS:
            for text in REFUSED[kind.word]:
                self.assertIsNone(kind.model(text), text)

    def test_fractions(self):
        """Digits after the eighteenth are zeros, and there are at most 255 digits."""
        for count, zeros in ((18, 0), (19, 1), (255, 237), (256, 237), (300, 237)):
            self.assertEqual(compare_printed.duration_text(f'pt1,{"7" * count}h'), f'PT1.{"7" * 18}{"0" * zeros}H')


class Comparison(unittest.TestCase):
    def run_with(self, wrong: Callable[[str, str, str], str], texts: list[str]) -> int:
        """Compares month-days with a program that answers as the model says, except for the changes by `wrong`."""
        kind = next(kind for kind in compare_printed.KINDS if kind.word == 'month-day')

        def answers(_: str, lines: list[str]) -> list[str]:
            found = []
            for line in lines:
                word, _, text = line.partition(' ')
                canonical = kind.model(text)
                if word == 'strict-month-day' and canonical and canonical[3:5] == '00':
                    answer = 'error MonthDay was not valid.'
                else:
                    answer = f'ok {canonical}' if canonical else 'error wrong'
                found.append(wrong(word, text, answer))
            return found

        with mock.patch.object(compare_printed, 'answers', answers):
            return compare_printed.compared('', kind, texts)

    def test_right_answers(self):
        self.assertEqual(self.run_with(lambda word, text, answer: answer, ['1107', '02-30', '11-00', 'x']), 2)

    def test_wrong_answers(self):
        """Each wrong answer to one line is a difference: the lines of a text, of a refused text, and of a canonical text."""
        for word in ('month-day', 'canonical-month-day', 'strict-month-day'):
            for text, answer in (('1107', 'ok 11-08'), ('1107', 'error wrong'), ('02-30', 'ok 02-30'), ('02-30', 'error other'), ('11-07', 'ok 11-08'),
                                 ('11-07', 'error wrong'), ('11-00', 'ok 11-00')):
                if word == 'strict-month-day' and text in ('1107', '02-30') or word != 'strict-month-day' and text == '11-00':
                    continue
                with self.assertRaises(compare_printed.Difference, msg=f'{word} {text} {answer}'):
                    self.run_with(lambda found, line, right: answer if (found, line) == (word, text) else right, ['1107', '02-30', '1100'])


if __name__ == '__main__':
    unittest.main()
