#!/usr/bin/env python3
"""Tests of compare_records.py: its model gives the canonical texts of the tables in docs/GRAMMAR.md, and the comparison finds wrong libraries.

The environment variable IXDTF_LIBRARY names the folder of the library to test with. Without it, c/build builds the plain library."""
import contextlib
import io
import os
import re
import subprocess
import sys
import tempfile
import unittest
from unittest import mock

TOOLS = os.path.dirname(os.path.abspath(__file__))
sys.path.insert(0, TOOLS)
import compare_records
import test_compare_printed

# A difference between the canonical text and the text that is printed.
TEXT = '8-bit: (the length is|code unit) '
# The names of the faults in wrong_library.h, by the kind of record with which the comparison must find them, and by a pattern of what it prints.
FAULTS = {
    ('parse', TEXT): ('month', 'year', '29 February', 'hour', 'minute', 'second', 'second 60', '18 digits', '254 digits', 'a fraction that is too great',
                      'a fraction of zeros', 'hour of an offset', 'minute of an offset', 'second of an offset', 'form of an offset', 'sign of an offset',
                      'offset without a time', 'critical zone', 'hour of a zone', 'minute of a zone', 'form of a zone', 'long name',
                      'name that is not a Name', 'calendar', 'calendar that is not a Value'),
    ('parse', 'code unit '): ('another text',),
    ('parse', 'the length is '): ('a length that is too great', 'no length'),
    ('parse', 'the printer changed a code unit'): ('a code unit after the text', 'the beginning of the text', 'a code unit without a text'),
    ('parse', 'the printer returns '): ('no text that fills the array', 'no text', 'a short array is accepted', 'a short array has no text',
                                        'an array without elements is too short'),
    ('parse', 'the count is '): ('a count that is too small', 'a text that is too long', 'a count without a text'),
    ('parse', '8-bit: the reader: [a-z_.]+ is '): ('digits that are read', 'a fraction that is read', 'a second without seconds', 'a year that is read',
                                          'a critical zone that is read', 'a place'),
    ('parse', 'the reader: the slice '): ('a name that is copied', 'a name that is read', 'a calendar that is read'),
    ('parse', 'the reader returns '): ('an error',),
    ('parse', 'the reader of RFC 3339 returns '): ('RFC 3339',),
    ('parse', 'the reader of RFC 9557 returns '): ('RFC 9557',),
    ('year-month', TEXT): ('another text', 'year', 'month', 'calendar', 'long name'),
    ('month-day', TEXT): ('another text', 'month', 'day', 'critical zone'),
    ('month-day', 'the strict reader returns '): ('day 00',),
    ('month-day', 'the strict reader refuses the text, and changes the record'): ('a change by a reader that refuses',),
    ('time', TEXT): ('another text', 'hour', 'minute', 'second', 'second 60', '18 digits', 'sign of an offset', 'form of an offset', 'form of a zone'),
    ('time', 'the strict reader returns '): ('the strict reader of times',),
    ('time', '16-bit: the reader: time.minute is '): ('a minute of 16-bit text',),
    ('offset', TEXT): ('another text', 'hour of an offset', 'minute of an offset', 'second of an offset', 'form of an offset', 'sign of an offset',
                       '254 digits'),
    ('zone', TEXT): ('another text', 'hour of a zone', 'form of a zone', 'long name', 'name that is not a Name'),
    ('zone', 'the reader of names returns '): ('names',),
    ('duration', TEXT): ('another text', 'form of a time', 'date of zeros', 'last unit', '64 bits', '18 digits', 'a fraction of zeros'),
    ('duration', 'the reader: weeks is '): ('weeks that are read',),
}
# the same for a library with printers of 16-bit text
WIDE_FAULTS = {
    ('zone', '16-bit: code unit '): ('another 16-bit text',),
    ('year-month', '16-bit: the length is '): ('a length of 16-bit text',),
}
RECORDS = 20000


class Library(unittest.TestCase):
    @classmethod
    def setUpClass(cls):
        """Compiles the program with a library, and with a wrong library."""
        cls.folder = tempfile.TemporaryDirectory()
        cls.addClassCleanup(cls.folder.cleanup)
        library = os.environ.get('IXDTF_LIBRARY') or compare_records.built(cls.folder.name)
        wrong = os.path.join(cls.folder.name, 'wrong')
        os.mkdir(wrong)
        with open(os.path.join(library, 'ixdtf.h'), encoding='utf-8') as file:
            cls.faults = FAULTS | (WIDE_FAULTS if 'ixdtf16_print(' in file.read() else {})
        cls.right = compare_records.compiled(library, cls.folder.name)
        cls.wrong = compare_records.compiled(library, wrong, '-include', os.path.join(TOOLS, 'made_records', 'wrong_library.h'))

    def compare(self, program: str, kind: str, count: int = RECORDS) -> int:
        """Compares records of a kind, and drops what is printed."""
        with contextlib.redirect_stdout(io.StringIO()):
            return compare_records.compare_kind(program, kind, count, 1, [])

    def test_tables(self):
        """The model gives the canonical text of each row of GRAMMAR, also for the canonical text itself."""
        for kind in test_compare_printed.compare_printed.KINDS:
            rows = [(text, canonical) for name, text, canonical in test_compare_printed.tables() if test_compare_printed.READERS[name] == kind]
            self.assertGreater(len(rows), 1)
            texts = [text for text, _ in rows] + [canonical for _, canonical in rows]
            found = subprocess.run([self.right, kind.word], input='\n'.join(texts) + '\n', stdout=subprocess.PIPE, text=True, check=True)
            self.assertEqual(found.stdout.splitlines(), [canonical for _, canonical in rows] * 2)

    def test_no_difference(self):
        """There is no difference without a fault. The second program has the wrong library, but no fault is chosen."""
        for kind in compare_records.KINDS:
            for program in (self.right, self.wrong):
                self.compare(program, kind, 2000)

    def test_faults(self):
        """Each fault is a difference."""
        for (kind, words), faults in self.faults.items():
            for fault in faults:
                with self.subTest(kind=kind, fault=fault), mock.patch.dict(os.environ, {'FAULT': fault}):
                    with self.assertRaises(compare_records.Difference) as found:
                        self.compare(self.wrong, kind)
                    self.assertRegex(str(found.exception), words)
                    self.assertIn(f'\n{kind}: ', str(found.exception))

    def test_each_fault_is_tried(self):
        """The names of the faults in the header are the names of the faults that are tried."""
        with open(os.path.join(TOOLS, 'made_records', 'wrong_library.h'), encoding='utf-8') as file:
            names = re.findall(r'(?:has_fault|clamp)\("([^"]*)"', file.read())
        self.assertEqual({fault for faults in (FAULTS | WIDE_FAULTS).values() for fault in faults}, set(names))

    def lines(self, kind: str, count: int, seed: int) -> list[str]:
        """The lines for an oracle: a line with each canonical text, and a line with the fields of its record. Two lines with the counts come last."""
        ran = subprocess.run([self.right, kind, str(count), str(seed), 'lines'], stdout=subprocess.PIPE, text=True, check=True)
        return ran.stdout.splitlines()

    def test_same_records(self):
        """A seed gives the same records in each run, and another seed gives other records."""
        for kind in compare_records.KINDS:
            self.assertEqual(self.lines(kind, 100, 1), self.lines(kind, 100, 1))
            self.assertNotEqual(self.lines(kind, 100, 1), self.lines(kind, 100, 2))

    def test_other_model(self):
        """For the model of compare_printed.py, each canonical text is its own canonical text."""
        for kind in test_compare_printed.compare_printed.KINDS:
            texts = [line.partition(' ')[2] for line in self.lines(kind.word, 2000, 1)[:-2:2]]
            self.assertGreater(len(texts), 1500)
            for text in texts:
                self.assertEqual(kind.model(text), text)

    def test_program_that_crashes(self):
        with self.assertRaisesRegex(compare_records.Difference, 'exit status'):
            self.compare('false', 'parse')

    def test_wrong_oracle(self):
        """A program that answers each line with the same line is an oracle that is wrong."""
        with self.assertRaisesRegex(compare_records.Difference, "cat: 'x-zone "):
            compare_records.compare_kind(self.right, 'zone', 10, 1, [compare_records.Oracle('cat', False)])


class Oracles(unittest.TestCase):
    LINES = [b'x-month-day 11-00\n', b'x-month-day 11-07[u-ca=hebrew]\n']
    FIELDS = [b'ok date=0,11,0', b'ok date=0,11,7 calendar=hebrew']

    def compare(self, is_strict: bool, found: list[bytes]) -> None:
        with mock.patch.object(compare_records, 'answers', lambda program, lines: found):
            compare_records.compare_answers(compare_records.Oracle('oracle', is_strict), self.LINES, self.FIELDS)

    def test_right_answers(self):
        self.compare(False, self.FIELDS)
        self.compare(True, [b'error InvalidMonthDay', self.FIELDS[1]])

    def test_wrong_answers(self):
        for is_strict, first, second in ((False, b'error InvalidMonthDay', self.FIELDS[1]), (True, *self.FIELDS), (False, self.FIELDS[0], b'ok date=0,11,7'),
                                         (True, b'error InvalidMonthDay', b'ok date=0,11,8 calendar=hebrew')):
            with self.assertRaises(compare_records.Difference):
                self.compare(is_strict, [first, second])

    def test_answers(self):
        """An answer ends before a bar. Each line must have an answer."""
        with tempfile.TemporaryDirectory() as folder:
            program = os.path.join(folder, 'oracle')
            for code, found in (('cat', [line.rstrip(b'\n') for line in self.LINES]), ('sed "s/$/ | id ok/"', [line.rstrip(b'\n') for line in self.LINES]),
                                ('head -n 1', None)):
                with open(program, 'w', encoding='utf-8') as file:
                    file.write(f'#!/bin/sh\n{code}\n')
                os.chmod(program, 0o700)
                if found is None:
                    with self.assertRaises(compare_records.Difference):
                        compare_records.answers(program, self.LINES)
                else:
                    self.assertEqual(compare_records.answers(program, self.LINES), found)


if __name__ == '__main__':
    unittest.main()
