#!/usr/bin/env python3
"""Tests of tests/run.py and tests/run_other.py: they find wrong answers, and say so if a program cannot be asked."""
import contextlib
import io
import os
import subprocess
import sys
import tempfile
import unittest
from unittest import mock

TESTS = os.path.join(os.path.dirname(os.path.dirname(os.path.abspath(__file__))), 'tests')
sys.path.insert(0, TESTS)
import run
import tables

ROWS = '''# a comment
suite\treaders\tprofile\tbits\ttext\terror\tat\tpart\treason\tmessage\thint\tsource
temporal\tparse\tany\tboth\t2020-13\tInvalidMonthRange\t{at}\t{part}\tmonth_range\t\tnone\tby hand
temporal\tmonth-day,duration\tany\t8\t\\xff\t{error}\t0\t\t\t\t\tby hand
'''


class Runner(unittest.TestCase):
    """Tests of tests/run.py with small tables."""

    def on(self, target, at='7', part='5..7', error='DateMonth'):
        """What run.py prints about a target, for a table with these cells."""
        with tempfile.TemporaryDirectory() as folder, open(os.path.join(folder, 'some.tsv'), 'w', encoding='ascii') as table:
            table.write(ROWS.format(at=at, part=part, error=error))
            table.flush()
            output = io.StringIO()
            with mock.patch.object(tables, 'FOLDER', folder), contextlib.redirect_stdout(output):
                with mock.patch.object(run, 'all_cases', lambda: tables.cases('some.tsv')):
                    failed = run.run_target(target)
            return failed, output.getvalue()

    def test_wrong_rows_are_shown(self):
        failed, shown = self.on('model')
        self.assertEqual((failed, shown[:5]), (2, 'tests'))
        self.assertIn('tests/some.tsv:4: strict-duration of 8-bit `\\xff`\n    expected error DateMonth\n    found    error DurationDisgnator\n', shown)
        self.assertTrue(shown.endswith('model: 4 passed, 2 failed\n'))

    def test_each_column_counts(self):
        self.assertEqual(self.on('model', error='DurationDisgnator')[0], 2)
        self.assertEqual(self.on('model', at='6')[0], 4)
        self.assertEqual(self.on('model', part='5..6')[0], 4)

    def answering(self, answers):
        """A program that writes these lines, and as many empty lines as it reads more."""
        return [sys.executable, '-c', f'import sys\nlines = sys.stdin.readlines()\nfor it in ({answers!r} + [""] * len(lines))[:len(lines)]: print(it)']

    def test_columns_that_are_not_told_do_not_count(self):
        cases = tables.cases('refused.tsv')[:2]
        answered = run.ask(self.answering([f'error={it.row["error"]}\tat={it.row["at"]}' for it in cases]), cases)
        self.assertEqual([list(tables.differences(case, answer)) for case, answer in answered], [[], []])

    def test_programs_that_fail(self):
        for command in ([sys.executable, '-c', 'import sys; sys.exit(3)'], [sys.executable, '-c', 'print("error=X")'], ['/there/is/no/program']):
            with self.assertRaises(run.Unasked):
                run.run_program(command, [b'one', b'two'])

    def test_targets(self):
        for arguments in ([], ['lines'], ['model=x'], ['other']):
            with contextlib.redirect_stderr(io.StringIO()):
                self.assertEqual(run.main(arguments), 2, arguments)

    def test_answers_of_lines(self):
        names = {text: name for name, text in tables.error_texts().items()}
        read = {('plain', b'error Parsing ended abruptly while parsing Date'): {'error': 'AbruptEnd Date'},
                ('plain', b'error MonthDay was not valid.'): {'error': 'InvalidMonthDay'},
                ('plain', b'ok date=2020,1,1'): {'fields': 'date=2020,1,1'},
                ('explain', b'error at=12 part=12..13 reason=hour_digit'): {'at': '12', 'part': '12..13', 'reason': 'hour_digit'},
                ('canonical', b'ok 2020-01-01'): {'canonical': '2020-01-01'},
                ('instant', b'ok seconds=-1 nanoseconds=5'): {'instant': '-1,5'}, ('instant', b'error no instant'): {'instant': 'none'}}
        for (column, answer), told in read.items():
            self.assertEqual(run.read_answer(column, answer, names), told)


class OtherParsers(unittest.TestCase):
    """Tests of tests/run_other.py."""

    def run_on(self, program, *options):
        """The output and the status for a program in Python that gets each line as `it`."""
        loop = f'import sys\nfor it in sys.stdin:\n    print({program})'
        command = [sys.executable, os.path.join(TESTS, 'run_other.py'), *options, sys.executable, '-c', loop]
        ran = subprocess.run(command, stdout=subprocess.PIPE, stderr=subprocess.PIPE, text=True)
        return ran.stdout, ran.returncode

    def test_counts(self):
        for options in ([], ['--suite', 'rfc9557'], ['--suite', 'temporal', '--reader', 'duration']):
            accepted, status = self.run_on('"ok"', *options)
            self.assertEqual((status, 'refuses' in accepted), (1, False), options)
            refused, status = self.run_on('"error"', *options)
            self.assertEqual((status, 'accepts' in refused), (1, False), options)
            wrong = len(accepted.splitlines()) + len(refused.splitlines()) - 2
            self.assertIn(f' of {wrong} texts are right', accepted)

    def test_answers_that_are_not_understood(self):
        self.assertEqual(self.run_on('"yes"')[1], 2)
        self.assertEqual(self.run_on('"ok", 1 / 0')[1], 2)
        self.assertEqual(self.run_on('"ok"', '--suite', 'temporal', '--reader', 'rfc3339')[1], 2)


if __name__ == '__main__':
    unittest.main()
