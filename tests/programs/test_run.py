#!/usr/bin/env python3
"""Tests of run.py: it sees programs that are wrong. Here, `ixdtf_lines` is a program that repeats its input, and `ixdtf_check` is a
script of the test."""
import contextlib
import io
import os
import sys
import tempfile
import unittest

import run

REPEATED = '== A line is repeated\n$ ixdtf_lines\nstdin\n|one\nstdout\n|one\n'
SILENT = 'exit 0'


class Runs(unittest.TestCase):
    """Runs of run.py on a file of cases."""

    def run_cases(self, cases: str, script: str = SILENT, names: tuple = ()) -> tuple:
        """Runs the cases. `script` is what the program ixdtf_check does. Returns the status and what is written."""
        with tempfile.TemporaryDirectory() as folder:
            with open(os.path.join(folder, 'made.cases'), 'w', encoding='utf-8') as file:
                file.write(cases)
            program = os.path.join(folder, 'check')
            with open(program, 'w', encoding='utf-8') as file:
                file.write(f'#!/bin/sh\n{script}\n')
            os.chmod(program, 0o755)
            written = io.StringIO()
            with contextlib.redirect_stdout(written), contextlib.redirect_stderr(written):
                status = run.main(['--check', program, '--lines', '/bin/cat', '--cases', folder, *names])
        return status, written.getvalue()

    def assert_seen(self, case: str, script: str, report: str) -> None:
        """Asserts that the case fails with this report."""
        status, written = self.run_cases(f'== A title\n$ ixdtf_check\n{case}', script)
        self.assertIn(report, written)
        self.assertTrue(written.endswith('\n0 passed, 1 failed\n'), written)
        self.assertEqual(status, 1)

    def test_cases_that_pass(self) -> None:
        self.assertEqual(self.run_cases(REPEATED), (0, '1 passed, 0 failed\n'))

    def test_cases_are_chosen_by_their_names(self) -> None:
        both = REPEATED + '== Another\n$ ixdtf_check\nstdout\n|x\n'
        self.assertEqual(self.run_cases(both, names=('made: A line',)), (0, '1 passed, 0 failed\n'))
        self.assertEqual(self.run_cases(both)[0], 1)
        self.assertEqual(self.run_cases(both, names=('nothing',))[0], 2)

    def test_each_output_and_the_status_are_compared(self) -> None:
        self.assert_seen('stdout\n|x\n', 'echo y', 'stdout expected:\n|x\nstdout found:\n|y\n')
        self.assert_seen('stdout\n|x\n', 'printf x', '|x<no newline>\n')
        self.assert_seen('', 'printf "\\033\\377"', '|<1B><FF><no newline>\n')
        self.assert_seen('', 'echo y >&2', 'stderr found:\n|y\n')
        self.assert_seen('stdout\n|x\n', 'echo x >&2', 'stdout expected:\n|x\n')
        self.assert_seen('status 1\n', SILENT, 'status expected: 1, found: 0')

    def test_marks_stand_for_bytes(self) -> None:
        text = '|<EF BB BF>a<CR>\n|<0 * 3><NUL>\n|<repeat 2>\n|<N>\n|<end>\n|b<no newline>\n'
        script = 'printf "\\357\\273\\277a\\r\\n000\\000\\n1\\n2\\nb"'
        self.assertEqual(self.run_cases(f'== A title\n$ ixdtf_check\nstdout\n{text}', script)[0], 0)

    def test_any_stands_for_bytes_of_a_line(self) -> None:
        case = '== A title\n$ ixdtf_check\nstdout\n|a<any>c\n'
        self.assertEqual(self.run_cases(case, 'echo abbc')[0], 0)
        self.assertEqual(self.run_cases(case, 'echo ac')[0], 1)
        self.assertEqual(self.run_cases(case, 'echo ab; echo c')[0], 1)

    def test_lines_are_read_as_json(self) -> None:
        good = '{"file":"f","line":1,"column":1,"end":1,"reason":"r","text":"t"}'
        self.assertEqual(self.run_cases(f'== A title\n$ ixdtf_check\nstdout json\n|{good}\n', f"echo '{good}'")[0], 0)
        for line in ('{', '[]', good.replace('"line":1', '"line":"1"'), good.replace('reason', 'why'), good.replace('"t"', '"<TAB>"')):
            script = "printf '%s\\n' '" + line.replace('<TAB>', '\t') + "'"
            self.assert_seen(f'stdout json\n|{line}\n', script, 'stdout: ')

    def test_an_answer_that_comes_too_late_is_seen(self) -> None:
        case = 'stdin\n|one\n|<pause>\n|two\nstdout\n|one\n|<pause>\n|two\n'
        self.assertEqual(self.run_cases(f'== A title\n$ ixdtf_lines\n{case}')[0], 0)
        run.processes.LONGEST_PAUSE, kept = 1, run.processes.LONGEST_PAUSE
        self.addCleanup(setattr, run.processes, 'LONGEST_PAUSE', kept)
        self.assert_seen(case, 'all=$(cat); echo "$all"', 'the program has not written before pause 1')

    def test_writes_are_counted(self) -> None:
        self.assert_seen('stdout in 1 writes\n|x\n|y\n', 'echo x; echo y', 'at most 1 writes, found: 2')

    def test_each_command_of_a_case_is_run(self) -> None:
        status, written = self.run_cases('== A title\n$ ixdtf_lines\n$ ixdtf_check -x\nstdin\n|x\nstdout\n|x\n')
        self.assertEqual(status, 1)
        self.assertIn('$ ixdtf_check -x\n', written)
        self.assertNotIn('$ ixdtf_lines\n', written)

    def test_an_open_case_is_named(self) -> None:
        status, written = self.run_cases('== A title\n$ ixdtf_check\nstdout\n|x\nopen soon\n')
        self.assertEqual((status, written), (0, 'OPEN made: A title: soon\n0 passed, 0 failed\n'))

    def test_wrong_files_of_cases_are_refused(self) -> None:
        for case in ('$ ixdtf_check\n', '== A title\n', '== A title\n$ other\n', '== A title\n$ ixdtf_check\nstdout\n|<none>\n',
                     '== A title\n$ ixdtf_check\nstatus 3\n', '== A title\n$ ixdtf_check\nstdin fast\n',
                     '== A title\n$ ixdtf_check\nstdout\n|<N>\n', REPEATED + REPEATED,
                     '== A title\n$ ixdtf_check\nstdin\n|a\nstdout\n|<pause>\n'):
            status, written = self.run_cases(case)
            self.assertEqual(status, 2, written)


if __name__ == '__main__':
    sys.exit(unittest.main())
