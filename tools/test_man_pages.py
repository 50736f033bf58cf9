#!/usr/bin/env python3
"""Tests of man_pages.py: the pages in man/ are what it makes, and docs/PROGRAM.md has the options that `ixdtf_check --help` shows."""
import os
import re
import shutil
import subprocess
import unittest

import man_pages

MAINS = ['crates/ixdtf_check/src/main.rt', 'rust/ixdtf_check/src/main.rs']


def options_of_usage(path):
    """The options of the usage in a main file, each without its value."""
    usage = re.search(r'const USAGE: &str = "\\\n(.*?)";', man_pages.read(path), re.S)[1]
    lines = [it.replace('\\x20', ' ').replace('\\n\\', '') for it in usage.split('\n')]
    return sorted(option for it in lines if it.startswith('  -') for option in re.findall(r'(?<![\w-])--?[a-zA-Z-]*', it[2:].split('  ')[0]))


def options_of_table():
    """The options of the table in PROGRAM, each without its value."""
    table = next(it for it in man_pages.parts('ixdtf_check') if it[0].startswith('| Option |'))
    return sorted(option for row in table[2:] for option in re.findall(r'`(--?[a-zA-Z-]*)', row.split(' | ')[0]))


class Pages(unittest.TestCase):
    def test_up_to_date(self):
        """The pages in man/ are what the tool makes."""
        self.assertEqual(man_pages.main(['--check']), 0)

    def test_options(self):
        """Both programs show the options of the table, and no others."""
        wanted = options_of_table()
        self.assertIn('--kind', wanted)
        self.assertIn('--', wanted)
        for path in MAINS:
            self.assertEqual(options_of_usage(path), wanted, path)

    def test_examples(self):
        """Each page has a section with examples. test_examples.py runs their commands."""
        for program in man_pages.NAMES:
            self.assertIn('.SH EXAMPLES\n', man_pages.page(program))

    def test_short_help(self):
        """The usage has at most 50 lines."""
        for path in MAINS:
            usage = re.search(r'const USAGE: &str = "\\\n(.*?)";', man_pages.read(path), re.S)[1]
            self.assertLessEqual(usage.count('\n') + 1, 50, path)

    def test_marks(self):
        """Code becomes bold, defined words become italic, and characters that have a meaning for `man` are escaped."""
        self.assertEqual(man_pages.inline('the *text* of `--kind`'), 'the \\fItext\\fR of \\fB\\-\\-kind\\fR')
        self.assertEqual(man_pages.inline('a * b'), 'a * b')
        self.assertEqual(man_pages.block(['.x\\n']), ['.PP', '.nf', '.RS 4', '\\&.x\\en', '.RE', '.fi'])
        self.assertEqual(man_pages.plain('found `-` ^'), 'found \\(ga\\-\\(ga \\(ha')
        self.assertEqual(man_pages.block(["'#'"]), ['.PP', '.nf', '.RS 4', '\\(aq#\\(aq', '.RE', '.fi'])
        self.assertEqual(man_pages.rows(['| A | B | C |', '|---|---|---|', '| `a` | b | c |']), ['.TP', '\\fBa\\fR', 'B: b', '.br', 'C: c'])

    @unittest.skipUnless(shutil.which('groff'), 'groff is not installed')
    def test_groff(self):
        """groff has no warning about a page."""
        for program in man_pages.NAMES:
            path = os.path.join(man_pages.TOP, 'man', f'{program}.1')
            done = subprocess.run(['groff', '-man', '-Tutf8', '-ww', path], capture_output=True, text=True, check=True)
            self.assertEqual(done.stderr, '')
            self.assertIn('2 if', done.stdout.replace('  ', ' '))


if __name__ == '__main__':
    if not shutil.which('groff'):
        print('left out: the warnings of groff about the pages in man/, because groff is not installed')
    unittest.main()
