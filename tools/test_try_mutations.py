#!/usr/bin/env python3
"""Tests of try_mutations.py: which changes a mutation makes, and which mutations cannot be tried."""
import os
import tempfile
import unittest

import try_mutations

EDIT = '# text: 2020-13 is refused; this reads it\nfile: src/dates.rt\nold: month > 12\nnew: month > 13\nold: day > 31\nnew: day > 32\n'


class Changes(unittest.TestCase):
    """Tests with a crate that has one source."""

    def setUp(self):
        self.folder = tempfile.TemporaryDirectory()
        self.addCleanup(self.folder.cleanup)

    def write(self, crate, path, text):
        """Writes a source. Returns its path."""
        source = os.path.join(self.folder.name, 'crates', crate, path)
        os.makedirs(os.path.dirname(source), exist_ok=True)
        with open(source, 'w', encoding='utf-8') as file:
            file.write(text)
        return source

    def changed(self, crate, edit=EDIT):
        """The changed sources of a mutation of a crate."""
        return try_mutations.changed_sources(self.folder.name, f'crates/{crate}/must-fail/dates.a.b.edit', edit)

    def test_all_changes_are_made(self):
        source = self.write('one', 'src/dates.rt', 'if month > 12 || day > 31 {}')
        self.assertEqual(self.changed('one'), {source: 'if month > 13 || day > 32 {}'})

    def test_a_source_may_be_in_another_crate(self):
        source = self.write('two', 'src/inner/dates.rt', 'month > 12, day > 31')
        self.assertEqual(self.changed('one'), {source: 'month > 13, day > 32'})

    def test_a_text_must_be_there_once(self):
        self.write('one', 'src/dates.rt', 'month > 12, month > 12, day > 31')
        self.assertIsNone(self.changed('one'))
        self.assertIsNone(self.changed('none'))

    def test_definitions_and_the_library_for_c_are_left_out(self):
        self.write('one', 'specs/Dates.antt', 'a = b')
        self.write('ixdtf_c', 'src/dates.rt', 'month > 12, day > 31')
        self.assertIsNone(self.changed('one', 'file: specs/Dates.antt\nold: a = b\nnew: a = c\n'))
        self.assertIsNone(self.changed('ixdtf_c'))

    def test_proofs_are_left_out(self):
        edit = EDIT + 'file: proofs/dates/Answers.antt\nold: a\nnew: b\n'
        self.assertEqual(len(list(try_mutations.changes_of(edit))), 2)


if __name__ == '__main__':
    unittest.main()
