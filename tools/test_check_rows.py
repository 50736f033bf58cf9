#!/usr/bin/env python3
"""Tests of check_rows.py: it reads the rows of each source, and finds the wrong ones."""
import os
import re
import subprocess
import sys
import tempfile
import unittest

TOOLS = os.path.dirname(os.path.abspath(__file__))
sys.path.insert(0, TOOLS)
import check_rows as check
import model_rows
import places
from check_rows import Proofs, Row, Values
from places import Annotation, Error

DIGIT = Error('AbruptEnd', 'digit')
MONTH = Error('InvalidMonthRange')


def row(text: str, error, place, **others) -> Row:
    """A row of `parse` with 8-bit code units. `others` replaces parts of it."""
    return Row('file', 'parse', False, False, tuple(text.encode()), error, place)._replace(**others)


class Findings(unittest.TestCase):
    """Tests of the findings in one row."""

    def test_right(self):
        for it in [row('2020-13-01', MONTH, 7), row('2020-13-01', MONTH, None), row('2020-01-01', None, None), row('', DIGIT, 0),
                   row('é', Error('DateYear'), 0), row('é', Error('NonAsciiCodePoint'), 0, wide=True, units=(0xe9,)),
                   row('11-00', Error('InvalidMonthDay'), 5, reader='parse_month_day', strict=True),
                   row('11-00', None, None, reader='parse_month_day')]:
            self.assertEqual(list(check.findings(it)), [])

    def test_wrong(self):
        for it in [row('2020-13-01', MONTH, 8), row('2020-13-01', Error('DateMonth'), 7), row('2020-01-01', MONTH, 7),
                   row('2020-1', None, None), row('', Error('AbruptEnd', 'Date'), 0), row('11-00', Error('InvalidMonthDay'), 5, reader='parse_month_day')]:
            self.assertTrue(list(check.findings(it)), it)

    def test_both_sources(self):
        # tests/refused.tsv has this text, and so has the model.
        self.assertEqual(list(check.findings(row('2020-13-01', MONTH, 8))), [
            "file: parse of '2020-13-01' is InvalidMonthRange at 8; refused.tsv has InvalidMonthRange at 7",
            "file: parse of '2020-13-01' is InvalidMonthRange at 8; the model has InvalidMonthRange at 7"])

    def test_handlers(self):
        text = '2020-01-01[!a=b][!u-ca=c][!u-ca=d]'
        self.assertEqual(list(check.findings(row(text, Error('UnrecognizedCritical'), 16, handler=model_rows.HANDLERS['keep']))), [])
        self.assertEqual(list(check.findings(row(text, None, None, handler=model_rows.DROP))), [])
        self.assertEqual(list(check.findings(row(text, Error('CriticalDuplicateCalendar'), 25, handler=model_rows.another))), [])
        self.assertEqual(list(check.findings(row('2020-13-01', MONTH, 8, handler=model_rows.DROP)))[0][-38:],
                         'refused.tsv has InvalidMonthRange at 7')
        pair = Annotation(True, 'x', 'y')
        self.assertEqual(model_rows.HANDLERS['turn-critical']()(pair), Annotation(False, 'x', 'y'))
        self.assertEqual(model_rows.HANDLERS['make-critical']()(pair), pair)

    def test_a_handler_is_made_anew(self):
        it = row('2020-01-01[a=b][!a=b]', Error('CriticalDuplicateCalendar'), 21, handler=model_rows.another)
        self.assertEqual(list(check.findings(it)) + list(check.findings(it)), [])


class Literals(unittest.TestCase):
    """Tests of values in Rattle."""

    def value(self, source: str):
        return Values(source, 0).value()

    def test_values(self):
        self.assertEqual(self.value(r'&[("a\u{e9}\x7f\"", 1_0), (b"\xff", 2)]'), [('aé\x7f"', 10), (b'\xff', 2)])
        self.assertEqual(self.value('AbruptEnd { location: "digit", }'), check.Named('AbruptEnd', (), {'location': 'digit'}))
        self.assertEqual(self.value('Some(5)'), check.Named('Some', (5,)))
        self.assertEqual(self.value('[ // a comment, with "text"\n Reader::Parse,\n]'), [check.Named('Parse')])

    def test_no_values(self):
        for source in ('*error', '[1; 5]', '(1'):
            with self.assertRaises(ValueError):
                self.value(source)


class Sources(unittest.TestCase):
    """Tests of the rows of each source."""

    def texts(self, rows) -> list[tuple]:
        """The parts of rows that most tables have."""
        return [(it.reader, it.strict, it.wide, ''.join(map(chr, it.units)), it.error and check.said(it.error, None), it.place) for it in rows]

    def test_tables(self):
        tables = model_rows.tables
        line = tables.Row('refused.tsv', 5, {'readers': 'month-day,duration', 'profile': 'any', 'bits': 'both', 'text': r'\\\t\x7f', 'error': 'DateMonth', 'at': '0'})
        cases = list(tables.cases_of(line))
        self.assertEqual([(it.word, it.width, it.units) for it in cases],
                         [(word, width, (92, 9, 127)) for word in ('month-day', 'strict-month-day', 'duration', 'strict-duration') for width in (8, 16)])
        self.assertEqual(list(model_rows.differences(cases[0])), [])
        self.assertEqual(list(model_rows.differences(cases[4])), [('error', 'DateMonth', 'DurationDisgnator')])

    def test_a_table_that_cannot_be_read(self):
        with tempfile.NamedTemporaryFile('w', suffix='.tsv') as table:
            table.write('# a comment\nreaders\ttext\nparse\t2020\nparse\n')
            table.flush()
            with self.assertRaisesRegex(SystemExit, ':4: expected 2 cells, found 1'):
                list(model_rows.tables.rows(table.name))

    def test_examples(self):
        rows = check.rows_of_examples('file', '''
/// for (text, error, at) in [
///     ("11-8", ParseError::AbruptEnd { location: "digit" }, 4), // the end
/// ] {
///     let located = IxdtfParser::from_str(text).parse_month_day_located().unwrap_err();
/// }
/// let located = IsoDurationParser::from_str("P1").parse_located().unwrap_err();
/// let located = IxdtfParser::from_str("T12[!a=b]").parse_time_with_annotation_handler_located(Some).unwrap_err();
/// assert_eq!((located.error, located.at), (ParseError::UnrecognizedCritical, 9));
''')
        self.assertEqual(self.texts(rows), [('parse_month_day', False, False, '11-8', 'AbruptEnd digit', 4),
                                            ('parse_time', False, False, 'T12[!a=b]', 'UnrecognizedCritical', 9)])


HELPERS = '''-- Helpers.
abbrev pub stops_after : List Pair → LineName → Place → Fault → Outcome
stops_after pairs name place fault = refused (row_of name place fault) pairs

abbrev pub ends : List ℕ → LineName → Fault → Example
ends front name fault = (text_of front, stops_after [] name (end []) fault)

abbrev pub two : LineName → List ℕ → List ℕ → Fault → List Example
two name front letter fault =
    (text_of (front ++ letter), stops_after [] name (other (text_of letter)) fault)
    ∷ ((and_bad front, stops_after [] name (bad (Bad ∷ [])) NonAsciiCodePoint) ∷ [])
'''
EXAMPLES = '''use Rattle.ixdtf_tests.proofs.Helpers.{ends, two}

abbrev at : List ℕ → List ℕ
at units = codes "2020-01-01T" ++ units

abbrev rows : List Example
rows =
    two (of_date after_date) (codes "2020-01-01") (codes "x") InvalidEnd
    -- the end
    ++ ends (at (codes "1")) (of_clock hour_digit) (AbruptEnd (codes "digit")) ∷ []

each_row : ShowEachRow parse (of_date after_date ∷ []) rows
each_row = (refl, refl)

strict : Compute (parse_month_day Strict) (
    (wide (50 ∷ 233 ∷ []), derived (record { a = record { b = 1 } }) [])
    ∷ [])
strict = refl
'''


class ComputedExamples(unittest.TestCase):
    """Tests of the tables in proofs."""

    def test_rows(self):
        rows = {it._replace(path='', handler=None) for it in Proofs({'Helpers': HELPERS, 'Dates': EXAMPLES}).rows('proofs')}
        wanted = set()
        for strict in (False, True):
            for wide in (False, True):
                wanted.add(Row('', 'parse', strict, wide, tuple(b'2020-01-01x'), Error('InvalidEnd'), 10))
                wanted.add(Row('', 'parse', strict, wide, tuple(b'2020-01-01T1'), DIGIT, 12))
            wanted.add(Row('', 'parse', strict, True, tuple(b'2020-01-01\xe9'), Error('NonAsciiCodePoint'), 10))
        wanted.add(Row('', 'parse_month_day', True, True, (50, 0xe9), None, None))
        self.assertEqual(rows, wanted)


SOURCE = """//! Digits.

/// The value of each digit.
static VALUES: [u8; 3] = [
    0, 1, 2,
];

impl<'a> Digits<'a, Utf8> {
    /// The first, if there is one.
    pub fn first(&self) -> Option<u8>
        ensures { result \u2261 head self.digits }
    {
        fn at_most_nine(byte: u8) -> u8 {
            byte.min(9)
        }
        self.digits.first().copied()
    }

    fn last(&self) -> Option<u8> { self.digits.last().copied() }
}

fn value_of(byte: u8) -> u8 {
    VALUES[byte as usize]
}

fn put(bytes: &mut [u8], at: usize, byte: u8) {
    if at < bytes.len() {
        bytes[at] = byte;
    }
}
"""
DEFINITIONS = """use Rattle.std.specs.Prelude.{length}

-- A digit.
pub IsDigit : \u2115 \u2192 Set
IsDigit letter = letter \u2264 9

data pub Sign : Set where
  plus : Sign
"""


class Edits(unittest.TestCase):
    """Mutations and their names."""

    def findings(self, name: str, *changes: tuple[str, str]) -> list[str]:
        """The findings in a mutation with this name and these changes. A change is a file and the text that is replaced."""
        edit = '# text: 10 is read; this refuses it\n' + ''.join(f'file: {path}\nold: {old}\nnew: 0\n' for path, old in changes)
        before, check.read = check.read, lambda path: DEFINITIONS if path.endswith('.antt') else SOURCE
        try:
            return list(check.findings_in_edit(f'crates/ixdtf_digits/must-fail/{name}.edit', edit))
        finally:
            check.read = before

    def test_right(self):
        for name, old in [('digits.first.takes_none', 'self.digits.first()'), ('digits.Digits.first.takes_none', 'self.digits.first()'),
                          ('digits.Utf8.first.takes_none', 'self.digits.first()'), ('digits.at_most_nine.takes_ten', 'byte.min(9)'),
                          ('digits.last.takes_none', 'self.digits.last()'), ('digits.put.puts_zero', 'bytes[at] = byte;'),
                          ('digits.value_of.takes_two_for_one', '0, 1, 2,'), ('digits.VALUES.takes_two_for_one', '0, 1, 2,')]:
            self.assertEqual(self.findings(name, ('src/parts/digits.rt', old)), [], name)
        self.assertEqual(self.findings('Digit.IsDigit.takes_ten', ('specs/language/Digit.antt', 'letter \u2264 9')), [])

    def test_wrong_names(self):
        for name, old, stands in [('digits.last.takes_none', 'self.digits.first()', 'digits.first'),
                                  ('digit.first.takes_none', 'self.digits.first()', 'digits.first'),
                                  ('digits.Utf16.first.takes_none', 'self.digits.first()', 'digits.first'),
                                  ('digits.fir.takes_none', 'self.digits.first()', 'digits.first'),
                                  ('digits.first.takes_ten', 'byte.min(9)', 'digits.at_most_nine'),
                                  ('digits.first.takes_none', 'self.digits.last()', 'digits.last'),
                                  ('digits.put.takes_two_for_one', '0, 1, 2,', 'digits.VALUES'),
                                  ('digits.first.says_another_thing', '//! Digits.', 'no function')]:
            self.assertEqual(self.findings(name, ('src/digits.rt', old)),
                             [f'crates/ixdtf_digits/must-fail/{name}.edit: it changes {stands}'], name)
        self.assertTrue(self.findings('digits.is_digit.takes_ten', ('specs/Digit.antt', 'letter \u2264 9')))
        self.assertTrue(self.findings('Digit.IsDigit.takes_ten', ('specs/Digit.antt', 'Prelude')))

    def test_changes_of_one_body(self):
        # A mutation may also change text outside of functions, and a proof.
        self.assertEqual(self.findings('digits.put.puts_zero', ('src/digits.rt', '//! Digits.'), ('src/digits.rt', 'bytes[at] = byte;'),
                                       ('proofs/put/Proof.antt', 'it is not looked at')), [])

    def test_an_old_that_is_not_there(self):
        for old, times in [('byte.max(9)', 0), ('byte', 9)]:
            self.assertEqual(self.findings('digits.put.puts_zero', ('src/digits.rt', old)),
                             [f'crates/ixdtf_digits/must-fail/digits.put.puts_zero.edit: `{old}` occurs {times} times in src/digits.rt, and must occur once'])


class Comparisons(unittest.TestCase):
    """Comparisons of code units."""

    def marks(self, body: str) -> list[str]:
        """The comparisons in the body that can compare code units."""
        return list(check.comparisons_in(body))

    def test_with_a_literal(self):
        for body in ["byte == b'-'", "b'\\'' != byte", 'count==0', '5 == cursor.remaining()', 'distance % 400 == 0', 'rank <= least', 'at >= end',
                     '// left == right', 'say("left == right")', 'Some(byte) => byte', 'self.position(start)']:
            self.assertEqual(self.marks(body), [], body)

    def test_of_code_units(self):
        for body, mark in [('left == right', '=='), ('self.rest[0] != other[0]', '!='), ('key.eq(calendar)', 'eq'), ('PartialEq::ne(a, b)', 'ne'),
                           ('T::check_calendar_key(key)', 'check_calendar_key'), ('rest.starts_with(key)', 'starts_with'), ('units.contains(&unit)', 'contains'), ('first.cmp(&second)', 'cmp')]:
            self.assertEqual(self.marks(body), [mark], body)

    def test_who_may_compare(self):
        source = 'fn are_equal(left: &[u8], right: &[u8]) -> bool {\n    left == right\n}\n'
        self.assertEqual(list(check.findings_in_comparisons('crates/ixdtf_reading/src/cursor.rt', source)), [])
        for path in ['crates/ixdtf_reading/src/letters.rt', 'crates/ixdtf/src/parsers/replies.rt']:
            self.assertEqual(list(check.findings_in_comparisons(path, source)), [
                f'{path}: are_equal compares with `==`. Only a function that counts the accesses may compare code units'])
        self.assertTrue(list(check.findings_in_comparisons('crates/ixdtf_reading/src/cursor.rt', source.replace('are_equal', 'is_same'))))
        counted = 'fn is_calendar_key(key: &[u8]) -> bool {\n    T::check_calendar_key(key)\n}\n'
        self.assertEqual(list(check.findings_in_comparisons('crates/ixdtf_reading/src/cursor.rt', counted)), [])
        self.assertTrue(list(check.findings_in_comparisons('crates/ixdtf/src/parsers/replies.rt', counted)))


class Repository(unittest.TestCase):
    """Tests of the rows of the repository."""

    def test_each_function_is_read(self):
        found, functions = check.findings_in_readers()
        self.assertEqual(found, [])
        self.assertGreater(functions, 200)

    def test_each_edit_is_read(self):
        self.assertGreater(check.findings_in_edits()[1], 50)

    def test_each_source_is_read(self):
        rows = check.all_rows()
        for source, of_source in rows.items():
            self.assertGreaterEqual(len(of_source), check.LEAST[source], source)
            self.assertTrue(any(it.error and it.error.location for it in of_source))
        found, cases = check.findings_in_tables()
        self.assertEqual(found, [])
        self.assertGreaterEqual(cases, check.LEAST['tables'])

    def test_each_part_of_the_tables_is_there(self):
        """The tables have each reader, profile and width, each handler, and each error that a reader returns."""
        tables = model_rows.tables
        cases = tables.cases('accepted.tsv', 'refused.tsv')
        words = {word for word in model_rows.READERS if word != 'iana' and not word.startswith(('canonical', 'instant'))}
        strict = {f'strict-{word}' for word in tables.PROFILED}
        for file in ('accepted.tsv', 'refused.tsv'):
            found = {(it.word, it.width) for it in cases if it.row.file == file}
            self.assertEqual(found, {(word, width) for word in words | strict for width in (8, 16)})
        self.assertEqual({it.handler for it in tables.cases('replies.tsv')}, set(model_rows.HANDLERS) - {''})
        self.assertEqual({it.row['error'].split(' ')[0] for it in cases if it.row.file == 'refused.tsv'}, set(places.TEXTS))
        reasons = {it.row['reason'] for it in cases if it.row.cells.get('reason')}
        self.assertEqual(len(reasons), 126 - 5)  # no reader reads the seconds of an offset that is a zone

    @unittest.skipUnless(sys.version_info[:2] == (3, 11), 'tests/README.md shows what Python 3.11 prints')
    def test_the_page_shows_another_parser(self):
        page = check.read('tests/README.md')
        shown = next(it for it in re.findall(r'```text\n(.*?)```', page, re.S) if it.startswith('tests/accepted.tsv')).splitlines()
        ran = subprocess.run([sys.executable, 'tests/run_other.py', sys.executable, 'tests/other/fromisoformat.py'], cwd=check.ROOT, stdout=subprocess.PIPE, text=True)
        self.assertEqual([it for it in ran.stdout.splitlines() if it in shown], shown)

    def test_the_texts_of_errors(self):
        texts = model_rows.tables.error_texts()
        self.assertEqual(len(texts), 46)
        self.assertEqual({name: texts[name] for name in places.TEXTS}, places.TEXTS)


if __name__ == '__main__':
    unittest.main()
