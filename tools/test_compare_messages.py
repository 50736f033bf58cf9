#!/usr/bin/env python3
"""Tests of compare_messages.py: the names of reasons are those of the library, and the comparison finds wrong models and wrong answers.
cargo builds the example that the tool runs."""
import contextlib
import io
import itertools
import os
import re
import sys
import unittest
from typing import Callable, Optional
from unittest import mock

sys.path.insert(0, os.path.dirname(os.path.abspath(__file__)))
import compare_messages
import places
import reasons
from compare_messages import Case, Chunk, Difference, Units

ROOT = os.path.dirname(os.path.dirname(os.path.abspath(__file__)))
# the lines of a clock with seconds that no text has, because an offset in a bracket has no seconds
WITHOUT_TEXTS = {f'ZoneOffset{it}' for it in ('SecondDigits', 'SecondRange', 'AfterSecond', 'FractionStart', 'AfterFraction')}
REFUSED_REPLIES = {'UnrecognizedCritical', 'CriticalDuplicateCalendar'}
WIDTHS = (False, True)
COUNT = 1000


def names_of_library() -> set[str]:
    """The names of the variants of `Reason`."""
    with open(os.path.join(ROOT, 'rust', 'ixdtf', 'src', 'reason.rs'), encoding='utf-8') as file:
        return set(re.findall(r'^    (\w+),$', file.read().partition('\npub enum Reason {\n')[2], re.M))


def names_of_model() -> set[str]:
    """The names of the reasons for all lines of the model, and for annotations that are refused."""
    lines = {line.name for profile in places.READERS.values() for reader in profile.values() for line in reader.lines}
    return {compare_messages.reason_name(it) for it in lines | REFUSED_REPLIES}


class Texts(unittest.TestCase):
    def test_names(self):
        """The model has each reason of the library, except those that no text has."""
        self.assertEqual(names_of_model() | WITHOUT_TEXTS, names_of_library())
        self.assertFalse(names_of_model() & WITHOUT_TEXTS)

    def test_cases(self):
        """A case of the strict profile accepts other texts than the case of the other profile. All other readers do the same under both."""
        for name, reader in places.READERS[False].items():
            is_same = reader.language == places.READERS[True][name].language
            self.assertEqual(Case(name, True) in compare_messages.CASES, not is_same, name)
            self.assertIn(Case(name, False), compare_messages.CASES)

    def test_same_texts(self):
        """The same seed makes the same texts. Another seed, another chunk and the other width make other texts."""
        chunks = [Chunk(wide, seed, first, first + 100) for wide in WIDTHS for seed in (1, 2) for first in (0, 100)]
        found = [compare_messages.texts(it) for it in chunks]
        self.assertEqual(found, [compare_messages.texts(it) for it in chunks])
        for one, other in itertools.combinations(found, 2):
            self.assertNotEqual(one, other)

    def test_kinds_of_texts(self):
        """Each width has all cases, texts with each kind of code unit, and texts of tests/refused.tsv without a change."""
        for wide in WIDTHS:
            made = compare_messages.texts(Chunk(wide, 1, 0, 3000))
            self.assertEqual({case for case, _ in made}, set(compare_messages.CASES))
            units = {it for _, text in made for it in text}
            self.assertEqual(max(units) > 255, wide)
            self.assertTrue(units > {0, 9, 10, 32, 0x7f, 0xc3 if not wide else 0xe9} | set(b'0123456789TZPYMDHS[]!=/`'))
            self.assertTrue(any(0xd800 <= it < 0xe000 for it in units) if wide else any(it >= 0x80 for it in units))
            self.assertTrue(any(text in compare_messages.rows(wide)[case.reader] for case, text in made))

    def test_lone_surrogates(self):
        """U+FFFD stands for each lone surrogate, and pairs stay as they are. 8-bit text stays as it is."""
        high, low, other = 0xd83d, 0xde00, 0xfffd
        for units, characters in (([high], [other]), ([low], [other]), ([high, low], [high, low]), ([low, high], [other, other]),
                                  ([high, high, low, low], [other, high, low, other]), ([48, high, 48], [48, other, 48]), ([], [])):
            self.assertEqual(compare_messages.with_characters(units, True), characters)
            self.assertEqual(bytes(sum(([it % 256, it // 256] for it in units), [])).decode('utf-16-le', 'replace').count('\ufffd'),
                             characters.count(other))
        self.assertEqual(compare_messages.with_characters([0xc3, 0x28], False), [0xc3, 0x28])


class Comparison(unittest.TestCase):
    @classmethod
    def setUpClass(cls):
        cls.program = compare_messages.built()

    def compare(self, wide: bool, count: int = COUNT, jobs: int = 1) -> compare_messages.Counts:
        """Compares some texts of a width."""
        return compare_messages.compared_all(self.program, wide, count, 1, jobs)

    def find(self, message: str = '', count: int = COUNT) -> None:
        """The comparison must find a difference in each width."""
        for wide in WIDTHS:
            with self.assertRaises(Difference, msg=message):
                self.compare(wide, count)

    def test_no_difference(self):
        for wide in WIDTHS:
            counts = self.compare(wide)
            self.assertEqual(counts.texts, COUNT)
            self.assertTrue(COUNT // 2 < counts.refused < COUNT, counts)
            self.assertGreater(len(counts.reasons), 80)
            self.assertLessEqual(counts.reasons, names_of_model())

    def test_processes(self):
        """The results do not depend on the number of processes."""
        with mock.patch.object(compare_messages, 'CHUNK', 100):
            for wide in WIDTHS:
                self.assertEqual(self.compare(wide, 250), self.compare(wide, 250, jobs=2))
            with self.with_model(lambda reason: reason._replace(end=reason.end + 1)):
                found = []
                for jobs in (1, 2):
                    with self.assertRaises(Difference) as raised:
                        self.compare(False, 250, jobs)
                    found.append(str(raised.exception))
            self.assertEqual(*found)

    def with_model(self, wrong: Callable[[places.Reason], places.Reason]) -> contextlib.AbstractContextManager:
        """A model with other reasons. The messages and the hints stay those of the right reasons."""
        right, message, hints = places.refusal, places.reason_text, places.hints_of
        unchanged = {}

        def refusal(*arguments) -> Optional[places.Refusal]:
            found = right(*arguments)
            if found is None:
                return None
            changed = wrong(found.reason)
            unchanged[changed] = found.reason
            return found._replace(reason=changed)

        def reason_text(reason: places.Reason, *arguments) -> str:
            return message(unchanged[reason], *arguments)

        def hints_of(name: str, found: places.Refusal, *arguments) -> list[str]:
            return hints(name, found._replace(reason=unchanged[found.reason]), *arguments)
        return mock.patch.multiple(places, refusal=refusal, reason_text=reason_text, hints_of=hints_of)

    def test_wrong_reasons(self):
        """Another beginning, end or line in the model is a difference."""
        neighbours = {'month_digits': 'month_range', 'after_date': 'after_zulu', 'group_digits time': 'group_digits date'}
        for name, wrong in (
            ('begin + 1', lambda it: it._replace(begin=it.begin + 1)), ('end + 1', lambda it: it._replace(end=it.end + 1)),
            ('begin - 1 of a number', lambda it: it._replace(begin=it.begin - 1) if it.line == 'hour_range Time' else it),
            ('end + 1 at the end', lambda it: it._replace(end=it.end + 1) if it.way == 'end' else it),
            *((line, lambda it, line=line: it._replace(line=neighbours[line]) if it.line == line else it) for line in neighbours),
        ):
            with self.with_model(wrong):
                self.find(name)

    def test_message_of_a_neighbour(self):
        """If the model has the message of another line for a line, or no names of characters, this is a difference."""
        for line, other in (('month_digits', 'day_digits'), ('duration_start', 'after_duration_sign'), ('value_start', 'in_value'),
                            ('time_reads_as_month_day', 'time_reads_as_year_month')):
            with mock.patch.dict(reasons.WITHOUT_READERS, {line: reasons.WITHOUT_READERS[other]}):
                self.find(line)
        with mock.patch.dict(reasons.NAMES_OF_CHARACTERS, clear=True):
            self.find()
        with mock.patch.dict(reasons.LOOK_ALIKES, clear=True):
            self.find()

    def test_wrong_hints(self):
        """If the model has other hints than the library, or two hints, or none, this is a difference."""
        right = places.hints_of
        for wrong in (lambda *given: [], lambda *given: right(*given)[:1] * 2, lambda *given: right(*given) or ['write something else'],
                      lambda *given: [it + ' now' for it in right(*given)]):
            with mock.patch.object(places, 'hints_of', wrong):
                self.find()
        for hint in (places.hints.one_digit, places.hints.blank_at_start, places.hints.other_hyphen, places.hints.sign_in_duration):
            others = tuple(it for it in places.hints.HINTS if it is not hint)
            with mock.patch.object(places.hints, 'HINTS', others):
                self.find(hint.__name__, 3000)

    def test_hints(self):
        """The texts have many hints. Both say the same hint, or none."""
        for wide in WIDTHS:
            self.assertGreater(len(self.compare(wide, 3000).hints), 40)
        for reader, text, hint in (('parse', '2024-3-2', 'write the month as `03`'), ('parse', '2024-13-02', ''),
                                   ('parse', '2024\u201303', 'write `-` instead'), ('duration', 'P-1D', 'a sign can only stand before `P`')):
            for wide in WIDTHS:
                units = [it for character in text for it in compare_messages.units_of(character, wide)]
                self.assertEqual(self.answer(reader, units, wide).split('\t')[6], hint, (text, wide))

    def test_other_leap_years(self):
        """If the model has a leap day in 1900, or none in 2000, this is a difference. The texts are made only from dates that do not exist."""
        right = reasons.last_day
        dates = [(case, list(it.encode())) for case in compare_messages.CASES if case.reader in compare_messages.WITH_DATES
                 for it in compare_messages.NO_LEAP_DAYS]
        with mock.patch.object(compare_messages, 'rows_of_cases', lambda wide: dates):
            for year, days in (('1900', 29), ('2000', 28)):
                with mock.patch.object(reasons, 'last_day', lambda line, front: days if f'{year}-02-' in front else right(line, front)):
                    self.find(year)

    def test_wrong_errors(self):
        """Another error and another position in the model are differences. So is a text that only the model refuses, or only the reader."""
        right = places.refusal
        accepted = places.Refusal(places.Fault(places.Error('InvalidEnd'), 0), places.Reason('after_date', 'other', 0, 1))

        def with_fault(**changes) -> Callable:
            return lambda *given: (found := right(*given)) and found._replace(fault=found.fault._replace(**changes))
        for wrong in (with_fault(error=places.Error('IanaChar')), with_fault(place=1), lambda *given: right(*given) or accepted,
                      lambda name, units, wide, strict: right(name, units, wide, False), lambda *given: None):
            with mock.patch.object(places, 'refusal', wrong):
                self.find()

    def test_model_without_an_answer(self):
        with mock.patch.object(places, 'refusal', side_effect=ValueError('two rows')):
            with self.assertRaisesRegex(Difference, r'\w+ \w+, 8-bit, of .*the model has no answer: two rows'):
                self.compare(False)

    def test_wrong_answers(self):
        """A change of each part of an answer is a difference, and so is a missing answer, or one too many."""
        right = compare_messages.answers

        def with_part(at: int) -> Callable[[list[str]], list[str]]:
            return lambda lines: ['\t'.join(part + '1' * (index == at) for index, part in enumerate(it.split('\t'))) for it in lines]
        for wrong in (*map(with_part, range(7)), lambda lines: lines[:-1], lambda lines: lines + [lines[-1]],
                      lambda lines: lines[:-1] + ['no such line']):
            with mock.patch.object(compare_messages, 'answers', lambda program, lines: wrong(right(program, lines))):
                self.find()

    def answer(self, reader: str, text: Units, wide: bool) -> str:
        """The answer of the example to a text, which must be the one of the model."""
        line = f'{reader} crate {16 if wide else 8} {" ".join(f"{it:x}" for it in text)}'
        found, = compare_messages.answers(self.program, [line])
        self.assertEqual(found, compare_messages.wanted(Case(reader, False), text, wide))
        return found

    def test_characters(self):
        """Both show a character of several code units, and what stands for something that is no character."""
        for units, wide, shown in (([0xd83d, 0xde00], True, 'U+1F600'), ([0xd83d], True, 'U+FFFD'), ([0xe9], True, 'U+00E9'),
                                   (list('\U0001f600'.encode()), False, 'U+1F600'), ([0xf0, 0x9f], False, 'the byte 0xF0'),
                                   ([0xe2, 0x80, 0x93], False, 'U+2013 (en dash)'), ([0xe9], False, 'the byte 0xE9')):
            for reader in places.READERS[False]:
                self.assertTrue(self.answer(reader, units, wide).split('\t')[5].endswith(f', found {shown}'), (reader, units))

    def run_main(self, *arguments: str) -> tuple[int, str]:
        """The exit status and the output of the tool."""
        with mock.patch.object(sys, 'argv', ['compare_messages.py', *arguments]), contextlib.redirect_stdout(io.StringIO()) as output:
            return compare_messages.main(), output.getvalue()

    def test_output(self):
        """The tool prints the counts of both widths. It ends with 1 at a difference, and prints the text and both results."""
        status, output = self.run_main('200', '3', '--jobs', '2')
        line = r'-bit: 200 texts, \d+ refused, \d+ different reasons, \d+ different hints, no difference\n'
        self.assertEqual(status, 0)
        self.assertRegex(output, f'\\A8{line}16{line}\\Z')
        with self.with_model(lambda reason: reason._replace(begin=reason.begin + 1)):
            status, output = self.run_main('200')
        self.assertEqual(status, 1)
        self.assertRegex(output, r'\A\w+ \w+, 8-bit, of .*:\nexpected .*\\t.*\nfound    .*\\t.*\n\Z')


if __name__ == '__main__':
    unittest.main()
