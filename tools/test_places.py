#!/usr/bin/env python3
"""Tests of places.py, reasons.py and hints.py. They test each row of the fault table with examples from tests/refused.tsv. They also test that
exactly one row fits a text, with exactly one front. check_documents.py compares the model with docs/FAULTS.md.

reasons.tsv has each text of a reason, with these columns:

    line                    the line of the fault table; or the error, if a reply to an annotation is refused
    readers                 the readers that have this text, if other readers have another one
    way                     the row of this line; or `refused`. The row `bad` has the text of the row `other`, if there is one.
    at                      the letters for which the line has this text, if it has another text for the other letters
    text                    the text, with words in braces for the parts that come from the input (see reasons.py)
    bits, example           an example: the number of bits of a code unit, and a line of the program ixdtf_lines
    begin, end              where the part of the example that is wrong begins and ends
    shown                   the text for this example"""
import contextlib
import csv
import itertools
import os
import re
import subprocess
import sys
import unittest
from functools import cache, lru_cache
from typing import Callable, Iterator, NamedTuple, Optional
from unittest import mock

TOOLS = os.path.dirname(os.path.abspath(__file__))
sys.path[:0] = [TOOLS, os.path.join(os.path.dirname(TOOLS), 'tests')]
import places
import reasons
import tables
from check_documents import ROOT, Document, Tree
from places import Annotation, Error, Example, Fault, examples


# Many tests need the row of a text twice. So the last rows are kept.
places.Reader.row = lru_cache(maxsize=64)(places.Reader.row)


def plain_examples() -> list[Example]:
    """The examples in which each code unit has a letter in 8-bit and in 16-bit text."""
    return [it for it in examples() if all(1 <= unit <= 126 for unit in it.units)]


def row_of(example: Example) -> Optional[places.Row]:
    """The row that fits the text of an example."""
    return places.READERS[example.strict][example.reader].row(places.letters_of(example.units, example.wide))


class Examples(unittest.TestCase):
    """Tests of the examples: each row of the fault table has one."""

    def test_outcome(self):
        for it in examples():
            found = places.outcome(it.reader, it.units, it.wide, it.strict)
            self.assertEqual(found, Fault(it.error, it.place), it)

    def test_row(self):
        for it in examples():
            if it.line != 'reply':
                self.assertEqual(row_of(it)[:4], (it.line, it.row, it.error, it.place), it)

    def test_where_each_kind_of_place_is(self):
        for it in examples():
            behind = it.units[it.place:it.place + 1]
            self.assertEqual(it.row == places.AT_END, not behind and it.row not in ('whole', 'refused'), it)
            if it.row == places.AT_BAD:
                self.assertTrue(it.wide and not 1 <= behind[0] <= 126, it)
            if it.row == 'refused':
                self.assertEqual(chr(it.units[it.place - 1]), ']', it)

    def test_each_row_has_an_example(self):
        shown = {(it.line, it.row, it.error) for it in examples()}
        for line in (line for reader in places.READERS[False].values() for line in reader.lines):
            for row, error in rows_of(line):
                self.assertIn((line.name, row, error), shown)

    def test_each_reader_has_an_example(self):
        shown = {(it.reader, it.strict) for it in examples()}
        self.assertEqual({reader for reader, _ in shown}, set(places.READERS[False]))
        self.assertGreaterEqual(shown, {(it, True) for it in places.STRICT_WORDS.values()})


@cache
def reasons_of_model() -> dict[int, places.Reason]:
    """The reason that the model finds for each example. The keys are the identities of the examples."""
    return {id(it): places.refusal(it.reader, it.units, it.wide, it.strict).reason for it in examples()}


def model_says(it: Example) -> tuple:
    """What the model has for the part and the message of an example."""
    found = reasons_of_model()[id(it)]
    return found.begin, found.end, places.reason_text(found, it.units, it.wide, it.strict)


class Reasons(unittest.TestCase):
    """Tests of the reasons of the examples."""

    def test_reason(self):
        for it in examples():
            self.assertEqual(model_says(it), (it.begin, it.end, it.reason), it)

    def test_line_and_way(self):
        for it in examples():
            found = reasons_of_model()[id(it)]
            line = it.error.variant if it.line == 'reply' else it.line
            self.assertEqual((found.line, found.way), (line, it.row), it)

    def test_where_what_is_wrong_is(self):
        for it in examples():
            if it.row == places.AT_END:
                self.assertEqual((it.begin, it.end), (len(it.units), len(it.units)), it)
            elif it.row in (places.AT_OTHER, places.AT_BAD):
                self.assertEqual((it.begin, it.end), (it.place, it.place + 1), it)
            else:
                self.assertTrue(it.begin < it.end and it.begin < it.place, it)
                self.assertTrue(it.end == it.place or it.error.variant == 'DurationValueExceededRange', it)

    def test_bad_code_units_have_the_text_of_others(self):
        """The code unit 127 is bad in 16-bit text. It has the same text in 8-bit text, except in a first bracket that the reader scans."""
        for it in (it for it in plain_examples() if it.row == places.AT_OTHER):
            units = it.units[:it.place] + [127]
            narrow, wide = (places.refusal(it.reader, units, wide, it.strict).reason for wide in (False, True))
            self.assertEqual(wide.way, places.AT_BAD, it)
            if wide.line != 'first_bracket_scan':
                self.assertEqual(narrow, wide._replace(way=places.AT_OTHER), it)
                self.assertEqual(places.reason_text(narrow, units, False, it.strict), places.reason_text(wide, units, True, it.strict), it)


def rows_of(line: places.Line) -> Iterator[tuple[str, Error]]:
    """The rows of a line, each with its error."""
    if line.goes_on is None:
        yield places.WHOLE, line.end
        return
    yield places.AT_BAD, Error('NonAsciiCodePoint')
    if line.end:
        yield places.AT_END, line.end
    for _, error in line.other:
        yield places.AT_OTHER, error


# ---------------------------------------------------------------------------------------------------------------------------------
# The texts of reasons

class ReasonText(NamedTuple):
    """A line of reasons.tsv."""
    line: str
    way: str
    at: str
    text: str
    wide: bool
    word: str
    units: list[int]
    begin: int
    end: int
    shown: str

    def spelled(self) -> bytes:
        """The example as a line for the program, in UTF-8."""
        return f'{self.word} {"".join(map(chr, self.units))}'.encode()


# the letters in the column `at`
LETTERS = {'digit': reasons.DIGITS, ': digit': ':' + reasons.DIGITS}


@cache
def reason_texts() -> list[ReasonText]:
    """The lines of reasons.tsv."""
    with open(os.path.join(TOOLS, 'reasons.tsv'), encoding='ascii', newline='') as file:
        return [ReasonText(row['line'], row['way'], LETTERS.get(row['at'], row['at']), row['text'], row['bits'] == '16',
                           row['example'].split(' ')[0], list(tables.units_of(row['example'].partition(' ')[2])), int(row['begin']), int(row['end']),
                           row['shown'])
                for row in csv.DictReader(file, delimiter='\t', quoting=csv.QUOTE_NONE)]


def texts_of_model() -> Iterator[tuple[str, str, str, str]]:
    """The texts of the model: for each one the line, the way, the letters at which it is said, and the text."""
    for strict, its_readers in places.READERS.items():
        for line, begin in itertools.product([line for reader in its_readers.values() for line in reader.lines], (0, 1)):
            texts = reasons.texts_of(line.name, line.follow, begin)
            ways = {row for row, _ in rows_of(line)}
            if places.AT_OTHER in ways:
                ways.remove(places.AT_BAD)
                yield from ((line.name, places.AT_OTHER, letters, text) for letters, text in texts.at)
            yield from ((line.name, way, '', reasons.template(texts, way, places.BAD)) for way in ways)
    for error in ('UnrecognizedCritical', 'CriticalDuplicateCalendar'):
        yield error, places.REFUSED, '', reasons.template(reasons.texts_of(error), places.REFUSED, '')


class Texts(unittest.TestCase):
    """Tests of the lines of reasons.tsv."""

    def test_model_has_these_texts_and_no_others(self):
        self.assertEqual(set(texts_of_model()), {(it.line, it.way, it.at, it.text) for it in reason_texts()})

    def test_numbers(self):
        lines = {it.line for it in reason_texts()} - {'UnrecognizedCritical', 'CriticalDuplicateCalendar'}
        self.assertEqual(lines, {line.name for reader in places.READERS[False].values() for line in reader.lines})
        self.assertEqual((len(lines), len({it.text for it in reason_texts()})), (120, 154))

    def test_examples(self):
        for it in reason_texts():
            said = f'error {it.line} {it.way} {it.begin}..{it.end}: {it.shown}'
            self.assertEqual(places.answer(it.spelled(), it.wide, places.REASONS), said, it)

    def test_marks(self):
        for it in reason_texts():
            text = ''.join(map(chr, it.units))
            self.assertEqual(reasons.marked(it.units if it.wide else text.encode(), it.begin, it.end, it.wide),
                             [text, ' ' * it.begin + '^' * max(1, it.end - it.begin)], it)

    def test_what_is_shown_of_the_input(self):
        parts = {'{char}': '(`[!-~]`|a space|U\\+00FC)', '{number}': '[0-9]{2}', '{last}': '(28|29|30|31)', '{front}': '[0-9-]{4,7}'}
        for it in reason_texts():
            pattern = re.sub(r'\\\{\w+\\\}', lambda part: parts[part[0].replace('\\', '')], re.escape(it.text))
            self.assertRegex(it.shown, f'\\A{pattern}\\Z', it)

    def test_style(self):
        for it in reason_texts():
            self.assertRegex(it.shown, r'\A[ -~]{10,80}(?<!\.)\Z')
            if it.way in (places.AT_OTHER, places.AT_BAD):
                self.assertRegex(it.text, r'\A(expected|a time zone).* found (\{char\}|`.`)\Z|\Afound `.` before .* none before')
            if it.way == places.AT_END:
                self.assertRegex(it.text, r'\Athe text (is empty|ends) ?.*; expected ')

    def test_each_text_is_in_the_list_of_places(self):
        """Each text of reasons.tsv is also the message of an example of tests/refused.tsv for the same line."""
        for it in reason_texts():
            pattern = re.sub(r'\\\{\w+\\\}', '.+', re.escape(it.text))
            line = 'reply' if it.way == places.REFUSED else it.line
            self.assertTrue(any(re.fullmatch(pattern, example.reason) for example in examples() if example.line == line), it)


# lines for the program, and their reports
REPORTS = """
$ parse 2024-13-01
the month is 13, and has to be 01 to 12
2024-13-01
     ^^
$ parse 2024
the text ends after the year; expected `-` and the month
2024
    ^
$ parse 2024-3-2
expected a digit of the month, which has two, found `-`
2024-3-2
      ^
hint: write the month as `03`
$ parse 02/03/2024
expected a digit of the year, which has four, found `/`
02/03/2024
  ^
hint: write the year first, with four digits, then `-` and the month
$ parse 1709369280
the month is 36, and has to be 01 to 12
1709369280
    ^^
hint: a Unix time is not read; convert it first
$ parse 2023-02-29
the day is 29, and has to be 01 to 28
2023-02-29
        ^^
$ parse 2024-W09-6
expected a digit of the month, which has two, found `W`
2024-W09-6
     ^
hint: a week is not read; write the month instead
$ parse 202403-02
found `-` before the day, but none before the month
202403-02
      ^
$ parse 2024-03-02T24:00
the hour is 24, and has to be 00 to 23
2024-03-02T24:00
           ^^
hint: the end of a day is 00:00 of the next day
$ parse 2024-03-02 08:48:00 +0100
expected `.`, an offset, `[` or the end after the second, found a space
2024-03-02 08:48:00 +0100
                   ^
hint: remove the space before `+`
$ parse 2024-03-02 08:48 UTC
expected `:`, an offset, `[` or the end after the minute, found a space
2024-03-02 08:48 UTC
                ^
hint: write `Z` for UTC
$ parse 2024-03-02T08:48:00\u221205:00
expected `.`, an offset, `[` or the end after the second, found U+2212 (minus sign)
2024-03-02T08:48:00\u221205:00
                   ^
hint: write `-` instead
$ parse 2024-03-02Z
expected `T`, a space, `[` or the end after the date, found `Z`
2024-03-02Z
          ^
hint: an offset needs a time before it
$ parse 2024-03-02T08:48+05:30:60
the offset's second is 60, and has to be 00 to 59
2024-03-02T08:48+05:30:60
                       ^^
$ parse 2024-03-02T08:48Z[America/S\u00e3o_Paulo]
expected `]` or more of the time zone's name, found U+00E3
2024-03-02T08:48Z[America/S\u00e3o_Paulo]
                           ^
hint: a time zone's name has no letters but A to Z and a to z
$ parse 2024-03-02T08:48[U-CA=hebrew]
expected `]` or more of the time zone's name, found `=`
2024-03-02T08:48[U-CA=hebrew]
                     ^
hint: write an annotation's key in lower-case letters
$ parse 2024-03-02[Europe/Berlin
the text ends in the time zone's name; expected `]`
2024-03-02[Europe/Berlin
                        ^
$ parse 2024-03-02T08:48:00-05:00[America/New_York][u-ca=hebrew][key=a_b]
expected `]` or more of the annotation's value, found `_`
..48:00-05:00[America/New_York][u-ca=hebrew][key=a_b]
                                                  ^
$ parse 2024-03-02[!knort=blue]
the annotation's key is not known; without `!`, the annotation would be ignored
2024-03-02[!knort=blue]
          ^^^^^^^^^^^^^
hint: remove `!` if the annotation may be ignored
$ parse 2024-03-02[u-ca=hebrew][!u-ca=iso8601]
a later calendar differs from the first, and one is critical (`!`)
2024-03-02[u-ca=hebrew][!u-ca=iso8601]
                       ^^^^^^^^^^^^^^^
$ time 1214
`1214` may be a month and a day; write `T` before a time
1214
^^^^
$ duration P1.5D
expected a digit, `Y`, `M`, `W` or `D` after the number, found `.`
P1.5D
  ^
hint: only hours, minutes and seconds have a fraction, like PT0.5H
$ duration P1D2H
expected `T` before a number of hours or seconds, found `H`
P1D2H
    ^
hint: write `T` before hours, minutes and seconds
$ duration P1W2Y
the unit `Y` stands too late; the order is Y, M, W, D, each once
P1W2Y
   ^^
$ duration P99999999999999999999999D
the number is too great, and has to be at most 18446744073709551615
P99999999999999999999999D
 ^^^^^^^^^^^^^^^^^^^^^^^
$ parse 2024-03-02T08:48:00Z\U0001f600
expected `[` or the end after `Z`, found U+1F600
2024-03-02T08:48:00Z\U0001f600
                    ^
$ rfc9557 2024-03-02T08:48:00-05:00[Europe/1berlin-is-a-name-that-is-cut][u-ca=hebrew]
a part of the time zone's name does not begin with a letter, and has to
2024-03-02T08:48:00-05:00[Europe/1berlin-is-a-nam..
                         ^^^^^^^^^^^^^^^^^^^^^^^^
"""

# lines for the program, and their hints
HINTS = {
    'parse 2024-3-2': 'write the month as `03`', 'parse 2024-03-2T08:48': 'write the day as `02`', 'month-day 3-02': 'write the month as `03`',
    'month-day 03-2[a=b]': 'write the day as `02`', 'rfc3339 2024-03-2T08:48:00Z': 'write the day as `02`',
    'parse 2024-03-02T8:48': 'write the hour as `08`', 'rfc3339 2024-03-02T8:48:00Z': 'write the hour as `08`', 'time 8.5': 'write the hour as `08`',
    'parse 2024-03-02T08:4Z': 'write the minute as `04`', 'parse 2024-03-02T08:48:5Z': 'write the second as `05`',
    'offset -5:00': "write the offset's hour as `05`", 'rfc3339 2024-03-02T08:48:00+5:00': "write the offset's hour as `05`",
    'parse 2024-03-02[+05:3]': "write the offset's minute as `03`", 'offset +05:30:5.5': "write the offset's second as `05`",
    'parse 2024-03-02T24': 'the end of a day is 00:00 of the next day', 'rfc3339 2024-03-02T24:00:00Z': 'the end of a day is 00:00 of the next day',
    'time 2400': 'the end of a day is 00:00 of the next day',
    'parse 02/03/2024': 'write the year first, with four digits, then `-` and the month',
    'year-month 03/2024': 'write the year first, with four digits, then `-` and the month',
    'rfc3339 02.03.2024': 'write the year first, with four digits, then `-` and the month',
    'parse 3/2/24 8:48': 'write the year first, with four digits, then `-` and the month',
    'parse 02-Mar-24': 'write the year first, with four digits, then `-` and the month',
    'parse 2 Mar 2024': 'write the year first, with four digits, then `-` and the month',
    'rfc3339 Sat, 02 Mar 2024': 'write the year first, with four digits, then `-` and the month',
    'parse Mar 2, 2024': 'write the year first, with four digits, then `-` and the month',
    'parse 0044-03-15 BC': 'write a year BC with a sign and six digits, like -000043 for 44 BC',
    'duration 1 day 02:03:04': 'a duration begins with `P`, like P1DT2H30M',
    'rfc3339 2024-03-02T08:48:30+01:00[Europe/Paris]': 'RFC 3339 has no brackets; remove them, or read the text by RFC 9557',
    'rfc3339 2024-03-02T08:48:30Z[UTC]': 'RFC 3339 has no brackets; remove them, or read the text by RFC 9557',
    'parse 2024/03/02': 'write `-` instead', 'parse 2024-03.02': 'write `-` instead', 'month-day 3/02': '', 'month-day 03/02': 'write `-` instead',
    'rfc3339 2024/03/02': 'write `-` instead', 'rfc3339 2024-03/02': 'write `-` instead', 'year-month 2024/03': 'write `-` instead',
    'parse 2024\u201303\u201302': 'write `-` instead', 'rfc3339 2024-03-02T08:48:00\u221205:00': 'write `-` instead',
    'offset \u201005:00': 'write `-` instead', 'zone \u221205:00': 'write `-` instead', 'month-day -\u201003-02': 'write `-` instead',
    'parse 1709369280.25': 'a Unix time is not read; convert it first', 'rfc3339 1709369280123': 'a Unix time is not read; convert it first',
    'parse 1709369280000000': 'a Unix time is not read; convert it first', 'parse 1709369280000000000': 'a Unix time is not read; convert it first',
    'parse 1702302024': 'a Unix time is not read; convert it first', 'parse 1712012812': 'a Unix time is not read; convert it first',
    'year-month 1709369280': 'a Unix time is not read; convert it first',
    'time 14:58\t': 'remove the white space at the end', 'parse 2024-03-02\r': 'remove the white space at the end',
    'duration P1D ': 'remove the white space at the end', 'parse 2024-03-02 ': 'remove the white space at the end',
    'zone UTC \t': 'remove the white space at the end', 'zone +05:30 ': 'remove the white space at the end',
    'rfc3339 2024-03-02T08:48:00Z ': 'remove the white space at the end', 'parse 2024-03-02[UTC] ': 'remove the white space at the end',
    'iana  UTC': 'remove the white space at the start', 'parse \t2024-03-02': 'remove the white space at the start',
    'rfc3339  2024-03-02T08:48:00Z': 'remove the white space at the start', 'offset  +05:00': 'remove the white space at the start',
    'parse 2024-03-02T08:48 +01': 'remove the space before `+`', 'rfc3339 2024-03-02T08:48:00 Z': 'remove the space before `Z`',
    'parse 2024-03-02 08:48:00 +0000 UTC': 'remove the space before `+`', 'parse 2024-03-02T08:48 -1': 'remove the space before `-`',
    'parse 2024-03-02 [UTC]': 'remove the space before `[`', 'parse 2024-03-02T08:48Z [UTC]': 'remove the space before `[`',
    'parse 2024-03-02T08:48-05:00 [UTC]': 'remove the space before `[`', 'parse 2024-03-02[UTC] [a=b]': 'remove the space before `[`',
    'parse 2024-03-02T08:48 [UTC]': 'remove the space before `[`',
    'parse 2024-03-02 08:48 UTC': 'write `Z` for UTC', 'parse 2024-03-02T08:48GMT[UTC]': 'write `Z` for GMT',
    'parse 2024-03-02 08:48:00 CET': 'write an offset such as -05:00 instead of the abbreviation',
    'rfc3339 2024-03-02T08:48:00.5AEDT': 'write an offset such as -05:00 instead of the abbreviation',
    'parse 2024W096': 'a week is not read; write the month instead', 'parse 2024-W09-6': 'a week is not read; write the month instead',
    'year-month 2024-w09': 'a week is not read; write the month instead', 'rfc3339 2024W09': 'a week is not read; write the month instead',
    'parse 2024-062': 'a day of the year is not read; write the month instead',
    'parse 2024-366T12': 'a day of the year is not read; write the month instead',
    'rfc3339 2024-062T08:48:00Z': 'a day of the year is not read; write the month instead',
    'parse 2024062': 'a day of the year is not read; write the month instead',
    'parse 2024-03-02[u-CA=hebrew]': "write an annotation's key in lower-case letters",
    'parse 2024-03-02[U-CA=hebrew]': "write an annotation's key in lower-case letters",
    'parse 2024-03-02[UTC][U-CA=hebrew]': "write an annotation's key in lower-case letters",
    'parse 2024-03-02[UTC][!Knort=blue]': "write an annotation's key in lower-case letters",
    'parse 2024-03-02T08:48.5': 'only the second has a fraction', 'offset +05,5': 'only the second has a fraction',
    'rfc3339 2024-03-02T08.5': 'only the second has a fraction',
    'duration P1.5D': 'only hours, minutes and seconds have a fraction, like PT0.5H',
    'duration P1D2H': 'write `T` before hours, minutes and seconds',
    'duration P2D5M': '`M` before `T` is months; write `T` before minutes',
    'duration PT1D': 'write years, months, weeks and days before `T`',
    'parse 2024-03-02Z': 'an offset needs a time before it',
    'parse 2024-03-02+01:00': 'an offset needs a time before it', 'rfc3339 2024-03-02Z': 'an offset needs a time before it',
    'parse 2024-03-02 08:48 PM': 'write the hour as 00 to 23, without AM or PM',
    'parse 2024-03-02T08:48:00am': 'write the hour as 00 to 23, without AM or PM',
    'time 8:48 AM': 'write the hour as 00 to 23, without AM or PM', 'parse 2024-03-02 8:48 pm': 'write the hour as 00 to 23, without AM or PM',
    'parse 20240302084800.5': 'write `T` before the time', 'parse 2024-03-0208:48': 'write `T` before the time',
    'parse 202403022359': 'write `T` before the time', 'parse 2024030208:48:00Z': 'write `T` before the time',
    'parse 2024-03-02[=hebrew]': 'an annotation has a key and a value, like u-ca=hebrew',
    'parse 2024-03-02[UTC][!=x]': 'an annotation has a key and a value, like u-ca=hebrew',
    'parse 2024-03-02[UTC][hebrew]': 'an annotation has a key and a value, like u-ca=hebrew',
    'parse 2024-03-02[u-ca hebrew]': "write `=` after the annotation's key",
    'parse 2024-03-02[UTC][u-ca hebrew]': "write `=` after the annotation's key",
    'parse 2024-03-02[America/New York]': "a time zone's name has `_` instead of a space",
    'iana America/New York': "a time zone's name has `_` instead of a space",
    'iana Asia/S\u00e3o': "a time zone's name has no letters but A to Z and a to z",
    'iana \u00c5land': "a time zone's name has no letters but A to Z and a to z",
    'parse 2024-03-02[Asia/\u00d6]': "a time zone's name has no letters but A to Z and a to z",
    'time 2024-03-02T08:48': 'a date is not read before the time', 'time 1999-12-31 08:48': 'a date is not read before the time',
    'time 2400-12-31': 'a date is not read before the time',
    'parse 2024-03-02[!knort=blue]': 'remove `!` if the annotation may be ignored',
    'parse PT1H30M': 'a duration is no date; read it as a duration', 'rfc3339 p1D': 'a duration is no date; read it as a duration',
    'parse 08:48:00': 'a time is no date; read it as a time', 'rfc9557 T08:48:00Z': 'a time is no date; read it as a time',
    'rfc3339 08:48:00Z': 'a time is no date; read it as a time', 'year-month 08:48': 'a time is no date; read it as a time',
    'parse 12024-03-02': 'write a year after 9999 with a sign and six digits, like +012024',
    'parse +2024-03-02': 'write a year with a sign like +012024', 'parse +20': 'write a year with a sign like +012024',
    'rfc3339 12024-03-02T08:48:00Z': 'a year is 0000 to 9999 here, without a sign',
    'rfc9557 -000043-03-15T08:48:00Z': 'a year is 0000 to 9999 here, without a sign',
    'duration P-1D': 'a sign can only stand before `P`',
    'duration PT-1H': 'a sign can only stand before `P`', 'duration P1D+1D': 'a sign can only stand before `P`',
    'rfc9557 1840-01-01T08:48:30-00:01:15[Europe/London]': 'an offset has no seconds here',
    'parse 2024-03-02T08:48:00Z/PT1H': 'an interval is not read; read the texts before and after the `/`',
    'parse 2024-03-02/2024-03-05': 'an interval is not read; read the texts before and after the `/`',
    'duration P1D/2024-03-05': 'an interval is not read; read the texts before and after the `/`',
    # texts without a hint, each of which is nearly one of those above
    'parse 2024-0-2': '', 'parse 2024-3/2': '', 'parse 2024/x': '', 'parse 2024-03-02  [UTC]': '', 'parse 2024-Wed': '',
    'parse 1909369280': '', 'parse 170936928': '', 'parse 2024-03-02\tx': '', 'parse 2024-03-02Zulu': '', 'parse 24030': '',
    'parse 2024-03-02/x': '', 'parse 240302084800Z': '', 'parse 2460372.5': '', 'parse 2024-0622': '',
    'duration P1.D': '', 'rfc3339 2024-03-02 08:48:00,123': '', 'rfc9557 2024-03-02': '', 'month-day x': '', 'time ': '',
    'offset 05:00': '', 'zone 1': '', 'iana ': '', 'parse 20243-02': '', 'parse 2024-03-02T24:30': '', 'parse 2024-03-02T08:48 Zulu': '',
    'parse 2024-03-02T08:48 UTC+1': '', 'parse 2024-03-02[UTC][u-CA]': '', 'parse 2024-03-02T08:48.': '', 'duration P1DX': '',
    'parse 2024-03-02T08:48 PMx': '', 'parse 2024-03-02[America/New  York]': '', 'parse 2024-03-02T08:48:00Z\u2212': '', 'offset +05:00 [UTC]': '',
    'rfc3339 2024-03-02T08:48:00Z [UTC]': '', 'parse 2024-03-02[UTC ': '', 'parse 2024-03-021234567': '', 'parse 2024-03-022460': '',
    'parse 2024-03-02[UTC][u.ca=hebrew]': '', 'parse 2024-03-02[u-ca=a--b]': '', 'parse 2024-03-02[X-CA=hebrew]': '', 'time 20240302T08:48': '',
}


class Reports(unittest.TestCase):
    """Tests of whole reports: a text, a mark and a hint."""

    def report(self, line: bytes, wide: bool = False) -> list[str]:
        """The report of a line for the program."""
        return places.answer(line, wide, places.REPORTS).split(': ', 1)[1].split('\n')

    def test_reports(self):
        whole = REPORTS.split('\n$ ')[1:]
        for line, *said in (it.strip('\n').split('\n') for it in whole):
            for wide in (False, True):
                self.assertEqual(self.report(line.encode(), wide), said, (line, wide))
        self.assertEqual(len(whole), 27)

    def test_text_that_is_not_utf8(self):
        for line, wide, *said in [
                (b'parse 2024-03-02T08:48Z[Am\xe9rica]', False, "expected `]` or more of the time zone's name, found the byte 0xE9",
                 "hint: a time zone's name has no letters but A to Z and a to z"),
                (b'parse 2024-3-2\xff', False, 'expected a digit of the month, which has two, found `-`', 'hint: write the month as `03`'),
                (b'offset +05\xe2', True, "expected `:`, a digit or the end after the offset's hour, found the code unit 0xDCE2")]:
            self.assertEqual(self.report(line, wide), said)

    def test_control_characters(self):
        self.assertEqual(self.report(b'parse 2024-03-02\x1bT08'), ['expected `T`, a space, `[` or the end after the date, found U+001B',
                                                                   '2024-03-02.T08', '          ^'])

    def test_hints(self):
        for line, hint in HINTS.items():
            found = [it.removeprefix('hint: ') for it in self.report(line.encode()) if it.startswith('hint: ')]
            self.assertEqual(found, [hint] if hint else [], line)

    def test_each_hint_has_an_example(self):
        functions = {hint: set() for hint in places.hints.HINTS}
        for line in HINTS:
            with mock.patch.object(places.hints, 'hints', lambda it: [functions[hint].add(line) for hint in functions if hint(it)] and []):
                self.report(line.encode())
        self.assertEqual([hint for hint, lines in functions.items() if not lines], [])

    def test_texts_of_other_programs(self):
        """Each text that other programs write, or that people write by mistake, has a report with a mark."""
        with open(os.path.join(os.path.dirname(os.path.abspath(__file__)), 'refused_texts.txt'), 'rb') as file:
            lines = file.read().splitlines()
        self.assertEqual(len(set(lines)), 150)
        for line in lines:
            message, text, mark, *hint = self.report(line)
            self.assertRegex(mark, r'\A *\^+\Z', line)
            self.assertLessEqual(len(hint), 1, line)

    def test_other_letters(self):
        """Each text that is refused has the text of a reason and at most one hint, also with another code unit at the position of the error."""
        for it in examples():
            for unit, wide in itertools.product(b'0Zz[]=!+-:./ TtW\n\x00\xc3', (False, True)):
                units = it.units[:it.place] + [unit] + it.units[it.place + 1:]
                found = None if max(units) > 255 and not wide else places.refusal(it.reader, units, wide, it.strict)
                if found:
                    self.assertRegex(places.reason_text(found.reason, units, wide, it.strict), r'\A[ -~]{10,90}\Z')
                    self.assertLessEqual(len(places.hints_of(it.reader, found, units, wide, it.strict)), 1, (it, unit))


class WrongModels(unittest.TestCase):
    """Tests that the examples find each of these mistakes in the model."""

    def differences(self, shown: list[Example], says: Callable[[Example], tuple] = model_says) -> int:
        """The number of examples for which a model says something else than the table."""
        return sum(says(it) != (it.begin, it.end, it.reason) for it in shown)

    def of_each_row(self) -> Iterator[tuple[tuple, list[Example]]]:
        """The examples of each row, with the line and the row."""
        key = lambda it: (it.line, it.row)
        yield from ((row, list(shown)) for row, shown in itertools.groupby(sorted(examples(), key=key), key))

    def test_no_difference(self):
        self.assertEqual(self.differences(examples()), 0)

    def test_one_off(self):
        def moved(begin: int, end: int) -> Callable[[Example], tuple]:
            return lambda it: (model_says(it)[0] + begin, model_says(it)[1] + end, model_says(it)[2])
        for (row, shown), off in itertools.product(self.of_each_row(), ((-1, 0), (1, 0), (0, -1), (0, 1))):
            self.assertEqual(self.differences(shown, moved(*off)), len(shown), (row, off))

    def test_text_of_a_neighbour(self):
        """If a line has the text of a line next to it, this is found, unless both lines have the same text."""
        right = reasons.texts_of
        for reader in places.READERS[False].values():
            for pair in zip(reader.lines, reader.lines[1:]):
                for line, other in (pair, pair[::-1]):
                    if right(line.name, line.follow) != right(other.name, other.follow):
                        self.assertTrue(self.is_found(line, other), (line.name, other.name))

    def is_found(self, line: places.Line, other: places.Line) -> bool:
        """Whether an example shows that a line has the text of another line."""
        right = reasons.texts_of

        def swapped(name, follow=(), begin=0):
            return right(other.name, other.follow or follow, begin) if name == line.name else right(name, follow, begin)
        shown = [it for it in examples() if it.line == line.name]
        with mock.patch.object(reasons, 'texts_of', swapped):
            try:
                return self.differences(shown) > 0
            except AttributeError:
                return True  # the other line has no text for this row

    def test_text_of_the_end_within_a_text(self):
        right = reasons.template
        for (row, shown) in self.of_each_row():
            if row[1] not in (places.AT_OTHER, places.AT_BAD):
                continue
            with mock.patch.object(reasons, 'template', lambda texts, way, letter: texts.end or right(texts, way, letter)):
                ends = [it for it in shown if reasons.texts_of(it.line, reasons_of_model()[id(it)].follow).end]
                self.assertEqual(self.differences(shown), len(ends), row)

    # for each function that says what is wrong for a whole line: wrong ones that are nearly the same
    NEARLY = [
        (places.two_digits_before, lambda text, place: (place - 1, place)),
        (places.two_digits_before, lambda text, place: (place - 2, place + 1)),
        (places.from_the_beginning, lambda text, place: (1, place)),
        (places.number_around, lambda text, place: (places.number_around(text, place)[0], place)),
        (places.number_around, lambda text, place: (place - 20, places.number_around(text, place)[1])),
        (places.number_before_unit, lambda text, place: (places.number_before_unit(text, place)[0], place)),
        (places.group_before, lambda text, place: (place - 1, place)),
        (places.group_before, lambda text, place: (places.number_before_unit(text, place)[0], place)),
        (places.group_before, lambda text, place: (places.group_before(text, place)[0], place - 1)),
        (places.bracket_before, lambda text, place: (places.bracket_before(text, place)[0] + 1, place)),
        (places.bracket_before, lambda text, place: (text.index('['), place)),
    ]

    def test_part_of_a_whole_line(self):
        for right, wrong in self.NEARLY:
            found = 0
            for it in (it for it in examples() if it.row == places.WHOLE or it.line == 'reply'):
                reader, text = places.READERS[it.strict][it.reader], places.letters_of(it.units, it.wide)
                if right is next((line.wrong for line in reader.lines if line.name == it.line), places.bracket_before):
                    self.assertEqual(right(text, it.place), (it.begin, it.end), it)
                    found += wrong(text, it.place) != (it.begin, it.end)
            self.assertGreater(found, 0, self.NEARLY.index((right, wrong)))


class Grammar(unittest.TestCase):
    """Tests of the examples in docs/GRAMMAR.md that have an error: those of the two profiles, and those of annotations."""

    def rows(self, head: str) -> list[dict[str, str]]:
        """The rows of the tables that have this column."""
        return [row for _, row in Document(Tree(ROOT), 'docs/GRAMMAR.md').tables() if head in row]

    def variant(self, reader: str, text: str, strict: bool = False) -> str:
        """The error of a text, or `ok`."""
        found = places.outcome(reader, list(text.encode()), strict=strict)
        return found if found == places.OK else found.error.variant

    def said(self, cell: str) -> str:
        """The error that a cell names, or `ok`."""
        named = re.match('`([A-Z][a-zA-Z]+)`', cell)
        return named[1] if named and named[1] in places.TEXTS else places.OK

    def test_profiles(self):
        rows = self.rows('The strict profile')
        for row in rows:
            reader, text = 'duration' if row['Reader'] == 'durations' else row['Reader'].strip('`'), row['Text'].strip('`')
            for strict, head in enumerate(("The crate's profile", 'The strict profile')):
                self.assertEqual(self.variant(reader, text, bool(strict)), self.said(row[head]), row)
        self.assertGreater(len(rows), 7)

    def test_annotations(self):
        rows = [row for row in self.rows('Returns') if 'handler' not in row['`parse` of `2020-01-01` and']]
        for row in rows:
            for text in re.findall('`([^`]*)`', row['`parse` of `2020-01-01` and']):
                self.assertEqual(self.variant('parse', '2020-01-01' + text), self.said(row['Returns']), row)
        self.assertEqual(len(rows), 3)


# ---------------------------------------------------------------------------------------------------------------------------------
# One row, and one front

# for each reader: the beginnings of texts, the letters that can follow each beginning, and the greatest number of letters that follow it
SHORT = {
    'parse': [('', '2-0W', 5), ('2020', '-01x', 5), ('2020-01-01T12', ':+05.Z[', 4), ('2020-01-01', '[!a=+-]', 4),
              ('2020-01-01[a=b]', '[!a=-]', 4)],
    'parse_year_month': [('', '2-0', 6), ('2020', '-1[', 4)],
    'parse_month_day': [('', '-103', 6), ('11-', '0[a]', 4)],
    'parse_time': [('', '12-:', 6), ('1', '02T:+', 5), ('2021', '-1[Z', 4)],
    'parse_rfc3339': [('', '2-0', 6), ('2020-', '01-T', 6), ('2020-01-01', 'T1: ', 5), ('2020-01-01T11:11', ':6Z.', 5),
                      ('2020-01-01T11:11:11', '.,1+Z', 4), ('2020-01-01T11:11:11+1', '1:6Z', 5)],
    'parse_rfc9557': [('', '2-0', 6), ('2020-01-01T11:11:11', '.,1Z[', 4), ('2020-01-01T11:11:11+1', '1:6[', 5),
                      ('2020-01-01T11:11:11Z', '[!a=+-]', 4), ('2020-01-01T11:11:11Z[', './a1]', 5), ('2020-01-01T11:11:11Z[+0', '1:0]', 5), ('2020-01-01T11:11:11Z[a=b]', '[!a=-]', 4)],
    'parse_offset': [('', '+05:.', 5), ('+05:00', ':0.6[', 4)],
    'parse_identifier': [('', '+0:Z/]', 4), ('+05', '0:6]', 5)],
    'parse_iana_identifier': [('', 'Z/+]', 5)],
    'duration': [('', '+P1YT', 5), ('P1', 'YDT1.', 5), ('PT1', 'HS.2', 5), ('P429496729', '56YMD', 4),
                 ('P1844674407370955161', '567TD', 3)],
}


def short_texts(name: str, end: str) -> Iterator[str]:
    """The short texts of a reader."""
    for before, letters, most in SHORT[name]:
        for length in range(most + 1):
            for behind in itertools.product(letters + end, repeat=length):
                yield before + ''.join(behind)


END_OF_REST = '\ufffe'  # a character that no text has


@cache
def after_rest(line: places.Line) -> re.Pattern:
    """The texts that a row of the line fits. The rest of the text after the front, and END_OF_REST, come before the text. So this one pattern
    can test each length of a front."""
    return re.compile(rf'(?s:(?P<rest>.*)){END_OF_REST}{line.front}(?=(?P=rest)\Z){line.behind}')


def fronts_that_fit(line: places.Line, text: str) -> list[int]:
    """The lengths of all fronts with which a row of the line fits a text."""
    return [at for at in range(len(text) + 1) if after_rest(line).match(text[at:] + END_OF_REST + text)]


def different_readers() -> Iterator[tuple[str, places.Reader]]:
    """The readers of both profiles, with their names. A strict reader with the same language and lines as the other one is left out."""
    for name, reader in places.READERS[False].items():
        strict = places.READERS[True][name]
        yield name, reader
        if (strict.language, strict.lines) != (reader.language, reader.lines):
            yield name, strict


class OneRow(unittest.TestCase):
    """Tests that exactly one row fits a text outside the language of a reader, with exactly one front, and that no row fits a text in the
    language."""

    def test_short_texts(self):
        for name, reader in different_readers():
            for text in short_texts(name, places.BAD):
                # This raises an error if no row fits, or more than one.
                reader.row(text)

    def test_fronts(self):
        for it in (it for it in examples() if it.line != 'reply' and it.place <= 13):
            text, lines = places.letters_of(it.units, it.wide), places.READERS[it.strict][it.reader].lines
            fronts = [front for line in lines if line.name == it.line for front in fronts_that_fit(line, text)]
            self.assertEqual(fronts, [it.place], it)

    def test_ranges(self):
        number = re.compile(places.NUMBER)
        below, above, past = (re.compile(it) for it in (places.NUMBER_BELOW_32, places.NUMBER_FROM_32, places.NUMBER_TOO_GREAT))
        for exponent, zeros in itertools.product(range(66), ('', '0', '00000')):
            for value in (2 ** exponent - 1, 2 ** exponent, 10 ** (exponent // 3) - 1, 10 ** (exponent // 3)):
                text = zeros + str(value)
                self.assertEqual(number.fullmatch(text) is not None, value < 2 ** 64, text)
                self.assertEqual(below.fullmatch(text) is not None, value < 2 ** 32, text)
                self.assertEqual(above.fullmatch(text) is not None, 2 ** 32 <= value < 2 ** 64, text)
                self.assertEqual(past.fullmatch(text) is not None, value // 10 < 2 ** 64 <= value, text)

    def test_calendar(self):
        dates = re.compile(places.DATE)
        for year in ('0000', '1900', '2000', '2020', '2021', '2100', '-000004', '+010000', '-000100', '+000000'):
            number = abs(int(year))
            february = 29 if number % 4 == 0 and (number % 100 or number % 400 == 0) else 28
            for month, days in enumerate((31, february, 31, 30, 31, 30, 31, 31, 30, 31, 30, 31), 1):
                for day in range(100):
                    fits = dates.fullmatch(f'{year}-{month:02}-{day:02}') is not None
                    self.assertEqual(fits, 1 <= day <= days, (year, month, day))


# ---------------------------------------------------------------------------------------------------------------------------------
# Replies, letters and the program

class Replies(unittest.TestCase):
    """Tests of handlers that do not always return the annotation."""

    TEXT = b'2020-01-01[u-ca=a][!u-ca=b][!x=y][z=1]'

    def heard(self, text: bytes, handler) -> tuple:
        """The outcome of `parse`, and the annotations with which the handler was called."""
        asked = []

        def listening(pair):
            asked.append(pair)
            return handler(len(asked), pair)
        return places.outcome('parse', text, handler=listening), asked

    def test_none_refuses_nothing(self):
        found, asked = self.heard(self.TEXT, lambda _, pair: None)
        self.assertEqual(found, places.OK)
        self.assertEqual(asked, [Annotation(False, 'u-ca', 'a'), Annotation(True, 'u-ca', 'b'), Annotation(True, 'x', 'y'),
                                 Annotation(False, 'z', '1')])

    def test_place_is_that_of_the_pair_whatever_the_reply(self):
        found, asked = self.heard(self.TEXT, lambda count, _: Annotation(True, 'k', 'v') if count == 3 else None)
        self.assertEqual(found, Fault(Error('UnrecognizedCritical'), 33))
        self.assertEqual(len(asked), 3)

    def test_rules_look_at_replies(self):
        found, asked = self.heard(self.TEXT, lambda count, _: Annotation(count == 4, 'u-ca', 'ab'[count == 4]))
        self.assertEqual(found, Fault(Error('CriticalDuplicateCalendar'), 38))
        found, asked = self.heard(self.TEXT, lambda count, _: Annotation(True, 'u-ca', 'a'))
        self.assertEqual((found, len(asked)), (places.OK, 4))

    def test_the_first_calendar_counts(self):
        text = b'2020-01-01[u-ca=a][u-ca=b][!u-ca=a]'
        self.assertEqual(places.outcome('parse', text), places.OK)

    def test_a_fault_ends_the_call_before_later_pairs(self):
        found, asked = self.heard(b'2020-01-01[UTC][a=b][c=d]x[!e=f]', lambda _, pair: pair)
        self.assertEqual((found, len(asked)), (Fault(Error('InvalidEnd'), 25), 2))
        found, asked = self.heard(b'2020-01-01[a=b][c=d][e', lambda count, pair: pair._replace(critical=count == 2))
        self.assertEqual((found, len(asked)), (Fault(Error('UnrecognizedCritical'), 20), 2))

    def test_no_pair_stands_before_a_fault_of_the_core(self):
        found, asked = self.heard(b'2020-01-01T24[!a=b]', lambda _, pair: pair)
        self.assertEqual((found, asked), (Fault(Error('TimeHour'), 13), []))


class Letters(unittest.TestCase):
    """Tests of code units and their letters."""

    def test_wide(self):
        self.assertEqual(places.letters_of([0, 1, 65, 126, 127, 128, 0xffff], True),
                         places.BAD + '\x01A~' + 3 * places.BAD)

    def test_bytes(self):
        self.assertEqual(places.letters_of(range(256), False), ''.join(map(chr, range(256))))

    def test_a_byte_that_no_class_has_is_another_letter(self):
        for unit in (0, 127, 128, 255):
            self.assertEqual(places.outcome('parse', [50, unit]), Fault(Error('DateYear'), 1))
            self.assertEqual(places.outcome('parse', [50, unit], wide=True), Fault(Error('NonAsciiCodePoint'), 1))


class Widths(unittest.TestCase):
    """Tests that compare the places in 16-bit text with those in 8-bit text of the same code units."""

    # a text up to a position in its first bracket, if the reader scans this bracket
    LOOKED_THROUGH = re.compile(r'[^\[]*\[!?[a-z_][^=\]]*\Z')

    def both(self, it: Example, units: list[int]) -> tuple:
        """The outcomes of the 8-bit and of the 16-bit text."""
        return tuple(places.outcome(it.reader, units, wide, it.strict) for wide in (False, True))

    def test_plain_units_have_one_outcome(self):
        for it in plain_examples():
            narrow, wide = self.both(it, it.units)
            self.assertEqual(narrow, wide, it)

    def test_another_unit(self):
        """The outcome is the same if the 8-bit reader needs no letter from this code unit on, and does not scan a first bracket."""
        for it in plain_examples():
            for at in range(len(it.units) + 1):
                units = it.units[:at] + [128] + it.units[at:]
                narrow, wide = self.both(it, units)
                one = self.stops_before(it, units, narrow, at) and not self.looks_through(it, units[:at])
                self.assertEqual(wide, narrow if one else Fault(Error('NonAsciiCodePoint'), at), (it, at))

    def stops_before(self, it: Example, units: list[int], narrow: Fault, at: int) -> bool:
        """Whether the error of 8-bit text depends only on the text before this code unit."""
        row = places.READERS[it.strict][it.reader].row(places.letters_of(units, False))
        of_a_letter = row.row == places.AT_OTHER and narrow == Fault(row.error, row.place)
        return narrow.place < at if of_a_letter else narrow.place <= at

    def looks_through(self, it: Example, front: list[int]) -> bool:
        """Whether a front consists of a core and the beginning of a first bracket that the reader scans."""
        letters = places.letters_of(front, False)
        core = places.READERS[it.strict][it.reader].core_of_brackets
        return core.match(letters) is not None and self.LOOKED_THROUGH.match(letters) is not None


class Program(unittest.TestCase):
    """Tests of the lines of the program."""

    def run_on(self, given: bytes, *arguments: str) -> list[str]:
        """Runs the program with these lines as standard input. Returns its answers."""
        program = [sys.executable, os.path.join(TOOLS, 'places.py'), *arguments]
        run = subprocess.run(program, input=given, stdout=subprocess.PIPE, check=True)
        return run.stdout.decode('ascii').splitlines()

    def test_lines(self):
        given = b'parse 2024-03-02\nparse 2020-13-01\nstrict-month-day 11-00\ncanonical 2020\nparse\nhello x\nparse \xff\nzone UTC'
        self.assertEqual(self.run_on(given), [
            'ok', 'error Parsed month value not in a valid range. at 7', 'error MonthDay was not valid. at 5',
            'error Parsing ended abruptly while parsing Date at 4', 'error unknown reader', 'error unknown reader',
            'error Invalid chracter while parsing year value. at 0', 'ok'])

    def test_reasons(self):
        given = b'parse 2024-03-02\nparse 2024-13-01\nhello x\nduration P4294967296y'
        reasons_of = ['ok', 'error month_range whole 5..7: the month is 13, and has to be 01 to 12', 'error unknown reader',
                      'error date_unit_range whole 1..11: the number before `y` is too great, and has to be at most 4294967295']
        self.assertEqual(self.run_on(given, '--reasons'), reasons_of)
        marks = [['2024-13-01', '     ^^'], ['P4294967296y', ' ^^^^^^^^^^']]
        self.assertEqual(self.run_on(given, '--reports'), reasons_of[:2] + marks[0] + reasons_of[2:] + marks[1])

    def test_explanations(self):
        for line, said in {
            'parse 2024-03-02': 'ok',
            'parse 2024-13-01': 'error at=7 part=5..7 reason=month_range',
            'parse 2020-01-01T2x': 'error at=12 part=12..13 reason=hour_digit',
            'time 1200': 'error at=4 part=0..4 reason=time_reads_as_month_day',
            'strict-time 1200': 'ok',
            'zone +24': 'error at=3 part=1..3 reason=zone_offset_hour_range',
            'canonical-year-month 2024': 'error at=4 part=4..4 reason=after_year_in_year_month',
            'rfc3339 2024-03-02T08:48Z': 'error at=16 part=16..17 reason=after_minute_field',
            'parse 2020-01-01[!a=b]': 'error at=16 part=10..16 reason=unrecognized_critical',
            'duration P4294967296y': 'error at=12 part=1..11 reason=date_unit_range',
            'duration PT5M4H': 'error at=6 part=4..6 reason=time_unit_order',
            'hello x': 'error unknown reader',
            'parse': 'error unknown reader',
            'explain parse 2024': 'error unknown reader',
            ' parse 2024': 'error unknown reader',
        }.items():
            self.assertEqual(places.answer(f'explain {line}'.encode()), said, line)
        self.assertEqual(places.answer(b'explain'), 'error unknown reader')
        self.assertEqual(places.answer(b'explain parse ' + b'0' * 4082), 'error at=6 part=4..6 reason=month_range')
        self.assertEqual(places.answer(b'explain parse ' + b'0' * 4083), 'error line too long')

    def test_every_byte_of_the_text_counts(self):
        self.assertEqual(places.answer(b'parse 2024-03-02\r'), 'error Unexpected character found after parsing was completed. at 10')
        self.assertEqual(places.answer(b'parse 2024-03-02 '), 'error Parsing ended abruptly while parsing digit at 11')
        self.assertEqual(places.answer(b'offset '), 'error Parsing ended abruptly while parsing time-numoffset at 0')

    def test_long_lines(self):
        longest = b'iana ' + b'a' * 4091
        self.assertEqual(places.answer(longest), 'ok')
        self.assertEqual(places.answer(longest + b'a'), 'error line too long')

    def test_utf16(self):
        given = 'iana S\u00e3o\niana Sao\niana \U0001f600\niana \x7f'.encode() + b'\niana S\xff'
        bad = 'error Code point was not ASCII at '
        self.assertEqual(self.run_on(given, '--utf16', '-'), [bad + '1', 'ok', bad + '0', bad + '0', bad + '1'])
        self.assertEqual(places.utf16_units('a\U0001f600'.encode()), [97, 0xd83d, 0xde00])


if __name__ == '__main__':
    unittest.main()
