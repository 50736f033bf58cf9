#!/usr/bin/env python3
"""Tests of rfc_patterns.py: the examples of the two standards, and for each production some texts that are almost valid."""
import os
import sys
import unittest

sys.path.insert(0, os.path.dirname(os.path.abspath(__file__)))
from rfc_patterns import days_in, is_date_time, is_date_time_ext, is_date_time_to_process

# RFC 3339, section 5.8
DATE_TIMES = ['1985-04-12T23:20:50.52Z', '1996-12-19T16:39:57-08:00', '1990-12-31T23:59:60Z', '1990-12-31T15:59:60-08:00',
              '1937-01-01T12:00:27.87+00:20']

# RFC 9557: sections 1, 3 and 4
EXTENDED = ['1996-12-19T16:39:57-08:00[America/Los_Angeles]', '1996-12-19T16:39:57-08:00[America/Los_Angeles][u-ca=hebrew]',
            '1996-12-19T16:39:57-08:00[_foo=bar][_baz=bat]', '2022-07-08T00:14:07+01:00[Europe/Paris]', '2022-07-08T00:14:07Z[!Europe/London]',
            '2022-07-08T00:14:07Z[Europe/London]', '2022-07-08T00:14:07+01:00[!Europe/London]', '2022-07-08T00:14:07Z[!u-ca=chinese][u-ca=japanese]',
            '2022-07-08T00:14:07Z[u-ca=chinese][!u-ca=japanese]', '2022-07-08T00:14:07+01:00[knort=blargel]', '2022-07-08T00:14:07+00:00[+08:45]',
            '2022-07-08T00:14:07+00:00[!+08:45]']

NO_DATE_TIMES = ['', '19850412T232050Z', '1985-0412T23:20:50Z', '985-04-12T23:20:50Z', '+001985-04-12T23:20:50Z', '1985-4-12T23:20:50Z',
                 '1985-04-12', '1985-04-12 23:20:50Z', '1985-04-12_23:20:50Z', '1985-04-12T23Z', '1985-04-12T23:20Z', '1985-04-12T23:20:50',
                 '1985-04-12T23:20:50.Z', '1985-04-12T23:20:50,5Z', '1985-04-12T23:20:50+01', '1985-04-12T23:20:50+0100',
                 '1985-04-12T23:20:50+01:00:00', '1985-04-12T23:20:50+1:00', '1985-04-12T23:20:50\u221201:00', '1985-04-12T23:20:50Z\n',
                 ' 1985-04-12T23:20:50Z', '1985-00-12T23:20:50Z', '1985-13-12T23:20:50Z', '1985-04-00T23:20:50Z', '1985-04-31T23:20:50Z',
                 '1985-02-29T23:20:50Z', '1900-02-29T23:20:50Z', '1985-04-12T24:00:00Z', '1985-04-12T23:60:50Z', '1985-04-12T23:20:61Z',
                 '1985-04-12T23:20:50+24:00', '1985-04-12T23:20:50-00:60', '\uff11985-04-12T23:20:50Z', '1985-04-12T23:20:50.\u0665Z']

# texts that are not the suffix of a date-time
NO_SUFFIXES = ['[]', '[!]', '[UTC', 'UTC]', '[!!UTC]', '[.]', '[..]', '[Europe/..]', '[../Berlin]', '[Europe/./Berlin]', '[Europe//Berlin]', '[/UTC]',
               '[UTC/]', '[5]', '[Etc/5]', '[Etc/+5]', '[-]', '[+08]', '[+0845]', '[+08:45:00]', '[+24:00]', '[+08:60]', '[Z+08:45]', '[UTC][UTC]',
               '[u-ca=hebrew][UTC]', '[U-ca=hebrew]', '[5a=b]', '[-a=b]', '[=b]', '[a=]', '[a=-b]', '[a=b-]', '[a=b--c]', '[a=b_c]', '[a=b=c]',
               '[a.b=c]', '[UTC] ', '[UTC]\n']

# RFC 9557, section 3.3: suffix tags that a reader of `u-ca` can process, and suffix tags that it cannot process
PROCESSED = ['[u-ca=hebrew]', '[!u-ca=hebrew]', '[u-ca=chinese][u-ca=japanese]', '[!u-ca=chinese][!u-ca=chinese]', '[x=y]', '[!Europe/London]',
             '[u-ca=chinese][u-ca=japanese][!u-ca=chinese]', '[!UTC][!u-ca=hebrew][x=y]', '']
NOT_PROCESSED = ['[!u-ca=chinese][u-ca=japanese]', '[u-ca=chinese][!u-ca=japanese]', '[!u-ca=chinese][!u-ca=japanese]', '[!x=y]',
                 '[u-ca=hebrew][!x=y]', '[UTC][!knort=blargel]', '[u-ca=chinese][u-ca=japanese][!u-ca=japanese]', '[!u-ca=hebrew][u-ca=Hebrew]']


class Patterns(unittest.TestCase):
    def test_examples_of_the_standards(self):
        for text in DATE_TIMES:
            self.assertTrue(is_date_time(text) and is_date_time_ext(text), text)
        for text in EXTENDED:
            self.assertFalse(is_date_time(text), text)
            self.assertTrue(is_date_time_ext(text), text)

    def test_texts_that_are_nearly_right(self):
        for text in NO_DATE_TIMES:
            self.assertFalse(is_date_time(text) or is_date_time_ext(text), text)
        for suffix in NO_SUFFIXES:
            self.assertFalse(is_date_time_ext(DATE_TIMES[0] + suffix), suffix)

    def test_letters_in_either_case(self):
        self.assertTrue(is_date_time('1985-04-12t23:20:50z'))
        self.assertFalse(is_date_time('1985-04-12s23:20:50z'))

    def test_names(self):
        for name in ('Etc/GMT+5', '_', '...', '.a', 'a/..b', 'a/b.', 'a-', 'a5'):
            self.assertTrue(is_date_time_ext(f'1985-04-12T23:20:50Z[{name}]'), name)

    def test_critical_suffixes(self):
        for suffix in PROCESSED + NOT_PROCESSED:
            self.assertTrue(is_date_time_ext(DATE_TIMES[0] + suffix), suffix)
            self.assertEqual(is_date_time_to_process(DATE_TIMES[0] + suffix), suffix in PROCESSED, suffix)
        for suffix in NO_SUFFIXES:
            self.assertFalse(is_date_time_to_process(DATE_TIMES[0] + suffix), suffix)

    def test_days(self):
        for year, wanted in ((0, 29), (1, 28), (4, 29), (1900, 28), (2000, 29), (2023, 28), (2024, 29), (9999, 28)):
            self.assertEqual(days_in(year, 2), wanted, year)
        self.assertEqual(sum(days_in(2023, month) for month in range(1, 13)), 365)


if __name__ == '__main__':
    unittest.main()
