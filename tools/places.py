#!/usr/bin/env python3
"""places.py [--utf16] [--reasons] [--reports] [FILE..]: prints the error and its position for each line of its input. The lines are those
of the program ixdtf_lines (docs/PROGRAM.md): a word, a space and a text.

This is a model of the readers. It was written only from docs/GRAMMAR.md and docs/FAULTS.md, so the library can be compared with it. It
does not read a text step by step. It has the productions of the grammar and the lines of the fault table as patterns, in the order and
with the names of the documents. To find the error of a text, it looks for the rows that fit the text.

For each line it prints `ok` if the reader accepts the text. Otherwise it prints `error`, the text of the error, ` at ` and the
position. If `explain` and a space are before the word, it prints `error`, the position, the part that is wrong and the name of the reason,
as ixdtf_lines does. Some lines have an answer that comes from no reader, for example lines with an unknown word. The tool gives the same
answers.
The file `-` is standard input. If there is no file, the tool reads standard input. With --utf16, each text is UTF-8, and the readers of
16-bit text get it as UTF-16. A byte that is not UTF-8 becomes one bad code unit. The exit status is 0 if all files can be read.

With --reasons, it prints the reason of the error instead of the error. The reason has these parts: the line of the fault table; the way in which
the text fails in this line, which is the row; the indices at which the part that is wrong begins and ends; and the text of the reason. With
--reports, more lines follow: the text that is refused, a mark under the part that is wrong, and a hint if there is one.

A *letter* is a code unit as a pattern sees it. A bad code unit has no letter.

The position of an error, called its *place* in this file, is the number of code units before it: the length of the prefix of the row
that fits, which is called its *front* here. So the place is

    the index of a letter that does not fit, or of a bad code unit;
    the length of the text, if the text ends too early;
    the end of the front, for a whole line: after a number out of its range, after a duration unit out of order, or after the part
    that makes a time ambiguous;
    the index after the `]` of an annotation, if a reply to this annotation is refused.

An error has one place. Its reason has two indices. They say which part of the text is wrong: the part begins at `begin`, and it ends before
`end`. The place is often one of the two, but not always:

    If a letter does not fit, or if a code unit is bad, the part is this code unit. `begin` is the place, and `end` is one more.
    If the text ends too early, the part is empty. `begin` and `end` are both the place, which is the length of the text.
    If a month, a day, an hour, a minute or a second is out of its range, the part is its two digits. `end` is the place.
    If the year is -000000, the part is the year with its sign. `begin` is 0, and `end` is the place.
    If a number of a duration is 2^64 or more, the part is all its digits. The place is after the digit with which the number reaches 2^64. More
        digits can follow this one, so `end` is the place or a later index.
    If the years, months or weeks of a duration are 2^32 or more, the part is the number without its duration unit. The place is after the
        duration unit, so `end` is one less than the place.
    If a duration unit is out of order, the part is its group: the number, the fraction if there is one, and the unit. `end` is the place.
    If a time is ambiguous, the part is the MonthDay or the YearMonth with which it begins. `begin` is 0, and `end` is the place.
    If a reply to an annotation is refused, or if `parse_rfc9557` refuses a zone after its `]`, the part is the bracket. `begin` is the index of
        its `[`, and `end` is the place.

A mark is below the part that is wrong, with one column for each character. If a code unit does not fit, the mark is below the character that
begins there, even if this character has more code units. If the part is empty, the mark is one column wide, below the end of the text.
"""
import os
import re
import sys
from functools import cache, cached_property
from typing import Callable, Iterator, NamedTuple, Optional, Sequence

import hints
import reasons


# ---------------------------------------------------------------------------------------------------------------------------------
# Letters (GRAMMAR, "Code units"). A text is a string of letters. A class is written as between the brackets `[` and `]` of a pattern.

BAD = '\uffff'  # stands for a bad code unit, which has no letter

DIGIT = '0-9'
SIGN = r'+\-'
HYPHEN = r'\-'
COLON = ':'
MARK = '.,'
TIME_LETTER = 'Tt'
SEPARATOR = 'Tt '
ZULU = 'Zz'
ZONE_LEAD = 'A-Za-z_.'
ZONE_CHAR = ZONE_LEAD + DIGIT + SIGN
KEY_LEAD = 'a-z_'
KEY_CHAR = KEY_LEAD + DIGIT + HYPHEN
VALUE_CHAR = 'A-Za-z' + DIGIT
DURATION_LETTER = 'Pp'
DATE_UNIT = 'YyMmWwDd'
TIME_UNIT = 'HhMmSs'
OPENING = r'\['
CLOSING = r'\]'
EXCLAMATION = '!'
EQUALS = '='
SLASH = '/'
ANY_LETTER = rf'\x00-{chr(ord(BAD) - 1)}'


def letters_of(units: Sequence[int], wide: bool) -> str:
    """The letters of 8-bit code units, or of 16-bit code units if `wide` is true. Of the latter, only 1 to 126 have a letter."""
    if wide:
        return ''.join(chr(unit) if 1 <= unit <= 126 else BAD for unit in units)
    return bytes(units).decode('latin-1')


# ---------------------------------------------------------------------------------------------------------------------------------
# Patterns. No pattern below matches a text in two ways. So the search ends soon for a text that does not match.

NOTHING = ''
NEVER = '(?!)'


def one(letters: str) -> str:
    """One letter in a class."""
    return f'[{letters}]'


def other_than(letters: str) -> str:
    """One letter that is not in a class. `BAD` is not a letter."""
    return f'[^{letters}{BAD}]'


def either(*parts: str) -> str:
    """One of the parts."""
    return f'(?:{"|".join(parts)})'


def maybe(part: str) -> str:
    """The part, or nothing."""
    return f'(?:{part})?'


def some(part: str) -> str:
    """The part, once or more often."""
    return f'(?:{part})+'


def any_number(part: str) -> str:
    """The part, any number of times."""
    return f'(?:{part})*'


def digits(least: int, most: Optional[int] = None) -> str:
    """From `least` to `most` digits, or exactly `least` digits if `most` is None."""
    return f'[{DIGIT}]{{{least},{least if most is None else most}}}'


def ahead(part: str) -> str:
    """The empty text, if the part follows it."""
    return f'(?={part})'


def not_ahead(part: str) -> str:
    """The empty text, if the part does not follow it."""
    return f'(?!{part})'


def but_not(excluded: str, shape: str) -> str:
    """A text of the shape that does not match `excluded`. Both match only texts of the same length."""
    return not_ahead(excluded) + shape


def two_digits(least: int, most: int) -> str:
    """A number from `least` to `most`, written with two digits."""
    return either(*(f'{tens}[{max(least - 10 * tens, 0)}-{min(most - 10 * tens, 9)}]' for tens in range(least // 10, most // 10 + 1)))


def as_long_and_less(limit: str) -> str:
    """A number with as many digits as the limit, and less than the limit. The first digit is not 0."""
    smaller = ((at, 0 if at else 1, int(digit) - 1) for at, digit in enumerate(limit))
    return either(*(f'{limit[:at]}[{low}-{high}]{digits(len(limit) - at - 1)}' for at, low, high in smaller if low <= high))


def as_long_and_not_less(limit: str) -> str:
    """A number with as many digits as the limit, and not less than the limit. The first digit is not 0."""
    greater = (f'{limit[:at]}[{int(digit) + 1}-9]{digits(len(limit) - at - 1)}' for at, digit in enumerate(limit) if digit != '9')
    return either(limit, *greater)


# ---------------------------------------------------------------------------------------------------------------------------------
# Dates (GRAMMAR, "Dates and times").

def four_digits_of_a_leap_year() -> str:
    """The last four digits of a leap year: divisible by 4 and not by 100, or divisible by 400."""
    fours = either('0[48]', '[2468][048]', '[13579][26]')
    return either(digits(2) + fours, either('00', fours) + '00')


LEAP = four_digits_of_a_leap_year()
EXTENDED = one(SIGN) + digits(2)
YEAR = either(digits(4), but_not('-000000', EXTENDED + digits(4)))
LEAP_YEAR = either(LEAP, but_not('-000000', EXTENDED + LEAP))
MONTH = two_digits(1, 12)
LONG_MONTH = either('0[13578]', '1[02]')
SHORT_MONTH = either('0[469]', '11')


def date(hyphen: str, year: str = YEAR, leap_year: str = LEAP_YEAR) -> str:
    """A year, a month and a day, with this text between them."""
    of_any_year = either(LONG_MONTH + hyphen + two_digits(1, 31), SHORT_MONTH + hyphen + two_digits(1, 30),
                         '02' + hyphen + two_digits(1, 28))
    return either(year + hyphen + of_any_year, leap_year + hyphen + '02' + hyphen + '29')


DATE = either(date('-'), date(NOTHING))
DATE_SHAPE = either(YEAR + '-' + MONTH + '-' + digits(2), YEAR + MONTH + digits(2))
YEAR_MONTH = YEAR + maybe('-') + MONTH


def month_day(strict: bool) -> str:
    """A month and a day. The least day is 0, or 1 under the strict profile."""
    least = 1 if strict else 0
    hyphen = maybe('-')
    return maybe('--') + either(LONG_MONTH + hyphen + two_digits(least, 31), SHORT_MONTH + hyphen + two_digits(least, 30),
                                '02' + hyphen + two_digits(least, 29))


MONTH_DAY_SHAPE = maybe('--') + MONTH + maybe('-') + digits(2)


# ---------------------------------------------------------------------------------------------------------------------------------
# Times and offsets (GRAMMAR, "Dates and times" and "Offsets").

HOUR = two_digits(0, 23)
MINUTE = two_digits(0, 59)
FRACTION = one(MARK) + some(one(DIGIT))


class Clock(NamedTuple):
    """One of the three parts that are written like a time: a time, an offset, or an offset without seconds."""
    name: str
    greatest_second: Optional[int]  # None: a second is not allowed
    mixed: str                      # the error at a colon or a digit after a minute, if it must not follow
    second: Optional[str]           # the error at a second


TIME_CLOCK = Clock('Time', 60, 'TimeSeparator', 'TimeSecond')
OFFSET_CLOCK = Clock('Offset', 59, 'UtcTimeSeparator', 'TimeMinuteSecond')
MINUTE_OFFSET_CLOCK = Clock('MinuteOffset', None, 'InvalidMinutePrecisionOffset', None)


def to_second(clock: Clock) -> str:
    """The shape of a time with a second and without a fraction."""
    return HOUR + either(':' + MINUTE + ':', MINUTE) + two_digits(0, clock.greatest_second)


def clock_text(clock: Clock) -> str:
    """The texts of a clock: those of a time, or those of an offset after its sign."""
    short = [HOUR + ':' + MINUTE, HOUR + MINUTE, HOUR]
    return either(*short) if clock.greatest_second is None else either(to_second(clock) + maybe(FRACTION), *short)


TIME = clock_text(TIME_CLOCK)
OFFSET = one(SIGN) + clock_text(OFFSET_CLOCK)
OFFSET_OR_Z = either(OFFSET, one(ZULU))
MINUTE_OFFSET = one(SIGN) + clock_text(MINUTE_OFFSET_CLOCK)


# ---------------------------------------------------------------------------------------------------------------------------------
# Zones and annotations (GRAMMAR, "Zones" and "Annotations").

NAME = one(ZONE_LEAD) + any_number(maybe('/') + one(ZONE_CHAR))
ZONE = either(NAME, MINUTE_OFFSET)
OPEN = one(OPENING) + maybe('!')
ZONE_BRACKET = OPEN + ZONE + one(CLOSING)
KEY = one(KEY_LEAD) + any_number(one(KEY_CHAR))
VALUE = some(one(VALUE_CHAR)) + any_number('-' + some(one(VALUE_CHAR)))
PAIR = OPEN + KEY + '=' + VALUE + one(CLOSING)


def brackets(zone_bracket: str) -> str:
    """One or more complete brackets. `zone_bracket` is the pattern of a bracket with a zone."""
    return either(zone_bracket, PAIR) + any_number(PAIR)


# the zones of RFC 9557, without extensions (`parse_rfc9557`)
EXACT_PART = not_ahead(r'\.{1,2}' + not_ahead(one(ZONE_CHAR))) + one(ZONE_LEAD) + any_number(one(ZONE_CHAR))
EXACT_NAME = EXACT_PART + any_number('/' + EXACT_PART)
EXACT_OFFSET = one(SIGN) + HOUR + ':' + MINUTE
EXACT_ZONE_BRACKET = OPEN + either(EXACT_NAME, EXACT_OFFSET) + one(CLOSING)

# a bracket with a name of which one part is `.` or `..`
DOTTED_BRACKET = OPEN + any_number(any_number(one(ZONE_CHAR)) + '/') + r'\.{1,2}' + either('/', one(CLOSING))


# ---------------------------------------------------------------------------------------------------------------------------------
# Durations (GRAMMAR, "Durations").

TWO_TO_32 = str(2 ** 32)
TWO_TO_64 = str(2 ** 64)
ZEROS = any_number('0')
NOT_ZERO = '[1-9]'
NUMBER = either(some('0'), ZEROS + either(NOT_ZERO + digits(0, 18), as_long_and_less(TWO_TO_64)))
NUMBER_BELOW_32 = either(some('0'), ZEROS + either(NOT_ZERO + digits(0, 8), as_long_and_less(TWO_TO_32)))
NUMBER_FROM_32 = ZEROS + either(as_long_and_not_less(TWO_TO_32), NOT_ZERO + digits(10, 18), as_long_and_less(TWO_TO_64))
# 2^64 or more, but less than 2^64 without its last digit
NUMBER_TOO_GREAT = ZEROS + either(as_long_and_not_less(TWO_TO_64), as_long_and_less(TWO_TO_64) + digits(1))


class Unit(NamedTuple):
    """A duration unit: its letters, and the numbers that a group of this unit may have."""
    letters: str
    number: str


DATE_UNITS = (Unit('Yy', NUMBER_BELOW_32), Unit('Mm', NUMBER_BELOW_32), Unit('Ww', NUMBER_BELOW_32), Unit('Dd', NUMBER))
TIME_UNITS = (Unit('Hh', NUMBER), Unit('Mm', NUMBER), Unit('Ss', NUMBER))
Units = tuple[Unit, ...]


def group(unit: Unit) -> str:
    """A number and the letter of its duration unit."""
    return unit.number + one(unit.letters)


def some_groups(units: Units, strict: bool) -> str:
    """One or more groups of these duration units. None comes after a group with a shorter unit. Under the strict profile, none comes after
    a group with the same unit."""
    def from_the(first: int) -> str:
        again = NOTHING if strict else any_number(group(units[first]))
        return group(units[first]) + again + any_groups(units[first + 1:], strict)
    return either(*(from_the(first) for first in range(len(units)))) if units else NEVER


def any_groups(units: Units, strict: bool) -> str:
    """Any number of groups of these duration units, in order."""
    return maybe(some_groups(units, strict)) if units else NOTHING


def groups_before(units: Units, at: int, strict: bool) -> str:
    """The groups after which a group of the unit with this index is in order."""
    return any_groups(units[:at] if strict else units[:at + 1], strict)


def groups_out_of_order(units: Units, at: int, strict: bool) -> str:
    """The groups, in order themselves, after which a group of the unit with this index is not in order."""
    first = at if strict else at + 1
    return any_groups(units[:first], strict) + some_groups(units[first:], strict)


def last_group(units: Units, strict: bool, number: str, before: Callable[[Units, int, bool], str]) -> str:
    """Groups, and then a number with the letter of one of the duration units. `before` returns the groups for the unit."""
    return either(*(before(units, at, strict) + number + one(unit.letters) for at, unit in enumerate(units)))


DURATION_START = maybe(one(SIGN)) + one(DURATION_LETTER)


def duration(strict: bool) -> str:
    """The texts of durations."""
    times = either(some_groups(TIME_UNITS, strict), last_group(TIME_UNITS, strict, NUMBER + FRACTION, groups_before))
    time = one(TIME_LETTER) + times
    return DURATION_START + either(some_groups(DATE_UNITS, strict) + maybe(time), time)


# ---------------------------------------------------------------------------------------------------------------------------------
# Errors (FAULTS, "The errors"): those that a reader returns.

class Error(NamedTuple):
    """An error: the name of its variant, and the location if it is `AbruptEnd`."""
    variant: str
    location: Optional[str] = None

    def __str__(self) -> str:
        """The text that `Display` writes."""
        if self.variant == 'AbruptEnd':
            return f'Parsing ended abruptly while parsing {self.location}'
        return TEXTS[self.variant]


TEXTS = {
    'NonAsciiCodePoint': 'Code point was not ASCII',
    'AbruptEnd': 'Parsing ended abruptly.',
    'InvalidEnd': 'Unexpected character found after parsing was completed.',
    'InvalidMonthRange': 'Parsed month value not in a valid range.',
    'InvalidDayRange': 'Parsed day value not in a valid range.',
    'DateYear': 'Invalid chracter while parsing year value.',
    'DateExtendedYear': 'Invalid character while parsing extended year value.',
    'DateMonth': 'Invalid character while parsing month value.',
    'DateDay': 'Invalid character while parsing day value.',
    'TimeHour': 'Invalid character while parsing hour value.',
    'TimeMinuteSecond': 'Invalid character while parsing minute/second value in (0, 59] range.',
    'TimeSecond': 'Invalid character while parsing second value in (0, 60] range.',
    'FractionPart': 'Invalid character while parsing fraction part value.',
    'DateSeparator': 'Invalid character while parsing date separator.',
    'TimeSeparator': 'Invalid character while parsing time separator.',
    'AnnotationClose': 'Invalid annotation close character.',
    'AnnotationKeyValueSeparator': 'Invalid annotation key-value separator character.',
    'AnnotationKeyLeadingChar': 'Invalid annotation key leading character.',
    'AnnotationKeyChar': 'Invalid annotation key character.',
    'AnnotationValueCharPostHyphen': 'Expected annotation value character must exist after hyphen.',
    'AnnotationValueChar': 'Invalid annotation value character.',
    'InvalidMinutePrecisionOffset': 'Offset must be minute precision',
    'CriticalDuplicateCalendar': 'Duplicate calendars cannot be provided when one is critical.',
    'UnrecognizedCritical': 'Unrecognized annoation is marked as critical.',
    'TzLeadingChar': 'Invalid time zone leading character.',
    'IanaCharPostSeparator': "Expected time zone character after '/'.",
    'IanaChar': "Invalid IANA time zone character after '/'.",
    'UtcTimeSeparator': "Invalid time zone character after '/'.",
    'OffsetNeedsSign': 'UTC offset needs a sign',
    'MonthDayHyphen': "MonthDay must begin with a month or '--'",
    'DurationDisgnator': 'Invalid duration designator.',
    'DurationValueExceededRange': 'Provided Duration field value exceeds supported range.',
    'DateDurationPartOrder': 'Invalid date duration part order.',
    'TimeDurationPartOrder': 'Invalid time duration part order.',
    'TimeDurationDesignator': 'Invalid time duration designator.',
    'AmbiguousTimeMonthDay': 'Time is ambiguous with MonthDay',
    'AmbiguousTimeYearMonth': 'Time is ambiguous with YearMonth',
    'InvalidMonthDay': 'MonthDay was not valid.',
}


# ---------------------------------------------------------------------------------------------------------------------------------
# Lines (FAULTS, "How to read a line").

OK = 'ok'                # in a table: the text can end here
NO_OTHER = 'no other'    # in a table: any letter can follow
AT_END, AT_BAD, AT_OTHER, WHOLE = 'end', 'bad', 'other', 'whole'
REFUSED = 'refused'      # if a reply is refused, which no table has


class At(NamedTuple):
    """One error for the letters of a class, and another error for every other letter."""
    letters: str
    error: str
    otherwise: str


# for a text and the place of an error: where the part that is wrong begins, and where it ends
Wrong = Callable[[str, int], tuple[int, int]]


class Line(NamedTuple):
    """A line of the fault table. Its front includes what the reader has before it."""
    name: str
    front: str
    behind: str                               # the pattern of the text after the front, if one of the rows fits
    goes_on: Optional[str]                    # the letters that can follow; None for a whole line
    end: Optional[Error]                      # the error at the end, or the error of a whole line; None if the text can end here
    other: tuple[tuple[str, Error], ...]      # the errors at other letters: that of the first class that contains the letter
    wrong: Optional[Wrong] = None             # for a whole line, the part that is wrong
    follow: tuple[str, ...] = ()              # what can follow a complete part in this reader, as the text of a reason names it

    def error(self, row: str, letter: str) -> Error:
        """The error of a row at this letter."""
        if row == AT_BAD:
            return Error('NonAsciiCodePoint')
        if row == AT_OTHER:
            return next(error for letters, error in self.other if re.match(one(letters), letter))
        return self.end


def abrupt(location: str) -> Error:
    """The error if the text ends in this part."""
    return Error('AbruptEnd', location)


def error_of(cell) -> Error:
    """The error that a cell of a table names."""
    return cell if isinstance(cell, Error) else Error(cell)


def errors_of(other) -> tuple[tuple[str, Error], ...]:
    """The errors that a cell of a table names for other letters. The first class that contains the letter counts."""
    if other == NO_OTHER:
        return ()
    cells = [(other.letters, other.error), (ANY_LETTER, other.otherwise)] if isinstance(other, At) else [(ANY_LETTER, other)]
    return tuple((letters, error_of(cell)) for letters, cell in cells)


def line(name: str, front: str, goes_on: str, end, other) -> Line:
    """A line. It has a row for a bad code unit. If the cells have an error for the end or for another letter, it has a row for these too."""
    rows = [f'(?P<{AT_BAD}>{BAD})']
    if end != OK:
        rows.append(rf'(?P<{AT_END}>\Z)')
    if other != NO_OTHER:
        rows.append(f'(?P<{AT_OTHER}>{other_than(goes_on)})')
    return Line(name, front, either(*rows), goes_on, None if end == OK else error_of(end), errors_of(other))


def whole(name: str, front: str, error: str, wrong: Wrong) -> Line:
    """A line whose row fits, whatever comes after the front."""
    return Line(name, front, f'(?P<{WHOLE}>)', None, error_of(error), (), wrong)


def after(before: str, lines: list[Line]) -> list[Line]:
    """The lines, with this text before their fronts."""
    return [it._replace(front=before + it.front) for it in lines]


# ---------------------------------------------------------------------------------------------------------------------------------
# The part that is wrong, if a whole line fits (see the beginning of this file).

def two_digits_before(text: str, place: int) -> tuple[int, int]:
    """A number of two digits before the place."""
    return place - 2, place


def from_the_beginning(text: str, place: int) -> tuple[int, int]:
    """All of the text before the place."""
    return 0, place


def number_around(text: str, place: int) -> tuple[int, int]:
    """The digits before the place, and those that come after it."""
    return re.search(f'{some(one(DIGIT))}\\Z', text[:place]).start(), re.compile(any_number(one(DIGIT))).match(text, place).end()


def number_before_unit(text: str, place: int) -> tuple[int, int]:
    """The digits before a duration unit. The unit comes just before the place."""
    return number_around(text, place - 1)


def group_before(text: str, place: int) -> tuple[int, int]:
    """The group of a duration before the place: the number, its fraction and the unit."""
    return re.search(f'{some(one(DIGIT))}{maybe(FRACTION)}[{DATE_UNIT}{TIME_UNIT}]\\Z', text[:place]).start(), place


def bracket_before(text: str, place: int) -> tuple[int, int]:
    """The bracket before the place."""
    return text.rindex('[', 0, place), place


# ---------------------------------------------------------------------------------------------------------------------------------
# Dates, year-months and month-days (FAULTS, "Dates" and "Year-months and month-days").
#
#        line                         front                                        goes on with       end              other

YEAR_LINES = [
    line('year_start',                NOTHING,                                     DIGIT + SIGN,      abrupt('digit'), 'DateYear'),
    line('year_digits',               digits(1, 3),                                DIGIT,             abrupt('digit'), 'DateYear'),
    line('extended_year_digits',      one(SIGN) + digits(0, 5),                    DIGIT,             abrupt('digit'), 'DateExtendedYear'),
    whole('minus_zero_year',          '-000000',                                                      'DateExtendedYear', from_the_beginning),
]
AFTER_YEAR_LINES = [
    line('after_year',                YEAR,                                        HYPHEN + DIGIT,    abrupt('Date'),  'DateMonth'),
]
MONTH_LINES = [
    line('month_digits',              YEAR + either('-' + digits(0, 1), digits(1)), DIGIT,            abrupt('digit'), 'DateMonth'),
    whole('month_range',              YEAR + maybe('-') + but_not(MONTH, digits(2)),                  'InvalidMonthRange', two_digits_before),
]
DAY_LINES = [
    line('after_hyphened_month',      YEAR + '-' + MONTH,                          HYPHEN,            'DateSeparator', 'DateSeparator'),
    line('after_basic_month',         YEAR + MONTH,                                DIGIT,             abrupt('digit'),
         At(HYPHEN, 'DateSeparator', 'DateDay')),
    line('day_digits',                either(YEAR + MONTH + digits(1),
                                             YEAR + '-' + MONTH + '-' + digits(0, 1)), DIGIT,         abrupt('digit'), 'DateDay'),
    whole('day_range',                but_not(DATE, DATE_SHAPE),                                      'InvalidDayRange', two_digits_before),
    line('after_date',                DATE,                                        SEPARATOR + OPENING, OK,            'InvalidEnd'),
]
YEAR_MONTH_LINES = [
    line('after_year_in_year_month',  YEAR,                                        HYPHEN + DIGIT,    abrupt('digit'), 'DateMonth'),
    line('after_year_month',          YEAR_MONTH,                                  OPENING,           OK,              'InvalidEnd'),
]


def month_day_lines(strict: bool) -> list[Line]:
    """The lines of month-days."""
    hyphens, month, valid = maybe('--'), maybe('--') + MONTH, month_day(strict)
    return [
        line('month_day_start',        NOTHING,                                    HYPHEN + DIGIT,    abrupt('MonthDay'), 'DateMonth'),
        line('month_day_hyphen',       '-',                                        HYPHEN,            abrupt('MonthDay'), 'MonthDayHyphen'),
        line('month_day_month_digits', either('--', hyphens + digits(1)),          DIGIT,             abrupt('digit'), 'DateMonth'),
        whole('month_day_month_range', hyphens + but_not(MONTH, digits(2)),                           'InvalidMonthRange', two_digits_before),
        line('after_month_day_month',  month,                                      HYPHEN + DIGIT,    abrupt('digit'), 'DateDay'),
        line('month_day_day_digits',   month + either('-', maybe('-') + digits(1)), DIGIT,            abrupt('digit'), 'DateDay'),
        whole('month_day_range',       but_not(valid, MONTH_DAY_SHAPE),                               'InvalidMonthDay', two_digits_before),
        line('after_month_day',        valid,                                      OPENING,           OK,              'InvalidEnd'),
    ]


# ---------------------------------------------------------------------------------------------------------------------------------
# Times, and offsets after their sign (FAULTS, the section of this name).

class Follow(NamedTuple):
    """What can follow a complete part, the errors if something else follows, and how reasons name what can follow."""
    letters: str
    end: str
    other: str
    named: tuple[str, ...]


FOLLOWS_TIME = Follow(SIGN + ZULU + OPENING, OK, 'InvalidEnd', ('an offset', '`[`', 'the end'))
FOLLOWS_OFFSET = Follow(OPENING, OK, 'InvalidEnd', ('`[`', 'the end'))
FOLLOWS_ZONE = Follow(CLOSING, 'AnnotationClose', 'AnnotationClose', ('`]`',))
NOTHING_FOLLOWS = Follow(NOTHING, OK, 'InvalidEnd', ('the end',))


def followed_by(follow: Follow, lines: list[Line]) -> list[Line]:
    """The lines of a reader in which this can follow a complete part."""
    return [it._replace(follow=follow.named) for it in lines]


def clock_lines(clock: Clock, follow: Follow) -> list[Line]:
    """The lines of a clock. The first one is `hour_start`."""
    of = f' {clock.name}'
    mixed = At(COLON + DIGIT, clock.mixed, follow.other)
    seconds = clock.greatest_second is not None
    digit, colon = (DIGIT, COLON) if seconds else (NOTHING, NOTHING)
    lines = [
        line('hour_start' + of,         NOTHING,                                   DIGIT,                  abrupt('digit'), 'TimeHour'),
        line('hour_digit' + of,         digits(1),                                 DIGIT,                  abrupt('digit'), 'TimeHour'),
        whole('hour_range' + of,        but_not(HOUR, digits(2)),                                          'TimeHour', two_digits_before),
        line('after_hour' + of,         HOUR,                                      COLON + DIGIT + follow.letters, follow.end, follow.other),
        line('minute_digits' + of,      HOUR + either(':' + digits(0, 1), digits(1)), DIGIT,               abrupt('digit'), 'TimeMinuteSecond'),
        whole('minute_range' + of,      HOUR + maybe(':') + but_not(MINUTE, digits(2)),                    'TimeMinuteSecond', two_digits_before),
        line('after_basic_minute' + of, HOUR + MINUTE,                             digit + follow.letters, follow.end,      mixed),
        line('after_colon_minute' + of, HOUR + ':' + MINUTE,                       colon + follow.letters, follow.end,      mixed),
    ]
    return followed_by(follow, lines + second_lines(clock, follow, of) if seconds else lines)


def second_lines(clock: Clock, follow: Follow, of: str) -> list[Line]:
    """The last five lines of a clock with seconds."""
    basic, colon, to_the_second = HOUR + MINUTE, HOUR + ':' + MINUTE + ':', to_second(clock)
    too_great = but_not(two_digits(0, clock.greatest_second), digits(2))
    return [
        line('second_digits' + of,  either(basic + digits(1), colon + digits(0, 1)), DIGIT,                abrupt('digit'), clock.second),
        whole('second_range' + of,  either(basic, colon) + too_great,                                      clock.second, two_digits_before),
        line('after_second' + of,   to_the_second,                                 MARK + follow.letters,  follow.end,      follow.other),
        line('fraction_start' + of, to_the_second + one(MARK),                     DIGIT,                  'FractionPart',  'FractionPart'),
        line('after_fraction' + of, to_the_second + FRACTION,                      DIGIT + follow.letters, follow.end,      follow.other),
    ]


# ---------------------------------------------------------------------------------------------------------------------------------
# The other lines of `parse_time`, and those of offsets (FAULTS, "Times that stand alone" and "Offsets and zone names").

# the text is a time with its offset, up to the end or up to a `[`
READS_AS_TIME = ahead(TIME + maybe(OFFSET_OR_Z) + either(r'\Z', one(OPENING)))


def time_alone_lines(strict: bool) -> list[Line]:
    """The lines that only `parse_time` has."""
    no_month_day = not_ahead(month_day(strict))
    return [
        line('time_start',                NOTHING,                                 DIGIT + TIME_LETTER, abrupt('digit'), 'TimeHour'),
        whole('time_reads_as_month_day',  READS_AS_TIME + month_day(strict),                            'AmbiguousTimeMonthDay', from_the_beginning),
        whole('time_reads_as_year_month', READS_AS_TIME + no_month_day + YEAR_MONTH,                    'AmbiguousTimeYearMonth', from_the_beginning),
    ]


OFFSET_START_LINES = [
    line('offset_start', NOTHING,     SIGN,    abrupt('time-numoffset'), 'OffsetNeedsSign'),
]
ZULU_LINES = [
    line('after_zulu',   one(ZULU),   OPENING, OK,                       'InvalidEnd'),
]


# ---------------------------------------------------------------------------------------------------------------------------------
# Zone names, brackets and annotations (FAULTS, "Offsets and zone names", "Brackets" and "Annotations").

IDENTIFIER_LINES = [
    line('identifier_start', NOTHING,    ZONE_LEAD + SIGN,              abrupt('TimeZoneAnnotation'), 'TzLeadingChar'),
]
IANA_LINES = [
    line('zone_name_start',  NOTHING,    ZONE_LEAD,                     'TzLeadingChar',              'TzLeadingChar'),
]
NAME_ALONE_LINES = followed_by(NOTHING_FOLLOWS, [
    line('in_zone_name',     NAME,       ZONE_CHAR + SLASH,             OK,  At(CLOSING, 'InvalidEnd', 'IanaChar')),
])
NAME_IN_BRACKET_LINES = followed_by(FOLLOWS_ZONE, [
    line('in_zone_name',     NAME,       ZONE_CHAR + SLASH + CLOSING,   'AnnotationClose',            'IanaChar'),
])
AFTER_SLASH_LINES = [
    line('after_zone_slash', NAME + '/', ZONE_CHAR,                     'IanaCharPostSeparator',      'IanaCharPostSeparator'),
]
FIRST_BRACKET_LINES = [
    line('first_bracket_start',  one(OPENING),       ZONE_LEAD + SIGN + EXCLAMATION, abrupt('AmbiguousAnnotation'), 'TzLeadingChar'),
    line('first_critical_start', one(OPENING) + '!', ZONE_LEAD + SIGN,               abrupt('AmbiguousAnnotation'), 'TzLeadingChar'),
    line('first_bracket_scan',   OPEN + one(KEY_LEAD) + any_number(other_than(EQUALS + CLOSING)),
         ANY_LETTER,                                                                 abrupt('AmbiguousAnnotation'), NO_OTHER),
]
AFTER_BRACKET_LINES = [
    line('after_bracket',        NOTHING,            OPENING,                        OK,                            'InvalidEnd'),
]
KEY_START_LINES = [
    line('key_start',          one(OPENING),       KEY_LEAD + EXCLAMATION, 'AnnotationKeyLeadingChar',      'AnnotationKeyLeadingChar'),
    line('critical_key_start', one(OPENING) + '!', KEY_LEAD,               'AnnotationKeyLeadingChar',      'AnnotationKeyLeadingChar'),
]
PAIR_LINES = [
    line('in_key',             KEY,                KEY_CHAR + EQUALS,      'AnnotationKeyValueSeparator',   'AnnotationKeyChar'),
    line('value_start',        KEY + '=',          VALUE_CHAR,             'AnnotationValueChar',           'AnnotationValueChar'),
    line('in_value',           KEY + '=' + VALUE,  VALUE_CHAR + HYPHEN + CLOSING, 'AnnotationClose',        'AnnotationValueChar'),
    line('after_value_hyphen', KEY + '=' + VALUE + '-', VALUE_CHAR,        'AnnotationValueCharPostHyphen', 'AnnotationValueCharPostHyphen'),
]

# a first bracket after its `[` or `[!`
UP_TO_EQUALS_OR_CLOSING = one(KEY_LEAD) + any_number(other_than(EQUALS + CLOSING))
READS_AS_NAME = either(ahead(but_not(one(KEY_LEAD), one(ZONE_LEAD))), ahead(UP_TO_EQUALS_OR_CLOSING + one(CLOSING)))
READS_AS_PAIR = ahead(UP_TO_EQUALS_OR_CLOSING + one(EQUALS))


EXACT_LINES = [
    whole('first_dots_form',     ahead(DOTTED_BRACKET) + OPEN + NAME + one(CLOSING),               'IanaChar', bracket_before),
    whole('first_name_form',     not_ahead(DOTTED_BRACKET) + but_not(EXACT_ZONE_BRACKET, OPEN + NAME + one(CLOSING)), 'IanaChar', bracket_before),
    whole('first_offset_form',   but_not(EXACT_ZONE_BRACKET, OPEN + MINUTE_OFFSET + one(CLOSING)), 'InvalidMinutePrecisionOffset',
          bracket_before),
]


def bracket_lines(core: str, zone_bracket: str) -> list[Line]:
    """The lines of the brackets after a core. `zone_bracket` is the pattern of a bracket with a zone."""
    core_and_open, bracketed = core + OPEN, core + brackets(zone_bracket)
    return (after(core, FIRST_BRACKET_LINES)
            + after(core_and_open + one(SIGN), clock_lines(MINUTE_OFFSET_CLOCK, FOLLOWS_ZONE))
            + after(core_and_open + READS_AS_NAME, NAME_IN_BRACKET_LINES + AFTER_SLASH_LINES)
            + after(core_and_open + READS_AS_PAIR, PAIR_LINES)
            + after(bracketed, AFTER_BRACKET_LINES + KEY_START_LINES)
            + after(bracketed + OPEN, PAIR_LINES))


# ---------------------------------------------------------------------------------------------------------------------------------
# Durations (FAULTS, the section of this name).

def date_group_lines(strict: bool) -> list[Line]:
    """The lines of durations up to the end of their date groups."""
    dates = DURATION_START + any_groups(DATE_UNITS, strict)
    some_dates = DURATION_START + some_groups(DATE_UNITS, strict)
    goes_on = DIGIT + TIME_LETTER
    unit = abrupt('DateDurationDesignator')
    disorder = DURATION_START + last_group(DATE_UNITS, strict, NUMBER, groups_out_of_order)
    too_great = DURATION_START + last_group(DATE_UNITS[:3], strict, NUMBER_FROM_32, groups_before)
    return [
        line('duration_start',            NOTHING,                  SIGN + DURATION_LETTER, abrupt('DurationStart'),      'DurationDisgnator'),
        line('after_duration_sign',       one(SIGN),                DURATION_LETTER,        abrupt('DurationDesignator'), 'DurationDisgnator'),
        line('after_duration_designator', DURATION_START,           goes_on,                abrupt('Duration'),           'InvalidEnd'),
        line('after_date_groups',         some_dates,               goes_on,                OK,                           'InvalidEnd'),
        line('group_digits date',         dates + NUMBER,           DIGIT + DATE_UNIT,      unit,                         unit),
        whole('group_value_range date',   dates + NUMBER_TOO_GREAT,                         'DurationValueExceededRange', number_around),
        whole('unit_order date',          disorder,                                         'DateDurationPartOrder', group_before),
        whole('date_unit_range',          too_great,                                        'DurationValueExceededRange', number_before_unit),
    ]


def time_group_lines(strict: bool) -> list[Line]:
    """The lines of durations from the `T` on."""
    designator = DURATION_START + any_groups(DATE_UNITS, strict) + one(TIME_LETTER)
    times = designator + any_groups(TIME_UNITS, strict)
    some_times = designator + some_groups(TIME_UNITS, strict)
    goes_on = DIGIT + MARK + TIME_UNIT
    unit = abrupt('TimeDurationDesignator')
    disorder = designator + last_group(TIME_UNITS, strict, NUMBER + maybe(FRACTION), groups_out_of_order)
    fraction_group = designator + last_group(TIME_UNITS, strict, NUMBER + FRACTION, groups_before)
    return [
        line('after_time_designator', designator,                  DIGIT,             'TimeDurationDesignator', 'TimeDurationDesignator'),
        line('group_digits time',     times + NUMBER,              goes_on,           unit,                     unit),
        whole('group_value_range time', times + NUMBER_TOO_GREAT,                     'DurationValueExceededRange', number_around),
        whole('unit_order time',      disorder,                                       'TimeDurationPartOrder', group_before),
        line('group_fraction_start',  times + NUMBER + one(MARK),  DIGIT,             'FractionPart',           'FractionPart'),
        line('group_fraction_digits', times + NUMBER + FRACTION,   DIGIT + TIME_UNIT, unit,                     unit),
        line('after_time_groups',     some_times,                  DIGIT,             OK,                       'InvalidEnd'),
        line('after_fraction_group',  fraction_group,              NOTHING,           OK,                       'InvalidEnd'),
    ]


# ---------------------------------------------------------------------------------------------------------------------------------
# Readers (GRAMMAR, "Whole texts"; FAULTS, what comes before the lines of each reader).

class Reason(NamedTuple):
    """Why a text is refused: the name of the line that fits, the way in which the text fails there, and where the part that is wrong begins
    and ends. The way is the row of the line: `end`, `other`, `bad` or `whole`. If a reply is refused, `line` is its error, and the way is
    `refused`. `follow` is what can follow a complete part, if the line has another text in a reader where something else can follow."""
    line: str
    way: str
    begin: int
    end: int
    follow: tuple[str, ...] = ()

    @property
    def name(self) -> str:
        """The name of the reason in the library."""
        return reason_name(self.line)


# the beginning of the name of a reason, for the part of the text to which its line belongs
FRONTS = {'': '', 'Time': '', 'Offset': 'offset_', 'MinuteOffset': 'zone_offset_'}
# the names of lines that are not the names of their reasons. `first_dots_form` and `first_name_form` have the same reason.
OTHER_NAMES = {'first_dots_form': 'first_name_form', 'group_value_range': 'group_range', 'field_digits': 'digits', 'field_range': 'range'}


def reason_name(line: str) -> str:
    """The name of the reason of a line, or of the error of a refused reply."""
    name, _, part = re.sub('(?<=[a-z])(?=[A-Z])', '_', line).lower().partition(' ')
    if name == 'after_field':
        return f'after_{part}'
    return FRONTS.get(line.partition(' ')[2], f'{part}_') + OTHER_NAMES.get(name, name)


class Row(NamedTuple):
    """A row that fits a text: the name of its line, which row of the line it is, its error, the length of its front, and its reason."""
    line: str
    row: str
    error: Error
    place: int
    reason: Reason


def what_is_wrong(it: Line, row: str, text: str, place: int) -> tuple[int, int]:
    """Where the part of the text that is wrong begins, and where it ends, for a row that fits with a front of this length."""
    if row == WHOLE:
        return it.wrong(text, place)
    return place, place if row == AT_END else place + 1


class Reader:
    """A reader: its language, its lines, and the core before its brackets, if it has brackets."""

    def __init__(self, language: str, lines: list[Line], core: str = NEVER):
        self.language = language
        self.lines = lines
        self.core = core

    @cached_property
    def of_language(self) -> re.Pattern:
        """The texts of the language."""
        return re.compile(self.language)

    @cached_property
    def rows(self) -> list[re.Pattern]:
        """For each line, the texts that one of its rows fits."""
        return [re.compile(it.front + it.behind) for it in self.lines]

    @cached_property
    def core_of_brackets(self) -> re.Pattern:
        """A core before a bracket."""
        return re.compile(self.core + ahead(one(OPENING)))

    def rows_that_fit(self, text: str) -> list[Row]:
        """The rows that fit a text, at most one of each line."""
        found = []
        for it, pattern in zip(self.lines, self.rows):
            match = pattern.match(text)
            if match:
                row, place = match.lastgroup, match.start(match.lastgroup)
                reason = Reason(it.name, row, *what_is_wrong(it, row, text, place), it.follow)
                found.append(Row(it.name, row, it.error(row, match[row]), place, reason))
        return found

    def row(self, text: str) -> Optional[Row]:
        """The one row that fits a text, or None if the text is in the language. Raises ValueError if no row or more than one fits, or if a
        row fits a text in the language."""
        rows, derived = self.rows_that_fit(text), self.of_language.fullmatch(text) is not None
        if len(rows) + derived != 1:
            raise ValueError(f'{text!r} has {len(rows)} rows that fit, and is {"" if derived else "not "}in the language: {rows}')
        return rows[0] if rows else None


def bracketed_reader(core: str, lines: list[Line], zone_bracket: str = ZONE_BRACKET) -> Reader:
    """A reader with brackets. It is made from its core and the lines of the core."""
    return Reader(core + maybe(brackets(zone_bracket)), lines + bracket_lines(core, zone_bracket), core)


def parse_reader() -> Reader:
    """The reader `parse`."""
    date_and, time_and = DATE + one(SEPARATOR), DATE + one(SEPARATOR) + TIME
    core = DATE + maybe(one(SEPARATOR) + TIME + maybe(OFFSET_OR_Z))
    return bracketed_reader(core, YEAR_LINES + AFTER_YEAR_LINES + MONTH_LINES + DAY_LINES
                            + after(date_and, clock_lines(TIME_CLOCK, FOLLOWS_TIME))
                            + after(time_and + one(SIGN), clock_lines(OFFSET_CLOCK, FOLLOWS_OFFSET))
                            + after(time_and, ZULU_LINES))


def time_reader(strict: bool) -> Reader:
    """The reader `parse_time`."""
    mark, marked_time = maybe(one(TIME_LETTER)), maybe(one(TIME_LETTER)) + TIME
    core = not_ahead(either(month_day(strict), YEAR_MONTH)) + marked_time + maybe(OFFSET_OR_Z)
    hour_start, *lines = clock_lines(TIME_CLOCK, FOLLOWS_TIME)
    return bracketed_reader(core, time_alone_lines(strict)
                            + after(one(TIME_LETTER), [hour_start]) + after(mark, lines)
                            + after(marked_time + one(SIGN), clock_lines(OFFSET_CLOCK, FOLLOWS_OFFSET))
                            + after(marked_time, ZULU_LINES))


# Date-times (GRAMMAR and FAULTS, "Date-times of RFC 3339").

FULL_DATE = date('-', digits(4), LEAP)
FULL_DATE_SHAPE = digits(4) + '-' + MONTH + '-' + digits(2)
SECFRAC = r'\.' + some(one(DIGIT))
UNTIL_MONTH = digits(4) + '-'
UNTIL_DAY = UNTIL_MONTH + MONTH + '-'
UNTIL_HOUR = FULL_DATE + one(TIME_LETTER)
UNTIL_MINUTE = UNTIL_HOUR + HOUR + ':'
UNTIL_SECOND = UNTIL_MINUTE + MINUTE + ':'
THROUGH_SECOND = UNTIL_SECOND + two_digits(0, 60)
THROUGH_TIME = THROUGH_SECOND + maybe(SECFRAC)
UNTIL_OFFSET_HOUR = THROUGH_TIME + one(SIGN)
UNTIL_OFFSET_MINUTE = UNTIL_OFFSET_HOUR + HOUR + ':'
DATE_TIME = either(THROUGH_TIME + one(ZULU), UNTIL_OFFSET_MINUTE + MINUTE)


def number_lines(field: str, until: str, number: str, digit: str, out_of_range: str) -> list[Line]:
    """The lines of a number with two digits. `until` is the pattern of the text before the number."""
    return [line(f'field_digits {field}', until + digits(0, 1), DIGIT, abrupt('digit'), digit),
            whole(f'field_range {field}', until + but_not(number, digits(2)), out_of_range, two_digits_before)]


def separator_line(field: str, through: str, goes_on: str, error: str) -> Line:
    """The line of the separator that must follow a number. `through` is the pattern of the text up to the end of the number."""
    return line(f'after_field {field}', through, goes_on, error, error)


def date_time_lines(follow: Follow) -> list[Line]:
    """The lines of date-times."""
    return followed_by(follow, [
        line('four_digits', digits(0, 3), DIGIT, abrupt('digit'), 'DateYear'),
        line('after_four_digits', digits(4), HYPHEN, abrupt('Date'), 'DateSeparator'),
        *number_lines('month_field', UNTIL_MONTH, MONTH, 'DateMonth', 'InvalidMonthRange'),
        separator_line('month_field', UNTIL_MONTH + MONTH, HYPHEN, 'DateSeparator'),
        line('field_digits day_field', UNTIL_DAY + digits(0, 1), DIGIT, abrupt('digit'), 'DateDay'),
        whole('field_range day_field', but_not(FULL_DATE, FULL_DATE_SHAPE), 'InvalidDayRange', two_digits_before),
        separator_line('day_field', FULL_DATE, TIME_LETTER, 'TimeSeparator'),
        *number_lines('hour_field', UNTIL_HOUR, HOUR, 'TimeHour', 'TimeHour'),
        separator_line('hour_field', UNTIL_HOUR + HOUR, COLON, 'TimeSeparator'),
        *number_lines('minute_field', UNTIL_MINUTE, MINUTE, 'TimeMinuteSecond', 'TimeMinuteSecond'),
        separator_line('minute_field', UNTIL_MINUTE + MINUTE, COLON, 'TimeSeparator'),
        *number_lines('second_field', UNTIL_SECOND, two_digits(0, 60), 'TimeSecond', 'TimeSecond'),
        line('after_field second_field', THROUGH_SECOND, '.' + SIGN + ZULU, abrupt('time-numoffset'),
             At(',', 'FractionPart', 'OffsetNeedsSign')),
        line('after_point', THROUGH_SECOND + r'\.', DIGIT, 'FractionPart', 'FractionPart'),
        line('after_secfrac', THROUGH_SECOND + SECFRAC, DIGIT + SIGN + ZULU, abrupt('time-numoffset'), 'OffsetNeedsSign'),
        *number_lines('offset_hour_field', UNTIL_OFFSET_HOUR, HOUR, 'TimeHour', 'TimeHour'),
        separator_line('offset_hour_field', UNTIL_OFFSET_HOUR + HOUR, COLON, 'UtcTimeSeparator'),
        *number_lines('offset_minute_field', UNTIL_OFFSET_MINUTE, MINUTE, 'TimeMinuteSecond', 'TimeMinuteSecond'),
        line('after_field offset_minute_field', UNTIL_OFFSET_MINUTE + MINUTE, follow.letters, follow.end, follow.other),
        line('after_utc', THROUGH_TIME + one(ZULU), follow.letters, follow.end, follow.other),
    ])


def readers(strict: bool) -> dict[str, Reader]:
    """The readers of a profile, by their names."""
    after_sign = after(one(SIGN), clock_lines(OFFSET_CLOCK, NOTHING_FOLLOWS))
    minute_after_sign = after(one(SIGN), clock_lines(MINUTE_OFFSET_CLOCK, NOTHING_FOLLOWS))
    return {
        'parse': parse_reader(),
        'parse_year_month': bracketed_reader(YEAR_MONTH, YEAR_LINES + MONTH_LINES + YEAR_MONTH_LINES),
        'parse_month_day': bracketed_reader(month_day(strict), month_day_lines(strict)),
        'parse_time': time_reader(strict),
        'parse_rfc3339': Reader(DATE_TIME, date_time_lines(NOTHING_FOLLOWS)),
        'parse_rfc9557': bracketed_reader(DATE_TIME, date_time_lines(FOLLOWS_OFFSET) + after(DATE_TIME, EXACT_LINES), EXACT_ZONE_BRACKET),
        'parse_offset': Reader(OFFSET, OFFSET_START_LINES + after_sign),
        'parse_identifier': Reader(ZONE, IDENTIFIER_LINES + NAME_ALONE_LINES + AFTER_SLASH_LINES + minute_after_sign),
        'parse_iana_identifier': Reader(NAME, IANA_LINES + NAME_ALONE_LINES + AFTER_SLASH_LINES),
        'duration': Reader(duration(strict), date_group_lines(strict) + time_group_lines(strict)),
    }


READERS = {strict: readers(strict) for strict in (False, True)}


# ---------------------------------------------------------------------------------------------------------------------------------
# Replies (GRAMMAR, "Annotations and the calendar"; FAULTS, "Annotations that are refused").

class Annotation(NamedTuple):
    """An annotation, or a reply to one."""
    critical: bool
    key: str
    value: str


Handler = Callable[[Annotation], Optional[Annotation]]


def each_replies_for_itself(pair: Annotation) -> Annotation:
    """The handler of the readers without a handler: it returns each annotation."""
    return pair


FIRST_BRACKET = re.compile(ZONE_BRACKET)
NEXT_PAIR = re.compile(rf'\[(?P<critical>!?)(?P<key>{KEY})=(?P<value>{VALUE})\]')


def pairs_before(reader: Reader, text: str, place: int) -> Iterator[tuple[Annotation, int, int]]:
    """The annotations that are complete before a place, each with the beginning and the end of its bracket."""
    core = reader.core_of_brackets.match(text)
    if not core:
        return
    zone = FIRST_BRACKET.match(text, core.end())
    pair = NEXT_PAIR.match(text, (zone or core).end())
    while pair and pair.end() <= place:
        yield Annotation(pair['critical'] == '!', pair['key'], pair['value']), pair.start(), pair.end()
        pair = NEXT_PAIR.match(text, pair.end())


def error_of_reply(reply: Annotation, calendar: Optional[Annotation]) -> Optional[Error]:
    """The error of a reply, if it is refused. `calendar` is the first calendar before it."""
    if reply.key != 'u-ca':
        return Error('UnrecognizedCritical') if reply.critical else None
    if calendar and calendar.value != reply.value and (calendar.critical or reply.critical):
        return Error('CriticalDuplicateCalendar')
    return None


class Fault(NamedTuple):
    """An error and its place, which is a number of code units."""
    error: Error
    place: int

    def __str__(self) -> str:
        return f'{self.error} at {self.place}'


class Refusal(NamedTuple):
    """What a reader says about a text that it refuses: the error with its place, and the reason."""
    fault: Fault
    reason: Reason


def refused_reply(reader: Reader, text: str, place: int, handler: Handler) -> Optional[Refusal]:
    """The first refusal of a reply to the annotations before a place. The handler is called for the annotations up to this reply, and not for
    those after it."""
    calendar = None
    for pair, begin, end in pairs_before(reader, text, place):
        reply = handler(pair)
        if reply is None:
            continue
        error = error_of_reply(reply, calendar)
        if error:
            return Refusal(Fault(error, end), Reason(error.variant, REFUSED, begin, end))
        if reply.key == 'u-ca':
            calendar = calendar or reply
    return None


def refusal(name: str, units: Sequence[int], wide: bool = False, strict: bool = False,
            handler: Handler = each_replies_for_itself) -> Optional[Refusal]:
    """What a reader says about a text of 8-bit code units, or of 16-bit code units if `wide` is true. None if it accepts the text."""
    reader, text = READERS[strict][name], letters_of(units, wide)
    row = reader.row(text)
    refused = refused_reply(reader, text, len(text) if row is None else row.place, handler)
    if refused or row is None:
        return refused
    return Refusal(Fault(row.error, row.place), row.reason)


def outcome(name: str, units: Sequence[int], wide: bool = False, strict: bool = False,
            handler: Handler = each_replies_for_itself) -> 'Fault | str':
    """`OK`, or the error and its place, that a reader returns for a text of 8-bit code units, or of 16-bit code units if `wide` is true."""
    found = refusal(name, units, wide, strict, handler)
    return found.fault if found else OK


def reason_text(reason: Reason, units: Sequence[int], wide: bool = False, strict: bool = False) -> str:
    """The text of a reason: what stands in the text, and what was expected."""
    line, way, begin, end, follow = reason
    letter = letters_of(units[begin:begin + 1], wide)
    template = reasons.template(reasons.texts_of(line, follow, begin), way, letter)
    return reasons.filled(template, line, units, begin, end, wide)


def hints_of(name: str, found: Refusal, units: Sequence[int], wide: bool = False, strict: bool = False) -> list[str]:
    """The hints for a text that a reader refuses, at most one."""
    line, way, begin, end, follow = found.reason
    texts = reasons.texts_of(line, follow, begin)
    ends_here = texts.other is not None and texts.end is None
    text = bytes_of(units, wide).decode('latin-1')
    return hints.hints(hints.Case(name, line, way, text, found.fault.place, ends_here, ends_here and '`[`' in texts.other))


def bytes_of(units: Sequence[int], wide: bool) -> bytes:
    """The bytes of a text, which is converted to UTF-8 if its code units have 16 bits. U+FFFD stands for a lone surrogate."""
    if not wide:
        return bytes(units)
    return b''.join(it.to_bytes(2, 'little') for it in units).decode('utf-16-le', 'replace').encode()


def report(name: str, found: Refusal, units: Sequence[int], wide: bool = False, strict: bool = False) -> list[str]:
    """The lines that tell a person why a reader refuses a text: the text of the reason; the text that was read, with a mark under what is
    wrong, if it is UTF-8 or UTF-16; and a hint, if there is one."""
    lines = [reason_text(found.reason, units, wide, strict), *reasons.marked(units, found.reason.begin, found.reason.end, wide)]
    return lines + [f'hint: {it}' for it in hints_of(name, found, units, wide, strict)]


# ---------------------------------------------------------------------------------------------------------------------------------
# The examples in tests/refused.tsv.

class Example(NamedTuple):
    """A text of tests/refused.tsv whose row has the reason and the message. `line` is the line of the fault table, or `reply` if a reply to an
    annotation is refused. `row` is the row of this line, or `refused`."""
    reader: str
    strict: bool
    wide: bool
    line: str
    row: str
    units: list[int]
    error: Error
    place: int
    begin: int
    end: int
    reason: str


REPLIES = ('UnrecognizedCritical', 'CriticalDuplicateCalendar')


@cache
def lines_by_reason() -> dict[str, str]:
    """The name of the line of each reason. Two lines have the reason `first_name_form`."""
    return {Reason(it.name, '', 0, 0).name: it.name for reader in READERS[False].values() for it in reader.lines if it.name != 'first_dots_form'}


def way_of(error: Error, place: int, begin: int, end: int) -> str:
    """The row of a line, by the part of the text that is wrong."""
    if error.variant in REPLIES:
        return REFUSED
    if error.variant == 'NonAsciiCodePoint':
        return AT_BAD
    return AT_END if begin == end else AT_OTHER if begin == place else WHOLE


def example_of(row, case) -> Example:
    """The example of a row of the table, for one of its cases."""
    error, place, (begin, end) = Error(*row['error'].split(' ')), int(row['at']), map(int, row['part'].split('..'))
    text = letters_of(case.units, case.width == 16)
    line = 'reply' if error.variant in REPLIES else lines_by_reason()[row['reason']]
    if line == 'first_name_form' and re.match(DOTTED_BRACKET, text[begin:]):
        line = 'first_dots_form'
    return Example({**WORDS, **STRICT_WORDS}[case.word], case.is_strict, case.width == 16, line, way_of(error, place, begin, end), list(case.units),
                   error, place, begin, end, row['message'])


@cache
def examples() -> list[Example]:
    """One example for each row of the table with a reason and a message. A person counted the place, and wrote the message by reading the text."""
    sys.path.insert(1, os.path.join(os.path.dirname(os.path.dirname(os.path.abspath(__file__))), 'tests'))
    import tables
    return [example_of(row, next(tables.cases_of(row))) for row in tables.rows('refused.tsv') if row['part'] and row['reason'] and row['message']]


# ---------------------------------------------------------------------------------------------------------------------------------
# The lines of the program.

LONGEST_LINE = 4096
WORDS = {'parse': 'parse', 'year-month': 'parse_year_month', 'month-day': 'parse_month_day', 'time': 'parse_time',
         'offset': 'parse_offset', 'zone': 'parse_identifier', 'iana': 'parse_iana_identifier', 'duration': 'duration',
         'canonical': 'parse', 'rfc3339': 'parse_rfc3339', 'rfc9557': 'parse_rfc9557', 'zone-name': 'parse_iana_identifier',
         'canonical-offset': 'parse_offset', 'canonical-zone': 'parse_identifier', 'canonical-duration': 'duration', 'instant': 'parse',
         'canonical-time': 'parse_time', 'canonical-year-month': 'parse_year_month', 'canonical-month-day': 'parse_month_day'}
STRICT_WORDS = {'strict-month-day': 'parse_month_day', 'strict-time': 'parse_time', 'strict-duration': 'duration'}


def utf16_units(text: bytes) -> list[int]:
    """The UTF-16 code units of a text in UTF-8."""
    spelled = text.decode('utf-8', 'surrogateescape').encode('utf-16-le', 'surrogatepass')
    return [spelled[at] | spelled[at + 1] << 8 for at in range(0, len(spelled), 2)]


REASONS, REPORTS = '--reasons', '--reports'
EXPLAIN = b'explain '


def explanation(found: Refusal) -> str:
    """The answer to `explain` for a text that a reader refuses."""
    reason = found.reason
    return f'error at={found.fault.place} part={reason.begin}..{reason.end} reason={reason.name}'


def answer(protocol_line: bytes, wide: bool = False, says: Optional[str] = None) -> str:
    """The answer to a line. `says` is an option that asks for the reason, or None."""
    if len(protocol_line) > LONGEST_LINE:
        return 'error line too long'
    explains = protocol_line.startswith(EXPLAIN)
    word, space, text = protocol_line[len(EXPLAIN) if explains else 0:].partition(b' ')
    word = word.decode('latin-1')
    strict = word in STRICT_WORDS
    reader = STRICT_WORDS.get(word) if strict else WORDS.get(word)
    if not space or reader is None:
        return 'error unknown reader'
    units = utf16_units(text) if wide else text
    found = refusal(reader, units, wide, strict)
    if found is None:
        return OK
    if explains:
        return explanation(found)
    if says is None:
        return f'error {found.fault}'
    first, *more = report(reader, found, units, wide, strict)
    line, way, begin, end, _ = found.reason
    return '\n'.join([f'error {line} {way} {begin}..{end}: {first}'] + (more if says == REPORTS else []))


def answer_file(lines: Iterator[bytes], wide: bool, says: Optional[str]) -> None:
    """Writes the answer to each line."""
    for it in lines:
        sys.stdout.write(answer(it.removesuffix(b'\n'), wide, says) + '\n')


def main(arguments: list[str]) -> None:
    """Answers the lines of the files that the arguments name."""
    sys.stdout.reconfigure(encoding='utf-8')
    wide = '--utf16' in arguments
    says = next((it for it in (REPORTS, REASONS) if it in arguments), None)
    for path in [it for it in arguments if it not in ('--utf16', REASONS, REPORTS)] or ['-']:
        if path == '-':
            answer_file(sys.stdin.buffer, wide, says)
            continue
        with open(path, 'rb') as lines:
            answer_file(lines, wide, says)


if __name__ == '__main__':
    main(sys.argv[1:])
