"""Hints for texts that a reader refuses. A hint says what to change in the text. The text of a reason (reasons.py) cannot say this, because
it is the same for each text that a row of the fault table fits. So a hint also looks at the code units near the error.

A hint must be true whatever the author of the text wanted to write. At most one hint fits a text, and many texts have none.
compare_messages.py compares the hints with those of `hint_in` of the library.
"""
import re
from typing import Callable, NamedTuple, Optional


class Case(NamedTuple):
    """What a hint looks at."""
    reader: str
    line: str
    way: str
    text: str         # a character for each byte of the text, which is UTF-8 if the code units have 16 bits
    place: int        # the position of the error
    ends_here: bool   # whether the text may end at the position, or whether it may go on with a bracket, as the text of the reason says
    opens_here: bool

    def behind(self, pattern: str) -> Optional[re.Match]:
        """The match of a pattern with the text from the position on."""
        return re.compile(pattern, re.DOTALL).match(self.text, self.place)

    def before(self, pattern: str) -> Optional[re.Match]:
        """The match of a pattern with the end of the text before the position."""
        return re.search(f'(?:{pattern})\\Z', self.text[:self.place], re.DOTALL)

    def is_other(self, *lines: str) -> bool:
        """Whether another code unit follows the prefix of one of these lines."""
        return self.way == 'other' and self.line in lines

    def is_in(self, *lines: str) -> bool:
        """Whether a code unit follows the prefix of one of these lines. It can be a bad one."""
        return self.way in ('other', 'bad') and self.line in lines


def lines_of(names: str, *clocks: str) -> tuple[str, ...]:
    """The names of lines for each of these clocks."""
    return tuple(f'{name} {clock}' for name in names.split() for clock in clocks)


DATE = '[0-9]{4}-[0-9]{2}-[0-9]{2}'
DATE_END = r'(\Z|[Tt \[])'    # what may follow a date
OFFSET_BEHIND = r'([Zz](?![A-Za-z])|[+-](?=[0-9]))'
BLANK = ' \t\n\r'
HALF_DAY = r'[AaPp][Mm]\Z'
# the lines after which an offset may follow
BEFORE_OFFSET = (*lines_of('after_hour after_basic_minute after_colon_minute after_second after_fraction', 'Time'),
                 'after_field second_field', 'after_secfrac')
# the lines in a date after which a `-` may follow
BEFORE_HYPHEN = ('after_year', 'after_year_in_year_month', 'after_hyphened_month', 'after_month_day_month', 'month_day_hyphen',
                 'after_four_digits', 'after_field month_field')
# U+2010, U+2013 and U+2212 in UTF-8
DASH = '\xe2\x80[\x90\x93]|\xe2\x88\x92'
IN_MONTH = ('month_digits', 'month_day_month_digits', 'field_digits month_field')

# for each line of a number of which only one digit stands there: the name of the number, and the letters that may follow the whole number
BEHIND_MONTH, BEHIND_DAY, BEHIND_CLOCK = '-', 'Tt [', ':.,Zz+-[]'
ONE_DIGIT = {
    **{line: ('month', BEHIND_MONTH) for line in IN_MONTH},
    **{line: ('day', BEHIND_DAY) for line in ('day_digits', 'month_day_day_digits', 'field_digits day_field')},
    **{f'field_digits {it}_field': (it, BEHIND_CLOCK) for it in ('hour', 'minute', 'second')},
    **{f'field_digits offset_{it}_field': (f"offset's {it}", BEHIND_CLOCK) for it in ('hour', 'minute')},
    **{f'{line} {clock}': (of + field, BEHIND_CLOCK)
       for clock, of in (('Time', ''), ('Offset', "offset's "), ('MinuteOffset', "offset's "))
       for line, field in (('hour_digit', 'hour'), ('minute_digits', 'minute'), ('second_digits', 'second'))},
}


def one_digit(it: Case) -> Optional[str]:
    """A number of one digit, as in `2024-3-2`."""
    if not it.is_other(*ONE_DIGIT):
        return None
    field, behind = ONE_DIGIT[it.line]
    least = '1' if field in ('month', 'day') else '0'
    found = it.before(rf'(?:\A|[-:+Tt ])([{least}-9])')
    if not found or it.text[it.place] not in behind or half_day(it):
        return None
    return f'write the {field} as `0{found[1]}`'


def end_of_day(it: Case) -> Optional[str]:
    """The hour 24 with no minutes."""
    is_hour = it.line in ('hour_range Time', 'field_range hour_field') and it.before('24')
    return 'the end of a day is 00:00 of the next day' if is_hour and it.behind(r'\Z|:?00') and not date_before_time(it) else None


def other_order(it: Case) -> Optional[str]:
    """A day or a month before the year."""
    is_after = it.is_other('year_digits', 'four_digits') and 1 <= it.place <= 2 and it.behind('[/. -][0-9A-Za-z]')
    is_word = it.is_other('year_start', 'four_digits') and it.place == 0 and it.behind('[A-Za-z]') and not other_kind(it)
    found = is_after or is_word
    return 'write the year first, with four digits, then `-` and the month' if found else None


def other_hyphen(it: Case) -> Optional[str]:
    """Where `-` fits, a `/` or `.` of a date, or a hyphen, a dash or a minus sign of another kind."""
    is_separator = it.is_other(*BEFORE_HYPHEN) and it.behind('[/.][0-9]')
    is_dash = it.is_in(*BEFORE_HYPHEN, *BEFORE_OFFSET, 'offset_start', 'identifier_start') and it.behind(DASH)
    return 'write `-` instead' if is_separator or is_dash else None


def unix_time(it: Case) -> Optional[str]:
    """A number of seconds, milliseconds, microseconds or nanoseconds since 1970, of a time from 2001 to 2030."""
    is_date = it.line in ('month_range', 'day_range') or it.is_other('after_date', 'after_four_digits')
    is_number = re.match(r'1[0-8](?:[0-9]{8}(?:\Z|[.,])|(?:[0-9]{11}|[0-9]{14}|[0-9]{17})\Z)', it.text)
    return 'a Unix time is not read; convert it first' if is_date and is_number else None


def blank_at_start(it: Case) -> Optional[str]:
    """White space before the text."""
    return 'remove the white space at the start' if it.way == 'other' and it.place == 0 and it.text[0] in BLANK else None


def blank_at_end(it: Case) -> Optional[str]:
    """White space after the text."""
    after_space = it.line == 'hour_start Time' and it.before(' ')
    found = (after_space or it.ends_here and it.way == 'other' and it.place < len(it.text)) and it.behind(rf'[{BLANK}]*\Z')
    return 'remove the white space at the end' if found else None


def space_before(it: Case) -> Optional[str]:
    """A space before an offset or a bracket."""
    if it.line == 'hour_start Time' and it.before(' ') and it.behind(r'\['):
        return 'remove the space before `[`'
    in_rfc = it.line in ('after_utc', 'after_field offset_minute_field')  # only one of two readers reads a bracket here
    found = it.is_other(*BEFORE_OFFSET) and it.behind(f' {OFFSET_BEHIND}') or it.way == 'other' and it.opens_here and not in_rfc and it.behind(r' (\[)')
    return f'remove the space before `{found[1]}`' if found else None


def zone_abbreviation(it: Case) -> Optional[str]:
    """The abbreviation of a time zone after a time, such as `UTC`."""
    found = it.behind(r' ?([A-Z]{3,5})(?:\Z|\[)') if it.is_other(*BEFORE_OFFSET) else None
    if not found:
        return None
    return f'write `Z` for {found[1]}' if found[1] in ('UTC', 'GMT') else 'write an offset such as -05:00 instead of the abbreviation'


def week(it: Case) -> Optional[str]:
    """A week of ISO 8601, as in `2024-W09-6`."""
    after_year = it.is_other('after_year', 'after_year_in_year_month', 'after_four_digits')
    after_hyphen = it.is_other(*IN_MONTH) and it.before('-')
    return 'a week is not read; write the month instead' if (after_year or after_hyphen) and it.behind('[Ww][0-9]') else None


def day_of_year(it: Case) -> Optional[str]:
    """A day of the year of ISO 8601, as in `2024-062` and `2024062`."""
    is_month = it.is_other('after_hyphened_month', 'after_field month_field')
    is_range = it.line in ('month_range', 'field_range month_field') and it.before('-..')
    is_basic = it.line == 'day_digits' and it.way == 'end' and re.fullmatch('[0-9]{7}', it.text)
    found = is_basic or (is_month or is_range) and it.behind('[0-9]' + DATE_END)
    return 'a day of the year is not read; write the month instead' if found else None


def capital_key(it: Case) -> Optional[str]:
    """A capital letter in the key of an annotation."""
    in_key = it.is_other('key_start', 'critical_key_start', 'in_key') and it.behind(r'[A-Z][^=\]]*=')
    in_name = it.is_other('in_zone_name') and it.before(r'[\[!][Uu]-[Cc][Aa]') and it.behind('=')
    return "write an annotation's key in lower-case letters" if in_key or in_name else None


def fraction(it: Case) -> Optional[str]:
    """A fraction of something that has none."""
    if not it.behind('[.,][0-9]'):
        return None
    if it.is_other('group_digits date'):
        return 'only hours, minutes and seconds have a fraction, like PT0.5H'
    no_seconds = (*lines_of('after_hour after_basic_minute after_colon_minute', 'Time', 'Offset'), 'after_field hour_field',
                  'after_field minute_field')
    return 'only the second has a fraction' if it.is_other(*no_seconds) else None


def wrong_side(it: Case) -> Optional[str]:
    """A duration unit on the wrong side of the `T`."""
    if it.is_other('group_digits date') and it.behind('[HhSs]'):
        return 'write `T` before hours, minutes and seconds'
    if it.line == 'unit_order date' and it.before('[Mm]'):
        return '`M` before `T` is months; write `T` before minutes'
    if it.is_other('group_digits time') and it.behind('[YyWwDd]'):
        return 'write years, months, weeks and days before `T`'
    return None


def offset_of_date(it: Case) -> Optional[str]:
    """An offset right after a date."""
    return 'an offset needs a time before it' if it.is_other('after_date', 'after_field day_field') and it.behind(OFFSET_BEHIND) else None


def other_kind(it: Case) -> Optional[str]:
    """A duration or a time where a date is expected."""
    is_start = it.is_other('year_start', 'four_digits') and it.place == 0
    if is_start and it.behind('[Pp][0-9Tt]'):
        return 'a duration is no date; read it as a duration'
    is_time = is_start and it.behind('[Tt][0-9]') or it.is_other('year_digits', 'four_digits') and it.place == 2 and it.behind(':')
    return 'a time is no date; read it as a time' if is_time else None


def long_year(it: Case) -> Optional[str]:
    """A year with more than four digits, or with a sign where years have none."""
    if it.is_other(*IN_MONTH) and it.place == 5 and it.before('[0-9]{5}') and it.behind('-[0-9]{2}-[0-9]{2}'):
        return f'write a year after 9999 with a sign and six digits, like +0{it.text[:5]}'
    if it.line == 'extended_year_digits':
        return 'write a year with a sign like +012024'
    is_long = it.is_other('after_four_digits') and it.behind('[0-9]{1,2}-')
    is_signed = it.is_other('four_digits') and it.place == 0 and it.behind('[+-][0-9]')
    return 'a year is 0000 to 9999 here, without a sign' if is_long or is_signed else None


def space_in_bracket(it: Case) -> Optional[str]:
    """A space in the name of a time zone, or instead of the `=` after a key."""
    after_key = it.before(r'[\[!][Uu]-[Cc][Aa]')
    if it.is_other('in_key') and it.behind(' ') and after_key:
        return "write `=` after the annotation's key"
    if it.is_other('in_zone_name') and it.behind(' [A-Za-z0-9]'):
        return "write `=` after the annotation's key" if after_key else "a time zone's name has `_` instead of a space"
    return None


def before_christ(it: Case) -> Optional[str]:
    """A year before Christ, as in `0044-03-15 BC`."""
    found = it.line == 'hour_start Time' and it.before(' ') and it.behind(r'BC\Z')
    return 'write a year BC with a sign and six digits, like -000043 for 44 BC' if found else None


def no_designator(it: Case) -> Optional[str]:
    """A duration without its `P`."""
    return 'a duration begins with `P`, like P1DT2H30M' if it.line == 'duration_start' and it.behind('[0-9]') else None


def bracket_of_rfc9557(it: Case) -> Optional[str]:
    """A bracket after a date-time of RFC 3339."""
    found = it.line in ('after_utc', 'after_field offset_minute_field') and it.behind(r'\[')
    return 'RFC 3339 has no brackets; remove them, or read the text by RFC 9557' if found else None


def sign_in_duration(it: Case) -> Optional[str]:
    """A sign after the `P` of a duration."""
    lines = ('after_duration_designator', 'after_date_groups', 'after_time_designator', 'after_time_groups')
    return 'a sign can only stand before `P`' if it.is_other(*lines) and it.behind('[+-]') else None


def offset_with_seconds(it: Case) -> Optional[str]:
    """An offset with seconds, where the offset has none."""
    return 'an offset has no seconds here' if it.is_other('after_field offset_minute_field') and it.behind(':[0-9]') else None


def interval(it: Case) -> Optional[str]:
    """An interval of ISO 8601, as in `2024-03-02/P1D`."""
    is_zone = it.line == 'in_zone_name' or it.line.endswith(' MinuteOffset')
    found = it.way == 'other' and it.ends_here and not is_zone and it.behind('/[0-9Pp]')
    return 'an interval is not read; read the texts before and after the `/`' if found else None


def other_letter(it: Case) -> Optional[str]:
    """A character that is not ASCII in the name of a time zone."""
    found = it.is_in('in_zone_name', 'after_zone_slash', 'zone_name_start') and it.behind('[^\0-\x7f]')
    return "a time zone's name has no letters but A to Z and a to z" if found else None


def time_without_t(it: Case) -> Optional[str]:
    """A time right after a date, as in `20240302084800`."""
    hour, minute, end = '(?:[01][0-9]|2[0-3])', '(?::?[0-5][0-9])', '(?![0-9])'
    time = f'{hour}{minute}(?:{minute}|(?!{minute})){end}'
    return 'write `T` before the time' if it.is_other('after_date') and it.behind(time) else None


def no_key(it: Case) -> Optional[str]:
    """An annotation without a key or a value, as in `[=hebrew]` or `[UTC][hebrew]`."""
    starts = ('first_bracket_start', 'first_critical_start', 'key_start', 'critical_key_start')
    is_alone = it.is_other(*starts) and it.behind('=') or it.is_other('in_key') and it.behind(r'\]')
    return 'an annotation has a key and a value, like u-ca=hebrew' if is_alone else None


def date_before_time(it: Case) -> Optional[str]:
    """A date where only a time is expected."""
    is_read = it.line in ('hour_range Time', 'minute_range Time') or it.is_other('after_hour Offset')
    found = it.reader == 'parse_time' and is_read and re.match(DATE, it.text)
    return 'a date is not read before the time' if found else None


def not_known(it: Case) -> Optional[str]:
    """A critical annotation with an unknown key."""
    return 'remove `!` if the annotation may be ignored' if it.line == 'UnrecognizedCritical' else None


def half_day(it: Case) -> Optional[str]:
    """`AM` or `PM` after a time."""
    is_hour = it.is_other('hour_digit Time', 'field_digits hour_field') and it.behind(':.*' + HALF_DAY)
    found = is_hour or it.is_other(*BEFORE_OFFSET) and it.behind(' ?' + HALF_DAY)
    return 'write the hour as 00 to 23, without AM or PM' if found else None


HINTS: tuple[Callable[[Case], Optional[str]], ...] = (
    one_digit, end_of_day, other_order, other_hyphen, unix_time, blank_at_start, blank_at_end, space_before, zone_abbreviation, week,
    day_of_year, capital_key, fraction, wrong_side, offset_of_date, other_kind, long_year, space_in_bracket, sign_in_duration,
    before_christ, no_designator, bracket_of_rfc9557, offset_with_seconds, interval, other_letter, time_without_t, no_key, date_before_time, not_known, half_day)


def hints(it: Case) -> list[str]:
    """The hints that fit, at most one."""
    return [found for found in (hint(it) for hint in HINTS) if found]
