"""The texts of reasons, and the mark of a report. The *reason* of an error tells a person why a reader refuses a text. Its text says what the
reader found, and what it expected instead. places.py finds the reason of an error, and this file has the words for it.

A line of the fault table has a text for the end of the text, and another one for a code unit that does not fit. A whole line has one text. These
rules hold for all texts:

    If the text ends, the reason names the part that is missing. If a code unit does not fit, the reason names what fits there.
    If two lines expect the same, they have the same text, in each reader and for both widths. A bad code unit has the text of another one.
    A text names what people usually write: `T` but not `t`, and `.` but not `,`. So it can leave out something that fits. But everything that
        it names fits.
    A text is short, because a report also shows the text that is refused. It is printable ASCII, and has no full stop at its end.

The words of the texts have these meanings:

    the year, the month, the day: the digits of a date, of a year-month or of a month-day; a year has its sign
    the hour, the minute, the second, the fraction: the digits of a time
    an offset: `Z`, or the sign of an offset
    the offset's hour, minute, second, fraction: the digits after the sign of an offset, which can be in a bracket
    the time zone: the content of a first bracket without `=`, or what `parse_identifier` reads
    the time zone's name: a time zone that is not an offset
    the annotation, its key, its value: a bracket with `=`, and the text before and after the `=`
    critical: marked with `!`
    the number, the unit: the digits and the letter of a group of a duration
    the sign: the sign before the `P` of a duration
    the end: the end of the text
    after a part: right after this part
    in a part: the part, or the separator before it, is there, but the part is not complete

Some texts have one of these words in braces. It stands for something from the input:

    {char}: the character that does not fit, or the letter of a duration unit
    {number}: the two digits of the number that is out of its range
    {last}: the last day of the month
    {front}: the beginning of an ambiguous time, which reads as something else
"""
import calendar
import re
import unicodedata
from typing import NamedTuple, Optional, Sequence


class Texts(NamedTuple):
    """The texts of a line."""
    end: Optional[str] = None               # if the text ends; None if it can end here
    other: Optional[str] = None             # if another code unit follows, or a bad one
    whole: Optional[str] = None             # for a whole line, or for a refused reply
    at: tuple[tuple[str, str], ...] = ()    # letters, and the text that the line has instead of `other` if one of these letters follows


# what can follow a complete part, as the texts name it. A text lists these parts in this order.
Follow = tuple[str, ...]


# ---------------------------------------------------------------------------------------------------------------------------------
# Texts that several lines have

DIGITS = '0123456789'
EMPTY_YEAR = Texts('the text is empty; expected a year of four digits', 'expected a year of four digits, found {char}')
AFTER_YEAR = Texts('the text ends after the year; expected `-` and the month', 'expected `-` or a digit of the month, found {char}')
AFTER_MONTH = Texts('the text ends after the month; expected `-` and the day', 'expected `-` after the month, found {char}')


def one_of(*parts: str) -> str:
    """The parts as a list in English."""
    *before, last = parts
    return f'{", ".join(before)} or {last}' if before else last


def digits_of(part: str, count: str = 'two') -> Texts:
    """The texts of a number that needs more digits."""
    return Texts(f'the text ends in the {part}; expected {count} digits', f'expected a digit of the {part}, which has {count}, found {{char}}')


DAY_DIGITS = digits_of('day')._replace(end='the text ends in the day; expected two digits for the month and for the day')


def range_of(part: str, least: str, greatest: str) -> Texts:
    """The text of a number of two digits that is out of its range."""
    return Texts(whole=f'the {part} is {{number}}, and has to be {least} to {greatest}')


def after_part(part: str, *parts: str) -> Texts:
    """The texts of a complete part with which the text may end."""
    return Texts(other=f'expected {one_of(*parts)} after {part}, found {{char}}')


def needs(part: str, separator: str, field: str) -> Texts:
    """The texts of a complete part that needs a separator and another part after it."""
    return Texts(f'the text ends after {part}; expected {separator} and {field}', f'expected {separator} after {part}, found {{char}}')


# ---------------------------------------------------------------------------------------------------------------------------------
# Dates, year-months and month-days

DATES = {
    'year_start': EMPTY_YEAR,
    'year_digits': digits_of('year', 'four'),
    'extended_year_digits': Texts('the text ends in the year; expected a sign and six digits',
                                  'expected a digit of the year, which has six after a sign, found {char}'),
    'minus_zero_year': Texts(whole='the year is -000000, and year 0 is written 0000'),
    'after_year': AFTER_YEAR,
    'month_digits': digits_of('month'),
    'month_range': range_of('month', '01', '12'),
    'after_hyphened_month': AFTER_MONTH,
    'after_basic_month': Texts('the text ends after the month; expected the day', 'expected a digit of the day, which has two, found {char}',
                               at=(('-', 'found `-` before the day, but none before the month'),)),
    'day_digits': DAY_DIGITS,
    'day_range': range_of('day', '01', '{last}'),
    'after_date': after_part('the date', '`T`', 'a space', '`[`', 'the end')._replace(
        at=((DIGITS, 'expected `T`, a space, `[` or the end after the two digits of the day, found {char}'),)),
    'after_year_in_year_month': AFTER_YEAR,
    'after_year_month': after_part('the month', '`[`', 'the end'),
    'month_day_start': Texts('the text is empty; expected a month and a day', 'expected a month of two digits, found {char}'),
    'month_day_hyphen': Texts('the text ends after `-`; expected a second `-` and the month',
                              'expected a second `-` before the month, found {char}'),
    'month_day_month_digits': digits_of('month'),
    'month_day_month_range': range_of('month', '01', '12'),
    'after_month_day_month': Texts('the text ends after the month; expected `-` and the day',
                                   'expected `-` or a digit of the day, found {char}'),
    'month_day_day_digits': DAY_DIGITS,
    'month_day_range': range_of('day', '01', '{last}'),
    'after_month_day': after_part('the day', '`[`', 'the end'),
}


# ---------------------------------------------------------------------------------------------------------------------------------
# Times and offsets

def clock_texts(clock: str, follow: Follow) -> dict[str, Texts]:
    """The texts of the lines of a clock. `follow` is what may follow a complete part."""
    of, its, greatest = ('the ', 'the ', '60') if clock == 'Time' else ("the offset's ", 'its ', '59')
    hour, minute, second, fraction = (of.removeprefix('the ') + it for it in ('hour', 'minute', 'second', 'fraction'))
    minutes = minute_offset_texts if clock == 'MinuteOffset' else minutes_before_seconds
    return {
        'hour_start': Texts(f'the text ends before the {hour}; expected two digits', digits_of(hour).other),
        'hour_digit': digits_of(hour),
        'hour_range': range_of(hour, '00', '23'),
        'after_hour': after_part(f'the {hour}', '`:`', 'a digit', *follow)._replace(end=missing(f'the {hour}', follow)),
        'minute_digits': digits_of(minute),
        'minute_range': range_of(minute, '00', '59'),
        **minutes(f'the {minute}', f'the {second}', its + 'minute', follow),
        'second_digits': digits_of(second),
        'second_range': range_of(second, '00', greatest),
        'after_second': after_part(f'the {second}', '`.`', *follow),
        'fraction_start': Texts(f'the text ends before the {fraction}; expected a digit', f'expected a digit of the {fraction}, found {{char}}'),
        'after_fraction': after_part(f'the {fraction}', 'a digit', *follow),
    }


def missing(part: str, follow: Follow) -> Optional[str]:
    """The text if the text ends after a part, and something must follow this part."""
    return None if 'the end' in follow else f'the text ends after {part}; expected {one_of(*follow)}'


def minutes_before_seconds(minute: str, second: str, its_minute: str, follow: Follow) -> dict[str, Texts]:
    """The texts of a complete minute that a second may follow."""
    after_basic, after_colon = after_part(minute, 'a digit', *follow), after_part(minute, '`:`', *follow)
    return {
        'after_basic_minute': after_basic._replace(at=((':', f'found `:` before {second}, but none before {its_minute}'),)),
        'after_colon_minute': after_colon._replace(at=((DIGITS, f'expected `:` before {second}, as before {its_minute}, found {{char}}'),)),
    }


def minute_offset_texts(minute: str, second: str, its_minute: str, follow: Follow) -> dict[str, Texts]:
    """The texts of a complete minute that no second may follow."""
    no_seconds = f"a time zone's offset has no seconds; expected {one_of(*follow)}, found {{char}}"
    texts = after_part(minute, *follow)._replace(end=missing(minute, follow), at=((':' + DIGITS, no_seconds),))
    return {'after_basic_minute': texts, 'after_colon_minute': texts}


TIMES_ALONE = {
    'time_start': Texts('the text is empty; expected a time', 'expected `T` or an hour of two digits, found {char}'),
    'time_reads_as_month_day': Texts(whole='`{front}` may be a month and a day; write `T` before a time'),
    'time_reads_as_year_month': Texts(whole='`{front}` may be a year and a month; write `T` before a time'),
    'offset_start': Texts('the text is empty; expected an offset', "expected `+` or `-` before the offset's hour, found {char}"),
    'after_zulu': after_part('`Z`', '`[`', 'the end'),
}


def date_time_texts() -> dict[str, Texts]:
    """The texts of the lines of date-times of RFC 3339. After the offset, `parse_rfc9557` reads brackets too. The texts say so."""
    parts = {'month_field': 'month', 'day_field': 'day', 'hour_field': 'hour', 'minute_field': 'minute', 'second_field': 'second',
             'offset_hour_field': "offset's hour", 'offset_minute_field': "offset's minute"}
    ranges = {'month_field': ('01', '12'), 'day_field': ('01', '{last}'), 'hour_field': ('00', '23'), 'minute_field': ('00', '59'),
              'second_field': ('00', '60'), 'offset_hour_field': ('00', '23'), 'offset_minute_field': ('00', '59')}
    return {
        **{f'field_digits {field}': digits_of(part) for field, part in parts.items()},
        'field_digits day_field': DAY_DIGITS,
        **{f'field_range {field}': range_of(part, *ranges[field]) for field, part in parts.items()},
        'after_four_digits': needs('the year', '`-`', 'the month'),
        'after_field month_field': AFTER_MONTH,
        'after_field day_field': needs('the date', '`T`', 'the time'),
        'after_field hour_field': needs('the hour', '`:`', 'the minute'),
        'after_field minute_field': needs('the minute', '`:`', 'the second'),
        'after_field second_field': Texts('the text ends after the second; expected an offset',
                                          'expected `.` or an offset after the second, found {char}'),
        'after_point': Texts('the text ends before the fraction; expected a digit', 'expected a digit of the fraction, found {char}'),
        'after_secfrac': Texts('the text ends after the fraction; expected an offset',
                               'expected a digit or an offset after the fraction, found {char}'),
        'after_field offset_hour_field': needs("the offset's hour", '`:`', 'its minute'),
        'after_field offset_minute_field': Texts(other="expected the end, or `[` in RFC 9557, after the offset's minute, found {char}"),
        'after_utc': Texts(other='expected the end, or `[` in RFC 9557, after `Z`, found {char}'),
    }


# ---------------------------------------------------------------------------------------------------------------------------------
# Zone names, brackets and annotations

NAME_FORM = Texts(whole="a part of the time zone's name does not begin with a letter, and has to")
ZONES = {
    'identifier_start': Texts('the text is empty; expected a time zone',
                              'expected a letter, `+` or `-` at the start of the time zone, found {char}'),
    'zone_name_start': Texts("the text is empty; expected a time zone's name",
                             "expected a letter at the start of the time zone's name, found {char}"),
    'after_zone_slash': Texts("the text ends after `/`; expected more of the time zone's name",
                              "expected a letter of the time zone's name after `/`, found {char}"),
    'first_dots_form': NAME_FORM,
    'first_name_form': NAME_FORM,
    'first_offset_form': Texts(whole="the time zone's offset has no `:`, and has to be like `+05:30`"),
}
BRACKETS = {
    'first_bracket_start': Texts('the text ends after `[`; expected a time zone or an annotation',
                                 'expected a letter, `+` or `-` after `[`, found {char}'),
    'first_critical_start': Texts('the text ends after `[!`; expected a time zone or an annotation',
                                  'expected a letter, `+` or `-` after `[!`, found {char}'),
    'first_bracket_scan': Texts('the text ends in the first bracket; expected `=` or `]`',
                                'expected `=`, `]` or more of the first bracket, found {char}'),
    'after_bracket': after_part('`]`', '`[`', 'the end'),
    'key_start': Texts("the text ends after `[`; expected the annotation's key",
                       "expected a lower-case letter of the annotation's key, found {char}"),
    'critical_key_start': Texts("the text ends after `[!`; expected the annotation's key",
                                "expected a lower-case letter of the annotation's key, found {char}"),
    'in_key': Texts("the text ends in the annotation's key; expected `=`",
                    "expected `=`, a lower-case letter, a digit, `-` or `_` in the key, found {char}"),
    'value_start': Texts("the text ends after `=`; expected the annotation's value",
                         "expected a letter or digit of the annotation's value, found {char}"),
    'in_value': Texts("the text ends in the annotation's value; expected `]`",
                      "expected `]` or more of the annotation's value, found {char}"),
    'after_value_hyphen': Texts("the text ends after `-`; expected more of the annotation's value",
                                "expected more of the annotation's value after `-`, found {char}"),
}
REFUSED_ANNOTATIONS = {
    'UnrecognizedCritical': Texts(whole="the annotation's key is not known; without `!`, the annotation would be ignored"),
    'CriticalDuplicateCalendar': Texts(whole='a later calendar differs from the first, and one is critical (`!`)'),
}


def zone_name_texts(follow: Follow) -> Texts:
    """The texts in a zone name. `follow` is what may follow the name."""
    other = f"expected {one_of(*follow)} or more of the time zone's name, found {{char}}"
    if follow == ('`]`',):
        return Texts("the text ends in the time zone's name; expected `]`", other)
    return Texts(other=other, at=((']', "expected the end after the time zone's name, found `]`"),))


# ---------------------------------------------------------------------------------------------------------------------------------
# Durations

DURATIONS = {
    'duration_start': Texts('the text is empty; expected a duration',
                            'expected `P`, `+` or `-` at the start of the duration, found {char}'),
    'after_duration_sign': Texts('the text ends after the sign; expected `P`', 'expected `P` after the sign, found {char}'),
    'after_duration_designator': Texts('the text ends after `P`; expected a number or `T`',
                                       'expected a number or `T` after `P`, found {char}'),
    'after_date_groups': after_part('the unit', 'a number', '`T`', 'the end'),
    'after_time_designator': Texts('the text ends after `T`; expected a number', 'expected a number after `T`, found {char}'),
    'group_digits date': Texts('the text ends after the number; expected `Y`, `M`, `W` or `D`',
                               'expected a digit, `Y`, `M`, `W` or `D` after the number, found {char}',
                               at=(('HhSs', 'expected `T` before a number of hours or seconds, found {char}'),)),
    'group_digits time': Texts('the text ends after the number; expected `H`, `M` or `S`',
                               'expected a digit, `.`, `H`, `M` or `S` after the number, found {char}'),
    'group_value_range date': Texts(whole='the number is too great, and has to be at most 18446744073709551615'),
    'group_value_range time': Texts(whole='the number is too great, and has to be at most 18446744073709551615'),
    'date_unit_range': Texts(whole='the number before {char} is too great, and has to be at most 4294967295'),
    'group_fraction_start': Texts('the text ends before the fraction; expected a digit', 'expected a digit of the fraction, found {char}'),
    'group_fraction_digits': Texts('the text ends after the fraction; expected `H`, `M` or `S`',
                                   'expected a digit, `H`, `M` or `S` after the fraction, found {char}'),
    'after_time_groups': after_part('the unit', 'a number', 'the end'),
    'after_fraction_group': after_part('the unit with a fraction', 'the end'),
}


def unit_order_texts(units: str) -> Texts:
    """The text of a duration unit that is out of order."""
    return Texts(whole=f'the unit {{char}} stands too late; the order is {units}, each once')


# ---------------------------------------------------------------------------------------------------------------------------------
# The texts of a line

WITHOUT_READERS = {**DATES, **TIMES_ALONE, **ZONES, **BRACKETS, **REFUSED_ANNOTATIONS, **DURATIONS}
UNIT_ORDERS = {'unit_order date': 'Y, M, W, D', 'unit_order time': 'H, M, S'}


def texts_of(line: str, follow: Follow = (), begin: int = 0) -> Texts:
    """The texts of a line. Those of some lines depend on what may follow a complete part, or on whether the text is wrong from its
    beginning (`begin` is 0)."""
    if line == 'four_digits':
        return DATES['year_digits'] if begin else EMPTY_YEAR
    if line == 'in_zone_name':
        return zone_name_texts(follow)
    if line in UNIT_ORDERS:
        return unit_order_texts(UNIT_ORDERS[line])
    if line in WITHOUT_READERS:
        return WITHOUT_READERS[line]
    name, _, clock = line.partition(' ')
    return clock_texts(clock, follow)[name] if clock in ('Time', 'Offset', 'MinuteOffset') else date_time_texts()[line]


def template(texts: Texts, way: str, letter: str) -> str:
    """The text for a row. If another code unit follows, the text can depend on its letter."""
    if way == 'end':
        return texts.end
    if way in ('whole', 'refused'):
        return texts.whole
    return next((text for letters, text in texts.at if letter in letters), texts.other)


# ---------------------------------------------------------------------------------------------------------------------------------
# What a text shows of the input

NAMES_OF_CHARACTERS = {' ': 'a space', '\t': 'a tab', '\n': 'a newline', '\r': 'a carriage return', '`': 'a backtick'}
# characters that look like a space or a `-`, and the one with which some files begin
LOOK_ALIKES = {'\u00a0': 'no-break space', '\u202f': 'narrow no-break space', '\u2010': 'hyphen', '\u2013': 'en dash',
               '\u2212': 'minus sign', '\ufeff': 'byte order mark'}


def character_at(units: Sequence[int], at: int, wide: bool) -> tuple[Optional[str], int]:
    """The character that begins at an index, and the number of its code units. None if no character begins there: then one code unit
    counts."""
    if wide:
        both = units[at:at + 2]
        if len(both) == 2 and 0xd800 <= both[0] < 0xdc00 <= both[1] < 0xe000:
            return chr(0x10000 + (both[0] - 0xd800 << 10) + both[1] - 0xdc00), 2
        return (None if 0xd800 <= both[0] < 0xe000 else chr(both[0])), 1
    for length in range(1, 5):
        try:
            return bytes(units[at:at + length]).decode('utf-8'), length
        except UnicodeDecodeError:
            continue
    return None, 1


def shown_character(units: Sequence[int], at: int, wide: bool) -> str:
    """What a text shows of the character at an index."""
    found, _ = character_at(units, at, wide)
    if found is None:
        return f'the code unit 0x{units[at]:04X}' if wide else f'the byte 0x{units[at]:02X}'
    if found in NAMES_OF_CHARACTERS:
        return NAMES_OF_CHARACTERS[found]
    if '!' <= found <= '~':
        return f'`{found}`'
    name = LOOK_ALIKES.get(found)
    return f'U+{ord(found):04X}' + (f' ({name})' if name else '')


def last_day(line: str, front: str) -> int:
    """The last day of a month. `front` ends with the month and the day. A month-day can be in a leap year."""
    year, month = re.fullmatch(r'(.*?)-?(\d\d)-?\d\d', front).groups()
    leap = line == 'month_day_range' or calendar.isleap(int(year))
    return calendar.monthrange(2000 if leap else 2001, int(month))[1]


def filled(text: str, line: str, units: Sequence[int], begin: int, end: int, wide: bool) -> str:
    """A text in which the parts of the input are filled in."""
    wrong = ''.join(map(chr, units[begin:end]))
    at = {'unit_order date': end - 1, 'unit_order time': end - 1, 'date_unit_range': end}.get(line, begin)
    return (text.replace('{char}', shown_character(units, at, wide) if '{char}' in text else '')
            .replace('{number}', wrong).replace('{front}', wrong)
            .replace('{last}', str(last_day(line, ''.join(map(chr, units[:end])))) if '{last}' in text else ''))


# ---------------------------------------------------------------------------------------------------------------------------------
# The text with a mark

SHOWN_BEFORE, SHOWN_FROM = 48, 24  # the greatest number of columns before the beginning of the mark, and from it on
CUT = '..'


def columns_of(units: Sequence[int], wide: bool) -> Optional[tuple[str, list[int]]]:
    """The characters of a text, and the index of each one, with the length of the text at the end. None if the text is not UTF-8 or
    UTF-16."""
    characters, indices, at = [], [], 0
    while at < len(units):
        found, length = character_at(units, at, wide)
        if found is None:
            return None
        characters.append(found)
        indices.append(at)
        at += length
    return ''.join(characters), indices + [at]


def marked(units: Sequence[int], begin: int, end: int, wide: bool) -> list[str]:
    """Two lines: the text, and a `^` below each of its characters that is wrong, or below the end of the text. A long text is cut as by
    `PointedText` of the library, around the beginning of the mark, and the mark is cut with it. If the text is not UTF-8 or UTF-16, there
    are no lines."""
    found = columns_of(units, wide)
    if not found:
        return []
    characters, indices = found
    column = sum(1 for it in indices[1:] if it <= begin)
    behind = max(column + 1, sum(1 for it in indices[:-1] if it < end))
    first, last = max(column - SHOWN_BEFORE, 0), column + SHOWN_FROM
    shown = ''.join('.' if unicodedata.category(it) == 'Cc' else it for it in characters[first:last])
    before = CUT if first else ''
    return [before + shown + (CUT if last < len(characters) else ''), ' ' * (len(before) + column - first) + '^' * (min(behind, last) - column)]
