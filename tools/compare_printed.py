#!/usr/bin/env python3
"""compare_printed.py [--program PATH] [COUNT [SEED]]: compares the canonical texts that `ixdtf_lines` writes with those of a model.

For each of seven kinds of text, such as times and durations, the tool makes COUNT texts. If you do not give COUNT, it is 100000. If you do not
give SEED, it is 1. Each text consists of parts that are valid or almost valid. Some of the texts then get one to three changes.

The tool gives each text to the program `ixdtf_lines` twice: with the word of a reader, such as `time`, and with the word of the same reader for
canonical texts, such as `canonical-time`. If the text is accepted, the tool also gives its canonical text to the program. It checks these things:

- The word for canonical texts accepts the text exactly if the word of the reader does. If both refuse it, their errors are the same.
- The model accepts the same texts, and gives the same canonical texts. The model was written from `docs/GRAMMAR.md`, and not from the code.
- The reader reads the same fields from the canonical text as from the text. This is also checked under the strict profile, with one exception:
  under this profile, the reader of a month and a day must refuse the day 00.
- The canonical text of the canonical text is this text itself.

The fields of an answer have only nine digits of a fraction. The canonical text has all digits that the record keeps.

The option `--program` names the program to try, for example one that `rt` compiled. Without this option, the tool builds `rust/ixdtf_lines` with
cargo.

For each kind, the tool prints the number of texts and the number of accepted texts. At the end, it prints the number of all texts. At the first
difference, it prints the text, the expected answer and the answer of the program, and ends with the exit status 1."""
import argparse
import os
import random
import re
import subprocess
import sys
from typing import Callable, NamedTuple, Optional

TOP = os.path.join(os.path.dirname(os.path.abspath(__file__)), '..')

# ---------------------------------------------------------------------------------------------------------------------------------
# The model: which texts a reader accepts, and which canonical text each of them has. The names are those of docs/GRAMMAR.md. A text is a `str`
# in which each character stands for one byte. All functions of the model return None for a text that is refused.


def month_length(year: int, month: int) -> int:
    """The number of days of a month."""
    if month == 2:
        return 29 if year % 4 == 0 and year % 100 != 0 or year % 400 == 0 else 28
    return 30 if month in (4, 6, 9, 11) else 31


DATE = re.compile(r'([0-9]{4}|[+-][0-9]{6})(?:-([0-9]{2})-([0-9]{2})|([0-9]{2})([0-9]{2}))')
YEAR_MONTH = re.compile(r'([0-9]{4}|[+-][0-9]{6})-?([0-9]{2})')
MONTH_DAY = re.compile(r'(?:--)?([0-9]{2})-?([0-9]{2})')
CLOCK = r'([0-9]{2})(?::([0-9]{2})(?::([0-9]{2})([.,][0-9]+)?)?|([0-9]{2})(?:([0-9]{2})([.,][0-9]+)?)?)?'
TIME = re.compile(rf'{CLOCK}([Zz]|[+-].*)?', re.DOTALL)
OFFSET = re.compile(rf'([+-]){CLOCK}')
NAME = re.compile(r'[A-Za-z_.](?:/?[A-Za-z_.0-9+-])*')
BRACKET = re.compile(r'\[(!?)([^\[\]]*)\]')
ANNOTATION = re.compile(r'([a-z_][a-z_0-9-]*)=([A-Za-z0-9]+(?:-[A-Za-z0-9]+)*)')
DURATION = re.compile(r'([+-]?)[Pp]((?:[0-9]+[YyMmWwDd])*)(?:[Tt]((?:[0-9]+[HhMmSs])*[0-9]+(?:[.,][0-9]+)?[HhMmSs]))?')
GROUP = re.compile(r'([0-9]+)([.,][0-9]+)?([A-Za-z])')


def year_of(digits: str) -> Optional[int]:
    """The number of a Year."""
    return None if digits == '-000000' else int(digits)


def year_text(year: int) -> str:
    """The canonical text of a year."""
    return f'{year:04}' if 0 <= year <= 9999 else f'{"-" if year < 0 else "+"}{abs(year):06}'


def fraction_text(fraction: Optional[str]) -> str:
    """The canonical text of a Fraction, or nothing if there is none. After the 18th digit, it has zeros. It has at most 255 digits."""
    if not fraction:
        return ''
    digits = fraction[1:256]
    return '.' + digits[:18] + '0' * (len(digits) - 18)


class Clock(NamedTuple):
    """The parts of a time or of an offset, as they are written. A part that is not written is None."""
    hour: str
    minute: Optional[str]
    second: Optional[str]
    fraction: Optional[str]

    def in_range(self, greatest_second: int) -> bool:
        """Whether each number is in its range."""
        return int(self.hour) <= 23 and int(self.minute or 0) <= 59 and int(self.second or 0) <= greatest_second


def clock_of(groups: tuple) -> Clock:
    """The parts from the seven groups of the pattern `CLOCK`."""
    hour, minute, second, fraction, basic_minute, basic_second, basic_fraction = groups
    return Clock(hour, minute or basic_minute, second or basic_second, fraction or basic_fraction)


def offset_text(text: str, has_seconds: bool = True) -> Optional[str]:
    """The canonical text of an Offset. If `has_seconds` is false, the text must be a MinOffset."""
    found = OFFSET.fullmatch(text)
    if not found:
        return None
    clock = clock_of(found.groups()[1:])
    if not clock.in_range(59) or clock.second and not has_seconds:
        return None
    seconds = f':{clock.second}{fraction_text(clock.fraction)}' if clock.second else ''
    return f'{found[1]}{clock.hour}:{clock.minute or "00"}{seconds}'


def zone_text(text: str) -> Optional[str]:
    """The canonical text of a Zone."""
    return text if NAME.fullmatch(text) else offset_text(text, has_seconds=False)


def time_text(text: str) -> Optional[str]:
    """The canonical text of a Time with an OffsetOrZ or without one. It does not begin with a `T`."""
    found = TIME.fullmatch(text)
    if not found:
        return None
    clock = clock_of(found.groups()[:7])
    after = found[8] or ''
    offset: Optional[str] = after.upper() if after in ('', 'Z', 'z') else offset_text(after)
    if not clock.in_range(60) or offset is None:
        return None
    return f'{clock.hour}:{clock.minute or "00"}:{clock.second or "00"}{fraction_text(clock.fraction)}{offset}'


def brackets_text(text: str) -> Optional[str]:
    """The canonical text of a Tail. Returns None also if an Annotation is refused."""
    zone, calendar, calendar_critical, at = '', '', False, 0
    while at < len(text):
        found = BRACKET.match(text, at)
        if not found:
            return None
        critical, content = found[1] == '!', found[2]
        if at == 0 and '=' not in content:
            inside = zone_text(content)
            if inside is None:
                return None
            zone = f'[{found[1]}{inside}]'
        else:
            pair = ANNOTATION.fullmatch(content)
            if not pair:
                return None
            if pair[1] != 'u-ca':
                if critical:
                    return None
            elif not calendar:
                calendar, calendar_critical = pair[2], critical
            elif pair[2] != calendar and (critical or calendar_critical):
                return None
        at = found.end()
    return zone + (f'[u-ca={calendar}]' if calendar else '')


def date_text(text: str) -> Optional[str]:
    """The canonical text of a Date."""
    found = DATE.fullmatch(text)
    if not found:
        return None
    year, month, day = year_of(found[1]), int(found[2] or found[4]), int(found[3] or found[5])
    if year is None or not 1 <= month <= 12 or not 1 <= day <= month_length(year, month):
        return None
    return f'{year_text(year)}-{month:02}-{day:02}'


def date_time_core(core: str) -> Optional[str]:
    """The canonical text of a core of `parse`."""
    separator = re.search('[Tt ]', core)
    if not separator:
        return date_text(core)
    date, time = date_text(core[:separator.start()]), time_text(core[separator.end():])
    return None if date is None or time is None else f'{date}T{time}'


def year_month_of(found: Optional[re.Match]) -> Optional[str]:
    """The canonical text of a YearMonth, from a match of its pattern."""
    if not found:
        return None
    year, month = year_of(found[1]), int(found[2])
    return None if year is None or not 1 <= month <= 12 else f'{year_text(year)}-{month:02}'


def month_day_of(found: Optional[re.Match]) -> Optional[str]:
    """The canonical text of a MonthDay, from a match of its pattern. A month has its length of a leap year."""
    if not found:
        return None
    month, day = int(found[1]), int(found[2])
    return None if not 1 <= month <= 12 or day > month_length(2000, month) else f'{month:02}-{day:02}'


def year_month_core(core: str) -> Optional[str]:
    """The canonical text of a core of `parse_year_month`."""
    return year_month_of(YEAR_MONTH.fullmatch(core))


def month_day_core(core: str) -> Optional[str]:
    """The canonical text of a core of `parse_month_day`."""
    return month_day_of(MONTH_DAY.fullmatch(core))


def time_core(core: str) -> Optional[str]:
    """The canonical text of a core of `parse_time`. Without a TimeLetter, no prefix of the core may be a MonthDay or a YearMonth."""
    if core[:1] in ('T', 't'):
        return time_text(core[1:])
    if month_day_of(MONTH_DAY.match(core)) or year_month_of(YEAR_MONTH.match(core)):
        return None
    return time_text(core)


def bracketed(core_text: Callable[[str], Optional[str]]) -> Callable[[str], Optional[str]]:
    """The function that returns the canonical text of a core and a Tail, for one kind of core."""
    def text_of(text: str) -> Optional[str]:
        core, opening, rest = text.partition('[')
        before, after = core_text(core), brackets_text(opening + rest)
        return None if before is None or after is None else before + after
    return text_of


def groups_of(text: str, letters: str, greatest: dict[str, int]) -> Optional[dict[str, str]]:
    """The numbers of the groups of a duration, by the letters of their units. None if a group is out of order, or a number too great."""
    numbers: dict[str, str] = {}
    last = 0
    for number, _, letter in GROUP.findall(text.upper()):
        if letters.index(letter) < last or int(number) > greatest.get(letter, 2 ** 64 - 1):
            return None
        last = letters.index(letter)
        numbers[letter] = str(int(number))
    return numbers


def duration_text(text: str) -> Optional[str]:
    """The canonical text of a Duration."""
    found = DURATION.fullmatch(text)
    if not found or not found[2] and not found[3]:
        return None
    below_32_bits = 2 ** 32 - 1
    date = groups_of(found[2], 'YMWD', {'Y': below_32_bits, 'M': below_32_bits, 'W': below_32_bits})
    time = groups_of(found[3] or '', 'HMS', {})
    if date is None or time is None:
        return None
    written = ('-' if found[1] == '-' else '') + 'P'
    if date:
        written += ''.join(number + letter for letter, number in date.items() if number != '0') or '0D'
    if time:
        *earlier, last = time
        fraction = GROUP.findall(found[3])[-1][1]
        written += 'T' + ''.join(time[letter] + letter for letter in earlier if time[letter] != '0') + time[last] + fraction_text(fraction) + last
    return written


# ---------------------------------------------------------------------------------------------------------------------------------
# Making texts


def choose(rng: random.Random, right: str, *wrong: str) -> str:
    """The right part in most cases. Otherwise one of the wrong parts."""
    return right if rng.random() < 0.97 else rng.choice(wrong)


def two_digits(rng: random.Random, least: int, most: int) -> str:
    """A number with two digits in this range, often at one of its ends. It is sometimes out of the range, or has one or three digits."""
    kind = rng.random()
    if kind < 0.8:
        return f'{rng.randint(least, most):02}'
    if kind < 0.98:
        return f'{rng.choice((least, most)):02}'
    return rng.choice((f'{most + 1:02}', f'{max(least - 1, 0):02}', f'{rng.randint(0, 99):02}', f'{rng.randint(0, 9)}', f'{rng.randint(100, 999)}'))


def year(rng: random.Random) -> str:
    """A year with four digits, or with a sign and six digits."""
    number = rng.choice((0, 1, 4, 100, 400, 1900, 2000, 2023, 2024, 9999, rng.randint(0, 9999), rng.randint(0, 9999)))
    far = rng.choice((number, 10000, 999999, rng.randint(0, 999999), rng.randint(0, 999999)))
    right = rng.choice((f'{number:04}', f'{number:04}', f'+{far:06}', f'-{far:06}'))
    return choose(rng, right, f'+{number:04}', f'{number:05}', f'{number % 1000:03}')


def date(rng: random.Random) -> str:
    """A date, or almost a date."""
    hyphen = rng.choice(('-', '-', ''))
    month = rng.choice((2, 4, 12, rng.randint(1, 12)))
    day = two_digits(rng, 1, rng.choice((28, 28, 28, 28, 28, 29, 30, 31)))
    return year(rng) + hyphen + (f'{month:02}' if rng.random() < 0.8 else two_digits(rng, 1, 12)) + choose(rng, hyphen, '-', '') + day


def fraction(rng: random.Random) -> str:
    """A fraction or nothing, and sometimes almost a fraction."""
    if rng.random() < 0.5:
        return ''
    count = rng.choice((1, 2, 3, 6, 9, 10, 17, 18, 19, 20, 254, 255, 256, rng.randint(1, 300)))
    greatest = 10 ** count - 1
    number = rng.randint(0, greatest) if rng.random() < 0.7 else rng.choice((0, 1, greatest))
    digits = f'{number:0{count}}'
    return choose(rng, rng.choice('.,') + digits, '.', digits, ':' + digits)


def clock(rng: random.Random, greatest_second: int) -> str:
    """A time without a `T`, or an offset without its sign, or almost one of these."""
    colon = rng.choice((':', ':', ''))
    parts = rng.choice((1, 2, 3, 3))
    minute = colon + two_digits(rng, 0, 59) if parts > 1 else ''
    second = choose(rng, colon, ':', '') + two_digits(rng, 0, greatest_second) if parts > 2 else ''
    return two_digits(rng, 0, 23) + minute + second + (fraction(rng) if parts > 2 or rng.random() < 0.03 else '')


def offset(rng: random.Random) -> str:
    """An offset, or almost an offset."""
    return choose(rng, rng.choice('+-'), '', '--', ' ') + clock(rng, 59)


def offset_or_z(rng: random.Random) -> str:
    """An offset, `Z` or nothing, or almost one of these."""
    kind = rng.random()
    if kind < 0.2:
        return ''
    if kind < 0.5:
        return choose(rng, rng.choice('Zz'), 'UTC', 'ZZ')
    return choose(rng, '', ' ', 'Z') + offset(rng)


NAMES = ('UTC', 'Europe/Paris', 'America/Argentina/Buenos_Aires', 'Etc/GMT+5', 'cet', 'z', '_', '.', '..', 'a/5', 'a/-', 'a//b', 'a/', '/a', '5')


def zone(rng: random.Random) -> str:
    """A name of a zone or an offset, or almost one of these."""
    kind = rng.random()
    if kind < 0.3:
        minute = two_digits(rng, 0, 59)
        return choose(rng, rng.choice('+-'), '') + two_digits(rng, 0, 23) + choose(rng, rng.choice(('', minute, ':' + minute)), ':', f':{minute}:00')
    if kind < 0.5:
        return rng.choice(NAMES)
    count = 1000 if kind > 0.999 else rng.randint(0, 15)
    slashes = [choose(rng, rng.choice(('', '', '', '/')), '//') if rng.random() < 0.5 else '' for _ in range(count)]
    return rng.choice('ABZabz_.') + ''.join(slash + rng.choice('ABZabz_.019+-') for slash in slashes)


def value(rng: random.Random) -> str:
    """A value of an annotation, or almost a value."""
    if rng.random() < 0.6:
        return rng.choice(('hebrew', 'hebrew', 'iso8601', 'islamic-civil'))
    runs = (''.join(rng.choice('AZaz019') for _ in range(rng.randint(1, 8))) for _ in range(rng.choice((1, 1, 2, 3))))
    return choose(rng, '-'.join(runs), '', '-a', 'a-', 'a--b', 'a_b')


def annotation(rng: random.Random, critical: float) -> str:
    """An annotation, or almost an annotation. `critical` is the share of critical calendars. Other annotations are seldom critical."""
    key = choose(rng, rng.choice(('u-ca', 'u-ca', 'u-ca', 'x', '_a-9', 'u-cb')), 'U-ca', '', '9')
    flag = '!' if rng.random() < (critical if key == 'u-ca' else critical / 10) else ''
    return f'[{flag}{key}' + choose(rng, '=', '', '==') + value(rng) + choose(rng, ']', '', '] ')


def brackets(rng: random.Random) -> str:
    """A zone and annotations, or almost these. Half of the results are empty."""
    if rng.random() < 0.5:
        return ''
    first = rng.choice(('[', '[', '[!')) + zone(rng) + choose(rng, ']', '', '] ') if rng.random() < 0.6 else ''
    critical = rng.choice((0, 0.3))
    rest = [annotation(rng, critical) for _ in range(rng.choice((0, 1, 1, 1, 2, 3)))]
    return ''.join(rest) + first if rng.random() < 0.02 else first + ''.join(rest)


def date_time(rng: random.Random) -> str:
    """A text for `parse`."""
    time = '' if rng.random() < 0.3 else choose(rng, rng.choice('TTt '), '', '_', 'TT') + clock(rng, 60) + offset_or_z(rng)
    return date(rng) + time + brackets(rng)


def year_month(rng: random.Random) -> str:
    """A text for `parse_year_month`."""
    return year(rng) + choose(rng, rng.choice(('-', '')), '--', '/') + two_digits(rng, 1, 12) + brackets(rng)


def month_day(rng: random.Random) -> str:
    """A text for `parse_month_day`."""
    month, day = two_digits(rng, 1, 12), two_digits(rng, 0, rng.choice((28, 29, 30, 31)))
    return choose(rng, rng.choice(('', '--')), '-', '---') + month + choose(rng, rng.choice(('-', '')), '--') + day + brackets(rng)


def time_of_day(rng: random.Random) -> str:
    """A text for `parse_time`."""
    return choose(rng, rng.choice(('', '', 'T', 't')), ' ', 'TT') + clock(rng, 60) + offset_or_z(rng) + brackets(rng)


def number(rng: random.Random, bits: int) -> str:
    """The number of a group of a duration. It must have at most this number of bits. It is sometimes too great, or has leading zeros."""
    greatest = 2 ** bits - 1
    power, any_number = min(10 ** rng.randint(1, 19), greatest), rng.randint(0, greatest)
    found = rng.choice((0, 0, 0, power - 1, power, rng.randint(0, 100), any_number, any_number >> rng.randrange(bits), greatest))
    return '0' * rng.choice((0, 0, 0, 1, 5)) + str(found if rng.random() < 0.99 else greatest + 1)


def groups(rng: random.Random, letters: str, bits: dict[str, int], share: float) -> list[str]:
    """Some groups of a duration, almost always in order. A unit is sometimes repeated. `share` is the share of the units that are present."""
    units = [letter for letter in letters for _ in range(rng.choice((1, 1, 1, 1, 1, 1, 2))) if rng.random() < share]
    if rng.random() < 0.02:
        rng.shuffle(units)
    return [number(rng, bits.get(letter, 64)) + rng.choice((letter, letter.lower())) for letter in units]


def duration(rng: random.Random) -> str:
    """A text for `IsoDurationParser::parse`."""
    days = groups(rng, 'YMWD', {'Y': 32, 'M': 32, 'W': 32}, rng.choice((0, 0.4, 0.7)))
    hours = groups(rng, 'HMS', {}, rng.choice((0, 0.4, 0.8)))
    if hours:
        hours[-1] = hours[-1][:-1] + fraction(rng) + hours[-1][-1]
    mark = rng.choice('Tt') if hours and rng.random() < 0.98 or rng.random() < 0.02 else ''
    return choose(rng, rng.choice(('', '', '+', '-')), '--') + choose(rng, rng.choice('Pp'), '', 'PP') + ''.join(days) + mark + ''.join(hours)


LETTERS = '0123456789' * 2 + '-:.,+TZtz []!=/_aPHMS\0\x7f'


def letter(rng: random.Random) -> str:
    """A character. It is not a newline, because a newline ends a line of the program."""
    found = rng.choice(LETTERS) if rng.random() < 0.9 else chr(rng.randrange(256))
    return '\r' if found == '\n' else found


def changed(rng: random.Random, text: str) -> str:
    """The text with a change at one position: a character is inserted, replaced or removed, two are exchanged, or the end is removed."""
    at = rng.randrange(len(text) + 1)
    before, after = text[:at], text[at:]
    return rng.choice((lambda: before + letter(rng) + after, lambda: before + letter(rng) + after[1:], lambda: before + after[1:],
                       lambda: before + after[1:2] + after[:1] + after[2:], lambda: before))()


class Kind(NamedTuple):
    """A kind of text: the words of `ixdtf_lines`, the function that makes texts, and the model."""
    word: str
    canonical: str
    strict: Optional[str]
    made: Callable[[random.Random], str]
    model: Callable[[str], Optional[str]]


KINDS = (
    Kind('parse', 'canonical', None, date_time, bracketed(date_time_core)),
    Kind('year-month', 'canonical-year-month', None, year_month, bracketed(year_month_core)),
    Kind('month-day', 'canonical-month-day', 'strict-month-day', month_day, bracketed(month_day_core)),
    Kind('time', 'canonical-time', 'strict-time', time_of_day, bracketed(time_core)),
    Kind('offset', 'canonical-offset', None, offset, offset_text),
    Kind('zone', 'canonical-zone', None, zone, zone_text),
    Kind('duration', 'canonical-duration', 'strict-duration', duration, duration_text),
)


def made_text(rng: random.Random, kind: Kind) -> str:
    """A text of this kind, with up to three changes."""
    text = kind.made(rng)
    for _ in range(rng.choice((0, 0, 0, 0, 0, 0, 0, 1, 1, 2, 3))):
        text = changed(rng, text)
    return text


# ---------------------------------------------------------------------------------------------------------------------------------
# Comparing

# how many texts one run of the program gets
BATCH = 20000


class Difference(Exception):
    """A text for which the program writes another answer than it must."""


def check(line: str, found: str, right: str) -> None:
    """Raises Difference if the answer to a line is not the right one."""
    if found != right:
        raise Difference(f'{ascii(line)}: expected {ascii(right)}, found {ascii(found)}')


def answers(program: str, lines: list[str]) -> list[str]:
    """The answers of the program to these lines."""
    ran = subprocess.run([program], input=''.join(line + '\n' for line in lines).encode('latin-1'), stdout=subprocess.PIPE, check=True)
    found = ran.stdout.decode('latin-1').split('\n')
    if len(found) != len(lines) + 1 or found[-1]:
        raise Difference(f'{len(lines)} lines, and {len(found) - 1} answers')
    return found[:-1]


def compared(program: str, kind: Kind, texts: list[str]) -> int:
    """Compares the answers to these texts, and to their canonical texts. Returns how many texts were accepted. Raises Difference."""
    found = answers(program, [f'{word} {text}' for text in texts for word in (kind.word, kind.canonical)])
    accepted = []
    for text, fields, printed in zip(texts, found[::2], found[1::2]):
        canonical = kind.model(text)
        if canonical is None and fields.startswith('ok'):
            raise Difference(f'{ascii(f"{kind.word} {text}")}: the model refuses it, found {ascii(fields)}')
        if canonical is not None and not fields.startswith('ok'):
            raise Difference(f'{ascii(f"{kind.word} {text}")}: the model has {ascii(canonical)}, found {ascii(fields)}')
        check(f'{kind.canonical} {text}', printed, fields if canonical is None else f'ok {canonical}')
        if canonical is not None:
            accepted.append((canonical, fields))
    words = (kind.word, kind.canonical) + ((kind.strict,) if kind.strict else ())
    again = answers(program, [f'{word} {canonical}' for canonical, _ in accepted for word in words])
    for at, (canonical, fields) in enumerate(accepted):
        fields_again, printed_again, *strict = again[at * len(words):(at + 1) * len(words)]
        check(f'{kind.word} {canonical}', fields_again, fields)
        check(f'{kind.canonical} {canonical}', printed_again, f'ok {canonical}')
        if strict:
            has_day_00 = kind.strict == 'strict-month-day' and canonical[3:5] == '00'
            check(f'{kind.strict} {canonical}', strict[0], 'error MonthDay was not valid.' if has_day_00 else fields)
    return len(accepted)


def built() -> str:
    """Builds `ixdtf_lines` with cargo. Returns the path of the program."""
    crate = os.path.join(TOP, 'rust', 'ixdtf_lines')
    subprocess.run(['cargo', 'build', '--quiet', '--offline', '--release'], cwd=crate, check=True)
    return os.path.join(os.environ.get('CARGO_TARGET_DIR', os.path.join(crate, 'target')), 'release', 'ixdtf_lines')


def main() -> int:
    """Compares each kind of text. Returns the exit status."""
    parser = argparse.ArgumentParser(description=__doc__, formatter_class=argparse.RawDescriptionHelpFormatter)
    parser.add_argument('count', nargs='?', type=int, default=100000)
    parser.add_argument('seed', nargs='?', type=int, default=1)
    parser.add_argument('--program')
    given = parser.parse_args()
    program = given.program or built()
    try:
        for kind in KINDS:
            rng = random.Random(f'{kind.word} {given.seed}')
            accepted = 0
            for start in range(0, given.count, BATCH):
                texts = [made_text(rng, kind) for _ in range(min(BATCH, given.count - start))]
                accepted += compared(program, kind, texts)
            print(f'{kind.canonical}: {given.count} texts, {accepted} accepted', flush=True)
    except Difference as difference:
        print(difference)
        return 1
    print(f'{len(KINDS) * given.count} texts, no difference')
    return 0


if __name__ == '__main__':
    sys.exit(main())
