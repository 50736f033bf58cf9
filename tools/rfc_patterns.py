#!/usr/bin/env python3
"""rfc_patterns.py: a model of the texts of RFC 3339 and of RFC 9557. It only says whether a text is one of them.

This file is a module. `compare_rfc_patterns.py` and `test_rfc_patterns.py` import it.

The patterns are the ABNF of both standards, production by production, in the order and with the names of the standards: RFC 3339, section
5.6, and RFC 9557, section 4.1. They were written only from these sections, and not from the grammar or the code of this project. Functions
check what the standards say in comments of the ABNF or in words.

A text is a string in which each character is one code unit."""
import re

# ---------------------------------------------------------------------------------------------------------------------------------
# RFC 5234, appendix B.1. In an ABNF, a string in quotes means its letters in uppercase and in lowercase (section 2.3).

ALPHA = 'A-Za-z'
DIGIT = '0-9'


# ---------------------------------------------------------------------------------------------------------------------------------
# RFC 3339, section 5.6. The function `numbers_fit` checks what its comments say.

DATE_FULLYEAR = f'[{DIGIT}]{{4}}'
DATE_MONTH = f'[{DIGIT}]{{2}}'
DATE_MDAY = f'[{DIGIT}]{{2}}'
TIME_HOUR = f'[{DIGIT}]{{2}}'
TIME_MINUTE = f'[{DIGIT}]{{2}}'
TIME_SECOND = f'[{DIGIT}]{{2}}'
TIME_SECFRAC = rf'\.[{DIGIT}]+'
TIME_NUMOFFSET = rf'(?:\+|-){TIME_HOUR}:{TIME_MINUTE}'
TIME_OFFSET = f'(?:[Zz]|{TIME_NUMOFFSET})'

PARTIAL_TIME = f'{TIME_HOUR}:{TIME_MINUTE}:{TIME_SECOND}(?:{TIME_SECFRAC})?'
FULL_DATE = f'{DATE_FULLYEAR}-{DATE_MONTH}-{DATE_MDAY}'
FULL_TIME = f'{PARTIAL_TIME}{TIME_OFFSET}'

DATE_TIME = f'{FULL_DATE}[Tt]{FULL_TIME}'


# ---------------------------------------------------------------------------------------------------------------------------------
# RFC 9557, section 4.1. In `time-zone`, both kinds of zones are meant to be inside the bracket.

ALPHANUM = ALPHA + DIGIT
LCALPHA = 'a-z'
CRITICAL_FLAG = '!?'

TIME_ZONE_INITIAL = f'{ALPHA}._'
TIME_ZONE_CHAR = rf'{TIME_ZONE_INITIAL}{DIGIT}\-+'
TIME_ZONE_PART = rf'(?!\.{{1,2}}[/\]])[{TIME_ZONE_INITIAL}][{TIME_ZONE_CHAR}]*'  # The ABNF has this comment: but not "." or ".."
TIME_ZONE_NAME = f'{TIME_ZONE_PART}(?:/{TIME_ZONE_PART})*'
TIME_ZONE = rf'\[{CRITICAL_FLAG}(?:{TIME_ZONE_NAME}|{TIME_NUMOFFSET})\]'

KEY_INITIAL = f'{LCALPHA}_'
KEY_CHAR = rf'{KEY_INITIAL}{DIGIT}\-'
SUFFIX_KEY = f'[{KEY_INITIAL}][{KEY_CHAR}]*'

SUFFIX_VALUE = f'[{ALPHANUM}]+'
SUFFIX_VALUES = f'{SUFFIX_VALUE}(?:-{SUFFIX_VALUE})*'
SUFFIX_TAG = rf'\[{CRITICAL_FLAG}{SUFFIX_KEY}={SUFFIX_VALUES}\]'
SUFFIX = f'(?:{TIME_ZONE})?(?:{SUFFIX_TAG})*'

DATE_TIME_EXT = f'{DATE_TIME}{SUFFIX}'


# ---------------------------------------------------------------------------------------------------------------------------------
# The rules that the standards say in words

def days_in(year: int, month: int) -> int:
    """The number of days of a month, from the table of RFC 3339, section 5.7, and the rule for leap years of its appendix C."""
    is_leap = year % 4 == 0 and (year % 100 != 0 or year % 400 == 0)
    return {1: 31, 2: 29 if is_leap else 28, 3: 31, 4: 30, 5: 31, 6: 30, 7: 31, 8: 31, 9: 30, 10: 31, 11: 30, 12: 31}[month]


NUMBERS = re.compile(r'(\d{4})-(\d\d)-(\d\d).(\d\d):(\d\d):(\d\d)', re.ASCII)
OFFSETS = re.compile(rf'[+-]({TIME_HOUR}):({TIME_MINUTE})')


def numbers_fit(text: str) -> bool:
    """Whether the numbers of a text of DATE_TIME_EXT are in the ranges that the comments of the ABNF give, and whether its month has the day.
    Second 60 is in the range. Whether its minute has a leap second is not checked."""
    year, month, day, hour, minute, second = map(int, NUMBERS.match(text).groups())
    in_range = 1 <= month <= 12 and 1 <= day <= days_in(year, month) and hour <= 23 and minute <= 59 and second <= 60
    return in_range and all(int(hours) <= 23 and int(minutes) <= 59 for hours, minutes in offsets_of(text))


def offsets_of(text: str) -> list[tuple[str, str]]:
    """The hours and minutes of the offsets of a text. The time has an offset, and the zone can be an offset. Nothing else matches the pattern,
    because the date, the name of a zone and an annotation contain no `:`."""
    return OFFSETS.findall(text, len('1985-04-12'))


# A suffix tag of a text of DATE_TIME_EXT. A zone does not match, because it contains no `=`.
SUFFIX_TAGS = re.compile(rf'\[({CRITICAL_FLAG})({SUFFIX_KEY})=({SUFFIX_VALUES})\]')


def critical_suffixes_fit(text: str) -> bool:
    """Whether a reader that processes only the key `u-ca` (RFC 9557, section 5) can do what the critical suffix tags of a text of
    DATE_TIME_EXT ask for (section 3.3). It has to process each critical suffix tag. Of several suffix tags with one key, it uses the first.
    So if one with another value follows, neither of the two may be critical."""
    calendars = []
    for flag, key, value in SUFFIX_TAGS.findall(text):
        if key == 'u-ca':
            calendars.append((flag, value))
        elif flag:
            return False
    return all(value == calendars[0][1] or not (flag or calendars[0][0]) for flag, value in calendars)


DATE_TIME_TEXT = re.compile(DATE_TIME)
DATE_TIME_EXT_TEXT = re.compile(DATE_TIME_EXT)


def is_date_time(text: str) -> bool:
    """Whether a text is a `date-time` of RFC 3339."""
    return DATE_TIME_TEXT.fullmatch(text) is not None and numbers_fit(text)


def is_date_time_ext(text: str) -> bool:
    """Whether a text is a `date-time-ext` of RFC 9557. What its critical suffix tags ask for is not checked here."""
    return DATE_TIME_EXT_TEXT.fullmatch(text) is not None and numbers_fit(text)


def is_date_time_to_process(text: str) -> bool:
    """Whether a text is a `date-time-ext` of RFC 9557, and a reader that processes only the key `u-ca` may accept it."""
    return is_date_time_ext(text) and critical_suffixes_fit(text)
