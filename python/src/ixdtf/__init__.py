"""A reader of the Internet Extended Date/Time Format (RFC 9557).

    >>> import ixdtf
    >>> record = ixdtf.parse("2024-03-02T08:48:00.25-05:00[America/New_York][u-ca=hebrew]")
    >>> record.date
    Date(year=2024, month=3, day=2)
    >>> record.zone.name, record.calendar
    ('America/New_York', 'hebrew')
    >>> ixdtf.canonical(record)
    '2024-03-02T08:48:00.25-05:00[America/New_York][u-ca=hebrew]'

If a text is refused, IxdtfError is raised. It has a message, and the part of the text that is wrong:

    >>> ixdtf.parse("2024-13-01")
    Traceback (most recent call last):
        ...
    ixdtf.IxdtfError: the month is 13, and has to be 01 to 12
    2024-13-01
         ^^

These functions read a text: parse, parse_year_month, parse_month_day, parse_time, parse_rfc3339, parse_rfc9557, parse_offset, parse_zone,
parse_zone_name and parse_duration. Five functions do something else:

    is_valid(text, kind)     says whether a text is accepted
    is_valid_many(texts)     says this for each of many texts
    instants(texts)          returns the times of many texts, as an array of numbers
    canonical(value)         returns the canonical text of a record, a duration, an offset, a zone, an instant or a datetime
    instant(record)          returns the time from the beginning of 1970 (UTC) to the time of a record

Record.to_datetime() makes a datetime, Record.from_datetime() makes a record of a datetime, and Duration.to_timedelta() makes a timedelta.
The page docs/PYTHON.md of the repository describes all of these.
"""
from ixdtf import _pydantic
from ixdtf._datetimes import ZoneConflictError, ZoneNotFoundError
from ixdtf._errors import IxdtfError
from ixdtf._reader import (
    Record,
    canonical,
    instant,
    instants,
    is_valid,
    is_valid_many,
    parse,
    parse_duration,
    parse_month_day,
    parse_offset,
    parse_rfc3339,
    parse_rfc9557,
    parse_time,
    parse_year_month,
    parse_zone,
    parse_zone_name,
)
from ixdtf._records import Annotation, Date, Duration, DurationTooLongError, Fraction, Instant, Instants, Offset, Time, Utc, Z, Zone

# With these methods, pydantic 2 accepts these classes as the types of fields.
for _kind in (Record, Duration, Offset, Zone):
    setattr(_kind, "__get_pydantic_core_schema__", classmethod(_pydantic.core_schema))
    setattr(_kind, "__get_pydantic_json_schema__", classmethod(_pydantic.json_schema))

# The version of the package. pyproject.toml reads it from here.
__version__ = "0.6.7"

__all__ = [
    "Annotation",
    "Date",
    "Duration",
    "DurationTooLongError",
    "Fraction",
    "Instant",
    "Instants",
    "IxdtfError",
    "Offset",
    "Record",
    "Time",
    "Utc",
    "Z",
    "Zone",
    "ZoneConflictError",
    "ZoneNotFoundError",
    "canonical",
    "instant",
    "instants",
    "is_valid",
    "is_valid_many",
    "parse",
    "parse_duration",
    "parse_month_day",
    "parse_offset",
    "parse_rfc3339",
    "parse_rfc9557",
    "parse_time",
    "parse_year_month",
    "parse_zone",
    "parse_zone_name",
]
