"""The parts of a record, durations and instants. All of them except Z are named tuples: they never change, and two of them are equal if their fields
are equal."""
import datetime as _datetime
import enum
from typing import TYPE_CHECKING, Any, Final, Literal, NamedTuple, Optional

if TYPE_CHECKING:
    from array import array


class Fraction(NamedTuple):
    """The digits after a point or a comma.

    digits  the number of digits; 255 if there are more than 255
    value   the first 18 digits as one number, such as 250 for ".250"
    """

    digits: int
    value: int

    @property
    def nanosecond(self) -> int:
        """The nanoseconds of a fraction of a second. Digits after the ninth are dropped."""
        known = min(self.digits, 18)
        return int(self.value * 10 ** (9 - known) if known < 9 else self.value // 10 ** (known - 9))


class Date(NamedTuple):
    """A date. The year is -999999 to 999999. If the text has only a month and a day, the year is 0, and the day can be 0. If it has only a year and a month,
    the day is 1."""

    year: int
    month: int
    day: int

    def to_date(self) -> _datetime.date:
        """Returns the datetime.date. Raises ValueError if the year is not 1 to 9999, or if the day does not exist in the month."""
        if not 1 <= self.year <= 9999:
            raise ValueError(f"the year of a datetime is 1 to 9999, but the year of the record is {self.year}")
        if self.day == 0:
            raise ValueError("the day of a datetime is at least 1, but the day of the record is 0")
        return _datetime.date(self.year, self.month, self.day)


class Time(NamedTuple):
    """A time of day. The second is 0 to 60. If the text has no fraction, `fraction` is None."""

    hour: int
    minute: int
    second: int
    fraction: Optional[Fraction] = None

    @property
    def nanosecond(self) -> int:
        """The nanoseconds of the fraction. Digits after the ninth are dropped."""
        return 0 if self.fraction is None else self.fraction.nanosecond

    def to_time(self, truncate: bool = False) -> _datetime.time:
        """Returns the datetime.time, without a tzinfo. Raises ValueError if the second is 60, or if the fraction has digits other than 0 after the sixth, or
        more than 18 digits. With truncate=True, the second 60 becomes 59, and digits after the sixth are dropped."""
        if self.second == 60 and not truncate:
            raise ValueError("the second of a datetime is at most 59, but the second of the record is 60. With truncate=True, it becomes 59.")
        return _datetime.time(self.hour, self.minute, min(self.second, 59), _microsecond(self.fraction, truncate))


class Offset(NamedTuple):
    """How far local time is ahead of UTC.

    sign      1 or -1; for "-00:00" it is -1
    hour      0 to 23
    minute    0 to 59
    second    0 to 59, or None if the offset has only hours and minutes
    fraction  the fraction of the second, or None if the offset has none
    """

    sign: int
    hour: int
    minute: int
    second: Optional[int] = None
    fraction: Optional[Fraction] = None

    @property
    def is_utc(self) -> Literal[False]:
        """Whether this value is Z, which says that the time is in UTC. An Offset is never Z, so this property is always False."""
        return False

    def to_timedelta(self) -> _datetime.timedelta:
        """Returns the offset as a timedelta. Raises ValueError if the fraction is not a whole number of microseconds, or has more than 18 digits."""
        seconds = self.hour * 3600 + self.minute * 60 + (self.second or 0)
        return self.sign * _datetime.timedelta(seconds=seconds, microseconds=_microseconds(self.fraction, 1))

    def to_timezone(self) -> _datetime.timezone:
        """Returns the offset as a datetime.timezone. Raises ValueError if the fraction is not a whole number of microseconds, or has more than 18 digits."""
        return _datetime.timezone(self.to_timedelta())


class Utc(enum.Enum):
    """The type of Z, its only value, which says that the time is in UTC, and does not say what the local time is."""

    Z = "Z"

    @property
    def is_utc(self) -> Literal[True]:
        """Whether this value is Z. It is always True."""
        return True

    def to_timedelta(self) -> _datetime.timedelta:
        """Returns a timedelta of 0."""
        return _datetime.timedelta(0)

    def to_timezone(self) -> _datetime.timezone:
        """Returns datetime.timezone.utc."""
        return _datetime.timezone.utc

    def __repr__(self) -> str:
        return "Z"

    def __str__(self) -> str:
        return "Z"


Utc.__module__ = "ixdtf"
Z: Final = Utc.Z


class Zone(NamedTuple):
    """A time zone. If it has a name, `offset` is None. If it has an offset, `name` is None. If it is critical, a program must use this zone, or
    reject the text."""

    name: Optional[str] = None
    offset: Optional[Offset] = None
    is_critical: bool = False


class Annotation(NamedTuple):
    """A key and a value, such as "u-ca" and "hebrew" for [u-ca=hebrew]. It is critical if there is a "!" before the key."""

    key: str
    value: str
    is_critical: bool = False


class DurationTooLongError(ValueError, OverflowError):
    """Raised by Duration.to_timedelta if the duration is too long for a timedelta."""

    __module__ = "ixdtf"


class Duration(NamedTuple):
    """A duration.

    sign                           1 or -1
    years, months, weeks, days     numbers. If the text has no years, months, weeks or days, all four are None.
    hours, minutes, seconds        numbers or None. For "PT5M", they are 0, 5 and None: the units after the last unit in the text are None. If the
                                   text has no time, all three are None.
    fraction                       the fraction of the last unit of the time, or None if it has none
    """

    sign: int = 1
    years: Optional[int] = None
    months: Optional[int] = None
    weeks: Optional[int] = None
    days: Optional[int] = None
    hours: Optional[int] = None
    minutes: Optional[int] = None
    seconds: Optional[int] = None
    fraction: Optional[Fraction] = None

    def to_timedelta(self) -> _datetime.timedelta:
        """Returns the duration as a timedelta.

        Raises ValueError if the duration has years or months other than 0, because their lengths differ. Raises ValueError if the fraction is not a
        whole number of microseconds, or has more than 18 digits. Raises DurationTooLongError, which is a ValueError and an OverflowError, if the duration is too long
        for a timedelta.
        """
        if self.years or self.months:
            raise ValueError("a duration with years or months has no fixed length")
        last = 1 if self.seconds is not None else 60 if self.minutes is not None else 3600
        days = 7 * (self.weeks or 0) + (self.days or 0)
        seconds = 3600 * (self.hours or 0) + 60 * (self.minutes or 0) + (self.seconds or 0)
        rest = _datetime.timedelta(microseconds=_microseconds(self.fraction, last))
        try:
            return self.sign * (_datetime.timedelta(days=days) + _datetime.timedelta(seconds=seconds) + rest)
        except OverflowError:
            raise DurationTooLongError("the duration is too long for a timedelta, which has at most 999,999,999 days") from None


class Instant(NamedTuple):
    """A point in time. You can compare instants: `a < b` is true if `a` is earlier than `b`.

    seconds      the seconds since 1970-01-01T00:00:00Z, rounded down; negative before 1970; leap seconds are not counted
    nanoseconds  the nanoseconds after these seconds, 0 to 999,999,999
    """

    seconds: int
    nanoseconds: int

    def to_datetime(self, truncate: bool = False) -> _datetime.datetime:
        """Returns the instant as a datetime.datetime whose tzinfo is datetime.timezone.utc. Raises ValueError if the year is not 1 to 9999, or if the
        nanoseconds are not a whole number of microseconds. With truncate=True, further digits are dropped."""
        if self.nanoseconds % 1000 and not truncate:
            raise ValueError("the nanoseconds of the instant do not fit into the six digits of a datetime. With truncate=True, further digits are dropped.")
        try:
            return _EPOCH + _datetime.timedelta(seconds=self.seconds, microseconds=self.nanoseconds // 1000)
        except OverflowError:
            raise ValueError("the year of a datetime is 1 to 9999, but the year of the instant is outside of it") from None


class Instants(NamedTuple):
    """What instants() returns: the time of each text since 1970-01-01T00:00:00Z.

    values   an array of numbers of 64 bits, one for each text, in nanoseconds or another unit. NumPy makes an array of datetime64 without a copy from it:
             numpy.asarray(values).view("datetime64[ns]")
    missing  a memoryview of bool, one for each text: whether the text has no value. The number in `values` is then -2**63, which is NaT in NumPy and pandas.
    """

    values: "array[int]"
    missing: memoryview

    def __reduce__(self) -> tuple[Any, ...]:
        return _made_instants, (self.values, bytes(self.missing))


def _made_instants(values: "array[int]", missing: bytes) -> Instants:
    """Makes an Instants for pickle, which cannot pickle a memoryview."""
    return Instants(values, memoryview(bytearray(missing)).cast("?"))


_EPOCH = _datetime.datetime(1970, 1, 1, tzinfo=_datetime.timezone.utc)

for _part in (Fraction, Date, Time, Offset, Zone, Annotation, Duration, Instant, Instants):
    _part.__module__ = "ixdtf"


def _microseconds(fraction: Optional[Fraction], seconds: int) -> int:
    """Returns the microseconds of a fraction of a duration unit. The duration unit has `seconds` seconds. Raises ValueError if the number of microseconds
    is not whole, or if the fraction has more than 18 digits."""
    if fraction is None:
        return 0
    if fraction.digits > 18:
        raise ValueError("the fraction has more than 18 digits, and only the first 18 are known")
    whole, rest = divmod(fraction.value * seconds * 10**6, 10**fraction.digits)
    if rest:
        raise ValueError("the fraction is not a whole number of microseconds")
    return int(whole)


def _microsecond(fraction: Optional[Fraction], truncate: bool) -> int:
    """Returns the microseconds of a fraction of a second. If `truncate` is true, drops the digits after the sixth. Otherwise raises ValueError if the
    number of microseconds is not whole, or if the fraction has more than 18 digits. Raises ValueError if its value has more digits than its field `digits`
    says. No text gives such a fraction."""
    if fraction is None:
        return 0
    known = min(fraction.digits, 18)
    if fraction.value >= 10**known:
        raise ValueError("the value of a fraction of the record has more digits than its field digits says")
    whole, rest = divmod(fraction.value * 10**6, 10**known)
    if (rest or fraction.digits > 18) and not truncate:
        raise ValueError("the fraction of the record does not fit into the six digits of a datetime. With truncate=True, further digits are dropped.")
    return int(whole)


def describe(date: Any, time: Any, offset: Any, zone: Any, calendar: Any) -> str:
    """Returns what repr() of a record returns: a call of Record with the parts that are present."""
    parts = {"date": date, "time": time, "offset": offset, "zone": zone, "calendar": calendar}
    return f"Record({', '.join(f'{name}={part!r}' for name, part in parts.items() if part is not None)})"
