"""An example for a type checker. python/test checks it with `mypy --strict`, if mypy is installed, and runs it too. Each `type: ignore` is a call that the
type checker must refuse: with --strict, mypy reports a `type: ignore` that is not needed."""
import datetime
import mmap
from array import array
from typing import TYPE_CHECKING, Optional, Union

import ixdtf
from ixdtf import Annotation, Date, Duration, Fraction, Instant, IxdtfError, Offset, Record, Time, Utc, Zone, ZoneConflictError, ZoneNotFoundError


def keep_known(annotation: Annotation) -> Optional[Annotation]:
    return None if annotation.key.startswith("x-") else annotation._replace(is_critical=False)


def describe(text: Union[str, bytes]) -> str:
    try:
        record = ixdtf.parse(text, handler=keep_known)
    except IxdtfError as error:
        where: int = error.position
        part: Union[str, bytes] = error.text[error.start : error.end]
        hint: Optional[str] = error.hint
        return f"{error.name} at {where}, while parsing {error.within}: {error.reason}, {error.message}, {hint}, {error.crate_text}, {part!r}"
    date: Optional[Date] = record.date
    zone: Optional[Zone] = record.zone
    name = zone.name if zone is not None else None
    year = date.year if date is not None else 0
    return f"{year} {name or 'no zone'} {record.calendar or 'no calendar'}"


def moment(text: str) -> Optional[datetime.datetime]:
    try:
        return ixdtf.parse_rfc9557(text).to_datetime(on_conflict="error", truncate=True)
    except ZoneNotFoundError as error:
        name: str = error.zone
        print(name)
        return None
    except ZoneConflictError as conflict:
        print(conflict.zone, conflict.local, conflict.offsets)
        return ixdtf.parse(text).to_datetime("offset")
    except ValueError:
        return None


def seconds_ahead(record: Record) -> Optional[float]:
    offset = record.offset
    if offset is None or offset.is_utc:
        return None
    return offset.to_timedelta().total_seconds()


def hours_ahead(record: Record) -> Optional[int]:
    offset = record.offset
    if offset is None or offset is ixdtf.Z:
        return None
    return offset.sign * offset.hour


def zone_of(record: Record) -> Optional[datetime.timezone]:
    offset: Union[Offset, Utc, None] = record.offset
    return None if offset is None else offset.to_timezone()


def many(texts: list[str], lines: bytes) -> int:
    values, missing = ixdtf.instants(texts, "rfc3339", errors="coerce", unit="us")
    first: int = values[0]
    numbers: array[int] = ixdtf.instants(lines).values
    valid: memoryview = ixdtf.is_valid_many(lines.split(), kind="date-time")
    some: list[Optional[str]] = [None, *texts]
    return first + len(numbers) + sum(missing) + sum(valid) + sum(ixdtf.is_valid_many(lines, offsets=array("i", [0, len(lines)]))) + len(ixdtf.is_valid_many(some))


class Array:
    """What an array of NumPy has for a type checker."""

    @property
    def __array_interface__(self) -> dict[str, object]:
        return {}


def buffers(array_of_bytes: Array, numbers: Array, mapped: mmap.mmap) -> list[Record]:
    ixdtf.is_valid_many(array_of_bytes, offsets=numbers)
    return [ixdtf.parse(array_of_bytes), ixdtf.parse(mapped), ixdtf.parse(array("b", b"2024-03-02")), ixdtf.parse(memoryview(b"2024-03-02"))]


def main() -> None:
    records: list[Record] = [ixdtf.parse("2024-03-02"), ixdtf.parse_year_month(b"2024-03"), ixdtf.parse_month_day("03-02", strict=True)]
    records += [ixdtf.parse_time(bytearray(b"T08:48"), strict=False, handler=None), ixdtf.parse_rfc3339("2024-03-02T08:48:00Z")]
    texts: list[str] = [ixdtf.canonical(records[0]), ixdtf.canonical(records[1], "year-month"), ixdtf.canonical(records[3], kind="time")]
    duration: Duration = ixdtf.parse_duration("PT1.5H", strict=True)
    length: datetime.timedelta = duration.to_timedelta()
    texts += [ixdtf.canonical(duration), ixdtf.canonical(ixdtf.parse_offset("+05:30")), ixdtf.canonical(ixdtf.parse_zone("Europe/Paris"))]
    found: Instant = ixdtf.instant(records[4])
    made = Record(Date(2024, 3, 2), Time(8, 48, 0, Fraction(1, 5)), ixdtf.Z, ixdtf.parse_zone_name("Etc/UTC"), "hebrew")
    valid: bool = ixdtf.is_valid("P1D", "duration") and ixdtf.is_valid("2024-03-02", kind="date-time")
    print(texts, length, found.seconds, made, valid, {made: 1}, made == records[0])
    moments = [Record.from_datetime(datetime.datetime(2024, 3, 2), digits=3).to_datetime(), ixdtf.canonical(datetime.datetime(2024, 3, 2)), found.to_datetime(truncate=True)]
    print(moments, Date(2024, 3, 2).to_date(), Time(8, 48, 0).to_time(truncate=True), ixdtf.canonical(found), Offset(1, 5, 30).to_timezone())
    print(hours_ahead(made), zone_of(made))
    keys: list[str] = [it.key for it in made.annotations]
    print(keys)
    print(many(["2024-03-02T08:48:00Z"], b"2024-03-02T08:48:00Z\n"), ixdtf.__version__, ixdtf.is_valid(array("b", b"2024-03-02")))
    print(describe("2024-13"), describe("2024-03-02[Europe/Paris][u-ca=hebrew]"), moment("2024-07-01T00:00:00Z[America/New_York]"), seconds_ahead(made))


def refused_by_the_type_checker() -> None:
    ixdtf.parse(20240302)  # type: ignore[arg-type]
    ixdtf.parse("2024-03-02", strict=True)  # type: ignore[call-arg]
    ixdtf.parse(text="2024-03-02")  # type: ignore[call-arg]
    ixdtf.parse("2024-03-02", handler=len)  # type: ignore[arg-type]
    ixdtf.parse_rfc3339("2024-03-02T08:48:00Z", handler=keep_known)  # type: ignore[call-arg]
    ixdtf.is_valid("2024-03-02", "date")  # type: ignore[arg-type]
    ixdtf.canonical(ixdtf.parse_duration("P1D"), "time")  # type: ignore[call-overload]
    ixdtf.canonical("2024-03-02")  # type: ignore[call-overload]
    ixdtf.instant(Date(2024, 3, 2))  # type: ignore[arg-type]
    ixdtf.parse("2024-03-02").to_datetime("both")  # type: ignore[arg-type]
    ixdtf.parse("2024-03-02").date = None  # type: ignore[misc]
    ixdtf.parse("2024-03-02").date.year  # type: ignore[union-attr]
    Record(date="2024-03-02")  # type: ignore[arg-type]
    ixdtf.parse("2024-03-02").offset.sign  # type: ignore[union-attr]
    Record.from_datetime(datetime.date(2024, 3, 2))  # type: ignore[arg-type]
    ixdtf.instants(["2024-03-02"], "time")  # type: ignore[arg-type]
    ixdtf.instants(["2024-03-02"], errors="ignore")  # type: ignore[arg-type]
    ixdtf.instants([object()])  # type: ignore[list-item]


if TYPE_CHECKING:

    class Subclass(Record):  # type: ignore[misc]
        pass


if __name__ == "__main__":
    main()
