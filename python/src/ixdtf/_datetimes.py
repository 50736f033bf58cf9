"""Converts records to datetime.datetime."""
from __future__ import annotations

import datetime as _datetime
from typing import TYPE_CHECKING, NoReturn, Optional, Union

from ixdtf._records import Date, Offset, Time, Utc, Zone, _microsecond

if TYPE_CHECKING:
    from ixdtf._reader import Record


class ZoneConflictError(ValueError):
    """Raised by to_datetime if on_conflict is "error", and the offset and the zone of a record do not agree (RFC 9557, section 3.4).

    They do not agree if the zone has another offset at this time, or if the local time does not exist in the zone. If the record has
    its offset in hours and minutes, the offset of the zone is first rounded to minutes. It has these attributes:

    zone     the name of the zone, or its offset
    local    the local time, as a datetime without a tzinfo
    offsets  the offsets that the zone has at this time: a tuple of one or two timedeltas. It is empty if the local time does not exist."""

    __module__ = "ixdtf"
    zone: str = ""
    local: Optional[_datetime.datetime] = None
    offsets: tuple[_datetime.timedelta, ...] = ()


class ZoneNotFoundError(ValueError, KeyError):
    """Raised by to_datetime if the time zone database of this system does not have the zone. The attribute `zone` is the name of the zone.

    It is a ValueError, like each exception that a text can cause. What to_datetime raises is also a ZoneInfoNotFoundError of zoneinfo."""

    __module__ = "ixdtf"

    def __init__(self, zone: str) -> None:
        super().__init__(zone)
        self.zone = zone

    def __str__(self) -> str:
        return f"the time zone {self.zone[:80]!r} is unknown: the time zone database of this system (zoneinfo.TZPATH, or the package tzdata) does not have it"


def _conflict(message: str, zone: object, local: _datetime.datetime, offsets: tuple[_datetime.timedelta, ...]) -> ZoneConflictError:
    error = ZoneConflictError(message)
    error.zone, error.local, error.offsets = str(zone), local, offsets
    return error


def raise_gap(local: _datetime.datetime, zone: object) -> NoReturn:
    """Raises the error of a local time that does not exist. `local` has the tzinfo of the zone, and `zone` is the zone or its name."""
    before, after = (_delta_text(_offset_at(local.replace(fold=fold))) for fold in (0, 1))
    naive = local.replace(tzinfo=None, fold=0)
    message = f"{naive.time()} does not exist in {zone} on {naive.date()}: the clocks were set forward over it, from the offset {before} to {after}"
    raise _conflict(message, zone, naive, ())


def _raise_conflict(local: _datetime.datetime, offset: Offset, zone: _datetime.tzinfo) -> NoReturn:
    """Raises the error of a local time at which the zone does not have the offset. `local` has no tzinfo."""
    first, second = (_offset_at(local.replace(tzinfo=zone, fold=fold)) for fold in (0, 1))
    if first < second:  # By PEP 495, only if the clocks were set forward over the local time.
        raise_gap(local.replace(tzinfo=zone), zone)
    offsets = (first,) if first == second else (first, second)
    known = " or ".join(map(_delta_text, offsets))
    raise _conflict(f"the offset {_offset_text(offset)} is not that of {zone} at {local}, which has {known}", zone, local, offsets)


def to_datetime(record: Record, on_conflict: str = "error", truncate: bool = False) -> _datetime.datetime:
    """Returns the datetime of a record. Record.to_datetime calls this function. The documentation of Record.to_datetime describes the
    arguments and the errors."""
    if on_conflict not in ("error", "offset", "zone"):
        raise ValueError(f"expected on_conflict to be 'error', 'offset' or 'zone', and found {on_conflict!r}")
    local = _local(record, truncate)
    if record.zone is None:
        return local if record.offset is None else local.replace(tzinfo=_fixed(record.offset, truncate))
    zone = _zone_info(record.zone)
    if record.offset is None:
        return local.replace(tzinfo=zone)
    known = local.replace(tzinfo=_fixed(record.offset, truncate))
    if isinstance(record.offset, Utc) or _is_negative_zero(record.offset):
        return _moved(known, zone)
    return _agreed(known, record.offset, zone, on_conflict)


def _local(record: Record, truncate: bool) -> _datetime.datetime:
    """Returns the local time of a record, without a tzinfo. Raises ValueError if a datetime cannot hold it."""
    date, time = record.date, record.time
    if date is None or time is None:
        raise ValueError(_missing(date, time))
    return _datetime.datetime.combine(date.to_date(), time.to_time(truncate))


def _missing(date: Optional[Date], time: Optional[Time]) -> str:
    """Returns a message that says which part is missing, and how the other one is converted."""
    if date is None:
        return "the record has no date" + ("" if time is None else ". record.time.to_time() returns its time.")
    return "the record has no time. record.date.to_date() returns its date."


def _fixed(offset: Union[Offset, Utc], truncate: bool) -> _datetime.timezone:
    """Returns the tzinfo of an offset."""
    if isinstance(offset, Utc):
        return _datetime.timezone.utc
    seconds = offset.hour * 3600 + offset.minute * 60 + (offset.second or 0)
    return _datetime.timezone(offset.sign * _datetime.timedelta(seconds=seconds, microseconds=_microsecond(offset.fraction, truncate)))


def _zone_info(zone: Zone) -> _datetime.tzinfo:
    """Returns the tzinfo of a zone. For a name, it is a ZoneInfo. Raises ZoneNotFoundError for an unknown name."""
    if zone.offset is not None:
        return _fixed(zone.offset, False)
    from ixdtf._zones import find_zone

    return find_zone(zone.name or "")


def _is_negative_zero(offset: Offset) -> bool:
    """Returns whether an offset is -00:00. It means the same as Z: the time is in UTC, and local time is not known (RFC 9557, section 2)."""
    return offset.sign < 0 and not (offset.hour or offset.minute or offset.second or (offset.fraction and offset.fraction.value))


def _moved(known: _datetime.datetime, zone: _datetime.tzinfo) -> _datetime.datetime:
    """Returns an instant as a local time of the zone. Raises ValueError if the year is then outside 1 to 9999, either in UTC or in the zone."""
    try:
        return known.astimezone(_datetime.timezone.utc).astimezone(zone)
    except OverflowError:
        raise ValueError(f"the year of a datetime is 1 to 9999, but the year of {known} is outside of it in UTC or in {zone}") from None


def _exists(local: _datetime.datetime, naive: _datetime.datetime) -> bool:
    """Returns whether a local time of a zone exists. It does not exist if the clocks were set forward over it. `naive` is the same time without tzinfo."""
    try:
        return local.astimezone(_datetime.timezone.utc).astimezone(local.tzinfo).replace(tzinfo=None) == naive
    except OverflowError:  # The year is outside 1 to 9999 in UTC. Then this cannot be found out in this way, and the local time counts as existing.
        return True


def _agreed(known: _datetime.datetime, offset: Offset, zone: _datetime.tzinfo, on_conflict: str) -> _datetime.datetime:
    """Returns a local time in the zone. `known` is this local time, with the offset as its tzinfo. If the zone has the offset at the local time, returns the
    local time with the zone as its tzinfo. If the local time occurs twice, `fold` is set so that the result has the offset. If the zone does not have the
    offset at the local time, `on_conflict` decides what is returned or raised."""
    local = known.replace(tzinfo=None)
    for is_exact in (True, False):
        for fold in (0, 1):
            found = local.replace(tzinfo=zone, fold=fold)
            if _fits(_offset_at(found), offset, is_exact) and _exists(found, local):
                return found
    if on_conflict == "offset":
        return _moved(known, zone)
    if on_conflict == "zone":
        return local.replace(tzinfo=zone)
    _raise_conflict(local, offset, zone)


def _offset_at(local: _datetime.datetime) -> _datetime.timedelta:
    """Returns the offset of a datetime that has a tzinfo."""
    return local.utcoffset() or _datetime.timedelta(0)


def _fits(delta: _datetime.timedelta, offset: Offset, is_exact: bool) -> bool:
    """Returns whether `delta`, the offset of a zone, agrees with the offset of the text. If `is_exact` is false, and the offset of the text has no seconds,
    `delta` is rounded to minutes before the comparison, because ECMAScript's Temporal writes rounded offsets."""
    written = _fixed(offset, True).utcoffset(None)
    if is_exact or offset.second is not None:
        return delta == written
    minute = _datetime.timedelta(minutes=1)
    whole, rest = divmod(abs(delta), minute)
    rounded = minute * (whole + (2 * rest >= minute))
    return written == (rounded if delta >= _datetime.timedelta(0) else -rounded)


def _delta_text(delta: _datetime.timedelta) -> str:
    """Returns a timedelta as the text of an offset, such as -05:00."""
    sign, whole = ("-", -delta) if delta < _datetime.timedelta(0) else ("+", delta)
    minutes, seconds = divmod(int(whole.total_seconds()), 60)
    return f"{sign}{minutes // 60:02}:{minutes % 60:02}" + (f":{seconds:02}" if seconds else "")


def _offset_text(offset: Offset) -> str:
    """Returns the text of an offset, without its fraction."""
    return _delta_text(_fixed(offset, True).utcoffset(None))
