"""Finds time zones by their names. This module imports zoneinfo, so it is imported only when a zone is needed for the first time: the import takes some
milliseconds, and in CPython 3.11, zoneinfo fails in the main interpreter after it was imported in a sub-interpreter that has ended."""
from __future__ import annotations

from typing import Any
from zoneinfo import ZoneInfo, ZoneInfoNotFoundError

from ixdtf._datetimes import ZoneNotFoundError


class UnknownZone(ZoneNotFoundError, ZoneInfoNotFoundError):
    """A ZoneNotFoundError that is also a ZoneInfoNotFoundError, and has the name of the former."""

    __module__ = "ixdtf"
    __qualname__ = "ZoneNotFoundError"

    def __reduce__(self) -> tuple[Any, ...]:
        return unknown_zone, (self.zone,)


UnknownZone.__name__ = "ZoneNotFoundError"


def unknown_zone(name: str) -> UnknownZone:
    """Returns the exception for an unknown zone. pickle calls this function, because the name of the class is that of another one."""
    return UnknownZone(name)


def find_zone(name: str) -> ZoneInfo:
    """Returns the ZoneInfo with this name. Raises ZoneNotFoundError for an unknown name."""
    try:
        return ZoneInfo(name)
    except (KeyError, OSError, ValueError, RecursionError) as error:
        # For most names, it is a KeyError. ZoneInfo raises the others for some names, such as the name of a folder, of a file without a zone, a name with
        # "..", and one with many "/".
        raise UnknownZone(name) from error
