"""rows.py: answers the requests of tests/run.py with the package for Python. The tests of the package import its functions too.

Each line of the input has the width, the word of the reader, the handler and the code units. Each line of the output has the cells of the answer. 8-bit
text is passed as bytes. 16-bit text is passed as str. run.py sends only 16-bit text without a bad code unit, because the package reads a str as UTF-8."""
import sys

import ixdtf
from ixdtf import IxdtfError, Z

# the reader for each word
READERS = {
    "parse": ixdtf.parse,
    "year-month": ixdtf.parse_year_month,
    "month-day": ixdtf.parse_month_day,
    "time": ixdtf.parse_time,
    "rfc3339": ixdtf.parse_rfc3339,
    "rfc9557": ixdtf.parse_rfc9557,
    "offset": ixdtf.parse_offset,
    "zone": ixdtf.parse_zone,
    "zone-name": ixdtf.parse_zone_name,
    "duration": ixdtf.parse_duration,
}
# the kinds of the records that have a canonical text
KINDS = {"parse": "date-time", "rfc3339": "date-time", "rfc9557": "date-time", "year-month": "year-month", "month-day": "month-day", "time": "time"}


def fraction(value):
    """Returns a fraction with nine digits, or nothing."""
    return "" if value is None else f".{value.nanosecond:09}"


def offset(value):
    """Returns an offset as the field `offset=` has it."""
    if value is Z:
        return "Z"
    second = "" if value.second is None else f",{value.second}{fraction(value.fraction)}"
    return f"{'-' if value.sign < 0 else '+'}{value.hour},{value.minute}{second}"


def zone(value):
    """Returns a zone as the field `tz=` has it."""
    return ("!" if value.is_critical else "") + (value.name if value.name is not None else offset(value.offset))


def duration_fields(value):
    """Yields the fields of the answer for a duration."""
    yield "sign=" + ("-" if value.sign < 0 else "+")
    if value.days is not None:
        yield f"date={value.years},{value.months},{value.weeks},{value.days}"
    times = [it for it in (value.hours, value.minutes, value.seconds) if it is not None]
    if times:
        yield "time=" + ",".join(map(str, times)) + fraction(value.fraction)


def record_fields(value):
    """Yields the fields of the answer for a record."""
    if value.date is not None:
        yield f"date={value.date.year},{value.date.month},{value.date.day}"
    if value.time is not None:
        yield f"time={value.time.hour},{value.time.minute},{value.time.second}{fraction(value.time.fraction)}"
    if value.offset is not None:
        yield "offset=" + offset(value.offset)
    if value.zone is not None:
        yield "tz=" + zone(value.zone)
    if value.calendar is not None:
        yield "calendar=" + value.calendar


def fields(value):
    """Returns the fields of the answer for a value that a reader returns."""
    if isinstance(value, ixdtf.Duration):
        return " ".join(duration_fields(value))
    if isinstance(value, ixdtf.Offset):
        return "offset=" + offset(value)
    if isinstance(value, ixdtf.Zone):
        return "tz=" + zone(value)
    return " ".join(record_fields(value))


def instant(record):
    """Returns the instant of a record as the tables write it."""
    try:
        found = ixdtf.instant(record)
    except ValueError:
        return "none"
    return f"{found.seconds},{found.nanoseconds}"


class Listener:
    """A handler of tests/replies.tsv, which notes its calls."""

    def __init__(self, name):
        self.name, self.count, self.heard = name, 0, ""

    def __call__(self, it):
        self.count += 1
        self.heard += f"[{'!' if it.is_critical else ''}{it.key}={it.value}]"
        if self.name == "drop" or (self.name, self.count) == ("another", 3):
            return None
        if self.name == "another" and self.count < 3:
            return ixdtf.Annotation("u-ca", "ab"[self.count - 1], self.count == 2 and it.is_critical)
        critical = {"make-critical": True, "turn-critical": not it.is_critical}.get(self.name, it.is_critical)
        return it._replace(is_critical=critical)


def accepted(reader, value):
    """Yields the cells for a value that a reader returned."""
    yield "fields=" + fields(value)
    if reader != "zone-name":
        yield "canonical=" + (ixdtf.canonical(value, KINDS[reader]) if reader in KINDS else ixdtf.canonical(value))
    if isinstance(value, ixdtf.Record):
        yield "instant=" + instant(value)


def refused(error):
    """Yields the cells for an error."""
    name = error.name.title().replace("_", "")
    yield "error=" + name + (f" {error.within}" if error.within else "")
    yield f"at={error.position}"
    yield f"part={error.start}..{error.end}"
    yield "reason=" + error.reason
    yield "message=" + error.message
    yield "hint=" + (error.hint or "none")


def cells(word, handler, text):
    """Yields the cells of the answer to a request."""
    reader = word.replace("strict-", "")
    keywords = {"strict": True} if reader != word else {}
    listener = Listener(handler) if handler else None
    if listener:
        keywords["handler"] = listener
    try:
        yield from accepted(reader, READERS[reader](text, **keywords))
    except IxdtfError as error:
        yield from refused(error)
    if listener:
        yield "calls=" + listener.heard


def main():
    for line in sys.stdin:
        width, word, handler, units = line.rstrip("\n").split("\t")
        text = bytes.fromhex(units) if width == "8" else bytes.fromhex(units).decode("utf-16-be")
        print("\t".join(cells(word, handler, text)))


if __name__ == "__main__":
    main()
