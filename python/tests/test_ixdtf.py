"""The tests of the package. python/test builds the package and runs them. If the package is installed, you can also run them with
python3 -m unittest discover -s python/tests"""
import array
import copy
import dataclasses
import datetime
import doctest
import gc
import json
import pathlib
import pickle
import random
import sys
import threading
import time
import typing
import unittest
import warnings
import weakref
import zoneinfo

try:
    import numpy
except ImportError:
    numpy = None
try:
    import pandas
except ImportError:
    pandas = None

try:
    import pydantic
    import pydantic.dataclasses
except ImportError:
    pydantic = None
else:
    pydantic = pydantic if pydantic.VERSION >= "2" else None

import ixdtf
from ixdtf import Annotation, Date, Duration, Fraction, Instant, IxdtfError, Offset, Record, Time, Z, Zone

TOP = pathlib.Path(__file__).resolve().parents[2]
READERS = {
    "parse": ixdtf.parse,
    "parse_year_month": ixdtf.parse_year_month,
    "parse_month_day": ixdtf.parse_month_day,
    "parse_time": ixdtf.parse_time,
    "parse_rfc3339": ixdtf.parse_rfc3339,
    "parse_rfc9557": ixdtf.parse_rfc9557,
    "parse_offset": ixdtf.parse_offset,
    "parse_identifier": ixdtf.parse_zone,
    "parse_iana_identifier": ixdtf.parse_zone_name,
    "duration": ixdtf.parse_duration,
}
KINDS = {
    "parse": "date-time",
    "parse_year_month": "year-month",
    "parse_month_day": "month-day",
    "parse_time": "time",
    "parse_rfc3339": "rfc3339",
    "parse_rfc9557": "rfc9557",
    "parse_offset": "offset",
    "parse_identifier": "zone",
    "parse_iana_identifier": "zone-name",
    "duration": "duration",
}
ACCEPTED = {
    "parse": "2024-03-02T08:48:00Z[UTC]",
    "parse_year_month": "2024-03",
    "parse_month_day": "03-02",
    "parse_time": "T08:48",
    "parse_rfc3339": "2024-03-02T08:48:00Z",
    "parse_rfc9557": "2024-03-02T08:48:00Z[UTC]",
    "parse_offset": "+05:30",
    "parse_identifier": "Europe/Paris",
    "parse_iana_identifier": "Europe/Paris",
    "duration": "P1D",
}
REPLY = Annotation("u-ca", "of-a-reply")
WITH_PROFILES = ("parse_month_day", "parse_time", "duration")
UTC = datetime.timezone.utc


def refusal(call, *arguments, **keywords):
    """Returns the IxdtfError that a call raises. Fails if the call raises none."""
    try:
        call(*arguments, **keywords)
    except IxdtfError as error:
        return error
    raise AssertionError(f"expected IxdtfError, but {arguments} is accepted")


def three_lines(error):
    """The first three lines of the report of an error. Only the hint is after them."""
    lines = str(error).split("\n")
    if lines[3:] != ([] if error.hint is None else ["hint: " + error.hint]):
        raise AssertionError(f"the report does not end with the hint {error.hint!r}: {lines}")
    return lines[:3]


def refused_cases():
    """Returns the cases of tests/refused.tsv of the repository for 16-bit text."""
    sys.path.insert(0, str(TOP / "tests"))
    import tables
    return [it for it in tables.cases("refused.tsv") if it.width == 16]


class Rows(unittest.TestCase):
    """Each row of tests/refused.tsv as a str: a text, its error, the position of the error and the part that is wrong, and the message. test_lines.py
    tests all rows as bytes."""

    METHODS = {"year-month": "parse_year_month", "month-day": "parse_month_day", "time": "parse_time", "rfc3339": "parse_rfc3339", "rfc9557": "parse_rfc9557",
               "offset": "parse_offset", "zone": "parse_identifier", "zone-name": "parse_iana_identifier"}

    def check_explained(self, error, row):
        """Checks the reason, the part and the message of an error, and the report, which shows the text."""
        message = row["message"].replace("the code unit 0x", "U+")
        self.assertEqual((error.reason, f"{error.start}..{error.end}", error.message), (row["reason"], row["part"], message))
        lines = three_lines(error)
        self.assertEqual((lines[0], lines[2].lstrip(" ")), (message, "^" * min(24, max(1, error.end - error.start))))
        if error.start <= 48:
            self.assertEqual(len(lines[2]) - len(lines[2].lstrip(" ")), error.start)

    def test_rows_as_str(self):
        """The position of the error is that of the row, except that a row for 16-bit text can have a character that is not ASCII. Then another error can
        be found, because the package reads the str as UTF-8."""
        seen = explained = other = 0
        for case in refused_cases():
            row, reader = case.row, self.METHODS.get(case.reader, case.reader)
            units = b"".join(unit.to_bytes(2, "little") for unit in case.units)
            text = units.decode("utf-16-le", "surrogatepass")  # a pair of surrogates is one character
            keywords = {"strict": True} if case.is_strict else {}
            with self.subTest(case=str(case)):
                error = refusal(READERS[reader], text, **keywords)
                self.assertFalse(ixdtf.is_valid(text, KINDS[reader], **keywords))
                seen += 1
                if row["error"] == "NonAsciiCodePoint":
                    other += error.position != int(row["at"])
                elif row["at"]:
                    self.assertEqual((error.position, error.within), (int(row["at"]), row["error"].partition(" ")[2]))
                if row["part"] and row["message"] and error.position == int(row["at"]):
                    self.check_explained(error, row)
                    explained += 1
        self.assertGreater(seen, 1400)
        self.assertGreater(explained, 350)
        self.assertLess(other, 30)


class Texts(unittest.TestCase):
    """A text is str or bytes, and may contain any characters. A record keeps its text as long as the record exists."""

    def test_positions_are_code_points(self):
        for front in ("", "\u00e9", "\u20ac", "\U0001f600", "\ud800"):
            error = refusal(ixdtf.parse, f"2024-03-02[a={front}]" if front else "2024-03-02[a=]")
            self.assertEqual((error.position, error.start, error.end), (13, 13, 14))
            self.assertEqual(three_lines(error)[2], " " * 13 + "^")
            self.assertEqual(error.message.rpartition(" ")[2], f"U+{ord(front):04X}" if front else "`]`")
        error = refusal(ixdtf.parse_duration, "P1D\u00e9")
        self.assertEqual((error.position, error.start, error.end), (3, 3, 4))
        error = refusal(ixdtf.parse_duration, "P1D\u00e9".encode("utf-8"))
        self.assertEqual((error.position, error.start, error.end), (3, 3, 4))
        self.assertEqual(three_lines(error), ["expected a number, `T` or the end after the unit, found U+00E9", "P1D\u00e9", "   ^"])

    def test_positions_of_bytes(self):
        error = refusal(ixdtf.parse, b"2024-03-02[a=\xff]")
        self.assertEqual((error.position, error.text), (13, b"2024-03-02[a=\xff]"))
        self.assertEqual(three_lines(error), ["expected a letter or digit of the annotation's value, found the byte 0xFF", "2024-03-02[a=", "             ^"])

    def test_each_width_of_a_str(self):
        for character in ("\u00e9", "\u20ac", "\U0001f600"):
            self.assertFalse(ixdtf.is_valid("2024-03-02" + character))
            self.assertEqual(refusal(ixdtf.parse, character + "2024").position, 0)
            self.assertEqual(refusal(ixdtf.parse, "2024-03-02" + character).position, 10)

    def test_each_character(self):
        """A text with a character that is not ASCII is refused at this character, in each reader, whatever the width of the str."""
        for name, reader in READERS.items():
            text = ACCEPTED[name]
            reader(text)
            for character in ("\x80", "\xe9", "\u20ac", "\ud800", "\U0001f600", "\U0010ffff"):
                self.assertEqual(refusal(reader, text + character).position, len(text), (name, character))
                self.assertEqual(refusal(reader, character + text).position, 0, (name, character))
                self.assertFalse(ixdtf.is_valid(text + character, KINDS[name]))

    def test_zero(self):
        self.assertEqual(refusal(ixdtf.parse, "2024-03-02\0").position, 10)
        self.assertEqual(refusal(ixdtf.parse, "\0").position, 0)

    def test_buffers_that_change(self):
        buffer = bytearray(b"2024-03-02[Europe/Paris][u-ca=hebrew]")
        record = ixdtf.parse(buffer)
        buffer[:] = b"x" * len(buffer)
        del buffer
        gc.collect()
        self.assertEqual((record.zone.name, record.calendar), ("Europe/Paris", "hebrew"))
        self.assertEqual(ixdtf.parse(memoryview(b"2024-03-02")).date, Date(2024, 3, 2))

    def test_text_that_is_gone(self):
        records = [ixdtf.parse("2024-03-02[Area/" + "a" * number + "]") for number in range(1, 200)]
        gc.collect()
        self.assertEqual([len(it.zone.name) for it in records], [5 + number for number in range(1, 200)])

    def test_buffers_that_are_gone(self):
        released = memoryview(b"2024-03-02")
        released.release()
        with self.assertRaises(ValueError):
            ixdtf.parse(released)
        self.assertEqual(ixdtf.parse(memoryview(b"2x0x2x4x-x0x3x-x0x2")[::2]).date, Date(2024, 3, 2))
        buffer = bytearray(b"2024-03-02[u-ca=a][u-ca=b]")

        def empty(annotation):
            buffer.clear()
            gc.collect()
            return annotation

        self.assertEqual(ixdtf.parse(buffer, handler=empty).calendar, "a")
        self.assertEqual(buffer, b"")

    def test_buffers_of_other_items(self):
        """Only a buffer with one dimension and with items of one byte is a text. The bytes of an array of numbers or of texts are not one."""
        self.assertEqual(ixdtf.parse(array.array("b", b"2024-03-02")), ixdtf.parse("2024-03-02"))
        self.assertEqual(ixdtf.parse(memoryview(b"2024-03-02").cast("c")), ixdtf.parse("2024-03-02"))
        for wrong in (array.array("H", b"2024-03-02"), memoryview(b"2024-03-02").cast("B", (2, 5)), memoryview(b"2024-03-02").cast("B", (1, 10)), memoryview(b"2").cast("?"),
                      memoryview(b"2").cast("B", ())):
            for call in (ixdtf.parse, ixdtf.is_valid, ixdtf.parse_duration):
                with self.assertRaises(TypeError):
                    call(wrong)

    def test_subclasses(self):
        """A text of a subclass of str or bytes can refer to its record. Such a cycle is freed."""

        class Str(str):
            pass

        class Bytes(bytes):
            pass

        class Other:
            pass

        for kind, text in ((Str, "2024-03-02[u-ca=a]"), (Bytes, b"2024-03-02[u-ca=a]")):
            made = kind(text)
            made.record, made.other = ixdtf.parse(made), Other()
            self.assertEqual((made.record, made.record.calendar), (ixdtf.parse("2024-03-02[u-ca=a]"), "a"))
            gone = weakref.ref(made.other)
            del made
            gc.collect()
            self.assertIsNone(gone())
        wrong = Str("2024-13-02")
        self.assertIs(refusal(ixdtf.parse, wrong).text, wrong)

    def test_surrogates(self):
        for text in ("\ud83d\ude00", "\ude00\ud83d", "\udcff", "\ud800"):
            for front in ("", "2024-03-02", "2024-03-02[Europe/Paris", "2024-03-02[a="):
                error = refusal(ixdtf.parse, front + text)
                self.assertEqual((error.position, error.text), (len(front), front + text))
                shown = text if text == "\U0001f600" else "\ufffd" * len(text)
                self.assertEqual(three_lines(error)[1:], [front + shown, " " * len(front) + "^"])
                self.assertEqual(error.message.rpartition(" ")[2], f"U+{ord(text[0]):04X}")
                self.assertEqual(pickle.loads(pickle.dumps(error)).text, front + text)

    def test_no_text(self):
        for value in (None, 2024, ["2024-03-02"], 1.5):
            with self.assertRaises(TypeError):
                ixdtf.parse(value)
            with self.assertRaises(TypeError):
                ixdtf.is_valid(value)

    def test_long_texts(self):
        long = "2024-03-02[A" + "a" * 9_999_999 + "]"
        self.assertEqual(len(ixdtf.parse(long).zone.name), 10_000_000)
        error = refusal(ixdtf.parse, long[:-1] + "\u00e9")
        self.assertEqual((error.position, error.start, error.end), (len(long) - 1, len(long) - 1, len(long)))
        self.assertEqual(three_lines(error)[1:], [".." + "a" * 48 + "\u00e9", " " * 50 + "^"])
        self.assertEqual(len(ixdtf.canonical(ixdtf.parse(long))), len(long))
        self.assertTrue(ixdtf.is_valid("P" + "0" * 10_000_000 + "1D", "duration"))


class Records(unittest.TestCase):
    """Records as Python values: their parts, comparison, hash, repr, pickle, and the constructor."""

    FULL = "2024-03-02T08:48:00.25-05:00[!America/New_York][u-ca=hebrew]"

    def test_parts(self):
        record = ixdtf.parse(self.FULL)
        self.assertEqual(record.date, Date(2024, 3, 2))
        self.assertEqual(record.time, Time(8, 48, 0, Fraction(2, 25)))
        self.assertEqual(record.time.nanosecond, 250_000_000)
        self.assertEqual(record.offset, Offset(-1, 5, 0))
        self.assertEqual(record.zone, Zone("America/New_York", None, True))
        self.assertEqual(record.calendar, "hebrew")
        self.assertIs(ixdtf.parse("2024-03-02T08Z").offset, Z)
        self.assertEqual(ixdtf.parse("2024-03-02T08-00:00:01,5").offset, Offset(-1, 0, 0, 1, Fraction(1, 5)))
        self.assertEqual(ixdtf.parse("2024-03-02[-05]").zone, Zone(None, Offset(-1, 5, 0)))

    def test_parts_are_kept(self):
        """A part is made once. It is a named tuple like any other, with the same hash."""
        for text in (self.FULL, "2024-03-02T08:48:00-05:00:01.5[+01:00]", "2024-03-02"):
            record = ixdtf.parse(text)
            for name in record.__match_args__:
                part = getattr(record, name)
                self.assertIs(getattr(record, name), part)
                if isinstance(part, tuple):
                    same = type(part)(*part)
                    self.assertEqual((part, hash(part), part._replace(), part._asdict()), (same, hash(same), same, same._asdict()))
        self.assertEqual([type(it) for it in ixdtf.parse(self.FULL).zone], [str, type(None), bool])

    def test_parts_that_are_not_there(self):
        record = ixdtf.parse("-000001-02-03")
        self.assertEqual((record.date, record.time, record.offset, record.zone, record.calendar), (Date(-1, 2, 3), None, None, None, None))

    def test_values(self):
        texts = [self.FULL, "2024-03-02", "2024-03-02T08", "2024-03-02T08:48:00Z", "2024-03-02[UTC]", "2024-03-02[+05:30]", "2024-03-02[u-ca=a]"]
        records = [ixdtf.parse(text) for text in texts]
        self.assertEqual(len(set(records)), len(texts))
        for text, record in zip(texts, records):
            same = ixdtf.parse(text.encode())
            self.assertEqual((record, hash(record)), (same, hash(same)))
            self.assertEqual(eval(repr(record), vars(ixdtf)), record)
            self.assertEqual(pickle.loads(pickle.dumps(record)), record)
            self.assertEqual(copy.deepcopy(record), record)
            self.assertNotEqual(record, text)
        with self.assertRaises(AttributeError):
            records[0].date = None

    def test_match(self):
        if sys.version_info < (3, 10):
            self.skipTest("the match statement needs Python 3.10 or later")
        names = {"record": ixdtf.parse(self.FULL), "Record": Record, "Date": Date, "Zone": Zone}
        exec("match record:\n case Record(date=Date(year, 3), zone=Zone(name=str(name))): found = year, name", names)
        self.assertEqual(names["found"], (2024, "America/New_York"))

    def test_made_records(self):
        record = Record(Date(2024, 2, 30))
        with self.assertRaises(ValueError):
            ixdtf.canonical(record)
        self.assertEqual(ixdtf.canonical(Record(Date(12345, 2, 1), Time(1, 2, 60), Z, Zone("Etc/UTC"), "iso8601")),
                         "+012345-02-01T01:02:60Z[Etc/UTC][u-ca=iso8601]")
        for wrong in (dict(date=Date(2024, 13, 1)), dict(date=Date(2024, 1, 300)), dict(date=Date(1000000, 1, 1)), dict(time=Time(24, 0, 0)),
                      dict(offset=Offset(0, 1, 0)), dict(offset=Offset(1, 1, 60)), dict(calendar="h\u00e9brew"), dict(zone=Zone("\u00e9"))):
            with self.assertRaises(ValueError):
                Record(**wrong)
        for wrong in (dict(date="2024-03-02"), dict(zone=5), dict(offset=object())):
            with self.assertRaises(AttributeError):
                Record(**wrong)

    def test_str(self):
        """str() of a record is its canonical text. If it has none, it is what repr() returns."""
        for text in (self.FULL, "2024-03-02", "2024-03-02T08:48:00Z[UTC]"):
            self.assertEqual((str(ixdtf.parse(text)), f"{ixdtf.parse(text)}"), (text, text))
        self.assertEqual(str(ixdtf.parse_time("T1214z")), "12:14:00Z")
        for record in (Record(), Record(Date(2024, 2, 30)), ixdtf.parse_month_day("11-00")):
            self.assertEqual(str(record), repr(record))

    def test_dates_and_times(self):
        record = ixdtf.parse("2024-03-02T08:48:00.25")
        self.assertEqual((record.date.to_date(), record.time.to_time()), (datetime.date(2024, 3, 2), datetime.time(8, 48, 0, 250000)))
        for wrong in (Date(0, 1, 1), Date(10000, 1, 1), Date(2024, 3, 0), Date(2023, 2, 29)):
            with self.assertRaises(ValueError):
                wrong.to_date()
        for time, cut in ((Time(23, 59, 60), datetime.time(23, 59, 59)), (Time(0, 0, 0, Fraction(7, 1234567)), datetime.time(0, 0, 0, 123456))):
            with self.assertRaises(ValueError):
                time.to_time()
            self.assertEqual(time.to_time(truncate=True), cut)

    def test_offsets(self):
        """An offset as a timedelta and as a timezone. Z has both too."""
        for text, minutes in (("T00+05:30", 330), ("T00-05:30", -330), ("T00-00:00", 0), ("T00Z", 0)):
            offset = ixdtf.parse_time(text).offset
            delta = datetime.timedelta(minutes=minutes)
            self.assertEqual((offset.to_timedelta(), offset.to_timezone()), (delta, datetime.timezone(delta)))
        self.assertIs(Z.to_timezone(), UTC)
        self.assertEqual(ixdtf.parse_offset("+00:00:01.000001").to_timezone().utcoffset(None), datetime.timedelta(seconds=1, microseconds=1))
        with self.assertRaises(ValueError):
            ixdtf.parse_offset("+00:00:01.0000001").to_timezone()

    def test_what_to_call_instead(self):
        """The message for a record without a time or a date names the method that converts the other part."""
        for record, message in ((ixdtf.parse("2024-03-02"), "the record has no time. record.date.to_date() returns its date."),
                                (ixdtf.parse_time("T12"), "the record has no date. record.time.to_time() returns its time."), (Record(), "the record has no date")):
            with self.assertRaises(ValueError) as caught:
                record.to_datetime()
            self.assertEqual(str(caught.exception), message)

    def test_round_trips(self):
        for text in (self.FULL, "20240302 084800,250z[!etc/utc][u-ca=hebrew][a=b]", "+002024-02-29t23:59:60-05", "2024-03-02T08:48:00." + "123456789" * 3):
            printed = ixdtf.canonical(ixdtf.parse(text))
            self.assertLessEqual(len(printed), len(text) + 14)
            self.assertEqual(ixdtf.canonical(ixdtf.parse(printed)), printed)


class Instants(unittest.TestCase):
    """The instants of records. Some of them are compared with those of datetime."""

    def test_known(self):
        for text, seconds, nanoseconds in (("1970-01-01T00:00Z", 0, 0), ("1969-12-31T23:59:59.5Z", -1, 500_000_000),
                                           ("2016-12-31T23:59:60Z", 1483228799, 0), ("-271821-04-20T00:00Z", -8640000000000, 0),
                                           ("1970-01-01T00:00:00.1+00:00:00.2", -1, 900_000_000), ("2024-03-02T00:00-05:00[Europe/Paris]", 1709355600, 0)):
            self.assertEqual(ixdtf.instant(ixdtf.parse(text)), Instant(seconds, nanoseconds))
        found = ixdtf.instant(ixdtf.parse("2024-03-02T00:00Z"))
        self.assertEqual((pickle.loads(pickle.dumps(found)), repr(found)), (found, "Instant(seconds=1709337600, nanoseconds=0)"))

    def test_text_and_datetime(self):
        """An instant as a text in UTC, and as a datetime."""
        for text in ("2024-03-02T13:48:00.25Z", "1970-01-01T00:00:00Z", "1969-12-31T23:59:59.999999999Z", "0000-02-29T00:00:00Z", "0000-03-01T00:00:00Z", "1900-03-01T00:00:00Z",
                     "2000-02-29T23:59:59Z", "-000001-12-31T00:00:00Z", "+275760-09-13T00:00:00Z", "-999999-01-01T00:00:00Z", "+999999-12-31T23:59:59.5Z"):
            self.assertEqual(ixdtf.canonical(ixdtf.instant(ixdtf.parse(text))), text)
        generator = random.Random(5)
        for _ in range(2000):
            moment = datetime.datetime(1, 1, 1, tzinfo=UTC) + datetime.timedelta(days=generator.randrange(3652059), microseconds=generator.randrange(86400 * 10**6))
            found = ixdtf.instant(Record.from_datetime(moment))
            self.assertEqual((found.to_datetime(), ixdtf.canonical(found)), (moment, ixdtf.canonical(moment)))
        self.assertEqual(ixdtf.canonical(ixdtf.instant(ixdtf.parse("2024-03-02T08:48:00-05:00[America/New_York]"))), "2024-03-02T13:48:00Z")
        before, after = ixdtf.instant(ixdtf.parse("-999999-01-01T00:00Z")).seconds - 1, ixdtf.instant(ixdtf.parse("+999999-12-31T23:59:59Z")).seconds + 1
        for wrong in (Instant(2**63 - 1, 0), Instant(-(2**63), 0), Instant(2**63, 0), Instant(0, -1), Instant(0, 10**9), Instant(before, 999999999), Instant(after, 0)):
            with self.assertRaises(ValueError):
                ixdtf.canonical(wrong)
        for wrong in (Instant(2**63 - 1, 0), Instant(-62135596801, 0), Instant(253402300800, 0), Instant(0, 1)):
            with self.assertRaises(ValueError):
                wrong.to_datetime()
        self.assertEqual(Instant(0, 1999).to_datetime(truncate=True), datetime.datetime(1970, 1, 1, 0, 0, 0, 1, UTC))

    def test_beside_datetime(self):
        generator = random.Random(1)
        texts = []
        for _ in range(3000):
            delta = datetime.timedelta(days=generator.randrange(3652059), microseconds=generator.randrange(86_400_000_000))
            zone = datetime.timezone(datetime.timedelta(seconds=generator.randrange(-86399, 86400)))
            texts.append((datetime.datetime.min + delta).replace(tzinfo=zone).isoformat())
        epoch = datetime.datetime(1970, 1, 1, tzinfo=UTC)
        for text in texts:
            microseconds = (datetime.datetime.fromisoformat(text) - epoch) // datetime.timedelta(microseconds=1)
            found = ixdtf.instant(ixdtf.parse(text))
            self.assertEqual((found.seconds, found.nanoseconds), (microseconds // 10**6, microseconds % 10**6 * 1000), text)

    def test_none(self):
        for record, part in ((ixdtf.parse("2024-03-02"), "time"), (ixdtf.parse("2024-03-02T08:48[UTC]"), "offset"), (ixdtf.parse_time("T12Z"), "date"),
                             (Record(Date(2024, 3, 2), Time(8, 48, 0, Fraction(1, 25)), Z), "fraction")):
            with self.assertRaisesRegex(ValueError, part):
                ixdtf.instant(record)
        with self.assertRaises(TypeError):
            ixdtf.instant("2024-03-02T08:48Z")


class Durations(unittest.TestCase):
    def test_parts(self):
        self.assertEqual(ixdtf.parse_duration("-P1Y2M3W4DT5H6M7.5S"), Duration(-1, 1, 2, 3, 4, 5, 6, 7, Fraction(1, 5)))
        self.assertEqual(ixdtf.parse_duration("PT1.5H"), Duration(1, None, None, None, None, 1, None, None, Fraction(1, 5)))
        self.assertEqual(ixdtf.parse_duration("P1D"), Duration(1, 0, 0, 0, 1))
        duration = ixdtf.parse_duration("PT5M")
        self.assertEqual((pickle.loads(pickle.dumps(duration)), hash(duration)), (duration, hash(duration)))

    def test_profiles(self):
        self.assertTrue(ixdtf.is_valid("P1Y2Y", "duration"))
        self.assertFalse(ixdtf.is_valid("P1Y2Y", "duration", strict=True))
        refusal(ixdtf.parse_duration, "P1Y2Y", strict=True)

    def test_canonical(self):
        for text, printed in (("+p1y0m03dt04,50m", "P1Y3DT4.50M"), ("-P0Y", "-P0D"), ("P0WT0H0S", "P0DT0S"), ("PT0H", "PT0H"), ("P1Y2Y", "P2Y"),
                              ("P4294967295Y18446744073709551615D", "P4294967295Y18446744073709551615D"),
                              ("PT18446744073709551615H00." + "1" * 300 + "M", "PT18446744073709551615H0." + "1" * 18 + "0" * 237 + "M")):
            duration = ixdtf.parse_duration(text)
            self.assertEqual(ixdtf.canonical(duration), printed)
            self.assertEqual(ixdtf.parse_duration(printed), duration)
        for wrong in (Duration(), Duration(0, 0, 0, 0, 0), Duration(1, 1), Duration(1, minutes=5), Duration(1, fraction=Fraction(1, 5)),
                      Duration(1, 1 << 32, 0, 0, 0), Duration(1, hours=1 << 64), Duration(1, hours=-1), Duration(1, hours=1, fraction=Fraction(1, 10))):
            with self.assertRaises(ValueError):
                ixdtf.canonical(wrong)
        for wrong in (Duration(1, hours="5"), "P1D", None):
            with self.assertRaises(TypeError):
                ixdtf.canonical(wrong)

    def test_timedelta(self):
        for text, seconds in (("P1W", 604800), ("-P1DT1H", -90000), ("PT1.5H", 5400), ("PT1.5M", 90), ("PT0.000001S", 1e-6), ("PT0.0000010S", 1e-6)):
            self.assertEqual(ixdtf.parse_duration(text).to_timedelta().total_seconds(), seconds)
        for text in ("P1Y", "P1M", "PT0.0000001S", "PT0.333333333H", "PT0." + "1" * 19 + "S"):
            with self.assertRaises(ValueError):
                ixdtf.parse_duration(text).to_timedelta()
        for kind in (OverflowError, ValueError):
            with self.assertRaises(kind):
                ixdtf.parse_duration("P18446744073709551615D").to_timedelta()


class Handlers(unittest.TestCase):
    TEXT = "2024-03-02[Europe/Paris][u-ca=hebrew][!x-note=a-b][u-ca=iso8601]"

    def test_calls(self):
        seen = []
        record = ixdtf.parse(self.TEXT, handler=lambda it: seen.append(it))
        self.assertEqual(seen, [Annotation("u-ca", "hebrew"), Annotation("x-note", "a-b", True), Annotation("u-ca", "iso8601")])
        self.assertEqual((record.calendar, record.zone.name), (None, "Europe/Paris"))

    def test_annotations(self):
        """The attribute annotations of a record has what a handler is called with, whatever the handler returns."""
        for reader, text in ((ixdtf.parse, "2024-03-02T08:48Z[UTC][u-ca=hebrew][x-note=a-b][u-ca=iso8601]"), (ixdtf.parse_time, "T12[a=b]"), (ixdtf.parse_year_month, "2020-11[a=b]"),
                             (ixdtf.parse_month_day, "11-07[UTC][!u-ca=hebrew][_=0]"), (ixdtf.parse_rfc9557, "2024-03-02T08:48:00Z[!UTC][a=b]"), (ixdtf.parse, "2024-03-02")):
            seen = []
            reader(text, handler=lambda it: seen.append(it))
            for form in (text, text.encode(), bytearray(text.encode())):
                record = reader(form)
                self.assertEqual(record.annotations, tuple(seen))
                self.assertIs(record.annotations, record.annotations)
                for again in (reader(text, handler=lambda it: None), reader(text, handler=lambda it: it), reader(text, handler=lambda it: REPLY)):
                    self.assertEqual(again.annotations, tuple(seen))
        self.assertEqual(ixdtf.parse(self.TEXT, handler=lambda it: None).annotations, (Annotation("u-ca", "hebrew"), Annotation("x-note", "a-b", True), Annotation("u-ca", "iso8601")))
        self.assertEqual([ixdtf.parse_time("1200[a=b]", strict=True).annotations, ixdtf.parse_month_day("11-07[a=b]", strict=True).annotations], [(Annotation("a", "b"),)] * 2)
        for record in (Record(Date(2024, 3, 2)), ixdtf.parse_rfc3339("2024-03-02T08:48:00Z"), Record.from_datetime(datetime.datetime(2024, 3, 2))):
            self.assertEqual(record.annotations, ())

    def test_annotations_are_kept(self):
        """pickle and copy keep the annotations. They do not matter if two records are compared, and canonical() does not write them."""
        record = ixdtf.parse("2024-03-02[u-ca=hebrew][x-note=a][y=b]")
        for again in (pickle.loads(pickle.dumps(record)), copy.copy(record), copy.deepcopy(record), pickle.loads(pickle.dumps(pickle.loads(pickle.dumps(record))))):
            self.assertEqual((again, again.annotations), (record, (Annotation("u-ca", "hebrew"), Annotation("x-note", "a"), Annotation("y", "b"))))
        bare = ixdtf.parse("2024-03-02[u-ca=hebrew]")
        self.assertEqual((record, hash(record), str(record), repr(record)), (bare, hash(bare), str(bare), repr(bare)))
        for wrong in ([], None, (1,), (("a", "b", False),), (Annotation("a", 1),), (Annotation("a", "b", 1),), (Annotation("a", record),)):
            with self.assertRaises(TypeError):
                ixdtf._reader._restore((None,) * 5, wrong)

    def test_replies(self):
        kept = ixdtf.parse(self.TEXT, handler=lambda it: None if it.key == "x-note" else it)
        self.assertEqual(kept.calendar, "hebrew")
        made = ixdtf.parse(self.TEXT, handler=lambda it: Annotation("u-ca", "of-a-reply") if it.is_critical else None)
        gc.collect()
        self.assertEqual((made.calendar, made.zone.name), ("of-a-reply", "Europe/Paris"))
        self.assertEqual(ixdtf.parse_time("T12[u-ca=a]", handler=lambda it: it).calendar, "a")

    def test_refused(self):
        error = refusal(ixdtf.parse, self.TEXT, handler=lambda it: it)
        self.assertEqual((error.name, error.position), ("UNRECOGNIZED_CRITICAL", self.TEXT.index("[u-ca=iso")))
        error = refusal(ixdtf.parse, self.TEXT + "x", handler=lambda it: None)
        self.assertEqual((error.name, error.position), ("INVALID_END", len(self.TEXT)))

    def test_exceptions(self):
        class Stopped(Exception):
            pass

        def stop(annotation):
            raise Stopped(annotation.key)

        with self.assertRaises(Stopped):
            ixdtf.parse(self.TEXT, handler=stop)
        with self.assertRaises(AttributeError):
            ixdtf.parse(self.TEXT, handler=lambda it: 5)
        with self.assertRaises(TypeError):
            ixdtf.parse(self.TEXT, handler=5)
        with self.assertRaises(TypeError):
            ixdtf.parse_year_month("2020-11", strict=True)


class Datetimes(unittest.TestCase):
    def test_without_zone(self):
        self.assertEqual(ixdtf.parse("2024-03-02T08:48:00.25").to_datetime(), datetime.datetime(2024, 3, 2, 8, 48, 0, 250000))
        self.assertIs(ixdtf.parse("2024-03-02T08:48Z").to_datetime().tzinfo, UTC)
        for text in ("2024-03-02T08:48:00.123456-05:00", "0001-01-01T00:00:00+00:00", "9999-12-31T23:59:59.999999-23:59"):
            self.assertEqual(ixdtf.parse(text).to_datetime(), datetime.datetime.fromisoformat(text))
            self.assertEqual(ixdtf.parse(text).to_datetime(on_conflict="zone"), datetime.datetime.fromisoformat(text))
        offset = ixdtf.parse("2024-03-02T08:48:00-00:00:01.5").to_datetime().utcoffset()
        self.assertEqual(offset, -datetime.timedelta(seconds=1.5))

    def test_what_a_datetime_has_not(self):
        for text in ("2024-03-02", "+010000-01-01T00:00", "0000-01-01T00:00", "2016-12-31T23:59:60Z", "2024-03-02T00:00:00.1234567",
                     "2024-03-02T00:00:00+00:00:00.1234567"):
            with self.assertRaises(ValueError):
                ixdtf.parse(text).to_datetime()
        self.assertEqual(ixdtf.parse("2024-03-02T00:00:00.1234560").to_datetime().microsecond, 123456)
        self.assertEqual(ixdtf.parse("2024-03-02T00:00:00.1234567").to_datetime(truncate=True).microsecond, 123456)
        self.assertEqual(ixdtf.parse("2016-12-31T23:59:60Z").to_datetime(truncate=True), datetime.datetime(2016, 12, 31, 23, 59, 59, tzinfo=UTC))
        for text in ("2024-03-02", "+010000-01-01T00:00"):
            with self.assertRaises(ValueError):
                ixdtf.parse(text).to_datetime(truncate=True)
        for digits, value in ((1, 25), (1, 382401004647999005), (6, (1 << 32) + 5), (6, 1000000), (18, 10**18 - 1)):
            made = Record(Date(2024, 3, 2), Time(0, 0, 0, Fraction(digits, value)))
            with self.assertRaises(ValueError):
                made.to_datetime()
        with self.assertRaises(ValueError):
            ixdtf.parse("2024-03-02T00:00").to_datetime(on_conflict="both")
        with self.assertRaises(TypeError):
            ixdtf.parse("2024-03-02T00:00").to_datetime(conflict="error")

    def test_zone(self):
        new_york = zoneinfo.ZoneInfo("America/New_York")
        for text, fold in (("2024-11-03T01:30:00-04:00[America/New_York]", 0), ("2024-11-03T01:30:00-05:00[America/New_York]", 1)):
            found = ixdtf.parse(text).to_datetime()
            self.assertEqual((found.tzinfo, found.fold, found.isoformat()), (new_york, fold, text[:25]))
        for text in ("2024-07-01T00:00:00Z[America/New_York]", "2024-07-01T00:00:00-00:00[America/New_York]"):
            self.assertEqual(ixdtf.parse(text).to_datetime().isoformat(), "2024-06-30T20:00:00-04:00")
        self.assertEqual(ixdtf.parse("2024-07-01T00:00[America/New_York]").to_datetime().isoformat(), "2024-07-01T00:00:00-04:00")
        self.assertEqual(ixdtf.parse("2024-07-01T00:00+05:30[+05:30]").to_datetime().isoformat(), "2024-07-01T00:00:00+05:30")

    def test_zones_that_do_not_exist(self):
        for name in ("No/Where", "Europe", "zone.tab", "./UTC", "Europe/../UTC", "UTC/.", "A" * 300, "/".join(["A"] * 3000)):
            with self.assertRaises(zoneinfo.ZoneInfoNotFoundError):
                ixdtf.parse(f"2024-07-01T00:00[{name}]").to_datetime()
        with self.assertRaises(zoneinfo.ZoneInfoNotFoundError):
            Record(Date(2024, 7, 1), Time(0, 0, 0), None, Zone("")).to_datetime()
        for kind in (ValueError, KeyError, ixdtf.ZoneNotFoundError):
            with self.assertRaises(kind) as caught:
                ixdtf.parse("2024-07-01T00:00[No/Where]").to_datetime()
            error = caught.exception
            again = pickle.loads(pickle.dumps(error))
            self.assertEqual((error.zone, str(error), type(again), type(error).__name__), ("No/Where", str(again), type(error), "ZoneNotFoundError"))
            self.assertIn("'No/Where' is unknown", str(error))

    def test_zones_are_kept(self):
        """The tzinfo is the object that ZoneInfo returns, also after its cache is cleared, and if more zones are used than ZoneInfo keeps."""
        names = sorted(zoneinfo.available_timezones())[:30]
        zones = [ixdtf.parse(f"2024-07-01T00:00[{name}]").to_datetime().tzinfo for name in names]
        for name, zone in zip(names, zones):
            self.assertIs(zoneinfo.ZoneInfo(name), zone)
        zoneinfo.ZoneInfo.clear_cache()
        found = ixdtf.parse(f"2024-07-01T00:00[{names[0]}]").to_datetime().tzinfo
        self.assertIsNot(found, zones[0])
        self.assertIs(found, zoneinfo.ZoneInfo(names[0]))

    def test_first_and_last_year(self):
        for text in ("9999-12-31T23:59:59-05:00[America/New_York]", "9999-12-31T23:59:59-05:00[-05:00]", "0001-01-01T00:00:00+00:09:21[Europe/Paris]",
                     "0001-01-01T00:00:00+05:00[+05:00]"):
            for on_conflict in ("error", "offset", "zone"):
                found = ixdtf.parse(text).to_datetime(on_conflict)
                self.assertEqual(found.isoformat(), text[: text.index("[")])
        for text in ("9999-12-31T23:59:59Z[Asia/Tokyo]", "0001-01-01T00:00:00-00:00[America/New_York]"):
            for on_conflict in ("error", "offset", "zone"):
                with self.assertRaisesRegex(ValueError, "1 to 9999"):
                    ixdtf.parse(text).to_datetime(on_conflict)
        record = ixdtf.parse("9999-12-31T23:59:59-05:00[Asia/Tokyo]")
        with self.assertRaises(ixdtf.ZoneConflictError):
            record.to_datetime()
        with self.assertRaisesRegex(ValueError, "1 to 9999"):
            record.to_datetime("offset")
        self.assertEqual(record.to_datetime("zone").isoformat(), "9999-12-31T23:59:59+09:00")

    def test_conflict(self):
        record = ixdtf.parse("2024-07-01T00:00:00-05:00[America/New_York]")
        with self.assertRaises(ixdtf.ZoneConflictError) as caught:
            record.to_datetime()
        self.assertIn("-04:00", str(caught.exception))
        self.assertEqual(record.to_datetime("offset").isoformat(), "2024-07-01T01:00:00-04:00")
        self.assertEqual(record.to_datetime(on_conflict="zone").isoformat(), "2024-07-01T00:00:00-04:00")
        gap = ixdtf.parse("2024-03-10T02:30:00-05:00[America/New_York]")
        with self.assertRaises(ixdtf.ZoneConflictError):
            gap.to_datetime()
        self.assertEqual(gap.to_datetime("offset").isoformat(), "2024-03-10T03:30:00-04:00")
        self.assertEqual(gap.to_datetime("zone", True).isoformat(), "2024-03-10T02:30:00-05:00")

    def test_from_datetime(self):
        berlin, utc = zoneinfo.ZoneInfo("Europe/Berlin"), zoneinfo.ZoneInfo("UTC")
        moment = datetime.datetime(2024, 3, 2, 8, 48, 0, 250000)
        for value, text in (
            (moment, "2024-03-02T08:48:00.25"),
            (moment.replace(microsecond=0, tzinfo=UTC), "2024-03-02T08:48:00Z"),
            (moment.replace(microsecond=1, tzinfo=berlin), "2024-03-02T08:48:00.000001+01:00[Europe/Berlin]"),
            (moment.replace(tzinfo=utc), "2024-03-02T08:48:00.25+00:00[UTC]"),
            (moment.replace(tzinfo=datetime.timezone(-datetime.timedelta(hours=5, minutes=30))), "2024-03-02T08:48:00.25-05:30"),
            (moment.replace(tzinfo=datetime.timezone(datetime.timedelta(seconds=1, microseconds=5))), "2024-03-02T08:48:00.25+00:00:01.000005"),
            (datetime.datetime(2024, 10, 27, 2, 30, tzinfo=berlin), "2024-10-27T02:30:00+02:00[Europe/Berlin]"),
            (datetime.datetime(2024, 10, 27, 2, 30, tzinfo=berlin, fold=1), "2024-10-27T02:30:00+01:00[Europe/Berlin]"),
            (datetime.datetime(1, 1, 1, tzinfo=berlin), "0001-01-01T00:00:00+00:53[Europe/Berlin]"),
            (datetime.datetime(9999, 12, 31, tzinfo=berlin), "9999-12-31T00:00:00+01:00[Europe/Berlin]"),
        ):
            record = Record.from_datetime(value)
            self.assertEqual((str(record), ixdtf.canonical(value), ixdtf.parse(text)), (text, text, record))
            found = record.to_datetime()
            self.assertEqual((found, found.fold, found.utcoffset()), (value, value.fold, value.utcoffset()))
        digits = [str(Record.from_datetime(moment, digits=it))[19:] for it in (None, 0, 1, 3, 9)]
        self.assertEqual(digits, [".25", "", ".2", ".250", ".250000000"])
        with self.assertRaisesRegex(ixdtf.ZoneConflictError, "does not exist"):
            ixdtf.canonical(datetime.datetime(2024, 3, 31, 2, 30, tzinfo=berlin))
        for wrong in (-1, 10):
            with self.assertRaises(ValueError):
                Record.from_datetime(moment, digits=wrong)
        for wrong in (moment.date(), "2024-03-02", None):
            with self.assertRaises(TypeError):
                Record.from_datetime(wrong)

    def test_from_datetime_of_others(self):
        """A tzinfo of another package, and a datetime of a subclass with nanoseconds."""

        class Other(datetime.tzinfo):
            zone = "Area/Other"
            offset = datetime.timedelta(hours=1)

            def utcoffset(self, moment):
                return self.offset

        class Moment(datetime.datetime):
            nanosecond = 789

        other = Other()
        self.assertEqual(ixdtf.canonical(Moment(2024, 3, 2, 0, 0, 0, 123456, other)), "2024-03-02T00:00:00.123456789+01:00[Area/Other]")
        other.key = "Area/Key"
        self.assertEqual(ixdtf.canonical(datetime.datetime(2024, 3, 2, tzinfo=other)), "2024-03-02T00:00:00+01:00[Area/Key]")
        other.key = other.zone = None
        self.assertEqual(ixdtf.canonical(datetime.datetime(2024, 3, 2, tzinfo=other)), "2024-03-02T00:00:00+01:00")
        other.key, other.offset = "Area/Other", None
        self.assertEqual(ixdtf.canonical(datetime.datetime(2024, 3, 2, tzinfo=other)), "2024-03-02T00:00:00")
        other.offset, other.key = datetime.timedelta(hours=1), "no name"
        with self.assertRaises(ValueError):
            ixdtf.canonical(datetime.datetime(2024, 3, 2, tzinfo=other))

    def test_conflict_messages(self):
        for text, message, offsets in (
            ("2024-03-31T02:30:00+01:00[Europe/Berlin]", "02:30:00 does not exist in Europe/Berlin on 2024-03-31: the clocks were set forward over it, from the offset +01:00 to +02:00", ()),
            ("2024-10-27T02:30:00+05:00[Europe/Berlin]", "the offset +05:00 is not that of Europe/Berlin at 2024-10-27 02:30:00, which has +02:00 or +01:00", (2, 1)),
            ("2024-07-01T00:00:00+01:00[Europe/Berlin]", "the offset +01:00 is not that of Europe/Berlin at 2024-07-01 00:00:00, which has +02:00", (2,)),
            ("2024-07-01T00:00:00+01:00[+02:00]", "the offset +01:00 is not that of UTC+02:00 at 2024-07-01 00:00:00, which has +02:00", (2,)),
        ):
            with self.assertRaises(ixdtf.ZoneConflictError) as caught:
                ixdtf.parse(text).to_datetime()
            error = pickle.loads(pickle.dumps(caught.exception))
            self.assertEqual((str(error), error.offsets), (message, tuple(datetime.timedelta(hours=it) for it in offsets)))
            self.assertEqual(error.local, datetime.datetime.fromisoformat(text[:19]))

    def test_offset_rounded_to_minutes(self):
        text = "1970-01-01T00:00:00-00:45[Africa/Monrovia]"
        self.assertEqual(ixdtf.parse(text).to_datetime().utcoffset(), -datetime.timedelta(minutes=44, seconds=30))
        with self.assertRaises(ixdtf.ZoneConflictError):
            ixdtf.parse("1970-01-01T00:00:00-00:44:29[Africa/Monrovia]").to_datetime()
        # This local time occurs twice, with the offsets -06:59:56 and -07:00. An offset that is exactly the one of the text is preferred.
        found = ixdtf.parse("1883-11-18T12:00:01-07:00[America/Denver]").to_datetime()
        self.assertEqual((found.fold, found.utcoffset()), (1, -datetime.timedelta(hours=7)))

    ZONES = ("Africa/Cairo", "Africa/Casablanca", "America/New_York", "America/Sao_Paulo", "America/St_Johns", "America/Caracas", "Antarctica/Troll",
             "Asia/Kathmandu", "Asia/Pyongyang", "Asia/Tehran", "Asia/Tokyo", "Australia/Lord_Howe", "Europe/Berlin", "Europe/Dublin", "Europe/London",
             "Europe/Moscow", "Pacific/Apia", "Pacific/Auckland", "Pacific/Kiritimati", "America/Santiago")

    def test_each_change_of_offset(self):
        """Tests instants up to two hours before and after each change of the offset of a zone, from 1950 to 2034. The offset that the zone has is accepted,
        and another one is refused."""
        changes = 0
        for name in self.ZONES:
            zone = zoneinfo.ZoneInfo(name)
            for change in changes_of(zone):
                changes += 1
                for minutes in range(-120, 121, 30):
                    instant = change + datetime.timedelta(minutes=minutes)
                    self.one_instant(instant.astimezone(zone), name)
        self.assertGreater(changes, 1500)

    def one_instant(self, local, name):
        text = f"{local.isoformat()}[{name}]"
        found = ixdtf.parse(text).to_datetime()
        self.assertEqual((found.astimezone(UTC), found.fold, found.tzinfo), (local.astimezone(UTC), local.fold, local.tzinfo), text)
        self.assertEqual(found.utcoffset(), ixdtf.parse(ixdtf.canonical(local)).to_datetime().utcoffset(), text)
        wrong = local.replace(tzinfo=datetime.timezone(local.utcoffset() + datetime.timedelta(hours=3, minutes=7)))
        record = ixdtf.parse(f"{wrong.isoformat()}[{name}]")
        with self.assertRaises(ixdtf.ZoneConflictError):
            record.to_datetime()
        self.assertEqual(record.to_datetime("offset").astimezone(UTC), wrong.astimezone(UTC))
        self.assertEqual(record.to_datetime("zone").replace(tzinfo=None), local.replace(tzinfo=None))


def changes_of(zone):
    """Yields the instants at which the offset of a zone changes. It compares the offsets at the beginnings of two days, and finds the second of the change
    by bisection."""
    begin = datetime.datetime(1950, 1, 1, tzinfo=UTC)
    offset = begin.astimezone(zone).utcoffset()
    for day in range(1, 85 * 365):
        end = begin + datetime.timedelta(days=1)
        following = end.astimezone(zone).utcoffset()
        if following != offset:
            low, high = begin, end
            while high - low > datetime.timedelta(seconds=1):
                middle = low + (high - low) // 2
                middle = middle.replace(microsecond=0)
                if middle.astimezone(zone).utcoffset() == offset:
                    low = middle
                else:
                    high = middle
            yield high
        begin, offset = end, following


class Calls(unittest.TestCase):
    def test_kinds(self):
        for kind, text in (("date-time", "2024-03-02"), ("year-month", "2020-11"), ("month-day", "11-07"), ("time", "T12"), ("rfc3339", "2024-03-02T08:48:00Z"),
                           ("rfc9557", "2024-03-02T08:48:00Z[UTC]"), ("offset", "+05:30"), ("zone", "+05:30"),
                           ("zone-name", "Europe/Paris"), ("duration", "P1D")):
            self.assertTrue(ixdtf.is_valid(text, kind))
            self.assertTrue(ixdtf.is_valid(text, kind=kind))
            self.assertFalse(ixdtf.is_valid(text + "?", kind))
        for wrong in ("week", 5, None):
            with self.assertRaises(ValueError):
                ixdtf.is_valid("2024-03-02", wrong)

    def test_strict(self):
        self.assertTrue(ixdtf.is_valid("1200", "time", strict=True))
        self.assertFalse(ixdtf.is_valid("1200", "time"))
        self.assertFalse(ixdtf.is_valid("11-00", "month-day", strict=True))
        self.assertEqual(ixdtf.parse_month_day("11-00").date, Date(0, 11, 0))

    def test_rfc3339(self):
        for text in ("1985-04-12T23:20:50.52Z", "1996-12-19t16:39:57-08:00", "1990-12-31T23:59:60z"):
            self.assertEqual(ixdtf.parse_rfc3339(text), ixdtf.parse(text))
        for text in ("2024-03-02", "20240302T084800Z", "2024-03-02 08:48:00Z", "2024-03-02T08:48Z", "2024-03-02T08:48:00Z[UTC]"):
            self.assertTrue(ixdtf.is_valid(text))
            self.assertFalse(ixdtf.is_valid(text, "rfc3339"))
            refusal(ixdtf.parse_rfc3339, text)
        with self.assertRaises(TypeError):
            ixdtf.parse_rfc3339("1985-04-12T23:20:50.52Z", handler=None)

    def test_rfc9557(self):
        for text in ("1985-04-12T23:20:50.52Z", "1996-12-19T16:39:57-08:00[America/Los_Angeles][u-ca=hebrew]", "2022-07-08T00:14:07+00:00[!+08:45][x=y]"):
            self.assertEqual(ixdtf.parse_rfc9557(text), ixdtf.parse(text))
        for text in ("2024-03-02[u-ca=hebrew]", "2024-03-02T08:48Z[UTC]", "2024-03-02T08:48:00Z[+05]", "2024-03-02T08:48:00Z[Europe/../Paris]", "2024-03-02T08:48:00Z[Etc/5]"):
            self.assertTrue(ixdtf.is_valid(text))
            self.assertFalse(ixdtf.is_valid(text, "rfc9557"))
            refusal(ixdtf.parse_rfc9557, text)
        kept = ixdtf.parse_rfc9557("2024-03-02T08:48:00Z[!x=y][u-ca=hebrew]", handler=lambda it: None if it.key == "x" else it)
        self.assertEqual(kept.calendar, "hebrew")
        self.assertEqual(refusal(ixdtf.parse_rfc9557, "2024-03-02T08:48:00Z[UTC][!x=y]", handler=lambda it: it).position, 31)

    def test_parts(self):
        self.assertEqual(ixdtf.parse_offset("-05:00:30.5"), Offset(-1, 5, 0, 30, Fraction(1, 5)))
        self.assertEqual(ixdtf.parse_zone("+05:30"), Zone(None, Offset(1, 5, 30)))
        self.assertEqual(ixdtf.parse_zone_name("Europe/Berlin"), Zone("Europe/Berlin"))

    def test_canonical_parts(self):
        for text, printed in (("+05", "+05:00"), ("-053010,50", "-05:30:10.50"), ("-00", "-00:00")):
            self.assertEqual(ixdtf.canonical(ixdtf.parse_offset(text)), printed)
            self.assertEqual(ixdtf.parse_offset(printed), ixdtf.parse_offset(text))
        for text, printed in (("Europe/Berlin", "Europe/Berlin"), ("-0530", "-05:30"), ("A" * 1000, "A" * 1000)):
            self.assertEqual(ixdtf.canonical(ixdtf.parse_zone(text)), printed)
            self.assertEqual(ixdtf.parse_zone(printed), ixdtf.parse_zone(text))
        self.assertEqual(ixdtf.canonical(Zone("Etc/UTC", None, True)), "Etc/UTC")
        for wrong in (Offset(1, 24, 0), Offset(0, 1, 0), Offset(1, 1, 1, 1, Fraction(1, 10)), Zone("a b"), Zone(""), Zone("\u00e9"), Zone(None, Offset(1, 0, 60))):
            with self.assertRaises(ValueError):
                ixdtf.canonical(wrong)
        for wrong in (Z, "+05", Zone()):
            with self.assertRaises((TypeError, ValueError)):
                ixdtf.canonical(wrong)

    def test_canonical_kinds(self):
        rows = (
            ("time", ixdtf.parse_time, "T1214z[!u-ca=hebrew]", "12:14:00Z[u-ca=hebrew]"),
            ("time", ixdtf.parse_time, "12+01[+01]", "12:00:00+01:00[+01:00]"),
            ("year-month", ixdtf.parse_year_month, "+00202011", "2020-11"),
            ("month-day", ixdtf.parse_month_day, "--11-00[" + "A" * 1000 + "]", "11-00[" + "A" * 1000 + "]"),
            ("date-time", ixdtf.parse, "20201108", "2020-11-08"),
        )
        for kind, reader, text, printed in rows:
            self.assertEqual(ixdtf.canonical(reader(text), kind), printed)
            self.assertEqual(ixdtf.canonical(reader(text), kind=kind), printed)
            self.assertEqual(reader(printed), reader(text))
        first = ixdtf.parse_month_day("11-01")
        self.assertEqual([ixdtf.canonical(first, it) for it in ("month-day", "year-month", "date-time")], ["11-01", "0000-11", "0000-11-01"])
        for record, kind in ((first, "time"), (first, "zone"), (first, ""), (ixdtf.parse("2020-11-08"), "year-month"), (ixdtf.parse_time("12:00"), "month-day")):
            with self.assertRaises(ValueError):
                ixdtf.canonical(record, kind)
        for wrong in ((Offset(1, 1, 0), "time"), (), (first, "time", 1)):
            with self.assertRaises(TypeError):
                ixdtf.canonical(*wrong)

    def test_error(self):
        error = refusal(ixdtf.parse, "2024-03-02T8:48")
        self.assertIsInstance(error, ValueError)
        self.assertEqual((error.text, error.name, error.position, error.within), ("2024-03-02T8:48", "TIME_HOUR", 12, ""))
        self.assertEqual((error.reason, error.start, error.end), ("hour_digit", 12, 13))
        self.assertEqual(error.message, "expected a digit of the hour, which has two, found `:`")
        self.assertEqual(error.crate_text, "Invalid character while parsing hour value.")
        self.assertEqual(three_lines(error), [error.message, "2024-03-02T8:48", "            ^"])
        again = pickle.loads(pickle.dumps(error))
        self.assertEqual((str(again), again.__dict__), (str(error), error.__dict__))
        error = refusal(ixdtf.parse, "2024-")
        self.assertEqual((error.name, error.within, error.crate_text), ("ABRUPT_END", "digit", "Parsing ended abruptly while parsing digit"))
        self.assertEqual((error.start, error.end), (5, 5))
        self.assertEqual(three_lines(error), ["the text ends in the month; expected two digits", "2024-", "     ^"])

    def test_hints(self):
        """The hint is an attribute, and the last line of the report. There are texts without a hint."""
        for text in ("2024-3-02", b"2024-3-02", bytearray(b"2024-3-02"), "2024-3-02\u00e9"):
            error = refusal(ixdtf.parse, text)
            self.assertEqual(error.hint, "write the month as `03`")
            self.assertEqual(str(error).split("\n")[3:], ["hint: write the month as `03`"])
            again = pickle.loads(pickle.dumps(error))
            self.assertEqual((str(again), again.hint), (str(error), error.hint))
        error = refusal(ixdtf.parse, "2024-13-01")
        self.assertIsNone(error.hint)
        self.assertEqual(str(error), "the month is 13, and has to be 01 to 12\n2024-13-01\n     ^^")

    def test_explained_handlers(self):
        """The error of a refused reply, and the error of a reader that would refuse an annotation which the handler drops."""
        error = refusal(ixdtf.parse, "2024-03-02[a=b][!x=y]", handler=lambda it: it)
        self.assertEqual((error.reason, error.start, error.end), ("unrecognized_critical", 15, 21))
        message = "the annotation's key is not known; without `!`, the annotation would be ignored"
        self.assertEqual(three_lines(error), [message, "2024-03-02[a=b][!x=y]", "               ^^^^^^"])
        error = refusal(ixdtf.parse, "2024-03-02[u-ca=a][!u-ca=b]", handler=lambda it: it)
        self.assertEqual((error.reason, error.start, error.end), ("critical_duplicate_calendar", 18, 27))
        error = refusal(ixdtf.parse, "2024-03-02[!x=y]-", handler=lambda it: None)
        self.assertEqual((error.reason, error.start, error.end), ("after_bracket", 16, 17))
        for strict, end in ((False, 4), (True, 5)):
            error = refusal(ixdtf.parse_time, "1200-" if strict else "1200", strict=strict, handler=lambda it: it)
            self.assertEqual(error.end, end)


class ManyTexts(unittest.TestCase):
    """instants() and is_valid_many() give for each text what instant() and is_valid() give."""

    UNITS = {"ns": 10**9, "us": 10**6, "ms": 1000, "s": 1}
    NONE = -(2**63)

    @staticmethod
    def some_texts(number):
        generator = random.Random(number)
        letters = "0123456789-+:.TZ[]zt "
        for _ in range(number):
            text = f"{generator.choice(('2024', '1969', '-000001', '+275760', '1677', '2262', '0001', '9999'))}-{generator.randrange(1, 13):02}-{generator.randrange(1, 31):02}"
            if generator.random() < 0.95:
                text += f"T{generator.randrange(24):02}:{generator.randrange(60):02}:{generator.randrange(61):02}"
                text += generator.choice(("", ".5", ".123456789", ".1234567891", ",000000001")) + generator.choice(("Z", "z", "+05:30", "-00:00", "-23:59:59.5", "", "+01[Europe/Paris]"))
            if generator.random() < 0.1:
                place = generator.randrange(len(text) + 1)
                text = text[:place] + generator.choice(letters) + text[place + generator.randrange(2):]
            yield text

    def one(self, text, unit="ns", kind="date-time"):
        try:
            seconds, nanoseconds = ixdtf.instant(getattr(ixdtf, {"date-time": "parse"}.get(kind, "parse_" + kind))(text))
        except ValueError:
            return self.NONE
        number = (seconds * 10**9 + nanoseconds) * self.UNITS[unit] // 10**9
        return number if self.NONE < number < 2**63 else self.NONE

    def check(self, found, expected):
        self.assertEqual((type(found.values), found.values.typecode, found.values.itemsize, found.missing.format), (array.array, "q", 8, "?"))
        self.assertEqual(list(found.values), expected)
        self.assertEqual(found.missing.tolist(), [it == self.NONE for it in expected])

    def test_beside_one_text(self):
        texts = list(self.some_texts(3000))
        for kind in ("date-time", "rfc3339", "rfc9557"):
            for unit in self.UNITS:
                expected = [self.one(text, unit, kind) for text in texts]
                self.check(ixdtf.instants(texts, kind, errors="coerce", unit=unit), expected)
                self.assertTrue(0 < expected.count(self.NONE) < len(texts))
                if unit == "ns":
                    good = [text for text, it in zip(texts, expected) if it != self.NONE]
                    self.check(ixdtf.instants(good, kind), [it for it in expected if it != self.NONE])
        for kind, text in (("year-month", "2020-11"), ("month-day", "11-00"), ("time", "1200"), ("offset", "+05:30"), ("zone", "+05:30"), ("zone-name", "UTC"), ("duration", "P1Y2Y")):
            for strict in (False, True):
                some = [text, text + "?", "", *texts[:100]]
                self.assertEqual(ixdtf.is_valid_many(some, kind, strict=strict).tolist(), [ixdtf.is_valid(it, kind, strict=strict) for it in some])
        self.assertEqual(ixdtf.is_valid_many(texts).tolist(), [ixdtf.is_valid(it) for it in texts])

    def test_forms(self):
        """The forms of many texts: each form of the same texts gives the same answer. The number of texts is below and above the number without the GIL."""
        for number in (0, 1, 2, 63, 64, 1000, 20000):
            texts = [it for it in self.some_texts(min(number, 1000)) if it.isascii()] * (max(1, number // 1000))
            encoded = [it.encode() for it in texts]
            expected, valid = [self.one(it) for it in texts[:1000]] * (len(texts) // 1000 or 1), ixdtf.is_valid_many(texts).tolist()
            lines, joined = b"\n".join(encoded), b"".join(encoded)
            places = [0]
            for it in encoded:
                places.append(places[-1] + len(it))
            forms = [texts, tuple(texts), iter(texts), (it for it in texts), encoded, [bytearray(it) for it in encoded], [memoryview(it) for it in encoded], dict.fromkeys(texts).keys() if len(set(texts)) == len(texts) else texts]
            if "" not in texts[-1:]:
                forms += [lines, lines + b"\n" * len(lines[:1]), lines.replace(b"\n", b"\r\n"), lines.decode(), bytearray(lines), memoryview(lines), array.array("b", lines), memoryview(lines + b"xyz")[: len(lines)]]
            for form in forms:
                self.check(ixdtf.instants(form, errors="coerce"), expected)
            for form in (texts, lines, bytearray(lines)):
                self.assertEqual(ixdtf.is_valid_many(form).tolist(), valid)
            for code in "iqLQ":
                for data in (joined, bytearray(joined)):
                    self.check(ixdtf.instants(data, errors="coerce", offsets=array.array(code, places)), expected)
            unaligned = memoryview(b"x" + array.array("i", places).tobytes())[1:].cast("i")
            for offsets in (array.array("i", places), unaligned):
                self.assertEqual(ixdtf.is_valid_many(joined, offsets=offsets).tolist(), valid)

    def test_lines(self):
        for lines, count in ((b"", 0), (b"\n", 1), (b"\n\n", 2), (b"x", 1), (b"x\n", 1), (b"\r\n", 1), (b"\n" * 1000, 1000), (b"a" * 1000 + b"\n", 1), ("\u20ac\n2024-03-02", 2)):
            self.assertEqual(len(ixdtf.is_valid_many(lines)), count)
        for length in range(230, 260):
            self.assertEqual(len(ixdtf.is_valid_many(b"a" * length + b"\n" + b"b" * (500 - length))), 2)
        self.assertEqual(ixdtf.is_valid_many("\u20ac\n2024-03-02").tolist(), [False, True])
        self.assertEqual(ixdtf.is_valid_many(b"2024-03-02\r\n2024-03-02\r\r\n2024-03-02\r").tolist(), [True, False, True])
        long = b"2024-03-02[" + b"A" * 10000 + b"]"
        self.assertEqual(ixdtf.is_valid_many(bytearray(b"\n".join([long, long[:-1], long * 2, long]))).tolist(), [True, False, False, True])

    def test_texts_that_are_none(self):
        texts = ["2024-03-02T00:00Z", None, float("nan"), "\u20ac", b"\xff"]
        self.assertEqual(ixdtf.is_valid_many(texts).tolist(), [True, False, False, False, False])
        self.assertEqual(ixdtf.instants(texts, errors="coerce").missing.tolist(), [False, True, True, True, True])
        for wrong in (None, 5, 1.5, ["2024-03-02"]):
            with self.assertRaises(TypeError) as caught:
                ixdtf.instants(["2024-03-02T00:00Z", wrong])
            self.assertEqual(caught.exception.index, 1)

    def test_errors(self):
        good = "2024-03-02T00:00Z"
        for wrong, error in (("2024-13-02", IxdtfError), ("\u20ac", IxdtfError), (b"", IxdtfError), ("2024-03-02", ValueError), ("2024-03-02T00:00[UTC]", ValueError), ("2263-01-01T00:00Z", ValueError)):
            for number in (0, 5, 100):
                for texts in ([good] * number + [wrong, good], "\n".join([good] * number + [wrong if isinstance(wrong, str) else "", good])):
                    with self.assertRaises(error) as caught:
                        ixdtf.instants(texts)
                    self.assertEqual(caught.exception.index, number)
                    if error is IxdtfError:
                        alone = refusal(ixdtf.parse, caught.exception.text)
                        self.assertEqual((str(caught.exception), alone.index), (str(alone), None))
        self.assertEqual(list(ixdtf.instants(["2263-01-01T00:00Z"], unit="us").values), [9246182400000000])
        for keywords in (dict(errors="ignore"), dict(unit="m"), dict(kind="time"), dict(kind="duration"), dict(kind="week"), dict(kind=5)):
            with self.assertRaises(ValueError):
                ixdtf.instants([good], **keywords)
        for arguments, keywords in (((), {}), ((5,), {}), (([good], "date-time", "raise"), {}), (([good],), dict(offsets=array.array("i", [0]))), ((good,), dict(offsets=array.array("h", [0]))),
                                    ((good,), dict(offsets=array.array("i"))), ((good,), dict(offsets=array.array("d", [0]))), ((array.array("i", [0]),), {}),
                                    ((memoryview(b"2024").cast("B", (2, 2)),), {}), ((memoryview(b"2024")[::2],), {})):
            with self.assertRaises(TypeError):
                ixdtf.instants(*arguments, **keywords)
        for wrong in ([0, len(good) + 1], [5, 4], [-1, 3], [0, 3, 2]):
            with self.assertRaises(ValueError):
                ixdtf.is_valid_many(good, offsets=array.array("i", wrong))

    def test_other_missing_texts(self):
        """An object that is not equal to itself is a missing text, as NaT of pandas, and an object of a class with the name NAType."""

        class NaT:
            def __ne__(self, other):
                return True

        class NAType:
            def __ne__(self, other):
                return self

            def __bool__(self):
                raise TypeError

        class Broken:
            def __ne__(self, other):
                raise ZeroDivisionError

        texts = ["2024-03-02T00:00Z", NaT(), NAType()]
        self.assertEqual(ixdtf.instants(texts, errors="coerce").missing.tolist(), [False, True, True])
        self.assertEqual(ixdtf.is_valid_many(texts).tolist(), [True, False, False])
        for wrong in (5, Broken(), object(), Ellipsis):
            with self.assertRaises(TypeError) as caught:
                ixdtf.instants([*texts, wrong], errors="coerce")
            self.assertEqual(caught.exception.index, 3)

    def test_pickled(self):
        """The functions and an Instants can be sent to another process."""
        found = ixdtf.instants(["2024-03-02T00:00Z", None], errors="coerce")
        for again in (pickle.loads(pickle.dumps(found)), copy.copy(found), copy.deepcopy(found)):
            self.assertEqual((type(again), again), (ixdtf.Instants, found))
            self.assertEqual(again.missing.format, "?")
        for function in (ixdtf.instants, ixdtf.is_valid_many, ixdtf.parse):
            self.assertIs(pickle.loads(pickle.dumps(function)), function)

    @unittest.skipIf(numpy is None, "NumPy is not installed")
    def test_numpy(self):
        """NumPy uses the memory of the results, and its arrays of texts are read."""
        texts = ["2024-03-02T00:00:00Z", "1969-12-31T23:59:59.5Z", "2024-03-02T00:00:00+01:00"]
        expected = [1709337600 * 10**9, -(10**9) // 2, 1709334000 * 10**9]
        objects = numpy.array(texts, object)
        for form in (objects, numpy.array(texts), numpy.array(texts, "S"), numpy.array(texts, "S")[::-1][::-1], numpy.frombuffer("\n".join(texts).encode(), numpy.uint8)):
            found = ixdtf.instants(form)
            self.assertEqual(list(found.values), expected)
            values, missing = numpy.asarray(found.values), numpy.asarray(found.missing)
            self.assertEqual((values.dtype, missing.dtype, values.ctypes.data), (numpy.dtype("int64"), numpy.dtype("bool"), found.values.buffer_info()[0]))
        self.assertEqual([str(it) for it in values.view("datetime64[ns]")], ["2024-03-02T00:00:00.000000000", "1969-12-31T23:59:59.500000000", "2024-03-01T23:00:00.000000000"])
        places = numpy.cumsum([0, *map(len, texts)], dtype=numpy.int32)
        self.assertEqual(list(ixdtf.instants("".join(texts), offsets=places).values), expected)
        some = numpy.array([texts[0], numpy.nan, numpy.float64("nan"), numpy.datetime64("NaT"), None], object)
        coerced = ixdtf.instants(some, errors="coerce")
        self.assertEqual(numpy.isnat(numpy.asarray(coerced.values).view("datetime64[ns]")).tolist(), [False, True, True, True, True])
        for wrong in (numpy.array([[texts[0]]], "S"), numpy.array([1.5]), numpy.array([1, 2], ">i8"), numpy.zeros((2, 3), numpy.uint8)):
            with self.assertRaises(TypeError):
                ixdtf.instants(wrong)
        with self.assertRaises(TypeError):
            ixdtf.instants("".join(texts), offsets=places.astype(">i4"))

    @unittest.skipIf(pandas is None, "pandas is not installed")
    def test_pandas(self):
        texts = ["2024-03-02T00:00:00Z", None, "2024-03-02T00:00:00+01:00", "2024-02-30"]
        expected = pandas.to_datetime([texts[0], None, texts[2], None], utc=True)
        for form in (pandas.Series(texts), pandas.Series(texts, dtype="string"), pandas.Index(texts), pandas.Series([*texts[:1], pandas.NaT, *texts[2:]])):
            values, missing = ixdtf.instants(form, errors="coerce")
            index = pandas.DatetimeIndex(numpy.asarray(values).view("M8[ns]"), tz="UTC")
            self.assertTrue(index.equals(expected))
            self.assertEqual(missing.tolist(), expected.isna().tolist())
            self.assertEqual(ixdtf.is_valid_many(form).tolist(), [True, False, True, False])
        self.assertEqual(ixdtf.canonical(pandas.Timestamp("2024-03-02T08:48:00.123456789", tz="Europe/Berlin")), "2024-03-02T08:48:00.123456789+01:00[Europe/Berlin]")
        with self.assertRaises(ValueError):
            ixdtf.canonical(pandas.NaT)

    def test_stopped(self):
        """An exception of an iterator is passed on."""

        def stops():
            yield "2024-03-02T00:00Z"
            raise ZeroDivisionError

        with self.assertRaises(ZeroDivisionError):
            ixdtf.instants(stops())

    def test_threads(self):
        texts = list(self.some_texts(1000)) * 20
        lines = "\n".join(texts).encode()
        expected, failed = ixdtf.instants(texts, errors="coerce").values, []

        def work():
            for _ in range(5):
                for form in (texts, lines, bytearray(lines)):
                    if ixdtf.instants(form, errors="coerce").values != expected:
                        failed.append(1)

        threads = [threading.Thread(target=work) for _ in range(4)]
        for thread in threads:
            thread.start()
        for thread in threads:
            thread.join()
        self.assertEqual(failed, [])

    def test_lock(self):
        """Other threads run while many lines are read. No thread is made to give up the lock of the interpreter, because the interval for this is long."""
        lines, steps = b"2024-03-02T00:00:00Z\n" * 400_000, []

        def work():
            steps.append("begun")
            ixdtf.is_valid_many(lines)
            steps.append("ended")

        interval = sys.getswitchinterval()
        self.addCleanup(sys.setswitchinterval, interval)
        sys.setswitchinterval(1000)
        for _ in range(50):  # On a busy machine, this thread may not run in time.
            steps.clear()
            thread = threading.Thread(target=work)
            thread.start()
            while not steps:
                time.sleep(0)
            seen = list(steps)
            thread.join()
            if seen == ["begun"]:
                return
        self.fail("no other thread has run while the lines were read")

    def test_buffer_that_changes(self):
        """Another thread writes to the buffer while it is read. Each text is read from a copy, and the buffer cannot get shorter."""
        buffer = bytearray(b"2024-03-02T00:00:00Z\n" * 50_000)
        done = threading.Event()

        def change():
            number = 0
            while not done.is_set():
                number = (number + 7) % len(buffer)
                buffer[number] = 48 + number % 10
                try:
                    buffer.pop()
                except BufferError:
                    pass

        thread = threading.Thread(target=change)
        thread.start()
        try:
            for _ in range(10):
                found = ixdtf.instants(buffer, errors="coerce")
                self.assertEqual(len(found.values), len(found.missing))
        finally:
            done.set()
            thread.join()


class Fields(unittest.TestCase):
    """The classes of the package as the types of fields of a dataclass and of a model of pydantic 2."""

    def test_utc(self):
        """Z is the only value of Utc. There is one Z, also after pickle and copy."""
        self.assertEqual((list(ixdtf.Utc), repr(Z), str(Z), f"{Z}", Z.is_utc, type(Z)), ([Z], "Z", "Z", "Z", True, ixdtf.Utc))
        for again in (pickle.loads(pickle.dumps(Z)), copy.copy(Z), copy.deepcopy(Z), pickle.loads(b"cixdtf\nZ\n.")):
            self.assertIs(again, Z)

    def test_dataclass(self):
        @dataclasses.dataclass(frozen=True, order=False)
        class Meeting:
            start: Record = ixdtf.parse("2024-03-02T08:48")
            length: Duration = Duration(1, hours=1, minutes=0)

        meeting = Meeting()
        self.assertEqual(dataclasses.replace(meeting, start=ixdtf.parse("20240302T0848")), meeting)
        self.assertEqual(dataclasses.asdict(meeting)["start"], meeting.start)
        self.assertEqual(hash(meeting), hash(copy.deepcopy(meeting)))

    @unittest.skipIf(pydantic is None, "pydantic 2 is not installed")
    def test_pydantic(self):
        class Meeting(pydantic.BaseModel):
            start: Record
            length: Duration = Duration(1, hours=1)
            zone: typing.Optional[Zone] = None
            offset: typing.Union[Offset, ixdtf.Utc, None] = None
            date: typing.Optional[Date] = None

        given = {"start": "2024-03-02T08:48:00Z[UTC][x=y]", "length": "PT1H30M", "zone": "Europe/Berlin", "offset": "+05:30", "date": [2024, 3, 2]}
        expected = Meeting(start=ixdtf.parse(given["start"]), length=ixdtf.parse_duration("PT1H30M"), zone=Zone("Europe/Berlin"), offset=Offset(1, 5, 30), date=Date(2024, 3, 2))
        made = Meeting(**given)
        self.assertEqual((made, Meeting.model_validate_json(json.dumps(given))), (expected, expected))
        with warnings.catch_warnings():
            warnings.simplefilter("error")
            dumped = made.model_dump()
        self.assertIs(dumped["start"], made.start)
        self.assertEqual((Meeting(**dumped), Meeting(**dumped).start.annotations, dumped["length"]), (made, (Annotation("x", "y"),), "PT1H30M"))
        self.assertEqual(json.loads(made.model_dump_json()), {**given, "start": "2024-03-02T08:48:00Z[UTC]"})
        self.assertEqual(Meeting(start=b"2024-03-02T08:48Z", offset="Z").model_dump_json(), '{"start":"2024-03-02T08:48:00Z","length":"PT1H","zone":null,"offset":"Z","date":null}')
        self.assertEqual(Meeting.model_json_schema()["properties"]["start"], {"title": "Start", "type": "string"})
        self.assertEqual(Meeting.model_json_schema(mode="serialization")["properties"]["start"], {"title": "Start", "type": "string"})
        self.assertEqual(json.loads(Meeting(start=ixdtf.parse_time("T12")).model_dump_json())["start"], "12:00:00")
        for wrong, message in (("2024-13-02", "the month is 13, and has to be 01 to 12"), (5, "Input should be a valid string")):
            with self.assertRaisesRegex(pydantic.ValidationError, message):
                Meeting(start=wrong)
        with self.assertRaises(pydantic.ValidationError):
            Meeting.model_validate_json('{"start": 5}')

        class Shop(pydantic.BaseModel):
            opens: typing.Annotated[Record, pydantic.BeforeValidator(ixdtf.parse_time)]

        shop = Shop(opens="T08")
        self.assertEqual((shop, shop.model_dump_json()), (Shop.model_validate_json('{"opens": "08:00"}'), '{"opens":"08:00:00"}'))

    @unittest.skipIf(pydantic is None, "pydantic 2 is not installed")
    def test_pydantic_dataclass(self):
        @pydantic.dataclasses.dataclass
        class Meeting:
            start: Record

        self.assertEqual(Meeting("2024-03-02").start, ixdtf.parse("2024-03-02"))
        self.assertEqual(pydantic.TypeAdapter(list[Record]).validate_python(["2024-03-02"]), [ixdtf.parse("2024-03-02")])


class Runs(unittest.TestCase):
    """The package works in several threads and in several interpreters."""

    def test_threads(self):
        long = "2024-03-02[" + "a" * 100_000 + "]"
        failed = []

        def work():
            for number in range(300):
                day = number % 28 + 1
                if ixdtf.parse(f"2024-02-{day:02}[Area/Name]").date.day != day or len(ixdtf.parse(long).zone.name) != 100_000:
                    failed.append(day)

        threads = [threading.Thread(target=work) for _ in range(8)]
        for thread in threads:
            thread.start()
        for thread in threads:
            thread.join()
        self.assertEqual(failed, [])

    def test_interpreters(self):
        try:
            import _xxsubinterpreters as interpreters
        except ImportError:
            try:
                import _interpreters as interpreters
            except ImportError:
                self.skipTest("this Python has no module for sub-interpreters")
        for _ in range(3):
            try:
                other = interpreters.create("legacy") if hasattr(interpreters, "new_config") else interpreters.create(isolated=False)
            except TypeError:
                other = interpreters.create()
            interpreters.run_string(other, f"import sys; sys.path[:] = {sys.path!r}; import ixdtf; assert ixdtf.parse('2024-03-02').date.day == 2")
            interpreters.destroy(other)
        self.assertEqual(ixdtf.parse("2024-03-02").date.day, 2)


def load_tests(loader, tests, pattern):
    """Adds the examples in the docstring of the package and in docs/PYTHON.md to the tests."""
    tests.addTests(doctest.DocTestSuite(ixdtf))
    page = TOP / "docs" / "PYTHON.md"
    if page.exists():
        tests.addTests(doctest.DocFileSuite(str(page), module_relative=False))
    return tests


if __name__ == "__main__":
    unittest.main()
