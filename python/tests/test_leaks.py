"""Tests that the package does not leak memory. Each test makes the same call many times, and then looks whether these have grown:

- the memory that tracemalloc counts, which is all memory that Python's allocators give to Python and to the extension;
- the number of references to the arguments of the call, and to the types and functions of the package. It must not have become smaller either;
- the number of all references, if this Python is a debug build (sys.gettotalrefcount).

Before, each call is made some times without measuring, because some memory is kept on purpose, such as the last time zone. The measuring is repeated if
something has grown, so that memory that is kept only once does not count.

If the environment variable IXDTF_WITHOUT_MEASURING is set, each call is made only twice, and nothing is measured. python/leaks sets it for valgrind."""
import array
import copy
import datetime
import gc
import importlib
import itertools
import os
import pickle
import sys
import threading
import tracemalloc
import types
import typing
import unittest
import zoneinfo

import ixdtf
import ixdtf._reader
import ixdtf._records
from ixdtf import Annotation, Date, Duration, Fraction, IxdtfError, Offset, Record, Time, Z, Zone

try:
    import _testcapi  # a module for the tests of CPython, which is not installed with each Python
except ImportError:
    _testcapi = None

WITHOUT_MEASURING = "IXDTF_WITHOUT_MEASURING" in os.environ
WARM, CALLS, ROUNDS = 8, 24, 5
REPLY = Annotation("u-ca", "of-a-reply")
FULL = "2024-03-02T08:48:00.25-05:00[!America/New_York][u-ca=hebrew]"
READERS = {
    ixdtf.parse: ("date-time", FULL, "2024-02-30"),
    ixdtf.parse_year_month: ("year-month", "2020-11[Europe/Paris][u-ca=hebrew]", "2020-13"),
    ixdtf.parse_month_day: ("month-day", "11-07[Europe/Paris][u-ca=hebrew]", "11-31"),
    ixdtf.parse_time: ("time", "T12:30:05,5+01:00:00.5[+01:00][u-ca=hebrew]", "T24"),
    ixdtf.parse_rfc3339: ("rfc3339", "2024-03-02T08:48:00.25-05:00", "2024-03-02T08:48"),
    ixdtf.parse_rfc9557: ("rfc9557", FULL, "2024-03-02T08:48:00"),
    ixdtf.parse_offset: ("offset", "-05:30:10.5", "05:30"),
    ixdtf.parse_zone: ("zone", "Europe/Paris", "Europe/"),
    ixdtf.parse_zone_name: ("zone-name", "Europe/Paris", "+05:30"),
    ixdtf.parse_duration: ("duration", "-P1Y2M3W4DT5H6M7.5S", "P1S"),
}
WITH_HANDLER = (ixdtf.parse, ixdtf.parse_year_month, ixdtf.parse_month_day, ixdtf.parse_time, ixdtf.parse_rfc9557)
WITH_PROFILES = (ixdtf.parse_month_day, ixdtf.parse_time, ixdtf.parse_duration)
# objects that exist as long as the package, and to which the extension makes and drops references
SHARED = [it for module in (ixdtf, ixdtf._reader, ixdtf._records) for it in vars(module).values() if isinstance(it, (type, types.FunctionType, types.ModuleType))]
SHARED += [Z, datetime.timezone.utc, datetime.datetime, datetime.timedelta, REPLY, None, True, False, *range(61)]


def attempt(call, *arguments, **keywords):
    """Makes a call, and ignores the exceptions that the package and the handlers of these tests raise."""
    try:
        return call(*arguments, **keywords)
    except (ValueError, TypeError, AttributeError, OverflowError, ZeroDivisionError, KeyError, ImportError):
        return None


def starved(call):
    """Makes a call again and again. In each call, one allocation of memory fails: the first, then the second, and so on, until 20 calls in a row did not
    need a further allocation. Returns the types of the exceptions that were raised."""
    raised, number, since = set(), 0, 0
    while since < 20:
        since, number = since + 1, number + 1
        try:
            try:
                _testcapi.set_nomemory(number, number + 1)
                call()
            finally:
                _testcapi.remove_mem_hooks()
        except MemoryError:
            since = 0
        except Exception as error:
            raised.add(type(error))
    return raised


def settle():
    """Frees what Python keeps only to be faster, such as the names of attributes in its cache of types, and reference cycles."""
    getattr(sys, "_clear_internal_caches", sys._clear_type_cache)()
    gc.collect()


def measure(call, arguments, keywords, count):
    """Makes a call `count` times. Returns by how much the memory, the references to its arguments and to SHARED, and all references have changed."""
    given = [*arguments, *keywords.values()]
    watched = [*SHARED, *given, *(part for it in given if isinstance(it, tuple) for part in it)]
    settle()
    references = [sys.getrefcount(it) for it in watched]
    total = getattr(sys, "gettotalrefcount", int)()
    memory = tracemalloc.get_traced_memory()[0]
    for _ in itertools.repeat(None, count):
        attempt(call, *arguments, **keywords)
    settle()
    grown = tracemalloc.get_traced_memory()[0] - memory
    all_grown = getattr(sys, "gettotalrefcount", int)() - total
    return grown, max(map(abs, (sys.getrefcount(it) - before for it, before in zip(watched, references)))), all_grown


def leak(call, *arguments, count=CALLS, **keywords):
    """Returns what a call leaks: a text for a person, or None. A leak of one object for each call is at least 16 bytes or one reference for each call."""
    for _ in range(min(WARM, count)):
        attempt(call, *arguments, **keywords)
    for _ in range(ROUNDS):
        memory, references, total = measure(call, arguments, keywords, count)
        if memory < 8 * count and references < count // 2 and total < count // 2:
            return None
    return f"{count} calls leave {memory} bytes, {references} references to one object, and {total} references to all objects"


class Leaks(unittest.TestCase):
    @classmethod
    def setUpClass(cls):
        if WITHOUT_MEASURING:
            return
        gc.collect()
        gc.freeze()  # The objects that exist now are not visited by gc.collect() any more, so it is fast.
        tracemalloc.start()

    @classmethod
    def tearDownClass(cls):
        if WITHOUT_MEASURING:
            return
        tracemalloc.stop()
        gc.unfreeze()

    def none(self, call, *arguments, **keywords):
        """Fails if the call leaks."""
        if WITHOUT_MEASURING:
            attempt(call, *arguments, **keywords)
            attempt(call, *arguments, **keywords)
            return
        found = leak(call, *arguments, **keywords)
        if found is not None:
            self.fail(f"{call!r} with {repr(arguments)[:300]}, {keywords}: {found}")

    def test_the_measuring(self):
        """A leak of one small object, of memory without an object, or of one reference for each call is found."""
        if WITHOUT_MEASURING:
            self.skipTest("nothing is measured")
        kept = []
        for call, arguments in ((lambda: kept.append(object()), ()), (lambda: kept.append(bytearray(1)), ()), (kept.append, (REPLY,)), (kept.append, ("a text",))):
            self.assertIsNotNone(leak(call, *arguments), arguments)
        self.assertIsNone(leak(list, (1, 2, 3)))

    def texts(self, accepted, refused):
        """Yields texts of each type, accepted and refused, and with characters of each width."""
        for text in (accepted, refused, accepted + "?", "", "\0", *(accepted + it for it in ("\xe9", "\u20ac", "\ud800", "\U0001f600"))):
            encoded = text.encode("utf-8", "surrogatepass")
            yield from (text, encoded, bytearray(encoded), memoryview(encoded))

    def test_readers(self):
        for reader, (kind, accepted, refused) in READERS.items():
            self.assertTrue(ixdtf.is_valid(accepted, kind))
            self.assertFalse(ixdtf.is_valid(refused, kind))
            for text in self.texts(accepted, refused):
                self.none(reader, text)
                self.none(ixdtf.is_valid, text, kind)
            if reader in WITH_PROFILES:
                self.none(reader, accepted, strict=True)
                self.none(reader, refused, strict=True)
                self.none(ixdtf.is_valid, accepted, kind=kind, strict=True)

    def test_subclasses(self):
        class Str(str):
            pass

        class Bytes(bytes):
            pass

        def cycle(kind, text):
            made = kind(text)
            made.record = ixdtf.parse(made)

        for text in (Str(FULL), Bytes(FULL.encode()), Str("2024"), Bytes(b"2024"), Str("2024\u20ac")):
            self.none(ixdtf.parse, text)
        self.none(cycle, Str, FULL)
        self.none(cycle, Bytes, FULL.encode())

    def test_wrong_arguments(self):
        class Broken:
            def __bool__(self):
                raise ZeroDivisionError

        released, wide = memoryview(b"2024-03-02"), memoryview(b"2024-03-02").cast("H")
        released.release()
        for reader in READERS:
            self.none(reader)
            self.none(reader, 5)
            self.none(reader, released)
            self.none(reader, wide)
            self.none(reader, "2024-03-02", "2024-03-02")
            self.none(reader, "2024-03-02", other=5)
            if reader in WITH_PROFILES:
                self.none(reader, "2024-03-02", strict=Broken())
        self.none(ixdtf.is_valid)
        self.none(ixdtf.is_valid, None)
        self.none(ixdtf.is_valid, "2024-03-02", "week")
        self.none(ixdtf.is_valid, "2024-03-02", kind=["time"])
        self.none(ixdtf.is_valid, "2024-03-02", other=5)
        self.none(ixdtf.is_valid, "2024-03-02", strict=Broken())

    def test_errors(self):
        def shown(text):
            try:
                ixdtf.parse(text)
            except IxdtfError as error:
                again = pickle.loads(pickle.dumps(error))
                return str(error), repr(error), str(again), copy.copy(error).position, error.text

        for text in ("2024-02-30", b"2024\xff", "2024\u20ac", "\ud800", "2024-", "2024-03-02[a=\ud800]", "2024-" + "\u20ac" * 5000, "2024-" + "1" * 5000):
            self.none(shown, text)

    def test_handlers(self):
        def raises(annotation):
            raise ZeroDivisionError(annotation.key)

        def raises_later(annotation):
            return annotation if annotation.key == "u-ca" else 1 // 0

        def reads(annotation):
            return Annotation(annotation.key, ixdtf.parse("2024-03-02[u-ca=b]").calendar)

        handlers = [lambda it: it, lambda it: None, lambda it: REPLY, lambda it: Annotation("u-ca", "b-" + it.value), lambda it: it._replace(is_critical=True),
                    lambda it: 5, lambda it: Annotation("u-ca", 5), lambda it: Annotation("u-ca", "\u20ac"), lambda it: Annotation(None, "b"), raises,
                    raises_later, reads, 5, lambda: None]
        for handler in handlers:
            for reader in WITH_HANDLER:
                accepted = READERS[reader][1]
                for text in (accepted, (accepted + "[a=b][!x=y]").encode(), accepted + "[u-ca=b]?", "2024-13"):
                    self.none(reader, text, handler=handler)

    def test_records(self):
        texts = (FULL, "2024-03-02", "2024-03-02T08:48:00Z", "2024-03-02[+05:30]", "2024-03-02T08:48:00.123456789-05:00:10.5")
        for text in texts:
            record, other = ixdtf.parse(text), ixdtf.parse(text.encode())
            self.none(lambda record: (record.date, record.time, record.offset, record.zone, record.calendar), record)
            self.none(lambda record, other: (record == other, record != other, record == 5, hash(record), repr(record)), record, other)
            self.none(lambda record, other: record < other, record, other)
            self.none(lambda record: pickle.loads(pickle.dumps(record)), record)
            self.none(copy.copy, record)
            self.none(copy.deepcopy, record)
            self.none(setattr, record, "date", None)
            self.none(setattr, record, "other", None)
            self.none(Record, record.date, record.time, record.offset, record.zone, record.calendar)
            self.none(Record, date=record.date, zone=record.zone, calendar=record.calendar)

    def test_records_that_are_refused(self):
        class Broken:
            def __bool__(self):
                raise ZeroDivisionError

        wrong = (dict(zone=Zone("UTC", None, Broken())), dict(zone=Zone(None, Offset(1, 1, 1), Broken())), dict(date=Date(2024, 13, 1)), dict(date=Date(2024, 1, 300)), dict(date=Date(1 << 70, 1, 1)), dict(date=Date("2024", 1, 1)), dict(time=Time(24, 0, 0)),
                 dict(time=Time(1, 1, 1, 5)), dict(time=Time(1, 1, 1, Fraction(0, 0))), dict(offset=Offset(0, 1, 0)), dict(offset=Offset(1, 1, 60)),
                 dict(offset=Offset(1, 1, 1, 60)), dict(offset=Offset(1, 1, 1, 1, 5)), dict(offset=5), dict(calendar="h\u00e9brew"), dict(calendar=5), dict(zone=5),
                 dict(zone=Zone("\u00e9")), dict(zone=Zone(None)), dict(zone=Zone(None, Offset(1, 1, 60))), dict(zone=Zone("UTC", 5)), dict(date="2024-03-02"), dict(other=5))
        for keywords in wrong:
            self.none(Record, **keywords)
            self.none(Record, **{"zone": Zone("Europe/Paris"), "calendar": "hebrew", **keywords})
        self.none(Record, None, None, None, None, None, None)

    def test_canonical(self):
        for reader, (kind, accepted, _) in READERS.items():
            found = reader(accepted)
            self.none(ixdtf.canonical, found)
            for other in ("date-time", "year-month", "month-day", "time", "zone", 5):
                self.none(ixdtf.canonical, found, other)
        self.none(ixdtf.canonical, ixdtf.parse("2024-03-02[Area/" + "a" * 1000 + "]"))
        self.none(ixdtf.canonical, Zone("A" * 1000))
        for wrong in (None, "2024-03-02", Z, Zone(), Zone(""), Zone("\u00e9"), Zone(5), Zone(None, Offset(1, 0, 60)), Offset(1, 24, 0), Offset(0, 1, 0), Record(),
                      Record(Date(2024, 2, 30)), Duration(), Duration(0, 0, 0, 0, 0), Duration(1, 1), Duration(1, hours=1 << 64), Duration(1, hours="5"),
                      Duration(1, hours=1, fraction=Fraction(1, 10)), Duration(1, hours=1, fraction=5)):
            self.none(ixdtf.canonical, wrong)

    def test_instants(self):
        for text in (FULL, "2024-03-02T08:48:00Z", "2024-03-02", "2024-03-02T08:48:00"):
            self.none(ixdtf.instant, ixdtf.parse(text))
        self.none(ixdtf.instant, ixdtf.parse_time("T12Z"))
        self.none(ixdtf.instant, FULL)

    def test_annotations(self):
        for text in (FULL, FULL.encode(), FULL + "[a=b]", "2024-03-02"):
            self.none(lambda text: ixdtf.parse(text).annotations, text)
            self.none(lambda text: ixdtf.parse(text, handler=lambda it: REPLY).annotations, text)
        self.none(lambda: copy.deepcopy(ixdtf.parse(FULL)))
        for wrong in ([], (1,), (Annotation("a", 1),)):
            self.none(ixdtf._reader._restore, (None,) * 5, wrong)

    def test_many_texts(self):
        class Broken:
            def __iter__(self):
                yield FULL
                raise ZeroDivisionError

        many = [FULL, FULL.encode(), bytearray(FULL.encode()), "2024-03-02T08:48:00Z"] * 20
        lines = "\n".join([FULL] * 80)
        forms = [many, tuple(many), lines, lines.encode(), bytearray(lines.encode()), lines.replace("[", "\u20ac"), [], "", b"", many[:3], Broken(), [None], [FULL, None, 5], [FULL, "2024"],
                 [FULL, "2024-03-02"], [FULL, "\u20ac"], [FULL, memoryview(b"2024").cast("B", (2, 2))], FULL + "\n2024", bytearray(b"2024\n" * 100), b"2263-01-01T00:00Z", 5,
                 array.array("i", [1]), memoryview(b"2024")[::2], bytearray((FULL.replace("New", "N" * 1000) + "\n").encode() * 3)]
        for form in forms:
            self.none(ixdtf.instants, form)
            self.none(ixdtf.instants, form, "rfc9557", errors="coerce", unit="us")
            self.none(ixdtf.is_valid_many, form)
            self.none(ixdtf.is_valid_many, form, kind="duration", strict=True)
        for offsets in (array.array("i", [0, 20, 40]), array.array("q", [0, 50]), array.array("i"), array.array("h", [0]), 5):
            for data in (b"2024-03-02T08:48:00Z" * 2, bytearray(b"2024-03-02T08:48:00Z" * 2), many):
                self.none(ixdtf.instants, data, offsets=offsets)
        self.none(ixdtf.instants, many, "time")
        self.none(ixdtf.instants, many, errors="ignore")
        self.none(ixdtf.instants, many, unit=5)

    def test_from_datetimes(self):
        berlin = zoneinfo.ZoneInfo("Europe/Berlin")

        class Moment(datetime.datetime):
            nanosecond = 1000

        class Zone(datetime.tzinfo):
            key = "no name"

            def utcoffset(self, moment):
                return 5 if moment.year == 1 else datetime.timedelta(hours=1)

        moment = datetime.datetime(2024, 3, 31, 2, 30)
        for value in (moment, moment.replace(tzinfo=datetime.timezone.utc), moment.replace(month=7, tzinfo=berlin), moment.replace(tzinfo=berlin), moment.replace(year=1890, tzinfo=berlin),
                      moment.replace(tzinfo=datetime.timezone(datetime.timedelta(1, -5, 5))), Moment(2024, 3, 2), moment.replace(tzinfo=Zone()), moment.replace(year=1, tzinfo=Zone()), 5):
            self.none(Record.from_datetime, value)
            self.none(Record.from_datetime, value, digits=3)
            self.none(Record.from_datetime, value, digits=10)
            self.none(ixdtf.canonical, value)
            self.none(lambda value: attempt(lambda: str(Record.from_datetime(value))), value)
        for value in (ixdtf.Instant(0, 5), ixdtf.Instant(2**63 - 1, 0), ixdtf.Instant("0", 0)):
            self.none(ixdtf.canonical, value)
        for record in (Record(), ixdtf.parse_time("T12"), ixdtf.parse(FULL)):
            self.none(str, record)

    def test_datetimes(self):
        texts = (FULL, "2024-03-02T08:48:00", "2024-03-02T08:48:00Z", "2024-03-02T08:48:00.25+01:00", "2024-03-02T08:48:00+00:00:00.5", "2024-03-02T08:48:60Z",
                 "2024-03-02T08:48:00.1234567", "2024-03-02", "+010000-01-01T00:00", "2024-11-03T01:30:00-05:00[America/New_York]",
                 "2024-07-01T00:00:00Z[America/New_York]", "2024-07-01T00:00:00-05:00[America/New_York]", "2024-07-01T00:00:00-05:00[-04:00]",
                 "2024-07-01T00:00:00[Europe/Paris]", "9999-12-31T23:59:59Z[Asia/Tokyo]", "2024-07-01T00:00[../Paris]")
        for text in texts:
            record = ixdtf.parse(text)
            self.none(record.to_datetime)
            self.none(record.to_datetime, "zone", True)
            self.none(record.to_datetime, on_conflict="offset", truncate=True)
            self.none(record.to_datetime, "both")
            self.none(record.to_datetime, other=5)
        self.none(ixdtf.parse("2024-07-01T00:00[No/Where]").to_datetime)
        one, two = ixdtf.parse("2024-03-02T08:48:00+01:00"), ixdtf.parse("2024-03-02T08:48:00+02:00")
        self.none(lambda: (one.to_datetime(), two.to_datetime()))

    def test_timedeltas(self):
        for text in ("P1W", "-P1DT1.5H", "P1Y", "PT0.0000001S", "P18446744073709551615D"):
            self.none(ixdtf.parse_duration(text).to_timedelta)
        self.none(ixdtf.parse_offset("-05:30:10.5").to_timedelta)

    def test_without_memory(self):
        """If there is no memory, a call raises MemoryError, or the exception that it raises otherwise. It does not leak either. repr() is left out, because
        CPython 3.12 and 3.13 crash if there is no memory for a text such as f"{', '.join(f'{it!r}' for it in parts)}"."""
        if _testcapi is None or "IXDTF_WITHOUT_MEMORY" not in os.environ:
            self.skipTest("the environment variable IXDTF_WITHOUT_MEMORY is not set, or this Python has no module _testcapi")
        record, other = ixdtf.parse(FULL), ixdtf.parse("2024-03-02T08:48:00.5+01:00[+01:00]")
        duration, seconds = ixdtf.parse_duration("P1DT1.5H"), ixdtf.parse_offset("-05:30:10.5")
        calls = [lambda: (record.date, record.time, record.offset, record.zone, record.calendar), lambda: hash(record), record.__reduce__,
                 lambda: Record(record.date, record.time, record.offset, record.zone, record.calendar), lambda: Record(other.date, other.time, seconds, other.zone),
                 record.to_datetime, ixdtf.parse("2024-03-02T08:48:00+02:00").to_datetime, ixdtf.parse("2024-03-02T08:48:00Z").to_datetime,
                 lambda: ixdtf.instants([FULL, FULL.encode(), bytearray(FULL.encode())]), lambda: ixdtf.instants(bytearray((FULL + "a" * 1000).encode()), errors="coerce"),
                 lambda: ixdtf.is_valid_many(FULL.encode(), offsets=array.array("i", [0, 5])), lambda: ixdtf.instants([FULL, "2024"]), lambda: ixdtf.is_valid_many(iter([FULL])),
                 lambda: Record.from_datetime(datetime.datetime(2024, 3, 2, tzinfo=zoneinfo.ZoneInfo("Europe/Berlin"))), lambda: str(record), lambda: str(ixdtf.parse_time("T12")),
                 lambda: ixdtf.parse(FULL).annotations, ixdtf.parse(FULL).__reduce__, lambda: ixdtf._reader._restore(*ixdtf.parse(FULL).__reduce__()[1]), lambda: ixdtf.parse(FULL, handler=lambda it: it).annotations,
                 lambda: ixdtf.canonical(ixdtf.Instant(0, 5)), lambda: ixdtf.instants([FULL, None, array], errors="coerce"), lambda: other.to_datetime("zone", truncate=True), lambda: ixdtf.instant(record), lambda: ixdtf.instant(ixdtf.parse("2024-03-02"))]
        calls += [lambda it=it: ixdtf.canonical(it) for it in (record, other, duration, seconds, record.zone, other.zone, Zone("A" * 1000),
                                                               ixdtf.parse("2024-03-02[Area/" + "a" * 1000 + "]"), Duration(), Zone(5), Offset(1, 1, 60))]
        for reader, (kind, accepted, refused) in READERS.items():
            for text in (accepted, refused, bytearray(accepted.encode()), accepted + "\u20ac"):
                calls += [lambda reader=reader, text=text: reader(text), lambda kind=kind, text=text: ixdtf.is_valid(text, kind)]
            if reader in WITH_HANDLER:
                for handler in (lambda it: it, lambda it: None, lambda it: REPLY, lambda it: 5):
                    calls.append(lambda reader=reader, text=accepted + "[!a=b]", handler=handler: reader(text, handler=handler))
        for call in calls:
            try:
                call()
                expected = set()
            except Exception as error:
                expected = {type(error)}
            self.assertLessEqual(starved(call), expected)
            self.none(starved, call, count=24)

    def test_threads(self):
        long = "2024-03-02[" + "a" * 10_000 + "]"

        def work():
            for text in (FULL, long, "2024-02-30", long + "?"):
                attempt(ixdtf.parse, text)

        def in_threads():
            threads = [threading.Thread(target=work) for _ in range(4)]
            for thread in threads:
                thread.start()
            for thread in threads:
                thread.join()

        self.none(in_threads)

    def test_imports(self):
        """A module that was imported again, or whose import failed, is freed together with its state."""
        if WITHOUT_MEASURING:
            self.skipTest("nothing is measured")
        least = 5 * 16  # the bytes that are left if each import leaks one object
        kept = {name: module for name, module in sys.modules.items() if name.partition(".")[0] == "ixdtf"}

        def imported(missing=None):
            for name in kept:
                sys.modules.pop(name, None)
            try:
                if missing is None:
                    importlib.import_module("ixdtf").parse("2024-03-02T08:48:00+01:00").to_datetime()
                else:
                    package = sys.modules["ixdtf"] = types.ModuleType("ixdtf")
                    package.__path__ = ixdtf.__path__
                    sys.modules[missing] = types.ModuleType(missing)
                    with self.assertRaises(AttributeError):
                        importlib.import_module("ixdtf._reader")
            finally:
                for name in kept:
                    sys.modules.pop(name, None)
                for clear in getattr(typing, "_cleanups", ()):
                    clear()  # The types of the annotations are kept otherwise.
                settle()

        try:
            for missing in (None, "ixdtf._errors", "ixdtf._datetimes"):
                # One import makes and drops thousands of objects, and some are left by chance. So the measuring is repeated until nothing is left.
                found = [least]
                imported(missing)
                while min(found) >= least and len(found) < 10:
                    memory = tracemalloc.get_traced_memory()[0]
                    for _ in range(5):
                        imported(missing)
                    found.append(tracemalloc.get_traced_memory()[0] - memory)
                self.assertLess(min(found), least, missing)
        finally:
            sys.modules.update(kept)


class LongTexts(unittest.TestCase):
    """The most memory that a call with a text of 10 MB needs, apart from this text."""

    SIZE = 10_000_000

    def peak(self, call, *arguments, **keywords):
        tracemalloc.start()
        try:
            attempt(call, *arguments, **keywords)
            before = tracemalloc.get_traced_memory()[0]
            tracemalloc.reset_peak()
            attempt(call, *arguments, **keywords)
            left, most = tracemalloc.get_traced_memory()
            self.assertLess(left - before, 10_000)
            return most - before
        finally:
            tracemalloc.stop()

    def test_peaks(self):
        if WITHOUT_MEASURING:
            self.skipTest("nothing is measured")
        accepted = "2024-03-02[A" + "a" * self.SIZE + "]"
        for text in (accepted, accepted + "?", accepted.encode(), accepted.encode() + b"?"):
            self.assertLess(self.peak(ixdtf.parse, text), 10_000)
            self.assertLess(self.peak(ixdtf.is_valid, text), 10_000)
        # Python encodes a str in UTF-8 in a buffer of 2, 3 or 4 bytes for each character, by the width of the str, and then shortens the buffer.
        for text, times in ((bytearray(accepted.encode()), 1), (accepted + "\xe9", 2), (accepted + "\u20ac", 3), (accepted + "\U0001f600", 4)):
            self.assertLess(self.peak(ixdtf.parse, text), 1.1 * times * self.SIZE)
            self.assertLess(self.peak(ixdtf.is_valid, text), 1.1 * times * self.SIZE)
        self.assertLess(self.peak(ixdtf.parse_duration, "P" + "0" * self.SIZE + "1D"), 10_000)
        self.assertLess(self.peak(ixdtf.canonical, ixdtf.parse(accepted)), 1.1 * self.SIZE)


if __name__ == "__main__":
    unittest.main()
