#!/usr/bin/env python3
"""columns.py [RUNS]: measures the package for Python, and prints the table of docs/NUMBERS.md.

The package must be installed, or its folder must be in PYTHONPATH. Each row has the nanoseconds for one text, and those of another way to do the same. They are
nanoseconds of a processor, so that other programs on the machine matter less. The calls are measured in turns, RUNS times (15 without the argument), and the
least time counts. If pandas is not installed, its row has no time. The exit status is not 0 if the ways do not give the same results."""
import datetime
import random
import sys
import time
import zoneinfo
from typing import Any, Callable, NamedTuple, Optional

import ixdtf

try:
    import pandas
except ImportError:
    pandas = None

COUNT = 1_000_000
SEED = 20261201
TEXT = '2024-03-02T08:48:00.250000-05:00'
ZONED = TEXT + '[America/New_York]'
MOMENT = ixdtf.parse(ZONED).to_datetime()


class Row(NamedTuple):
    """What a row measures: the package, and another way, each as a function that is called for `texts` texts."""
    name: str
    call: Callable[[], Any]
    other_name: str
    other: Optional[Callable[[], Any]]
    texts: int


def repeated(call, count=20_000):
    """Returns a function that makes a call `count` times."""
    def run():
        for _ in range(count):
            call()
    return run


def three_parts():
    record = ixdtf.parse(TEXT)
    return record.date, record.time, record.offset


def by_hand():
    """A text with a zone to a datetime, with the standard library. It does not test that the zone has the offset."""
    written, _, name = ZONED.rstrip(']').partition('[')
    return datetime.datetime.fromisoformat(written).astimezone(zoneinfo.ZoneInfo(name))


def text_by_hand():
    return f'{MOMENT.isoformat()}[{MOMENT.tzinfo.key}]'


def rows_of_one_text():
    """The rows about one text, each of which is read again and again."""
    read, known = datetime.datetime.fromisoformat, ('`datetime.fromisoformat(t)`', repeated(lambda: datetime.datetime.fromisoformat(TEXT)))
    if by_hand() != ixdtf.parse(ZONED).to_datetime() or text_by_hand().replace('250000', '25') != ixdtf.canonical(MOMENT) or read(TEXT) != ixdtf.parse(TEXT).to_datetime():
        raise SystemExit('columns.py: the package and the standard library do not give the same datetime')
    calls = [('`parse(t)`', lambda: ixdtf.parse(TEXT), *known),
             ('`r = parse(t)`, and `r.date`, `r.time`, `r.offset`', three_parts, *known),
             ('`instant(parse(t))`', lambda: ixdtf.instant(ixdtf.parse(TEXT)), *known),
             ('`parse(t).to_datetime()`', lambda: ixdtf.parse(TEXT).to_datetime(), *known),
             ('the same, with a zone', lambda: ixdtf.parse(ZONED).to_datetime(), '`fromisoformat` and `ZoneInfo`', repeated(by_hand)),
             ('`canonical(d)` of a `datetime` with a zone', lambda: ixdtf.canonical(MOMENT), '`d.isoformat()` and the key', repeated(text_by_hand))]
    return [Row(name, repeated(call), other_name, other, 20_000) for name, call, other_name, other in calls]


def made_texts():
    """Makes the texts of a column: different times, with one of three offsets."""
    generator = random.Random(SEED)
    first = datetime.datetime(1970, 1, 1)
    return [(first + datetime.timedelta(microseconds=generator.randrange(2 * 10**15))).isoformat(timespec='microseconds') + generator.choice(('-05:00', '+01:00', '+05:30'))
            for _ in range(COUNT)]


def rows_of_columns():
    """The rows about a column of texts."""
    texts, utc = made_texts(), [text[:-6] + 'Z' for text in made_texts()]
    lines = '\n'.join(texts).encode()
    if ixdtf.instants(lines).values != ixdtf.instants(texts).values:
        raise SystemExit('columns.py: a list and lines of the same texts do not give the same instants')
    listed = ('`[datetime.fromisoformat(t) for t in texts]`', lambda: [datetime.datetime.fromisoformat(text) for text in texts])
    frame = ('`pandas.to_datetime(texts)`', pandas and (lambda: pandas.to_datetime(utc)))
    if pandas and list(ixdtf.instants(utc).values) != pandas.to_datetime(utc).view('int64').tolist():
        raise SystemExit('columns.py: the package and pandas do not give the same instants')
    return [Row('`is_valid_many(texts)`, a list of `str`', lambda: ixdtf.is_valid_many(texts), *listed, COUNT),
            Row('`is_valid_many(lines)`, `bytes`', lambda: ixdtf.is_valid_many(lines), *listed, COUNT),
            Row('`instants(texts)`, a list of `str`', lambda: ixdtf.instants(texts), *listed, COUNT),
            Row('the same, all with `Z`', lambda: ixdtf.instants(utc), *frame, COUNT),
            Row('`instants(lines)`, `bytes`', lambda: ixdtf.instants(lines), *listed, COUNT)]


def measured(call, texts):
    """Returns the nanoseconds of one call for each text, or infinity if there is nothing to call."""
    if call is None:
        return float('inf')
    start = time.process_time_ns()
    call()
    return (time.process_time_ns() - start) / texts


def main():
    runs = int(sys.argv[1]) if len(sys.argv) > 1 else 15
    rows = rows_of_one_text() + rows_of_columns()
    least = [[float('inf')] * 2 for _ in rows]
    for _ in range(runs):
        for row, times in zip(rows, least):
            times[0] = min(times[0], measured(row.call, row.texts))
            times[1] = min(times[1], measured(row.other, row.texts))
    print('| Call | ns | Another way | ns |\n|---|---|---|---|')
    for row, (own, other) in zip(rows, least):
        print(f'| {row.name} | {own:.0f} | {row.other_name} | {"" if other == float("inf") else format(other, ".0f")} |')
    print(f'\nPython {sys.version.split()[0]}, pandas {pandas.__version__ if pandas else "not installed"}, package {ixdtf.__version__}, least of {runs} runs')


if __name__ == '__main__':
    main()
