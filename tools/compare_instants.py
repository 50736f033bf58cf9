#!/usr/bin/env python3
"""compare_instants.py [COUNT [SEED]]: compares the instants of random texts with those of Python's `datetime`.

The tool makes COUNT texts, each with a date, a time, and an offset or `Z`. If you do not give COUNT, it is 100000. If you do not give SEED, it
is 1. The tool builds the example `instants` of `rust/ixdtf` with cargo. The example writes the instant of each text, and the text of this
instant. The tool computes both with `datetime`, and compares.

`datetime` has only the years 1 to 9999. For any other year, the tool computes with a year that is a multiple of 400 years earlier or later.
A cycle of 400 years always has 146097 days.

At the end, the tool prints the number of texts. At the first difference, it prints the text, the expected line and the line that the example
wrote, and ends with the exit status 1."""
import datetime
import os
import random
import subprocess
import sys
import threading

TOP = os.path.join(os.path.dirname(os.path.abspath(__file__)), '..')
EPOCH = datetime.date(1970, 1, 1)
SECOND = 10 ** 9
DAYS_OF_A_CYCLE = 146097


def fraction(rng: random.Random) -> tuple[str, int]:
    """A fraction or an empty text, and its nanoseconds. Only the first nine digits count."""
    if rng.random() < 0.5:
        return '', 0
    digits = ''.join(rng.choice('0123456789') for _ in range(rng.randint(1, 20)))
    return rng.choice('.,') + digits, int(digits[:9].ljust(9, '0'))


def offset(rng: random.Random) -> tuple[str, int]:
    """An offset or `Z`, and the nanoseconds by which local time is ahead of UTC."""
    if rng.random() < 0.25:
        return rng.choice('Zz'), 0
    sign, hour, minute, second = rng.choice('+-'), rng.randint(0, 23), rng.randint(0, 59), rng.randint(0, 59)
    text, count = f'{sign}{hour:02}:{minute:02}', (hour * 60 + minute) * 60 * SECOND
    if rng.random() < 0.5:
        digits, nanoseconds = fraction(rng)
        text, count = f'{text}:{second:02}{digits}', count + second * SECOND + nanoseconds
    return text, count if sign == '+' else -count


def year_text(year: int) -> str:
    """A year as `Display` of an instant writes it."""
    if 0 <= year <= 9999:
        return f'{year:04}'
    return f'{"-" if year < 0 else "+"}{abs(year):0{6 if abs(year) <= 999999 else 12}}'


def text_of(count: int) -> str:
    """The date and the time in UTC, `count` nanoseconds after 1970-01-01T00:00:00Z."""
    seconds, nanoseconds = divmod(count, SECOND)
    days, second = divmod(seconds, 86400)
    cycles, rest = divmod(days, DAYS_OF_A_CYCLE)
    date = EPOCH + datetime.timedelta(days=rest)
    time = datetime.time(second // 3600, second // 60 % 60, second % 60)
    digits = f'.{nanoseconds:09}'.rstrip('0').rstrip('.')
    return f'{year_text(date.year + 400 * cycles)}-{date.month:02}-{date.day:02}T{time}{digits}Z'


def example(rng: random.Random) -> tuple[str, str]:
    """A text, and the line that the example must write for it."""
    year = rng.randint(1, 9999) if rng.random() < 0.5 else rng.randint(-999999, 999999)
    cycles = 0 if 1 <= year <= 9999 else (year - 1) // 400
    date = None
    while date is None:
        try:
            date = datetime.date(year - 400 * cycles, rng.randint(1, 12), rng.randint(1, 31))
        except ValueError:
            # The month does not have this day. So choose another month and another day.
            pass
    days = (date - EPOCH).days + cycles * DAYS_OF_A_CYCLE
    hour, minute, second = rng.randint(0, 23), rng.randint(0, 59), rng.randint(0, 60)
    digits, nanoseconds = fraction(rng)
    written, ahead = offset(rng)
    years = year_text(year)
    count = (((days * 24 + hour) * 60 + minute) * 60 + min(second, 59)) * SECOND + nanoseconds - ahead
    seconds, rest = divmod(count, SECOND)
    text = f'{years}-{date.month:02}-{date.day:02}T{hour:02}:{minute:02}:{second:02}{digits}{written}'
    return text, f'{seconds} {rest} {text_of(count)}'


def main() -> int:
    """Builds the example, and compares its lines. Returns the exit status."""
    count = int(sys.argv[1]) if len(sys.argv) > 1 else 100000
    seed = int(sys.argv[2]) if len(sys.argv) > 2 else 1
    crate = os.path.join(TOP, 'rust', 'ixdtf')
    subprocess.run(['cargo', 'build', '--quiet', '--release', '--example', 'instants'], cwd=crate, check=True)
    target = os.environ.get('CARGO_TARGET_DIR', os.path.join(crate, 'target'))
    program = subprocess.Popen([os.path.join(target, 'release', 'examples', 'instants')], stdin=subprocess.PIPE, stdout=subprocess.PIPE, text=True)

    def send() -> None:
        rng = random.Random(seed)
        for _ in range(count):
            program.stdin.write(example(rng)[0] + '\n')
        program.stdin.close()

    sender = threading.Thread(target=send)
    sender.start()
    rng = random.Random(seed)
    for _ in range(count):
        text, wanted = example(rng)
        found = program.stdout.readline().rstrip('\n')
        if found != wanted:
            print(f'{text}: expected {wanted}, found {found}')
            program.kill()
            return 1
    sender.join()
    print(f'{count} instants, no difference')
    return program.wait()


if __name__ == '__main__':
    sys.exit(main())
