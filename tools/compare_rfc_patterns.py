#!/usr/bin/env python3
"""compare_rfc_patterns.py [COUNT [SEED]]: compares the readers of exact standards with two models: rfc_patterns.py, the patterns of the
ABNF, and places.py.

For each reader, the tool makes COUNT texts of 8-bit code units, and COUNT texts of 16-bit code units. If you do not give COUNT, it is 100000.
If you do not give SEED, it is 1. Each text consists of parts that are valid or almost valid. Half of the texts then get one to three
changes. The tool builds the example `units` of `rust/ixdtf` with cargo, and this example reads the texts.

A reader must accept the texts that match the patterns, and no others. It must refuse each other text with the error and at the position that
places.py gives.

For each reader and width, the tool prints the number of texts and the number of accepted texts. At the first difference, it prints the text,
the expected result and the result of the reader, and ends with the exit status 1."""
import os
import random
import subprocess
import sys
import threading
from typing import Callable, Iterator, NamedTuple

TOOLS = os.path.dirname(os.path.abspath(__file__))
sys.path.insert(0, TOOLS)
import places
import rfc_patterns

class Reader(NamedTuple):
    """A reader: the function that says whether a text matches its patterns, its name in places.py, and the share of its texts with brackets."""
    fits: Callable[[str], bool]
    name: str
    bracketed: float


# the readers, by the names that the example knows
READERS = {
    'rfc3339': Reader(rfc_patterns.is_date_time, 'parse_rfc3339', 0.15),
    'rfc9557': Reader(rfc_patterns.is_date_time_to_process, 'parse_rfc9557', 0.9),
}


# ---------------------------------------------------------------------------------------------------------------------------------
# Making texts

def choose(rng: random.Random, right: str, *wrong: str) -> str:
    """The right part in most cases. Otherwise one of the wrong parts."""
    return right if rng.random() < 0.96 else rng.choice(wrong)


def two_digits(rng: random.Random, least: int, most: int) -> str:
    """A number with two digits in this range. Sometimes a number at one of its ends or just outside of it, or any number with one to three digits."""
    kind = rng.random()
    if kind < 0.93:
        return f'{rng.randint(least, most):02}'
    if kind < 0.98:
        return f'{max(rng.choice((least - 1, least, most, most, most + 1)), 0):02}'
    return rng.choice((f'{rng.randint(0, 9)}', f'{rng.randint(0, 99):02}', f'{rng.randint(0, 999):03}'))


def year(rng: random.Random) -> str:
    """A year. It is often one for which the rule of leap years matters."""
    number = rng.choice((0, 4, 100, 400, 1900, 1996, 2000, 2023, 2024, 2100, 9999, rng.randint(0, 9999)))
    return choose(rng, f'{number:04}', f'+{number:06}', f'-{number:06}', f'{number:05}', f'{number % 1000:03}')


def date(rng: random.Random) -> str:
    """A date in the extended format, or almost in it."""
    hyphen = choose(rng, '-', '', '--', '/')
    second_hyphen = hyphen if rng.random() < 0.97 else '-'
    month = rng.choice((2, 4, 12, rng.randint(1, 12)))
    day = two_digits(rng, 1, rng.choice((28, 28, 28, 28, 29, 30, 31)))
    return year(rng) + hyphen + (f'{month:02}' if rng.random() < 0.8 else two_digits(rng, 1, 12)) + second_hyphen + day


def fraction(rng: random.Random) -> str:
    """A fraction or nothing, and sometimes almost a fraction."""
    digits = ''.join(rng.choice('0123456789') for _ in range(rng.choice((1, 3, 6, 9, 18, 19, rng.randint(1, 300)))))
    return '' if rng.random() < 0.6 else choose(rng, '.' + digits, ',' + digits, '.', digits)


def time(rng: random.Random) -> str:
    """A time with colons, or almost such a time."""
    colon = choose(rng, ':', '', '.')
    minute, second = colon + two_digits(rng, 0, 59), colon + two_digits(rng, 0, 60)
    return two_digits(rng, 0, 23) + choose(rng, minute + second + fraction(rng), minute, '')


def offset(rng: random.Random) -> str:
    """An offset or `Z`. It is sometimes nothing, or almost an offset."""
    sign, hour, minute = choose(rng, rng.choice('+-'), '', '\u2212'), two_digits(rng, 0, 23), two_digits(rng, 0, 59)
    number = sign + hour + choose(rng, ':' + minute, minute, '', f':{minute}:00', f':{minute}:00.5')
    return choose(rng, rng.choice(('Z', 'Z', 'z', number, number, number)), '', ' ' + number, 'Z' + number, 'UTC')


ZONES = ('UTC', 'Europe/Paris', 'Etc/GMT+5', '_', '...', '.a/b-', 'a/..b', '+08:45', '-00:00', '+23:59')
NO_ZONES = ('.', '..', 'a/..', 'a/.', '../a', 'a/./b', 'a/5', 'a/-', 'a//b', '/a', 'a/', '+0845', '-08', '+24:00', '+08:60', '+08:45:00', '5', '')
TAGS = ('u-ca=hebrew', 'u-ca=iso8601', 'u-ca=hebrew', 'x=y', 'x=y-z', '_a-=b', 'u-cb=hebrew', 'u-ca=Hebrew', 'u-ca=islamic-civil')
NO_TAGS = ('x=', '=y', 'X=y', 'x=-y', 'x=y-', 'x=y--z', 'x=y=z', 'x=y_z', 'x', '5=y', '-x=y')


def bracket(rng: random.Random, part: str, critical: float) -> str:
    """A bracket with this part in it. The bracket is valid or almost valid. `critical` is the share of critical brackets."""
    flag = choose(rng, '!' if rng.random() < critical else '', '!!', '! ')
    return choose(rng, '[', '', ' [') + flag + part + choose(rng, ']', '', '] ')


def suffix(rng: random.Random) -> str:
    """The brackets of a text: a zone and annotations, valid or almost valid."""
    zone = bracket(rng, rng.choice(NO_ZONES if rng.random() < 0.15 else ZONES), 0.3) if rng.random() < 0.6 else ''
    critical, kinds = rng.choice((0, 0.2, 0.6)), TAGS[:rng.choice((2, 3, 9))]
    tags = [bracket(rng, rng.choice(NO_TAGS if rng.random() < 0.05 else kinds), critical) for _ in range(rng.choice((0, 1, 1, 2, 3)))]
    return ''.join(tags) + zone if rng.random() < 0.03 else zone + ''.join(tags)


def made(rng: random.Random, bracketed: float) -> str:
    """A text that consists of such parts. `bracketed` is the share of texts with brackets."""
    core = date(rng) + choose(rng, rng.choice('TTTt'), ' ', '', '_', '\u3000') + time(rng) + offset(rng)
    return core + (suffix(rng) if rng.random() < bracketed else '')


LETTERS = '0123456789' * 2 + '-:.+TZtz ,[]!=/_aPW\0\n\x7f'


def letter(rng: random.Random, wide: bool) -> str:
    """A code unit. Most are in LETTERS. The lower 8 bits of some 16-bit code units are in LETTERS too."""
    if rng.random() < 0.85:
        return rng.choice(LETTERS)
    if not wide:
        return chr(rng.randrange(256))
    return chr(rng.choice((ord(rng.choice(LETTERS)) + 256 * rng.randrange(1, 256), rng.randrange(0xff10, 0xff1a), rng.randrange(0xd800, 0xe000),
                           0x2212, rng.randrange(65536))))


def changed(rng: random.Random, text: str, wide: bool) -> str:
    """The text with a change at one position: a code unit is inserted, replaced or removed, two are exchanged, or one side is removed."""
    at = rng.randrange(len(text) + 1)
    before, behind = text[:at], text[at:]
    return rng.choice((lambda: before + letter(rng, wide) + behind, lambda: before + letter(rng, wide) + behind[1:], lambda: before + behind[1:],
                       lambda: before + behind[1:2] + behind[:1] + behind[2:], lambda: before, lambda: behind))()


def texts(reader: str, count: int, seed: int, wide: bool) -> Iterator[str]:
    """The texts for a reader, with 8-bit or with 16-bit code units. Each character of a text is one code unit."""
    rng = random.Random(f'{reader} {seed} {wide}')
    for _ in range(count):
        text = made(rng, READERS[reader].bracketed)
        for _ in range(rng.choice((0, 0, 0, 0, 1, 1, 2, 3))):
            text = changed(rng, text, wide)
        yield text if wide else ''.join(chr(ord(it) % 256) for it in text)


# ---------------------------------------------------------------------------------------------------------------------------------
# Comparing

class Difference(Exception):
    """A text for which a reader and a model, or the two models, have different results."""


class Counts(NamedTuple):
    """How many texts were compared, and how many were accepted."""
    texts: int
    accepted: int


def wanted(reader: str, text: str, wide: bool) -> str:
    """The line that the example must write for a text. Raises Difference if the two models have different results."""
    fits = READERS[reader].fits(text)
    found = places.outcome(READERS[reader].name, [ord(it) for it in text], wide)
    if fits != (found == places.OK):
        raise Difference(f'{reader} of {ascii(text)}: the patterns {"accept" if fits else "refuse"} it, and places.py has {found}')
    return places.OK if found == places.OK else f'error {found}'


def compared(program: str, reader: str, wide: bool, count: int, seed: int) -> Counts:
    """Compares a reader for one width with the models. Raises Difference at the first difference."""
    ran = subprocess.Popen([program], stdin=subprocess.PIPE, stdout=subprocess.PIPE, text=True)

    def send() -> None:
        for text in texts(reader, count, seed, wide):
            ran.stdin.write(f'{reader} {16 if wide else 8} {" ".join(f"{ord(it):x}" for it in text)}\n')
        ran.stdin.close()

    threading.Thread(target=send, daemon=True).start()
    accepted = 0
    for text in texts(reader, count, seed, wide):
        found, right = ran.stdout.readline().rstrip('\n'), wanted(reader, text, wide)
        if found != right:
            ran.kill()
            raise Difference(f'{reader} of {ascii(text)}: expected {right}, found {found}')
        accepted += found == places.OK
    ran.wait()
    return Counts(count, accepted)


def built() -> str:
    """Builds the example with cargo. Returns the path of the program."""
    crate = os.path.join(TOOLS, '..', 'rust', 'ixdtf')
    subprocess.run(['cargo', 'build', '--quiet', '--offline', '--release', '--example', 'units'], cwd=crate, check=True)
    return os.path.join(os.environ.get('CARGO_TARGET_DIR', os.path.join(crate, 'target')), 'release', 'examples', 'units')


def main() -> int:
    """Builds the example, and compares each reader. Returns the exit status."""
    count = int(sys.argv[1]) if len(sys.argv) > 1 else 100000
    seed = int(sys.argv[2]) if len(sys.argv) > 2 else 1
    program = built()
    try:
        for reader in READERS:
            for wide in (False, True):
                counts = compared(program, reader, wide, count, seed)
                print(f'{reader}, {16 if wide else 8}-bit: {counts.texts} texts, {counts.accepted} accepted, no difference')
    except Difference as difference:
        print(difference)
        return 1
    return 0


if __name__ == '__main__':
    sys.exit(main())
