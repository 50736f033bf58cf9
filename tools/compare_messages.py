#!/usr/bin/env python3
"""compare_messages.py [--jobs N] [COUNT [SEED]]: compares the reasons, the parts that are wrong, the messages and the hints of refused
texts with the model places.py.

The tool makes COUNT texts of 8-bit code units, and COUNT texts of 16-bit code units. If you do not give COUNT, it is 100000. If you do
not give SEED, it is 1. The texts are for all readers, and for both profiles if the profile changes what the reader accepts. Each text is
the text of a row of tests/refused.tsv, or a date for which the rule of leap years matters. Most of the texts then get one to three changes. The
tool builds the example `messages` of `rust/ixdtf` with cargo, and this example reads the texts without an annotation handler. With --jobs,
the tool uses N processes. The texts and the output do not depend on N.

A reader must accept the texts that the model accepts, and no others. For each other text, these must be as in the model: the error, its
position, the reason, where the part that is wrong begins and ends, the message, and the hint. A text has at most one hint.

A 16-bit text can have a lone surrogate, which is a half of a character. The library shows characters, and cannot show it. So the message
and the hint are compared with those of the model for a text with U+FFFD instead of each lone surrogate. The example does the same to the
text before it asks for the part, for the message and for the hint. All else is compared with the model of the text itself.

For each width, the tool prints the number of texts, the number of refused texts, and the numbers of different reasons and of different
hints that the refused texts had. At the first difference, it prints the text, the expected result and the result of the reader, and ends with the exit status
1."""
import argparse
import multiprocessing
import os
import random
import re
import subprocess
import sys
from functools import cache
from typing import NamedTuple

TOOLS = os.path.dirname(os.path.abspath(__file__))
sys.path.insert(0, TOOLS)
import places

Units = list[int]
CHUNK = 1000  # how many texts the example reads at once


class Case(NamedTuple):
    """A reader with a profile, as places.py names them."""
    reader: str
    strict: bool

    def __str__(self) -> str:
        """The reader and the profile, as the example names them."""
        return f'{self.reader} {"strict" if self.strict else "crate"}'


# the readers for which the profile changes what is accepted
WITH_PROFILES = ('parse_month_day', 'parse_time', 'duration')
CASES = [Case(reader, False) for reader in places.READERS[False]] + [Case(reader, True) for reader in WITH_PROFILES]


# ---------------------------------------------------------------------------------------------------------------------------------
# Making texts

# characters that fit somewhere, or almost fit
LETTERS = '0123456789' * 3 + '-:.,+TtZz' * 2 + 'PpYyMmWwDdHhSs' + '[]!=/_ ' * 2 + 'u-ca' + 'aGx'
# characters that fit nowhere; many of them look like one that fits
OTHERS = '\0\t\n\r`~?\x7f\x80\xa0\u2010\u2013\u2212\u202f\ufeff\ufffd\uff10\xe9\u0130\U0001f600'
LONE_SURROGATES = (0xd800, 0xd83d, 0xdbff, 0xdc00, 0xde00, 0xdfff)


def units_of(character: str, wide: bool) -> Units:
    """The code units of a character."""
    return places.utf16_units(character.encode()) if wide else list(character.encode())


def lone_unit(rng: random.Random, wide: bool) -> int:
    """A code unit that is often no character: a byte from 0x80 on, or a surrogate. Some 16-bit code units are from 0x80 to 0xFF, or have
    the lower 8 bits of a letter."""
    if not wide:
        return rng.randrange(0x80, 0x100)
    return rng.choice((rng.choice(LONE_SURROGATES), rng.randrange(0xd800, 0xe000), rng.randrange(0x80, 0x100),
                       ord(rng.choice(LETTERS)) + 256 * rng.randrange(1, 256)))


def piece(rng: random.Random, wide: bool) -> Units:
    """A character, or a code unit that is no character."""
    kind = rng.random()
    if kind < 0.75:
        return units_of(rng.choice(LETTERS), wide)
    return units_of(rng.choice(OTHERS), wide) if kind < 0.92 else [lone_unit(rng, wide)]


# dates that do not exist, with years for which the rule of leap years matters; few changes make such dates
NO_LEAP_DAYS = ('1900-02-29', '2000-02-30', '21000229', '24000230', '+001900-02-29', '-000400-02-30')
WITH_DATES = ('parse', 'parse_rfc3339', 'parse_rfc9557')


@cache
def rows(wide: bool) -> dict[str, list[Units]]:
    """The texts of tests/refused.tsv and the dates for each reader. The texts for 8-bit text are also texts of 16-bit code units."""
    found = {name: [it.units for it in places.examples() if it.reader == name and (wide or not it.wide)] for name in places.READERS[False]}
    for name in WITH_DATES:
        found[name] += [list(it.encode()) for it in NO_LEAP_DAYS]
    return found


@cache
def rows_of_cases(wide: bool) -> list[tuple[Case, Units]]:
    """Each case with each text for its reader. So a reader with more rows gets more of the texts."""
    return [(case, units) for case in CASES for units in rows(wide)[case.reader]]


def other_row(rng: random.Random, reader: str, wide: bool) -> Units:
    """The text of a row of the reader, or of any other reader."""
    return rng.choice(rows(wide)[reader if rng.random() < 0.5 else rng.choice(list(rows(wide)))])


def changed(rng: random.Random, text: Units, reader: str, wide: bool) -> Units:
    """The text with a change at one position. Something is replaced, inserted or removed there; or two code units are exchanged; or the
    text ends there; or it goes on there with an end of the text of another row."""
    at = rng.randrange(len(text) + 1)
    before, behind = text[:at], text[at:]

    def spliced() -> Units:
        other = other_row(rng, reader, wide)
        return before + other[rng.randrange(len(other) + 1):]

    return rng.choice((lambda: before + piece(rng, wide) + behind[1:], lambda: before + piece(rng, wide) + behind,
                       lambda: before + behind[1:], lambda: before + behind[1:2] + behind[:1] + behind[2:], lambda: before, spliced))()


def made(rng: random.Random, wide: bool) -> tuple[Case, Units]:
    """A case, and the text of a row of its reader, with no change or with one to three changes."""
    case, text = rng.choice(rows_of_cases(wide))
    for _ in range(0 if rng.random() < 0.02 else rng.choice((1, 1, 1, 2, 2, 3))):
        text = changed(rng, text, case.reader, wide)
    return case, text


class Chunk(NamedTuple):
    """Some texts of a width: the seed, the index of the first text, and the index after the last text."""
    wide: bool
    seed: int
    first: int
    end: int


def texts(chunk: Chunk) -> list[tuple[Case, Units]]:
    """The texts of a chunk, each with the reader and the profile that read it."""
    rng = random.Random(f'{chunk.wide} {chunk.seed} {chunk.first}')
    return [made(rng, chunk.wide) for _ in range(chunk.first, chunk.end)]


# ---------------------------------------------------------------------------------------------------------------------------------
# What the model says

def camel(name: str) -> str:
    """A name in `snake_case` as it is in `CamelCase`."""
    return ''.join(word[:1].upper() + word[1:] for word in name.split('_'))


def reason_name(line: str) -> str:
    """The variant of `Reason` for a line of the fault table, or for an annotation that is refused."""
    return camel(places.reason_name(line))


LONE_SURROGATE = re.compile('[\ud800-\udbff](?![\udc00-\udfff])|(?<![\ud800-\udbff])[\udc00-\udfff]')


def with_characters(units: Units, wide: bool) -> Units:
    """The text, with U+FFFD instead of each lone surrogate if the code units have 16 bits."""
    return [ord(it) for it in LONE_SURROGATE.sub('\ufffd', ''.join(map(chr, units)))] if wide else units


def wanted(case: Case, units: Units, wide: bool) -> str:
    """The line that the example must write for a text. Raises Difference if the model has no answer."""
    try:
        found = places.refusal(case.reader, units, wide, case.strict)
    except ValueError as error:
        raise Difference(f'{shown(case, units, wide)}: the model has no answer: {error}') from error
    if found is None:
        return places.OK
    fault, reason = found
    characters = with_characters(units, wide)
    message = places.reason_text(reason, characters, wide, case.strict)
    hint = ' and '.join(places.hints_of(case.reader, found, characters, wide, case.strict))
    return '\t'.join(map(str, (fault.error, fault.place, reason_name(reason.line), reason.begin, reason.end, message, hint)))


# ---------------------------------------------------------------------------------------------------------------------------------
# Comparing

class Difference(Exception):
    """A text for which a reader and the model have different results."""


class Counts(NamedTuple):
    """How many texts were compared, how many were refused, and the reasons and the hints that these had."""
    texts: int
    refused: int
    reasons: frozenset[str]
    hints: frozenset[str]

    def __add__(self, other: 'Counts') -> 'Counts':
        """The counts of both."""
        return Counts(self.texts + other.texts, self.refused + other.refused, self.reasons | other.reasons, self.hints | other.hints)


NO_TEXTS = Counts(0, 0, frozenset(), frozenset())


def shown(case: Case, units: Units, wide: bool) -> str:
    """A text as the output shows it, with its reader and its width."""
    return f'{case}, {16 if wide else 8}-bit, of {ascii("".join(map(chr, units)))}'


def answers(program: str, lines: list[str]) -> list[str]:
    """The answers of the example to these lines."""
    ran = subprocess.run([program], input=''.join(it + '\n' for it in lines), stdout=subprocess.PIPE, encoding='utf-8', check=True)
    return ran.stdout.removesuffix('\n').split('\n')


def compared(program: str, chunk: Chunk) -> Counts:
    """Compares the answers to the texts of a chunk with the model. Raises Difference at the first difference."""
    made_texts = texts(chunk)
    bits = 16 if chunk.wide else 8
    found = answers(program, [f'{case} {bits} {" ".join(f"{it:x}" for it in units)}' for case, units in made_texts])
    if len(found) != len(made_texts):
        raise Difference(f'expected {len(made_texts)} answers, found {len(found)}')
    for (case, units), answer in zip(made_texts, found):
        right = wanted(case, units, chunk.wide)
        if answer != right:
            raise Difference(f'{shown(case, units, chunk.wide)}:\nexpected {right!r}\nfound    {answer!r}')
    refusals = [answer.split('\t') for answer in found if answer != places.OK]
    return Counts(len(found), len(refusals), frozenset(it[2] for it in refusals), frozenset(it[6] for it in refusals) - {''})


def compared_job(job: tuple[str, Chunk]) -> Counts:
    """Compares a chunk with the example at a path."""
    return compared(*job)


def compared_all(program: str, wide: bool, count: int, seed: int, jobs: int) -> Counts:
    """Compares all texts of a width, with this number of processes. Raises Difference at the first difference."""
    chunks = [(program, Chunk(wide, seed, first, min(first + CHUNK, count))) for first in range(0, count, CHUNK)]
    if jobs == 1:
        return sum(map(compared_job, chunks), NO_TEXTS)
    with multiprocessing.Pool(jobs) as pool:
        return sum(pool.imap(compared_job, chunks), NO_TEXTS)


def built() -> str:
    """Builds the example with cargo. Returns the path of the program."""
    crate = os.path.join(TOOLS, '..', 'rust', 'ixdtf')
    subprocess.run(['cargo', 'build', '--quiet', '--offline', '--release', '--example', 'messages'], cwd=crate, check=True)
    return os.path.join(os.environ.get('CARGO_TARGET_DIR', os.path.join(crate, 'target')), 'release', 'examples', 'messages')


def main() -> int:
    """Builds the example, and compares the texts of each width. Returns the exit status."""
    parser = argparse.ArgumentParser(description=__doc__, formatter_class=argparse.RawDescriptionHelpFormatter)
    parser.add_argument('count', nargs='?', type=int, default=100000)
    parser.add_argument('seed', nargs='?', type=int, default=1)
    parser.add_argument('--jobs', type=int, default=1)
    given = parser.parse_args()
    program = built()
    try:
        for wide in (False, True):
            counts = compared_all(program, wide, given.count, given.seed, given.jobs)
            print(f'{16 if wide else 8}-bit: {counts.texts} texts, {counts.refused} refused, {len(counts.reasons)} different reasons, '
                  f'{len(counts.hints)} different hints, no difference', flush=True)
    except Difference as difference:
        print(difference)
        return 1
    return 0


if __name__ == '__main__':
    sys.exit(main())
