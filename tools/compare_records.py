#!/usr/bin/env python3
"""compare_records.py [--library FOLDER] [--oracle PROGRAM] [--strict-oracle PROGRAM] [COUNT [SEED]]: compares what the library for C does with
made records with a model.

For each of seven kinds of record, such as times and durations, the tool makes COUNT records. If you do not give COUNT, it is 100000. If you do not
give SEED, it is 1. The records are made from generated fields, and not from texts. The fields are often at an end of their range, and sometimes
outside of it. A fraction has up to 255 digits, and the record has up to 18 of them. Some names and some calendars are not valid. The fields of a
part that is missing have any values, because they must not matter.

A model decides whether a record has a canonical text, and which one it is. The model was written from `docs/GRAMMAR.md`, and not from the code of
the printers. The tool checks these things for each record, as a record of 8-bit text and as a record of 16-bit text:

- The printer writes the canonical text, and changes no code unit after it. If there is no canonical text, the printer returns
  IXDTF_NOT_PRINTABLE, and the array and the count are unchanged. This is also checked for an array without elements.
- The function for the length returns the length of the canonical text, or 0.
- If the array is one code unit too short, or still shorter, the printer returns IXDTF_TOO_SHORT. The array is unchanged, and the count is the
  length of the canonical text.
- The reader reads the same record from the canonical text, in every field. If the reader has a strict variant, this variant reads the same record
  too, with one exception: ixdtf_parse_month_day_strict must refuse the day 00.
- ixdtf_parse_rfc3339 and ixdtf_parse_rfc9557 read the same record from the canonical text of a date-time if it is a text of their standard, and
  refuse it otherwise. ixdtf_parse_iana_identifier reads the name of a zone, and refuses an offset.
- A reader that refuses a text leaves all fields unchanged, except for `location` and `place`.
- The record that was read back has the same canonical text.

A record with a code unit above 255 in its name or its calendar is checked only as a record of 16-bit text. If the header of the library has no
printers of 16-bit text, the canonical texts are only read as 16-bit text.

Options:

--library FOLDER         the library to test: a folder that c/build has written, with the proved or the plain library. Without this option, the tool
                         builds the plain library with c/build.
--oracle PROGRAM         a program that reads the canonical texts with another library, such as ixdtf 0.6.7. It may be given more than once. The
                         program gets lines such as `x-time 12:30:00.50Z[cet]`, with the kind after the `x-`. It must answer each line with a line
                         such as `ok time=12,30,0.f2:50 offset=Z tz=cet`: the fields in the order of `ixdtf_lines`, and a fraction with the count of
                         its digits and the number that the first 18 digits form. An answer ends before ` | `.
--strict-oracle PROGRAM  the same for a program with the strict profile. For a month and the day 00, it must answer `error InvalidMonthDay`.

The environment variables CC, CFLAGS and LDFLAGS name the C compiler and its options.

For each kind and width, the tool prints the number of records, and how many of them have a canonical text. At the first difference, it prints the
fields of the record and what is different, and ends with the exit status 1."""
import argparse
import os
import shlex
import shutil
import subprocess
import sys
import tempfile
from typing import NamedTuple

TOOLS = os.path.dirname(os.path.abspath(__file__))
KINDS = ('parse', 'year-month', 'month-day', 'time', 'offset', 'zone', 'duration')
# how many texts one run of an oracle gets
BATCH = 100000


class Difference(Exception):
    """A record with which the library, or another program, does something else than it must."""


class Oracle(NamedTuple):
    """A program that reads canonical texts with another library."""
    program: str
    is_strict: bool


def wanted_answer(oracle: Oracle, line: bytes, fields: bytes) -> bytes:
    """The answer that an oracle must give to a line with a canonical text. `fields` has the fields of its record."""
    has_day_00 = line.startswith(b'x-month-day ') and line[15:17] == b'00'
    return b'error InvalidMonthDay' if oracle.is_strict and has_day_00 else fields


def answers(program: str, lines: list[bytes]) -> list[bytes]:
    """The answers of an oracle to these lines. Each line ends with a newline."""
    ran = subprocess.run([program], input=b''.join(lines), stdout=subprocess.PIPE, check=True)
    found = ran.stdout.split(b'\n')
    if len(found) != len(lines) + 1 or found[-1]:
        raise Difference(f'{program}: {len(lines)} lines, and {len(found) - 1} answers')
    return [answer.partition(b' | ')[0] for answer in found[:-1]]


def compare_answers(oracle: Oracle, lines: list[bytes], fields: list[bytes]) -> None:
    """Compares the answers of an oracle with the fields of the records. Raises Difference at the first difference."""
    for line, wanted, found in zip(lines, fields, answers(oracle.program, lines)):
        wanted = wanted_answer(oracle, line, wanted)
        if found != wanted:
            raise Difference(f'{oracle.program}: {ascii(line.decode("latin-1"))}: expected {ascii(wanted.decode("latin-1"))}, '
                             f'found {ascii(found.decode("latin-1"))}')


def compare_kind(program: str, kind: str, count: int, seed: int, oracles: list[Oracle]) -> int:
    """Makes and checks records of a kind. Prints how many. Returns how many texts each oracle read. Raises Difference at the first difference."""
    arguments = [program, kind, str(count), str(seed)] + (['lines'] if oracles else [])
    texts = 0
    lines: list[bytes] = []
    fields: list[bytes] = []

    def compare_batch() -> None:
        for oracle in oracles:
            compare_answers(oracle, lines, fields)
        lines.clear()
        fields.clear()

    found = b''
    with subprocess.Popen(arguments, stdout=subprocess.PIPE) as ran:
        for line in ran.stdout:
            if not line.startswith(b'x-'):
                found += line
                continue
            lines.append(line)
            fields.append(ran.stdout.readline().rstrip(b'\n'))
            texts += 1
            if len(lines) == BATCH:
                compare_batch()
    written = found.decode('latin-1')
    if ran.returncode:
        raise Difference(written.rstrip('\n') or f'{kind}: the program that checks the records ended with the exit status {ran.returncode}')
    compare_batch()
    print(written, end='', flush=True)
    return texts


def compiler() -> list[str]:
    """The C compiler, and its options."""
    command = shlex.split(os.environ.get('CC', '')) or [next((name for name in ('cc', 'gcc', 'clang') if shutil.which(name)), 'cc')]
    return command + ['-std=c11', '-O2'] + shlex.split(os.environ.get('CFLAGS', ''))


def compiled(library: str, folder: str, *options: str) -> str:
    """Compiles the program that makes and checks records, into this folder. Returns its path."""
    program = os.path.join(folder, 'compare_records')
    subprocess.run([*compiler(), *options, '-I' + library, '-o', program, os.path.join(TOOLS, 'made_records', 'main.c'),
                    os.path.join(library, 'libixdtf.a'), *shlex.split(os.environ.get('LDFLAGS', ''))], check=True)
    return program


def built(folder: str) -> str:
    """Builds the plain library into a folder in this folder. Returns the path of the new folder."""
    library = os.path.join(folder, 'library')
    subprocess.run([os.path.join(TOOLS, '..', 'c', 'build'), '--plain', library], stdout=subprocess.DEVNULL, check=True)
    return library


def main() -> int:
    """Compares each kind of record. Returns the exit status."""
    parser = argparse.ArgumentParser(description=__doc__, formatter_class=argparse.RawDescriptionHelpFormatter)
    parser.add_argument('count', nargs='?', type=int, default=100000)
    parser.add_argument('seed', nargs='?', type=int, default=1)
    parser.add_argument('--library')
    parser.add_argument('--oracle', action='append', default=[])
    parser.add_argument('--strict-oracle', action='append', default=[])
    given = parser.parse_args()
    oracles = [Oracle(program, False) for program in given.oracle] + [Oracle(program, True) for program in given.strict_oracle]
    with tempfile.TemporaryDirectory() as folder:
        program = compiled(given.library or built(folder), folder)
        try:
            texts = sum(compare_kind(program, kind, given.count, given.seed, oracles) for kind in KINDS)
        except Difference as difference:
            print(difference)
            return 1
    for oracle in oracles:
        print(f'{oracle.program}: {texts} canonical texts')
    print(f'{len(KINDS) * given.count} records, no difference')
    return 0


if __name__ == '__main__':
    sys.exit(main())
