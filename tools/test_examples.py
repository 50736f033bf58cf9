#!/usr/bin/env python3
"""Tests of the examples in the documents. They run the examples of README.md, of docs/PROGRAM.md and of the READMEs of the two programs, and
compare the output with the output that the documents show. cargo and a C compiler build the examples. The tests also read the texts of
docs/GRAMMAR.md: `ixdtf_check` reads the texts of other programs, and `ixdtf_lines` the texts with instants."""
import functools
import json
import os
import re
import shutil
import subprocess
import sys
import tempfile
import unittest
from typing import Optional

ROOT = os.path.dirname(os.path.dirname(os.path.abspath(__file__)))
sys.path[:0] = [os.path.join(ROOT, it) for it in ('tools', 'tests')]
import places
import tables
from check_documents import SHOWN_FILE, Document, Tree

# the word of `ixdtf_lines` for each method of the library
WORDS = {
    'IxdtfParser::parse': 'parse',
    'IxdtfParser::parse_year_month': 'year-month',
    'IxdtfParser::parse_month_day': 'month-day',
    'IxdtfParser::parse_time': 'time',
    'IxdtfParser::parse_rfc3339': 'rfc3339',
    'IxdtfParser::parse_rfc9557': 'rfc9557',
    'TimeZoneParser::parse_offset': 'offset',
    'TimeZoneParser::parse_identifier': 'zone',
    'TimeZoneParser::parse_iana_identifier': 'iana',
    'IsoDurationParser::parse': 'duration',
}

# the kind of `ixdtf_check` for each column of the texts of other programs
KINDS = {'`parse`': 'date-time', '`parse_rfc3339`': 'rfc3339', '`parse_rfc9557`': 'rfc9557'}
# the kinds of `ixdtf_check`, by the words of the tables in tests/
KINDS_OF_READERS = {'parse': 'date-time', **{it: it for it in ('year-month', 'month-day', 'time', 'rfc3339', 'rfc9557', 'offset', 'zone', 'zone-name', 'duration')}}
# a space before an offset: in texts of these kinds, a report is about the space
SPACED = re.compile(r' (?:[Zz]|[+-]\d)')
SPACED_KINDS = ('date-time', 'time', 'rfc3339', 'rfc9557')


def read(path: str) -> str:
    """The text of a file of the repository."""
    with open(os.path.join(ROOT, path), encoding='utf-8') as file:
        return file.read()


def blocks(path: str, language: str = 'text') -> list[str]:
    """The contents of the blocks of a language in a document, in order. Without a language, these are the blocks of plain text."""
    return re.findall(rf'^```{language}\n(.*?)^```$', read(path), re.M | re.S)


def commands(path: str) -> list[tuple[str, str]]:
    """The commands that a document shows after a `$`, and for each what it prints."""
    found = [it.removeprefix('$ ').partition('\n') for it in blocks(path) if it.startswith('$ ')]
    return [(command, wanted) for command, _, wanted in found]


def make_files(path: str, folder: str) -> None:
    """Makes the files that a document shows, in a folder. The sentence before the lines of a file has its name."""
    for name, lines in re.findall(SHOWN_FILE.pattern + r'\n\n```text\n(.*?)^```$', read(path), re.M | re.S):
        with open(os.path.join(folder, name), 'w', encoding='utf-8') as file:
            file.write(lines)


def printed_by(command: str, folder: str) -> str:
    """Runs a command of a document in a folder. Returns all that it prints. The command finds the two programs."""
    path = [os.path.dirname(program(name)) for name in ('ixdtf_check', 'ixdtf_lines')]
    environment = os.environ | {'PATH': os.pathsep.join([*path, os.environ['PATH']])}
    ran = subprocess.run(['bash', '-c', f'{{ {command}\n}} 2>&1'], capture_output=True, text=True, env=environment, cwd=folder)
    return ran.stdout


@functools.cache
def program(name: str) -> str:
    """Builds a program with cargo. Returns its path."""
    folder = os.path.join(ROOT, 'rust', name)
    subprocess.run(['cargo', 'build', '--quiet', '--offline'], cwd=folder, check=True)
    return os.path.join(os.environ.get('CARGO_TARGET_DIR', os.path.join(folder, 'target')), 'debug', name)


def printed(name: str, arguments: list[str], given: str, folder: str) -> str:
    """Runs a program. Returns its standard output, followed by its standard error."""
    ran = subprocess.run([program(name), *arguments], input=given, capture_output=True, text=True, cwd=folder)
    return ran.stdout + ran.stderr


class Examples(unittest.TestCase):
    def test_commands(self):
        """Each command of PROGRAM, and each on the front page of a program, prints what the page shows after it. The page shows the files that
        its commands read."""
        for path, least in (('docs/PROGRAM.md', 15), ('rust/ixdtf_check/README.md', 3), ('rust/ixdtf_lines/README.md', 3)):
            shown = commands(path)
            self.assertGreaterEqual(len(shown), least, path)
            with tempfile.TemporaryDirectory() as folder:
                make_files(path, folder)
                for command, wanted in shown:
                    if '| jq ' not in command or shutil.which('jq'):
                        self.assertEqual(printed_by(command, folder), wanted, command)

    def test_answers(self):
        """Each line of the block has the answer that the document shows after it."""
        rows = next(it for it in blocks('docs/PROGRAM.md') if it.startswith('parse ')).splitlines()
        given, answers = zip(*(re.fullmatch(r'(.*?) {2,}(.*)', row).groups() for row in rows))
        self.assertGreater(len(rows), 5)
        self.assertEqual(printed('ixdtf_lines', [], ''.join(it + '\n' for it in given), ROOT).splitlines(), list(answers))

    def test_objects(self):
        """The objects of the first command for reports in JSON have the lines, the columns and the messages of the report as a text."""
        command, wanted = next(it for it in commands('docs/PROGRAM.md') if '--format json' in it[0])
        with tempfile.TemporaryDirectory() as folder:
            make_files('docs/PROGRAM.md', folder)
            text = printed_by(command.replace('--format json', '--format text'), folder)
        objects = [json.loads(it) for it in wanted.splitlines()[:-1]]
        self.assertEqual([f'{it["file"]}:{it["line"]}:{it["column"]}: {it["text"]}' for it in objects], re.findall(r'^months.txt:.*$', text, re.M))

    @unittest.skipUnless(shutil.which('jq'), 'jq is not installed')
    def test_reasons_of_objects(self):
        """The pipe of PROGRAM counts the lines by the names of their reasons."""
        command = next(it for it in blocks('docs/PROGRAM.md', 'sh') if it.startswith('ixdtf_check --format json'))
        path = os.pathsep.join([os.path.dirname(program('ixdtf_check')), os.environ['PATH']])
        with tempfile.TemporaryDirectory() as folder:
            with open(os.path.join(folder, 'dates.txt'), 'w', encoding='utf-8') as file:
                file.write('2024-13-01\n2024-03-02\n2024-14-01\n2024-02-30\n')
            ran = subprocess.run(['sh', '-c', command], capture_output=True, text=True, env=os.environ | {'PATH': path}, cwd=folder)
        self.assertEqual([it.split() for it in ran.stdout.splitlines()], [['1', 'day_range'], ['2', 'month_range']], ran.stderr)

    def test_members_of_objects(self):
        """Each text of tests/refused.tsv with a reason has an object with the columns, the reason and the message of its row. Python reads the objects."""
        for reader, kind in KINDS_OF_READERS.items():
            some = explained_rows(reader)
            self.assertGreater(len(some), 5)
            shown = printed('ixdtf_check', ['--kind', kind, '--format', 'json'], ''.join(it['text'] + '\n' for it in some), ROOT)
            objects = [json.loads(it) for it in shown.splitlines() if it.startswith('{')]
            self.assertEqual([it['line'] for it in objects], list(range(1, len(some) + 1)), reader)
            for row, it in zip(some, objects):
                begin, end = map(int, row['part'].split('..'))
                is_spaced = kind in SPACED_KINDS and SPACED.match(row['text'], begin)
                reason = 'space_before_offset' if is_spaced else row['reason']
                message = 'a space stands before the offset' if is_spaced else row['message']
                self.assertEqual((it['column'], it['end']), (begin + 1, end + 1), row)
                self.assertEqual((it['reason'], it['text']), (reason, message), row)

    @unittest.skipUnless(shutil.which('jq'), 'jq is not installed')
    def test_lines_of_json(self):
        """The pipe of PROGRAM reports the line numbers of the file."""
        command = next(it for it in blocks('docs/PROGRAM.md', 'sh') if it.startswith('jq'))
        path = os.pathsep.join([os.path.dirname(program('ixdtf_check')), os.environ['PATH']])
        with tempfile.TemporaryDirectory() as folder:
            with open(os.path.join(folder, 'log.jsonl'), 'w', encoding='utf-8') as file:
                file.write('{"time": "2024-03-02T08:48:00Z", "level": 1}\n{"level": 2}\n{"time": "2024-03-02"}\n')
            ran = subprocess.run(['sh', '-c', command], capture_output=True, text=True, env=os.environ | {'PATH': path}, cwd=folder)
        reports = [it for it in ran.stdout.splitlines() if it.startswith('-:')]
        self.assertEqual([it.split(':')[1] for it in reports], ['2', '3'], ran.stdout + ran.stderr)
        self.assertTrue(ran.stderr.startswith('3 lines, 2 refused'), ran.stderr)

    def test_first_example(self):
        """The example of the README prints what the README shows first."""
        ran = subprocess.run(['cargo', 'run', '--quiet', '--offline', '--example', 'first'], cwd=os.path.join(ROOT, 'rust', 'ixdtf'),
                             capture_output=True, text=True, check=True)
        self.assertIn('cargo run --example first', read('README.md'))
        self.assertEqual(ran.stdout, blocks('README.md')[0])

    def test_programs_of_the_front_page(self):
        """The two commands of the README print what the README shows. The README has each command twice: with `cargo`, and with `rt`."""
        page = read('README.md')
        commands = dict(re.findall(r"\(cd rust/(\w+) && echo '([^']*)' \| cargo run --release\)", page))
        self.assertEqual(commands, dict(re.findall(r"\(cd crates/(\w+) && echo '([^']*)' \| rt run\)", page)))
        report = next(it for it in blocks('README.md') if it.startswith('-:'))
        shown = {'ixdtf_check': report, 'ixdtf_lines': re.search(r'The second program prints `([^`]*)`', page)[1] + '\n'}
        self.assertEqual(set(commands), set(shown))
        for name, given in commands.items():
            self.assertTrue(printed(name, [], given + '\n', ROOT).startswith(shown[name]), name)

    def test_c_of_the_front_page(self):
        """The commands of the README for C print what the README shows. They build into another folder here."""
        commands = next(it for it in blocks('README.md', 'sh') if it.startswith('c/build'))
        wanted = next(it for it in blocks('README.md') if ': valid\n' in it)
        if shutil.which('cc') is None:
            self.skipTest('there is no C compiler here')
        with tempfile.TemporaryDirectory() as folder:
            commands = commands.replace('c/build --plain', f'c/build --plain {folder} > {folder}/built').replace('c/out', folder)
            ran = subprocess.run(['bash', '-c', commands], cwd=ROOT, capture_output=True, text=True)
        self.assertEqual(ran.stdout, wanted, ran.stderr)

    def test_texts_of_the_front_page(self):
        """Each text in the table of the README is accepted by the method of its row."""
        method, lines = '', []
        for row in re.findall(r'^\| (`\w+Parser::\w+`)? ?\| (.*) \|$', read('README.md'), re.M):
            method = row[0].strip('`') or method
            lines += [f'{WORDS[method]} {text}' for text in re.findall('`([^`]*)`', row[1].rpartition(': ')[2])]
        self.assertEqual({it.split(' ')[0] for it in lines}, set(WORDS.values()))
        answers = printed('ixdtf_lines', [], ''.join(it + '\n' for it in lines), ROOT).splitlines()
        self.assertEqual(len(answers), len(lines))
        self.assertEqual([line for line, answer in zip(lines, answers) if not answer.startswith('ok')], [])

    def test_texts_of_other_programs(self):
        """Each text in the table of docs/GRAMMAR.md is accepted, or refused with the error and at the position of its cell. `ixdtf_lines` gives this
        error. `ixdtf_check` reports the message of the model, at the column where the part that is wrong begins."""
        rows = [row for _, row in Document(Tree(ROOT), 'docs/GRAMMAR.md').tables() if 'If it is refused' in row]
        self.assertEqual([it for it in rows[0] if 'parse' in it], list(KINDS))
        self.assertGreaterEqual(len(rows), 30)
        texts = [row['Text'].strip('`') for row in rows]
        for head, kind in KINDS.items():
            reader = head.strip('`')
            reports, errors = reports_of(kind, texts), errors_of(reader, texts)
            for number, (row, text) in enumerate(zip(rows, texts), 1):
                found = places.refusal(reader, list(text.encode()))
                cell = refusal_in(row[head])
                self.assertEqual(cell, found and (found.fault.place, str(found.fault.error)), (kind, text))
                self.assertEqual(errors[number - 1], cell and cell[1], (kind, text))
                self.assertEqual(reports.get(number), found and report_of(found, text), (kind, text))

    def test_instants(self):
        """Each text in the table of docs/GRAMMAR.md has the instant of its row, or none."""
        rows = [row for _, row in Document(Tree(ROOT), 'docs/GRAMMAR.md').tables() if 'Nanoseconds' in row]
        self.assertGreater(len(rows), 5)
        lines = [f'instant {row["`parse` of"].strip("`")}\n' for row in rows]
        self.assertEqual(printed('ixdtf_lines', [], ''.join(lines), ROOT).splitlines(), [instant_in(row) for row in rows])


def explained_rows(reader: str) -> list[tables.Row]:
    """The rows of tests/refused.tsv with a reason and a message about 8-bit texts for a reader, with the profile of the crate. Texts that the file
    writes with an escape are left out."""
    return [it for it in tables.rows('refused.tsv') if it['reason'] and it['message'] and it['part'] and reader in it['readers'].split(',')
            and it['profile'] != 'strict' and it['bits'] != '16' and '\\' not in it['text']]


def report_of(found: places.Refusal, text: str) -> tuple[int, str]:
    """The column and the message that `ixdtf_check` must report for a text that is refused. If the part that is wrong is a space before an offset,
    the message says so."""
    column = found.reason.begin + 1
    if re.match(r' (?:[Zz]|[+-]\d)', text[found.reason.begin:]):
        return column, 'a space stands before the offset'
    return column, places.reason_text(found.reason, list(text.encode()))


def instant_in(row: dict[str, str]) -> str:
    """What `ixdtf_lines` answers for the instant of a row of docs/GRAMMAR.md."""
    if row['Seconds'] == 'no instant':
        return 'error no instant'
    return f'ok seconds={row["Seconds"]} nanoseconds={row["Nanoseconds"]}'


def reports_of(kind: str, texts: list[str]) -> dict[int, tuple[int, str]]:
    """For the number of each line that `ixdtf_check` refuses, the column and the message of its report."""
    shown = printed('ixdtf_check', ['--kind', kind], ''.join(it + '\n' for it in texts), ROOT)
    return {int(line): (int(column), message) for line, column, message in re.findall(r'^-:(\d+):(\d+): (.*)$', shown, re.M)}


def errors_of(reader: str, texts: list[str]) -> list[Optional[str]]:
    """For each text, the text of the error that `ixdtf_lines` answers, or None if the text is accepted."""
    word = WORDS[f'IxdtfParser::{reader}']
    answers = printed('ixdtf_lines', [], ''.join(f'{word} {it}\n' for it in texts), ROOT).splitlines()
    return [it.removeprefix('error ') if it.startswith('error ') else None for it in answers]


def refusal_in(cell: str) -> Optional[tuple[int, str]]:
    """The position and the text of the error that a cell names. None if the cell says that the text is accepted."""
    if cell == 'yes':
        return None
    variant, location, place = re.fullmatch(r'`(\w+)`(?: of `([\w-]+)`)? at (\d+)', cell).groups()
    return int(place), str(places.Error(variant, location))


if __name__ == '__main__':
    if not shutil.which('jq'):
        print('left out: the commands of docs/PROGRAM.md with jq, because jq is not installed')
    if not shutil.which('cc'):
        print('left out: the commands of README.md for C, because no C compiler is installed')
    unittest.main()
