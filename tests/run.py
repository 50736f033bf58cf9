#!/usr/bin/env python3
"""run.py TARGET..: asks each target for the answer to each row of the tables of tests/, and compares the answers with the rows.

The targets are

    lines=PROGRAM        the program ixdtf_lines. It reads only 8-bit text.
    rust                 the crates rust/ixdtf and rust/ixdtf_print, which cargo compiles
    c=FOLDER             the library for C that c/build left in FOLDER. CC is the C compiler; if it is not set, it is cc.
    python=INTERPRETER   the package for Python of this interpreter
    model                the model tools/places.py. It says nothing about accepted texts, except that they are accepted.

A target answers one or more cases of a row: one reader, one profile and one width (tables.py). A column is compared if the row and the answer have
it. For each case that differs, run.py prints the row with what was expected and what was found. Then it prints one line for the target, such as
`rust: 6000 passed, 0 failed`. The exit status is 1 if a case failed, and 2 if a target is unknown or could not be asked."""
import functools
import os
import subprocess
import sys
import tempfile

import tables

HERE = os.path.dirname(os.path.abspath(__file__))
TOP = os.path.dirname(HERE)
TABLES = ('accepted.tsv', 'refused.tsv', 'replies.tsv')
# the words of ixdtf_lines for the canonical text of a reader
CANONICAL = {'parse': 'canonical', **{it: f'canonical-{it}' for it in ('year-month', 'month-day', 'time', 'offset', 'zone', 'duration')}}
LONGEST_LINE = 4096


class Unasked(Exception):
    """A target that could not be asked, with the reason."""


# ---- programs that answer requests

def run_program(command, lines, **options):
    """The lines that a program writes for these lines of its input. Raises Unasked if it fails, or writes fewer lines."""
    try:
        run = subprocess.run(command, input=b''.join(line + b'\n' for line in lines), stdout=subprocess.PIPE, **options)
    except OSError as why:
        raise Unasked(f'{command[0]}: {why.strerror}')
    answers = run.stdout.split(b'\n')[:-1]
    if run.returncode or len(answers) != len(lines):
        raise Unasked(f'{command[0]} ended with status {run.returncode}, after {len(answers)} of {len(lines)} answers')
    return answers


def request(case):
    """The request for a case: the width, the word, the handler and the code units in hexadecimal, with tabs between them."""
    units = ''.join(f'{unit:0{case.width // 4}x}' for unit in case.units)
    return f'{case.width}\t{case.word}\t{case.handler}\t{units}'.encode()


def ask(command, cases, **options):
    """The answers of a program to the requests for the cases. An answer has cells such as `at=5`, with tabs between them."""
    answers = run_program(command, [request(case) for case in cases], **options)
    return [(case, dict(cell.split('=', 1) for cell in answer.decode().split('\t'))) for case, answer in zip(cases, answers)]


# ---- the targets

def ask_rust(_, cases):
    """The answers of the Rust crates."""
    manifest = os.path.join(HERE, 'targets', 'rust', 'Cargo.toml')
    return ask(['cargo', 'run', '--quiet', '--offline', '--manifest-path', manifest], cases)


def ask_c(folder, cases):
    """The answers of the library for C."""
    compiler = os.environ.get('CC', 'cc').split()
    with tempfile.TemporaryDirectory() as work:
        program = os.path.join(work, 'rows')
        command = [*compiler, '-std=c99', '-O1', f'-I{folder}', '-o', program, os.path.join(HERE, 'targets', 'rows.c'), os.path.join(folder, 'libixdtf.a')]
        try:
            compiled = subprocess.run(command).returncode == 0
        except OSError as why:
            raise Unasked(f'{compiler[0]}: {why.strerror}')
        if not compiled:
            raise Unasked(f'{compiler[0]} could not compile tests/targets/rows.c with the library in {folder}')
        return ask([program], cases)


def ask_python(interpreter, cases):
    """The answers of the package for Python. 8-bit text is passed as bytes. 16-bit text is passed as str, if no code unit is bad."""
    wanted = [case for case in cases if case.width == 8 or all(1 <= unit <= 126 for unit in case.units)]
    return ask([interpreter, os.path.join(HERE, 'targets', 'rows.py')], wanted)


def ask_model(_, cases):
    """The answers of the model."""
    sys.path.insert(0, os.path.join(TOP, 'tools'))
    import model_rows
    return [(case, model_rows.answer(case)) for case in cases]


def line_of(word, case):
    """The line for ixdtf_lines with a word and the text of a case."""
    return f'{word} '.encode() + bytes(case.units)


def lines_for(case, explains):
    """The lines that ask ixdtf_lines for what the row of a case has, each with a word for what it asks."""
    yield 'plain', line_of(case.word, case)
    if case.row.cells.get('canonical'):
        yield 'canonical', line_of(CANONICAL[case.reader], case)
    if case.row.cells.get('instant'):
        yield 'instant', line_of('instant', case)
    if explains:
        yield 'explain', b'explain ' + line_of(case.word, case)


def read_answer(column, answer, names):
    """The columns that an answer of ixdtf_lines tells. `column` is what was asked, and `names` has the name of each error by its text."""
    status, _, rest = answer.decode('latin-1').partition(' ')
    if column == 'explain' and status == 'error':
        return dict(cell.split('=', 1) for cell in rest.split(' '))
    if column == 'instant':
        return {'instant': 'none' if rest == 'no instant' else ','.join(cell.partition('=')[2] for cell in rest.split(' '))}
    if column == 'canonical':
        return {'canonical': rest}
    if status == 'ok':
        return {'fields': rest}
    abrupt = 'Parsing ended abruptly while parsing '
    return {'error': 'AbruptEnd ' + rest[len(abrupt):] if rest.startswith(abrupt) else names.get(rest, rest)}


def ask_lines(program, cases):
    """The answers of ixdtf_lines. If the program has no word `explain`, they have no positions and no reasons."""
    explains = run_program([program], [b'explain parse 2020']) != [b'error unknown reader']
    asked = [(case, column, line) for case in cases if case.width == 8 and not case.handler and 10 not in case.units
             for column, line in lines_for(case, explains) if len(line) <= LONGEST_LINE]
    names = {text: name for name, text in tables.error_texts().items()}
    found = {}
    for (case, column, _), answer in zip(asked, run_program([program], [line for _, _, line in asked])):
        told = found.setdefault(case_key(case), (case, {}))[1]
        for name, value in read_answer(column, answer, names).items():
            told[name] = value if told.get(name, value) == value else f'{told[name]}, and with the word {column} {value}'
    return list(found.values())


def case_key(case):
    """What tells a case from the other cases."""
    return str(case.row), case.word


TARGETS = {'lines': ask_lines, 'rust': ask_rust, 'c': ask_c, 'python': ask_python, 'model': ask_model}
WITHOUT_VALUE = ('rust', 'model')


@functools.lru_cache(None)
def all_cases():
    """The cases of all tables."""
    return tables.cases(*TABLES)


def run_target(argument):
    """Asks one target, and prints the cases that differ and the counts. Returns the number of cases that failed."""
    name, _, value = argument.partition('=')
    failed = 0
    answered = TARGETS[name](value, all_cases())
    if not answered:
        raise Unasked(f'{argument}: no case was asked')
    for case, answer in answered:
        found = list(tables.differences(case, answer))
        failed += bool(found)
        for column, wanted, got in found:
            print(f'{case}\n    expected {column} {wanted}\n    found    {column} {got}')
    print(f'{argument}: {len(answered) - failed} passed, {failed} failed', flush=True)
    return failed


def main(arguments):
    for argument in arguments:
        name, equal, _ = argument.partition('=')
        if name not in TARGETS or bool(equal) == (name in WITHOUT_VALUE):
            print(f'run.py: unknown target: {argument}\n{__doc__}', file=sys.stderr)
            return 2
    if not arguments:
        print(__doc__, file=sys.stderr)
        return 2
    try:
        return 1 if sum([run_target(argument) for argument in arguments]) else 0
    except Unasked as why:
        print(f'run.py: {why}', file=sys.stderr)
        return 2


if __name__ == '__main__':
    sys.exit(main(sys.argv[1:]))
