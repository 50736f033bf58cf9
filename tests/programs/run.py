#!/usr/bin/env python3
"""run.py --check PROGRAM --lines PROGRAM [NAME..]: tests the programs ixdtf_check and ixdtf_lines from outside, however they were built.

It runs on Unix. It runs the cases of the files *.cases beside it, or only those with NAME in `FILE: TITLE`, such as `json` or
`fields: A field`. It prints each case that fails, with what is expected and what is found. Its last line is `N passed, M failed`, and its
status is 1 if a case failed, and 2 if a file of cases or an argument is wrong.

A case has a title, a command, and what the command must write. Expected texts come from docs/PROGRAM.md and are counted by hand:

    == A month that is too great is reported
    $ ixdtf_check --kind year-month months.txt
    file months.txt
    |2020-11
    |2021-13
    stdout
    |months.txt:2:6: the month is 13, and has to be 01 to 12
    |2021-13
    |     ^^
    stderr
    |2 lines, 1 refused, 16 bytes
    status 1

The words of the command are separated and quoted as in a shell. If there is no `stdin`, the input is empty; if there is no `stdout` or
`stderr`, nothing may be written there; if there is no `status`, it must be 0. If there are several commands, each of them must do the
same. These lines can also be in a case:

    folder NAME           a folder that lies where the program runs
    env NAME=VALUE        a variable of the environment; without such a line, NO_COLOR is not set, and TERM is xterm
    open WHY              the programs do not do this yet: the case is run and named, but neither passed nor failed
    stdin byte by byte    each byte is written when the program has read the one before
    stdin that fails      the read after the last byte fails (the pipe does not block)
    stdin from NAME       standard input is this file or folder
    stdout json           each line must also be an object of JSON that Python reads, with the members in the order of PROGRAM.md
    stdout full           the output is /dev/full, to which nothing can be written
    stdout closed         the output is a pipe that nobody reads
    stdout until a line   the reader of the output takes one line, and then closes the pipe
    stdout terminal       the output is a terminal
    stdout in N writes    the output comes in at most N writes
    stdout with stderr    the two outputs are one pipe

Except for the last one, `stderr` can be followed by the same words as `stdout`. A line with a `#` at its beginning is a comment. A line
of a text begins with a `|`, which does not belong to the text, and ends with a newline. These marks stand for what cannot be seen or typed:

    <0D>, <EF BB BF>      these bytes            <CR> <TAB> <ESC> <NUL> <SPACE>   the byte of this name
    <2 * 65536>           65,536 times `2`       <no newline>    at the end of a line: no newline ends it
    <repeat 20>, <end>    on lines of their own: the lines between are repeated. In them, <N> is the number of the repetition, from 1.
    <any>                 in an expected text: one or more bytes of the line, whatever they are
    <pause>               in standard input: what follows is sent when the program has read what is before. In standard output: what
                          is before must have been written when the pause of standard input with the same number ends.
    <interrupt>           in standard input: like <pause>, and the read that waits for more is interrupted by a signal

A line with only <pause> or <interrupt> is no line of the text. Only on Linux, reads can be interrupted, writes can be counted, and there
is /dev/full: elsewhere, the cases with these are left out, and named."""
import argparse
import os
import sys
import tempfile
from concurrent.futures import ThreadPoolExecutor

import processes
from cases import INTERRUPT, Case, CaseError, read_cases
from comparing import differences

FOLDER = os.path.dirname(os.path.abspath(__file__))


def arguments_of(words: list) -> argparse.Namespace:
    """The arguments of the command line."""
    parser = argparse.ArgumentParser(description='Tests ixdtf_check and ixdtf_lines from outside.')
    parser.add_argument('--check', required=True, metavar='PROGRAM', help='the program ixdtf_check')
    parser.add_argument('--lines', required=True, metavar='PROGRAM', help='the program ixdtf_lines')
    parser.add_argument('--cases', default=FOLDER, metavar='FOLDER', help='the folder with the files *.cases; without it, that of run.py')
    parser.add_argument('names', nargs='*', metavar='NAME', help='runs only the cases with NAME in `FILE: TITLE`')
    return parser.parse_args(words)


def cases_in(folder: str, names: list) -> list:
    """The cases of the files of a folder, in order. If there are names, only the cases with one of them in their name."""
    files = sorted(it for it in os.listdir(folder) if it.endswith('.cases'))
    cases = [case for file in files for case in read_cases(os.path.join(folder, file))]
    chosen = [it for it in cases if not names or any(name in it.name for name in names)]
    if sys.platform == 'linux':
        return chosen
    for case in chosen:
        if needs_linux(case):
            print(f'left out: {case.name}, because this system is not Linux')
    return [it for it in chosen if not needs_linux(it)]


def needs_linux(case: Case) -> bool:
    """Whether a case can only be run on Linux."""
    modes = case.stdout.mode, case.stderr.mode
    return INTERRUPT in case.stdin.text or any(it == 'full' or it.endswith('writes') for it in modes)


def report_on(case: Case, programs: dict) -> str:
    """Runs each command of a case in a folder of its own. Returns what is wrong, or an empty text."""
    report = []
    for command in case.commands:
        with tempfile.TemporaryDirectory(prefix='ixdtf_case_') as folder:
            wrong = differences(case, processes.run_command(case, command, programs[command.program], folder))
        if wrong:
            report += [f'FAILED {case.name}', f'$ {command.line}', *wrong, '']
    return '\n'.join(report)


def main(words: list) -> int:
    arguments = arguments_of(words)
    programs = {'ixdtf_check': os.path.abspath(arguments.check), 'ixdtf_lines': os.path.abspath(arguments.lines)}
    for program in programs.values():
        if not os.access(program, os.X_OK):
            print(f'run.py: {program}: there is no such program', file=sys.stderr)
            return 2
    try:
        cases = cases_in(arguments.cases, arguments.names)
    except CaseError as error:
        print(f'run.py: {error}', file=sys.stderr)
        return 2
    if not cases:
        print('run.py: there is no such case', file=sys.stderr)
        return 2
    with ThreadPoolExecutor(max_workers=2 * (os.cpu_count() or 1)) as pool:
        reports = list(pool.map(lambda case: report_on(case, programs), cases))
    failed = 0
    for case, report in zip(cases, reports):
        if case.open_point:
            print(f'OPEN {case.name}: {case.open_point}' + ('' if report else ' (this case passes: remove its line `open`)'))
        elif report:
            failed += 1
            print(report)
    passed = sum(not case.open_point for case in cases) - failed
    print(f'{passed} passed, {failed} failed')
    return 1 if failed else 0


if __name__ == '__main__':
    sys.exit(main(sys.argv[1:]))
