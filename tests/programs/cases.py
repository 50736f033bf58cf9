"""Reads the files *.cases. The head of run.py describes them."""
import dataclasses
import os
import re
import shlex

PROGRAMS = ('ixdtf_check', 'ixdtf_lines')
BYTES = {'CR': b'\r', 'TAB': b'\t', 'ESC': b'\x1b', 'NUL': b'\0', 'SPACE': b' '}
# how standard input can come, and how an output can be read
INPUTS = re.compile(r'byte by byte|that fails|from \S+|')
OUTPUTS = re.compile(r'json|full|closed|until a line|terminal|in [0-9]+ writes|with stderr|')


class CaseError(Exception):
    """A file of cases is wrong."""


class Mark(str):
    """A mark that does not stand for bytes. NUMBER is only in lines that are repeated."""


ANY, PAUSE, INTERRUPT, NUMBER = Mark('any'), Mark('pause'), Mark('interrupt'), Mark('N')
MARKS = {it: it for it in (ANY, PAUSE, INTERRUPT, NUMBER)}


@dataclasses.dataclass
class Stream:
    """Standard input or an output: the mode, which is the words after its name, and the text, which has bytes and marks."""
    mode: str = ''
    text: list = dataclasses.field(default_factory=list)

    def pieces(self) -> list:
        """The texts between the pauses and interrupts."""
        found = [[]]
        for part in self.text:
            if part in (PAUSE, INTERRUPT) and isinstance(part, Mark):
                found.append([])
            else:
                found[-1].append(part)
        return found


@dataclasses.dataclass
class Command:
    """A command as it stands in a case, with its program and the words after it."""
    line: str
    program: str
    words: list


@dataclasses.dataclass
class Case:
    """Commands, where they run, and what each of them must write."""
    name: str
    commands: list = dataclasses.field(default_factory=list)
    files: dict = dataclasses.field(default_factory=dict)
    folders: list = dataclasses.field(default_factory=list)
    environment: dict = dataclasses.field(default_factory=dict)
    stdin: Stream = dataclasses.field(default_factory=Stream)
    stdout: Stream = dataclasses.field(default_factory=Stream)
    stderr: Stream = dataclasses.field(default_factory=Stream)
    status: int = 0
    open_point: str = ''


def value_of(mark: str) -> object:
    """What a mark stands for, or None if there is no such mark."""
    if re.fullmatch(r'[0-9A-F]{2}( [0-9A-F]{2})*', mark):
        return bytes.fromhex(mark)
    if mark in BYTES:
        return BYTES[mark]
    if mark in MARKS:
        return MARKS[mark]
    repeated = re.fullmatch(r'(.+) \* ([0-9]+)', mark)
    if repeated:
        return repeated.group(1).encode() * int(repeated.group(2))
    return None


def decoded(line: str) -> list:
    """The bytes and the marks of a line or of a word."""
    parts = []
    for index, part in enumerate(re.split(r'<([^<>]*)>', line)):
        if index % 2 == 0:
            parts.append(part.encode())
            continue
        value = value_of(part)
        if value is None:
            raise CaseError(f'there is no mark <{part}>')
        parts.append(value)
    return [it for it in parts if it]


def joined(parts: list) -> list:
    """The same text, in which no two parts that are bytes follow each other."""
    found = []
    for part in parts:
        if found and isinstance(part, bytes) and isinstance(found[-1], list):
            found[-1].append(part)
        else:
            found.append([part] if isinstance(part, bytes) else part)
    return [b''.join(it) if isinstance(it, list) else it for it in found]


def line_parts(line: str) -> list:
    """The bytes and the marks of a line of a text, with its newline."""
    if line in ('<pause>', '<interrupt>'):
        return [MARKS[line[1:-1]]]
    if line.endswith('<no newline>'):
        return decoded(line[:-len('<no newline>')])
    return [*decoded(line), b'\n']


def text_of(lines: list) -> list:
    """The text of lines without their `|`."""
    parts = []
    index = 0
    while index < len(lines):
        repeated = re.fullmatch(r'<repeat ([0-9]+)>', lines[index])
        if not repeated:
            parts += line_parts(lines[index])
            index += 1
            continue
        if '<end>' not in lines[index:]:
            raise CaseError('<repeat> has no <end>')
        end = lines.index('<end>', index)
        block = joined([part for line in lines[index + 1:end] for part in line_parts(line)])
        for number in range(1, int(repeated.group(1)) + 1):
            parts += [str(number).encode() if part is NUMBER else part for part in block]
        index = end + 1
    if NUMBER in parts:
        raise CaseError('<N> is not in lines that are repeated')
    return joined(parts)


def bytes_of(text: list) -> bytes:
    """The bytes of a text that may not have marks such as <any>."""
    if any(isinstance(it, Mark) for it in text):
        raise CaseError('<any>, <pause> or <interrupt> does not belong here')
    return b''.join(text)


def command_of(line: str) -> Command:
    """The command of a line."""
    program, *words = shlex.split(line)
    if program not in PROGRAMS:
        raise CaseError('expected a command of ixdtf_check or of ixdtf_lines')
    return Command(line, program, [bytes_of(decoded(it)) for it in words])


def set_stream(stream: Stream, mode: str, lines: list, modes: re.Pattern) -> None:
    """Sets the mode and the text of standard input or of an output."""
    if stream.mode or stream.text or not modes.fullmatch(mode):
        raise CaseError(f'`{mode}` is unknown here, or this is there twice')
    stream.mode, stream.text = mode, text_of(lines)


def set_entry(case: Case, line: str, lines: list) -> None:
    """Applies a line of a case, and the lines of its text."""
    word, _, rest = line.partition(' ')
    if word == 'file' and rest:
        case.files[bytes_of(decoded(rest))] = bytes_of(text_of(lines))
        return
    if word == 'stdin':
        return set_stream(case.stdin, rest, lines, INPUTS)
    if word in ('stdout', 'stderr'):
        return set_stream(getattr(case, word), rest, lines, OUTPUTS)
    if lines:
        raise CaseError(f'no text belongs to `{line}`')
    if word == '$':
        case.commands.append(command_of(rest))
    elif word == 'folder' and rest:
        case.folders.append(bytes_of(decoded(rest)))
    elif word == 'env' and '=' in rest:
        name, _, value = rest.partition('=')
        case.environment[name] = value
    elif word == 'status' and rest in ('0', '1', '2'):
        case.status = int(rest)
    elif word == 'open' and rest:
        case.open_point = rest
    else:
        raise CaseError(f'`{line}` is unknown')


def read_cases(path: str) -> list:
    """The cases of a file."""
    with open(path, encoding='utf-8', newline='\n') as file:
        lines = file.read().split('\n')
    topic = os.path.basename(path).partition('.')[0]
    cases = []
    index = 0
    while index < len(lines):
        start, line = index, lines[index]
        index += 1
        if not line or line.startswith('#'):
            continue
        while index < len(lines) and lines[index].startswith('|'):
            index += 1
        try:
            if line.startswith('== '):
                cases.append(Case(f'{topic}: {line[3:]}'))
            elif cases:
                set_entry(cases[-1], line, [it[1:] for it in lines[start + 1:index]])
            else:
                raise CaseError('a file begins with the title of a case')
        except CaseError as error:
            raise CaseError(f'{os.path.basename(path)}:{start + 1}: {error}') from None
    check_cases(cases)
    return cases


def check_cases(cases: list) -> None:
    """Refuses a case without a command, two cases with one name, and pauses of the output without pauses of the input."""
    names = set()
    for case in cases:
        if not case.commands or case.name in names:
            raise CaseError(f'{case.name}: there is no command, or another case has this title')
        if len(case.stdout.pieces()) not in (1, len(case.stdin.pieces())):
            raise CaseError(f'{case.name}: standard input and standard output have different numbers of pauses')
        names.add(case.name)
