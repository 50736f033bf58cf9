"""Compares what a program did with what a case expects."""
import json
import re

from cases import ANY, Case, Mark, Stream
from processes import Found

# a report shows at most this number of bytes of a text
MOST_SHOWN = 20_000
# the members of an object of JSON, in the order of docs/PROGRAM.md; only the last one may be missing
MEMBERS = [('file', str), ('line', int), ('column', int), ('end', int), ('reason', str), ('text', str), ('hint', str)]


def shown(text: bytes) -> str:
    """A text as the lines of a case: a `|` before each line, and marks for the bytes that cannot be seen."""
    cut = text[:MOST_SHOWN]
    written = []
    for line in cut.split(b'\n'):
        line = line.decode('utf-8', 'surrogateescape')
        line = re.sub(r'(.)\1{49,}', lambda found: f'<{found.group(1)} * {len(found.group(0))}>', line)
        line = re.sub('[\0-\x1f\x7f\ud800-\udfff]', lambda found: f'<{ord(found.group(0)) & 0xff:02X}>', line)
        written.append('|' + re.sub(' $', '<SPACE>', line))
    last = written.pop()
    if last != '|':
        written.append(last + '<no newline>')
    if len(text) > MOST_SHOWN:
        written.append(f'.. and {len(text) - MOST_SHOWN} more bytes')
    return '\n'.join(written)


def expected_text(text: list) -> str:
    """The expected text as the lines of a case."""
    return shown(b''.join(f'<{it}>'.encode() if isinstance(it, Mark) else it for it in text))


def matches(text: list, found: bytes) -> bool:
    """Whether the bytes are those of the expected text, in which <any> stands for some bytes of a line."""
    if ANY not in text:
        return b''.join(it for it in text if not isinstance(it, Mark)) == found
    pattern = b''.join(b'[^\n]+' if it is ANY else re.escape(it) for it in text if it is ANY or not isinstance(it, Mark))
    return re.fullmatch(pattern, found) is not None


def wrong_object(line: str) -> str:
    """What is wrong with a line that should be an object of JSON, or an empty text."""
    try:
        members = json.loads(line, object_pairs_hook=list)
    except ValueError as error:
        return f'this is not JSON: {error}'
    if not isinstance(members, list) or len(members) not in (len(MEMBERS) - 1, len(MEMBERS)):
        return 'expected an object with six or seven members'
    for (name, value), (wanted, kind) in zip(members, MEMBERS):
        if name != wanted or type(value) is not kind:
            return f'expected the member {wanted}, a {kind.__name__}'
    return ''


def wrong_objects(name: str, found: bytes) -> list:
    """What is wrong with the lines of an output that should be objects of JSON."""
    try:
        lines = found.decode().split('\n')[:-1]
    except UnicodeDecodeError as error:
        return [f'{name}: this is not UTF-8: {error}']
    wrong = [(line, wrong_object(line)) for line in lines]
    return [f'{name}: {why}:\n|{line}' for line, why in wrong if why]


def output_differences(name: str, stream: Stream, found: bytes, writes: int) -> list:
    """How an output differs from what a case expects."""
    wrong = []
    if not matches(stream.text, found):
        wrong += [f'{name} expected:', expected_text(stream.text), f'{name} found:', shown(found)]
    if stream.mode == 'json':
        wrong += wrong_objects(name, found)
    if stream.mode.endswith('writes'):
        most = int(stream.mode.split()[1])
        if writes > most:
            wrong.append(f'{name} expected: at most {most} writes, found: {writes}')
    return [it for it in wrong if it]


def differences(case: Case, found: Found) -> list:
    """How a run differs from what its case expects: lines of text, or an empty list."""
    wrong = list(found.problems)
    wrong += output_differences('stdout', case.stdout, found.stdout, found.stdout_writes)
    wrong += output_differences('stderr', case.stderr, found.stderr, found.stderr_writes)
    if found.status != case.status:
        wrong.append(f'status expected: {case.status}, found: {found.status}')
    return wrong
