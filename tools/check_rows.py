#!/usr/bin/env python3
"""check_rows.py: checks the errors and positions in tests, examples and proofs, and the names of mutations.

A *row* is a text, a reader and a result: the reader accepts the text, or it returns an error. A row can also have the position of the
error, which is called its *place* in this file. The tool reads rows from these sources:

    tables     the tables of the folder tests
    examples   the examples of `*_located` readers in the doc comments of crates/*/src
    proofs     the tables of computed examples in crates/ixdtf_tests/proofs

It compares each row with the model tools/places.py. If tests/refused.tsv has the text of an example, it also compares the example with this table,
in which a person counted most of the places. No row may be copied from the output of the library itself.

The tool also checks the names of the mutations, crates/*/must-fail/FILE.FUNCTION.WHAT.edit. FILE must be the file, without its ending, and
FUNCTION the function that contains the text after `old:`. The type of the function may come before it. For a mutation of a definition,
FILE and FUNCTION are the file and the definition.

The tool also checks the comparisons of the library. The library counts each access of a code unit, and a comparison of code units accesses
them. So only the functions of `COMPARE` may compare two values of which neither is a literal, with `==`, `!=` or a method. The type of a code
unit is a parameter, so no code unit is compared with a literal.

The tool prints each difference as one line, and then how many rows, mutations and functions it read. The exit status is 1 if there is a
difference. It is also 1 if a source has fewer rows than `LEAST` says, because then a table is probably no longer read."""
import os
import re
import sys
from functools import cache, cached_property
from typing import Callable, Iterator, NamedTuple, Optional, Union

TOOLS = os.path.dirname(os.path.abspath(__file__))
sys.path.insert(0, TOOLS)
import model_rows
import places
from check_documents import FUNCTION, IMPL
from places import Error, Fault, Handler

ROOT = os.path.dirname(TOOLS)

# the least number of rows of each source
LEAST = {'tables': 5000, 'examples': 20, 'proofs': 2500}


# ---------------------------------------------------------------------------------------------------------------------------------
# Rows

class Row(NamedTuple):
    """A text, its reader, and the error and the place that a file gives. `error` is None if the text is accepted. `place` is None if the
    file has no place. `handler` makes a handler. It is None for a reader without a handler."""
    path: str
    reader: str
    strict: bool
    wide: bool
    units: tuple[int, ...]
    error: Optional[Error]
    place: Optional[int]
    handler: Optional[Callable[[], Handler]] = None

    def __str__(self) -> str:
        text = ''.join(map(chr, self.units))
        return f'{self.path}: {"strict " if self.strict else ""}{self.reader} of {"16-bit " if self.wide else ""}{text!r}'


def said(error: Optional[Error], place: Optional[int]) -> str:
    """An error and its place, in words."""
    if error is None:
        return 'ok'
    name = ' '.join(it for it in error if it)
    return name if place is None else f'{name} at {place}'


@cache
def counted_by_hand() -> dict[tuple, tuple[str, str]]:
    """The errors and places of tests/refused.tsv, for each reader, profile, width and text."""
    cases = model_rows.tables.cases('refused.tsv')
    return {(model_rows.READERS[it.reader], it.is_strict, it.width == 16, it.units): (it.row['error'], it.row['at']) for it in cases}


def listed(row: Row) -> Iterator[tuple[Error, Optional[int]]]:
    """What tests/refused.tsv has for the text, without a handler. Also with a handler that replies None, if no reply is refused."""
    error, place = counted_by_hand().get((row.reader, row.strict, row.wide, row.units), ('', ''))
    if error and (row.handler is None or error not in ('UnrecognizedCritical', 'CriticalDuplicateCalendar')):
        yield Error(*error.split(' ')), int(place) if place else None


def modelled(row: Row) -> tuple[Optional[Error], Optional[int]]:
    """What the model has for the text."""
    handler = row.handler() if row.handler else places.each_replies_for_itself
    found = places.outcome(row.reader, row.units, row.wide, row.strict, handler)
    return (found.error, found.place) if isinstance(found, Fault) else (None, None)


def findings(row: Row) -> Iterator[str]:
    """The differences of the row from the list and from the model."""
    for source, (error, place) in [('refused.tsv', it) for it in listed(row)] + [('the model', modelled(row))]:
        if error != row.error or None not in (row.place, place) and place != row.place:
            yield f'{row} is {said(row.error, row.place)}; {source} has {said(error, place)}'


def findings_in_tables() -> tuple[list[str], int]:
    """The differences of the tables of the folder tests from the model, and the number of their cases."""
    cases = model_rows.tables.cases('accepted.tsv', 'refused.tsv', 'replies.tsv')
    found = [f'{case} has {column} {wanted}; the model has {got}' for case in cases for column, wanted, got in model_rows.differences(case)]
    return found, len(cases)


# ---------------------------------------------------------------------------------------------------------------------------------
# Values in Rattle

class Named(NamedTuple):
    """A name, without its path, and the arguments or fields after it."""
    name: str
    arguments: tuple = ()
    fields: dict = {}


Value = Union[str, bytes, int, list, tuple, Named]
TOKEN = re.compile(r'\s+|//[^\n]*|(?P<string>b?"(?:[^"\\]|\\.)*")|(?P<number>\d[\d_]*)|(?P<name>[A-Za-z_]\w*(?:::\w+)*)|'
                   r'(?P<mark>[^\s\w])', re.S)
CLOSING = {'(': ')', '[': ']', '{': '}'}


class Values:
    """Reads values of a source, from an index on. Raises ValueError if there is no value."""

    def __init__(self, source: str, at: int):
        self.tokens = ((it.lastgroup, it[0]) for it in TOKEN.finditer(source, at) if it.lastgroup)
        self.kind, self.text = next(self.tokens)

    def take(self) -> str:
        """Consumes the next token, and returns it."""
        text = self.text
        self.kind, self.text = next(self.tokens, ('end', ''))
        return text

    def value(self) -> Value:
        """The next value."""
        while self.text == '&':
            self.take()
        kind = self.kind
        if self.text in ('(', '['):
            opening = self.text
            parts = self.parts(self.value)
            return list(parts) if opening == '[' else tuple(parts)
        text = self.take()
        if kind == 'string':
            return unescaped(text)
        if kind == 'number':
            return int(text.replace('_', ''))
        if kind == 'name':
            return self.named(text.split('::')[-1])
        raise ValueError(f'expected a value, found {text}')

    def named(self, name: str) -> Named:
        """A name, with what follows it."""
        if self.text == '(':
            return Named(name, tuple(self.parts(self.value)))
        if self.text == '{':
            return Named(name, fields=dict(self.parts(self.field)))
        return Named(name)

    def field(self) -> tuple[str, Value]:
        """A field and its value."""
        name, colon = self.take(), self.take()
        if colon != ':':
            raise ValueError(f'expected `:` after the field {name}, found {colon}')
        return name, self.value()

    def parts(self, part: Callable) -> list:
        """The parts between brackets."""
        closing, found = CLOSING[self.take()], []
        while self.text != closing:
            found.append(part())
            if self.text == ',':
                self.take()
            elif self.text != closing:
                raise ValueError(f'expected `,` or {closing}, found {self.text}')
        self.take()
        return found


ESCAPE = re.compile(r'\\(?:u\{(?P<code>[0-9a-f]+)\}|x(?P<byte>[0-9a-f]{2})|(?P<newline>\n\s*)|(?P<letter>.))', re.S)
LETTERS = {'n': '\n', 't': '\t', 'r': '\r', '0': '\0', '\\': '\\', '"': '"', "'": "'"}


def unescaped(literal: str) -> Union[str, bytes]:
    """The value of a string literal or of a byte string literal."""
    def meant(it: re.Match) -> str:
        number = it['code'] or it['byte']
        return chr(int(number, 16)) if number else '' if it['newline'] else LETTERS[it['letter']]
    text = ESCAPE.sub(meant, literal[literal.index('"') + 1:-1])
    return text.encode('latin-1') if literal.startswith('b') else text


# ---------------------------------------------------------------------------------------------------------------------------------
# Examples of doc comments

PARSERS = {'IxdtfParser': '', 'TimeZoneParser': '', 'IsoDurationParser': 'duration'}
EACH = re.compile(r'for \(text, error, at\) in (?=\[)')
LOCATED = re.compile(r'let (?:mut parser|located) = (\w+)::from_str\(("(?:[^"\\]|\\.)*"|text)\)(?:;\s*let located = parser)?'
                     r'\.(\w+?)(?:_with_annotation_handler)?_located\((?:Some)?\)\.unwrap_err\(\);')
EQUAL = re.compile(r'\s*assert_eq!\(\(located\.error, located\.at\), (?=\()')


def rows_of_examples(path: str, source: str) -> Iterator[Row]:
    """The rows of the examples of `*_located` readers in the doc comments of a source."""
    shown = '\n'.join(it.strip().removeprefix('///') for it in source.splitlines() if it.strip().startswith('///'))
    for located in LOCATED.finditer(shown):
        parser, text, method = located.groups()
        if text == 'text':
            table = [it.end() for it in EACH.finditer(shown, 0, located.start())][-1]
            rows = Values(shown, table).value()
        else:
            equal = EQUAL.match(shown, located.end())
            rows = [(unescaped(text), *Values(shown, equal.end()).value())] if equal else []
        for text, named, place in rows:
            error = Error(named.name, named.fields.get('location'))
            yield Row(path, PARSERS[parser] or method, False, False, tuple(text.encode()), error, place)


# ---------------------------------------------------------------------------------------------------------------------------------
# Computed examples: terms of definitions

class Term(NamedTuple):
    """A name without a definition in these files, and its arguments."""
    name: str
    arguments: tuple = ()


Meaning = Union[Term, int, list, tuple]
WORDS = re.compile(r'\s+|(?P<string>"[^"]*")|(?P<number>\d+(?![\w-]))|(?P<record>record \{)|(?P<mark>[(),{}]|\+\+|∷|\[\])|'
                   r'(?P<name>[^\s(),{}]+)')
BAD = 'Bad'
BAD_UNIT = 0xe9  # a 16-bit code unit that is bad
MARK = ord('|')  # marks the place of an example, and is not a part of its text


class Terms:
    """Reads terms from a text: applications, lists and tuples."""

    def __init__(self, text: str):
        self.tokens = [(it.lastgroup, it[0]) for it in WORDS.finditer(text) if it.lastgroup]
        self.at = 0

    def peek(self) -> tuple[str, str]:
        """The next token."""
        return self.tokens[self.at] if self.at < len(self.tokens) else ('end', '')

    def take(self) -> tuple[str, str]:
        """Consumes the next token, and returns it."""
        self.at += 1
        return self.tokens[self.at - 1]

    def term(self) -> tuple:
        """A term, as a name and its arguments. `++` and `∷` group to the right."""
        left = self.application()
        if self.peek()[1] in ('++', '∷'):
            return (self.take()[1], left, self.term())
        return left

    def application(self) -> tuple:
        """A name and its arguments, or one part without arguments."""
        parts = [self.part()]
        while self.peek()[0] != 'end' and self.peek()[1] not in ('++', '∷', ')', ',', '}'):
            parts.append(self.part())
        return ('apply', *parts) if len(parts) > 1 else parts[0]

    def part(self) -> tuple:
        """One part: a literal, a name, or a part in brackets."""
        kind, text = self.take()
        if kind == 'record':
            return self.passed_record()
        if text != '(':
            return (kind, text)
        parts = [self.term()]
        while self.peek()[1] == ',':
            self.take()
            parts.append(self.term())
        self.take()
        return ('tuple', *parts) if len(parts) > 1 else parts[0]

    def passed_record(self) -> tuple:
        """A record. Its fields are skipped."""
        depth = 1
        while depth:
            text = self.take()[1]
            depth += text.endswith('{') - (text == '}')
        return ('name', 'record')


DEFINITION = re.compile(r'(\w[\w-]*)((?: \w+)*) =\s(.*)', re.S)
IMPORT = re.compile(r'^use Rattle\.ixdtf_tests\.proofs\.(\w+)\.\{(.*)\}$', re.M)
TABLE = re.compile(r'\w+ : (?:\(profile : Profile\) → )?(?:Compute|ShowEachRow) (.*)', re.S)
BUILT_IN = {
    'codes': lambda text: list(text.encode()),
    'text_of': lambda units: units,
    'and_bad': lambda units: units + [BAD],
    'before_mark': lambda units: units[:units.index(MARK)],
    'after_mark': lambda units: units[units.index(MARK) + 1:],
    'narrow': lambda units: units,
    'wide': lambda units: [it if 1 <= it <= 126 else BAD for it in units],
}


class Proofs:
    """The files of computed examples, by their names."""

    def __init__(self, sources: dict[str, str]):
        chunks = {name: top_level(source) for name, source in sources.items()}
        self.imports = {name: {it.strip(): module for module, names in IMPORT.findall(source) for it in names.split(',')}
                        for name, source in sources.items()}
        self.definitions = {name: {it[1]: (it[2].split(), it[3]) for it in map(DEFINITION.match, of_file) if it}
                            for name, of_file in chunks.items()}
        self.tables = [(name, it[1]) for name, of_file in chunks.items() for it in map(TABLE.match, of_file) if it]

    def meaning(self, module: str, term: tuple, local: dict[str, Meaning]) -> Meaning:
        """What a term means in a module, if these names have these meanings."""
        kind, *parts = term
        if kind in ('++', '∷', 'tuple', 'apply'):
            of_parts = [self.meaning(module, it, local) for it in parts]
            if kind == '++':
                return as_list(of_parts[0]) + as_list(of_parts[1])
            if kind == '∷':
                return [of_parts[0], *as_list(of_parts[1])]
            return tuple(of_parts) if kind == 'tuple' else self.applied(of_parts[0], tuple(of_parts[1:]))
        text = parts[0]
        if kind == 'string':
            return Term(text[1:-1])
        if kind == 'number':
            return int(text)
        return local[text] if text in local else [] if text == '[]' else self.named(module, text)

    def named(self, module: str, name: str) -> Meaning:
        """What a name means in a module: the term by which it is defined, if it is defined in these files."""
        module = self.imports.get(module, {}).get(name, module)
        if name in BUILT_IN or name not in self.definitions.get(module, {}):
            return Term(name)
        parameters, body = self.definitions[module][name]
        return Term(f'{module}.{name}') if parameters else self.meaning(module, Terms(body).term(), {})

    def applied(self, function: Meaning, arguments: tuple) -> Meaning:
        """What a function with its arguments means. It is computed if the function is defined in these files and has all its arguments."""
        module, dot, name = function.name.rpartition('.')
        arguments = function.arguments + arguments
        if name == 'map':
            return [self.applied(arguments[0], (it,)) for it in as_list(arguments[1])]
        if name in BUILT_IN:
            return BUILT_IN[name](*(it.name if isinstance(it, Term) else it for it in arguments))
        parameters, body = self.definitions[module][name] if dot and module in self.definitions else ([], '')
        if len(parameters) != len(arguments):
            return Term(function.name, arguments)
        return self.meaning(module, Terms(body).term(), dict(zip(parameters, arguments)))

    def rows(self, folder: str) -> Iterator[Row]:
        """The rows of all tables of examples. The first argument of a table is its reader, and the last one the examples."""
        for module, arguments in self.tables:
            kind, first, *others = Terms(arguments).term()
            reader, profiles = reader_of(self.meaning(module, first, {}))
            for text, outcome in as_list(self.meaning(module, others[-1], {})):
                for strict in profiles:
                    yield from rows_of_outcome(f'{folder}/{module}.antt', reader, strict, text, outcome)


def top_level(source: str) -> list[str]:
    """The lines that begin in the first column. Each has the indented lines after it. Comments are left out."""
    lines = [it for it in source.splitlines() if not it.lstrip().startswith('-- ')]
    found = []
    for line in lines:
        if line and not line[0].isspace() or not found:
            found.append(line)
        else:
            found[-1] += '\n' + line
    return found


def as_list(meaning: Meaning) -> list:
    """The meaning as a list. Raises ValueError if it is not a list."""
    if isinstance(meaning, list):
        return meaning
    raise ValueError(f'expected a list, found {meaning}')


def reader_of(meaning: Meaning) -> tuple[str, list[bool]]:
    """The reader and the profiles of an example. These are both profiles if the example has none, or any."""
    profile = meaning.arguments[0].name if meaning.arguments else ''
    name = 'duration' if meaning.name == 'parse_duration' else meaning.name
    return name, {'Crate': [False], 'Strict': [True]}.get(profile, [False, True])


def rows_of_outcome(path: str, reader: str, strict: bool, text: list, outcome: Meaning) -> Iterator[Row]:
    """The rows of a text and its outcome, for a handler that replies None. If a code unit is bad, there is a row for 16-bit text only. If
    all code units are from 1 to 126, there is a row for each width."""
    error, place = fault_of(text, outcome)
    units = tuple(it if isinstance(it, int) else BAD_UNIT for it in text)
    is_bad = BAD in text or Term(BAD) in text
    if not is_bad:
        yield Row(path, reader, strict, False, units, error, place, model_rows.DROP)
    if is_bad or all(1 <= it <= 126 for it in units):
        yield Row(path, reader, strict, True, units, error, place, model_rows.DROP)


def fault_of(text: list, outcome: Meaning) -> tuple[Optional[Error], Optional[int]]:
    """The error and the place of an outcome. The outcome has the rest of the text after the place."""
    if outcome.name != 'refused':
        return None, None
    name, where, fault = outcome.arguments[0].arguments
    location = bytes(fault.arguments[0]).decode() if fault.arguments else None
    return Error(fault.name, location), len(text) - len(as_list(where.arguments[0]))


ABRUPT = re.compile(r'^(abrupt_\w+) = AbruptEnd \(codes "(.*)"\)$', re.M)


# ---------------------------------------------------------------------------------------------------------------------------------
# Mutations

# a definition in a file of specs/, and an item outside of functions
OF_SPECS = re.compile(r'(?:(?:abbrev|unfoldable|record|data|pub) )*([^\W\d]\w*) (?:[^=:]* )?[:=] ')
OUTSIDE = re.compile(r'(?:pub(?:\([a-z]+\))? )?(?:struct|enum|const|static) (\w+)')


class Change(NamedTuple):
    """A change of a mutation: a file of the crate, and the text that is replaced in it."""
    path: str
    old: str


class Part(NamedTuple):
    """A part of a file: a function with the words of its `impl`, a definition, or another item. It has its text."""
    kind: str
    name: str
    owners: tuple[str, ...]
    text: str


def changes_of(edit: str) -> list[Change]:
    """The changes of a mutation. An `old` without a `file` before it is in the same file as the `old` before it."""
    found, path = [], ''
    for line in edit.splitlines():
        key, _, value = line.partition(': ')
        if key == 'file':
            path = value
        elif key == 'old':
            found.append(Change(path, value))
    return found


def end_of(lines: list[str], first: int) -> int:
    """The last line of an item that begins in line `first`: the first line that closes the item with the same indentation."""
    margin = lines[first][:len(lines[first]) - len(lines[first].lstrip())]
    for at in range(first, len(lines)):
        text = lines[at].rstrip()
        if text.startswith((margin + '}', margin + ']', margin + ')')) and text[-1] in '};' or text.startswith(margin + '{') and text.endswith('}'):
            return at
        if at == first and text[-1] in '};' and text.count('{') == text.count('}'):
            return at
    return len(lines) - 1


def functions_in(lines: list[str]) -> Iterator[tuple[int, int, Part]]:
    """The functions and the other items of a source, each with its first and its last line."""
    owners = ()
    for at, line in enumerate(lines):
        opens, function, item = (it.match(line) for it in (IMPL, FUNCTION, OUTSIDE))
        if opens:
            owners = tuple(re.findall(r'\w+', opens[1]))
        elif line.startswith('}'):
            owners = ()
        elif function or item:
            last = end_of(lines, at)
            kind = 'function' if function else 'item'
            yield at, last, Part(kind, (function or item)[1], owners, '\n'.join(lines[at:last + 1]))


def definitions_in(lines: list[str]) -> Iterator[tuple[int, int, Part]]:
    """The definitions in a file of specs/. Each goes from its first line to the line before the next definition."""
    begins = [(at, OF_SPECS.match(line)) for at, line in enumerate(lines) if line[:1].strip()] + [(len(lines), None)]
    for (at, definition), (following, _) in zip(begins, begins[1:]):
        if definition and not lines[at].startswith(('use ', '--')):
            yield at, following - 1, Part('definition', definition[1], (), '')


def part_of(path: str, source: str, old: str) -> Optional[Part]:
    """The innermost part of a source that contains a text. None if no part contains it, for example if it is an import. Raises ValueError
    if the source does not contain the text exactly once."""
    if source.count(old) != 1:
        raise ValueError(f'`{old}` occurs {source.count(old)} times in {path}, and must occur once')
    line = source.count('\n', 0, source.index(old))
    parts = definitions_in if path.endswith('.antt') else functions_in
    around = [(first, part) for first, last, part in parts(source.splitlines()) if first <= line <= last]
    return max(around, key=lambda it: it[0])[1] if around else None


def names_of(part: Part, source: str) -> Iterator[str]:
    """The names that a mutation of this part may have: the name of the part, or this name after a word of its `impl`. If the part is not a
    function, but for example a table, the names of the functions that use it are allowed too."""
    yield part.name
    yield from (f'{owner}.{part.name}' for owner in part.owners)
    if part.kind == 'item':
        yield from (it.name for _, _, it in functions_in(source.splitlines())
                    if it.kind == 'function' and re.search(rf'\b{part.name}\b', it.text))


def findings_in_edit(path: str, edit: str) -> Iterator[str]:
    """The reason if the name of a mutation does not say what it changes."""
    crate, name = path.split('/must-fail/')
    parts, named = [], []
    for change in changes_of(edit):
        if not change.path.startswith('proofs/'):
            try:
                source = read(f'{crate}/{change.path}')
                part = part_of(change.path, source, change.old)
            except (ValueError, OSError) as why:
                yield f'{path}: {why}'
                return
            file = os.path.splitext(os.path.basename(change.path))[0]
            parts += [f'{file}.{part.name}'] if part else []
            named += [f'{file}.{it}.' for it in names_of(part, source)] if part else []
    if not name.startswith(tuple(named)):
        yield f'{path}: it changes {" and ".join(sorted(set(parts))) or "no function"}'


def findings_in_edits() -> tuple[list[str], int]:
    """The findings in the mutations of all crates, and the number of mutations."""
    paths = [it for it in files('crates', '.edit') if '/must-fail/' in it]
    return [what for path in paths for what in findings_in_edit(path, read(path))], len(paths)


# ---------------------------------------------------------------------------------------------------------------------------------
# Comparisons

# the crates of the library whose functions have code units
LIBRARY = ('ixdtf_reading', 'ixdtf_times', 'ixdtf_brackets', 'ixdtf_durations', 'ixdtf')
# The functions that may compare, and how. The first one compares code units, and `has_same_units` counts these accesses. The second one compares
# a byte with a byte that was read. The third one compares the code units of a key with `u-ca`, and counts these accesses.
COMPARE = {('cursor', 'are_equal'): '==', ('cursor', 'fixed_letter'): '==', ('cursor', 'is_calendar_key'): 'check_calendar_key'}
NO_CODE = re.compile(r'//[^\n]*|b?"(?:[^"\\]|\\.)*"')
LITERAL = r"(?:b?'(?:[^'\\]|\\.)+'|\b\d\w*)"
EQUALITY = re.compile(rf'({LITERAL})?\s*(?<![<>=!])([=!]=)(?!=)\s*({LITERAL})?')
BY_METHOD = re.compile(r'(?:\.|::)(check_calendar_key|eq|ne|cmp|partial_cmp|starts_with|ends_with|contains|strip_prefix|strip_suffix)\s*(?:::<[^>]*>)?\(')


def comparisons_in(body: str) -> Iterator[str]:
    """The comparisons in a body that can compare code units: operators of which neither side is a literal, and calls of methods."""
    code = NO_CODE.sub(' ', body)
    yield from (found[2] for found in EQUALITY.finditer(code) if not (found[1] or found[3]))
    yield from (found[1] for found in BY_METHOD.finditer(code))


def findings_in_comparisons(path: str, source: str) -> Iterator[str]:
    """The comparisons of a source that are not in `COMPARE`."""
    file = os.path.splitext(os.path.basename(path))[0]
    for _, _, part in functions_in(source.splitlines()):
        if part.kind == 'function':
            yield from (f'{path}: {part.name} compares with `{mark}`. Only a function that counts the accesses may compare code units'
                        for mark in comparisons_in(part.text) if mark != COMPARE.get((file, part.name)))


def findings_in_readers() -> tuple[list[str], int]:
    """The findings in the comparisons of the library, and the number of its functions."""
    sources = {path: read(path) for crate in LIBRARY for path in files(f'crates/{crate}/src', '.rt')}
    found = [what for path, source in sources.items() for what in findings_in_comparisons(path, source)]
    return found, sum(part.kind == 'function' for source in sources.values() for _, _, part in functions_in(source.splitlines()))


# ---------------------------------------------------------------------------------------------------------------------------------
# All of it

def read(path: str) -> str:
    """The content of a file."""
    with open(os.path.join(ROOT, path), encoding='utf-8') as file:
        return file.read()


def files(folder: str, ending: str) -> list[str]:
    """The files in a folder, and in the folders in it, whose names have this ending. What was built is left out."""
    found = []
    for at, folders, names in os.walk(os.path.join(ROOT, folder)):
        folders[:] = [it for it in folders if it != 'out']
        found += [os.path.relpath(os.path.join(at, it), ROOT) for it in names if it.endswith(ending)]
    return sorted(found)


def rows_of_proofs() -> Iterator[Row]:
    """The rows of the computed examples."""
    folder = 'crates/ixdtf_tests/proofs'
    sources = {os.path.basename(it).removesuffix('.antt'): read(it) for it in files(folder, '.antt') if os.path.dirname(it) == folder}
    proofs = Proofs(sources)
    lines = read('crates/ixdtf_grammar/specs/table/Lines.antt')
    errors = {name: ([], f'AbruptEnd (codes "{location}")') for name, location in ABRUPT.findall(lines)}
    for definitions in proofs.definitions.values():
        definitions.update(errors)
    yield from proofs.rows(folder)


def all_rows() -> dict[str, list[Row]]:
    """The rows of the examples and of the proofs."""
    return {
        'examples': [row for path in files('crates', '.rt') if '/src/' in path for row in rows_of_examples(path, read(path))],
        'proofs': list(rows_of_proofs()),
    }


def main() -> int:
    """Compares the rows, and prints the findings. Returns the exit status."""
    found, cases = findings_in_tables()
    rows = all_rows()
    found += [it for of_source in rows.values() for row in of_source for it in findings(row)]
    counts = {'tables': cases, **{source: len(of_source) for source, of_source in rows.items()}}
    found += [f'{source}: {counts[source]} rows were read, and at least {least} were expected' for source, least in LEAST.items() if counts[source] < least]
    of_edits, edits = findings_in_edits()
    of_readers, functions = findings_in_readers()
    found += of_edits + of_readers
    for it in found:
        print(it)
    print(f'rows: {", ".join(f"{count} of {source}" for source, count in counts.items())}; {edits} edits; {functions} functions of readers; {len(found)} findings')
    return 1 if found else 0


if __name__ == '__main__':
    sys.exit(main())
