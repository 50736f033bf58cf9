#!/usr/bin/env python3
"""check_documents.py: checks that the names, counts and examples in the documents are right.

(a) Names. Each of these must exist: each file and directory that a document names, each item in back-quotes, and each target of a link,
with its heading. "`name` of `File.antt`" means that this file defines the name. "`name` of `item`" means that the item has a clause, a
field or a function of this name. Each count that matches `COUNTS` must be right. In a table with a column `Clause`, each function must have
the clauses of its row, and each clause must have the fields in parentheses after it. If the table also has a column `File`, the files of a
row must be those that contain these contracts; files of tests are allowed too. The files in which docs/TRUST.md has people read contracts
must be those with the contracts of its tables. Each line of a table must begin and end with a bar.

(b) Examples. The lines of docs/FAULTS.md must be those of the model places.py: their names, what can follow, and their errors. Each
example is a text with the position of its error (`place` in this file). It must have this error at this position in the model, and in
tests/refused.tsv, in which a person counted the positions. The errors must have the texts that they have in the code and in the model, and the
readers that they have in the model. Each reason must have one row with its messages, and these must be the messages that wording.rt has.
The hints must be those that hint.rt and the files in hint/ have, and each example of a hint must have this hint in the model.

(c) Snippets. Each block of Rattle or Rust in README.md and docs/CALLING.md must be in a crate of tests or in an example of rust/ixdtf,
which are compiled: all of its items, word by word, and all of its imports. The blocks in the READMEs of `rust/` are tests of their crates.

The tool prints one line for each finding. The exit status is 1 if there is a finding."""
import fnmatch
import os
import re
import sys
from functools import cache, cached_property
from typing import Iterator, NamedTuple, Optional

TOOLS = os.path.dirname(os.path.abspath(__file__))
sys.path.insert(0, TOOLS)
import places
from places import Error, Fault

ROOT = os.path.dirname(TOOLS)

# names that a document may have although they are not in the repository, and where they come from
EXCEPTIONS = {
    'Rattle.std.specs': 'from the toolchain',
    'NonZeroU8': "from Rust's library",
    'BufRead': "from Rust's library",
    'assert_syntax': 'from `ixdtf` 0.6.7',
    'c/out': 'made by c/build',
    'must-fail/FILE.FUNCTION.what_it_does.edit': 'a pattern for the names of mutations',
}
# programs from outside: in a command of one of these, only paths are checked
COMMANDS = ('rt', 'cargo', 'python3', 'node', 'npm', 'bash', 'git', 'cd', 'gcc', 'clang', 'cc', 'wc', 'grep', 'nm', 'valgrind', 'rustc')
# the column with names from the standards, and the columns with names that a document defines
OF_STANDARDS = 'From'
GIVEN = ('Class', 'Production')

CODE = ('.rt', '.antt', '.rs', '.py', '.c', '.h', '.toml', '.txt', '.tsv', '.edit', '.sh', '.mjs', '.ts')
EXTENSIONS = CODE + ('.md',)
PASSED_OVER = {'.git', 'out', 'target', '__pycache__'}
OWN_FILES = {'tools/check_documents.py', 'tools/test_check_documents.py'}


class Finding(NamedTuple):
    """What is wrong, and in which line of a document."""
    document: str
    line: int
    what: str

    def __str__(self) -> str:
        return f'{self.document}:{self.line}: {self.what}'


# ---------------------------------------------------------------------------------------------------------------------------------
# The repository

class Tree:
    """The files of the repository, and the names in their code."""

    def __init__(self, root: str):
        self.root = root
        self.files = sorted(self.walk())

    def walk(self) -> Iterator[str]:
        """The paths of all files. What was built is left out."""
        for folder, folders, files in os.walk(self.root):
            folders[:] = [it for it in folders if it not in PASSED_OVER]
            for name in files:
                yield os.path.relpath(os.path.join(folder, name), self.root).replace(os.sep, '/')

    @cache
    def read(self, path: str) -> str:
        """The content of a file."""
        with open(os.path.join(self.root, path), encoding='utf-8', errors='replace') as file:
            return file.read()

    def documents(self) -> list[str]:
        """The documents."""
        return [it for it in self.files if it.endswith('.md')]

    def code(self) -> list[str]:
        """The files of code."""
        return [it for it in self.files if it not in OWN_FILES and (it.endswith(CODE) or '.' not in os.path.basename(it)
                                                                     or it.startswith('.ci/'))]

    @cached_property
    def paths(self) -> set[str]:
        """All files and directories, each by all endings of its path."""
        whole = set(self.files) | {os.path.dirname(it) for it in self.files}
        whole |= {parent for it in self.files for parent in parents(it)}
        return {'/'.join(parts[at:]) for it in whole for parts in [it.split('/')] for at in range(len(parts))}

    @cached_property
    def names(self) -> set[str]:
        """All words in the code, in its comments and in the paths."""
        words = {word for path in self.code() for word in WORD.findall(self.read(path))}
        return words | {word for it in self.files for word in WORD.findall(it)}

    @cached_property
    def given(self) -> set[str]:
        """The names that documents define, for example the names of productions."""
        rows = (row for it in self.documents() for _, row in Document(self, it).tables())
        return {row[head] for row in rows for head in GIVEN if head in row}

    def has_name(self, name: str) -> bool:
        """Whether the code or a document has the name. If the name begins with `_`, whether the code has a name with this ending."""
        return name in self.names or name in self.given or name.startswith('_') and any(it.endswith(name) for it in self.names)

    @cached_property
    def contracts(self) -> 'Contracts':
        """The contracts of the code."""
        return Contracts({it: self.read(it) for it in self.files if it.startswith('crates/') and it.endswith('.rt')}, self.promises)

    @cached_property
    def promises(self) -> dict[str, dict[str, str]]:
        """For each record that is a clause of a reader: what its fields say."""
        found, record = {}, {}
        for path in (it for it in self.files if it.endswith(('specs/Promises.antt', 'specs/LocatedPromises.antt'))):
            for line in self.read(path).splitlines():
                begins, field = re.match(r'pub record (\S+)', line), re.match(r'  pub (\S+) : (.*)', line)
                if begins:
                    record = found.setdefault(begins[1], {})
                elif field:
                    record[field[1]] = field[2]
        return found

    @cached_property
    def fields(self) -> dict[str, set[str]]:
        """The fields of all records in definitions."""
        found = {}
        for path in (it for it in self.files if it.endswith('.antt')):
            for name, body in re.findall(r'^(?:pub )?record (\S+)[^\n]*(?:\n +\(.*)*\n((?:  pub .*\n?)*)', self.read(path), re.M):
                found.setdefault(name, set()).update(re.findall(r'^  pub (\S+) :', body, re.M))
        return found

    def has_path(self, path: str) -> bool:
        """Whether there is a file or a directory with this path, from the top or from any directory."""
        return all(any(fnmatch.fnmatchcase(it, one) for it in self.paths) if '*' in one else one in self.paths
                   for one in expanded(path.rstrip('/')))

    def is_part(self, name: str, item: str) -> bool:
        """Whether an item has this clause, field or function. The answer is yes for a crate, and for an item about which nothing is known."""
        clauses, fields = self.contracts.found.get(item), self.fields.get(item)
        return (clauses is None and fields is None or f'crates/{item}' in self.paths or name == 'impl' or name in (clauses or {})
                or name in (fields or ()) or f'{item}::{name}' in self.contracts.found)

    def defines(self, path: str, name: str) -> bool:
        """Whether a file with this path defines the name."""
        return any(is_defined(self.read(it), name) for it in self.files if ('/' + it).endswith('/' + path))


WORD = re.compile(r'[A-Za-z_]\w*')


def parents(path: str) -> Iterator[str]:
    """The directories that a file is in."""
    while '/' in path:
        path = path.rsplit('/', 1)[0]
        yield path


def expanded(path: str) -> list[str]:
    """The paths that a path with `{a, b}` stands for."""
    braces = re.fullmatch(r'(.*)\{(.*)\}(.*)', path)
    return [braces[1] + it.strip() + braces[3] for it in braces[2].split(',')] if braces else [path]


def is_defined(content: str, name: str) -> bool:
    """Whether the code defines the name as an item, a field, a constructor or a definition."""
    of_item = r'(?:abbrev|unfoldable|record|data|pub|fn|struct|enum|trait|type|const|mod|impl|use|ghost)'
    return re.search(rf'^\s*(?:{of_item}(?:\([a-z]+\))?\s+)+{re.escape(name)}\b|^\s+(?:[\w-]+ )*{re.escape(name)}(?: [\w-]+)* :|'
                     rf'^{re.escape(name)} :', content, re.M) is not None


# ---------------------------------------------------------------------------------------------------------------------------------
# Contracts

class Contract(NamedTuple):
    """The clauses of a function or an `impl`: for each name, its text. A clause without a name has the name ''."""
    owner: str
    clauses: dict[str, str]


RECORD_READERS = ['IxdtfParser::' + it for it in ('parse', 'parse_rfc9557', 'parse_year_month', 'parse_month_day', 'parse_time')]
HANDLER_READERS = [it + '_with_annotation_handler' for it in RECORD_READERS]
ZONE_READERS = ['TimeZoneParser::' + it for it in ('parse_offset', 'parse_identifier', 'parse_iana_identifier')]
DURATION_READERS = ['IsoDurationParser::parse']
DATE_TIME_READERS = ['IxdtfParser::parse_rfc3339']
GROUPS = {
    'each reader': RECORD_READERS + HANDLER_READERS + DATE_TIME_READERS + ZONE_READERS + DURATION_READERS,
    'record': RECORD_READERS,
    'handler': HANDLER_READERS,
    'part': DATE_TIME_READERS + ZONE_READERS + DURATION_READERS,
    'profile': RECORD_READERS + HANDLER_READERS + DATE_TIME_READERS + DURATION_READERS,
    'text': RECORD_READERS + HANDLER_READERS + DURATION_READERS,
}


def members(group: str) -> list[str]:
    """The functions of a group. Raises KeyError if there is no such group."""
    located = [it + '_located' for it in GROUPS[group.removesuffix(' located')]]
    return located if group.endswith(' located') else GROUPS[group] + located


class Contracts:
    """The contracts of the code. Each function is found by its name, also with its type or its file before it. Each `impl` has a contract
    too. If a clause is a record of `promises`, the fields of this record are clauses too."""

    def __init__(self, sources: dict[str, str], promises: dict[str, dict[str, str]] = {}):
        self.found, self.files = {}, {}
        for path, source in sources.items():
            module = os.path.basename(path).removesuffix('.rt')
            for contract in contracts_of(source):
                clauses = dict(contract.clauses)
                for said in contract.clauses.values():
                    promise = re.match(r'\s*(\w+)', said)
                    clauses.update(promises.get(promise[1], {}) if promise else {})
                for name in {contract.owner, contract.owner.split('::')[-1], f'{module}::{contract.owner}'}:
                    self.found.setdefault(name, {}).update(clauses)
                    for clause in clauses:
                        self.files.setdefault((name, clause), set()).add(path)

    def missing(self, owner: str, clause: str) -> Optional[str]:
        """What is missing: the function, or its clause. None if nothing is missing."""
        if owner not in self.found:
            return f'no function `{owner}`'
        return None if clause in self.found[owner] else f'`{owner}` has no clause {f"`{clause}`" if clause else "without a name"}'


IMPL = re.compile(r'(?:impl|(?:pub )?trait)\b(.*)')
FUNCTION = re.compile(r'\s*(?:pub(?:\([a-z]+\))? )?(?:const |unsafe |extern "C" )*fn (\w+)')
CLAUSE = re.compile(r'\s*(?:ensures|requires)\s+(?:(\w+)\s+)?\{(.*)')
OF_IMPL = re.compile(r'    ghost (\w+)(?: =|:)(.*)')


def contracts_of(source: str) -> list[Contract]:
    """The contracts of a file, in order. The clauses of the functions of an `impl` are clauses of the `impl` too."""
    found, of_impl, clause = [Contract('', {})], Contract('', {}), None
    for line in source.splitlines():
        opens, function, begins, of_ghost = (it.match(line) for it in (IMPL, FUNCTION, CLAUSE, OF_IMPL))
        if opens or function or line.strip() in ('{', '{}', '}', ''):
            clause = None
        if opens or line.startswith('}'):
            of_impl = Contract(owner_of(opens[1]) if opens else '', {})
            found.append(of_impl)
        elif function:
            found.append(Contract(f'{of_impl.owner}::{function[1]}' if of_impl.owner else function[1], {}))
        elif begins:
            clause = begins[1] or ''
            found[-1].clauses[clause] = of_impl.clauses[clause] = begins[2]
        elif of_ghost:
            of_impl.clauses[of_ghost[1]] = of_ghost[2]
        elif clause is not None:
            found[-1].clauses[clause] += line
    return found


def owner_of(head: str) -> str:
    """The name of an `impl`, from its head: its type, or `Trait for Type`. The type is without its generics and its path."""
    depth, at = 0, 0
    if head.startswith('<'):
        for at, letter in enumerate(head, 1):
            depth += (letter == '<') - (letter == '>')
            if depth == 0:
                break
    head = re.sub(r'\s*(\{.*|where.*)?$', '', head[at:]).strip()
    head = re.sub(r':(?!:).*', '', re.sub(r'\w+::', '', head))
    trait, space, name = head.rpartition(' for ')
    return trait + space + re.sub(r'<.*', '', name)


# ---------------------------------------------------------------------------------------------------------------------------------
# Documents

RULE = re.compile(r'\|?-+(\|-+)+\|?')


class Document:
    """A document: its lines outside of blocks of code, with their numbers, and its headings."""

    def __init__(self, tree: Tree, path: str):
        self.tree, self.path = tree, path
        self.text = tree.read(path)
        self.lines = list(self.outside_of_code())

    def outside_of_code(self) -> Iterator[tuple[int, str]]:
        """The lines that are not in a block of code."""
        inside = False
        for number, line in enumerate(self.text.splitlines(), 1):
            if line.lstrip().startswith('```'):
                inside = not inside
            elif not inside:
                yield number, line

    def anchors(self) -> set[str]:
        """The anchors of the headings."""
        heads = (re.sub(r'^#+ ', '', line) for _, line in self.lines if re.match(r'#+ ', line))
        return {re.sub(r'[^\w\- ]', '', it.lower()).replace(' ', '-') for it in heads}

    def tables(self) -> Iterator[tuple[int, dict[str, str]]]:
        """The rows of all tables, each with the number of its line. A row has its cells by the heads of their columns."""
        heads, rule = None, None
        for at, (number, line) in enumerate(self.lines):
            follows = self.lines[at + 1][1] if at + 1 < len(self.lines) else ''
            if RULE.fullmatch(follows.strip()):
                heads, rule = cells_in_line(line), number + 1
            elif heads is not None and '|' not in line:
                heads = None
            elif heads is not None and number != rule:
                cells = cells_in_line(line)
                yield number, dict(zip(heads, cells + [''] * (len(heads) - len(cells))))


def findings_in_layout(document: Document) -> Iterator[Finding]:
    """The lines of tables that do not begin and end with a bar. Some programs that display Markdown need these bars."""
    lines = dict(document.lines)
    rules = [number for number, line in document.lines if RULE.fullmatch(line.strip())]
    for number in sorted({it for it, _ in document.tables()} | set(rules) | {it - 1 for it in rules}):
        line = lines[number].strip()
        if not line.startswith('|') or not line.endswith('|'):
            yield Finding(document.path, number, 'a line of a table must begin and end with a bar')


def cells_in_line(line: str) -> list[str]:
    """The cells of a row of a table. The row may have bars at its ends."""
    line = line.strip()
    line = line[1:] if line.startswith('|') else line
    line = line[:-1] if line.endswith('|') else line
    return [it.strip() for it in line.split('|')]


SPAN = re.compile(r'`([^`]+)`')
LINK = re.compile(r'\]\(([^)\s]+)\)')
PATH = re.compile(r'[\w.{][\w./*-]*(?:\{[^}]*\}[\w./*-]*)?')
TOP = ('crates/', 'docs/', 'tools/', 'rust/', 'c/', '.ci/', 'src/', 'specs/', 'proofs/', 'must-fail/', 'tests/')
ITEM = re.compile(r"&?(?:mut )?[A-Za-z_]\w*(?:(?:::|\.)[A-Za-z_]\w*)*(?: \w+){0,2}(?:<[\w<>:', &]*>)?(?:\([\w&:', ]*\))?(?:::\w+)*!?")
OF_ITEM = re.compile(r'((?:`[a-z_]\w*`(?:, and |, | and )?)+) of (?:the )?`([A-Za-z_]\w*)`')
# the sentence before a block that is a file of an example
SHOWN_FILE = re.compile(r'The file `([^`]+)` has these lines:')
OF_FILE = re.compile(r'((?:`[^`]+`(?:, and |, | and )?)+) of `([\w/]+\.(?:antt|rt))`')


def findings_in_names(document: Document) -> Iterator[Finding]:
    """The names in a document that do not exist."""
    tree = document.tree
    rows = dict(document.tables())
    shown = {file for _, line in document.lines for file in SHOWN_FILE.findall(line)}
    for number, line in document.lines:
        of_standards = set(SPAN.findall(rows.get(number, {}).get(OF_STANDARDS, '')))
        for span in (it for it in SPAN.findall(line) if it not in of_standards | shown):
            what = missing_in_span(tree, span)
            if what:
                yield Finding(document.path, number, what)
        for names, file in OF_FILE.findall(line):
            for name in (it.split(' ')[0] for it in SPAN.findall(names)):
                if WORD.fullmatch(name) and not tree.defines(file, name):
                    yield Finding(document.path, number, f'`{name}` is not defined in `{file}`')
        for names, item in OF_ITEM.findall(line):
            for name in SPAN.findall(names):
                if not tree.is_part(name, item):
                    yield Finding(document.path, number, f'`{item}` has no `{name}`')
        for target in LINK.findall(line):
            what = missing_in_link(document, target)
            if what:
                yield Finding(document.path, number, what)


def missing_in_span(tree: Tree, span: str) -> Optional[str]:
    """What does not exist, of the names in a span."""
    if span in EXCEPTIONS:
        return None
    paths = [it for it in re.split(r' (?![^{]*\})', span) if PATH.fullmatch(it) and (it.endswith(EXTENSIONS) or it.startswith(TOP))]
    for path in paths:
        if path not in EXCEPTIONS and not tree.has_path(path):
            return f'no file `{path}`'
    if paths or span.split(' ')[0] in COMMANDS or not ITEM.fullmatch(span):
        return None
    words = [it for it in WORD.findall(span) if it not in EXCEPTIONS and not it.isupper() and not tree.has_name(it)]
    return f'no item `{words[0]}`{f" in `{span}`" if words != [span] else ""}' if words else None


def missing_in_link(document: Document, target: str) -> Optional[str]:
    """What does not exist, of the target of a link."""
    if re.match(r'[a-z]+:', target):
        return None
    file, _, anchor = target.partition('#')
    path = os.path.normpath(os.path.join(os.path.dirname(document.path), file)) if file else document.path
    if path not in document.tree.paths:
        return f'no file {target}'
    if anchor and anchor not in Document(document.tree, path).anchors():
        return f'no heading {target}'
    return None


def findings_in_clauses(document: Document) -> Iterator[Finding]:
    """The clauses that a table names and no contract has."""
    for number, row in document.tables():
        for head, cell in row.items():
            for owner, clause, fields in clauses_in(head, cell):
                for what in missing_clauses(document.tree, owner, clause, fields):
                    yield Finding(document.path, number, what)


NAMED_CLAUSE = re.compile(r'(?:`(\w+)`|\*\(unnamed\)\*)(?: \((`\w+`(?:, `\w+`)*)\))?')


def clauses_in(head: str, cell: str) -> Iterator[tuple[str, str, list[str]]]:
    """For each clause that a cell names: its function or *group*, its name and its fields. In a column `Clause`, each function comes before
    its clauses. In a column "Clause of `function`", there are only the clauses."""
    of_one = re.fullmatch('Clause of (`.*`)', head)
    if of_one:
        yield from ((of_one[1], clause, []) for clause in SPAN.findall(cell))
    for part in cell.split('; ') if head == 'Clause' else []:
        subject = re.match(r'(\*[\w ]+\*|`[^`]+`): (.*)', part)
        if subject:
            for clause, fields in NAMED_CLAUSE.findall(subject[2]):
                yield subject[1], clause, re.findall(r'\w+', fields)


def missing_clauses(tree: Tree, owner: str, clause: str, fields: list[str]) -> Iterator[str]:
    """What does not exist: a function, its clause, or a field of the clause."""
    if owner.startswith('*') and owner.strip('*').removesuffix(' located') not in GROUPS:
        yield f'no group {owner}'
        return
    for name in members(owner.strip('*')) if owner.startswith('*') else [owner.strip('`')]:
        what = tree.contracts.missing(name, clause)
        if what:
            yield what
            continue
        said = {field for word in WORD.findall(tree.contracts.found[name][clause]) for field in tree.fields.get(word, ())}
        for field in fields:
            if field not in said:
                yield f'`{clause}` of `{name}` has no field `{field}`'


def findings_in_files(document: Document) -> Iterator[Finding]:
    """The files that a row names and that have no contract of the row, and the contracts of the row that are in none of its files."""
    for number, row in document.tables():
        named = [it for it in SPAN.findall(row.get('File', '')) if it.endswith('.rt')]
        contracts = set(contracts_in(document.tree, row)) if 'File' in row else set()
        for path in sorted({path for _, path in contracts if not any(is_at_the_end(path, it) for it in named)}):
            names = sorted({name for name, at in contracts if at == path})
            yield Finding(document.path, number, f'the contract of `{names[0]}` is in {path}, which the row does not name')
        for it in named:
            if not any(is_at_the_end(path, it) for _, path in contracts) and not is_of_tests(document.tree, it):
                yield Finding(document.path, number, f'`{it}` has no contract that the row names')


def contracts_in(tree: Tree, row: dict[str, str]) -> Iterator[tuple[str, str]]:
    """The functions whose clauses a row names, each with the file of its contract."""
    for owner, clause, _ in clauses_in('Clause', row.get('Clause', '')):
        group = owner.strip('*').removesuffix(' located')
        for name in (members(owner.strip('*')) if group in GROUPS else []) if owner.startswith('*') else [owner.strip('`')]:
            for path in tree.contracts.files.get((name, clause), ()):
                yield name, path


def is_at_the_end(path: str, end: str) -> bool:
    """Whether a path ends with these directories and this file."""
    return ('/' + path).endswith('/' + end)


def is_of_tests(tree: Tree, name: str) -> bool:
    """Whether a file of tests or of examples has this name."""
    return any(is_at_the_end(it, name) for it in tree.files if it.startswith(COMPILING))


# ---------------------------------------------------------------------------------------------------------------------------------
# Counts

NUMBERS = ['no', 'one', 'two', 'three', 'four', 'five', 'six', 'seven', 'eight', 'nine', 'ten', 'eleven', 'twelve']
A_COUNT = r'(\d[\d,]*|' + '|'.join(NUMBERS) + ')'
NO_DEFINITIONS = ('Lib.antt', 'language.antt', 'table.antt', 'FixedPlaces.antt')


def value_of(count: str) -> int:
    """The number that a count means. The count has digits, or is a word."""
    return NUMBERS.index(count.lower()) if count.lower() in NUMBERS else int(count.replace(',', ''))


OF_DEFINITIONS = ('crates/ixdtf_grammar/specs/', 'crates/ixdtf_explanations/specs/')


def definitions(tree: Tree) -> list[str]:
    """The files of the definitions to which public clauses refer."""
    return [it for it in tree.files if it.startswith(OF_DEFINITIONS) and os.path.basename(it) not in NO_DEFINITIONS]


def lines_of_definitions(tree: Tree) -> list[str]:
    """The lines of the files of the definitions."""
    return [line for it in definitions(tree) for line in tree.read(it).splitlines()]


def edits(tree: Tree) -> list[str]:
    """The mutations, which the prover must refuse."""
    return [it for it in tree.files if it.endswith('.edit')]


def is_of_a_definition(tree: Tree, path: str) -> bool:
    """Whether a mutation changes a definition, and not a function body."""
    return '\nfile: specs/' in tree.read(path)


def variants(tree: Tree) -> list[str]:
    """The variants of `ParseError`."""
    body = re.search(r'pub enum ParseError \{(.*?)\n\}', tree.read('crates/ixdtf_grammar/src/error.rt'), re.S)[1]
    return re.findall(r'^    (\w+)(?:,| \{)', body, re.M)


def never_come(tree: Tree) -> list[str]:
    """The errors that no reader returns."""
    return re.findall(r'^never_comes (\w+) = true', tree.read('crates/ixdtf_grammar/specs/table/Faults.antt'), re.M)


# documents in which the same words count other things
OWN_COUNTS = {'docs/NUMBERS.md'}
COUNTS = [(re.compile(pattern, re.I), counted) for pattern, counted in [
    (rf'{A_COUNT} variants', lambda tree: len(variants(tree))),
    (r'the (\d+) errors', lambda tree: len(variants(tree))),
    (rf'{A_COUNT} of the \d+ errors', lambda tree: len(never_come(tree))),
    (rf'the {A_COUNT} with "none"', lambda tree: len(never_come(tree))),
    (rf'there are {A_COUNT} readers', lambda tree: len(members('each reader'))),
    (rf'{A_COUNT} mutations of function bodies', lambda tree: len([it for it in edits(tree) if not is_of_a_definition(tree, it)])),
    (rf'mutations of function bodies, and {A_COUNT} of definitions',
     lambda tree: len([it for it in edits(tree) if is_of_a_definition(tree, it)])),
    (rf'{A_COUNT} mutations change a definition', lambda tree: len([it for it in edits(tree) if is_of_a_definition(tree, it)])),
    (rf'have {A_COUNT} lines, of which', lambda tree: len(lines_of_definitions(tree))),
    (rf'of which {A_COUNT} are definitions',
     lambda tree: len([it for it in lines_of_definitions(tree) if it and not it.startswith(('use ', '--'))])),
]]


def findings_in_counts(document: Document) -> Iterator[Finding]:
    """The counts that are wrong."""
    for number, line in document.lines if document.path not in OWN_COUNTS else []:
        for pattern, counted in COUNTS:
            for said in pattern.finditer(line):
                if value_of(said[1]) != counted(document.tree):
                    yield Finding(document.path, number, f'"{said[0]}": there are {counted(document.tree)}')


def findings_in_reading_order(document: Document) -> Iterator[Finding]:
    """The files of definitions that are missing in the order of reading."""
    named = {span for _, line in document.lines if re.match(r'\d\. ', line) for span in SPAN.findall(line)}
    for path in definitions(document.tree):
        if os.path.basename(path).removesuffix('.antt') not in named:
            yield Finding(document.path, 1, f'{path} is missing in the order of reading')
    yield from findings_in_contracts_to_read(document)


def findings_in_contracts_to_read(document: Document) -> Iterator[Finding]:
    """The differences between the files in which people should read contracts, and the files with the contracts of the tables."""
    wanted = {path for _, row in document.tables() for _, path in contracts_in(document.tree, row)}
    for number, line in document.lines:
        if line.startswith('Then read the contracts'):
            named = [it for it in SPAN.findall(line) if it.endswith('.rt')]
            for path in sorted(it for it in wanted if not any(is_at_the_end(it, name) for name in named)):
                yield Finding(document.path, number, f'{path} has contracts that the tables name, but is not one of the files to read')
            for name in named:
                if not any(is_at_the_end(path, name) for path in wanted):
                    yield Finding(document.path, number, f'`{name}` has no contract that the tables name')


# ---------------------------------------------------------------------------------------------------------------------------------
# Snippets

WITH_SNIPPETS = ('README.md', 'docs/CALLING.md')
COMPILING = ('crates/ixdtf_callers/src/', 'crates/ixdtf_tests/src/', 'rust/ixdtf/examples/')
BLOCK = re.compile(r'^```rust\n(.*?)^```', re.M | re.S)
USE = re.compile(r'^use ([^;]+);\n?', re.M)


def imported(source: str) -> set[str]:
    """The paths that the `use` items of a source import."""
    found = set()
    for it in USE.findall(source):
        path, braces, names = re.sub(r'\s+', ' ', it).partition('{')
        found |= {(path + name.strip()).removesuffix('::self') for name in names.rstrip('}').split(',') if name.strip()} if braces else {path}
    return found


def in_one_line(source: str) -> str:
    """A source with one space between its words."""
    return ' '.join(source.split())


def findings_in_snippets(document: Document) -> Iterator[Finding]:
    """The blocks of Rattle or Rust that are in no crate of tests and in no example."""
    compiled = [document.tree.read(it) for it in document.tree.files if it.startswith(COMPILING) and it.endswith(('.rt', '.rs'))]
    imports = set().union(*map(imported, compiled))
    for block in BLOCK.finditer(document.text):
        line = document.text.count('\n', 0, block.start()) + 1
        for path in sorted(imported(block[1]) - imports):
            yield Finding(document.path, line, f'no test and no example imports {path}')
        items = in_one_line(USE.sub('', block[1]))
        if not any(items in in_one_line(it) for it in compiled):
            yield Finding(document.path, line, 'no test and no example has the code of this block')


# ---------------------------------------------------------------------------------------------------------------------------------
# The fault table

LOCATIONS = {'digit', 'Date', 'MonthDay', 'time-numoffset', 'TimeZoneAnnotation', 'AmbiguousAnnotation', 'DurationStart',
             'DurationDesignator', 'Duration', 'DateDurationDesignator'}
CLASSES = {'digit': places.DIGIT, 'sign': places.SIGN, 'Sign': places.SIGN, 'space': ' ', 'any code unit': places.ANY_LETTER,
           'nothing': places.NOTHING, 'ZoneLead': places.ZONE_LEAD, 'ZoneChar': places.ZONE_CHAR, 'KeyLead': places.KEY_LEAD,
           'KeyChar': places.KEY_CHAR, 'ValueChar': places.VALUE_CHAR, 'DateUnit': places.DATE_UNIT, 'TimeUnit': places.TIME_UNIT}
CLOCK_LINES = ('hour_', 'after_hour', 'minute_', 'after_basic_minute', 'after_colon_minute', 'second_', 'after_second',
               'fraction_start', 'after_fraction')
BRACKETS = ['parse', 'parse_rfc9557', 'parse_year_month', 'parse_month_day', 'parse_time']
NAMES_OF_READERS = {'none': [], 'brackets': BRACKETS, 'durations': ['duration'], 'all': list(places.READERS[False])}
Row = dict[str, str]


def is_clock_line(name: str) -> bool:
    """Whether there is a line with this name for each clock."""
    return name.startswith(CLOCK_LINES) and name != 'after_fraction_group'


def error_in(cell: str) -> Optional[Error]:
    """The error that a cell names. None if it names no error."""
    named = re.search(r'`([^`]*)`', cell)
    if cell == 'ok' or named is None:
        return None
    return Error('AbruptEnd', named[1]) if named[1] in LOCATIONS or '*abrupt*' in cell else Error(named[1])


def letters_in(cell: str) -> Optional[frozenset[str]]:
    """The code units that can follow, as a cell says. None for a whole line."""
    if cell == 'whole':
        return None
    parts = re.findall(r'`([^`]*)`|(\w[\w ]*)', cell)
    return frozenset(it for letter, name in parts for it in (letter or of_class(CLASSES[name])))


def of_class(letters: str) -> frozenset[str]:
    """The code units of a class."""
    return frozenset(chr(it) for it in range(256) if letters and re.match(places.one(letters), chr(it)))


def others_in(cell: str) -> frozenset[tuple[str, Error]]:
    """The errors that a cell names for other code units: for one code unit, or for all others (then the text is empty)."""
    special = re.match(r'(.*) at `(.)`(?: or a digit)?, else (.*)', cell)
    if special:
        return frozenset([(special[2], error_in(special[1])), ('', error_in(special[3]))])
    return frozenset() if cell in ('', 'none') else frozenset([('', error_in(cell))])


def cells_of(line: places.Line) -> tuple:
    """What can follow in a line of the model, and its errors at the end and at other code units."""
    others = frozenset(('' if letters == places.ANY_LETTER else letters.removeprefix('\\'), error) for letters, error in line.other)
    return None if line.goes_on is None else of_class(line.goes_on), line.end, others


class Such(NamedTuple):
    """An example text of a line, its error if the table gives it, and its place."""
    text: str
    error: Optional[Error]
    place: int
    strict: bool


SUCH = re.compile(r'(strict: )?(?:`([^`]*)`|the empty text|nothing)(?:: ((?:\*abrupt\* )?`[^`]*`))? at (\d+)(?:, but not strictly)?')


def such_as(cell: str) -> Iterator[Such]:
    """The example texts of a cell. Raises ValueError if one of them is not written in the right form."""
    for part in cell.split('; ') if cell else []:
        such = SUCH.fullmatch(part)
        if such is None:
            raise ValueError(f'expected a text and its position, found: {part}')
        strict, text, error, place = such.groups()
        yield Such(text or '', error and error_in(error), int(place), strict is not None)


class Said(NamedTuple):
    """An example of the table: the names of its lines, the reader if the table gives it, the complete text, and its error and place."""
    lines: list[str]
    reader: Optional[str]
    units: tuple[int, ...]
    wide: bool
    strict: bool
    fault: Fault


def said_in_row(row: Row) -> Iterator[Said]:
    """The examples of a row with lines. If an example has no error of its own, its error is that of the row, for the end of the text or for
    another code unit."""
    lines = SPAN.findall(row['Line'])
    for head in (it for it in row if it.startswith(('Such as', '`parse'))):
        reader, before = re.search(r'`(parse\w*)`', head), re.search(r'after `([^`]*)`', head)
        for such in such_as(row[head]):
            text = (before[1] if before else '') + such.text
            error = such.error or implied_error(row, text, such.place)
            yield Said(lines, reader and reader[1], tuple(map(ord, text)), False, such.strict, Fault(error, such.place))


def implied_error(row: Row, text: str, place: int) -> Optional[Error]:
    """The error of a row at this place of a text: that for the end, or for another code unit. None if the clock decides it."""
    if row.get('Goes on with') == 'whole' or place == len(text):
        return error_in(row.get('End', ''))
    at_units = dict(others_in(row.get('Other', '')))
    return at_units.get(text[place], at_units.get(''))


NAMED = re.compile(r'`(?P<reader>parse\w*|IsoDurationParser::parse)` of (?P<wide>the 16-bit units of )?`(?P<text>[^`]*)`: '
                   r'(?P<error>`\w*`) at (?P<place>\d+)')


def said_of_places(row: Row) -> Iterator[Said]:
    """The examples in the table of the kinds of positions."""
    for it in row['Such as'].split('; '):
        named = NAMED.fullmatch(it)
        if named is None:
            raise ValueError(f'expected a reader and its text, found: {it}')
        reader = 'duration' if '::' in named['reader'] else named['reader']
        yield Said([], reader, tuple(map(ord, named['text'])), named['wide'] is not None, False,
                   Fault(error_in(named['error']), int(named['place'])))


def said_of_refusals(row: Row) -> Iterator[Said]:
    """The examples of annotations."""
    text, (error, place) = re.fullmatch(r'`([^`]*)`', row['`parse` of `2020-01-01` and'])[1], row['Error'].split(' at ')
    yield Said([], 'parse', tuple(map(ord, '2020-01-01' + text)), False, False, Fault(error_in(error), int(place)))


def said_in(row: Row) -> Iterator[Said]:
    """The examples of a row of any table."""
    if 'Line' in row:
        yield from said_in_row(row)
    elif 'What is wrong' in row and 'Such as' in row:
        yield from said_of_places(row)
    elif 'Why' in row:
        yield from said_of_refusals(row)


def is_line_of(said: Said, name: str) -> bool:
    """Whether the example belongs to a line. An example that names no line belongs to every line."""
    return not said.lines or name in said.lines or name.split(' ')[0] in said.lines


def in_the_list(said: Said) -> list[places.Example]:
    """The examples of tests/refused.tsv with the same text, error and place, for this line and this reader."""
    return [it for it in places.examples() if (tuple(it.units), it.wide, it.strict) == (said.units, said.wide, said.strict)
            and said.reader in (None, it.reader) and is_line_of(said, it.line)
            and it.place == said.fault.place and said.fault.error in (None, it.error)]


def is_in_the_model(said: Said, listed: places.Example) -> bool:
    """Whether the model has the error at the place: as a row of the line that the example gives, or as the error of an annotation."""
    reader, text = places.READERS[said.strict][listed.reader], places.letters_of(said.units, said.wide)
    if listed.line == 'reply':
        refused = places.refused_reply(reader, text, said.fault.place, places.each_replies_for_itself)
        return refused is not None and refused.fault == said.fault
    lines = [it for it in reader.lines if it.name == listed.line]
    rows = places.Reader(reader.language, lines, reader.core).rows_that_fit(text)
    return any(row.place == said.fault.place and said.fault.error in (None, row.error) for row in rows)


def lines_of_model() -> list[places.Line]:
    """The lines of all readers with the rules of `ixdtf` 0.6.7."""
    return [line for reader in places.READERS[False].values() for line in reader.lines]


def errors_of_line(line: places.Line) -> set[str]:
    """The errors of a line, except for the one at a bad code unit."""
    return {error.variant for error in [line.end] + [error for _, error in line.other] if error}


def readers_of_model(variant: str) -> set[str]:
    """The readers of the model that return an error."""
    if variant == 'NonAsciiCodePoint':
        return set(places.READERS[False])
    if variant in ('CriticalDuplicateCalendar', 'UnrecognizedCritical'):
        return set(BRACKETS)
    return {name for name, reader in places.READERS[False].items() if any(variant in errors_of_line(line) for line in reader.lines)}


def readers_in(cell: str) -> set[str]:
    """The readers that a cell of the last table names."""
    cell = cell.removesuffix(', for 16-bit text')
    whole, _, but = cell.partition(' but ')
    named = [name for part in whole.split(', ') for name in NAMES_OF_READERS.get(part, [part.strip('`')])]
    return set(named) - {but.strip('`')}


def findings_in_faults(document: Document) -> Iterator[Finding]:
    """The differences of the fault table from the model, and the wrong examples."""
    for number, row in document.tables():
        try:
            for said in said_in(row):
                text, listed = ''.join(map(chr, said.units)), in_the_list(said)
                if not listed:
                    yield Finding(document.path, number, f'tests/refused.tsv has no {said.fault} for `{text}`')
                if not all(is_in_the_model(said, it) for it in listed):
                    yield Finding(document.path, number, f'the model has no {said.fault} for `{text}`')
        except (ValueError, KeyError, TypeError) as why:
            yield Finding(document.path, number, f'cannot be read: {why}')
    try:
        yield from (Finding(document.path, 1, it) for it in differences_from_model(document))
        yield from findings_in_errors(document)
    except KeyError as why:
        yield Finding(document.path, 1, f'cannot be read: {why}')


def differences_from_model(document: Document) -> Iterator[str]:
    """The lines that only the table has, or only the model, by their names and by their cells."""
    rows = [(SPAN.findall(row['Line']), row) for _, row in document.tables() if 'Line' in row]
    said = {name for names, _ in rows for name in names}
    had = {re.sub(' (Time|Offset|MinuteOffset)$', '', line.name) for line in lines_of_model()}
    yield from (f'the line {it} is only in the table, or only in the model' for it in sorted(said ^ had))
    cells = {(name, letters_in(row['Goes on with']), error_in(row['End']), others_in(row['Other'])) for names, row in rows
             for name in names if 'Goes on with' in row and not is_clock_line(name)}
    of_model = {(line.name, *cells_of(line)) for line in lines_of_model() if not is_clock_line(line.name)}
    yield from sorted({f'the model has other cells for the line {it[0]}' for it in cells ^ of_model})


def findings_in_errors(document: Document) -> Iterator[Finding]:
    """The differences of the table of errors from the code and from the model."""
    texts = dict(re.findall(r'ParseError::(\w+)(?: \{ \.\. \})? =>\s+"(.*)"', document.tree.read('crates/ixdtf_grammar/src/error.rt')))
    said = {}
    for number, row in document.tables():
        if 'Variant' in row:
            variant = row['Variant'].strip('`')
            said[variant] = row['Text']
            if row['Text'] != texts.get(variant) or row['Text'] != places.TEXTS.get(variant, row['Text']):
                yield Finding(document.path, number, f'{variant} has a different text in the code or in the model')
            if readers_in(row['Readers']) != readers_of_model(variant):
                yield Finding(document.path, number, f'in the model, {variant} is returned by {", ".join(sorted(readers_of_model(variant)))}')
    if list(said) != variants(document.tree):
        yield Finding(document.path, 1, 'the errors are not those of the code, in the order of the code')


# ---------------------------------------------------------------------------------------------------------------------------------
# The messages

GRAMMAR = 'crates/ixdtf_grammar/src/'
EXPLANATIONS = 'crates/ixdtf_explanations/src/'
AT_END, AT_ANOTHER = 'At the end of the text', 'At another character'
# what a cell has instead of a message if the text may end, and the conditions that no guard has
MAY_END, WHATEVER, OTHERWISE = 'ok', 'Whatever follows', 'Otherwise'
# the guards of arms, and the conditions of the table
GUARDS = {
    '': '',
    'place.is_first()': 'At the beginning of the text',
    'place.is_in_bracket()': 'In a bracket',
    'place.is_lone_offset()': 'In a lone offset',
    "place.is_next(b'-')": 'At `-`',
    "place.is_next(b':')": 'At `:`',
    "place.is_next(b']')": 'At `]`',
    'place.is_digit_next()': 'At a digit',
    'place.is_time_unit_next()': 'At `H` or `S`',
    'place.has_seconds()': 'At `:` or a digit',
    'place.has_seconds() && place.is_in_bracket()': 'In a bracket, at `:` or a digit',
}
AT_A_CHARACTER = re.compile('is_next|is_digit_next|is_time_unit_next|has_seconds')
OPENING, CLOSING = {'(', '[', '{'}, {')', ']', '}'}
TOKEN = re.compile(r"""//[^\n]*|"(?:[^"\\]|\\.)*"|b?'(?:[^'\\]|\\.)'|\w+|=>|\s+|.""", re.S)
PATTERN = re.compile(r'Reason::\w+(?: \| Reason::\w+)*')
# the last day of a month is an argument of `to_day`, and all other words are string literals without escapes
STRING = r'"([^"\\]*)"'
WORDING = re.compile(rf'\{{?\s*(expected|Wording::\w+)\(\s*(?:place,\s*)?{STRING}'
                     rf'(?:,\s*(?:{STRING}|(to_day\(place\.last_day\(\)\))))?,?\s*\)\s*\}}?')
LAST_DAY = re.compile(r'"([^"\\]*) (?:28|29|30|31)"')
Message = tuple[str, str]  # a condition, and what the cell has if it is true
Cells = dict[str, list[Message]]


class Arm(NamedTuple):
    """An arm of a `match`: its pattern, its guard and its body. The guard is empty if there is none."""
    pattern: str
    guard: str
    body: str

    def reasons(self) -> list[str]:
        """The reasons of the pattern."""
        return re.findall(r'Reason::(\w+)', self.pattern)


def arms_of(source: str, function: str) -> list[Arm]:
    """The arms of the `match` of a function. An arm ends at a comma, or at the end of its block. Raises ValueError if there is none."""
    head = re.search(rf'\bfn {function}\b(?:(?!\bfn\b).)*?\bmatch \w+ \{{', source, re.S)
    if head is None:
        raise ValueError(f'no `match` in `{function}`')
    found, parts, depth = [], [''], 0
    for token in TOKEN.findall(source, head.end()):
        depth += (token in OPENING) - (token in CLOSING)
        if depth < 0:
            break
        if token == '=>' and len(parts) == 1:
            parts.append('')
        elif not token.startswith('//') and not (token == ',' and depth == 0):
            parts[-1] += token
        if depth == 0 and len(parts) == 2 and (token == ',' or token == '}' and parts[1].lstrip().startswith('{')):
            found.append(arm_of(*parts))
            parts = ['']
    return found + [arm_of(*parts)] if len(parts) == 2 else found


def arm_of(head: str, body: str) -> Arm:
    """An arm, from what is before its `=>` and what is after it."""
    pattern, _, guard = in_one_line(head).partition(' if ')
    return Arm(pattern, guard, body.strip())


def reasons(tree: Tree) -> list[str]:
    """The variants of `Reason`."""
    return re.findall(r'^    (\w+),', re.search(r'pub enum Reason \{(.*?)\n\}', tree.read(GRAMMAR + 'reason.rt'), re.S)[1], re.M)


def shows_front(tree: Tree) -> set[str]:
    """The reasons whose wrong part is all of the text before the position."""
    return {it for arm in arms_of(tree.read(EXPLANATIONS + 'part.rt'), 'extent_of') if 'Extent::Front' in arm.body for it in arm.reasons()}


def last_day_words(tree: Tree) -> str:
    """The words about the last day of the month. Raises ValueError if they differ in more than the day."""
    words = {words[1] if words else arm.body for arm in arms_of(tree.read(EXPLANATIONS + 'wording.rt'), 'to_day')
             for words in [LAST_DAY.fullmatch(arm.body)]}
    if len(words) != 1:
        raise ValueError(f'`to_day` has different words: {"; ".join(sorted(words))}')
    return words.pop() + ' {last}'


def texts_of(arm: Arm, part: str, last_day: str) -> tuple[str, str]:
    """What an arm says at the end of the text, and at another character. Raises ValueError if the arm is not written in the right form."""
    wording = WORDING.fullmatch(arm.body)
    if wording is None or PATTERN.fullmatch(arm.pattern) is None:
        raise ValueError(f'an arm of `wording_of` has another form: {arm.pattern} => {in_one_line(arm.body)}')
    kind, first, second, to_day = wording.groups()
    if kind == 'expected':
        return first, second + '{char}'
    if kind == 'Wording::Found':
        return MAY_END, first + '{char}'
    shown = {'Wording::Fixed': '', 'Wording::AroundPart': part, 'Wording::AroundUnit': '{char}'}[kind]
    text = first + shown + (last_day if to_day else second or '')
    return text, text


def messages_in_code(tree: Tree) -> dict[str, Cells]:
    """The cells that the code has for each reason. Raises ValueError or KeyError if the code is not written in the right form."""
    fronts, last_day, found = shows_front(tree), last_day_words(tree), {}
    for arm in arms_of(tree.read(EXPLANATIONS + 'wording.rt'), 'wording_of'):
        for reason in arm.reasons() or [arm.pattern]:
            at_end, at_another = texts_of(arm, '{front}' if reason in fronts else '{number}', last_day)
            cells = found.setdefault(reason, {AT_END: [], AT_ANOTHER: []})
            cells[AT_ANOTHER].append((GUARDS[arm.guard], at_another))
            if not AT_A_CHARACTER.search(arm.guard):
                cells[AT_END].append((GUARDS[arm.guard], at_end))
    for reason, cells in found.items():
        if [it for it, _ in cells[AT_ANOTHER] if it] != [it for it, _ in cells[AT_ANOTHER][:-1]]:
            raise ValueError(f'the last arm of {reason} has a guard, or another arm has none')
    return {reason: as_in_table(cells) for reason, cells in found.items()}


def as_in_table(cells: Cells) -> Cells:
    """The cells of a reason, in the form of the table: a message that does not depend on what follows is in the first cell alone."""
    if cells[AT_END] == cells[AT_ANOTHER]:
        return {AT_END: [(WHATEVER, text) for _, text in cells[AT_END]], AT_ANOTHER: []}
    return {head: with_otherwise(messages) for head, messages in cells.items()}


def with_otherwise(messages: list[Message]) -> list[Message]:
    """The messages of a cell, in the form of the table: if they are all the same, one without a condition, and else the last one is for
    all other cases."""
    if len({text for _, text in messages}) == 1:
        return [('', messages[0][1])]
    return messages[:-1] + [(OTHERWISE, messages[-1][1])]


def messages_in_cell(cell: str) -> list[Message]:
    """The messages of a cell, each with the condition before it. The condition is empty if there is none."""
    first, *rest = re.split(r'\*([^*]+):\*', cell)
    return [(condition, text.strip()) for condition, text in zip(['', *rest[::2]], [first, *rest[1::2]]) if condition or text.strip()]


def written(message: Message) -> str:
    """A message as in a cell."""
    condition, text = message
    return f'*{condition}:* {text}' if condition else text


def differences_in_cell(said: list[Message], had: list[Message]) -> Iterator[str]:
    """The differences of a cell from the code."""
    yield from (f'the code also has "{written(it)}"' for it in had if it not in said)
    yield from (f'the code does not have "{written(it)}"' for it in said if it not in had)
    if said != had and sorted(said) == sorted(had):
        yield 'the code has another order'
    elif len(said) != len(set(said)):
        yield 'a message is there twice'


def differences_in_reasons(tree: Tree, said: list[str]) -> Iterator[str]:
    """The reasons that do not have exactly one row."""
    yield from (f'no row for the reason {it}' for it in reasons(tree) if it not in said)
    yield from (f'several rows for the reason {it}' for it in sorted(set(said)) if said.count(it) > 1)
    yield from (f'no reason {it}' for it in sorted(set(said) - set(reasons(tree))))


def findings_in_messages(document: Document) -> Iterator[Finding]:
    """The differences of the tables of messages from the code."""
    rows = [(number, row['Reason'].strip('`'), row) for number, row in document.tables() if 'Reason' in row]
    try:
        had = messages_in_code(document.tree)
        yield from (Finding(document.path, 1, it) for it in differences_in_reasons(document.tree, [reason for _, reason, _ in rows]))
        if set(had) != set(reasons(document.tree)):
            yield Finding(document.path, 1, 'the reasons of `wording_of` are not the variants of `Reason`')
    except (ValueError, KeyError, TypeError) as why:
        yield Finding(document.path, 1, f'the messages of the code cannot be read: {why}')
        return
    for number, reason, row in rows:
        for head, messages in had.get(reason, {}).items():
            for what in differences_in_cell(messages_in_cell(row.get(head, '')), messages):
                yield Finding(document.path, number, f'{reason}, {head.lower()}: {what}')


# ---------------------------------------------------------------------------------------------------------------------------------
# The hints of docs/FAULTS.md

# what is a hint in the code, and what the table has instead of the part that the hint shows
SHOWN_IN_HINTS = {'Hint::Fixed': '', 'Hint::BeforeFront': '{front}', 'Hint::BeforeNext': '{char}', 'Hint::AroundLast': '{digit}`', 'in_clock': '{digit}`'}
HINT = re.compile(rf'\b({"|".join(SHOWN_IN_HINTS)})\(\s*"((?:[^"\\]|\\.)*)"')
IN_A_HINT = {'{digit}': '[0-9]', '{front}': '[0-9]+', '{char}': '.+'}


def files_of_hints(tree: Tree) -> list[str]:
    """The files of the code that have hints: hint.rt and those in hint/."""
    return [it for it in tree.files if it == EXPLANATIONS + 'hint.rt' or it.startswith(EXPLANATIONS + 'hint/')]


def hints_in_code(tree: Tree) -> set[str]:
    """The hints of the code, as the table has them."""
    return {words + SHOWN_IN_HINTS[kind] for path in files_of_hints(tree) for kind, words in HINT.findall(tree.read(path))}


def is_hint_of(hint: str, line: str) -> bool:
    """Whether the model has this hint for a line of the program `ixdtf_lines`."""
    pattern = re.sub(r'\\{\w+\\}', lambda it: IN_A_HINT[it[0].replace('\\', '')], re.escape(hint))
    last = places.answer(line.encode(), False, places.REPORTS).split('\n')[-1]
    return re.fullmatch(f'hint: {pattern}', last) is not None


def findings_in_hints(document: Document) -> Iterator[Finding]:
    """The differences of the table of hints from the code and from the model."""
    rows = [(number, row) for number, row in document.tables() if 'Hint' in row and 'Example' in row]
    had, said = hints_in_code(document.tree), {row['Hint'] for _, row in rows}
    yield from (Finding(document.path, 1, f'no row for the hint "{it}"') for it in sorted(had - said))
    for number, row in rows:
        if row['Hint'] not in had:
            yield Finding(document.path, number, f'the code does not have the hint "{row["Hint"]}"')
        unknown = sorted(set(re.findall(r'`([A-Z][A-Za-z]+)`', row['Reasons'])) - set(reasons(document.tree)))
        yield from (Finding(document.path, number, f'no reason {it}') for it in unknown)
        if not is_hint_of(row['Hint'], row['Example'].strip('`')):
            yield Finding(document.path, number, f'the model does not have this hint for {row["Example"]}')


# ---------------------------------------------------------------------------------------------------------------------------------
# All of it

def findings(tree: Tree) -> Iterator[Finding]:
    """The findings in all documents."""
    for path in tree.documents():
        document = Document(tree, path)
        yield from findings_in_layout(document)
        yield from findings_in_names(document)
        yield from findings_in_clauses(document)
        yield from findings_in_files(document)
        yield from findings_in_counts(document)
        if path == 'docs/TRUST.md':
            yield from findings_in_reading_order(document)
        if path == 'docs/FAULTS.md':
            yield from findings_in_faults(document)
            yield from findings_in_messages(document)
            yield from findings_in_hints(document)
        if path in WITH_SNIPPETS:
            yield from findings_in_snippets(document)
    yield from findings_in_code(tree)


def findings_in_code(tree: Tree) -> Iterator[Finding]:
    """The documents that the code names and that do not exist."""
    for path in tree.code():
        content = tree.read(path)
        for named in re.finditer(r'\bdocs/\w+\.md\b', content):
            if named[0] not in tree.paths:
                yield Finding(path, content.count('\n', 0, named.start()) + 1, f'no file {named[0]}')


def main() -> int:
    """Checks the documents, and prints the findings. Returns the exit status."""
    found = list(findings(Tree(ROOT)))
    for it in found:
        print(it)
    print(f'documents: {len(found)} findings')
    return 1 if found else 0


if __name__ == '__main__':
    sys.exit(main())
