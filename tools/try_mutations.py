#!/usr/bin/env python3
"""try_mutations.py [--folder FOLDER] REVISION [NAME..]: says which mutations no row and no case of tests/ sees.

A mutation is a wrong body, in a file crates/*/must-fail/*.edit. The tool reads the mutations that the git revision REVISION has, or only
those with NAME in their path. So it can also try the mutations of an old commit.

In a copy of what is committed, it does this for each mutation: it changes the sources as the mutation says, makes the Rust crates
(to_rust.py), compiles them, and asks them for the rows of tests/ (tests/run.py). If all rows pass, it runs the cases of tests/programs. Then
it undoes the change. It prints one line for each mutation, with its path and one of these results:

    rows            a row fails
    cases           a case fails
    no end          the rows or the cases do not end in five minutes
    nothing         no row and no case fails
    not compiled    Rust does not compile it, or to_rust.py refuses it
    not tried       its text is no longer in the sources, or it is no body of the programs: it changes a definition, or the library for C

The last line has the count of each result. The copy lies in FOLDER, which must be empty, or else in a temporary folder. The exit status is
1 if nothing sees a mutation, and 2 if the sources without a mutation fail. One mutation takes about ten seconds."""
import argparse
import glob
import os
import subprocess
import sys
import tempfile
from collections import Counter
from typing import Iterator, NamedTuple, Optional

TOP = os.path.dirname(os.path.dirname(os.path.abspath(__file__)))
COMPILED = ('rust/ixdtf_lines', 'rust/ixdtf_check', 'tests/targets/rust')
SECONDS = 300


class Change(NamedTuple):
    """A text of a file, and the text that takes its place."""
    path: str
    old: str
    new: str


def git(*words: str) -> str:
    """What a command of git prints."""
    return subprocess.run(['git', '-C', TOP, *words], stdout=subprocess.PIPE, check=True, encoding='utf-8').stdout


def paths_of(revision: str, names: list) -> list:
    """The paths of the mutations of a revision, or of those with one of the names in their path."""
    paths = git('ls-tree', '-r', '--name-only', revision, 'crates').splitlines()
    return [it for it in paths if '/must-fail/' in it and it.endswith('.edit') and (not names or any(name in it for name in names))]


def changes_of(edit: str) -> Iterator[Change]:
    """The changes of a mutation. A change without a file is in the same file as the one before it. Proofs are left out."""
    path = old = ''
    for line in edit.splitlines():
        key, _, value = line.partition(': ')
        if key == 'file':
            path = value
        elif key == 'old':
            old = value
        elif key == 'new' and not path.startswith('proofs/'):
            yield Change(path, old, value)


def source_with(folder: str, crate: str, change: Change) -> Optional[str]:
    """The one source that has the old text once: that of the crate, or one that was moved to another crate."""
    own = os.path.join(folder, 'crates', crate, change.path)
    moved = sorted(glob.glob(os.path.join(folder, 'crates', '*', 'src', '**', os.path.basename(change.path)), recursive=True))
    for source in [own, *moved]:
        if os.path.exists(source):
            with open(source, encoding='utf-8') as file:
                if file.read().count(change.old) == 1:
                    return source
    return None


def changed_sources(folder: str, path: str, edit: str) -> Optional[dict]:
    """The changed texts of the sources, by their paths, or None if the mutation cannot be tried."""
    crate, texts = path.split('/')[1], {}
    for change in changes_of(edit):
        source = source_with(folder, crate, change)
        if source is None or crate == 'ixdtf_c' or not source.endswith('.rt'):
            return None
        if source not in texts:
            with open(source, encoding='utf-8') as file:
                texts[source] = file.read()
        texts[source] = texts[source].replace(change.old, change.new)
    return texts or None


def succeeds(folder: str, *command: str, **options) -> bool:
    """Whether a command ends with the status 0. What it prints is not shown."""
    environment = dict(os.environ, CARGO_TARGET_DIR=os.path.join(folder, 'target'))
    quiet = {'stdin': subprocess.DEVNULL, 'stdout': subprocess.DEVNULL, 'stderr': subprocess.DEVNULL}
    return subprocess.run(command, cwd=folder, env=environment, **quiet, **options).returncode == 0


def compiles(folder: str) -> bool:
    """Whether the Rust crates can be made and compiled."""
    manifests = [os.path.join(it, 'Cargo.toml') for it in COMPILED]
    return succeeds(folder, sys.executable, 'tools/to_rust.py') and all(
        succeeds(folder, 'cargo', 'build', '-j2', '--offline', '--manifest-path', it) for it in manifests)


def who_sees(folder: str) -> str:
    """The result of the rows and the cases for the programs that were compiled."""
    check, lines = (os.path.join(folder, 'target', 'debug', it) for it in ('ixdtf_check', 'ixdtf_lines'))
    try:
        if not succeeds(folder, sys.executable, 'tests/run.py', f'lines={lines}', 'rust', timeout=SECONDS):
            return 'rows'
        if not succeeds(folder, sys.executable, 'tests/programs/run.py', '--check', check, '--lines', lines, timeout=SECONDS):
            return 'cases'
    except subprocess.TimeoutExpired:
        return 'no end'
    return 'nothing'


def write(texts: dict) -> None:
    """Writes texts to files."""
    for path, text in texts.items():
        with open(path, 'w', encoding='utf-8') as file:
            file.write(text)


def try_mutation(folder: str, path: str, edit: str) -> str:
    """The result of one mutation. The sources are as before when it returns."""
    changed = changed_sources(folder, path, edit)
    if changed is None:
        return 'not tried'
    before = {}
    for source in changed:
        with open(source, encoding='utf-8') as file:
            before[source] = file.read()
    write(changed)
    try:
        return who_sees(folder) if compiles(folder) else 'not compiled'
    finally:
        write(before)


def copy_to(folder: str) -> None:
    """Copies what is committed to a folder."""
    archive = subprocess.run(['git', '-C', TOP, 'archive', 'HEAD'], stdout=subprocess.PIPE, check=True).stdout
    subprocess.run(['tar', 'x', '-C', folder], input=archive, check=True)


def try_all(folder: str, revision: str, names: list) -> int:
    """Tries the mutations, and prints the results. Returns the exit status."""
    copy_to(folder)
    if not compiles(folder) or who_sees(folder) != 'nothing':
        print('try_mutations.py: the sources without a mutation fail', file=sys.stderr)
        return 2
    counts: Counter = Counter()
    for path in paths_of(revision, names):
        result = try_mutation(folder, path, git('show', f'{revision}:{path}'))
        counts[result] += 1
        print(f'{path}: {result}', flush=True)
    print(', '.join(f'{result}: {count}' for result, count in sorted(counts.items())))
    return 1 if counts['nothing'] else 0


def main() -> int:
    parser = argparse.ArgumentParser(description='Says which mutations no row and no case of tests/ sees.')
    parser.add_argument('--folder', metavar='FOLDER', help='an empty folder for the copy; without it, a temporary one')
    parser.add_argument('revision', metavar='REVISION', help='the git revision with the mutations')
    parser.add_argument('names', nargs='*', metavar='NAME', help='tries only the mutations with NAME in their path')
    arguments = parser.parse_args()
    if arguments.folder:
        return try_all(os.path.abspath(arguments.folder), arguments.revision, arguments.names)
    with tempfile.TemporaryDirectory() as folder:
        return try_all(folder, arguments.revision, arguments.names)


if __name__ == '__main__':
    sys.exit(main())
