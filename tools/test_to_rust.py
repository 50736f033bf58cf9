#!/usr/bin/env python3
"""Tests of to_rust.py: sources that it refuses, changes that --check finds, and a comparison of its input and output, token by token.

The comparison does not use the code of the tool. This file has its own code that cuts texts into tokens, and its own lists of the tokens that
may differ."""
import contextlib
import functools
import io
import os
import shutil
import subprocess
import sys
import tempfile
import unittest

sys.path.insert(0, os.path.dirname(os.path.abspath(__file__)))
import to_rust

TOP = os.path.abspath(os.path.join(os.path.dirname(os.path.abspath(__file__)), '..'))
PAIRS = [('crates/ixdtf/src', 'rust/ixdtf/src'), ('crates/ixdtf_tests/src', 'rust/ixdtf/src'),
         ('crates/ixdtf_callers/src', 'rust/ixdtf/src'),
         ('crates/ixdtf_print/src', 'rust/ixdtf_print/src'), ('crates/ixdtf_answers/src', 'rust/ixdtf_lines/src'),
         ('crates/ixdtf_buffers/src', 'rust/ixdtf_buffers/src'), ('crates/ixdtf_checks/src', 'rust/ixdtf_check/src'),
         ('crates/ixdtf_c/src', 'rust/ixdtf_c/src')]
# the layers of the library, whose modules are at the root of the crate that is made, or in `parsers`
LAYERS = ['instants', 'grammar', 'reading', 'explanations', 'times', 'brackets', 'durations']
AT_THE_ROOT = {'civil', 'days', 'display', 'instant', 'encoding', 'error', 'hexadecimal', 'hint', 'instants', 'located', 'message', 'packed', 'part', 'pointed',
               'reason', 'records', 'wording', 'classes', 'codes', 'cursor', 'error_code', 'stop'}
PAIRS += [(f'crates/ixdtf_{layer}/src', 'rust/ixdtf/src') for layer in LAYERS]


# crates whose root file is made by the tool
WITH_ROOTS = {'crates/ixdtf/src', 'crates/ixdtf_print/src', 'crates/ixdtf_buffers/src', 'crates/ixdtf_c/src'}
# files that a person wrote, by their modules
BY_HAND = {'main', 'abort', 'slices', 'place'}
# the modules that the tool leaves out, by the folder of the crate. A module in such a module is left out too.
LEFT_OUT = {'crates/ixdtf/src': {'laws'}, 'crates/ixdtf_tests/src': {'tests/laws', 'tests/printing'},
            'crates/ixdtf_print/src': {'laws'}, 'crates/ixdtf_answers/src': {'laws'}, 'crates/ixdtf_buffers/src': {'memory'},
            'crates/ixdtf_checks/src': {'laws'}, 'crates/ixdtf_c/src': {'laws', 'turns', 'tests'}, 'crates/ixdtf_reading/src': {'looks'}}


def is_left_out(source, path):
    """Whether the tool leaves out the module with this path, or a module that contains it."""
    return any(path == it or path.startswith(it + '/') for it in LEFT_OUT.get(source, ()))


def tokens_of(text):
    """The tokens of a text, without spaces and comments. The function goes through the text letter by letter."""
    out, at = [], 0
    while at < len(text):
        c = text[at]
        if c.isspace():
            at += 1
        elif text.startswith('//', at):
            at = (text + '\n').index('\n', at)
        elif c == '"' or text.startswith('b"', at):
            end = text.index('"', at) + 1
            while text[end] != '"':
                end += 1 + (text[end] == '\\')
            out.append(text[at:end + 1])
            at = end + 1
        elif c == "'" or text.startswith("b'", at):
            start = text.index("'", at)
            if text[start + 1] == '\\' or text[start + 2] == "'":
                end = text.index("'", start + 2 + (text[start + 1] == '\\'))
                out.append(text[at:end + 1])
                at = end + 1
            else:
                end = start + 1
                while text[end].isalnum() or text[end] == '_':
                    end += 1
                out.append(text[at:end])
                at = end
        elif c.isalnum() or c == '_':
            end = at
            while end < len(text) and (text[end].isalnum() or text[end] == '_'):
                end += 1
            out.append(text[at:end])
            at = end
        else:
            out.append(c)
            at += 1
    return out


def block_end(words, at):
    """The index after the block that opens at this index."""
    depth = 0
    while True:
        depth += (words[at] in ('{', '[', '(')) - (words[at] in ('}', ']', ')'))
        at += 1
        if not depth:
            return at


def without_ghosts(words):
    """The tokens without clauses, ghost items and models. In the text of a ghost item, each bracket is closed."""
    out, at = [], 0
    while at < len(words):
        word = words[at]
        if word in ('requires', 'ensures'):
            at = block_end(words, words.index('{', at))
        elif word == 'ghost' and words[at + 1] == 'use':
            at = words.index(';', at) + 1
        elif word == 'ghost':
            at = block_end(words, words.index('{', at))
            if words[at] == ',':
                while out[-1] == 'pub':
                    out.pop()
            at += 1
        elif word == 'impl' and 'Model' in words[at:words.index('{', at)]:
            at = block_end(words, words.index('{', at))
        else:
            out.append(word)
            at += 1
    return out


def phrase(text):
    """The tokens of a text in the lists below."""
    return tokens_of(text)


REMOVED = [phrase(t) for t in ['#![tactic(auto)]', '#[rattlefmt::skip]', 'use std::marker::Model;', '#[derive(Drop)]', 'pub mod laws;', 'mod laws;', 'mod printing;',
                               '#[cfg(test)] mod tests;', '#[cfg(test)]', 'pub mod turns;', 'pub mod memory;', 'pub use laws::{ canonical_fits, canonical_is_read_back, duration_fits, duration_is_read_back, month_day_fits, month_day_is_read_back, offset_fits,'
                               ' offset_is_read_back, rfc9557_is_read_back, time_fits, time_is_read_back, year_month_fits, year_month_is_read_back, zone_fits, zone_is_read_back, };', 'use crate::looks::Looks;', 'looks: Looks,', 'looks: Looks::none(),', 'self.looks.tick();',
                               'let common = left.len().min(right.len());', 'self.looks.tick_by(common);', 'self.looks.tick_by(4);',
                               'looks: std::mem::replace(&mut self.looks, Looks::none()),', 'self.keep_looks(here);', 'self.cursor.keep_looks(here);', 'self.cursor.keep_looks(text.here);', 'text.here.keep_looks(here);',
                               'cursor.keep_looks(again);', 'cursor.keep_looks(front);', '#[inline(always)] pub fn keep_looks(&mut self, here: Self) { self.looks = here.looks; }',
                               'impl PartialEq for LocatedError { fn eq(&self, other: &LocatedError) -> bool { self.at == other.at && self.reason == other.reason && self.error == other.error } }',
                               'impl PartialEq for ParseError { fn eq(&self, other: &ParseError) -> bool'
                               ' { self.variant_index() == other.variant_index() && self.location() == other.location() } }',
                               'impl ParseError { fn location(&self) -> &\'static str'
                               ' { match *self { ParseError::AbruptEnd { location } => location, _ => "", } } }']]
CHANGED = [(phrase(a), phrase(b)) for a, b in [
    ('use std::marker::{Model, PhantomData};', 'use std::marker::PhantomData;'),
    ('<W: fmt::Write>(', '('), (', W: fmt::Write>(', '>('), ('fmt::Formatter<W>', "fmt::Formatter<'_>"),
    ('#[derive_where(', '#[derive('), ('Drop,', ''), (', Drop', ''), ('const _: () = prove!(', 'const _: () = assert!('),
    ('(rt: HostRuntime)', '()'), ('.clone()', '.try_clone()'), ('use std::process::Abort;', 'use crate::runtime::Abort;'),
    ('use std::test::Fail;', 'use crate::runtime::Fail;'), ('match str::from_utf8(', 'match std::str::from_utf8('), ('str::from_utf8(bytes).is_ok()', 'std::str::from_utf8(bytes).is_ok()'), ('str::from_utf8(units).ok()', 'core::str::from_utf8(units).ok()'),
    ('use std::alloc::{AllocError, Global};', 'use crate::runtime::{AllocError, Global, String};'),
    ('use std::alloc::Global;', 'use crate::runtime::Global;')]]
ADDED = [phrase(t) for t in [
    'pub type ParserResult<T> = Result<T, ParseError>;',
    '#[non_exhaustive]', '#[cfg_attr(not(feature = "open-records"), non_exhaustive)]', '#[repr(i8)]',
    '#![cfg_attr(not(test), no_std)] extern crate core as std;', '#[cfg(not(test))] mod abort;', 'extern crate core as std;',
    '#![no_std]', '#![cfg_attr(not(test), no_std)]', '#![forbid(unsafe_code)]', '#![allow(clippy::let_and_return)]', '#[derive(PartialEq)]',
    '#[inline]', '#[must_use]', '#![doc = include_str!("../README.md")]', '#[cfg(test)] extern crate self as ixdtf;', '#[cfg(test)] #[macro_use] mod runtime; #[cfg(test)] mod callers; #[cfg(test)] mod tests;',
    '#[allow(unused_imports)] use crate::runtime::{HostRuntime, TryClone};', 'let rt = HostRuntime;', '_ => unreachable!(),']]


# The phrases of REMOVED and CHANGED, by their first tokens: the phrase, and the phrase that replaces it.
BY_FIRST = {}
for old, new in [(old, []) for old in REMOVED] + CHANGED:
    BY_FIRST.setdefault(old[0], []).append((old, new))


PLACES = phrase('impl ParseError { fn variant_index(&self) -> u8 {')


def drop_tactics(words):
    """The tokens without the attributes `tactic`."""
    out, at = [], 0
    while at < len(words):
        if words[at:at + 3] == ['#', '[', 'tactic'] or words[at:at + 4] == ['#', '!', '[', 'tactic']:
            at = block_end(words, at + 1 + (words[at + 1] == '!'))
        else:
            out.append(words[at])
            at += 1
    return out


def without_places(words):
    """The tokens without the numbers of the errors. Only an equality uses them, and Rust derives this equality."""
    at = next((at for at in range(len(words)) if words[at:at + len(PLACES)] == PLACES), None)
    return words if at is None else words[:at] + words[block_end(words, at + 2):]


EXPORT = phrase('#[unsafe(no_mangle)] pub extern "C" fn')


def with_pointers(words):
    """The tokens. Each slice that a function for C takes is replaced by a pointer and a length."""
    out, at = [], 0
    while at < len(words):
        if words[at:at + len(EXPORT)] != EXPORT:
            out.append(words[at])
            at += 1
            continue
        head = words[at:words.index('{', at) + 1]
        at += len(head)
        slices, first = [], len(EXPORT)
        while '[' in head[first:]:
            opens = head.index('[', first)
            first = opens + 1
            closes, colon = block_end(head, opens) - 1, opens - 1
            while head[colon] != ':':
                colon -= 1
            name, kind = head[colon - 1], 'mut' if 'mut' in head[colon:opens] else 'const'
            head[colon + 1:closes + 1] = ['*', kind] + head[opens + 1:closes] + [',', f'{name}_length', ':', 'usize']
            slices += phrase(f'let {name} = unsafe {{ crate::slices::{"slice_mut" if kind == "mut" else "slice"}({name}, {name}_length) }};')
        if slices:
            head.insert(8, 'unsafe')
        out += head + slices
    return out


def as_rust(words):
    """The tokens that the result must have for the tokens of a source."""
    words = with_pointers(without_places(drop_tactics(without_ghosts(words))))
    out, at = [], 0
    while at < len(words):
        for old, new in BY_FIRST.get(words[at], ()):
            if words[at:at + len(old)] == old:
                out += new
                at += len(old)
                break
        else:
            out.append(words[at])
            at += 1
    return out


def without_layers(words):
    """The tokens without what the layers change: their names in paths, the folder `parsers`, and the visibility of hidden functions."""
    text = ' ' + ' '.join(words) + ' '
    for layer in LAYERS:
        text = text.replace(f' ixdtf_{layer} : : ', ' crate : : ')
    text = text.replace(' std : : ', ' core : : ').replace(' self : : ', ' crate : : ').replace(' crate : : parsers : : ', ' crate : : ')
    return text.replace(' # [ doc ( hidden ) ] pub fn ', ' pub fn ').replace(' pub ( crate ) fn ', ' pub fn ').split()


def without_heads(words):
    """The tokens without modules and imports that have no attribute. These differ in the two files that declare the modules of the layers."""
    out, at = [], 0
    while at < len(words):
        if words[at] in ('mod', 'use') and ']' not in (words[at - 1], words[at - 1 - (words[at - 1] == 'pub')]):
            at = words.index(';', at) + 1
            if out[-1:] == ['pub']:
                out.pop()
        else:
            out.append(words[at])
            at += 1
    return out


def difference(source, made, heads=False):
    """The first difference between the tokens of the source and those of the result, except for tokens that may be added. With `heads`,
    modules and imports are left out."""
    wanted, found = (without_layers(words) for words in (as_rust(tokens_of(source)), tokens_of(made)))
    if heads:
        wanted, found = without_heads(wanted), without_heads(found)
    i = j = 0
    while j < len(found):
        if i < len(wanted) and wanted[i] == found[j]:
            added = None
            if found[j] in '#_l':
                added = None
            i, j = i + 1, j + 1
            continue
        for new in ADDED:
            if found[j:j + len(new)] == new:
                j += len(new)
                break
        else:
            # An added phrase may begin like the text that follows in the source. So go back over the tokens that were matched.
            for new in ADDED:
                for back in range(1, len(new)):
                    if found[j - back:j - back + len(new)] == new and wanted[i - back:i] == new[:back]:
                        i, j = i - back, j - back + len(new)
                        break
                else:
                    continue
                break
            else:
                return f'{" ".join(wanted[i:i + 12])} | {" ".join(found[j:j + 12])}'
    return '' if i == len(wanted) else f'{" ".join(wanted[i:i + 12])} | the end'


# The result for a source depends only on its text. So a source that did not change is not made again for each test.
to_rust.rewritten = functools.cache(to_rust.rewritten)

# for what all sources declare: the files that were checked and not refused
accepted = {}
check_all = to_rust.check


def check_new(files, known):
    """Checks the files, except for those that were checked before and not refused. A check depends only on the file, and on what all sources
    declare."""
    before = accepted.setdefault(known, set())
    check_all({place: plain for place, plain in files.items() if (place, plain) not in before}, known)
    before.update(files.items())


to_rust.check = check_new


class Answer:
    """How a run of the tool ended."""

    def __init__(self, returncode, stdout, stderr):
        self.returncode, self.stdout, self.stderr = returncode, stdout, stderr


def run(top, *arguments):
    """Runs the tool, in this process, on the sources of a copy."""
    before = to_rust.TOP, sys.argv
    to_rust.TOP, sys.argv = top, ['to_rust.py', *arguments]
    code, out = None, io.StringIO()
    try:
        with contextlib.redirect_stdout(out):
            to_rust.main()
    except SystemExit as end:
        code = end.code
    finally:
        to_rust.TOP, sys.argv = before
    # If the code is a text, Python writes it to standard error, and ends with the status 1.
    return Answer(1, out.getvalue(), f'{code}\n') if isinstance(code, str) else Answer(int(code or 0), out.getvalue(), '')


def run_apart(top, *arguments):
    """Runs the tool of the copy in a process of its own."""
    return subprocess.run([sys.executable, os.path.join(top, 'tools/to_rust.py'), *arguments], capture_output=True, text=True)


class Copied(unittest.TestCase):
    """Tests in a copy of the tools, the sources and the Rust crates."""

    def setUp(self):
        self.top = tempfile.mkdtemp()
        for name in ['tools', 'rust']:
            shutil.copytree(os.path.join(TOP, name), os.path.join(self.top, name), ignore=shutil.ignore_patterns('target', '__pycache__'))
        for source, _ in PAIRS:
            if os.path.isdir(os.path.join(TOP, source)):
                shutil.copytree(os.path.join(TOP, source), os.path.join(self.top, source))

    def tearDown(self):
        shutil.rmtree(self.top)

    def change(self, path, old, new):
        path = os.path.join(self.top, path)
        with open(path, encoding='utf-8') as file:
            text = file.read()
        self.assertEqual(text.count(old), 1, old)
        with open(path, 'w', encoding='utf-8') as file:
            file.write(text.replace(old, new))


BAD_BODIES = [
    'unsafe { self.rest }', 'self.rest.iter().rev().count();', 'std::process::exit(1);', 'println!("x");', 'self.rest.take();', 'panic!("x");',
    'let all = self.rest; all.skip(1);', 'self.looks.count();', 'Other::take(self);', 'async { 1 };', 'r"raw";', 'static mut X: u8 = 1;', 'size_of::<u8>();',
    '/* a comment */', 'dyn_call(1);', 'u16::try_from(1);', 'self.rest.iter().take(1);', 'self.rest.chars().rev();',
    'let all = self.rest.chars(); all.skip(1);', 'self.rest.chars().count().take();', 'eprint!("x");',
]


class Refuses(Copied):
    """Tests of sources that the tool refuses, or does not refuse."""

    def body(self, body):
        """Runs the tool after a function with this body was added to a source."""
        path = os.path.join(self.top, 'crates/ixdtf_reading/src/cursor.rt')
        with open(path, encoding='utf-8') as file:
            text = file.read()
        with open(path, 'w', encoding='utf-8') as file:
            file.write(f'{text}\nfn added() {{ {body} }}\n')
        answer = run(self.top)
        with open(path, 'w', encoding='utf-8') as file:
            file.write(text)
        return answer

    def test_bad_bodies(self):
        for body in BAD_BODIES:
            answer = self.body(body)
            self.assertNotEqual(answer.returncode, 0, body)
            self.assertIn('crates/ixdtf_reading/src/cursor.rt', answer.stderr, body)

    def test_as_a_process(self):
        path = os.path.join(self.top, 'crates/ixdtf_reading/src/cursor.rt')
        with open(path, 'a', encoding='utf-8') as file:
            file.write('\nfn added() { panic!("x"); }\n')
        answer, apart = run(self.top), run_apart(self.top)
        self.assertEqual((apart.returncode, apart.stdout, apart.stderr), (answer.returncode, answer.stdout, answer.stderr))
        self.assertEqual(apart.stderr, 'to_rust.py: crates/ixdtf_reading/src/cursor.rt: the macro `panic` is not in the lists of this tool\n')

    def test_characters(self):
        answer = self.body('let text = "text"; text.chars().count(); for _ in text.chars().take(3).skip(1) {}')
        self.assertEqual((answer.returncode, answer.stderr), (0, ''))

    def test_attributes_and_macros(self):
        for old, new in [('#[inline(always)]\n    pub fn advance', '#[no_mangle]\n    pub fn advance'), ('ghost use', 'ghost user')]:
            path = os.path.join(self.top, 'crates/ixdtf_reading/src/cursor.rt')
            with open(path, encoding='utf-8') as file:
                text = file.read()
            with open(path, 'w', encoding='utf-8') as file:
                file.write(text.replace(old, new, 1) if old in text else '#[no_mangle]\n' + text)
            answer = run(self.top)
            self.assertNotEqual(answer.returncode, 0, new)
            with open(path, 'w', encoding='utf-8') as file:
                file.write(text)


    def test_functions_for_c(self):
        path = os.path.join(self.top, 'crates/ixdtf_c/src/version.rt')
        with open(path, encoding='utf-8') as file:
            text = file.read()
        for added, refused in [
                ('#[unsafe(no_mangle)]\npub extern "C" fn added(all: &[u8]) -> usize {\n    all.len()\n}\n', False),
                ('#[unsafe(no_mangle)]\npub extern "C" fn added(all: Option<&[u8]>) {}\n', True),
                ('#[unsafe(no_mangle)]\npub extern "C" fn added(all: &[u8]) -> usize {\n    unsafe { all.len() }\n}\n', True),
                ('#[unsafe(no_mangle)]\npub fn added() {}\n', True),
                ('pub extern "C" fn added() {}\n', True),
                ('#[unsafe(no_mangle)]\nstatic ADDED: u8 = 1;\n', True)]:
            with open(path, 'w', encoding='utf-8') as file:
                file.write(f'{text}\n{added}')
            answer = run(self.top)
            self.assertEqual(answer.returncode != 0, refused, added)
            self.assertTrue(not refused or 'crates/ixdtf_c/src/version.rt' in answer.stderr, answer.stderr)


class Checks(Copied):
    """Tests of the differences that --check finds."""

    def test_nothing_changed(self):
        answer = run_apart(self.top, '--check')
        self.assertEqual((answer.returncode, answer.stdout), (0, ''))

    def test_a_made_file_was_changed(self):
        self.change('rust/ixdtf/src/parsers/dates.rs', '_ => 31,', '_ => 30,')
        answer = run(self.top, '--check')
        self.assertEqual((answer.returncode, answer.stdout), (1, 'rust/ixdtf/src/parsers/dates.rs differs from what tools/to_rust.py makes\n'))

    def test_a_source_was_changed(self):
        self.change('crates/ixdtf_times/src/dates.rt', '_ => 31,', '_ => 30,')
        self.assertEqual(run(self.top, '--check').returncode, 1)

    def test_a_file_was_added(self):
        with open(os.path.join(self.top, 'rust/ixdtf/src/more.rs'), 'w', encoding='utf-8') as file:
            file.write('fn more() {}\n')
        self.assertEqual(run(self.top, '--check').returncode, 1)

    def test_a_rule_was_changed(self):
        self.change('tools/to_rust.py', "#[derive({", "#[derive(Eq, {")
        self.assertEqual(run_apart(self.top, '--check').returncode, 1)


class SameTokens(unittest.TestCase):
    """Tests that each result has the tokens of its source, except for those in the lists."""

    def test_every_file(self):
        compared, layers = 0, {f'crates/ixdtf_{layer}/src' for layer in LAYERS}
        for source, target in PAIRS:
            for folder, _, names in os.walk(os.path.join(TOP, source)):
                for name in names:
                    path = os.path.relpath(os.path.join(folder, name), os.path.join(TOP, source))[:-3]
                    at_root = source not in layers or path.partition('/')[0] in AT_THE_ROOT
                    made = os.path.join(TOP, target, (path if at_root else f'parsers/{path}') + '.rs')
                    if path == 'lib' and source not in WITH_ROOTS or path in BY_HAND or is_left_out(source, path):
                        continue
                    with open(os.path.join(folder, name), encoding='utf-8') as file:
                        text = file.read()
                    with open(made, encoding='utf-8') as file:
                        heads = source == 'crates/ixdtf/src' and path in ('lib', 'parsers')
                        self.assertEqual(difference(text, file.read(), heads), '', f'{source}/{path}.rt')
                    compared += 1
        self.assertGreater(compared, 150)

    def test_a_difference_is_seen(self):
        self.assertNotEqual(difference('fn one() -> u8 { 1 }', 'fn one() -> u8 { 2 }'), '')
        self.assertNotEqual(difference('fn one() {}', 'fn one() {} fn two() {}'), '')
        self.assertEqual(difference('fn one() ensures { result } { 1 }', 'fn one() { 1 }'), '')


if __name__ == '__main__':
    unittest.main()
