#!/usr/bin/env python3
"""to_rust.py [--check]: makes the Rust crates in rust/ from the Rattle crates in crates/.

With --check, the tool writes nothing. It names each file in rust/ that differs from what it would write.

The tool keeps the tokens of the sources, in their order. It removes these:

  clauses        `requires NAME { .. }`, `ensures NAME { .. }`, and the comments right before a clause
  ghost items    `ghost use ..;`, `ghost NAME = { .. };`, `ghost NAME: { .. };` and `ghost NAME: { .. },`, with their doc comments
  models         `impl .. Model for .. { .. }` (it has only ghost items), and `Model` in a `use`
  attributes     `#[tactic(..)]`, `#[rattlefmt::skip]`, and `Drop` in a `#[derive(..)]`
  modules        the modules that a crate of CRATES omits, the modules in these, and each `use` of them. No other module calls their code.
  phrases        the sequences of tokens in UNSEEN, with the comments right before them. They count accesses, and only contracts need this
                 count. The module `looks` and the function `Cursor::keep_looks` are removed for the same reason.

The library consists of layers (LAYERS), which are crates in Rattle and together one crate in Rust. LAYERS says where each module of a
layer goes. A path through a layer becomes a path through `crate`. The root file of a layer is replaced by what the root of the library
re-exports from it. A function that is public only for the layers above, `#[doc(hidden)] pub fn`, becomes `pub(crate) fn`.

These rules, and no others, replace or add something:

  1 fmt          `<W: fmt::Write>` after the name of a function is removed, or `, W: fmt::Write` as its last type parameter, and
                 `fmt::Formatter<W>` becomes `fmt::Formatter<'_>`.
  2 derive_where `#[derive_where(..)]` becomes `#[derive(..)]`.
  3 prove        `const _: () = prove!(..)` becomes `const _: () = assert!(..)`.
  4 ADDED        Types get attributes. These affect users of the crate, and not its own code.
  5 heads        Each root file gets a head. If this head has a README, it replaces the doc comment of the root file.
  6 arms         This rule is for crates that use the library. ADDED makes some types open (OPEN). A `match` with arms for the variants
                 of such a type gets the last arm `_ => unreachable!()`, which Rust requires.
  7 core         `std::` becomes `core::` in a crate without the standard library.
  8 calls        Each public function of MARKED gets `#[must_use]`, if it takes no `&mut`, returns a value other than a result, and is
                 not hidden. The functions of INLINED also get `#[inline]`.
  9 equality     `impl PartialEq for ..` of DERIVED becomes `#[derive(PartialEq)]`. What only that impl calls is removed.
  10 exports     This rule is for functions for C, `#[unsafe(no_mangle)] pub extern "C" fn`. A slice `x: &[T]` becomes a pointer and a
                 length, as C passes them: `x: *const T, x_length: usize`. The first line of the body makes the slice from them
                 (src/slices.rs). A person wrote the type of a slice in a struct: a pointer, which may be null if the length is 0, and
                 the length.
  11 str         `str::from_utf8` becomes `std::str::from_utf8`, or `core::str::from_utf8` in a crate without the standard library.
                 Older compilers have these too.
  14 links       If a doc comment links to a name of FARTHER, which its module does not import, the link goes through the module above.

Tests (TESTS) have two more rules:

  12 runtime     A test has no parameter. It makes the `rt` that the Rattle test gets as a parameter. `HostRuntime`, `Abort`, `Fail`,
                 `Global`, `AllocError`, `String`, and the macros with an `rt` or an allocator are those of src/runtime.rs.
  13 clone       `x.clone()` becomes `x.try_clone()` of src/runtime.rs, because a clone is a result there.

The tool refuses what it does not know: an attribute, a macro, a keyword, or a name of the standard library that is not in its lists. For
each name in the lists, a person looked up once that it means the same in Rust and in Rattle. A method of a crate can have the name of a
method of `core` (core_methods.txt). The tool accepts a call of it only if the receiver is known to have a type of the crate with this
method, or to be the characters of a text (ON_CHARACTERS).

The tool prints nothing if all is right. The exit status is 1 if it refuses a source, or if --check finds a difference."""
import functools
import os
import re
import sys
from typing import NamedTuple

TOP = os.path.join(os.path.dirname(os.path.abspath(__file__)), '..')

MADE = '// Made by tools/to_rust.py of {0}. Do not edit.\n\n'
# the head of each root file, and its end
README = '#![doc = include_str!("../README.md")]\n'
# Without the counts of accesses, a function can return what it has bound in the line before (`is_exact_zone`).
LIBRARY = (README + '#![cfg_attr(not(test), no_std)]\n#![forbid(unsafe_code)]\n#![allow(clippy::let_and_return)]\n\n#[cfg(test)]\nextern crate self as ixdtf;\n',
           '\nmod from_text;\n\n#[cfg(test)]\n#[macro_use]\nmod runtime;\n#[cfg(test)]\nmod callers;\n#[cfg(test)]\nmod tests;\n')
PRINTER = (README + '#![no_std]\n#![forbid(unsafe_code)]\n', '')
PROGRAM = ('#![forbid(unsafe_code)]\n', '')
FOR_C = ('#![cfg_attr(not(test), no_std)]\n', '\n#[cfg(not(test))]\nmod abort;\n')


# the layers of the library, and where their modules go in the crate that is made from all of them
LAYERS = {
    'ixdtf_instants': 'civil days display instant'.split(),
    'ixdtf_grammar': 'encoding error instants packed reason records parsers/profile'.split(),
    'ixdtf_reading': 'classes codes cursor error_code stop parsers/annotations parsers/letters'.split(),
    'ixdtf_explanations': 'hexadecimal hint located message part pointed wording'.split(),
    'ixdtf_times': 'parsers/date_times parsers/dates parsers/months parsers/offsets parsers/rfc3339 parsers/time'.split(),
    'ixdtf_brackets': 'parsers/brackets parsers/exact_zones parsers/zone'.split(),
    'ixdtf_durations': 'parsers/date_groups parsers/duration parsers/group_numbers parsers/time_groups'.split(),
}
PLACES = {(layer, place.rpartition('/')[2]): place for layer, places in LAYERS.items() for place in places}


class Crate:
    """A crate that the tool makes. It has the folder of its sources, the folder of the result, the modules that are left out, the name of its
    root file, and the head and the end of this file. Some fields are true or false: `tests` means that the rules for tests apply, `above` that
    the crate uses the library, `on_core` that it does not use the standard library, and `exports` that it has functions for C. `layer` is the
    name of the layer, if the crate is a part of the library."""

    def __init__(self, source, target, omitted=(), root='lib', ends=('', ''), tests=False, above=False, layer=None,
                 exports=False):
        self.source, self.target, self.omitted, self.root, self.ends = source, target, set(omitted), root, ends
        self.tests, self.above, self.layer, self.exports = tests, above, layer, exports
        self.on_core = bool(layer) or 'no_std' in ends[0]

    def place(self, module):
        """The path of a module in the crate that is made."""
        if not self.layer:
            return module
        # a module in a module of the layer goes with it
        outer, slash, inner = module.partition('/')
        if (self.layer, outer) not in PLACES:
            raise SystemExit(f'to_rust.py: {self.source}/{module}.rt: expected a module of LAYERS, found {module}')
        return PLACES[self.layer, outer] + slash + inner

    def omits(self, module):
        """Whether a module, or a module that contains it, is left out."""
        parts = module.split('/')
        return any('/'.join(parts[:n]) in self.omitted for n in range(1, len(parts) + 1))

    def left_out(self, module):
        """The modules that a file of this name declares and that are left out."""
        folder = '' if module == self.root and module != 'tests' else module + '/'
        return {name[len(folder):] for name in self.omitted
                if name.startswith(folder) and f'{self.target}/{name}.rs' not in WRITTEN_BY_HAND}


CRATES = [
    Crate('crates/ixdtf/src', 'rust/ixdtf/src', ['laws'], ends=LIBRARY),
    *(Crate(f'crates/{layer}/src', 'rust/ixdtf/src', ['lib', 'looks'], layer=layer) for layer in LAYERS),
    Crate('crates/ixdtf_callers/src', 'rust/ixdtf/src', ['lib'], root='callers', tests=True),
    Crate('crates/ixdtf_tests/src', 'rust/ixdtf/src', ['lib', 'tests/laws', 'tests/printing'], root='tests', tests=True),
    Crate('crates/ixdtf_print/src', 'rust/ixdtf_print/src', ['laws'], ends=PRINTER, above=True),
    Crate('crates/ixdtf_buffers/src', 'rust/ixdtf_buffers/src', ['memory', 'place'], ends=PROGRAM, above=True),
    Crate('crates/ixdtf_answers/src', 'rust/ixdtf_lines/src', ['laws', 'lib'], ends=PROGRAM, above=True),
    Crate('crates/ixdtf_checks/src', 'rust/ixdtf_check/src', ['laws', 'lib'], ends=PROGRAM, above=True),
    Crate('crates/ixdtf_c/src', 'rust/ixdtf_c/src', ['laws', 'turns', 'tests', 'slices'], ends=FOR_C, above=True, exports=True),
]
WRITTEN_BY_HAND = {'rust/ixdtf/src/from_text.rs', 'rust/ixdtf/src/runtime.rs', 'rust/ixdtf_lines/src/main.rs', 'rust/ixdtf_check/src/main.rs',
                   'rust/ixdtf_c/src/abort.rs', 'rust/ixdtf_c/src/slices.rs', 'rust/ixdtf_buffers/src/place.rs'}
DERIVES = {'Clone', 'Copy', 'Debug', 'Default', 'Eq', 'Hash', 'Ord', 'PartialEq', 'PartialOrd'}
KEPT_ATTRIBUTES = {'inline', 'inline(always)', 'inline(never)', 'cold', 'doc(hidden)', 'allow(clippy::needless_match)',
                   'allow(clippy::needless_range_loop)'}
TEST_ATTRIBUTES = {'test', 'cfg(test)'}
# for a crate with functions for C: the attributes of its structs and functions, and the head of such a function
EXPORT_ATTRIBUTES = {'repr(C)', 'unsafe(no_mangle)'}
EXPORTED = '# [ unsafe ( no_mangle ) ] pub extern "C" fn'.split()
# the library for C makes records from their fields
OPEN_FOR_C = '#[cfg_attr(not(feature = "open-records"), non_exhaustive)]'
ADDED = {
    ('records', 'IxdtfParseRecord'): OPEN_FOR_C, ('records', 'Annotation'): OPEN_FOR_C,
    ('records', 'TimeZoneAnnotation'): OPEN_FOR_C, ('records', 'TimeZoneRecord'): '#[non_exhaustive]',
    ('records', 'UtcOffsetRecord'): '#[non_exhaustive]', ('error', 'ParseError'): '#[non_exhaustive]',
    ('reason', 'Reason'): '#[non_exhaustive]', ('records', 'Sign'): '#[repr(i8)]',
}
OPEN = {name for (_, name), attribute in ADDED.items() if attribute == '#[non_exhaustive]'}
INLINED = {'parsers', 'parsers/constructors', 'parsers/exact', 'parsers/handled', 'parsers/unhandled', 'parsers/time_zone_parser', 'parsers/duration'}
MARKED = INLINED | {'error', 'instants', 'located', 'records', 'canonical', 'length'}
# names in the module above to which doc comments of a module link
FARTHER = {'parsers/unhandled': ('Profile', 'TimeZoneParser')}
RESULTS = {'Result', 'ParserResult'}
# the types whose equality becomes a derived one, and the functions that this equality calls
DERIVED = {('error', 'ParseError'): {'variant_index', 'location'}, ('located', 'LocatedError'): set()}
UNSEEN = [phrase.split() for phrase in ['use crate :: looks :: Looks ;', 'looks : Looks ,', 'looks : Looks :: none ( ) ,', 'self . looks . tick ( ) ;',
                                        'let common = left . len ( ) . min ( right . len ( ) ) ;', 'self . looks . tick_by ( common ) ;', 'self . looks . tick_by ( 4 ) ;',
                                        'looks : std :: mem :: replace ( & mut self . looks , Looks :: none ( ) ) ,',
                                        'self . keep_looks ( here ) ;', 'self . cursor . keep_looks ( here ) ;', 'self . cursor . keep_looks ( text . here ) ;', 'text . here . keep_looks ( here ) ;', 'cursor . keep_looks ( again ) ;', 'cursor . keep_looks ( front ) ;']]
COUNT = '# [ inline ( always ) ] pub fn keep_looks ('.split()
WRITER, LAST_WRITER, FORMATTER = '< W : fmt :: Write >'.split(), ', W : fmt :: Write > ('.split(), 'fmt :: Formatter < W >'.split()
USES = {'std::marker::Model': '', 'std::marker::{Model,PhantomData}': 'use std::marker::PhantomData;'}
TEST_USES = {'std::process::Abort': 'Abort', 'std::test::Fail': 'Fail', 'std::alloc::{AllocError,Global}': '{AllocError, Global, String}', 'std::alloc::Global': 'Global'}
CORE_TEXT = 'str :: from_utf8 ('.split()
TEST_HEAD = '( rt : HostRuntime )'.split()
TEST_CLONE = '. clone ( )'.split()
TEST_USE = '\n#[allow(unused_imports)]\nuse crate::runtime::{HostRuntime, TryClone};\n'
PROVE = 'const _ : ( ) = prove ! ('.split()
MACROS = {'matches', 'assert', 'unreachable', 'write'}
TEST_MACROS = {'matches', 'assert', 'assert_eq', 'assert_ne', 'format', 'unreachable'}
REFUSED = set('unsafe extern dyn async await macro_rules union yield move box raw global_asm asm prove_eq prove_ne'
              ' requires ensures ghost Model tactic derive_where invariant decreases alloc Global'.split())
TEST_REFUSED = REFUSED - {'alloc', 'Global'}
KEYWORDS = set('pub if match while for in return let else'.split())
# names of functions that no source declares: the handler of a reader, and the functions of src/slices.rs of the library for C and of
# src/place.rs of the buffers
CALLED = {'handler', 'to_c', 'from_c', 'place_of', 'pass_many'}
STD_PATHS = {'std::str::from_utf8', 'std::fmt', 'std::error::Error', 'std::marker::PhantomData', 'std::mem::replace', 'std::fmt::Debug', 'std::io::{Read,Write}',
             'std::io::Write', 'std::io::Read', 'std::io::{ErrorKind,Read}', 'std::io::{ErrorKind,Write}', 'std::fmt::Write', 'std::str', 'std::hash::Hash', 'std::hash::{Hash,Hasher}'}
STD_METHODS = set('get len split_at is_ascii_digit is_ascii_alphabetic is_ascii_lowercase write_str as_bytes then_some pow is_ok is_err'
                  ' is_none to_le_bytes saturating_add saturating_sub min max map copied checked_mul checked_add unsigned_abs'
                  ' is_ascii_alphanumeric as_slice iter position all contains first is_empty valid_up_to copy_from_slice read write flush digit_count leading_value'
                  ' chars len_utf8 is_control encode_utf8 last is_some unwrap_or starts_with parse checked_sub ok max as_ref copy_within is_ascii ilog10 split_once enumerate'
                  ' hash into kind is_ascii_graphic wrapping_sub div_euclid rem_euclid eq_ignore_ascii_case is_ascii_uppercase find'.split())
# methods of the iterators over the characters of a text, and the heads of the types that they return
ON_CHARACTERS = {('Chars', 'next'): 'Option', ('Chars', 'take'): 'Chars', ('Chars', 'skip'): 'Chars', ('Chars', 'count'): 'usize'}
CALLED_ON_CHARACTERS = {method for _, method in ON_CHARACTERS}
OWN_PATHS = {'self', 'crate', 'Self', 'T', 'C', 'E', 'L'}
HIDDEN = '# [ doc ( hidden ) ] pub fn'.split()
# hidden functions that crates above the library call too
CALLED_FROM_ABOVE = {'of_parts'}
STD_CALLS = {'u8::from', 'u64::from', 'u64::from_le_bytes', 'u32::from', 'u16::from', 'usize::from', 'u128::from', 'i32::from', 'i64::from', 'char::from', 'u8::try_from', 'u32::try_from', 'usize::try_from', 'fmt::Debug::fmt', 'str::from_utf8'}
# the names of the methods of `core`, from its documentation for Rust 1.95 (`id="method.NAME"` and `id="tymethod.NAME"`)
with open(os.path.join(os.path.dirname(os.path.abspath(__file__)), 'core_methods.txt'), encoding='ascii') as names:
    CORE_METHODS = set(names.read().split())

TOKEN = re.compile(r'''
  (?P<space>\s+)
 |(?P<doc>///(?!/)[^\n]*|//![^\n]*)
 |(?P<comment>//[^\n]*)
 |(?P<string>b?"(?:[^"\\\n]|\\(?:[nrt0\\'"]|x[0-9a-fA-F]{2}|u\{[0-9a-fA-F]+\}))*")
 |(?P<char>b?'(?:[^'\\\n]|\\(?:[nrt0\\'"]|x[0-9a-fA-F]{2}|u\{[0-9a-fA-F]{1,6}\}))')
 |(?P<life>'[a-z_]+(?!'))
 |(?P<word>(?!r\#|b?r"|b?r\#)[A-Za-z_][A-Za-z_0-9]*)
 |(?P<number>[0-9][A-Za-z_0-9]*)
 |(?P<mark>::|->|=>|\.\.=|\.\.|&&|\|\||==|!=|<=|>=|\+=|-=|\*=|[-+*/%&|^!<>=:;,.@_\#$?()\[\]{}])
''', re.X | re.A)
GHOST_USE = re.compile(r'ghost use Rattle\.[^;{}"\n]*(?:\{[^;{}"\n]*\})?;|ghost use base\.[^;{}"\n]*\{[^;{}"\n]*\};')
GHOST_ITEM = re.compile(r'ghost [A-Za-z_]+(?: =|:) (?=\{)')
CLAUSE = re.compile(r'(?:requires|ensures)(?: [a-z_]+)? (?=\{)')


class Refused(Exception):
    """A source has something that the tool does not know. The text says what."""


class Token:
    """A token: its kind, its text, and its index in the source."""

    def __init__(self, kind, text, at):
        self.kind, self.text, self.at = kind, text, at


def end_of_block(text, at):
    """The index after the `}` of the ghost text whose `{` is at this index."""
    depth = 0
    while True:
        if at >= len(text):
            raise Refused('a ghost text has no closing bracket')
        if text[at] == '"':
            end = text.find('"', at + 1)
            if end < 0 or '\\' in text[at:end] or '\n' in text[at:end]:
                raise Refused('a string in a ghost text must have an end, and must not have an escape or a line break')
            at = end
        elif text[at] == "'" or text.startswith(('//', '/*', '--', '{-'), at):
            raise Refused('a ghost text must not have a single quote or a comment')
        elif text[at] == '{':
            depth += 1
        elif text[at] == '}':
            depth -= 1
            if depth == 0:
                return at + 1
        at += 1


def scan(text):
    """The tokens of a file. A clause is one token `clause`, and a ghost item one token `ghost`."""
    at, tokens = 0, []
    while at < len(text):
        found = TOKEN.match(text, at)
        if not found or text.startswith('/*', at):
            raise Refused(f'expected a token, found {text[at:at + 40]!r}')
        kind, end = found.lastgroup, found.end()
        if kind == 'word' and found[0] in ('requires', 'ensures'):
            head = CLAUSE.match(text, at)
            if not head:
                raise Refused(f'expected a clause, found {text[at:at + 40]!r}')
            kind, end = 'clause', end_of_block(text, head.end())
        elif kind == 'word' and found[0] == 'ghost':
            kind = 'ghost'
            used, item = GHOST_USE.match(text, at), GHOST_ITEM.match(text, at)
            if used:
                end = used.end()
            elif item:
                end = end_of_block(text, item.end()) + 1
                public = [t for t in tokens if t.kind != 'space'][-1:]
                field = item[0].rstrip().endswith(':') and text[end - 1] == ','
                if not field and text[end - 1] != ';':
                    raise Refused('a ghost item must end with `;`, or with `,` if it is a field')
                if field and public and public[0].text == 'pub':
                    while tokens.pop() is not public[0]:
                        pass
            else:
                raise Refused(f'expected a ghost item, found {text[at:at + 40]!r}')
        tokens.append(Token(kind, text[at:end], at))
        at = end
    return tokens


class Solid:
    """The indices of the next tokens, from an index on, without spaces and comments. They are found when they are needed."""

    def __init__(self, tokens, at):
        self.found = []
        self.left = (i for i in range(at, min(at + 200, len(tokens))) if tokens[i].kind not in ('space', 'comment', 'doc'))

    def __getitem__(self, k):
        while len(self.found) <= k:
            following = next(self.left, None)
            if following is None:
                raise IndexError(k)
            self.found.append(following)
        return self.found[k]


def gone(tokens, first, last):
    """Removes the tokens from one index to another."""
    tokens[first:last + 1] = [Token('gone', '', tokens[first].at)]


def put(tokens, first, last, text):
    """Replaces the tokens from one index to another by this text."""
    tokens[first:last + 1] = [Token('put', text, tokens[first].at)]


def group(tokens, at):
    """The index of the bracket that closes the bracket at this index."""
    closes, depth = {'(': ')', '[': ']', '{': '}'}, []
    for i in range(at, len(tokens)):
        if tokens[i].kind == 'mark' and tokens[i].text in closes:
            depth.append(closes[tokens[i].text])
        elif tokens[i].kind == 'mark' and tokens[i].text in ')]}':
            if tokens[i].text != depth.pop():
                raise Refused('a bracket is closed by a bracket of another kind')
            if not depth:
                return i
    raise Refused('a bracket is not closed')


def attribute(tokens, at, crate):
    """Keeps, rewrites or removes the attribute that begins at this index. Refuses an unknown one."""
    inner = tokens[at + 1].text == '!'
    start = at + 1 + inner
    if tokens[start].text != '[':
        raise Refused('expected `[` after `#`')
    last = group(tokens, start)
    text = ''.join(t.text for t in tokens[start + 1:last])
    name, _, arguments = text.partition('(')
    names = arguments.rstrip(')').split(', ')
    if name == 'tactic' and arguments:
        return gone(tokens, at, last)
    if text == 'cfg(test)' and (crate.tests or is_here(tokens, Solid(tokens, last + 1), 0, ['mod', 'tests', ';']) and crate.omits('tests')):
        return gone(tokens, at, last)
    if inner:
        raise Refused(f'the attribute `{text}` is not in the lists of this tool')
    if text == 'rattlefmt::skip':
        return gone(tokens, at, last)
    if name in ('derive', 'derive_where'):
        kept = [n for n in names if n != 'Drop' or name != 'derive']
        if not DERIVES.issuperset(kept):
            raise Refused(f'the attribute `{text}` is not in the lists of this tool')
        return put(tokens, at, last, f'#[derive({", ".join(kept)})]') if kept else gone(tokens, at, last)
    kept = KEPT_ATTRIBUTES | (TEST_ATTRIBUTES if crate.tests else set()) | (EXPORT_ATTRIBUTES if crate.exports else set())
    if text not in kept or text == 'unsafe(no_mangle)' and tokens[Solid(tokens, last + 1)[2]].text != '"C"':
        raise Refused(f'the attribute `{text}` is not in the lists of this tool')


def is_here(tokens, places, k, words):
    """Whether the tokens are these words, from the k-th of the indices on."""
    try:
        for i, word in enumerate(words):
            if tokens[places[k + i]].text != word:
                return False
    except IndexError:
        return False
    return True


# the first tokens of everything that `rewrite` changes: it skips all other tokens, which saves time
STARTS = {*(phrase[0] for phrase in UNSEEN), *LAYERS, '#', 'crate', 'std', 'pub', 'impl', 'use', 'match', 'fn', 'mod', 'struct', 'enum',
          *(phrase[0] for phrase in (CORE_TEXT, LAST_WRITER, FORMATTER, PROVE, TEST_CLONE))}


def rewrite(tokens, module, crate):
    """Rewrites the attributes, models, uses and signatures of the file, one after another."""
    at = 0
    while at < len(tokens):
        token = tokens[at]
        if token.kind not in ('word', 'mark') or token.text not in STARTS:
            at += 1
            continue
        places = Solid(tokens, at)
        phrase = None if crate.tests else next((phrase for phrase in UNSEEN if phrase[0] == token.text and is_here(tokens, places, 0, phrase)), None)
        if phrase:
            unseen(tokens, at, places[len(phrase) - 1])
        elif crate.on_core and module == 'cursor' and is_here(tokens, places, 0, COUNT):
            unseen(tokens, at, group(tokens, next(i for i in range(at, len(tokens)) if tokens[i].text == '{')))
        elif crate.layer and is_here(tokens, places, 0, HIDDEN) and tokens[places[9]].text not in CALLED_FROM_ABOVE:
            put(tokens, at, places[7], 'pub(crate)')
        elif crate.exports and is_here(tokens, places, 0, EXPORTED):
            export(tokens, places[8])
            attribute(tokens, at, crate)
        elif token.kind == 'mark' and token.text == '#':
            attribute(tokens, at, crate)
        elif token.kind == 'word' and (token.text in LAYERS or token.text == 'crate' and crate.layer) and tokens[at + 1].text == '::':
            through_layer(tokens, at, module, crate)
        elif crate.on_core and token.text == 'std' and is_here(tokens, places, 1, ['::']):
            token.text = 'core'
        elif not crate.tests and token.text == 'pub' and module in MARKED and is_here(tokens, places, 1, ['fn']):
            at = marked(tokens, at, module)
        elif token.kind == 'word' and token.text == 'impl':
            head = []
            for i in places:
                if tokens[i].text in ('{', '('):
                    break
                head.append(tokens[i].text)
            last = group(tokens, i) if tokens[i].text == '{' else at
            if is_derived(tokens, at, last, head, module):
                unseen(tokens, at, last)
                continue
            if 'Model' in head and head[head.index('Model') + 1] == 'for' and tokens[i].text == '{':
                last = group(tokens, i)
                if any(t.kind not in ('space', 'ghost', 'doc', 'comment') for t in tokens[i + 1:last]):
                    raise Refused('a model must have only ghost items')
                gone(tokens, at, last)
        elif token.kind == 'word' and token.text == 'use':
            last = next(i for i in range(at, len(tokens)) if tokens[i].text == ';')
            text = ''.join(t.text for t in tokens[at + 1:last] if t.kind != 'space')
            first = at - 2 if tokens[at - 2].text == 'pub' else at
            if tokens[places[1]].text in crate.left_out(module):
                gone(tokens, first, last)
                at = first
            elif text in USES:
                put(tokens, at, last, USES[text]) if USES[text] else gone(tokens, at, last)
            elif crate.tests and text in TEST_USES:
                put(tokens, at, last, f'use crate::runtime::{TEST_USES[text]};')
        elif crate.above and token.text == 'match':
            last_arm(tokens, at)
        elif crate.tests and token.text == 'fn' and is_here(tokens, places, 2, TEST_HEAD):
            test_head(tokens, at, places)
        elif crate.tests and is_here(tokens, places, 0, TEST_CLONE):
            put(tokens, places[1], places[1], 'try_clone')
        elif is_here(tokens, places, 0, CORE_TEXT) and tokens[at - 1].text != '::':
            put(tokens, at, at, 'core::str' if crate.on_core else 'std::str')
        elif token.text == 'fn' and is_here(tokens, places, 2, WRITER):
            put(tokens, places[2], places[len(WRITER) + 1], '')
        elif is_here(tokens, places, 0, LAST_WRITER):
            put(tokens, at, places[len(LAST_WRITER) - 2], '>')
        elif is_here(tokens, places, 0, FORMATTER):
            put(tokens, at, places[len(FORMATTER) - 1], "fmt::Formatter<'_>")
        elif is_here(tokens, places, 0, PROVE):
            put(tokens, places[6], places[6], 'assert')
        elif token.kind == 'word' and token.text == 'mod' and tokens[places[1]].text in crate.left_out(module):
            first = at
            while tokens[first - 1].kind in ('space', 'word') and tokens[first - 1].text in (' ', 'pub'):
                first -= 1
            if tokens[places[2]].text != ';':
                raise Refused('an omitted module must be in a file of its own')
            gone(tokens, first, places[2])
        elif token.kind == 'word' and token.text in ('struct', 'enum'):
            name = module, tokens[places[1]].text
            added = None if crate.tests else '\n'.join(['#[derive(PartialEq)]'] * (name in DERIVED) + [ADDED.get(name)] * (name in ADDED))
            if added:
                if tokens[at - 2].text != 'pub' or not tokens[at - 3].text.endswith('\n'):
                    raise Refused('a type of ADDED or DERIVED must be public')
                tokens.insert(at - 2, Token('put', added + '\n', token.at))
                at += 1
        at += 1


def unseen(tokens, first, last):
    """Marks the tokens from one index to another as a ghost item, so that they are removed with the comments right before them."""
    tokens[first:last + 1] = [Token('ghost', '', tokens[first].at)]


def marked(tokens, at, module):
    """Inserts the attributes of rule 8 before a public function, and returns its index."""
    opening = next(i for i in range(at, len(tokens)) if tokens[i].text == '{')
    words = [t.text for t in tokens[at:opening] if t.kind not in ('space', 'comment', 'doc', 'clause')]
    parameters = words[words.index('('):close(words, words.index('(')) + 1]
    returned = words[words.index('->') + 1:] if '->' in words else []
    if 'mut' in parameters or not returned or returned[0] in RESULTS:
        return at
    before = ''.join(t.text for t in tokens[max(0, at - 12):at]).rpartition('}')[2]
    if '#[doc(hidden)]' in before:
        return at
    margin = tokens[at - 1].text.rpartition('\n')[2]
    added = '#[inline]' if module in INLINED and '#[inline' not in before else ''
    for attribute in [added, '#[must_use]']:
        if attribute:
            tokens.insert(at, Token('put', f'{attribute}\n{margin}', tokens[at].at))
            at += 1
    return at


def is_derived(tokens, first, last, head, module):
    """Whether an `impl` is an equality of DERIVED, or has only functions that such an equality calls."""
    for (place, name), called in DERIVED.items():
        if place == module and head == ['impl', 'PartialEq', 'for', name]:
            return True
        if place == module and head == ['impl', name]:
            body = tokens[first:last]
            names = {[t.text for t in body[i + 1:i + 3]][1] for i, t in enumerate(body) if t.text == 'fn'}
            return names <= called
    return False


def through_layer(tokens, at, module, crate):
    """Rewrites a path that begins with a layer, or with `crate` in a layer, to the new path of its module."""
    layer = crate.layer if tokens[at].text == 'crate' else tokens[at].text
    folder = PLACES.get((layer, tokens[at + 2].text), '').rpartition('/')[0]
    start = 'self' if folder and folder == module else f'crate::{folder}' if folder else 'crate'
    tokens[at] = Token('put', start, tokens[at].at)


def of_layers(module, plain, roots):
    """A file of the library. If it declares the modules of the layers, they are added. It also gets what it re-exports from
    their roots."""
    names = {place.rpartition('/')[2] for places in LAYERS.values() for place in places if place.rpartition('/')[0] == ('' if module == 'lib' else module)}
    shown = [name for line in re.findall(r'pub use crate::(?:\{([A-Za-z,\s_]+)\}|([a-z_]+));\n', plain) for name in re.findall(r'\w+', ''.join(line))]
    lines = [line for line in plain.splitlines(True)]
    block = [line for line in lines if re.match(r'(pub )?mod [a-z_]+;', line)]
    first = lines.index(block[0])
    block += [f'{"pub " if name in shown else ""}mod {name};\n' for name in names]
    lines = [line for line in lines if line not in block]
    # A page of the documentation shows the functions of a type in the order of its modules: its constructors come first, and
    # then the readers without a handler.
    front = ['constructors;', 'unhandled;']
    lines[first:first] = sorted(block, key=lambda line: (line.split()[-1] not in front, line.split()[-1]))
    items = ''.join(sorted((of_root(name, roots) for name in shown if name not in names), key=lambda item: (item.startswith('\n'), item)))
    return re.sub(r'(?:pub use crate::(?:\{[A-Za-z,\s_]+\}|[a-z_]+);\n)+', lambda m: items, ''.join(lines))


def of_root(name, roots):
    """The item with this name in the root of a layer."""
    found = [m[0] for text in roots for m in re.finditer(rf'pub use (?!ixdtf_)[a-z_]+::{name};\n|\n(?:///[^\n]*\n)*pub type {name}[^\n]*\n', text)]
    # an item that the layer re-exports together with others of its module
    found += [f'pub use {m[1]}::{name};\n' for text in roots for m in re.finditer(r'pub use (?!ixdtf_)([a-z_]+)::\{([A-Za-z,\s]+)\};\n', text)
              if name in re.findall(r'\w+', m[2])]
    if len(found) != 1:
        raise Refused(f'expected one item {name} in the layers, found {len(found)}')
    return found[0]


def test_head(tokens, at, places):
    """Rewrites the head of a test. The test has no parameter, and makes the runtime that the source has as a parameter, if it names one."""
    first, last = places[2], places[6]
    opening = next(i for i in places if tokens[i].text == '{')
    named = any(t.kind == 'word' and t.text == 'rt' for t in tokens[opening:group(tokens, opening)])
    if named:
        tokens[opening] = Token('put', '{\n    let rt = HostRuntime;', tokens[opening].at)
    put(tokens, first, last, '()')


def export(tokens, at):
    """Rewrites a function for C, whose `extern` is at this index: each slice becomes a pointer and a length."""
    opening = next(i for i in range(at, len(tokens)) if tokens[i].text == '(')
    last = group(tokens, opening)
    body = next(i for i in range(last, len(tokens)) if tokens[i].text == '{')
    breaks = [opening] + [i for i in range(opening, last) if tokens[i].text == ',' and not inside(tokens, opening + 1, i)] + [last]
    lines = []
    for start, end in zip(breaks[-2::-1], breaks[:0:-1]):
        places = [i for i in range(start + 1, end) if tokens[i].kind not in ('space', 'comment', 'doc')]
        words = [tokens[i].text for i in places]
        if '[' not in words:
            continue
        name, bracket = words[0], words.index('[')
        borrow = [w for w in words[2:bracket] if not w.startswith("'")]
        if words[1] != ':' or borrow not in (['&'], ['&', 'mut']) or words[-1] != ']':
            raise Refused(f'a function for C has an unknown kind of parameter: {" ".join(words)}')
        unit = ''.join(t.text for t in tokens[places[bracket] + 1:places[-1]])
        pointer, made = ('*mut', 'slice_mut') if 'mut' in borrow else ('*const', 'slice')
        between = tokens[opening + 1].text if tokens[opening + 1].kind == 'space' else ' '
        lines.insert(0, f'\n    // SAFETY: the header requires this of the caller.\n    let {name} = unsafe {{ crate::slices::{made}({name}, {name}_length) }};')
        tokens[places[0]:places[-1] + 1] = [Token('put', f'{name}: {pointer} {unit},{between}{name}_length: usize', tokens[start].at)]
        body += places[0] - places[-1]
    if lines:
        tokens.insert(body + 1, Token('put', ''.join(lines), tokens[body].at))
        tokens[at] = Token('put', 'unsafe extern', tokens[at].at)


def inside(tokens, first, at):
    """Whether a bracket that opens after the first index is still open at the second one."""
    texts = [t.text for t in tokens[first:at] if t.kind == 'mark']
    return any(texts.count(a) != texts.count(b) for a, b in ('()', '[]', '<>'))


def last_arm(tokens, at):
    """Adds a last arm to a `match` with arms for the variants of an open type."""
    opening = next(i for i in range(at, len(tokens)) if tokens[i].text == '{')
    last = group(tokens, opening)
    margin = tokens[last - 1].text.rpartition('\n')[2] if tokens[last - 1].kind == 'space' else ''
    depth, pattern, wanted, caught = 0, True, False, False
    words = [t for t in tokens[opening + 1:last] if t.kind not in ('space', 'comment', 'doc')]
    for i, token in enumerate(words):
        if token.text == '=>' and not depth:
            pattern = False
        elif not pattern and not depth and (token.text == ',' or words[i - 1].text == '}'):
            pattern = True
        if pattern and token.text in OPEN and words[i + 1].text == '::':
            wanted = True
        if pattern and not depth and token.text == '_' and words[i + 1].text == '=>':
            caught = True
        depth += (token.text in '([{') - (token.text in ')]}')
    if wanted and not caught:
        tokens.insert(last, Token('put', f'    _ => unreachable!(),\n{margin}', tokens[last].at))


def lay_out(tokens):
    """The text of the file. What was removed leaves no empty line, and a `{` is put on the line of its signature."""
    for at, token in enumerate(tokens):
        if token.kind in ('clause', 'ghost'):
            # The comments and doc comments right before it belong to it.
            back = at - 1
            while tokens[back].kind in ('comment', 'doc') or tokens[back].kind == 'space' and tokens[back].text.count('\n') < 2:
                if tokens[back].text.startswith('//!'):
                    break
                if tokens[back].kind != 'space':
                    tokens[back] = Token('gone', '', tokens[back].at)
                back -= 1
            token.kind, token.text = 'gone', ''
    out, at = [], 0
    while at < len(tokens):
        run = at
        while run < len(tokens) and tokens[run].kind in ('gone', 'space'):
            run += 1
        if all(t.kind == 'space' for t in tokens[at:run]):
            out += [t.text for t in tokens[at:run + 1]]
            at = run + 1
            continue
        following = tokens[run].text if run < len(tokens) else ''
        spaces = [t.text for t in tokens[at:run] if t.kind == 'space']
        margin = spaces[-1].rpartition('\n')[2] if spaces else ''
        text = ''.join(out)
        if following == '{':
            where = re.search(r'\bwhere\b', text[text.rindex('fn '):])
            out.append('\n' + margin if where else ' ')
        elif following == '':
            out.append('\n')
        elif following != ';' and text:
            blank = any(s.count('\n') > 1 for s in spaces) and text[-1] != '{' and following != '}'
            out.append('\n' * (1 + blank) + margin)
        at = run
    return ''.join(out)


def declared(words, files):
    """The names that the crates declare after these words."""
    return frozenset().union(*(declared_in(words, text) for text in files))


@functools.cache
def declared_in(words, text):
    """The names that a file declares after these words."""
    return frozenset(re.findall(rf'\b(?:{words}) ([A-Za-z_0-9]+)', text))


@functools.cache
def solid_tokens(text):
    """The tokens of a text that are not spaces, comments or literals of characters and strings."""
    return [t for t in scan(text) if t.kind not in ('space', 'comment', 'doc', 'string', 'char')]


def head_of(words):
    """The name of a type, without its borrow, its path and its parameters."""
    names = [w for w in words if w not in ('&', 'mut', '(', 'Self') and not w.startswith("'")]
    if 'Self' in words and (not names or words.index('Self') <= words.index(names[0])):
        return 'Self'
    at = 0
    while names[at + 1:at + 2] == ['::']:
        at += 2
    return names[at] if names else ''


def split_commas(words):
    """The parts between the commas that are not in brackets."""
    parts, depth = [[]], 0
    for word in words:
        depth += (word in '([{<') - (word in ')]}>')
        if word == ',' and not depth:
            parts.append([])
        else:
            parts[-1].append(word)
    return [part for part in parts if part]


class Types:
    """What the sources say about their own types: the fields, the methods, and what the methods return. Each type is known by its head."""

    def __init__(self, files):
        self.fields, self.methods = {}, {}
        for text in files:
            for _, kind, name, words in items(text):
                if kind == 'struct':
                    for part in split_commas(words):
                        part = part[part.index('pub') + 1:] if 'pub' in part[:1] else part
                        part = part[3:] if part[:1] == ['('] else part
                        if part[1:2] == [':']:
                            self.fields[name, part[0]] = head_of(part[2:])
                elif kind == 'fn':
                    owner, method = name
                    returned = words[words.index('->') + 1:] if '->' in words else []
                    head = owner if head_of(returned) == 'Self' else head_of(returned)
                    # Two functions of one name that are not methods are known only if both return the same type.
                    self.methods[owner, method] = head if self.methods.get((owner, method), head) == head else ''

    def __eq__(self, other):
        return (self.fields, self.methods) == (other.fields, other.methods)

    def __hash__(self):
        return hash((frozenset(self.fields), frozenset(self.methods)))


@functools.cache
def items(text):
    """The structs and functions of a file: the index, the kind, the name, and the words of the fields or of the signature. The name
    of a function comes with the name of its type or trait, which is empty if there is none."""
    return tuple(each_item(text))


def each_item(text):
    """The items of `items`, one after another."""
    words = [t.text for t in solid_tokens(text)]
    owners, depth, at = [], 0, 0
    while at < len(words):
        word = words[at]
        if word in ('impl', 'trait') and (at == 0 or words[at - 1] in ('}', ';', ']', 'pub', ')') or word == 'trait'):
            end = words.index('{', at)
            head = words[at + 1:end]
            if word == 'impl' and head[:1] == ['<']:
                level = 0
                for i, w in enumerate(head):
                    level += (w == '<') - (w == '>')
                    if not level:
                        head = head[i + 1:]
                        break
            if 'for' in head:
                head = head[head.index('for') + 1:]
            owners.append((depth, head_of(head)))
        elif word == 'struct' and words[at + 2] in ('{', '<'):
            start = words.index('{', at)
            yield at, 'struct', words[at + 1], words[start + 1:close(words, start)]
        elif word == 'fn':
            end = close(words, words.index('(', at))
            while words[end] not in ('{', ';'):
                end = close(words, end) if words[end] in '([' else end
                end += 1
            signature = words[at + 2:end]
            yield at, 'fn', (owners[-1][1] if owners else '', words[at + 1]), signature
        depth += (word == '{') - (word == '}')
        if word == '}' and owners and owners[-1][0] == depth:
            owners.pop()
        at += 1


def close(words, at):
    """The index of the bracket that closes the bracket at this index."""
    depth = 0
    for i in range(at, len(words)):
        depth += (words[i] in '([{') - (words[i] in ')]}')
        if not depth:
            return i
    raise Refused('a bracket is not closed')


def parameters(signature):
    """The parameters of a signature and the heads of their types."""
    start = signature.index('(')
    found = {}
    for part in split_commas(signature[start + 1:close(signature, start)]):
        part = part[1:] if part[0] == 'mut' else part
        if part[1:2] == [':']:
            found[part[0]] = head_of(part[2:])
    return found


def receivers(text, types):
    """Refuses a call of a method with the name of a method of `core`, unless the receiver is known to have a type of the crate with this
    method."""
    words = [t.text for t in solid_tokens(text)]
    own = {method for _, method in types.methods}
    if 'chars' in own:
        raise Refused('no type may have a method `chars`, because this tool takes `chars` for the method of a text')
    known, owner = {}, ''
    functions = {at: (name, signature) for at, kind, name, signature in items(text) if kind == 'fn'}
    for at, word in enumerate(words):
        if at in functions:
            (owner, _), signature = functions[at]
            known = {name: owner if head == 'Self' else head for name, head in parameters(signature).items()}
            known['self'] = owner
        if word == 'let':
            name = words[at + 2] if words[at + 1] == 'mut' else words[at + 1]
            start = at + 2 + (words[at + 1] == 'mut')
            known.pop(name, None)
            if words[start] == '=':
                value = words[start + 1:start + 6]
                if value[1:2] == ['::'] and (value[0], value[2]) in types.methods:
                    known[name] = types.methods[value[0], value[2]]
                elif '(' in words[start + 1:start + 9]:
                    path = words[start + 1:start + 1 + words[start + 1:start + 9].index('(')]
                    if path[-2:-1] == ['.']:
                        known[name] = types.methods.get((type_of(path[:-2], known, types), path[-1]), '')
        if word == '.' and words[at + 2] == '(' and words[at + 1] in (own | CALLED_ON_CHARACTERS) & CORE_METHODS:
            path, back = [], at - 1
            while re.fullmatch(r'[a-z_][a-z_0-9]*', words[back]):
                path.insert(0, words[back])
                if words[back - 1] != '.':
                    break
                path.insert(0, '.')
                back -= 2
            here = type_of(path, known, types) or made_by(words, at - 1, types)
            call = here, words[at + 1]
            if call not in types.methods and call not in ON_CHARACTERS and words[at + 1] not in STD_METHODS:
                raise Refused(f'the method {words[at + 1]}, which `core` has too, is called on {"".join(path) or "an expression of an unknown type"}')


def made_by(words, at, types):
    """The head of the type that a call returns. The `)` of the call is at this index. The call is `NAME(..)`, `TYPE::NAME(..)`,
    `TYPE::<..>::NAME(..)`, or a chain of calls that begins with `.chars()`."""
    depth, start = 0, at
    while start >= 0:
        depth += (words[start] in ')') - (words[start] in '(')
        if not depth:
            break
        start -= 1
    if words[at] != ')' or not re.fullmatch(r'[a-z_][a-z_0-9]*', words[start - 1]):
        return ''
    if words[start - 2] not in ('::', '.'):
        return types.methods.get(('', words[start - 1]), '')
    name, back = words[start - 1], start - 3
    if words[start - 2] == '.':
        return 'Chars' if name == 'chars' else ON_CHARACTERS.get((made_by(words, back, types), name), '')
    if words[back] == '>':
        back = max(i for i in range(back) if words[i] == '<') - 2
    return types.methods.get((words[back], name), '')


def type_of(path, known, types):
    """The head of the type of a variable with its fields."""
    if not path:
        return ''
    found = known.get(path[0], '')
    for field in path[2::2]:
        found = types.fields.get((found, field), '')
    return found


def in_export(words, at):
    """Whether a word is in the head of a function for C, or in the line that makes a slice. Both have one form. Strings are not words here."""
    starts = [at - back for back in (2, 8, 9) if at >= back and words[at - back:at - back + 8] == EXPORTED[:8]]
    return (any([w for w in words[start + 8:start + 11] if w != 'unsafe'][:2] == ['extern', 'fn'] for start in starts)
            or words[at:at + 6] == 'unsafe { crate :: slices ::'.split())


def allowed(text, functions, types, crate):
    """Refuses what is not known, in a file as it would be written."""
    refused, macros = (TEST_REFUSED, TEST_MACROS) if crate.tests else (REFUSED, MACROS)
    tokens = solid_tokens(text)
    words = [t.text for t in tokens] + [''] * 8
    # the type parameters of the file whose bound is a trait of these crates
    own = OWN_PATHS | {words[i] for i in range(1, len(tokens)) if words[i - 1] in ('<', ',', 'where', ')') and len(words[i]) == 1
                       and words[i + 1] == ':' and words[i + 2] in types}
    for i, (token, word) in enumerate(zip(tokens, words)):
        if token.kind in ('clause', 'ghost'):
            raise Refused('a ghost item was not removed')
        if token.kind != 'word':
            continue
        before, after = words[i - 1] if i else '', words[i + 1]
        if word in refused and words[i:i + 2] != ['extern', 'crate'] and not (crate.exports and in_export(words, i)):
            raise Refused(f'the word `{word}` is not in the lists of this tool')
        if word == 'Formatter' and words[i + 1:i + 4] != ['<', "'_", '>']:
            raise Refused(f"expected `Formatter<'_>` after rule 1, found `Formatter{''.join(words[i + 1:i + 4])}`")
        if word == 'static' and after == 'mut':
            raise Refused('a static must not be `mut`')
        if after == '!' and words[i + 2] in '([{' and word not in macros:
            raise Refused(f'the macro `{word}` is not in the lists of this tool')
        if crate.tests:
            continue
        if word == 'size_of' and words[i - 2:i] != ['!', '(']:
            raise Refused('`size_of` must be in `prove!`, because a size can be different in Rust')
        in_attribute = before == '[' and words[i - 2] in '#!' or words[i - 2:i + 1] == ['cfg_attr', '(', 'not']
        if after == '(' and not in_attribute and before not in ('.', '::', 'fn', 'pub') and not word[0].isupper() and word not in functions | KEYWORDS | CALLED:
            raise Refused(f'the function `{word}` is not in the lists of this tool')
        if before == '.' and after == '(' and word not in functions | STD_METHODS | CALLED_ON_CHARACTERS:
            raise Refused(f'the method `{word}` is not in the lists of this tool')
        if word in ('std', 'core') and after == '::' and before != '::':
            path = word
            while words[i + 1] == '::':
                path, i = f'{path}::{words[i + 2]}', i + 2
            if path.endswith('::{'):
                path += ''.join(words[i + 1:words.index('}', i) + 1])
            if path.replace('core::', 'std::', 1) not in STD_PATHS:
                raise Refused(f'the path `{path}` is not in the lists of this tool')
        elif after == '::' and before != '::' and word not in types | own:
            path = word
            while words[i + 1] == '::':
                path, i = f'{path}::{words[i + 2]}', i + 2
            if words[i + 1] == '(' and path not in STD_CALLS:
                raise Refused(f'the function `{path}` is not in the lists of this tool')


class Known(NamedTuple):
    """What the sources of all crates declare: the names of functions, the names of types and modules, and the types with their methods."""
    functions: frozenset
    names: frozenset
    types: Types


def check(files, known):
    """Refuses what is not known, in files as they would be written. Each file is found by its crate and its module."""
    for (crate, module), plain in files.items():
        try:
            allowed(plain, known.functions, known.names, crate)
            if not crate.tests:
                receivers(plain, known.types)
        except Refused as why:
            raise SystemExit(f'to_rust.py: {crate.source}/{module}.rt: {why}')


def sources(crate):
    """The sources of a crate, by the names of their modules."""
    found = {}
    top = os.path.join(TOP, crate.source)
    for folder, _, names in os.walk(top):
        for name in names:
            path = os.path.relpath(os.path.join(folder, name), top)
            if not path.endswith('.rt'):
                raise SystemExit(f'to_rust.py: {crate.source}/{path}: expected a source, whose name ends with .rt')
            if not crate.omits(path[:-3]):
                with open(os.path.join(folder, name), encoding='utf-8') as file:
                    found[path[:-3]] = file.read()
    return found


def rewritten(crate, module, text):
    """A source after all changes that depend only on its own text."""
    tokens = scan(text)
    rewrite(tokens, module, crate)
    return lay_out(tokens)


def written(crate, module, text):
    """A source in Rust."""
    plain = rewritten(crate, module, text)
    for name in FARTHER.get(module, ()):
        plain = re.sub(rf'\[`({name}::\w+)`\](?!\()', r'[`\1`](super::\1)', plain)
    if crate.source == 'crates/ixdtf/src' and module in ('lib', 'parsers'):
        return of_layers(module, plain, [source_of(layer, 'lib') for layer in LAYERS])
    return plain


def text_of(path):
    """The text of a file of the repository."""
    with open(os.path.join(TOP, path), encoding='utf-8') as file:
        return file.read()


def source_of(crate, module):
    """The source of a module of a crate."""
    return text_of(f'crates/{crate}/src/{module}.rt')


def headed(crate, module, plain):
    """A file. If it is the root, it has the head and the end of its crate."""
    if crate.tests:
        head = re.match(r'(?://![^\n]*\n)*', plain)
        return head[0] + TEST_USE + plain[head.end():]
    if module != crate.root or not crate.ends[0]:
        return plain
    head = re.match(r'(?://![^\n]*\n)*', plain)
    documents = '' if crate.ends[0].startswith(README) else head[0] + '\n'
    return documents + crate.ends[0] + plain[head.end():] + crate.ends[1]


def made():
    """The files of all crates, by their names."""
    out, texts, added = {}, [], 0
    for crate in CRATES:
        if not os.path.isdir(os.path.join(TOP, crate.source)):
            continue
        for module, text in sorted(sources(crate).items()):
            try:
                out[crate, module] = written(crate, crate.place(module), text)
            except Refused as why:
                raise SystemExit(f'to_rust.py: {crate.source}/{module}.rt: {why}')
            if not crate.tests:
                texts.append(out[crate, module])
                added += sum(out[crate, module].count(a) for a in set(ADDED.values()))
    check(out, Known(declared('fn', texts), declared('struct|enum|trait|mod|type', texts), Types(texts)))
    if added != len(ADDED):
        raise SystemExit(f'to_rust.py: expected the {len(ADDED)} types of ADDED, found {added} of them')
    return {f'{crate.target}/{crate.place(module)}.rs': MADE.format(f'{crate.source}/{module}.rt') + headed(crate, module, plain)
            for (crate, module), plain in out.items()}


def main():
    """Writes the files, or checks them."""
    if sys.argv[1:] not in ([], ['--check']):
        raise SystemExit(__doc__)
    files = made()
    there = set()
    for target in {crate.target for crate in CRATES}:
        for folder, _, names in os.walk(os.path.join(TOP, target)):
            there |= {os.path.relpath(os.path.join(folder, name), TOP) for name in names}
    there -= WRITTEN_BY_HAND
    if not sys.argv[1:]:
        for path, text in files.items():
            os.makedirs(os.path.dirname(os.path.join(TOP, path)), exist_ok=True)
            with open(os.path.join(TOP, path), 'w', encoding='utf-8') as file:
                file.write(text)
        for path in there - set(files):
            os.remove(os.path.join(TOP, path))
        return
    wrong = sorted(there - set(files))
    for path, text in files.items():
        if path not in there or text_of(path) != text:
            wrong.append(path)
    for path in wrong:
        print(f'{path} differs from what tools/to_rust.py makes')
    sys.exit(bool(wrong))


if __name__ == '__main__':
    main()
