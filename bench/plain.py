#!/usr/bin/env python3
"""plain.py CHECKOUT: makes the benchmark in Rust, and builds it with cargo over the crates in CHECKOUT/rust.

The workloads are always those of crates/ixdtf_bench in the checkout of this file, and not those of CHECKOUT. So two checkouts are
measured with the same workloads. They are made by the rules of tools/to_rust.py. bench/runtime.rs has what they need from the library of
Rattle. The programs in rust/ have no libraries of their own, so this tool makes two libraries from their files, `ixdtf_answers` and
`ixdtf_checks`, like the proved crates of these names. The tool writes only to CHECKOUT/bench/out. It prints the path of the program. The exit
status is 1 if cargo fails."""
import os
import re
import subprocess
import sys

BENCH = os.path.dirname(os.path.abspath(__file__))
HERE = os.path.dirname(BENCH)
sys.path.insert(0, os.path.join(HERE, 'tools'))
import to_rust

# the libraries of the programs, and the Rust programs that contain their files
LIBRARIES = {'ixdtf_answers': 'ixdtf_lines', 'ixdtf_checks': 'ixdtf_check'}
MANIFEST = '''[package]
name = "{0}"
version = "0.0.0"
edition = "2024"
publish = false

[workspace]

[dependencies]
'''
OF_PLAIN = ('ixdtf', 'ixdtf_print', 'ixdtf_buffers')
BENCHMARK = to_rust.Crate('crates/ixdtf_bench/src', '', root='main', tests=True, above=True)
USES = {'use crate::runtime::{AllocError, Global, String};': 'use crate::runtime::{AllocError, Global, TryToVec, Vec};',
        'use std::env;': 'use crate::runtime::{HostRuntime, env};', '.to_vec(alloc)': '.try_to_vec(alloc)'}
# The later fields of `Request` in the workloads, and their values. A checkout may be older than such a field.
LATER_FIELDS = {'skips': 'None', 'most_reports': 'u64::MAX', 'format': 'Format::Text', 'extent': 'Extent::One'}
# A loop has a label if a proof names it. Rust needs no label there.
HEAD = '#![forbid(unsafe_code)]\n#![allow(unused_imports, unused_labels)]\n\n#[macro_use]\nmod runtime;\n'


def read(path):
    """The text of a file."""
    with open(path, encoding='utf-8') as file:
        return file.read()


def write(path, text):
    """Writes a file if its content is different, so that cargo builds only what has changed."""
    os.makedirs(os.path.dirname(path), exist_ok=True)
    if not os.path.exists(path) or read(path) != text:
        with open(path, 'w', encoding='utf-8') as file:
            file.write(text)


def manifest(name, checkout, made):
    """The manifest of a crate that uses the Rust crates of a checkout, and the crates `made`."""
    paths = {it: os.path.join(checkout, 'rust', it) for it in OF_PLAIN} | {it: f'../{it}' for it in made}
    return MANIFEST.format(name) + ''.join(f'{it} = {{ path = "{path}" }}\n' for it, path in paths.items())


def library(checkout, name, program):
    """The root file of a library that is made from the files of a Rust program. All its modules are public."""
    root = read(os.path.join(checkout, 'crates', name, 'src', 'lib.rt'))
    folder = os.path.join(checkout, 'rust', program, 'src')
    # The Rust program does not have some modules, such as the laws.
    modules = [it for it in re.findall(r'^(?:pub )?mod (\w+);$', root, re.M) if os.path.exists(os.path.join(folder, f'{it}.rs'))]
    return '#![forbid(unsafe_code)]\n#![allow(unused_labels, unused_variables)]\n\n' + ''.join(
        f'#[path = "{folder}/{module}.rs"]\npub mod {module};\n' for module in modules)


def workloads():
    """The files of the benchmark in Rust, by their names."""
    for module, text in sorted(to_rust.sources(BENCHMARK).items()):
        # A string that continues on the next line becomes one line.
        plain = to_rust.written(BENCHMARK, module, re.sub(r'\\\n\s*', '', text))
        for old, new in USES.items():
            plain = plain.replace(old, new)
        if module == 'main':
            head = re.match(r'(?://![^\n]*\n)*', plain).end()
            plain = plain[:head] + HEAD + plain[head:]
        yield f'{module}.rs', plain


def without_later(plain, checkout):
    """A file of the benchmark without the fields of `Request` and of `Field` that an older checkout does not have, with its name of the task of printing, and with the
    outputs of its `check`."""
    fields = read(os.path.join(checkout, 'rust', 'ixdtf_check', 'src', 'request.rs'))
    for field, value in LATER_FIELDS.items():
        if f'pub {field}:' not in fields:
            plain = plain.replace(f'    {field}: {value},\n', '')
    if 'enum Extent' not in fields:
        plain = plain.replace('Extent, ', '')
    if 'enum Format' not in fields:
        plain = plain.replace('Format, ', '')
    # In older checkouts, a check has one output.
    if not any(os.path.exists(os.path.join(checkout, 'rust', 'ixdtf_check', 'src', name)) for name in ('second.rs', 'second_output.rs')):
        plain = plain.replace('        &mut reports,\n', '')
    # In older checkouts, only date-times have canonical texts.
    return plain if 'Print(Kind)' in fields else plain.replace('Task::Print(Kind::DateTime)', 'Task::Print')


def build(checkout):
    """Makes the crates and builds them. Returns the path of the program."""
    checkout = os.path.abspath(checkout)
    top = os.path.join(checkout, 'bench', 'out', 'plain')
    for name, program in LIBRARIES.items():
        write(os.path.join(top, name, 'Cargo.toml'), manifest(name, checkout, ()))
        write(os.path.join(top, name, 'src', 'lib.rs'), library(checkout, name, program))
    folder = os.path.join(top, 'ixdtf_bench')
    write(os.path.join(folder, 'Cargo.toml'), manifest('ixdtf_bench', checkout, LIBRARIES))
    write(os.path.join(folder, 'src', 'runtime.rs'), read(os.path.join(BENCH, 'runtime.rs')))
    for name, plain in workloads():
        write(os.path.join(folder, 'src', name), without_later(plain, checkout))
    target = os.path.join(folder, 'target')
    # Each checkout has a folder of its own for the build, whatever CARGO_TARGET_DIR is.
    subprocess.run(['cargo', 'build', '--quiet', '--offline', '--release', '--jobs', '2', '--target-dir', target], cwd=folder, check=True)
    return os.path.join(target, 'release', 'ixdtf_bench')


if __name__ == '__main__':
    if len(sys.argv) != 2:
        sys.exit(__doc__)
    print(build(sys.argv[1]))
