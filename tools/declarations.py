#!/usr/bin/env python3
"""declarations.py [--check]: makes c/ixdtf_declarations.h from c/ixdtf.h.

The file is for tools that read C declarations without a preprocessor, such as the Python package cffi. It has the enumerations, the structs
and the functions of the library, in the order of the header. It has only one comment, in its first line. It has no macros, no attributes, and
none of the functions that the header compiles into a program. It uses types of <stdbool.h>, <stddef.h> and <stdint.h>, but does not declare
them.

The tool prints nothing. With --check, it writes nothing either. It ends with the exit status 1 and a message if the file is not what it
would write. The exit status is also 1 if the header has a declaration that the tool does not know."""
import os
import re
import sys

TOP = os.path.join(os.path.dirname(os.path.abspath(__file__)), '..')
HEADER = 'c/ixdtf.h'
MADE = 'c/ixdtf_declarations.h'
FIRST = '/* The declarations of ixdtf.h, version {}.{} of the interface, made by tools/declarations.py. Do not edit. */\n'
GUARD = '#ifndef IXDTF_H'


def without_conditions(text):
    """The lines of the header that are in no condition except the guard. Lines of the preprocessor, and lines that only use a macro, are left
    out."""
    kept, depth = [], 0
    for line in text.replace('\\\n', ' ').splitlines():
        word = re.match(r'#\s*(if|ifdef|ifndef|endif)\b', line)
        if line.strip() == GUARD:
            continue
        if word and word[1] != 'endif':
            depth += 1
        elif word and depth:
            depth -= 1
        elif not line.startswith('#') and not depth and not re.fullmatch(r'IXDTF_[A-Z_]+_\(\w+\)', line):
            kept.append(line)
    return '\n'.join(kept)


def statements(text):
    """The statements of a C text, each with its braces. A declaration ends with `;`, and a function with `}`."""
    found, depth, start = [], 0, 0
    for at, letter in enumerate(text):
        depth += (letter == '{') - (letter == '}')
        is_body = letter == '}' and depth == 0 and re.search(r'\)\s*\{', text[start:at])
        if depth == 0 and (letter == ';' or is_body):
            found.append(' '.join(text[start:at + 1].split()))
            start = at + 1
    return found


def declarations(header):
    """The text of the file, made from the text of the header."""
    plain = without_conditions(re.sub(r'/\*.*?\*/', ' ', header, flags=re.S))
    lines = []
    for statement in statements(plain):
        statement = statement.removeprefix('IXDTF_CHECKED_ ')
        if not statement.startswith(('static inline ', 'IXDTF_')):
            lines.append(statement)
    for line in lines:
        if not re.match(r'enum \{ IXDTF|typedef struct ixdtf|(?:uint32_t|int32_t|size_t|void) ixdtf(?:16)?_[a-z_0-9]+\(', line):
            raise SystemExit(f'declarations.py: expected an enumeration, a struct or a function of ixdtf, found: {line}')
    numbers = [re.search(rf'^#define IXDTF_INTERFACE_{name} ([0-9]+)$', header, re.M)[1] for name in ('VERSION', 'REVISION')]
    return FIRST.format(*numbers) + '\n'.join(lines) + '\n'


def main():
    """Writes the file, or checks it."""
    with open(os.path.join(TOP, HEADER), encoding='utf-8') as file:
        made = declarations(file.read())
    path = os.path.join(TOP, MADE)
    if sys.argv[1:] == ['--check']:
        found = open(path, encoding='utf-8').read() if os.path.exists(path) else None
        if found != made:
            raise SystemExit(f'{MADE} is not what tools/declarations.py makes from {HEADER}')
    elif not sys.argv[1:]:
        with open(path, 'w', encoding='utf-8') as file:
            file.write(made)
    else:
        raise SystemExit('usage: declarations.py [--check]')


if __name__ == '__main__':
    main()
