#!/usr/bin/env python3
"""Tests of declarations.py: what it keeps of a header, what it leaves out, and what it refuses. Also checks that c/ixdtf_declarations.h is what
it makes. Prints one line, and ends with the exit status 0, if all tests pass."""
import declarations

HEADER = '''/* A header. typedef int not_here; */
#ifndef IXDTF_H
#define IXDTF_H
#include <stdint.h>
#ifdef __cplusplus
extern "C" {
#endif
#define IXDTF_INTERFACE_VERSION 3
#define IXDTF_INTERFACE_REVISION 4
#if defined(__GNUC__)
#define IXDTF_CHECKED_ __attribute__((warn_unused_result))
#else
#define IXDTF_CHECKED_
#endif
enum {
    IXDTF_OK = 0, /* read */
    IXDTF_BAD = 1
};
typedef struct ixdtf_date { int32_t year; /* a comment; with a semicolon */ uint8_t day; } ixdtf_date;
#define IXDTF_DATE { 0, \\
    0 }
IXDTF_CHECKED_ uint32_t ixdtf_parse(const uint8_t *text, size_t length,
    ixdtf_date *out);
void ixdtf16_keep(ixdtf_date *date);
static inline int32_t ixdtf_year(const ixdtf_date *date) {
    if (date->day > 0) {
        return date->year;
    }
    return 0;
}
#define IXDTF_READERS_(one) \\
    one(ixdtf_parse)
#define IXDTF_OF_TEXT_(reader) \\
    static inline uint32_t reader##_text(const char *text, ixdtf_date *out) { \\
        return reader(0, 0, out); \\
    }
IXDTF_READERS_(IXDTF_OF_TEXT_)
int32_t ixdtf_seconds(const ixdtf_date *date);
IXDTF_SIZE_(ixdtf_date, 8);
#ifdef __cplusplus
}
inline int not_here();
#endif
#endif
'''

MADE = '''/* The declarations of ixdtf.h, version 3.4 of the interface, made by tools/declarations.py. Do not edit. */
enum { IXDTF_OK = 0, IXDTF_BAD = 1 };
typedef struct ixdtf_date { int32_t year; uint8_t day; } ixdtf_date;
uint32_t ixdtf_parse(const uint8_t *text, size_t length, ixdtf_date *out);
void ixdtf16_keep(ixdtf_date *date);
int32_t ixdtf_seconds(const ixdtf_date *date);
'''


def refused(header):
    """Whether the tool refuses this header."""
    try:
        declarations.declarations(header)
    except SystemExit:
        return True
    return False


def main():
    """Runs the four tests."""
    found = declarations.declarations(HEADER)
    assert found == MADE, found
    assert refused(HEADER.replace('void ixdtf16_keep', 'float ixdtf16_keep')), 'a function with an unknown type must be refused'
    assert refused(HEADER.replace('void ixdtf16_keep', 'extern int value; void ixdtf16_keep')), 'a variable must be refused'
    with open(f'{declarations.TOP}/{declarations.HEADER}', encoding='utf-8') as header:
        with open(f'{declarations.TOP}/{declarations.MADE}', encoding='utf-8') as made:
            assert declarations.declarations(header.read()) == made.read(), f'{declarations.MADE} is not what tools/declarations.py makes: run this tool'
    print('declarations.py: 4 tests passed')


main()
