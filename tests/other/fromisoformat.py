#!/usr/bin/env python3
"""fromisoformat.py: reads texts from standard input, one on each line, and writes `ok` for each text that `datetime.fromisoformat` of Python accepts, and
`error` for each other text. It is the example of tests/README.md for run_other.py."""
import datetime
import sys

for line in sys.stdin:
    try:
        datetime.datetime.fromisoformat(line.rstrip('\n'))
        print('ok')
    except ValueError:
        print('error')
