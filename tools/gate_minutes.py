#!/usr/bin/env python3
"""gate_minutes.py [COMMAND..]: runs a command, and prints how many processor minutes each part of it took.

    tools/gate_minutes.py                           runs `rt ci`
    taskset -c 0,1 tools/gate_minutes.py rt ci      runs `rt ci` on two processors

Every two seconds, the tool reads the times of all processes that the command started. A process of the prover, with all that it starts, belongs to
the crate that its command line names. It checks one of four things: the crate itself, the crate with its tests, the crate before its mutations, or
the crate with one mutation. The tool does not see what a process used between the last reading and its end. So the rows are a little too low.

The tool prints a table with one row for each crate. Below the table, it prints the sum of all rows, what the system counted for the command, and the
minutes that passed. The output of the command goes to standard error. The exit status is that of the command."""
import collections
import os
import re
import resource
import subprocess
import sys
import time
from typing import NamedTuple

TICKS = os.sysconf('SC_CLK_TCK')
SECONDS_BETWEEN_READINGS = 2
PARTS = ('proof', 'with tests', 'start of mutations', 'mutations')


class Process(NamedTuple):
    """A process, the processor seconds that it has used, and those of the processes that it has started and that have ended."""
    number: int
    own: float
    of_ended: float


def children():
    """The processes that run now, grouped by the process that started each of them."""
    found = collections.defaultdict(list)
    for name in os.listdir('/proc'):
        if name.isdigit():
            try:
                with open(f'/proc/{name}/stat', encoding='utf-8', errors='replace') as file:
                    # The name of the program is in parentheses, and may contain spaces.
                    fields = file.read().rpartition(')')[2].split()
            except OSError:
                continue
            user, system, ended_user, ended_system = (int(it) / TICKS for it in fields[11:15])
            found[int(fields[1])].append(Process(int(name), user + system, ended_user + ended_system))
    return found


def used(process, began):
    """The processor seconds that a process and all that it started have used."""
    return process.own + process.of_ended + sum(used(it, began) for it in began[process.number])


def provers(root):
    """The provers that run below a process, each with its part and its processor seconds."""
    began = children()
    left, found = [root], []
    while left:
        for process in began[left.pop()]:
            part = part_of(process.number)
            if part is None:
                left.append(process.number)
            else:
                found.append((process.number, part, used(process, began)))
    return found


def part_of(process):
    """The crate and the part that a process works for. None if it is not a prover, or has ended."""
    try:
        with open(f'/proc/{process}/cmdline', encoding='utf-8', errors='replace') as file:
            words = file.read().split('\0')
        folder = os.readlink(f'/proc/{process}/cwd')
    except OSError:
        return None
    if not words[0].endswith('/rattle') or '--crate-name' not in words:
        return None
    crate = words[words.index('--crate-name') + 1]
    if '--test' in words:
        return crate, 'with tests'
    if not re.match(r'rt-edit-', os.path.basename(folder)):
        return crate, 'proof'
    kept = words[words.index('--incremental') + 1] if '--incremental' in words else ''
    return crate, 'start of mutations' if os.path.basename(kept) == 'seed' else 'mutations'


def watch(command):
    """Runs the command. Returns its status, the seconds that passed, and for each prover its part and its processor seconds."""
    begin = time.monotonic()
    running = subprocess.Popen(command, stdin=subprocess.DEVNULL, stdout=sys.stderr)
    seen = {}
    while running.poll() is None:
        for process, part, seconds in provers(running.pid):
            seen[process] = part, seconds
        time.sleep(SECONDS_BETWEEN_READINGS)
    return running.returncode, time.monotonic() - begin, list(seen.values())


def main():
    """Runs the command, and prints the table. Returns the exit status of the command."""
    command = sys.argv[1:] or ['rt', 'ci']
    status, seconds, processes = watch(command)
    minutes, counts = collections.Counter(), collections.Counter()
    for part, spent in processes:
        minutes[part] += spent / 60
        counts[part] += 1
    print(f'| Crate | {" | ".join(it.capitalize() for it in PARTS)} | Number of mutations | Seconds of one mutation |')
    print('|---|---|---|---|---|---|---|')
    for crate in sorted({crate for crate, _ in minutes}):
        cells = [f'{minutes[crate, part]:.1f}' if minutes[crate, part] else '' for part in PARTS]
        number = counts[crate, 'mutations']
        each = f'{60 * minutes[crate, "mutations"] / number:.0f}' if number else ''
        print(f'| `{crate}` | {" | ".join(cells)} | {number or ""} | {each} |')
    all_of_it = resource.getrusage(resource.RUSAGE_CHILDREN)
    print(f'all rows: {sum(minutes.values()):.1f} processor minutes; the command, as the system counts: '
          f'{(all_of_it.ru_utime + all_of_it.ru_stime) / 60:.1f} processor minutes; time that passed: {seconds / 60:.1f} minutes')
    return status


if __name__ == '__main__':
    sys.exit(main())
