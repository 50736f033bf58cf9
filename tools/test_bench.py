#!/usr/bin/env python3
"""Tests of bench/plain.py: at a small size, the benchmark in Rust prints what the proved benchmark prints. So both have the same workloads, with
the same results. The output of the proved benchmark is stored in crates/ixdtf_bench."""
import os
import subprocess
import sys
import unittest

ROOT = os.path.dirname(os.path.dirname(os.path.abspath(__file__)))
sys.path.insert(0, os.path.join(ROOT, 'bench'))
import plain


def stored(name: str) -> str:
    """The text of a file about the stored run of the proved benchmark."""
    with open(os.path.join(ROOT, 'crates/ixdtf_bench', name), encoding='utf-8') as file:
        return file.read()


class Plain(unittest.TestCase):
    def test_digests(self):
        program = plain.build(ROOT)
        ran = subprocess.run([program, *stored('args').split()], capture_output=True, text=True, check=True)
        self.assertEqual(ran.stdout, stored('stdout'))
        jobs = [line.split()[0] for line in plain.read(os.path.join(ROOT, 'bench/workloads.txt')).splitlines()]
        self.assertEqual(jobs, [line.split()[0] for line in ran.stdout.splitlines()])


if __name__ == '__main__':
    unittest.main()
