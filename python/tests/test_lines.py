"""Compares the package with the tables of tests/, and with the program ixdtf_lines. For each line, such as `parse 2024-03-02`, the program writes an answer, such as
`ok date=2024,3,2` (docs/PROGRAM.md). These tests make the same answer from what the package returns or raises. They also read each canonical text again.

IXDTF_LINES is the path of the program. If this environment variable is set, the texts of the tables in tests/, and changes of them, are the lines.
IXDTF_ANSWERS is the path of a folder with lines and the answers to them. If this variable is set, each pair of files NAME.in and NAME.out is tested. The
folder may also have handlers.jsonl and units16.jsonl, with texts for handlers, and texts of 16-bit code units, and the answers to them."""
import json
import os
import pathlib
import random
import subprocess
import sys
import unittest

import ixdtf
from ixdtf import IxdtfError

TABLES = pathlib.Path(__file__).resolve().parents[2] / "tests"
sys.path[:0] = [str(TABLES), str(TABLES / "targets")]
import rows
import tables

LIMIT = 4096  # the bytes of the longest line that the program reads

# the reader for each word, and whether it reads with the strict profile
WORDS = {
    **{word: (reader, {}) for word, reader in rows.READERS.items()},
    "iana": (ixdtf.parse_zone_name, {}),
    **{f"strict-{word}": (rows.READERS[word], {"strict": True}) for word in tables.PROFILED},
}
# the kind for is_valid, if it is not the word
VALID = {"parse": "date-time", "iana": "zone-name"}
# the reader for each word that asks for a canonical text, and the kind of its record
CANONICAL = {
    "canonical": (ixdtf.parse, ("date-time",)),
    "canonical-year-month": (ixdtf.parse_year_month, ("year-month",)),
    "canonical-month-day": (ixdtf.parse_month_day, ("month-day",)),
    "canonical-time": (ixdtf.parse_time, ("time",)),
    "canonical-offset": (ixdtf.parse_offset, ()),
    "canonical-zone": (ixdtf.parse_zone, ()),
    "canonical-duration": (ixdtf.parse_duration, ()),
}


def answer(word, text, **keywords):
    """Returns the answer to a line with this word and this text. Returns None for another word."""
    try:
        if word in WORDS:
            reader, strict = WORDS[word]
            return "ok " + rows.fields(reader(text, **strict, **keywords))
        if word in CANONICAL:
            reader, kinds = CANONICAL[word]
            return "ok " + ixdtf.canonical(reader(text), *kinds)
        if word == "instant":
            found = rows.instant(ixdtf.parse(text))
            return "error no instant" if found == "none" else "ok seconds={} nanoseconds={}".format(*found.split(","))
    except IxdtfError as error:
        return "error " + error.crate_text
    return None


def lines_of(data):
    """Returns the lines of a file, without their newlines."""
    lines = data.split(b"\n")
    return lines[:-1] if lines[-1] == b"" else lines


class Rows(unittest.TestCase):
    def test_rows(self):
        """The package answers each text of the tables for 8-bit text, as bytes, as the row says. tests/run.py does the same, also as str."""
        seen = 0
        for case in tables.cases("accepted.tsv", "refused.tsv", "replies.tsv"):
            if case.width == 8:
                seen += 1
                answer = dict(cell.split("=", 1) for cell in rows.cells(case.word, case.handler, bytes(case.units)))
                self.assertEqual(list(tables.differences(case, answer)), [], str(case))
        self.assertGreater(seen, 2000)


class Lines(unittest.TestCase):
    def one(self, line, expected):
        """Compares the answer to one line. Returns whether the line is for a reader."""
        word, _, text = line.partition(b" ")
        name = word.decode("latin-1")
        if len(line) > LIMIT:
            self.assertEqual(expected, b"error line too long")
            answer(name, text)
            return False
        found = answer(name, text) if b" " in line else None
        if found is None:
            self.assertEqual(expected, b"error unknown reader")
            return False
        self.assertEqual(found, expected.decode(), line)
        # The other types of a text have the same answer. A str has it if its characters are those of the bytes.
        self.assertEqual(answer(name, bytearray(text)), found)
        self.assertEqual(answer(name, memoryview(text)), found)
        try:
            self.assertEqual(answer(name, text.decode()), found)
        except UnicodeDecodeError:
            self.assertFalse(found.startswith("ok"), line)
        if name in CANONICAL and found.startswith("ok "):
            reader = CANONICAL[name][0]
            self.assertEqual(reader(found[3:]), reader(text), line)
        if name in WORDS:
            strict = WORDS[name][1]
            kind = name[len("strict-"):] if strict else VALID.get(name, name)
            self.assertEqual(ixdtf.is_valid(text, kind, **strict), found.startswith("ok"), line)
        return True

    def all(self, lines, answers):
        self.assertEqual(len(lines), len(answers))
        return sum(self.one(line, expected) for line, expected in zip(lines, answers))

    def test_program(self):
        program = os.environ.get("IXDTF_LINES")
        if program is None:
            self.skipTest("the environment variable IXDTF_LINES is not set")
        lines = list(changed(random.Random(1)))
        run = subprocess.run([program], input=b"".join(line + b"\n" for line in lines), stdout=subprocess.PIPE, check=True)
        self.assertGreater(self.all(lines, lines_of(run.stdout)), 10_000)
        accepted = sum(it.startswith(b"ok") for it in lines_of(run.stdout))
        self.assertGreater(accepted, 1000)

    def test_answers(self):
        folder = os.environ.get("IXDTF_ANSWERS")
        if folder is None:
            self.skipTest("the environment variable IXDTF_ANSWERS is not set")
        seen = 0
        for file in sorted(pathlib.Path(folder).glob("*.in")):
            with self.subTest(file=file.name):
                seen += self.all(lines_of(file.read_bytes()), lines_of(file.with_suffix(".out").read_bytes()))
        self.assertGreater(seen, 0)

    def rows_of(self, name):
        """Returns the rows of a file with one row of JSON on each line."""
        folder = os.environ.get("IXDTF_ANSWERS")
        if folder is None:
            self.skipTest("the environment variable IXDTF_ANSWERS is not set")
        return [json.loads(line) for line in (pathlib.Path(folder) / name).read_text().splitlines()]

    def text_of(self, units):
        """Returns the str of 16-bit code units. A surrogate is a character of its own. Returns also whether all units are 1 to 126."""
        return "".join(map(chr, units)), all(0 < it < 127 for it in units)

    def test_handlers(self):
        rows = self.rows_of("handlers.jsonl")
        for row in rows:
            text, is_ascii = self.text_of(row["units"])
            calls = []

            def handler(it):
                calls.append([it.is_critical, it.key, it.value])
                name, number = row["handler"], len(calls) - 1
                if name == "foreign" and number < 2:
                    return ixdtf.Annotation("u-ca", "ab"[number], number == 1 and it.is_critical)
                if name == "none" or (name == "foreign" and number == 2):
                    return None
                critical = {"crit": True, "flip": not it.is_critical}.get(name, it.is_critical)
                return it._replace(is_critical=critical)

            found = answer(row["reader"], text if row["width"] == 16 else bytes(row["units"]), handler=handler)
            with self.subTest(row=row):
                if is_ascii or row["width"] == 8:
                    self.assertEqual(calls, row["calls"])
                    self.assertEqual(found, row["outcome"])
                else:
                    self.assertTrue(found.startswith("error") and row["outcome"].startswith("error"))
        self.assertGreater(len(rows), 0)

    def test_16_bit(self):
        rows = self.rows_of("units16.jsonl")
        for row in rows:
            text, is_ascii = self.text_of(row["units"])
            with self.subTest(row=row):
                found = answer(row["reader"], text)
                if is_ascii:
                    self.assertEqual(found, row["outcome"])
                else:  # The package reads this text as UTF-8, so the error can be another one.
                    self.assertTrue(found.startswith("error") and row["outcome"].startswith("error"))
        self.assertGreater(len(rows), 0)


def texts():
    """Yields the word and the text of each case of the tables for 8-bit text, unless the text has a newline."""
    for case in tables.cases("accepted.tsv", "refused.tsv", "replies.tsv"):
        if case.width == 8 and 10 not in case.units:
            yield case.word, bytes(case.units)


def changed(generator):
    """Yields lines: each text for each word, and then texts with a few bytes changed, inserted or dropped."""
    pairs = sorted(set(texts()))
    words = [*WORDS, *CANONICAL, "instant"]
    for text in sorted({text for _, text in pairs}):
        yield from (f"{word} ".encode() + text for word in words)
    related = {"parse": ["canonical", "instant"], **{word[len("canonical-"):]: [word] for word in CANONICAL if "-" in word}}
    for word, text in pairs * 4:
        new = bytearray(text)
        for _ in range(generator.randrange(1, 4)):
            where = generator.randrange(len(new) + 1)
            byte = generator.choice(b"0123456789-+:.,TZtz[]!=_/uca PYMWDHS\x00\x7f\xc3\xff")
            new[where:where + generator.randrange(2)] = generator.choice((b"", bytes([byte])))
        if b"\n" not in new:
            for each in [word, *related.get(word, [])]:
                yield each.encode() + b" " + bytes(new)


if __name__ == "__main__":
    unittest.main()
