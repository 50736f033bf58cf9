"""Runs the programs in docs/PYTHON.md that are not sessions of the interpreter. Each begins with a comment, by which it is found. test_ixdtf.py runs the
sessions."""
import importlib
import os
import pathlib
import random
import re
import subprocess
import sys
import tempfile
import unittest

import ixdtf

PAGE = pathlib.Path(__file__).resolve().parents[2] / "docs" / "PYTHON.md"
BLOCK = re.compile(r"^```python\n(# [^\n]*)\n(.*?)^```$", re.M | re.S)


def missing_module(*names):
    """Returns the name of the first module that is not installed, or None."""
    for name in names:
        try:
            module = importlib.import_module(name)
        except ImportError:
            return name
        if name == "pydantic" and module.VERSION < "2":
            return "pydantic 2"
    return None


@unittest.skipUnless(PAGE.exists(), "docs/PYTHON.md is not there")
class Programs(unittest.TestCase):
    def setUp(self):
        folder = tempfile.TemporaryDirectory()
        self.addCleanup(folder.cleanup)
        self.folder = pathlib.Path(folder.name)

    def need(self, *names):
        name = missing_module(*names)
        if name is not None:
            self.skipTest(f"{name} is not installed")

    def write_program(self, comment, name):
        """Writes the program with this first line to a file in the folder."""
        found = [code for first, code in BLOCK.findall(PAGE.read_text(encoding="utf-8")) if first == "# " + comment]
        self.assertEqual(len(found), 1, comment)
        (self.folder / name).write_text(found[0], encoding="utf-8")

    def run_program(self, comment):
        """Runs the program with this first line in the folder, and returns what it prints."""
        self.write_program(comment, "program.py")
        path = os.pathsep.join(filter(None, [str(pathlib.Path(ixdtf.__file__).parents[1]), os.environ.get("PYTHONPATH")]))
        variables = {**os.environ, "PYTHONPATH": path, "DASK_DISTRIBUTED__COMM__TIMEOUTS__CONNECT": "200s", "DASK_DISTRIBUTED__COMM__TIMEOUTS__TCP": "200s"}
        done = subprocess.run([sys.executable, "program.py"], cwd=self.folder, env=variables, capture_output=True, text=True, timeout=600)
        self.assertEqual(done.returncode, 0, done.stderr)
        return done.stdout

    def test_all_are_run(self):
        """Each program of the page is run by a test of this class."""
        source = pathlib.Path(__file__).read_text(encoding="utf-8")
        for first, _ in BLOCK.findall(PAGE.read_text(encoding="utf-8")):
            self.assertIn(f'self.run_program("{first[2:]}")', source)

    def test_pandas(self):
        self.need("pandas")
        lines = self.run_program("a column of texts in a frame of pandas").splitlines()
        self.assertEqual(lines[0], "2024-03-02 13:48:00+00:00")
        self.assertEqual([it for it in lines if "2024-02-30" in it][0].split(), ["1", "2024-02-30", "NaT"])
        self.assertEqual(len(lines), 3)

    def test_pydantic(self):
        self.need("pydantic")
        printed = self.run_program("a model of pydantic 2").strip()
        self.assertIn(f"It prints `{printed}`.", PAGE.read_text(encoding="utf-8"))

    @unittest.skipIf(hasattr(sys, "gettotalrefcount"), "a debug build of Python is too slow for the time limits of Dask")
    def test_dask(self):
        """A frame from three files, in two processes, gives what one process gives."""
        self.need("pandas", "dask", "distributed")
        import numpy
        import pandas

        generator = random.Random(7)
        parts = []
        for number in range(3):
            texts = [f"2024-{generator.randrange(1, 14):02}-{generator.randrange(1, 31):02}T{generator.randrange(24):02}:00:00{generator.choice(('Z', '-05:00', '+05:30', ''))}" for _ in range(2000)]
            parts.append(pandas.DataFrame({"number": range(2000), "time": [*texts[:-1], None]}))
            parts[-1].to_csv(self.folder / f"events-{number}.csv", index=False)
        self.write_program("a column of texts in a frame of pandas", "frames.py")
        self.run_program("the same in two processes of Dask")
        found = pandas.read_csv(self.folder / "instants.csv", parse_dates=["instant"])
        whole = pandas.concat(parts, ignore_index=True)
        instants = numpy.asarray(ixdtf.instants(whole["time"], errors="coerce").values).view("datetime64[ns]")
        expected = whole.assign(instant=pandas.DatetimeIndex(instants, tz="UTC"))
        pandas.testing.assert_frame_equal(found, expected)
        self.assertTrue(1000 < expected["instant"].isna().sum() < 5000)


if __name__ == "__main__":
    unittest.main()
