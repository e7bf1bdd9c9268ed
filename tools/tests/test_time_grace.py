"""Tests of tools/time_grace: what it reckons from the times of programs, and what it refuses."""

import pathlib
import stat
import sys
import tempfile
import unittest
from unittest import mock

from loading import load_tool

time_grace = load_tool("time_grace")


class Times(unittest.TestCase):
    def setUp(self):
        folder = tempfile.TemporaryDirectory()
        self.addCleanup(folder.cleanup)
        self.folder = pathlib.Path(folder.name)

    def program(self, text):
        """A program of this text."""
        path = self.folder / "program"
        path.write_text(f"#!{sys.executable}\n{text}", encoding="ascii")
        path.chmod(path.stat().st_mode | stat.S_IXUSR)
        return path

    def test_count_that_takes_long_enough(self):
        with mock.patch.object(time_grace, "seconds", lambda _program, _work, count: count / 100):
            self.assertEqual(time_grace.large_count("a", time_grace.Work("wait 1", "", 2)), 160)

    def test_least_times(self):
        times = {("a", 1): [3.0, 2.0], ("a", 10): [7.0, 6.5], ("b", 1): [1.0, 1.5], ("b", 10): [2.8, 1.9]}
        with mock.patch.object(time_grace, "large_count", lambda *_: 10):
            with mock.patch.object(time_grace, "seconds", lambda program, _, count: times[program, count].pop(0)):
                taken = time_grace.nanoseconds(["a", "b"], time_grace.Work("wait 1", "", 2), 2)
        self.assertEqual([round(each) for each in taken], [500_000_000, 100_000_000])

    def test_work_that_was_done(self):
        program = self.program("import sys\nprint(*sys.argv[1:])\n")
        self.assertGreater(time_grace.seconds(program, time_grace.Work("wait 1", "", 2), 1), 0)

    def test_work_that_was_not_done(self):
        with self.assertRaisesRegex(SystemExit, "it wrote 'wait 1 0"):
            time_grace.seconds(self.program("print('wait 1 0')\n"), time_grace.Work("wait 1", "", 2), 1)

    def test_row(self):
        work = time_grace.Work("report", "a report", 10)
        self.assertEqual(time_grace.row(work, [12.0, 6.0, 0.5]), "| a report | 12.0 | 6.0 | 2.0 | 0.5 | 24.0 | 10 |")
        self.assertEqual(time_grace.row(work, [12.0, 6.0, 0.0]), "| a report | 12.0 | 6.0 | 2.0 | 0.0 | - | 10 |")

    def test_one_thread_alone(self):
        self.assertEqual([work.is_alone() for work in time_grace.BESIDE], [True, False, False, False])


if __name__ == "__main__":
    unittest.main()
