"""Tests of the words of tools/time_areas."""

import subprocess
import unittest

from loading import TOOLS


class Words(unittest.TestCase):
    def test_usage(self):
        for words, status in ((["--help"], 0), (["-h"], 0), ([], 2), (["-x"], 2), (["a", "b"], 2), ([""], 2)):
            done = subprocess.run([TOOLS / "time_areas", *words], capture_output=True, check=False)
            with self.subTest(words):
                self.assertEqual(done.returncode, status)
                self.assertIn(b"usage: tools/time_areas FOLDER", done.stderr if status else done.stdout)


if __name__ == "__main__":
    unittest.main()
