"""The examples of docs/TOOLS.md are what the tools print."""

import pathlib
import re
import subprocess
import sys
import tempfile
import unittest

from loading import TOOLS

TOP = TOOLS.parent


class ExamplesOfTheDocs(unittest.TestCase):
    """Each block of commands with its output."""

    def setUp(self):
        text = (TOP / "docs" / "TOOLS.md").read_text(encoding="ascii")
        self.blocks = re.findall(r"```\n(\$ .*?)```", text, re.S)

    def test_why(self):
        script, said = re.fullmatch(r"\$ cat /tmp/bad\.script\n(.*)\$ [^\n]*\n(.*)", self.blocks[0], re.S).groups()
        with tempfile.TemporaryDirectory() as folder:
            path = pathlib.Path(folder) / "bad.script"
            path.write_text(script, encoding="ascii")
            done = subprocess.run([sys.executable, TOOLS / "why", path], input="refused 4 syntax\n", text=True,
                                  capture_output=True, check=True)
        self.assertEqual(done.stdout, said)

    def test_timeline(self):
        command, said = next(block for block in self.blocks if block.startswith("$ tools/timeline")).split("\n", 1)
        words = command.split(" ")[2:]
        done = subprocess.run([sys.executable, TOOLS / "timeline", *words], cwd=TOP, text=True, capture_output=True,
                              check=True)
        self.assertEqual(done.stdout, said)

    def test_lint(self):
        command, said = next(block for block in self.blocks if block.startswith("$ tools/lint")).split("\n", 1)
        done = subprocess.run([sys.executable, TOOLS / "lint", command.split(" ")[2]], cwd=TOP, text=True, capture_output=True, check=False)
        self.assertEqual((done.returncode, done.stdout), (1, said))

    def test_number_of_faults(self):
        from faults import FAULTS
        text = (TOP / "docs" / "TOOLS.md").read_text(encoding="ascii")
        self.assertIn(f"has {len(FAULTS)} faulty inputs", text)


if __name__ == "__main__":
    unittest.main()
