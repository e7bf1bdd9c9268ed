"""Tests of tools/lint: what it tells of scripts, by their lines, and what it says nothing of."""

import subprocess
import sys
import tempfile
import unittest
from pathlib import Path

from loading import TOOLS, load_tool

lint = load_tool("lint")
TOP = TOOLS.parent


def script(modules, commands):
    """A script of one loader."""
    return "\n".join(["beam script 1", *modules, "loader", *commands, "go", ""])


LOOP = ["module m.1", "export main/0", "label a", "yield", "jump a", "end"]


class Findings(unittest.TestCase):
    def told(self, modules, *commands):
        return lint.findings(script(modules, commands))

    def is_told(self, found, *wanted):
        """Holds what was found against line numbers, each with a part of what is told."""
        self.assertEqual([number for number, _ in found], [number for number, _ in wanted], found)
        for (_, words), (_, part) in zip(found, wanted):
            self.assertIn(part, words)

    def test_functions_that_are_in_no_text(self):
        module = ["module m.1", "export main/1", "call_ext n:f/0 $1", "call_ext m:own/0 $1", "call_ext m:main/1 $1", "local own/0", "end"]
        found = self.told(module, "load m.1", "spawn m:main(1)", "spawn m:main({1,2},3)", "spawn m:own()", "trace m:own/0 on", "trace m:gone/0 on")
        self.is_told(found, (4, "no module text exports n:f/0"), (5, "m:own/0"), (12, "m:main/2"), (13, "m:own/0"), (15, "m:gone/0"))

    def test_texts_that_are_never_loaded(self):
        found = self.told(["module m.1", "end", "module m.2", "end", "module n.1", "end"], "load m.2 n.1")
        self.is_told(found, (2, "no loader loads m.1"))

    def test_areas_that_are_never_read(self):
        module = ["module m.1", "export main/0", "pget a $0", "pget_or b 1 $0", "end"]
        found = self.told(module, "load m.1", "put a {1}", "put b [1]", "put c {1,2}", "put d 1")
        self.is_told(found, (11, "the key c"))

    def test_a_process_that_cannot_end(self):
        self.is_told(self.told(LOOP, "load m.1", "spawn m:main()"), (10, "m:main/0 of m.1, lines 5 to 6"))
        self.is_told(self.told(LOOP, "load m.1", "spawn m:main()", "purge m"))
        for way_out in ("less 0 1 out", "eq $0 1 out"):
            module = [*LOOP[:3], way_out, *LOOP[3:5], "label out", "ret 1", "end"]
            self.is_told(self.told(module, "load m.1", "spawn m:main()"))
        self.is_told(self.told([*LOOP[:3], "call_ext n:f/0 $0", *LOOP[3:]], "load m.1", "spawn m:main()"), (5, "n:f/0"))

    def test_a_loop_in_what_is_called(self):
        caller = ["module m.1", "export main/0", "call go/0 $0", "ret 1", "local go/0", "label a", "jump a", "end"]
        self.is_told(self.told(caller, "load m.1", "spawn m:main()"), (12, "m:main/0"))
        outer = ["module n.1", "export f/0", "call_ext m:main/0 $0", "end"]
        self.is_told(self.told([*outer, *LOOP], "load m.1 n.1", "spawn n:f()"), (14, "n:f/0 of n.1, line 4"))
        deeper = ["module m.1", "export main/0", "call main/0 $0", "end"]
        self.is_told(self.told(deeper, "load m.1", "spawn m:main()"))

    def test_examples_have_what_they_show_and_nothing_else(self):
        found = {path.name: lint.findings(path.read_text()) for path in sorted((TOP / "examples").rglob("*.script"))}
        self.assertEqual({name for name, told in found.items() if told}, {"undefined.script", "ends.script"})

    def test_texts_that_are_no_scripts(self):
        for text in ("", "go", "module m.1", "spawn", "loader\nspawn x\nput k {\ntrace\n", "module m.1\nexport f/0\njump\ncall\nend\nload m.1\n"):
            lint.findings(text)


class TheProgram(unittest.TestCase):
    def test_lines_and_statuses(self):
        with tempfile.TemporaryDirectory() as folder:
            path = Path(folder) / "a.script"
            for modules, commands, status in ((LOOP, ["load m.1"], 0), (LOOP, [], 1)):
                path.write_text(script(modules, commands))
                for words in (["lint"], ["why", "--lint"]):
                    done = subprocess.run([sys.executable, TOOLS / words[0], *words[1:], path], capture_output=True, text=True, check=False)
                    self.assertEqual((done.returncode, done.stdout), (status, "lint: line 2: no loader loads m.1\n" if status else ""))
        self.assertEqual(subprocess.run([TOOLS / "lint", "/no/such"], capture_output=True, check=False).returncode, 2)


if __name__ == "__main__":
    unittest.main()
