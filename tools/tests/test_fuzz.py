"""Tests of tools/fuzz: how it changes texts, and which answers have no explanation."""

import pathlib
import random
import stat
import sys
import tempfile
import unittest

from loading import load_tool

fuzz = load_tool("fuzz")
SCRIPT = b"beam script 1\nmodule m.1\nend\nloader\nload m.1\ngo\n"


class Texts(unittest.TestCase):
    def test_a_module_more_stands_behind_the_others(self):
        self.assertEqual(fuzz.with_unused(SCRIPT), SCRIPT.replace(b"end\nloader", b"end\n" + fuzz.UNUSED + b"loader"))
        for text in (b"beam script 1\ngo\n", fuzz.with_unused(SCRIPT), SCRIPT.replace(b"end\nloader", b"end\nfoo\nloader")):
            self.assertIsNone(fuzz.with_unused(text))

    def test_changes_depend_on_the_seed_alone(self):
        lines = SCRIPT.split(b"\n")
        changed = [fuzz.changed(random.Random(seed), SCRIPT, lines) for seed in range(50)]
        self.assertEqual(changed, [fuzz.changed(random.Random(seed), SCRIPT, lines) for seed in range(50)])
        self.assertGreater(len(set(changed)), 20)

    def test_texts_to_begin_with(self):
        scripts, judged, events = fuzz.corpus()
        self.assertTrue(all(text.startswith(b"beam progress") for text in events))
        self.assertTrue(all(b"\ngo\nbeam report" in text for text in judged))
        self.assertGreater(min(len(scripts), len(judged), len(events)), 20)


class Answers(unittest.TestCase):
    def setUp(self):
        folder = tempfile.TemporaryDirectory()
        self.addCleanup(folder.cleanup)
        self.folder = pathlib.Path(folder.name)

    def program(self, name, status, said):
        """A program that answers so, whatever it is asked."""
        path = self.folder / name
        path.write_text(f"#!{sys.executable}\nimport sys\nsys.stdin.read()\nsys.stdout.write({said!r})\nsys.exit({status})\n", encoding="ascii")
        path.chmod(path.stat().st_mode | stat.S_IXUSR)
        return path

    def test_both_programs_agree(self):
        lawful = self.program("lawful", 0, "lawful\n")
        unlawful = self.program("unlawful", 1, "not lawful: Replays (entry 1)\nexpected `ok`\n")
        self.assertEqual(fuzz.verdict(lawful, lawful, b""), "lawful")
        self.assertEqual(fuzz.verdict(self.program("no", 1, "not lawful\n"), unlawful, b""), "not lawful")
        with self.assertRaisesRegex(fuzz.Unexplained, "check answers 0 .* and why 1"):
            fuzz.verdict(lawful, unlawful, b"")

    def test_runs(self):
        refused, lawful = self.program("refused", 3, "refused 4 unknown_name\n"), self.program("lawful", 0, "lawful\n")
        self.assertEqual(fuzz.try_run(refused, lawful, SCRIPT, 2), ("refused", b""))
        for status, said in ((6, ""), (3, "refused\n")):
            with self.assertRaisesRegex(fuzz.Unexplained, f"ends with status {status}"):
                fuzz.try_run(self.program("other", status, said), lawful, SCRIPT, 2)

    def test_event_lists(self):
        self.assertEqual(fuzz.try_events(self.program("done", 0, "done events 1 counter 1 generation 0\n"), b""), "done")
        with self.assertRaises(fuzz.Unexplained):
            fuzz.try_events(self.program("other", 1, "done events 1 counter 1 generation 0\n"), b"")


if __name__ == "__main__":
    unittest.main()
