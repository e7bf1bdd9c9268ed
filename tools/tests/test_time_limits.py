"""Tests of tools/time_limits: its texts have the length that was asked for, and are what they are named."""

import unittest

from loading import load_tool

limits = load_tool("time_limits")
MOST = 40_000


class Texts(unittest.TestCase):
    def test_lengths(self):
        for name, made in {**limits.READ, **limits.RUN}.items():
            with self.subTest(name):
                self.assertLessEqual(len(made(MOST)), MOST)
                # Of held back areas the script's limit comes first.
                self.assertGreater(len(made(MOST)), MOST // 4 if made is limits.held_back else MOST * 3 // 4)

    def test_held_back_areas_fill_the_script(self):
        script = limits.held_back(limits.INPUT).partition("go\n")[0] + "go\n"
        self.assertTrue(limits.SCRIPT - 10 < len(script) <= limits.SCRIPT)

    def test_releases_come_last_and_the_newest_area_first(self):
        lines = limits.held_back_of(4).splitlines()
        self.assertEqual(lines[-4:], [f"entry rt release {serial} = ok -" for serial in (3, 2, 1)] + ["end report"])
        self.assertEqual(sum(line.startswith("put k") for line in lines), 4)

    def test_each_version_is_loaded_and_purged(self):
        self.assertIn("loader\nload m.1\nsoft_purge m\nload m.2\n", limits.versions_of(2))

    def test_a_row(self):
        took = [limits.Took("lawful", seconds, 12.4) for seconds in (0.25, 0.5, 1.0)]
        self.assertRegex(limits.row("check: puts", took), r"^check: puts +0\.25 +0\.50 +1\.00 +2\.0 +12  lawful$")


if __name__ == "__main__":
    unittest.main()
