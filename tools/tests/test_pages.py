"""Tests that what the pages show of scripts and reports is what stands in examples/, and that links lead somewhere."""

import re
import unittest
from pathlib import Path

TOP = Path(__file__).resolve().parents[2]
PAGES = [TOP / "README.md", *sorted((TOP / "docs").glob("*.md"))]
RUN = re.compile(r"\$ \./beam run (?:--schedulers 1 )?(?:< )?(\S+)\.script\n")


def examples(ending):
    return {path: path.read_text() for path in (TOP / "examples").rglob(f"*.{ending}")}


def blocks(page):
    return re.findall(r"^```\n(.*?)^```$", page.read_text(), re.M | re.S)


class Docs(unittest.TestCase):
    def test_reports_are_those_of_their_scripts(self):
        seen = set()
        for page in PAGES:
            for block in blocks(page):
                for command in RUN.finditer(block):
                    seen.add(command[1])
                    report = (TOP / f"{command[1]}.report").read_text()
                    with self.subTest(page.name, script=command[1]):
                        self.assertEqual(re.split(r"(?m)^\$ ", block[command.end():])[0], report)
        self.assertGreaterEqual(len(seen), 16)

    def test_scripts_are_examples(self):
        wholes = examples("script").values()
        ends = [text[text.index("loader\n"):] for text in wholes if "loader\n" in text]
        for head, known in (("beam script 1\nmodule", wholes), ("loader\n", ends)):
            found = [block for page in PAGES for block in blocks(page) if block.startswith(head)]
            self.assertTrue(found, head)
            for block in found:
                with self.subTest(block[:200]):
                    self.assertTrue(block in known)

    def test_each_step_has_script_and_report(self):
        named = "".join(page.read_text() for page in PAGES)
        scripts = sorted((TOP / "examples/tutorial").glob("*.script"))
        self.assertEqual(len(scripts), 15)
        for script in scripts:
            self.assertTrue(script.with_suffix(".report").exists())
            self.assertTrue(f"examples/tutorial/{script.name}" in named, script.name)

    def test_commands_leave_nothing_untracked(self):
        for page in PAGES:
            lines = [line for block in blocks(page) for line in block.splitlines() if line.startswith("$ ")]
            for target in re.findall(r"(?<![<>=-])>>? *([^ \n|&]+)", "\n".join(lines)):
                with self.subTest(page.name, target=target):
                    self.assertTrue(target.startswith("/tmp/") or target == "/dev/null", target)

    def test_links_lead_somewhere(self):
        for page in PAGES:
            for link in re.findall(r"\]\(([^)#:]+)(?:#[^)]*)?\)", page.read_text()):
                with self.subTest(page.name, link=link):
                    self.assertTrue((page.parent / link).exists())

    def test_places_within_pages_are_there(self):
        for page in PAGES:
            text = page.read_text()
            heads = {re.sub(r"[^\w -]", "", it).replace(" ", "-").lower() for it in re.findall(r"(?m)^#+ (.*)$", text)}
            for place in re.findall(r"\]\(#([^)]*)\)", text):
                with self.subTest(page.name, place=place):
                    self.assertIn(place, heads)


if __name__ == "__main__":
    unittest.main()
