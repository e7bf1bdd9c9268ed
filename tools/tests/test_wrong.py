"""Tests of tools/wrong: what it hands to rt, and what it makes of rt's answers. The rt of these tests answers by the name of an edit."""

import contextlib
import io
import os
import subprocess
import sys
import tempfile
import unittest
from pathlib import Path
from unittest import mock

from loading import TOOLS, load_tool

wrong = load_tool("wrong")
RT = f"""#!{sys.executable}
import os, pathlib, sys
answers = {{
    "refused": "refused, as it must be: src/lib.rt:3:5: error: `lib.f` clause `value` is not proved",
    "limit": "refused, as it must be (only by a limit of the prover)",
    "through": "NOT REFUSED: the crate is still proved with this edit",
    "bad": "BAD EDIT: an 'old:' text is in src/lib.rt 0 times, and not once",
    "killed": "NOT TRIED: its check was killed",
}}
said = [str(it) for it in sorted(pathlib.Path().rglob("*"))]
pathlib.Path(os.environ["SEEN"]).write_text("\\n".join([" ".join(sys.argv[1:]), *said]))
failed = 0
for name in sys.argv[2:]:
    for edit in sorted(pathlib.Path("crates", name, "must-fail").iterdir()):
        kind = edit.read_text().strip()
        if kind in answers:
            print(f"rt: must-fail {{name}}/{{edit.name}}: {{answers[kind]}}")
        failed += kind not in ("refused", "limit")
sys.exit(1 if failed else 0)
"""


class Tried(unittest.TestCase):
    """A checkout of three crates: low, middle over it, and high over both; middle has a built library."""

    def setUp(self):
        folder = tempfile.TemporaryDirectory()
        self.addCleanup(folder.cleanup)
        self.room = Path(folder.name)
        self.top = self.room / "checkout"
        self.write("crates.txt", "# Lowest first.\nlow:\nmiddle: low indexmap\nhigh: middle\n")
        self.write("HANDLES", "Handles allowed: none.\n")
        for name in ("low", "middle", "high"):
            self.write(f"crates/{name}/src/lib.rt", "")
            self.write(f"crates/{name}/must-fail/own.edit", "refused")
        self.write("crates/low/out/rlib/stamp", "low")
        self.write("crates/high/out/rlib/stamp", "high")
        self.write("crates/middle/wrong/first.edit", "refused")
        self.write("crates/middle/wrong/second.edit", "limit")
        rt = self.room / "bin" / "rt"
        rt.parent.mkdir()
        rt.write_text(RT)
        rt.chmod(0o755)
        said = {"PATH": f"{rt.parent}{os.pathsep}{os.environ['PATH']}", "SEEN": str(self.room / "seen")}
        patch = mock.patch.dict(os.environ, said)
        patch.start()
        self.addCleanup(patch.stop)

    def write(self, path, text):
        path = self.top / path
        path.parent.mkdir(parents=True, exist_ok=True)
        path.write_text(text)

    def run_tool(self, *words):
        done = subprocess.run([sys.executable, TOOLS / "wrong", "--top", self.top, *words], capture_output=True, text=True)
        return done.returncode, done.stdout.splitlines(), done.stderr

    def seen(self):
        return (self.room / "seen").read_text().splitlines()

    def test_all_are_refused(self):
        status, lines, _ = self.run_tool("middle")
        self.assertEqual(status, 0)
        self.assertEqual(lines[-1], "2 refused, 0 let through, 0 bad, 0 not tried")
        self.assertIn("rt: must-fail middle/first.edit: refused, as it must be: src/lib.rt:3:5: error: `lib.f` clause `value` is not proved", lines)

    def test_what_rt_is_given(self):
        self.run_tool("middle")
        words, *files = self.seen()
        self.assertEqual(words, "must-fail middle")
        self.assertEqual({it for it in files if "/must-fail/" in it}, {"crates/middle/must-fail/first.edit", "crates/middle/must-fail/second.edit"})
        self.assertTrue({"HANDLES", "crates.txt", "crates/low/src/lib.rt", "crates/high/src/lib.rt"} <= set(files))
        # The library below is there, that above is not, and what the checkout says of wrong bodies neither.
        self.assertIn("crates/low/out/rlib/stamp", files)
        self.assertFalse([it for it in files if it.startswith("crates/high/out") or "/wrong/" in it])

    def test_the_checkout_stays_as_it_is(self):
        before = {it: it.is_file() and it.read_text() for it in self.top.rglob("*")}
        self.run_tool("middle")
        self.assertEqual({it: it.is_file() and it.read_text() for it in self.top.rglob("*")}, before)

    def test_one_that_was_not_refused(self):
        for kind, verdict in (("through", "let through"), ("bad", "bad"), ("killed", "not tried"), ("", "not tried")):
            with self.subTest(kind):
                self.write("crates/low/wrong/it.edit", kind)
                status, lines, _ = self.run_tool("low", "middle")
                self.assertEqual(status, 1)
                self.assertEqual(lines[-2], f"{verdict}: low/it")
                self.assertIn(f"1 {verdict}", lines[-1])
                self.assertIn("2 refused", lines[-1])

    def test_a_crate_without_wrong_bodies(self):
        self.assertEqual(self.run_tool("high")[:2], (0, ["high has no wrong bodies", "0 refused, 0 let through, 0 bad, 0 not tried"]))
        self.assertFalse((self.room / "seen").exists())

    def test_words_that_it_does_not_take(self):
        status, lines, _ = self.run_tool()
        self.assertEqual(status, 2)
        self.assertTrue(lines[0].startswith("usage: wrong"))
        status, _, said = self.run_tool("middle", "nobody")
        self.assertEqual(status, 2)
        self.assertIn("crates.txt names no crate nobody", said)

    def test_a_line_of_rt_on_an_unknown_edit_counts_for_nothing(self):
        line = "rt: must-fail low/own.edit: NOT REFUSED: the crate is still proved with this edit\n"
        with mock.patch.object(wrong, "said_by_rt", return_value=[line]), contextlib.redirect_stdout(io.StringIO()):
            self.assertEqual(wrong.try_bodies(self.top, ["middle"]), {"middle/first": "not tried", "middle/second": "not tried"})


class OfThisRepository(unittest.TestCase):
    """The wrong bodies that stand here."""

    TOP = TOOLS.parent

    def test_each_folder_is_a_crate_with_edits(self):
        uses = wrong.uses_of(self.TOP)
        for place in sorted(self.TOP.glob("crates/*/wrong")):
            with self.subTest(place.parent.name):
                self.assertIn(place.parent.name, uses)
                self.assertTrue(wrong.bodies(self.TOP, place.parent.name))
                self.assertFalse([it.name for it in place.iterdir() if it.suffix != ".edit"])

    def test_each_old_text_stands_once(self):
        for edit in sorted(self.TOP.glob("crates/*/wrong/*.edit")):
            with self.subTest(f"{edit.parent.parent.name}/{edit.name}"):
                self.assertTrue(changes(edit), "it changes nothing")


def changes(edit):
    """Whether the edit can be applied to its crate, pair by pair, and changes it."""
    crate, texts, path, old = edit.parents[1], {}, None, None
    for line in edit.read_text().splitlines():
        word, _, rest = line.partition(":")
        if word == "file":
            path = rest.strip()
            texts.setdefault(path, (crate / path).read_text())
        elif word == "old":
            old = rest[1:]
        elif word == "new":
            if texts[path].count(old) != 1:
                return False
            texts[path] = texts[path].replace(old, rest[1:])
    return any(text != (crate / at).read_text() for at, text in texts.items())


if __name__ == "__main__":
    unittest.main()
