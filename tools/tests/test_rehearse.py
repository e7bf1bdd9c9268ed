"""Tests of tools/rehearse, with a program that stands in for the real one: what is counted, kept and expected, and each bad input."""

import json
import os
import signal
import subprocess
import sys
import tempfile
import time
import unittest
from pathlib import Path

from loading import TOOLS, load_tool

sys.path.insert(0, str(TOOLS / "rehearsal"))
rehearse = load_tool("rehearse")

import expectation
import history
import script
import table

SCRIPT = """beam script 1
module m.1
end
loader
load m.1
spawn m:main(1)
put limits {1,2}
load m.1
soft_purge m
purge m
erase limits
check_old m
go
"""
HEAD = "beam report 1\ngenerations 6\n"
ENTRIES = ["L0 load m.1 = ok @1", "L0 spawn m:main(1) = ok -", "L0 put limits {1,2} = ok @2", "L0 load m.1 = ok @3"]
KILLED = HEAD + "".join(f"entry {entry}\n" for entry in [
    *ENTRIES, "L0 soft_purge m = false 0 7 -", "L0 doom m = ok @4", "L0 purge m = true @5", "rt release 1 = ok -", "L0 erase limits = true @6",
    "rt release 2 = ok -", "L0 check_old m = false -"]) + "process 0 m:main(1)\nspan 1 2\nprint 1\nend killed 1\nend report\n"
SPARED = HEAD + "".join(f"entry {entry}\n" for entry in [
    *ENTRIES, "L0 soft_purge m = true @4", "L0 purge m = false -", "L0 erase limits = true @5", "L0 check_old m = false -", "rt release 2 = ok -"]
) + "process 0 m:main(1)\nspan 1 2\nprint 1\nprint 2\nend normal\nend report\n"

# The program that stands in: run N answers by the file of its number of schedulers, or by what it is told to do.
PROGRAM = """#!/bin/sh
here=$(dirname "$0")
case $1 in
    run)
        [ -f "$here/hang" ] && { echo $$ >>"$here/pids"; sleep 60; }
        [ -f "$here/refused" ] && { cat "$here/refused"; exit 3; }
        cat "$here/report$3" ;;
    check) cat "$here/verdict" ;;
esac
"""


class RehearseTest(unittest.TestCase):
    def setUp(self):
        room = tempfile.TemporaryDirectory()
        self.addCleanup(room.cleanup)
        self.room = Path(room.name)
        for name, text in (("program", PROGRAM), ("report1", KILLED), ("report2", SPARED), ("verdict", "lawful\n")):
            (self.room / name).write_text(text)
        (self.room / "program").chmod(0o755)

    def words(self, *more, text=SCRIPT):
        (self.room / "a.script").write_text(text)
        return [sys.executable, TOOLS / "rehearse", "a.script", "--program", self.room / "program", "--jobs", "2", *more]

    def rehearse(self, *more, text=SCRIPT):
        where = {**os.environ, "TMPDIR": str(self.room)}
        return subprocess.run(self.words(*more, text=text), cwd=self.room, capture_output=True, text=True, timeout=60, env=where)


class Tables(RehearseTest):
    def test_what_came_and_how_often(self):
        done = self.rehearse("--times", "3", "--schedulers", "1,2", "--keep", "kept")
        self.assertEqual((done.returncode, done.stderr), (0, ""))
        lines = done.stdout.splitlines()
        self.assertEqual(lines[0], "6 runs: 6 lawful; 2 outcomes")
        for line in ("L0 5 soft_purge m      false by process 0 (3), true (3)", "L0 1 load m.1          ok (6)",
                     "0 m:main(1)  killed by L0 6 purge m (3), normal (3)  1 (3), 1 2 (3)",
                     "1        3     1: 3           kept/outcome1.report", "2        3     2: 3           kept/outcome2.report"):
            self.assertIn(line, lines)
        self.assertEqual((self.room / "kept/outcome1.report").read_text(), KILLED)
        self.assertEqual((self.room / "kept/script").read_text(), SCRIPT)

    def test_for_other_programs(self):
        done = self.rehearse("--times", "2", "--schedulers", "1,2", "--json", text=SCRIPT + "% expect nobody is killed\n")
        told = json.loads(done.stdout)
        self.assertEqual(done.returncode, 1)
        self.assertEqual(set(told), {"form", "runs", "unended", "unlawful", "commands", "processes", "outcomes", "expected"})
        self.assertEqual((told["form"], told["runs"], told["unended"], told["unlawful"]), (1, 4, 0, []))
        self.assertEqual(told["commands"][4], {"command": "L0 5 soft_purge m", "replies": {"false by process 0": 2, "true": 2}})
        self.assertEqual(told["processes"][0]["ends"], {"killed by L0 6 purge m": 2, "normal": 2})
        self.assertEqual([each["runs"] for each in told["outcomes"]], [2, 2])
        expected = told["expected"][0]
        self.assertEqual((expected["line"], expected["is_met"], expected["met"], expected["unmet"], expected["where"]["line"]), (14, False, 2, 2, 17))

    def test_directives_set_how_often(self):
        done = self.rehearse(text="% A comment.\n% repeat 2\n% schedulers 2\n" + SCRIPT)
        self.assertIn("2 runs: 2 lawful; 1 outcomes", done.stdout)
        self.assertIn("3 runs", self.rehearse("--times", "1", "--schedulers", "1,2,1", text="% repeat 2\n" + SCRIPT).stdout)

    def test_a_long_cell_is_shortened(self):
        counts = table.Counter({"x" * 60: 2, **{str(each): 1 for each in range(9)}})
        self.assertEqual(table.often(counts), "x" * 45 + " .. (2), 0 (1), 1 (1), 2 (1), 3 (1), 4 (1) and 4 more")


class Expected(RehearseTest):
    # Each form, with whether it holds of the report in which the process is killed, and of the one in which it is spared.
    FORMS = [
        ("nobody is killed", False, True), ("process 0 ends normal", False, True), ("process 0 ends killed", True, False),
        ("process 0 prints 1, 2", False, True), ("process 0 prints 1", True, False), ("process 0 prints nothing", False, False),
        ("soft_purge m is true", False, True), ("soft_purge m is false", True, False), ("the 1st purge m is true", True, False),
        ("L0 5 replies true", False, True), ("L0 5 replies false 0 7", True, False), ("L0 1 replies ok", True, True),
        ("nobody lingers in m", False, True), ("area of key limits is released before L0 8", True, False),
    ]

    def test_each_form_and_its_negation(self):
        whole = script.read(SCRIPT)
        for text, killed, spared in self.FORMS:
            for report, holds in ((KILLED, killed), (SPARED, spared)):
                told = history.read(report)
                with self.subTest(text, holds=holds):
                    self.assertEqual(expectation.read(1, text, whole).seen(told).holds, holds)
                    self.assertEqual(expectation.read(1, f"always not {text}", whole).seen(told).holds, not holds)

    def test_always_and_sometimes(self):
        for text, status in (("always L0 1 replies ok", 0), ("nobody is killed", 1), ("sometimes nobody is killed", 0), ("sometimes not nobody is killed", 0),
                             ("not nobody is killed", 1), ("sometimes process 0 prints 9", 1), ("sometimes not L0 1 replies ok", 1)):
            done = self.rehearse("--times", "1", "--schedulers", "1,2", text=f"{SCRIPT}% expect {text}\n")
            with self.subTest(text):
                self.assertEqual(done.returncode, status, done.stdout)
                self.assertIn(f"a.script:14: {'NOT MET' if status else 'met'}: {text}", done.stdout)

    def test_what_is_not_met_is_told_with_its_report_and_place(self):
        done = self.rehearse("--times", "2", "--schedulers", "1,2", "--keep", "kept", text=f"% expect nobody is killed\n{SCRIPT}")
        self.assertIn("  2 of 4 runs; kept/expected1.report:17: process 0 is killed by L0 6 purge m\n", done.stdout)
        self.assertEqual((self.room / "kept/expected1.report").read_text().splitlines()[16], "end killed 1")

    def test_without_a_folder_a_report_that_shows_it_is_kept(self):
        done = self.rehearse("--times", "1", "--schedulers", "1", text=f"{SCRIPT}% expect nobody is killed\n")
        path = done.stdout[done.stdout.index("1 of 1 runs; ") + 13 :].split(":")[0]
        self.assertEqual(Path(path).read_text(), KILLED)


class BadInput(RehearseTest):
    def test_faulty_lines_have_their_place_and_reason(self):
        cases = [("% expect nobody is kiled", "is no expectation; the forms"), ("% expect process 1 ends normal", "there is no process 1"),
                 ("% expect L1 1 replies ok", "no command 1 of loader 1"), ("% expect L0 9 replies ok", "no command 9"),
                 ("% expect soft_purge n is true", "no command `soft_purge n`"), ("% expect the 2nd purge m is true", "has `purge m` 1 times"),
                 ("% expect nobody lingers in n", "no command `soft_purge n`"), ("% expect area of key k is released before L0 1", "under the key k"),
                 ("% repeat 0", "no number of runs"), ("% schedulers 1,17", "no list of numbers of schedulers"), ("% expect", "is no expectation")]
        for line, reason in cases:
            done = self.rehearse("--times", "1", text=f"{SCRIPT}{line}\n")
            with self.subTest(line):
                self.assertEqual((done.returncode, done.stdout), (3, ""))
                self.assertIn("a.script:14: ", done.stderr)
                self.assertIn(reason, done.stderr)

    def test_a_refused_script_has_the_line_of_the_file(self):
        (self.room / "refused").write_text("refused 2 limit integer\n")
        done = self.rehearse(text="% one\nbeam script 1\n% two\nmodule m.1\ngo\n")
        self.assertEqual((done.returncode, done.stdout), (3, ""))
        self.assertIn("a.script:4: the program refuses this line of the script, its line 2: limit integer", done.stderr)

    def test_what_is_not_there(self):
        done = subprocess.run([sys.executable, TOOLS / "rehearse", "/no/such"], capture_output=True, text=True, check=False)
        self.assertEqual(done.returncode, 4)
        self.assertEqual(self.rehearse("--program", "/no/such").returncode, 7)
        self.assertEqual(self.rehearse("--schedulers", "0").returncode, 2)
        self.assertEqual(self.rehearse("--times", "0").returncode, 2)

    def test_a_script_that_never_ends_is_counted(self):
        (self.room / "hang").write_text("")
        done = self.rehearse("--times", "2", "--schedulers", "1", "--limit", "0.5", text=SCRIPT + "% expect nobody is killed\n")
        self.assertEqual(done.returncode, 1)
        self.assertIn("2 runs: 0 lawful, 2 that did not end; 0 outcomes", done.stdout)
        self.nothing_runs()

    def test_a_report_that_is_not_lawful_is_kept(self):
        (self.room / "verdict").write_text("not lawful\n")
        done = self.rehearse("--times", "1", "--schedulers", "1", "--keep", "kept")
        self.assertEqual(done.returncode, 1)
        self.assertIn("1 runs: 0 lawful, 1 not lawful; 0 outcomes", done.stdout)
        self.assertEqual((self.room / "kept/unlawful1.report").read_text(), KILLED)

    def nothing_runs(self):
        for pid in (self.room / "pids").read_text().split():
            self.assertFalse(Path(f"/proc/{pid}/cmdline").exists() and Path(f"/proc/{pid}/cmdline").read_bytes())

    def test_an_interrupt_leaves_nothing_running(self):
        (self.room / "hang").write_text("")
        for number in (signal.SIGINT, signal.SIGTERM):
            (self.room / "pids").write_text("")
            ran = subprocess.Popen(self.words("--keep", "kept"), cwd=self.room, stdout=subprocess.PIPE, stderr=subprocess.PIPE, text=True)
            end = time.monotonic() + 10
            while not (self.room / "pids").read_text().split() and time.monotonic() < end:
                time.sleep(0.05)
            ran.send_signal(number)
            out, said = ran.communicate(timeout=20)
            self.assertEqual(ran.returncode, 130)
            self.assertIn("stopped; what came up to here", said)
            self.assertIn("0 runs", out)
            self.nothing_runs()

    def test_a_full_disk(self):
        with open("/dev/full", "wb") as full:
            done = subprocess.run(self.words("--times", "1", "--schedulers", "1", "--keep", "kept"), cwd=self.room, stdout=full, stderr=subprocess.PIPE, check=False)
        self.assertEqual((done.returncode, done.stderr.count(b"\n")), (5, 1))
        self.assertEqual((self.room / "kept/outcome1.report").read_text(), KILLED)


PROGRAM_FILE = Path(os.environ.get("BEAM_PROGRAM") or TOOLS.parent / "crates/beam_tool/out/beam_tool")


class Examples(unittest.TestCase):
    """The rehearsals of examples/, of which one is there to show an expectation that is not met."""

    FILES = sorted((TOOLS.parent / "examples/rehearsals").glob("*.rehearsal"))

    def test_each_is_one(self):
        self.assertEqual([path.stem for path in self.FILES], ["configuration", "old_loop", "traced"])
        for path in self.FILES:
            whole = script.read(path.read_text())
            self.assertGreaterEqual(len([expectation.read(number, text, whole) for number, text in whole.expected]), 5)
            self.assertEqual(whole.repeat, 20)

    @unittest.skipUnless(os.access(PROGRAM_FILE, os.X_OK), f"there is no program {PROGRAM_FILE}")
    def test_what_comes_of_each(self):
        for path in self.FILES:
            words = [sys.executable, TOOLS / "rehearse", path, "--program", PROGRAM_FILE, "--times", "1", "--schedulers", "1"]
            done = subprocess.run(words, capture_output=True, text=True, check=False)
            with self.subTest(path.name):
                self.assertEqual(done.returncode, 1 if path.stem == "old_loop" else 0, done.stdout + done.stderr)
                self.assertEqual(done.stdout.count("NOT MET"), 1 if path.stem == "old_loop" else 0)


if __name__ == "__main__":
    unittest.main()
