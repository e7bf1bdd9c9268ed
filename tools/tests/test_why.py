"""Tests of tools/why: each faulty input gets its reason, and no faultless line gets one."""

import json
import pathlib
import subprocess
import sys
import tempfile
import unittest
from unittest import mock

from faults import FAULTS, FIRST, HEAD, ENTRIES, PROCESS
from loading import TOOLS, load_tool

why = load_tool("why")


class EachFaultHasItsReason(unittest.TestCase):
    """The table of faulty inputs."""

    def test_there_are_many_faults(self):
        self.assertGreaterEqual(len(FAULTS), 90)
        self.assertEqual(len({fault.name for fault in FAULTS}), len(FAULTS))

    def test_the_hint_is_told(self):
        for fault in FAULTS:
            with self.subTest(fault.name):
                told = why.answer(fault.text, fault.line, "auto")
                reasons = "\n".join(line for line in told.lines if "why: " in line or "stands on line" in line)
                self.assertIn(fault.hint, reasons)
                self.assertTrue(told.found)

    def test_the_line_is_told(self):
        for fault in FAULTS:
            words = fault.line.split(" ")
            if words[0] == "refused" and words[-1] != "file_too_long":
                number = words[2] if words[1] == "report" else words[1]
                text = {"report": "a report", "progress": "an event list"}.get(
                    words[1] if words[1] == "report" else fault.words, "a script")
                with self.subTest(fault.name):
                    told = why.answer(fault.text, fault.line, "auto").lines[0]
                    self.assertTrue(told.startswith(f"line {number} of {text}: "), told)

    def test_bytes_are_shown(self):
        for name, shown in [("crlf_one_line", "print 1<CR>"), ("tab_between", "move 1<TAB>$0"),
                            ("trailing_space", "print 1<SP>"), ("double_space", "move 1<SP><SP>$0"),
                            ("byte_order_mark", "<BOM>beam script 1"), ("last_line_feed", "go<NO LINE FEED>")]:
            fault = next(fault for fault in FAULTS if fault.name == name)
            self.assertIn(shown, why.answer(fault.text, fault.line, "auto").lines[0])


class NoReasonIsInvented(unittest.TestCase):
    """Lines without a fault get none."""

    def test_lines_of_a_script(self):
        for number in range(2, FIRST.count("\n") + 1):
            told = why.answer(FIRST, f"refused {number} syntax", "script")
            self.assertFalse(told.found, told.lines)
            self.assertIn("no reason was found", "\n".join(told.lines))

    def test_lines_of_a_report(self):
        text = FIRST + HEAD + ENTRIES + PROCESS + "observer 0\nsnapshot 1\nexport m:main/0 1\nend report\n"
        for number in range(1, text.count("\n") - FIRST.count("\n") + 1):
            told = why.answer(text, f"refused report {number} syntax", "auto")
            self.assertFalse(told.found, told.lines)

    def test_examples_of_the_repository(self):
        for path in sorted((TOOLS.parent / "examples").glob("*.script")):
            text = path.read_bytes().decode("latin-1")
            for number in range(2, text.count("\n") + 1):
                told = why.answer(text, f"refused {number} syntax", "script")
                self.assertFalse(told.found, (path.name, told.lines))

    def test_reports_of_the_repository(self):
        for path in sorted((TOOLS.parent / "examples").glob("*.report")):
            lines = path.read_text(encoding="latin-1")
            text = path.with_suffix(".script").read_text(encoding="latin-1") + lines
            for number in range(1, lines.count("\n") + 1):
                told = why.answer(text, f"refused report {number} syntax", "auto")
                self.assertFalse(told.found, (path.name, told.lines))

    def test_events_of_the_repository(self):
        for path in sorted((TOOLS.parent / "examples").glob("*.events")):
            text = path.read_text(encoding="latin-1")
            for number in range(2, text.count("\n") + 1):
                told = why.answer(text, f"refused {number} syntax", "auto")
                self.assertFalse(told.found, (path.name, told.lines))

    def test_another_text_than_the_program_read(self):
        for fault in ("refused 99 syntax", "refused report 9 syntax", "not enabled 40", "refused 2 duplicate", "nonsense",
                      "refused 0 syntax", "refused 3 unknown_name", "refused 6 limit integers", "refused 6 noise",
                      "refused 4 limit integer", "refused 4 limit term"):
            told = why.answer(FIRST, fault, "auto")
            self.assertFalse(told.found, told.lines)


class OtherAnswers(unittest.TestCase):
    """Lines of the program that name no line of the input."""

    def test_what_is_told(self):
        forms = ("run;", "run --schedulers N", "check;", "progress;", "make --seed S --size K", "trial --seed S --size K --schedulers N")
        for line, phrases in [("words not understood", forms), ("lawful", ("nothing was refused",))]:
            for phrase in phrases:
                self.assertIn(phrase, "\n".join(why.answer(FIRST, line, "auto").lines))

    def test_a_broken_clause(self):
        said = "not lawful: TurnsFollow (process 0, span 1, line 7)\nexpected the line `print 3`\n"
        cases = [(said, 1, True, ("the clause TurnsFollow", "process 0, span 1, line 7 of the report", "hint: expected the line `print 3`")),
                 ("not lawful: Complete\nexpected more\n", 1, True, ("the clause Complete", "hint: expected more")),
                 ("lawful\n", 0, False, ("are not those that the program read",))]
        for out, status, found, phrases in cases:
            for fault in ("not lawful", "not lawful: TurnsFollow (process 0, span 1, line 7)"):
                with self.subTest(out, fault=fault), tempfile.TemporaryDirectory() as folder:
                    program = pathlib.Path(folder) / "beam_why"
                    program.write_text(f"#!/bin/sh\ncat >\"$0.read\"\nprintf '%s' '{out}'\nexit {status}\n")
                    program.chmod(0o755)
                    with mock.patch.object(why, "clause_program", lambda: program):
                        told = why.answer(FIRST, fault, "auto")
                    self.assertEqual(told.found, found)
                    for phrase in phrases:
                        self.assertIn(phrase, "\n".join(told.lines))
                    self.assertEqual((pathlib.Path(folder) / "beam_why.read").read_text(), FIRST)

    def test_a_span_is_named_as_the_report_names_it(self):
        text = FIRST + HEAD + ENTRIES + "process 0 m:main()\nspan 3 1\nprint 1\nspan 7 2\nprint 2\nend normal\nobserver 1\nsnapshot 4\nexport m:f/0 1\nend report\n"
        for place, named in (("process 0, span 2, line 9", "process 0, `span 7 2`, line 9"), ("process 0, span 1, line 6", "process 0, `span 3 1`, line 6"),
                             ("observer 1, snapshot 1, line 13", "observer 1, `snapshot 4`, line 13"), ("entry 1, line 3", "entry 1, line 3"), ("", "")):
            self.assertEqual(why.place_in_report(text, place), named)

    def test_erlang_source_is_told_as_such_first(self):
        source = "%% a till\n-module(till).\n-export([open/0]).\nopen() -> ok.\n"
        for text, phrase in ((source, "this is Erlang source"), ("  -module (a).\n", "this is Erlang source"), ("FOR1\0\0\0\0BEAMAt", "a `.beam` file")):
            told = why.answer(text, "refused 1 syntax", "auto")
            self.assertTrue(told.found)
            self.assertIn(phrase, told.lines[0])
        self.assertIsNone(why.foreign_answer(FIRST))

    def test_no_program_that_names_clauses(self):
        with mock.patch.object(why, "clause_program", lambda: None):
            told = why.answer(FIRST, "not lawful", "auto")
        self.assertFalse(told.found)
        self.assertIn("beam_why", told.lines[0])

    def test_several_faults_of_a_line(self):
        text = "beam script 1\nloader\n\tput k {1, $0}\r\ngo\n"
        told = "\n".join(why.answer(text, "refused 3 syntax", "auto").lines)
        for phrase in ("carriage return", "a tab", "a space stands inside", "holds no registers"):
            self.assertIn(phrase, told)

    def test_many_brackets(self):
        text = "beam script 1\nloader\nput k " + "[" * 4000 + "\ngo\n"
        self.assertIn("is not closed", "\n".join(why.answer(text, "refused 3 syntax", "auto").lines))

    def test_forms_that_may_stand(self):
        told = why.answer("beam script 1\nloader\nnoise\ngo\n", "refused 3 syntax", "auto").lines
        for form in why.COMMANDS.values():
            self.assertIn(f"  {form.shape}", told)


class TheProgram(unittest.TestCase):
    """The tool as it is called."""

    def call(self, text, *words, given=""):
        with tempfile.TemporaryDirectory() as folder:
            path = pathlib.Path(folder) / "input"
            path.write_bytes(text.encode("latin-1"))
            return subprocess.run([sys.executable, str(TOOLS / "why"), str(path), *words], input=given, text=True,
                                  capture_output=True, check=False)

    def test_fault_from_standard_input(self):
        done = self.call("beam script 1\nloader\nput k 01\ngo\n", given="refused 3 syntax\n")
        self.assertEqual(done.returncode, 0)
        self.assertIn("leading zero", done.stdout)

    def test_fault_from_words(self):
        self.assertIn("leading zero", self.call("beam script 1\nloader\nput k 01\ngo\n", "refused", "3", "syntax").stdout)

    def test_for_other_programs(self):
        told = json.loads(self.call("beam script 1\nloader\nput k 01\ngo\n", "refused", "3", "syntax", "--json").stdout)
        self.assertEqual((told["form"], told["is_found"], told["line"], told["text"]), (1, True, 3, "script"))
        self.assertEqual(len(told["reasons"]), 1)
        self.assertIn("leading zero", told["reasons"][0])
        told = json.loads(self.call(FIRST, "lawful", "--json").stdout)
        self.assertEqual((told["is_found"], told["line"], told["reasons"], told["lines"]), (True, None, [], ["nothing was refused"]))

    def test_statuses(self):
        self.assertEqual(self.call(FIRST, "refused 3 syntax").returncode, 1)
        missing = subprocess.run([sys.executable, str(TOOLS / "why"), "/no/such/file", "lawful"], capture_output=True,
                                 check=False)
        self.assertEqual(missing.returncode, 2)

    def test_a_file_that_cannot_be_read_has_its_cause(self):
        for path, cause in (("/no/such/file", "there is no such file"), ("/tmp", "it is a folder"), ("/dev/null/x", "Not a directory")):
            done = subprocess.run([sys.executable, str(TOOLS / "why"), path, "lawful"], capture_output=True, text=True, check=False)
            self.assertEqual((done.returncode, done.stderr), (2, f"why: cannot read {path}: {cause}\n"))
        self.assertEqual(why.unread("a", PermissionError(13, "x")), "cannot read a: it may not be read")


if __name__ == "__main__":
    unittest.main()
