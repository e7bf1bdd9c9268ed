"""Tests of tools/otp: what a real Erlang node tells of scripts, judged by the program's own `check`.

They need Erlang and the program, and are skipped where either is not there.
"""

import os
import re
import shutil
import subprocess
import sys
import tempfile
import unittest
from concurrent.futures import ThreadPoolExecutor
from pathlib import Path

TOP = Path(__file__).resolve().parents[2]
OTP = TOP / "tools/otp"
sys.path.insert(0, str(OTP))

import comparison
import node as nodes
import scripts

PROGRAM = Path(os.environ.get("BEAM_PROGRAM") or comparison.PROVED)
LACKING = (
    nodes.HOW_TO_INSTALL if not nodes.is_installed()
    else f"there is no program {PROGRAM}" if not os.access(PROGRAM, os.X_OK)
    else None
)
# The examples of which the node's report is not lawful, with the numbers of the differences.
NOT_LAWFUL = {"10_trace": [8], "ends_areas": [4]}
SEEDS = range(1, 7)


def compared(pool, node, named):
    """What comes of scripts by name: of each its text and the options of its run."""
    program = comparison.Program(PROGRAM)
    works = {name: pool.submit(comparison.compare, node, program, text, *more) for name, (text, *more) in named.items()}
    return {name: work.result() for name, work in works.items()}


@unittest.skipIf(LACKING, LACKING)
class Compared(unittest.TestCase):
    """Scripts that run on the node and in the program."""

    @classmethod
    def setUpClass(cls):
        examples = sorted((TOP / "examples").rglob("*.script"))
        shown = sorted((OTP / "differences").glob("*.script"))
        with nodes.Node() as node, ThreadPoolExecutor(os.cpu_count()) as pool:
            cls.examples = compared(pool, node, {path.stem: (path.read_text(),) for path in examples})
            cls.shown = compared(pool, node, {
                path.stem: (path.read_text(), *(["last_calls"] if "last_call" in path.stem else [])) for path in shown})
            cls.made = compared(pool, node, {seed: (scripts.make(seed),) for seed in SEEDS})

    def test_examples_are_lawful_or_differ_as_listed(self):
        self.assertEqual(len(self.examples), 28)
        for name, done in self.examples.items():
            with self.subTest(name):
                self.assertEqual(done.our_verdict, "lawful")
                if name in NOT_LAWFUL:
                    judged = (done.verdict, done.numbers, done.aside)
                    self.assertEqual(judged, ("not lawful", NOT_LAWFUL[name], "lawful"))
                else:
                    self.assertEqual((done.verdict, done.numbers), ("lawful", []))

    def test_each_listed_difference_shows(self):
        self.assertEqual(sorted(int(name.split("_")[0]) for name in self.shown), list(range(1, 11)))
        for name, done in self.shown.items():
            number = int(name.split("_")[0])
            with self.subTest(name):
                self.assertEqual(done.our_verdict, "lawful")
                if number == 7:
                    self.assertEqual((done.verdict, done.numbers), ("lawful", []))
                    self.assertIn("\nend killed 1\n", done.told.report)
                else:
                    self.assertEqual((done.verdict, done.numbers, done.aside), ("not lawful", [number], "lawful"))

    def test_the_node_answers_there_as_it_did(self):
        for name, done in self.shown.items():
            with self.subTest(name):
                self.assertEqual(done.told.report, (OTP / f"differences/{name}.report").read_text())

    def test_scripts_of_seeds_are_lawful_or_differ_as_listed(self):
        for seed, done in self.made.items():
            with self.subTest(seed=seed):
                self.assertTrue(done.is_explained, done.told)

    def test_the_page_shows_what_the_tool_prints(self):
        block = re.search(r"```\n\$ tools/otp/compare (\S+)\n(.*?)```", (TOP / "docs/TOOLS.md").read_text(), re.S)
        words = [sys.executable, str(OTP / "compare"), "--program", str(PROGRAM), str(TOP / block[1])]
        done = subprocess.run(words, capture_output=True, text=True)
        self.assertEqual((done.returncode, done.stdout), (1, block[2]))

    def test_what_differs_is_told_in_words(self):
        done = self.shown["01_load_over_deleted"]
        words = list(comparison.differing(done.ours, done.told.report))
        self.assertIn("entry L0 load m.2: the program answers not_purged [m] -, the node ok @3", words)
        done = self.shown["04_no_limits"]
        words = list(comparison.differing(done.ours, done.told.report))
        self.assertEqual(words, ["process 0, m:main(): in the program it ends as system_limit, on the node as normal"])
        self.assertEqual(list(comparison.differing(done.ours, done.ours)), [])


def example(name):
    return (TOP / f"examples/{name}.script").read_text()


# A process that goes on behind the last command, though each of its rounds has sixteen turns.
LONG_TRACE = example("trace").replace("less $2 9 again", "less $2 30 again")
# Five faults of the Erlang sources: the file, a text that stands there once, another, and a script that shows it.
FAULTS = {
    "a reply is inverted": (
        "otp_commands.erl",
        "{has_old_code(Name), none}",
        "{not has_old_code(Name), none}",
        example("check_old"),
    ),
    "a generation is told too early": (
        "otp_rounds.erl",
        "took_turn(Lines, #life{turns = Turns, spans = Spans} = Life, #run{history = History}) ->\n"
        "    Generation = otp_history:generation(History),",
        "took_turn(Lines, #life{turns = Turns, spans = Spans} = Life, #run{history = History}) ->\n"
        "    Generation = max(0, otp_history:generation(History) - 1),",
        example("upgrade"),
    ),
    "a print is lost": ("otp_rounds.erl", "told({print, Term}, _, _) ->\n    [{print, Term}];",
                        "told({print, _}, _, _) ->\n    [];", example("first")),
    "a trace is left on": (
        "otp_commands.erl",
        "case erlang:trace_pattern(Pattern, On, [local]) of",
        "case erlang:trace_pattern(Pattern, true, [local]) of",
        LONG_TRACE,
    ),
    "a process skips a turn": (
        "otp_rounds.erl",
        "{Lines, End} = otp_process:step(Process),",
        "{Lines, End} = case Life#life.turns of 1 -> {[], again}; _ -> otp_process:step(Process) end,",
        example("soft_purge"),
    ),
}


@unittest.skipIf(LACKING, LACKING)
class Faults(unittest.TestCase):
    """A node that errs writes a report that is not lawful."""

    def judged(self, file, old, new, script):
        with tempfile.TemporaryDirectory() as room:
            sources = Path(room) / "src"
            shutil.copytree(OTP / "src", sources)
            text = (sources / file).read_text()
            self.assertEqual(text.count(old), 1, old)
            (sources / file).write_text(text.replace(old, new))
            path = Path(room) / "fault.script"
            path.write_text(script)
            with nodes.Node(sources) as node:
                report = node.tell(path).report
            return comparison.Program(PROGRAM).check(script, report)

    def test_without_a_fault_the_reports_are_lawful(self):
        with nodes.Node() as node, tempfile.TemporaryDirectory() as room:
            path = Path(room) / "long.script"
            path.write_text(LONG_TRACE)
            self.assertEqual(comparison.Program(PROGRAM).check(LONG_TRACE, node.tell(path).report), "lawful")

    def test_each_fault_is_seen(self):
        with ThreadPoolExecutor(os.cpu_count()) as pool:
            works = {name: pool.submit(self.judged, *fault) for name, fault in FAULTS.items()}
            for name, work in works.items():
                with self.subTest(name):
                    self.assertEqual(work.result(), "not lawful")


class Made(unittest.TestCase):
    """The maker of scripts."""

    def test_a_seed_makes_one_script(self):
        self.assertEqual(scripts.make(5), scripts.make(5))
        self.assertEqual(len({scripts.make(seed) for seed in range(1, 21)}), 20)

    def test_scripts_have_all_commands_and_instructions(self):
        texts = [scripts.make(seed) for seed in range(1, 41)]
        words = {line.split(" ")[0] for text in texts for line in text.splitlines()}
        commands = {"load", "delete", "soft_purge", "purge", "check_old", "put", "erase", "trace", "spawn", "observer"}
        instructions = {
            "move", "add", "sub", "eq", "less", "jump", "call", "call_ext", "ret", "pget", "pget_or", "elem", "print",
            "yield"}
        self.assertEqual((commands | instructions) - words, set())
        for text in texts:
            lines = text.splitlines()
            self.assertLessEqual(sum(line.startswith("spawn ") for line in lines), 12)
            names = {line.split(" ")[1].split(".")[0] for line in lines if line.startswith("module ")}
            self.assertIn(len(names), (2, 3, 4))


@unittest.skipUnless(nodes.is_installed(), nodes.HOW_TO_INSTALL)
class WithoutAProgram(unittest.TestCase):
    """Where no proved program stands, the tools say so, and ask no trial run many times."""

    def test_tools_say_how_to_make_it(self):
        with tempfile.TemporaryDirectory() as room:
            top = Path(room) / "top"
            shutil.copytree(OTP, top / "tools/otp")
            build = top / "tools/build"
            build.write_text("#!/bin/sh\nexit 1\n")
            build.chmod(0o755)
            given = {name: value for name, value in os.environ.items() if name != "BEAM_PROGRAM"}
            for tool, words in (("compare", [TOP / "examples/first.script"]), ("survey", ["--count", "1"])):
                done = subprocess.run([sys.executable, top / "tools/otp" / tool, *words], env=given, capture_output=True, text=True)
                with self.subTest(tool):
                    self.assertEqual(done.returncode, 2)
                    self.assertIn("`./beam prove` makes it", done.stderr)


class Differences(unittest.TestCase):
    """What is said of two reports that differ."""

    def told(self, ours, theirs):
        return list(comparison.differing(ours, theirs))

    def test_a_repeated_difference_is_told_once_with_its_count(self):
        report = "beam report 1\ngenerations 3\n{}end report\n"
        entry = "entry L0 delete m = {} -\n"
        self.assertEqual(self.told(report.format(entry.format("false") * 5), report.format(entry.format("false") + entry.format("true") * 4)),
                         ["entry L0 delete m (time 2): the program answers false -, the node true -; so 4 times, first here"])
        self.assertEqual(self.told(report.format(entry.format("false") * 3), report.format(entry.format("false"))),
                         ["entry L0 delete m (time 2): the program made it, the node did not; so 2 times, first here"])
        self.assertEqual(self.told(report.format(""), report.format(entry.format("true"))),
                         ["entry L0 delete m: the node made it, the program did not"])

    def test_the_printed_lines_that_differ_are_told(self):
        report = "beam report 1\ngenerations 0\nprocess 0 m:f()\nspan 0 1\n{}end normal\nend report\n"
        lines = [f"print {number}\n" for number in range(9)]
        other = [*lines[:2], "print x\n", *lines[3:8]]
        self.assertEqual(self.told(report.format("".join(lines)), report.format("".join(other))),
                         ["process 0, m:f(): of the lines that it prints, 9 in the program and 8 on the node, 3 is `print 2` in the program,"
                          " `print x` on the node, 9 is `print 8` in the program, none on the node"])
        told = self.told(report.format(""), report.format("".join(lines)))[0]
        self.assertTrue(told.endswith("5 is none in the program, `print 4` on the node; and 4 more differ"), told)


class WithoutErlang(unittest.TestCase):
    """Where Erlang is not installed, the tools say how to install it."""

    def test_tools_say_how_to_install_it(self):
        with tempfile.TemporaryDirectory() as room:
            for tool in ("report", "compare", "survey"):
                words = [sys.executable, str(OTP / tool), *(["a.script"] if tool != "survey" else [])]
                done = subprocess.run(words, env={"PATH": room}, capture_output=True, text=True)
                with self.subTest(tool):
                    self.assertEqual(done.returncode, 1)
                    self.assertIn("apt-get install --no-install-recommends erlang-base", done.stderr)


if __name__ == "__main__":
    unittest.main()
