"""Tests of tools/bench: its scripts, what it reckons from the times of runs, and what it refuses."""

import pathlib
import shutil
import stat
import subprocess
import sys
import tempfile
import unittest
from unittest import mock

from loading import TOOLS, load_tool

bench = load_tool("bench")
sys.path.insert(0, str(TOOLS / "otp"))


class Times(unittest.TestCase):
    def setUp(self):
        folder = tempfile.TemporaryDirectory()
        self.addCleanup(folder.cleanup)
        self.folder = pathlib.Path(folder.name)

    def script(self):
        """A file that is taken for a script."""
        path = self.folder / "a.script"
        path.write_text("beam script 1\ngo\n", encoding="ascii")
        return path

    def program(self, text):
        """A program of this text."""
        path = self.folder / "program"
        path.write_text(f"#!{sys.executable}\n{text}", encoding="ascii")
        path.chmod(path.stat().st_mode | stat.S_IXUSR)
        return path

    def test_run(self):
        program = self.program("import sys\nassert sys.argv[1:] == ['run', '--schedulers', '2']\nassert sys.stdin.read() == 'beam script 1\\ngo\\n'\n")
        taken = bench.run(program, 2, self.script())
        self.assertGreater(taken.seconds, 0)
        self.assertGreater(taken.processor, 0)
        self.assertGreater(taken.kilobytes, 0)

    def test_run_that_ends_with_a_fault(self):
        with self.assertRaisesRegex(SystemExit, "run --schedulers 1 < .*a.script: it ended with status 3"):
            bench.run(self.program("import sys\nsys.exit(3)\n"), 1, self.script())

    def seconds(self, program, _schedulers, path):
        """A run whose time is told by what is in its script: a start, and so much for each act."""
        text = path.read_text(encoding="ascii")
        count = next(count for count in (10, 110) if f"less $0 {count} again" in text)
        each = 300e-9 if "call_ext" in text else 100e-9
        self.order.append((program, "call" if "call_ext" in text else "move", count))
        return bench.Run(9.0, 0.5 + count * each * (2 if program == "b" else 1), 0)

    MEASURE = bench.Measure("a call", "ns", bench.calls(0), bench.two_moves(0), 1, (10, 110), "call", 0, 1000)

    def test_a_row_is_a_difference_of_differences(self):
        self.order = []
        with mock.patch.object(bench, "run", self.seconds):
            self.assertEqual(bench.row(["a"], bench.NoNode(), self.folder, self.MEASURE, 1), "| a call | 200.0 ns (200.0 to 200.0) |")
            self.assertEqual(bench.row(["a", "b"], bench.NoNode(), self.folder, self.MEASURE, 3),
                             "| a call | 200.0 ns (200.0 to 200.0) | 400.0 ns (400.0 to 400.0) | 0.50 |")

    def test_runs_are_interleaved(self):
        self.order = []
        with mock.patch.object(bench, "run", self.seconds):
            bench.readings(["a", "b"], bench.NoNode(), self.folder, self.MEASURE, 2)
        there = [("call", 110), ("call", 10), ("move", 110), ("move", 10)]
        self.assertEqual([(kind, count) for _, kind, count in self.order], there + there + there[::-1] + there[::-1])
        self.assertEqual([program for program, _, _ in self.order], ["a"] * 4 + ["b"] * 4 + ["a"] * 4 + ["b"] * 4)

    def test_a_node_is_asked_in_each_round(self):
        asked = []

        class Node:
            def seconds(self, act, busy, count):
                asked.append((act, busy, count))
                return count * 50e-9

        self.order = []
        with mock.patch.object(bench, "run", self.seconds):
            self.assertEqual(bench.row(["a"], Node(), self.folder, self.MEASURE, 3),
                             "| a call | 200.0 ns (200.0 to 200.0) | 50.0 ns (50.0 to 50.0) | 4.00 |")
            self.assertEqual(asked, [("call", 0, 1000)] * 3)
            alone = bench.Measure("a call", "ns", bench.calls(0), bench.two_moves(0), 1, (10, 110))
            self.assertEqual(bench.row(["a"], Node(), self.folder, alone, 1), "| a call | 200.0 ns (200.0 to 200.0) | - | - |")

    def test_the_clock_counts_where_several_schedulers_work(self):
        with mock.patch.object(bench, "run", lambda *_: bench.Run(3.0, 1.0, 0)):
            for schedulers, taken in ((1, 1.0), (2, 3.0)):
                measure = bench.Measure("a turn", "us", bench.turns, None, schedulers, (0, 1))
                self.assertEqual(bench.Samples(self.folder, measure).seconds("a", self.folder), taken)

    def test_readings(self):
        self.assertEqual(bench.reading([3.0, 1.0, 2.0]), bench.Reading(2.0, 1.0, 3.0))
        self.assertEqual(bench.reading([float(each) for each in range(15)]), bench.Reading(7.0, 3.0, 11.0))
        self.assertEqual([bench.left_out(each) for each in (1, 5, 6, 9, 12, 15, 25)], [0, 0, 0, 1, 2, 3, 7])
        for read, noise in ((bench.Reading(1, 0.5, 2), False), (bench.Reading(1, -0.5, 2), True), (bench.Reading(-1, -2, -0.5), False)):
            self.assertEqual(read.is_noise, noise)

    def test_what_cannot_be_told_from_noise_is_said(self):
        far, near = bench.Reading(2e-6, 1e-6, 3e-6), bench.Reading(1e-6, -1e-6, 3e-6)
        self.assertEqual(bench.told(far, "us"), "2.0 us (1.0 to 3.0)")
        self.assertEqual(bench.told(near, "us"), "not told from noise (-1.0 to 3.0 us)")
        self.assertEqual([bench.times(far, far), bench.times(far, near), bench.times(near, far)], ["1.00", "-", "-"])

    def test_a_delay_with_its_resume(self):
        seconds = {100_000: [2.0, 1.0], 1_000_000: [2.9, 1.9]}
        with mock.patch.object(bench, "GRACE", self.script()), mock.patch.object(bench, "ran", lambda _program, words, _path: bench.Run(9.0, seconds[int(words[1])].pop(0), 0)):
            self.assertEqual(bench.delay_row(self.folder, 2), "| a delay with its resume | 1,000.0 ns (1,000.0 to 1,000.0) |")
        with mock.patch.object(bench, "GRACE", self.folder / "none"):
            self.assertIn("crates/grace_bench", bench.delay_row(self.folder, 2))


class Scripts(unittest.TestCase):
    def test_scripts_differ_in_what_is_timed(self):
        with_it, without = bench.calls(1)(7).split("\n"), bench.two_moves(1)(7).split("\n")
        self.assertEqual([line for line in with_it if line not in without], ["call_ext n:one/0 $1"])
        self.assertEqual([line for line in without if line not in with_it], ["move 1 $1", "move 1 $1"])
        self.assertEqual(with_it.count("spawn m:main()"), 2)

    def test_processes_stand_on_other_schedulers_than_the_loader(self):
        text = bench.commits(2)(3)
        spawns = [line for line in text.split("\n") if line.startswith("spawn")]
        self.assertEqual(spawns, ["spawn n:none()", "spawn m:main()", "spawn m:main()"])
        self.assertEqual([line for line in text.split("\n") if line.startswith("put")], ["put tick 0", "put tick 1", "put tick 2", "put stop 1"])

    def test_commands_beneath_busy_processes(self):
        for text, commands in [
            (bench.puts_and_erases(2)(2), ["put limits {10,[20,30]}", "erase limits"] * 2),
            (bench.puts(2)(2), ["put limits {10,[20,0]}", "put limits {10,[20,1]}"]),
            (bench.loads(2)(2), ["load f0.1", "load f1.1"]),
            (bench.soft_purges(2)(2), ["load n.1", "soft_purge n"] * 2),
            (bench.lingering(2)(2), [*["check_old m"] * 16, "load m.2", "soft_purge m", "soft_purge m"]),
            (bench.traces(2)(2), ["trace n:none/0 on", "trace n:none/0 off"] * 2),
        ]:
            lines = text.split("\n")
            self.assertEqual(lines[lines.index("spawn n:none()") :], ["spawn n:none()", "spawn m:main()", "spawn m:main()", *commands, "put stop 1", "go", ""])
        self.assertEqual(bench.lingering(0)(1).count("spawn m:main()"), 1)

    def test_observers_beside_commits(self):
        with_them, without = bench.commits_beside(4)(3).split("\n"), bench.commits_beside(0)(3).split("\n")
        self.assertEqual([line for line in with_them if line not in without], ["observer 16"] * 4)
        self.assertEqual(sum(line.startswith("export f") for line in without), 256)
        self.assertEqual(without[-5:], ["put tick 1", "put tick 2", "put stop 1", "go", ""])

    def test_one_purge_kills_all_processes(self):
        with_it, without = bench.kills(1).split("\n"), bench.kills(0).split("\n")
        self.assertEqual(with_it.count("spawn m:main()"), 64)
        self.assertEqual([line for line in with_it if line not in without], ["purge m"])

    def test_each_act_is_timed_idle_and_beneath_busy_schedulers(self):
        asked = [(measure.act, measure.busy) for measure in bench.measures() if measure.act]
        self.assertEqual(sorted(asked), sorted((act, busy) for busy in bench.BUSY for act in (
            "call", "pget", "put", "put_erase", "load", "soft_purge", "lingering", "kill", "trace")))
        self.assertEqual(len({measure.name for measure in bench.measures()}), len(bench.measures()))
        for measure in bench.measures():
            self.assertLessEqual(measure.busy, measure.schedulers - 1)


class TheProgram(unittest.TestCase):
    def test_no_measure_of_this_name(self):
        done = subprocess.run([sys.executable, TOOLS / "bench", "--program", "/bin/true", "--only", "nothing"], capture_output=True, text=True, check=False)
        self.assertEqual((done.returncode, done.stdout), (2, ""))
        self.assertIn("no measure has `nothing` in its name; they are:\n  an external call", done.stderr)

    def test_no_program(self):
        done = subprocess.run([sys.executable, TOOLS / "bench", "--program", "/no/such"], capture_output=True, text=True, check=False)
        self.assertEqual(done.returncode, 2)
        self.assertIn("./beam prove", done.stderr)


@unittest.skipUnless(shutil.which("erl") and shutil.which("erlc"), "Erlang is not installed")
class TheNode(unittest.TestCase):
    def test_each_act_takes_time(self):
        from timed_node import TimedNodes, release

        self.assertRegex(release(), r"\A\d+\Z")
        with TimedNodes() as nodes:
            for act in ("put", "put_erase", "load", "soft_purge", "lingering", "kill", "trace"):
                with self.subTest(act):
                    self.assertGreater(nodes.seconds(act, 0, 1), 0)
            self.assertGreater(nodes.seconds("put", 1, 1), 0)
            for act in ("call", "pget"):
                self.assertLess(abs(nodes.seconds(act, 0, 1000)), 10)
            with self.assertRaises(SystemExit):
                nodes.seconds("nonsense", 0, 1)


if __name__ == "__main__":
    unittest.main()
