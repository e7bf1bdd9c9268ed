"""Tests of ./test, with a toolchain and programs that stand in for the real ones."""

import os
import re
import shutil
import signal
import subprocess
import sys
import tempfile
import time
import unittest
from pathlib import Path

TOP = Path(__file__).resolve().parents[2]
sys.dont_write_bytecode = True
sys.path.insert(0, str(TOP / "tests"))
import questions  # noqa: E402

# The program that stands in, as it is built: under words and a text it writes a report, a verdict, or refuses.
BUILT = """#!/bin/sh
text=$(cat)
case $text in wait*) exec sleep 30 ;; esac
case $1:$text in
    run:bad*) echo refused; exit 3 ;;
    run:*) printf 'report of %s' "$text" ;;
    check:*'report of '*) echo lawful ;;
    check:*) echo not lawful; exit 1 ;;
    *) echo refused; exit 3 ;;
esac
"""

# The same, as a trial run calls it.
CALL = """
def call(words, text):
    if words[:1] == ["run"] and not text.startswith(b"bad"):
        return 0, b"report of " + text
    if words == ["check"]:
        return (0, b"lawful\\n") if b"report of " in text else (1, b"not lawful\\n")
    return 3, b"refused\\n"
"""

# The toolchain: it notes its words, and answers a bundle as tools/case_runner says that it does.
RT = f"""#!{sys.executable}
import io, os, sys, time
{CALL}
room = os.environ["FAKE"]
with open(room + "/calls", "a") as it:
    it.write(" ".join(sys.argv[1:]) + "\\n")
main = open("src/main.rt").read()
assert "mod words;" in main and "mod bundle;" in main and "fn main(old" not in main, main
assert os.path.isfile("src/bundle.rt") and os.path.isfile("../low/src/lib.rt")
if os.path.exists(room + "/asleep"):
    open(room + "/pid", "w").write(str(os.getpid()))
    time.sleep(30)
if os.path.exists(room + "/broken"):
    sys.stderr.write("broken.rt:1: error\\nrun=none proved=no\\n")
    sys.exit(1)
out, stuck = b"", b""
assert sys.stdin.buffer.readline().startswith(b"lanes ")
while head := sys.stdin.buffer.readline():
    it = io.BytesIO(sys.stdin.buffer.read(int(head.split(b" ")[1])))
    while line := it.readline():
        word, count = line.decode().rstrip("\\n").split(" ")
        if word == "text":
            text = it.read(int(count))
        elif word == "note":
            step = int(count)
        elif word == "call" and text.startswith(b"hang"):
            stuck = b"open %d\\n" % step
            break
        elif word == "call":
            kept = call([it.readline().decode()[:-1] for _ in range(int(count))], text)
        elif word == "check" and kept[0] == 0:
            kept = call(["check"], text + kept[1])
        elif word == "tell":
            out += b"answer %d %d %d\\n" % (step, kept[0], len(kept[1])) + kept[1]
if stuck:
    for line in (out + stuck).splitlines()[-8:]:
        sys.stderr.buffer.write(b"| " + line + b"\\n")
    sys.stderr.write("checked: no-answer\\nrun=no-answer proved=no\\n")
    sys.exit(6)
sys.stdout.buffer.write(out)
sys.stderr.write("interpreter: no-answer\\nrun=ended status=0 runners=1 races=unchecked proved=no\\n")
"""

GENERATED = '''
def cases():
    yield "made", ["run"], b"made text", b"report of made text", 0

def loads_beside_observers():
    return "text\\nobserver 0\\nsnapshot 1\\nsnapshot 2\\nsnapshot 3\\n"

def made_beside_observers():
    return "much"
'''

# Of each of three runs a call and four checks; two cases more; six and one beside observers; two of the second program; a test of the tools.
PASSED = "27 passed, 0 failed"
# The same by trial runs, with two checks of each run and two beside observers.
TRIED = "16 passed, 0 failed"


def put(path, text, mode=0o644):
    path.parent.mkdir(parents=True, exist_ok=True)
    path.write_text(text)
    path.chmod(mode)


class Bundles(unittest.TestCase):
    def test_each_step_stands_in_the_bundle(self):
        steps = [questions.Step(["run", "a b"], False, "one", None), questions.Step(None, True, "two", None)]
        first = b"text 5\nte\nxtnote 0\ncall 2\nrun\na b\ntell \nnote 1\ncheck \ntell \n"
        second = b"text 0\nnote 2\ncall 2\nrun\na b\ntell \n"
        bundle = questions.bundle([questions.Question(b"te\nxt", steps), questions.Question(b"", steps[:1])])
        lanes, rest = bundle.split(b"\n", 1)
        self.assertRegex(lanes, rb"^lanes [1-9]\d*$")
        self.assertEqual(rest, b"question %d\n%bquestion %d\n%b" % (len(second), second, len(first), first))

    def test_answers_are_told_as_far_as_they_go(self):
        whole = b"answer 7 3 8\nrefused\nopen 0\nopen 1\nanswer 0 0 0\nopen 1\n"
        self.assertEqual(questions.told(whole), {7: (3, b"refused\n"), 0: (0, b"")})
        self.assertEqual(questions.told(whole[:18]), {})
        self.assertEqual(questions.told(whole + b"answer 1 0 5\nab"), questions.told(whole))

    def test_what_a_run_was_at_is_what_stands_open_at_last(self):
        cases = [("| answer 3 0 0\n| open 4\n| open 2\nrun=no-answer\n", [2, 4]), ("| open 9\n| end report\n", []),
                 ("| open 1\n| answer 1 0 0\n| open 2\n", [2]), ("| open 5\n", [5]), ("main.rt:1: error\n", []), ("", [])]
        for said, places in cases:
            self.assertEqual(questions.NoAnswer(said).places, places)

    def test_the_bundle_is_read_by_the_words_that_are_written(self):
        source = (TOP / "tools/case_runner/bundle.rt.txt").read_text()
        self.assertEqual(re.findall(r'Some\(\("(\w+)"', source), ["lanes", "question", "text", "note", "call", "check", "tell"])
        for crate in ("beam_tool", "beam_why"):
            head = (TOP / f"crates/{crate}/src/main.rt").read_text().partition("\nuse ")[0]
            self.assertIn("#![tactic(auto)]", head)
            self.assertNotIn("fn main", head)
            self.assertNotIn("mod bundle;", head)


class Checkout(unittest.TestCase):
    def setUp(self):
        room = tempfile.TemporaryDirectory()
        self.addCleanup(room.cleanup)
        self.room = Path(room.name).resolve()
        self.top = self.room / "checkout"
        for name in ("test", "tests/questions.py"):
            put(self.top / name, "")
            shutil.copy(TOP / name, self.top / name)
        shutil.copytree(TOP / "tools/case_runner", self.top / "tools/case_runner")
        put(self.top / "tests/generated.py", GENERATED)
        put(self.top / "tools/tests/test_one.py", "import unittest\n\n\nclass One(unittest.TestCase):\n    def test_one(self):\n        pass\n")
        put(self.top / "tools/build", '#!/bin/sh\n[ -f "$FAKE/stands" ]\n', 0o755)
        put(self.top / "crates.txt", "low:\nbeam_tool: low\nbeam_why: low\n")
        put(self.top / "HANDLES", "Handles allowed: none.\n")
        put(self.top / "crates/low/src/lib.rt", "")
        put(self.room / "bin/rt", RT, 0o755)
        for crate in ("beam_tool", "beam_why"):
            put(self.top / f"crates/{crate}/src/main.rt", "//! A program.\nmod words;\n\nuse words::it;\n\nfn main(old) {}\n")
        self.case("tests/group/refused", "run", "bad", "refused\n", 3)
        self.case("tests/group/runs", "run", "text", "report of text", 0)
        self.case("tests/group/judged", "check", "text", "not lawful\n", 1)
        self.case("tests/why/named", "why", "text", "refused\n", 3)
        put(self.top / "examples/a.script", "script")
        put(self.top / "examples/a.report", "report of script")

    def case(self, name, words, text, output, status):
        for part, has in (("words", words), ("input", text), ("output", output), ("status", str(status))):
            put(self.top / f"{name}.{part}", has)

    def start(self, *words, **how):
        where = {**os.environ, "PATH": f"{self.room}/bin:{os.environ['PATH']}", "FAKE": str(self.room), **how}
        return subprocess.Popen([self.top / "test", *words], stdout=subprocess.PIPE, stderr=subprocess.PIPE, text=True, env=where)

    def ran(self, *words, **how):
        """The status, the lines of the output, and what was said."""
        with self.start(*words, **how) as it:
            output, said = it.communicate(timeout=60)
        return it.returncode, output.splitlines(), said

    def calls(self):
        noted = self.room / "calls"
        return noted.read_text().splitlines() if noted.exists() else []

    def put_programs(self):
        for crate in ("beam_tool", "beam_why"):
            put(self.top / f"crates/{crate}/out/{crate}", BUILT, 0o755)
        put(self.room / "stands", "")

    def wait_for(self, path):
        end = time.monotonic() + 10
        while not (path.exists() and path.read_text()) and time.monotonic() < end:
            time.sleep(0.05)
        self.assertTrue(path.exists())


class Trials(Checkout):
    def test_trial_runs_stand_in_where_nothing_is_proved(self):
        for words in ([], ["--quick"]):
            with self.subTest(words):
                status, lines, said = self.ran(*words)
                self.assertEqual((status, lines[-1]), (0, TRIED), said)
                self.assertIn("nothing was proved", lines[-2])
                self.assertIn("skipped 11 checks: beside a case's own run", lines[0])
        self.assertEqual(self.calls(), ["try --steps 1 --seconds 1200"] * 4)

    def test_quick_is_a_trial_also_where_a_program_stands(self):
        self.put_programs()
        self.assertEqual(self.ran("--quick")[1][-1], TRIED)
        self.assertEqual(len(self.calls()), 2)

    def test_a_wrong_answer_fails_by_its_name(self):
        self.case("tests/group/runs", "run", "text", "report of texts", 0)
        status, lines, _ = self.ran("--quick")
        self.assertEqual((status, lines[-1]), (1, "15 passed, 1 failed"))
        self.assertIn("FAILED group/runs", lines)

    def test_a_case_that_does_not_end_is_named(self):
        self.case("tests/group/runs", "run", "hang", "report of hang", 0)
        status, lines, _ = self.ran("--quick")
        self.assertEqual((status, lines[-1]), (1, "3 passed, 13 failed"))
        self.assertIn("FAILED: the trial run of beam_tool came to no answer; lost with it are 13 checks", lines)
        self.assertIn("FAILED group/runs: it did not end", lines)

    def test_sources_that_cannot_be_built(self):
        put(self.room / "broken", "")
        status, lines, _ = self.ran("--quick")
        self.assertEqual((status, lines[-1]), (1, "1 passed, 15 failed"))
        self.assertIn("FAILED: the trial run of beam_tool came to no answer; lost with it are 13 checks", lines)
        self.assertIn("  broken.rt:1: error", lines)

    def test_without_a_toolchain(self):
        (self.room / "bin/rt").unlink()
        (self.room / "bin/python3").symlink_to(sys.executable)
        status, lines, _ = self.ran("--quick", PATH=f"{self.room}/bin:/usr/bin:/bin")
        self.assertEqual((status, lines[0], lines[-1]), (1, "FAILED: there is no rt on PATH for a trial run", "1 passed, 1 failed"))

    def test_no_program_beside_it(self):
        for words in (["--with-gate"], ["--program", "a"], ["--why", "a"]):
            status, lines, said = self.ran("--quick", *words)
            self.assertEqual((status, lines), (2, []))
            self.assertIn("--quick stands alone", said)
        self.assertEqual(self.calls(), [])


class Programs(Checkout):
    def test_proved_programs_are_asked_where_they_stand(self):
        self.put_programs()
        status, lines, said = self.ran()
        self.assertEqual((status, lines[-1]), (0, PASSED), said)
        self.assertFalse([line for line in lines if "nothing was proved" in line])
        self.assertEqual(self.calls(), [])

    def test_a_program_that_was_given(self):
        put(self.room / "given", BUILT, 0o755)
        status, lines, _ = self.ran("--program", str(self.room / "given"), "--why", str(self.room / "given"))
        self.assertEqual((status, lines[-1]), (0, PASSED))
        status, lines, _ = self.ran("--program", str(self.room / "given"))
        self.assertEqual((status, lines[-1]), (1, "25 passed, 1 failed"))


class Signals(Checkout):
    def is_cut_off(self, ran, number):
        ran.send_signal(number)
        output, said = ran.communicate(timeout=20)
        lines = output.splitlines()
        self.assertEqual(ran.returncode, 128 + number, said)
        self.assertIn(f"cut off by {signal.Signals(number).name}: what was not tried is not counted", lines)
        self.assertRegex(lines[-1], r"^\d+ passed, 0 failed$")
        self.assertRegex(said, r"test: \d+ seconds; .*; \d+ passed, 0 failed so far")

    def test_a_trial_run_that_is_cut_off(self):
        put(self.room / "asleep", "")
        for number in (signal.SIGINT, signal.SIGTERM):
            with self.subTest(number):
                ran = self.start("--quick", BEAM_PATIENCE="0.2")
                self.wait_for(self.room / "pid")
                pid = (self.room / "pid").read_text()
                time.sleep(0.5)
                self.is_cut_off(ran, number)
                self.assertFalse(Path(f"/proc/{pid}/cmdline").exists() and Path(f"/proc/{pid}/cmdline").read_text())
                (self.room / "pid").unlink()

    def test_a_program_that_is_cut_off(self):
        self.put_programs()
        for name in "abcdefgh":
            self.case(f"tests/zeal/{name}", "run", "wait", "report of wait", 0)
        ran = self.start(BEAM_PATIENCE="0.2")
        time.sleep(3)
        self.is_cut_off(ran, signal.SIGTERM)


if __name__ == "__main__":
    unittest.main()
