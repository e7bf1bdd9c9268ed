"""Tests of ./beam, tools/build and tools/install with a toolchain and a program that stand in for the real ones."""

import os
import shutil
import signal
import stat
import subprocess
import sys
import tempfile
import time
import unittest
from pathlib import Path
from unittest import mock

from loading import load_tool

TOP = Path(__file__).resolve().parents[2]
build = load_tool("build")
PAGES = ("TUTORIAL", "FORMATS", "ENDS", "OTP", "TOOLS")

# The toolchain that stands in: it notes its words, proves crates, and builds a program from its crate's source.
RT = """#!/bin/sh
echo "$*" >>"$FAKE/calls"
case $1 in
    all)
        [ -f "$FAKE/full" ] && { echo 'rt: No space left on device'; exit 1; }
        [ -n "$FAKE_PROOF" ] && { echo $$ >"$FAKE/proof"; sleep "$FAKE_PROOF"; }
        [ -f "$FAKE/broken" ] && { printf '== low\\n== beam_why\\nbroken.rt:1: no proof\\n== summary\\n1 of 3 crates ok\\n'; exit 1; }
        sed -n 's/^\\([a-z_]*\\):.*/== \\1/p' crates.txt
        printf '== summary\\nall ok\\n' ;;
    check) echo 'logic=proved'; mkdir -p out && : >out/program.o ;;
    run)
        name=${PWD##*/}
        mkdir -p out && cp src/main.rt "out/$name" && chmod +x "out/$name"
        [ "$name" = beam_why ] && { echo 'refused 1 syntax'; exit 3; }
        echo 'words not understood'; exit 2 ;;
    try)
        shift 2
        [ -n "$FAKE_SAID" ] && { printf '%b\\n' "$FAKE_SAID" >&2; exit 2; }
        sh src/main.rt "$@"; ended=$?
        printf 'checked: ended\\nrun=ended status=%s runners=1 proved=no\\n' "$ended" >&2
        exit "$ended" ;;
esac
"""

# The program that stands in: it writes its words and what it read, after a wait, and ends as it is told.
PROGRAM = """#!/bin/sh
[ -n "$FAKE_WAIT" ] && echo $$ >"${FAKE:-/tmp}/pid"
sleep "${FAKE_WAIT:-0}"
printf '%s\\n' "$*"
cat
exit "${FAKE_STATUS:-0}"
"""

WHY = """#!/bin/sh
echo "why: $1 $2 [$(cat "$3")] $(echo "$4" | head -n 1)"
"""


def put(path, text, mode=0o644):
    path.parent.mkdir(parents=True, exist_ok=True)
    path.write_text(text)
    path.chmod(mode)


class BeamTest(unittest.TestCase):
    def setUp(self):
        room = tempfile.TemporaryDirectory()
        self.addCleanup(room.cleanup)
        self.room = Path(room.name).resolve()
        self.top = self.room / "checkout"
        for name in ("beam", "tools/build", "tools/install", "tools/beam.bash", "docs/beam.1"):
            put(self.top / name, "")
            shutil.copy(TOP / name, self.top / name)
        shutil.copytree(TOP / "tools/vim", self.top / "tools/vim")
        put(self.top / "tools/rehearse", "#!/bin/sh\necho \"rehearse: $*\"\n", 0o755)
        put(self.top / "tools/rehearsal/runs.py", "")
        for page in ("README", *(f"docs/{name}" for name in PAGES)):
            put(self.top / f"{page}.md", page)
        put(self.top / "examples/tutorial/01_load.script", "an example")
        put(self.top / "crates.txt", "# Crates.\nlow: std_only\nmid: low\nbeam_tool: mid low\nbeam_why: low\nlow_tests: low\n")
        put(self.top / "crates/low/src/lib.rt", "")
        put(self.top / "crates/mid/src/lib.rt", "")
        put(self.top / "crates/beam_tool/src/main.rt", PROGRAM)
        put(self.top / "crates/beam_why/src/main.rt", PROGRAM.replace("$*", "the second: $*"))
        put(self.top / "tools/why", WHY, 0o755)
        put(self.top / "tools/lint", "#!/bin/sh\necho \"lint: $(cat \"$1\")\"\n", 0o755)
        put(self.room / "bin/rt", RT, 0o755)
        put(self.room / "a.script", "script\n")
        put(self.room / "a.report", "report\n")

    def beam(self, *words, program=None, given=b"", **settings):
        """Runs the wrapper in the room, with an empty standard input if nothing is given."""
        where = {**os.environ, "PATH": f"{self.room}/bin:{os.environ['PATH']}", "FAKE": str(self.room)}
        for name in ("BEAM_WHY", "BEAM_LINT", "BEAM_PATIENCE", "BEAM_JOBS"):
            where.pop(name, None)
        where.update(settings)
        return subprocess.run(
            [program or self.top / "beam", *words], input=given, capture_output=True, cwd=self.room, env=where, timeout=60)

    def prove(self, *words, **settings):
        """Proves and builds the program, whatever room the machine has."""
        return self.beam("prove", "--anyway", *words, **settings)

    def calls(self):
        noted = self.room / "calls"
        return noted.read_text().splitlines() if noted.exists() else []

    def wait_for(self, is_so):
        """Waits until it is so, ten seconds at most."""
        end = time.monotonic() + 10
        while not is_so() and time.monotonic() < end:
            time.sleep(0.05)
        self.assertTrue(is_so())

    def is_answer(self, ran, status, out, said=()):
        """Holds an answer against a status, the whole of standard output, and parts of standard error."""
        self.assertEqual((ran.returncode, ran.stdout), (status, out), ran.stderr)
        for part in said:
            self.assertIn(part, ran.stderr)


class Words(BeamTest):
    FAULTS = {
        "": b"first word", "walk": b"`walk`", "-- run": b"`--`", "--unproved": b"first word", "--unproved walk": b"`walk`",
        "--unproved prove": b"prove", "--unproved rehearse a": b"rehearse", "--help run": b"`--help`", "a.script": b"beam run a.script",
        "run a b": b"`b` is one word too many", "run -x": b"`-x`", "run --schedulers": b"lacks its number, which is 1 to 16",
        "run --schedulers 0": b"`0`", "run --schedulers 01": b"`01`", "run --schedulers 17": b"`17` is no number of `--schedulers`, which is 1 to 16",
        "run --schedulers=2": b"`--schedulers=2`", "run a --schedulers 2": b"in front of all files", "run --schedulers 2 a b": b"`b`",
        "check a": b"behind the script `a` the report is missing", "check a b c": b"`c`", "progress a b": b"`b`",
        "why a": b"report is missing", "why a b c": b"`c`", "make": b"`--seed` is missing", "make --seed 1": b"`--size` is missing",
        "make --seed 1 --size 0": b"`0` is no number of `--size`, which is 1 to 4000", "make --seed 1 --size 4001": b"`4001`",
        "make --seed 01 --size 6": b"`01`", "make --seed 4294967296 --size 6": b"0 to 4294967295", "make --seed 1 --size 6 a": b"`a`",
        "make --size 6 --seed 1": b"`--size` stands where `--seed` must", "make --seed 1 --size 6 --schedulers 2": b"`--schedulers`",
        "trial --seed 1 --size 6": b"`--schedulers` is missing", "trial --seed 1 --size 6 --schedulers 17": b"`17`",
        "trial --seed 1 --size 6 --schedulers 2 a": b"`a`", "prove a": b"`a`",
    }

    def test_no_form_is_told_before_anything_is_built(self):
        for words, said in self.FAULTS.items():
            with self.subTest(words):
                ran = self.beam(*words.split(), given=b"text")
                self.is_answer(ran, 2, b"words not understood\n", [b"usage: beam ", said])
                form = words.split()[0] if words else ""
                if form in ("run", "check", "why", "progress", "make", "trial", "prove"):
                    self.assertEqual(ran.stderr.count(b"\n"), 2)
                    self.assertIn(b"usage: beam %s" % form.encode(), ran.stderr)
        self.is_answer(self.beam("run", ""), 2, b"words not understood\n", [b"empty word"])
        self.assertEqual(self.calls(), [])

    def test_help_and_version(self):
        for word in ("--help", "-h"):
            ran = self.beam(word)
            self.assertEqual((ran.returncode, ran.stderr), (0, b""))
            self.assertTrue(ran.stdout.startswith(b"usage: beam run"))
        ran = self.beam("--version")
        self.assertRegex(ran.stdout, rb"\Abeam 1, not proved here, of sources [0-9a-f]{64}\n\Z")
        self.prove()
        self.assertEqual(self.beam("--version").stdout, ran.stdout.replace(b"not proved here", b"proved"))

    def test_forms_reach_the_program(self):
        cases = [("run", b"run\ngiven"), ("check", b"check\ngiven"), ("progress", b"progress\ngiven"),
                 ("run --schedulers 16", b"run --schedulers 16\ngiven"), ("run a.script", b"run\nscript\n"),
                 ("run --schedulers 1 a.script", b"run --schedulers 1\nscript\n"),
                 ("check a.script a.report", b"check\nscript\nreport\n"), ("progress a.script", b"progress\nscript\n"),
                 ("why", b"the second: why\ngiven"), ("why a.script a.report", b"the second: why\nscript\nreport\n"),
                 ("make --seed 0 --size 4000", b"make --seed 0 --size 4000\n"),
                 ("trial --seed 4294967295 --size 1 --schedulers 16", b"trial --seed 4294967295 --size 1 --schedulers 16\n")]
        self.prove()
        for words, out in cases:
            for why in ("0", "1"):
                with self.subTest(words, why=why):
                    self.is_answer(self.beam(*words.split(), given=b"given", BEAM_WHY=why), 0, out)

    def test_files_that_cannot_be_read(self):
        cases = (("run b.script", b"cannot read b.script: there is no such file"), ("check a.script b.report", b"cannot read b.report: there"),
                 ("progress .", b"cannot read .: it is a folder"), ("--unproved run b.script", b"cannot read b.script"))
        for words, said in cases:
            with self.subTest(words):
                self.is_answer(self.beam(*words.split()), 4, b"", [said])
        self.assertEqual(self.calls(), [])

    def test_a_script_without_its_last_line_feed_is_not_glued_to_a_report(self):
        put(self.room / "cut.script", "script")
        self.prove()
        for form, out in (("check", b"check\nscript"), ("why", b"the second: why\nscript")):
            said = b"cut.script ends without a line feed, so the first line of a.report would stand on its last one"
            self.is_answer(self.beam(form, "cut.script", "a.report"), 0, out, [said])
        put(self.room / "empty.script", "")
        self.assertEqual(self.beam("check", "empty.script", "a.report").stderr, b"")

    def test_a_pipe_as_a_file(self):
        self.prove()
        words = f'exec "{self.top}/beam" run /dev/fd/9 9<<END\nscript\nEND\n'
        for pipe in (words, f'cat a.script | "{self.top}/beam" run /dev/stdin'):
            ran = subprocess.run(["sh", "-c", pipe], cwd=self.room, capture_output=True, env={**os.environ, "BEAM_WHY": "1", "FAKE_STATUS": "3"})
            self.assertEqual((ran.returncode, ran.stdout), (3, b"run\nscript\n"))
            self.assertIn(b"why: --kind script [script]", ran.stderr)

    def test_rehearsals_want_a_proved_program(self):
        self.is_answer(self.beam("rehearse", "a.script", "--times", "3"), 7, b"", [b"beam prove makes it"])
        self.is_answer(self.beam("rehearse", "--help"), 0, b"rehearse: --help\n")
        self.is_answer(self.beam("rehearse", "--program", "p", "a.script"), 0, b"rehearse: --program p a.script\n")
        self.prove()
        self.is_answer(self.beam("rehearse", "a.script", "--times", "3"), 0, b"rehearse: a.script --times 3\n")

    def test_a_closed_standard_input(self):
        for proves in (False, True):
            if proves:
                self.prove()
            for words, status, out in (("run a.script", 0, b"run\nscript\n"), ("check a.script a.report", 0, b"check\nscript\nreport\n"),
                                       ("make --seed 1 --size 6", 0, b"make --seed 1 --size 6\n"), ("run", 4, b""), ("why", 4, b"")):
                with self.subTest(words, proves=proves):
                    where = {**os.environ, "PATH": f"{self.room}/bin:{os.environ['PATH']}", "FAKE": str(self.room)}
                    ran = subprocess.run(["sh", "-c", f'"{self.top}/beam" {words} <&-'], cwd=self.room, capture_output=True, env=where)
                    self.is_answer(ran, status, out, [b"standard input is closed"] if status else [])

    def test_symbolic_links(self):
        far, near = self.room / "far/beam", self.room / "near"
        far.parent.mkdir()
        far.symlink_to("../checkout/beam")
        near.symlink_to(far)
        self.prove()
        for link in (far, near):
            self.is_answer(self.beam("run", "a.script", program=link), 0, b"run\nscript\n")


class Building(BeamTest):
    def test_builds_where_it_has_changed(self):
        told = [b"4 crates, up to 3 at a time", b"of disk", b"of memory", b"done with low after 0 minutes, 3 left", b"proving beam_tool alone, on 3",
                b"beam_tool after 0 minutes, 0 left", b"linking"]
        ran = self.prove(BEAM_JOBS="3")
        self.is_answer(ran, 0, b"", told)
        self.assertNotIn(b"words not understood", ran.stderr)
        self.assertEqual(self.calls(), ["all check --jobs 3", "check --jobs 3", "run", "run"])
        self.is_answer(self.beam("run"), 0, b"run\n")
        self.is_answer(self.beam("prove"), 0, b"", [b"stands here"])
        self.assertEqual(len(self.calls()), 4)
        time.sleep(0.05)
        put(self.top / "crates/low/src/lib.rt", "changed")
        self.is_answer(self.beam("run"), 0, b"run\n", [b"nothing is proved of this answer"])
        self.is_answer(self.prove(), 0, b"", told[3:4])
        self.assertRegex(self.calls()[5], r"^all check --jobs [1-9]\d*$")
        self.assertEqual(self.beam("run").stderr, b"")

    def test_stands_by_what_the_sources_are(self):
        self.prove()
        source = self.top / "crates/low/src/lib.rt"
        for change, stands in ((lambda: put(source, "changed"), False), (lambda: put(source, ""), True),
                               (lambda: put(self.top / "crates/low/specs/New.antt", ""), False),
                               (lambda: shutil.rmtree(self.top / "crates/low/specs"), True),
                               (lambda: put(self.top / "crates/low_tests/src/lib.rt", ""), True), (source.unlink, False)):
            time.sleep(0.05)
            change()
            self.assertEqual(b"nothing is proved" not in self.beam("run").stderr, stands)

    def test_proves_what_the_programs_stand_on(self):
        put(self.top / "crates/low/specs/Gone.antt", "")
        put(self.top / "crates/low_tests/src/lib.rt", "")
        self.prove()
        room = self.top / "crates/beam_tool/out/programs"
        self.assertEqual((room / "crates.txt").read_text(), "low: std_only\nmid: low\nbeam_tool: mid low\nbeam_why: low\n")
        self.assertEqual(sorted(it.name for it in (room / "crates").iterdir()), ["beam_tool", "beam_why", "low", "mid"])
        self.assertFalse((room / "crates/beam_tool/out/program.o").exists())
        put(room / "crates/low/out/kept", "")
        put(room / "crates/gone/out/kept", "")
        (self.top / "crates/low/specs/Gone.antt").unlink()
        time.sleep(0.05)
        put(self.top / "crates/low/src/lib.rt", "changed")
        self.prove()
        self.assertEqual((room / "crates/low/src/lib.rt").read_text(), "changed")
        self.assertFalse((room / "crates/low/specs/Gone.antt").exists())
        self.assertTrue((room / "crates/low/out/kept").exists())
        self.assertFalse((room / "crates/gone").exists())

    def test_a_build_that_fails_has_a_status_of_its_own(self):
        put(self.room / "broken", "")
        self.is_answer(self.prove(), 7, b"", [b"broken.rt:1: no proof", b"could not be built", b"build.log"])
        (self.room / "broken").unlink()
        self.is_answer(self.prove(), 0, b"")
        self.is_answer(self.beam("run"), 0, b"run\n")

    def test_a_full_disk_is_told_as_that(self):
        put(self.room / "full", "")
        self.is_answer(self.prove(), 7, b"", [b"the disk is full", b"goes on from there"])

    def test_a_build_can_be_left_and_taken_up_again(self):
        where = {**os.environ, "PATH": f"{self.room}/bin:{os.environ['PATH']}", "FAKE": str(self.room), "FAKE_PROOF": "30"}
        ran = subprocess.Popen([self.top / "beam", "prove", "--anyway"], cwd=self.room, env=where, stderr=subprocess.PIPE)
        noted = self.room / "proof"
        self.wait_for(lambda: noted.exists() and noted.read_text().endswith("\n"))
        self.is_answer(self.prove(), 7, b"", [b"another build is at work"])
        ran.send_signal(signal.SIGTERM)
        self.assertIn(b"left; what is proved is kept", ran.communicate(timeout=10)[1])
        self.assertEqual(ran.returncode, 143)
        self.assertFalse(Path(f"/proc/{noted.read_text().strip()}/cmdline").exists())
        self.is_answer(self.prove(), 0, b"")
        self.is_answer(self.beam("run"), 0, b"run\n")

    def test_without_a_toolchain(self):
        only = self.room / "only"
        only.mkdir()
        for name in ("sh", "dirname", "readlink", "head", "cat", "grep", "mktemp", "rm", "python3"):
            (only / name).symlink_to(sys.executable if name == "python3" else shutil.which(name))
        self.is_answer(self.beam("run", PATH=str(only)), 7, b"", [b"no rt on PATH"])
        self.is_answer(self.prove(PATH=str(only)), 7, b"", [b"no rt on PATH"])


class Needs(unittest.TestCase):
    """What a build says beforehand."""

    def needs(self, disk, memory, forced=False):
        said = []
        with mock.patch.object(build, "free_disk", lambda: disk), mock.patch.object(build, "bytes_in", lambda _: 0), \
                mock.patch.object(build, "say", said.append):
            build.tell_needs(42, 4, memory, forced)
        return said

    def test_what_is_needed_and_what_is_there(self):
        said = self.needs(20 << 30, 16 << 30)
        self.assertIn("some 43 minutes", said[0])
        self.assertEqual(said[1], "it needs up to 15 GB of disk: 20 GB are free; and 4 GB of memory for each crate at a time: 16 GB can be had")
        for disk, memory, lacks in ((14 << 30, 16 << 30, "little disk"), (20 << 30, 3 << 30, "little memory"), (1 << 20, 1 << 20, "disk and memory")):
            with self.assertRaisesRegex(build.Refused, lacks):
                self.needs(disk, memory)
            self.assertEqual(len(self.needs(disk, memory, True)), 2)

    def test_lanes(self):
        with mock.patch.dict(os.environ, {"BEAM_JOBS": ""}), mock.patch.object(os, "cpu_count", lambda: 8):
            self.assertEqual([build.lanes(each << 30) for each in (1, 4, 9, 40)], [1, 1, 2, 8])
            self.assertEqual(build.lanes(None), 1)

    def test_last_crates(self):
        for text, last in (("a:\nb: a\nbeam_tool: b\nbeam_why: a\n", ["beam_tool"]), ("a:\nbeam_tool: a\nbeam_why: a\n", []),
                           ("a:\nbeam_why: a\nb: a\nc: b\nd: c\nbeam_tool: d\n", ["c", "d", "beam_tool"])):
            self.assertEqual(build.last_crates(build.needed_crates(text)), last)
        here = build.crates_here()
        self.assertEqual(build.last_crates(here)[-1], "beam_tool")
        self.assertNotIn("log_tests", here)


class Hints(BeamTest):
    def test_statuses_and_their_sentences(self):
        cases = [(0, b""), (1, b""), (3, b""), (4, b"nothing was written"), (5, b"only the beginning"), (6, b"memory")]
        self.prove()
        for status, said in cases:
            with self.subTest(status):
                ran = self.beam("check", given=b"x", FAKE_STATUS=str(status), BEAM_WHY="0")
                self.is_answer(ran, status, b"check\nx", [said])
                self.assertEqual(ran.stderr.count(b"\n"), 1 if said else 0)

    def test_reasons_are_told_when_asked_for(self):
        self.prove()
        cases = [("run a.script", 3, b"why: --kind script [script] run\n"),
                 ("check a.script a.report", 1, b"why: --kind script [script\nreport] check\n"),
                 ("why a.script a.report", 3, b"why: --kind script [script\nreport] the second: why\n"),
                 ("why", 1, b""), ("progress", 1, b"why: --kind events [given] progress\n")]
        for words, status, said in cases:
            with self.subTest(words):
                ran = self.beam(*words.split(), given=b"given", FAKE_STATUS=str(status), BEAM_WHY="1")
                self.assertEqual((ran.returncode, ran.stderr), (status, said))
                ran = self.beam(*words.split(), given=b"given", FAKE_STATUS=str(status))
                self.assertEqual((ran.returncode, ran.stderr), (status, b""))

    def test_reasons_are_told_on_a_terminal(self):
        self.prove()
        for why, wanted in ((None, b"why: --kind script"), ("0", b"")):
            with self.subTest(why):
                ours, theirs = os.openpty()
                where = {**os.environ, "FAKE_STATUS": "3"}
                where.pop("BEAM_WHY", None)
                if why:
                    where["BEAM_WHY"] = why
                ran = subprocess.run([self.top / "beam", "run", "a.script"], stdin=subprocess.DEVNULL, stdout=subprocess.PIPE,
                                     stderr=theirs, cwd=self.room, env=where, timeout=60)
                os.write(theirs, b".")
                os.close(theirs)
                said = os.read(ours, 4096)
                os.close(ours)
                self.assertEqual((ran.returncode, ran.stdout), (3, b"run\nscript\n"))
                self.assertEqual(said[:len(wanted)] if wanted else said, wanted or b".")

    def test_a_lint_is_told_when_asked_for(self):
        self.prove()
        for words in ("run a.script", "run"):
            self.is_answer(self.beam(*words.split(), given=b"script\n", BEAM_LINT="1"), 0, b"run\nscript\n", [b"lint: script\n"])
            self.assertEqual(self.beam(*words.split(), given=b"script\n").stderr, b"")
        self.assertEqual(self.beam("check", "a.script", "a.report", BEAM_LINT="1").stderr, b"")

    def test_a_long_run_is_told_of(self):
        self.prove()
        long = dict(FAKE_WAIT="2", BEAM_PATIENCE="1")
        self.is_answer(self.beam("run", **long), 0, b"run\n", [b"still running after 1 seconds", b"never ends"])
        ran = self.beam("check", **long)
        self.is_answer(ran, 0, b"check\n", [b"still running"])
        self.assertNotIn(b"never ends", ran.stderr)
        self.assertEqual(self.beam("run", BEAM_PATIENCE="1").stderr, b"")

    def test_a_quick_run_keeps_nobody_waiting(self):
        self.prove()
        began = time.monotonic()
        self.beam("run")
        self.assertLess(time.monotonic() - began, 5)

    def test_a_signal_ends_the_program(self):
        self.prove()
        where = {**os.environ, "FAKE_WAIT": "30", "FAKE": str(self.room)}
        ran = subprocess.Popen([self.top / "beam", "run", "a.script"], cwd=self.room, env=where)
        noted = self.room / "pid"
        self.wait_for(lambda: noted.exists() and noted.read_text().endswith("\n"))
        ran.send_signal(signal.SIGTERM)
        self.assertEqual(ran.wait(timeout=10), 143)
        self.wait_for(lambda: not Path(f"/proc/{noted.read_text().strip()}/cmdline").exists())


class Unproved(BeamTest):
    def test_a_trial_answers_without_a_build(self):
        for words in (("--unproved", "run"), ("run",)):
            for status, given in ((0, b"given"), (3, b"")):
                ran = self.beam(*words, "--schedulers", "2", given=given, FAKE_STATUS=str(status))
                self.is_answer(ran, status, b"run --schedulers 2\n" + given, [b"nothing is proved of this answer", b"two minutes"])
                self.assertEqual(ran.stderr.count(b"\n"), 1)
                self.assertEqual(b"beam prove" in ran.stderr, words[0] == "run")
        self.is_answer(self.beam("--unproved", "check", "a.script", "a.report"), 0, b"check\nscript\nreport\n")
        self.is_answer(self.beam("--unproved", "why", given=b"x"), 0, b"the second: why\nx")
        self.assertEqual({it.split()[0] for it in self.calls()}, {"try"})

    def test_a_reason_for_a_trial(self):
        for words, given in (("run a.script", b""), ("run", b"script\n"), ("check a.script a.report", b"")):
            ran = self.beam("--unproved", *words.split(), given=given, FAKE_STATUS="3", BEAM_WHY="1")
            self.assertIn(b"why: --kind script [script", ran.stderr)
            self.assertIn(b"] %s\n" % words.split()[0].encode(), ran.stderr)
        self.assertEqual(len(self.calls()), 3)

    def test_a_trial_tells_that_it_is_at_work(self):
        ran = self.beam("run", FAKE_WAIT="2.5", BEAM_PATIENCE="1")
        self.is_answer(ran, 0, b"run\n", [b"at work, 1 seconds so far", b"at work, 2 seconds so far"])

    def test_each_end_of_a_trial_has_its_sentence_and_status(self):
        cases = [("checked: no-answer: the program did not end within the time limit\nrun=no-answer proved=no", 8, b"ended after a minute", b"never ends"),
                 ("| a\nchecked: no-answer: the program wrote more than 1048576 bytes to standard output", 9, b"larger than the 1 MiB", b"beam prove"),
                 ("OSError: [Errno 28] No space left on device", 7, b"the disk is full", b""),
                 ("checked: fault kind=overflow at=src/main.rt:2:3\nrun=fault proved=no", 7, b"kind=overflow at=src/main.rt:2:3", b""),
                 ("src/a.rt:1:2: error[unknown]: no x\nrun=none proved=no", 7, b"do not compile: src/a.rt:1:2", b""),
                 ("something else", 7, b"no answer: something else", b"")]
        for said, status, sentence, more in cases:
            with self.subTest(said):
                ran = self.beam("--unproved", "run", FAKE_SAID=said)
                self.is_answer(ran, status, b"", [sentence, more])
                self.assertLessEqual(ran.stderr.count(b"\n"), 3)
        ran = self.beam("--unproved", "check", FAKE_SAID=cases[0][0])
        self.is_answer(ran, 8, b"", [])
        self.assertNotIn(b"never ends", ran.stderr)


class Installed(BeamTest):
    def test_needs_neither_toolchain_nor_checkout(self):
        where = {**os.environ, "PATH": f"{self.room}/bin:{os.environ['PATH']}", "FAKE": str(self.room)}
        to = self.room / "to"
        self.prove()
        subprocess.run([self.top / "tools/install", to], env=where, check=True, capture_output=True)
        shutil.rmtree(self.top)
        (self.room / "bin/rt").unlink()
        (self.room / "link").symlink_to(to / "bin/beam")
        for program in (to / "bin/beam", self.room / "link"):
            self.is_answer(self.beam("run", "a.script", program=program), 0, b"run\nscript\n")
            self.is_answer(self.beam("why", program=program), 0, b"the second: why\n")
        self.is_answer(self.beam("rehearse", "a", program=to / "bin/beam"), 0, b"rehearse: a\n")
        self.assertTrue((to / "libexec/cambotrila/rehearsal/runs.py").exists())
        self.assertRegex(self.beam("--version", program=to / "bin/beam").stdout, rb"\Abeam 1, proved, of sources [0-9a-f]{64}\n\Z")
        self.is_answer(self.beam("prove", program=to / "bin/beam"), 7, b"", [b"use a checkout"])
        ran = self.beam("run", "a.script", program=to / "bin/beam", FAKE_STATUS="3", BEAM_WHY="1")
        self.is_answer(ran, 3, b"run\nscript\n", [b"why: --kind script"])
        self.is_answer(self.beam("--unproved", "run", program=to / "bin/beam"), 7, b"", [b"use a checkout"])
        for name in ("share/man/man1/beam.1", "share/bash-completion/completions/beam", "bin/beam-why", "bin/beam-lint",
                     "share/vim/vimfiles/syntax/cambotrila.vim"):
            self.assertTrue((to / name).exists(), name)
        doc = to / "share/doc/cambotrila"
        self.assertEqual(sorted(it.name for it in (doc / "docs").iterdir()), sorted(f"{name}.md" for name in PAGES))
        self.assertEqual((doc / "examples/tutorial/01_load.script").read_text(), "an example")
        self.assertTrue((doc / "README.md").exists())
        for name in ("beam_tool", "beam_why"):
            self.assertTrue(os.stat(to / "libexec/cambotrila" / name).st_mode & stat.S_IXUSR)

    def test_wants_one_folder(self):
        for words in ([], [""], ["a", "b"], ["-x"]):
            ran = subprocess.run([self.top / "tools/install", *words], capture_output=True)
            self.assertEqual((ran.returncode, ran.stdout), (2, b""))

    def test_says_its_usage_and_builds_nothing(self):
        where = {**os.environ, "PATH": f"{self.room}/bin:{os.environ['PATH']}", "FAKE": str(self.room)}
        for word in ("-h", "--help"):
            ran = subprocess.run([self.top / "tools/install", word], env=where, capture_output=True)
            self.assertEqual(ran.returncode, 0)
            self.assertIn(b"tools/install PREFIX", ran.stdout)
        self.assertEqual(self.calls(), [])


if __name__ == "__main__":
    unittest.main()
