"""How cases are put to the programs: to a built one call by call, or all of them to a trial run, which proves nothing."""

import os
import re
import shutil
import signal
import subprocess
import tempfile
from collections import namedtuple
from concurrent.futures import ThreadPoolExecutor
from pathlib import Path

TOP = Path(__file__).resolve().parent.parent
RUNNER = TOP / "tools/case_runner"
CHECK = ["check"]
SECONDS = 60  # of a call of a built program
TRIAL_SECONDS = 1200  # of a whole bundle in a trial run, once it is built


class Question(namedtuple("Question", "text steps")):
    """A text, and the steps over it, one after the other."""


class Step(namedtuple("Step", "words checked name wanted seen", defaults=[lambda came: came])):
    """A call with these words over the text of a question, or none where the one before is gone on with.

    Where it is checked, what it wrote is put to a check behind the text, if its status is 0, and the answer is that check's.
    The name says what is tried; what is seen of the answer, a status and an output, must be what is wanted.
    """


class CutOff(Exception):
    """A signal ends all."""

    def __init__(self, number):
        super().__init__(signal.Signals(number).name)
        self.number = number


class Children:
    """The processes that were started and have not ended."""

    def __init__(self):
        self.running = set()
        self.signal = None

    def start(self, words, **how):
        child = subprocess.Popen(words, **how)
        self.running.add(child)
        if self.signal:
            child.terminate()
            raise CutOff(self.signal)
        return child

    def run(self, words, given=None, seconds=None, **how):
        """The status, the output and what was said of a process that was run to its end; no status where it took longer."""
        how = {"stdin": subprocess.PIPE, "stdout": subprocess.PIPE, "stderr": subprocess.PIPE, **how}
        with self.start(words, **how) as child:
            try:
                output, said = child.communicate(given, timeout=seconds)
            except subprocess.TimeoutExpired:
                child.kill()
                child.communicate()
                return None, b"", b""
            finally:
                self.running.discard(child)
        if self.signal:
            raise CutOff(self.signal)
        return child.returncode, output, said

    def stop(self, number, _):
        """Ends all that runs, for a signal that came."""
        signal.signal(signal.SIGINT, signal.SIG_IGN)
        signal.signal(signal.SIGTERM, signal.SIG_IGN)
        self.signal = number
        for child in list(self.running):
            child.terminate()
        raise CutOff(number)


CHILDREN = Children()


class Built:
    """A program that was built: a process for each call."""

    def __init__(self, file):
        self.file = file

    def call(self, words, text):
        status, output, _ = CHILDREN.run([self.file, *words], text, SECONDS)
        return ("none", f"nothing after {SECONDS} seconds\n".encode()) if status is None else (status, output)

    def answer(self, question):
        """What comes of each step."""
        came = []
        wrote = None
        for step in question.steps:
            if step.words is not None:
                wrote = self.call(step.words, question.text)
            is_written = step.checked and wrote[0] == 0
            came.append(self.call(CHECK, question.text + wrote[1]) if is_written else wrote)
        return came

    def answers(self, questions):
        """What comes of each step, in one row."""
        with ThreadPoolExecutor(os.cpu_count()) as pool:
            for came in pool.map(self.answer, questions):
                yield from came


def commands(question, first):
    """A question as the commands of tools/case_runner. Its steps are numbered from the first."""
    parts = [b"text %d\n%b" % (len(question.text), question.text)]
    for number, step in enumerate(question.steps, first):
        lines = [f"note {number}"]
        if step.words is not None:
            lines += [f"call {len(step.words)}", *step.words]
        lines += ["check "] * step.checked + ["tell "]
        parts.append("".join(f"{line}\n" for line in lines).encode())
    return b"".join(parts)


def bundle(questions):
    """All questions, the last ones first: they take longest."""
    parts = []
    number = 0
    for question in questions:
        lines = commands(question, number)
        parts.append(b"question %d\n%b" % (len(lines), lines))
        number += len(question.steps)
    return b"".join([b"lanes %d\n" % (os.cpu_count() or 1), *reversed(parts)])


def told(output):
    """The answers that a bundle's output tells, each by the number of its step, as far as it goes."""
    answers = {}
    at = 0
    while True:
        head = re.compile(rb"(?:open \d+\n)*answer (\d+) (\d+) (\d+)\n").match(output, at)
        if not head or head.end() + int(head[3]) > len(output):
            return answers
        at = head.end() + int(head[3])
        answers[int(head[1])] = int(head[2]), output[head.end():at]


class NoAnswer(Exception):
    """A trial run that came to no answer, with the numbers of the steps that it was at, where they are known."""

    def __init__(self, said):
        super().__init__(said)
        shown = [line[2:] for line in said.splitlines() if line.startswith("| ")]
        last = [line for line in shown if not line.startswith("open ")][-1:]
        open_at_last = shown[shown.index(last[0]) + 1:] if last else shown
        self.places = sorted({int(line[5:]) for line in open_at_last})


class Trial:
    """A trial run of a crate's program, with tools/case_runner in place of its `main`: it builds the sources as they stand, and proves nothing."""

    def __init__(self, crate):
        self.crate = crate

    def make_room(self, room):
        """A repository of the sources alone: a trial run reads neither definitions nor proofs. Answers the folder of the crate."""
        for name in ("crates.txt", "HANDLES"):
            shutil.copy(TOP / name, room / name)
        for source in sorted((TOP / "crates").glob("*/src")):
            shutil.copytree(source, room / source.relative_to(TOP))
        source = room / "crates" / self.crate / "src"
        modules = (source / "main.rt").read_text().partition("\nuse ")[0]
        (source / "main.rt").write_text(f"{modules}\n{(RUNNER / f'{self.crate}.rt.txt').read_text()}")
        shutil.copy(RUNNER / "bundle.rt.txt", source / "bundle.rt")
        return source.parent

    def answers(self, questions):
        """What comes of each step, in one row."""
        with tempfile.TemporaryDirectory(prefix="beam-trial-") as room:
            words = ["rt", "try", "--steps", "1", "--seconds", str(TRIAL_SECONDS)]
            _, output, said = CHILDREN.run(words, bundle(questions), cwd=self.make_room(Path(room)))
        ended = re.search(rb"^run=ended status=0 ", said, re.M)
        answers = told(output)
        if not ended or len(answers) != sum(len(question.steps) for question in questions):
            raise NoAnswer(said.decode(errors="replace"))
        return [answers[number] for number in sorted(answers)]
