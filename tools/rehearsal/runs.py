"""The runs of a rehearsal, side by side as processors allow, each judged by the program's own check."""

from __future__ import annotations

import contextlib
import os
import signal
import subprocess
import threading
from collections.abc import Iterator
from concurrent.futures import ThreadPoolExecutor
from dataclasses import dataclass
from pathlib import Path

import history


class Refused(Exception):
    """The program does not take the script: what it wrote, and its status."""

    def __init__(self, said: str, status: int):
        super().__init__(said)
        self.said = said
        self.status = status


class Stopped(Exception):
    """The runs were stopped."""


@dataclass
class Result:
    """A run: by how many schedulers, its report, and what it tells. A run that did not end has no report."""

    schedulers: int
    number: int
    report: str = ""
    verdict: str = "did not end"
    told: history.History | None = None

    @property
    def is_lawful(self) -> bool:
        return self.verdict == "lawful"


def kill(child: subprocess.Popen) -> None:
    """Ends a program that still runs, and all that it began."""
    if child.poll() is None:
        with contextlib.suppress(ProcessLookupError, PermissionError):
            os.killpg(child.pid, signal.SIGKILL)


class Program:
    """The program, of which nothing is left running when the rehearsal ends."""

    def __init__(self, file: Path, limit: float) -> None:
        self.file = file
        self.limit = limit
        self.children: set[subprocess.Popen] = set()
        self.lock = threading.Lock()
        self.is_over = False

    def answer(self, words: list[str], text: str) -> tuple[int, str] | None:
        """The status and the output; none where it did not end in time."""
        with self.lock:
            if self.is_over:
                raise Stopped
            child = subprocess.Popen([self.file, *words], stdin=subprocess.PIPE, stdout=subprocess.PIPE, stderr=subprocess.DEVNULL,
                                     start_new_session=True)
            self.children.add(child)
        try:
            output, _ = child.communicate(text.encode("latin-1"), timeout=self.limit)
            return child.returncode, output.decode("latin-1")
        except subprocess.TimeoutExpired:
            return None
        finally:
            self.end(child)

    def end(self, child: subprocess.Popen) -> None:
        with self.lock:
            self.children.discard(child)
        kill(child)
        child.wait()
        for pipe in (child.stdin, child.stdout):
            pipe.close()

    def stop(self) -> None:
        """Ends all that runs, and lets nothing begin."""
        with self.lock:
            self.is_over = True
            for child in self.children:
                kill(child)

    def run(self, script: str, schedulers: int, number: int) -> Result:
        """A run, with its report judged."""
        came = self.answer(["run", "--schedulers", str(schedulers)], script)
        if came is None:
            return Result(schedulers, number)
        if self.is_over:
            raise Stopped
        if came[0]:
            raise Refused(came[1].strip(), came[0])
        judged = self.answer(["check"], script + came[1])
        verdict = judged[1].strip() if judged else "its check did not end"
        return Result(schedulers, number, came[1], verdict, history.read(came[1]) if verdict == "lawful" else None)


def all_runs(program: Program, script: str, schedulers: list[int], count: int, jobs: int) -> Iterator[Result]:
    """So many runs by each number of schedulers, as they end; as many at a time as have a processor for each scheduler."""
    for each in schedulers:
        with ThreadPoolExecutor(max(1, jobs // each)) as pool:
            works = [pool.submit(program.run, script, each, number) for number in range(count)]
            try:
                for work in works:
                    yield work.result()
            except BaseException:
                program.stop()
                raise


def processors() -> int:
    return os.cpu_count() or 1
