"""A real Erlang node that runs scripts: builds src/ into a temporary folder, and starts a fresh node for each script.

It is not proved. The tools beside it and their tests use it.
"""

from __future__ import annotations

import os
import re
import shutil
import subprocess
import sys
import tempfile
from dataclasses import dataclass
from pathlib import Path

SOURCES = Path(__file__).resolve().parent / "src"
SECONDS = 120
HOW_TO_INSTALL = (
    "Erlang is not installed here: there is no `erl` and `erlc` on PATH. On Debian and its kin:\n"
    "    apt-get install --no-install-recommends erlang-base"
)
# A node that leaves the processors to others while it waits.
QUIET = ("+sbwt", "none", "+sbwtdcpu", "none", "+sbwtdio", "none")
NOTE = re.compile(r"difference (\d+): (.*)")


class NodeFault(Exception):
    """The node did not come to a report."""


@dataclass(frozen=True)
class Difference:
    """A place where the node answered otherwise than the command table, by its number in docs/OTP.md."""

    number: int
    words: str


@dataclass(frozen=True)
class Told:
    """What a node told of a script: the report, and where it differs."""

    report: str
    differences: tuple[Difference, ...]

    @property
    def numbers(self) -> list[int]:
        return sorted({difference.number for difference in self.differences})


def is_installed() -> bool:
    """Whether there is an Erlang to run."""
    return bool(shutil.which("erl") and shutil.which("erlc"))


def must_be_installed() -> None:
    """Ends the program with words on how to install Erlang where it is not."""
    if not is_installed():
        sys.exit(HOW_TO_INSTALL)


class Node:
    """Runs scripts, each on a node of its own, until it is closed.

    `sources` are the Erlang files; options of a run are `aside`, `last_calls` and `source` (see src/otp_node.erl).
    """

    def __init__(self, sources: Path = SOURCES):
        self.room = tempfile.TemporaryDirectory(prefix="cambotrila-otp-")
        try:
            self.build(sources)
        except BaseException:
            self.close()
            raise

    def build(self, sources: Path) -> None:
        words = ["erlc", "-o", self.room.name, *map(str, sorted(sources.glob("*.erl")))]
        done = subprocess.run(words, capture_output=True, text=True)
        if done.returncode:
            raise NodeFault(f"the sources do not compile:\n{done.stdout}{done.stderr}")

    def __enter__(self) -> Node:
        return self

    def __exit__(self, *_: object) -> None:
        self.close()

    def close(self) -> None:
        self.room.cleanup()

    def run(self, script: Path, *options: str) -> subprocess.CompletedProcess:
        """What a node writes that runs this script."""
        words = ["erl", *QUIET, "-noshell", "-noinput", "-pa", self.room.name, "-s", "otp_node"]
        given = {**os.environ, "ERL_CRASH_DUMP": "/dev/null"}
        try:
            done = subprocess.run(
                [*words, "-extra", str(script), *options], capture_output=True, text=True, timeout=SECONDS, env=given)
        except subprocess.TimeoutExpired:
            raise NodeFault(f"no report after {SECONDS} seconds: does a process never end?") from None
        if done.returncode:
            raise NodeFault(f"the node came to no report:\n{done.stdout[-2000:]}{done.stderr[-2000:]}")
        return done

    def tell(self, script: Path, *options: str) -> Told:
        """The report of this script by the node, and where it differs."""
        done = self.run(script, *options)
        notes = [NOTE.fullmatch(line) for line in done.stderr.splitlines()]
        return Told(done.stdout, tuple(Difference(int(note[1]), note[2]) for note in notes if note))
