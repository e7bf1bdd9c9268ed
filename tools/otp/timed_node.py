"""Real Erlang nodes that time acts of the code server, for tools/bench: one for each number of busy processes, each kept while it is used.

It is not proved.
"""

from __future__ import annotations

import os
import subprocess
import tempfile
from pathlib import Path
from types import TracebackType
from typing import Optional

from node import QUIET

SOURCE = Path(__file__).resolve().parent / "timed/otp_timed.erl"


class TimedNodes:
    """Nodes that answer how long so many acts take beneath so many busy processes, by one scheduler more than these."""

    def __init__(self) -> None:
        self.room = tempfile.TemporaryDirectory(prefix="cambotrila-timed-")
        self.nodes: dict[int, subprocess.Popen] = {}
        subprocess.run(["erlc", "-o", self.room.name, str(SOURCE)], check=True)

    def __enter__(self) -> TimedNodes:
        return self

    def __exit__(self, kind: Optional[type], error: Optional[BaseException], trace: Optional[TracebackType]) -> None:
        for each in self.nodes.values():
            each.kill()
            each.wait()
            each.stdin.close()
            each.stdout.close()
        self.room.cleanup()

    def node(self, busy: int) -> subprocess.Popen:
        """The node with so many busy processes."""
        if busy not in self.nodes:
            words = ["erl", *QUIET, "+S", f"{busy + 1}:{busy + 1}", "-noshell", "-pa", self.room.name, "-s", "otp_timed", "start",
                     "-extra", str(busy)]
            self.nodes[busy] = subprocess.Popen(words, stdin=subprocess.PIPE, stdout=subprocess.PIPE, stderr=subprocess.DEVNULL, text=True,
                                                cwd=self.room.name, env={**os.environ, "ERL_CRASH_DUMP": "/dev/null"})
        return self.nodes[busy]

    def seconds(self, act: str, busy: int, count: int) -> float:
        """How long so many acts take."""
        node = self.node(busy)
        node.stdin.write(f"{act} {count}\n")
        node.stdin.flush()
        told = node.stdout.readline()
        if not told.strip().lstrip("-").isdigit():
            raise SystemExit(f"the node came to no answer to `{act} {count}`: {told!r}")
        return int(told) / 1e9


def release() -> str:
    """The release of Erlang/OTP that is installed."""
    words = ["erl", "-noshell", "-noinput", "-eval", "io:format(\"~s\", [erlang:system_info(otp_release)]), halt()."]
    return subprocess.run(words, capture_output=True, text=True, check=True).stdout
