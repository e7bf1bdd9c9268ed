"""Compares what a real Erlang node tells of a script with what the program tells, by the program's own `check`.

A report of the node that is not lawful is explained where the node noted differences that docs/OTP.md lists, and where
its report is lawful once it steps aside at these: then it differs in nothing else. The one difference that no node can
note is a limit of a process, since nothing on the node has it; it is found in the program's report.
"""

from __future__ import annotations

import os
import subprocess
import tempfile
from collections import Counter
from dataclasses import dataclass, field
from pathlib import Path
from typing import Iterator, Optional

from node import Difference, Node, Told

TOP = Path(__file__).resolve().parents[2]
WRAPPER = TOP / "beam"
PROVED = TOP / "crates/beam_tool/out/beam_tool"
LIMITS = 4
SECONDS = 120
# So many printed or traced lines of a process are told that differ.
SHOWN_LINES = 5


class ProgramFault(Exception):
    """The program did not answer as it does to a script that it takes."""


class Program:
    """The program that runs scripts and judges reports."""

    def __init__(self, file: Optional[Path] = None):
        named = file or os.environ.get("BEAM_PROGRAM")
        if not named and subprocess.run([TOP / "tools/build", "--stands"], check=False).returncode:
            raise ProgramFault("no proved program of these sources stands here: `./beam prove` makes it, or name one by --program")
        self.file = Path(named or WRAPPER)

    def answer(self, words: list[str], text: str) -> tuple[int, str]:
        try:
            done = subprocess.run([self.file, *words], input=text, capture_output=True, text=True, timeout=SECONDS)
        except subprocess.TimeoutExpired:
            raise ProgramFault(f"no answer of the program after {SECONDS} seconds: does a process never end?") from None
        except OSError as fault:
            raise ProgramFault(f"the program {self.file} cannot be run: {fault.strerror}") from None
        return done.returncode, done.stdout

    def run(self, script: str) -> str:
        """The program's own report of a script."""
        status, output = self.answer(["run", "--schedulers", "1"], script)
        if status:
            raise ProgramFault(f"the program does not run this script: {output.strip() or f'status {status}'}")
        return output

    def check(self, script: str, report: str) -> str:
        """`lawful`, `not lawful`, or why the report is refused."""
        return self.answer(["check"], script + report)[1].strip()


# ---- reports, part by part


@dataclass
class Process:
    """What a report tells of a process: its call, the lines of each span behind its head, and the end."""

    call: str
    spans: list[tuple[str, list[str]]] = field(default_factory=list)
    end: str = ""

    @property
    def turns(self) -> int:
        return sum(int(head.split()[1]) for head, _ in self.spans)

    def lines(self, kind: str) -> list[str]:
        return [line for _, lines in self.spans for line in lines if line.startswith(kind)]


@dataclass
class Report:
    """A report, in its parts."""

    generations: str = "0"
    entries: list[tuple[str, str]] = field(default_factory=list)
    processes: list[Process] = field(default_factory=list)
    seen: list[str] = field(default_factory=list)


def parts(text: str) -> Report:
    """The parts of a report."""
    report = Report()
    for line in text.splitlines():
        word, _, rest = line.partition(" ")
        if word == "generations":
            report.generations = rest
        elif word == "entry":
            command, _, reply = rest.partition(" = ")
            report.entries.append((command, reply))
        elif word == "process":
            report.processes.append(Process(rest.split(" ", 1)[1]))
        elif word == "span":
            report.processes[-1].spans.append((rest, []))
        elif word in ("print", "trace"):
            report.processes[-1].spans[-1][1].append(line)
        elif line == "end report":
            break
        elif word == "end":
            report.processes[-1].end = rest
        elif word in ("observer", "snapshot", "export"):
            report.seen.append(line)
    return report


def differing(ours: str, theirs: str) -> Iterator[str]:
    """What differs between the program's report and the node's, in words."""
    mine, other = parts(ours), parts(theirs)
    if mine.generations != other.generations:
        yield f"generations: the program made {mine.generations}, the node {other.generations}"
    yield from differing_entries(mine.entries, other.entries)
    for number, (one, two) in enumerate(zip(mine.processes, other.processes)):
        for words in differing_process(one, two):
            yield f"process {number}, {one.call}: {words}"
    if mine.seen != other.seen:
        yield "observers: they saw other exports, or under other generations"


def replies(entries: list[tuple[str, str]]) -> dict[str, str]:
    """The reply of each command, which is named by its text, and by its time where it is made more than once."""
    made: Counter = Counter()
    named = {}
    for command, reply in entries:
        made[command] += 1
        time = f" (time {made[command]})" if made[command] > 1 else ""
        named[command + time] = reply
    return named


def differing_entries(mine: list[tuple[str, str]], other: list[tuple[str, str]]) -> Iterator[str]:
    """The commands whose replies differ. A command that differs more than once in one way is told once, with its count."""
    counts: Counter = Counter()
    first: dict[tuple[str, ...], str] = {}
    for way, words in entry_differences(replies(mine), replies(other)):
        counts[way] += 1
        first.setdefault(way, words)
    for way, words in first.items():
        yield words + times(counts[way])


def entry_differences(one: dict[str, str], two: dict[str, str]) -> Iterator[tuple[tuple[str, ...], str]]:
    """Each command whose replies differ: in which way, and in words."""
    for name, reply in one.items():
        answer = two.get(name)
        if answer is None:
            yield (command_of(name), "program"), f"entry {name}: the program made it, the node did not"
        elif without_generation(answer) != without_generation(reply):
            way = command_of(name), without_generation(reply), without_generation(answer)
            yield way, f"entry {name}: the program answers {reply}, the node {answer}"
    for name in two:
        if name not in one:
            yield (command_of(name), "node"), f"entry {name}: the node made it, the program did not"


def command_of(name: str) -> str:
    """A command without its time."""
    return name.split(" (time ")[0]


def times(count: int) -> str:
    """How often a difference was met, where that is more than once."""
    return f"; so {count} times, first here" if count > 1 else ""


def without_generation(reply: str) -> str:
    """A reply, and whether it published; by which generation is a matter of those before."""
    return reply.split("@")[0]


def differing_process(one: Process, two: Process) -> Iterator[str]:
    if one.end != two.end:
        yield f"in the program it ends as {one.end}, on the node as {two.end}"
    if one.turns != two.turns:
        yield f"it has {one.turns} turns in the program, {two.turns} on the node"
    for kind, name in (("print", "prints"), ("trace", "traces")):
        yield from differing_lines(name, one.lines(kind), two.lines(kind))


def differing_lines(name: str, mine: list[str], other: list[str]) -> Iterator[str]:
    """The lines that differ of those that a process prints or traces, by their places from 1."""
    places = [place for place in range(max(len(mine), len(other))) if mine[place : place + 1] != other[place : place + 1]]
    if not places:
        return
    shown = [f"{place + 1} is {line_at(mine, place)} in the program, {line_at(other, place)} on the node" for place in places[:SHOWN_LINES]]
    more = f"; and {len(places) - SHOWN_LINES} more differ" if len(places) > SHOWN_LINES else ""
    yield f"of the lines that it {name}, {len(mine)} in the program and {len(other)} on the node, {', '.join(shown)}{more}"


def line_at(lines: list[str], place: int) -> str:
    return f"`{lines[place]}`" if place < len(lines) else "none"


# ---- what comes of a script


@dataclass
class Comparison:
    """What program and node tell of a script, and how both are judged."""

    script: str
    ours: str
    our_verdict: str
    told: Told
    verdict: str
    differences: list[Difference]
    aside: str = ""
    aside_report: str = ""

    @property
    def is_lawful(self) -> bool:
        return self.verdict == "lawful"

    @property
    def numbers(self) -> list[int]:
        return sorted({difference.number for difference in self.differences})

    @property
    def is_explained(self) -> bool:
        """Whether the node's report is lawful, or differs just in ways that are listed."""
        return self.is_lawful and not self.differences or bool(self.differences) and self.aside == "lawful"


def limits_of_processes(ours: str, theirs: str) -> Iterator[Difference]:
    """The processes that the program ends at a limit which no node has."""
    for number, (one, two) in enumerate(zip(parts(ours).processes, parts(theirs).processes)):
        if one.end == "system_limit" != two.end:
            yield Difference(LIMITS, f"process {number}, {one.call}: the node has no such limit")


def without_limited(ours: str, theirs: str) -> str:
    """The node's report, with the processes that the program ends at a limit as the program tells of them."""
    mine, other = ours.split("process "), theirs.split("process ")
    limited = [number for number, text in enumerate(mine) if "\nend system_limit\n" in text]
    return "process ".join(mine[number] if number in limited else text for number, text in enumerate(other))


def compare(node: Node, program: Program, script: str, *options: str) -> Comparison:
    """What comes of a script on both sides."""
    with tempfile.NamedTemporaryFile("w", suffix=".script") as file:
        file.write(script)
        file.flush()
        path = Path(file.name)
        ours = program.run(script)
        told = node.tell(path, *options)
        limits = list(limits_of_processes(ours, told.report))
        done = Comparison(
            script, ours, program.check(script, ours), told, program.check(script, told.report),
            [*told.differences, *limits],
        )
        if done.differences:
            report = node.tell(path, "aside", *(option for option in options if option != "last_calls")).report
            done.aside_report = without_limited(ours, report) if limits else report
            done.aside = program.check(script, done.aside_report)
    return done
