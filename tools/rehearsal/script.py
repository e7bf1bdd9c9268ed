"""A rehearsal file: a script, and lines that begin with `%`, which are taken out before the program reads it."""

from __future__ import annotations

import re
from dataclasses import dataclass, field


class FaultyLine(Exception):
    """A line of the rehearsal file that is no line of its forms, with its number and the reason."""

    def __init__(self, number: int, reason: str):
        super().__init__(f"line {number}: {reason}")
        self.number = number
        self.reason = reason


@dataclass(frozen=True)
class Command:
    """A command of the script, by its loader from 0 and its place there from 1."""

    loader: int
    place: int
    text: str

    @property
    def name(self) -> str:
        return f"L{self.loader} {self.place} {self.text}"


@dataclass
class Rehearsal:
    """The script, the lines that it has in the file, what is expected, and how often it is to be run."""

    script: str = ""
    lines: list[int] = field(default_factory=list)
    expected: list[tuple[int, str]] = field(default_factory=list)
    repeat: int | None = None
    schedulers: list[int] | None = None
    commands: list[Command] = field(default_factory=list)

    @property
    def spawns(self) -> list[str]:
        """The calls of the processes, in their order."""
        return [command.text.split(" ", 1)[1] for command in self.commands if command.text.startswith("spawn ")]


def numbers_of(text: str) -> list[int]:
    """Numbers of schedulers, parted by commas."""
    parts = [part.strip() for part in text.split(",")]
    if not all(re.fullmatch(r"[1-9]|1[0-6]", part) for part in parts):
        raise ValueError(f"`{text}` is no list of numbers of schedulers, as 1,2,4,16, each 1 to 16")
    return [int(part) for part in parts]


def take_directive(rehearsal: Rehearsal, number: int, text: str) -> None:
    """Takes a line behind its `%`: a directive, or a comment."""
    word, _, rest = text.strip().partition(" ")
    if word == "expect":
        rehearsal.expected.append((number, rest.strip()))
    elif word == "repeat":
        if not re.fullmatch(r"[1-9][0-9]{0,5}", rest.strip()):
            raise FaultyLine(number, f"`{rest.strip()}` is no number of runs, which is 1 to 999999")
        rehearsal.repeat = int(rest)
    elif word == "schedulers":
        try:
            rehearsal.schedulers = numbers_of(rest)
        except ValueError as error:
            raise FaultyLine(number, str(error)) from None


def commands_of(script: str) -> list[Command]:
    """The commands of a script."""
    commands: list[Command] = []
    loader, place = -1, 0
    for line in script.split("\n"):
        if line == "go":
            break
        if line == "loader":
            loader, place = loader + 1, 0
        elif loader >= 0:
            place += 1
            commands.append(Command(loader, place, line))
    return commands


def read(text: str) -> Rehearsal:
    """A rehearsal file in its parts."""
    rehearsal, kept = Rehearsal(), []
    pieces = text.split("\n")
    for number, line in enumerate(pieces, 1):
        if line.startswith("%"):
            take_directive(rehearsal, number, line[1:])
        elif line or number < len(pieces):
            kept.append(line)
            rehearsal.lines.append(number)
    rehearsal.script = "\n".join(kept) + ("\n" if kept and not pieces[-1] else "")
    rehearsal.commands = commands_of(rehearsal.script)
    return rehearsal
