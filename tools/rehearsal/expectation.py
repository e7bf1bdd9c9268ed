"""What is expected of the runs of a rehearsal: lines `% expect [always|sometimes] [not] FORM`."""

from __future__ import annotations

import re
from collections.abc import Callable
from dataclasses import dataclass

from history import History
from script import Command, FaultyLine, Rehearsal

COMMAND = r"(?:load|delete|soft_purge|purge|check_old|put|erase|trace|spawn) \S.*"
FORMS = (
    "nobody is killed",
    "process N ends END   (normal, killed, undef, badarg, badarith or system_limit, or as the report has it)",
    "process N prints T, T   or   process N prints nothing",
    "COMMAND is REPLY   or   the 2nd COMMAND is REPLY   (a command as the script has it, as soft_purge m)",
    "L0 3 replies REPLY   (the third command of loader 0)",
    "nobody lingers in m",
    "area of key k is released before L0 5",
)


@dataclass(frozen=True)
class Seen:
    """Whether a form holds of a report, and the line of the report that says so, with what stands there."""

    holds: bool
    line: int
    what: str


Test = Callable[[History], Seen]


@dataclass(frozen=True)
class Expectation:
    """A line of the file: what is expected, of each run or of one at least, and whether it is to hold or not."""

    number: int
    text: str
    is_sometimes: bool
    is_negated: bool
    test: Test

    def seen(self, history: History) -> Seen:
        """Whether the report is as expected."""
        seen = self.test(history)
        return Seen(seen.holds != self.is_negated, seen.line, seen.what)


def killed_by_nobody(history: History) -> Seen:
    for number, life in enumerate(history.lives):
        if life.killed_by:
            return Seen(False, life.line, f"process {number} is {life.kind}")
    return Seen(True, 0, "nobody is killed")


def ends(number: int, end: str) -> Test:
    def test(history: History) -> Seen:
        life = history.lives[number]
        return Seen(end in (life.end, life.end.split(" ")[0]), life.line, f"process {number} ends as {life.kind}")

    return test


def prints(number: int, terms: list[str]) -> Test:
    def test(history: History) -> Seen:
        life = history.lives[number]
        at = next((place for place, pair in enumerate(zip(life.prints, terms)) if pair[0] != pair[1]), min(len(life.prints), len(terms)))
        line = life.print_lines[at] if at < len(life.prints) else life.line
        return Seen(life.prints == terms, line, f"process {number} prints {', '.join(life.prints) or 'nothing'}")

    return test


def replies(commands: list[Command], reply: str) -> Test:
    def test(history: History) -> Seen:
        for command in commands:
            told = history.replies[command.loader, command.place]
            if reply not in (told.text, told.text.split(" ")[0]):
                return Seen(False, told.line, f"{command.name} replies {told.text}")
        return Seen(True, told.line, f"{command.name} replies {told.text}")

    return test


def lingers_nobody(commands: list[Command]) -> Test:
    def test(history: History) -> Seen:
        for command in commands:
            told = history.replies[command.loader, command.place]
            if told.kind.startswith("false by process"):
                return Seen(False, told.line, f"{command.name} replies {told.text}")
        return Seen(True, 0, "nobody lingers")

    return test


def released(key: str, command: Command) -> Test:
    def test(history: History) -> Seen:
        lines = history.releases.get(f"key {key}", [])
        line = history.replies[command.loader, command.place].line
        first = f"is released first on line {lines[0]}" if lines else "is never released"
        return Seen(bool(lines) and lines[0] < line, line, f"{command.name} stands here, and an area of {key} {first}")

    return test


# ---- reading


def process_of(text: str, rehearsal: Rehearsal) -> int:
    number = int(text)
    if number >= len(rehearsal.spawns):
        raise ValueError(f"there is no process {number}: the script has {len(rehearsal.spawns)} spawn lines, and processes count from 0")
    return number


def command_of(loader: str, place: str, rehearsal: Rehearsal) -> Command:
    for command in rehearsal.commands:
        if (command.loader, command.place) == (int(loader), int(place)):
            return command
    raise ValueError(f"there is no command {place} of loader {loader}: loaders count from 0, their commands from 1")


def commands_named(text: str, rehearsal: Rehearsal) -> list[Command]:
    found = [command for command in rehearsal.commands if command.text == text]
    if not found:
        raise ValueError(f"the script has no command `{text}`")
    return found


def one_of(ordinal: str, text: str, rehearsal: Rehearsal) -> list[Command]:
    found = commands_named(text, rehearsal)
    if not 1 <= int(ordinal) <= len(found):
        raise ValueError(f"the script has `{text}` {len(found)} times")
    return [found[int(ordinal) - 1]]


def terms_of(text: str) -> list[str]:
    return [] if text == "nothing" else text.split(", ")


def soft_purges(module: str, rehearsal: Rehearsal) -> list[Command]:
    return commands_named(f"soft_purge {module}", rehearsal)


def key_test(key: str, loader: str, place: str, rehearsal: Rehearsal) -> Test:
    if not any(command.text.startswith((f"put {key} {{", f"put {key} [")) for command in rehearsal.commands):
        raise ValueError(f"the script puts no tuple or list under the key {key}")
    return released(key, command_of(loader, place, rehearsal))


READERS: list[tuple[str, Callable[[re.Match, Rehearsal], Test]]] = [
    (r"nobody is killed", lambda found, _: killed_by_nobody),
    (r"nobody lingers in (\w+)", lambda found, whole: lingers_nobody(soft_purges(found[1], whole))),
    (r"process (\d+) ends (normal|killed|undef|badarg|badarith|system_limit|undef \S+|killed \d+)",
     lambda found, whole: ends(process_of(found[1], whole), found[2])),
    (r"process (\d+) prints (\S.*)", lambda found, whole: prints(process_of(found[1], whole), terms_of(found[2]))),
    (r"L(\d+) (\d+) replies (\S.*)", lambda found, whole: replies([command_of(found[1], found[2], whole)], found[3])),
    (r"area of key (\w+) is released before L(\d+) (\d+)", lambda found, whole: key_test(found[1], found[2], found[3], whole)),
    (rf"the (\d+)(?:st|nd|rd|th) ({COMMAND}) is (\S.*)", lambda found, whole: replies(one_of(found[1], found[2], whole), found[3])),
    (rf"({COMMAND}) is (\S.*)", lambda found, whole: replies(commands_named(found[1], whole), found[2])),
]


def read(number: int, text: str, rehearsal: Rehearsal) -> Expectation:
    """An expectation of this line."""
    found = re.fullmatch(r"(?:(always|sometimes) )?(not )?(.*)", text)
    for pattern, made in READERS:
        form = re.fullmatch(pattern, found[3])
        if form:
            try:
                return Expectation(number, text, found[1] == "sometimes", bool(found[2]), made(form, rehearsal))
            except ValueError as error:
                raise FaultyLine(number, str(error)) from None
    raise FaultyLine(number, f"`{text}` is no expectation; the forms, each behind `always` or `sometimes` and `not` as is meant:\n  "
                     + "\n  ".join(FORMS))
