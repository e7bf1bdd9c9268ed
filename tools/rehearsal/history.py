"""What a report tells, as far as a rehearsal asks: the replies of commands, who was killed by which purge, prints and releases.

A report is read that the program wrote and that its check found lawful.
"""

from __future__ import annotations

from collections import Counter
from dataclasses import dataclass, field


@dataclass
class Reply:
    """The reply of a command, and the line of the report that has it."""

    text: str
    line: int

    @property
    def kind(self) -> str:
        """The reply without the turn after which a process lingers: that is another one in each run."""
        words = self.text.split(" ")
        return f"false by process {words[1]}" if words[0] == "false" and len(words) == 3 else self.text


@dataclass
class Life:
    """What a process did: what it printed, how it ended, by which purge if by one, and the lines of the report that have it."""

    call: str
    prints: list[str] = field(default_factory=list)
    end: str = ""
    killed_by: str = ""
    line: int = 0
    print_lines: list[int] = field(default_factory=list)

    @property
    def kind(self) -> str:
        return f"killed by {self.killed_by}" if self.killed_by else self.end


@dataclass
class History:
    """What a report tells."""

    replies: dict[tuple[int, int], Reply] = field(default_factory=dict)
    lives: list[Life] = field(default_factory=list)
    # Of each key the lines on which the areas of its terms were released, and those of it that were dropped and not yet.
    releases: dict[str, list[int]] = field(default_factory=dict)

    def outcome(self) -> tuple:
        """What is alike in runs of one outcome: replies, ends and prints; not turns, nor generations."""
        return (tuple(sorted((place, reply.kind) for place, reply in self.replies.items())),
                tuple((life.kind, tuple(life.prints)) for life in self.lives))


class Follower:
    """Follows the entries: serials, old code, and purges."""

    def __init__(self) -> None:
        self.history = History()
        self.places: Counter = Counter()
        self.owner: dict[int, str] = {}
        self.current: dict[str, int] = {}
        self.old: dict[str, int] = {}
        self.purged_by: dict[int, str] = {}
        self.serials = 0

    def take(self, line: int, rest: str) -> None:
        """Takes an entry: who, command, reply and what was published."""
        who, _, made = rest.partition(" ")
        command, _, answer = made.partition(" = ")
        reply, _, published = answer.rpartition(" ")
        words = command.split(" ")
        if words[0] == "release":
            self.history.releases.setdefault(self.owner.get(int(words[1]), ""), []).append(line)
        elif words[0] == "doom":
            self.doom(who, words[1])
        else:
            self.places[who] += 1
            self.history.replies[int(who[1:]), self.places[who]] = Reply(reply, line)
            if published != "-":
                self.change(words)

    def doom(self, who: str, module: str) -> None:
        """The first half of a purge: its command is the next of its loader."""
        if module in self.old:
            self.purged_by[self.old[module]] = f"{who} {self.places[who] + 1} purge {module}"

    def change(self, words: list[str]) -> None:
        """What a command changed: which serials were given, and what became old or went."""
        if words[0] == "load":
            for reference in words[1:]:
                module = reference.partition(".")[0]
                self.age(module)
                self.current[module] = self.given(module)
        elif words[0] == "delete":
            self.age(words[1])
        elif words[0] in ("purge", "soft_purge"):
            self.old.pop(words[1], None)
        elif words[0] == "put" and words[2][0] in "{[":
            self.given(f"key {words[1]}")

    def age(self, module: str) -> None:
        if module in self.current:
            self.old[module] = self.current.pop(module)

    def given(self, owner: str) -> int:
        self.serials += 1
        self.owner[self.serials] = owner
        return self.serials


def read(report: str) -> History:
    """What a report tells."""
    follower = Follower()
    lives = follower.history.lives
    for number, line in enumerate(report.split("\n"), 1):
        word, _, rest = line.partition(" ")
        if word == "entry":
            follower.take(number, rest)
        elif word == "process":
            lives.append(Life(rest.split(" ", 1)[1]))
        elif word == "print":
            lives[-1].prints.append(rest)
            lives[-1].print_lines.append(number)
        elif word == "end" and rest != "report":
            lives[-1].end, lives[-1].line = rest, number
            if rest.startswith("killed "):
                lives[-1].killed_by = follower.purged_by.get(int(rest.split(" ")[1]), "a purge")
    return follower.history
