"""What many runs told, as a table and for other programs."""

from __future__ import annotations

import os
from collections import Counter
from collections.abc import Iterator
from dataclasses import dataclass, field
from pathlib import Path

from runs import Result
from script import Rehearsal

# So many different replies, ends or prints are shown in a cell of the table, and so many characters of each.
MOST_SHOWN = 6
MOST_CHARACTERS = 48


@dataclass
class Outcome:
    """Runs that are alike in replies, ends and prints; the report of the first of them is kept."""

    first: Result
    count: int = 0
    schedulers: Counter = field(default_factory=Counter)
    kept: Path | None = None


@dataclass
class Tally:
    """Counts the runs, and keeps a report of each outcome in a folder, where there is one, as soon as it comes."""

    rehearsal: Rehearsal
    folder: Path | None
    runs: int = 0
    unended: int = 0
    unlawful: list[tuple[Result, Path | None]] = field(default_factory=list)
    outcomes: dict[tuple, Outcome] = field(default_factory=dict)

    def add(self, result: Result) -> None:
        self.runs += 1
        if result.told is None:
            self.add_odd(result)
            return
        key = result.told.outcome()
        if key not in self.outcomes:
            self.outcomes[key] = Outcome(result, kept=self.keep(result, f"outcome{len(self.outcomes) + 1}"))
        self.outcomes[key].count += 1
        self.outcomes[key].schedulers[result.schedulers] += 1

    def add_odd(self, result: Result) -> None:
        """A run that did not end, or whose report is not lawful."""
        if result.report:
            self.unlawful.append((result, self.keep(result, f"unlawful{len(self.unlawful) + 1}")))
        else:
            self.unended += 1

    def keep(self, result: Result, name: str) -> Path | None:
        """Writes a report, so that it is on the disk when it is said to be kept."""
        return keep(self.folder, name, self.rehearsal.script, result.report) if self.folder else None

    def ordered(self) -> list[Outcome]:
        """The outcomes, the most frequent first."""
        return sorted(self.outcomes.values(), key=lambda outcome: -outcome.count)


def keep(folder: Path, name: str, script: str, report: str) -> Path:
    """Writes a report and the script that it is held against."""
    folder.mkdir(parents=True, exist_ok=True)
    for path, text in ((folder / "script", script), (folder / f"{name}.report", report)):
        with path.open("w", encoding="latin-1", newline="") as file:
            file.write(text)
            file.flush()
            os.fsync(file.fileno())
    return folder / f"{name}.report"


def often(counts: Counter) -> str:
    """Each with how often, the most frequent first."""
    shown = [f"{shortened(text)} ({count})" for text, count in counts.most_common(MOST_SHOWN)]
    more = len(counts) - len(shown)
    return ", ".join(shown) + (f" and {more} more" if more else "")


def shortened(text: str) -> str:
    return text if len(text) <= MOST_CHARACTERS else text[: MOST_CHARACTERS - 3] + " .."


def command_rows(tally: Tally) -> Iterator[tuple[str, Counter]]:
    """Each command with its replies."""
    for command in tally.rehearsal.commands:
        counts: Counter = Counter()
        for outcome in tally.outcomes.values():
            counts[outcome.first.told.replies[command.loader, command.place].kind] += outcome.count
        yield command.name, counts


def process_rows(tally: Tally) -> Iterator[tuple[str, Counter, Counter]]:
    """Each process with its ends, and with what it printed."""
    for number, call in enumerate(tally.rehearsal.spawns):
        ends, prints = Counter(), Counter()
        for outcome in tally.outcomes.values():
            life = outcome.first.told.lives[number]
            ends[life.kind] += outcome.count
            prints[" ".join(life.prints) or "nothing"] += outcome.count
        yield f"{number} {call}", ends, prints


def lines(rows: list[list[str]]) -> Iterator[str]:
    """Rows in columns that are as wide as they must be."""
    widths = [max(len(row[place]) for row in rows) for place in range(len(rows[0]))]
    for row in rows:
        yield "  ".join(cell.ljust(width) for cell, width in zip(row, widths)).rstrip()


def text(tally: Tally) -> Iterator[str]:
    """The table."""
    lawful = sum(outcome.count for outcome in tally.outcomes.values())
    odd = [f"{len(tally.unlawful)} not lawful"] * bool(tally.unlawful) + [f"{tally.unended} that did not end"] * bool(tally.unended)
    yield f"{tally.runs} runs: {', '.join([f'{lawful} lawful', *odd])}; {len(tally.outcomes)} outcomes"
    if not tally.outcomes:
        return
    yield ""
    yield from lines([["command", "replies"], *([name, often(counts)] for name, counts in command_rows(tally))])
    processes = [[name, often(ends), often(prints)] for name, ends, prints in process_rows(tally)]
    if processes:
        yield ""
        yield from lines([["process", "ends", "prints"], *processes])
    yield ""
    rows = [[str(number), str(outcome.count), ", ".join(f"{each}: {count}" for each, count in sorted(outcome.schedulers.items())),
             str(outcome.kept or "not kept")] for number, outcome in enumerate(tally.ordered(), 1)]
    yield from lines([["outcome", "runs", "by schedulers", "a report"], *rows])


def data(tally: Tally, expected: list[dict]) -> dict:
    """All of it for other programs; docs/FORMATS.md has the schema."""
    return {
        "form": 1,
        "runs": tally.runs,
        "unended": tally.unended,
        "unlawful": [str(path) if path else None for _, path in tally.unlawful],
        "commands": [{"command": name, "replies": dict(counts)} for name, counts in command_rows(tally)],
        "processes": [{"process": name, "ends": dict(ends), "prints": dict(prints)} for name, ends, prints in process_rows(tally)],
        "outcomes": [{"runs": each.count, "schedulers": {str(key): count for key, count in sorted(each.schedulers.items())},
                      "report": str(each.kept) if each.kept else None} for each in tally.ordered()],
        "expected": expected,
    }
