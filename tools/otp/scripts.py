"""Makes scripts from seeds, over all commands: two to four modules in several versions, up to twelve processes, up to
three loaders. Each process ends by itself: loops count down, and a function calls only those behind it.

    python3 tools/otp/scripts.py SEED > FILE
"""

from __future__ import annotations

import random
import sys
from dataclasses import dataclass

MODULES = ("shop", "till", "bank", "cart")
STEPS = 4  # functions of a module that call those with a higher number
KEYS = ("k0", "k1", "k2")
TERMS = ("0", "7", "-3", "red", "ok", "{}", "[]", "{1,red}", "[1,2,3]", "{a,[b,{c,4}],[]}", "[{x,1},{y,2}]")
MOST_PROCESSES = 12


@dataclass(frozen=True)
class Function:
    """A function of a module text."""

    name: str
    arity: int
    exported: bool

    def header(self) -> str:
        return f"{'export' if self.exported else 'local'} {self.name}/{self.arity}"


class Maker:
    """Makes one script."""

    def __init__(self, seed: int):
        self.pick = random.Random(seed)
        self.modules = MODULES[: self.pick.randint(2, 4)]
        self.versions = {module: self.pick.randint(2, 4) for module in self.modules}
        self.spawns = 0

    def chance(self, percent: int) -> bool:
        return self.pick.randrange(100) < percent

    def term(self) -> str:
        return self.pick.choice(TERMS)

    # module texts

    def functions(self) -> list[Function]:
        """The functions of a version: a loop, and steps, of which one is local at times or lacking."""
        steps = [Function(f"step{n}", n % 3, not self.chance(6)) for n in range(STEPS) if not self.chance(3)]
        return [Function("main", 1, True), *steps]

    def module(self, name: str, version: int) -> list[str]:
        functions = self.functions()
        lines = [f"module {name}.{version}"]
        for place, function in enumerate(functions):
            lines.append(function.header())
            lines += self.main(functions) if place == 0 else self.step(function, functions[place + 1 :], version)
        return [*lines, "end"]

    def main(self, functions: list[Function]) -> list[str]:
        """A loop of as many turns as its argument says; at times one that is longer than a turn."""
        lines = ["move 0 $9"] + ["label again"]
        for _ in range(self.pick.randint(1, 3)):
            lines += self.call(functions[1:], 1)
            lines.append("print $1")
        if self.chance(15):
            lines += ["label busy", "add $9 1 $9", f"less $9 {self.pick.randint(60, 260)} busy", "move 0 $9"]
        lines += ["yield", "sub $0 1 $0"]
        lines += ["less 0 $0 again"] if self.chance(50) else ["less $0 1 done", "jump again", "label done"]
        return lines + ([f"ret {self.term()}"] if self.chance(30) else [])

    def step(self, function: Function, later: list[Function], version: int) -> list[str]:
        lines = [self.effect(version) for _ in range(self.pick.randint(0, 3))]
        if self.chance(60):
            lines += self.call(later, 4)
        if self.chance(35):
            lines.insert(self.pick.randint(0, len(lines)), "yield")
        if self.chance(20):
            test = self.pick.choice(["eq $4 $5", "eq $5 none", "less $6 12", "less 12 $6", "less $4 3"])
            lines += [f"{test} past", "print between", "label past"]
        return [*lines, f"ret {self.pick.choice(['$4', '$5', str(version), self.term()])}"]

    def effect(self, version: int) -> str:
        """An instruction; few of them end a process."""
        key, term = self.pick.choice(KEYS), self.term()
        sure = (
            f"print {version}",
            "print $0",
            f"move {term} $4",
            f"pget_or {key} none $5",
            f"pget_or {key} {term} $4",
            f"add {version} 10 $6",
            "print $5",
        )
        risky = (f"pget {key} $5", "elem 1 $5 $4", "elem 2 $4 $5", "add $4 1 $6", "sub 576460752303423487 $4 $6",
                 "sub 576460752303423487 -1 $6")
        return self.pick.choice(sure if self.chance(94) else risky)

    def call(self, later: list[Function], at: int) -> list[str]:
        """A call of a later function, into the register: local, or of a module, at times of one that is not there."""
        names = [f"step{n}/{n % 3}" for n in range(STEPS) if any(it.name == f"step{n}" for it in later)]
        if not names:
            return [f"move {self.term()} ${at}"]
        name = self.pick.choice(names)
        if self.chance(2):
            return [f"call_ext nobody:{name} ${at}"]
        if self.chance(35):
            return [f"call {name} ${at}"]
        return [f"call_ext {self.pick.choice(self.modules)}:{name} ${at}"]

    # loaders

    def reference(self) -> str:
        module = self.pick.choice(self.modules)
        return f"{module}.{self.pick.randint(1, self.versions[module])}"

    def spawn(self) -> str:
        self.spawns += 1
        module = self.pick.choice(self.modules)
        if self.chance(12):
            number = self.pick.randrange(STEPS)
            return f"spawn {module}:step{number}({','.join(self.term() for _ in range(number % 3))})"
        return f"spawn {module}:main({self.pick.randint(2, 12)})"

    def command(self) -> str:
        module = self.pick.choice(self.modules)
        number = self.pick.randrange(STEPS)
        traced = f"{module}:{self.pick.choice(['main/1', f'step{number}/{number % 3}'])}"
        kinds = {
            "load": 18, "load_several": 6, "delete": 3, "soft_purge": 12, "purge": 7, "check_old": 6,
            "put": 10, "erase": 4, "trace_on": 10, "trace_off": 3, "spawn": 16,
        }
        kind = self.pick.choices(list(kinds), list(kinds.values()))[0]
        if kind == "spawn" and self.spawns >= MOST_PROCESSES:
            kind = "check_old"
        lines = {
            "load": lambda: f"load {self.reference()}",
            "load_several": lambda: "load " + " ".join(self.reference() for _ in range(self.pick.randint(2, 4))),
            "put": lambda: f"put {self.pick.choice(KEYS)} {self.term()}",
            "erase": lambda: f"erase {self.pick.choice(KEYS)}",
            "trace_on": lambda: f"trace {traced} on",
            "trace_off": lambda: f"trace {traced} off",
            "spawn": self.spawn,
        }
        return lines[kind]() if kind in lines else f"{kind} {module}"

    def loader(self, number: int) -> list[str]:
        """Commands; the first loader mostly begins with a load of all modules."""
        first = []
        if number == 0 and not self.chance(10):
            first = ["load " + " ".join(f"{module}.1" for module in self.modules), self.spawn()]
        return ["loader", *first, *(self.command() for _ in range(self.pick.randint(4, 16)))]

    def script(self) -> str:
        lines = ["beam script 1"]
        for module in self.modules:
            for version in range(1, self.versions[module] + 1):
                lines += self.module(module, version)
        lines += [f"observer {self.pick.randint(1, 4)}" for _ in range(self.pick.choice([0, 0, 1, 2]))]
        for number in range(self.pick.randint(1, 3)):
            lines += self.loader(number)
        return "\n".join([*lines, "go", ""])


def make(seed: int) -> str:
    """The script of a seed."""
    return Maker(seed).script()


if __name__ == "__main__":
    print(make(int(sys.argv[1])), end="")
