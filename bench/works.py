"""The works of works.txt, and how the harness counts and times them."""
import copy
import os
import re
import shutil
import subprocess
import tempfile

HERE = os.path.dirname(os.path.abspath(__file__))
BUILT = os.path.join(HERE, "..", "target", "bench")
SIDES = ("proved", "plain")


class Work:
    def __init__(self, line, group):
        self.key, self.label, self.unit, self.target, numbers, turns = [part.strip() for part in line.split("|")]
        self.group, self.turns = group, int(turns)
        self.numbers = [int(number, 0) for number in numbers.split()]
        self.length, self.k = self.numbers[6], self.numbers[7]

    def line(self, side, turns):
        return " ".join(str(n) for n in [SIDES.index(side), *self.numbers, turns])

    def at(self, length=None, k=None):
        """The same work at another length or for another number of services."""
        other = copy.copy(self)
        other.numbers = list(self.numbers)
        if length is not None:
            other.length = other.numbers[6] = length
        if k is not None:
            other.k = other.numbers[7] = k
        other.turns = 4
        return other

    def whole_label(self):
        """Its label with its group."""
        return f"{self.group}: {self.label}"

    def both(self):
        """Whether there are two sides of it: a bare copy has one."""
        return self.numbers[0] not in (5, 6)


def read_works():
    works, group = [], ""
    for line in open(os.path.join(HERE, "works.txt"), encoding="utf-8"):
        line = line.strip()
        if line.startswith("["):
            group = line[1:-1]
        elif line and not line.startswith("#"):
            works.append(Work(line, group))
    return works


def sides_of(work):
    return SIDES if work.both() else ("proved",)


def counter():
    """What counts instructions here: valgrind, else QEMU's user emulator with the plugin counter.c; None where neither is there."""
    if shutil.which("valgrind"):
        return "valgrind"
    return "qemu" if shutil.which("qemu-x86_64") and os.path.exists(os.path.join(BUILT, "counter.so")) else None


def has_counter():
    return counter() is not None


def counted_by_valgrind(lines, parts, folder):
    out = os.path.join(folder, "out")
    command = ["valgrind", "--tool=callgrind", f"--callgrind-out-file={out}", "--dump-before=mark", os.path.join(BUILT, "harness"), "count"]
    subprocess.run(command, input=lines, text=True, check=True, capture_output=True)
    return [int(re.search(r"^summary: (\d+)", open(f"{out}.{number + 2}").read(), re.M).group(1)) for number in range(len(parts))]


def counted_by_qemu(lines, parts, folder):
    out = os.path.join(folder, "out")
    command = ["qemu-x86_64", "-plugin", f"{os.path.join(BUILT, 'counter.so')},out={out}", os.path.join(BUILT, "harness"), "count"]
    subprocess.run(command, input=lines, text=True, check=True, capture_output=True)
    numbers = [int(line) for line in open(out)]
    return numbers[1:1 + len(parts)]


def count(works, only=None, sides=SIDES):
    """Instructions of one turn of each work, or of those in `only`: {(index, side): number}, as the difference of two numbers of turns."""
    chosen = range(len(works)) if only is None else only
    pairs = [(i, side) for i in chosen for side in sides_of(works[i]) if side in sides]
    parts = [(i, side, turns) for i, side in pairs for turns in (1, 1 + works[i].turns)]
    lines = "\n".join(works[i].line(side, turns) for i, side, turns in parts)
    by = {"valgrind": counted_by_valgrind, "qemu": counted_by_qemu}[counter()]
    with tempfile.TemporaryDirectory() as folder:
        costs = dict(zip(parts, by(lines, parts, folder)))
    return {(i, side): (costs[i, side, 1 + works[i].turns] - costs[i, side, 1]) / works[i].turns for i, side in pairs}


def time(works, repeats):
    """Nanoseconds of one turn of each work: {(index, side): [one of each repeat]}. The works take turns, so that all meet the same noise."""
    parts = [(i, side) for i, work in enumerate(works) for side in sides_of(work)]
    lines = "\n".join(works[i].line(side, 1) for i, side in parts)
    said = subprocess.run([os.path.join(BUILT, "do"), "time", str(repeats)], input=lines, text=True, check=True, capture_output=True).stdout
    found = {part: [] for part in parts}
    for line in said.splitlines():
        index, nanoseconds = line.split()
        found[parts[int(index)]].append(float(nanoseconds))
    return found


def per_unit(works, costs, i, side):
    """The cost of one unit of work i."""
    work, cost = works[i], costs[i, side]
    if work.unit in ("byte", "record"):
        return cost / work.length
    if work.unit == "service":
        return cost / work.k
    if work.unit.startswith("beside "):
        rate = index_of(works, work.unit.split()[1])
        return cost / work.k - work.length * costs[rate, side] / works[rate].length
    return cost


def index_of(works, key):
    return next(i for i, work in enumerate(works) if work.key == key)


def met(works, costs, i):
    """Whether the target of work i is met; None where it has none."""
    target = works[i].target
    value = per_unit(works, costs, i, "proved")
    if target == "-":
        return None
    if target.startswith("constant "):
        other = per_unit(works, costs, index_of(works, target.split()[1]), "proved")
        return abs(value - other) <= other / 10
    return value <= float(target)


def bests(times):
    return {part: min(values) for part, values in times.items()}
