"""Measures everything, prints the tables, and writes docs/SPEED.md and its two charts."""
import datetime
import os
import platform
import statistics
import subprocess
import sys

import chart
import works as bench

ROOT = os.path.join(bench.HERE, "..")
LENGTHS = [1, 2, 4, 8, 16, 32, 64, 128, 256, 512, 1024, 2048, 4096, 8192, 16384, 32768, 65536]
SERVICES = [1, 2, 4, 8, 16, 32, 64, 128, 256, 512, 1024, 2048, 4096]
# whole services that move 65,536 bytes
LONG = ["write-up", "read-up", "demand-write-up", "demand-read-up", "write-up-middle", "write-down", "read-down", "copy-apart-whole"]
BY_LENGTH = [
    ("write-up", "proved", "block write, up"),
    ("write-up", "plain", "block write, up, plain C"),
    ("write-down", "proved", "block write, down"),
    ("copy-apart", "proved", "memory-to-memory, up"),
    ("copy-apart", "plain", "memory-to-memory, up, plain C"),
    ("verify-up", "proved", "block verify"),
    ("copy-loop", "proved", "a bare copy loop"),
]
BY_SERVICES = [
    ("single-write", "proved", "single write, rotating"),
    ("single-write", "plain", "single write, rotating, plain C"),
    ("block-16", "proved", "block write of 16 bytes"),
    ("block-16", "plain", "block write of 16 bytes, plain C"),
    ("block-256", "proved", "block write of 256 bytes"),
    ("block-256", "plain", "block write of 256 bytes, plain C"),
]


def number(value):
    return f"{value:,.3f}" if abs(value) < 10 else f"{value:,.0f}"


# ---- what was measured ----


class Measured:
    def __init__(self, repeats):
        self.works = bench.read_works()
        self.counts = bench.count(self.works) if bench.has_counter() else None
        self.times = bench.time(self.works, repeats)
        self.best = bench.bests(self.times)
        self.repeats = repeats

    def ratio(self, i):
        """How many times as long plain C takes, best against best."""
        return self.best[i, "plain"] / self.best[i, "proved"] if self.works[i].both() else None

    def middle_ratio(self, i):
        """The same as the median over the repeats, each a pair measured one behind the other."""
        pairs = zip(self.times[i, "plain"], self.times[i, "proved"])
        return statistics.median(plain / proved for plain, proved in pairs)

    def spread(self, i, side):
        """The median over the best: 1 where nothing disturbed."""
        return statistics.median(self.times[i, side]) / self.best[i, side]


def time_of(measured, i, side):
    """The best time of one unit; of a whole service where the count is beside its bytes."""
    work = measured.works[i]
    if work.unit.startswith("beside "):
        return measured.best[i, side] / work.k
    return bench.per_unit(measured.works, measured.best, i, side)


# ---- tables ----


def count_cells(measured, i):
    work = measured.works[i]
    if measured.counts is None:
        return ["", work.target.split()[0], "", ""]
    value, good = bench.per_unit(measured.works, measured.counts, i, "proved"), bench.met(measured.works, measured.counts, i)
    plain = number(bench.per_unit(measured.works, measured.counts, i, "plain")) if work.both() else ""
    return [number(value), work.target.split()[0], {None: "", True: "yes", False: "**no**"}[good], plain]


def time_cells(measured, i):
    proved = number(time_of(measured, i, "proved"))
    if not measured.works[i].both():
        return [proved, "", "", ""]
    return [proved, number(time_of(measured, i, "plain")), f"{measured.ratio(i):,.2f}", f"{measured.middle_ratio(i):,.2f}"]


def tables(measured):
    head = ["unit", "instructions", "at most", "met", "plain C", "ns", "plain C, ns", "times as fast", "median"]
    out, group = [], ""
    for i, work in enumerate(measured.works):
        if work.group != group:
            group = work.group
            out += ["", f"### {group}", "", "| work | " + " | ".join(head) + " |", "|---|---|" + "---:|" * (len(head) - 1)]
        unit = {"all": "in all"}.get(work.unit, work.unit.split()[0])
        unit = "service, beside its bytes" if unit == "beside" else unit
        out.append("| " + " | ".join([work.label.replace(", beside its bytes", ""), unit, *count_cells(measured, i), *time_cells(measured, i)]) + " |")
    return out


# ---- what it comes to ----


def missed(measured):
    if measured.counts is None:
        return ["Instructions were not counted: nothing on this machine counts them."]
    asked = [i for i in range(len(measured.works)) if bench.met(measured.works, measured.counts, i) is not None]
    over = [i for i in asked if not bench.met(measured.works, measured.counts, i)]
    out = [f"Of {len(asked)} targets in instructions {len(asked) - len(over)} are met."]
    if over:
        out += ["Missed:", ""]
    for i in over:
        count, target = bench.per_unit(measured.works, measured.counts, i, "proved"), measured.works[i].target.split()[0]
        value = number(count) if number(count) != target else f"{count:.2f}"
        out.append(f"- {measured.works[i].whole_label()}: {value}, asked for {target}")
    return out


def slower(measured):
    ratios = sorted((measured.ratio(i), i) for i, work in enumerate(measured.works) if work.both() and not work.key.endswith("nothing"))
    slow = [(ratio, i) for ratio, i in ratios if ratio < 1]
    out = [f"In time {len(ratios) - len(slow)} of {len(ratios)} works are as fast as plain C or faster; asked for: all of them."]
    if slow:
        out += ["Slower:", ""]
    return out + [f"- {measured.works[i].whole_label()}: {ratio:.2f} times as fast" for ratio, i in slow]


def long_blocks(measured):
    works = measured.works
    ratios = sorted((measured.ratio(i), i) for i, work in enumerate(works) if work.key in LONG)
    low = [(ratio, i) for ratio, i in ratios if ratio < 50]
    out = [f"Whole services that move 65,536 bytes are {ratios[0][0]:,.0f} to {ratios[-1][0]:,.0f} times as fast as plain C; asked for: at least 50 times."]
    if low:
        out += ["Below:", ""]
    return out + [f"- {works[i].whole_label()}: {ratio:.0f} times as fast" for ratio, i in low]


def against_copy(measured):
    works = measured.works
    loop, library = bench.index_of(works, "copy-loop"), bench.index_of(works, "memcpy")
    best = measured.best
    rows = []
    for key in ("write-up", "read-up", "demand-write-up", "copy-apart-whole", "write-down", "read-down"):
        i = bench.index_of(works, key)
        rows.append(f"| {works[i].whole_label()} | {best[i, 'proved'] / best[loop, 'proved']:.2f} | {best[i, 'proved'] / best[library, 'proved']:.2f} |")
    return ["| service | copy loops | memcpys |", "|---|---:|---:|", *rows]


# ---- charts ----


def cost_lines(curves, values, vary):
    """Each curve's work at each value: [(name, colour, dashed, [(value, cost)])]. A work has one colour, plain C is dashed."""
    works, keys, named = bench.read_works(), [], []
    for key, side, name in curves:
        if key not in keys:
            keys.append(key)
        work = works[bench.index_of(works, key)]
        top = 32768 if key == "copy-apart" else 65536
        named.append((name, keys.index(key), side, [(value, vary(work, value)) for value in values if value <= top]))
    flat = [work for _, _, _, points in named for _, work in points]
    costs = bench.count(flat) if bench.has_counter() else bench.bests(bench.time(flat, 5))
    out, at = [], 0
    for name, colour, side, points in named:
        out.append((name, colour, side == "plain", [(value, costs[at + j, side]) for j, (value, _) in enumerate(points)]))
        at += len(points)
    return out


def per_step(lines):
    return [(name, colour, dashed, [(x, y / x) for x, y in points]) for name, colour, dashed, points in lines]


def write_charts():
    unit = "instructions" if bench.has_counter() else "nanoseconds"
    lines = cost_lines(BY_LENGTH, LENGTHS, lambda work, value: work.at(length=value))
    whole = chart.Panel("A service, in all", "bytes of the service", unit, lines)
    each = chart.Panel("A byte of it", "bytes of the service", f"{unit} a byte", per_step(lines))
    write("docs/speed-length.svg", chart.drawn([whole, each]))
    lines = cost_lines(BY_SERVICES, SERVICES, lambda work, value: work.at(k=value))
    whole = chart.Panel("A round, in all", "services asked for, k", unit, lines)
    each = chart.Panel("A service of it", "services asked for, k", f"{unit} a service", per_step(lines))
    write("docs/speed-round.svg", chart.drawn([whole, each]))


# ---- the page ----


def write(name, words):
    with open(os.path.join(ROOT, name), "w", encoding="utf-8") as file:
        file.write(words)


def machine():
    if platform.machine() != "x86_64":
        return f"{platform.machine()}, {platform.system()}: the programs ran in an emulator, and their times are not those of an x86-64 processor"
    for row in open("/proc/cpuinfo", encoding="utf-8"):
        if row.startswith("model name"):
            return f"{row.split(':')[1].strip()}, {os.cpu_count()} processors, {platform.system()} {platform.machine()}"
    return platform.machine()


def where_timed():
    """A word before the times where they are an emulator's."""
    if platform.machine() == "x86_64":
        return []
    return ["The times of this page are an emulator's: they say how much work it had, not how fast a processor is.", ""]


def compiler():
    return open(os.path.join(ROOT, "target", "bench", "compiler"), encoding="utf-8").read().strip()


def counter():
    if not bench.has_counter():
        return "none: nothing on this machine counts them"
    if bench.counter() == "qemu":
        return "a plugin of QEMU's user emulator, bench/counter.c"
    return "callgrind of " + subprocess.run(["valgrind", "--version"], capture_output=True, text=True, check=True).stdout.strip()


def page(measured):
    remarks = open(os.path.join(bench.HERE, "remarks.md"), encoding="utf-8").read().strip()
    noise = max(measured.spread(i, side) for i, side in measured.times)
    return "\n".join([
        "# Speed",
        "",
        "Written by `bench/run`; the last part is `bench/remarks.md`.",
        "",
        f"- Date: {datetime.date.today().isoformat()}",
        f"- Machine: {machine()}",
        f"- Compiler of the C code, and of the proved code's machine code: the toolchain's own, {compiler()}, -O3, for x86-64",
        f"- Counter of instructions: {counter()}",
        f"- Times: {measured.repeats} repeats in one go, the works in turn; the best is shown. The most that a median lay above its best: {noise:.2f} times",
        "",
        "## What was reached",
        "",
        *missed(measured),
        "",
        *where_timed(),
        *slower(measured),
        "",
        *long_blocks(measured),
        "",
        "As many bare copies of 64 KiB are made in the time of one service:",
        "",
        *against_copy(measured),
        "",
        "## All works",
        "",
        "\"Times as fast\" is plain C's best time over the proved controller's; \"median\" is the median of that ratio over the repeats."
        " Where instructions are those beside the bytes, the times are of the whole service.",
        *tables(measured),
        "",
        "## Growth",
        "",
        "![cost against the length of a service](speed-length.svg)",
        "",
        "![cost against the services of a round](speed-round.svg)",
        "",
        remarks,
        "",
    ])


def main(repeats):
    measured = Measured(repeats)
    write_charts()
    words = page(measured)
    write("docs/SPEED.md", words)
    print(words)
    return 0


if __name__ == "__main__":
    sys.exit(main(int(sys.argv[1]) if len(sys.argv) > 1 else 15))
