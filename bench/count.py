"""Prints the instructions of each work beside its target and the plain model's, or beside what was saved earlier.

Called by bench/count as: count.py [KEY [SAVE [AGAINST]]]; each may be empty.
"""
import sys

import works as bench

# what may be worse than before
SLACK = 0.03


def refused(words):
    print(f"count: {words}", file=sys.stderr)
    return 2


def number(value):
    return f"{value:,.3f}" if value < 20 else f"{value:,.0f}"


def with_needed(works, chosen):
    """The chosen works and those whose cost is asked for beside theirs."""
    named = [words.split()[1] for i in chosen for words in (works[i].unit, works[i].target) if len(words.split()) == 2]
    return sorted({*chosen, *(bench.index_of(works, key) for key in named)})


def in_groups(works, chosen):
    """The chosen works, with the group's name before its first one."""
    group = ""
    for i in chosen:
        if works[i].group != group:
            group = works[i].group
            print(f"-- {group}")
        yield i


def print_targets(works, costs, chosen):
    print(f"{'work':58} {'proved':>10} {'target':>8}  {'':4} {'plain C':>10} {'plain/proved':>12}")
    missed = 0
    for i in in_groups(works, chosen):
        work, value, good = works[i], bench.per_unit(works, costs, i, "proved"), bench.met(works, costs, i)
        plain = bench.per_unit(works, costs, i, "plain") if work.both() else None
        missed += good is False
        sign = {None: "", True: "ok", False: "OVER"}[good]
        other = f"{number(plain):>10} {plain / value:>12.2f}" if plain is not None and value > 0 else ""
        print(f"{work.label:58} {number(value):>10} {work.target.split()[0]:>8}  {sign:4} {other}")
    print(f"{missed} targets missed")


def read_saved(name):
    """What was saved: {key: instructions}."""
    with open(name, encoding="utf-8") as file:
        rows = [line.split() for line in file if line.strip()]
    return {key: float(value) for key, value in rows}


def save(name, works, costs, chosen):
    with open(name, "w", encoding="utf-8") as file:
        for i in chosen:
            file.write(f"{works[i].key} {bench.per_unit(works, costs, i, 'proved'):.4f}\n")
    print(f"{len(chosen)} works saved")


def print_against(works, costs, chosen, saved):
    """Prints both and the ratio; gives the labels of those that are worse."""
    print(f"{'work':58} {'before':>10} {'now':>10} {'now/before':>11}")
    worse = []
    for i in in_groups(works, chosen):
        work, value = works[i], bench.per_unit(works, costs, i, "proved")
        if work.key not in saved:
            print(f"{work.label:58} {'-':>10} {number(value):>10}")
            continue
        ratio = value / saved[work.key]
        if ratio > 1 + SLACK:
            worse.append(f"{work.key} ({work.whole_label()}): {number(saved[work.key])} before, {number(value)} now")
        print(f"{work.label:58} {number(saved[work.key]):>10} {number(value):>10} {ratio:>11.3f}  {'WORSE' if ratio > 1 + SLACK else ''}".rstrip())
    print(f"works more than {SLACK:.0%} worse than before: {len(worse)}")
    for row in worse:
        print(f"- {row}")
    return worse


def main(key="", save_in="", against=""):
    works = bench.read_works()
    chosen = [i for i, work in enumerate(works) if key in work.key]
    if not chosen:
        return refused(f"no work of bench/works.txt has '{key}' in its key")
    try:
        saved = read_saved(against) if against else {}
    except OSError as problem:
        return refused(f"{against}: {problem.strerror}")
    except ValueError:
        return refused(f"{against} is not what --save writes")
    if not bench.has_counter():
        print("count: skipped, for nothing here counts instructions (bench/count --help tells what does)")
        return 1 if save_in or against else 0
    alone = bool(save_in or against)
    costs = bench.count(works, with_needed(works, chosen), ("proved",) if alone else bench.SIDES)
    worse = print_against(works, costs, chosen, saved) if against else []
    try:
        if save_in:
            save(save_in, works, costs, chosen)
    except OSError as problem:
        return refused(f"{save_in}: {problem.strerror}")
    if not alone:
        print_targets(works, costs, chosen)
    return 1 if worse else 0


if __name__ == "__main__":
    sys.exit(main(*sys.argv[1:4]))
