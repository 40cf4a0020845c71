"""The tables and the chart of effect.sh from its runs: effect.py ROOM [CHART]."""
import os
import statistics
import sys

POLICIES = ["socket", "priority", "urgent", "class"]
COLUMNS = ["tries", "queue"] + POLICIES
RATE, CHANGES, JAIN, PASSED, PASSED_MOST = range(5)
# where the mean, the late and the longest wait of each part of the threads stand
ALL, HIGH, LOW, CLASS_0, CLASS_1 = range(5, 20, 3)
# rates that differ by less count as the same
SAME = 1.05


def runs_of(path):
    """section -> row -> (limit, policy) -> the numbers of each run"""
    sections = {}
    for line in open(path) if os.path.exists(path) else []:
        section, row, limit, policy, told = line.rstrip("\n").split("|")
        setups = sections.setdefault(section, {}).setdefault(row, {})
        setups.setdefault((limit, policy), []).append([float(x) for x in told.split()])
    return sections


def model_of(path):
    """row -> (limit, policy) -> gains and how many of 1,000 followed one of another socket"""
    rows = {}
    for line in open(path) if os.path.exists(path) else []:
        row, limit, policy, told = line.rstrip("\n").split("|")
        gained, same = map(int, told.split())
        rows.setdefault(row, {})[limit, policy] = gained, 1000 * (gained - same) / max(gained, 1)
    return rows


def of(setups, limit, policy, which):
    """the median over the runs"""
    runs = setups.get((limit if policy in POLICIES else "-", policy), [])
    return statistics.median(run[which] for run in runs) if runs else float("nan")


def worst(setups, limit, policy, which):
    return max(run[which] for run in setups[(limit if policy in POLICIES else "-", policy)])


def limits_of(setups):
    return sorted({limit for limit, _ in setups if limit != "-"}, key=int)


def name_of(row):
    sockets, threads, hold = row.split()
    return f"{sockets}, {threads}, {int(hold) / 1000:g} us"


def head(cells):
    print("| " + " | ".join(cells) + " |")
    print("|---" * len(cells) + "|")


def line(cells):
    print("| " + " | ".join(cells) + " |")


def throughput(rows, limit):
    head(["Sockets, threads, hold"] + COLUMNS)
    for row, setups in rows.items():
        cells = [f"{of(setups, limit, it, RATE) / 1000:,.1f}; {of(setups, limit, it, CHANGES):.0f}" for it in COLUMNS]
        line([name_of(row)] + cells)


def limits(rows):
    head(["Sockets, threads, hold", "policy", "limit", "thousand holds a second", "changes", "Jain", "passed", "wait: mean", "late", "longest"])
    for row, setups in rows.items():
        if row.split()[1:] != ["16", "1000"]:
            continue
        for policy in POLICIES:
            for limit in limits_of(setups):
                told = [of(setups, limit, policy, which) for which in (CHANGES, JAIN, PASSED, ALL, ALL + 1)]
                line([name_of(row), policy, limit, f"{of(setups, limit, policy, RATE) / 1000:,.1f}", f"{told[0]:.0f}", f"{told[1]:.3f}",
                      f"{told[2]:.1f}", f"{told[3]:,.0f}", f"{told[4]:,.0f}", f"{worst(setups, limit, policy, ALL + 2):,.0f}"])


def classes(rows, limit):
    head(["Sockets, threads, hold", "part"] + COLUMNS)
    for row, setups in rows.items():
        if row.split()[2] != "1000" and row.split()[2] != "10000":
            continue
        for part, at in (("priority 1", HIGH), ("priority 0", LOW), ("class 0", CLASS_0), ("class 1", CLASS_1)):
            cells = ["; ".join(f"{of(setups, limit, it, at + k):,.0f}" for k in range(3)) for it in COLUMNS]
            line([name_of(row), part] + cells)


def shows(rows, limit):
    """what was to be shown, of each row that shows it"""
    head(["Sockets, threads, hold", "by socket: changes in 20", "its rate to the queue's", "priority 1 by `urgent`: late wait to the queue's",
          "limit 1: of 1,000 passed, the queue; by socket"])
    for row, setups in rows.items():
        if row.split()[1:] != ["16", "1000"]:
            continue
        line([name_of(row), f"{of(setups, limit, 'socket', CHANGES) / 50:.2f}",
              f"{of(setups, limit, 'socket', RATE) / of(setups, limit, 'queue', RATE):.2f}",
              f"{of(setups, limit, 'urgent', HIGH + 1) / of(setups, limit, 'queue', HIGH + 1):.2f}",
              f"{of(setups, '1', 'queue', PASSED):.1f}; {of(setups, '1', 'socket', PASSED):.1f}"])


def order(a, b):
    """1, -1, or 0 where two rates are about the same"""
    return 0 if max(a, b) <= SAME * min(a, b) else 1 if a > b else -1


def ranks(rows, model):
    """of the pairs of policies of each setup, in how many the model tells the same order as the threads"""
    head(["Sockets, threads, hold", "same order", "opposite", "one tells none", "changes by socket: threads, model"])
    names = ["queue"] + POLICIES
    total = [0, 0, 0]
    for row, setups in rows.items():
        found = [0, 0, 0]
        for limit in limits_of(setups):
            rates = [of(setups, limit, it, RATE) for it in names]
            gains = [model.get(row, {}).get((limit, it), (0, 0))[0] for it in names]
            for a in range(len(names)):
                for b in range(a):
                    product = order(rates[a], rates[b]) * order(gains[a], gains[b])
                    found[0 if product > 0 else 1 if product < 0 else 2] += 1
        total = [x + y for x, y in zip(total, found)]
        limit = limits_of(setups)[-1]
        far = model.get(row, {}).get((limit, "socket"), (0, float("nan")))[1]
        line([name_of(row)] + [str(it) for it in found] + [f"{of(setups, limit, 'socket', CHANGES):.0f}; {far:.0f}"])
    line(["all"] + [str(it) for it in total] + [""])


def chart(rows, limit, path):
    """for each number of threads, on two sockets or the fewest there are: the rate to the queue's, and the changes, over the holds"""
    colours = dict(zip(COLUMNS, ["#888888", "#000000", "#1b6ca8", "#c4501b", "#7a3b9a", "#2f8f4e"]))
    fewest = min(rows, key=lambda row: int(row.split()[0])).split()[0]
    counts = sorted({int(row.split()[1]) for row in rows if row.split()[0] == fewest})
    holds = sorted({int(row.split()[2]) for row in rows if row.split()[0] == fewest})
    wide, high, gap = 240, 170, 60
    parts = [f'<svg xmlns="http://www.w3.org/2000/svg" width="{len(counts) * (wide + gap) + gap}" height="{2 * (high + gap) + 60}" '
             'font-family="sans-serif" font-size="11"><rect width="100%" height="100%" fill="white"/>']
    for column, threads in enumerate(counts):
        for part, (title, top) in enumerate((("rate to the queue's", 3.0), ("socket changes of 1,000", 1000.0))):
            left, bottom = gap + column * (wide + gap), gap + part * (high + gap) + high
            parts.append(f'<text x="{left}" y="{bottom - high - 8}">{threads} threads, {fewest} sockets: {title}</text>')
            parts.append(f'<path d="M{left} {bottom - high}V{bottom}H{left + wide}" fill="none" stroke="#444"/>')
            for k in range(3):
                y = bottom - high * k / 2
                parts.append(f'<text x="{left - 6}" y="{y + 4:.0f}" text-anchor="end">{top * k / 2:g}</text>')
            places = [left + wide * (k + 0.5) / len(holds) for k in range(len(holds))]
            for x, hold in zip(places, holds):
                parts.append(f'<text x="{x:.0f}" y="{bottom + 14}" text-anchor="middle">{hold / 1000:g} us</text>')
            for policy in COLUMNS:
                points = []
                for x, hold in zip(places, holds):
                    setups = rows[f"{fewest} {threads} {hold}"]
                    value = of(setups, limit, policy, RATE) / of(setups, limit, "queue", RATE) if part == 0 else of(setups, limit, policy, CHANGES)
                    points.append(f"{x:.0f},{bottom - high * min(value / top, 1):.1f}")
                parts.append(f'<polyline points="{" ".join(points)}" fill="none" stroke="{colours[policy]}" stroke-width="2"/>')
    for k, policy in enumerate(COLUMNS):
        x, y = gap + 110 * k, 2 * (high + gap) + 40
        parts.append(f'<path d="M{x} {y - 4}h20" stroke="{colours[policy]}" stroke-width="2"/><text x="{x + 26}" y="{y}">{policy}</text>')
    with open(path, "w") as file:
        file.write("\n".join(parts + ["</svg>", ""]))


SECTIONS = {
    "cost": "A section costs a microsecond more where the last holder was of another socket",
    "lines": "A section writes to sixteen shared cache lines, and the threads of a socket keep to its processors",
}


def main():
    room = sys.argv[1]
    sections, model = runs_of(f"{room}/runs"), model_of(f"{room}/model")
    for section, said in SECTIONS.items():
        rows = sections.get(section)
        if not rows:
            continue
        fewest = min(len(runs) for setups in rows.values() for runs in setups.values())
        limit = max((it for setups in rows.values() for it in limits_of(setups)), key=int)
        print(f"\n{said}. Medians of {fewest} runs, the longest waits the worst.\n")
        print(f"Thousand holds a second; socket changes in 1,000 holds; policies with the limit {limit}.\n")
        throughput(rows, limit)
        print("\nLimits; waits in microseconds, late is the one at 99 of a hundred; passed is how many of 1,000 were passed by a later one.\n")
        limits(rows)
        print(f"\nWaits by part of the threads, in microseconds: mean; late; longest. The limit is {limit}.\n")
        classes(rows, limit)
        print()
        shows(rows, limit)
        if section == "cost" and model:
            print("\nPairs of policies, the queue without one among them, each limit for itself: in which order the threads and the model have them.\n")
            ranks(rows, model)
        if section == "cost" and len(sys.argv) > 2:
            chart(rows, limit, sys.argv[2])


main()
