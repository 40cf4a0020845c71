"""The tables of waits.sh from its runs: waits.py RUNS."""
import collections
import statistics
import sys

OURS = ["spin", "rw", "park", "rwpark"]
HEADS = {
    "storms": "Threads that take the lock again and again",
    "readers": "The same with 80 of 100 holds for reading",
    "busy": "The same beside sixteen busy programs",
    "rattle": "Threads that take the lock in Rattle again and again",
    "rattle-readers": "The same with 80 of 100 holds for reading, the lock in Rattle",
    "rattle-busy": "The same beside sixteen busy programs, the lock in Rattle",
}
# a part's peer, a second one, and ours, where that isn't the mutex, the MCS lock and all forms
PEERS = {"rattle": ("mutex", None, OURS), "rattle-busy": ("mutex", None, OURS)}
PEERS["readers"] = PEERS["rattle-readers"] = ("rwlock", None, ["rw", "rwpark"])


# of 1,000 of the processors' time: where the host took so much, a run is one of fewer processors
CUT_SHORT = 20


def runs_of(path):
    """part -> row -> lock -> the numbers of each run"""
    parts = {}
    for line in open(path):
        part, row, lock, told = line.rstrip("\n").split("|")
        parts.setdefault(part, {}).setdefault(row, {}).setdefault(lock, []).append([float(x) for x in told.split()])
    return parts


def two(values, worst, digits=0):
    """median and worst"""
    return f"{statistics.median(values):,.{digits}f}, {worst(values):,.{digits}f}"


def span(ns):
    ns = int(ns)
    return "0" if ns == 0 else f"{ns / 1000:g} us"


def storm_table(rows, peer, other, ours):
    locks = [peer] + ([other] if other else []) + ours
    print(f"| Threads, hold, think | {' | '.join(locks)} | worst ours to worst {peer} |", "longest wait, ms: " + peer + " | ours |",
          "Jain: " + peer + " | ours |")
    print("|---" * (len(locks) + 6) + "|")
    for row, by_lock in rows.items():
        threads, hold, think = row.split()
        rates = {lock: [run[0] / 1000 for run in by_lock[lock]] for lock in locks}
        cells = [two(rates[lock], min) for lock in locks]
        ratio = min(min(rates[lock]) for lock in ours) / min(rates[peer])
        wait = {lock: [run[2] for run in by_lock[lock]] for lock in locks}
        jain = {lock: [run[1] for run in by_lock[lock]] for lock in locks}
        longest = max(ours, key=lambda lock: statistics.median(wait[lock]))
        uneven = min(ours, key=lambda lock: statistics.median(jain[lock]))
        print(f"| {threads}, {span(hold)}, {span(think)} | {' | '.join(cells)} | {ratio:.2f} | {two(wait[peer], max, 1)} |",
              f"{two(wait[longest], max, 1)} | {two(jain[peer], min, 3)} | {two(jain[uneven], min, 3)} |")


def of_rows(rows, peer, ours):
    """in how many rows the worst of our forms comes up to what was aimed at"""
    median = statistics.median

    def least(by_lock, pick, of):
        return min(of([run[pick] for run in by_lock[lock]]) for lock in ours)

    def longest(by_lock):
        return max(median([run[2] for run in by_lock[lock]]) for lock in ours)

    counts = []
    for of in (median, min):
        counts.append(sum(least(by, 0, of) >= 0.8 * of([run[0] for run in by[peer]]) for by in rows.values()))
    counts.append(sum(longest(by) <= 2 * median([run[2] for run in by[peer]]) for by in rows.values()))
    counts.append(sum(least(by, 1, median) >= 0.98 for by in rows.values()))
    counts.append(sum(least(by, 1, median) >= median([run[1] for run in by[peer]]) for by in rows.values()))
    each = [min(run[0] for run in by[lock]) >= 0.8 * min(run[0] for run in by[peer]) for by in rows.values() for lock in ours]
    print("\nOf {} rows, of the worst of our forms: at least 0.8 of the {}'s holds by the medians {}, by the worst runs {} ({} of {} where each form is taken by itself);".format(
        len(rows), peer, *counts[:2], sum(each), len(each)), "by the medians the longest wait at most twice its {}, Jain's index at least 0.98 {},".format(*counts[2:4]),
        "at least its {}".format(counts[4]))


def low_runs(rows, peer, ours):
    """which of our runs are under 0.8 of the peer's worst, and what the machine did meanwhile; then the worst runs without those that the host cut short"""
    low, left, runs_there = [], 0, 0
    for by in rows.values():
        worst = min(run[0] for run in by[peer])
        for lock in ours:
            used = statistics.median(run[4] for run in by[lock])
            low += [(number, run, used) for number, run in enumerate(by[lock], 1) if run[0] < 0.8 * worst]
            runs_there += len(by[lock])
        whole = {lock: [run[0] for run in by[lock] if run[-1] < CUT_SHORT] for lock in [peer] + ours}
        left += all(whole.values()) and min(min(whole[lock]) for lock in ours) >= 0.8 * min(whole[peer])
    numbers = collections.Counter(number for number, _, _ in low)
    print("\nOf our {:,} runs {} are under 0.8 of the worst of the {}, in the rounds {}. In {} of these the host took {} of 100 of the".format(
        runs_there, len(low), peer, ", ".join(f"{k} ({n})" for k, n in sorted(numbers.items())) or "none",
        sum(run[-1] >= CUT_SHORT for _, run, _ in low), CUT_SHORT // 10),
        "processors' time and more, {} used less than 0.8 of the processors of their lock's median.".format(sum(run[4] < 0.8 * used for _, run, used in low)),
        "Of all runs the host took as much in {}. Without such runs, ours and the peer's, {} of {} rows have 0.8 by the worst runs.".format(
            sum(run[-1] >= CUT_SHORT for by in rows.values() for lock in [peer] + ours for run in by[lock]), left, len(rows)))


def plain_table(rows, title, locks, digits, pick):
    print(f"| {title} | {' | '.join(locks)} |")
    print("|---" * (len(locks) + 1) + "|")
    for row, by_lock in rows.items():
        cells = [two([run[pick] for run in by_lock[lock]], max, digits) for lock in locks]
        print(f"| {row} | {' | '.join(cells)} |")


def policy_table(rows):
    print("| Threads, hold, think | none | moves nobody | of the medians |")
    print("|---|---|---|---|")
    for row, by_lock in rows.items():
        threads, hold, think = row.split()
        none, never = ([run[0] / 1000 for run in by_lock[which]] for which in ("none", "never"))
        ratio = statistics.median(never) / statistics.median(none)
        print(f"| {threads}, {span(hold)}, {span(think)} | {two(none, min)} | {two(never, min)} | {ratio:.2f} |")


def main():
    parts = runs_of(sys.argv[1])
    for part, head in HEADS.items():
        if part not in parts:
            continue
        rows = parts[part]
        fewest = min(len(runs) for by_lock in rows.values() for runs in by_lock.values())
        print(f"\n{head}: thousand holds a second, median and worst of {fewest} runs; of the waits and of Jain's index the worse form's.\n")
        peer, other, ours = PEERS.get(part, ("mutex", "mcs", OURS))
        storm_table(rows, peer, other, ours)
        of_rows(rows, peer, ours)
        low_runs(rows, peer, ours)
    if "handover" in parts:
        print("\nFrom an unlock to the next one's return from lock, by waiters and hold in us: microseconds, median and worst run of the medians.\n")
        plain_table(parts["handover"], "Waiters, hold", ["mutex", "mcs", "word"] + OURS, 2, 0)
    if "asleep" in parts:
        print("\nProcessor time of all threads in 2 s of holds of 100 ms, asleep, a policy by socket attached: milliseconds, median and worst.\n")
        plain_table(parts["asleep"], "Threads", ["mutex"] + OURS, 1, 0)
    if "rattle-asleep" in parts:
        print("\nProcessor time of 16 threads in 2 s of holds of 100 ms, asleep, with the lock in Rattle, by lock and policy: milliseconds, median and worst.\n")
        plain_table(parts["rattle-asleep"], "Lock, policy", ["time"], 1, 0)
    if "policy" in parts:
        print("\nEach queues at once: without a policy, and with one that moves nobody: thousand holds a second, median and worst.\n")
        policy_table(parts["policy"])


main()
