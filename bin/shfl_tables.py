"""The tables of bin/shfl, at 80 columns, and what they say of waits."""
import os, sys

from shfl_places import shown


def time_of(ns):
    """Three digits and a unit: at most seven columns."""
    for unit, one in (("s", 1e9), ("ms", 1e6), ("us", 1e3)):
        if ns >= one:
            return f"{ns / one:.{2 if ns < 10 * one else 1 if ns < 100 * one else 0}f} {unit}"
    return f"{ns:.0f} ns"


def count_of(number):
    """A number in at most six columns."""
    for unit, one in (("G", 1e9), ("M", 1e6), ("k", 1e3)):
        if number >= 10 * one:
            return f"{number / one:.{1 if number < 100 * one else 0}f}{unit}"
    return str(number)


def mean_ns(it):
    """Of the calls that waited; a try that found the lock taken didn't."""
    waits = sum(it["waits"].values())
    return it["waited_ns"] / waits if waits else None


def share_ns(waits, share, longest=0):
    """So long that of 100 waits no fewer than the share were no longer: a power of two, or the longest."""
    all_of, seen = sum(waits.values()), 0
    for under, count in sorted(waits.items()):
        seen += count
        if 100 * seen >= share * all_of > 0:
            # (behind the last power of two stand all that are longer)
            last = under >= 1 << 40
            return longest if longest and (last or longest < under) else under
    return None


def p99_ns(it):
    return share_ns(it["waits"], 99, it["longest_ns"])


def told(ns):
    return time_of(ns) if ns is not None else "-"


def table(locks, places, most=20):
    rows = [f"{'lock':<20} {'class':>5} {'taken':>6} {'found':>6} {'mean':>7} {'p99':>7} {'longest':>7} {'within':>6} {'across':>6}"]
    for it in sorted(locks, key=lambda it: (-it["waited_ns"], -it["taken"]))[:most]:
        rows.append(f"{shown(it, places)[:20]:<20} {it['class']:>5} {count_of(it['taken']):>6} {count_of(it['contended']):>6} {told(mean_ns(it)):>7} "
                    f"{told(p99_ns(it)):>7} {told(it['longest_ns'] or None):>7} {count_of(it['within']):>6} {count_of(it['across']):>6}")
    if len(locks) > most:
        rows.append(f"and {len(locks) - most} more")
    return rows


def table_of_classes(classes):
    rows = [f"{'class':>5} {'locks':>6} {'policy':<14} {'taken':>6} {'mean':>7} {'p99':>7} {'within':>6} {'across':>6} {'asked':>6} {'yes':>6}"]
    for it in classes:
        policy = f"v{it['version']}" if it["policy"] else "-"
        policy += "" if it["drained"] else ", drains"
        rows.append(f"{it['class']:>5} {count_of(it['locks']):>6} {policy:<14} {count_of(it['taken']):>6} {told(mean_ns(it)):>7} {told(p99_ns(it)):>7} "
                    f"{count_of(it['within']):>6} {count_of(it['across']):>6} {count_of(it['questions']):>6} {count_of(it['yes']):>6}")
    return rows


def lines_of(pid, locks, classes, places):
    return table(locks, places) + [""] + table_of_classes(classes)


def is_coloured():
    return sys.stdout.isatty() and "NO_COLOR" not in os.environ and os.environ.get("TERM") != "dumb"


def bold(text):
    return f"\x1b[1m{text}\x1b[0m" if is_coloured() else text


def print_lines(lines, front=""):
    """The heads of tables stand out on a terminal."""
    print(front + "\n".join(bold(it) if it.startswith(("lock  ", "class ")) else it for it in lines), flush=True)
