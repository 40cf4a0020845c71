"""A class without a policy and with it, in turns: what came of each, and whether a difference was seen."""
import json, math, re, signal, time

import shfl_help
from shfl_locks import less
from shfl_page import page
from shfl_picture import picture
from shfl_places import Places, shown
from shfl_policy import drained, policy_of, programs_of, with_line, words_of_policy
from shfl_process import Failed, ask, class_of, classes_of, locks_of, pid_of
from shfl_record import held, options, recorded, write_file
from shfl_tables import bold, count_of, mean_ns, share_ns, told

OFF = ("1", "-", "-")
# no difference is seen in what differs by less than this, nor in waits where a turn has fewer
LEAST, FEW = math.log(1.02), 100
MEASURES = (("throughput", "holds a second"), ("mean_ns", "mean wait"), ("p99_ns", "p99 of the waits"))


def counts_of(pid, to):
    for it in classes_of(pid):
        if it["class"] == int(to):
            return it
    raise Failed(1, f"class {to} has no locks")


def turned(pid, to, programs):
    """The class has these programs; its version."""
    version = int(ask(pid, "attach", to, *programs)[0].split()[1])
    drained(pid, to)
    return version


def turn(pid, to, word, programs, seconds):
    """What came in so many seconds, under the programs alone."""
    version = turned(pid, to, programs)
    before = counts_of(pid, to)
    time.sleep(seconds)
    after = counts_of(pid, to)
    if after["version"] != version:
        raise Interfered(f"somebody else gave class {to} a policy meanwhile")
    came = less(after, before)
    waits, took = came["waits"], max(1, after["now"] - before["now"]) / 1e9
    return {"policy": word, "seconds": took, "taken": came["taken"], "waits": sum(waits.values()), "throughput": came["taken"] / took,
            "mean_ns": mean_ns(came), "p99_ns": share_ns(waits, 99), "longest_ns": share_ns(waits, 100),
            "within": came["within"], "across": came["across"], "questions": came["questions"], "yes": came["yes"]}


class Interfered(Failed):
    def __init__(self, text):
        super().__init__(1, text)


def order_of(pid, to):
    """A picture of who holds the class's lock that was waited for longest; nothing where it is recorded already."""
    its = [it for it in locks_of(pid) if it["class"] == int(to)]
    if not its:
        return ""
    it = max(its, key=lambda it: (it["waited_ns"], it["taken"]))
    try:
        record = recorded(pid, it, shown(it, Places(pid)), 0.2, 20000)
    except Failed:
        return ""
    return picture(record, *held(record))


def turns(pid, to, programs, seconds, rounds, orders=None):
    """Off and on in turns, and behind each turn its order. At the end the class has what it had before, unless somebody else gave it
    another policy."""
    before = policy_of(pid, to)
    counts_of(pid, to)
    found = []

    def end(*_):
        raise KeyboardInterrupt

    # (the terminal may go; who is to outlive it lets the signal pass)
    usual = {it: signal.signal(it, end) for it in (signal.SIGTERM, signal.SIGHUP) if signal.getsignal(it) != signal.SIG_IGN}
    try:
        for word, these in (("off", OFF), ("on", programs)) * rounds:
            found.append(turn(pid, to, word, these, seconds))
            if orders is not None:
                orders[word] = order_of(pid, to)
    except Interfered:
        before = None
        raise
    except KeyboardInterrupt:
        raise Failed(1, f"broken off; class {to} has the policy that it had before, if it had one") from None
    finally:
        if before:
            turned(pid, to, before)
        for it, what in usual.items():
            signal.signal(it, what)
    return found, before


def ranges(found, name):
    """The least and the largest without the policy, and with it; none where a turn has nothing to judge by."""
    sides = [[it[name] for it in found if it["policy"] == word] for word in ("off", "on")]
    judged = name == "throughput" or all(it["waits"] >= FEW for it in found)
    return [(min(it), max(it)) for it in sides] if judged and all(value is not None for it in sides for value in it) else None


def verdict_of(found, name):
    """More, less or none. The ranges stand apart only where the gap is wider than both together, by ratios: two turns that happen to differ
    from two others aren't a difference."""
    both = ranges(found, name)
    if not both:
        return "too few waits"
    off, on = ([math.log(max(1, it)) for it in side] for side in both)
    spread = (off[1] - off[0]) + (on[1] - on[0])
    if name == "p99_ns":
        # (a power of two stands for all from the one before it)
        off, on, spread = (off[0] - math.log(2), off[1]), (on[0] - math.log(2), on[1]), 0
    if max(on[0] - off[1], off[0] - on[1]) <= max(spread, LEAST):
        return "no difference seen"
    return "more with the policy" if on[0] > off[1] else "less with the policy"


def verdicts(found):
    return {name: verdict_of(found, name) for name, _ in MEASURES}


def whole_verdict(said):
    seen = [f"{what}: {said[name]}" for name, what in MEASURES if said[name].endswith("policy")]
    return "; ".join(seen) if seen else "no difference seen"


def range_of(name, span):
    low, high = (count_of(round(it)) if name == "throughput" else told(it) for it in span)
    return low if low == high else f"{low} to {high}"


def lines_of(found, said):
    rows = [f"{'':>3} {'policy':<6} {'holds/s':>8} {'waits':>7} {'mean':>8} {'p99':>8} {'longest':>8} {'across':>7} {'asked':>7} {'yes':>7}"]
    for k, it in enumerate(found, 1):
        rows.append(f"{k:>3} {it['policy']:<6} {count_of(round(it['throughput'])):>8} {count_of(it['waits']):>7} {told(it['mean_ns']):>8} {told(it['p99_ns']):>8} "
                    f"{told(it['longest_ns']):>8} {count_of(it['across']):>7} {count_of(it['questions']):>7} {count_of(it['yes']):>7}")
    rows += ["", f"{'':<16} {'off':<19} on"]
    for name, what in MEASURES:
        both = ranges(found, name)
        off, on = (range_of(name, it) for it in both) if both else ("-", "-")
        rows.append(f"{what:<16} {off:<19} {on:<19} {said[name]}")
    return rows


def do_compare(words):
    usage = shfl_help.usage("compare")
    as_json = "--json" in words
    words, hook, profile = words_of_policy([it for it in words if it != "--json"], usage, anywhere=True)
    words, values = options(words, ("--seconds", "--rounds", "--html"))
    seconds, rounds = values.get("--seconds", "5"), values.get("--rounds", "2")
    well = len(words) == 3 and re.fullmatch(r"[0-9]{1,4}(\.[0-9]{1,3})?", seconds) and re.fullmatch(r"[0-9]{1,3}", rounds)
    if not well or not float(seconds) > 0 or int(rounds) < 2:
        raise Failed(2, usage + "; two rounds at least")
    pid, to = pid_of(words[0]), class_of(words[1])
    orders = {} if "--html" in values else None
    with with_line(words[2]):
        found, before = turns(pid, to, programs_of(words[2], hook, profile), float(seconds), int(rounds), orders)
    said = verdicts(found)
    told_all = {"pid": pid, "class": int(to), "file": words[2], "turns": found, "verdicts": said, "verdict": whole_verdict(said)}
    if "--html" in values:
        write_file(values["--html"], page(told_all, orders))
    if as_json:
        return print(json.dumps(told_all, indent=1))
    print("\n".join(lines_of(found, said)))
    print(bold(whole_verdict(said)))
    print(f"class {to} has {'the policy it had before' if before[1:] != OFF[1:] else 'no policy, as before'}")
