"""Which locks of a process are meant, and what came to them."""
from shfl_places import Places, named, shown
from shfl_process import Failed, ask, locks_of


def is_meant(selector, it, places):
    if selector in ("all", f"{it['address']:#x}"):
        return True
    file, where, caller, _ = named(it, places)
    return selector in (file, where) or (caller is not None and selector in (f"by {caller[1]}", "by " + caller[1].split("+0x")[0]))


def meant(pid, selector):
    places = Places(pid)
    return [it for it in locks_of(pid) if is_meant(selector, it, places)]


def none_meant(pid, selector):
    """What is said where no lock is meant. (A lock of pthread's is shown some bytes behind its symbol.)"""
    places = Places(pid)
    near = sorted({shown(it, places) for it in locks_of(pid)} & {f"{selector}+{it:#x}" for it in range(256)})
    return f"no lock in use is {selector}" + (f"; in use is {', '.join(near)}" if near else "")


def one_meant(pid, selector):
    """The one lock that is meant; of several the one that was waited for longest."""
    found = sorted(meant(pid, selector), key=lambda it: (-it["waited_ns"], -it["taken"]))
    if not found:
        raise Failed(1, none_meant(pid, selector))
    return found[0]


def put(pid, selector, to):
    """How many locks are in the class now; one that the program has destroyed meanwhile isn't."""
    count = 0
    for it in meant(pid, selector):
        try:
            ask(pid, "class", str(it["number"]), f"{it['address']:x}", to)
            count += 1
        except Failed as failed:
            if ": error 2 " not in str(failed):
                raise
    return count


def since(now, before, key):
    """What came between: the longest wait stays as it is."""
    known = {tuple(it[k] for k in key): it for it in before}
    return [less(it, known.get(tuple(it[k] for k in key), {})) for it in now]


def less(it, old):
    """(A class has less where locks were put elsewhere.)"""
    found = {}
    for name, value in it.items():
        if name == "waits":
            before = old.get("waits", {})
            found[name] = {under: max(0, count - before.get(under, 0)) for under, count in value.items()}
        elif name in ("taken", "contended", "queued", "waited_ns", "within", "across", "questions", "yes", "skipped"):
            found[name] = max(0, value - old.get(name, 0))
        else:
            found[name] = value
    return found
