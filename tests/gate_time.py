"""What tests/gate-time.sh does: watches the processes of a run of rt, and adds up what each crate took."""
import collections, glob, os, re, shutil, subprocess, sys, tempfile, time

TOP = sys.argv[1]
TICK = os.sysconf("SC_CLK_TCK")
KINDS = ("proofs", "tests", "edits", "rest")
# The wrong bodies that are told one by one, the dearest first.
MOST_BODIES = 40


def processes():
    """Each process: its parent, when it was started, and the processor time that it and the children that it has waited for took, in ticks."""
    found = {}
    for pid in filter(str.isdigit, os.listdir("/proc")):
        try:
            with open(f"/proc/{pid}/stat", encoding="utf-8", errors="replace") as file:
                fields = file.read().rpartition(")")[2].split()
            found[int(pid)] = (int(fields[1]), int(fields[19]), sum(map(int, fields[11:15])))
        except (OSError, IndexError, ValueError):
            # (it has ended meanwhile)
            pass
    return found


def what_for(pid):
    """The kind and the crate of a prover's process, or None."""
    try:
        with open(f"/proc/{pid}/cmdline", "rb") as file:
            words = file.read().decode(errors="replace").split("\0")
        at = os.readlink(f"/proc/{pid}/cwd")
    except OSError:
        return None
    if "--crate-name" not in words:
        return None
    name = words[words.index("--crate-name") + 1]
    if "/rt-edit" in at:
        return "edits", name
    return "tests" if "--test" in words else "proofs", name


def body_in(name, room):
    """Which of the crate's wrong bodies stands in this copy of it, or None: rt checks a copy as it is too, before the wrong bodies and after them."""

    def text_of(path):
        with open(path, encoding="utf-8", errors="replace") as file:
            return file.read()

    for edit in sorted(glob.glob(f"{TOP}/crates/{name}/must-fail/*.edit")):
        try:
            words = [line.partition(": ")[::2] for line in text_of(edit).split("\n")]
            file = next(text for word, text in words if word == "file")
            text = text_of(f"{TOP}/crates/{name}/{file}")
            olds, news = ([text for word, text in words if word.rstrip(":") == it] for it in ("old", "new"))
            for old, new in zip(olds, news):
                text = text.replace(old, new, 1)
            if text == text_of(f"{room}/{file}"):
                return os.path.basename(edit).removesuffix(".edit")
        except (OSError, StopIteration):
            # (the copy is gone, or no file is named)
            pass
    return None


def body_of(pid, name):
    try:
        return body_in(name, os.readlink(f"/proc/{pid}/cwd")) or "(as it stands)"
    except OSError:
        return "(gone)"


def watch(root):
    """Seconds by kind and crate, and by crate and wrong body, of all that runs below the process `root`, until it ends. What a prover starts
    counts as the prover's. A number of a process is given again after some ten thousand, so a process is told by its start too."""
    kinds, bodies, took, whole = {}, {}, collections.Counter(), 0
    while True:
        now = processes()
        if root not in now:
            break
        children = collections.defaultdict(list)
        for pid, it in now.items():
            children[it[0]].append(pid)

        def ticks(pid):
            return now[pid][2] + sum(map(ticks, children[pid]))

        whole, left = ticks(root), [root]
        while left:
            pid = left.pop()
            who = pid, now[pid][1]
            kinds[who] = kinds.get(who) or what_for(pid)
            if kinds[who] and kinds[who][0] == "edits" and who not in bodies:
                bodies[who] = body_of(pid, kinds[who][1])
            if kinds[who]:
                took[who] = max(took[who], ticks(pid))
            else:
                left += children[pid]
        time.sleep(0.1)
    sums = collections.Counter()
    for who, most in took.items():
        sums[kinds[who]] += most / TICK
    sums["rest", "the rest"] = whole / TICK - sum(sums.values())
    each = collections.Counter()
    for who, body in bodies.items():
        each[kinds[who][1], body] += took[who] / TICK
    return sums, each


def table(sums):
    names = sorted({name for _, name in sums}, key=lambda it: -sum(sums[kind, it] for kind in KINDS))
    rows = [[name, *(sums[kind, name] for kind in KINDS[:3]), sum(sums[kind, name] for kind in KINDS)] for name in names]
    rows.append(["all", *(sum(row[at] for row in rows) for at in range(1, 5))])
    lines = ["| Crate | proof | tests | wrong bodies | all |", "|---|---|---|---|---|"]
    lines += ["| {} | {} |".format(row[0], " | ".join(f"{it:.0f}" if it else "-" for it in row[1:])) for row in rows]
    return "\n".join(lines), {row[0]: row[4] for row in rows}


def gate():
    """The words that run the gate from nothing: a kit that keeps what it proved has a word for leaving that aside, others begin anew always."""
    told = subprocess.run(["rt", "help"], stdin=subprocess.DEVNULL, capture_output=True, text=True, errors="replace")
    return ["rt", "ci", "--anew"] if "--anew" in told.stdout + told.stderr else ["rt", "ci"]


def budget():
    """What docs/CHANGING.md has written down: the seconds of each crate."""
    with open(f"{TOP}/docs/CHANGING.md", encoding="utf-8") as file:
        rows = re.findall(r"^\| (\w+) \|(?: [\d-]+ \|){3} (\d+) \|$", file.read(), re.M)
    return {name: int(seconds) for name, seconds in rows}


def main():
    words, begun = sys.argv[2:], time.monotonic()
    if words and words[0].isdigit():
        (sums, each), status = watch(int(words[0])), 0
    else:
        with tempfile.TemporaryDirectory(prefix="gate-time-") as room:
            os.makedirs(f"{room}/.git")
            for name in ("crates.txt", "HANDLES"):
                shutil.copyfile(f"{TOP}/{name}", f"{room}/{name}")
            shutil.copytree(f"{TOP}/crates", f"{room}/crates", ignore=shutil.ignore_patterns("out", "more-edits"))
            with open(f"{room}/.git/log", "wb") as out:
                run = subprocess.Popen(gate(), cwd=room, stdin=subprocess.DEVNULL, stdout=out, stderr=subprocess.STDOUT)
            sums, each = watch_child(run)
            status = run.returncode
            if status:
                with open(f"{room}/.git/log", encoding="utf-8", errors="replace") as file:
                    sys.stderr.write("".join(file.readlines()[-20:]))
    text, took = table(sums)
    print(text)
    hours, minutes = sum(sums.values()) / 3600, (time.monotonic() - begun) / 60
    print(f"\n{hours:.2f} hours of processor time in {minutes:.0f} minutes, on {len(os.sched_getaffinity(0))} processors")
    print(f"\nThe {MOST_BODIES} dearest checks of wrong bodies, in seconds:")
    for (name, body), seconds in each.most_common(MOST_BODIES):
        print(f"{seconds:6.0f}  {name}/{body}")
    over = [(it, took[it], most) for it, most in budget().items() if took.get(it, 0) > 1.2 * most + 10]
    for name, seconds, most in over:
        print(f"tests/gate-time.sh: {name} took {seconds:.0f} s, and docs/CHANGING.md has {most}", file=sys.stderr)
    sys.exit(1 if status or over else 0)


def watch_child(run):
    """The same for a child of this process, which stays as a zombie until it is waited for."""
    import threading

    done = threading.Thread(target=run.wait)
    done.start()
    found = watch(run.pid)
    done.join()
    return found


main()
