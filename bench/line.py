"""Makes the schedules of line.sh, compares what the two programs write, and times them. Words: ROOM PROGRAM EXAMPLES."""
import glob
import random
import subprocess
import sys

from timing import HEAD, row, said, side_by_side

EVENTS = 65536


def schedule(form, passes, events, policy="socket", limit=1024):
    sockets = [f"pass {socket} 0 0 0" for socket in passes]
    return "\n".join(["shfl-line 1", f"form {form}", f"limit {limit}", f"policy {policy}", *sockets, "events", *events]) + "\n"


def queue_of_63():
    """Pass 0 holds the lock, 1 is at the queue's head, takes 2 into its batch and makes it the shuffler; the others sleep."""
    events = ["write 0", "step 0"]
    for waiter in range(1, 64):
        events += [f"write {waiter}"] + [f"step {waiter}"] * (4 if waiter == 1 else 6)
    return events + ["step 1"] * 300


def filled(events, more):
    return events + [more] * (EVENTS - len(events))


def drawn(passes, seed, mode):
    draw = random.Random(seed)
    acts = ["write", "free"] + (["read"] if mode else []) + ["step"] * 12
    return [f"{draw.choice(acts)} {draw.randrange(passes)}" for _ in range(EVENTS)]


def schedules():
    two = [0, 0] + [0] + [1] * 61
    yield "64 passes, one walks along a queue", schedule("rw-park", two, filled(queue_of_63(), "step 2"))
    yield "the same, spinning", schedule("spin", two, filled(queue_of_63(), "step 2"))
    yield "one pass takes and frees the lock", schedule("spin", [0], ["write 0", "step 0", "free 0", "step 0"] * (EVENTS // 4))
    yield "64 passes, events refused", schedule("rw-park", two, filled(queue_of_63(), "step 0"))
    yield "one pass, events refused", schedule("spin", [0], ["free 0"] * EVENTS)
    for form in ("spin", "rw", "park", "rw-park"):
        sockets = [number % 4 for number in range(64)]
        yield f"64 passes, events drawn, {form}", schedule(form, sockets, drawn(64, 7, form.startswith("rw")))
    yield "8 passes, events drawn, rw-park", schedule("rw-park", [0, 1] * 4, drawn(8, 8, True))


def compare_examples(program, peer, examples):
    for document in sorted(glob.glob(f"{examples}/*.line")):
        done = [subprocess.run(words, stdin=open(document, "rb"), capture_output=True) for words in ([program, "line"], [peer])]
        same = done[0].returncode == done[1].returncode and done[0].stdout == done[1].stdout
        if done[1].returncode != 7 and not same:
            sys.exit(f"{document}: the two programs differ")


def main(room, program, examples):
    peer = f"{room}/peer"
    compare_examples(program, peer, examples)
    print(HEAD)
    for what, text in schedules():
        path = f"{room}/schedule"
        with open(path, "w") as document:
            document.write(text)
        ours, pieces, whole = side_by_side(([program, "line"], path), ([peer], path), ([peer, "whole"], path))
        if not said(ours) == said(pieces) == said(whole):
            sys.exit(f"{what}: the programs write different bytes")
        row(what, ours, pieces)
        row("    beside one that keeps it whole", ours, whole)


main(*sys.argv[1:])
