"""Makes the traces of shards.sh and times `syncord shards` beside `replay` and a Rust program. Words: FOLDER PROGRAM."""
import sys

from timing import HEAD, row, side_by_side

CALLS = 65000


def head(workers):
    return "syncord-trace 1\n" + "".join(f"worker {w % 4} 0 0 0\n" for w in range(workers)) + "policy none - -\ncalls\n"


def own(calls):
    """Eight workers, each in a directory of its own: makes, finds, renames and drops in turn."""
    lines = []
    for n in range(calls):
        worker, turn = n % 8, n // 8
        name = f"n{turn // 4 * 40503 % 65536:05}"
        kind = ("make", "find", "rename", "drop")[turn % 4]
        there = f" {worker * 8} {name}x" if kind == "rename" else ""
        kept = turn % 16 == 15
        lines.append(f"{worker} {'find' if kept else kind} {worker * 8} {name}{'x' if kind == 'drop' else ''}{there if not kept else ''}\n")
    return head(8) + "".join(lines)


def over(calls):
    """Eight workers that make names and rename them from directory to directory."""
    lines = []
    for n in range(calls):
        worker, turn = n % 8, n // 8
        name = f"w{worker}n{turn // 4:05}"
        here = (worker * 8 + turn // 4) % 64
        steps = (f"make {here} {name}", f"rename {here} {name} {(here + 31) % 64} {name}",
                 f"find {(here + 31) % 64} {name}", f"rename {(here + 31) % 64} {name} {(here + 17) % 64} {name}")
        lines.append(f"{worker} {steps[turn % 4]}\n")
    return head(8) + "".join(lines)


def main(folder, program):
    print(HEAD)
    for what, trace in (("each its own directory", own), ("renames over two", over)):
        files = {}
        for calls in (CALLS // 10, CALLS):
            files[calls] = f"{folder}/{calls}.trace"
            with open(files[calls], "w") as out:
                out.write(trace(calls))
        ours, replay, rust, tenth = side_by_side(
            ([program, "shards"], files[CALLS]), ([program, "replay"], files[CALLS]), ([f"{folder}/rust"], files[CALLS]),
            ([program, "shards"], files[CALLS // 10]))
        row(f"{what}, replay", ours, replay)
        row(f"{what}, Mutex<BTreeMap>", ours, rust)
        row(f"{what}, a tenth of the calls", ours, tenth)


main(*sys.argv[1:])
