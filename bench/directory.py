"""Makes the traces of directory.sh, compares what the two programs write, and times them. Words: FOLDER PROGRAM PEER."""
import os
import random
import resource
import statistics
import subprocess
import sys
import time

from timing import median_and_worst

# A trace is run so often, or as often as it can be in so many seconds, but at least so often.
ROUNDS, SECONDS, AT_LEAST = 100, 20, 15
HEAD = "syncord-trace 1\nworker 0 0 0 0\npolicy none - -\ncalls\n"


def calls(kind, count):
    draw = random.Random(7)
    half = count // 2
    name = lambda n: f"f{n:06}"
    make = lambda n, d=5: f"0 make {d} {name(n)}"
    if kind == "rising":
        return [make(n) for n in range(count)]
    if kind == "falling":
        return [make(count - n) for n in range(count)]
    if kind == "random":
        order = list(range(count))
        draw.shuffle(order)
        return [make(n) for n in order]
    if kind == "middle":
        # from both ends to the middle in turn
        return [make(n // 2 if n % 2 else count - n // 2) for n in range(count)]
    if kind == "drops":
        order = list(range(half))
        draw.shuffle(order)
        return [make(n) for n in range(half)] + [f"0 drop 5 {name(n)}" for n in order]
    if kind == "renames":
        order = list(range(half))
        draw.shuffle(order)
        return [make(n) for n in range(half)] + [f"0 rename 5 {name(n)} 4 {name(n)}" for n in order]
    if kind == "counts":
        # a directory of one name behind a large one
        return [make(n) for n in range(half)] + ["0 make 63 last"] + ["0 count 63"] * (half - 1)
    if kind == "sizes":
        # a large directory, which is counted again and again
        return [make(n) for n in range(half)] + ["0 count 5"] * half
    if kind == "nexts":
        return [make(n) for n in range(half)] + [f"0 next 5 {name(draw.randrange(half))}" for _ in range(half)]
    if kind == "long-names":
        # sixteen MiB of names, which differ at their ends
        return [f"0 make 5 {'x' * 238}{n * 40503 % count:06}" for n in range(count)]
    raise ValueError(kind)


def used():
    children = resource.getrusage(resource.RUSAGE_CHILDREN)
    return children.ru_utime + children.ru_stime


def seconds(program, words, text):
    before = used()
    done = subprocess.run([program] + words, stdin=open(text, "rb"), stdout=subprocess.PIPE)
    return used() - before, done.stdout


def growths(took, which, counts):
    """By how many times the longer trace takes longer: the best of each length, and the median of each."""
    small, large = (took[which, count] for count in counts)
    return f"{min(large) / min(small):.1f} {statistics.median(large) / statistics.median(small):.1f}"


def main(folder, program, peer):
    kinds = ["rising", "falling", "random", "middle", "drops", "renames", "counts", "sizes", "nexts", "long-names"]
    counts = (8192, 65536)
    print("trace           calls   ours ms     worst   peer ms     worst   ratio   growth of the best, and of the median")
    for kind in kinds:
        texts = {}
        for count in counts:
            texts[count] = os.path.join(folder, f"{kind}-{count}")
            with open(texts[count], "w") as out:
                out.write(HEAD + "\n".join(calls(kind, count)) + "\n")
        # both programs and both lengths in turn, so that a machine that grows slower does so for all four
        took, wrote = {}, {}
        begun = time.monotonic()
        for turn in range(ROUNDS):
            if turn >= AT_LEAST and time.monotonic() - begun > SECONDS:
                break
            for count in counts:
                for which, words in ((program, ["replay"]), (peer, [])):
                    used, wrote[which, count] = seconds(which, words, texts[count])
                    took.setdefault((which, count), []).append(used * 1000)
        for count in counts:
            if wrote[program, count] != wrote[peer, count]:
                sys.exit(f"{kind}: the two programs write different bytes")
            ours, theirs = median_and_worst(took[program, count]), median_and_worst(took[peer, count])
            growth = ""
            if count == counts[1]:
                growth = f"   ours {growths(took, program, counts)}, peer {growths(took, peer, counts)}"
            print(f"{kind:14} {count:6} {ours[0]:9.1f} {ours[1]:9.1f} {theirs[0]:9.1f} {theirs[1]:9.1f} {ours[0] / max(theirs[0], 0.001):7.2f}{growth}", flush=True)
        for text in texts.values():
            os.remove(text)


main(*sys.argv[1:])
