"""Makes the traces of workers.sh, compares what the programs write, and times them. Words: FOLDER PROGRAM."""
import sys

from timing import HEAD, row, said, side_by_side


def head(workers):
    return "syncord-trace 1\n" + "".join(f"worker {w % 2} 0 0 0\n" for w in range(workers)) + "policy none - -\ncalls\n"


def main(folder, program):
    print(HEAD)
    for workers in (16, 4):
        words = ["7", str(workers), "65000"]
        ours, rust, c = side_by_side(([program, "bulk"] + words, None), ([f"{folder}/rust", "bulk"] + words, None), ([f"{folder}/c"] + words, None))
        for name, theirs in (("Mutex<BTreeMap>", rust), ("mutex, tsearch", c)):
            assert said(ours) == said(theirs), name
            row(f"bulk {' '.join(words)}, {name}", ours, theirs)
    long = f"{folder}/long.trace"
    with open(long, "w") as out:
        out.write(head(1) + "".join(f"0 make 5 {'x' * 236}{n * 40503 % 65536:06}\n" for n in range(65536)))
    ours, theirs = side_by_side(([program, "replay"], long), ([f"{folder}/serial"], long))
    assert said(ours) == said(theirs)
    row("65,536 long names, serial", ours, theirs)
    finds = f"{folder}/finds.trace"
    with open(finds, "w") as out:
        out.write(head(4) + "".join(f"0 make 5 f{n:05}\n" for n in range(500)))
        out.write("".join(f"{n % 4} find 5 f{n * 7 % 1000:05}\n" for n in range(65000)))
    ours, theirs = side_by_side(([program, "replay"], finds), ([f"{folder}/rust", "reads"], finds))
    row("65,000 finds, RwLock<BTreeMap>", ours, theirs)
    for workers in (4, 16):
        calls = f"{folder}/calls.trace"
        with open(calls, "w") as out:
            out.write(head(workers))
            out.write("".join(f"0 {('make', 'find', 'make', 'drop')[n % 4]} 5 n{n * 7 // 2 % 1000:04}\n" for n in range(4096)))
        ours, theirs = side_by_side(([program, "pool"], calls), ([f"{folder}/rust", "pool"], calls))
        row(f"4,096 calls, {workers} takers, two Mutexes", ours, theirs)


main(*sys.argv[1:])
