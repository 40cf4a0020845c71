"""Makes the texts of assembly.sh, compares what the two programs write, and times them. Words: PROGRAM PEER."""
import random
import sys
import tempfile

from chosen_names import chosen
from timing import HEAD, row, said, side_by_side

LETTERS = "abcdefghijklmnopqrstuvwxyz0123456789_"


def short(n):
    word = ""
    while True:
        word = LETTERS[n % 37] + word
        n //= 37
        if n == 0:
            return word


def texts():
    draw = random.Random(7)
    yield "4 MiB, 466,000 names in order", [f"n{n:06}" for n in range(466000)]
    mixed = [f"n{n:06}" for n in range(466000)]
    draw.shuffle(mixed)
    yield "4 MiB, the same out of order", mixed
    yield "4 MiB, in order of numbers", [f"n{n}" for n in range(466000)]
    every = [short(n) for n in range(2670000)]
    yield "16 MiB, 2,670,000 names", every
    every = list(every)
    draw.shuffle(every)
    yield "16 MiB, the same out of order", every
    alike = ["x" * 27 + f"{n:05}" for n in range(100000)] + ["y" * 26 + f"{n:06}" for n in range(390000)]
    draw.shuffle(alike)
    yield "16 MiB, names that differ at their ends", alike
    yield "16 MiB, names chosen to share a number", chosen(490000)


def main(program, peer):
    print(HEAD)
    for what, names in texts():
        with tempfile.NamedTemporaryFile("w") as text:
            text.write("".join(f":{name}\n" for name in names) + "mov64 r0 0\nexit\n")
            text.flush()
            ours, theirs = side_by_side(([program, "asm"], text.name), ([peer], text.name), times=7)
        if said(ours) != said(theirs):
            sys.exit(f"{what}: the two programs write different bytes")
        row(what, ours, theirs)


main(*sys.argv[1:])
