"""Names of 32 letters that somebody chose: all of them have one number in `bpf_asm`'s order of names, so that only their bytes
tell them apart. The number is a polynomial of the bytes modulo 2^64; short vectors of the lattice of its zeros, found by lattice
reduction in steps of eight bits, lead from one such name to others."""
import random

LENGTH = 32
FACTOR = 0x100000001B3
POWERS = [pow(FACTOR, LENGTH - 1 - place, 1 << 64) for place in range(LENGTH)]


def value(vector):
    return sum(part * power for part, power in zip(vector, POWERS))


def orthogonal(basis):
    """The Gram-Schmidt coefficients of a basis, and the squared lengths."""
    size = len(basis)
    parts, along, lengths = [], [[0.0] * size for _ in range(size)], []
    for i in range(size):
        vector = [float(x) for x in basis[i]]
        for j in range(i):
            along[i][j] = sum(x * y for x, y in zip(basis[i], parts[j])) / lengths[j]
            vector = [x - along[i][j] * y for x, y in zip(vector, parts[j])]
        parts.append(vector)
        lengths.append(sum(x * x for x in vector))
    return along, lengths


def reduced(basis):
    """Lenstra, Lenstra and Lovász, 1982."""
    at = 1
    along, lengths = orthogonal(basis)
    while at < len(basis):
        for j in range(at - 1, -1, -1):
            times = round(along[at][j])
            if times:
                basis[at] = [x - times * y for x, y in zip(basis[at], basis[j])]
                for k in range(j):
                    along[at][k] -= times * along[j][k]
                along[at][j] -= times
        if lengths[at] >= (0.75 - along[at][at - 1] ** 2) * lengths[at - 1]:
            at += 1
        else:
            basis[at], basis[at - 1] = basis[at - 1], basis[at]
            along, lengths = orthogonal(basis)
            at = max(at - 1, 1)
    return basis


def zeros():
    """Short vectors whose value is 0 modulo 2^64."""
    basis = [[int(i == j) for j in range(LENGTH)] for i in range(LENGTH)]
    for bits in range(0, 64, 8):
        rests = [(value(vector) >> bits) % 256 for vector in basis]
        # some rest is odd, since not all vectors have values that are even beyond these bits
        odd = next(i for i, rest in enumerate(rests) if rest % 2)
        times = [-rest * pow(rests[odd], -1, 256) % 256 for rest in rests]
        basis = reduced([[256 * x for x in vector] if i == odd else [x + times[i] * y for x, y in zip(vector, basis[odd])]
                         for i, vector in enumerate(basis)])
    assert all(value(vector) % (1 << 64) == 0 for vector in basis)
    return basis


def chosen(count):
    """So many such names, in no order."""
    draw = random.Random(3)
    steps = [[sign * x for x in vector] for vector in zeros() for sign in (1, -1)]
    name, names = [ord("m")] * LENGTH, set()
    while len(names) < count:
        step = [x + y for x, y in zip(name, draw.choice(steps))]
        if all(ord("a") <= x <= ord("z") for x in step):
            name = step
            names.add(bytes(name).decode())
    names = sorted(names)
    draw.shuffle(names)
    return names
