"""Replaces the policy of a hot lock under threads that wait for it: replace.py PROGRAM TIMES THREADS. Each time the version before is to
drain; at the end the counts are exact, each round was answered by one version, and no thread asks for a record that has ended (rounds.c)."""
import sys, time
from target import must, until, with_target

YES, NO = "b7000000010000009500000000000000", "b7000000000000009500000000000000"
program, times, threads = sys.argv[1], int(sys.argv[2]), int(sys.argv[3])
longest = [0.0]


def replace(target, k):
    line = f"shfl 1 attach 0 1 {YES if k % 2 else NO} -\n" if k % 10 else "shfl 1 detach 0\n"
    text = target.ask(line.encode())
    must(text == f"ok\nversion {k}\nend\n", f"policy {k}: {text}")


def draining(target):
    """Each version waits for the end of the one before."""
    for k in range(1, times + 1):
        replace(target, k)
        began = time.monotonic()
        until(lambda: target.counts(b"shfl 1 classes\n", "drained") == [1], f"version {k - 1} isn't drained")
        longest[0] = max(longest[0], time.monotonic() - began)


def at_once(target):
    """None waits."""
    before = target.in_use()
    for k in range(times + 1, 2 * times + 1):
        replace(target, k)
    until(lambda: target.counts(b"shfl 1 classes\n", "drained") == [1], "the last version isn't drained")
    target.leaks_nothing(before, f"{times} policies", 8192)


def asked(target):
    """Threads of a policy queue, so that each is asked."""
    replace(target, 2 * times + 1)
    before = target.counts(b"shfl 1 classes\n", "questions")[0]
    until(lambda: target.counts(b"shfl 1 classes\n", "questions")[0] > before, "nobody is asked")


def recorded(target):
    """The hot lock; a record that is forgotten, and one that nobody asks for."""
    for forgets in (True, False):
        record = target.begin_record()
        until(lambda: (it := target.events(record, 0)) and (it[0] or it[1] is None), "nothing is recorded")
        if forgets:
            target.ask(f"shfl 1 forget {record}\n".encode())
    until(lambda: time.sleep(3) or target.events(record, 0)[1] is None, "a record that nobody reads goes on")


holds, rounds, tell, yes, differ, changed = with_target(program, threads, (draining, at_once, asked, recorded))
must(changed == 0, f"{changed} threads ask for a record that has ended")
must(differ == 0, f"{differ} of {rounds} rounds were answered by two versions")
must(tell > 0 and 0 < yes < rounds, f"no round tells: {rounds} {tell} {yes}")
print(f"{2 * times} policies under {threads} threads, the last round of a version over after at most {longest[0]:.2f} s; {rounds} rounds, {tell} of "
      f"two answers or more, each of one version; an exact count of {holds} holds")
