"""How the benches time programs beside each other: in turn, so that what else the machine does falls on all; wall and processor seconds, of
which the median and the worst run are told, and the most memory. Of what a program writes a sum is kept, since a child is counted with the
memory that this process has when it starts it."""
import hashlib
import os
import statistics
import subprocess
import time

TIMES = 15
HEAD = f"{'the median and the worst run of each':<40}" + "".join(
    f" {what:>8} {'worst':>8} {'peer':>8} {'worst':>8} {'ratio':>6}  " for what in ("cpu ms", "wall ms")) + f" {'MiB':>6} {'peer':>6}"


def run(words, text=None):
    begun = time.perf_counter()
    source = open(text, "rb") if text else subprocess.DEVNULL
    done = subprocess.Popen(words, stdin=source, stdout=subprocess.PIPE)
    said = hashlib.sha256(done.stdout.read()).digest()
    _, status, used = os.wait4(done.pid, 0)
    done.returncode = os.waitstatus_to_exitcode(status)
    wall = time.perf_counter() - begun
    assert done.returncode == 0, (words, done.returncode)
    return wall, used.ru_utime + used.ru_stime, used.ru_maxrss / 1024, said


def side_by_side(*commands, times=TIMES):
    """The runs of each command, which is its words and a file for its input, or None."""
    return list(zip(*([run(*command) for command in commands] for _ in range(times))))


def said(runs):
    """What the first run wrote."""
    return runs[0][3]


def median_and_worst(values):
    return statistics.median(values), max(values)


def row(what, ours, peer):
    line = f"{what:<40}"
    for which in (1, 0):
        mine, theirs = (median_and_worst([r[which] * 1e3 for r in runs]) for runs in (ours, peer))
        line += f" {mine[0]:8.1f} {mine[1]:8.1f} {theirs[0]:8.1f} {theirs[1]:8.1f} {mine[0] / theirs[0]:6.2f}  "
    print(line + f" {max(r[2] for r in ours):6.1f} {max(r[2] for r in peer):6.1f}", flush=True)
