"""What tests/rounds.sh runs: the traces, and a judge of the rounds that bin/syncord-rounds tells behind its report.

    python3 tests/rounds.py make writes|reads|queue       writes a trace
    python3 tests/rounds.py judge WAY KIND TRACE TEXT     judges, and prints how many rounds, waiters asked about and moved up there were, and the highest version

The policies are told by what they do, in Python, not by their programs.
"""
import sys

WORKERS, CALLS, ATTACHES, LIMIT = 8, 512, 8, 1024

SOCKET = "61120000000000006111040000000000b7000000010000001d21010000000000b7000000000000009500000000000000"
YES = "b7000000010000009500000000000000"

# of each policy its two programs, and what they answer of the asking worker and a waiter, each (socket, prio, class, kind)
POLICIES = {
    "socket": (SOCKET, "-", lambda own: False, lambda own, waiter: own[0] == waiter[0]),
    "none": ("-", "-", lambda own: False, lambda own, waiter: False),
    "all": (YES, "-", lambda own: False, lambda own, waiter: True),
    "tired": (SOCKET, YES, lambda own: True, lambda own, waiter: own[0] == waiter[0]),
}
ORDER = ["none", "socket", "tired", "all"]


def attributes(worker):
    return (worker % 2, worker // 2, 10 + worker, 20 + worker)


def make(kind):
    print("syncord-trace 1")
    for worker in range(WORKERS):
        print("worker", *attributes(worker))
    for name, (should, skip, _, _) in POLICIES.items():
        print("policy", name, should, skip)
    print("calls")
    # a trace for one queue attaches nothing
    for call in range(CALLS):
        worker = call % WORKERS
        name = f"n{call * 7 % 61}"
        if kind != "queue" and call % (CALLS // ATTACHES) == CALLS // ATTACHES - 1:
            print("0 attach", ORDER[call * ATTACHES // CALLS % len(ORDER)])
        # one call of eight writes in a trace of reads, so a copy for each worker makes no more writes than there are calls
        if kind != "reads" or call % 64 < 8:
            print(worker, ("make", "drop")[call // 61 % 2], 0, name)
        else:
            print(worker, *(("find", 0, name), ("count", 0), ("next", 0))[call // 8 % 3])


class Wrong(Exception):
    """What is wrong with a text."""


def read_trace(path):
    """The workers' attributes, and the policy of each version."""
    workers, policies, attached = [], [], []
    for words in map(str.split, open(path, encoding="ascii")):
        if words[0] == "worker":
            workers.append(tuple(map(int, words[1:])))
        elif words[0] == "policy":
            policies.append(words[1])
        elif words[1:2] == ["attach"]:
            attached.append(words[2])
    return workers, [policies[0], *attached]


class Log:
    """The lines of one worker, as far as they were read."""

    def __init__(self, own, workers, versions):
        self.own, self.workers, self.versions = own, workers, versions
        self.policy, self.asked, self.version = None, 0, 0
        self.rounds = self.moves = self.moved = 0

    def need(self, is_so, what):
        if not is_so:
            raise Wrong(what)

    def begin(self, version, name):
        self.need(self.policy is None, "a round begins in a round")
        self.need(version == str(int(version)) and self.version <= int(version), "a version falls")
        self.version = int(version)
        self.need(self.version < len(self.versions), "a version above the number of attachments")
        self.need(self.versions[self.version] == name, "another policy than this version's")
        self.policy, self.asked = POLICIES[name], 0
        self.rounds += 1

    def skip(self, batch, answer):
        self.need(self.policy is not None and self.asked == 0, "the round is to be skipped, and it is not the first question")
        self.need(answer == ("yes" if self.policy[2](self.own) else "no"), "another answer than the policy's")
        self.need(0 <= int(batch) <= LIMIT, "a batch number above the limit")
        # behind a round that is skipped comes its end
        self.asked = 1 if answer == "no" else None

    def move(self, *words):
        waiter, batch, answer = tuple(map(int, words[:4])), int(words[4]), words[5]
        self.need(self.policy is not None and self.asked, "a waiter is asked about, and nobody asked before whether to skip the round")
        self.need(waiter in self.workers, "a waiter whose attributes no worker has")
        self.need(answer == ("yes" if self.policy[3](self.own, waiter) else "no"), "another answer than the policy's")
        self.need(0 <= batch <= LIMIT, "a batch number above the limit")
        self.asked += 1
        self.moves += 1
        self.moved += answer == "yes"

    def end(self):
        self.need(self.policy is not None and self.asked != 0, "a round ends that was not asked of, or has not begun")
        self.policy = None


def judge(way, kind, trace, text):
    workers, versions = read_trace(trace)
    lines = open(text, encoding="ascii").read().split("\n")
    if lines.pop() != "":
        raise Wrong("the last line has no end")
    at = next((k for k, line in enumerate(lines) if line.startswith("rounds ")), None)
    if at is None or lines[at - 1] != "end" or lines[-1] != "end":
        raise Wrong("no rounds behind the report")
    lock = {"replay": "one" if kind == "writes" else "copies", "shards": "shards", "pool": "queue"}.get(way, way.split()[-1])
    if lines[at] != f"rounds {lock}":
        raise Wrong(f"another kind of lock than {lock}: {lines[at]}")
    logs, last = [Log(own, workers, versions) for own in workers], 0
    for number, line in enumerate(lines[at + 1 : -1], at + 2):
        words = line.split(" ")
        try:
            worker = int(words[0])
            if str(worker) != words[0] or worker < last:
                raise Wrong("not by workers")
            if words[1] not in ("begin", "skip", "move", "end"):
                raise Wrong("no such line")
            last = worker
            getattr(logs[worker], words[1])(*words[2:])
        except (Wrong, ValueError, TypeError, IndexError) as what:
            raise Wrong(f"line {number}, {line}: {what}")
    if any(log.policy is not None for log in logs):
        raise Wrong("a round has no end")
    print(sum(log.rounds for log in logs), sum(log.moves for log in logs), sum(log.moved for log in logs), max(log.version for log in logs))


if sys.argv[1] == "make":
    make(sys.argv[2])
else:
    try:
        judge(*sys.argv[2:])
    except Wrong as what:
        sys.exit(f"{sys.argv[3]} by '{sys.argv[2]}': {what}")
