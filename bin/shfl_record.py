"""What happens at one lock, in order, as a text (docs/OPERATING.md, 'A record')."""
import os, re, time

import shfl_help
from shfl_locks import one_meant
from shfl_picture import picture
from shfl_places import Places, shown
from shfl_process import Failed, ask, pid_of
from shfl_tables import time_of

# what the process writes, and what stands in the text
EVENTS = {"w": ("waits", "write"), "r": ("waits", "read"), "u": ("gives-up",), "q": ("queues",), "W": ("takes", "write"), "R": ("takes", "read"),
          "f": ("frees",), "k": ("asks", "skip", "no"), "K": ("asks", "skip", "yes"), "s": ("asks", "should", "no"), "S": ("asks", "should", "yes")}


class Record:
    """The events (time, thread, words), the threads' sockets and names, and how many events are missing."""

    def __init__(self, pid, name, it):
        self.pid, self.name, self.address, self.names = pid, name.replace(" ", "_"), it["address"], {}
        self.events, self.threads, self.lost, self.seconds = [], {}, 0, 0

    def add(self, line):
        words = line.split()
        if words[0] == "lost":
            return self.miss(int(words[1]))
        thread, about = int(words[3]), int(words[5], 16)
        if thread not in self.threads:
            self.threads[thread] = (int(words[4]), self.names.get(thread, "-"))
        told = EVENTS[words[1]]
        if told[:2] == ("asks", "should"):
            told += tuple(str(about >> shift & 0xffff) for shift in (0, 16, 32, 48))
        self.events.append((int(words[0]), thread, told))

    def look_for_names(self):
        """(A thread that has ended when the record is read has no name any more.)"""
        try:
            for thread in map(int, os.listdir(f"/proc/{self.pid}/task")):
                if thread not in self.names:
                    self.names[thread] = name_of(self.pid, thread)
        except OSError:
            pass

    def miss(self, count):
        if count:
            self.lost += count
            self.events.append((self.events[-1][0] if self.events else 0, 0, ("lost", str(count))))


def name_of(pid, thread):
    try:
        with open(f"/proc/{pid}/task/{thread}/comm", encoding="utf-8", errors="replace") as file:
            return re.sub(r"[^!-~]", "_", file.read().strip()) or "-"
    except OSError:
        return "-"


def recorded(pid, it, name, seconds, most, may_break=False):
    """Fetches until the time is over, or there are so many events, or an interrupt comes that may; then the process needs its room no more."""
    record, came = Record(pid, name, it), []
    number = ask(pid, "record", str(it["number"]), f"{it['address']:x}", str(int(seconds * 1000)))[0].split()[1]
    begun, k, over = time.monotonic(), "0", False
    record.look_for_names()
    try:
        while not over and len(came) < most:
            *lines, last = ask(pid, "events", number, k)
            words = last.split()
            k, over = words[1], words[5] == "1"
            came += lines + ([f"lost {words[3]}"] if words[3] != "0" else [])
            if not over and len(lines) < 100:
                time.sleep(0.01)
        record.look_for_names()
    except KeyboardInterrupt:
        if not may_break:
            raise
    finally:
        record.seconds = min(seconds, time.monotonic() - begun)
        try:
            ask(pid, "forget", number)
        except Failed:
            pass
    for line in came[:most]:
        record.add(line)
    return record


def held(record):
    """Each hold and each wait: (from, until, thread, word), with whether the wait led to a hold. What began before the record has no begin."""
    holds, waits, holding, waiting = [], [], {}, {}
    for at, thread, words in record.events:
        if words[0] == "lost":
            # (what happened meanwhile isn't known)
            holding, waiting = {}, {}
        elif words[0] == "waits":
            waiting[thread] = at, words[1]
        elif words[0] in ("takes", "gives-up"):
            if thread in waiting:
                since, word = waiting.pop(thread)
                waits.append((since, at, thread, word))
            if words[0] == "takes":
                holding[thread] = at, words[1]
        elif words[0] == "frees" and thread in holding:
            since, word = holding.pop(thread)
            holds.append((since, at, thread, word))
    return holds, waits


def count_of_events(record):
    return sum(words[0] != "lost" for _, _, words in record.events)


def by_thread(record, spans):
    """How many of the spans are each thread's, and how long they were together."""
    found = {thread: (0, 0) for thread in record.threads}
    for since, until, thread, _ in spans:
        count, whole = found[thread]
        found[thread] = count + 1, whole + until - since
    return found


def table_of(record, holds, waits):
    held_by, waited_by = by_thread(record, holds), by_thread(record, waits)
    yield f"{'thread':<8} {'name':<16} {'socket':>6} {'holds':>8} {'mean':>8} {'waits':>8} {'mean':>8}"
    for thread, (socket, name) in sorted(record.threads.items(), key=lambda it: -held_by[it[0]][0]):
        means = [time_of(whole / count) if count else "-" for count, whole in (held_by[thread], waited_by[thread])]
        yield f"{thread:<8} {name[:16]:<16} {socket:>6} {held_by[thread][0]:>8} {means[0]:>8} {waited_by[thread][0]:>8} {means[1]:>8}"
    yield f"{count_of_events(record)} events in {record.seconds:.2f} s" + (f"; {record.lost} are missing" if record.lost else "")


def text_of(record, holds, waits):
    """The record's text: its head, the threads with their sums, the events, and an end."""
    held_by, waited_by = by_thread(record, holds), by_thread(record, waits)
    yield f"shfl-record 1 process {record.pid} lock {record.name} at {record.address:#x} ns {int(record.seconds * 1e9)}"
    for thread, (socket, name) in sorted(record.threads.items()):
        (count, whole), (waited, long) = held_by[thread], waited_by[thread]
        yield f"thread {thread} socket {socket} name {name} holds {count} held_ns {whole} waits {waited} waited_ns {long}"
    for at, thread, words in record.events:
        yield f"{at} {' '.join(words)}" if words[0] == "lost" else f"{at} {words[0]} {' '.join((str(thread),) + words[1:])}"
    yield f"end events {count_of_events(record)} lost {record.lost}"


def options(words, known):
    """The words that are no options, and the values of those that are."""
    left, values, words = [], {}, list(words)
    while words:
        word = words.pop(0)
        if word in known and words:
            values[word] = words.pop(0)
        elif word.startswith("-"):
            raise Failed(2, f"{word} is no option here, or has no value")
        else:
            left.append(word)
    return left, values


def write_file(name, text):
    try:
        with open(name, "w", encoding="utf-8") as file:
            file.write(text)
    except OSError as error:
        raise Failed(4, f"{name}: {error.strerror}") from None


def do_record(words):
    words, values = options(words, ("-o", "--svg", "--most"))
    most = values.get("--most", "200000")
    well = len(words) == 3 and re.fullmatch(r"[0-9]{1,3}(\.[0-9]{1,3})?", words[2]) and re.fullmatch(r"[1-9][0-9]{0,6}", most)
    if not well or not 0 < float(words[2]) <= 600:
        raise Failed(2, shfl_help.usage("record"))
    pid = pid_of(words[0])
    it = one_meant(pid, words[1])
    record = recorded(pid, it, shown(it, Places(pid)), float(words[2]), int(most), may_break=True)
    spans = held(record)
    text = "\n".join(text_of(record, *spans)) + "\n"
    if "--svg" in values:
        write_file(values["--svg"], picture(record, *spans))
    if "-o" not in values:
        return print(text, end="")
    write_file(values["-o"], text)
    print("\n".join(table_of(record, *spans)))
