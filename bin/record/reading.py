"""Reads the text of a record (docs/OPERATING.md, 'A record') back into what `bin/shfl record` made it of."""
import re

from shfl_record import Record

NUMBER = "(0|[1-9][0-9]{0,19})"
FIRST = re.compile(f"shfl-record 1 process {NUMBER} lock ([^ ]+) at 0x([0-9a-f]{{1,16}}) ns {NUMBER}")
THREAD = re.compile(f"thread {NUMBER} socket {NUMBER} name ([^ ]+) holds {NUMBER} held_ns {NUMBER} waits {NUMBER} waited_ns {NUMBER}")
LOST = re.compile(f"{NUMBER} lost {NUMBER}")
EVENT = re.compile(f"{NUMBER} (waits|takes|queues|frees|gives-up|asks) {NUMBER}(?: (.+))?")
END = re.compile(f"end events {NUMBER} lost {NUMBER}")
BEHIND = {"waits": "write|read", "takes": "write|read", "asks": "skip (?:yes|no)|should (?:yes|no)" + f" {NUMBER}" * 4}
NO_LINE, NO_HEAD, NO_THREAD, NO_EVENT, NO_END, NO_MORE = range(1, 7)


class Bad(Exception):
    """The first bad line and its fault."""

    def __init__(self, line, fault):
        super().__init__(f"line {line}: fault {fault}")


def lines_of(data):
    """The lines up to the first that has no end or is no text, and whether these are all."""
    found = []
    *lines, rest = data.split(b"\n")
    for line in lines:
        text = line.decode(errors="replace")
        if not text.isprintable() or "\ufffd" in text:
            return found, False
        found.append(text)
    return found, not rest


def event_of(record, line):
    """Adds the event that the line is. False: it is none."""
    lost = LOST.fullmatch(line)
    if lost:
        record.lost += int(lost[2])
        record.events.append((int(lost[1]), 0, ("lost", lost[2])))
        return int(lost[2]) > 0
    it = EVENT.fullmatch(line)
    if not it or int(it[3]) not in record.threads or not re.fullmatch(BEHIND.get(it[2], ""), it[4] or ""):
        return False
    record.events.append((int(it[1]), int(it[3]), (it[2], *(it[4].split(" ") if it[4] else ()))))
    return True


def thread_of(record, line):
    it = THREAD.fullmatch(line)
    if not it or int(it[1]) in record.threads:
        return False
    record.threads[int(it[1])] = (int(it[2]), it[3])
    return True


def is_end(record, line):
    it = END.fullmatch(line)
    events = sum(words[0] != "lost" for _, _, words in record.events)
    return bool(it) and (int(it[1]), int(it[2])) == (events, record.lost)


def read(data):
    """The record that the bytes are; else `Bad`."""
    lines, whole = lines_of(data)
    head = FIRST.fullmatch(lines[0]) if lines else None
    if not head:
        raise Bad(1, NO_HEAD if lines or whole else NO_LINE)
    record = Record(int(head[1]), head[2], {"address": int(head[3], 16)})
    record.seconds = int(head[4]) / 1e9
    for number, line in enumerate(lines[1:], 2):
        if line.startswith("thread ") and not record.events:
            if not thread_of(record, line):
                raise Bad(number, NO_THREAD)
        elif line.startswith("end"):
            if not is_end(record, line):
                raise Bad(number, NO_END)
            if number < len(lines) or not whole:
                raise Bad(number + 1, NO_MORE if number < len(lines) else NO_LINE)
            return record
        elif not event_of(record, line):
            raise Bad(number, NO_EVENT)
    raise Bad(len(lines) + 1, NO_END if whole else NO_LINE)
