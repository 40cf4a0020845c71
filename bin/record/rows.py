"""A record as a text: who held the lock, one row a hold, in the order in which they took it."""
from shfl_record import held
from shfl_tables import time_of


def waits_before(waits):
    """Of each wait that led to a hold: when it began, by the thread and the time at which the hold began."""
    return {(thread, until): since for since, until, thread, _ in waits}


def row(span, record, waited):
    since, until, thread, word = span
    socket, name = record.threads[thread]
    wait = time_of(since - waited[thread, since]) if (thread, since) in waited else "-"
    return f"{since:>12} {time_of(until - since):>8} {wait:>8}  {thread:<8} {name[:16]:<16} {socket:>6}  {word}"


def text_of(record):
    holds, waits = held(record)
    waited = waits_before(waits)
    gaps = [(at, f"{at:>12} {words[1]} events are missing") for at, _, words in record.events if words[0] == "lost"]
    rows = sorted([(it[0], row(it, record, waited)) for it in holds] + gaps, key=lambda it: it[0])
    return "\n".join([f"{'takes at ns':>12} {'held':>8} {'waited':>8}  {'thread':<8} {'name':<16} {'socket':>6}  as"] + [it[1] for it in rows]) + "\n"
