"""A record as a picture: a lane a thread, by socket; holds filled, waits as lines, questions to the policy as dots."""
from xml.sax.saxutils import escape

from shfl_tables import time_of

MOST_HOLDS, MOST_TURNS, WIDTH, LEFT, LANE = 1500, 100, 1000, 150, 22
COLOURS = ("#1f6fb2", "#c4571a", "#2a8a4a", "#8a4ab0", "#a08000", "#b03060")
STYLE = """text{font:12px sans-serif;fill:#222}.head{font-size:15px;font-weight:bold}.lane{fill:#f3f3f3}.wait{stroke:#888;stroke-width:2}
.yes{fill:#111}.no{fill:#fff;stroke:#111}.tick{stroke:#ccc}.lost{fill:#d33;opacity:.25}.small{font-size:11px;fill:#555}
@media(prefers-color-scheme:dark){svg{background:#181818}text{fill:#ddd}.lane{fill:#242424}.small{fill:#aaa}.tick{stroke:#444}
.yes{fill:#eee}.no{fill:#181818;stroke:#eee}}"""


def window(record, holds):
    """From when until when the picture goes: from the first event on, until the lock came to another thread so often, or was held so often."""
    if not record.events:
        return 0, 1
    begin, end, last, turns = record.events[0][0], record.events[-1][0], None, 0
    for _, until, thread, _ in sorted(holds)[:MOST_HOLDS]:
        turns, last, end = turns + (thread != last), thread, until
        if turns > MOST_TURNS:
            break
    return begin, max(end, begin + 1)


def lanes(record):
    """The threads from the top down: by socket, and by number."""
    return {thread: k for k, thread in enumerate(sorted(record.threads, key=lambda it: (record.threads[it][0], it)))}


def ticks(begin, end, x, bottom):
    step = 1
    while (end - begin) / step > 8:
        step *= 5 if str(step)[0] in "1" and (end - begin) / (step * 2) > 8 else 2
    for at in range(0, end - begin + 1, step):
        yield f'<line class="tick" x1="{x(begin + at):.1f}" x2="{x(begin + at):.1f}" y1="52" y2="{bottom}"/>'
        yield f'<text class="small" x="{x(begin + at):.1f}" y="{bottom + 14}" text-anchor="middle">{time_of(at) if at else "0"}</text>'


def wait_of(span, x, y):
    since, until, thread, word = span
    title = f"thread {thread} waits to {word}: {time_of(until - since)}"
    return f'<line class="wait" x1="{x(since):.1f}" x2="{x(until):.1f}" y1="{y}" y2="{y}"><title>{title}</title></line>'


def hold_of(span, x, y, colour):
    since, until, thread, word = span
    title = f"thread {thread} holds to {word}: {time_of(until - since)}"
    width, height = max(1.5, x(until) - x(since)), LANE - 8 if word == "write" else LANE - 14
    return f'<rect x="{x(since):.1f}" y="{y - height / 2}" width="{width:.1f}" height="{height}" fill="{colour}"><title>{title}</title></rect>'


def mark_of(at, thread, words, x, y, bottom):
    if words[0] == "lost":
        return f'<rect class="lost" x="{x(at) - 2:.1f}" y="52" width="4" height="{bottom - 52}"><title>{words[1]} events are missing</title></rect>'
    about = " about socket {} prio {} class {} kind {}".format(*words[3:]) if words[1] == "should" else ""
    title = f"thread {thread} asks {words[1]}{about}: {words[2]}"
    return f'<circle class="{words[2]}" cx="{x(at):.1f}" cy="{y}" r="2.5"><title>{title}</title></circle>'


def picture(record, holds, waits):
    begin, end = window(record, holds)
    place = lanes(record)
    bottom = 56 + LANE * max(1, len(place))

    def x(at):
        return LEFT + (WIDTH - LEFT - 20) * (min(max(at, begin), end) - begin) / (end - begin)

    def y(thread):
        return 56 + LANE * place.get(thread, 0) + LANE / 2

    seen = [it for it in holds if it[0] <= end]
    sockets = sorted({it[0] for it in record.threads.values()})
    colour = {thread: COLOURS[sockets.index(it[0]) % len(COLOURS)] for thread, it in record.threads.items()}
    rows = [f'<svg xmlns="http://www.w3.org/2000/svg" viewBox="0 0 {WIDTH} {bottom + 24}" role="img"><style>{STYLE}</style>',
            f'<text class="head" x="10" y="20">Who holds {escape(record.name)}, process {record.pid}</text>',
            f'<text class="small" x="10" y="40">{len(seen)} of {len(holds)} holds, {time_of(end - begin)} from the first event on. '
            'Bars hold (thin: as readers), lines wait, dots ask the policy (filled: yes). Colours are sockets.</text>']
    for thread, (socket, name) in sorted(record.threads.items()):
        rows.append(f'<rect class="lane" x="{LEFT}" y="{y(thread) - LANE / 2 + 1}" width="{WIDTH - LEFT - 20}" height="{LANE - 2}"/>')
        rows.append(f'<text x="10" y="{y(thread) + 4}"><tspan fill="{colour[thread]}">{socket}</tspan> {thread} {escape(name[:12])}</text>')
    rows += ticks(begin, end, x, bottom)
    rows += [wait_of(it, x, y(it[2])) for it in waits if it[0] <= end and it[1] >= begin]
    rows += [hold_of(it, x, y(it[2]), colour[it[2]]) for it in seen]
    rows += [mark_of(at, thread, words, x, y(thread), bottom) for at, thread, words in record.events if at <= end and words[0] in ("asks", "lost")]
    return "\n".join(rows + ["</svg>"]) + "\n"
