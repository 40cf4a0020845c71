"""records.py made FOLDER: writes records that no process made, and what was true at each event. records.py browse FOLDER PICTURES: opens the
pages of the records in the folder (tests/records.sh)."""
import json
import os
import random
import sys
import time

from browser import Browser
from pages import check_quiet, due, failures, middle, move, shown

# what a thread's event says of it from then on, and what its next event says of it until then
AFTER = {"waits": "waits", "queues": "queued", "takes": "holds", "frees": "idle", "gives-up": "idle", "asks": "queued"}
BEFORE = {"waits": "idle", "queues": "waits", "takes": "unknown", "frees": "holds", "gives-up": "waits", "asks": "queued"}

# ---- records


class Lock:
    """A lock that takes and gives at random, as a lock may: of readers and writers, waiters outside and in a queue, deadlines and questions."""

    def __init__(self, threads, seed):
        self.chance, self.kinds, self.words, self.queue = random.Random(seed), ["idle"] * threads, [""] * threads, []

    def is_free_for(self, word):
        held = [self.words[it] for it, kind in enumerate(self.kinds) if kind == "holds"]
        return not held or (word == "read" and "write" not in held)

    def event(self):
        """The next event: thread and words."""
        one, moment = self.chance.randrange(len(self.kinds)), self.chance.random()
        kind, word = self.kinds[one], self.words[one]
        if kind == "idle":
            word = self.words[one] = self.chance.choice(("read", "write", "write"))
            act = "takes" if self.is_free_for(word) else "waits"
        elif kind == "holds":
            act = "frees"
        elif self.is_free_for(word) and moment < 0.6:
            act = "takes"
        elif kind == "waits":
            act = "queues" if moment < 0.8 else "gives-up" if moment < 0.9 else None
        else:
            act = "asks" if moment < 0.8 else None
        return (one, act) if act else self.event()

    def step(self):
        one, act = self.event()
        self.kinds[one] = AFTER[act]
        if act == "queues":
            self.queue.append(one)
        elif act in ("takes", "frees", "gives-up") and one in self.queue:
            self.queue.remove(one)
        answer = self.chance.choice(("yes", "no"))
        behind = {"takes": self.words[one], "waits": self.words[one], "asks": self.chance.choice((f"skip {answer}", f"should {answer} 1 2 3 4"))}
        return f"{act} {one + 1000} {behind.get(act, '')}".rstrip()

    def truth(self):
        free = "holds" not in self.kinds
        return {"kinds": list(self.kinds), "words": list(self.words), "queue": [it + 1000 for it in self.queue], "free": free}


def written(events, threads, sockets, gaps, seed):
    """A record of so many lines without its first events and with gaps, and what is true behind each line."""
    lock, lines, truths, lost = Lock(threads, seed), [], [], 0
    for _ in range(97):
        lock.step()
    for number in range(events):
        at = number * 137
        if gaps and lock.chance.random() < gaps:
            count = lock.chance.randrange(1, 200)
            for _ in range(count):
                lock.step()
            lines.append(f"{at} lost {count}")
            lost += count
        else:
            act, *rest = lock.step().split(" ")
            lines.append(f"{at} {act} {' '.join(rest)}")
        truths.append(lock.truth() if gaps else None)
    front = [f"shfl-record 1 process 77 lock <table>&x+0x18 at 0x7f00 ns {events * 137}"]
    front += [f"thread {it + 1000} socket {it * sockets // threads} name worker-{it} holds 0 held_ns 0 waits 0 waited_ns 0" for it in range(threads)]
    events_there = sum(" lost " not in line for line in lines)
    return "\n".join(front + lines + [f"end events {events_there} lost {lost}", ""]), truths


def write_records(folder):
    for name, made in {"gaps": (240, 9, 3, 0.02, 5), "many": (200, 70, 8, 0.01, 6), "long": (60000, 24, 4, 0, 7), "none": (0, 1, 1, 0, 8)}.items():
        text, truths = written(*made)
        with open(f"{folder}/{name}.record", "w", encoding="utf-8") as file:
            file.write(text)
        with open(f"{folder}/{name}.truth", "w", encoding="utf-8") as file:
            json.dump(truths, file)


# ---- what a page has to show


class Text:
    """A record read without the page's help."""

    def __init__(self, path):
        with open(path, encoding="utf-8") as file:
            self.text = file.read()
        lines = self.text.splitlines()
        self.threads = [int(line.split(" ")[1]) for line in lines if line.startswith("thread ")]
        self.lines = lines[1 + len(self.threads):-1]
        self.words = [line.split(" ") for line in self.lines]

    def until(self, begin):
        """Where the part ends that begins there: at the next gap, or behind the last event."""
        return next((k for k in range(begin, len(self.words)) if self.words[k][1] == "lost"), len(self.words))

    def walk(self):
        """For each event what each thread does behind it, by its last event in that part, or else by its next one there; and the queue's
        waiters whose joining stands in that part, in that order."""
        for k, words in enumerate(self.words):
            if k == 0 or words[1] == "lost":
                begin, own, queue, opening = k + (words[1] == "lost"), {}, [], {}
                for later in reversed(self.words[begin:self.until(begin)]):
                    opening[int(later[2])] = BEFORE[later[1]]
            if words[1] != "lost":
                thread = int(words[2])
                own[thread] = AFTER[words[1]]
                queue += [thread] if words[1] == "queues" else []
                queue = [it for it in queue if own[it] == "queued"]
            yield {it: own.get(it) or opening.get(it, "unknown") for it in self.threads}, queue


READ = """(() => {
  const ids = (id) => [...document.querySelectorAll("#" + id + " .pass")].map((box) => Number(box.dataset.thread));
  const text = (id) => document.getElementById(id).textContent;
  const kind = (box) => ["holds", "waits", "queued", "idle", "unknown"].filter((name) => box.classList.contains(name)).join(" ");
  const drawn = [...document.querySelectorAll(".pass")];
  return {
    line: text("line"), place: text("place"), held: text("held"), holders: ids("holders"), outside: ids("outside"), queue: ids("queue"),
    kinds: Object.fromEntries(drawn.map((box) => [box.dataset.thread, kind(box)])),
    words: Object.fromEntries(drawn.map((box) => [box.dataset.thread, (/ (writer|reader)/.exec(box.firstChild.textContent) || ["", ""])[1]])),
    unknown: drawn.filter((box) => box.ariaLabel.includes("Whether it holds the lock")).length,
    placeless: [...document.querySelectorAll("#queue .pass")].filter((box) => box.textContent.includes("place unknown")).length,
  };
})()"""


def due_of_truth(what, found, truth):
    """Nothing is shown that isn't true."""
    for place, kind in enumerate(truth["kinds"]):
        said, word = found["kinds"][str(place + 1000)], found["words"][str(place + 1000)]
        due(f"{what}: thread {place + 1000}", said in (kind, "unknown"), True)
        true_word = {"read": "reader", "write": "writer"}.get(truth["words"][place])
        due(f"{what}: what {place + 1000} asked for", said in ("idle", "unknown") or word in ("", true_word), True)
    due(f"{what}: a free lock", found["held"] != "free" or truth["free"], True)
    queue = [it for it in truth["queue"] if it in found["queue"]]
    due(f"{what}: the queue", found["queue"][found["placeless"]:], queue[found["placeless"]:])


def due_of_event(what, found, kinds, queue):
    due(f"{what}: what each does", {int(it): kind for it, kind in found["kinds"].items()}, kinds)
    for box, kind in (("holders", "holds"), ("outside", "waits"), ("queue", "queued")):
        due(f"{what}: {box}", sorted(found[box]), sorted(it for it in kinds if kinds[it] == kind))
    due(f"{what}: the queue's known part", found["queue"][found["placeless"]:], queue)
    due(f"{what}: told as unknown", found["unknown"], list(kinds.values()).count("unknown"))


def check_every_event(browser, folder, name):
    record, truths = Text(f"{folder}/{name}.record"), []
    if os.path.exists(f"{folder}/{name}.truth"):
        with open(f"{folder}/{name}.truth", encoding="utf-8") as file:
            truths = json.load(file)
    browser.open(f"file://{folder}/{name}.html")
    due(f"{name}: the record in the page", browser.run("document.getElementById('report').textContent") == record.text, True)
    for k, (kinds, queue) in enumerate(record.walk()):
        move(browser, k + 1)
        found, what = browser.run(READ), f"{name}: event {k + 1}"
        due(what, (found["line"], found["place"]), (record.lines[k], f"{k + 1} of {len(record.lines)}"))
        due_of_event(what, found, kinds, queue)
        if truths:
            due_of_truth(what, found, truths[k])
    check_quiet(browser, name)


def check_keys(browser, folder):
    browser.open(f"file://{folder}/priority.html#event=43")
    due("the event in the address", shown(browser), 43)
    for key, code, wanted in [("ArrowRight", 39, 44), ("ArrowLeft", 37, 43), ("Home", 36, 1), ("ArrowLeft", 37, 1), ("End", 35, 320), ("ArrowRight", 39, 320)]:
        browser.key(key, code)
        due(f"the key {key}", shown(browser), wanted)
    due("the address behind the keys", browser.run("location.hash"), "#event=320")
    record = Text(f"{folder}/priority.record")
    browser.run("document.getElementById('skip').click(); document.activeElement.blur(); show(1); null")
    for k in [it for it, words in enumerate(record.words, 1) if it > 1 and words[1] != "asks"][:8]:
        browser.key("ArrowRight", 39)
        due("on without questions", shown(browser), k)
    browser.run("document.getElementById('skip').click(); document.activeElement.blur(); null")
    browser.key(" ", 32)
    due("the word on the button", browser.run("document.getElementById('play').textContent"), "Pause")
    browser.key(" ", 32)
    due("the word on it then", browser.run("document.getElementById('play').textContent"), "Play")


def check_pointer(browser, folder):
    told = "document.getElementById('told').textContent"
    browser.resize(1280, 860)
    browser.open(f"file://{folder}/priority.html#event=56")
    browser.mouse("mouseMoved", *middle(browser, "#queue [data-thread=\"15561\"]"))
    due(
        "the thread under the pointer", browser.run(told),
        "Thread 15561 (busy) of socket 0. It waits in the queue as a writer, since event 11, for 146 us so far. It joined the queue at event 12, "
        "and 1 thread that joined before it stands there still. Whom a policy moved isn't in a record. Meanwhile others have taken the lock "
        "5 times, of whom 1 asked for it later, as far as is known; it has asked the policy 0 questions.",
    )
    move(browser, 15)
    browser.mouse("mouseMoved", *middle(browser, "#lanes [data-thread=\"15564\"]"))
    due("the thread whose lane it is", browser.run(told)[:60], "Thread 15564 (busy) of socket 0. It waits outside the queue ")
    browser.mouse("mouseMoved", 5, 5)
    due("no thread", browser.run(told).startswith("Point at a thread"), True)
    browser.resize(400, 800, phone=True)
    browser.open(f"file://{folder}/gaps.html#event=3")
    browser.run("document.querySelector('.pass').scrollIntoView({block: 'center'}); null")
    browser.tap(*middle(browser, ".pass"))
    due("a tapped thread", browser.run(told).startswith("Thread 1"), True)
    due("controls without a name", [it for it in browser.call("Accessibility.getFullAXTree")["nodes"]
                                    if it.get("role", {}).get("value") in ("button", "slider", "checkbox", "combobox") and not it["name"]["value"]], [])


def check_widths(browser, folder, pictures):
    for name, event in (("priority", 14), ("gaps", 60), ("many", 20), ("none", 0)):
        for width, height, phone, dark in ((320, 640, True, False), (400, 900, True, True), (1280, 860, False, False)):
            browser.resize(width, height, phone, dark)
            browser.open(f"file://{folder}/{name}.html#event={event}")
            due(f"{name} fits in {width}", browser.run("document.documentElement.scrollWidth") <= width, True)
            if pictures:
                browser.picture(f"{pictures}/{name}-{width}.png")
            check_quiet(browser, f"{name} at {width}")


def check_long(browser, folder):
    record = Text(f"{folder}/long.record")
    begun = time.time()
    browser.open(f"file://{folder}/long.html#event=50000")
    due("the long record's event", shown(browser), 50000)
    opened = time.time() - begun
    for k, (kinds, queue) in enumerate(record.walk(), 1):
        if k % 7919 == 0 or k == len(record.lines):
            move(browser, k)
            due_of_event(f"long: event {k}", browser.run(READ), kinds, queue)
    due("few elements", browser.run("document.querySelectorAll('*').length") < 3000, True)
    took = browser.run("(() => { const t = performance.now(); for (let i = 1; i <= 20; i += 1) show(i * 2900); return (performance.now() - t) / 20; })()")
    print(f"records: {len(record.lines)} events open in {opened:.1f} s, an event is drawn in {took:.0f} ms")


def check_without_scripts(browser, folder):
    browser.call("Emulation.setScriptExecutionDisabled", value=True)
    browser.open(f"file://{folder}/priority.html")
    due("the record without scripts", browser.run("getComputedStyle(document.getElementById('report')).display"), "block")
    due("the rest without scripts", browser.run("getComputedStyle(document.querySelector('main')).display"), "none")
    browser.call("Emulation.setScriptExecutionDisabled", value=False)


def browse(folder, pictures):
    browser = Browser()
    try:
        browser.resize(1280, 860)
        for name in ("priority", "gaps", "many"):
            check_every_event(browser, folder, name)
        check_keys(browser, folder)
        check_pointer(browser, folder)
        check_widths(browser, folder, pictures)
        check_long(browser, folder)
        check_without_scripts(browser, folder)
    finally:
        browser.close()
    print(f"records: {len(failures)} failures")
    return 1 if failures else 0


if __name__ == "__main__":
    if sys.argv[1] == "made":
        write_records(sys.argv[2])
    else:
        sys.exit(browse(sys.argv[2], sys.argv[3] if len(sys.argv) > 3 else ""))
