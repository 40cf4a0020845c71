"""pages.py reports FOLDER: writes long and wide reports. pages.py browse FOLDER PICTURES: opens the pages in the folder (tests/pages.sh)."""
import glob
import os
import random
import sys
import time

from browser import Browser

# ---- reports


def written(events, passes, form, most_bytes):
    """A report of random events, not of a lock's: joins, gains, batches, relinks and sleepers, so that every mark is seen."""
    chance = random.Random(events)
    readers, sleepers = form.startswith("rw"), form.endswith("park")
    queue, holders, detached, role, asleep, asks = [], [], None, "-", set(), {}
    lines, admitted, size = [], 0, 0
    for number in range(1, events + 1):
        one = chance.randrange(passes)
        act, moment = "step", chance.random()
        waiting = [waiter[0] for waiter in queue] + ([] if detached is None else [detached])
        free = one not in waiting and one not in [holder[0] for holder in holders]
        room = size / number * events < most_bytes
        if moment < 0.15 and free:
            asks[one] = "read" if readers and chance.random() < 0.5 else "write"
            act = asks[one]
        elif moment < 0.4 and free and room and one in asks:
            queue.append([one, 0])
        elif moment < 0.6 and len(queue) > passes // 2:
            one = queue.pop(0)[0]
            holders = [(one, "r" if asks.get(one) == "read" else "w")]
            asleep.discard(one)
        elif moment < 0.7 and holders:
            one, act = holders.pop()[0], "free"
        elif moment < 0.8 and queue:
            place = sum(1 for waiter in queue if waiter[1] > 0)
            if place < len(queue) and (place == 0 or queue[place - 1][1] < 1024):
                queue[place][1] = (queue[place - 1][1] if place else 0) + 1
                role = f"walk:{queue[0][0]}" if place % 2 else f"rest:{queue[place][0]}"
        elif moment < 0.87 and detached is None and len(queue) > 2 and queue[-2][1] == 0:
            detached = queue.pop(-2)[0]
        elif moment < 0.95 and detached is not None:
            queue.insert(sum(1 for waiter in queue if waiter[1] > 0), [detached, 0])
            detached = None
        elif sleepers and queue:
            asleep ^= {queue[-1][0]}
        if role != "-" and role.split(":")[1] not in [str(waiter[0]) for waiter in queue]:
            role = "-"
        answer = "no" if chance.random() < 0.03 else "yes"
        admitted += answer == "yes"
        counted = sum(1 for holder in holders if holder[1] == "r")
        word = (len(holders) - counted) + 256 * bool(queue) + 2**32 * counted
        line = f"{number} {act} {one} {answer} word {word}"
        line += " hold " + (",".join(f"{kind}{other}" for other, kind in holders) or "-")
        line += " line " + (",".join(f"{other}:{batch}" for other, batch in queue) or "-")
        line += f" hand {'-' if detached is None else detached} role {role}"
        if sleepers:
            line += " asleep " + (",".join(str(other) for other in sorted(asleep)) or "-")
        lines.append(line)
        size += len(line) + 1
    front = f"shfl-line 1 form {form} limit 1024 passes {passes}"
    return "\n".join([front, *lines, f"end yes {admitted} no {events - admitted}", ""])


def write_reports(folder):
    for name, report in {
        "wide": written(400, 64, "rw-park", 1 << 24),
        "long": written(65536, 40, "park", (1 << 24) - (1 << 16)),
    }.items():
        with open(f"{folder}/{name}.out", "w") as file:
            file.write(report)


# ---- what a page has to show


class Report:
    """A report read without the page's help: for each event what the boxes have to say."""

    def __init__(self, path):
        with open(path) as file:
            self.text = file.read()
        self.lines = self.text.split("\n")
        self.events = len(self.lines) - 3

    def parts(self, column):
        return [] if column == "-" else column.split(",")

    def walk(self):
        asked, joined, gone = {}, {}, {}
        waited = []
        for number in range(1, self.events + 1):
            words = self.lines[number].split(" ")
            if words[3] == "yes" and words[1] in ("write", "read"):
                asked[words[2]] = words[1] + "er" if words[1] == "read" else "writer"
            queue = [part.split(":") for part in self.parts(words[9])]
            waits = [waiter[0] for waiter in queue] + self.parts(words[11])
            for left in [one for one in waited if one not in waits]:
                for other in waits:
                    if other in waited:
                        gone[other] += 1
            for new in [one for one in waits if one not in waited]:
                joined[new], gone[new] = (number, len(waits) - 1), 0
            waited = waits
            yield self.shown(number, words, queue, asked, joined, gone)

    def shown(self, number, words, queue, asked, joined, gone):
        asleep = self.parts(words[15]) if len(words) > 15 else []

        holders = [part[1:] for part in self.parts(words[7])]

        def labels(one, batch):
            more = [f"batch {batch}"] if batch != "0" else []
            more += ["asleep"] if one in asleep else []
            more += ["holds"] if one in holders else []
            role = words[13].split(":")
            return more + ([{"walk": "shuffles", "rest": "to shuffle"}[role[0]]] if role[-1] == one else [])

        boxes = []
        for place, (one, batch) in enumerate(queue):
            before = place + (1 if words[11] != "-" and batch == "0" else 0)
            boxes.append([f"{one} {asked.get(one, 'writer')}", f"{before} before", f"{gone[one]} gone", *labels(one, batch)])
        detached = [[f"{one} {asked.get(one, 'writer')}", f"{gone[one]} gone", *labels(one, "0")] for one in self.parts(words[11])]
        lock = int(words[5])
        return {
            "line": self.lines[number],
            "place": f"{number} of {self.events}",
            "queue": boxes,
            "detached": detached,
            "holders": [f"{part[1:]} {'reader' if part[0] == 'r' else 'writer'}" for part in self.parts(words[7])],
            "stealing": "disabled" if lock // 256 % 2 else "enabled",
            "counted": str(lock >> 32),
            "joined": [list(joined[one]) for one, _ in queue],
        }


READ = """(() => {
  const boxes = (id) => [...document.querySelectorAll("#" + id + " .pass")];
  const text = (id) => document.getElementById(id).textContent;
  const rows = (box) => [...box.children].map((child) => child.textContent);
  return {
    line: text("line"), place: text("place"), stealing: text("stealing"), counted: text("counted"),
    queue: boxes("queue").map(rows), detached: boxes("detached").map(rows), holders: boxes("holders").map((box) => rows(box)[0]),
    joined: boxes("queue").map((box) => /joined at event (\\d+) behind (\\d+)/.exec(box.ariaLabel).slice(1).map(Number)),
  };
})()"""

failures = []


def due(what, found, wanted):
    if found != wanted:
        failures.append(what)
        print(f"FAILED {what}:\n  found  {str(found)[:600]}\n  wanted {str(wanted)[:600]}")


def move(browser, event):
    """Moves the slider as a hand does: its value changes, and it tells so."""
    browser.run(f"slider.value = {event}; slider.dispatchEvent(new Event('input')); null")


def check_quiet(browser, name):
    """No error, and nothing asked of a network."""
    faults = browser.seen("Runtime.exceptionThrown", "Runtime.consoleAPICalled", "Log.entryAdded")
    due(f"{name}: errors", faults, [])
    asked = {event["params"]["request"]["url"].split(":")[0] for event in browser.seen("Network.requestWillBeSent")}
    due(f"{name}: what is loaded", asked, {"file"})


def check_every_event(browser, folder, path):
    name, report = os.path.basename(path), Report(path)
    browser.open(f"file://{folder}/{name}.html")
    due(f"{name}: the report in the page", browser.run("document.getElementById('report').textContent") == report.text, True)
    for number, wanted in enumerate(report.walk(), 1):
        move(browser, number)
        due(f"{name}: event {number}", browser.run(READ), wanted)
        due(f"{name}: the current row", browser.run("document.querySelector('tr[aria-current]').dataset.event"), str(number))
    check_quiet(browser, name)


def shown(browser):
    return int(browser.run("document.getElementById('place').textContent").split(" ")[0])


def check_keys(browser, folder):
    browser.open(f"file://{folder}/half-done-relink.line.out.html#event=43")
    due("the event in the address", shown(browser), 43)
    for key, code, wanted in [("ArrowRight", 39, 44), ("ArrowLeft", 37, 43), ("Home", 36, 1), ("ArrowLeft", 37, 1), ("End", 35, 49), ("ArrowRight", 39, 49)]:
        browser.key(key, code)
        due(f"the key {key}", shown(browser), wanted)
    due("the address behind the keys", browser.run("location.hash"), "#event=49")
    browser.run("slider.focus(); null")
    browser.key("ArrowLeft", 37)
    due("a key at the slider", shown(browser), 48)
    browser.run("document.getElementById('skip').click(); null")
    browser.key("ArrowLeft", 37)
    due("back to a change", shown(browser), 46)
    browser.key("ArrowRight", 39)
    due("on to a change", shown(browser), 49)
    browser.run("document.getElementById('skip').click(); document.activeElement.blur(); show(1); null")
    browser.key(" ", 32)
    due("the word on the button", browser.run("document.getElementById('play').textContent"), "Pause")
    time.sleep(1.5)
    browser.key(" ", 32)
    stopped = shown(browser)
    due("playing goes on", 3 <= stopped <= 8, True)
    time.sleep(0.6)
    due("playing stops", shown(browser), stopped)


def middle(browser, selector):
    box = browser.run(f"(() => {{ const r = document.querySelector('{selector}').getBoundingClientRect(); return [r.x + r.width / 2, r.y + r.height / 2]; }})()")
    return box


def check_pointer(browser, folder):
    browser.resize(1280, 860)
    browser.open(f"file://{folder}/half-done-relink.line.out.html#event=43")
    told = "document.getElementById('told').textContent"
    browser.mouse("mouseMoved", *middle(browser, "#queue [data-pass=\"3\"]"))
    due(
        "the pass under the pointer", browser.run(told),
        "Pass 3. It waits as a writer and is number 3 in the queue: 3 stand before it now. It joined at event 16 behind 2 waiters; "
        "since then 0 passes have left the queue. It is in no batch.",
    )
    browser.mouse("mouseMoved", *middle(browser, "#detached [data-pass=\"4\"]"))
    due("the detached pass", browser.run(told).split(":")[0], "Pass 4. It waits as a writer and is detached")
    browser.mouse("mouseMoved", 5, 5)
    due("no pass", browser.run(told).startswith("Point at a pass"), True)
    browser.resize(360, 740, phone=True)
    browser.open(f"file://{folder}/half-done-relink.line.out.html#event=46")
    browser.tap(*middle(browser, "#queue [data-pass=\"4\"]"))
    due("a tapped pass", "batch with number 3" in browser.run(told), True)
    browser.run("document.activeElement.blur(); null")
    due("a tapped pass stays", "batch with number 3" in browser.run(told), True)
    move(browser, 43)
    due("a tapped pass is told at another event", "is detached" in browser.run(told), True)


def check_names(browser):
    """What a screen reader is given: each control has a name, and the slider says its event."""
    nodes = browser.call("Accessibility.getFullAXTree")["nodes"]
    controls = [node for node in nodes if node.get("role", {}).get("value") in ("button", "slider", "checkbox", "combobox")]
    due("controls without a name", [node for node in controls if not node["name"]["value"]], [])
    sliders = [node for node in controls if node["role"]["value"] == "slider"]
    due("the slider's name", [node["name"]["value"] for node in sliders], ["Event"])
    due("the slider's text", browser.run("slider.getAttribute('aria-valuetext')")[:8], "event 43")


def check_widths(browser, folder, pictures):
    sizes = [(320, 640, True), (360, 740, True), (768, 1024, True), (1280, 860, False), (1920, 1080, False)]
    for name, event in [("half-done-relink.line", 45), ("parking-beside-readers.line", 30), ("two-reader-paths.line", 12), ("empty.line", 0), ("wide", 390)]:
        for width, height, phone in sizes:
            for dark in (False, True):
                browser.resize(width, height, phone, dark)
                browser.open(f"file://{folder}/{name}.out.html#event={event}")
                due(f"{name} fits in {width}", browser.run("document.documentElement.scrollWidth") <= width, True)
                if pictures:
                    browser.picture(f"{pictures}/{name}-{width}-{'dark' if dark else 'light'}.png")
                check_quiet(browser, f"{name} at {width}")


def check_without_scripts(browser, folder):
    browser.call("Emulation.setScriptExecutionDisabled", value=True)
    browser.open(f"file://{folder}/half-done-relink.line.out.html")
    shown_report = browser.run("getComputedStyle(document.getElementById('report')).display")
    due("the report without scripts", shown_report, "block")
    due("the rest without scripts", browser.run("getComputedStyle(document.querySelector('main')).display"), "none")
    browser.call("Emulation.setScriptExecutionDisabled", value=False)


def check_long(browser, folder):
    report = Report(f"{folder}/long.out")
    browser.resize(1280, 860)
    begun = time.time()
    browser.open(f"file://{folder}/long.out.html#event=60000")
    opened = time.time() - begun
    due("the longest report opens within 20 seconds", opened < 20, True)
    due("the longest report's event", shown(browser), 60000)
    for number, wanted in enumerate(report.walk(), 1):
        if number % 4096 == 0 or number == report.events:
            move(browser, number)
            due(f"long: event {number}", browser.run(READ), wanted)
    due("few elements", browser.run("document.querySelectorAll('*').length") < 2000, True)
    took = browser.run("(() => { const t = performance.now(); for (let i = 1; i <= 100; i += 1) show(i * 600); return (performance.now() - t) / 100; })()")
    due("an event is shown within 0.2 seconds", took < 200, True)
    print(f"pages: {len(report.text)} bytes of {report.events} events open in {opened:.1f} s, an event is drawn in {took:.0f} ms")


def browse(folder, pictures):
    browser = Browser()
    try:
        browser.resize(1280, 860)
        reports = sorted(glob.glob("examples/*.line.out")) + [f"{folder}/wide.out"]
        for path in reports:
            check_every_event(browser, folder, path)
        check_keys(browser, folder)
        check_pointer(browser, folder)
        check_names(browser)
        check_widths(browser, folder, pictures)
        check_without_scripts(browser, folder)
        check_long(browser, folder)
    finally:
        browser.close()
    print(f"pages: {len(reports)} reports at each event, {len(failures)} failures")
    return 1 if failures else 0


if __name__ == "__main__":
    if sys.argv[1] == "reports":
        write_reports(sys.argv[2])
    else:
        sys.exit(browse(sys.argv[2], sys.argv[3] if len(sys.argv) > 3 else ""))
