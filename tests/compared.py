"""The page of `shfl compare --html`, made of known turns and opened in a browser without a window (tests/records.sh): compared.py FOLDER PICTURES.
Its bars, numbers and verdicts are read and compared with the turns; it fits, loads nothing and needs no scripts."""
import os
import subprocess
import sys

from browser import Browser
from pages import check_quiet, due, failures

TOP = os.path.dirname(os.path.dirname(os.path.realpath(__file__)))
sys.path.insert(0, f"{TOP}/bin")
from shfl_compare import verdicts, whole_verdict
from shfl_page import page

# holds a second, mean and p99 of the waits in nanoseconds, waits; and what the page is to show of the first three
TURNS = (("off", 100_000, 40_000, 131_072, 5000, ("100k", "40.0 us", "131 us")), ("on", 50_000, 41_000, 524_288, 9000, ("50.0k", "41.0 us", "524 us")),
         ("off", 98_000, 44_000, 131_072, 6000, ("98.0k", "44.0 us", "131 us")), ("on", 49_000, 39_000, 1_048_576, 9500, ("49.0k", "39.0 us", "1.05 ms")))
VERDICTS = ["less with the policy", "no difference seen", "more with the policy"]
READ = """[[...document.querySelectorAll('.bar')].map(it => [it.firstElementChild.textContent, it.lastElementChild.textContent,
    it.querySelector('.room > div').offsetWidth / it.querySelector('.room').offsetWidth]),
    [...document.querySelectorAll('p > b')].slice(1).map(it => it.textContent), document.querySelector('.verdict').textContent,
    [...document.querySelectorAll('svg')].map(it => it.getBoundingClientRect().height > 50), document.querySelectorAll('td').length]"""


def write(folder):
    found = [{"policy": word, "seconds": 3.0, "taken": 3 * held, "waits": waits, "throughput": held, "mean_ns": mean, "p99_ns": most, "longest_ns": 2 * most,
              "within": waits, "across": 0, "questions": 0, "yes": 0} for word, held, mean, most, waits, _ in TURNS]
    said = verdicts(found)
    with open(f"{TOP}/examples/priority.record", "rb") as record:
        picture = subprocess.run([f"{TOP}/bin/draw"], stdin=record, capture_output=True, check=True, text=True).stdout
    told = {"pid": 1505, "class": 5, "file": "a & <b>.hex", "turns": found, "verdicts": said, "verdict": whole_verdict(said)}
    with open(f"{folder}/compared.html", "w", encoding="utf-8") as file:
        file.write(page(told, {"off": picture, "on": picture}))


def check(browser, what):
    bars, said, whole, pictures, cells = browser.run(READ)
    for k, column in enumerate((1, 2, 3)):
        most = max(it[column] for it in TURNS)
        for bar, it in zip(bars[4 * k:4 * k + 4], TURNS):
            due(f"{what}: a bar of turn {it[:2]}", bar[:2], [it[0], it[5][k]])
            due(f"{what}: its length", abs(bar[2] - it[column] / most) < 0.02, True)
    due(f"{what}: bars", len(bars), 12)
    due(f"{what}: the verdicts", said, VERDICTS)
    due(f"{what}: the whole verdict", whole, "Holds a second: less with the policy; p99 of the waits: more with the policy")
    due(f"{what}: two pictures, four turns", (pictures, cells), ([True, True], 40))


def browse(folder, pictures):
    write(folder)
    browser = Browser()
    try:
        browser.call("Emulation.setScriptExecutionDisabled", value=True)
        for width, height, phone, dark in ((320, 640, True, False), (390, 844, True, True), (1280, 860, False, False)):
            browser.resize(width, height, phone, dark)
            browser.open(f"file://{folder}/compared.html")
            check(browser, f"compared at {width}")
            due(f"it fits in {width}", browser.run("document.documentElement.scrollWidth") <= width, True)
            due("the file's name", browser.run("document.querySelectorAll('b')[0].textContent"), "a & <b>.hex")
            check_quiet(browser, f"compared at {width}")
            if pictures:
                browser.picture(f"{pictures}/compared-{width}.png")
    finally:
        browser.close()
    print(f"compared: {len(failures)} failures")
    return 1 if failures else 0


sys.exit(browse(sys.argv[1], sys.argv[2] if len(sys.argv) > 2 else ""))
