"""A program that uses the library by itself, under the preload library besides: its own locks are told, whichever are used first: both.py PROGRAM PRELOAD."""
import json, os, subprocess, sys, tempfile
from target import must, shfl

program, library = sys.argv[1:]


def locks_told(first):
    env = {**os.environ, "LD_PRELOAD": library}
    child = subprocess.Popen([program, first], env=env, stdin=subprocess.PIPE, stdout=subprocess.PIPE, text=True)
    try:
        must(child.stdout.readline() == "ready\n", "the program doesn't begin")
        status, text = shfl("stat", str(child.pid), "--json")
    finally:
        child.communicate("\n")
    must(status == 0 and child.returncode == 0, f"{status} {text}")
    return [it["where"] for it in json.loads(text)["locks"]]


with tempfile.TemporaryDirectory() as room:
    os.environ["SHFL_CONTROL"] = room
    for it in ("own", "pthread"):
        found = locks_told(it)
        must(found == ["hot"], f"the locks of a program that uses its {it} ones first: {found}")
        must(os.listdir(room) == [], f"a socket stays: {os.listdir(room)}")
print("a preloaded program that uses the library is asked for its own locks")
