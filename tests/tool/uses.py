"""What bin/shfl shows of a program, how it starts one and what it does to it, and how bash completes its words: uses.py PROGRAM."""
import json, os, re, shutil, signal, socket, subprocess, sys, tempfile, time, unittest.mock
from target import TOP, must, shfl, until, with_target
import shfl_locks, shfl_policy
from shfl_places import Places


def told(pid):
    """The locks and the classes as programs read them."""
    status, text = shfl("stat", str(pid), "--json")
    must(status == 0, text)
    return json.loads(text)


def the_tool(target):
    pid = str(target.pid)
    must(sorted(it["where"] for it in told(pid)["locks"]) == ["hot", "other"], "the symbols of the locks")
    must(shfl("class", pid, "hot", "5") == (0, "1 lock in class 5\n"), "a class of locks")
    there, gone = shfl_locks.meant(target.pid, "hot"), {"number": 0, "address": 4096}
    with unittest.mock.patch.object(shfl_locks, "meant", lambda *_: [gone, *there]):
        must(shfl_locks.put(target.pid, "hot", "5") == 1, "a lock that has gone meanwhile")
    must(shfl("class", pid, "nobody", "5") == (1, "shfl: no lock in use is nobody\n"), "a lock that isn't there")
    with unittest.mock.patch.object(shfl_locks, "locks_of", lambda _: ["it"]), unittest.mock.patch.object(shfl_locks, "shown", lambda *_: "hot+0x18"):
        must(shfl_locks.none_meant(target.pid, "hot") == "no lock in use is hot; in use is hot+0x18", "a lock of pthread's by its symbol alone")
    must([(it["class"], it["locks"]) for it in told(pid)["classes"]] == [(0, 1), (5, 1)], "the classes")
    must(shfl("attach", pid, "5", f"{TOP}/examples/policies/socket.hex")[1].startswith("class 5: version 1; the one before is "), "the version")
    status, text = shfl("stat", pid)
    must(status == 0 and all(len(line) <= 80 for line in text.splitlines()), "more than 80 columns")


def files(target):
    """A policy as digits, in assembly and in C comes to be the same bytes, as far as those are there that make them; a text that is none changes nothing."""
    pid, its = str(target.pid), f"{TOP}/examples/policies/socket"
    has = {"hex": True, "asm": any(os.access(it, os.X_OK) for it in shfl_policy.assemblers()), "c": all(map(shutil.which, ("clang", "llvm-objcopy", "llvm-objdump")))}
    with open(f"{its}.hex", encoding="ascii") as at:
        digits = "".join(at.read().split())
    for form, there in has.items():
        status, text = shfl("attach", pid, "6", f"{its}.{form}")
        must(status == (0 if there else {"asm": 70, "c": 69}[form]), f"a policy in {form}: {status} {text}")
        must(not there or f" {digits} -\n" in target.ask(b"shfl 1 policy 6\n"), f"a policy in {form} has other bytes")
        must(shfl("detach", pid, "6")[0] == 0, "it stays")
    for form, there in has.items():
        with tempfile.NamedTemporaryFile("w", suffix=f".{form}") as file:
            file.write("no policy\n")
            file.flush()
            status, text = shfl("attach", pid, "6", file.name)
        must(not there or (status == 1 and text.startswith("shfl: ")), f"no policy in {form}: {status} {text}")
    must(target.ask(b"shfl 1 policy 6\n") == "ok\nprofile 1 - -\nend\n", "no policy comes to be one")


def questions_of(target, *options):
    """What a program says of itself that is started so, and how often the policy of its hot lock is asked while a thousand calls queue."""
    words = [sys.executable, "-B", f"{TOP}/bin/shfl", "run", *options, "--class", "5=hot", "--policy", f"5={TOP}/examples/policies/socket.hex"]
    child = subprocess.Popen([*words, sys.argv[1], "3"], stdin=subprocess.PIPE, stdout=subprocess.PIPE, text=True)
    try:
        must(child.stdout.readline() == "ready\n", "the program that is run doesn't start")
        pid = until(lambda: [it for it in os.listdir(target.room) if it != f"shfl-{target.pid}"], "no socket of the program that is run")[0][5:]
        its = lambda: next((it for it in told(pid)["classes"] if it["class"] == 5 and it["policy"] and it["locks"]), None)
        before = until(its, "the class and the policy that were asked for")
        after = until(lambda: (now := its())["queued"] > before["queued"] + 1000 and now, "nobody queues")
        said = target.ask(b"shfl 1 hello\n", target.place_of(pid))
    finally:
        counts = child.communicate("stop\n")[0].split()
    must(child.returncode == 0 and counts[1] == counts[2], f"the program that is run ends so: {child.returncode} {counts}")
    return said, after["questions"]


def runs(target):
    """The form and the limit of the locks; with the limit 1 nobody is asked. Words that are none start nothing."""
    said, questions = questions_of(target)
    must("\nform rw\nlimit 1024\n" in said and questions > 0, f"as usual: {said} {questions} questions")
    said, questions = questions_of(target, "--form", "rw-park", "--limit", "1")
    must("\nform rw-park\nlimit 1\n" in said and questions == 0, f"with a form and a limit: {said} {questions} questions")
    for words in (("--form", "spin"), ("--form", ""), ("--limit", "0"), ("--limit", "1025"), ("--limit", "x"), ("--many", "3"), ("--class", "5"), ("--class", "5="),
                  ("--class", "64=hot"), ("--class", "hot=5"), ("--policy", "5"), ("--policy", "x=y")):
        status, text = shfl("run", *words, sys.argv[1], "3")
        must(status == 2 and text.startswith("shfl: ") and text.count("\n") == 1, f"run {words}: {status} {text}")
        must(words[0] != "--class" or "--class CLASS=SELECTOR" in text, f"run {words} doesn't tell the form: {text}")
    must(shfl("run", "--policy", "5=/nowhere", sys.argv[1], "3") == (3, "shfl: /nowhere: No such file or directory\n"), "run with a policy that isn't there")
    status, text = shfl("run", "--class", "5=hot", "true")
    must((status, text) == (0, "shfl: --class 5=hot: not done: the program ended before\n"), f"run of what ends at once: {status} {text}")
    has_descriptors()
    has_signals()
    must(shfl("run", "--form", "rw")[0] == 2 and shfl("run", "--form")[0] == 2 and os.listdir(target.room) == [f"shfl-{target.pid}"], "run without a program")


def lies_behind_files(_):
    """What lies behind a file that is no program has its address for a name, whatever the file's bytes are, and though a look at it would wait."""
    with tempfile.TemporaryDirectory() as room:
        os.mkfifo(f"{room}/pipe")
        for name, data in (("data", b"\xff" * 4096), ("cut", b"\x7fELF\x02\x01" + b"\xff" * 100), ("pipe", None)):
            if data:
                with open(f"{room}/{name}", "wb") as file:
                    file.write(data)
            places = Places(0)
            places.maps = [(0x10000, 0x11000, 0, f"{room}/{name}"), (0x11000, 0x12000, 0, "")]
            must(places.of(0x11008) == ("", "0x11008") and places.of(0x10008) == (name, f"{name}+0x8"), f"what lies behind {name}: {places.of(0x11008)}")


def no_terminals_words(_):
    """What a file is called doesn't come to the terminal as it is."""
    places = Places(0)
    places.maps = [(0x10000, 0x11000, 0, "/tmp/\x1b]0;title\x07")]
    must(places.of(0x10008) == ("?]0;title?", "?]0;title?+0x8"), f"{places.of(0x10008)}")


def has_signals():
    """What is sent to the tool comes to the program that it runs."""
    script = 'trap "echo came; exit 7" HUP USR1 TERM; echo ready; while :; do sleep 0.1; done'
    for it in (signal.SIGHUP, signal.SIGUSR1, signal.SIGTERM):
        words = [sys.executable, "-B", f"{TOP}/bin/shfl", "run", "sh", "-c", script]
        ran = subprocess.Popen(words, stdout=subprocess.PIPE, text=True)
        ran.stdout.readline()
        # (the program may be ready before the tool is)
        time.sleep(0.5)
        ran.send_signal(it)
        said = ran.communicate()[0]
        must(said == "came\n" and ran.returncode == 7, f"{it} sent to the tool: {said} {ran.returncode}")


def has_descriptors():
    """A program that is run has the descriptors that it would have without that; it finds the directory from another one, and its status is told though that has gone."""
    with tempfile.TemporaryDirectory() as room:
        library = f"{room}/a library.so"
        with open(library, "wb"), unittest.mock.patch.dict(os.environ, {"SHFL_PRELOAD": library}):
            must(shfl("run", "true")[0] == 3, "a library that can't be preloaded")
        words = [sys.executable, "-B", f"{TOP}/bin/shfl", "run", "sh", "-c", 'cd / && rm -r "$SHFL_CONTROL" && exit 9']
        for place in (f"{room}/sockets", "sockets"):
            status = subprocess.run(words, cwd=room, env={**os.environ, "SHFL_CONTROL": place}, check=False).returncode
            must(status == 9, f"the status of a program that is run: {status}")
    ours, its = os.pipe()
    ran = subprocess.run([sys.executable, "-B", f"{TOP}/bin/shfl", "run", "sh", "-c", f"echo there >&{its}"], pass_fds=[its], check=False)
    os.close(its)
    with open(ours, "rb") as at:
        must(ran.returncode == 0 and at.read() == b"there\n", "a program that is run lacks a descriptor")


def completed(*words):
    """What bash makes of these words, of which the last one isn't whole."""
    script = f'cd {TOP} && . libshfl/shfl.bash && COMP_WORDS=("$@") COMP_CWORD=$(($# - 1)) && _shfl bin/shfl && printf "%s\\n" "${{COMPREPLY[@]}}"'
    ran = subprocess.run(["bash", "-c", script, "bash", "shfl", *words], capture_output=True, check=True, text=True)
    return sorted(ran.stdout.split())


def completion(target):
    must(completed("att") == ["attach"], "the word attach isn't completed")
    must(completed("stat", "") == [str(target.pid)], "the processes")
    with socket.socket(socket.AF_UNIX) as at:
        place = f"{target.room}/shfl-$(echo 77)"
        at.bind(place)
        must(completed("stat", "") == [str(target.pid)], "bash runs what stands in a socket's name")
        os.unlink(place)
    must(completed("attach", "1", "6") == ["6", "60", "61", "62", "63"], "the classes")
    files = [f"examples/policies/socket.{it}" for it in ("asm", "c", "hex")]
    must(completed("attach", "1", "5", "examples/policies/so") == files, "the files of policies")
    must(completed("run", "--class", "5", "=", "hot", "--po") == ["--policy"], "the words of run")
    must(completed("run", "--class", "6") == completed("run", "--policy", "6") == ["6", "60", "61", "62", "63"], "the classes of run")
    must(completed("run", "--class", "5", "=") == ["all", "heap", "libc.so.6"] and completed("run", "--class", "5", "=", "h") == ["heap"], "the locks of run")
    must(completed("run", "--policy", "5", "=", "examples/policies/socket.h") == ["examples/policies/socket.hex", "examples/policies/socket.hex.out"], "the files of run")
    must(completed("run", "--limit", "8", "--form", "") == ["rw", "rw-park"] and completed("run", "--limit", "") == [], "the forms")
    must(completed("run", "--class", "5", "=", "hot", "--form", "rw", "--") == ["--class", "--form", "--limit", "--policy"], "the words of run")
    must(completed("class", "1", "b") == ["by"] and completed("record", "1", "") == ["all", "by", "heap", "libc.so.6"], "the selectors")
    must(completed("compare", "1", "5", "it.hex", "--seconds", "") == [], "a number")
    must(completed("record", "1", "hot", "1", "-o", "examples/policies/socket.h") == ["examples/policies/socket.hex", "examples/policies/socket.hex.out"], "a file")
    for word, before in (("stat", 1), ("attach", 3), ("record", 3), ("compare", 3)):
        must(completed(word, *["1"] * before, "") == sorted(options_of(word)) != [], f"the options of {word}")


def options_of(word):
    """As the usage of the word has them."""
    return re.findall(r"\[(--?[a-z]+|skip)", shfl(word, "--help")[1].split("\n\n")[0])


def manual(_):
    """The page has each command that the tool tells, and each of its options."""
    with open(f"{TOP}/docs/shfl.1", encoding="utf-8") as file:
        page = file.read()
    for word in re.findall(r"^    shfl ([a-z]+)", shfl("--help")[1], re.M):
        must(f"\n.B shfl {word}\n" in page and f"\n.TP\n.B {word}\n" in page, f"docs/shfl.1 lacks {word}")
        usage = page.split(f"\n.B shfl {word}\n")[1].split("\n.br\n")[0].split("\n.SH ")[0].replace("\\-", "-")
        for it in options_of(word):
            must(re.search(rf"(?<![a-z-]){it}(?![a-z])", usage), f"docs/shfl.1 lacks {it} of {word}")


with_target(sys.argv[1], 3, [the_tool, files, lies_behind_files, no_terminals_words, runs, completion, manual])
