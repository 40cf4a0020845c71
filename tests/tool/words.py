"""What tests/tool.sh asks of bin/shfl's words at a program that knows the order of its lock's holders (order.c): words.py PROGRAM."""
import array, json, os, re, runpy, shutil, signal, subprocess, sys, tempfile, time

TOP = os.path.dirname(os.path.dirname(os.path.dirname(os.path.realpath(__file__))))
NO = "b7000000000000009500000000000000"
room = tempfile.mkdtemp()
os.environ["SHFL_CONTROL"] = room
target = subprocess.Popen([sys.argv[1], "4", f"{room}/order"], stdin=subprocess.PIPE, stdout=subprocess.PIPE, text=True)
pid = str(target.pid)
tool = runpy.run_path(f"{TOP}/bin/shfl", run_name="tool")
ask, Failed = tool["ask"], tool["Failed"]


def must(fact, what):
    if not fact:
        target.kill()
        sys.exit(f"tests/tool.sh: {what}")


def shfl(*words, status=0):
    ran = subprocess.run([sys.executable, "-B", f"{TOP}/bin/shfl", *words], capture_output=True, text=True, timeout=300)
    must(ran.returncode == status, f"shfl {' '.join(words)}: status {ran.returncode}: {ran.stderr}")
    must("\x1b" not in ran.stdout, f"shfl {' '.join(words)}: colours where there is no terminal")
    must(words[-1:] == ("--json",) or all(len(line) <= 80 for line in ran.stdout.splitlines()), f"shfl {' '.join(words)}: more than 80 columns")
    return ran.stdout


def refused(*words):
    try:
        return ask(pid, *words)
    except Failed as failed:
        return str(failed)


def starts():
    must(target.stdout.readline() == "ready\n", "the program doesn't begin")
    until = time.monotonic() + 60
    while not os.path.exists(f"{room}/shfl-{pid}") or not any(it["contended"] > 500 for it in tool["locks_of"](pid)):
        must(time.monotonic() < until, "no socket, or nobody waits")
        time.sleep(0.05)


def waits():
    """p99 stands between the mean and the longest; and what is always true, however long one of a hundred waited."""
    told = json.loads(shfl("stat", pid, "--json"))
    for it in told["locks"] + told["classes"]:
        count = sum(it["waits"].values())
        must(count <= it["contended"], f"more waits than calls that found it taken: {it}")
        if count == 0:
            must(it["mean_ns"] is None and it["p99_ns"] is None, f"a mean of no waits: {it}")
            continue
        must(it["mean_ns"] <= 0.99 * it["p99_ns"] + 0.01 * it["longest_ns"], f"the waits don't agree: {it}")
        must(it["p99_ns"] <= it["longest_ns"] and it["mean_ns"] <= it["longest_ns"], f"p99 and the longest: {it}")
    share = runpy.run_path(f"{TOP}/bin/shfl_tables.py")["share_ns"]
    must(share({1024: 99, 8192: 1}, 99, 5000) == 1024 and share({1024: 98, 8192: 2}, 99, 5000) == 5000 and share({}, 99, 0) is None, "p99 of known waits")
    hot = next(it for it in told["locks"] if it["class"] == 3)
    must(hot["caller"]["file"] == os.path.basename(sys.argv[1]) and hot["caller"]["where"].startswith("worker+0x"), f"the caller: {hot}")
    must(re.search(r"^by worker\+0x\w+ ", shfl("stat", pid), re.M), "the table names no caller")
    must(shfl("class", pid, "by worker", "4") == "1 lock in class 4\n", "a lock by its caller")


def pieces(lines):
    """The holders in order, as far as no event is missing."""
    found = [[]]
    for line in lines:
        words = line.split()
        if words[1] == "lost":
            found.append([])
        elif words[1] == "takes":
            found[-1].append(int(words[2]))
    return [it for it in found if it]


def is_in_turn(lines):
    """Each holder frees the lock before the next one takes it."""
    holder = None
    for line in lines:
        words = line.split()
        if words[1] == "lost":
            holder = None
        elif words[1] == "takes":
            must(holder is None, f"two holders: {line}")
            holder = words[2]
        elif words[1] == "frees" and holder is not None:
            must(holder == words[2], f"another one frees: {line}")
            holder = None


def records():
    shfl("record", pid, "by worker", "1", "-o", f"{room}/record", "--svg", f"{room}/record.svg")
    with open(f"{room}/record", encoding="ascii") as file:
        head, *lines, end = file.read().splitlines()
    threads, lines = [it for it in lines if it.startswith("thread ")], [it for it in lines if not it.startswith("thread ")]
    must(head.startswith(f"shfl-record 1 process {pid} lock by_worker+0x") and len(threads) == 4, head)
    must(end == f"end events {sum(it.split()[1] != 'lost' for it in lines)} lost {sum(int(it.split()[2]) for it in lines if it.split()[1] == 'lost')}", end)
    must(len(lines) > 100 and os.path.getsize(f"{room}/record.svg") > 1000, "nothing was recorded")
    is_in_turn(lines)
    return pieces(lines)


def is_interrupted():
    """What has come by then is the record."""
    client = subprocess.Popen([sys.executable, "-B", f"{TOP}/bin/shfl", "record", pid, "by worker", "60", "--most", "5000000", "-o", f"{room}/brief"], stdout=subprocess.DEVNULL)
    until = time.monotonic() + 60
    # (no lock is there; but first it is said that there is a record)
    while " 16 " not in refused("record", "0", "1", "1000"):
        must(time.monotonic() < until, "no record begins")
        time.sleep(0.01)
    # (before so many events have come)
    time.sleep(0.2)
    client.send_signal(signal.SIGINT)
    must(client.wait(60) == 0 and os.path.exists(f"{room}/brief"), "an interrupted record")
    with open(f"{room}/brief", encoding="ascii") as file:
        *_, end = file.read().splitlines()
    must(re.fullmatch(r"end events [1-9]\d* lost \d+", end), f"an interrupted record ends so: {end}")


def ends_by_itself():
    """A client that asks no more; another record meanwhile; words that are none."""
    it = next(it for it in tool["locks_of"](pid) if it["class"] == 4)
    place = (str(it["number"]), f"{it['address']:x}")
    number = ask(pid, "record", *place, "600000")[0].split()[1]
    for words in (("record", *place, "0"), ("record", *place, "600001"), ("record", "99999999", place[1], "1000"), ("events", "x", "0"), ("policy", "64")):
        must(" 22 " in refused(*words), f"{words} aren't refused")
    must(" 2 " in refused("events", str(int(number) + 1), "0") and " 2 " in refused("forget", "0"), "another one's record")
    client = subprocess.Popen([sys.executable, "-B", f"{TOP}/bin/shfl", "record", pid, "by worker", "2"], stdout=subprocess.DEVNULL, stderr=subprocess.DEVNULL)
    reads = True
    while client.poll() is None:
        # (where this machine lets nobody run for two seconds, the first record has ended)
        reads = reads and isinstance(refused("events", number, "0"), list)
        time.sleep(0.05)
    must(client.returncode == 1 or not reads, "a second record by the tool")
    until = time.monotonic() + 60
    while isinstance(refused("record", *place, "1000"), str):
        must(time.monotonic() < until, "a record that nobody reads goes on")
        time.sleep(0.1)
    must(" 2 " in refused("events", number, "0"), "it can be read still")


def compares():
    """A policy that always says no, at a lock that is taken so often by the clock; before it the class has another policy, which it has again."""
    with open(f"{room}/no.hex", "w", encoding="ascii") as file:
        file.write(NO)
    shfl("attach", pid, "9", f"{TOP}/examples/policies/socket.hex")
    before = ask(pid, "policy", "9")
    told = json.loads(shfl("compare", pid, "9", f"{room}/no.hex", "--seconds", "1", "--rounds", "3", "--html", f"{room}/page.html", "--json"))
    must([it["policy"] for it in told["turns"]] == ["off", "on"] * 3 and all(it["taken"] > 0 for it in told["turns"]), f"the turns: {told}")
    must(told["verdict"] == "no difference seen", f"a difference where there is none: {told}")
    must(ask(pid, "policy", "9") == before and before[0].split()[2] != "-", "the class doesn't have its policy again")
    shfl("detach", pid, "9")
    must("no difference seen" in shfl("compare", pid, "9", f"{room}/no.hex", "--seconds", "0.3", "--rounds", "2"), "the table")
    must(ask(pid, "policy", "9") == ["profile 1 - -"], "the class has a policy")
    with open(f"{room}/page.html", encoding="utf-8") as file:
        page = file.read()
    must(page.count("<svg") == 2 and page.count("http") == 2 and "<script" not in page and page.count('class="bar on"') == 9, "the page")
    verdict = runpy.run_path(f"{TOP}/bin/shfl_compare.py")["verdict_of"]
    for off, on, wanted in (((100, 101), (90, 91), "less with the policy"), ((100, 101), (120, 121), "more with the policy"),
                            ((100, 110), (105, 115), "no difference seen"), ((100, 110), (112, 115), "no difference seen"), ((100, 101), (101.5, 102), "no difference seen")):
        found = [{"policy": word, "throughput": it, "waits": 0} for word, both in (("off", off), ("on", on)) for it in both]
        must(verdict(found, "throughput") == wanted, f"{off} and {on}: {verdict(found, 'throughput')}")


def is_put_back():
    """Who is ended in the middle leaves no policy behind; somebody else's stays."""
    for word, other in ((signal.SIGINT, None), (signal.SIGTERM, None), (signal.SIGHUP, None), (None, "7")):
        client = subprocess.Popen([sys.executable, "-B", f"{TOP}/bin/shfl", "compare", pid, "9", f"{room}/no.hex", "--seconds", "1"],
                                  stdout=subprocess.DEVNULL, stderr=subprocess.DEVNULL)
        until = time.monotonic() + 60
        while ask(pid, "policy", "9") == ["profile 1 - -"]:
            must(time.monotonic() < until, "it doesn't begin")
            time.sleep(0.01)
        if other:
            ask(pid, "attach", "9", "1", "-", NO)
        else:
            client.send_signal(word)
        status = client.wait(60)
        must(status == 1, f"compare, ended: {status}")
        must(ask(pid, "policy", "9") == [f"profile 1 - {NO}" if other else "profile 1 - -"], "what stands behind it")


def helps():
    for word in tool["COMMANDS"]:
        must(shfl(word, "--help").startswith(f"shfl {word}"), f"help of {word}")
    must("compare PID" in shfl("--help"), "help")
    for words in ((), ("none",), ("record", pid), ("record", pid, "x", "601"), ("compare", pid, "9"), ("compare", pid, "64", "x"), ("stat",)):
        shfl(*words, status=2)
    shfl("record", pid, "nobody", "1", status=1)
    shfl("compare", pid, "9", f"{room}/none.hex", status=3)
    shfl("compare", pid, "9", f"{TOP}/examples/loop.hex", status=6)
    shfl("stat", "1", status=3)


starts()
waits()
found = records()
for step in (is_interrupted, ends_by_itself, compares, is_put_back, helps):
    step()
target.stdin.write("\n")
target.stdin.flush()
must(target.stdout.readline() == "written\n", "the order")
with open(f"{room}/order", "rb") as order_file:
    order = order_file.read()
for piece in found:
    must(array.array("i", piece).tobytes() in order, f"{len(piece)} holders aren't in the program's order")
target.stdin.close()
must(target.wait(60) == 0, "the end")
shutil.rmtree(room)
print(f"a record of {sum(map(len, found))} holders in {len(found)} pieces, each in the program's own order")
