"""A program at whose control socket the tests ask (hot.c): what it answers, whether its threads go on, and what it has in use."""
import os, re, signal, socket, struct, subprocess, sys, tempfile, threading, time

TOP = os.path.dirname(os.path.dirname(os.path.dirname(os.path.realpath(__file__))))
sys.path.insert(0, f"{TOP}/bin")
# for what a busy machine does late; nothing that is as it should be comes near it
PATIENCE = 120


def must(fact, what):
    if not fact:
        raise SystemExit(f"tests/tool.sh: {what}")


def until(fact, what):
    """Waits until that is so."""
    end = time.monotonic() + PATIENCE
    while not (found := fact()):
        must(time.monotonic() < end, what)
        time.sleep(0.02)
    return found


def shfl(*words):
    """The tool's status, and what it writes."""
    ran = subprocess.run([sys.executable, "-B", f"{TOP}/bin/shfl", *words], capture_output=True, text=True, check=False)
    return ran.returncode, ran.stdout + ran.stderr


class Watch(threading.Thread):
    """Looks at how often the hot lock was taken, and keeps for how long that stood still at most."""

    def __init__(self, file):
        super().__init__(daemon=True)
        self.file, self.longest, self.is_over = file, 0.0, False

    def count(self):
        with open(self.file, "rb") as at:
            return struct.unpack("Q", at.read(8))[0]

    def run(self):
        last, since = self.count(), time.monotonic()
        while not self.is_over:
            time.sleep(0.02)
            count, now = self.count(), time.monotonic()
            if count != last:
                last, since = count, now
            else:
                self.longest = max(self.longest, now - since)


class Target:
    def __init__(self, program, threads):
        self.room, self.apart = tempfile.mkdtemp(), tempfile.mkdtemp()
        os.environ["SHFL_CONTROL"] = self.room
        words = [program, str(threads), f"{self.apart}/holds"]
        self.child = subprocess.Popen(words, stdin=subprocess.PIPE, stdout=subprocess.PIPE, text=True, start_new_session=True)
        self.pid = self.child.pid
        self.place = self.place_of(self.pid)
        must(self.child.stdout.readline() == "ready\n", "the program doesn't start")
        until(lambda: os.path.exists(self.place), "no socket")
        self.watch = Watch(f"{self.apart}/holds")
        self.watch.start()

    def place_of(self, pid):
        return f"{self.room}/shfl-{pid}"

    def connected(self, place=None):
        """A connection that stands in line where many ask."""
        at = socket.socket(socket.AF_UNIX)
        for it in (socket.SO_SNDTIMEO, socket.SO_RCVTIMEO):
            at.setsockopt(socket.SOL_SOCKET, it, struct.pack("@ll", PATIENCE, 0))
        at.connect(place or self.place)
        return at

    def ask(self, line, place=None):
        """The answer; where this machine is so busy that the client's time was over, or a new socket isn't heard yet, it asks again."""
        end = time.monotonic() + PATIENCE
        while time.monotonic() < end:
            text = b""
            try:
                with self.connected(place) as at:
                    at.sendall(line)
                    while came := at.recv(65536):
                        text += came
            except (BrokenPipeError, ConnectionResetError, ConnectionRefusedError):
                time.sleep(0.01)
            if text:
                return text.decode()
        raise SystemExit(f"tests/tool.sh: no answer to {line[:60]}")

    def counts(self, request, word):
        return [int(it) for it in re.findall(rf" {word} (\d+)", self.ask(request))]

    def versions(self):
        return re.findall(r"class (\d+) locks (\d+) policy (\d+) version (\d+)", self.ask(b"shfl 1 classes\n"))

    def begin_record(self, which=0, place=None):
        """Of the lock that was used first, or last (-1): the record's number."""
        number, address = re.findall(r"^lock (\d+) at (\w+) ", self.ask(b"shfl 1 locks 0\n", place), re.M)[which]
        said = self.ask(f"shfl 1 record {number} {address} 600000\n".encode(), place)
        must(re.fullmatch(r"ok\nrecord \d+\nend\n", said), f"no record: {said}")
        return int(said.split()[2])

    def events(self, record, at, place=None):
        """What there is from the event `at` on, and which one is next; or no number, where nobody asked for two seconds."""
        said = self.ask(f"shfl 1 events {record} {at}\n".encode(), place)
        if said.startswith("error 2 "):
            return [], None
        *lines, last = said.splitlines()[1:-1]
        return [it.split() for it in lines], int(last.split()[1])

    def command(self, line):
        """What the program answers to a line on its standard input."""
        self.child.stdin.write(f"{line}\n")
        self.child.stdin.flush()
        return self.child.stdout.readline()

    def goes_on(self):
        """The threads take the lock, and the library counts it."""
        before, counted = self.watch.count(), sum(self.counts(b"shfl 1 locks 0\n", "taken"))
        until(lambda: self.watch.count() > before, "the program stands still")
        until(lambda: sum(self.counts(b"shfl 1 locks 0\n", "taken")) > counted, "nothing is counted any more")

    def in_use(self):
        """Its descriptors, its threads, and its memory in KB."""
        with open(f"/proc/{self.pid}/status", encoding="ascii") as lines:
            said = dict(it.split(":", 1) for it in lines)
        return len(os.listdir(f"/proc/{self.pid}/fd")), int(said["Threads"]), int(said["RssAnon"].split()[0])

    def leaks_nothing(self, before, what, more=4096):
        """As many descriptors and threads as before, once the clients' time is over, and no more memory than `more` KB on top."""
        until(lambda: self.in_use()[:2] == before[:2], f"{what}: descriptors, threads {before[:2]} before and {self.in_use()[:2]} now")
        grown = self.in_use()[2] - before[2]
        must(grown <= more, f"{what}: {grown} KB more memory")

    def stop(self):
        """The threads end, and their own counts are the library's; what the program tells."""
        self.watch.is_over = True
        self.watch.join()
        said = self.command("stop").split()
        must(said[1] == said[2] and said[4] == said[5] and int(said[1]) > 0, f"the counts: {said}")
        more = self.child.communicate()[0]
        must(self.child.returncode == 0 and os.listdir(self.room) == [], "the end")
        must(self.watch.longest < PATIENCE / 2, f"the program stood still for {self.watch.longest:.0f} s")
        os.rmdir(self.room)
        os.unlink(f"{self.apart}/holds")
        os.rmdir(self.apart)
        return [int(said[1]), *map(int, re.findall(r"\d+", more))]

    def end(self):
        """After a failure too, and with its children."""
        self.watch.is_over = True
        try:
            os.killpg(self.pid, signal.SIGKILL)
        except ProcessLookupError:
            pass
        self.child.wait()
        for room in (self.room, self.apart):
            for name in os.listdir(room) if os.path.isdir(room) else []:
                os.unlink(f"{room}/{name}")
            if os.path.isdir(room):
                os.rmdir(room)


def with_target(program, threads, steps):
    """Runs steps at a target of their own, one after another; each is to leave it as it was. What the target tells at its end."""
    target = Target(program, threads)
    try:
        for step in steps:
            began = time.monotonic()
            step(target)
            target.goes_on()
            if sys.stderr.isatty() or os.environ.get("TOOL_TIMES"):
                print(f"tests/tool.sh: {getattr(step, '__name__', 'a step')}: {time.monotonic() - began:.1f} s", file=sys.stderr)
        return target.stop()
    finally:
        target.end()
