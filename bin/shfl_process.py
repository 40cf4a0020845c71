"""What bin/shfl asks a process at its control socket."""
import contextlib, os, re, socket, stat, struct, time

# what docs/ERRORS.md says of the faults of programs
FAULTS = {
    1: "no bytes", 2: "a length that isn't a multiple of 8", 3: "more than 4,096 bytes",
    4: "an opcode that the profile doesn't have (a call, an atomic, a store or the stack among them)", 5: "a register above 9",
    6: "a field that must be 0", 7: "half of a wide load, at the end or as a jump's target", 8: "a jump that doesn't lead forward (a loop)",
    9: "a way that leaves the program", 10: "a register is read that has no value on some way",
    11: "the context's pointer is used as a number",
    12: "a load outside the forty bytes, not aligned to its size, or whose base is a number"}


class Failed(Exception):
    """What is said on standard error, and the exit status; and where a program is refused at a slot, which."""
    def __init__(self, status, text, slot=None):
        super().__init__(text)
        self.status, self.slot = status, slot


def printable(text):
    """A file's name or a process's words may be meant for the terminal."""
    return "".join(it if it.isprintable() else "?" for it in text)


def pid_of(word):
    if not re.fullmatch(r"[1-9][0-9]{0,9}", word):
        raise Failed(2, f"{word} is no process")
    return int(word)


def class_of(word):
    if not re.fullmatch(r"[0-9]{1,2}", word) or int(word) > 63:
        raise Failed(2, f"{word} is no class: 0 to 63")
    return word


def directory():
    """Where the sockets are, which is this user's own if it is there."""
    told, run = os.environ.get("SHFL_CONTROL", ""), os.environ.get("XDG_RUNTIME_DIR", "")
    room = told if told not in ("", "0", "1") else f"{run}/shfl" if run else f"/tmp/shfl-{os.geteuid()}"
    if os.path.lexists(room) and os.lstat(room).st_uid not in (os.geteuid(), 0) and os.geteuid() != 0:
        raise Failed(3, f"{room} is another user's")
    return room


def connected(place):
    """(A timeout of Python's own would refuse to stand in line where many ask.)"""
    at = socket.socket(socket.AF_UNIX, socket.SOCK_STREAM)
    for it in (socket.SO_SNDTIMEO, socket.SO_RCVTIMEO):
        at.setsockopt(socket.SOL_SOCKET, it, struct.pack("@ll", 10, 0))
    try:
        at.connect(place)
    except OSError:
        at.close()
        raise
    return at


def answer(place, request):
    """What a process answers; a request that it dropped unread, since its time was over, is sent again."""
    until = time.monotonic() + 10
    while True:
        text = b""
        try:
            with connected(place) as at:
                at.sendall(request)
                while not re.search(rb"\A(error|refused) .*\n|^end\n", text, re.M):
                    came = at.recv(65536)
                    if not came:
                        raise ConnectionResetError(None, "it broke off")
                    text += came
            return text
        except BlockingIOError:
            raise OSError(None, "no answer in 10 seconds") from None
        except (BrokenPipeError, ConnectionResetError):
            if text or time.monotonic() > until:
                raise
        time.sleep(0.05)


def sweep(age=60):
    """Takes away the sockets that processes left which were killed or became another program."""
    room = directory()
    with contextlib.suppress(FileNotFoundError):
        for name in os.listdir(room):
            if re.fullmatch(r"shfl-[0-9]+", name):
                sweep_one(f"{room}/{name}", age)


def sweep_one(place, age=0):
    """(One that is new may be about to listen. A file that is no socket refuses a connection too, and isn't a process's.)"""
    try:
        it = os.lstat(place)
        if stat.S_ISSOCK(it.st_mode) and time.time() - it.st_mtime >= age:
            connected(place).close()
    except ConnectionRefusedError:
        # (another one may do the same)
        with contextlib.suppress(FileNotFoundError):
            os.unlink(place)
    except OSError:
        pass


def ask(pid, *words):
    """The lines of an answer between `ok` and `end`."""
    place = f"{directory()}/shfl-{pid}"
    try:
        text = answer(place, " ".join(("shfl", "1") + words).encode() + b"\n")
    except OSError as error:
        raise Failed(3, f"process {pid} can't be asked: {error.strerror or error} ({place}); one can that `shfl run` began, or that has SHFL_CONTROL") from None
    lines = text.decode("ascii", "replace").splitlines()
    if lines[0].startswith("refused"):
        words = lines[0].split()
        raise Failed(6, refusal(words), int(words[3]) if int(words[1]) >= 4 else None)
    if lines[0] != "ok":
        raise Failed(1, f"process {pid}: {printable(lines[0])}")
    return lines[1:-1]


def refusal(words):
    fault, hook, slot, register = int(words[1]), words[2], words[3], words[4]
    place = "" if fault < 4 else f" at slot {slot}" + (f" register {register}" if fault in (10, 11) else "")
    return f"the program {hook} is refused {fault}{place}: {FAULTS.get(fault, 'unknown')}"


def counted(words):
    """Names and numbers; those of waits, `w10` and so on, together by how many nanoseconds they are shorter than."""
    found, waits = {}, {}
    for name, value in zip(words[::2], words[1::2]):
        if re.fullmatch("w[0-9]{1,2}", name):
            waits[1 << int(name[1:])] = int(value)
        else:
            found[name] = int(value)
    return {**found, "waits": waits}


def locks_of(pid):
    found, k = [], "0"
    while k is not None:
        lines, k = ask(pid, "locks", k), None
        for line in lines:
            words = line.split()
            if words[0] == "more":
                k = words[1]
            else:
                found.append({"number": int(words[1]), "address": int(words[3], 16), "class": int(words[5]), **counted(words[6:])})
    return found


def classes_of(pid):
    found = []
    for line in ask(pid, "classes"):
        words = line.split()
        found.append({"class": int(words[1]), **counted(words[2:])})
    return found
