"""Attacks the control socket of a program whose threads wait for a lock: attack.py PROGRAM TIMES. Afterwards its policies are as they were, it
has as many descriptors and threads and no more memory, and its threads have never stood still."""
import errno, os, random, signal, socket, subprocess, sys, threading
from target import TOP, must, until, with_target

program, times = sys.argv[1], int(sys.argv[2])
READS = (b"shfl 1 hello\n", b"shfl 1 classes\n", b"shfl 1 locks 0\n", b"shfl 1 locks 4294967295\n")
SAMPLE = b"shfl 1 locks 0\n"
random.seed(1)


def leaves_no_trace(attack):
    """The attack, after which the program is as it was before."""
    def step(target):
        target.ask(SAMPLE)
        versions, before = target.versions(), target.in_use()
        attack(target)
        must(target.versions() == versions, f"{attack.__name__} has changed a policy")
        target.leaks_nothing(before, attack.__name__)
    step.__name__ = attack.__name__
    return step


def warm_up(target):
    """Each place for clients is used once, so that its memory doesn't count as leaked."""
    must(target.ask(b"shfl 1 attach 0 1 b7000000010000009500000000000000 -\n") == "ok\nversion 1\nend\n", "no policy")
    held = [target.connected() for _ in range(60)]
    for at in held:
        at.sendall(b"x" * 17999)
    for at in held:
        at.close()
    for _ in range(200):
        target.ask(SAMPLE)


def as_user(user, what):
    """What a child of another user says."""
    read, write = os.pipe()
    child = os.fork()
    if child == 0:
        try:
            os.setgroups([])
            os.setresgid(user, user, user)
            os.setresuid(user, user, user)
            said = what()
        except OSError as error:
            said = errno.errorcode[error.errno]
        except BaseException as error:  # pylint: disable=broad-except
            said = repr(error)
        os.write(write, said.encode())
        os._exit(0)
    os.close(write)
    with os.fdopen(read, "rb") as at:
        said = at.read().decode()
    os.waitpid(child, 0)
    return said


def another_user(target):
    """The directory keeps others out; and where it is opened to them by mistake, they are dropped unheard."""
    if os.geteuid() != 0:
        print("tests/tool.sh: another user is left out, which needs root", file=sys.stderr)
        return

    def attach():
        with target.connected() as at:
            try:
                at.sendall(b"shfl 1 detach 0\n")
                return f"answered {at.recv(100)}"
            except (BrokenPipeError, ConnectionResetError):
                return "answered b''"

    must((said := as_user(65534, attach)) == "EACCES", f"another user: {said}")
    os.chmod(target.room, 0o755)
    os.chmod(target.place, 0o777)
    for _ in range(20):
        must((said := as_user(65534, attach)) == "answered b''", f"another user whom the directory lets in: {said}")
    os.chmod(target.room, 0o700)


def bad_lines(target):
    for line, wanted in ((b"shfl 2 hello\n", "error 93 "), (b"shfl 0 hello\n", "error 93 "), (b"shfl 11 hello\n", "error 93 "), (b"\n", "error 22 "),
                         (b"shfl 1 hello \n", "error 22 "), (b"shfl 1 locks -1\n", "error 22 "), (b"shfl 1 hello\r\n", "error 22 "),
                         (b"shfl 1 class 0 1 64\n", "error 22 "), (b"shfl 1 class 0 1 3\n", "error 2 "), (b"shfl 1 class 99999999 1 3\n", "error 22 "),
                         (b"shfl 1 attach 0 3 - -\n", "error 22 "), (b"shfl 1 attach 64 1 - -\n", "error 22 "), (b"shfl 1 attach 0 1 9 -\n", "error 22 "),
                         (b"shfl 1 attach 0 1 " + b"00" * 4105 + b" -\n", "error 22 "), (b"shfl 1 attach 0 1 " + b"00" * 4104 + b" -\n", "refused 3 should"),
                         (b"shfl 1 attach 0 1 95 -\n", "refused 2 should"), (b"shfl 1 attach 0 1 - 0500ffff000000009500000000000000\n", "refused 8 skip"),
                         (b"shfl 1 hello\nshfl 1 hello\n", "error 22 "), (b"shfl 1 hello\0\n", "error 22 "), (b"shfl 1 detach 64\n", "error 22 "),
                         (b"x" * 18000, "error 22 ")):
        text = target.ask(line)
        must(text.startswith(wanted) and text.count("\n") == 1, f"{line[:60]}: {text}")


def random_bytes(target):
    """Of any kind, and right requests with some bytes of another kind in them."""
    for k in range(times):
        if k % 2:
            line = bytearray(random.choice(READS))
            for _ in range(random.randrange(1, 4)):
                line[random.randrange(len(line) - 1)] = random.randrange(256)
            text = target.ask(bytes(line))
            must(text.startswith("error ") and text.count("\n") == 1 or text.endswith("\nend\n"), f"{bytes(line)}: {text}")
        else:
            text = target.ask(random.randbytes(random.randrange(1, 200)) + b"\n")
            must(text.startswith("error 22 ") and text.count("\n") == 1, f"random bytes: {text}")


def half_requests(target):
    """Clients that hang, break off, or read nothing; another one is answered beside them."""
    for _ in range(max(1, times // 10000)):
        held = []
        for k in range(300):
            at = target.connected()
            try:
                at.sendall((b"", b"shfl 1 lo", SAMPLE, b"x" * 17999)[k % 4])
                if k % 3 == 0:
                    at.shutdown(socket.SHUT_WR)
            except (BrokenPipeError, ConnectionResetError, OSError):
                pass
            if k % 5:
                held.append(at)
            else:
                at.close()
        target.goes_on()
        for at in held:
            at.close()


def many_at_once(target):
    """1,000 clients, each of which is answered."""
    threading.stack_size(256 * 1024)
    start, failed = threading.Barrier(1000), []

    def client():
        start.wait()
        try:
            if not target.ask(random.choice(READS)).endswith("\nend\n"):
                failed.append("half an answer")
        except (SystemExit, OSError) as error:
            failed.append(str(error))

    threads = [threading.Thread(target=client) for _ in range(1000)]
    for it in threads:
        it.start()
    for it in threads:
        it.join()
    must(not failed, f"{len(failed)} of 1,000 clients at once aren't answered: {failed[:3]}")


def in_child(what):
    """A child that does this, then stops itself; it is there and stopped when this returns."""
    child = os.fork()
    if child == 0:
        try:
            what()
        except OSError:
            pass
        os.kill(os.getpid(), signal.SIGSTOP)
        os._exit(0)
    return child


def end_child(child):
    os.kill(child, signal.SIGKILL)
    os.waitpid(child, 0)


def stopped_clients(target):
    """More than there are places for, in the midst of a request."""
    held = []

    def half():
        held.append(target.connected())
        held[-1].sendall(b"shfl 1 attach 0 1 b7")

    children = [in_child(half) for _ in range(20)]
    for child in children:
        must(os.WIFSTOPPED(os.waitpid(child, os.WUNTRACED)[1]), "a client isn't stopped")
    target.goes_on()
    for child in children:
        end_child(child)


def floods(target):
    """Three clients that send requests without end and read nothing; another one is answered beside them."""
    def flood():
        held = []
        while True:
            try:
                at = target.connected()
                held.append(at)
                at.setblocking(False)
                at.send(SAMPLE)
                at.send(SAMPLE * 1000)
            except OSError:
                pass
            if len(held) > 50:
                held.pop(0).close()

    children = [in_child(flood) for _ in range(3)]
    try:
        for _ in range(max(20, times // 100)):
            must(target.ask(SAMPLE).endswith("\nend\n"), "no answer beside a flood")
        target.goes_on()
    finally:
        for child in children:
            end_child(child)


def killed_tool(target):
    """bin/shfl is stopped, and killed, in the midst of what it does."""
    for _ in range(max(3, times // 10000)):
        tool = subprocess.Popen([sys.executable, f"{TOP}/bin/shfl", "top", str(target.pid)], stdout=subprocess.PIPE)
        tool.stdout.readline()
        tool.send_signal(signal.SIGSTOP)
        target.goes_on()
        tool.kill()
        tool.communicate()


steps = [another_user, bad_lines, random_bytes, half_requests, many_at_once, stopped_clients, floods, killed_tool]
holds = with_target(program, 3, [warm_up, *map(leaves_no_trace, steps)])[0]
print(f"{times} random requests, half ones, 1,000 clients at once, floods, and exact counts of {holds} holds")
