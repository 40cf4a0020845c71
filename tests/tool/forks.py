"""A program that can be asked, and forks, becomes another one, and dies: forks.py PROGRAM TIMES."""
import os, signal, sys
from target import Target, must, until, with_target
from shfl_process import Failed, ask, sweep

program, times = sys.argv[1], int(sys.argv[2])
SAMPLE = b"shfl 1 locks 0\n"


def sockets_of(pid):
    """The descriptors of a process that are sockets."""
    found = []
    for it in os.listdir(f"/proc/{pid}/fd"):
        try:
            found += [it] if os.readlink(f"/proc/{pid}/fd/{it}").startswith("socket:") else []
        except OSError:
            pass
    return found


def brief_children(target):
    """While clients hang, each child ends at once; it has used a lock, so it leaves a socket."""
    must(target.ask(b"shfl 1 attach 0 1 b7000000010000009500000000000000 -\n") == "ok\nversion 1\nend\n", "no policy")
    before = target.in_use()
    held = halves(target)
    must(target.command(f"brief {times}") == "0\n", "the children")
    for at in held:
        at.close()
    target.leaks_nothing(before, "children that end at once")
    sweep(0)
    must(os.listdir(target.room) == [f"shfl-{target.pid}"], f"the sockets: {os.listdir(target.room)}")


def halves(target):
    """Clients that the program hears, in the midst of a request."""
    held = [target.connected() for _ in range(10)]
    for at in held:
        try:
            at.sendall(b"shfl 1 lo")
        except (BrokenPipeError, ConnectionResetError):
            pass
    return held


def ends(at):
    """Whether the client sees that it is dropped."""
    try:
        return at.recv(10) == b""
    except ConnectionResetError:
        return True


def is_recorded(target, place):
    """The child's one thread writes and reads in turns, and no event is missing, though the parent's lock was recorded when it forked."""
    at, found = None, []
    while at is None or len(found) < 200:
        if at is None:
            record, at, found = target.begin_record(-1, place), 0, []
        lines, at = target.events(record, at, place)
        found += lines
    must("".join(it[1] for it in found) in "WfRf" * len(found), f"the child's events: {found}")
    must(len({it[3] for it in found}) == 1, "threads that the child doesn't have")
    must(target.ask(f"shfl 1 forget {record}\n".encode(), place) == "ok\nend\n", "the child's record can't be ended")


def a_child(target):
    """It has a socket of its own, and none of its parent's; a client that the parent dropped sees that while the child lives."""
    target.ask(SAMPLE)
    held = halves(target)
    record = target.begin_record()
    child = int(target.command("child"))
    until(lambda: (told := target.events(record, 0))[0] or told[1] is None, "a fork ends the parent's record")
    place = target.place_of(child)
    until(lambda: os.path.exists(place), "the child has no socket")
    must(f"pid {child}\n" in target.ask(b"shfl 1 hello\n", place), "another process answers for the child")
    must(f"pid {target.pid}\n" in target.ask(b"shfl 1 hello\n"), "another process answers for the parent")
    for at in held:
        must(ends(at), "half a request is answered")
        at.close()
    until(lambda: len(sockets_of(child)) == 1, f"the child has {len(sockets_of(child))} sockets")
    must(target.events(record, 0, place) == ([], None), "the child has its parent's record")
    is_recorded(target, place)
    must(target.ask(b"shfl 1 attach 0 1 b7000000000000009500000000000000 -\n", place) == "ok\nversion 2\nend\n", "the child's policy")
    until(lambda: " drained 0" not in target.ask(b"shfl 1 classes\n", place), "the child waits for threads that it doesn't have")
    with target.connected(place) as at:
        at.sendall(b"shfl 1 lo")
        os.kill(child, signal.SIGKILL)
        must(ends(at), "a client of a killed process")
    leaves_a_socket(target, child)


def leaves_a_socket(target, pid):
    """One at which nobody listens any more: the tool takes it away."""
    until(lambda: refuses(target, pid), "somebody listens still")
    sweep()
    must(os.path.exists(target.place_of(pid)), "a socket is taken away that may be new")
    file = f"{target.room}/shfl-1"
    with open(file, "w", encoding="ascii"):
        sweep(0)
    must(os.path.exists(file), "a file is taken away that is no socket")
    os.unlink(file)
    must(os.listdir(target.room) == [f"shfl-{target.pid}"], f"the sockets: {os.listdir(target.room)}")


def refuses(target, pid):
    try:
        target.connected(target.place_of(pid)).close()
    except ConnectionRefusedError:
        return True
    return False


def another_program(target):
    """A child that becomes another program has nothing of the library's."""
    child = int(target.command("exec"))

    def is_other():
        with open(f"/proc/{child}/comm", encoding="ascii") as at:
            return at.read() == "sleep\n"

    until(is_other, "the child doesn't become another program")
    must(sockets_of(child) == [], "it has sockets")
    leaves_a_socket(target, child)
    os.kill(child, signal.SIGKILL)


def dies():
    """The program is killed with clients in line."""
    target = Target(program, 3)
    try:
        held = [target.connected() for _ in range(30)]
        target.watch.is_over = True
        target.child.kill()
        target.child.wait()
        must(all(map(ends, held)), "an answer of a killed process")
        for at in held:
            at.close()
        try:
            ask(target.pid, "hello")
            must(False, "a killed process answers")
        except Failed as failed:
            must(failed.status == 3, str(failed))
        sweep(0)
        must(os.listdir(target.room) == [], "a socket of a killed process")
    finally:
        target.end()


holds = with_target(program, 3, [brief_children, a_child, another_program])[0]
dies()
print(f"{times} children, one that can be asked and recorded, one that becomes another program, and exact counts of {holds} holds")
