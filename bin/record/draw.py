"""draw.py TOP WORDS: draws the record on standard input for bin/draw; what begins otherwise goes to the proved program, with all its bytes."""
import fcntl, os, signal, sys

TOP, WORDS = sys.argv[1], sys.argv[2:]
sys.path[:0] = [f"{TOP}/bin", f"{TOP}/bin/record"]
BEGIN, MOST = b"shfl-record ", 16777216
PROVED = 'top="$1" program=syncord_draw; shift; . "$top/bin/program.sh"'


class Refused(Exception):
    """A status, and what is said."""

    def __init__(self, status, text):
        super().__init__(text)
        self.status = status


def front_of_input():
    """The first bytes of the input, and those of them that are taken from it: of a file none."""
    try:
        return os.pread(0, len(BEGIN), os.lseek(0, 0, os.SEEK_CUR)), b""
    except OSError:
        pass
    taken = b""
    try:
        while len(taken) < len(BEGIN) and BEGIN.startswith(taken):
            more = os.read(0, len(BEGIN) - len(taken))
            if not more:
                break
            taken += more
    except OSError:
        # (the proved program meets the same fault, and says it)
        pass
    return taken, taken


def pipe_above():
    """A pipe's two ends, neither of them with a standard stream's number, which may be free."""
    both = os.pipe()
    above = [fcntl.fcntl(it, fcntl.F_DUPFD_CLOEXEC, 3) for it in both]
    for it in both:
        os.close(it)
    return above


def put_back(taken):
    """Whoever reads standard input next finds these bytes and then the others, from a process that hands them on."""
    inner, outer = pipe_above()
    if os.fork() == 0:
        try:
            signal.signal(signal.SIGPIPE, signal.SIG_DFL)
            os.close(inner)
            os.closerange(1, 3)
            while taken:
                taken = taken[os.write(outer, taken):] or os.read(0, 65536)
        finally:
            os._exit(0)
    os.dup2(inner, 0)
    os.close(inner)
    os.close(outer)


def hand_on(taken):
    if taken:
        put_back(taken)
    for it in (signal.SIGPIPE, signal.SIGXFSZ):
        signal.signal(it, signal.SIG_DFL)
    os.execvp("sh", ["sh", "-c", PROVED, "draw", TOP, *WORDS])


def drawn(data):
    """What the words ask for of the record, as text."""
    import page, reading, rows
    from shfl_picture import picture
    from shfl_record import held
    try:
        record = reading.read(data)
    except reading.Bad as bad:
        raise Refused(1, str(bad)) from None
    if WORDS == ["--html"]:
        return page.page_of(data.decode())
    return rows.text_of(record) if WORDS == ["--text"] else picture(record, *held(record))


def rest_of_input(taken):
    if WORDS not in ([], ["--html"], ["--text"]):
        raise Refused(2, "words")
    try:
        data = taken + sys.stdin.buffer.read(MOST + 1)
    except OSError:
        raise Refused(3, "read fault") from None
    if len(data) > MOST:
        raise Refused(1, "input too large")
    return data


def write(text):
    left, done = memoryview(text.encode()), 0
    try:
        while done < len(left):
            done += os.write(1, left[done:])
    except OSError:
        raise Refused(4, f"write fault after {done} bytes") from None


def tell(text):
    """(A fault of the error stream changes no status.)"""
    try:
        os.write(2, text.encode())
    except OSError:
        pass


def main():
    front, taken = front_of_input()
    if front != BEGIN:
        hand_on(taken)
    try:
        write(drawn(rest_of_input(taken)))
    except Refused as refused:
        tell(f"draw: {refused}\n")
        return refused.status
    except MemoryError:
        return 5
    return 0


if __name__ == "__main__":
    sys.exit(main())
