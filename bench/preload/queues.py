"""Four threads compress what four others put into a queue; the sums of what came out, in order, are printed."""
import queue
import sys
import threading
import time
import zlib

THREADS, PIECES = 4, 50

todo, done = queue.Queue(8), {}
guard = threading.Condition()


def put(thread):
    for piece in range(PIECES):
        todo.put((thread, piece, b"".join(b"%d %d %d\n" % (thread, piece, k) for k in range(2000))))
    todo.put(None)


def compress():
    while (work := todo.get()) is not None:
        thread, piece, text = work
        told = zlib.crc32(zlib.compress(text))
        with guard:
            done[thread, piece] = told
            guard.notify_all()


begin = time.time()
threads = [threading.Thread(target=put, args=(k,)) for k in range(THREADS)] + [threading.Thread(target=compress) for _ in range(THREADS)]
for thread in threads:
    thread.start()
with guard:
    while not guard.wait_for(lambda: len(done) == THREADS * PIECES, 0.05):
        pass
for thread in threads:
    thread.join()
print(*(done[key] for key in sorted(done)))
print(f"{time.time() - begin:.2f} s", file=sys.stderr)
