"""Four threads insert into one SQLite database in memory, through the connection that they share."""
import sqlite3
import sys
import threading
import time

THREADS, ROWS = 4, 4000

db = sqlite3.connect("file:m?mode=memory&cache=shared", uri=True, check_same_thread=False, isolation_level=None)
db.execute("create table t(a, b)")


def work(thread):
    for row in range(ROWS):
        db.execute("insert into t values(?, ?)", (thread, row)).fetchall()


begin = time.time()
threads = [threading.Thread(target=work, args=(thread,)) for thread in range(THREADS)]
for thread in threads:
    thread.start()
for thread in threads:
    thread.join()
print(*db.execute("select count(*), sum(b) from t").fetchone())
print(f"{time.time() - begin:.2f} s", file=sys.stderr)
