#!/usr/bin/env bash
# Unmodified programs under libshfl_preload.so beside themselves without it: pigz, xz, zstd, sort, the sqlite3 shell and python3's threads, as
# far as they are installed. What they write must be the same; wall and processor seconds are told as they are, in turn. A first argument is the size of
# the input in megabytes (20), a second one how often each is run (3). PRELOAD names a library that is there already.
set -u
top="$(cd "$(dirname "$(readlink -f "${BASH_SOURCE[0]}")")/.." && pwd)"
size="${1:-20}" times="${2:-3}"
room="$(mktemp -d)"
trap 'rm -rf "$room"' EXIT
if [ -z "${PRELOAD:-}" ]; then
    "$top/libshfl/install" "$room/prefix" >"$room/built" 2>&1 || { tail -n 20 "$room/built" >&2; exit 1; }
    PRELOAD="$room/prefix/lib/libshfl_preload.so"
fi
failed=0
TIMEFORMAT="%R %U %S"

# runs a command, its output into a file named by how, and tells its seconds: wall, and of processors
once() {
    local how="$1" before=()
    shift
    [ "$how" = plain ] || before=(env LD_PRELOAD="$PRELOAD")
    { time "${before[@]}" "$@" >"$room/$how" 2>"$room/told"; } 2>"$room/time" || {
        echo "$how: $*: $(tail -n 3 "$room/told")" >&2
        failed=1
    }
    awk '{ printf " %.2f/%.2f", $1, $2 + $3 }' "$room/time" >>"$room/seconds.$how"
}

# a command so often by itself and under the preload, in turn
compare() {
    local name="$1"
    shift
    if ! command -v "$1" >/dev/null; then
        echo "$name: not installed"
        return
    fi
    rm -f "$room"/seconds.*
    for _ in $(seq "$times"); do
        once plain "$@"
        once preloaded "$@"
        cmp -s "$room/plain" "$room/preloaded" || { echo "$name: another output" >&2; failed=1; }
    done
    echo "$name: $(stat -c %s "$room/preloaded") bytes; seconds$(cat "$room/seconds.plain"), preloaded$(cat "$room/seconds.preloaded")"
}

head -c "${size}000000" <(cat /usr/bin/* /usr/lib/x86_64-linux-gnu/*.so* 2>/dev/null) >"$room/input"
compare "pigz -p 4" pigz -p 4 -1 -n -c "$room/input"
xz --threads=4 -0 --block-size=1MiB -c "$room/input" >"$room/input.xz"
compare "xz --threads=4" xz --threads=4 -0 --block-size=1MiB -c "$room/input"
compare "xz --threads=4 -d" xz --threads=4 -dc "$room/input.xz"
compare "zstd --threads=4" zstd -q --threads=4 -3 -c "$room/input"
base64 "$room/input" >"$room/lines"
compare "sort --parallel=4" env LC_ALL=C sort --parallel=4 -S 64M "$room/lines"
cat >"$room/words.sql" <<'SQL'
pragma threads=4;
create table t(a integer, b text);
with recursive k(n) as (select 1 union all select n + 1 from k where n < 100000) insert into t select n, hex(n * 2654435761 % 4294967296) from k;
create index by_b on t(b);
select count(*), sum(length(b)), min(b), max(b) from t;
select a, b from t order by b limit 50;
SQL
compare "sqlite3, sorting with threads" sqlite3 :memory: ".read $room/words.sql"
if python="$(python3 -c 'import sqlite3, sys; print(sys.executable)' 2>/dev/null)"; then
    compare "python3, queues of threads" "$python" "$top/bench/preload/queues.py"
    compare "python3, sqlite3 under threads" "$python" "$top/bench/preload/inserts.py"
fi
exit "$failed"
