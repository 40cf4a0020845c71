#!/usr/bin/env bash
# Unmodified programs with their pthread mutexes waiting in the lock's queue (bench/preload/shim.c), beside themselves without it: pigz
# and sysbench where they are installed, and python3's sqlite3 under threads. Outputs must be the same; the times are told as they are.
set -u
top="$(cd "$(dirname "$(readlink -f "${BASH_SOURCE[0]}")")/../.." && pwd)"
room="$(mktemp -d)"
trap 'rm -rf "$room"' EXIT
"$top/bin/build-program" shfl_c >"$room/built" 2>&1 || { tail -n 20 "$room/built" >&2; exit 1; }
"${CC:-cc}" -std=gnu11 -O2 -Wall -Wextra -shared -fPIC -I "$top/include" "$top/bench/preload/shim.c" "$top/include/shfl_heap.c" \
    "$top/crates/shfl_c/out/libshfl_c.a" -o "$room/shim.so" -lpthread -ldl || exit 1
shim=(env LD_PRELOAD="$room/shim.so" SHFL_TOLD=1)
failed=0

# a command three times without the shim and three times with it: seconds of each, and what the shim tells
timed() {
    local name="$1" how begin
    shift
    for how in plain shim; do
        printf '%s, %s:' "$name" "$how"
        for _ in 1 2 3; do
            begin="$EPOCHREALTIME"
            if [ "$how" = shim ]; then
                "${shim[@]}" "$@" >"$room/$how" 2>"$room/told" || failed=1
            else
                "$@" >"$room/$how" 2>/dev/null || failed=1
            fi
            printf ' %.2f s' "$(bc <<<"$EPOCHREALTIME - $begin")"
        done
        echo
    done
    grep '^shim:' "$room/told" | tail -n 1
}

same() {
    if cmp -s "$room/plain" "$room/shim"; then echo "$1: the same output"; else echo "$1: another output" >&2; failed=1; fi
}

if command -v pigz >/dev/null; then
    head -c 60000000 <(cat /usr/bin/* /usr/lib/x86_64-linux-gnu/*.so* 2>/dev/null) >"$room/input"
    timed pigz pigz -p 4 -1 -n -c "$room/input"
    same pigz
fi
if command -v sysbench >/dev/null; then
    timed "sysbench mutex" sysbench mutex --threads=4 --mutex-num=16 --mutex-locks=50000 run
    timed "sysbench threads" sysbench threads --threads=4 --events=100000 --time=0 run
fi
if python="$(python3 -c 'import sqlite3, sys; print(sys.executable)' 2>/dev/null)"; then
    timed sqlite3 "$python" "$top/bench/preload/inserts.py"
    same sqlite3
fi
exit "$failed"
