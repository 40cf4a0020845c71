#!/usr/bin/env bash
# What the lock for C once did badly where threads wait, apart from storms, each timed anew beside pthread's lock, in turn: seen.sh [RUNS], 9 where it is left out.
# Writers beside readers that overlap; policies that are replaced each millisecond; a real-time thread behind a normal one on its processor; a program of eight threads
# beside 72 busy programs; a hand-over after 5 ms beside sixteen; one in a queue whose waiters a policy groups. With SEEN_ROOM set, the runs are kept in that folder, and the table is of all
# that are there; RESULTS_ONLY set prints the table alone. A real-time thread wants the right to be one.
set -u
top="$(cd "$(dirname "$(readlink -f "${BASH_SOURCE[0]}")")/.." && pwd)"
runs="${1:-9}"
room="${SEEN_ROOM:-$(mktemp -d)}"
[ -n "${SEEN_ROOM:-}" ] || trap 'rm -rf "$room"' EXIT
mkdir -p "$room"
others=()

build() {
    local archive="$top/crates/shfl_c/out/libshfl_c.a" name
    "$top/bin/build-program" shfl_c >"$room/built" 2>&1 || { tail -n 20 "$room/built" >&2; exit 1; }
    for name in seen handover; do
        "${CC:-cc}" -std=gnu11 -O2 -Wall -Wextra -I "$top/include" "$top/bench/$name.c" "$top/include/shfl_heap.c" "$archive" \
            -o "$room/$name" -lpthread || exit 1
    done
    [ -z "${SEEN_RATTLE:-}" ] || ln -sf "$(readlink -f "$SEEN_RATTLE")" "$room/rattle"
}

# so many programs that only count, until `rest`
busy_programs() {
    local k
    for ((k = 0; k < $1; k++)); do
        sh -c 'while :; do :; done' &
        others+=($!)
    done
}

rest() {
    kill "${others[@]}"
    wait "${others[@]}" 2>/dev/null
    others=()
}

# the row of the table, and the locks, each of which is run with the words behind `--`, where @ stands for it
row() {
    local name="$1" locks=() program lock told
    shift
    while [ "$1" != -- ]; do locks+=("$1"); shift; done
    program="$2"
    shift 2
    for lock in "${locks[@]}"; do
        told="$(timeout 120 "$room/$program" "${@/#@/$lock}")" || { echo "seen.sh: $name, $lock: status $?" >&2; continue; }
        echo "$name|$lock|$told" >>"$room/runs"
    done
}

one_run() {
    row starve rwlock rw rwpark -- seen starve @ 500
    row replaced mutex spin park -- seen replaced @ 300
    row realtime mutex spin rw park rwpark -- seen realtime @
    row flagged mutex spin park -- handover @ 4 500 100 socket
    [ -z "${SEEN_RATTLE:-}" ] || row rattle none socket -- rattle spin 16 100000 0 0 300 own @
    busy_programs 16
    row 'replaced, busy' mutex spin park -- seen replaced @ 500
    row 'after 5 ms, busy' mutex spin park -- handover @ 1 5000 20
    rest
    busy_programs 72
    row 'work, busy' mutex spin park -- seen work @ 8 20000
    rest
}

if [ -z "${RESULTS_ONLY:-}" ]; then
    build
    for ((k = 0; k < runs; k++)); do one_run; done
fi
python3 - "$room/runs" <<'TABLE'
import statistics, sys

# of each row: what it is, and of each number what it tells, its digits and which of the runs is the worst
ROWS = {
    "starve": ("two writers beside two readers that overlap, 20 us each", [("writes a second", 0, min), ("a writer's longest wait, ms", 1, max)]),
    "replaced": ("eight threads, 1 us, each with another policy every millisecond", [("holds a second", 0, min), ("longest wait, ms", 1, max)]),
    "replaced, busy": ("the same beside sixteen busy programs", [("holds a second", 0, min), ("longest wait, ms", 1, max)]),
    "realtime": ("a real-time thread behind a normal holder of 40 ms on its processor", [("seconds that it waits", 3, max)]),
    "flagged": ("from an unlock to the next one's return, 4 that sleep, a policy by socket", [("us, the median", 1, max), ("at 99 of a hundred", 1, max)]),
    "after 5 ms, busy": ("a hand-over after 5 ms beside sixteen busy programs", [("us, the median", 1, max), ("at 99 of a hundred", 1, max)]),
    "rattle": ("the lock in Rattle, spin, 16 threads of 100 us", [("holds a second", 0, min), ("Jain's index", 3, min), ("longest wait, ms", 1, max)]),
    "work, busy": ("a program of 160,000 holds of 1 us by eight threads beside 72 busy programs", [("seconds", 2, max)]),
}
runs = {}
for line in open(sys.argv[1]):
    row, lock, told = line.rstrip("\n").split("|")
    runs.setdefault(row, {}).setdefault(lock, []).append([float(x) for x in told.split()])
print("| What | told: median, worst | runs | pthread's | ours |")
print("|---|---|---|---|---|")
for row, (what, numbers) in ROWS.items():
    if row not in runs:
        continue
    by_lock = runs[row]
    for at, (told, digits, worst) in enumerate(numbers):
        cells = {lock: f"{statistics.median(r[at] for r in of):,.{digits}f}, {worst(r[at] for r in of):,.{digits}f}" for lock, of in by_lock.items()}
        peers = [cell for lock, cell in cells.items() if lock in ("mutex", "rwlock")]
        ours = [f"{lock} {cell}" for lock, cell in cells.items() if lock not in ("mutex", "rwlock")]
        print(f"| {what if at == 0 else ''} | {told} | {min(map(len, by_lock.values()))} | {'; '.join(peers)} | {'; '.join(ours)} |")
TABLE
