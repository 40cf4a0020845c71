#!/usr/bin/env bash
# How threads wait: the lock for C in its four forms beside pthread's locks and an MCS lock that yields, in turn. Words:
#   waits.sh [ROUNDS [PART ..]]
# A part is storms, readers, busy, handover, asleep or policy; all, in this order, where none is given; ROUNDS is 20 where it is left
# out. The parts rattle, rattle-readers, rattle-busy and rattle-asleep are run where they are named: the lock in Rattle beside pthread's, by
# the program waits, with the crates below proved first. With WAITS_ROOM set, the runs are kept in that folder, and the tables are of all that
# are there, so that many sittings make one table; and so is that program. WAITS_THREADS has the numbers of threads of storms, readers
# and rattle (2 4 8 16 64). WAITS_RUN is put before each program that is timed, and RESULTS_ONLY set prints the tables alone.
set -u
top="$(cd "$(dirname "$(readlink -f "${BASH_SOURCE[0]}")")/.." && pwd)"
rounds="${1:-20}"
parts=("${@:2}")
[ "${#parts[@]}" -gt 0 ] || parts=(storms readers busy handover asleep policy)
room="${WAITS_ROOM:-$(mktemp -d)}"
[ -n "${WAITS_ROOM:-}" ] || trap 'rm -rf "$room"' EXIT
mkdir -p "$room"
read -ra before <<<"${WAITS_RUN:-}"
ours=(spin rw park rwpark)
in_rattle=("${ours[@]/#/rattle-}")
read -ra crowds <<<"${WAITS_THREADS:-2 4 8 16 64}"
rattle="$room/rattle/waits/waits"

build() {
    local archive="$top/crates/shfl_c/out/libshfl_c.a" name
    "$top/bin/build-program" shfl_c >"$room/built" 2>&1 || { tail -n 20 "$room/built" >&2; exit 1; }
    for name in waits handover; do
        "${CC:-cc}" -std=gnu11 -O2 -Wall -Wextra -I "$top/include" "$top/bench/$name.c" "$top/include/shfl_heap.c" "$archive" \
            -o "$room/$name" -lpthread || exit 1
    done
    case " ${parts[*]}" in
    *' rattle'*) [ -x "$rattle" ] || python3 -B "$top/bin/programs.py" "$room/rattle" waits >/dev/null || exit 1 ;;
    esac
}

# how long the machine's processors have stood idle, were taken by the host, and both with all else, in ticks
machine() {
    local cpu user nice system idle disk hard soft stolen rest
    read -r cpu user nice system idle disk hard soft stolen rest </proc/stat
    echo "$((idle + disk)) $stolen $((user + nice + system + idle + disk + hard + soft + stolen))"
}

# one run: its part, the row of the table, the lock, and what it told; then how many of 1,000 processors stood idle meanwhile, and how many the host took
timed() {
    local part="$1" row="$2" lock="$3" told began ended ticks
    shift 3
    read -ra began <<<"$(machine)"
    if told="$("${before[@]}" timeout 60 "$@")"; then
        read -ra ended <<<"$(machine)"
        ticks=$((ended[2] - began[2]))
        told+=" $((ticks ? 1000 * (ended[0] - began[0]) / ticks : 0)) $((ticks ? 1000 * (ended[1] - began[1]) / ticks : 0))"
        echo "$part|$row|$lock|$told" >>"$room/runs"
    else
        echo "waits.sh: $*: status $?" >&2
    fi
}

# threads, hold, think, per cent of reads, then the locks in turn, those in Rattle with that before their names. Long holds by many
# threads are given more time.
storm() {
    local part="$1" threads="$2" hold="$3" think="$4" reads="$5" lock program
    for lock in "${@:6}"; do
        case "$lock" in
        rattle-*) program="$rattle" lock="${lock#rattle-}" ;;
        *) program="$room/waits" ;;
        esac
        timed "$part" "$threads $hold $think" "$lock" "$program" "$lock" "$threads" "$hold" "$think" "$reads" \
            $((${storm_ms:-100} + threads * hold / 20000))
    done
}

# each number of threads, hold and think, in nanoseconds, of the locks
storms() {
    local part="$1" threads hold times
    for threads in "${crowds[@]}"; do
        storm "$part" "$threads" 0 0 0 "${@:2}"
        for hold in 1000 10000 100000; do
            for times in 0 1 10; do storm "$part" "$threads" "$hold" $((hold * times)) 0 "${@:2}"; done
        done
    done
}

# of the locks, with 80 of 100 holds for reading
readers() {
    local part="$1" threads hold
    for threads in "${crowds[@]}"; do
        for hold in 0 1000 10000 100000; do storm "$part" "$threads" "$hold" "$hold" 80 "${@:2}"; done
    done
}

# sixteen programs that only count, beside so many threads, of the locks
busy() {
    local k others=() part="$1" threads hold storm_ms=400
    for ((k = 0; k < 16; k++)); do
        sh -c 'while :; do :; done' &
        others+=($!)
    done
    for threads in $2; do
        for hold in 1000 10000 100000; do storm "$part" "$threads" "$hold" "$hold" 0 "${@:3}"; done
    done
    kill "${others[@]}"
    wait "${others[@]}" 2>/dev/null
}

# waiters, the hold in microseconds; then one waiter that spins, each thread on a processor of its own
handover() {
    local row lock
    for row in "1 15" "1 200" "4 200" "15 500"; do
        for lock in mutex mcs word "${ours[@]}"; do
            timed handover "$row" "$lock" "$room/handover" "$lock" ${row% *} ${row#* } 100
        done
    done
    for lock in mutex mcs word "${ours[@]}"; do
        timed handover "1 15, apart" "$lock" env WAITS_PINNED=0,1 "$room/handover" "$lock" 1 15 100
    done
}

asleep() {
    local threads lock
    for threads in 16 64; do
        for lock in mutex "${ours[@]}"; do timed asleep "$threads" "$lock" "$room/handover" "$lock" "$threads" asleep 2000 socket; done
    done
}

# with a policy and without one; pthread's lock has none
asleep_in_rattle() {
    local form which
    timed rattle-asleep 'mutex none' time "$room/handover" mutex 16 asleep 2000 none
    for form in "${ours[@]}"; do
        for which in none socket; do timed rattle-asleep "$form $which" time "$rattle" "$form" 16 asleep 2000 "$which"; done
    done
}

# the queue without a policy, and with one that moves nobody
policy() {
    local threads hold which
    for threads in 2 4 16; do
        for hold in 1000 10000 100000; do
            for which in none never; do
                timed policy "$threads $hold 0" "$which" "$room/waits" spin "$threads" "$hold" 0 0 100 "$which" queue
            done
        done
    done
}

if [ -z "${RESULTS_ONLY:-}" ]; then
    build
    for ((round = 0; round < rounds; round++)); do
        for part in "${parts[@]}"; do
            case "$part" in
            storms) storms storms mutex mcs "${ours[@]}" ;;
            busy) busy busy '4 16' mutex mcs "${ours[@]}" ;;
            readers) readers readers rwlock rw rwpark ;;
            handover | asleep | policy) "$part" ;;
            rattle) storms rattle mutex "${in_rattle[@]}" ;;
            rattle-readers) readers rattle-readers rwlock rattle-rw rattle-rwpark ;;
            rattle-busy) busy rattle-busy 16 mutex "${in_rattle[@]}" ;;
            rattle-asleep) asleep_in_rattle ;;
            *) echo "waits.sh: no part is called $part" >&2; exit 2 ;;
            esac
        done
    done
fi
python3 "$top/bench/waits.py" "$room/runs"
