#!/usr/bin/env bash
# libshfl's locks beside pthread's, in turn (bench/libshfl.c): a free lock's lock and unlock, the best and the median of short runs; and holds a
# second by 4, 16 and 256 threads, holds of 0, 0.1, 1 and 10 microseconds and as long between two, with the longest wait, Jain's index and the
# processors used. And a million locks drawn at random by one thread and by four, with what a lock takes of memory, the proved part alone too
# (bench/many.c). The median and
# the worst of the rounds. Words: libshfl.sh [ROUNDS [PART ..]]; a part is free, 4 (threads), 16, and these three where none is given; 256, many; cond,
# four producers and four consumers over condition variables; mcs, the mutex beside an MCS lock, which spins (Concurrency Kit, Debian's libck-dev), by 4 and 16 threads, and readers, the lock as readers
# take it beside C++'s std::shared_mutex, by as many, each run of these within 20 seconds; park, 256 threads in the form rw-park, 20 times as many rounds, of which each has half a minute,
# and how many didn't end or lost a count; hang, the same of 64 threads in the usual form, briefer and 200 times as many rounds; or instructions, how many valgrind counts in a free lock's lock and unlock, with the loop around them. 5 rounds where none are said. With
# LIBSHFL_PREFIX set what libshfl/install put there is timed; else it is built first.
set -u
top="$(cd "$(dirname "$(readlink -f "${BASH_SOURCE[0]}")")/.." && pwd)"
rounds="${1:-5}"
parts=("${@:2}")
[ "${#parts[@]}" -gt 0 ] || parts=(free 4 16)
room="$(mktemp -d)"
trap 'rm -rf "$room"' EXIT
prefix="${LIBSHFL_PREFIX:-$room/prefix}"
if [ -z "${LIBSHFL_PREFIX:-}" ]; then
    "$top/libshfl/install" "$prefix" >"$room/built" 2>&1 || { tail -n 20 "$room/built" >&2; exit 1; }
fi
peer=()
if command -v c++ >/dev/null && c++ -std=c++17 -O2 -Wall -Wextra -c "$top/bench/shared_mutex.cpp" -o "$room/shared_mutex.o"; then
    peer=(-DHAS_SHARED_MUTEX=1 "$room/shared_mutex.o" -lstdc++)
fi
"${CC:-cc}" -std=gnu11 -O2 -Wall -Wextra -I "$prefix/include" "$top/bench/libshfl.c" "${peer[@]}" -L "$prefix/lib" -lshfl -pthread -o "$room/libshfl" || exit 1
export LD_LIBRARY_PATH="$prefix/lib"

# the median and the worst of a column of numbers: the least is worst where the word is less, else the greatest
told() { sort -g "$1" | awk -v worst="$2" '{ at[NR] = $1 } END { print at[int((NR + 1) / 2)], worst == "less" ? at[1] : at[NR] }'; }

alone() {
    local lock
    for ((k = 0; k < rounds; k++)); do
        "$room/libshfl" free | while read -r lock best median; do echo "$best" >>"$room/free.$lock"; echo "$median" >>"$room/median.$lock"; done
    done
    printf '%-14s %10s %10s %10s\n' 'free, ns' best median worst
    for lock in shfl mutex shfl-read rwlock-read; do
        printf '%-14s %10s %10s %10s\n' "$lock" "$(sort -g "$room/free.$lock" | head -n 1)" $(told "$room/median.$lock" more)
    done
}

# so many threads, our lock and its peer, and what runs them; a run that doesn't end has made no hold
crowd() {
    local threads="$1" mine="$2" peer="$3" hold lock at ours=()
    local run=("${@:4}")
    printf '%-26s %12s %12s %12s %12s %6s   %s\n' "$threads threads, holds/s" "$mine" worst "$peer" worst ratio "$mine: longest wait ms, Jain, processors; $peer"
    for hold in 0 100 1000 10000; do
        at="$mine.$peer.$threads.$hold"
        for ((k = 0; k < rounds; k++)); do
            for lock in "$mine" "$peer"; do
                "${run[@]}" "$room/libshfl" crowd "$lock" "$threads" "$hold" "$hold" 300 >>"$room/$at.$lock" || { echo "status $?" >&2; [ "${#run[@]}" = 0 ] || echo 0 0 20000 0 >>"$room/$at.$lock"; }
            done
        done
        for lock in "$mine" "$peer"; do
            for column in 1 2 3 4; do awk -v c="$column" '{ print $c }' "$room/$at.$lock" >"$room/$lock.$column"; done
        done
        ours=($(told "$room/$mine.1" less) $(told "$room/$peer.1" less))
        printf '%-26s %12s %12s %12s %12s %6s   %s %s %s; %s %s %s\n' "hold and think $hold ns" "${ours[@]}" \
            "$(awk -v a="${ours[0]}" -v b="${ours[2]}" 'BEGIN { printf "%.2f", b ? a / b : 0 }')" \
            $(for lock in "$mine" "$peer"; do for column in 3 2 4; do told "$room/$lock.$column" more | cut -d ' ' -f 1; done; done)
    done
}

# the same beside a peer that may not be there
beside() {
    local threads
    "$room/libshfl" has "$2" || { echo "libshfl.sh: $2 isn't there: $3" >&2; return; }
    for threads in 4 16; do crowd "$threads" "$1" "$2" timeout -k 1 20; done
}

conds() {
    local lock column ours
    for ((k = 0; k < rounds; k++)); do
        for lock in shfl mutex; do "$room/libshfl" cond "$lock" 4 300 >>"$room/cond.$lock" || echo "status $?" >&2; done
    done
    for lock in shfl mutex; do
        for column in 1 2; do awk -v c="$column" '{ print $c }' "$room/cond.$lock" >"$room/cond.$lock.$column"; done
    done
    ours=($(told "$room/cond.shfl.1" less) $(told "$room/cond.mutex.1" less))
    printf '%-26s %12s %12s %12s %12s %6s   %s\n' 'condition variables' shfl worst mutex worst ratio 'processors: shfl; mutex'
    printf '%-26s %12s %12s %12s %12s %6s   %s; %s\n' '4 and 4 threads, items/s' "${ours[@]}" "$(awk -v a="${ours[0]}" -v b="${ours[2]}" 'BEGIN { printf "%.2f", a / b }')" \
        $(for lock in shfl mutex; do told "$room/cond.$lock.2" more | cut -d ' ' -f 1; done)
}

# a form, so many threads, runs and milliseconds each
hangs() {
    local form="$1" threads="$2" runs="$3" ms="$4" lock amiss=0 ours
    for ((k = 0; k < runs; k++)); do
        for lock in shfl mutex; do SHFL_FORM="$form" timeout -k 1 30 "$room/libshfl" crowd "$lock" "$threads" 100 100 "$ms" >>"$room/$form.$lock" || { [ "$lock" = mutex ] || amiss=$((amiss + 1)); }; done
    done
    for lock in shfl mutex; do awk '{ print $1 }' "$room/$form.$lock" >"$room/$form.$lock.1"; done
    ours=($(told "$room/$form.shfl.1" less) $(told "$room/$form.mutex.1" less))
    printf '%-26s %12s %12s %12s %12s %6s   %s\n' "$form, $threads threads" shfl worst mutex worst ratio 'runs that hung or lost a count'
    printf '%-26s %12s %12s %12s %12s %6s   %s\n' 'hold and think 100 ns' "${ours[@]}" "$(awk -v a="${ours[0]}" -v b="${ours[2]}" 'BEGIN { printf "%.2f", a / b }')" "$amiss of $runs"
}

# 10,000 pairs more are so many instructions more
all_of() { valgrind --tool=callgrind --callgrind-out-file=/dev/null "$room/libshfl" pairs "$1" "$2" 2>&1 | awk '/Collected/ { print $NF }'; }
instructions() {
    local lock
    command -v valgrind >/dev/null || { echo "libshfl.sh: no valgrind is there" >&2; return; }
    for lock in shfl mutex shfl-read rwlock-read; do
        printf '%-14s %10s instructions\n' "$lock" "$((($(all_of "$lock" 11000) - $(all_of "$lock" 1000) + 5000) / 10000))"
    done
}

# the proved part alone too, which the library hides
many() {
    local threads lock column archive="${SHFL_ARCHIVE:-$top/crates/shfl_seats_c/out/libshfl_seats_c.a}" all=(arena shfl mutex)
    [ -n "${SHFL_ARCHIVE:-}" ] || "$top/bin/build-program" shfl_seats_c || exit 1
    "${CC:-cc}" -std=gnu11 -O2 -Wall -Wextra -I "$prefix/include" "$top/bench/many.c" "$top/include/shfl_heap.c" "$archive" -L "$prefix/lib" -lshfl \
        -pthread -o "$room/many" || exit 1
    printf '%-26s %12s %12s %12s %12s %12s %12s   %s\n' '1,000,000 locks, pairs/s' arena worst shfl worst mutex worst 'bytes a lock: arena; shfl; mutex'
    for threads in 1 4; do
        for ((k = 0; k < rounds; k++)); do
            for lock in "${all[@]}"; do "$room/many" "$lock" 1000000 "$threads" 1000 >>"$room/many.$lock.$threads" || echo "status $?" >&2; done
        done
        for lock in "${all[@]}"; do
            for column in 1 2; do awk -v c="$column" '{ print $c }' "$room/many.$lock.$threads" >"$room/many.$lock.column$column"; done
        done
        printf '%-26s %12s %12s %12s %12s %12s %12s   %s; %s; %s\n' "$threads threads" $(for lock in "${all[@]}"; do told "$room/many.$lock.column1" less; done) \
            $(for lock in "${all[@]}"; do told "$room/many.$lock.column2" more | cut -d ' ' -f 1; done)
    done
}

for part in "${parts[@]}"; do
    case "$part" in
    free) alone ;;
    4 | 16 | 256) crowd "$part" shfl mutex ;;
    mcs) beside shfl mcs "it wants Debian's libck-dev" ;;
    readers) beside shfl-read shared-read "it wants a compiler of C++" ;;
    many) many ;;
    cond) conds ;;
    park) hangs rw-park 256 "$((20 * rounds))" 200 ;;
    hang) hangs rw 64 "$((200 * rounds))" 50 ;;
    instructions) instructions ;;
    *) echo "libshfl.sh: no part is called $part" >&2; exit 2 ;;
    esac
done
