#!/usr/bin/env bash
# Times the lock beside its peers, in turn, the median and the worst of nine each: a free lock's round trip, by steps and by an attempt, beside a
# mutex of a process with threads, and of one without, which has no atomic operations; and holds a second by 4 and 16 threads,
# with holds of 0, 40 and 400 multiplications and as many between two. The forms with readers are taken by readers alone. The MCS
# lock is a peer where libck-dev is installed. Not a part of the gate. Builds in a folder of its own, which it removes; the crates
# are proved there first. Words: FOLDER PART ..; it builds in that folder, unless it did before, and keeps it, and times only these
# parts: free, 4 (threads), 16, arena, which has one lock of an arena beside the lock of its own; with no part all four, and with the
# part none it only builds.
set -eu
top="$(cd "$(dirname "$(readlink -f "${BASH_SOURCE[0]}")")/.." && pwd)"
if [ $# = 0 ]; then
    room="$(mktemp -d)"
    trap 'rm -rf "$room"' EXIT
else
    mkdir -p "$1"
    room="$(cd "$1" && pwd)"
    shift
fi
parts=" ${*:-free 4 16 arena} "
build() {
    bench="$(python3 -B "$top/bin/programs.py" "$room" locks)" || exit 1
    cc -O2 -pthread -o "$room/peers" "$top/bench/peers.c"
}
bench="$room/locks/locks"
[ -x "$room/peers" ] || build

# The median and the worst of numbers, each a line: the greatest where the words are -g, the least where they are -gr.
told() { sort "$1" | awk '{ at[NR] = $1 } END { print at[int((NR + 1) / 2)], at[NR] }'; }
row() { printf '%-34s %12s %12s %12s %12s %8s\n' "$@"; }
# A row: what, how to sort, and the files with the numbers of both.
compared() {
    local ours theirs
    read -r -a ours < <(told "$2" <"$3")
    read -r -a theirs < <(told "$2" <"$4")
    row "$1" "${ours[@]}" "${theirs[@]}" "$(over "${ours[0]}" "${theirs[0]}")"
}
TURNS=9
over() { awk -v a="$1" -v b="$2" 'BEGIN { printf "%.2f", a / b }'; }

# A round trip of ours beside one of the peer's, in nanoseconds.
free_row() {
    sed -n "s/^$2 \([0-9.]*\) ns\$/\1/p" "$room/ours" >"$room/ours.now"
    sed -n "s/^$3 \([0-9.]*\) ns\$/\1/p" "$room/theirs" >"$room/theirs.now"
    compared "$1" -g "$room/ours.now" "$room/theirs.now"
    rm "$room/ours.now" "$room/theirs.now"
}
free() {
    rm -f "$room/ours" "$room/theirs"
    for ((turn = 0; turn < TURNS; turn++)); do
        "$bench" >>"$room/ours"
        "$room/peers" free >>"$room/theirs"
    done
    row 'free lock, ns' ours worst peer worst ratio
    free_row 'steps, mutex' steps 'pthread_mutex_t lock and unlock'
    free_row 'attempt, mutex' attempt 'pthread_mutex_t trylock and unlock'
    free_row 'steps, mutex of one thread' steps 'one thread, pthread_mutex_t lock and unlock'
    free_row 'attempt, mutex of one thread' attempt 'one thread, pthread_mutex_t trylock and unlock'
}

# A run of over a minute counts as 0 holds.
ours_of() { { timeout 60 "$bench" "$@" || echo '0 holds a second'; } | sed -n 's/^\([0-9]*\) holds a second.*/\1/p'; }
peer_of() { "$room/peers" "$@" 300 | sed -n 's/^\([0-9]*\) gains a second$/\1/p'; }
# Holds a second of ours beside the peer's. Runs of ours come first, of more and more holds, until one takes a fifth of a second.
crowd_row() {
    local form="$1" peer="$2" threads="$3" work="$4" holds=2000
    while [ "$(ours_of "$form" "$threads" "$work" "$holds")" -gt $((5 * holds)) ] && [ "$holds" -lt 60000000 ]; do
        holds=$((holds * 2))
    done
    for ((turn = 0; turn < TURNS; turn++)); do
        ours_of "$form" "$threads" "$work" "$holds" >>"$room/ours.now"
        peer_of "$peer" "$threads" "$work" >>"$room/theirs.now"
    done
    compared "$form, $peer, $threads threads, work $work" -gr "$room/ours.now" "$room/theirs.now"
    rm "$room/ours.now" "$room/theirs.now"
}
crowd() {
    row 'held in turn, holds a second' ours worst peer worst ratio
    for work in 0 40 400; do
        crowd_row spin mutex "$1" "$work"
        crowd_row park mutex "$1" "$work"
        if [ "$1" = 4 ] && "$room/peers" has-mcs; then crowd_row spin mcs 4 "$work"; fi
        crowd_row rw rwlock "$1" "$work"
        crowd_row rw-park rwlock "$1" "$work"
    done
}
# Holds a second at one lock of an arena, beside those at a lock with words of its own, in turn.
arena_row() {
    local form="$1" threads="$2" work="$3" holds=2000
    while [ "$(ours_of "$form" "$threads" "$work" "$holds")" -gt $((5 * holds)) ] && [ "$holds" -lt 60000000 ]; do
        holds=$((holds * 2))
    done
    for ((turn = 0; turn < TURNS; turn++)); do
        ours_of "$form" "$threads" "$work" "$holds" arena >>"$room/ours.now"
        ours_of "$form" "$threads" "$work" "$holds" >>"$room/theirs.now"
    done
    compared "$form, $threads threads, work $work" -gr "$room/ours.now" "$room/theirs.now"
    rm "$room/ours.now" "$room/theirs.now"
}
arena() {
    row 'free lock, ns' arena worst alone worst ratio
    for ((turn = 0; turn < TURNS; turn++)); do "$bench"; done >"$room/ours"
    free_row_of_both
    echo
    row 'holds a second' arena worst alone worst ratio
    for threads in 4 16; do
        for work in 0 40 400; do
            for form in spin park rw rw-park; do arena_row "$form" "$threads" "$work"; done
        done
    done
}
free_row_of_both() {
    sed -n 's/^arena \([0-9.]*\) ns$/\1/p' "$room/ours" >"$room/ours.now"
    sed -n 's/^attempt \([0-9.]*\) ns$/\1/p' "$room/ours" >"$room/theirs.now"
    compared 'attempt' -g "$room/ours.now" "$room/theirs.now"
    rm "$room/ours.now" "$room/theirs.now"
}
case "$parts" in *' free '*) free; echo ;; esac
case "$parts" in *' 4 '*) crowd 4; echo ;; esac
case "$parts" in *' 16 '*) crowd 16; echo ;; esac
case "$parts" in *' arena '*) arena ;; esac
