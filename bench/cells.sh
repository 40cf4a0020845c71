#!/usr/bin/env bash
# Times calls of a counter and reads of a directory behind the lock beside a pthread_mutex_t, a pthread_rwlock_t, an MCS lock and a
# Rust RwLock<BTreeMap>, side by side. Not a part of the gate. It needs a C compiler, rustc and Debian's libck-dev. Words: the parts to run:
# free, held, counter, many, reads; as given, all; and build, which only builds. The crates are proved and built before, in a folder that is
# removed at the end; with CELLS_ROOM set, in that folder, which stays, so that a later run of one part builds nothing. Each
# figure of several threads is the median and the worst of twenty rounds of 65,536 calls (reads: ours 64,000), ours and theirs.
set -u
top="$(cd "$(dirname "$(readlink -f "${BASH_SOURCE[0]}")")/.." && pwd)"
[ "$#" -gt 0 ] || set -- free held counter many reads
room="${CELLS_ROOM:-}"
if [ -z "$room" ]; then
    room="$(mktemp -d)"
    trap 'rm -rf "$room"' EXIT
fi
mkdir -p "$room"
peers="$room/peers" cells="$room/cells" reads="$room/reads"
if ! [ -x "$reads" ]; then
    cc -O2 -pthread -o "$peers" "$top/bench/peers.c" || exit 1
    built="$(python3 -B "$top/bin/programs.py" "$room/built" cells)" || exit 1
    cp "$built" "$cells"
    built="$(python3 -B "$top/bin/programs.py" "$room/built" reads)" || exit 1
    cp "$built" "$reads"
fi

# about 1 us of dependent multiplications
if ! [ -s "$room/free" ]; then "$peers" free >"$room/free"; fi
times="$(awk '/^100 multiplications/ { printf "%d", 100000 / $3 }' "$room/free")"

# of lines that begin with nanoseconds the median and the worst
told() { sort -n | awk '{ at[NR] = $1 } END { printf "%.1f ns a call, worst %.1f\n", at[int((NR + 1) / 2)], at[NR] }'; }
# nanoseconds a call, of as many calls by peers and by ours, with the threads' start and end
peer() { echo "$1: $("$peers" "$1" "$2" "$3" gains 65536 | told)"; }
ours() { echo "ours, $1: $("$cells" apply "$1" "$2" "$3" | told)"; }

for part; do
    case "$part" in
    build) ;;
    free)
        echo 'Nobody else there'
        "$peers" free | tee "$room/free" | grep -v multiplications
        echo "ours, try_apply: $("$cells" try spin 1 0 | told)"
        echo "ours, apply: $("$cells" apply spin 1 0 | told)"
        ;;
    held)
        echo "4 threads, about 1 us with the lock held and as much between ($times multiplications)"
        peer mutex 4 "$times"
        for form in spin park; do ours "$form" 4 "$times"; done
        ;;
    counter)
        echo '4 threads, a counter'
        for lock in mutex mcs; do peer "$lock" 4 0; done
        for form in spin park; do ours "$form" 4 0; done
        ;;
    many)
        for load in 0 "$times"; do
            echo "16 threads, $load multiplications with the lock held and as many between"
            peer mutex 16 "$load"
            ours park 16 "$load"
        done
        ;;
    reads)
        echo '4 threads that look up names in a directory of 1,000'
        peer directory 4 0
        rustc -O -o "$room/rust-reads" "$top/bench/reads.rs" && echo "RwLock<BTreeMap>: $("$room/rust-reads" | told)"
        for form in rw rw-park; do echo "ours, $form: $("$reads" "$form" | told)"; done
        ;;
    esac
done
