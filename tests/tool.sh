#!/usr/bin/env bash
# bin/shfl and the control socket at a program with a hot lock (tests/tool/hot.c): what the tool shows, and each fault of a policy in its words
# (uses.py, faults.py); at one that uses pthread's locks, too, and is preloaded (both.py); at another program (order.c) waits, records and comparisons (words.py); random bytes, half requests, another version and another user, 1,000 clients at once, clients that hang, flood or are
# stopped (attack.py); a program that forks, becomes another one or is killed (forks.py); policies that are replaced while 16 threads wait, each
# round of one version (replace.py, rounds.c). Counts are exact at the end, and nothing leaks. With the word `long` there are 100,000 requests
# and 10,000 policies, which takes many minutes. No part of the gate. Where there is no C compiler it says so, and passes.
set -u
top="$(cd "$(dirname "$(readlink -f "${BASH_SOURCE[0]}")")/.." && pwd)"
case "${1:-}" in
'') requests=2000 policies=300 children=20 most=300 ;;
long) requests=100000 policies=10000 children=1000 most=7200 ;;
*) echo "usage: tests/tool.sh [long]" >&2; exit 2 ;;
esac
cc="${CC:-cc}"
command -v "$cc" >/dev/null || { echo "tests/tool.sh: no C compiler is there, so nothing was built"; exit 0; }
room="$(mktemp -d)"
trap 'rm -rf "$room"' EXIT
"$top/libshfl/install" "$room/prefix" >"$room/got" 2>&1 || { tail -n 20 "$room/got" >&2; exit 1; }
flags=(-std=gnu11 -O2 -Wall -Wextra -Werror -I "$room/prefix/include" "$top/tests/tool/hot.c")
"$cc" "${flags[@]}" -L "$room/prefix/lib" -lshfl -pthread -o "$room/busy" || exit 1
"$cc" -std=gnu11 -O2 -Wall -Wextra -Werror "$top/tests/tool/order.c" -I "$room/prefix/include" -L "$room/prefix/lib" -lshfl -pthread -o "$room/order" || exit 1
"$cc" -std=gnu11 -O2 -Wall -Wextra -Werror "$top/tests/tool/both.c" -I "$room/prefix/include" -L "$room/prefix/lib" -lshfl -pthread -o "$room/both" || exit 1
# from the library's files, so that its calls of the proved part can be looked at
archive="${SHFL_ARCHIVE:-$top/crates/shfl_seats_c/out/libshfl_seats_c.a}"
"$cc" "${flags[@]}" "$top/tests/tool/rounds.c" "$top"/libshfl/*.c "$top/include/shfl_heap.c" "$archive" -Wl,--wrap=shfl_seat_step -pthread \
    -o "$room/rounds" || exit 1

failed=0
run() {
    LD_LIBRARY_PATH="$room/prefix/lib" timeout "$most" python3 -B "$top/tests/tool/$1.py" "${@:2}" || { echo "tests/tool.sh: $1, status $?" >&2; failed=1; }
}
run words "$room/order"
run uses "$room/busy"
run both "$room/both" "$room/prefix/lib/libshfl_preload.so"
run faults "$room/busy"
run attack "$room/busy" "$requests"
run forks "$room/busy" "$children"
run replace "$room/rounds" "$policies" 16
exit "$failed"
