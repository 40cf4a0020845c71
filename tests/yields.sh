#!/usr/bin/env bash
# That a pass gives its processor away only where it looked in vain: a pass of the lock on shared words comes through the queue on one
# thread without a vain look (the test `who_never_looks_in_vain` of table_tests), and the system is asked neither to yield nor to sleep
# meanwhile. Beside it, as a check of the counting, threads that wait for long. No part of the gate: it needs strace. The crate's tests
# are built (and proved) where they aren't yet.
set -u
top="$(cd "$(dirname "$(readlink -f "${BASH_SOURCE[0]}")")/.." && pwd)"
command -v strace >/dev/null || { echo "tests/yields.sh: strace isn't there" >&2; exit 2; }
folder="$top/crates/table_tests"
program="$folder/out/table_tests_tests"
run="$(dirname "$(readlink -f "$(command -v rt)")")/rattle-test"
if ! [ -x "$program" ] || [ -n "$(find "$top"/crates/*/src -newer "$program" -name '*.rt' -print -quit)" ]; then
    (cd "$folder" && rt test </dev/null >"$folder/out/yields.log" 2>&1) || { tail "$folder/out/yields.log" >&2; exit 1; }
fi
room="$(mktemp -d)"
trap 'rm -rf "$room"' EXIT

# how often the program of these tests, and no other that the runner starts, gives its processor away
given_away() {
    strace -f -qq -e trace=execve,sched_yield,futex,nanosleep,clock_nanosleep -o "$room/calls" \
        "$run" --seconds 60 --filter "$1" "$program" >"$room/said" 2>&1 || { cat "$room/said" >&2; exit 1; }
    awk '/execve\(/ { of[$1] = index($0, "table_tests_tests") > 0 }
        /sched_yield\(|FUTEX_WAIT|nanosleep\(/ && of[$1] { n++ } END { print n + 0 }' "$room/calls"
}
straight="$(given_away who_never_looks_in_vain)" || exit 1
long="$(given_away nobody_comes_past_the_head)" || exit 1
echo "without a vain look the processor was given away $straight times, where a pass waits $long times"
[ "$straight" -eq 0 ] && [ "$long" -gt 0 ]
